# make builds the library and the command, which are proved first (tools/archive, ./opb). make install puts both, the header, the manual page and the shells' completions below PREFIX, in a folder
# DESTDIR where one is named, and builds only what is not up to date; make uninstall takes the same files away. make check runs all tests.
PREFIX = /usr/local
BINDIR = $(PREFIX)/bin
INCLUDEDIR = $(PREFIX)/include
LIBDIR = $(PREFIX)/lib
DATADIR = $(PREFIX)/share
DESTDIR =

archive = target/archive/libopb.a
command = target/cargo/release/opb
version = $(shell sed -n 's/^.define OPB_VERSION "\(.*\)"/\1/p' include/opb.h)

# where things go; the completions where each shell looks for them
bin = $(BINDIR)/opb
header = $(INCLUDEDIR)/opb.h
library = $(LIBDIR)/libopb.a
pkgconfig = $(LIBDIR)/pkgconfig/opb.pc
manual = $(DATADIR)/man/man1/opb.1
bash = $(DATADIR)/bash-completion/completions/opb
zsh = $(DATADIR)/zsh/site-functions/_opb
fish = $(DATADIR)/fish/vendor_completions.d/opb.fish
installed = $(bin) $(header) $(library) $(pkgconfig) $(manual) $(bash) $(zsh) $(fish)

# a folder as opb.pc has it: below its own prefix, where it is there
below_prefix = $(patsubst $(PREFIX)/%,$${prefix}/%,$(1))

all:
	tools/archive
	./opb --version

install: all
	install -d $(foreach file,$(installed),'$(DESTDIR)$(dir $(file))')
	install -m 755 $(command) '$(DESTDIR)$(bin)'
	install -m 644 include/opb.h '$(DESTDIR)$(header)'
	install -m 644 $(archive) '$(DESTDIR)$(library)'
	install -m 644 docs/opb.1 '$(DESTDIR)$(manual)'
	sed -e 's|@PREFIX@|$(PREFIX)|' -e 's|@INCLUDEDIR@|$(call below_prefix,$(INCLUDEDIR))|' -e 's|@LIBDIR@|$(call below_prefix,$(LIBDIR))|' -e 's|@VERSION@|$(version)|' \
	  tools/opb.pc.in >'$(DESTDIR)$(pkgconfig)'
	$(command) completions bash >'$(DESTDIR)$(bash)'
	$(command) completions zsh >'$(DESTDIR)$(zsh)'
	$(command) completions fish >'$(DESTDIR)$(fish)'
	chmod 644 $(foreach file,$(pkgconfig) $(bash) $(zsh) $(fish),'$(DESTDIR)$(file)')

uninstall:
	rm -f $(foreach file,$(installed),'$(DESTDIR)$(file)')

check:
	.ci/run

.PHONY: all install uninstall check
