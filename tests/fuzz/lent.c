/* Memory that is lent to the library: every piece lies directly against a page that no access is allowed to, and a copy beside it tells whether a call changed it. */
#include <stdio.h>
#include <stdlib.h>
#include <string.h>
#include <sys/mman.h>
#include "fuzz.h"

/* no processor's pages are longer */
enum { PAGE = 1 << 16 };

/* between two forbidden pages TEXT bytes, of which `size` from `at` on are lent */
static struct {
    uint8_t *pages, *at;
    size_t size;
    uint8_t before[TEXT];
} pieces[PIECES];

static int behind = 1;
static uint8_t *untouchable;

static uint8_t *forbidden(size_t size) {
    void *pages = mmap(NULL, size, PROT_NONE, MAP_PRIVATE | MAP_ANONYMOUS | MAP_NORESERVE, -1, 0);
    if (pages == MAP_FAILED) {
        perror("mmap");
        exit(2);
    }
    return pages;
}

void make_pieces(void) {
    for (int i = 0; i < PIECES; i++) {
        pieces[i].pages = forbidden(TEXT + 2 * PAGE) + PAGE;
        if (mprotect(pieces[i].pages, TEXT, PROT_READ | PROT_WRITE)) exit(2);
    }
    untouchable = forbidden((size_t)OPB_FILE_LIMIT + PAGE);
}

void lend_against(int page_behind) {
    behind = page_behind;
}

void *lend(int piece, const void *content, size_t size) {
    if (size > TEXT) exit(2);
    pieces[piece].at = pieces[piece].pages + (behind ? TEXT - size : 0);
    pieces[piece].size = size;
    if (size == 0 && !behind) return NULL;
    if (content && size) memcpy(pieces[piece].at, content, size);
    if (!content) memset(pieces[piece].at, 0xA5, size);
    memcpy(pieces[piece].before, pieces[piece].at, size);
    return pieces[piece].at;
}

int as_lent(int piece, size_t offset) {
    return pieces[piece].size <= offset || memcmp(pieces[piece].at + offset, pieces[piece].before + offset, pieces[piece].size - offset) == 0;
}

const uint8_t *lend_untouchable(size_t size) {
    return size <= (size_t)OPB_FILE_LIMIT + PAGE ? untouchable : NULL;
}
