#!/usr/bin/env python3
"""Holds the manual page to what the command says of itself: page.py PAGE COMMAND.

- The page has a synopsis and a part for each command, and no others.
- A command's options are those of its synopsis and the common ones; each with the same letter and the same word for its value.
- Every option of the page is described once where it belongs: in its command's part, or among the common ones.

Its last line is 'N passed, M failed'.
"""
import re
import subprocess
import sys

OPTION = re.compile(r"(?:(-\w), )?(--[a-z-]+)(?:[ =]<?([A-Z]+)>?)?")
# of the command, not told by its help
HIDDEN = {"completions"}
# of the top alone
TOP = "--version"
results = []


def check(good, complaint):
    results.append(bool(good))
    if not good:
        print("FAILED:", complaint)


def help_of(command, *words):
    return subprocess.run([command, "help", *words], capture_output=True, text=True, check=True).stdout


def options_of_help(text):
    """the options at the beginning of help's lines: letter, word and value of each"""
    lines = (OPTION.match(line.strip()) for line in text.split("\n") if re.match(r" +-", line))
    return {match.groups() for match in lines if match}


def commands_of_help(text):
    part = text.split("\nCommands:\n")[1].split("\nOptions:\n")[0]
    return set(re.findall(r"^  (\w+)", part, re.M))


def plain(line):
    """a line of the page as it is read: no fonts, no macros, no quotes that part words of two fonts"""
    line = re.sub(r"\\f[BIR]", "", line).replace("\\-", "-")
    if line.startswith(".B "):
        return line[3:]
    if line.startswith(".BR "):
        return re.sub(r' "([^"]*)" |(?<! ) ', lambda match: match.group(1) or "", line[4:])
    return line


def parts_of(page):
    """the options that are described in each part of the page"""
    parts, part, lines = {}, None, page.split("\n")
    for line, before in zip(lines, [""] + lines):
        heading = re.match(r"\.S[HS] (.*)", line)
        if heading:
            part = heading.group(1)
            parts[part] = []
        elif before == ".TP" and plain(line).startswith("-"):
            parts[part].append(OPTION.fullmatch(plain(line)).groups())
    return parts


def synopses_of(page):
    """the options in the synopsis of each command, by letter or word"""
    text = page.split(".SH SYNOPSIS\n")[1].split(".SH")[0]
    lines = (plain(line).split(" ", 2) for line in text.split("\n") if "opb" in line)
    return {words[1]: set(re.findall(r"(?<![\w-])--?[a-z-]+", words[2])) for words in lines}


def on_command(name, told, parts, synopsis):
    """one command: what help tells, what its part and the common part describe, and what its synopsis has"""
    common = {option for option in parts["OPTIONS"] if option[1] != TOP}
    shared = {option for option in common if option[0] in synopsis or option[1] in synopsis}
    everywhere = {option for option in common if option[1] in ("--first", "--quiet", "--help")}
    own = set(parts.get(name, []))
    check(told == own | shared | everywhere, f"{name}: help has {sorted(map(str, told))}, the page {sorted(map(str, own | shared | everywhere))}")
    named = {option[0] if option[0] in synopsis else option[1] for option in own | shared}
    check(named == synopsis, f"{name}: the synopsis has {sorted(synopsis)}, described are {sorted(named)}")


def main(path, command):
    with open(path, encoding="utf-8") as file:
        page = file.read()
    parts, synopses = parts_of(page), synopses_of(page)
    top = help_of(command)
    names = commands_of_help(top) | HIDDEN
    check(names == set(synopses), f"help has {sorted(names)}, the synopsis {sorted(synopses)}")
    check(names <= set(parts), f"no part of the page for {sorted(names - set(parts))}")
    shared = {option for name in names - {"help"} for option in options_of_help(help_of(command, name))}
    described = [option for options in parts.values() for option in options]
    check(set(described) == shared | options_of_help(top), f"described and told by no help, or the other way: {sorted(map(str, set(described) ^ (shared | options_of_help(top))))}")
    for name in sorted(names - {"help"}):
        on_command(name, options_of_help(help_of(command, name)), parts, synopses.get(name, set()))
    statuses = set(re.findall(r"^\.B (\d)$", page.split(".SH EXIT STATUS")[1].split(".SH")[0], re.M))
    check(statuses == set(re.findall(r"\b(\d)\s+[a-z]", top.split("Exit status:")[1])), f"the exit statuses {sorted(statuses)}")


main(*sys.argv[1:])
print(f"{sum(results)} passed, {len(results) - sum(results)} failed")
sys.exit(not all(results))
