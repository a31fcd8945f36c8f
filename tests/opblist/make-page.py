#!/usr/bin/env python3
"""Writes the page of files and house lines that run-ci holds the listing programs to, by the model of tests/vectors/reader_model.py, which is written from 01 alone.

  make-page.py > page
  make-page.py FILE > hall.lines     the lines of a file alone

A line of the page is a file, a tab and what is printed for it, with bytes as \\n, \\r, \\t or \\xHH.
"""
import os
import sys

sys.path.insert(0, os.path.join(os.path.dirname(os.path.abspath(__file__)), "..", "vectors"))
from reader_model import CASES, COMMENT, read

WORDS = "c", "ge", "le", "eq", "min"

# beside the reader's cases: texts that only a whole plan has
MORE = [
    b"* budget\n3 x1 -2 ~x2 >= 1;\nmin: 4 x3;\n1 x1 < 1\n",
    b"* #variable= 3 #constraint= 2\nmin: -3 x1 +2 x2 -1 x3;\n-820 x1 -1240 x2 -960 x3 >= -2400;\n+1 x1 +1 x2 = 1;\n",
    b"1 x4294967295 >= 0;",
    b"1 x1073741824 1 ~x1073741824 <= 1;",
    b"-9223372036854775807 x1 >= -9223372036854775808;\n",
    b"* a plan | with bars and a \\ in it\n1 x1 >= 1;\n",
    b"* one\r\n* two\r\n\r\n* three\r\n",
]


# "A refusal prints `refused|number|place` alone."
def listing(data, first=1):
    found = read(data, first)
    if isinstance(found, tuple):
        return "refused\t%d\t%d\n" % found
    lines = ["opb\t%d\t%d\t%d" % (len(found), sum(len(row[4]) for row in found), first)]
    for kind, _, count, bound, terms in found:
        fields = [count] if kind == COMMENT else [bound]
        for weight, code in terms:
            fields += [weight, "%sx%d" % ("~" if code % 2 else "", code // 2 + first)]
        lines.append("\t".join(map(str, [WORDS[kind]] + fields)))
    return "\n".join(lines) + "\n"


def escaped(data):
    short = {10: "\\n", 13: "\\r", 9: "\\t", 92: "\\x5c"}
    return "".join(short.get(b) or (chr(b) if 32 <= b < 127 else "\\x%02x" % b) for b in data)


def page():
    seen = set()
    for data in [data for _, _, data in CASES] + MORE:
        if data not in seen:
            seen.add(data)
            yield escaped(data) + "\t" + escaped(listing(data).encode()) + "\n"


if len(sys.argv) > 1:
    with open(sys.argv[1], "rb") as file:
        sys.stdout.write(listing(file.read()))
else:
    sys.stdout.writelines(page())
