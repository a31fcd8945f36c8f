#!/usr/bin/env python3
"""What crates/walker_run must write: files walked "by a reader that holds the file's bytes and hands out one statement per call, with the same answers" (01), by the model of 01's text rules of
reader_model.py, which knows nothing of the code.

  tests/vectors/walker_stdout.py > crates/walker_run/stdout
"""
from reader_model import BLANKS, Refused, Text, statement

FIRST = 1
ROOM = 2
FILES = [
    b"* budget\nmin: 3 x1 -2 ~x2 ;\n+1 x1 +1 x2 >= 1 ;\n",
    b"2 x3 < 5;\n 1 x0 >= 1;\n",
    b"1 x1 1 x2 1 x3 = -2;\n1 x1 >= 1",
    b" \t",
]


# "Each reading step takes the rest of the file from where the last one stopped": what is said of the statement there, its terms or its refusal, and where the next step is taken.
def step(data, at):
    text = Text(data, at, FIRST)
    text.take(BLANKS)
    begun = text.at
    if begun == len(data):
        return "end", [], at
    try:
        kind, begin, count, bound, terms = statement(text)
    except Refused as refusal:
        said = "refused %d at %d" % (refusal.args[0], begun)
        return said, said, at
    return "kind %d first %d count %d bound %d next %d" % (kind, begin or 0, count, bound, text.at), terms, text.at


# The statement's terms, into two columns whose entries are 7; or its refusal, or 10, "terms do not fit", with the "count needed" (01), and then nothing is written.
def filled(data, at):
    terms = step(data, at)[1]
    columns = [[7] * ROOM, [7] * ROOM]
    if isinstance(terms, str):
        said = terms
    elif len(terms) > ROOM:
        said = "refused 10 at %d" % len(terms)
    else:
        said = "terms %d" % len(terms)
        for i, term in enumerate(terms):
            columns[0][i], columns[1][i] = term
    return said + "".join(" %d" % v for column in columns for v in column)


for data in FILES:
    first, _, at = step(data, 0)
    second, _, at = step(data, at)
    print(first, second, "stands at %d" % at, sep="\n")
    for place in (0, at, len(data)):
        print(step(data, place)[0], filled(data, place), sep="\n")
