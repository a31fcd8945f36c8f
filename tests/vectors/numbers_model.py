"""Cases `t` and `p` of crates/vectors, and their answers from 01's rules alone, not from the code: what stands at the front of a text ("Number: optional sign, one or more digits, in signed 64 bits. Leading
zeros are fine", "'Blank' is space or tab; a line ending is LF or CR LF"), and numbers and texts printed into an output of 24 dots.

A run of digits is told by its value up to a cap, the first number whose size no signed 64 bits have. Each print is tried where the text ends with the output and one byte further on.
"""
import re

from lines import column, row

LEAST, GREATEST = -(2**63), 2**63 - 1
CAP = 2**63 + 1
ROOM = 24


def ending(t):
    return 1 if t[:1] == b"\n" else 2 if t[:2] == b"\r\n" else 0


def front(t):
    blanks = len(t) - len(t.lstrip(b" \t"))
    until = min([i for i in range(len(t)) if ending(t[i:])], default=len(t))
    number = re.match(rb"[+-]?[0-9]+", t)
    good = number and LEAST <= int(number.group()) <= GREATEST
    digits = re.match(rb"[0-9]*", t).group()
    return (
        f" {blanks} {ending(t)} {until}"
        + (f" {int(number.group())} {number.end()}" if good else " missing")
        + f" {min(int(digits or 0), CAP)} {len(digits)}"
    )


def put(printed, at):
    end = at + len(printed)
    if end > ROOM:
        return " full" + row(b"." * ROOM)
    return f" {end}" + row(b"." * at + printed + b"." * (ROOM - end))


def printed(number, count, t, at):
    return (
        f" {len(str(number))}" + put(str(number).encode(), at)
        + f" {len(str(count))}" + put(str(count).encode(), at)
        + put(t, at)
    )


TEXTS = [
    # numbers
    b"-9223372036854775808", b"9223372036854775807", b"9223372036854775808", b"-9223372036854775809", b"+0042x", b"+", b"-", b"",
    b"00000000000000000000000007", b"-0", b"18446744073709551616", b"- 1",
    # digits
    b"4294967296 ", b"9223372036854775810", b"99999999999999999999999999x1",
    # blanks and line endings
    b" \t x", b"\t\t", b"\n", b"\r\n", b"\r", b"\rx\n", b"ab\r\ncd", b"a\r\r\n",
]

# a number, a count and a text; each is printed where it ends with the output, and one byte further on
PRINTS = [
    (LEAST, 2**64 - 1, b"min:"), (GREATEST, 0, b""), (0, 10, b"x1"), (-1, 4294967295, b"* "), (10, 42, b">="), (4294967295, 9, b";"), (-705, 42, b"x1"),
]


def places(*texts):
    return sorted({ROOM + past - len(t) for t in texts for past in (0, 1)} | {0, 1, 3, 25})


def cases():
    found = [("t " + column(t), front(t)) for t in TEXTS]
    for number, count, t in PRINTS:
        for at in places(str(number), str(count), t):
            found.append((f"p {number} {count} {at} {column(t)}", printed(number, count, t, at)))
    return found
