"""Cases `r` of crates/vectors, and their answers by a model of 01's text rules that is written from 01 alone and knows nothing of the code. The columns of kinds, firsts, counts, bounds, weights and literals
are lent as many entries as the case says; every entry is 7 before the call.
"""
import re

from lines import column, left, refused

FILE_LIMIT = 1_073_741_823
INDEX_LIMIT = 1_073_741_823
NUMBER_LIMIT = 4_294_967_295
M = 9_223_372_036_854_775_807
LEAST, GREATEST = -(2**63), 2**63 - 1
COMMENT, AT_LEAST, AT_MOST, EQUAL, OBJECTIVE = range(5)


class Refused(Exception):
    pass


# "'Blank' is space or tab; a line ending is LF or CR LF."
BLANKS = re.compile(rb"[ \t]*")
LINE_END = re.compile(rb"\r?\n")
# "Ending: blanks, then `;` (then blanks and one line ending, if there), or a line ending, or file end."
ENDING = re.compile(rb"[ \t]*(?:;(?:[ \t]*\r?\n)?|\r?\n|\Z)")
# "Number: optional sign, one or more digits"
NUMBER = re.compile(rb"[+-]?[0-9]+")
# "Operator: `<=`, `>=`, `<`, `>`, `=`, longest first."
OPERATOR = re.compile(rb"<=|>=|<|>|=")
# "optional `~` or `-` (negation), `x`, digits"
LITERAL = re.compile(rb"([~-]?)x([0-9]+)")


class Text:
    def __init__(self, data, at, first):
        self.data, self.at, self.first = data, at, first

    def take(self, pattern, refusal=None):
        found = pattern.match(self.data, self.at)
        if found is None:
            raise Refused(refusal)
        self.at = found.end()
        return found

    # 3: "number missing, sign alone, or beyond 64 bits"
    def number(self):
        value = int(self.take(NUMBER, 3).group())
        if not LEAST <= value <= GREATEST:
            raise Refused(3)
        return value

    # "Term: number, one or more blanks, optional `~` or `-` (negation), `x`, digits, blanks."
    def term(self):
        weight = self.number()
        if not self.take(BLANKS).group():
            raise Refused(4)
        found = self.take(LITERAL, 4)
        number = int(found.group(2))
        index = number - self.first
        # 5: "file number beyond u32, below the first index, or index above its limit"
        if number > NUMBER_LIMIT or index < 0 or index > INDEX_LIMIT:
            raise Refused(5)
        self.take(BLANKS)
        return weight, 2 * index + (1 if found.group(1) else 0)

    # "A digit or sign after a term begins another."
    def terms(self):
        found = []
        while self.at < len(self.data) and self.data[self.at] in b"0123456789+-":
            found.append(self.term())
        return found

    def objective(self):
        self.at += len(b"min:")
        self.take(BLANKS)
        terms = self.terms()
        self.take(ENDING, 7)
        return sized(OBJECTIVE, terms, 0)

    # "constraint: one or more terms, operator, blanks, number, ending"
    def constraint(self):
        terms = self.terms()
        operator = self.take(OPERATOR, 6).group()
        self.take(BLANKS)
        bound = self.number()
        self.take(ENDING, 7)
        # "`> b` is at least b+1, `< b` is at most b-1."
        kind, move = {b"<=": (AT_MOST, 0), b">=": (AT_LEAST, 0), b"<": (AT_MOST, -1), b">": (AT_LEAST, 1), b"=": (EQUAL, 0)}[operator]
        return sized(kind, terms, bound + move)

    # "the offset and length, in the file, of the part after `*` and after one space directly behind it, if there, up to the line ending or file end"
    def comment(self):
        end = LINE_END.search(self.data, self.at)
        stop, behind = (end.start(), end.end()) if end else (len(self.data), len(self.data))
        begin = self.at + 1
        if self.data[begin:begin + 1] == b" ":
            begin += 1
        self.at = behind
        return COMMENT, begin, stop - begin, 0, []


# 8: "absolute weights above M, or a result beyond signed 64 bits"
def sized(kind, terms, bound):
    if sum(abs(w) for w, _ in terms) > M or not LEAST <= bound <= GREATEST:
        raise Refused(8)
    return kind, None, len(terms), bound, terms


def statement(text):
    here = text.data[text.at:]
    if here[:1] == b"*":
        return text.comment()
    if here[:4] == b"min:":
        return text.objective()
    if here[:1] and here[:1] in b"0123456789+-":
        return text.constraint()
    raise Refused(2)


# (number, place), or the rows
def read(data, first):
    if len(data) > FILE_LIMIT:
        return 1, 0
    text, rows = Text(data, 0, first), []
    while True:
        text.take(BLANKS)
        begun = text.at
        if begun == len(data):
            return rows
        try:
            rows.append(statement(text))
        except Refused as refusal:
            return refusal.args[0], begun


def answer(sizes, first, data):
    columns = [[7] * size for size in sizes]
    found = read(data, first)
    if isinstance(found, tuple):
        return found, columns
    terms = [t for row in found for t in row[4]]
    if len(found) > min(sizes[:4]):
        return (9, len(found)), columns
    if len(terms) > min(sizes[4:]):
        return (10, len(terms)), columns
    before = 0
    for i, (kind, begin, count, bound, own) in enumerate(found):
        columns[0][i], columns[1][i], columns[2][i], columns[3][i] = kind, before if begin is None else begin, count, bound
        before += len(own)
    for i, (weight, code) in enumerate(terms):
        columns[4][i], columns[5][i] = weight, code
    return [len(found), len(terms)], columns


def room(rows, terms):
    return [rows] * 4 + [terms] * 2


ONE = room(1, 1)
MOST = b"9223372036854775807"
BEYOND = b"9223372036854775808"

CASES = [
    # 01's reading examples that are not proved
    (ONE, 1, b"1x1 >= 1;"),
    (ONE, 1, b"1 x1073741824 >= 1;"),
    (ONE, 1, b"1 x1073741825 >= 1;"),
    (room(2, 3), 1, b"3 x1 -2 x2 >= -1;"),
    (room(4, 4), 1, b"* budget\n3 x1 -2 ~x2 >= 1;\nmin: 4 x3;\n1 x1 < 1\n"),
    # the normal end
    (room(0, 0), 1, b""),
    (room(0, 0), 1, b" \t \t"),
    (ONE, 1, b"1 x1 >= 1; \t"),
    # endings: `;`, line endings, none; more than one statement to a line
    (ONE, 1, b"1 x1 >= 1;\r\n"),
    (ONE, 1, b"1 x1 >= 1\r\n"),
    (ONE, 1, b"1 x1 >= 1\n"),
    (room(2, 2), 1, b"1 x1 >= 1 \t;\t \n\t1 x2 >= 1"),
    (room(3, 4), 1, b"1 x1>=1;-1 ~x2<=+3; 2 -x3 4 x4=0"),
    (room(3, 3), 1, b"1 x1 > 1;1 x1 < 1;1 x1 = 1;"),
    (room(2, 2), 1, b"1 x1 >= 1;1 x2 >= 1;"),
    (room(2, 1), 1, b"1 x1 >= 1; * behind\n"),
    (ONE, 1, b"\t1\t\tx1\t>=\t1\t;\t"),
    # objectives
    (room(1, 0), 1, b"min:;"),
    (room(1, 0), 1, b"min:"),
    (room(1, 0), 1, b"min: \t\r\n"),
    (room(1, 2), 1, b"min: 4 ~x1 0 x3;"),
    (room(2, 2), 1, b"min:-1 x2 ;min:+1 -x2"),
    # comments
    (room(1, 0), 1, b"*"),
    (room(1, 0), 1, b"* "),
    (room(1, 0), 1, b"*\n"),
    (room(1, 0), 1, b"* a"),
    (room(1, 0), 1, b"*  a\t"),
    (room(2, 0), 1, b"* a\r\n*b"),
    (room(1, 0), 1, b"* a\rb\xff\x00\x80"),
    (room(1, 0), 1, b"* a\r"),
    (room(3, 1), 1, b" * one\n1 x1 >= 1;\n\t*two"),
    # zeros, both ends of 64 bits
    (ONE, 1, b"0000000000000000000000000 x0000000000000000000000000000001 >= -0000000000000000000000000;"),
    (ONE, 1, b"00000000000000000000000001 x1 >= +00000000000000000000000002;"),
    (ONE, 1, MOST + b" x1 >= " + MOST + b";"),
    (ONE, 1, b"-" + MOST + b" x1 >= -" + BEYOND + b";"),
    (ONE, 1, b"1 x1 >= " + BEYOND + b";"),
    (ONE, 1, b"1 x1 >= -9223372036854775809;"),
    (ONE, 1, BEYOND + b" x1 >= 1;"),
    (ONE, 1, b"99999999999999999999999999999999 x1 >= 1;"),
    (ONE, 1, b"-" + BEYOND + b" x1 >= 1;"),
    # 8: M, and one more; `<` and `>` at the ends
    (room(1, 2), 1, b"9223372036854775806 x1 1 x2 >= 0;"),
    (room(1, 2), 1, b"-4611686018427387904 x1 4611686018427387903 x2 >= 0;"),
    (room(1, 2), 1, b"9223372036854775806 x1 2 x2 >= 0;"),
    (room(1, 2), 1, b"min: " + MOST + b" x1 -1 x2;"),
    (room(2, 3), 1, b"1 x1 >= 1;\n  " + MOST + b" x1 1 x2 >= 0;"),
    (ONE, 1, b"1 x1 > " + MOST + b";"),
    (ONE, 1, b"1 x1 > 9223372036854775806;"),
    (ONE, 1, b"1 x1 < -" + BEYOND + b";"),
    (ONE, 1, b"1 x1 < -" + MOST + b";"),
    (room(1, 2), 1, MOST + b" x1 1 x2 >= 0 1"),
    # variables, first indexes
    (ONE, 0, b"1 x0 >= 1;"),
    (ONE, 1, b"1 x0 >= 1;"),
    (ONE, 1, b"1 ~x1 >= 1;"),
    (ONE, 0, b"1 x1073741823 >= 1;"),
    (ONE, 0, b"1 x1073741824 >= 1;"),
    (ONE, 4294967295, b"1 -x4294967295 >= 1;"),
    (ONE, 4294967295, b"1 x4294967294 >= 1;"),
    (ONE, 3221225472, b"1 ~x4294967295 >= 1;"),
    (ONE, 3221225472, b"1 x4294967296 >= 1;"),
    (ONE, 0, b"1 x18446744073709551616 >= 1;"),
    (room(2, 2), 5, b"1 x5 >= 1;\n\n"),
    (room(2, 2), 5, b"1 x5 >= 1;\n 1 x4 >= 1;\n"),
    # 2
    (ONE, 1, b"\n"),
    (ONE, 1, b"1 x1 >= 1;\n\n1 x2 >= 1;"),
    (ONE, 1, b">= 1;"),
    (ONE, 1, b"  x1 >= 1;"),
    (ONE, 1, b"max: 1 x1;"),
    (ONE, 1, b"min 1 x1;"),
    (ONE, 1, b"mi"),
    (ONE, 1, b";"),
    (ONE, 1, b"1 x1 >= 1;;"),
    (ONE, 1, b"\x00"),
    (ONE, 1, b"1 x1 >= 1;\n\xc3\xa9"),
    (ONE, 1, b"\r"),
    (ONE, 1, b"1 x1 >= 1;\r1 x2 >= 1;"),
    # 3
    (ONE, 1, b"+ 3 x1 >= 1;"),
    (ONE, 1, b"--3 x1 >= 1;"),
    (ONE, 1, b"1 x1 >= ;"),
    (ONE, 1, b"1 x1 >= x1;"),
    (ONE, 1, b"\t1 x1 -"),
    # 4
    (ONE, 1, b"1 y1 >= 1;"),
    (ONE, 1, b"1 ~~x1 >= 1;"),
    (ONE, 1, b"1 x >= 1;"),
    (ONE, 1, b"1 x1 2 >= 1;"),
    (ONE, 1, b"min: 1"),
    (ONE, 1, b"1 x-1 >= 1;"),
    # 6
    (ONE, 1, b"1 x1;"),
    (ONE, 1, b"1 x1"),
    (ONE, 1, b"1 x1 \xa0>= 1;"),
    (ONE, 1, b"1 x1 ! 1;"),
    (ONE, 1, b"* a\n1 x1 * x2 >= 1;"),
    # 7
    (ONE, 1, b"1 x1 >= 1 x2;"),
    (ONE, 1, b"1 x1 >= 1\r"),
    (ONE, 1, b"1 x1 => 1;"),
    (ONE, 1, b"1 x1 == 1;"),
    (ONE, 1, b"  min: 1 x1 >= 2;"),
    (ONE, 1, b"1 x1 >= 1\x00"),
    # the order of refusals: the first that the text meets, and the text before the room
    (room(0, 0), 1, b"1 x1 >= 1;\n1 x0 >= 1;"),
    (ONE, 1, b"99999999999999999999 x0 >= 1;"),
    (ONE, 1, b"1 x0 1 y1"),
    # 9 and 10, unequal and empty columns
    (room(0, 9), 1, b"* a"),
    (room(1, 9), 1, b"* a\n* b\n* c"),
    ([3, 2, 3, 3, 9, 9], 1, b"min:;min:;min:;"),
    ([3, 3, 3, 3, 9, 9], 1, b"min:;min:;min:;"),
    ([3, 3, 2, 3, 9, 9], 1, b"min:;min:;min:;"),
    ([3, 3, 3, 2, 9, 9], 1, b"min:;min:;min:;"),
    ([2, 3, 3, 3, 0, 0], 1, b"1 x1 >= 1;1 x2 >= 1;1 x3 >= 1;"),
    ([2, 3, 4, 5, 2, 1], 1, b"1 x1 >= 1;1 x2 >= 1;"),
    ([2, 3, 4, 5, 1, 2], 1, b"1 x1 >= 1;1 x2 >= 1;"),
    ([2, 3, 4, 5, 2, 3], 1, b"1 x1 >= 1;1 x2 >= 1;"),
    (room(1, 0), 1, b"min: 1 x1 1 x1 1 x1;"),
    (room(3, 3), 1, b"* a\n5 x3 -6 ~x3 = -7;"),
]


# A term that files have most is a `-` or none, some digits, one space, `x` or `~x`, some digits, one space. Around it: each length of either number, each sign and negation, other blanks, bytes that differ from a digit in
# one bit, every place of a first index, with much text behind it and with none.
def terms_of_every_form():
    much = b">= 1; * so much is behind the term"
    for count in range(1, 11):
        for sign in (b"", b"-", b"+"):
            yield 1, sign + b"9876543210"[:count] + b" x1 " + much
        for mark in (b"x", b"~x", b"-x"):
            yield 1, b"1 " + mark + b"1023456789"[:count] + b" " + much
    for first in (0, 1, 2, 7):
        for number in (b"0", b"000", b"1", b"0001", b"2", b"6", b"7"):
            yield first, b"-12 ~x" + number + b" 3 x8 " + much
    for gap in (b"  ", b"\t", b" \t", b""):
        yield 1, b"12" + gap + b"x34 5 x6 " + much
        yield 1, b"12 x34" + gap + b"5 x6 " + much
        yield 1, b"12 x34" + gap + much
    for byte in b"/:;.\x00\x10\x20\x70\xb0\xb9\xff\r\n":
        yield 1, b"1" + bytes([byte]) + b"3 x1 " + much
        yield 1, b"-" + bytes([byte]) + b"3 x1 " + much
        yield 1, b"12 x4" + bytes([byte]) + b"6 " + much
        yield 1, b"12 ~x" + bytes([byte]) + b"6 " + much
        yield 1, b"12" + bytes([byte]) + b"x6 " + much
        yield 1, b"12 x6" + bytes([byte]) + much
    for behind in range(0, 25):
        yield 1, b"-2608 x1401 -783 ~x5187 >= -1;" + b" " * behind
    for text in (b"- x1 ", b"-1 ~x ", b"-1 x ", b"1 ~1 ", b"1 ~~x1 ", b"1 xx1 ", b"1 x~1 ", b"1 1 ", b"--1 x1 ", b"12345678"):
        yield 1, text + much


CASES += [(room(2, 3), first, data) for first, data in terms_of_every_form()]


def said(found, columns):
    return (" table %d %d" % tuple(found) if isinstance(found, list) else refused(*found)) + left(*columns)


def cases():
    return [(f"r {column(sizes)} {first} {column(data)}", said(*answer(sizes, first, data))) for sizes, first, data in CASES]
