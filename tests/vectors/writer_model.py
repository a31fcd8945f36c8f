"""Cases `w` of crates/vectors, and their answers from 01's rules ("The lines written", "What each number says") and the Rust's format strings, not from the code. The output is dots before the call, three
more than the lines need where the case does not say how many.
"""
from lines import column, refused, row as left_in, table

M = 9223372036854775807
LEAST = -9223372036854775808
FAR = 18446744073709551615
COMMENT, AT_LEAST, AT_MOST, EQUAL, OBJECTIVE, CLAUSE = range(6)
CARDINALITY = {6: AT_LEAST, 7: AT_MOST, 8: EQUAL}
found = []


class Refused(Exception):
    pass


def in_64(z):
    return LEAST <= z <= M


def line(kind, first_term, count, bound, weights, literals, text, first, plain):
    """The bytes of one row; Refused with 01's number."""
    if kind == COMMENT:
        if first_term + count > len(text):
            raise Refused(11)
        part = text[first_term : first_term + count]
        if b"\n" in part:
            raise Refused(15)
        return b"* " + part + b"\n"  # writeln!(writer, "* {c}")
    if kind > 8 or first_term + count > min(len(weights), len(literals)):
        raise Refused(11)
    codes = literals[first_term : first_term + count]
    if any(c // 2 > 1073741823 for c in codes):
        raise Refused(11)
    if kind == CLAUSE or kind in CARDINALITY:
        sizes = [1] * count
        if kind in CARDINALITY and bound < 0:
            raise Refused(11)
        bound = 1 if kind == CLAUSE else bound
        kind = CARDINALITY.get(kind, AT_LEAST)
    else:
        sizes = weights[first_term : first_term + count]
        if any(w < 0 for w in sizes):
            raise Refused(11)
    if count == 0 and kind != OBJECTIVE:
        raise Refused(13)
    if any(c // 2 + first > 4294967295 for c in codes):
        raise Refused(5)
    if sum(sizes) > M:
        raise Refused(8)
    terms = [(w, c // 2 + first, c % 2 == 1) for w, c in zip(sizes, codes)]
    if kind == AT_MOST:
        terms = [(w, n, not negated) for w, n, negated in terms]
        bound = sum(sizes) - bound
    if not in_64(bound):
        raise Refused(8)
    if plain:
        fall = sum(w for w, n, negated in terms if negated)
        bound = bound + fall if kind == OBJECTIVE else bound - fall
        terms = [(-w if negated else w, n, False) for w, n, negated in terms]
    if not in_64(bound):
        raise Refused(8)
    words = ["%d %sx%d" % (w, "~" if negated else "", n) for w, n, negated in terms]
    if kind == OBJECTIVE:  # "min:", " {w} x{}", ";", "* objective offset for previous objective: {offset}"
        s = "min:" + "".join(" " + w for w in words) + ";\n"
        if bound != 0:
            s += "* objective offset for previous objective: %d\n" % bound
    else:  # "{} x{} ", "{op} {bound};"
        s = "".join(w + " " for w in words) + "%s %d;\n" % ("=" if kind == EQUAL else ">=", bound)
    return s.encode()


def run(name, first, plain, room, kinds, firsts, counts, bounds, weights, literals, text):
    """a table; the name says what the case is"""
    out, refusal = b"", None
    for i, (k, f, n, b) in enumerate(zip(kinds, firsts, counts, bounds)):
        try:
            out += line(k, f, n, b, weights, literals, text, first, plain)
        except Refused as r:
            refusal = (r.args[0], i)
            break
    if room is None:
        room = len(out) + (40 if refusal else 3)
    if refusal is None and len(out) > room:
        refusal = (14, len(out))
    said = refused(*refusal) if refusal else f" wrote {len(out)}"
    written = b"" if refusal else out
    case = f"w {table(kinds, firsts, counts, bounds, weights, literals)} {first} {int(plain)} {room} {column(text)}"
    found.append((case, said + left_in(written + b"." * (room - len(written)))))


def row_from(name, first, plain, kind, bound, weights, literals):
    run(name, first, plain, None, [kind], [0], [len(literals)], [bound], weights, literals, b"")


def row(name, kind, bound, weights, literals):
    row_from(name, 1, True, kind, bound, weights, literals)
    row_from(name, 1, False, kind, bound, weights, literals)


def comment(name, first, count, text):
    run(name, 1, True, None, [0], [first], [count], [7], [], [], text)


def whole(name, plain, room):
    run(name, 1, plain, room, [0, 4, 4, 2], [0, 0, 2, 1], [3, 2, 3, 4], [0, 0, 9, 6], [4, 1, 0, 20, 3], [1, 4, 7, 8, 11], b"two objectives")


def third(name, kind):
    run(name, 1, False, 40, [1, 5, kind, 9], [0, 0, 0, 0], [1, 1, 2, 1], [1, 1, -1, 0], [1, M], [0, 2], b"a\nb")


def uneven(name, counts):
    run(name, 1, True, 40, [5, 1, 9], [0, 1], counts, [0, 1, 0, 0], [1, 1, 1, 1], [0, 3], b"")


def cases():
    row("P10", 2, 4, [3, 2], [0, 2])
    row("P11", 5, 1, [1, 1], [0, 3])
    row("P12", 4, 0, [4, 1], [1, 4])

    row("at least", 1, 5, [3, 2, 7], [0, 3, 21])
    row("at most", 2, 5, [3, 2, 7], [0, 3, 21])
    row("equal", 3, 5, [3, 2, 7], [0, 3, 21])
    row("objective", 4, -5, [3, 2, 7], [0, 3, 21])
    row("a variable twice", 1, 1, [1, 2, 3], [6, 7, 6])

    row("clause, its columns not looked at", 5, LEAST, [-7, LEAST], [0, 3])
    row("cardinality at least", 6, 1, [-1, 9], [0, 3])
    row("cardinality at most", 7, 1, [-1, 9], [0, 3])
    row("cardinality equal", 8, 2, [-1, 9], [0, 3])
    row("cardinality at most M", 7, M, [0], [1])

    row("weights 0 at least 0", 1, 0, [0, 0], [0, 1])
    row("weights 0 at most 0", 2, 0, [0, 0], [0, 1])
    row("objective of weight 0", 4, 0, [0], [1])

    row("at least the least", 1, LEAST, [1], [0])
    row("at least the least, falling", 1, LEAST, [1], [1])
    row("equal the greatest", 3, M, [M], [1])
    row("at most M, M on a literal", 2, M, [M], [0])
    row("at most -M", 2, -M, [0], [0])
    row("at most -M, the sum 1", 2, -M, [1], [0])
    row("at most the least", 2, LEAST, [0], [0])
    row("at most M, falling", 2, M, [1, 1], [0, 0])
    row("at most M, falling beyond", 2, M, [1, 2], [0, 0])

    row("the greatest offset", 4, M, [1], [0])
    row("the greatest offset, growing", 4, M, [1], [1])
    row("an offset that grows to 0", 4, -4, [4], [1])
    row("no terms, no offset", 4, 0, [], [])
    row("no terms, the least offset", 4, LEAST, [], [])

    row("weights M", 1, 0, [M, 0], [0, 3])
    row("weights above M", 1, 0, [M, 1], [0, 2])
    row("weights far above M", 4, 0, [M, M, M], [0, 2, 4])
    row("a negative weight", 3, 0, [1, -1], [0, 2])

    row_from("file number 4294967295", 4294967295, True, 5, 0, [0], [1])
    row_from("file number 4294967296", 4294967295, False, 5, 0, [0], [2])
    row_from("index 1073741823 from 3221225472", 3221225472, False, 1, 0, [5], [2147483647])
    row_from("index 1073741823 from 3221225473", 3221225473, False, 1, 0, [5], [2147483646])
    row_from("index 1073741824", 0, False, 1, 0, [5], [2147483648])
    row_from("code 4294967295", 0, True, 6, 0, [5], [4294967295])
    row_from("first index 0", 0, True, 1, 0, [5, 6], [0, 3])

    row("unknown kind 9", 9, 0, [1], [0])
    row("unknown kind 255", 255, 0, [1], [0])
    row("a negative cardinality bound", 6, -1, [1], [0])
    row("no terms", 1, 0, [], [])
    row("clause without terms", 5, 0, [], [])
    row("fewer weights than literals", 5, 0, [1], [0, 2])
    row("fewer weights than literals, no terms", 7, -1, [], [0, 2])

    row_from("11 before 5", 4294967295, True, 1, 0, [1, -1], [2, 0])
    row_from("11 of an index before 5", 4294967295, True, 8, 0, [1, 1], [2, 4294967295])
    row_from("5 before 8", 4294967295, True, 1, 0, [M, M], [2, 0])
    row_from("8 of the bound before the fall", 1, True, 2, -2, [M, 0], [0, 2])
    row_from("8 of the bound after the fall", 1, True, 1, LEAST, [M], [1])

    comment("a comment", 2, 6, b"* budget")
    comment("a comment of no bytes", 8, 0, b"* budget")
    comment("a comment with CR", 0, 4, b"a\rb\r")
    comment("a comment with bytes above 127", 0, 3, b"\x80\xff\xc3")
    comment("a comment with LF", 0, 3, b"a\nb")
    comment("a comment behind LF", 2, 1, b"a\nb")
    comment("a comment outside its text", 2, 7, b"* budget")
    comment("a comment behind its text", 9, 0, b"* budget")
    comment("a comment beyond 64 bits", FAR, FAR, b"* budget")

    whole("a whole table", True, None)
    whole("a whole table", False, None)
    whole("exactly full", True, 167)
    whole("one byte short", True, 166)
    whole("no room", False, 0)

    third("8 of row 2", 1)
    third("11 of row 2", 6)
    third("15 of row 2", 0)
    uneven("unequal columns", [1, 1, 1])
    uneven("unequal columns, terms outside", [1, 2, 1])
    uneven("no rows", [])
    return found
