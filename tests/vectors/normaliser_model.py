"""Cases `n` of crates/vectors, and their answers from 01's rules alone ("Numbers and tables", "Normalising and evaluating", "What each number says"), not from the code. The output columns are of unequal
length, with room for three rows and four terms, and every entry is 9 before the call.
"""
from lines import left, refused, table

M = 9_223_372_036_854_775_807
LEAST = -9_223_372_036_854_775_808
FAR = 18_446_744_073_709_551_615
INDEX_LIMIT = 1_073_741_823
COMMENT, AT_LEAST, AT_MOST, EQUAL, OBJECTIVE = range(5)

# the output columns: their lengths, where the case does not say another, and the mark that an entry bears before the call
LENGTHS = {"kinds": 4, "firsts": 4, "counts": 3, "bounds": 4, "weights": 4, "literals": 5}
MARK = 9
found = []


class Refused(Exception):
    """a number and its place"""


def normal_row(i, kind, first, count, bound, terms):
    """the row's kind, first if it is a comment, count, bound and terms, or a refusal with the row's number"""
    if kind == COMMENT:  # "comment rows are copied as they are"
        return kind, first, count, bound, []
    # 11: "kind unknown (normaliser and evaluator know the read kinds ...), terms outside their column, an index above its limit"
    if kind not in (AT_LEAST, AT_MOST, EQUAL, OBJECTIVE) or first + count > len(terms):
        raise Refused(11, i)
    mine = terms[first:first + count]
    if any(code // 2 > INDEX_LIMIT for _, code in mine):
        raise Refused(11, i)
    # 8: "absolute weights above M, or a result beyond signed 64 bits"
    if sum(abs(w) for w, _ in mine) > M:
        raise Refused(8, i)
    # "each negative weight w on literal l into -w on the opposite literal; a bound grows by -w, an objective's offset falls by -w"
    done = []
    for w, code in mine:
        if w < 0:
            done.append((-w, code + 1 if code % 2 == 0 else code - 1))
            bound += w if kind == OBJECTIVE else -w
        else:
            done.append((w, code))
    if not LEAST <= bound <= M:
        raise Refused(8, i)
    return kind, None, count, bound, done


def normalise(given, room_rows, room_terms):
    """the normal rows: "Row by row 11, 8; then 9, 10." """
    kinds, firsts, counts, bounds, weights, literals = given
    terms = list(zip(weights, literals))  # "Columns of unequal length have the room of the shortest."
    rows = [normal_row(i, *entry, terms) for i, entry in enumerate(zip(kinds, firsts, counts, bounds))]
    if len(rows) > room_rows:
        raise Refused(9, len(rows))
    needed = sum(len(r[4]) for r in rows)
    if needed > room_terms:
        raise Refused(10, min(needed, FAR))
    return rows


def columns(rows):
    """"packed row after row": the columns of the rows"""
    out = {name: [] for name in LENGTHS}
    for kind, offset, count, bound, terms in rows:
        out["kinds"].append(kind)
        out["firsts"].append(len(out["weights"]) if offset is None else offset)
        out["counts"].append(count)
        out["bounds"].append(bound)
        out["weights"] += [w for w, _ in terms]
        out["literals"] += [code for _, code in terms]
    return out


def answer(given, room_rows, room_terms):
    """what is answered, and the columns that were filled"""
    try:
        rows = normalise(given, room_rows, room_terms)
    except Refused as r:
        return refused(*r.args), columns([])
    return " table %d %d" % (len(rows), sum(len(r[4]) for r in rows)), columns(rows)


def run(name, *given, firsts=LENGTHS["firsts"], literals=LENGTHS["literals"]):
    """a table, into columns of which two have so many entries; the name says what the case is"""
    lengths = dict(LENGTHS, firsts=firsts, literals=literals)
    said, filled = answer(given, min(lengths[c] for c in ("kinds", "firsts", "counts", "bounds")), min(lengths["weights"], literals))
    # "A refused call changes nothing it was lent; an accepted one changes only the entries it counts, from the front."
    after = [filled[c] + [MARK] * (n - len(filled[c])) for c, n in lengths.items()]
    found.append((f"n {table(*given)} {firsts} {literals}", said + left(*after)))


def row(name, kind, bound, weights, literals):
    run(name, [kind], [0], [len(weights)], [bound], weights, literals)


def cramped(name, kind, firsts, literals):
    run(name, [kind], [0], [1], [0], [-1], [0], firsts=firsts, literals=literals)


def term(name, kind, bound, weight, code):
    row(name, kind, bound, [weight], [code])


def pair(name, first, second, code):
    row(name, AT_LEAST, 0, [first, second], [0, code])


def part(name, kind, first, count, bound):
    run(name, [kind], [first], [count], [bound], [1, 2], [0, 2])


def three(name, kinds, firsts, counts, bound):
    run(name, kinds, firsts, counts, [0, 0, bound], [1, -1, 3], [0, 2, 5])


def four(name, kind, last, count):
    run(name, [kind, kind, kind, last], [0] * 4, [count] * 4, [0] * 4, [1, 2], [0, 2])


def cases():
    row("3 x1 -2 x2 at least -1", AT_LEAST, -1, [3, -2], [0, 2])
    row("-5 x1 4 ~x2 at most -1", AT_MOST, -1, [-5, 4], [0, 3])
    row("-1 x1 1 x1 0 x2 -1 ~x1 equal 0", EQUAL, 0, [-1, 1, 0, -1], [0, 0, 2, 1])

    row("objective -4 ~x1 1 x3 with offset 7", OBJECTIVE, 7, [-4, 1], [1, 4])
    row("objective 4 x1 with offset -7", OBJECTIVE, -7, [4], [0])
    row("no terms at least 5", AT_LEAST, 5, [], [])
    row("objective without terms", OBJECTIVE, 0, [], [])

    term("-1 x1 at least M-1", AT_LEAST, M - 1, -1, 0)
    term("-1 x1 at least M", AT_LEAST, M, -1, 0)
    term("-1 x1 at most the least", AT_MOST, LEAST, -1, 0)
    term("-M x1 equal 0", EQUAL, 0, -M, 0)
    term("-M x1 equal 1", EQUAL, 1, -M, 0)
    term("1 x1 equal the least", EQUAL, LEAST, 1, 0)

    term("objective -1 x1 with offset the least", OBJECTIVE, LEAST, -1, 0)
    term("objective -1 x1 with offset the least and 1", OBJECTIVE, LEAST + 1, -1, 0)
    term("objective -1 x1 with offset M", OBJECTIVE, M, -1, 0)
    term("objective -M x1 with offset -1", OBJECTIVE, -1, -M, 0)
    term("objective -M x1 with offset -2", OBJECTIVE, -2, -M, 0)

    pair("1-M x1 1 x2 at least 0", 1 - M, 1, 2)
    pair("-M x1 1 x2 at least 0", -M, 1, 2)
    pair("M x1 -1 x2 at least 0", M, -1, 2)
    pair("M x1 M x2 at least 0", M, M, 2)
    pair("0 x1 the least on x2 at least 0", 0, LEAST, 2)
    pair("the least on x1 and on code 4294967295", LEAST, LEAST, 4294967295)

    term("kind 5, a clause", 5, 1, 1, 0)
    term("kind 6, a cardinality row", 6, 1, 1, 0)
    term("kind 8, a cardinality row", 8, 1, 1, 0)
    term("kind 9, unknown", 9, 1, 1, 0)
    term("kind 255, unknown", 255, 1, 1, 0)

    term("-1 on code 2147483647 at least 0", AT_LEAST, 0, -1, 2147483647)
    term("-1 on code 2147483646 at least 0", AT_LEAST, 0, -1, 2147483646)
    term("1 on code 2147483648 at least 0", AT_LEAST, 0, 1, 2147483648)
    pair("0 x1 0 on code 4294967295 at least 0", 0, 0, 4294967295)

    part("a comment with a bound", COMMENT, 12, 5, -3)
    part("a comment far away", COMMENT, FAR, FAR, LEAST)
    part("two terms from the last one", AT_LEAST, 1, 2, 0)
    part("no terms from the end", AT_LEAST, 2, 0, 0)
    part("no terms from behind the end", AT_LEAST, 3, 0, 0)
    part("first and count beyond 64 bits", AT_LEAST, FAR, FAR, 0)

    three("row 1 is a clause", [1, 5, 1], [0, 0, 0], [1, 1, 1], 0)
    three("row 2 is beyond 64 bits", [1, 0, 2], [0, 0, 1], [1, 0, 1], M)
    three("8 in row 2, 11 in row 1", [1, 9, 1], [0, 0, 0], [1, 1, 2], M)

    three("shared terms packed anew", [1, 0, 2], [1, 3, 0], [2, 4, 2], -1)
    three("a comment, a row, a comment", [0, 2, 0], [0, 1, 40], [6, 1, 7], 1)
    three("six terms of three", [1, 1, 1], [0, 0, 0], [3, 3, 0], 0)

    four("four comments", COMMENT, COMMENT, 1)
    four("four rows of eight terms", AT_LEAST, AT_LEAST, 2)
    four("four rows, the last a cardinality row", AT_LEAST, 7, 1)

    run("one row in the shortest column", [1, 9, 9], [0, 0], [2, 2, 2], [5], [-1, 2, 3], [0, 2])
    run("three terms, two codes", [1], [0], [3], [0], [1, 2, 3], [0, 2])

    run("no kinds", [], [0], [0], [0], [], [])
    run("empty table", [], [], [], [], [], [])

    cramped("no room for a row", AT_LEAST, 0, 1)
    cramped("no room for a comment", COMMENT, 0, 1)
    cramped("no room for a term", AT_LEAST, 1, 0)
    cramped("no room for terms, and a comment", COMMENT, 1, 0)
    cramped("no room, and an unknown kind", 9, 0, 0)
    return found
