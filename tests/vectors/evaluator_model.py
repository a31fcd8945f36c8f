"""Cases `e` of crates/vectors, and their answers from the rules of 01 and of 02 (A1) alone: a row evaluated, evaluated where only some variables are known, and judged."""
from lines import column, refused, table

M = 2**63 - 1
LEAST = -(2**63)
ALL = 2**64 - 1
FAR = 2**64 - 1
READ = {1: "ge", 2: "le", 3: "eq", 4: "min"}  # the read kinds but the comment
WORD_LIMIT = 16777216
found = []


def evaluate(kinds, firsts, counts, bounds, weights, literals, row, words, known=None):
    words = words[:WORD_LIMIT]
    known = [ALL] * len(words) if known is None else known[:WORD_LIMIT]

    def has(v):
        return v // 64 < min(len(words), len(known)) and (known[v // 64] >> (v % 64)) & 1 == 1

    def true(v):
        return (words[v // 64] >> (v % 64)) & 1

    def value(code):
        return 1 - true(code // 2) if code % 2 else true(code // 2)

    if row >= min(len(kinds), len(firsts), len(counts), len(bounds)):
        return "no", 11
    k, f, n, b = kinds[row], firsts[row], counts[row], bounds[row]
    if k not in READ or f + n > min(len(weights), len(literals)):
        return "no", 11
    terms = [(weights[j], literals[j]) for j in range(f, f + n)]
    if any(c // 2 > 1073741823 for w, c in terms):
        return "no", 11
    if sum(abs(w) for w, c in terms) > M:
        return "no", 8
    if not all(has(c // 2) for w, c in terms):
        return "no", 12
    s = sum(w * value(c) for w, c in terms)
    ones = sum(true(v) for v in range(64 * len(words)) if has(v))
    if READ[k] == "min":
        return ("value", s + b, ones) if LEAST <= s + b <= M else ("no", 8)
    return "sum", s, {"ge": s >= b, "le": s <= b, "eq": s == b}[READ[k]], ones


def said(row, r):
    if r[0] == "no":
        return refused(r[1], row)
    if r[0] == "value":
        return f" value {r[1]} {r[2]}"
    return f" sum {r[1]} {int(r[2])} {r[3]}"


def run(name, given, i, words, known=None):
    """row i of a table; where the case does not say which variables are known, all of the words' are. The name says what the case is."""
    known = [ALL] * len(words) if known is None else known
    part = evaluate(*given, i, words, known)
    # "judged": no ones are counted
    judged = part if part[0] == "no" else part[:-1] + (0,)
    answers = [evaluate(*given, i, words), part, judged]
    found.append((f"e {table(*given)} {i} {column(words)} {column(known)}", " |".join(said(i, r) for r in answers)))


def row(name, kind, bound, ws, cs, words, known=None):
    run(name, ([kind], [0], [len(ws)], [bound], ws, cs), 0, words, known)


SHARED = [0, 1, 4, 3, 1, 3, 2, 2, 1], [0, 0, 1, 3, 2, 3, 4, 5, FAR], [3, 2, 2, 1, 2, 2, 0, 0, FAR], [0, 5, 7] + 6 * [0], [5, -3, 2, M], [0, 2, 5, 128]


def shared(name, i, known=None):
    """a row of a table of nine rows over four terms, 5 x1 -3 x2 2 ~x3 M x65, under x1 and x3"""
    run(name, SHARED, i, [5], known)


def uneven(name, i):
    """a row of a table whose columns are of unequal length: room for two rows, and for three terms"""
    run(name, ([1, 1, 1, 1], [0, 2, 0], [3, 2], [6, 0, 0, 0, 0], [1, 2, 3, 4], [0, 2, 4]), i, [7])


def pair(name, kind, bound, word):
    row(name, kind, bound, [3, -2], [0, 3], [word])


def repeated(name, kind, bound, word):
    row(name, kind, bound, [2, 3, 0, -1], [0, 0, 2, 1], [word])


def single(name, kind, bound, w, c, word):
    row(name, kind, bound, [w], [c], [word])


def double(name, a, b, c, word):
    row(name, 1, 0, [a, b], [0, c], [word])


def across(name, c, low, high):
    row(name, 1, 2, [1, 2], [126, c], [low, high])


# where some variables are known


def shared_part(name, i):
    shared(name, i, [3])


def pair_part(name, values, known):
    row(name, 1, 1, [3, -2], [0, 3], [values], [known])


def across_part(name, c, values, known):
    row(name, 1, 2, [1, 2], [126, c], values, known)


def single_part(name, kind, bound, w, c, values, known):
    row(name, kind, bound, [w], [c], [values], [known])


def cases():
    # pairs
    pair("3 x1 -2 ~x2 at least 1, both", 1, 1, 3)
    pair("3 x1 -2 ~x2 at least 1, only x1", 1, 1, 1)
    pair("3 x1 -2 ~x2 at least 1, none", 1, 1, 0)
    pair("3 x1 -2 ~x2 at most 1, both", 2, 1, 3)
    pair("3 x1 -2 ~x2 at most 1, only x1", 2, 1, 1)
    pair("3 x1 -2 ~x2 equal -2, both", 3, -2, 3)
    pair("3 x1 -2 ~x2 equal -2, only x2", 3, -2, 2)
    pair("3 x1 -2 ~x2 equal -2, none", 3, -2, 0)

    # repeats
    repeated("2 x1 3 x1 0 x2 -1 ~x1 at least 5, x1", 1, 5, 1)
    repeated("2 x1 3 x1 0 x2 -1 ~x1 at least 5, x2", 1, 5, 2)
    repeated("2 x1 3 x1 0 x2 -1 ~x1 equal -1, none", 3, -1, 0)

    # objectives
    single("objective 4 x3 with offset 10, x3", 4, 10, 4, 4, 4)
    single("objective 4 x3 with offset 10, x2", 4, 10, 4, 4, 2)
    single("objective -4 ~x3 with offset 1, x2", 4, 1, -4, 5, 2)
    single("objective 0 x1, x1", 4, 0, 0, 0, 1)

    # ends
    single("M x1 at least M, x1", 1, M, M, 0, 1)
    single("-M x1 at most -M, x1", 2, -M, -M, 0, 1)
    single("-M x1 equal the least, x1", 3, LEAST, -M, 0, 1)
    single("objective M x1, x1", 4, 0, M, 0, 1)
    single("objective M x1 with offset 1, x1", 4, 1, M, 0, 1)
    single("objective M x1 with offset 1, none", 4, 1, M, 0, 0)
    single("objective -M x1 with offset -1, x1", 4, -1, -M, 0, 1)
    single("objective -M x1 with offset -2, x1", 4, -2, -M, 0, 1)
    single("objective 1 x1 with offset M, none", 4, M, 1, 0, 0)
    single("the least on x1, none", 1, 0, LEAST, 0, 0)

    # kinds
    single("kind 0, a comment", 0, 0, 1, 0, 1)
    single("kind 5, a clause", 5, 1, 1, 0, 1)
    single("kind 7, a cardinality row", 7, 1, 1, 0, 1)
    single("kind 9, unknown", 9, 0, 1, 0, 1)
    single("kind 255, unknown", 255, 0, 1, 0, 1)

    # indexes
    single("1 x64 at least 1, x64", 1, 1, 1, 126, 9223372036854775808)
    single("1 x65 at least 1, one word", 1, 1, 1, 128, 1)
    single("code 2147483647, one word", 1, 0, 1, 2147483647, 1)
    single("code 2147483648, one word", 1, 0, 1, 2147483648, 1)
    single("code 4294967295, one word", 1, 0, 1, 4294967295, 1)

    # sizes
    double("M x1 1 x2, only x1", M, 1, 2, 1)
    double("M x1 -1 x2, both", M, -1, 2, 3)
    double("M-1 x1 -1 x2, both", M - 1, -1, 2, 3)
    double("M x1 M x101, one word", M, M, 200, 1)
    double("M x1 M on code 2147483648, one word", M, M, 2147483648, 1)

    # words
    across("1 x64 2 x65, both", 128, 9223372036854775808, 1)
    across("1 x64 2 x65, all but x65", 128, ALL, ALL - 1)
    across("1 x64 2 ~x65, all but x65", 129, ALL, ALL - 1)
    across("1 x64 2 x128, all", 254, ALL, ALL)
    across("1 x64 2 x129, all", 256, ALL, ALL)

    # No words, and one term or none.
    row("1 x1 at least 1, no words", 1, 1, [1], [0], [])
    row("M x1 with offset 1, no words", 4, 1, [M], [0], [])
    row("no terms at least 0, no words", 1, 0, [], [], [])
    row("no terms at least 1, no words", 1, 1, [], [], [])
    row("no terms with offset -7, no words", 4, -7, [], [], [])

    # tables
    shared("row 0, a comment", 0)
    shared("row 1, 5 x1 -3 x2 at least 5", 1)
    shared("row 2, objective -3 x2 2 ~x3, offset 7", 2)
    shared("row 3, M x65 equal 0", 3)
    shared("row 4, 2 ~x3 M x65 at least 0", 4)
    shared("row 5, two terms from the last one", 5)
    shared("row 6, no terms from the end", 6)
    shared("row 7, no terms from behind the end", 7)
    shared("row 8, first and count beyond 64 bits", 8)
    shared("row 9, missing", 9)
    shared("row 18446744073709551615, missing", 18446744073709551615)

    # unevens
    uneven("row 0, three terms of three", 0)
    uneven("row 1, terms outside the shorter column", 1)
    uneven("row 2, outside the shortest column", 2)

    # pair parts
    pair_part("3 x1 -2 ~x2 at least 1, both known and true", 3, 3)
    pair_part("3 x1 -2 ~x2 at least 1, both known and false", 0, 3)
    pair_part("3 x1 -2 ~x2 at least 1, all but x2 known, x2 false", 1, ALL - 2)
    pair_part("3 x1 -2 ~x2 at least 1, all but x2 known, x2 true", 3, ALL - 2)
    pair_part("3 x1 -2 ~x2 at least 1, none known", 3, 0)
    pair_part("3 x1 -2 ~x2 at least 1, x1 and x2 known of all true", ALL, 3)
    pair_part("3 x1 -2 ~x2 at least 1, all known and true", ALL, ALL)

    # word parts
    across_part("1 x64 2 x65, all of two words known", 128, [ALL, ALL], [ALL, ALL])
    across_part("1 x64 2 x65, x64 and x65 known", 128, [ALL, ALL], [9223372036854775808, 1])
    across_part("1 x64 2 ~x65, x64 and x66 known", 129, [ALL, ALL], [9223372036854775808, 2])
    across_part("1 x64 2 x65, one known word", 128, [ALL, ALL], [ALL])
    across_part("1 x64 2 x63, one known word", 124, [ALL, ALL], [ALL])
    across_part("1 x64 2 x65, one word of values", 128, [ALL], [ALL, ALL])
    across_part("1 x64 2 x63, one word of values", 124, [ALL], [ALL, ALL])
    across_part("1 x64 2 x63, no known words", 124, [ALL], [])
    across_part("1 x64 2 x63, no words of values", 124, [], [ALL])

    # objective parts
    single_part("objective 4 x3 with offset 10, x3 known", 4, 10, 4, 4, 6, 4)
    single_part("objective 4 x3 with offset 10, x3 unknown", 4, 10, 4, 4, 6, 2)
    single_part("objective M x1 with offset 1, x1 known", 4, 1, M, 0, 1, 1)
    single_part("objective M x1 with offset 1, x1 unknown", 4, 1, M, 0, 1, 0)

    # other parts
    single_part("the least on x1, x1 unknown", 1, 0, LEAST, 0, 0, 0)
    single_part("code 2147483648, all known", 1, 0, 1, 2147483648, 1, ALL)
    single_part("kind 5, a clause, all known", 5, 1, 1, 0, 1, ALL)
    row("no terms at least 0, x1 known of x1 and x2", 1, 0, [], [], [3], [1])
    row("no terms with offset -7, no words at all", 4, -7, [], [], [], [])

    # table parts
    shared_part("row 0, a comment, x1 and x2 known", 0)
    shared_part("row 1, 5 x1 -3 x2 at least 5, x1 and x2 known", 1)
    shared_part("row 2, objective -3 x2 2 ~x3, x3 unknown", 2)
    shared_part("row 3, M x65 equal 0, x65 beyond", 3)
    shared_part("row 4, 2 ~x3 M x65 at least 0, x3 unknown", 4)
    shared_part("row 6, no terms from the end, x1 and x2 known", 6)
    shared_part("row 9, missing, x1 and x2 known", 9)
    return found
