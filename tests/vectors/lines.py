"""How a case is written and its answer shown, for the program crates/vectors, whose src/main.rt says what a case is. An answer is words, each behind a space."""


def column(entries):
    """the count of the entries, and the entries; of bytes, too"""
    return " ".join(map(str, [len(entries), *entries]))


def table(*columns):
    """kinds, firsts, counts, bounds, weights, literals"""
    return " ".join(map(column, columns))


def row(entries):
    """a column that was lent, after the call"""
    return " |" + "".join(f" {entry}" for entry in entries)


def left(*columns):
    """a table that was lent, after the call"""
    return "".join(map(row, columns))


def refused(number, place):
    return f" refused {number} at {place}"
