"""Cases `s` of crates/vectors, and their answers from 01's rules alone ("Numbers and tables", "The text"), not from the code: a number as file number, as index, as code and as byte, as far as it is one."""
INDEX_LIMIT = 1_073_741_823
FILE_NUMBER_LIMIT = 4_294_967_295


def class_and_beginning(b):
    c = chr(b)
    if c in "0123456789":
        return "0p"
    if c in "+-":
        return "+p"
    if c in " \t":
        return "_."
    if c in "\r\n":
        return {"\r": "r.", "\n": "n."}[c]
    if c in "<>=":
        return "=."
    return {"*": "*c", "m": "mo", ";": ";.", "~": "~.", "x": "x."}.get(c, "..")


def refusable(value, fits):
    return f" {value}" if fits else " refused"


def answer(n, first):
    if n > FILE_NUMBER_LIMIT:
        return " refused"
    # a file number, and the index of its variable
    said = f" {n}" + refusable(n - first, 0 <= n - first <= INDEX_LIMIT)
    # an index, the file number it is written with, its plain literal and twice its negated one
    said += refusable(n + first, n + first <= FILE_NUMBER_LIMIT)
    said += "".join(refusable(2 * n + negated, n <= INDEX_LIMIT) for negated in (0, 1, 1))
    # a code: whether it is negated, whether plain, its index and the opposite literal's code
    said += f" {n % 2} {1 - n % 2} {n // 2} {n + 1 - 2 * (n % 2)}"
    return said + (f" {class_and_beginning(n)}" if n < 256 else "")


NUMBERS = [(n, 1) for n in range(256)] + [
    # file numbers
    (0, 0), (1073741824, 1), (1073741825, 1), (4294967295, 4294967295), (4294967295, 0), (4294967295, 1), (4294967296, 1),
    # indexes and codes
    (1073741823, 1), (0, 4294967295), (1, 4294967295),
]


def cases():
    return [(f"s {n} {first}", answer(n, first)) for n, first in NUMBERS]
