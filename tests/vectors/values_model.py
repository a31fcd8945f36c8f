"""Cases `v` of crates/vectors, and their answers from request A1's text alone. x1 is bit 0 of the first word."""
import re

from lines import column, refused, row

ALL = 2**64 - 1
TOP = 2**63
LIMIT = 2**30  # a variable's number, from 1, is at most that
WHITE = b"\t\n\x0b\x0c\r "
found = []


def form(block):
    if b"x" in block:
        return "x"
    rest = block[1:].strip(WHITE)
    return "string" if rest.strip(b"01") == b"" and rest != b"0" else "signed"


def tokens(block):
    """each line without v as its place, each token as its place and its bytes"""
    if block == b"":
        yield 0, None
    at = 0
    for line in re.findall(rb"[^\n]*\n|[^\n]+", block):
        if line[:1] != b"v":
            yield at, None
        for token in re.finditer(rb"[^\t\n\x0b\x0c\r ]+", line[1:]):
            yield at + 1 + token.start(), token.group()
        at += len(line)


def said(how, token, length):
    """a refusal, or what becomes known: numbers from 1, with their values"""
    if how == "string":
        return 5 if length + len(token) > LIMIT else [(length + 1 + i, bit == 49) for i, bit in enumerate(token)]
    parts = re.fullmatch(rb"([+-]?)([0-9]+)" if how == "signed" else rb"([~-]?)x([0-9]+)", token)
    if not parts:
        return 21
    number = int(parts.group(2))
    if how == "signed" and number == 0:
        return []
    return [(number, parts.group(1) in (b"", b"+"))] if 1 <= number <= LIMIT else 5


def read(block, length, values, known):
    room = min(len(values), len(known))

    def bit(words, n):
        return words[(n - 1) // 64] >> (n - 1) % 64 & 1 == 1

    how, heard = form(block), {}
    for place, token in tokens(block):
        if token is None:
            return "refused", 20, place
        new = said(how, token, length)
        if isinstance(new, int):
            return "refused", new, place
        for n, value in new:
            before = bit(values, n) if n <= 64 * room and bit(known, n) else value
            if before != value or heard.get(n, value) != value:
                return "refused", 22, place
            heard[n] = value
    after = max([length] + list(heard))
    needed = -(-after // 64)
    if needed > room:
        return "refused", 12, needed
    for n, value in heard.items():
        w, b = (n - 1) // 64, 1 << (n - 1) % 64
        values[w] = values[w] | b if value else values[w] & ~b
        known[w] |= b
    return "length", after


def run(block, length, values, known):
    """one block; the length that is then kept"""
    case = f"v {length} {column(block)} {column(values)} {column(known)}"
    r = read(block, length, values, known)
    found.append((case, (refused(*r[1:]) if r[0] == "refused" else f" length {r[1]}") + row(values) + row(known)))
    return r[1] if r[0] == "length" else length


def each(blocks):
    """each of the blocks that `|` parts, by itself: nothing known, two words in each row"""
    for block in blocks.split(b"|"):
        run(block, 0, [0, 0], [0, 0])


def word(block, length, value, is_known):
    run(block, length, [value], [is_known])


def wordless(block, length):
    run(block, length, [], [])


def less(block, value):
    run(block, 0, [value], [ALL, ALL])


def more(block, is_known):
    run(block, 0, [ALL, 0], [is_known])


def three(*blocks):
    """one after the other, on one assignment of two words"""
    values, known, length = [0, 0], [0, 0], 0
    for block in blocks:
        length = run(block, length, values, known)


def cases():
    # Strings, the 0 that ends signed numbers, signed numbers, `x` tokens; the form is that of the whole block.
    each(b"v 1|v 10|v 01|v 0|v0|v 00|v 1 1|v 2|v 1 -2 3 0|v x1 ~x2 -x3")
    each(b"v 1\nv 10|v 0\nv 0\n|v 1\nv x2|v x2\nv 1|v|v\n|v \t\r\x0b\x0c|v 1 0 -2")

    # The empty block first.
    each(b"|\n|1 2| v 1|o 5\nv 1|v 1\n\n|v 1 -2\n\nv 3|v 1 -2\ns 3|v 1 a\ns 3|v\n01|v\n 01|v 01\n\r")
    each(b"v 1 -2\r\nv 3\r\n|v 1 -2\r\n\r\n|vx1\nv~x2|v2\nv-3|vv|V 1")
    each(b"v 1\t2\x0b3\x0c4\r5 6|v 1\x002|v 1\xc2\xa02|v\xc2\xa02|v 1\x1c2|v 1\x852")

    # signed tokens
    each(b"v -0|v +0|v 2 000|v -0002|v +5|v +|v -|v 2 --3|v 2 -+3|v 2 3a|v 2 ~3|v 2 3-|v 2 /|v 2 :")
    each(b"v 64 -65|v 128|v 129|v 1073741824|v 1073741825|v -1073741825|v 2 4294967297|v 18446744073709551617")
    each(b"v 2 -1000000000000000000000000000000000000000|v 2 -00000000000000000000000000000000000000003")

    # named tokens
    each(b"v x0|v -x0|v x00|v x1073741824|v x1073741825|v x18446744073709551617|v x007 ~x0008|v x1abc|v x1x2")
    each(b"v x1 x|v x1 0|v x1 -|v x1 ~|v +x1|v x+1|v x-1|v -~x1|v ~ x1|v x 1|v X1 x2|v x1;|x1")

    # Which refusal comes first: by line 20, then by token 21, 5, 22; 12 last.
    each(b"v a 1073741825|v 1073741825 a|v 1 -1 a|v 1 a -1|v 1 -1 1073741825|v 1073741825 1 -1")
    each(b"v 1 -1\n2|v 1\n2\nv -1|v 1000 1 -1|v 1000 a|v 1000\n2")

    # The last two: of two conflicts the first, wherever its variable lies.
    each(b"v 1 -1|v -1 1|v -1 -1|v 2 2 +2|v x1 -x1|v ~x1 x1|v ~x1 -x1|v 3 -1 2\nv 4 -3|v 1073741824 5 -1073741824")
    each(b"v 9000000 1 -9000000 -1|v 9000000 1 -1 -9000000")
    wordless(b"v 1 -1", 0)
    wordless(b"v x7 ~x7", 0)

    # Known true, known false, not known; known beyond the length.
    word(b"v -1", 1, 1, 1)
    word(b"v 1 2", 1, 1, 1)
    word(b"v 1 2", 1, 0, 1)
    word(b"v -1", 1, 0, 1)
    word(b"v -1", 1, 1, 0)
    word(b"v -9", 0, 256, 256)
    word(b"v x9", 0, 0, 256)
    word(b"v x64 ~x63", 64, TOP, TOP)
    word(b"v ~x64", 64, TOP, TOP)
    word(b"v 5 -6", 64, ALL, ALL)
    word(b"v -5 6", 0, ALL, 0)
    word(b"v 0", 3, 5, 7)

    # A variable beyond the shorter row is not known, and has no room.
    less(b"v -65 7", 64)
    less(b"v 65 -65", 64)
    less(b"v 64", TOP)
    less(b"v -64", TOP)
    more(b"v 65", 0)
    more(b"v 64 -63", 0)
    more(b"v -1", 1)

    # 12 with the words needed, by the block or by the length alone.
    word(b"v 64", 0, 0, 0)
    word(b"v 2 65 3", 0, 7, 4)
    word(b"v 0", 64, 0, 0)
    word(b"v 0", 65, 0, 0)
    word(b"v 2", 1000, 0, 0)
    word(b"v", LIMIT + 1, 0, 0)
    word(b"v 0", ALL, 0, 0)
    word(b"v 2 a", ALL, 0, 0)
    wordless(b"v 0", 0)
    wordless(b"v 1", 0)
    wordless(b"v -1", 0)
    wordless(b"v 0", 1)

    # Strings append at the length; the last index may be above the limit; known variables may be there.
    word(b"v 101", 5, 0, 0)
    word(b"v 101", 61, 0, 0)
    word(b"v 101", 62, 0, 0)
    word(b"v 101", 5, 160, 224)
    word(b"v 101", 5, 64, 64)
    word(b"v 101", 5, 0, 128)
    word(b"v 101", 5, 16, 16)
    word(b"v 01", LIMIT - 2, 0, 0)
    word(b"v 01", LIMIT - 1, 0, 0)
    word(b"v 1", LIMIT, 0, 0)
    word(b"v   01", ALL, 0, 0)

    # The turns of 5, 22, 20 and 12; strings of more than a word.
    word(b"v 01\n\n", LIMIT, 0, 0)
    word(b"v 01\n\n", 0, 1, 1)
    word(b"v 01\n\n", 64, 0, 0)
    wordless(b"v 0101", 0)
    each(b"v 1111111111111111111111111111111111111111111111111111111111111111111111")
    each(b"v 00000000000000000000000000000000000000000000000000000000000000001")

    # Several blocks on one assignment; one that is refused changes nothing.
    three(b"v x3 ~x5", b"v 101", b"v -1 8")
    three(b"v 10", b"v 10", b"v 10")
    three(b"v 1 -2 70", b"v 1 -2 70", b"v 2")
    three(b"v 1 -2", b"v 3 -3", b"v -3")
    three(b"v 1 -2", b"v 129", b"v 128")
    three(b"v x126", b"v 01", b"v 1")
    return found
