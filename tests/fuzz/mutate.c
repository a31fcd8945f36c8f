/* How an input is made from another: half of the time as libFuzzer does it, else by a piece of the format put somewhere into the file: a number, a literal, a term, an operator, an ending, or a
 * whole statement, right or nearly so; now and then also by another option. Where there is no file but a table, and now and then else, a new file is begun, or blocks of value lines. */
#include <stdio.h>
#include <string.h>
#include "fuzz.h"

size_t LLVMFuzzerMutate(uint8_t *data, size_t size, size_t most);

static const char *const blanks[] = {" ", " ", " ", "\t", "  "};
static const char *const numbers[] = {"0", "1", "1", "-1", "2", "+2", "3", "-3", "5", "-0", "007", "10", "9223372036854775807", "-9223372036854775807", "-9223372036854775808", "4611686018427387904"};
static const char *const literals[] = {"x1", "x1", "x2", "x3", "~x1", "~x2", "-x1", "-x2", "x5", "~x6", "x64", "~x65", "x66"};
static const char *const operators[] = {">=", "<=", "=", ">", "<"};
static const char *const endings[] = {";\n", ";\n", "\n", "\r\n", "; \r\n", ";", " ;"};
static const char *const others[] = {"* note\n", "*\r\n", "*", "* a\rb\n", "min:", "min: ", "min:;\n", " "};
/* in the place of any word, now and then */
static const char *const wrong[] = {"", "", "+", "x", "x0", "y1", "<>", "=>", "m", "\n\n", "\r", "9223372036854775808", "-9223372036854775809", "36893488147419103233", "x4294967295", "x4294967296",
                                    "x18446744073709551617"};

/* of value lines */
static const char *const parts[] = {" ", " ", " ", " ", "\t", "\nv ", "\nv", "\r\nv ", "  "};
static const char *const signed_tokens[] = {"1", "-1", "2", "-2", "3", "+3", "-4", "0", "64", "-65", "128", "-129", "-0", "0007", "1073741824", "-1073741825"};
static const char *const x_tokens[] = {"x1", "~x1", "-x1", "x2", "~x2", "x3", "-x4", "x64", "~x65", "x128", "x0", "x0007", "x1073741824", "x1073741825"};
static const char *const strings[] = {"1", "01", "10", "0", "1011", "00000000000000000000000000000000000000000000000000000000000000001"};
static const char *const wrong_values[] = {"", "+", "-", "~", "x", "x1a", "1-", "v", "\n", "\n\n", "\r", "a", "--1", "~1", "+x1", "99999999999999999999", "x99999999999999999999"};
static const char *const block_ends[] = {"", "\n", "\n", "\r\n", " "};

typedef struct {
    char text[512];
    size_t length;
} piece;

static uint32_t state, first;

static size_t below(size_t n) {
    state = state * 1664525 + 1013904223;
    return (state >> 16) % n;
}

#define ONE_OF(words) words[below(sizeof words / sizeof *words)]

static void put(piece *p, const char *word) {
    if (below(24) == 0) word = ONE_OF(wrong);
    size_t length = strlen(word);
    memcpy(p->text + p->length, word, length);
    p->length += length;
}

/* a literal; now and then one at the ends of what the first index allows */
static void put_literal(piece *p) {
    char word[24];
    uint64_t ends[] = {first, (uint64_t)first - 1, (uint64_t)first + OPB_INDEX_LIMIT, (uint64_t)first + OPB_INDEX_LIMIT + 1};
    snprintf(word, sizeof word, "x%llu", (unsigned long long)ends[below(4)]);
    put(p, below(6) ? ONE_OF(literals) : word);
}

static void put_term(piece *p) {
    put(p, ONE_OF(numbers));
    put(p, ONE_OF(blanks));
    put_literal(p);
    put(p, ONE_OF(blanks));
}

static void put_terms(piece *p, size_t count) {
    for (size_t i = 0; i < count; i++) put_term(p);
}

static void put_comparison(piece *p) {
    put(p, ONE_OF(operators));
    put(p, ONE_OF(blanks));
    put(p, ONE_OF(numbers));
}

static void put_statement(piece *p) {
    int objective = below(4) == 0;
    if (objective) put(p, "min: ");
    put_terms(p, below(4) + !objective);
    if (!objective) put_comparison(p);
    put(p, ONE_OF(endings));
}

static void put_any(piece *p) {
    switch (below(10)) {
    case 0: put(p, ONE_OF(numbers)); break;
    case 1: put_literal(p); break;
    case 2: put(p, ONE_OF(operators)); break;
    case 3: put(p, ONE_OF(endings)); break;
    case 4: put(p, ONE_OF(others)); break;
    case 5: put_term(p); break;
    case 6: put_comparison(p); break;
    default: put_statement(p);
    }
}

static const char *value_word(const char *word) {
    return below(24) ? word : ONE_OF(wrong_values);
}

static void put_value(piece *p, const char *word) {
    word = value_word(word);
    size_t length = strlen(word);
    memcpy(p->text + p->length, word, length);
    p->length += length;
}

/* a block: a `v`, then tokens of one form and what parts them */
static void put_block(piece *p) {
    size_t form = below(3), count = form == 2 ? 1 : below(5);
    put_value(p, below(4) ? "v " : "v");
    for (size_t i = 0; i < count; i++) {
        put_value(p, form == 0 ? ONE_OF(signed_tokens) : form == 1 ? ONE_OF(x_tokens) : ONE_OF(strings));
        if (i + 1 < count) put_value(p, ONE_OF(parts));
    }
    put_value(p, ONE_OF(block_ends));
}

static void put_any_value(piece *p, int opens) {
    size_t which = below(6);
    if (opens || which > 2) {
        if (!opens) p->text[p->length++] = '|';
        put_block(p);
    } else {
        put_value(p, which == 0 ? ONE_OF(signed_tokens) : which == 1 ? ONE_OF(x_tokens) : ONE_OF(strings));
        put_value(p, ONE_OF(parts));
    }
}

/* where to put a piece: the end, the start, or anywhere in the file, and then perhaps behind the next LF */
static size_t somewhere(const uint8_t *data, size_t size) {
    size_t at = OPTIONS + below(size - OPTIONS + 1);
    if (below(3) == 0) return size;
    if (below(6) == 0) return OPTIONS + (size > OPTIONS && data[OPTIONS] == 'v');
    if (below(2) == 0) return at;
    const uint8_t *line = memchr(data + at, '\n', size - at);
    return line ? (size_t)(line - data) + 1 : size;
}

size_t LLVMFuzzerCustomMutator(uint8_t *data, size_t size, size_t most, unsigned seed) {
    piece p = {.length = 0};
    state = seed;
    if (below(2) == 0 || most < OPTIONS) return LLVMFuzzerMutate(data, size, most);
    if (size < OPTIONS) memset(data + size, 0, OPTIONS - size);
    if (size < OPTIONS || data[FLAGS] & MAKES_TABLE || below(16) == 0) size = OPTIONS;
    data[FLAGS] &= (uint8_t)~MAKES_TABLE;
    if (below(6) == 0) data[below(OPTIONS)] = (uint8_t)below(256);
    first = first_of(data);
    if (size > OPTIONS ? data[OPTIONS] == 'v' : below(3) == 0) {
        put_any_value(&p, size == OPTIONS);
    } else {
        put_any(&p);
    }
    if (size + p.length > most) return LLVMFuzzerMutate(data, size, most);
    size_t at = somewhere(data, size);
    memmove(data + at + p.length, data + at, size - at);
    memcpy(data + at, p.text, p.length);
    return size + p.length;
}
