/* 01's two walks in C, a byte at a time: every term checked against the limits, nothing written by the first walk, the columns filled by the second. It reads what bench/plan.c makes and refuses all else without saying why. What the
 * shape of two walks costs a C programmer who does nothing for speed. */
#include "walks.h"

typedef struct {
    size_t count;
    uint64_t size;
} run;

static const uint64_t cap = UINT64_C(9223372036854775809);

static inline run digits(const uint8_t *s, size_t length) {
    run r = {0, 0};
    while (r.count < length && s[r.count] >= '0' && s[r.count] <= '9') {
        r.size = r.size <= cap / 10 ? 10 * r.size + (uint64_t)(s[r.count] - '0') : cap;
        r.count++;
    }
    return r;
}

static inline size_t blanks(const uint8_t *s, size_t length) {
    size_t n = 0;
    while (n < length && (s[n] == ' ' || s[n] == '\t')) n++;
    return n;
}

static size_t line_end(const uint8_t *s, size_t length, size_t at) {
    while (at < length && s[at] != '\n') at++;
    return at + 1;
}

typedef struct {
    int64_t *weights;
    uint32_t *literals;
    size_t room, terms;
} sink;

/* The terms from `at` on, as far as they fit; where they end, or 0. */
static size_t sum(const uint8_t *s, size_t length, size_t at, sink *to) {
    uint64_t size = 0;
    while (at < length) {
        int negative = s[at] == '-', negated = 0;
        if (negative || s[at] == '+') at++;
        else if (s[at] < '0' || s[at] > '9') break;
        run weight = digits(s + at, length - at);
        if (weight.count == 0 || weight.size > (uint64_t)INT64_MAX + (uint64_t)negative) return 0;
        at += weight.count;
        size_t apart = blanks(s + at, length - at);
        at += apart;
        if (at < length && (s[at] == '~' || s[at] == '-')) negated = 1, at++;
        if (apart == 0 || at == length || s[at] != 'x') return 0;
        at++;
        run variable = digits(s + at, length - at);
        if (variable.count == 0 || variable.size < 1 || variable.size > 1073741824) return 0;
        at += variable.count;
        at += blanks(s + at, length - at);
        if (to->terms < to->room) {
            to->weights[to->terms] = negative ? -(int64_t)weight.size : (int64_t)weight.size;
            to->literals[to->terms] = 2 * (uint32_t)(variable.size - 1) + (uint32_t)negated;
        }
        to->terms++;
        size = size + weight.size > INT64_MAX ? (uint64_t)INT64_MAX + 1 : size + weight.size;
    }
    return size > INT64_MAX ? 0 : at;
}

static size_t walk(const uint8_t *s, size_t length, int64_t *bounds, size_t rows_room, sink *to) {
    size_t rows = 0;
    for (size_t at = 0; at < length; rows++) {
        if (s[at] == '*') {
            at = line_end(s, length, at);
            continue;
        }
        if (s[at] == 'm') at += 4 + blanks(s + at + 4, length - at - 4);
        at = sum(s, length, at, to);
        if (at == 0) return 0;
        int64_t bound = 0;
        if (at < length && s[at] != ';') {
            at += 3;
            int negative = s[at] == '-';
            bound = (int64_t)digits(s + at + negative, length - at - (size_t)negative).size;
            if (negative) bound = -bound;
        }
        if (rows < rows_room) bounds[rows] = bound;
        at = line_end(s, length, at);
    }
    return rows;
}

size_t walks_read(const uint8_t *s, size_t length, int64_t *bounds, size_t rows, int64_t *weights, uint32_t *literals, size_t terms) {
    sink none = {0, 0, 0, 0}, columns = {weights, literals, terms, 0};
    if (walk(s, length, bounds, 0, &none) != rows || none.terms != terms) return 0;
    return walk(s, length, bounds, rows, &columns);
}
