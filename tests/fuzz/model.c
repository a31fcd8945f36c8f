/* A model of reading, written from 01 ("The text", "What each number says") and nothing else: slow and plain. Each step moves `at` behind what it takes and answers a refusal's number, or 0. */
#include "fuzz.h"

typedef struct {
    const uint8_t *file;
    size_t length, at;
    uint32_t first;
    store *out;
    size_t rows, terms;
} reading;

/* the terms of one row: the first of them, and their absolute weights */
typedef struct {
    size_t first;
    __int128 sizes;
} sum_read;

static const __int128 most = INT64_MAX, least = INT64_MIN;

/* the next byte, or -1 at the end of the file */
static int next(const reading *r) {
    return r->at < r->length ? r->file[r->at] : -1;
}

static int takes(reading *r, int byte) {
    int there = next(r) == byte;
    r->at += (size_t)there;
    return there;
}

static int is_digit(int b) {
    return b >= '0' && b <= '9';
}

static int is_sign(int b) {
    return b == '+' || b == '-';
}

/* "Blank" is space or tab */
static size_t blanks(reading *r) {
    size_t start = r->at;
    while (next(r) == ' ' || next(r) == '\t') r->at++;
    return r->at - start;
}

/* a line ending is LF or CR LF */
static int line_ending(reading *r) {
    size_t start = r->at;
    takes(r, '\r');
    if (takes(r, '\n')) return 1;
    r->at = start;
    return 0;
}

/* how many digits, and what they stand for; beyond 2^100 some greater number */
static size_t digits(reading *r, unsigned __int128 *value) {
    size_t start = r->at;
    *value = 0;
    for (; is_digit(next(r)); r->at++)
        if (*value >> 100 == 0) *value = *value * 10 + (unsigned)(next(r) - '0');
    return r->at - start;
}

/* Number: optional sign, one or more digits, in signed 64 bits. */
static int number(reading *r, int64_t *answer) {
    int negative = next(r) == '-';
    unsigned __int128 size;
    if (is_sign(next(r))) r->at++;
    if (digits(r, &size) == 0) return 3;
    __int128 value = negative ? -(__int128)size : (__int128)size;
    if (value < least || value > most) return 3;
    *answer = (int64_t)value;
    return 0;
}

/* optional `~` or `-` (negation), `x`, digits */
static int literal(reading *r, uint32_t *code) {
    int negated = takes(r, '~') || takes(r, '-');
    unsigned __int128 file_number;
    if (!takes(r, 'x') || digits(r, &file_number) == 0) return 4;
    if (file_number > 4294967295 || file_number < r->first || file_number - r->first > 1073741823) return 5;
    *code = (uint32_t)(file_number - r->first) * 2 + (uint32_t)negated;
    return 0;
}

/* Term: number, one or more blanks, literal, blanks. */
static int term(reading *r, sum_read *sum) {
    int64_t weight;
    uint32_t code;
    int refusal = number(r, &weight);
    if (refusal) return refusal;
    if (blanks(r) == 0) return 4;
    refusal = literal(r, &code);
    if (refusal) return refusal;
    blanks(r);
    r->out->weights[r->terms] = weight;
    r->out->literals[r->terms] = code;
    r->terms++;
    sum->sizes += weight < 0 ? -(__int128)weight : weight;
    return 0;
}

/* A digit or sign after a term begins another. */
static int terms(reading *r, sum_read *sum) {
    int refusal = 0;
    sum->first = r->terms;
    sum->sizes = 0;
    while (!refusal && (is_digit(next(r)) || is_sign(next(r)))) refusal = term(r, sum);
    return refusal;
}

/* Operator: `<=`, `>=`, `<`, `>`, `=`, longest first. `> b` is at least b+1, `< b` is at most b-1. */
static int operator(reading *r, uint8_t *kind, int *more) {
    *more = 0;
    if (takes(r, '=')) {
        *kind = OPB_EQUAL;
    } else if (takes(r, '<')) {
        *kind = OPB_AT_MOST;
        if (!takes(r, '=')) *more = -1;
    } else if (takes(r, '>')) {
        *kind = OPB_AT_LEAST;
        if (!takes(r, '=')) *more = 1;
    } else {
        return 6;
    }
    return 0;
}

/* Ending: blanks, then `;` (then blanks and one line ending, if there), or a line ending, or file end. */
static int ending(reading *r) {
    blanks(r);
    if (takes(r, ';')) {
        blanks(r);
        line_ending(r);
        return 0;
    }
    return line_ending(r) || r->at == r->length ? 0 : 7;
}

static void add_row(reading *r, uint8_t kind, size_t first, size_t count, int64_t bound) {
    r->out->kinds[r->rows] = kind;
    r->out->firsts[r->rows] = first;
    r->out->counts[r->rows] = count;
    r->out->bounds[r->rows] = bound;
    r->rows++;
}

/* the part after `*` and after one space directly behind it, if there, up to the line ending or file end */
static int comment(reading *r) {
    takes(r, ' ');
    size_t text = r->at, end = r->at;
    while (r->at < r->length && !line_ending(r)) end = ++r->at;
    add_row(r, OPB_COMMENT, text, end - text, 0);
    return 0;
}

/* `min:`, blanks, zero or more terms, an ending */
static int objective(reading *r) {
    sum_read sum;
    if (!takes(r, 'm') || !takes(r, 'i') || !takes(r, 'n') || !takes(r, ':')) return 2;
    blanks(r);
    int refusal = terms(r, &sum);
    if (!refusal) refusal = ending(r);
    if (refusal) return refusal;
    if (sum.sizes > most) return 8;
    add_row(r, OPB_OBJECTIVE, sum.first, r->terms - sum.first, 0);
    return 0;
}

/* one or more terms, operator, blanks, number, ending */
static int constraint(reading *r) {
    sum_read sum;
    uint8_t kind;
    int more;
    int64_t bound;
    int refusal = terms(r, &sum);
    if (!refusal) refusal = operator(r, &kind, &more);
    if (refusal) return refusal;
    blanks(r);
    refusal = number(r, &bound);
    if (!refusal) refusal = ending(r);
    if (refusal) return refusal;
    __int128 meant = (__int128)bound + more;
    if (sum.sizes > most || meant < least || meant > most) return 8;
    add_row(r, kind, sum.first, r->terms - sum.first, (int64_t)meant);
    return 0;
}

static int statement(reading *r) {
    if (takes(r, '*')) return comment(r);
    if (is_digit(next(r)) || is_sign(next(r))) return constraint(r);
    return objective(r);
}

opb_table model_read(const uint8_t *file, size_t length, uint32_t first, store *out) {
    reading r = {file, length, 0, first, out, 0, 0};
    if (length > 1073741823) return (opb_table){.refusal = 1};
    for (blanks(&r); r.at < length; blanks(&r)) {
        size_t start = r.at;
        int refusal = statement(&r);
        if (refusal) return (opb_table){.refusal = (uint8_t)refusal, .place = start};
    }
    return (opb_table){.rows = r.rows, .terms = r.terms};
}
