/* A model of the calls over a table, written from 01 ("What each number says", "Normalising and evaluating", "The lines written") and, for the spaces of a line, the Rust. Sums are of 128 bits. */
#include <stdio.h>
#include <string.h>
#include "fuzz.h"

static int fits(__int128 n) {
    return n >= INT64_MIN && n <= INT64_MAX;
}

static size_t lesser(size_t a, size_t b) {
    return a < b ? a : b;
}

/* Columns of unequal length have the room of the shortest. */
size_t row_room(const columns *t) {
    return lesser(lesser(t->kinds_length, t->firsts_length), lesser(t->counts_length, t->bounds_length));
}

size_t term_room(const columns *t) {
    return lesser(t->weights_length, t->literals_length);
}

/* ---- one row */

/* 11: terms outside their column, an index above its limit */
static int outside(const columns *t, size_t row) {
    size_t first = t->firsts[row], count = t->counts[row], room = term_room(t);
    if (first > room || count > room - first) return 1;
    for (size_t i = first; i < first + count; i++)
        if (t->literals[i] / 2 > 1073741823) return 1;
    return 0;
}

/* Clause and cardinality rows have every weight 1. */
static int64_t weight(const columns *t, size_t row, size_t term) {
    return t->kinds[row] > OPB_OBJECTIVE ? 1 : t->weights[term];
}

/* absolute weights */
static __int128 sizes(const columns *t, size_t row) {
    __int128 sum = 0;
    for (size_t i = t->firsts[row]; i < t->firsts[row] + t->counts[row]; i++) {
        __int128 w = weight(t, row, i);
        sum += w < 0 ? -w : w;
    }
    return sum;
}

/* ---- normalising */

/* Negative weight w on literal l becomes -w on the opposite one. Answers the sum of the negative weights. */
static __int128 normal_terms(const columns *t, size_t row, size_t at, store *out) {
    __int128 negative = 0;
    for (size_t i = 0; i < t->counts[row]; i++) {
        int64_t w = t->weights[t->firsts[row] + i];
        uint32_t code = t->literals[t->firsts[row] + i];
        out->weights[at + i] = w < 0 ? -w : w;
        out->literals[at + i] = w < 0 ? code ^ 1 : code;
        if (w < 0) negative += w;
    }
    return negative;
}

/* A row, whose terms go to `at`: 11, 8. */
static int normal_row(const columns *t, size_t row, size_t at, store *out) {
    uint8_t kind = t->kinds[row];
    out->kinds[row] = kind;
    out->firsts[row] = t->firsts[row];
    out->counts[row] = t->counts[row];
    out->bounds[row] = t->bounds[row];
    if (kind == OPB_COMMENT) return 0;
    if (kind > OPB_OBJECTIVE || outside(t, row)) return 11;
    if (sizes(t, row) > INT64_MAX) return 8;
    __int128 negative = normal_terms(t, row, at, out);
    __int128 bound = t->bounds[row] + (kind == OPB_OBJECTIVE ? negative : -negative);
    if (!fits(bound)) return 8;
    out->firsts[row] = at;
    out->bounds[row] = (int64_t)bound;
    return 0;
}

opb_table model_normalise(const columns *t, store *out) {
    size_t rows = row_room(t), terms = 0;
    for (size_t row = 0; row < rows; row++) {
        int refusal = normal_row(t, row, terms, out);
        if (refusal) return (opb_table){.refusal = (uint8_t)refusal, .place = row};
        if (t->kinds[row] != OPB_COMMENT) terms += t->counts[row];
    }
    return (opb_table){.rows = rows, .terms = terms};
}

/* ---- evaluating */

/* so many words of values and of what is known; all is where there are no such words */
typedef struct {
    const uint64_t *values, *known;
    size_t length;
} assignment;

static uint64_t ones(const assignment *a) {
    uint64_t sum = 0;
    for (size_t i = 0; i < a->length; i++) sum += (uint64_t)__builtin_popcountll(a->known ? a->values[i] & a->known[i] : a->values[i]);
    return sum;
}

/* 12, or 0 and the sum */
static int value_of(const columns *t, size_t row, const assignment *a, __int128 *sum) {
    const uint64_t *words = a->values;
    *sum = 0;
    for (size_t i = t->firsts[row]; i < t->firsts[row] + t->counts[row]; i++) {
        uint32_t code = t->literals[i], v = code / 2;
        if (v / 64 >= a->length || (a->known && !(a->known[v / 64] >> v % 64 & 1))) return 12;
        if ((words[v / 64] >> v % 64 & 1) != code % 2) *sum += t->weights[i];
    }
    return 0;
}

static int holds(uint8_t kind, __int128 sum, int64_t bound) {
    if (kind == OPB_AT_LEAST) return sum >= bound;
    return kind == OPB_AT_MOST ? sum <= bound : sum == bound;
}

static opb_value evaluated(const columns *t, size_t row, const assignment *a) {
    __int128 sum;
    uint8_t kind = row < row_room(t) ? t->kinds[row] : OPB_COMMENT;
    if (kind == OPB_COMMENT || kind > OPB_OBJECTIVE || outside(t, row)) return (opb_value){.refusal = 11, .place = row};
    if (sizes(t, row) > INT64_MAX) return (opb_value){.refusal = 8, .place = row};
    if (value_of(t, row, a, &sum)) return (opb_value){.refusal = 12, .place = row};
    uint64_t count = ones(a);
    if (kind != OPB_OBJECTIVE) return (opb_value){.value = (int64_t)sum, .holds = (uint8_t)holds(kind, sum, t->bounds[row]), .ones = count};
    sum += t->bounds[row];
    if (!fits(sum)) return (opb_value){.refusal = 8, .place = row};
    return (opb_value){.value = (int64_t)sum, .holds = 2, .ones = count};
}

opb_value model_evaluate(const columns *t, size_t row, const uint64_t *words, size_t length) {
    return evaluated(t, row, &(assignment){words, NULL, length});
}

opb_value model_evaluate_known(const columns *t, size_t row, const uint64_t *values, size_t values_length, const uint64_t *known, size_t known_length) {
    static const uint64_t none;
    return evaluated(t, row, &(assignment){values, known_length ? known : &none, lesser(values_length, known_length)});
}

/* ---- writing */

typedef struct {
    const columns *t;
    const uint8_t *text;
    size_t text_length;
    uint32_t first;
    int plain;
    uint8_t *out;
    size_t length;
} writing;

#define PUT(w, ...) ((w)->length += (size_t)sprintf((char *)(w)->out + (w)->length, __VA_ARGS__))

/* the kind of the row in the words of a file: a clause is an "at least" */
static int printed_kind(uint8_t kind) {
    if (kind == OPB_CLAUSE) return OPB_AT_LEAST;
    return kind > OPB_CLAUSE ? kind - OPB_CARDINALITY_AT_LEAST + OPB_AT_LEAST : kind;
}

/* 11, 15 */
static int put_comment(writing *w, size_t row) {
    size_t first = w->t->firsts[row], count = w->t->counts[row];
    if (first > w->text_length || count > w->text_length - first) return 11;
    if (count > 0 && memchr(w->text + first, '\n', count)) return 15;
    PUT(w, "* ");
    if (count > 0) memcpy(w->out + w->length, w->text + first, count);
    w->length += count;
    PUT(w, "\n");
    return 0;
}

/* Terms with their file numbers, in the mode, each literal negated where `flip` is 1. Answers 11 or 5 or 0; `fall` is what no-negated mode takes from the bound. */
static int put_terms(writing *w, size_t row, int flip, __int128 *fall) {
    int beyond = 0, objective = w->t->kinds[row] == OPB_OBJECTIVE;
    *fall = 0;
    for (size_t i = w->t->firsts[row]; i < w->t->firsts[row] + w->t->counts[row]; i++) {
        int64_t weighs = weight(w->t, row, i);
        unsigned long long file_number = (unsigned long long)(w->t->literals[i] / 2) + w->first;
        int negated = (int)(w->t->literals[i] % 2) ^ flip;
        if (weighs < 0) return 11;
        if (file_number > 4294967295) beyond = 5;
        if (negated && w->plain) *fall += weighs;
        PUT(w, "%s%lld %sx%llu%s", objective ? " " : "", (long long)(negated && w->plain ? -weighs : weighs), negated && !w->plain ? "~" : "", file_number, objective ? "" : " ");
    }
    return beyond;
}

/* 8 for the bound before and after the fall, or the offset; else the end of the line */
static int put_end(writing *w, int kind, __int128 before, __int128 after) {
    if (!fits(before) || !fits(after)) return 8;
    if (kind != OPB_OBJECTIVE) {
        PUT(w, "%s %lld;\n", kind == OPB_EQUAL ? "=" : ">=", (long long)after);
        return 0;
    }
    PUT(w, ";\n");
    if (after != 0) PUT(w, "* objective offset for previous objective: %lld\n", (long long)after);
    return 0;
}

/* 11, 15, 13, 5, 8 */
static int put_row(writing *w, size_t row) {
    const columns *t = w->t;
    uint8_t kind = t->kinds[row];
    __int128 fall, bound = kind == OPB_CLAUSE ? 1 : t->bounds[row];
    int printed = printed_kind(kind), flip = printed == OPB_AT_MOST;
    if (kind == OPB_COMMENT) return put_comment(w, row);
    if (kind > OPB_CARDINALITY_EQUAL || outside(t, row) || (kind > OPB_CLAUSE && bound < 0)) return 11;
    if (printed == OPB_OBJECTIVE) PUT(w, "min:");
    int refusal = put_terms(w, row, flip, &fall);
    if (refusal == 11) return 11;
    if (printed != OPB_OBJECTIVE && t->counts[row] == 0) return 13;
    if (refusal) return refusal;
    __int128 sum = sizes(t, row);
    if (sum > INT64_MAX) return 8;
    if (flip) bound = sum - bound;
    return put_end(w, printed, bound, printed == OPB_OBJECTIVE ? bound + fall : bound - fall);
}

opb_text model_write(const columns *t, const uint8_t *text, size_t text_length, uint32_t first, int plain, uint8_t *out) {
    writing w = {t, text, text_length, first, plain, out, 0};
    for (size_t row = 0; row < row_room(t); row++) {
        int refusal = put_row(&w, row);
        if (refusal) return (opb_text){.refusal = (uint8_t)refusal, .place = row};
    }
    return (opb_text){.length = w.length};
}

/* ---- listing */

/* 5: a file number beyond u32 */
static int unnumbered(const columns *t, size_t row, uint32_t first) {
    for (size_t i = t->firsts[row]; i < t->firsts[row] + t->counts[row]; i++)
        if ((unsigned long long)(t->literals[i] / 2) + first > 4294967295) return 1;
    return 0;
}

/* 11, then 5, or 0 and the count of terms added */
static int count_row(const columns *t, size_t row, uint32_t first, size_t *terms) {
    if (t->kinds[row] == OPB_COMMENT) return 0;
    if (t->kinds[row] > OPB_OBJECTIVE || outside(t, row)) return 11;
    if (unnumbered(t, row, first)) return 5;
    *terms += t->counts[row];
    return 0;
}

static void put_house_line(writing *w, size_t row) {
    static const char *const words[] = {"c", "ge", "le", "eq", "min"};
    const columns *t = w->t;
    PUT(w, "%s", words[t->kinds[row]]);
    if (t->kinds[row] == OPB_COMMENT) {
        PUT(w, "\t%zu\n", t->counts[row]);
        return;
    }
    PUT(w, "\t%lld", (long long)t->bounds[row]);
    for (size_t i = t->firsts[row]; i < t->firsts[row] + t->counts[row]; i++)
        PUT(w, "\t%lld\t%sx%llu", (long long)t->weights[i], t->literals[i] % 2 ? "~" : "", (unsigned long long)(t->literals[i] / 2) + w->first);
    PUT(w, "\n");
}

static void put_house(writing *w, size_t rows, size_t terms) {
    PUT(w, "opb\t%zu\t%zu\t%lu\n", rows, terms, (unsigned long)w->first);
    for (size_t row = 0; row < rows; row++) put_house_line(w, row);
}

opb_text model_list(const columns *t, size_t rows, uint32_t first, uint8_t *out) {
    writing w = {t, NULL, 0, first, 0, out, 0};
    size_t terms = 0;
    rows = lesser(rows, row_room(t));
    for (size_t row = 0; row < rows; row++) {
        int refusal = count_row(t, row, first, &terms);
        if (refusal) return (opb_text){.refusal = (uint8_t)refusal, .place = row};
    }
    put_house(&w, rows, terms);
    return (opb_text){.length = w.length};
}
