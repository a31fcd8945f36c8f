/* The library's calls, with the fault that is planted, if any. The library itself is proved and cannot be built wrong: a fault is planted in what is handed to it or in what it answers, so that
 * the harness meets a wrong library of that kind. */
#include <stdio.h>
#include <string.h>
#include "fuzz.h"

#define SPREAD(c)                                                                                                                                                        \
    (c)->kinds, (c)->kinds_length, (c)->firsts, (c)->firsts_length, (c)->counts, (c)->counts_length, (c)->bounds, (c)->bounds_length, (c)->weights, (c)->weights_length, \
        (c)->literals, (c)->literals_length

enum {
    NONE, BOUND_OFF_BY_ONE, LESS_AS_AT_MOST, DROPPED_ROW, DROPPED_REST, MINUS_UNREAD, INDEX_LIMIT_OFF, COUNT_DISAGREES, NEEDED_MADE_UP, REFUSED_AND_FILLED, BEYOND_THE_COUNT, PAST_THE_END,
    BEFORE_THE_START, ONLY_COPIES, LESS_FOR_AT_MOST, ONES_MADE_UP, FLIP_WITHOUT_NEGATING, OFFSET_FORGOTTEN, OUTPUT_PAST_THE_END, LIST_LENGTH_OFF,
    KNOWN_NOT_LOOKED_AT, VALUE_NOT_KNOWN, REFUSED_AND_SET, LENGTH_FORGOTTEN, KNOWN_PAST_THE_END, ZERO_AS_STRING, UNKNOWN_AS_FALSE, JUDGED_AS_HELD, FAULTS
};

static const char *const names[FAULTS] = {
    [BOUND_OFF_BY_ONE] = "bound_off_by_one",           /* read: the bound of an "at most" row is one more */
    [LESS_AS_AT_MOST] = "less_as_at_most",             /* read: `< ` is taken for `<=` */
    [DROPPED_ROW] = "dropped_row",                     /* count, read: of two rows or more the last is missing */
    [DROPPED_REST] = "dropped_rest",                   /* count, read: the file ends, in silence, at a blank line */
    [MINUS_UNREAD] = "minus_unread",                   /* count, read: `-` before `x` is no negation */
    [INDEX_LIMIT_OFF] = "index_limit_off",             /* count, read: an index one above its limit is taken */
    [COUNT_DISAGREES] = "count_disagrees",             /* count: of five terms or more the last is missing */
    [NEEDED_MADE_UP] = "needed_made_up",               /* read, normalise: refusal 10 tells one term too few */
    [REFUSED_AND_FILLED] = "refused_and_filled",       /* read: a refused call has changed the first bound */
    [BEYOND_THE_COUNT] = "beyond_the_count",           /* read: the literal behind the last one is changed */
    [PAST_THE_END] = "past_the_end",                   /* read: a byte behind the file is looked at */
    [BEFORE_THE_START] = "before_the_start",           /* read: a byte before the file is looked at */
    [ONLY_COPIES] = "only_copies",                     /* normalise: weights and literals stay as they are */
    [LESS_FOR_AT_MOST] = "less_for_at_most",           /* evaluate: "at most" does not hold at its bound */
    [ONES_MADE_UP] = "ones_made_up",                   /* evaluate: the ones of the first word alone */
    [FLIP_WITHOUT_NEGATING] = "flip_without_negating", /* write: the literals of an "at most" row are not negated */
    [OFFSET_FORGOTTEN] = "offset_forgotten",           /* write: an objective's offset is taken as 0 */
    [OUTPUT_PAST_THE_END] = "output_past_the_end",     /* write: a byte behind a full output is written */
    [LIST_LENGTH_OFF] = "list_length_off",             /* list: the length needed is one too few */
    [KNOWN_NOT_LOOKED_AT] = "known_not_looked_at",     /* values: a conflict with what is known is not seen */
    [VALUE_NOT_KNOWN] = "value_not_known",             /* values: the variables met do not become known */
    [REFUSED_AND_SET] = "refused_and_set",             /* values: a block refused for its conflict has set a bit */
    [LENGTH_FORGOTTEN] = "length_forgotten",           /* values: the length is that of the block alone */
    [KNOWN_PAST_THE_END] = "known_past_the_end",       /* values: the word behind the known words is looked at */
    [ZERO_AS_STRING] = "zero_as_string",               /* values: `v 0` is a string of one variable */
    [UNKNOWN_AS_FALSE] = "unknown_as_false",           /* evaluate known: a variable that is not known is false */
    [JUDGED_AS_HELD] = "judged_as_held",               /* judge: every constraint holds */
};

static int fault;

int plant(const char *name) {
    for (fault = NONE + 1; fault < FAULTS; fault++)
        if (strcmp(names[fault], name) == 0) return 1;
    fault = NONE;
    return 0;
}

void print_faults(void) {
    for (int i = NONE + 1; i < FAULTS; i++) puts(names[i]);
}

/* ---- reading */

/* a copy of the file with each `from` of two bytes turned into `to` */
static const uint8_t *changed(const uint8_t *file, size_t length, const char *from, const char *to) {
    static uint8_t copy[TEXT];
    if (length > TEXT) return file;
    if (length) memcpy(copy, file, length);
    for (size_t i = 0; i + 1 < length; i++)
        if (memcmp(copy + i, from, 2) == 0) memcpy(copy + i, to, 2);
    return copy;
}

static const uint8_t *misread(const uint8_t *file, size_t length) {
    if (fault == LESS_AS_AT_MOST) return changed(file, length, "< ", "<=");
    if (fault == MINUS_UNREAD) return changed(file, length, "-x", " x");
    return file;
}

/* how much of the file a wrong library reads */
static size_t cut(const uint8_t *file, size_t length, uint32_t first) {
    if (fault != DROPPED_REST || length > OPB_FILE_LIMIT) return length;
    opb_table a = opb_count(file, length, first);
    return a.refusal == OPB_REFUSED_STATEMENT && file[a.place] == '\n' ? a.place : length;
}

static opb_table answered(opb_table a) {
    if (fault == DROPPED_ROW && a.rows > 1) a.rows--;
    if (fault == NEEDED_MADE_UP && a.refusal == OPB_REFUSED_TERMS) a.place--;
    return a;
}

/* an index one above its limit: with the first index one more it is within */
static int one_above(opb_table a, uint32_t first) {
    return fault == INDEX_LIMIT_OFF && a.refusal == OPB_REFUSED_VARIABLE && first < UINT32_MAX;
}

opb_table library_count(const uint8_t *file, size_t length, uint32_t first) {
    length = cut(file, length, first);
    file = misread(file, length);
    opb_table a = opb_count(file, length, first);
    if (one_above(a, first)) a = opb_count(file, length, first + 1).refusal ? a : opb_count(file, length, first + 1);
    if (fault == COUNT_DISAGREES && a.terms > 4) a.terms--;
    return answered(a);
}

static void raise_bounds(const columns *out, size_t rows) {
    for (size_t row = 0; row < rows; row++)
        if (out->kinds[row] == OPB_AT_MOST && out->bounds[row] < INT64_MAX) out->bounds[row]++;
}

static void misfill(opb_table a, const columns *out) {
    if (fault == BOUND_OFF_BY_ONE) raise_bounds(out, a.rows);
    if (fault == REFUSED_AND_FILLED && a.refusal == OPB_REFUSED_TERMS) out->bounds[0] = 0;
    if (fault == BEYOND_THE_COUNT && a.refusal == OPB_ACCEPTED && a.terms < out->literals_length) out->literals[a.terms] = 0;
}

static void look(const volatile uint8_t *byte) {
    (void)*byte;
}

static void move_up(uint32_t *literals, size_t terms) {
    for (size_t i = 0; i < terms; i++) literals[i] += 2;
}

opb_table library_read(const uint8_t *file, size_t length, uint32_t first, const columns *out) {
    length = cut(file, length, first);
    if (fault == PAST_THE_END && length > 0) look(file + length);
    if (fault == BEFORE_THE_START && length > 0) look(file - 1);
    file = misread(file, length);
    opb_table a = opb_read(file, length, first, SPREAD(out));
    if (one_above(a, first) && !opb_count(file, length, first + 1).refusal) {
        a = opb_read(file, length, first + 1, SPREAD(out));
        move_up(out->literals, a.terms);
    }
    misfill(a, out);
    return answered(a);
}

/* ---- tables */

opb_table library_normalise(const columns *t, const columns *out) {
    opb_table a = opb_normalise(SPREAD(t), SPREAD(out));
    if (fault == ONLY_COPIES && a.terms > 0 && a.terms == t->weights_length) {
        memcpy(out->weights, t->weights, a.terms * sizeof *t->weights);
        memcpy(out->literals, t->literals, a.terms * sizeof *t->literals);
    }
    return answered(a);
}

opb_value library_evaluate(const columns *t, size_t row, const uint64_t *words, size_t words_length) {
    opb_value a = opb_evaluate(SPREAD(t), row, words, words_length);
    if (a.refusal) return a;
    if (fault == LESS_FOR_AT_MOST && t->kinds[row] == OPB_AT_MOST && a.value == t->bounds[row]) a.holds = 0;
    if (fault == ONES_MADE_UP && words_length > 0) a.ones = (uint64_t)__builtin_popcountll(words[0]);
    return a;
}

static void look_at_word(const volatile uint64_t *word) {
    (void)*word;
}

opb_value library_evaluate_known(const columns *t, size_t row, const uint64_t *values, size_t values_length, const uint64_t *known, size_t known_length) {
    uint64_t meant[TEXT / 8];
    opb_value a = opb_evaluate_known(SPREAD(t), row, values, values_length, known, known_length);
    if (fault != UNKNOWN_AS_FALSE || a.refusal != OPB_REFUSED_ASSIGNMENT || values_length > known_length) return a;
    for (size_t i = 0; i < values_length; i++) meant[i] = values[i] & known[i];
    return opb_evaluate(SPREAD(t), row, meant, values_length);
}

opb_value library_judge(const columns *t, size_t row, const uint64_t *values, size_t values_length, const uint64_t *known, size_t known_length) {
    opb_value a = opb_judge(SPREAD(t), row, values, values_length, known, known_length);
    if (fault == JUDGED_AS_HELD && a.refusal == 0 && a.holds == 0) a.holds = 1;
    return a;
}

/* ---- value lines */

/* `v 0` for a string that says the same as a string of one false variable */
static int is_just_zero(const uint8_t *block, size_t length) {
    return length == 3 && memcmp(block, "v 0", 3) == 0;
}

opb_length library_values(const uint8_t *block, size_t block_length, uint64_t length, uint64_t *values, size_t values_length, uint64_t *known, size_t known_length) {
    static uint64_t before[TEXT / 8];
    size_t size = known_length * sizeof *known;
    if (fault == KNOWN_PAST_THE_END && block_length > 3) look_at_word(known + known_length);
    if (known_length) memcpy(before, known, size);
    if (fault == KNOWN_NOT_LOOKED_AT && known_length) memset(known, 0, size);
    if (fault == ZERO_AS_STRING && is_just_zero(block, block_length) && length < OPB_INDEX_LIMIT) length++;
    opb_length a = opb_values(block, block_length, fault == LENGTH_FORGOTTEN ? 0 : length, values, values_length, known, known_length);
    if (fault == KNOWN_NOT_LOOKED_AT)
        for (size_t i = 0; i < known_length; i++) known[i] |= before[i];
    if (fault == VALUE_NOT_KNOWN && known_length) memcpy(known, before, size);
    if (fault == REFUSED_AND_SET && a.refusal == OPB_REFUSED_CONFLICT && values_length) values[0] ^= 1;
    return a;
}

/* ---- texts */

/* the literals of "at most" rows that lie in their column, negated, so that the library's own negation undoes it */
static void negate(const columns *t, size_t row, uint32_t *literals) {
    for (size_t i = t->firsts[row]; i < t->firsts[row] + t->counts[row]; i++) literals[i] = t->literals[i] ^ 1;
}

static void miswrite(columns *t, store *copy) {
    for (size_t row = 0; row < row_room(t); row++) {
        int there = t->firsts[row] <= t->literals_length && t->counts[row] <= t->literals_length - t->firsts[row];
        copy->bounds[row] = fault == OFFSET_FORGOTTEN && t->kinds[row] == OPB_OBJECTIVE ? 0 : t->bounds[row];
        if (fault == FLIP_WITHOUT_NEGATING && t->kinds[row] == OPB_AT_MOST && there) negate(t, row, copy->literals);
    }
    t->bounds = copy->bounds;
    t->literals = copy->literals;
}

opb_text library_write(const columns *t, const uint8_t *text, size_t text_length, uint32_t first, int plain, uint8_t *out, size_t out_length) {
    static store copy;
    columns meant = *t;
    if (fault == OFFSET_FORGOTTEN || fault == FLIP_WITHOUT_NEGATING) {
        if (t->literals_length) memcpy(copy.literals, t->literals, t->literals_length * sizeof *t->literals);
        miswrite(&meant, &copy);
    }
    opb_text a = opb_write(SPREAD(&meant), text, text_length, first, (uint8_t)plain, out, out_length);
    if (fault == OUTPUT_PAST_THE_END && a.length > 0 && a.length == out_length) out[out_length] = 0;
    return a;
}

opb_text library_list(const columns *t, size_t rows, uint32_t first, uint8_t *out, size_t out_length) {
    opb_text a = opb_list(SPREAD(t), rows, first, out, out_length);
    if (fault == LIST_LENGTH_OFF && a.refusal == OPB_REFUSED_OUTPUT) a.place--;
    return a;
}
