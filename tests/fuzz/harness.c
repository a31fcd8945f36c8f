/* The fuzzing harness: from each input of libFuzzer it makes a file or a table, hands it to every call, and holds what the call answers and leaves against the model and against the other calls.
 *
 * An input is 16 bytes of options and then the file, or what a table is made of. Options: byte 0 the first index, 1 to 6 the lengths of the six columns, 7 flags, 8 to 11 the seed of what is
 * random (assignments, rooms), 12 to 15 a first index where byte 0 asks for any. What is missing is 0. A file that begins with `v` is blocks of value lines, parted by `|`; then bytes 1 and 2
 * are the words of both rows, 3 the length before, and what the rows have is random.
 *
 * Environment: OPB_FUZZ_FAULT plants a fault (library.c), OPB_FUZZ_FINDING is where the smallest failing input goes. */
#include <setjmp.h>
#include <signal.h>
#include <stdio.h>
#include <stdlib.h>
#include <string.h>
#include <time.h>
#include <unistd.h>
#include "fuzz.h"

/* No input is longer. */
enum { INPUT = 2048 };
/* pieces of lent memory; a table has six */
enum { FILE_LENT = 0, TABLE = 1, FILLED = 7, WORDS = 13, OUT = 14, NORMAL = 15, FILE_AGAIN = 21, KNOWN = 22 };
enum { COUNT, READ, NORMALISE, EVALUATE, EVALUATE_KNOWN, WRITE, LIST, VALUES, CALLS };
enum { NUMBERS = 24, WORDS_MOST = 64 };

typedef struct {
    uint8_t options[OPTIONS];
    const uint8_t *rest;
    size_t length;
    uint32_t first;
} input;

/* ---- what guides the fuzzer beside the branches of the model, and is counted for the summary: the answers of each call */

__attribute__((section("__libfuzzer_extra_counters"))) static uint8_t guides[CALLS * NUMBERS + 64];
static uint64_t answers[CALLS][NUMBERS];
static uint64_t executions;
static struct timespec start;

static void note(int call, uint8_t refusal) {
    answers[call][refusal % NUMBERS]++;
    guides[call * NUMBERS + refusal % NUMBERS] = 1;
}

/* a count, by its power of two */
static void note_count(int which, uint64_t count) {
    guides[CALLS * NUMBERS + which * 16 + (count ? 64 - __builtin_clzll(count) : 0) % 16] = 1;
}

static double seconds(void) {
    struct timespec now;
    clock_gettime(CLOCK_MONOTONIC, &now);
    return (double)(now.tv_sec - start.tv_sec) + (double)(now.tv_nsec - start.tv_nsec) / 1e9;
}

static void print_call(int call) {
    static const char *const names[CALLS] = {"count", "read", "normalise", "evaluate", "evaluate known", "write", "list", "values"};
    printf("%-14s accepted %llu", names[call], (unsigned long long)answers[call][0]);
    for (int i = 1; i < NUMBERS; i++)
        if (answers[call][i]) printf(", %d: %llu", i, (unsigned long long)answers[call][i]);
    printf("\n");
}

static void print_summary(void) {
    printf("%llu executions in %.1f s. Answers of each call, refusals by number:\n", (unsigned long long)executions, seconds());
    for (int call = 0; call < CALLS; call++) print_call(call);
    fflush(stdout);
}

/* ---- findings: a check that fails, or a trap, jumps back to `fails` */

static sigjmp_buf back;
static const char *finding;

static void check(int holds, const char *what) {
    if (holds) return;
    finding = what;
    siglongjmp(back, 1);
}

static void trapped(int number) {
    (void)number;
    check(0, "memory that was not lent was touched");
}

/* ---- random numbers, from the input alone */

static uint64_t state;

static uint64_t any(void) {
    uint64_t z = state += 0x9E3779B97F4A7C15;
    z = (z ^ z >> 30) * 0xBF58476D1CE4E5B9;
    z = (z ^ z >> 27) * 0x94D049BB133111EB;
    return z ^ z >> 31;
}

/* ---- lent tables */

/* lengths of six columns for so many rows and terms: exact, one too short, one longer, longer, shorter */
static lengths chosen(size_t rows, size_t terms, const uint8_t *choice) {
    lengths n;
    for (int i = 0; i < 6; i++) {
        size_t exact = i < 4 ? rows : terms, more = choice[i] / 8;
        size_t cases[8] = {exact, exact, exact, exact, exact ? exact - 1 : 0, exact + 1, exact + more, exact < more ? 0 : exact - more};
        n.of[i] = cases[choice[i] % 8];
    }
    return n;
}

static const uint8_t all_exact[6], too_short[2][6] = {{[1] = 4}, {[5] = 4}};

static columns lend_table(int piece, const store *s, const lengths *n) {
    columns c = {.kinds_length = n->of[0], .firsts_length = n->of[1], .counts_length = n->of[2], .bounds_length = n->of[3], .weights_length = n->of[4], .literals_length = n->of[5]};
    c.kinds = lend(piece, s ? s->kinds : NULL, n->of[0] * sizeof *c.kinds);
    c.firsts = lend(piece + 1, s ? s->firsts : NULL, n->of[1] * sizeof *c.firsts);
    c.counts = lend(piece + 2, s ? s->counts : NULL, n->of[2] * sizeof *c.counts);
    c.bounds = lend(piece + 3, s ? s->bounds : NULL, n->of[3] * sizeof *c.bounds);
    c.weights = lend(piece + 4, s ? s->weights : NULL, n->of[4] * sizeof *c.weights);
    c.literals = lend(piece + 5, s ? s->literals : NULL, n->of[5] * sizeof *c.literals);
    return c;
}

static int same(const void *a, const void *b, size_t size) {
    return size == 0 || memcmp(a, b, size) == 0;
}

/* The first `rows` and `terms` entries are the model's, all others as they were lent. */
static void check_columns(int piece, const columns *c, const store *s, size_t rows, size_t terms) {
    check(same(c->kinds, s->kinds, rows * sizeof *s->kinds), "a kind differs");
    check(same(c->firsts, s->firsts, rows * sizeof *s->firsts), "a first term differs");
    check(same(c->counts, s->counts, rows * sizeof *s->counts), "a count of terms differs");
    check(same(c->bounds, s->bounds, rows * sizeof *s->bounds), "a bound differs");
    check(same(c->weights, s->weights, terms * sizeof *s->weights), "a weight differs");
    check(same(c->literals, s->literals, terms * sizeof *s->literals), "a literal differs");
    check(as_lent(piece, rows * sizeof *s->kinds) && as_lent(piece + 1, rows * sizeof *s->firsts) && as_lent(piece + 2, rows * sizeof *s->counts) &&
              as_lent(piece + 3, rows * sizeof *s->bounds) && as_lent(piece + 4, terms * sizeof *s->weights) && as_lent(piece + 5, terms * sizeof *s->literals),
          "an entry that is not counted was changed");
}

static void check_kept(int piece, int count) {
    for (int i = 0; i < count; i++) check(as_lent(piece + i, 0), "what was lent to be read was changed");
}

/* ---- answers */

/* 9, 10: rows, terms do not fit */
static opb_table roomed(opb_table a, const columns *c) {
    if (a.refusal == 0 && a.rows > row_room(c)) return (opb_table){.refusal = 9, .place = a.rows};
    if (a.refusal == 0 && a.terms > term_room(c)) return (opb_table){.refusal = 10, .place = a.terms};
    return a;
}

static opb_text roomed_text(opb_text a, size_t room) {
    return a.refusal == 0 && a.length > room ? (opb_text){.refusal = 14, .place = a.length} : a;
}

static void check_answer(opb_table a, opb_table model) {
    check(a.refusal == model.refusal, "the refusal differs");
    check(a.place == model.place, "the place differs");
    check(a.rows == model.rows && a.terms == model.terms, "the count of rows or terms differs");
}

/* ---- reading */

/* a file that is lent, and what the model says of it */
typedef struct {
    const uint8_t *file;
    size_t length;
    uint32_t first;
    opb_table model;
    const store *rows;
} read_file;

static void check_filling(const read_file *f, const uint8_t *choice) {
    lengths n = chosen(f->model.rows, f->model.terms, choice);
    columns c = lend_table(FILLED, NULL, &n);
    opb_table a = library_read(f->file, f->length, f->first, &c);
    note(READ, a.refusal);
    check_answer(a, roomed(f->model, &c));
    check_columns(FILLED, &c, f->rows, a.rows, a.terms);
}

/* The file through count and read, held against the model, whose rows go to `s`. */
static opb_table check_reading(int piece, const uint8_t *content, size_t length, uint32_t first, const uint8_t *choice, store *s) {
    read_file f = {lend(piece, content, length), length, first, model_read(content, length, first, s), s};
    opb_table a = library_count(f.file, length, first);
    note(COUNT, a.refusal);
    check_answer(a, f.model);
    note_count(0, a.rows);
    note_count(1, a.terms);
    check_filling(&f, choice);
    check_filling(&f, too_short[any() % 2]);
    check_kept(piece, 1);
    return f.model;
}

/* 1: a file above the limit is not even looked at */
static void check_above_limit(uint32_t first) {
    size_t length = (size_t)OPB_FILE_LIMIT + 1;
    columns none = {0};
    opb_table model = {.refusal = 1}, a = library_count(lend_untouchable(length), length, first);
    note(COUNT, a.refusal);
    check_answer(a, model);
    a = library_read(lend_untouchable(length), length, first, &none);
    note(READ, a.refusal);
    check_answer(a, model);
}

/* ---- normalising */

static void check_normalising(const columns *t, const uint8_t *choice, opb_table model, const store *s) {
    lengths n = chosen(model.rows, model.terms, choice);
    columns c = lend_table(FILLED, NULL, &n);
    opb_table a = library_normalise(t, &c);
    note(NORMALISE, a.refusal);
    check_answer(a, roomed(model, &c));
    check_columns(FILLED, &c, s, a.rows, a.terms);
    check_kept(TABLE, 6);
}

/* ---- evaluating */

static uint32_t greatest(const columns *t) {
    uint32_t most = 0;
    for (size_t i = 0; i < t->literals_length; i++)
        if (t->literals[i] / 2 > most) most = t->literals[i] / 2;
    return most;
}

/* a random assignment for the table's variables, in one case of four a word too short or too long; answers how many words */
static size_t assign(const columns *t, const uint64_t **words) {
    static uint64_t content[WORDS_MOST + 1];
    size_t count = greatest(t) / 64 + 1;
    if (count > WORDS_MOST) count = WORDS_MOST;
    uint64_t r = any();
    if (r % 4 == 0) count = r % 8 ? count + 1 : count - 1;
    for (size_t i = 0; i < count; i++) content[i] = any();
    *words = lend(WORDS, content, count * sizeof *content);
    return count;
}

static opb_value check_value(const columns *t, size_t row, const uint64_t *words, size_t count) {
    opb_value model = model_evaluate(t, row, words, count), a = library_evaluate(t, row, words, count);
    note(EVALUATE, a.refusal);
    check(a.refusal == model.refusal && a.place == model.place, "evaluating, the refusal or place differs");
    check(a.value == model.value, "a sum or value differs");
    check(a.holds == model.holds, "whether a row holds differs");
    check(a.ones == model.ones, "the ones differ");
    return a;
}

/* Words that say what is known: as many as there are values, one less, or one more; all known, nearly all, or any. */
static size_t lend_known(size_t count, const uint64_t **known) {
    static uint64_t content[WORDS_MOST + 2];
    uint64_t r = any();
    if (r % 4 == 0) count = r % 8 || count == 0 ? count + 1 : count - 1;
    for (size_t i = 0; i < count; i++) content[i] = r / 8 % 3 == 0 ? UINT64_MAX : r / 8 % 3 == 1 ? any() | any() | any() | any() : any();
    *known = lend(KNOWN, content, count * sizeof *content);
    return count;
}

/* A row under an assignment whose variables may be unknown; what is accepted is what all being known gives, but for the ones. */
static void check_known_value(const columns *t, size_t row, const uint64_t *words, size_t count, opb_value all) {
    const uint64_t *known;
    size_t known_count = lend_known(count, &known);
    opb_value model = model_evaluate_known(t, row, words, count, known, known_count), a = library_evaluate_known(t, row, words, count, known, known_count);
    note(EVALUATE_KNOWN, a.refusal);
    check(a.refusal == model.refusal && a.place == model.place, "evaluating what is known, the refusal or place differs");
    check(a.value == model.value && a.holds == model.holds, "evaluating what is known, a sum, a value or whether a row holds differs");
    check(a.ones == model.ones, "evaluating what is known, the ones differ");
    opb_value j = library_judge(t, row, words, count, known, known_count);
    check(j.refusal == model.refusal && j.place == model.place, "judging, the refusal or place differs");
    check(j.value == model.value && j.holds == model.holds && j.ones == 0, "judging, a sum, a value or whether a row holds differs");
    check(a.refusal || (all.refusal == 0 && a.value == all.value && a.holds == all.holds && a.ones <= all.ones), "what is known gives another value than all does");
    check_kept(KNOWN, 1);
}

/* every row before and after normalising, and the row that is missing */
static void check_values(const columns *t, const columns *normal) {
    const uint64_t *words;
    size_t count = assign(t, &words);
    for (size_t row = 0; row <= row_room(t); row++) {
        opb_value a = check_value(t, row, words, count), b = check_value(normal, row, words, count);
        check_known_value(t, row, words, count, a);
        check(a.refusal == b.refusal && a.holds == b.holds, "normalising changes whether a row holds");
        check(a.holds != 2 || a.value == b.value, "normalising changes an objective's value");
    }
    check_kept(TABLE, 6);
    check_kept(WORDS, 1);
}

static void check_values_alone(const columns *t) {
    const uint64_t *words;
    size_t count = assign(t, &words);
    for (size_t row = 0; row <= row_room(t); row++) check_known_value(t, row, words, count, check_value(t, row, words, count));
    check_kept(TABLE, 6);
    check_kept(WORDS, 1);
}

/* ---- texts */

static void check_text(opb_text a, opb_text model, const uint8_t *out, const uint8_t *text) {
    check(a.refusal == model.refusal, "writing or listing, the refusal differs");
    check(a.place == model.place, "writing or listing, the place differs");
    check(a.length == model.length, "writing or listing, the length differs");
    check(same(out, text, a.length), "a text differs");
    check(as_lent(OUT, a.length), "a byte that is not counted was changed");
}

typedef struct {
    const columns *t;
    const uint8_t *text;
    size_t text_length;
    uint32_t first;
    int plain;
} written;

static void check_write(const written *w, size_t room, opb_text model, const uint8_t *text) {
    uint8_t *out = lend(OUT, NULL, room);
    opb_text a = library_write(w->t, w->text, w->text_length, w->first, w->plain, out, room);
    note(WRITE, a.refusal);
    check_text(a, roomed_text(model, room), out, text);
    check_kept(FILE_LENT, 7);
}

static void check_list(const written *w, size_t rows, size_t room, opb_text model, const uint8_t *text) {
    uint8_t *out = lend(OUT, NULL, room);
    opb_text a = library_list(w->t, rows, w->first, out, room);
    note(LIST, a.refusal);
    check_text(a, roomed_text(model, room), out, text);
    check_kept(TABLE, 6);
}

static void check_listing(const written *w, size_t rows) {
    static uint8_t text[TEXT];
    opb_text model = model_list(w->t, rows, w->first, text);
    check_list(w, rows, model.length, model, text);
    if (model.length) check_list(w, rows, model.length - 1, model, text);
}

/* ---- writing, then reading: every row comes back in its order and means what it meant */


/* rows that can be evaluated: clause and cardinality rows with the weights and bounds that they are taken to have */
static size_t spell_terms(const columns *t, size_t row, store *s, size_t terms) {
    size_t count = t->kinds[row] == OPB_COMMENT ? 0 : t->counts[row];
    for (size_t i = 0; i < count; i++) {
        s->weights[terms + i] = t->kinds[row] > OPB_OBJECTIVE ? 1 : t->weights[t->firsts[row] + i];
        s->literals[terms + i] = t->literals[t->firsts[row] + i];
    }
    return count;
}

static columns spelt_out(const columns *t, store *s) {
    size_t rows = row_room(t), terms = 0;
    for (size_t row = 0; row < rows; row++) {
        uint8_t kind = t->kinds[row];
        s->kinds[row] = kind == OPB_CLAUSE ? OPB_AT_LEAST : kind > OPB_CLAUSE ? kind - OPB_CARDINALITY_AT_LEAST + OPB_AT_LEAST : kind;
        s->bounds[row] = kind == OPB_CLAUSE ? 1 : t->bounds[row];
        s->firsts[row] = terms;
        s->counts[row] = spell_terms(t, row, s, terms);
        terms += s->counts[row];
    }
    return (columns){s->kinds, rows, s->firsts, rows, s->counts, rows, s->bounds, rows, s->weights, terms, s->literals, terms};
}

/* a file that was written, the rows that it was written from, and the rows that were read from it */
typedef struct {
    const written *w;
    const columns *meant, *again;
    const uint8_t *file;
    const uint64_t *words;
    size_t words_length;
} returned;

/* The comment has this text; a CR at its end has become part of the line ending. */
static void check_comment(const returned *r, size_t at, const uint8_t *text, size_t length) {
    if (length && text[length - 1] == '\r') length--;
    check(at < row_room(r->again) && r->again->kinds[at] == OPB_COMMENT && r->again->counts[at] == length, "written and read again, a comment differs");
    check(same(r->file + r->again->firsts[at], text, length), "written and read again, a comment's text differs");
}

/* an objective's offset, as it is to be printed */
static int64_t offset(const returned *r, size_t row) {
    int64_t sum = r->meant->bounds[row];
    for (size_t i = 0; i < r->meant->counts[row]; i++)
        if (r->w->plain && r->meant->literals[r->meant->firsts[row] + i] % 2) sum += r->meant->weights[r->meant->firsts[row] + i];
    return sum;
}

/* The row came back as the one at `at`, and means the same; answers how many rows it came back as. */
static size_t check_row_again(const returned *r, size_t row, size_t at) {
    uint8_t kind = r->meant->kinds[row];
    char line[80];
    if (kind == OPB_COMMENT) {
        size_t count = r->w->t->counts[row];
        check_comment(r, at, count ? r->w->text + r->w->t->firsts[row] : NULL, count);
        return 1;
    }
    check(at < row_room(r->again) && r->again->kinds[at] == (kind == OPB_AT_MOST ? OPB_AT_LEAST : kind), "written and read again, a kind differs");
    opb_value a = model_evaluate(r->meant, row, r->words, r->words_length), b = library_evaluate(r->again, at, r->words, r->words_length);
    if (kind != OPB_OBJECTIVE) {
        check(a.refusal == b.refusal && a.holds == b.holds, "written and read again, whether a row holds differs");
        return 1;
    }
    int64_t more = offset(r, row);
    check(a.refusal || (b.refusal == 0 && a.value == (__int128)b.value + more), "written and read again, an objective's value differs");
    if (more == 0) return 1;
    check_comment(r, at + 1, (uint8_t *)line, (size_t)snprintf(line, sizeof line, "objective offset for previous objective: %lld", (long long)more));
    return 2;
}

static void check_again(returned *r) {
    size_t at = 0;
    r->words_length = assign(r->again, &r->words);
    for (size_t row = 0; row < row_room(r->meant); row++) at += check_row_again(r, row, at);
    check(at == row_room(r->again), "written and read again, there are more rows");
}

static void check_writing(const written *w) {
    static uint8_t text[TEXT];
    static store meant_store, again_store;
    opb_text model = model_write(w->t, w->text, w->text_length, w->first, w->plain, text);
    check_write(w, model.length, model, text);
    check_write(w, any() % 2 ? 0 : model.length + any() % 64, model, text);
    if (model.length) check_write(w, model.length - 1, model, text);
    if (model.refusal) return;
    opb_table a = check_reading(FILE_AGAIN, text, model.length, w->first, all_exact, &again_store);
    check(a.refusal == OPB_ACCEPTED, "what was written is not read");
    lengths n = chosen(a.rows, a.terms, all_exact);
    columns meant = spelt_out(w->t, &meant_store), again = lend_table(NORMAL, &again_store, &n);
    returned r = {w, &meant, &again, text, NULL, 0};
    check_again(&r);
    check_again(&r);
}

/* ---- one input */

static void check_normal_table(const columns *t) {
    static store normal;
    opb_table model = model_normalise(t, &normal);
    check_normalising(t, all_exact, model, &normal);
    check_normalising(t, too_short[any() % 2], model, &normal);
    if (model.refusal) {
        check_values_alone(t);
        return;
    }
    lengths n = chosen(model.rows, model.terms, all_exact);
    columns after = lend_table(NORMAL, &normal, &n);
    check_values(t, &after);
    check_values(t, &after);
}

/* A table, whose comments point into `text`, which is also lent as the file: through every call. */
static void check_table(const columns *t, const uint8_t *text, size_t text_length, const input *in) {
    const uint8_t *lent = lend(FILE_LENT, text, text_length);
    check_normal_table(t);
    written w = {t, lent, text_length, in->first, 0};
    check_writing(&w);
    w.plain = in->options[8] | 1;
    check_writing(&w);
    check_listing(&w, row_room(t));
    check_listing(&w, any() % (row_room(t) + 2));
}

static void check_file(const input *in) {
    static store rows;
    opb_table a = check_reading(FILE_LENT, in->rest, in->length, in->first, in->options + 1, &rows);
    if (a.refusal) return;
    lengths n = chosen(a.rows, a.terms, all_exact);
    columns t = lend_table(TABLE, &rows, &n);
    check_table(&t, in->rest, in->length, in);
}

/* ---- arbitrary tables, made of the bytes of the input; in the place of missing ones 0 */

static uint8_t take(input *in) {
    if (in->length == 0) return 0;
    in->length--;
    return *in->rest++;
}

/* mostly within the column, at times far beyond */
static size_t take_place(input *in, size_t terms) {
    static const size_t far[] = {SIZE_MAX, SIZE_MAX - 1, (size_t)1 << 63, (size_t)1 << 32};
    uint8_t b = take(in);
    return b < 240 ? b % (terms + 2) : far[b % 4];
}

static int64_t take_number(input *in) {
    static const int64_t ends[] = {INT64_MIN, INT64_MIN + 1, INT64_MAX, INT64_MAX - 1, INT64_MIN / 2, INT64_MAX / 2, INT64_MAX / 2 + 1, 1000000000000};
    uint8_t b = take(in);
    return b < 128 ? b : b < 160 ? 128 - b : ends[b % 8];
}

static uint32_t take_literal(input *in) {
    static const uint32_t ends[] = {2147483647, 2147483646, 2147483648, UINT32_MAX, 130, 8191, 8192, 1 << 20};
    uint8_t b = take(in);
    return b < 192 ? b % 16 : ends[b % 8];
}

static void take_row(input *in, store *s, size_t row, size_t terms) {
    uint8_t b = take(in);
    s->kinds[row] = b < 252 ? b % 9 : b;
    s->firsts[row] = take_place(in, terms);
    s->counts[row] = take_place(in, terms - (s->firsts[row] < terms ? s->firsts[row] : terms));
    s->bounds[row] = take_number(in);
}

static void take_terms(input *in, store *s, size_t terms) {
    for (size_t i = 0; i < terms; i++) {
        s->weights[i] = take_number(in);
        s->literals[i] = take_literal(in);
    }
}

/* what a column that is longer than the others ends with; no call looks there */
static void fill_ends(store *s, size_t rows, size_t terms) {
    for (size_t i = 0; i < 64; i++) {
        s->kinds[rows + i] = 200;
        s->firsts[rows + i] = s->counts[rows + i] = SIZE_MAX;
        s->bounds[rows + i] = s->weights[terms + i] = INT64_MIN;
        s->literals[terms + i] = UINT32_MAX;
    }
}

static void check_any_table(input *in) {
    static store s;
    size_t rows = take(in) % 6, terms = take(in) % 12;
    fill_ends(&s, rows, terms);
    take_terms(in, &s, terms);
    for (size_t row = 0; row < rows; row++) take_row(in, &s, row, terms);
    lengths n = chosen(rows, terms, in->options + 1);
    columns t = lend_table(TABLE, &s, &n);
    check_table(&t, in->rest, in->length, in);
}

/* ---- blocks of value lines */

/* an assignment, as the model leaves it */
typedef struct {
    uint64_t length, values[WORDS_MOST], known[WORDS_MOST];
    size_t values_length, known_length;
} assignment;

static void check_block(const uint8_t *content, size_t length, assignment *now) {
    const uint8_t *block = lend(FILE_LENT, content, length);
    uint64_t *values = lend(WORDS, now->values, now->values_length * sizeof *values), *known = lend(KNOWN, now->known, now->known_length * sizeof *known);
    opb_length model = model_values(content, length, now->length, now->values, now->values_length, now->known, now->known_length);
    opb_length a = library_values(block, length, now->length, values, now->values_length, known, now->known_length);
    note(VALUES, a.refusal);
    check(a.refusal == model.refusal, "reading values, the refusal differs");
    check(a.place == model.place, "reading values, the place differs");
    check(a.length == model.length, "reading values, the length differs");
    check(same(values, now->values, now->values_length * sizeof *values), "a value differs");
    check(same(known, now->known, now->known_length * sizeof *known), "what is known differs");
    check_kept(FILE_LENT, 1);
    if (a.refusal == 0) now->length = a.length;
    note_count(2, a.length);
}

/* nothing known at first, or anything; a length of any size */
static assignment first_assignment(const uint8_t *options) {
    static const uint64_t far[] = {OPB_INDEX_LIMIT, (uint64_t)OPB_INDEX_LIMIT + 1, (uint64_t)OPB_INDEX_LIMIT + 2, UINT64_MAX};
    assignment a = {.values_length = options[1] % 8 < 6 ? 2 : options[1] / 8, .known_length = options[2] % 8 < 6 ? 2 : options[2] / 8};
    a.length = options[3] < 200 ? options[3] % 100 : far[options[3] % 4];
    for (size_t i = 0; i < WORDS_MOST; i++) {
        a.values[i] = options[4] % 2 ? any() : 0;
        a.known[i] = options[4] % 4 == 3 ? any() & any() & any() : 0;
    }
    return a;
}

/* The blocks, one after the other, on one assignment. */
static void check_blocks(const input *in) {
    assignment a = first_assignment(in->options);
    size_t at = 0;
    while (at <= in->length) {
        const uint8_t *end = at < in->length ? memchr(in->rest + at, '|', in->length - at) : NULL;
        size_t length = end ? (size_t)(end - in->rest) - at : in->length - at;
        check_block(in->rest + at, length, &a);
        at += length + 1;
    }
}

/* ---- libFuzzer's entries */

uint32_t first_of(const uint8_t *options) {
    static const uint32_t often[] = {1, 0, 5, UINT32_MAX};
    uint32_t any_first;
    memcpy(&any_first, options + 12, sizeof any_first);
    return options[0] % 8 < 4 ? often[options[0] % 4] : any_first;
}

static input options_of(const uint8_t *data, size_t size) {
    input in = {.rest = data, .length = 0};
    memcpy(in.options, data, size < OPTIONS ? size : OPTIONS);
    if (size > OPTIONS) in.rest = data + OPTIONS, in.length = size - OPTIONS;
    in.first = first_of(in.options);
    uint32_t seed;
    memcpy(&seed, in.options + 8, sizeof seed);
    state = seed;
    return in;
}

/* what is wrong, or NULL */
static const char *fails(const uint8_t *data, size_t size) {
    if (sigsetjmp(back, 0)) return finding;
    input in = options_of(data, size);
    lend_against(!(in.options[FLAGS] & AGAINST_START));
    if (in.options[FLAGS] / 4 == ABOVE_LIMIT) check_above_limit(in.first);
    if (in.options[FLAGS] & MAKES_TABLE) {
        check_any_table(&in);
    } else if (in.length > 0 && in.rest[0] == 'v') {
        check_blocks(&in);
    } else {
        check_file(&in);
    }
    return NULL;
}

/* ---- the smallest failing input: bytes of the file are left out, and options set to 0, as long as the same check fails */

static uint8_t smallest[INPUT];
static size_t smallest_size;

static int fails_too(const uint8_t *data, size_t size, const char *what) {
    const char *now = fails(data, size);
    if (!now || strcmp(now, what) != 0) return 0;
    memmove(smallest, data, size);
    smallest_size = size;
    return 1;
}

static void leave_out(size_t chunk, const char *what) {
    static uint8_t shorter[INPUT];
    size_t at = OPTIONS;
    while (at + chunk <= smallest_size) {
        memcpy(shorter, smallest, at);
        memcpy(shorter + at, smallest + at + chunk, smallest_size - at - chunk);
        if (!fails_too(shorter, smallest_size - chunk, what)) at++;
    }
}

static void clear_options(const char *what) {
    uint8_t cleared[INPUT];
    for (size_t i = 0; i < OPTIONS && i < smallest_size; i++) {
        memcpy(cleared, smallest, smallest_size);
        cleared[i] = 0;
        fails_too(cleared, smallest_size, what);
    }
}

static void minimise(const uint8_t *data, size_t size, const char *what) {
    memcpy(smallest, data, size);
    smallest_size = size;
    clear_options(what);
    for (int round = 0; round < 12; round++) leave_out(round < 8 ? (size_t)256 >> round : 1, what);
}

static void print_bytes(const uint8_t *bytes, size_t count) {
    for (size_t i = 0; i < count; i++) {
        if (bytes[i] >= ' ' && bytes[i] < 127 && bytes[i] != '\\') {
            putchar(bytes[i]);
        } else {
            printf("\\x%02x", bytes[i]);
        }
    }
    putchar('\n');
}

static void report(const uint8_t *data, size_t size, const char *what) {
    uint64_t count = executions;
    double after = seconds();
    const char *path = getenv("OPB_FUZZ_FINDING");
    print_summary();
    minimise(data, size, what);
    printf("finding: %s\nfound after %llu executions, %.1f s; smallest input: options ", what, (unsigned long long)count, after);
    for (size_t i = 0; i < OPTIONS && i < smallest_size; i++) printf("%02x", smallest[i]);
    printf(", then\n");
    print_bytes(smallest + OPTIONS, smallest_size > OPTIONS ? smallest_size - OPTIONS : 0);
    FILE *f = path ? fopen(path, "wb") : NULL;
    if (f) {
        fwrite(smallest, 1, smallest_size, f);
        fclose(f);
    }
    fflush(stdout);
    _exit(1);
}

int LLVMFuzzerTestOneInput(const uint8_t *data, size_t size) {
    if (size > INPUT) return 0;
    executions++;
    const char *what = fails(data, size);
    if (what) report(data, size, what);
    return 0;
}

int LLVMFuzzerInitialize(int *count, char ***words) {
    struct sigaction trap = {.sa_handler = trapped, .sa_flags = SA_NODEFER};
    const char *name = getenv("OPB_FUZZ_FAULT");
    (void)count;
    (void)words;
    if (name && strcmp(name, "list") == 0) {
        print_faults();
        exit(0);
    }
    if (name && *name && !plant(name)) {
        fprintf(stderr, "there is no fault %s\n", name);
        exit(2);
    }
    make_pieces();
    sigaction(SIGSEGV, &trap, NULL);
    sigaction(SIGBUS, &trap, NULL);
    clock_gettime(CLOCK_MONOTONIC, &start);
    atexit(print_summary);
    return 0;
}
