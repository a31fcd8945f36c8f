/* The calls of libopb.a from C: what each answers, each refusal with its place, and that a refused call changes nothing. Prints what failed and, last, 'N passed, M failed'. */
#include <stdio.h>
#include <string.h>
#include <sys/mman.h>
#include "opb.h"

static int passed, failed;

static void check(int holds, const char *what) {
    if (holds) {
        passed++;
        return;
    }
    failed++;
    printf("failed: %s\n", what);
}

/* ---- tables */

enum { ROOM = 16 };

typedef struct {
    uint8_t kinds[ROOM];
    size_t firsts[ROOM], counts[ROOM];
    int64_t bounds[ROOM], weights[ROOM];
    uint32_t literals[ROOM];
} table;

/* six columns as a call takes them, each with so many entries for rows or terms */
#define COLUMNS(t, rows, terms) \
    (t).kinds, (rows), (t).firsts, (rows), (t).counts, (rows), (t).bounds, (rows), (t).weights, (terms), (t).literals, (terms)
#define NO_COLUMNS NULL, 0, NULL, 0, NULL, 0, NULL, 0, NULL, 0, NULL, 0

static table blank(void) {
    table t;
    memset(&t, 0xAA, sizeof t);
    return t;
}

static int unchanged(const table *t) {
    table b = blank();
    return memcmp(t, &b, sizeof b) == 0;
}

static opb_table read_text(const char *text, uint32_t first, table *t, size_t rows, size_t terms) {
    return opb_read((const uint8_t *)text, strlen(text), first, COLUMNS(*t, rows, terms));
}

static int is_table(opb_table a, uint64_t rows, uint64_t terms) {
    return a.refusal == OPB_ACCEPTED && a.place == 0 && a.rows == rows && a.terms == terms;
}

static int table_refused(opb_table a, uint8_t number, uint64_t place) {
    return a.refusal == number && a.place == place && a.rows == 0 && a.terms == 0;
}

/* a table with one row over the first of its terms */
static table one_row(uint8_t kind, size_t count, int64_t bound) {
    table t = {.kinds = {kind}, .counts = {count}, .bounds = {bound}};
    return t;
}

static const char *const PLAN = "* budget\n3 x1 -2 ~x2 >= 1;\nmin: 4 x3;\n1 x1 < 1\n";

/* ---- reading */

static void reads_the_plan(void) {
    table t = blank();
    check(is_table(read_text(PLAN, 1, &t, ROOM, ROOM), 4, 4), "the plan is read");
    check(memcmp(t.kinds, ((uint8_t[]){OPB_COMMENT, OPB_AT_LEAST, OPB_OBJECTIVE, OPB_AT_MOST}), 4) == 0, "kinds");
    check(memcmp(t.firsts, ((size_t[]){2, 0, 2, 3}), 4 * sizeof(size_t)) == 0, "firsts");
    check(memcmp(t.counts, ((size_t[]){6, 2, 1, 1}), 4 * sizeof(size_t)) == 0, "counts");
    check(memcmp(t.bounds, ((int64_t[]){0, 1, 0, 0}), 4 * sizeof(int64_t)) == 0, "bounds");
    check(memcmp(t.weights, ((int64_t[]){3, -2, 4, 1}), 4 * sizeof(int64_t)) == 0, "weights");
    check(memcmp(t.literals, ((uint32_t[]){0, 3, 4, 0}), 4 * sizeof(uint32_t)) == 0, "literals");
    check(t.kinds[4] == 0xAA && t.literals[4] == 0xAAAAAAAA, "entries that are not counted stay");
}

static void counts(void) {
    check(is_table(opb_count((const uint8_t *)PLAN, strlen(PLAN), 1), 4, 4), "the plan is counted");
    check(is_table(opb_count(NULL, 0, 1), 0, 0), "NULL with length 0 is the empty file");
    check(is_table(opb_read(NULL, 0, 1, NO_COLUMNS), 0, 0), "the empty file needs no columns");
}

static void refuses_files(void) {
    static const struct {
        const char *text;
        uint32_t first;
        uint8_t number;
        uint64_t place;
    } files[] = {
        {">= 1;", 1, OPB_REFUSED_STATEMENT, 0},
        {"1 x1 >= 1;\n\n1 x2 >= 1;", 1, OPB_REFUSED_STATEMENT, 11},
        {"1 x1 >= ;", 1, OPB_REFUSED_NUMBER, 0},
        {"1x1 >= 1;", 1, OPB_REFUSED_LITERAL, 0},
        {"1 x0 >= 1;", 1, OPB_REFUSED_VARIABLE, 0},
        {"  1 x1073741825 >= 1;", 1, OPB_REFUSED_VARIABLE, 2},
        {"1 x1;", 1, OPB_REFUSED_OPERATOR, 0},
        {"1 x1 >= 1 2", 1, OPB_REFUSED_ENDING, 0},
        {"1 x1 < -9223372036854775808;", 1, OPB_REFUSED_OVERFLOW, 0},
        {"9223372036854775807 x1 1 x2 >= 0;", 1, OPB_REFUSED_OVERFLOW, 0},
    };
    for (size_t i = 0; i < sizeof files / sizeof *files; i++) {
        table t = blank();
        check(table_refused(read_text(files[i].text, files[i].first, &t, ROOM, ROOM), files[i].number, files[i].place), files[i].text);
        check(table_refused(opb_count((const uint8_t *)files[i].text, strlen(files[i].text), files[i].first), files[i].number, files[i].place), "counted as read");
        check(unchanged(&t), "a refused file changes no column");
    }
}

static void refuses_short_columns(void) {
    table t = blank();
    check(table_refused(read_text(PLAN, 1, &t, 3, ROOM), OPB_REFUSED_ROWS, 4), "rows needed");
    check(table_refused(read_text(PLAN, 1, &t, 4, 3), OPB_REFUSED_TERMS, 4), "terms needed");
    check(unchanged(&t), "short columns stay as they were");
}

/* The file is a mapping that nothing may look at: only its length counts. */
static void refuses_a_long_file(void) {
    size_t length = (size_t)OPB_FILE_LIMIT + 1;
    uint8_t *file = mmap(NULL, length, PROT_NONE, MAP_PRIVATE | MAP_ANONYMOUS | MAP_NORESERVE, -1, 0);
    check(file != MAP_FAILED, "a mapping above the file limit");
    if (file == MAP_FAILED) return;
    table t = blank();
    check(table_refused(opb_count(file, length, 1), OPB_REFUSED_FILE_LENGTH, 0), "a long file is not counted");
    check(table_refused(opb_read(file, length, 1, COLUMNS(t, ROOM, ROOM)), OPB_REFUSED_FILE_LENGTH, 0), "a long file is not read");
    check(unchanged(&t), "a long file changes no column");
    munmap(file, length);
}

/* ---- normalising and evaluating */

static void normalises(void) {
    table t = blank(), n = blank();
    read_text("3 x1 -2 x2 >= -1;\nmin: -4 x1;", 1, &t, ROOM, ROOM);
    check(is_table(opb_normalise(COLUMNS(t, 2, 3), COLUMNS(n, ROOM, ROOM)), 2, 3), "normalised");
    check(n.bounds[0] == 1 && n.bounds[1] == -4, "the bound grows, the offset falls");
    check(memcmp(n.weights, ((int64_t[]){3, 2, 4}), 3 * sizeof(int64_t)) == 0, "no weight is negative");
    check(memcmp(n.literals, ((uint32_t[]){0, 3, 1}), 3 * sizeof(uint32_t)) == 0, "literals opposite");
}

static void refuses_to_normalise(void) {
    table n = blank(), t = one_row(OPB_CLAUSE, 0, 0);
    check(table_refused(opb_normalise(COLUMNS(t, 1, 0), COLUMNS(n, ROOM, ROOM)), OPB_REFUSED_ROW, 0), "a kind that is not read");
    t = one_row(OPB_AT_LEAST, 1, INT64_MAX);
    t.weights[0] = -1;
    check(table_refused(opb_normalise(COLUMNS(t, 1, 1), COLUMNS(n, ROOM, ROOM)), OPB_REFUSED_OVERFLOW, 0), "a bound beyond 64 bits");
    t.bounds[0] = 0;
    check(table_refused(opb_normalise(COLUMNS(t, 1, 1), NO_COLUMNS), OPB_REFUSED_ROWS, 1), "normal rows needed");
    check(table_refused(opb_normalise(COLUMNS(t, 1, 1), COLUMNS(n, ROOM, 0)), OPB_REFUSED_TERMS, 1), "normal terms needed");
    check(unchanged(&n), "a refused normalising changes no column");
}

static int is_value(opb_value v, int64_t value, uint8_t holds, uint64_t ones) {
    return v.refusal == OPB_ACCEPTED && v.place == 0 && v.value == value && v.holds == holds && v.ones == ones;
}

static int value_refused(opb_value v, uint8_t number, uint64_t place) {
    return v.refusal == number && v.place == place && v.value == 0 && v.holds == 0 && v.ones == 0;
}

static void evaluates(void) {
    const uint64_t first_and_third[] = {5};
    table t = blank();
    read_text(PLAN, 1, &t, ROOM, ROOM);
    check(is_value(opb_evaluate(COLUMNS(t, 4, 4), 1, first_and_third, 1), 1, 1, 2), "3 x1 -2 ~x2 >= 1 holds");
    check(is_value(opb_evaluate(COLUMNS(t, 4, 4), 3, first_and_third, 1), 1, 0, 2), "1 x1 < 1 does not");
    check(is_value(opb_evaluate(COLUMNS(t, 4, 4), 2, first_and_third, 1), 4, 2, 2), "the objective's value");
    check(value_refused(opb_evaluate(COLUMNS(t, 4, 4), 0, first_and_third, 1), OPB_REFUSED_ROW, 0), "a comment has no value");
    check(value_refused(opb_evaluate(COLUMNS(t, 4, 4), 4, first_and_third, 1), OPB_REFUSED_ROW, 4), "nor has a missing row");
    check(value_refused(opb_evaluate(COLUMNS(t, 4, 4), 1, NULL, 0), OPB_REFUSED_ASSIGNMENT, 1), "no words");
    t.weights[0] = INT64_MAX;
    check(value_refused(opb_evaluate(COLUMNS(t, 4, 4), 1, first_and_third, 1), OPB_REFUSED_OVERFLOW, 1), "weights above the limit");
}

/* ---- value lines */

enum { WORDS = 2 };

/* an assignment: x2 is true and x3 false, of the others nothing is known, whatever their bits in the values are */
typedef struct {
    uint64_t values[WORDS], known[WORDS];
} assignment;

static const assignment SOME = {.values = {0xF2, 0xA0}, .known = {6}};

static opb_length read_values(const char *block, uint64_t length, assignment *a, size_t values, size_t known) {
    return opb_values((const uint8_t *)block, strlen(block), length, a->values, values, a->known, known);
}

static int is_length(opb_length a, uint64_t length) {
    return a.refusal == OPB_ACCEPTED && a.place == 0 && a.length == length;
}

static int length_refused(opb_length a, uint8_t number, uint64_t place) {
    return a.refusal == number && a.place == place && a.length == 0;
}

static int has_words(const assignment *a, uint64_t value, uint64_t known) {
    return a->values[0] == value && a->known[0] == known && a->values[1] == SOME.values[1] && a->known[1] == 0;
}

/* What each block makes of the first words of SOME, whose length is 3. */
static void reads_values_of_each_form(void) {
    static const struct {
        const char *block;
        uint64_t length, value, known;
    } blocks[] = {
        {"v -1 +2 5 0", 5, 0xF2, 0x17},
        {"v x1 ~x5\nv -x6 x2", 6, 0xC3, 0x37},
        {"v 011", 6, 0xF2, 0x3E},
        {"v 1", 4, 0xFA, 0xE},
        {"v 0", 3, 0xF2, 6},
        {"v -0 00\r\n", 3, 0xF2, 6},
        {"v 1\nv 10", 10, 0x2F3, 0x207},
        {"v", 3, 0xF2, 6},
        {"v\t2\v-3\f2\n", 3, 0xF2, 6},
        {"vx1\n", 3, 0xF3, 7},
    };
    for (size_t i = 0; i < sizeof blocks / sizeof *blocks; i++) {
        assignment a = SOME;
        check(is_length(read_values(blocks[i].block, 3, &a, WORDS, WORDS), blocks[i].length), blocks[i].block);
        check(has_words(&a, blocks[i].value, blocks[i].known), "each variable met is known with its value, every other bit stays");
    }
    assignment a = SOME;
    check(is_length(read_values("v 10", 1, &a, WORDS, WORDS), 3) && has_words(&a, 0xF2, 6), "a string at another length, with the values that are known");
}

static void refuses_values(void) {
    static const struct {
        const char *block;
        uint64_t length;
        size_t words;
        uint8_t number;
        uint64_t place;
    } blocks[] = {
        {"", 3, WORDS, OPB_REFUSED_LINE, 0},
        {"c 1", 3, WORDS, OPB_REFUSED_LINE, 0},
        {"v 1 2\n\nv 4", 3, WORDS, OPB_REFUSED_LINE, 6},
        {"v 1 2a\nc", 3, WORDS, OPB_REFUSED_TOKEN, 4},
        {"v 1\nv x2", 3, WORDS, OPB_REFUSED_TOKEN, 2},
        {"v x1abc", 3, WORDS, OPB_REFUSED_TOKEN, 2},
        {"v x1 ~-x2", 3, WORDS, OPB_REFUSED_TOKEN, 5},
        {"v 1 -", 3, WORDS, OPB_REFUSED_TOKEN, 4},
        {"v x1 x0 -x1", 3, WORDS, OPB_REFUSED_VARIABLE, 5},
        {"v x1 x1073741825", 3, WORDS, OPB_REFUSED_VARIABLE, 5},
        {"v -99999999999999999999", 3, WORDS, OPB_REFUSED_VARIABLE, 2},
        {"v 01", OPB_INDEX_LIMIT, WORDS, OPB_REFUSED_VARIABLE, 2},
        {"v 1 -2 -1", 3, WORDS, OPB_REFUSED_CONFLICT, 4},
        {"v x3", 3, WORDS, OPB_REFUSED_CONFLICT, 2},
        {"v 00", 1, WORDS, OPB_REFUSED_CONFLICT, 2},
        {"v 1 -1", 3, 0, OPB_REFUSED_CONFLICT, 4},
        {"v x129", 3, WORDS, OPB_REFUSED_ASSIGNMENT, 3},
        {"v 1 -4", 3, 0, OPB_REFUSED_ASSIGNMENT, 1},
        {"v 0", UINT64_MAX, WORDS, OPB_REFUSED_ASSIGNMENT, 288230376151711744},
    };
    for (size_t i = 0; i < sizeof blocks / sizeof *blocks; i++) {
        assignment a = SOME;
        check(length_refused(read_values(blocks[i].block, blocks[i].length, &a, blocks[i].words, blocks[i].words), blocks[i].number, blocks[i].place), blocks[i].block);
        check(memcmp(&a, &SOME, sizeof a) == 0, "a refused block changes no word");
    }
}

/* 12 is about the shorter row. */
static void needs_words_in_both_rows(void) {
    assignment a = SOME;
    check(length_refused(read_values("v x65", 3, &a, 1, WORDS), OPB_REFUSED_ASSIGNMENT, 2), "too few values");
    check(length_refused(read_values("v x65", 3, &a, WORDS, 1), OPB_REFUSED_ASSIGNMENT, 2), "too few known words");
    check(memcmp(&a, &SOME, sizeof a) == 0, "too few words change none");
    check(is_length(read_values("v x64", 3, &a, WORDS, 1), 64), "just enough words");
    check(is_length(opb_values((const uint8_t *)"v", 1, 0, NULL, 0, NULL, 0), 0), "no variable needs no words");
}

static void evaluates_what_is_known(void) {
    const uint64_t values[] = {5}, all[] = {7}, two[] = {3, ~(uint64_t)0};
    table t = blank();
    read_text(PLAN, 1, &t, ROOM, ROOM);
    check(is_value(opb_evaluate_known(COLUMNS(t, 4, 4), 1, values, 1, all, 1), 1, 1, 2), "3 x1 -2 ~x2 >= 1 holds, x1 and x3 true");
    check(is_value(opb_evaluate_known(COLUMNS(t, 4, 4), 3, values, 1, two, 2), 1, 0, 1), "1 x1 < 1 does not, and x3 is not counted");
    check(is_value(opb_evaluate_known(COLUMNS(t, 4, 4), 2, values, 1, all, 1), 4, 2, 2), "the objective's value where all is known");
    check(value_refused(opb_evaluate_known(COLUMNS(t, 4, 4), 2, values, 1, two, 2), OPB_REFUSED_ASSIGNMENT, 2), "x3 is not known");
    check(value_refused(opb_evaluate_known(COLUMNS(t, 4, 4), 2, values, 1, NULL, 0), OPB_REFUSED_ASSIGNMENT, 2), "no known words");
    check(value_refused(opb_evaluate_known(COLUMNS(t, 4, 4), 2, NULL, 0, all, 1), OPB_REFUSED_ASSIGNMENT, 2), "no values");
    check(value_refused(opb_evaluate_known(COLUMNS(t, 4, 4), 0, values, 1, all, 1), OPB_REFUSED_ROW, 0), "a comment has no known value");
    t.weights[2] = INT64_MIN;
    check(value_refused(opb_evaluate_known(COLUMNS(t, 4, 4), 2, values, 1, two, 2), OPB_REFUSED_OVERFLOW, 2), "weights above the limit before what is not known");
}

static void judges(void) {
    const uint64_t values[] = {5}, all[] = {7}, two[] = {3, ~(uint64_t)0};
    table t = blank();
    read_text(PLAN, 1, &t, ROOM, ROOM);
    check(is_value(opb_judge(COLUMNS(t, 4, 4), 1, values, 1, all, 1), 1, 1, 0), "3 x1 -2 ~x2 >= 1 is judged to hold, and no ones are counted");
    check(is_value(opb_judge(COLUMNS(t, 4, 4), 3, values, 1, two, 2), 1, 0, 0), "1 x1 < 1 is judged not to");
    check(is_value(opb_judge(COLUMNS(t, 4, 4), 2, values, 1, all, 1), 4, 2, 0), "the objective's value, judged");
    check(value_refused(opb_judge(COLUMNS(t, 4, 4), 2, values, 1, two, 2), OPB_REFUSED_ASSIGNMENT, 2), "x3 is not known, judged");
    check(value_refused(opb_judge(COLUMNS(t, 4, 4), 2, values, 1, NULL, 0), OPB_REFUSED_ASSIGNMENT, 2), "no known words, judged");
    check(value_refused(opb_judge(COLUMNS(t, 4, 4), 0, values, 1, all, 1), OPB_REFUSED_ROW, 0), "a comment is not judged");
    check(value_refused(opb_judge(COLUMNS(t, 4, 4), 4, values, 1, all, 1), OPB_REFUSED_ROW, 4), "a missing row is not judged");
}

/* ---- writing and listing */

static uint8_t out[512];

static int is_text(opb_text a, const char *text) {
    return a.refusal == OPB_ACCEPTED && a.place == 0 && a.length == strlen(text) && memcmp(out, text, a.length) == 0;
}

static int text_refused(opb_text a, uint8_t number, uint64_t place) {
    return a.refusal == number && a.place == place && a.length == 0;
}

static void writes(void) {
    const char *plan = "* hall\n3 x1 2 x2 <= 4;\nmin: 4 ~x1 1 x3;\n";
    const uint8_t *text = (const uint8_t *)plan;
    table t = blank();
    read_text(plan, 1, &t, ROOM, ROOM);
    check(is_text(opb_write(COLUMNS(t, 3, 4), text, strlen(plan), 1, 0, out, sizeof out), "* hall\n3 ~x1 2 ~x2 >= 1;\nmin: 4 ~x1 1 x3;\n"), "written with negated literals");
    check(is_text(opb_write(COLUMNS(t, 3, 4), text, strlen(plan), 1, 1, out, sizeof out),
                  "* hall\n-3 x1 -2 x2 >= -4;\nmin: -4 x1 1 x3;\n* objective offset for previous objective: 4\n"),
          "written without negated literals");
    t = one_row(OPB_CLAUSE, 2, 0);
    t.literals[1] = 3;
    check(is_text(opb_write(COLUMNS(t, 1, 2), NULL, 0, 1, 1, out, sizeof out), "1 x1 -1 x2 >= 0;\n"), "a clause");
    t.kinds[0] = OPB_CARDINALITY_AT_MOST;
    t.bounds[0] = 1;
    check(is_text(opb_write(COLUMNS(t, 1, 2), NULL, 0, 1, 0, out, sizeof out), "1 ~x1 1 x2 >= 1;\n"), "a cardinality row");
    check(opb_write(COLUMNS(t, 1, 2), NULL, 0, 1, 0, out, 17).length == 17, "just enough room");
}

static void refuses_to_write(void) {
    uint8_t before[sizeof out];
    memcpy(before, out, sizeof out);
    table t = one_row(OPB_AT_LEAST, 1, 0);
    check(text_refused(opb_write(COLUMNS(t, 1, 1), NULL, 0, 1, 0, NULL, 0), OPB_REFUSED_OUTPUT, 11), "the length needed");
    check(text_refused(opb_write(COLUMNS(t, 1, 0), NULL, 0, 1, 0, out, sizeof out), OPB_REFUSED_ROW, 0), "terms outside their column");
    t.literals[0] = 2;
    check(text_refused(opb_write(COLUMNS(t, 1, 1), NULL, 0, UINT32_MAX, 0, out, sizeof out), OPB_REFUSED_VARIABLE, 0), "a file number beyond u32");
    t.bounds[0] = INT64_MIN;
    t.kinds[0] = OPB_AT_MOST;
    check(text_refused(opb_write(COLUMNS(t, 1, 1), NULL, 0, 1, 0, out, sizeof out), OPB_REFUSED_OVERFLOW, 0), "a bound beyond 64 bits");
    t.counts[0] = 0;
    check(text_refused(opb_write(COLUMNS(t, 1, 1), NULL, 0, 1, 0, out, sizeof out), OPB_REFUSED_EMPTY, 0), "a constraint without terms");
    t = one_row(OPB_COMMENT, 3, 0);
    check(text_refused(opb_write(COLUMNS(t, 1, 0), (const uint8_t *)"a\nb", 3, 1, 0, out, sizeof out), OPB_REFUSED_COMMENT, 0), "a comment with an LF");
    check(memcmp(out, before, sizeof out) == 0, "a refused writing changes no byte");
}

static void lists(void) {
    const char *lines = "opb\t4\t4\t1\nc\t6\nge\t1\t3\tx1\t-2\t~x2\nmin\t0\t4\tx3\nle\t0\t1\tx1\n";
    table t = blank();
    read_text(PLAN, 1, &t, ROOM, ROOM);
    check(is_text(opb_list(COLUMNS(t, 4, 4), 4, 1, out, sizeof out), lines), "the plan's house lines");
    check(is_text(opb_list(COLUMNS(t, 4, 4), 1, 1, out, sizeof out), "opb\t1\t0\t1\nc\t6\n"), "the first row alone");
    check(text_refused(opb_list(COLUMNS(t, 4, 4), 4, 1, NULL, 0), OPB_REFUSED_OUTPUT, strlen(lines)), "the length of the lines");
    check(text_refused(opb_list(COLUMNS(t, 5, 4), 5, 1, out, sizeof out), OPB_REFUSED_ROW, 4), "a row that no table may hold");
}

static void refuses_to_list(void) {
    uint8_t before[sizeof out];
    memcpy(before, out, sizeof out);
    table t = one_row(OPB_AT_LEAST, 1, 0);
    check(is_text(opb_list(COLUMNS(t, 1, 1), 1, UINT32_MAX, out, sizeof out), "opb\t1\t1\t4294967295\nge\t0\t0\tx4294967295\n"), "the greatest file number");
    memcpy(out, before, sizeof out);
    t.kinds[1] = OPB_OBJECTIVE;
    t.firsts[1] = 0;
    t.counts[1] = 2;
    t.literals[1] = 2;
    check(text_refused(opb_list(COLUMNS(t, 2, 2), 2, UINT32_MAX, out, sizeof out), OPB_REFUSED_VARIABLE, 1), "a file number beyond u32");
    check(text_refused(opb_list(COLUMNS(t, 2, 2), 2, UINT32_MAX, NULL, 0), OPB_REFUSED_VARIABLE, 1), "a file number beyond u32 before the output that does not fit");
    t.literals[0] = UINT32_MAX;
    t.firsts[0] = 1;
    check(text_refused(opb_list(COLUMNS(t, 2, 2), 2, UINT32_MAX, out, sizeof out), OPB_REFUSED_VARIABLE, 0), "the first row that is refused");
    t.kinds[0] = OPB_COMMENT;
    check(text_refused(opb_list(COLUMNS(t, 2, 2), 2, UINT32_MAX, out, sizeof out), OPB_REFUSED_ROW, 1), "a row that no table may hold before its file numbers");
    check(memcmp(out, before, sizeof out) == 0, "a refused listing changes no byte");
}

/* ---- columns in one struct: the same answers, and the sizes that a filled table has */

static opb_columns columns_of(table *t, size_t rows, size_t terms) {
    opb_columns c = {t->kinds, t->firsts, t->counts, t->bounds, t->weights, t->literals, rows, terms};
    return c;
}

static void reads_into_a_struct(void) {
    table t = blank(), same = blank();
    opb_columns c = columns_of(&t, ROOM, ROOM - 1);
    read_text(PLAN, 1, &same, ROOM, ROOM);
    check(is_table(opb_columns_read((const uint8_t *)PLAN, strlen(PLAN), 1, &c), 4, 4), "the plan is read into a struct");
    check(c.rows == 4 && c.terms == 4 && memcmp(&t, &same, sizeof t) == 0, "the struct holds the table that was read");
    check(table_refused(opb_columns_read((const uint8_t *)"x", 1, 1, &c), OPB_REFUSED_STATEMENT, 0), "a refused file");
    check(table_refused(opb_columns_read((const uint8_t *)"1 x0 >= 1;", 10, 1, &c), OPB_REFUSED_VARIABLE, 0), "a file with another first index");
    c.rows = 3;
    check(table_refused(opb_columns_read((const uint8_t *)PLAN, strlen(PLAN), 1, &c), OPB_REFUSED_ROWS, 4), "a struct without room for the rows");
    c.rows = 5, c.terms = 3;
    check(table_refused(opb_columns_read((const uint8_t *)PLAN, strlen(PLAN), 1, &c), OPB_REFUSED_TERMS, 4), "a struct without room for the terms");
    check(c.rows == 5 && c.terms == 3 && memcmp(&t, &same, sizeof t) == 0, "a refused file changes nothing of a struct");
}

static void normalises_a_struct(void) {
    table t = blank(), n = blank(), same = blank();
    opb_columns c = columns_of(&t, ROOM, ROOM), into = columns_of(&n, ROOM, ROOM - 1);
    opb_columns_read((const uint8_t *)PLAN, strlen(PLAN), 1, &c);
    opb_normalise(COLUMNS(t, 4, 4), COLUMNS(same, ROOM, ROOM));
    check(is_table(opb_columns_normalise(&c, &into), 4, 4), "a struct is normalised");
    check(into.rows == 4 && into.terms == 4 && memcmp(&n, &same, sizeof n) == 0, "the struct holds the normal table");
    into.terms = 3;
    check(table_refused(opb_columns_normalise(&c, &into), OPB_REFUSED_TERMS, 4), "a struct without room for normal terms");
    into.rows = 3;
    check(table_refused(opb_columns_normalise(&c, &into), OPB_REFUSED_ROWS, 4), "a struct without room for normal rows");
    check(into.rows == 3 && into.terms == 3 && memcmp(&n, &same, sizeof n) == 0, "a refused normalising changes nothing of a struct");
}

static void evaluates_a_struct(void) {
    const uint64_t values[] = {5}, two[] = {3, ~(uint64_t)0};
    table t = blank();
    opb_columns c = columns_of(&t, ROOM, ROOM);
    opb_columns_read((const uint8_t *)PLAN, strlen(PLAN), 1, &c);
    check(is_value(opb_columns_evaluate(&c, 1, values, 1), 1, 1, 2), "a struct's row holds");
    check(is_value(opb_columns_evaluate(&c, 3, values, 1), 1, 0, 2), "a struct's row does not");
    check(is_value(opb_columns_evaluate(&c, 2, values, 1), 4, 2, 2), "a struct's objective");
    check(value_refused(opb_columns_evaluate(&c, 4, values, 1), OPB_REFUSED_ROW, 4), "a row behind those that were read");
    check(value_refused(opb_columns_evaluate(&c, 1, values, 0), OPB_REFUSED_ASSIGNMENT, 1), "a struct's row without words");
    check(is_value(opb_columns_evaluate_known(&c, 3, values, 1, two, 2), 1, 0, 1), "a struct's row where its variables are known");
    check(value_refused(opb_columns_evaluate_known(&c, 2, values, 1, two, 2), OPB_REFUSED_ASSIGNMENT, 2), "a struct's row where one is not");
    check(value_refused(opb_columns_evaluate_known(&c, 3, values, 1, two, 0), OPB_REFUSED_ASSIGNMENT, 3), "a struct's row where none is");
    check(is_value(opb_columns_judge(&c, 3, values, 1, two, 2), 1, 0, 0), "a struct's row judged");
    check(value_refused(opb_columns_judge(&c, 3, values, 1, two, 0), OPB_REFUSED_ASSIGNMENT, 3), "a struct's row judged where nothing is known");
}

static void writes_and_lists_a_struct(void) {
    const char *plan = "* hall\n3 x1 2 x2 <= 4;\nmin: 4 ~x1 1 x3;\n";
    const char *lines = "opb\t3\t4\t1\nc\t4\nle\t4\t3\tx1\t2\tx2\nmin\t0\t4\t~x1\t1\tx3\n";
    const uint8_t *text = (const uint8_t *)plan;
    table t = blank();
    opb_columns c = columns_of(&t, ROOM, ROOM);
    opb_columns_read(text, strlen(plan), 1, &c);
    check(is_text(opb_columns_write(&c, text, strlen(plan), 1, 0, out, sizeof out), "* hall\n3 ~x1 2 ~x2 >= 1;\nmin: 4 ~x1 1 x3;\n"), "a struct is written");
    check(is_text(opb_columns_write(&c, text, strlen(plan), 0, 1, out, sizeof out),
                  "* hall\n-3 x0 -2 x1 >= -4;\nmin: -4 x0 1 x2;\n* objective offset for previous objective: 4\n"),
          "a struct is written without negated literals, from x0");
    check(text_refused(opb_columns_write(&c, text, 5, 1, 0, out, sizeof out), OPB_REFUSED_ROW, 0), "a comment outside its text");
    check(text_refused(opb_columns_write(&c, text, strlen(plan), 1, 0, out, 41), OPB_REFUSED_OUTPUT, 42), "the length that a struct needs");
    check(is_text(opb_columns_list(&c, 1, out, sizeof out), lines), "a struct is listed");
    check(text_refused(opb_columns_list(&c, 1, out, 0), OPB_REFUSED_OUTPUT, strlen(lines)), "the length that its lines need");
}

/* ---- words */

/* Each number of a refusal has words of its own; all others have the same. */
static void has_words_for_refusals(void) {
    static const uint8_t numbers[] = {0, 1, 2, 3, 4, 5, 6, 7, 8, 9, 10, 11, 12, 13, 14, 15, 20, 21, 22, 16};
    const size_t count = sizeof numbers;
    for (size_t i = 0; i < count; i++) {
        int own = strlen(opb_message(numbers[i])) > 0;
        for (size_t j = 0; j < i; j++) own = own && strcmp(opb_message(numbers[i]), opb_message(numbers[j])) != 0;
        check(own, opb_message(numbers[i]));
    }
    for (unsigned other = 17; other < 256; other++) {
        if (other == 20) other = 23;
        check(strcmp(opb_message((uint8_t)other), opb_message(16)) == 0, "a number that is no refusal");
    }
    check(strcmp(opb_message(OPB_REFUSED_OPERATOR), "no operator stands behind the sum") == 0, "the words of a refusal");
}

static void has_a_version(void) {
    char version[32];
    snprintf(version, sizeof version, "%d.%d.%d", OPB_VERSION_MAJOR, OPB_VERSION_MINOR, OPB_VERSION_PATCH);
    check(strcmp(version, OPB_VERSION) == 0, "the version's parts and its text");
}

int main(void) {
    check(sizeof(opb_table) == 32 && sizeof(opb_text) == 24 && sizeof(opb_length) == 24 && sizeof(opb_value) == 40, "sizes of the answers");
    reads_the_plan();
    counts();
    refuses_files();
    refuses_short_columns();
    refuses_a_long_file();
    normalises();
    refuses_to_normalise();
    evaluates();
    reads_values_of_each_form();
    refuses_values();
    needs_words_in_both_rows();
    evaluates_what_is_known();
    judges();
    writes();
    refuses_to_write();
    lists();
    refuses_to_list();
    reads_into_a_struct();
    normalises_a_struct();
    evaluates_a_struct();
    writes_and_lists_a_struct();
    has_words_for_refusals();
    has_a_version();
    printf("%d passed, %d failed\n", passed, failed);
    return failed != 0;
}
