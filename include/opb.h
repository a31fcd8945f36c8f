/* opb.h: read, normalise, evaluate, write and list OPB files (linear pseudo-Boolean constraints), and read a solver's value lines, over columns and words that the caller lends. Link with
 * libopb.a, which tools/archive makes for x86-64 and for aarch64 Linux; where both are installed, `pkg-config --cflags --libs opb` names them.
 *
 * An example, which the tests compile and run: a file is read and written again with plain variables only.
 *
 *     #include <stdio.h>
 *     #include <string.h>
 *     #include "opb.h"
 *
 *     static int refused(const char *what, uint8_t refusal, uint64_t place) {
 *         if (refusal != OPB_ACCEPTED) printf("not %s: refusal %d, place %llu: %s\n", what, refusal, (unsigned long long)place, opb_message(refusal));
 *         return refusal != OPB_ACCEPTED;
 *     }
 *
 *     int main(void) {
 *         const char *plan = "3 x1 2 x2 <= 4;\nmin: 4 ~x1 1 x3;\n";
 *         const uint8_t *file = (const uint8_t *)plan;
 *         uint8_t kinds[8], out[256];
 *         size_t firsts[8], counts[8];
 *         int64_t bounds[8], weights[16];
 *         uint32_t literals[16];
 *         opb_columns columns = {kinds, firsts, counts, bounds, weights, literals, 8, 16};
 *         opb_table read = opb_columns_read(file, strlen(plan), 1, &columns);
 *         if (refused("read", read.refusal, read.place)) return 1;
 *         opb_text written = opb_columns_write(&columns, file, strlen(plan), 1, 1, out, sizeof out);
 *         if (refused("written", written.refusal, written.place)) return 1;
 *         fwrite(out, 1, written.length, stdout);
 *         return 0;
 *     }
 *
 * It prints
 *
 *   -3 x1 -2 x2 >= -4;
 *   min: -4 x1 1 x3;
 *   * objective offset for previous objective: 4
 *
 * What the caller owes: each pointer is aligned for its type and valid for as many elements as the length behind it says (NULL with length 0 is fine), and what a call may change (a pointer
 * without `const`) overlaps nothing else lent to the same call. Nothing else is asked: every content of what is lent has an answer. What a call may change may hold anything before; only
 * opb_values looks at it.
 *
 * What the caller gets: one answer for each input. A refused call changes nothing that it was lent; an accepted one changes only the entries that it counts, from the front (opb_values: the
 * bits of the variables that it meets). No call keeps a pointer, has a state, allocates, or prints; calls from several threads need no lock.
 */
#ifndef OPB_H
#define OPB_H

#include <stddef.h>
#include <stdint.h>

#ifdef __cplusplus
extern "C" {
#endif

/* The version of this header and of libopb.a with it. */
#define OPB_VERSION_MAJOR 0
#define OPB_VERSION_MINOR 2
#define OPB_VERSION_PATCH 0
#define OPB_VERSION "0.2.0"

/* ---- Tables: six columns, four with an entry for each row, two with an entry for each term.
 *
 * Rows and terms count from 0. A row has a kind, its first term (the count of terms before it), its count of terms, and its bound; an objective's bound column is its offset, 0 where it was
 * read. A comment row's first and count are the offset and length of its text, in the file that was read or the text lent to opb_write; its bound is 0 where it was read. Terms keep order,
 * sign and zero weights; a repeated variable counts each time.
 *
 * A literal code is twice the variable index, plus 1 if negated; a variable index is the number in the file (x7: 7) less the first index, which is an option of each call.
 *
 * Columns of unequal length have the room of the shortest. A call over a table takes every row lent, so lend the lengths that were answered, not the room that there was. */

/* Kinds. Reading makes 0 to 4; normalising, evaluating and listing know these; writing knows all. */
#define OPB_COMMENT 0
#define OPB_AT_LEAST 1
#define OPB_AT_MOST 2
#define OPB_EQUAL 3
#define OPB_OBJECTIVE 4
/* Every weight and the bound are taken as 1, their columns are not looked at. */
#define OPB_CLAUSE 5
/* Every weight is taken as 1, the weight column is not looked at. */
#define OPB_CARDINALITY_AT_LEAST 6
#define OPB_CARDINALITY_AT_MOST 7
#define OPB_CARDINALITY_EQUAL 8

/* The greatest length of a file, in bytes. */
#define OPB_FILE_LIMIT 1073741823
/* The greatest variable index; the greatest number of a variable in value lines is one more. */
#define OPB_INDEX_LIMIT 1073741823
/* The greatest number behind an `x` in a file. */
#define OPB_FILE_NUMBER_LIMIT 4294967295
/* The greatest sum of absolute weights in a row. */
#define OPB_WEIGHT_LIMIT 9223372036854775807
/* In evaluating, words of an assignment behind so many are not looked at. */
#define OPB_WORD_LIMIT 16777216

/* ---- Refusals: the number, when it is given, and the place that comes with it.
 *
 * S is the offset in the file of the first byte, after blanks, of the statement at fault; T the offset in a block of value lines of the first byte of the token at fault. A needed number above
 * 18,446,744,073,709,551,615 is given as that one. */

/* The call did what it promises; the place is 0. */
#define OPB_ACCEPTED 0
/* File above the limit. Place 0. */
#define OPB_REFUSED_FILE_LENGTH 1
/* A statement starts with none of its beginnings (`*`, `min:`, a digit, `+`, `-`), a blank line included. Place S. */
#define OPB_REFUSED_STATEMENT 2
/* Number missing, sign alone, or beyond 64 bits. Place S. */
#define OPB_REFUSED_NUMBER 3
/* No blank after a weight, or no literal there. Place S. */
#define OPB_REFUSED_LITERAL 4
/* File number beyond u32, below the first index, or index above its limit. Place S; in writing and listing, the row; in value lines, T. */
#define OPB_REFUSED_VARIABLE 5
/* No operator after a sum. Place S. */
#define OPB_REFUSED_OPERATOR 6
/* No ending. Place S. */
#define OPB_REFUSED_ENDING 7
/* Absolute weights above the limit, or a result beyond signed 64 bits. Place S; over a table, the row. */
#define OPB_REFUSED_OVERFLOW 8
/* Rows do not fit. Place: the count needed. */
#define OPB_REFUSED_ROWS 9
/* Terms do not fit. Place: the count needed. */
#define OPB_REFUSED_TERMS 10
/* Row that no table may hold: kind unknown, terms outside their column, an index above its limit; in writing also a comment outside its lent text, a negative weight or a negative cardinality
 * bound; in evaluating also a comment or a missing row. Place: the row. */
#define OPB_REFUSED_ROW 11
/* Variable beyond the assignment, or not known. Place: the row. In reading value lines: the shorter row of words is too short for the new length. Place: the words needed. */
#define OPB_REFUSED_ASSIGNMENT 12
/* Constraint without terms, in writing. Place: the row. */
#define OPB_REFUSED_EMPTY 13
/* Output does not fit. Place: the length needed. */
#define OPB_REFUSED_OUTPUT 14
/* Comment text with an LF, in writing. Place: the row. */
#define OPB_REFUSED_COMMENT 15
/* A block of value lines is empty, or a line of it does not begin with `v`. Place: the offset in the block of that line, 0 for the empty block. */
#define OPB_REFUSED_LINE 20
/* A token that is none of its block's form. Place T. */
#define OPB_REFUSED_TOKEN 21
/* A variable gets another value than the one known, or than an earlier token of the block gave it. Place T. */
#define OPB_REFUSED_CONFLICT 22

/* What a refusal's number means, in a few words without its place; every number has some. */
static inline const char *opb_message(uint8_t refusal) {
    switch (refusal) {
    case OPB_ACCEPTED: return "accepted";
    case OPB_REFUSED_FILE_LENGTH: return "the file is longer than 1,073,741,823 bytes";
    case OPB_REFUSED_STATEMENT: return "no statement begins there (a blank line is none)";
    case OPB_REFUSED_NUMBER: return "a number is missing, is a sign alone, or is beyond 64 bits";
    case OPB_REFUSED_LITERAL: return "a weight has no blank behind it, or no variable there";
    case OPB_REFUSED_VARIABLE: return "a variable's number is below the first index, or too large";
    case OPB_REFUSED_OPERATOR: return "no operator stands behind the sum";
    case OPB_REFUSED_ENDING: return "the statement does not end where it should";
    case OPB_REFUSED_OVERFLOW: return "the weights add up to more than 9,223,372,036,854,775,807, or a result is beyond 64 bits";
    case OPB_REFUSED_ROWS: return "the table has no room for the rows";
    case OPB_REFUSED_TERMS: return "the table has no room for the terms";
    case OPB_REFUSED_ROW: return "no table may hold this row, or this call does not take it";
    case OPB_REFUSED_ASSIGNMENT: return "a variable has no value in the assignment, or its words are too few";
    case OPB_REFUSED_EMPTY: return "a constraint without terms cannot be written";
    case OPB_REFUSED_OUTPUT: return "the output has no room for the text";
    case OPB_REFUSED_COMMENT: return "a comment with a line feed cannot be written";
    case OPB_REFUSED_LINE: return "no value line begins there (it would begin with `v`)";
    case OPB_REFUSED_TOKEN: return "this is no value in the form of these value lines";
    case OPB_REFUSED_CONFLICT: return "the variable has the other value already";
    default: return "unknown to this version of opb.h";
    }
}

/* ---- Answers. Where `refusal` is not OPB_ACCEPTED, every field but `place` is 0. */

/* Of a table: its rows and terms. */
typedef struct {
    uint8_t refusal;
    uint64_t place;
    uint64_t rows;
    uint64_t terms;
} opb_table;

/* Of a text: its length. */
typedef struct {
    uint8_t refusal;
    uint64_t place;
    uint64_t length;
} opb_text;

/* Of an assignment: its length, one past the highest variable index met. */
typedef struct {
    uint8_t refusal;
    uint64_t place;
    uint64_t length;
} opb_length;

/* Of a row under an assignment: the sum of a constraint and in `holds` 1 if it holds, else 0; or the value of an objective and 2. In both cases the number of ones in the assignment's words;
 * where a second row says which variables are known, of the known ones. */
typedef struct {
    uint8_t refusal;
    uint64_t place;
    int64_t value;
    uint8_t holds;
    uint64_t ones;
} opb_value;

/* ---- Functions */

/* The rows and terms that a file has, so that columns for them can be had. Changes nothing.
 * Refusals: 1; then 2 to 8 at the first statement that has one. */
opb_table opb_count(const uint8_t *file, size_t file_length, uint32_t first);

/* A file into columns. Changes the first `rows` entries of the first four columns and the first `terms` entries of the last two.
 * Refusals: those of opb_count; then 9, then 10. */
opb_table opb_read(const uint8_t *file, size_t file_length, uint32_t first,
                   uint8_t *kinds, size_t kinds_length,
                   size_t *firsts, size_t firsts_length,
                   size_t *counts, size_t counts_length,
                   int64_t *bounds, size_t bounds_length,
                   int64_t *weights, size_t weights_length,
                   uint32_t *literals, size_t literals_length);

/* A table's rows into other columns, each negative weight w on a literal turned into -w on the opposite literal: a bound grows by -w, an objective's offset falls by -w, so that every row means
 * what it meant. Terms are packed row after row in their order; comment rows are copied. Changes the entries that it counts, as opb_read does.
 * Refusals: row by row 11, 8; then 9, then 10. */
opb_table opb_normalise(const uint8_t *kinds, size_t kinds_length,
                        const size_t *firsts, size_t firsts_length,
                        const size_t *counts, size_t counts_length,
                        const int64_t *bounds, size_t bounds_length,
                        const int64_t *weights, size_t weights_length,
                        const uint32_t *literals, size_t literals_length,
                        uint8_t *out_kinds, size_t out_kinds_length,
                        size_t *out_firsts, size_t out_firsts_length,
                        size_t *out_counts, size_t out_counts_length,
                        int64_t *out_bounds, size_t out_bounds_length,
                        int64_t *out_weights, size_t out_weights_length,
                        uint32_t *out_literals, size_t out_literals_length);

/* One row under an assignment: variable index v is bit v mod 64 of word v / 64. An objective's value is its sum plus its bound column. Changes nothing.
 * Refusals: 11; 8 for absolute weights; 12; 8 for an objective's value. */
opb_value opb_evaluate(const uint8_t *kinds, size_t kinds_length,
                       const size_t *firsts, size_t firsts_length,
                       const size_t *counts, size_t counts_length,
                       const int64_t *bounds, size_t bounds_length,
                       const int64_t *weights, size_t weights_length,
                       const uint32_t *literals, size_t literals_length,
                       size_t row, const uint64_t *words, size_t words_length);

/* A block of a solver's value lines on top of an assignment: two rows of words, in which variable index v is bit v mod 64 of word v / 64 (`values` has 1 for true, `known` 1 where there is a
 * value), and a length that the caller keeps: 0 at first, then what was answered.
 *
 * Lines are parted by LF and begin with `v`; behind it tokens are parted by white space (bytes 9 to 13 and 32). The block as a whole has one of three forms:
 *   - an `x` anywhere in it: each token is `x` and a number, with `~` or `-` before it where the variable is false (`v x1 ~x2`);
 *   - else, zeros and ones alone behind its first byte, with white space around them or not, and not just `0`: one string of the values of the variables from `length` on (`v 10`);
 *   - else each token is a number, with `-` before it where the variable is false, with `+` or nothing where it is true (`v 1 -2 0`); 0 sets nothing.
 * Numbers of variables count from 1: `x1` and `1` are variable index 0.
 *
 * Changes: each variable met becomes known, with its value; every other bit stays. The length answered is the greater of `length` and one past the highest variable index met. A block may have
 * any length.
 * Refusals: 20 for the empty block; line by line 20, then token by token 21, 5, 22; then 12. */
opb_length opb_values(const uint8_t *block, size_t block_length, uint64_t length,
                      uint64_t *values, size_t values_length,
                      uint64_t *known, size_t known_length);

/* One row under an assignment whose variables may be unknown: as opb_evaluate, but a variable whose bit in `known` is 0, or that lies beyond the shorter of both rows, is 12, and the ones are
 * the known variables that are true. Changes nothing.
 * Refusals: those of opb_evaluate. */
opb_value opb_evaluate_known(const uint8_t *kinds, size_t kinds_length,
                             const size_t *firsts, size_t firsts_length,
                             const size_t *counts, size_t counts_length,
                             const int64_t *bounds, size_t bounds_length,
                             const int64_t *weights, size_t weights_length,
                             const uint32_t *literals, size_t literals_length,
                             size_t row, const uint64_t *values, size_t values_length,
                             const uint64_t *known, size_t known_length);

/* The same without the ones, which are 0: for who judges many rows under one assignment, since the time that a call takes is that of the row's terms and not of the words. Changes nothing.
 * Refusals: those of opb_evaluate. */
opb_value opb_judge(const uint8_t *kinds, size_t kinds_length,
                    const size_t *firsts, size_t firsts_length,
                    const size_t *counts, size_t counts_length,
                    const int64_t *bounds, size_t bounds_length,
                    const int64_t *weights, size_t weights_length,
                    const uint32_t *literals, size_t literals_length,
                    size_t row, const uint64_t *values, size_t values_length,
                    const uint64_t *known, size_t known_length);

/* A table's rows as lines of an OPB file; `text` is what comment rows point into (for rows that were read: the file). `plain` 0 writes negated literals as `~x`; any other value is no-negated
 * mode, where a negated literal of weight w is written -w on the plain variable and the bound falls by w, an objective's offset grows by w. An "at most" row is written with each literal
 * negated, `>=`, and bound = weight sum less bound. An offset that is not 0 is a comment line behind its objective. Changes the first `length` bytes of `out`. Where `out_length` is 0,
 * refusal 14 tells the length needed.
 * Refusals: row by row 11, 15, 13, 5, 8; then 14. */
opb_text opb_write(const uint8_t *kinds, size_t kinds_length,
                   const size_t *firsts, size_t firsts_length,
                   const size_t *counts, size_t counts_length,
                   const int64_t *bounds, size_t bounds_length,
                   const int64_t *weights, size_t weights_length,
                   const uint32_t *literals, size_t literals_length,
                   const uint8_t *text, size_t text_length, uint32_t first, uint8_t plain,
                   uint8_t *out, size_t out_length);

/* The first `rows` rows of a table (all, where it has fewer) as lines parted by tabs: `opb`, rows, terms, first index; then for each row `c` and the comment's length, or `ge`, `le`, `eq` or
 * `min`, the bound, and weight and literal of each term. Changes the first `length` bytes of `out`. Where `out_length` is 0, refusal 14 tells the length needed.
 * Refusals: row by row 11, 5; then 14. */
opb_text opb_list(const uint8_t *kinds, size_t kinds_length,
                  const size_t *firsts, size_t firsts_length,
                  const size_t *counts, size_t counts_length,
                  const int64_t *bounds, size_t bounds_length,
                  const int64_t *weights, size_t weights_length,
                  const uint32_t *literals, size_t literals_length,
                  size_t rows, uint32_t first,
                  uint8_t *out, size_t out_length);

/* ---- The same over six columns in one struct */

/* Six columns, with as many entries for rows in each of the first four, and for terms in the last two, as `rows` and `terms` say. */
typedef struct {
    uint8_t *kinds;
    size_t *firsts, *counts;
    int64_t *bounds, *weights;
    uint32_t *literals;
    size_t rows, terms;
} opb_columns;

/* What an accepted call has filled is the table that the columns hold from then on: `rows` and `terms` become those that it counts. They were the room, so to fill the columns again give them
 * the room again. A refused call changes neither. */
static inline opb_table opb_columns_filled(opb_columns *columns, opb_table answer) {
    if (answer.refusal == OPB_ACCEPTED) {
        columns->rows = (size_t)answer.rows;
        columns->terms = (size_t)answer.terms;
    }
    return answer;
}

/* opb_read. */
static inline opb_table opb_columns_read(const uint8_t *file, size_t file_length, uint32_t first, opb_columns *into) {
    return opb_columns_filled(into, opb_read(file, file_length, first, into->kinds, into->rows, into->firsts, into->rows, into->counts, into->rows,
                                             into->bounds, into->rows, into->weights, into->terms, into->literals, into->terms));
}

/* opb_normalise. */
static inline opb_table opb_columns_normalise(const opb_columns *columns, opb_columns *into) {
    return opb_columns_filled(into, opb_normalise(columns->kinds, columns->rows, columns->firsts, columns->rows, columns->counts, columns->rows,
                                                  columns->bounds, columns->rows, columns->weights, columns->terms, columns->literals, columns->terms,
                                                  into->kinds, into->rows, into->firsts, into->rows, into->counts, into->rows,
                                                  into->bounds, into->rows, into->weights, into->terms, into->literals, into->terms));
}

/* opb_evaluate. */
static inline opb_value opb_columns_evaluate(const opb_columns *columns, size_t row, const uint64_t *words, size_t words_length) {
    return opb_evaluate(columns->kinds, columns->rows, columns->firsts, columns->rows, columns->counts, columns->rows,
                        columns->bounds, columns->rows, columns->weights, columns->terms, columns->literals, columns->terms,
                        row, words, words_length);
}

/* opb_evaluate_known. */
static inline opb_value opb_columns_evaluate_known(const opb_columns *columns, size_t row, const uint64_t *values, size_t values_length,
                                                   const uint64_t *known, size_t known_length) {
    return opb_evaluate_known(columns->kinds, columns->rows, columns->firsts, columns->rows, columns->counts, columns->rows,
                              columns->bounds, columns->rows, columns->weights, columns->terms, columns->literals, columns->terms,
                              row, values, values_length, known, known_length);
}

/* opb_judge. */
static inline opb_value opb_columns_judge(const opb_columns *columns, size_t row, const uint64_t *values, size_t values_length,
                                          const uint64_t *known, size_t known_length) {
    return opb_judge(columns->kinds, columns->rows, columns->firsts, columns->rows, columns->counts, columns->rows,
                     columns->bounds, columns->rows, columns->weights, columns->terms, columns->literals, columns->terms,
                     row, values, values_length, known, known_length);
}

/* opb_write. */
static inline opb_text opb_columns_write(const opb_columns *columns, const uint8_t *text, size_t text_length, uint32_t first, uint8_t plain,
                                         uint8_t *out, size_t out_length) {
    return opb_write(columns->kinds, columns->rows, columns->firsts, columns->rows, columns->counts, columns->rows,
                     columns->bounds, columns->rows, columns->weights, columns->terms, columns->literals, columns->terms,
                     text, text_length, first, plain, out, out_length);
}

/* opb_list, of all rows. */
static inline opb_text opb_columns_list(const opb_columns *columns, uint32_t first, uint8_t *out, size_t out_length) {
    return opb_list(columns->kinds, columns->rows, columns->firsts, columns->rows, columns->counts, columns->rows,
                    columns->bounds, columns->rows, columns->weights, columns->terms, columns->literals, columns->terms,
                    columns->rows, first, out, out_length);
}

#ifdef __cplusplus
}
#endif

#endif
