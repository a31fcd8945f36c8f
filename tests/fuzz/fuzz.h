/* What the parts of the fuzzing harness share: tables as a call takes them, the model (model.c, tables.c, values.c), the library's calls with the fault that is planted, if any (library.c), and lent memory
 * (lent.c). */
#ifndef FUZZ_H
#define FUZZ_H

#include "opb.h"

/* The first bytes of an input are options, the others the file, or what a table is made of. */
enum { OPTIONS = 16 };
/* One of them has flags: bits 0 and 1; the others together are 1 where a file above the limit is to be tried too. */
enum { FLAGS = 7, MAKES_TABLE = 1, AGAINST_START = 2, ABOVE_LIMIT = 1 };
/* the first index that the options ask for */
uint32_t first_of(const uint8_t *options);

/* ---- tables */

/* Six columns, each with its own length. */
typedef struct {
    uint8_t *kinds;
    size_t kinds_length;
    size_t *firsts;
    size_t firsts_length;
    size_t *counts;
    size_t counts_length;
    int64_t *bounds;
    size_t bounds_length;
    int64_t *weights;
    size_t weights_length;
    uint32_t *literals;
    size_t literals_length;
} columns;

/* The lengths of six columns, in the order of a call. */
typedef struct {
    size_t of[6];
} lengths;

/* Where the model keeps the rows that it finds: room for every file and table that the harness makes. */
enum { ROWS = 4096, TERMS = 4096, TEXT = 1 << 18 };
typedef struct {
    uint8_t kinds[ROWS];
    size_t firsts[ROWS], counts[ROWS];
    int64_t bounds[ROWS], weights[TERMS];
    uint32_t literals[TERMS];
} store;

/* ---- the model: what 01 says that a call answers, before the room of what is lent to be filled is looked at. `out` has the rows, or the text. */

opb_table model_read(const uint8_t *file, size_t length, uint32_t first, store *out);
opb_table model_normalise(const columns *t, store *out);
opb_value model_evaluate(const columns *t, size_t row, const uint64_t *words, size_t words_length);
opb_text model_write(const columns *t, const uint8_t *text, size_t text_length, uint32_t first, int plain, uint8_t *out);
opb_value model_evaluate_known(const columns *t, size_t row, const uint64_t *values, size_t values_length, const uint64_t *known, size_t known_length);
opb_text model_list(const columns *t, size_t rows, uint32_t first, uint8_t *out);
/* a block has no more than TEXT bytes; both rows are then as the call leaves them */
opb_length model_values(const uint8_t *block, size_t block_length, uint64_t length, uint64_t *values, size_t values_length, uint64_t *known, size_t known_length);

size_t row_room(const columns *t);
size_t term_room(const columns *t);

/* ---- the library */

/* Plants the fault of this name; 0 where there is none such. */
int plant(const char *name);
void print_faults(void);

opb_table library_count(const uint8_t *file, size_t length, uint32_t first);
opb_table library_read(const uint8_t *file, size_t length, uint32_t first, const columns *out);
opb_table library_normalise(const columns *t, const columns *out);
opb_value library_evaluate(const columns *t, size_t row, const uint64_t *words, size_t words_length);
opb_value library_evaluate_known(const columns *t, size_t row, const uint64_t *values, size_t values_length, const uint64_t *known, size_t known_length);
opb_value library_judge(const columns *t, size_t row, const uint64_t *values, size_t values_length, const uint64_t *known, size_t known_length);
opb_length library_values(const uint8_t *block, size_t block_length, uint64_t length, uint64_t *values, size_t values_length, uint64_t *known, size_t known_length);
opb_text library_write(const columns *t, const uint8_t *text, size_t text_length, uint32_t first, int plain, uint8_t *out, size_t out_length);
opb_text library_list(const columns *t, size_t rows, uint32_t first, uint8_t *out, size_t out_length);

/* ---- lent memory: pieces that lie directly against a page that no access is allowed to */

enum { PIECES = 24 };

void make_pieces(void);
/* Whether pieces lie against the page behind them (a byte too far traps), or against the one before (a byte too early does). */
void lend_against(int page_behind);
/* A piece of so many bytes, with that content; with NULL, of bytes that no call is likely to write. */
void *lend(int piece, const void *content, size_t size);
/* Whether the bytes of a piece from the offset on are as they were lent. */
int as_lent(int piece, size_t offset);
/* So many bytes of which none may be touched. */
const uint8_t *lend_untouchable(size_t size);

#endif
