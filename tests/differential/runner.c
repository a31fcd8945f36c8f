/* Calls the library for the driver of the differential run. Reads batches of calls on standard input and writes their answers on standard output: the library
 * is called from C, as include/opb.h has it, and apart from the Rust. A batch is its length in bytes as 4 bytes, then that many bytes; an answer likewise. Numbers have their lowest byte first, and no padding between them.
 *
 *   read   1, first:4, six column lengths:4, assignments:4, file length:4, the file, assignments of WORDS words
 *          -> answers of opb_count and opb_read, touched:1, the columns if accepted; then, if it was accepted: answer of opb_normalise, touched:1, its columns if accepted;
 *             for each assignment each row's value, of the table read and then of the normal table
 *   write  2, first:4, plain:1, rows:4, terms:4, text length:4, room:4, the columns, the text
 *          -> answer of opb_write, touched:1, the bytes if accepted
 *   long   3, first:4, length:8: a file of that length whose first byte is an LF, and whose others are zero and never looked at
 *          -> answer of opb_count
 *
 *   values 4, length:8, words of both rows:4 4, blocks:4, both rows; each block as length:4 and its bytes
 *          -> for each block, on the rows and the length that the one before left: answer of opb_values, touched:1, both rows; where the answer is 12 and asks for no more than GROWN words, both
 *             rows are lent with so many at least, the new ones 0, and the same stands there for the second call
 *
 * touched is 1 where an entry that should have stayed did not: any entry of a refused call, any behind the entries counted of an accepted one, any behind the room lent. */
#include <stdint.h>
#include <stdio.h>
#include <stdlib.h>
#include <string.h>
#include <sys/mman.h>

#include "opb.h"

enum { ROOM = 1 << 16, GUARD = 8, WORDS = 2, GROWN = 4096, MARK = 0xA5 };

/* a table: six columns, each longer than any room that is lent by GUARD entries */
typedef struct {
  uint8_t kinds[ROOM + GUARD];
  size_t firsts[ROOM + GUARD], counts[ROOM + GUARD];
  int64_t bounds[ROOM + GUARD], weights[ROOM + GUARD];
  uint32_t literals[ROOM + GUARD];
  uint32_t length[6];
} table;

#define LENT(t) (t)->kinds, (t)->length[0], (t)->firsts, (t)->length[1], (t)->counts, (t)->length[2], (t)->bounds, (t)->length[3], (t)->weights, (t)->length[4], (t)->literals, (t)->length[5]

static table read_table, normal_table;
static uint8_t output[(1 << 20) + GUARD];

static const uint8_t *next;
static uint8_t *answer;
static size_t answered, answer_room;

static void take(void *to, size_t count) {
  if (count) memcpy(to, next, count);
  next += count;
}

static uint32_t take32(void) {
  uint32_t value;
  take(&value, 4);
  return value;
}

static void give(const void *from, size_t count) {
  while (answered + count > answer_room) answer = realloc(answer, answer_room = 2 * answer_room + count);
  if (count) memcpy(answer + answered, from, count);
  answered += count;
}

static void give8(uint8_t value) { give(&value, 1); }

static void give_table(opb_table found) {
  give8(found.refusal);
  give(&found.place, 8);
  give(&found.rows, 8);
  give(&found.terms, 8);
}

static void give_value(opb_value found) {
  give8(found.refusal);
  give(&found.place, 8);
  give(&found.value, 8);
  give8(found.holds);
  give(&found.ones, 8);
}

static int marked(const void *from, size_t count) {
  const uint8_t *bytes = from;
  for (size_t i = 0; i < count; i++)
    if (bytes[i] != MARK) return 0;
  return 1;
}

static void mark_table(table *t) {
  memset(t->kinds, MARK, t->length[0] + GUARD);
  memset(t->firsts, MARK, 8 * ((size_t)t->length[1] + GUARD));
  memset(t->counts, MARK, 8 * ((size_t)t->length[2] + GUARD));
  memset(t->bounds, MARK, 8 * ((size_t)t->length[3] + GUARD));
  memset(t->weights, MARK, 8 * ((size_t)t->length[4] + GUARD));
  memset(t->literals, MARK, 4 * ((size_t)t->length[5] + GUARD));
}

/* whether every entry behind the first rows and terms is still marked */
static int left_alone(const table *t, size_t rows, size_t terms) {
  return marked(t->kinds + rows, t->length[0] + GUARD - rows) && marked(t->firsts + rows, 8 * (t->length[1] + GUARD - rows)) && marked(t->counts + rows, 8 * (t->length[2] + GUARD - rows)) &&
         marked(t->bounds + rows, 8 * (t->length[3] + GUARD - rows)) && marked(t->weights + terms, 8 * (t->length[4] + GUARD - terms)) &&
         marked(t->literals + terms, 4 * (t->length[5] + GUARD - terms));
}

static void give_columns(const table *t, opb_table found) {
  give8(!left_alone(t, found.rows, found.terms));
  if (found.refusal) return;
  give(t->kinds, found.rows);
  give(t->firsts, 8 * found.rows);
  give(t->counts, 8 * found.rows);
  give(t->bounds, 8 * found.rows);
  give(t->weights, 8 * found.terms);
  give(t->literals, 4 * found.terms);
}

/* the table is lent again with as many entries as the call counted */
static void shorten(table *t, opb_table found) {
  for (int column = 0; column < 4; column++) t->length[column] = found.rows;
  for (int column = 4; column < 6; column++) t->length[column] = found.terms;
}

static opb_table normalise(void) {
  memcpy(normal_table.length, read_table.length, sizeof read_table.length);
  mark_table(&normal_table);
  opb_table found = opb_normalise(LENT(&read_table), LENT(&normal_table));
  give_table(found);
  give_columns(&normal_table, found);
  return found;
}

static void evaluate(const table *t, size_t rows, const uint64_t *words) {
  for (size_t row = 0; row < rows; row++) give_value(opb_evaluate(LENT(t), row, words, WORDS));
}

static void read_call(void) {
  uint32_t first = take32();
  take(read_table.length, sizeof read_table.length);
  uint32_t assignments = take32(), length = take32();
  const uint8_t *file = next;
  next += length;
  const uint8_t *words = next;
  next += 8 * WORDS * assignments;
  mark_table(&read_table);
  give_table(opb_count(file, length, first));
  opb_table found = opb_read(file, length, first, LENT(&read_table));
  give_table(found);
  give_columns(&read_table, found);
  if (found.refusal) return;
  shorten(&read_table, found);
  opb_table normal = normalise();
  for (uint32_t i = 0; i < assignments; i++) {
    uint64_t lent[WORDS];
    memcpy(lent, words + 8 * WORDS * i, sizeof lent);
    evaluate(&read_table, found.rows, lent);
    evaluate(&normal_table, normal.rows, lent);
  }
}

static void write_call(void) {
  uint32_t first = take32();
  uint8_t plain;
  take(&plain, 1);
  uint32_t rows = take32(), terms = take32(), text_length = take32(), room = take32();
  table *t = &read_table;
  shorten(t, (opb_table){.rows = rows, .terms = terms});
  take(t->kinds, rows);
  take(t->firsts, 8 * rows);
  take(t->counts, 8 * rows);
  take(t->bounds, 8 * rows);
  take(t->weights, 8 * terms);
  take(t->literals, 4 * terms);
  memset(output, MARK, room + GUARD);
  opb_text found = opb_write(LENT(t), next, text_length, first, plain, output, room);
  next += text_length;
  give8(found.refusal);
  give(&found.place, 8);
  give(&found.length, 8);
  give8(!marked(output + found.length, room + GUARD - found.length));
  give(output, found.length);
}

static void long_call(void) {
  uint32_t first = take32();
  uint64_t length;
  take(&length, 8);
  uint8_t *file = mmap(NULL, length, PROT_READ | PROT_WRITE, MAP_PRIVATE | MAP_ANONYMOUS | MAP_NORESERVE, -1, 0);
  if (file == MAP_FAILED) exit(2);
  file[0] = '\n';
  give_table(opb_count(file, length, first));
  munmap(file, length);
}

/* a row of words of an assignment, longer than any that is lent by GUARD words */
typedef struct {
  uint64_t words[GROWN + GUARD];
  uint32_t length;
} row;

static row values_row, known_row;

static void mark_row(row *r) { memset(r->words + r->length, MARK, 8 * GUARD); }

static void grow_row(row *r, size_t length) {
  while (r->length < length) r->words[r->length++] = 0;
}

static opb_length one_values_call(const uint8_t *block, uint32_t block_length, uint64_t length) {
  mark_row(&values_row);
  mark_row(&known_row);
  opb_length found = opb_values(block, block_length, length, values_row.words, values_row.length, known_row.words, known_row.length);
  give8(found.refusal);
  give(&found.place, 8);
  give(&found.length, 8);
  give8(!(marked(values_row.words + values_row.length, 8 * GUARD) && marked(known_row.words + known_row.length, 8 * GUARD)));
  give(values_row.words, 8 * values_row.length);
  give(known_row.words, 8 * known_row.length);
  return found;
}

static void values_call(void) {
  uint64_t length;
  take(&length, 8);
  values_row.length = take32();
  known_row.length = take32();
  uint32_t blocks = take32();
  take(values_row.words, 8 * values_row.length);
  take(known_row.words, 8 * known_row.length);
  for (uint32_t i = 0; i < blocks; i++) {
    uint32_t block_length = take32();
    opb_length found = one_values_call(next, block_length, length);
    if (found.refusal == 12 && found.place <= GROWN) {
      grow_row(&values_row, found.place);
      grow_row(&known_row, found.place);
      found = one_values_call(next, block_length, length);
    }
    if (!found.refusal) length = found.length;
    next += block_length;
  }
}

static void call(void) {
  uint8_t which;
  take(&which, 1);
  if (which == 1) read_call();
  else if (which == 2) write_call();
  else if (which == 3) long_call();
  else if (which == 4) values_call();
  else exit(2);
}

static void run_batch(const uint8_t *batch, uint32_t length) {
  next = batch;
  answered = 4;
  while (next < batch + length) call();
  uint32_t size = answered - 4;
  memcpy(answer, &size, 4);
  fwrite(answer, 1, answered, stdout);
  fflush(stdout);
}

int main(void) {
  uint8_t *batch = NULL;
  uint32_t length;
  answer = malloc(answer_room = 1 << 20);
  while (fread(&length, 4, 1, stdin) == 1) {
    batch = realloc(batch, length + 1);
    if (fread(batch, 1, length, stdin) != length) return 2;
    run_batch(batch, length);
  }
  return 0;
}
