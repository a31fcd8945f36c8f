/* Times one call: measure WHAT FILE, WHAT one of read, count (the first walk alone), walks, tight, newlines, write, write-plain, values (FILE is a block of value lines). Prints the seconds, the bytes that they went over and the peak memory of the process in KB. Columns and outputs
 * are there and touched before the clock starts, and the call has been made once before, as a caller's who reads many files. */
#include <stdio.h>
#include <stdlib.h>
#include <string.h>
#include <sys/resource.h>
#include <time.h>

#include "opb.h"
#include "tight.h"
#include "walks.h"

typedef struct {
    uint8_t *kinds;
    size_t *firsts, *counts;
    int64_t *bounds, *weights;
    uint32_t *literals;
    size_t rows, terms;
} table;

#define LENT(t) (t)->kinds, (t)->rows, (t)->firsts, (t)->rows, (t)->counts, (t)->rows, (t)->bounds, (t)->rows, (t)->weights, (t)->terms, (t)->literals, (t)->terms

static uint8_t *file;
static size_t length;

static void *room(size_t bytes) {
    void *there = malloc(bytes + 1);
    if (there == NULL) exit(2);
    return memset(there, 1, bytes + 1);
}

static table columns(size_t rows, size_t terms) {
    table t = {room(rows), room(8 * rows), room(8 * rows), room(8 * rows), room(8 * terms), room(4 * terms), rows, terms};
    return t;
}

static void accepted(uint8_t refusal) {
    if (refusal != OPB_ACCEPTED) {
        fprintf(stderr, "measure: refusal %d\n", refusal);
        exit(1);
    }
}

static double now(void) {
    struct timespec t;
    clock_gettime(CLOCK_MONOTONIC, &t);
    return (double)t.tv_sec + 1e-9 * (double)t.tv_nsec;
}

static void told(double began, size_t bytes) {
    double seconds = now() - began;
    struct rusage used;
    getrusage(RUSAGE_SELF, &used);
    printf("%.9f %zu %ld\n", seconds, bytes, used.ru_maxrss);
}

static table counted(void) {
    opb_table a = opb_count(file, length, 1);
    accepted(a.refusal);
    return columns(a.rows, a.terms);
}

static table read_file(int timed) {
    table t = counted();
    opb_table a = opb_read(file, length, 1, LENT(&t));
    if (!timed) return t;
    double began = now();
    a = opb_read(file, length, 1, LENT(&t));
    told(began, length);
    accepted(a.refusal);
    return t;
}

static void write_table(uint8_t plain) {
    table t = read_file(0), n = columns(t.rows, t.terms);
    opb_table a = opb_normalise(LENT(&t), LENT(&n));
    accepted(a.refusal);
    size_t most = 2 * length + 64;
    uint8_t *out = room(most);
    opb_text w = opb_write(LENT(&n), file, length, 1, plain, out, most);
    double began = now();
    w = opb_write(LENT(&n), file, length, 1, plain, out, most);
    accepted(w.refusal);
    told(began, w.length);
}

static void count_file(void) {
    opb_table a = opb_count(file, length, 1);
    double began = now();
    a = opb_count(file, length, 1);
    told(began, length);
    accepted(a.refusal);
}

static void read_tight(void) {
    table t = counted();
    tight_read(file, file + length, t.bounds, t.weights, t.literals);
    double began = now();
    size_t rows = tight_read(file, file + length, t.bounds, t.weights, t.literals);
    told(began, length);
    if (rows != t.rows) exit(1);
}

static void read_walks(void) {
    table t = counted();
    walks_read(file, length, t.bounds, t.rows, t.weights, t.literals, t.terms);
    double began = now();
    size_t rows = walks_read(file, length, t.bounds, t.rows, t.weights, t.literals, t.terms);
    told(began, length);
    if (rows != t.rows) exit(1);
}

/* On an empty assignment, whose rows have the words that an assignment without words was refused for. */
static void read_values(void) {
    opb_length a = opb_values(file, length, 0, NULL, 0, NULL, 0);
    size_t words = a.place;
    uint64_t *values = room(8 * words), *known = room(8 * words);
    memset(known, 0, 8 * words);
    a = opb_values(file, length, 0, values, words, known, words);
    memset(known, 0, 8 * words);
    double began = now();
    a = opb_values(file, length, 0, values, words, known, words);
    told(began, length);
    accepted(a.refusal);
}

/* Inlined into a function that is called once, gcc would not vectorise it. */
__attribute__((noinline)) static size_t count_newlines(const uint8_t *bytes, size_t count) {
    size_t n = 0;
    for (size_t i = 0; i < count; i++) n += bytes[i] == '\n';
    return n;
}

static void newlines(void) {
    size_t before = count_newlines(file, length);
    file[0] = '\n';
    double began = now();
    size_t n = count_newlines(file, length);
    told(began, length);
    if (n != before + 1) exit(1);
}

int main(int count, char **words) {
    FILE *from = count == 3 ? fopen(words[2], "rb") : NULL;
    if (from == NULL || fseek(from, 0, SEEK_END) != 0) return 2;
    length = (size_t)ftell(from);
    file = room(length);
    rewind(from);
    if (fread(file, 1, length, from) != length) return 2;
    if (strcmp(words[1], "read") == 0) read_file(1);
    else if (strcmp(words[1], "count") == 0) count_file();
    else if (strcmp(words[1], "walks") == 0) read_walks();
    else if (strcmp(words[1], "tight") == 0) read_tight();
    else if (strcmp(words[1], "newlines") == 0) newlines();
    else if (strcmp(words[1], "values") == 0) read_values();
    else if (strcmp(words[1], "write") == 0) write_table(0);
    else if (strcmp(words[1], "write-plain") == 0) write_table(1);
    else return 2;
    return 0;
}
