/* A tight single pass over a plan, as the practical limit: what it reads it believes. No refusals, no limits, one walk, weights and literal codes into columns. */
#include <string.h>

#include "tight.h"

/* The number at p, and p behind it. */
#define NUMBER(value)                                             \
    do {                                                          \
        int negative = 0;                                         \
        if (*p == '-') negative = 1, p++;                         \
        value = 0;                                                \
        while (*p >= '0' && *p <= '9') value = 10 * value + (*p++ - '0'); \
        if (negative) value = -value;                             \
    } while (0)

#define BLANKS \
    while (*p == ' ') p++

size_t tight_read(const uint8_t *p, const uint8_t *end, int64_t *bounds, int64_t *weights, uint32_t *literals) {
    size_t rows = 0, n = 0;
    while (p < end) {
        int64_t weight, bound = 0;
        uint32_t variable;
        if (*p == '*') {
            p = memchr(p, '\n', (size_t)(end - p));
            if (p == NULL) break;
            p++;
            rows++;
            continue;
        }
        if (*p == 'm') p += 4;
        for (;;) {
            BLANKS;
            if (*p != '-' && (*p < '0' || *p > '9')) break;
            NUMBER(weight);
            BLANKS;
            int negated = 0;
            if (*p == '~') negated = 1, p++;
            p++;
            variable = 0;
            while (*p >= '0' && *p <= '9') variable = 10 * variable + (uint32_t)(*p++ - '0');
            weights[n] = weight;
            literals[n++] = 2 * (variable - 1) + (uint32_t)negated;
        }
        if (*p != ';') {
            p += 2;
            BLANKS;
            NUMBER(bound);
        }
        bounds[rows++] = bound;
        while (*p != '\n') p++;
        p++;
    }
    return rows;
}
