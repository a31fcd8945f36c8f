/* See tight.c. */
#ifndef TIGHT_H
#define TIGHT_H

#include <stddef.h>
#include <stdint.h>

/* The file ends with an LF. Answers its rows. */
size_t tight_read(const uint8_t *p, const uint8_t *end, int64_t *bounds, int64_t *weights, uint32_t *literals);

#endif
