/* See walks.c. */
#ifndef WALKS_H
#define WALKS_H

#include <stddef.h>
#include <stdint.h>

/* Answers the rows, or 0. */
size_t walks_read(const uint8_t *s, size_t length, int64_t *bounds, size_t rows, int64_t *weights, uint32_t *literals, size_t terms);

#endif
