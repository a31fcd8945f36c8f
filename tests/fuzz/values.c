/* A model of reading value lines, written from request A1's text and nothing else: slow and plain. What a token says is kept in a list; only once all lines are good are the rows looked at again. */
#include <string.h>
#include "fuzz.h"

enum { SIGNED, STRING, NAMED };
/* "above 1,073,741,824": the greatest number of a variable, from 1 */
#define GREATEST 1073741824u

/* a variable, from 0, with the value that a token gives it */
typedef struct {
    uint64_t variable;
    int value;
} given;

typedef struct {
    const uint8_t *block;
    size_t length;
    int form;
    uint64_t kept;
    const uint64_t *values, *known;
    size_t room;
    given *heard;
    size_t count;
} lines;

static int is_white(uint8_t b) {
    return (b >= 9 && b <= 13) || b == 32;
}

static int is_bit(uint8_t b) {
    return b == '0' || b == '1';
}

/* "an `x` anywhere: x tokens. Else all behind the block's first byte, trimmed: `0` and `1` alone, but not just `0`: one string. Else signed numbers." */
static int form_of(const uint8_t *block, size_t length) {
    size_t start = 1, end = length;
    if (memchr(block, 'x', length)) return NAMED;
    while (start < end && is_white(block[start])) start++;
    while (start < end && is_white(block[end - 1])) end--;
    if (end - start == 1 && block[start] == '0') return SIGNED;
    while (start < end && is_bit(block[start])) start++;
    return start == end ? STRING : SIGNED;
}

static int bit(const uint64_t *words, uint64_t variable) {
    return (int)(words[variable / 64] >> variable % 64 & 1);
}

/* 22: "a variable gets another value than the known words have for it, or than an earlier token gave it" */
static int hear(lines *l, uint64_t variable, int value) {
    if (variable / 64 < l->room && bit(l->known, variable) && bit(l->values, variable) != value) return 22;
    for (size_t i = 0; i < l->count; i++)
        if (l->heard[i].variable == variable && l->heard[i].value != value) return 22;
    l->heard[l->count++] = (given){variable, value};
    return 0;
}

/* "A string is one token that appends at the length; 5 if its last index is above the limit." */
static int string(lines *l, const uint8_t *token, size_t length) {
    int refusal = 0;
    if (l->kept > GREATEST || length > GREATEST - l->kept) return 5;
    for (size_t i = 0; i < length && !refusal; i++) refusal = hear(l, l->kept + i, token[i] == '1');
    return refusal;
}

/* "Digits of any length are a number": 0 where there is another byte, or none; a number beyond the greatest is some such number */
static int number(const uint8_t *digits, size_t length, uint64_t *value) {
    *value = 0;
    for (size_t i = 0; i < length; i++) {
        if (digits[i] < '0' || digits[i] > '9') return 0;
        *value = *value * 10 + (unsigned)(digits[i] - '0');
        if (*value > GREATEST) *value = (uint64_t)GREATEST + 1;
    }
    return length > 0;
}

/* "Signed: optional `+` or `-`, digits. x form: optional `~` or `-`, `x`, digits. Any other token is 21." */
static int token(lines *l, const uint8_t *s, size_t length) {
    uint64_t value;
    int negated = *s == '-' || (l->form == NAMED && *s == '~');
    if (l->form == STRING) return string(l, s, length);
    if (negated || (l->form == SIGNED && *s == '+')) s++, length--;
    if (l->form == NAMED) {
        if (length == 0 || *s != 'x') return 21;
        s++, length--;
    }
    if (!number(s, length, &value)) return 21;
    if (l->form == SIGNED && value == 0) return 0;
    if (value == 0 || value > GREATEST) return 5;
    return hear(l, value - 1, !negated);
}

/* the tokens of a line from `at` on, behind its `v`; `at` goes to the LF or the end, or stays where a token is refused */
static int tokens(lines *l, size_t *at) {
    while (*at < l->length && l->block[*at] != '\n') {
        size_t end = *at;
        while (end < l->length && !is_white(l->block[end])) end++;
        int refusal = end > *at ? token(l, l->block + *at, end - *at) : 0;
        if (refusal) return refusal;
        *at = end > *at ? end : *at + 1;
    }
    return 0;
}

/* "Line by line: 20, then token by token 21, 5, 22." */
static opb_length heard(lines *l) {
    size_t at = 0;
    if (l->length == 0) return (opb_length){.refusal = 20};
    for (; at < l->length; at++) {
        if (l->block[at] != 'v') return (opb_length){.refusal = 20, .place = at};
        at++;
        int refusal = tokens(l, &at);
        if (refusal) return (opb_length){.refusal = (uint8_t)refusal, .place = at};
    }
    uint64_t after = l->kept;
    for (size_t i = 0; i < l->count; i++)
        if (l->heard[i].variable >= after) after = l->heard[i].variable + 1;
    return (opb_length){.length = after};
}

static void set(uint64_t *words, uint64_t variable, int value) {
    uint64_t power = (uint64_t)1 << variable % 64;
    words[variable / 64] = value ? words[variable / 64] | power : words[variable / 64] & ~power;
}

opb_length model_values(const uint8_t *block, size_t block_length, uint64_t length, uint64_t *values, size_t values_length, uint64_t *known, size_t known_length) {
    static given all[TEXT];
    size_t room = values_length < known_length ? values_length : known_length;
    lines l = {block, block_length, block_length ? form_of(block, block_length) : SIGNED, length, values, known, room, all, 0};
    opb_length a = heard(&l);
    if (a.refusal) return a;
    uint64_t needed = a.length / 64 + (a.length % 64 != 0);
    if (needed > l.room) return (opb_length){.refusal = 12, .place = needed};
    for (size_t i = 0; i < l.count; i++) {
        set(values, l.heard[i].variable, l.heard[i].value);
        set(known, l.heard[i].variable, 1);
    }
    return a;
}
