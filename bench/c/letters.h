/* The characters of country, signer and reference, for the reader, for its reasons and for the writer. */
#ifndef LETTERS_H
#define LETTERS_H

#include "twins.h"

static inline int is_letter(uint8_t c) { return c >= 'A' && c <= 'Z'; }
static inline int is_letter_or_digit(uint8_t c) { return is_letter(c) || (c >= '0' && c <= '9'); }
static inline int is_reference(uint8_t c) { return is_letter_or_digit(c); }
static inline int is_signer(const uint8_t *t) {
    return is_letter(t[0]) && is_letter(t[1]) && is_letter_or_digit(t[2]) && is_letter_or_digit(t[3]);
}

static inline int all_reference(const uint8_t *t, size_t size) {
    for (size_t i = 0; i < size; i++)
        if (!is_reference(t[i])) return 0;
    return 1;
}

/* what a hexadecimal digit stands for, and 16 for any other character */
static inline size_t hex_value(uint8_t c) {
    if (c >= '0' && c <= '9') return c - '0';
    return c >= 'A' && c <= 'F' ? c - 55u : 16;
}

#endif
