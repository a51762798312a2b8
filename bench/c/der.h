/* DER lengths, elements and the shortest form of an INTEGER, for single INTEGERs and for signatures. */
#ifndef DER_H
#define DER_H

#include "twins.h"

/* a DER length at the head of s: its width, or 0 */
static inline size_t length_at(const uint8_t *s, size_t n, size_t *value) {
    static const size_t least[] = {0, 0x80, 0x100, 0x10000, 0x1000000};
    if (n == 0) return 0;
    if (s[0] < 0x80) return *value = s[0], 1;
    if (s[0] == 0x80 || s[0] >= 0x85) return 0;
    size_t k = s[0] - 0x80u;
    if (n - 1 < k) return 0;
    *value = 0;
    for (size_t i = 1; i <= k; i++) *value = *value * 256 + s[i];
    return *value < least[k] ? 0 : k + 1;
}

/* an element at the head of s: where its body starts and ends */
static inline int element(uint8_t tag, const uint8_t *s, size_t n, size_t *start, size_t *end) {
    size_t size, width;
    if (n == 0 || s[0] != tag || !(width = length_at(s + 1, n - 1, &size)) || n - 1 - width < size) return 0;
    *start = width + 1;
    *end = width + 1 + size;
    return 1;
}

static inline int is_redundant(uint8_t x, uint8_t y) { return y < 0x80 ? x == 0 : x == 0xFF; }

static inline int is_shortest(const uint8_t *c, size_t m) { return m == 1 || (m > 1 && !is_redundant(c[0], c[1])); }

#endif
