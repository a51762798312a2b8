/* The tables of C40, filled once before main (tables.c), for the text codec, the reader and the writer; and words loaded from bytes. */
#ifndef TABLES_H
#define TABLES_H

#include "twins.h"
#include <string.h>

/* gcc 12 makes slow gathers of loops over a table */
#pragma GCC optimize "no-tree-vectorize"

/* By a pair's 16 bits as a little-endian machine loads them: its characters in the three low bytes and their count, 3, 2 or 1, above them; of a
   pair that is faulty wherever it stands the count is 0, and the lowest byte the number of the fault. */
extern uint32_t c_pairs[65536];

/* What a character adds to its pair as the first, the second and the third; STRANGER is set where it is not in the chart. */
extern uint32_t c_first[256], c_second[256], c_third[256];
#define STRANGER 0x10000u

/* What a pair of a header's text may be, a bit each: a country; the signer's first three; three letters or digits; the signer's last and the
   reference's length; two letters or digits, and one, that end a reference. */
enum { COUNTRY = 1, SIGNER = 2, THREE = 4, LENGTH = 8, TWO = 16, ONE = 32 };

/* Which of them a pair is, by its 16 bits as above; and by a first byte, which of them some pair is that begins with it. */
extern uint8_t c_kinds[65536], c_begins[256];

static inline uint16_t bits_at(const uint8_t *s) {
    uint16_t pair;
    memcpy(&pair, s, 2);
    return pair;
}

static inline uint32_t pair_at(const uint8_t *s) { return c_pairs[bits_at(s)]; }

static inline unsigned kinds_at(const uint8_t *s) { return c_kinds[bits_at(s)]; }

static inline size_t count_of(uint32_t entry) { return entry >> 24; }

/* the fault of a pair before the last that has not three characters; the last one is faulty only where it has none */
static inline size_t fault_before_last(uint32_t entry) {
    size_t count = count_of(entry);
    return count == 3 ? 0 : count == 2 ? 46 : count == 1 ? 47 : entry & 0xFF;
}

/* a pair's number, big-endian */
static inline void put_pair(uint8_t *out, uint32_t number) {
    uint16_t pair = __builtin_bswap16((uint16_t)number);
    memcpy(out, &pair, 2);
}

static inline fr_filled filled(size_t count) { return (fr_filled){0, 0, count}; }
static inline fr_filled refused(size_t number, size_t place) { return (fr_filled){number, place, 0}; }

static inline void put_three(uint8_t *out, uint32_t entry) { memcpy(out, &entry, 3); }

/* so many bytes, all of them full pairs, as text; each store but the last has a byte too many, which the next one covers */
static inline uint8_t *put_full(const uint8_t *s, size_t n, uint8_t *out) {
    size_t i = 0;
    for (; i + 4 < n; i += 4, out += 6) {
        uint32_t first = pair_at(s + i), second = pair_at(s + i + 2);
        memcpy(out, &first, 4);
        memcpy(out + 3, &second, 4);
    }
    for (; i < n; i += 2, out += 3) put_three(out, pair_at(s + i));
    return out;
}

/* C40 bytes as text: the entries of all pairs are judged together, four a turn, and then the text is put down */
static inline fr_filled text_of(const uint8_t *s, size_t n, uint8_t *out, size_t room) {
    if (n > FR_C40_MOST) return refused(45, 0);
    if (n % 2) return refused(40, n);
    if (n == 0) return filled(0);
    size_t front = n - 2, i = 0;
    uint32_t all = 3u << 24, last = pair_at(s + front);
    for (; i + 8 <= front; i += 8) all &= pair_at(s + i) & pair_at(s + i + 2) & pair_at(s + i + 4) & pair_at(s + i + 6);
    for (; i < front; i += 2) all &= pair_at(s + i);
    if (count_of(all) != 3 || count_of(last) == 0) {
        for (i = 0; i < front && count_of(pair_at(s + i)) == 3; i += 2) {}
        return i < front ? refused(fault_before_last(pair_at(s + i)), i) : refused(last & 0xFF, i);
    }
    size_t count = front / 2 * 3 + count_of(last);
    if (room < count) return refused(42, 0);
    out = put_full(s, front, out);
    out[0] = (uint8_t)last;
    if (count_of(last) > 1) out[1] = (uint8_t)(last >> 8);
    if (count_of(last) > 2) out[2] = (uint8_t)(last >> 16);
    return filled(count);
}

#endif
