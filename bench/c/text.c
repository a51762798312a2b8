/* C written for speed, for fr_c40_read and fr_c40_write: all is judged through the tables with no branch a character, then put down. */
#include "tables.h"

#if __BYTE_ORDER__ != __ORDER_LITTLE_ENDIAN__
#error "bench/c is written for little-endian machines"
#endif

fr_filled c_c40_read(const uint8_t *s, size_t n, uint8_t *out, size_t room) { return text_of(s, n, out, room); }

/* the marks of all characters together */
static uint32_t marks_of(const uint8_t *t, size_t n) {
    uint32_t marks = 0;
    size_t i = 0;
    for (; i + 4 <= n; i += 4) marks |= c_third[t[i]] | c_third[t[i + 1]] | c_third[t[i + 2]] | c_third[t[i + 3]];
    for (; i < n; i++) marks |= c_third[t[i]];
    return marks;
}

fr_filled c_c40_write(const uint8_t *t, size_t n, uint8_t *out, size_t room) {
    size_t i = 0, count = (n + 2) / 3 * 2;
    if (n > FR_CHARACTERS_MOST) return refused(45, 0);
    if (marks_of(t, n) & STRANGER) {
        while (!(c_third[t[i]] & STRANGER)) i++;
        return refused(43, i);
    }
    if (room < count) return refused(44, 0);
    for (; i + 2 < n; i += 3, out += 2) put_pair(out, c_first[t[i]] + c_second[t[i + 1]] + c_third[t[i + 2]]);
    if (i + 2 == n) put_pair(out, c_first[t[i]] + c_second[t[i + 1]] + 1);
    else if (i + 1 == n) put_pair(out, 0xFE00u + t[i] + 1);
    return filled(count);
}
