/* C written for speed, for fr_date_from_number, fr_date_to_number, fr_integer_read and fr_integer_write. */
#include "days.h"
#include "der.h"
#include <string.h>

fr_dated c_date_from_number(size_t number) {
    fr_date d = {number / 1000000, number / 10000 % 100, number % 10000};
    if (!is_day(d)) return (fr_dated){6, 0, {0, 0, 0}};
    return (fr_dated){0, 0, d};
}

fr_numbered c_date_to_number(fr_date d) {
    if (!is_day(d)) return (fr_numbered){22, 0, 0};
    return (fr_numbered){0, 0, d.month * 1000000 + d.day * 10000 + d.year};
}

/* 02, a length of one byte and 1 to 8 bytes of content are the only good form */
fr_integer c_integer_read(const uint8_t *s, size_t n) {
    if (n < 3 || n > 10 || s[0] != 0x02 || s[1] != n - 2 || (n > 3 && is_redundant(s[2], s[3]))) return (fr_integer){65, 0, 0};
    int64_t value = (int8_t)s[2];
    for (size_t i = 3; i < n; i++) value = (int64_t)((uint64_t)value << 8 | s[i]);
    return (fr_integer){0, 0, value};
}

fr_filled c_integer_write(int64_t value, uint8_t *out, size_t room) {
    uint64_t w = (uint64_t)value;
    uint8_t bytes[8];
    for (int i = 0; i < 8; i++) bytes[i] = (uint8_t)(w >> (56 - 8 * i));
    size_t start = 0;
    while (start < 7 && is_redundant(bytes[start], bytes[start + 1])) start++;
    size_t size = 8 - start;
    if (room < size + 2) return (fr_filled){63, 0, 0};
    out[0] = 0x02;
    out[1] = (uint8_t)size;
    memcpy(out + 2, bytes + start, size);
    return (fr_filled){0, 0, size + 2};
}
