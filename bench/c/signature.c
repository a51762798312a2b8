/* C written for speed, for fr_signature_to_der, fr_signature_to_raw and fr_hash: all is judged before the first byte is written; copies by memcpy. */
#include "der.h"
#include <string.h>

static fr_filled filled(size_t count) { return (fr_filled){0, 0, count}; }
static fr_filled refused(size_t number) { return (fr_filled){number, 0, 0}; }

static int is_size(size_t n) { return n == 28 || n == 32 || n == 48 || n == 64 || n == 66; }

static size_t start_of(const uint8_t *r, size_t n) {
    size_t k = 0;
    while (k + 1 < n && r[k] == 0) k++;
    return k;
}

static size_t put_integer(const uint8_t *r, size_t n, size_t start, uint8_t *out, size_t at) {
    size_t size = n - start + (r[start] >= 0x80);
    out[at++] = 2;
    out[at++] = (uint8_t)size;
    if (r[start] >= 0x80) out[at++] = 0;
    memcpy(out + at, r + start, n - start);
    return at + n - start;
}

fr_filled c_signature_to_der(size_t n, const uint8_t *raw, size_t length, uint8_t *out, size_t room) {
    if (!is_size(n)) return refused(60);
    if (length != 2 * n) return refused(61);
    size_t r = start_of(raw, n), s = start_of(raw + n, n);
    size_t size = n - r + (raw[r] >= 0x80) + n - s + (raw[n + s] >= 0x80) + 4;
    size_t head = size < 0x80 ? 2 : 3;
    if (room < head + size) return refused(63);
    out[0] = 0x30;
    if (size < 0x80) {
        out[1] = (uint8_t)size;
    } else {
        out[1] = 0x81;
        out[2] = (uint8_t)size;
    }
    size_t at = put_integer(raw, n, r, out, head);
    put_integer(raw + n, n, s, out, at);
    return filled(head + size);
}

/* the digits of the INTEGER at the head of t, if it is a number for n bytes */
static int number(size_t n, const uint8_t *t, size_t size, size_t *start, size_t *end) {
    if (!element(2, t, size, start, end)) return 0;
    const uint8_t *c = t + *start;
    size_t m = *end - *start;
    if (!is_shortest(c, m) || c[0] >= 0x80) return 0;
    if (c[0] == 0 && m > 1) (*start)++, m--;
    return m <= n;
}

static void put_padded(const uint8_t *d, size_t m, size_t n, uint8_t *out) {
    if (m < n) memset(out, 0, n - m);
    memcpy(out + n - m, d, m);
}

fr_filled c_signature_to_raw(size_t n, const uint8_t *der, size_t size, uint8_t *out, size_t room) {
    size_t from, to, r, r_end, s, s_end;
    if (!is_size(n)) return refused(60);
    if (!element(0x30, der, size, &from, &to) || to != size) return refused(62);
    const uint8_t *pair = der + from;
    if (!number(n, pair, to - from, &r, &r_end)) return refused(62);
    const uint8_t *rest = pair + r_end;
    size_t left = to - from - r_end;
    if (!number(n, rest, left, &s, &s_end) || s_end != left) return refused(62);
    if (room < 2 * n) return refused(63);
    put_padded(pair + r, r_end - r, n, out);
    put_padded(rest + s, s_end - s, n, out + n);
    return filled(2 * n);
}

fr_hashed c_hash(size_t n) {
    switch (n) {
    case 28: return (fr_hashed){0, 0, 224};
    case 32: return (fr_hashed){0, 0, 256};
    case 48: return (fr_hashed){0, 0, 384};
    case 64:
    case 66: return (fr_hashed){0, 0, 512};
    default: return (fr_hashed){60, 0, 0};
    }
}
