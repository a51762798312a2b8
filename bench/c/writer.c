/* C written for speed, for fr_write: the same answers in the same order, all of them before the first byte is written. A bit a
   tag tells whether it was used; text goes down through the tables, values and signature by memcpy. */
#include "days.h"
#include "letters.h"
#include "tables.h"

static int is_country(const uint8_t *c) {
    if (!is_letter(c[0])) return 0;
    if (is_letter(c[1])) return is_letter(c[2]) || c[2] == '<';
    return c[1] == '<' && c[2] == '<';
}

static int are_names(const fr_header *h, const uint8_t *text, size_t n) {
    if (!is_country(h->country)) return 0;
    if (h->version == 3 ? n != 9 : n < 5 || n > 259) return 0;
    if (h->length != n - 4 || !is_signer(text)) return 0;
    for (size_t i = 4; i < n; i++)
        if (!is_reference(text[i])) return 0;
    return 1;
}

static int is_last(size_t x) { return x >= 1 && x <= 254; }

/* 24: a bit a tag tells whether it was used */
static int are_rows(const size_t *rows, size_t n, size_t size) {
    uint64_t used[4] = {0};
    if (n % FR_ROW) return 0;
    for (const size_t *row = rows; row < rows + n; row += FR_ROW) {
        size_t tag = row[FR_ROW_TAG], place = row[FR_ROW_VALUE_PLACE];
        if (tag > 254 || place > size || row[FR_ROW_VALUE_LENGTH] > size - place) return 0;
        uint64_t bit = (uint64_t)1 << (tag & 63), *word = used + (tag >> 6);
        if (*word & bit) return 0;
        *word |= bit;
    }
    return 1;
}

/* 25 */
static int are_values(size_t version, const size_t *rows, size_t n) {
    if (version != 3) return 1;
    for (size_t i = FR_ROW_VALUE_LENGTH; i < n; i += FR_ROW)
        if (rows[i] > 255) return 0;
    return 1;
}

static int is_signature(size_t n) { return n == 56 || n == 64 || n == 96 || n == 128 || n == 132; }

static size_t width_of(size_t version, size_t size) { return version == 3 || size < 0x80 ? 1 : size < 0x100 ? 2 : 3; }

/* 27: a sum that stops past 4,096 */
static size_t seal_size(const fr_header *h, size_t characters, const size_t *rows, size_t n, size_t raw) {
    size_t total = 12 + (h->version == 3 ? 6 : (characters + 4) / 3 * 2) + 1 + width_of(4, raw) + raw;
    for (size_t i = FR_ROW_VALUE_LENGTH; i < n; i += FR_ROW) {
        if (rows[i] > FR_SEAL_MOST) return FR_SEAL_MOST + 1;
        total += 1 + width_of(h->version, rows[i]) + rows[i];
    }
    return total;
}

/* the value of a character that was judged; for so few no table is looked up */
static unsigned value_of(uint8_t c) { return c == ' ' ? 3 : c < 'A' ? c - '0' + 4u : c - 'A' + 14u; }

/* text in C40, its characters judged before */
static size_t put_text(uint8_t *out, size_t at, const uint8_t *t, size_t n) {
    size_t i = 0;
    for (; i + 2 < n; i += 3, at += 2) put_pair(out + at, 1600 * value_of(t[i]) + 40 * value_of(t[i + 1]) + value_of(t[i + 2]) + 1);
    if (i == n) return at;
    put_pair(out + at, i + 2 == n ? 1600 * value_of(t[i]) + 40 * value_of(t[i + 1]) + 1 : 0xFE00u + t[i] + 1);
    return at + 2;
}

static uint8_t hex_digit(size_t n) { return (uint8_t)(n < 10 ? '0' + n : 'A' + n - 10); }

/* in version 4 six characters, two whole pairs, are the signer and L, and the reference begins a pair of its own */
static size_t put_names(uint8_t *out, size_t at, size_t version, const uint8_t *text, size_t n) {
    if (version == 3) return put_text(out, at, text, n);
    uint8_t six[6] = {text[0], text[1], text[2], text[3], hex_digit((n - 4) / 16), hex_digit((n - 4) % 16)};
    at = put_text(out, at, six, 6);
    return put_text(out, at, text + 4, n - 4);
}

static size_t put_date(uint8_t *out, size_t at, fr_date d) {
    size_t v = d.month * 1000000 + d.day * 10000 + d.year;
    out[at] = (uint8_t)(v / 65536);
    out[at + 1] = (uint8_t)(v / 256);
    out[at + 2] = (uint8_t)v;
    return at + 3;
}

static size_t put_length(uint8_t *out, size_t at, size_t version, size_t size) {
    if (version == 3 || size < 0x80) {
        out[at] = (uint8_t)size;
        return at + 1;
    }
    if (size < 0x100) {
        out[at] = 0x81;
        out[at + 1] = (uint8_t)size;
        return at + 2;
    }
    out[at] = 0x82;
    put_pair(out + at + 1, (uint32_t)size);
    return at + 3;
}

static size_t put_feature(uint8_t *restrict out, size_t at, size_t version, size_t tag, const uint8_t *restrict value, size_t size) {
    out[at] = (uint8_t)tag;
    at = put_length(out, at + 1, version, size);
    if (size) memcpy(out + at, value, size);
    return at + size;
}

static void put_seal(const fr_header *h, const uint8_t *text, size_t characters, const size_t *rows, size_t numbers, const uint8_t *values,
                     const uint8_t *signature, size_t raw, uint8_t *out) {
    out[0] = 0xDC;
    out[1] = (uint8_t)(h->version - 1);
    uint8_t code[3];
    for (int i = 0; i < 3; i++) code[i] = h->country[i] == '<' ? ' ' : h->country[i];
    size_t at = put_text(out, 2, code, 3);
    at = put_names(out, at, h->version, text, characters);
    at = put_date(out, at, h->issued_on);
    at = put_date(out, at, h->signed_on);
    out[at++] = (uint8_t)h->definition;
    out[at++] = (uint8_t)h->category;
    for (size_t i = 0; i < numbers; i += FR_ROW)
        at = put_feature(out, at, h->version, rows[i + FR_ROW_TAG], values + rows[i + FR_ROW_VALUE_PLACE], rows[i + FR_ROW_VALUE_LENGTH]);
    put_feature(out, at, 4, 0xFF, signature, raw);
}

fr_filled c_write(fr_header h, const uint8_t *text, size_t characters, const size_t *rows, size_t numbers, const uint8_t *values, size_t size,
                  const uint8_t *signature, size_t raw, uint8_t *out, size_t room) {
    if (h.version != 3 && h.version != 4) return refused(20, 0);
    if (!are_names(&h, text, characters)) return refused(21, 0);
    if (!is_day(h.issued_on) || !is_day(h.signed_on)) return refused(22, 0);
    if (!is_last(h.definition) || !is_last(h.category)) return refused(23, 0);
    if (!are_rows(rows, numbers, size)) return refused(24, 0);
    if (!are_values(h.version, rows, numbers)) return refused(25, 0);
    if (!is_signature(raw)) return refused(26, 0);
    size_t total = seal_size(&h, characters, rows, numbers, raw);
    if (total > FR_SEAL_MOST) return refused(27, 0);
    if (room < total) return refused(28, 0);
    put_seal(&h, text, characters, rows, numbers, values, signature, raw, out);
    return filled(total);
}
