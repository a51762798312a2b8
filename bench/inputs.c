/* What the calls are given. */
#include "inputs.h"
#include <string.h>

/* a feature, with a place of its tag that no seal has, as a writer ignores it */
static void add(given *g, size_t tag, size_t size) {
    size_t *row = g->rows + g->numbers;
    row[FR_ROW_TAG] = tag;
    row[FR_ROW_TAG_PLACE] = SIZE_MAX - tag;
    row[FR_ROW_VALUE_PLACE] = g->size;
    row[FR_ROW_VALUE_LENGTH] = size;
    for (size_t i = 0; i < size; i++) g->values[g->size++] = (uint8_t)(tag + i);
    g->numbers += FR_ROW;
}

static given start(size_t version, size_t reference, size_t raw) {
    given g = {.header = {version, {'D', '<', '<'}, reference, {3, 25, 1957}, {12, 31, 2026}, 1, 2}, .text = "UTAB"};
    for (size_t i = 0; i < reference; i++) g.text[4 + i] = (uint8_t)"0123456789ABCDEFGHIJKLMNOPQRSTUVWXYZ"[i % 36];
    g.characters = 4 + reference;
    memset(g.signature, 0xAA, raw);
    g.raw = raw;
    g.room = 4096;
    return g;
}

given given_typical(size_t version) {
    given g = start(version, 5, 64);
    add(&g, 1, 20);
    add(&g, 2, 20);
    add(&g, 3, version == 3 ? 20 : 18);
    return g;
}

given given_full(void) {
    given g = start(4, 255, 132);
    for (size_t tag = 0; tag < 254; tag++) add(&g, tag, 12);
    add(&g, 254, 4096 - 135 - 186 - 254 * 14 - 3);
    return g;
}

fr_filled write_given(const maker *m, const given *g, uint8_t *out) {
    return m->write(g->header, g->text, g->characters, g->rows, g->numbers, g->values, g->size, g->signature, g->raw, out, g->room);
}

static unsigned seed = 1;

static unsigned next(void) {
    seed = seed * 1103515245u + 12345u;
    return seed >> 16;
}

void fill_text(uint8_t *text, size_t n) {
    for (size_t i = 0; i < n; i++) text[i] = (uint8_t)" 0123456789ABCDEFGHIJKLMNOPQRSTUVWXYZ"[next() % 37];
}

void fill_bytes(uint8_t *bytes, size_t n) {
    for (size_t i = 0; i < n; i++) bytes[i] = (uint8_t)next();
}

signatures make_signatures(size_t n) {
    signatures s = {0};
    for (size_t k = 0; k < SIGNATURES; k++) {
        fill_bytes(s.raw[k], 2 * n);
        if (k % 4 == 0) s.raw[k][0] = 0, s.raw[k][n] = 0;
    }
    return s;
}

int64_t integer_at(size_t k) {
    int64_t value = ((int64_t)1 << (8 * (k % 8) + 5)) - (int64_t)k;
    return k < 8 ? value : -value;
}
