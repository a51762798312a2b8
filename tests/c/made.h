/* Seals put together by hand, and the rows that a reader must give of them. */
#ifndef MADE_H
#define MADE_H

#include "lent.h"

/* A feature: its tag, and how many bytes FF, which are no mark, its value has. */
typedef struct feature {
    uint8_t tag;
    size_t size;
} feature;

static uint8_t made[FR_SEAL_MOST];
static size_t made_rows[FR_TABLE_MOST];

/* Seal A's header, or the same in version 4. Gives its length. */
static size_t put_front(uint8_t *seal, size_t version) {
    static const uint8_t names[] = {0xD9, 0xB7, 0x5E, 0x6A, 0x19, 0xA5, 0x19, 0xC9};
    memcpy(seal, seal_a, 18);
    if (version == 3) return 18;
    seal[1] = 3;
    memcpy(seal + 4, names, 8);
    memcpy(seal + 12, seal_a + 10, 8);
    return 20;
}

/* A feature's length: one plain byte in version 3, the shortest DER length in version 4. Gives how many bytes it has. */
static size_t put_length(uint8_t *to, size_t version, size_t size) {
    size_t width = version == 3 || size < 128 ? 1 : size < 256 ? 2 : 3;
    if (width > 1) *to++ = (uint8_t)(0x80 + width - 1);
    if (width == 3) *to++ = (uint8_t)(size >> 8);
    *to = (uint8_t)size;
    return width;
}

/* Makes a seal of these features and Seal A's signature, with its rows. Gives its length. */
static size_t make_seal(size_t version, const feature *features, size_t count) {
    size_t i, end = put_front(made, version);
    for (i = 0; i < count; i++) {
        size_t *row = made_rows + FR_ROW * i;
        row[FR_ROW_TAG] = features[i].tag;
        row[FR_ROW_TAG_PLACE] = end;
        made[end++] = features[i].tag;
        end += put_length(made + end, version, features[i].size);
        row[FR_ROW_VALUE_PLACE] = end;
        row[FR_ROW_VALUE_LENGTH] = features[i].size;
        memset(made + end, 0xFF, features[i].size);
        end += features[i].size;
    }
    memcpy(made + end, seal_a + 24, SEAL_A - 24);
    return end + SEAL_A - 24;
}

/* Whether features lie one after another by the lent table, from the header's end to FF, with the tag's byte at each tag's place. */
static int one_after_another(const uint8_t *seal, fr_reading r) {
    size_t i, at = r.ends.header;
    for (i = 0; i < r.count; i++) {
        const size_t *row = table + FR_ROW * i;
        if (row[FR_ROW_TAG_PLACE] != at || at >= r.ends.message || seal[at] != row[FR_ROW_TAG]) return 0;
        at = row[FR_ROW_VALUE_PLACE] + row[FR_ROW_VALUE_LENGTH];
    }
    return at == r.ends.message && seal[at] == 0xFF;
}

#endif
