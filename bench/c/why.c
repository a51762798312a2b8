/* C written for speed, for fr_why: the judge's walk (reader.c), which ends at the first rule that is broken, with the item, the rule and the bytes
   judged. */
#include "days.h"
#include "letters.h"
#include "tables.h"

/* the seal, the place of the item, and why the walk has ended, if it has */
typedef struct {
    const uint8_t *s;
    size_t n, at;
    fr_reason why;
} walk;

/* ends the walk: so many bytes from `from` on break a rule of the item */
static int breaks(walk *w, size_t item, size_t rule, size_t from, size_t length) {
    static const uint8_t numbers[] = {0, 1, 2, 3, 4, 5, 6, 7, 8, 9, 10, 11, 5, 5, 5, 5, 5, 2, 8};
    w->why = (fr_reason){numbers[rule], from, item, rule, {from, length}};
    return 0;
}

/* a rule of the item's first `length` bytes */
static int keeps(walk *w, int held, size_t item, size_t rule, size_t length) {
    return held ? 1 : breaks(w, item, rule, w->at, length);
}

static int there(walk *w, size_t item, size_t size) {
    return keeps(w, w->n - w->at >= size, item, FR_RULE_THERE, w->n - w->at);
}

static int step(walk *w, size_t size) {
    w->at += size;
    return 1;
}

static int version_at(walk *w, size_t *version) {
    if (!there(w, FR_ITEM_MARK, 1) || !keeps(w, w->s[0] == 0xDC, FR_ITEM_MARK, FR_RULE_MARK, 1)) return 0;
    step(w, 1);
    if (!there(w, FR_ITEM_VERSION, 1)) return 0;
    if (!keeps(w, w->s[1] == 2 || w->s[1] == 3, FR_ITEM_VERSION, FR_RULE_VERSION, 1)) return 0;
    *version = w->s[1] + 1u;
    return step(w, 1);
}

/* C40 of exactly so many characters, which then stand in text: else the first pair that is wrongly coded is judged, or
   the last, as it does not fit */
static int field(walk *w, size_t item, uint8_t *text, size_t size, size_t width) {
    if (!there(w, item, width)) return 0;
    fr_filled f = text_of(w->s + w->at, width, text, size);
    if (f.number == 0 && f.count == size) return 1;
    return breaks(w, item, FR_RULE_WELL_CODED, w->at + (f.number == 0 || f.number == 42 ? width - 2 : f.place), 2);
}

static int country_at(walk *w) {
    uint8_t t[3];
    if (!field(w, FR_ITEM_COUNTRY, t, 3, 2)) return 0;
    int fills = is_letter(t[1]) ? is_letter(t[2]) || t[2] == ' ' : t[1] == ' ' && t[2] == ' ';
    return keeps(w, is_letter(t[0]) && fills, FR_ITEM_COUNTRY, FR_RULE_COUNTRY, 2) && step(w, 2);
}

static int names_of_three(walk *w, uint8_t *text) {
    return field(w, FR_ITEM_NAMES, text, 9, 6) && keeps(w, is_signer(text), FR_ITEM_NAMES, FR_RULE_SIGNER, 6)
        && keeps(w, all_reference(text + 4, 5), FR_ITEM_NAMES, FR_RULE_REFERENCE, 6) && step(w, 6);
}

static int names_of_four(walk *w, uint8_t *text) {
    const size_t item = FR_ITEM_SIGNER_AND_LENGTH;
    if (!field(w, item, text, 6, 4) || !keeps(w, is_signer(text), item, FR_RULE_SIGNER, 4)) return 0;
    size_t high = hex_value(text[4]), low = hex_value(text[5]), size = high * 16 + low, width = (size + 2) / 3 * 2;
    if (!keeps(w, high < 16 && low < 16, item, FR_RULE_HEXADECIMAL, 4)) return 0;
    if (!keeps(w, size > 0, item, FR_RULE_NOT_ZERO, 4)) return 0;
    step(w, 4);
    return field(w, FR_ITEM_REFERENCE, text, size, width)
        && keeps(w, all_reference(text, size), FR_ITEM_REFERENCE, FR_RULE_REFERENCE, width) && step(w, width);
}

static int date_at(walk *w, size_t item) {
    if (!there(w, item, 3)) return 0;
    size_t v = w->s[w->at] * 65536u + w->s[w->at + 1] * 256u + w->s[w->at + 2];
    return keeps(w, is_day((fr_date){v / 1000000, v / 10000 % 100, v % 10000}), item, FR_RULE_DAY, 3) && step(w, 3);
}

static int last_at(walk *w, size_t item) {
    if (!there(w, item, 1)) return 0;
    return keeps(w, w->s[w->at] != 0 && w->s[w->at] != 255, item, FR_RULE_ONE_TO_254, 1) && step(w, 1);
}

/* a DER length's value and width; the walk stays at it */
static int der_length(walk *w, size_t item, size_t *value, size_t *width) {
    static const size_t least[] = {0, 0x80, 0x100, 0x10000, 0x1000000};
    if (!there(w, item, 1)) return 0;
    const uint8_t *s = w->s + w->at;
    *value = s[0], *width = 1;
    if (s[0] < 0x80) return 1;
    if (!keeps(w, s[0] > 0x80 && s[0] < 0x85, item, FR_RULE_BEGINS_LENGTH, 1)) return 0;
    size_t k = s[0] - 0x80u;
    if (!keeps(w, w->n - w->at > k, item, FR_RULE_REST_THERE, w->n - w->at)) return 0;
    *value = 0, *width = 1 + k;
    for (size_t i = 1; i <= k; i++) *value = *value * 256 + s[i];
    return keeps(w, *value >= least[k], item, FR_RULE_SHORTEST, 1 + k);
}

static int value_at(walk *w, size_t version) {
    size_t size, width = 1;
    if (version == 3) {
        if (!there(w, FR_ITEM_LENGTH, 1)) return 0;
        size = w->s[w->at];
    } else if (!der_length(w, FR_ITEM_LENGTH, &size, &width)) {
        return 0;
    }
    step(w, width);
    return there(w, FR_ITEM_VALUE, size) && step(w, size);
}

static int features_at(walk *w, size_t version) {
    uint64_t used[4] = {0};
    for (;;) {
        if (!there(w, FR_ITEM_TAG, 1)) return 0;
        uint8_t tag = w->s[w->at];
        if (tag == 0xFF) return step(w, 1);
        uint64_t bit = (uint64_t)1 << (tag & 63), *word = used + (tag >> 6);
        if (!keeps(w, !(*word & bit), FR_ITEM_TAG, FR_RULE_NOT_USED_BEFORE, 1)) return 0;
        *word |= bit;
        step(w, 1);
        if (!value_at(w, version)) return 0;
    }
}

static int signature_at(walk *w) {
    size_t v, width;
    if (!der_length(w, FR_ITEM_SIGNATURE_LENGTH, &v, &width)) return 0;
    int size = v == 56 || v == 64 || v == 96 || v == 128 || v == 132;
    if (!keeps(w, size, FR_ITEM_SIGNATURE_LENGTH, FR_RULE_SIGNATURE_SIZE, width)) return 0;
    step(w, width);
    if (!there(w, FR_ITEM_SIGNATURE, v)) return 0;
    step(w, v);
    return keeps(w, w->at == w->n, FR_ITEM_END, FR_RULE_NOTHING_AFTER, 1);
}

static int header_at(walk *w, size_t *version) {
    uint8_t text[255];
    if (!version_at(w, version) || !country_at(w)) return 0;
    if (!(*version == 3 ? names_of_three(w, text) : names_of_four(w, text))) return 0;
    return date_at(w, FR_ITEM_ISSUED) && date_at(w, FR_ITEM_SIGNED) && last_at(w, FR_ITEM_DEFINITION)
        && last_at(w, FR_ITEM_CATEGORY);
}

fr_reason c_why(const uint8_t *s, size_t n) {
    walk w = {.s = s, .n = n};
    size_t version;
    if (n > 4096) breaks(&w, FR_ITEM_SEAL, FR_RULE_NOT_TOO_LONG, 4096, 1);
    else if (header_at(&w, &version) && features_at(&w, version)) signature_at(&w);
    return w.why;
}
