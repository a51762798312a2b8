/*
 * Fuzzing of fr_why: the reason of every refused input is held against the verdict and against the bytes of the seal,
 * so far as these tell without a second reading.
 */
#ifndef WHY_H
#define WHY_H

/* How often each rule of each item was broken; the fuzzer follows that too. */
enum { ITEMS = FR_ITEM_END + 1, RULES = FR_RULE_SHORTEST + 1 };
static unsigned long reasons[ITEMS * RULES];
__attribute__((used, section("__libfuzzer_extra_counters"))) static volatile uint8_t broken_rules[ITEMS * RULES];

static void tell_reasons(void) {
    fprintf(stderr, "items and rules:");
    for (size_t i = 0; i < ITEMS * RULES; i++)
        if (reasons[i] != 0) fprintf(stderr, " %zu.%zu:%lu", i / RULES, i % RULES, reasons[i]);
    fprintf(stderr, "\n");
}

static int is_date(size_t item) { return item == FR_ITEM_ISSUED || item == FR_ITEM_SIGNED; }
static int is_last(size_t item) { return item == FR_ITEM_DEFINITION || item == FR_ITEM_CATEGORY; }
static int is_length(size_t item) { return item == FR_ITEM_LENGTH || item == FR_ITEM_SIGNATURE_LENGTH; }
static int is_text(size_t item) { return item >= FR_ITEM_COUNTRY && item <= FR_ITEM_REFERENCE; }

static int is_letter(uint8_t c) { return c >= 'A' && c <= 'Z'; }
static int is_either(uint8_t c) { return is_letter(c) || (c >= '0' && c <= '9'); }
static int is_digit(uint8_t c) { return is_either(c) && c <= 'F'; }
static int is_signer(const uint8_t *t) {
    return is_letter(t[0]) && is_letter(t[1]) && is_either(t[2]) && is_either(t[3]);
}

static int is_reference(const uint8_t *t, size_t count) {
    for (size_t i = 0; i < count; i++)
        if (!is_either(t[i])) return 0;
    return 1;
}

static int is_country(const uint8_t *t) {
    if (!is_letter(t[0]) || (t[1] != ' ' && !is_letter(t[1]))) return 0;
    return t[2] == ' ' || (is_letter(t[1]) && is_letter(t[2]));
}

/* The length of a version 4 reference, by the two digits in the names, and how wide it is in C40. */
static size_t reference_length(const uint8_t *seal) {
    uint8_t t[6];
    MUST(fr_c40_read(seal + 4, 4, t, 6).count == 6 && is_digit(t[4]) && is_digit(t[5]));
    size_t high = t[4] - (t[4] < 'A' ? '0' : 'A' - 10u), low = t[5] - (t[5] < 'A' ? '0' : 'A' - 10u);
    return 16 * high + low;
}

static size_t reference_width(const uint8_t *seal) { return (reference_length(seal) + 2) / 3 * 2; }

/* Where an item of the header begins; for what stands behind the header, its end. */
static size_t place_of(size_t item, const uint8_t *seal) {
    static const uint8_t front[] = {0, 0, 0, 1, 2, 4, 4, 8}, back[] = {0, 3, 6, 7};
    if (item <= FR_ITEM_REFERENCE) return front[item];
    size_t end = seal[1] == 2 ? 10 : 8 + reference_width(seal);
    return item <= FR_ITEM_CATEGORY ? end + back[item - FR_ITEM_ISSUED] : end + 8;
}

/* The width of a text. */
static size_t width_of(size_t item, const uint8_t *seal) {
    if (item == FR_ITEM_REFERENCE) return reference_width(seal);
    return item == FR_ITEM_COUNTRY ? 2 : item == FR_ITEM_NAMES ? 6 : 4;
}

/* Text whose pairs are all well coded: a character breaks the rule, and the rules before it are kept. */
static int character_wrong(fr_reason w, const uint8_t *seal) {
    uint8_t t[FR_TEXT_MOST];
    fr_filled f = fr_c40_read(seal + w.place, w.judged.length, t, sizeof t);
    if (f.number != 0 || w.judged.length != width_of(w.item, seal)) return 0;
    int names = w.item == FR_ITEM_NAMES, front = w.item == FR_ITEM_SIGNER_AND_LENGTH && f.count == 6;
    switch (w.rule) {
        case FR_RULE_COUNTRY: return w.item == FR_ITEM_COUNTRY && f.count == 3 && !is_country(t);
        case FR_RULE_SIGNER: return (names || front) && !is_signer(t);
        case FR_RULE_REFERENCE:
            if (names) return is_signer(t) && !is_reference(t + 4, 5);
            return w.item == FR_ITEM_REFERENCE && !is_reference(t, f.count);
        case FR_RULE_HEXADECIMAL: return front && is_signer(t) && !(is_digit(t[4]) && is_digit(t[5]));
        default: return w.rule == FR_RULE_NOT_ZERO && front && is_signer(t) && t[4] == '0' && t[5] == '0';
    }
}

/* The rules of a length: its first byte `b` says how many bytes it is to have. */
static int length_wrong(fr_reason w, uint8_t b, size_t left) {
    int malformed = b == 0x80 || b > 0x84;
    size_t width = b < 0x80 ? 1 : b - 0x7Fu;
    switch (w.rule) {
        case FR_RULE_BEGINS_LENGTH: return malformed && w.judged.length == 1;
        case FR_RULE_REST_THERE: return !malformed && left < width && w.judged.length == left;
        case FR_RULE_SHORTEST: return !malformed && left >= width && width > 1 && w.judged.length == width;
        case FR_RULE_SIGNATURE_SIZE:
            return w.item == FR_ITEM_SIGNATURE_LENGTH && !malformed && left >= width && w.judged.length == width;
        default: return 0;
    }
}

/* The rules of one byte, and of a date. */
static int byte_wrong(fr_reason w, uint8_t b) {
    if (w.rule == FR_RULE_DAY) return is_date(w.item) && w.judged.length == 3;
    if (w.judged.length != 1) return 0;
    switch (w.rule) {
        case FR_RULE_NOT_TOO_LONG: return w.item == FR_ITEM_SEAL && w.place == FR_SEAL_MOST;
        case FR_RULE_MARK: return w.item == FR_ITEM_MARK && b != 0xDC;
        case FR_RULE_VERSION: return w.item == FR_ITEM_VERSION && b != 2 && b != 3;
        case FR_RULE_ONE_TO_254: return is_last(w.item) && (b == 0 || b == 255);
        case FR_RULE_NOT_USED_BEFORE: return w.item == FR_ITEM_TAG && b != 255;
        default: return w.rule == FR_RULE_NOTHING_AFTER && w.item == FR_ITEM_END;
    }
}

/* Some of an item is there and not all; of a length the first byte is what must be there. */
static int is_cut(fr_reason w, size_t left) {
    if (w.item == FR_ITEM_SEAL || w.item == FR_ITEM_END || (is_length(w.item) && left != 0)) return 0;
    return w.judged.length == left;
}

/* Whether the rule is broken by the bytes judged, which lie in the seal. */
static int bears_out(fr_reason w, const uint8_t *seal, size_t left) {
    if (w.rule == FR_RULE_THERE) return is_cut(w, left);
    if (left == 0) return 0;
    if (w.rule == FR_RULE_WELL_CODED) return is_text(w.item) && w.place % 2 == 0 && w.judged.length == 2;
    if (w.rule >= FR_RULE_COUNTRY && w.rule <= FR_RULE_NOT_ZERO) return is_text(w.item) && character_wrong(w, seal);
    if (is_length(w.item)) return length_wrong(w, seal[w.place], left);
    return byte_wrong(w, seal[w.place]);
}

/* Whether the item can begin at the place: a length follows a tag, that of the signature FF. */
static int begins(fr_reason w, const uint8_t *seal) {
    size_t place = place_of(w.item, seal);
    if (w.rule == FR_RULE_WELL_CODED) return w.place >= place && w.place < place + width_of(w.item, seal);
    if (w.item <= FR_ITEM_CATEGORY) return w.place == place;
    if (!is_length(w.item)) return w.place >= place;
    return w.place > place && (seal[w.place - 1] == 0xFF) == (w.item == FR_ITEM_SIGNATURE_LENGTH);
}

/* Whether the item is one that the seal has, and can begin there. */
static int stands(fr_reason w, const uint8_t *seal) {
    if (w.item == FR_ITEM_SEAL) return w.rule == FR_RULE_NOT_TOO_LONG;
    if (w.item == FR_ITEM_NAMES && seal[1] != 2) return 0;
    if ((w.item == FR_ITEM_SIGNER_AND_LENGTH || w.item == FR_ITEM_REFERENCE) && seal[1] != 3) return 0;
    return begins(w, seal);
}

/* Item and rule have words. */
static int has_words(fr_reason w) {
    uint8_t name[FR_ITEM_NAME_MOST], words[FR_RULE_WORDS_MOST];
    return fr_item_name(w.item, name, sizeof name).count > 0 && fr_rule_words(w.rule, words, sizeof words).count > 0;
}

/* Number and place are the verdict's. All is 0 for an accepted seal; else item, rule and bytes are such as can be. */
static void explained(fr_reading r, const uint8_t *seal, size_t size) {
    static const uint8_t numbers[RULES] = {0, 1, 2, 3, 4, 5, 6, 7, 8, 9, 10, 11, 5, 5, 5, 5, 5, 2, 8};
    fr_reason w = fr_why(seal, size);
    MUST(w.number == r.number && w.place == r.place && w.item < ITEMS && w.rule < RULES && w.number == numbers[w.rule]);
    MUST((w.item == 0) == (w.number == 0) && w.judged.place == w.place);
    reasons[w.item * RULES + w.rule]++;
    broken_rules[w.item * RULES + w.rule] = 1;
    if (w.number == 0) {
        MUST(w.place == 0 && w.judged.length == 0);
        return;
    }
    MUST(w.place <= size && w.judged.length <= size - w.place && has_words(w));
    MUST(stands(w, seal) && bears_out(w, seal, size - w.place));
}

#endif
