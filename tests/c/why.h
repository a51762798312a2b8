/*
 * Why a seal is refused: Seal A and a seal of version 4, cut everywhere and with every rule of every item broken, and
 * all six numbers of the reason.
 */
#include "lent.h"
#include "made.h"

/* A place at which an item begins. */
typedef struct item_at {
    size_t place, item;
} item_at;

/* What is put into a seal from `at` on, the length of the input, and the reason. The bytes judged are at its place. */
typedef struct fault {
    size_t at;
    const char *bytes;
    size_t count, length;
    size_t number, place, item, rule, judged;
} fault;

/* By item and rule, which were met; and the seal that is made wrong, with room behind it. */
static unsigned char met[FR_ITEM_END + 1][FR_RULE_SHORTEST + 1];
static uint8_t base[FR_SEAL_MOST + 1];

/* Whether the seal is refused for this reason. Another one is shown. */
static int is_why(const uint8_t *seal, size_t length, size_t number, size_t place, size_t item, size_t rule,
                  size_t judged) {
    fr_reason w = fr_why(seal, length);
    met[item][rule] = 1;
    if (w.number == number && w.place == place && w.item == item && w.rule == rule && w.judged.place == place
        && w.judged.length == judged) return tells(seal, length);
    printf("why: %zu at %zu, item %zu, rule %zu, %zu bytes, and not %zu at %zu, item %zu, rule %zu, %zu bytes\n",
           w.number, w.place, w.item, w.rule, w.judged.length, number, place, item, rule, judged);
    return 0;
}

/* Whether it is accepted: every field is 0. */
static int is_accepted(const uint8_t *seal, size_t length) {
    return is_why(seal, length, 0, 0, 0, 0, 0);
}

/*
 * The seal in `base`, cut anywhere: 2 at the item that is cut, whose bytes that are there are judged. Of a length of
 * which a byte is there, the rest is missing.
 */
static void check_cuts(const item_at *items, size_t seal_length) {
    size_t length;
    for (length = 0; length < seal_length; length++) {
        size_t there, rule;
        if (items[1].place <= length) items++;
        there = length - items->place;
        rule = there > 0 && items->item == FR_ITEM_LENGTH ? FR_RULE_REST_THERE : FR_RULE_THERE;
        CHECK(is_why(base, length, 2, items->place, items->item, rule, there));
    }
}

/* The seal in `base`, with each of these faults. */
static void check_faults(const fault *faults, size_t count) {
    static uint8_t seal[FR_SEAL_MOST + 1];
    const fault *f;
    for (f = faults; f < faults + count; f++) {
        memcpy(seal, base, sizeof seal);
        memcpy(seal + f->at, f->bytes, f->count);
        CHECK(is_why(seal, f->length, f->number, f->place, f->item, f->rule, f->judged));
    }
}

/* Version 3: Seal A, 82 bytes. "\x46\xFF" is 7AA, "\x24\x77" 1TA, "\x13\x3C" three spaces. */
static const item_at items_of_three[] = {
    {0, FR_ITEM_MARK}, {1, FR_ITEM_VERSION}, {2, FR_ITEM_COUNTRY}, {4, FR_ITEM_NAMES}, {10, FR_ITEM_ISSUED},
    {13, FR_ITEM_SIGNED}, {16, FR_ITEM_DEFINITION}, {17, FR_ITEM_CATEGORY}, {18, FR_ITEM_TAG}, {19, FR_ITEM_LENGTH},
    {20, FR_ITEM_VALUE}, {24, FR_ITEM_TAG}, {25, FR_ITEM_SIGNATURE_LENGTH}, {26, FR_ITEM_SIGNATURE}, {82, 0},
};
static const fault faults_of_three[] = {
    {0, "\xDD", 1, 82, 3, 0, FR_ITEM_MARK, FR_RULE_MARK, 1},
    {0, "\x00", 1, 1, 3, 0, FR_ITEM_MARK, FR_RULE_MARK, 1},
    {1, "\x01", 1, 82, 4, 1, FR_ITEM_VERSION, FR_RULE_VERSION, 1},
    {1, "\x04", 1, 2, 4, 1, FR_ITEM_VERSION, FR_RULE_VERSION, 1},
    {2, "\x00\x00", 2, 82, 5, 2, FR_ITEM_COUNTRY, FR_RULE_WELL_CODED, 2},
    {2, "\xFE\x42", 2, 4, 5, 2, FR_ITEM_COUNTRY, FR_RULE_WELL_CODED, 2},
    {2, "\x46\xFF", 2, 82, 5, 2, FR_ITEM_COUNTRY, FR_RULE_COUNTRY, 2},
    {2, "\x13\x3C", 2, 4, 5, 2, FR_ITEM_COUNTRY, FR_RULE_COUNTRY, 2},
    {4, "\xFE\x42", 2, 82, 5, 4, FR_ITEM_NAMES, FR_RULE_WELL_CODED, 2},
    {6, "\x00\x01", 2, 82, 5, 6, FR_ITEM_NAMES, FR_RULE_WELL_CODED, 2},
    {8, "\xFF\xFF", 2, 10, 5, 8, FR_ITEM_NAMES, FR_RULE_WELL_CODED, 2},
    {4, "\x24\x77\x13\x3C\x59\xB1", 6, 82, 5, 8, FR_ITEM_NAMES, FR_RULE_WELL_CODED, 2},
    {4, "\x24\x77", 2, 82, 5, 4, FR_ITEM_NAMES, FR_RULE_SIGNER, 6},
    {6, "\x13\x3C\x13\x3C", 4, 82, 5, 4, FR_ITEM_NAMES, FR_RULE_SIGNER, 6},
    {8, "\x13\x3C", 2, 82, 5, 4, FR_ITEM_NAMES, FR_RULE_REFERENCE, 6},
    {8, "\x13\x3C", 2, 10, 5, 4, FR_ITEM_NAMES, FR_RULE_REFERENCE, 6},
    {10, "\x00\x00\x00", 3, 82, 6, 10, FR_ITEM_ISSUED, FR_RULE_DAY, 3},
    {13, "\xFF\xFF\xFF", 3, 16, 6, 13, FR_ITEM_SIGNED, FR_RULE_DAY, 3},
    {10, "\x23\x20\x05\x23\x20\x05\xFF", 7, 82, 6, 10, FR_ITEM_ISSUED, FR_RULE_DAY, 3},
    {16, "\x00\xFF", 2, 82, 7, 16, FR_ITEM_DEFINITION, FR_RULE_ONE_TO_254, 1},
    {17, "\x00", 1, 82, 7, 17, FR_ITEM_CATEGORY, FR_RULE_ONE_TO_254, 1},
    {17, "\xFF", 1, 18, 7, 17, FR_ITEM_CATEGORY, FR_RULE_ONE_TO_254, 1},
    {24, "\x0A", 1, 82, 9, 24, FR_ITEM_TAG, FR_RULE_NOT_USED_BEFORE, 1},
    {24, "\x0A", 1, 25, 9, 24, FR_ITEM_TAG, FR_RULE_NOT_USED_BEFORE, 1},
    {19, "\xFF", 1, 82, 2, 20, FR_ITEM_VALUE, FR_RULE_THERE, 62},
    {25, "\x80", 1, 82, 8, 25, FR_ITEM_SIGNATURE_LENGTH, FR_RULE_BEGINS_LENGTH, 1},
    {25, "\x85", 1, 26, 8, 25, FR_ITEM_SIGNATURE_LENGTH, FR_RULE_BEGINS_LENGTH, 1},
    {25, "\xFF", 1, 82, 8, 25, FR_ITEM_SIGNATURE_LENGTH, FR_RULE_BEGINS_LENGTH, 1},
    {25, "\x82\x00", 2, 27, 2, 25, FR_ITEM_SIGNATURE_LENGTH, FR_RULE_REST_THERE, 2},
    {25, "\x84", 1, 29, 2, 25, FR_ITEM_SIGNATURE_LENGTH, FR_RULE_REST_THERE, 4},
    {25, "\x81\x38", 2, 82, 8, 25, FR_ITEM_SIGNATURE_LENGTH, FR_RULE_SHORTEST, 2},
    {25, "\x84\x00\x00\x00\x39", 5, 30, 8, 25, FR_ITEM_SIGNATURE_LENGTH, FR_RULE_SHORTEST, 5},
    {25, "\x39", 1, 82, 10, 25, FR_ITEM_SIGNATURE_LENGTH, FR_RULE_SIGNATURE_SIZE, 1},
    {25, "\x81\x85", 2, 27, 10, 25, FR_ITEM_SIGNATURE_LENGTH, FR_RULE_SIGNATURE_SIZE, 2},
    {25, "\x84\xFF\xFF\xFF\xFF", 5, 82, 10, 25, FR_ITEM_SIGNATURE_LENGTH, FR_RULE_SIGNATURE_SIZE, 5},
    {25, "\x40", 1, 82, 2, 26, FR_ITEM_SIGNATURE, FR_RULE_THERE, 56},
    {82, "\x00", 1, 83, 11, 82, FR_ITEM_END, FR_RULE_NOTHING_AFTER, 1},
    {82, "\xFF", 1, 4096, 11, 82, FR_ITEM_END, FR_RULE_NOTHING_AFTER, 1},
    {82, "\xFF", 1, 4097, 1, 4096, FR_ITEM_SEAL, FR_RULE_NOT_TOO_LONG, 1},
    {0, "\x00", 1, 4097, 1, 4096, FR_ITEM_SEAL, FR_RULE_NOT_TOO_LONG, 1},
};

static void test_why_three(void) {
    memset(base, 0, sizeof base);
    memcpy(base, seal_a, SEAL_A);
    CHECK(is_accepted(base, SEAL_A) && is_why(NULL, 0, 2, 0, FR_ITEM_MARK, FR_RULE_THERE, 0));
    check_cuts(items_of_three, SEAL_A);
    check_faults(faults_of_three, sizeof faults_of_three / sizeof *faults_of_three);
}

/*
 * Version 4: a reference of two pairs, values of 200 bytes and of 3, 286 bytes in all. "\x5E\x75" is B0G, "\x60\xEA"
 * BG5, "\x5E\x65" B00, "\x13\x39" two spaces; "\x19\xA5" has three characters, where two are to stand.
 */
static const feature features_of_four[] = {{11, 200}, {12, 3}};
static const item_at items_of_four[] = {
    {0, FR_ITEM_MARK}, {1, FR_ITEM_VERSION}, {2, FR_ITEM_COUNTRY}, {4, FR_ITEM_SIGNER_AND_LENGTH},
    {8, FR_ITEM_REFERENCE}, {12, FR_ITEM_ISSUED}, {15, FR_ITEM_SIGNED}, {18, FR_ITEM_DEFINITION},
    {19, FR_ITEM_CATEGORY}, {20, FR_ITEM_TAG}, {21, FR_ITEM_LENGTH}, {23, FR_ITEM_VALUE}, {223, FR_ITEM_TAG},
    {224, FR_ITEM_LENGTH}, {225, FR_ITEM_VALUE}, {228, FR_ITEM_TAG}, {229, FR_ITEM_SIGNATURE_LENGTH},
    {230, FR_ITEM_SIGNATURE}, {286, 0},
};
static const fault faults_of_four[] = {
    {2, "\xFF\xFF\xFF\xFF", 4, 286, 5, 2, FR_ITEM_COUNTRY, FR_RULE_WELL_CODED, 2},
    {2, "\x13\x3C\xFF\xFF", 4, 286, 5, 2, FR_ITEM_COUNTRY, FR_RULE_COUNTRY, 2},
    {4, "\x00\x00\x00\x00", 4, 286, 5, 4, FR_ITEM_SIGNER_AND_LENGTH, FR_RULE_WELL_CODED, 2},
    {4, "\x24\x77\xFE\x42", 4, 8, 5, 6, FR_ITEM_SIGNER_AND_LENGTH, FR_RULE_WELL_CODED, 2},
    {4, "\x24\x77\x5E\x65", 4, 286, 5, 4, FR_ITEM_SIGNER_AND_LENGTH, FR_RULE_SIGNER, 4},
    {6, "\x13\x3C", 2, 8, 5, 4, FR_ITEM_SIGNER_AND_LENGTH, FR_RULE_SIGNER, 4},
    {6, "\x5E\x75", 2, 286, 5, 4, FR_ITEM_SIGNER_AND_LENGTH, FR_RULE_HEXADECIMAL, 4},
    {6, "\x60\xEA\xFF\xFF", 4, 286, 5, 4, FR_ITEM_SIGNER_AND_LENGTH, FR_RULE_HEXADECIMAL, 4},
    {6, "\x5E\x65\xFF\xFF", 4, 286, 5, 4, FR_ITEM_SIGNER_AND_LENGTH, FR_RULE_NOT_ZERO, 4},
    {6, "\x5E\x65", 2, 8, 5, 4, FR_ITEM_SIGNER_AND_LENGTH, FR_RULE_NOT_ZERO, 4},
    {8, "\x00\x01", 2, 286, 5, 8, FR_ITEM_REFERENCE, FR_RULE_WELL_CODED, 2},
    {8, "\x13\x3C\x19\xA5", 4, 12, 5, 10, FR_ITEM_REFERENCE, FR_RULE_WELL_CODED, 2},
    {8, "\x13\x3C", 2, 286, 5, 8, FR_ITEM_REFERENCE, FR_RULE_REFERENCE, 4},
    {10, "\x13\x39", 2, 12, 5, 8, FR_ITEM_REFERENCE, FR_RULE_REFERENCE, 4},
    {12, "\x22\xF8\xBC", 3, 286, 6, 12, FR_ITEM_ISSUED, FR_RULE_DAY, 3},
    {15, "\x00\x00\x00", 3, 286, 6, 15, FR_ITEM_SIGNED, FR_RULE_DAY, 3},
    {18, "\xFF", 1, 19, 7, 18, FR_ITEM_DEFINITION, FR_RULE_ONE_TO_254, 1},
    {19, "\x00", 1, 286, 7, 19, FR_ITEM_CATEGORY, FR_RULE_ONE_TO_254, 1},
    {223, "\x0B\x80", 2, 286, 9, 223, FR_ITEM_TAG, FR_RULE_NOT_USED_BEFORE, 1},
    {228, "\x0C", 1, 229, 9, 228, FR_ITEM_TAG, FR_RULE_NOT_USED_BEFORE, 1},
    {21, "\x80", 1, 286, 8, 21, FR_ITEM_LENGTH, FR_RULE_BEGINS_LENGTH, 1},
    {224, "\x85", 1, 225, 8, 224, FR_ITEM_LENGTH, FR_RULE_BEGINS_LENGTH, 1},
    {224, "\xFF", 1, 286, 8, 224, FR_ITEM_LENGTH, FR_RULE_BEGINS_LENGTH, 1},
    {21, "\x84\x00\x00\x00", 4, 25, 2, 21, FR_ITEM_LENGTH, FR_RULE_REST_THERE, 4},
    {224, "\x82\x00", 2, 226, 2, 224, FR_ITEM_LENGTH, FR_RULE_REST_THERE, 2},
    {21, "\x81\x7F", 2, 286, 8, 21, FR_ITEM_LENGTH, FR_RULE_SHORTEST, 2},
    {21, "\x82\x00\xFF", 3, 24, 8, 21, FR_ITEM_LENGTH, FR_RULE_SHORTEST, 3},
    {224, "\x83\x00\xFF\xFF", 4, 286, 8, 224, FR_ITEM_LENGTH, FR_RULE_SHORTEST, 4},
    {224, "\x84\x00\xFF\xFF\xFF", 5, 286, 8, 224, FR_ITEM_LENGTH, FR_RULE_SHORTEST, 5},
    {224, "\x7F", 1, 286, 2, 225, FR_ITEM_VALUE, FR_RULE_THERE, 61},
    {21, "\x84\xFF\xFF\xFF\xFF", 5, 4096, 2, 26, FR_ITEM_VALUE, FR_RULE_THERE, 4070},
    {229, "\x80", 1, 230, 8, 229, FR_ITEM_SIGNATURE_LENGTH, FR_RULE_BEGINS_LENGTH, 1},
    {229, "\x81", 1, 230, 2, 229, FR_ITEM_SIGNATURE_LENGTH, FR_RULE_REST_THERE, 1},
    {229, "\x82\x00\x38", 3, 286, 8, 229, FR_ITEM_SIGNATURE_LENGTH, FR_RULE_SHORTEST, 3},
    {229, "\x00", 1, 230, 10, 229, FR_ITEM_SIGNATURE_LENGTH, FR_RULE_SIGNATURE_SIZE, 1},
    {286, "\x00", 1, 287, 11, 286, FR_ITEM_END, FR_RULE_NOTHING_AFTER, 1},
};

static void test_why_four(void) {
    memset(base, 0, sizeof base);
    CHECK(make_seal(4, features_of_four, 2) == 286);
    memcpy(base, made, 286);
    CHECK(is_accepted(base, 286));
    check_cuts(items_of_four, 286);
    check_faults(faults_of_four, sizeof faults_of_four / sizeof *faults_of_four);
}

/* The most features and bytes that a seal can have: accepted, and with the last tag used before or a byte too many. */
static void test_why_most(void) {
    static feature all[FR_FEATURES_MOST];
    size_t i, length;
    for (i = 0; i < FR_FEATURES_MOST; i++) {
        all[i].tag = (uint8_t)i;
        all[i].size = 13;
    }
    all[FR_FEATURES_MOST - 1].size = 208;
    length = make_seal(3, all, FR_FEATURES_MOST);
    CHECK(length == FR_SEAL_MOST && is_accepted(made, length));
    memcpy(base, made, length);
    base[length] = 0;
    CHECK(is_why(base, length + 1, 1, 4096, FR_ITEM_SEAL, FR_RULE_NOT_TOO_LONG, 1));
    base[18 + 254 * 15] = 253;
    CHECK(is_why(base, length, 9, 18 + 254 * 15, FR_ITEM_TAG, FR_RULE_NOT_USED_BEFORE, 1));
    base[18 + 254 * 15] = 254;
    CHECK(is_why(base, length - 1, 2, length - 56, FR_ITEM_SIGNATURE, FR_RULE_THERE, 55));
}

/* After the tests above: every rule of every item was broken, 42 of them, and a seal was accepted. */
static void test_why_met(void) {
    size_t item, rule, count = 0;
    for (item = FR_ITEM_SEAL; item <= FR_ITEM_END; item++)
        for (rule = FR_RULE_NOT_TOO_LONG; rule <= FR_RULE_SHORTEST; rule++) count += met[item][rule];
    CHECK(count == 42 && met[0][0] == 1);
}
