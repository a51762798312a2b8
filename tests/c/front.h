/*
 * How far a refused input is good: the first byte that no seal has there, in every item, before the place, at it and
 * behind it; the room that a signature needs; and at each place of two seals, how many bytes can follow.
 */
#include "lent.h"
#include "made.h"

/* What is put into a seal from `at` on, the input's length, number and place of the refusal, and the front part. */
typedef struct hope {
    size_t at;
    const char *bytes;
    size_t count, length;
    size_t number, place, front;
} hope;

/* Whether the input is refused so, by the verdict and by the reading, and good so far. Another front part is shown. */
static int good_up_to(const uint8_t *seal, size_t length, size_t number, size_t place, size_t front) {
    fr_reading judged = fr_judge(seal, length), read = fr_read(seal, length, table, FR_TABLE_MOST, lent, FR_TEXT_MOST);
    if (judged.front == front && read.front == front) return refuses(seal, length, number, place);
    printf("front: good up to %zu, and read up to %zu, and not up to %zu\n", judged.front, read.front, front);
    return 0;
}

/* A seal with zeros behind it, with each of these faults. */
static void check_hopes(const uint8_t *seal, size_t seal_length, const hope *hopes_of, size_t count) {
    static uint8_t input[FR_SEAL_MOST + 1];
    const hope *h;
    for (h = hopes_of; h < hopes_of + count; h++) {
        memset(input, 0, sizeof input);
        memcpy(input, seal, seal_length);
        memcpy(input + h->at, h->bytes, h->count);
        CHECK(good_up_to(input, h->length, h->number, h->place, h->front));
    }
}

/* A seal, and each of its front parts: all of it is good. */
static void check_fronts(const uint8_t *seal, size_t length) {
    size_t i;
    for (i = 0; i < length; i++) CHECK(fr_judge(seal, i).number == 2 && fr_judge(seal, i).front == i && tells(seal, i));
    CHECK(fr_judge(seal, length).number == 0 && fr_judge(seal, length).front == length && tells(seal, length));
}

/*
 * Version 3: Seal A, 82 bytes. "\xD9\xAD" is UT0 and "\xD9\xAC" UT and a space; "\x57\xFC" is A<<, the only country
 * that begins with 57, and none begins with 58; "\x24\x77" is 1TA, "\x13\x3C" three spaces, and "\x19\xA5" 000, the
 * least of three letters or digits.
 */
static const hope hopes_of_three[] = {
    {0, "\xDD", 1, 82, 3, 0, 0},
    {0, "\x00", 1, 1, 3, 0, 0},
    {1, "\x01", 1, 82, 4, 1, 1},
    {1, "\x04", 1, 2, 4, 1, 1},
    {2, "\x00\x00", 2, 82, 5, 2, 2},
    {2, "\xFE\x42", 2, 4, 5, 2, 2},
    {2, "\xD9\xAD", 2, 82, 5, 2, 3},
    {2, "\x57\xFB", 2, 82, 5, 2, 3},
    {2, "\x58\xFC", 2, 82, 5, 2, 2},
    {2, "\x58", 1, 3, 2, 2, 2},
    {4, "\x24\x77", 2, 82, 5, 4, 4},
    {4, "\xD9\xAC", 2, 82, 5, 4, 5},
    {6, "\x00\x01", 2, 82, 5, 6, 6},
    {6, "\x13\x3C\x13\x3C", 4, 82, 5, 4, 6},
    {6, "\x19\xA4", 2, 82, 5, 4, 7},
    {6, "\x57\xFC", 2, 82, 5, 4, 7},
    {8, "\x13\x3C", 2, 10, 5, 4, 8},
    {8, "\x19\xA4", 2, 82, 5, 4, 9},
    {8, "\x57\xFC", 2, 82, 5, 4, 9},
    {8, "\xFF\xFF", 2, 10, 5, 8, 8},
    {8, "\x13", 1, 9, 2, 4, 8},
    {4, "\x24\x77\x13\x3C\x59\xB1", 6, 82, 5, 8, 4}, /* the pair that does not fit stands behind */
    {10, "\x22\xF8\xBC", 3, 82, 6, 10, 12}, /* 29 February 1900: that of 1904 begins so too */
    {10, "\x31\x97\x50", 3, 82, 6, 10, 12}, /* 25 March of year 0 */
    {10, "\x23\x20\x05", 3, 82, 6, 10, 11}, /* 30 February 1957: behind 29 February of 9996 */
    {10, "\x23\x18\x5D", 3, 13, 6, 10, 12},
    {10, "\x0F\x69\x50", 3, 82, 6, 10, 12}, /* before 1 January of year 1 */
    {10, "\x0F\x68\xFF", 3, 82, 6, 10, 11},
    {10, "\x0E\xFF\xFF", 3, 82, 6, 10, 10},
    {10, "\xBB\xFD\x00", 3, 82, 6, 10, 11}, /* behind 31 December 9999 */
    {10, "\xBC", 1, 11, 2, 10, 10},
    {13, "\x22\xF8\xBC", 3, 82, 6, 13, 15},
    {13, "\x24\x00\x00", 3, 16, 6, 13, 13},
    {13, "\x0F\x68", 2, 15, 2, 13, 14},
    {16, "\x00\xFF", 2, 82, 7, 16, 16},
    {17, "\x00", 1, 82, 7, 17, 17},
    {17, "\xFF", 1, 18, 7, 17, 17},
    {24, "\x0A", 1, 82, 9, 24, 24},
    {24, "\x0A", 1, 25, 9, 24, 24},
    {19, "\xFF", 1, 82, 2, 20, 82},
    {25, "\x80", 1, 82, 8, 25, 25},
    {25, "\xFF", 1, 26, 8, 25, 25},
    {25, "\x39", 1, 82, 10, 25, 25},
    {25, "\x82\x00", 2, 27, 2, 25, 25}, /* no signature is as long */
    {25, "\x84\x00\x00\x00\x39", 5, 30, 8, 25, 25},
    {25, "\x81\x38", 2, 82, 8, 25, 26},
    {25, "\x81\x81", 2, 82, 10, 25, 26},
    {25, "\x81\x85", 2, 27, 10, 25, 26},
    {25, "\x81", 1, 26, 2, 25, 26},
    {25, "\x81\x80", 2, 82, 2, 27, 82},
    {25, "\x40", 1, 82, 2, 26, 82},
    {82, "\x00", 1, 83, 11, 82, 82},
    {82, "\xFF", 1, 4096, 11, 82, 82},
    {82, "\xFF", 1, 4097, 1, 4096, 82}, /* too long, and reckoned all the same */
    {24, "\x0A", 1, 4097, 1, 4096, 24},
    {0, "\x00", 1, 4097, 1, 4096, 0},
};

/* Every input of document 01 and Ticket 12, a seal with its tag a second time among them; and with too little room. */
static void test_front_three(void) {
    uint8_t twice[SEAL_A + 6];
    CHECK(good_up_to(NULL, 0, 2, 0, 0) && good_up_to(seal_a, 81, 2, 26, 81));
    check_fronts(seal_a, SEAL_A);
    check_hopes(seal_a, SEAL_A, hopes_of_three, sizeof hopes_of_three / sizeof *hopes_of_three);
    memcpy(twice, seal_a, 24);
    memcpy(twice + 24, seal_a + 18, SEAL_A - 18);
    CHECK(good_up_to(twice, sizeof twice, 9, 24, 24));
    CHECK(fr_read(seal_a, SEAL_A, table, 3, lent, FR_TEXT_MOST).front == SEAL_A);
    CHECK(fr_read(seal_a, SEAL_A, table, FR_TABLE_MOST, lent, 8).front == SEAL_A);
    CHECK(fr_read(seal_a, SEAL_A, NULL, 0, NULL, 0).front == SEAL_A);
}

/*
 * Version 4: a reference of two pairs, values of 200 bytes and of 3, 286 bytes in all. "\x5E\x75" is B0G, "\x60\xEA"
 * BG5, "\x5E\x65" B00; "\x19\xA1" has the two characters 00, and "\x19\xA5" three.
 */
static const hope hopes_of_four[] = {
    {4, "\x24\x77\xFE\x42", 4, 8, 5, 6, 4},
    {6, "\x13\x3C", 2, 8, 5, 4, 6},
    {6, "\x5E\x75", 2, 286, 5, 4, 7},
    {6, "\x60\xEA\xFF\xFF", 4, 286, 5, 4, 7},
    {6, "\x5E\x65\xFF\xFF", 4, 286, 5, 4, 7},
    {6, "\xFE\x42", 2, 286, 5, 6, 6},
    {8, "\x13\x3C\x19\xA5", 4, 12, 5, 10, 8},
    {8, "\x19\xA1", 2, 286, 5, 8, 9},
    {8, "\x57\xFC", 2, 286, 5, 8, 9},
    {10, "\x19\xA5", 2, 286, 5, 10, 11},
    {10, "\x19\xA0", 2, 286, 5, 10, 11},
    {10, "\x13\x39", 2, 12, 5, 8, 10},
    {10, "\xFE\x42", 2, 286, 5, 10, 10},
    {10, "\xFE", 1, 11, 2, 8, 10},
    {12, "\x22\xF8\xBC", 3, 286, 6, 12, 14},
    {15, "\x23\x20\x05", 3, 286, 6, 15, 16},
    {18, "\xFF", 1, 19, 7, 18, 18},
    {19, "\x00", 1, 286, 7, 19, 19},
    {223, "\x0B\x80", 2, 286, 9, 223, 223},
    {228, "\x0C", 1, 229, 9, 228, 228},
    {21, "\x80", 1, 286, 8, 21, 21},
    {224, "\x85", 1, 225, 8, 224, 224},
    {21, "\x81\x7F", 2, 286, 8, 21, 22},
    {21, "\x82\x00\xFF", 3, 24, 8, 21, 22},
    {21, "\x82\x00", 2, 23, 2, 21, 22},
    {21, "\x82\x01", 2, 23, 2, 21, 23},
    {21, "\x82\x0F\xAE", 3, 286, 2, 24, 286}, /* with a signature just 4,096 bytes */
    {21, "\x82\x0F\xAF", 3, 286, 2, 24, 23},
    {21, "\x82\x10\x00", 3, 286, 2, 24, 22},
    {21, "\x82\x10", 2, 23, 2, 21, 22},
    {21, "\x83\x01\x00\x00", 4, 286, 2, 25, 21}, /* more than a seal has */
    {21, "\x84\xFF\xFF\xFF\xFF", 5, 4096, 2, 26, 21},
    {224, "\x83\x00\xFF\xFF", 4, 286, 8, 224, 224},
    {224, "\x7F", 1, 286, 2, 225, 286},
    {229, "\x81", 1, 230, 2, 229, 230},
    {229, "\x82\x00\x38", 3, 286, 8, 229, 229},
    {229, "\x00", 1, 230, 10, 229, 229},
    {286, "\x00", 1, 287, 11, 286, 286},
    {21, "\x82\x0F\xAF", 3, 4097, 1, 4096, 23},
};

/* The same for references of one pair: "\xFE\x38" is 7, "\xFE\x21" a space, and "\x19\xC9" 01. */
static const hope hopes_of_one[] = {
    {8, "\xFE\x21", 2, 76, 5, 8, 9},
    {8, "\xFE\x00", 2, 76, 5, 8, 9},
    {8, "\x19\xC9", 2, 76, 5, 8, 8},
    {8, "\x19", 1, 9, 2, 8, 8},
};

static void test_front_four(void) {
    static const feature features[] = {{11, 200}, {12, 3}};
    static const uint8_t names[] = {0xD9, 0xB7, 0x5E, 0x66, 0xFE, 0x38};
    uint8_t one[76];
    CHECK(make_seal(4, features, 2) == 286);
    check_fronts(made, 286);
    check_hopes(made, 286, hopes_of_four, sizeof hopes_of_four / sizeof *hopes_of_four);
    memcpy(one, seal_a, 18);
    one[1] = 3;
    memcpy(one + 4, names, sizeof names);
    memcpy(one + 18, seal_a + 24, SEAL_A - 24);
    check_fronts(one, sizeof one);
    check_hopes(one, sizeof one, hopes_of_one, sizeof hopes_of_one / sizeof *hopes_of_one);
}

/* At a place of a seal, with the seal's bytes before it: so many of the 256 bytes can follow, and the others cannot. */
static int follow(const uint8_t *seal, size_t place, size_t count) {
    static uint8_t input[FR_SEAL_MOST];
    size_t byte, good = 0;
    if (place != 0) memcpy(input, seal, place);
    for (byte = 0; byte < 256; byte++) {
        size_t front;
        input[place] = (uint8_t)byte;
        front = fr_judge(input, place + 1).front;
        if ((front != place && front != place + 1) || !tells(input, place + 1)) return 0;
        good += front - place;
    }
    if (good != count) printf("front: %zu bytes can follow at %zu, and not %zu\n", good, place, count);
    return good == count;
}

/* Counted from document 01: all countries, names, dates, lengths and tags written out, and what they begin with. */
static void test_front_follow(void) {
    static const uint8_t three[] = {1, 2, 145, 172, 137, 228, 226, 143, 226, 83, 69};
    static const uint8_t four[] = {1, 2, 145, 172, 137, 228, 126, 63, 226, 83, 225, 3, 69};
    static const feature features[] = {{11, 200}, {12, 3}};
    size_t i;
    for (i = 0; i < sizeof three; i++) CHECK(follow(seal_a, i, three[i]));
    for (; i < SEAL_A; i++)
        CHECK(follow(seal_a, i, i == 13 ? 69 : i == 16 || i == 17 ? 254 : i == 24 ? 255 : i == 25 ? 4 : 256));
    CHECK(follow(seal_a, SEAL_A, 0));
    make_seal(4, features, 2);
    for (i = 0; i < sizeof four; i++) CHECK(follow(made, i, four[i]));
    CHECK(follow(made, 15, 69) && follow(made, 18, 254) && follow(made, 19, 254) && follow(made, 20, 256));
    CHECK(follow(made, 21, 130) && follow(made, 22, 128) && follow(made, 23, 256) && follow(made, 222, 256));
    CHECK(follow(made, 223, 255) && follow(made, 224, 130) && follow(made, 228, 254) && follow(made, 229, 4));
    CHECK(follow(made, 230, 256) && follow(made, 285, 256) && follow(made, 286, 0));
}

/* A header and features behind it that end at a place, tags from 100 on, all of it good. */
static void fill_to(uint8_t *input, size_t version, size_t end) {
    size_t at = put_front(input, version), tag;
    memset(input + at, 0, FR_SEAL_MOST + 1 - at);
    for (tag = 100; at < end; tag++) {
        size_t left = end - at - 2, size = left < 120 ? left : left < 122 ? 100 : 120;
        input[at] = (uint8_t)tag;
        input[at + 1] = (uint8_t)size;
        at += 2 + size;
    }
}

/* What stands behind features at the last place where it can, all of it good; and how far that is a byte further on. */
typedef struct last_place {
    size_t version, place;
    const char *bytes;
    size_t count, further;
} last_place;

static const last_place last_places[] = {
    {3, 4036, "\x05\x00", 2, 4037}, /* a tag, a length, FF, 38 and 56 bytes */
    {4, 4036, "\x05\x00", 2, 4037},
    {3, 4035, "\x05\x01", 2, 4037},
    {4, 4035, "\x05\x01", 2, 4037},
    {3, 3781, "\x05\xFF", 2, 3783}, /* a plain length */
    {3, 3908, "\x05\x80", 2, 3910},
    {4, 3909, "\x05\x7F", 2, 3911},
    {4, 3907, "\x05\x81\x80", 3, 3909}, /* 128 is the least that 81 begins */
    {4, 3906, "\x05\x81\x81", 3, 3909},
    {4, 3778, "\x05\x82\x01\x00", 4, 3780}, /* and 256 the least that 82 does */
    {4, 3777, "\x05\x82\x01\x01", 4, 3781},
    {4, 3522, "\x05\x82\x02\x00", 4, 3525},
    {3, 4038, "\xFF\x38", 2, 3923}, /* behind a value that leaves no room for it: that value's length */
    {3, 4030, "\xFF\x40", 2, 4032},
    {4, 3998, "\xFF\x60", 2, 4000},
    {3, 3965, "\xFF\x81\x80", 3, 3967},
    {4, 3961, "\xFF\x81\x84", 3, 3964},
};

/* With nothing behind it. With zeros up to a byte too many the place is another, and the hopeless byte the same. */
static void test_front_room(void) {
    static uint8_t input[FR_SEAL_MOST + 1];
    const last_place *l;
    for (l = last_places; l < last_places + sizeof last_places / sizeof *last_places; l++) {
        size_t end = l->place + l->count;
        fill_to(input, l->version, l->place);
        memcpy(input + l->place, l->bytes, l->count);
        CHECK(fr_judge(input, end).number == 2 && fr_judge(input, end).front == end && tells(input, end));
        fill_to(input, l->version, l->place + 1);
        memcpy(input + l->place + 1, l->bytes, l->count);
        CHECK(fr_judge(input, end + 1).number == 2 && fr_judge(input, end + 1).front == l->further);
        CHECK(tells(input, end + 1));
        CHECK(good_up_to(input, FR_SEAL_MOST + 1, 1, 4096, l->further));
    }
}

/* All 255 tags are used: FF alone can follow. And the longest seal, alone, with a byte more, and with a tag twice. */
static void test_front_most(void) {
    static feature all[FR_FEATURES_MOST];
    static uint8_t input[FR_SEAL_MOST + 1];
    size_t i, length;
    for (i = 0; i < FR_FEATURES_MOST; i++) {
        all[i].tag = (uint8_t)i;
        all[i].size = 13;
    }
    length = make_seal(3, all, FR_FEATURES_MOST);
    CHECK(follow(made, length - 58, 1) && follow(made, length - 58 - 15, 2));
    all[FR_FEATURES_MOST - 1].size = 208;
    length = make_seal(3, all, FR_FEATURES_MOST);
    memcpy(input, made, length);
    CHECK(length == FR_SEAL_MOST && fr_judge(input, length).number == 0 && fr_judge(input, length).front == length);
    CHECK(good_up_to(input, length - 1, 2, length - 56, length - 1));
    CHECK(good_up_to(input, length + 1, 1, 4096, 4096));
    CHECK(follow(input, length - 57, 1)); /* of four signature lengths the shortest has room */
    input[length - 58] = 7;
    CHECK(good_up_to(input, length, 9, length - 58, length - 58));
    CHECK(good_up_to(input, length + 1, 1, 4096, length - 58));
}
