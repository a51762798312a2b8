/*
 * The walk over the features of a seal, beside the rows of fr_read, and its steps at any place, beside what is reckoned
 * here from the bytes; then the look-up of a tag in two seals. All that is lent stands in memory of just its size, so
 * that valgrind sees a read outside it.
 */
#include <stdlib.h>

#include "lent.h"
#include "made.h"

static const fr_step no_more = {51, 0, 0, 0, {0, 0}, 0};

/* The bytes in memory of their own; none where there are no bytes. */
static uint8_t *alone(const uint8_t *bytes, size_t length) {
    uint8_t *copy = length == 0 ? NULL : (uint8_t *)malloc(length);
    if (length == 0) return NULL;
    if (!copy) abort();
    memcpy(copy, bytes, length);
    return copy;
}

/* Gives that memory back; whether it still holds the bytes. */
static int given_back(uint8_t *copy, const uint8_t *bytes, size_t length) {
    int same = length == 0 || memcmp(copy, bytes, length) == 0;
    free(copy);
    return same;
}

static int same_step(fr_step a, fr_step b) {
    return a.number == b.number && a.place == b.place && a.tag == b.tag && a.tag_place == b.tag_place
        && a.value.place == b.value.place && a.value.length == b.value.length && a.at == b.at;
}

/* Whether a step gives a row, and the place after its value. */
static int gives_row(fr_step s, const size_t *row) {
    size_t place = row[FR_ROW_VALUE_PLACE], size = row[FR_ROW_VALUE_LENGTH];
    const fr_step want = {0, 0, row[FR_ROW_TAG], row[FR_ROW_TAG_PLACE], {place, size}, place + size};
    return same_step(s, want);
}

/* Asked five times from a place on, each time where the answer before says: no further feature. */
static int ended(const uint8_t *seal, size_t length, size_t at) {
    size_t i;
    for (i = 0; i < 5; i++) {
        fr_step s = fr_walk_next(seal, length, at);
        if (!same_step(s, no_more)) return 0;
        at = s.at;
    }
    return 1;
}

/* The walk over a good seal: the rows of fr_read, which are these, from the header's end to FF; and then no more. */
static int walks(const uint8_t *bytes, size_t length, const size_t *rows, size_t count) {
    uint8_t *seal = alone(bytes, length);
    fr_reading r = fr_read(seal, length, table, FR_TABLE_MOST, lent, FR_TEXT_MOST);
    fr_start start = fr_walk_open(seal, length);
    size_t i, at = start.at;
    int good = r.number == 0 && r.count == count && start.number == 0 && start.place == 0 && at == r.ends.header;
    for (i = 0; good && i < count; i++) {
        fr_step s = fr_walk_next(seal, length, at);
        good = gives_row(s, table + FR_ROW * i) && gives_row(s, rows + FR_ROW * i) && s.at <= r.ends.message;
        at = s.at;
    }
    good = good && at == r.ends.message && ended(seal, length, at) && ended(seal, length, 0);
    return given_back(seal, bytes, length) && good;
}

static int walks_made(size_t version, const feature *features, size_t count) {
    size_t length = make_seal(version, features, count);
    return walks(made, length, made_rows, count);
}

/* 0, 1, 2 and 255 features; lengths of one byte, two and three; values that are empty, and that fill the seal. */
static void test_walk_rows(void) {
    static const size_t row_a[] = {ROW(10, 18, 20, 4)};
    static const feature three[] = {{10, 4}, {0, 0}, {254, 255}, {11, 128}};
    static const feature four[] = {{11, 127}, {0, 0}, {254, 128}, {3, 256}, {2, 0}};
    static const feature longest[] = {{11, 4014}};
    feature all[FR_FEATURES_MOST];
    size_t i, version;
    for (i = 0; i < FR_FEATURES_MOST; i++) {
        all[i].tag = (uint8_t)(254 - i);
        all[i].size = i % 3;
    }
    CHECK(walks(seal_a, SEAL_A, row_a, 1));
    CHECK(walks_made(3, three, 4) && walks_made(4, four, 5) && walks_made(4, longest, 1));
    for (version = 3; version <= 4; version++) {
        CHECK(walks_made(version, NULL, 0) && walks_made(version, all, 1) && walks_made(version, all, 2));
        CHECK(walks_made(version, all, FR_FEATURES_MOST) && walks_made(version, all + 1, FR_FEATURES_MOST - 1));
    }
    for (i = 0; i < FR_FEATURES_MOST; i++) all[i].size = 13;
    all[0].size = 208;
    CHECK(make_seal(3, all, FR_FEATURES_MOST) == FR_SEAL_MOST && walks_made(3, all, FR_FEATURES_MOST));
}

/* What a step finds at a place of these bytes, reckoned from document 01's layout and from Ticket 2 of document 02. */
static fr_step step_of(const uint8_t *s, size_t n, size_t at) {
    fr_step step = {0, 0, 0, at, {0, 0}, 0};
    size_t i, more = 0, size;
    if (n < 2 || (s[1] != 2 && s[1] != 3) || at == 0 || at >= n || s[at] == 0xFF || n - at < 2) return no_more;
    size = s[at + 1];
    if (s[1] == 3 && size >= 128) {
        more = size - 128;
        if (more < 1 || more > 4 || n - at - 2 < more) return no_more;
        for (size = 0, i = 0; i < more; i++) size = 256 * size + s[at + 2 + i];
        if (size < 128 || s[at + 2] == 0) return no_more;
    }
    if (n - at - 2 - more < size) return no_more;
    step.tag = s[at];
    step.value.place = at + 2 + more;
    step.value.length = size;
    step.at = step.value.place + size;
    return step;
}

/* A step at every place of the bytes, at some past their end, and at the last that there are: as reckoned. */
static int steps(const uint8_t *bytes, size_t length) {
    static const size_t far[] = {4095, 4096, 4097, 65536, (size_t)1 << 32, (size_t)1 << 63};
    uint8_t *copy = alone(bytes, length);
    size_t at;
    int good = 1;
    for (at = 0; at <= length + 5; at++)
        good = good && same_step(fr_walk_next(copy, length, at), step_of(copy, length, at));
    for (at = 0; at < sizeof far / sizeof *far; at++)
        good = good && same_step(fr_walk_next(copy, length, far[at]), step_of(copy, length, far[at]));
    for (at = 0; at <= length + 5; at++) good = good && same_step(fr_walk_next(copy, length, SIZE_MAX - at), no_more);
    return given_back(copy, bytes, length) && good;
}

/* Seals and every front part of them, of both versions; and with each second byte, of which two are a version's. */
static void test_walk_steps(void) {
    static const feature three[] = {{10, 4}, {0, 0}, {7, 130}}, four[] = {{11, 127}, {0, 0}, {7, 130}, {3, 256}};
    uint8_t other[SEAL_A];
    size_t length, i;
    for (length = 0; length <= SEAL_A; length++) CHECK(steps(seal_a, length));
    for (i = make_seal(3, three, 3), length = 0; length <= i; length++) CHECK(steps(made, length));
    for (i = make_seal(4, four, 4), length = 0; length <= i; length++) CHECK(steps(made, length));
    memcpy(other, seal_a, SEAL_A);
    for (i = 0; i < 256; i++) {
        other[1] = (uint8_t)i;
        CHECK(steps(other, SEAL_A) && (fr_walk_next(other, SEAL_A, 18).number == 0) == (i == 2 || i == 3));
    }
    CHECK(ended(NULL, 0, 0) && ended(NULL, 0, 1) && ended(NULL, 0, 2) && ended(NULL, 0, SIZE_MAX));
}

/* Bytes that stand behind a tag, and how many bytes behind them; and whether they are the length that says so. */
typedef struct form {
    const char *bytes;
    size_t count, size;
    int is_length;
} form;

/* A feature with such a length at place 2, with all its value and no byte more; and then with one byte short. */
static int step_with(size_t version, form f) {
    const size_t row[FR_ROW] = {ROW(7, 2, 3 + f.count, f.size)};
    size_t length = 3 + f.count + f.size;
    uint8_t *bytes = (uint8_t *)calloc(length, 1);
    int good;
    if (!bytes) abort();
    bytes[1] = (uint8_t)(version - 1);
    bytes[2] = 7;
    memcpy(bytes + 3, f.bytes, f.count);
    good = f.is_length ? gives_row(fr_walk_next(bytes, length, 2), row) : ended(bytes, length, 2);
    good = good && ended(bytes, length - 1, 2);
    free(bytes);
    return good;
}

/* Lengths of every form in version 4, of values longer than a seal too, which a step does not judge; then version 3. */
static void test_walk_lengths(void) {
    static const form forms[] = {
        {"\x00", 1, 0, 1}, {"\x01", 1, 1, 1}, {"\x7F", 1, 127, 1}, {"\x80", 1, 0, 0}, {"\x80", 1, 128, 0},
        {"\x81\x00", 2, 0, 0}, {"\x81\x7F", 2, 127, 0}, {"\x81\x80", 2, 128, 1}, {"\x81\xFF", 2, 255, 1},
        {"\x82\x00\x80", 3, 128, 0}, {"\x82\x00\xFF", 3, 255, 0}, {"\x82\x01\x00", 3, 256, 1},
        {"\x82\x10\x01", 3, 4097, 1}, {"\x82\xFF\xFF", 3, 65535, 1}, {"\x83\x00\x01\x00", 4, 256, 0},
        {"\x83\x00\xFF\xFF", 4, 65535, 0}, {"\x83\x01\x00\x00", 4, 65536, 1}, {"\x83\xFF\xFF\xFF", 4, 16777215, 1},
        {"\x84\x00\x01\x00\x00", 5, 65536, 0}, {"\x84\x01\x00\x00\x00", 5, 16777216, 1},
        {"\x84\xFF\xFF\xFF\xFF", 5, 4096, 0}, {"\x85\x00\x00\x00\x00\x01", 6, 4096, 0},
        {"\x88\x00\x00\x00\x00\x00\x00\x00\x80", 9, 128, 0}, {"\xFE", 1, 4096, 0}, {"\xFF", 1, 4096, 0},
    };
    size_t i;
    for (i = 0; i < sizeof forms / sizeof *forms; i++) CHECK(step_with(4, forms[i]));
    for (i = 0; i < 256; i++) {
        const char byte = (char)i;
        const form plain = {&byte, 1, i, 1};
        CHECK(step_with(3, plain));
    }
}

/* Seal A with bytes put in from `at` on, and zeros behind it, of so many bytes in all: its number and place. */
typedef struct wrong_seal {
    size_t at;
    const char *bytes;
    size_t count, length, number, place;
} wrong_seal;

/* One for each number of the reader, and no bytes; behind them Seal A as it is. */
enum { WRONG = 12 };
static const wrong_seal wrong_seals[WRONG + 1] = {
    {0, "", 0, 4097, 1, 4096}, {0, "", 0, 81, 2, 26}, {0, "\xDD", 1, 82, 3, 0}, {1, "\x04", 1, 82, 4, 1},
    {2, "\x00\x00", 2, 82, 5, 2}, {10, "\x00\x00\x00", 3, 82, 6, 10}, {16, "\xFF", 1, 82, 7, 16},
    {25, "\x81\x38", 2, 82, 8, 25}, {24, "\x0A", 1, 82, 9, 24}, {25, "\x39", 1, 82, 10, 25}, {0, "", 0, 83, 11, 82},
    {0, "", 0, 0, 2, 0}, {0, "", 0, 82, 0, 0},
};

/* That seal, until another one is asked for. */
static const uint8_t *wrong(const wrong_seal *w) {
    static uint8_t seal[FR_SEAL_MOST + 1];
    memset(seal, 0, sizeof seal);
    memcpy(seal, seal_a, SEAL_A);
    memcpy(seal + w->at, w->bytes, w->count);
    return seal;
}

/* A refused seal opens no walk: number and place are the judge's, and asked all the same it has no feature. */
static void test_walk_refused(void) {
    const wrong_seal *w;
    for (w = wrong_seals; w < wrong_seals + WRONG; w++) {
        uint8_t *seal = alone(wrong(w), w->length);
        fr_start start = fr_walk_open(seal, w->length);
        CHECK(start.number == w->number && start.place == w->place && start.at == 0);
        CHECK(fr_judge(seal, w->length).number == w->number && fr_judge(seal, w->length).place == w->place);
        CHECK(ended(seal, w->length, start.at));
        CHECK(given_back(seal, wrong(w), w->length));
    }
}

/* A seal made of features, with its rows. */
typedef struct tagged {
    uint8_t bytes[FR_SEAL_MOST];
    size_t length, count, rows[FR_TABLE_MOST];
} tagged;

static void hang(tagged *t, size_t version, const feature *features, size_t count) {
    t->length = make_seal(version, features, count);
    t->count = count;
    memcpy(t->bytes, made, t->length);
    memcpy(t->rows, made_rows, FR_ROW * count * sizeof *t->rows);
}

static int same_where(fr_where a, fr_where b) {
    return a.number == b.number && a.place == b.place && a.which == b.which && a.value.place == b.value.place
        && a.value.length == b.value.length;
}

/* What a look-up over two good seals answers, by their rows: the extension's are asked first. */
static fr_where where_of(const tagged *first, const tagged *second, size_t tag) {
    fr_where found = {50, 0, FR_NEITHER, {0, 0}};
    size_t which, i;
    for (which = FR_MAIN; which <= FR_EXTENSION; which++) {
        const tagged *t = which == FR_MAIN ? first : second;
        for (i = 0; i < FR_ROW * t->count; i += FR_ROW)
            if (t->rows[i + FR_ROW_TAG] == tag) {
                const fr_part value = {t->rows[i + FR_ROW_VALUE_PLACE], t->rows[i + FR_ROW_VALUE_LENGTH]};
                found.number = 0;
                found.which = which;
                found.value = value;
            }
    }
    return found;
}

/* Whether a look-up answers so, each seal in memory of its own. */
static int shows(const uint8_t *first, size_t first_length, const uint8_t *second, size_t second_length, size_t tag,
                 fr_where want) {
    uint8_t *front = alone(first, first_length), *behind = alone(second, second_length);
    int good = same_where(fr_shown(front, first_length, behind, second_length, tag), want);
    good = given_back(front, first, first_length) && good;
    return given_back(behind, second, second_length) && good;
}

/* Every tag that a seal can have, and numbers that are none, by the rows of a main seal and an extension. */
static int shows_tags(const tagged *first, const tagged *second) {
    static const size_t far[] = {255, 256, 256 + 11, 65536 + 11, (size_t)1 << 32 | 11, SIZE_MAX - 244, SIZE_MAX};
    size_t i, tag;
    for (i = 0; i < 255 + sizeof far / sizeof *far; i++) {
        tag = i < 255 ? i : far[i - 255];
        if (!shows(first->bytes, first->length, second->bytes, second->length, tag, where_of(first, second, tag)))
            return 0;
    }
    return 1;
}

/* The same with either of them as the main seal, and with each as its own extension. */
static int shows_all(const tagged *first, const tagged *second) {
    return shows_tags(first, second) && shows_tags(second, first) && shows_tags(first, first)
        && shows_tags(second, second);
}

/* Tags in both seals, in one and in none, in every mix of versions; all 255; empty values and values of 3,900 bytes. */
static void test_shown(void) {
    static const feature some[] = {{10, 4}, {11, 6}, {0, 0}, {254, 3}};
    static const feature more[] = {{12, 1}, {11, 0}, {254, 200}, {7, 9}};
    static const feature one[] = {{10, 4}}, great[] = {{11, 3900}};
    static tagged front, behind;
    feature all[FR_FEATURES_MOST];
    size_t i, versions;
    for (i = 0; i < FR_FEATURES_MOST; i++) {
        all[i].tag = (uint8_t)(i * 7 % 255);
        all[i].size = i % 4;
    }
    for (versions = 0; versions < 4; versions++) {
        size_t first = 3 + versions % 2, second = 3 + versions / 2;
        hang(&front, first, some, 4);
        hang(&behind, second, more, 4);
        CHECK(shows_all(&front, &behind));
        hang(&behind, second, NULL, 0);
        CHECK(shows_all(&front, &behind));
        hang(&behind, second, all, FR_FEATURES_MOST);
        CHECK(shows_all(&front, &behind));
        hang(&front, 4, great, 1);
        CHECK(shows_all(&front, &behind));
        hang(&behind, second, one, 1);
        CHECK(shows_all(&front, &behind));
    }
}

/* Seal A and an extension that has its feature 10 with no value, every number written out; and one buffer for both. */
static void test_shown_parts(void) {
    static const feature features[] = {{11, 2}, {10, 0}};
    static const fr_where empty = {0, 0, 2, {26, 0}}, behind = {0, 0, 2, {22, 2}}, neither = {50, 0, 0, {0, 0}};
    static const fr_where front = {0, 0, 1, {20, 4}}, other = {0, 0, 1, {22, 2}}, itself = {0, 0, 2, {20, 4}};
    size_t length = make_seal(4, features, 2);
    CHECK(shows(seal_a, SEAL_A, made, length, 10, empty) && shows(made, length, seal_a, SEAL_A, 10, itself));
    CHECK(shows(seal_a, SEAL_A, made, length, 11, behind) && shows(made, length, seal_a, SEAL_A, 11, other));
    CHECK(shows(seal_a, SEAL_A, made, length, 12, neither) && shows(seal_a, SEAL_A, made, length, 255, neither));
    length = make_seal(4, features, 1);
    CHECK(shows(seal_a, SEAL_A, made, length, 10, front));
    CHECK(same_where(fr_shown(seal_a, SEAL_A, seal_a, SEAL_A, 10), itself));
    CHECK(same_where(fr_shown(seal_a, SEAL_A, seal_a, SEAL_A, 11), neither));
}

/* A look-up with such a main seal and such an extension, one of them wrong: refused, and which of them is told. */
static int refuses_shown(const wrong_seal *first, const wrong_seal *second, size_t tag) {
    const wrong_seal *told = first->number != 0 ? first : second;
    const fr_where want = {told->number, told->place, told == first ? (size_t)FR_MAIN : (size_t)FR_EXTENSION, {0, 0}};
    static uint8_t front[FR_SEAL_MOST + 1];
    memcpy(front, wrong(first), sizeof front);
    return shows(front, first->length, wrong(second), second->length, tag, want);
}

/* Each number of the reader from the main seal, from the extension and from both, with the tag in the other or not. */
static void test_shown_refused(void) {
    const wrong_seal *first, *second, *good = wrong_seals + WRONG;
    size_t tag;
    for (tag = 10; tag <= 11; tag++)
        for (first = wrong_seals; first < good; first++) {
            CHECK(refuses_shown(first, good, tag) && refuses_shown(good, first, tag));
            for (second = wrong_seals; second < good; second++) CHECK(refuses_shown(first, second, tag));
        }
}
