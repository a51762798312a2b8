/* What the tests share: counted checks, lent memory with guards around it, and Seal A. */
#ifndef LENT_H
#define LENT_H

#include <stdio.h>
#include <string.h>

#include "fenderrope.h"

/* Checks are counted; one that fails is told with its line, and the rest still run. */
static unsigned long checks, failures;

static void check_at(int held, const char *what, const char *file, int line) {
    checks++;
    if (!held) {
        failures++;
        printf("%s:%d: %s\n", file, line, what);
    }
}

#define CHECK(condition) check_at((condition) != 0, #condition, __FILE__, __LINE__)

/* Lent memory: a pattern with guards before and behind. */
enum { GUARD = 32, ROOM = 8192 };
static uint8_t byte_room[GUARD + ROOM + GUARD];
static size_t number_room[GUARD + FR_TABLE_MOST + GUARD];
static uint8_t *const lent = byte_room + GUARD;
static size_t *const table = number_room + GUARD;

static uint8_t pattern(size_t i) {
    return (uint8_t)(0xC5 ^ (i * 7));
}

static void fresh(void) {
    size_t i;
    for (i = 0; i < sizeof byte_room; i++) byte_room[i] = pattern(i);
    for (i = 0; i < GUARD + FR_TABLE_MOST + GUARD; i++) number_room[i] = ~i;
}

/* Whether the bytes but the first `count` lent, and the numbers but the first `numbers` lent, are as `fresh` left them. */
static int kept(size_t count, size_t numbers) {
    size_t i;
    for (i = 0; i < sizeof byte_room; i++)
        if ((i < GUARD || i >= GUARD + count) && byte_room[i] != pattern(i)) return 0;
    for (i = 0; i < GUARD + FR_TABLE_MOST + GUARD; i++)
        if ((i < GUARD || i >= GUARD + numbers) && number_room[i] != ~i) return 0;
    return 1;
}

static int done(fr_filled r, const void *bytes, size_t count) {
    return r.number == 0 && r.place == 0 && r.count == count && (count == 0 || memcmp(lent, bytes, count) == 0) && kept(count, 0);
}

static int refused(fr_filled r, size_t number, size_t place) {
    return r.number == number && r.place == place && r.count == 0 && kept(0, 0);
}

static int same_date(fr_date a, size_t month, size_t day, size_t year) {
    return a.month == month && a.day == day && a.year == year;
}

/* Whether the header is all zeros, as on a refusal. */
static int no_header(fr_header h) {
    return h.version == 0 && h.country[0] == 0 && h.country[1] == 0 && h.country[2] == 0 && h.length == 0 && same_date(h.issued_on, 0, 0, 0)
        && same_date(h.signed_on, 0, 0, 0) && h.definition == 0 && h.category == 0;
}

/* Whether an answer refuses so: every field but these two and the front part is 0. */
static int unread(fr_reading r, size_t number, size_t place) {
    return r.number == number && r.place == place && no_header(r.header) && r.ends.header == 0 && r.ends.message == 0 && r.ends.seal == 0
        && r.signature.place == 0 && r.signature.length == 0 && r.count == 0;
}

/*
 * What holds of the front part for every input: a good seal is its own; that of any other lies in it, is its own front
 * part and no more than cut; and with a byte more the input is refused, and is good so far.
 */
static int hopes(const uint8_t *seal, size_t length) {
    fr_reading r = fr_judge(seal, length), part, more;
    if (r.front > length || r.front > FR_SEAL_MOST || (r.number == 0 && r.front != length)) return 0;
    part = fr_judge(seal, r.front);
    if (part.front != r.front || (part.number != 0 && part.number != 2)) return 0;
    if (r.front == length) return 1;
    more = fr_judge(seal, r.front + 1);
    return more.number != 0 && more.front == r.front;
}

/*
 * What holds of the reason for every input: number and place are the verdict's; an accepted seal has none; a refused
 * one has an item, a rule and a part of the seal, which begins at the place. And what holds of the front part.
 */
static int tells(const uint8_t *seal, size_t length) {
    fr_reading r = fr_judge(seal, length);
    fr_reason w = fr_why(seal, length);
    if (!hopes(seal, length)) return 0;
    if (w.number != r.number || w.place != r.place || w.judged.place != w.place) return 0;
    if (w.number == 0) return w.place == 0 && w.item == 0 && w.rule == 0 && w.judged.length == 0;
    if (w.item < FR_ITEM_SEAL || w.item > FR_ITEM_END) return 0;
    if (w.rule < FR_RULE_NOT_TOO_LONG || w.rule > FR_RULE_SHORTEST) return 0;
    return w.judged.place <= length && w.judged.length <= length - w.judged.place;
}

/* Reads with all the room that there can be: the verdict alone and the reading both refuse so, and nothing lent changes. */
static int refuses(const uint8_t *seal, size_t length, size_t number, size_t place) {
    fr_reading judged = fr_judge(seal, length), read;
    fresh();
    read = fr_read(seal, length, table, FR_TABLE_MOST, lent, FR_TEXT_MOST);
    return unread(judged, number, place) && unread(read, number, place) && read.front == judged.front && tells(seal, length) && kept(0, 0);
}

/* The numbers of a row, in their order. */
#define ROW(tag, tag_place, value_place, value_length) tag, tag_place, value_place, value_length

/* Whether row `i` of the lent table is this one. */
static int is_row(size_t i, size_t tag, size_t tag_place, size_t value_place, size_t value_length) {
    const size_t row[FR_ROW] = {ROW(tag, tag_place, value_place, value_length)};
    return memcmp(table + FR_ROW * i, row, sizeof row) == 0;
}

/* Seal A of document 01. */
enum { SEAL_A = 82 };
static uint8_t seal_a[SEAL_A];

static void make_seal_a(void) {
    static const uint8_t front[] = {0xDC, 0x02, 0xD9, 0xC5, 0xD9, 0xB7, 0x5E, 0x65, 0x19, 0xA6, 0x31, 0x9E, 0xF5,
                                    0x31, 0x9E, 0xF5, 0x01, 0x02, 0x0A, 0x04, 0xDE, 0x51, 0x58, 0x26, 0xFF, 0x38};
    memcpy(seal_a, front, sizeof front);
    memset(seal_a + sizeof front, 0xAA, 56);
}

/* Seal A with `count` bytes from `at` on put in place of its own. */
static const uint8_t *altered(size_t at, const char *bytes, size_t count) {
    static uint8_t seal[SEAL_A];
    memcpy(seal, seal_a, SEAL_A);
    memcpy(seal + at, bytes, count);
    return seal;
}

/* Seal A's header for the version given, but signed on another day, so that the two dates cannot be taken for each other. */
static fr_header header_of(size_t version) {
    fr_header h;
    memset(&h, 0, sizeof h);
    h.version = version;
    memcpy(h.country, "UTO", 3);
    h.length = 5;
    h.issued_on.month = 3;
    h.issued_on.day = 25;
    h.issued_on.year = 1957;
    h.signed_on.month = 4;
    h.signed_on.day = 26;
    h.signed_on.year = 1958;
    h.definition = 1;
    h.category = 2;
    return h;
}

static int is_header_a(fr_header h) {
    return h.version == 3 && memcmp(h.country, "UTO", 3) == 0 && h.length == 5 && same_date(h.issued_on, 3, 25, 1957)
        && same_date(h.signed_on, 3, 25, 1957) && h.definition == 1 && h.category == 2;
}

/* Every field of an answer about Seal A. */
static int is_reading_a(fr_reading r) {
    return r.number == 0 && r.place == 0 && is_header_a(r.header) && r.ends.header == 18 && r.ends.message == 24 && r.ends.seal == 82
        && r.signature.place == 26 && r.signature.length == 56 && r.count == 1 && r.front == 82;
}

#endif
