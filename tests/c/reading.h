/* Reading: Seal A, cut and damaged seals, room, names, lengths and the places of features. */
#include "lent.h"
#include "made.h"

/* Seal A read: every field, the row and the text; and written back with the seal's own bytes as values. */
static void test_seal_a(void) {
    const uint8_t *raw;
    size_t rows[FR_ROW];
    uint8_t text[9];
    fr_reading r;
    CHECK(is_reading_a(fr_judge(seal_a, SEAL_A)) && tells(seal_a, SEAL_A));
    fresh();
    r = fr_read(seal_a, SEAL_A, table, FR_TABLE_MOST, lent, FR_TEXT_MOST);
    CHECK(is_reading_a(r));
    CHECK(is_row(0, 10, 18, 20, 4) && one_after_another(seal_a, r));
    CHECK(memcmp(lent, "UTAB00001", 9) == 0);
    CHECK(kept(9, FR_ROW));
    memcpy(rows, table, sizeof rows);
    memcpy(text, lent, sizeof text);
    raw = seal_a + r.signature.place;
    fresh();
    CHECK(done(fr_write(r.header, text, 9, rows, FR_ROW, seal_a, SEAL_A, raw, r.signature.length, lent, SEAL_A), seal_a, SEAL_A));
    fresh();
    CHECK(refused(fr_write(r.header, text, 9, rows, FR_ROW, seal_a, SEAL_A, raw, r.signature.length, lent, SEAL_A - 1), 28, 0));
}

/* Seal A cut anywhere: 2 at the first byte of the item that is cut. */
static void test_cut(void) {
    static const size_t items[] = {0, 1, 2, 4, 10, 13, 16, 17, 18, 19, 20, 24, 25, 26, SEAL_A};
    size_t length, item = 0;
    CHECK(refuses(NULL, 0, 2, 0));
    for (length = 0; length < SEAL_A; length++) {
        while (items[item + 1] <= length) item++;
        CHECK(refuses(seal_a, length, 2, items[item]));
    }
}

/* One refusal or more for each number of the reader. */
static void test_reader_refusals(void) {
    static uint8_t long_seal[FR_SEAL_MOST + 1];
    uint8_t more[SEAL_A + 6];
    memcpy(more, seal_a, SEAL_A);
    CHECK(refuses(long_seal, sizeof long_seal, 1, 4096));
    CHECK(refuses(long_seal, FR_SEAL_MOST, 3, 0));
    CHECK(refuses(altered(0, "\xDD", 1), SEAL_A, 3, 0));
    CHECK(refuses(altered(1, "\x01", 1), SEAL_A, 4, 1));
    CHECK(refuses(altered(1, "\x04", 1), SEAL_A, 4, 1));
    CHECK(refuses(altered(2, "\x00\x00", 2), SEAL_A, 5, 2));
    CHECK(refuses(altered(4, "\xFE\x42", 2), SEAL_A, 5, 4));
    CHECK(refuses(altered(10, "\x00\x00\x00", 3), SEAL_A, 6, 10));
    CHECK(refuses(altered(13, "\xFF\xFF\xFF", 3), SEAL_A, 6, 13));
    CHECK(refuses(altered(16, "\x00", 1), SEAL_A, 7, 16));
    CHECK(refuses(altered(16, "\xFF", 1), SEAL_A, 7, 16));
    CHECK(refuses(altered(17, "\x00", 1), SEAL_A, 7, 17));
    CHECK(refuses(altered(17, "\xFF", 1), SEAL_A, 7, 17));
    CHECK(refuses(altered(25, "\x81\x38", 2), SEAL_A, 8, 25));
    CHECK(refuses(altered(25, "\x80", 1), SEAL_A, 8, 25));
    CHECK(refuses(altered(25, "\x39", 1), SEAL_A, 10, 25));
    more[SEAL_A] = 0;
    CHECK(refuses(more, SEAL_A + 1, 11, 82));
    memmove(more + 30, more + 24, SEAL_A - 24);
    memcpy(more + 24, more + 18, 6);
    CHECK(refuses(more, SEAL_A + 6, 9, 24));
    more[24] = 11;
    CHECK(fr_judge(more, SEAL_A + 6).number == 0 && fr_judge(more, SEAL_A + 6).count == 2 && tells(more, SEAL_A + 6));
}

/* A seal of either version with these three bytes as issue date, then as signature date: taken, or refused with 6 at that date. */
static int takes_date(const char *bytes, int taken) {
    static const uint8_t signature[56] = {0};
    static uint8_t seal[FR_SEAL_MOST];
    for (size_t version = 3; version <= 4; version++)
        for (size_t at = version == 3 ? 10 : 12, end = at + 6; at < end; at += 3) {
            size_t length;
            fresh();
            length = fr_write(header_of(version), (const uint8_t *)"UTAB00001", 9, NULL, 0, NULL, 0, signature, 56, lent, ROOM).count;
            memcpy(seal, lent, length);
            memcpy(seal + at, bytes, 3);
            if (!tells(seal, length)) return 0;
            if (taken ? fr_judge(seal, length).number != 0 : !refuses(seal, length, 6, at)) return 0;
        }
    return 1;
}

/* The calendar: 29 February 2000 is a day, 29 February 1900 and 30 February 1957 are none. */
static void test_days(void) {
    CHECK(takes_date("\x22\xF9\x20", 1));
    CHECK(takes_date("\x22\xF8\xBC", 0) && takes_date("\x23\x20\x05", 0));
}

/* 12 comes with too little room of either kind, and nothing is written into the other. A table need not be in whole rows. */
static void test_room(void) {
    size_t numbers;
    fresh();
    for (numbers = 0; numbers < FR_ROW; numbers++)
        CHECK(unread(fr_read(seal_a, SEAL_A, table, numbers, lent, FR_TEXT_MOST), 12, 0) && kept(0, 0));
    CHECK(unread(fr_read(seal_a, SEAL_A, table, FR_TABLE_MOST, lent, 8), 12, 0) && kept(0, 0));
    CHECK(unread(fr_read(seal_a, SEAL_A, NULL, 0, NULL, 0), 12, 0) && kept(0, 0));
    for (numbers = FR_ROW; numbers <= 3 * FR_ROW; numbers++) {
        fresh();
        CHECK(is_reading_a(fr_read(seal_a, SEAL_A, table, numbers, lent, 9)) && kept(9, FR_ROW));
    }
}

/* Dates, definition reference and category of header_of. */
static const uint8_t last_bytes[] = {0x31, 0x9E, 0xF5, 0x41, 0x08, 0x46, 0x01, 0x02};

static int is_last(fr_header h) {
    return same_date(h.issued_on, 3, 25, 1957) && same_date(h.signed_on, 4, 26, 1958) && h.definition == 1 && h.category == 2;
}

/* The header's bytes that the writer makes, with those of country and names as given, and that the reader gives every field back. */
static int writes_names(fr_header header, const char *text, const uint8_t *bytes, size_t count) {
    static const uint8_t signature[56] = {0};
    static uint8_t seal[FR_SEAL_MOST];
    size_t written, length = strlen(text);
    fr_filled w;
    fr_reading r;
    header.length = length - 4;
    fresh();
    w = fr_write(header, (const uint8_t *)text, length, NULL, 0, NULL, 0, signature, 56, lent, ROOM);
    written = w.count;
    if (w.number != 0 || w.place != 0 || written != 10 + count + 58 || !kept(written, 0) || memcmp(lent + 2, bytes, count) != 0) return 0;
    if (memcmp(lent + 2 + count, last_bytes, sizeof last_bytes) != 0) return 0;
    memcpy(seal, lent, written);
    fresh();
    r = fr_read(seal, written, NULL, 0, lent, FR_TEXT_MOST);
    if (!tells(seal, written)) return 0;
    return r.number == 0 && is_last(r.header) && r.count == 0 && r.header.version == header.version && r.header.length == length - 4
        && r.ends.header == 10 + count && memcmp(r.header.country, header.country, 3) == 0 && memcmp(lent, text, length) == 0 && kept(length, 0);
}

static void test_names(void) {
    static const uint8_t three[] = {0xD9, 0xC5, 0xD9, 0xB7, 0x5E, 0x65, 0x19, 0xA6};
    static const uint8_t four[] = {0xD9, 0xC5, 0xD9, 0xB7, 0x5E, 0x6A, 0x19, 0xA5, 0x19, 0xC9};
    static const uint8_t seven[] = {0xD9, 0xC5, 0xD9, 0xB7, 0x5E, 0x66, 0xFE, 0x38};
    static const uint8_t filled[] = {0x6A, 0xBC, 0xD9, 0xB7, 0x5E, 0x65, 0x19, 0xA6};
    fr_header d = header_of(3);
    memcpy(d.country, "D<<", 3);
    CHECK(writes_names(header_of(3), "UTAB00001", three, sizeof three));
    CHECK(writes_names(header_of(4), "UTAB00001", four, sizeof four));
    CHECK(writes_names(header_of(4), "UTAB7", seven, sizeof seven));
    CHECK(writes_names(d, "UTAB00001", filled, sizeof filled));
}

/* The seal of a version and of these names, with the pairs given put in from `at` on: refused with 5 at `place`. */
static int names_refused(size_t version, const char *text, size_t at, const char *pairs, size_t count, size_t place) {
    static const uint8_t signature[56] = {0};
    static uint8_t seal[FR_SEAL_MOST];
    size_t length;
    fr_header header = header_of(version);
    header.length = strlen(text) - 4;
    fresh();
    length = fr_write(header, (const uint8_t *)text, strlen(text), NULL, 0, NULL, 0, signature, 56, lent, ROOM).count;
    memcpy(seal, lent, length);
    memcpy(seal + at, pairs, count);
    return length != 0 && refuses(seal, length, 5, place);
}

/*
 * The place of 5. A pair that is wrongly coded, or a last pair that does not fit, is named by its own first byte, the first of them; a wrong
 * character alone by the item's first byte. "UTAB7890123" has a reference of three pairs, the last of one character.
 */
static void test_pairs(void) {
    static const char *const wrong[] = {"\x00\x00", "\xFA\x01", "\x00\x01", "\x57\xB7", "\x59\xB2", "\xFE\x00", "\xFE\x41"};
    static const char *const few[] = {"\x59\xB1", "\xFE\x42", "\xFE\x21"}; /* text of two characters or of one */
    char longest[4 + 255 + 1];
    size_t i, at;
    memset(longest, 'Z', sizeof longest);
    longest[sizeof longest - 1] = 0;
    for (i = 0; i < sizeof wrong / sizeof *wrong; i++) {
        for (at = 2; at < 10; at += 2) CHECK(names_refused(3, "UTAB00001", at, wrong[i], 2, at));
        for (at = 2; at < 14; at += 2) CHECK(names_refused(4, "UTAB7890123", at, wrong[i], 2, at));
        for (at = 8; at < 178; at += 42) CHECK(names_refused(4, longest, at, wrong[i], 2, at));
    }
    for (i = 0; i < sizeof few / sizeof *few; i++) {
        for (at = 2; at < 10; at += 2) CHECK(names_refused(3, "UTAB00001", at, few[i], 2, at));
        for (at = 2; at < 12; at += 2) CHECK(names_refused(4, "UTAB7890123", at, few[i], 2, at));
        CHECK(names_refused(4, longest, 176, few[i], 2, 176));
    }
    /* last pairs that do not fit L: of three characters or two where it is one, of three or one where it is two */
    CHECK(names_refused(4, "UTAB7", 8, "\x19\xA5", 2, 8) && names_refused(4, "UTAB7", 8, "\x59\xB1", 2, 8));
    CHECK(names_refused(4, "UTAB7890", 10, "\x19\xA5", 2, 10) && names_refused(4, "UTAB7890", 10, "\x59\xB1", 2, 10));
    CHECK(names_refused(4, "UTAB78901", 10, "\x19\xA5", 2, 10) && names_refused(4, "UTAB78901", 10, "\xFE\x42", 2, 10));
    CHECK(names_refused(4, "UTAB789012", 10, "\x59\xB1", 2, 10) && names_refused(4, "UTAB789012", 10, "\xFE\x42", 2, 10));
    /* wrong characters alone: 1TA, spaces in each pair, one space that fits, L of 00 and GG */
    for (i = 3; i <= 4; i++) CHECK(names_refused(i, "UTAB00001", 4, "\x24\x77", 2, 4) && names_refused(i, "UTAB00001", 6, "\x13\x3C", 2, 4));
    CHECK(names_refused(3, "UTAB00001", 8, "\x13\x3C", 2, 4) && names_refused(4, "UTAB00001", 8, "\x13\x3C", 2, 8));
    CHECK(names_refused(4, "UTAB00001", 10, "\x13\x39", 2, 8) && names_refused(4, "UTAB7890", 10, "\xFE\x21", 2, 8));
    CHECK(names_refused(4, "UTAB00001", 6, "\x5E\x65\xFF\xFF", 4, 4) && names_refused(4, "UTAB00001", 6, "\x60\xF5\xFF\xFF", 4, 4));
    /* wrong characters before a wrong pair and behind one; two wrong pairs; a wrong pair before a last one that does not fit */
    for (i = 3; i <= 4; i++) CHECK(names_refused(i, "UTAB00001", 4, "\x24\x77\x00\x00", 4, 6));
    CHECK(names_refused(3, "UTAB00001", 4, "\x24\x77\x13\x3C\xFE\x42", 6, 8) && names_refused(3, "UTAB00001", 6, "\x00\x01\x13\x3C", 4, 6));
    CHECK(names_refused(4, "UTAB7890123", 8, "\x13\x3C\x13\x3C\xFF\xFF", 6, 12) && names_refused(4, "UTAB7890123", 10, "\xFE\x42\x13\x3C", 4, 10));
    CHECK(names_refused(3, "UTAB00001", 6, "\xFF\xFF\x00\x01", 4, 6) && names_refused(4, "UTAB7890123", 10, "\x00\x01\x59\xB1", 4, 10));
    CHECK(names_refused(4, "UTAB7890123", 8, "\x13\x3C\x19\xA5\x19\xA5", 6, 12));
}

/* A seal with one feature whose length is `form` and whose value is `size` bytes FF, which are no mark. */
static fr_reading with_feature(size_t version, const char *form, size_t form_size, size_t size) {
    static uint8_t seal[FR_SEAL_MOST];
    size_t end = put_front(seal, version);
    seal[end++] = 11;
    memcpy(seal + end, form, form_size);
    memset(seal + end + form_size, 0xFF, size);
    end += form_size + size;
    memcpy(seal + end, seal_a + 24, 58);
    CHECK(tells(seal, end + 58));
    fresh();
    return fr_read(seal, end + 58, table, FR_TABLE_MOST, lent, FR_TEXT_MOST);
}

/* A length is a plain byte in version 3 and the shortest DER length in version 4. */
static void test_lengths(void) {
    fr_reading r = with_feature(4, "\x81\x7F", 2, 127);
    CHECK(unread(r, 8, 21) && kept(0, 0));
    r = with_feature(4, "\x7F", 1, 127);
    CHECK(r.number == 0 && r.count == 1 && is_row(0, 11, 20, 22, 127) && kept(9, FR_ROW));
    r = with_feature(4, "\x81\x80", 2, 128);
    CHECK(r.number == 0 && r.count == 1 && is_row(0, 11, 20, 23, 128) && kept(9, FR_ROW));
    CHECK(r.ends.header == 20 && r.ends.message == 151 && r.ends.seal == 209 && r.signature.place == 153 && r.signature.length == 56);
    r = with_feature(4, "\x80", 1, 128);
    CHECK(unread(r, 8, 21) && kept(0, 0));
    r = with_feature(3, "\x80", 1, 128);
    CHECK(r.number == 0 && r.count == 1 && is_row(0, 11, 18, 20, 128) && kept(9, FR_ROW));
    r = with_feature(3, "\xFF", 1, 255);
    CHECK(r.number == 0 && r.count == 1 && is_row(0, 11, 18, 20, 255) && kept(9, FR_ROW));
    r = with_feature(4, "\x84\xFF\xFF\xFF\xFF", 5, 128);
    CHECK(unread(r, 2, 26) && kept(0, 0));
}

/*
 * A seal made of these features, read with just the room: every row as it was made, one after another; then with one number more, and 12
 * with one number short, and with one less a feature.
 */
static void check_rows(size_t version, const feature *features, size_t count) {
    size_t length = make_seal(version, features, count);
    fr_reading r;
    CHECK(tells(made, length));
    fresh();
    r = fr_read(made, length, table, FR_ROW * count, lent, 9);
    CHECK(r.number == 0 && r.place == 0 && r.count == count && kept(9, FR_ROW * count));
    CHECK(memcmp(table, made_rows, FR_ROW * count * sizeof *table) == 0 && one_after_another(made, r));
    fresh();
    r = fr_read(made, length, table, FR_ROW * count + 1, lent, FR_TEXT_MOST);
    CHECK(r.number == 0 && kept(9, FR_ROW * count));
    fresh();
    CHECK(unread(fr_read(made, length, table, FR_ROW * count - 1, lent, FR_TEXT_MOST), 12, 0) && kept(0, 0));
    CHECK(unread(fr_read(made, length, table, (FR_ROW - 1) * count, lent, FR_TEXT_MOST), 12, 0) && kept(0, 0));
}

/* Where features begin: lengths of one byte, of two and of three, empty values first, between and last, and all 255 tags. */
static void test_places(void) {
    static const feature three[] = {{10, 4}, {0, 0}, {254, 255}, {11, 128}}, four[] = {{11, 127}, {0, 0}, {254, 128}, {3, 256}, {2, 0}};
    feature all[FR_FEATURES_MOST];
    size_t i, version;
    for (i = 0; i < FR_FEATURES_MOST; i++) {
        all[i].tag = (uint8_t)(254 - i);
        all[i].size = i % 3;
    }
    check_rows(3, three, 4);
    CHECK(fr_read(made, make_seal(3, three, 4), table, FR_TABLE_MOST, lent, FR_TEXT_MOST).ends.message == 413);
    CHECK(is_row(0, 10, 18, 20, 4) && is_row(1, 0, 24, 26, 0) && is_row(2, 254, 26, 28, 255) && is_row(3, 11, 283, 285, 128));
    check_rows(4, four, 5);
    CHECK(fr_read(made, make_seal(4, four, 5), table, FR_TABLE_MOST, lent, FR_TEXT_MOST).ends.message == 544);
    CHECK(is_row(0, 11, 20, 22, 127) && is_row(1, 0, 149, 151, 0) && is_row(2, 254, 151, 154, 128) && is_row(3, 3, 282, 286, 256));
    CHECK(is_row(4, 2, 542, 544, 0));
    for (version = 3; version <= 4; version++)
        for (i = 1; i <= FR_FEATURES_MOST; i += i < 5 ? 1 : 50) check_rows(version, all, i);
}
