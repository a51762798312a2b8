/* The codecs: C40, dates, INTEGERs, signatures and the choice of hash. */
#include "lent.h"

/* A text and its C40 bytes, both ways, with just the room and with one byte less. */
static void both_ways(const char *text, const char *bytes, size_t count) {
    size_t length = strlen(text);
    fresh();
    CHECK(done(fr_c40_write((const uint8_t *)text, length, lent, count), bytes, count));
    fresh();
    CHECK(done(fr_c40_read((const uint8_t *)bytes, count, lent, length), text, length));
    if (length == 0) return;
    fresh();
    CHECK(refused(fr_c40_write((const uint8_t *)text, length, lent, count - 1), 44, 0));
    CHECK(refused(fr_c40_read((const uint8_t *)bytes, count, lent, length - 1), 42, 0));
}

static void test_c40(void) {
    static const uint8_t wrong[] = {0xFA, 0x01}, later[] = {0xDE, 0x51, 0x00, 0x00};
    static uint8_t many[FR_CHARACTERS_MOST + 1];
    both_ways("VISA01", "\xDE\x51\x58\x26", 4);
    both_ways("XKCD", "\xEB\x11\xFE\x45", 4);
    both_ways("XK CD", "\xEB\x04\x66\xA9", 4);
    both_ways("ZZZ", "\xFA\x00", 2);
    both_ways("", "", 0);
    fresh();
    CHECK(done(fr_c40_read(NULL, 0, NULL, 0), NULL, 0) && done(fr_c40_write(NULL, 0, NULL, 0), NULL, 0));
    CHECK(refused(fr_c40_read(many, FR_C40_MOST + 1, lent, ROOM), 45, 0));
    CHECK(refused(fr_c40_read(wrong, 1, lent, ROOM), 40, 1));
    CHECK(refused(fr_c40_read(wrong, 2, lent, ROOM), 41, 0));
    CHECK(refused(fr_c40_read(later, 4, lent, ROOM), 41, 2));
    memset(many, 'A', sizeof many);
    CHECK(refused(fr_c40_write(many, FR_CHARACTERS_MOST + 1, lent, ROOM), 45, 0));
    CHECK(refused(fr_c40_write((const uint8_t *)"XK<CD", 5, lent, ROOM), 43, 2));
    CHECK(refused(fr_c40_write((const uint8_t *)"Visa", 4, lent, 0), 43, 1));
    CHECK(fr_c40_write(many, FR_CHARACTERS_MOST, lent, FR_C40_MOST).count == FR_C40_MOST && kept(FR_C40_MOST, 0));
}

/* A wrong pair first, between and last of three: its number there, whatever the room. Text of one or two characters is wrong only before the last. */
static void pair_refused(const char *pair, size_t number, int is_text) {
    uint8_t bytes[6];
    size_t place;
    for (place = 0; place < (is_text ? 4u : 6u); place += 2) {
        memcpy(bytes, "\xDE\x51\xDE\x51\xDE\x51", 6);
        memcpy(bytes + place, pair, 2);
        fresh();
        CHECK(refused(fr_c40_read(bytes, 6, lent, ROOM), number, place) && refused(fr_c40_read(bytes, 6, NULL, 0), number, place));
    }
}

/* 41: no value of three characters. 46: a shift where none may stand. 47: FE before the last pair, or no code of the chart. The first such pair decides. */
static void test_c40_pairs(void) {
    static const char *const no_value[] = {"\x00\x00", "\xFA\x01", "\xFD\xFF", "\xFF\x00", "\xFF\xFF"};
    static const char *const shifts[] = {"\x00\x01", "\x02\x3F", "\x08\x7F", "\x0E\xBF", "\x57\x8F", "\x57\xB7", "\x57\xDF", "\x59\xB2", "\x59\xB3"};
    static const char *const no_code[] = {"\xFE\x00", "\xFE\x22", "\xFE\x40", "\xFE\x41", "\xFE\x5C", "\xFE\xFF"};
    static const char *const wrong[] = {"\xFF\xFF", "\x00\x01", "\xFE\x41"};
    static const size_t numbers[] = {41, 46, 47};
    uint8_t bytes[4];
    size_t i, k;
    for (i = 0; i < sizeof no_value / sizeof *no_value; i++) pair_refused(no_value[i], 41, 0);
    for (i = 0; i < sizeof shifts / sizeof *shifts; i++) pair_refused(shifts[i], 46, 0);
    for (i = 0; i < sizeof no_code / sizeof *no_code; i++) pair_refused(no_code[i], 47, 0);
    pair_refused("\x59\xB1", 46, 1);
    pair_refused("\xFE\x21", 47, 1);
    pair_refused("\xFE\x42", 47, 1);
    both_ways("AA", "\x59\xB1", 2);
    both_ways(" ", "\xFE\x21", 2);
    both_ways("Z", "\xFE\x5B", 2);
    fresh();
    for (i = 0; i < 3; i++)
        for (k = 0; k < 3; k++) {
            memcpy(bytes, wrong[i], 2);
            memcpy(bytes + 2, wrong[k], 2);
            CHECK(refused(fr_c40_read(bytes, 4, lent, ROOM), numbers[i], 0));
        }
}

static int no_date(size_t number) {
    fr_dated d = fr_date_from_number(number);
    return d.number == 6 && d.place == 0 && same_date(d.date, 0, 0, 0);
}

/* A date and its number, both ways. */
static int dated(size_t month, size_t day, size_t year, size_t number) {
    fr_dated d = fr_date_from_number(number);
    fr_numbered n = fr_date_to_number(d.date);
    return d.number == 0 && d.place == 0 && same_date(d.date, month, day, year) && n.number == 0 && n.place == 0 && n.value == number;
}

static int no_number(size_t month, size_t day, size_t year) {
    fr_date date;
    fr_numbered n;
    date.month = month;
    date.day = day;
    date.year = year;
    n = fr_date_to_number(date);
    return n.number == 22 && n.place == 0 && n.value == 0;
}

static void test_dates(void) {
    CHECK(dated(3, 25, 1957, 0x319EF5));
    CHECK(dated(1, 1, 1, 1010001) && dated(12, 31, 9999, 12319999));
    CHECK(dated(1, 31, 2026, 1312026) && no_date(1322026) && no_date(1310000));
    CHECK(dated(2, 29, 2000, 2292000) && dated(2, 29, 2004, 2292004) && dated(2, 28, 1900, 2281900) && dated(4, 30, 1957, 4301957));
    CHECK(no_date(2291900) && no_date(2292100) && no_date(2301957) && no_date(2302000) && no_date(2312004) && no_date(4311957));
    CHECK(no_number(2, 29, 1900) && no_number(2, 29, 2100) && no_number(2, 30, 1957) && no_number(2, 30, 2000) && no_number(11, 31, 1957));
    CHECK(no_date(0) && no_date(1010000) && no_date(13010001) && no_date(1000001) && no_date(12320000) && no_date(~(size_t)0));
    CHECK(no_number(0, 1, 1) && no_number(13, 1, 1) && no_number(1, 0, 1) && no_number(1, 32, 1) && no_number(1, 1, 0) && no_number(1, 1, 10000));
}

/* A value and its INTEGER, both ways, and with one byte too few. */
static void integer(int64_t value, const char *bytes, size_t count) {
    fr_integer r = fr_integer_read((const uint8_t *)bytes, count);
    CHECK(r.number == 0 && r.place == 0 && r.value == value);
    fresh();
    CHECK(refused(fr_integer_write(value, lent, count - 1), 63, 0));
    CHECK(done(fr_integer_write(value, lent, count), bytes, count));
}

static int no_integer(const char *bytes, size_t count) {
    fr_integer r = fr_integer_read((const uint8_t *)bytes, count);
    return r.number == 65 && r.place == 0 && r.value == 0;
}

static void test_integers(void) {
    fr_integer r = fr_integer_read(NULL, 0);
    integer(0, "\x02\x01\x00", 3);
    integer(127, "\x02\x01\x7F", 3);
    integer(128, "\x02\x02\x00\x80", 4);
    integer(-129, "\x02\x02\xFF\x7F", 4);
    integer(-25357, "\x02\x02\x9C\xF3", 4);
    integer(INT64_MAX, "\x02\x08\x7F\xFF\xFF\xFF\xFF\xFF\xFF\xFF", 10);
    integer(INT64_MIN, "\x02\x08\x80\x00\x00\x00\x00\x00\x00\x00", 10);
    CHECK(r.number == 65 && r.place == 0 && r.value == 0);
    CHECK(no_integer("\x02\x00", 2) && no_integer("\x03\x01\x00", 3) && no_integer("\x02\x02\x00\x7F", 4) && no_integer("\x02\x02\xFF\x80", 4));
    CHECK(no_integer("\x02\x01\x00\x00", 4) && no_integer("\x02\x02\x00", 3) && no_integer("\x02\x09\x00\x80\x00\x00\x00\x00\x00\x00\x00", 11));
    fresh();
    CHECK(refused(fr_integer_write(0, NULL, 0), 63, 0));
}

static void test_signatures(void) {
    static const uint8_t der[] = {0x30, 7, 2, 1, 1, 2, 2, 0, 0x80}, negative[] = {0x30, 6, 2, 1, 1, 2, 1, 0x80}, zeros[] = {0x30, 6, 2, 1, 0, 2, 1, 0};
    uint8_t raw[FR_SIGNATURE_MOST], left_over[sizeof der + 1] = {0};
    memset(raw, 0, sizeof raw);
    memcpy(left_over, der, sizeof der);
    fresh();
    CHECK(done(fr_signature_to_der(28, raw, 56, lent, ROOM), zeros, 8));
    raw[27] = 1;
    raw[55] = 128;
    fresh();
    CHECK(refused(fr_signature_to_der(28, raw, 56, lent, 8), 63, 0) && refused(fr_signature_to_der(28, raw, 56, NULL, 0), 63, 0));
    CHECK(refused(fr_signature_to_der(29, raw, 58, lent, ROOM), 60, 0));
    CHECK(refused(fr_signature_to_der(32, raw, 56, lent, ROOM), 61, 0) && refused(fr_signature_to_der(28, NULL, 0, lent, ROOM), 61, 0));
    CHECK(refused(fr_signature_to_raw(0, der, sizeof der, lent, ROOM), 60, 0));
    CHECK(refused(fr_signature_to_raw(28, NULL, 0, lent, ROOM), 62, 0) && refused(fr_signature_to_raw(28, der, sizeof der - 1, lent, ROOM), 62, 0));
    CHECK(refused(fr_signature_to_raw(28, left_over, sizeof left_over, lent, ROOM), 62, 0));
    CHECK(refused(fr_signature_to_raw(28, negative, sizeof negative, lent, ROOM), 62, 0));
    CHECK(refused(fr_signature_to_raw(28, der, sizeof der, lent, 55), 63, 0));
    CHECK(done(fr_signature_to_der(28, raw, 56, lent, 9), der, 9));
    fresh();
    CHECK(done(fr_signature_to_raw(28, der, sizeof der, lent, 56), raw, 56));
    memset(raw, 0xFF, sizeof raw);
    fresh();
    CHECK(fr_signature_to_der(66, raw, 132, lent, FR_DER_MOST).count == FR_DER_MOST && kept(FR_DER_MOST, 0));
}

static int hash(size_t n, size_t number, size_t bits) {
    fr_hashed h = fr_hash(n);
    return h.number == number && h.place == 0 && h.bits == bits;
}

static void test_hash(void) {
    CHECK(hash(28, 0, 224) && hash(32, 0, 256) && hash(48, 0, 384) && hash(64, 0, 512) && hash(66, 0, 512));
    CHECK(hash(0, 60, 0) && hash(33, 60, 0) && hash(256 + 28, 60, 0) && hash(~(size_t)0, 60, 0));
}
