/* Writing: each refusal of the writer, tables that are not in whole rows, and the places of tags, which it ignores. */
#include "lent.h"
#include "made.h"

/* A writing of the header, rows over 4,096 values and a signature of the length given. */
static fr_filled written(fr_header header, const char *text, const size_t *rows, size_t numbers, size_t signature_length) {
    static const uint8_t values[FR_SEAL_MOST] = {0}, signature[200] = {0};
    fresh();
    return fr_write(header, (const uint8_t *)text, strlen(text), rows, numbers, values, sizeof values, signature, signature_length, lent, ROOM);
}

/* 20 to 23: the header and the text. */
static void test_writer_header(void) {
    fr_header h = header_of(5);
    CHECK(refused(written(h, "UTAB00001", NULL, 0, 56), 20, 0));
    h = header_of(3);
    CHECK(refused(written(h, "UTAB0001", NULL, 0, 56), 21, 0));
    CHECK(refused(written(h, "UT-B00001", NULL, 0, 56), 21, 0));
    h.country[2] = ' ';
    CHECK(refused(written(h, "UTAB00001", NULL, 0, 56), 21, 0));
    h = header_of(4);
    h.length = 6;
    CHECK(refused(written(h, "UTAB00001", NULL, 0, 56), 21, 0));
    h = header_of(3);
    h.issued_on.day = 32;
    CHECK(refused(written(h, "UTAB00001", NULL, 0, 56), 22, 0));
    h = header_of(3);
    h.issued_on.month = 2;
    h.issued_on.day = 30;
    CHECK(refused(written(h, "UTAB00001", NULL, 0, 56), 22, 0));
    h = header_of(4);
    h.signed_on.month = 2;
    h.signed_on.day = 29;
    CHECK(refused(written(h, "UTAB00001", NULL, 0, 56), 22, 0));
    h.signed_on.year = 2000;
    CHECK(written(h, "UTAB00001", NULL, 0, 56).number == 0 && kept(78, 0));
    h = header_of(3);
    h.signed_on.year = 0;
    CHECK(refused(written(h, "UTAB00001", NULL, 0, 56), 22, 0));
    h = header_of(3);
    h.definition = 256 + 1;
    CHECK(refused(written(h, "UTAB00001", NULL, 0, 56), 23, 0));
    h = header_of(3);
    h.category = 255;
    CHECK(refused(written(h, "UTAB00001", NULL, 0, 56), 23, 0));
    h.category = 254;
    CHECK(written(h, "UTAB00001", NULL, 0, 56).number == 0 && kept(76, 0));
}

/* 24 to 27: rows, values, signature and size. */
static void test_writer_rows(void) {
    static const size_t twice[] = {ROW(7, 0, 0, 1), ROW(7, 3, 0, 1)}, over[] = {ROW(255, 0, 0, 1)}, cut_down[] = {ROW(256 + 10, 0, 0, 1)};
    static const size_t outside[] = {ROW(7, 0, 4096, 1)}, wraps[] = {ROW(7, 0, 1, SIZE_MAX)}, great[] = {ROW(7, SIZE_MAX, 0, 256)};
    static const size_t widest[] = {ROW(7, 0, 0, 255)}, most[] = {ROW(7, SIZE_MAX, 0, 4014)}, past[] = {ROW(7, 0, 0, 4015)};
    fr_header three = header_of(3), four = header_of(4);
    CHECK(refused(written(three, "UTAB00001", twice, FR_ROW + 1, 56), 24, 0));
    CHECK(refused(written(three, "UTAB00001", twice, 2 * FR_ROW, 56), 24, 0));
    CHECK(refused(written(three, "UTAB00001", over, FR_ROW, 56), 24, 0));
    CHECK(refused(written(three, "UTAB00001", cut_down, FR_ROW, 56), 24, 0));
    CHECK(refused(written(three, "UTAB00001", outside, FR_ROW, 56), 24, 0));
    CHECK(refused(written(three, "UTAB00001", wraps, FR_ROW, 56), 24, 0));
    CHECK(refused(written(three, "UTAB00001", great, FR_ROW, 56), 25, 0));
    CHECK(written(three, "UTAB00001", widest, FR_ROW, 56).count == 18 + 2 + 255 + 58 && kept(333, 0));
    CHECK(refused(written(three, "UTAB00001", NULL, 0, 57), 26, 0));
    CHECK(refused(written(three, "UTAB00001", NULL, 0, 0), 26, 0));
    CHECK(written(four, "UTAB00001", great, FR_ROW, 132).count == 20 + 4 + 256 + 135 && kept(415, 0));
    CHECK(refused(written(four, "UTAB00001", past, FR_ROW, 56), 27, 0));
    CHECK(written(four, "UTAB00001", most, FR_ROW, 56).count == 20 + 4 + 4014 + 58 && kept(4096, 0));
}

/* Whether a writing in version 3 is done, with these bytes as the message. */
static int writes_message(const size_t *rows, size_t numbers, const char *message, size_t size) {
    fr_filled w = written(header_of(3), "UTAB00001", rows, numbers, 56);
    return w.number == 0 && w.place == 0 && w.count == 18 + size + 58 && memcmp(lent + 18, message, size) == 0 && lent[18 + size] == 0xFF
        && kept(w.count, 0);
}

/*
 * Tables of 0 to 9 numbers, and more: those in whole rows are written, any other is 24. Rows of three numbers are not in fours, but
 * for four of them, which are taken for the three rows of four that they are.
 */
static void test_tables(void) {
    static const size_t rows[] = {ROW(7, SIZE_MAX, 0, 1), ROW(8, 0, 5, 0), ROW(9, 8, 1, 2), 0};
    static const size_t threes[] = {7, 0, 1, 8, 0, 0, 9, 0, 1, 6, 1, 1};
    static const char message[] = "\7\1\0\10\0\11\2\0\0", taken[] = "\7\10\0\0\0\0\0\0\0\0\0\0\1\1\0";
    static const size_t sizes[] = {0, 3, 5, 9}; /* of the message of so many rows */
    size_t numbers;
    for (numbers = 0; numbers <= sizeof rows / sizeof *rows; numbers++)
        if (numbers % FR_ROW == 0) CHECK(writes_message(rows, numbers, message, sizes[numbers / FR_ROW]));
        else CHECK(refused(written(header_of(3), "UTAB00001", rows, numbers, 56), 24, 0));
    for (numbers = 3; numbers <= 9; numbers += 3) CHECK(refused(written(header_of(3), "UTAB00001", threes, numbers, 56), 24, 0));
    CHECK(writes_message(threes, 12, taken, sizeof taken - 1));
}

/* Writes the seal made last, of so many bytes, by its rows, with its own bytes as values: the same again. */
static int written_alike(size_t version, size_t count, size_t length) {
    fr_header header = header_of(version);
    header.signed_on = header.issued_on;
    fresh();
    return done(fr_write(header, (const uint8_t *)"UTAB00001", 9, made_rows, FR_ROW * count, made, length, made + length - 56, 56,
                         lent, length), made, length);
}

/* The place of a tag is ignored, whatever it is, in one row and in all. */
static void test_tag_places(void) {
    static const size_t places[] = {0, 1, 18, 20, 255, 256, 4096, (size_t)1 << 32, (size_t)1 << 63, SIZE_MAX - 1, SIZE_MAX};
    static const feature features[] = {{10, 4}, {0, 0}, {254, 130}};
    size_t version, i, row, length;
    for (version = 3; version <= 4; version++) {
        length = make_seal(version, features, 3);
        CHECK(written_alike(version, 3, length));
        for (i = 0; i < sizeof places / sizeof *places; i++) {
            for (row = 0; row < 3; row++) {
                length = make_seal(version, features, 3);
                made_rows[FR_ROW * row + FR_ROW_TAG_PLACE] = places[i];
                CHECK(written_alike(version, 3, length));
            }
            for (row = 0; row < 3; row++) made_rows[FR_ROW * row + FR_ROW_TAG_PLACE] = places[i];
            CHECK(written_alike(version, 3, length));
        }
    }
}
