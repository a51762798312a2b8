/*
 * The library's side of peers/run. Signatures and pictures are made by others; everything in between is done by the library.
 *
 *   seal signed VERSION N             prints the signed bytes of a seal whose signature has size N
 *   seal write VERSION N DER          prints the seal, with the signature in the file DER
 *   seal open FILE SIGNED DER         reads the seal in FILE, writes its signed bytes to SIGNED and its signature in DER to DER, and prints a line about it
 *   seal hash N                       prints the bits of the hash that goes with N
 */
#include <fenderrope.h>
#include <stdio.h>
#include <stdlib.h>
#include <string.h>

static void fail(const char *what, size_t number) {
    fprintf(stderr, "seal: %s: %zu\n", what, number);
    exit(1);
}

static size_t load(const char *path, uint8_t *bytes, size_t room) {
    FILE *file = fopen(path, "rb");
    size_t length = file ? fread(bytes, 1, room, file) : 0;
    if (!file || ferror(file) || fclose(file) != 0) perror(path), exit(1);
    return length;
}

static void save(FILE *file, const char *path, const uint8_t *bytes, size_t length) {
    if (!file || fwrite(bytes, 1, length, file) != length || fclose(file) != 0) perror(path), exit(1);
}

/* A seal with two features: a press in C40, and every byte from 0 to 254 or, in version 4, 300 bytes, which need a long length. */
static size_t build(size_t version, const uint8_t *signature, size_t signature_length, uint8_t *out, size_t room) {
    static const char name[] = "PRESS7";
    uint8_t values[400];
    fr_filled c40 = fr_c40_write((const uint8_t *)name, strlen(name), values, sizeof values);
    size_t more = version == 3 ? 255 : 300;
    size_t rows[2 * FR_ROW] = {11, 0, 0, c40.count, 12, 0, c40.count, more}; /* the places of the tags are ignored */
    fr_dated day = fr_date_from_number(11152026);
    fr_header header = {version, {'D', '<', '<'}, version == 3 ? 5 : 7, day.date, day.date, 1, 2};
    const char *text = version == 3 ? "UTAB00001" : "UTAB0000001";
    if (c40.number != 0) fail("name", c40.number);
    if (day.number != 0) fail("date", day.number);
    for (size_t i = 0; i < more; i++) values[c40.count + i] = (uint8_t)i;
    fr_filled w = fr_write(header, (const uint8_t *)text, strlen(text), rows, 2 * FR_ROW, values, c40.count + more,
                           signature, signature_length, out, room);
    if (w.number != 0) fail("write", w.number);
    return w.count;
}

/* The signed bytes do not depend on the signature, so one of zeros serves to find them. */
static void print_signed(size_t version, size_t n) {
    static const uint8_t zeros[FR_SIGNATURE_MOST];
    uint8_t seal[FR_SEAL_MOST];
    size_t length = build(version, zeros, 2 * n, seal, sizeof seal);
    fr_reading r = fr_judge(seal, length);
    if (r.number != 0) fail("judge", r.number);
    save(stdout, "standard output", seal, r.ends.message);
}

static void print_seal(size_t version, size_t n, const char *path) {
    uint8_t der[FR_DER_MOST + 1], raw[FR_SIGNATURE_MOST], seal[FR_SEAL_MOST];
    size_t length = load(path, der, sizeof der);
    fr_filled r = fr_signature_to_raw(n, der, length, raw, sizeof raw);
    if (r.number != 0) fail("signature to raw", r.number);
    save(stdout, "standard output", seal, build(version, raw, r.count, seal, sizeof seal));
}

static void open_seal(const char *path, const char *signed_path, const char *der_path) {
    static size_t table[FR_TABLE_MOST];
    uint8_t seal[FR_SEAL_MOST + 1], text[FR_TEXT_MOST], der[FR_DER_MOST], name[16];
    size_t length = load(path, seal, sizeof seal);
    fr_reading r = fr_read(seal, length, table, FR_TABLE_MOST, text, sizeof text);
    if (r.number != 0) fail("read", r.number);
    fr_filled d = fr_signature_to_der(r.signature.length / 2, seal + r.signature.place, r.signature.length, der, sizeof der);
    if (d.number != 0) fail("signature to DER", d.number);
    if (r.count != 2 || table[FR_ROW_TAG] != 11 || table[FR_ROW_TAG_PLACE] != r.ends.header) fail("features", r.count);
    fr_filled c40 = fr_c40_read(seal + table[FR_ROW_VALUE_PLACE], table[FR_ROW_VALUE_LENGTH], name, sizeof name);
    if (c40.number != 0) fail("name", c40.number);
    save(fopen(signed_path, "wb"), signed_path, seal, r.ends.message);
    save(fopen(der_path, "wb"), der_path, der, d.count);
    printf("version %zu, %zu bytes, press %.*s, signature of %zu bytes\n", r.header.version, length, (int)c40.count, name, r.signature.length);
}

static size_t number(const char *word) {
    return (size_t)strtoul(word, NULL, 10);
}

int main(int count, char **words) {
    if (count == 4 && strcmp(words[1], "signed") == 0) {
        print_signed(number(words[2]), number(words[3]));
    } else if (count == 5 && strcmp(words[1], "write") == 0) {
        print_seal(number(words[2]), number(words[3]), words[4]);
    } else if (count == 5 && strcmp(words[1], "open") == 0) {
        open_seal(words[2], words[3], words[4]);
    } else if (count == 3 && strcmp(words[1], "hash") == 0) {
        fr_hashed h = fr_hash(number(words[2]));
        if (h.number != 0) fail("hash", h.number);
        printf("%zu\n", h.bits);
    } else {
        fail("words", (size_t)count);
    }
    return 0;
}
