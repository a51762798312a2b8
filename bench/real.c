/* Inputs that look real, drawn from a fixed seed. */
#include "real.h"
#include <string.h>

static uint64_t state = 20261117;

size_t draw(size_t n) {
    state = state * 6364136223846793005u + 1442695040888963407u;
    return (size_t)(state >> 33) % n;
}

static const char *pick(const char *const *list, size_t n) { return list[draw(n)]; }
#define PICK(list) pick(list, sizeof list / sizeof *list)

static const char *const countries[] = {"D<<", "UTO", "FRA", "GBR", "D<<", "CHE", "AUT", "SWE",
                                        "NLD", "POL", "ITA", "ESP", "JPN", "USA", "EUE", "XPO"};
static const char *const signers[] = {"DE", "UT", "FR", "GB", "CH", "AT", "SE", "NL", "PL", "IT", "ES", "JP", "US"};
static const char *const surnames[] = {"MUSTERMANN", "ERIKSSON",        "DUPONT",       "SMITH",    "LI",
                                       "KOWALSKA",   "VAN DER MUELLEN", "GARCIA LOPEZ", "O CONNOR", "ROSSI"};
static const char *const forenames[] = {"ERIKA", "ANNA MARIA", "JEAN PIERRE", "JOHN", "WEI", "AGNIESZKA", "HENDRIK", "MARIA", "LARS", "BO"};
static const char digits_and_letters[] = "0123456789ABCDEFGHIJKLMNOPQRSTUVWXYZ";

static uint8_t plain(void) { return (uint8_t)digits_and_letters[draw(36)]; }

fr_date real_date(void) {
    static const uint8_t days[] = {31, 28, 31, 30, 31, 30, 31, 31, 30, 31, 30, 31};
    size_t month = 1 + draw(12), year = 1950 + draw(100);
    return (fr_date){month, 1 + draw(days[month - 1] + (size_t)(month == 2 && year % 4 == 0)), year};
}

static size_t put(uint8_t *line, size_t at, const char *words) {
    memcpy(line + at, words, strlen(words));
    return at + strlen(words);
}

static size_t put_digits(uint8_t *line, size_t at, size_t n) {
    while (n-- > 0) line[at++] = (uint8_t)('0' + draw(10));
    return at;
}

/* a name, a number with its letters, or one of the two lines of a machine readable zone, with spaces to the end of the line */
static size_t put_item(uint8_t *line) {
    size_t kind = draw(4), at = 0, wide = 0;
    if (kind == 0 || kind == 2) {
        if (kind == 2) wide = 44, at = put(line, at, "V UTO");
        at = put(line, at, PICK(surnames));
        at = put(line, at, kind == 2 ? "  " : " ");
        at = put(line, at, PICK(forenames));
    } else {
        line[at++] = plain();
        at = put_digits(line, at, 8);
        if (kind == 3) wide = 44, at = put_digits(line, put(line, at, "UTO"), 7), at = put_digits(line, put(line, at, "F"), 7);
    }
    while (at < wide) line[at++] = ' ';
    return at;
}

void real_text(uint8_t *text, size_t n) {
    uint8_t line[80];
    for (size_t at = 0; at < n;) {
        size_t size = put_item(line);
        if (size > n - at) size = n - at;
        memcpy(text + at, line, size);
        at += size;
        if (at < n && draw(2)) text[at++] = ' ';
    }
}

/* C40 of text where so many bytes can be that, a date, or bytes of any kind; by Rust's maker, as c40_write is not counted where seals are made */
static void put_value(uint8_t *value, size_t n) {
    uint8_t text[400];
    if (n == 3) {
        fr_date d = real_date();
        size_t number = d.month * 1000000 + d.day * 10000 + d.year;
        for (int i = 0; i < 3; i++) value[i] = (uint8_t)(number >> (16 - 8 * i));
    } else if (n % 2 == 0 && draw(4)) {
        real_text(text, n / 2 * 3);
        makers[MAKERS - 2].c40_write(text, n / 2 * 3, value, n);
    } else {
        for (size_t i = 0; i < n; i++) value[i] = (uint8_t)draw(256);
    }
}

static void add(given *g, size_t tag, size_t size) {
    size_t row[FR_ROW] = {tag, draw(4096), g->size, size};
    memcpy(g->rows + g->numbers, row, sizeof row);
    put_value(g->values + g->size, size);
    g->size += size;
    g->numbers += FR_ROW;
}

/* all but the features */
static given start(size_t version, size_t reference, size_t raw) {
    given g = {.characters = 4 + reference, .raw = raw, .room = 4096};
    g.header = (fr_header){version, {0}, reference, real_date(), real_date(), 1 + draw(254), 1 + draw(254)};
    memcpy(g.header.country, PICK(countries), 3);
    memcpy(g.text, PICK(signers), 2);
    for (size_t i = 2; i < g.characters; i++) g.text[i] = plain();
    for (size_t i = 0; i < raw; i++) g.signature[i] = (uint8_t)draw(256);
    return g;
}

/* what a seal has left for its features */
static size_t left_of(const given *g, size_t size) {
    size_t header = g->header.version == 3 ? 18 : 16 + (g->header.length + 2) / 3 * 2;
    return size - header - 2 - (g->raw >= 128) - g->raw;
}

/* so many features with tags in no order, whose lengths below 128 fill what is left */
static void add_all(given *g, size_t count, size_t left) {
    uint8_t tags[255];
    for (size_t i = 0; i < 255; i++) tags[i] = (uint8_t)i;
    for (size_t i = 0; i < count; i++) {
        size_t other = i + draw(255 - i), tag = tags[other], rest = count - i, size = left - 2 * rest;
        tags[other] = tags[i];
        if (rest > 1) size = draw(2 * size / rest + 1);
        add(g, tag, size);
        left -= 2 + size;
    }
}

given real_small(size_t version) {
    given g = start(version, version == 3 ? 5 : 1 + draw(6), 56);
    add_all(&g, 1, left_of(&g, 82));
    return g;
}

given real_typical(size_t version) {
    given g = start(version, version == 3 ? 5 : 1 + draw(12), 64);
    add_all(&g, 3, left_of(&g, 150));
    return g;
}

given real_full(void) {
    given g = start(4, 1 + draw(255), 132);
    add_all(&g, 255, left_of(&g, 4096));
    return g;
}

void real_signature(size_t k, uint8_t *raw) {
    for (size_t i = 0; i < 64; i++) raw[i] = (uint8_t)draw(256);
    if (k % 8 == 1) raw[0] = 0;
    if (k % 8 == 4) raw[32] = raw[33] = 0;
}
