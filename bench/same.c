/* The three makers on the same inputs, good and refused: answers, filled buffers and the memory past what is written must be the same, bit for bit. */
#include "same.h"
#include <stdio.h>
#include <stdlib.h>

seen got[MAKERS];
static size_t inputs;

/* by item and rule, whether some seal breaks that rule of that item; the first is for accepted seals */
enum { RULES = 19 };
static uint8_t met[18 * RULES];

void judge_same(const char *call) {
    inputs++;
    for (int i = 1; i < MAKERS; i++)
        if (memcmp(got, got + i, sizeof *got)) {
            fprintf(stderr, "bench: %s and %s differ, input %zu: %s\n  numbers %zu and %zu, places %zu and %zu\n", makers[0].name,
                    makers[i].name, inputs, call, got[0].fields[0], got[i].fields[0], got[0].fields[1], got[i].fields[1]);
            exit(1);
        }
}

void expect(size_t number) {
    if (got[0].fields[0] != number) fprintf(stderr, "bench: input for %zu gives %zu\n", number, got[0].fields[0]), exit(1);
}

void see(seen *s, size_t number, size_t place, size_t value) {
    s->fields[0] = number;
    s->fields[1] = place;
    s->fields[2] = value;
}

static void see_filled(seen *s, fr_filled f) { see(s, f.number, f.place, f.count); }

static void see_date(size_t *fields, fr_date d) {
    fields[0] = d.month;
    fields[1] = d.day;
    fields[2] = d.year;
}

void see_reading(seen *s, fr_reading r) {
    see(s, r.number, r.place, r.header.version);
    s->fields[3] = r.header.country[0] + 256u * r.header.country[1] + 65536u * r.header.country[2];
    s->fields[4] = r.header.length;
    see_date(s->fields + 5, r.header.issued_on);
    see_date(s->fields + 8, r.header.signed_on);
    s->fields[11] = r.header.definition;
    s->fields[12] = r.header.category;
    s->fields[13] = r.ends.header;
    s->fields[14] = r.ends.message;
    s->fields[15] = r.ends.seal;
    s->fields[16] = r.signature.place;
    s->fields[17] = r.signature.length;
    s->fields[18] = r.count;
    s->fields[19] = r.front;
}

static void see_reason(seen *s, fr_reason r) {
    see(s, r.number, r.place, r.item);
    s->fields[3] = r.rule;
    s->fields[4] = r.judged.place;
    s->fields[5] = r.judged.length;
}

static void see_dated(seen *s, fr_dated d) {
    see(s, d.number, d.place, 0);
    see_date(s->fields + 3, d.date);
}

static void same_read(const uint8_t *seal, size_t n, size_t numbers, size_t room) {
    SAME(see_reading(s, m->read(seal, n, s->table, numbers, s->bytes, room)));
}

/* with room for every seal; the answer that is looked at behind it is the last one */
static void same_seal(const uint8_t *seal, size_t n) {
    same_walk(seal, n);
    same_read(seal, n, FR_TABLE_MOST, FR_TEXT_MOST);
    SAME(see_reading(s, m->judge(seal, n)));
    SAME(see_reason(s, m->why(seal, n)));
    met[got[0].fields[2] * RULES + got[0].fields[3]] = 1;
}

/* a good seal with a table exact, a row longer, a row shorter and all between, with one number less a feature, and with text room exact and one
   short */
static void same_rooms(const uint8_t *seal, size_t n, const given *g) {
    size_t exact = g->numbers, fewer = exact / FR_ROW * (FR_ROW - 1);
    for (size_t numbers = exact - FR_ROW; numbers <= exact + FR_ROW; numbers++) {
        same_read(seal, n, numbers, g->characters);
        expect(numbers < exact ? 12 : 0);
    }
    same_read(seal, n, fewer, g->characters);
    expect(12);
    same_read(seal, n, exact, g->characters - 1);
    expect(12);
}

/* the values that a byte is changed to */
const uint8_t others[OTHERS] = {0, 1, 3, 0x30, 0x7F, 0x80, 0x81, 0x82, 0xFA, 0xFE, 0xFF};

/* whole, cut short anywhere, with one more, with too little room, and with a byte changed before place `front` or in the last 140 */
static void same_seals(const given *g, size_t front) {
    static uint8_t seal[4200];
    size_t n = write_given(makers, g, seal).count;
    for (size_t k = 0; k <= n + 1; k++) same_seal(seal, k);
    same_rooms(seal, n, g);
    for (size_t i = 0; i < n; i++) {
        uint8_t kept = seal[i];
        if (i >= front && i + 140 < n) continue;
        for (size_t k = 0; k < OTHERS; k++) {
            seal[i] = others[k];
            same_seal(seal, n);
        }
        seal[i] = kept;
    }
    memset(seal, 0, sizeof seal);
    same_seal(seal, 4097);
}

/* pairs that are text of three characters, good or with a space, of two and of one, and pairs with each fault */
static const uint8_t pairs[][2] = {{0x59, 0xBF}, {0x13, 0x3C}, {0x59, 0xB1}, {0xFE, 0x42}, {0xFE, 0x21}, {0x5E, 0x65}, {0x24, 0x77},
                                   {0, 0},       {0xFA, 0x01}, {0, 1},       {0x57, 0xB7}, {0xFE, 0},    {0xFE, 0x41}, {0xFF, 0xFF}};
enum { PAIRS = sizeof pairs / sizeof *pairs };

/* one pair of country, names and reference, and one of the `reach` behind it, each replaced by each */
static void same_pairs(const given *g, size_t reach) {
    static uint8_t seal[4200], kept[4200];
    size_t n = write_given(makers, g, kept).count, end = g->header.version == 3 ? 10 : 8 + (g->header.length + 2) / 3 * 2;
    memcpy(seal, kept, n);
    for (size_t i = 2; i < end; i += 2)
        for (size_t k = i; k < end && k <= i + 2 * reach; k += 2) {
            for (size_t a = 0; a < PAIRS * PAIRS; a++) {
                memcpy(seal + i, pairs[a / PAIRS], 2);
                memcpy(seal + k, pairs[a % PAIRS], 2);
                same_seal(seal, n);
            }
            memcpy(seal, kept, n);
        }
}

/* the same in both versions, for references of 1 to 9 characters and of 255 */
static void same_names(void) {
    given three = given_typical(3), full = given_full();
    same_pairs(&three, 4);
    for (size_t size = 1; size < 10; size++) {
        given four = given_typical(4);
        four.header.length = size;
        four.characters = 4 + size;
        memcpy(four.text + 4, full.text + 4, size);
        same_pairs(&four, 4);
    }
    same_pairs(&full, 0);
}

/* the tag of row `last` replaced by each tag before it: 9 there; and by FF */
static void same_repeats(uint8_t *seal, size_t n, const size_t *table, size_t last) {
    size_t places[255], at;
    for (size_t i = 0; i < 255; i++) places[i] = table[FR_ROW * i + FR_ROW_TAG_PLACE];
    at = places[last];
    uint8_t kept = seal[at];
    for (size_t i = 0; i < last; i++) {
        seal[at] = seal[places[i]];
        same_seal(seal, n);
        expect(9);
    }
    seal[at] = 0xFF;
    same_seal(seal, n);
    seal[at] = kept;
}

/* tags in mixed orders, by steps that meet every tag, in both versions; the last one, or one on the way, repeats one at every distance before it */
static void same_orders(void) {
    static const size_t steps[] = {1, 2, 7, 64, 127, 191, 254};
    static uint8_t seal[4200], text[FR_TEXT_MOST];
    static size_t table[FR_TABLE_MOST];
    for (size_t version = 3; version <= 4; version++)
        for (size_t k = 0; k < sizeof steps / sizeof *steps; k++) {
            given g = given_typical(version);
            g.numbers = g.size = 0;
            for (size_t i = 0; i < 255; i++, g.numbers += FR_ROW) {
                size_t row[FR_ROW] = {(i * steps[k] + 5) % 255, 0, 0, i % 9};
                memcpy(g.rows + g.numbers, row, sizeof row);
            }
            g.size = 9;
            size_t n = write_given(makers, &g, seal).count;
            same_seal(seal, n);
            expect(0);
            makers->read(seal, n, table, FR_TABLE_MOST, text, FR_TEXT_MOST);
            same_repeats(seal, n, table, 254);
            same_repeats(seal, n, table, 100 + k);
        }
}

static void same_write(given g) { SAME(see_filled(s, write_given(m, &g, s->bytes))); }

/* one row over the first `size` values, whatever stands in them */
static void one_row(given *g, size_t size) {
    g->size = size;
    g->rows[FR_ROW_VALUE_PLACE] = 0;
    g->rows[FR_ROW_VALUE_LENGTH] = size;
    g->numbers = FR_ROW;
}

/* one value of every length to 300, written and read in both versions; in version 3 only to 255 */
static void same_lengths(void) {
    static uint8_t seal[FR_SEAL_MOST];
    for (size_t version = 3; version <= 4; version++)
        for (size_t size = 0; size <= 300; size++) {
            given g = given_typical(version);
            one_row(&g, size);
            same_write(g);
            expect(version == 3 && size > 255 ? 25 : 0);
            size_t n = write_given(makers, &g, seal).count;
            same_seal(seal, n);
            if (n) same_seal(seal, n - 1);
        }
}

/* written, with room from none to enough, and refused by each number from 20 to 28 */
static void same_writes(const given *g) {
    given b[9];
    same_write(*g);
    for (size_t i = 0; i < 9; i++) b[i] = *g;
    b[0].header.version = 5;
    b[1].text[g->characters - 1] = '<';
    b[2].header.signed_on = (fr_date){2, 30, 2000};
    b[3].header.category = 255;
    b[4].rows[FR_ROW + FR_ROW_TAG] = g->rows[FR_ROW_TAG];
    b[5].header.version = 3, b[5].header.length = 5, b[5].characters = 9, one_row(b + 5, 256);
    b[6].raw = 65;
    b[7].header.version = 4, one_row(b + 7, 4096);
    b[8].room = 149;
    for (size_t i = 0; i < 9; i++) {
        same_write(b[i]);
        expect(20 + i);
    }
    for (given one = *g; one.room-- > 0;) same_write(one);
}

/* tables of each length from none to one number past the rows: written where it is in whole rows, else 24 */
static void same_tables(const given *g) {
    given one = *g;
    for (one.numbers = 0; one.numbers <= g->numbers + 1; one.numbers++) {
        same_write(one);
        expect(one.numbers % FR_ROW == 0 ? 0 : 24);
    }
}

/* numbers of every size by chance as the places of the tags: the same seal */
static void same_tag_places(given g) {
    static uint8_t seal[FR_SEAL_MOST];
    size_t n = write_given(makers, &g, seal).count;
    for (unsigned round = 0; round < 64; round++) {
        for (size_t i = FR_ROW_TAG_PLACE; i < g.numbers; i += FR_ROW) {
            fill_bytes((uint8_t *)(g.rows + i), sizeof *g.rows);
            g.rows[i] >>= round;
        }
        same_write(g);
        expect(0);
        if (got[0].fields[2] != n || memcmp(got[0].bytes, seal, n)) fprintf(stderr, "bench: the tags' places change a seal\n"), exit(1);
    }
}

static void same_text(void) {
    static uint8_t text[6145], bytes[4098];
    fill_text(text, sizeof text);
    makers->c40_write(text, 6144, bytes, 4096);
    for (size_t n = 0; n <= 6145; n += n < 40 || n > 6000 ? 1 : 97) SAME(see_filled(s, m->c40_write(text, n, s->bytes, 4096)));
    for (size_t n = 0; n <= 4098; n += n < 40 || n > 4000 ? 1 : 96) SAME(see_filled(s, m->c40_read(bytes, n, s->bytes, 6144)));
    for (size_t room = 0; room < 20; room++) {
        SAME(see_filled(s, m->c40_write(text, 20, s->bytes, room)));
        SAME(see_filled(s, m->c40_read(bytes, 10, s->bytes, room)));
    }
    for (unsigned c = 0; c < 256; c++) {
        text[7] = (uint8_t)c;
        SAME(see_filled(s, m->c40_write(text, 9, s->bytes, 4096)));
    }
    for (unsigned pair = 0; pair < 65536; pair++) {
        bytes[4] = (uint8_t)(pair >> 8), bytes[5] = (uint8_t)pair;
        SAME(see_filled(s, m->c40_read(bytes, 6, s->bytes, 6144)));
        SAME(see_filled(s, m->c40_read(bytes, 8, s->bytes, 6144)));
    }
}

/* text of every length to 80, each character replaced at each place by strangers and by a space; then with too little room */
static void same_strangers(void) {
    static const uint8_t strangers[] = {0, ' ', '/', ':', '<', '@', '[', 'a', 0x7F, 0x80, 0xC1, 0xFF};
    uint8_t text[80];
    fill_text(text, sizeof text);
    for (size_t n = 0; n <= sizeof text; n++) {
        for (size_t room = 0; room <= (n + 2) / 3 * 2; room++) SAME(see_filled(s, m->c40_write(text, n, s->bytes, room)));
        for (size_t i = 0; i < n * sizeof strangers; i++) {
            uint8_t kept = text[i / sizeof strangers];
            text[i / sizeof strangers] = strangers[i % sizeof strangers];
            SAME(see_filled(s, m->c40_write(text, n, s->bytes, 4096)));
            text[i / sizeof strangers] = kept;
        }
    }
}

/* 2 to 80 bytes of C40 with too little room, and with each of the pairs above at each place and as the last too */
static void same_faults(void) {
    uint8_t text[120], bytes[80], kept[80];
    fill_text(text, sizeof text);
    makers->c40_write(text, sizeof text, kept, sizeof kept);
    for (size_t n = 2; n <= sizeof bytes; n += 2) {
        memcpy(bytes, kept, n);
        for (size_t room = 0; room <= n / 2 * 3; room++) SAME(see_filled(s, m->c40_read(bytes, n, s->bytes, room)));
        for (size_t i = 0; i < n; i += 2) {
            for (size_t a = 0; a < PAIRS * PAIRS; a++) {
                memcpy(bytes + n - 2, a % PAIRS ? pairs[a % PAIRS] : kept + n - 2, 2);
                memcpy(bytes + i, pairs[a / PAIRS], 2);
                if (a % PAIRS == 0 || n % 16 == 0) SAME(see_filled(s, m->c40_read(bytes, n, s->bytes, 6144)));
            }
            memcpy(bytes, kept, n);
        }
    }
}

static void same_dates(void) {
    static const size_t years[] = {0, 1, 4, 100, 400, 1900, 1957, 2000, 2004, 2100, 9996, 9999, 10000, SIZE_MAX};
    for (size_t number = 0; number < 17000000; number += 997) SAME(see_dated(s, m->date_from_number(number)));
    SAME(see_dated(s, m->date_from_number(SIZE_MAX)));
    for (size_t year = 0; year < 10000; year++)
        for (size_t day = 28; day < 32; day++) SAME(see_dated(s, m->date_from_number(2000000 + day * 10000 + year)));
    for (size_t month = 0; month < 15; month++)
        for (size_t day = 0; day < 34; day++)
            for (size_t y = 0; y < sizeof years / sizeof *years; y++) {
                fr_numbered a;
                SAME((a = m->date_to_number((fr_date){month, day, years[y]}), see(s, a.number, a.place, a.value)));
            }
}

static void same_integer(const uint8_t *bytes, size_t n) {
    fr_integer a;
    SAME((a = m->integer_read(bytes, n), see(s, a.number, a.place, (size_t)a.value)));
}

/* content of every size from none to 200 bytes, with a length of one byte or of two */
static void same_contents(void) {
    uint8_t bytes[203] = {0x02};
    for (size_t size = 0; size <= 200; size++) {
        size_t width = size < 0x80 ? 1 : 2;
        bytes[1] = size < 0x80 ? (uint8_t)size : 0x81;
        if (width == 2) bytes[2] = (uint8_t)size;
        bytes[1 + width] = 1;
        same_integer(bytes, 1 + width + size);
    }
}

static void same_integers(void) {
    uint8_t bytes[16] = {0};
    same_contents();
    for (unsigned bit = 0; bit < 64; bit++)
        for (int step = -2; step <= 2; step++) {
            int64_t value = (int64_t)(((uint64_t)1 << bit) + (uint64_t)step);
            for (size_t room = 0; room <= 10; room++) SAME(see_filled(s, m->integer_write(value, s->bytes, room)));
            size_t n = makers->integer_write(value, bytes, 10).count;
            for (size_t k = 0; k <= n + 1; k++) same_integer(bytes, k);
            for (size_t i = 0; i < n; i++)
                for (size_t k = 0; k < OTHERS; k++) {
                    uint8_t kept = bytes[i];
                    bytes[i] = others[k];
                    same_integer(bytes, n);
                    bytes[i] = kept;
                }
        }
}

static void same_signature(size_t n, const uint8_t *raw) {
    uint8_t der[144] = {0};
    for (size_t room = 0; room <= 2 * n + 9; room++) SAME(see_filled(s, m->signature_to_der(n, raw, 2 * n, s->bytes, room)));
    SAME(see_filled(s, m->signature_to_der(n, raw, 2 * n - 1, s->bytes, 144)));
    SAME(see_filled(s, m->signature_to_der(n + 1, raw, 2 * n, s->bytes, 144)));
    size_t size = makers->signature_to_der(n, raw, 2 * n, der, 144).count;
    for (size_t k = 0; k <= size + 1; k++) SAME(see_filled(s, m->signature_to_raw(n, der, k, s->bytes, 132)));
    for (size_t room = 0; room <= 2 * n; room++) SAME(see_filled(s, m->signature_to_raw(n, der, size, s->bytes, room)));
    SAME(see_filled(s, m->signature_to_raw(28, der, size, s->bytes, 132)));
    SAME(see_filled(s, m->signature_to_raw(29, der, size, s->bytes, 132)));
    for (size_t i = 0; i < size; i++)
        for (size_t k = 0; k < OTHERS; k++) {
            uint8_t kept = der[i];
            der[i] = others[k];
            SAME(see_filled(s, m->signature_to_raw(n, der, size, s->bytes, 132)));
            der[i] = kept;
        }
}

/* r with every number of leading zeros, s with some: to DER and back, and with the outer length in one byte more and in two */
static void same_zeros(size_t n, uint8_t *raw) {
    for (size_t k = 0; k <= n; k++) {
        uint8_t der[148] = {0}, more[148] = {0x30, 0x81, 0}, most[148] = {0x30, 0x82, 0, 0};
        memset(raw, 0, k);
        memset(raw + n, 0, k % 7);
        SAME(see_filled(s, m->signature_to_der(n, raw, 2 * n, s->bytes, 144)));
        size_t size = makers->signature_to_der(n, raw, 2 * n, der, 144).count, head = der[1] < 0x80 ? 2 : 3;
        more[2] = most[3] = der[head - 1];
        memcpy(more + 3, der + head, size - head);
        memcpy(most + 4, der + head, size - head);
        SAME(see_filled(s, m->signature_to_raw(n, der, size, s->bytes, 132)));
        SAME(see_filled(s, m->signature_to_raw(n, more, size - head + 3, s->bytes, 132)));
        SAME(see_filled(s, m->signature_to_raw(n, most, size - head + 4, s->bytes, 132)));
    }
}

static void same_signatures(void) {
    static const size_t n[] = {28, 32, 48, 64, 66};
    static const uint8_t zero[132];
    for (size_t i = 0; i < 5; i++) {
        signatures all = make_signatures(n[i]);
        for (size_t k = 0; k < SIGNATURES; k++) same_signature(n[i], all.raw[k]);
        same_signature(n[i], zero);
        same_zeros(n[i], all.raw[1]);
        same_zeros(n[i], all.raw[2]);
    }
    for (size_t k = 0; k < 100; k++) {
        fr_hashed a;
        SAME((a = m->hash(k), see(s, a.number, a.place, a.bits)));
    }
}

/* stops unless the seals that were sent broke every rule of every item: 42 of them */
static void all_met(void) {
    size_t count = 0;
    for (size_t k = 1; k < sizeof met; k++) count += met[k];
    if (count != 42 || !met[0]) fprintf(stderr, "bench: %zu rules of items and not 42\n", count), exit(1);
}

size_t compare_all(void) {
    given three = given_typical(3), four = given_typical(4), full = given_full();
    same_seals(&three, 150);
    same_seals(&four, 150);
    same_seals(&full, 260);
    same_names();
    same_orders();
    all_met();
    same_fronts();
    same_lengths();
    same_steps(&three);
    same_steps(&four);
    same_forms();
    same_shown(&three, &four, &full);
    same_writes(&three);
    same_writes(&four);
    same_write(full);
    same_tables(&three);
    same_tables(&four);
    same_tables(&full);
    same_tag_places(three);
    same_tag_places(four);
    same_tag_places(full);
    same_text();
    same_strangers();
    same_faults();
    same_dates();
    same_integers();
    same_signatures();
    return inputs;
}
