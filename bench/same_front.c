/* The front part by the three makers on inputs that are made for it: every pair at each kind of place, dates, and lengths and signatures where
   room for them begins to be wanting. */
#include "same.h"

static void same_judge(const uint8_t *seal, size_t n) { SAME(see_reading(s, m->judge(seal, n))); }

/* every pair from a place on, with nothing behind it */
static void same_pairs_at(uint8_t *seal, size_t at) {
    for (unsigned pair = 0; pair < 65536; pair++) {
        seal[at] = (uint8_t)(pair >> 8);
        seal[at + 1] = (uint8_t)pair;
        same_judge(seal, at + 2);
    }
}

/* a country, three characters of a signer, three of a reference; in version 4 its length too, and references that end in two and in one */
static void same_kinds(void) {
    static const struct {
        size_t version, reference, at;
    } kinds[] = {{3, 5, 2}, {3, 5, 4}, {3, 5, 6}, {3, 5, 8}, {4, 5, 6}, {4, 5, 8}, {4, 5, 10}, {4, 1, 8}, {4, 4, 10}};
    static uint8_t seal[4200];
    for (size_t i = 0; i < sizeof kinds / sizeof *kinds; i++) {
        given g = given_typical(kinds[i].version);
        g.header.length = kinds[i].reference;
        g.characters = 4 + kinds[i].reference;
        write_given(makers, &g, seal);
        same_pairs_at(seal, kinds[i].at);
    }
}

/* the two dates, by every first and second byte with none, or with the least, the greatest or some other, behind them */
static void same_date_bytes(void) {
    static const uint8_t third[] = {0, 0x80, 0xFF, 0x1F, 0xBC};
    static uint8_t seal[4200];
    given g = given_typical(3);
    for (size_t at = 10; at < 16; at += 3) {
        write_given(makers, &g, seal);
        for (unsigned pair = 0; pair < 65536; pair++) {
            seal[at] = (uint8_t)(pair >> 8);
            seal[at + 1] = (uint8_t)pair;
            if (pair % 256 == 0) same_judge(seal, at + 1);
            same_judge(seal, at + 2);
            seal[at + 2] = third[pair % sizeof third];
            same_judge(seal, at + 3);
        }
    }
}

/* a header, and features behind it that end at a place, with tags from 100 on; zeros follow */
static void lay(uint8_t *seal, size_t version, size_t end) {
    given g = given_typical(version);
    size_t at = makers->judge(seal, write_given(makers, &g, seal).count).ends.header;
    memset(seal + at, 0, 4200 - at);
    for (uint8_t tag = 100; at < end; tag++) {
        size_t left = end - at - 2, size = left < 120 ? left : left < 122 ? 100 : 120;
        seal[at] = tag;
        seal[at + 1] = (uint8_t)size;
        at += 2 + size;
    }
}

/* a tag there, new or used, and lengths of every form; then FF, and signature lengths; with nothing behind, and with more than a seal has */
static void same_place(uint8_t *seal, size_t at) {
    static const uint8_t tags[] = {5, 100, 0xFF};
    for (size_t i = 0; i < sizeof tags; i++)
        for (unsigned byte = 0; byte < 256; byte++) {
            seal[at] = tags[i];
            seal[at + 1] = (uint8_t)byte;
            same_judge(seal, at + 1);
            same_judge(seal, at + 2);
            same_judge(seal, 4100);
            seal[at + 1] = 0x81;
            seal[at + 2] = (uint8_t)byte;
            same_judge(seal, at + 3);
            same_judge(seal, 4100);
            seal[at + 1] = 0x82;
            seal[at + 2] = others[byte % OTHERS] % 4;
            seal[at + 3] = (uint8_t)byte;
            same_judge(seal, at + 4);
            memset(seal + at, 0, 4);
        }
}

/* about the last place for a length that begins with 82, one that begins with 81, each size of signature, and a tag */
static void same_rooms_at_end(void) {
    static const size_t last[] = {3778, 3907, 3961, 3965, 3998, 4030, 4036, 4038};
    static uint8_t seal[4200];
    for (size_t version = 3; version <= 4; version++)
        for (size_t i = 0; i < sizeof last / sizeof *last; i++)
            for (size_t at = last[i] - 2; at <= last[i] + 2; at++) {
                lay(seal, version, at);
                same_place(seal, at);
            }
}

void same_fronts(void) {
    same_kinds();
    same_date_bytes();
    same_rooms_at_end();
}
