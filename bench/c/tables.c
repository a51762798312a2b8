/* Fills the tables of C40 before main, so that no call pays for it. */
#include "tables.h"
#include "letters.h"

uint32_t c_pairs[65536], c_first[256], c_second[256], c_third[256];
uint8_t c_kinds[65536], c_begins[256];

static const uint8_t chart[40] = "\0\0\0 0123456789ABCDEFGHIJKLMNOPQRSTUVWXYZ";

static uint32_t entry_of_triple(unsigned number) {
    unsigned a = (number - 1) / 1600, b = (number - 1) / 40 % 40, c = (number - 1) % 40;
    if (a < 3 || b < 3 || c == 1 || c == 2) return 46;
    uint32_t two = chart[a] | (uint32_t)chart[b] << 8;
    return c == 0 ? two | 2u << 24 : two | (uint32_t)chart[c] << 16 | 3u << 24;
}

static uint32_t entry_of(unsigned number) {
    unsigned code = (number & 0xFF) - 1;
    if (number >= 1 && number <= 64000) return entry_of_triple(number);
    if (number >> 8 != 0xFE) return 41;
    return code > 255 || c_third[code] & STRANGER ? 47 : code | 1u << 24;
}

static int is_country(uint8_t a, uint8_t b, uint8_t c) {
    return is_letter(a) && (is_letter(b) ? is_letter(c) || c == ' ' : b == ' ' && c == ' ');
}

static unsigned kinds_of(uint32_t entry) {
    uint8_t t[] = {(uint8_t)entry, (uint8_t)(entry >> 8), (uint8_t)(entry >> 16), 'A'};
    size_t count = count_of(entry), high = hex_value(t[1]), low = hex_value(t[2]);
    if (count == 3) {
        unsigned kinds = all_reference(t, 3) ? THREE : 0;
        if (is_country(t[0], t[1], t[2])) kinds |= COUNTRY;
        if (is_signer(t)) kinds |= SIGNER;
        if (is_reference(t[0]) && high < 16 && low < 16 && high + low > 0) kinds |= LENGTH;
        return kinds;
    }
    return count == 0 || !all_reference(t, count) ? 0 : count == 2 ? TWO : ONE;
}

__attribute__((constructor)) static void fill(void) {
    for (unsigned c = 0; c < 256; c++) c_first[c] = c_second[c] = c_third[c] = STRANGER;
    for (unsigned value = 3; value < 40; value++) {
        c_first[chart[value]] = 1600 * value;
        c_second[chart[value]] = 40 * value;
        c_third[chart[value]] = value + 1;
    }
    for (unsigned number = 0; number < 65536; number++) {
        uint16_t bits = __builtin_bswap16((uint16_t)number);
        c_pairs[bits] = entry_of(number);
        c_kinds[bits] = (uint8_t)kinds_of(c_pairs[bits]);
        c_begins[number >> 8] |= c_kinds[bits];
    }
}
