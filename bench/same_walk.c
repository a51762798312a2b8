/* The walk and the look-up by the three makers on the same inputs: every answer must be the same. */
#include "same.h"

static void see_step(seen *s, fr_step a) {
    see(s, a.number, a.place, a.tag);
    s->fields[3] = a.tag_place;
    s->fields[4] = a.value.place;
    s->fields[5] = a.value.length;
    s->fields[6] = a.at;
}

static void see_where(seen *s, fr_where a) {
    see(s, a.number, a.place, a.which);
    s->fields[3] = a.value.place;
    s->fields[4] = a.value.length;
}

/* the opening, the features as rows of a table, and the step that ends the walk */
static void see_walk(seen *s, const maker *m, const uint8_t *seal, size_t n) {
    fr_start start = m->walk_open(seal, n);
    fr_step step = m->walk_next(seal, n, start.at);
    for (size_t *row = s->table; step.number == 0 && row < s->table + FR_TABLE_MOST; row += FR_ROW) {
        row[FR_ROW_TAG] = step.tag;
        row[FR_ROW_TAG_PLACE] = step.tag_place;
        row[FR_ROW_VALUE_PLACE] = step.value.place;
        row[FR_ROW_VALUE_LENGTH] = step.value.length;
        step = m->walk_next(seal, n, step.at);
    }
    see_step(s, step);
    s->fields[7] = start.number;
    s->fields[8] = start.place;
    s->fields[9] = start.at;
}

void same_walk(const uint8_t *seal, size_t n) {
    SAME(see_walk(s, m, seal, n));
    expect(51);
}

static void same_step(const uint8_t *bytes, size_t n, size_t at) { SAME(see_step(s, m->walk_next(bytes, n, at))); }

/* whole and cut short anywhere, at the last places and past the end; a byte changed, as a tag and as a length; each
   second byte */
void same_steps(const given *g) {
    static uint8_t seal[4200];
    size_t n = write_given(makers, g, seal).count, start = makers->walk_open(seal, n).at;
    for (size_t at = 0; at <= n; at++) same_step(seal, n, at);
    for (size_t k = 0; k <= n; k++) {
        for (size_t at = k < 6 ? 0 : k - 6; at < k + 3; at++) same_step(seal, k, at);
        same_step(seal, k, SIZE_MAX - n + k);
    }
    for (size_t i = start; i < n; i++) {
        uint8_t kept = seal[i];
        for (size_t k = 0; k < OTHERS; k++) {
            seal[i] = others[k];
            same_step(seal, n, i);
            same_step(seal, n, i - 1);
        }
        seal[i] = kept;
    }
    for (unsigned version = 0; version < 256; version++) {
        seal[1] = (uint8_t)version;
        same_step(seal, n, start);
        if (version != 2 && version != 3) expect(51);
    }
}

/* lengths of each first byte and of some second and third, with as many bytes behind them as they need, or one less */
void same_forms(void) {
    static const size_t sizes[] = {3, 4, 5, 6, 7, 8, 131, 132, 133, 134, 135, 136, 261, 262, 263, 300};
    uint8_t bytes[300] = {0xDC, 2, 7};
    for (bytes[1] = 2; bytes[1] < 4; bytes[1]++)
        for (unsigned first = 0; first < 256; first++)
            for (size_t k = 0; k < OTHERS; k++) {
                bytes[3] = (uint8_t)first;
                bytes[4] = others[k];
                bytes[5] = others[(k + first) % OTHERS];
                for (size_t i = 0; i < sizeof sizes / sizeof *sizes; i++) same_step(bytes, sizes[i], 2);
            }
}

/* a look-up that gives this number */
static void same_look(const uint8_t *seal, size_t n, const uint8_t *behind, size_t k, size_t tag, size_t number) {
    SAME(see_where(s, m->shown(seal, n, behind, k, tag)));
    expect(number);
}

/* a seal with a first value of 200 bytes, whose length begins with 81 in version 4 alone */
static given with_long(const given *g) {
    given one = *g;
    one.size = 200;
    one.rows[FR_ROW_VALUE_PLACE] = 0;
    one.rows[FR_ROW_VALUE_LENGTH] = one.size;
    return one;
}

/* tags 1, 2 and 3 are in every seal, all up to 254 in the last alone, and the others in none */
void same_shown(const given *three, const given *four, const given *full) {
    enum { SEALS = 5 };
    static uint8_t seals[SEALS][4200];
    given long_three = with_long(three), long_four = with_long(four);
    const given *all[SEALS] = {three, four, &long_three, &long_four, full};
    size_t n[SEALS];
    for (size_t i = 0; i < SEALS; i++) n[i] = write_given(makers, all[i], seals[i]).count;
    for (size_t i = 0; i < SEALS * SEALS; i++) {
        size_t front = i / SEALS, back = i % SEALS, most = front == SEALS - 1 || back == SEALS - 1 ? 254 : 3;
        const uint8_t *seal = seals[front], *behind = seals[back];
        for (size_t tag = most == 3; tag < 300; tag++)
            same_look(seal, n[front], behind, n[back], tag, tag <= most ? 0 : 50);
        same_look(seal, n[front], behind, n[back], SIZE_MAX - 253, 50);
        same_look(seal, n[front] - 1, behind, n[back], 1, 2);
        same_look(seal, n[front], behind, n[back] + 1, 1, n[back] == FR_SEAL_MOST ? 1 : 11);
        same_look(seal, 1, behind, 0, 1, 2);
    }
}
