/*
 * Fuzzing of the front part of every input. A seal that begins with given bytes is sought: the item that ends too early
 * is completed, in every way where it matters in which, by as few bytes as can be, and so is each that follows, until
 * fr_judge takes the whole. There is one for the front part, and none for the front part with a byte more of the input.
 */
#ifndef FRONT_H
#define FRONT_H

static size_t any(void); /* numbers of any size that the input chooses (face.c) */

/* How far from its place an item's hopeless byte was: before it, then 0, 1 and so on; the fuzzer follows that too. */
enum { OFFSETS = 8 };
static unsigned long offsets[ITEMS * OFFSETS];
__attribute__((used, section("__libfuzzer_extra_counters"))) static volatile uint8_t met_offsets[ITEMS * OFFSETS];

static void tell_offsets(void) {
    fprintf(stderr, "items and hopeless bytes from the place on (- before it):");
    for (size_t i = 0; i < ITEMS * OFFSETS; i++) {
        if (offsets[i] == 0) continue;
        if (i % OFFSETS == 0) fprintf(stderr, " %zu-:%lu", i / OFFSETS, offsets[i]);
        else fprintf(stderr, " %zu+%zu:%lu", i / OFFSETS, i % OFFSETS - 1, offsets[i]);
    }
    fprintf(stderr, "\n");
}

static void met_at(fr_reason w, size_t front) {
    size_t offset = front < w.place ? 0 : front - w.place < OFFSETS - 2 ? front - w.place + 1 : OFFSETS - 1;
    offsets[w.item * OFFSETS + offset]++;
    met_offsets[w.item * OFFSETS + offset] = 1;
}

/* What the bytes sought have grown to, with zeros behind. */
static uint8_t grown[2 * FR_SEAL_MOST];

/* Whether the item that was cut keeps its rules in the first `size` bytes, where it is whole. */
static int is_kept(fr_reason w, size_t size) {
    fr_reason now = fr_why(grown, size);
    return now.number == 0 || (now.number == 2 && now.item != w.item);
}

/* Two bytes of a text that has so many, at an even place in it: characters that can stand there. */
static const uint8_t *pair_of(size_t item, size_t at, size_t width) {
    static const uint8_t names[] = {0xD9, 0xB7, 0x5E, 0x66, 0x19, 0xA6}; /* UTAB01001 */
    static const uint8_t country[] = {0xD9, 0xC5}, ends[][2] = {{0x59, 0xBF}, {0xFE, 0x42}, {0x59, 0xB1}};
    if (item == FR_ITEM_COUNTRY) return country;
    if (item != FR_ITEM_REFERENCE) return names + at;
    return ends[at + 2 < width ? 0 : reference_length(grown) % 3]; /* AAA, or a last one of A or AA */
}

/* A text: of a pair that is cut each second byte is tried. Gives its end, or 0. */
static size_t grow_text(fr_reason w, size_t size) {
    size_t width = width_of(w.item, grown), end = w.place + width, at = size + size % 2;
    for (; at < end; at += 2) memcpy(grown + at, pair_of(w.item, at - w.place, width), 2);
    for (size_t second = 0; size % 2 == 1 && second < 256; second++) {
        grown[size] = (uint8_t)second;
        if (is_kept(w, end)) return end;
    }
    return size % 2 == 0 && is_kept(w, end) ? end : 0;
}

/* The number of a day for each two bytes that one begins with, and for each one byte; else 0. All are asked once. */
static uint32_t days_by_two[65536], days_by_one[256];

__attribute__((no_sanitize("coverage"))) static void find_days(void) {
    for (uint32_t number = 0; number < 1u << 24; number++)
        if (fr_date_from_number(number).number == 0) days_by_two[number >> 8] = days_by_one[number >> 16] = number;
}

/* A date: any day that begins with its bytes. */
static size_t grow_date(fr_reason w, size_t size) {
    const uint8_t *s = grown + w.place;
    size_t there = size - w.place, first = 1010001;
    size_t day = there == 0 ? first : there == 1 ? days_by_one[s[0]] : days_by_two[s[0] << 8 | s[1]];
    for (size_t i = 0; i < 3; i++) grown[w.place + i] = (uint8_t)(day >> (16 - 8 * i));
    return day == 0 ? 0 : w.place + 3;
}

/* A value is zeros from here on. Where it ends is sought by halves: a longer input is cut elsewhere, or not at all. */
static size_t grow_value(fr_reason w, size_t size) {
    size_t cut = size, whole = FR_SEAL_MOST + 1;
    while (whole - cut > 1) {
        size_t half = cut + (whole - cut) / 2;
        fr_reason now = fr_why(grown, half);
        if (now.number == 2 && now.item == FR_ITEM_VALUE && now.place == w.place) cut = half;
        else whole = half;
    }
    return whole;
}

/* The next byte of a length of which `there` are there: the least that it can say. */
static uint8_t length_byte(fr_reason w, size_t there) {
    int signature = w.item == FR_ITEM_SIGNATURE_LENGTH;
    if (there == 0) return signature ? 56 : 0;
    return grown[w.place] == 0x81 ? 0x80 : there == 1;
}

/* Completes the item that is cut, a length by a byte. Gives its end; 0, or a place past a seal's, if it cannot be. */
static size_t grow(fr_reason w, size_t size) {
    static const uint8_t bytes[ITEMS] = {[FR_ITEM_MARK] = 0xDC, [FR_ITEM_VERSION] = 2, [FR_ITEM_DEFINITION] = 1,
                                         [FR_ITEM_CATEGORY] = 1, [FR_ITEM_TAG] = 0xFF};
    if (is_text(w.item)) return grow_text(w, size);
    if (is_date(w.item)) return grow_date(w, size);
    if (w.item == FR_ITEM_VALUE) return grow_value(w, size);
    if (w.item == FR_ITEM_SIGNATURE) return w.place + grown[w.place - 1]; /* its length's last byte is its size */
    grown[size] = is_length(w.item) ? length_byte(w, size - w.place) : bytes[w.item];
    return size + 1;
}

/* Whether a seal is found that begins with these bytes. */
static int begins_seal(const uint8_t *bytes, size_t size) {
    fr_reason w;
    if (size > FR_SEAL_MOST) return 0;
    memset(grown, 0, sizeof grown);
    if (size != 0) memcpy(grown, bytes, size);
    for (w = fr_why(grown, size); w.number == 2; w = fr_why(grown, size)) {
        size = grow(w, size);
        if (size == 0 || size > FR_SEAL_MOST) return 0;
    }
    return w.number == 0 && fr_judge(grown, size).number == 0;
}

/* The input with other bytes behind its first `count`. */
static const uint8_t *changed_behind(const uint8_t *bytes, size_t size, size_t count) {
    static uint8_t copy[2 * FR_SEAL_MOST];
    memcpy(copy, bytes, size);
    for (size_t i = count; i < size; i++) copy[i] = (uint8_t)(any() % 3 == 0 ? any() : copy[i]);
    return copy;
}

/*
 * A good seal is its own front part. Every other input has one with which some seal begins, which is its own too; and
 * with a byte more of the input none does, whatever stands behind that byte.
 */
static void fronted(fr_reading r, const uint8_t *seal, size_t size) {
    fr_reading part = fr_judge(seal, r.front);
    MUST(r.front <= size && r.front <= FR_SEAL_MOST && (r.number != 0 || r.front == size));
    MUST(part.front == r.front && (part.number == 0 || part.number == 2));
    if (r.number == 0) return;
    met_at(fr_why(seal, size), r.front);
    MUST(begins_seal(seal, r.front));
    if (r.front == size) return;
    MUST(!begins_seal(seal, r.front + 1));
    MUST(fr_judge(seal, r.front + 1).front == r.front);
    MUST(fr_judge(seal, r.front + any() % (size - r.front + 1)).front == r.front);
    MUST(fr_judge(changed_behind(seal, size, r.front + 1), size).front == r.front);
}

/* What a fuzzer seldom makes of a seal: headers with two bytes drawn, and features with little room behind them. */
static uint8_t made_up[FR_SEAL_MOST + 1];

/* A good header, of version 3, or of 4 with a reference that ends in two characters or is one; gives where it ends. */
static size_t put_header(void) {
    static const uint8_t headers[][20] = {
        {0xDC, 2, 0xD9, 0xC5, 0xD9, 0xB7, 0x5E, 0x65, 0x19, 0xA6, 0x31, 0x9E, 0xF5, 0x31, 0x9E, 0xF5, 1, 2},
        {0xDC, 3, 0xD9, 0xC5, 0xD9, 0xB7, 0x5E, 0x6A, 0x19, 0xA5, 0x19, 0xC9, 0x31, 0x9E, 0xF5, 0x31, 0x9E, 0xF5,
         1, 2},
        {0xDC, 3, 0xD9, 0xC5, 0xD9, 0xB7, 0x5E, 0x66, 0xFE, 0x38, 0x31, 0x9E, 0xF5, 0x31, 0x9E, 0xF5, 1, 2}};
    size_t which = any() % 3;
    memset(made_up, 0, sizeof made_up);
    memcpy(made_up, headers[which], sizeof *headers);
    return which == 1 ? 20 : 18;
}

static void fronted_up_to(size_t size) { fronted(fr_judge(made_up, size), made_up, size); }

/* Two bytes of a header drawn, with none behind them or all. */
static void drawn_header(void) {
    size_t end = put_header(), at = any() % (end - 1);
    for (size_t i = 0; i < 2; i++) made_up[at + i] = (uint8_t)(any() >> 8 * (any() % 8));
    fronted_up_to(any() % 2 == 0 ? at + 1 + any() % 2 : end);
}

/* Features up to about the last place for a tag, a length of each form or a signature of each size; and then those. */
static void crowded(void) {
    static const uint16_t last[] = {3522, 3778, 3907, 3961, 3965, 3998, 4030, 4036, 4038};
    static const uint8_t next[] = {0, 1, 2, 0x38, 0x40, 0x60, 0x7F, 0x80, 0x81, 0x82, 0x84, 0xFF};
    size_t at = put_header(), end = last[any() % (sizeof last / sizeof *last)] + any() % 5 - 2;
    for (uint8_t tag = 100; at < end; tag++) {
        size_t left = end - at - 2, size = left < 120 ? left : left < 122 ? 100 : 120;
        made_up[at] = tag;
        made_up[at + 1] = (uint8_t)size;
        at += 2 + size;
    }
    made_up[at] = any() % 2 == 0 ? 5 : 0xFF;
    for (size_t i = 1; i < 4; i++) made_up[at + i] = any() % 4 == 0 ? (uint8_t)any() : next[any() % sizeof next];
    fronted_up_to(any() % 2 == 0 ? at + 1 + any() % 4 : FR_SEAL_MOST + any() % 2);
}

#endif
