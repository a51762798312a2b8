/*
 * Fuzzing of the walk and of the look-up. The walk over a seal gives the rows of fr_read, a step at any place gives
 * what the bytes there say, and a look-up finds what the rows of its two seals say.
 */
#ifndef WALK_H
#define WALK_H

static int is_step(fr_step s, size_t tag, size_t tag_place, size_t place, size_t length) {
    return s.number == 0 && s.place == 0 && s.tag == tag && s.tag_place == tag_place && s.value.place == place
        && s.value.length == length && s.at == place + length;
}

static int is_end(fr_step s) {
    return s.number == FR_WALK_END && s.place == 0 && s.tag == 0 && s.tag_place == 0 && s.value.place == 0
        && s.value.length == 0 && s.at == 0;
}

/* How wide the length at the head of so many bytes is, and what it says; 0 where there is none. */
static size_t length_at(const uint8_t *bytes, size_t left, int plain, size_t *length) {
    if (left == 0) return 0;
    *length = bytes[0];
    if (plain || bytes[0] < 0x80) return 1;
    if (bytes[0] == 0x80 || bytes[0] > 0x84 || left < bytes[0] - 0x7Fu || bytes[1] == 0) return 0;
    *length = 0;
    for (size_t i = 1; i <= bytes[0] - 0x80u; i++) *length = *length << 8 | bytes[i];
    return *length < 0x80 ? 0 : bytes[0] - 0x7Fu;
}

/* A step at any place of the bytes. */
static fr_step step_at(const uint8_t *bytes, size_t size, size_t at) {
    size_t length, width = 0;
    fr_step s = fr_walk_next(bytes, size, at);
    seen(STEP, s.number, s.number == 0 ? s.value.length : at);
    if (at != 0 && at < size && size > 1 && bytes[at] != 0xFF && (bytes[1] == 2 || bytes[1] == 3))
        width = length_at(bytes + at + 1, size - at - 1, bytes[1] == 2, &length);
    if (width == 0 || length > size - at - 1 - width) MUST(is_end(s));
    else MUST(is_step(s, bytes[at], at, at + 1 + width, length));
    return s;
}

/* The walk over a seal: its rows, and then five times no more. One that is refused has no rows, and opens none. */
static void walked(fr_reading r, const uint8_t *seal, size_t size, const size_t *row) {
    fr_start start = fr_walk_open(seal, size);
    size_t at = start.at;
    MUST(start.number == r.number && start.place == r.place && at == r.ends.header);
    if (r.number == 0) seen(WALK, 0, r.count);
    for (size_t i = 0; i < r.count; i++, row += FR_ROW) {
        fr_step s = step_at(seal, size, at);
        MUST(is_step(s, row[FR_ROW_TAG], row[FR_ROW_TAG_PLACE], row[FR_ROW_VALUE_PLACE], row[FR_ROW_VALUE_LENGTH]));
        at = s.at;
    }
    for (size_t i = 0; i < 5; i++) {
        fr_step s = fr_walk_next(seal, size, at);
        MUST(is_end(s));
        at = s.at;
    }
}

/* Steps at places of all kinds: in the bytes, about their end, and anywhere. */
static void strayed(const uint8_t *bytes, size_t size) {
    for (size_t i = 0; i < 8; i++) {
        step_at(bytes, size, size == 0 ? 0 : any() % size);
        step_at(bytes, size, any());
    }
    for (size_t i = 0; i < 6; i++) step_at(bytes, size, size + 2 - i);
    step_at(bytes, size, SIZE_MAX - any() % (size + 8));
}

/* The main seal and its extension, each as it is lent, with its reading and rows. */
static struct hung {
    const uint8_t *bytes;
    size_t size, rows[FR_TABLE_MOST];
    fr_reading r;
} hung[FR_EXTENSION + 1];

static void hang(size_t which, int room, const uint8_t *bytes, size_t size) {
    static uint8_t text_room[FR_TEXT_MOST];
    struct hung *h = &hung[which];
    h->bytes = (const uint8_t *)lend(room, bytes, size);
    h->size = size;
    h->r = fr_read(h->bytes, size, h->rows, FR_TABLE_MOST, text_room, sizeof text_room);
}

/* What the look-up of a tag answers, by the two readings. */
static fr_where by_rows(size_t tag) {
    fr_where w;
    memset(&w, 0, sizeof w);
    for (w.which = FR_MAIN; w.which <= FR_EXTENSION; w.which++) {
        w.number = hung[w.which].r.number;
        w.place = hung[w.which].r.place;
        if (w.number != 0) return w;
    }
    for (w.which = FR_EXTENSION; w.which >= FR_MAIN; w.which--)
        for (size_t i = 0; i < FR_ROW * hung[w.which].r.count; i += FR_ROW) {
            const size_t *row = hung[w.which].rows + i;
            w.value.place = row[FR_ROW_VALUE_PLACE];
            w.value.length = row[FR_ROW_VALUE_LENGTH];
            if (row[FR_ROW_TAG] == tag) return w;
        }
    memset(&w, 0, sizeof w);
    w.number = FR_NO_FEATURE;
    return w;
}

static void look_up(size_t tag) {
    const struct hung *first = &hung[FR_MAIN], *second = &hung[FR_EXTENSION];
    fr_where w = fr_shown(first->bytes, first->size, second->bytes, second->size, tag), want = by_rows(tag);
    seen(SHOWN, w.number, w.number == 0 ? w.value.length : w.place);
    MUST(memcmp(&w, &want, sizeof w) == 0 && kept(SEAL, 0) && kept(SECOND, 0));
    MUST(w.number != 12 && (tag < 255 || w.number != 0));
}

/* Tags of either seal, any byte, and any number. */
static void look_ups(void) {
    for (size_t which = FR_MAIN; which <= FR_EXTENSION; which++)
        if (hung[which].r.count != 0) look_up(hung[which].rows[FR_ROW * (any() % hung[which].r.count) + FR_ROW_TAG]);
    look_up(any() % 256);
    look_up(any());
}

/* Two byte strings, each as the main seal of the other; and then the first as its own extension, in one buffer. */
static void hung_up(const uint8_t *one, size_t one_size, const uint8_t *other, size_t other_size) {
    hang(FR_MAIN, SEAL, one, one_size);
    hang(FR_EXTENSION, SECOND, other, other_size);
    look_ups();
    hang(FR_MAIN, SEAL, other, other_size);
    hang(FR_EXTENSION, SECOND, one, one_size);
    look_ups();
    hang(FR_MAIN, SEAL, one, one_size);
    hung[FR_EXTENSION] = hung[FR_MAIN];
    look_ups();
}

#endif
