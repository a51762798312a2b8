/* C written for speed, for fr_read and fr_judge: item by item in one way for good and refused seals; a bit a tag tells whether it was used; text
   through the table of pairs; once all is judged a second walk, which tests nothing, writes the rows, and the text goes by memcpy. How far a
   refused seal is good is reckoned by another walk (front.c), which a good one does not need. */
#include "days.h"
#include "front.h"
#include "letters.h"
#include "tables.h"

typedef struct { size_t place; } cursor;
/* an item that is read, one that is cut short (2), and one with its own number, whose value is how far into it the fault is */
typedef enum { READ, CUT, WRONG } kind;
typedef struct { kind kind; size_t value; cursor next; } item;
typedef struct { size_t number, place; } refusal;

static const item cut_item = {CUT, 0, {0}}, wrong_item = {WRONG, 0, {0}};

static item is(size_t value, size_t next) { return (item){READ, value, {next}}; }

static item wrong_at(size_t offset) { return (item){WRONG, offset, {0}}; }

static refusal why(item i, size_t own, size_t place) { return (refusal){i.kind == CUT ? 2 : own, i.kind == WRONG ? place + i.value : place}; }

static item skip(cursor at, size_t n, size_t size) {
    if (n < at.place || n - at.place < size) return cut_item;
    return is(0, at.place + size);
}

static item byte_at(cursor at, const uint8_t *s, size_t n) {
    if (n <= at.place) return cut_item;
    return is(s[at.place], at.place + 1);
}

static item last_at(cursor at, const uint8_t *s, size_t n) {
    item b = byte_at(at, s, n);
    if (b.kind != READ) return b;
    return b.value == 0 || b.value == 255 ? wrong_item : b;
}

static item date_at(cursor at, const uint8_t *s, size_t n, fr_date *d) {
    item w = skip(at, n, 3);
    if (w.kind != READ) return w;
    size_t v = s[at.place] * 65536u + s[at.place + 1] * 256u + s[at.place + 2];
    *d = (fr_date){v / 1000000, v / 10000 % 100, v % 10000};
    return is_day(*d) ? w : wrong_item;
}

static item der_length(cursor at, const uint8_t *s, size_t n) {
    static const size_t least[] = {0, 0x80, 0x100, 0x10000, 0x1000000};
    item b = byte_at(at, s, n);
    if (b.kind != READ || b.value < 0x80) return b;
    if (b.value == 0x80 || b.value >= 0x85) return wrong_item;
    size_t k = b.value - 0x80, value = 0;
    if (n - b.next.place < k) return cut_item;
    for (size_t i = 0; i < k; i++) value = value * 256 + s[b.next.place + i];
    return value < least[k] ? wrong_item : is(value, b.next.place + k);
}

static item feature_length(cursor at, const uint8_t *s, size_t n, size_t version) {
    return version == 3 ? byte_at(at, s, n) : der_length(at, s, n);
}

/* C40 of exactly so many characters, which then stand in text: else wrong at the first pair that is wrongly coded, or at the last, as it does not fit */
static item field(cursor at, const uint8_t *s, size_t n, uint8_t *text, size_t size) {
    size_t width = (size + 2) / 3 * 2;
    item w = skip(at, n, width);
    if (w.kind != READ) return w;
    fr_filled f = text_of(s + at.place, width, text, size);
    if (f.number == 0 && f.count == size) return w;
    return wrong_at(f.number == 0 || f.number == 42 ? width - 2 : f.place);
}

static item country_at(cursor at, const uint8_t *s, size_t n, uint8_t *t) {
    item f = field(at, s, n, t, 3);
    if (f.kind != READ) return f;
    if (!is_letter(t[0])) return wrong_item;
    if (is_letter(t[1]) ? !is_letter(t[2]) && t[2] != ' ' : t[1] != ' ' || t[2] != ' ') return wrong_item;
    if (t[1] == ' ') t[1] = '<';
    if (t[2] == ' ') t[2] = '<';
    return f;
}

/* signer and reference at the start of text, and the reference's length as the item's value */
static item names_at(cursor at, const uint8_t *s, size_t n, size_t version, uint8_t *text, refusal *r) {
    if (version == 3) {
        item f = field(at, s, n, text, 9);
        if (f.kind == READ && !(is_signer(text) && all_reference(text + 4, 5))) f = wrong_item;
        *r = why(f, 5, at.place);
        return f.kind == READ ? is(5, f.next.place) : f;
    }
    item f = field(at, s, n, text, 6);
    size_t high = hex_value(text[4]), low = hex_value(text[5]);
    if (f.kind == READ && (!is_signer(text) || high == 16 || low == 16 || high + low == 0)) f = wrong_item;
    *r = why(f, 5, at.place);
    if (f.kind != READ) return f;
    size_t size = high * 16 + low;
    item g = field(f.next, s, n, text + 4, size);
    if (g.kind == READ && !all_reference(text + 4, size)) g = wrong_item;
    *r = why(g, 5, f.next.place);
    return g.kind == READ ? is(size, g.next.place) : g;
}

/* how many there are, and the place of FF */
static item features_at(cursor at, const uint8_t *s, size_t n, size_t version, refusal *r) {
    uint64_t used[4] = {0};
    size_t count = 0;
    for (;;) {
        item tag = byte_at(at, s, n);
        if (tag.kind != READ) return *r = why(tag, 2, at.place), tag;
        if (tag.value == 0xFF) return is(count, at.place);
        uint64_t bit = (uint64_t)1 << (tag.value & 63), *word = used + (tag.value >> 6);
        if (*word & bit) return *r = (refusal){9, at.place}, wrong_item;
        *word |= bit;
        item length = feature_length(tag.next, s, n, version);
        if (length.kind != READ) return *r = why(length, 8, tag.next.place), length;
        item value = skip(length.next, n, length.value);
        if (value.kind != READ) return *r = why(value, 2, length.next.place), value;
        count++;
        at = value.next;
    }
}

/* the rows of features that were judged, with no test left to make */
static void put_rows(size_t at, const uint8_t *s, size_t version, size_t count, size_t *row) {
    for (; count-- > 0; row += FR_ROW) {
        size_t size = s[at + 1], value = at + 2;
        if (version == 4 && size >= 0x80) {
            size_t k = size - 0x80;
            for (size = 0; k-- > 0;) size = size * 256 + s[value++];
        }
        row[FR_ROW_TAG] = s[at];
        row[FR_ROW_TAG_PLACE] = at;
        row[FR_ROW_VALUE_PLACE] = value;
        row[FR_ROW_VALUE_LENGTH] = size;
        at = value + size;
    }
}

static item signature_at(cursor at, const uint8_t *s, size_t n, refusal *r) {
    item length = der_length(at, s, n);
    if (length.kind != READ) return *r = why(length, 8, at.place), length;
    size_t v = length.value;
    if (v != 56 && v != 64 && v != 96 && v != 128 && v != 132) return *r = (refusal){10, at.place}, wrong_item;
    item bytes = skip(length.next, n, v);
    if (bytes.kind != READ) return *r = why(bytes, 2, length.next.place), bytes;
    if (bytes.next.place < n) return *r = (refusal){11, bytes.next.place}, wrong_item;
    return length;
}

static fr_reading refuse(refusal r) { return (fr_reading){.number = r.number, .place = r.place}; }

static fr_reading judge(const uint8_t *s, size_t n, uint8_t *names) {
    fr_reading a = {0};
    refusal r = {0, 0};
    if (n > 4096) return refuse((refusal){1, 4096});
    cursor at = {0};
    item i = byte_at(at, s, n);
    if (i.kind != READ || i.value != 0xDC) return refuse(why(i, 3, at.place));
    at = i.next;
    i = byte_at(at, s, n);
    if (i.kind != READ || (i.value != 2 && i.value != 3)) return refuse(why(i, 4, at.place));
    a.header.version = i.value + 1;
    at = i.next;
    if ((i = country_at(at, s, n, a.header.country)).kind != READ) return refuse(why(i, 5, at.place));
    if ((i = names_at(i.next, s, n, a.header.version, names, &r)).kind != READ) return refuse(r);
    a.header.length = i.value;
    at = i.next;
    if ((i = date_at(at, s, n, &a.header.issued_on)).kind != READ) return refuse(why(i, 6, at.place));
    at = i.next;
    if ((i = date_at(at, s, n, &a.header.signed_on)).kind != READ) return refuse(why(i, 6, at.place));
    at = i.next;
    if ((i = last_at(at, s, n)).kind != READ) return refuse(why(i, 7, at.place));
    a.header.definition = i.value;
    at = i.next;
    if ((i = last_at(at, s, n)).kind != READ) return refuse(why(i, 7, at.place));
    a.header.category = i.value;
    a.ends.header = i.next.place;
    if ((i = features_at(i.next, s, n, a.header.version, &r)).kind != READ) return refuse(r);
    a.count = i.value;
    a.ends.message = i.next.place;
    if ((i = signature_at((cursor){a.ends.message + 1}, s, n, &r)).kind != READ) return refuse(r);
    a.signature.place = i.next.place;
    a.signature.length = i.value;
    a.ends.seal = n;
    a.front = n;
    return a;
}

fr_reading c_read(const uint8_t *s, size_t n, size_t *table, size_t numbers, uint8_t *text, size_t room) {
    uint8_t names[259];
    fr_reading a = judge(s, n, names);
    if (a.number) return a.front = c_front(s, n), a;
    if (numbers < FR_ROW * a.count || room < 4 + a.header.length) return (fr_reading){.number = 12, .front = n};
    put_rows(a.ends.header, s, a.header.version, a.count, table);
    memcpy(text, names, 4 + a.header.length);
    return a;
}

fr_reading c_verdict(const uint8_t *s, size_t n) {
    uint8_t names[259];
    return judge(s, n, names);
}

fr_reading c_judge(const uint8_t *s, size_t n) {
    uint8_t names[259];
    fr_reading a = judge(s, n, names);
    if (a.number) a.front = c_front(s, n);
    return a;
}
