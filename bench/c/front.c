/* C written for speed, for the front part of a refused input: one walk, which ends at the first byte that no accepted seal has there. Text goes
   through tables, a pair at a time; a date by the least day that is left; a length by the room that its value and a signature need behind it. */
#include "front.h"
#include "days.h"
#include "letters.h"
#include "tables.h"

/* the least that a signature zone takes: FF, 38 and 56 bytes */
enum { ZONE = 58 };

/* the input, and how far it is good; a step goes past an item and gives 1, or ends the walk there and gives 0 */
typedef struct {
    const uint8_t *s;
    size_t n, at;
} walk;

/* a byte that is there and of which a rule holds */
static int step(walk *w, int held) {
    if (held) w->at++;
    return held;
}

static int ended(const walk *w) { return w->at == w->n; }

static int pair(walk *w, unsigned kind) {
    if (w->n - w->at > 1 && kinds_at(w->s + w->at) & kind) return w->at += 2, 1;
    if (!ended(w) && c_begins[w->s[w->at]] & kind) w->at++;
    return 0;
}

/* so many letters and digits */
static int reference(walk *w, size_t size) {
    for (; size > 2; size -= 3)
        if (!pair(w, THREE)) return 0;
    return size == 0 || pair(w, size == 2 ? TWO : ONE);
}

static int names_of_four(walk *w) {
    if (!pair(w, SIGNER) || !pair(w, LENGTH)) return 0;
    uint32_t entry = pair_at(w->s + w->at - 2);
    return reference(w, hex_value((uint8_t)(entry >> 8)) * 16 + hex_value((uint8_t)(entry >> 16)));
}

/* the least number of a day that is not below this one, MMDDYYYY */
static size_t day_from(size_t number) {
    size_t month = number / 1000000, day = number / 10000 % 100, year = number % 10000;
    if (month == 0) return 1010001;
    if (month > 12) return SIZE_MAX;
    if (day == 0) return month * 1000000 + 10001;
    if (year == 0) year = 1;
    if (month == 2 && day == 29)
        while (!is_leap(year)) year++;
    if (year < 10000 && day <= days_in(month, year)) return month * 1000000 + day * 10000 + year;
    return month < 12 ? (month + 1) * 1000000 + 10001 : SIZE_MAX;
}

/* three bytes: each of them leaves numbers of which one is a day's */
static int date(walk *w) {
    size_t from = 0;
    for (size_t span = 65536; span > 0; span /= 256) {
        if (ended(w)) return 0;
        from += w->s[w->at] * span;
        if (!step(w, day_from(from) < from + span)) return 0;
    }
    return 1;
}

static int last(walk *w) { return !ended(w) && step(w, w->s[w->at] != 0 && w->s[w->at] != 255); }

/* whether so many bytes from here on leave room for a signature */
static int room(const walk *w, size_t size) { return w->at + size + ZONE <= FR_SEAL_MOST; }

static int plain_length(walk *w, size_t *size) { return !ended(w) && step(w, room(w, 1 + (*size = w->s[w->at]))); }

/* 81 or 82 needs the least value of its form, and each byte behind it the least that is left; 83 and 84 are longer than a seal */
static int der_length(walk *w, size_t *size) {
    if (ended(w) || w->s[w->at] < 0x80) return plain_length(w, size);
    size_t k = w->s[w->at] - 0x80u, least = k == 1 ? 0x80 : 0x100;
    if (!step(w, k > 0 && k < 3 && room(w, 1 + k + least))) return 0;
    for (*size = 0; k-- > 0;) {
        if (ended(w)) return 0;
        *size = *size * 256 + w->s[w->at];
        if (!step(w, *size << 8 * k >= least && room(w, 1 + k + (*size << 8 * k)))) return 0;
    }
    return 1;
}

/* so many bytes of any kind, or those of them that are there */
static int any(walk *w, size_t size) {
    int all = w->n - w->at >= size;
    w->at = all ? w->at + size : w->n;
    return all;
}

/* up to FF and past it */
static int features(walk *w, size_t version) {
    uint64_t used[4] = {0};
    for (size_t size; !ended(w);) {
        uint8_t tag = w->s[w->at];
        if (tag == 0xFF) return step(w, 1);
        uint64_t bit = (uint64_t)1 << (tag & 63), *word = used + (tag >> 6);
        if (!step(w, !(*word & bit) && room(w, 2))) return 0;
        *word |= bit;
        if (!(version == 3 ? plain_length(w, &size) : der_length(w, &size)) || !any(w, size)) return 0;
    }
    return 0;
}

/* the last byte of the length, which is the signature's size, one of these two or three: the signature must fit behind it */
static int size_at(walk *w, const uint8_t *sizes, size_t count) {
    for (size_t i = 0; i < count; i++)
        if (w->s[w->at] == sizes[i]) return step(w, w->at + 1 + sizes[i] <= FR_SEAL_MOST) && any(w, sizes[i]);
    return 0;
}

static int signature(walk *w) {
    static const uint8_t shorter[] = {56, 64, 96}, longer[] = {128, 132};
    if (ended(w)) return 0;
    if (w->s[w->at] != 0x81) return size_at(w, shorter, 3);
    return step(w, w->at + 2 + longer[0] <= FR_SEAL_MOST) && !ended(w) && size_at(w, longer, 2);
}

size_t c_front(const uint8_t *s, size_t n) {
    walk w = {s, n, 0};
    if (n == 0 || !step(&w, s[0] == 0xDC) || n == 1 || !step(&w, s[1] == 2 || s[1] == 3)) return w.at;
    size_t version = s[1] + 1u;
    if (pair(&w, COUNTRY) && (version == 3 ? pair(&w, SIGNER) && reference(&w, 6) : names_of_four(&w)) && date(&w) && date(&w)
        && last(&w) && last(&w) && features(&w, version))
        signature(&w);
    return w.at;
}
