/* C written for speed, for fr_walk_open, fr_walk_next and fr_shown: the judge (reader.c) says where a walk begins; a
   step tests what it reads; a look-up in seals that were judged tests nothing any more. */
#include "der.h"
#include "front.h"

fr_start c_walk_open(const uint8_t *s, size_t n) {
    fr_reading r = c_verdict(s, n);
    return (fr_start){r.number, r.place, r.ends.header};
}

fr_step c_walk_next(const uint8_t *s, size_t n, size_t at) {
    if (at != 0 && n > 1 && at < n - 1 && s[at] != 0xFF && (s[1] == 2 || s[1] == 3)) {
        size_t size = s[at + 1], width = 1;
        if (size >= 0x80 && s[1] == 3) width = length_at(s + at + 1, n - at - 1, &size);
        size_t place = at + 1 + width;
        if (width != 0 && size <= n - place) return (fr_step){0, 0, s[at], at, {place, size}, place + size};
    }
    return (fr_step){.number = 51};
}

/* whether a seal that was judged has a tag among its features from a place on, and then its value */
static int has(const uint8_t *s, size_t at, size_t tag, fr_part *value) {
    while (s[at] != 0xFF) {
        size_t size = s[at + 1], place = at + 2;
        if (s[1] == 3 && size >= 0x80) {
            size_t k = size - 0x80;
            for (size = 0; k-- > 0;) size = size * 256 + s[place++];
        }
        if (s[at] == tag) return *value = (fr_part){place, size}, 1;
        at = place + size;
    }
    return 0;
}

fr_where c_shown(const uint8_t *s, size_t n, const uint8_t *extension, size_t extension_n, size_t tag) {
    fr_part value;
    fr_start first = c_walk_open(s, n);
    if (first.number) return (fr_where){first.number, first.place, FR_MAIN, {0, 0}};
    fr_start second = c_walk_open(extension, extension_n);
    if (second.number) return (fr_where){second.number, second.place, FR_EXTENSION, {0, 0}};
    if (has(extension, second.at, tag, &value)) return (fr_where){0, 0, FR_EXTENSION, value};
    if (has(s, first.at, tag, &value)) return (fr_where){0, 0, FR_MAIN, value};
    return (fr_where){.number = 50};
}
