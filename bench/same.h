/* The comparing of the three makers: what a call gave by each of them, side by side. */
#ifndef SAME_H
#define SAME_H

#include "inputs.h"
#include <string.h>

/* what a call gave: the fields of its answer, and the buffers that it was lent */
typedef struct {
    size_t fields[20], table[FR_TABLE_MOST + 2 * FR_ROW];
    uint8_t bytes[6200];
} seen;

extern seen got[MAKERS];

/* stops unless all makers gave the same */
void judge_same(const char *call);

/* stops unless the input of a call gave this number, as it was meant to */
void expect(size_t number);

/* the first fields of every answer */
void see(seen *s, size_t number, size_t place, size_t value);

/* every field of a reading */
void see_reading(seen *s, fr_reading r);

/* makes a call by each maker m, which leaves what it gave in s */
#define SAME(CALL)                                                                                                     \
    do {                                                                                                               \
        for (int i = 0; i < MAKERS; i++) {                                                                             \
            const maker *m = makers + i;                                                                               \
            seen *s = got + i;                                                                                         \
            memset(s, 0x5A, sizeof *s);                                                                                \
            CALL;                                                                                                      \
        }                                                                                                              \
        judge_same(#CALL);                                                                                             \
    } while (0)

/* the values that a byte is changed to */
enum { OTHERS = 11 };
extern const uint8_t others[OTHERS];

/* the front part of what is refused at a pair, at a date, and for want of room (same_front.c) */
void same_fronts(void);

/* the walk over any bytes, from their opening (same_walk.c) */
void same_walk(const uint8_t *seal, size_t n);

/* steps at any place of a seal, cut and changed, and of features with lengths of every form */
void same_steps(const given *g);
void same_forms(void);

/* look-ups of every tag in two of three seals, good and refused */
void same_shown(const given *three, const given *four, const given *full);

#endif
