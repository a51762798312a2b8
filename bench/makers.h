/* The three makers as tables of calls, so that each input goes to all of them in the same way. */
#ifndef MAKERS_H
#define MAKERS_H

#include "twins.h"

typedef struct {
    const char *name;
    __typeof__(fr_read) *read;
    __typeof__(fr_judge) *judge;
    __typeof__(fr_why) *why;
    __typeof__(fr_walk_open) *walk_open;
    __typeof__(fr_walk_next) *walk_next;
    __typeof__(fr_shown) *shown;
    __typeof__(fr_write) *write;
    __typeof__(fr_c40_read) *c40_read;
    __typeof__(fr_c40_write) *c40_write;
    __typeof__(fr_date_from_number) *date_from_number;
    __typeof__(fr_date_to_number) *date_to_number;
    __typeof__(fr_integer_read) *integer_read;
    __typeof__(fr_integer_write) *integer_write;
    __typeof__(fr_signature_to_der) *signature_to_der;
    __typeof__(fr_signature_to_raw) *signature_to_raw;
    __typeof__(fr_hash) *hash;
} maker;

#define MAKERS 3
extern const maker makers[MAKERS];

/* Sends inputs of every call, good and refused, to the three makers and compares answers and lent memory (same.c); gives how many inputs, or
   stops at the first difference. */
size_t compare_all(void);

#endif
