/* What the calls are given: seals, what a seal is made of, text and signatures. */
#ifndef INPUTS_H
#define INPUTS_H

#include "makers.h"

/* what a seal is made of */
typedef struct {
    fr_header header;
    uint8_t text[259], values[4096], signature[132];
    size_t characters, rows[FR_TABLE_MOST + FR_ROW], numbers, size, raw, room;
} given;

/* a seal of 150 bytes: a reference of 5 characters, three features and a signature of 64 bytes */
given given_typical(size_t version);

/* a seal of version 4 with the longest reference, all 255 features and the longest signature: 4,096 bytes */
given given_full(void);

fr_filled write_given(const maker *m, const given *g, uint8_t *out);

/* so many characters of the chart, and so many bytes, from a fixed seed */
void fill_text(uint8_t *text, size_t n);
void fill_bytes(uint8_t *bytes, size_t n);

/* raw signatures of size n, some with leading zeros */
#define SIGNATURES 16
typedef struct { uint8_t raw[SIGNATURES][132]; } signatures;
signatures make_signatures(size_t n);

/* numbers of every size from one byte to eight, of both signs */
#define INTEGERS 16
int64_t integer_at(size_t k);

#endif
