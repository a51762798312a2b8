/* What the calls are timed on: inputs that look like those of a hall, 16 of each kind, drawn from a fixed seed. */
#ifndef REAL_H
#define REAL_H

#include "inputs.h"

#define INPUTS 16

/* a seal of 82 bytes with one feature, or of 150 bytes with three; version 3 or 4 */
given real_small(size_t version);
given real_typical(size_t version);

/* a seal of version 4 with all 255 features: 4,096 bytes */
given real_full(void);

/* so many characters as in names, numbers and machine readable zones, whose fillers are spaces in C40 */
void real_text(uint8_t *text, size_t n);

/* a day from 1950 to 2049 */
fr_date real_date(void);

/* a number from 0 to n - 1 */
size_t draw(size_t n);

/* of k of a kind, the raw signature of P-256: some with leading zeros, some with the top bit set */
void real_signature(size_t k, uint8_t *raw);

#endif
