/* The front part of an input, for the reader: the length of the longest with which some accepted seal begins. */
#ifndef FRONT_H
#define FRONT_H

#include "twins.h"

size_t c_front(const uint8_t *s, size_t n);

/* the answer to an accepted seal or to a refused one, with no front part reckoned for the refused (reader.c), for the walk */
fr_reading c_verdict(const uint8_t *s, size_t n);

#endif
