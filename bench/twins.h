/* Each call of the face by three makers, of one type: fr_ is the proved library's, c_ that of C written for speed (c/), rust_ plain Rust's (rust/). */
#ifndef TWINS_H
#define TWINS_H

#include "fenderrope.h"

#define TWINS(call) extern __typeof__(fr_##call) c_##call, rust_##call
TWINS(read);
TWINS(judge);
TWINS(why);
TWINS(walk_open);
TWINS(walk_next);
TWINS(shown);
TWINS(write);
TWINS(c40_read);
TWINS(c40_write);
TWINS(date_from_number);
TWINS(date_to_number);
TWINS(integer_read);
TWINS(integer_write);
TWINS(signature_to_der);
TWINS(signature_to_raw);
TWINS(hash);

#endif
