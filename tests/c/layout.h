/*
 * Sizes, alignments and offsets of the structs, for x86-64, the types of the calls and the constants of numbers, items,
 * rules and seals: checked when compiled, against plain numbers, of which the Rust tests hold those of the structs too.
 */
#ifndef LAYOUT_H
#define LAYOUT_H

#include <assert.h>
#include <stdalign.h>

#include "fenderrope.h"

#define LAYOUT(type, size) static_assert(sizeof(type) == (size) && alignof(type) == 8, #type)
#define FIELD(type, field, offset, size) static_assert(offsetof(type, field) == (offset) && sizeof(((type *)0)->field) == (size), #type "." #field)

LAYOUT(fr_date, 24);
FIELD(fr_date, month, 0, 8);
FIELD(fr_date, day, 8, 8);
FIELD(fr_date, year, 16, 8);

LAYOUT(fr_header, 88);
FIELD(fr_header, version, 0, 8);
FIELD(fr_header, country, 8, 3);
FIELD(fr_header, length, 16, 8);
FIELD(fr_header, issued_on, 24, 24);
FIELD(fr_header, signed_on, 48, 24);
FIELD(fr_header, definition, 72, 8);
FIELD(fr_header, category, 80, 8);

LAYOUT(fr_ends, 24);
FIELD(fr_ends, header, 0, 8);
FIELD(fr_ends, message, 8, 8);
FIELD(fr_ends, seal, 16, 8);

LAYOUT(fr_part, 16);
FIELD(fr_part, place, 0, 8);
FIELD(fr_part, length, 8, 8);

LAYOUT(fr_reading, 160);
FIELD(fr_reading, number, 0, 8);
FIELD(fr_reading, place, 8, 8);
FIELD(fr_reading, header, 16, 88);
FIELD(fr_reading, ends, 104, 24);
FIELD(fr_reading, signature, 128, 16);
FIELD(fr_reading, count, 144, 8);
FIELD(fr_reading, front, 152, 8);

LAYOUT(fr_reason, 48);
FIELD(fr_reason, number, 0, 8);
FIELD(fr_reason, place, 8, 8);
FIELD(fr_reason, item, 16, 8);
FIELD(fr_reason, rule, 24, 8);
FIELD(fr_reason, judged, 32, 16);

LAYOUT(fr_start, 24);
FIELD(fr_start, number, 0, 8);
FIELD(fr_start, place, 8, 8);
FIELD(fr_start, at, 16, 8);

LAYOUT(fr_step, 56);
FIELD(fr_step, number, 0, 8);
FIELD(fr_step, place, 8, 8);
FIELD(fr_step, tag, 16, 8);
FIELD(fr_step, tag_place, 24, 8);
FIELD(fr_step, value, 32, 16);
FIELD(fr_step, at, 48, 8);

LAYOUT(fr_where, 40);
FIELD(fr_where, number, 0, 8);
FIELD(fr_where, place, 8, 8);
FIELD(fr_where, which, 16, 8);
FIELD(fr_where, value, 24, 16);

LAYOUT(fr_filled, 24);
FIELD(fr_filled, number, 0, 8);
FIELD(fr_filled, place, 8, 8);
FIELD(fr_filled, count, 16, 8);

LAYOUT(fr_dated, 40);
FIELD(fr_dated, number, 0, 8);
FIELD(fr_dated, place, 8, 8);
FIELD(fr_dated, date, 16, 24);

LAYOUT(fr_numbered, 24);
FIELD(fr_numbered, number, 0, 8);
FIELD(fr_numbered, place, 8, 8);
FIELD(fr_numbered, value, 16, 8);

LAYOUT(fr_integer, 24);
FIELD(fr_integer, number, 0, 8);
FIELD(fr_integer, place, 8, 8);
FIELD(fr_integer, value, 16, 8);

LAYOUT(fr_hashed, 24);
FIELD(fr_hashed, number, 0, 8);
FIELD(fr_hashed, place, 8, 8);
FIELD(fr_hashed, bits, 16, 8);

/* The types of the calls: an argument that is moved, left out or of another width does not compile. */
typedef const uint8_t *bytes_in;
fr_reading (*call_read)(bytes_in, size_t, size_t *, size_t, uint8_t *, size_t) = fr_read;
fr_reading (*call_judge)(bytes_in, size_t) = fr_judge;
fr_reason (*call_why)(bytes_in, size_t) = fr_why;
fr_start (*call_walk_open)(bytes_in, size_t) = fr_walk_open;
fr_step (*call_walk_next)(bytes_in, size_t, size_t) = fr_walk_next;
fr_where (*call_shown)(bytes_in, size_t, bytes_in, size_t, size_t) = fr_shown;
fr_filled (*call_item_name)(size_t, uint8_t *, size_t) = fr_item_name;
fr_filled (*call_rule_words)(size_t, uint8_t *, size_t) = fr_rule_words;
fr_filled (*call_write)(fr_header, bytes_in, size_t, const size_t *, size_t, bytes_in, size_t, bytes_in, size_t, uint8_t *, size_t) = fr_write;
fr_filled (*call_c40_read)(bytes_in, size_t, uint8_t *, size_t) = fr_c40_read;
fr_filled (*call_c40_write)(bytes_in, size_t, uint8_t *, size_t) = fr_c40_write;
fr_dated (*call_date_from_number)(size_t) = fr_date_from_number;
fr_numbered (*call_date_to_number)(fr_date) = fr_date_to_number;
fr_integer (*call_integer_read)(bytes_in, size_t) = fr_integer_read;
fr_filled (*call_integer_write)(int64_t, uint8_t *, size_t) = fr_integer_write;
fr_filled (*call_signature_to_der)(size_t, bytes_in, size_t, uint8_t *, size_t) = fr_signature_to_der;
fr_filled (*call_signature_to_raw)(size_t, bytes_in, size_t, uint8_t *, size_t) = fr_signature_to_raw;
fr_hashed (*call_hash)(size_t) = fr_hash;
fr_filled (*call_words)(size_t, uint8_t *, size_t) = fr_words;

#define NUMBER(name, number) static_assert(name == (number), #name)

/* A row: its numbers in the order of document 02, Ticket 10; and the table that has room for the rows of every seal. */
NUMBER(FR_ROW, 4);
NUMBER(FR_ROW_TAG, 0);
NUMBER(FR_ROW_TAG_PLACE, 1);
NUMBER(FR_ROW_VALUE_PLACE, 2);
NUMBER(FR_ROW_VALUE_LENGTH, 3);
NUMBER(FR_TABLE_MOST, FR_ROW * FR_FEATURES_MOST);

/* The numbers by name, in the order of document 01. */
NUMBER(FR_DONE, 0);
NUMBER(FR_TOO_LONG, 1);
NUMBER(FR_CUT, 2);
NUMBER(FR_FIRST_BYTE, 3);
NUMBER(FR_VERSION_BYTE, 4);
NUMBER(FR_NAMES, 5);
NUMBER(FR_NO_DATE, 6);
NUMBER(FR_LAST_BYTES, 7);
NUMBER(FR_DER_LENGTH, 8);
NUMBER(FR_TAG_USED, 9);
NUMBER(FR_SIGNATURE_LENGTH, 10);
NUMBER(FR_BYTES_AFTER, 11);
NUMBER(FR_READ_ROOM, 12);
NUMBER(FR_WRITE_VERSION, 20);
NUMBER(FR_WRITE_NAMES, 21);
NUMBER(FR_WRITE_DATE, 22);
NUMBER(FR_WRITE_LAST_BYTES, 23);
NUMBER(FR_WRITE_ROWS, 24);
NUMBER(FR_WRITE_VALUE, 25);
NUMBER(FR_WRITE_SIGNATURE, 26);
NUMBER(FR_WRITE_TOO_LONG, 27);
NUMBER(FR_WRITE_ROOM, 28);
NUMBER(FR_C40_ODD, 40);
NUMBER(FR_C40_PAIR, 41);
NUMBER(FR_C40_TEXT_ROOM, 42);
NUMBER(FR_C40_CHARACTER, 43);
NUMBER(FR_C40_BYTES_ROOM, 44);
NUMBER(FR_C40_TOO_LONG, 45);
NUMBER(FR_C40_SHIFT, 46);
NUMBER(FR_C40_FE, 47);
NUMBER(FR_NO_FEATURE, 50);
NUMBER(FR_WALK_END, 51);
NUMBER(FR_NO_SIZE, 60);
NUMBER(FR_RAW_LENGTH, 61);
NUMBER(FR_NOT_DER, 62);
NUMBER(FR_NO_ROOM, 63);
NUMBER(FR_NOT_INTEGER, 65);

/* The items, in the order in which they are judged. */
NUMBER(FR_ITEM_SEAL, 1);
NUMBER(FR_ITEM_MARK, 2);
NUMBER(FR_ITEM_VERSION, 3);
NUMBER(FR_ITEM_COUNTRY, 4);
NUMBER(FR_ITEM_NAMES, 5);
NUMBER(FR_ITEM_SIGNER_AND_LENGTH, 6);
NUMBER(FR_ITEM_REFERENCE, 7);
NUMBER(FR_ITEM_ISSUED, 8);
NUMBER(FR_ITEM_SIGNED, 9);
NUMBER(FR_ITEM_DEFINITION, 10);
NUMBER(FR_ITEM_CATEGORY, 11);
NUMBER(FR_ITEM_TAG, 12);
NUMBER(FR_ITEM_LENGTH, 13);
NUMBER(FR_ITEM_VALUE, 14);
NUMBER(FR_ITEM_SIGNATURE_LENGTH, 15);
NUMBER(FR_ITEM_SIGNATURE, 16);
NUMBER(FR_ITEM_END, 17);

/* The rules: up to 11 each has the number that is answered where it is broken. */
NUMBER(FR_RULE_NOT_TOO_LONG, 1);
NUMBER(FR_RULE_THERE, 2);
NUMBER(FR_RULE_MARK, 3);
NUMBER(FR_RULE_VERSION, 4);
NUMBER(FR_RULE_WELL_CODED, 5);
NUMBER(FR_RULE_DAY, 6);
NUMBER(FR_RULE_ONE_TO_254, 7);
NUMBER(FR_RULE_BEGINS_LENGTH, 8);
NUMBER(FR_RULE_NOT_USED_BEFORE, 9);
NUMBER(FR_RULE_SIGNATURE_SIZE, 10);
NUMBER(FR_RULE_NOTHING_AFTER, 11);
NUMBER(FR_RULE_COUNTRY, 12);
NUMBER(FR_RULE_SIGNER, 13);
NUMBER(FR_RULE_REFERENCE, 14);
NUMBER(FR_RULE_HEXADECIMAL, 15);
NUMBER(FR_RULE_NOT_ZERO, 16);
NUMBER(FR_RULE_REST_THERE, 17);
NUMBER(FR_RULE_SHORTEST, 18);

/* The seal that a look-up speaks of. */
NUMBER(FR_NEITHER, 0);
NUMBER(FR_MAIN, 1);
NUMBER(FR_EXTENSION, 2);

NUMBER(FR_ITEM_NAME_MOST, 20);
NUMBER(FR_RULE_WORDS_MOST, 61);

#endif
