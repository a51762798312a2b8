/*
 * Fenderrope: visible digital seals (ICAO Doc 9303-13) on visa stickers and lock tags, versions 3 and 4.
 *
 * Every call takes every input and answers by value. `number` is 0 when the call is done; any other number is a
 * refusal from the list below, and `place` says where: it is 0 where the call names no other. On a refusal no lent
 * memory changes and every field but number and place is 0, save that fr_read and fr_judge say how far the input is
 * good, fr_why why a seal is refused, and fr_shown which. On 0 a call that fills a buffer writes from its start, gives
 * the count written, and leaves the memory past it as it was. docs/NUMBERS.md has the numbers with their order and
 * places.
 *
 * A buffer is a pointer and a length. The pointer is not null unless the length is 0, points to as many elements as
 * the length says, and a buffer that is written overlaps no other buffer of the same call. No call keeps a pointer,
 * takes a lock or memory, or fails in another way than by its number; calls may run at the same time on different
 * buffers.
 *
 * Structs have padding (fr_header has, after its country), which is not written: compare, hash and send their fields,
 * and not their bytes.
 *
 * Link with libfenderrope.a (x86-64): pkg-config --cflags --libs fenderrope. It needs memcpy and memset and nothing
 * else. It has no data that it writes to, and takes no lock. It has no unwinding tables: no exception passes through
 * it, as it calls nobody back; a backtrace may end in it.
 */
#ifndef FENDERROPE_H
#define FENDERROPE_H

#include <stddef.h>
#include <stdint.h>

/* The library is compiled for numbers of 64 bits. */
#if SIZE_MAX != UINT64_MAX
#error "fenderrope.h: size_t must have 64 bits"
#endif

#ifdef __cplusplus
extern "C" {
#endif

/* The version of this header and its library. */
#define FR_VERSION "0.8.0"

/* Sizes that hold for every legal seal (document 01, "Sizes"). */
#define FR_SEAL_MOST 4096      /* bytes of a seal */
#define FR_TEXT_MOST 259       /* signer and reference: 4 + 255 characters */
#define FR_FEATURES_MOST 255   /* features of a seal */
#define FR_TABLE_MOST 1020     /* numbers of a table: a row a feature */
#define FR_SIGNATURE_MOST 132  /* bytes of a raw signature */
#define FR_DER_MOST 141        /* bytes of a signature in DER */
#define FR_C40_MOST 4096       /* bytes of C40 */
#define FR_CHARACTERS_MOST 6144 /* characters of text in C40 */
#define FR_INTEGER_MOST 10     /* bytes of a DER INTEGER */
#define FR_WORDS_MOST 92       /* bytes of the longest words that fr_words gives */
#define FR_ITEM_NAME_MOST 20   /* bytes of the longest name that fr_item_name gives */
#define FR_RULE_WORDS_MOST 61  /* bytes of the longest words that fr_rule_words gives */

/* A row of a table: how many numbers it has, and which of them stands where. */
#define FR_ROW 4               /* numbers of a row */
#define FR_ROW_TAG 0           /* the tag */
#define FR_ROW_TAG_PLACE 1     /* place of the tag in the seal: the feature begins there; fr_write ignores it */
#define FR_ROW_VALUE_PLACE 2   /* place of the value in the seal, for fr_write in `values` */
#define FR_ROW_VALUE_LENGTH 3  /* length of the value */

/*
 * The numbers that a call answers, each with its words, which fr_words gives too. A number that is retired is not given
 * out again, and has no name. L is header.length, the length of the reference; the five sizes n are 28, 32, 48, 64 and
 * 66.
 */
enum fr_number {
    FR_DONE = 0, /* done */

    /* fr_read, fr_judge, fr_why, fr_walk_open and fr_shown, item by item from the left; fr_read alone gives 12, and
       fr_date_from_number gives 6 */
    FR_TOO_LONG = 1,          /* seal longer than 4,096 */
    FR_CUT = 2,               /* the input ends before an item is whole */
    FR_FIRST_BYTE = 3,        /* first byte is not DC */
    FR_VERSION_BYTE = 4,      /* version byte is not 02 or 03 */
    FR_NAMES = 5,             /* country, signer, L or reference wrongly coded or with a wrong character */
    FR_NO_DATE = 6,           /* no such date */
    FR_LAST_BYTES = 7,        /* definition reference or category is 0 or 255 */
    FR_DER_LENGTH = 8,        /* DER length malformed or not shortest */
    FR_TAG_USED = 9,          /* tag already used */
    FR_SIGNATURE_LENGTH = 10, /* signature length is not 56, 64, 96, 128 or 132 */
    FR_BYTES_AFTER = 11,      /* bytes after the signature */
    FR_READ_ROOM = 12,        /* seal good, but the lent table has under 4 numbers a feature, or the text room is under
                                 4 + L */

    /* fr_write, in this order; fr_date_to_number gives 22 */
    FR_WRITE_VERSION = 20,    /* writer: version not 3 or 4 */
    FR_WRITE_NAMES = 21,      /* writer: country, signer or reference */
    FR_WRITE_DATE = 22,       /* writer: date */
    FR_WRITE_LAST_BYTES = 23, /* writer: definition reference or category */
    FR_WRITE_ROWS = 24,       /* writer: table not in fours, tag over 254 or used twice, or a value outside the values
                                 buffer */
    FR_WRITE_VALUE = 25,      /* writer: value over 255 bytes in version 3 */
    FR_WRITE_SIGNATURE = 26,  /* writer: signature length */
    FR_WRITE_TOO_LONG = 27,   /* writer: seal would pass 4,096 */
    FR_WRITE_ROOM = 28,       /* writer: no room for the whole seal */

    /* fr_c40_read and fr_c40_write; fr_item_name and fr_rule_words give 42 */
    FR_C40_ODD = 40,          /* C40 bytes odd in number */
    FR_C40_PAIR = 41,         /* C40 pair value of 0 or over 64,000 that does not begin with FE */
    FR_C40_TEXT_ROOM = 42,    /* no room for the text */
    FR_C40_CHARACTER = 43,    /* character that is not in the chart */
    FR_C40_BYTES_ROOM = 44,   /* no room for the C40 bytes */
    FR_C40_TOO_LONG = 45,     /* text or bytes over the size */
    FR_C40_SHIFT = 46,        /* C40 shift value where none may stand */
    FR_C40_FE = 47,           /* C40 FE misplaced or followed by a code outside the chart */

    /* fr_shown gives 50, after both seals' own numbers; fr_walk_next alone gives 51 */
    FR_NO_FEATURE = 50,       /* feature in neither seal */
    FR_WALK_END = 51,         /* no further feature */

    /* signatures, INTEGERs and the hash; fr_words gives 63 */
    FR_NO_SIZE = 60,          /* n is not one of the five */
    FR_RAW_LENGTH = 61,       /* raw length is not 2n */
    FR_NOT_DER = 62,          /* not strict DER, with bytes left over, negative, or too big for n */
    FR_NO_ROOM = 63,          /* no room */
    /* 64 is retired: no input gives it */
    FR_NOT_INTEGER = 65       /* not one whole DER INTEGER of 1 to 8 bytes */
};

/*
 * The items of a seal, in the order in which they are judged, each with its name, which fr_item_name gives too. Version
 * 3 has one item for signer and reference, version 4 has two.
 */
enum fr_item {
    FR_ITEM_SEAL = 1,              /* seal */
    FR_ITEM_MARK = 2,              /* mark */
    FR_ITEM_VERSION = 3,           /* version */
    FR_ITEM_COUNTRY = 4,           /* country */
    FR_ITEM_NAMES = 5,             /* signer and reference */
    FR_ITEM_SIGNER_AND_LENGTH = 6, /* signer and length */
    FR_ITEM_REFERENCE = 7,         /* reference */
    FR_ITEM_ISSUED = 8,            /* issue date */
    FR_ITEM_SIGNED = 9,            /* signature date */
    FR_ITEM_DEFINITION = 10,       /* definition */
    FR_ITEM_CATEGORY = 11,         /* category */
    FR_ITEM_TAG = 12,              /* tag */
    FR_ITEM_LENGTH = 13,           /* length */
    FR_ITEM_VALUE = 14,            /* value */
    FR_ITEM_SIGNATURE_LENGTH = 15, /* signature length */
    FR_ITEM_SIGNATURE = 16,        /* signature */
    FR_ITEM_END = 17               /* end */
};

/*
 * The rules that an item keeps, each with its words, which fr_rule_words gives too. Up to 11 a rule's code is the
 * number that is answered where it is broken; for 12 to 16 that is 5, for 17 it is 2, and for 18 it is 8.
 */
enum fr_rule {
    FR_RULE_NOT_TOO_LONG = 1,    /* a seal has at most 4,096 bytes */
    FR_RULE_THERE = 2,           /* all its bytes are there */
    FR_RULE_MARK = 3,            /* a seal begins with DC */
    FR_RULE_VERSION = 4,         /* the version is 02 or 03 */
    FR_RULE_WELL_CODED = 5,      /* every two bytes stand for characters, as many as the item has */
    FR_RULE_DAY = 6,             /* the date is a real day */
    FR_RULE_ONE_TO_254 = 7,      /* the number is 1 to 254 */
    FR_RULE_BEGINS_LENGTH = 8,   /* the length begins with 00 to 7F or with 81 to 84 */
    FR_RULE_NOT_USED_BEFORE = 9, /* a tag is used once only */
    FR_RULE_SIGNATURE_SIZE = 10, /* the signature is 56, 64, 96, 128 or 132 bytes long */
    FR_RULE_NOTHING_AFTER = 11,  /* nothing follows the signature */
    FR_RULE_COUNTRY = 12,        /* the country is a letter, then letters, then < to fill */
    FR_RULE_SIGNER = 13,         /* the signer is two letters, then two letters or digits */
    FR_RULE_REFERENCE = 14,      /* the reference is letters and digits */
    FR_RULE_HEXADECIMAL = 15,    /* the reference's length is two of 0 to 9 and A to F */
    FR_RULE_NOT_ZERO = 16,       /* the reference's length is not 00 */
    FR_RULE_REST_THERE = 17,     /* all bytes of the length are there */
    FR_RULE_SHORTEST = 18        /* the length is in its shortest form */
};

/* Which of two seals fr_shown speaks of. */
enum fr_which {
    FR_NEITHER = 0,
    FR_MAIN = 1,
    FR_EXTENSION = 2
};

/* A day of the Gregorian calendar: month 1 to 12, day 1 to the month's last, year 1 to 9999. */
typedef struct fr_date {
    size_t month;
    size_t day;
    size_t year;
} fr_date;

/* The header of a seal, as fr_read gives it and fr_write takes it. */
typedef struct fr_header {
    size_t version;     /* 3 or 4 */
    uint8_t country[3]; /* letters, filled on the right with '<' */
    size_t length;      /* L, of the reference, so text_length - 4; 5 in version 3 */
    fr_date issued_on;
    fr_date signed_on;
    size_t definition;  /* feature definition reference, 1 to 254 */
    size_t category;    /* document category, 1 to 254 */
} fr_header;

/*
 * The ends of the three zones, each one past the zone's last byte. The signed bytes are the first `message` bytes of
 * the seal.
 */
typedef struct fr_ends {
    size_t header;
    size_t message;
    size_t seal;
} fr_ends;

/* A part of the seal. */
typedef struct fr_part {
    size_t place;
    size_t length;
} fr_part;

/* What fr_read and fr_judge answer. */
typedef struct fr_reading {
    size_t number;
    size_t place;
    fr_header header;
    fr_ends ends;
    fr_part signature; /* the raw signature: r, then s */
    size_t count;      /* of features */
    size_t front;      /* length of the longest front part of the input with which some accepted seal begins */
} fr_reading;

/* What fr_why answers. */
typedef struct fr_reason {
    size_t number;
    size_t place;
    size_t item;    /* the item that breaks a rule, of enum fr_item */
    size_t rule;    /* the first rule that it breaks, of enum fr_rule */
    fr_part judged; /* the bytes judged, a part of the seal */
} fr_reason;

/* What fr_walk_open answers. */
typedef struct fr_start {
    size_t number;
    size_t place;
    size_t at; /* where the first step is made */
} fr_start;

/* What fr_walk_next answers: a feature, and where the next step is made. */
typedef struct fr_step {
    size_t number;
    size_t place;
    size_t tag;
    size_t tag_place; /* the feature begins there */
    fr_part value;    /* a part of the seal */
    size_t at;        /* where the next step is made: the feature ends there */
} fr_step;

/* What fr_shown answers. */
typedef struct fr_where {
    size_t number;
    size_t place;  /* in the seal that is refused */
    size_t which;  /* the seal that has the value, or is refused, of enum fr_which */
    fr_part value; /* a part of the seal that has it */
} fr_where;

/* What a call that fills a buffer answers. */
typedef struct fr_filled {
    size_t number;
    size_t place;
    size_t count; /* written */
} fr_filled;

/* A date, its number, an INTEGER's value, a hash: what the calls answer that give one. */
typedef struct fr_dated {
    size_t number;
    size_t place;
    fr_date date;
} fr_dated;

typedef struct fr_numbered {
    size_t number;
    size_t place;
    size_t value;
} fr_numbered;

typedef struct fr_integer {
    size_t number;
    size_t place;
    int64_t value;
} fr_integer;

typedef struct fr_hashed {
    size_t number;
    size_t place;
    size_t bits; /* 224, 256, 384 or 512: SHA-224, SHA-256, SHA-384 or SHA-512 */
} fr_hashed;

/*
 * Reads a seal: 0, or the first of 1 to 12 that holds. On 0 a row of four numbers for each feature stands in `table`,
 * in the seal's order: tag, place of the tag, place of the value, length of the value; and signer and reference stand
 * in `text`, 4 + header.length characters without an end mark. 12 asks for 4 * count numbers and 4 + header.length
 * bytes, which fr_judge gives of the same seal; FR_TABLE_MOST and FR_TEXT_MOST are enough for every seal.
 *
 * The whole feature, tag, length and value, is the part of the seal from its tag's place to its value's end. Features
 * lie one after another: the first begins at ends.header, each other where the one before ends, and the last ends at
 * ends.message.
 *
 * The place is the first byte of the item that was not read, and for 5 of its first C40 pair that is wrongly coded or
 * does not fit the number of characters, if it has one; for 1 it is 4,096, for 10 the first byte of the length, for 11
 * the first extra byte, for 12 it is 0.
 *
 * `front` is given on every number: some accepted seal begins with the first `front` bytes of the input, and none with
 * one byte more of it, if it has more. So seal[front], where there is one, is the first byte that no seal has there,
 * and where front is seal_length every byte given is hopeful. The 4,096 limit, the tags used before and the room that
 * a signature needs all count. For an accepted seal it is the whole length, on 12 too; on a refusal it is the one
 * further field that need not be 0, and on 1 it is at most 4,096.
 */
fr_reading fr_read(const uint8_t *seal, size_t seal_length, size_t *table, size_t table_length, uint8_t *text,
                   size_t text_length);

/* The same verdict and fields with nothing lent; 12 is not given. */
fr_reading fr_judge(const uint8_t *seal, size_t seal_length);

/*
 * Why a seal is refused: number and place are fr_judge's; every item before the one named keeps all its rules, and that
 * one keeps every rule that comes before the one named, and breaks it. Every field is 0 for an accepted seal.
 *
 * The bytes judged begin at the place and lie in the seal. Where bytes are missing they are those that are there, maybe
 * none; of text that is wrongly coded the pair; of a wrong character, a date or a byte the whole item; of a length its
 * first byte where that alone is judged, and else the whole length; of a seal that is too long, and of what follows the
 * signature, the first byte that is too many.
 */
fr_reason fr_why(const uint8_t *seal, size_t seal_length);

/*
 * Walks over the features of a seal, without a table. fr_walk_open judges the seal, number and place are fr_judge's, and
 * on 0 the first step is made at `at`. fr_walk_next makes a step: 0, the feature at that place and the place after it,
 * where the next step is made; or 51 where there is no further feature. From the opening of an accepted seal it gives
 * exactly the rows of fr_read, in order, then 51, and 51 again and again: `at` is 0 then, where no feature begins. A
 * refused seal opens no walk: its `at` is 0.
 *
 * A step can be made at any place of any bytes, and never looks outside them. It does not judge the seal: it gives what
 * stands there as a feature of the version in the second byte, and 51 where that is none. So a walk goes by the places
 * that the two calls give.
 */
fr_start fr_walk_open(const uint8_t *seal, size_t seal_length);
fr_step fr_walk_next(const uint8_t *seal, size_t seal_length, size_t at);

/*
 * Where the value of a tag stands: in the extension if it has that feature, otherwise in the main seal; 0, or 50 where
 * neither has it. A seal that is refused refuses the call with fr_judge's number and place, the main one first, and
 * `which` names it. The value is empty on every number but 0; an empty value that is found is 0 too.
 */
fr_where fr_shown(const uint8_t *main_seal, size_t main_seal_length, const uint8_t *extension, size_t extension_length,
                  size_t tag);

/*
 * The name of an item and the words of a rule in ASCII, without an end mark: 0, or 42 where there is not room for all
 * of them. A code that is not in the lists above has none: 0, with count 0.
 */
fr_filled fr_item_name(size_t item, uint8_t *out, size_t out_length);
fr_filled fr_rule_words(size_t rule, uint8_t *out, size_t out_length);

/*
 * Writes a seal: 0, or the first of 20 to 28 that holds, with place 0. `text` is signer and reference, and
 * header.length must be text_length - 4, else 21; in version 3 it is 5. `rows` are rows as fr_read gives them, over
 * `values`; the second number of each, the tag's place, is ignored, whatever it is. The seal's own bytes can be lent
 * as `values` with the rows that fr_read gave.
 */
fr_filled fr_write(fr_header header, const uint8_t *text, size_t text_length,
                   const size_t *rows, size_t rows_length, const uint8_t *values, size_t values_length,
                   const uint8_t *signature, size_t signature_length, uint8_t *out, size_t out_length);

/*
 * Text from at most 4,096 C40 bytes: 0, or the first of 45, 40, then 41, 46 or 47, then 42 that holds. The place of 40 is
 * the number of bytes, of 41, 46 and 47 the first byte of the first faulty pair, which decides between them.
 */
fr_filled fr_c40_read(const uint8_t *bytes, size_t bytes_length, uint8_t *out, size_t out_length);

/*
 * C40 bytes from at most 6,144 characters of text, space, 0 to 9 and A to Z: 0, or the first of 45, 43 and 44 that
 * holds. The place of 43 is the index of the first wrong character.
 */
fr_filled fr_c40_write(const uint8_t *text, size_t text_length, uint8_t *out, size_t out_length);

/* A date from its number MMDDYYYY: 0 or 6. */
fr_dated fr_date_from_number(size_t number);

/* A date's number MMDDYYYY: 0 or 22. */
fr_numbered fr_date_to_number(fr_date date);

/* The value of one whole DER INTEGER: 0 or 65. */
fr_integer fr_integer_read(const uint8_t *bytes, size_t bytes_length);

/* The DER INTEGER of a value, 3 to 10 bytes: 0 or 63. */
fr_filled fr_integer_write(int64_t value, uint8_t *out, size_t out_length);

/* A raw signature as DER; n is the size of r and of s: 0, or the first of 60, 61 and 63 that holds. */
fr_filled fr_signature_to_der(size_t n, const uint8_t *raw, size_t raw_length, uint8_t *out, size_t out_length);

/* A DER signature as 2n raw bytes: 0, or the first of 60, 62 and 63 that holds. */
fr_filled fr_signature_to_raw(size_t n, const uint8_t *der, size_t der_length, uint8_t *out, size_t out_length);

/* The hash for signatures of size n: 0 or 60. */
fr_hashed fr_hash(size_t n);

/*
 * The words of a number in ASCII, without an end mark: 0, or 63 where there is not room for all of them. A number that
 * is not in the list above, or is retired, has no words: 0, with count 0.
 */
fr_filled fr_words(size_t number, uint8_t *out, size_t out_length);

#ifdef __cplusplus
}
#endif

#endif
