"""The cases of the writer, made from document 01 by way of the reference in writing.py.

A case's answer is stated from how it was made (this was given wrong, so the answer is its number; these parts were given, so
the answer is the seal put together from them), and the reference must agree. Only where a heading says "by the reference" is
the answer the reference's alone. Every seal written must also read as what was given, by the reading of seals.py. The seals
that are read and written back are those of seal_cases.py and pair_cases.py that answer 0.
"""
import functools
import itertools

import pair_cases
import seal_cases
from der_cases import filled, length_bytes
from seal_cases import A, B, H, VERSIONS, VISA, enter, in_files
from seals import Dice, MOST, ROW, SIZES, TABLE, Seal, mixed, nearly_by_chance, padded
from writing import (FIELDS, ROOM, TOP, case_line, check, given_of, good, put_in, row, rows_of, runs, seal_of, table,
                     with_places, with_text, write, wrong)

CHAPTERS = {}                # chapter: [(heading, cases)]
family = functools.partial(enter, CHAPTERS)
BASES = {3: given_of(A), 4: given_of(B)}
EACH = BASES.values()

# ---- Document 01's list ---------------------------------------------------------------------
SEAL_A = H("DC02D9C5D9B75E6519A6319EF5319EF501020A04DE515826FF38") + b"\xAA" * 56
family("listed", "Document 01, Seal A, its bytes copied from there; version 4 with the references 00001 and 7.",
       [(given_of(A), SEAL_A)], good(Seal(4), Seal(4, reference="7")))
family("listed", "A country D<<, and with spaces for fillers, which is 21.",
       good(*(Seal(version, country="D<<") for version in VERSIONS)),
       *(wrong(21, base, "country", b"D  ", b"D< ", b"D <", b"DE ") for base in EACH))
family("listed", "Day 31 is good, day 32 and year 0 are 22.",
       good(Seal(3, issued=(3, 31, 1957)), Seal(4, signed=(3, 31, 1957))),
       *(wrong(22, base, name, (3, 32, 1957), (3, 25, 0)) for base in EACH for name in ("issued", "signed")))
family("listed", "Document 02, Ticket 3: 29 February 2000 is good; 29 February 1900 and 30 February are 22.",
       good(*(Seal(version, **{name: (2, 29, 2000)}) for version in VERSIONS for name in ("issued", "signed"))),
       *(wrong(22, base, name, (2, 29, 1900), (2, 30, 1957), (2, 30, 2000)) for base in EACH for name in ("issued", "signed")))
family("listed", "A version 3 length 80 means 128; a version 4 length 128 is 81 80.",
       good(*(Seal(version, features=[(1, b"\1" * 128)]) for version in VERSIONS)))

# ---- The header -----------------------------------------------------------------------------
HUGE = (2 ** 32, 2 ** 63 - 1, 2 ** 63, TOP)
family("header", "Other versions: 20, also those whose last byte or half is 3 or 4.",
       *(wrong(20, base, "version", 0, 1, 2, 5, 6, 255, 256, 259, 260, 2 ** 32 + 3, 2 ** 63 + 4, *HUGE, TOP - 252)
         for base in EACH))
COUNTRIES = "AAA ZZZ AZA A<< Z<< AZ< ZA< UTO".split()
FIRST_AND_LAST = (b"\0", b" ", b"/", b"0", b"9", b":", b";", b"=", b"@", b"[", b"`", b"a", b"z", b"\x80", b"\xC1", b"\xFF")
family("header", "Countries of letters and fillers: good, a letter first and no letter after a filler; else 21.",
       good(*(Seal(version, country=code) for version in VERSIONS for code in COUNTRIES)),
       *(wrong(21, base, "country", b"<<<", b"<UT", b"<<A", b"<A<", b"U<T") for base in EACH))
family("header", "Any other character at each place of the country: 21.",
       *(wrong(21, base, "country", *(put_in(code, k, c[0]) for code in (b"UTO", b"D<<") for k in range(3)
                                      for c in FIRST_AND_LAST)) for base in EACH))
DAYS = ((1, 1, 1), (12, 31, 9999), (1, 31, 1), (12, 1, 9999), (2, 28, 1900), (2, 29, 2004), (4, 30, 1957), (10, 10, 1000))
NO_DAYS = [(0, 1, 1), (13, 1, 1), (1, 0, 1), (1, 32, 1), (1, 1, 0), (1, 1, 10000), (0, 0, 0), (12, 31, 10000), (13, 31, 9999),
           (12, 32, 9999), (257, 1, 1), (1, 257, 1), (1, 1, 65537), (1, 100, 1), (1, 1, 20000),
           (2, 29, 1957), (2, 29, 2100), (2, 30, 2004), (2, 31, 9999), (4, 31, 1), (6, 31, 1957), (9, 31, 2000), (11, 31, 9999)]
NO_DAYS += [tuple(huge if k == place else 1 for k in range(3)) for place in range(3) for huge in (*HUGE, 2 ** 32 + 1)]
family("header", "First and last month, day and year, 28 or 29 February, by the year, and 30 April: good.",
       good(*(Seal(version, **{name: day}) for version in VERSIONS for name in ("issued", "signed") for day in DAYS)))
family("header", "Beside them, days that their month does not have, and great numbers: 22 for either date.",
       *(wrong(22, base, name, *NO_DAYS) for base in EACH for name in ("issued", "signed")))
family("header", "Definition reference and category 1, 2, 127, 128, 253 and 254: good. 0, 255 and over: 23.",
       good(*(Seal(version, definition=d, category=255 - d) for version in VERSIONS for d in (1, 2, 127, 128, 253, 254))),
       *(wrong(23, base, name, 0, 255, 256, 257, 510, 2 ** 32 + 1, *HUGE) for base in EACH
         for name in ("definition", "category")))

# ---- Signer, L and reference ----------------------------------------------------------------
family("reference", "Version 4 references of 1 to 255 characters: good. Text of fewer or more bytes: 21, whatever L says.",
       good(*(Seal(4, reference=("Z9" * 128)[:size]) for size in range(1, 256))),
       [(with_text(BASES[4], (b"UTAB" + b"Z9" * 130)[:size]), 21) for size in (0, 1, 2, 3, 4, 260, 261, 262, 264)],
       [(with_text(BASES[4], (b"UTAB" + b"Z9" * 130)[:size])._replace(length=1), 21) for size in (0, 1, 3, 4, 260)])
family("names", "Version 3 text that has not 9 bytes: 21, also with L of 5.",
       [(with_text(BASES[3], (b"UTAB000012345" * 25)[:size]), 21) for size in (*range(9), 10, 11, 12, 259, 260)],
       [(BASES[3]._replace(text=(b"UTAB0000123")[:size]), 21) for size in (0, 3, 4, 5, 8, 10, 11)])
family("names", "L that is not the reference's length: 21.",
       *(wrong(21, base, "length", *({0, 1, 4, 5, 6, 7, 8, 255, base.length + 4, base.length + 256, *HUGE, TOP - 3}
                                     - {base.length})) for base in EACH))
family("names", "Letters at each place of the text, and digits from the third on: good. Any other character: 21.",
       *([(given, seal_of(given) if c in b"AZ" or (k > 1 and c in b"09") else 21)]
         for base in EACH for k in range(len(base.text)) for c in (*FIRST_AND_LAST, b"A", b"Z", b"<")
         for given in [base._replace(text=put_in(base.text, k, c[0]))]))

# ---- Rows -----------------------------------------------------------------------------------
family("rows", "No rows, with values and without: good. Tables that are not in fours, of under a row and about 255 too: 24.",
       *([(base._replace(rows=[], values=values), seal_of(base._replace(rows=[]))) for values in (b"", b"\1", base.values)]
         for base in EACH),
       *(wrong(24, base, "rows", *([*range(k)] for k in range(1, ROW)), *(row(7, 0, 1) + [*range(k)] for k in range(1, ROW)),
               *([0] * (TABLE + k) for k in (-1, 1, 2)), [0] * 765) for base in EACH))
VALUES = bytes(range(1, 21))
FEATURES = [(7, VALUES[4:6]), (8, b""), (9, VALUES[5:6])]
THREE_ROWS = table((7, 4, 2), (8, 0, 0), (9, 5, 1))     # which say these


def of_features(version, rows, features, values):
    """Rows over values, which say these features."""
    return given_of(Seal(version))._replace(rows=rows, values=values), Seal(version, features=features).data()


family("rows", "Tables of 0 to 13 numbers, the front of the same rows: 0, 4, 8 and 12 numbers are good, any other count is 24.",
       [(given, 24 if size % ROW else seal) for version in VERSIONS for size in range(len(THREE_ROWS) + 2)
        for given, seal in [of_features(version, (THREE_ROWS + [1])[:size], FEATURES[:size // ROW], VALUES)]])
OLD_ROWS = [7, 0, 1, 8, 0, 0, 9, 0, 1, 6, 1, 1]         # rows of three, as they were
family("rows", "Rows of three numbers, one to three of them: 24. Four of them are three rows of four, and are taken for what "
       "those say: 7 with eight values from the second on, 0 with none, 1 with the second; with fewer values 24.",
       *(wrong(24, base._replace(values=VALUES), "rows", *(OLD_ROWS[:3 * k] for k in (1, 2, 3))) for base in EACH),
       [of_features(version, OLD_ROWS, [(7, VALUES[1:9]), (0, b""), (1, VALUES[1:2])], values)
        for version in VERSIONS for values in (VALUES, VALUES[:9])],
       *(wrong(24, base._replace(rows=OLD_ROWS), "values", VALUES[:8], VALUES[:4], b"") for base in EACH))


def one_row(version, size, place, length):
    """A row over so many values: good when it ends at the end or before."""
    base = BASES[version]._replace(rows=row(7, place, length), values=bytes(range(1, size + 1)))
    return base, seal_of(base) if place + length <= size else 24


family("rows", "A row at each place and of each length, up to two past the end of 4, 1 and no values: good up to the end, "
       "also empty there, and beyond it 24, also empty.",
       [one_row(version, size, place, length) for version in VERSIONS for size in (4, 1, 0) for place in range(size + 3)
        for length in range(size + 3)])
GREAT = (256, 2 ** 16, 2 ** 32, 2 ** 32 + 1, 2 ** 63 - 1, 2 ** 63, TOP - 4, TOP - 3, TOP - 1, TOP)
family("rows", "Great places and lengths: 24, also where place and length together pass 2 to the 64 or come to 2 to the 64.",
       *(wrong(24, base._replace(values=b"\1\2\3\4"), "rows", *(row(7, *pair) for great in GREAT for pair in (
           (great, 0), (great, 1), (0, great), (1, great), (4, great), (great, TOP + 1 - great), (great, great))))
         for base in EACH))
family("tags", "A tag of 254 is good. Over 254, also with the last byte of a good tag: 24.",
       good(*(Seal(version, features=[(tag, b"\1")]) for version in VERSIONS for tag in (0, 1, 127, 128, 253, 254))),
       *(wrong(24, base, "rows", *(row(tag, 0, 1) for tag in (255, *GREAT, 266)), row(10, 0, 1) + row(266, 0, 1),
               row(10, 0, 1) + row(255, 0, 0)) for base in EACH))
TAGS = table(*((tag, 0, 0) for tag in range(255)))
family("tags", "All 255 tags: good. A tag used twice, next to the first, far from it, and as a 256th row: 24.",
       *(good(Seal(version, features=[(tag, b"") for tag in order])) for version in VERSIONS
         for order in (range(255), range(254, -1, -1))),
       *(wrong(24, base, "rows", *(table(*rows) for rows in (
           ((7, 0, 1), (7, 0, 1)), ((7, 0, 1), (7, 1, 0)), ((7, 0, 1), (8, 0, 1), (7, 2, 1)), ((8, 0, 1), (7, 0, 1), (7, 0, 1)),
           ((0, 0, 0), (0, 0, 0)), ((254, 0, 1), (0, 0, 1), (254, 0, 1)))),
               TAGS + row(0, 0, 0), TAGS + row(254, 0, 0), TAGS + row(100, 0, 0),
               TAGS[:-ROW] + row(253, 0, 0), TAGS + TAGS[:8 * ROW]) for base in EACH))
SHARED = ((1, 0, 4), (2, 0, 4), (3, 2, 2), (4, 1, 2), (5, 3, 0), (6, 4, 0), (0, 3, 1))
family("tags", "Rows that share values, in any order, and values that no row takes: good.",
       *([(given, seal_of(given))] for base in EACH for values in (VISA[1], VISA[1] + bytes(9))
         for rows in (SHARED, SHARED[1:2], ((9, 3, 1), (8, 2, 1), (7, 1, 1), (6, 0, 1)))
         for given in [base._replace(rows=table(*rows), values=values)]))
family("tags", "A fault in any row is found: the first, one between, the last; a fault outside the values with no room too.",
       *(wrong(24, base._replace(room=room), "rows", *(table(*(bad if k == at else (k, 0, 1) for k in range(5)))
                                                       for at in (0, 2, 4) for bad in ((9, 99, 0), (9, 0, 99), (255, 0, 0))))
         for base in EACH for room in (ROOM, 0)))


# ---- The second number ----------------------------------------------------------------------
def seconds(read, given):
    """Second numbers for a row, as it is read and as it is given: the tag's place, the value's, beside them, and others."""
    return (read.tag_place, read.tag_place - 1, read.tag_place + 1, read.value_place, given.value_place, given.tag, 0, 1, 254,
            255, 256, MOST, 2 ** 32, 2 ** 63 - 1, 2 ** 63, TOP - 1, TOP)


def alike(seal, changed):
    """What a seal is put together from, with each kind of second number in the rows that are to change: the same seal."""
    base = given_of(seal)
    kinds = zip(*map(seconds, seal.content.rows, rows_of(base.rows)))
    return [(with_places(base, {k: places[k] for k in changed}), seal.data()) for places in kinds]


SECOND = (A, B, Seal(3, features=[(1, b"\7" * 9), VISA, (0, b"")]),
          Seal(4, features=[(3, b"\7" * 130), (2, b"\1"), (1, b"\2\3")]))
family("second", "Document 02, Ticket 10: the second number is ignored. 0, the tag's place, the value's, beside them, 255, 2 "
       "to the 32, 2 to the 63, 2 to the 64 less 1, and others, in one row and in all: written alike.",
       *(alike(seal, [k]) for seal in SECOND for k in range(len(seal.content.rows))),
       *(alike(seal, range(3)) for seal in SECOND[1:]))
family("second", "The same for 255 features, with 0 in all rows, and with 2 to the 64 less 1 in all and in the last alone.",
       [(with_places(given_of(seal), dict.fromkeys(changed, place)), seal.data()) for version in VERSIONS
        for seal in [Seal(version, features=[(tag, bytes([tag])) for tag in range(254, -1, -1)])]
        for changed, place in ((range(255), 0), (range(255), TOP), ([254], TOP))])
family("second", "A second number that would be good does not mend a row: a tag over 254 or used twice, a value outside the "
       "values, a table not in fours are 24, a value over 255 bytes in version 3 is 25.",
       *(wrong(24, base, "rows", *(with_places(base._replace(rows=table(*rows)), {0: place, 1: place}).rows + more
                                   for place in (0, 1, 7, 18) for rows, more in (
               (((255, 0, 1),), []), (((7, 0, 1), (7, 0, 1)), []), (((7, 99, 0),), []), (((7, 0, 99),), []),
               (((7, TOP, 1),), []), (((7, 0, 1), (8, 1, TOP)), []), (((7, 0, 1),), [0]), (((7, 0, 1),), [0, 0, 0]))))
         for base in EACH),
       [(with_places(BASES[3]._replace(rows=row(7, 0, 256), values=bytes(256)), {0: place}), 25) for place in (0, 1, 255, TOP)])

# ---- Values ---------------------------------------------------------------------------------
family("values", "Version 3 values up to 255 bytes, version 4 values over them: good, one and two of them.",
       good(*(Seal(3, features=features) for size in (0, 1, 2, 127, 128, 129, 254, 255) for value in [b"\xC3" * size]
              for features in ([(9, value)], [(9, value), (8, b"\1"), (7, value)]))),
       good(*(Seal(4, features=features) for size in (0, 1, 127, 128, 129, 255, 256, 257, 511, 512, 1000, 1980)
              for value in [b"\xC3" * size] for features in ([(9, value)], [(9, value), (8, b"\1"), (7, value)]))))
family("values", "Version 3 values of 256 and more: 25, in any row. In version 4 the same is good, or 27 if it is too long.",
       *([(given, 25), (four, 27 if len(seal_of(four)) > MOST else seal_of(four))]
         for size in (256, 257, 300, 511, 512, 4000, 4096, 4500) for at in (0, 1, 2)
         for rows in [table(*((k, 0, size if k == at else 1) for k in range(3)))]
         for given in [BASES[3]._replace(rows=rows, values=b"\xC3" * size)]
         for four in [BASES[4]._replace(rows=rows, values=b"\xC3" * size)]))
family("values", "All rows are judged for 24 before any for 25.",
       wrong(24, BASES[3]._replace(values=bytes(300)), "rows", *(
           table((1, 0, 256), bad) for bad in ((1, 0, 1), (255, 0, 1), (2, 301, 0), (2, 0, 301), (2, TOP, 1))),
             row(1, 0, 256) + [2], table((1, 0, 255), (2, 0, 256), (3, 300, 1))))

# ---- The signature --------------------------------------------------------------------------
family("signature", "Every length from 0 to 140, and beyond: 56, 64, 96, 128 and 132 are good, any other 26.",
       *([(given, seal_of(given) if size in SIZES else 26)] for base in EACH
         for size in (*range(141), 255, 256, 264, 312, 388, 4095, MOST, MOST + 1, 8000)
         for given in [base._replace(signature=b"\xA5" * size)]))

# ---- Sizes and rooms ------------------------------------------------------------------------
LONGEST = Seal(4, reference="Z9A" * 85)
family("sizes", "The smallest seal, the longest header, and seals of 4,094 to 4,096 bytes: good. 4,097 and more: 27.",
       good(Seal(3), Seal(4, reference="7"), LONGEST,
            *(padded(version, size, **form) for version in VERSIONS for size in (4094, 4095, MOST)
              for form in ({}, {"raw": b"\xFF" * 132}, {"count": 200})), padded(4, MOST, reference="F" * 255)),
       *(wrong(27, given_of(padded(version, size, **form)), "room", ROOM, 7000) for version in VERSIONS
         for size in (4097, 4098) for form in ({}, {"raw": b"\xFF" * 132}, {"count": 200})),
       wrong(27, given_of(padded(4, 4097, reference="F" * 255)), "room", ROOM, 4097))
family("sizes", "One version 4 value that takes the seal to 4,096 bytes is good, one byte more is 27.",
       *([(given, seal_of(given) if len(seal_of(given)) <= MOST else 27)] for reference in ("7", "0A1", "F" * 255)
         for size in (3700, 3828, 3838, 3839, 3840, 3841, 3996, 4006, 4015, 4016, 4017, 4018, 4019, 4096)
         for given in [given_of(Seal(4, reference=reference, features=[(3, b"\xD2" * size)]))]))
MANY = [given_of(Seal(version))._replace(values=b"\xE1" * size, rows=table(*((tag, 0, size) for tag in range(255))))
        for version, size in ((3, 255), (4, 4096))]
family("values", "Rows that share the values and come to 65,000 and to a million bytes: 27.",
       *(wrong(27, given, "room", ROOM, 76, 0) for given in MANY))


def rooms(seal, *sizes):
    """A seal in so much room: written where all of it fits, and else 28."""
    size = len(seal.data())
    return [(given_of(seal)._replace(room=room), seal.data() if room >= size else 28)
            for room in sorted({0, 1, 2, 18, size // 2, size - 2, size - 1, size, size + 1, size + 15, *sizes}) if room >= 0]


family("rooms", "Every room from 0 to past the seal: exact and more is good, less is 28 and leaves all bytes.",
       rooms(A, *range(90)), rooms(B, *range(99)))
family("rooms", "Room exact, more, one short and far short, for small and great seals.",
       *(rooms(seal, 4095, 4096, 4097, 7000) for seal in (
           Seal(3), Seal(4, reference="7"), LONGEST, Seal(3, raw=b"\x11" * 132), Seal(4, raw=b"\x11" * 132),
           *(padded(version, size) for version in VERSIONS for size in (300, 4095, MOST)),
           padded(4, 4095, reference="F" * 255))))

# ---- Several refusals at once ---------------------------------------------------------------
# Each fault: the fields it changes, and the rows it adds. A value over 255 comes before the tag used twice.
PLAIN = {version: given_of(Seal(version))._replace(values=VISA[1] + b"\x5A" * 4092, rows=row(10, 0, 4))
         for version in VERSIONS}
FAULTS = {20: {"version": 2}, 21: {"country": b"U<O"}, 22: {"signed": (3, 32, 1957)}, 23: {"category": 255},
          25: {"rows": row(11, 4, 256)}, 24: {"rows": row(10, 0, 0)}, 26: {"signature": b"\xAA" * 57}, 28: {"room": 75}}
LONG = {3: table(*((tag, 0, 255) for tag in range(12, 28))), 4: row(12, 1, 4095)}


def at_once(version, numbers):
    """What is given with all these faults: the first of them is answered. Without any it is good."""
    given, faults = PLAIN[version], {**FAULTS, 27: {"rows": LONG[version]}}
    for fault in (fault for number, fault in faults.items() if number in numbers):
        given = given._replace(**{name: given.rows + form if name == "rows" else form for name, form in fault.items()})
    return given, min(numbers) if numbers else seal_of(given)


def sets(numbers, *more):
    return [(*some, *more) for k in range(len(numbers) + 1) for some in itertools.combinations(numbers, k)]


family("several3", "Version 3: every set of the numbers but 27, all at once: the smallest is answered.",
       [at_once(3, some) for some in sets((20, 21, 22, 23, 24, 25, 26, 28))])
family("toolong", "Version 3: the same with 27.", [at_once(3, some) for some in sets((20, 21, 22, 23, 24, 25, 26, 28), 27)])
family("several4", "Version 4: every set of the numbers, all at once. 25 is of version 3 alone.",
       [at_once(4, some) for some in sets((20, 21, 22, 23, 24, 26, 27, 28))])


# ---- Mixed ----------------------------------------------------------------------------------
def shuffled(dice, count):
    return sorted(range(count), key=lambda k: (dice.below(10 ** 6), k))


def changed(dice, given):
    """What is given with one field changed by chance."""
    name = FIELDS.split()[dice.below(12)]
    old, at = getattr(given, name), dice.below(300)
    if name in ("country", "text"):
        new = put_in(old, at % len(old), b"<AZ09 a["[dice.below(8)])
    elif name in ("issued", "signed"):
        new = tuple(dice.below((14, 33, 10001)[k]) if k == at % 3 else n for k, n in enumerate(old))
    elif name == "rows":
        new = [dice.below(14) if k == at % len(old) else n for k, n in enumerate(old)]
        new = new[:len(new) - dice.below(2) * dice.below(ROW)]
    elif name in ("values", "signature"):
        new = old[:max(0, len(old) - dice.below(3))]
    elif name == "room":
        new = 70 + dice.below(120)
    else:
        new = old + dice.below(3) - 1 if dice.below(2) else dice.below(257)
    return given._replace(**{name: new})


DICE = Dice(1303)
MIXED = [(given_of(seal, shuffled(DICE, len(seal.content.rows)), DICE.data(DICE.below(4))), seal.data())
         for seal in (mixed(DICE) for _ in range(60))]
family("mixed", "Both versions, every field, tag, value and size by chance, the values in any order and with gaps.", MIXED)
family("ignored", "Seals by chance, the values in any order and with gaps, with second numbers by chance: written alike.",
       [(with_places(given, {k: (DICE.below(100), DICE.below(2 ** 31) * 2 ** 33, TOP)[DICE.below(3)] for k in range(5)}), seal)
        for given, seal in MIXED])
family("mixed", "The same with one field changed by chance: by the reference.",
       [(given, write(given)) for given in (changed(DICE, given) for given, _ in MIXED for _ in range(6))])
family("dates", "Seals by chance, but with a day that its month does not have as issue or signature date: 22.",
       [(given._replace(**{("issued", "signed")[DICE.below(2)]: nearly_by_chance(DICE)}), 22) for given, _ in MIXED])


# ---- Checks and output ----------------------------------------------------------------------
def checked(families):
    """The entries of a chapter of what is given."""
    for heading, cases in families:
        for given, answer in cases:
            check(given, answer, heading)
            yield heading, case_line(given), filled(answer)


def written_back():
    """The entries of the seals of the reader's cases that answer 0, each seal once."""
    seals = {data: None for families in itertools.chain(seal_cases.CHAPTERS.values(), pair_cases.CHAPTERS.values())
             for _, cases in families for data, _, _, answer in cases if answer.number == 0}
    return [("Accepted seals of the reader's cases: read, and written back as they were.", "b" + runs(data),
             "same " + filled(data)) for data in seals]


def chapters():
    """Each file of a chapter: its name, the lines of its cases, and of their answers."""
    assert A.data() == SEAL_A and Seal(3, country="D<<").parts["country"] == H("6ABC") and length_bytes(128) == H("8180")
    for reference, form in (("00001", "D9B75E6A19A519C9"), ("7", "D9B75E66FE38")):
        assert H(form) in Seal(4, reference=reference).data()
    for chapter, families in CHAPTERS.items():
        yield from in_files(chapter, checked(families))
    yield from in_files("back", written_back())
