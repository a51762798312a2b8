"""The cases of the reader, made from document 01 by way of the reference in seals.py; those of its pairs are in pair_cases.py.

Where a seal is put together from parts, the case's answer is stated from what was put together (this part was made wrong, so
the answer is its number at its place), and the reference must agree. Only where a heading says "by the reference" is the
answer the reference's alone.
"""
import functools
import re

from c40_cases import CHART, PAIR_OF, S0, S1, S2
from der_cases import length_bytes
from seals import (Answer, MOST, MOST_LENT, ROW, SIZES, TABLE, Seal, c40, cuts, ended, good, judge, mixed_cases, padded, read,
                   refused, wrong, wrong_pair)

H = bytes.fromhex
CHAPTERS = {}   # chapter: [(heading, cases)]
VERSIONS = (3, 4)
FILE = 64000    # bytes of a file of cases or of its answers, headings apart: the program's buffers have 65,536


def enter(chapters, chapter, heading, *groups):
    """Puts groups of cases under a heading of a chapter."""
    chapters.setdefault(chapter, []).append((heading, [case for group in groups for case in group]))


family = functools.partial(enter, CHAPTERS)


VISA = (10, H("DE515826"))
A = Seal(3, features=[VISA])
B = Seal(4, country="D<<", signer="DEZ9", reference="0A1B2C3", issued=(1, 31, 1), signed=(12, 1, 9999), definition=254,
         category=3, features=[VISA, (0, b""), (254, b"\xFF\x38\xAA")], raw=b"\x80" * 56)
PLAIN = {version: Seal(version) for version in VERSIONS}
BASES = {3: A, 4: B}
LONGEST = Seal(4, reference="Z9A" * 85)

# ---- Document 01's list ---------------------------------------------------------------------
family("listed", "Document 01, Seal A, and its refusals: one byte more, one less, a second tag 0A; no bytes; 4,097 bytes.",
       good(A), refused(11, 82, A.data() + b"\0"), refused(2, 26, A.data()[:81]), refused(2, 0, b""),
       refused(9, 24, A.before("end") + b"\x0A" + A.after("value0"), A.before("end") + b"\x0A"),
       refused(1, 4096, bytes(4097), A.data() + bytes(4015)))
family("listed", "Version 4, UTAB with the references 00001 and 7, their bytes copied from document 01.",
       *(good(seal) for seal in (Seal(4), Seal(4, reference="7"))))
family("listed", "A version 4 length 81 7F is 8 and 81 80 is good; a version 3 length 80 means 128.",
       wrong(8, Seal(4, features=[(1, b"\1" * 127)]), "length0", H("817F")),
       good(*(Seal(version, features=[(1, b"\1" * 128)]) for version in VERSIONS)))
family("listed", "Day 31 is good, day 32 and year 0 are 6.",
       good(Seal(3, issued=(3, 31, 1957)), Seal(4, signed=(3, 31, 1957))),
       *(wrong(6, PLAIN[version], name, number.to_bytes(3, "big")) for version in VERSIONS for name in ("issued", "signed")
         for number in (3321957, 3250000)))
family("listed", "Document 02, Ticket 3: 29 February 2000 is good; 29 February 1900 and 30 February are 6. Both dates.",
       good(*(Seal(version, **{name: (2, 29, 2000)}) for version in VERSIONS for name in ("issued", "signed"))),
       *(wrong(6, PLAIN[version], name, number.to_bytes(3, "big")) for version in VERSIONS for name in ("issued", "signed")
         for number in (2291900, 2301957, 2302000)))

# ---- The header -----------------------------------------------------------------------------
PAIRS_NOT_TEXT = [H(pair) for pair in "0000 0001 FA01 FDFF FE00 FE20 FE3D FE5C FE62 FEFF FF00 FFFF".split()] + [
    PAIR_OF[triple] for triple in ((S0, 65, 65), (65, S1, 65), (65, 65, S1), (65, 65, S2), (S2, 65, 65), (65, S0, S0))]
SHORT_PAIRS = [c40(t) for t in ("A", "7", " ", "AB", "A7", "  ")]     # good text, but of one or two characters
family("header", "Other first bytes are 3 at 0, other version bytes 4 at 1.",
       *(wrong(3, base, "mark", *map(bytes, ([0], [1], [2], [0x7F], [0x80], [0xDB], [0xDD], [0xFE], [0xFF])))
         + wrong(4, base, "version", *map(bytes, ([0], [1], *([b] for b in range(4, 12)), [0x7F], [0x80], [0xDC], [0xFF])))
         for base in BASES.values()))
family("header", "Countries: UTO, UT<, D<<, ZZZ and AAA are good.",
       good(*(Seal(version, country=country) for version in VERSIONS
              for country in ("UTO", "UT<", "D<<", "ZZZ", "AAA", "A<<", "ZZ<", "AZ<"))))
COUNTRIES = [c40(t) for t in ("   ", "  D", " D ", " DE", "D E", "1TO", "U1O", "UT1", "U1 ", "9  ", "D 9", " 0 ", "000")]
family("header", "Countries with a filler before a letter, digits, no letter, or that are no three characters: 5 at 2.",
       *(wrong(5, BASES[version], "country", *COUNTRIES, *PAIRS_NOT_TEXT, *SHORT_PAIRS) for version in VERSIONS))
DATES = {"good": (1010001, 12319999, 1310001, 2281900, 2290004, 2290400, 12010001, 10100001, 9309999),
         "wrong": (0, 1, 1000001, 1320001, 320001, 13010001, 13319999, 1010000, 12310000, 12320001, 12319999 + 1, 12990001,
                   1310000, 10000, 100001, 10001, 2 ** 24 - 1, 16000000, 15319999, 99999),
         "past the month": (2290001, 2290100, 2291957, 2292100, 2299999, 2300004, 2310400, 2319999, 4311957, 6310001, 9312000,
                            11319999)}
family("header", "Dates of the first and last month, day and year are good, and 28 or 29 February, by the year.",
       good(*(Seal(version, **{name: (n // 10 ** 6, n // 10 ** 4 % 100, n % 10 ** 4)}) for version in VERSIONS
              for name in ("issued", "signed") for n in DATES["good"])))
family("header", "Month 0 or 13, day 0 or 32, year 0, numbers up to FFFFFF: 6 at the date. Both dates, both versions.",
       *(wrong(6, BASES[version], name, *(n.to_bytes(3, "big") for n in DATES["wrong"]))
         for version in VERSIONS for name in ("issued", "signed")))
family("header", "A day that its month does not have, in a common year or in any: 6 at the date. Both dates, both versions.",
       *(wrong(6, BASES[version], name, *(n.to_bytes(3, "big") for n in DATES["past the month"]))
         for version in VERSIONS for name in ("issued", "signed")))
family("header", "Definition reference and category: 0 and 255 are 7 there, 1, 2, 127, 128, 253 and 254 are good.",
       *(wrong(7, BASES[version], name, b"\0", b"\xFF") for version in VERSIONS for name in ("definition", "category")),
       *(good(Seal(version, definition=d, category=255 - d)) for version in VERSIONS for d in (1, 2, 127, 128, 253, 254)))
family("header", "Of two faults the one further left is named; an item that is cut is 2, whatever is there of it.",
       *(ended(number, base, name, bytes(40), b"\xFF" * 40) for base in BASES.values() for name, number in (
           ("mark", 3), ("version", 4), ("country", 5), ("names", 5), ("issued", 6), ("signed", 6), ("definition", 7),
           ("category", 7))),
       ended(5, B, "reference", bytes(40), b"\xFF" * 40),
       *(ended(2, base, name, *(fill * k for k in range(size) for fill in (b"\0", b"\xFF")))
         for base in BASES.values() for name, size in (("country", 2), ("names", len(base.parts["names"])),
                                                       ("issued", 3), ("signed", 3))),
       ended(2, B, "reference", *(fill * k for k in range(6) for fill in (b"\0", b"\xFF"))))

# ---- Signer, L and reference ----------------------------------------------------------------
ABOUT = " 09AMZ"      # the border characters of the chart
NAMES = [(k, c, "UT7Q"[:k] + c + "UT7Q"[k + 1:]) for k in range(4) for c in ABOUT]
SIGNERS = [name for k, c, name in NAMES if c.isalpha() or (k > 1 and c.isdigit())]
family("names", "Border characters at each place of the signer: letters are good, digits from the third on, a space nowhere.",
       *(good(Seal(version, signer=name)) for version in VERSIONS for name in SIGNERS),
       *(wrong(5, A, "names", c40(name + "00001")) for _, _, name in NAMES if name not in SIGNERS),
       *(wrong(5, PLAIN[4], "names", c40(name + "05")) for _, _, name in NAMES if name not in SIGNERS))
family("names", "Border characters at each place of a version 3 reference: a space is 5 at 4.",
       *(good(Seal(3, reference=name)) if c != " " else wrong(5, A, "names", c40("UTAB" + name))
         for k in range(5) for c in ABOUT for name in ["3F0Z8"[:k] + c + "3F0Z8"[k + 1:]]))
family("names", "The same in version 4, for references of 1 to 7 characters: a space is 5 at 8.",
       *(good(Seal(4, reference=name)) if c == "Z"
         else wrong(5, Seal(4, reference=name.replace(" ", "A")), "reference", c40(name))
         for size in range(1, 8) for k in range(size) for c in " Z" for name in ["5BEEF0A"[:k] + c + "5BEEF0A"[k + 1:size]]))
SIZES_OF_L = (*range(1, 20), 26, 31, 32, 33, 47, 63, 64, 90, 99, 100, 127, 128, 129, 159, 160, 175, 176, *range(250, 256))
family("names", "References of 1 to 255 characters: the length in two hexadecimal digits.",
       good(*(Seal(4, reference=("7A0" * 85)[:size]) for size in SIZES_OF_L)))
LENGTHS = [bytes([c]).decode() for c in CHART]
family("names", "Every character of the chart as either digit of L: 0 to 9 and A to F are good, others and 00 are 5 at 4.",
       *(good(Seal(4, reference="B" * int(text, 16))) if re.fullmatch("[0-9A-F]{2}", text)
         else wrong(5, Seal(4, reference="BBB"), "names", c40("UTAB" + text)) for c in LENGTHS for text in (c + "1", "1" + c)),
       wrong(5, PLAIN[4], "names", *(c40("UTAB" + text) for text in ("00", "  ", " 0", "0 ", "GG", "FG"))),
       ended(5, PLAIN[4], "names", *(c40("UTAB" + text) for text in ("00", "FG", " 1"))))
family("names", "A reference that is cut is 2 at 8 for every L, also when what is there is wrong.",
       *(ended(2, seal, "reference", b"", form[:-1], form[:-2], bytes(len(form) - 1), b"\xFF" * (len(form) - 1))
         for size in (1, 2, 3, 4, 16, 253, 254, 255) for seal in [Seal(4, reference="1" * size)]
         for form in [seal.parts["reference"]]))

# ---- Features -------------------------------------------------------------------------------
family("features", "No feature, tags 0, 1, 127, 128, 253 and 254, unknown tags in any order, with empty values first, between "
       "and last: an empty value's place is the one after its length.",
       good(*PLAIN.values(), *(Seal(version, features=features) for version in VERSIONS for features in (
           [(0, b"")], [(254, b"")], [(254, b"\0")], [(127, b"\1"), (128, b"\2\3")], [(253, b""), (1, b""), (0, b"")],
           [(3, b"\7" * 5), (2, b""), (1, b"\7")], [(1, b""), (2, b"\7"), (3, b"")], [(200, b"\0" * 7), (100, b"")]))))
BIG = (0, 1, 126, 127, 128, 129, 130, 131, 132, 254, 255)
family("features", "Values of 7F, 80, 81, 84 and FF bytes and beside them, of the bytes 00, 80, 81, 84 and FF: one plain byte "
       "is their length in version 3, a DER length in version 4.",
       good(*(Seal(version, features=[(1, bytes([fill]) * size), (2, b"\1")]) for version in VERSIONS for size in BIG
              for fill in ((0x00, 0x80, 0x81, 0x84, 0xFF) if size in (127, 128, 129, 132, 255) else (0x81, 0xFF)))))
family("features", "Values of 256 bytes and more in version 4: 82 and two bytes.",
       good(*(Seal(4, features=[(254, b"\x82" * size)]) for size in (256, 257, 511, 512, 1023, 1024, 4000, 4011))))
FAKE = b"\xFF\x38" + b"\xAA" * 56
family("features", "FF inside a value, first, last, before what could be a signature, and as a version 3 length: no mark.",
       good(*(Seal(version, features=features) for version in VERSIONS for features in (
           [(1, b"\xFF")], [(1, b"\xFF" * 3), (2, b"\0\xFF")], [(1, FAKE)], [(1, b"\1" + FAKE), (2, FAKE + b"\2")],
           [(1, b"\xFF" * 255)], [(1, b"\xFF\x38\xFF" * 85), (254, b"\xFF\xFF")]))))
MANY = {version: Seal(version, features=[(tag, b"") for tag in range(255)]) for version in VERSIONS}
DOWN = {version: Seal(version, features=[(tag, b"\xFF") for tag in range(254, -1, -1)]) for version in VERSIONS}
family("features", "255 features, every tag once, up and down.", good(*MANY.values(), *DOWN.values()))
family("features", "A 256th tag repeats, whatever it is: 9 at the tag, also as the last byte.",
       *(case for seals in (MANY, DOWN) for seal in seals.values() for case in (
           wrong(9, seal, "end", b"\xFE\0"), ended(9, seal, "end", b"\0", b"\x7F", b"\xFE"))))


def repeated(features, at):
    """Feature `at` has a tag used before: the whole seal, and all up to that tag, with a wrong length after it or none."""
    tails = (b"", b"\x80", b"\x81\0", b"\xFF") if at < 9 else (b"",)
    return [case for version in VERSIONS for seal in [Seal(version, features=features)] for name in [f"tag{at}"]
            for case in refused(9, seal.at(name), seal.data(), *(seal.before(f"length{at}") + tail for tail in tails))]


family("features", "Tags repeated: neighbours, first with last, in the middle; of two repeats the first is named. The tag is "
       "judged before its length, so a length that is missing or malformed after it does not count.",
       *(repeated([(tag, b"\5" * size) for tag, size in features], at) for features, at in (
           ([(0, 0), (0, 0)], 1), ([(254, 1), (254, 1)], 1), ([(7, 2), (8, 0), (7, 1)], 2), ([(7, 2), (8, 0), (8, 1)], 2),
           ([(1, 1), (2, 2), (3, 3), (2, 2), (1, 1)], 3), ([(1, 0), (2, 0), (3, 0), (1, 0), (1, 0)], 3),
           ([(tag, 0) for tag in range(254)] + [(0, 0)], 254), ([(tag, 0) for tag in range(254)] + [(253, 0)], 254),
           ([(tag, 1) for tag in range(100)] + [(99, 9)], 100), ([(1, 128), (2, 255), (1, 130)], 2))))
family("features", "The features end with the input: 2 at the tag that is missing; a tag and nothing: 2 at the length; too few "
       "bytes after a length: 2 at the value.",
       *(refused(2, len(front), front) + refused(2, len(front) + 1, front + b"\x0B") + refused(
           2, len(front) + 2, *(front + b"\x0B" + bytes([size]) + b"\xFF" * there for size, there in (
               (1, 0), (2, 1), (5, 4), (127, 126), (127, 0))))
         for version in VERSIONS for seal in (PLAIN[version], BASES[version], LONGEST) for front in [seal.before("end")]),
       *(refused(2, 20, A.before("tag0") + bytes([11, size]) + b"\xFF" * (size - 1)) for size in (128, 129, 130, 132, 255)))

# ---- Where features begin -------------------------------------------------------------------
family("places", "Document 02, Ticket 10: the row of Seal A's feature is 10, 18, 20, 4. The first tag stands where the header "
       "ends: version 3, and references of 1 to 255 characters.",
       good(A, Seal(3, features=[(0, b""), VISA])),
       good(*(Seal(4, reference=("7A0" * 85)[:size], features=[VISA, (0, b"")])
              for size in (*range(1, 13), 31, 32, 99, 127, 128, 129, 250, 251, 252, 253, 254, 255))))
family("places", "Each next tag stands where the value before it ends, after a length of one byte, of two and of three.",
       good(*(Seal(version, features=[(1, b"\1" * size), (2, b""), (3, b"\3" * size)]) for version in VERSIONS
              for size in (0, 1, 2, 126, 127, 128, 129, 254, 255))),
       good(*(Seal(4, features=[(3, b"\1" * a), (2, b"\2" * b), (1, b"\3" * c), (0, b"")]) for a, b, c in (
           (256, 0, 1), (0, 256, 127), (127, 128, 256), (257, 255, 128), (128, 1000, 0), (1000, 127, 1000)))))
family("places", "Values that could be features, with the tags of those before and behind, and FF: no tag is sought in them.",
       good(*(Seal(version, features=features) for version in VERSIONS for features in (
           [(1, b"\2\1\7"), (2, b"\1\1\7"), (3, b"\3\0")], [(2, b"\2"), (1, b"\2\2\2"), (0, b"\0" * 5), (10, b"\x0A\x04")],
           [(5, b"\xFF\x38"), (6, b"\xFF"), (254, b"\xFE\0\xFF")],
           [(18, b"\x12" * 18), (20, b"\x14" * 20), (22, b"\x16" * 22)]))))

# ---- DER lengths ----------------------------------------------------------------------------
NOT_SHORTEST = [H(form) for form in (
    "8100 8101 8138 8140 8160 817F 820000 820001 820038 82007F 820080 820084 8200FF 83000000 83000038 8300007F 83000080 "
    "830000FF 83000100 8300FFFF 8400000000 8400000001 8400000038 8400000080 84000000FF 8400000100 8400010000 "
    "8400FFFFFF").split()]
NO_FORM = [bytes([b]) for b in (0x80, *range(0x85, 0x100))]
CUT_FORMS = [bytes([0x80 + k]) + fill * there for k in range(1, 5) for there in range(k) for fill in (
    (b"\0", b"\1", b"\xFF") if there else (b"",))]
GREAT = [H(form) for form in (
    "8180 81FF 820100 82FFFF 83010000 83FFFFFF 8401000000 847FFFFFFF 8480000000 84FFFFF000 84FFFFFFFE 84FFFFFFFF").split()]
LONG = Seal(4, features=[(5, b"\1" * 200), (6, b"")])
family("lengths", "Version 4 lengths that are not the shortest: 8 at the length.",
       wrong(8, B, "length0", *NOT_SHORTEST), wrong(8, LONG, "length1", *NOT_SHORTEST))
family("lengths", "80 and 85 to FF, before bytes and as the last byte: 8 at the length.",
       wrong(8, B, "length0", *NO_FORM), ended(8, B, "length2", *NO_FORM))
family("lengths", "81 to 84 with a byte missing: 2 at the length, also where the bytes that are there begin with 00.",
       ended(2, B, "length0", *CUT_FORMS), ended(2, LONG, "length1", *CUT_FORMS))
family("lengths", "Great lengths up to FFFFFFFF: good lengths, and the value is then cut, 2 at the value.",
       *(refused(2, len(front) + len(form), *(front + form + b"\xFF" * there for there in (0, 1, 127)))
         for front in (B.before("length0"), LONG.before("length1")) for form in GREAT),
       refused(2, B.at("length0") + 3, B.before("length0") + H("820100") + b"\xFF" * 255))
family("lengths", "A version 3 length 80, 81, 82, 84 or FF is no DER length: the bytes after it are the value, or it is cut.",
       good(*(Seal(3, features=[(1, H(head) + bytes(size - 2))]) for head, size in (
           ("8000", 0x80), ("807F", 0x81), ("0100", 0x82), ("0001", 0x84), ("FF38", 0xFF)))),
       refused(2, 20, *(A.before("length0") + H(form) for form in ("80", "8180", "82010000", "84FFFFFFFF", "FF38")),
               A.before("length0") + b"\x81" + b"\x80" * 128))

# ---- The signature --------------------------------------------------------------------------
BESIDE = sorted({0, 1, 28, 32, 48, 66, 120, 255, 256, 264} | {n + k for n in SIZES for k in (-2, -1, 1, 2)})
family("signature", "The five sizes, of different bytes, after no feature and after some.",
       good(*(Seal(version, features=features, raw=bytes([fill]) * size) for version in VERSIONS for size in SIZES
              for features, fill in (([], 0x00), ([VISA], 0xFF), ([(0, b""), (1, b"\xFF" * 130)], 0x30)))))
family("signature", "Sizes beside the five, 0, 255 and over: 10 at the length, with all bytes, with more, with one, with none.",
       *(refused(10, seal.at("size"), seal.data(), seal.data() + b"\xAA", seal.before("raw"), seal.before("raw") + b"\xAA")
         for version in VERSIONS for size in BESIDE for seal in [Seal(version, features=[VISA], raw=b"\xAA" * size)]))
family("signature", "The five sizes with no byte, one, half or one too few: 2 at the signature; with one or many too many: 11 "
       "at the first of those.",
       *(refused(2, seal.at("raw"), *(seal.before("raw") + b"\xAA" * k for k in (0, 1, size // 2, size - 1)))
         + refused(11, len(seal.data()), *(seal.data() + tail for tail in (b"\0", b"\xFF", b"\x38" * 2, seal.data(), FAKE)))
         for version in VERSIONS for size in SIZES for seal in [Seal(version, raw=b"\xAA" * size)]))
family("signature", "FF and nothing more: 2 at the length that is missing. A second FF for a length: 8.",
       *(ended(2, base, "size", b"") + ended(8, base, "size", b"\xFF")
         for base in (A, B, LONG, *PLAIN.values(), *MANY.values())))
family("signature", "The length is a DER length in both versions. Not the shortest, 80 and 85 to FF: 8 at the length.",
       *(wrong(8, base, "size", *NOT_SHORTEST, *NO_FORM[::step]) + ended(8, base, "size", *NO_FORM[::step])
         for base, step in ((A, 1), (B, 5))))
family("signature", "81 to 84 with a byte missing: 2 at the length. Great lengths: 10 there, before any byte is missed.",
       *(ended(2, base, "size", *CUT_FORMS)
         + ended(10, base, "size", *(form + tail for form in GREAT[1:] for tail in (b"", b"\xAA" * 255)))
         for base in BASES.values()))

# ---- Sizes and rooms ------------------------------------------------------------------------
FULL = {version: padded(version, MOST) for version in VERSIONS}
family("sizes", "The smallest seal, 76 bytes, and those of 4,095 and 4,096 bytes: good.",
       good(*PLAIN.values(), Seal(4, reference="7"), Seal(4, reference="ABC"), LONGEST),
       good(*(padded(version, size, **given) for version in VERSIONS for size in (MOST - 1, MOST)
              for given in ({}, {"raw": b"\xFF" * 132}, {"count": 200}))), good(padded(4, MOST, reference="F" * 255)))
family("sizes", "Over 4,096 bytes: 1 at 4096, before all else, also for what would be good, or begins with another byte.",
       *(refused(1, MOST, seal.data() + b"\0", seal.data() + b"\xFF" * 9, padded(version, 4097).data(),
                 padded(version, 5000).data())
         for version, seal in FULL.items()),
       refused(1, MOST, bytes(4097), b"\xFF" * 4097, b"\xDC" * 4098, bytes(8000), A.data() + b"\xAA" * 4015))


def front(version, size):
    """The first bytes of a good seal, so many, before a tag or FF."""
    return padded(version, size + 58).before("end")


family("sizes", "Each number at its last place: all bytes up to 4,096 are good but the last item, or it is missing.",
       *(refused(2, MOST, front(v, 4096), front(v, 4095) + b"\xFE", front(v, 4095) + b"\xFF", front(v, 4094) + b"\xFE\1",
                 front(v, 4094) + b"\xFF\x38") + refused(9, 4095, front(v, 4095) + b"\0")
         + refused(8, 4095, front(v, 4094) + b"\xFF\x80") + refused(10, 4095, front(v, 4094) + b"\xFF\1")
         + refused(11, 4095, padded(v, 4095).data() + b"\0") for v in VERSIONS),
       refused(8, 4095, front(4, 4094) + b"\xFE\x85"),
       refused(2, 4095, front(4, 4094) + b"\xFE\x81", front(4, 4094) + b"\xFF\x84"),
       wrong_pair(LONGEST, "reference", 84, b"\xFF\xFF", c40("AB"), c40("A")),
       wrong(6, LONGEST, "issued", bytes(3)), wrong(6, LONGEST, "signed", bytes(3)), wrong(7, LONGEST, "definition", b"\0"),
       wrong(7, LONGEST, "category", b"\xFF"), refused(8, 187, LONGEST.before("end") + b"\xFF\x80"))
LEAST = (PLAIN[3], Seal(4, reference="7"))
family("sizes", "Each number at its first place, after a header of 18 bytes: 5 at 2, 6 at 10, 7 at 16, 8, 10 at 19, 9 at 20, "
       "11 at 76.",
       *(refused(5, 2, seal.before("country") + bytes(9)) + refused(6, 10, seal.before("issued") + bytes(9))
         + refused(7, 16, seal.before("definition") + bytes(9)) + refused(8, 19, seal.before("end") + b"\xFF\x80")
         + refused(9, 20, seal.before("end") + b"\1\0\1") + refused(10, 19, seal.before("end") + b"\xFF\0")
         + refused(11, 76, seal.data() + b"\xFF") for seal in LEAST), refused(8, 19, LEAST[1].before("end") + b"\1\x80"))


def with_rooms(seal, *rooms):
    """A good seal with exact room, with more, also no whole rows, with one short of either, and one short a feature: then
    12."""
    count, size = len(seal.content.rows), len(seal.content.text)
    numbers, fewer = ROW * count, (ROW - 1) * count
    rooms = rooms or [(numbers + a, size + b) for a in range(-ROW, ROW) for b in (-1, 0, 1)] + [
        (0, 0), (0, size), (numbers, 0), (MOST_LENT, 300), (MOST_LENT, size - 1), (numbers - 1, 300), (numbers // 2, size),
        (fewer, size), (fewer, 300), (fewer + 1, size)]
    return [(seal.data(), table, room, Answer(0, 0, seal.content) if table >= numbers and room >= size else Answer(12))
            for table, room in sorted({(a, b) for a, b in rooms if a >= 0})]


family("rooms", "Room for the table, 4 numbers a feature, and for the text, 4 + L: exact, more, and short, which is 12.",
       *map(with_rooms, (*PLAIN.values(), A, B, Seal(4, reference="7"), LONGEST,
                         Seal(4, reference="0" * 255, features=[VISA, (1, b""), (2, b"\xFF")]))),
       *(with_rooms(seal, (TABLE - 1, 9), (TABLE, 8), (TABLE, 9), (TABLE + 1, 10), (MOST_LENT, 300), (0, 9))
         for seal in (MANY[3], DOWN[4])))
family("threes", "Document 02, Ticket 10: 3 numbers a feature are 12. One to six features with every room from 3 a feature to "
       "past 4 a feature, and 255 features with some of these.",
       *(with_rooms(seal, *((table, 9) for table in range((ROW - 1) * count, ROW * count + 3))) for version in VERSIONS
         for count in range(1, 7) for seal in [Seal(version, features=[(9 - k, b"\x0A" * k) for k in range(count)])]),
       *(with_rooms(seal, *((table, 9) for table in (765, 766, 767, 768, TABLE - 3, TABLE - 2, TABLE - 1, TABLE)))
         for seal in (MANY[4], DOWN[3])))
family("rooms", "12 is last: with no room every other number is answered as it is with room.",
       [(data, 0, 0, answer) for seal in (A, B) for data, _, _, answer in (
           *refused(1, MOST, seal.data() + bytes(4096)), *refused(2, 0, b""), *wrong(3, seal, "mark", b"\0"),
           *wrong(4, seal, "version", b"\4"), *wrong(5, seal, "names", bytes(len(seal.parts["names"]))),
           *wrong_pair(seal, "names", 1, b"\xFF\xFF"),
           *wrong(6, seal, "signed", bytes(3)), *wrong(7, seal, "category", b"\0"), *wrong(8, seal, "size", b"\x81\x38"),
           *wrong(9, seal, "end", seal.parts["tag0"]), *wrong(10, seal, "size", b"\x39"), *cuts(seal, [len(seal.data()) - 1]),
           *refused(11, len(seal.data()), seal.data() + b"\0"))])

# ---- Every byte -----------------------------------------------------------------------------
LARGE = [Seal(version, features=[(5, b"\xFF" * 129), (6, b""), VISA], raw=b"\x38" * 132) for version in VERSIONS]
family("cut", "Good seals cut at every length: 2 at the item that the first missing byte belongs to. Seal A and a version 4 "
       "seal with three features; both versions with a value of 129 bytes and a signature of 132; the longest header.",
       *(cuts(seal, range(len(seal.data()))) for seal in (A, B, *LARGE)),
       cuts(LONGEST, range(LONGEST.at("end"))))


def changed(seal):
    """Each byte changed to 00, 7F, 80 and FF. A value and the signature may be anything."""
    data, content = seal.data(), seal.content
    for at, b in ((at, b) for at in range(len(data)) for b in (0x00, 0x7F, 0x80, 0xFF) if data[at] != b):
        new, name = data[:at] + bytes([b]) + data[at + 1:], seal.part_of(at)
        if name == "raw" or name.startswith("value"):
            answer = Answer(0, 0, content)
        elif name in ("mark", "version"):
            answer = Answer(3 + at, at)
        elif name in ("definition", "category"):
            answer = Answer(0, 0, content._replace(**{name: b})) if 0 < b < 255 else Answer(7, at)
        elif name == "size":
            answer = Answer(10 if b < 128 else 8, at)
        else:
            answer = read(new, 3 * ROW, 12)
        yield new, 3 * ROW, 12, answer


family("changed3", "Seal A with each byte changed to 00, 7F, 80 and FF: names, dates, tags and lengths by the reference.",
       changed(A))
family("changed4", "The version 4 seal with three features, each byte changed to 00, 7F, 80 and FF, likewise.", changed(B))


# ---- Mixed seals ----------------------------------------------------------------------------
family("mixed", "Good seals of both versions with every field, tag, value and size by chance.", mixed_cases(9303, 40)[0])
family("mixed", "The same with a byte changed, left out, put in or doubled, or cut: by the reference.",
       mixed_cases(9303, 40)[1])
family("mixed", "The same with a day that its month does not have as issue or signature date: 6 there.", mixed_cases(9303, 40)[2])


# ---- Checks and output ----------------------------------------------------------------------
def case_line(data, table, room):
    """A case: `s`, the rooms, and the bytes in runs of hex digits. Four and more of one byte or pair are a run with a count."""
    found = re.finditer(rb"(?s)(.{1,2}?)\1{3,}|(?:(?!(.{1,2}?)\2{3}).){1,40}", data)
    runs = [f" {p[1].hex()}*{len(p[0]) // len(p[1])}" if p[1] else " " + p[0].hex() for p in found]
    line = f"s {table} {room}" + "".join(runs).upper()
    halves = [run.partition("*") for run in line.split()[3:]]
    assert b"".join(H(digits) * int(count or 1) for digits, _, count in halves) == data, line
    assert len(data) < 8192 and table <= MOST_LENT and room <= 300, line     # what the program has room for
    return line


def words(*numbers):
    return " ".join(map(str, numbers))


def said(content):
    c = content
    return (f"country {c.country} header {words(c.version, len(c.text) - 4, *c.issued, *c.signed, c.definition, c.category)} "
            f"ends {words(*c.ends)} signature {words(*c.signature)} count {len(c.rows)}")


def answer_line(data, answer):
    """The line of an answer: the fields or `empty`, on 0 rows and text, that all else was kept, and what judge answers."""
    if answer.number == 0:
        rows = "".join(f" {number}" for row in answer.content.rows for number in row)
        return f"0 at 0 {said(answer.content)} rows{rows} text {answer.content.text} kept agrees"
    line = f"{answer.number} at {answer.place} empty kept "
    return line + (f"judge 0 at 0 {said(judge(data).content)}" if answer.number == 12 else "agrees")


def check_reference():
    """What document 01 says in bytes."""
    assert A.data() == H("DC02D9C5D9B75E6519A6319EF5319EF501020A04DE515826FF38") + b"\xAA" * 56
    for reference, form in (("00001", "D9B75E6A19A519C9"), ("7", "D9B75E66FE38")):
        seal = Seal(4, reference=reference)
        assert seal.parts["names"] + seal.parts["reference"] == H(form)
    assert Seal(3, country="D<<").parts["country"] == H("6ABC") and len(PLAIN[3].data()) == 76 and LONGEST.at("end") == 186
    assert ROW == 4 and A.content.rows == [(10, 18, 20, 4)], "document 02, Ticket 10"
    assert B.content.rows == [(10, 22, 24, 4), (0, 28, 30, 0), (254, 30, 32, 3)]


def check_places(data, content):
    """The features lie one after another from the header's end to FF, each from its tag to its value's end as published."""
    place = content.ends[0]
    for tag, tag_place, value_place, size in content.rows:
        form = bytes([tag]) + (bytes([size]) if content.version == 3 else length_bytes(size))
        assert tag_place == place and data[place:].startswith(form) and value_place == place + len(form), (data.hex(), place)
        place = value_place + size
    assert place == content.ends[1] and data[place] == 0xFF, (data.hex(), place)


def in_files(chapter, entries):
    """Entries (heading, line of a case, its answer) as files: name, lines, answers. They have the chapter's name, and where
    one has not room for all, its name and 1, 2 and so on."""
    files, sizes = [], (FILE, FILE)
    for heading, line, answer in entries:
        sizes = sizes[0] + len(line) + 1, sizes[1] + len(answer) + 1
        if max(sizes) > FILE:
            files.append(([], []))
            sizes, shown = (len(line) + 1, len(answer) + 1), None
        lines, answers = files[-1]
        lines += [line] if heading == shown else ["# " + heading, line]
        answers.append(answer)
        shown = heading
    names = [chapter] if len(files) == 1 else [f"{chapter}{k + 1}" for k in range(len(files))]
    return [(name, *file) for name, file in zip(names, files)]


def checked(families):
    """The entries of a chapter. The reference must agree with each answer."""
    for heading, cases in families:
        for data, table, room, answer in cases:
            assert read(data, table, room) == answer, (heading, data.hex(), answer, read(data, table, room))
            if answer.number == 0:
                check_places(data, answer.content)
            yield heading, case_line(data, table, room), answer_line(data, answer)


def chapters(of=CHAPTERS):
    """Each file of a chapter: its name, the lines of its cases, and of their answers."""
    check_reference()
    for chapter, families in of.items():
        yield from in_files(chapter, checked(families))
