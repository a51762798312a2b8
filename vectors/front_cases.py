"""The cases of the first hopeless byte, made from document 02, Ticket 12, by way of the reference in front.py.

How long the front part is, is stated from what was put together: this byte of this part was made wrong, so all before
it is hopeful and it is not; there is room for this and not for that. The reference must agree, and the seal that it
makes out of each front part must be accepted by the reader in seals.py, which also gives number and place. Only where a
heading says "by the reference" is the length the reference's alone.
"""
import calendar
import functools
import itertools

import listing_cases
import pair_cases
import seal_cases
from der_cases import length_bytes
from front import LEAST, along
from pair_cases import THREES
from seal_cases import (A, B, BASES, DOWN, FULL, H, LARGE, LONGEST, MANY, PLAIN, VERSIONS, VISA, enter, front as filled,
                        in_files)
from seals import MOST, SIZES, Seal, c40, code, judge, mixed_cases, padded
from writing import runs

CHAPTERS = {}   # chapter: [(heading, cases)]; a case is (bytes, length of the front part)
family = functools.partial(enter, CHAPTERS)
ONE, TWO = Seal(4, reference="7"), Seal(4, reference="A7")


# ---- What is stated -------------------------------------------------------------------------
def stated(length, *inputs):
    return [(data, length) for data in inputs]


def hopeful(*inputs):
    """Every byte is hopeful: good seals, and inputs that end too early."""
    return [(data, len(data)) for data in inputs]


def cuts(seal, places):
    return hopeful(*(seal.data()[:k] for k in places))


def wrong(seal, part, k, *forms):
    """A part in other forms, of which byte k is hopeless: with the rest of the seal behind it, and as the last byte."""
    length = seal.at(part) + k
    return stated(length, *(seal.before(part) + form + seal.after(part) for form in forms),
                  *(seal.before(part) + form[:k + 1] for form in forms))


def last(before, good):
    """Bytes behind a front part, of which these are hopeful: 00, FF, and each two neighbours that are not alike."""
    unlike = {b for b in range(255) if (b in good) != (b + 1 in good)}
    tried = sorted({0, 255} | unlike | {b + 1 for b in unlike})
    return [(before + bytes([b]), len(before) + (b in good)) for b in tried]


def by_reference(*inputs):
    return [(data, along(data)[0]) for data in inputs]


def every(before):
    """All bytes behind a front part: by the reference."""
    return by_reference(*(before + bytes([b]) for b in range(256)))


def some(before):
    """The same as `last`, by the reference."""
    return last(before, {data[-1] for data, length in every(before) if length > len(before)})


# ---- Document 02 and the issue --------------------------------------------------------------
family("listed", "Document 01, Seal A: 82. One byte more: 82; one less: 81; a second tag 0A at 24: 24; no bytes: 0.",
       hopeful(A.data(), A.data()[:81], b""), stated(82, A.data() + b"\0"),
       stated(24, A.before("end") + b"\x0A" + A.after("value0"), A.before("end") + b"\x0A"))
family("listed", "A date of which the third byte alone is bad: year 0, 29 February 1900 and 2100, both dates.",
       *(wrong(base, part, 2, code(3, 25, 0), code(2, 29, 1900), code(2, 29, 2100), code(1, 1, 0))
         for base in BASES.values() for part in ("issued", "signed")))
family("listed", "L is 00: the first byte of its pair is that of 01 too.",
       wrong(PLAIN[4], "names", 3, c40("UTAB00")), wrong(B, "names", 3, c40("DEZ900")))
family("listed", "Good seals of both versions: the whole length.",
       hopeful(*(seal.data() for seal in (B, *PLAIN.values(), LONGEST, ONE, TWO, *THREES.values(), *LARGE,
                                          *MANY.values(), *DOWN.values(), *FULL.values()))))
family("listed", "Seal A and a version 4 seal of three features cut at every length: all that is there.",
       *(cuts(seal, range(len(seal.data()))) for seal in (A, B)))

# ---- The header -----------------------------------------------------------------------------
family("header", "First bytes and versions.", last(b"", {0xDC}), last(b"\xDC", {2, 3}))
family("header", "Country: the first byte hopeless, as no letter stands first or no pair has it; the second alone.",
       *(wrong(base, "country", 0, b"\0\0", c40("7TO"), c40(" TO"), c40("A"), b"\xFB\0", b"\xFF\xFF")
         + wrong(base, "country", 1, c40("UT7"), c40("U7O"), c40("AB"), c40("D 7"), H("FA01"))
         for base in BASES.values()))
family("header", "Signer and reference of version 3: each byte of each pair.",
       wrong(A, "names", 0, b"\0" * 6, c40("7TAB00001"), c40(" TAB00001"), c40("A") * 3),
       wrong(A, "names", 1, c40("UT B00001"), c40("U7AB00001"), c40("UT") + c40("B00001")),
       wrong(A, "names", 2, c40("UTA") + b"\0" * 4, c40("UTA") + c40("B") + c40("001"), c40("UTA 00001")),
       wrong(A, "names", 3, c40("UTAB0 001"), c40("UTAB 0001"), c40("UTA") + c40("B0") + c40("001")),
       wrong(A, "names", 4, c40("UTAB00") + b"\xFE\x42", c40("UTAB00 01"), c40("UTAB00") + b"\xFF\xFF"),
       wrong(A, "names", 5, c40("UTAB0000 "), c40("UTAB000 1"), c40("UTAB0000")))
family("header", "Signer and L of version 4: each byte of each pair. Only 0 to 9 and A to F, and not 00.",
       wrong(PLAIN[4], "names", 0, b"\0" * 4, c40("7TAB05"), c40("A") * 2),
       wrong(PLAIN[4], "names", 1, c40("UT B05"), c40("U7AB05")),
       wrong(PLAIN[4], "names", 2, c40("UTA") + b"\0\0", c40("UTA 05"), c40("UTA") + b"\xFE\x42", c40("UTABGZ")),
       wrong(PLAIN[4], "names", 3, c40("UTAB0G"), c40("UTABFG"), c40("UTAB0 "), c40("UTAB0")))
family("header", "References: a last pair of one character begins with FE, others do not; a space; a pair too short.",
       wrong(ONE, "reference", 0, c40("AB"), c40("ABC"), b"\0\0"),
       wrong(ONE, "reference", 1, c40(" "), H("FE00"), H("FE3B")),
       wrong(TWO, "reference", 0, c40("A"), c40(" 7")), wrong(TWO, "reference", 1, c40("A "), c40("ABC"), c40("AAA")),
       *(wrong(seal, "reference", k, text) for seal, k, text in (
           (THREES[7], 0, c40(" BEEF0A")), (THREES[7], 1, c40("5B EF0A")), (THREES[7], 3, c40("5BEEF A")),
           (THREES[7], 4, c40("5BEEF0AB")), (THREES[8], 4, c40("5BEEF0A")), (THREES[8], 5, c40("5BEEF0A9C")),
           (THREES[9], 5, c40("5BEEF0A9")), (THREES[9], 4, c40("5BEEF0 9C")), (LONGEST, 169, c40("Z9A" * 84 + "Z9 ")),
           (LONGEST, 84, c40("Z9A" * 42) + b"\xFE\x42" * 43))))
family("header", "A reference that is cut, with a wrong byte before its end: that byte, and not its place.",
       stated(10, PLAIN[4].before("reference") + H("19A500")),
       stated(9, LONGEST.before("reference") + c40("AB") + b"\xAA" * 9),
       stated(8, LONGEST.before("reference") + b"\0"))
family("header", "Definition and category: 0 and 255.",
       *(last(base.before(part), set(range(1, 255))) for base in BASES.values() for part in ("definition", "category")))

# ---- Dates ----------------------------------------------------------------------------------
family("dates", "The first byte hopeless: past 31 December, before 1 January; the second: days 0 and 32, 30 February.",
       *(wrong(base, part, 0, code(13, 1, 1957), bytes(3), b"\xFF" * 3, H("0EFFFF"), H("BC0000"))
         + wrong(base, part, 1, code(3, 32, 1957), code(2, 30, 1957), code(4, 31, 1957), code(12, 32, 0), H("BBFDFF"),
                 H("0F68FF"))
         for base in BASES.values() for part in ("issued", "signed")))
family("dates", "Every first byte: by the reference. 69 are hopeful.", every(A.before("issued")))
family("dates", "First bytes of the other dates; second bytes of January, February and December: by the reference.",
       some(A.before("signed")), some(B.before("issued")), some(B.before("signed")),
       *(some(A.before("issued") + H(begun)) for begun in ("0F", "22", "BB")))
family("dates", "Third bytes: the first days there are, year 0, Februaries of leap years and common ones.",
       last(A.before("issued") + H("0F69"), set(range(0x51, 256))),
       last(A.before("signed") + H("BBFC"), set(range(256))),
       last(A.before("issued") + code(2, 29, 1900)[:2],
            {code(2, 29, year)[2] for year in range(1, 10000)
             if calendar.isleap(year) and code(2, 29, year)[:2] == code(2, 29, 1900)[:2]}),
       last(A.before("issued") + code(3, 25, 0)[:2], set(range(256)) - {code(3, 25, 0)[2]}))

# ---- Pairs ----------------------------------------------------------------------------------
PAIRS = {"country": A.before("country"), "signer": A.before("names"),
         "three letters and digits": A.before("issued")[:-2],
         "the signer's last and L": B.before("names") + B.parts["names"][:2],
         "two letters and digits": TWO.before("reference"), "one letter or digit": ONE.before("reference")}
for name, before in PAIRS.items():
    family("pairs", f"Every first byte of a pair of this kind, {name}: by the reference.", every(before))
family("pairs", "Second bytes of a pair of each kind, behind the first byte of a good one: by the reference.",
       *(some(before + c40(text)[:1]) for before, text in zip(PAIRS.values(), ("UTO", "UTA", "B00", "B05", "A7", "7"))))

# ---- Tags and lengths -----------------------------------------------------------------------
USED = {version: Seal(version, features=[(0, b""), VISA, (254, b"\7")]) for version in VERSIONS}
family("tags", "Where a tag stands, behind three features: those used are hopeless, FF is not.",
       *(last(seal.before("end"), set(range(256)) - {0, 10, 254}) for seal in USED.values()))
family("tags", "254 tags are used: the last and FF. All 255 are used: FF alone.",
       *(last(seal.before("tag254"), {seal.parts["tag254"][0], 255}) + last(seal.before("end"), {255})
         for seals in (MANY, DOWN) for seal in seals.values()))
family("tags", "A used tag with other bytes behind it, and of two used ones the first.",
       *(stated(seal.at("end"), *(seal.before("end") + tail for tail in (b"\0", b"\0\0", b"\xFE\x80", H("0A0A0A0A"))))
         for seal in USED.values()))
family("lengths", "Version 3: every byte is a length. Version 4: 00 to 7F, 81 and 82; 83 and 84 never have room.",
       last(A.before("length0"), set(range(256))), last(B.before("length0"), {*range(128), 0x81, 0x82}))
family("lengths", "Version 4, behind 81 and 82: the shortest forms, and only up to the room that is left.",
       last(B.before("length0") + b"\x81", set(range(128, 256))),
       last(B.before("length0") + b"\x82", set(range(1, (MOST - B.at("value0") - 2 - LEAST) // 256 + 1))),
       last(B.before("length0") + H("820F"), set(range(MOST - B.at("value0") - 2 - LEAST - 0xF00 + 1))))
family("lengths", "81 7F is hopeless at 7F, 82 00 at 00, 80 and 83 to FF at once, whatever follows.",
       wrong(B, "length0", 0, H("80"), H("83010000"), H("8401000000"), H("84FFFFFFFF"), H("85"), H("FF")),
       wrong(B, "length0", 1, H("817F"), H("8100"), H("820080"), H("82FFFF"), H("821000")),
       wrong(B, "length0", 2, H("820FFF"), length_bytes(MOST - B.at("value0") - 1 - LEAST)))
family("lengths", "A length, and its value cut: all that is there.",
       *(hopeful(*(seal.before("value0") + b"\xFF" * k for k in range(size)))
         for seal, size in ((A, 4), (B, 4), (LARGE[0], 9))))

# ---- The signature --------------------------------------------------------------------------
family("signature", "Behind FF, and behind FF 81: 38, 40, 60 and 81; then 80 and 84.",
       *(last(base.before("size"), {0x38, 0x40, 0x60, 0x81}) + last(base.before("size") + b"\x81", {0x80, 0x84})
         for base in BASES.values()))
family("signature", "Lengths that are none of the five, or not the shortest, and all that would follow.",
       *(wrong(base, "size", 0, H("39"), H("80"), H("820038"), H("820100"), H("8400000038"), H("FF"))
         + wrong(base, "size", 1, H("8138"), H("8181"), H("817F"), H("8185")) for base in BASES.values()))
family("signature", "The five sizes: none of it, one byte, all but one, all; then a byte more, and many.",
       *(hopeful(seal.before("raw"), seal.before("raw") + b"\xFF", seal.data()[:-1], seal.data())
         + stated(len(seal.data()), seal.data() + b"\0", seal.data() + b"\xFF\x38" * 40)
         for version in VERSIONS for size in SIZES for seal in [Seal(version, features=[VISA], raw=b"\xA5" * size)]))


# ---- Room -----------------------------------------------------------------------------------
def tag_at(version, left):
    """A front part that ends where a tag may stand, so many bytes before 4,096. Tag FE is not used."""
    return filled(version, MOST - left)


def with_tag(version, left):
    """The same and a tag, behind which so many bytes are left."""
    return tag_at(version, left + 1) + b"\xFE"


def fits(before, byte, holds):
    return [(before + bytes([byte]), len(before) + holds)]


def about(most, last_one):
    """Numbers at and beside the most that has room, up to the last there is."""
    return sorted({0, *(number for number in (most - 1, most, most + 1, last_one) if 0 <= number <= last_one)})


def mark_at(version, left, size):
    """FF with so many bytes left, itself among them, and a signature of this size. The first byte of 81 84 stands for
    81 80 too."""
    mark, form = tag_at(version, left) + b"\xFF", length_bytes(size)
    room = left >= 1 + len(form) + size
    inputs = mark + form, mark + form + b"\xAA" * size
    return hopeful(*inputs) if room else stated(len(mark) + (size == 132), *inputs)


def short_of(version, left):
    """A feature of 42 bytes that leaves too few for a signature zone. Its length is hopeless, or even its tag."""
    before = tag_at(version, left + 42)
    data = before + b"\xFE\x28" + b"\x5A" * 40
    return stated(len(before) + (left + 42 >= 60), data, data + b"\xFF", data + b"\xFF\x38" + b"\xAA" * 56)


def crowd(version, count, left):
    """So many features, up to so many bytes before 4,096."""
    total = MOST - left - PLAIN[version].at("end") - 2 * count
    sizes = [127] * (total // 127) + [total % 127]
    features = [(tag, b"\x5A" * size) for tag, size in enumerate(sizes + [0] * (count - len(sizes)))]
    return Seal(version, features=features).before("end")


family("room", "A tag needs 60 bytes from its place to 4,096, FF 58: with 58 to 62 left. The used tag 0 is hopeless.",
       *(fits(before, 0xFF, True) + fits(before, 0xFE, left >= 60) + fits(before, 0, False)
         + [(before + b"\xFE\0\xFF", len(before) + (3 if left >= 60 else 0))]
         for version in VERSIONS for left in range(58, 63) for before in [tag_at(version, left)]))
family("room", "Filled to 4,036 and up to 4,038 bytes, and a signature zone of 58: hopeful to the last byte.",
       *(hopeful(before, before + b"\xFF\x38" + b"\xAA" * 56)
         for version in VERSIONS for left in (60, 59, 58) for before in [tag_at(version, left)]))
family("room", "Filled to 4,039 bytes and more: the feature before is too long already, with a mark behind it or not.",
       *(short_of(version, left) for version in VERSIONS for left in (16, 17, 18, 19, 30, 56, 57)))
family("room", "Behind FF each size has its own room: one byte too few, just enough, one more.",
       *(mark_at(version, least + more, size) for version in VERSIONS for size in SIZES for more in (-1, 0, 1)
         for least in [1 + len(length_bytes(size)) + size] if least + more >= LEAST))
family("room", "Behind FF 81 with room for 128 and not for 132; and with room for neither.",
       *(fits(before, 0x81, left >= 131) for version in VERSIONS for left in (130, 131, 134, 135)
         for before in [tag_at(version, left) + b"\xFF"]),
       *(fits(before, 0x80, True) + fits(before, 0x84, left >= 135) for version in VERSIONS for left in (131, 134, 135)
         for before in [tag_at(version, left) + b"\xFF\x81"]))
family("room", "A length needs its value and 58 behind it.",
       *(fits(with_tag(version, left), size, 1 + size + LEAST <= left) for version in VERSIONS
         for left in (59, 60, 61, 100, 185, 186, 187, 312, 313, 314)
         for size in about(left - 1 - LEAST, 255 if version == 3 else 127)))
family("room", "Version 4: 81 needs 188 bytes from its place on, 82 needs 317.",
       *(fits(with_tag(4, left), 0x81, left >= 188) + fits(with_tag(4, left), 0x82, left >= 317)
         for left in (59, 186, 187, 188, 189, 315, 316, 317, 318)))
family("room", "Version 4, behind 81 and behind 82 01: up to the size that has room.",
       *(fits(with_tag(4, left) + b"\x81", size, size >= 128 and 2 + size + LEAST <= left)
         for left in (188, 189, 250, 315, 317) for size in about(left - 2 - LEAST, 255)),
       *(fits(with_tag(4, left) + b"\x82", high, 0 < high <= (left - 3 - LEAST) // 256)
         for left in (317, 572, 573, 829) for high in range(5)),
       *(fits(with_tag(4, left) + H("8201"), size - 256, 3 + size + LEAST <= left) for left in (317, 318, 400, 571)
         for size in range(256, 512) if abs(size - (left - 3 - LEAST)) < 2))
family("room", "All 255 tags are used: FF alone, with 58 bytes left and more. All but one are: that needs 60.",
       *(last(crowd(version, 255, left), {255}) for version in VERSIONS for left in (58, 60)),
       *(fits(before, 0xFE, left >= 60) + fits(before, 0xFD, False) + fits(before, 0xFF, True)
         for version in VERSIONS for left in (58, 59, 60, 61) for before in [crowd(version, 254, left)]))

# ---- More than 4,096 bytes ------------------------------------------------------------------
LONG = {version: padded(version, MOST + 1) for version in VERSIONS}
family("long", "A good seal of 4,096 bytes and more behind it: 4,096. A shorter one: its length. Other bytes: 0, 1.",
       *(stated(MOST, seal.data() + b"\0", seal.data() + b"\xFF" * 9, seal.data() + bytes(904))
         for seal in FULL.values()),
       *(stated(len(seal.data()), seal.data() + bytes(MOST)) for seal in (A, B, *PLAIN.values())),
       stated(0, bytes(MOST + 1), b"\xFF" * 5000), stated(1, b"\xDC" * (MOST + 2)))
family("long", "What would be a seal of 4,097 bytes: the last length is one too great. In version 4 its last byte.",
       stated(LONG[3].at("length15"), LONG[3].data()), stated(LONG[4].at("length0") + 2, LONG[4].data()))
family("long", "Longer messages, with and without a signature: by the reference.",
       by_reference(*(data for version in VERSIONS for size in (4098, 4200, 5000) for seal in [padded(version, size)]
                      for data in (seal.data(), seal.before("end")))))


# ---- The reader's own inputs ----------------------------------------------------------------
OTHERS = [(f"{chapter}: {heading}", [case[0] for case in cases])
          for module in (seal_cases, pair_cases, listing_cases) for chapter, families in module.CHAPTERS.items()
          for heading, cases in families]
for name, others in OTHERS:
    if short := [data for data in others if len(data) <= 300 and judge(data).number]:
        family("reader", f"By the reference. {name}", by_reference(short[0], short[-1]))
family("mixed", "Seals by chance with a byte changed, left out, put in or doubled, or cut: by the reference.",
       by_reference(*(data for data, _, _, _ in mixed_cases(1212, 12)[1])))


# ---- Checks and output ----------------------------------------------------------------------
def check(data):
    """The front part, with which the seal begins that is made out of it: a good one. No other than a good seal and what
    is longer have none that goes on."""
    length, seal = along(data)
    assert judge(seal).number == 0 and len(seal) <= MOST and seal[:length] == data[:length], data.hex()
    assert length <= min(len(data), MOST) and (judge(data).number or length == len(data)), data.hex()
    return length


def check_others():
    """Every input of the reader and of the listing, and a part of it."""
    for data in itertools.chain(*(others for _, others in OTHERS)):
        length = check(data)
        assert along(data[:length + 1])[0] == length and along(data[:length // 2])[0] == length // 2


def entries(families):
    """The entries of a chapter: heading, line of the case, its answer. The reference must agree."""
    for heading, cases in families:
        for data, length in cases:
            assert check(data) == length, (heading, data.hex(), length, check(data))
            assert len(data) < 8192
            answer = judge(data)
            yield heading, "h" + runs(data), f"{answer.number} at {answer.place} front {length}"


def chapters():
    """Each file of a chapter: its name, the lines of its cases, and of their answers."""
    check_others()
    for chapter, families in CHAPTERS.items():
        yield from in_files(chapter, entries(families))
