"""The cases of the reason of a refusal, made from document 02, Ticket 11, by way of the reference in why.py.

The reason is stated from what was put together: this part was made wrong in this way, so the item is that part, the
rule is the one that this breaks, and these are the bytes judged. The reference must agree, and with the reading in
seals.py too. Only where a heading says "by the reference" is the reason the reference's alone.
"""
import functools
import itertools

import listing_cases
import pair_cases
import seal_cases
from pair_cases import THREE, THREES, pairs_of, put, spaces
from seal_cases import A, B, BASES, FULL, H, LONGEST, PLAIN, SHORT_PAIRS, VERSIONS, VISA, enter, in_files
from seals import MOST, SIZES, Seal, c40, code, judge, mixed_cases, padded
from why import (BEGINS_LENGTH, DAY, FITS_COUNTRY, FITS_REFERENCE, FITS_SIGNER, HEXADECIMAL, MARK, NOT_TOO_LONG,
                 NOT_USED_BEFORE, NOT_ZERO, NOTHING_AFTER, NUMBERS, ONE_TO_254, REST_THERE, SHORTEST, SIGNATURE_SIZE,
                 THERE, VERSION, WELL_CODED, Reason, told, why)
from writing import runs

CHAPTERS = {}   # chapter: [(heading, cases)]; a case is (bytes, reason or None)
family = functools.partial(enter, CHAPTERS)

# ---- What is stated -------------------------------------------------------------------------
ITEMS = {"issued": "issue date", "signed": "signature date", "end": "tag", "size": "signature length",
         "raw": "signature"}


def item_of(seal, part):
    """The item that a part of a seal is. FF is read as a tag."""
    if part == "names":
        return "signer and reference" if seal.content.version == 3 else "signer and length"
    return ITEMS.get(part, part.rstrip("0123456789"))


def stated(data, item, place, length, rule):
    return data, Reason(NUMBERS[rule], item, place, length, rule)


def accepted(*seals):
    return [(seal.data(), None) for seal in seals]


def wrong(rule, seal, part, *forms):
    """A seal with a part in other forms, all bytes of which are judged and break this rule. The rest of the seal
    follows; the last form is the input's end too."""
    inputs = [(form, seal.after(part)) for form in forms] + [(forms[-1], b"")]
    return [stated(seal.before(part) + form + tail, item_of(seal, part), seal.at(part), len(form), rule)
            for form, tail in inputs]


def wrong_pairs(seal, part, k, *pairs):
    """A seal with pair k of a text replaced by others that may not stand there."""
    place = seal.at(part) + 2 * k
    return [stated(put(seal, part, {k: pair}), item_of(seal, part), place, 2, WELL_CODED) for pair in pairs]


def cut(seal, part, *counts):
    """A seal of which so many bytes of a part are there and no more."""
    rule = REST_THERE if part.startswith(("length", "size")) and seal.parts[part][0] > 0x80 else THERE
    return [stated(seal.before(part) + seal.parts[part][:count], item_of(seal, part), seal.at(part), count,
                   rule if count else THERE) for count in counts]


def extra(seal, *tails):
    return [stated(seal.data() + tail, "end", len(seal.data()), 1, NOTHING_AFTER) for tail in tails]


def too_long(*inputs):
    return [stated(data, "seal", MOST, 1, NOT_TOO_LONG) for data in inputs]


def put_text(text, *places):
    """C40 of a text with some characters, one after another, put in at places: (place, characters)."""
    return [c40(text[:k] + c + text[k + 1:]) for k, characters in places for c in characters]


# ---- The seal, mark, version, country -------------------------------------------------------
family("accepted", "Seal A, other good seals of both versions, and the longest: no rule is broken.",
       accepted(A, B, *PLAIN.values(), LONGEST, *FULL.values(), *THREES.values(), Seal(3, country="D<<")))
family("front", "The seal: more than 4,096 bytes, whatever they are. The byte judged is the first that is too many.",
       too_long(bytes(4097), b"\xFF" * 4097, b"\xDC" * 5000, *(seal.data() + b"\x5A\xA5" for seal in FULL.values()),
                *(padded(version, 4097).data() for version in VERSIONS)))
family("front", "Mark and version: not there, and other bytes than they have.",
       cut(A, "mark", 0), *(cut(base, "version", 0) for base in BASES.values()),
       *(wrong(MARK, base, "mark", *map(bytes, ([0], [0xDB], [0xDD], [0xFF]))) for base in BASES.values()),
       *(wrong(VERSION, base, "version", *map(bytes, ([0], [1], [4], [0xDC], [0xFF]))) for base in BASES.values()))
family("front", "Country: none of it and one byte; a pair wrongly coded in each way, or of one or two characters.",
       *(cut(base, "country", 0, 1) + wrong_pairs(base, "country", 0, *THREE, *SHORT_PAIRS[1:4])
         for base in BASES.values()))
family("front", "Country: a digit or a filler at each place where none may stand.",
       *(wrong(FITS_COUNTRY, base, "country", *map(c40, ("7TO", " TO", "U7O", "U O", "UT7", "D 7", "   ")))
         for base in BASES.values()))

# ---- Signer and reference -------------------------------------------------------------------
ONE, TWO = Seal(4, reference="7"), Seal(4, reference="A7")
NAMES = [(PLAIN[3], "names"), (B, "names"), *((seal, "reference") for seal in (*THREES.values(), ONE, TWO, LONGEST))]
ENDS = {size: [c40(end) for end in ("A", "AB", "ABC") if len(end) % 3 != size % 3] for size in (1, 2, 3, 7, 8, 9, 255)}
family("names", "Each text cut: none of it, one byte, all but one; in the shorter ones every count between.",
       *(cut(seal, part, *(range(size) if size < 8 else (0, 1, 15, 16, 17, size - 1)))
         for seal, part in NAMES for size in [len(seal.parts[part])]))
family("names", "The first pair, one between and the last wrongly coded, in each way.",
       *(wrong_pairs(seal, part, k, *THREE) for seal, part in NAMES for last in [len(pairs_of(seal, part)) - 1]
         for k in sorted({0, last // 2, last})))
family("names", "A pair of fewer characters than it must have, first and last; a last one of more.",
       *(wrong_pairs(seal, part, k, c40("A"), c40("AB")) for seal, part in NAMES[:2]
         for k in (0, len(pairs_of(seal, part)) - 1)),
       *(wrong_pairs(seal, "reference", 0, c40("A"), c40("AB")) for seal in THREES.values()),
       *(wrong_pairs(Seal(4, reference="1" * size), "reference", (size - 1) // 3, *ends)
         for size, ends in ENDS.items()))
SIGNER_PLACES = (0, "7 "), (1, "7 "), (2, " "), (3, " ")
family("names", "The signer's characters, first to last: a digit among the two letters, a space.",
       wrong(FITS_SIGNER, A, "names", *put_text("UTAB00001", *SIGNER_PLACES)),
       wrong(FITS_SIGNER, PLAIN[4], "names", *put_text("UTAB05", *SIGNER_PLACES)))
family("names", "The reference's characters: a space at each of its places, in longer ones first, between and last.",
       wrong(FITS_REFERENCE, A, "names", *put_text("UTAB00001", *((k, " ") for k in range(4, 9)))),
       *(wrong(FITS_REFERENCE, seal, "reference", *put_text(seal.content.text[4:], *((k, " ") for k in places)))
         for seal, places in ((THREES[7], range(7)), (THREES[8], (0, 7)), (THREES[9], (0, 8)), (ONE, [0]),
                              (TWO, (0, 1)), (LONGEST, (0, 127, 254)))))
family("names", "The reference's length: another character than 0 to 9 and A to F first and last; 00.",
       wrong(HEXADECIMAL, PLAIN[4], "names", *put_text("UTAB05", (4, "GZ "), (5, "GZ ")), c40("UTABGG"), c40("UTAB  ")),
       wrong(NOT_ZERO, PLAIN[4], "names", c40("UTAB00")), wrong(NOT_ZERO, B, "names", c40("DEZ900")))

# ---- Dates and the last bytes ---------------------------------------------------------------
DAYS = [code(*day) for day in ((13, 1, 1957), (3, 0, 1957), (3, 32, 1957), (2, 29, 1900), (4, 31, 1957), (1, 1, 0))]
family("dates", "Both dates: none of it, one byte and two; no such month, day or year.",
       *(cut(base, part, 0, 1, 2) + wrong(DAY, base, part, *DAYS, bytes(3), b"\xFF" * 3)
         for base in BASES.values() for part in ("issued", "signed")))
family("dates", "Definition and category: not there, 0 and 255.",
       *(cut(base, part, 0) + wrong(ONE_TO_254, base, part, b"\0", b"\xFF")
         for base in BASES.values() for part in ("definition", "category")))

# ---- Features -------------------------------------------------------------------------------
FOUR = {version: Seal(version, features=[(1, b"\1" * 20), (2, b""), (3, b"\3"), (4, b"\4" * 127)])
        for version in VERSIONS}
LONG = Seal(4, features=[(5, b"\5" * 200), (6, b"\6" * 300), (7, b"\7" * 200)])
MANY = {version: Seal(version, features=[(tag, b"") for tag in range(255)]) for version in VERSIONS}
family("features", "The first tag, one between and FF not there.",
       *(cut(seal, part, 0) for seal in (*FOUR.values(), *PLAIN.values(), *MANY.values())
         for part in ("tag0", "tag2", "end") if part in seal.parts))
family("features", "A tag used before: the second, the last and one in FF's place repeat the first or the one before.",
       *(wrong(NOT_USED_BEFORE, seal, part, bytes([tag])) for seal in FOUR.values()
         for part, tag in (("tag1", 1), ("tag2", 1), ("tag2", 2), ("tag3", 1), ("tag3", 3), ("end", 1), ("end", 4))),
       *(wrong(NOT_USED_BEFORE, seal, "end", b"\0", b"\x7F", b"\xFE") for seal in MANY.values()))
family("features", "A length not there, the first and the last; in version 4 of more bytes, from none to all but one.",
       *(cut(seal, part, 0) for seal in FOUR.values() for part in ("length0", "length3")),
       *(cut(LONG, part, *range(len(LONG.parts[part]))) for part in ("length0", "length1", "length2")),
       *([stated(front + form[:k], "length", len(front), k, REST_THERE) for k in range(1, len(form))]
         for front in (FOUR[4].before("length0"), LONG.before("length2")) for form in (H("8100"), H("8400010203"))))
NO_LENGTH = [bytes([b]) for b in (0x80, 0x85, 0x86, 0xC0, 0xFE, 0xFF)]
NOT_SHORTEST = [H(form) for form in "8100 817F 820000 8200FF 83000000 8300FFFF 8400000000 8400FFFFFF".split()]
family("features", "Version 4: a length that begins with 80 or 85 to FF or is not the shortest, the first and last.",
       *(wrong(BEGINS_LENGTH, FOUR[4], part, *NO_LENGTH) + wrong(SHORTEST, FOUR[4], part, *NOT_SHORTEST)
         for part in ("length0", "length3")))
family("features", "A value not there or in part, the first and the last: all bytes of it are told up to sixteen.",
       *(cut(seal, "value0", 0, 1, 15, 16, 17, 19) + cut(seal, "value2", 0) + cut(seal, "value3", 0, 126)
         for seal in FOUR.values()), cut(LONG, "value0", 0, 199), cut(LONG, "value1", 0, 299))
family("features", "Great lengths: nothing of the value, some of it, and all bytes up to 4,096.",
       *([stated(front + b"\5" * there, "value", len(front), there, THERE) for there in (0, 100, MOST - len(front))]
         for front in (B.before("length0") + H(form) for form in ("820FFF", "84FFFFFFFF"))))

# ---- The signature --------------------------------------------------------------------------
NO_SIZES = [H(form) for form in "00 01 37 39 41 7F 8181 8183 8185 81FF 820100 83010000 8401000000 84FFFFFFFF".split()]
SIGNED = [Seal(version, features=[VISA], raw=b"\xA5" * size) for version in VERSIONS for size in SIZES]
family("signature", "Its length not there; of two bytes with one there; of up to five with all but one there.",
       *(cut(seal, "size", *range(len(seal.parts["size"]))) for seal in SIGNED),
       *([stated(base.before("size") + form[:k], "signature length", base.at("size"), k, REST_THERE)
          for form in (H("8138"), H("820038"), H("84FFFFFFFF")) for k in range(1, len(form))]
         for base in BASES.values()))
family("signature", "Its length begins with 80 or 85 to FF, is not in its shortest form, or is another than the five.",
       *(wrong(BEGINS_LENGTH, base, "size", *NO_LENGTH)
         + wrong(SHORTEST, base, "size", H("8138"), H("82007F"), H("83000038"), H("8400000038"))
         + wrong(SIGNATURE_SIZE, base, "size", *NO_SIZES) for base in BASES.values()))
family("signature", "The signature: none of it, one byte, sixteen, and all but one; one byte and more behind it.",
       *(cut(seal, "raw", 0, 1, 16, len(seal.parts["raw"]) - 1) + extra(seal, b"\0") for seal in SIGNED),
       *(extra(seal, b"\xFF\0", seal.data()) for seal in BASES.values()))

# ---- Several faults -------------------------------------------------------------------------
FAULTS = {"mark": (MARK, b"\0"), "version": (VERSION, b"\1"), "country": (FITS_COUNTRY, c40("7TO")),
          "issued": (DAY, bytes(3)), "signed": (DAY, b"\xFF" * 3), "definition": (ONE_TO_254, b"\0"),
          "category": (ONE_TO_254, b"\xFF"), "tag1": (NOT_USED_BEFORE, b"\1"), "size": (SIGNATURE_SIZE, b"\x39")}
AT_FAULT = {3: FAULTS | {"names": (FITS_REFERENCE, c40("UTAB0 001"))},
            4: FAULTS | {"names": (HEXADECIMAL, c40("UTAB0G")), "reference": (FITS_REFERENCE, c40("00 01")),
                         "length1": (BEGINS_LENGTH, b"\x80")}}


def several(seal, faults, parts):
    """A seal with these parts wrong: the reason is the first one's."""
    first = next(part for part in seal.parts if part in parts)
    data = b"".join(faults[part][1] if part in parts else form for part, form in seal.parts.items())
    rule, form = faults[first]
    return stated(data, item_of(seal, first), seal.at(first), len(form), rule)


def pairs_at_fault(version):
    """Two parts each with each; in version 3, whose items are the same but for the names, those with the names."""
    pairs = itertools.combinations(AT_FAULT[version], 2)
    return [pair for pair in pairs if version == 4 or "names" in pair]


def all_from(seal, faults):
    """All parts from one on that have a fault, for each such part."""
    order = [part for part in seal.parts if part in faults]
    return [order[k:] for k in range(len(order))]


family("several", "Two items wrong, each with each: the one further left is named. And all from one on.",
       *([several(seal, faults, parts) for parts in (*pairs_at_fault(version), *all_from(seal, faults))]
         for version, seal in FOUR.items() for faults in [AT_FAULT[version]]))


def text_at_fault(seal, part):
    """A wrongly coded pair before a wrong character, behind one, and before another such pair: the first such pair. All
    bytes wrong and the last missing: that it is."""
    last, at = len(pairs_of(seal, part)) - 1, seal.at(part)
    changes = [(k, {k: pair, last - k: spaces(seal, part, last - k)}) for k in (0, last) for pair in THREE[:2]]
    changes += [(0, {0: pair, last: other}) for pair, other in zip(THREE, THREE[1:] + THREE[:1])]
    coded = [stated(put(seal, part, change), item_of(seal, part), at + 2 * k, 2, WELL_CODED) for k, change in changes]
    cuts = [seal.before(part) + b"\xFF" * count for count in (1, 2 * last + 1)]
    return coded + [stated(data, item_of(seal, part), at, len(data) - at, THERE) for data in cuts]


family("several", "A text with a wrongly coded pair and wrong characters or another such pair, and cut, of such pairs.",
       *(text_at_fault(seal, part) for seal, part in NAMES[:5]))
family("several", "Signer and reference wrong: the signer. Signer and digits, or 00: the signer.",
       wrong(FITS_SIGNER, A, "names", c40("7TAB0 001"), c40("UTA 0000 ")),
       wrong(FITS_SIGNER, PLAIN[4], "names", c40("7TABGG"), c40("UTA 00"), c40("U7AB0G")))
LENGTHS = [(b"\x80", 1, BEGINS_LENGTH), (b"\xFF\0", 1, BEGINS_LENGTH), (b"\x82\0", 2, REST_THERE),
           (b"\x84\0\0\0", 4, REST_THERE), (b"\x81\0", 2, SHORTEST), (b"\x82\0\x39", 3, SHORTEST),
           (b"\x81\x39", 2, SHORTEST)]
family("several", "A length and then nothing: its first byte is judged before its rest, that before its shortest form, "
       "that before the sizes, and those before the signature.",
       *([stated(seal.before(part) + form, item_of(seal, part), seal.at(part), count, rule)
          for form, count, rule in LENGTHS] for seal, part in ((A, "size"), (B, "size"), (B, "length0"))),
       *(wrong(SIGNATURE_SIZE, base, "size", b"\x39", b"\x7F", H("81FF"))[-1:] for base in BASES.values()))
family("several", "A tag used before is judged before its length, also where that is not there or wrong.",
       *([stated(seal.before("tag2") + b"\1" + tail, "tag", seal.at("tag2"), 1, NOT_USED_BEFORE)
          for tail in (b"", b"\x80", b"\x81\0")] for seal in FOUR.values()))
family("several", "More than 4,096 bytes and anything else: the seal.",
       too_long(*(several(seal, AT_FAULT[version], [part])[0] + bytes(MOST) for version, seal in FOUR.items()
                  for part in ("mark", "names", "tag1", "size"))))


# ---- The reader's own inputs ----------------------------------------------------------------
def inputs_of(chapters):
    """The inputs under each heading of the reader's chapters and of the listing's, in which the answer comes last."""
    return [(f"{chapter}: {heading}", [(case[0], case[-1]) for case in cases])
            for chapter, families in chapters.items() for heading, cases in families]


OTHERS = [entry for module in (seal_cases, pair_cases, listing_cases) for entry in inputs_of(module.CHAPTERS)]


def chosen(cases, given):
    """Of the refused inputs under a heading up to two, each with a reason that is not yet given."""
    reasons = {why(data): data for data, answer in cases if answer.number not in (0, 12) and len(data) <= 600}
    new = [(data, reason) for reason, data in reasons.items() if reason not in given]
    some = new[:1] + new[1:][-1:]
    given.update(reason for _, reason in some)
    return some


GIVEN = set()
for name, others in OTHERS:
    if some := chosen(others, GIVEN):
        family("reader", f"By the reference. {name}", some)
family("reader", "Seals by chance with a byte changed, left out, put in or doubled, or cut: by the reference.",
       [(data, why(data)) for data, _, _, _ in mixed_cases(1111, 4)[1]])


# ---- Checks and output ----------------------------------------------------------------------
def check_agrees(data, reason):
    """Number and place are the reader's, and the bytes judged lie in the seal."""
    answer = judge(data)
    assert (answer.number, answer.place) == ((reason.number, reason.place) if reason else (0, 0)), (data.hex(), reason)
    assert reason is None or reason.place + reason.length <= len(data), (data.hex(), reason)


def check_others():
    """Every input of the reader and of the listing."""
    for _, cases in OTHERS:
        for data, answer in cases:
            check_agrees(data, why(data))


def check_all_rules():
    """Every rule that good seals of either version keep is broken by a stated case of that version, or of none."""
    stated_cases = [case for chapter, families in CHAPTERS.items() if chapter != "reader" for _, cases in families
                    for case in cases if case[1]]
    for version, seal in FOUR.items():
        kept = []
        assert why(seal.data(), kept) is None
        other = bytes([6 - version])   # the version byte of the other
        met = {(reason.item, reason.rule) for data, reason in stated_cases if data[1:2] != other}
        assert set(kept) <= met, set(kept) - met


def entries(families):
    """The entries of a chapter: heading, line of the case, and what is printed, with its length. The reference must
    agree."""
    for heading, cases in families:
        for data, reason in cases:
            assert why(data) == reason, (heading, data.hex(), reason, why(data))
            check_agrees(data, reason)
            text = told(data, reason)
            assert len(data) < 8192
            yield heading, "y" + runs(data), f"{text}{len(text)} kept"


def chapters():
    """Each file of a chapter: its name, the lines of its cases, and of their answers."""
    check_all_rules()
    check_others()
    for chapter, families in CHAPTERS.items():
        yield from in_files(chapter, entries(families))
