"""The cases of the walk over features, made from document 02, Ticket 2, by way of the references in walk.py, seals.py.

What a walk or a step must answer is stated from what was put together: these features stand there, so those are the
steps; this part was made wrong, so the seal is refused there, and no walk opens; this length is malformed, so no
feature stands there. The reference must agree. Only where a heading says "by the reference" is the answer the
reference's alone. The cases of look-ups are in shown_cases.py.
"""
import functools
import pathlib

import listing_cases
import pair_cases
import seal_cases
from der_cases import length_bytes
from seal_cases import (A, B, BASES, CUT_FORMS, DOWN, FAKE, FULL, GREAT, H, LARGE, LONG, LONGEST, MANY, NO_FORM,
                        NOT_SHORTEST, PLAIN, VERSIONS, VISA, changed, enter, in_files)
from seals import (MOST, SIZES, Dice, Seal, by_reference, c40, code, cuts, ended, good, judge, mixed_cases, padded,
                   refused, wrong, wrong_pair)
from walk import END, ROOM, by_items, check_walk, found, line_of, opening, step, steps_of
from writing import TOP, runs, words

CHAPTERS = {}   # chapter: [(heading, cases)]; a case is (line of the file, lines of the answer)
family = functools.partial(enter, CHAPTERS)


# ---- How cases are made ---------------------------------------------------------------------
def walks(*groups):
    """Whole walks over inputs of the reader, (bytes, rooms, answer), of whose rooms nothing is asked. The steps are
    those that the answer says."""
    made = []
    for data, _, _, answer in (case for group in groups for case in group):
        check_walk(data, answer)
        assert len(data) < ROOM
        steps = [line_of(one, data) for one in steps_of(answer)]
        made.append(("f" + runs(data), "\n".join([" ".join(map(str, opening(data))), *steps])))
    return made


def step_case(data, at, answer):
    """One step, as stated."""
    assert step(data, at) == by_items(data, at) == answer, (data.hex(), at, answer, step(data, at), by_items(data, at))
    assert len(data) < ROOM
    return f"s{words([at])}{runs(data)}", line_of(answer, data)


def none(data, *places):
    """No feature stands at these places."""
    return [step_case(data, at, END) for at in places]


def rows(seal):
    """Each feature of a seal, where its tag stands; and none where FF stands, at 0, and from the end on."""
    data = seal.data()
    return [step_case(data, row.tag_place, found(*row)) for row in seal.content.rows] + none(
        data, seal.at("end"), 0, len(data), len(data) + 1, TOP)


def every(data, places=None):
    """Steps at all places, to past the end, or at those asked for: by the reference."""
    return [step_case(data, at, step(data, at)) for at in places or range(len(data) + 3)]


def begun(version, tag, form):
    """What ends with a tag and a length: right behind the byte of the version, and in a seal behind its features. With
    the place of the tag."""
    fronts = bytes([0xDC, version - 1]), LARGE[version - 3].before("end")
    return [(front + bytes([tag]) + form, len(front)) for front in fronts]


def fits(version, tag, form, size, *tails):
    """A length before as many bytes as it says, at the end and with more behind them."""
    return [step_case(front + b"\x5A" * size + tail, at, found(tag, at, len(front), size))
            for front, at in begun(version, tag, form) for tail in (b"", *tails)]


def fails(version, tag, form, *tails):
    """A length of which no feature comes, whatever follows."""
    return [step_case(front + tail, at, END) for front, at in begun(version, tag, form) for tail in tails]


# ---- Document 02 and the examples -----------------------------------------------------------
def example(name):
    """A seal that is given with the library."""
    return (pathlib.Path(__file__).parent.parent / f"examples/seal-{name}").read_bytes()


SPRING = Seal(3, issued=(4, 14, 2026), signed=(4, 14, 2026), raw=b"\xAA" * 64,
              features=[(1, b"\x8A" + bytes(range(128))), (11, c40("PRESS4HALL2"))])
ASTRAY = SPRING.data().replace(b"\2", b"\3", 1)      # the same bytes, but for the version: 81 8A is a DER length
family("listed", "Document 01, Seal A: one feature, 10 at 18 with four bytes from 20 on, and then 51 for ever.",
       walks(good(A)), rows(A))
family("listed", "Seal A with a second tag 0A: refused, and no walk. A step judges no seal: it is made over both.",
       walks(refused(9, 24, A.before("end") + b"\x0A" + A.after("value0"), example("twice"))),
       rows(Seal(3, features=[VISA, VISA])))
family("listed", "The tag of the accident in spring. Its first feature has 129 bytes, length byte 81: that one, then "
       "the lock behind it. Taken for version 4 the step goes over both, up to FF.",
       walks(good(SPRING)), rows(SPRING), [step_case(ASTRAY, 18, found(1, 18, 21, 138))], none(ASTRAY, 159))
family("listed", "The seal of five features that stands in the examples: by the reference.",
       walks(by_reference([example("five")])))

# ---- Whole walks ----------------------------------------------------------------------------
family("whole", "No feature: 51 at once. Both versions, short references and the longest, every size of signature.",
       walks(good(*PLAIN.values(), *(Seal(4, reference=("7A0" * 85)[:size]) for size in (1, 2, 3, 254)), LONGEST,
                  *(Seal(version, raw=b"\x38" * size) for version in VERSIONS for size in SIZES[1:]))))
family("whole", "One feature, two and three: tags up and down, 0, 127, 128, 253 and 254, empty values at each place.",
       walks(good(B, *(Seal(version, features=features) for version in VERSIONS for features in (
           [(0, b"")], [(254, b"")], [VISA], [(1, b"\7"), (2, b"\7\7")], [(2, b"\7"), (1, b"\7\7")],
           [(127, b""), (128, b"\1")], [(254, b"\2"), (0, b"")], [(0, b""), (1, b""), (2, b"")],
           [(253, b"\1"), (252, b""), (251, b"\3")], [(5, b"\1\2"), (9, b"\3"), (7, b"")],
           [(9, b""), (5, b"\1\2"), (7, b"\3")])))))
SIZES_OF_VALUES = {3: (0, 1, 2, 23, 24, 25, 126, 127, 128, 255), 4: (0, 1, 24, 25, 127, 128, 255, 256, 257, 1000, 3900)}
family("whole", "Values of 0, 1, 24, 25, 127, 128 and 255 bytes, in version 4 up to 3,900: alone, first and last.",
       walks(good(*(Seal(version, features=features) for version, sizes in SIZES_OF_VALUES.items() for size in sizes
                    for value in [(b"\xA1\xB2" * size)[:size]]
                    for features in ([(3, value)], [(3, value), VISA], [(0, b""), (3, value)])))))
family("whole", "FF in values, first, last and before what could be a signature, and as a version 3 length: no mark.",
       walks(good(*(Seal(version, features=features) for version in VERSIONS for features in (
           [(1, b"\xFF")], [(1, b"\xFF" * 3), (2, b"\0\xFF")], [(1, FAKE)], [(1, b"\1" + FAKE), (2, FAKE + b"\2")],
           [(1, b"\xFF" * 255), VISA], [(1, b"\xFF\x38" * 127 + b"\xFF"), (254, b"\xFF\xFF")])))))
family("whole", "Version 3 lengths 7F to 85, FE and FF are plain bytes, also where the value could be the rest of a "
       "DER length; and the features behind them.",
       walks(good(*(Seal(3, features=[(1, (head * 128)[:size]), (2, b""), VISA])
                    for size in (*range(0x7F, 0x86), 0xFE, 0xFF) for head in (b"\x01\x00", b"\x8A\x05", b"\x80\xFF")))))
family("whole", "Values that could be features, with the tags of those before and behind them: no tag is sought there.",
       walks(good(*(Seal(version, features=features) for version in VERSIONS for features in (
           [(1, b"\2\1\7"), (2, b"\1\1\7"), (3, b"\3\0")],
           [(2, b"\2"), (1, b"\2\2\2"), (0, b"\0" * 5), (10, b"\x0A\4")],
           [(18, b"\x12" * 18), (20, b"\x14" * 20), (22, b"\x16" * 22)])))))
family("whole", "The reader's seals of places: headers of every size, and lengths of one byte, of two and of three.",
       walks(*(cases for _, cases in seal_cases.CHAPTERS["places"])))
family("whole", "Seals of 4,095 and 4,096 bytes, of one long value and of many.",
       walks(good(*FULL.values(), padded(3, MOST - 1), padded(4, MOST - 1), padded(4, MOST, reference="F" * 255),
                  padded(4, MOST, raw=b"\xFF" * 132), LARGE[0], LARGE[1], LONG)))
family("many", "255 features, every tag: up, empty; down, of one byte; and so many in 4,096 bytes.",
       walks(good(*MANY.values(), *DOWN.values(), listing_cases.crowded(4))))
family("mixed", "Seals by chance.", walks(mixed_cases(5051, 16)[0]))
family("mixed", "The same with a byte changed, left out, put in or doubled, or cut: by the reference.",
       walks(mixed_cases(5051, 16)[1]))

# ---- No walk --------------------------------------------------------------------------------
TWICE = {version: Seal(version, features=[(7, b"\1" * 130), (8, b""), (7, b""), (8, b"\2")]) for version in VERSIONS}
family("refused", "1: more than 4,096 bytes, also where they begin with a good seal, and what would be one.",
       walks(*(refused(1, MOST, seal.data() + b"\0", padded(version, MOST + 1).data(), PLAIN[version].data() * 60)
               for version, seal in FULL.items()), refused(1, MOST, bytes(MOST + 1), A.data() + bytes(8100))))
family("refused", "2: no bytes, and a long seal cut before, in and right behind each of its parts.",
       walks(refused(2, 0, b""), *(cuts(seal, sorted({place for part in seal.parts for place in (
           seal.at(part), seal.at(part) + 1, seal.at(part) + len(seal.parts[part]) - 1) if place < len(seal.data())}))
           for seal in LARGE)))
family("refused", "3 and 4: another first byte, another version; all else is good.",
       walks(*(wrong(3, seal, "mark", *map(bytes, ([0], [2], [0xDB], [0xDD], [0xFF])))
               + wrong(4, seal, "version", *map(bytes, ([0], [1], [4], [0xDC], [0xFF]))) for seal in BASES.values())))
family("refused", "5: country, signer, L and reference, at the item or at a pair of it.",
       walks(*(wrong(5, seal, "country", c40("7TO"), c40(" UT")) + wrong_pair(seal, "names", 1, b"\0\0", b"\xFE\x42")
               + wrong_pair(seal, "names", 0, b"\xFF\xFF") for seal in BASES.values()),
             wrong(5, PLAIN[4], "names", c40("UTAB00"), c40("UTABGG")), wrong(5, B, "reference", c40("AB CDEF")),
             wrong_pair(B, "reference", 2, c40("ABC"))))
family("refused", "6 and 7: no such day; definition reference and category of 0 and 255.",
       walks(*(wrong(6, seal, name, bytes(3), code(2, 30, 2000)) for seal in BASES.values()
               for name in ("issued", "signed")),
             *(wrong(7, seal, name, b"\0", b"\xFF") for seal in BASES.values() for name in ("definition", "category"))))
family("refused", "8: a length in version 4, the first and the last, and the signature's: malformed, not the shortest.",
       walks(*(wrong(8, B, f"length{k}", H("80"), H("8100"), H("8400000001"), H("85")) for k in (0, 2)),
             *(wrong(8, seal, "size", H("8138"), H("80"), H("FF")) for seal in BASES.values())))
family("refused", "9: a tag used before, near and far; of two the first. Features before it are not shown.",
       walks(*(refused(9, seal.at("tag2"), seal.data(), seal.before("length2"))
               + wrong(9, BASES[version], "end", BASES[version].parts["tag0"])
               + ended(9, MANY[version], "end", b"\0", b"\xFE") for version, seal in TWICE.items())))
family("refused", "10 and 11: the signature's length, and bytes behind it, also what could be more features.",
       walks(*(wrong(10, seal, "size", H("37"), H("39"), H("8181"), H("84FFFFFFFF"))
               + refused(11, len(seal.data()), seal.data() + b"\0", seal.data() + b"\x0B\1\5\xFF", seal.data() + FAKE)
               for seal in (*BASES.values(), *PLAIN.values()))))
family("cut", "Seal A and the version 4 seal with three features, cut at every length: 2 at the part that is cut.",
       walks(*(cuts(seal, range(len(seal.data()))) for seal in BASES.values())))
family("changed", "Seal A and the version 4 seal with three features, each byte changed, to 00, 7F, 80 or FF: names, "
       "dates, tags and lengths by the reference.",
       walks(*([*changed(seal)][::3] for seal in BASES.values())))

# ---- Steps at every place -------------------------------------------------------------------
LIKE_SPRING = Seal(3, features=[(1, b"\x8A" + b"\4" * 128), (11, b"\0\1\2\3"), (0, b"")], raw=b"\2\1" * 32)
IN_PAIRS = Seal(4, features=[(1, b"\x81\x80" * 65), (2, b"\x05\x82\1\0\xFF\3"), (254, b"\1\0" * 9)], raw=b"\0\2" * 28)


def about(seal):
    """All places of the header, and those at the ends of each part behind it."""
    ends = {seal.at(part) + k for part in seal.parts for k in (-1, 0, 1)} - {-1}
    return sorted({*range(seal.content.ends[0]), *ends, *(len(seal.data()) + k for k in (-2, -1, 0, 1))})


family("steps3", "Version 3: each feature where it stands, and none at FF, at 0, and behind the end.",
       rows(A), rows(SPRING), rows(LIKE_SPRING), rows(LARGE[0]), rows(PLAIN[3]), rows(TWICE[3]))
family("steps3", "Version 3: every place of seals, in header, tags, lengths, values and signature: by the reference.",
       every(A.data()), every(LIKE_SPRING.data()), every(LARGE[0].data(), about(LARGE[0])))
family("steps4", "Version 4: each feature where it stands, and none at FF, at 0, and behind the end.",
       rows(B), rows(IN_PAIRS), rows(LARGE[1]), rows(PLAIN[4]), rows(TWICE[4]), rows(LONG))
family("steps4", "Version 4: every place of seals, in header, tags, lengths, values and signature: by the reference.",
       every(B.data()), every(IN_PAIRS.data()), every(LARGE[1].data(), about(LARGE[1])))
family("astray", "Seals with the byte of the other version, at the places of their parts: by the reference.",
       *(every(seal.data()[:1] + bytes([6 - seal.content.version]) + seal.data()[2:], about(seal)[-30:])
         for seal in (A, B, LIKE_SPRING, IN_PAIRS)), every(ASTRAY, (18, 20, 21, 149, 151, 158, 159, 160)))

# ---- Strings that are no seals --------------------------------------------------------------
FAR = (2 ** 31, 2 ** 32, 2 ** 32 + 2, 2 ** 63 - 1, 2 ** 63, 2 ** 63 + 2, TOP - 2, TOP - 1, TOP)
family("strings", "Strings of no byte and of one have no version: none at any place. Of two bytes: 02 or 03 is a tag.",
       *(none(data, 0, 1, 2, 3, TOP - 1, TOP) for data in (b"", b"\0", b"\2", b"\3", b"\xDC", b"\xFF", b"\xDC\2",
                                                            b"\xDC\3", b"\2\2", b"\xDC\xFF")))
family("strings", "Every byte of version: 02 and 03 alone are one.",
       [step_case(bytes([0xDC, b, 5, 1, 7]), 2, found(5, 2, 4, 1) if b in (2, 3) else END) for b in range(256)])
family("strings", "The byte before the version is not judged, and a step at 1 takes the version for a tag.",
       *([step_case(data, 1, found(v, 1, 3, 0)), step_case(data, 2, found(0, 2, 4, 0))]
         for b in (0, 2, 0xDB, 0xDC, 0xFF) for v in (2, 3) for data in [bytes([b, v, 0, 0, 9])]))
family("strings", "Every byte as the tag: FF alone is none.",
       [step_case(bytes([0xDC, v, 1, tag, 0]), 3, END if tag == 255 else found(tag, 3, 5, 0)) for v in (2, 3)
        for tag in (0, 1, 2, 3, 9, 10, 99, 100, 127, 128, 200, 253, 254, 255)])
family("strings", "At 0 none, whatever stands there; and none at places behind the end, near and far.",
       *(none(data, 0, len(data), len(data) + 1, *FAR) for v in (2, 3) for data in (
           bytes([1, v]) + b"\1" * 20, bytes([0, v]), A.data(), B.data(), bytes([0, v]) + b"\0\0" * 2500)))
LONGER = {v: bytes([0xDC, v]) + b"\1\1" * 4090 for v in (2, 3)}
family("strings", "More than 4,096 bytes: a step has no limit.",
       *([step_case(data, at, found(1, at, at + 2, 1)) for at in (2, 3, 4093, 4094, 4095, 4096, 4097, 4098, 8000, 8179)]
         + none(data, 8180, 8181, 8182) for data in LONGER.values()),
       *(fits(4, 7, length_bytes(size), size, b"\xFF", b"\0" * 99) for size in (3900, 4095, 4096, 4097, 7000, 7700)),
       *(fails(4, 7, length_bytes(size), b"\x5A" * (size - 1)) for size in (3900, 4096, 7700)))

# ---- Lengths --------------------------------------------------------------------------------
ONE_BYTE = (0, 1, 2, 3, 55, 56, 126, 127)
family("lengths", "Lengths of one byte before as many bytes and more: both versions up to 7F, version 3 up to FF.",
       *(fits(version, 6, bytes([size]), size, b"\xFF", b"\0\0") for version in VERSIONS for size in ONE_BYTE),
       *(fits(3, 6, bytes([size]), size, b"\xFF") for size in (*range(128, 134), 200, 254, 255)))
family("lengths", "The same before one byte less, half of them and none: no feature.",
       *(fails(version, 6, bytes([size]), b"\x5A" * (size - 1), b"\xFF" * (size // 2), b"")
         for version in VERSIONS for size in ONE_BYTE[1:]),
       *(fails(3, 6, bytes([size]), b"\x5A" * (size - 1), b"\x80" * (size // 2), b"")
         for size in (*range(128, 134), 254, 255)))
family("lengths", "A tag as the last byte: no feature. Both versions.",
       *(none(front, at) for version in VERSIONS for tag in (0, 2, 254) for front, at in begun(version, tag, b"")))
SEVERAL = [(H(form), int(form[2:], 16)) for form in "8180 8181 818A 81FF 820100 820101 8201FF 820200 820F3C".split()]
family("lengths", "Version 4: 81 80 up to 81 FF, and 82 01 00 and more, before as many bytes, more, and too few.",
       *(fits(4, 0, form, size, b"\xFF") + fails(4, 0, form, b"\x5A" * (size - 1), b"") for form, size in SEVERAL))
family("lengths", "Version 4: lengths that are not the shortest, before many bytes, before as many, and before none.",
       *(fails(4, 1, form, b"\1" * 300, b"\1" * int.from_bytes(form[-1:], "big"), b"") for form in NOT_SHORTEST[::2]),
       *(fails(4, 1, H(form), b"\1" * 127, b"\1" * 128) for form in ("817F", "82007F", "820080", "83000080")))
family("lengths", "Version 4: 80 and 85 to FF, before many bytes and as the last byte.",
       *(fails(4, 1, form, b"\1" * 300, b"") for form in NO_FORM[:3] + NO_FORM[3::9]),
       fails(4, 1, b"\xFF", b"\x38" * 90, b""))
family("lengths", "Version 4: 81 to 84 with a byte missing.", *(fails(4, 1, form, b"") for form in CUT_FORMS))
family("lengths", "Version 4: great lengths up to FFFFFFFF, before no byte and before many.",
       *(fails(4, 1, form, b"", b"\xFF" * 127) for form in GREAT), fails(4, 1, GREAT[-1], b"\0" * 7000),
       fails(4, 1, GREAT[4], b"\0" * 7000))
family("lengths", "Version 3: the same bytes are plain, and the bytes behind them the value.",
       *([step_case(front + form[1:] + b"\1" * 254, at, found(1, at, len(front), form[0]))
          for front, at in begun(3, 1, form[:1])] for form in (*GREAT[::2], *NOT_SHORTEST[::6], *NO_FORM[::30])))


# ---- By chance ------------------------------------------------------------------------------
def by_chance(dice):
    """A string of low bytes, those that begin lengths, FF and any, of one version or, one in ten, of none; and a place,
    mostly in it."""
    kinds = (lambda: dice.below(9), lambda: dice.below(40), lambda: (0x80, 0x81, 0x82, 0x83, 0xFF)[dice.below(5)],
             lambda: dice.below(256))
    body = bytes(kinds[dice.below(4)]() for _ in range(dice.below(60)))
    head = bytes([dice.below(256), dice.below(256) if dice.below(10) == 0 else 2 + dice.below(2)])
    return head + body, dice.below(len(head + body) + 2)


DICE = Dice(5152)
family("chance", "Strings by chance, and places of them: by the reference.",
       *(every(data, [at]) for data, at in (by_chance(DICE) for _ in range(200))))


# ---- Checks and output ----------------------------------------------------------------------
def check_others():
    """The walk gives the rows of the full reading for every input of the reader and of the listing."""
    for module in (seal_cases, pair_cases, listing_cases):
        for data in {case[0] for families in module.CHAPTERS.values() for _, cases in families for case in cases}:
            check_walk(data, judge(data))


def check_numbers():
    """Every number is answered for either version; 3 and 4 are told before there is one."""
    opened = {(line[4:6], answer.split()[0]) for families in CHAPTERS.values() for _, cases in families
              for line, answer in cases if line.startswith("f DC")}
    assert opened >= {(version, str(number)) for version in ("02", "03") for number in (0, 1, 2, *range(5, 12))}


def files_of(chapters):
    """Each file of a chapter: its name, the lines of its cases, and of their answers."""
    for chapter, families in chapters.items():
        yield from in_files(chapter, ((heading, *case) for heading, cases in families for case in cases))


def chapters():
    assert SPRING.data() == example("spring") and A.content.rows == [(10, 18, 20, 4)]
    check_numbers()
    check_others()
    return files_of(CHAPTERS)
