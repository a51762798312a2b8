"""The cases of the program that prints a line a feature, made from document 02, Ticket 2, by way of walk.py.

What is printed is stated from the features that a seal was put together from, or from the part that was made wrong. The
reference must agree, and the walk must give the same rows; only where a heading says "by the reference" is the verdict
the reference's alone.
"""
import functools

from listing_cases import crowded
from seal_cases import A, B, BASES, FAKE, FULL, H, LARGE, LONG, LONGEST, MANY, PLAIN, VERSIONS, VISA, enter, in_files
from seals import MOST, SIZES, Seal, c40, code, cuts, ended, good, mixed_cases, padded, refused, wrong, wrong_pair
from walk import ROOM, check_walk, features_text
from walk_cases import SPRING, TWICE
from writing import runs

CHAPTERS = {}   # chapter: [(heading, cases)]; a case is (bytes, table room, text room, answer)
family = functools.partial(enter, CHAPTERS)

# ---- Accepted -------------------------------------------------------------------------------
family("accepted", "Document 01, Seal A; a version 4 seal with three features; the tag of the accident in spring.",
       good(A, B, SPRING))
family("accepted", "No feature: no line. Both versions, the shortest reference, the longest, every size of signature.",
       good(*PLAIN.values(), Seal(4, reference="7"), LONGEST,
            *(Seal(version, raw=b"\x38" * size) for version in VERSIONS for size in SIZES[1:])))
family("accepted", "One feature, and two: tags 0, 9, 10, 99, 100 and 254, up and down, of no bytes and of some.",
       good(*(Seal(version, features=features) for version in VERSIONS for features in (
           [(0, b"")], [(9, b"\1")], [(10, b"")], [(99, b"\2\3")], [(100, b"")], [(254, b"\xFF")],
           [(0, b""), (254, b"")], [(254, b"\1"), (0, b"\2")], [VISA, (11, c40("PRESS4"))]))))
family("accepted", "Values of 0 to 255 bytes, in version 4 up to 3,900, with FF in them, with what could be features.",
       good(*LARGE, LONG, *(Seal(version, features=[(254, b""), (0, b"\xFF" * 127), (100, b"\1" * 128), (99, FAKE),
                                                    (9, b"\2" * 255), VISA]) for version in VERSIONS)),
       good(*(Seal(4, features=[(1, b"\x0A\1" * (size // 2)), VISA]) for size in (256, 1000, 3900))))
family("accepted", "Tags and places of one digit more from one line to the next.",
       good(*(Seal(version, features=[(9, b"\5" * a), (10, b"\5" * b), (99, b""), (100, b"\5" * 9)])
              for version in VERSIONS for a, b in ((76, 1), (77, 1), (78, 1), (9, 10), (99, 100))),
            *(Seal(4, features=[(9, b"\5" * a), (10, b""), (11, b"")]) for a in (970, 971, 972, 973, 974, 975))))
family("accepted", "Seals by chance.", mixed_cases(5253, 12)[0])


# ---- Sizes ----------------------------------------------------------------------------------
def longest_text():
    """The longest text of all: 255 lines. The longest header and a value of three digits take the second tag to 1000,
    so that all behind it have places of four digits, and 253 of their values have ten bytes: no more of them fit."""
    return Seal(4, reference="F" * 255, features=[(0, b"\x5A" * 810), (1, b""), *(
        (tag, b"\x5A" * 10) for tag in range(2, 255))])


LONGEST_TEXT = 255 * len("feature  at  value at  length \n") + 10 + 90 * 2 + 155 * 3 + 3 + 3 + 254 * 8 + 3 + 1 + 253 * 2
family("sizes", "The longest line: a tag of three digits, and places and length of four.",
       good(Seal(4, features=[(100, b"\x5A" * 980), (254, b"\x5A" * 3000)])))
family("sizes", "255 features: empty, in 4,096 bytes, and with the longest text of all.",
       good(*MANY.values(), *map(crowded, VERSIONS), longest_text()))
family("sizes", "4,096 bytes are good, one more is 1 at 4096.",
       good(*FULL.values(), padded(4, MOST, reference="F" * 255)),
       *(refused(1, MOST, seal.data() + b"\0", padded(version, MOST + 1).data()) for version, seal in FULL.items()))

# ---- Refused --------------------------------------------------------------------------------
family("refused", "1 and 2: more than 4,096 bytes; no bytes, and a seal cut before each of its parts.",
       refused(1, MOST, bytes(MOST + 1), A.data() + bytes(8000)), refused(2, 0, b""),
       *(cuts(seal, sorted({seal.at(part) for part in seal.parts} - {0})) for seal in BASES.values()))
family("refused", "3 to 8 and 10 at their items.",
       *(wrong(3, seal, "mark", b"\0", b"\xFF") + wrong(4, seal, "version", b"\1", b"\4")
         + wrong(5, seal, "country", c40("7AA")) + wrong_pair(seal, "names", 1, b"\0\0", b"\xFE\x42")
         + wrong(6, seal, "issued", code(2, 30, 2000)) + wrong(6, seal, "signed", bytes(3))
         + wrong(7, seal, "definition", b"\0") + wrong(7, seal, "category", b"\xFF")
         + wrong(8, seal, "size", H("8138"), b"\x80") + wrong(10, seal, "size", b"\x39", H("8181"))
         for seal in BASES.values()),
       wrong(5, B, "reference", c40("AB CDEF")), wrong(8, B, "length1", H("8100"), b"\x85"))
family("refused", "9 at the first tag that repeats one, near and far: no line of the features before it.",
       *(refused(9, seal.at("tag2"), seal.data(), seal.before("length2")) for seal in TWICE.values()),
       *(ended(9, seal, "end", b"\0", b"\xFE") for seal in MANY.values()),
       refused(9, 24, A.before("end") + b"\x0A" + A.after("value0")))
family("refused", "11 at the first byte behind the signature.",
       *(refused(11, len(seal.data()), seal.data() + b"\0", seal.data() + b"\x0B\1\5\xFF", seal.data() * 2)
         for seal in (*BASES.values(), *PLAIN.values(), SPRING)))
family("refused", "Seals by chance with a byte changed, left out, put in or doubled, or cut: by the reference.",
       mixed_cases(5253, 12)[1])


# ---- Checks and output ----------------------------------------------------------------------
def entries(families):
    """The entries of a chapter: heading, line of the case, and what is printed, with its length."""
    for heading, cases in families:
        for data, _, _, answer in cases:
            check_walk(data, answer)
            text = features_text(answer)
            assert len(data) < ROOM and len(text) <= LONGEST_TEXT
            yield heading, "t" + runs(data), f"{text}{len(text)} kept"


def check_text():
    """Seal A's line as it must be, the longest text, and that every number is met."""
    assert features_text(good(A)[0][-1]) == "feature 10 at 18 value at 20 length 4\n"
    assert len(longest_text().data()) == MOST and longest_text().at("tag1") == 1000
    assert len(features_text(good(longest_text())[0][-1])) == LONGEST_TEXT == 11108
    met = {case[-1].number for families in CHAPTERS.values() for _, cases in families for case in cases}
    assert met == {*range(12)}


def chapters():
    """Each file of a chapter: its name, the lines of its cases, and of their answers."""
    check_text()
    for chapter, families in CHAPTERS.items():
        yield from in_files(chapter, entries(families))
