"""The cases of the listing, made from document 01 by way of the reference in seals.py.

What is listed is stated from what a seal was put together from, or from the part that was made wrong, and the reference must
agree; only where a heading says "by the reference" is the verdict the reference's alone. The lines are document 01's example
with the fields put in.
"""
import functools
import pathlib

from seal_cases import A, B, FULL, H, LONGEST, PLAIN, VERSIONS, VISA, enter
from seals import MOST, SIZES, Seal, c40, cuts, ended, good, judge, mixed_cases, padded, refused, wrong, wrong_pair
from writing import runs

CHAPTERS = {}   # chapter: [(heading, cases)]
family = functools.partial(enter, CHAPTERS)
ALL = {version: Seal(version, features=[(tag, b"") for tag in range(255)]) for version in VERSIONS}

# ---- Accepted -------------------------------------------------------------------------------
family("accepted", "Document 01, Seal A; a version 4 seal with three features; no feature, in both versions.",
       good(A, B, *PLAIN.values()))
family("accepted", "Fillers in the country; references of 1, 2, 3 and 255 characters.",
       good(*(Seal(version, country=country) for version in VERSIONS for country in ("D<<", "UT<", "ZZZ"))),
       good(*(Seal(4, reference=reference) for reference in ("7", "0A", "ABC")), LONGEST))
family("accepted", "Years below 1000, months and days of one digit and of two, the first day and the last.",
       good(*(Seal(version, issued=issued, signed=signed) for version in VERSIONS for issued, signed in (
           ((1, 1, 1), (12, 31, 9999)), ((9, 10, 9), (10, 9, 10)), ((11, 30, 99), (2, 29, 104)), ((6, 7, 999), (7, 6, 1000))))))
family("accepted", "Definition reference and category of one, two and three digits; the five sizes of a signature.",
       good(*(Seal(3, definition=d, category=c) for d, c in ((1, 254), (9, 10), (99, 100), (254, 1)))),
       good(*(Seal(version, raw=b"\x38" * size) for version in VERSIONS for size in SIZES)))
family("accepted", "Tags 0, 9, 10, 99, 100 and 254; values of 0, 127, 128 and 255 bytes, and with FF in them.",
       good(*(Seal(version, features=[(254, b""), (0, b"\xFF" * 127), (100, b"\1" * 128), (99, b"\xFF\x38"), (9, b"\2" * 255), VISA])
              for version in VERSIONS)))
family("accepted", "Seals by chance.", mixed_cases(4711, 12)[0])

# ---- Refused --------------------------------------------------------------------------------
family("refused", "No bytes; Seal A with one byte more, one less, and a second tag 0A.",
       refused(2, 0, b""), refused(11, 82, A.data() + b"\0"), refused(2, 26, A.data()[:81]),
       refused(9, 24, A.before("end") + b"\x0A" + A.after("value0")))
family("refused", "2 at every item: a seal cut before, or in, each of its parts.",
       *(cuts(seal, sorted({seal.at(part) for part in seal.parts} | {seal.at(part) + 1 for part in seal.parts}))
         for seal in (A, B)))
family("refused", "3 to 8 and 10 at their items.",
       *(wrong(3, seal, "mark", b"\0", b"\xFF") + wrong(4, seal, "version", b"\1", b"\4") + wrong(5, seal, "country", c40("7AA"))
         + wrong(5, seal, "names", bytes(len(seal.parts["names"]))) + wrong(6, seal, "issued", bytes(3))
         + wrong(6, seal, "signed", b"\xFF" * 3) + wrong(7, seal, "definition", b"\0", b"\xFF")
         + wrong(7, seal, "category", b"\0", b"\xFF") + wrong(8, seal, "size", H("8138"), b"\x80") + wrong(10, seal, "size", b"\x39")
         for seal in (A, B)),
       wrong(5, B, "reference", bytes(len(B.parts["reference"]))), wrong(8, B, "length1", H("8100"), b"\x85"))
family("refused", "5 at a pair further in that is wrongly coded, and at a last pair that does not fit.",
       *(wrong_pair(seal, "names", 1, b"\0\0", b"\0\1", b"\xFE\x42", c40("AB")) for seal in (A, B)),
       wrong_pair(A, "names", 2, b"\xFF\xFF", c40("A")), wrong_pair(B, "reference", 1, b"\xFE\x42"),
       wrong_pair(B, "reference", 2, c40("ABC"), c40("AB")), wrong(5, B, "reference", c40("AB CDEF"), c40("ABCDEF ")))
family("refused", "9 at the first tag that repeats one, near and far; 11 at the first byte after the signature.",
       *(wrong(9, seal, "tag1", seal.parts["tag0"]) + ended(9, seal, "end", seal.parts["tag2"]) for seal in (B,)),
       *(ended(9, seal, "end", b"\0", bytes([254])) for seal in ALL.values()),
       *(refused(11, len(seal.data()), seal.data() + b"\xFF", seal.data() + seal.data()) for seal in (A, B)))
family("refused", "Seals by chance with a byte changed, left out, put in or doubled, or cut: by the reference.",
       [(data, 0, 0, judge(data)) for data, _, _, _ in mixed_cases(4711, 12)[1]])

# ---- Sizes ----------------------------------------------------------------------------------
family("sizes", "4,096 bytes are good; with one more, with a second seal behind them and in 5,000 bytes they are 1 at 4096.",
       *(good(seal) + refused(1, MOST, seal.data() + b"\0", seal.data() + A.data(), seal.data() + bytes(904),
                              padded(version, 4097).data()) for version, seal in FULL.items()),
       refused(1, MOST, bytes(4097), A.data() + bytes(4015)))


def crowded(version):
    """255 features in 4,096 bytes."""
    features = [(tag, b"\x5A" * 13) for tag in range(254)]
    left = MOST - len(Seal(version, features=features + [(254, bytes(128))]).data())
    return Seal(version, features=features + [(254, b"\x5A" * (128 + left))])


family("sizes", "255 features, empty, and in 4,096 bytes; the longest reference, 255 features and the longest signature.",
       good(*ALL.values(), *map(crowded, VERSIONS)),
       good(Seal(4, reference="F" * 255, features=[(254 - tag, b"\xFF" * 9) for tag in range(255)], raw=b"\xAA" * 132)))
assert all(len(crowded(version).data()) == MOST for version in VERSIONS)


# ---- Checks and output ----------------------------------------------------------------------
def listing(answer):
    """Document 01's example with the fields put in, or the one line of a refusal."""
    if answer.number:
        return f"refused {answer.number} at {answer.place}\n"
    c = answer.content
    days = ["{2:04}-{0:02}-{1:02}".format(*day) for day in (c.issued, c.signed)]
    lines = ["accepted", f"version {c.version}", f"country {c.country}", f"signer {c.text[:4]}", f"reference {c.text[4:]}",
             f"issued {days[0]}", f"signed {days[1]}", f"definition {c.definition}", f"category {c.category}",
             *(f"feature {row.tag} at {row.value_place} length {row.value_length}" for row in c.rows),
             "signature at {} length {}".format(*c.signature)]
    return "".join(line + "\n" for line in lines)


def chapters():
    """Each chapter: its name, the lines of its cases, and of their answers, the listings."""
    example = pathlib.Path(__file__).parent.parent / "crates/list/stdout"
    assert listing(judge(A.data())) == example.read_text("ascii")
    for chapter, families in CHAPTERS.items():
        lines, answers = [], []
        for heading, cases in families:
            lines.append("# " + heading)
            for data, _, _, answer in cases:
                assert judge(data) == answer, (heading, data.hex(), answer, judge(data))
                text = listing(answer)
                assert len(data) < 8192 and len(text) <= 8562
                lines.append("l" + runs(data))
                answers.append(f"{text}{len(text)} kept")
        yield chapter, lines, answers
