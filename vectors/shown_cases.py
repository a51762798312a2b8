"""The cases of the look-up in a main seal and its extension, made from document 02, Ticket 2, by way of walk.py.

Which seal the value comes from, and where it stands, is stated from what the two were put together from; what a refused
one is told with, from the part that was made wrong. The reference must agree, and so must the two walks. Only where a
heading says "by the reference" is the answer the reference's alone.
"""
import functools
import itertools

from seal_cases import A, B, BASES, DOWN, FAKE, FULL, H, LONGEST, MANY, PLAIN, VERSIONS, VISA, enter
from seals import MOST, Dice, Seal, c40, code, cuts, edited, mixed, padded, refused, wrong
from walk import EXTENSION, IN_NEITHER, MAIN, ROOM, Where, by_walks, line_of, shown
from walk_cases import SPRING, files_of
from writing import TOP, runs, words

CHAPTERS = {}   # chapter: [(heading, cases)]; a case is (line of the file, line of the answer)
family = functools.partial(enter, CHAPTERS)
BEYOND = (255, 256, 257, 511, 2 ** 31, 2 ** 32, 2 ** 63, TOP - 1, TOP)      # tags of no seal


# ---- How cases are made ---------------------------------------------------------------------
def case(main, extension, tag, where):
    """A look-up, as stated."""
    assert shown(main, extension, tag) == by_walks(main, extension, tag) == where, (
        main.hex(), extension.hex(), tag, where, shown(main, extension, tag), by_walks(main, extension, tag))
    assert len(main) < ROOM and len(extension) < ROOM
    line = f"x{words([tag])} m{runs(main)} e{runs(extension)}"
    return line, line_of(where, main if where.which == MAIN else extension)


def feature(which, seal, tag):
    """Where the feature of this tag stands in a seal that has it, or None."""
    return next((Where(0, 0, which, row.value_place, row.value_length) for row in seal.content.rows if row.tag == tag),
                None)


def asked(main, extension, *tags):
    """Two good seals asked for tags: the extension's feature, else the main seal's, else 50."""
    return [case(main.data(), extension.data(), tag,
                 feature(EXTENSION, extension, tag) or feature(MAIN, main, tag) or IN_NEITHER) for tag in tags]


def of(version, *features):
    return Seal(version, features=features)


EACH = [*itertools.product(VERSIONS, repeat=2)]     # versions of main seal and extension

# ---- Shown ----------------------------------------------------------------------------------
LOCK, OTHER_LOCK = (11, c40("PRESS4")), (11, c40("PRESS7HALL2"))
family("shown", "Out of the extension if it has the feature, otherwise out of the main seal; in neither, 50.",
       *(asked(of(v, VISA, LOCK), of(w, OTHER_LOCK, (12, b"\1\2")), 11, 10, 12, 13) for v, w in EACH))
family("shown", "The tag of the accident in spring, as main seal and as extension: its lock is found behind 129 bytes.",
       asked(SPRING, PLAIN[3], 1, 11, 12), asked(PLAIN[4], SPRING, 1, 11, 12), asked(SPRING, of(3, LOCK), 11, 1),
       asked(of(4, LOCK), SPRING, 11, 1))
SHARED = {v: of(v, (0, b"\x11" * 3), VISA, (100, b"\x33\x33"), (254, b"\x22" * 5)) for v in VERSIONS}
SECOND = {v: of(v, (254, b"\x55"), (100, b""), (7, b"\x66" * 30), (0, b"\x44" * 4)) for v in VERSIONS}
family("shown", "Tags in both, in the extension alone, in the main seal alone and in neither, in each pair of "
       "versions; tags that no seal has: 255, 256 and more, also with the last byte of one that is there: 50.",
       *(asked(SHARED[v], SECOND[w], 0, 7, 10, 100, 254, 1, 8, 253, *BEYOND, 256 + 10, 2 ** 32 + 7, TOP - 255 + 254)
         for v, w in EACH))
family("shown", "No feature in one of them or in both.",
       *(asked(PLAIN[v], SHARED[w], 0, 10, 254, 7, 255) + asked(SHARED[v], PLAIN[w], 0, 10, 254, 7, 255)
         + asked(PLAIN[v], PLAIN[w], 0, 254, 255, TOP) for v, w in EACH))
family("shown", "The same seal as both: out of the extension.",
       *(asked(seal, seal, 0, 10, 254, 11, 255) for seal in (A, B, *SHARED.values(), *PLAIN.values())))

# ---- Values ---------------------------------------------------------------------------------
FILL = {size: (b"\xC3\xD4" * size)[:size] for size in (0, 1, 2, 24, 25, 127, 128, 255, 256, 3900)}
SIZES_OF = {3: [*FILL][:8], 4: [*FILL]}
family("values", "An empty value is shown: 0, of no bytes, at its place. Also where the main seal has bytes for it.",
       *(asked(of(v, (5, FILL[128])), of(w, (5, b"")), 5) + asked(of(v, (5, b"")), of(w, (5, b"\1\2")), 5)
         + asked(of(v, (5, b"")), of(w, (6, b"")), 5, 6) + asked(of(v, (5, b"")), of(w, (5, b"")), 5)
         + asked(of(v, (4, b"\7"), (5, b""), (6, b"\7")), of(w, (4, b""), (6, b""), (5, b"")), 4, 5, 6)
         for v, w in EACH))
family("values", "Values of 0 up to 255 bytes, in version 4 up to 3,900: in the one and in the other.",
       *(asked(of(v, (9, FILL[size]), VISA), of(w, (8, b"\1")), 9)
         + asked(of(w, (9, b"\1")), of(v, VISA, (9, FILL[size])), 9)
         for v, w in EACH for size in SIZES_OF[v]))
family("values", "3,900 bytes against none, and against as many.",
       asked(of(4, (9, FILL[3900])), of(4, (9, b"")), 9), asked(of(4, (9, b"")), of(4, (9, FILL[3900])), 9),
       asked(of(4, (9, FILL[3900])), of(4, (9, b"\x77" * 3900)), 9, 8), asked(of(4, (9, FILL[3900])), of(3), 9, 10))
family("values", "Tags are not sought in values, nor in header or signature; FF in a value ends no search.",
       *(asked(of(v, (1, b"\x0A\1\5\xFF"), (2, FAKE), (4, b"\2")), of(w, (3, b"\xFF\x0A\0"), (0, b"\2\1\7")),
               10, 2, 4, 0, 9) for v, w in EACH),
       *(asked(Seal(v, raw=b"\x0A\1" * 28), Seal(w, definition=10, category=1), 10, 1, 2, 3, 0xDC) for v, w in EACH))
family("values", "The tag first, between and last; up, down; behind headers of several sizes.",
       *(asked(of(v, *((tag, bytes([tag]) * 2) for tag in order)), of(w, *((tag, b"\x0F") for tag in order[1:3])),
               *range(5)) for v, w in EACH for order in ((0, 1, 2, 3, 4), (4, 3, 2, 1, 0))),
       *(asked(Seal(4, reference=("7A0" * 85)[:size], features=[VISA, (1, b"\1")]), LONGEST, 10, 1, 2)
         for size in (1, 2, 100, 255)))
family("sizes", "255 features in one or in both, and none that is missing; seals of 4,096 bytes.",
       asked(MANY[3], DOWN[4], 0, 127, 254, 255), asked(DOWN[3], of(4, (254, b"\1")), 0, 100, 254, 255),
       asked(A, DOWN[4], 10, 0, 255), asked(DOWN[4], PLAIN[3], 0, 254, 255), asked(PLAIN[3], MANY[4], 254),
       *(asked(FULL[v], FULL[w], 0, 15, 254) + asked(FULL[v], PLAIN[w], 0) for v, w in EACH))


# ---- Refused --------------------------------------------------------------------------------
def refusals(seal):
    """A seal of three features made wrong in each way, one a number: {number: (bytes, where it is refused)}."""
    tail = padded(seal.content.version, MOST).data()[len(seal.data()):]
    made = [*refused(1, MOST, seal.data() + tail + b"\0"), *cuts(seal, [len(seal.data()) - 1]),
            *wrong(3, seal, "mark", b"\xDD"), *wrong(4, seal, "version", b"\4"), *wrong(5, seal, "country", c40("7TO")),
            *wrong(6, seal, "signed", code(2, 30, 2000)), *wrong(7, seal, "category", b"\0"),
            *wrong(8, seal, "size", H("8138")), *wrong(9, seal, "tag2", seal.parts["tag0"]),
            *wrong(10, seal, "size", b"\x39"), *refused(11, len(seal.data()), seal.data() + b"\0")]
    assert [answer.number for *_, answer in made] == [*range(1, 12)]
    return {answer.number: (data, answer.place) for data, _, _, answer in made}


def told(which, number, place):
    return Where(number, place, which, 0, 0)


def either(number, place, data, seal, tag):
    """What is refused, as the main seal of a good one, and as its extension."""
    return [case(data, seal.data(), tag, told(MAIN, number, place)),
            case(seal.data(), data, tag, told(EXTENSION, number, place))]


WRONG = {v: refusals(of(v, VISA, (0, b""), (254, b"\x22" * 5))) for v in VERSIONS}
family("refusals", "The main seal refused, with each number: its own, whether the extension has the tag or not.",
       *([case(data, seal.data(), tag, told(MAIN, number, place)) for number, (data, place) in WRONG[v].items()
          for seal, tag in ((SECOND[w], 254), (SECOND[w], 10))] for v, w in EACH))
family("refusals", "The extension refused, with each number: its own, whether the main seal has the tag or not.",
       *([case(seal.data(), data, tag, told(EXTENSION, number, place)) for number, (data, place) in WRONG[w].items()
          for seal, tag in ((SHARED[v], 254), (SHARED[v], 7))] for v, w in EACH))
family("both", "Both refused, each number with each: the main seal is told.",
       *([case(data, other, 10, told(MAIN, number, place)) for number, (data, place) in WRONG[v].items()
          for other, _ in WRONG[w].values()] for v, w in ((3, 4),)),
       *([case(data, other, 254, told(MAIN, number, place)) for (number, (data, place)), (other, _) in zip(
           WRONG[v].items(), [*WRONG[w].values()][::-1])] for v, w in ((3, 3), (4, 4), (4, 3))))
family("both", "No bytes: 2 at 0, of the main seal, of the extension, and of both.",
       *(either(2, 0, b"", seal, tag) for seal in (A, B, *PLAIN.values()) for tag in (10, 0, 255)),
       [case(b"", b"", tag, told(MAIN, 2, 0)) for tag in (0, 10, 255, TOP)],
       *([case(b"", data, 10, told(MAIN, 2, 0)), case(data, b"", 10, told(MAIN, number, place))]
         for number, (data, place) in WRONG[4].items()))
family("both", "A refused seal as both: the main one is told.",
       [case(data, data, 10, told(MAIN, number, place)) for made in WRONG.values()
        for number, (data, place) in made.items()])
family("refusals", "Tags of no seal are judged last.",
       *(either(number, place, data, A, tag)
         for number, (data, place) in WRONG[3].items() for tag in (255, TOP)))
family("refusals", "Seal A or the version 4 seal cut at every part, as main seal and as extension.",
       *(either(2, answer.place, data, B, 10) for seal in BASES.values()
         for data, _, _, answer in cuts(seal, sorted({seal.at(part) for part in seal.parts} - {0}))))


# ---- By chance ------------------------------------------------------------------------------
def by_chance(dice):
    """Two good seals, one in five of them edited, and a tag: of the one, of the other, or any."""
    pair = mixed(dice), mixed(dice)
    tags = [row.tag for row in pair[dice.below(2)].content.rows] or [dice.below(256)]
    given = [edited(dice, seal.data()) if dice.below(5) == 0 else seal.data() for seal in pair]
    return *given, tags[dice.below(len(tags))] if dice.below(6) else dice.below(256)


def alike(dice):
    """Two good seals whose tags are few, so that many are in both, and a tag of these."""
    seals = [of(3 + dice.below(2), *((tag, dice.data(dice.below(30))) for tag in range(6) if dice.below(2)))
             for _ in range(2)]
    return *seals, dice.below(7)


DICE = Dice(5055)
family("pairs", "Seals by chance, some with a byte changed, left out, put in or doubled, or cut: by the reference.",
       [case(*given, shown(*given)) for given in (by_chance(DICE) for _ in range(70))])
family("pairs", "Seals with some of the tags 0 to 5, by chance.",
       *(asked(main, extension, tag) for main, extension, tag in (alike(DICE) for _ in range(70))))


# ---- Checks and output ----------------------------------------------------------------------
def check_numbers():
    """Every number is told of either seal, a value is shown of either, and 50 is met."""
    met = {tuple(map(int, answer.split()[::2][:2])) for families in CHAPTERS.values() for _, cases in families
           for _, answer in cases}
    assert met == {(number, which) for number in range(12) for which in (MAIN, EXTENSION)} | {(50, 0)}, met


def chapters():
    check_numbers()
    return files_of(CHAPTERS)
