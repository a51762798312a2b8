"""The cases of the reader's 5 by the pair that it is given at, made from document 01 and Ticket 1 of document 02.

A pair of country, signer, L or reference that is wrongly coded, or a last pair that does not fit the number of characters, is
5 at that pair, the first such pair of its item; a wrong character alone is 5 at the item's first byte. The places are stated
from which pair of which item was replaced, and the reference in seals.py must agree.
"""
import functools
import itertools
import re

import seal_cases
from c40_cases import PAIR_OF, S0, S1, S2, SYMBOLS, read as read_text
from seal_cases import A, H, PAIRS_NOT_TEXT, PLAIN, SHORT_PAIRS, VERSIONS, enter
from seals import BOTH, Dice, Seal, by_reference, c40, ended, good, mixed, refused, wrong, wrong_pair

CHAPTERS = {}   # chapter: [(heading, cases)]
family = functools.partial(enter, CHAPTERS)

# ---- Items and faults -----------------------------------------------------------------------
THREES = {size: Seal(4, reference="5BEEF0A9C"[:size]) for size in (7, 8, 9)}    # of three pairs, one for each L mod 3
ONE_PAIR = [(seal, "country") for seal in PLAIN.values()]
SOME_PAIRS = [*((seal, "names") for seal in PLAIN.values()), *((seal, "reference") for seal in THREES.values())]
# Wrong wherever they stand: no value of three characters; a shift where none may stand; FE and no code of the chart.
KINDS = {41: [H(pair) for pair in "0000 FA01 FDFF FF00 FFFF".split()],
         46: [b"\0\1", *(PAIR_OF[t] for t in ((S0, 65, 65), (S1, 55, 65), (S2, 65, 65), (65, S0, S0), (65, S1, 65),
                                              (65, S2, 65), (65, 65, S1), (65, 65, S2)))],
         47: [H(pair) for pair in "FE00 FE20 FE22 FE3D FE40 FE41 FE5C FE62 FEFF".split()]}
WRONG = [pair for pairs in KINDS.values() for pair in pairs]
THREE = (b"\xFF\xFF", PAIR_OF[(65, S1, 65)], H("FE41"))                         # one of each kind
assert all(read_text(pair, 3)[0] == number for number, pairs in KINDS.items() for pair in pairs)


def pairs_of(seal, name):
    return re.findall(rb"(?s)..", seal.parts[name])


def count_in(seal, name, k):
    """How many characters pair k of an item has: three, but in the last of a reference by L."""
    size = len(seal.content.text) - 4
    return size % 3 if name == "reference" and size % 3 and 3 * k + 3 > size else 3


def spaces(seal, name, k):
    """Spaces, which are wrong in signer, L and reference, as many as pair k has characters: well coded."""
    return c40(" " * count_in(seal, name, k))


def put(seal, name, changes):
    """The seal with some pairs of an item replaced: {number of the pair: pair}."""
    form = b"".join(changes.get(k, pair) for k, pair in enumerate(pairs_of(seal, name)))
    return seal.before(name) + form + seal.after(name)


def named(seal, name, k, *changes):
    """Seals in which pair k of the item is the first that is wrongly coded or does not fit."""
    return refused(5, seal.at(name) + 2 * k, *(put(seal, name, change) for change in changes))


def two(count):
    """The numbers of two pairs out of so many, in both orders."""
    return itertools.permutations(range(count), 2)


# ---- One pair -------------------------------------------------------------------------------
family("pairs", "Each pair of each item, in both versions, with each kind of fault: 5 at that pair. First, between and last.",
       *(wrong_pair(seal, name, k, *WRONG) for seal, name in ONE_PAIR + SOME_PAIRS
         for k in range(len(pairs_of(seal, name)))))
family("pairs", "The same pairs as the last bytes of the input: the item is whole, and 5 at that pair.",
       *(ended(5, seal, name, *THREE) for seal, name in ONE_PAIR),
       *(refused(5, seal.at(name) + 2 * last, *(seal.before(name) + b"".join(pairs[:-1]) + pair for pair in THREE))
         for seal, name in SOME_PAIRS for pairs in [pairs_of(seal, name)] for last in [len(pairs) - 1]))
family("pairs", "Text of one or two characters in the country, the nine characters and the first four bytes: 5 at that pair.",
       *(wrong_pair(seal, name, k, *SHORT_PAIRS) for seal, name in ONE_PAIR + SOME_PAIRS[:2]
         for k in range(len(pairs_of(seal, name)))))
family("pairs", "The same before the last pair of a reference, whatever L: 5 at that pair.",
       *(wrong_pair(seal, name, k, *SHORT_PAIRS) for seal, name in SOME_PAIRS[2:] for k in (0, 1)),
       *(wrong_pair(Seal(4, reference="1" * size), "reference", k, *SHORT_PAIRS, *PAIRS_NOT_TEXT[:4])
         for size, k in ((4, 0), (5, 0), (6, 0), (253, 0), (254, 41), (255, 83))))
family("pairs", "In references of 255 and 253 characters, a wrong pair near the front, between and near the end: 5 at it.",
       *(wrong_pair(Seal(4, reference="Z9A" * 84 + end), "reference", k, *THREE) for end in ("Z9A", "Z")
         for k in (0, 1, 2, 41, 42, 43, 82, 83, 84)))
family("pairs", "An item that is cut is 2 at its first byte, also when a pair of what is there is wrong.",
       *(refused(2, seal.at(name), *(put(seal, name, {k: pair})[:seal.at(name) + len(seal.parts[name]) - 1]
                                     for k in range(len(pairs_of(seal, name))) for pair in THREE))
         for seal, name in SOME_PAIRS))

# ---- The last pair and L --------------------------------------------------------------------
ENDS = {1: SHORT_PAIRS[:3], 2: [*SHORT_PAIRS[3:], c40("A "), c40(" B")], 0: [c40(t) for t in ("A7Z", "AB ", "A  ", "   ")]}
SIZES_OF_L = (1, 2, 3, 4, 5, 6, 253, 254, 255)


def last_pair(size, pairs):
    """A reference of so many characters with other last pairs: 5 at the last pair."""
    return wrong_pair(Seal(4, reference="1" * size), "reference", (size - 1) // 3, *pairs)


family("pairs", "The last pair against L mod 3: one character is FE and its code, two are completed with 0, not with a space. "
       "Another count of characters, a space among them or not, is 5 at the last pair, and so is no text.",
       *(last_pair(size, [pair for count, pairs in ENDS.items() if count != size % 3 for pair in pairs] + PAIRS_NOT_TEXT)
         for size in SIZES_OF_L))
family("pairs", "A last pair that fits and has a space, FE21 where it is one character: a wrong character, so 5 at 8.",
       *(wrong(5, seal, "reference", *(seal.parts["reference"][:-2] + pair for pair in pairs))
         for size in SIZES_OF_L for seal in [Seal(4, reference="1" * size)]
         for pairs in [{1: [H("FE21")], 2: [c40("  "), c40("A "), c40(" B")], 0: ENDS[0][1:]}[size % 3]]))
family("pairs", "Last pairs that fit: good. Letters and digits, in references of 1 to 9 characters.",
       good(*(Seal(4, reference="123456"[:size] + end) for size in (0, 3, 6) for end in ("A", "7", "Z9", "0B", "A7Z"))))
family("pairs", "A last pair that does not fit, with a space in the first pair: 5 at the last pair.",
       *(named(seal, "reference", 2, *({0: c40(" 1A"), 2: pair} for pair in pairs)) for size, seal in THREES.items()
         for pairs in [[ends[0] for count, ends in ENDS.items() if count != size % 3]]))

# ---- Wrong characters -----------------------------------------------------------------------
family("characters", "Spaces in one pair or in all, every pair well coded and fitting: 5 at the item's first byte.",
       *(named(seal, name, 0, *({k: spaces(seal, name, k)} for k in range(count)),
               {k: spaces(seal, name, k) for k in range(count)})
         for seal, name in SOME_PAIRS for count in [len(pairs_of(seal, name))]))
family("characters", "Spaces in one pair and a wrongly coded pair behind it or before it: 5 at the wrongly coded pair.",
       *(named(seal, name, k, *({other: spaces(seal, name, other), k: pair} for pair in THREE))
         for seal, name in SOME_PAIRS for k, other in two(len(pairs_of(seal, name)))))
family("characters", "Spaces in every pair but one, which is wrongly coded: 5 at that one.",
       *(named(seal, name, k, *({**{other: spaces(seal, name, other) for other in range(count)}, k: pair} for pair in THREE))
         for seal, name in SOME_PAIRS for count in [len(pairs_of(seal, name))] for k in range(count)))
NO_SIGNER = [c40(text) for text in ("1TA", "U1A", "UT ", "12 ")]
family("characters", "A signer with a digit in its first two places or a space: 5 at 4; with a wrong pair behind: 5 at that.",
       *(named(seal, "names", 0, *({0: first} for first in NO_SIGNER))
         + named(seal, "names", 1, *({0: first, 1: pair} for first in NO_SIGNER for pair in WRONG[::4]))
         for seal in PLAIN.values()),
       named(A, "names", 2, *({0: c40("1TA"), 1: c40("B 0"), 2: pair} for pair in WRONG + SHORT_PAIRS)))
NO_L = ("00", "GG", "0G", "G0", "  ", " 1", "1 ", "ZZ")
family("characters", "L of 00 or not hexadecimal is a wrong character: 5 at 4, whatever the reference is.",
       *(refused(5, 4, seal.before("names") + c40("UTAB" + text) + form) for seal in [THREES[7]] for text in NO_L
         for form in (seal.parts["reference"] + seal.after("reference"), b"\xFF" * 60, bytes(60), b"")))
family("characters", "The same with the signer's pair wrongly coded: 5 at 4. L's pair wrongly coded, the signer wrong: 5 at 6.",
       *(named(PLAIN[4], "names", 0, *({0: pair, 1: c40("B" + text)} for pair in THREE)) for text in NO_L[:3]),
       named(PLAIN[4], "names", 1, *({0: c40("1TA"), 1: pair} for pair in WRONG + SHORT_PAIRS)))

# ---- Several faults -------------------------------------------------------------------------
family("several", "Two wrongly coded pairs of an item, of different kinds and in both orders: 5 at the first.",
       *(named(seal, name, k, *({k: p, other: q} for p, q in itertools.permutations(THREE, 2)))
         for seal, name in SOME_PAIRS for k, other in two(len(pairs_of(seal, name))) if k < other))
family("several", "A wrongly coded pair before a last one that does not fit: 5 at the wrongly coded one.",
       *(named(seal, "reference", k, *({k: pair, 2: c40(end)} for pair in (*THREE, c40("A"), c40("AB"))
                                       for end in ("A", "AB", "ABC") if len(end) % 3 != size % 3))
         for size, seal in THREES.items() for k in (0, 1)))
family("several", "A wrong item before a wrongly coded pair of another: 5 where that item is wrong, at its first byte or pair.",
       *(refused(5, 2, put(seal, "country", {0: c40(code)})[:4] + put(seal, "names", {1: pair})[4:])
         for seal in PLAIN.values() for code in ("1TO", " UT", "U T") for pair in THREE),
       *(refused(5, place, seal.before("names") + names + form + seal.after("reference")) for seal in THREES.values()
         for form in (b"\xFF\xFF" * 3, put(seal, "reference", {2: b"\0\0"})[8:14])
         for names, place in ((c40("1TAB07"), 4), (c40("UTAB00"), 4), (c40("UTA") + b"\0\1", 6), (c40("UTA") + c40("B0"), 6))))
family("several", "A wrongly coded pair comes before what is wrong further on: dates, last bytes, tags, the signature.",
       *(refused(5, seal.at(name) + 2, put(seal, name, {1: pair})[:seal.at("issued")] + tail)
         for seal, name in SOME_PAIRS for pair in THREE for tail in (b"", bytes(9), b"\xFF" * 70)))


# ---- By chance ------------------------------------------------------------------------------
def pair_by_chance(dice):
    """A pair: of any bytes; of FE and any byte; over FA00 or beside it; with a shift; or short text."""
    return (dice.data(2), b"\xFE" + dice.data(1), bytes([0xF9 + dice.below(7)]) + dice.data(1),
            PAIR_OF[tuple(SYMBOLS[dice.below(5 + 35 * dice.below(2))] for _ in range(3))],
            c40(dice.text(1 + dice.below(3), BOTH + " ")))[dice.below(5)]


def by_chance(dice):
    """A good seal with one pair of its header's text replaced, or two."""
    seal = mixed(dice)
    data = seal.data()
    for _ in range(1 + dice.below(2)):
        at = 2 + 2 * dice.below((seal.at("issued") - 2) // 2)
        data = data[:at] + pair_by_chance(dice) + data[at + 2:]
    return data


DICE = Dice(4641)
family("several", "Seals by chance with one or two pairs of country, signer, L and reference replaced: by the reference.",
       by_reference(by_chance(DICE) for _ in range(120)))


# ---- Checks and output ----------------------------------------------------------------------
def chapters():
    """Each chapter: its name, the lines of its cases, and of their answers."""
    assert [len(pairs_of(seal, name)) for seal, name in SOME_PAIRS] == [3, 2, 3, 3, 3]
    assert [count_in(seal, "reference", 2) for seal in THREES.values()] == [1, 2, 3] and list(PLAIN) == list(VERSIONS)
    return seal_cases.chapters(CHAPTERS)
