"""Reference for the C40 text codec (Doc 9303-13, 2.6 and Appendix C) and the test cases made from it.

The reference never splits a pair by division. The pair of three values (a, b, c) is
1600a + 40b + c + 1, which is the place of (a, b, c) when all triples of the forty symbols are
counted in dictionary order from 1. So the pairs are counted out, and reading looks them up.

Which fault a wrong pair has (document 02, Ticket 1) is looked up too: a pair that was counted out has a shift where none may
stand, one that begins with FE was not counted out, and any other pair is 0 or over the last that was.
"""
import itertools
import re

# ---- The reference --------------------------------------------------------------------------
MOST_BYTES, MOST_CHARACTERS = 4096, 6144
CHART = b" 0123456789ABCDEFGHIJKLMNOPQRSTUVWXYZ"
SHIFTS = S0, S1, S2 = "shift 1", "shift 2", "shift 3"   # the values 0, 1, 2
SYMBOLS = SHIFTS + tuple(CHART)
PAIR_OF = {triple: number.to_bytes(2, "big")
           for number, triple in enumerate(itertools.product(SYMBOLS, repeat=3), start=1)}


def encode(text):
    """The C40 bytes of a text that has chart characters only."""
    groups = re.findall(rb".{1,3}", text)
    return b"".join(bytes((0xFE, group[0] + 1)) if len(group) == 1
                    else PAIR_OF[(tuple(group) + (S0,))[:3]] for group in groups)


# LAST_PAIRS are the pairs that are good at the end, FULL_PAIRS those that are good anywhere.
LAST_PAIRS = {encode(bytes(text)): bytes(text)
              for size in (1, 2, 3) for text in itertools.product(CHART, repeat=size)}
FULL_PAIRS = {pair: text for pair, text in LAST_PAIRS.items() if len(text) == 3}
COUNTED = set(PAIR_OF.values())


def fault(pair):
    """The number of a pair that is not good where it stands."""
    return 46 if pair in COUNTED else 47 if pair[0] == 0xFE else 41


def read(data, room):
    """C40 bytes to text: (number, place, written bytes)."""
    if len(data) > MOST_BYTES:
        return 45, 0, b""
    if len(data) % 2 == 1:
        return 40, len(data), b""
    text = b""
    for place in range(0, len(data), 2):
        good_here = LAST_PAIRS if place + 2 == len(data) else FULL_PAIRS
        if data[place:place + 2] not in good_here:
            return fault(data[place:place + 2]), place, b""
        text += good_here[data[place:place + 2]]
    return (0, 0, text) if len(text) <= room else (42, 0, b"")


def write(text, room):
    """Text to C40 bytes: (number, place, written bytes)."""
    if len(text) > MOST_CHARACTERS:
        return 45, 0, b""
    stranger = re.search(rb"[^ 0-9A-Z]", text)
    if stranger:
        return 43, stranger.start(), b""
    data = encode(text)
    return (0, 0, data) if len(data) <= room else (44, 0, b"")


# ---- How cases are held: (letter, room, pieces, answer); pieces are (bytes, count) -----------
def case(letter, room, pieces, number, place=0, written=None):
    """One case: 0 where the family reckons what is written, else the number at the place."""
    pieces = [(pieces, 1)] if isinstance(pieces, bytes) else pieces
    return letter, room, pieces, (number, place, b"") if written is None else (0, 0, written)


def both(text, data):
    """Writing and reading of one text, in exactly enough room."""
    return [case("w", len(data), text, 0, 0, data), case("r", len(text), data, 0, 0, text)]


def around(pair, number, text):
    """A pair alone, last, in the middle and first; text is what it reads as at the end, or None, and number is its fault."""
    good = bytes.fromhex("DE51")
    return [case("r", 9, pair, number, 0, text), case("r", 9, good + pair, number, 2, text and b"VIS" + text),
            case("r", 9, good + pair + good, number, 2), case("r", 9, pair + good + good, number, 0)]


TEXT_32 = bytes(CHART[7 * i % 37] for i in range(32))
TEXT_48 = bytes(CHART[(11 * i + 5) % 37] for i in range(48))
DATA_32 = encode(TEXT_48)


def repeat(length, period):
    """The pieces of a long input: the period over and over, up to the length."""
    return [(period, length // len(period)), (period[:length % len(period)], 1)]


# ---- The families ---------------------------------------------------------------------------
CHAPTERS = {"text": [], "long": []}   # families, (heading, cases)


def family(heading, cases, chapter="text"):
    CHAPTERS[chapter].append((heading, cases))


PUBLISHED = [(b"VISA01", "DE515826"), (b"XKCD", "EB11FE45"), (b"XK CD", "EB0466A9"),
             (b"ZZZ", "FA00"), (b"", ""), (b"D  ", "6ABC")]
family("Published vectors, copied from Doc 9303-13 (VISA01, Appendix C) and document 01. The filler < "
       "is not in the chart, so text that still has it is 43.",
       [one for text, data in PUBLISHED for one in both(text, bytes.fromhex(data))]
       + [case("r", 3, b"\xFA\x01", 41), case("w", 4, b"XK<CD", 43, 2), case("w", 2, b"D<<", 43, 1)])
family("Every byte alone, written: FE and the byte plus 1 for the 37 characters of the chart, else 43.",
       [case("w", 2, bytes([b]), 43, 0, bytes([0xFE, b + 1]) if b in CHART else None) for b in range(256)])
family("FE and every byte as the only pair, read: good when the byte less 1 is in the chart, else 47.",
       [case("r", 1, b"\xFE\x00", 47)]
       + [case("r", 1, bytes([0xFE, b + 1]), 47, 0, bytes([b]) if b in CHART else None) for b in range(255)])
family("Every chart character at each place of a group of three, both ways. The pair is the group's "
       "number in dictionary order over the forty symbols.",
       [one for c in CHART for text in (b"%c7Q" % c, b"Q%c7" % c, b"7Q%c" % c) for one in both(text, encode(text))])
family("Every chart character at each place of a group of two, both ways; the third symbol is shift 1.",
       [one for c in CHART for text in (b"%cK" % c, b"K%c" % c) for one in both(text, encode(text))])
family("Mixed texts of 10 to 30 characters, both ways: reckoned group by group in dictionary order.",
       [one for k in range(10, 31) for text in [bytes(CHART[(k * k + 5 * i * i + 3 * i) % 37] for i in range(k))]
        for one in both(text, encode(text))])
TWINS = {bytes([b, b]): 41 if b in bytes.fromhex("00 FA FB FC FD FF") else 47 if b == 0xFE else 46 for b in range(256)}
family("Pairs 0000, 0101, 0202 and so on to FFFF, each alone and before a good pair: every first and every second byte. A "
       "pair is good when it is among those counted out for one, two or three characters. Of the others 0000, FAFA to FDFD "
       "and FFFF are 41, FEFE is 47, and the rest have a shift, 46.",
       [case("r", 3, pair, number, 0, LAST_PAIRS.get(pair)) for pair, number in TWINS.items()]
       + [case("r", 6, pair + b"\xFA\0", number, 0, FULL_PAIRS[pair] + b"ZZZ" if pair in FULL_PAIRS else None)
          for pair, number in TWINS.items()])
MARKED = [pair for pair in FULL_PAIRS if pair[1] in (0xFE, 0xFF, 0x00)]
family("Good pairs whose second byte is 00, FE or FF, in the middle and last: such a byte is no mark. "
       "The text is what the pairs were counted out for.",
       [case("r", 6, p + p, 0, 0, FULL_PAIRS[p] * 2) for p in MARKED[:6] + MARKED[-6:]])
NO_VALUE = [bytes.fromhex(name) for name in "0000 FA01 FAFF FB00 FDFF FF00 FF42 FFFF".split()]
AFTER_FE = [bytes.fromhex(name) for name in (
    "FE00 FE01 FE20 FE21 FE22 FE30 FE31 FE3A FE3B FE3D FE40 FE41 FE42 FE5B FE5C FE80 FEFF").split()]
GOOD_AFTER_FE = {b"\xFE\x21": b" ", b"\xFE\x31": b"0", b"\xFE\x3A": b"9", b"\xFE\x42": b"A", b"\xFE\x5B": b"Z"}
family("The pair 0000, and pairs over FA00 that do not begin with FE: alone, last, in the middle, first. All are 41.",
       [one for pair in NO_VALUE for one in around(pair, 41, None)])
family("FE before the border codes and others: alone, last, in the middle, first. Only FE21, FE31, FE3A, FE42 and FE5B are "
       "good, and those only at the end; all else is 47.",
       [one for pair in AFTER_FE for one in around(pair, 47, GOOD_AFTER_FE.get(pair))])
X, Y, Z = b"MSE"
SHORT_GOOD = {(X, Y, S0): b"MS", (32, 32, S0): b"  ", (90, 90, S0): b"ZZ"}
SHIFTED = [t for s in SHIFTS for t in ((s, Y, Z), (X, s, Z), (X, Y, s), (X, s, S0), (s, Y, S0), (s, s, s))] + [
    (S0, S0, Z), (S2, 90, 90), (32, S2, 90), (32, 32, S0), (32, 32, S1), (32, 32, S2), (90, 90, S0), (90, 90, S2)]
family("Values 0, 1, 2 (the shifts) at each place of a pair that is alone, last, in the middle, first. Only "
       "two characters and then value 0 are good, and those only at the end; all else is 46.",
       [one for triple in SHIFTED for one in around(PAIR_OF[triple], 46, SHORT_GOOD.get(triple))])
BORDERS = bytes.fromhex("00 1F 20 21 2F 30 39 3A 3C 40 41 5A 5B 60 61 7A 7F 80 A0 FF")
LENGTH_AND_INDEX = ((3, 0), (3, 1), (3, 2), (9, 3), (9, 4), (9, 5), (5, 3), (5, 4), (4, 3))
family("Border bytes at index 0, 1, 2 of one group, at 3, 4, 5 of three, and in a last group of two or one. "
       "Outside the chart they are 43 at their own index.",
       [case("w", 9, text, 43, at, encode(text) if b in CHART else None)
        for b in BORDERS for length, at in LENGTH_AND_INDEX
        for text in [b"UTOAB1234"[:at] + bytes([b]) + b"UTOAB1234"[at + 1:length]]])
LENGTHS = (0, 1, 2, 3, 4, 5, 6, 7, 8, 9, 6142, 6143, 6144)
family("Room for reading k characters: k is enough, k - 1 is 42, more is fine. Remainders 0, 1 and 2.",
       [case("r", room, data, 42, 0, text if room >= k else None)
        for k in LENGTHS for text in [(TEXT_48 * 128)[:k]]
        for data in [repeat(k // 3 * 2, DATA_32) + [(encode(text[k - k % 3:]), 1)]]
        for room in sorted({0, max(k - 1, 0), k, k + 1, 7000})])
family("Room for writing k characters: 2 x ceil(k / 3) is enough, one byte or one pair less is 44, more is "
       "fine. 4,097 characters are under the limit for text.",
       [case("w", room, repeat(k, TEXT_32), 44, 0, encode((TEXT_32 * 192)[:k]) if room >= need else None)
        for k in LENGTHS + (4097,) for need in [(k + 2) // 3 * 2]
        for room in sorted({0, max(need - 2, 0), max(need - 1, 0), need, need + 1, 7000})])
WRONG, LONE, SHORT, GOOD = b"\xFF\xFF", b"\xFE\x42", PAIR_OF[(X, Y, S0)], b"\xDE\x51"
NULL, OVER, NO_CODE, SHIFT = b"\0\0", b"\xFA\x01", b"\xFE\x41", PAIR_OF[(X, S1, Z)]
ANYWHERE = {NULL: 41, OVER: 41, WRONG: 41, SHIFT: 46, b"\0\1": 46, NO_CODE: 47, b"\xFE\0": 47}   # wrong at the end too
NOT_LAST = {**ANYWHERE, SHORT: 46, LONE: 47}                                                     # these are good at the end
family("Reading, each refusal at its first and last place: an odd count from 1 to 4,095 is 40 there; a wrong "
       "pair from 0 to 4094 is 41, 46 or 47 there; from 4,097 bytes on it is 45.",
       [case("r", 7000, repeat(k, DATA_32), 40, k) for k in (1, 3, 5, 4093, 4095)]
       + [case("r", 7000, [(p, 1)] + repeat(4094, DATA_32), number, 0) for p, number in NOT_LAST.items()]
       + [case("r", 7000, repeat(4092, DATA_32) + [(p + GOOD, 1)], number, 4092) for p, number in NOT_LAST.items()]
       + [case("r", 7000, repeat(4094, DATA_32) + [(p, 1)], number, 4094) for p, number in ANYWHERE.items()]
       + [case("r", 7000, repeat(k, DATA_32), 45) for k in (4097, 4098, 4099, 6144, 6145, 6200)])
family("Each fault as the first pair, as each of the pairs between and as the last, of six: its number, there.",
       [case("r", 18, GOOD * k + p + GOOD * (5 - k), number, 2 * k) for k in range(6)
        for p, number in (NOT_LAST if k < 5 else ANYWHERE).items()])
family("Two faults of different kinds, in both orders, side by side and with good pairs before, between and behind: the "
       "number of the first, there.",
       [case("r", 18, GOOD * before + p + GOOD * between + q + GOOD * behind, number, 2 * before)
        for before, between, behind in ((0, 0, 0), (0, 1, 0), (1, 0, 1), (1, 2, 1), (2, 0, 0))
        for p, number in NOT_LAST.items() for q in (WRONG, SHIFT, NO_CODE, NULL) if NOT_LAST[q] != number])
family("All three faults, in each order: the number of the first.",
       [case("r", 18, GOOD + p + q + r, NOT_LAST[p], 2) for p, q, r in (
           *itertools.permutations((WRONG, SHIFT, NO_CODE)), *itertools.permutations((NULL, b"\0\1", b"\xFE\0")),
           (SHORT, LONE, NULL), (LONE, SHORT, NULL), (SHORT, WRONG, LONE), (LONE, WRONG, SHORT))])
family("A pair that is good at the end is a fault before any pair, good, wrong or itself: 46 for two characters, 47 for one.",
       [case("r", 18, p + q, number, 0) for p, number in ((SHORT, 46), (LONE, 47), (b"\xFE\x21", 47))
        for q in (GOOD, p, SHORT, LONE, *ANYWHERE)])
family("Reading, several faults at once, in the order 45, 40, then 41, 46 or 47, then 42; of two wrong pairs the first is "
       "named.",
       [case("r", room, repeat(k, period), 45) for room in (0, 7000) for k in (4097, 4098)
        for period in (DATA_32, WRONG, b"\0")]
       + [case("r", room, before + repeat(4095, DATA_32) + after, 45) for room in (0, 7000)
          for before, after in (([(WRONG, 1)], []), ([], [(DATA_32[-1:] + WRONG, 1)]))]
       + [case("r", room, data, 40, len(data)) for room in (0, 9) for data in (
           b"\xFF", b"\xDE", WRONG + b"\xDE", GOOD + b"\xDE", LONE * 2 + b"\0", SHORT + GOOD + b"\xFE")]
       + [case("r", room, repeat(4095, wrong), 40, 4095) for room in (0, 9) for wrong in (b"\0", WRONG)]
       + [case("r", room, data, number, at) for room in (0, 1, 2, 3, 5) for data, number, at in (
           (WRONG, 41, 0), (GOOD + WRONG, 41, 2), (WRONG + GOOD, 41, 0), (LONE + GOOD, 47, 0), (GOOD + SHORT + GOOD, 46, 2),
           (SHIFT, 46, 0), (GOOD + SHIFT, 46, 2), (NO_CODE, 47, 0), (GOOD + NO_CODE, 47, 2))]
       + [case("r", 0, repeat(4094, DATA_32) + [(p, 1)], number, 4094) for p, number in ANYWHERE.items()]
       + [case("r", 9, a + b, NOT_LAST[a], 0) for a in (NULL, WRONG, LONE, SHORT) for b in (NULL, WRONG, NO_CODE)]
       + [case("r", 9, GOOD + a + b, NOT_LAST[a], 2) for a in (WRONG, LONE, SHORT) for b in (b"\0\1", LONE, SHORT)])
family("Writing, each refusal at its first and last place: a wrong character from 0 to 6143 is 43 there; "
       "from 6,145 characters on it is 45.",
       [case("w", 7000, [(b"<", 1)] + repeat(k, TEXT_32), 43, 0) for k in (0, 1, 2, 6141, 6142, 6143)]
       + [case("w", 7000, repeat(k, TEXT_32) + [(b"<", 1)], 43, k) for k in (1, 2, 3, 6140, 6141, 6142, 6143)]
       + [case("w", 7000, repeat(6141, TEXT_32) + [(b"aA", 1)], 43, 6141)]
       + [case("w", 7000, repeat(k, TEXT_32), 45) for k in (6145, 6146, 6147, 6200)])
family("Writing, several faults at once, in the order 45, 43, 44; of two wrong characters the first is named.",
       [case("w", room, before + repeat(6144, period) + after, 45) for room in (0, 4096, 7000)
        for period, before, after in ((TEXT_32, [(b"<", 1)], []), (TEXT_32, [], [(b"<", 1)]),
                                      (TEXT_32, [], [(b"A", 1)]), (b"\xFF", [], [(b"\xFF", 1)]))]
       + [case("w", room, text, 43, at) for room in (0, 1, 2, 3) for text, at in (
           (b"<", 0), (b"A<", 1), (b"AB<", 2), (b"ABCD<", 4), (b"ABCDEF<", 6), (b"ABCDEFG<", 7))]
       + [case("w", 0, repeat(6143, TEXT_32) + [(b"z", 1)], 43, 6143)]
       + [case("w", 9, text, 43, at) for text, at in (
           (b"<<", 0), (b"a<A", 0), (b"A<z", 1), (b"ABC\x80D\0", 3), (b"ABCDEF\xFF!", 6), (b"AB-CD-", 2))])
family("Reading 250 to 262 bytes and 384, where a reader may lay out the chart, good, with the room exact and one short, and "
       "with each fault as the first pair, the second, one in the middle, those before the last and the last.",
       [case("r", room, repeat(k, DATA_32), 42, 0, (TEXT_48 * 12)[:k // 2 * 3] if room >= k // 2 * 3 else None)
        for k in (250, 252, 254, 256, 258, 260, 262, 384) for room in (k // 2 * 3 - 1, k // 2 * 3)]
       + [case("r", 7000, repeat(at, DATA_32) + [(p, 1)] + repeat(k - at - 2, DATA_32), number, at)
          for k in (254, 256, 258, 384) for at in (0, 2, 128, k - 6, k - 4, k - 2)
          for p, number in (NOT_LAST if at < k - 2 else ANYWHERE).items()]
       + [case("r", 7000, repeat(k - 2, DATA_32) + [(p, 1)], 0, 0, (TEXT_48 * 12)[:k // 2 * 3 - 3] + text)
          for k in (254, 256, 258) for p, text in ((SHORT, b"MS"), (LONE, b"A"))], "long")
family("Every value at each place of a pair in long text, whose other pairs are good: 37 times three texts of 258 bytes.",
       [case("r", 387, [(GOOD, 64), (encode(text), 1), (GOOD, 64)], 0, 0, b"VIS" * 64 + text + b"VIS" * 64)
        for c in CHART for text in (b"%c7Q" % c, b"Q%c7" % c, b"7Q%c" % c)], "long")
family("Writing 381 to 388 characters, where a writer may judge and code in one pass, with the room exact and one short, and "
       "with a wrong character as each of the first three, one in the middle and each of the last four.",
       [case("w", room, repeat(k, TEXT_32), 44, 0, encode((TEXT_32 * 13)[:k]) if room >= need else None)
        for k in range(381, 389) for need in [(k + 2) // 3 * 2] for room in (need - 1, need)]
       + [case("w", 7000, repeat(at, TEXT_32) + [(bad, 1)] + repeat(k - at - 1, TEXT_32), 43, at)
          for k in (383, 384, 385, 386) for at in (0, 1, 2, 192, k - 4, k - 3, k - 2, k - 1)
          for bad in (b"<", b"a", b"\x80")], "long")
family("Every character of the chart at each place of a group in long text, written: 37 times three texts of 387.",
       [case("w", 258, [(b"VIS", 64), (text, 1), (b"VIS", 64)], 0, 0, GOOD * 64 + encode(text) + GOOD * 64)
        for c in CHART for text in (b"%c7Q" % c, b"Q%c7" % c, b"7Q%c" % c)], "long")


# ---- Checks and output ----------------------------------------------------------------------
def check_reference():
    assert len(PAIR_OF) == 64000 and len(LAST_PAIRS) == 37 + 37 ** 2 + 37 ** 3
    assert [SYMBOLS.index(c) for c in b" 09AZ"] == [3, 4, 13, 14, 39]     # Table 2
    for (a, b, c), pair in zip(itertools.product(range(40), repeat=3), PAIR_OF.values()):
        assert 1600 * a + 40 * b + c + 1 == 256 * pair[0] + pair[1]       # the formula of 2.6.1
    for number in range(65536):                                           # document 02, Ticket 1
        pair = number.to_bytes(2, "big")
        assert (fault(pair) == 41) == ((number == 0 or number > 64000) and pair[0] != 0xFE)
    for triple, pair in PAIR_OF.items():
        shifts = [place for place, symbol in enumerate(triple) if symbol in SHIFTS]
        assert (pair in FULL_PAIRS) == (shifts == [])
        assert (pair in LAST_PAIRS) == (shifts == [] or shifts == [2] and triple[2] == S0)
    for text, data in PUBLISHED:
        assert write(text, 6) == (0, 0, bytes.fromhex(data)) and read(bytes.fromhex(data), 6) == (0, 0, text)


def case_line(letter, room, pieces):
    runs = [part.hex().upper() + (f"*{count}" if count > 1 else "") for part, count in pieces if part and count]
    return " ".join([letter, str(room)] + runs)


def answer_line(number, place, written):
    line = f"{number} at {place} wrote {len(written)} kept"
    if len(written) > 24:
        total = sum((index + 1) * byte for index, byte in enumerate(written)) % 65521
        return f"{line} {written[:8].hex().upper()}..{written[-8:].hex().upper()} sum {total}"
    return f"{line} {written.hex().upper()}" if written else line


def answer_to(line):
    """The reference's answer to a line of the file; on 0 the way back must give the input again."""
    assert re.fullmatch(r"[rw] \d{1,4}( ([0-9A-F]{2}){1,32}(\*[1-9]\d{0,3})?)*", line), line
    letter, room, *runs = line.split(" ")
    halves = [run.partition("*") for run in runs]
    assert int(room) <= 7000 and all(int(count or 1) <= 6200 for _, _, count in halves), line
    given = b"".join(bytes.fromhex(digits) * int(count or 1) for digits, _, count in halves)
    there, back = (read, write) if letter == "r" else (write, read)
    result = there(given, int(room))
    assert result[0] != 0 or back(result[2], 7000) == (0, 0, given), line
    return result


def chapters():
    """Two chapters, the second of texts about as long as those from which a reader or writer may go a way of its own: their
    names, the lines of their cases, and of the answers."""
    check_reference()
    for chapter, families in CHAPTERS.items():
        cases, answers = [], []
        for heading, members in families:
            cases.append("# " + heading)
            for letter, room, pieces, expected in members:
                cases.append(case_line(letter, room, pieces))
                assert answer_to(cases[-1]) == expected, (cases[-1], expected)   # family and reference agree
                answers.append(answer_line(*expected))
        assert len(answers) >= 120 and max(map(len, cases)) <= 300
        yield chapter, cases, answers
