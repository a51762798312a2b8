"""Reference for the reason of a refusal (document 02, Ticket 11), and the lines that tell it; the sixth is of the first
hopeless byte (Ticket 12, front.py).

`table` sets out the items in the order in which they are judged, each with its rules in their order. A rule is its
words and a test of the bytes from the item's first one to the input's end: None where it is kept, else which bytes were
judged, (how far in, how many). `why` ends at the first rule that is broken, so that all before it are kept. It shares
no step with the reading in seals.py: a text is looked at pair by pair, each of which must stand for as many characters
as are its own.
"""
import collections
import re

from c40_cases import LAST_PAIRS
from der_cases import FOLLOWING, date_of, length_bytes
from front import front
from seals import COUNTRY, MOST, SIGNER, SIZES

# The rules in words, in the order of their codes from 1 on, and the number that is answered where one is broken.
RULES = (NOT_TOO_LONG, THERE, MARK, VERSION, WELL_CODED, DAY, ONE_TO_254, BEGINS_LENGTH, NOT_USED_BEFORE,
         SIGNATURE_SIZE, NOTHING_AFTER, FITS_COUNTRY, FITS_SIGNER, FITS_REFERENCE, HEXADECIMAL, NOT_ZERO, REST_THERE,
         SHORTEST) = (
    "a seal has at most 4,096 bytes",
    "all its bytes are there",
    "a seal begins with DC",
    "the version is 02 or 03",
    "every two bytes stand for characters, as many as the item has",
    "the date is a real day",
    "the number is 1 to 254",
    "the length begins with 00 to 7F or with 81 to 84",
    "a tag is used once only",
    "the signature is 56, 64, 96, 128 or 132 bytes long",
    "nothing follows the signature",
    "the country is a letter, then letters, then < to fill",
    "the signer is two letters, then two letters or digits",
    "the reference is letters and digits",
    "the reference's length is two of 0 to 9 and A to F",
    "the reference's length is not 00",
    "all bytes of the length are there",
    "the length is in its shortest form")
NUMBERS = dict(zip(RULES, (*range(1, 12), 5, 5, 5, 5, 5, 2, 8)))

# Why a seal is refused. The bytes judged begin at the place, and `length` is how many they are.
Reason = collections.namedtuple("Reason", "number item place length rule")


# ---- Rules: (words, test) -------------------------------------------------------------------
def there(size):
    """So many bytes are there; those that are, are judged."""
    return THERE, lambda rest: None if len(rest) >= size else (0, len(rest))


def good(words, size, holds):
    """Something holds of the item's first bytes, which are judged together."""
    return words, lambda rest: None if holds(rest[:size]) else (0, size)


def one_byte(words, allowed):
    return [there(1), good(words, 1, lambda data: data[0] in allowed)]


DATE = [there(3), good(DAY, 3, lambda data: date_of(int.from_bytes(data, "big")))]
LAST = one_byte(ONE_TO_254, range(1, 255))


# ---- Text -----------------------------------------------------------------------------------
def width_of(characters):
    return (characters + 2) // 3 * 2


def said(data):
    """The characters of pairs that are well coded."""
    return b"".join(LAST_PAIRS[data[k:k + 2]] for k in range(0, len(data), 2)).decode("ascii")


def well_coded(size):
    """Every pair stands for three characters, and the last for those left; the first that does not is judged."""
    own = {2 * k: min(3, size - 3 * k) for k in range(width_of(size) // 2)}

    def test(rest):
        wrong = (at for at, count in own.items() if len(LAST_PAIRS.get(rest[at:at + 2], b"")) != count)
        return next(((at, 2) for at in wrong), None)
    return WELL_CODED, test


def fits(words, size, pattern):
    """The text of so many characters fits a pattern."""
    return good(words, width_of(size), lambda data: re.fullmatch(pattern, said(data)))


def text(size, *patterns):
    """C40 text of so many characters that fits patterns: (words of the rule, pattern)."""
    return [there(width_of(size)), well_coded(size), *(fits(words, size, pattern) for words, pattern in patterns)]


# ---- DER lengths ----------------------------------------------------------------------------
def width_in(rest):
    """How many bytes a DER length has by its first one."""
    return 1 + FOLLOWING[rest[0]]


def value_in(rest):
    form = rest[:width_in(rest)]
    return int.from_bytes(form[1:] or form, "big")


def all_there(rest):
    return None if len(rest) >= width_in(rest) else (0, len(rest))


def whole(holds):
    """A test whether something holds of a DER length, all of which is judged."""
    return lambda rest: None if holds(rest[:width_in(rest)]) else (0, width_in(rest))


DER_LENGTH = [*one_byte(BEGINS_LENGTH, FOLLOWING), (REST_THERE, all_there),
              (SHORTEST, whole(lambda form: length_bytes(value_in(form)) == form))]
ONE_OF_FIVE = SIGNATURE_SIZE, whole(lambda form: value_in(form) in SIZES)


# ---- The table ------------------------------------------------------------------------------
def names(version):
    """The items between country and issue date."""
    if version == 3:
        yield "signer and reference", text(9, (FITS_SIGNER, SIGNER + ".*"), (FITS_REFERENCE, ".{4}[A-Z0-9]{5}")), 6
    else:
        front = yield "signer and length", text(6, (FITS_SIGNER, SIGNER + ".*"), (HEXADECIMAL, ".{4}[0-9A-F]{2}"),
                                                (NOT_ZERO, ".{4}(?!00)..")), 4
        size = int(said(front)[4:], 16)
        yield "reference", text(size, (FITS_REFERENCE, "[A-Z0-9]*")), width_of(size)


def features(version):
    """The items from the first tag to FF."""
    unused = set(range(256))
    while (tag := (yield "tag", one_byte(NOT_USED_BEFORE, unused), 1)[0]) != 0xFF:
        unused -= {tag}
        if version == 3:
            size = (yield "length", [there(1)], 1)[0]
        else:
            size = value_in((yield "length", DER_LENGTH, width_in))
        yield "value", [there(size)], size


def table():
    """Each item with its rules and its width, or what tells it from the bytes there. Is told the item's bytes."""
    yield "seal", [(NOT_TOO_LONG, lambda rest: None if len(rest) <= MOST else (MOST, 1))], 0
    yield "mark", one_byte(MARK, {0xDC}), 1
    version = {2: 3, 3: 4}[(yield "version", one_byte(VERSION, {2, 3}), 1)[0]]
    yield "country", text(3, (FITS_COUNTRY, COUNTRY)), 2
    yield from names(version)
    yield "issue date", DATE, 3
    yield "signature date", DATE, 3
    yield "definition", LAST, 1
    yield "category", LAST, 1
    yield from features(version)
    form = yield "signature length", [*DER_LENGTH, ONE_OF_FIVE], width_in
    yield "signature", [there(value_in(form))], value_in(form)
    yield "end", [(NOTHING_AFTER, lambda rest: (0, 1) if rest else None)], 0


def broken(rules, rest):
    """The first rule that is broken and what was judged, or None."""
    return next(((words, judged) for words, test in rules for judged in [test(rest)] if judged), None)


def why(seal, kept=None):
    """The reason why a seal is refused, or None. Every rule that was kept goes into `kept` with its item, if that is
    given."""
    asked, place, data = table(), 0, None
    while True:
        try:
            item, rules, width = asked.send(data)
        except StopIteration:
            return None
        rest = seal[place:]
        if fault := broken(rules, rest):
            words, (offset, length) = fault
            return Reason(NUMBERS[words], item, place + offset, length, words)
        data = rest[:width(rest) if callable(width) else width]
        place += len(data)
        if kept is not None:
            kept += [(item, words) for words, _ in rules]


# ---- The lines ------------------------------------------------------------------------------
def shown(data):
    """Sixteen bytes at most, and how many more there are."""
    more = f" and {len(data) - 16} more" if len(data) > 16 else ""
    return (data[:16].hex(" ").upper() or "none") + more


def good_part(seal):
    """How far the input is hopeful, and the byte there with which no seal goes on."""
    length = front(seal)
    return f"good up to {length}, " + (
        f"no seal has {seal[length]:02X} there" if length < len(seal) else "the input ends too early")


def told(seal, reason):
    """What is printed of a seal."""
    if reason is None:
        return "accepted\n"
    judged = shown(seal[reason.place:reason.place + reason.length])
    return (f"number {reason.number}\nitem {reason.item}\nplace {reason.place}\nbytes {judged}\nrule {reason.rule}\n"
            f"{good_part(seal)}\n")
