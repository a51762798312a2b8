"""Reference for the first hopeless byte (document 02, Ticket 12): the longest front part of an input with which some
accepted seal begins.

Every good form of an item is written out, all legal texts and all days of the calendar among them, and with it its
front parts. `hopes` has for each of these the fewest bytes that are wanting to a form and to what must stand behind it:
a value, and the shortest signature zone. `layout` asks for item after item; `along` holds the input and goes along it
to the first byte with which no form begins, or none for which there is room. From there on it takes the form that wants
the fewest bytes, so that "some accepted seal starts with those bytes" can be put to the reader in seals.py, with which
it shares no step.
"""
import calendar
import itertools

from c40_cases import encode
from der_cases import length_bytes
from seals import BOTH, LETTERS, MOST, SIZES

LEAST = 58      # of a signature zone: FF, 38 and 56 bytes


# ---- Forms of items, {bytes: how many must stand behind them}, and their front parts ---------
def hopes(forms):
    """{front part: (fewest bytes wanting, the form that wants them)}."""
    found = {}
    for form, behind in forms.items():
        for k in range(len(form) + 1):
            wanting = len(form) - k + behind, form
            found[form[:k]] = min(found.get(form[:k], wanting), wanting)
    return found


def pairs(*alphabets):
    """The pairs of all texts of one, two or three characters, each of its own alphabet. The header always has room."""
    return {encode("".join(text).encode("ascii")): 0 for text in itertools.product(*alphabets)}


def tags(unused):
    """Tags that are not used, behind which a length and a signature zone must have room, and FF."""
    return hopes({bytes([tag]): 1 + LEAST for tag in unused} | {b"\xFF": LEAST - 1})


MARK, VERSION = hopes({b"\xDC": 0}), hopes({b"\2": 0, b"\3": 0})
LAST = hopes({bytes([number]): 0 for number in range(1, 255)})
COUNTRY = hopes(pairs(LETTERS, " ", " ") | pairs(LETTERS, LETTERS, " ") | pairs(LETTERS, LETTERS, LETTERS))
SIGNER = hopes(pairs(LETTERS, LETTERS, BOTH))
L_OF = {encode(f"{last}{size:02X}".encode("ascii")): size for last in BOTH for size in range(1, 256)}
SIGNER_AND_LENGTH = hopes(dict.fromkeys(L_OF, 0))
REFERENCE = {size: hopes(pairs(*[BOTH] * size)) for size in (1, 2, 3)}
SIZE_OF = {3: {bytes([size]): size for size in range(256)}, 4: {length_bytes(size): size for size in range(MOST)}}
LENGTH = {version: hopes({form: size + LEAST for form, size in sizes.items()}) for version, sizes in SIZE_OF.items()}
RAW = {length_bytes(size): size for size in SIZES}
SIGNATURE = hopes(RAW)


class Days:
    """The front parts of all days, as `hopes` would give them: a mark stands at every number MMDDYYYY that is a day."""

    def __init__(self):
        self.marks = bytearray(1 << 24)
        for month, day in itertools.product(range(1, 13), range(1, 32)):
            for year in range(1, 10000):
                if day <= 28 or day <= calendar.monthrange(year, month)[1]:
                    self.marks[month * 10 ** 6 + day * 10 ** 4 + year] = 1

    def get(self, begun):
        wanting = 3 - len(begun)
        at = int.from_bytes(begun, "big") << 8 * wanting
        found = self.marks.find(1, at, at + (1 << 8 * wanting)) if wanting >= 0 else -1
        return None if found < 0 else (wanting, found.to_bytes(3, "big"))


DAY = Days()


# ---- Along an input -------------------------------------------------------------------------
def layout():
    """The items, one after another: the front parts of an item, or how many bytes of any kind. Is told the form."""
    yield MARK
    version = {b"\2": 3, b"\3": 4}[(yield VERSION)]
    yield COUNTRY
    yield SIGNER
    left = 6 if version == 3 else L_OF[(yield SIGNER_AND_LENGTH)]
    while left:
        yield REFERENCE[min(3, left)]
        left -= min(3, left)
    for item in DAY, DAY, LAST, LAST:
        yield item
    unused = set(range(255))
    while (tag := (yield tags(unused))) != b"\xFF":
        unused -= set(tag)
        yield SIZE_OF[version][(yield LENGTH[version])]
    yield RAW[(yield SIGNATURE)]


def longest(item, rest, room):
    """How many bytes of the rest an item may begin with, and the form that wants the fewest bytes then."""
    if isinstance(item, int):
        return min(item, len(rest)), rest[:item].ljust(item, b"\x5A")
    count, form = 0, item.get(b"")[1]
    while count < min(len(form), len(rest)):
        found = item.get(rest[:count + 1])
        if found is None or count + 1 + found[0] > room:
            break
        count, form = count + 1, found[1]
    return count, form


def along(seal):
    """The length of the front part, and an accepted seal that begins with it."""
    asked, done, rest = layout(), b"", seal
    item = next(asked)
    front = None
    while True:
        count, form = longest(item, rest, MOST - len(done))
        if front is None and count < len(form):
            front, rest = len(done) + count, b""
        done, rest = done + form, rest[len(form):]
        try:
            item = asked.send(form)
        except StopIteration:
            return len(done) if front is None else front, done


def front(seal):
    return along(seal)[0]
