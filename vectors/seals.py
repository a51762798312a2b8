"""Reference for the reader of seals (document 01; Doc 9303-13, 2.2, Table 1), and seals put together from known parts.

The reading: `layout` asks for one item after another, each with the number that it is refused with, and is told what the
item says. It knows neither bytes nor places. `walk` holds the bytes and answers: 2 for an item that is cut, that number for
one that says nothing, both at the item's first byte, unless the item points at a pair further in. C40 pairs are looked up
among those counted out, dates are texts of eight digits and known to the calendar, and a DER length is good when its number
is written as these bytes (c40_cases.py, der_cases.py).

The putting together: a `Seal` is a list of named parts, and knows from what it was given what a reader must report of it.
"""
import calendar
import collections
import re

from c40_cases import encode, read as read_text
from der_cases import date_of, length_bytes, number_of, read_length

SIZES = (56, 64, 96, 128, 132)
MOST = 4096
SIGNER = "[A-Z]{2}[A-Z0-9]{2}"
COUNTRY = "[A-Z]{3}|[A-Z]{2} |[A-Z] {2}"
CUT = "cut"

# A feature's row in a table: the numbers that it has, in their order (document 02, Ticket 10), and how many they are.
Row = collections.namedtuple("Row", "tag tag_place value_place value_length")
ROW = len(Row._fields)
TABLE = 255 * ROW            # numbers enough for the rows of every seal
MOST_LENT = TABLE + 35       # the most numbers that the program has room for

# What a reader reports of a good seal. `text` is signer and reference.
Content = collections.namedtuple("Content", "country version text issued signed definition category ends signature rows")
Answer = collections.namedtuple("Answer", "number place content", defaults=(0, None))


# ---- The reading ----------------------------------------------------------------------------
# An item is a function of the bytes that are left: CUT; what it says and its width; or None, as it says nothing, and how far
# in it is refused.
def fixed(size, meaning):
    def item(rest):
        if len(rest) < size:
            return CUT
        said = meaning(rest[:size])
        return (None, 0) if said is None else (said, size)
    return item


def text(size, pattern):
    """C40 text of so many characters that the pattern takes whole. A pair that is wrongly coded is pointed at, and so is the
    last where all are well coded but give more characters or fewer; with a wrong character the item as a whole is wrong."""
    width = (size + 2) // 3 * 2

    def item(rest):
        if len(rest) < width:
            return CUT
        number, place, characters = read_text(rest[:width], 255)
        if number or len(characters) != size:
            return None, place if number else width - 2
        found = re.fullmatch(pattern, characters.decode("ascii"))
        return (found[0], width) if found else (None, 0)
    return item


def one_of(meanings):
    return fixed(1, lambda data: meanings.get(data[0]))


def der_length(rest):
    words = read_length(rest).split()
    return CUT if words == [CUT] else (int(words[1]), int(words[3])) if words[0] == "length" else (None, 0)


def looked_at(item):
    """An item, with its width, that is not stepped over."""
    def look(rest):
        found = item(rest)
        return found if found == CUT or found[0] is None else (found, 0)
    return look


def test(good):
    """No bytes: a thing that must hold here."""
    return lambda rest: (True if good(rest) else None, 0)


BYTE = one_of({b: b for b in range(256)})
LAST = one_of({b: b for b in range(1, 255)})
DATE = fixed(3, lambda data: date_of(int.from_bytes(data, "big")))


def layout():
    yield "mark", 3, one_of({0xDC: True})
    version = yield "version", 4, one_of({2: 3, 3: 4})
    yield "country", 5, text(3, COUNTRY)
    if version == 3:
        yield "names", 5, text(9, SIGNER + "[A-Z0-9]{5}")
    else:
        front = yield "names", 5, text(6, SIGNER + "(?!00)[0-9A-F]{2}")
        size = int(front[4:], 16)
        yield "reference", 5, text(size, "[A-Z0-9]{%d}" % size)
    yield "issued", 6, DATE
    yield "signed", 6, DATE
    yield "definition", 7, LAST
    yield "category", 7, LAST
    unused = {b: b for b in range(256)}
    while (tag := (yield "tag", 9, one_of(unused))) != 0xFF:
        unused = {b: b for b in unused if b != tag}
        size = yield "length", 8, der_length if version == 4 else BYTE
        yield "value", None, fixed(size, bytes)
    size, width = yield "size", 8, looked_at(der_length)
    yield "size is one of five", 10, test(lambda rest: size in SIZES)
    yield "size passed", None, fixed(width, bytes)
    yield "raw", None, fixed(size, bytes)
    yield "end", 11, test(lambda rest: not rest)


def walk(seal):
    """The items of a seal, (name, place, what it says), or the number and place of the first that is not read."""
    asked, items, place = layout(), [], 0
    name, number, item = next(asked)
    while True:
        found = item(seal[place:])
        if found == CUT:
            return 2, place
        if found[0] is None:
            return number, place + found[1]
        items.append((name, place, found[0]))
        place += found[1]
        try:
            name, number, item = asked.send(found[0])
        except StopIteration:
            return items


def judge(seal):
    """The answer to a byte string when there is room enough."""
    items = walk(seal) if len(seal) <= MOST else (1, MOST)
    if isinstance(items, tuple):
        return Answer(*items)
    said = {name: value for name, _, value in items}
    places = {name: place for name, place, _ in items}      # of "tag" the last, which is FF
    names = said["names"] if said["version"] == 3 else said["names"][:4] + said["reference"]
    tags = [(value, place) for name, place, value in items if name == "tag"][:-1]
    values = [(place, len(value)) for name, place, value in items if name == "value"]
    return Answer(0, 0, Content(
        said["country"].replace(" ", "<"), said["version"], names, said["issued"], said["signed"],
        said["definition"], said["category"],
        (next(place for name, place, _ in items if name == "tag"), places["tag"], len(seal)),
        (places["raw"], len(said["raw"])), [Row(*tag, *value) for tag, value in zip(tags, values)]))


def read(seal, table, room):
    """The answer with so many numbers of table and so much room for text."""
    answer = judge(seal)
    good = answer.number == 0
    short = good and (table < ROW * len(answer.content.rows) or room < len(answer.content.text))
    return Answer(12) if short else answer


# ---- Seals put together from known parts -----------------------------------------------------
def c40(characters):
    return encode(characters.encode("ascii"))


def code(month, day, year):
    """The three bytes of what may be no day."""
    return (month * 10 ** 6 + day * 10 ** 4 + year).to_bytes(3, "big")


def date(month, day, year):
    return number_of((month, day, year)).to_bytes(3, "big")


class Seal:
    """A seal: its parts by name, in order, and the content that a reader must report if it is good. Features are (tag, value),
    and their parts are tag0, length0, value0 and so on."""

    def __init__(self, version, country="UTO", signer="UTAB", reference="00001", issued=(3, 25, 1957),
                 signed=(3, 25, 1957), definition=1, category=2, features=(), raw=b"\xAA" * 56):
        three = version == 3
        front = {"names": c40(signer + reference)} if three else {
            "names": c40(signer + f"{len(reference):02X}"), "reference": c40(reference)}
        self.parts = {"mark": b"\xDC", "version": b"\2" if three else b"\3", "country": c40(country.replace("<", " ")),
                      **front, "issued": date(*issued), "signed": date(*signed), "definition": bytes([definition]),
                      "category": bytes([category])}
        for k, (tag, value) in enumerate(features):
            size = bytes([len(value)]) if three else length_bytes(len(value))
            self.parts |= {f"tag{k}": bytes([tag]), f"length{k}": size, f"value{k}": value}
        self.parts |= {"end": b"\xFF", "size": length_bytes(len(raw)), "raw": raw}
        first = "tag0" if features else "end"
        self.content = Content(
            country, version, signer + reference, issued, signed, definition, category,
            (self.at(first), self.at("end"), len(self.data())), (self.at("raw"), len(raw)),
            [Row(tag, self.at(f"tag{k}"), self.at(f"value{k}"), len(value)) for k, (tag, value) in enumerate(features)])

    def data(self):
        return b"".join(self.parts.values())

    def at(self, name):
        """The place of a part."""
        return len(self.before(name))

    def before(self, name):
        """All that stands before a part."""
        names = list(self.parts)
        return b"".join(self.parts[other] for other in names[:names.index(name)])

    def after(self, name):
        return self.data()[self.at(name) + len(self.parts[name]):]

    def part_of(self, place):
        """The name of the part that the byte at a place belongs to."""
        return next(name for name in self.parts if self.at(name) <= place < self.at(name) + len(self.parts[name]))


# ---- Cases of such seals: (bytes, table room, text room, answer) -----------------------------
def good(*seals):
    """Good seals, with exactly enough room."""
    return [(seal.data(), ROW * len(seal.content.rows), len(seal.content.text), Answer(0, 0, seal.content))
            for seal in seals]


def refused(number, place, *inputs):
    return [(data, 3 * ROW, 9, Answer(number, place)) for data in inputs]


def by_reference(inputs):
    """Inputs with room for seven rows and a reference of 26 characters: the reference alone answers."""
    return [(data, 7 * ROW, 30, read(data, 7 * ROW, 30)) for data in inputs]


def wrong(number, seal, name, *forms):
    """A seal with a part in other forms, which is refused at that part; the rest of the seal follows."""
    return refused(number, seal.at(name), *(seal.before(name) + form + seal.after(name) for form in forms))


def wrong_pair(seal, name, k, *pairs):
    """A seal with pair k of a C40 part replaced by others that may not stand there: 5 at that pair."""
    front, data = seal.at(name) + 2 * k, seal.data()
    return refused(5, front, *(data[:front] + pair + data[front + 2:] for pair in pairs))


def ended(number, seal, name, *forms):
    """What stands before a part, and other forms of it as the last bytes: refused at that part."""
    return refused(number, seal.at(name), *(seal.before(name) + form for form in forms))


def cuts(seal, places):
    """A seal cut at places: 2 at the part that the first missing byte belongs to."""
    return [case for k in places for case in refused(2, seal.at(seal.part_of(k)), seal.data()[:k])]


def padded(version, size, count=0, **given):
    """A good seal of so many bytes: empty features, as many as asked for, and then values as long as may be. One byte is too
    few for a feature, so none is left over."""
    features = [(tag, b"") for tag in range(count)]
    while missing := size - len(Seal(version, features=features, **given).data()):
        left = {k: missing - k - (2 if version == 3 else 1 + len(length_bytes(k)))
                for k in range(256 if version == 3 else missing)}
        features.append((len(features), b"\x5A" * max(k for k in left if left[k] == 0 or left[k] > 1)))
    return Seal(version, features=features, **given)


# ---- Mixed seals ----------------------------------------------------------------------------
class Dice:
    """Numbers that look like chance and are the same on every machine."""

    def __init__(self, state):
        self.state = state

    def below(self, limit):
        self.state = self.state * 48271 % (2 ** 31 - 1)
        return self.state // 7 % limit

    def text(self, size, alphabet):
        return "".join(alphabet[self.below(len(alphabet))] for _ in range(size))

    def data(self, size):
        return bytes(self.below(256) for _ in range(size))


LETTERS, BOTH = "ABCDEFGHIJKLMNOPQRSTUVWXYZ", "0123456789ABCDEFGHIJKLMNOPQRSTUVWXYZ"


def day_by_chance(dice):
    """A day of the calendar: any day up to 31, but no later than the last of its month."""
    month, day, year = 1 + dice.below(12), 1 + dice.below(31), 1 + dice.below(9999)
    return month, min(day, calendar.monthrange(year, month)[1]), year


def nearly_by_chance(dice):
    """No day, but a day up to 31: past the last of its month."""
    month, year = (2, 2, 4, 6, 9, 11)[dice.below(6)], 1 + dice.below(9999)
    last = calendar.monthrange(year, month)[1]
    return month, last + 1 + dice.below(31 - last), year


def mixed(dice):
    """A good seal whose every field is by chance."""
    version, tags = 3 + dice.below(2), sorted(range(255), key=lambda tag: (dice.below(10 ** 6), tag))
    dates = [day_by_chance(dice) for _ in range(2)]
    return Seal(version, dice.text(1 + dice.below(3), LETTERS).ljust(3, "<"), dice.text(2, LETTERS) + dice.text(2, BOTH),
                dice.text(5 if version == 3 else 1 + dice.below(20), BOTH), *dates, 1 + dice.below(254), 1 + dice.below(254),
                [(tag, dice.data(dice.below(12))) for tag in tags[:dice.below(6)]], dice.data(1) * SIZES[dice.below(5)])


def edited(dice, data):
    """The bytes with one changed, left out, put in or doubled, mostly before the signature, or cut."""
    at, new = dice.below(len(data) - 50), dice.data(1)
    return (data[:at] + new + data[at + 1:], data[:at] + data[at + 1:], data[:at] + new + data[at:],
            data[:at] + data[at:at + 1] + data[at:], data[:at])[dice.below(5)]


def mixed_cases(state, count):
    """Good seals; eight edits of each by the reference; and each with one of its dates nearly a day."""
    dice = Dice(state)
    seals = [mixed(dice) for _ in range(count)]
    edits = [edited(dice, seal.data()) for seal in seals for _ in range(8)]
    late = [wrong(6, seal, ("issued", "signed")[dice.below(2)], code(*nearly_by_chance(dice))) for seal in seals]
    return good(*seals), by_reference(edits), [case for cases in late for case in cases]
