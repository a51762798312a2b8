"""Reference for the writer of seals (document 01, numbers 20 to 28), and what a call of it is given.

What is given is judged against document 01's numbers in their order, and the seal is put together by seals.py from what it
says. Nothing is summed up beforehand: the size is that of the seal when it stands there.
"""
import collections
import re

from der_cases import number_of
from seals import MOST, MOST_LENT, ROW, SIZES, Row, Seal, judge

TOP = 2 ** 64 - 1
ROOM = 4200                  # more than any seal takes

# What a call is given. Rows are plain numbers, those of a row for each feature.
FIELDS = "version country length issued signed definition category text rows values signature room"
Given = collections.namedtuple("Given", FIELDS)


# ---- Rows over values -----------------------------------------------------------------------
def row(tag, value_place, value_length, tag_place=TOP):
    """The numbers of a row. The writer ignores the tag's place, so one that no seal has stands there where no other is asked
    for."""
    return [*Row(tag, tag_place, value_place, value_length)]


def table(*rows):
    """The numbers of rows of (tag, value place, value length)."""
    return [number for given in rows for number in row(*given)]


def rows_of(numbers):
    """The whole rows of a table's numbers."""
    return [Row(*numbers[k:k + ROW]) for k in range(0, len(numbers) - ROW + 1, ROW)]


def features_of(given):
    """The features that the rows say: (tag, value)."""
    return [(row.tag, given.values[row.value_place:row.value_place + row.value_length]) for row in rows_of(given.rows)]


# ---- The reference --------------------------------------------------------------------------
def seal_of(given):
    """The seal of what is given, when all but its size is good."""
    g, text = given, given.text.decode("ascii")
    return Seal(g.version, g.country.decode("ascii"), text[:4], text[4:], g.issued, g.signed, g.definition, g.category,
                features_of(g), g.signature).data()


def judged(given):
    """The numbers of document 01 in order, each with whether what is given is good for it."""
    g, rows = given, rows_of(given.rows)
    tags = {row.tag for row in rows}
    yield 20, g.version in (3, 4)
    yield 21, (re.fullmatch(rb"[A-Z]{3}|[A-Z]{2}<|[A-Z]<<", g.country) and g.length == len(g.text) - 4
               and re.fullmatch(rb"[A-Z]{2}[A-Z0-9]{2}[A-Z0-9]" + (b"{5}" if g.version == 3 else b"{1,255}"), g.text))
    yield 22, number_of(g.issued) and number_of(g.signed)
    yield 23, {g.definition, g.category} <= set(range(1, 255))
    yield 24, (len(g.rows) % ROW == 0 and tags <= set(range(255)) and len(tags) == len(rows)
               and all(row.value_place + row.value_length <= len(g.values) for row in rows))
    yield 25, g.version == 4 or all(row.value_length <= 255 for row in rows)
    yield 26, len(g.signature) in SIZES
    yield 27, len(seal_of(g)) <= MOST
    yield 28, len(seal_of(g)) <= g.room


def write(given):
    """The number that refuses what is given, or the seal."""
    return next((number for number, good in judged(given) if not good), None) or seal_of(given)


# ---- Cases: (given, number or seal) ---------------------------------------------------------
def given_of(seal, order=None, gap=b""):
    """What a seal was put together from, with the tags' places in it. The values stand in the order asked for, with a gap
    before each."""
    c, values, places = seal.content, b"", {}
    for k in order or range(len(c.rows)):
        places[k] = len(values + gap)
        values += gap + seal.parts[f"value{k}"]
    rows = [number for k, row in enumerate(c.rows) for number in row._replace(value_place=places[k])]
    return Given(c.version, c.country.encode(), len(c.text) - 4, c.issued, c.signed, c.definition, c.category,
                 c.text.encode(), rows, values, seal.parts["raw"], ROOM)


def good(*seals):
    return [(given_of(seal), seal.data()) for seal in seals]


def wrong(number, base, name, *forms):
    """What is given, with a field in other forms, each of which is refused."""
    return [(base._replace(**{name: form}), number) for form in forms]


def with_text(base, text):
    """What is given with other text and its L, which for less than four bytes is counted down from 2 to the 64."""
    return base._replace(text=text, length=len(text) - 4 & TOP)


def with_places(base, places):
    """What is given with other second numbers in some rows: {number of the row: place of the tag}."""
    rows = [row._replace(tag_place=places.get(k, row.tag_place)) for k, row in enumerate(rows_of(base.rows))]
    return base._replace(rows=[number for row in rows for number in row])


def put_in(data, at, b):
    return data[:at] + bytes([b]) + data[at + 1:]


# ---- Lines of the file ----------------------------------------------------------------------
def runs(data):
    """Bytes in runs of hex digits. Four and more of one byte or pair are a run with a count."""
    found = re.finditer(rb"(?s)(.{1,2}?)\1{3,}|(?:(?!(.{1,2}?)\2{3}).){1,40}", data)
    return "".join(f" {p[1].hex()}*{len(p[0]) // len(p[1])}" if p[1] else " " + p[0].hex() for p in found).upper()


def words(numbers):
    """Numbers in decimal. From 2 to the 63 on they are counted down from the greatest, after `~`."""
    assert all(0 <= n <= TOP for n in numbers), numbers
    return "".join(f" {n}" if n < 2 ** 63 else f" ~{TOP - n}" for n in numbers)


def case_line(g):
    # what the program has room for
    assert len(g.country) == 3 and len(g.text) < 400 and len(g.rows) < MOST_LENT and g.room <= 7000
    assert len(g.values) < 8192 and len(g.signature) < 8192
    header = words((g.version, g.length, *g.issued, *g.signed, g.definition, g.category))
    parts = f"c{runs(g.country)} t{runs(g.text)} r{words(g.rows)} v{runs(g.values)} g{runs(g.signature)}"
    return f"w {g.room} h{header} {parts}"


def check(given, answer, heading):
    """The reference answers the same, and a seal reads as what was given."""
    assert write(given) == answer, (heading, given, answer, write(given))
    if not isinstance(answer, int):
        c = judge(answer).content
        features = [(row.tag, answer[row.value_place:row.value_place + row.value_length]) for row in c.rows] if c else None
        assert features == features_of(given), heading
        assert (c.version, c.country, c.text, c.issued, c.signed, c.definition, c.category) == (
            given.version, given.country.decode(), given.text.decode(), given.issued, given.signed, given.definition,
            given.category), heading
