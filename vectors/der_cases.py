"""Reference for dates, DER lengths, INTEGERs and signature forms (Doc 9303-13, 2.3.1, B) and cases made from it.

The reference never checks the rules of strict reading one by one. A date is a text of eight digits, and Python's calendar,
which is the Gregorian one from year 1 to 9999, tells whether there is such a day. A strict form is read by guessing what it
means, trusting no length in it, and asking whether the guess is written as these bytes.
"""
import datetime
import itertools
import re

# ---- The reference --------------------------------------------------------------------------
LIMIT = 2 ** 63
HASHES = {28: 224, 32: 256, 48: 384, 64: 512, 66: 512}
DATE = re.compile("([0-9]{2})([0-9]{2})([0-9]{4})")
FOLLOWING = dict.fromkeys(range(0x80), 0) | {0x81: 1, 0x82: 2, 0x83: 3, 0x84: 4}


def known(month, day, year):
    """The three of them, or None if the calendar has no such day."""
    try:
        datetime.date(year, month, day)
    except ValueError:
        return None
    return month, day, year


def date_of(number):
    """(month, day, year), or None for 6."""
    found = DATE.fullmatch(f"{number:08}")
    return found and known(*map(int, found.groups()))


def number_of(date):
    """The number of (month, day, year), or None for 22."""
    number = int("%02d%02d%04d" % date)
    return number if date_of(number) == date else None


def shortest(value, signed):
    """The fewest bytes, but at least one, that hold the value. The first size tried is never too many."""
    sizes = itertools.count(max(1, value.bit_length() // 8))
    size = next(k for k in sizes if max(value, ~value) < 256 ** k // (2 if signed else 1))
    return value.to_bytes(size, "big", signed=signed)



def length_bytes(size):
    body = shortest(size, signed=False)
    return body if size < 128 else bytes([0x80 + len(body)]) + body


def element(tag, content):
    return bytes([tag]) + length_bytes(len(content)) + content


def integer(value):
    return element(0x02, shortest(value, signed=True))


def read_length(data):
    """The answer line for the DER length at the head of the data."""
    if data and data[0] not in FOLLOWING:
        return "malformed"
    if not data or len(data) - 1 < FOLLOWING[data[0]]:
        return "cut"
    head = data[:1 + FOLLOWING[data[0]]]
    value = int.from_bytes(head[1:] or head, "big")
    return f"length {value} width {len(head)}" if length_bytes(value) == head else "malformed"


def read_integer(data):
    """The value, or None for 65. Whatever stands after two bytes is guessed to be the content."""
    value = int.from_bytes(data[2:], "big", signed=True)
    return value if -LIMIT <= value < LIMIT and integer(value) == data else None


def pair_in(data, n):
    """(r, s), or None for 62. An INTEGER that fits has at most 67 bytes of content and the sequence 138, so
    r begins after 30, one or two bytes, 02 and a byte. Its end is guessed; s is all after 02 and a byte."""
    for begin, end in itertools.product((4, 5), range(len(data))):
        r, s = (int.from_bytes(part, "big", signed=True) for part in (data[begin:end], data[end + 2:]))
        if 0 <= min(r, s) <= max(r, s) < 256 ** n and element(0x30, integer(r) + integer(s)) == data:
            return r, s
    return None


def to_der(n, raw, room):
    """Raw to DER: the number of a refusal, or the bytes written."""
    if n not in HASHES or len(raw) != 2 * n:
        return 61 if n in HASHES else 60
    data = element(0x30, b"".join(integer(int.from_bytes(half, "big")) for half in (raw[:n], raw[n:])))
    assert 8 <= len(data) <= 2 * n + 9
    return data if len(data) <= room else 63


def to_raw(n, data, room):
    """DER to raw: the number of a refusal, or the bytes written."""
    pair = pair_in(data, n) if n in HASHES else None
    if pair is None:
        return 62 if n in HASHES else 60
    return b"".join(number.to_bytes(n, "big") for number in pair) if 2 * n <= room else 63


# ---- How cases are held: (line of the case file, line of the answer) -------------------------
H = bytes.fromhex
FAMILIES = []   # (heading, cases)
PARTS = {"numbers": "dnlij", "signatures": "efh"}   # the letters of each part's cases


def family(heading, *cases):
    FAMILIES.append((heading, list(itertools.chain(*cases))))


def runs(data):
    """A byte string as runs. A byte that stands four times or more is a run with a count."""
    parts = re.finditer(rb"(?s)(.)\1{3,}|(?:(?!(.)\2{3}).){1,32}", data)
    return "".join(f" {p[1].hex()}*{len(p[0])}" if p[1] else " " + p[0].hex() for p in parts).upper()


def with_bytes(line, data):
    """A line with bytes after it, if there are any; of more than 24 the first eight, the last eight and a sum."""
    digits = data.hex().upper()
    if len(data) > 24:
        total = sum(index * byte for index, byte in enumerate(data, start=1)) % 65521
        return f"{line} {digits[:16]}..{digits[-16:]} sum {total}"
    return f"{line} {digits}" if data else line


def filled(answer):
    """The answer line of a call that fills a buffer: the number of a refusal, or the bytes written."""
    number, written = (answer, b"") if isinstance(answer, int) else (0, answer)
    return with_bytes(f"{number} wrote {len(written)} kept", written)


def each(head, answer, *inputs):
    """For each input a case: the head of the line, and the answer line or what filled makes one from."""
    return [(head + runs(data), answer if isinstance(answer, str) else filled(answer)) for data in inputs or [b""]]


# ---- Dates ----------------------------------------------------------------------------------
def dates(good, month, day, year):
    """A date both ways. Its number is the month, two digits of day and four of year, set side by side."""
    date, code = f"{month} {day} {year}", int(f"{month}{day:02}{year:04}")
    return each(f"d {code}", f"0 {date}" if good else "6 0 0 0") + each(f"n {date}", f"0 {code}" if good else "22 0")


LEAP_YEARS = (4, 8, 96, 104, 400, 404, 800, 1200, 1600, 1896, 1904, 1956, 1996, 2000, 2004, 2096, 2104, 2400, 9600, 9996)
COMMON_YEARS = (1, 2, 3, 5, 25, 50, 75, 100, 200, 300, 500, 1000, 1700, 1800, 1900, 1957, 1975, 1999, 2001, 2002, 2003,
                2025, 2100, 2200, 2300, 2500, 9700, 9800, 9900, 9975, 9997, 9999)
family("25 March 1957 from 2.3.1 (31 9E F5), and the first and last day of document 01.",
       each(f"d {0x319EF5}", "0 3 25 1957"), each("d 1010001", "0 1 1 1"), each("d 12319999", "0 12 31 9999"),
       each("n 3 25 1957", "0 3251957"), each("n 1 1 1", "0 1010001"), each("n 12 31 9999", "0 12319999"))
family("Every month from 0 to 13, and 99 and 100, both ways: 1 to 12 are good.",
       *(dates(1 <= month <= 12, month, *rest) for month in (*range(14), 99, 100) for rest in ((1, 1), (28, 9999))))
family("Every day from 0 to 33, and 99, both ways: good up to 28 in February 1957, 29 in 1956, 30 in April, 31 in December.",
       *(dates(1 <= day <= last, month, day, year) for month, year, last in (
           (2, 1957, 28), (2, 1956, 29), (4, 1957, 30), (12, 9999, 31)) for day in (*range(34), 99)))
family("The last day of each month, both ways, in a common year and in a leap year: good. The day after it: refused.",
       *(dates(good, month, last + (not good), year) for year in (1957, 2004) for month, last in enumerate(
           (31, 28 + (year == 2004), 31, 30, 31, 30, 31, 31, 30, 31, 30, 31), 1) for good in (True, False)))
family("29 February, both ways: good where 4 divides the year, but where 100 does only if 400 does.",
       *(dates(True, 2, 29, year) for year in LEAP_YEARS), *(dates(False, 2, 29, year) for year in COMMON_YEARS))
family("30 and 31 February, both ways: refused in every year.",
       *(dates(False, 2, day, year) for day in (30, 31) for year in (1, 4, 100, 400, 1900, 1957, 2000, 2004, 9996, 9999)))
family("Years about the borders and the changes of digits, both ways: all but 0 are good.",
       *(dates(year > 0, *rest, year) for rest in ((1, 1), (12, 31)) for year in (
           0, 1, 2, 9, 10, 99, 100, 255, 256, 999, 1000, 1957, 9998, 9999)))
family("Two or three wrong fields, both ways: all refused.", *(dates(False, *date) for date in (
    (0, 0, 0), (0, 0, 1), (0, 1, 0), (1, 0, 0), (13, 32, 0), (13, 0, 1957), (0, 32, 1957), (99, 99, 9999))))
family("Neighbours of good numbers, and larger ones, some with a good date in their low part: all refused.",
       *(each(f"d {number}", "6 0 0 0") for number in (
           1, 10001, 319999, 1000000, 1009999, 1010000, 1020000, 12310000, 12320000, 12320001, 13000000, 2 ** 24 - 1,
           2 ** 24, 2 ** 24 + 3251957, 2 ** 32 + 3251957, 99999999, 10 ** 8, 103251957, 10 ** 18 + 3251957, LIMIT - 1)))
family("Fields far over their borders, then with the sum of a good date, plainly or modulo 2^32 or 2^64: refused.",
       *(each("n %d %d %d" % date, "22 0") for big in (10000, 2 ** 32, 2 ** 58, 2 ** 60, LIMIT - 1) for date in (
           (big, 25, 1957), (3, big, 1957), (3, 25, big), (big, big, 1957), (3, big, big), (big, big, big))),
       *(each("n %d %d %d" % date, "22 0") for date in (
           (0, 101, 1), (0, 100, 10001), (1, 0, 10001), (0, 0, 1010001), (0, 325, 1957), (3, 0, 251957), (0, 100, 1),
           (3, 24, 11957), (2, 125, 1957), (11, 131, 9999), (12, 30, 19999), (1, 100, 1), (12, 31, 10000))),
       *(each(f"n {3 + a} {25 + b} {1957 + c}", "22 0") for a, b, c in (
           (2 ** 8, 0, 0), (0, 2 ** 8, 0), (0, 0, 2 ** 16), (2 ** 32, 0, 0), (0, 2 ** 32, 0), (0, 0, 2 ** 32),
           (2 ** 26, 0, 0), (0, 2 ** 28, 0), (2 ** 58, 0, 0), (0, 2 ** 60, 0), (2 ** 58, 2 ** 60, 0))))

# ---- DER lengths ----------------------------------------------------------------------------
family("No byte is cut. Every byte alone: below 80 its own value, 81 to 84 cut, else malformed.",
       each("l", "cut"), *(each("l", f"length {b} width 1", bytes([b])) for b in range(0x80)),
       *(each("l", "cut" if 0x81 <= b <= 0x84 else "malformed", bytes([b])) for b in range(0x80, 0x100)))
LENGTHS = {0: "00", 1: "01", 127: "7F", 128: "8180", 129: "8181", 255: "81FF", 256: "820100", 0x1234: "821234",
           65535: "82FFFF", 65536: "83010000", 0x123456: "83123456", 2 ** 24 - 1: "83FFFFFF", 2 ** 24: "8401000000",
           0x12345678: "8412345678", 2 ** 31: "8480000000", 2 ** 32 - 1: "84FFFFFFFF"}
family("Lengths in the shortest form, by hand, alone and before bytes; in each wider form up to 84: malformed.",
       *(each("l", f"length {value} width {len(H(form))}", H(form), H(form) + b"\0", H(form) + b"\xFF" * 130)
         for value, form in LENGTHS.items()),
       *(each("l", "malformed", longer, longer + b"\xFF") for value, form in LENGTHS.items()
         for k in range(len(H(form)), 5) for longer in [bytes([0x80 + k]) + value.to_bytes(k, "big")]))
family("81 to 84 with a byte or more missing, whatever is there: cut. 80 and 85 to FF before bytes: malformed.",
       *(each("l", "cut", *(bytes([0x80 + k]) + fill * there for fill in (b"\0", b"\1", b"\x80", b"\xFF")))
         for k in range(1, 5) for there in range(k)),
       *(each("l", "malformed", *(first + H(after) for after in ("00", "01", "0100000000", "000000000001", "7F" * 130)))
         for first in (b"\x80", b"\x85", b"\x86", b"\x88", b"\xC0", b"\xFE", b"\xFF")))


# ---- INTEGERs -------------------------------------------------------------------------------
def both(value, data):
    """Reading and writing of one INTEGER, in exactly enough room."""
    return each("i", f"0 {value}", data) + each(f"j {len(data)} {value}", data)


PUBLISHED = {0: H("020100"), 127: H("02017F"), 128: H("02020080"), -129: H("0202FF7F"), -25357: H("02029CF3")}
SAMPLES = PUBLISHED | {LIMIT - 1: H("02087F" + "FF" * 7), -LIMIT: H("020880" + "00" * 7), -1: H("0201FF")}
EDGES = (0x00, 0x01, 0x7F, 0x80, 0x81, 0xFE, 0xFF)
family("The INTEGERs of Table B.1 and of B.1, copied, both ways.", *itertools.starmap(both, PUBLISHED.items()))
family("One byte of content, all read and some written: below 80 its own value, from 80 on 256 less.",
       *(both(b if b < 128 else b - 256, bytes([2, 1, b]))[:1 + (b in EDGES)] for b in range(256)))
family("Two bytes of content: 256a + b, and 65536 less from a = 80 on; 65 where that lies from -128 to 127.",
       *(each("i", "65 0", data) if -128 <= value <= 127 else both(value, data) for a in EDGES for b in EDGES
         for value, data in [(256 * a + b - (65536 if a >= 128 else 0), bytes([2, 2, a, b]))]))
family("Values beside each border of k bytes, contents as they look, both ways; 65 if of 9 bytes.",
       *(both(value, data) if len(data) <= 10 else each("i", "65 0", data) for k in range(1, 9)
         for o, f, half, whole in [(bytes(k - 1), b"\xFF" * (k - 1), 2 ** (8 * k - 1), 2 ** (8 * k))]
         for value, content in (
             (half - 1, b"\x7F" + f), (half, b"\0\x80" + o), (-half, b"\x80" + o), (-half - 1, b"\xFF\x7F" + f),
             (whole - 1, b"\0\xFF" + f), (whole, b"\1\0" + o), (-whole, b"\xFF\0" + o), (-whole - 1, b"\xFE\xFF" + f))
         for data in [bytes([2, len(content)]) + content]))
family("Different bytes in each place, both ways: the hexadecimal digits, less 256^k where they begin with FE.",
       *(both(int(digits[:2 * k], 16) - less ** k, bytes([2, k]) + H(digits[:2 * k]))
         for digits, less in (("0123456789ABCDEF", 0), ("FEDCBA9876543210", 256)) for k in range(1, 9)))
family("A good INTEGER cut at every place (empty too), with bytes left over, with other tags: 65.",
       *(each("i", "65 0", *(data[:k] for k in range(len(data))), data + b"\0", data + b"\xFF", data * 2, b"\0" + data,
              *(bytes([tag]) + data[1:] for tag in H("0001030A22304282FF"))) for data in SAMPLES.values()))
family("Lengths 00, 9 and over, 80, 81 and on, FF; contents that begin with 00 or FF for nothing: 65.",
       each("i", "65 0", *map(H, (
           "0200", "020000", "020001", "0209010000000000000000", "0209008000000000000000", "0209FF7FFFFFFFFFFFFFFF",
           "0209", "02090000000000000000", "020A01000000000000000000", "027F" + "01" * 127, "0280", "028000",
           "0280010000", "0281", "028100", "02810101", "02817F", "0281020080", "0282000101", "028300000101", "0284",
           "028108" + "7F" * 8, "02818001" + "00" * 127, "0285000000000101", "02FF", "02FF01", "02FF" + "01" * 255))),
       each("i", "65 0", *(bytes([2, 1 + k]) + pair[:1] + pair[1:] * k for k in range(1, 9)
                           for pair in (b"\0\0", b"\0\x7F", b"\xFF\x80", b"\xFF\xFF"))))
family("Room for writing: the whole INTEGER's bytes are enough, one less and fewer are 63, more is fine.",
       *(each(f"j {room} {value}", data if room >= len(data) else 63) for value, data in SAMPLES.items()
         for room in sorted({0, 1, 2, len(data) - 1, len(data), len(data) + 1, 40})))

# ---- Signatures -----------------------------------------------------------------------------
SIZES, GOOD, ONE = (28, 32, 48, 64, 66), H("300702010102020080"), H("020101")
OTHERS = (0, 27, 29, 65, 67, 132, 256 + 28, 2 ** 32 + 28, 2 ** 62 + 28, LIMIT - 1)


def sequence(*contents):
    """The DER form of INTEGERs of contents that are not long, framed without the reference."""
    body = b"".join(bytes([2, len(content)]) + content for content in contents)
    return bytes([0x30, len(body)] if len(body) < 128 else [0x30, 0x81, len(body)]) + body


def two_ways(n, r, s, data):
    """Both ways of one signature, r and s given without their leading zeros, in exactly enough room."""
    raw = r.rjust(n, b"\0") + s.rjust(n, b"\0")
    return each(f"e {n} {len(data)}", data, raw) + each(f"f {n} {2 * n}", raw, data)


def numbers(n):
    """Numbers of up to n bytes without leading zeros, with their contents written out."""
    small = ("", "00"), ("01", "01"), ("7F", "7F"), ("80", "0080"), ("FF", "00FF"), ("0100", "0100"), ("8000", "008000")
    return [(H(raw), H(content)) for raw, content in small] + [
        (b"\xFF" * n, b"\0" + b"\xFF" * n), (b"\x7F" + b"\xFF" * (n - 1),) * 2, (b"\x12" * (n - 2),) * 2,
        (b"\x80" + bytes(n - 1), b"\0\x80" + bytes(n - 1)), (b"\x81" * (n - 1), b"\0" + b"\x81" * (n - 1))]


def long_forms(size):
    """Lengths of a size that are not the shortest, and 80 and FF."""
    return [b"\x80", b"\xFF"] + [bytes([0x80 + k]) + size.to_bytes(k, "big") for k in range(1 + (size > 127), 6)]


family("Table B.2 and the signature of document 01, copied, for all five sizes, both ways.",
       *(two_ways(n, *map(H, strings)) for n in SIZES for strings in (
           ("7F", "01", "300602017F020101"), ("80", "7F", "30070202008002017F"), ("01", "80", "300702010102020080"))))
family("r and s at 0, 1, 127 and so on, all FF, with leading zeros, both ways. Contents written out by hand.",
       *(two_ways(n, r, s, sequence(a, b)) for n in SIZES for k in ((1, 5) if n in (28, 66) else (1,))
         for (r, a), (s, b) in zip(numbers(n), numbers(n)[k:] + numbers(n)[:k])),
       *(two_ways(n, one, two, sequence(one, b"\0" + two))
         for n in SIZES for one in [bytes((7 * k + 16) % 251 for k in range(n))] for two in [b"\xA5" + one[:0:-1]]))
family("A sequence of 126 to 129 bytes, where its length goes from 7F to 81 80, both ways; with other lengths 62.",
       *(two_ways(n, r, s, data) + each(f"f {n} 300", 62, *(b"\x30" + form + data[-k:] for form in long_forms(k)[:5]))
         for n, k in ((64, 126), (64, 127), (64, 128), (66, 127), (66, 128), (66, 129))
         for r, s in [(b"\xFE" * n, b"\x4D" * (k - 5 - n))] for data in [sequence(b"\0" + r, s)]))
family("r and s of m bytes FF read at every size: good when m is at most n, else 62; so too of n + 1 bytes or many.",
       *(each(f"f {n} {2 * n}", (bytes(n - m) + ff) * 2 if m <= n else 62, sequence(b"\0" + ff, b"\0" + ff))
         for m in SIZES for ff in [b"\xFF" * m] for n in SIZES),
       *(each(f"f {n} {room}", 62, sequence(big, b"\1"), sequence(b"\1", big)) for n in SIZES for room in (0, 300)
         for big in (b"\1" + bytes(n), b"\0\x80" + bytes(n), b"\x7F" + b"\xFF" * n, b"\5" * 122)),
       each("f 66 300", 62, H("308201000281FA") + b"\1" * 250 + ONE, H("308201330282012C") + b"\1" * 300 + ONE))
family("Other sizes: 60 before all else, with good and wrong bytes, with room and without.",
       *(each(f"{w} {n} {room}", 60, GOOD, bytes(min(2 * n, 264))) for n in OTHERS for w in "ef" for room in (0, 300)))
family("Raw bytes that are not 2n in number: 61, with room and without.",
       *(each(f"e {n} {room}", 61, b"\1" * k) for n in SIZES for room in (0, 300)
         for k in sorted({0, 1, n, 2 * n - 1, 2 * n + 1, 56, 64, 96, 128, 132} - {2 * n})))
family("Room for DER, its own bytes, and for raw, 2n: one less and fewer are 63, more is fine.",
       *(each(f"{way} {n} {room}", there if room >= len(there) else 63, here) for n in SIZES
         for r, content in numbers(n)[0:8:7] for pair in [(r.rjust(n, b"\0") * 2, sequence(content, content))]
         for way, here, there in (("e", *pair), ("f", *pair[::-1]))
         for room in sorted({0, 7, n, len(there) - 1, len(there), len(there) + 1, 300})))
family("A length of the sequence, of r or of s that is not the shortest, or 80 or FF: 62, with room and without.",
       *(each(f"f 28 {room}", 62, *(b"\x30" + form + GOOD[2:] for form in long_forms(7)), H("30800201010201010000"),
              *(element(0x30, b"\2" + form + GOOD[4:]) for form in long_forms(1)),
              *(element(0x30, GOOD[2:6] + form + GOOD[7:]) for form in long_forms(2))) for room in (0, 56)),
       each("f 66 132", 62, *(element(0x30, b"\2" + form + b"\x55" * 66 + ONE) for form in long_forms(66))))
family("Contents that are negative, begin with 00 or FF for nothing, or are empty, in r, in s and in both: 62.",
       *(each(f"f {n} {2 * n}", 62, sequence(bad, b"\1"), sequence(b"\1", bad)) for n in SIZES for ff in [b"\xFF" * n]
         for bad in (b"\x80" + bytes(n - 1), ff, bytes(n), bytes(n - 1) + b"\1", b"\0" + b"\x7F" * n, b"\0\0" + ff)),
       *(each(f"f 28 {room}", 62, sequence(bad, b"\1"), sequence(b"\1", bad), sequence(bad, bad)) for room in (0, 56)
         for bad in map(H, ("", "80", "FF", "FF7F", "8000", "0000", "0001", "007F", "000080", "FF80", "FFFF"))))
family("No INTEGER, one, three, other bytes inside or outside, no sequence, one sequence too many: 62.",
       *(each(f"f 28 {room}", 62, b"", sequence(), sequence(b"\1"), GOOD[2:], ONE, b"\0", GOOD * 2, b"\0" + GOOD,
              *(element(0x30, body) for body in (GOOD, GOOD + ONE, ONE + GOOD, ONE * 3, GOOD[2:] + b"\2")),
              *(form for more in map(H, "00 FF 0500 0000 0200 0201 020101".split()) for form in (
                  GOOD + more, element(0x30, GOOD[2:] + more), element(0x30, more + GOOD[2:])))) for room in (0, 56)))
LONG = {n: sequence(b"\x4D" * n, b"\0" + b"\xFE" * n) for n in (32, 66)}
family("Signatures cut at every place, and cut at every place with the sequence's length made to fit: 62.",
       *(each(f"f {n} 132", 62, *(data[:k] for k in range(len(data)))) for n, data in ((28, GOOD), *LONG.items())),
       *(each("f 28 56", 62, *(element(0x30, data[2:k]) for k in range(2, len(data))))
         for data in (GOOD, sequence(b"\0" + b"\x99" * 9, b"\x11" * 9))))
family("Each byte of a good signature changed: good in the content of r and first of s to 7F, in its second from 80.",
       *(each("f 28 56", bytes(27) + data[4:5] + bytes(26) + data[7:] if b in good else 62, data)
         for at, good in enumerate(((), (), (), (), range(0x80), (), (), range(0x80), range(0x80, 0x100)))
         for b in H("0001020304050607080A10202230317F808182B0FF") if b != GOOD[at]
         for data in [GOOD[:at] + bytes([b]) + GOOD[at + 1:]]))
family("The choice of hash, as document 01 has it; 60 for every other n.",
       *(each(f"h {n}", {28: "0 224", 32: "0 256", 48: "0 384", 64: "0 512", 66: "0 512"}.get(n, "60 0"))
         for n in sorted({*range(70), *OTHERS, 96, 128, 224, 256, 384, 512, 2 ** 32 + 64})))


# ---- Checks and output ----------------------------------------------------------------------
def answer_to(line):
    """The reference's answer to a line of the file; on 0 the way back must give the input again."""
    found = re.fullmatch(r"([dh] #|n # # #|j # -?#|[li]|[ef] # #)((?: (?:[0-9A-F]{2}){1,32}(?:\*[1-9][0-9]*)?)*)"
                         .replace("#", "(?:0|[1-9][0-9]{0,18})"), line)
    (letter, *words), halves = found[1].split(" "), [run.partition("*") for run in found[2].split()]
    words, data = tuple(map(int, words)), b"".join(H(digits) * int(count or 1) for digits, _, count in halves)
    assert all(-LIMIT <= word < LIMIT for word in words) and len(data) <= 320, line
    if letter in "dnhil":
        value, refusal = {"d": lambda: (date_of(*words), "6 0 0 0"), "n": lambda: (number_of(words), "22 0"),
                          "h": lambda: (HASHES.get(*words), "60 0"), "i": lambda: (read_integer(data), "65 0"),
                          "l": lambda: (None, read_length(data))}[letter]()
        return refusal if value is None else "0 %d %d %d" % value if letter == "d" else f"0 {value}"
    if letter == "j":
        assert read_integer(integer(words[1])) == words[1]
        return filled(integer(words[1]) if len(integer(words[1])) <= words[0] else 63)
    there, back = (to_der, to_raw) if letter == "e" else (to_raw, to_der)
    answer = there(words[0], data, words[1])
    assert isinstance(answer, int) or back(words[0], answer, 300) == data, line
    return filled(answer)


def chapters(part):
    """The one chapter of a part, `numbers` or `signatures`: no name, the lines of its cases, and of their answers."""
    sizes = {0: 0, 1: 365, 4: 366, 1900: 365, 2000: 366, 2004: 366, 2100: 365, 9999: 365}    # days in these years
    assert sizes == {year: sum(date_of(10000 * k + year) is not None for k in range(10000)) for year in sizes}
    kinds = [read_length(k.to_bytes(2, "big"))[:3] for k in range(65536)]
    assert kinds.count("cut") == 3 * 256 and kinds.count("mal") == 128 + 124 * 256    # 82 to 84; 8100 to 817F, others
    odd = [k for k in range(65536) if read_integer(b"\2\2" + k.to_bytes(2, "big")) is None]
    assert odd == [*range(128), *range(65536 - 128, 65536)]
    chosen = [(heading, [case for case in cases if case[0][0] in PARTS[part]]) for heading, cases in FAMILIES]
    members = [member for _, cases in chosen for member in cases]
    for line, answer in members:
        assert answer_to(line) == answer, (line, answer, answer_to(line))   # family and reference agree
    lines = [line for heading, cases in chosen if cases for line in ("# " + heading, *(line for line, _ in cases))]
    assert max(map(len, lines)) <= 300
    yield "", lines, [answer for _, answer in members]
