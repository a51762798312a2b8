"""Reference for the walk over features and for extension tags (document 02, Ticket 2), and the lines that tell them.

What a seal is refused with, where its first feature begins and which features it has are told by the reading in
seals.py. A step knows nothing of that reading. It reads no length either: all lengths of values that a string of cases
can hold are written out beforehand, and the one that stands behind the tag is looked up among them. Whatever is wrong
with a length, cut, malformed, not the shortest or too great, it is none of these.

`by_items` makes the same step once more with the items of seals.py, and `check_walk` compares the walk with the rows.
"""
import collections

from der_cases import length_bytes, with_bytes
from seals import BYTE, CUT, der_length, fixed, judge, one_of

ROOM = 8192                             # the program's for a seal; the strings of cases are shorter
NEITHER, MAIN, EXTENSION = range(3)     # which seal a look-up speaks of

# What opening a walk, a step of it and a look-up answer.
Start = collections.namedtuple("Start", "number place at")
Step = collections.namedtuple("Step", "number place tag tag_place value_place value_length at")
Where = collections.namedtuple("Where", "number place which value_place value_length")
END = Step(51, 0, 0, 0, 0, 0, 0)
IN_NEITHER = Where(50, 0, NEITHER, 0, 0)

# Lengths as they are written, by the byte of the version.
FORMS = {2: {bytes([size]): size for size in range(256)}, 3: {length_bytes(size): size for size in range(ROOM)}}
WIDEST = max(map(len, FORMS[3]))


# ---- The walk -------------------------------------------------------------------------------
def opening(seal):
    """The reader's verdict, and the place where the header ends."""
    answer = judge(seal)
    return Start(answer.number, answer.place, answer.content.ends[0] if answer.number == 0 else 0)


def found(tag, tag_place, value_place, value_length):
    """The step over a feature: the next one is made where its value ends."""
    return Step(0, 0, tag, tag_place, value_place, value_length, value_place + value_length)


def step(data, at):
    """One step at a place of a byte string."""
    if at == 0 or at >= len(data) or len(data) < 2 or data[1] not in FORMS or data[at] == 0xFF:
        return END
    forms, behind = FORMS[data[1]], data[at + 1:]
    form = next((behind[:width] for width in range(1, WIDEST + 1) if behind[:width] in forms), None)
    if form is None or len(form) + forms[form] > len(behind):
        return END
    return found(data[at], at, at + 1 + len(form), forms[form])


def whole(seal):
    """All steps from the opening on, each where the one before it ended, until 51 and four times more."""
    steps, at = [], opening(seal).at
    while steps[-5:].count(END) < 5:
        steps.append(step(seal, at))
        at = steps[-1].at
    return steps


# ---- The look-up ----------------------------------------------------------------------------
def shown(main, extension, tag):
    """The verdicts in their order, then the features: those of the extension first."""
    verdicts = {MAIN: judge(main), EXTENSION: judge(extension)}
    for which, answer in verdicts.items():
        if answer.number:
            return Where(answer.number, answer.place, which, 0, 0)
    rows = [(which, row) for which in (EXTENSION, MAIN) for row in verdicts[which].content.rows if row.tag == tag]
    if not rows:
        return IN_NEITHER
    which, row = rows[0]
    return Where(0, 0, which, row.value_place, row.value_length)


# ---- Checks ---------------------------------------------------------------------------------
TAG = one_of({b: b for b in range(255)})


def by_items(data, at):
    """A step, with the items that the reading in seals.py asks for."""
    length = {b"\2": BYTE, b"\3": der_length}.get(data[1:2])
    tag = TAG(data[at:])
    if not at or not length or tag == CUT or tag[0] is None:
        return END
    size = length(data[at + 1:])
    if size == CUT or size[0] is None or fixed(size[0], bytes)(data[at + 1 + size[1]:]) == CUT:
        return END
    return found(tag[0], at, at + 1 + size[1], size[0])


def steps_of(answer):
    """The steps that a walk must make by what a reader answers: the rows in their order, and five times 51."""
    return [found(*row) for row in (answer.content.rows if answer.number == 0 else ())] + [END] * 5


def check_walk(seal, answer):
    """The walk gives exactly the rows of the full reading, and a refused seal opens none."""
    at = answer.content.ends[0] if answer.number == 0 else 0
    assert opening(seal) == (answer.number, answer.place, at), (seal.hex(), answer, opening(seal))
    assert whole(seal) == steps_of(answer), (seal.hex(), answer, whole(seal))


def by_walks(main, extension, tag):
    """A look-up by the two walks alone: the step that is made over this tag, the extension's last word counting."""
    starts = opening(main), opening(extension)
    for which, start in zip((MAIN, EXTENSION), starts):
        if start.number:
            return Where(start.number, start.place, which, 0, 0)
    where = IN_NEITHER
    for which, seal in ((MAIN, main), (EXTENSION, extension)):
        for made in whole(seal):
            if made != END and made.tag == tag:
                where = Where(0, 0, which, made.value_place, made.value_length)
    return where


# ---- The lines ------------------------------------------------------------------------------
def line_of(answer, data):
    """The numbers of a step or of a look-up, and the bytes of the value in what it was made on."""
    return with_bytes(" ".join(map(str, answer)), data[answer.value_place:][:answer.value_length])


def features_text(answer):
    """What the program `features` prints: a line a feature, or the one line of a refusal."""
    if answer.number:
        return f"refused {answer.number} at {answer.place}\n"
    return "".join(f"feature {row.tag} at {row.tag_place} value at {row.value_place} length {row.value_length}\n"
                   for row in answer.content.rows)
