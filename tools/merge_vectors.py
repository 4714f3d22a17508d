#!/usr/bin/env python3
"""Makes the test vectors of merges and of what they need of their buffers.

It writes crates/vectors_merge/stdin, one call a line, and crates/vectors_merge/stdout, what each call
leaves behind. The expected values come from document 01's rules; the sources are drawn by the rules
of draw_vectors.py, and no floating-point number is computed with here. The sample of the Rust's
answers in oracle/samples follows them.

A line of stdin is a word and numbers of 8 hexadecimal digits each, one blank before each number:

    merge COUNT ENTRIES AT VALUE GIVEN ROW.. LENGTH CODES NUMBERS X..
    need-merge COUNT ENTRIES AT VALUE GIVEN ROW.. LENGTH X..

COUNT is the row number that the call is told, and ENTRIES is how many entries of rows are lent. The
line has GIVEN rows, and the last of them stands for all that follow. The digits of a row are
kind, hidden, depth, mark (two), place (two) and count. Then the entry at AT, where there is one, is
made VALUE. CODES and NUMBERS are the lengths of the buffers, which a need has not. The patterns X,
over and over, fill the LENGTH numbers that are lent.

In stdout a merge's line of stdin is followed by three lines: 'written' with the counts of codes and
numbers, or 'refused' with the refusal's number; and then all places of both buffers. Before a
call each place of the codes is ee and each of the numbers is c29a8000, which is -77.25. The line
of a need is followed by one: 'needed' with the counts, or 'refused'. The needs follow the merges.

    python3 tools/merge_vectors.py            write both files
    python3 tools/merge_vectors.py --check    compare both files; exit 1 where one differs
"""

import re
from fractions import Fraction

from draw_vectors import LIMIT_PATTERN, REFUSED, Call, item_outcome, lent
from float_vectors import A_NAN, ONE, SIGN, Random, of, rounded
from vector_files import keep

# What the vectors program has room for.
LARGEST_ROWS = 258

KINDS = ["sh", "rc", "el", "sr", "gr", "tr", "fl", "st", "gf", "gs", "tm", "rp", "mm", "other"]
SOURCES = ["sh", "rc", "el", "sr"]
AFTER_MERGE = ["fl", "st", "gf", "gs", "tr", "tm", "rp"]

MOST_ROWS = 256
MOST_DEPTH = 8
NOWHERE = 2**32 - 1


# The rules of document 01.

class Item:
    """A row of sound entries, with the items of a group in it."""

    def __init__(self, row):
        self.row = row
        self.kind = KINDS[row[0] - 1]
        self.hidden = row[1] == 1
        self.mode = row[3]
        self.items = []

    def is_empty_group(self):
        return self.kind == "gr" and all(item.hidden or item.adds_nothing() for item in self.items)

    def adds_nothing(self):
        return self.kind == "tr" or self.is_empty_group()


def is_listed(row):
    kind, hidden, _, mark, _, count = row
    if not 1 <= kind <= 14 or hidden > 1:
        return False
    most = {"sh": 1, "mm": 255}.get(KINDS[kind - 1], 0)
    return mark <= most and (count == 0 or KINDS[kind - 1] == "sh")


def nested(rows):
    """The items at depth 0, or none where the nest is broken."""
    lists = [[]]
    for row in rows:
        depth = row[2]
        if depth >= len(lists):
            # Deeper than the row before it: one level, and in a group.
            if depth > len(lists) or not lists[-1] or lists[-1][-1].kind != "gr":
                return None
            lists.append(lists[-1][-1].items)
        del lists[depth + 1:]
        lists[depth].append(Item(row))
    return lists[0]


def joined_sources(items):
    """The sources that are joined, or none where nothing is merged."""
    visible = [item for item in items if not item.hidden]
    merges = [i for i, item in enumerate(visible) if item.kind == "mm"]
    first = next((i for i in merges if visible[i].mode == 1), None)
    if first is None:
        return None
    for i in range(first + 1, len(visible)):
        if visible[i].kind == "mm":
            previous = max(merge for merge in merges if merge < i)
            if not all(item.adds_nothing() for item in visible[previous + 1:i]):
                return None
        elif visible[i].kind not in AFTER_MERGE:
            return None
    before = visible[:first]
    sources = [item for item in before if item.kind in SOURCES]
    if len(sources) < 2 or not all(item in sources or item.adds_nothing() for item in before):
        return None
    return sources


def merge_outcome(count, entries, numbers):
    """The commands of a merge, or the number of its refusal."""
    if count == 0:
        return 1
    if count > MOST_ROWS:
        return 2
    if 6 * count > len(entries):
        return 12
    rows = [entries[i:i + 6] for i in range(0, 6 * count, 6)]
    if any(row[2] > MOST_DEPTH for row in rows):
        return 2
    if not all(is_listed(row) for row in rows):
        return 4
    items = nested(rows)
    if items is None:
        return 6
    sources = joined_sources(items)
    if sources is None:
        return 7
    commands = []
    for source in sources:
        outcome = item_outcome(source.row, numbers)
        if isinstance(outcome, int):
            return outcome
        commands += outcome
    return commands


# Calls.

# A row is written as a '.' for each level, a '-' where it is hidden, its kind and its mark, and then '@'
# with the place and '*' with the count.
WORD = re.compile(r"(\.*)(-?)([a-z]+)(\d*)(?:@(\d+))?(?:\*(\d+))?")


def row_of(word, place):
    """The entries of a row. An sh or rc that has no place has this one, and a path two vertices."""
    dots, hidden, kind, mark, at, count = WORD.fullmatch(word).groups()
    is_placed = kind in ("sh", "rc")
    return [
        KINDS.index(kind) + 1, int(hidden == "-"), len(dots), int(mark or 0),
        int(at) if at else place if is_placed else 0, int(count) if count else 2 if kind == "sh" else 0]


def rows_of(text):
    return [row_of(word, 3 * i) for i, word in enumerate(text.split())]


def packed(row):
    kind, hidden, depth, mark, place, count = row
    assert max(kind, hidden, depth, count) < 16 and max(mark, place) < 256
    return kind << 28 | hidden << 24 | depth << 20 | mark << 12 | place << 4 | count


# A rectangle may start at any of these numbers, and a path too.
USUAL = [of(Fraction(n, 4)) for n in (2, -3, 12, 5, 1, 40, 7)]


def merge(rows, patterns=USUAL, length=70, count=None, entries=None, at=NOWHERE, value=0):
    """A call on rows, which may be written as text. The entry at a place is made another."""
    rows = rows_of(rows) if isinstance(rows, str) else rows
    count = len(rows) if count is None else count
    entries = 6 * len(rows) if entries is None else entries
    assert entries <= 6 * LARGEST_ROWS
    given = [entry for row in rows for entry in row]
    given += rows[-1] * LARGEST_ROWS
    if at < entries:
        given[at] = value
    outcome = merge_outcome(count, given[:entries], lent(patterns, length))
    header = [count, entries, at, value, len(rows)] + [packed(row) for row in rows]
    return Call("merge", header, length, patterns, outcome)


# The vectors.

JOINING = """
    rc rc mm1; sh sh mm1; rc sh mm1; sh1 rc mm1; sh1*3 sh*1 rc mm1; rc rc rc rc rc mm1; rc@9 rc@9 mm1
    tr rc tr tr rc tr mm1; -rc rc -sh rc -el -sr mm1; -fl rc -gs -tm rc -other mm1; -mm1 rc rc -mm mm1 -mm1
    rc -sh1@255*15 rc mm1; rc -rc@255 rc mm1
    rc gr rc mm1; gr .tr .tr rc rc mm1; rc rc gr .-rc .-fl .-mm1 mm1; rc gr .gr ..gr .gr ..tr rc mm1
    rc -gr .rc .mm1 rc mm1; gr .-gr ..rc ..gr ...el .tr rc rc mm1; rc gr .tr .gr ..-gr ...sh ..tr .-el rc gr mm1
    gr .gr ..gr ...gr ....gr .....gr ......gr .......gr ........tr rc rc mm1
    gr .gr ..gr ...gr ....gr .....gr ......gr .......gr ........gr rc rc mm1
    rc rc mm1 fl st gf gs tr tm rp; rc rc mm1 -rc -el -gr .rc -other; rc rc mm1 mm1; rc rc mm1 mm mm2 mm255
    rc rc mm1 tr mm2; rc rc mm1 -rc -fl -gr .sh mm2; rc rc mm1 tr mm3 tr mm2 fl st; rc rc mm1 fl -mm1 st
    rc rc mm1 -gr .mm1 .gr ..-tr mm1; rc rc mm1 mm1 fl -mm2 tr tm; rc rc mm1 -mm1 tr mm1
    -gr .rc .-tr .gr ..rc ..-gr ...fl rc rc mm1
"""

ELLIPSES_JOINING = """
    rc el mm1; el@9 rc mm1; el el@4 mm1; sh1 el@2 tr sh*1 -el@255 gr .-el el@8 mm1 fl; el@66 rc@65 mm1
"""

NOT_JOINING = """
    rc rc; rc rc mm; rc rc mm2; rc rc mm255; rc rc -mm1; rc rc gr .mm1; rc rc -gr .mm1; mm1; rc mm1; rc -rc mm1
    rc mm1 rc; tr gr rc mm1; rc rc mm2 fl; -rc -rc mm1; fl; gr .rc .rc .mm1; mm1 rc rc; el sr
    rc fl rc mm1; st rc rc mm1; rc rc gf mm1; rc rc gs mm1; rc rc tm mm1; rc rc rp mm1; rc rc other mm1
    rc mm2 rc rc mm1; rc mm1 rc rc mm1; mm rc rc mm1; rc rc mm2 mm1; mm1 rc rc mm1
    rc gr .rc rc mm1; rc gr .-rc .rc rc mm1; rc gr .tr .fl rc mm1; rc gr .mm1 rc mm1; rc gr .el rc mm1
    rc gr .other rc mm1; rc gr .sh rc mm1; rc gr .sr rc mm1; rc gr .st rc mm1; rc gr .tm rc mm1; rc gr .rp rc mm1
    rc gr .gr ..rc rc mm1; rc gr .gr ..tr .rc rc mm1; gr .-gr ..rc .gr ..rc rc rc mm1; rc gr .gr ..-tr ..gf rc mm1
    gr .gr ..gr ...gr ....gr .....gr ......gr .......gr ........rc rc rc mm1; rc rc gr .tr .gr ..gr ..mm mm1
    rc rc mm1 rc; rc rc mm1 fl sh; rc rc mm1 el; rc rc mm1 sr; rc rc mm1 gr; rc rc mm1 gr .-rc; rc rc mm1 other
    rc rc mm1 gr .tr mm2; rc rc mm1 -gr .rc fl other
    rc rc mm1 fl mm2; rc rc mm1 tm tr mm1; rc rc mm1 st mm1; rc rc mm1 gf mm1; rc rc mm1 gs mm; rc rc mm1 rp mm1
    rc rc mm1 rc mm1; rc rc mm1 mm2 gf -rc mm2; rc rc mm1 fl -mm1 mm2; rc rc mm1 tr fl tr mm2; rc rc mm1 fl st mm2
"""

BROKEN = """
    .rc rc rc mm1; .-rc rc rc mm1; ..gr rc rc mm1; .gr; rc rc gr ..tr mm1; rc .tr rc mm1; rc rc mm1 .-fl
    rc rc gr .tr ..tr mm1; -gr ..rc rc rc mm1; rc rc -mm1 .tr mm1; gr .gr ...tr rc rc mm1; rc rc mm1 tr .gr ..tr
    gr .-sh ..-sh rc rc mm1; rc rc other .tr mm1; gr .tr rc .tr rc mm1; rc rc mm1 gr .gr .tr ..tr
"""


def written(text, refusal=None, patterns=USUAL):
    """The calls on the rows of a text, between line ends and semicolons. They join, or have this refusal."""
    for part in re.split("[;\n]", text.strip()):
        call = merge(part, patterns)
        assert call.outcome == refusal if refusal else call.codes, part
        yield call


def sources(rng):
    """Sources whose numbers are of all sizes, in the midst of numbers that are not read."""
    for text in ("rc@1 sh@6*2 mm1", "sh1@6*2 rc@1 mm1", "rc@13 -rc@0 sh1@1*3 mm1", "sh@1*1 rc@14 sh1@7*2 mm1"):
        for low, high in ((-3, 12), (-14, 8), (10, 18)):
            patterns = [A_NAN] + [rng.pattern(low, high) for _ in range(18)] + [LIMIT_PATTERN + 1]
            yield merge(text, patterns, 20)
    tenth = rounded(Fraction(1, 10))
    yield merge("rc@0 rc@1 rc@2 mm1", [tenth, tenth | SIGN, LIMIT_PATTERN, LIMIT_PATTERN | SIGN], 7)


def ellipse_sources(rng):
    for text in ("el@1 rc@14 el@5 mm1", "el@15 sh1@1*2 mm1"):
        for low, high in ((-3, 12), (-140, -120), (10, 18)):
            patterns = [A_NAN] + [rng.pattern(low, high) for _ in range(18)] + [LIMIT_PATTERN + 1]
            yield merge(text, patterns, 20)


# Two sound rectangles, and a number at 10 that may be refused.
SPOILT = USUAL[:5] * 2 + [A_NAN]

# Sources with a fault each, for 12 numbers of which the one at 10 is refused: the refusal, the row, and what to
# change in it, if the row cannot be written so.
FAULTS = {
    5: ("sr", None), 1: ("sh@9*0", None), 2: ("sh@9*1", 1025), 12: ("rc@8", None), 3: ("rc@6", None),
}


def source_refusals():
    for pattern in REFUSED:
        yield merge("rc rc@5 mm1", USUAL[:6] + [pattern, ONE, ONE, ONE], 10)
        yield merge("rc sh1@5*1 mm1", USUAL[:6] + [pattern, ONE, ONE, ONE, ONE], 11)
    for word, change in FAULTS.values():
        for text, place in (("%s rc@0 mm1", 0), ("rc@0 %s mm1", 1), ("rc@0 rc@5 tr %s mm1 fl", 3)):
            yield merge(text % word, SPOILT, 12, at=6 * place + 5 if change else NOWHERE, value=change or 0)
    yield merge("sr rc mm1")
    yield merge("rc sh@9*1 mm1", SPOILT, 12, at=11, value=2**32 - 1)
    yield merge("rc sh@9*1 mm1", SPOILT, 12, at=11, value=1024)
    yield from (merge("rc rc@0 mm1", at=10, value=value) for value in (65, 66, 70, 2**31, 2**32 - 5, 2**32 - 1))


def source_orders():
    """The first faulty source counts, and of its faults the first in the order 5, 1, 2, 12, 3."""
    for first in FAULTS:
        for second in FAULTS:
            (one, change), (other, other_change) = FAULTS[first], FAULTS[second]
            if first != second and not (change and other_change):
                at = 5 if change else 17 if other_change else NOWHERE
                yield merge("%s rc@0 %s mm1" % (one, other), SPOILT, 12, at=at, value=change or other_change or 0)
    yield merge("sr@9 rc@0 mm1", SPOILT, 12)
    # An ellipse has four numbers, so that it is drawn where a rectangle would meet the refused one.
    yield from (merge(text, SPOILT, 12) for text in ("el@6 rc@0 mm1", "el@7 rc@0 mm1", "rc@0 el@8 mm1", "el@9 rc@0 mm1"))
    yield merge("sh@255*0 rc@0 mm1", SPOILT, 12)
    yield merge("sh@255*1 rc@0 mm1", SPOILT, 12, at=5, value=1025)
    yield merge("-el rc@6 -rc@8 rc@8 mm1", SPOILT, 12)
    yield from (merge(text, SPOILT, 12) for text in ("rc@6 rc@8 mm1 rc", "rc@6 mm1", "el sr mm2", "el rc@8 fl mm1"))


# A row one level deeper than the most.
TOO_DEEP = "." * (MOST_DEPTH + 1) + "tr"


def row_refusals():
    rows = "rc rc mm1 fl"
    for at, values in (
        (0, (0, 15, 258, 2**31 | 2)), (1, (2, 256, 2**32 - 1)), (3, (1, 256)), (5, (1, 2)), (15, (256, 257)),
        (17, (1,)), (18, (0, 15)), (19, (2,)), (21, (1,)), (23, (7,)),
        (2, (1, 9, 2**32 - 1)), (20, (1, 2, 8, 9, 2**32 - 1)),
    ):
        yield from (merge(rows, [ONE], at=at, value=value) for value in values)
    yield from (merge(text, [ONE]) for text in ("rc rc -rc1 mm1", "rc rc gr .-tr1 mm1", "rc rc -gr .fl*1 mm1"))
    yield from (merge(text, [ONE]) for text in ("rc sh2 mm1", "rc rc -sh3 mm1", "rc rc -mm255 mm1", "rc rc mm1 mm255"))


def row_orders():
    """The refusals of rows in their order: 2 for depth, 4, 6, 7; each over all rows."""
    for text in ("rc1 rc %s mm1", ".rc %s", "rc %s", "el rc %s mm1", "rc1 .rc %s"):
        yield merge(text % TOO_DEEP, [ONE])
    unlisted = (".rc ...rc tr1", "rc tr1", "el rc mm1 tr1", "rc .tr tr1 mm1", "..rc fl*1")
    for text in unlisted + ("rc .tr", "el rc@200 mm1 .tr"):
        yield merge(text, [ONE])


def row_numbers():
    rows = "rc rc mm1 fl"
    for count in (0, 1, 2, 3, 4, 5, 256, 257, 2**32 - 1):
        yield merge(rows, count=count)
        yield merge(rows, [ONE], count=count, entries=17)
    yield from (merge(rows, count=3, entries=entries) for entries in (0, 12, 17, 18, 19, 23))
    yield from (merge(rows, count=count, entries=6 * 258) for count in (256, 257, 258))
    # What stands past the rows is not read.
    for at, value in ((18, 15), (19, 2), (20, 9), (20, 1)):
        yield merge("rc rc mm1 rc", count=3, at=at, value=value)
    yield merge("rc rc mm1 rc", count=4)
    yield from (merge(text, [ONE], count=1, entries=5) for text in ("rc1", TOO_DEEP))
    yield merge("rc1", [ONE], count=0, entries=0)


def hidden_rows():
    """The same merge with another place, mark, count and geometry of what is hidden."""
    for word in ("-sh", "-sh1@255*15", "-sh@3*0", "-mm255", "-rc@255"):
        yield merge("rc@0 %s rc@5 mm1 -mm7 fl" % word, SPOILT, 10)
    for value in (0, 1025, 2**32 - 1):
        yield merge("rc@0 -sh rc@5 mm1", SPOILT, 10, at=11, value=value)
        yield merge("rc@0 -gr .sh rc@5 mm1", SPOILT, 10, at=17, value=value)
    yield merge("rc@0 -sh rc@5 mm1", SPOILT, 10, at=10, value=2**32 - 1)


def random_rows(rng):
    """Rows of which about half join."""
    first = "rc rc rc sh1 tr -rc -mm1 gr gr_.tr gr_.-rc gr_.gr_..tr -gr_.rc gr_.rc".split()
    later = "fl tr tm -rc mm2 -gr_.fl rp mm1".split()
    for _ in range(24):
        before = [first[rng.bits(8) % len(first)] for _ in range(rng.between(2, 6))]
        after = [later[rng.bits(8) % len(later)] for _ in range(rng.between(0, 3))]
        yield merge(" ".join(before + ["mm1"] + after).replace("_", " "))


def vectors():
    """Every call, with how many places the buffers have beyond what is needed."""
    rng = Random(20240505)
    for text in ("rc rc mm1", "sh1*3 rc mm1 fl"):
        call = merge(text)
        yield from ((call, *more) for more in ((0, 0), (2, 3), (-1, 0), (0, -1), (-1, 9), (9, -1), (-99, -99)))
        # There is room for the first source alone.
        yield from ((call, *more) for more in ((-5, -8), (0, -8), (-5, 0)))
    for call in list(written(JOINING)) + list(sources(rng)):
        yield (call, rng.between(0, 1), rng.between(0, 2))
    other = Random(20261116)
    for call in list(written(ELLIPSES_JOINING)) + list(ellipse_sources(other)):
        yield (call, other.between(0, 1), other.between(0, 2))
    for calls in (
        written(NOT_JOINING, 7, [ONE]), written(BROKEN, 6, [ONE]), source_refusals(), source_orders(), row_refusals(),
        row_orders(), row_numbers(), hidden_rows(), random_rows(rng),
    ):
        yield from ((call, 1, 2) for call in calls)
    yield (merge("rc rc@6 mm1", SPOILT, 12), 0, 0)
    yield (merge("rc fl rc mm1"), 0, 0)


def texts():
    """What the two files hold."""
    merges = list(vectors())
    pairs = dict.fromkeys(call.texts(*more) for call, *more in merges)
    pairs.update(dict.fromkeys(call.need_texts() for call, *_ in merges))
    return "".join(line for line, _ in pairs), "".join(answer for _, answer in pairs)


if __name__ == "__main__":
    keep("merge", *texts(), __doc__)
