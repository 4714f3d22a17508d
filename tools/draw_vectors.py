#!/usr/bin/env python3
"""Makes the test vectors of drawing and of what it needs of its buffers.

It writes crates/vectors_draw/stdin, one call a line, and crates/vectors_draw/stdout, what each call
leaves behind. The expected values come from document 01's rules on exact numbers, and for ellipses
from document 02's; the roundings are those of float_vectors.py, and no floating-point number is
computed with here. The sample of the Rust's answers in oracle/samples follows them.

A line of stdin is a word and numbers of 8 hexadecimal digits each, one blank before each number:

    path CLOSED COUNT LENGTH CODES NUMBERS X..
    item ENTRIES KIND HIDDEN DEPTH MARK PLACE COUNT LENGTH CODES NUMBERS X..
    need-path CLOSED COUNT LENGTH X..
    need-item ENTRIES KIND HIDDEN DEPTH MARK PLACE COUNT LENGTH X..

CODES and NUMBERS are the lengths of the buffers, which a need has not. The patterns X, over and
over, fill the LENGTH numbers that are lent. Of a row the first ENTRIES entries are lent.

In stdout a drawing's line of stdin is followed by three lines: 'written' with the counts of codes
and numbers, or 'refused' with the refusal's number; and then all places of both buffers. Before a
call each place of the codes is ee and each of the numbers is c29a8000, which is -77.25. The line
of a need is followed by one: 'needed' with the counts, or 'refused'. The needs follow the drawings.

    python3 tools/draw_vectors.py            write both files
    python3 tools/draw_vectors.py --check    compare both files; exit 1 where one differs
"""

from fractions import Fraction

from float_vectors import (
    A_NAN, INFINITY, LARGEST, LARGEST_SUBNORMAL, NAN, ONE, SIGN, SMALLEST_NORMAL, TINIEST, ZERO,
    Random, absolute, add, around, both_signs, clamp, decode, encode, less, minimum, mul_add, of, rounded,
)
from vector_files import keep

# What the vectors program has room for.
LARGEST_LIST = 6150
LARGEST_CODES = 1030
LARGEST_NUMBERS = 6150

OLD_CODE = 0xEE
OLD_NUMBER = of(Fraction(-309, 4))

MOVE, LINE, CUBIC, CLOSE = 0, 1, 2, 3
SH, RC, EL, SR = 1, 2, 3, 4

MOST_VERTICES = 1024
LIMIT = decode(of(2**20))
NEARNESS = decode(rounded(Fraction(1, 10000)))
LEAST_RADIUS = decode(of(Fraction(1, 2**23)))
KAPPA = decode(rounded(Fraction(5522848, 10**7)))
HALF = decode(of(Fraction(1, 2)))
MINUS_HALF = decode(of(Fraction(-1, 2)))


# The rules of document 01, and of document 02 for ellipses. A command is its code and its numbers.

def sub(x, y):
    return add(x, (1 - y[0], y[1]))


def mul(x, y):
    return mul_add(x, y, (x[0] ^ y[0], Fraction(0)))


def at_most(x, limit):
    return x != NAN and not less(limit, x)


def near(point, other):
    return all(at_most(absolute(sub(x, y)), NEARNESS) for x, y in zip(point, other))


def segment(vertex, following):
    start, out_tangent = vertex[0:2], vertex[4:6]
    end, in_tangent = following[0:2], following[2:4]
    first = [add(x, t) for x, t in zip(start, out_tangent)]
    second = [add(x, t) for x, t in zip(end, in_tangent)]
    if near(start, first) and near(second, end):
        return (LINE, end)
    return (CUBIC, first + second + end)


def bezier_path(closed, numbers):
    vertices = [numbers[i:i + 6] for i in range(0, len(numbers), 6)]
    first = vertices[0][0:2]
    if len(vertices) == 1:
        return [(MOVE, first), (LINE, first)]
    commands = [(MOVE, first)] + [segment(v, w) for v, w in zip(vertices, vertices[1:])]
    if closed:
        commands += [segment(vertices[-1], vertices[0]), (CLOSE, [])]
    return commands


def sides(x, y, width, height):
    """The sides of the box: left, top, right and bottom."""
    left, top = mul_add(MINUS_HALF, width, x), mul_add(MINUS_HALF, height, y)
    return left, top, add(left, width), add(top, height)


def rect_path(numbers):
    x, y, width, height, roundness = numbers
    width, height = absolute(width), absolute(height)
    left, top, right, bottom = sides(x, y, width, height)
    radius = clamp(roundness, decode(ZERO), mul(minimum(width, height), HALF))
    if at_most(radius, LEAST_RADIUS):
        corners = [[left, top], [right, top], [right, bottom], [left, bottom]]
        return [(MOVE, corners[0])] + [(LINE, corner) for corner in corners[1:]] + [(CLOSE, [])]
    return round_rect_path(left, top, right, bottom, radius)


def round_rect_path(left, top, right, bottom, radius):
    """Four sides and four corners. A name ends in 1 a radius from its side, in 2 a tangent further out."""
    tangent = mul(radius, KAPPA)
    left1, top1, right1, bottom1 = add(left, radius), add(top, radius), sub(right, radius), sub(bottom, radius)
    left2, top2, right2, bottom2 = sub(left1, tangent), sub(top1, tangent), add(right1, tangent), add(bottom1, tangent)
    return [
        (MOVE, [left1, top]),
        (LINE, [right1, top]),
        (CUBIC, [right2, top, right, top2, right, top1]),
        (LINE, [right, bottom1]),
        (CUBIC, [right, bottom2, right2, bottom, right1, bottom]),
        (LINE, [left1, bottom]),
        (CUBIC, [left2, bottom, left, bottom2, left, bottom1]),
        (LINE, [left, top1]),
        (CUBIC, [left, top2, left2, top, left1, top]),
        (CLOSE, []),
    ]


def ellipse_path(numbers):
    """The four ends in walking order, each with its tangent's ends: the one that is met first, and the other."""
    x, y, width, height = numbers
    width, height = absolute(width), absolute(height)
    left, top, right, bottom = sides(x, y, width, height)
    across, down = mul(mul(HALF, width), KAPPA), mul(mul(HALF, height), KAPPA)
    ends = [
        ([sub(x, across), top], [x, top], [add(x, across), top]),
        ([right, sub(y, down)], [right, y], [right, add(y, down)]),
        ([add(x, across), bottom], [x, bottom], [sub(x, across), bottom]),
        ([left, add(y, down)], [left, y], [left, sub(y, down)]),
    ]
    curves = [(CUBIC, start[2] + end[0] + end[1]) for start, end in zip(ends, ends[1:] + ends[:1])]
    return [(MOVE, ends[0][1])] + curves + [(CLOSE, [])]


def all_within(numbers):
    return all(at_most(absolute(x), LIMIT) for x in numbers)


def path_outcome(closed, count, numbers):
    """The commands of a vertex list, or the number of its refusal."""
    if count == 0:
        return 1
    if count > MOST_VERTICES:
        return 2
    if closed not in (0, 1):
        return 4
    if 6 * count > len(numbers):
        return 12
    if not all_within(numbers[:6 * count]):
        return 3
    return bezier_path(closed, numbers[:6 * count])


def item_outcome(row, numbers):
    """The commands of an item row, or the number of its refusal."""
    if len(row) < 6:
        return 12
    kind, hidden, _, mark, place, count = row
    marks, counts = ((0, 1), range(2**32)) if kind == SH else ((0,), (0,))
    if kind not in (SH, RC, EL, SR) or hidden not in (0, 1) or mark not in marks or count not in counts:
        return 4
    if kind == SR:
        return 5
    if kind == SH and count == 0:
        return 1
    if count > MOST_VERTICES:
        return 2
    needed = {SH: 6 * count, RC: 5, EL: 4}[kind]
    if place + needed > len(numbers):
        return 12
    numbers = numbers[place:place + needed]
    if not all_within(numbers):
        return 3
    if kind == SH:
        return bezier_path(mark, numbers)
    return rect_path(numbers) if kind == RC else ellipse_path(numbers)


# Calls: the word and the numbers before the lengths, the lengths, the patterns given, and the outcome.

class Call:
    def __init__(self, word, header, length, patterns, outcome):
        self.head = [word] + ["%08x" % n for n in header]
        self.length = length
        self.patterns = patterns
        self.outcome = outcome
        commands = [] if isinstance(outcome, int) else outcome
        self.codes = [code for code, _ in commands]
        self.numbers = [encode(x) for _, numbers in commands for x in numbers]

    def texts(self, more_codes, more_numbers):
        """A line of stdin and its lines of stdout; the buffers have so many places more than are needed."""
        codes = max(len(self.codes) + more_codes, 0)
        numbers = max(len(self.numbers) + more_numbers, 0)
        assert self.length <= LARGEST_LIST and codes <= LARGEST_CODES and numbers <= LARGEST_NUMBERS
        line = " ".join(self.head + ["%08x" % n for n in [self.length, codes, numbers] + self.patterns]) + "\n"
        refusal = self.outcome if isinstance(self.outcome, int) else None
        if refusal is None and (codes < len(self.codes) or numbers < len(self.numbers)):
            refusal = 11
        written = ([], []) if refusal else (self.codes, self.numbers)
        places = (written[0] + [OLD_CODE] * (codes - len(written[0])),
                  written[1] + [OLD_NUMBER] * (numbers - len(written[1])))
        told = "refused %d" % refusal if refusal else "written %d %d" % (len(self.codes), len(self.numbers))
        return line, "%s%s\ncodes%s\nnumbers%s\n" % (
            line, told, "".join(" %02x" % code for code in places[0]), "".join(" %08x" % x for x in places[1]))

    def need_texts(self):
        """The line of stdin that asks what the call needs, and its lines of stdout."""
        assert self.length <= LARGEST_LIST
        line = "need-" + " ".join(self.head + ["%08x" % n for n in [self.length] + self.patterns]) + "\n"
        is_refused = isinstance(self.outcome, int)
        told = "refused %d" % self.outcome if is_refused else "needed %d %d" % (len(self.codes), len(self.numbers))
        return line, "%s%s\n" % (line, told)


def lent(patterns, length):
    return [decode(patterns[i % len(patterns)]) if patterns else decode(ZERO) for i in range(length)]


def path(closed, count, patterns, length=None):
    length = len(patterns) if length is None else length
    return Call("path", [closed, count], length, patterns, path_outcome(closed, count, lent(patterns, length)))


def item(row, patterns, length=None, entries=6):
    length = len(patterns) if length is None else length
    outcome = item_outcome(row[:entries], lent(patterns, length))
    return Call("item", [entries] + row, length, patterns, outcome)


def vertices(*points):
    """The patterns of vertices without tangents."""
    return [pattern for x, y in points for pattern in (of(x), of(y), ZERO, ZERO, ZERO, ZERO)]


def exactly(*numbers):
    return [of(Fraction(n)) for n in numbers]


# The vectors.

TRIANGLE = vertices((0, 0), (3, 0), (3, 4))
TENTH = rounded(Fraction(1, 10))
SHORT, LONG = rounded(Fraction(1, 10000)), rounded(Fraction(2, 10000))
LIMIT_PATTERN = of(2**20)
REFUSED = [LIMIT_PATTERN + 1, LIMIT_PATTERN + 1 | SIGN, LARGEST, INFINITY, INFINITY | SIGN, A_NAN]


def plates():
    """The worked plates of document 01, shapes like them, and two ellipses worked by hand."""
    yield path(1, 3, TRIANGLE)
    yield path(0, 3, TRIANGLE)
    yield path(0, 2, vertices((0, 0), (3, 4)))
    yield path(0, 1, vertices((5, -6)))
    yield path(1, 1, [of(5), of(-6), ONE, ONE, ONE, ONE])
    yield path(0, 2, [ZERO, ZERO, ZERO, ZERO, SHORT, ZERO] + vertices((3, 4)))
    yield path(0, 2, [ZERO, ZERO, ZERO, ZERO, LONG, ZERO] + vertices((3, 4)))
    yield item([RC, 0, 0, 0, 0, 0], exactly(0, 0, 3, 4, 0))
    yield item([RC, 0, 0, 0, 0, 0], exactly(0, 0, 8, 4, 1))
    yield item([SH, 0, 0, 1, 0, 3], TRIANGLE)
    yield path(1, 2, TRIANGLE[:12] + [A_NAN] * 6)
    yield item([EL, 0, 0, 0, 0, 0], exactly(0, 0, 2, 4))
    yield item([EL, 0, 0, 0, 0, 0], exactly(5, 6, 0, -2))


def tangents():
    """Segments whose tangents are around the length at which a line becomes a curve."""
    for place in (4, 5, 8, 9):
        for tangent in both_signs(around(SHORT) + [LONG]):
            patterns = vertices((0, 0), (0, 0))
            patterns[place] = tangent
            yield path(0, 2, patterns)
    for x in (of(512), of(1024) - 1, of(-2000), TENTH, LIMIT_PATTERN):
        for quarters in (1, 2, 4, 6, 16):
            unit = Fraction(1, 2**14)
            patterns = [x, ZERO, of(-unit * quarters / 4), ZERO, of(unit * quarters / 4), ZERO]
            yield path(1, 2, patterns + [ONE, x, ZERO, of(unit * quarters / 2), SIGN, of(-unit * quarters)])
    for tangent in both_signs([ZERO, TINIEST, LARGEST_SUBNORMAL, SMALLEST_NORMAL]):
        yield path(1, 2, [SIGN, TINIEST, tangent, ZERO, tangent, SIGN, ZERO, SIGN, SIGN, tangent, ZERO, tangent])
    yield path(1, 2, [LIMIT_PATTERN | s for s in (0, SIGN, 0, SIGN, 0, SIGN, SIGN, 0, SIGN, 0, SIGN, 0)])


def curves(rng):
    for count in (1, 2, 2, 3, 3, 4, 5):
        patterns = []
        for _ in range(count):
            patterns += [rng.pattern(-3, 12), rng.pattern(-3, 12)]
            patterns += [ZERO] * 4 if rng.bits(1) else [rng.pattern(-14, 8) for _ in range(4)]
        yield path(rng.bits(1), count, patterns)
        yield item([SH, rng.bits(1), rng.bits(32), rng.bits(1), 2, count], [A_NAN, LARGEST] + patterns + [INFINITY])


def rectangles(rng):
    row = [RC, 0, 0, 0, 0, 0]
    half = of(Fraction(3, 2))
    radii = both_signs([ZERO, TINIEST, of(1), of(100)]) + around(of(Fraction(1, 2**23))) + around(half)
    yield from (item(row, exactly(1, 2, 3, -4) + [radius]) for radius in radii)
    # Half of a subnormal width is not exact, so that a product rounded by itself shows.
    sizes = [TINIEST, TINIEST | SIGN, 3, LARGEST_SUBNORMAL, SMALLEST_NORMAL + 1]
    yield from (item(row, [x, x, size, size, ONE]) for x in (ZERO, SIGN, TINIEST, 2, 3 | SIGN) for size in sizes)
    # The right side is left + width, and not the centre and half the width.
    for _ in range(6):
        yield item(row, [rng.pattern(17, 19), rng.pattern(-4, 4), rng.pattern(-8, 6), rng.pattern(-8, 6), ZERO])
    for _ in range(10):
        yield item(row, [rng.pattern(-2, 10) for _ in range(4)] + [rng.pattern(-4, 8) % SIGN])
    yield item(row, [LIMIT_PATTERN | SIGN] * 4 + [LIMIT_PATTERN])


def ellipses(rng):
    row = [EL, 0, 0, 0, 0, 0]
    # The half of an odd subnormal side is rounded before the tangent: 13 units have the half 6 and the tangent 3.
    sides = [13, TINIEST, TINIEST | SIGN, 3, 2, LARGEST_SUBNORMAL, SMALLEST_NORMAL + 1]
    yield from (item(row, [x, y, side, 13]) for x, y in ((ZERO, SIGN), (SIGN, TINIEST), (2, 3 | SIGN)) for side in sides)
    # Flat ones and points; an end keeps the sign of a zero centre, and a control point may lose it.
    for width, height in ((ZERO, ONE), (ONE, SIGN), (ZERO, SIGN), (SIGN, SIGN), (SIGN, of(-3))):
        yield from (item(row, [x, y, width, height]) for x, y in ((SIGN, ZERO), (SIGN, SIGN), (TENTH, SIGN)))
    # The right side is left + width, and not the centre and half the width.
    for _ in range(6):
        yield item(row, [rng.pattern(17, 19), rng.pattern(-4, 4), rng.pattern(-8, 6), rng.pattern(-8, 6)])
    # A tangent that is rounded by itself, and again where it is added.
    for _ in range(12):
        yield item(row, [rng.pattern(-2, 10) for _ in range(4)])
    yield item(row, [rng.pattern(-140, -120) for _ in range(4)])
    yield item(row, [LIMIT_PATTERN | SIGN] * 4)
    yield item(row, [LIMIT_PATTERN - 1, LIMIT_PATTERN | SIGN, LIMIT_PATTERN, LIMIT_PATTERN - 1])


def rows():
    """Rows that are drawn: hidden, deep, with numbers around theirs that are not read."""
    patterns = [A_NAN] + exactly(0, 0, 3, 4, 0) + [INFINITY] + TRIANGLE + [A_NAN]
    yield item([RC, 1, 2**32 - 1, 0, 1, 0], patterns)
    yield item([SH, 0, 9, 0, 7, 3], patterns)
    yield item([SH, 1, 0, 1, 7, 2], patterns, length=19)
    yield item([EL, 1, 2**32 - 1, 0, 1, 0], patterns, length=5)
    yield item([EL, 0, 1, 0, 2, 0], patterns)


def path_refusals():
    yield path(0, 0, TRIANGLE)
    yield path(0, 1025, TRIANGLE)
    yield path(0, 1025, TRIANGLE, length=6150)
    yield path(0, 2**32 - 1, TRIANGLE)
    yield from (path(closed, 3, TRIANGLE) for closed in (2, 256, 2**32 - 1))
    yield from (path(1, 3, TRIANGLE, length) for length in (17, 12, 0))
    for at, pattern in enumerate(REFUSED):
        yield path(1, 3, [pattern if i == 3 * at + 1 else p for i, p in enumerate(TRIANGLE)])
    yield path(1, 3, TRIANGLE[:-1] + [A_NAN])
    bad = [A_NAN] + TRIANGLE[1:]
    yield path(1, 3, bad)
    yield path(2, 0, bad, length=0)
    yield path(2, 1025, bad, length=0)
    yield path(2, 3, bad, length=17)
    yield path(1, 3, bad, length=17)


REFUSED_ROWS = [
    [0, 0, 0, 0, 0, 0], [5, 0, 0, 0, 0, 0], [14, 0, 0, 0, 0, 0], [15, 0, 0, 0, 0, 0], [257, 0, 0, 0, 5, 3],
    [RC, 2, 0, 0, 0, 0], [SH, 256, 0, 0, 5, 3], [SH, 0, 0, 2, 5, 3], [RC, 0, 0, 1, 0, 0], [RC, 0, 0, 0, 0, 3],
    [SR, 0, 0, 0, 0, 0], [SR, 1, 0, 0, 0, 0], [SR, 0, 0, 1, 0, 0], [SR, 0, 0, 0, 0, 1], [SR, 2, 0, 0, 0, 0],
    [EL, 0, 0, 1, 0, 0], [EL, 0, 0, 0, 0, 1], [EL, 2, 0, 0, 0, 0], [EL, 0, 0, 1, 99, 4],
    [EL, 0, 0, 0, 20, 0], [EL, 0, 0, 0, 23, 0], [EL, 0, 0, 0, 2**32 - 1, 0],
    [SR, 0, 0, 0, 99, 0], [SH, 0, 0, 1, 5, 0], [SH, 2, 0, 1, 5, 0], [SH, 0, 0, 2, 5, 0], [SH, 0, 0, 1, 99, 0],
    [SH, 0, 0, 1, 5, 1025], [SH, 0, 0, 2, 5, 1025], [SH, 0, 0, 1, 99, 2**32 - 1],
    [SH, 0, 0, 1, 6, 3], [RC, 0, 0, 0, 19, 0], [RC, 0, 0, 0, 2**32 - 1, 0],
]


def row_refusals():
    patterns = exactly(0, 0, 3, 4, 0) + TRIANGLE
    for row in REFUSED_ROWS:
        yield item(row, patterns)
    yield from (item([RC, 0, 0, 0, 0, 0], patterns, entries=entries) for entries in (0, 1, 5))
    yield item([0, 2, 0, 2, 0, 0], patterns, entries=5)
    for at, pattern in enumerate(REFUSED):
        yield item([RC, 0, 0, 0, 1, 0], [pattern if i == 1 + at % 5 else p for i, p in enumerate(patterns)])
        yield item([EL, 0, 0, 0, 1, 0], [pattern if i == 1 + at % 4 else p for i, p in enumerate(patterns)])
    yield item([SH, 0, 0, 1, 5, 3], patterns[:-1] + [A_NAN])
    yield item([SH, 0, 0, 1, 5, 3], [A_NAN] * 22)
    yield item([SH, 0, 0, 0, 6, 1025], TRIANGLE, length=6150)


# Numbers of vertices at the limits and beside them, and large ones whose low bits are those of a small one.
COUNTS = [2, 3, 255, 256, 257, 1023, 1024, 1025, 1026, 2**16, 2**16 + 1, 2**31 + 3, 2**32 - 1]


def long_lists():
    """Lists of cubics alone, which need the most, and the longest list with lines."""
    most, curve, line = MOST_VERTICES, exactly(1, 2, -3, 4, 5, 6), exactly(1, 2, 0, 0, 0, 0)
    for count in COUNTS:
        yield path(1, count, curve, min(6 * count, LARGEST_LIST))
    yield path(0, most, curve, 6 * most)
    yield item([SH, 0, 0, 1, 6, most], curve, LARGEST_LIST)
    yield item([SH, 0, 0, 1, 7, most], curve, LARGEST_LIST)
    yield from (path(closed, most, patterns, 6 * most) for closed in (0, 1) for patterns in (line, line + curve + line))


def vectors():
    """Every drawing, with how many places the buffers have beyond what is needed."""
    rng = Random(20240301)
    for call in list(plates()) + list(rows()):
        yield from ((call, *more) for more in ((0, 0), (2, 3), (-1, 0), (0, -1), (-1, 9), (9, -1), (-99, -99)))
    for call in list(tangents()) + list(curves(rng)) + list(rectangles(rng)):
        yield (call, rng.between(0, 1), rng.between(0, 2))
    rng = Random(20261116)
    for call in ellipses(rng):
        yield (call, rng.between(0, 1), rng.between(0, 2))
    for call in list(path_refusals()) + list(row_refusals()):
        yield (call, 1, 2)
    yield (path(2, 3, TRIANGLE), 0, 0)
    # The buffers of the second have no places, since its answer is the same but for the closing segment.
    most, length = MOST_VERTICES, 6 * MOST_VERTICES
    yield (path(1, most, TRIANGLE, length), 0, 0)
    yield (item([SH, 0, 0, 0, 0, most], TRIANGLE, length), -most, -2 * most)


def texts():
    """What the two files hold."""
    drawings = list(vectors())
    pairs = dict.fromkeys(call.texts(*more) for call, *more in drawings)
    pairs.update(dict.fromkeys(call.need_texts() for call in [call for call, *_ in drawings] + list(long_lists())))
    return "".join(line for line, _ in pairs), "".join(answer for _, answer in pairs)


if __name__ == "__main__":
    keep("draw", *texts(), __doc__)
