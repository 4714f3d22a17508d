#!/usr/bin/env python3
"""Makes the test vectors of repeaters.

It writes crates/vectors_repeater/stdin, one call a line, and crates/vectors_repeater/stdout, what
each call answers. The expected values come from document 01's rules, and document 02's for turned
copies, on exact numbers; the roundings are those of float_vectors.py, the sines those of
sine_vectors.py, and no floating-point number is computed with here. The sample of the Rust's answers
in oracle/samples follows them.

A line of stdin is a word and numbers of 8 hexadecimal digits each, one blank before each number:

    order MODE PLACES X..
    copy MODE COPY PLACES X..
    turn ROTATION..

PLACES is the length of the buffer. The eleven patterns X are the copies, the offset, the anchor,
the position and the scale of two numbers each, the rotation, the start opacity and the end opacity.
Each ROTATION, of which a line has at most 64, stands for copy 1 of two copies that turn by it and do
nothing else.

In stdout each line of stdin is followed by its answer. For an order and a copy it has two lines. The
first is 'refused' with the refusal's number, or 'written' with the count. The second is 'places' with
what all places of the buffer hold after the call. Before it each place is eeeeeeee for an order, and
c29a8000, which is -77.25, for the numbers of a copy. For turns it is a line of 'places' with the
places of a, b, c and d after each call.

    python3 tools/repeater_vectors.py            write both files
    python3 tools/repeater_vectors.py --check    compare both files; exit 1 where one differs
"""

from fractions import Fraction
from functools import cache

from draw_vectors import LIMIT_PATTERN, OLD_NUMBER, all_within, at_most, mul as mul_numbers, sub
from float_vectors import (
    A_NAN, INFINITE, INFINITY, LARGEST, NAN, ONE, SIGN, SMALLEST_NORMAL, TINIEST, ZERO,
    Random, absolute, add, around, both_signs, ceil, decode, div, encode, floor, less, maximum, mul_add, of,
    round_half_away, rounded, signed, size_of,
)
from sine_vectors import DIRECTIONS, TURN
from trim_vectors import nearest
from vector_files import keep

OLD_PLACE = 0xEEEEEEEE

# The most rotations of a line.
MOST_TURNS = 64

NOUGHT, UNIT, MINUS_UNIT = decode(ZERO), decode(ONE), decode(ONE | SIGN)
HUNDRED, SIXTEEN = decode(of(100)), decode(of(16))
MOST = decode(of(4096))
EPSILON_PATTERN = of(Fraction(1, 2**23))
EPSILON = decode(EPSILON_PATTERN)
LEAST_SCALE = decode(rounded(Fraction(1, 10000)))


# The rules of documents 01 and 02. A matrix is its numbers a, b, c, d, e and f. Few products are not asked for again, so
# they are kept.

@cache
def mul(x, y):
    """x * y, rounded once. Past a burst a factor may be a NaN."""
    return NAN if NAN in (x, y) else mul_numbers(x, y)


@cache
def sum_of_products(*pairs, last=None):
    """Each product and each sum is rounded, from left to right; the last term is a number."""
    terms = [mul(x, y) for x, y in pairs] + ([] if last is None else [last])
    total = terms[0]
    for term in terms[1:]:
        total = add(total, term)
    return total


IDENTITY = (UNIT, NOUGHT, NOUGHT, UNIT, NOUGHT, NOUGHT)


def product(left, right):
    """The matrix by which the right one acts first on a point."""
    a, b, c, d, e, f = left
    p, q, r, s, t, u = right
    return (
        sum_of_products((a, p), (c, q)), sum_of_products((b, p), (d, q)),
        sum_of_products((a, r), (c, s)), sum_of_products((b, r), (d, s)),
        sum_of_products((a, t), (c, u), last=e), sum_of_products((b, t), (d, u), last=f))


def pre_translate(matrix, x, y):
    a, b, c, d, e, f = matrix
    return (a, b, c, d, sum_of_products((a, x), (c, y), last=e), sum_of_products((b, x), (d, y), last=f))


def pre_scale(matrix, x, y):
    a, b, c, d, e, f = matrix
    return (mul(a, x), mul(b, x), mul(c, y), mul(d, y), e, f)


def opposite(x):
    return (1 - x[0], x[1])


def sixteenths(degrees):
    """An angle in sixteenths of a degree, half away from zero, and then without its whole turns."""
    return int(signed(round_half_away(mul(degrees, SIXTEEN)))) % TURN


def pre_rotate(matrix, degrees):
    """A zero angle, however it came about, leaves the matrix as it is."""
    angle = sixteenths(degrees)
    if angle == 0:
        return matrix
    a, b, c, d, e, f = matrix
    cos, sin = (decode(pattern) for pattern in DIRECTIONS[angle])
    minus = opposite(sin)
    return (
        sum_of_products((a, cos), (c, sin)), sum_of_products((b, cos), (d, sin)),
        sum_of_products((a, minus), (c, cos)), sum_of_products((b, minus), (d, cos)), e, f)


class Repeater:
    def __init__(self, patterns):
        self.numbers = [decode(pattern) for pattern in patterns]
        self.copies, self.offset = self.numbers[:2]
        self.anchor, self.position, self.scale = (self.numbers[place:place + 2] for place in (2, 4, 6))
        self.rotation, self.start_opacity, self.end_opacity = self.numbers[8:]

    def fault(self):
        """The number of the refusal that every call on it gives, or none."""
        if less(MOST, self.copies) or less(MOST, absolute(self.offset)):
            return 2
        return None if all_within(self.numbers) else 3

    def count(self):
        return int(signed(maximum(ceil(self.copies), NOUGHT)))

    def order(self, mode):
        rising = list(range(self.count()))
        return rising if mode == 1 else rising[::-1]

    def step(self, percent, inverse):
        direction = MINUS_UNIT if inverse else UNIT
        scale = [mul_add(sub(div(s, HUNDRED), UNIT), percent, UNIT) for s in self.scale]
        if inverse:
            scale = [div(UNIT, maximum(s, LEAST_SCALE)) for s in scale]
        matrix = pre_translate(IDENTITY, *(mul(mul(p, direction), percent) for p in self.position))
        matrix = pre_rotate(pre_translate(matrix, *self.anchor), mul(mul(self.rotation, direction), percent))
        return pre_translate(pre_scale(matrix, *scale), *(opposite(x) for x in self.anchor))

    def iteration(self, iteration):
        magnitude = absolute(iteration)
        if at_most(magnitude, EPSILON):
            return IDENTITY
        inverse = less(iteration, NOUGHT)
        whole = floor(magnitude)
        fraction = sub(magnitude, whole)
        matrix, step = IDENTITY, self.step(UNIT, inverse)
        for _ in range(int(signed(whole))):
            matrix = product(matrix, step)
        return product(matrix, self.step(fraction, inverse)) if less(EPSILON, fraction) else matrix

    def opacity(self, copy):
        if self.count() <= 1:
            return self.start_opacity
        progress = div(decode(of(copy)), decode(of(self.count() - 1)))
        return mul_add(sub(self.end_opacity, self.start_opacity), progress, self.start_opacity)

    def copy(self, copy):
        """The six numbers of a copy's matrix, and its opacity."""
        return [*self.iteration(add(self.offset, decode(of(copy)))), self.opacity(copy)]


# Answers: what is written, or the number of a refusal.

def order_outcome(repeater, mode, places):
    fault = repeater.fault()
    if fault:
        return fault
    order = repeater.order(mode)
    return order if len(order) <= places else 11


def copy_outcome(repeater, copy, places):
    fault = repeater.fault()
    if fault:
        return fault
    if copy >= repeater.count():
        return 9
    numbers = repeater.copy(copy)
    if any(size_of(x) in (NAN, INFINITE) for x in numbers):
        return 10
    return [encode(x) for x in numbers] if len(numbers) <= places else 11


def answered(outcome, places, old):
    refused = isinstance(outcome, int)
    written = [] if refused else outcome
    return "%s %d\nplaces%s\n" % (
        "refused" if refused else "written", outcome if refused else len(outcome),
        "".join(" %08x" % p for p in written + [old] * (places - len(written))))


# Calls: a line of stdin and its lines of stdout. A repeater is given by its eleven patterns.

def called(word, *numbers):
    return " ".join([word] + ["%08x" % n for n in numbers]) + "\n"


def order(patterns, mode=1, places=5):
    line = called("order", mode, places, *patterns)
    return line, line + answered(order_outcome(Repeater(patterns), mode, places), places, OLD_PLACE)


def copy(patterns, index=0, mode=1, places=8):
    line = called("copy", mode, index, places, *patterns)
    return line, line + answered(copy_outcome(Repeater(patterns), index, places), places, OLD_NUMBER)


# A repeater that moves and scales, unless it is said otherwise.
USUAL = {
    "copies": "3", "offset": "0", "anchor": "3 -5", "position": "10 -4", "scale": "50 200", "rotation": "0",
    "opacity": "1 0.25",
}


def repeater(**parts):
    """The usual one with some parts replaced, each by a text of decimal numbers or by a list of patterns."""
    found = []
    for name, usual in USUAL.items():
        part = parts.pop(name, usual)
        found += [nearest(number) for number in part.split()] if isinstance(part, str) else part
    assert len(found) == 11 and not parts
    return tuple(found)


def replaced(patterns, place, pattern):
    return patterns[:place] + (pattern,) + patterns[place + 1:]


ROW = {"anchor": "0 0", "scale": "100 100", "opacity": "1 1"}
STILL = {**ROW, "position": "0 0"}
TWO_STILL = repeater(**STILL, copies="2")


def turned_places(rotation):
    """What the places of a, b, c and d hold after the call for copy 1 of two that turn."""
    outcome = copy_outcome(Repeater(replaced(TWO_STILL, 8, rotation)), 1, 7)
    return [OLD_NUMBER] * 4 if isinstance(outcome, int) else outcome[:4]


def turns(rotations):
    """The calls for these rotations, on as many lines as they need."""
    for first in range(0, len(rotations), MOST_TURNS):
        part = rotations[first:first + MOST_TURNS]
        line = called("turn", *part)
        yield line, line + called("places", *(place for rotation in part for place in turned_places(rotation)))


# The vectors.

MODES = (0, 1, 2, 3, 255)


def plates():
    """The copies of document 01: orders 0, 1, 2 and 2, 1, 0; none; shifts of -10, 0, 10; opacity 0.5."""
    yield from (order(repeater(copies="2.5"), mode) for mode in MODES)
    yield order(repeater(copies="-1"))
    yield from (copy(repeater(**{**ROW, "position": "10 0", "offset": "-1"}), index) for index in range(3))
    yield from (copy(repeater(opacity="1 0"), index) for index in range(3))


def counts():
    """Copies at and beside whole numbers, and at and beside the most."""
    for text in ("-0", "0", "-1", "1", "2", "3"):
        for copies in around(nearest(text)):
            yield order(repeater(copies=[copies]), mode=copies % 2)
    for text in ("1", "2"):
        for copies in around(nearest(text)):
            yield from (copy(repeater(copies=[copies], opacity="0.1 0.7"), index) for index in range(3))
    yield from (order(repeater(copies=[copies])) for copies in around(of(4096)))
    yield order(repeater(copies="4096"), mode=0, places=4097)
    yield order(repeater(copies="4095.5"), mode=1, places=4095)
    yield from (copy(repeater(copies="4096", **ROW, offset="-4095"), index) for index in (4094, 4095, 4096))
    yield copy(repeater(copies="1000", **ROW, offset="-990"), 993)


def offsets():
    """Offsets, alone and added to a copy's number."""
    near_zero = both_signs([ZERO, TINIEST, *around(EPSILON_PATTERN), rounded(Fraction(1, 10))])
    parts = both_signs([nearest(text) for text in ("0.5", "1.5", "2.25", "7.75", "19.999")])
    for offset in near_zero + parts:
        yield copy(repeater(offset=[offset]))
    # Beside a whole number the part of a step is not above 2^-23, or is; just below, it is almost a step.
    for offset in both_signs(around(ONE, 2) + around(of(2))):
        yield copy(repeater(offset=[offset]))
    for offset in near_zero[:6] + parts[1::2]:
        yield copy(repeater(offset=[offset]), 1)
    # Beside -1 the sum with 1 comes to lie beside 2^-23.
    for digits in range(1, 5):
        yield copy(repeater(offset=[of(Fraction(digits, 2**24) - 1)]), 1)
        yield copy(repeater(offset=[of(Fraction(-digits, 2**23) - 1)]), 1)
    # The most steps back, and the most on.
    yield copy(repeater(offset="-4096", **ROW))
    yield copy(repeater(copies="4096", offset="4096", **ROW), 4095)
    yield from (order(repeater(offset=[offset])) for offset in both_signs(around(of(4096))))
    yield from (copy(repeater(offset=[offset])) for offset in both_signs([of(4096) + 1]))


def scales():
    """Steps and inverse steps, whole and in part. The inverse step divides by no less than 1e-4."""
    texts = ("0", "-0", "-50", "-100", "50", "99.99", "100", "200", "33.3")
    for scale in [nearest(text) for text in texts]:
        for offset in ("1", "-1", "2.5", "-2.5"):
            yield copy(repeater(scale=[scale, of(150)], offset=offset))
    # The scale of an inverse step is a multiple of 2^-24, and 1e-4 lies between 1677 and 1678 of them.
    for digits in range(1676, 1680):
        scale = rounded(Fraction(100 * digits, 2**24))
        yield from (copy(repeater(scale=[of(80), scale], offset=offset)) for offset in ("-1", "-2"))
    # The same for half an inverse step.
    for text in ("-99.97", "-99.98", "-99.99", "-100"):
        yield copy(repeater(scale=text + " 70", offset="-0.5"))


def underflows():
    """Steps of scale -2^-23, of which seven give -0. Half a step more adds a product of two zeros to it."""
    tiny = rounded(Fraction(-100, 2**23))
    for pair in ([tiny, tiny], [tiny, of(100)], [of(100), tiny], [of(-100), tiny]):
        yield from (copy(repeater(copies="8", scale=pair), index) for index in (6, 7))
        yield copy(repeater(copies="8", scale=pair, offset="0.5"), 7)


def zeros():
    """Both zeros in each part, with steps of either direction and with none."""
    for zero in ("0", "-0"):
        pair = zero + " " + zero
        for offset in ("0", "-0", "1", "-1", "-0.5"):
            yield copy(repeater(anchor=pair, position=pair, scale="100 -100", offset=offset, opacity=pair))
            yield copy(repeater(position=pair, scale=pair, offset=offset, rotation="-0", opacity="1 " + zero))
        yield copy(repeater(anchor=pair, scale="100 100", offset="-2", opacity="-0 " + zero), 1)
        yield copy(repeater(copies="1", anchor=pair, opacity=zero + " 1"))
        yield order(repeater(rotation=zero))


def anchors():
    for anchor in ("0.1 -0.1", "1048576 -1048576", "0.0000001 3", "100 0"):
        for offset in ("0.5", "-3", "4"):
            yield copy(repeater(anchor=anchor, offset=offset, position="0.3 1000"), 1)


def bursts():
    """Numbers that grow past the largest float: 10 comes after 9 and before 11."""
    large = {"copies": "20", "anchor": "0 0", "position": "0 0", "scale": "1048576 100"}
    yield from (copy(repeater(**large), index) for index in (8, 9, 10, 11, 12, 19, 20))
    yield from (copy(repeater(**{**large, "scale": "100 -1048576"}), index) for index in (9, 10))
    # The shift alone is too large.
    yield from (copy(repeater(**{**large, "anchor": "1048576 0"}), index) for index in (7, 8, 9))
    tall = {**large, "scale": "100 1048576"}
    yield from (copy(repeater(**{**tall, "anchor": "0 -1048576"}), index) for index in (8, 9))
    yield from (copy(repeater(**{**tall, "position": "0 1048576"}), index) for index in (9, 10))
    for offset in ("-9", "-10", "-9.5", "-12", "-20"):
        yield copy(repeater(**{**large, "scale": "0 100", "offset": offset}))
    yield from (copy(repeater(**large), index, places=places) for index in (9, 10, 20) for places in (0, 6))


def indices():
    for copies, limit in (("3", 3), ("2.5", 3), ("1", 1), ("0", 0), ("-0", 0), ("-7", 0)):
        yield from (copy(repeater(copies=copies), index) for index in (limit, limit + 1))
    yield from (copy(repeater(), index) for index in (2, 2**20, 2**31, 2**32 - 1))
    yield copy(repeater(), 3, places=0)


def buffers():
    yield from (copy(repeater(), 1, places=places) for places in (0, 1, 6, 7, 16))
    yield from (order(repeater(), mode, places) for mode in (1, 0) for places in (0, 1, 2, 3, 4))
    yield from (order(repeater(copies=copies), places=0) for copies in ("0", "-3", "0.5"))
    yield from (copy(repeater(), 1, mode) for mode in MODES)


def limits():
    """Each number at its limit, past it, and not finite."""
    usual = repeater()
    past = both_signs([LIMIT_PATTERN + 1, INFINITY]) + [A_NAN]
    for place in range(11):
        yield order(replaced(usual, place, past[place % 4]))
        yield order(replaced(usual, place, A_NAN))
        yield from (copy(replaced(usual, place, pattern), 1) for pattern in (LIMIT_PATTERN, past[(place + 1) % 4]))
    # The copies alone have no least number but the limit's.
    yield from (order(replaced(usual, 0, pattern | SIGN)) for pattern in (*around(LIMIT_PATTERN), LARGEST, INFINITY))


def orders_of_checks():
    """The fault of the lower place counts: 2, 3, 9, 10, 11. A rotation is no fault up to its limit."""
    crowded = [{"copies": [INFINITY]}, {"offset": [INFINITY | SIGN]}, {"copies": "5000"}, {"offset": "-5000"}]
    outside = [{"copies": [INFINITY | SIGN]}, {"copies": [A_NAN]}, {"anchor": [ZERO, A_NAN]}]
    outside += [{"rotation": [pattern]} for pattern in (A_NAN, INFINITY | SIGN, LIMIT_PATTERN + 1)]
    turned = [{"rotation": [pattern]} for pattern in both_signs([TINIEST, of(90)])]
    for fault in crowded:
        yield copy(repeater(**fault))
        yield from (order(repeater(**{**other, **fault})) for other in outside + turned[:1])
    for fault in outside:
        yield copy(repeater(**fault), 7)
        yield order(repeater(**{**turned[0], **fault}), places=0)
    for turn in turned:
        yield from (order(repeater(**turn), places=places) for places in (3, 2))
        yield from (copy(repeater(**turn), index, places=0) for index in (2, 3))
    yield from (copy(repeater(rotation=zero), 1) for zero in ("0", "-0"))


def fans():
    """Copies that turn and do nothing else, and stacks that fan out about an anchor."""
    for rotation in ("90", "30", "359.97"):
        yield from (copy(repeater(**STILL, copies="5", rotation=rotation), index) for index in range(5))
    for rotation in ("-90", "180", "45.03125"):
        yield from (copy(repeater(**STILL, copies="5", rotation=rotation), index) for index in (2, 3))
    for rotation in ("7.5", "-12", "90"):
        for offset in ("0", "-2", "0.5"):
            yield copy(repeater(scale="100 100", anchor="40 120", offset=offset, rotation=rotation), 2)
    yield copy(repeater(**STILL, copies="4096", rotation="0.0625"), 400)
    yield copy(repeater(**STILL, copies="4096", offset="-40.5", rotation="271"))


def rounded_angles():
    """Rotations at and beside the middle of two sixteenths, whole turns and the limit, each with its neighbours."""
    middles = [1, 3, 5, 7, 9, 31, 33, 959, 2879, 2881, 5761, 11517, 11519, 11521, 23039, 23041, 2**23 - 1, 2**23 + 1]
    middles += [32 * 300000 + 1, 32 * 524287 + 31]
    whole = [90, 180, 270, 360, 720, 1080, 3600, 360 * 2912, 2**18, 2**19]
    near = [pattern for value in [Fraction(k, 32) for k in middles] + whole for pattern in around(of(value))]
    near += around(nearest("359.97")) + around(nearest("359.96")) + around(LIMIT_PATTERN)
    tiny = [TINIEST, SMALLEST_NORMAL, EPSILON_PATTERN, *(of(Fraction(1, n)) for n in (1024, 64, 33554432))]
    yield from turns(both_signs(near + tiny + [LARGEST, INFINITY]) + [A_NAN])


def turned_steps():
    """Whole steps, inverse ones and parts, with a scale that shows whether the turn comes before it."""
    for rotation in ("90", "-30", "33.3"):
        for scale in ("-100 100", "50 200"):
            for offset in ("1", "-1", "0.5", "-2.25"):
                yield copy(repeater(scale=scale, rotation=rotation, offset=offset))
    # Half of an odd number of sixteenths, and what is beside it; a third of them.
    for rotation in (Fraction(1, 16), Fraction(3, 16), Fraction(-45, 16), Fraction(5759, 16), Fraction(5761, 16)):
        yield from (copy(repeater(**STILL, rotation=[pattern], offset="0.5")) for pattern in around(of(rotation)))
        yield from (copy(repeater(**STILL, rotation=[of(rotation)], offset=offset)) for offset in ("-1.5", "0.33333334"))
    # The part of a step is 2^-22 and the rotation as large as it may be: four sixteenths.
    for offset in both_signs([of(1 + Fraction(1, 2**22)), of(Fraction(1, 2**22))]):
        yield copy(repeater(**STILL, rotation=[LIMIT_PATTERN], offset=[offset]))


def still_angles():
    """Rotations that come to no angle: the matrix stays as it is, -0 and all."""
    for rotation in (TINIEST, of(Fraction(1, 32)) - 1, *map(of, (360, 1080)), nearest("359.97")):
        for pattern in (rotation, rotation | SIGN):
            yield copy(repeater(rotation=[pattern], scale="-100 -0", position="-0 0", anchor="-0 -0", offset="1.5"))
            yield copy(repeater(rotation=[pattern], offset="-2"))
    # The whole step comes to no angle and its part to one; and the other way round.
    yield from (copy(repeater(rotation="360", offset=offset)) for offset in ("1.25", "-1.25"))
    yield from (copy(repeater(rotation="0.03125", offset=offset)) for offset in ("2.5", "-1.999"))


def turned_zeros():
    """Both zeros in the other parts, with quarters of a turn."""
    for rotation in ("90", "180", "-90", "-180"):
        for zero in ("0 0", "-0 -0", "0 -0"):
            for offset in ("1", "-1"):
                yield copy(repeater(rotation=rotation, anchor=zero, position=zero, scale="100 -100", offset=offset))
        yield copy(repeater(rotation=rotation, scale="0 -0", offset="1.5"))


def turned_bursts():
    """Numbers that grow past the largest float while they turn: 10 comes after 9 and before 11."""
    large = {**STILL, "copies": "20", "scale": "1048576 1048576"}
    for rotation in ("90", "45", "-0.0625"):
        yield from (copy(repeater(**large, rotation=rotation), index) for index in (9, 10, 12, 19, 20))
    yield from (copy(repeater(**large, rotation="30"), index, places=6) for index in (9, 10, 20))
    # The scale of one axis is turned into the other; the shift alone is too large; the inverse steps grow.
    yield from (copy(repeater(**{**large, "scale": "1048576 100"}, rotation="45"), index) for index in (10, 11))
    yield from (copy(repeater(**{**large, "anchor": "1048576 0"}, rotation="90"), index) for index in (8, 9))
    yield from (copy(repeater(**{**large, "scale": "0 0"}, rotation="60", offset=offset)) for offset in ("-9", "-10"))


def every_sixteenth():
    """One turn by sixteenths of a degree, both ways."""
    yield from turns(both_signs([of(Fraction(k, 16)) for k in range(TURN + 1)]))


def hundredths(rng, low, high):
    return rounded(Fraction(rng.between(100 * low, 100 * high), 100))


def random_copies(rng):
    for _ in range(16):
        copies = rng.between(1, 10)
        yield copy(repeater(
            copies=[of(copies)], offset=[hundredths(rng, -10, 10)],
            anchor=[hundredths(rng, -200, 200) for _ in range(2)],
            position=[hundredths(rng, -200, 200) for _ in range(2)],
            scale=[hundredths(rng, -20, 250) for _ in range(2)],
            opacity=[hundredths(rng, 0, 1) for _ in range(2)]), rng.between(0, copies - 1))
    for _ in range(16):
        copies = rng.between(1, 10)
        yield copy(repeater(
            copies=[of(copies)], offset=[rng.pattern(-12, 2)], anchor=[rng.pattern(-30, 19) for _ in range(2)],
            position=[rng.pattern(-30, 19) for _ in range(2)], scale=[rng.pattern(0, 8) for _ in range(2)],
            opacity=[rng.pattern(-20, 2) for _ in range(2)]), rng.between(0, copies - 1))


def random_turns(rng):
    for _ in range(20):
        copies = rng.between(1, 6)
        yield copy(repeater(
            copies=[of(copies)], offset=[hundredths(rng, -5, 5)], rotation=[hundredths(rng, -720, 720)],
            anchor=[hundredths(rng, -200, 200) for _ in range(2)],
            position=[hundredths(rng, -200, 200) for _ in range(2)],
            scale=[hundredths(rng, -20, 250) for _ in range(2)]), rng.between(0, copies - 1))
    for _ in range(10):
        yield copy(repeater(
            copies=[of(6)], offset=[rng.pattern(-12, 2)], rotation=[rng.pattern(-8, 19)],
            anchor=[rng.pattern(-30, 19) for _ in range(2)], position=[rng.pattern(-30, 19) for _ in range(2)],
            scale=[rng.pattern(0, 8) for _ in range(2)]), rng.between(0, 5))
    yield from turns([rng.pattern(-8, 19) for _ in range(64)])


def vectors():
    """Every call, as its line of stdin and its lines of stdout."""
    for calls in (
        plates(), counts(), offsets(), scales(), underflows(), zeros(), anchors(), bursts(), indices(), buffers(),
        limits(), orders_of_checks(), random_copies(Random(20240404)),
        fans(), rounded_angles(), turned_steps(), still_angles(), turned_zeros(), turned_bursts(),
        random_turns(Random(20240505)), every_sixteenth(),
    ):
        yield from calls


def texts():
    """What the two files hold."""
    pairs = dict.fromkeys(vectors())
    return "".join(line for line, _ in pairs), "".join(answer for _, answer in pairs)


if __name__ == "__main__":
    keep("repeater", *texts(), __doc__)
