#!/usr/bin/env python3
"""Makes the test vectors of trims.

It writes crates/vectors_trim/stdin, one call a line, and crates/vectors_trim/stdout, what each call
answers. The expected values come from document 01's rules on exact numbers; the roundings are those
of float_vectors.py, and no floating-point number is computed with here. The sample of the Rust's
answers in oracle/samples follows them.

A line of stdin is a word and numbers of 8 hexadecimal digits each, one blank before each number:

    ranges START END OFFSET MODE
    lengths START END OFFSET MODE CODES NUMBERS GIVEN C.. X..

START, END and OFFSET are patterns. CODES and NUMBERS are the lengths of the lists of a path. The
codes C, of which there are GIVEN, fill the first list over and over, and the patterns X the second.

In stdout each line of stdin is followed by the answer. That is 'refused' with the refusal's number;
or, after 'length' with the pattern of the path's length where lengths are asked for, 'nothing',
'one' or 'two', the number of ranges, 'mark' with 1 for a whole path and 0 for others, and 'numbers'
with the patterns in all places of the buffer. Before a call each place is c29a8000, which is -77.25.

    python3 tools/trim_vectors.py            write both files
    python3 tools/trim_vectors.py --check    compare both files; exit 1 where one differs
"""

from fractions import Fraction

from draw_vectors import CLOSE, CUBIC, LINE, MOVE, OLD_NUMBER, at_most, mul, rect_path, sub
from float_vectors import (
    A_NAN, INFINITE, INFINITY, LARGEST, LARGEST_SUBNORMAL, NAN, ONE, SIGN, SMALLEST_NORMAL, TINIEST, ZERO,
    Random, absolute, add, around, both_signs, clamp, decode, div, encode, less, maximum, of, rem_euclid_360,
    round_half_away, rounded, size_of, until,
)
from length_vectors import (
    EVERY_KIND, EVERY_KIND_PATTERNS, LIMIT_PATTERN, MOST_COMMANDS, QUAD, UNLISTED,
    Commands, drawn, filled, numbers_of, path_length, refused,
)
from vector_files import keep

# The places of the vectors program's buffer: two more than the cut lengths of two ranges need.
PLACES = 8

NOUGHT, UNIT = decode(ZERO), decode(ONE)
HUNDRED, TURN, STEPS = decode(of(100)), decode(of(360)), decode(of(10000))
STEP = decode(rounded(Fraction(1, 10000)))
SHORTEST = of(Fraction(1, 2**23))


# The rules of document 01. A trim is its start, its end and its offset.

def in_path(x):
    return clamp(x, NOUGHT, UNIT)


def to_step(x):
    return mul(round_half_away(mul(x, STEPS)), STEP)


def near(x, y):
    return at_most(absolute(sub(x, y)), STEP)


def normalized_trim_segments(trim):
    """The visible ranges, each a pair of its ends."""
    turn = div(rem_euclid_360(trim[2]), TURN)
    start, end = (add(in_path(div(percent, HUNDRED)), turn) for percent in trim[:2])
    if less(end, start):
        start, end = end, start
    start, end = to_step(start), to_step(end)
    if near(start, end):
        return []
    if near(start, NOUGHT) and near(end, UNIT) or near(start, UNIT) and near(end, NOUGHT):
        return [(NOUGHT, UNIT)]
    if at_most(end, UNIT):
        return [(in_path(start), in_path(end))]
    if at_most(UNIT, start):
        return [(in_path(sub(start, UNIT)), in_path(sub(end, UNIT)))]
    return [(in_path(start), UNIT), (NOUGHT, in_path(sub(end, UNIT)))]


def is_full_trim_segments(segments):
    return len(segments) == 1 and at_most(segments[0][0], STEP) and near(UNIT, segments[0][1])


def cut_lengths(total, segments):
    """What lies before, in and after each range. Of two zeros the maximum is the second, +0."""
    parts = [part for start, end in segments for part in (start, sub(end, start), sub(UNIT, end))]
    return [maximum(mul(total, part), NOUGHT) for part in parts]


def is_finite(trim):
    return not any(size_of(x) in (NAN, INFINITE) for x in trim)


# Answers.

def answered(segments, numbers):
    places = [encode(x) for x in numbers] + [OLD_NUMBER] * (PLACES - len(numbers))
    return "%s %d mark %d numbers%s\n" % (
        ("nothing", "one", "two")[len(segments)], len(segments), is_full_trim_segments(segments),
        "".join(" %08x" % p for p in places))


def ranges_answer(trim):
    if not is_finite(trim):
        return refused(3)
    segments = normalized_trim_segments(trim)
    return answered(segments, [x for segment in segments for x in segment])


def lengths_answer(trim, mode, commands):
    """The answer for a list's commands, or for the number of its refusal."""
    if not is_finite(trim):
        return refused(3)
    if mode not in (1, 2):
        return refused(4)
    if isinstance(commands, int):
        return refused(commands)
    total = path_length(commands)
    if at_most(total, decode(SHORTEST)):
        return refused(8)
    segments = normalized_trim_segments(trim)
    return "length %08x " % encode(total) + answered(segments, cut_lengths(total, segments))


# Calls: a line of stdin and its lines of stdout. A trim is given by its three patterns.

def ranges(trim, mode=1):
    line = " ".join(["ranges"] + ["%08x" % n for n in (*trim, mode)]) + "\n"
    return line, line + ranges_answer([decode(p) for p in trim])


def lengths(trim, commands, mode=1):
    line = commands.line("lengths", *trim, mode)
    return line, line + lengths_answer([decode(p) for p in trim], mode, commands.outcome)


def nearest(text):
    """The pattern of the float nearest to a decimal number; -0 keeps its sign."""
    return SIGN if text == "-0" else rounded(Fraction(text))


def trims(*texts):
    """Each text is three decimal numbers."""
    return [tuple(nearest(number) for number in text.split()) for text in texts]


# The vectors.

# The trims of document 01, in its order: whole; (0.25, 0.75); the same; (0.25, 1), (0, 0.25);
# (0.5, 1), (0, 0.5), not whole; (0.25, 0.75); nothing; nothing; one range; not whole.
PLATES = trims(
    "0 100 0", "25 75 0", "75 25 0", "0 100 90", "0 100 180", "25 75 -0.0000001", "30 30 0", "0 0.01 0", "0 0.02 0",
    "0 99.99 0",
)

TRAPS = trims(
    # The whole test is before the others and takes ends to 0.0001.
    "0.01 100 0", "0.02 100 0", "0.005 99.995 0", "100 0.01 0", "100 0 0", "0 99.995 0", "0.01 99.99 0",
    # A step is nothing where its two floats are at most 0.0001 apart: at 0 they are, at 50 they are not.
    "50 50.01 0", "50.01 50 0", "50 50.02 0", "99.99 100 0", "99.98 100 0", "25 25.01 90",
    # Of a negative number of whole turns the remainder is -0.
    "-0 50 -360", "-0 50 -0", "0 50 -360", "-0 50 360", "50 -0 -720", "-0 -0 -360", "-5 50 -360", "-0 100 -360",
    # The remainder 360 is a whole turn, and not none: the range is moved by 1, and back again.
    "0.01 100 -0.0000001", "0 100 -0.0000001", "0 33.33 -0.0000001", "66.67 100 -0.0000001", "0 0.02 -0.0000001",
    "0 99.99 -0.0000001", "-0 50 -0.0000001",
    # The end, or the start, comes to lie at 1 or a step beside it.
    "0 75 90", "0 74.99 90", "0 75.01 90", "0 75.02 90", "25 50 270", "24.99 50 270", "25.01 50 270", "24.98 50 270",
    "0 50 180", "50 100 180", "50 50.02 180", "49.98 50 180", "49.99 50.01 180", "49.99 100 180", "100 100 0",
    "100 99.99 180", "0 100 0.036", "0 100 -0.036", "0 100 0.018", "0 100 359.964", "0.01 100 359.964",
)

WHOLE, MIDDLE, EMPTY = PLATES[0], PLATES[1], PLATES[6]
TINY_BACK = nearest("-0.0000001")


def edges():
    """Starts and ends at numbers where an answer turns, and at their neighbours."""
    for text in ("0", "0.01", "0.02", "25", "75", "99.99", "100"):
        patterns = around(nearest(text)) if text != "0" else both_signs([ZERO, TINIEST])
        yield from ((pattern, of(100), ZERO) for pattern in patterns)
        yield from ((ZERO, pattern, ZERO) for pattern in patterns)
        yield from ((pattern, of(50), TINY_BACK) for pattern in patterns)


def offsets():
    turns = [near for degrees in (0, 90, 180, 270, 360, 720) for near in around(of(degrees))]
    tiny = [LARGEST_SUBNORMAL, SMALLEST_NORMAL, nearest("0.0000001"), of(Fraction(1, 2**17)), of(Fraction(1, 2**16))]
    huge = [nearest("1e10"), nearest("1e30"), LARGEST]
    for offset in both_signs(turns + tiny + huge):
        yield from ((*trim[:2], offset) for trim in (WHOLE, MIDDLE))


def outside():
    """Percents below 0 and above 100, and both zeros, as start and as end."""
    percents = [nearest(text) for text in ("-5", "-0", "0", "50", "100", "150")]
    yield from ((start, end, ZERO) for start in percents for end in percents)
    far = both_signs([LARGEST, nearest("1e30")]) + [nearest("100.01"), SMALLEST_NORMAL | SIGN]
    yield from ((start, nearest("60"), of(-90)) for start in far)
    yield from ((nearest("40"), end, of(90)) for end in far)


def is_half(part):
    """Whether a part of the path is an even number of steps of 0.0001 and a half."""
    return mul(part, STEPS)[1] % 2 == Fraction(1, 2)


def halves(rng):
    """Starts and offsets of a half above an even number of steps, which goes up, and their neighbours."""
    starts = until(
        8, lambda: rounded(Fraction(4 * rng.between(1, 2499) + 1, 200)), lambda p: is_half(div(decode(p), HUNDRED)))
    yield from ((start, of(100), ZERO) for middle in starts for start in around(middle))
    offsets = until(
        8, lambda: rounded(Fraction(36 * rng.between(1, 2499) + 9, 500)), lambda p: is_half(div(decode(p), TURN)))
    yield from ((ZERO, of(50), offset) for middle in offsets for offset in around(middle))


def random_trims(rng):
    for _ in range(16):
        start, end = (rounded(Fraction(rng.between(-1000, 11000), 100)) for _ in range(2))
        yield (start, end, of(rng.between(-72, 72) * 10))
    for _ in range(16):
        start, end = (rng.pattern(-8, 6) % SIGN for _ in range(2))
        yield (start, end, rng.pattern(-10, 12))
    # Short ranges, and offsets that bring one of their ends near 1.
    for _ in range(16):
        hundredths = rng.between(0, 9990)
        start, end = (rounded(Fraction(hundredths + more, 100)) for more in (0, rng.between(1, 4)))
        offset = rounded(Fraction(360 * (10000 - hundredths - rng.between(0, 2)), 10000)) + rng.between(-1, 1)
        yield (start, end, offset)


def not_finite(patterns):
    """Each pattern as the start, as the end and as the offset."""
    for pattern in patterns:
        yield from (MIDDLE[:place] + (pattern,) + MIDDLE[place + 1:] for place in range(3))


MODES = (0, 1, 2, 3, 255)
RECTANGLE = drawn(rect_path([decode(p) for p in numbers_of(0, 0, 3, 4, 0)]))
ROUND_RECTANGLE = drawn(rect_path([decode(p) for p in numbers_of(0, 0, 8, 4, 1)]))
ALL_KINDS = filled(EVERY_KIND, EVERY_KIND_PATTERNS)


def line_of(length):
    return filled([MOVE, LINE], [ZERO, ZERO, length, ZERO])


def paths():
    """Trims of paths that have a length."""
    yield from ((trim, RECTANGLE) for trim in PLATES)
    yield from ((trim, ALL_KINDS) for trim in trims("25 75 0", "0 100 90", "30 30 0", "0.01 100 0", "-0 50 -360"))
    yield from ((trim, ROUND_RECTANGLE) for trim in trims("10 35 -45", "-0 50 -360", "0 99.99 0"))
    for trim in trims("33.33 66.67 0", "0 100 123", "0 100 0"):
        yield from ((trim, filled([MOVE, code], numbers_of(0, 0, 5, 9, 12, -3, 7, 2))) for code in (QUAD, CUBIC))
        yield (trim, line_of(SHORTEST + 1))
        yield (trim, filled([MOVE, LINE, LINE, CLOSE], [LIMIT_PATTERN | sign for sign in (0, SIGN, SIGN)]))


def short_paths():
    """Paths that are too short, whatever the trim shows, and paths around the length that is."""
    for trim in (MIDDLE, EMPTY, WHOLE):
        yield (trim, Commands([], []))
        yield (trim, filled([MOVE], numbers_of(3, 4)))
    yield from ((MIDDLE, commands) for commands in (
        filled([LINE], numbers_of(3, 4)), filled([CLOSE], []), filled([QUAD], numbers_of(1, 2, 3, 4)),
        filled([MOVE, LINE], numbers_of(3, 4, 3, 4)), filled([MOVE, CUBIC], numbers_of(1)), line_of(TINIEST)))
    yield from ((trim, line_of(length)) for trim in (MIDDLE, EMPTY, WHOLE) for length in around(SHORTEST))
    yield from ((MIDDLE, filled([MOVE, code], [ZERO] * (size - 1) + [length]))
                for code, size in ((QUAD, 6), (CUBIC, 8)) for length in around(SHORTEST))


def random_cuts(rng):
    for trim in list(random_trims(rng))[::2]:
        codes = [MOVE] + [rng.between(0, 4) for _ in range(rng.between(1, 4))]
        low = rng.between(-20, 12)
        yield (trim, filled(codes + [LINE], [rng.pattern(low, low + 9) for _ in range(5)]))


def orders_of_checks():
    """Trims, lists and modes: 3 of the trim, 4 of the mode, what refuses the list, and 8."""
    one, bad = [ONE], [A_NAN]
    lists = [
        Commands([CLOSE], [], count=MOST_COMMANDS + 1), Commands([UNLISTED], []), Commands([MOVE, LINE], one * 3),
        Commands([MOVE], one * 3), Commands([MOVE, LINE], one * 3 + bad),
        Commands([MOVE], one + [LIMIT_PATTERN + 1]),
    ]
    faulty = (MIDDLE[0], MIDDLE[1], A_NAN)
    for commands in [RECTANGLE, Commands([], [])] + lists:
        yield from ((trim, commands, mode) for trim in (MIDDLE, faulty) for mode in (2, 0))
    yield from ((trim, commands, 1) for trim in (EMPTY, WHOLE) for commands in lists[:3])


def vectors():
    """Every call, as its line of stdin and its lines of stdout."""
    rng = Random(20240303)
    for given in (
        PLATES, TRAPS, edges(), offsets(), outside(), halves(rng), random_trims(rng),
        not_finite(both_signs([A_NAN, INFINITY, INFINITY + 1])), [(A_NAN,) * 3, (INFINITY, INFINITY | SIGN, ZERO)],
    ):
        yield from (ranges(trim) for trim in given)
    # The ranges alone read no mode.
    yield from (ranges(trim, mode) for trim in (MIDDLE, (A_NAN, ZERO, ZERO)) for mode in MODES)
    for given in (paths(), short_paths(), random_cuts(rng)):
        yield from (lengths(*call) for call in given)
    yield from (lengths(trim, RECTANGLE, mode) for trim in (MIDDLE, EMPTY, WHOLE) for mode in MODES)
    yield from (lengths(trim, RECTANGLE) for trim in not_finite([A_NAN, INFINITY, INFINITY | SIGN]))
    yield from (lengths(*call) for call in orders_of_checks())


def texts():
    """What the two files hold."""
    pairs = dict.fromkeys(vectors())
    return "".join(line for line, _ in pairs), "".join(answer for _, answer in pairs)


if __name__ == "__main__":
    keep("trim", *texts(), __doc__)
