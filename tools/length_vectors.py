#!/usr/bin/env python3
"""Makes the test vectors of lengths, single commands and lengths that are reached.

It writes crates/vectors_length/stdin, one call a line, and crates/vectors_length/stdout, what each
call answers. The expected values come from the rules of documents 01 and 02 on exact numbers; the
roundings are those of float_vectors.py, and no floating-point number is computed with here. The
sample of the Rust's answers in oracle/samples follows them.

A line of stdin is a word and numbers of 8 hexadecimal digits each, one blank before each number:

    measure CODES NUMBERS GIVEN C.. X..
    command K CODES NUMBERS GIVEN C.. X..
    reach L CODES NUMBERS GIVEN C.. X..

CODES and NUMBERS are the lengths of the lists. The codes C, of which there are GIVEN, fill the
first list over and over, and the patterns X the second. L is the pattern of the length to reach.

In stdout each line of stdin is followed by the answer. For a measure that is 'length' with the
length's pattern, or 'refused' with the refusal's number. For a command it is two lines: 'numbers'
with the place of the first and how many they are, or 'refused' with the number; and then 'fault'
with the number that is handed back beside the part, 0 for an answer, 'part' with how many numbers
the part has, and their patterns. For a reach it is 'yes' or 'no' with how many commands were read,
or 'refused' with the number.

    python3 tools/length_vectors.py            write both files
    python3 tools/length_vectors.py --check    compare both files; exit 1 where one differs
"""

from fractions import Fraction

from draw_vectors import CLOSE, CUBIC, LINE, MOVE, at_most, bezier_path, mul, rect_path, sub, vertices
from float_vectors import (
    A_NAN, INFINITE, INFINITY, LARGEST, LARGEST_SUBNORMAL, NAN, ONE, SIGN, SMALLEST_NORMAL, TINIEST, ZERO,
    Random, absolute, add, around, both_signs, decode, encode, hypot, mul_add, of, rounded, size_of,
)
from vector_files import keep

# What the vectors program has room for.
LARGEST_CODES = 262150
LARGEST_NUMBERS = 6150
LARGEST_GIVEN = 900

QUAD = 4
SIZES = {MOVE: 2, LINE: 2, CUBIC: 6, CLOSE: 0, QUAD: 4}

MOST_COMMANDS = 262144
LIMIT = decode(of(2**22))


# The rules of document 01. A command is its code and its numbers, a point is a pair of numbers.

def judged(codes, numbers):
    """The commands of a list, or the number of its refusal."""
    if len(codes) > MOST_COMMANDS:
        return 2
    commands, place = [], 0
    for code in codes:
        if code not in SIZES:
            return 4
        part = numbers[place:place + SIZES[code]]
        if len(part) < SIZES[code]:
            return 12
        if not all(at_most(absolute(x), LIMIT) for x in part):
            return 3
        commands.append((code, part))
        place += SIZES[code]
    return 12 if place < len(numbers) else commands


def distance(point, other):
    return hypot(*(sub(y, x) for x, y in zip(point, other)))


def quad_weights(t):
    u = sub(decode(ONE), t)
    return [mul(u, u), mul(mul(decode(of(2)), u), t), mul(t, t)]


def cubic_weights(t):
    u, three = sub(decode(ONE), t), decode(of(3))
    square_u, square_t = mul(u, u), mul(t, t)
    return [mul(u, square_u), mul(mul(three, square_u), t), mul(mul(three, u), square_t), mul(t, square_t)]


def steps(count, weights):
    return [weights(decode(rounded(Fraction(step, count)))) for step in range(1, count + 1)]


# The weights of a curve's points at the end of each chord, by how many points it has.
CHORDS = {3: steps(24, quad_weights), 4: steps(32, cubic_weights)}


def weighted(weights, numbers):
    """The weighted sum. The product of the second number is rounded, and the others are fused with the sum so far."""
    total = mul_add(weights[0], numbers[0], mul(weights[1], numbers[1]))
    for weight, x in zip(weights[2:], numbers[2:]):
        total = mul_add(weight, x, total)
    return total


def curve_length(points):
    length, last = decode(ZERO), points[0]
    for weights in CHORDS[len(points)]:
        point = [weighted(weights, numbers) for numbers in zip(*points)]
        length = add(length, distance(last, point))
        last = point
    return length


def segment_length(points):
    return distance(*points) if len(points) == 2 else curve_length(points)


def path_length(commands):
    """The length so far, the last point and the contour's start, a command at a time; None stands for no point."""
    length, last, start = decode(ZERO), None, None
    for code, numbers in commands:
        points = [start] if code == CLOSE else [numbers[i:i + 2] for i in range(0, len(numbers), 2)]
        if code == MOVE:
            start = points[0]
        elif last and points[0]:
            length = add(length, segment_length([last] + points))
        last = points[-1]
    return length


def first_length(codes, numbers, n):
    """The length of the first n commands as a list by themselves; None where they are not sound."""
    codes = codes[:n]
    commands = judged(codes, numbers[:sum(SIZES.get(code, 0) for code in codes)])
    return None if isinstance(commands, int) else path_length(commands)


def is_length(x):
    return size_of(x) not in (NAN, INFINITE) and at_most(decode(ZERO), x)


# Answers. An outcome is the commands of a list, or the number of its refusal.

def refused(number):
    return "refused %d\n" % number


def measure_answer(outcome):
    if isinstance(outcome, int):
        return refused(outcome)
    return "length %08x\n" % encode(path_length(outcome))


def command_answer(k, outcome):
    if not isinstance(outcome, int) and k >= len(outcome):
        outcome = 12
    if isinstance(outcome, int):
        return refused(outcome) + "fault %d part 0\n" % outcome
    start, part = sum(SIZES[code] for code, _ in outcome[:k]), outcome[k][1]
    return "numbers %d %d\nfault 0 part %d%s\n" % (
        start, len(part), len(part), "".join(" %08x" % encode(x) for x in part))


def reach_answer(least, lengths, outcome):
    """The answer of document 02: the fewest commands, by the lengths of the first 0, 1, 2 .., or the outcome of all."""
    if outcome == 2:
        return refused(2)
    if not is_length(least):
        return refused(3)
    for n, length in enumerate(lengths):
        if length is not None and at_most(least, length):
            return "yes %d\n" % n
    return refused(outcome) if isinstance(outcome, int) else "no %d\n" % len(outcome)


# Lists: the codes and the patterns that are given, and how many of each are lent.

def lent(given, length):
    return [given[i % len(given)] for i in range(length)] if given else [0] * length


class Commands:
    """A command list, and its commands or the number of its refusal."""

    def __init__(self, codes, patterns, count=None, length=None):
        self.given = (codes, patterns)
        self.codes = lent(codes, len(codes) if count is None else count)
        self.numbers = [decode(p) for p in lent(patterns, len(patterns) if length is None else length)]
        self.lengths = (len(self.codes), len(self.numbers))
        self.outcome = judged(self.codes, self.numbers)
        self.measured_lengths = []

    def first_lengths(self):
        """The lengths of the first 0, 1, 2 .. commands, each measured by itself, and once."""
        for n in range(len(self.codes) + 1):
            if n == len(self.measured_lengths):
                self.measured_lengths.append(first_length(self.codes, self.numbers, n))
            yield self.measured_lengths[n]

    def line(self, word, *header):
        codes, patterns = self.given
        assert self.lengths[0] <= LARGEST_CODES and self.lengths[1] <= LARGEST_NUMBERS
        assert len(codes) <= LARGEST_GIVEN and len(patterns) <= LARGEST_GIVEN
        return " ".join([word] + ["%08x" % n for n in (*header, *self.lengths, len(codes), *codes, *patterns)]) + "\n"

    def measured(self):
        """A line of stdin and its lines of stdout."""
        line = self.line("measure")
        return line, line + measure_answer(self.outcome)

    def asked(self, k):
        """The same for command k."""
        line = self.line("command", k)
        return line, line + command_answer(k, self.outcome)

    def reached(self, least):
        """The same for the pattern of a length."""
        line = self.line("reach", least)
        return line, line + reach_answer(decode(least), self.first_lengths(), self.outcome)


def filled(codes, patterns):
    """The list of these codes with as many numbers as they need."""
    return Commands(codes, patterns, length=sum(SIZES[code] for code in codes))


def drawn(commands):
    return Commands([code for code, _ in commands], [encode(x) for _, numbers in commands for x in numbers])


def numbers_of(*values):
    """The patterns of numbers that are held exactly."""
    return [of(value) for value in values]


# The vectors.

LARGEST_U32 = 2**32 - 1
POINTS = numbers_of(1, 2, 4, 6, -2, Fraction(7, 2))
EVERY_KIND = [MOVE, QUAD, CUBIC, LINE, CLOSE]
EVERY_KIND_PATTERNS = numbers_of(0, 0, 10, 20, 30, 0, 30, 10, 20, 30, 0, 0, 0, 1)
LIMIT_PATTERN = of(2**22)
REFUSED = both_signs([LIMIT_PATTERN + 1, LARGEST, INFINITY, INFINITY + 1, A_NAN]) + [LARGEST_U32]
UNLISTED = 5


def plates():
    """The worked plates of document 01, and shapes like them, as drawing gives them."""
    triangle = vertices((0, 0), (3, 0), (3, 4))
    for closed, patterns in ((1, triangle), (0, triangle), (0, vertices((0, 0), (3, 4))), (1, vertices((5, -6)))):
        yield drawn(bezier_path(closed, [decode(p) for p in patterns]))
    for sides in ((0, 0, 3, 4, 0), (0, 0, 8, 4, 1), (Fraction(1, 2), -3, 5, 5, 100)):
        yield drawn(rect_path([decode(p) for p in numbers_of(*sides)]))


def contours():
    """Every list of one and two commands, and lists in which the point and the contour's start come and go."""
    yield Commands([], [])
    yield from (filled([code], POINTS) for code in SIZES)
    yield from (filled([first, second], POINTS) for first in SIZES for second in SIZES)
    for letters in (
        "LLZ", "LLZL", "LLZLL", "LZLLZ", "ZLLZZLL", "QZQQ", "CZCCZLL", "LZMLZ", "LZZMLZ", "ZZMLLZ", "ZMZL", "QLZCLZL",
        "MLLZ", "MLLZZ", "MLZZLZ", "MLZLL", "MQZQ", "MCZC", "MLLZQC", "MZZZL", "MLMLZ", "MLZMLZ", "MMLZ", "MLLM",
        "MLLMZ", "MLLZMZ", "LMLZ", "QLMCZL", "MLLMLLZLZ", "MCQLZMQCLZ",
    ):
        yield filled(["MLCZQ".index(letter) for letter in letters], POINTS)


def special_curves():
    """Straight and degenerate curves, and curves at the ends of the range."""
    top, low = LIMIT_PATTERN, LIMIT_PATTERN | SIGN
    tiny = [TINIEST, 2, 3 | SIGN, LARGEST_SUBNORMAL, SMALLEST_NORMAL | SIGN, SMALLEST_NORMAL + 1]
    points = [
        numbers_of(0, 0, 1, 2, 2, 4, 3, 6),
        numbers_of(-3, 5, 0, 5, 3, 5, 6, 5),
        numbers_of(7, -1, 7, -1, 7, -1, 7, -1),
        numbers_of(0, 0, 0, 0, 3, 4, 3, 4),
        numbers_of(0, 0, 3, 4, 3, 4, 3, 4),
        numbers_of(0, 0, 9, 12, -6, -8, 0, 0),
        numbers_of(0, 0, 5, 0, 0, 0, 5, 0),
        numbers_of(0, 0, 100, 0, -99, 1, 1, 1),
        [rounded(Fraction(n, 10)) for n in (1, 2, 4, 5, 7, 8, 10, 11)],
        [ZERO] * 8, [SIGN] * 8, [SIGN, ZERO] * 4, [ZERO, SIGN, SIGN, ZERO] * 2, [SIGN, ONE, ZERO, ONE | SIGN] * 2,
        [top] * 8, [low] * 8, [top, low] * 4, [low, low, top, top] * 2,
        [low, top, top, top, top, low, low, low], [top, low, low, top, top, low, low, top],
        [top - 1, low, low - 1, top, low, low - 1, top, top - 1], [top, TINIEST, low, SIGN, TINIEST, top, ONE, low],
        [top, ONE, top - 1, ONE + 1, top - 2, ONE + 2, top - 3, ONE],
        [TINIEST] * 8, [TINIEST, ZERO, ZERO, TINIEST] * 2, [TINIEST, TINIEST | SIGN] * 4,
        [ZERO, ZERO, 5, 7, 11, 13, 2, 3], tiny + tiny[:2], tiny[::-1] + tiny[2:4],
        [LARGEST_SUBNORMAL, ZERO, SMALLEST_NORMAL, TINIEST] * 2,
        [ONE, TINIEST, SMALLEST_NORMAL, ONE | SIGN, TINIEST, ONE, ZERO, SMALLEST_NORMAL],
        [of(Fraction(1, 2**n)) for n in (60, 61, 70, 75, 76, 80, 90, 149)],
    ]
    for patterns in points:
        yield filled([MOVE, QUAD], patterns[:6])
        yield filled([MOVE, CUBIC], patterns)


def curves(count, pattern):
    """So many quads and so many cubics, with every number made by itself."""
    for code in [QUAD, CUBIC] * count:
        yield filled([MOVE, code], [pattern() for _ in range(2 + SIZES[code])])


def random_curves(rng):
    for count, low, high in ((14, -3, 12), (5, 12, 21), (3, -149, -120), (4, -60, 21), (3, -12, -9)):
        yield from curves(count, lambda: rng.pattern(low, high))
    yield from curves(3, lambda: rng.bits(1) << 31 | rng.bits(rng.between(1, 24)))
    # Small curves far from zero, whose numbers have their first digits in common.
    for count, far in ((2, 2**19), (2, 4000000)):
        yield from curves(count, lambda: of(far + Fraction(rng.bits(5), 4)))
    yield from curves(10, lambda: of(Fraction(rng.between(-2**20, 2**20), 1024)))


def random_lists(rng):
    """Lists of lines, and lists of all kinds. An odd count of numbers is given, and they are read over and over."""
    for low, high in ((-3, 12), (12, 21), (-149, -120), (-60, 21), (-149, 21)):
        yield filled([MOVE, LINE, LINE, CLOSE], [rng.pattern(low, high) for _ in range(6)])
    for _ in range(32):
        codes = [rng.between(0, 4) for _ in range(rng.between(3, 8))]
        low = rng.between(-20, 10)
        yield filled(codes, [rng.pattern(low, low + 9) for _ in range(2 * rng.between(2, 4) + 1)])
    # Lines that are shorter and shorter beside the length so far.
    yield filled([MOVE] + [LINE] * 9, numbers_of(*(Fraction(3 * 2**20, 2**n) for n in range(0, 33, 3))))


def long_lists():
    """Codes and numbers over and over."""
    yield Commands(EVERY_KIND, EVERY_KIND_PATTERNS, count=205, length=574)
    yield Commands([LINE], [rounded(Fraction(n, 10)) for n in range(1, 8)], count=3075, length=6150)
    yield Commands([CLOSE], [], count=MOST_COMMANDS)


def faulty_numbers():
    """Each kind of command with too few numbers and with one too many, and numbers past the limit at each place."""
    for code, size in SIZES.items():
        yield from (Commands([code], POINTS, length=length) for length in range(size + 2) if length != size)
    yield from (Commands([MOVE, LINE], [ONE, pattern, ONE, ONE]) for pattern in REFUSED)
    for at in range(len(EVERY_KIND_PATTERNS)):
        patterns = list(EVERY_KIND_PATTERNS)
        patterns[at] = REFUSED[at % len(REFUSED)]
        yield Commands(EVERY_KIND, patterns)


def faulty_codes():
    for code in (UNLISTED, 6, 9, 128, 255):
        yield Commands([code], [])
        yield Commands([MOVE, code, LINE], POINTS, length=4)
    yield Commands(EVERY_KIND + [UNLISTED], EVERY_KIND_PATTERNS)


def orders_of_checks():
    one, bad = [ONE], [A_NAN]
    # In one command 4 is before 12 and 3, and 12 before 3.
    yield from (Commands([UNLISTED], bad * length) for length in (1, 6))
    yield from (Commands([code], bad * (SIZES[code] - less)) for code in (LINE, CUBIC, QUAD) for less in (1, 0))
    # The first faulty command counts.
    yield Commands([LINE, UNLISTED], bad + one)
    yield Commands([LINE, UNLISTED], one + [LIMIT_PATTERN + 1])
    yield Commands([CUBIC, UNLISTED], one * 5)
    yield Commands([UNLISTED, LINE], bad * 2)
    yield Commands([LINE, LINE], bad + one * 2)
    yield Commands([LINE, LINE], one * 2 + bad)
    yield Commands([LINE, CUBIC, UNLISTED], one * 7)
    yield Commands([CLOSE, UNLISTED, LINE], bad)
    yield Commands([QUAD, LINE, 255], one * 5 + [INFINITY])
    # Numbers that are left over come last, and are not read.
    yield from (Commands([], patterns) for patterns in (one, bad))
    yield Commands([CLOSE] * 3, bad)
    yield Commands([LINE, LINE], one * 4 + bad)
    yield Commands([LINE, LINE], one * 3 + bad + one)
    yield Commands([LINE, UNLISTED], one * 9)
    yield Commands(EVERY_KIND, one, length=15)
    # Too many commands come first.
    yield from (Commands([code], bad, count=MOST_COMMANDS + 1, length=7) for code in (CLOSE, LINE, UNLISTED))
    yield Commands([CLOSE], [], count=MOST_COMMANDS + 1)
    yield Commands([LINE], one, count=MOST_COMMANDS, length=LARGEST_NUMBERS)
    yield Commands([CLOSE], one, count=MOST_COMMANDS)


def at_limit():
    yield Commands(EVERY_KIND, [LIMIT_PATTERN, LIMIT_PATTERN | SIGN, LIMIT_PATTERN - 1], length=14)


def asked(rng):
    """Lists and the commands that are asked for."""
    edges = [SIGN, TINIEST, LIMIT_PATTERN | SIGN, LARGEST_SUBNORMAL | SIGN, ZERO, SMALLEST_NORMAL, ONE + 1]
    one = [ONE]
    yield (filled(EVERY_KIND, EVERY_KIND_PATTERNS), (*range(7), 2**31, LARGEST_U32))
    yield (filled([CLOSE, CUBIC, LINE, QUAD, MOVE], edges), range(6))
    for _ in range(12):
        count = rng.between(3, 8)
        commands = filled([rng.between(0, 4) for _ in range(count)], [rng.pattern(-9, 9) for _ in range(7)])
        yield (commands, (rng.between(0, count - 1), rng.between(0, count)))
    yield (Commands([], []), (0, 1, LARGEST_U32))
    yield (Commands(EVERY_KIND, EVERY_KIND_PATTERNS, count=205, length=574), (99, 202, 204, 205))
    yield (Commands([CLOSE], [], count=MOST_COMMANDS), (0, MOST_COMMANDS - 1, MOST_COMMANDS))
    # The list is judged first, whether the command that is asked for is sound or missing.
    yield (Commands([MOVE, UNLISTED], one * 2), (0, 1, 2))
    yield (Commands([MOVE, LINE], one * 3), (0, 1, 2))
    yield (Commands([MOVE, LINE], one * 5), (0, 1, 2))
    yield (Commands([MOVE, LINE], one * 3 + [A_NAN]), (0, 1, 2))
    yield (Commands([MOVE, LINE], one * 3 + [LIMIT_PATTERN + 1]), (0, 1, 2))
    yield (Commands([], one), (0, LARGEST_U32))
    yield (Commands([CLOSE], [], count=MOST_COMMANDS + 1), (0, MOST_COMMANDS, MOST_COMMANDS + 1))


SQUARE = filled([MOVE, LINE, LINE, LINE, CLOSE], numbers_of(0, 0, 4, 0, 4, 4, 0, 4))
FIVE = numbers_of(0, 0, 3, 4)
FIVE_AND_UNLISTED = Commands([MOVE, LINE, 77], FIVE + [A_NAN])


def turns(commands):
    """The patterns of the lengths at which a list's reply turns, with their neighbours."""
    lengths = [encode(length) for length in commands.first_lengths() if length is not None]
    return [pattern for length in dict.fromkeys(lengths) for pattern in around(length)]


def turning(rng):
    """Lists whose replies are asked for where they turn: contours that come and go, curves, and tiny and large ones."""
    low = LIMIT_PATTERN | SIGN
    for letters in ("LLZLL", "MLZZL", "MLLMZL", "CZQL"):
        yield filled(["MLCZQ".index(letter) for letter in letters], POINTS)
    yield filled(EVERY_KIND, EVERY_KIND_PATTERNS)
    yield filled([MOVE, LINE, LINE, QUAD], numbers_of(0, 0, 3, 4, 3, 4, 3, 4, 3, 4))
    yield filled([MOVE, LINE, CUBIC], [TINIEST, ZERO, ZERO, 3, 5, 7, 11, 13])
    yield filled([MOVE, LINE, LINE], [LARGEST_SUBNORMAL, ZERO, SMALLEST_NORMAL, TINIEST, ZERO, SIGN])
    yield filled([MOVE, LINE, LINE, CLOSE], [low, LIMIT_PATTERN, LIMIT_PATTERN])
    # A line that is too short to be seen beside the length so far.
    yield filled([MOVE, LINE, LINE, LINE], numbers_of(0, 0, 2**22, 0, 2**22, Fraction(1, 8), 2**22, 1))
    for _ in range(3):
        codes = [MOVE] + [rng.between(0, 4) for _ in range(4)]
        yield filled(codes, [rng.pattern(-6, 6) for _ in range(5)])


def stopping():
    """Lists that are 5 long after two commands, and faulty or with numbers left over after them."""
    bad = [A_NAN]
    yield Commands([MOVE, LINE, UNLISTED], FIVE)
    yield from (Commands([MOVE, LINE, code], FIVE + [ONE] * (SIZES[code] - 1)) for code in (MOVE, LINE, CUBIC, QUAD))
    yield Commands([MOVE, LINE, CUBIC, UNLISTED], FIVE + bad * 5)
    yield from (Commands([MOVE, LINE, LINE], FIVE + [ONE, pattern]) for pattern in REFUSED[1::3])
    yield Commands([MOVE, LINE, LINE], FIVE + bad * 3)
    yield Commands([MOVE, LINE, CLOSE], FIVE + [ONE])
    yield from (Commands([MOVE, LINE], FIVE + more) for more in ([ONE], bad, bad * 7))
    # The fault is in the line that would reach 5, or before it.
    yield Commands([MOVE, LINE, LINE], FIVE[:3] + bad + FIVE[2:])
    yield Commands([MOVE, LINE], FIVE[:3])
    yield Commands([MOVE, UNLISTED, LINE], FIVE)
    yield Commands([UNLISTED, MOVE, LINE], FIVE)
    yield Commands([LINE], bad)
    yield Commands([], [ONE])


def no_lengths():
    """Patterns of numbers that are no length, and of both zeros."""
    negative = [pattern | SIGN for pattern in (TINIEST, SMALLEST_NORMAL, ONE, LARGEST, INFINITY, A_NAN)]
    return [ZERO, SIGN, INFINITY, INFINITY + 1, A_NAN, LARGEST_U32] + negative


def reached(rng):
    """Lists and the lengths that they are to reach."""
    yield (SQUARE, (*numbers_of(0, 4, 16), of(16) + 1))
    yield (FIVE_AND_UNLISTED, (*numbers_of(0, 5, Fraction(11, 2)), *no_lengths(), TINIEST, LARGEST))
    yield (SQUARE, (*turns(SQUARE), *no_lengths(), TINIEST, LARGEST_SUBNORMAL, SMALLEST_NORMAL, ONE, LARGEST))
    yield (Commands([], []), (ZERO, SIGN, TINIEST, LARGEST, A_NAN))
    yield from ((commands, (*turns(commands), LARGEST)) for commands in turning(rng))
    yield from ((commands, (ZERO, of(5), of(5) + 1)) for commands in stopping())
    yield (Commands([MOVE, LINE], FIVE, count=60, length=120), (*numbers_of(5, 75, 150), of(150) + 1))
    # Of too many commands nothing else is told, and of the most commands 0 is reached by none.
    many = [Commands([code], [ONE], count=MOST_COMMANDS + 1, length=7) for code in (CLOSE, UNLISTED)]
    yield from ((commands, (ZERO, ONE, A_NAN, ONE | SIGN)) for commands in many)
    most = [Commands([code], [A_NAN], count=MOST_COMMANDS, length=7) for code in (CLOSE, UNLISTED)]
    yield from ((commands, (ZERO, SIGN, A_NAN, INFINITY)) for commands in most)


def vectors():
    """Every call, as its line of stdin and its lines of stdout."""
    rng = Random(20240302)
    for lists in (
        plates(), contours(), special_curves(), random_curves(rng), random_lists(rng), long_lists(), at_limit(),
        faulty_numbers(), faulty_codes(), orders_of_checks(),
    ):
        yield from (commands.measured() for commands in lists)
    yield from (commands.asked(k) for commands, places in asked(rng) for k in places)
    yield from (commands.reached(least) for commands, lengths in reached(rng) for least in lengths)


def texts():
    """What the two files hold."""
    pairs = dict.fromkeys(vectors())
    return "".join(line for line, _ in pairs), "".join(answer for _, answer in pairs)


if __name__ == "__main__":
    keep("length", *texts(), __doc__)
