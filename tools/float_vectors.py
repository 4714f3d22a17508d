#!/usr/bin/env python3
"""Makes the test vectors of the float functions.

It writes crates/vectors_float/stdin, one call a line, and crates/vectors_float/stdout, the same
line with the expected result. The expected values come from exact whole-number and fraction
arithmetic alone: no floating-point number is computed with here. The sample of the Rust's answers in
oracle/samples follows them.

A line of stdin is the operation and its operands, each as the 8 hexadecimal digits of its bit
pattern. A line of stdout is that line, ' = ', and the result's pattern, or 'nan' for any NaN.

    python3 tools/float_vectors.py            write both files
    python3 tools/float_vectors.py --check    compare both files; exit 1 where one differs
"""

from fractions import Fraction
from math import isqrt

from vector_files import keep

# A number is NAN, or a pair (sign, size): the sign is 0 or 1, the size a Fraction or INFINITE.
NAN = "nan"
INFINITE = "infinite"

PRECISION = 24
LEAST_EXPONENT = -149
LIMIT = Fraction(2) ** 128
FRACTION_DIGITS = PRECISION - 1


def two_to(exponent):
    return Fraction(2) ** exponent


# Patterns.

def decode(pattern):
    """The number of a bit pattern."""
    sign, exponent = pattern >> 31, pattern >> FRACTION_DIGITS & 255
    digits = pattern % 2**FRACTION_DIGITS
    if exponent == 255:
        return NAN if digits else (sign, INFINITE)
    if exponent == 0:
        return (sign, digits * two_to(LEAST_EXPONENT))
    return (sign, (2**FRACTION_DIGITS + digits) * two_to(exponent - 1 + LEAST_EXPONENT))


def encode(number):
    """The bit pattern of a number that a binary32 holds exactly."""
    if number == NAN:
        return 0x7FC00000
    sign, size = number
    if size == INFINITE:
        return sign << 31 | 0x7F800000
    unit = unit_of(size, PRECISION, LEAST_EXPONENT)
    digits = size / unit
    assert digits.denominator == 1 and digits < 2**PRECISION and size < LIMIT
    exponent = (unit / two_to(LEAST_EXPONENT)).numerator.bit_length() - 1
    return sign << 31 | (exponent << FRACTION_DIGITS) + digits.numerator


def of(value):
    """The pattern of a whole number or a Fraction that a binary32 holds exactly."""
    return encode((int(value < 0), abs(Fraction(value))))


# Rounding.

def unit_of(size, precision, least):
    """The distance of neighbours around a size, in a format of that precision and least exponent."""
    if size == 0:
        return two_to(least)
    exponent = size.numerator.bit_length() - size.denominator.bit_length()
    if two_to(exponent) > size:
        exponent -= 1
    return two_to(max(exponent - precision + 1, least))


def nearest(size, precision, least):
    """The number of a format with no largest exponent that is nearest to size, ties to even."""
    unit = unit_of(size, precision, least)
    digits, rest = divmod(size, unit)
    if rest > unit / 2 or rest == unit / 2 and digits % 2 == 1:
        digits += 1
    return digits * unit


def round_to_f32(sign, size):
    """The binary32 nearest to a size, ties to even, with that sign."""
    rounded = nearest(size, PRECISION, LEAST_EXPONENT)
    return (sign, INFINITE if rounded >= LIMIT else rounded)


def root_to_f32(square):
    """The binary32 nearest to the square root of a multiple of 2^-298, ties to even."""
    whole = (square * two_to(-2 * LEAST_EXPONENT)).numerator
    below = isqrt(whole)
    step = 2 ** max(below.bit_length() - PRECISION, 0)
    digits = below // step
    twice_middle = (2 * digits + 1) * step
    if 4 * whole > twice_middle**2 or 4 * whole == twice_middle**2 and digits % 2 == 1:
        digits += 1
    return round_to_f32(0, digits * step * two_to(LEAST_EXPONENT))


# The operations.

def size_of(number):
    return NAN if number == NAN else number[1]


def signed(number):
    sign, size = number
    return -size if sign else size


def place(number):
    """The number's place in the order, with the infinities just past the largest floats."""
    sign, size = number
    return signed((sign, LIMIT if size == INFINITE else size))


def less(x, y):
    """x < y, which is false where one is a NaN."""
    if x == NAN or y == NAN:
        return False
    return place(x) < place(y)


def add(x, y):
    """x + y, rounded once."""
    return mul_add(x, (0, Fraction(1)), y)


def mul_add(a, b, c):
    """a * b + c, rounded once."""
    if NAN in (a, b, c):
        return NAN
    sign = a[0] ^ b[0]
    if INFINITE in (a[1], b[1]):
        if 0 in (a[1], b[1]) or c[1] == INFINITE and c[0] != sign:
            return NAN
        return (sign, INFINITE)
    if c[1] == INFINITE:
        return c
    exact = signed(a) * signed(b) + signed(c)
    if exact == 0:
        return (sign if sign == c[0] else 0, Fraction(0))
    return round_to_f32(int(exact < 0), abs(exact))


def div(x, y):
    """x / y, rounded once. Both are finite, and y is not a zero."""
    return round_to_f32(x[0] ^ y[0], x[1] / y[1])


def hypot(x, y):
    """The root of x * x + y * y, rounded once. An infinity wins over a NaN."""
    if INFINITE in (size_of(x), size_of(y)):
        return (0, INFINITE)
    if NAN in (x, y):
        return NAN
    return root_to_f32(x[1] ** 2 + y[1] ** 2)


def whole(number, rule):
    """The number with the size that the rule gives for its sign and a finite size."""
    if size_of(number) in (NAN, INFINITE):
        return number
    sign, size = number
    return (sign, Fraction(rule(sign, size)))


def floor(x):
    """The largest whole number that is not above x."""
    return whole(x, lambda sign, size: -(-size // 1) if sign else size // 1)


def ceil(x):
    """The smallest whole number that is not below x."""
    return whole(x, lambda sign, size: size // 1 if sign else -(-size // 1))


def round_half_away(x):
    """The nearest whole number, a half away from zero."""
    return whole(x, lambda sign, size: (size + Fraction(1, 2)) // 1)


def absolute(x):
    """x without its sign."""
    return NAN if x == NAN else (0, x[1])


def rem_euclid_360(x):
    """Rust's x.rem_euclid(360.0)."""
    if size_of(x) in (NAN, INFINITE):
        return NAN
    sign, size = x
    rest = (sign, size % 360)
    return add(rest, (0, Fraction(360))) if sign and rest[1] else rest


def minimum(x, y):
    """The smaller, y where they are equal, and the other where one is a NaN."""
    return x if less(x, y) or y == NAN else y


def maximum(x, y):
    """The larger, y where they are equal, and the other where one is a NaN."""
    return x if less(y, x) or y == NAN else y


def clamp(x, low, high):
    """x brought into the range. A NaN stays, and a zero that is in the range keeps its sign."""
    raised = low if less(x, low) else x
    return high if less(high, raised) else raised


OPERATIONS = {
    "mul_add": mul_add,
    "hypot": hypot,
    "floor": floor,
    "ceil": ceil,
    "round": round_half_away,
    "abs": absolute,
    "rem": rem_euclid_360,
    "min": minimum,
    "max": maximum,
    "clamp": clamp,
}


# Patterns that vectors are made of.

SIGN = 0x80000000
ZERO, ONE, INFINITY, A_NAN = 0, 0x3F800000, 0x7F800000, 0x7FC00000
TINIEST, LARGEST_SUBNORMAL, SMALLEST_NORMAL, LARGEST = 1, 0x007FFFFF, 0x00800000, 0x7F7FFFFF
EDGES = [ZERO, TINIEST, LARGEST_SUBNORMAL, SMALLEST_NORMAL, ONE, LARGEST, INFINITY]


def both_signs(patterns):
    return [p | s for p in patterns for s in (0, SIGN)]


def around(pattern, reach=1):
    """A pattern and its neighbours of the same sign."""
    return [pattern + d for d in range(-reach, reach + 1) if pattern % SIGN + d >= 0]


def rounded(value):
    """The pattern of the float nearest to a value."""
    return encode(round_to_f32(int(value < 0), abs(Fraction(value))))


class Random:
    """Pseudorandom numbers by the splitmix64 recipe: the same on every machine and version."""

    def __init__(self, seed):
        self.state = seed

    def bits(self, count):
        self.state = (self.state + 0x9E3779B97F4A7C15) % 2**64
        z = self.state
        z = (z ^ z >> 30) * 0xBF58476D1CE4E5B9 % 2**64
        z = (z ^ z >> 27) * 0x94D049BB133111EB % 2**64
        return (z ^ z >> 31) >> (64 - count)

    def between(self, low, high):
        return low + self.bits(40) % (high - low + 1)

    def pattern(self, low=-149, high=127):
        """A finite float with its exponent in a range."""
        return self.bits(1) << 31 | self.between(max(low, -126), high) + 127 << 23 | self.bits(23)

    def odd(self, digits):
        """An odd number of that many binary digits."""
        return 2 ** (digits - 1) + self.bits(digits - 1) | 1


def until(count, make, good):
    """That many things of make() that are good."""
    found = []
    while len(found) < count:
        thing = make()
        if good(thing):
            found.append(thing)
    return found


# Vectors of mul_add: triples of patterns.

def exact_sum(triple):
    a, b, c = (signed(decode(p)) for p in triple)
    return a * b + c


def multiply_then_add(triple):
    a, b, c = (decode(p) for p in triple)
    return add(mul_add(a, b, (a[0] ^ b[0], Fraction(0))), c)


def by_binary64(triple):
    """The sum rounded to binary64, and that to binary32."""
    exact = exact_sum(triple)
    return round_to_f32(int(exact < 0), nearest(abs(exact), 53, -1074))


def once(triple):
    return mul_add(*(decode(p) for p in triple))


def is_tie(triple):
    size = abs(exact_sum(triple))
    return (size / unit_of(size, PRECISION, LEAST_EXPONENT)).denominator == 2


def tie(rng):
    """A 25-digit odd number as a product and an addend, so that the sum lies midway."""
    total = rng.odd(25)
    a, b = rng.odd(rng.between(2, 12)), rng.odd(rng.between(2, 12))
    scale = two_to(rng.between(-60, 60))
    rest = total - a * b
    flip = rng.bits(1)
    return (of((-a if flip else a)), of(b * scale), rounded((-rest if flip else rest) * scale))


def near_middle(rng):
    """A product that lies a hair beside the middle of two neighbours of the addend."""
    a, hair = rng.odd(24), 2 * rng.between(0, 20) + 1
    if rng.bits(1):
        hair = -hair
    b = hair * pow(a, -1, 2**24) % 2**24
    middle = a * b - hair
    unit = 2 * (middle & -middle)
    scale = two_to(rng.between(-110, 40))
    c = rng.odd(24) * unit * scale
    return (of(a), of(b * scale), of(-c if rng.bits(1) else c))


def near_cancellation(rng):
    """The addend is the product rounded, negated and nudged, so that few digits are left."""
    a, b = rng.pattern(-40, 40), rng.pattern(-40, 40)
    product = signed(decode(a)) * signed(decode(b))
    return (a, b, rounded(-product) + rng.between(-2, 2))


def cancellation(rng):
    """The addend is the product negated, exactly."""
    a, b = rng.odd(12), rng.odd(12) * two_to(rng.between(-40, 40))
    flip = rng.bits(1)
    return (of(-a if flip else a), of(b), of(a * b if flip else -a * b))


def subnormal_tie(rng):
    """A product of half the least size, or a hair less, beside a subnormal addend."""
    k = rng.between(0, 1) * rng.between(1, 300)
    shift = rng.between(-40, 40)
    a = (2**23 + k) * two_to(-23 - 75 + shift)
    b = (2**24 - 2 * k) * two_to(-24 - 75 - shift)
    c = rng.bits(rng.between(1, 23))
    return (of(a), of(-b if rng.bits(1) else b), c | rng.bits(1) << 31)


def subnormal_sum(rng):
    exponent = rng.between(-90, -40)
    return (rng.pattern(exponent, exponent), rng.pattern(-137 - exponent, -126 - exponent),
            rng.bits(1) << 31 | rng.bits(rng.between(1, 24)))


def overflows():
    top, half_unit = LARGEST, of(two_to(103))
    big = of(two_to(64))
    yield from ((ONE, top, c) for c in around(half_unit))
    yield from ((ONE | SIGN, top, c | SIGN) for c in around(half_unit))
    yield from ((a, b, c) for a in around(big) for b in around(big) for c in (ZERO, of(-two_to(104))))
    yield from ((a, of(two_to(63)), ZERO) for a in around(of(two_to(65))))
    yield (top, top, ZERO)
    yield (top, top | SIGN, top)
    yield (top, of(2), top | SIGN)
    yield (top, of(2), INFINITY | SIGN)
    yield (top, top | SIGN, INFINITY)
    yield (top, of(2), INFINITY)
    # The product alone is too large; the sum is not.
    yield (big, big, top | SIGN)
    yield (of(two_to(127)), of(2), top | SIGN)
    yield (of(two_to(127)), of(2), of(-two_to(127)))


def mul_add_vectors(rng):
    unit_signs = both_signs([ZERO, ONE])
    yield from ((a, b, c) for a in unit_signs for b in unit_signs for c in unit_signs)
    first = [A_NAN, INFINITY, INFINITY | SIGN, ZERO, ONE | SIGN, LARGEST]
    last = [A_NAN, INFINITY, INFINITY | SIGN, ZERO | SIGN, ONE]
    yield from ((a, b, c) for a in first for b in first for c in last)
    yield from until(30, lambda: tie(rng), is_tie)
    yield from until(24, lambda: near_middle(rng), lambda t: once(t) != multiply_then_add(t))
    yield from until(40, lambda: near_middle(rng), lambda t: once(t) != by_binary64(t))
    yield from (near_cancellation(rng) for _ in range(24))
    yield from (cancellation(rng) for _ in range(16))
    yield from until(16, lambda: subnormal_tie(rng), is_tie)
    yield from until(16, lambda: subnormal_tie(rng), lambda t: once(t) != by_binary64(t))
    yield from (subnormal_sum(rng) for _ in range(20))
    yield from ((a | s, TINIEST, ZERO | t) for a in (TINIEST, ONE, ONE - 1, of(Fraction(1, 2)))
                for s in (0, SIGN) for t in (0, SIGN))
    yield from overflows()
    yield from ((rng.pattern(-4, 4), rng.pattern(-4, 4), rng.pattern(-6, 6)) for _ in range(30))


# Vectors of hypot: pairs of patterns.

def fits(n):
    return n > 0 and n.bit_length() - (n & -n).bit_length() < PRECISION


def odd_hypotenuse(rng):
    """Legs, whole numbers, of a right triangle with an odd hypotenuse: k(m^2 - n^2), 2kmn."""
    k = 2 * rng.between(0, 200) + 1
    m = isqrt(rng.between(2**24, 2**25) // k)
    n = rng.between(0, max(m - 1, 0))
    return (k * (m * m - n * n), 2 * k * m * n)


def is_root_tie(legs, remainder):
    """The hypotenuse has 25 binary digits and that remainder by 4; the legs are floats."""
    x, y = legs
    h = isqrt(x * x + y * y)
    return fits(x) and fits(y) and h.bit_length() == 25 and h % 4 == remainder


def across_middle(rng):
    """A long leg, and short ones about 12 binades below, that bring the root to a middle."""
    x = 2**23 + rng.bits(23)
    square = ((2 * x + 1) ** 2 - (2 * x) ** 2) * 2**40
    y = rounded(isqrt(square) * two_to(-21))
    scale = two_to(rng.between(-60, 60))
    return [(of(x * scale), of(signed(decode(near)) * scale)) for near in around(y)]


def hypot_vectors(rng):
    triples = [(3, 4), (5, 12), (8, 15), (7, 24), (20, 21), (119, 120), (4059, 4060)]
    for x, y in triples:
        scale = two_to(rng.between(-30, 30))
        yield (of(x), of(y))
        yield (of(-y), of(x))
        yield (of(x * scale), of(-y * scale))
    for remainder in (1, 3):
        for x, y in until(16, lambda: odd_hypotenuse(rng), lambda p: is_root_tie(p, remainder)):
            scale = two_to(rng.between(-60, 60))
            yield (of(x), of(y))
            yield (of(-y * scale), of(x * scale))
    edges = both_signs(EDGES) + [A_NAN]
    yield from ((x, y) for x in edges for y in (ZERO, SIGN, ONE, INFINITY | SIGN, A_NAN))
    yield from ((x, x | SIGN) for x in EDGES)
    yield from ((x, y) for x in (1, 2, 3, 5, 100, 71362, LARGEST_SUBNORMAL) for y in (1, 4, 12, 21409))
    yield from ((rng.bits(23), rng.bits(rng.between(1, 24))) for _ in range(12))
    side = rounded(isqrt(2**299) * two_to(-22))
    yield from ((x, y) for x in around(side, 2) for y in around(side))
    yield from ((LARGEST, y) for y in (of(two_to(103)), of(two_to(115)), of(two_to(116)), of(two_to(117)), LARGEST))
    for binades in (11, 12, 13, 14):
        longs = both_signs([ONE, ONE + 1, of(2) - 1]) + [rng.pattern(0, 0)]
        shorts = [ONE, of(2) - 1, rng.pattern(0, 0)]
        yield from ((x, of(signed(decode(y)) * two_to(-binades))) for x in longs for y in shorts)
    for _ in range(16):
        yield from across_middle(rng)
    yield from ((rng.pattern(-10, 20), rng.pattern(-10, 20)) for _ in range(20))


# Vectors of the functions of one number.

def whole_vectors(rng):
    halves = [of(Fraction(n, 2)) for n in (1, 2, 3, 5, 7, 15, 4095, 2**22 - 1, 2**24 - 3, 2**24 - 1)]
    quarters = [of(Fraction(n, 4)) for n in (1, 3, 5, 2**23 + 1, 2**24 - 1)]
    large = [2**22 + 1, 2**23 - 1, 2**23, 2**23 + 1, 2**24 - 1, 2**24, 2**24 + 2, 2**31, 2**100]
    patterns = [near for half in halves for near in around(half)] + quarters + [of(n) for n in large]
    patterns += [rounded(Fraction(n, 10)) for n in (1, 3, 9, 11, 29)] + EDGES
    patterns += [2, ONE - 1, of(two_to(-25)), of(two_to(-24)), of(Fraction(1, 1024))]
    yield from both_signs(patterns)
    yield A_NAN
    yield from (rng.pattern(-3, 24) for _ in range(20))


def remainder_vectors(rng):
    counts = [1, 2, 3, 7, 100, 1000, 46603, 2**16, 2**20 + 1, 2**21 - 1]
    turns = [of(360 * n) for n in counts if fits(360 * n)] + [rounded(Fraction(360) * 2**n) for n in (30, 60, 90, 119)]
    halves = [of(360 * n + Fraction(1, 2)) for n in (0, 1, 2, 9, 100, 10000)]
    tiny = [TINIEST, LARGEST_SUBNORMAL, SMALLEST_NORMAL, of(two_to(-60)), of(two_to(-17)), of(two_to(-16)), of(two_to(-15))]
    huge = [rounded(Fraction(10) ** n) for n in range(5, 39, 3)] + [LARGEST, LARGEST - 1, of(two_to(127))]
    plain = [of(n) for n in (0, 1, 45, 90, 180, 270, 359, 361, 450, 719, 721)]
    near = [pattern for turn in turns for pattern in around(turn)]
    near += around(of(two_to(-17))) + around(of(two_to(-16)))
    yield from both_signs(near + halves + tiny + huge + plain + [INFINITY])
    yield A_NAN
    yield from (rng.pattern(-6, 127) for _ in range(40))


# Vectors of min, max and clamp.

def pair_vectors():
    values = both_signs([ZERO, TINIEST, ONE, INFINITY]) + [A_NAN, LARGEST, of(-two_to(60))]
    yield from ((x, y) for x in values for y in values)


def clamp_vectors():
    values = both_signs([ZERO, TINIEST, of(Fraction(1, 2)), ONE, ONE + 1, LARGEST, INFINITY]) + [A_NAN]
    ranges = [(ZERO, ONE), (ONE | SIGN, ONE), (SIGN, ZERO), (of(-100), of(100)), (INFINITY | SIGN, INFINITY), (ONE, ONE)]
    yield from ((x, low, high) for low, high in ranges for x in values)
    yield from ((x, low, high) for x in (ONE, A_NAN) for low, high in ((A_NAN, ZERO), (of(2), A_NAN), (ONE, ZERO)))


# The files.

def vectors():
    """Every vector, once: an operation and its operands."""
    rng = Random(20240229)
    lines = [("mul_add", *v) for v in mul_add_vectors(rng)]
    lines += [("hypot", *v) for v in hypot_vectors(rng)]
    patterns = list(whole_vectors(rng))
    lines += [(name, p) for name in ("floor", "ceil", "round") for p in patterns]
    lines += [("abs", p) for p in both_signs(EDGES) + [A_NAN] + [rng.pattern() for _ in range(10)]]
    lines += [("rem", p) for p in remainder_vectors(rng)]
    lines += [(name, *v) for name in ("min", "max") for v in pair_vectors()]
    lines += [("clamp", *v) for v in clamp_vectors()]
    return list(dict.fromkeys(lines))


def texts():
    """What the two files hold."""
    calls, results = [], []
    for name, *operands in vectors():
        call = " ".join([name] + ["%08x" % p for p in operands])
        result = OPERATIONS[name](*(decode(p) for p in operands))
        calls.append(call + "\n")
        results.append("%s = %s\n" % (call, NAN if result == NAN else "%08x" % encode(result)))
    return "".join(calls), "".join(results)


if __name__ == "__main__":
    keep("float", *texts(), __doc__)
