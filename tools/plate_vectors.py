#!/usr/bin/env python3
"""Makes the texts on which the program plate is tested.

It writes tests/plates/NAME.in, a text, and tests/plates/NAME.out, what plate has to print for it. The
expected values come from document 01's rules on exact numbers, as those of draw_vectors.py and
length_vectors.py do; no floating-point number is computed with here.

    python3 tools/plate_vectors.py            write the files
    python3 tools/plate_vectors.py --check    compare them; exit 1 where one differs
"""

from fractions import Fraction

from draw_vectors import LONG, LIMIT_PATTERN, SHORT, path_outcome, vertices
from float_vectors import A_NAN, INFINITY, LARGEST, ONE, SIGN, TINIEST, ZERO, Random, decode, encode, of
from length_vectors import path_length
from vector_files import ROOT, keep_files

MOST_VERTICES = 256
LARGEST_PATTERN = 2**32 - 1


# The rules of document 01 for the text.

def field(columns):
    """The value of a field, or None."""
    digits = columns.lstrip(" ")
    if len(columns) != 11 or not digits or not all("0" <= c <= "9" for c in digits) or int(digits) > LARGEST_PATTERN:
        return None
    return int(digits)


def read_line(text, fields):
    """The values of the fields that the text starts with, and the text after their newline; or None."""
    values = [field(text[i:i + 11]) for i in range(0, 11 * fields, 11)]
    if None in values or text[11 * fields:11 * fields + 1] != "\n":
        return None
    return values, text[11 * fields + 1:]


def read(text):
    """The closed flag and the patterns of a text, or the number of its refusal."""
    line = read_line(text, 1)
    if line is None:
        return 4
    (closed,), text = line
    patterns = []
    while text and len(patterns) < 6 * MOST_VERTICES:
        line = read_line(text, 6)
        if line is None:
            return 4
        patterns += line[0]
        text = line[1]
    return 2 if text else (closed, patterns)


def printed_line(code, numbers):
    return "%2d%s\n" % (code, "".join("%11d" % n for n in numbers))


def printed(text):
    """What plate prints for a text."""
    outcome = read(text)
    if not isinstance(outcome, int):
        closed, patterns = outcome
        outcome = path_outcome(closed, len(patterns) // 6, [decode(p) for p in patterns])
    if isinstance(outcome, int):
        return printed_line(8, [outcome])
    lines = [printed_line(code, [encode(x) for x in numbers]) for code, numbers in outcome]
    return "".join(lines) + printed_line(9, [encode(path_length(outcome))])


# The texts.

def vertex_line(patterns):
    return "".join("%11d" % p for p in patterns) + "\n"


def text_of(closed, patterns):
    return "%11d\n" % closed + "".join(vertex_line(patterns[i:i + 6]) for i in range(0, len(patterns), 6))


TRIANGLE = vertices((0, 0), (3, 0), (3, 4))
LINE = vertices((0, 0), (3, 4))
POINT_LINE = vertex_line(vertices((5, -6)))
SAMPLE = text_of(0, LINE)


def drawings():
    yield "sample", SAMPLE
    yield "triangle", text_of(1, TRIANGLE)
    yield "open_triangle", text_of(0, TRIANGLE)
    yield "rectangle_3_by_4", text_of(1, vertices((0, 0), (3, 0), (3, 4), (0, 4)))
    yield "one_vertex", text_of(0, vertices((5, -6)))
    yield "one_vertex_closed", text_of(1, vertices((5, -6)))
    yield "short_tangent", text_of(0, [ZERO, ZERO, ZERO, ZERO, SHORT, ZERO] + vertices((3, 4)))
    yield "long_tangent", text_of(0, [ZERO, ZERO, ZERO, ZERO, LONG, ZERO] + vertices((3, 4)))
    yield "negative_zeros", text_of(1, [SIGN] * 6 + vertices((1, 0)))
    yield "tiny_numbers", text_of(0, [TINIEST] * 6 + [ONE, TINIEST | SIGN, TINIEST, ZERO, ZERO, TINIEST])
    yield "numbers_at_the_limit", text_of(1, [LIMIT_PATTERN | s for s in (0, SIGN, 0, SIGN, 0, SIGN, SIGN, 0, SIGN, 0, SIGN, 0)])
    rng = Random(11)
    curves = [of(Fraction(rng.bits(21) - 2**20, 1024)) for _ in range(6 * 5)]
    yield "curves", text_of(1, curves)
    yield "leading_zeros", SAMPLE.replace("          0", "00000000000")
    most = vertices(*((i % 7, i * i % 11) for i in range(MOST_VERTICES)))
    yield "most_vertices", text_of(1, most)


def refused_lists():
    yield "no_vertices", text_of(0, [])
    yield "no_vertices_before_flag", text_of(7, [])
    yield "flag_2", text_of(2, LINE)
    yield "flag_before_nan", text_of(LARGEST_PATTERN, [A_NAN] * 6)
    yield "nan", text_of(0, LINE[:7] + [A_NAN] + LINE[8:])
    yield "largest_pattern", text_of(0, LINE[:11] + [LARGEST_PATTERN])
    yield "infinity", text_of(0, [INFINITY | SIGN] + LINE[1:])
    yield "past_the_limit", text_of(1, LINE[:5] + [LIMIT_PATTERN + 1] + LINE[6:])
    yield "largest_number", text_of(1, [LARGEST] + LINE[1:])


def out_of_form():
    yield "nothing", ""
    yield "newline_alone", "\n"
    yield "flag_without_newline", "%11d" % 0
    yield "flag_in_ten_columns", "%10d\n" % 0 + POINT_LINE
    yield "flag_in_twelve_columns", "%12d\n" % 0 + POINT_LINE
    yield "blank_flag", " " * 11 + "\n" + POINT_LINE
    yield "flag_with_a_sign", "         -1\n" + POINT_LINE
    yield "letter", SAMPLE[:20] + "x" + SAMPLE[21:]
    yield "tab", "\t" + SAMPLE[1:]
    yield "blank_field", SAMPLE[:12] + " " * 11 + SAMPLE[23:]
    yield "blank_after_digits", SAMPLE.replace("          0", "         0 ", 1)
    yield "blank_between_digits", "        1 1\n" + POINT_LINE
    yield "pattern_of_33_bits", SAMPLE[:12] + "%11d" % 2**32 + SAMPLE[23:]
    yield "eleven_nines", SAMPLE[:12] + "9" * 11 + SAMPLE[23:]
    yield "carriage_returns", SAMPLE.replace("\n", "\r\n")
    yield "last_newline_missing", SAMPLE[:-1]
    yield "empty_line_at_the_end", SAMPLE + "\n"
    yield "five_fields", SAMPLE[:-12] + "\n"
    yield "seven_fields", SAMPLE[:-1] + "%11d\n" % 0
    yield "out_of_form_before_nan", text_of(0, [A_NAN] * 6) + "x"


def too_long():
    most = text_of(0, vertices(*((i, 0) for i in range(MOST_VERTICES))))
    yield "one_vertex_too_many", most + POINT_LINE
    yield "newline_after_most_vertices", most + "\n"
    yield "letter_after_most_vertices", most + "x"
    yield "out_of_form_before_too_many", most[:12] + "x" + most[13:] + POINT_LINE
    yield "too_many_before_nan", text_of(3, [A_NAN] * 6 * MOST_VERTICES) + "0"
    yield "far_too_long", most * 4


def main():
    texts = [*drawings(), *refused_lists(), *out_of_form(), *too_long()]
    folder = ROOT / "tests" / "plates"
    files = {}
    for name, text in texts:
        files[folder / (name + ".in")] = text
        files[folder / (name + ".out")] = printed(text)
    assert len(files) == 2 * len(texts)
    keep_files("plate", len(texts), files, __doc__)


if __name__ == "__main__":
    main()
