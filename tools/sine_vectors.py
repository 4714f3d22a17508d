#!/usr/bin/env python3
"""Works out the table of sines by whole numbers alone, and compares the library's with it.

The table has 1,441 numbers, for 0 to 90 degrees by sixteenths of a degree. Each is the whole number
nearest to 2^30 times the sine. Pi comes from two arctangents and the sine from its Taylor sum, each
with a bound of how far it may be off; where that bound cannot tell which whole number is nearest,
nothing is given. The vectors of repeaters take their sines and cosines from here.

    python3 tools/sine_vectors.py                       print the table, a number a line
    python3 tools/sine_vectors.py --check [FILE..]      compare the tables in the files with it;
                                                        exit 1 where a number differs

Without files those of the crate sine are compared: the table that is compiled and the one that is
proved. In a file, 100 numbers or more in a row, with a comma or a cons sign after each, are a part of
its table, and the parts one after another are the table.
"""

import re
import sys
from fractions import Fraction
from pathlib import Path

from float_vectors import rounded
from vector_files import ROOT

FILES = [ROOT / "crates" / "sine" / "src" / "lib.rt", ROOT / "crates" / "sine" / "specs" / "Table.antt"]

QUARTER = 1440
TURN = 4 * QUARTER
SCALE = 2**30

# So many numbers in a row are a part of a table.
PART_OF_TABLE = 100

# Numbers between the whole ones are given in parts of 10^-60.
PART = 10**60


def arctangent_of_one_over(n):
    """The arctangent of 1/n in parts, and by how many parts it may be off.

    Each term is rounded down, so it is off by less than a part. The terms fall and their signs
    alternate, so what comes after the last one is less than a part too.
    """
    total, terms, power = 0, 0, PART // n
    while power:
        term = power // (2 * terms + 1)
        total += term if terms % 2 == 0 else -term
        power //= n * n
        terms += 1
    return total, terms + 1


def pi():
    """Pi in parts, and by how many it may be off: 16 arctan(1/5) - 4 arctan(1/239)."""
    fifth, fifth_off = arctangent_of_one_over(5)
    other, other_off = arctangent_of_one_over(239)
    return 16 * fifth - 4 * other, 16 * fifth_off + 4 * other_off


PI, PI_OFF = pi()


def taylor_sum(x):
    """The sine of x parts in parts, for an x of 0 to less than 7, and by how many parts it may be off.

    A term is made of the one before by a factor, and rounded down. The factors are at most 49/6, 49/20,
    49/42, 49/72 and less, so that no term is off by more than 6 parts. The sum ends after 10 terms or
    later, where each term is less than half of the one before, with a term that is less than 7 parts.
    """
    total, terms, term = 0, 0, x
    while term or terms < 10:
        total += term if terms % 2 == 0 else -term
        terms += 1
        term = term * x * x // (PART * PART * (2 * terms) * (2 * terms + 1))
    return total, 6 * terms + 7


def nearest_sine(k):
    """The whole number nearest to 2^30 times the sine of k sixteenths of a degree, for k below 5,760."""
    x, x_off = k * PI // 2880, k * PI_OFF // 2880 + 2
    total, off = taylor_sum(x)
    # The sine of another number is off by no more than the number is.
    number, rest = divmod(2 * SCALE * total + PART, 2 * PART)
    if min(rest, 2 * PART - rest) <= 2 * SCALE * (off + x_off):
        sys.exit("sines: %d sixteenths are too near to the middle of two whole numbers" % k)
    return number


SINES = [nearest_sine(k) for k in range(QUARTER + 1)]


# The whole turn, from the table.

def sine(k):
    """2^30 times the sine of k sixteenths of a degree, for any k."""
    quarter, rest = divmod(k % TURN, QUARTER)
    size = SINES[QUARTER - rest] if quarter % 2 else SINES[rest]
    return -size if quarter >= 2 else size


def cosine(k):
    return sine(k + QUARTER)


def ratio_pattern(entry):
    """The pattern of the float nearest to entry over 2^30, ties to even. That of 0 is +0."""
    return rounded(Fraction(entry, SCALE))


# Cosine and sine of every direction, as patterns.
DIRECTIONS = [(ratio_pattern(cosine(k)), ratio_pattern(sine(k))) for k in range(TURN)]


# The checks.

def own_faults():
    """What is wrong with the table worked out here."""
    if any(low >= high for low, high in zip(SINES, SINES[1:])):
        yield "the table does not rise"
    for k in range(TURN):
        if abs(sine(k) ** 2 + cosine(k) ** 2 - 2**60) > 2**31:
            yield "the squares at %d sixteenths do not come to 2^60 within 2^31" % k
        if nearest_sine(k) != sine(k):
            yield "the sine of %d sixteenths by the quarter is not the nearest" % k


def table_in(text):
    """The numbers of the long rows in a text."""
    rows = (re.findall(r"[0-9_]+", row) for row in re.findall(r"[0-9_]+(?:\s*[,∷]\s*[0-9_]+)+", text))
    return [int(number) for row in rows if len(row) >= PART_OF_TABLE for number in row]


def faults_of(path):
    """What is wrong with the table in a file."""
    table = table_in(path.read_text()) if path.exists() else []
    if len(table) != len(SINES):
        yield "%s has a table of %d numbers, and not of %d" % (path, len(table), len(SINES))
    wrong = [k for k, pair in enumerate(zip(table, SINES)) if pair[0] != pair[1]]
    if wrong:
        yield "%s: %d numbers differ, the first at %d sixteenths" % (path, len(wrong), wrong[0])


def check(paths):
    faults = [*own_faults(), *(fault for path in paths for fault in faults_of(path))]
    if faults:
        sys.exit("sines: " + "\n".join(faults))
    print("sines: %d, and all %d directions, as computed in %d files" % (len(SINES), TURN, len(paths)))


if __name__ == "__main__":
    if sys.argv[1:2] == ["--check"]:
        check([Path(word) for word in sys.argv[2:]] or FILES)
    elif sys.argv[1:]:
        sys.exit(__doc__)
    else:
        print("\n".join(map(str, SINES)))
