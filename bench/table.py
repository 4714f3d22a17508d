"""table.py FOLDER BUILD..: joins what the programs of bench/run printed into one table.

A line of FOLDER/BUILD.times is a call, what its times are for, our time and Rust's, in ns; a dash is no time.
Each ratio is of two times of one program.
"""

import sys

NAMES = {"plain": "Rust", "libm": "over libm", "fma": "with FMA"}


def times(folder, build):
    with open(f"{folder}/{build}.times") as lines:
        return [line.rstrip("\n").split("\t") for line in lines]


def figure(time):
    return "-" if time == "-" else f"{float(time):.{2 if float(time) < 100 else 0}f}"


def ratio(ours, theirs):
    return "-" if theirs == "-" else f"{float(ours) / float(theirs):.2f}"


def main(folder, builds):
    tables = [times(folder, build) for build in builds]
    print(f"{'ns':30}{'ours':>9}" + "".join(f"{NAMES[build]:>11}{'ratio':>7}" for build in builds) + "  per")
    for rows in zip(*tables):
        call, unit, ours, _ = rows[0]
        pairs = "".join(f"{figure(row[3]):>11}{ratio(row[2], row[3]):>7}" for row in rows)
        print(f"{call:30}{figure(ours):>9}{pairs}  {unit}")


main(sys.argv[1], sys.argv[2:])
