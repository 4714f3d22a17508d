#!/usr/bin/env python3
"""Prints items of a Rust text, each found by its name and unchanged: cut.py TEXT NAME.."""

import re
import sys
from pathlib import Path

# What may hold a bracket that is none: comments, strings and characters.
QUOTED = re.compile(r'//[^\n]*|/\*.*?\*/|"(?:\\.|[^"\\])*"|\'(?:\\.|[^\'\\])\'', re.S)


def item(text, plain, name):
    """The function or constant of that name; plain is the text with blanks for what is quoted."""
    found = list(re.finditer(r"^(?:pub(?:\(\w+\))? )?(?:fn|const) %s\b" % name, plain, re.M))
    if len(found) != 1:
        sys.exit("cut: the text has %d items named %s" % (len(found), name))
    start = found[0].start()
    depth = 0
    for at in range(start, len(plain)):
        depth += (plain[at] in "([{") - (plain[at] in ")]}")
        if depth == 0 and plain[at] in ";}":
            return text[start:at + 1]
    sys.exit("cut: %s does not end" % name)


def main():
    if len(sys.argv) < 3:
        sys.exit(__doc__)
    text = Path(sys.argv[1]).read_text()
    plain = QUOTED.sub(lambda quoted: " " * len(quoted.group()), text)
    print("\n\n".join(item(text, plain, name) for name in sys.argv[2:]))


if __name__ == "__main__":
    main()
