#!/usr/bin/env python3
"""Brings the repository's own names to the spelling of today's Rattle: words in snake case.

usage: tools/respell.py [ROOT]     once, on a tree that the kit's port.py has turned

respell.tsv beside this file has a line for each name: the old one, the new one, and a file where the
line is for that file alone. Definitions, lemmas, fields and bound names of specs/ and proofs/ are
meant, wherever they stand: in specs/, in proofs/, and in the clauses and ghost lines of src/. A name
that a file imports from a library stays in that file, and so do words of a comment that do not stand
between backticks. Two words of a file that would fall together are told.
"""

import collections
import os
import re
import sys

NAME = r"[^\s(){}.;,@\"«»`]+"
USE = re.compile(r"^\s*(?:ghost )?use ([^\s;{]+?)(?:\.\{([^}]*)\})?(?: as ([^\s;]+))?;?$")


def table():
    everywhere, within = {}, collections.defaultdict(dict)
    path = os.path.join(os.path.dirname(os.path.abspath(__file__)), "respell.tsv")
    with open(path, encoding="utf-8") as lines:
        for line in lines:
            old, new, *file = line.rstrip("\n").split("\t")
            (within[file[0]] if file else everywhere)[old] = new
    return everywhere, within


def texts(root):
    for folder, folders, names in os.walk(os.path.join(root, "crates")):
        folders[:] = sorted(f for f in folders if f != "out")
        for name in sorted(names):
            if name.endswith((".rt", ".antt")):
                yield os.path.join(folder, name)


def imported(text, own):
    """The names that a file takes from a library."""
    found = set()
    for line in text.split("\n"):
        use = USE.match(line)
        if use:
            steps = use[1].split(".")
            if not (steps[0] == "Rattle" and len(steps) > 1 and steps[1] in own):
                found.update(name.strip() for name in (use[2] or "").split(","))
    return found


def turned(text, names, mark):
    def of_code(code):
        return re.sub(NAME, lambda m: names.get(m[0], m[0]), code)

    def of_comment(comment):
        return re.sub(r"`[^`\n]*`", lambda m: of_code(m[0]), comment)

    lines = []
    for line in text.split("\n"):
        cut = re.search(mark, line)
        at = cut.start() if cut else len(line)
        lines.append(of_code(line[:at]) + of_comment(line[at:]))
    return "\n".join(lines)


def together(text, names):
    """Names of a text that differ now and would not differ then."""
    seen = collections.defaultdict(set)
    for token in set(re.findall(NAME, text)):
        seen[names.get(token, token)].add(token)
    return {new: old for new, old in seen.items() if len(old) > 1}


def main(root):
    everywhere, within = table()
    own = set(os.listdir(os.path.join(root, "crates")))
    for path in texts(root):
        with open(path, encoding="utf-8") as file:
            text = file.read()
        names = {**everywhere, **within.get(os.path.relpath(path, root), {})}
        for name in imported(text, own):
            names.pop(name, None)
        mark = r"//" if path.endswith(".rt") else r"(?<!\S)--"
        new = turned(text, names, mark)
        if path.endswith(".antt"):
            code = "\n".join(re.split(mark, line)[0] for line in text.split("\n"))
            for name, olds in sorted(together(code, names).items()):
                print(f"together: {os.path.relpath(path, root)}: {name}: {' '.join(sorted(olds))}")
        if new != text:
            with open(path, "w", encoding="utf-8") as file:
                file.write(new)


if __name__ == "__main__":
    main(sys.argv[1] if len(sys.argv) > 1 else ".")
