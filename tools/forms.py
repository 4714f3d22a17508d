"""forms.py [FOLDER]: lists and counts the places where the code keeps an older form; docs/DESIGN-PASS.md says which.

FOLDER is a checkout, this one if none is given. For each point: how many places, and each with its file and line.
With the word `counts` after it, the counts alone.
"""

import re
import sys
from collections import defaultdict
from pathlib import Path


def sources(root):
    for path in sorted(root.glob("crates/*/src/**/*.rt")):
        yield path, path.read_text()


def lines_where(root, pattern):
    found = []
    for path, text in sources(root):
        for number, line in enumerate(text.split("\n"), 1):
            code = line.split("//")[0]
            if re.search(pattern, code):
                found.append((place(root, path, number), code.strip()))
    return found


def place(root, path, number):
    return f"{path.relative_to(root)}:{number}"


# Each function: its crate, name, first line, parameters, clauses and body.
def functions(root):
    head = re.compile(r'^( *)(?:pub )?(?:extern "C" )?fn (\w+)', re.M)
    for path, text in sources(root):
        for match in head.finditer(text):
            ways = [re.compile(r"^" + match.group(1) + r"(?=\{\n)", re.M), re.compile(r"\)(?: -> [^\n{]*)? (?=\{\n)")]
            ends = [way.search(text, match.end()) for way in ways]
            opening = min([end.end() for end in ends if end], default=-1)
            if re.search(r";$", text[match.end():opening], re.M):
                continue  # a function of a trait, without a body
            closing = re.search(r"^" + match.group(1) + r"\}$", text[opening:], re.M)
            if opening < 0 or not closing:
                continue
            yield path, match.group(2), text.count("\n", 0, match.start()) + 1, text[match.end():opening], text[opening:opening + closing.end()]


WORD = re.compile(r"[A-Za-z_]\w*|\d[\w.]*|\S")
KEPT = {"if", "else", "let", "mut", "while", "for", "in", "match", "return", "fn", "true", "false", "as", "usize", "u64", "u32", "u8"}


# A body with its names and numbers left out: two functions of one shape differ in these alone.
def shape(body):
    names = {}
    out = []
    for word in WORD.findall(re.sub(r"//[^\n]*", "", body)):
        if word in KEPT or not re.match(r"\w", word):
            out.append(word)
        elif word[0].isdigit():
            out.append("0")
        else:
            out.append(f"n{names.setdefault(word, len(names))}")
    return " ".join(out)


def twins(root):
    groups = defaultdict(list)
    for path, name, number, _, body in functions(root):
        key = shape(body)
        if len(key.split()) >= 18:
            groups[key].append((place(root, path, number), name))
    found = []
    for group in groups.values():
        if len(group) > 1:
            for where, name in group[1:]:
                found.append((where, f"{name} as {group[0][1]} ({group[0][0]})"))
    return sorted(found)


def facts(root):
    found = defaultdict(list)
    for path, name, number, head, _ in functions(root):
        for clause in re.findall(r"requires(?: \w+)? \{(.*?)\}\n", head + "\n", re.S):
            for part in clause.split(" × "):
                found[re.sub(r"\w+(?=\.now|\.old)", "_", " ".join(part.split()))].append((place(root, path, number), name))
    return [(v[0][0], f"{k} in {len(v)} contracts") for k, v in sorted(found.items()) if len(v) >= 3]


def travellers(root):
    found = defaultdict(list)
    for path, name, number, head, _ in functions(root):
        if "crates/jengafir" in str(path):
            continue
        parameters = re.match(r"(?:<[^>]*>)?\((.*?)\)", " ".join(head.split()))
        words = [p.strip() for p in parameters.group(1).split(",")] if parameters else []
        for i in range(len(words) - 1):
            if words[i] and words[i + 1] and "self" not in words[i]:
                found[words[i] + ", " + words[i + 1]].append((place(root, path, number), name))
    return [(v[0][0], f"{k} in {len(v)} functions") for k, v in sorted(found.items()) if len(v) >= 3]


POINTS = [
    ("1 own Option or Result, flags and sentinels", lambda root: lines_where(root, r"^\s+(Refused|Fault|Nowhere|End)\b.*,$|^\s+(pub )?(finite: bool|doubt: u64),|4294967296")),
    ("1 numbers for kinds", lambda root: lines_where(root, r"^\s*(pub )?(kind|hidden|mark|mode|closed): (u32|u8),$|[( ](kind|mark|mode|closed): (u32|u8)[,)]|fn \w*number\(")),
    ("2 twins", twins),
    ("3 loops that count by hand", lambda root: lines_where(root, r"^\s*while ")),
    ("4 tests nested in one another", lambda root: lines_where(root, r"^\s*(\} else \{ )?(if .* \{ )?(true|false)( \}.*)?$|\{ (true|false) \} else|else \{ (true|false) \}")),
    ("4 numbers and text by hand", lambda root: lines_where(root, r"fn (\w*number|code|size|wide|low_byte|nan|digit|mark_of|range_count|print\w*)\b")),
    ("5 facts in three contracts or more", facts),
    ("5 parameters that travel together", travellers),
    ("6 lengths beside lists, parallel arrays", lambda root: lines_where(root, r"\[(f32|u32|u8)\], (n|count|m|left|i): usize|^\s+(count|n|m): usize,$|\[f32; 3[23]\]")),
    ("7 steps chosen by number", lambda root: lines_where(root, r"^\s+(match (k|i) \{|k: usize\) -> |\} else if k < \d)|\bk: usize\) -> PathCommand|starts\(line, b")),
]


def main(arguments):
    root = Path(arguments[0]) if arguments else Path(__file__).resolve().parent.parent
    brief = "counts" in arguments[1:]
    for name, find in POINTS:
        found = find(root)
        print(f"{len(found):4} {name}")
        if not brief:
            for where, what in found:
                print(f"       {where}  {what}")
    proofs = list(root.glob("crates/*/proofs/**/*.antt"))
    answers = [p for p in proofs if p.name == "Answers.antt"]
    print(f"{len(answers):4} 8 answer files, with {sum(p.read_text().count(chr(10) + 'pub ') for p in answers)} answers; {sum(p.read_text().count(chr(10)) for p in proofs)} lines of proofs in all")


main(sys.argv[1:])
