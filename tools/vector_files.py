"""The files of vectors: written, or compared with what is computed."""

import sys
from pathlib import Path

ROOT = Path(__file__).resolve().parent.parent

# A vectors program reads its input into one buffer of this many bytes.
LARGEST_INPUT = 262144


def keep_files(name, count, files, usage):
    """Writes each file's text; with --check, exits with 1 where one differs or is there for nothing."""
    folders = {path.parent for path in files}
    if sys.argv[1:] == ["--check"]:
        wrong = [path.name for path, text in files.items() if not path.exists() or path.read_bytes() != text.encode()]
        kinds = {path.suffix for path in files if path.suffix}
        wrong += [path.name for folder in folders for path in folder.glob("*") if path.suffix in kinds and path not in files]
        if wrong:
            sys.exit("%s vectors: not as computed: %s" % (name, ", ".join(wrong)))
        print("%s vectors: %d, as computed" % (name, count))
    elif sys.argv[1:]:
        sys.exit(usage)
    else:
        for folder in folders:
            folder.mkdir(parents=True, exist_ok=True)
        for path, text in files.items():
            path.write_bytes(text.encode())
        print("%s vectors: %d written" % (name, count))


def sampled(name, kind):
    """The sample of the Rust's answers that oracle/run writes: its calls, 'in', or what is printed for them, 'out'."""
    return (ROOT / "oracle" / "samples" / ("%s.%s" % (name, kind))).read_text()


def keep(name, calls, results, usage):
    """Keeps both files of crates/vectors_NAME: what is computed, and after it the sample of the Rust's answers."""
    calls += sampled(name, "in")
    results += sampled(name, "out")
    if len(calls) > LARGEST_INPUT:
        sys.exit("%s vectors: the input is larger than the program's buffer" % name)
    folder = ROOT / "crates" / ("vectors_" + name)
    keep_files(name, calls.count("\n"), {folder / "stdin": calls, folder / "stdout": results}, usage)
