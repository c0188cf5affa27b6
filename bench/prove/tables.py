#!/usr/bin/env python3
"""Prints what the definitions and the contracts say, from the source.

    bench/prove/tables.py definitions [CRATE..]   each word of specs/ that others may use, with the sentence above it
    bench/prove/tables.py contracts [CRATE..]     each public function of src/ with its `///` and its clauses
    bench/prove/tables.py missing [CRATE..]       the words of specs/ without a sentence above them

Without a CRATE: all crates of crates.txt, in its order. `missing` ends with status 1 where there is one.
"""
import glob
import os
import re
import signal
import sys

TOP = os.path.dirname(os.path.dirname(os.path.dirname(os.path.abspath(__file__))))
# a word of specs/: a name for a term, a statement of several fields, one of several cases, a law that a crate asks for
WORD = re.compile(r"^(?:\s*(?:(?:abbrev|unfoldable) pub|pub (?:record|data))|pub(?= [\w-]+ :)) ([\w-]+)")
FUNCTION = re.compile(r"^\s*pub (?:const |unsafe )*fn \w+")
METHOD = re.compile(r"^\s+fn \w+")
CLAUSE = re.compile(r"^\s*(?:requires|ensures|ghost)\b")


def crates():
    """The crates of the repository, in the order of crates.txt."""
    with open(os.path.join(TOP, "crates.txt"), encoding="utf-8") as file:
        names = [line.split("#")[0].partition(":")[0].split() for line in file]
    return [it[0] for it in names if it]


def files(crate, folder, ending):
    """The files of a crate's folder by their path below it, with their lines."""
    base = os.path.join(TOP, "crates", crate, folder)
    for path in sorted(glob.glob(os.path.join(base, "**", f"*.{ending}"), recursive=True)):
        with open(path, encoding="utf-8") as file:
            yield os.path.relpath(path, base), file.read().split("\n")


def above(lines, at, mark):
    """The sentence that stands directly above a line, in comments that begin with the mark, and above its attributes."""
    while at > 0 and lines[at - 1].strip().startswith("#["):
        at -= 1
    first = at
    while first > 0 and lines[first - 1].strip().startswith(mark):
        first -= 1
    return " ".join(" ".join(line.strip().lstrip(mark[0]) for line in lines[first:at]).split())


def words(crate):
    """The words of a crate's specs/: file, line, name and sentence."""
    for name, lines in files(crate, "specs", "antt"):
        for at, line in enumerate(lines):
            word = WORD.match(line)
            if word:
                yield name, at + 1, word.group(1), above(lines, at, "--")


def contract(lines, at):
    """The signature of the function at a line, and its clauses, each from its first line to its last."""
    parts = [[]]
    for line in lines[at:]:
        text = line.strip()
        if text in ("{", "{}"):
            break
        if CLAUSE.match(line):
            parts.append([])
        if not text.startswith("//"):
            parts[-1].append(text.removesuffix(";") if text.endswith(";") else text.removesuffix(" {") if len(parts) == 1 else text)
        if text.endswith(";") or text.endswith(" {") and len(parts) == 1:
            break
    return [" ".join(" ".join(part).split()) for part in parts]


def print_definitions(names):
    for crate in names:
        print(f"\n## {crate}\n")
        for name, at, word, sentence in words(crate):
            print(f"- `{word}` ({name}:{at}): {sentence or '(no sentence)'}")


def print_contracts(names):
    for crate in names:
        print(f"\n## {crate}")
        for name, lines in files(crate, "src", "rt"):
            of = ""
            for at, line in enumerate(lines):
                of = line.rstrip(" {") if re.match(r"^(?:pub trait|impl)\b", line) else "" if line == "}" else of
                if FUNCTION.match(line) or of.startswith("pub trait") and METHOD.match(line):
                    signature, *clauses = contract(lines, at)
                    print(f"\n### `{signature}`\n\n{name}:{at + 1}{', ' if of else ''}{of}. {above(lines, at, '//')}\n")
                    print("\n".join(f"    {it}" for it in clauses) or "(no clause)")


def print_missing(names):
    wanting = [(crate, *it) for crate in names for it in words(crate) if not it[3]]
    for crate, name, at, word, _ in wanting:
        print(f"crates/{crate}/specs/{name}:{at}: {word}")
    print(f"words without a sentence: {len(wanting)} of {sum(1 for crate in names for _ in words(crate))}")
    return 1 if wanting else 0


def main():
    tables = {"definitions": print_definitions, "contracts": print_contracts, "missing": print_missing}
    unknown = [it for it in sys.argv[2:] if it not in crates()]
    if len(sys.argv) < 2 or sys.argv[1] not in tables or unknown:
        sys.exit(__doc__.strip())
    signal.signal(signal.SIGPIPE, signal.SIG_DFL)
    return tables[sys.argv[1]](sys.argv[2:] or crates())


if __name__ == "__main__":
    sys.exit(main())
