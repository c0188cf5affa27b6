#!/usr/bin/env python3
"""Lists the laws of proofs/ that nothing names: no proof, contract, definition or test.

    bench/prove/unused.py [CRATE..]

The crates that are named, or all. A line for each: its file and its name. Some say something of a definition by themselves, and stay: that
a record reads in one way (`..-unique`), what an octet order means in another crate's words. A law that only unused ones name is
listed once these are gone. Answers to goals and invariants aren't looked at, since the kit names them. `rt tidy` drops what was
imported for a law that went.
"""
import collections
import glob
import os
import re
import sys

TOP = os.path.dirname(os.path.dirname(os.path.dirname(os.path.abspath(__file__))))
WORD = re.compile(r"[^\s(){}\[\],;.|:]+")
COMMENT = re.compile(r"^\s*--.*$", re.M)
# where a law or a definition begins: how deep it stands, and its name
BEGINS = re.compile(r"^( *)(?:pub )?(?:abbrev )?(?:pub )?([^\s(){}\[\],;.:|]+) :(?= |$)", re.M)
# what a proof file has that the kit names
GIVEN = ("Answers.antt", "Invariants.antt")


def read(path):
    with open(path, encoding="utf-8") as file:
        return COMMENT.sub("", file.read())


def own_words(text, depth, name):
    """How many times the name stands where it is declared and at the front of the lines that define it."""
    line = re.compile(rf"^{depth}(?:pub )?(?:abbrev )?(?:pub )?{re.escape(name)}(?: :(?: |$)|(?= ).* =(?: |$)|(?= ).* with )", re.M)
    return len(line.findall(text))


def main():
    paths = [it for kind in ("antt", "rt") for it in glob.glob(f"{TOP}/crates/*/**/*.{kind}", recursive=True) if "/out/" not in it]
    texts = {path: read(path) for path in paths}
    count = collections.Counter(word for text in texts.values() for word in WORD.findall(text))
    for path, text in sorted(texts.items()):
        crate, part = os.path.relpath(path, f"{TOP}/crates").split("/")[:2]
        if part != "proofs" or os.path.basename(path) in GIVEN or sys.argv[1:] and crate not in sys.argv[1:]:
            continue
        for depth, name in BEGINS.findall(text):
            if count[name] <= own_words(text, depth, name):
                print(f"{os.path.relpath(path, TOP)}: {name}")


if __name__ == "__main__":
    main()
