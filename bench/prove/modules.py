#!/usr/bin/env python3
"""Says what the proof of a crate takes, module by module, dearest first:

    bench/prove/modules.py CRATE [WORDS OF rattle check..]

The lines of `rt check --progress` tell of a function what all modules took that were checked since the line before,
among them those of its neighbours. Here the crate is checked once from nothing, by one process, over what `rt check`
has proved of the crates below, and the times are read off the files that the check writes, one a module: of a function
`Lts` (its lifetimes and what it drops), `Tie` (the calls that it makes, with what their clauses speak of), `Answers` and
`Proof` (what its written answers show, and what is searched for); the crate's own name stands for what is read in front of
them all. A module that takes less than half a second isn't told. Needs strace and the kit; run it with nothing beside it.
"""
import collections
import importlib.machinery
import importlib.util
import os
import re
import shutil
import subprocess
import sys
import tempfile

sys.dont_write_bytecode = True

TOP = os.path.dirname(os.path.dirname(os.path.dirname(os.path.abspath(__file__))))
LEAST = 0.5
OPENED = re.compile(r'^\d+ +([\d.]+) openat\(AT_FDCWD, "([^"]*)"')
WRITTEN = re.compile(r"locked-\d+-\d+/(.*)\.oantt\.tmp")


def words_of(name, more):
    """The words with which the kit's rt would check the crate, keeping nothing."""
    kit = os.path.dirname(os.path.realpath(shutil.which("rt")))
    sys.path.insert(0, kit)
    loader = importlib.machinery.SourceFileLoader("rt", os.path.join(kit, "rt"))
    rt = importlib.util.module_from_spec(importlib.util.spec_from_loader("rt", loader))
    loader.exec_module(rt)
    made = rt.rtlib.Crate.__init__

    def make(crate, *given, **named):
        made(crate, *given, **named)
        rt.read_files(crate)

    rt.rtlib.Crate.__init__ = make
    crate = next(it for it in rt.rtlib.crates_below(os.path.join(TOP, "crates")) if it.name == name)
    return [os.path.join(kit, "rattle"), "check", *crate.words(["--jobs", "1", *more], keeps=False), "--progress"]


def times(trace):
    """The modules that a check wrote, each with the seconds since the one before."""
    last, found = None, []
    with open(trace, errors="replace") as lines:
        for line in lines:
            opened = OPENED.match(line)
            written = opened and WRITTEN.search(opened[2])
            if opened and last is None:
                last = float(opened[1])
            if written:
                found.append((float(opened[1]) - last, written[1]))
                last = float(opened[1])
    return sorted(found, reverse=True)


def main(name, *more):
    folder = os.path.join(TOP, "crates", name)
    os.chdir(folder)
    words = words_of(name, more)
    with tempfile.NamedTemporaryFile() as trace:
        traced = ["strace", "-f", "-ttt", "--seccomp-bpf", "-e", "trace=openat", "-o", trace.name, *words]
        said = subprocess.run(traced, stdout=subprocess.PIPE, stderr=subprocess.STDOUT, text=True, check=False)
        found = times(trace.name)
    by_kind = collections.Counter()
    for seconds, module in found:
        by_kind[module.rsplit(".", 1)[-1]] += seconds
        if seconds >= LEAST:
            print(f"{seconds:6.1f} {module.replace(f'Rattle-{name}-', '')}")
    print("by kind: " + ", ".join(f"{kind} {seconds:.1f}" for kind, seconds in by_kind.most_common(8)))
    print(said.stdout.rstrip().rsplit("\n", 1)[-1][:60])
    return said.returncode


if __name__ == "__main__":
    if len(sys.argv) < 2:
        sys.exit(__doc__)
    sys.exit(main(*sys.argv[1:]))
