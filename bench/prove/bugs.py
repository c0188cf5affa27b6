#!/usr/bin/env python3
"""Puts bugs into functions of a crate and shows which of them the prover doesn't refuse.

    bench/prove/bugs.py CRATE [ROUNDS]

bugs/CRATE.txt lists them: `@@ FILE` (below the crate's src/), the lines that stand there with `-`, and those in
their place with `+`. A function is proved by its own contract and those of what it calls, so each round puts
one bug into each of many functions of a copy of the repository and checks the crate once; the next round takes
what is left, and what wasn't judged since a function that it calls had a bug too, up to ROUNDS. Where a round
doesn't compile each half of it is tried by itself. A changed constant, which is of no function, is tried alone.
A line for each bug: `refused`, `beside` (it was never judged without a bug in what it calls), `unknown` (the check
says nothing of the function, or the body doesn't compile), `left` (no round came to it), `gone` (what it changes
doesn't stand once in its file), or `PROVED`, which is either no bug, as the function means the same, or a contract
that says too little; of a constant also that only crates above use it. Ends with status 1 where one was proved.

The copy takes what this repository has proved of the crate and of those below it, so run `rt check` in the crate first.
"""
import os
import re
import shutil
import subprocess
import sys
import tempfile

HERE = os.path.dirname(os.path.abspath(__file__))
TOP = os.path.dirname(os.path.dirname(HERE))
# where a function starts, or a constant of none
STARTS = re.compile(r"^\s*(?:pub(?:\([a-z]+\))? )?(?:const )?fn ([a-z_0-9]+)|^(?:pub(?:\([a-z]+\))? )?const [A-Z]", re.M)


class Bug:
    def __init__(self, file, old, new):
        self.file, self.old, self.new = file, old, new
        self.function = None
        # where in its file the old text begins and ends
        self.start = self.end = 0

    def meets(self, other):
        """Whether the two change the same octets."""
        return self.file == other.file and self.start < other.end and other.start < self.end

    def text(self):
        return f"{self.file} {self.function}: {self.old.strip()} -> {self.new.strip()}".replace("\n", " / ")


def listed(crate):
    """The bugs of a crate, in the order of its list."""
    bugs = []
    with open(os.path.join(HERE, "bugs", f"{crate}.txt"), encoding="utf-8") as file:
        for part in re.split(r"^@@ ", file.read(), flags=re.M)[1:]:
            name, *lines = part.rstrip("\n").split("\n")
            old = "\n".join(it[1:] for it in lines if it.startswith("-"))
            new = "\n".join(it[1:] for it in lines if it.startswith("+"))
            bugs.append(Bug(name.strip(), old, new))
    return bugs


def read(path):
    """The text of a file; none where it isn't there."""
    if not os.path.exists(path):
        return ""
    with open(path, encoding="utf-8") as file:
        return file.read()


def placed(bugs, src):
    """Those of the bugs whose old text stands once in its file, each with the function that it stands in."""
    found = []
    for bug in bugs:
        text = read(os.path.join(src, bug.file))
        if not bug.old or bug.new == bug.old or text.count(bug.old) != 1:
            print(f"gone      {bug.text()}")
            continue
        bug.start = text.index(bug.old)
        bug.end = bug.start + len(bug.old)
        starts = [it for it in STARTS.finditer(text) if it.start() <= bug.start]
        bug.function = starts[-1].group(1) or "-" if starts else "-"
        found.append(bug)
    return found


def one_each(bugs):
    """A first bug of each function, no two at one place, and those that are left."""
    taken, left, seen = [], [], set()
    for bug in bugs:
        place = bug.file, bug.function
        is_next = place not in seen and not any(bug.meets(other) for other in taken)
        (taken if is_next else left).append(bug)
        seen.add(place)
    return taken, left


def put_in(bugs, src):
    """Puts bugs in place: in each file from the last to the first, so that the places of the others stay."""
    for bug in sorted(bugs, key=lambda it: it.start, reverse=True):
        path = os.path.join(src, bug.file)
        text = read(path)
        with open(path, "w", encoding="utf-8") as file:
            file.write(text[: bug.start] + bug.new + text[bug.end :])


def checked(crate, bugs, top):
    """What the check says of each function, by its file's module and its name, with these bugs in place."""
    src = os.path.join(top, "crates", crate, "src")
    put_in(bugs, src)
    run = subprocess.run(["rt", "check", "--jobs", "1"], cwd=os.path.dirname(src), text=True, errors="replace",
                         stdout=subprocess.PIPE, stderr=subprocess.STDOUT)
    subprocess.run(["git", "checkout", "-q", "."], cwd=top, check=True)
    said = re.findall(r"^fn (\S+): (.*)$", run.stdout, re.M)
    if not said and len(bugs) == 1:
        print(run.stdout[-3000:])
    return said


def judged(bug, said):
    """What became of a bug: of several functions of its name in its file, the one that says most against it."""
    if bug.function == "-" and said:
        return "PROVED" if all(why.startswith("proved") for _, why in said) else "refused"
    module = bug.file[:-3].replace("/", "::")
    named = [(path, why) for path, why in said if path.split("::")[-1] == bug.function]
    # what stands in an impl block bears the name of its type's module
    words = [why for path, why in named if f"::{module}::" in f"{path}::"] or [why for _, why in named]
    if not words:
        return "unknown"
    if all(it.startswith("proved") for it in words):
        return "PROVED"
    return "beside" if all(it.startswith(("proved", "no proof: it calls")) for it in words) else "refused"


def below(crate, top):
    """The crates of the repository that a crate stands on, directly or not, and itself."""
    listed = re.findall(r"^([a-z]\w*)[^:\n]*:(.*)$", read(os.path.join(top, "crates.txt")), re.M)
    names, found = {name: words.split() for name, words in listed}, set()
    left = [crate]
    while left:
        name = left.pop()
        if name in names and name not in found:
            found.add(name)
            left += names[name]
    return found


def lend(crate, top):
    """Gives a copy of the repository what was proved here: a kit that keeps nothing itself would prove all of it anew."""
    for name in below(crate, TOP):
        kept, out = (os.path.join(it, "crates", name, "out") for it in (TOP, top))
        for part in ("rlib", "incremental") if name == crate else ("rlib",):
            if os.path.isdir(os.path.join(kept, part)):
                os.makedirs(out, exist_ok=True)
                # (a library is replaced as a whole, so that links to its files do; what a check keeps is written to)
                how = "-a" if part == "incremental" else "-al"
                subprocess.run(["cp", how, os.path.join(kept, part), out], check=True)


class Trial:
    """The bugs of a crate, tried in a copy of the repository."""

    def __init__(self, crate, top):
        self.crate, self.top = crate, top
        self.counts = {}

    def say(self, word, bug):
        self.counts[word] = self.counts.get(word, 0) + 1
        print(f"{word:10}{bug.text()}", flush=True)

    def words(self, bugs):
        """What became of each of these, put in at once; in halves where nothing is said of them together."""
        said = checked(self.crate, bugs, self.top)
        if said or len(bugs) == 1:
            return [judged(bug, said) for bug in bugs]
        half = len(bugs) // 2
        return self.words(bugs[:half]) + self.words(bugs[half:])

    def round(self, bugs):
        """Tries these at once, and says what became of them. Answers those that weren't judged."""
        beside = []
        for bug, word in zip(bugs, self.words(bugs)):
            if word == "beside":
                beside.append(bug)
            else:
                self.say(word, bug)
        return beside

    def rounds(self, bugs, most):
        """Tries these, one of each function at a time, in at most so many rounds."""
        left = bugs
        while left and most:
            most -= 1
            taken, left = one_each(left)
            beside = self.round(taken)
            if len(beside) == len(taken):
                # each calls another of them: none is judged in any round
                for bug in beside:
                    self.say("beside", bug)
            else:
                left += beside
        for bug in left:
            self.say("left", bug)


def main():
    crate, rounds = sys.argv[1], int(sys.argv[2]) if len(sys.argv) > 2 else 20
    with tempfile.TemporaryDirectory() as room:
        top = os.path.join(room, "copy")
        subprocess.run(["git", "clone", "-q", TOP, top], check=True)
        lend(crate, top)
        found = placed(listed(crate), os.path.join(top, "crates", crate, "src"))
        trial = Trial(crate, top)
        trial.rounds([it for it in found if it.function != "-"], rounds)
        for bug in found:
            if bug.function == "-":
                trial.round([bug])
        shutil.rmtree(top, ignore_errors=True)
    counts = sorted(trial.counts.items())
    print(f"{crate}:", ", ".join(f"{count} {word}" for word, count in counts) or "none")
    return 1 if trial.counts.get("PROVED") else 0


if __name__ == "__main__":
    sys.exit(main())
