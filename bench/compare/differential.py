#!/usr/bin/env python3
"""Compares `ioam run`, `collect` and `bulk` with a model of them over random
inputs: the line, the status and each output, octet for octet, with 1, 3 and 64
workers; and over what a run left `audit` of two taps, messages of the records
and back, and parts of pieces of them, merged along a random tree. The model (reference/run_*.py and what they stand on) was written in
another language and from the standards' rules alone.

    bench/compare/differential.py [COUNT] [PROGRAM] [SEED]

COUNT runs (300 where it isn't given) by a seed that is printed. Where anything
differs the folder with the inputs is kept and the status is 1."""

import os
import random
import shutil
import subprocess
import sys
import tempfile

HERE = os.path.dirname(os.path.abspath(__file__))
sys.path.insert(0, os.path.join(HERE, "..", "..", "reference"))

import faults_answers  # noqa: E402
import faults_reach  # noqa: E402
import parts_random  # noqa: E402
import run_damage as damage  # noqa: E402
from domain import Fault, read_domain  # noqa: E402
from repository import program_at  # noqa: E402
from run_bulk import bulk  # noqa: E402
from run_captures import Captures  # noqa: E402
from run_collect import collect  # noqa: E402
from run_inputs import World  # noqa: E402
from run_packets import Packets  # noqa: E402
from run_program import run  # noqa: E402
from run_reach import REACHED  # noqa: E402
from run_records import mixed, pieces  # noqa: E402

WORDS = ["run", "domain", "readings", "1", "report", "exports"]
WORKERS = ["1", "3", "64"]


class Draw:
    """How one run's inputs are drawn: how many packets each capture has, how
    many of them are broken, how often something is faulty."""

    def __init__(self, rng):
        self.count = rng.choice([0, 1, 3, 5, 8, 12, 20])
        self.broken = rng.choice([0, 0.3, 1, 3])
        self.faulty = rng.choice([0, 0, 0, 0.3, 1])
        self.domain = rng.random() < 0.12
        self.readings = rng.random() < 0.06
        self.words = rng.random() < 0.08
        self.missing = rng.random() < 0.03
        if rng.random() < 0.02:
            self.count, self.faulty = rng.choice([255, 256, 257, 520]), 0
        self.heavy = rng.random() < 0.0015
        if self.heavy:
            self.count = 300


def run_inputs(rng):
    """The words and files of one run."""
    draw = Draw(rng)
    world = World(rng)
    if rng.random() < 0.06:
        world.top["packets"] = rng.choice([1, 2, 5])
    if draw.heavy:
        world.heavy()
    text = damage.domain(rng, world) if draw.domain else world.text()
    try:
        domain = read_domain(text)
    except Fault:
        domain = None
    packets = Packets(rng, world, domain, draw.broken)
    packets.heavy = draw.heavy
    captures = Captures(rng, packets, world.times, draw.faulty)
    readings = world.readings() if rng.random() < 0.8 else b""
    if draw.readings:
        readings = damage.readings(rng, readings)
    files = {"domain": text, "readings": readings}
    for place in range(4):
        count = draw.count if place == 0 else rng.randrange(draw.count + 1)
        files["in%d" % place] = captures.capture(count)
    if draw.missing:
        del files[rng.choice(list(files))]
    words = damage.words(rng, WORDS) if draw.words else WORDS
    return words, files


class Program:
    """The program in a folder of its own."""

    def __init__(self, path, folder):
        self.path = path
        self.folder = folder
        self.files = {}

    def put(self, files):
        """Makes a folder that holds these files alone."""
        shutil.rmtree(self.folder, ignore_errors=True)
        os.mkdir(self.folder)
        for name, data in files.items():
            with open(os.path.join(self.folder, name), "wb") as file:
                file.write(data)
        self.files = files

    def answer(self, words, written):
        """Line, status and outputs, those of these names and all that is new;
        then the folder is as it was before."""
        done = subprocess.run([self.path] + words, cwd=self.folder, capture_output=True,
                              timeout=600, check=False)
        outputs = {}
        for name in os.listdir(self.folder):
            path = os.path.join(self.folder, name)
            with open(path, "rb") as file:
                data = file.read()
            if self.files.get(name) != data or name in written:
                outputs[name] = data
                self.restore(name, path)
        return done.stdout.decode(), done.returncode, outputs

    def restore(self, name, path):
        os.remove(path)
        if name in self.files:
            with open(path, "wb") as file:
                file.write(self.files[name])


def differences(words, wanted, got):
    """What differs, in words."""
    line, status, outputs = got
    found = []
    if line != wanted.line:
        found.append("line %r, model %r" % (line, wanted.line))
    if status != wanted.status:
        found.append("status %d, model %d" % (status, wanted.status))
    for name in sorted(set(outputs) | set(wanted.outputs)):
        if outputs.get(name) != wanted.outputs.get(name):
            found.append("output %s" % name)
    return ["%s: %s" % (" ".join(words), text) for text in found]


def with_workers(words):
    """The same words with each number of workers, where they have a sound one."""
    if len(words) > 3 and words[0] in ("run", "bulk") and words[3] == "1":
        return [words[:3] + [count] + words[4:] for count in WORKERS]
    return [words]


def compare(program, files, words, wanted):
    """What differs in one command with each number of workers."""
    program.put(files)
    found = []
    for each in with_workers(words):
        found += differences(each, wanted, program.answer(each, wanted.outputs))
    return found


class Second:
    """What the model of the other commands answers."""

    def __init__(self, words, files):
        line, self.status, self.outputs = faults_answers.answer([word.encode() for word in words], files)
        self.line = line + "\n"


def audited(rng, program, files, outputs):
    """What differs in `audit` of two taps of a run, one in front of a node and one behind it."""
    try:
        domain = read_domain(files.get("domain", b""))
    except Fault:
        return []
    pairs = [(one, two) for one in domain.link for two in domain.link
             if one["to"] == two["from"] and one["tap"] in outputs and two["tap"] in outputs and one["tap"] != two["tap"]]
    if not pairs:
        return []
    before, after = rng.choice(pairs)
    words = ["audit", "domain", domain.node[before["to"]]["name"], before["name"], "before", "after", "report"]
    given = {"domain": files["domain"], "before": outputs[before["tap"]], "after": outputs[after["tap"]]}
    return compare(program, given, words, Second(words, given))


def through_messages(program, exports):
    """What differs in the records of some octets as messages, and back."""
    words, given = ["ipfix", "exports", "out"], {"exports": exports}
    wanted = Second(words, given)
    back, messages = ["records", "out", "exports"], {"out": wanted.outputs["out"]}
    read = Second(back, messages)
    if not exports.startswith(read.outputs["exports"]) or wanted.line == "done\n" and exports != read.outputs["exports"]:
        return ["the model reads other records than it wrote"]
    return compare(program, given, words, wanted) + compare(program, messages, back, read)


def through_parts(rng, program, exports):
    """What differs in the parts of pieces of some records, and where they are merged along a random tree."""
    found = pieces(exports)
    sites = [[] for _ in range(rng.choice((1, 2, 3, 5)))]
    for one in found:
        for site in rng.sample(sites, 1 if rng.random() < 0.8 else min(2, len(sites))):
            site.append(one)
    for site in sites:
        rng.shuffle(site)
    differ = []

    def step(words, given, name):
        program.put(given)
        wanted = Second(words, given)
        differ.extend(differences(words, wanted, program.answer(words, wanted.outputs)))
        return wanted.outputs[name]

    parts = [step(["part", "exports", "part"], {"exports": b"".join(site)}, "part") for site in sites]
    whole = parts_random.merged(rng, parts, lambda one, two: step(["merge", "one", "two", "part"], {"one": one, "two": two}, "part"))
    if whole != Second(["part", "exports", "part"], {"exports": b"".join(found)}).outputs["part"]:
        differ.append("the merged parts are another part than that of all records")
    step(["parts", "part", "report"], {"part": whole}, "report")
    return differ


def one(rng, program):
    """One random run, the collecting of what it exported, now and then a
    generated run, whose branches aren't counted; what differs."""
    words, files = run_inputs(rng)
    wanted = run(words, files)
    found = compare(program, files, words, wanted)
    if found:
        return found
    found = audited(rng, program, files, wanted.outputs) if rng.random() < 0.5 else []
    if found:
        return found
    for _ in range(2):
        exports = {"exports": mixed(rng, wanted.outputs.get("exports", b""))}
        asked = ["collect", "exports", "groups" if rng.random() < 0.98 else "exports"]
        found = compare(program, exports, asked, collect(asked, exports))
        if not found and rng.random() < 0.5:
            found = through_messages(program, exports["exports"]) + through_parts(rng, program, exports["exports"])
        if found:
            return found
    if rng.random() < 0.1:
        asked = ["bulk", str(rng.choice([0, 1, 1 << 63, (1 << 64) - 1, rng.getrandbits(64)])),
                 str(rng.choice([1, 2, 50, 255, 256, 257, 600])), "1", "sums"]
        if rng.random() < 0.2:
            asked[rng.choice([1, 2])] = rng.choice(
                ["-1", "00", "18446744073709551616", "1000001", "0", "", "1x", "+1"])
        before = REACHED.copy()
        wanted = bulk(asked)
        REACHED.clear()
        REACHED.update(before)
        found = compare(program, {}, asked, wanted)
    return found


def main():
    count = int(sys.argv[1]) if len(sys.argv) > 1 else 300
    path = program_at(2)
    seed = int(sys.argv[3]) if len(sys.argv) > 3 else random.SystemRandom().getrandbits(32)
    print("seed %d, %d runs" % (seed, count), flush=True)
    folder = tempfile.mkdtemp(prefix="ioam-differential-")
    program = Program(path, os.path.join(folder, "run"))
    for place in range(count):
        if place % 500 == 0 and place > 0:
            print("%d runs so far, nothing differs" % place, flush=True)
        found = one(random.Random("%d %d" % (seed, place)), program)
        if found:
            print("run %d differs; its files are in %s/run" % (place, folder))
            print("\n".join(found))
            sys.exit(1)
    shutil.rmtree(folder)
    for name, times in sorted((REACHED + faults_reach.REACHED).items()):
        print("%8d %s" % (times, name))
    print("%d runs, nothing differs" % count)


if __name__ == "__main__":
    main()
