#!/usr/bin/env python3
"""Compares what `paths` and `run` say of traces with what another decoder, tshark, reads in the same captures.

    bench/compare/decoded.py [PROGRAM]

PROGRAM is this repository's `ioam` where none is given. The captures are the shipped ones, what `node` makes of them, and the taps
of the shipped domains. Of each packet, for each trace: its namespace, its type, and every field of every element, in the order
of the path. A line for each capture with how many traces were compared; ends with status 1 where one differs. It needs tshark
(`apt-get install tshark`).
"""
import os
import shutil
import subprocess
import sys
import tempfile

from repository import TOP, program_at

# a field's name in a report, its name in tshark, and what is printed as `-`
FIELDS = {
    "hop": ("hlim", None), "node": ("id", 0xFFFFFF), "in": ("iif", 0xFFFF), "out": ("eif", 0xFFFF), "sec": ("tss", 0xFFFFFFFF),
    "frac": ("tsf", 0xFFFFFFFF), "delay": ("trdelay", 0xFFFFFFFF), "data": ("nsdata", 0xFFFFFFFF), "queue": ("qdepth", 0xFFFFFFFF),
    "check": ("csum", 0xFFFFFFFF), "whop": ("hlim", None), "wnode": ("id_wide", 0xFFFFFFFFFFFFFF), "win": ("iif_wide", 0xFFFFFFFF),
    "wout": ("eif_wide", 0xFFFFFFFF), "wdata": ("nsdata_wide", 0xFFFFFFFFFFFFFFFF), "buffer": ("bufoccup", 0xFFFFFFFF),
}
NAMES = sorted({name for name, _ in FIELDS.values()})


def in_report(path):
    """By packet: the namespaces and types of its traces, and by tshark's names each field of the elements, the newest first."""
    packets, traces = {}, None
    for line in open(path, encoding="ascii"):
        words = line.split()
        if not line.startswith(" "):
            number = int(words[0]) if words[0].isdigit() else None
            traces = packets.setdefault(number, []) if number else None
        elif words[0] == "trace":
            traces.append((words[1:3], []))
        else:
            traces[-1][1].append(dict(word.split("=") for word in words))
    return {number: as_read(traces) for number, traces in packets.items() if traces}


def as_read(traces):
    lists = {name: [] for name in NAMES}
    for _, elements in traces:
        for element in reversed(elements):
            for word, text in element.items():
                if word in FIELDS:
                    name, ones = FIELDS[word]
                    lists[name].append(ones if text == "-" else int(text, 16 if word in ("check", "data", "wdata") else 10))
    return [(int(head[0]), int(head[1], 16)) for head, _ in traces if head[0] != "bad"], lists


def by_tshark(path):
    """The same of a capture, as tshark reads it."""
    prefix = "ipv6.opt.ioam.trace."
    words = ["tshark", "-r", path, "-T", "fields", "-E", "occurrence=a", "-E", "aggregator=,", "-e", "frame.number", "-e", prefix + "ns", "-e", prefix + "type"]
    for name in NAMES:
        words += ["-e", prefix + "node." + name]
    packets = {}
    for line in subprocess.run(words, check=True, capture_output=True, text=True).stdout.splitlines():
        number, spaces, kinds, *fields = line.split("\t")
        if spaces:
            lists = {name: [int(text, 0) for text in field.split(",")] if field else [] for name, field in zip(NAMES, fields)}
            packets[int(number)] = list(zip([int(text, 0) for text in spaces.split(",")], [int(text, 0) for text in kinds.split(",")])), lists
    return packets


def compare(what, report, capture):
    ours, theirs = in_report(report), by_tshark(capture)
    numbers = [number for number in theirs if ours.get(number) != theirs[number]]
    for number in numbers:
        print("  packet", number, "ours:", ours.get(number), "tshark:", theirs[number], sep="\n    ")
    print(f"{'DIFFERS' if numbers or not theirs else 'ok':8}{what}: {sum(len(heads) for heads, _ in theirs.values())} traces")
    return len(numbers) + (not theirs)


def main():
    program = program_at(1)
    differ = 0
    with tempfile.TemporaryDirectory() as room:
        os.chdir(room)
        shutil.copytree(os.path.join(TOP, "examples"), "examples")

        def ran(*words):
            subprocess.run([program, *words], check=True, stdout=subprocess.DEVNULL)

        def paths(what, capture):
            ran("paths", capture, "paths.txt")
            return compare(what, "paths.txt", capture)

        differ += paths("the Linux kernel's packets", "examples/linux-ioam.pcap")
        ran("node", "examples/one-node/domain.toml", "examples/one-node/readings", "three", "two-three", "examples/linux-ioam.pcap", "out.pcap", "report.txt", "exports")
        differ += paths("what node makes of them", "out.pcap")
        for name in ("three", "two-traces"):
            ran("run", f"examples/{name}/domain.toml", f"examples/{name}/readings", "2", "report.txt", "exports")
            differ += paths(f"the tap of {name}", "bc.pcap")
            os.remove("bc.pcap")
    sys.exit(1 if differ else 0)


main()
