#!/usr/bin/env python3
"""Compares the figures of `delays` with statistics over the lines of `paths`.

    bench/compare/delays_by_paths.py [PROGRAM [CAPTURE..]]

PROGRAM is this repository's `ioam` where none is given. The captures are the shipped ones, what `node` makes of one, and the taps of
the shipped domains, in each format of time stamps. Of each namespace, way (but for what follows its last node, which `paths` doesn't
print), hop and node each count, sum, least and greatest delay is compared, by numpy where it is there; percentiles are to be at most
a 32nd above those of the sorted delays. A line for each capture; ends with status 1 where something differs.
"""
import glob
import os
import shutil
import subprocess
import sys
import tempfile

from repository import TOP, program_at

try:
    import numpy
except ImportError:
    numpy = None

UNITS = {"ptp": 10**9, "ntp": 2**32, "posix": 10**6}
FIGURES = ("least", "most", "mean", "negative")


def traces_in(text):
    """The traces in a report of `paths`: namespace, Overflow, and each element as a dictionary."""
    found, bad = [], 0
    for line in text.splitlines():
        words = line.split()
        if line.startswith("  trace bad"):
            bad += 1
        elif line.startswith("  trace"):
            found.append((int(words[1]), words[3] == "overflow", []))
        elif line.startswith("    "):
            found[-1][2].append(dict(word.split("=") for word in words))
    return found, bad


def value(element, name):
    """A field as a number, None where it is all ones or isn't there."""
    return None if element.get(name, "-") == "-" else int(element[name])


def node_of(element):
    """The node's id as `delays` prints it."""
    wide, narrow = value(element, "wnode"), value(element, "node")
    return "-" if wide is None and narrow is None else str(narrow if wide is None else wide)


def past(one, other):
    """How many nodes between two elements wrote nothing."""
    hops = [value(element, "whop" if "whop" in element else "hop") for element in (one, other)]
    if None in hops:
        return "0"
    return str(hops[0] - hops[1] - 1) if hops[1] < hops[0] else "?"


def stamp(element, units):
    """A time and what it is known modulo, or whether there is none because of another format."""
    fraction = value(element, "frac")
    if fraction is None or fraction >= units or element.get("sec") == "-":
        return None, fraction is not None and fraction >= units
    modulus = 2**32 * 10**9 if "sec" in element else 10**9
    return (int(element.get("sec", "0")) * 10**9 + fraction * 10**9 // units, modulus), False


def delay(one, other, units):
    """The delay between two elements, None where there is none."""
    (first, _), (second, _) = stamp(one, units), stamp(other, units)
    if first is None or second is None:
        return None
    half = first[1] // 2
    return (second[0] - first[0] + half) % first[1] - half


def figures(delays):
    """What is said of delays."""
    there = [one for one in delays if one is not None]
    if not there:
        return {"delays": 0}
    found = {"delays": len(there), "negative": sum(one < 0 for one in there), "mean": sum(there) // len(there)}
    if numpy is not None:
        array = numpy.array(there, dtype=numpy.int64)
        found.update(least=int(array.min()), most=int(array.max()))
        found.update({f"p{per}": int(numpy.percentile(array, per, method="inverted_cdf")) for per in (50, 90, 99)})
    else:
        there.sort()
        found.update(least=there[0], most=there[-1])
        found.update({f"p{per}": there[(per * len(there) + 99) // 100 - 1] for per in (50, 90, 99)})
    return found


def by_paths(text, units):
    """Each line of `delays` by its name: counts, and delays."""
    counts, delays, (traces, bad) = {}, {}, traces_in(text)

    def put(name, one, **more):
        delays.setdefault(name, []).append(one)
        row = counts.setdefault(name, {})
        for word, count in more.items():
            row[word] = row.get(word, 0) + count

    for space, overflow, elements in traces:
        pairs = list(zip(elements, elements[1:]))
        pasts = [past(*pair) for pair in pairs]
        put(f"namespace {space}", None, traces=1, overflow=overflow, empty=not elements)
        marks = [f"*{mark} " if mark != "0" else "" for mark in pasts]
        way = "".join(f" {mark}{node_of(element)}" for mark, element in zip([""] + marks, elements))
        way += " +" if overflow else "" if elements else " none"
        put(f"{space} way{way}", delay(elements[0], elements[-1], units) if pairs else None, count=1)
        for pair, mark in zip(pairs, pasts):
            put(f"{space} hop {node_of(pair[0])} {node_of(pair[1])} past {mark}", delay(*pair, units), count=1)
        for element in elements:
            time, is_bad = stamp(element, units)
            transit = value(element, "delay")
            long = transit is not None and transit >= 2**31
            put(f"{space} node {node_of(element)}", None if long else transit, seen=1, stamped=time is not None, bad=is_bad, long=long)
    rows = {name: {**counts[name], **({} if name.startswith("namespace") else figures(delays[name]))} for name in counts}
    rows["traces"] = {"traces": len(traces), "overflow": sum(trace[1] for trace in traces), "bad": bad}
    rows["packets"] = {"packets": int(text.splitlines()[-1].split()[1]), "skipped": text.count(" skip ")}
    return rows


def numbers_of(words):
    """Words in pairs of a name and a number; a share is left out."""
    return {name: int(text) for name, text in zip(words[::2], words[1::2]) if name != "share"}


def by_delays(text):
    """Each line of `delays` by its name. Ways that differ in their ends alone are one."""
    rows, space, name = {}, "", None
    for line in text.splitlines():
        words = line.split()
        if line.startswith("      "):  # a picture
            rows[name]["drawn"] = rows[name].get("drawn", 0) + (int(words[3]) if words[0] != "..." else 0)
        elif words[0] in ("traces", "packets"):
            rows[words[0]] = numbers_of(words)
        elif words[0] == "namespace":
            space = words[1]
            rows[f"namespace {space}"] = numbers_of(words[2:])
        elif words[0] in ("way", "hop", "node"):
            end = words.index("seen" if words[0] == "node" else "count")
            named = words[:end]
            if words[0] == "way":  # without how many wrote nothing after the last node
                tail = [at for at, word in enumerate(named) if word[0] == "*" and (at + 1 == end or named[at + 1] == "+")]
                named = [word for at, word in enumerate(named) if at not in tail]
                named = ["way", "none"] if named == ["way"] else named
            name = f"{space} {' '.join(named)}"
            rows[name] = joined(rows.get(name), numbers_of(words[end:]))
    return rows


def joined(one, other):
    """Two ways as one."""
    if one is None:
        return other
    whole = {"count": one["count"] + other["count"], "delays": one["delays"] + other["delays"]}
    both = [way for way in (one, other) if way["delays"]]
    if both:
        whole.update(least=min(way["least"] for way in both), most=max(way["most"] for way in both))
    if len(both) == 1:
        whole["mean"] = both[0]["mean"]
    return whole


def difference(name, ours, theirs):
    """What differs in a line, in words."""
    wrong = [word for word in set(ours) | set(theirs) if word not in ("p50", "p90", "p99", "drawn") and ours.get(word) != theirs.get(word)]
    if " way " in name:  # no percentiles, and no mean of two that are joined
        wrong = [word for word in wrong if word not in ("negative", "mean") or "mean" in ours and word == "mean"]
    else:
        wrong += [word for word in ("p50", "p90", "p99") if word in theirs and not
                  theirs[word] <= ours[word] <= min(theirs["most"], theirs[word] + abs(theirs[word]) // 32)]
        wrong += ["picture"] if ours.get("drawn", 0) != ours.get("delays", 0) and not name.startswith("namespace") else []
    return [f"  {name}: {word}: delays says {ours.get(word)}, paths {theirs.get(word)}" for word in sorted(wrong)]


def compare(program, what, capture):
    """Compares one capture in each format; whether nothing differs."""
    said, rows = [], 0
    for word, units in UNITS.items():
        texts = []
        for words in (["paths", capture], ["delays", word, capture]):
            subprocess.run([program, *words, "report.txt"], stdout=subprocess.DEVNULL)
            with open("report.txt", encoding="ascii") as file:
                texts.append(file.read())
        theirs, ours = by_paths(texts[0], units), by_delays(texts[1])
        said += [f"  {name}: one alone has it" for name in sorted(set(ours) ^ set(theirs))]
        for name in sorted(set(ours) & set(theirs)):
            said += difference(name, ours[name], theirs[name])
        rows += len(ours)
    print("\n".join([f"{'DIFFERS' if said else 'ok':8}{what}: {rows} lines"] + said))
    return not said


def main():
    program, same = program_at(1), []
    given = [os.path.abspath(name) for name in sys.argv[2:]]
    with tempfile.TemporaryDirectory() as room:
        os.chdir(room)
        shutil.copytree(os.path.join(TOP, "examples"), "examples")
        # (Those of examples/recipes have a cooked header and VLAN tags, which no command reads.)
        captures = given or [name for name in sorted(glob.glob("examples/**/*.pcap*", recursive=True)) if "recipes" not in name]
        same += [compare(program, capture, capture) for capture in captures]
        if not given:
            one = "examples/one-node/"
            subprocess.run([program, "node", one + "domain.toml", one + "readings", "three", "two-three", "examples/linux-ioam.pcap",
                            "out.pcap", "report.txt", "exports"], stdout=subprocess.DEVNULL)
            same.append(compare(program, "what node makes of linux-ioam.pcap", "out.pcap"))
            for name in ("three", "two-traces", "plot"):
                subprocess.run([program, "run", f"examples/{name}/domain.toml", f"examples/{name}/readings", "2", "report.txt", "exports"],
                               stdout=subprocess.DEVNULL)
                for tap in sorted(set(glob.glob("*.pcap")) - {"out.pcap"}):
                    same.append(compare(program, f"{tap} of {name}", tap))
                    os.remove(tap)
        os.chdir(TOP)
    return 0 if all(same) else 1


if __name__ == "__main__":
    sys.exit(main())
