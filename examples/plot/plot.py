#!/usr/bin/env python3
"""Draws delays and the share of packets by path with gnuplot: examples/plot/plot.py REPORT PNG [FORMAT]
REPORT is what `ioam paths`, `collect`, `run` or `delays` wrote; FORMAT is that of the time stamps: ptp (if none is given), ntp or
posix (Linux). `delays` has read them already."""
import collections
import subprocess
import sys

PARTS = {"ptp": 10**9, "ntp": 2**32, "posix": 10**6}
HEAD = "set terminal pngcairo size 900,700\nset grid y\n"
TIMES = "set key outside title 'node'\nset xlabel 'seconds since the first packet'\nset ylabel 'delay, milliseconds'\nset yrange [*<0:*]\n"
RANGES = ("set key outside\nset ylabel 'delay, milliseconds'\nset yrange [*<0:*]\nset xrange [-0.6:*]\nset offsets 0,0.6,0,0\nset style fill solid 0.5\nset boxwidth 0.3\n"
          "plot $hops using 0:3:2:5:4:xtic(1) with candlesticks title '50 to 90 percent', '' using 0:6:(0.15) with xerrorbars pt 7 title 'mean'\n")
SHARES = ("set xlabel 'path, by the numbers of its nodes (+: Overflow)'\nset ylabel 'share of packets, %'\nset yrange [0:110]\nset ytics auto\nunset key\n"
          "set style fill solid 0.5\nset boxwidth 0.4\nset xrange [-0.6:*]\n"
          "plot $paths using 0:2:xtic(1) with boxes, '' using 0:($2 + 5):(sprintf('%.1f', $2)) with labels\n")


def packets(report):
    """Of each packet the elements of its first trace, or those of its group, each as words by name; and whether it overflowed."""
    elements, traces, overflowed = [], 0, False
    for line in report:
        if not line.startswith(" "):
            yield elements, overflowed
            elements, traces, overflowed = [], 0, False
        elif line.startswith("  trace"):
            traces += 1
            overflowed |= traces == 1 and " overflow " in line
        elif traces < 2:
            elements.append(dict(word.split("=") for word in line.split()[traces == 0:]))  # a record has its type first


def seen(element, parts):
    """The node, the time in nanoseconds (None if there is none), and the transit delay that it wrote."""
    fields = [element.get(name, "-") for name in ("sec", "frac")]
    time = None if "-" in fields else int(fields[0]) * 10**9 + int(fields[1]) * 10**9 // parts
    return element.get("wnode", element.get("node", "?")), int(element["at"]) if "at" in element else time, element.get("delay", "-")


def shares(paths):
    """The data of the second picture: paths with their shares in percent."""
    return "$paths << E\n" + "".join(f'"{path}" {share}\n' for path, share in paths) + "E\n"


def over_time(report, parts):
    """Each delay at its time, a line for each hop and for each node that wrote one, from the elements of all packets."""
    delays, paths = collections.defaultdict(list), collections.Counter()
    for elements, overflowed in packets(report):
        if not elements:
            continue
        visits = [seen(element, parts) for element in elements]
        paths[" ".join(node for node, _, _ in visits) + " +" * overflowed] += 1
        for (one, sent, delay), (other, came, _) in zip(visits, visits[1:] + [(None, None, None)]):
            if None not in (sent, came):
                delays[f"{one} to {other}"].append((sent, came - sent))
            if sent is not None and delay != "-":
                delays[f"within {one}"].append((sent, int(delay)))
    first = min((time for points in delays.values() for time, _ in points), default=0)
    names, counts = zip(*paths.most_common())  # a ValueError if there is none
    script = shares((name, 100 * count / sum(counts)) for name, count in zip(names, counts))
    for at, name in enumerate(sorted(delays)):
        script += f"$delay{at} << E\n" + "".join(f"{(time - first) / 1e9} {delay / 1e6}\n" for time, delay in sorted(delays[name])) + "E\n"
    lines = ", ".join(f"$delay{at} with linespoints pt 7 ps 0.3 lc rgb hsv2rgb({at / len(delays)}, 1, 0.8) title '{name}'" for at, name in enumerate(sorted(delays)))
    return script, f"{TIMES}plot {lines}\n" if lines else ""


def ranges(report):
    """The delays of each hop and node that has some, least to 99 percent, and the shares of the ways, from the lines of `delays`."""
    hops, ways = [], []
    for line in report:
        kind, *words = line.split()
        if not line.startswith("  ") or kind not in ("way", "hop", "node"):
            continue
        at = words.index("seen" if kind == "node" else "count")
        values = dict(zip(words[at::2], words[at + 1::2]))
        if kind == "way":
            ways.append((" ".join(words[:at]), values["share"]))
        elif values["delays"] != "0":
            name = f"{words[0]} to {words[1]}" + f" past {words[3]}" * (words[3] != "0") if kind == "hop" else f"within {words[0]}"
            hops.append((name, *(int(values[key]) / 1e6 for key in ("least", "p50", "p90", "p99", "mean"))))
    if not ways:
        raise ValueError
    rows = "".join(f'"{name}" {" ".join(map(str, values))}\n' for name, *values in hops)
    return f"$hops << E\n{rows}E\n" + shares(ways), RANGES if hops else ""


def main(report, png, form="ptp"):
    with open(report, encoding="ascii") as lines:
        first = lines.readline()
        lines.seek(0)
        values, above = ranges(lines) if first.startswith("format ") else over_time(lines, PARTS[form])
    script = f"{HEAD}{values}set multiplot layout {2 if above else 1},1\n{above}{SHARES}"
    with open(png, "wb") as picture:
        subprocess.run(["gnuplot"], input=script.encode(), stdout=picture, check=True)


if not 3 <= len(sys.argv) <= 4 or sys.argv[3:] and sys.argv[3] not in PARTS:
    sys.exit(__doc__)
try:
    main(*sys.argv[1:])
except (OSError, ValueError, subprocess.CalledProcessError) as fault:
    sys.exit(f"plot.py: {sys.argv[1] + ' shows no trace or group' if isinstance(fault, ValueError) else fault}")
