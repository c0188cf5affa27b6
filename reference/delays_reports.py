"""What `delays` writes: for each namespace the ways, hops and nodes of its traces, and how long they took."""

from faults_reach import reached
from foreign_packets import judged, number, outer_options
from foreign_traces import WIDE, has, read_trace

UNITS = {"ptp": 10**9, "ntp": 2**32, "posix": 10**6}  # of a fraction in a second
SECONDS = 2**32 * 10**9  # after which seconds of 32 bits begin anew
MOST_ROWS, MOST_LINES, MARKS = 1024, 16, 40
LAST = float("inf")  # what has no number comes after all numbers


class Element:
    """What one node wrote (RFC 9197 section 4.4.2)."""

    def __init__(self, head, octets, units):
        fields, offset = {}, 0
        for bit in range(12):
            if has(head.kind, bit):
                size = 8 if bit in WIDE else 4
                fields[bit] = number(octets, offset, size)
                offset += size
        self.node = self.hops = None
        for bit, bits in ((0, 24), (8, 56)):
            if bit in fields:
                self.hops = fields[bit] >> bits
                given = fields[bit] % 2**bits
                self.node = self.node if given == 2**bits - 1 else given
        self.fraction = known(fields.get(3))
        self.bad = self.fraction is not None and self.fraction >= units
        self.time, self.modulus = None, SECONDS if 2 in fields else 10**9
        if self.fraction is not None and not self.bad and fields.get(2) != 2**32 - 1:
            self.time = fields.get(2, 0) * 10**9 + self.fraction * 10**9 // units
        transit = known(fields.get(4))
        self.long = transit is not None and transit >= 2**31
        self.transit = None if self.long else transit


def known(field):
    """A field of 32 bits, None where it is all ones."""
    return None if field == 2**32 - 1 else field


def delay(first, second):
    """The delay between two elements of a trace, between minus and plus half of what times are known modulo."""
    if first.time is None or second.time is None:
        return None
    apart = (second.time - first.time) % first.modulus
    reached("delays: " + ("seconds" if first.modulus == SECONDS else "fractions alone"))
    return apart if 2 * apart < first.modulus else apart - first.modulus


def gap(before, after):
    """How many nodes between two elements wrote nothing."""
    if before is None or after is None:
        return 0
    return before - after - 1 if after < before else LAST


class Trace:
    """A trace of a packet."""

    def __init__(self, head, elements, hop_limit, units):
        self.space, self.overflow = head.namespace, head.flags & 8 != 0
        self.elements = [Element(head, octets, units) for octets in elements]
        self.pairs = list(zip(self.elements, self.elements[1:]))
        hops = [element.hops for element in self.elements]
        self.pasts = [gap(*pair) for pair in zip(hops, hops[1:])]
        self.tail = 0
        if hops and hops[-1] is not None:
            self.tail = hops[-1] - hop_limit if hop_limit <= hops[-1] else LAST
        reached("delays: a trace " + ("with" if self.overflow else "without") + f" Overflow, of {min(3, len(hops))}")

    def way(self):
        """Its nodes, each after how many wrote nothing, how many did after the last, and Overflow."""
        nodes = [LAST if element.node is None else element.node for element in self.elements]
        return self.space, list(zip([0] + self.pasts, nodes)), self.tail, self.overflow

    def whole(self):
        """The delay from its first element to its last."""
        return delay(self.elements[0], self.elements[-1]) if self.pairs else None


class Table:
    """Items by their keys: those of the first keys that there is room for."""

    def __init__(self):
        self.rows, self.others = {}, 0

    def put(self, key, item):
        """Puts one more item."""
        mark = repr(key)
        if mark in self.rows:
            self.rows[mark][1].append(item)
        elif len(self.rows) < MOST_ROWS:
            self.rows[mark] = (key, [item])
        else:
            self.others += 1

    def of(self, space):
        """The keys of a namespace in their order, each without the namespace, with its items."""
        return [(key[1:], items) for key, items in sorted(self.rows.values(), key=lambda row: row[0]) if key[0] == space]


class Tables:
    """All traces."""

    def __init__(self, traces):
        self.spaces, self.ways, self.hops, self.nodes = Table(), Table(), Table(), Table()
        for trace in traces:
            self.spaces.put((trace.space,), trace)
            self.ways.put(trace.way(), trace.whole())
            for (one, other), past in zip(trace.pairs, trace.pasts):
                self.hops.put((trace.space, named(one.node), named(other.node), past), delay(one, other))
            for element in trace.elements:
                self.nodes.put((trace.space, named(element.node)), element)

    def beyond(self):
        """The line of what found no room."""
        counts = [table.others for table in (self.spaces, self.ways, self.hops, self.nodes)]
        if not any(counts):
            return ""
        reached("delays: beyond " + " ".join(str(int(count > 0)) for count in counts))
        return "beyond namespaces {} ways {} hops {} nodes {}\n".format(*counts)


def named(node):
    """A node's id, or what comes after all of them."""
    return LAST if node is None else node


def bucket_of(value):
    """The number of the bucket in which a value is: 32 in each octave from 32 on, mirrored below 0."""
    if value < 0:
        return -1 - bucket_of(-1 - value)
    octave = max(5, value.bit_length() - 1)
    return value if value < 32 else 32 * (octave - 4) + (value >> octave - 5) - 32


def least_in(bucket):
    """The least value in a bucket."""
    if bucket < 0:
        return -1 - greatest_in(-1 - bucket)
    return bucket if bucket < 32 else 32 + bucket % 32 << bucket // 32 - 1


def greatest_in(bucket):
    """The greatest value in a bucket."""
    return -1 - least_in(-1 - bucket) if bucket < 0 else least_in(bucket + 1) - 1


def percentile(values, percent):
    """The greatest value in the bucket of the first of the sorted values that so many percent are at most; no more than the last."""
    reached_by = -(-percent * len(values) // 100)
    return min(greatest_in(bucket_of(values[reached_by - 1])), values[-1])


def delays_text(delays):
    """What is said of delays, and their picture."""
    values = sorted(value for value in delays if value is not None)
    if not values:
        return " delays 0\n"
    texts = [f"delays {len(values)} least {values[0]}"]
    texts += [f"p{percent} {percentile(values, percent)}" for percent in (50, 90, 99)]
    texts.append(f"most {values[-1]} mean {sum(values) // len(values)} negative {sum(value < 0 for value in values)}")
    return " " + " ".join(texts) + "\n" + picture(values)


def picture(values):
    """The rows in which there are values, of so many buckets that they and the gaps between them have 16 lines at most."""
    size = 1
    while True:
        counts = {}
        for value in values:
            row = bucket_of(value) // size
            counts[row] = counts.get(row, 0) + 1
        rows = sorted(counts)
        gaps = [row for before, row in zip(rows, rows[1:]) if row > before + 1]
        if len(rows) + len(gaps) <= MOST_LINES:
            break
        size *= 2
    reached(f"delays: a picture with rows of {size}")
    most, text = max(counts.values()), ""
    for row in rows:
        text += "      ...\n" if row in gaps else ""
        bounds = " to ".join(f"{shown(least_in(at * size)):>7}" for at in (row, row + 1))
        text += f"      {bounds} {counts[row]:>{len(str(most))}} {'#' * -(-MARKS * counts[row] // most)}\n"
    return text


def shown(value):
    """A time in three digits toward zero and a unit."""
    if abs(value) < 1000:
        return f"{value}ns"
    power, unit = max((power, unit) for power, unit in ((3, "us"), (6, "ms"), (9, "s")) if abs(value) >= 10**power)
    places = max(0, 3 - len(str(abs(value) // 10**power)))
    digits = str(abs(value) // 10 ** (power - places))
    sign = "-" if value < 0 else ""
    return f"{sign}{digits[:len(digits) - places]}{'.' if places else ''}{digits[len(digits) - places:]}{unit}"


def share(part, whole):
    """A part of a whole in percent, to a tenth, a half up."""
    tenths = (2000 * part + whole) // (2 * whole)
    return f"{tenths // 10}.{tenths % 10}"


def said(key, unknown):
    """A node or a gap."""
    return unknown if key == LAST else str(key)


def way_text(steps, tail, overflow):
    """A way."""
    text = "".join(("" if past == 0 else f" *{said(past, '?')}") + f" {said(node, '-')}" for past, node in steps)
    text += "" if tail == 0 else f" *{said(tail, '?')}"
    return text + (" +" if overflow else "" if steps else " none")


def way_lines(ways, traces):
    """The lines of a namespace's ways, those of the most traces first."""
    text = ""
    for (steps, tail, overflow), delays in sorted(ways, key=lambda way: -len(way[1])):
        values = [value for value in delays if value is not None]
        text += f"  way{way_text(steps, tail, overflow)} count {len(delays)} share {share(len(delays), traces)} delays {len(values)}"
        if values:
            text += f" least {min(values)} mean {sum(values) // len(values)} most {max(values)}"
        text += "\n"
    return text


def hop_lines(hops):
    """The lines of a namespace's hops."""
    sums = [sum(value for value in delays if value is not None) for _, delays in hops]
    whole = sum(sums) if all(part >= 0 for part in sums) else 0
    text = ""
    for ((one, other, past), delays), part in zip(hops, sums):
        none = whole == 0 or all(value is None for value in delays)
        reached("delays: a hop without a share" if none else "delays: a hop with a share")
        text += f"  hop {said(one, '-')} {said(other, '-')} past {said(past, '?')} count {len(delays)}"
        text += f" share {'-' if none else share(part, whole)}" + delays_text(delays)
    return text


def node_lines(nodes):
    """The lines of a namespace's nodes."""
    text = ""
    for (node,), elements in nodes:
        stamped = sum(element.time is not None for element in elements)
        counts = (stamped, sum(element.bad for element in elements), sum(element.long for element in elements))
        text += f"  node {said(node, '-')} seen {len(elements)} stamped {counts[0]} bad {counts[1]} long {counts[2]}"
        text += delays_text([element.transit for element in elements])
    return text


def spaces_text(tables):
    """The lines of all namespaces."""
    text = ""
    for (space,), traces in sorted(tables.spaces.rows.values(), key=lambda row: row[0]):
        empty = sum(not trace.elements for trace in traces)
        text += f"namespace {space} traces {len(traces)} overflow {sum(trace.overflow for trace in traces)} empty {empty}\n"
        text += way_lines(tables.ways.of(space), len(traces)) + hop_lines(tables.hops.of(space)) + node_lines(tables.nodes.of(space))
    return text


def format_line(word, traces):
    """The first line: the format, and the first one that all fractions would fit."""
    fractions = [element.fraction for trace in traces for element in trace.elements if element.fraction is not None]
    most, fits = "-", "-"
    if fractions:
        most = max(fractions)
        fits = min((units, name) for name, units in UNITS.items() if units > most)[1]
        reached(f"delays: {word} by fractions of {fits}")
    return f"format {word} fractions {len(fractions)} most {most} narrowest {fits}\n"


def delays(word, arrivals):
    """REPORT of `delays`."""
    traces, bad, skipped = [], 0, 0
    for arrival in arrivals:
        reason, packet, chain = judged(arrival)
        if reason is not None:
            skipped += 1
            continue
        for _, _, data in outer_options(chain):
            if len(data) < 2 or data[1] != 0:
                continue
            fault, head, elements = read_trace(data[2:])
            if fault is None:
                traces.append(Trace(head, elements, packet[7], UNITS[word]))
            else:
                bad += 1
    tables = Tables(traces)
    text = format_line(word, traces) + spaces_text(tables) + tables.beyond()
    text += f"traces {len(traces)} overflow {sum(trace.overflow for trace in traces)} bad {bad}\n"
    text += f"packets {len(arrivals)} skipped {skipped}\n"
    return text.encode()
