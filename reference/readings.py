"""READINGS: what the nodes' clocks and queues showed, and time stamps."""

import re

from run_reach import reach

LONGEST = 64 << 20
DECIMAL = re.compile(rb"0|[1-9][0-9]*")


class Fault(Exception):
    """The first faulty line and why."""

    def __init__(self, line, why):
        super().__init__("readings %d %s" % (line, why))
        self.line = self.args[0]


def number_below(word, limit):
    """A decimal number without zeros in front and below a limit, or None."""
    if not DECIMAL.fullmatch(word):
        return None
    value = int(word) if len(word) <= 20 else limit
    return value if value < limit else None


def read_readings(domain, data):
    """The samples of each node, in order: time, clock, delay, queue, buffer."""
    if len(data) > LONGEST:
        raise Fault(0, "long")
    names = {node["name"].encode(): place for place, node in enumerate(domain.node)}
    samples = [[] for _ in domain.node]
    for place, line in enumerate(data.split(b"\n"), 1):
        if line:
            node, sample = read_line(names, place, line)
            if samples[node] and samples[node][-1][0] >= sample[0]:
                raise Fault(place, "order")
            samples[node].append(sample)
    return samples


def read_line(names, place, line):
    """One line: the node's place and its sample."""
    words = line.split(b" ")
    if len(words) != 6 or b"" in words:
        raise Fault(place, "words")
    if words[0] not in names:
        raise Fault(place, "node")
    sample = []
    for at, word in enumerate(words[1:]):
        if word == b"-" and at >= 2:
            sample.append(None)
            continue
        value = number_below(word, 1 << (63 if at < 3 else 32))
        if value is None:
            raise Fault(place, "number")
        sample.append(value)
    return names[words[0]], sample


def sample_at(samples, node, time):
    """The node's last sample that isn't later than a time, or None."""
    found = [sample for sample in samples[node] if sample[0] <= time]
    reach("sample in force" if found else "no sample in force")
    return found[-1] if found else None


def stamp(form, clock):
    """Seconds and fraction of a clock (RFC 9197 section 5)."""
    seconds, rest = divmod(clock, 10 ** 9)
    if form == "ntp":
        rest = (rest << 32) // 10 ** 9
    elif form == "posix":
        rest //= 1000
    if seconds >> 32:
        reach("stamp: seconds past 32 bits")
    return seconds % (1 << 32), rest


def stamp_at(domain, samples, node, time):
    """The stamp of a node's clock at a time, a pair of None without a sample:
    the clock goes on from the sample in force."""
    sample = sample_at(samples, node, time)
    if sample is None:
        return None, None
    return stamp(domain.format, sample[1] + time - sample[0])
