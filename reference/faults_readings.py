"""READINGS: what nodes' clocks read, or the first fault; and the time stamps that nodes write (RFC 9197 section 5)."""

import re

from faults_reach import reached

MOST_OCTETS = 67_108_864
NUMBER = re.compile(rb"0|[1-9][0-9]*")


class Fault(Exception):
    """The first fault of READINGS: a line and a reason."""


def number_of(word, below, may_be_absent):
    """A number below a bound; a dash where that may stand; raises ValueError else."""
    if may_be_absent and word == b"-":
        return None
    if not NUMBER.fullmatch(word) or len(word) > 30 or int(word) >= below:
        raise ValueError
    return int(word)


def read_readings(names, octets):
    """The samples of each node; raises the first fault."""
    if len(octets) > MOST_OCTETS:
        raise Fault("0 long")
    samples = [[] for _ in names]
    places = {name.encode(): place for name, place in names.items()}
    for place, line in enumerate(octets.split(b"\n"), 1):
        if line == b"":
            continue
        words = line.split(b" ")
        if len(words) != 6 or b"" in words:
            raise Fault(f"{place} words")
        if words[0] not in places:
            raise Fault(f"{place} node")
        try:
            time, clock = number_of(words[1], 2**63, False), number_of(words[2], 2**63, False)
            delay = number_of(words[3], 2**63, True)
            queue, buffer = number_of(words[4], 2**32, True), number_of(words[5], 2**32, True)
        except ValueError:
            raise Fault(f"{place} number") from None
        before = samples[places[words[0]]]
        if before and time <= before[-1]["time"]:
            raise Fault(f"{place} order")
        before.append({"time": time, "clock": clock, "delay": delay, "queue": queue, "buffer": buffer})
        reached("readings: sample")
    return samples


def sample_at(samples, time):
    """The last sample that isn't after a time, or None."""
    past = [sample for sample in samples if sample["time"] <= time]
    return past[-1] if past else None


def stamp_of(form, reading):
    """A clock's reading in nanoseconds as the two words of a time stamp."""
    seconds, rest = divmod(reading, 10**9)
    fraction = {"ptp": rest, "ntp": rest * 2**32 // 10**9, "posix": rest // 1000}[form]
    return seconds % 2**32, fraction
