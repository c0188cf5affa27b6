"""Why a packet isn't one that a router may have made of another: the rules in order, and the first that is broken (RFC 8200, RFC
9197). A second writing, from the rules; `audit_packets.py` says by itself whether a packet is legal."""

from typing import NamedTuple

from faults_reach import reached
from foreign_packets import number
from foreign_traces import WIDE, has, undefined, words

NOTHING = "-"
SECTIONS = {
    "header-inserted": "8200 4", "header-removed": "8200 4", "header-length": "8200 4.3", "payload-length": "8200 3",
    "traffic-class": "-", "flow-label": "6437 2", "next-header": "8200 3", "hop-limit": "8200 3", "source": "8200 3",
    "destination": "8200 3", "padding": "8200 4.2", "option-type": "8200 4.2", "option-length": "8200 4.2",
    "option-data": "8200 4.2", "option-changed": "-", "option-reserved": "9486 3", "ioam-option-type": "9486 3",
    "left-namespace": "9197 4.3", "left-overflow": "9197 4.4.1", "left-part-word": "-", "left-remaining-len": "-",
    "left-node-len": "-", "left-no-field": "-", "element-missing": "9197 4.4.1", "overflow-missing": "9197 4.4.1",
    "namespace-id": "9197 4.4.1", "node-len": "9197 4.4.1", "flags": "9197 4.4.1", "trace-type": "9197 4.4.1",
    "trace-reserved": "9197 4.4.1", "overflow-early": "9197 4.4.1", "remaining-len": "9197 4.4.1",
    "overflow-words": "9197 4.4.1", "free-words": "9197 4.4.1", "older-elements": "9197 4.4.1",
    "snapshot-length": "9197 4.4.2.13", "hop-lim": "9197 4.4.2.1", "node-id": "9197 4.4.2.1",
    "ingress-if-id": "9197 4.4.2.2", "transit-delay": "9197 4.4.2.5", "hop-lim-wide": "9197 4.4.2.9",
    "node-id-wide": "9197 4.4.2.9", "ingress-if-id-wide": "9197 4.4.2.10", "egress-if-id-wide": "9197 4.4.2.10",
    "undefined-bits": "9197 4.4.1", "payload": "8200 4",
}


class Reason(NamedTuple):
    """A rule that is broken: the trace (0 for none), the octet, what is there and what the rule wants."""

    rule: str
    trace: int
    at: int
    found: str
    wanted: str

    def __str__(self):
        """The text of a line."""
        trace = f"trace {self.trace} " if self.trace else ""
        return f"{trace}{self.rule} at {self.at} found {self.found} wanted {self.wanted} rfc {SECTIONS[self.rule]}"


class Broken(Exception):
    """The first rule that is broken."""


class Rules:
    """The rules about one stretch of a packet: a trace, or what isn't one."""

    def __init__(self, trace=0):
        self.trace = trace

    def want(self, kept, rule, at, found, wanted):
        """Goes on if a rule is kept."""
        if not kept:
            reached(f"explain: {rule}")
            raise Broken(Reason(rule, self.trace, at, str(found), str(wanted)))

    def same(self, rule, at, found, wanted):
        """The same for octets that stay: the first that differs."""
        for place, (one, other) in enumerate(zip(found, wanted)):
            self.want(one == other, rule, at + place, f"{one:02x}", f"{other:02x}")


def hop_octets(packet):
    """The octets of the Hop-by-Hop Options header, 0 if there is none or it passes the packet."""
    if packet[6] != 0 or len(packet) < 48:
        return 0
    size = 8 * (packet[41] + 1)
    return size if 40 + size <= len(packet) else 0


def why(seat, before, after):
    """The reason for which a node (`audit_packets.Seat`) can't have made `after` of `before`, a sound packet; None if it may have."""
    try:
        headers(Rules(), before, after)
        end = 40 + hop_octets(before)
        if end > 40:
            Rules().want(after[40] == before[40], "next-header", 40, after[40], before[40])
            all_options(seat, before, after, end)
        Rules().same("payload", end, after[end:], before[end:])
    except Broken as broken:
        return broken.args[0]
    return None


def headers(rules, before, after):
    """The IPv6 header, and whether the same Hop-by-Hop Options header follows it."""
    had, has_it = before[6] == 0, after[6] == 0
    found, wanted = hop_octets(after), hop_octets(before)
    rules.want(had or not has_it, "header-inserted", 6, found, NOTHING)
    rules.want(has_it or not had, "header-removed", 6, NOTHING, wanted)
    rules.want(found == wanted, "header-length", 41, found, wanted)
    rules.want(len(before) == len(after), "payload-length", 4, number(after, 4, 2), number(before, 4, 2))
    for rule, at, mask, shift in (("traffic-class", 0, 255, 20), ("flow-label", 1, 0xFFFFF, 0)):
        new, old = (number(one, 0, 4) >> shift & mask for one in (after, before))
        rules.want(new == old, rule, at, new, old)
    rules.want(before[6] == after[6], "next-header", 6, after[6], before[6])
    limit = before[7] - 1 if before[7] > 1 else NOTHING
    rules.want(after[7] == limit, "hop-limit", 7, after[7], limit)
    rules.same("source", 8, after[8:24], before[8:24])
    rules.same("destination", 24, after[24:40], before[24:40])


def all_options(seat, before, after, end):
    """The options of the Hop-by-Hop Options header, and the padding before each and after the last."""
    at = gap = 42
    trace = 0
    while at < end:
        if before[at] < 2:
            at += 1 if before[at] == 0 else 2 + before[at + 1]
            continue
        Rules().same("padding", gap, after[gap:at], before[gap:at])
        size = before[at + 1]
        old, new = before[at + 2:at + 2 + size], after[at + 2:at + 2 + size]
        Rules().want(after[at] == before[at], "option-type", at, f"{after[at]:02x}", f"{before[at]:02x}")
        Rules().want(after[at + 1] == size, "option-length", at + 1, after[at + 1], size)
        if before[at] == 0x31 and size >= 10 and old[1] == 0:
            trace += 1
            one_trace(seat, Trace(trace, at + 4, after[7], old[2:], new[2:]), old, new)
        else:
            Rules().same("option-changed" if before[at] & 0x20 else "option-data", at + 2, new, old)
        at = gap = at + 2 + size
    Rules().same("padding", gap, after[gap:end], before[gap:end])


class Trace(Rules):
    """A trace before and after, from the Namespace-ID on, which is octet `at` of the packet; the hop limit after."""

    def __init__(self, trace, at, hops, old, new):
        super().__init__(trace)
        self.at, self.hops, self.old, self.new = at, hops, old, new
        self.space, self.kind = number(old, 0, 2), number(old, 4, 3)
        self.node_len, self.remaining, self.now = old[2] >> 3, old[3] & 127, new[3] & 127
        self.least = self.node_len + has(self.kind, 22)

    def flag(self, octets):
        """Whether Overflow is set."""
        return octets[2] & 4 != 0

    def left(self, knows):
        """The rule by which the trace must be left; None if a node adds to it."""
        if not knows:
            return "left-namespace"
        if self.flag(self.old):
            return "left-overflow"
        if len(self.old) % 4:
            return "left-part-word"
        if 8 + 4 * self.remaining > len(self.old):
            return "left-remaining-len"
        size = words(self.kind)
        if self.node_len < size or self.node_len > size and not undefined(self.kind):
            return "left-node-len"
        return "left-no-field" if self.kind < 2 else None


def one_trace(seat, trace, old, new):
    """The data of a trace and the two octets before them."""
    trace.want(new[0] == old[0], "option-reserved", trace.at - 2, f"{new[0]:02x}", f"{old[0]:02x}")
    trace.want(new[1] == old[1], "ioam-option-type", trace.at - 1, f"{new[1]:02x}", f"{old[1]:02x}")
    rule = trace.left(seat.domain.knows(seat.node, trace.space))
    if rule is not None:
        trace.same(rule, trace.at, trace.new, trace.old)
    elif trace.new != trace.old:
        changed(seat, trace)
    elif not undefined(trace.kind):
        fits = trace.least <= trace.remaining
        trace.want(not fits, "element-missing", trace.at + 3, trace.remaining, trace.remaining - trace.least)
        trace.want(fits, "overflow-missing", trace.at + 2, 0, 1)


def changed(seat, trace):
    """A trace that has changed, to which a node may add."""
    at, old, new, fits = trace.at, trace.old, trace.new, trace.least <= trace.remaining
    snapshot = has(trace.kind, 22)
    trace.same("namespace-id", at, new[:2], old[:2])
    trace.want(new[2] >> 3 == trace.node_len, "node-len", at + 2, new[2] >> 3, trace.node_len)
    flags = [(one[2] & 3) << 1 | one[3] >> 7 for one in (new, old)]
    trace.want(flags[0] == flags[1], "flags", at + 2, *flags)
    trace.same("trace-type", at + 4, new[4:7], old[4:7])
    trace.same("trace-reserved", at + 7, new[7:8], old[7:8])
    if trace.flag(new):
        trace.want(snapshot or not fits, "overflow-early", at + 2, 1, 0)
        trace.want(trace.now == trace.remaining, "remaining-len", at + 3, trace.now, trace.remaining)
        trace.same("overflow-words", at + 8, new[8:], old[8:])
        return
    trace.want(fits, "overflow-missing", at + 2, 0, 1)
    most = trace.remaining - trace.least
    trace.want(trace.now == most or snapshot and trace.now < most, "remaining-len", at + 3, trace.now, most)
    start, end = 8 + 4 * trace.now, 8 + 4 * trace.remaining
    trace.same("free-words", at + 8, new[8:start], old[8:start])
    trace.same("older-elements", at + end, new[end:], old[end:])
    element(seat, trace, at + start, new[start:end])


def shown(value, size):
    """An interface as it is printed: `-` for all ones."""
    return NOTHING if value == (1 << 8 * size) - 1 else str(value)


def element(seat, trace, at, octets):
    """The element that was added, field by field."""
    size = 4 * trace.node_len
    if has(trace.kind, 22):
        opaque = len(octets) // 4 - trace.node_len - 1
        trace.want(octets[size] == opaque, "snapshot-length", at + size, octets[size], opaque)
    faces, place = None, 0
    for bit in range(12):
        if has(trace.kind, bit):
            there, wide = at + place, bit in WIDE
            field = octets[place:place + (8 if wide else 4)]
            place += len(field)
            if bit in (0, 8):
                hop_and_node(seat, trace, there, field, "-wide" if wide else "")
            elif bit == 1:
                faces = (number(field, 0, 2), number(field, 2, 2))
                ingress(seat, trace, there, faces[0])
            elif bit == 4:
                delay = number(field, 0, 4)
                trace.want(delay <= 1 << 31 or delay == 2**32 - 1, "transit-delay", there, delay, 1 << 31)
            elif bit == 9:
                wide_faces(seat, trace, there, field, faces)
    trace.same("undefined-bits", at + place, octets[place:size], b"\xff" * (size - place))


def hop_and_node(seat, trace, at, field, wide):
    """Bits 0 and 8: the hop limit and the node's id, which 24 bits may not hold."""
    ident = seat.ident if wide else min(seat.ident, 2**24 - 1)
    trace.want(field[0] == trace.hops, "hop-lim" + wide, at, field[0], trace.hops)
    found = int.from_bytes(field[1:], "big")
    trace.want(found == ident, "node-id" + wide, at + 1, found, ident)


def ingress(seat, trace, at, found):
    """Bit 1: the interface of 16 bits, or none."""
    narrow = min(seat.inward, 65_535)
    wanted = NOTHING if narrow == 65_535 else f"{narrow}|-"
    trace.want(found in (narrow, 65_535), "ingress-if-id", at, shown(found, 2), wanted)


def wide_faces(seat, trace, at, field, faces):
    """Bit 9: the interface or none, and as bit 1 has both."""
    found, leaving, none = number(field, 0, 4), number(field, 4, 4), 2**32 - 1
    narrow = min(seat.inward, 65_535)
    allowed = {seat.inward, none}
    if faces is not None and narrow != 65_535:
        allowed = {seat.inward} if faces[0] == narrow else {none}
    text = "|".join(shown(one, 4) for one in sorted(allowed))
    trace.want(found in allowed, "ingress-if-id-wide", at, shown(found, 4), text)
    if faces is not None:
        kept = min(leaving, 65_535) == faces[1]
        trace.want(kept, "egress-if-id-wide", at + 4, shown(leaving, 4), shown(faces[1], 2))
