"""Random pairs of captures for `audit`: what came to a node, and what it, another one, or nobody made of it."""

import ng_random
from audit_data import is_open, overflowed
from audit_packets import Audit, Seat
from foreign_node import Node
from foreign_packets import hop_options, judged, number
from foreign_random import frame, packet, padding, some
from foreign_traces import Head, element_of, has, undefined, words
from ng_captures import read_capture

SMALL = (0x800000, 0x800000, 0xC00000, 0x400000, 0x404000, 0x080000, 0x010000, 0x808000, 0x800002, 0x000002, 0x800800, 0x000800,
         0x088000, 0x200000, 0x100000, 0x500000, 0x020000, 0x002000, 0x001000, 0x800001, 0x000001, 0x410000, 0x800802, 0x000C02)


class Maker:
    """What makes the packets of both captures."""

    def __init__(self, rng, domain, node, link, aim):
        self.rng, self.domain, self.aim = rng, domain, aim
        self.node = Node(domain, [[] for _ in domain.node], node, link)
        self.seat = Seat(domain, node, link)
        self.ident, self.inward, self.index = self.seat.ident, self.seat.inward, node

    def small_trace(self):
        """The data of a trace of few words, which is mostly one that a node can fill."""
        rng = self.rng
        kind = rng.choice(SMALL)
        size = words(kind) + rng.choice((0, undefined(kind)))
        if rng.random() < 0.15:
            size = max(0, size + rng.choice((-1, 1, 2)))
        free = max(0, size + rng.choice((-1, 0, 0, 1, 1, 2, 3)))
        if has(kind, 22):
            free += rng.choice((0, 1, 1, 2))
        flags = rng.choice((0,) * 12 + (8, 1, 4))
        remaining = free if rng.random() < 0.94 else free + 1
        middle = size << 11 | flags << 7 | min(remaining, 127)
        area = bytes(4 * free) if rng.random() < 0.7 else some(rng, 4 * free)
        older = some(rng, 4 * rng.choice((0, 0, size, 1)))
        space = rng.choice(self.aim.spaces)
        head = space.to_bytes(2, "big") + middle.to_bytes(2, "big") + kind.to_bytes(3, "big")
        return head + rng.choice((b"\0", some(rng, 1))) + area + older

    def with_traces(self):
        """A packet with a Hop-by-Hop Options header of traces and a short payload."""
        rng, options = self.rng, b""
        traces = [self.small_trace() for _ in range(rng.choice((1, 1, 1, 2, 3)))]
        if rng.random() < 0.15:
            traces.append(traces[0])
        for trace in traces:
            options += padding(rng, (-len(options) - 2) % 4)
            kind = 0x31 if rng.random() < 0.95 else 0x11
            options += bytes([kind, len(trace) + 2, rng.choice((0, 0, 7)), 0 if rng.random() < 0.95 else 1]) + trace
        options += padding(rng, (-len(options) - 2) % 8)
        header = bytes([59, (len(options) + 2) // 8 - 1]) + options + some(rng, rng.choice((0, 0, 4)))
        hops = rng.choice((64, 64, 64, 64, 255, 2, 1, 0))
        return b"\x60" + some(rng, 3) + len(header).to_bytes(2, "big") + bytes([0, hops]) + some(rng, 32) + header

    def before(self, inner, ethernet):
        """A frame of the first capture."""
        if inner.random() < 0.35:
            return frame(inner, self.aim, ethernet)
        octets = self.with_traces()
        return self.framed(octets, ethernet)

    def framed(self, octets, ethernet):
        """A frame that holds a packet, at times padded, and its original length."""
        if self.rng.random() < 0.1:
            octets += some(self.rng, self.rng.randint(1, 9))
        if ethernet:
            octets = some(self.rng, 12) + b"\x86\xdd" + octets
        return octets, len(octets)

    def free_view(self, head, hops):
        """What some node may know, whose id and interface are these: numbers beside each border, snapshots of up to 255 words."""
        rng = self.rng

        def value(*more):
            return rng.choice((None, 0, 1, 2**32 - 1, rng.getrandbits(32), *more))

        room, snapshot = head.remaining - head.node_len - 1, None
        if rng.random() < 0.8:
            count = max(0, rng.choice((0, 1, 2, room, room, room + 1, 255)))
            snapshot = (rng.choice((0, 5, 2**24 - 1)), some(rng, 4 * min(count, 255)))
        return {"hops": hops, "id": self.ident, "inward": rng.choice((self.inward, self.inward, None)),
                "outward": value(65_535, 65_536, 70_000, 12), "stamp": rng.choice((None, (value(7) or 0, value(8) or 0))),
                "delay": value(2**31 - 1, 2**31, 2**32 + 1, 2**31 + 1), "queue": value(), "buffer": value(), "short": value(),
                "wide": rng.choice((None, 0, 2**64 - 1, rng.getrandbits(64))), "snapshot": snapshot}

    def filled(self, octets, hops):
        """What a node that knows some such view makes of the data of a trace."""
        if len(octets) < 8:
            return octets
        head = Head(octets)
        if not is_open(octets, head) or undefined(head.kind) and self.rng.random() < 0.3:
            return octets
        view = self.free_view(head, hops)
        added = element_of(head.kind, head.node_len, view)
        if len(added) > 4 * head.remaining:
            return overflowed(octets)
        start = 8 + 4 * head.remaining - len(added)
        if has(head.kind, 7):
            check = 4 * sum(has(head.kind, bit) for bit in range(7))
            added = added[:check] + some(self.rng, 4) + added[check + 4:]
        middle = number(octets, 2, 2) - len(added) // 4
        return octets[:2] + middle.to_bytes(2, "big") + octets[4:start] + added + octets[start + len(added):]

    def sent(self, octets, chain):
        """What a node makes of a packet: one that knows its own view of each trace, or this node of ours."""
        after = bytearray(octets)
        after[7] = max(0, octets[7] - 1)
        ours = self.rng.random() < 0.25
        for kind, at, data in hop_options(chain):
            if kind != 0x31 or len(data) < 4 or data[1] != 0 or not self.domain.knows(self.index, number(data, 2, 2)):
                continue
            made = (self.ours if ours else self.filled)(data[2:], after[7])
            after[at + 4:at + 2 + len(data)] = made
        return bytes(after)

    def ours(self, octets, hops):
        """What this program's node makes of the data of a trace."""
        if len(octets) < 8:
            return octets
        view = self.node.view(hops, self.rng.choice((12, 70_000)), 0, number(octets, 0, 2))
        return self.node.option(0x31, b"\0\0" + octets, lambda _: view)[1][2:]

    def over(self, arrivals):
        """A capture of what this program's node sends on, each packet of which it may send on."""
        octets = self.node.over(arrivals)[0]
        audit = Audit(self.seat, arrivals, read_capture(octets)[0])
        if audit.sent < len(audit.after):
            raise AssertionError("what a node sends on is none of what it may send on")
        return octets

    def spoiled(self, octets, chain):
        """A packet with something in it that is otherwise; mostly in the data of a trace that the node may change."""
        rng, after = self.rng, bytearray(octets)
        traces = [(at, data) for kind, at, data in hop_options(chain) if len(data) >= 10 and self.seat.may_change(kind, data)]
        if traces and rng.random() < 0.9:
            at, data = rng.choice(traces)
            place, end = at + 4, at + 2 + len(data)
            after[place:end] = self.spoiled_data(octets[place:end], octets[7])
        elif not traces and rng.random() < 0.85:
            return octets
        elif rng.random() < 0.3:
            after[7] = (after[7] + rng.choice((1, -1))) % 256
        else:
            spot = rng.randrange(len(after))
            after[spot] = rng.choice((0, 1, 255, after[spot] ^ 1 << rng.randrange(8)))
        return bytes(after)

    def spoiled_data(self, octets, hops):
        """The data of a trace with something in them that is otherwise, mostly in the newest element."""
        rng, after, way = self.rng, bytearray(octets), self.rng.random()
        newest = 8 + 4 * (after[3] & 127)
        if way < 0.65 and newest + 4 <= len(after):
            word = newest + 4 * rng.choice([0, 0, *range((len(after) - newest) // 4)][:5])
            values = (0, 2**32 - 1, 0x80000001, 0x80000000, hops << 24 | self.ident & 0xFFFFFF, self.inward & 0xFFFFFFFF,
                      (self.inward & 0xFFFF) << 16 | 9, 0xFFFF0009)
            if rng.random() < 0.5:
                after[word + rng.randrange(4)] ^= 1 << rng.randrange(8)
            else:
                after[word:word + 4] = rng.choice(values).to_bytes(4, "big")
        elif way < 0.75:
            after[3] = (after[3] + rng.choice((1, -1, 2, 128))) % 256
        elif way < 0.85:
            after[2] ^= rng.choice((4, 8, 1, 2))
        else:
            spot = rng.randrange(len(after))
            after[spot] = rng.choice((0, 1, 255, after[spot] ^ 1 << rng.randrange(8)))
        return bytes(after)


def after_packets(rng, maker, arrivals):
    """The packets of the second capture: what a node made of those of the first, some of them dropped, spoiled, repeated or
    exchanged, and some that it never got."""
    found, wrong = [], rng.choice((0, 0, 0.1, 0.2, 0.5))
    for arrival in arrivals:
        reason, octets, chain = judged(arrival)
        if reason is not None or rng.random() < 0.12 or octets[7] < 2 and rng.random() < 0.95:
            continue
        after = maker.sent(octets, chain)
        if rng.random() < wrong:
            after = maker.spoiled(after, chain) if rng.random() < 0.85 else octets
        found.append(after)
        if rng.random() < wrong / 4:
            found.append(after)
    if len(found) > 1 and rng.random() < wrong:
        place = rng.randrange(len(found) - 1)
        found[place], found[place + 1] = found[place + 1], found[place]
    if rng.random() < wrong:
        found.insert(rng.randint(0, len(found)), rng.choice((packet(rng, maker.aim), maker.with_traces(), b"\x45" + bytes(30))))
    return found


def pair(rng, maker, times):
    """Two captures."""
    wrong = rng.choice((0, 0, 0.3, 1, 1))
    count = rng.choice((0, 1, 1, 2, 3, 5, 8, 12, 20)) if rng.random() < 0.985 else 700  # more octets than are read at once
    before = ng_random.capture(rng, ng_random.Size(count, times, False, wrong), maker.before)
    arrivals = read_capture(before)[0]
    if rng.random() < 0.12:
        return before, maker.over(arrivals)
    packets = after_packets(rng, maker, arrivals)
    waiting = list(packets)

    def next_frame(inner, ethernet):
        octets, original = maker.framed(waiting.pop(0), ethernet) if waiting else frame(inner, maker.aim, ethernet)
        if inner.random() < 0.01:
            return octets, original + 1
        return octets, original

    size = ng_random.Size(len(packets), times, False, rng.choice((0, 0, 0, 0.3, 1)))
    return before, plainly(rng, packets) if rng.random() < 0.4 else ng_random.capture(rng, size, next_frame)


def plainly(rng, packets):
    """A capture as nodes write it."""
    size = ng_random.Size(len(packets), (1,), False, 0)
    waiting = list(packets)
    return ng_random.classic(rng, size, lambda _, ethernet: with_ethernet(waiting.pop(0), ethernet))


def with_ethernet(octets, ethernet):
    """A frame and its length."""
    octets = (bytes(12) + b"\x86\xdd" if ethernet else b"") + octets
    return octets, len(octets)
