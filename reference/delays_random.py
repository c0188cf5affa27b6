"""Random captures of traces with times, as a domain writes them and as it never would."""

import ng_random
from delays_reports import UNITS
from foreign_random import Aim, frame, one_element, option, padding
from foreign_traces import WIDE, has, words

# Fields in each: ids of 24 or 56 bits or both, seconds and fractions, fractions alone, seconds alone, transit delays, snapshots.
TYPES = (0xB00000, 0xB80000, 0x900000, 0x980000, 0x308000, 0xB08000, 0x880000, 0x800000, 0x008000, 0x088000, 0xA00000, 0x300000, 0xB00002, 0xFFF000)
SECONDS = (1, 1_764_547_200, 2**31 - 1, 2**32 - 2, 0)
APART = (0, 1, 31, 32, 33, 63, 64, 65, 1000, 10**6, 10**9 - 1, 10**9, 5 * 10**8, 2**31 * 10**9, 2**31 * 10**9 - 1, 77 * 10**9)
TRANSITS = (0, 1, 999, 1000, 2**31 - 1, 2**31, 2**32 - 2, 2**32 - 1)


class Domain:
    """What the traces of one capture have in common: the format, types, namespaces, nodes, and how far times are apart."""

    def __init__(self, rng):
        self.word = rng.choice(list(UNITS))
        self.written = self.word if rng.random() < 0.8 else rng.choice(list(UNITS))
        self.types = rng.sample(TYPES, rng.choice((1, 1, 2, 4)))
        self.spaces = rng.choice(([7], [7], [7, 8], [0, 7, 65_535], None))
        self.nodes = rng.choice((2, 3, 6, 12, None))  # None: any
        self.apart = rng.choice((10, 1000, 10**6, 10**10, None))
        self.seconds = rng.choice(SECONDS)
        self.longest = 60 if self.nodes is None else rng.choice((0, 1, 3, 6))
        self.odd = rng.choice((0, 0.02, 0.2))

    def space(self, rng):
        """A namespace."""
        return rng.choice(self.spaces) if self.spaces else rng.getrandbits(16)

    def later(self, rng, time):
        """A time after another, or now and then before it."""
        if self.apart is None or rng.random() < self.odd:
            return time + rng.choice((1, -1)) * rng.choice(APART)
        return time + rng.randint(0, self.apart) * (rng.choice((1, 1, -1)) if self.odd else 1)

    def id(self, rng, bits):
        """The id of a node; now and then none."""
        if rng.random() < self.odd:
            return 2**bits - 1
        return rng.randint(1, self.nodes) if self.nodes else rng.getrandbits(24)

    def fields(self, rng, hops, time):
        """All that a node may write, by bits."""
        units, found = UNITS[self.written], {}
        fraction = -(-(time % 10**9) * units // 10**9) % units
        if rng.random() < self.odd:
            fraction = rng.choice((2**32 - 1, units, units - 1, 2**32 - 2, 0, rng.getrandbits(32)))
        seconds = 2**32 - 1 if rng.random() < self.odd / 4 else time // 10**9 % 2**32
        found[0] = (hops << 24 | self.id(rng, 24)).to_bytes(4, "big")
        found[8] = (hops << 56 | self.id(rng, 56)).to_bytes(8, "big")
        found[2], found[3] = seconds.to_bytes(4, "big"), min(fraction, 2**32 - 1).to_bytes(4, "big")
        transit = rng.choice(TRANSITS) if rng.random() < self.odd else rng.randint(1, 5000)
        found[4] = transit.to_bytes(4, "big")
        return found

    def element(self, rng, kind, hops, time):
        """An element of a type."""
        known, octets = self.fields(rng, hops, time), b""
        for bit in range(12):
            if has(kind, bit):
                octets += known.get(bit, rng.randbytes(8 if bit in WIDE else 4))
        return octets + (one_element(rng, 2, 0) if has(kind, 22) else b"")

    def trace(self, rng):
        """The data of a trace, and the hop limit of its packet."""
        kind, hops = rng.choice(self.types), rng.choice((64, 64, 255, 5))
        time = self.seconds * 10**9 + rng.choice((0, 10**9 - 500, rng.randrange(10**9)))
        elements = b""
        for _ in range(rng.randint(0, self.longest)):
            more = self.element(rng, kind, hops, time)
            if len(elements) + len(more) > 236:
                break
            elements = more + elements
            hops = max(0, hops - rng.choice((1, 1, 1, 1, 2, 4))) if rng.random() >= self.odd else rng.getrandbits(8)
            time = self.later(rng, time)
        free = rng.choice((0, 0, 1, 2))
        flags = 8 if rng.random() < 0.2 else 0
        head = (words(kind) << 11 | flags << 7 | free).to_bytes(2, "big") + kind.to_bytes(3, "big") + b"\0"
        limit = hops + 1 if rng.random() < 0.7 else rng.choice((hops, max(0, hops - 1), rng.getrandbits(8)))
        return self.space(rng).to_bytes(2, "big") + head + bytes(4 * free) + elements, min(limit, 255)

    def options(self, rng, behind):
        """An options header with one trace or two, and the hop limit."""
        octets, limit = b"", 64
        for _ in range(rng.choice((1, 1, 1, 1, 0, 2, 3))):
            octets += padding(rng, (-len(octets) - 2) % 4)
            data, limit = self.trace(rng)
            if rng.random() < self.odd / 2:
                data = data[:-4]
            octets += option(rng.choice((0x31, 0x31, 0x11)), b"\0" + (b"\0" if rng.random() >= self.odd / 2 else b"\1") + data)
        octets += padding(rng, (-len(octets) - 2) % 8)
        return bytes([behind, (len(octets) + 2) // 8 - 1]) + octets, limit

    def frame(self, rng, ethernet):
        """A frame and its original length."""
        if rng.random() < self.odd / 2:
            return frame(rng, Aim(), ethernet)
        first = rng.choice((0, 0, 0, 60))
        octets, limit = self.options(rng, rng.choice((59, 59, 59, 60, 41)))
        if octets[0] == 60:
            more, limit = self.options(rng, 59)
            octets += more
        if octets[0] == 41:  # a packet in the packet, whose traces aren't counted
            inner, _ = self.options(rng, 59)
            octets += b"\x60\0\0\0" + len(inner).to_bytes(2, "big") + bytes([0, 9]) + bytes(32) + inner
        packet = b"\x60\0\0\0" + len(octets).to_bytes(2, "big") + bytes([first, limit]) + rng.randbytes(32) + octets
        octets = (bytes(12) + b"\x86\xdd" if ethernet else b"") + packet
        return octets, len(octets)


def over_delays(rng):
    """`delays` over a capture; now and then of so many namespaces, ways, hops or nodes that not all find room."""
    domain = Domain(rng)
    count = rng.choice((0, 1, 2, 5, 20, 40, 100))
    if domain.nodes is None or rng.random() < 0.01:
        count = rng.choice((20, 40, 60))
    if rng.random() < 0.004:
        count, domain.spaces, domain.nodes, domain.longest = 1_300, None, None, 2
    size = ng_random.Size(count, wrong=rng.choice((0, 0, 0, 0.1)))
    word = domain.word.encode()
    if rng.random() < 0.01:
        word = rng.choice((b"tai", b"PTP", b"", b"ptp ", b"pt", b"posixx", b"npt", b"\xff"))
    return [b"delays", word, b"I", b"O"], {"I": ng_random.capture(rng, size, domain.frame)}
