"""Random packets and frames: of every kind of chain, whole and broken."""

from domain import address
from packet import options_header, octets, put_header
from run_wire import outer_size

UPPER = [6, 17, 50, 51, 58, 59, 255]


class Packets:
    """Makes packets that have something to do with a domain; `domain` is that
    domain as it is read, None where its file is faulty."""

    def __init__(self, rng, world, domain, broken):
        self.rng = rng
        self.world = world
        self.domain = domain
        self.broken = broken
        self.heavy = False
        self.plain = rng.choice([0.95, 0.8, 0.4])

    def target(self):
        rng = self.rng
        chosen = rng.random()
        if chosen < 0.03:
            return address(rng.choice(self.world.addresses))
        if chosen < 0.06:
            return rng.getrandbits(128)
        return rng.choice(self.world.targets)

    def options(self):
        """Options of a header: any but those of IOAM, and the tunnel's limit."""
        rng, found = self.rng, []
        for _ in range(rng.choice([0, 1, 1, 2, 3])):
            kind = rng.choice([1, 4, 4, 5, 0x12, 0xC2, 0x1E])
            size = 1 if kind == 4 else rng.choice([0, 1, 2, 4, 9])
            if kind == 4 and rng.random() < 0.2:
                size = rng.choice([0, 2])
            data = bytes(rng.choice([0, 1, 2, 255]) for _ in range(size))
            found.append((kind, data))
        if rng.random() < 0.08 * self.broken:
            space = rng.choice([b"", b"\0\0", b"\0\4", b"\0\0" + bytes(8)])
            found.append((rng.choice([0x11, 0x31]), space))
        return found

    def extension(self, kind, following):
        """One extension header."""
        rng = self.rng
        if kind == 44:
            offset = rng.choice([0, 0, 0, 1, 6]) if self.rng.random() < 0.7 else 1 << 3
            return bytes([following, rng.getrandbits(8)]) + octets(offset, 2) + bytes(4)
        if kind == 43:
            size = rng.choice([0, 0, 1, 2])
            return bytes([following, size]) + rng.randbytes(6 + 8 * size)
        head = options_header(following, self.options())
        if rng.random() < 0.04 * self.broken:
            return self.spoiled(head)
        return head

    def spoiled(self, head):
        """An options header of which some octet is another."""
        place = self.rng.randrange(2, len(head))
        return head[:place] + self.rng.randbytes(1) + head[place + 1:]

    def body(self, depth):
        """What follows a fixed header: the value that names it, its octets."""
        rng = self.rng
        kinds = []
        if rng.random() < 0.25:
            kinds.append(0)
        for _ in range(rng.choice([0, 0, 0, 1, 1, 2, 3])):
            kinds.append(rng.choice([60, 60, 60, 43, 44]))
        if rng.random() < 0.04 * self.broken:
            kinds.append(0)
        end, data = rng.choice(UPPER), rng.randbytes(rng.choice([0, 0, 8, 8, 20]))
        if depth < 2 and rng.random() < 0.2:
            end, data = 41, self.whole(depth + 1, 0)
            if rng.random() < 0.2 * self.broken:
                data = rng.choice([data[:39], b"\x40" + data[1:], data[:rng.randrange(40)]])
        for kind in reversed(kinds):
            data = self.extension(kind, end) + data
            end = kind
        if rng.random() < 0.05 * self.broken and data:
            data = data[:rng.randrange(len(data))]
        return end, data

    def whole(self, depth, size):
        """A packet; with a size that is filled up to where it is shorter."""
        rng = self.rng
        following, data = self.body(depth)
        data += bytes(max(0, size - 40 - len(data)))
        hops = rng.choice([0, 1, 2, 3, 4, 5, 6, 64, 64, 64, 64, 64, 255])
        return put_header(rng.choice([0, 0, 1, 0xB8, 255]), rng.choice([0, 1, 0xFFFFF]),
                          len(data), following, hops, rng.choice(self.world.targets),
                          self.target()) + data

    def size(self):
        """A length near what some link takes."""
        if self.heavy:
            return 65000
        rng, domain = self.rng, self.domain
        if domain is None or not domain.link or rng.random() < self.plain:
            return 0
        most = rng.choice(domain.link)["mtu"]
        if most > 2000 and rng.random() < 0.8:
            most = 1500
        over = 0
        if domain.flow and rng.random() < 0.8:
            over = self.overhead(rng.randrange(len(domain.flow)))
        return min(65575, most - over + rng.choice([-1, 0, 0, 1]))

    def overhead(self, place):
        """What a flow's tunnel adds to a packet, with some of its options."""
        flow = self.domain.flow[place]

        class Like:
            packet, number, stamp = b"", 0, (None, None)
            direct = 0 if flow["direct"] is not None and self.rng.random() < 0.6 else None
            limit = flow["limit"]

        return outer_size(self.domain, place, Like)

    def packet(self):
        """A packet, now and then not a whole one."""
        rng = self.rng
        packet = self.whole(0, self.size())
        chosen = rng.random() / self.broken if self.broken else 1
        if chosen < 0.02:
            packet = packet[:rng.randrange(len(packet))]
        elif chosen < 0.04:
            size = max(0, len(packet) - 40 + rng.choice([-9, -8, -1, 1, 8]))
            packet = packet[:4] + octets(size % 65536, 2) + packet[6:]
        elif chosen < 0.06:
            packet = bytes([rng.choice([0x40, 0x50, 0x70])]) + packet[1:]
        elif chosen < 0.08:
            place = rng.randrange(len(packet))
            packet = packet[:place] + rng.randbytes(1) + packet[place + 1:]
        elif chosen < 0.085:
            packet = b""
        return packet

    def frame(self, ethernet):
        """A frame and its original length."""
        rng = self.rng
        data = self.packet()
        if rng.random() < 0.1:
            data += bytes(rng.randrange(1, 9))
        elif rng.random() < 0.0005:
            data += bytes(262144 - 14 * ethernet - len(data))
        if ethernet:
            kind = b"\x86\xdd"
            if rng.random() < 0.03 * self.broken:
                kind = rng.choice([b"\x08\0", b"\x86\xde", b"\x81\0"])
            data = rng.randbytes(12) + kind + data
            if rng.random() < 0.03 * self.broken:
                data = data[:rng.randrange(15)]
        original = len(data)
        if rng.random() < 0.03 * self.broken:
            original += rng.choice([1, 2, 1000])
        elif rng.random() < 0.03:
            original = max(0, original - 1)
        return data, original
