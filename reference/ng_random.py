"""Random captures of both forms, sound ones and ones with each fault at any place."""

from foreign_random import some

TIMES = (0, 1, 999, 10**9, 10**9 + 7, 2**32 * 10**9 - 1, 2**32 * 10**9, 2**32 * 10**9 + 5)


class Size:
    """How many packets a capture gets, by which clock, whether long ones, and how often something in it is wrong."""

    def __init__(self, count, times=TIMES, long=False, wrong=1):
        self.count, self.times, self.long, self.wrong = count, times, long, wrong

    def errs(self, rng, chance):
        """Whether one thing is wrong."""
        return rng.random() < chance * self.wrong


def capture(rng, size, make_frame):
    """A capture: one of both forms; now and then cut or with an octet that is changed."""
    octets = (classic if rng.random() < 0.45 else blocks)(rng, size, make_frame)
    way = rng.random()
    if way < 0.03:
        octets = octets[:rng.choice((0, 3, 4, 8, 11, 12, 23, 24, 27, 28, rng.randint(0, len(octets))))]
    elif way < 0.07:
        octets = octets[:rng.randint(0, len(octets))]
    elif way < 0.1 and octets:
        octets = bytearray(octets)
        octets[rng.randrange(min(len(octets), rng.choice((24, 200, 10**6))))] = rng.getrandbits(8)
    elif way < 0.12:
        octets += some(rng, rng.randint(1, 20))
    return bytes(octets)


def classic(rng, size, make_frame):
    """A classic capture."""
    order, unit = rng.choice(("big", "little")), rng.choice((1, 1000))
    magic = {1000: 0xA1B2C3D4, 1: 0xA1B23C4D}[unit]
    link = rng.choice((1, 101, 229, 101, 1))
    if size.errs(rng, 0.02):
        magic = rng.choice((0xA1B2CD34, 0x0A0D0D0B, 0xA1B23C4E, rng.getrandbits(32)))
    written = link if not size.errs(rng, 0.03) else rng.choice((0, 2, 113, 276, 0x30000001, 0x01000000, 228))
    head = magic.to_bytes(4, order) + some(rng, 16) + written.to_bytes(4, order)
    return head + b"".join(record(rng, order, unit, size, make_frame, link == 1) for _ in range(size.count))


def record(rng, order, unit, size, make_frame, ethernet):
    """A record; now and then with a captured length beside the greatest."""
    octets, original = make_frame(rng, ethernet)
    time = rng.choice(size.times)
    seconds, fraction = min(time // 10**9, 2**32 - 1), time % 10**9 // unit
    if rng.random() < 0.1:
        seconds = rng.choice((0, 1, 2**32 - 1, rng.getrandbits(32)))
        fraction = rng.choice((10**9, 2**32 - 1, 999_999, 10**6, rng.getrandbits(32)))
    captured = len(octets)
    if size.long and rng.random() < 0.1:
        captured = rng.choice((262_144, 262_145, 65_536, 65_535, 65_512, 131_072))
        octets = (octets + bytes(captured))[:captured]
    elif size.errs(rng, 0.004):
        captured = rng.choice((262_145, 262_144, captured + 1, 2**32 - 1))
    return b"".join(part.to_bytes(4, order) for part in (seconds, fraction, captured, original)) + octets


def block(rng, size, order, kind, body):
    """A block; now and then its lengths aren't its length."""
    body += bytes(-len(body) % 4)
    total = trail = len(body) + 12
    way = rng.random() / max(0.001, min(size.wrong, 20))
    if way < 0.003:
        total = rng.choice((total + 1, total + 2, total - 4, total + 4, 8, 12, 0, 28, 20, 16, 32))
    elif way < 0.005:
        trail = rng.choice((total + 4, 0, total ^ 1 << 31))
    elif way < 0.006:
        total = rng.choice((16_777_216, 16_777_220, 2**32 - 4, 16_777_217))
    return kind.to_bytes(4, order) + total.to_bytes(4, order) + body + trail.to_bytes(4, order)


def section(rng, size, order):
    """A section block, whose versions, length and options aren't looked at."""
    magic = 0x1A2B3C4D if not size.errs(rng, 0.01) else rng.choice((0x1A2B3C4E, 0, rng.getrandbits(32)))
    body = magic.to_bytes(4, order) + some(rng, 12) + some(rng, rng.choice((0, 0, 4, 12)))
    return block(rng, size, order, 0x0A0D0D0A, body)


class Face:
    """An interface: its link type, what its options say, and its block."""

    def __init__(self, rng, size, order):
        self.link = rng.choice((1, 1, 101, 101, 229, 1, 101))
        if size.errs(rng, 0.01):
            self.link = rng.choice((0, 113, 276, 65_535))
        self.resolution, self.offset, self.order, self.size = None, None, order, size
        options = b"".join(self.option(rng) for _ in range(rng.choice((0, 0, 1, 1, 2, 3, 6))))
        if rng.random() < 0.4:
            options += self.end(rng)
        if size.errs(rng, 0.01):
            options += self.part(rng.choice((2, 9, 14)), bytes(4))[:2] + rng.choice((8, 1, 5, 65_535)).to_bytes(2, order)
        body = self.link.to_bytes(2, order) + some(rng, 6) + options
        self.octets = block(rng, size, order, 1, body)

    def part(self, code, value):
        """An option: code, length and padded value."""
        padded = value + bytes(-len(value) % 4)
        return code.to_bytes(2, self.order) + len(value).to_bytes(2, self.order) + padded

    def end(self, rng):
        """The end of options, and what isn't looked at behind it."""
        return bytes(2) + rng.choice((b"\0\0", b"\0\x09", b"\xff\xff")) + rng.choice((b"", b"\0\x09\0\x01\x03\0\0\0", some(rng, 4)))

    def option(self, rng):
        """One option of an interface."""
        code = rng.choice((9, 9, 9, 14, 14, 2, 3, 11, 2988))
        if code == 9:
            value = bytes([rng.choice((0, 3, 6, 9, 9, 9, 10, 18, 128, 138, 158, 160, 191, rng.randint(0, 18), rng.randint(128, 191)))])
            if self.size.errs(rng, 0.015):
                value = bytes([rng.choice((19, 127, 192, 255, rng.getrandbits(8)))])
            if rng.random() < 0.08:
                value = some(rng, rng.choice((0, 2, 4)))
            elif self.resolution is None:
                self.resolution = value[0]
            return self.part(9, value)
        if code == 14:
            number = rng.choice((0, 1, -1, 1000, -1000, rng.randint(-2**30, 2**30)))
            if self.size.errs(rng, 0.04):
                number = rng.choice((2**32, 4_611_686_018, 4_611_686_019, -2**63, 2**63 - 1, rng.randint(-2**33, 2**33)))
            if rng.random() < 0.08:
                return self.part(14, some(rng, rng.choice((0, 4, 7, 9, 12))))
            if self.offset is None:
                self.offset = number
            return self.part(14, number.to_bytes(8, self.order, signed=True))
        return self.part(code, some(rng, rng.choice((0, 1, 3, 4, 8, 17))))

    def units(self, rng, times):
        """Units of a time that is wanted, as near as they come."""
        if rng.random() < 0.001:
            return rng.getrandbits(64)
        resolution = 6 if self.resolution is None else self.resolution
        second = 10**resolution if resolution < 128 else 2**(resolution - 128)
        border = 2**62 if rng.random() < 0.005 else 0
        time = border or rng.choice(times)
        units = (time - (self.offset or 0) * 10**9) * second // 10**9
        units += rng.choice((-1, 0, 0, 1)) if border or rng.random() < 0.02 else 0
        return min(max(units, 0), 2**64 - 1)


def packet_block(rng, faces, order, size, make_frame):
    """A packet block of one of the interfaces."""
    which = rng.randrange(len(faces)) if faces else 0
    face = faces[which] if faces else Face(rng, size, order)
    octets, original = make_frame(rng, face.link == 1)
    if size.errs(rng, 0.004):
        which = rng.choice((len(faces), len(faces) + 1, 2**32 - 1))
    captured = len(octets)
    if size.long and rng.random() < 0.2:
        captured = rng.choice((262_144, 262_145, 65_536, 65_500, 65_504, 131_040))
        octets = (octets + bytes(captured))[:captured]
    elif size.errs(rng, 0.004):
        captured = rng.choice((captured + 1, captured + 4, 2**32 - 1, 262_145))
    body = which.to_bytes(4, order)
    units = face.units(rng, size.times)
    for part in (units >> 32, units & 2**32 - 1, captured, original):
        body += part.to_bytes(4, order)
    body += octets + some(rng, -len(octets) % 4)
    if rng.random() < 0.1:
        body += bytes.fromhex("0001000461626364" if order == "big" else "0100040061626364") + some(rng, 8)
    return block(rng, size, order, 6, body)


def blocks(rng, size, make_frame):
    """A pcapng capture of a few sections."""
    octets = b""
    left = size.count
    while left >= 0 and (octets == b"" or left > 0):
        order = rng.choice(("big", "little"))
        octets += section(rng, size, order)
        faces = []
        for _ in range(rng.choice((1, 1, 2, 3))):
            faces.append(Face(rng, size, order))
            octets += faces[-1].octets
        part = rng.randint(0, left)
        for _ in range(part):
            if rng.random() < 0.1:
                octets += skipped(rng, order, size)
            if rng.random() < 0.05:
                faces.append(Face(rng, size, order))
                octets += faces[-1].octets
            octets += packet_block(rng, faces, order, size, make_frame)
        left -= max(part, 1)
    return octets + (skipped(rng, order, size) if rng.random() < 0.2 else b"")


def skipped(rng, order, size):
    """A block that is passed over, or now and then one that is refused."""
    kind = rng.choice((4, 5, 9, 10, 0xBAD, 0x40000BAD, 0, 7)) if not size.errs(rng, 0.015) else rng.choice((2, 3))
    body = some(rng, 4 * rng.choice((0, 0, 1, 3, 20)))
    if size.long and rng.random() < 0.2:
        body = bytes(rng.choice((65_524, 65_528, 200_000, 1_000_000)))
    return block(rng, size, order, kind, body)
