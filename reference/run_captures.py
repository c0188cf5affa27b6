"""Random captures in every form, whole and faulty."""

LINKS = [1, 101, 229]


class Captures:
    """Writes frames as a capture in a form that it draws."""

    def __init__(self, rng, packets, times, faulty):
        self.rng = rng
        self.packets = packets
        self.times = times
        self.faulty = faulty

    def capture(self, count):
        data = self.pcapng(count) if self.rng.random() < 0.4 else self.classic(count)
        if self.rng.random() < self.faulty:
            data = self.cut(data)
        return data

    def cut(self, data):
        """The same with an end or an octet that is otherwise."""
        rng = self.rng
        chosen = rng.random()
        if chosen < 0.5:
            return data[:rng.randrange(len(data) + 1)]
        if chosen < 0.55:
            return data[:rng.randrange(33)]
        if chosen < 0.6:
            place = rng.randrange(12)
            return data[:place] + rng.choice([b"\0", b"\xd4", b"\x4d", b"\x0a"]) + data[place + 1:]
        if chosen < 0.8:
            return data + rng.randbytes(rng.choice([1, 2, 11, 12, 16, 40]))
        place = rng.randrange(len(data))
        return data[:place] + rng.randbytes(1) + data[place + 1:]

    def classic(self, count):
        rng = self.rng
        order = rng.choice(["big", "little"])
        unit, magic = rng.choice([(1, 0xA1B23C4D), (1000, 0xA1B2C3D4)])
        link = rng.choice(LINKS)
        written = link
        if rng.random() < self.faulty / 8:
            written = rng.choice([0, 113, 276, 0x30000001])
        data = magic.to_bytes(4, order) + (2).to_bytes(2, order) + (4).to_bytes(2, order)
        data += rng.randbytes(12) + written.to_bytes(4, order)
        for _ in range(count):
            frame, original = self.packets.frame(link == 1)
            seconds, fraction = divmod(self.times(), 10 ** 9)
            seconds, fraction = min(seconds, 0xFFFFFFFF), fraction // unit
            if rng.random() < 0.02:
                fraction = rng.choice([10 ** 9, 0xFFFFFFFF])
            size = len(frame)
            if rng.random() < self.faulty / 40:
                size = rng.choice([262145, 262144, 0xFFFFFFFF])
            for value in (seconds, fraction, size, original):
                data += value.to_bytes(4, order)
            data += frame
        return data

    def pcapng(self, count):
        data = b""
        while True:
            section = Section(self.rng, self.faulty)
            data += section.head()
            part = self.rng.randrange(count + 1)
            for _ in range(part):
                data += self.block(section)
            count -= part
            if count == 0:
                return data

    def block(self, section):
        """A packet block, with others before it."""
        rng = self.rng
        data = b""
        while rng.random() < 0.2:
            data += section.other()
        while not section.faces or rng.random() < 0.1:
            data += section.interface()
        place = rng.randrange(len(section.faces))
        frame, original = self.packets.frame(section.faces[place][0] == 1)
        return data + section.packet(place, self.times(), original, frame)


class Section:
    """One section of a pcapng capture."""

    def __init__(self, rng, faulty):
        self.rng = rng
        self.faulty = faulty
        self.order = rng.choice(["big", "little"])
        self.faces = []

    def number(self, value, count):
        return value.to_bytes(count, self.order)

    def rarely(self):
        return self.rng.random() < self.faulty / 30

    def block(self, kind, body):
        size = self.number(self.told(12 + len(body)), 4)
        last = self.number(len(body) + 13, 4) if self.rarely() else size
        return self.number(kind, 4) + size + body + last

    def told(self, size):
        """A block's length, now and then another."""
        if self.rarely():
            return self.rng.choice([0, 8, size - 1, size - 4, size + 4, 1 << 24, (1 << 24) + 4])
        return size

    def head(self):
        rng = self.rng
        magic = 0x1A2B3C4E if self.rarely() else 0x1A2B3C4D
        body = self.number(magic, 4) + rng.randbytes(4) + rng.choice([b"\xff" * 8, rng.randbytes(8)])
        if rng.random() < 0.2:
            body += self.option(4, b"ioam") + bytes(4)
        return self.block(0x0A0D0D0A, body)

    def option(self, code, value):
        return (self.number(code, 2) + self.number(len(value), 2) + value
                + bytes(-len(value) % 4))

    def interface(self):
        rng = self.rng
        link = rng.choice(LINKS)
        resolution = rng.choice([None, None, 9, 9, 6, 0, 3, 18, 128, 138, 158, 191])
        offset = rng.choice([None, None, 0, 5, -5, 1700000000])
        if self.rarely():
            resolution = rng.choice([19, 127, 192, 255])
        if self.rarely():
            link = rng.choice([0, 113])
        options = []
        if resolution is not None:
            options.append(self.option(9, bytes([resolution])))
        if offset is not None:
            options.append(self.option(14, (offset % (1 << 64)).to_bytes(8, self.order)))
        for code, value in ((2, b"eth0"), (9, b"\6\6"), (14, bytes(4)), (12, b"linux")):
            if rng.random() < 0.15:
                options.append(self.option(code, value))
        rng.shuffle(options)
        if rng.random() < 0.3:
            options.append(self.option(9, b"\3"))
        if rng.random() < 0.5:
            options.append(bytes(4))
        elif self.rarely():
            options.append(self.number(0, 2) + self.number(9, 2))
        if self.rarely():
            options.append(self.number(5, 2) + self.number(9, 2) + bytes(4))
        self.faces.append((link, 6 if resolution is None else resolution, offset or 0))
        body = self.number(link, 2) + bytes(2) + rng.randbytes(4) + b"".join(options)
        return self.block(1, body)

    def other(self):
        rng = self.rng
        kind = rng.choice([4, 5, 10, 0xBAD, 0x80000001])
        if self.rarely():
            kind = rng.choice([2, 3])
        return self.block(kind, rng.randbytes(rng.choice([0, 4, 8, 20])))

    def packet(self, place, time, original, frame):
        _, resolution, offset = self.faces[place]
        second = 10 ** resolution if resolution < 128 else 1 << (resolution - 128)
        units = max(0, time - offset * 10 ** 9) * second // 10 ** 9 % (1 << 64)
        if self.rarely():
            units = (1 << 64) - 1
        if self.rarely():
            place = len(self.faces) + 3
        captured = len(frame)
        if self.rarely():
            captured += self.rng.choice([1, 4, 8])
        body = (self.number(place, 4) + self.number(units >> 32, 4)
                + self.number(units & 0xFFFFFFFF, 4) + self.number(captured, 4)
                + self.number(original, 4) + frame + bytes(-len(frame) % 4))
        if self.rng.random() < 0.2:
            body += self.option(2, b"\0\0\0\1") + self.rng.choice([b"", bytes(4)])
        return self.block(6, body)
