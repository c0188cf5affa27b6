"""Captures: the classic form, pcapng (draft-ietf-opsawg-pcapng), and how both are written."""

from faults_reach import reached

CLASSIC_HEAD = bytes.fromhex("a1b23c4d0002000400000000000000000004000000000065")
SECTION = 0x0A0D0D0A
MAGICS = {  # the first four octets: the octet order, nanoseconds in one unit of a fraction
    b"\xa1\xb2\xc3\xd4": ("big", 1000),
    b"\xd4\xc3\xb2\xa1": ("little", 1000),
    b"\xa1\xb2\x3c\x4d": ("big", 1),
    b"\x4d\x3c\xb2\xa1": ("little", 1),
}
LINKS = (1, 101, 229)
MOST_CAPTURED = 262_144
MOST_BLOCK = 16_777_216
LATEST = 2**62


class Arrival:
    """One packet of a capture."""

    def __init__(self, ethernet, time, original, octets):
        self.ethernet, self.time, self.original, self.octets = ethernet, time, original, octets


def read_capture(octets):
    """The arrivals in front of the first fault, and that fault: its place and text, or None."""
    if octets[:4] == b"\x0a\x0d\x0d\x0a":
        return Blocks(octets).read()
    return read_classic(octets)


def read_classic(octets):
    """The records of a classic capture."""
    if len(octets) < 4:
        return [], (0, f"short {len(octets)}")
    if octets[:4] not in MAGICS:
        return [], (0, f"magic {int.from_bytes(octets[:4], 'big')}")
    order, unit = MAGICS[octets[:4]]
    if len(octets) < 24:
        return [], (0, f"short {len(octets)}")
    link = int.from_bytes(octets[20:24], order)
    if link not in LINKS:
        return [], (0, f"link {link}")
    found, place = [], 24
    reached(f"classic: {order} {unit} link {link}")
    while place < len(octets):
        if len(octets) - place < 16:
            return found, (place, f"short {len(octets) - place}")
        seconds, fraction, captured, original = (
            int.from_bytes(octets[at:at + 4], order) for at in range(place, place + 16, 4))
        if captured > MOST_CAPTURED:
            return found, (place, f"long {captured}")
        end = place + 16 + captured
        if end > len(octets):
            return found, (place, f"short {len(octets) - place}")
        if fraction * unit >= 10**9:
            reached("classic: a fraction of more than a second")
        found.append(Arrival(link == 1, seconds * 10**9 + fraction * unit, original, octets[place + 16:end]))
        place = end
    return found, None


class Blocks:
    """A pcapng capture, block by block."""

    def __init__(self, octets):
        self.octets, self.order, self.faces, self.found = octets, "big", [], []

    def number(self, place, size=4):
        """A number in the octet order of the section."""
        return int.from_bytes(self.octets[place:place + size], self.order)

    def read(self):
        """All blocks up to the first fault."""
        place = 0
        while place < len(self.octets):
            fault, total = self.front(place)
            if fault is None and place + total <= len(self.octets):
                fault = self.whole(place, total)
            elif fault is None:
                fault = f"short {len(self.octets) - place}"
            if fault is not None:
                return self.found, (place, fault)
            place += total
        return self.found, None

    def front(self, place):
        """The faults that the first octets of a block show; its total length."""
        left = len(self.octets) - place
        section = self.octets[place:place + 4] == b"\x0a\x0d\x0d\x0a"
        if left < (12 if section else 8):
            return f"short {left}", 0
        if section:
            magic = self.octets[place + 8:place + 12]
            if magic not in (b"\x1a\x2b\x3c\x4d", b"\x4d\x3c\x2b\x1a"):
                return f"order {int.from_bytes(magic, 'big')}", 0
            self.order = "big" if magic[0] == 0x1A else "little"
        kind, total = self.number(place), self.number(place + 4)
        if total > MOST_BLOCK:
            return f"large {total}", 0
        least = {SECTION: 28, 1: 20, 6: 32}.get(kind, 12)
        if total % 4 != 0 or total < least:
            reached(f"ng: size of type {kind if kind in (SECTION, 1, 6) else 'other'}")
            return f"size {total}", 0
        return None, total

    def whole(self, place, total):
        """The faults of a block that is whole; else what it says is taken in."""
        kind, end = self.number(place), place + total - 4
        if kind == 6 and place + 28 + self.number(place + 20) > end:
            reached("ng: size of a packet")
            return f"size {total}"
        face = self.face(place + 8, end) if kind == 1 else None
        if kind == 1 and face is None:
            reached("ng: size of an option")
            return f"size {total}"
        if self.number(end) != total:
            return f"trail {self.number(end)}"
        if kind in (2, 3):
            return f"kind {kind}"
        if kind == SECTION:
            reached(f"ng: section {self.order}{' again' if place else ''}")
            self.faces = []
        elif kind == 1:
            self.faces.append(face)
        elif kind == 6:
            return self.packet(place)
        else:
            reached("ng: skipped block")
        return None

    def face(self, place, end):
        """An interface: link type, resolution, offset; None where an option passes the block."""
        link, resolution, offset = self.number(place, 2), None, None
        place += 8
        while place < end:
            code, size = self.number(place, 2), self.number(place + 2, 2)
            if code == 0:
                break
            after = place + 4 + (size + 3) // 4 * 4
            if after > end:
                return None
            if code == 9 and size == 1 and resolution is None:
                resolution = self.octets[place + 4]
            elif code == 14 and size == 8 and offset is None:
                offset = int.from_bytes(self.octets[place + 4:place + 12], self.order, signed=True)
            else:
                reached("ng: option passed" + (" again or of another length" if code in (9, 14) else ""))
            place = after
        return link, 6 if resolution is None else resolution, offset or 0

    def packet(self, place):
        """The faults of a packet block; else its packet is added."""
        which = self.number(place + 8)
        if which >= len(self.faces):
            return f"face {which}"
        link, resolution, offset = self.faces[which]
        if link not in LINKS:
            return f"link {link}"
        if 18 < resolution < 128 or resolution > 191:
            return f"resolution {resolution}"
        captured, original = self.number(place + 20), self.number(place + 24)
        if captured > MOST_CAPTURED:
            return f"long {captured}"
        units = self.number(place + 12) << 32 | self.number(place + 16)
        second = 10**resolution if resolution < 128 else 2**(resolution - 128)
        time = units * 10**9 // second + offset * 10**9
        if not 0 <= time < LATEST:
            reached("ng: time " + ("negative" if time < 0 else "late"))
            return f"time {units}"
        reached(f"ng: packet {'2' if resolution >= 128 else '10'}-units link {link}{' offset' if offset else ''}")
        self.found.append(Arrival(link == 1, time, original, self.octets[place + 28:place + 28 + captured]))
        return None


def classic_record(time, packet):
    """A record of an outgoing capture: big-endian, nanoseconds, seconds modulo 2^32."""
    size = len(packet).to_bytes(4, "big")
    return (time // 10**9 % 2**32).to_bytes(4, "big") + (time % 10**9).to_bytes(4, "big") + size + size + packet


def ng_interface(link):
    """An interface of nanoseconds without names."""
    body = link.to_bytes(2, "big") + bytes(2) + MOST_CAPTURED.to_bytes(4, "big") + bytes.fromhex("0009000109000000") + bytes(4)
    total = (len(body) + 12).to_bytes(4, "big")
    return b"\x00\x00\x00\x01" + total + body + total


NG_HEAD = bytes.fromhex("0a0d0d0a0000001c1a2b3c4d00010000ffffffffffffffff0000001c") + ng_interface(101) + ng_interface(1)


def ng_block(arrival):
    """A packet block of one arrival."""
    size = len(arrival.octets)
    padded = arrival.octets + bytes(-size % 4)
    body = (1 if arrival.ethernet else 0).to_bytes(4, "big") + arrival.time.to_bytes(8, "big")
    body += size.to_bytes(4, "big") + arrival.original.to_bytes(4, "big") + padded
    total = (len(body) + 12).to_bytes(4, "big")
    return b"\x00\x00\x00\x06" + total + body + total
