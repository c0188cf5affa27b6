"""Captures: classic (pcap) in its four spellings, and pcapng (the two IETF
drafts of these names), read to their records and their first fault."""

from packet import number, octets
from run_reach import reach

SPELLINGS = {bytes.fromhex("a1b2c3d4"): ("big", 1000), bytes.fromhex("d4c3b2a1"): ("little", 1000),
             bytes.fromhex("a1b23c4d"): ("big", 1), bytes.fromhex("4d3cb2a1"): ("little", 1)}
LINKS = (1, 101, 229)
LONGEST_RECORD = 262144
LONGEST_BLOCK = 16777216
SECTION = bytes.fromhex("0a0d0d0a")
INTERFACE, PACKET = 1, 6
LEAST = {INTERFACE: 20, PACKET: 32}
HEAD = bytes.fromhex("a1b23c4d000200040000000000000000 0004000000000065".replace(" ", ""))


class Record:
    """One packet of a capture."""

    def __init__(self, ethernet, time, original, data):
        self.ethernet = ethernet
        self.time = time
        self.original = original
        self.data = data


class Capture:
    """The records of a capture, and its first fault as place and text, None
    where it has none."""

    def __init__(self, data):
        self.records = []
        self.fault = None
        self.data = data
        if data[:4] == SECTION:
            reach("capture: pcapng")
            Blocks(self).read()
        else:
            self.classic()

    def bad(self, at, text, value):
        self.fault = (at, "%s %d" % (text, value))
        reach("capture fault: " + text)

    def classic(self):
        data = self.data
        if len(data) >= 4 and data[:4] not in SPELLINGS:
            return self.bad(0, "magic", number(data[:4]))
        if len(data) < 24:
            return self.bad(0, "short", len(data))
        order, unit = SPELLINGS[data[:4]]
        reach("capture: classic %s %d" % (order, unit))
        link = int.from_bytes(data[20:24], order)
        if link not in LINKS:
            return self.bad(0, "link", link)
        reach("capture: link type %d" % link)
        at = 24
        while at < len(data):
            at = self.record(at, order, unit, link)
            if at is None:
                return None
        return None

    def record(self, at, order, unit, link):
        """Takes one record; the place behind it, or None at a fault."""
        data = self.data
        if at + 16 > len(data):
            return self.bad(at, "short", len(data) - at)
        seconds, fraction, captured, original = (
            int.from_bytes(data[at + 4 * k:at + 4 * k + 4], order) for k in range(4))
        if captured > LONGEST_RECORD:
            return self.bad(at, "long", captured)
        end = at + 16 + captured
        if end > len(data):
            return self.bad(at, "short", len(data) - at)
        time = seconds * 10 ** 9 + fraction * unit
        self.records.append(Record(link == 1, time, original, data[at + 16:end]))
        return end


class Blocks:
    """The blocks of a pcapng capture, one after the other."""

    def __init__(self, capture):
        self.capture = capture
        self.data = capture.data
        self.order = "big"
        self.faces = []

    def number(self, at, count):
        return int.from_bytes(self.data[at:at + count], self.order)

    def read(self):
        at = 0
        while at < len(self.data):
            size = self.block(at)
            if size is None:
                return
            at += size

    def block(self, at):
        """Takes one block; its length, or None at a fault."""
        bad, data = self.capture.bad, self.data
        section = data[at:at + 4] == SECTION
        if len(data) - at < (12 if section else 8):
            return bad(at, "short", len(data) - at)
        if section and not self.section(at):
            return bad(at, "order", number(data[at + 8:at + 12]))
        kind = None if section else self.number(at, 4)
        size = self.number(at + 4, 4)
        if size > LONGEST_BLOCK:
            return bad(at, "large", size)
        if size % 4 != 0 or size < (28 if section else LEAST.get(kind, 12)):
            return bad(at, "size", size)
        if at + size > len(data):
            return bad(at, "short", len(data) - at)
        fault = self.inside(at, size, kind, section)
        if fault:
            return bad(at, *fault)
        return size

    def section(self, at):
        """Begins a section: its octet order, and no interfaces."""
        magic = self.data[at + 8:at + 12].hex()
        if magic not in ("1a2b3c4d", "4d3c2b1a"):
            return False
        self.order = "big" if magic == "1a2b3c4d" else "little"
        self.faces = []
        reach("pcapng section " + self.order)
        return True

    def inside(self, at, size, kind, section):
        """The fault of a whole block as text and number, None without one."""
        face = self.face(at, size) if kind == INTERFACE else None
        captured = self.number(at + 20, 4) if kind == PACKET else 0
        if face == "passes" or kind == PACKET and captured > size - 32:
            reach("pcapng: %s passes its block" % ("packet" if kind == PACKET else "option"))
            return "size", size
        if self.number(at + size - 4, 4) != size:
            return "trail", self.number(at + size - 4, 4)
        if kind in (2, 3):
            return "kind", kind
        if kind == INTERFACE:
            self.faces.append(face)
        elif kind == PACKET:
            return self.packet(at, captured)
        elif not section:
            reach("pcapng: block passed")
        return None

    def face(self, at, size):
        """An interface as link type, resolution and offset; `passes` where an
        option goes past the block."""
        resolution = offset = None
        place, end = at + 16, at + size - 4
        while place < end:
            code, length = self.number(place, 2), self.number(place + 2, 2)
            if code == 0:
                break
            if place + 4 + length > end:
                return "passes"
            if code == 9 and length == 1 and resolution is None:
                resolution = self.data[place + 4]
            if code == 14 and length == 8 and offset is None:
                offset = int.from_bytes(self.data[place + 4:place + 12], self.order, signed=True)
            place += 4 + length + -length % 4
        return (self.number(at + 8, 2), 6 if resolution is None else resolution, offset or 0)

    def packet(self, at, captured):
        """Takes a packet block; its fault, or None."""
        place = self.number(at + 8, 4)
        if place >= len(self.faces):
            return "face", place
        link, resolution, offset = self.faces[place]
        if link not in LINKS:
            return "link", link
        if 18 < resolution < 128 or resolution > 191:
            return "resolution", resolution
        if captured > LONGEST_RECORD:
            return "long", captured
        units = self.number(at + 12, 4) << 32 | self.number(at + 16, 4)
        second = 10 ** resolution if resolution < 128 else 1 << (resolution - 128)
        time = units * 10 ** 9 // second + offset * 10 ** 9
        if not 0 <= time < 1 << 62:
            return "time", units
        if offset:
            reach("pcapng: offset of an interface")
        reach("pcapng: resolution " + ("decimal" if resolution < 128 else "binary"))
        data = self.data[at + 28:at + 28 + captured]
        self.capture.records.append(Record(link == 1, time, self.number(at + 24, 4), data))
        return None


def put_record(time, packet):
    """A record of an output: big-endian, nanoseconds."""
    seconds, rest = divmod(time, 10 ** 9)
    if seconds >> 32:
        reach("record: seconds past 32 bits")
    size = octets(len(packet), 4)
    return octets(seconds % (1 << 32), 4) + octets(rest, 4) + size + size + packet


def merged(captures, limit):
    """The arrivals of captures in turn, each as the capture's place and its
    record, no more than the limit; and how it ends: None, `packets`, or the
    place of the first capture that is faulty where a turn needs it."""
    taken, at = [], [0] * len(captures)
    while True:
        faulty = [place for place, capture in enumerate(captures)
                  if at[place] == len(capture.records) and capture.fault]
        if faulty:
            if len(faulty) > 1:
                reach("merge: several faulty captures")
            return taken, faulty[0]
        shown = [place for place, capture in enumerate(captures)
                 if at[place] < len(capture.records)]
        if not shown:
            return taken, None
        if len(taken) == limit:
            return taken, "packets"
        times = [captures[place].records[at[place]].time for place in shown]
        if times.count(min(times)) > 1:
            reach("merge: equal times")
        first = shown[times.index(min(times))]
        taken.append((first, captures[first].records[at[first]]))
        at[first] += 1
