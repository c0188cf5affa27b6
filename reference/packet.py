"""IPv6 headers, header chains and options headers (RFC 8200), frames."""

from run_reach import reach

HOP_BY_HOP, NESTED, ROUTING, FRAGMENT, TARGET_OPTIONS = 0, 41, 43, 44, 60
IOAM_STAYS, IOAM_CHANGES = 0x11, 0x31
ENCAPSULATION_LIMIT = 4
ETHERTYPE_IPV6 = 0x86DD


def number(octets):
    """An unsigned number, the most significant octet first."""
    return int.from_bytes(octets, "big")


def octets(value, count):
    """The same the other way round."""
    return value.to_bytes(count, "big")


class Header:
    """The fixed header (RFC 8200 section 3)."""

    def __init__(self, packet):
        self.kind = packet[1] >> 4 | (packet[0] & 15) << 4
        self.payload = number(packet[4:6])
        self.next = packet[6]
        self.hops = packet[7]
        self.source = number(packet[8:24])
        self.target = number(packet[24:40])


def put_header(kind, label, payload, following, hops, source, target):
    """The 40 octets of a fixed header (RFC 8200 section 3)."""
    first = 6 << 28 | kind << 20 | label
    return (octets(first, 4) + octets(payload, 2) + bytes([following, hops])
            + octets(source, 16) + octets(target, 16))


def lowered(packet, count):
    """The packet with so much less hop limit."""
    return packet[:7] + bytes([packet[7] - count]) + packet[8:]


def options_of(body):
    """The options behind a header's first two octets, paddings left out, each
    as its type and data; None where they don't fill the header exactly (RFC
    8200 section 4.2)."""
    found = []
    at = 0
    while at < len(body):
        if body[at] == 0:
            at += 1
            continue
        if at + 2 > len(body) or at + 2 + body[at + 1] > len(body):
            return None
        end = at + 2 + body[at + 1]
        if body[at] != 1:
            found.append((body[at], body[at + 2:end]))
        at = end
    return found


class Chain:
    """The chain of headers behind a fixed header (RFC 8200 section 4): `heads`
    are the value, place and octets of each header behind which the chain goes
    on; `whole` says that none of them breaks it."""

    def __init__(self, packet):
        self.packet = packet
        self.heads = []
        self.whole = False
        value, at, behind_ip = packet[6], 40, True
        while True:
            step = self.head(value, at, behind_ip)
            if step is None:
                return
            if step == 0:
                self.whole = True
                return
            here = packet[at:at + step]
            self.heads.append((value, at, here))
            behind_ip = value == NESTED
            value = here[6] if value == NESTED else here[0]
            at += step

    def head(self, value, at, behind_ip):
        """How long the header is that this value names at this place; 0 where
        the chain ends there, None where it breaks."""
        packet = self.packet
        room = len(packet) - at
        if value in (HOP_BY_HOP, TARGET_OPTIONS, ROUTING):
            return self.long_head(value, at, behind_ip)
        if value == FRAGMENT:
            if room < 8:
                reach("chain breaks: fragment cut")
                return None
            if number(packet[at + 2:at + 4]) >> 3 != 0:
                reach("chain ends: later fragment")
                return 0
            reach("chain: first fragment")
            return 8
        if value == NESTED:
            if room < 40 or packet[at] >> 4 != 6:
                reach("chain breaks: nested header")
                return None
            reach("chain: nested header")
            return 40
        return 0

    def long_head(self, value, at, behind_ip):
        """The same for the headers that have a length of their own."""
        packet = self.packet
        if value == HOP_BY_HOP and not behind_ip:
            reach("chain breaks: hop-by-hop elsewhere")
            return None
        if at + 2 > len(packet):
            reach("chain breaks: no length octet")
            return None
        size = (packet[at + 1] + 1) * 8
        if at + size > len(packet):
            reach("chain breaks: header cut")
            return None
        if value == ROUTING:
            reach("chain: routing header")
            return size
        if options_of(packet[at + 2:at + size]) is None:
            reach("chain breaks: options")
            return None
        reach("chain: options header %d" % value)
        return size

    def has_ioam(self):
        """Whether some options header of the chain has an IOAM option (RFC
        9486 section 3)."""
        for value, _, head in self.heads:
            if value in (HOP_BY_HOP, TARGET_OPTIONS):
                for kind, _ in options_of(head[2:]):
                    if kind in (IOAM_STAYS, IOAM_CHANGES):
                        return True
        return False

    def limit(self):
        """The tunnel encapsulation limit that the packet asks for (RFC 2473
        section 4.1.1), None where it asks for none."""
        for value, _, head in self.heads:
            if value == NESTED:
                return None
            if value == TARGET_OPTIONS:
                for kind, data in options_of(head[2:]):
                    if kind == ENCAPSULATION_LIMIT and len(data) == 1:
                        return data[0]
        return None


def packet_of(ethernet, original, frame):
    """The packet of a frame, and None; or None and the reason why there is
    none: the Ethernet header, octets that weren't captured, the length."""
    rest = frame
    if ethernet:
        if len(frame) < 14:
            reach("not-ipv6: short ethernet")
            return None, "not-ipv6"
        if number(frame[12:14]) != ETHERTYPE_IPV6:
            reach("not-ipv6: ethertype")
            return None, "not-ipv6"
        rest = frame[14:]
    if not rest or rest[0] >> 4 != 6:
        reach("not-ipv6: empty" if not rest else "not-ipv6: version")
        return None, "not-ipv6"
    if len(frame) < original:
        return None, "cut"
    if len(rest) < 40:
        reach("length: header")
        return None, "length"
    size = 40 + number(rest[4:6])
    if len(rest) < size:
        reach("length: payload")
        return None, "length"
    if len(rest) > size:
        reach("frame: padding behind the packet")
    if len(frame) > original:
        reach("frame: captured more than original")
    return rest[:size], None


def padding(count):
    """Padding of so many octets (RFC 8200 section 4.2)."""
    if count == 0:
        return b""
    if count == 1:
        return b"\0"
    return bytes([1, count - 2]) + bytes(count - 2)


def options_header(following, options):
    """An options header: IOAM options stand at a multiple of 4 octets (RFC
    9486 section 3), the whole is a multiple of 8 (RFC 8200 section 4.2)."""
    head = bytes([following, 0])
    for kind, data in options:
        if kind in (IOAM_STAYS, IOAM_CHANGES):
            head += padding(-len(head) % 4)
        head += bytes([kind, len(data)]) + data
    head += padding(-len(head) % 8)
    return head[:1] + bytes([len(head) // 8 - 1]) + head[2:]
