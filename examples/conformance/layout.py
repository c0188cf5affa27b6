"""How octets are laid out: IPv6 packets and their extension headers (RFC 8200), IOAM options (RFC 9486 section 3), trace data
(RFC 9197 section 4.4.1), direct export (RFC 9326 section 3.2) and edge-to-edge data (RFC 9197 section 4.6)."""

import ipaddress

HOP_BY_HOP, NESTED, ROUTING, FRAGMENT, DESTINATION, UDP, NOTHING = 0, 41, 43, 44, 60, 17, 59
STAYS, CHANGES = 0x11, 0x31  # the option types: data that stay as they are on the way, data that may change
PRE_ALLOCATED, INCREMENTAL, PROOF, EDGE, DIRECT = range(5)  # the IOAM Option-Types (RFC 9197 section 7.1)
OVERFLOW, LOOPBACK, ACTIVE, FLAG_3 = 8, 4, 2, 1  # of the 4 flag bits (RFC 9197 section 4.4.1, RFC 9322 section 3)
SNAPSHOT, RESERVED = 22, 23
FIELD_WORDS = (1, 1, 1, 1, 1, 1, 1, 1, 2, 2, 2, 1)  # of bits 0 to 11, in 4-octet words
DEFINED = tuple(range(12))
UNDEFINED = tuple(range(12, 22))
KNOWN, OTHER_KNOWN, UNKNOWN = 7, 123, 9  # namespaces


def number(value, octets):
    """A number in so many octets, the most significant first."""
    return value.to_bytes(octets, "big")


def kind_of(*bits):
    """A trace type with these bits; bit 0 is the most significant of 24."""
    return sum(1 << 23 - bit for bit in bits)


def has(kind, bit):
    """Whether a trace type has a bit."""
    return kind >> 23 - bit & 1 == 1


def words(kind):
    """The words of an element: those of the defined fields, and one for each undefined bit."""
    return sum(FIELD_WORDS[bit] for bit in DEFINED if has(kind, bit)) + sum(has(kind, bit) for bit in UNDEFINED)


def trace(kind, room, *, node_len=None, flags=0, remaining=None, namespace=KNOWN, reserved=0, free=None, older=b""):
    """The data of a trace with so many free words in front of older elements."""
    node_len = words(kind) if node_len is None else node_len
    remaining = room if remaining is None else remaining
    lengths = node_len << 11 | flags << 7 | remaining
    free = bytes(4 * room) if free is None else free
    return number(namespace, 2) + number(lengths, 2) + number(kind, 3) + number(reserved, 1) + free + older


def ioam(data, ioam_type=PRE_ALLOCATED, option=CHANGES, reserved=0):
    """An IOAM option: its type, its length, a reserved octet, the IOAM Option-Type and the data."""
    return bytes([option, 2 + len(data), reserved, ioam_type]) + data


def direct(kind, flow=None, sequence=None, namespace=KNOWN):
    """The data of direct export."""
    extension = (0x80 if flow is not None else 0) | (0x40 if sequence is not None else 0)
    fields = b"".join(number(value, 4) for value in (flow, sequence) if value is not None)
    return number(namespace, 2) + bytes([0, extension]) + number(kind, 3) + b"\0" + fields


def edge(sequence):
    """The data of edge-to-edge with a 32-bit sequence number."""
    return number(KNOWN, 2) + number(0x4000, 2) + number(sequence, 4)


def padding(size):
    """So many octets of padding: Pad1 for one, PadN for more (RFC 8200 section 4.2)."""
    return b"" if size == 0 else b"\0" if size == 1 else bytes([1, size - 2]) + bytes(size - 2)


def aligned(*options):
    """Options one behind the other, each at a multiple of 4 octets of its header (RFC 9486 section 3)."""
    octets = b""
    for option in options:
        octets += padding(-(2 + len(octets)) % 4) + option
    return octets


def options_header(following, octets, size=None):
    """A Hop-by-Hop or Destination Options header of these options, padded to whole 8 octets (RFC 8200 sections 4.3 and 4.6);
    its length may be said otherwise."""
    octets += padding(-(2 + len(octets)) % 8)
    return bytes([following, (2 + len(octets)) // 8 - 1 if size is None else size]) + octets


def fragment(following, offset, more):
    """A Fragment header, its offset in units of 8 octets (RFC 8200 section 4.5)."""
    return bytes([following, 0]) + number(offset << 3 | more, 2) + number(0x10A, 4)


def routing(following, left):
    """A Routing header of an experimental type with one address (RFC 8200 section 4.4, RFC 4727)."""
    return bytes([following, 2, 253, left]) + bytes(4) + ipaddress.IPv6Address("2001:db8:30::1").packed


def checksum(octets):
    """The Internet checksum of these octets."""
    octets += bytes(len(octets) % 2)
    total = sum(int.from_bytes(octets[place:place + 2], "big") for place in range(0, len(octets), 2))
    while total >> 16:
        total = (total & 0xFFFF) + (total >> 16)
    return ~total & 0xFFFF


class Way:
    """From whom to whom the packets go, and the Ethernet header in front of them."""

    def __init__(self, source, target, router_mac, sender_mac):
        self.source, self.target = (ipaddress.IPv6Address(text).packed for text in (source, target))
        self.ethernet = b"".join(bytes.fromhex(mac.replace(":", "")) for mac in (router_mac, sender_mac)) + b"\x86\xdd"

    def udp(self, text):
        """A UDP datagram to the discard port, with its checksum (RFC 8200 section 8.1)."""
        said = text.encode()
        octets = number(50000, 2) + number(9, 2) + number(8 + len(said), 2) + b"\0\0" + said
        pseudo = self.source + self.target + number(len(octets), 4) + number(UDP, 4)
        return octets[:6] + number(checksum(pseudo + octets) or 0xFFFF, 2) + octets[8:]

    def packet(self, label, following, payload, hops=64, traffic=0, length=None):
        """An IPv6 packet (RFC 8200 section 3); its payload length may be said otherwise."""
        first = 6 << 28 | traffic << 20 | label
        length = len(payload) if length is None else length
        return number(first, 4) + number(length, 2) + bytes([following, hops]) + self.source + self.target + payload
