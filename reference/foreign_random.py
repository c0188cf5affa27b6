"""Random packets: sound ones, odd ones and broken ones, with IOAM options of every kind."""

from foreign_traces import has, undefined, words

WHOLE, NESTED = (0, 43, 44, 60), 41
TYPES = (0x800000, 0x800002, 0xC00000, 0x008000, 0x00FF02, 0xFFF000, 0xFFF002, 0x000002, 0x010000, 0x040002, 0x0)


class Aim:
    """What packets are aimed at: a node's address, what it has routes for, its namespaces and snapshots, lengths."""

    def __init__(self, local=1, routed=(), spaces=(7, 0, 9), snapshots=None, lengths=()):
        self.local, self.routed, self.spaces = local, routed, spaces
        self.snapshots, self.lengths = snapshots or {}, lengths


def some(rng, size):
    """Octets of any value; now and then all ones."""
    return b"\xff" * size if rng.random() < 0.15 else rng.randbytes(size)


def trace_type(rng):
    """A trace type: a plain one, one of few bits, or any; at times with undefined bits."""
    way = rng.random()
    if way < 0.35:
        return rng.choice(TYPES)
    if way < 0.75:
        kind = sum(1 << (23 - bit) for bit in range(12) if rng.random() < 0.3)
        kind |= rng.choice((0, 0, 0, 2)) | rng.choice((0, 0, 0, 1))
        if rng.random() < 0.3:
            kind |= 1 << (23 - rng.randint(12, 21))
        return kind
    return rng.getrandbits(24)


def one_element(rng, kind, node_len):
    """An element of a type, with a snapshot of a few words."""
    octets = b"".join(some(rng, 4) for _ in range(node_len))
    if has(kind, 22):
        size = rng.choice((0, 0, 1, 2, 5))
        octets += bytes([size]) + some(rng, 3) + some(rng, 4 * size)
    return octets


def near(rng, value, most):
    """A number beside a border, within 0 and a greatest one."""
    return min(most, max(0, value + rng.choice((-1, 0, 0, 0, 0, 1))))


def trace_data(rng, aim, incremental):
    """The data of a trace: header, free words and elements, of which some don't agree."""
    kind = trace_type(rng)
    node_len = words(kind) + undefined(kind)
    if rng.random() < 0.2:
        node_len = near(rng, node_len, 31) if rng.random() < 0.7 else rng.randint(0, 31)
    if undefined(kind) and rng.random() < 0.15:
        node_len = words(kind) + rng.randint(0, undefined(kind))
    node_len = min(node_len, 31)
    if undefined(kind) and rng.random() < 0.3:
        node_len = min(31, node_len + rng.randint(0, 3))
    namespace = rng.choice(aim.spaces)
    size = node_len + (1 + aim.snapshots.get(namespace, 0) if has(kind, 22) else 0)
    free = near(rng, size, 127) if rng.random() < 0.6 else rng.choice((0, 0, rng.randint(0, 61)))
    area = b"" if incremental else b"".join(some(rng, 4) for _ in range(free))
    for _ in range(rng.choice((0, 0, 1, 1, 2, 3))):
        area += one_element(rng, kind, node_len)
    if rng.random() < 0.06:
        area += some(rng, rng.randint(1, 5))
    area = area[:rng.choice((245, 244, 244, 244))]
    remaining = free
    if rng.random() < 0.12:
        remaining = near(rng, len(area) // 4, 127) if rng.random() < 0.6 else rng.randint(0, 127)
    flags = rng.choice((0, 0, 0, 0, 0, 8, rng.getrandbits(4)))
    middle = node_len << 11 | flags << 7 | min(remaining, 127)
    data = namespace.to_bytes(2, "big") + middle.to_bytes(2, "big") + kind.to_bytes(3, "big") + rng.choice((b"\0", some(rng, 1))) + area
    return data[:rng.randint(0, 9)] if rng.random() < 0.05 else data


def edge_data(rng, aim):
    """Edge-to-edge data, at times cut or longer."""
    kind = rng.choice((0x8000, 0x4000, 0x2000, 0x3000, 0xB000, 0x7000, 0xF000, 0, rng.getrandbits(16)))
    size = sum(octets for mask, octets in ((0x8000, 8), (0x4000, 4), (0x2000, 4), (0x1000, 4)) if kind & mask)
    data = rng.choice(aim.spaces).to_bytes(2, "big") + kind.to_bytes(2, "big")
    data += b"".join(some(rng, 4) for _ in range(size // 4))
    return (data + some(rng, 2))[:max(0, len(data) + rng.choice((-4, -1, 0, 0, 0, 0, 0, 2)))]


def direct_data(rng, aim):
    """Direct export data, at times cut or longer."""
    ext = rng.choice((0xC0, 0xC0, 0x80, 0x40, 0, rng.getrandbits(8)))
    size = 4 * (ext >> 7) + 4 * (ext >> 6 & 1)
    data = rng.choice(aim.spaces).to_bytes(2, "big") + bytes([rng.choice((0, rng.getrandbits(8))), ext])
    data += trace_type(rng).to_bytes(3, "big") + some(rng, 1) + some(rng, size)
    return (data + some(rng, 3))[:max(0, len(data) + rng.choice((-4, -1, 0, 0, 0, 0, 0, 0, 3)))]


def ioam_data(rng, aim):
    """The data of an IOAM option (RFC 9486 section 3): a reserved octet, the IOAM-Option-Type, and what it says."""
    if rng.random() < 0.04:
        return some(rng, rng.randint(0, 1))
    kind = rng.choice((0,) * 8 + (1, 1, 2, 3, 3, 4, 4, 4, 4, rng.getrandbits(8)))
    data = some(rng, rng.randint(0, 12))
    if kind in (0, 1):
        data = trace_data(rng, aim, kind == 1)
    elif kind in (3, 4):
        data = (edge_data, direct_data)[kind - 3](rng, aim)
    return (bytes([rng.choice((0, 0, rng.getrandbits(8))), kind]) + data)[:255]


def options_header(rng, aim, behind):
    """An options header with some options, IOAM ones among them, padded; now and then it isn't filled."""
    octets = b""
    for _ in range(rng.choice((0,) + (1,) * 8 + (2,) * 6 + (3, 3, 4, 5, 14))):
        if rng.random() < 0.75:
            if rng.random() < 0.8:
                octets += padding(rng, (-len(octets) - 2) % 4)
            octets += option(rng.choice((0x31, 0x31, 0x31, 0x11)), ioam_data(rng, aim))
        else:
            kind = rng.choice((0, 1, 4, 5, 0xC2, 0x1E, 0x10, 0x30, 0x91, 0x32))
            octets += b"\0" if kind == 0 else option(kind, some(rng, rng.choice((0, 1, 1, 4, 20))))
    octets += padding(rng, (-len(octets) - 2) % 8)
    if rng.random() < 0.03:
        octets += padding(rng, 8 * rng.randint(1, 31))
    octets = octets[:2046]
    if rng.random() < 0.03 and octets:
        octets = bytearray(octets)
        octets[rng.randrange(len(octets))] = rng.choice((0, 1, 2, 250, 255))
    size = (len(octets) + 2) // 8 - 1
    if rng.random() < 0.015:
        size = max(0, min(255, size + rng.choice((-1, 1, 30))))
    return bytes([behind, size]) + bytes(octets)


def option(kind, data):
    """An option: type, length and data."""
    return bytes([kind, len(data)]) + data


def padding(rng, size):
    """Padding of so many octets: Pad1 or PadN, of zeros or of any value."""
    octets = b""
    while len(octets) < size:
        left = min(257, size - len(octets))
        if left == 1 or rng.random() < 0.2:
            octets += b"\0"
        else:
            octets += option(1, bytes(left - 2) if rng.random() < 0.7 else some(rng, left - 2))
    return octets


def header(rng, aim, value, behind, size):
    """One header of a chain, with what follows it counted in `size`."""
    if value in (0, 60):
        return options_header(rng, aim, behind)
    if value == 43:
        more = rng.choice((0, 0, 1, 2, 4))
        return bytes([behind, more]) + some(rng, 6 + 8 * more)
    if value == 44:
        offset = rng.choice((0, 0, 0, 1, 7, 8, 0x100))
        return bytes([behind, 0]) + offset.to_bytes(2, "big") + some(rng, 4)
    version = 6 if rng.random() < 0.97 else rng.randint(0, 15)
    payload = size if rng.random() < 0.7 else rng.getrandbits(16)
    front = bytes([version << 4 | rng.getrandbits(4)]) + some(rng, 3) + min(payload, 65535).to_bytes(2, "big")
    return front + bytes([behind, rng.getrandbits(8)]) + some(rng, 32)


def values_of(rng):
    """The values of a chain's headers, first to last, and that with which it ends."""
    values = [0] if rng.random() < 0.85 else []
    for _ in range(rng.choice((0, 0, 0, 1, 1, 2, 4))):
        value = rng.choice((60, 60, 43, 44, 41, 41))
        values.append(value)
        if value == NESTED and rng.random() < 0.5:
            values.append(0)
    if rng.random() < 0.02:
        values.append(0)
    return values, rng.choice((59, 59, 17, 6, 58, 50, 51, 41 if rng.random() < 0.1 else 17, 255))


def packet(rng, aim):
    """A packet."""
    values, behind = values_of(rng)
    octets = some(rng, rng.choice((0, 0, 1, 7, 8, 39, 60)))
    if aim.lengths and rng.random() < 0.04:
        octets = bytes(max(0, rng.choice(aim.lengths) + rng.randint(-1, 1) - 40))
        values = []
    for value in reversed(values):
        octets = header(rng, aim, value, behind, len(octets)) + octets
        behind = value
    hops = rng.choice((0, 1, 2, 3) + (64,) * 16 + (255,) * 4)
    target = aim.local if rng.random() < 0.04 else rng.getrandbits(128)
    if aim.routed and rng.random() < 0.85:
        bits, length = rng.choice(aim.routed)
        target = bits | rng.getrandbits(128) & (1 << (128 - length)) - 1
    front = b"\x60" + some(rng, 3) + min(len(octets), 65535).to_bytes(2, "big") + bytes([behind, hops])
    whole = front + some(rng, 16) + target.to_bytes(16, "big") + octets[:65535]
    if rng.random() < 0.1:
        whole = bytearray(whole)
        for _ in range(rng.choice((1, 1, 3))):
            whole[rng.randrange(len(whole))] = rng.choice((0, 1, 255, rng.getrandbits(8)))
    return bytes(whole)


def frame(rng, aim, ethernet):
    """A frame and its original length."""
    octets = packet(rng, aim)
    way = rng.random()
    if way < 0.08:
        octets += some(rng, rng.randint(1, 9))
    elif way < 0.1:
        octets = octets[:rng.choice((0, 1, 7, 39, 40, 41, rng.randint(0, len(octets))))]
    elif way < 0.107:
        octets = some(rng, rng.randint(0, 60))
    if ethernet:
        octets = some(rng, 12) + rng.choice((b"\x86\xdd",) * 40 + (b"\x08\x00", b"\x86\xde", b"\x81\x00")) + octets
        if rng.random() < 0.02:
            octets = octets[:rng.randint(0, 15)]
    original = len(octets)
    if rng.random() < 0.025:
        original = max(0, original + rng.choice((-1, 1, 1, 1000, -5)))
    return octets, original
