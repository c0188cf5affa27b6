"""Random export records: few keys, so that they meet; repeats, records with and without a visit, and each fault."""

from foreign_random import one_element, some, trace_type
from foreign_traces import words

KINDS = (0x800000, 0x800000, 0xC00000, 0x008000, 0x808000, 0x800002, 0x408000, 0x808002, 0xFEF002)


def small(rng, size):
    """A number that others are likely to have too."""
    return rng.choice((0, 1, 2, 256**size - 1, rng.getrandbits(8 * size) if rng.random() < 0.1 else 3))


def record_body(rng, keys):
    """What a record says without its version: Extension-Flags, front, what stands behind, and how much of that is no element."""
    kind = rng.choice(KINDS) if rng.random() < 0.8 else trace_type(rng)
    ext = 0xC0 if rng.random() < 0.85 else rng.choice((0x80, 0x40, 0, 0xFF, rng.getrandbits(8)))
    space, *numbers = rng.choice(keys)
    front = space.to_bytes(2, "big") + bytes([rng.choice((0, 0, 0, 1, 255))]) + kind.to_bytes(3, "big")
    back = b"".join(number.to_bytes(4, "big") for mask, number in zip((0x80, 0x40), numbers) if ext & mask)
    element = one_element(rng, kind, words(kind))
    if element and kind & 0x808000 and rng.random() < 0.7:
        element = bytes([rng.choice((64, 63, 62, 1, 0, 255))]) + bytes(2) + element[3:4] + element[4:]
        if rng.random() < 0.6:
            element = element[:1] + bytes(len(element) - 1) if not kind & 2 else element
    return ext, front, back + element, len(back)


def record(version, visit, body):
    """A record of one version."""
    ext, front, back, _ = body
    rest = front + (visit if version == 2 else b"") + back
    return bytes([version, ext]) + (4 + len(rest)).to_bytes(2, "big") + rest


def broken(rng, body, visit):
    """A record with a fault of one kind."""
    octets = bytearray(record(rng.choice((1, 2)), visit, body))
    way = rng.random()
    if way < 0.2:
        octets[0] = rng.choice((0, 3, 255, rng.getrandbits(8)))
    elif way < 0.5:
        front = (10 if octets[0] == 1 else 22) + body[3]
        borders = (front - 4, front - 1, front, front + 1, front + 244, front + 245)
        size = rng.choice(borders + (0, 4, 65_535, len(octets) + 4, len(octets) - 4))
        octets[2:4] = max(0, size).to_bytes(2, "big")
        octets += bytes(rng.choice((0, 300)))
    elif way < 0.8:
        size = len(octets) + rng.choice((4, -4, 1))
        octets[2:4] = max(0, size).to_bytes(2, "big")
        octets = octets[:size] + bytes(max(0, size - len(octets)))
    else:
        octets[rng.randrange(len(octets))] = rng.getrandbits(8)
    return bytes(octets)


def greatest(rng):
    """A record whose element has 61 words, or one more."""
    size = rng.choice((45, 45, 46))
    element = some(rng, 15 * 4) + bytes([size]) + some(rng, 3) + some(rng, 4 * size)
    return 0xC0, bytes(3) + b"\xfe\xf0\x02", bytes(8) + element[:4 * (16 + size)], 8


def visits(rng):
    """A time and an interface."""
    return rng.choice((0, 1, 2**63, rng.getrandbits(64))).to_bytes(8, "big") + rng.choice((0, 7, 2**32 - 1)).to_bytes(4, "big")


def exports(rng, count, faults=True):
    """A file of records."""
    keys = [(small(rng, 2), small(rng, 4), small(rng, 4)) for _ in range(rng.choice((1, 2, 5, 40)))]
    if count > 100 and rng.random() < 0.4:
        keys = [(rng.choice((0, 7)), small(rng, 4), rng.getrandbits(32)) for _ in range(count)]
    pool = [(record_body(rng, keys), visits(rng)) for _ in range(max(1, count // 2))]
    octets = []
    for _ in range(count):
        body, visit = rng.choice(pool)
        way = rng.random()
        if way < 0.02:
            body = greatest(rng)
        elif way < 0.3:
            visit = visits(rng)
        if faults and rng.random() < 0.15 / count:
            octets.append(broken(rng, body, visit))
        octets.append(record(rng.choice((1, 2)), visit, body))
    whole = b"".join(octets)
    if faults and rng.random() < 0.1:
        whole = whole[:rng.randint(0, len(whole))]
    return whole
