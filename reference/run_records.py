"""Random files of export records for `ioam collect`: those of a run, shuffled,
doubled and cut, with others among them."""

from packet import octets
from run_collect import records_of
from trace import View, element_of, has, words_of

TYPES = [0x800000, 0x008000, 0x808002, 0xFEF002, 0x900800, 0x800FFD, 0x400000, 0x000002,
         0x000000, 0x000001, 0xFFF002, 0x808000]


def pieces(data):
    """The octets of each record that a file begins with."""
    found, at = [], 0
    for _ in records_of(data)[0]:
        size = int.from_bytes(data[at + 2:at + 4], "big")
        found.append(data[at:at + size])
        at += size
    return found


def first_version(record):
    """A record of version 2 as one of version 1."""
    rest = record[4:10] + record[22:]
    return bytes([1, record[1]]) + octets(len(rest) + 4, 2) + rest


def element(rng, kind):
    """A random element of a type."""
    view = View(rng.choice([0, 1, 63, 64, 64, 255]), rng.choice([1, 2, 0xFFFFFF, 1 << 40]))
    view.inward = rng.choice([None, 1, 70000])
    view.seconds = rng.choice([None, 0, 7])
    view.wide = rng.choice([None, 5])
    if has(kind, 22):
        words = rng.choice([0, 1, 3, 61 - words_of(kind) - 1])
        view.snapshot = rng.choice([None, (rng.choice([0xFFFFFF, 3]), rng.randbytes(4 * words))])
    data = bytearray(element_of(kind & ~0x3FD, view))
    if data and rng.random() < 0.2:
        place = rng.randrange(len(data) if not has(kind, 22) else 4 * words_of(kind) or 1)
        if not has(kind, 22) or words_of(kind):
            data[place] = rng.choice([0, 255, rng.getrandbits(8)])
    return bytes(data)


def record(rng):
    """A record of either version that no run need have written."""
    version, kind = rng.choice([1, 1, 2, 2]), rng.choice(TYPES)
    extension = rng.choice([0xC0, 0xC0, 0xC0, 0xC0, 0x80, 0x40, 0, 0xE1, 0x3F])
    rest = octets(rng.choice([0, 7, 65535]), 2) + bytes([rng.choice([0, 0, 8, 255])])
    rest += octets(kind, 3)
    if version == 2:
        rest += octets(rng.choice([0, 1, 10 ** 9, (1 << 64) - 1]), 8)
        rest += octets(rng.choice([0, 1, 0xFFFFFFFF]), 4)
    for bit in (0x80, 0x40):
        if extension & bit:
            rest += octets(rng.choice([0, 1, 9, 0xFFFFFFFF]), 4)
    rest += element(rng, kind)
    return bytes([version, extension]) + octets(len(rest) + 4, 2) + rest


def twin(rng, one):
    """A record that differs from one of version 2 in time or interface."""
    if one[0] == 1:
        return one[:4] + one[4:]
    place = rng.choice([17, 21])
    return one[:place] + bytes([one[place] ^ rng.choice([1, 2])]) + one[place + 1:]


def changed(rng, one):
    """A record with an octet of its element otherwise, of the same length."""
    if len(one) < 30:
        return one
    return one[:-1] + bytes([one[-1] ^ 1]) if one[7] & 0x80 and not one[9] & 2 else one


def spoiled(rng, data):
    """A file that ends with a fault, or in which some octet is otherwise."""
    chosen = rng.random()
    if chosen < 0.35 and data:
        return data[:rng.randrange(len(data))]
    if chosen < 0.6:
        return data + rng.choice([b"\0", b"\3", b"\xff", b"\1", b"\2", b"\1\xc0\0",
                                  b"\1\xc0\0\x11", b"\1\xc0\0\x12", b"\2\0\0\x15",
                                  b"\2\xc0\1\x13", b"\2\xc0\1\x12", b"\1\0\0\xfe\0\0\0",
                                  b"\1\0\0\xff\0\0\0", b"\1\0\0\x0b\0\7\0\0\0\0\0",
                                  b"\1\0\0\x0e\0\7\0\0\0\2\1\0\0\0"])
    if data:
        place = rng.randrange(len(data))
        return data[:place] + rng.randbytes(1) + data[place + 1:]
    return data


def mixed(rng, exports):
    """A file of the records that a run exported and of others."""
    found = pieces(exports)
    most = rng.choice([60, 60, 60, 2000])
    if len(found) > most:
        found = rng.sample(found, most)
    found = [one for one in found if rng.random() < 0.85]
    found += [record(rng) for _ in range(rng.choice([0, 0, 3, 12]))]
    for way in (lambda one: one, lambda one: twin(rng, one), lambda one: changed(rng, one),
                lambda one: first_version(one) if one[0] == 2 else one):
        found += [way(one) for one in list(found) if rng.random() < 0.2]
    if rng.random() < 0.85:
        rng.shuffle(found)
    data = b"".join(found)
    return spoiled(rng, data) if rng.random() < 0.25 else data
