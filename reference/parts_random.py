"""Random parts, sound ones and ones with each fault at any place, for `part`, `merge` and `parts`."""

from exports_random import broken, exports, record_body, small, visits
from exports_records import read_exports
from foreign_random import some
from parts_files import MARK, MOST, held, record_octets, spelled


def some_records(rng, count):
    """Records of few keys, of which many say what others say too."""
    return read_exports(exports(rng, count, False) if count else b"")[0]


def octets_of(rng, records):
    """The octets of the records of a part, among which one thing may be wrong."""
    found = [record_octets(record) for record in held(records)]
    way = rng.random()
    if way < 0.12 and len(found) > 1:
        place = rng.randrange(len(found) - 1)
        found[place], found[place + 1] = found[place + 1], found[place]
    elif way < 0.24 and found:
        found.insert(rng.randint(0, len(found)), rng.choice(found))
    elif way < 0.36 and records:
        found.insert(rng.randint(0, len(found)), record_octets(rng.choice(records)))
    elif way < 0.56 and found:
        place = rng.randrange(len(found))
        if found[place][0] == 2:
            found.insert(place, plain(found[place]))
        else:
            found.insert(place + rng.choice((0, 1, 1)), visited(rng, found[place]))
    elif way < 0.72:
        body = record_body(rng, [(small(rng, 2), small(rng, 4), small(rng, 4))])
        found.insert(rng.randint(0, len(found)), broken(rng, body, visits(rng)))
    elif way < 0.8 and len(found) > 2:
        found.append(found.pop(rng.randrange(len(found) - 1)))
    return found


def plain(octets):
    """A record with its visit as one without."""
    return b"\1" + octets[1:2] + (len(octets) - 12).to_bytes(2, "big") + octets[4:10] + octets[22:]


def visited(rng, octets):
    """A record without its visit as one with one."""
    return b"\2" + octets[1:2] + (len(octets) + 12).to_bytes(2, "big") + octets[4:10] + visits(rng) + octets[10:]


def faulty_part(rng, records):
    """A part in which one thing is wrong, or two."""
    found = octets_of(rng, records)
    count, mark = len(found), MARK
    way = rng.random()
    if way < 0.15:
        count = max(0, count + rng.choice((-1, 1, 2)))
    elif way < 0.22:
        count = rng.choice((0, MOST, MOST + 1, 2**32 - 1))
    elif way < 0.27:
        mark = bytes(octet ^ (rng.random() < 0.2) for octet in MARK)
    octets = mark + count.to_bytes(4, "big") + b"".join(found)
    way = rng.random()
    if way < 0.15:
        return octets[:rng.choice((0, 5, 7, 8, 11, 12, 13, 15, 16, rng.randint(0, len(octets)), len(octets) - 1))]
    if way < 0.25:
        return octets + rng.choice((b"\0", b"\1", found[-1] if found else b"\3", some(rng, 3)))
    if way < 0.35:
        place = rng.randrange(len(octets))
        return octets[:place] + bytes([octets[place] ^ 1 << rng.randrange(8)]) + octets[place + 1:]
    return octets


def part(rng, records):
    """A part, mostly a sound one."""
    return spelled(held(records)) if rng.random() < 0.75 else faulty_part(rng, records)


def over_parts(rng):
    """`part` over records, `merge` and `parts` over parts; those that are merged have some records in common."""
    count = rng.choice((0, 1, 2, 3, 8, 20, 60)) if rng.random() < 0.97 else 4000  # more octets than are read at once
    way = rng.random()
    if way < 0.2:
        return [b"part", b"E", b"P"], {"E": exports(rng, count)}
    records = some_records(rng, count)
    if way < 0.5:
        octets = spelled(held(records)) if rng.random() < 0.3 else faulty_part(rng, records)
        return [b"parts", b"P", b"R"], {"P": octets}
    share = rng.choice((0, 0.3, 0.7, 1))
    chosen = [rng.random() for _ in records]
    one = [record for record, chance in zip(records, chosen) if chance < (1 + share) / 2]
    two = [record for record, chance in zip(records, chosen) if chance >= (1 - share) / 2]
    files = {"A": part(rng, one), "B": part(rng, two)}
    if rng.random() < 0.03:
        del files[rng.choice(("A", "B"))]
    return [b"merge", b"A", b"B", b"P"], files


def merged(rng, pieces, join):
    """What parts come to along a random tree of merges, in any order and some of them twice."""
    left = pieces + rng.sample(pieces, rng.randint(0, len(pieces)))
    rng.shuffle(left)
    while len(left) > 1:
        left.insert(rng.randint(0, len(left) - 2), join(left.pop(rng.randrange(len(left))), left.pop(rng.randrange(len(left)))))
    return left[0]
