"""Parts: what a collector holds as a file, and how such files are joined."""

from exports_records import best, order_of, read_exports
from faults_reach import reached
from foreign_packets import number

MARK = b"IOAMPART"
MOST, LONGEST = 1_048_576, 300_000_000


class PartFault(Exception):
    """Why octets are no part: the place, and the text behind it."""

    def __init__(self, place, text):
        super().__init__(f"{place} {text}")


def record_octets(record):
    """A record as it stands in a file."""
    if record.visit is None:
        return record.core
    time, inward = record.visit
    size = (len(record.core) + 12).to_bytes(2, "big")
    return b"\2" + record.core[1:2] + size + record.core[4:10] + time.to_bytes(8, "big") + inward.to_bytes(4, "big") + record.core[10:]


def held(records):
    """The records that a collector holds, in order."""
    return sorted(best(records)[0], key=order_of)


def spelled(kept):
    """The part of records that are held, in order."""
    return MARK + len(kept).to_bytes(4, "big") + b"".join(map(record_octets, kept))


def part_of(records):
    """The part of what is held of some records."""
    return spelled(held(records))


def read_part(octets):
    """The records of a part."""
    octets = octets[:LONGEST]
    if len(octets) < 8:
        raise PartFault(0, f"short {len(octets)}")
    if octets[:8] != MARK:
        raise PartFault(0, "mark")
    if len(octets) < 12:
        raise PartFault(8, f"short {len(octets) - 8}")
    count = number(octets, 8, 4)
    if count > MOST:
        raise PartFault(8, f"count {count}")
    found, plain, place = [], set(), 12
    for _ in range(count):
        size, record = next_record(octets, place)
        if not follows(found, plain, record):
            raise PartFault(place, "order")
        found.append(record)
        if record.visit is None:
            plain.add(record.core)
        place += size
    if place < len(octets):
        raise PartFault(place, "rest")
    return found


def next_record(octets, place):
    """The size of the record at a place, and the record."""
    have = min(len(octets) - place, 300)  # more than the longest
    if have > 3 and octets[place] in (1, 2):
        have = min(have, max(4, number(octets, place + 2, 2)))
    records, fault = read_exports(octets[place:place + have])
    if records:
        return have, records[0]
    text = "short 0" if fault is None else fault[1]
    if text.startswith("short"):
        raise PartFault(place, f"short {len(octets) - place}")
    raise PartFault(place, f"record {text}")


def follows(found, plain, record):
    """Whether a record may stand behind those of a part, of which some are without a visit: it has a key, stands behind the last,
    and doesn't say again, with its visit, what one in front says."""
    if not record.keyed():
        reached("part: order, no key")
        return False
    if found and order_of(found[-1]) >= order_of(record):
        reached("part: order, " + ("the same again" if order_of(found[-1]) == order_of(record) else "in front"))
        return False
    if record.visit is not None and record.core in plain:
        reached("part: order, says more than one in front")
        return False
    return True
