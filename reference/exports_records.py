"""Export records of both versions (RFC 9326 section 3.2 leaves the format open), and how they are regrouped."""

from faults_reach import reached
from foreign_packets import number
from foreign_traces import element_end, has, words
from texts_fields import fields_text

MOST_ELEMENT = 244  # octets: 61 words


class Record:
    """One record: its key, its place in the order of a path, and what is printed."""

    def __init__(self, octets, front):
        version, self.ext = octets[0], octets[1]
        self.namespace, self.kind = number(octets, 4, 2), number(octets, 7, 3)
        self.visit = (number(octets, 10, 8), number(octets, 18, 4)) if version == 2 else None
        place = 22 if version == 2 else 10
        tail = octets[place:]
        self.flow = number(tail, 0, 4) if self.ext & 0x80 else None
        self.seq = number(tail, 4 if self.ext & 0x80 else 0, 4) if self.ext & 0x40 else None
        self.element = octets[front:]
        size = 10 + len(tail)
        self.core = bytes([1, self.ext]) + size.to_bytes(2, "big") + octets[4:10] + tail

    def keyed(self):
        """Whether it can be put into a group: it has a flow, a number and a hop limit."""
        return self.flow is not None and self.seq is not None and (has(self.kind, 0) or has(self.kind, 8))

    def hops(self):
        """The hop limit that the element has: that of bit 0, or else of bit 8, which then stands behind bits 1 to 7."""
        before = 0 if has(self.kind, 0) else 4 * sum(has(self.kind, bit) for bit in range(1, 8))
        return self.element[before]


def element_fits(kind, octets):
    """Whether octets are one element of a type, or none where the type asks for none."""
    if words(kind) == 0 and not has(kind, 22):
        return octets == b""
    return element_end(kind, words(kind), octets, 0) == len(octets)


def read_exports(octets):
    """The records in front of the first fault, and that fault: its place and text, or None."""
    found, place = [], 0
    while place < len(octets):
        left = octets[place:place + 300]  # longer than any record
        if left[0] not in (1, 2):
            return found, (place, f"version {left[0]}")
        if len(left) < 4:
            return found, (place, f"short {len(left)}")
        front = (10 if left[0] == 1 else 22) + 4 * (left[1] >> 7) + 4 * (left[1] >> 6 & 1)
        size = number(left, 2, 2)
        if not front <= size <= front + MOST_ELEMENT:
            reached("exports: length " + ("small" if size < front else "great"))
            return found, (place, f"length {size}")
        if size > len(left):
            return found, (place, f"short {len(left)}")
        if not element_fits(number(left, 7, 3), left[front:size]):
            return found, (place, f"element {front}")
        found.append(Record(left[:size], front))
        place += size
    return found, None


def best(records):
    """Each record once, and none without its visit that stands there with it too; how many are unkeyed."""
    keyed = [record for record in records if record.keyed()]
    with_visit = {record.core for record in keyed if record.visit is not None}
    chosen = {}
    for record in keyed:
        if record.visit is None and record.core in with_visit:
            reached("collect: gives way to its record with a visit")
        elif (record.core, record.visit) in chosen:
            reached("collect: repeat")
        else:
            chosen[record.core, record.visit] = record
    return chosen.values(), len(records) - len(keyed)


def order_of(record):
    """Where a keyed record stands: by its key, its falling hop limit, its octets without a visit, and its visit."""
    return (record.namespace, record.flow, record.seq), -record.hops(), record.core, record.visit or ()


def group_lines(kept):
    """The text of the groups of records that are kept: keys in order, each with its records by falling hop limit."""
    groups, text = {}, []
    for record in sorted(kept, key=order_of):
        groups.setdefault(order_of(record)[0], []).append(record)
    for key, group in groups.items():
        text.append(f"group {key[0]} {key[1]} {key[2]} {len(group)}\n")
        reached(f"collect: group of {min(len(group), 4)}")
        if len({record.hops() for record in group}) < len(group):
            reached("collect: ties")
        text.extend(record_line(record) for record in group)
    return "".join(text)


def collected(records):
    """The text of the groups and the sums."""
    kept, unkeyed = best(records)
    repeats = len(records) - len(kept) - unkeyed
    sums = f"records {len(records)} kept {len(kept)} repeats {repeats} unkeyed {unkeyed}\n"
    return (group_lines(kept) + sums).encode()


def record_line(record):
    """A record's line."""
    visit = "" if record.visit is None else f" at={record.visit[0]} from={record.visit[1]}"
    reached(f"collect: line of version {1 if record.visit is None else 2}")
    return f"  {record.kind:06x} {fields_text(record.kind, words(record.kind), record.element)}{visit}\n"


def export_record(direct, time, inward, element):
    """A record of version 2 of what a node exports; bit 7 of the type, the checksum complement, isn't kept."""
    body = direct.namespace.to_bytes(2, "big") + bytes([direct.flags]) + (direct.kind & ~0x010000).to_bytes(3, "big")
    body += time.to_bytes(8, "big") + inward.to_bytes(4, "big")
    for value in (direct.flow, direct.seq):
        if value is not None:
            body += value.to_bytes(4, "big")
    body += element
    return bytes([2, direct.ext]) + (4 + len(body)).to_bytes(2, "big") + body
