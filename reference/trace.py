"""Trace data: elements, the room of a trace, and their texts (RFC 9197
section 4.4)."""

from packet import number, octets
from run_reach import reach

ONES = 0xFFFFFFFF
WIDE_BITS = (8, 9, 10)
DEFINED_BITS = range(12)


def has(kind, bit):
    """Whether a trace type has this bit, bit 0 the most significant."""
    return kind >> (23 - bit) & 1 == 1


def words_of(kind):
    """How many words the defined fields of a type take."""
    return sum(2 if bit in WIDE_BITS else 1 for bit in DEFINED_BITS if has(kind, bit))


class View:
    """What a node says at one visit; None where it can't fill a field."""

    def __init__(self, hops, ident):
        self.hops = hops
        self.ident = ident
        self.inward = self.outward = None
        self.seconds = self.fraction = None
        self.delay = self.queue = self.buffer = None
        self.short = self.wide = None
        self.snapshot = None


def word(value, size=4, limit=None):
    """A number in so many octets; all ones where it is absent or is not below
    the limit."""
    if value is None or (limit is not None and value >= limit):
        return b"\xff" * size
    return octets(value, size)


def field(bit, view):
    """The octets of one field (RFC 9197 section 4.4.2)."""
    if bit == 0:
        return octets(view.hops, 1) + word(view.ident, 3, 1 << 24)
    if bit == 1:
        return word(view.inward, 2, 1 << 16) + word(view.outward, 2, 1 << 16)
    if bit == 4:
        return delay_word(view.delay)
    if bit == 7:
        return b"\xff" * 4
    if bit == 8:
        return octets(view.hops, 1) + word(view.ident, 7)
    if bit == 9:
        return word(view.inward) + word(view.outward)
    if bit == 10:
        return word(view.wide, 8)
    return word({2: view.seconds, 3: view.fraction, 5: view.short,
                 6: view.queue, 11: view.buffer}[bit])


def delay_word(delay):
    """A transit delay: its top bit alone says that it is greater than what 31
    bits hold (RFC 9197 section 4.4.2.5)."""
    if delay is not None and delay > 0x7FFFFFFF:
        reach("delay over")
        return octets(0x80000000, 4)
    return word(delay)


def element_of(kind, view):
    """All that a node adds to a trace of this type, its snapshot last (RFC
    9197 section 4.4.2)."""
    data = b"".join(field(bit, view) for bit in DEFINED_BITS if has(kind, bit))
    if has(kind, 22):
        if view.snapshot is None:
            return data + b"\0\xff\xff\xff"
        schema, opaque = view.snapshot
        data += octets(len(opaque) // 4, 1) + octets(schema, 3) + opaque
    return data


def recorded(capacity, elements):
    """The elements that fit: the longest run of the first ones within so many
    words."""
    kept, used = [], 0
    for element in elements:
        used += len(element) // 4
        if used > capacity:
            break
        kept.append(element)
    return kept


def trace_data(namespace, kind, capacity, elements):
    """A pre-allocated trace: its head, the free words and the elements that
    fit, the newest first (RFC 9197 section 4.4.1)."""
    kept = recorded(capacity, elements)
    area = b"".join(reversed(kept))
    free = capacity - len(area) // 4
    overflow = 0x0400 if len(kept) < len(elements) else 0
    middle = words_of(kind) << 11 | overflow | free
    return (octets(namespace, 2) + octets(middle, 2) + octets(kind, 3) + b"\0"
            + bytes(4 * free) + area)


def or_dash(value, size):
    """A number in digits, `-` where its field is all ones."""
    return "-" if value == (1 << 8 * size) - 1 else str(value)


def hex_or_dash(data):
    """Octets in hexadecimal digits, `-` where they are all ones."""
    return "-" if data == b"\xff" * len(data) else data.hex()


def field_text(bit, data):
    """The text of one defined field."""
    if bit in (0, 8):
        name = "" if bit == 0 else "w"
        ident = or_dash(number(data[1:]), len(data) - 1)
        return "%shop=%d %snode=%s" % (name, data[0], name, ident)
    if bit in (1, 9):
        name, half = ("", 2) if bit == 1 else ("w", 4)
        return "%sin=%s %sout=%s" % (name, or_dash(number(data[:half]), half),
                                     name, or_dash(number(data[half:]), half))
    if bit in (5, 7, 10):
        return {5: "data=", 7: "check=", 10: "wdata="}[bit] + hex_or_dash(data)
    name = {2: "sec", 3: "frac", 4: "delay", 6: "queue", 11: "buffer"}[bit]
    return "%s=%s" % (name, or_dash(number(data), 4))


def fields_text(kind, data):
    """The text of an element whose NodeLen is that of its type's fields."""
    words, at = [], 0
    for bit in DEFINED_BITS:
        if has(kind, bit):
            size = 8 if bit in WIDE_BITS else 4
            words.append(field_text(bit, data[at:at + size]))
            at += size
    if has(kind, 22):
        words.append("schema=" + hex_or_dash(data[at + 1:at + 4]))
        words.append("opaque=" + (data[at + 4:].hex() or "-"))
    return " ".join(words)


def is_element(kind, data):
    """Whether octets are one element of a type, no more and no less; or none
    where the type has neither a field nor a snapshot."""
    size = 4 * words_of(kind)
    if has(kind, 22):
        if len(data) < size + 4:
            return False
        size += 4 + 4 * data[size]
    return len(data) == size


def hop_value(kind, data):
    """The hop limit that an element tells, None where it tells none."""
    if has(kind, 0):
        return data[0]
    if has(kind, 8):
        return data[4 * words_of(kind & 0xFF0000)]
    return None
