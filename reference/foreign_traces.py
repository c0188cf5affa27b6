"""Trace data from anywhere (RFC 9197 section 4.4): sizes, elements, how a trace is read and how a node fills it."""

from faults_reach import reached
from foreign_packets import number

OVERFLOW = 0x0400  # of the word that has NodeLen, Flags and RemainingLen
ONES = b"\xff\xff\xff\xff"
WIDE = (8, 9, 10)  # the bits whose fields have two words


def has(kind, bit):
    """Whether a trace type has a bit; bit 0 is the most significant of 24."""
    return kind >> (23 - bit) & 1 == 1


def words(kind):
    """The words of the fields of a type, the opaque snapshot not among them."""
    return sum(2 if bit in WIDE else 1 for bit in range(12) if has(kind, bit))


def undefined(kind):
    """How many of the bits that the RFC leaves undefined a type has."""
    return sum(has(kind, bit) for bit in range(12, 22))


def node_len_suits(kind, node_len):
    """Whether a NodeLen says what the type asks for: with undefined bits it may be more."""
    if undefined(kind) == 0:
        return node_len == words(kind)
    return node_len >= words(kind) + undefined(kind)


def element_end(kind, node_len, octets, place):
    """Where the element that begins at a place ends; None where none begins there."""
    end = place + 4 * node_len
    if has(kind, 22):
        if end + 4 > len(octets):
            return None
        end += 4 + 4 * octets[end]
    if end > len(octets) or end == place:
        return None
    return end


class Head:
    """The eight octets in front of a trace's words."""

    def __init__(self, octets):
        middle = number(octets, 2, 2)
        self.namespace = number(octets, 0, 2)
        self.node_len = middle >> 11
        self.flags = middle >> 7 & 15
        self.remaining = middle & 127
        self.kind = number(octets, 4, 3)


def elements_from(head, octets, place):
    """The elements from a place to the end, the oldest, which is the last, first; or the fault that a report says."""
    found = []
    while place < len(octets):
        end = element_end(head.kind, head.node_len, octets, place)
        if end is None:
            return f"element {place}", []
        found.insert(0, octets[place:end])
        place = end
    return None, found


def read_trace(octets, incremental=False):
    """Reads the data of a pre-allocated or an incremental trace: a fault or None, the head and the elements."""
    if len(octets) < 8 or len(octets) % 4 != 0:
        return f"short {len(octets)}", None, []
    head = Head(octets)
    if not incremental and head.remaining > len(octets) // 4 - 2:
        return f"space {head.remaining}", head, []
    if not node_len_suits(head.kind, head.node_len):
        return f"node-len {head.node_len} {words(head.kind) + undefined(head.kind)}", head, []
    place = 8 if incremental else 8 + 4 * head.remaining
    fault, found = elements_from(head, octets, place)
    return fault, head, found


def ones_or(value, octets):
    """A field of so many octets: a value that is there, or all ones."""
    return b"\xff" * octets if value is None else value.to_bytes(octets, "big")


def narrow(value, octets):
    """As ones_or, where a value that has no room is all ones too."""
    return ones_or(None if value is None or value >> 8 * octets else value, octets)


def fields_of(kind, view):
    """The words of a type's fields with what a node knows (RFC 9197 sections 4.4.2.1 to 4.4.2.12)."""
    delay = view["delay"]
    if delay is not None and delay > 0x7FFFFFFF:
        delay = 0x80000000
    seconds, fraction = view["stamp"] or (None, None)
    hop = bytes([view["hops"]])
    all_fields = (
        hop + narrow(view["id"], 3),
        narrow(view["inward"], 2) + narrow(view["outward"], 2),
        ones_or(seconds, 4),
        ones_or(fraction, 4),
        ones_or(delay, 4),
        ones_or(view["short"], 4),
        ones_or(view["queue"], 4),
        ONES,
        hop + view["id"].to_bytes(7, "big"),
        ones_or(view["inward"], 4) + ones_or(view["outward"], 4),
        ones_or(view["wide"], 8),
        ones_or(view["buffer"], 4),
    )
    return b"".join(field for bit, field in enumerate(all_fields) if has(kind, bit))


def element_of(kind, node_len, view):
    """What a node adds: its fields, words of all ones up to NodeLen, and its opaque snapshot (section 4.4.2.13)."""
    octets = fields_of(kind, view) + ONES * (node_len - words(kind))
    if has(kind, 22):
        if view["snapshot"] is None:
            octets += b"\x00\xff\xff\xff"
        else:
            schema, data = view["snapshot"]
            octets += bytes([len(data) // 4]) + schema.to_bytes(3, "big") + data
    return octets


def fill(octets, view):
    """What a node makes of the data of a pre-allocated trace (section 4.4.1): its note and the data."""
    if len(octets) < 8:
        return "unsuited", octets
    head = Head(octets)
    middle = number(octets, 2, 2)
    if middle & OVERFLOW:
        return "over", octets
    unsuited = len(octets) % 4 != 0 or head.remaining > len(octets) // 4 - 2
    if unsuited or not node_len_suits(head.kind, head.node_len) or head.kind >> 1 == 0:
        return "unsuited", octets
    added = element_of(head.kind, head.node_len, view)
    size = len(added) // 4
    reached(f"fill: {'free words as the element' if size == head.remaining else 'one too few' if size == head.remaining + 1 else 'others'}")
    reached("fill: " + ("with" if undefined(head.kind) else "without") + " undefined bits")
    if size > head.remaining:
        return "overflow", octets[:2] + (middle | OVERFLOW).to_bytes(2, "big") + octets[4:]
    place = 8 + 4 * (head.remaining - size)
    front = octets[:2] + (middle - size).to_bytes(2, "big") + octets[4:place]
    return f"added {size}", front + added + octets[place + len(added):]
