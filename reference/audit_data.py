"""What a node, whoever wrote it, may make of the data of a pre-allocated trace (RFC 9197 section 4.4): decided by rules, and for
small ones by trying all that the node may have known."""

from itertools import product

from faults_reach import reached
from foreign_packets import number
from foreign_traces import OVERFLOW, WIDE, Head, element_of, has, narrow, ones_or, undefined, words

MOST_TRIED = 4000
MOST_DELAY, NO_WORD = 0x80000000, b"\xff\xff\xff\xff"


class Sight:
    """What is known of a node that sent a packet: the hop limit with which it sent it, its id, and the interface of the link by
    which the packet came."""

    def __init__(self, hops, ident, inward):
        self.hops, self.ident, self.inward = hops, ident, inward


def suits(kind, node_len):
    """Whether a node may add an element: it may fill undefined bits with words of all ones, as many as NodeLen leaves for them."""
    if kind >> 1 == 0:
        return False
    return node_len >= words(kind) if undefined(kind) else node_len == words(kind)


def is_open(octets, head):
    """Whether a node looks for room in a trace: Overflow isn't set, its words are whole and those that are free are there."""
    whole = len(octets) % 4 == 0 and head.remaining <= len(octets) // 4 - 2
    return not number(octets, 2, 2) & OVERFLOW and whole and suits(head.kind, head.node_len)


def overflowed(octets):
    """The same with the Overflow flag."""
    return octets[:2] + (number(octets, 2, 2) | OVERFLOW).to_bytes(2, "big") + octets[4:]


def may_become(sight, old, new):
    """Whether the one data may be left as the other, of the same length."""
    ruled, tried = by_rules(sight, old, new), by_trying(sight, old, new)
    if tried is not None and tried != ruled:
        raise AssertionError(f"{vars(sight)} {old.hex()} {new.hex()}: by rules {ruled}, by trying {tried}")
    reached("audit: data " + ("by rules alone" if tried is None else "by rules and by trying"))
    return ruled


def by_rules(sight, old, new):
    """The same by what the new octets show."""
    head = Head(old) if len(old) >= 8 else None
    if new == old:
        may_stay = head is None or undefined(head.kind) > 0 or not is_open(old, head)
        reached("audit: data left, " + ("as it may be" if may_stay else "but it has room or wants Overflow"))
        return may_stay
    if head is None or not is_open(old, head):
        reached("audit: data changed that no node changes")
        return False
    if new == overflowed(old):
        full = has(head.kind, 22) or head.node_len > head.remaining
        reached("audit: Overflow " + ("without need" if not full else "for a snapshot" if has(head.kind, 22) else "for want of room"))
        return full
    return is_added(sight, head, old, new)


def is_added(sight, head, old, new):
    """Whether one lawful element stands where it was free, and RemainingLen is less by its words; all else is as it was."""
    size = head.remaining - (new[3] & 127)
    if size < 0:
        reached("audit: RemainingLen has risen")
        return False
    end = 8 + 4 * head.remaining
    start = end - 4 * size
    front = old[:2] + (number(old, 2, 2) - size).to_bytes(2, "big") + old[4:start]
    if new[:start] != front or new[end:] != old[end:]:
        reached("audit: other octets than an element's are changed")
        return False
    why = unlawful(sight, head, new[start:end])
    reached(f"audit: element {why or 'lawful'}")
    return why is None


def unlawful(sight, head, element):
    """Why octets aren't an element that this node may have added; None where they are."""
    filled, size = 4 * head.node_len, 4 * head.node_len
    if has(head.kind, 22):
        if len(element) < filled + 4:
            return "of another size"
        size += 4 + 4 * element[filled]
    if len(element) != size:
        return "of another size"
    fields, place = {}, 0
    for bit in range(12):
        if has(head.kind, bit):
            fields[bit] = element[place:place + (8 if bit in WIDE else 4)]
            place += len(fields[bit])
    if element[place:filled] != b"\xff" * (filled - place):
        return "with other fillers"
    return unlawful_field(sight, fields)


def unlawful_field(sight, fields):
    """Which of an element's fields can't be this node's; None where all may be."""
    hops = bytes([sight.hops])
    if fields.get(0, hops + narrow(sight.ident, 3)) != hops + narrow(sight.ident, 3):
        return "with another hop limit or node id"
    if fields.get(8, hops + sight.ident.to_bytes(7, "big")) != hops + sight.ident.to_bytes(7, "big"):
        return "with another wide hop limit or node id"
    if not any(comes_by(inward, fields) for inward in (sight.inward, None)):
        return "with another ingress interface"
    if 1 in fields and 9 in fields and fields[1][2:] != narrow(number(fields[9], 4, 4), 2):
        return "with two egress interfaces"
    if 4 in fields and MOST_DELAY < number(fields[4], 0, 4) and fields[4] != NO_WORD:
        return "with a delay of more than 31 bits"
    return None


def comes_by(inward, fields):
    """Whether both forms of an ingress interface are those of one number, or of none."""
    return (1 not in fields or fields[1][:2] == narrow(inward, 2)) and (9 not in fields or fields[9][:4] == ones_or(inward, 4))


def by_trying(sight, old, new):
    """The same by all that the node may have known; None where that is too much to try. A number that it wrote stands in the
    words that were free, so those alone are tried, and a snapshot that never fits."""
    if len(old) < 8:
        return new == old
    head = Head(old)
    if undefined(head.kind) > 0 and new == old:
        return True
    choices = choices_of(sight, head, new[8:8 + 4 * head.remaining])
    tries = 1
    for values in choices.values():
        tries *= len(values)
    if tries > MOST_TRIED:
        return None
    for values in product(*choices.values()):
        view = dict(zip(choices, values))
        view.update(hops=sight.hops, id=sight.ident, stamp=(view["seconds"], view["fraction"]))
        if is_outcome(old, head, view, new):
            return True
    return False


def choices_of(sight, head, free):
    """What each field of a view may have been, as far as the type shows it."""
    halves = {number(free, at, 2) for at in range(0, len(free) - 1, 2)}
    singles = {number(free, at, 4) for at in range(0, len(free) - 3, 4)}
    doubles = {number(free, at, 8) for at in range(0, len(free) - 7, 4)}
    kind = head.kind

    def of(values, *bits):
        return [None, *sorted(values)] if any(has(kind, bit) for bit in bits) else [None]

    snapshots = [None]
    if has(kind, 22):
        snapshots.append((0, bytes(4 * 255)))
        for at in range(0, len(free) - 3, 4):
            end = at + 4 + 4 * free[at]
            if end <= len(free):
                snapshots.append((number(free, at + 1, 3), free[at + 4:end]))
    delays = singles | {0x7FFFFFFF, MOST_DELAY, 1 << 63}
    return {"inward": [sight.inward, None], "outward": of(halves | singles, 1, 9), "seconds": of(singles, 2) if has(kind, 2) else [0],
            "fraction": of(singles, 3) if has(kind, 3) else [0], "delay": of(delays, 4), "short": of(singles, 5),
            "queue": of(singles, 6), "wide": of(doubles, 10), "buffer": of(singles, 11), "snapshot": snapshots}


def is_outcome(old, head, view, new):
    """Whether a node that knows this leaves these octets: the word of a checksum complement in what it adds is free."""
    if not is_open(old, head):
        return new == old
    element = element_of(head.kind, head.node_len, stamped(view))
    size = len(element) // 4
    if size > head.remaining:
        return new == overflowed(old)
    start = 8 + 4 * (head.remaining - size)
    made = old[:2] + (number(old, 2, 2) - size).to_bytes(2, "big") + old[4:start] + element + old[start + len(element):]
    if has(head.kind, 7):
        check = start + 4 * sum(has(head.kind, bit) for bit in range(7))
        made = made[:check] + new[check:check + 4] + made[check + 4:]
    return made == new


def stamped(view):
    """The view with a stamp of which either half may be all ones."""
    seconds, fraction = view["stamp"]
    return {**view, "stamp": tuple(0xFFFFFFFF if half is None else half for half in (seconds, fraction))}
