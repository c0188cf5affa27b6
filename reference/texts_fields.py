"""The fields of an element and the data of options, as reports print them (RFC 9197 sections 4.4 and 4.6, RFC 9326 section 3)."""

from faults_reach import reached
from foreign_packets import number
from foreign_traces import WIDE, has, read_trace, words


def shown(octets, digits=False):
    """A field as a number or as digits; a dash where it is all ones."""
    if octets == b"\xff" * len(octets):
        return "-"
    return octets.hex() if digits else str(number(octets, 0, len(octets)))


def field_text(bit, field):
    """The text of the field of one bit."""
    if bit in (0, 8):
        wide = "w" if bit == 8 else ""
        return f"{wide}hop={field[0]} {wide}node={shown(field[1:])}"
    if bit in (1, 9):
        wide, half = "w" if bit == 9 else "", len(field) // 2
        return f"{wide}in={shown(field[:half])} {wide}out={shown(field[half:])}"
    name = {2: "sec", 3: "frac", 4: "delay", 5: "data", 6: "queue", 7: "check", 10: "wdata", 11: "buffer"}[bit]
    return f"{name}={shown(field, bit in (5, 7, 10))}"


def fields_text(kind, node_len, element):
    """The fields of an element in the order of the type's bits, then fillers, then the opaque snapshot."""
    texts, place = [], 0
    for bit in range(12):
        if has(kind, bit):
            end = place + (8 if bit in WIDE else 4)
            texts.append(field_text(bit, element[place:end]))
            reached(f"field {bit}" + (" all ones" if element[place:end] in (b"\xff" * 4, b"\xff" * 8) else ""))
            place = end
    for _ in range(node_len - words(kind)):
        texts.append(f"fill={element[place:place + 4].hex()}")
        place += 4
        reached("field fill")
    if has(kind, 22):
        data = element[place + 4:]
        texts.append(f"schema={shown(element[place + 1:place + 4], True)} opaque={data.hex() or '-'}")
        reached(f"field snapshot of {'no' if not data else 'some'} words")
    return " ".join(texts)


def element_lines(head, elements):
    """A line for each element, the oldest first."""
    return "".join(f"    {fields_text(head.kind, head.node_len, element)}\n" for element in elements)


def trace_text(octets):
    """What `paths` says of the data of one trace."""
    fault, head, elements = read_trace(octets)
    if fault is not None:
        reached(f"trace bad {fault.split()[0]}")
        return f"  trace bad {fault}\n"
    state = "overflow" if head.flags & 8 else "whole"
    reached(f"trace {state} of {min(len(elements), 3)}")
    return f"  trace {head.namespace} {head.kind:06x} {state} {len(elements)}\n" + element_lines(head, elements)


def read_edge(octets):
    """Edge-to-edge data (RFC 9197 section 4.6) as words, None where a field that the type asks for isn't whole."""
    if len(octets) < 4:
        return None
    kind = number(octets, 2, 2)
    text, place = f"{number(octets, 0, 2)} {kind:04x}", 4
    for mask, name, size in ((0x8000, "seq64", 8), (0x4000, "seq32", 4), (0x2000, "sec", 4), (0x1000, "frac", 4)):
        if kind & mask:
            field, place = octets[place:place + size], place + size
            if place > len(octets):
                return None
            value = shown(field) if name in ("sec", "frac") else str(number(field, 0, size))
            reached(f"edge {name}" + (" all ones" if value == "-" else ""))
            text += f" {name}={value}"
    return text


class Direct:
    """Direct export data (RFC 9326 section 3)."""

    def __init__(self, octets):
        self.namespace = number(octets, 0, 2)
        self.flags, self.ext = octets[2], octets[3]
        self.kind = number(octets, 4, 3)
        self.flow = self.seq = None
        place = 8
        if self.ext & 0x80:
            self.flow = number(octets, place, 4)
            place += 4
        if self.ext & 0x40:
            self.seq = number(octets, place, 4)


def read_direct(octets):
    """Direct export data, None where they aren't whole."""
    if len(octets) < 8:
        return None
    wanted = 8 + (4 if octets[3] & 0x80 else 0) + (4 if octets[3] & 0x40 else 0)
    return None if len(octets) < wanted else Direct(octets)


def direct_text(octets):
    """Direct export data as words, None where they aren't whole."""
    direct = read_direct(octets)
    if direct is None:
        return None
    text = f"{direct.namespace} {direct.kind:06x} flags {direct.flags}"
    if direct.flow is not None:
        text += f" flow={direct.flow}"
    if direct.seq is not None:
        text += f" seq={direct.seq}"
    return text


def option_text(data):
    """What `show` says behind the place of an option with these data (RFC 9486 section 3), the line end included."""
    if len(data) < 2:
        return "short\n"
    kind, rest = data[1], data[2:]
    if kind in (0, 1):
        fault, head, elements = read_trace(rest, kind == 1)
        if fault is None:
            what = f"{head.namespace} {head.kind:06x} flags {head.flags} remaining {head.remaining}"
            return f"{('trace', 'incremental')[kind]} {what}\n" + element_lines(head, elements)
        reached(f"show: {('trace', 'incremental')[kind]} {fault.split()[0]}")
        return f"bad {kind}\n"
    if kind in (3, 4):
        text = read_edge(rest) if kind == 3 else direct_text(rest)
        return f"bad {kind}\n" if text is None else f"{('edge', 'direct')[kind - 3]} {text}\n"
    if kind == 2:
        return f"proof {rest.hex() or '-'}\n"
    return f"other {kind} {rest.hex() or '-'}\n"
