"""In Situ OAM for IPv6 in Python: the library of include/ioam.h over ctypes.

Octets go in as `bytes`; what is read comes out as dictionaries with only the fields that are there. What can't be read raises
`IoamError`, whose `status` is the name that the program `ioam` prints.

    import ioam_c
    for option in ioam_c.options(packet):
        if option["option_type"] == ioam_c.PREALLOCATED_TRACE:
            head, elements = ioam_c.trace(option["octets"])

The shared object is found by IOAM_LIBRARY, else by the name libioam.so.
"""
import ctypes
import os
from ctypes import POINTER, Structure, byref, c_size_t, c_uint8, c_uint16, c_uint32, c_uint64

PREALLOCATED_TRACE, INCREMENTAL_TRACE, PROOF_OF_TRANSIT, EDGE_TO_EDGE, DIRECT_EXPORT = range(5)
OVERFLOW = 8
STATUSES = ("ok", "end", "not-ipv6", "length", "chain", "short", "space", "node-len", "element", "record", "view", "overflowed",
            "already-over", "unsuited", "illegal")
OK, END = 0, 1


class IoamError(ValueError):
    """Octets that can't be read, or a view that exceeds its limits."""

    def __init__(self, status, offset=None):
        super().__init__(STATUSES[status] if offset is None else f"{STATUSES[status]} at {offset}")
        self.status = STATUSES[status]
        self.offset = offset


def fields(kind, names):
    return [(name, kind) for name in names.split()]


class Option(Structure):
    _fields_ = (fields(c_size_t, "header offset data length") + fields(c_uint8, "type has_option_type option_type has_namespace")
                + fields(c_uint16, "namespace_id"))


class TraceHead(Structure):
    _fields_ = fields(c_uint32, "type") + fields(c_uint16, "namespace_id") + fields(c_uint8, "node_len flags remaining reserved")


class Element(Structure):
    _fields_ = (fields(c_size_t, "offset length fill fill_length opaque opaque_length") + fields(c_uint64, "wide_node_id wide_data")
                + fields(c_uint32, "node_id seconds fraction delay short_data queue checksum wide_ingress wide_egress buffer schema")
                + fields(c_uint16, "ingress egress")
                + fields(c_uint8, "hop_limit wide_hop_limit has_hop_node has_interfaces has_seconds has_fraction has_delay has_short_data "
                                  "has_queue has_checksum has_wide_hop_node has_wide_interfaces has_wide_data has_buffer has_snapshot"))


class View(Structure):
    _fields_ = (fields(c_uint64, "node_id delay wide_data")
                + fields(c_uint32, "ingress egress seconds fraction queue buffer short_data schema")
                + fields(c_uint8, "hop_limit has_ingress has_egress has_timestamp has_delay has_queue has_buffer has_short_data "
                                  "has_wide_data has_snapshot opaque_words") + [("opaque", c_uint8 * 180)])


class Edge(Structure):
    _fields_ = (fields(c_uint64, "seq64") + fields(c_uint32, "seq32 seconds fraction") + fields(c_uint16, "namespace_id type")
                + fields(c_uint8, "has_seq64 has_seq32 has_seconds has_fraction"))


class Direct(Structure):
    _fields_ = (fields(c_uint32, "type flow seq") + fields(c_uint16, "namespace_id")
                + fields(c_uint8, "flags extensions has_flow has_seq"))


class Record(Structure):
    _fields_ = (fields(c_size_t, "element element_length") + fields(c_uint64, "time") + fields(c_uint32, "ingress type flow seq")
                + fields(c_uint16, "namespace_id") + fields(c_uint8, "flags extensions has_visit has_flow has_seq"))


# Fields that another field's flag speaks for.
FLAGS = {
    "node_id": "hop_node", "hop_limit": "hop_node", "ingress": "interfaces", "egress": "interfaces",
    "wide_node_id": "wide_hop_node", "wide_hop_limit": "wide_hop_node",
    "wide_ingress": "wide_interfaces", "wide_egress": "wide_interfaces", "schema": "snapshot", "namespace_id": "namespace",
}
OFFSETS = {"fill", "fill_length", "opaque", "opaque_length"}

_library = ctypes.CDLL(os.environ.get("IOAM_LIBRARY", "libioam.so"))


def _call(name, *kinds):
    call = getattr(_library, name)
    call.argtypes, call.restype = kinds, c_uint32
    return call


_octets = (ctypes.c_char_p, c_size_t)
_check = _call("ioam_check", *_octets, POINTER(c_size_t))
_next_option = _call("ioam_next_option", *_octets, POINTER(c_size_t), POINTER(Option))
_heads = {PREALLOCATED_TRACE: _call("ioam_trace_head", *_octets, POINTER(TraceHead)),
          INCREMENTAL_TRACE: _call("ioam_incremental_head", *_octets, POINTER(TraceHead))}
_elements = {PREALLOCATED_TRACE: _call("ioam_trace_element", *_octets, POINTER(c_size_t), POINTER(Element)),
             INCREMENTAL_TRACE: _call("ioam_incremental_element", *_octets, POINTER(c_size_t), POINTER(Element))}
_fill = _call("ioam_fill", ctypes.c_void_p, c_size_t, POINTER(View))
_may_become = _call("ioam_may_become", *_octets, *_octets, c_uint8, c_uint64, c_uint32)
_edge = _call("ioam_edge_read", *_octets, POINTER(Edge))
_direct = _call("ioam_direct_read", *_octets, POINTER(Direct))
_record = _call("ioam_record_read", *_octets, POINTER(Record))


def _dict(value):
    """The fields of a struct that are there."""
    names = [name for name, *_ in value._fields_]
    found = {}
    for name in names:
        flag = "has_" + FLAGS.get(name, {"time": "visit"}.get(name, name))
        if isinstance(value, Record) and name == "ingress":
            flag = "has_visit"
        if not name.startswith("has_") and name not in OFFSETS and (flag not in names or getattr(value, flag)):
            found[name] = getattr(value, name)
    return found


def _read(call, octets, value):
    status = call(octets, len(octets), byref(value))
    if status != OK:
        raise IoamError(status)
    return _dict(value)


def check(packet):
    """The offset at which the packet's header chain ends; IoamError if it isn't whole."""
    at = c_size_t()
    status = _check(packet, len(packet), byref(at))
    if status != OK:
        raise IoamError(status, at.value if STATUSES[status] == "chain" else None)
    return at.value


def options(packet):
    """Gives the IOAM options of a packet in order, each with its data as `octets`."""
    cursor, option = c_size_t(0), Option()
    while (status := _next_option(packet, len(packet), byref(cursor), byref(option))) == OK:
        yield _dict(option) | {"octets": packet[option.data:option.data + option.length]}
    if status != END:
        raise IoamError(status)


def trace(octets, kind=PREALLOCATED_TRACE):
    """The header of a trace and its elements, the oldest first."""
    head = _read(_heads[kind], octets, TraceHead())
    cursor, element, found = c_size_t(len(octets)), Element(), []
    while (status := _elements[kind](octets, len(octets), byref(cursor), byref(element))) == OK:
        found.append(_element(octets, element))
    if status != END:
        raise IoamError(status)
    return head, found


def _element(octets, element):
    found = _dict(element)
    if element.fill_length:
        found["fill"] = octets[element.fill:element.fill + element.fill_length]
    if element.has_snapshot:
        found["opaque"] = octets[element.opaque:element.opaque + element.opaque_length]
    return found


def fill(octets, **known):
    """A trace's octets as a node leaves them that knows so much, and what it did: ok, overflowed, already-over or unsuited.

    hop_limit and node_id are always needed; the others are those of `struct ioam_view`, and `opaque` is bytes.
    """
    opaque = known.pop("opaque", b"")
    view = View(opaque_words=len(opaque) // 4, **known)
    if len(opaque) % 4 or len(opaque) > 180:
        raise IoamError(STATUSES.index("view"))
    ctypes.memmove(view.opaque, opaque, len(opaque))
    for name in known:
        flag = "has_" + {"seconds": "timestamp", "fraction": "timestamp", "schema": "snapshot"}.get(name, name)
        if hasattr(view, flag):
            setattr(view, flag, 1)
    room = (c_uint8 * max(len(octets), 1)).from_buffer_copy(octets or b"\0")
    status = _fill(room, len(octets), byref(view))
    if STATUSES[status] == "view":
        raise IoamError(status)
    return bytes(room)[:len(octets)], STATUSES[status]


def may_become(old, octets, hop_limit, node_id, ingress):
    """Whether a node with this id may have made a trace's octets of the old ones, if it sent the packet on with hop_limit, and the packet
    came to it by the interface ingress."""
    status = _may_become(old, len(old), octets, len(octets), hop_limit, node_id, ingress)
    if STATUSES[status] == "view":
        raise IoamError(status)
    return status == OK


def edge(octets):
    """Edge-to-edge data."""
    return _read(_edge, octets, Edge())


def direct(octets):
    """Direct export data."""
    return _read(_direct, octets, Direct())


def record(octets):
    """An export record, with its element's octets as `element`."""
    value = Record()
    found = _read(_record, octets, value)
    del found["element_length"]
    return found | {"element": octets[value.element:value.element + value.element_length]}
