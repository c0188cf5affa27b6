"""The packet in its tunnel as each node sends it (RFC 2473, RFC 9486), and
export records (RFC 9326)."""

from domain import traces
from packet import (ENCAPSULATION_LIMIT, HOP_BY_HOP, IOAM_CHANGES, IOAM_STAYS, NESTED,
                    TARGET_OPTIONS, Header, lowered, octets, options_header, put_header)
from trace import element_of, trace_data, word

TRACE_OPTION, EDGE_OPTION, DIRECT_OPTION = 0, 3, 4
FLOW_AND_SEQUENCE = 0xC0


def direct_data(flow, sequence):
    """The data of a direct export option (RFC 9326 section 3.1)."""
    return (octets(flow["namespace"], 2) + bytes([0, FLOW_AND_SEQUENCE])
            + octets(flow["direct"], 3) + b"\0" + octets(flow["flow_id"], 4)
            + octets(sequence, 4))


def edge_data(flow, number, stamp):
    """Edge-to-edge data (RFC 9197 section 4.6)."""
    kind = flow["edge"]
    data = octets(flow["namespace"], 2) + octets(kind, 2)
    if kind & 0x8000:
        data += octets(number, 8)
    if kind & 0x4000:
        data += octets(number % (1 << 32), 4)
    if kind & 0x2000:
        data += word(stamp[0])
    if kind & 0x1000:
        data += word(stamp[1])
    return data


def ioam(kind, option, data):
    """An IOAM option: reserved octet, IOAM-Option-Type, data (RFC 9486
    section 3)."""
    return kind, bytes([0, option]) + data


def hop_options(domain, place, direct, elements):
    """The options of the outer Hop-by-Hop header: a trace each of its lists of
    elements, then direct export."""
    found = []
    for (namespace, kind, capacity), recorded in zip(traces(domain, place), elements):
        data = trace_data(namespace, kind, capacity, recorded)
        found.append(ioam(IOAM_CHANGES, TRACE_OPTION, data))
    if direct is not None:
        data = direct_data(domain.flow[place], direct)
        found.append(ioam(IOAM_STAYS, DIRECT_OPTION, data))
    return found


def target_options(flow, limit, number, stamp):
    """Those of the outer Destination Options header: encapsulation limit (RFC
    2473 section 4.1.1), edge-to-edge."""
    found = []
    if limit is not None:
        found.append((ENCAPSULATION_LIMIT, bytes([limit])))
    if flow["edge"] is not None:
        found.append(ioam(IOAM_STAYS, EDGE_OPTION, edge_data(flow, number, stamp)))
    return found


def outer_headers(domain, place, journey, elements):
    """The options headers of the outer packet, and what comes first in it."""
    flow = domain.flow[place]
    behind = target_options(flow, journey.limit, journey.number or 0, journey.stamp)
    inner = options_header(NESTED, behind) if behind else b""
    following = TARGET_OPTIONS if behind else NESTED
    before = hop_options(domain, place, journey.direct, elements)
    if before:
        return HOP_BY_HOP, options_header(following, before) + inner
    return following, inner


def outer_size(domain, place, journey):
    """How long the packet is in its tunnel."""
    none = [[] for _ in traces(domain, place)]
    return 40 + len(outer_headers(domain, place, journey, none)[1]) + len(journey.packet)


def wire(domain, journey, sent, views):
    """The packet as its visit number `sent` (counted from 1) sends it; `views`
    has for each trace the views of all visits, each behind its place."""
    if journey.flow is None:
        return lowered(journey.packet, sent)
    flow = domain.flow[journey.flow]
    elements = [[element_of(kind, view) for place, view in known if place < sent]
                for (_, kind, _), known in zip(traces(domain, journey.flow), views)]
    first, headers = outer_headers(domain, journey.flow, journey, elements)
    inner = Header(journey.packet)
    outer = put_header(inner.kind, flow["label"], len(headers) + len(journey.packet), first,
                       flow["hops"] - (sent - 1), domain.node[flow["entry"]]["address"],
                       domain.node[flow["exit"]]["address"])
    return outer + headers + lowered(journey.packet, 1)


def export_records(domain, journey, views):
    """The records of version 2 that the nodes on its way export of a packet
    with direct export; `views` are those of the flow's own namespace."""
    flow = domain.flow[journey.flow]
    found = []
    for place, view in views:
        visit = journey.visits[place]
        rest = (octets(flow["namespace"], 2) + b"\0" + octets(flow["direct"], 3)
                + octets(visit.time, 8) + octets(visit.inward, 4)
                + octets(flow["flow_id"], 4) + octets(journey.direct, 4)
                + element_of(flow["direct"], view))
        found.append(bytes([2, FLOW_AND_SEQUENCE]) + octets(len(rest) + 4, 2) + rest)
    return found
