#!/usr/bin/env python3
"""Compares the library, through C and through Python, with the program and with a second writing of the rules (reference/).

    bench/compare/library.py [COUNT [SEED]]

The packets of the shipped captures, those of the suite among them, and COUNT (100,000) random ones: what `ioam show` says of them, what
library.c says by the calls of include/ioam.h, and what Python says by examples/python/ioam_c.py: one text. COUNT random traces, each
filled by a node that knows at random, and as many judged that some node made of others, or someone spoiled: what the library makes of
them and what the model does; and as many export records, whole and
broken: what the library reads and what the model does. library.sh builds what this needs, and names it in IOAM_LIBRARY and
LIBRARY_SHOW. Anything that differs is kept, and the status is 1."""
import os
import random
import subprocess
import sys
import tempfile

HERE = os.path.dirname(os.path.abspath(__file__))
TOP = os.path.dirname(os.path.dirname(HERE))
sys.dont_write_bytecode = True
sys.path[:0] = [os.path.join(TOP, "reference"), os.path.join(TOP, "examples", "python")]

import audit_data  # noqa: E402
import audit_rows  # noqa: E402
import exports_random  # noqa: E402
import exports_records  # noqa: E402
import foreign_random  # noqa: E402
import foreign_traces  # noqa: E402
import ioam_c  # noqa: E402

CAPTURES = ["reasons.pcap", "linux-ioam.pcap", "two-links.pcapng", "live.pcapng", "audit/before.pcap", "audit/after.pcap", "audit/wrong.pcap",
            "three/west.pcap", "plot/west.pcap", "conformance/suite.pcap"]


# ---- packets, as `show` prints them

def known(value, bits):
    return "-" if value == (1 << bits) - 1 else str(value)


def digits(value, bits):
    return "-" if value == (1 << bits) - 1 else f"{value:0{bits // 4}x}"


FIELDS = (
    ("hop_limit", "hop={}", str), ("node_id", "node={}", lambda v: known(v, 24)),
    ("ingress", "in={}", lambda v: known(v, 16)), ("egress", "out={}", lambda v: known(v, 16)),
    ("seconds", "sec={}", lambda v: known(v, 32)), ("fraction", "frac={}", lambda v: known(v, 32)),
    ("delay", "delay={}", lambda v: known(v, 32)), ("short_data", "data={}", lambda v: digits(v, 32)),
    ("queue", "queue={}", lambda v: known(v, 32)), ("checksum", "check={}", lambda v: digits(v, 32)),
    ("wide_hop_limit", "whop={}", str), ("wide_node_id", "wnode={}", lambda v: known(v, 56)),
    ("wide_ingress", "win={}", lambda v: known(v, 32)), ("wide_egress", "wout={}", lambda v: known(v, 32)),
    ("wide_data", "wdata={}", lambda v: digits(v, 64)), ("buffer", "buffer={}", lambda v: known(v, 32)),
)


def element_line(element):
    words = [text.format(of(element[name])) for name, text, of in FIELDS if name in element]
    fill = element.get("fill", b"")
    words += [f"fill={fill[at:at + 4].hex()}" for at in range(0, len(fill), 4)]
    if "schema" in element:
        words += [f"schema={digits(element['schema'], 24)}", f"opaque={element['opaque'].hex() or '-'}"]
    return "    " + " ".join(words) + "\n"


def trace_text(octets, kind):
    head, elements = ioam_c.trace(octets, kind)
    name = ("trace", "incremental")[kind]
    return (f"{name} {head['namespace_id']} {head['type']:06x} flags {head['flags']} remaining {head['remaining']}\n"
            + "".join(element_line(element) for element in elements))


def edge_text(octets):
    edge = ioam_c.edge(octets)
    words = [f" {name}={edge[name]}" for name in ("seq64", "seq32") if name in edge]
    words += [f" {short}={known(edge[name], 32)}" for name, short in (("seconds", "sec"), ("fraction", "frac")) if name in edge]
    return f"edge {edge['namespace_id']} {edge['type']:04x}{''.join(words)}\n"


def direct_text(octets):
    direct = ioam_c.direct(octets)
    words = [f" {name}={direct[name]}" for name in ("flow", "seq") if name in direct]
    return f"direct {direct['namespace_id']} {direct['type']:06x} flags {direct['flags']}{''.join(words)}\n"


def option_text(option):
    if "option_type" not in option:
        return "short\n"
    kind, octets = option["option_type"], option["octets"]
    try:
        if kind in (0, 1):
            return trace_text(octets, kind)
        if kind in (3, 4):
            return edge_text(octets) if kind == 3 else direct_text(octets)
    except ioam_c.IoamError:
        return f"bad {kind}\n"
    return ("proof " if kind == 2 else f"other {kind} ") + (octets.hex() or "-") + "\n"


def packet_text(place, packet):
    try:
        ioam_c.check(packet)
    except ioam_c.IoamError as error:
        return f"{place} skip {error.status}\n"
    found = list(ioam_c.options(packet))
    return f"{place} options {len(found)}\n" + "".join(f"  {o['type']:02x} at {o['offset']} {option_text(o)}" for o in found)


def by_python(packets):
    return ("".join(packet_text(place, packet) for place, packet in enumerate(packets, 1)) + f"packets {len(packets)}\n").encode()


def by_c(packets):
    stream = b"".join(len(packet).to_bytes(4, "big") + packet for packet in packets)
    return subprocess.run([os.environ["LIBRARY_SHOW"]], input=stream, capture_output=True, check=True).stdout


def by_program(packets, room):
    with open(os.path.join(room, "in"), "wb") as out:
        out.write(bytes.fromhex("a1b23c4d00020004000000000000000000040000" "00000065"))
        for packet in packets:
            out.write(bytes(8) + len(packet).to_bytes(4, "big") * 2 + packet)
    subprocess.run([os.environ.get("IOAM", os.path.join(TOP, "ioam")), "show", "in", "out"], cwd=room, check=True, capture_output=True)
    with open(os.path.join(room, "out"), "rb") as report:
        return report.read()


def shipped_packets(room):
    """The packets of the shipped captures: what follows an Ethernet header, and only what was captured whole."""
    program, packets = os.environ.get("IOAM", os.path.join(TOP, "ioam")), []
    for name in CAPTURES:
        subprocess.run([program, "save", os.path.join(TOP, "examples", name), "saved"], cwd=room, check=True, capture_output=True)
        with open(os.path.join(room, "saved"), "rb") as saved:
            packets += saved_packets(saved.read())
    return packets


def saved_packets(octets):
    """Those of what `save` wrote: big-endian blocks, of which interface 0 has packets and interface 1 frames."""
    at, packets = 0, []
    while at < len(octets):
        kind, size = (int.from_bytes(octets[at + i:at + i + 4], "big") for i in (0, 4))
        if kind == 6:
            interface, captured, original = (int.from_bytes(octets[at + i:at + i + 4], "big") for i in (8, 20, 24))
            frame = octets[at + 28:at + 28 + captured]
            if captured == original and (interface == 0 or frame[12:14] == b"\x86\xdd"):
                packets.append(frame if interface == 0 else frame[14:])
        at += size
    return packets


def random_packet(rng, aim):
    packet = foreign_random.packet(rng, aim)
    way = rng.random()
    if way < 0.02:
        return packet[:rng.randint(0, len(packet))]
    if way < 0.04:
        return packet + rng.randbytes(rng.randint(1, 9))
    return packet


# ---- traces that are filled, and records

def random_view(rng):
    def maybe(value):
        return value if rng.random() < 0.7 else None
    size = rng.choice((0, 1, 2, 5, 45))
    return {
        "hops": rng.getrandbits(8), "id": rng.getrandbits(rng.choice((8, 24, 25, 56))),
        "inward": maybe(rng.getrandbits(rng.choice((8, 16, 17, 32)))), "outward": maybe(rng.getrandbits(rng.choice((8, 16, 17, 32)))),
        "stamp": maybe((rng.getrandbits(32), rng.getrandbits(32))), "delay": maybe(rng.getrandbits(rng.choice((8, 31, 32, 64)))),
        "queue": maybe(rng.getrandbits(32)), "buffer": maybe(rng.getrandbits(32)), "short": maybe(rng.getrandbits(32)),
        "wide": maybe(rng.getrandbits(64)), "snapshot": maybe((rng.getrandbits(24), rng.randbytes(4 * size))),
    }


def filled(octets, view):
    seconds, fraction = view["stamp"] or (None, None)
    schema, opaque = view["snapshot"] or (None, None)
    known_by = {"ingress": view["inward"], "egress": view["outward"], "seconds": seconds, "fraction": fraction, "delay": view["delay"],
                "queue": view["queue"], "buffer": view["buffer"], "short_data": view["short"], "wide_data": view["wide"], "schema": schema,
                "opaque": opaque}
    return ioam_c.fill(octets, hop_limit=view["hops"], node_id=view["id"], **{k: v for k, v in known_by.items() if v is not None})


DONE = {"added": "ok", "overflow": "overflowed", "over": "already-over", "unsuited": "unsuited"}


def fill_differs(rng, aim):
    octets, view = foreign_random.trace_data(rng, aim, False), random_view(rng)
    note, wanted = foreign_traces.fill(octets, view)
    came, status = filled(octets, view)
    return None if (came, status) == (wanted, DONE[note.split()[0]]) else ("fill", octets, view, came, status)


def judge_differs(rng, maker):
    sight, old, new = audit_rows.random_step(rng, maker)
    wanted = audit_data.may_become(sight, old, new)
    if rng.random() < 0.02:
        new, wanted = new[:rng.randint(0, len(new) - 1)], False
    came = ioam_c.may_become(old, new, sight.hops, sight.ident, sight.inward)
    return None if came == wanted else ("judge", vars(sight), old, new, came)


def record_differs(rng):
    octets = exports_random.exports(rng, 1)
    if rng.random() < 0.1:
        octets = octets[:rng.randint(0, len(octets))]
    records, fault = exports_records.read_exports(octets)
    wanted = records[0] if len(records) == 1 and fault is None else None
    try:
        came = ioam_c.record(octets)
    except ioam_c.IoamError:
        return None if wanted is None else ("record", octets, "refused")
    if wanted is None:
        return "record", octets, "read"
    same = (came["namespace_id"], came["type"], came["extensions"], came.get("flow"), came.get("seq"), came["element"],
            (came["time"], came["ingress"]) if "time" in came else None)
    is_same = same == (wanted.namespace, wanted.kind, wanted.ext, wanted.flow, wanted.seq, wanted.element, wanted.visit)
    return None if is_same else ("record", octets, came)


def main():
    count = int(sys.argv[1]) if len(sys.argv) > 1 else 100000
    seed = int(sys.argv[2]) if len(sys.argv) > 2 else random.randrange(1 << 32)
    print(f"library.py: seed {seed}", file=sys.stderr)
    rng, aim, wrong = random.Random(seed), foreign_random.Aim(), 0
    with tempfile.TemporaryDirectory() as room:
        packets = shipped_packets(room)
        print(f"library.py: {len(packets)} shipped packets", file=sys.stderr)
        packets += [random_packet(rng, aim) for _ in range(count)]
        wanted, c_text, python_text = by_program(packets, room), by_c(packets), by_python(packets)
        for name, text in (("C", c_text), ("Python", python_text)):
            if text != wanted:
                wrong += 1
                pairs = zip(wanted.split(b"\n"), text.split(b"\n"))
                print(f"through {name}: ", next((pair for pair in pairs if pair[0] != pair[1]), "another length"))
    maker = audit_rows.random_maker(rng)
    for _ in range(count):
        for said in (fill_differs(rng, aim), judge_differs(rng, maker), record_differs(rng)):
            if said is not None:
                wrong += 1
                print(*said)
    print(f"{len(packets)} packets, {count} traces filled and judged, {count} records: " + ("nothing differs" if wrong == 0 else f"{wrong} differ"))
    sys.exit(wrong != 0)


if __name__ == "__main__":
    main()
