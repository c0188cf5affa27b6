#!/usr/bin/env python3
"""make_measured.py FOLDER [COUNT [TRACE CAPACITY]]

A domain with a measured flow and its traffic, for bench/speed/measured.sh: domain.toml, readings and west.pcap in FOLDER.
Five nodes a to e in a row, of which d doesn't know the flow's namespace; taps on the first link and on the third; a flow
from a to e with a trace, an edge-to-edge sequence number and direct export in every fourth packet. Three quarters of the
packets are of the flow; the others are forwarded plainly, or dropped for ten different reasons. The yardstick measured.c
has this domain built in."""
import ipaddress
import os
import random
import struct
import sys

NODES = "abcde"
MTU = [1600, 1600, 1600, 1580]
START = 1_700_000_000  # seconds


def address(text):
    return ipaddress.IPv6Address(text).packed


def packet(payload, next_header, target="2001:db8:2::5", hops=64, traffic_class=0):
    """An IPv6 packet (RFC 8200 section 3)."""
    first = 6 << 28 | traffic_class << 20
    return struct.pack(">IHBB", first, len(payload), next_header, hops) + address("2001:db8:1::1") + address(target) + payload


def udp(data):
    return struct.pack(">HHHH", 1024, 4740, 8 + len(data), 0) + data


def options(next_header, *items):
    """An options header: each option at a multiple of 4, padded to a multiple of 8 (RFC 8200 section 4.2)."""
    head = bytearray([next_header, 0])

    def pad(count):
        head.extend(b"" if count == 0 else b"\0" if count == 1 else bytes([1, count - 2]) + bytes(count - 2))

    for kind, data in items:
        pad(-len(head) % 4)
        head.extend(bytes([kind, len(data)]) + data)
    pad(-len(head) % 8)
    head[1] = len(head) // 8 - 1
    return bytes(head)


def tables(name, *entries):
    return "".join(f"[[{name}]]\n" + "".join(f"{key} = {value}\n" for key, value in entry.items()) for entry in entries)


def quoted(text):
    return f'"{text}"'


def domain(count, kind, capacity):
    nodes = [dict(name=quoted(n), id=i + 1, address=quoted(f"2001:db8::{n}"), namespaces="[]" if n == "d" else "[7]")
             for i, n in enumerate(NODES)]
    links = [dict(name=quoted(NODES[i:i + 2]), **{"from": quoted(NODES[i])}, to=quoted(NODES[i + 1]),
                  out_id=f"{i + 1}{i + 2}", in_id=f"{i + 2}{i + 1}", delay=1000, mtu=MTU[i],
                  **({"tap": quoted(NODES[i:i + 2] + ".pcap")} if i in (0, 2) else {})) for i in range(4)]
    ports = [dict(name=quoted("west"), node=quoted("a"), id=10, **{"in": quoted("west.pcap")}, out=quoted("west-out.pcap")),
             dict(name=quoted("east"), node=quoted("e"), id=50, out=quoted("east-out.pcap"))]
    ways = [(n, p, "link", NODES[i:i + 2]) for i, n in enumerate("abcd") for p in ("2001:db8::e/128", "2001:db8:2::/48")]
    ways += [("a", "2001:db8:3::/48", "link", "ab"), ("b", "2001:db8:3::/48", "link", "bc"),
             ("a", "2001:db8:1::/48", "port", "west"), ("e", "2001:db8:2::/48", "port", "east")]
    routes = [dict(node=quoted(n), prefix=quoted(p), **{way: quoted(to)}) for n, p, way, to in ways]
    flow = dict(name=quoted("f"), entry=quoted("a"), exit=quoted("e"), source=quoted("::/0"), target=quoted("2001:db8:2::/64"),
                namespace=7, hops=64, trace=hex(kind), capacity=capacity, edge="0x4000", direct="0x800000", every=4, flow_id=9)
    return (f"packets = {max(count, 1_000_000)}\n" + tables("node", *nodes) + tables("link", *links) + tables("port", *ports)
            + tables("route", *routes) + tables("flow", flow))


def readings(draw, count):
    """300 samples a node over the time of the traffic; the node b has none for its first tenth."""
    span = max(count // 1000, 1) * 10**9
    lines = []
    for i, n in enumerate(NODES):
        first = START * 10**9 + (span // 10 if n == "b" else -10**9)
        for k in range(300):
            time = first + span * k // 300
            values = [draw.randrange(most) if draw.random() >= 0.1 else "-" for most in (3 * 10**9, 1000, 10**6)]
            lines.append((time, i, f"{n} {time} {time + 37 * 10**9 + i} {values[0]} {values[1]} {values[2]}\n"))
    return "".join(line for _, _, line in sorted(lines))


def kinds():
    """What arrives: in how many of a thousand, and its octets by its data, with the frame's length where that differs."""
    plain = "2001:db8:2:1::5"
    alert = (0x1E, bytes(6))
    traced = (0x31, struct.pack(">BBHHI", 0, 0, 7, 2 << 11, 0xC00000 << 8) + bytes(16))
    broken = bytearray(options(17, alert))
    broken[5] = 40

    def of(target=None, hops=64, traffic_class=0, next_header=17, front=b"", cut=0, less=0):
        def make(data):
            octets = packet(front + udp(data), next_header, target or "2001:db8:2::5", hops, traffic_class)
            return octets[:len(octets) - less], len(octets) + cut if cut else None
        return make

    def nested(data):
        return packet(packet(options(17, traced) + udp(data), 0), 41), None

    return [(350, of()), (150, of(hops=57, traffic_class=0xB8)), (110, of(next_header=0, front=options(17))),
            (100, of(next_header=0, front=options(17, alert))), (10, of(next_header=60, front=options(17, (4, b"\3")))),
            (20, of(hops=2)), (3, of(next_header=60, front=options(17, (4, b"\0")))),
            (7, lambda data: (packet(udp(bytes(1500)), 17), None)), (150, of(target=plain)),
            (20, of(target=plain, next_header=0, front=options(17, alert))), (15, of(target="2001:db8:1::9")),
            (8, of(target="2001:db8::c")), (6, of(target="2001:db8:9::1")), (5, of(target="2001:db8:3::1")), (7, of(hops=1)),
            (8, of(target=plain, hops=4)), (7, of(next_header=0, front=bytes(broken))),
            (7, of(next_header=0, front=options(17, traced))), (4, nested), (4, lambda data: (b"\x45" + udp(data), None)),
            (5, of(cut=12)), (4, of(less=4))]


def main(folder, count="1000000", kind="0xc00000", capacity="10"):
    draw = random.Random(7)
    count, kind, capacity = int(count), int(kind, 0), int(capacity)
    os.makedirs(folder, exist_ok=True)
    with open(folder + "/domain.toml", "w") as out:
        out.write(domain(count, kind, capacity))
    with open(folder + "/readings", "w") as out:
        out.write(readings(draw, count))
    sizes = [0, 12, 26, 52, 120, 300, 540, 800, 1200, 1372]
    data = [draw.randbytes(size) for size in sizes]
    shares = kinds()
    made = [[make(d) for d in data] for _, make in shares]
    which = draw.choices(range(len(shares)), weights=[share for share, _ in shares], k=count)
    long = draw.choices(range(10), k=count)
    with open(folder + "/west.pcap", "wb", buffering=1 << 20) as out:
        out.write(struct.pack(">IHHIIII", 0xA1B23C4D, 2, 4, 0, 0, 262144, 101))
        for i in range(count):
            octets, frame = made[which[i]][long[i]]
            out.write(struct.pack(">IIII", START + i // 1000, i % 1000 * 1_000_000, len(octets), frame or len(octets)) + octets)


main(*sys.argv[1:])
