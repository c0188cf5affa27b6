#!/usr/bin/env python3
"""make_line.py FOLDER COUNT NODES TRACE CAPACITY [direct] [snapshot=WORDS]

A line of NODES nodes with a flow from the first to the last, and COUNT packets of 48 octets for it, for bench/speed/long.sh:
domain.toml, readings and west.pcap in FOLDER. TRACE 0 leaves the trace out; `direct` exports from each packet; with a
snapshot each node has data of so many words."""
import os
import struct
import sys


def table(table_name, **keys):
    return f"[[{table_name}]]\n" + "".join(f"{key.rstrip('_')} = {value}\n" for key, value in keys.items())


def main(folder, count, nodes, kind, capacity, *more):
    count, nodes, kind, capacity = int(count), int(nodes), int(kind, 0), int(capacity)
    words = next((int(word.split("=")[1]) for word in more if word.startswith("snapshot=")), None)
    text = "packets = 16777216\n"
    for n in range(1, nodes + 1):
        text += table("node", name=f'"n{n}"', id=n, address=f'"2001:db8::{n:x}"', namespaces="[7]")
    for n in range(1, nodes):
        text += table("link", name=f'"l{n}"', from_=f'"n{n}"', to=f'"n{n + 1}"', out_id=2, in_id=1, delay=1000, mtu=1500)
        text += table("route", node=f'"n{n}"', prefix=f'"2001:db8::{nodes:x}/128"', link=f'"l{n}"')
    text += table("port", name='"west"', node='"n1"', id=1, in_='"west.pcap"', out='"null1"')
    text += table("port", name='"east"', node=f'"n{nodes}"', id=2, out='"null2"')
    text += table("route", node=f'"n{nodes}"', prefix='"2001:db8:2::/48"', port='"east"')
    if words is not None:
        for n in range(1, nodes + 1):
            text += table("data", node=f'"n{n}"', namespace=7, short=n, wide=n, schema=5, snapshot='"' + "00112233" * words + '"')
    flow = dict(name='"f"', entry='"n1"', exit=f'"n{nodes}"', source='"::/0"', target='"2001:db8:2::/48"', namespace=7, hops=255)
    if kind:
        flow.update(trace=hex(kind), capacity=capacity)
    if "direct" in more:
        flow.update(direct=hex(kind or 0x800000), every=1, flow_id=9)
    text += table("flow", **flow)
    os.makedirs(folder, exist_ok=True)
    with open(folder + "/domain.toml", "w") as out:
        out.write(text)
    with open(folder + "/readings", "w") as out:
        out.write("".join(f"n{n} 0 1000000000 250 3 4096\n" for n in range(1, nodes + 1)))
    packet = bytes.fromhex("6000000000081140 20010db8000100000000000000000001 20010db8000200000000000000000001 0400040100080000")
    with open(folder + "/west.pcap", "wb") as out:
        out.write(struct.pack(">IHHIIII", 0xA1B23C4D, 2, 4, 0, 0, 262144, 101))
        for k in range(count):
            out.write(struct.pack(">IIII", k // 1000000, k % 1000000 * 1000, 48, 48) + packet)


main(*sys.argv[1:])
