#!/usr/bin/env python3
"""Makes export records of type 0x800000 (RFC 9326 section 3.2) for bench/speed/collect.sh, into the current folder:

    make_exports.py COUNT KEYS

`exports`: COUNT records over KEYS keys in random order, hop values falling from 64 within a key, one in sixteen the version 1
record of another one of its key, one in sixteen a repeat. `rising`, `falling` and `random`: COUNT different records of one key,
in the order of REPORT, the other way round and shuffled. `lines`: the records of `exports` in hexadecimal digits, one a line.
"""
import random
import struct
import sys


def bare(namespace, flow, seq, hop, node):
    """The octets of a record of version 1."""
    return struct.pack(">BBHHB3sIIBBH", 1, 0xC0, 22, namespace, 0, b"\x80\0\0", flow, seq, hop, 0, node)


def visited(namespace, flow, seq, hop, node, time, interface):
    """The same with a visit: version 2."""
    front = struct.pack(">BBHHB3sQI", 2, 0xC0, 34, namespace, 0, b"\x80\0\0", time, interface)
    return front + struct.pack(">IIBBH", flow, seq, hop, 0, node)


def over_keys(count, keys, dice):
    records, made = [], [0] * keys
    for i in range(count):
        key = i % keys
        kind = dice.randrange(16) if made[key] else 2
        if kind < 2:
            hop = dice.randrange(made[key])
        else:
            hop = made[key]
            made[key] += 1
        place = (7 + key % 3, key // 3 % 5, key // 15, 64 - hop, hop + 1)
        time = 1700000000000000000 + place[2] * 1000000 + hop * 1000
        records.append(bare(*place) if kind == 0 else visited(*place, time, 10 * hop + 10))
    dice.shuffle(records)
    return records


def of_one(count):
    """Different records of one key, in the order of REPORT."""
    return [visited(7, 1, 1, 255 - i * 190 // count, i % 60000 + 1, 1700000000000000000 + i, i) for i in range(count)]


def write(name, records):
    with open(name, "wb") as file:
        file.write(b"".join(records))


count, keys = int(sys.argv[1]), int(sys.argv[2])
dice = random.Random(7)
exports = over_keys(count, keys, dice)
write("exports", exports)
with open("lines", "w") as lines:
    lines.write("".join(record.hex() + "\n" for record in exports))
one = of_one(count)
write("rising", one)
write("falling", one[::-1])
dice.shuffle(one)
write("random", one)
