#!/usr/bin/env python3
"""make_plot.py FOLDER

The example of examples/plot: READINGS and west.pcap for its domain. 200 packets come in four seconds, most of them for the flow whose
path goes through b; of those that come to b between 1.2 and 2.6 seconds it writes a transit delay of up to 2.5 milliseconds."""
import math
import os
import random
import struct
import sys

START, SECOND, MILLISECOND, MICROSECOND = 1_700_000_000 * 10**9, 10**9, 10**6, 10**3
LAST, BETWEEN, READ = 4 * SECOND, 20 * MILLISECOND, 50 * MILLISECOND
# the flows' targets, each as often as its path is taken
TARGETS = [2] * 12 + [3] * 5 + [4] * 3


def readings(dice):
    """The clocks agree; each node says a transit delay, which delays no packet of `run`."""
    lines = []
    for at in range(0, LAST, READ):
        queue = max(0.0, math.sin((at / SECOND - 1.2) / 1.4 * math.pi)) if 1.2 <= at / SECOND <= 2.6 else 0.0
        for node in "abcde":
            wait = dice.randrange(40, 80) + (round(2400 * queue) + dice.randrange(60) if node == "b" else 0)
            lines.append(f"{node} {START + at} {START + at} {wait * MICROSECOND} - -\n")
    return "".join(lines)


def packet(network):
    """A packet of UDP without data for a flow's network."""
    addresses = bytes.fromhex("20010db8000100000000000000000001") + bytes.fromhex(f"20010db8000{network}0000") + bytes(7) + b"\5"
    return struct.pack(">IHBB", 6 << 28, 8, 17, 64) + addresses + struct.pack(">HHHH", 4000, 5000, 8, 0)


def main(folder):
    dice = random.Random(5)
    with open(os.path.join(folder, "readings"), "w", encoding="ascii") as out:
        out.write(readings(dice))
    with open(os.path.join(folder, "west.pcap"), "wb") as out:
        out.write(struct.pack(">IHHIIII", 0xA1B23C4D, 2, 4, 0, 0, 262144, 101))
        for at in range(START, START + LAST, BETWEEN):
            octets = packet(dice.choice(TARGETS))
            out.write(struct.pack(">IIII", at // SECOND, at % SECOND, len(octets), len(octets)) + octets)


main(*sys.argv[1:])
