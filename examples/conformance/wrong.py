#!/usr/bin/env python3
"""Makes captures of routers that are wrong on purpose, out of what a right one sent.

    wrong.py RIGHT FOLDER

RIGHT is a classic capture of what a right router sent of suite.pcap, as `ioam node` or tcpdump writes it. FOLDER gets one capture
for each mistake, wrong at one vector; the mistake, the vector and how many packets were changed are printed.
"""

import os
import re
import sys

sys.dont_write_bytecode = True
from frames import ETHERNET, ETHERNET_HEAD, IP_LINKS, frames, read, refuse

AREA = 56  # where the words of a trace begin, if it is the first option: its head has 8 octets in front of them


def at_element(packet):
    """Where the newest element begins: behind the free words."""
    return AREA + 4 * (packet[51] & 127)


def another_id(packet):
    """Another node's id (bit 0)."""
    packet[at_element(packet) + 3] += 1


def hop_limit(packet):
    """The hop limit as it came, in place of that with which the packet is sent (bit 0)."""
    packet[at_element(packet)] += 1


def behind_older(packet):
    """The new element behind the older one, in place of in front of it."""
    at = at_element(packet)
    packet[at:at + 8] = packet[at + 4:at + 8] + packet[at:at + 4]


def after_overflow(packet):
    """An element though Overflow is set."""
    packet[51] -= 1
    packet[at_element(packet):at_element(packet) + 4] = bytes([packet[7], 0, 0, 77])


MISTAKES = (("another-id", "bits 0 and 1", another_id), ("hop-limit", "three free words for elements of two", hop_limit),
            ("behind-older", "three free words in front of one older element", behind_older),
            ("after-overflow", "Overflow set, with room", after_overflow))


def numbers():
    """The number of each vector by what it is."""
    text = read(os.path.join(os.path.dirname(os.path.abspath(__file__)), "suite.md")).decode()
    return {match[2]: int(match[1]) for match in re.finditer(r"^\| (\d+) \| ([^|]+) \|", text, re.MULTILINE)}


def spoiled(capture, places, vector, mistake):
    """The capture with a mistake in the packets of one vector, and how many these are."""
    octets, count = bytearray(capture), 0
    for start, end in places:
        if end - start > AREA and octets[start] >> 4 == 6 and int.from_bytes(octets[start + 1:start + 4], "big") & 0xFFFFF == vector:
            packet = octets[start:end]
            mistake(packet)
            octets[start:end] = packet
            count += 1
    return octets, count


def main(words):
    if len(words) != 2:
        sys.exit(__doc__)
    right, folder = words
    capture, link, places = frames(right)
    if link != ETHERNET and link not in IP_LINKS:
        refuse(f"{right} is of link type {link}; this reads 1 (Ethernet), 101 and 229 (IP)")
    skip = ETHERNET_HEAD if link == ETHERNET else 0
    vectors = numbers()
    try:
        os.makedirs(folder, exist_ok=True)
        for name, what, mistake in MISTAKES:
            octets, count = spoiled(capture, [(start + skip, end) for start, end in places], vectors[what], mistake)
            if count == 0:
                refuse(f"{right} has no packet of vector {vectors[what]}")
            with open(os.path.join(folder, name + ".pcap"), "wb") as file:
                file.write(octets)
            print(name, vectors[what], count)
    except OSError as fault:
        refuse(f"{fault.filename}: {fault.strerror}")
    return 0


if __name__ == "__main__":
    sys.exit(main(sys.argv[1:]))
