#!/usr/bin/env python3
"""Writes suite.pcap and suite.md: IPv6 packets of which each asks one rule of RFC 9197 section 4.4 or RFC 9486 of a router on
their way, told apart by flow label, and a line for each of them.

    make_suite.py FOLDER [ROUTER_MAC [SENDER TARGET]]

FOLDER gets both files. ROUTER_MAC is the Ethernet address to which the frames go, SENDER and TARGET are the IPv6 addresses of
the packets. The octets come from the tables of the RFCs by layout.py, and nothing else is read.
"""

import ipaddress
import os
import re
import sys

sys.dont_write_bytecode = True
import vectors
from frames import refuse
from layout import NOTHING, Way

MAGIC_NANOSECONDS, ETHERNET, MOST_CAPTURED = 0xA1B23C4D, 1, 262144
TEXT = """# The vectors of the suite

Written by make_suite.py. A vector's number is the flow label of its packet. The router is to know the namespaces 0, 7 and 123,
and none else. It may drop any packet; one that it sends has the hop limit lowered by one, and all other octets as they came
but for what the last column says. RFC 8200 asks nobody to look at Hop-by-Hop options; a router that takes part in IOAM does.
Where the third column says "our reading", that section says nothing of the case, and the last column is what we make of it:
another answer there needn't be wrong.

| Vector | What it is | RFC | The router, if it sends it |
|---|---|---|---|
"""


class Suite:
    """The packets so far, and what is said of each."""

    def __init__(self, way):
        self.way, self.packets, self.lines = way, [], []

    def label(self):
        """The number of the next vector."""
        return len(self.packets) + 1

    def add(self, what, rfc, may, following=NOTHING, payload=b"", **fields):
        """Adds one packet."""
        self.lines.append(f"| {self.label()} | {what} | {rfc} | {may} |\n")
        self.packets.append(self.way.packet(self.label(), following, payload, **fields))

    def capture(self):
        """All of them as a classic capture of Ethernet frames, a millisecond apart."""
        octets = b"".join(value.to_bytes(size, "big") for value, size in (
            (MAGIC_NANOSECONDS, 4), (2, 2), (4, 2), (0, 4), (0, 4), (MOST_CAPTURED, 4), (ETHERNET, 4)))
        for place, packet in enumerate(self.packets):
            frame = self.way.ethernet + packet
            octets += b"".join(value.to_bytes(4, "big") for value in (1, place * 10**6, len(frame), len(frame))) + frame
        return octets


def main(words):
    if not 1 <= len(words) <= 4 or len(words) == 3:
        sys.exit(__doc__)
    folder, router_mac, source, target = words + ["02:00:00:00:00:02", "2001:db8:10::1", "2001:db8:20::1"][len(words) - 1:]
    if not re.fullmatch("([0-9a-fA-F]{2}:){5}[0-9a-fA-F]{2}", router_mac):
        refuse(f"{router_mac} is no Ethernet address")
    for address in (source, target):
        try:
            ipaddress.IPv6Address(address)
        except ValueError:
            refuse(f"{address} is no IPv6 address")
    suite = Suite(Way(source, target, router_mac, "02:00:00:00:00:01"))
    for group in vectors.GROUPS:
        group(suite)
    try:
        os.makedirs(folder, exist_ok=True)
        for name, octets in (("suite.pcap", suite.capture()), ("suite.md", (TEXT + "".join(suite.lines)).encode())):
            with open(os.path.join(folder, name), "wb") as file:
                file.write(octets)
    except OSError as fault:
        refuse(f"{fault.filename}: {fault.strerror}")
    return 0


if __name__ == "__main__":
    sys.exit(main(sys.argv[1:]))
