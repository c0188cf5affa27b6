#!/usr/bin/env python3
"""Sends three packets with an IOAM trace that a router answers by ICMPv6 errors (Linux, as root).

    errors.py INTERFACE ROUTER_MAC

A UDP packet for a closed port of the router, one whose hop limit expires, and one that is too big for the next link, each with a
pre-allocated trace of namespace 0 in Hop-by-Hop Options (RFC 9197 section 4.4, RFC 9486 section 3), 20 ms apart.
"""

import socket
import struct
import sys
import time

SOURCE, ROUTER, BEHIND = (socket.inet_pton(socket.AF_INET6, text) for text in ("2001:db8:10::1", "2001:db8:10::2", "2001:db8:20::1"))
UDP = 17
# Hop-by-Hop Options of 24 octets: PadN, and a trace of namespace 0 and type 0xc00000 (hop limit and node, interfaces) with room
# for one node, of 8 octets.
TRACE = bytes([UDP, 2, 1, 0]) + bytes.fromhex("3112 0000 0000 1002 c00000 00") + bytes(8)


def checksum(octets):
    """The Internet checksum (RFC 1071)."""
    total = sum(struct.unpack(f"!{len(octets) // 2}H", octets))
    while total >> 16:
        total = (total & 0xffff) + (total >> 16)
    return total ^ 0xffff


def packet(target, hops, size):
    """A UDP packet for port 9 with so many octets of data, behind the trace."""
    data = bytes(size)
    head = struct.pack("!HHHH", 4000, 9, 8 + size, 0)
    pseudo = SOURCE + target + struct.pack("!II", 8 + size, UDP)
    udp = head[:6] + struct.pack("!H", checksum(pseudo + head + data) or 0xffff) + data
    return struct.pack("!IHBB", 6 << 28, len(TRACE) + len(udp), 0, hops) + SOURCE + target + TRACE + udp


def main(words):
    if len(words) != 2:
        sys.exit(__doc__)
    interface, router_mac = words
    with socket.socket(socket.AF_PACKET, socket.SOCK_RAW) as out:
        out.bind((interface, 0))
        head = bytes.fromhex(router_mac.replace(":", "")) + out.getsockname()[4] + b"\x86\xdd"
        for one in (packet(ROUTER, 64, 16), packet(BEHIND, 1, 16), packet(BEHIND, 64, 1400)):
            out.send(head + one)
            time.sleep(0.02)
    return 0


if __name__ == "__main__":
    sys.exit(main(sys.argv[1:]))
