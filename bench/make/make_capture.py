#!/usr/bin/env python3
"""make_capture.py FILE [COUNT]: a capture of IPv6 packets to measure with.

Raw IP (link type 101), big-endian, nanoseconds. The sizes are mixed; every other packet has a
Hop-by-Hop Options header: in turn one with a pre-allocated IOAM trace of two nodes (RFC 9197
section 4.4), one with padding alone, and one with another option (type 0x1e). The same COUNT gives
the same file.
"""
import random
import struct
import sys

SOURCE = bytes.fromhex("20010db8000100000000000000000001")
TARGET = bytes.fromhex("20010db8000200000000000000000001")
SIZES = [0, 12, 26, 52, 120, 300, 540, 800, 1200, 1372]
WEIGHTS = [8, 8, 10, 10, 10, 12, 12, 10, 10, 10]

# next header 17, length in units of 8 octets past the first 8, and the options
TRACE = bytes.fromhex(
    "1104" "0100" "3122" "0000" "0007" "1002" "c00000" "00"
    + "00" * 8 + "3f000002" "00150017" "40000001" "000a000c")
PADDING = bytes.fromhex("1100" "010400000000")
OTHER = bytes.fromhex("1101" "0100" "1e06" "000102030405" "01020000")


def with_header(payload, number, options):
    """A packet whose flow label is its number."""
    following = 0 if options else 17
    first = 6 << 28 | number & 0xFFFFF
    rest = options + payload
    return struct.pack(">IHBB", first, len(rest), following, 64) + SOURCE + TARGET + rest


def main(path, count):
    draw = random.Random(7)
    payloads = [struct.pack(">HHHH", 1024, 4740, 8 + size, 0) + draw.randbytes(size) for size in SIZES]
    chosen = draw.choices(range(len(SIZES)), weights=WEIGHTS, k=count)
    headers = [TRACE, PADDING, OTHER]
    for header in headers:
        assert len(header) == (header[1] + 1) * 8
    with open(path, "wb", buffering=1 << 20) as out:
        out.write(struct.pack(">IHHIIII", 0xA1B23C4D, 2, 4, 0, 0, 262144, 101))
        for number, size in enumerate(chosen):
            options = b"" if number % 2 == 0 else headers[number // 2 % 3]
            packet = with_header(payloads[size], number, options)
            seconds, fraction = 1700000000 + number // 1000, number % 1000 * 1000000
            out.write(struct.pack(">IIII", seconds, fraction, len(packet), len(packet)) + packet)


if __name__ == "__main__":
    main(sys.argv[1], int(sys.argv[2]) if len(sys.argv) > 2 else 1000000)
