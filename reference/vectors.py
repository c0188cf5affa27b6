#!/usr/bin/env python3
"""Prints a line of JSON for each packet of a capture, by the reference: vectors for whoever decodes IOAM.

    reference/vectors.py [CAPTURE]

CAPTURE is the suite of examples/conformance if none is given. Packets are numbered in order, which in the suite is their flow label. A
line has `vector`, `packet` (its octets in hexadecimal digits) and `options`: of each IOAM option its `type`, `offset`, `data` and
`text`, the lines that `show` prints of it. A packet that isn't read has `skip` in place of `options`.
"""
import json
import os
import sys

from rules import header_chain, option_text, options_of_chain, packet_of_frame, read_capture

SUITE = os.path.join(os.path.dirname(os.path.abspath(__file__)), "..", "examples", "conformance", "suite.pcap")


def vector(number, arrival):
    """What is known of one packet."""
    skip, packet = packet_of_frame(arrival.ethernet, arrival.original, arrival.octets)
    chain = None if skip else header_chain(packet)
    known = {"vector": number, "packet": packet.hex()}
    if chain is None:
        return {**known, "skip": skip or "chain"}
    options = [{"type": kind, "offset": at, "data": data.hex(), "text": option_text(data).splitlines()}
               for kind, at, data in options_of_chain(chain)]
    return {**known, "options": options}


def main():
    path = sys.argv[1] if len(sys.argv) > 1 else SUITE
    with open(path, "rb") as file:
        arrivals, fault = read_capture(file.read())
    for number, arrival in enumerate(arrivals, 1):
        print(json.dumps(vector(number, arrival)))
    return 1 if fault else 0


if __name__ == "__main__":
    sys.exit(main())
