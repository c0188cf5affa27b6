#!/usr/bin/env python3
"""Sends the frames of a classic capture of Ethernet by a raw socket (Linux, as root).

    send.py INTERFACE ROUTER_MAC CAPTURE

Each frame goes to ROUTER_MAC from the address of INTERFACE, 2 ms apart, whatever stands in the capture.
"""

import re
import socket
import sys
import time

sys.dont_write_bytecode = True
from frames import ETHERNET, frames, refuse


def main(words):
    if len(words) != 3:
        sys.exit(__doc__)
    interface, router_mac, capture = words
    if not re.fullmatch("([0-9a-fA-F]{2}:){5}[0-9a-fA-F]{2}", router_mac):
        refuse(f"{router_mac} is no Ethernet address")
    octets, link, places = frames(capture)
    if link != ETHERNET:
        refuse(f"{capture} is of link type {link}; this sends frames of Ethernet")
    try:
        with socket.socket(socket.AF_PACKET, socket.SOCK_RAW) as out:
            out.bind((interface, 0))
            addresses = bytes.fromhex(router_mac.replace(":", "")) + out.getsockname()[4]
            for start, end in places:
                out.send(addresses + octets[start + len(addresses):end])
                time.sleep(0.002)
    except OSError as fault:
        refuse(f"{interface}: {fault.strerror}")
    return 0


if __name__ == "__main__":
    sys.exit(main(sys.argv[1:]))
