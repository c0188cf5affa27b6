"""Where the packets of a classic capture stand, in microseconds or nanoseconds and in either octet order."""

import sys

HEAD, RECORD, ETHERNET, ETHERNET_HEAD, IP_LINKS = 24, 16, 1, 14, (101, 229)
ORDERS = {bytes.fromhex(magic): order for magic, order in
          (("a1b2c3d4", "big"), ("a1b23c4d", "big"), ("d4c3b2a1", "little"), ("4d3cb2a1", "little"))}
PCAPNG = bytes.fromhex("0a0d0d0a")


def refuse(why):
    """Ends the script with a sentence in place of a traceback."""
    sys.exit(f"{sys.argv[0].rsplit('/', 1)[-1]}: {why}")


def read(path):
    """The octets of a file."""
    try:
        with open(path, "rb") as file:
            return file.read()
    except OSError as fault:
        refuse(f"{path}: {fault.strerror}")


def frames(path):
    """The octets of a capture, its link type, and of each frame where it begins and where it ends."""
    octets = read(path)
    order = ORDERS.get(octets[:4])
    if octets[:4] == PCAPNG:
        refuse(f"{path} is a pcapng; this reads the classic form (tcpdump -r {path} -w classic.pcap writes it)")
    if order is None or len(octets) < HEAD:
        refuse(f"{path} is no classic capture")
    link, places, place = int.from_bytes(octets[20:HEAD], order) & 0xFFFF, [], HEAD
    while place < len(octets):
        start = place + RECORD
        end = start + int.from_bytes(octets[place + 8:place + 12], order)
        if end > len(octets) or start > len(octets):
            refuse(f"{path} ends within the record at octet {place}")
        places.append((start, end))
        place = end
    return octets, link, places
