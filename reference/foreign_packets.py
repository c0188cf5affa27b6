"""IPv6 packets from anywhere: what a frame holds, and the chain of headers (RFC 8200 sections 3 and 4)."""

from faults_reach import reached

HOP_BY_HOP, NESTED, ROUTING, FRAGMENT, DESTINATION = 0, 41, 43, 44, 60
IOAM = (0x11, 0x31)  # RFC 9486 section 4: the data don't change on the way, or may change


def number(octets, place, count):
    """The big-endian number of so many octets at a place."""
    return int.from_bytes(octets[place:place + count], "big")


def frame_of(ethernet, original, frame):
    """What a frame holds: the reason for which it holds no packet, or None and the packet."""
    rest = frame
    if ethernet:
        if len(frame) < 14:
            reached("frame: no Ethernet header")
            return "not-ipv6", b""
        if frame[12:14] != b"\x86\xdd":
            reached("frame: other Ethertype")
            return "not-ipv6", b""
        rest = frame[14:]
    if len(rest) == 0 or rest[0] >> 4 != 6:
        reached("frame: empty" if len(rest) == 0 else "frame: other version")
        return "not-ipv6", b""
    if len(frame) < original:
        return "cut", b""
    if len(rest) < 40:
        reached("frame: shorter than a header")
        return "length", b""
    end = 40 + number(rest, 4, 2)
    if len(rest) < end:
        reached("frame: shorter than its payload")
        return "length", b""
    if len(rest) > end:
        reached("frame: padded")
    return None, rest[:end]


def options_of(octets, start, end):
    """The options between two places (RFC 8200 section 4.2): type, place and data of each but paddings; None where they
    don't fill that space."""
    found, place = [], start
    while place < end:
        if octets[place] == 0:
            place += 1
            continue
        if place + 2 > end:
            reached("options: no length octet")
            return None
        after = place + 2 + octets[place + 1]
        if after > end:
            reached("options: past the header")
            return None
        if octets[place] != 1:
            found.append((octets[place], place, octets[place + 2:after]))
        place = after
    return found


def chain_of(packet):
    """The headers behind which the chain goes on: value, start, end and options of each; None where the chain isn't
    whole."""
    heads, value, place, behind_ipv6 = [], packet[6], 40, True
    while value in (HOP_BY_HOP, NESTED, ROUTING, FRAGMENT, DESTINATION):
        left = len(packet) - place
        if value == NESTED:
            if left < 40 or packet[place] >> 4 != 6:
                reached("chain: nested " + ("cut" if left < 40 else "of another version"))
                return None
            heads.append((value, place, place + 40, []))
            value, place, behind_ipv6 = packet[place + 6], place + 40, True
            continue
        if value == HOP_BY_HOP and not behind_ipv6:
            reached("chain: Hop-by-Hop elsewhere")
            return None
        if left < 8:
            reached(f"chain: {value} cut")
            return None
        end = place + (8 if value == FRAGMENT else (packet[place + 1] + 1) * 8)
        if end > len(packet):
            reached(f"chain: {value} past the packet")
            return None
        if value == FRAGMENT and number(packet, place + 2, 2) >> 3 != 0:
            reached("chain: ends at a fragment")
            return heads
        options = []
        if value in (HOP_BY_HOP, DESTINATION):
            options = options_of(packet, place + 2, end)
            if options is None:
                return None
        reached(f"chain: through {value}" + (" of 1,024 octets and more" if end - place >= 1024 else ""))
        heads.append((value, place, end, options))
        value, place, behind_ipv6 = packet[place], end, False
    return heads


def judged(arrival):
    """The first of the four reasons that every command looks for, or None, with the packet and its chain."""
    reason, packet = frame_of(arrival.ethernet, arrival.original, arrival.octets)
    chain = None
    if reason is None:
        chain = chain_of(packet)
        if chain is None:
            reason = "chain"
    reached(f"judged: {reason}")
    return reason, packet, chain


def ioam_options(chain):
    """Every IOAM option on the chain, nested headers included."""
    return [option for head in chain for option in head[3] if option[0] in IOAM]


def outer_options(chain):
    """The IOAM options in front of any nested IPv6 header."""
    found = []
    for value, _, _, options in chain:
        if value == NESTED:
            break
        found.extend(option for option in options if option[0] in IOAM)
    return found


def hop_options(chain):
    """The IOAM options of the Hop-by-Hop Options header that follows the outer IPv6 header."""
    if not chain or chain[0][0] != HOP_BY_HOP:
        return []
    return [option for option in chain[0][3] if option[0] in IOAM]
