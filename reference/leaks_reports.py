"""What `leaks` writes: the packets that show IOAM data, a line for each that shows or hides some, and the sums."""

import ipaddress

from faults_reach import reached
from foreign_packets import frame_of, number
from ng_captures import CLASSIC_HEAD, classic_record

IOAM = (0x11, 0x31)  # RFC 9486 section 3
OPTIONS, ROUTING, FRAGMENT, NESTED = (0, 60), 43, 44, 41
ENDS = {50: "esp", 51: "ah", 44: "fragment"}
MOST_FLOWS, MOST_SHOWN = 65536, 64


def look(options, whole):
    """Whether a header's octets (those that are there) show an IOAM option, and whether options fill them."""
    place = 2
    while place < len(options):
        kind = options[place]
        size = 1 if kind == 0 else 2 + (options[place + 1] if place + 1 < len(options) else 256)
        fits = place + size <= len(options)
        if kind in IOAM and (fits or not whole):
            return True, False
        if not fits:
            return False, False
        place += size
    return False, True


def walk(octets, value, place, whole):
    """Follows headers from a place on, up to the end or a break: whether an IOAM option shows, and the value and place of
    the end, or None where a header breaks the chain."""
    behind_ipv6 = place == 40 and whole
    shown = False
    while True:
        left = octets[place:]
        if value in OPTIONS + (ROUTING,):
            size = (left[1] + 1) * 8 if len(left) >= 2 else None
            there = size is not None and size <= len(left)
            filled = True
            if value in OPTIONS:
                found, filled = look(left[:size] if size else left, whole)
                shown = shown or found
                if found and there:
                    filled = options_fill(left[:size])
            if not there or not filled or (value == 0 and not behind_ipv6):
                return shown, None
            value, place, behind_ipv6 = left[0], place + size, False
        elif value == FRAGMENT:
            if len(left) < 8:
                return shown, None
            if number(left, 2, 2) >> 3:
                return shown, (value, place)
            value, place, behind_ipv6 = left[0], place + 8, False
        elif value == NESTED:
            if len(left) < 40 or left[0] >> 4 != 6:
                return shown, None
            value, place, behind_ipv6 = left[6], place + 40, True
        else:
            return shown, (value, place)


def options_fill(options):
    """Whether options and paddings fill a header exactly (RFC 8200 section 4.2)."""
    place = 2
    while place < len(options):
        if options[place] == 0:
            place += 1
        elif place + 1 < len(options):
            place += 2 + options[place + 1]
        else:
            return False
    return place == len(options)


def finding(packet):
    """What a packet shows: carries, quotes, hidden and why, or clean."""
    shown, end = walk(packet, packet[6], 40, True)
    if shown:
        return ("carries",)
    if end is None:
        return ("hidden", "chain")
    value, place = end
    if value == 58 and len(packet) >= place + 8 and packet[place] < 128:
        # What an error quotes begins with an IPv6 header, and may end anywhere.
        if walk(packet, NESTED, place + 8, False)[0]:
            return ("quotes",)
    return ("hidden", ENDS[value]) if value in ENDS else ("clean",)


def leaks(arrivals):
    """OUT and REPORT of `leaks`."""
    out, text, flows, others = [CLASSIC_HEAD], [], {}, 0
    counts = dict.fromkeys(("clean", "carries", "quotes", "hidden"), 0)
    unseen = dict.fromkeys(("not-ipv6", "cut", "length"), 0)
    for place, arrival in enumerate(arrivals, 1):
        reason, packet = frame_of(arrival.ethernet, arrival.original, arrival.octets)
        if reason is not None:
            unseen[reason] += 1
            continue
        found = finding(packet)
        reached("leaks: " + " ".join(found))
        counts[found[0]] += 1
        if found[0] == "clean":
            continue
        source, target = number(packet, 8, 16), number(packet, 24, 16)
        text.append(f"{place} {' '.join(found)} {address(source)} {address(target)}\n")
        if found[0] == "hidden":
            continue
        out.append(classic_record(arrival.time, packet))
        flow = (source, target, found[0])
        if flow in flows or len(flows) < MOST_FLOWS:
            flows[flow] = flows.get(flow, 0) + 1
        else:
            others += 1
    ranked = sorted(flows.items(), key=lambda item: (-item[1], item[0]))
    for (source, target, how), count in ranked[:MOST_SHOWN]:
        text.append(f"flow {count} {how} {address(source)} {address(target)}\n")
    others += sum(count for _, count in ranked[MOST_SHOWN:])
    if others:
        text.append(f"flows others {others}\n")
    text.extend(f"unseen {count} {reason}\n" for reason, count in unseen.items() if count)
    sums = " ".join(f"{word} {count}" for word, count in counts.items())
    text.append(f"packets {len(arrivals)} {sums} unseen {sum(unseen.values())}\n")
    return b"".join(out), "".join(text).encode()


def address(value):
    """The text of an address (RFC 5952); an IPv4-mapped one ends with its IPv4 address (section 5)."""
    ip = ipaddress.IPv6Address(value)
    return f"::ffff:{ip.ipv4_mapped}" if ip.ipv4_mapped is not None else ip.compressed
