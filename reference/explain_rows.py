"""Reasons worked out by hand, over which the rules of `explain.py` are tried; and random pairs, over which they are compared with
what `audit_packets.py` says is legal."""

import random
import sys

import audit_random
from audit_packets import Audit, Seat
from explain import why
from explain_report import Explained
from faults_domain import read_domain
from foreign_packets import judged, number
from foreign_random import Aim, frame
from hand_line import LINE as DOMAIN
from ng_captures import Arrival, read_capture

SOURCE, TARGET = "20010db8000100000000000000000001", "20010db8000200000000000000000001"
UDP = "0400040100080000"
WORD, FILLED = "0007 0801 800000 00 00000000", "0007 0800 800000 00 3f000002"
THREE = "0007 0803 800000 00 00000000 00000000 00000000"
FULL, SNAPSHOT = "0007 0800 800000 00", "0007 0803 800002 00 00000000 00000000 00000000"
ROOM = "0007 1002 800800 00 00000000 00000000"


def packet(hops, data, first=0x60000000, option="31"):
    """A packet with a Hop-by-Hop Options header of one trace."""
    octets = bytes.fromhex(data.replace(" ", ""))
    options = bytes.fromhex("0100" + option) + bytes([len(octets) + 2, 0, 0]) + octets
    pad = -(len(options) + 2) % 8
    options += (b"", b"\0", *(bytes([1, size]) + bytes(size) for size in range(6)))[pad]
    header = bytes([17, (len(options) + 2) // 8 - 1]) + options + bytes.fromhex(UDP)
    return first.to_bytes(4, "big") + len(header).to_bytes(2, "big") + bytes([0, hops]) + bytes.fromhex(SOURCE + TARGET) + header


# Data before and after, hop limit 64 before and 63 after; the reason.
TRACES = (
    (WORD, FILLED, None),
    (WORD, "0007 0800 800000 00 40000002", "trace 1 hop-lim at 56 found 64 wanted 63 rfc 9197 4.4.2.1"),
    (WORD, "0007 0800 800000 00 3f000003", "trace 1 node-id at 57 found 3 wanted 2 rfc 9197 4.4.2.1"),
    (WORD, WORD, "trace 1 element-missing at 51 found 1 wanted 0 rfc 9197 4.4.1"),
    (WORD, "0007 0c01 800000 00 00000000", "trace 1 overflow-early at 50 found 1 wanted 0 rfc 9197 4.4.1"),
    (FULL, FULL, "trace 1 overflow-missing at 50 found 0 wanted 1 rfc 9197 4.4.1"),
    (FULL, "0007 0c00 800000 00", None),
    (THREE, "0007 0802 800000 00 3f000002 00000000 00000000", "trace 1 free-words at 56 found 3f wanted 00 rfc 9197 4.4.1"),
    ("0007 0801 800000 00 00000000 40000001", "0007 0800 800000 00 40000001 3f000002",
     "trace 1 older-elements at 60 found 3f wanted 40 rfc 9197 4.4.1"),
    (THREE, "0007 0801 800000 00 00000000 3f000002 3f000002", "trace 1 remaining-len at 51 found 1 wanted 2 rfc 9197 4.4.1"),
    ("0007 0c01 800000 00 00000000", "0007 0c00 800000 00 3f000002",
     "trace 1 left-overflow at 51 found 00 wanted 01 rfc 9197 4.4.1"),
    ("0009 0801 800000 00 00000000", "0009 0800 800000 00 3f000002", "trace 1 left-namespace at 51 found 00 wanted 01 rfc 9197 4.3"),
    ("0007 1001 800000 00 00000000", "0007 1000 800000 00 3f000002", "trace 1 left-node-len at 51 found 00 wanted 01 rfc -"),
    ("0007 0802 800000 00 00000000", "0007 0801 800000 00 3f000002", "trace 1 left-remaining-len at 51 found 01 wanted 02 rfc -"),
    ("0007 0001 000001 00 00000000", "0007 0000 000001 00 00000000", "trace 1 left-no-field at 51 found 00 wanted 01 rfc -"),
    ("0007 0801 800000 00 00000000 00", "0007 0800 800000 00 3f000002 00", "trace 1 left-part-word at 51 found 00 wanted 01 rfc -"),
    (WORD, "0007 0900 800000 00 3f000002", "trace 1 flags at 50 found 2 wanted 0 rfc 9197 4.4.1"),
    (WORD, "0007 0880 800000 00 3f000002", "trace 1 flags at 50 found 1 wanted 0 rfc 9197 4.4.1"),
    (WORD, "0008 0800 800000 00 3f000002", "trace 1 namespace-id at 49 found 08 wanted 07 rfc 9197 4.4.1"),
    (WORD, "0007 1000 800000 00 3f000002", "trace 1 node-len at 50 found 2 wanted 1 rfc 9197 4.4.1"),
    (WORD, "0007 0800 800001 00 3f000002", "trace 1 trace-type at 54 found 01 wanted 00 rfc 9197 4.4.1"),
    (WORD, "0007 0800 800000 01 3f000002", "trace 1 trace-reserved at 55 found 01 wanted 00 rfc 9197 4.4.1"),
    ("0007 0800 800000 00 40000001", "0007 0c00 800000 00 40000000",
     "trace 1 overflow-words at 59 found 00 wanted 01 rfc 9197 4.4.1"),
    ("0007 1001 c00000 00 00000000", "0007 1400 c00000 00 00000000", "trace 1 remaining-len at 51 found 0 wanted 1 rfc 9197 4.4.1"),
    ("0007 0801 400000 00 00000000", "0007 0800 400000 00 0016000c", "trace 1 ingress-if-id at 56 found 22 wanted 21|- rfc 9197 4.4.2.2"),
    ("0007 1803 404000 00 00000000 00000000 00000000", "0007 1800 404000 00 0015000c ffffffff 0000000c",
     "trace 1 ingress-if-id-wide at 60 found - wanted 21 rfc 9197 4.4.2.10"),
    ("0007 1803 404000 00 00000000 00000000 00000000", "0007 1800 404000 00 ffff000c 00000015 0000000c",
     "trace 1 ingress-if-id-wide at 60 found 21 wanted - rfc 9197 4.4.2.10"),
    ("0007 1803 404000 00 00000000 00000000 00000000", "0007 1800 404000 00 0015000c 00000015 0000000d",
     "trace 1 egress-if-id-wide at 64 found 13 wanted 12 rfc 9197 4.4.2.10"),
    ("0007 0801 080000 00 00000000", "0007 0800 080000 00 80000001",
     "trace 1 transit-delay at 56 found 2147483649 wanted 2147483648 rfc 9197 4.4.2.5"),
    ("0007 1002 008000 00 00000000 00000000", "0007 1000 008000 00 40000000 00000002",
     "trace 1 hop-lim-wide at 56 found 64 wanted 63 rfc 9197 4.4.2.9"),
    ("0007 1002 008000 00 00000000 00000000", "0007 1000 008000 00 3f000000 00000003",
     "trace 1 node-id-wide at 57 found 3 wanted 2 rfc 9197 4.4.2.9"),
    (ROOM, "0007 1000 800800 00 3f000002 00000000", "trace 1 undefined-bits at 60 found 00 wanted ff rfc 9197 4.4.1"),
    (ROOM, ROOM, None),
    (SNAPSHOT, "0007 0800 800002 00 3f000002 02000005 00000007",
     "trace 1 snapshot-length at 60 found 2 wanted 1 rfc 9197 4.4.2.13"),
    (SNAPSHOT, "0007 0c03 800002 00 00000000 00000000 00000000", None),
)


def changed(octets, at, new):
    """A packet with other octets."""
    new = bytes.fromhex(new)
    return octets[:at] + new + octets[at + len(new):]


SENT, BARE = packet(63, FILLED), bytes.fromhex("60000000 0008 11 40" + SOURCE + TARGET + UDP)
STAYS = packet(64, WORD, option="11")
# A packet before and after; the reason.
PACKETS = (
    (packet(64, WORD), packet(64, FILLED), "hop-limit at 7 found 64 wanted 63 rfc 8200 3"),
    (packet(1, WORD), packet(0, WORD), "hop-limit at 7 found 0 wanted - rfc 8200 3"),
    (packet(64, WORD), packet(63, FILLED, 0x60000005), "flow-label at 1 found 5 wanted 0 rfc 6437 2"),
    (packet(64, WORD), packet(63, FILLED, 0x60300000), "traffic-class at 0 found 3 wanted 0 rfc -"),
    (packet(64, WORD), changed(BARE, 7, "3f"), "header-removed at 6 found - wanted 24 rfc 8200 4"),
    (BARE, SENT, "header-inserted at 6 found 24 wanted - rfc 8200 4"),
    (packet(64, WORD), packet(63, THREE), "header-length at 41 found 32 wanted 24 rfc 8200 4.3"),
    (BARE, changed(changed(BARE, 4, "0009"), 7, "3f") + b"\0", "payload-length at 4 found 9 wanted 8 rfc 8200 3"),
    (packet(64, WORD), changed(SENT, 20, "ff"), "source at 20 found ff wanted 00 rfc 8200 3"),
    (packet(64, WORD), changed(SENT, 24, "30"), "destination at 24 found 30 wanted 20 rfc 8200 3"),
    (BARE, changed(BARE, 6, "063f"), "next-header at 6 found 6 wanted 17 rfc 8200 3"),
    (packet(64, WORD), changed(SENT, 40, "06"), "next-header at 40 found 6 wanted 17 rfc 8200 3"),
    (packet(64, WORD), changed(SENT, 42, "02"), "padding at 42 found 02 wanted 01 rfc 8200 4.2"),
    (packet(64, WORD), changed(SENT, 61, "01"), "padding at 61 found 01 wanted 02 rfc 8200 4.2"),
    (packet(64, WORD), changed(SENT, 44, "11"), "option-type at 44 found 11 wanted 31 rfc 8200 4.2"),
    (packet(64, WORD), changed(SENT, 45, "ff"), "option-length at 45 found 255 wanted 14 rfc 8200 4.2"),
    (packet(64, WORD), changed(SENT, 46, "01"), "trace 1 option-reserved at 46 found 01 wanted 00 rfc 9486 3"),
    (packet(64, WORD), changed(SENT, 47, "01"), "trace 1 ioam-option-type at 47 found 01 wanted 00 rfc 9486 3"),
    (packet(64, WORD), changed(SENT, 71, "01"), "payload at 71 found 01 wanted 00 rfc 8200 4"),
    (STAYS, changed(STAYS, 7, "3f"), None),
    (STAYS, packet(63, FILLED, option="11"), "option-data at 51 found 00 wanted 01 rfc 8200 4.2"),
    (packet(64, "0007 08"), packet(63, "0007 18"), "option-changed at 50 found 18 wanted 08 rfc -"),
)


def seat():
    """Node b of the line, which packets reach by ab."""
    return Seat(read_domain(DOMAIN.encode()), 1, 0)


def text(reason):
    """A reason's text, None without one."""
    return None if reason is None else str(reason)


def check():
    """Tries the rules over all rows."""
    there = seat()
    rows = [(packet(64, old), packet(63, new), wanted) for old, new, wanted in TRACES] + list(PACKETS)
    for before, after, wanted in rows:
        found = text(why(there, before, after))
        if found != wanted:
            raise AssertionError(f"{before.hex()} {after.hex()}: found {found}, wanted {wanted}")
        chain = judged(Arrival(False, 0, len(before), before))[2]
        if there.may_send(before, chain, after) != (wanted is None):
            raise AssertionError(f"{before.hex()} {after.hex()}: {wanted}, and by audit otherwise")
    reports()
    return len(rows)


def captured(*packets):
    """The arrivals of packets."""
    return [Arrival(False, 0, len(one), one) for one in packets]


def report(before, after, *lines):
    """The report over packets before and after, but for its sums."""
    found = Explained(seat(), captured(*before), captured(*after)).text.splitlines()
    found = [line for line in found if not line.startswith(("before ", "after "))]
    if found != list(lines):
        raise AssertionError(f"found {found}, wanted {list(lines)}")


def numbered(octets, number, at=-1):
    """A packet with another octet at its end."""
    return changed(octets, len(octets) + at, f"{number:02x}")


ADVERTISEMENT = bytes.fromhex("60000000 0008 3a ff" + "fe80000000000000000000000000000b" + "ff020000000000000000000000000001" + "8600000000000000")
HOP_LIM = "trace 1 hop-lim at 56 found 64 wanted 63 rfc 9197 4.4.2.1"


def reports():
    """Whole reports."""
    came, went = packet(64, WORD), SENT
    olds, news = ([numbered(one, number) for number in range(1, 6)] for one in (came, went))
    olds[4] = changed(olds[4], 7, "01")
    second = numbered(packet(63, "0007 0800 800000 00 40000002"), 2)
    after = [news[2], ADVERTISEMENT, second, news[0], news[0], numbered(news[3], 0x77, -2), b"\x45" + bytes(19)]
    report(olds, after, "1 sent 3", "2 unknown fe80:0:0:0:0:0:0:b ff02:0:0:0:0:0:0:1", f"3 wrong 2 {HOP_LIM}",
           "    came 00070801 80000000 00000000", "    went 00070800 80000000 40000002", "4 sent 1", "5 repeat 1",
           "6 like 4 payload at 70 found 77 wanted 00 rfc 8200 4", "7 skip not-ipv6", "gone 4", "rule hop-lim packets 1 first 3",
           "verdict no 3")
    whole = Explained(seat(), captured(*olds), captured(*after)).text
    for line in ("before 5 sent 2 wrong 1 back 0 gone 1 due 1 skipped 0", "after 7 sent 2 wrong 1 repeat 1 back 0 like 1 unknown 1 skipped 1"):
        if line not in whole:
            raise AssertionError(f"{line} isn't in {whole}")
    report((), (), "verdict none")
    report((came,), (), "gone 1", "verdict none")
    report((packet(1, WORD),), (), "verdict none")
    report(olds[:2], (news[1], news[0]), "1 sent 2", "2 sent 1", "verdict yes")
    report((went,), (came,), "1 back 1", "verdict none")
    report((came,), (changed(went, 7, "40"), went), "1 wrong 1 hop-limit at 7 found 64 wanted 63 rfc 8200 3", "2 sent 1",
           "rule hop-limit packets 1 first 1", "verdict no 1")
    report((came,), (changed(BARE, 7, "3f"),), "1 wrong 1 header-removed at 6 found - wanted 24 rfc 8200 4",
           "rule header-removed packets 1 first 1", "verdict no 1")
    report((came,), (changed(went, 45, "ff"),), "1 wrong 1 option-length at 45 found 255 wanted 14 rfc 8200 4.2",
           "rule option-length packets 1 first 1", "verdict no 1")
    report(olds[:4], (came[:40],), "1 skip length", "gone 1 to 4", "verdict none")
    many_reports(came, went)


def many_reports(came, went):
    """Reports over many packets: all equal and one in ten lost; shuffled within 100; 300 that only AFTER has."""
    kept = [number for number in range(1, 201) if number % 10]
    lines = [f"{place} sent {place}" for place in range(1, len(kept) + 1)]
    report([came] * 200, [went] * len(kept), *lines, "gone 181 to 200", "verdict yes")
    rng = random.Random(1)
    order = [number for first in (0, 100, 200) for number in rng.sample(range(first, first + 100), 100)]
    olds, news = ([changed(one, 68, f"{number:04x}") for number in range(300)] for one in (came, went))
    lines = [f"{place} sent {number + 1}" for place, number in enumerate(order, 1)]
    report(olds, [news[number] for number in order], *lines, "verdict yes")
    lines = [f"{place} unknown fe80:0:0:0:0:0:0:b ff02:0:0:0:0:0:0:1" for place in range(2, 302)]
    report(olds[:2], [news[0], *[ADVERTISEMENT] * 300, news[1]], "1 sent 1", *lines, "302 sent 2", "verdict yes")


def holds(before, after, reason):
    """Whether what a reason says is what the octets hold."""
    if reason.at >= len(after) or reason.found == reason.wanted or reason.found in reason.wanted.split("|"):
        return False
    if len(reason.found) == 2 and reason.wanted != "-" and reason.rule in ("payload", "padding", "free-words", "source"):
        return (after[reason.at], before[reason.at]) == (int(reason.found, 16), int(reason.wanted, 16))
    return True


def sweep(count, seed):
    """Explains so many random pairs; how many are legal. A pair has a reason exactly if `audit` refuses it."""
    rng, legal = random.Random(seed), 0
    maker = audit_random.Maker(rng, read_domain(DOMAIN.encode()), 1, 0, Aim())
    for _ in range(count):
        octets, original = (maker.with_traces(), None) if rng.random() < 0.8 else frame(rng, maker.aim, False)
        reason, before, chain = judged(Arrival(False, 0, original or len(octets), octets))
        if reason is not None:
            continue
        after = maker.sent(before, chain)
        if rng.random() < 0.6:
            after = maker.spoiled(after, chain)
        if after[0] >> 4 != 6 or len(after) != 40 + number(after, 4, 2):
            continue
        found, may = why(maker.seat, before, after), maker.seat.may_send(before, chain, after)
        legal += may
        if may != (found is None) or found is not None and not holds(before, after, found):
            raise AssertionError(f"{before.hex()} {after.hex()}: {found}, and by audit {may}")
    return legal


def sweep_captures(count, seed):
    """Explains so many random pairs of captures, and looks whether the laws of the report hold; how many `audit` allows."""
    rng, allowed = random.Random(seed), 0
    maker = audit_random.Maker(rng, read_domain(DOMAIN.encode()), 1, 0, Aim())
    for _ in range(count):
        captures = audit_random.pair(rng, maker, (1,))
        before, after = (read_capture(one)[0] for one in captures)
        audit, explained = Audit(maker.seat, before, after), Explained(maker.seat, before, after)
        lines = [line.split() for line in explained.lines if line[0] in "123456789"]
        sent = [int(line[2]) for line in lines if line[1] == "sent"]
        yes = audit.sent == len(after)
        allowed += yes
        if len(lines) != len(after) or len(set(sent)) != len(sent) or yes != (sent == sorted(sent) and len(sent) == len(after)):
            raise AssertionError(f"{[one.hex() for one in captures]}: {explained.text} and by audit {audit.text}")
    return allowed


if __name__ == "__main__":
    print(f"{check()} rows as written")
    if len(sys.argv) > 1:
        seed = sys.argv[2] if len(sys.argv) > 2 else "0"
        print(f"{sys.argv[1]} random pairs, {sweep(int(sys.argv[1]), seed)} legal, reasons and audit agree; seed {seed}")
        some = int(sys.argv[1]) // 20
        print(f"{some} random pairs of captures, {sweep_captures(some, seed)} allowed, lines and audit agree; seed {seed}")
