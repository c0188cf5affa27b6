"""Examples of `audit` worked out by hand, over which the model is tried before it is compared with the program."""

import random
import sys

import audit_random
from audit_data import Sight, may_become
from faults_answers import answer
from faults_domain import read_domain
from foreign_random import Aim
from hand_line import LINE as DOMAIN, U
from ng_captures import NG_HEAD, Arrival, classic_record, ng_block

HEAD = bytes.fromhex("a1b23c4d0002000400000000000000000004000000000065")
TO_C = bytes.fromhex("20010db800000000000000000000000c")
ROOM, FILLED = "0007 1002 800800 00 00000000 00000000", "0007 1000 800800 00 3f000002 ffffffff"
WORD, NARROW_AND_WIDE = "0007 0801 800000 00 00000000", "0007 1803 404000 00 00000000 00000000 00000000"
SNAPSHOT = "0007 0803 800002 00 00000000 00000000 00000000"

# What data become, and whether node 2, which sends with hop limit 63 what came by its interface 21, may have done it.
DATA = (
    (ROOM, FILLED, True), (ROOM, ROOM, True),
    (ROOM, "0007 1000 800800 00 40000002 ffffffff", False),
    (ROOM, "0007 1000 800800 00 3f000002 00000000", False),
    ("0007 0801 800800 00 00000000", "0007 0800 800800 00 3f000002", True),
    (WORD, WORD, False), (WORD, "0007 0c01 800000 00 00000000", False),
    ("0007 0800 800000 00", "0007 0c00 800000 00", True), ("0007 0800 800000 00", "0007 0800 800000 00", False),
    ("0007 0c01 800000 00 00000000", "0007 0c01 800000 00 00000000", True),
    ("0007 0c01 800000 00 00000000", "0007 0c00 800000 00 3f000002", False),
    ("0007 1002 800000 00 00000000 00000000", "0007 1002 800000 00 00000000 00000000", True),
    ("0007 1002 800000 00 00000000 00000000", "0007 1000 800000 00 3f000002 ffffffff", False),
    (SNAPSHOT, "0007 0801 800002 00 00000000 3f000002 00ffffff", True),
    (SNAPSHOT, "0007 0800 800002 00 3f000002 01000005 00000007", True),
    (SNAPSHOT, "0007 0800 800002 00 3f000002 02000005 00000007", False),
    (SNAPSHOT, "0007 0c03 800002 00 00000000 00000000 00000000", True), (SNAPSHOT, SNAPSHOT, False),
    ("0007 0801 080000 00 00000000", "0007 0800 080000 00 80000000", True),
    ("0007 0801 080000 00 00000000", "0007 0800 080000 00 80000001", False),
    ("0007 0801 080000 00 00000000", "0007 0800 080000 00 ffffffff", True),
    ("0007 0801 010000 00 00000000", "0007 0800 010000 00 12345678", True),
    ("0007 0801 400000 00 00000000", "0007 0800 400000 00 00150007", True),
    ("0007 0801 400000 00 00000000", "0007 0800 400000 00 ffff0007", True),
    ("0007 0801 400000 00 00000000", "0007 0800 400000 00 00160007", False),
    (NARROW_AND_WIDE, "0007 1800 404000 00 0015000c ffffffff 0000000c", False),
    (NARROW_AND_WIDE, "0007 1800 404000 00 0015ffff 00000015 00011170", True),
    (NARROW_AND_WIDE, "0007 1800 404000 00 0015000c 00000015 0000000d", False),
    ("0007 1002 008000 00 0000000000000000", "0007 1000 008000 00 3f00000000000002", True),
    ("0007 1002 008000 00 0000000000000000", "0007 1000 008000 00 3f00000000000003", False),
    ("0007 0801 800000 00 00000000 40000001", "0007 0800 800000 00 3f000002 40000002", False),
    ("0007 0802 800000 00 00000000 00000000", "0007 0801 800000 00 00000001 3f000002", False),
    (WORD, "0007 0800 800000 01 3f000002", False), (WORD, "0007 0a00 800000 00 3f000002", False),
    ("0007 0802 800000 00 00000000", "0007 0802 800000 00 00000000", True),
    ("0007 0001 000800 00 00000000", "0007 0001 000800 00 00000000", True),
    ("0007 0001 000001 00 00000000", "0007 0001 000001 00 00000000", True),
    ("0007 0801 8000 00", "0007 0801 8000 00", True),
)


def octets(text):
    """Octets of hexadecimal digits with spaces."""
    return bytes.fromhex(text.replace(" ", ""))


def packet(hops, *traces, target=TO_C):
    """A packet with a Hop-by-Hop Options header of traces."""
    options = b"\1\0" + b"".join(bytes([0x31, len(octets(one)) + 2, 0, 0]) + octets(one) for one in traces)
    pad = -(len(options) + 2) % 8
    options += (b"", b"\0", *(bytes([1, size]) + bytes(size) for size in range(6)))[pad]
    header = bytes([59, (len(options) + 2) // 8 - 1]) + options
    return b"\x60\0\0\0" + len(header).to_bytes(2, "big") + bytes([0, hops]) + U[8:24] + target + header


def capture(*packets):
    """A capture of packets at the second second."""
    return HEAD + b"".join(classic_record(10**9, one) for one in packets)


BEFORE, SENT, SPOILED = packet(64, ROOM), packet(63, FILLED), packet(63, FILLED.replace("3f", "40"))
TWICE = "0007 0801 080000 00 00000000"
IPV4 = b"\x45" + bytes(30)


def row(before, after, lines, line="done"):
    """One pair of captures through node b, which is reached by ab."""
    files = {"D": DOMAIN.encode(), "I": before, "J": after}
    found, _, outputs = answer(b"audit D b ab I J P".split(), files)
    if (found, outputs["P"].decode()) != (line, "".join(f"{one}\n" for one in lines.split(", "))):
        raise AssertionError(f"found {found} {outputs['P'].decode()!r}, wanted {line} {lines!r}")


def sums(count, sent, gone, skipped=0):
    """The line of the sums."""
    return f"packets {count} sent {sent} gone {gone} skipped {skipped}"


def packet_rows():
    """Whole captures."""
    row(capture(BEFORE), capture(SENT), f"1 sent 1, {sums(1, 1, 0)}, verdict yes")
    row(capture(BEFORE), capture(packet(63, ROOM)), f"1 sent 1, {sums(1, 1, 0)}, verdict yes")
    row(capture(BEFORE), capture(SPOILED), f"1 gone, {sums(1, 0, 1)}, verdict no 1")
    row(HEAD, HEAD, f"{sums(0, 0, 0)}, verdict yes")
    one, two, three = (packet(hops, ROOM) for hops in (64, 60, 50))
    sent = [packet(hops, FILLED.replace("3f", f"{hops:02x}")) for hops in (63, 59, 49)]
    row(capture(one, two, three), capture(sent[0], sent[2]), f"1 sent 1, 2 gone, 3 sent 2, {sums(3, 2, 1)}, verdict yes")
    row(capture(one, two), capture(sent[1], sent[0]), f"1 gone, 2 sent 1, {sums(2, 1, 1)}, verdict no 2")
    row(capture(one, two), capture(sent[0], sent[0]), f"1 sent 1, 2 gone, {sums(2, 1, 1)}, verdict no 2")
    row(capture(IPV4, one), capture(sent[0]), f"1 skip not-ipv6, 2 sent 1, {sums(2, 1, 0, 1)}, verdict yes")
    row(capture(one), capture(IPV4, sent[0]), f"1 gone, {sums(1, 0, 1)}, verdict no 1")
    row(capture(one), capture(sent[0], IPV4), f"1 sent 1, {sums(1, 1, 0)}, verdict no 2")
    filled = [TWICE.replace("0801", "0800").replace("00000000", delay) for delay in ("00000001", "ffffffff")]
    row(capture(packet(64, TWICE, TWICE)), capture(packet(63, *filled)), f"1 sent 1, {sums(1, 1, 0)}, verdict yes")
    framed = NG_HEAD + ng_block(Arrival(True, 5, len(SENT) + 18, bytes(12) + b"\x86\xdd" + SENT + bytes(4)))
    row(capture(BEFORE), framed, f"1 sent 1, {sums(1, 1, 0)}, verdict yes")
    low = packet(1, ROOM)
    row(capture(low), capture(packet(0, ROOM)), f"1 gone, {sums(1, 0, 1)}, verdict no 1")


def fault_rows():
    """Faulty captures."""
    cut = capture(SENT, SENT)[:-1]
    place = 24 + 16 + len(SENT)
    have = len(cut) - place
    row(capture(BEFORE, BEFORE), cut, f"1 sent 1, 2 gone, {sums(2, 1, 1)}", f"capture J {place} short {have}")
    row(cut, cut, f"1 gone, {sums(1, 0, 1)}", f"capture I {place} short {have}")
    row(b"", HEAD, sums(0, 0, 0), "capture I 0 short 0")
    row(capture(BEFORE), b"", f"1 gone, {sums(1, 0, 1)}", "capture J 0 short 0")
    for words, line in ((b"audit D z ab I J P", "names z"), (b"audit D b bc I J P", "names bc"), (b"audit D b ab I I P", "names I"),
                        (b"audit D b ab I J J", "names J"), (b"audit D b ab I J", "usage"), (b"audit D b ab I K P", "read fault"),
                        (b"audit D b ab D J P", "names D"), (b"audit K z zz I J P", "read fault"),
                        (b"audit I z zz I J P", "domain top 0 - text")):
        found = answer(words.split(), {"D": DOMAIN.encode(), "I": HEAD, "J": HEAD})
        if found[0] != line or found[2]:
            raise AssertionError(f"{words}: {found}, wanted {line}")


def check():
    """Tries the model over all examples."""
    for old, new, wanted in DATA:
        if may_become(Sight(63, 2, 21), octets(old), octets(new)) != wanted:
            raise AssertionError(f"{old} -> {new}: wanted {wanted}")
    packet_rows()
    fault_rows()


def sweep(count, seed):
    """Decides so many random data, by rules and by trying; how many a node may have made."""
    rng = random.Random(seed)
    maker = random_maker(rng)
    return sum(may_become(*random_step(rng, maker)) for _ in range(count))


def random_maker(rng):
    """What makes the data of random traces."""
    return audit_random.Maker(rng, read_domain(DOMAIN.encode()), 1, 0, Aim())


def random_step(rng, maker):
    """What is known of a node, the data of a trace, and what the node made of them, spoiled in three of five."""
    maker.ident, maker.inward = rng.choice((0, 2, 2**24 - 1, 2**24, 2**56 - 1)), rng.choice((0, 21, 65_535, 65_536, 2**32 - 1))
    hops, old = rng.choice((1, 63, 254)), maker.small_trace()
    new = maker.filled(old, hops)
    if rng.random() < 0.6:
        new = maker.spoiled_data(new, hops)
    return Sight(hops, maker.ident, maker.inward), old, new


if __name__ == "__main__":
    check()
    print(f"{len(DATA)} data and all rows as written")
    if len(sys.argv) > 1:
        seed = sys.argv[2] if len(sys.argv) > 2 else "0"
        print(f"{sys.argv[1]} random data, {sweep(int(sys.argv[1]), seed)} lawful, rules and trying agree; seed {seed}")
