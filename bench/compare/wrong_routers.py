#!/usr/bin/env python3
"""Routers that are wrong on purpose: what our own node sent on (examples/audit), spoiled in one way each, with the reason that the
rules of `model/explain.py` must give. With PROGRAM also whether its `audit` refuses each wrong packet and no right one.

    bench/compare/wrong_routers.py [PROGRAM]
"""

import os
import subprocess
import sys
import tempfile

HERE = os.path.dirname(os.path.abspath(__file__))
ROOT = os.path.dirname(os.path.dirname(HERE))
sys.path.insert(0, os.path.join(HERE, "..", "..", "reference"))

from audit_packets import Seat  # noqa: E402
from explain import why  # noqa: E402
from faults_domain import read_domain  # noqa: E402
from foreign_packets import judged  # noqa: E402
from ng_captures import classic_record, read_capture  # noqa: E402

DOMAIN = os.path.join(ROOT, "examples/one-node/domain.toml")
NODE, LINK = "three", "two-three"
HEAD = bytes.fromhex("a1b23c4d0002000400000000000000000004000000000065")

# The router, the packet of examples/audit, octets of AFTER, octets of BEFORE and AFTER (at: hexadecimal digits), the reason.
WRONG = (
    ("keeps the hop limit", 1, "7: 3e", "", "hop-limit at 7 found 62 wanted 61 rfc 8200 3"),
    ("lowers it by two", 1, "7: 3c", "", "hop-limit at 7 found 60 wanted 61 rfc 8200 3"),
    ("sends on a hop limit of 1", 1, "7: 00", "7: 01", "hop-limit at 7 found 0 wanted - rfc 8200 3"),
    ("clears the flow label", 1, "1: 00 0000", "1: 01 2345", "flow-label at 1 found 0 wanted 74565 rfc 6437 2"),
    ("marks congestion", 1, "1: 30", "1: 00", "traffic-class at 0 found 3 wanted 0 rfc -"),
    ("translates the source", 1, "20: ff", "20: 00", "source at 20 found ff wanted 00 rfc 8200 3"),
    ("translates the destination", 1, "39: 99", "39: 01", "destination at 39 found 99 wanted 01 rfc 8200 3"),
    ("changes what the options header names next", 1, "40: 06", "40: 11", "next-header at 40 found 6 wanted 17 rfc 8200 3"),
    ("changes padding", 1, "43: 01", "", "padding at 43 found 01 wanted 00 rfc 8200 4.2"),
    ("makes the option one that stays", 1, "44: 11", "", "option-type at 44 found 11 wanted 31 rfc 8200 4.2"),
    ("makes the option shorter", 1, "45: 12", "", "option-length at 45 found 18 wanted 22 rfc 8200 4.2"),
    ("makes the trace an incremental one", 1, "47: 01", "", "trace 1 ioam-option-type at 47 found 01 wanted 00 rfc 9486 3"),
    ("fills a trace of an unknown namespace", 1, "", "48: 9999", "trace 1 left-namespace at 51 found 00 wanted 01 rfc 9197 4.3"),
    ("fills a trace with Overflow", 1, "50: 0c", "50: 0c", "trace 1 left-overflow at 51 found 00 wanted 01 rfc 9197 4.4.1"),
    ("clears Overflow", 8, "50: 08", "50: 0c", "trace 1 left-overflow at 50 found 08 wanted 0c rfc 9197 4.4.1"),
    ("fills a trace of a wrong NodeLen", 1, "50: 10", "50: 10", "trace 1 left-node-len at 51 found 00 wanted 01 rfc -"),
    ("adds nothing", 1, "51: 01; 56: 00000000", "", "trace 1 element-missing at 51 found 1 wanted 0 rfc 9197 4.4.1"),
    ("doesn't set Overflow", 7, "50: 08", "", "trace 1 overflow-missing at 50 found 0 wanted 1 rfc 9197 4.4.1"),
    ("sets Overflow though there is room", 1, "50: 0c01; 56: 00000000", "",
     "trace 1 overflow-early at 50 found 1 wanted 0 rfc 9197 4.4.1"),
    ("drops a word with Overflow", 7, "56: 00000000", "", "trace 1 overflow-words at 56 found 00 wanted 3e rfc 9197 4.4.1"),
    ("sets Loopback", 1, "50: 0a", "", "trace 1 flags at 50 found 4 wanted 0 rfc 9197 4.4.1"),
    ("changes the trace type", 1, "52: 800001", "", "trace 1 trace-type at 54 found 01 wanted 00 rfc 9197 4.4.1"),
    ("writes the reserved octet", 1, "55: 01", "", "trace 1 trace-reserved at 55 found 01 wanted 00 rfc 9197 4.4.1"),
    ("keeps RemainingLen", 2, "51: 02", "", "trace 1 remaining-len at 51 found 2 wanted 0 rfc 9197 4.4.1"),
    ("takes a word too many", 1, "51: 00; 56: 3d000003 3d000003", "51: 02; 56: 00000000 00000000",
     "trace 1 remaining-len at 51 found 0 wanted 1 rfc 9197 4.4.1"),
    ("adds its element before the free words", 1, "51: 01; 56: 3d000003 00000000", "51: 02; 56: 00000000 00000000",
     "trace 1 free-words at 56 found 3d wanted 00 rfc 9197 4.4.1"),
    ("adds its element after the others", 1, "56: 3e000002 3f000001 3d000003", "",
     "trace 1 older-elements at 60 found 3f wanted 3e rfc 9197 4.4.1"),
    ("writes the hop limit that came", 1, "56: 3e", "", "trace 1 hop-lim at 56 found 62 wanted 61 rfc 9197 4.4.2.1"),
    ("writes another node's id", 1, "57: 000002", "", "trace 1 node-id at 57 found 2 wanted 3 rfc 9197 4.4.2.1"),
    ("swaps its interfaces", 2, "60: 0022 0020", "", "trace 1 ingress-if-id at 60 found 34 wanted 32|- rfc 9197 4.4.2.2"),
    ("lets a delay run over", 4, "72: 80000001", "", "trace 1 transit-delay at 72 found 2147483649 wanted 2147483648 rfc 9197 4.4.2.5"),
    ("writes another wide id", 3, "79: 04", "", "trace 1 node-id-wide at 73 found 4 wanted 3 rfc 9197 4.4.2.9"),
    ("knows its ingress in one form alone", 4, "96: ffffffff", "",
     "trace 1 ingress-if-id-wide at 96 found - wanted 32 rfc 9197 4.4.2.10"),
    ("writes two egress interfaces", 4, "100: 00000023", "", "trace 1 egress-if-id-wide at 100 found 35 wanted 34 rfc 9197 4.4.2.10"),
    ("miscounts a snapshot", 6, "84: 01", "", "trace 1 snapshot-length at 84 found 1 wanted 0 rfc 9197 4.4.2.13"),
    ("changes the payload", 1, "156: 00", "156: ff", "payload at 156 found 00 wanted ff rfc 8200 4"),
)


def packets(name):
    """The packets of a capture of examples/audit."""
    with open(os.path.join(ROOT, "examples/audit", name), "rb") as file:
        return [judged(one)[1] for one in read_capture(file.read())[0]]


def written(octets, edits):
    """A packet with other octets."""
    for edit in filter(None, edits.split(";")):
        at, digits = edit.split(":")
        at, new = int(at), bytes.fromhex(digits.replace(" ", ""))
        octets = octets[:at] + new + octets[at + len(new):]
    return octets


def stripped(octets):
    """A packet without its Hop-by-Hop Options header."""
    size = 8 * (octets[41] + 1)
    left = int.from_bytes(octets[4:6], "big") - size
    return octets[:4] + left.to_bytes(2, "big") + octets[40:41] + octets[7:40] + octets[40 + size:]


def cases():
    """Each wrong router: its packet before and after, and the reason."""
    before, after = packets("before.pcap"), packets("after.pcap")
    for what, number, edits, both, reason in WRONG:
        came, went = (written(one[number - 1], both) for one in (before, after))
        yield what, came, written(went, edits), reason
    yield "removes the header", before[0], stripped(after[0]), "header-removed at 6 found - wanted 32 rfc 8200 4"
    yield "inserts a header", stripped(before[0]), after[0], "header-inserted at 6 found 32 wanted - rfc 8200 4"
    cut = stripped(after[0])
    cut = cut[:4] + (len(cut) - 41).to_bytes(2, "big") + cut[6:-1]
    yield "cuts an octet off", stripped(before[0]), cut, f"payload-length at 4 found {len(cut) - 40} wanted {len(cut) - 39} rfc 8200 3"


def audited(program, room, before, after):
    """The verdict of `audit` over one packet before and one after."""
    for name, octets in (("before.pcap", before), ("after.pcap", after)):
        with open(os.path.join(room, name), "wb") as file:
            file.write(HEAD + classic_record(10**9, octets))
    files = [os.path.join(room, name) for name in ("before.pcap", "after.pcap", "report.txt")]
    subprocess.run([program, "audit", DOMAIN, NODE, LINK, *files], check=True, stdout=subprocess.DEVNULL)
    with open(files[2], encoding="ascii") as file:
        return file.read().splitlines()[-1]


def main():
    with open(DOMAIN, "rb") as file:
        domain = read_domain(file.read())
    names = [[one["name"] for one in table] for table in (domain.node, domain.link)]
    seat = Seat(domain, names[0].index(NODE), names[1].index(LINK))
    program = os.path.abspath(sys.argv[1]) if len(sys.argv) > 1 else None
    right = [("right", old, new, None) for old, new in zip(packets("before.pcap"), packets("after.pcap"))]
    differ, every = 0, [*cases(), *right]
    with tempfile.TemporaryDirectory(prefix="ioam-wrong-") as room:
        for what, before, after, wanted in every:
            found = why(seat, before, after)
            if (found and str(found)) != wanted:
                differ += 1
                print(f"{what}: found {found}, wanted {wanted}")
            verdict = "verdict yes" if wanted is None else "verdict no 1"
            if program and audited(program, room, before, after) != verdict:
                differ += 1
                print(f"{what}: audit doesn't say {verdict}")
    print(f"{len(every) - len(right)} wrong routers and {len(right)} right packets, {differ} differ")
    return 1 if differ else 0


if __name__ == "__main__":
    sys.exit(main())
