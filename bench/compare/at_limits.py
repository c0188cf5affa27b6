#!/usr/bin/env python3
"""What the program answers and writes where a file has as much as it may have, and one more.

    bench/compare/at_limits.py [PROGRAM]

PROGRAM is this repository's `ioam` where none is given. The limits: 16,777,216 packets of a capture, 33,554,432 blocks of a pcapng
capture and 16,777,216 octets of one, 67,108,864 export records, 67,108,865 messages with such and 1,048,576 that are held or stand
in a part, 64 MiB of READINGS, 1,024 rows of each kind in a report of `delays`. Behind each stand what is one too many, a cut and a fault. The line, the status and each output's
octets are compared; a line for each case, and status 1 where one differs. It needs 1.3 GB in the folder for temporary files, and
takes about five minutes.
"""
import hashlib
import itertools
import os
import subprocess
import sys
import tempfile

from repository import TOP, program_at

HEAD = bytes.fromhex("a1b23c4d0002000400000000000000000004000000000065")
SECTION = bytes.fromhex("0a0d0d0a0000001c1a2b3c4d00010000ffffffffffffffff0000001c")
SKIPPED = bytes.fromhex("00000bad0000000c0000000c")
PACKETS, BLOCKS, READ, HELD, READINGS, BLOCK = 2**24, 2**25, 2**26, 2**20, 2**26, 2**24
MESSAGES, ROWS, MARK = READ + 1, 1024, b"IOAMPART"
TWO_NODES = b"""
node = [{ name = "a", id = 1, address = "::1" }, { name = "b", id = 2, address = "::2" }]
link = [{ name = "ab", from = "a", to = "b", out_id = 1, in_id = 2, delay = 0, mtu = 1500 }]
"""


def many(unit, count):
    """The same octets so many times, in parts."""
    while count > 0:
        part = min(count, 65_536)
        yield unit * part
        count -= part


def checksum(parts):
    """A checksum of octets that come in parts."""
    total = hashlib.sha256()
    for part in parts:
        total.update(part)
    return total.hexdigest()


def file_parts(name):
    """The octets of a file."""
    with open(name, "rb") as file:
        while part := file.read(1 << 20):
            yield part


def case(program, words, given, line, status, outputs):
    """Runs one case; whether it is as wanted. An output for which nothing is given isn't to be there."""
    for name, parts in given.items():
        with open(name, "wb") as file:
            file.writelines(parts)
    run = subprocess.run([program, *words.split()], capture_output=True)
    same = run.stdout == (line + "\n").encode() and run.returncode == status
    for name, parts in outputs.items():
        if parts is None:
            same &= not os.path.exists(name)
        else:
            same &= checksum(file_parts(name)) == checksum(parts)
            os.remove(name)
    print(f"{'ok' if same else 'DIFFERS':8}{words}: {line}" + ("" if same else f" (came {run.stdout!r}, {run.returncode})"), flush=True)
    return same


def packets(program):
    """Packets of a capture: records without octets, which are no packets of IPv6."""
    end = 24 + 16 * PACKETS
    ends = ((b"", "done", 0), (bytes(16), f"packets {PACKETS}", 7), (bytes(15), f"capture I {end} short 15", 5),
            (bytes(8) + b"\0\4\0\1" + bytes(4), f"capture I {end} long 262145", 5))
    for more, line, status in ends:
        lines = (b"%d drop not-ipv6\n" % number for number in range(1, PACKETS + 1))
        sums = b"packets %d kept 0 dropped %d\n" % (PACKETS, PACKETS)
        given = {"I": itertools.chain([HEAD], many(bytes(16), PACKETS), [more])}
        yield case(program, "filter I O P", given, line, status, {"O": [HEAD], "P": itertools.chain(lines, [sums])})


def blocks(program):
    """Blocks of a pcapng capture, and the octets of one block."""
    end, past = 28 + 12 * (BLOCKS - 1), f"blocks {BLOCKS}"
    outputs = {"O": [HEAD], "P": [b"packets 0 kept 0 dropped 0\n"]}
    for more, fault in ((b"", ""), (SKIPPED[:7], "short 7"), (SKIPPED[:8], past), (SECTION[:11], "short 11"), (SECTION[:12], past)):
        given = {"I": itertools.chain([SECTION], many(SKIPPED, BLOCKS - 1), [more])}
        yield case(program, "filter I O P", given, f"capture I {end} {fault}" if fault else "done", 5 if fault else 0, outputs)
    for size, fault in ((BLOCK, ""), (BLOCK + 4, f"large {BLOCK + 4}")):
        length = size.to_bytes(4, "big")
        given = {"I": [SECTION, SKIPPED[:4], length, bytes(size - 12), length]}
        yield case(program, "filter I O P", given, f"capture I 28 {fault}" if fault else "done", 5 if fault else 0, outputs)


def one_record(number, visit=b""):
    """A record of a packet of its own, with or without its visit."""
    back = (number % 7).to_bytes(4, "big") + number.to_bytes(4, "big") + bytes([number % 256, 0, 0, 1])
    size = 10 + len(visit) + len(back)
    return bytes([2 if visit else 1, 0xC0]) + size.to_bytes(2, "big") + bytes.fromhex("000700800000") + visit + back


def held_text(visit, sums):
    """The groups of the greatest number of records that are held, the first of which may have its visit."""
    for flow in range(7):
        for number in range(flow, HELD, 7):
            end = b" at=5 from=9" if visit and number == 0 else b""
            yield b"group 7 %d %d 1\n  800000 hop=%d node=1%s\n" % (flow, number, number % 256, end)
    yield b"records %d kept %d repeats %d unkeyed %d\n" % sums


def held(program):
    """Records that are held: repeats, records that take another's place and unkeyed ones need no room."""
    first, visit = one_record(0), one_record(0, (5).to_bytes(8, "big") + (9).to_bytes(4, "big"))
    later, unkeyed = one_record(0, (6).to_bytes(8, "big") + (9).to_bytes(4, "big")), bytes.fromhex("0100000a000700000000")
    full = f"records {HELD}"
    cases = (([], "done", 0, (0, 0)), ([one_record(HELD)], full, 8, (0, 0)), ([first, first, unkeyed], "done", 0, (2, 1)),
             ([visit, first, visit, unkeyed], "done", 0, (3, 1)), ([visit, unkeyed, one_record(HELD), b"\3"], full, 8, (1, 1)),
             ([visit, later], full, 8, (1, 0)), ([visit, b"\3"], f"exports {22 * HELD + 34} version 3", 6, (1, 0)))
    for more, line, status, (repeats, lone) in cases:
        given = {"E": itertools.chain((one_record(number) for number in range(HELD)), more)}
        text = held_text(visit in more, (HELD + repeats + lone, HELD, repeats, lone))
        yield case(program, "collect E P", given, line, status, {"P": text})


def read(program):
    """Records that are read."""
    unkeyed = bytes.fromhex("0100000a000000000000")
    ends = ((b"", "done", 0), (unkeyed, f"records {READ}", 8), (unkeyed[:9], f"exports {10 * READ} short 9", 6),
            (b"\3", f"exports {10 * READ} version 3", 6))
    for more, line, status in ends:
        text = [b"records %d kept 0 repeats 0 unkeyed %d\n" % (READ, READ)]
        yield case(program, "collect E P", {"E": itertools.chain(many(unkeyed, READ), [more])}, line, status, {"P": text})


def readings(program):
    """READINGS of empty lines."""
    domain = [b'node = [{ name = "a", id = 1, address = "::1" }]\n']
    outputs = {"P": [b"packets 0 left 0 dropped 0\nnode a seen 0 dropped 0\n"], "E": []}
    for size, line, status in ((READINGS, "done", 0), (READINGS + 1, "readings 0 long", 4)):
        given = {"D": domain, "R": many(b"\n", size)}
        yield case(program, "run D R 1 P E", given, line, status, {} if status else outputs)


def audited(program):
    """Packets of both captures of `audit`: records without octets."""
    exact, more = PACKETS, PACKETS + 1
    ends = ((0, exact, b"", "done", 0), (0, more, b"", f"packets {PACKETS}", 7), (exact, exact, b"", "done", 0),
            (exact, more, b"", f"packets {PACKETS}", 7), (more, more, b"", f"packets {PACKETS}", 7),
            (more, 0, bytes(15), f"packets {PACKETS}", 7), (1, exact, bytes(15), f"capture J {24 + 16 * PACKETS} short 15", 5))
    for before, after, cut, line, status in ends:
        given = {"D": [TWO_NODES], "I": itertools.chain([HEAD], many(bytes(16), before)),
                 "J": itertools.chain([HEAD], many(bytes(16), after), [cut])}
        taken = min(before, PACKETS)
        lines = (b"%d skip not-ipv6\n" % number for number in range(1, taken + 1))
        sums = [b"packets %d sent 0 gone 0 skipped %d\n" % (taken, taken)] + [b"verdict no 1\n"] * (status == 0)
        yield case(program, "audit D b ab I J P", given, line, status, {"P": itertools.chain(lines, sums)})


def sized(kind, content):
    """A message with one set."""
    head = b"\0\x0a" + (len(content) + 20).to_bytes(2, "big") + bytes(12)
    return head + kind.to_bytes(2, "big") + (len(content) + 4).to_bytes(2, "big") + content


def templates():
    """The content of the set of templates."""
    content = b""
    for bits in range(8):
        keys = [1, 2, 3, 4] + [5, 6] * (bits & 1) + [7] * (bits >> 2) + [8] * (bits >> 1 & 1) + [9]
        content += (256 + bits).to_bytes(2, "big") + len(keys).to_bytes(2, "big")
        for key in keys:
            size = (2, 1, 1, 3, 8, 4, 4, 4, 65_535)[key - 1]
            content += (0x8000 + key).to_bytes(2, "big") + size.to_bytes(2, "big") + (32473).to_bytes(4, "big")
    return content


def messages(program):
    """Messages that are read: they have no sets."""
    empty = b"\0\x0a\0\x10" + bytes(12)
    end = 16 * MESSAGES
    ends = ((b"", "done", 0), (empty, f"packets {MESSAGES}", 7), (empty[:15], f"ipfix {end} short 15", 12),
            (b"\0\x09", f"ipfix {end} version 9", 12), (b"\0\x0a\0\x11" + empty[4:] + b"\0", f"ipfix {end} length 1", 12))
    for more, line, status in ends:
        yield case(program, "records I E", {"I": itertools.chain(many(empty, MESSAGES), [more])}, line, status, {"E": []})


def written(program):
    """Records that `ipfix` writes as messages: unkeyed ones, of eight octets each there."""
    unkeyed, count = bytes.fromhex("0100000a000000000000"), READ // 32
    head, body = sized(256, bytes(256))[:8], sized(256, bytes(256))[12:]
    for more, line, status in ((b"", "done", 0), (unkeyed, f"records {READ}", 8), (b"\3", f"exports {10 * READ} version 3", 6)):
        out = (head + (32 * place).to_bytes(4, "big") + body for place in range(count))
        given = {"E": itertools.chain(many(unkeyed, READ), [more])}
        yield case(program, "ipfix E O", given, line, status, {"O": itertools.chain([sized(2, templates())], out)})


def read_back(program):
    """Records that `records` reads, of which one too many stands in a message of its own, or in the middle of one."""
    unkeyed, some = bytes.fromhex("0100000a000000000000"), 4096
    full, spoiled = sized(256, bytes(8 * some)), bytes(8 * some + 8) + bytes(7) + b"\1"
    place = len(sized(2, templates())) + len(full) * (READ // some)
    ends = ((full, "done", 0, READ), (full + sized(256, b""), "done", 0, READ), (full + sized(256, bytes(8)), f"records {READ}", 8, READ),
            (sized(256, bytes(8 * some + 8)), f"records {READ}", 8, READ), (full + b"\0", f"ipfix {place} short 1", 12, READ),
            (sized(256, spoiled), f"ipfix {place - len(full)} field {20 + 8 * some + 8}", 12, READ - some))
    for more, line, status, found in ends:
        given = {"I": itertools.chain([sized(2, templates())], many(full, READ // some - 1), [more])}
        yield case(program, "records I E", given, line, status, {"E": many(unkeyed, found)})


def part_parts(first, end, count=None):
    """A part of the records of packets of their own with these numbers, in order."""
    records = (one_record(number) for flow in range(7) for number in range(flow, end, 7) if number >= first)
    return itertools.chain([MARK + (end - first if count is None else count).to_bytes(4, "big")], records)


def parts(program):
    """Records of a part, and of two that are merged."""
    full, half = f"records {HELD}", HELD // 2
    whole = {"P": part_parts(0, HELD)}
    yield case(program, "part E P", {"E": (one_record(number) for number in range(HELD))}, "done", 0, whole)
    yield case(program, "part E P", {"E": (one_record(number) for number in range(HELD + 1))}, full, 8, {"P": part_parts(0, HELD)})
    for (one, two), line, status in ((((0, half), (half, HELD)), "done", 0), (((0, HELD), (0, HELD)), "done", 0),
                                     (((0, HELD), (HELD, HELD + 1)), full, 8), (((0, half), (half - 1, HELD + 1)), full, 8)):
        outputs = {"P": part_parts(0, HELD) if status == 0 else None}
        yield case(program, "merge A B P", {"A": part_parts(*one), "B": part_parts(*two)}, line, status, outputs)
    kept = itertools.chain(itertools.islice(held_text(False, (0, 0, 0, 0)), HELD), [b"kept %d\n" % HELD])
    yield case(program, "parts A R", {"A": part_parts(0, HELD)}, "done", 0, {"R": kept})
    last = one_record(HELD)
    ends = ((part_parts(0, HELD + 1), f"8 count {HELD + 1}"), (itertools.chain(part_parts(0, HELD), [last]), f"{12 + 22 * HELD} rest"),
            (part_parts(0, HELD - 1, HELD), f"{12 + 22 * (HELD - 1)} short 0"),
            (itertools.chain([MARK + bytes(4)], many(bytes(10**6), 301)), "12 rest"))
    for given, fault in ends:
        yield case(program, "parts A R", {"A": given}, f"part A {fault}", 13, {"R": None})


def traced(space, nodes):
    """A record of a packet with a trace of these nodes."""
    words = b"".join(bytes([63 - at]) + node.to_bytes(3, "big") for at, node in reversed(list(enumerate(nodes))))
    data = bytes(2) + space.to_bytes(2, "big") + bytes.fromhex("080080000000") + words
    octets = bytes([1, 0, 0x31, len(data)]) + data + (bytes.fromhex("01020000") if len(nodes) % 2 else b"")
    packet = b"\x60\0\0\0" + (2 + len(octets)).to_bytes(2, "big") + bytes([0, 64 - len(nodes)]) + bytes(32)
    packet += bytes([59, (2 + len(octets)) // 8 - 1]) + octets
    return bytes(8) + len(packet).to_bytes(4, "big") * 2 + packet


def delayed_space(space, traces, ways, hops, nodes):
    """The lines of a namespace without times: its ways, hops and nodes, each with how often it comes."""
    yield b"namespace %d traces %d overflow 0 empty 0\n" % (space, traces)
    for way, count in ways:
        tenths = (2000 * count + traces) // (2 * traces)
        yield b"  way %s count %d share %d.%d delays 0\n" % (way, count, tenths // 10, tenths % 10)
    for one, other, count in hops:
        yield b"  hop %d %d past 0 count %d share - delays 0\n" % (one, other, count)
    for node, count in nodes:
        yield b"  node %d seen %d stamped 0 bad 0 long 0 delays 0\n" % (node, count)


def delayed(program):
    """Rows of `delays`: those of the first keys, and what finds none. The first trace comes again as the last."""
    for count in (ROWS, ROWS + 1):
        times = [(1, 2)] + [(number, 1) for number in range(2, ROWS + 1)]
        beyond, lone = count - ROWS, list(delayed_space(7, count + 1, [(b"%d" % node, seen) for node, seen in times], [], times))
        pairs = [(b"9999 %d" % node, seen) for node, seen in times], [(9999, node, seen) for node, seen in times]
        kinds = (([(7, [number]) for number in range(1, count + 1)], lone, (0, beyond, 0, beyond)),
                 ([(7, [9999, number]) for number in range(1, count + 1)],
                  delayed_space(7, count + 1, *pairs, times[:-1] + [(9999, count + 1)]), (0, beyond, beyond, beyond + 1)),
                 ([(number, [7]) for number in range(1, count + 1)],
                  [line for space, seen in times for line in delayed_space(space, seen, [(b"7", seen)], [], [(7, seen)])],
                  (beyond, beyond, 0, beyond)))
        for traces, lines, others in kinds:
            row = [b"beyond namespaces %d ways %d hops %d nodes %d\n" % others] if any(others) else []
            sums = b"traces %d overflow 0 bad 0\npackets %d skipped 0\n" % (count + 1, count + 1)
            text = itertools.chain([b"format ptp fractions 0 most - narrowest -\n"], lines, row, [sums])
            given = {"I": itertools.chain([HEAD], (traced(*trace) for trace in traces + traces[:1]))}
            yield case(program, "delays ptp I P", given, "done", 0, {"P": text})


PARTS = (delayed, readings, blocks, held, read, packets, audited, messages, written, read_back, parts)


def main():
    program = program_at(1)
    with tempfile.TemporaryDirectory() as room:
        os.chdir(room)
        same = [one for part in PARTS for one in part(program)]
        os.chdir(TOP)
    print(f"{len(same)} cases, {same.count(False)} differ")
    return 0 if all(same) else 1


if __name__ == "__main__":
    sys.exit(main())
