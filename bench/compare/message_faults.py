#!/usr/bin/env python3
"""Plays every fault of IPFIX messages (RFC 7011) at the least and the greatest number that it can have, behind a message with a record,
fed whole and octet by octet through a pipe:

    bench/compare/message_faults.py [PROGRAM]

The line, the status, and that the records in front of the fault are written. A line for each case that differs, and how many there were;
status 1 where one differs. The numbers are written by hand, from the rules in docs/COMMANDS.md.
"""
import os
import subprocess
import sys
import tempfile

from repository import TOP, program_at

sys.path.insert(0, os.path.join(TOP, "reference"))
from messages_rows import FIRST, PLAIN, SECOND, data, message_octets, set_octets  # noqa: E402
from messages_ipfix import data_octets, template_octets  # noqa: E402

GOOD = FIRST + SECOND
ONE = data_octets(PLAIN)
SEEN = template_octets(262)


def word(number):
    return number.to_bytes(2, "big")


def long_message(content):
    """A message of 65,535 octets that ends with this content, behind a set that is skipped."""
    return message_octets(set_octets(264, bytes(65535 - 16 - 4 - len(content))) + content)


def cases():
    """Octets behind GOOD or, where the stream has nothing else, by themselves, and the fault."""
    for found in (0, 9, 11, 65535):
        yield GOOD, word(found), f"version {found}"
    for found in (0, 15):
        yield GOOD, word(10) + word(found), f"length {found}"
    for found in (0, 3, 5, 65535):
        yield GOOD, message_octets(word(262) + word(found)), f"length {found}"
    for left in (1, 3):
        yield GOOD, message_octets(bytes(left)), f"length {left}"
    for rest in (b"\1", b"\0\0\1"):
        yield GOOD, message_octets(set_octets(2, SEEN + rest)), f"length {len(rest)}"
    for found in (0, 1, 4, 255):
        yield GOOD, message_octets(set_octets(found, b"")), f"set {found}"
    for found in (0, 255, 264, 65535):
        yield GOOD, message_octets(set_octets(2, word(found) + word(0))), f"template {found}"
    for found in (256, 263):
        yield b"", message_octets(set_octets(found, ONE)), f"template {found}"
    yield GOOD, data(b"\1"), "field 20"
    yield GOOD, long_message(set_octets(262, b"\1")), "field 65534"
    for have in (1, 3, 15):
        yield GOOD, SECOND[:have], f"short {have}"
    yield GOOD, long_message(b"")[:-1], "short 65534"


def feed(pipe, octets):
    """Writes octets into a pipe one by one, as long as somebody reads them."""
    try:
        with open(pipe, "wb", buffering=0) as file:
            for at in range(len(octets)):
                file.write(octets[at:at + 1])
    except BrokenPipeError:
        pass


def answered(program, folder, octets, at_once):
    """The program's status and line over these octets, and the records it wrote."""
    source, out = os.path.join(folder, "in"), os.path.join(folder, "out")
    if os.path.exists(source):
        os.remove(source)
    if at_once:
        with open(source, "wb") as file:
            file.write(octets)
    else:
        os.mkfifo(source)
    with subprocess.Popen([program, "records", "in", "out"], cwd=folder, stdout=subprocess.PIPE) as ran:
        if not at_once:
            feed(source, octets)
        line = ran.stdout.read()
    with open(out, "rb") as file:
        return ran.returncode, line.decode().rstrip("\n"), file.read()


def main():
    program, count, differ = program_at(1), 0, 0
    with tempfile.TemporaryDirectory() as folder:
        for front, octets, fault in cases():
            wanted = 12, f"ipfix {len(front)} {fault}", PLAIN if front else b""
            for at_once in (True, False):
                found = answered(program, folder, front + octets, at_once)
                count += 1
                if found != wanted:
                    differ += 1
                    print(f"DIFFERS {fault}: {found[:2]} and {len(found[2])} octets of records, wanted {wanted[:2]} and {len(wanted[2])}")
    print(f"{count} cases, {differ} differ")
    sys.exit(1 if differ else 0)


if __name__ == "__main__":
    main()
