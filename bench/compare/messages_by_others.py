#!/usr/bin/env python3
"""The records of messages of IPFIX (RFC 7011) as the field's tools read them, for bench/compare/messages.sh: each prints a line for each
record, namespace, flags, extension flags, type, time, interface, flow, number and element in hexadecimal digits, `-` for what isn't there.

    messages_by_others.py make COUNT SEED        export records of all eight templates, to standard output
    messages_by_others.py records EXPORTS        the lines of a file of export records
    messages_by_others.py elements               the fields' names and types for ipfixDump (--element-file), to standard output
    messages_by_others.py dump, pdml             the lines of what ipfixDump --hexdump=300 and tshark -T pdml print, from standard input
    messages_by_others.py read MESSAGES          the lines of what python3-ipfix reads
    messages_by_others.py write EXPORTS OUT      the records as messages by python3-ipfix: in the same templates, as many a message as
                                                 it has room for
"""
import os
import random
import re
import sys

FIELDS = (("Namespace", 1, "unsigned16", 2), ("Flags", 2, "unsigned8", 1), ("Ext", 3, "unsigned8", 1), ("Kind", 4, "unsigned32", 3),
          ("Time", 5, "unsigned64", 8), ("Face", 6, "unsigned32", 4), ("Flow", 7, "unsigned32", 4), ("Seq", 8, "unsigned32", 4),
          ("Element", 9, "octetArray", 65535))


def make(count, seed):
    """Records of both versions, with and without each number, of many types."""
    sys.path.insert(0, os.path.join(os.path.dirname(os.path.abspath(__file__)), "..", "..", "reference"))
    from messages_random import sound_records
    sys.stdout.buffer.write(b"".join(sound_records(random.Random(seed), int(count))))


def records_of(name):
    """The records of a file, each as its fields' octets by their numbers."""
    octets, at = open(name, "rb").read(), 0
    while at < len(octets):
        size = int.from_bytes(octets[at + 2:at + 4], "big")
        record, at = octets[at:at + size], at + size
        found, place = {1: record[4:6], 2: record[6:7], 3: record[1:2], 4: record[7:10]}, 10
        visited, flow, number = record[0] == 2, record[1] & 0x80, record[1] & 0x40
        for number, length, is_there in ((5, 8, visited), (6, 4, visited), (7, 4, flow), (8, 4, number)):
            if is_there:
                found[number], place = record[place:place + length], place + length
        found[9] = record[place:]
        yield found


def line(found):
    """The line of a record."""
    return " ".join(found[number].hex() or "." if number in found else "-" for number in range(1, 10))


def from_dump(text):
    """The records that ipfixDump printed."""
    found = {}
    for number, value in re.findall(r"^\t\(32473/(\d)\)\s+ioam\w+ : (.*)$", text, re.M):
        number = int(number)
        if number == 9:
            found[9] = bytes.fromhex(value.split("0x")[1]) if "0x" in value else b""
            yield found
            found = {}
        else:
            found[number] = int(value).to_bytes(FIELDS[number - 1][3], "big")


def from_pdml(text):
    """The records that tshark printed. It leaves out a field of no octets."""
    for record in text.split('name="" show="Flow ')[1:]:
        found = {9: b""}
        for number, value in re.findall(r'name="cflow.enterprise_private_entry"[^>]*Type (\d): [^>]*value="(\w*)"', record):
            found[int(number)] = bytes.fromhex(value)
        yield found


def with_ipfix():
    """python3-ipfix, that knows the fields, and how each is spelled there."""
    import ipfix.ie
    import ipfix.reader
    import ipfix.template
    import ipfix.writer
    ipfix.ie.use_iana_default()
    kinds = {4: "octetArray"}
    spelled = {number: f"ioam{name}(32473/{number})<{kinds.get(number, kind)}>[{length}]" for name, number, kind, length in FIELDS}
    for text in spelled.values():
        ipfix.ie.for_spec(text)
    return ipfix, spelled


def read(name):
    """The records that python3-ipfix reads."""
    ipfix, _ = with_ipfix()
    with open(name, "rb") as file:
        for record in ipfix.reader.from_stream(file).namedict_iterator():
            found = {}
            for key, number, _, length in FIELDS:
                value = record.get("ioam" + key)
                if value is not None:
                    found[number] = bytes(value) if number in (4, 9) else value.to_bytes(length, "big")
            yield found


def write(name, out):
    """Has python3-ipfix write the records."""
    ipfix, spelled = with_ipfix()
    with open(out, "wb") as file:
        writer, last, size = ipfix.writer.to_stream(file), None, 1000
        writer.set_domain(7)
        for bits in range(8):
            numbers = [1, 2, 3, 4] + [5, 6] * (bits & 1) + [7] * (bits >> 2) + [8] * (bits >> 1 & 1) + [9]
            specs = ipfix.ie.spec_list([spelled[number] for number in numbers])
            writer.add_template(ipfix.template.from_ielist(256 + bits, specs))
        for found in records_of(name):
            size += len(found[9]) + 50  # more than a record takes: an octetArray that passes the end of a message is an error there
            if size > 65_000:
                writer.flush()
                size, last = 0, None
            template = 256 + 4 * (7 in found) + 2 * (8 in found) + (5 in found)
            if template != last:
                writer.set_export_template(template)
                last = template
            writer.export_namedict({"ioam" + FIELDS[key - 1][0]: octets if key in (4, 9) else int.from_bytes(octets, "big")
                                    for key, octets in found.items()})
        writer.flush()


def elements():
    """The fields' names and types."""
    rows = "".join(f"<record><name>ioam{name}</name><dataType>{kind}</dataType><cert:enterpriseId>32473</cert:enterpriseId>"
                   f"<elementId>{number}</elementId><status>current</status></record>\n" for name, number, kind, _ in FIELDS)
    print('<?xml version="1.0" encoding="utf-8"?>\n<registry xmlns="http://www.iana.org/assignments" xmlns:cert="http://www.cert.org/ipfix" '
          f'id="ioam"><registry id="ipfix-information-elements">\n{rows}</registry></registry>')


def main():
    what, words = sys.argv[1], sys.argv[2:]
    if what in ("make", "write", "elements"):
        {"make": make, "write": write, "elements": elements}[what](*words)
        return
    found = {"records": records_of, "read": read}[what](*words) if words else {"dump": from_dump, "pdml": from_pdml}[what](sys.stdin.read())
    for record in found:
        print(line(record))


if __name__ == "__main__":
    main()
