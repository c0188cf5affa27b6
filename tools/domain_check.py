#!/usr/bin/env python3
"""Explains the answer `domain TABLE PLACE KEY WHY`: the line of DOMAIN, what stands there and the rule.

    tools/domain_check.py DOMAIN domain TABLE PLACE KEY WHY
    tools/domain_check.py DOMAIN $(ioam run DOMAIN READINGS 1 REPORT EXPORTS)

RULES says of each key what docs/DOMAIN.md says of it. Python's reader of TOML (from 3.11 on) finds the line of a text that isn't TOML.
"""
import re
import sys
import tomllib

NAME = "a name: 1 to 32 ASCII letters, digits, - _ ."
FILE = "a file name of 1 to 255 octets"
SPACE = "0 to 65535"
ID = "0 to 4294967295"
NODE = "the name of a node"
PREFIX = "ADDRESS/LENGTH, the length 0 to 128 without a zero in front"
TRACE = "a 24-bit number of bits 0 to 11 and 22, one at least (0x800000 is bit 0)"
ROOM = "1 to 61 words: those of the type times the nodes"
RULES = {
    "top": {"format": '"ptp", "ntp" or "posix"', "packets": "1 to 16777216"},
    "node": {"name": NAME, "id": "0 to 2^56 - 1, unlike all others", "address": "an IPv6 address, unlike all others (no dotted form, no zone, no /length)",
             "namespaces": "at most 16 different numbers, each " + SPACE},
    "link": {"name": NAME, "from": NODE, "to": "the name of another node", "out_id": ID, "in_id": ID, "delay": "nanoseconds, 0 to 1000000000",
             "mtu": "1280 to 65575", "tap": FILE},
    "port": {"name": NAME, "node": NODE, "id": ID, "in": FILE, "out": FILE},
    "route": {"node": NODE, "prefix": PREFIX + "; once for a node", "link": "a link that leaves this node", "port": "a port at this node"},
    "data": {"node": NODE, "namespace": SPACE + ", once for a node", "short": ID, "wide": "0 to 2^63 - 1",
             "schema": "0 to 16777214, together with snapshot", "snapshot": "hexadecimal digits, a multiple of 8, at most 360"},
    "flow": {"name": NAME, "entry": NODE, "exit": "the name of another node", "source": PREFIX, "target": PREFIX,
             "namespace": SPACE + ", in `namespaces` of entry and exit", "hops": "1 to 255", "label": "0 to 1048575", "trace": TRACE, "capacity": ROOM,
             "edge": "within 0xf000, not 0, not both 0x8000 and 0x4000", "direct": "a 24-bit number of bits 0 to 6, 8 to 11 and 22, with bit 0 or 8",
             "every": "1 to 1000000", "flow_id": ID + ", once in a namespace", "limit": "0 to 255"},
    "extra": {"flow": "the name of a flow that has trace", "namespace": SPACE + ", in `namespaces` of entry and exit, unlike the flow's others",
              "trace": TRACE, "capacity": ROOM},
}
REASONS = {
    "missing": "it is missing",
    "kind": "it is of another kind (a number where a text is wanted, or the other way round)",
    "range": "it isn't one of these values, or doesn't fit another entry",
    "unknown": "no entry has this name",
    "twice": "an earlier entry has it, too",
    "too-many": "there are too many",
}


def starts(text, table):
    """The offsets of a table's entries: of its [[table]] lines, or of the braces after `table = [`."""
    blocks = [found.start() for found in re.finditer(rf"^\s*\[\[\s*{table}\s*\]\]", text, re.M)]
    listed = re.search(rf"^{table}\s*=\s*\[", text, re.M)
    if blocks or not listed:
        return blocks
    return [listed.end() + found.start() for found in re.finditer(r"\{", text[listed.end():])]


def entry(text, table, place):
    """The offset and the text of an entry; of the whole file for place 0."""
    offsets = starts(text, table)
    if place == 0 or place > len(offsets):
        return 0, text
    at = offsets[place - 1]
    if text[at] == "{":
        return at, text[at:text.index("}", at)]
    body = text.index("\n", text.index("[[", at)) + 1
    following = re.search(r"^\s*\[", text[body:], re.M)
    return at, text[at:body + following.start() if following else len(text)]


def explained(path, table, place, key, why):
    """One line: where it is, what stands there, and the rule."""
    text = open(path, encoding="utf-8").read()
    if why == "text":
        try:
            tomllib.loads(text)
        except tomllib.TOMLDecodeError as fault:
            return f"{path}: not TOML: {fault}"
        return f"{path}: not TOML 1.1 as the program takes it; Python's reader takes it"
    if why == "long":
        return f"{path}: it has more than 1048576 octets"
    rules = RULES[table]
    at, body = entry(text, table, place)
    if key == "other":
        keys = tomllib.loads(text) if table == "top" else tomllib.loads(text)[table][place - 1]
        known = list(rules) + (list(RULES)[1:] if table == "top" else [])
        key = next(name for name in keys if name not in known)
        rule = f"no key of {table}; there are: {', '.join(known)}"
    elif key == "-":
        rule = REASONS[why] + (f": write [[{table}]]" if why == "kind" else "")
    else:
        rule = f"{REASONS[why]}; wanted: {rules[key]}"
    here = re.search(rf"(?<![\w.-]){re.escape(key)}\s*=[^,}}\n]*", body)
    line = text.count("\n", 0, at + (here.start() if here else len(body) - len(body.lstrip()))) + 1
    return f"{path}:{line}: {table}{f' {place}' if place else ''}: {here.group(0).strip() if here else key}: {rule}"


def main(words):
    if len(words) != 6 or words[1] != "domain":
        sys.exit(__doc__)
    path, _, table, place, key, why = words
    print(explained(path, table, int(place), key, why))


if __name__ == "__main__":
    main(sys.argv[1:])
