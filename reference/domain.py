"""The domain file: its tables, their keys and its faults."""

import re
import tomllib

from packet import number
from run_reach import reach

LONGEST = 1 << 20
TABLES = ("node", "link", "port", "route", "data", "flow", "extra")
MOST = {"node": 256, "link": 1024, "port": 64, "route": 16384, "data": 4096,
        "flow": 256, "extra": 512}
KEYS = {
    "node": "name id address namespaces",
    "link": "name from to out_id in_id delay mtu tap",
    "port": "name node id in out",
    "route": "node prefix link port",
    "data": "node namespace short wide schema snapshot",
    "flow": "name entry exit source target namespace hops label trace capacity"
            " edge direct every flow_id limit",
    "extra": "flow namespace trace capacity",
}
OPTIONAL = {"node": "namespaces", "link": "tap", "port": "in", "route": "link port",
            "data": "short wide schema snapshot",
            "flow": "label trace capacity edge direct every flow_id limit", "extra": ""}
NAME = re.compile(r"[A-Za-z0-9_.-]{1,32}")
GROUP = re.compile(r"[0-9A-Fa-f]{1,4}")
DECIMAL = re.compile(r"0|[1-9][0-9]*")
DIGITS = re.compile(r"([0-9A-Fa-f]{8}){0,45}")


class Fault(Exception):
    """The first fault: table, place, key and reason, as they are printed."""

    def __init__(self, table, place, key, why):
        super().__init__("domain %s %d %s %s" % (table, place, key, why))
        self.line = self.args[0]


class Domain:
    """A domain: its tables, each a list of entries by key."""

    def __init__(self):
        self.format = "ptp"
        self.packets = 1000000
        self.node, self.link, self.port = [], [], []
        self.route, self.data, self.flow, self.extra = [], [], [], []


def address(text):
    """An address of eight groups; None where the text is none (RFC 4291
    section 2.2, without the dotted form)."""
    halves = text.split("::")
    if len(halves) > 2:
        return None
    sides = [half.split(":") if half else [] for half in halves]
    count = sum(map(len, sides))
    if len(halves) == 1 and count != 8 or len(halves) == 2 and count > 7:
        return None
    if not all(GROUP.fullmatch(group) for side in sides for group in side):
        return None
    groups = sides[0] + ["0"] * (8 - count if len(halves) == 2 else 0)
    groups += sides[1] if len(halves) == 2 else []
    return number(b"".join(int(group, 16).to_bytes(2, "big") for group in groups))


def prefix(text):
    """A prefix as its bits and length, bits past the length cleared."""
    front, slash, length = text.rpartition("/")
    if not slash or not DECIMAL.fullmatch(length) or len(length) > 3 or int(length) > 128:
        return None
    bits = address(front)
    if bits is None:
        return None
    size = int(length)
    return bits >> (128 - size) << (128 - size), size


def matches(pair, target):
    """Whether a prefix matches an address."""
    bits, size = pair
    return bits >> (128 - size) == target >> (128 - size)


def is_number(value):
    return isinstance(value, int) and not isinstance(value, bool)


def is_trace_type(value):
    return 0 < value and value & ~0xFFF002 == 0


def is_direct_type(value):
    return 0 < value and value & ~0xFEF002 == 0 and value & 0x808000 != 0


def is_edge_type(value):
    return 0 < value and value & ~0xF000 == 0 and value & 0xC000 != 0xC000


def is_file_name(text):
    return 1 <= len(text.encode()) <= 255 and "\0" not in text


NUMBERS = {
    "id node": lambda v: 0 <= v < 1 << 56, "id port": lambda v: 0 <= v < 1 << 32,
    "out_id": lambda v: 0 <= v < 1 << 32, "in_id": lambda v: 0 <= v < 1 << 32,
    "delay": lambda v: 0 <= v <= 10 ** 9, "mtu": lambda v: 1280 <= v <= 65575,
    "namespace": lambda v: 0 <= v < 1 << 16, "short": lambda v: 0 <= v < 1 << 32,
    "wide": lambda v: 0 <= v < 1 << 63, "schema": lambda v: 0 <= v <= 16777214,
    "hops": lambda v: 1 <= v <= 255, "label": lambda v: 0 <= v < 1 << 20,
    "trace": is_trace_type, "capacity": lambda v: 1 <= v <= 61, "edge": is_edge_type,
    "direct": is_direct_type, "every": lambda v: 1 <= v <= 10 ** 6,
    "flow_id": lambda v: 0 <= v < 1 << 32, "limit": lambda v: 0 <= v <= 255,
    "packets": lambda v: 1 <= v <= 1 << 24,
}
REFERENCES = {"from": "node", "to": "node", "node": "node", "link": "link", "port": "port",
              "entry": "node", "exit": "node", "flow": "flow"}
FILES = ("tap", "in", "out")
PREFIXES = ("prefix", "source", "target")
PAIRS = {"data": (("schema", "snapshot"), ("snapshot", "schema")),
         "flow": (("trace", "capacity"), ("capacity", "trace"), ("direct", "every"),
                  ("direct", "flow_id"), ("every", "direct"), ("flow_id", "direct"))}


class Reader:
    """Reads the tables in their order; raises the first fault."""

    def __init__(self, table):
        self.top = table
        self.domain = Domain()
        self.taps = 0

    def read(self):
        for key in self.top:
            if key not in TABLES + ("format", "packets"):
                raise Fault("top", 0, "other", "unknown")
        self.top_keys()
        for name in TABLES:
            self.table(name)
        return self.domain

    def top_keys(self):
        form = self.top.get("format", "ptp")
        if not isinstance(form, str):
            raise Fault("top", 0, "format", "kind")
        if form not in ("ptp", "ntp", "posix"):
            raise Fault("top", 0, "format", "range")
        packets = self.top.get("packets", 1000000)
        if not is_number(packets):
            raise Fault("top", 0, "packets", "kind")
        if not NUMBERS["packets"](packets):
            raise Fault("top", 0, "packets", "range")
        self.domain.format, self.domain.packets = form, packets

    def table(self, name):
        rows = self.top.get(name, [])
        if not isinstance(rows, list) or not all(isinstance(row, dict) for row in rows):
            raise Fault(name, 0, "-", "kind")
        if len(rows) > MOST[name]:
            raise Fault(name, 0, "-", "too-many")
        for place, row in enumerate(rows, 1):
            keys = KEYS[name].split()
            if any(key not in keys for key in row):
                raise Fault(name, place, "other", "unknown")
            entry = {}
            for key in keys:
                why = self.key(name, row, key, entry)
                if why:
                    raise Fault(name, place, key, why)
            getattr(self.domain, name).append(entry)

    def key(self, table, row, key, entry):
        """The fault of one key, None where it has none; its value goes into
        the entry."""
        entry[key] = None
        if key not in row:
            if self.is_needed(table, row, key):
                return "missing"
            entry[key] = {"namespaces": [], "label": 0}.get(key)
            return None
        value = row[key]
        if key == "namespaces":
            return self.namespaces(value, entry)
        if key + " " + table in NUMBERS or key in NUMBERS:
            return self.number(table, key, value, entry)
        if not isinstance(value, str):
            return "kind"
        return self.text(table, row, key, value, entry)

    def is_needed(self, table, row, key):
        for absent, present in PAIRS.get(table, ()):
            if key == absent and present in row:
                return True
        if table == "route" and key == "link":
            return "port" not in row
        return key not in OPTIONAL[table].split()

    def namespaces(self, value, entry):
        if not isinstance(value, list) or not all(map(is_number, value)):
            return "kind"
        if not all(0 <= item < 1 << 16 for item in value):
            return "range"
        if len(set(value)) < len(value):
            return "twice"
        if len(value) > 16:
            return "too-many"
        entry["namespaces"] = value
        return None

    def number(self, table, key, value, entry):
        if not is_number(value):
            return "kind"
        rule = NUMBERS.get(key + " " + table) or NUMBERS[key]
        if not rule(value):
            return "range"
        entry[key] = value
        return self.compared(table, key, value, entry)

    def compared(self, table, key, value, entry):
        """What a number has to do with other entries."""
        domain = self.domain
        if table == "node" and any(other["id"] == value for other in domain.node):
            return "twice"
        if (table, key) == ("data", "namespace"):
            if any((other["node"], other["namespace"]) == (entry["node"], value)
                   for other in domain.data):
                return "twice"
        if (table, key) == ("flow", "namespace"):
            if not self.is_known(entry, value):
                return "range"
        if key == "flow_id":
            if any((other["namespace"], other["flow_id"]) == (entry["namespace"], value)
                   for other in domain.flow):
                return "twice"
        if (table, key) == ("extra", "namespace"):
            return self.extra_namespace(value, entry)
        return None

    def is_known(self, flow, namespace):
        return all(knows(self.domain, flow[end], namespace) for end in ("entry", "exit"))

    def extra_namespace(self, value, entry):
        flow = self.domain.flow[entry["flow"]]
        if not self.is_known(flow, value):
            return "range"
        if flow["namespace"] == value:
            return "twice"
        if any((other["flow"], other["namespace"]) == (entry["flow"], value)
               for other in self.domain.extra):
            return "twice"
        return None

    def text(self, table, row, key, value, entry):
        if key in FILES:
            return self.file_name(key, value, entry)
        if key in PREFIXES:
            entry[key] = prefix(value)
            if entry[key] is None:
                return "range"
            return self.prefix_twice(table, entry)
        if key == "address":
            entry[key] = address(value)
            if entry[key] is None:
                return "range"
            same = [other for other in self.domain.node if other["address"] == entry[key]]
            return "twice" if same else None
        if key == "snapshot":
            if not DIGITS.fullmatch(value):
                return "range"
            entry[key] = bytes.fromhex(value)
            return None
        if not NAME.fullmatch(value):
            return "range"
        if key == "name":
            entry[key] = value
            same = [other for other in getattr(self.domain, table) if other["name"] == value]
            return "twice" if same else None
        return self.reference(table, row, key, value, entry)

    def file_name(self, key, value, entry):
        if not is_file_name(value):
            return "range"
        entry[key] = value
        if key == "tap":
            self.taps += 1
            return "too-many" if self.taps > 64 else None
        return None

    def prefix_twice(self, table, entry):
        if table != "route":
            return None
        same = [other for other in self.domain.route
                if (other["node"], other["prefix"]) == (entry["node"], entry["prefix"])]
        return "twice" if same else None

    def reference(self, table, row, key, value, entry):
        others = getattr(self.domain, REFERENCES[key])
        found = [place for place, other in enumerate(others) if other["name"] == value]
        entry[key] = found[0] if found else None
        if (table, key) == ("extra", "flow"):
            return self.extra_flow(entry)
        if not found:
            return "unknown"
        if (key, entry[key]) in (("to", entry.get("from")), ("exit", entry.get("entry"))):
            return "range"
        if table == "route" and key == "link":
            return "range" if others[found[0]]["from"] != entry["node"] else None
        if table == "route" and key == "port":
            if others[found[0]]["node"] != entry["node"]:
                return "range"
            return "twice" if "link" in row else None
        return None

    def extra_flow(self, entry):
        if entry["flow"] is None:
            return "unknown"
        if self.domain.flow[entry["flow"]]["trace"] is None:
            return "range"
        before = [other for other in self.domain.extra if other["flow"] == entry["flow"]]
        return "too-many" if len(before) >= 2 else None


def knows(domain, node, namespace):
    """Every node knows the default namespace (RFC 9197 section 4.3)."""
    return namespace == 0 or namespace in domain.node[node]["namespaces"]


def fits(value):
    """Whether all whole numbers of a text are within 64 bits."""
    if isinstance(value, dict):
        return all(map(fits, value.values()))
    if isinstance(value, list):
        return all(map(fits, value))
    return not is_number(value) or -(1 << 63) <= value < 1 << 63


def read_domain(data):
    """The domain that the octets of a file spell, or its first fault."""
    if len(data) > LONGEST:
        raise Fault("top", 0, "-", "long")
    try:
        table = tomllib.loads(data.decode())
    except (UnicodeDecodeError, tomllib.TOMLDecodeError):
        raise Fault("top", 0, "-", "text") from None
    if not fits(table):
        raise Fault("top", 0, "-", "text")
    domain = Reader(table).read()
    reach("domain read")
    return domain


def route(domain, node, target):
    """The way of the node's longest matching prefix, None without one: a pair
    of `link` or `port` and its place."""
    found = [entry for entry in domain.route
             if entry["node"] == node and matches(entry["prefix"], target)]
    if not found:
        return None
    if len(found) > 1:
        reach("route: several prefixes match")
    best = max(found, key=lambda entry: entry["prefix"][1])
    kind = "port" if best["link"] is None else "link"
    return kind, best[kind]


def flow_of(domain, node, header):
    """The place of the first flow of an entry that a packet matches."""
    for place, flow in enumerate(domain.flow):
        if (flow["entry"] == node and matches(flow["source"], header.source)
                and matches(flow["target"], header.target)):
            return place
    return None


def traces(domain, place):
    """The traces of a flow: its own, then the further ones in file order."""
    flow = domain.flow[place]
    if flow["trace"] is None:
        return []
    found = [flow] + [entry for entry in domain.extra if entry["flow"] == place]
    return [(entry["namespace"], entry["trace"], entry["capacity"]) for entry in found]
