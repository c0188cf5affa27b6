"""The domain file: what it says, or its first fault. It is read as TOML 1.0, as Python reads it; the program reads 1.1, which also
takes line ends and a last comma in inline tables, further escapes and a byte order mark, and refuses tables that lie too deep."""

import tomllib

from faults_reach import reached
from faults_values import Entry, Fault, address_of, prefix_of

MOST_OCTETS = 1_048_576
TABLES = (("node", 256), ("link", 1024), ("port", 64), ("route", 16_384), ("data", 4096), ("flow", 256), ("extra", 512))
LISTED = {
    "node": ("name", "id", "address", "namespaces"),
    "link": ("name", "from", "to", "out_id", "in_id", "delay", "mtu", "tap"),
    "port": ("name", "node", "id", "in", "out"),
    "route": ("node", "prefix", "link", "port"),
    "data": ("node", "namespace", "short", "wide", "schema", "snapshot"),
    "flow": ("name", "entry", "exit", "source", "target", "namespace", "hops", "label", "trace", "capacity", "edge",
             "direct", "every", "flow_id", "limit"),
    "extra": ("flow", "namespace", "trace", "capacity"),
}
TRACE, DIRECT, SNAPSHOT_SCHEMAS = 0xFFF002, 0xFEF002, 16_777_214


class Domain:
    """A domain, filled table by table."""

    def __init__(self):
        self.format, self.packets = "ptp", 1_000_000
        self.node, self.link, self.port, self.route, self.flow, self.extra = [], [], [], [], [], []
        self.data, self.seen, self.places, self.taps = {}, {}, {}, 0

    def names(self, table):
        """The names of a table's entries so far, each with its place."""
        return self.places.setdefault(table, {})

    def add(self, table, entry):
        """Adds an entry that has a name."""
        self.names(table)[entry["name"]] = len(getattr(self, table))
        getattr(self, table).append(entry)

    def earlier(self, *what):
        """The values of one kind that earlier entries have."""
        return self.seen.setdefault(what, set())

    def knows(self, node, namespace):
        """Whether a node knows a namespace; every node knows 0."""
        return namespace == 0 or namespace in self.node[node]["namespaces"]


def whole_numbers_fit(value):
    """Whether every whole number of a file has 64 bits."""
    if isinstance(value, dict):
        return all(whole_numbers_fit(inner) for inner in value.values())
    if isinstance(value, list):
        return all(whole_numbers_fit(inner) for inner in value)
    return type(value) is not int or -2**63 <= value < 2**63


def read_domain(octets):
    """The domain that a file says; raises its first fault."""
    if len(octets) > MOST_OCTETS:
        raise Fault("top", 0, "-", "long")
    try:
        top = tomllib.loads(octets.decode())
    except ValueError:
        raise Fault("top", 0, "-", "text") from None
    if not whole_numbers_fit(top):
        raise Fault("top", 0, "-", "text")
    domain = Domain()
    entry = Entry("top", 0, top, ("format", "packets", *(name for name, _ in TABLES)))
    domain.format = entry.text("format", lambda text: text if text in ("ptp", "ntp", "posix") else None, False) or "ptp"
    if entry.has("packets"):
        domain.packets = entry.number("packets", 1, 16_777_216)
    for name, most in TABLES:
        table = top.get(name, [])
        if type(table) is not list or not all(type(keys) is dict for keys in table):
            raise Fault(name, 0, "-", "kind")
        if len(table) > most:
            raise Fault(name, 0, "-", "too-many")
        for place, keys in enumerate(table, 1):
            READERS[name](domain, Entry(name, place, keys, LISTED[name]))
            reached(f"domain: entry of {name}")
    return domain


def read_node(domain, entry):
    """A node: its name, id and address are its own."""
    name = entry.name("name")
    entry.new("name", name, domain.earlier("node"))
    number = entry.number("id", 0, 2**56 - 1)
    entry.new("id", number, domain.earlier("id"))
    address = entry.text("address", address_of)
    entry.new("address", address, domain.earlier("address"))
    spaces = entry.value("namespaces", list, False) or []
    entry.unless(all(type(space) is int for space in spaces), "namespaces", "kind")
    entry.unless(all(0 <= space <= 65_535 for space in spaces), "namespaces", "range")
    entry.unless(len(set(spaces)) == len(spaces), "namespaces", "twice")
    entry.unless(len(spaces) <= 16, "namespaces", "too-many")
    domain.add("node", {"name": name, "id": number, "address": address, "namespaces": spaces})


def read_link(domain, entry):
    """A link between two nodes."""
    link = {"name": entry.name("name")}
    entry.new("name", link["name"], domain.earlier("link"))
    link["from"] = entry.reference("from", domain.names("node"))
    link["to"] = entry.reference("to", domain.names("node"))
    entry.unless(link["to"] != link["from"], "to", "range")
    for key, least, most in (("out_id", 0, 2**32 - 1), ("in_id", 0, 2**32 - 1), ("delay", 0, 10**9), ("mtu", 1280, 65_575)):
        link[key] = entry.number(key, least, most)
    link["tap"] = entry.file("tap", False)
    if link["tap"] is not None:
        domain.taps += 1
        entry.unless(domain.taps <= 64, "tap", "too-many")
    domain.add("link", link)


def read_port(domain, entry):
    """A port of a node."""
    port = {"name": entry.name("name")}
    entry.new("name", port["name"], domain.earlier("port"))
    port["node"] = entry.reference("node", domain.names("node"))
    port["id"] = entry.number("id", 0, 2**32 - 1)
    port["in"], port["out"] = entry.file("in", False), entry.file("out")
    domain.add("port", port)


def read_route(domain, entry):
    """A route of a node, to a link from it or to a port of it."""
    node = entry.reference("node", domain.names("node"))
    prefix = entry.text("prefix", prefix_of)
    entry.new("prefix", (node, prefix), domain.earlier("route"))
    link = entry.reference("link", domain.names("link"), not entry.has("port"))
    entry.unless(link is None or domain.link[link]["from"] == node, "link", "range")
    port = entry.reference("port", domain.names("port"), False)
    entry.unless(port is None or domain.port[port]["node"] == node, "port", "range")
    entry.unless(link is None or port is None, "port", "twice")
    domain.route.append({"node": node, "prefix": prefix, "link": link, "port": port})


def digits_of(text):
    """Hexadecimal digits of whole words, at most 45 of them, perhaps none, as octets; or None."""
    digits = all(letter in "0123456789abcdefABCDEF" for letter in text)
    return bytes.fromhex(text) if digits and len(text) % 8 == 0 and len(text) <= 360 else None


def read_data(domain, entry):
    """What a node writes for a namespace."""
    node = entry.reference("node", domain.names("node"))
    space = entry.number("namespace", 0, 65_535)
    entry.new("namespace", (node, space), domain.earlier("data"))
    data = {"short": entry.number("short", 0, 2**32 - 1, False), "wide": entry.number("wide", 0, 2**63 - 1, False)}
    schema = entry.number("schema", 0, SNAPSHOT_SCHEMAS, entry.has("snapshot"))
    snapshot = entry.text("snapshot", digits_of, entry.has("schema"))
    data["snapshot"] = None if schema is None else (schema, snapshot)
    domain.data[node, space] = data


def type_key(entry, key, mask, needed):
    """A trace type within a mask, not empty."""
    value = entry.number(key, 1, 0xFFFFFF, needed)
    entry.unless(value is None or value & ~mask == 0, key, "range")
    return value


def known_space(domain, entry, flow):
    """A namespace that both ends of a flow know."""
    space = entry.number("namespace", 0, 65_535)
    known = domain.knows(flow["entry"], space) and domain.knows(flow["exit"], space)
    entry.unless(known, "namespace", "range")
    return space


def read_flow(domain, entry):
    """A flow: which packets go into a tunnel, and what is recorded of them."""
    flow = {"name": entry.name("name")}
    entry.new("name", flow["name"], domain.earlier("flow"))
    flow["entry"] = entry.reference("entry", domain.names("node"))
    flow["exit"] = entry.reference("exit", domain.names("node"))
    entry.unless(flow["exit"] != flow["entry"], "exit", "range")
    flow["source"], flow["target"] = entry.text("source", prefix_of), entry.text("target", prefix_of)
    space = known_space(domain, entry, flow)
    entry.number("hops", 1, 255)
    entry.number("label", 0, 2**20 - 1, False)
    flow["trace"] = type_key(entry, "trace", TRACE, entry.has("capacity"))
    entry.number("capacity", 1, 61, entry.has("trace"))
    flow["edge"] = type_key(entry, "edge", 0xF000, False)
    entry.unless((flow["edge"] or 0) & 0xC000 != 0xC000, "edge", "range")
    exported = [key for key in ("direct", "every", "flow_id") if entry.has(key)]
    direct = type_key(entry, "direct", DIRECT, exported)
    entry.unless(direct is None or direct & 0x808000, "direct", "range")
    entry.number("every", 1, 1_000_000, exported)
    number = entry.number("flow_id", 0, 2**32 - 1, exported)
    if number is not None:
        entry.new("flow_id", number, domain.earlier("flow_id", space))
    entry.number("limit", 0, 255, False)
    flow["spaces"] = {space}
    domain.add("flow", flow)


def read_extra(domain, entry):
    """One more trace of a flow that has a trace."""
    place = entry.reference("flow", domain.names("flow"))
    flow = domain.flow[place]
    entry.unless(flow["trace"] is not None, "flow", "range")
    entry.unless(len(flow["spaces"]) < 3, "flow", "too-many")
    space = known_space(domain, entry, flow)
    entry.new("namespace", space, flow["spaces"])
    type_key(entry, "trace", TRACE, True)
    entry.number("capacity", 1, 61)


READERS = {"node": read_node, "link": read_link, "port": read_port, "route": read_route, "data": read_data,
           "flow": read_flow, "extra": read_extra}
