"""Random domains and readings for `ioam run`."""

from domain import prefix
from packet import octets

SPACES = [0, 7, 8, 9, 65535]
IDS = [1, 2, 5, 0xFFFE, 0xFFFF, 0x10000, 0xFFFFFFFF]
NODE_IDS = [0xFFFFFE, 0xFFFFFF, 0x1000000, (1 << 56) - 1, (1 << 56) - 2, 77777]
TRACE_TYPES = [0x800000, 0x008000, 0x808000, 0x000002, 0x800002, 0xC00000, 0x3A1000,
               0xFFF000, 0xFFF002, 0x007000, 0x080000, 0x300000]
DIRECT_TYPES = [0x800000, 0x008000, 0x808002, 0xFEF002, 0x880000, 0xC0F000]
GREATEST_TIME = (1 << 62) - 1
STARTS = [0, 10 ** 9, 1700000000 * 10 ** 9, 4294967295 * 10 ** 9] * 4 + [GREATEST_TIME - 2000]


def spelled(value):
    """An address as groups."""
    digits = octets(value, 16).hex()
    return ":".join(digits[at:at + 4] for at in range(0, 32, 4))


def toml(value):
    """A value as it stands in a domain file."""
    if isinstance(value, str):
        return '"%s"' % value
    if isinstance(value, bool):
        return "true" if value else "false"
    if isinstance(value, list):
        return "[" + ", ".join(map(toml, value)) + "]"
    if isinstance(value, dict):
        return "{ " + ", ".join("%s = %s" % (key, toml(v)) for key, v in value.items()) + " }"
    return str(value)


class World:
    """A random domain: its tables as they will be written."""

    def __init__(self, rng):
        self.rng = rng
        self.start = rng.choice(STARTS)
        self.straight = rng.choice([0.95, 0.95, 0.4])
        self.top = {}
        self.tables = {name: [] for name in
                       ("node", "link", "port", "route", "data", "flow", "extra")}
        self.targets = [0x20010DB8 << 96 | group << 80 | part << 64 | 1
                        for group in (1, 2, 3) for part in (0, 1)]
        self.nodes()
        self.links()
        self.ports()
        self.flows()
        self.routes()
        if rng.random() < 0.25:
            self.backwards()
        self.data()
        if rng.random() < 0.5:
            self.top["format"] = rng.choice(["ptp", "ntp", "posix"])

    def nodes(self):
        rng = self.rng
        count = rng.choice([1, 2, 2, 3, 3, 4, 4, 5, 6])
        ids = rng.sample(NODE_IDS + list(range(1, 10)), count)
        for place in range(count):
            address = 0x20010DB8 << 96 | 10 + place
            if rng.random() < 0.15:
                address = rng.choice(self.targets) + 1 + place
            known = [space for space in SPACES if rng.random() < 0.75]
            self.tables["node"].append({
                "name": "abcdef"[place], "id": ids[place], "address": spelled(address),
                "namespaces": known})
        self.addresses = [node["address"] for node in self.tables["node"]]

    def links(self):
        rng, names = self.rng, [node["name"] for node in self.tables["node"]]
        pairs = []
        if len(names) > 1:
            pairs = list(zip(names, names[1:]))
            if rng.random() < 0.4:
                pairs += list(zip(names[1:], names))
            for _ in range(rng.randrange(0, 2 * len(names))):
                pairs.append(tuple(rng.sample(names, 2)))
        mtus = [rng.choice([1280, 1281, 1288, 1400, 1492, 1500, 65575]) for _ in pairs]
        if rng.random() < 0.4:
            mtus.sort(reverse=True)
        for place, (one, two) in enumerate(pairs):
            link = {"name": "l%d" % place, "from": one, "to": two,
                    "out_id": rng.choice(IDS), "in_id": rng.choice(IDS),
                    "delay": rng.choice([0, 1, 2, 1000, 10 ** 9]),
                    "mtu": mtus[place]}
            if rng.random() < 0.7:
                link["tap"] = "tap%d" % place
            self.tables["link"].append(link)

    def ports(self):
        rng, names = self.rng, [node["name"] for node in self.tables["node"]]
        for place in range(rng.choice([1, 2, 2, 3, 4])):
            node = names[0] if place == 0 else names[-1] if place == 1 else rng.choice(names)
            port = {"name": "p%d" % place, "node": node, "id": rng.choice(IDS),
                    "out": "out%d" % place}
            if place == 0 or rng.random() < 0.5:
                port["in"] = "in%d" % place
            self.tables["port"].append(port)

    def flows(self):
        rng, nodes = self.rng, self.tables["node"]
        if len(nodes) < 2:
            return
        for place in range(rng.choice([0, 1, 1, 2, 2, 3])):
            one, two = rng.sample(nodes, 2)
            if rng.random() < 0.7:
                one, two = nodes[0], nodes[-1]
            common = [0] + [s for s in one["namespaces"] if s in two["namespaces"]]
            flow = {"name": "f%d" % place, "entry": one["name"], "exit": two["name"],
                    "source": rng.choice(["::/0", "::/0", self.drawn_prefix()]),
                    "target": rng.choice([self.drawn_prefix(), self.drawn_prefix(), "::/0"]),
                    "namespace": rng.choice(common),
                    "hops": rng.choice([1, 2, 3, 4, 6, 9, 64, 255])}
            self.recorded(flow, place)
            self.tables["flow"].append(flow)
            if "trace" in flow:
                self.further(flow, common)

    def recorded(self, flow, place):
        rng = self.rng
        if rng.random() < 0.5:
            flow["label"] = rng.choice([0, 1, 0xFFFFF])
        if rng.random() < 0.8:
            flow["trace"] = rng.choice(TRACE_TYPES)
            flow["capacity"] = rng.choice([1, 2, 3, 4, 8, 20, 40, 61])
        if rng.random() < 0.6:
            flow["edge"] = rng.choice([0x8000, 0x4000, 0x2000, 0x1000, 0x7000, 0xB000])
        if rng.random() < 0.6:
            flow["direct"] = rng.choice(DIRECT_TYPES)
            flow["every"] = rng.choice([1, 1, 2, 3])
            alone = all(other["namespace"] != flow["namespace"] for other in self.tables["flow"])
            flow["flow_id"] = rng.choice([0, 9, 0xFFFFFFFC]) + (0 if alone else place)
        if rng.random() < 0.3:
            flow["limit"] = rng.choice([0, 1, 255])

    def further(self, flow, common):
        rng = self.rng
        spaces = sorted(set(common) - {flow["namespace"]})
        for space in rng.sample(spaces, min(len(spaces), rng.choice([0, 0, 1, 2]))):
            self.tables["extra"].append({
                "flow": flow["name"], "namespace": space, "trace": rng.choice(TRACE_TYPES),
                "capacity": rng.choice([1, 2, 3, 5, 13, 61])})

    def heavy(self):
        """The same with links that take and tap any packet."""
        for place, link in enumerate(self.tables["link"]):
            link.update(mtu=65575, tap="tap%d" % place)

    def drawn_prefix(self):
        rng = self.rng
        return "%s/%d" % (spelled(rng.choice(self.targets)),
                          rng.choice([0, 16, 32, 47, 48, 48, 63, 64, 64, 127, 128]))

    def toward(self, exit_):
        """For each node the links by which it comes nearer to another."""
        near = {exit_: 0}
        for _ in self.tables["node"]:
            for link in self.tables["link"]:
                if link["to"] in near:
                    steps = near[link["to"]] + 1
                    near[link["from"]] = min(near.get(link["from"], 99), steps)
        found = {}
        for link in self.tables["link"]:
            if near.get(link["to"], 99) < near.get(link["from"], 99):
                found.setdefault(link["from"], []).append(link["name"])
        return found

    def routes(self):
        rng = self.rng
        for node in self.tables["node"]:
            for address in self.addresses:
                if address != node["address"] and rng.random() < 0.9:
                    owner = self.tables["node"][self.addresses.index(address)]
                    length = rng.choice([128, 128, 128, 126, 64])
                    self.route(node["name"], "%s/%d" % (address, length), owner["name"], 0.08)
            for _ in range(rng.choice([1, 2, 3, 5])):
                owner = rng.choice(self.tables["node"])
                self.route(node["name"], self.drawn_prefix(), owner["name"], 0.75)

    def route(self, node, prefix, owner, by_port):
        rng = self.rng
        entry = {"node": node, "prefix": prefix}
        ports = [port["name"] for port in self.tables["port"] if port["node"] == node]
        links = [link["name"] for link in self.tables["link"] if link["from"] == node]
        near = self.toward(owner).get(node, [])
        if ports and rng.random() < by_port:
            entry["port"] = rng.choice(ports)
        elif near and rng.random() < self.straight:
            entry["link"] = rng.choice(near)
        elif links:
            entry["link"] = rng.choice(links)
        else:
            return
        if not any(self.same(entry, other) for other in self.tables["route"]):
            self.tables["route"].append(entry)

    def backwards(self):
        """Sends most of what a node passes on back by one of its links."""
        links = self.tables["link"]
        back = [two for one in links for two in links
                if (one["from"], one["to"]) == (two["to"], two["from"])]
        if back:
            link = self.rng.choice(back)
            for entry in self.tables["route"]:
                if entry["node"] == link["from"] and "link" in entry and self.rng.random() < 0.8:
                    entry["link"] = link["name"]

    def same(self, one, two):
        return one["node"] == two["node"] and prefix(one["prefix"]) == prefix(two["prefix"])

    def data(self):
        rng = self.rng
        for node in self.tables["node"]:
            for space in SPACES:
                if rng.random() < 0.4:
                    self.tables["data"].append(self.datum(node["name"], space))
        rng.shuffle(self.tables["data"])

    def datum(self, node, space):
        rng = self.rng
        entry = {"node": node, "namespace": space}
        if rng.random() < 0.7:
            entry["short"] = rng.choice([0, 1, 0xFFFFFFFF, rng.getrandbits(32)])
        if rng.random() < 0.7:
            entry["wide"] = rng.choice([0, (1 << 63) - 1, rng.getrandbits(63)])
        if rng.random() < 0.6:
            entry["schema"] = rng.choice([0, 5, 16777214])
            words = rng.choice([0, 1, 2, 3, 8, 45])
            entry["snapshot"] = rng.getrandbits(32 * words + 1).to_bytes(
                4 * words + 1, "big")[1:].hex()
        return entry

    def text(self):
        """The file, each table in one of the two ways of writing it."""
        rng = self.rng
        lines = ["%s = %s" % (key, toml(value)) for key, value in self.top.items()]
        long = []
        for name, rows in self.tables.items():
            if not rows and rng.random() < 0.5:
                continue
            if rng.random() < 0.5 or not rows:
                lines.append("%s = [\n  %s\n]" % (name, ",\n  ".join(map(toml, rows))))
                continue
            for row in rows:
                long.append("[[%s]]" % name)
                long += ["%s = %s" % (key, toml(value)) for key, value in row.items()]
        return ("\n".join(lines + long) + "\n").encode()

    def times(self):
        """A time near those of the other arrivals."""
        rng = self.rng
        near = rng.choice([0, 0, 1, 2, 3, 1000, 1001, 2000, 10 ** 9, rng.randrange(5000)])
        if self.start and rng.random() < 0.02:
            return self.start - rng.randrange(1, 3000)
        return self.start + near

    def readings(self):
        """READINGS: some samples of some nodes."""
        rng, lines = self.rng, []
        for node in self.tables["node"]:
            times = {self.times() for _ in range(rng.choice([0, 1, 2, 4]))}
            times |= {0} if rng.random() < 0.2 else set()
            for time in sorted(times):
                lines.append([node.get("name", "a"), time, self.clock(time), self.measured(31, 63),
                              self.measured(31, 32), self.measured(16, 32)])
        rng.shuffle(lines)
        lines.sort(key=lambda line: line[1])
        text = "\n".join(" ".join(map(str, line)) for line in lines)
        return (text + rng.choice(["", "\n", "\n\n"])).encode()

    def clock(self, time):
        rng = self.rng
        return rng.choice([time, 0, 4294967295 * 10 ** 9 + 999999999, (1 << 63) - 1,
                           rng.getrandbits(62)])

    def measured(self, few, most):
        rng = self.rng
        return rng.choice(["-", 0, (1 << few) - 1, 1 << few, (1 << most) - 1, rng.getrandbits(few)])
