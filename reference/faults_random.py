"""Random domain files: sound ones, and ones with a few faults at any table, entry and key."""

from faults_domain import TABLES
from faults_spoiled import spoil

NAMES = ("a", "b", "c", "d", "n-1", "n_2", "n.3", "E", "x" * 32, "0")
ADDRESSES = ("2001:db8::a", "2001:db8::b", "2001:db8::c", "2001:DB8:0:0:0:0:0:d", "::1", "fe80::", "1:2:3:4:5:6:7:8", "::",
             "1::8", "0:0:0:0:0:0:0:2", "1:2:3:4:5:6:7::", "::2:3:4:5:6:7:8")
PREFIXES = ("::/0", "2001:db8:2::/48", "2001:db8::/32", "2001:db8::c/128", "2001:db8:2:1::/64", "2001:db8:2::/47",
            "8000::/1", "2001:db8:2:1::/63", "ffff:ffff:ffff:ffff:ffff:ffff:ffff:ffff/128", "2001:db8:2::7/127")
SPACES = (0, 7, 8, 9, 65_535)


def quoted(text):
    """A TOML text."""
    return '"' + "".join(f"\\u{ord(letter):04x}" if letter in '"\\' or ord(letter) < 32 else letter for letter in text) + '"'


def value_text(value, hexadecimal=False):
    """A value in TOML."""
    if value is True or value is False:
        return str(value).lower()
    if isinstance(value, str):
        return value if value == "1979-05-27" else quoted(value)
    if isinstance(value, list):
        return "[" + ", ".join(map(value_text, value)) + "]"
    if isinstance(value, dict):
        return "{" + ", ".join(f"{key_text(key)} = {value_text(inner)}" for key, inner in value.items()) + "}"
    return f"0x{value:x}" if hexadecimal and isinstance(value, int) and value >= 0 else str(value)


def key_text(key):
    """A key in TOML."""
    return key if key and all(letter.isascii() and (letter.isalnum() or letter in "-_") for letter in key) else quoted(key)


def toml_of(rng, top):
    """A domain file; tables in one of two spellings and in any order."""
    front, back = "", ""
    for name, value in rng.sample(list(top.items()), len(top)):
        tables = isinstance(value, list) and value and all(isinstance(inner, dict) for inner in value)
        if tables and rng.random() < 0.5:
            for entry in value:
                back += f"[[{key_text(name)}]]\n"
                for key, inner in rng.sample(list(entry.items()), len(entry)):
                    back += f"{key_text(key)} = {value_text(inner, rng.random() < 0.5)}\n"
        elif tables:
            front += f"{key_text(name)} = [\n" + "".join(f"  {value_text(entry)},\n" for entry in value) + "]\n"
        else:
            front += f"{key_text(name)} = {value_text(value)}\n"
    return front + ("# more\r\n" if rng.random() < 0.1 else "") + back


def maybe(rng, chance, entry, **keys):
    """Adds keys with some chance."""
    if rng.random() < chance:
        entry.update(keys)


def sound(rng):
    """A sound domain as tables."""
    top = {}
    maybe(rng, 0.6, top, format=rng.choice(("ptp", "ntp", "posix")))
    maybe(rng, 0.3, top, packets=rng.choice((1, 2, 3, 5, 10, 16_777_216, 30)))
    names, addresses = rng.sample(NAMES, rng.choice((2, 3, 3, 4))), rng.sample(ADDRESSES, 4)
    ids = rng.sample((0, 1, 2, 3, 2**24 - 1, 2**24, 2**56 - 1, 77, 2**24 - 2), 4)
    top["node"] = []
    for place, name in enumerate(names):
        node = {"name": name, "id": ids[place], "address": addresses[place]}
        maybe(rng, 0.85, node, namespaces=sorted(rng.sample(SPACES, rng.choice((0, 1, 2, 3, 3)))))
        top["node"].append(node)
    top["link"] = [link(rng, place, names) for place in range(rng.choice((1, 2, 4, 6)))]
    top["port"] = [port(rng, place, names) for place in range(rng.choice((0, 1, 2, 3)))]
    top["route"] = routes(rng, top, names)
    keys = rng.sample([(name, space) for name in names for space in SPACES], rng.choice((0, 2, 5, 8)))
    top["data"] = [data(rng, *key) for key in keys]
    top["flow"] = flows(rng, top["node"])
    top["extra"] = extras(rng, top)
    return {name: value for name, value in top.items() if value != [] or rng.random() < 0.5}


def link(rng, place, names):
    """A link."""
    ends = rng.sample(names, 2)
    ids = [rng.choice((0, 12, 65_534, 65_535, 65_536, 70_000, 2**32 - 1)) for _ in range(2)]
    entry = {"name": f"l{place}", "from": ends[0], "to": ends[1], "out_id": ids[0], "in_id": ids[1],
             "delay": rng.choice((0, 1000, 10**9)), "mtu": rng.choice((1280, 1280, 1500, 65_575))}
    maybe(rng, 0.1, entry, tap=f"tap{place}")
    return entry


def port(rng, place, names):
    """A port."""
    entry = {"name": f"p{place}", "node": rng.choice(names), "id": rng.choice((0, 65_535, 65_536, 2**32 - 1)), "out": f"out{place}"}
    maybe(rng, 0.1, entry, **{"in": f"in{place}"})
    return entry


def routes(rng, top, names):
    """Routes of the nodes that have a link or a port."""
    found = []
    for name in names:
        ways = [("link", entry["name"]) for entry in top["link"] if entry["from"] == name]
        ways *= 3
        ways += [("port", entry["name"]) for entry in top["port"] if entry["node"] == name]
        prefixes = rng.sample(PREFIXES, rng.choice((1, 3, 5)))
        if rng.random() < 0.12:
            prefixes = many_prefixes(rng)
        for prefix in prefixes if ways else ():
            way = rng.choice(ways)
            found.append({"node": name, "prefix": prefix, way[0]: way[1]})
    return found


def many_prefixes(rng):
    """Prefixes of many lengths, of which many match one address; no two equal."""
    bases, found = [rng.getrandbits(128) for _ in range(3)], {}
    for _ in range(rng.choice((30, 33, 60, 200))):
        length = rng.choice((0, 1, 32, 48, 64, 127, 128, rng.randint(0, 128)))
        bits = rng.choice(bases) ^ (1 << rng.randint(0, 127) if rng.random() < 0.5 else 0)
        written = ":".join(f"{bits >> 112 - 16 * place & 0xFFFF:x}" for place in range(8))
        found[bits >> (128 - length), length] = f"{written}/{length}"
    return list(found.values())


def data(rng, node, space):
    """What a node has for a namespace."""
    entry = {"node": node, "namespace": space}
    maybe(rng, 0.5, entry, short=rng.choice((0, 1, 2**32 - 1, rng.getrandbits(32))))
    maybe(rng, 0.5, entry, wide=rng.choice((0, 2**63 - 1, rng.getrandbits(63))))
    words = rng.choice((0, 1, 1, 2, 5, 45))
    maybe(rng, 0.6, entry, schema=rng.choice((0, 5, 16_777_214)), snapshot=rng.randbytes(4 * words).hex())
    return entry


def flows(rng, nodes):
    """Flows between nodes that know a namespace."""
    found = []
    for place in range(rng.choice((0, 1, 1, 2, 3))):
        ends = rng.sample(nodes, 2)
        known = [0] + [space for space in ends[0].get("namespaces", []) if space in ends[1].get("namespaces", [])]
        entry = {"name": f"f{place}", "entry": ends[0]["name"], "exit": ends[1]["name"], "source": rng.choice(PREFIXES),
                 "target": rng.choice(PREFIXES), "namespace": rng.choice(known), "hops": rng.choice((1, 64, 255))}
        maybe(rng, 0.3, entry, label=rng.choice((0, 1_048_575)))
        maybe(rng, 0.7, entry, trace=rng.choice((0x800000, 0xFFF002, 2)), capacity=rng.choice((1, 61)))
        maybe(rng, 0.4, entry, edge=rng.choice((0x8000, 0x4000, 0x3000, 0xB000, 0x7000)))
        maybe(rng, 0.4, entry, direct=rng.choice((0x800000, 0x8000, 0xFEF002)), every=rng.choice((1, 1_000_000)), flow_id=place)
        maybe(rng, 0.3, entry, limit=rng.choice((0, 255)))
        found.append(entry)
    return found


def extras(rng, top):
    """Further traces of flows that have one."""
    found, nodes = [], {node["name"]: [0] + node.get("namespaces", []) for node in top["node"]}
    for entry in top["flow"]:
        spaces = [space for space in set(nodes[entry["entry"]]) & set(nodes[entry["exit"]]) if space != entry["namespace"]]
        if "trace" in entry and spaces:
            for space in rng.sample(spaces, min(len(spaces), rng.choice((0, 1, 2)))):
                found.append({"flow": entry["name"], "namespace": space, "trace": rng.choice((0x800000, 2)), "capacity": 3})
    return found


def crowded(rng):
    """One table with as many entries as it may have, or one more."""
    few = tuple(pair for pair in TABLES if pair[1] <= 1024) + (("tap", 64),)
    name, most = rng.choice(few * 3 + TABLES)
    count = most + rng.choice((0, 1))
    nodes = [{"name": f"n{place}", "id": place, "address": f"::{place + 1:x}"} for place in range(count if name == "node" else 256)]
    top = {"node": nodes}
    if name in ("link", "tap"):
        link = {"from": "n0", "to": "n1", "out_id": 1, "in_id": 2, "delay": 0, "mtu": 1280}
        links = [{"name": f"l{place}", **link} for place in range(count + 3)]
        for place, entry in enumerate(links if name == "link" else links[3:]):
            maybe(rng, 1 if name == "tap" else 0.0, entry, tap=f"t{place}")
        top["link"] = links[:count] if name == "link" else links
    elif name == "port":
        top["port"] = [{"name": f"p{place}", "node": "n0", "id": 1, "out": f"o{place}"} for place in range(count)]
    elif name == "route":
        top["port"] = [{"name": "p", "node": "n0", "id": 1, "out": "o"}]
        top["route"] = [{"node": "n0", "prefix": f"{place:x}::/16", "port": "p"} for place in range(count)]
    elif name == "data":
        top["data"] = [{"node": f"n{place % 256}", "namespace": place} for place in range(count)]
    elif name in ("flow", "extra"):
        flow = {"entry": "n0", "exit": "n1", "source": "::/0", "target": "::/0", "namespace": 0, "hops": 9, "trace": 2, "capacity": 1}
        top["flow"] = [{"name": f"f{place}", **flow} for place in range(count if name == "flow" else 256)]
        if name == "extra":
            top["node"] = [{**node, "namespaces": [1, 2]} for node in nodes]
            top["extra"] = [{"flow": f"f{place // 2 % 256}", "namespace": place % 2 + 1, "trace": 2, "capacity": 1}
                            for place in range(count)]
    return top


def fuller(rng, top):
    """Gives every node the same namespaces, and every flow all that it may have, with one extra trace or two."""
    for node in top["node"]:
        node["namespaces"] = [7, 8, 9]
    for place, flow in enumerate(top.get("flow", [])):
        flow.update(namespace=rng.choice((7, 8, 9)), trace=0x800000, capacity=3, direct=0x800000, every=1, flow_id=rng.choice((5, place)))
    flows_now = {"node": top["node"], "flow": top.get("flow", [])}
    top["extra"] = extras(rng, flows_now) or extras(rng, flows_now)


def domain_file(rng, faulty):
    """A domain file, perhaps with faults, and the tables that it was made of."""
    top = sound(rng)
    if faulty and rng.random() < 0.03:
        top = crowded(rng)
    elif faulty:
        if rng.random() < 0.6:
            fuller(rng, top)
        for _ in range(rng.choice((1, 1, 1, 1, 1, 2, 5))):
            spoil(rng, top)
    octets = toml_of(rng, top).encode()
    way = rng.random() if faulty else 1
    if way < 0.01:
        octets += b"#" + b"x" * (1_048_576 - len(octets) - 1 + rng.choice((0, 1)))
    elif way < 0.05:
        octets = octets[:rng.randint(0, len(octets))]
    elif way < 0.08:
        octets = bytearray(octets or b"#")
        octets[rng.randrange(len(octets))] = rng.choice((0, 0xFF, 0x80, 34, 91, 93, 61, 35, 123))
    return bytes(octets), top
