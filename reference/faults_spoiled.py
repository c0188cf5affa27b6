"""What makes a sound domain file faulty: one thing at a time, at any table, entry and key."""

from faults_domain import LISTED

NAMES = ("a", "b", "c", "d", "l0", "l1", "p0", "p1", "f0", "f1")
BORDERS = (0, 1, -1, 61, 62, 63, 254, 255, 256, 1279, 1280, 65_535, 65_536, 65_575, 65_576, 1_000_000, 1_000_001, 10**9,
           10**9 + 1, 1_048_575, 1_048_576, 16_777_213, 16_777_214, 16_777_215, 16_777_216, 16_777_217, 2**32 - 1, 2**32,
           2**56 - 1, 2**56, 2**63 - 1, -2**63, 0x800000, 0x010000, 0x000800, 0xFFF002, 0xFEF002, 0xC000, 0xF000, 0xE000,
           0x0800, 0x8001, 2, 4)
BIG = (2**63, -2**63 - 1, 2**64, 2**64 - 1, 10**30)
TEXTS = ("", "a", "b", "zz", "a b", "ä", "x" * 32, "x" * 33, "a\0b", "ptp", "ntp", "posix", "PTP", "a/b", "é" * 127, "é" * 128,
         "o" * 255, "o" * 256, "0011223", "00112233", "0011223g", "00" * 180, "00" * 184, "AABBCCDD", "+0112233", "ab.pcap",
         " ", "z_1")
ADDRESS_TEXTS = ("", ":", "::", ":::", "1", "1:2:3:4:5:6:7", "1:2:3:4:5:6:7:8", "1:2:3:4:5:6:7:8:9", "1:2:3:4:5:6:7:8::",
                 "::1:2:3:4:5:6:7:8", "1:2:3:4::5:6:7:8", "1:2:3::5:6:7:8", "1::2::3", "12345::", "::12345", "::1.2.3.4",
                 "fe80::1%eth0", "g::", "1:::2", ":1:2:3:4:5:6:7", "1:2:3:4:5:6:7:", "::00000", "::0000",
                 "2001:db8::a", "2001:0db8::000A", " ::", ":: ", "::-1", "::+1", "::1_0", "::١")
LENGTH_TEXTS = ("/0", "/128", "/129", "/00", "/01", "", "/", "//0", "/ 1", "/+1", "/-0", "/1_0", "/64", "/999999999999999999999",
                "/0x1", "/١")
OTHER_KINDS = (True, 1.5, 7, "t", [], [7], {}, {"a": 1}, "1979-05-27", [[7]], [7, "x"], [7, 7], [65_536], [-1], [True],
               list(range(16)), list(range(17)), list(range(16)) + [15])
BOUNDS = {"packets": (1, 16_777_216), "id": (0, 2**56 - 1), "out_id": (0, 2**32 - 1), "in_id": (0, 2**32 - 1), "delay": (0, 10**9),
          "mtu": (1280, 65_575), "short": (0, 2**32 - 1), "wide": (0, 2**63 - 1), "schema": (0, 16_777_214), "hops": (1, 255),
          "label": (0, 1_048_575), "trace": (1, 0xFFF002), "capacity": (1, 61), "edge": (0x1000, 0xB000), "direct": (0x8000, 0xFEF002),
          "every": (1, 1_000_000), "flow_id": (0, 2**32 - 1), "limit": (0, 255), "namespace": (0, 65_535), "port id": (0, 2**32 - 1)}
KEYS = [("top", "format"), ("top", "packets")] + [(name, key) for name, keys in LISTED.items() for key in keys]


def beside_border(rng, name, key):
    """A number at a border of a key's range, or right outside."""
    least, most = BOUNDS.get(f"{name} {key}") or BOUNDS[key]
    return rng.choice((least - 1, least, most, most + 1 if most + 1 < 2**63 else -1))


def wrong_value(rng, name, key, value):
    """A value that may be wrong for a key: of another kind, beside a border, badly formed, or a name."""
    way = rng.random()
    if way < 0.2:
        return rng.choice(OTHER_KINDS)
    if way < 0.6 and key in BOUNDS:
        return beside_border(rng, name, key)
    if key in ("address", "prefix", "source", "target") and way < 0.9:
        return rng.choice(ADDRESS_TEXTS) + (rng.choice(LENGTH_TEXTS) if key != "address" or way < 0.25 else "")
    if key == "namespaces":
        return rng.choice(OTHER_KINDS)
    if isinstance(value, int) and way < 0.9:
        return rng.choice(BIG) if way < 0.65 else rng.choice(BORDERS + (value + 1, value - 1))
    return rng.choice(TEXTS + NAMES)


def spoil_entry(rng, top, name, key):
    """Makes one key of one entry wrong."""
    table = top[name]
    place = rng.randrange(len(table))
    entry = table[place] = dict(table[place])
    way = rng.random()
    if way < 0.2:
        entry.pop(key, None)
    elif way < 0.23:
        entry[rng.choice(("colour", "Name", "", "out", "id", "flow_Id", "namespaces", "every", "port"))] = 1
    elif way < 0.4:
        other = rng.choice(table)
        if name != "node" and rng.random() < 0.5:
            entry.update({same: value for same, value in other.items() if same not in ("name", "link", "port")})
        entry[key] = other.get(key, rng.choice(("l0", "p0", "p1", "a", 5, 7)))
    elif way < 0.44:
        table.insert(rng.randint(0, len(table)), entry)
    else:
        entry[key] = wrong_value(rng, name, key, entry.get(key, 5))


def third_trace(rng, top):
    """Gives one flow more traces than it may have."""
    flow = rng.choice(top["extra"]).get("flow", "f0")
    spaces = rng.sample((0, 1, 2, 3, 7, 8, 9, 65_535), rng.choice((1, 2, 3, 4)))
    top["extra"] += [{"flow": flow, "namespace": space, "trace": 2, "capacity": 1} for space in spaces]


def spoil(rng, top):
    """One thing that is likely to be a fault."""
    name, key = rng.choice([pair for pair in KEYS if pair[0] == "top" or top.get(pair[0])])
    if name == "top":
        if rng.random() < 0.2:
            key = rng.choice(("colour", "nodes", "", "top", "Node"))
        top[key] = rng.choice((1, 0, 16_777_217, 16_777_216, "ptp", "utc", True, [], {}, [1], {"name": "x"}))
    elif rng.random() < 0.04 or not isinstance(top[name], list) or not all(isinstance(entry, dict) for entry in top[name]):
        top[name] = rng.choice((7, "x", {}, {"name": "q"}, [1], [{}, 1], [], [[]]))
    elif name == "extra" and rng.random() < 0.2:
        third_trace(rng, top)
    else:
        spoil_entry(rng, top, name, key)
