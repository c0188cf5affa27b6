"""Domain files, readings and words with a fault or two."""

VALUES = [0, 1, -1, 61, 62, 255, 256, 1279, 65535, 65536, 65575, 65576, 1 << 20, 1 << 24,
          1 << 32, 1 << 56, (1 << 63) - 1, 16777214, 16777215, 10 ** 6, 10 ** 6 + 1, 10 ** 9,
          10 ** 9 + 1, 0xC000, 0x10000, 0x800000, 0x010000, 0x400000, 0x000001, 0xFFFFFF,
          True, 1.5, "", "a", "b", "l0", "p0", "f0", "zz", "n" * 32, "n" * 33, "n n", "caf\u00e9",
          "2001:db8::c", "2001:db8::c/128", "::/0", "::", ":::", "1:2:3:4:5:6:7:8", "1::2::3",
          "1:2:3:4:5:6:7::", "::1:2:3:4:5:6:7:8", "::ffff:1.2.3.4", "12345::", "::/129", "::/00",
          "::/", "ptp", "0011223344556677", "001122", "zz112233", "00" * 184, "x" * 255,
          "x" * 256, "\\u0000", "q\\nr", [], [7], [7, 7], [7, "a"], [65536], list(range(16)),
          list(range(17)), {"a": 1}, [{"name": "q"}]]
TEXTS = ["=", "[node]\n", "[[node]]\nname = \n", "a = 1\na = 2\n", "x = 9223372036854775808\n",
         "\x00", "colour = 1\n", "node = 3\n", "[flow]\nname = \"f\"\n", "packets = 0\n",
         "packets = 16777217\n", "format = \"PTP\"\n", "packets = \"1\"\n", "# \u00e9\n"]
LINES = ["", " ", "a", "a 1 2 - -", "a 1 2 - - - -", "a 1 2 - -  -", " a 1 2 - - -",
         "zz 1 2 - - -", "a 01 2 - - -", "a 1 + - - -", "a - 2 - - -", "a 1 - - - -",
         "a 1 2 9223372036854775808 - -", "a 9223372036854775808 2 - - -",
         "a 9223372036854775807 9223372036854775807 9223372036854775807 4294967295 4294967295",
         "a 1 2 - 4294967296 -", "a 1 2 - - 4294967296", "a 0 2 - - -", "a 0 2 - - -", "\r",
         "a\t1 2 - - -", "a 1 2 - - -\r", "\u00e9 1 2 - - -"]


def domain(rng, world):
    """The text of a world in which something is otherwise."""
    chosen = rng.random()
    if chosen < 0.12:
        text = rng.choice(TEXTS)
        return (world.text().decode() + text if rng.random() < 0.5
                else text + world.text().decode()).encode()
    if chosen < 0.15:
        return world.text() + rng.choice([b"\xff", b"# \xc3\n", b"#" * (1 << 20)])
    for _ in range(rng.choice([1, 1, 1, 2, 3])):
        spoil(rng, world)
    return world.text()


def spoil(rng, world):
    """Changes one thing of a world's tables."""
    tables = [rows for rows in world.tables.values() if rows]
    rows = rng.choice(tables)
    entry = rng.choice(rows)
    chosen = rng.random()
    if chosen < 0.15:
        del entry[rng.choice(list(entry))]
    elif chosen < 0.25:
        rows.insert(rng.randrange(len(rows) + 1), dict(entry))
    elif chosen < 0.30:
        entry[rng.choice(["colour", "nam", "Name", "port", "link", "tap"])] = rng.choice(VALUES)
    elif chosen < 0.55:
        other = rng.choice(rows if rng.random() < 0.6 else rng.choice(tables))
        key = rng.choice(list(other))
        entry[key if rng.random() < 0.6 else rng.choice(list(entry))] = other[key]
    elif chosen < 0.60:
        few(rng, world)
    else:
        keys = list(entry) + ["trace", "capacity", "direct", "every", "flow_id", "schema",
                              "snapshot", "limit", "edge", "label"][:rng.choice([0, 0, 10])]
        key = rng.choice(keys)
        like = [value for value in VALUES if type(value) is type(entry.get(key, 0))]
        entry[key] = rng.choice(VALUES if rng.random() < 0.15 else like)


def few(rng, world):
    """More of a kind than a table takes."""
    flows, links = world.tables["flow"], world.tables["link"]
    if flows and rng.random() < 0.6:
        known = world.tables["node"]
        for node in known:
            node["namespaces"] = [1, 2, 3, 7, 8, 9, 65535]
        world.tables["extra"] = [{"flow": flows[0]["name"], "namespace": space,
                                  "trace": 0x800000, "capacity": 1} for space in (1, 2, 3)]
    elif links:
        links += [dict(links[0], name="t%d" % place, tap="more%d" % place) for place in range(65)]


def readings(rng, data):
    """READINGS with a line more, or with a word that is otherwise."""
    lines = data.decode().split("\n")
    if rng.random() < 0.6:
        lines.insert(rng.randrange(len(lines) + 1), rng.choice(LINES))
        return "\n".join(lines).encode()
    if rng.random() < 0.3:
        return data + rng.choice([b"\xff 1 2 - - -", b"a 1 2 - - \xff", b"\0"])
    place = rng.randrange(len(lines))
    if rng.random() < 0.3:
        return "\n".join(lines[:place + 1] + lines[place:]).encode()
    words = lines[place].split(" ")
    words[rng.randrange(len(words))] = rng.choice(["", "-", "0", "00", "a", "b", "-1", "1e3"])
    lines[place] = " ".join(words)
    return "\n".join(lines).encode()


def words(rng, good):
    """The words of a run, of which some is otherwise."""
    found = list(good)
    chosen = rng.random()
    if chosen < 0.3:
        found[3] = rng.choice(["0", "65", "01", "+1", "-1", "", "1 ", "a", "4294967297",
                               "18446744073709551617", "\u0661"])
    elif chosen < 0.4:
        found.append("more")
    elif chosen < 0.5:
        found.pop()
    elif chosen < 0.8:
        one, two = rng.sample([1, 2, 4, 5], 2)
        found[one] = rng.choice([found[two], "in0", "out0", "out1", "tap0"])
    else:
        found[0] = rng.choice(["Run", "run ", "", "walk"])
    return found
