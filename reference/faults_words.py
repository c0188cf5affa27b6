"""Random inputs of the program: words, and the files that they name."""

import audit_random
import ng_random
from delays_random import over_delays
from exports_random import exports
from faults_domain import read_domain
from faults_random import domain_file
from faults_shipped import over_shipped
from faults_values import Fault
from foreign_random import Aim, frame
from messages_random import over_messages
from ng_captures import CLASSIC_HEAD
from parts_random import over_parts

ODD_WORDS = (b"", b"run", b"bulk", b"node", b"filter", b"x", b"0", b"-1", b"I", b"\xff", b"\xc3\xa9", b"a b", b"D", b"R")
NUMBERS = (b"0", b"1", b"64", b"65", b"01", b"+1", b"-1", b"1 ", b"", b"00", b"1000000", b"1000001", b"18446744073709551615",
           b"18446744073709551616", b"0x1", b"\xd9\xa1", b"1_0", b"340282366920938463463374607431768211457", b"64.0")

ODD_NUMBERS = (b"-", b"01", b"+1", b"-1", b"1.5", b"", b"0", b"00", b"0x1", b"4294967295", b"4294967296", b"9223372036854775807",
               b"9223372036854775808", b"18446744073709551616", b"1" * 60, b"1_0", b"\xd9\xa1", b"--", b"x")


def aim_of(domain, node):
    """What packets to a node are aimed at."""
    routes = [route["prefix"] for route in domain.route if route["node"] == node]
    lengths = [link["mtu"] for link in domain.link if link["from"] == node]
    given = {space: data["snapshot"] for (at, space), data in domain.data.items() if at == node}
    snapshots = {space: len(snapshot[1]) // 4 for space, snapshot in given.items() if snapshot}
    known = domain.node[node]["namespaces"] + [0]
    return Aim(domain.node[node]["address"], routes, known * 3 + [7, 8, 9, 65_535], snapshots, lengths)


def quoting_frame(rng, aim, ethernet):
    """A frame, or one with an ICMPv6 message that quotes a packet, whole or in part, and its original length."""
    quoted, _ = frame(rng, aim, False)
    if rng.random() < 0.5 or not quoted:
        return frame(rng, aim, ethernet)
    quoted = quoted[:rng.choice((len(quoted), rng.randrange(len(quoted)), 40 + rng.randrange(24)))]
    message = bytes([rng.choice((1, 1, 2, 3, 4, 127, 128, 129)), 0]) + bytes(rng.choice((6, 6, 6, 6, 6, 5, 0))) + quoted
    fragment = rng.choice((None, None, None, None, 0, 1, 8))
    if fragment is not None:
        message = bytes([58, 0]) + fragment.to_bytes(2, "big") + bytes(4) + message
    head = b"\x60\0\0\0" + len(message).to_bytes(2, "big") + bytes([58 if fragment is None else 44, 64])
    addresses = b"".join(bytes.fromhex("20010db8") + bytes(11) + bytes([rng.randrange(3)]) for _ in range(2))
    octets = (bytes(12) + b"\x86\xdd" if ethernet else b"") + head + addresses + message
    return octets, len(octets)


def capture_of(rng, aim=None, times=ng_random.TIMES, make=frame):
    """A capture of packets that are aimed at something."""
    aim = aim or Aim()
    count = rng.choice((0, 1, 2, 3, 5, 8, 12, 20, 40)) if rng.random() < 0.98 else 300  # more octets than are read at once
    wrong = rng.choice((0, 1, 1, 1, 1, 1, 40))
    size = ng_random.Size(min(count, 12) if wrong > 1 else count, times, rng.random() < 0.03, wrong)
    return ng_random.capture(rng, size, lambda inner, ethernet: make(inner, aim, ethernet))


def over_capture(rng):
    """`filter`, `leaks`, `paths`, `show` or `save` over a capture."""
    command = rng.choice((b"filter", b"leaks", b"leaks", b"paths", b"show", b"show", b"save"))
    outputs = [b"O", b"P"] if command in (b"filter", b"leaks") else [b"O"]
    return [command, b"I", *outputs], {"I": capture_of(rng, make=quoting_frame if command == b"leaks" else frame)}


def over_records(rng):
    """`collect` over records."""
    return [b"collect", b"E", b"P"], {"E": exports(rng, rng.choice((0, 1, 2, 5, 20, 60, 600)) if rng.random() < 0.97 else 5000)}


def samples(rng, names, times, faulty):
    """READINGS: lines whose times rise for each node, of which one may be faulty."""
    lines, last = [], {}
    for _ in range(rng.choice((0, 1, 3, 8, 20)) if rng.random() < 0.95 else 300):
        name = rng.choice(names or ["a"])
        time = last.get(name, -1) + rng.choice((1, 1, 2, 500, 10**9)) if rng.random() < 0.7 else rng.choice(times)
        if time <= last.get(name, -1) or time >= 2**63:
            continue
        last[name] = time
        clock = rng.choice((0, 1, 10**9 - 1, 2**63 - 1, 2**32 * 10**9, rng.getrandbits(63)))
        words = [name, str(time), str(clock)]
        words.append(rng.choice(("-", "0", "2147483647", "2147483648", str(2**63 - 1), str(rng.getrandbits(31)))))
        words += [rng.choice(("-", "0", "4294967295", str(rng.getrandbits(32)))) for _ in range(2)]
        lines.append(" ".join(words).encode())
        if rng.random() < 0.1:
            lines.append(b"")
    for _ in range(rng.choice((1, 1, 2, 3)) if faulty and lines else 0):
        place = rng.randrange(len(lines))
        lines[place] = wrong_line(rng, lines, place)
    return b"\n".join(lines) + (b"\n" if rng.random() < 0.7 else b"")


def wrong_line(rng, lines, place):
    """A line that is likely to be faulty."""
    words = lines[place].split(b" ")
    if len(words) != 6:
        return b"a 1 1 - - -"
    way = rng.random()
    at = rng.randrange(6)
    if way < 0.2:
        return rng.choice(lines)
    if way < 0.35:
        return rng.choice((b" ".join(words) + b" ", b" " + b" ".join(words), b"  ".join(words[:2]) + b" 1", b" ".join(words[:5]),
                           b" ".join(words + words[:1]), b"\r", b" ", b"a", b"\t".join(words), b" ".join(words) + b"\r", b"      "))
    if way < 0.5:
        words[0] = rng.choice((b"z", b"A", b"-", b"\xff", words[0] + b"x", b"a\t", words[0].upper(), b"\xd8\xa7"))
        at = rng.randrange(1, 6)
    if way < 0.95:
        words[at] = rng.choice(ODD_NUMBERS)
        return b" ".join(words)
    return bytes(rng.choice(b"\0 -09az\n\r") if rng.random() < 0.1 else octet for octet in lines[place])


def times_of(rng):
    """Times that packets and samples have in one input, so that they meet."""
    base = rng.choice((0, 10**9, 1_700_000_000 * 10**9, 2**32 * 10**9, 2**61))
    return [base + more for more in (0, 1, 2, 3, 500, 501, 502, 999, 1000, 10**6)] + [0, 2**62 - 1]


def over_node(rng, faulty=False, faulty_readings=False):
    """`node` over a domain, readings and a capture; with a faulty file often `run` instead."""
    octets, top = domain_file(rng, faulty)
    try:
        domain = read_domain(octets)
    except Fault:
        domain = None
    times = times_of(rng)
    names = list(domain.names("node")) if domain else [str(node.get("name")) for node in sound_nodes(top)]
    files = {"D": octets, "R": samples(rng, names, times, faulty_readings)}
    if faulty and rng.random() < 0.75 or faulty_readings and rng.random() < 0.5:
        for port in domain.port if domain else ():
            if port["in"] is not None and rng.random() < 0.7:
                files[port["in"]] = CLASSIC_HEAD
        return [b"run", b"D", b"R", rng.choice((b"1", b"2", b"64")), b"P", b"E"], files
    ways = [(domain.node[link["to"]]["name"], link["name"]) for link in domain.link] if domain else []
    routed = {route["node"] for route in domain.route if route["link"] is not None} if domain else ()
    better = [way for way in ways if domain.names("node")[way[0]] in routed] if rng.random() < 0.95 else []
    node, link = rng.choice(better or ways or [("a", "l0")])
    if rng.random() < 0.02:
        other = rng.choice(names or ["a"])
        node, link = rng.choice(((other, link), (node, "l1"), ("zz", link), (node, "zz"), (node, ""), ("", link), (link, node)))
    aim = aim_of(domain, domain.names("node")[node]) if domain and node in domain.names("node") else Aim()
    files["I"] = capture_of(rng, aim, times)
    return [b"node", b"D", b"R", node.encode(), link.encode(), b"I", b"O", b"P", b"E"], files


def over_audit(rng):
    """`audit` over a domain and two captures; now and then the domain is faulty, or a name another one."""
    octets, _ = domain_file(rng, rng.random() < 0.04)
    times, files = times_of(rng), {"D": octets}
    try:
        domain = read_domain(octets)
    except Fault:
        domain = None
    node, link = "a", "l0"
    if domain is not None and domain.link:
        place = rng.randrange(len(domain.link))
        at = domain.link[place]["to"]
        node, link = domain.node[at]["name"], domain.link[place]["name"]
        maker = audit_random.Maker(rng, domain, at, place, aim_of(domain, at))
        files["I"], files["J"] = audit_random.pair(rng, maker, times)
    else:
        files["I"], files["J"] = capture_of(rng), capture_of(rng)
    if rng.random() < 0.02:
        node, link = rng.choice(((link, node), ("zz", link), (node, "zz"), (node, "l1"), ("b", link)))
    return [b"audit", b"D", node.encode(), link.encode(), b"I", b"J", b"P"], files


def over_faulty_domain(rng):
    """`node` or `run` over a domain file that may be faulty."""
    return over_node(rng, faulty=True)


def over_faulty_readings(rng):
    """`node` or `run` over readings that may be faulty."""
    return over_node(rng, faulty_readings=True)


def sound_nodes(top):
    """The entries of the table of nodes that are tables."""
    nodes = top.get("node", [])
    return [node for node in nodes if isinstance(node, dict)] if isinstance(nodes, list) else []


def over_numbers(rng):
    """`bulk` with few packets."""
    seed = rng.choice((0, 1, 2**63, 2**64 - 1, rng.getrandbits(64), rng.getrandbits(64)))
    count = rng.choice((1, 2, 3, 50, 255, 256, 257, 300)) if rng.random() < 0.2 else rng.randint(1, 60)
    words = [b"bulk", b"%d" % seed, b"%d" % count, b"%d" % rng.choice((1, 1, 2, 3, 64)), b"P"]
    if rng.random() < 0.1:
        words[rng.randint(1, 3)] = rng.choice(NUMBERS)
    return words, {}


def odd_words(rng):
    """Words that are of no form, or name one file twice, or one that isn't there."""
    words, files = rng.choice((over_capture, over_records, over_node, over_audit, over_messages, over_parts, over_delays))(rng)
    way = rng.random()
    if way < 0.2:
        words = [rng.choice(ODD_WORDS) for _ in range(rng.randint(0, 10))]
    elif way < 0.4:
        words = rng.choice(([b"run", b"D", b"R", rng.choice(NUMBERS), b"P", b"E"],
                            [b"bulk", rng.choice(NUMBERS), rng.choice(NUMBERS), rng.choice(NUMBERS), b"P"]))
    elif way < 0.5:
        words = words[:-1] if rng.random() < 0.5 else words + [b"X"]
    elif way < 0.9:
        words[rng.randrange(len(words))] = rng.choice(words + list(ODD_WORDS))
    else:
        files.pop(rng.choice(list(files)))
    return words, files


SHARES = ((over_capture, 16), (over_node, 16), (over_faulty_domain, 17), (over_faulty_readings, 3), (over_records, 6),
          (over_shipped, 3), (odd_words, 4), (over_audit, 17), (over_messages, 9), (over_parts, 9), (over_delays, 8))


MAKERS = {"filter": over_capture, "leaks": over_capture, "paths": over_capture, "show": over_capture, "save": over_capture, "node": over_node,
          "run": over_faulty_domain, "collect": over_records, "audit": over_audit, "ipfix": over_messages,
          "records": over_messages, "part": over_parts, "merge": over_parts, "parts": over_parts, "bulk": over_numbers, "delays": over_delays}


def some_input(rng):
    """Any input."""
    makers, shares = zip(*SHARES)
    return rng.choices(makers, shares)[0](rng)


def input_of(rng, command):
    """An input of one command."""
    while True:
        words, files = MAKERS[command](rng)
        if words[:1] == [command.encode()]:
            return words, files
