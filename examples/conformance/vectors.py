"""The vectors, group by group: what each is, the RFC's section, what a router may make of it, and its packet."""

from layout import (ACTIVE, CHANGES, DEFINED, DESTINATION, DIRECT, EDGE, FLAG_3, FRAGMENT, HOP_BY_HOP, INCREMENTAL, KNOWN,
                    LOOPBACK, NESTED, NOTHING, OTHER_KNOWN, OVERFLOW, PROOF, RESERVED, ROUTING, SNAPSHOT, STAYS, UDP, UNDEFINED,
                    UNKNOWN, aligned, direct, edge, fragment, ioam, kind_of, number, options_header, padding, routing, trace,
                    words)

FULL, LEAVES, PASSES, DROPS = "sets Overflow", "leaves the trace", "passes it on", "drops it"
UNJUDGED = "isn't judged: its header chain isn't whole"
UNJUDGED_OPTION = f"isn't judged: who doesn't know that option {DROPS}, and `audit` looks at IOAM's options alone"
OURS = "9197 4.4.1, our reading"
NODE = kind_of(0)
NODE_AND_FACES = kind_of(0, 1)
ALL_DEFINED = kind_of(*DEFINED)
OLDER = bytes.fromhex("41000042")  # an element of an older node: hop limit 65, id 66


def plural(count, noun):
    """So many of a thing."""
    return f"{count} {noun}" + ("" if count == 1 else "s")


def adds(count):
    """What a router does with a trace that has room."""
    return "adds " + plural(count, "word")


def may_add(kind):
    """The same where the type has undefined bits: it may fill them with ones or leave the trace."""
    return f"{adds(words(kind))}, those of undefined bits all ones, or {LEAVES}"


def adds_snapshot(kind, room):
    """The same where the type has bit 22: a snapshot of the router's, or none, or one that doesn't fit."""
    least = words(kind) + 1
    return f"{adds(least) if least == room else f'adds {least} to {room} words'}, or {FULL}"


def framed(suite, options, hops=64, traffic=0, following=UDP, payload=None):
    """A packet's fields: these octets in a Hop-by-Hop Options header, and a datagram or something else behind it."""
    behind = suite.way.udp(f"vector {suite.label()}") if payload is None else payload
    return {"following": HOP_BY_HOP, "payload": options_header(following, options) + behind, "hops": hops, "traffic": traffic}


def put(suite, what, rfc, may, *data, **fields):
    """Adds a packet with these traces in its Hop-by-Hop Options header."""
    suite.add(what, rfc, may, **framed(suite, aligned(*map(ioam, data)), **fields))


def named(bits):
    """Bits by their numbers."""
    return " and ".join(str(bit) for bit in bits)


def types(suite):
    """Types of defined bits, with room for two elements."""
    for bit in DEFINED:
        kind = kind_of(bit)
        put(suite, f"bit {bit} alone", f"9197 4.4.2.{bit + 1}", adds(words(kind)), trace(kind, 2 * words(kind)))
    for bits in ((0, 8), (1, 9), (5, 10), (2, 3), (6, 11), (0, 1)):
        kind = kind_of(*bits)
        put(suite, f"bits {named(bits)}", "9197 4.4.2", adds(words(kind)), trace(kind, 2 * words(kind)))
    for what, bits in (("bits 0, 1, 8 and 9", (0, 1, 8, 9)), ("bits 0 to 7", range(8)), ("bits 8 to 11", range(8, 12)),
                       ("bits 0 to 11", DEFINED)):
        kind = kind_of(*bits)
        put(suite, what, "9197 4.4.2", adds(words(kind)), trace(kind, 2 * words(kind)))
    put(suite, "bits 0 and 23: bit 23 is ignored", "9197 4.4.1", adds(1), trace(kind_of(0, RESERVED), 2))
    put(suite, "bit 23 alone: no field is asked for", OURS, LEAVES, trace(kind_of(RESERVED), 2))
    put(suite, "bit 23 alone, and no room", OURS, LEAVES, trace(kind_of(RESERVED), 0))
    put(suite, "no bit at all", OURS, LEAVES, trace(0, 2))
    put(suite, "no bit at all, and no room", OURS, LEAVES, trace(0, 0))
    put(suite, "no bit at all, NodeLen 1", OURS, LEAVES, trace(0, 2, node_len=1))


def undefined_types(suite):
    """Types with bits that aren't defined."""
    for bit in UNDEFINED:
        put(suite, f"undefined bit {bit} alone", "9197 4.4.1", may_add(kind_of(bit)), trace(kind_of(bit), 2))
    every, defined_too = kind_of(*UNDEFINED), kind_of(*range(22))
    put(suite, "bits 12 to 21", "9197 4.4.1", may_add(every), trace(every, 20))
    put(suite, "bits 0 to 21", "9197 4.4.1", may_add(defined_too), trace(defined_too, 50))
    put(suite, "all 24 bits", "9197 4.4.1", adds_snapshot(defined_too, 50) + f", or {LEAVES}", trace(0xFFFFFF, 50, node_len=25))
    mixed = kind_of(0, 12)
    put(suite, "bits 0 and 12", "9197 4.4.1", may_add(mixed), trace(mixed, 4))
    put(suite, "bits 0 and 12, NodeLen 1: no word for bit 12", "9197 4.4.1", f"{adds(1)}, or {LEAVES}",
        trace(mixed, 4, node_len=1))
    put(suite, "bits 0 and 12, NodeLen 3", "9197 4.4.1", f"adds 3 words, two of them all ones, or {LEAVES}",
        trace(mixed, 4, node_len=3))
    put(suite, "bits 0 and 12, NodeLen 0: too small", OURS, LEAVES, trace(mixed, 4, node_len=0))
    put(suite, "bit 12, NodeLen 0", OURS, LEAVES, trace(kind_of(12), 4, node_len=0))
    put(suite, "bits 0 and 12, one word too few", "9197 4.4.1", f"{FULL}, or {LEAVES}", trace(mixed, 1))


def node_lens(suite):
    """A NodeLen that isn't the words of the type."""
    for kind, text, node_len in ((NODE, "bit 0", 0), (NODE, "bit 0", 2), (NODE, "bit 0", 31), (kind_of(8), "bit 8", 1),
                                 (NODE_AND_FACES, "bits 0 and 1", 1), (ALL_DEFINED, "bits 0 to 11", 14),
                                 (ALL_DEFINED, "bits 0 to 11", 16), (kind_of(SNAPSHOT), "bit 22", 1),
                                 (kind_of(0, SNAPSHOT), "bits 0 and 22", 2)):
        size = "small" if node_len < words(kind) else "large"
        put(suite, f"{text}, NodeLen {node_len}: too {size}", OURS, LEAVES, trace(kind, 32, node_len=node_len))


def rooms(suite):
    """RemainingLen."""
    older, rfc = OLDER, "9197 4.4.1"
    put(suite, "just enough room", rfc, adds(1), trace(NODE, 1))
    put(suite, "one word too few", rfc, FULL, trace(NODE_AND_FACES, 1))
    put(suite, "one word too few for a wide field", rfc, FULL, trace(kind_of(8), 1))
    put(suite, "RemainingLen 0 in an empty trace", rfc, FULL, trace(NODE, 0))
    put(suite, "RemainingLen 0 behind two older elements", rfc, FULL, trace(NODE, 0, older=2 * older))
    put(suite, "one free word in front of two older elements", rfc, adds(1), trace(NODE, 1, older=2 * older))
    put(suite, "three free words in front of one older element", rfc, adds(1), trace(NODE, 3, older=older))
    put(suite, "three free words for elements of two", rfc, adds(2), trace(NODE_AND_FACES, 3))
    put(suite, "RemainingLen one beyond the words that are there", OURS, LEAVES, trace(NODE, 2, remaining=3))
    put(suite, "RemainingLen 127 with four words", OURS, LEAVES, trace(NODE, 4, remaining=127))
    put(suite, "RemainingLen 1 without a word", OURS, LEAVES, trace(NODE, 0, remaining=1))
    put(suite, "RemainingLen 2 with one word, for elements of two", OURS, LEAVES, trace(NODE_AND_FACES, 1, remaining=2))
    put(suite, "61 free words, the most that fit an option", rfc, adds(1), trace(NODE, 61))
    put(suite, "61 words in use", rfc, FULL, trace(NODE, 0, older=61 * older))
    put(suite, "bits 0 to 11, just enough room", rfc, adds(15), trace(ALL_DEFINED, 15))
    put(suite, "bits 0 to 11, one word too few", rfc, FULL, trace(ALL_DEFINED, 14))
    put(suite, "free words that aren't zero", rfc, adds(1), trace(NODE, 3, free=bytes.fromhex("deadbeef") * 3))
    for rest in (1, 2, 3):
        put(suite, f"an area of two words and {plural(rest, 'octet')}", OURS, LEAVES, trace(NODE, 2, older=bytes(rest)))


def flags(suite):
    """Overflow set before, and the flags of RFC 9322."""
    put(suite, "Overflow set, with room", "9197 4.4.1", LEAVES, trace(NODE, 2, flags=OVERFLOW))
    put(suite, "Overflow set, without room", "9197 4.4.1", LEAVES, trace(NODE, 0, flags=OVERFLOW))
    put(suite, "Overflow set behind older elements", "9197 4.4.1", LEAVES,
        trace(NODE_AND_FACES, 1, flags=OVERFLOW, older=2 * OLDER))
    put(suite, "Overflow set, bits 0 and 22", "9197 4.4.1", LEAVES, trace(kind_of(0, SNAPSHOT), 4, flags=OVERFLOW))
    put(suite, "Overflow set, bits 0 and 12", "9197 4.4.1", LEAVES, trace(kind_of(0, 12), 4, flags=OVERFLOW))
    put(suite, "Loopback set", "9322 3", adds(1), trace(NODE, 2, flags=LOOPBACK))
    put(suite, "Active set", "9322 3", adds(1), trace(NODE, 2, flags=ACTIVE))
    put(suite, "the fourth flag set, which is undefined", "9197 4.4.1", adds(1), trace(NODE, 2, flags=FLAG_3))
    put(suite, "Loopback, Active and the fourth flag set", "9322 3", adds(1), trace(NODE, 2, flags=LOOPBACK | ACTIVE | FLAG_3))
    put(suite, "Active set, without room", "9322 3", FULL, trace(NODE, 0, flags=ACTIVE))
    put(suite, "all four flags set", "9197 4.4.1", LEAVES, trace(NODE, 2, flags=OVERFLOW | LOOPBACK | ACTIVE | FLAG_3))


def namespaces(suite):
    """Namespaces that the router knows and doesn't know."""
    rfc = "9197 4.3"
    put(suite, "namespace 123", rfc, adds(1), trace(NODE, 2, namespace=OTHER_KNOWN))
    put(suite, "namespace 0, which each node knows", rfc, adds(1), trace(NODE, 2, namespace=0))
    for namespace in (UNKNOWN, 0x0700, 0x8007, 0xFFFF):
        put(suite, f"namespace {namespace}, unknown", rfc, LEAVES, trace(NODE, 2, namespace=namespace))
    put(suite, "an unknown namespace, without room", rfc, LEAVES, trace(NODE, 0, namespace=UNKNOWN))
    put(suite, "an unknown namespace, NodeLen too large", rfc, LEAVES, trace(NODE, 4, node_len=3, namespace=UNKNOWN))


def several(suite):
    """Several traces in one packet."""
    first, second, third = (trace(NODE, 2, namespace=namespace) for namespace in (KNOWN, OTHER_KNOWN, 0))
    foreign, full, rfc = trace(NODE, 2, namespace=UNKNOWN), trace(NODE, 0), "9197 4.3"
    put(suite, "traces of namespaces 7 and 123", rfc, f"{adds(1)} to each", first, second)
    put(suite, "traces of namespaces 7, 123 and 0", rfc, f"{adds(1)} to each", first, second, third)
    put(suite, "a trace of an unknown namespace, then one of 7", rfc, f"{adds(1)} to the second", foreign, first)
    put(suite, "a trace of 7, then one of an unknown namespace", rfc, f"{adds(1)} to the first", first, foreign)
    put(suite, "two equal traces of namespace 7", rfc, f"{adds(1)} to each", first, first)
    put(suite, "two traces of namespace 7, the first without room", rfc, f"{FULL} in the first, {adds(1)} to the second",
        full, first)
    put(suite, "two traces, the first with Overflow set", rfc, f"{adds(1)} to the second", trace(NODE, 2, flags=OVERFLOW), second)
    put(suite, "three traces, the second with too large a NodeLen", "9197 4.3, our reading", f"{adds(1)} to the first and third",
        first, trace(NODE, 4, node_len=3), second)
    put(suite, "two traces of 61 words", rfc, f"{adds(1)} to each", trace(NODE, 61), trace(NODE, 61, namespace=OTHER_KNOWN))


def places(suite):
    """A trace among other options, padded and misaligned."""
    option, rfc = ioam(trace(NODE, 2)), "8200 4.2"

    def at(what, rfc, may, octets):
        suite.add(what, rfc, may, **framed(suite, octets))

    at("behind an unknown option that is skipped", rfc, adds(1), bytes([0x1E, 4]) + bytes(4) + option)
    at("behind an unknown option that may change", rfc, adds(1), bytes([0x3E, 4]) + bytes(4) + option)
    at("behind two Pad1", rfc, adds(1), b"\0\0" + option)
    at("behind a PadN of 6 octets", rfc, adds(1), padding(6) + option)
    at("behind a PadN that isn't zero", rfc, adds(1), b"\x01\x04\xff\xff\xff\xff" + option)
    at("behind 14 octets of padding", rfc, adds(1), padding(14) + option)
    at("in front of an unknown option", rfc, adds(1), padding(2) + option + bytes([0x1E, 2]) + bytes(2))
    at("in front of six Pad1", rfc, adds(1), padding(2) + option + bytes(6) + padding(2))
    for off in (1, 2, 3):
        at(f"{plural(off, 'octet')} off its alignment", "9486 3, our reading", adds(1), padding((2 + off) % 4) + option)
    for kind, text in ((0x5E, "01, which says to drop"), (0x9E, "10, which says to drop"), (0xDE, "11, which says to drop")):
        at(f"behind an unknown option of action {text}", rfc, UNJUDGED_OPTION, bytes([kind, 4]) + bytes(4) + option)
    at("the option's reserved octet isn't zero", "9486 3", adds(1), padding(2) + ioam(trace(NODE, 2), reserved=0xFF))
    at("the trace's reserved octet isn't zero", "9197 4.4.1", adds(1), padding(2) + ioam(trace(NODE, 2, reserved=0xFF)))


def other_options(suite):
    """IOAM options that a router on the way leaves as they are."""
    room, rfc = trace(NODE, 2), "9486 3"

    def hop(what, rfc, data, ioam_type, option=STAYS):
        suite.add(what, rfc, PASSES, **framed(suite, aligned(ioam(data, ioam_type, option))))

    hop("a trace as option type 0x11, whose data stay", rfc, room, 0)
    for option in (CHANGES, STAYS):
        inside = options_header(UDP, aligned(ioam(room, option=option))) + suite.way.udp(f"vector {suite.label()}")
        suite.add(f"a trace as 0x{option:x} in Destination Options", "8200 4.6", PASSES, DESTINATION, inside)
    inside = options_header(ROUTING, aligned(ioam(room))) + routing(NOTHING, 1)
    suite.add("a trace in Destination Options in front of a Routing header", "8200 4.1", PASSES, DESTINATION, inside)
    inside = options_header(UDP, aligned(ioam(edge(5), EDGE, STAYS))) + suite.way.udp(f"vector {suite.label()}")
    suite.add("edge-to-edge data in Destination Options", "9197 4.6", PASSES, DESTINATION, inside)
    hop("edge-to-edge data in Hop-by-Hop Options", "9197 4.6", edge(5), EDGE)
    hop("edge-to-edge data as 0x31", "9197 4.6", edge(5), EDGE, CHANGES)
    for what, fields in (("", {}), (" with a Flow ID", {"flow": 9}), (" with a Sequence Number", {"sequence": 4}),
                         (" with both", {"flow": 9, "sequence": 4})):
        hop("direct export" + what, "9326 3", direct(NODE, **fields), DIRECT)
    hop("direct export of an unknown namespace", "9326 3", direct(NODE, 9, 4, UNKNOWN), DIRECT)
    hop("direct export as 0x31", "9326 3", direct(NODE, 9, 4), DIRECT, CHANGES)
    hop("proof of transit of an unknown namespace", "9197 4.5", number(UNKNOWN, 2) + bytes(18), PROOF, CHANGES)
    hop("proof of transit as 0x11", "9197 4.5", number(KNOWN, 2) + bytes(18), PROOF)
    hop("an incremental trace, which IPv6 has no place for", rfc, room, INCREMENTAL, CHANGES)
    hop("unassigned IOAM Option-Type 5", "9197 7.1", room, 5, CHANGES)
    hop("unassigned IOAM Option-Type 255", "9197 7.1", room, 255)
    both = aligned(ioam(room), ioam(direct(NODE, 9, 4), DIRECT, STAYS))
    suite.add("a trace and direct export", "9326 3", adds(1), **framed(suite, both))


def snapshots(suite):
    """The opaque state snapshot, which NodeLen doesn't count."""
    alone, node = kind_of(SNAPSHOT), kind_of(0, SNAPSHOT)
    for kind, text in ((alone, "bit 22"), (node, "bits 0 and 22")):
        least = words(kind) + 1
        for room in (least, least + 1, 40, 61):
            put(suite, f"{text}, room for {plural(room, 'word')}", "9197 4.4.2.13", adds_snapshot(kind, room), trace(kind, room))
        put(suite, f"{text}, one word too few for any", "9197 4.4.2.13", FULL, trace(kind, least - 1))
    older = OLDER + bytes.fromhex("0200000500112233") + bytes.fromhex("44556677")
    put(suite, "bits 0 and 22, behind an older snapshot", "9197 4.4.2.13", adds_snapshot(node, 4), trace(node, 4, older=older))
    put(suite, "bits 0 and 22, namespace 123", "9197 4.4.2.13", adds_snapshot(node, 4), trace(node, 4, namespace=OTHER_KNOWN))
    all_defined = kind_of(*DEFINED, SNAPSHOT)
    put(suite, "bits 0 to 11 and 22", "9197 4.4.2.13", adds_snapshot(all_defined, 40), trace(all_defined, 40))


def hop_limits(suite):
    """Hop limits at their ends, traffic classes, and packets without an option."""
    rfc, room = "8200 3", trace(kind_of(0, 8), 6)
    for hops in (0, 1):
        put(suite, f"hop limit {hops}", rfc, DROPS, room, hops=hops)
    for hops in (2, 255):
        put(suite, f"hop limit {hops}", rfc, adds(3), room, hops=hops)
    put(suite, "traffic class 0xb9", "8200 7", adds(1), trace(NODE, 2), traffic=0xB9)
    suite.add("no options header", rfc, PASSES, UDP, suite.way.udp(f"vector {suite.label()}"))
    suite.add("no payload", rfc, PASSES)
    suite.add("Hop-by-Hop Options of padding alone", "8200 4.3", PASSES, **framed(suite, b""))


def chains(suite):
    """Other headers behind a trace, and packets within packets."""
    room = trace(NODE, 2)
    for left in (0, 1):
        put(suite, f"a Routing header, {plural(left, 'segment')} left", "8200 4.4", adds(1), room, following=ROUTING,
            payload=routing(NOTHING, left))
    for what, offset, more in (("a first fragment", 0, 1), ("a later fragment", 2, 0), ("an atomic fragment", 0, 0)):
        payload = fragment(NOTHING, offset, more) + bytes(16)
        put(suite, what, "8200 4.5", adds(1), room, following=FRAGMENT, payload=payload)
    edge_data = options_header(UDP, aligned(ioam(edge(5), EDGE, STAYS)))
    put(suite, "a trace with edge-to-edge data behind it", "9486 3", adds(1), room, following=DESTINATION,
        payload=edge_data + suite.way.udp(f"vector {suite.label()}"))
    inner = suite.way.packet(suite.label(), HOP_BY_HOP, options_header(NOTHING, aligned(ioam(room))), hops=9)
    put(suite, "a nested packet with a trace of its own", "9197 3", f"{adds(1)} to the outer trace", room, following=NESTED,
        payload=inner)
    inner = suite.way.packet(suite.label(), HOP_BY_HOP, options_header(NOTHING, aligned(ioam(room))), hops=9)
    suite.add("a nested packet with a trace, none outside", "9197 3", PASSES, NESTED, inner)


def cut_data(suite):
    """An option that ends within the head of its trace."""
    whole = ioam(trace(NODE, 0))[2:]
    for size in range(10):
        octets = padding(2) + bytes([CHANGES, size]) + whole[:size]
        suite.add(f"an option of {plural(size, 'octet')} of data", "9486 3, our reading", PASSES, **framed(suite, octets))


def broken(suite):
    """Headers that aren't whole."""
    options, room = aligned(ioam(trace(NODE, 2))), trace(NODE, 2)

    def put_broken(what, following, payload, **fields):
        suite.add(what, "8200 4", UNJUDGED, following, payload, **fields)

    put_broken("Hop-by-Hop Options that run past the packet", HOP_BY_HOP, options_header(NOTHING, options, size=9))
    put_broken("an option that runs past its header", HOP_BY_HOP, options_header(NOTHING, options[:3] + b"\xc8" + options[4:]))
    put_broken("an option without a length octet", HOP_BY_HOP, bytes([NOTHING, 0, 1, 3, 0, 0, 0, CHANGES]))
    put_broken("a packet shorter than its payload length", HOP_BY_HOP, options_header(NOTHING, options), length=32)
    put_broken("Hop-by-Hop Options behind Destination Options", DESTINATION,
               options_header(HOP_BY_HOP, padding(6)) + options_header(NOTHING, options))
    for what, following, payload in (("Destination Options", DESTINATION, bytes([NOTHING, 3, 1, 4, 0, 0, 0, 0])),
                                     ("a Routing header", ROUTING, bytes([NOTHING, 2, 253, 1, 0, 0, 0, 0])),
                                     ("a Fragment header", FRAGMENT, bytes([NOTHING, 0, 0, 1])),
                                     ("a nested header", NESTED, bytes([0x60, 0, 0, 0, 0, 0, NOTHING, 64]))):
        put(suite, f"a trace, and {what} cut behind it", "8200 4", UNJUDGED, room, following=following, payload=payload)


GROUPS = (types, undefined_types, node_lens, rooms, flags, namespaces, several, places, other_options, snapshots, hop_limits,
          chains, cut_data, broken)
