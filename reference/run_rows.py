"""Small runs whose outputs were written by hand, as the model answers them."""

from capture import HEAD, put_record
from hand_line import LINE, U
from run_bulk import bulk
from run_collect import collect
from run_program import run

SECOND = 10 ** 9
WORDS = ["run", "domain", "readings", "1", "report", "exports"]


def west(*packets, time=SECOND):
    return HEAD + b"".join(put_record(time, packet) for packet in packets)


def answer(text=LINE, capture=None, readings=b"", words=None, **more):
    files = {"domain": text.encode(), "readings": readings,
             "west.pcap": west(U) if capture is None else capture}
    files.update((name + ".pcap", data) for name, data in more.items())
    return run(words or WORDS, files)


def hexed(text):
    return bytes.fromhex(text.replace(" ", ""))


def check(name, holds):
    print("%-40s %s" % (name, "as written" if holds else "OTHERWISE"))
    return holds


def plain_rows():
    got = answer().outputs
    yield "ab's packet", got["ab.pcap"][24:] == hexed(
        "00000001 00000000 00000078 00000078 6000000000500040"
        "20010db800000000000000000000000a 20010db800000000000000000000000c"
        "29030100 31160000 00070802 80000000 00000000 00000000 40000001 01020000"
        "600000000008113f") + U[8:]
    yield "bc's words", hexed("00070801 80000000 00000000 3f000002 40000001") in got["bc.pcap"]
    yield "east's packet", got["east-out.pcap"][24:] == hexed(
        "00000001 000007d0 00000030 00000030 600000000008113e") + U[8:]
    yield "the report", got["report"].decode() == (
        "1 west left east flow f 0\n  trace 7 800000 whole 3\n    hop=64 node=1\n"
        "    hop=63 node=2\n    hop=62 node=3\npackets 1 left 1 dropped 0\n"
        "node a seen 1 dropped 0\nnode b seen 1 dropped 0\nnode c seen 1 dropped 0\n"
        "flow f enclosed 1 exited 1 direct 0\n")
    got = answer(LINE.replace("capacity = 3", "capacity = 2")).outputs
    yield "room for two", b"  trace 7 800000 overflow 2\n" in got["report"]
    got = answer(LINE.replace('"2001:db8::b", namespaces = [7]', '"2001:db8::b", namespaces = []'))
    yield "a node that doesn't know", (
        b"whole 2\n    hop=64 node=1\n    hop=62 node=3\n" in got.outputs["report"])
    got = answer(capture=HEAD).outputs
    yield "no packet", got["report"].startswith(b"packets 0 left 0 dropped 0\n")
    got = answer(capture=west(U[:7] + b"\2" + U[8:])).outputs
    yield "hop limit 2", got["report"].startswith(
        b"1 west drop hop-limit c flow f 0\n  trace 7 800000 whole 3\n")
    got = answer(capture=west(U[:7] + b"\3" + U[8:])).outputs
    yield "hop limit 3", got["east-out.pcap"][24 + 16 + 7] == 1


def option_rows():
    snap = LINE.replace("0x800000, capacity = 3", "0x800002, capacity = 8")
    snap += ('data = [ { node = "a", namespace = 7, schema = 5, snapshot = "0011223344556677" },'
             '{ node = "b", namespace = 7, schema = 6, snapshot = "%s" } ]' % ("00" * 32))
    got = answer(snap).outputs
    yield "a snapshot", (hexed("00070804") in got["ab.pcap"] and hexed("00070c04") in got["bc.pcap"]
                         and got["ab.pcap"][-64:-48] == hexed("40000001 02000005 0011223344556677"))
    edge = LINE.replace("capacity = 3", "capacity = 3, edge = 0x4000")
    edge = edge.replace('  { name = "east"', '  { name = "west2", node = "a", id = 11, '
                        'in = "two.pcap", out = "two-out.pcap" },\n  { name = "east"')
    long = U[:4] + (1440).to_bytes(2, "big") + U[6:40] + bytes(1440)
    got = answer(edge, west(U) + put_record(SECOND + 1, U), two=west(long)).outputs
    yield "edge-to-edge", (
        hexed("29010100 110a0003 00074000 00000000") in got["ab.pcap"]
        and b"2 west2 drop too-big a\n3 west left east flow f 1\n" in got["report"])
    limit = (U[:4] + (16).to_bytes(2, "big") + hexed("3c40") + U[8:40]
             + hexed("1100040100010100") + U[40:])
    got = answer(capture=west(limit))
    yield "limit 0", got.outputs["report"].startswith(b"1 west drop encap-limit a\n")
    limit = limit[:44] + b"\1" + limit[45:]
    limit = U[:4] + (16).to_bytes(2, "big") + hexed("3c40") + U[8:40] + hexed("1100040101010100") + U[40:]
    got = answer(capture=west(limit))
    yield "limit 1", hexed("2900040100010100") in got.outputs["ab.pcap"]
    clocks = LINE.replace("0x800000, capacity = 3", "0x3a1000, capacity = 15")
    got = answer(clocks, readings=b"a 0 0 2147483648 3 4").outputs
    yield "readings", got["ab.pcap"][-72:-52] == hexed("00000001 00000000 80000000 00000003 00000004")


def loop_and_export_rows():
    loop = LINE.replace("]\nport", '  { name = "ba", from = "b", to = "a", out_id = 24, in_id = 13,'
                        ' delay = 1000, mtu = 1500 },\n]\nport')
    loop = loop.replace('link = "bc" }', 'link = "ba" }').replace("hops = 64, trace = 0x800000, "
                        "capacity = 3", "hops = 5, direct = 0x800000, every = 1, flow_id = 9")
    got = answer(loop).outputs
    yield "a loop", got["report"] == (
        b"1 west drop hop-limit b flow f 0 direct 0\npackets 1 left 0 dropped 1\n"
        b"node a seen 3 dropped 0\nnode b seen 3 dropped 1\nnode c seen 0 dropped 0\n"
        b"flow f enclosed 1 exited 0 direct 1\n")
    yield "its groups", collect(["collect", "exports", "r"], got).outputs["r"] == (
        b"group 7 9 0 5\n  800000 hop=5 node=1 at=1000000000 from=10\n"
        b"  800000 hop=4 node=2 at=1000001000 from=21\n"
        b"  800000 hop=3 node=1 at=1000002000 from=13\n"
        b"  800000 hop=2 node=2 at=1000003000 from=21\n"
        b"  800000 hop=1 node=1 at=1000004000 from=13\n"
        b"records 5 kept 5 repeats 0 unkeyed 0\n")
    third = LINE.replace("capacity = 3", "capacity = 3, direct = 0x800000, every = 3, flow_id = 9")
    got = answer(third, west(*[U] * 7)).outputs
    yield "each third packet", (len(got["exports"]) == 9 * 34 and got["exports"].startswith(hexed(
        "02c00022 0007 00 800000 000000003b9aca00 0000000a 00000009 00000000 40000001")))
    one = hexed("01c00016 000700 800000 00000009 00000000 40000001")
    two = got["exports"][:34]
    files = {"e": one + two + one}
    yield "both versions", collect(["collect", "e", "r"], files).outputs["r"] == (
        b"group 7 9 0 1\n  800000 hop=64 node=1 at=1000000000 from=10\n"
        b"records 3 kept 1 repeats 2 unkeyed 0\n")
    got = collect(["collect", "e", "r"], {"e": one + b"\3"})
    yield "a wrong version", got.line == "exports 22 version 3\n" and got.status == 6
    more = LINE + 'extra = [ { flow = "f", namespace = 8, trace = 0x800000, capacity = 2 } ]'
    more = more.replace('a", namespaces = [7]', 'a", namespaces = [7, 8]')
    more = more.replace('c", namespaces = [7]', 'c", namespaces = [7, 8]')
    got = answer(more).outputs
    yield "two traces", hexed(
        "29050100 31160000 00070802 80000000 00000000 00000000 40000001"
        "31120000 00080801 80000000 00000000 40000001") in got["ab.pcap"]


def refusal_rows():
    got = answer(capture=west(U, U, U)[:170])
    yield "a cut capture", (got.line, got.status) == ("capture west.pcap 152 short 18\n", 5)
    got = answer(words=WORDS[:4] + ["east-out.pcap", "exports"])
    yield "an equal name", (got.line, got.status) == ("names east-out.pcap\n", 2)
    yield "workers 0", answer(words=WORDS[:3] + ["0"] + WORDS[4:]).status == 1
    got = answer(LINE.replace("id = 1,", "id = 1, colour = 3,"))
    yield "an unknown key", got.line == "domain node 1 other unknown\n"
    got = answer(LINE.replace("mtu = 1500", "mtu = 1279", 1))
    yield "a small mtu", got.line == "domain link 1 mtu range\n"
    got = answer(readings=b"a 0 0 - - -\na 0 0 - - -\n")
    yield "readings in order", (got.line, got.status) == ("readings 2 order\n", 4)
    got = answer("packets = 2\n" + LINE, west(U, U, U))
    yield "too many packets", (got.line, got.status) == ("packets 2\n", 7)
    got = answer(capture=hexed("0a0d0d0a"))
    yield "four octets of pcapng", got.line == "capture west.pcap 0 short 4\n"
    got = answer(capture=HEAD[:23] + b"\x71")
    yield "another link type", got.line == "capture west.pcap 0 link 113\n"
    yield "generated", bulk(["bulk", "0", "2", "1", "r"]).outputs["r"] == (
        b"packets 2 left 1 dropped 1\nnode n1 seen 2 dropped 1\nnode n2 seen 1 dropped 0\n"
        b"node n3 seen 1 dropped 0\nnode n4 seen 1 dropped 0\nnode n5 seen 1 dropped 0\n"
        b"flow f enclosed 0 exited 0 direct 0 next 0 gaps 0 missed 0 late 0 repeats 0\n")


if __name__ == "__main__":
    ROWS = [*plain_rows(), *option_rows(), *loop_and_export_rows(), *refusal_rows()]
    if not all([check(*row) for row in ROWS]):
        raise SystemExit(1)
