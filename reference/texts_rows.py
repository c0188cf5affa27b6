"""Examples worked out by hand, over which the model is tried before it is compared with the program."""

from exports_records import collected, read_exports
from faults_answers import answer
from hand_line import LINE as DOMAIN, U
from ng_captures import NG_HEAD, classic_record, read_capture

HEAD = bytes.fromhex("a1b23c4d0002000400000000000000000004000000000065")
TO_C = bytes.fromhex("20010db800000000000000000000000c")


def packet(headers, first=0, target=None, hops=64):
    """An IPv6 packet with so many octets of headers."""
    octets = bytes.fromhex(headers.replace(" ", ""))
    return b"\x60\0\0\0" + len(octets).to_bytes(2, "big") + bytes([first, hops]) + U[8:24] + (target or U[24:40]) + octets


def capture(*packets):
    """A capture of packets at the second second."""
    return HEAD + b"".join(classic_record(10**9, one) for one in packets)


def over(words, files):
    """The line and the outputs of words over files."""
    line, _, outputs = answer(words.encode().split(), files)
    return line, outputs


def expect(found, wanted):
    """Complains where an example comes out otherwise."""
    if found != wanted:
        raise AssertionError(f"found  {found}\nwanted {wanted}")


def node_case(option, note, changed=None, exports=""):
    """One packet with one option of ten octets and more through node b."""
    size = len(bytes.fromhex(option.replace(" ", ""))) + 4
    head = bytes([59, (size + 7) // 8 - 1, 1, 0]).hex()
    pad = -size % 8
    padding = {0: "", 1: "00"}.get(pad, f"01{pad - 2:02x}" + "00" * (pad - 2))
    files = {"D": DOMAIN.encode(), "R": b"", "I": capture(packet(head + option + padding, 0, TO_C))}
    line, outputs = over("node D R b ab I O P E", files)
    sent = packet(head + (changed or option) + padding, 0, TO_C, 63)
    expect(line, "done")
    expect(outputs["P"].decode(), f"1 out bc\n{note}packets 1 out 1 dropped 0\n")
    expect(outputs["O"].hex(), capture(sent).hex())
    expect(outputs["E"].hex(), exports.replace(" ", ""))


def node_rows():
    """What a node does with a trace or direct export."""
    node_case("311a 0000 0007 0809 80000000" + "00" * 16, "  trace 7 unsuited\n")
    node_case("3112 0000 0007 1002 80080000 0000000000000000", "  trace 7 added 2\n",
              "3112 0000 0007 1000 80080000 3f000002ffffffff")
    node_case("310e 0000 0007 0c01 80000000 00000000", "  trace 7 over\n")
    node_case("310e 0000 0009 0801 80000000 00000000", "  trace 9 unknown\n")
    node_case("310e 0000 0007 0801 80000000 00000000" * 2, "  trace 7 added 1\n" * 2,
              "310e 0000 0007 0800 80000000 3f000002" * 2)
    record = "02 00 001a 0007 00 800000 000000003b9aca00 00000015 3f000002"
    for kind in ("800000", "810000"):
        node_case(f"110a 0004 0007 0000 {kind}00", "  direct 7 exported\n", None, record)
    node_case("3103 000007", "  option short\n")
    node_case("310a 0000 0007 0800 80000000", "  trace 7 overflow\n", "310a 0000 0007 0c00 80000000")
    expect(over("node D R z ab I O P E", {"D": DOMAIN.encode(), "R": b""})[0], "names z")


def leak_rows(inside):
    """Packets that show IOAM data, and such that hide some."""
    sums = "packets 1 clean {} carries {} quotes {} hidden {} unseen 0\n"
    flow = "2001:db8:: 2001:db8::1"

    def shown(following, octets):
        packet = (b"\x60\0\0\0" + len(octets).to_bytes(2, "big") + bytes([following, 64])
                  + bytes.fromhex("20010db8" + "00" * 12 + "20010db8" + "00" * 11 + "01") + octets)
        made = over("leaks I O P", {"I": capture(packet)})[1]
        return made["P"].decode(), made["O"] == capture(packet)

    def leaking(how, counts):
        return f"1 {how} {flow}\nflow 1 {how} {flow}\n" + sums.format(*counts), True

    def hidden(why):
        return f"1 hidden {why} {flow}\n" + sums.format(0, 0, 0, 1), False

    clean = sums.format(1, 0, 0, 0), False
    inner = b"\x60\0\0\0\0\x10\0\x40" + bytes(32)
    trace = bytes.fromhex("3b01310a0000000000000000") + bytes(4)
    error = bytes.fromhex("0104000000000000")
    expect(over("leaks I O P", {"I": capture(inside)})[1]["P"].decode().split(" ")[1], "carries")
    expect(shown(17, bytes(8)), clean)
    expect(shown(58, error + inner + trace), leaking("quotes", (0, 0, 1, 0)))
    expect(shown(58, error + inner + trace[:3]), leaking("quotes", (0, 0, 1, 0)))
    expect(shown(58, error + inner + trace[:2]), clean)
    expect(shown(58, b"\x80" + error[1:] + inner + trace), clean)
    for following, why in ((50, "esp"), (51, "ah")):
        expect(shown(following, bytes(8)), hidden(why))
    expect(shown(44, bytes.fromhex("3a00000800000001") + error + inner + trace), hidden("fragment"))
    expect(shown(0, bytes.fromhex("3b01010400000000")), hidden("chain"))
    expect(shown(0, bytes.fromhex("2b00310400000000") + bytes.fromhex("3b010000")), leaking("carries", (0, 1, 0, 0)))


def capture_rows():
    """Captures and their faults."""
    kept = over("filter I O P", {"I": capture(U)})
    expect(kept, ("done", {"O": capture(U), "P": b"1 kept\npackets 1 kept 1 dropped 0\n"}))
    cut = HEAD + bytes(16) + bytes.fromhex("00000001000000000000003000000031") + U
    expect(over("filter I O P", {"I": cut})[1]["P"], b"1 drop not-ipv6\n2 drop cut\npackets 2 kept 0 dropped 2\n")
    inside = U[:4] + b"\x00\x30\x29" + U[7:40] + U[:4] + b"\x00\x08\x00" + U[7:40] + bytes.fromhex("3b00310400000000")
    expect(over("filter I O P", {"I": capture(inside)})[1]["P"], b"1 drop ioam-in\npackets 1 kept 0 dropped 1\n")
    leak_rows(inside)
    little = bytes.fromhex("d4c3b2a102000400000000000000000000000400010000000100000020a107003e0000003e000000" + "00" * 12 + "86dd") + U
    expect(over("filter I O P", {"I": little})[1]["O"].hex()[48:80], "000000011dcd65000000003000000030")
    wide = HEAD[:24] + bytes.fromhex("00000001773594000000000000000000")
    expect(read_capture(wide)[0][0].time, 3 * 10**9)
    ends = {b"\x0a\x0d\x0d\x0a": (0, "short 4"), HEAD[:20] + b"\0\0\0\x71": (0, "link 113"),
            HEAD + bytes(8) + b"\0\4\0\1" + bytes(4): (24, "long 262145"), capture(U, U, U)[:170]: (152, "short 18"),
            NG_HEAD + bytes.fromhex("00000003000000100000000000000010"): (92, "kind 3")}
    for octets, fault in ends.items():
        expect(read_capture(octets)[1], fault)
    expect(NG_HEAD.hex(), "0a0d0d0a0000001c1a2b3c4d00010000ffffffffffffffff0000001c"
           + "".join(f"0000000100000020{link}000000040000000900010900000000000000 00000020".replace(" ", "") for link in ("0065", "0001")))
    saved = NG_HEAD + bytes.fromhex("000000060000005000000000000000003b9aca000000003000000030") + U + b"\0\0\0\x50"
    expect(over("save I O", {"I": capture(U)}), ("done", {"O": saved}))
    expect(over("save I O", {"I": saved}), ("done", {"O": saved}))


def list_rows():
    """What is listed of options."""
    shown = packet("3b020100 311200010007080580000000 3f00000240000001")
    text = over("show I P", {"I": capture(shown)})[1]["P"].decode()
    expect(text.split("\n")[1:4], ["  31 at 44 incremental 7 800000 flags 0 remaining 5", "    hop=64 node=1", "    hop=63 node=2"])
    bad = capture(packet("3b020100 310e0000 0007080580000000 00000000 01020000"))
    expect(over("paths I P", {"I": bad})[1]["P"], b"1 traces 1\n  trace bad space 5\npackets 1\n")
    fields = packet("3b040100 31220000 00072000c0400200 3d000005 ffff0002 00011170 00000002 01000009 aabbccdd")
    text = over("paths I P", {"I": capture(fields)})[1]["P"].decode()
    expect(text.split("\n")[2], "    hop=61 node=5 in=- out=2 win=70000 wout=2 schema=000009 opaque=aabbccdd")
    edge = packet("3b010100 110a0003 00074000 00000000", 60)
    expect("\n  11 at 44 edge 7 4000 seq32=0\n" in over("show I P", {"I": capture(edge)})[1]["P"].decode(), True)


def delay_rows():
    """Delays of one packet and of a hundred, from a node to the next."""
    two = "3b040100 31220000 00071800b0000000 3e000002 00000001 {:08x} 3f000001 00000001 0000000a"

    def lines(*stamps):
        packets = capture(*(packet(two.format(stamp), hops=62) for stamp in stamps))
        return over("delays posix I P", {"I": packets})[1]["P"].decode().split("\n")

    expect(lines(8010), [
        "format posix fractions 2 most 8010 narrowest posix", "namespace 7 traces 1 overflow 0 empty 0",
        "  way 1 2 count 1 share 100.0 delays 1 least 8000000 mean 8000000 most 8000000",
        "  hop 1 2 past 0 count 1 share 100.0 delays 1 least 8000000 p50 8000000 p90 8000000 p99 8000000 most 8000000 mean 8000000 negative 0",
        "       7.99ms to  8.12ms 1 " + 40 * "#", "  node 1 seen 1 stamped 1 bad 0 long 0 delays 0",
        "  node 2 seen 1 stamped 1 bad 0 long 0 delays 0", "traces 1 overflow 0 bad 0", "packets 1 skipped 0", ""])
    hundred = lines(*range(11, 111))
    expect(hundred[3].split(" share 100.0 ")[1], "delays 100 least 1000 p50 50175 p90 90111 p99 100000 most 100000 mean 50500 negative 0")
    expect(hundred[4:7] + hundred[17:19], ["        768ns to  1.02us  1 ##", "      ...", "       1.53us to  2.04us  1 ##",
                                           "       65.5us to  98.3us 33 " + 40 * "#", "       98.3us to   131us  2 ###"])


def export_rows():
    """Export records and their groups."""
    one = bytes.fromhex("01c0001600070080000000000009000000004000000103")
    records, fault = read_exports(one)
    expect(fault, (22, "version 3"))
    expect(collected(records), b"group 7 9 0 1\n  800000 hop=64 node=1\nrecords 1 kept 1 repeats 0 unkeyed 0\n")
    two = bytes.fromhex("02c0002200070080 0000 000000003b9aca00 0000000a 00000009 00000000 40000001".replace(" ", ""))
    expect(collected(read_exports(one[:22] + two + one[:22])[0]),
           b"group 7 9 0 1\n  800000 hop=64 node=1 at=1000000000 from=10\nrecords 3 kept 1 repeats 2 unkeyed 0\n")


def fault_rows():
    """Faulty domain files and readings."""
    faults = {
        DOMAIN.replace('name = "a",', 'colour = 1, name = "a",', 1): "domain node 1 other unknown",
        DOMAIN.replace("1500", "1279", 1): "domain link 1 mtu range",
        DOMAIN + '[[extra]]\nflow = "f"\nnamespace = 7\ntrace = 0x800000\ncapacity = 2\n': "domain extra 1 namespace twice",
        DOMAIN + '[[extra]]\nflow = "f"\nnamespace = 9\ntrace = 0x800000\ncapacity = 2\n': "domain extra 1 namespace range",
    }
    for text, line in faults.items():
        expect(over("node D R a ab I O P E", {"D": text.encode()})[0], line)
    expect(over("node D R a ab I O P E", {"D": DOMAIN.encode(), "R": b"a 0 0 - - -\na 0 0 - - -\n"})[0], "readings 2 order")
    for words in ("run L R 0 P E", "run", ""):
        expect(over(words, {})[0], "usage")


def check():
    """Tries every example."""
    for rows in (capture_rows, list_rows, delay_rows, node_rows, export_rows, fault_rows):
        rows()
