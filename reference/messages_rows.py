"""Examples of messages and parts worked out by hand, over which the model is tried before it is compared with the program."""

from faults_answers import answer
from messages_ipfix import data_octets, message_octets, set_octets, template_octets

PLAIN = bytes.fromhex("01c000160007008000000000000900000000" "40000001")
VISITED = bytes.fromhex("02c000220007008000 00" "000000003b9aca00" "0000000a" "0000000900000000" "40000001".replace(" ", ""))
HEAD = b"IOAMPART"
TEMPLATES = b"".join(template_octets(256 + place) for place in range(8))
FIRST = message_octets(set_octets(2, TEMPLATES))
SECOND = bytes.fromhex("000a00280000000000000000000000000106001800070" "0c08000000000000900000000" "0440000001")


def gives(words, files, line, outputs):
    """Complains where words give something else over files."""
    found = answer(words.encode().split(), files)
    if (found[0], found[2]) != (line, outputs):
        raise AssertionError(f"{words}: found {found[0]}, {found[2]}, wanted {line}, {outputs}")


def writing_rows():
    """What is written, and read back."""
    if len(FIRST) != 500 or not FIRST.hex().startswith("000a01f40000000000000000000000000002" "01e4010000058001000200007ed9"):
        raise AssertionError("the first message")
    gives("ipfix E O", {"E": b""}, "done", {"O": FIRST})
    gives("ipfix E O", {"E": PLAIN}, "done", {"O": FIRST + SECOND})
    gives("ipfix E O", {"E": PLAIN + b"\3"}, "exports 22 version 3", {"O": FIRST + SECOND})
    gives("records I E", {"I": FIRST + SECOND}, "done", {"E": PLAIN})
    gives("records I E", {"I": FIRST}, "done", {"E": b""})
    many = PLAIN * 33 + VISITED
    line, _, outputs = answer(b"ipfix E O".split(), {"E": many})
    counts = [int.from_bytes(outputs["O"][at + 8:at + 12], "big") for at in (500, 500 + 20 + 32 * 20, 500 + 40 + 33 * 20)]
    if (line, counts) != ("done", [0, 32, 33]) or not outputs["O"].endswith(data_octets(VISITED)):
        raise AssertionError(f"{line} {counts}")
    gives("records I E", {"I": outputs["O"]}, "done", {"E": many})


def data(*contents):
    """A message of data sets of the template of the plain record."""
    return message_octets(b"".join(set_octets(262, content) for content in contents))


def refused_rows():
    """What is refused behind the first message; and what isn't."""
    one = data_octets(PLAIN)
    faults = {
        b"\0\x0b": "version 11", b"\0\x0a\0\x0f": "length 15", b"\0\x0a\0": "short 3", b"\0": "short 1", SECOND[:-1]: "short 39",
        message_octets(b"\0\3\0"): "length 3", message_octets(b"\0\3\0\3"): "length 3", message_octets(b"\1\6\0\5"): "length 5",
        message_octets(set_octets(0, b"")): "set 0", message_octets(set_octets(255, b"")): "set 255",
        message_octets(set_octets(2, b"\1\x08\0\0")): "template 264", message_octets(set_octets(2, TEMPLATES[:9])): "template 256",
        message_octets(set_octets(2, b"\0\0\1")): "length 3", message_octets(set_octets(2, b"\0\0\0\0")): "template 0",
        SECOND.replace(b"\0\xc0", b"\0\1"): "field 20", data(one[:-1]): "field 20", data(one + bytes(8)): "field 40",
        data(one, one + b"\0\1"): "field 64", data(one[:-5] + b"\5" + one[-4:] + b"\0"): "field 20",
    }
    for octets, fault in faults.items():
        gives("records I E", {"I": FIRST + octets}, f"ipfix 500 {fault}", {"E": b""})
        gives("records I E", {"I": FIRST + SECOND + octets}, f"ipfix 540 {fault}", {"E": PLAIN})
    for octets in (data(one + bytes(7)), data(one, b""), data(data_octets(PLAIN, True)), message_octets(set_octets(264, b"x")) + data(one),
                   message_octets(set_octets(3, b"x") + set_octets(2, bytes(3)) + set_octets(262, one))):
        gives("records I E", {"I": FIRST + octets}, "done", {"E": PLAIN})
    gives("records I E", {"I": SECOND}, "ipfix 0 template 262", {"E": b""})
    gives("records I E", {"I": b""}, "done", {"E": b""})
    gives("records I E", {"I": message_octets(set_octets(262, one) + set_octets(2, TEMPLATES))}, "ipfix 0 template 262", {"E": b""})
    gives("records I I", {"I": b""}, "names I", {})
    gives("records I E", {}, "read fault", {})


def part_rows():
    """Parts, their faults, and how they are joined."""
    one, two = HEAD + b"\0\0\0\1" + PLAIN, HEAD + b"\0\0\0\1" + VISITED
    empty = HEAD + bytes(4)
    gives("part E P", {"E": PLAIN}, "done", {"P": one})
    gives("part E P", {"E": b""}, "done", {"P": empty})
    gives("part E P", {"E": PLAIN + VISITED + b"\3"}, "exports 56 version 3", {"P": two})
    for first, second in ((one, two), (two, one), (two, two), (empty, two), (two, empty)):
        gives("merge A B P", {"A": first, "B": second}, "done", {"P": two})
    gives("parts P R", {"P": empty}, "done", {"R": b"kept 0\n"})
    gives("parts P R", {"P": two}, "done", {"R": b"group 7 9 0 1\n  800000 hop=64 node=1 at=1000000000 from=10\nkept 1\n"})
    later = PLAIN[:-1] + b"\2"
    faults = {
        empty + b"\1": "12 rest", b"": "0 short 0", b"IOAMP": "0 short 5", b"XOAMP": "0 short 5", b"IOAMPARS": "0 mark",
        HEAD: "8 short 0", HEAD + b"\0\x10\0": "8 short 3", HEAD + b"\0\x10\0\1": "8 count 1048577", HEAD + b"\0\x10\0\0": "12 short 0",
        one[:-1]: "12 short 21", one[:15]: "12 short 3", HEAD + b"\0\0\0\1\3": "12 record version 3", one + b"\0": "34 rest",
        HEAD + b"\0\0\0\2" + PLAIN + PLAIN: "34 order", HEAD + b"\0\0\0\2" + PLAIN + VISITED: "34 order",
        HEAD + b"\0\0\0\2" + VISITED + PLAIN: "46 order", HEAD + b"\0\0\0\2" + later + PLAIN: "34 order",
        HEAD + b"\0\0\0\3" + PLAIN + later + VISITED: "56 order", HEAD + b"\0\0\0\1" + bytes.fromhex("0100000a000700000000"): "12 order",
        HEAD + b"\0\0\0\1" + PLAIN[:3] + b"\x11" + PLAIN[4:]: "12 record length 17",
        HEAD + b"\0\0\0\1" + PLAIN[:3] + b"\x15" + PLAIN[4:-1]: "12 record element 18",
    }
    for octets, fault in faults.items():
        gives("parts P R", {"P": octets}, f"part P {fault}", {})
        gives("merge A B P", {"A": two, "B": octets}, f"part B {fault}", {})
        gives("merge A B P", {"A": octets}, f"part A {fault}", {})
    gives("merge A B P", {"A": two}, "read fault", {})
    gives("merge A A P", {"A": two}, "names A", {})
    gives("merge A B B", {"A": two}, "names B", {})
    text = b"group 7 9 0 2\n  800000 hop=64 node=1\n  800000 hop=64 node=2\nkept 2\n"
    gives("parts P R", {"P": HEAD + b"\0\0\0\2" + PLAIN + later}, "done", {"R": text})


def check():
    """Tries every example."""
    for rows in (writing_rows, refused_rows, part_rows):
        rows()


if __name__ == "__main__":
    check()
    print("all rows as written")
