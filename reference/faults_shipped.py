"""Inputs that are made of the shipped examples, with octets changed, cut out and put in."""

import os

from foreign_random import some

EXAMPLES = os.path.join(os.path.dirname(os.path.abspath(__file__)), "..", "examples")
CAPTURES = ("linux-ioam.pcap", "live.pcapng", "two-links.pcapng", "reasons.pcap", "three/west.pcap")
DOMAINS = ("one-node", "one-node", "three", "two-traces", "boundary")
WAYS = {"one-node": (b"three", b"two-three"), "three": (b"b", b"ab"), "two-traces": (b"c", b"bc"), "boundary": (b"b", b"ab")}


def shipped(name):
    """What a shipped file holds."""
    with open(os.path.join(EXAMPLES, name), "rb") as file:
        return file.read()


def changed(rng, octets, often):
    """The same octets with a few of them changed, or some cut out or put in."""
    octets = bytearray(octets)
    for _ in range(rng.choice(often)):
        if not octets:
            break
        place, way = rng.randrange(len(octets)), rng.random()
        if way < 0.6:
            octets[place] = rng.choice((0, 1, 255, octets[place] ^ 1 << rng.randrange(8), rng.getrandbits(8)))
        elif way < 0.8:
            del octets[place:place + rng.choice((1, 4, 16))]
        else:
            octets[place:place] = some(rng, rng.choice((1, 4, 8)))
    return bytes(octets)


def over_shipped(rng):
    """A command over a shipped capture, and `node` over a shipped domain, each a little changed."""
    capture = changed(rng, shipped(rng.choice(CAPTURES)), (0, 1, 1, 2, 5, 20))
    if rng.random() < 0.5:
        command = rng.choice((b"filter", b"leaks", b"paths", b"show", b"save"))
        return [command, b"I", b"O"] + [b"P"] * (command in (b"filter", b"leaks")), {"I": capture}
    folder = rng.choice(DOMAINS)
    domain, readings = shipped(f"{folder}/domain.toml"), shipped(f"{folder}/readings")
    if rng.random() < 0.3:
        readings = changed(rng, readings, (1, 2))
    return [b"node", b"D", b"R", *WAYS[folder], b"I", b"O", b"P", b"E"], {"D": domain, "R": readings, "I": capture}
