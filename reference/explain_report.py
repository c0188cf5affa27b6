"""The report of `explain`: from which packet before a router each packet after it comes, and the reason if the router may not have
made it of that."""

from audit_packets import Packet
from explain import SECTIONS, hop_octets, why
from faults_reach import reached

MOST_HELD, MOST_HELD_OCTETS = 16_384, 33_554_432
MOST_AHEAD, MOST_AHEAD_OCTETS = 12_288, 25_165_824
NEAR_KIND, NEAR_PAIR, APART = 128, 16, 4_096


def kind_of(octets):
    """What no router on the way touches: the addresses, and what follows the Hop-by-Hop Options header, with its value."""
    size = hop_octets(octets)
    return octets[8:40], octets[40] if size else octets[6], octets[40 + size:]


def pair_of(octets):
    """The addresses."""
    return octets[8:40]


def distance(one, other):
    """In how many octets two packets differ; octets that only one has count too."""
    return sum(a != b for a, b in zip(one, other)) + abs(len(one) - len(other))


def spelled(octets):
    """An address, in eight groups (RFC 4291 section 2.2)."""
    return ":".join(f"{int.from_bytes(octets[at:at + 2], 'big'):x}" for at in range(0, 16, 2))


def is_local(octets):
    """Whether no router sends a packet of this address on (RFC 4291 sections 2.5 and 2.7)."""
    if octets[0] == 255:
        return octets[1] & 15 <= 2
    return octets[:15] == bytes(15) and octets[15] < 2 or octets[0] == 0xFE and octets[1] & 0xC0 == 0x80


class Index:
    """The held packets of each kind, or of each pair, by number, and the one named last."""

    def __init__(self, near, key):
        self.near, self.key, self.numbers, self.last = near, key, {}, {}

    def hold(self, number, octets):
        """A packet is held."""
        self.numbers.setdefault(self.key(octets), []).append(number)

    def let_go(self, number, octets):
        """It no longer is; which was named last is forgotten with the last one held."""
        key = self.key(octets)
        self.numbers[key].remove(number)
        if not self.numbers[key]:
            del self.numbers[key]
            self.last.pop(key, None)

    def name(self, number, octets):
        """A packet was named."""
        self.last[self.key(octets)] = number

    def candidates(self, octets):
        """Those ahead of the one named last, and those up to it, the nearest first."""
        key = self.key(octets)
        found, last = self.numbers.get(key, []), self.last.get(key, 0)
        ahead = [number for number in found if number > last]
        return ahead[:self.near], [number for number in reversed(found) if number <= last][:self.near]


class Held:
    """BEFORE, as far as it was read; a packet's number is its place, from 1."""

    def __init__(self, before):
        self.before, self.read, self.first, self.far = before, 0, 1, 0
        self.octets = self.beyond = 0
        self.kinds, self.pairs = Index(NEAR_KIND, kind_of), Index(NEAR_PAIR, pair_of)
        self.named = {}

    def packet(self, number):
        """A packet by its number."""
        return self.before[number - 1]

    def size(self, number):
        """How many octets of a packet are held."""
        packet = self.packet(number)
        return len(packet.octets) if packet.reason is None else 0

    def fill(self):
        """Reads ahead of the greatest number that was named, and lets go of the first."""
        while self.read < len(self.before) and self.read - self.far < MOST_AHEAD and self.beyond < MOST_AHEAD_OCTETS:
            self.read += 1
            size = self.size(self.read)
            self.beyond += size
            self.octets += size
            if self.packet(self.read).reason is None:
                for index in (self.kinds, self.pairs):
                    index.hold(self.read, self.packet(self.read).octets)
            while self.read - self.first >= MOST_HELD or self.octets > MOST_HELD_OCTETS:
                self.let_go()

    def let_go(self):
        """Lets go of the first packet that is held."""
        if self.packet(self.first).reason is None:
            for index in (self.kinds, self.pairs):
                index.let_go(self.first, self.packet(self.first).octets)
        self.octets -= self.size(self.first)
        self.first += 1

    def name(self, number, line):
        """A line names a packet."""
        self.named.setdefault(number, set()).add(line)
        for index in (self.kinds, self.pairs):
            index.name(number, self.packet(number).octets)
        while self.far < number:
            self.far += 1
            self.beyond -= self.size(self.far)

    def is_sent(self, number):
        """Whether a line says that a packet was sent."""
        return "sent" in self.named.get(number, ())

    def fresh(self, numbers):
        """Those that no line named."""
        return [number for number in numbers if number not in self.named]


class Explained:
    """The report over two captures' arrivals; `whole` says that both were read to their end."""

    def __init__(self, seat, before, after, whole=True):
        self.seat, self.held = seat, Held([Packet(one) for one in before])
        self.after = [Packet(one) for one in after]
        self.counts = dict.fromkeys(("sent", "wrong", "repeat", "back", "like", "unknown", "skipped"), 0)
        self.rules, self.lines = {}, []
        self.first_wrong = self.first_open = self.apart = None
        self.strange = 0
        for number, packet in enumerate(self.after, 1):
            self.held.fill()
            self.judge(number, packet)
        self.sums()
        if whole:
            self.lines.append(self.verdict())
        self.text = "".join(f"{line}\n" for line in self.lines)

    def add(self, line, word):
        """A line about a packet of AFTER."""
        self.lines.append(line)
        self.counts[word] += 1
        reached(f"explain: {word}")

    def judge(self, number, packet):
        """What a packet of AFTER is."""
        if packet.reason not in (None, "chain"):
            self.add(f"{number} skip {packet.reason}", "skipped")
            return
        ahead, back = self.held.kinds.candidates(packet.octets)
        if packet.reason is None and self.has_origin(number, packet, ahead, back):
            return
        if ahead or back:
            self.wrong(number, packet, ahead + back)
        elif packet.reason is not None:
            self.add(f"{number} skip chain", "skipped")
        else:
            self.other(number, packet)

    def has_origin(self, number, packet, ahead, back):
        """Whether it was sent, once more or for the first time, or went the other way."""
        held = self.held
        for one in ahead + back:
            if not held.is_sent(one) and self.is_legal(one, packet):
                self.named(one, "sent")
                self.add(f"{number} sent {one}", "sent")
                return True
        for one in back + ahead:
            if held.is_sent(one) and self.is_legal(one, packet):
                self.add(f"{number} repeat {one}", "repeat")
                return True
        for one in held.fresh(ahead + back):
            old = held.packet(one).octets
            if packet.octets[:7] + packet.octets[8:40] == old[:7] + old[8:40] and packet.octets[7] == old[7] + 1:
                self.named(one, "back")
                self.add(f"{number} back {one}", "back")
                return True
        return False

    def is_legal(self, number, packet):
        """Whether a packet before may have become one after."""
        old = self.held.packet(number)
        return self.seat.may_send(old.octets, old.chain, packet.octets)

    def named(self, number, line):
        """A packet before is named."""
        self.held.name(number, line)
        self.strange = 0

    def nearest(self, packet, near):
        """The candidate that differs in the fewest octets, and the reason why it isn't the packet."""
        best = min(near, key=lambda one: distance(self.held.packet(one).octets, packet.octets))
        return best, why(self.seat, self.held.packet(best).octets, packet.octets)

    def wrong(self, number, packet, near):
        """Has the kind of a packet before, and isn't legal for any that wasn't sent."""
        best, reason = self.nearest(packet, self.held.fresh(near) or near)
        self.named(best, "wrong")
        self.add(f"{number} wrong {best} {reason}", "wrong")
        self.lines.extend(words_of(self.held.packet(best).octets, packet.octets, reason))
        count, first = self.rules.get(reason.rule, (0, number))
        self.rules[reason.rule] = (count + 1, first)
        self.first_wrong = self.first_wrong or number

    def other(self, number, packet):
        """Has the kind of none before."""
        ahead, back = self.held.pairs.candidates(packet.octets)
        fresh = self.held.fresh(ahead + back)
        if fresh:
            best, reason = self.nearest(packet, fresh)
            self.add(f"{number} like {best} {reason}", "like")
            self.first_open = self.first_open or number
        else:
            self.add(f"{number} unknown {spelled(packet.octets[8:24])} {spelled(packet.octets[24:40])}", "unknown")
        if fresh or ahead or back:
            self.strange += 1
            if self.strange == APART and self.apart is None:
                self.apart = number
                self.first_open = self.first_open or number

    def fate(self, number):
        """What became of a packet before."""
        packet, named = self.held.packet(number), self.held.named.get(number, set())
        for word in ("sent", "wrong", "back"):
            if word in named:
                return word
        if packet.reason is not None:
            return "skipped"
        own = self.seat.domain.node[self.seat.node]["address"].to_bytes(16, "big")
        ends = (packet.octets[8:24], packet.octets[24:40])
        return "due" if packet.octets[7] < 2 or own in ends or any(map(is_local, ends)) else "gone"

    def sums(self):
        """The lines after those of the packets."""
        fates = [self.fate(number) for number in range(1, len(self.held.before) + 1)]
        first = None
        for number, fate in enumerate([*fates, "end"], 1):
            if fate == "gone":
                first = first or number
            elif first is not None:
                self.lines.append(f"gone {first}" + (f" to {number - 1}" if first < number - 1 else ""))
                first = None
        for rule in sorted(self.rules, key=list(SECTIONS).index):
            self.lines.append("rule {} packets {} first {}".format(rule, *self.rules[rule]))
        if self.apart is not None:
            self.lines.append(f"apart {self.apart}")
        words = ("sent", "wrong", "back", "gone", "due", "skipped")
        self.lines.append(f"before {len(fates)} " + " ".join(f"{word} {fates.count(word)}" for word in words))
        self.lines.append(f"after {len(self.after)} " + " ".join(f"{word} {count}" for word, count in self.counts.items()))

    def verdict(self):
        """The last line."""
        if self.first_wrong:
            return f"verdict no {self.first_wrong}"
        if self.first_open:
            return f"verdict open {self.first_open}"
        return "verdict yes" if self.counts["sent"] else "verdict none"


def words_of(before, after, reason):
    """The words of a trace before and after: its header, and eight from the one in which a reason's octet stands."""
    if not reason.trace:
        return
    at, trace = 42, 0
    while True:
        size = before[at + 1] + 2 if before[at] else 1
        if before[at] == 0x31 and size >= 12 and before[at + 3] == 0:
            trace += 1
            if trace == reason.trace:
                break
        at += size
    start, end = at + 4, at + size
    first = start + 8 + max(0, reason.at - start - 8) // 4 * 4
    for word, octets in (("came", before), ("went", after)):
        shown = octets[start:start + 8], octets[first:min(end, first + 32)]
        words = [part[at:at + 4].hex() for part in shown for at in range(0, len(part), 4)]
        yield f"    {word} " + " ".join(words)
