"""Whether the packets of a capture can be those of another that a node sent on (RFC 8200 section 3, RFC 9197 section 4.4), and
what `audit` prints of it."""

from audit_data import Sight, may_become
from faults_reach import reached
from foreign_packets import hop_options, judged, number

MOST_SEARCHED = 900


class Seat:
    """A node of a domain, which packets reach by a link."""

    def __init__(self, domain, node, link):
        self.domain, self.node = domain, node
        self.ident, self.inward = domain.node[node]["id"], domain.link[link]["in_id"]

    def may_change(self, kind, data):
        """Whether the data of an option of the outer Hop-by-Hop Options header may be changed by this node."""
        return kind == 0x31 and len(data) >= 4 and data[1] == 0 and self.domain.knows(self.node, number(data, 2, 2))

    def may_send(self, before, chain, after):
        """Whether the node may have made one packet of another, whose chain is given."""
        if before[7] < 2 or len(before) != len(after):
            reached("audit: pair " + ("of another length" if before[7] > 1 else "with a hop limit that can't fall"))
            return False
        sight, rest, changes = Sight(before[7] - 1, self.ident, self.inward), bytearray(after), []
        for kind, at, data in hop_options(chain):
            if self.may_change(kind, data):
                start, end = at + 4, at + 2 + len(data)
                changes.append((before[start:end], after[start:end]))
                rest[start:end] = before[start:end]
        if bytes(rest) != before[:7] + bytes([before[7] - 1]) + before[8:]:
            reached("audit: pair with other octets")
            return False
        reached(f"audit: pair with {min(len(changes), 3)} traces that may change")
        return all([may_become(sight, *change) for change in changes])


class Packet:
    """What a capture's record holds: a packet and its chain, or the reason for which it holds none."""

    def __init__(self, arrival):
        self.reason, self.octets, self.chain = judged(arrival)


class Audit:
    """The audit of a capture's arrivals against those of another."""

    def __init__(self, seat, before, after):
        self.seat = seat
        self.before, self.after = [Packet(one) for one in before], [Packet(one) for one in after]
        self.sent = self.gone = self.skipped = 0
        self.text = "".join(f"{place} {self.fate(packet)}\n" for place, packet in enumerate(self.before, 1))
        self.text += f"packets {len(before)} sent {self.sent} gone {self.gone} skipped {self.skipped}\n"
        self.search()

    def fate(self, packet):
        """What became of the next packet: it is the next of the others, it is gone, or it is none."""
        if packet.reason is not None:
            self.skipped += 1
            return f"skip {packet.reason}"
        if self.sent < len(self.after) and self.is_pair(packet, self.after[self.sent]):
            self.sent += 1
            return f"sent {self.sent}"
        self.gone += 1
        return "gone"

    def is_pair(self, before, after):
        """Whether both are packets and the one may have become the other."""
        if before.reason is not None or after.reason is not None:
            return False
        return self.seat.may_send(before.octets, before.chain, after.octets)

    def verdict(self):
        """The line that stands at the end where both captures were read whole."""
        reached("audit: verdict " + ("yes" if self.sent == len(self.after) else "no"))
        return "verdict yes\n" if self.sent == len(self.after) else f"verdict no {self.sent + 1}\n"

    def search(self):
        """Where there are few, looks whether the others can stand among these in order in any way, the next one or a later one
        each; that is to be what the next one alone told."""
        if len(self.before) * len(self.after) > MOST_SEARCHED:
            return
        fits = [True] + [False] * len(self.after)  # whether so many of the others stand among those so far
        for packet in self.before:
            for place in range(len(self.after), 0, -1):
                fits[place] |= fits[place - 1] and self.is_pair(packet, self.after[place - 1])
        if fits[-1] != (self.sent == len(self.after)):
            raise AssertionError("the next packet alone says otherwise than all ways together")
        reached("audit: all ways searched")
