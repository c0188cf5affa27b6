"""One node over packets that came by a link (RFC 8200 section 3, RFC 9197 section 4.4, RFC 9326 section 3)."""

from exports_records import export_record
from faults_readings import sample_at, stamp_of
from faults_reach import reached
from faults_values import matches
from foreign_packets import hop_options, ioam_options, judged, number
from foreign_traces import element_of, fill, words
from ng_captures import CLASSIC_HEAD, classic_record
from texts_fields import read_direct


class Node:
    """A node of a domain that packets reach by one link."""

    def __init__(self, domain, readings, node, link):
        self.domain, self.node, self.link = domain, node, link
        self.samples, self.routes = readings[node], [route for route in domain.route if route["node"] == node]
        self.out, self.text, self.exports, self.sent = [CLASSIC_HEAD], [], [], 0

    def route(self, target):
        """The route of the longest prefix that matches."""
        fitting = [route for route in self.routes if matches(route["prefix"], target)]
        if len(fitting) > 1:
            reached("node: several routes match")
        return max(fitting, key=lambda route: route["prefix"][1], default=None)

    def way(self, packet, chain):
        """The reason for which a packet is dropped, or None and its route."""
        target = number(packet, 24, 16)
        if target == self.domain.node[self.node]["address"]:
            return "local", None
        if packet[7] < 2:
            return "hop-limit", None
        route = self.route(target)
        if route is None:
            return "no-route", None
        if route["link"] is not None and self.domain.link[route["link"]]["mtu"] < len(packet):
            return "too-big", None
        if route["port"] is not None and ioam_options(chain):
            return "ioam-out", None
        return None, route

    def view(self, hops, outward, time, namespace):
        """What the node knows for a namespace as it sends a packet."""
        sample = sample_at(self.samples, time)
        data = self.domain.data.get((self.node, namespace)) or {"short": None, "wide": None, "snapshot": None}
        view = {"hops": hops, "id": self.domain.node[self.node]["id"], "inward": self.domain.link[self.link]["in_id"],
                "outward": outward, "stamp": None, "delay": None, "queue": None, "buffer": None, **data}
        reached("node: view " + ("with" if sample else "without") + " a sample")
        if sample is not None:
            view["stamp"] = stamp_of(self.domain.format, sample["clock"] + time - sample["time"])
            view.update((key, sample[key]) for key in ("delay", "queue", "buffer"))
        return view

    def option(self, kind, data, make_view):
        """What the node does with one IOAM option of the outer Hop-by-Hop header: its note and data."""
        if len(data) < 2:
            return "option short", data
        if kind == 0x31 and data[1] == 0:
            if len(data) < 10:
                return "option short", data
            namespace = number(data, 2, 2)
            if not self.domain.knows(self.node, namespace):
                return f"trace {namespace} unknown", data
            note, octets = fill(data[2:], make_view(namespace))
            return f"trace {namespace} {note}", data[:2] + octets
        if data[1] == 4:
            direct = read_direct(data[2:])
            if direct is None:
                return "option short", data
            if not self.domain.knows(self.node, direct.namespace):
                return f"direct {direct.namespace} unknown", data
            self.export(direct, make_view(direct.namespace))
            return f"direct {direct.namespace} exported", data
        return None, data

    def export(self, direct, view):
        """Exports a record with the fields of the type without the checksum complement."""
        kind = direct.kind & ~0x010000
        element = element_of(kind, words(kind), view)
        self.exports.append(export_record(direct, self.time, self.domain.link[self.link]["in_id"], element))

    def send(self, place, arrival, packet, chain, route):
        """Sends a packet: its hop limit falls by one, and its traces are filled."""
        name = ("link", "port")[route["link"] is None]
        way = getattr(self.domain, name)[route[name]]
        outward = way["out_id"] if name == "link" else way["id"]
        self.time, self.sent = arrival.time, self.sent + 1
        packet = packet[:7] + bytes([packet[7] - 1]) + packet[8:]
        self.text.append(f"{place} out {way['name']}\n")
        reached(f"node: out by {name}")

        def make_view(namespace):
            return self.view(packet[7], outward, arrival.time, namespace)

        changed = bytearray(packet)
        for kind, at, data in hop_options(chain):
            note, after = self.option(kind, data, make_view)
            changed[at + 2:at + 2 + len(data)] = after
            if note is not None:
                self.text.append(f"  {note}\n")
                reached("note " + " ".join(word for word in note.split() if not word.isdigit()))
        self.out.append(classic_record(arrival.time, bytes(changed)))

    def over(self, arrivals):
        """Takes all arrivals; the octets of OUT, REPORT and EXPORTS."""
        for place, arrival in enumerate(arrivals, 1):
            reason, packet, chain = judged(arrival)
            route = None
            if reason is None:
                reason, route = self.way(packet, chain)
            if reason is None:
                self.send(place, arrival, packet, chain, route)
            else:
                self.text.append(f"{place} drop {reason}\n")
                reached(f"node: drop {reason}")
        self.text.append(f"packets {len(arrivals)} out {self.sent} dropped {len(arrivals) - self.sent}\n")
        return b"".join(self.out), "".join(self.text).encode(), b"".join(self.exports)
