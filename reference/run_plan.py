"""Journeys: what becomes of each arrival, visit by visit, and what each node
says of it."""

from domain import flow_of, knows, route
from packet import Chain, Header, packet_of
from readings import sample_at, stamp_at
from run_reach import reach
from run_wire import outer_size
from trace import View


class Visit:
    """A node's visit: the interface inward, the way on (a pair of `link` or
    `port` and its place; None where there is none) and the time."""

    def __init__(self, node, inward, time):
        self.node = node
        self.inward = inward
        self.time = time
        self.way = None


class Journey:
    """One arrival: its packet (None where there is no whole one), its flow
    where it was enclosed, with its number in it, and its direct number and
    limit where it has them; its visits, and its end by `port` or `reason`."""

    def __init__(self, port):
        self.port = port
        self.packet = None
        self.flow = self.number = self.direct = self.limit = None
        self.stamp = (None, None)
        self.visits = []
        self.exited = False
        self.left = self.reason = None

    def drop(self, reason):
        self.reason = reason
        reach("drop " + reason)

    def kept(self):
        """The visits that recorded: all but a last one that drops, save that
        of the exit."""
        if self.reason and not self.exited:
            return self.visits[:-1]
        return self.visits


class Planner:
    """Plans arrivals in their order: how many each flow has enclosed."""

    def __init__(self, domain, samples):
        self.domain = domain
        self.samples = samples
        self.enclosed = [0] * len(domain.flow)
        self.local = {node["address"] for node in domain.node}

    def plan(self, port, record):
        """The journey of one arrival."""
        journey = Journey(port)
        place = self.domain.port[port]
        visit = Visit(place["node"], place["id"], record.time)
        journey.visits.append(visit)
        packet, reason = packet_of(record.ethernet, record.original, record.data)
        if reason is None:
            reason = self.unfit(packet)
        if reason:
            journey.drop(reason)
            return journey
        journey.packet = packet
        header = Header(packet)
        flow = flow_of(self.domain, visit.node, header)
        if flow is None:
            reach("arrival plain")
            self.onward(journey, header)
        else:
            self.enter(journey, flow, header)
        return journey

    def unfit(self, packet):
        """The reason why a packet may not enter the domain, None if it may."""
        chain = Chain(packet)
        if not chain.whole:
            return "chain"
        if chain.has_ioam():
            return "ioam-in"
        if Header(packet).target in self.local:
            return "local"
        return None

    def enter(self, journey, place, header):
        """Puts a packet of a flow into its tunnel (RFC 2473 section 3)."""
        flow = self.domain.flow[place]
        number = self.enclosed[place]
        if flow["direct"] is not None and number % flow["every"] == 0:
            journey.direct = number // flow["every"]
        found = Chain(journey.packet).limit()
        if found is not None:
            reach("limit found %s" % ("0" if found == 0 else "above 0"))
        journey.limit = flow["limit"] if found is None else max(found - 1, 0)
        target = self.domain.node[flow["exit"]]["address"]
        size = outer_size(self.domain, place, journey)
        reason = self.choose(journey.visits[0], True, header.hops, target, size, found == 0)
        if reason:
            reach("entry drops " + reason)
            journey.direct = journey.limit = None
            journey.drop(reason)
            return
        reach("arrival enclosed")
        journey.flow, journey.number = place, number
        self.enclosed[place] += 1
        journey.stamp = stamp_at(self.domain, self.samples, flow["entry"],
                                 journey.visits[0].time)
        self.through(journey, flow, header, target, size)

    def through(self, journey, flow, header, target, size):
        """The visits of a packet in its tunnel, behind that of its entry."""
        hops = flow["hops"]
        while True:
            visit = self.next_visit(journey)
            if visit.node == flow["exit"]:
                self.leave(journey, header)
                return
            reach("transit visit")
            reason = self.choose(visit, True, hops, target, size, False)
            if reason:
                reach("transit drops " + reason)
                journey.drop(reason)
                return
            hops -= 1

    def leave(self, journey, header):
        """The exit's visit: the packet inside leaves by a port, or not."""
        visit = journey.visits[-1]
        journey.exited = True
        way = route(self.domain, visit.node, header.target)
        if header.hops - 1 < 2:
            reach("exit drops hop-limit")
            journey.drop("hop-limit")
        elif way is None or way[0] == "link":
            reach("exit drops no-route: " + ("none" if way is None else "a link"))
            journey.drop("no-route")
        else:
            reach("left out of a tunnel")
            journey.left = way[1]

    def onward(self, journey, header):
        """The visits of a packet that is in no flow."""
        hops, size = header.hops, len(journey.packet)
        while True:
            visit = journey.visits[-1]
            reason = self.choose(visit, False, hops, header.target, size, False)
            if reason:
                reach("plain %s drops %s" % (
                    "entry" if len(journey.visits) == 1 else "visit", reason))
                journey.drop(reason)
                return
            if visit.way[0] == "port":
                reach("left plain")
                journey.left = visit.way[1]
                return
            hops -= 1
            self.next_visit(journey)

    def choose(self, visit, enclosed, hops, target, size, refused):
        """The reason why a node that isn't the exit drops a packet; None where
        it sends it, by the visit's way."""
        way = route(self.domain, visit.node, target)
        if hops < 2:
            return "hop-limit"
        if way is None:
            return "no-route"
        if refused:
            return "encap-limit"
        if way[0] == "link" and self.domain.link[way[1]]["mtu"] < size:
            return "too-big"
        if way[0] == "link" and self.domain.link[way[1]]["mtu"] == size:
            reach("as long as the mtu, " + ("in a tunnel" if enclosed else "plain"))
        if enclosed and way[0] == "port":
            return "ioam-out"
        visit.way = way
        return None

    def next_visit(self, journey):
        """The visit at the far end of the last visit's link."""
        last = journey.visits[-1]
        link = self.domain.link[last.way[1]]
        visit = Visit(link["to"], link["in_id"], last.time + link["delay"])
        journey.visits.append(visit)
        return visit


def out_id(domain, visit):
    """The interface by which a visit sends, None where it sends nowhere."""
    if visit.way is None:
        return None
    kind, place = visit.way
    return domain.link[place]["out_id"] if kind == "link" else domain.port[place]["id"]


def view_of(domain, samples, journey, place, namespace):
    """What the node of one visit says, in a namespace (RFC 9197 section 4.4.2)."""
    visit = journey.visits[place]
    view = View(domain.flow[journey.flow]["hops"] - place, domain.node[visit.node]["id"])
    view.inward, view.outward = visit.inward, out_id(domain, visit)
    view.seconds, view.fraction = stamp_at(domain, samples, visit.node, visit.time)
    sample = sample_at(samples, visit.node, visit.time)
    if sample:
        view.delay, view.queue, view.buffer = sample[2:]
    for data in domain.data:
        if (data["node"], data["namespace"]) == (visit.node, namespace):
            view.short, view.wide = data["short"], data["wide"]
            if data["snapshot"] is not None:
                view.snapshot = data["schema"], data["snapshot"]
    return view


def views(domain, samples, journey, namespace):
    """The views of the visits that recorded and know a namespace, each behind
    its visit's place."""
    found = []
    for place, visit in enumerate(journey.kept()):
        if knows(domain, visit.node, namespace):
            found.append((place, view_of(domain, samples, journey, place, namespace)))
        else:
            reach("visit of a node that doesn't know the namespace")
    return found
