"""The report of a run: arrivals, traces, sums."""

from domain import traces
from run_reach import reach
from trace import element_of, fields_text, recorded

GREATEST = (1 << 64) - 1


class Receiver:
    """What a receiver at a flow's exit finds in the numbers of the packets
    that reach it: the greatest so far decides."""

    def __init__(self):
        self.noted = set()
        self.greatest = -1
        self.gaps = self.missed = self.late = self.repeats = 0

    def note(self, number):
        if number > self.greatest:
            if number > self.greatest + 1:
                reach("receiver: gap")
                self.gaps += 1
                self.missed += number - self.greatest - 1
            self.greatest = number
        elif self.greatest - number < 64 and number in self.noted:
            self.repeats += 1
        else:
            self.late += 1
        self.noted.add(number)

    def text(self):
        upcoming = "-" if self.greatest == GREATEST else str(self.greatest + 1)
        return " next %s gaps %d missed %d late %d repeats %d" % (
            upcoming, self.gaps, self.missed, self.late, self.repeats)


class FlowSums:
    def __init__(self):
        self.enclosed = self.exited = self.direct = 0
        self.receiver = Receiver()


class Sums:
    """The figures at the end of a report."""

    def __init__(self, domain):
        self.domain = domain
        self.packets = self.left = self.dropped = 0
        self.seen = [0] * len(domain.node)
        self.drops = [0] * len(domain.node)
        self.flows = [FlowSums() for _ in domain.flow]

    def note(self, journey):
        self.packets += 1
        for visit in journey.visits:
            self.seen[visit.node] += 1
        if journey.reason:
            self.dropped += 1
            self.drops[journey.visits[-1].node] += 1
        else:
            self.left += 1
        if journey.flow is not None:
            self.note_flow(journey)

    def note_flow(self, journey):
        flow = self.flows[journey.flow]
        flow.enclosed += 1
        flow.direct += journey.direct is not None
        if journey.exited:
            flow.exited += 1
            flow.receiver.note(journey.number)

    def text(self):
        lines = ["packets %d left %d dropped %d\n" % (self.packets, self.left, self.dropped)]
        for node, seen, drops in zip(self.domain.node, self.seen, self.drops):
            lines.append("node %s seen %d dropped %d\n" % (node["name"], seen, drops))
        for flow, sums in zip(self.domain.flow, self.flows):
            line = "flow %s enclosed %d exited %d direct %d" % (
                flow["name"], sums.enclosed, sums.exited, sums.direct)
            if (flow["edge"] or 0) & 0xC000:
                line += sums.receiver.text()
            lines.append(line + "\n")
        return "".join(lines)


def arrival_text(domain, number, journey):
    """The line of one arrival."""
    port = domain.port[journey.port]["name"]
    if journey.reason:
        node = domain.node[journey.visits[-1].node]["name"]
        line = "%d %s drop %s %s" % (number, port, journey.reason, node)
    else:
        line = "%d %s left %s" % (number, port, domain.port[journey.left]["name"])
    if journey.flow is not None:
        line += " flow %s %d" % (domain.flow[journey.flow]["name"], journey.number)
    if journey.direct is not None:
        line += " direct %d" % journey.direct
    return line + "\n"


def traces_text(domain, journey, views):
    """The traces of a packet that reached its exit: of each the elements that
    fit, the oldest first."""
    lines = []
    for (namespace, kind, capacity), known in zip(traces(domain, journey.flow), views):
        elements = [element_of(kind, view) for _, view in known]
        kept = recorded(capacity, elements)
        word = "whole" if len(kept) == len(elements) else "overflow"
        reach("trace %s" % word)
        free = capacity - sum(map(len, kept)) // 4
        if any(len(element) <= 4 * free for element in elements[len(kept):]):
            reach("trace overflow: a later element would have fitted")
        lines.append("  trace %d %06x %s %d\n" % (namespace, kind, word, len(kept)))
        for element in kept:
            lines.append("    %s\n" % fields_text(kind, element))
    return "".join(lines)
