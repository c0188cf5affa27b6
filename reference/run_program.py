"""What `ioam run` and `ioam bulk` print, answer and write."""

import re

import domain as domains
import readings
from capture import HEAD, Capture, merged, put_record
from packet import lowered
from report import Sums, arrival_text, traces_text
from run_plan import Planner, views
from run_reach import reach
from run_wire import export_records, wire

STATUS = {"done": 0, "usage": 1, "names": 2, "domain": 3, "readings": 4, "capture": 5,
          "exports": 6, "packets": 7, "records": 8, "read": 9, "write": 10}
DECIMAL = re.compile(r"0|[1-9][0-9]*")


class Answer:
    """The line that is printed, the status, and the outputs by name."""

    def __init__(self, line, outputs=None):
        self.line = line + "\n"
        self.status = STATUS[line.split(" ")[0]]
        self.outputs = outputs or {}
        reach("answer " + line.split(" ")[0])


def number_of(word, least, most):
    """A number of the command line: digits alone, no zero in front."""
    return bool(DECIMAL.fullmatch(word)) and len(word) < 21 and least <= int(word) <= most


def first_equal(names):
    """The first name that equals one before it, or None."""
    for place, name in enumerate(names):
        if name in names[:place]:
            return name
    return None


def run(words, files):
    """The command `run` over files by their names."""
    if len(words) != 6 or words[0] != "run" or not number_of(words[3], 1, 64):
        return Answer("usage")
    name_in, name_readings, report, exports = words[1], words[2], words[4], words[5]
    if name_in not in files:
        return Answer("read fault")
    try:
        domain = domains.read_domain(files[name_in])
    except domains.Fault as fault:
        return Answer(fault.line)
    if name_readings not in files:
        return Answer("read fault")
    try:
        samples = readings.read_readings(domain, files[name_readings])
    except readings.Fault as fault:
        return Answer(fault.line)
    taps = [link["tap"] for link in domain.link if link["tap"] is not None]
    names = [name_in, name_readings, report, exports]
    for port in domain.port:
        names += [name for name in (port["in"], port["out"]) if name is not None]
    twice = first_equal(names + taps)
    if twice is not None:
        return Answer("names " + twice)
    if any(port["in"] is not None and port["in"] not in files for port in domain.port):
        return Answer("read fault")
    opened = [port["out"] for port in domain.port] + taps + [report, exports]
    unfit = [place for place, name in enumerate(opened) if "/" in name]
    if unfit:
        return Answer("write fault", dict.fromkeys(opened[:unfit[0]], b""))
    return run_files(domain, samples, files, report, exports)


def run_files(domain, samples, files, report, exports):
    """The same behind all names: reads the captures and writes the outputs."""
    ports = [place for place, port in enumerate(domain.port) if port["in"] is not None]
    captures = [Capture(files[domain.port[place]["in"]]) for place in ports]
    taken, end = merged(captures, domain.packets)
    outputs = Outputs(domain, samples)
    for place, record in taken:
        outputs.add(ports[place], record)
    answer = "done"
    if end == "packets":
        answer = "packets %d" % domain.packets
    elif end is not None:
        at, text = captures[end].fault
        answer = "capture %s %d %s" % (domain.port[ports[end]]["in"], at, text)
    return Answer(answer, outputs.files(report, exports))


class Outputs:
    """What a run writes, arrival by arrival."""

    def __init__(self, domain, samples):
        self.domain = domain
        self.samples = samples
        self.planner = Planner(domain, samples)
        self.sums = Sums(domain)
        self.out = [[HEAD] for _ in domain.port]
        self.taps = [[HEAD] for _ in domain.link]
        self.report = []
        self.exports = []

    def add(self, port, record):
        """One arrival: its lines, its records, and where it was sent."""
        journey = self.planner.plan(port, record)
        self.sums.note(journey)
        nodes = [visit.node for visit in journey.visits]
        if len(set(nodes)) < len(nodes):
            reach("a node visited again" + (" in a tunnel" if journey.flow is not None else ""))
        if len(nodes) > 200:
            reach("visits, more than 200")
        self.report.append(arrival_text(self.domain, self.sums.packets, journey))
        known = []
        if journey.flow is not None:
            known = [views(self.domain, self.samples, journey, namespace)
                     for namespace, _, _ in domains.traces(self.domain, journey.flow)]
            self.exported(journey)
            reach("traces of an enclosed packet: %d" % len(known))
        if journey.exited:
            self.report.append(traces_text(self.domain, journey, known))
        if journey.left is not None:
            count = len(journey.visits) if journey.flow is None else 2
            packet = lowered(journey.packet, count)
            self.out[journey.left].append(put_record(journey.visits[-1].time, packet))
        self.crossed(journey, known)

    def exported(self, journey):
        if journey.direct is None:
            return
        namespace = self.domain.flow[journey.flow]["namespace"]
        known = views(self.domain, self.samples, journey, namespace)
        self.exports += export_records(self.domain, journey, known)

    def crossed(self, journey, known):
        """Each crossing of a link with a tap."""
        for sent, visit in enumerate(journey.visits, 1):
            if visit.way is None or visit.way[0] != "link":
                continue
            if self.domain.link[visit.way[1]]["tap"] is not None:
                packet = wire(self.domain, journey, sent, known)
                self.taps[visit.way[1]].append(put_record(visit.time, packet))

    def files(self, report, exports):
        """The outputs by their names."""
        found = {port["out"]: b"".join(self.out[place])
                 for place, port in enumerate(self.domain.port)}
        for place, link in enumerate(self.domain.link):
            if link["tap"] is not None:
                found[link["tap"]] = b"".join(self.taps[place])
        found[report] = ("".join(self.report) + self.sums.text()).encode()
        found[exports] = b"".join(self.exports)
        return found
