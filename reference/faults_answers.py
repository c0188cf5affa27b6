"""What the program answers: the words' form, the order of refusals, the line, the status and every output file."""

from audit_packets import Audit, Seat
from delays_reports import UNITS, delays
from exports_records import collected, group_lines, read_exports
from faults_domain import read_domain
from faults_reach import reached
from faults_readings import Fault as ReadingsFault, read_readings
from faults_values import Fault, decimal_of
from foreign_node import Node
from leaks_reports import leaks
from messages_ipfix import Reader, written
from ng_captures import CLASSIC_HEAD, read_capture
from parts_files import MOST, PartFault, held, part_of, read_part, record_octets, spelled
from texts_reports import filtered, paths, saved, show

STATUS = ("done", "usage", "names", "domain", "readings", "capture", "exports", "packets", "records", "read", "write", "no",
          "ipfix", "part")
WORDS = {"run": 5, "node": 8, "paths": 2, "collect": 2, "show": 2, "filter": 3, "leaks": 3, "save": 2, "bulk": 4, "audit": 6, "ipfix": 2,
         "records": 2, "part": 2, "merge": 3, "parts": 2, "delays": 3}
MOST_PACKETS = 16_777_216


class Answer(Exception):
    """A refusal, raised as soon as it is due, with what the outputs then hold."""

    def __init__(self, line, outputs=None):
        super().__init__(line)
        self.line, self.outputs = line, outputs or {}


def within(word, least, most):
    """Whether a word is a number of a form's range."""
    number = decimal_of(word) if len(word) < 40 else None
    return number is not None and least <= number <= most


def is_form(words):
    """Whether words are one of the program's forms."""
    if not words or WORDS.get(words[0]) != len(words) - 1:
        return False
    if words[0] == "run":
        return within(words[3], 1, 64)
    if words[0] == "delays":
        return words[1] in UNITS
    if words[0] == "bulk":
        return within(words[1], 0, 2**64 - 1) and within(words[2], 1, 1_000_000) and within(words[3], 1, 64)
    return True


def differ(names):
    """Refuses the first name that equals an earlier one."""
    for place, name in enumerate(names):
        if name in names[:place]:
            raise Answer(f"names {name}")


def read(files, name):
    """What a file holds; a missing one is a fault of reading."""
    if name not in files:
        raise Answer("read fault")
    return files[name]


def arrivals_of(files, name, limit):
    """A capture's arrivals in front of its first fault, at most so many; and the answer."""
    arrivals, fault = read_capture(read(files, name))
    line = "done"
    if len(arrivals) > limit:
        arrivals, line = arrivals[:limit], f"packets {limit}"
    elif fault is not None:
        if len(arrivals) == limit:
            reached("capture: a fault directly behind the limit")
        line = f"capture {name} {fault[0]} {fault[1]}"
        reached("capture " + ("classic " if files[name][:4] != b"\x0a\x0d\x0d\x0a" else "ng ") + fault[1].split()[0])
    return line, arrivals


def over_capture(files, name, limit, outputs_of):
    """The outputs over a capture's arrivals, and the answer."""
    line, arrivals = arrivals_of(files, name, limit)
    return line, outputs_of(arrivals)


def domain_of(files, name):
    """The domain that a file says."""
    try:
        return read_domain(read(files, name))
    except Fault as fault:
        raise Answer(f"domain {fault.text}") from None


def setting(files, words):
    """The domain and the readings that `run` and `node` begin with."""
    domain = domain_of(files, words[1])
    try:
        return domain, read_readings(domain.names("node"), read(files, words[2]))
    except ReadingsFault as fault:
        raise Answer(f"readings {fault}") from None


def place_of(domain, node_name, link_name):
    """The places of a node and of a link that ends there, by their names."""
    place, link = domain.names("node").get(node_name), domain.names("link").get(link_name)
    if place is None:
        raise Answer(f"names {node_name}")
    if link is None or domain.link[link]["to"] != place:
        raise Answer(f"names {link_name}")
    return place, link


def node(files, words):
    """One node over a capture."""
    domain, readings = setting(files, words)
    _, _, _, node_name, link_name, given, out, report, exports = words
    place, link = place_of(domain, node_name, link_name)
    differ(words[1:3] + words[5:])
    made = Node(domain, readings, place, link)
    line, outputs = over_capture(files, given, domain.packets, made.over)
    return line, dict(zip((out, report, exports), outputs))


def run(files, words):
    """A whole domain, over captures of which none has an arrival (what it does with others is compared elsewhere)."""
    domain, _ = setting(files, words)
    ports = [name for port in domain.port for name in (port["in"], port["out"]) if name is not None]
    taps = [link["tap"] for link in domain.link if link["tap"] is not None]
    differ([words[1], words[2], words[4], words[5]] + ports + taps)
    for port in domain.port:
        if port["in"] is not None:
            read(files, port["in"])
    text = "packets 0 left 0 dropped 0\n"
    text += "".join(f"node {name} seen 0 dropped 0\n" for name in domain.names("node"))
    for flow in domain.flow:
        edge = " next 0 gaps 0 missed 0 late 0 repeats 0" if (flow["edge"] or 0) & 0xC000 else ""
        text += f"flow {flow['name']} enclosed 0 exited 0 direct 0{edge}\n"
    outputs = {name: CLASSIC_HEAD for name in [port["out"] for port in domain.port] + taps}
    outputs[words[4]], outputs[words[5]] = text.encode(), b""
    return "done", outputs


def audit(files, words):
    """What another node made of the packets of a capture."""
    _, name, node_name, link_name, before, after, report = words
    domain = domain_of(files, name)
    place, link = place_of(domain, node_name, link_name)
    differ([name, before, after, report])
    read(files, before), read(files, after)
    ends = [arrivals_of(files, given, MOST_PACKETS) for given in (before, after)]
    made = Audit(Seat(domain, place, link), ends[0][1], ends[1][1])
    line = ends[0][0] if ends[0][0] != "done" else ends[1][0]
    return line, {report: (made.text + (made.verdict() if line == "done" else "")).encode()}


def exported(files, words):
    """The records of EXPORTS in front of its first fault, as octets too, and the answer."""
    differ(words[1:])
    octets = read(files, words[1])
    records, fault = read_exports(octets)
    if fault is not None:
        reached("exports " + fault[1].split()[0])
    return records, "done" if fault is None else f"exports {fault[0]} {fault[1]}"


def collect(files, words):
    """Regroups export records."""
    records, line = exported(files, words)
    return line, {words[2]: collected(records)}


def ipfix(files, words):
    """Writes export records as messages."""
    records, line = exported(files, words)
    return line, {words[2]: written([record_octets(record) for record in records])}


def records(files, words):
    """Reads the export records of messages."""
    differ(words[1:])
    reader = Reader(read(files, words[1]))
    return reader.answer, {words[2]: b"".join(reader.records)}


def part(files, words):
    """Writes what a collector holds."""
    found, line = exported(files, words)
    return line, {words[2]: part_of(found)}


def part_in(files, name):
    """The records of a part."""
    try:
        found = read_part(read(files, name))
    except PartFault as fault:
        reached("part " + " ".join(str(fault).split()[1:3 if "record" in str(fault) else 2]))
        raise Answer(f"part {name} {fault}") from None
    reached(f"part: whole, of {'no' if not found else 'some'} records")
    return found


def merge(files, words):
    """Joins two parts."""
    differ(words[1:])
    found = part_in(files, words[1]) + part_in(files, words[2])
    kept = held(found)
    reached("merge: " + ("nothing twice" if len(kept) == len(found) else "something twice"))
    if len(kept) > MOST:
        raise Answer(f"records {MOST}")
    return "done", {words[3]: spelled(kept)}


def parts(files, words):
    """Prints a part."""
    differ(words[1:])
    found = part_in(files, words[1])
    return "done", {words[2]: (group_lines(found) + f"kept {len(found)}\n").encode()}


def delayed(files, words):
    """Says how long the hops and nodes of a capture's traces took."""
    _, word, given, report = words
    differ([given, report])
    line, text = over_capture(files, given, MOST_PACKETS, lambda arrivals: delays(word, arrivals))
    return line, {report: text}


BY_WORDS = {"delays": delayed, "node": node, "run": run, "collect": collect, "audit": audit, "ipfix": ipfix, "records": records, "part": part,
            "merge": merge, "parts": parts}


def answer(words, files):
    """The line, the status and the outputs that words, as octets, give over files."""
    try:
        words = [word.decode() for word in words]
    except UnicodeDecodeError:
        words = []
    try:
        if not is_form(words):
            raise Answer("usage")
        if words[0] in BY_WORDS:
            line, outputs = BY_WORDS[words[0]](files, words)
        else:
            differ(words[1:])
            make = {"filter": filtered, "leaks": leaks, "paths": paths, "show": show, "save": saved}[words[0]]
            line, made = over_capture(files, words[1], MOST_PACKETS, make)
            outputs = dict(zip(words[2:], made if words[0] in ("filter", "leaks") else (made,)))
    except Answer as refusal:
        line, outputs = refusal.line, refusal.outputs
    reached(f"answer {words[0] if words else 'none'}: " + said(line))
    return line, STATUS.index(line.split()[0]), outputs


def said(line):
    """An answer's line without names and numbers."""
    words = line.split(" ")
    if words[0] == "domain":
        return " ".join((words[0], words[1], *words[3:]))
    if words[0] in ("capture", "exports", "ipfix"):
        return f"{words[0]} {words[-2] if len(words) > 3 else ''}"
    if words[0] == "part":
        return " ".join(word for word in words[:1] + words[3:] if not word.isdigit())
    return " ".join(words[::2] if words[0] == "readings" else words[:1])
