"""What `ioam collect` prints, answers and writes."""

from packet import number, octets
from run_program import Answer, first_equal
from run_reach import reach
from trace import fields_text, has, hop_value, is_element

MOST_WORDS = 61
HELD, READ = 1048576, 67108864


class Record:
    """One export record: its octets in the form of version 1, and time and
    interface, None in version 1."""

    def __init__(self, data):
        self.visit = None
        front = data[:10]
        place = 10
        if data[0] == 2:
            self.visit = number(data[10:18]), number(data[18:22])
            place = 22
        self.core = bytes([1]) + front[1:2] + octets(len(data) - place + 10, 2) + front[4:]
        self.core += data[place:]
        self.kind = number(data[7:10])
        self.space = number(data[4:6])
        self.flow = self.sequence = None
        if data[1] & 0x80:
            self.flow = number(data[place:place + 4])
            place += 4
        if data[1] & 0x40:
            self.sequence = number(data[place:place + 4])
            place += 4
        self.element = data[place:]

    def is_keyed(self):
        return (self.flow is not None and self.sequence is not None
                and (has(self.kind, 0) or has(self.kind, 8)))

    def order(self):
        """Where it stands: by key, by falling hop limit, by its octets, by
        time and interface."""
        return (self.space, self.flow, self.sequence, -hop_value(self.kind, self.element),
                self.core, self.visit or (0, 0))

    def line(self):
        line = "  %06x %s" % (self.kind, fields_text(self.kind, self.element))
        if self.visit:
            line += " at=%d from=%d" % self.visit
        return line + "\n"


def records_of(data):
    """The records that octets begin with, and the fault behind them as place
    and text, None where they end whole."""
    found, at = [], 0
    while at < len(data):
        fault = fault_at(data, at)
        if fault:
            reach("exports fault: " + fault.split(" ")[0])
            return found, (at, fault)
        size = number(data[at + 2:at + 4])
        found.append(Record(data[at:at + size]))
        at += size
    return found, None


def fault_at(data, at):
    """Why no record begins at a place, None where one does."""
    if data[at] not in (1, 2):
        return "version %d" % data[at]
    have = len(data) - at
    if have < 4:
        return "short %d" % have
    extension = data[at + 1]
    front = (10 if data[at] == 1 else 22) + 4 * (extension >> 7) + 4 * (extension >> 6 & 1)
    size = number(data[at + 2:at + 4])
    if not front <= size <= front + 4 * MOST_WORDS:
        return "length %d" % size
    if have < size:
        return "short %d" % have
    kind = number(data[at + 7:at + 10])
    if not is_element(kind, data[at + front:at + size]):
        return "element %d" % front
    return None


class Held:
    """The keyed records that are held while a file is read: a record of
    version 2 takes the place of the one of version 1 that it says again."""

    def __init__(self):
        self.plain, self.told, self.visits = set(), set(), set()

    def finds_room(self, record):
        """Takes one more record; whether it found room."""
        core, visit = record.core, (record.core, record.visit)
        if visit in self.visits or record.visit is None and (core in self.plain or core in self.told):
            return True
        if record.visit is not None and core in self.plain:
            self.plain.remove(core)
        elif len(self.plain) + len(self.visits) == HELD:
            return False
        if record.visit is None:
            self.plain.add(core)
        else:
            self.visits.add(visit)
            self.told.add(core)
        return True


def within(records):
    """As many of the first records as a collector takes."""
    if len(records) <= HELD:
        return records
    held = Held()
    for place, record in enumerate(records):
        if place == READ or record.is_keyed() and not held.finds_room(record):
            return records[:place]
    return records


def best(records):
    """Each keyed record once, without those of version 1 that one of version 2
    says again."""
    told = {record.core for record in records if record.visit}
    found = {}
    for record in records:
        if record.visit is None and record.core in told:
            reach("collect: version 1 given up for version 2")
            continue
        if (record.core, record.visit) in found:
            reach("collect: repeat")
        found[(record.core, record.visit)] = record
    return list(found.values())


def collect_text(records):
    """The groups and the sums (RFC 9326 section 4)."""
    keyed = [record for record in records if record.is_keyed()]
    kept = sorted(best(keyed), key=Record.order)
    groups = {}
    for record in kept:
        groups.setdefault((record.space, record.flow, record.sequence), []).append(record)
    lines = []
    for key, members in groups.items():
        lines.append("group %d %d %d %d\n" % (key + (len(members),)))
        lines += [record.line() for record in members]
        count_ties(members)
    lines.append("records %d kept %d repeats %d unkeyed %d\n" % (
        len(records), len(kept), len(keyed) - len(kept), len(records) - len(keyed)))
    return "".join(lines)


def count_ties(members):
    """Counts how far the order of a group had to be looked at."""
    for one, two in zip(members, members[1:]):
        if one.core == two.core:
            reach("collect: order by time" if one.visit[0] != two.visit[0]
                  else "collect: order by interface")
        elif hop_value(one.kind, one.element) == hop_value(two.kind, two.element):
            reach("collect: order by octets")


def collect(words, files):
    """The command `collect` over files by their names."""
    if len(words) != 3 or words[0] != "collect":
        return Answer("usage")
    if first_equal(words[1:]) is not None:
        return Answer("names " + words[2])
    if words[1] not in files:
        return Answer("read fault")
    records, fault = records_of(files[words[1]])
    answer = "done"
    if fault:
        answer = "exports %d %s" % fault
    taken = within(records)
    if len(taken) < len(records):
        answer = "records %d" % (READ if len(taken) == READ else HELD)
        records = taken
    return Answer(answer, {words[2]: collect_text(records).encode()})
