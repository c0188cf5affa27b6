"""Export records as messages of IPFIX (RFC 7011): the templates of this profile, how messages are written and how they are read."""

from exports_records import MOST_ELEMENT, element_fits
from faults_reach import reached
from foreign_packets import number

VERSION, TEMPLATE_SET, OPTIONS_SET, ENTERPRISE, VARIABLE = 10, 2, 3, 32473, 65535
TEMPLATES = range(256, 264)
LONGEST_RUN = 32
MOST_MESSAGES, MOST_RECORDS = 67_108_865, 67_108_864


def fields_of(template):
    """The fields of a template in order, each as its number and length: what a record is of stands in the three lowest bits."""
    flow, sequence, visit = template & 4, template & 2, template & 1
    found = [(1, 2), (2, 1), (3, 1), (4, 3)]
    found += [(5, 8), (6, 4)] if visit else []
    found += [(7, 4)] if flow else []
    found += [(8, 4)] if sequence else []
    return found + [(9, VARIABLE)]


def template_of(record):
    """The template of a record."""
    return 256 + 4 * (record[1] >> 7 & 1) + 2 * (record[1] >> 6 & 1) + (record[0] == 2)


def two(value):
    """Two octets."""
    return value.to_bytes(2, "big")


def template_octets(template):
    """A template record (RFC 7011 section 3.4.1), each field with its enterprise number (section 3.2)."""
    fields = [two(0x8000 | key) + two(size) + ENTERPRISE.to_bytes(4, "big") for key, size in fields_of(template)]
    return two(template) + two(len(fields)) + b"".join(fields)


def data_octets(record, long=False):
    """A record as a data record; the length of its element in one octet, or in three (RFC 7011 section 7)."""
    front = 22 if record[0] == 2 else 10
    numbers = 4 * (record[1] >> 7 & 1) + 4 * (record[1] >> 6 & 1)
    element = record[front + numbers:]
    length = b"\xff" + two(len(element)) if long else bytes([len(element)])
    return record[4:7] + record[1:2] + record[7:front + numbers] + length + element


def set_octets(kind, content):
    """A set (RFC 7011 section 3.3)."""
    return two(kind) + two(len(content) + 4) + content


def message_octets(content, time=0, count=0, domain=0):
    """A message (RFC 7011 section 3.1)."""
    head = two(VERSION) + two(len(content) + 16)
    return head + b"".join((value % 2**32).to_bytes(4, "big") for value in (time, count, domain)) + content


def runs_of(records):
    """The longest runs of records of one template, each as far as it may go."""
    runs = []
    for record in records:
        if runs and len(runs[-1]) < LONGEST_RUN and template_of(runs[-1][0]) == template_of(record):
            runs[-1].append(record)
        else:
            if runs:
                reached("ipfix: a run ends " + ("full" if len(runs[-1]) == LONGEST_RUN else "at another template"))
            runs.append([record])
    return runs


def written(records):
    """All messages of records: first the templates, then one message for each run."""
    messages = [message_octets(set_octets(TEMPLATE_SET, b"".join(map(template_octets, TEMPLATES))))]
    count = 0
    for run in runs_of(records):
        messages.append(message_octets(set_octets(template_of(run[0]), b"".join(map(data_octets, run))), count=count))
        count += len(run)
    return b"".join(messages)


class Fault(Exception):
    """Why octets are no message of this profile, as a name and a number."""


class Reader:
    """A stream of messages, read one by one."""

    def __init__(self, octets):
        self.octets, self.records, self.known, self.messages, self.place = octets, [], set(), 0, 0
        self.answer = self.read()

    def read(self):
        """What is answered: the first fault or limit, or that all was read."""
        while self.place < len(self.octets):
            known = set(self.known)
            try:
                size, found = self.message(known)
            except Fault as fault:
                reached("records: " + str(fault).split()[0])
                return f"ipfix {self.place} {fault}"
            if self.messages == MOST_MESSAGES:
                return f"packets {MOST_MESSAGES}"
            self.messages += 1
            reached(f"records: a message of {'no' if not found else 'some'} records")
            if len(self.records) + len(found) > MOST_RECORDS:
                self.records += found[:MOST_RECORDS - len(self.records)]
                return f"records {MOST_RECORDS}"
            self.records += found
            self.known, self.place = known, self.place + size
        return "done"

    def message(self, known):
        """The size of the next message and its records; its templates are added to those that are known."""
        have = len(self.octets) - self.place
        if have >= 2 and number(self.octets, self.place, 2) != VERSION:
            raise Fault(f"version {number(self.octets, self.place, 2)}")
        size = number(self.octets, self.place + 2, 2) if have >= 4 else 16
        if size < 16:
            raise Fault(f"length {size}")
        if have < max(4, size):
            raise Fault(f"short {have}")
        return size, Message(self.octets[self.place:self.place + size], known).records


class Message:
    """One whole message, set by set."""

    def __init__(self, octets, known):
        self.octets, self.known, self.records, place = octets, known, [], 16
        while place < len(octets):
            left = len(octets) - place
            if left < 4:
                reached("records: rest of a message")
                raise Fault(f"length {left}")
            kind, size = number(octets, place, 2), number(octets, place + 2, 2)
            if size < 4 or size > left:
                reached("records: length of a set " + ("below its own" if size < 4 else "past the message"))
                raise Fault(f"length {size}")
            self.set(kind, place + 4, place + size)
            place += size

    def set(self, kind, place, end):
        """A set of this id, whose content stands between two places."""
        if kind in TEMPLATES:
            if kind not in self.known:
                reached("records: template not seen")
                raise Fault(f"template {kind}")
            self.data(kind, place, end)
        elif kind == TEMPLATE_SET:
            self.templates(place, end)
        elif kind == OPTIONS_SET or kind > TEMPLATES[-1]:
            reached("records: a set is skipped")
        else:
            raise Fault(f"set {kind}")

    def templates(self, place, end):
        """The templates of a set."""
        while place < end:
            rest = self.octets[place:end]
            if len(rest) < 4:
                if any(rest):
                    reached("records: rest of a template set")
                    raise Fault(f"length {len(rest)}")
                reached("records: padding behind templates")
                return
            template = number(rest, 0, 2)
            if template not in TEMPLATES or not rest.startswith(template_octets(template)):
                reached("records: template " + ("of other fields" if template in TEMPLATES else "of another id"))
                raise Fault(f"template {template}")
            reached("records: template " + ("again" if template in self.known else "new"))
            self.known.add(template)
            place += len(template_octets(template))

    def data(self, template, place, end):
        """The records of a set."""
        while place < end:
            rest = self.octets[place:end]
            if len(rest) < 8 and not any(rest):
                reached("records: padding behind records")
                return
            size, record = self.record(template, rest)
            if record is None:
                raise Fault(f"field {place}")
            self.records.append(record)
            place += size

    def record(self, template, rest):
        """The size of the data record that octets begin with, and the record; None where none begins there."""
        front = sum(size for _, size in fields_of(template) if size != VARIABLE)
        if len(rest) < front + 1:
            return misfit("cut")
        at, size = front + 1, rest[front]
        if size == 255:
            if len(rest) < front + 3:
                return misfit("cut in a long length")
            at, size = front + 3, number(rest, front + 1, 2)
        element, ext, kind = rest[at:at + size], rest[3], number(rest, 4, 3)
        if len(element) < size:
            return misfit("with an element past its set")
        if template & 6 != ext >> 5 & 6:
            return misfit("with other flags")
        if size > MOST_ELEMENT or not element_fits(kind, element):
            return misfit("without an element of its type" if size <= MOST_ELEMENT else "with too long an element")
        reached("records: a length in " + ("three octets" if at > front + 1 else "one octet"))
        version = 1 + (template & 1)
        behind = rest[:3] + rest[4:front] + element
        return at + size, bytes([version, ext]) + two(len(behind) + 4) + behind


def misfit(why):
    """What a record that doesn't fit comes to."""
    reached("records: field " + why)
    return 0, None
