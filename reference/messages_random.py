"""Random streams of messages with export records: many sets a message, other orders, paddings, both spellings of lengths, options
templates and unknown sets; and each fault."""

from exports_random import exports, greatest, record, record_body, visits
from foreign_random import some
from messages_ipfix import TEMPLATES, data_octets, message_octets, set_octets, template_octets, template_of, two

ODD_SETS = (0, 1, 4, 5, 254, 255)
SKIPPED = (3, 3, 264, 265, 1000, 65_535)


def sound_records(rng, count):
    """Records of few keys."""
    keys = [(rng.choice((0, 7)), rng.choice((0, 9, 2**32 - 1)), rng.randrange(3)) for _ in range(3)]
    bodies = [record_body(rng, keys) for _ in range(max(1, count // 2))]
    return [record(rng.choice((1, 2)), visits(rng), rng.choice(bodies)) for _ in range(count)]


class Stream:
    """Messages that are put together one by one; now and then something in them is wrong."""

    def __init__(self, rng, wrong):
        self.rng, self.wrong, self.known, self.octets = rng, wrong, [], b""

    def errs(self, chance):
        """Whether one thing is wrong."""
        return self.rng.random() < chance * self.wrong

    def template_set(self, wanted):
        """A set of templates, some of which may be there already."""
        rng, content = self.rng, b""
        for template in wanted:
            octets = template_octets(template)
            if self.errs(0.06):
                octets = self.other_template(template, octets)
            content += octets
        if rng.random() < 0.3:
            content += bytes(rng.choice((1, 2, 3)))
        if self.errs(0.03):
            content += rng.choice((b"\0\0\1", b"\1", bytes(4), b"\1\0", template_octets(256)[:-1]))
        return self.sized(2, content)

    def other_template(self, template, octets):
        """A template that isn't of this profile."""
        rng, way = self.rng, self.rng.random()
        if way < 0.2:
            return two(rng.choice((0, 255, 264, 2, template ^ 0x100))) + octets[2:]
        if way < 0.35:
            return two(rng.choice(TEMPLATES)) + octets[2:]
        if way < 0.5:
            return octets[:2] + two(rng.choice((0, 1, octets[3] - 1, octets[3] + 1))) + octets[4:]
        if way < 0.6:
            return octets[:2] + two(octets[3] - 1) + octets[4:-8]
        if way < 0.7:
            return octets[:rng.randrange(len(octets))]
        place = rng.randrange(4, len(octets))
        return octets[:place] + bytes([rng.choice((0, octets[place] ^ 1, octets[place] ^ 128, 255))]) + octets[place + 1:]

    def data_set(self, template, found):
        """A set of data records."""
        rng, content = self.rng, b""
        for one in found:
            octets = data_octets(one, rng.random() < 0.15)
            content += self.other_record(octets) if self.errs(0.02) else octets
        if template == 262 and rng.random() < 0.05:
            content += data_octets(record(1, b"", greatest(rng)), rng.random() < 0.5)
        if rng.random() < 0.2:
            content += bytes(rng.choice((1, 2, 3, 4, 6, 7)))
        if self.errs(0.02):
            content += rng.choice((bytes(8), bytes(9), b"\0\1", b"\1" + bytes(6), some(rng, 5)))
        return self.sized(template, content)

    def other_record(self, octets):
        """A data record that may not fit."""
        rng, way = self.rng, self.rng.random()
        if way < 0.25:
            return octets[:3] + bytes([octets[3] ^ rng.choice((0x80, 0x40, 0xC0, 1, 0x20))]) + octets[4:]
        if way < 0.45:
            return octets[:4] + bytes(rng.choice(((0x80, 0, 0), (0, 0, 0), (0, 0, 2), (0xC0, 0, 0), (0, 0, 1)))) + octets[7:]
        if way < 0.6:
            return octets[:rng.randrange(len(octets))]
        if way < 0.7:
            return octets + some(rng, rng.choice((1, 4, 8)))
        place = rng.randrange(len(octets))
        return octets[:place] + bytes([rng.choice((0, 1, 4, 8, 254, 255, octets[place] ^ 4))]) + octets[place + 1:]

    def sized(self, kind, content):
        """A set; now and then its length or its id is another one."""
        rng, octets = self.rng, set_octets(kind, content)
        if self.errs(0.02):
            size = rng.choice((0, 3, 4, 5, len(octets) - 1, len(octets) + 1, len(octets) + 4, 65_535))
            octets = octets[:2] + two(min(max(0, size), 65_535)) + octets[4:]
        if self.errs(0.015):
            octets = two(rng.choice(ODD_SETS + (kind ^ 1,))) + octets[2:]
        return octets

    def sets_of(self, found):
        """The sets of some records, with the templates that they need in front, mostly."""
        rng, sets = self.rng, []
        while found:
            template, run = template_of(found[0]), [found.pop(0)]
            while found and template_of(found[0]) == template and rng.random() < 0.8:
                run.append(found.pop(0))
            if template not in self.known and not self.errs(0.03):
                more = rng.sample(TEMPLATES, rng.choice((0, 0, 1, 7)))
                wanted = [template] + more if rng.random() < 0.7 else more + [template]
                sets.append(self.template_set(wanted))
                self.known += wanted
            sets.append(self.data_set(template, run))
            if rng.random() < 0.1:
                sets.append(self.sized(rng.choice(SKIPPED), some(rng, rng.choice((0, 1, 4, 30)))))
            if rng.random() < 0.05:
                sets.append(self.template_set(rng.sample(TEMPLATES, rng.choice((0, 1, 2)))))
            if rng.random() < 0.05:
                sets.append(self.data_set(rng.choice(self.known or [256]), []))
        return sets

    def add(self, found):
        """One message of some records."""
        rng = self.rng
        sets = self.sets_of(list(found))
        if self.errs(0.02):
            rng.shuffle(sets)
        content = b"".join(sets)
        if self.errs(0.02):
            content += rng.choice((b"\0", b"\0\3\0", b"\0\0\0", b"\0\3\0\4", some(rng, rng.randint(1, 8))))
        octets = message_octets(content[:65_519], *(rng.choice((0, 1, rng.getrandbits(32))) for _ in range(3)))
        if self.errs(0.015):
            octets = two(rng.choice((9, 11, 0, 0x0A00, 2570))) + octets[2:]
        if self.errs(0.02):
            size = rng.choice((0, 15, 16, 17, len(octets) - 1, len(octets) + 1, len(octets) - 4, 65_535))
            octets = octets[:2] + two(min(max(0, size), 65_535)) + octets[4:]
        self.octets += octets


def stream(rng):
    """A stream, at times cut or with an octet that is another one."""
    made = Stream(rng, rng.choice((0, 0.3, 1, 1, 3)))
    count = rng.choice((0, 1, 2, 5, 12, 40)) if rng.random() < 0.98 else 3000
    found = sound_records(rng, count)
    if rng.random() < 0.5:
        found.sort(key=template_of)
    if rng.random() < 0.3:
        made.octets += message_octets(made.template_set(list(TEMPLATES)))
        made.known += TEMPLATES
    while found:
        size = rng.choice((1, 1, 2, 5, 32, 400, 1000 if rng.random() < 0.9 else 3000))
        made.add(found[:size])
        del found[:size]
        if rng.random() < 0.1:
            made.add([])
    octets, way = made.octets, rng.random() if made.wrong else 1
    if way < 0.08:
        return octets[:rng.randint(0, len(octets))]
    if way < 0.16 and octets:
        place = rng.randrange(len(octets))
        return octets[:place] + bytes([rng.choice((0, 1, 255, octets[place] ^ 1 << rng.randrange(8)))]) + octets[place + 1:]
    if way < 0.2:
        return octets + some(rng, rng.randint(1, 20))
    return octets


def over_messages(rng):
    """`ipfix` over records, or `records` over messages."""
    if rng.random() < 0.3:
        count = rng.choice((0, 1, 2, 5, 20, 60, 100)) if rng.random() < 0.95 else 2000
        if rng.random() < 0.3:
            found = sound_records(rng, count)
            found.sort(key=template_of)
            return [b"ipfix", b"E", b"O"], {"E": b"".join(found)}
        return [b"ipfix", b"E", b"O"], {"E": exports(rng, count)}
    return [b"records", b"I", b"E"], {"I": stream(rng)}
