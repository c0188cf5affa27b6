"""The values of a domain file: names, addresses, prefixes, names of files, digits, and how a key is at fault."""

import re

NAME = re.compile(r"[A-Za-z0-9_.-]{1,32}")
GROUP = re.compile(r"[0-9A-Fa-f]{1,4}")


class Fault(Exception):
    """The first fault of a domain file."""

    def __init__(self, table, place, field, why):
        super().__init__(table, place, field, why)
        self.text = f"{table} {place} {field} {why}"


def address_of(text):
    """An address (RFC 4291 section 2.2, forms 1 and 2) as a number, or None."""
    halves = text.split("::")
    if len(halves) > 2:
        return None
    lists = [half.split(":") if half else [] for half in halves]
    groups = [group for half in lists for group in half]
    if not all(GROUP.fullmatch(group) for group in groups):
        return None
    if len(halves) == 1 and len(groups) != 8 or len(halves) == 2 and len(groups) > 7:
        return None
    zeros = ["0"] * (8 - len(groups))
    value = 0
    for group in lists[0] + zeros + (lists[1] if len(halves) == 2 else []):
        value = value << 16 | int(group, 16)
    return value


def decimal_of(text):
    """A number in decimal digits without a zero in front, or None."""
    return int(text) if re.fullmatch(r"0|[1-9][0-9]*", text) else None


def prefix_of(text):
    """A prefix (RFC 4291 section 2.3): its bits, those past its length 0, and its length; or None."""
    address, slash, length = text.rpartition("/")
    bits, size = address_of(address), decimal_of(length)
    if not slash or bits is None or size is None or size > 128:
        return None
    return bits >> (128 - size) << (128 - size), size


def matches(prefix, address):
    """Whether an address begins with a prefix."""
    bits, length = prefix
    return address >> (128 - length) == bits >> (128 - length)


class Entry:
    """One entry of a table (place 0: the top table), whose keys are asked for in their order."""

    def __init__(self, table, place, keys, listed):
        self.table, self.place, self.keys = table, place, keys
        if any(key not in listed for key in keys):
            raise Fault(table, place, "other", "unknown")

    def fault(self, key, why):
        """Gives the key's fault."""
        raise Fault(self.table, self.place, key, why)

    def unless(self, sound, key, why):
        """Gives the key's fault where something doesn't hold."""
        if not sound:
            self.fault(key, why)

    def has(self, key):
        """Whether the entry has a key."""
        return key in self.keys

    def value(self, key, kind, needed):
        """The key's value, if it has that kind; None where it is absent and may be."""
        if key not in self.keys:
            self.unless(not needed, key, "missing")
            return None
        self.unless(type(self.keys[key]) is kind, key, "kind")
        return self.keys[key]

    def number(self, key, least, most, needed=True):
        """A whole number within two bounds."""
        value = self.value(key, int, needed)
        self.unless(value is None or least <= value <= most, key, "range")
        return value

    def text(self, key, read, needed=True):
        """A text that `read` reads."""
        text = self.value(key, str, needed)
        value = None if text is None else read(text)
        self.unless(text is None or value is not None, key, "range")
        return value

    def name(self, key, needed=True):
        """A name."""
        return self.text(key, lambda text: text if NAME.fullmatch(text) else None, needed)

    def file(self, key, needed=True):
        """A name of a file: 1 to 255 octets without a zero octet."""
        return self.text(key, lambda text: text if 1 <= len(text.encode()) <= 255 and "\0" not in text else None, needed)

    def reference(self, key, names, needed=True):
        """The place of what a name names, of the names of earlier entries."""
        name = self.name(key, needed)
        self.unless(name is None or name in names, key, "unknown")
        return None if name is None else names[name]

    def new(self, key, value, earlier):
        """Adds a value to those that no later entry may have."""
        self.unless(value not in earlier, key, "twice")
        earlier.add(value)
