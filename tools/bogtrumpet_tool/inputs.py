"""The inputs of the programs, byte for byte: `tunnel`'s (docs/RULES.md, R17), `replay`'s and `recordings`' (docs/REPLAY.md)."""
from dataclasses import dataclass, field

from .fields import CALLS, DATAGRAM, KINDS, LISTS, SINGLE
from .wrong import Wrong, counted

LIMITS = {"program": 1 << 16, "replay": 1 << 20, "recordings": 1 << 20}
READERS = {"program": "`tunnel`", "replay": "`replay`", "recordings": "`recordings`"}


@dataclass
class Service:
    """The settings of one service."""
    lists: dict = field(default_factory=lambda: {name: [] for name in LISTS})
    single: dict = field(default_factory=lambda: {name: default for name, (_, default) in SINGLE.items()})


@dataclass
class Input:
    """An input of either program. Calls are (name, values by field); those of the program are datagrams."""
    format: str
    services: list
    calls: list


# ---- Writing

def write_values(fields, values):
    return b"".join(one.form.write(values[one.name]) for one in fields)


def write_lists(service):
    data = b""
    for name, fields in LISTS.items():
        rows = service.lists[name]
        if len(rows) > 65535:
            raise Wrong(f"{len(rows):,} lines of `{name}` where the format counts to 65,535")
        data += len(rows).to_bytes(2, "big") + b"".join(write_values(fields, row) for row in rows)
    return data


def write_call(name, values):
    if name == "datagram":
        return write_values(DATAGRAM, values)
    return bytes([KINDS[name]]) + write_values(CALLS[KINDS[name]][1], values)


def write_start(given):
    """What stands before the calls."""
    if given.format == "program":
        return write_lists(given.services[0]) + min(len(given.calls), 65535).to_bytes(2, "big")
    data = bytes([len(given.services)])
    for service in given.services:
        data += write_lists(service) + b"".join(form.write(service.single[name]) for name, (form, _) in SINGLE.items())
    return data


def write(given):
    """The bytes; at most what the program reads."""
    parts = [write_start(given)] + [write_call(*call) for call in given.calls]
    length = sum(map(len, parts))
    if length > LIMITS[given.format]:
        raise Wrong(f"the input would have {length:,} bytes; {READERS[given.format]} reads at most {LIMITS[given.format]:,}")
    return b"".join(parts)


def write_recording(calls):
    """A section of datagrams by itself (docs/RULES.md, R27.1)."""
    if len(calls) > 65535:
        raise Wrong(f"{len(calls):,} datagrams where a recording counts to 65,535; take a part by --skip and --count")
    return len(calls).to_bytes(2, "big") + b"".join(write_call(*call) for call in calls)


def write_recordings(masked, room, first, second):
    """What `recordings` reads: two recordings, and how they are compared."""
    return bytes([masked]) + room.to_bytes(4, "big") + len(first).to_bytes(4, "big") + first + second


# ---- Reading

class Reader:
    """The bytes of an input, from the front on. What is no input of the format ends it, with the place."""

    def __init__(self, data, format):
        self.data, self.format, self.place, self.field = data, format, 0, ""

    def bad(self, what, back=0):
        raise Wrong(f"byte {self.place - back}: {self.field}{what}: {READERS[self.format]} answers this input by `bad input`")

    def take(self, count):
        left = len(self.data) - self.place
        if left < count:
            self.bad(f"cut off, {counted(count, 'byte')} should stand here and {counted(left, 'does', 'do')}")
        self.place += count
        return self.data[self.place - count:self.place]

    def number(self, width):
        return int.from_bytes(self.take(width), "big")

    def ended(self):
        return self.place == len(self.data)

    def value(self, name, form):
        self.field = f"`{name}`: "
        value = form.read(self)
        self.field = ""
        return value

    def values(self, fields):
        return {one.name: self.value(one.name, one.form) for one in fields}

    def lists(self):
        return {name: [self.values(fields) for _ in range(self.number(2))] for name, fields in LISTS.items()}

    def service(self):
        return Service(self.lists(), {name: self.value(name, form) for name, (form, _) in SINGLE.items()})

    def services(self):
        count = self.number(1)
        if count not in (1, 2):
            self.bad(f"a number of services of {count}, neither 1 nor 2", 1)
        return [self.service() for _ in range(count)]

    def call(self):
        kind = self.number(1)
        if kind not in CALLS:
            self.bad(f"a call of kind {kind}; there are 1 to {max(CALLS)}", 1)
        name, fields = CALLS[kind]
        return name, self.values(fields)


def read(data, format):
    if len(data) > LIMITS[format]:
        raise Wrong(f"more than the {LIMITS[format]:,} bytes that {READERS[format]} reads, which answers this input by `bad input`")
    reader = Reader(data, format)
    if format == "replay":
        services, calls = reader.services(), []
        while not reader.ended():
            calls.append(reader.call())
        return Input(format, services, calls)
    services = [Service(reader.lists())]
    calls = [("datagram", reader.values(DATAGRAM)) for _ in range(reader.number(2))]
    if not reader.ended():
        reader.bad(f"{counted(len(data) - reader.place, 'byte')} behind the last datagram")
    return Input(format, services, calls)


def guessed(data):
    """The format of bytes by the first one: the high half of the number of locators, or the number of services."""
    if data[:1] == b"\0":
        return "program"
    if data[:1] in (b"\1", b"\2"):
        return "replay"
    raise Wrong("neither format starts so: say --program or --replay")
