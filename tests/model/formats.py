"""The inputs and lines of `replay` (docs/REPLAY.md) and of the program (R17)."""
from .digests import digest
from .node import Node
from .octets import number, u16, u32
from .rules import Advertisement, Refused, Settings

REPLAY_LIMIT = 1 << 20
PROGRAM_LIMIT = 1 << 16
MEMORY = 65535                                                # bytes of a memory that the programs hand on from call to call

# Fields: S the service; B, H, I numbers of 1, 2, 4 bytes; A an IPv4, N an IPv6 address; D bytes after their length; R a list of addresses;
# O the operator's advertisement
CALLS = {1: ("receive", "SBIHD"), 2: ("send", "SBINHD"), 3: ("report", "ID"), 4: ("routers", "SIR"),
         5: ("ask", "SBIH"), 6: ("advertisement", "SID"), 7: ("size", "SA"), 8: ("advertise", "SBHOD"), 9: ("memory", "S"), 10: ("part", "SBD")}
NUMBERS, ADDRESSES = {"B": 1, "H": 2, "I": 4}, {"A": 4, "N": 16}
ROOMS = {"send": 3, "ask": 2, "advertise": 1}                 # which argument behind the service is the room of the output
LENT = 2                                                      # and which of `receive` is how much of the memory it is lent


# ---- Writing inputs

def encode_lists(settings):
    """Locators, prefixes and routers, each after its count."""
    locators = [address + bytes([interface]) for address, interface in settings.locators]
    return b"".join(u16(len(items)) + b"".join(items) for items in (locators, settings.prefixes, settings.routers))


def encode_settings(settings):
    data = encode_lists(settings) + u16(settings.link) + bytes([settings.ttl]) + u16(settings.interval) + u16(settings.identification)
    return data + (b"\0" if settings.reporting is None else b"\1" + settings.reporting)


def encode_services(services):
    """The settings of each service, behind their number."""
    return bytes([len(services)]) + b"".join(map(encode_settings, services))


def encode_operator(operator):
    """The operator's advertisement: flags, router lifetime, prefixes and routes, each list after its count."""
    prefixes = [bytes([length, flags]) + u32(valid) + u32(preferred) + prefix for length, flags, valid, preferred, prefix in operator.prefixes]
    routes = [bytes([length, preference]) + u32(lifetime) + prefix for length, preference, lifetime, prefix in operator.routes]
    lists = b"".join(u16(len(items)) + b"".join(items) for items in (prefixes, routes))
    return bytes([operator.flags]) + u16(operator.lifetime) + lists


def encode_call(name, arguments):
    kind = next(kind for kind in CALLS if CALLS[kind][0] == name)
    data = bytes([kind])
    for form, value in zip(CALLS[kind][1], arguments):
        data += {"S": lambda: bytes([value]), "B": lambda: bytes([value]), "H": lambda: u16(value), "I": lambda: u32(value), "A": lambda: value,
                 "N": lambda: value, "D": lambda: u16(len(value)) + value,
                 "R": lambda: u16(len(value)) + b"".join(value), "O": lambda: encode_operator(value)}[form]()
    return data


def encode_datagrams(datagrams):
    """The last section of an input of the program: interface, length and bytes of each, after their count."""
    return u16(len(datagrams)) + b"".join(bytes([interface]) + u16(len(datagram)) + datagram for interface, datagram in datagrams)


# ---- Reading them

class BadInput(Exception):
    pass


class Reader:
    def __init__(self, data):
        self.data, self.place = data, 0

    def take(self, count):
        part = self.data[self.place:self.place + count]
        if len(part) < count:
            raise BadInput
        self.place += count
        return part

    def number(self, width):
        return number(self.take(width))

    def ended(self):
        return self.place == len(self.data)

    def many(self, width):
        return [self.take(width) for _ in range(self.number(2))]

    def service(self):
        service = self.number(1)
        if service > 1:
            raise BadInput
        return service

    def field(self, form):
        if form == "S":
            return self.service()
        if form in NUMBERS:
            return self.number(NUMBERS[form])
        if form in ADDRESSES:
            return self.take(ADDRESSES[form])
        if form == "D":
            return self.take(self.number(2))
        return self.many(4) if form == "R" else self.operator()

    def lists(self):
        """Locators, prefixes and routers, in both programs first."""
        return [(pair[:4], pair[4]) for pair in self.many(5)], self.many(8), self.many(4)

    def settings(self):
        lists = self.lists()
        link, ttl, interval, identification = (self.number(width) for width in (2, 1, 2, 2))
        flag = self.number(1)
        if flag > 1:
            raise BadInput
        return Settings(*lists, link, ttl, interval, identification, self.take(16) if flag else None)

    def services(self):
        """Settings of one service or of two."""
        count = self.number(1)
        if count not in (1, 2):
            raise BadInput
        return [self.settings() for _ in range(count)]

    def operator(self):
        """A count above 8 is no bad input; a preference above 2 is, wherever it stands."""
        flags, lifetime = self.number(1), self.number(2)
        prefixes = [(one[0], one[1], number(one[2:6]), number(one[6:10]), one[10:]) for one in self.many(26)]
        routes = [(one[0], one[1], number(one[2:6]), one[6:]) for one in self.many(22)]
        if any(preference > 2 for _, preference, _, _ in routes):
            raise BadInput
        return Advertisement(flags, lifetime, prefixes, routes)

    def call(self):
        kind = self.number(1)
        if kind not in CALLS:
            raise BadInput
        name, forms = CALLS[kind]
        return name, [self.field(form) for form in forms]


# ---- Lines

def lent(room):
    return bytearray(b"\xa5" * room)


def lent_memories():
    """One for each service, also for one that the node has not."""
    return lent(MEMORY), lent(MEMORY)


def answer(node, memories, name, arguments):
    """The line that `replay` prints for one call, which names its service first if it is no report."""
    service, memory, arguments, output = node, None, list(arguments), None
    if name != "report":
        number = arguments.pop(0)
        service, memory = node.services[number], memories[number]
    if name == "memory":
        return f"memory {digest(memory)}"
    if name == "receive":
        arguments[LENT] = memoryview(memory)[:arguments[LENT]]
    if name in ROOMS:
        place = ROOMS[name]
        output = arguments[place] = lent(arguments[place])
    try:
        line = told(getattr(service, {"routers": "replace_routers"}.get(name, name))(*arguments), memory)
    except Refused as refused:
        line = f"refuse {refused.number}"
    return f"{name} {line}" + ("" if output is None else " " + digest(output))


def told(given, memory):
    """What a call gave, as its line says it: of a part, and of what was joined, the digest too."""
    if isinstance(given, bytes):
        return f"{len(given)} {digest(given)}"
    words = str(given).split()
    if words[0] == "joined":
        start, length = map(int, words[1:])
        words.append(digest(memory[start:start + length]))
    return " ".join(words)


def replay_lines(data):
    """The lines of the replay program, one by one."""
    try:
        if len(data) > REPLAY_LIMIT:
            raise BadInput
        reader = Reader(data)
        services, calls = reader.services(), []
        while not reader.ended():
            calls.append(reader.call())
        node, memories = Node(*services), lent_memories()
    except BadInput:
        yield "bad input"
    except Refused:
        yield "settings refuse 1"
    else:
        for call in calls:
            yield answer(node, memories, *call)


def program_lines(data):
    """The lines of the program (R17), one by one."""
    try:
        if len(data) > PROGRAM_LIMIT:
            raise BadInput
        reader = Reader(data)
        settings = Settings(*reader.lists())
        datagrams = [(reader.number(1), reader.field("D")) for _ in range(reader.number(2))]
        if not reader.ended():
            raise BadInput
        node, memories = Node(settings), lent_memories()
    except (BadInput, Refused):
        yield "bad input"
        return
    yield f"datagrams {len(datagrams)}"
    for place, (interface, datagram) in enumerate(datagrams, 1):
        words = answer(node, memories, "receive", (0, interface, 0, MEMORY, datagram)).split()
        yield f"{place} refuse {words[2]}" if words[1] == "refuse" else f"{place} deliver {words[3]}"


def replay(data):
    return list(replay_lines(data))


def program(data):
    return list(program_lines(data))


def text(lines):
    return "".join(line + "\n" for line in lines).encode()
