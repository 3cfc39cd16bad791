"""Replay inputs in the making: calls are steered into a case of the rules while the model answers them.

Where the answer is known from the faults alone it is compared with the model's, so that the model is not the only one to
say it.
"""
from copy import copy

from .builders import advertisement, chain, datagram, making_up, operator_prefix, operator_route, option, packet, prefix_option, report
from .builders import route_option, solicitation
from .faults import LENGTHS, LIFETIMES, PLATEAU_BELOW
from .formats import answer, digest, encode_call, encode_services, lent_memories
from .node import Node
from .octets import LINK_LOCAL, dotted, forbidden, isatap_address, link_local
from .rules import Advertisement

LAST_SECOND = 0xffffffff
ISATAP_IDENTIFIERS = ("00005efe", "02005efe")


# ---- A call's bytes from its named fields

def packet_of(f):
    return packet(f["source6"], f["destination6"], f["payload"], len(f["payload"]) + f["payload_error"], f["version6"], f["flow"],
                  f["next_header"], f["hop_limit"])


def datagram_of(f):
    inner = packet_of(f)[:f["inner_cut"]] + f["tail"]
    options = f["options"][:max(0, 4 * f["words"] - 20)]
    header, content = 20 + len(options), inner + f["padding"]
    total = f["total_rule"](header, header + len(content)) if f["total_rule"] else header + len(inner)
    return datagram(content, f["source"], f["destination"], options, f["words"], total, f["version"], f["service"],
                    f["identification"], f["flags"], f["ttl"], f["protocol"], f["spoil"])[:f["cut"]]


def report_of(f):
    return report(f["candidate"], f["source"], f["neighbour"], f["total"], f["type"], f["code"], f["unused"], f["version"], f["words"],
                  f["options"][:max(0, 4 * f["words"] - 20)], f["free"], f["protocol"], f["tail"], f["cut"], f["spoil"])


def advertisement_of(f):
    whole = advertisement(f["source6"], f["destination6"], f["lifetime"], f["options"], f["type"], f["code"], f["free"],
                          message_cut=f["message_cut"], spoil=f["spoil"], version=f["version6"], flow=f["flow"],
                          next_header=f["next_header"], hop_limit=f["hop_limit"], payload_error=f["payload_error"])
    return (whole + f["tail"])[:f["cut"]]


def solicitation_of(f):
    whole = solicitation(f["source6"], f["destination6"], f["options"], f["type"], f["code"], f["free"], message_cut=f["message_cut"],
                         spoil=f["spoil"], version=f["version6"], flow=f["flow"], next_header=f["next_header"],
                         hop_limit=f["hop_limit"], payload_error=f["payload_error"])
    return (whole + f["tail"])[:f["cut"]]


class Calls:
    """A list of calls in the making, with the node that has answered it so far and the memories as that left them. Calls name one service;
    those of the other are made by `other`, on the same list."""

    def __init__(self, chooser, settings, second=None):
        both = [settings] if second is None else [settings, second]
        self.random, self.made, self.data = chooser, [], bytearray(encode_services(both))
        self.node, self.memories = Node(*both), lent_memories()
        self.number, self.settings, self.other = 0, settings, None
        self.beside = None                                    # what is done with this list after each call
        if second is not None:
            self.other = copy(self)
            self.other.number, self.other.settings, self.other.other = 1, second, self

    @property
    def service(self):
        return self.node.services[self.number]

    @property
    def memory(self):
        return self.memories[self.number]

    def call(self, name, *arguments, want=""):
        return self.make(name, arguments if name == "report" else (self.number, *arguments), want)

    def make(self, name, arguments, want=""):
        """A call with all its arguments, the service too."""
        line = answer(self.node, self.memories, name, arguments)
        wanted = f"{name} {want}".split()
        if line.split()[:len(wanted)] != wanted:
            raise AssertionError(f"steered to `{want}`, the model says `{line}`")
        self.data += encode_call(name, arguments)
        self.made.append((name, arguments))
        if self.beside:
            self.beside(self)
        return line

    def made_to_the_other(self, want=""):
        """The last call again, but naming the other service."""
        name, (number, *arguments) = self.made[-1]
        return self.make(name, (1 - number, *arguments), want)

    # Choices

    def some(self, length):
        return self.random.randbytes(length)

    def fresh(self):
        """An address that is not forbidden, not ours, not listed and has had no report."""
        taken = [neighbour for neighbour, _, _ in self.service.record] + [router for router, _ in self.service.routers]
        while True:
            address = self.some(4)
            if any(address[:3]) and not (forbidden(address) or self.settings.own(address) or address in taken):
                return address

    def stranger(self):
        """A fresh address, or a locator of the other service that is not listed and does not make ::1."""
        others = self.other.settings.locators if self.other else ()
        crossing = [address for address, _ in others if any(address[:3]) and not self.service.listed(address)]
        return self.random.choice(crossing) if crossing and self.random.random() < 0.15 else self.fresh()

    def prefix(self, link_local_too=True):
        """An on-link prefix; one that makes no bad inner source."""
        prefixes = [prefix for prefix in self.settings.prefixes if prefix[0] != 255 and prefix != LINK_LOCAL]
        return self.random.choice(prefixes + [LINK_LOCAL]) if link_local_too else self.random.choice(prefixes or [bytes(8)])

    def other_interface(self, address):
        interfaces = self.random.sample(range(256), 256)
        return next(interface for interface in interfaces if (address, interface) not in self.settings.locators)

    def listed_router(self):
        if not self.service.routers:
            self.call("routers", self.time(), [self.fresh() for _ in range(self.random.randint(1, 3))], want="accepted")
        return self.random.choice(self.service.routers)[0]

    def neighbour(self):
        """One that has had a report, or a stranger; never one that can go no lower."""
        known = [neighbour for neighbour, _, _ in self.service.record[-70:] if self.service.size(neighbour) > 68 and not self.settings.own(neighbour)]
        if known and self.random.random() < 0.5:
            return self.random.choice(known)
        stranger = self.stranger()
        return stranger if self.service.size(stranger) > 68 else self.fresh()

    def small(self):
        """A neighbour with a small size in force."""
        neighbour = self.fresh()
        self.report(neighbour=neighbour, candidate=self.random.randint(68, 575), time=self.service.latest)
        return neighbour

    def time(self):
        latest = self.service.latest
        near = self.random.choice((latest, latest, latest + self.random.randint(0, 9), latest - self.random.randint(0, 700), 0))
        return min(max(near, 0), LAST_SECOND)

    def change(self, f, changes):
        for key, value in changes.items():
            f[key] = value(self, f) if callable(value) and key != "total_rule" else value

    # One call of each kind with given faults

    def packet_fields(self, source6, destination6, payload):
        return {"version6": 6, "flow": self.some(4), "next_header": 17, "hop_limit": self.random.randrange(256), "source6": source6,
                "destination6": destination6, "payload": payload, "payload_error": 0, "tail": b"", "cut": None}

    def datagram_fields(self, faults, variation):
        """Of a datagram that is delivered, but for the faults."""
        address = self.stranger()
        destination, interface = self.random.choice(self.settings.locators)
        f = self.packet_fields(link_local(address), self.some(16), self.some(self.random.choice((0, 1, 8, 20, 33))))
        f.update(address=address, version=4, words=5, service=self.random.randrange(256), identification=self.some(2), flags=0,
                 ttl=self.random.randrange(256), protocol=41, source=address, destination=destination, interface=interface,
                 options=self.some(40), total_rule=None, spoil=0, inner_cut=None, padding=b"",
                 time=self.random.choice((0, self.service.latest)), room=self.random.choice((16384, 16384, 16385, 65535)))
        self.change(f, variation or {})
        for _, changes in faults:
            self.change(f, changes)
        if "zero_check" in f and not faults:                  # both 0000 and FFFF are right where the rest sums up to FFFF
            f.update(identification=bytes(2))
            f.update(identification=datagram_of(f)[10:12], spoil=f["zero_check"])
        return f

    def receive(self, faults=(), variation=None, time=None):
        """A whole datagram; it does not move the latest time, if no time is given."""
        f = self.datagram_fields(faults, variation)
        numbers = [number for number in (15, *range(2, 11)) if number in [fault for fault, _ in faults]]
        data, delivered = datagram_of(f), f"deliver {4 * f['words']} {40 + len(f['payload'])}"
        self.call("receive", f["interface"], f["time"] if time is None else time, f["room"], data,
                  want=f"refuse {numbers[0]}" if numbers else delivered)
        return data

    def part(self, faults=(), variation=None):
        """The call for the part, which is empty with whatever fault."""
        f = self.datagram_fields(faults, variation)
        data, inner = datagram_of(f), b"" if faults else packet_of(f)
        self.call("part", f["interface"], data, want=f"{len(inner)} {digest(inner)}")
        return data

    def headers(self):
        """Extension headers that are followed, in any order; a fragment among them is the first of its packet."""
        kinds = self.random.choices((0, 43, 44, 60), k=self.random.choice((1, 1, 2, 3, 4, 13)))
        return [(kind, self.random.choice((0, 7, 255)), self.random.randrange(8)) if kind == 44 else
                (kind, self.random.choice((0, 0, 0, 0, 1, 1, 2, 7, 31, 255))) for kind in kinds]

    def chained(self, f, n):
        """The first next header and the payload of a packet of n bytes; of more, where the headers need them, or are to end it."""
        start, fill = b"" if f["first"] is None else bytes([f["first"]]), self.some(1)
        number, headers = chain(f["headers"], f["next_header"], fill)
        if f["ends"] is None:
            return number, headers + start + self.some(max(0, n - 40 - len(headers + start)))
        front = making_up(n - 40 + f["ends"] - len(headers + start), self.random.choice((0, 43, 60)))
        number, headers = chain(front + f["headers"], f["next_header"], fill)
        return number, (headers + start)[:len(headers + start) - f["ends"]]

    def send(self, faults=(), n=None, end=None, time=None, next_hop=None):
        address = next_hop[12:] if next_hop else end or self.neighbour()
        time = self.time() if time is None else time
        f = self.packet_fields(b"\x20" + self.some(15), self.some(16), b"")
        f.update(address=address, index=self.random.randrange(len(self.settings.locators)), first=None, more=0, short=0,
                 message=True, headers=[], ends=None, next_header=17 if faults or n else self.random.choice((0, 17, 58, 59)),
                 next_hop=next_hop or isatap_address(self.prefix(), self.random.choice(ISATAP_IDENTIFIERS), address))
        for _, changes in faults:
            self.change(f, changes)
        self.service.raise_time(time)
        largest = max(1280, self.service.size(address) - 20)
        numbers = [fault for fault, _ in faults]
        n = largest + f["more"] if f["more"] else n or self.random.choice((40, 41, 60, self.random.randint(42, 200), 1280))
        f["next_header"], f["payload"] = self.chained(f, n)
        n = 40 + len(f["payload"])
        written = n + 20 if n <= largest else 1280 if f["message"] else 0
        room = max(0, written - f["short"]) if f["short"] else written + self.random.choice((0, 0, 1, 50))
        data = (packet_of(f) + f["tail"])[:f["cut"]]
        self.call("send", f["index"], time, f["next_hop"], room, data, want=self.send_want(numbers, n, largest, written, room))
        return data

    def send_want(self, numbers, n, largest, written, room):
        """Order 8, 11, 12, 13, 14, 23, 15 (R7.1)."""
        early = [fault for fault in numbers if 0 < fault < 14]
        if early:
            return f"refuse {min(early)}"
        if room < written:
            return "refuse 15"
        return f"too-big {largest} {written}" if n > largest else f"wrapped {written}"

    def report_fields(self, neighbour, candidate):
        return {"type": 3, "code": 4, "spoil": 0, "unused": b"\0\0", "candidate": candidate, "cut": None,
                "version": 4, "words": 5, "total": self.random.randint(20, 9000), "free": self.some(8), "protocol": 41,
                "source": self.random.choice(self.settings.locators)[0], "neighbour": neighbour,
                "options": self.some(40), "tail": self.some(8)}

    def report(self, faults=(), variation=None, neighbour=None, candidate=None, time=None):
        neighbour = neighbour or self.neighbour()
        time = self.time() if time is None else time
        self.service.raise_time(time)
        size = self.service.size(neighbour)
        f = self.report_fields(neighbour, candidate or self.random.randint(max(68, size - 40), size - 1))
        self.change(f, variation or {})
        for _, changes in faults:
            self.change(f, changes)
        if "zero_check" in f and not faults:
            f.update(unused=report_of(f)[2:4], spoil=f["zero_check"])
        candidate = f["candidate"] or PLATEAU_BELOW.get(f["total"], 0)
        accepted = f"accepted {dotted(neighbour)} {candidate}" if candidate < size else "refuse 19"
        data = report_of(f)
        self.call("report", time, data, want=f"refuse {faults[-1][0]}" if faults else accepted)
        return data

    def lifetimes(self):
        interval = self.settings.interval
        return self.random.choice((0, 0xffffffff, 1, 2 * interval - 1, 2 * interval, 2 * interval + 1, 2 * interval + 2, 7200,
                                   self.random.randint(1, 65535)))

    def option(self):
        """One that counts, or one that does not and would show if it did."""
        life, kind, shown = self.lifetimes(), self.random.randrange(8), 2 * self.settings.interval + 2
        if kind < 2:
            return prefix_option(4, life)
        if kind < 4:
            return route_option(self.random.randint(1, 3), life)
        if kind == 4:
            return route_option(4, shown)
        if kind == 5:
            return prefix_option(self.random.choice((1, 2, 3, 5)), shown)
        return option(self.random.choice((1, 5, 25, 2, 4, 23, 255)), self.random.choice((1, 2, 4)), shown)

    def advertisement(self, faults=(), variation=None, router=None, options=None, lifetime=None, time=None):
        router = router or self.listed_router()
        time = self.time() if time is None else time
        f = self.packet_fields(isatap_address(LINK_LOCAL, self.random.choice(ISATAP_IDENTIFIERS), router), self.some(16), b"")
        f.update(address=router, next_header=58, hop_limit=255, type=134, code=0, spoil=0, message_cut=None, free=self.some(10),
                 lifetime=min(65535, self.lifetimes()) if lifetime is None else lifetime,
                 options=[self.option() for _ in range(self.random.randrange(4))] if options is None else options,
                 tail=self.some(self.random.choice((0, 0, 1, 9))))
        self.change(f, variation or {})
        for _, changes in faults:
            self.change(f, changes)
        if "zero_check" in f and not faults:
            f.update(free=f["free"][:2] + bytes(2) + f["free"][4:])
            f.update(free=f["free"][:2] + advertisement_of(f)[42:44] + f["free"][4:], spoil=f["zero_check"])
        data = advertisement_of(f)
        self.call("advertisement", time, data, want=f"refuse {faults[-1][0]}" if faults else dotted(router))
        return data

    # Advertising

    def operator_prefix(self):
        return operator_prefix(self.random.choice(LENGTHS + (self.random.randrange(129),)), self.random.randrange(256),
                               self.random.choice(LIFETIMES + (self.lifetimes(),)), self.random.choice(LIFETIMES), self.some(16))

    def operator_route(self):
        return operator_route(self.random.choice(LENGTHS + (self.random.randrange(129),)), self.random.randrange(3),
                              self.random.choice(LIFETIMES + (self.lifetimes(),)), self.some(16))

    def operator_fields(self):
        """What the operator sets of an advertisement."""
        counts = [self.random.choice((0, 1, 2, 3, 8)) for _ in range(2)]
        return {"flags": self.random.randrange(256), "lifetime": self.random.randrange(65536),
                "prefixes": [self.operator_prefix() for _ in range(counts[0])], "routes": [self.operator_route() for _ in range(counts[1])]}

    def advertise(self, faults=(), variation=None):
        asker = self.fresh()
        f = self.packet_fields(isatap_address(LINK_LOCAL, self.random.choice(ISATAP_IDENTIFIERS), asker), self.some(16), b"")
        f.update(self.operator_fields(), address=asker, index=self.random.randrange(len(self.settings.locators)), next_header=58,
                 hop_limit=255, type=133, code=0, spoil=0, message_cut=None, free=self.some(4), short=0,
                 options=[self.option() for _ in range(self.random.randrange(3))], tail=self.some(self.random.choice((0, 0, 1, 9))))
        self.change(f, variation or {})
        for _, changes in faults:
            self.change(f, changes)
        if "zero_check" in f and not faults:
            f.update(free=bytes(4))
            f.update(free=solicitation_of(f)[42:44] + bytes(2), spoil=f["zero_check"])
        operator = Advertisement(f["flags"], f["lifetime"], f["prefixes"], f["routes"])
        written = 56 + 32 * len(operator.prefixes) + sum(8 if one[0] == 0 else 16 if one[0] <= 64 else 24 for one in operator.routes)
        room = max(0, written - f["short"]) if f["short"] else min(65535, written + self.random.choice((0, 0, 1, 50)))
        numbers = [number for number in (8, 11, 24, 25, 26, 15) if number in [fault for fault, _ in faults]]
        data = solicitation_of(f)
        self.call("advertise", f["index"], room, operator, data, want=f"refuse {numbers[0]}" if numbers else f"written {written}")
        return data
