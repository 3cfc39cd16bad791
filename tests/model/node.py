"""The node: one service or two (R26), each a tunnel end. Path sizes are the plain record: every accepted report, in order."""
from .joining import Collection, Piece
from .octets import LINK_LOCAL, checksum_right, dotted, forbidden, pseudo_header
from .rules import Refused, check_solicitation, gets_no_message, inner_length, inner_source_bad, is_whole, need, outer_header
from .rules import reported_candidate, router_advertisement, smallest_lifetime, solicitation, too_big_message, wrapped


class Shared:
    """What the services of a node have together (R26.1)."""

    def __init__(self):
        self.latest = 0
        self.record = []                                      # (neighbour, candidate, latest time)

    def raise_time(self, time):
        """An earlier one is read as the latest (R1.10)."""
        self.latest = max(self.latest, time)


class Service:
    """One tunnel end, by settings of its own."""

    def __init__(self, settings, shared):
        self.settings, self.shared = settings, shared
        self.routers = [(router, 0) for router in settings.routers]  # At setup all are due at time 0 (R2.12)
        self.identification = settings.identification
        self.collection = Collection()

    @property
    def latest(self):
        return self.shared.latest

    @property
    def record(self):
        return self.shared.record

    def raise_time(self, time):
        self.shared.raise_time(time)

    def listed(self, address):
        return address in [router for router, _ in self.routers]

    def locator(self, index):
        need(index < len(self.settings.locators), 11)
        return self.settings.locators[index][0]

    def size(self, neighbour):
        """What is kept, if it is below L: under 600 s old, and fewer than 64 other neighbours have had an accepted report since (R10.1)."""
        others = set()
        for reporter, candidate, time in reversed(self.record):
            if reporter == neighbour:
                kept = self.latest - time < 600 and len(others) < 64
                return min(candidate, self.settings.link) if kept else self.settings.link
            others.add(reporter)
        return self.settings.link

    def outer(self, interface, datagram):
        """2, 3, 4, 6, 7 of receiving, in this order; the header's length and the total length."""
        header, total = outer_header(datagram)
        need(checksum_right(datagram[:header]), 3)
        need(datagram[9] == 41, 4)
        need((datagram[16:20], interface) in self.settings.locators, 6)
        outer_source = datagram[12:16]
        need(not forbidden(outer_source), 7)
        return header, total

    def inner(self, payload, outer_source):
        """8, 9, 10 of receiving, in this order; the inner packet's length."""
        length = inner_length(payload)
        source = payload[8:24]
        need(not inner_source_bad(source), 9)
        embeds = self.settings.isatap(source) and source[12:] == outer_source
        need(embeds or self.listed(outer_source), 10)
        return length

    def receive(self, interface, time, memory, datagram):
        """The call for the number: order 15, 2, 3, 4, 6, 7, then that of a whole datagram or of a piece (R23.1); where the inner packet
        starts, in the datagram or in the memory, and its length."""
        self.raise_time(time)
        need(len(memory) >= 16384, 15)
        header, total = self.outer(interface, datagram)
        if is_whole(datagram):
            length = self.inner(datagram[header:total], datagram[12:16])
            return f"deliver {header} {length}"
        joined = self.collection.take(Piece(datagram, header, total), self.latest, memory)
        length = self.inner(bytes(joined.within(memory)[:joined.end()]), joined.key[0])
        return f"joined {2048 * joined.place} {length}"

    def part(self, interface, datagram):
        """The call for the part, by R5 alone: empty for whatever number, and for every piece (R23.18)."""
        try:
            header, total = self.outer(interface, datagram)
            need(is_whole(datagram), 5)
            length = self.inner(datagram[header:total], datagram[12:16])
        except Refused:
            return b""
        return datagram[header:header + length]

    def send(self, index, time, next_hop, output, packet):
        """Order 8, 11, 12, 13, 14, 23, 15 (R7.1); writes into `output`."""
        self.raise_time(time)
        need(inner_length(packet) == len(packet), 8)
        source = self.locator(index)
        need(self.settings.isatap(next_hop), 12)
        end = next_hop[12:]
        need(not forbidden(end) and not self.settings.own(end), 13)
        path = self.size(end)
        largest = max(1280, path - 20)
        if len(packet) > largest:
            return self.too_big(packet, largest, output)
        need(20 + len(packet) <= 65535, 23)
        need(20 + len(packet) <= len(output), 15)
        whole = path - 20 > 1280
        output[:20 + len(packet)] = wrapped(packet, self.identification, whole, self.settings.ttl, source, end)
        self.identification = (self.identification + 1) % 65536
        return f"wrapped {20 + len(packet)}"

    def too_big(self, packet, largest, output):
        """Too little room for the message gives 15 (R8.3)."""
        message = b"" if gets_no_message(packet) else too_big_message(self.settings.reporting, packet, largest)
        need(len(message) <= len(output), 15)
        output[:len(message)] = message
        return f"too-big {largest} {len(message)}"

    def report(self, time, message):
        """Order 16, 17, 18, 19 (R9.1); an accepted report is the new last entry (R11.5) of the record."""
        self.raise_time(time)
        need(len(message) >= 28, 16)
        need(checksum_right(message), 16)
        need(message[:2] == b"\3\4", 16)
        quoted = message[8:]
        need(quoted[0] >> 4 == 4, 16)
        need(20 <= 4 * (quoted[0] & 15), 16)
        need(4 * (quoted[0] & 15) <= len(quoted), 16)
        neighbour = quoted[16:20]
        need(quoted[9] == 41, 17)
        need(self.settings.own(quoted[12:16]), 17)
        need(not forbidden(neighbour), 17)
        need(not self.settings.own(neighbour), 17)
        candidate = reported_candidate(message, quoted)
        need(candidate >= 68, 18)
        need(candidate < self.size(neighbour), 19)
        self.record.append((neighbour, candidate, self.latest))
        return f"accepted {dotted(neighbour)} {candidate}"

    def replace_routers(self, time, routers):
        """A router in both lists keeps its due time, a new one is due now (R2.13)."""
        self.raise_time(time)
        self.settings.check_routers(routers)
        due = dict(self.routers)
        self.routers = [(router, due.get(router, self.latest)) for router in routers]
        return f"accepted {len(routers)}"

    def set_due(self, router, time):
        self.routers = [(other, time if other == router else due) for other, due in self.routers]

    def ask(self, index, time, output):
        """Order 11, 22, 15: the router with the earliest due time that is not in the future, lowest place on a tie (R13.1, R13.3)."""
        self.raise_time(time)
        source = self.locator(index)
        router, due = min(self.routers, key=lambda entry: entry[1], default=(None, None))
        need(router is not None and due <= self.latest, 22)
        need(len(output) >= 48, 15)
        output[:48] = solicitation(source, router)
        self.set_due(router, self.latest + self.settings.interval)
        return dotted(router)

    def advertisement(self, time, packet):
        """Order 8 as in receiving, 20, 21 (R15.1); the router's next due time follows from the smallest lifetime."""
        self.raise_time(time)
        packet = packet[:inner_length(packet)]
        source, message = packet[8:24], packet[40:]
        need(packet[6] == 58, 20)
        need(packet[7] == 255, 20)
        need(source[:8] == LINK_LOCAL, 20)
        need(checksum_right(pseudo_header(source, packet[24:40], len(message)) + message), 20)
        need(len(message) >= 16, 20)
        need(message[0] == 134, 20)
        need(message[1] == 0, 20)
        smallest = smallest_lifetime(message)
        router = source[12:]
        need(self.settings.isatap(source) and self.listed(router), 21)
        wait = 3600 if smallest is None else max(self.settings.interval, smallest // 2)
        self.set_due(router, self.latest + wait)
        return dotted(router)

    def advertise(self, index, output, operator, asked):
        """Order 8 as in receiving, 11, 24, 25, 26, 15 (R22.1); writes into `output`. It has no time, and the node stays as it is."""
        packet = asked[:inner_length(asked)]
        source = self.locator(index)
        check_solicitation(packet)
        asker = packet[8:24]
        need(asker[:8] == LINK_LOCAL and self.settings.isatap(asker), 25)
        operator.check()
        answer = router_advertisement(source, asker, operator)
        need(len(answer) <= len(output), 15)
        output[:len(answer)] = answer
        return f"written {len(answer)}"


class Absent:
    """A service that the node has not: 11 before every other number, but the call's time counts (R26.4)."""

    def __init__(self, shared):
        self.shared = shared

    def refuse(self, time=0):
        self.shared.raise_time(time)
        raise Refused(11)

    def receive(self, interface, time, memory, datagram):
        self.refuse(time)

    def part(self, interface, datagram):
        return b""

    def send(self, index, time, next_hop, output, packet):
        self.refuse(time)

    def replace_routers(self, time, routers):
        self.refuse(time)

    def ask(self, index, time, output):
        self.refuse(time)

    def advertisement(self, time, packet):
        self.refuse(time)

    def advertise(self, index, output, operator, asked):
        self.refuse()

    def size(self, neighbour):
        self.refuse()


class Node:
    """The first service and the second, which may be absent."""

    def __init__(self, first, second=None):
        first.check()
        self.shared = Shared()
        self.services = [Service(first, self.shared), Absent(self.shared)]
        if second is not None:
            second.check()
            need(not any(second.own(locator) for locator, _ in first.locators), 1)
            self.services[1] = Service(second, self.shared)

    def report(self, time, message):
        """To the service that has the quoted source for a locator address (R26.5); where none has, 16 or 17 is that of any."""
        present = [service for service in self.services if isinstance(service, Service)]
        owner = next((service for service in present if service.settings.own(message[20:24])), present[0])
        return owner.report(time, message)
