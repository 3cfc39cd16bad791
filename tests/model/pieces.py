"""Datagrams that are handed in in pieces."""
from .builders import packet, piece
from .formats import digest
from .octets import link_local, number

WAITS, FULL, DROPS, UNFIT = "refuse 27", "refuse 28", "refuse 29", "refuse 30"


class Whole:
    """A datagram in the making, of which pieces are handed in. What is no part of its key differs from piece to piece."""

    def __init__(self, calls, length=64, payload=None, source=None, locator=None, identification=None):
        self.calls, self.source = calls, source or calls.fresh()
        self.destination, self.interface = locator or calls.random.choice(calls.settings.locators)
        self.identification = identification or calls.some(2)
        self.payload = packet(link_local(self.source), calls.some(16), calls.some(length - 40)) if payload is None else payload

    def other(self, **changes):
        """Another payload under a key that differs in what is named."""
        key = {"source": self.source, "locator": (self.destination, self.interface), "identification": self.identification}
        return Whole(self.calls, len(self.payload), **{**key, **changes})

    def free(self):
        chooser = self.calls.random
        return {"ttl": chooser.randrange(256), "service": chooser.randrange(256), "flags": chooser.choice((0, 0, 0x4000, 0x8000)),
                "options": self.calls.some(chooser.choice((0, 0, 4, 8, 40)))}

    def piece(self, start, end, more=None, payload=None, **fields):
        """These bytes of its payload. More-fragments is set on all but the last of them, if not given."""
        more = end < len(self.payload) if more is None else more
        payload = (self.payload + bytes(end))[start:end] if payload is None else payload
        return piece(payload, start, more, self.source, self.destination, identification=self.identification, **{**self.free(), **fields})

    def whole(self, **fields):
        return self.piece(0, len(self.payload), False, **fields)

    def give(self, start, end, *more, want=WAITS, time=0, room=16384, interface=None, padding=None, **fields):
        """Hands a piece in, at an earlier time if none is given."""
        padding = self.calls.some(self.calls.random.choice((0, 0, 1, 9))) if padding is None else padding
        data = self.piece(start, end, *more, **fields) + padding
        self.calls.call("receive", self.interface if interface is None else interface, time, room, data, want=want)
        return data

    def give_all(self, parts, place=0, want=None, **how):
        """The last of them completes it."""
        for part in parts[:-1]:
            self.give(*part, **how)
        self.give(*parts[-1], want=want or self.joined(place), **how)

    def joined(self, place):
        """What the piece that completes it is to be answered."""
        inner = self.payload[:40 + number(self.payload[4:6])]
        return f"joined {2048 * place} {len(inner)} {digest(inner)}"

    def begin(self, **how):
        """The first 8 bytes."""
        self.give(0, 8, **how)
        return self

    def end(self, place, **how):
        """All others; it is joined in this place, or refused as `want` says."""
        self.give(8, len(self.payload), **{"want": self.joined(place), **how})

    def cut(self, least=1, most=9):
        """A cutting: where its pieces start and end."""
        units = range(8, len(self.payload), 8)
        count = min(len(units), self.calls.random.randint(least, most))
        ends = [0, *sorted(self.calls.random.sample(units, count)), len(self.payload)]
        return list(zip(ends, ends[1:]))


def changed(data, place):
    """One bit of this byte changed."""
    return data[:place] + bytes([data[place] ^ 1]) + data[place + 1:]
