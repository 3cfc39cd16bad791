"""Joining (R23): datagrams that come in pieces, each kept as the pieces of it that were taken."""
from .octets import number
from .rules import Refused, need


class Piece:
    """What a piece says of itself (R23.3), and its key (R23.5)."""

    def __init__(self, datagram, header, total):
        flags = number(datagram[6:8])
        self.key = datagram[12:16], datagram[16:20], datagram[9], datagram[4:6]
        self.more = flags & 0x2000 != 0
        self.payload = datagram[header:total]
        self.start = 8 * (flags & 0x1fff)
        self.end = self.start + len(self.payload)

    def check(self):
        """Not empty, within 2,048 bytes, and a multiple of 8 where others follow; 30 where not (R23.4)."""
        need(len(self.payload) > 0, 30)
        need(self.end <= 2048, 30)
        need(not self.more or len(self.payload) % 8 == 0, 30)

    def octets(self):
        """Which bytes of the datagram's payload it has."""
        return set(range(self.start, self.end))


class Collected:
    """A datagram that is collected."""

    def __init__(self, key, place, first):
        self.key, self.place, self.first = key, place, first
        self.taken = []                                       # every piece, as it came

    def live(self, now):
        """An exact sum (R23.6)."""
        return now < self.first + 30

    def held(self):
        return set().union(*(piece.octets() for piece in self.taken))

    def ends(self):
        """Where its pieces with more-fragments clear end."""
        return {piece.end for piece in self.taken if not piece.more}

    def disagrees(self, piece):
        """About the end, with a piece that was taken (R23.7)."""
        if piece.more:
            return any(piece.end >= end for end in self.ends())
        return any(piece.end != end for end in self.ends()) or any(one.end >= piece.end for one in self.taken if one.more)

    def complete(self):
        """Every byte before the end is held (R23.13)."""
        return any(set(range(end)) <= self.held() for end in self.ends())

    def end(self):
        """No piece ends behind it, once it is complete."""
        return max(piece.end for piece in self.taken)

    def within(self, memory):
        """Its place in the memory."""
        return memory[2048 * self.place:2048 * self.place + 2048]


class Collection:
    """At most 8 datagrams; one that is live no more stays until its place is taken."""

    def __init__(self):
        self.datagrams = []

    def live(self, now):
        return [one for one in self.datagrams if one.live(now)]

    def free(self, place):
        self.datagrams = [one for one in self.datagrams if one.place != place]

    def lowest(self, now):
        """The lowest place whose datagram is not live; 28 if there is none (R23.11, R23.12)."""
        taken = [one.place for one in self.live(now)]
        places = [place for place in range(8) if place not in taken]
        need(places, 28)
        return min(places)

    def compare(self, datagram, piece, memory):
        """With what is held: 29 drops the datagram (R23.7 to R23.10), 27 ignores the piece."""
        held, octets = datagram.held(), piece.octets()
        if datagram.disagrees(piece):
            self.free(datagram.place)
            raise Refused(29)
        equal = datagram.within(memory)[piece.start:piece.end] == piece.payload
        if octets <= held and equal:
            raise Refused(27)
        if octets & held:
            self.free(datagram.place)
            raise Refused(29)

    def take(self, piece, now, memory):
        """Order 30, 29, 28, 27 (R23.1); the datagram that is complete with the piece, whose place is free from now on (R23.15)."""
        piece.check()
        datagram = next((one for one in self.live(now) if one.key == piece.key), None)
        if datagram is None:
            datagram = Collected(piece.key, self.lowest(now), now)
            self.free(datagram.place)
            self.datagrams.append(datagram)
        else:
            self.compare(datagram, piece, memory)
        datagram.taken.append(piece)
        datagram.within(memory)[piece.start:piece.end] = piece.payload
        need(datagram.complete(), 27)
        self.free(datagram.place)
        return datagram
