"""noise.py SEED CENTRE SPARE ONE: floods the centre with datagrams that are to be refused, by every rule that can be broken from outside,
until it is ended by SIGTERM; then it says how many there were. Run in the hop's namespace. CENTRE is the centre's locator, SPARE an
address of its that is none, ONE a station's locator."""
import os
import random
import signal
import socket
import sys
import time
from pathlib import Path

sys.path[0] = str(Path(__file__).resolve().parent.parent)
sys.dont_write_bytecode = True

from testing.packets import ADVERTISEMENT, SOLICITATION, UDP, datagram, icmpv6, isatap, packet, size_report, v6  # noqa: E402

BURST, PAUSE = 100, 0.005
ICMP = 1


class Noise:
    def __init__(self, seed, centre, spare, one):
        self.chance, self.centre, self.spare, self.one = random.Random(seed), centre, spare, one
        self.station, self.own = v6(isatap("fe80::", one)), v6(isatap("fe80::", centre))
        self.kinds = [self.bytes, self.stranger, self.other_station, self.bad_source, self.cut_off, self.options, self.wrong_address,
                      self.piece, self.crossing_pieces, self.long_piece, self.no_report, self.foreign_report, self.small_report,
                      self.large_report, self.no_solicitation, self.global_solicitation, self.chain, self.no_advertisement,
                      self.unlisted_advertisement]

    def outer(self):
        return f"10.77.{self.chance.randrange(256)}.{self.chance.randrange(1, 255)}"

    def some(self, most=1400):
        return self.chance.randbytes(self.chance.randrange(most))

    def inner(self, source):
        return packet(source, self.own, UDP, self.some())

    def to_centre(self, inner, **how):
        return [datagram(self.outer(), self.centre, inner, identification=self.chance.randrange(65536), **how)]

    def bytes(self):
        return self.to_centre(self.some())

    def stranger(self):
        return self.to_centre(self.inner(self.chance.randbytes(16)))

    def other_station(self):
        return self.to_centre(self.inner(self.station))

    def bad_source(self):
        return self.to_centre(self.inner(v6(self.chance.choice(("::", "::1", "ff02::1", "::127.0.0.1")))))

    def cut_off(self):
        return self.to_centre(self.inner(self.station)[:-1])

    def options(self):
        return self.to_centre(self.inner(self.station), options=bytes([1]) * 4 * self.chance.randrange(1, 11))

    def wrong_address(self):
        return [datagram(self.one, self.spare, self.inner(self.station))]

    def piece(self):
        return self.to_centre(bytes(8 * self.chance.randrange(1, 100)), flags=0x2000 | self.chance.randrange(100))

    def crossing_pieces(self):
        key = {"identification": self.chance.randrange(65536)}
        source = self.outer()
        return [datagram(source, self.centre, self.chance.randbytes(64), flags=0x2000 | offset, **key) for offset in (0, 4)]

    def long_piece(self):
        return self.to_centre(self.some(80) + b"x", flags=0x2000 | self.chance.randrange(250, 8000))

    def neighbour(self, kind, body, prefix="fe80::", hops=255, ahead=b""):
        """A message of neighbour discovery from one whose inner and outer source fit, behind extension headers where there are some."""
        outer = self.outer()
        message = icmpv6(v6(isatap(prefix, outer)), self.own, kind, body, hops)
        if ahead:
            message = packet(message[8:24], message[24:40], 60, ahead + message[40:], hops)
        return [datagram(outer, self.centre, message)]

    def no_solicitation(self):
        return self.neighbour(SOLICITATION, bytes(4) + self.chance.choice((bytes([1, 0]), b"x", bytes([1, 2, 3]))))

    def global_solicitation(self):
        return self.neighbour(SOLICITATION, bytes(4), prefix="2001:db8:1::")

    def chain(self):
        """Extension headers whose lengths run past the packet or not, in front of a solicitation."""
        lengths = [self.chance.choice((0, 0, 1, 255)) for _ in range(self.chance.randrange(1, 6))]
        nexts = [60] * (len(lengths) - 1) + [58]
        return self.neighbour(SOLICITATION, bytes(4), ahead=b"".join(bytes([n, length]) + bytes(6) for n, length in zip(nexts, lengths)))

    def no_advertisement(self):
        return self.neighbour(ADVERTISEMENT, bytes(12) + bytes([3, 0]) + self.some(40))

    def unlisted_advertisement(self):
        return self.neighbour(ADVERTISEMENT, bytes(12))

    def report(self, size, source, destination):
        quoted = datagram(source, destination, self.inner(self.own))
        return [datagram(self.outer(), self.centre, size_report(size, quoted), protocol=ICMP)]

    def no_report(self):
        message = bytearray(size_report(1400, datagram(self.centre, self.one, b"")))
        message[2] ^= 1
        return [datagram(self.outer(), self.centre, bytes(message), protocol=ICMP)]

    def foreign_report(self):
        return self.report(1400, self.spare, self.one)

    def small_report(self):
        return self.report(self.chance.randrange(1, 68), self.centre, self.one)

    def large_report(self):
        return self.report(self.chance.randrange(1500, 65536), self.centre, self.one)


def main():
    noise, sent, ended = Noise(*sys.argv[1:]), 0, []
    signal.signal(signal.SIGTERM, lambda *_: ended.append(True))
    raw = socket.socket(socket.AF_INET, socket.SOCK_RAW, socket.IPPROTO_RAW)
    parent = os.getppid()
    while not ended and os.getppid() == parent:
        for _ in range(BURST):
            for data in noise.chance.choice(noise.kinds)():
                try:
                    raw.sendto(data, (noise.centre, 0))
                    sent += 1
                except OSError:  # no room at this moment, or above the link's size
                    pass
        time.sleep(PAUSE)
    print(sent)


main()
