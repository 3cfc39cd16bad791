"""What is taken of a capture."""
from . import captures, links
from .frames import CutOff
from .inputs import LIMITS, READERS, write_call
from .streams import about, opened, told, warn
from .wrong import Wrong, counted


PROTOCOL = b"\x29"  # 41, byte 9 of an IPv4 header


class Taken:
    """What is taken of a capture, and how many of its packets were left out, and why."""

    def __init__(self, given):
        self.given, self.calls, self.frames = given, [], []
        self.seen = self.other = self.protocols = self.snapped = self.skipped = 0
        self.time = 0

    def full(self):
        return self.given.count is not None and len(self.calls) >= self.given.count

    def frame(self, frame):
        self.seen += 1
        datagram = links.datagram(frame)
        if datagram is None:
            self.other += 1
        elif not self.given.all and datagram[9:10] != PROTOCOL and not (frame.snapped and len(datagram) < 10):
            self.protocols += 1
        elif frame.snapped and self.given.format in ("recording", "recordings"):
            raise Wrong(f"packet {frame.number} has fewer bytes than came: left out, it would shift those behind it against their partners")
        elif frame.snapped:
            self.snapped += 1
        elif self.skipped < self.given.skip:
            self.skipped += 1
        else:
            self.take(frame, datagram)

    def take(self, frame, datagram):
        interface = frame.interface if self.given.interface is None else self.given.interface
        if interface > 255:
            raise Wrong(f"packet {frame.number} came by interface {interface}; arrival interfaces are 0 to 255: say which by --interface")
        if len(datagram) > 65535:
            raise Wrong(f"packet {frame.number} has {len(datagram):,} bytes; a datagram has at most 65,535")
        self.time = self.time if frame.time is None else frame.time
        if self.given.format == "replay" and not 0 <= self.time < 1 << 32:
            raise Wrong(f"packet {frame.number} has time {self.time}, which is no 32-bit count of seconds")
        self.frames.append(frame.number)
        if self.given.format == "replay":
            self.calls.append(("receive", {"service": 0, "interface": interface, "time": self.time, "memory": 16384, "datagram": datagram}))
        else:
            self.calls.append(("datagram", {"interface": interface, "bytes": datagram}))

    def warnings(self):
        if self.snapped:
            warn(self.given.capture, f"{counted(self.snapped, 'datagram')} left out: fewer bytes were captured than came")
        if not self.calls:
            warn(self.given.capture, f"no datagram is taken of {counted(self.seen, 'packet')}: {self.other} without IPv4, "
                 f"{self.protocols} of another protocol than 41, {self.snapped} captured short, {self.skipped} skipped")


def checked(room, given, datagrams):
    if room is not None and room < 0:
        raise Wrong(f"more than fits into the {LIMITS[given.format]:,} bytes that {READERS[given.format]} reads: of the "
                    f"datagrams behind the first {given.skip:,} there is room for {datagrams:,}; take a part by --skip and --count")


def taken(given, room):
    """The datagrams of a capture, as many as there is room for; without a room, all."""
    found = Taken(given)
    with opened(given.capture) as file:
        try:
            checked(room, given, 0)
            for frame in captures.frames(file):
                if found.full():
                    break
                before = len(found.calls)
                found.frame(frame)
                if room is None:
                    continue
                room -= sum(len(write_call(*call)) for call in found.calls[before:])
                checked(room, given, before)
        except CutOff as cut:
            if not given.partial:
                raise about(given.capture, f"{cut}; --partial takes what stands before that") from None
            warn(given.capture, f"{cut}; what stands before that is taken")
        except (Wrong, OSError) as wrong:
            raise about(given.capture, told(wrong)) from None
    found.warnings()
    return found
