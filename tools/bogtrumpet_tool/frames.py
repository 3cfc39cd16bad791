"""The packets of a capture, and the stream that they are read from."""
import struct
from dataclasses import dataclass

from .wrong import Wrong, counted


@dataclass
class Frame:
    """One packet of a capture. Interface: its number in a pcapng section, 0 in a pcap file. Time: whole seconds, None where none is known."""
    number: int
    link: int
    interface: int
    time: int
    data: bytes
    original: int

    @property
    def snapped(self):
        return len(self.data) < self.original


class CutOff(Wrong):
    """The file ends inside a packet or block, as that of a capture that was broken off."""


class Stream:
    """A capture, from the front on."""

    def __init__(self, file):
        self.file, self.place, self.order = file, 0, "<"

    def take(self, count, what):
        data = self.file.read(count)
        if len(data) < count:
            raise CutOff(f"byte {self.place}: {what} is cut off: {counted(count, 'byte')} should stand here and {counted(len(data), 'does', 'do')}")
        self.place += count
        return data

    def numbers(self, form, data):
        return struct.unpack(self.order + form, data)

    def at_end(self):
        """Whether nothing more comes; asked between packets and blocks."""
        return not self.file.peek(1)

    def wrong(self, what, back):
        raise Wrong(f"byte {self.place - back}: {what}")
