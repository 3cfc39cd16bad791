"""Captures in pcapng: sections, each with its byte order and its interfaces, and blocks of packets."""
import struct

from .frames import Frame

LONGEST_BLOCK = 1 << 24  # as other readers have it
SECTION, INTERFACE, OLD_PACKET, SIMPLE_PACKET, ENHANCED_PACKET = 0x0A0D0D0A, 1, 2, 3, 6
START = struct.pack("<I", SECTION)  # the same in both byte orders
ORDERS = {b"\x4d\x3c\x2b\x1a": "<", b"\x1a\x2b\x3c\x4d": ">"}


def options(stream, data):
    """Number and value of each option."""
    place = 0
    while place + 4 <= len(data):
        number, length = stream.numbers("HH", data[place:place + 4])
        if number == 0:
            return
        yield number, data[place + 4:place + 4 + length]
        place += 4 + (length + 3) // 4 * 4


class Interface:
    """An interface of a section: its link type, how much of a packet is kept, and how its times count."""

    def __init__(self, stream, body):
        if len(body) < 8:
            stream.wrong("an interface block of under 8 bytes", len(body) + 4)
        self.link, _, self.most = stream.numbers("HHI", body[:8])
        self.ticks, self.offset = 10 ** 6, 0
        for number, value in options(stream, body[8:]):
            if number == 9 and len(value) == 1:
                self.ticks = 2 ** (value[0] & 0x7F) if value[0] & 0x80 else 10 ** value[0]
            elif number == 14 and len(value) == 8:
                self.offset, = stream.numbers("q", value)

    def seconds(self, high, low):
        return (high << 32 | low) // self.ticks + self.offset


def block(stream, kind, first):
    """The body of a block behind its kind and length; of a section's, its byte order is read first."""
    if kind == SECTION:
        magic = stream.take(4, "a section block")
        if magic not in ORDERS:
            stream.wrong("a section block without its byte order", 4)
        stream.order = ORDERS[magic]
    taken = 12 if kind == SECTION else 8
    length, = stream.numbers("I", first)
    if length % 4 or not taken + 4 <= length <= LONGEST_BLOCK:
        stream.wrong(f"a block of {length:,} bytes", taken - 4)
    body = stream.take(length - taken - 4, "a block")
    if stream.take(4, "a block") != struct.pack(stream.order + "I", length):
        stream.wrong("a block whose two lengths differ", 4)
    return body


def packet(stream, kind, body, interfaces, number):
    """The frame of a packet block."""
    fixed = 4 if kind == SIMPLE_PACKET else 20
    if len(body) < fixed:
        stream.wrong(f"the block of packet {number} is too short", len(body) + 4)
    if kind == SIMPLE_PACKET:
        place, time, (original,) = 0, None, stream.numbers("I", body[:4])
    else:
        place, high, low, captured, original = stream.numbers("HxxIIII" if kind == OLD_PACKET else "IIIII", body[:20])
    if place >= len(interfaces):
        stream.wrong(f"packet {number} is of interface {place}, of which there is no block", len(body) + 4)
    interface = interfaces[place]
    if kind == SIMPLE_PACKET:
        captured = min(original, interface.most or original)
    else:
        time = interface.seconds(high, low)
    if captured > len(body) - fixed:
        stream.wrong(f"packet {number} has {captured:,} bytes, its block room for {len(body) - fixed:,}", len(body) + 4)
    return Frame(number, interface.link, place, time, body[fixed:fixed + captured], original)


def pcapng_frames(stream):
    """The frames behind the first four bytes."""
    kind, number, interfaces = SECTION, 0, []
    first = stream.take(4, "a section block")
    while True:
        body = block(stream, kind, first)
        if kind == SECTION:
            if len(body) < 12 or stream.numbers("H", body[:2]) != (1,):
                stream.wrong("a section of another version than 1", len(body) + 4)
            interfaces = []
        elif kind == INTERFACE:
            interfaces.append(Interface(stream, body))
        elif kind in (OLD_PACKET, SIMPLE_PACKET, ENHANCED_PACKET):
            number += 1
            yield packet(stream, kind, body, interfaces, number)
        if stream.at_end():
            return
        head = stream.take(8, "a block's head")
        kind, first = stream.numbers("I", head[:4])[0], head[4:]
