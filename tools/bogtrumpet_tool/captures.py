"""Captures: the frames of a pcap or pcapng file, read from the front on, and the writing of a pcap file of raw IP."""
import struct

from .frames import Frame, Stream
from .pcapng import START, pcapng_frames

LONGEST_FRAME = 262144  # as other readers have it
RAW_IP = 101
PCAP_ORDERS = {b"\xd4\xc3\xb2\xa1": "<", b"\x4d\x3c\xb2\xa1": "<", b"\xa1\xb2\xc3\xd4": ">", b"\xa1\xb2\x3c\x4d": ">"}  # micro-, nanoseconds


def pcap_frames(stream, magic):
    stream.order = PCAP_ORDERS[magic]
    major, _, _, _, _, link = stream.numbers("HHIIII", stream.take(20, "the header"))
    if major != 2:
        stream.wrong(f"pcap of version {major}; 2 is known", 20)
    number = 0
    while not stream.at_end():
        number += 1
        time, _, captured, original = stream.numbers("IIII", stream.take(16, f"the header of packet {number}"))
        if captured > LONGEST_FRAME:
            stream.wrong(f"packet {number} has {captured:,} bytes; {LONGEST_FRAME:,} are the most", 8)
        yield Frame(number, link & 0xFFFF, 0, time, stream.take(captured, f"packet {number}"), original)


def frames(file):
    """The frames of a capture that is open for reading, one by one."""
    stream = Stream(file)
    magic = stream.take(4, "the magic number")
    if magic in PCAP_ORDERS:
        yield from pcap_frames(stream, magic)
    elif magic == START:
        yield from pcapng_frames(stream)
    elif magic[:2] == b"\x1f\x8b":
        stream.wrong("packed by gzip: unpack it first", 4)
    else:
        stream.wrong("neither pcap nor pcapng starts so", 4)


def pcap(packets):
    """A pcap file of raw IP, of (time in seconds, packet)."""
    data = [struct.pack("<IHHiIII", 0xA1B2C3D4, 2, 4, 0, 0, LONGEST_FRAME, RAW_IP)]
    for time, one in packets:
        data += [struct.pack("<IIII", time, 0, len(one), len(one)), one]
    return b"".join(data)
