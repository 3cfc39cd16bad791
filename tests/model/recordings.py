"""The input and lines of `recordings` (docs/REPLAY.md)."""
from .comparing import compare
from .digests import digest
from .octets import number, u32
from .rules import Refused

LIMIT = 1 << 20
HEAD = 9                                                      # masked 1, room 4, length of the first recording 4


def encode(masked, room, first, second):
    return bytes([masked]) + u32(room) + u32(len(first)) + first + second


def good(data):
    """Whether an input is no bad one, whatever its recordings are."""
    if not HEAD <= len(data) <= LIMIT:
        return False
    return data[0] <= 1 and number(data[1:5]) <= LIMIT and HEAD + number(data[5:9]) <= len(data)


def recordings_lines(data):
    """The lines of the program, one by one."""
    if not good(data):
        yield "bad input"
        return
    second = HEAD + number(data[5:9])
    output = bytearray(b"\xa5" * number(data[1:5]))
    try:
        length, more = compare(data[0] == 1, data[HEAD:second], data[second:], output)
    except Refused as refused:
        yield f"refuse {refused.number} {digest(output)}"
        return
    yield f"compared {length} {more} {digest(output)}"
    for place in range(0, length, 6):
        yield " ".join(str(number(output[part:part + 2])) for part in (place, place + 2, place + 4))


def recordings(data):
    return list(recordings_lines(data))
