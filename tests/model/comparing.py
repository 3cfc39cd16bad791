"""Two recordings beside each other (R27)."""
from .octets import number, u16
from .rules import Refused

MASKED = (4, 5, 8, 10, 11)                                    # identification, TTL, checksum


def datagrams(recording):
    """The datagrams of a recording (R27.1), without their interfaces; 31 if it is none (R27.8)."""
    found, place = [], 2
    while len(found) < number(recording[:2]):
        end = place + 3 + number(recording[place + 1:place + 3])
        if len(recording) < end or len(recording) < place + 3:
            raise Refused(31)
        found.append(recording[place + 3:end])
        place = end
    if len(recording) != place:
        raise Refused(31)
    return found


def differs(masked, one, other, offset):
    """Whether the bytes at an offset differ (R27.3, R27.4)."""
    if offset >= min(len(one), len(other)):
        return offset < max(len(one), len(other))
    if masked and offset in MASKED:
        return False
    return one[offset] != other[offset]


def runs(masked, one, other):
    """Offset and length of each run of a pair (R27.5)."""
    found = []
    if one == other:
        return found
    for offset in range(max(len(one), len(other))):
        if differs(masked, one, other, offset):
            if found and sum(found[-1]) == offset:
                found[-1] = (found[-1][0], found[-1][1] + 1)
            else:
                found.append((offset, 1))
    return found


def report(masked, first, second):
    """Six bytes for each run of each pair (R27.2, R27.6)."""
    data = bytearray()
    for place, (one, other) in enumerate(zip(first, second), 1):
        for offset, length in runs(masked, one, other):
            data += u16(place) + u16(offset) + u16(length)
    return data


def compare(masked, first, second, output):
    """The report's length and which recording has more datagrams (R27.7); 31, then 15 (R27.8)."""
    first, second = datagrams(first), datagrams(second)
    data = report(masked, first, second)
    if len(output) < len(data):
        raise Refused(15)
    output[:len(data)] = data
    if len(first) == len(second):
        return len(data), "neither"
    return len(data), "first" if len(first) > len(second) else "second"
