"""Packets that are too big, with extension headers (R25): what stands behind them draws a message, or none."""
from .builders import chain, making_up, packet
from .faults import GLOBAL, MULTICAST
from .octets import LOOPBACK, UNSPECIFIED, link_local

# Each of the four that are followed: its number, its second byte, and of a fragment header offset and flags
FOUR = [(0, 0), (43, 0), (44, 0, 0), (60, 0)]
LATER = (44, 0, 8)                                            # a fragment header of offset 1
NO_MESSAGE_TYPES, MESSAGE_TYPES = (0, 1, 2, 127, 137), (128, 129, 136, 138)
# Upper layers, among them those with numbers beside the four, and those that are headers elsewhere
UPPER = (1, 4, 6, 17, 41, 42, 45, 50, 51, 57, 59, 61, 135, 139, 140, 255)
SMALL = 1281                                                  # the shortest packet that is too big
MANY = (1, 2, 11, 12, 13, 24, 25, 36, 37, 100, 154)           # as many as SMALL holds


def send(calls, end, headers, upper, start=b"", message=True, cut=None, room=1280, n=SMALL, source=GLOBAL, destination=GLOBAL):
    """One packet of n bytes, or of as many as the headers need; if `cut` is given they end it, with so many bytes cut off. All bytes that are
    free would say the opposite if they were taken for a type, or for a header."""
    fill = b"\x3a" if message else b"\x80"
    if cut is not None:
        headers = making_up(n - 40 + cut - len(start) - len(chain(headers, upper)[1])) + headers
    first, data = chain(headers, upper, fill)
    data = (data + start).ljust(n - 40, fill) if cut is None else (data + start)[:len(data + start) - cut]
    largest = max(1280, calls.service.size(end) - 20)
    want = f"too-big {largest} {1280 if message else 0}" if room >= 1280 or not message else "refuse 15"
    calls.call("send", 0, calls.service.latest, link_local(end), room, packet(source, destination, data, next_header=first), want=want)


def each_rule(calls):
    """A few packets for each rule; the other runs have more of each."""
    end, error, echo = calls.small(), b"\1", b"\x80"
    for headers in [[header] for header in FOUR] + [FOUR, [(60, 0), (0, 0)], [(44, 0, 0), (44, 0, 1)]]:  # R25.1
        send(calls, end, headers, 58, error, False)
    for upper in (50, 51, 59):
        send(calls, end, [(60, 0)], upper)
    for header in ((0, 1), (43, 2), (60, 255), (44, 7, 0), (44, 255, 0)):  # R25.2, R25.3
        send(calls, end, [header], 58, error, False)
        send(calls, end, [header], 58, echo)
    for header in FOUR:  # R25.4
        send(calls, end, [(60, 0)], header[0], cut=0, message=False)
        send(calls, end, [header], 6, cut=1, message=False)
    for start, message in ((b"\x7f", False), (b"\x88", True), (b"\x89", False), (b"\x8a", True)):  # R25.5
        send(calls, end, [(43, 0)], 58, start, message)
    send(calls, end, [(60, 0)], 58, cut=0, message=False)
    send(calls, end, [(60, 0)], 58, echo, cut=0)
    for field in (8, 0x100, 0x8000):  # R25.6
        send(calls, end, [(44, 0, field)], 17, message=False)
    for field in (1, 6):
        send(calls, end, [(44, 0, field)], 58, echo)
    for upper in (6, 59):  # R25.7
        send(calls, end, [(60, 0)], upper, cut=0)
    for room in (0, 1279):  # R25.8
        send(calls, end, [(60, 0)], 58, error, False, room=room)
        send(calls, end, [(60, 0)], 58, echo, room=room)
    many(calls, (12, 13, 25, 100))


def errors(calls):
    """An ICMPv6 error or a redirect behind each header and behind all four, in both orders; other types draw a message there."""
    end = calls.small()
    for headers in [[header] for header in FOUR] + [FOUR, FOUR[::-1]]:
        for kind in NO_MESSAGE_TYPES + MESSAGE_TYPES:
            send(calls, end, headers, 58, bytes([kind]), kind in MESSAGE_TYPES)


def lengths(calls):
    """Each header by its own length: the second byte counts but in a fragment header."""
    end = calls.small()
    several = [(60, 1), (43, 2), (44, 5, 1), (0, 3), (44, 255, 7), (60, 0)]
    for headers in [[(kind, units)] for kind in (0, 43, 60) for units in (1, 2, 31, 127, 128, 255)] + [
            [(44, second, 0)] for second in (1, 7, 255)] + [several, several[::-1]]:
        send(calls, end, headers, 58, b"\1", False)
        send(calls, end, headers, 58, b"\x80")


def ends(calls):
    """Headers that end the packet: with ICMPv6, or with another header, there is no message; with any other upper layer there is."""
    end = calls.small()
    for last in FOUR:
        for upper in (6, 17, 50, 51, 59):
            send(calls, end, [last], upper, cut=0)
        for number in (58, 0, 43, 44, 60):
            send(calls, end, [last], number, cut=0, message=False)
        for cut in (1, 4, 6, 7):
            send(calls, end, [last], 6, cut=cut, message=False)
        send(calls, end, [last], 58, b"\1", cut=0, message=False)
        send(calls, end, [last], 58, b"\x80", cut=0)
    for kind in (0, 43, 60):                                  # one header that is the whole payload, or would be more
        send(calls, end, [(kind, 155)], 6, cut=0)
        send(calls, end, [(kind, 155)], 58, cut=0, message=False)
        for units, cut in ((155, 1), (156, 8), (156, 15), (255, 800)):
            send(calls, end, [(kind, units)], 6, cut=cut, message=False)


def fragments(calls):
    """The upper 13 bits of the offset's field count: behind a later fragment nothing draws a message."""
    end = calls.small()
    for front in ([], [(60, 1)], [(44, 0, 1)]):
        for field in (0, 1, 2, 4, 7):
            send(calls, end, front + [(44, 0, field)], 58, b"\x80")
        for field in (8, 0x100, 0xfff8, 0xffff) if front else [1 << bit for bit in range(3, 16)]:
            send(calls, end, front + [(44, 0, field)], 58, b"\x80", False)
        send(calls, end, front + [LATER], 17, message=False)
        send(calls, end, front + [LATER, (60, 0)], 58, b"\x80", False)
        send(calls, end, front + [LATER], 59, cut=0, message=False)
        send(calls, end, front + [(44, 0, 1)], 58, b"\x89", False)
        send(calls, end, front + [(44, 0, 1)], 17)


def upper_layers(calls):
    """Any other number is that of an upper layer: what stands behind it is not looked at."""
    end = calls.small()
    for upper in UPPER:
        send(calls, end, [], upper)
        send(calls, end, [(60, 0)], upper)


def many(calls, counts=MANY, n=SMALL):
    """However many headers there are, they are followed."""
    end = calls.small() if n == SMALL else calls.fresh()
    for count in counts:
        headers = (FOUR * count)[:count]
        for upper, start, message in ((58, b"\1", False), (58, b"\x80", True), (17, b"", True)):
            send(calls, end, headers, upper, start, message, n=n)
        send(calls, end, headers[1:] + [LATER], 17, message=False, n=n)


def rooms(calls):
    """Without a message 14 is given whatever the room; with one it is 15 below 1,280 bytes."""
    end = calls.small()
    for room in (0, 1, 1279, 1280, 1281):
        for header in FOUR:
            send(calls, end, [header], 58, b"\1", False, room=room)
            send(calls, end, [header], 58, b"\x80", room=room)
        send(calls, end, [LATER], 17, message=False, room=room)
        for upper, cut, message in ((58, 0, False), (60, 0, False), (6, 1, False), (6, 0, True)):
            send(calls, end, [(60, 0)], upper, cut=cut, message=message, room=room)


def sources(calls):
    """What stands behind the headers is asked beside the source, and whatever the destination is."""
    end = calls.small()
    for headers in ([(60, 0)], FOUR):
        for source in (MULTICAST, UNSPECIFIED):
            send(calls, end, headers, 58, b"\x80", False, source=source)
        for source, destination in ((LOOPBACK, GLOBAL), (GLOBAL, MULTICAST)):
            send(calls, end, headers, 58, b"\x80", source=source, destination=destination)
            send(calls, end, headers, 58, b"\1", False, source=source, destination=destination)


def longest(calls):
    """Thousands of headers, in packets above the largest path size and in the longest that there are."""
    many(calls, (999, 1000, 1143), 9197)
    end = calls.fresh()
    for upper, start, message, cut in ((58, b"\1", False, None), (58, b"\x80", True, None), (58, b"", False, 0), (6, b"", True, 0), (6, b"", False, 1)):
        send(calls, end, FOUR * 2046, upper, start, message, cut, n=65521)
    send(calls, end, [], 58, cut=0, message=False, n=65521)
    send(calls, end, [], 6, cut=0, n=65521)
