"""Calls with two faults: the first in the call's order is given. All pairs that stand side by side in an order are here but 14 and 23,
which needs a packet of 65,516 bytes (the named input `longest_packets`), and 18 and 19, 28 and 29, which never apply together. Of a piece 27
is no fault: it is given where the piece has no other, whatever the inner packet is. With 11 for an absent service every other number is paired.

tests/double_faults.txt has them as text, for other implementations to read.
"""
from .builders import advertisement, chain, datagram, making_up, operator_prefix, operator_route, packet, piece, report, solicitation
from .formats import encode_operator
from .octets import LINK_LOCAL, LOOPBACK, isatap_address, link_local
from .rules import Advertisement

OWN, PEER, OTHER = (bytes((10, 0, 0, last)) for last in (1, 2, 3))
LOCAL_HOST = bytes((127, 0, 0, 1))
PREFIX = bytes.fromhex("20010db800000001")
SETTINGS = {"locators": [(OWN, 0)], "prefixes": [PREFIX], "routers": []}
OFF_LINK = bytes.fromhex("20010db800000002")
HEAD = """# Calls with two faults. Each line is one call, at time 0, on a new node: locator 10.0.0.1 on interface 0, on-link prefix
# 2001:db8:0:1::/64, no router, other settings default. The first number must be given; the second fault is in the call too.
# Bytes are hexadecimal, `-` for none; other numbers are decimal. The lines are written by `python3 tests/model double-faults`.
#   receive FIRST SECOND INTERFACE ROOM DATAGRAM[,DATAGRAM..]
#   send FIRST SECOND LOCATOR NEXT-HOP ROOM PACKET
#   report FIRST SECOND MESSAGE
#   ask FIRST SECOND LOCATOR ROOM
#   advertisement FIRST SECOND PACKET
#   advertise FIRST SECOND LOCATOR ROOM ADVERTISEMENT PACKET
# Behind `absent-` stands a call that names the second service, which the node has not; all others name the first. Among them also
#   absent-routers FIRST SECOND ROUTER[,ROUTER..]
# Of several datagrams the last is the one that is judged; the others are handed in before it, each by a call of its own with the same
# memory. ROOM is how many bytes of memory or of output are lent. ADVERTISEMENT, what the operator sets, is laid out as in an input of `replay`
# (docs/REPLAY.md). `advertise` has no time.
# 14 is the answer Too Big with its size and the length written: here 1480, and 1280 where the packet draws a message.
"""


def received(first, second, interface=0, room=16384, source6=link_local(PEER), payload=b"", length=None, version6=6, source=PEER, **fields):
    inner = packet(source6, link_local(OWN), payload, length, version6)
    return first, second, interface, room, datagram(inner, source, OWN, **fields)


def part(start, end, more, key=1, spoiled=(), source6=link_local(PEER), version6=6, **fields):
    """These bytes of a packet, as a piece; of some another bit."""
    inner = bytearray(packet(source6, link_local(OWN), bytes(range(24)), version=version6) + bytes(2048))
    for place in spoiled:
        inner[place] ^= 1
    return piece(bytes(inner[start:end]), start, more, PEER, OWN, identification=bytes((7, key)), **fields)


def behind(first, second, *datagrams):
    """The last of them is judged."""
    return first, second, 0, 16384, datagrams


def sent(first, second, n=60, index=0, next_hop=link_local(PEER), room=2000, tail=b"", source6=link_local(OTHER), version6=6, headers=(), upper=59):
    """With extension headers in front of its zeros, if there are any."""
    number, payload = chain(headers, upper)
    inner = packet(source6, link_local(PEER), payload.ljust(n - 40, b"\0"), version=version6, next_header=number)
    return first, second, index, next_hop, room, inner + tail


def reported(first, second, candidate=600, source=OWN, neighbour=PEER, **fields):
    return first, second, report(candidate, source, neighbour, **fields)


def advertised(first, second, source6=link_local(PEER), **fields):
    return first, second, advertisement(source6, link_local(OWN), 1800, **fields)


def answered(first, second, index=0, room=600, source6=link_local(PEER), prefixes=(operator_prefix(),), routes=(operator_route(),), **fields):
    packet = solicitation(source6, link_local(OWN), **fields)
    return first, second, index, room, Advertisement(0x80, 1800, list(prefixes), list(routes)), packet


RECEIVED = [
    received(2, 3, version=5, spoil=1), received(2, 3, total=19, spoil=1), received(2, 3, total=61, spoil=1),
    received(2, 4, version=5, protocol=17), received(2, 6, version=5, interface=1),
    received(3, 4, spoil=1, protocol=17), received(3, 6, spoil=1, interface=1),
    received(4, 6, protocol=17, interface=1), received(4, 7, protocol=17, source=LOCAL_HOST),
    received(6, 7, interface=1, source=LOCAL_HOST), received(6, 8, interface=1, version6=4),
    received(6, 9, interface=1, source6=LOOPBACK), received(7, 8, source=LOCAL_HOST, version6=4),
    received(7, 8, source=LOCAL_HOST, length=1), received(7, 9, source=LOCAL_HOST, source6=LOOPBACK),
    received(7, 10, source=LOCAL_HOST), received(8, 9, version6=4, source6=LOOPBACK), received(8, 9, length=1, source6=bytes(16)),
    received(8, 10, length=1, source6=link_local(OTHER)), received(9, 10, source6=LOOPBACK),
    received(9, 10, source6=b"\xff\2" + bytes(14)), received(9, 10, source6=bytes(12) + LOCAL_HOST),
    received(15, 2, room=16383, version=5), received(15, 2, room=0, total=19), received(15, 3, room=16383, spoil=1),
    received(15, 4, room=16383, protocol=17), received(15, 6, room=16383, interface=1), received(15, 7, room=16383, source=LOCAL_HOST),
    received(15, 8, room=16383, version6=4), received(15, 9, room=0, source6=LOOPBACK), received(15, 10, room=2048, source6=link_local(OTHER)),
    received(15, 27, room=16383, flags=0x2000), received(15, 30, room=16383, flags=0x2000, payload=b"\0")]
PIECES = [
    received(2, 27, version=5, flags=0x2000), received(2, 30, total=61, flags=0x2000), received(3, 27, spoil=1, flags=0x2000),
    received(3, 30, spoil=1, flags=0x2000, payload=b"\0"), received(4, 27, protocol=17, flags=0x2000), received(4, 27, protocol=17, flags=1),
    received(4, 30, protocol=17, flags=0x1fff), received(6, 27, flags=0x2000, interface=1), received(6, 27, flags=1, interface=1),
    received(6, 30, flags=0x2000, interface=1, total=20), received(7, 27, flags=0x2000, source=LOCAL_HOST),
    received(7, 30, flags=0x2000, source=LOCAL_HOST, payload=b"\0"), received(7, 30, flags=252, source=LOCAL_HOST),
    received(7, 30, flags=1, source=LOCAL_HOST, total=20), received(30, 8, flags=0x2000, version6=4, payload=b"\0"),
    received(30, 8, flags=1, total=20), received(30, 9, flags=252, source6=LOOPBACK), received(30, 10, flags=0x3fff, source6=link_local(OTHER)),
    received(27, 8, flags=0x2000, version6=4, identification=b"\0\2"), received(27, 8, flags=1, length=1, identification=b"\0\3"),
    received(27, 9, flags=0x2000, source6=LOOPBACK, identification=b"\0\4"),
    received(27, 10, flags=0x2000, source6=link_local(OTHER), identification=b"\0\5")]
SENT = [
    sent(8, 11, tail=b"\0", index=1), sent(8, 12, version6=4, next_hop=isatap_address(OFF_LINK, "00005efe", PEER)),
    sent(8, 13, tail=b"\0", next_hop=link_local(OWN)), sent(8, 14, n=1481, tail=b"\0"), sent(8, 15, tail=b"\0", room=0),
    sent(11, 12, index=1, next_hop=isatap_address(OFF_LINK, "00005efe", PEER)), sent(11, 13, index=1, next_hop=link_local(OWN)),
    sent(11, 14, index=255, n=1481), sent(11, 15, index=1, room=0),
    sent(12, 13, next_hop=isatap_address(OFF_LINK, "00005efe", LOCAL_HOST)), sent(12, 13, next_hop=isatap_address(LINK_LOCAL, "01005efe", OWN)),
    sent(12, 14, next_hop=isatap_address(OFF_LINK, "00005efe", PEER), n=1481),
    sent(12, 15, next_hop=isatap_address(OFF_LINK, "00005efe", PEER), room=0),
    sent(13, 14, next_hop=link_local(LOCAL_HOST), n=1481), sent(13, 14, next_hop=link_local(OWN), n=1481),
    sent(13, 15, next_hop=link_local(OWN), room=0), sent(14, 15, n=1481, source6=bytes(16), room=0), sent(14, 15, n=1481, room=1280),
    sent(15, 14, n=1481, room=1279), sent(14, 15, n=1481, room=0, upper=58), sent(14, 15, n=1481, room=0, headers=[(60, 0)], upper=58),
    sent(14, 15, n=1481, room=1279, headers=[(0, 0), (43, 1), (44, 255, 1), (60, 2)], upper=58),
    sent(14, 15, n=1481, room=0, headers=[(44, 0, 8)], upper=17), sent(14, 15, n=1481, room=0, headers=making_up(1448), upper=58),
    sent(14, 15, n=1481, room=1279, headers=making_up(1448), upper=60),
    sent(15, 14, n=1481, room=1279, headers=[(60, 0)], upper=17), sent(15, 14, n=1481, room=0, headers=[(44, 7, 1)], upper=51),
    sent(15, 14, n=1481, room=1279, headers=making_up(1448), upper=59)]
REPORTED = [
    reported(16, 17, spoil=1, protocol=17), reported(16, 17, code=3, source=OTHER), reported(16, 17, version=6, neighbour=LOCAL_HOST),
    reported(16, 18, spoil=1, candidate=67), reported(16, 18, kind=11, candidate=0, total=68), reported(16, 19, spoil=1, candidate=1500),
    reported(17, 18, protocol=17, candidate=67), reported(17, 18, source=OTHER, candidate=67),
    reported(17, 18, neighbour=OWN, candidate=0, total=68), reported(17, 18, neighbour=LOCAL_HOST, candidate=1),
    reported(17, 19, protocol=17, candidate=1500), reported(17, 19, neighbour=LOCAL_HOST, candidate=65535)]
ASKED = [(11, 22, 1, 48), (11, 15, 1, 0), (22, 15, 0, 0), (22, 15, 0, 47)]
ADVERTISED = [
    advertised(8, 20, version=4, hop_limit=254), advertised(8, 20, payload_error=1, kind=133), advertised(8, 21, version=4),
    advertised(20, 21, hop_limit=254), advertised(20, 21, spoil=1), advertised(20, 21, kind=133), advertised(20, 21, code=1),
    advertised(20, 21, options=[b"\1\0" + bytes(6)]), advertised(20, 21, next_header=59), advertised(20, 21, message_cut=15),
    advertised(20, 21, source6=isatap_address(PREFIX, "00005efe", PEER))]
LINK_LAYER, PREFIXED = [b"\1\1" + bytes(6)], isatap_address(PREFIX, "00005efe", PEER)
NINE, LONG, LONG_ROUTE = [operator_prefix()] * 9, [operator_prefix(129)], [operator_route(129)]
ANSWERED = [
    answered(8, 11, version=4, index=1), answered(8, 11, payload_error=1, index=255), answered(8, 24, version=4, hop_limit=254),
    answered(8, 24, payload_error=1, kind=134), answered(8, 25, version=4, source6=PREFIXED), answered(8, 26, version=4, prefixes=NINE),
    answered(8, 15, version=4, room=0),
    answered(11, 24, index=1, hop_limit=254), answered(11, 24, index=1, spoil=1), answered(11, 24, index=255, source6=bytes(16), options=LINK_LAYER),
    answered(11, 25, index=1, source6=PREFIXED), answered(11, 26, index=1, routes=LONG_ROUTE), answered(11, 15, index=1, room=0),
    answered(24, 25, next_header=59, source6=PREFIXED), answered(24, 25, hop_limit=254, source6=PREFIXED), answered(24, 25, spoil=1, source6=PREFIXED),
    answered(24, 25, kind=134, source6=bytes(16)), answered(24, 25, code=1, source6=LOOPBACK), answered(24, 25, message_cut=7, source6=PREFIXED),
    answered(24, 25, options=[b"\5\0" + bytes(6)], source6=PREFIXED), answered(24, 25, options=[b"\5\1" + bytes(7)], source6=bytes(16)),
    answered(24, 25, source6=bytes(16), options=LINK_LAYER), answered(24, 26, hop_limit=254, prefixes=NINE), answered(24, 15, spoil=1, room=0),
    answered(25, 26, source6=PREFIXED, prefixes=NINE), answered(25, 26, source6=bytes(16), routes=[operator_route()] * 9),
    answered(25, 26, source6=isatap_address(LINK_LOCAL, "01005efe", PEER), prefixes=LONG), answered(25, 26, source6=LOOPBACK, routes=LONG_ROUTE),
    answered(25, 15, source6=PREFIXED, room=0), answered(25, 15, source6=bytes(16), room=103),
    answered(26, 15, prefixes=NINE, room=0), answered(26, 15, prefixes=NINE, room=359), answered(26, 15, routes=[operator_route()] * 9, room=231),
    answered(26, 15, prefixes=LONG, room=103), answered(26, 15, routes=LONG_ROUTE, room=0)]
EIGHT = [part(0, 8, True, key) for key in range(8)]
BEHIND = [
    behind(2, 29, part(0, 8, True), part(0, 16, True, version=5)), behind(2, 27, part(0, 8, True), part(0, 8, True, total=19)),
    behind(3, 29, part(0, 8, True), part(0, 16, True, spoil=1)), behind(4, 29, part(0, 8, True), part(0, 16, True, protocol=4)),
    behind(3, 27, part(0, 8, True), part(0, 8, True, spoil=1)), behind(3, 28, *EIGHT, part(0, 8, True, 8, spoil=1)),
    behind(30, 29, part(0, 16, True), part(8, 17, True)), behind(30, 29, part(0, 16, True), part(16, 2056, True, spoiled=[16])),
    behind(30, 29, part(56, 64, False), part(56, 56, False)), behind(30, 29, part(56, 64, False), part(64, 2049, False)),
    behind(30, 27, part(0, 16, True), part(0, 15, True)), behind(30, 28, *EIGHT, part(0, 9, True, 8)), behind(30, 28, *EIGHT, part(8, 8, False, 8)),
    behind(29, 27, part(56, 64, False), part(56, 64, True)), behind(29, 27, part(8, 16, True), part(8, 16, False)),
    behind(29, 27, part(8, 24, False), part(8, 16, False)), behind(29, 27, part(0, 16, True), part(0, 16, True, spoiled=[15])),
    behind(29, 27, part(0, 16, True), part(8, 24, True)), behind(29, 8, part(0, 16, True, version6=4), part(8, 64, False, version6=4)),
    behind(29, 10, *EIGHT[:2], part(0, 64, False, source6=link_local(OTHER), flags=0x2000)),
    behind(28, 27, *EIGHT, part(0, 8, True, 8)), behind(28, 27, *EIGHT, part(8, 64, False, 8)), behind(27, 8, part(0, 8, True, version6=4), part(8, 16, True)),
    behind(8, 9, part(0, 8, True, version6=4), part(8, 64, False, source6=LOOPBACK)), behind(8, 10, part(0, 8, True), part(8, 63, False, source6=link_local(OTHER))),
    behind(9, 10, part(0, 8, True), part(8, 64, False, source6=LOOPBACK)), behind(9, 10, part(16, 64, False, source6=bytes(16)), part(0, 16, True, source6=bytes(16)))]
ABSENT = "absent-"
ABSENT_RECEIVED = [
    received(11, 15, room=16383), received(11, 15, room=0), received(11, 2, version=5), received(11, 2, total=61), received(11, 3, spoil=1),
    received(11, 4, protocol=17), received(11, 6, interface=1), received(11, 7, source=LOCAL_HOST), received(11, 8, version6=4), received(11, 9, source6=LOOPBACK),
    received(11, 10, source6=link_local(OTHER)), received(11, 30, flags=0x2000, payload=b"\0"), received(11, 27, flags=0x2000)]
ABSENT_SENT = [
    sent(11, 8, tail=b"\0"), sent(11, 8, version6=4), sent(11, 12, next_hop=isatap_address(OFF_LINK, "00005efe", PEER)), sent(11, 13, next_hop=link_local(OWN)),
    sent(11, 13, next_hop=link_local(LOCAL_HOST)), sent(11, 14, n=1481), sent(11, 15, room=0), sent(11, 15, n=1481, room=1279)]
ABSENT_LISTED = [(11, 1, (bytes(4),)), (11, 1, (LOCAL_HOST, PEER)), (11, 1, (PEER, OTHER, PEER)), (11, 1, tuple(bytes((10, 1, 0, last)) for last in range(17)))]
ABSENT_ASKED = [(11, 22, 0, 48), (11, 15, 0, 47), (11, 15, 0, 0)]
ABSENT_ADVERTISED = [advertised(11, 8, version=4), advertised(11, 8, payload_error=1), advertised(11, 20, hop_limit=254), advertised(11, 20, spoil=1), advertised(11, 21)]
ABSENT_ANSWERED = [
    answered(11, 8, version=4), answered(11, 8, payload_error=1), answered(11, 24, hop_limit=254), answered(11, 24, spoil=1), answered(11, 25, source6=PREFIXED),
    answered(11, 26, prefixes=NINE), answered(11, 26, routes=LONG_ROUTE), answered(11, 15, room=0)]
CALLS = [(name, call) for name, calls in (
    ("receive", RECEIVED + PIECES + BEHIND), ("send", SENT), ("report", REPORTED), ("ask", ASKED), ("advertisement", ADVERTISED), ("advertise", ANSWERED),
    (ABSENT + "receive", ABSENT_RECEIVED), (ABSENT + "send", ABSENT_SENT), (ABSENT + "routers", ABSENT_LISTED), (ABSENT + "ask", ABSENT_ASKED),
    (ABSENT + "advertisement", ABSENT_ADVERTISED), (ABSENT + "advertise", ABSENT_ANSWERED)) for call in calls]


def arguments(name, call):
    """The arguments of the call, at time 0 if it has a time."""
    rest = list(call[2:])
    place = {"receive": 1, "send": 1, "report": 0, "routers": 0, "ask": 1, "advertisement": 0}.get(name)
    if place is not None:
        rest.insert(place, 0)
    return rest


def make(calls):
    """All of them on one node, of these settings; each is given its first number. Where others come before it, nothing is live at first."""
    for name, call in CALLS:
        if name.startswith(ABSENT):
            name = name.removeprefix(ABSENT)
            calls.make(name, (1, *arguments(name, call)), "refuse 11")
            continue
        *rest, last = arguments(name, call)
        if isinstance(last, tuple):
            calls.call("report", calls.service.latest + 30, b"", want="refuse 16")
            for earlier in last[:-1]:
                calls.call(name, *rest, earlier, want="refuse 27")
            last = last[-1]
        calls.call(name, *rest, last, want="too-big 1480" if call[0] == 14 else f"refuse {call[0]}")


def lines():
    """The text of tests/double_faults.txt."""
    def word(part):
        if isinstance(part, tuple):
            return ",".join(map(word, part))
        part = encode_operator(part) if isinstance(part, Advertisement) else part
        return (part.hex() or "-") if isinstance(part, bytes) else str(part)
    shown = [" ".join([name] + [word(part) for part in call]) for name, call in CALLS]
    return (HEAD + "".join(line + "\n" for line in shown)).encode()
