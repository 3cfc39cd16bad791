"""Checks of the model: the checked values (R18), and how often each answer occurs in expected lines."""
from collections import Counter
from pathlib import Path

from . import builders
from .comparing import MASKED, differs, runs
from .formats import MEMORY, Reader, answer, digest, encode_call, encode_datagrams, encode_services, lent, lent_memories, program, replay
from .generator import generate
from .node import Node
from . import recordings, scenarios_recordings
from .octets import LINK_LOCAL, LOOPBACK, checksum_field, checksum_right, isatap_address, link_local, pseudo_header, u16
from .rules import Advertisement, Settings, wrapped

OWN, PEER, OTHER, ROUTER = (bytes((10, 0, 0, last)) for last in (1, 2, 3, 9))

# What each call can be brought to answer; 23 cannot come: L is at most 9,216, so 14 comes for every n above 9,196
ANSWERS = {"receive": ["deliver", "joined"] + [f"refuse {number}" for number in (11, 15, 2, 3, 4, 6, 7, 8, 9, 10, 30, 29, 28, 27)],
           "memory": ["answered"], "part": ["empty", "answered"],
           "send": ["wrapped", "too-big with message", "too-big without"] + [f"refuse {number}" for number in (8, 11, 12, 13, 15)],
           "report": ["accepted"] + [f"refuse {number}" for number in (16, 17, 18, 19)],
           "routers": ["accepted", "refuse 1", "refuse 11"], "ask": ["answered"] + [f"refuse {number}" for number in (11, 22, 15)],
           "advertisement": ["answered"] + [f"refuse {number}" for number in (11, 8, 20, 21)],
           "advertise": ["written"] + [f"refuse {number}" for number in (8, 11, 24, 25, 26, 15)],
           "size": ["answered", "refuse 11"], "settings": ["refuse 1"], "bad": ["input"]}


def kind_of_answer(line):
    name, word, *rest = line.split()
    if word == "refuse":
        return name, f"refuse {rest[0]}"
    if name == "part":
        return name, "empty" if word == "0" else "answered"
    if word == "too-big":
        return name, "too-big without" if rest[1] == "0" else "too-big with message"
    return name, word if word in ANSWERS[name] else "answered"


def counted(lines):
    """How often each answer occurs, and those that can come and do not, or come and cannot."""
    counts = Counter(kind_of_answer(line) for line in lines)
    expected = {(name, kind) for name in ANSWERS for kind in ANSWERS[name]}
    return counts, sorted(expected - set(counts)) + sorted(set(counts) - expected)


def coverage(*files):
    """Prints the table; the status is 1 if an answer that can come does not."""
    counts, wrong = counted(line for file in files for line in Path(file).read_text().splitlines())
    for (name, kind), count in sorted(counts.items()):
        print(f"{name:14} {kind:22} {count:8}")
    for name, kind in wrong:
        print(f"{name:14} {kind:22} {'not expected' if (name, kind) in counts else 'missing':>8}")
    return 1 if wrong else 0


# ---- The checked values (R18)

def node(link=1500, routers=(ROUTER,)):
    return Node(Settings([(OWN, 0)], [], list(routers), link))


def service(*settings):
    """The one that such a node has."""
    return node(*settings).services[0]


def packet(n, source=link_local(PEER)):
    return builders.packet(source, LOOPBACK, bytes(n - 40))


def report(candidate, quoted_total=1500, neighbour=PEER):
    return builders.report(candidate, OWN, neighbour, quoted_total)


def said(one, name, *arguments):
    """The answer without the call's name."""
    return answer(one, lent_memories(), name, arguments).split(" ", 1)[1]


def sent(path, n, link=1500):
    """The answer to n bytes at this path size, and the don't-fragment flag written."""
    one, output = service(link), lent(10000)
    if path < link:
        one.report(0, report(path))
    text = one.send(0, 0, link_local(PEER), output, packet(n))
    return text, output[6] >> 6 & 1 if text.startswith("wrapped") else None


def size_checks():
    """★ Sizes: M, and the flag."""
    yield "P 1,300: n 1,280 wrapped, flag clear", sent(1300, 1280), ("wrapped 1300", 0)
    yield "P 1,300: 1,281 gives M 1,280", sent(1300, 1281), ("too-big 1280 1280", None)
    yield "P 1,301: 1,281 wrapped, flag set", sent(1301, 1281), ("wrapped 1301", 1)
    yield "P 1,301: 1,282 gives 1,281", sent(1301, 1282), ("too-big 1281 1280", None)
    yield "P 1,500: 1,480 passes", sent(1500, 1480), ("wrapped 1500", 1)
    yield "P 1,500: 1,481 gives 1,480", sent(1500, 1481), ("too-big 1480 1280", None)
    yield "P 600: 1,280 passes, flag clear", sent(600, 1280), ("wrapped 1300", 0)


def extension_checks():
    """R25: the number in the IPv6 header and the first bytes behind it, by hand; zeros follow."""
    for text, first, start, n, written in (
            ("an error behind destination options", 60, "3a00000000000000 01", 1481, 0),
            ("an echo behind them", 60, "3a00000000000000 80", 1481, 1280),
            ("an echo behind 16 bytes of them", 60, "3a01000000000000 0000000000000000 80", 1481, 1280),
            ("a redirect behind hop-by-hop options and routing", 0, "2b00000000000000 3a00000000000000 89", 1481, 0),
            ("an echo in a first fragment", 44, "3a07000100000000 80", 1481, 1280), ("UDP in a later one", 44, "1100000800000000 80", 1481, 0),
            ("ICMPv6 of which no byte is left", 60, "3ab4", 1488, 0), ("TCP of which none is left", 60, "06b4", 1488, 1280),
            ("a header without its last byte", 60, "06b4", 1487, 0), ("one that would start at the end", 60, "2cb4", 1488, 0)):
        data = builders.packet(link_local(PEER), LOOPBACK, bytes.fromhex(start).ljust(n - 40, b"\0"), next_header=first)
        yield f"{text}: {written} bytes written", service().send(0, 0, link_local(PEER), lent(1280), data), f"too-big 1480 {written}"


def report_checks():
    """★ Reports: plateaus, limits, age."""
    for total, size in ((1500, 1492), (1492, 1006), (69, 68), (68, None)):
        given = f"accepted 10.0.0.2 {size}" if size else "refuse 18"
        yield f"candidate 0, quoted {total}: {given}", said(node(), "report", 0, report(0, total)), given
    for candidate, given in ((68, "accepted 10.0.0.2 68"), (67, "refuse 18"), (1500, "refuse 19")):
        yield f"size {candidate}: {given}", said(node(), "report", 0, report(candidate)), given
    one = service()
    one.report(1000, report(700))
    for time, size in ((1599, 700), (1600, 1500)):
        one.raise_time(time)
        yield f"accepted at 1,000: size at {time} is {size}", one.size(PEER), size


def neighbour_checks():
    """Run only: the 63rd other neighbour leaves a size, the 64th removes it."""
    one = service()
    one.report(0, report(700))
    for count in range(1, 65):
        one.report(0, report(800, neighbour=bytes((10, 1, 0, count))))
        if count >= 63:
            yield f"after {count} other neighbours", one.size(PEER), 700 if count == 63 else 1500


HEADER = bytes.fromhex("4500003C00010000402966960A0000020A000001")


def example(identifier="00005efe", last=2):
    return HEADER + packet(40, isatap_address(LINK_LOCAL, identifier, bytes((10, 0, 0, last))))


def receive_checks():
    """★ The header's checksum and the identifier's first byte."""
    yield "the header above gets checksum 6696", checksum_field(HEADER[:10] + HEADER[12:]).hex(), "6696"
    yield "the header above is what wrapping writes", wrapped(b"", 1, False, 64, PEER, OWN)[4:10].hex(), HEADER[4:10].hex()
    for first, given in ((0, "deliver 20 40"), (2, "deliver 20 40"), (1, "refuse 10"), (3, "refuse 10")):
        yield f"first identifier byte {first:02}: {given}", said(node(), "receive", 0, 0, 0, 16384, example(f"{first:02x}005efe")), given
    yield "16,383 bytes of memory", said(node(), "receive", 0, 0, 0, 16383, example()), "refuse 15"
    yield "the part", service().part(0, example()), example()[20:]


FIRST_PIECE = bytes.fromhex("4500002C00012000402946A60A0000020A000001")
LAST_PIECE = bytes.fromhex("4500002400010003402966AB0A0000020A000001")


def pieces():
    """The example's packet in two pieces, their headers by hand: 24 bytes with more-fragments, and 16 at offset 3."""
    return FIRST_PIECE + example()[20:44], LAST_PIECE + example()[44:]


def joining_checks():
    """The two pieces in both orders, with a repeat, and what stands in the memory."""
    packet_, waits = example()[20:], "receive refuse 27"
    joined = f"receive joined 0 40 {digest(packet_)}"
    for first, last in (pieces(), pieces()[::-1]):
        one, memories = node(), lent_memories()
        given = [answer(one, memories, "receive", (0, 0, time, 16384, piece)) for time, piece in ((5, first), (34, first), (34, last), (34, last))]
        yield "two pieces, the first twice, the last twice", given, [waits, waits, joined, waits]
        yield "two pieces: the memory", bytes(memories[0]), packet_ + b"\xa5" * (MEMORY - 40)
        yield "two pieces: the parts", [one.services[0].part(0, piece) for piece in (first, last)], [b"", b""]
        one, memories = node(), lent_memories()
        given = [answer(one, memories, "receive", (0, 0, time, 16384, piece)) for time, piece in ((5, first), (35, last), (0, first))]
        yield "two pieces, 30 s apart, and the first again", given, [waits, waits, joined]


def program_checks():
    start = u16(1) + OWN + b"\0" + u16(0) + u16(0)
    two = start + encode_datagrams([(0, example(last=2)), (0, example(last=3))])
    yield "the program's example", program(two), ["datagrams 2", "1 deliver 40", "2 refuse 10"]
    yield "no datagram", program(start + u16(0)), ["datagrams 0"]
    first, last = pieces()
    yield "the program's example in pieces", program(start + encode_datagrams([(0, last), (0, last), (0, first), (0, first)])), [
        "datagrams 4", "1 refuse 27", "2 refuse 27", "3 deliver 40", "4 refuse 27"]
    full = start + encode_datagrams([(0, bytes(65515)), (0, bytes(2))])
    yield "65,536 bytes are taken", (len(full), program(full)), (65536, ["datagrams 2", "1 refuse 2", "2 refuse 2"])
    for text, data in (("empty", b""), ("trailing byte", two + b"\0"), ("cut", two[:-1]), ("too long", full + b"\0"),
                       ("no locator", bytes(8))):
        yield f"program, {text}: bad input", program(data), ["bad input"]


def message_checks():
    """Messages that we write are right by their own checksums and read as RFC 4443 and RFC 4861 say."""
    one, output = service(), lent(1300)
    one.send(0, 0, link_local(PEER), output, packet(1481))
    yield "Too Big: addresses, type, size", bytes(output[:48]), (
        bytes.fromhex("6000000004d83a40") + link_local(OWN) + link_local(PEER) + b"\2\0" + bytes(output[42:44])
        + bytes.fromhex("000005c8"))
    yield "Too Big: checksum", checksum_right(pseudo_header(link_local(OWN), link_local(PEER), 1240) + output[40:1280]), True
    yield "Too Big: quote, and bytes behind it", bytes(output[48:]), packet(1481)[:1232] + b"\xa5" * 20
    output = lent(50)
    yield "asking names the router", one.ask(0, 0, output), "10.0.0.9"
    yield "solicitation", bytes(output), (bytes.fromhex("6000000000083aff") + link_local(OWN) + link_local(ROUTER) +
                                          b"\x85\0" + bytes(output[42:44]) + bytes(4) + b"\xa5\xa5")
    yield "solicitation: checksum", checksum_right(pseudo_header(link_local(OWN), link_local(ROUTER), 8) + output[40:48]), True


def time_checks():
    """Due times are exact and may lie past the last second."""
    whole = node()
    one = whole.services[0]
    one.ask(0, 0xffffffff, lent(48))
    yield "due past the last second", said(whole, "ask", 0, 0, 0xffffffff, 0), "refuse 22 811c9dc5"
    yield "exact due time", one.routers, [(ROUTER, 0xffffffff + 120)]
    one.advertisement(0, builders.advertisement(link_local(ROUTER), link_local(OWN), 1800))
    yield "half of the router's lifetime", one.routers, [(ROUTER, 0xffffffff + 900)]


def advertise_checks():
    """The circle: a node asks, the router answers, and the node hears it. The answer's bytes by hand, as RFC 4861 and RFC 4191 say."""
    whole, router = node(), Node(Settings([(ROUTER, 0)], [], [])).services[0]
    one = whole.services[0]
    asking, answer = lent(48), lent(506)
    one.ask(0, 1000, asking)
    yield "asking again, none due", said(whole, "ask", 0, 0, 1000, 0), "refuse 22 811c9dc5"
    operator = Advertisement(0xff, 0, [(65, 0x7f, 7200, 300, b"\xff" * 16)], [(0, 1, 0xffffffff, b"\xff" * 16), (1, 2, 9000, b"\xff" * 16)])
    yield "advertising: the length", router.advertise(0, answer, operator, bytes(asking)), "written 112"
    yield "advertising: the bytes", (bytes(answer[:42]) + bytes(answer[44:112])).hex(), (
        "6000000000483aff" "fe8000000000000000005efe0a000009" "fe8000000000000000005efe0a000001" "8600" "00c00000" "0000000000000000"
        "03044140" "00001c20" "0000012c" "00000000" "ffffffffffffffff8000000000000000" "18010008" "ffffffff" "18020118" "00002328" "8000000000000000")
    yield "advertising: checksum", checksum_right(pseudo_header(link_local(ROUTER), link_local(OWN), 72) + answer[40:112]), True
    yield "advertising: bytes behind it", bytes(answer[112:]), b"\xa5" * 394
    yield "advertising: heard", one.advertisement(1000, bytes(answer[:112])), "10.0.0.9"
    yield "advertising: due after half the valid lifetime", one.routers, [(ROUTER, 1000 + 3600)]
    most = Advertisement(0, 0, [(64, 0, 0, 0, bytes(16))] * 8, [(65, 0, 0, bytes(16))] * 8)
    yield "advertising: at most 504 bytes", router.advertise(0, answer, most, bytes(asking)), "written 504"


FIRST = u16(1) + OWN + b"\0" + u16(0) + u16(0) + u16(1500) + b"\x40" + u16(120) + u16(1)  # settings up to the reporting flag
SECOND = u16(1) + OTHER + b"\0" + u16(0) + u16(0) + u16(9000) + b"\x41" + u16(120) + u16(9) + b"\0"


def each_kind(service):
    """One call of each kind but a report, by hand; some twice."""
    asking, service = builders.solicitation(link_local(PEER), link_local(OWN)), bytes([service])
    return (b"\1" + service + b"\0" + bytes(4) + u16(16384) + u16(60) + example()
            + b"\2" + service + b"\0" + bytes(4) + link_local(PEER) + u16(60) + u16(40) + packet(40)
            + b"\4" + service + b"\0\0\0\2" + u16(1) + ROUTER + b"\5" + service + b"\0\0\0\0\3" + u16(0)
            + b"\6" + service + b"\0\0\0\4" + u16(0) + b"\7" + service + PEER
            + b"\x08" + service + b"\0" + u16(0) + b"\xff" + u16(1800) + u16(1) + bytes(26) + u16(1) + bytes(22) + u16(0)
            + b"\x08" + service + b"\1" + u16(1) + bytes(3) + u16(0) + u16(0) + u16(48) + asking
            + b"\x09" + service + b"\x0a" + service + b"\0" + u16(60) + example() + b"\x0a" + service + b"\1" + u16(60) + example())


def replay_checks():
    start, reported = b"\1" + FIRST, b"\3\0\0\0\1" + u16(36) + report(700)
    asking, untouched = builders.solicitation(link_local(PEER), link_local(OWN)), "memory " + digest(b"\xa5" * 65535)
    yield "FNV-1a of `foobar`", digest(b"foobar"), "bf9cf968"
    yield "RFC 1071's example", checksum_field(bytes.fromhex("0001f203f4f5f6f7")).hex(), "220d"
    yield "settings without calls", replay(start + b"\0"), []
    yield "reporting flag 2", replay(start + b"\2"), ["bad input"]
    yield "empty input", replay(b""), ["bad input"]
    yield "multicast reporting address", replay(start + b"\1" + b"\xff" * 16), ["settings refuse 1"]
    yield "size", replay(start + b"\0\x07\0" + PEER), ["size 1500"]
    yield "one call of each kind, by hand", replay(start + b"\0" + reported + each_kind(0)), [
        "report accepted 10.0.0.2 700", "receive deliver 20 40", "send wrapped 60 " + digest(wrapped(packet(40), 1, False, 64, OWN, PEER)),
        "routers accepted 1", "ask refuse 15 811c9dc5", "advertisement refuse 8", "size 700",
        "advertise refuse 8 811c9dc5", "advertise refuse 11 " + digest(b"\xa5"), untouched, "part 40 " + digest(example()[20:]), "part 0 811c9dc5"]
    yield "the same of an absent service", replay(start + b"\0" + each_kind(1)), [
        "receive refuse 11", "send refuse 11 " + digest(b"\xa5" * 60), "routers refuse 11", "ask refuse 11 811c9dc5", "advertisement refuse 11",
        "size refuse 11", "advertise refuse 11 811c9dc5", "advertise refuse 11 " + digest(b"\xa5"), untouched] + 2 * ["part 0 811c9dc5"]
    for text, routes, given in (("a preference of 2", [2], "advertise refuse 15 811c9dc5"), ("a preference of 3", [3], "bad input"),
                                ("a preference of 3 in the ninth place", [0] * 8 + [3], "bad input"),
                                ("nine routes", [0] * 9, "advertise refuse 26 811c9dc5"), ("256 routes", [1] * 256, "advertise refuse 26 811c9dc5")):
        entries = b"".join(bytes([0, preference]) + bytes(20) for preference in routes)
        yield text, replay(start + b"\0\x08\0\0" + u16(0) + bytes(3) + u16(0) + u16(len(routes)) + entries + u16(48) + asking), [given]


def service_checks():
    """Two services, of L 1,500 and 9,000: sizes, whose report it is, whose own a destination is, and what is no such input (R26)."""
    start, sizes = b"\2" + FIRST + b"\0" + SECOND, b"\7\0" + PEER + b"\7\1" + PEER
    both, neither = start, b"\1" + FIRST + b"\0"
    for candidate, source, given in ((5000, OTHER, ["accepted 10.0.0.2 5000", 1500, 5000]), (1400, OTHER, ["accepted 10.0.0.2 1400", 1400, 1400]),
                                     (1500, OWN, ["refuse 19", 1400, 1400]), (1399, OWN, ["accepted 10.0.0.2 1399", 1399, 1399])):
        both += b"\3\0\0\0\1" + u16(36) + builders.report(candidate, source, PEER) + sizes
        yield f"{candidate} quoting {source[3]}", replay(both)[-3:], [f"report {given[0]}", f"size {given[1]}", f"size {given[2]}"]
    for source, destination, given in ((OWN, OTHER, "report accepted 10.0.0.3 600"), (OTHER, OWN, "report accepted 10.0.0.1 600"), (OWN, OWN, "report refuse 17"),
                                       (OTHER, OTHER, "report refuse 17"), (PEER, OWN, "report refuse 17")):
        message = builders.report(600, source, destination)
        yield f"quoted from {source[3]} to {destination[3]}", replay(start + b"\3\0\0\0\1" + u16(36) + message), [given]
    aged = neither + b"\3\0\0\0\1" + u16(36) + report(700) + b"\5\1\0\0\0\2\x58" + u16(0) + sizes + b"\5\1\0\0\0\2\x59" + u16(0) + sizes
    yield "an absent service's time counts", replay(aged)[1:], [
        "ask refuse 11 811c9dc5", "size 700", "size refuse 11", "ask refuse 11 811c9dc5", "size 1500", "size refuse 11"]
    yield "each wraps by its own identification", replay(start + b"".join(
        b"\2" + bytes([service, 0]) + bytes(4) + link_local(PEER) + u16(60) + u16(40) + packet(40) for service in (0, 1, 0, 1))), [
        "send wrapped 60 " + digest(wrapped(packet(40), *parts, PEER))
        for parts in ((1, True, 64, OWN), (9, True, 65, OTHER), (2, True, 64, OWN), (10, True, 65, OTHER))]
    shared = SECOND.replace(OTHER + b"\0", OWN + b"\7")
    for text, data, given in (("a shared address, other interfaces", b"\2" + FIRST + b"\0" + shared, "settings refuse 1"), ("no service", start.replace(b"\2", b"\0", 1), "bad input"),
                              ("three services", b"\3" + start[1:] + SECOND, "bad input"), ("a service of 2", start + b"\7\2" + PEER, "bad input"),
                              ("the second's settings cut off", start[:-1], "bad input"), ("no second settings", b"\2" + neither[1:], "bad input")):
        yield text, replay(data), [given]


def without_routers(data, number):
    """The same list of calls, but for routers, later ones too, prefixes and first identification of that service (R26.9)."""
    reader = Reader(data)
    services, changed = reader.services(), bytearray()
    services[number].routers, services[number].prefixes, services[number].identification = [], [], 7
    while not reader.ended():
        name, arguments = reader.call()
        if name == "routers" and arguments[0] == number:
            arguments[2] = []
        changed += encode_call(name, arguments)
    return encode_services(services) + changed


def lines_of(data, number):
    """The lines of that service's calls and of the reports."""
    reader = Reader(data)
    reader.services()
    return [line for line in replay(data) for name, arguments in [reader.call()] if name == "report" or arguments[0] == number]


def apart_checks():
    """Neither service sees the other's routers, prefixes and identification."""
    lists = [data for data in (generate(seed, 250) for seed in range(20)) if data[0] == 2]
    for place, data in enumerate(lists):
        for number in (0, 1):
            yield (f"list {place}: service {number} of another with no routers and prefixes", lines_of(without_routers(data, 1 - number), number),
                   lines_of(data, number))
    yield "lists of two services", len(lists) > 4, True


def comparing_checks():
    """Two recordings by hand, and what must hold of every two (R27)."""
    first = bytes.fromhex("0003 00 0003 010203 07 000c 000102030405060708090a0b 00 0000")
    second = bytes.fromhex("0002 09 0003 010903 00 000d ff01020304ff060708ff0a0b00")
    # the second byte of the first; of the second its first, its sixth and its tenth, and a thirteenth that is there only once
    unmasked, masked = [0x0001_0001_0001, 0x0002_0000_0001, 0x0002_0005_0001, 0x0002_0009_0001, 0x0002_000c_0001], [0, 1, 3, 4]
    for mask, kept in ((0, unmasked), (1, [unmasked[place] for place in masked])):
        report = b"".join(one.to_bytes(6, "big") for one in kept)
        lines = [" ".join(str(one >> shift & 0xffff) for shift in (32, 16, 0)) for one in kept]
        for one, other, more in ((first, second, "first"), (second, first, "second")):
            data = recordings.encode(mask, 31, one, other)
            yield f"two recordings, masked {mask}", recordings.recordings(data), [
                f"compared {len(report)} {more} {digest(report + lent(31 - len(report)))}", *lines]
        yield f"no room, masked {mask}", recordings.recordings(recordings.encode(mask, len(report) - 1, first, second)), [
            f"refuse 15 {digest(lent(len(report) - 1))}"]
    yield "a trailing byte before no room", recordings.recordings(recordings.encode(0, 1, first + b"\0", second)), ["refuse 31 " + digest(b"\xa5")]
    yield "no datagrams", recordings.recordings(recordings.encode(0, 0, bytes(2), bytes(2))), ["compared 0 neither 811c9dc5"]
    for text, one, other, mask, given in (("ends in what is masked", bytes(5), bytes(6), 1, [(5, 1)]), ("a run across the end", bytes(9), bytes(8) + b"\1" * 4, 1, [(9, 3)]),
                                          ("none across the end", bytes(4), b"\0\0\0\1\1", 0, [(3, 2)]), ("masked ends a run", bytes(7), b"\1" * 7, 1, [(0, 4), (6, 1)])):
        yield text, runs(mask, one, other), given
        yield f"{text}, exchanged", runs(mask, other, one), given
    yield "what is masked", [offset for offset in range(60) if differs(0, bytes(60), b"\1" * 60, offset) and not differs(1, bytes(60), b"\1" * 60, offset)], [*MASKED]
    answers = {line.split()[0 if line.startswith("compared") else 1] for _, data in scenarios_recordings.named_inputs()
               if len(data) < 1000 for line in recordings.recordings(data)[:1]}
    yield "answers of `recordings`", answers, {"compared", "31", "15", "input"}


CHECKS = (size_checks, extension_checks, report_checks, neighbour_checks, receive_checks, joining_checks, program_checks, message_checks,
          time_checks, advertise_checks, replay_checks, service_checks, apart_checks, comparing_checks)


def checked():
    """Text of each value, what the model gives, and what the rules state (R18)."""
    for checks in CHECKS:
        yield from checks()


def self_test():
    """One line for each value; the status is 1 if one is not as stated."""
    wrong = 0
    for text, given, stated in checked():
        wrong += given != stated
        print(f"{'ok  ' if given == stated else 'FAIL'} {text}" + ("" if given == stated else f": {given!r}, not {stated!r}"))
    print(f"{wrong} wrong")
    return 1 if wrong else 0
