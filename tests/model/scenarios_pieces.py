"""Runs of calls that each show a rule of joining (R23); the answers are worked out here, beside the model."""
from .builders import datagram, fragments, packet
from .calls import ISATAP_IDENTIFIERS, LAST_SECOND
from .faults import BAD_SOURCES, GLOBAL
from .formats import digest
from .octets import LINK_LOCAL, isatap_address, link_local
from .pieces import DROPS, FULL, UNFIT, WAITS, Whole, changed
from .scenarios import REFUSED_AT_ONCE, ask, raise_time, size_is

EMPTY = "0 " + digest(b"")


def none_live(calls):
    """What was collected before is live no more, and places are counted from 0; the latest time."""
    raise_time(calls, calls.service.latest + 30)
    return calls.service.latest


def memory_is(calls, expected):
    calls.call("memory", want=digest(expected))


# ---- Cuttings

def two_pieces(calls):
    """In both orders, for lengths about a multiple of 8, cut behind the first unit, about the inner header and before the last one."""
    none_live(calls)
    for length in (40, 41, 47, 48, 49, 64, 100, 1280):
        for cut in sorted({8, 24, 40, (length - 1) // 8 * 8} & set(range(8, length))):
            for parts in ([(0, cut), (cut, length)], [(cut, length), (0, cut)]):
                Whole(calls, length).give_all(parts)


def many_pieces(calls):
    """Nine pieces of 8 bytes in any order, each repeated or not before the last is in."""
    none_live(calls)
    for _ in range(4):
        whole, order = Whole(calls, 72), calls.random.sample([(start, start + 8) for start in range(0, 72, 8)], 9)
        for count, part in enumerate(order[:-1], 1):
            whole.give(*part)
            for again in calls.random.sample(order[:count], calls.random.randrange(min(3, count + 1))):
                whole.give(*again)
        whole.give(*order[-1], want=whole.joined(0))


def longest_payloads(calls):
    """Payloads that end at 2,048 and just before, and one in as many pieces as there can be."""
    none_live(calls)
    for length, cut in ((2048, 8), (2048, 2040), (2047, 2040), (2041, 2040), (2041, 8), (2040, 1024)):
        Whole(calls, length).give_all([(0, cut), (cut, length)])
        Whole(calls, length).give_all([(cut, length), (0, cut)])
    parts = [(start, start + 8) for start in range(0, 2048, 8)]
    Whole(calls, 2048).give_all(calls.random.sample(parts, 256), options=b"", padding=b"")
    for last in ((2032, 2040), (0, 8), (1024, 1032)):
        Whole(calls, 2048).give_all([*rest_of(2048, last), last])


def longer_than_the_packet(calls):
    """The inner packet's length is its own: what stands behind it in the joined payload is not delivered."""
    none_live(calls)
    for inner, behind in ((40, 1), (40, 24), (48, 2000), (100, 5)):
        whole = Whole(calls, inner)
        whole.payload += calls.some(behind)
        whole.give_all(whole.cut())


def by_rfc_791(calls):
    """What RFC 791's procedure makes of a datagram is joined in any order, and answered as the datagram itself is."""
    none_live(calls)
    record, security, stream = b"\x07\x07\x04" + bytes(4), b"\x82\x0b" + bytes(9), b"\x88\x04\0\1"
    for options in (b"", record + b"\0", security + b"\0", record + b"\1" + stream, stream + security + b"\1", b"\1" * 36 + stream):
        for size in (68, 100, 296):
            whole = Whole(calls, calls.random.choice((300, 333, 600)))
            uncut = datagram(whole.payload, whole.source, whole.destination, options, identification=whole.identification)
            cut = fragments(uncut, size)
            calls.random.shuffle(cut)
            for data in cut:
                calls.call("receive", whole.interface, 0, 16384, data, want=whole.joined(0) if data is cut[-1] else WAITS)
            calls.call("receive", whole.interface, 0, 16384, uncut, want=f"deliver {20 + len(options)} {len(whole.payload)}")
            calls.call("part", whole.interface, uncut, want=f"{len(whole.payload)} {digest(whole.payload)}")


def interleaved(calls):
    """Eight datagrams at once, their pieces in any order."""
    none_live(calls)
    wholes = [Whole(calls, calls.random.choice((56, 64, 75, 400))) for _ in range(8)]
    cuts = [calls.random.sample(parts, len(parts)) for parts in (whole.cut(1, 4) for whole in wholes)]
    for whole, parts in zip(wholes, cuts):
        whole.give(*parts.pop())
    while any(cuts):
        place = calls.random.choice([place for place in range(8) if cuts[place]])
        part, whole = cuts[place].pop(), wholes[place]
        whole.give(*part, want=WAITS if cuts[place] else whole.joined(place))


def free_fields(calls):
    """TTL, type of service, options, padding, don't-fragment and the reserved flag are no part of the key."""
    none_live(calls)
    for fields in ({"ttl": 0}, {"ttl": 255}, {"service": 255}, {"flags": 0x4000}, {"flags": 0x8000}, {"flags": 0xc000}, {"options": bytes(4)},
                   {"options": b"\1" * 40}, {"padding": b"\0"}, {"padding": b"\xff" * 1400}):
        whole = Whole(calls)
        whole.give(0, 24, **{"ttl": 64, "service": 0, "flags": 0, "options": b"", "padding": b"", **fields})
        whole.give(24, 64, want=whole.joined(0), **{"ttl": 63, "service": 1, "flags": 0, "options": b"", "padding": b""})


# ---- 30

UNFIT_PIECES = [(0, 0, True), (16, 16, False), (16, 16, True), (2040, 2040, False), (2048, 2048, False),
                (16, 25, True), (16, 23, True), (16, 17, True), (16, 20, True), (16, 28, True), (2040, 2047, True), (0, 2047, True),
                (2040, 2049, False), (2048, 2049, False), (2048, 2056, True), (2040, 2056, True), (0, 2056, True), (8, 2050, False), (2032, 2064, True),
                (8 * 8191, 65536, True), (8 * 8191, 65529, False), (8 * 4096, 8 * 4096 + 8, True), (8 * 256, 8 * 257, False), (8 * 512, 8 * 513, True)]


def unfit(calls):
    """A piece that is empty, ends past 2,048 or is no multiple of 8 changes nothing: not under a new key, not under one that is live."""
    none_live(calls)
    for part in UNFIT_PIECES:
        whole = Whole(calls)
        whole.give(*part, want=UNFIT)
        whole.begin()
        whole.give(*part, want=UNFIT)
        whole.end(0)
    calls.call("memory")


def unfit_first(calls):
    """30 is given before 29, 28 and 27."""
    none_live(calls)
    whole = Whole(calls)
    whole.give(0, 32)
    whole.give(56, 64)
    for part in ((8, 17, True), (24, 33, True), (32, 2056, True), (48, 48, False), (64, 2049, False), (0, 31, True)):
        whole.give(*part, want=UNFIT)                         # overlapping, of another end, or held already
    whole.give(32, 56, want=whole.joined(0))
    for one in [Whole(calls).begin() for _ in range(8)]:
        Whole(calls).give(0, 9, True, want=UNFIT)             # no place is free
        one.give(0, 7, True, want=UNFIT)
    Whole(calls).begin(want=FULL)


# ---- 29 and what is ignored

OVERLAPS = [((0, 16), (8, 24)), ((8, 24), (0, 16)), ((8, 16), (0, 24)), ((8, 16), (0, 16)), ((8, 16), (8, 24)), ((0, 24), (16, 32)),
            ((0, 40), (32, 64)), ((32, 64), (24, 40)), ((32, 64), (0, 40)), ((40, 64), (32, 64)), ((56, 64), (8, 64)), ((0, 8), (0, 56))]


def rest_of(length, part):
    """The parts before and behind this one."""
    return [(start, end) for start, end in ((0, part[0]), (part[1], length)) if start < end]


def overlaps(calls):
    """Any overlap but a repeat drops the datagram and is not kept; then both, and the others, are taken anew."""
    none_live(calls)
    for taken, new in OVERLAPS:
        whole = Whole(calls)
        whole.give(*taken)
        whole.give(*new, want=DROPS)
        whole.give_all([*rest_of(64, taken), taken])          # what was taken is not held any more
        whole = Whole(calls)
        whole.give(*taken)
        whole.give(*new, want=DROPS)
        whole.give_all([*rest_of(64, new), new])              # nor is the new one
        whole = Whole(calls)
        whole.give(*taken)
        whole.give(*new, want=DROPS)
        whole.give(*taken)
        whole.give(*new, want=DROPS)


def dropped_place(calls):
    """29 frees the place of its own datagram alone, and the next new one takes it."""
    none_live(calls)
    wholes = [Whole(calls).begin() for _ in range(4)]
    wholes[1].give(0, 16, want=DROPS)
    new = Whole(calls).begin()
    wholes[1].begin()
    for place, whole in ((3, wholes[3]), (1, new), (0, wholes[0]), (4, wholes[1]), (2, wholes[2])):
        whole.end(place)


def repeats(calls):
    """A piece whose bytes are all held, and equal, is ignored, whichever pieces brought them; it changes nothing."""
    none_live(calls)
    for length in (64, 61, 57):
        whole = Whole(calls, length)
        for part in ((0, 16), (16, 32), (48, length)):
            whole.give(*part)
        before = bytes(calls.memory)
        for part in ((0, 16), (0, 8), (8, 16), (8, 24), (0, 32), (16, 32), (24, 32), (16, 24), (48, length), (56, length), (48, 56)):
            whole.give(*part)
        memory_is(calls, before)
        whole.give(32, 48, want=whole.joined(0))


def unequal_repeats(calls):
    """A repeat with another byte, whichever, drops the datagram."""
    none_live(calls)
    taken = [(0, 16), (16, 32), (48, 61)]
    for start, end in ((0, 16), (8, 24), (0, 32), (48, 61), (56, 61)):
        for place in sorted({0, (end - start) // 2, end - start - 1}):
            whole = Whole(calls, 61)
            whole.give_all(taken, want=WAITS)
            whole.give(start, end, payload=changed(whole.payload[start:end], place), want=DROPS)
            whole.give(32, 48)
            whole.give_all(taken)


def repeats_with_a_gap(calls):
    """Bytes that are held but for a unit are no repeat."""
    none_live(calls)
    for taken, new in (([(0, 8), (16, 24)], (0, 24)), ([(8, 16), (16, 24)], (0, 24)), ([(0, 8), (8, 16)], (0, 24)), ([(0, 8), (16, 24), (24, 32)], (0, 32))):
        whole = Whole(calls)
        for part in taken:
            whole.give(*part)
        whole.give(*new, want=DROPS)
        whole.give_all([(0, 32), (32, 64)])


SET, CLEAR = True, False
DISAGREEING = [([(16, 24, CLEAR)], (16, 24, SET)), ([(16, 24, SET)], (16, 24, CLEAR)), ([(16, 24, CLEAR)], (8, 16, CLEAR)),
               ([(8, 16, CLEAR)], (16, 24, CLEAR)), ([(16, 24, CLEAR)], (24, 32, SET)), ([(24, 32, SET)], (16, 24, CLEAR)),
               ([(16, 24, CLEAR)], (32, 40, CLEAR)), ([(32, 40, CLEAR)], (16, 24, CLEAR)), ([(16, 24, CLEAR)], (2040, 2048, SET)),
               ([(16, 32, SET)], (24, 32, CLEAR)), ([(24, 32, CLEAR)], (16, 32, SET)), ([(16, 24, CLEAR)], (16, 23, CLEAR)),
               ([(16, 23, CLEAR)], (16, 24, CLEAR)), ([(16, 23, CLEAR)], (16, 22, CLEAR)), ([(16, 21, CLEAR)], (16, 24, SET)),
               ([(16, 24, SET)], (16, 21, CLEAR)), ([(16, 32, CLEAR)], (16, 24, CLEAR)), ([(16, 32, CLEAR)], (24, 32, SET)),
               ([(16, 32, SET)], (16, 24, CLEAR)), ([(0, 32, SET)], (8, 16, CLEAR)), ([(8, 24, CLEAR)], (8, 17, CLEAR)),
               ([(24, 32, SET), (0, 8, SET)], (16, 24, CLEAR)), ([(16, 24, CLEAR), (0, 8, SET)], (8, 16, CLEAR)),
               ([(16, 24, CLEAR), (0, 8, SET)], (16, 24, SET)), ([(0, 8, SET), (16, 24, CLEAR)], (24, 32, SET)),
               ([(0, 8, SET), (8, 16, SET)], (8, 16, CLEAR)), ([(8, 16, SET), (0, 8, SET)], (8, 16, CLEAR))]


def two_ends(calls):
    """Ends that disagree drop the datagram, also where all bytes are held and equal, and also where none is."""
    none_live(calls)
    for taken, new in DISAGREEING:
        whole = Whole(calls)
        for part in taken:
            whole.give(*part)
        whole.give(*new, want=DROPS)
        whole.give_all([(0, 32), (32, 64)])
        whole.give_all([(32, 64), (0, 32)])


def one_end(calls):
    """Ends that agree: all before it, and a repeat of the last piece, or of a part of it up to the end."""
    none_live(calls)
    for length in (64, 58):
        whole = Whole(calls, length)
        for part in ((40, length), (48, length), (56, length), (40, length), (32, 40), (32, 40), (24, 32)):
            whole.give(*part)
        whole.give(0, 24, want=whole.joined(0))


# ---- Places and keys

def eight_places(calls):
    """Eight keys stand in places 0 to 7; a ninth is 28, which changes nothing. Of the free places the lowest is taken."""
    none_live(calls)
    wholes, late = [Whole(calls).begin() for _ in range(8)], [Whole(calls) for _ in range(4)]
    late[0].begin(want=FULL)
    late[0].give(8, 64, want=FULL)
    calls.call("memory")
    wholes[5].end(5)
    wholes[3].end(3)
    late[0].begin()
    late[1].begin()
    late[2].begin(want=FULL)
    wholes[0].give(0, 16, want=DROPS)
    late[2].begin()
    late[3].begin(want=FULL)
    wholes[3].begin(want=FULL)
    for place, whole in ((7, wholes[7]), (5, late[1]), (0, late[2]), (1, wholes[1]), (3, late[0]), (2, wholes[2]), (4, wholes[4]), (6, wholes[6])):
        whole.end(place)
    for whole in late:
        whole.begin()
        whole.end(0)


def known_key_when_full(calls):
    """With all places live, pieces of their keys are taken as ever: 28 is for other keys alone."""
    none_live(calls)
    wholes = [Whole(calls).begin() for _ in range(8)]
    calls.receive()
    for whole in wholes:
        whole.give(8, 16)
        whole.give(8, 16)
        Whole(calls).give(8, 16, want=FULL)
    for place, whole in enumerate(wholes):
        whole.give(16, 64, want=whole.joined(place))


def keys(calls):
    """Source, destination and identification: where one bit differs, it is another datagram."""
    none_live(calls)
    for _ in range(2):
        first = Whole(calls)
        others = [first.other(identification=changed(first.identification, place)) for place in (0, 1)]
        others += [first.other(source=changed(first.source, place)) for place in range(4)]
        others += [first.other(locator=locator) for locator in calls.settings.locators if locator[0] != first.destination][:1]
        wholes = [first] + others
        for whole in wholes:
            whole.begin()
        for place, whole in reversed(list(enumerate(wholes))):
            whole.end(place)


def destinations(calls):
    """One for each locator address, all else of the keys the same."""
    none_live(calls)
    first = Whole(calls)
    addresses = dict(reversed(calls.settings.locators))       # with the first interface of each
    wholes = [first.other(locator=locator) for locator in addresses.items()][:8]
    for whole in wholes:
        whole.begin()
    for place, whole in enumerate(wholes):
        whole.end(place)


def two_interfaces(calls):
    """The interface is no part of the key: pieces over two interfaces of one address are joined; over another it is 6."""
    none_live(calls)
    for address, interface in calls.settings.locators:
        for other in [other for one, other in calls.settings.locators if one == address]:
            whole = Whole(calls, locator=(address, interface)).begin()
            whole.give(8, 64, interface=calls.other_interface(address), want="refuse 6")
            whole.end(0, interface=other)


# ---- Times

def thirty_seconds(calls):
    """Live at 29 s from the first piece, not at 30 s; then a piece is the first of a new datagram."""
    for first, last in (((0, 8), (8, 64)), ((8, 64), (0, 8))):
        start = none_live(calls)
        whole = Whole(calls)
        whole.give(*first, time=start)
        whole.give(*last, time=start + 29, want=whole.joined(0))
        start = none_live(calls)
        whole.give(*first, time=start)
        whole.give(*last, time=start + 30)
        whole.give(*first, time=start + 59, want=whole.joined(0))
        whole.give(*first, time=start + 59)
        whole.give(*first, time=start + 89)                   # the same piece, and the first again
        whole.give(*last, time=start + 118, want=whole.joined(0))


NOT_RENEWING = [((0, 8), {}, (8, 64)), ((8, 16), {}, (16, 64)), ((56, 64), {}, (8, 56)), ((8, 17, True), {"want": UNFIT}, (8, 64)),
                ((8, 64), {"want": "refuse 15", "room": 16383}, (8, 64)), ((0, 64, False), {"want": "deliver"}, (8, 64))]


def not_renewed(calls):
    """Neither a repeat nor another piece makes the first time later; nor does a 30, a 15 or a whole datagram of that key."""
    for part, how, left in NOT_RENEWING:
        for last in (29, 30):
            start = none_live(calls)
            whole = Whole(calls).begin(time=start)
            whole.give(*part, time=start + 20, **how)
            whole.give(*left, time=start + last, want=whole.joined(0) if last == 29 else WAITS)


def earlier_arguments(calls):
    """The latest time counts, for the first piece and for later ones, and not the argument."""
    start = none_live(calls) + 100
    raise_time(calls, start)
    whole = Whole(calls).begin(time=start - 90)
    whole.end(0, time=start + 29)
    whole.begin(time=start)
    raise_time(calls, start + 58)
    whole.end(0, time=start + 30)
    whole.begin(time=start)
    raise_time(calls, start + 88)
    whole.end(0, time=start + 58, want=WAITS)


def late_by_others(calls):
    """Whichever call raises the time, and whatever number it is given: one second less and the datagram is joined."""
    ways = [lambda time, way=way: raise_time(calls, time, way) for way in REFUSED_AT_ONCE]
    ways += [lambda time: calls.send(n=40, time=time), lambda time: calls.report(neighbour=calls.fresh(), time=time),
             lambda time: ask(calls, time=time), lambda time: calls.advertisement(time=time),
             lambda time: calls.call("routers", time, [calls.fresh()], want="accepted 1"), lambda time: calls.receive(time=time),
             lambda time: Whole(calls).begin(time=time)]
    for way in ways:
        start = none_live(calls)
        whole = Whole(calls).begin(time=start)
        way(start + 29)
        whole.end(0)
        start = none_live(calls)
        whole.begin(time=start)
        way(start + 30)
        whole.give(8, 64)


def expired_places(calls):
    """Each place is free when its own datagram is 30 s old, and the lowest of the free ones is taken."""
    start = none_live(calls)
    wholes, late = [Whole(calls).begin(time=start + place) for place in range(8)], [Whole(calls) for _ in range(5)]
    late[0].begin(time=start + 29, want=FULL)
    late[0].begin(time=start + 30)
    late[1].begin(want=FULL)
    wholes[3].end(3, time=start + 32)                         # 1 and 2 are free by now, and 3
    for whole in late[1:4]:
        whole.begin()
    late[4].begin(want=FULL)
    for place in (0, 2, 3, 1):
        late[place].end(place, time=start + 36)
    wholes[7].give(8, 64, time=start + 37)                    # its own place is not live any more, and 0 is free
    wholes[7].begin(want=wholes[7].joined(0))


def expired_key(calls):
    """A key whose datagram is live no more is a new one, in the lowest free place; nothing of what was taken is held."""
    start = none_live(calls)
    wholes = [Whole(calls).begin(time=start) for _ in range(3)]
    raise_time(calls, start + 30)
    for whole in reversed(wholes):
        whole.give(8, 56)
        whole.give(8, 56)
        whole.give(56, 64)
    for place, whole in enumerate(reversed(wholes)):
        whole.begin(want=whole.joined(place))


def long_ages(calls):
    """Ages are reckoned in full: 256 s and 65,536 s are no small age."""
    for later in (255, 256, 256 + 29, 65535, 65536, 65536 + 29, 1 << 24):
        start = none_live(calls)
        whole = Whole(calls).begin(time=start)
        whole.end(0, time=start + later, want=WAITS)
        whole.begin(want=whole.joined(0))


def pieces_near_the_end(calls):
    """The first time and 30 s are an exact sum: past the last second it is live to the end."""
    last, start = LAST_SECOND, LAST_SECOND - 60
    raise_time(calls, max(start, calls.service.latest))
    wholes = [Whole(calls) for _ in range(4)]
    if calls.service.latest < last - 30:
        wholes[0].begin(time=last - 30)
        wholes[1].begin(time=last - 29)
        wholes[2].begin(time=last - 1)
        wholes[0].end(0, time=last, want=WAITS)
        wholes[2].end(2)
        wholes[1].end(1)
    raise_time(calls, last)
    wholes[3].begin()
    wholes[3].give(8, 16)
    calls.call("memory")
    wholes[3].give(16, 64, want="joined")


# ---- The joined datagram

def joined_and_refused(calls):
    """8, 9 and 10 are judged on what is joined; then its place is free, and its key is a new one."""
    none_live(calls)
    for number, payload in refused_payloads(calls):
        whole, new = Whole(calls), Whole(calls)
        whole.payload = payload(whole.source)
        whole.begin()
        whole.end(0, want=f"refuse {number}")
        new.begin()
        whole.begin()
        new.end(0)
        whole.end(1, want=f"refuse {number}")


def refused_payloads(calls):
    """A number and, for an outer source, a payload that is given it."""
    def inner(source6, payload=b"", **fields):
        return packet(source6, calls.some(16), payload, **fields)
    for fields in ({"version": 4}, {"version": 7}, {"length": 1}, {"length": 65535}, {"payload": bytes(9), "length": 10}):
        yield 8, lambda source, fields=fields: inner(link_local(source), **fields)
    for length in (9, 16, 32, 39):
        yield 8, lambda source, length=length: inner(link_local(source))[:length]
    for bad in BAD_SOURCES:
        yield 9, lambda source, bad=bad: inner(bad)
    for wrong in (lambda source: link_local(calls.fresh()), lambda source: GLOBAL, lambda source: link_local(changed(source, 3)),
                  lambda source: isatap_address(LINK_LOCAL, "01005efe", source), lambda source: bytes(12) + source):
        yield 10, lambda source, wrong=wrong: inner(wrong(source))


def joined_sources(calls):
    """The inner source embeds the key's source, behind every on-link prefix, or that is a listed router."""
    none_live(calls)
    for prefix in [prefix for prefix in calls.settings.prefixes if prefix[0] != 255] + [LINK_LOCAL]:
        for identifier in ISATAP_IDENTIFIERS:
            whole = Whole(calls)
            whole.payload = packet(isatap_address(prefix, identifier, whole.source), GLOBAL, calls.some(24))
            whole.begin()
            whole.end(0)
    calls.listed_router()
    for router, _ in calls.service.routers[-3:]:
        whole = Whole(calls, payload=packet(GLOBAL, GLOBAL, calls.some(24)), source=router).begin()
        whole.end(0)


def routers_between(calls):
    """10 is judged by the list that is in force when the datagram is complete."""
    none_live(calls)
    router = calls.fresh()
    for before, after in (([router], []), ([], [router]), ([router], [calls.fresh()]), ([], [calls.fresh(), router])):
        whole = Whole(calls, payload=packet(GLOBAL, GLOBAL, calls.some(24)), source=router)
        calls.call("routers", 0, before, want="accepted")
        whole.begin()
        calls.call("routers", 0, after, want="accepted")
        whole.end(0, want=whole.joined(0) if router in after else "refuse 10")


def written(expected, whole, place, start, end):
    """What a piece that is taken writes, done by hand."""
    expected[2048 * place + start:2048 * place + end] = whole.payload[start:end]


def memory_written(calls):
    """A piece that is taken is written behind 2,048 k + 8 x offset, as long as it is; nothing else ever is written, nor cleared."""
    none_live(calls)
    expected, wholes = bytearray(calls.memory), [Whole(calls, 61) for _ in range(8)]
    for place, whole in enumerate(wholes):
        for part in ((16, 24), (56, 61)):
            whole.give(*part)
            written(expected, whole, place, *part)
        memory_is(calls, expected)
    for how in ({"want": FULL}, {"want": "refuse 15", "room": 16383}, {"want": UNFIT, "payload": b""}, {"want": "refuse 3", "spoil": 1}):
        Whole(calls).begin(**how)
    for whole in wholes[:3]:
        whole.give(16, 24)                                    # ignored
        whole.give(16, 24, payload=bytes(8), want=DROPS)
    memory_is(calls, expected)
    for place, whole in enumerate(wholes[3:], 3):
        whole.give(0, 16)
        whole.give(24, 56, want=whole.joined(place))
        written(expected, whole, place, 0, 16)
        written(expected, whole, place, 24, 56)
    memory_is(calls, expected)
    short = Whole(calls, 41)
    short.give(40, 41)
    written(expected, short, 0, 40, 41)
    memory_is(calls, expected)
    short.give(0, 40, want=short.joined(0))
    written(expected, short, 0, 0, 40)
    memory_is(calls, expected)


def memory_of_refused(calls):
    """What a piece completes is written also where it is refused then."""
    none_live(calls)
    expected = bytearray(calls.memory)
    for number, source6 in ((8, None), (9, bytes(16)), (10, GLOBAL)):
        whole = Whole(calls, payload=packet(source6 or GLOBAL, GLOBAL, calls.some(24), version=6 if source6 else 5)).begin()
        whole.end(0, want=f"refuse {number}")
        written(expected, whole, 0, 0, 64)
        memory_is(calls, expected)


def last_place(calls):
    """The last byte of the last place, with just so much memory and with all of it."""
    for room in (16384, 16385, 65535):
        none_live(calls)
        for _ in range(7):
            Whole(calls).begin(room=room)
        whole = Whole(calls, 2048)
        whole.give_all([(2040, 2048), (0, 2040)], 7, room=room)
        calls.call("memory")


def left_in_memory(calls):
    """Bytes that stand in the memory are not held: of a datagram that was joined, dropped, or is live no more."""
    none_live(calls)
    whole = Whole(calls).begin()
    whole.end(0)
    whole.begin()
    whole.end(0)
    whole.give(0, 16)
    whole.give(8, 24, want=DROPS)
    whole.give(16, 64)
    whole.give(0, 16, want=whole.joined(0))
    whole.give(0, 32)
    none_live(calls)
    whole.give(32, 64)
    whole.give(0, 32, want=whole.joined(0))


# ---- Beside other calls

def short_memory(calls):
    """15 is given first, to whole and to bad datagrams too; a piece that is given it is not taken."""
    none_live(calls)
    whole = Whole(calls).begin()
    for room in (0, 1, 2047, 2048, 8192, 16383):
        for data in (whole.whole(), whole.piece(8, 64), whole.piece(0, 8), whole.piece(0, 16), b"", whole.piece(8, 64, spoil=1), whole.piece(8, 9, True)):
            calls.call("receive", whole.interface, 0, room, data, want="refuse 15")
        Whole(calls).begin(room=room, want="refuse 15")
    whole.end(0)


def numbers_before(calls):
    """2, 3, 4, 6, 7 and 30 are given before 29 and 27, and change nothing; 7 before 30."""
    none_live(calls)
    whole = Whole(calls).begin()
    for number, fields in ((2, {"version": 5}), (2, {"total": 19}), (2, {"total": 2000}), (3, {"spoil": 1}), (4, {"protocol": 4}),
                           (6, {"interface": calls.other_interface(whole.destination)}), (30, {"payload": bytes(9)})):
        whole.give(0, 16, want=f"refuse {number}", padding=b"", **fields)
        Whole(calls).give(0, 16, want=f"refuse {number}", padding=b"", **fields)
    other = whole.other(source=bytes((127, 0, 0, 1)))
    other.give(0, 16, want="refuse 7")
    other.give(0, 15, True, want="refuse 7")
    whole.end(0)


def parts_of_pieces(calls):
    """The call for the part gives none for a piece, also for one that completes, and takes nothing."""
    none_live(calls)
    whole = Whole(calls)
    data = [whole.piece(0, 8), whole.piece(8, 64)]
    for one in data:
        calls.call("part", whole.interface, one, want=EMPTY)
    calls.call("receive", whole.interface, 0, 16384, data[0], want=WAITS)
    for one in data:
        calls.call("part", whole.interface, one, want=EMPTY)
    calls.call("receive", whole.interface, 0, 16384, data[0], want=WAITS)
    calls.call("receive", whole.interface, 0, 16384, data[1], want=whole.joined(0))
    for one in data:
        calls.call("part", whole.interface, one, want=EMPTY)
    calls.call("part", whole.interface, whole.whole(), want=f"64 {digest(whole.payload)}")
    for flags in (0x2000, 0x6000, 0xa000, 1, 0x1fff, 0x3fff, 0x100, 0x1000):
        calls.call("part", whole.interface, whole.whole(flags=flags), want=EMPTY)


def wholes_between(calls):
    """A whole datagram under a live key is answered by itself, and leaves what is collected."""
    none_live(calls)
    whole = Whole(calls).begin()
    expected = bytes(calls.memory)
    for payload, want in ((whole.payload, "deliver"), (whole.payload[:40], "refuse 8"), (packet(bytes(16), GLOBAL), "refuse 9"),
                          (packet(GLOBAL, GLOBAL), "refuse 10"), (calls.some(56), None)):
        whole.give(0, 64, False, payload=payload, want=want or "refuse")
        calls.call("part", whole.interface, whole.whole(payload=payload))
    memory_is(calls, expected)
    whole.end(0)


def others_between(calls):
    """No other call changes what is collected, answered or refused, while its time is early enough."""
    start = none_live(calls)
    wholes = [Whole(calls).begin() for _ in range(7)]
    expected = bytes(calls.memory)
    for time in (start, start + 29):
        calls.send(n=40, time=time)
        calls.send([(15, {"short": 1})], time=time)
        calls.report(neighbour=calls.fresh(), time=time)
        calls.call("report", time, b"", want="refuse 16")
        calls.call("routers", time, [calls.fresh()], want="accepted 1")
        calls.call("routers", time, [bytes(4)], want="refuse 1")
        ask(calls, time=time)
        calls.advertisement(time=time)
        calls.advertise()
        calls.receive()
        calls.part()
        size_is(calls, calls.fresh(), calls.settings.link)
    memory_is(calls, expected)
    for place, whole in enumerate(wholes):
        whole.end(place)


# ---- By chance

def random_cuttings(calls):
    """Cuttings of a few datagrams, shuffled and with repeats; each is answered as the uncut datagram is."""
    start, left, places = none_live(calls), {}, {}
    for _ in range(calls.random.randint(1, 5)):
        whole, number = Whole(calls, calls.random.choice((40, 41, 56, 56, 64, 64, 200, 1300))), None
        if calls.random.random() < 0.3:
            number, payload = calls.random.choice(list(refused_payloads(calls)))
            whole.payload = payload(whole.source)
        whole.payload += calls.some(calls.random.choice((0, 0, 1, 8)) if number != 8 else 0)
        left[whole] = number, set(whole.cut(1, 5))
    cards = [(whole, part) for whole in left for part in left[whole][1] for _ in range(calls.random.choice((1, 1, 2)))]
    calls.random.shuffle(cards)
    for count, (whole, part) in enumerate(cards):
        number, parts = left[whole]
        if not parts:
            continue                                          # it would be the first piece of another datagram
        parts.discard(part)
        places.setdefault(whole, min(set(range(8)) - {places[one] for one in places if left[one][1]}))
        want = WAITS if parts else f"refuse {number}" if number else whole.joined(places[whole])
        whole.give(*part, want=want, time=start + 28 * count // len(cards))


def random_piece(calls, whole, parts):
    """One of these parts, or another; with another end, or another byte; at whatever time; with too little memory."""
    chance, length = calls.random.random, len(whole.payload)
    start, end = calls.random.choice(parts)
    if chance() < 0.15:
        start = 8 * calls.random.randrange(length // 8 + 1)
        end = start + calls.random.choice((0, 1, 7, 8, 8, 9, 16, 24, length - start))
    more = (end < length) ^ (chance() < 0.05)
    payload = (whole.payload + bytes(64))[start:end]
    if payload and chance() < 0.05:
        payload = changed(payload, calls.random.randrange(len(payload)))
    interface = calls.random.choice(calls.settings.locators)[1] if chance() < 0.1 else whole.interface
    time = calls.service.latest + calls.random.choice((0, 0, 0, 0, 0, 0, 1, 2, 15, 29, 30)) if chance() < 0.5 else 0
    room = calls.random.choice((0, 16383)) if chance() < 0.03 else calls.random.choice((16384, 65535))
    return interface, min(time, LAST_SECOND), room, whole.piece(start, end, more, payload) + calls.some(calls.random.choice((0, 0, 3)))


def random_pieces(calls, count=30):
    """Anything under a few keys, some of which are near each other; the answers are the model's alone."""
    wholes = [Whole(calls, calls.random.choice((40, 56, 61, 64, 96))) for _ in range(calls.random.choice((1, 2, 4, 12)))]
    wholes += [wholes[0].other(identification=changed(wholes[0].identification, 1))]
    for whole in wholes[2::3]:
        whole.payload = calls.random.choice((packet(GLOBAL, GLOBAL, calls.some(20)), packet(bytes(16), GLOBAL), calls.some(45)))
    cuts = {whole: whole.cut(1, 3) for whole in wholes}
    for _ in range(count):
        whole = calls.random.choice(wholes)
        arguments, way = random_piece(calls, whole, cuts[whole]), calls.random.randrange(40)
        calls.call("receive", *arguments)
        if way == 0:
            calls.call("memory")
        elif way < 3:
            calls.call("part", arguments[0], arguments[-1])
        elif way == 3:
            calls.call("receive", *arguments[:3], whole.whole())


PIECE_SCENARIOS = [random_cuttings, random_pieces, random_cuttings, random_pieces, eight_places, expired_places, overlaps]
