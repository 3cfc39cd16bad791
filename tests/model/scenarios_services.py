"""Runs of calls on a node of two services, and of calls that name one which the node has not (R26); the answers are worked out here, beside
the model."""
from .builders import packet
from .faults import FAULTS, GLOBAL, VARIATIONS
from .formats import MEMORY, digest, lent
from .octets import LINK_LOCAL, dotted, isatap_address, link_local
from .pieces import DROPS, FULL, Whole
from .rules import Advertisement, router_advertisement, solicitation, too_big_message, wrapped
from .scenarios import PREFIXES, REFUSED_AT_ONCE, ask, plain_settings, raise_time, size_is
from .scenarios_pieces import EMPTY, memory_is, none_live, written

NAMING_A_SERVICE = [way for way in REFUSED_AT_ONCE if way[0] != "report"]


def second_settings(**changes):
    """Those of a service beside that of plain_settings: an interface, a prefix and a router are in both, a locator of that one is a router here."""
    fields = {"locators": [(bytes((10, 0, 0, 3)), 0), (bytes((203, 0, 113, 7)), 5), (bytes((10, 0, 0, 3)), 9)], "prefixes": [PREFIXES[1], PREFIXES[3]],
              "routers": [bytes((10, 0, 0, 1)), bytes((198, 51, 100, 2)), bytes((198, 51, 100, 9))], "link": 9000, "ttl": 99, "interval": 77,
              "identification": 500}
    return plain_settings(**dict(fields, **changes))


def ways(calls):
    """Each service and the other."""
    return (calls, calls.other), (calls.other, calls)


def in_each(scenario):
    return lambda calls: [scenario(one) for one, _ in ways(calls)]


def sizes_are(calls, neighbour, here, there):
    size_is(calls, neighbour, here)
    size_is(calls.other, neighbour, there)


def sent(calls, end, n, want):
    """A packet of n bytes that draws a message where it is too big."""
    room = 1280 if want.startswith("too-big") else n + 20
    calls.call("send", 0, calls.service.latest, link_local(end), room, packet(GLOBAL, GLOBAL, bytes(n - 40)), want=want)


# ---- Path sizes

def by_link(calls):
    """The service of the smaller link size and that of the larger."""
    return sorted((calls, calls.other), key=lambda one: one.settings.link)


def kept_between(calls, middle=None):
    """What is kept between the two link sizes is in force for the service of the larger alone; 19 is judged by the size of the service that is
    quoted (R26.5, R26.6)."""
    small, large = by_link(calls)
    low, high, start, neighbour = small.settings.link, large.settings.link, calls.service.latest, calls.fresh()
    middle = middle or (low + high) // 2
    if high - low < 8:
        return
    large.report(neighbour=neighbour, candidate=middle, time=start)
    sizes_are(small, neighbour, low, middle)
    for one, refused in ((small, (low, middle - 1, middle, high, 65535)), (large, (middle, middle + 1, high - 1, high))):
        for candidate in refused:
            one.report([(19, {"candidate": candidate})], neighbour=neighbour, time=start)
        largest = max(1280, min(one.settings.link, middle) - 20)
        one.send(n=largest, end=neighbour, time=start)
        one.send(n=largest + 1, end=neighbour, time=start)
    large.report(neighbour=neighbour, candidate=middle - 1, time=start)
    sizes_are(small, neighbour, low, middle - 1)
    small.report(neighbour=neighbour, candidate=low - 1, time=start + 1)
    sizes_are(small, neighbour, low - 1, low - 1)
    for candidate in (low - 1, low, middle - 2, high):
        large.report([(19, {"candidate": candidate})], neighbour=neighbour, time=start + 1)
    large.report(neighbour=neighbour, candidate=low - 2, time=start + 2)
    sizes_are(small, neighbour, low - 2, low - 2)
    raise_time(small, start + 601)
    sizes_are(small, neighbour, low - 2, low - 2)
    raise_time(large, start + 602)
    sizes_are(small, neighbour, low, high)


def kept_at_the_smaller_link(calls):
    """A size just at the smaller link size, and one above it, are kept, counted and forgotten as any other."""
    small, large = by_link(calls)
    low, high, start, neighbour = small.settings.link, large.settings.link, calls.service.latest, calls.fresh()
    if high - low < 8:
        return
    for candidate in (low + 1, low):
        large.report(neighbour=neighbour, candidate=candidate, time=start)
        sizes_are(small, neighbour, low, candidate)
    small.report([(19, {"candidate": low})], neighbour=neighbour, time=start)
    first, others = calls.fresh(), [calls.fresh() for _ in range(64)]
    small.report(neighbour=first, candidate=low - 1, time=start)
    for other in others[:63]:
        large.report(neighbour=other, candidate=low + 2, time=start)
    sizes_are(small, first, low - 1, low - 1)
    sizes_are(small, neighbour, low, high)                    # the first and the 63 came since
    large.report(neighbour=others[63], candidate=low + 2, time=start)
    sizes_are(small, first, low, high)
    sizes_are(small, others[0], low, low + 2)
    raise_time(small, start + 600)
    sizes_are(small, others[0], low, high)


def lowered_by_the_other(calls):
    """A report of either service lowers the size for both, also in its last second; an equal one renews nothing."""
    for one, other in ways(calls):
        neighbour, start = calls.fresh(), calls.service.latest
        for size in (570, 569, 300, 299, 69, 68):
            one.report(neighbour=neighbour, candidate=size, time=start)
            sizes_are(one, neighbour, size, size)
            other.report([(19, {"candidate": size})], neighbour=neighbour, candidate=size, time=start)
            one, other = other, one
        raise_time(other, start + 599)
        other.report([(19, {"candidate": 68})], neighbour=neighbour, candidate=68, time=start)
        sizes_are(one, neighbour, 68, 68)
        raise_time(other, start + 600)
        sizes_are(one, neighbour, one.settings.link, other.settings.link)


def bound_reached(calls):
    """A sender through one service that heeds every 14 gets one more than there are reports since its first packet, all of the other service
    (R12.6, R26.8)."""
    for sender, reporter in ways(calls):
        neighbour, offered = calls.fresh(), 1470
        reporter.report(neighbour=neighbour, candidate=offered + 20)
        sent(sender, neighbour, offered + 1, f"too-big {offered} 1280")
        sent(sender, neighbour, offered, f"wrapped {offered + 20}")
        for candidate in (1450, 1400, 1350, 1301):
            reporter.report(neighbour=neighbour, candidate=candidate)
            sent(sender, neighbour, offered, f"too-big {candidate - 20} 1280")
            offered = candidate - 20
            sent(sender, neighbour, offered, f"wrapped {candidate}")


def shared_neighbours(calls):
    """Other neighbours count whichever service they are reported to: the 63rd leaves a size, the 64th removes it (R18.10)."""
    for share in (2, 64):                                     # half of them to each, and all but one to the other
        first, now, others = calls.fresh(), calls.service.latest, [calls.fresh() for _ in range(64)]
        calls.report(neighbour=first, candidate=500, time=now)
        for place, neighbour in enumerate(others[:63]):
            (calls if place % share == 1 else calls.other).report(neighbour=neighbour, candidate=501, time=now)
        sizes_are(calls, first, 500, 500)
        calls.other.report(neighbour=others[63], candidate=501, time=now)
        sizes_are(calls, first, calls.settings.link, calls.other.settings.link)
        sizes_are(calls, others[0], 501, 501)


def lowered_in_turns(calls):
    """By chance: reports of both for a few neighbours; what is kept is reckoned here."""
    now, kept, neighbours = calls.service.latest, {}, [calls.fresh() for _ in range(3)]
    for _ in range(12):
        one, neighbour = calls.random.choice((calls, calls.other)), calls.random.choice(neighbours)
        size = min(one.settings.link, kept.get(neighbour, 65535))
        candidate = max(68, calls.random.choice((size - 1, size - calls.random.randrange(40), size, size + 1, calls.random.randint(68, 9216),
                                                 one.other.settings.link - 1)))
        if candidate < size:
            kept[neighbour] = candidate
            one.report(neighbour=neighbour, candidate=candidate, time=now)
        else:
            one.report([(19, {"candidate": candidate})], neighbour=neighbour, candidate=candidate, time=now)
        sizes_are(one, neighbour, *[min(each.settings.link, kept.get(neighbour, 65535)) for each in (one, one.other)])
        calls.random.choice((calls, calls.other)).send([(14, {"more": 1})] if calls.random.random() < 0.5 else (), end=neighbour, time=now)


# ---- Locators, prefixes and messages

def own_addresses(calls):
    """Our own are the locators of the service that is named or quoted: those of the other are neighbours and tunnel ends as any."""
    for one, other in ways(calls):
        for own, _ in one.settings.locators:
            for its, interface in other.settings.locators:
                one.report(variation={"source": own}, neighbour=its, candidate=max(68, one.service.size(its) - 1))
                calls.call("size", its)
                other.call("size", its)
                one.receive([(6, {"destination": its, "interface": interface})])
                one.part([(6, {"destination": its, "interface": interface})])
            for again, _ in one.settings.locators:
                one.report([(17, {"source": own, "neighbour": again})])
            one.report([(17, {"source": calls.fresh(), "neighbour": own})])
            one.report([(16, {"source": own, "spoil": 1})])
            other.send(n=40, next_hop=link_local(own))
            one.send([(13, {"index": 0, "next_hop": link_local(own)})])
            other.receive(variation={"source": own, "source6": link_local(own)})
        one.call("ask", len(one.settings.locators), 0, 48, want="refuse 11")
        one.send([(11, {"index": len(one.settings.locators)})])
        one.advertise([(11, {"index": len(one.settings.locators)})])


def own_prefixes(calls):
    """A prefix of one service alone is on link for that one alone."""
    for one, other in ways(calls):
        for prefix in one.settings.prefixes:
            if prefix[0] == 255 or prefix == LINK_LOCAL or prefix in other.settings.prefixes:
                continue
            source = {"source6": lambda calls, f, prefix=prefix: isatap_address(prefix, "00005efe", f["source"])}
            one.receive(variation=source)
            one.part(variation=source)
            other.receive([(10, source)])
            other.part([(10, source)])
            hop = isatap_address(prefix, "02005efe", calls.fresh())
            one.send(n=40, next_hop=hop)
            other.send([(12, {"next_hop": hop})])


def own_identifications(calls):
    """Each counts its own wrapped packets alone, with TTL and reporting address of its own."""
    counts, end = {one: one.service.identification for one, _ in ways(calls)}, calls.small()
    for turn in (0, 0, 1, 0, 1, 1, 1, 0):
        one, data = ways(calls)[turn][0], packet(GLOBAL, GLOBAL)
        whole = wrapped(data, counts[one], False, one.settings.ttl, one.settings.locators[0][0], end)
        one.call("send", 0, 0, link_local(end), 60, data, want=f"wrapped 60 {digest(whole)}")
        counts[one] = (counts[one] + 1) % 65536
        one.send([(15, {"short": 1})])
        ask(one)
        data = packet(GLOBAL, GLOBAL, bytes(1241))
        message = too_big_message(one.settings.reporting, data, 1280)
        one.call("send", 0, 0, link_local(end), 1280, data, want=f"too-big 1280 1280 {digest(message)}")


# ---- Routers

def own_routers(calls):
    """Each has a list and due times of its own: a router of the other's list admits nothing, is not asked and advertises nothing."""
    for one, other in ways(calls):
        first, both, last = (calls.fresh() for _ in range(3))
        now = calls.service.latest
        one.call("routers", now, [first, both], want="accepted 2")
        other.call("routers", now, [both, last], want="accepted 2")
        for view, stranger in ((one, last), (other, first)):
            view.receive([(10, {"source": stranger, "source6": GLOBAL})])
            view.receive(variation={"source": both, "source6": GLOBAL})
            view.part([(10, {"source": stranger, "source6": GLOBAL})])
            view.advertisement([(21, {})], router=stranger, time=0)
        for view, router in ((one, first), (other, both), (one, both), (one, None), (other, last), (other, None)):
            ask(view, want=dotted(router) if router else "refuse 22")
        one.advertisement(router=both, lifetime=65535, options=[], time=0)
        due = now + other.settings.interval
        ask(other, time=due - 1, want="refuse 22")
        ask(other, time=due, want=dotted(both))
        ask(one, time=0, want=dotted(first) if now + one.settings.interval <= due else "refuse 22")
        ask(one, time=0, want="refuse 22")
        one.call("routers", 0, [], want="accepted 0")
        ask(other, want=dotted(last))
        other.receive(variation={"source": last, "source6": GLOBAL})
        one.call("routers", 0, [last], want="accepted 1")      # due now, whatever it is in the other's list
        ask(one, want=dotted(last))


def crossed_routers(calls):
    """A locator of one is a router of the other: asked, answered and heard within one node. Of its own none may be."""
    for one, other in ways(calls):
        now, operator = calls.service.latest, Advertisement(0xc0, 1800)
        for view in (one, other):
            view.call("routers", now, [], want="accepted 0")
        for own, _ in one.settings.locators:
            one.call("routers", now, [own], want="refuse 1")
        addresses = list(dict.fromkeys(address for address, _ in other.settings.locators))
        one.call("routers", now, addresses, want="accepted")
        own = one.settings.locators[0][0]
        for place, (its, _) in enumerate(other.settings.locators):
            if its not in addresses:
                continue                                      # on another interface
            addresses.remove(its)
            ask(one, index=0, want=dotted(its))
            other.call("advertise", place, 56, operator, solicitation(own, its), want="written 56")
            heard = router_advertisement(its, link_local(own), operator)
            other.call("advertisement", now, heard, want="refuse 21")
            one.call("advertisement", now, heard, want=dotted(its))
            one.receive(variation={"source": its, "source6": GLOBAL})
            other.receive([(10, {"source": own, "source6": GLOBAL})])


# ---- Pieces

def nine_keys(calls):
    """Eight keys live in one service leave the other's places free; 28 is for a ninth of the same service."""
    for one, other in ways(calls):
        none_live(one)
        wholes, ninth = [Whole(one).begin() for _ in range(8)], Whole(other).begin()
        Whole(one).begin(want=FULL)
        ninth.give(8, 16)
        Whole(one).begin(want=FULL)
        wholes[5].end(5)
        ninth.give(16, 64, want=ninth.joined(0))
        Whole(one).begin()
        Whole(one).begin(want=FULL)
        theirs = [Whole(other).begin() for _ in range(8)]
        Whole(other).begin(want=FULL)
        for place in (0, 7, 3):
            wholes[place].end(place)
            theirs[place].end(place)
        Whole(one).begin()
        Whole(other).begin()


def near_keys(calls):
    """Keys that differ in their destinations alone, one of each service: what is said of one is not of the other."""
    for one, other in ways(calls):
        none_live(one)
        here = Whole(one)
        there = Whole(other, source=here.source, identification=here.identification)
        for whole in (here, there):
            whole.give(0, 16)
            whole.give(32, 40)
        here.give(8, 24, want=DROPS)
        there.give(0, 16)
        there.give(16, 32)
        there.give(40, 64, want=there.joined(0))
        here.give_all([(0, 32), (32, 64)])


def handed_to_the_other(calls):
    """A piece that is handed to the service whose destination it has not is 6 and taken by none, nor has it a part."""
    for one, other in ways(calls):
        none_live(one)
        whole = Whole(one).begin()
        for _, interface in ((None, whole.interface), *other.settings.locators):
            for data in (whole.piece(8, 64), whole.piece(0, 8), whole.piece(0, 16), whole.whole()):
                other.call("receive", interface, 0, 16384, data, want="refuse 6")
                other.call("part", interface, data, want=EMPTY)
        whole.end(0)


def own_memories(calls):
    """What is taken is written into the memory of its own service alone."""
    none_live(calls)
    expected = {one: bytearray(one.memory) for one, _ in ways(calls)}
    wholes = {one: [Whole(one, 61) for _ in range(2)] for one in expected}
    for part in ((16, 24), (56, 61), (0, 16)):
        for place in (0, 1):
            for one in expected:
                wholes[one][place].give(*part)
                written(expected[one], wholes[one][place], place, *part)
                for each, left in expected.items():
                    memory_is(each, left)
    for one in expected:
        for place, whole in enumerate(wholes[one]):
            whole.give(24, 56, room=calls.random.choice((16384, 65535)), want=whole.joined(place))
            written(expected[one], whole, place, 24, 56)
        for each, left in expected.items():
            memory_is(each, left)


def shared_time(calls):
    """A call of either service, whatever number it is given, raises the latest time of both: for pieces, due times and sizes."""
    for one, other in ways(calls):
        for way in NAMING_A_SERVICE:
            neighbour, start, router = calls.fresh(), none_live(one), calls.fresh()
            one.report(neighbour=neighbour, candidate=500, time=start)
            whole = Whole(one).begin(time=start)
            raise_time(other, start + 29, way)
            whole.end(0)
            whole.begin()
            raise_time(other, start + 59, way)
            whole.give(8, 64)
            one.call("routers", start, [router], want="accepted 1")
            ask(one, time=0, want=dotted(router))
            raise_time(other, start + 599, way)
            size_is(one, neighbour, 500)
            ask(one, time=0, want="refuse 22" if one.settings.interval > 540 else dotted(router))
            raise_time(other, start + 600, way)
            size_is(one, neighbour, one.settings.link)


# ---- A service that the node has not

TIMES = {"receive": 2, "send": 2, "routers": 1, "ask": 2, "advertisement": 1}  # which argument is the time


def to_the_absent(calls, time=None, call=None):
    """A call, or the last one, again, naming the service that the node has not."""
    name, arguments = call or calls.made[-1]
    arguments = [1, *arguments[1:]]
    if time is not None and name in TIMES:
        arguments[TIMES[name]] = time
    calls.make(name, tuple(arguments), EMPTY if name == "part" else "refuse 11")


def good_calls(calls):
    """One of each kind that is not refused."""
    router = calls.listed_router()
    yield lambda: calls.receive()
    yield lambda: Whole(calls).begin(want="")
    yield lambda: calls.part()
    yield lambda: calls.send(n=40, time=0)
    yield lambda: calls.send([(14, {"more": 1})], time=0)
    yield lambda: calls.call("routers", 0, [router], want="accepted")
    yield lambda: ask(calls)
    yield lambda: calls.advertisement(router=router, time=0)
    yield lambda: calls.advertise()
    yield lambda: calls.call("size", calls.fresh())


def absent_first(calls):
    """11 before every other number, with each fault and with none."""
    for name in [name for name in FAULTS if name != "report"]:
        for fault in FAULTS[name]:
            getattr(calls, name)([fault])
            to_the_absent(calls)
        for variation in VARIATIONS.get(name, ())[:8]:
            getattr(calls, name)((), variation)
            to_the_absent(calls)
    for good in good_calls(calls):
        good()
        to_the_absent(calls)
    for routers in ([], [bytes(4)], [calls.settings.locators[0][0]], [calls.fresh() for _ in range(17)], 2 * [calls.fresh()]):
        calls.call("routers", 0, routers)
        to_the_absent(calls)
    for index, room in ((0, 0), (0, 47), (0, 48), (255, 48)):
        calls.call("ask", index, 0, room)
        to_the_absent(calls)


def absent_times(calls):
    """Its calls have a time that counts, good ones and bad ones; an earlier one does not go back, and those without a time have none."""
    for good in good_calls(calls):
        neighbour, start = calls.fresh(), calls.service.latest
        good()
        call = calls.made[-1]
        calls.report(neighbour=neighbour, candidate=500, time=start)
        if call[0] not in TIMES:
            raise_time(calls, start + 599)                    # a second more would show
        for time, size in ((start + 599, 500), (start + 600, calls.settings.link), (start, calls.settings.link)):
            to_the_absent(calls, time, call)
            size_is(calls, neighbour, size if call[0] in TIMES else 500)
    for name, rest, _ in NAMING_A_SERVICE:
        neighbour, start, number = calls.fresh(), none_live(calls), (255,) if name in ("send", "ask", "receive") else ()
        calls.report(neighbour=neighbour, candidate=500, time=start)
        whole = Whole(calls).begin(time=start)
        calls.make(name, (1, *number, start + 29, *rest), "refuse 11")
        whole.end(0)
        whole.begin()
        calls.make(name, (1, *number, start + 59, *rest), "refuse 11")
        whole.give(8, 64)
        calls.make(name, (1, *number, start + 599, *rest), "refuse 11")
        size_is(calls, neighbour, 500)
        calls.make(name, (1, *number, start + 600, *rest), "refuse 11")
        size_is(calls, neighbour, calls.settings.link)


def absent_changes_nothing(calls):
    """Beside the latest time: not the list, a due time, the identification, what is collected or either memory."""
    none_live(calls)
    router, untouched = calls.fresh(), digest(lent(MEMORY))
    calls.call("routers", 0, [router], want="accepted 1")
    wholes = [Whole(calls).begin() for _ in range(7)]
    expected, number = bytes(calls.memory), calls.service.identification
    for _ in range(2):
        for name, rest in (("routers", (0, [])), ("routers", (0, [calls.fresh()])), ("ask", (0, 0, 48))):
            calls.make(name, (1, *rest), "refuse 11")
        for whole in wholes:
            for data in (whole.piece(8, 64), whole.piece(0, 16)):
                calls.make("receive", (1, whole.interface, 0, 16384, data), "refuse 11")
        data, end = packet(GLOBAL, GLOBAL), calls.fresh()
        calls.make("send", (1, 0, 0, link_local(end), 60, data), f"refuse 11 {digest(lent(60))}")
        whole = wrapped(data, number, calls.settings.link > 1300, calls.settings.ttl, calls.settings.locators[0][0], end)
        calls.call("send", 0, 0, link_local(end), 60, data, want=f"wrapped 60 {digest(whole)}")
        number = (number + 1) % 65536
        calls.make("memory", (1,), untouched)
        memory_is(calls, expected)
        calls.make("advertisement", (1, 0, router_advertisement(router, GLOBAL, Advertisement(0, 9000))), "refuse 11")
    ask(calls, want=dotted(router))
    for place, whole in enumerate(wholes):
        whole.end(place)


WITH_TWO = [kept_between, kept_at_the_smaller_link, lowered_by_the_other, shared_neighbours, own_addresses, own_prefixes, own_identifications, own_routers,
            crossed_routers, nine_keys, near_keys, handed_to_the_other, own_memories, shared_time, lowered_in_turns, lowered_in_turns, lowered_in_turns]
WITH_ONE = [absent_times, absent_changes_nothing]
