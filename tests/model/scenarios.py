"""Runs of calls that each show one rule; the answers are worked out here, beside the model."""
from .builders import operator_prefix, operator_route, option, packet, prefix_option, route_option
from .builders import solicitation as asking_packet
from .calls import ISATAP_IDENTIFIERS, LAST_SECOND
from .faults import FORBIDDEN, GLOBAL, PLATEAU_BELOW
from .formats import lent
from .node import Node
from .octets import LINK_LOCAL, LOOPBACK, UNSPECIFIED, dotted, isatap_address, link_local, number, pseudo_header, u16
from .pieces import DROPS, FULL, UNFIT, Whole
from .rules import Advertisement, Settings, router_advertisement, solicitation, too_big_message, wrapped

PREFIXES = [bytes.fromhex(text) for text in ("20010db800000001", "20010db800000002", "2002c00002010000", "fec0000000000000",
                                             "fe80000000000000", "ff02000000000000", "0000000000000000", "fe80000000000100")]


def plain_settings(**changes):
    fields = {"locators": [(bytes((10, 0, 0, 1)), 0), (bytes((192, 0, 2, 7)), 3)], "prefixes": PREFIXES[:2],
              "routers": [bytes((198, 51, 100, 1)), bytes((198, 51, 100, 2)), bytes((198, 51, 100, 3))]}
    return Settings(**dict(fields, **changes))


REFUSED_AT_ONCE = [("report", (b"",), "refuse 16"), ("send", (bytes(16), 3, b""), "refuse 8"), ("ask", (60,), "refuse 11"),
                   ("routers", ([bytes(4)],), "refuse 1"), ("advertisement", (bytes(39),), "refuse 8"),
                   ("receive", (16383, b""), "refuse 15"), ("receive", (16384, b""), "refuse 2")]


def raise_time(calls, time, way=None):
    """Any call with a time raises the latest time, also a refused one."""
    name, rest, want = way or calls.random.choice(REFUSED_AT_ONCE)
    number = (255,) if name in ("send", "ask", "receive") else ()
    calls.call(name, *number, time, *rest, want=want)


def size_is(calls, neighbour, size):
    calls.call("size", neighbour, want=str(size))


def query_all(calls):
    """The size toward every neighbour of the last reports."""
    for neighbour in dict.fromkeys(neighbour for neighbour, _, _ in calls.service.record[-140:]):
        calls.call("size", neighbour)
    size_is(calls, calls.settings.locators[0][0], calls.settings.link)
    size_is(calls, bytes(4), calls.settings.link)


def path_sizes(calls, sizes=None):
    """n at M and M + 1 for sizes about the smallest IPv6 size; 1,280 and 1,281 for small ones."""
    link = calls.settings.link
    for size in sizes or calls.random.sample((68, 600, 1280, 1299, 1300, 1301, 1302, link), 3):
        neighbour = calls.fresh()
        if size < link:
            calls.report(neighbour=neighbour, candidate=size)
        largest = max(1280, min(size, link) - 20)
        calls.send(n=largest, end=neighbour)
        calls.send(n=largest + 1, end=neighbour)


def ageing(calls):
    """In force at 599 s, gone at 600 s; an equal report renews nothing, a lower one does."""
    neighbour, start, size = calls.fresh(), calls.service.latest, calls.random.randint(70, 575)
    calls.report(neighbour=neighbour, candidate=size, time=start)
    raise_time(calls, start + 598)
    calls.report([(19, {"candidate": size})], neighbour=neighbour, time=start + 599)
    size_is(calls, neighbour, size)
    if calls.random.random() < 0.5:
        calls.report(neighbour=neighbour, candidate=size - 1, time=start + 599)
        start, size = start + 599, size - 1
        raise_time(calls, start + 599)
        size_is(calls, neighbour, size)
    raise_time(calls, start + 600)
    size_is(calls, neighbour, calls.settings.link)
    calls.report(neighbour=neighbour, candidate=size + 1)


def plateaus(calls):
    """Candidate 0 toward a neighbour without a report, for quoted lengths at and just above each plateau."""
    for total in PLATEAU_BELOW:
        calls.report(variation={"candidate": 0, "total": total}, neighbour=calls.fresh())


def refused_calls():
    """Each number that a call with a time can be brought to give, as a call at a given time; 14 among them."""
    def asked(want, index=0, room=48):
        return lambda calls, time: calls.call("ask", index, time, room, want=want)
    for number, changes in ((8, {"version6": 4}), (11, {"index": 255}), (12, {"next_hop": GLOBAL}), (13, {"next_hop": link_local(FORBIDDEN[1])}),
                            (14, {"more": 1}), (15, {"short": 1})):
        yield lambda calls, time, fault=(number, changes): calls.send([fault], time=time)
    for number, changes in ((16, {"spoil": 1}), (17, {"protocol": 4}), (18, {"candidate": 67}), (19, {"candidate": 65535})):
        yield lambda calls, time, fault=(number, changes): calls.report([fault], neighbour=calls.fresh(), time=time)
    yield lambda calls, time: calls.call("routers", time, [bytes(4)], want="refuse 1")
    yield asked("refuse 11", index=255)
    yield asked("refuse 15", room=47)
    yield lambda calls, time: [calls.call("routers", 0, []), asked("refuse 22")(calls, time)]
    for number, changes in ((8, {"version6": 4}), (20, {"hop_limit": 254})):
        yield lambda calls, time, fault=(number, changes): calls.advertisement([fault], time=time)
    yield lambda calls, time: calls.advertisement([(21, {"source6": link_local(calls.fresh())})], time=time)


def received_calls():
    """Each answer of receiving's call for the number, as a call at a given time, up to a second after those that it needs before it."""
    for number, changes in ((15, {"room": 16383}), (2, {"version": 5}), (3, {"spoil": 1}), (4, {"protocol": 4}), (7, {"source": FORBIDDEN[1]}),
                            (6, {"interface": lambda calls, f: calls.other_interface(f["destination"])}), (8, {"version6": 4}),
                            (9, {"source6": UNSPECIFIED}), (10, {"source6": GLOBAL})):
        yield lambda calls, time, fault=(number, changes): calls.receive([fault], time=time)
    yield lambda calls, time: calls.receive(time=time)
    yield lambda calls, time: Whole(calls).begin(time=time)
    for part, want in (((0, 8), "refuse 27"), ((8, 16), "refuse 27"), ((0, 16), DROPS), ((0, 9, True), UNFIT), ((8, 64), "joined")):
        yield lambda calls, time, part=part, want=want: Whole(calls).begin(time=time - 1).give(*part, time=time, want=want)
    for number, payload in ((8, bytes(64)), (9, packet(UNSPECIFIED, GLOBAL)), (10, packet(GLOBAL, GLOBAL))):
        yield lambda calls, time, payload=payload, want=f"refuse {number}": Whole(calls, payload=payload).begin(time=time - 1).give(
            8, len(payload), time=time, want=want)
    yield lambda calls, time: [Whole(calls).begin(time=time - 1, want="") for _ in range(8)] + [Whole(calls).begin(time=time, want=FULL)]


def times_raised_by_refused_calls(calls):
    """A size is in force in its last second and gone in the next, whichever call comes then and whatever number it is given."""
    for refused in (*refused_calls(), *received_calls()):
        neighbour, start = calls.fresh(), calls.service.latest
        calls.report(neighbour=neighbour, candidate=500, time=start)
        refused(calls, start + 599)
        size_is(calls, neighbour, 500)
        refused(calls, start + 600)
        size_is(calls, neighbour, calls.settings.link)


def long_ages(calls):
    """Ages are reckoned in full: 65,536 s and more are no small age."""
    for later in (65536, 65536 + 599, 3 * 65536 + 1, 256 * 60, 1 << 24, 1 << 31):
        neighbour, start = calls.fresh(), calls.service.latest
        calls.report(neighbour=neighbour, candidate=500, time=start)
        raise_time(calls, start + later)
        size_is(calls, neighbour, calls.settings.link)


def refused_sizes(calls):
    """A report refused with 19 changes nothing: not the size, not its age, not which neighbour was the last one."""
    for larger in (600, 500, 9216, 65535, calls.settings.link):
        neighbour, start = calls.fresh(), calls.service.latest
        calls.report(neighbour=neighbour, candidate=500, time=start)
        calls.report([(19, {"candidate": larger})], neighbour=neighbour, time=start + 599)
        size_is(calls, neighbour, 500)
        raise_time(calls, start + 600)
        size_is(calls, neighbour, calls.settings.link)
    first, others = calls.fresh(), [calls.fresh() for _ in range(64)]
    calls.report(neighbour=first, candidate=500)
    for other in others[:63]:
        calls.report(neighbour=other, candidate=501)
    for larger in (500, 600, 65535):
        calls.report([(19, {"candidate": larger})], neighbour=first)
    size_is(calls, first, 500)
    calls.report(neighbour=others[63], candidate=501)
    size_is(calls, first, calls.settings.link)
    query_all(calls)


def near_neighbours(calls):
    """Neighbours that differ in one bit have sizes of their own."""
    neighbour, near = bytes((192, 88, 99, 64)), [bytes(parts) for parts in ((192, 88, 99, 65), (192, 88, 98, 64), (192, 89, 99, 64), (193, 88, 99, 64))]
    calls.report(neighbour=neighbour, candidate=500)
    for place, other in enumerate(near):
        size_is(calls, other, calls.settings.link)
        calls.report(neighbour=other, candidate=510 + place)
    for place, other in enumerate(near):
        size_is(calls, other, 510 + place)
    size_is(calls, neighbour, 500)


def times_going_back(calls):
    """A report with an earlier time is as old as the latest time says."""
    neighbour, start = calls.fresh(), calls.service.latest + 1000
    raise_time(calls, start)
    calls.report(neighbour=neighbour, candidate=500, time=start - 900)
    size_is(calls, neighbour, 500)
    raise_time(calls, start + 599)
    raise_time(calls, start - 1)
    size_is(calls, neighbour, 500)
    raise_time(calls, start + 600)
    size_is(calls, neighbour, calls.settings.link)


def neighbours(calls, count=None, again=None):
    """The 63rd other neighbour leaves a size, the 64th removes it (R18.10); a repeated or refused report counts no more."""
    count = count or calls.random.choice((62, 63, 64, 65))
    again = calls.random.random() < 0.5 if again is None else again
    first, now, others = calls.fresh(), calls.service.latest, []
    calls.report(neighbour=first, candidate=500, time=now)
    while len(others) < count:
        others.append(calls.fresh())
        calls.report(neighbour=others[-1], candidate=570, time=now)
        if again and calls.random.random() < 0.4:
            calls.report([(19, {"candidate": 9216})], neighbour=calls.fresh(), time=now)
            other = calls.random.choice(others)
            if calls.service.size(other) < 571 and calls.service.size(other) > 68:
                calls.report(neighbour=other, time=now)
    size_is(calls, first, 500 if count < 64 else calls.settings.link)
    query_all(calls)


def neighbours_moved(calls):
    """A new report makes a neighbour the last one: the next new neighbour removes another."""
    now, all_of_them = calls.service.latest, []
    for _ in range(64):
        all_of_them.append(calls.fresh())
        calls.report(neighbour=all_of_them[-1], candidate=500, time=now)
    calls.report(neighbour=all_of_them[-1], candidate=490, time=now)
    size_is(calls, all_of_them[0], 500)                       # the 64 are as before
    calls.report(neighbour=all_of_them[0], candidate=499, time=now)
    calls.report(neighbour=calls.fresh(), candidate=498, time=now)
    size_is(calls, all_of_them[0], 499)
    size_is(calls, all_of_them[1], calls.settings.link)
    size_is(calls, all_of_them[2], 500)
    calls.report(neighbour=all_of_them[1], candidate=510, time=now)
    query_all(calls)


def ask(calls, time=None, room=None, want="", index=None):
    index = calls.random.randrange(len(calls.settings.locators)) if index is None else index
    room = calls.random.choice((48, 48, 49, 100)) if room is None else room
    return calls.call("ask", index, calls.service.latest if time is None else time, room, want=want)


def asking(calls):
    """Asks until none is due; then just before and exactly at the earliest due time; rooms 47 and 48."""
    calls.listed_router()
    while min(due for _, due in calls.service.routers) <= calls.service.latest:
        ask(calls, room=calls.random.choice((0, 47)), want="refuse 15")
        ask(calls, want=dotted(min(calls.service.routers, key=lambda entry: entry[1])[0]))
    due = min(due for _, due in calls.service.routers)
    ask(calls, room=47, want="refuse 22")
    calls.call("ask", len(calls.settings.locators), calls.service.latest, 0, want="refuse 11")
    if due <= LAST_SECOND:
        ask(calls, time=due - 1, want="refuse 22")
        ask(calls, time=due, room=47, want="refuse 15")
        ask(calls, time=calls.random.choice((due, 0)), room=48)
    if calls.service.latest < LAST_SECOND - 2 * calls.settings.interval:
        calls.call("routers", calls.service.latest, [calls.fresh()], want="accepted 1")
        ask(calls, time=max(0, calls.service.latest - calls.settings.interval))  # due from the latest time on, not from an earlier one
        ask(calls, time=calls.service.latest + calls.settings.interval - 1, want="refuse 22")


def ask_when_due(calls, router, due):
    """Shows the due time of the only router: none due the second before, asked in that second."""
    if due > LAST_SECOND:
        ask(calls, time=LAST_SECOND, want="refuse 22")
        return
    if due > calls.service.latest:
        ask(calls, time=due - 1, want="refuse 22")
    ask(calls, time=due, want=dotted(router))


def waits(interval):
    """Router lifetime, options and the wait after them, by hand from R16."""
    longer, many = 2 * interval + 3, 0xffffffff
    return [(0, [], 3600), (1, [], interval), (2 * interval, [], interval), (2 * interval + 1, [], interval),
            (2 * interval + 2, [], interval + 1), (65535, [], max(interval, 32767)), (0, [prefix_option(4, many)], 3600),
            (0, [prefix_option(4, 0), route_option(1, 0), route_option(3, many)], 3600),
            (0, [prefix_option(4, longer)], interval + 1), (7300, [route_option(1, longer)], min(max(3650, interval), interval + 1)),
            (0, [route_option(2, longer + 1)], interval + 2), (0, [route_option(3, longer + 2)], interval + 2),
            (0, [route_option(4, longer)], 3600), (0, [prefix_option(5, longer)], 3600), (0, [prefix_option(3, longer)], 3600),
            (0, [option(1, 1, 2), option(25, 3, 2), option(4, 4, 2), route_option(1, 20000)], 10000),
            (0, [route_option(1, 20000), option(23, 2, 2), option(2, 4, 2)], 10000), (0, [prefix_option(4, 300001)], 150000),
            (9000, [prefix_option(4, 20000), route_option(1, 20000)], 4500), (0, [route_option(2, 20001), prefix_option(4, 20003)], 10000)]


def advertised_due_time(calls, cases=None):
    router = calls.fresh()
    calls.call("routers", calls.time(), [router], want="accepted 1")
    for lifetime, options, wait in cases or [calls.random.choice(waits(calls.settings.interval))]:
        calls.advertisement(router=router, options=options, lifetime=lifetime)
        ask_when_due(calls, router, calls.service.latest + wait)


def longest_lifetime(calls):
    """0xfffffffe counts: due half of it later, to the second."""
    router, start = calls.fresh(), calls.service.latest
    calls.call("routers", start, [router], want="accepted 1")
    calls.advertisement(router=router, lifetime=0, options=[prefix_option(4, 0xfffffffe), route_option(2, 0xffffffff)])
    ask_when_due(calls, router, calls.service.latest + 0x7fffffff)
    ask_when_due(calls, router, calls.service.latest + calls.settings.interval)


def each_prefix(calls):
    """Every prefix of the settings, and fe80::/64, is on link for the inner source and for the next hop."""
    for prefix in calls.settings.prefixes + [LINK_LOCAL]:
        for identifier in ISATAP_IDENTIFIERS:
            source = {"source6": lambda calls, f: isatap_address(prefix, identifier, f["source"])}
            calls.receive([(9, source)] if prefix[0] == 255 else (), source)
            calls.send(next_hop=isatap_address(prefix, identifier, calls.fresh()))
        near = prefix[:7] + bytes([prefix[7] ^ 0x80])         # one that is not on link
        if prefix[0] != 255:
            calls.receive([(10, {"source6": lambda calls, f: isatap_address(near, "00005efe", f["source"])})])
        calls.send([(12, {"next_hop": isatap_address(near, "00005efe", calls.fresh())})])


def each_locator(calls):
    """Every locator with every interface: only its own pairs are matched; every locator sends and is quoted."""
    for place, (address, _) in enumerate(calls.settings.locators):
        for interface in sorted({interface for _, interface in calls.settings.locators}):
            ours = (address, interface) in calls.settings.locators
            calls.receive(() if ours else [(6, {"destination": address, "interface": interface})],
                          {"destination": address, "interface": interface})
        calls.send([(0, {"index": place})], n=40)
        calls.send([(13, {"index": 0, "next_hop": link_local(address)})])
        calls.report(variation={"source": address}, neighbour=calls.fresh())
        calls.report([(17, {"neighbour": address})])
        calls.advertise((), {"index": place})


def each_router(calls):
    """Every router of the list delivers and advertises, due or not; those that did not advertise keep their due times."""
    routers = [router for router, _ in calls.service.routers]
    for router in routers:
        calls.receive(variation={"source": router, "source6": GLOBAL})
        calls.receive([(9, {"source": router, "source6": LOOPBACK})])
    for router in routers:
        ask(calls, want=dotted(router))
        calls.receive(variation={"source": router, "source6": GLOBAL})
        calls.advertisement(router=router, lifetime=9000, options=[])
    ask(calls, want="refuse 22")


def advertised_alone(calls):
    """An advertisement moves its own router; a due time that is the same for all is served by place."""
    first, second, third = (calls.fresh() for _ in range(3))
    calls.call("routers", calls.service.latest, [first, second, third], want="accepted 3")
    calls.advertisement(router=second, lifetime=1, options=[], time=0)
    ask(calls, want=dotted(first))
    calls.advertisement(router=third, lifetime=1, options=[], time=0)
    ask(calls, want="refuse 22")
    for router in (first, second, third):
        ask(calls, time=calls.service.latest + (calls.settings.interval if router == first else 0), want=dotted(router))


def identifications(calls):
    """Only a wrapped packet uses an identification: not a refusal, a Too Big, an asking, a report."""
    for number, changes in ((8, {"version6": 4}), (11, {"index": 255}), (12, {"next_hop": GLOBAL}), (13, {"next_hop": link_local(FORBIDDEN[1])}),
                            (14, {"more": 1}), (14, {"more": 1, "message": False, "source6": UNSPECIFIED}), (15, {"short": 1})):
        calls.send(n=40)
        calls.send([(number, changes)])
    ask(calls)
    calls.send(n=40)
    calls.report()
    calls.advertisement()
    calls.receive()
    calls.send(n=40)


def earlier_times(calls):
    """A call with an earlier time, answered or refused, does not take the latest time back."""
    calls.call("routers", calls.service.latest, [calls.fresh()], want="accepted 1")
    router = calls.service.routers[0][0]
    for way in (lambda time: calls.send(n=40, time=time), lambda time: calls.send([(14, {"more": 1})], time=time),
                lambda time: calls.report(neighbour=calls.fresh(), time=time), lambda time: ask(calls, time=time, want=dotted(router)),
                lambda time: calls.call("routers", time, [router], want="accepted 1"),
                lambda time: calls.advertisement(router=router, lifetime=0, options=[], time=time),
                *[lambda time, refused=refused: refused(calls, time) for refused in (*list(refused_calls())[:13], *received_calls())]):
        neighbour, start = calls.fresh(), calls.service.latest
        calls.report(neighbour=neighbour, candidate=500, time=start)
        raise_time(calls, start + 600)
        way(start + 1)
        size_is(calls, neighbour, calls.settings.link)


def longest_packets(calls):
    """Packets too long to be wrapped by any path size: 14 and never 23."""
    for n in (65515, 65516, 65535):
        data = packet(GLOBAL, GLOBAL, bytes(n - 40))
        largest = max(1280, calls.settings.link - 20)
        calls.call("send", 0, 0, link_local(calls.fresh()), 1300, data, want=f"too-big {largest} 1280")


def second_carries(calls):
    """Sums whose first carry gives another, in each thing we write."""
    def word(data, field):
        """The word that makes the sum of `data`, which has 0 in its place and in that of the checksum, two carries long."""
        total = sum(number(data[place:place + 2]) for place in range(0, len(data), 2)) - number(field)
        return u16(next(more for more in range(65536) if (total + more & 0xffff) + (total + more >> 16) == 0x10000))
    service, settings, own = calls.service, calls.settings, calls.settings.locators[0][0]
    start, data = bytes((223, 255)), packet(GLOBAL, GLOBAL)
    header = wrapped(data, service.identification, settings.link > 1300, settings.ttl, own, start + b"\0\0")[:20]
    calls.call("send", 0, 0, link_local(start + word(header, header[10:12])), 60, data, want="wrapped 60")
    largest = max(1280, settings.link - 20)
    data = packet(GLOBAL, GLOBAL, bytes(largest - 39))
    message = too_big_message(settings.reporting, data, largest)
    data = data[:1230] + word(pseudo_header(message[8:24], message[24:40], 1240) + message[40:], message[42:44]) + data[1232:]
    calls.call("send", 0, 0, link_local(calls.fresh()), 1280, data, want=f"too-big {largest} 1280")
    message = solicitation(own, start + b"\0\0")
    calls.call("routers", 0, [start + word(pseudo_header(message[8:24], message[24:40], 8) + message[40:], message[42:44])])
    ask(calls, index=0)
    operator = Advertisement(0xc0, 1800, [operator_prefix()], [operator_route()])
    message = router_advertisement(own, link_local(start + b"\0\0"), operator)
    asker = start + word(pseudo_header(message[8:24], message[24:40], len(message) - 40) + message[40:], message[42:44])
    calls.call("advertise", 0, 104, operator, asking_packet(link_local(asker), GLOBAL), want="written 104")


def advertised_earlier(calls):
    """An accepted advertisement may also make a due time earlier."""
    router = calls.fresh()
    calls.call("routers", calls.time(), [router], want="accepted 1")
    calls.advertisement(router=router, lifetime=65535, options=[])
    calls.advertisement(router=router, lifetime=1, options=[])
    ask_when_due(calls, router, calls.service.latest + calls.settings.interval)


def router_lists(calls):
    """Kept routers keep their due times, new ones are due now; refused lists change nothing."""
    kept, new = [calls.fresh() for _ in range(3)], [calls.fresh() for _ in range(2)]
    now = calls.service.latest
    calls.call("routers", now, [], want="accepted 0")
    ask(calls, want="refuse 22")
    calls.call("routers", now + 5, kept, want="accepted 3")
    ask(calls, want=dotted(kept[0]))
    ask(calls, want=dotted(kept[1]))
    calls.call("routers", now + 9, [new[0], kept[1], kept[2], kept[0], new[1]], want="accepted 5")
    own = calls.random.choice(calls.settings.locators)[0]
    seventeen = [calls.fresh() for _ in range(17)]
    for refused in ([calls.random.choice(FORBIDDEN)], [kept[0], new[0], kept[0]], [kept[2], own], seventeen):
        calls.call("routers", calls.time(), refused, want="refuse 1")
    calls.call("receive", 0, 0, 16384, b"", want="refuse 2")
    for router in (kept[2], new[0], new[1]):
        ask(calls, want=dotted(router) if calls.settings.interval > 30 else "")
    ask(calls)
    first, second = calls.fresh(), calls.fresh()
    calls.call("routers", now + 20, [first], want="accepted 1")
    calls.call("routers", now + 3, [first, second], want="accepted 2")
    ask(calls, want=dotted(first))
    calls.call("routers", 0, [first], want="accepted 1")
    calls.call("routers", 0, [], want="accepted 0")
    calls.call("routers", 0, [second], want="accepted 1")
    calls.call("routers", 0, [first, second], want="accepted 2")  # both due now: the lowest place of the new list
    ask(calls, want=dotted(first))
    calls.call("routers", now, list(dict.fromkeys([kept[2]] + [calls.fresh() for _ in range(15)])), want="accepted 16")


def dropped_router(calls):
    """A router of an earlier list admits nothing and advertises nothing."""
    router = calls.fresh()
    calls.call("routers", calls.time(), [router], want="accepted 1")
    by_router = {"source": router, "source6": GLOBAL}
    calls.receive(variation=by_router)
    calls.call("routers", calls.time(), [], want="accepted 0")
    calls.receive([(10, by_router)])
    calls.advertisement([(21, {})], router=router)


def times_near_the_end(calls):
    """Due times past the last second are exact: never due, and they do not wrap."""
    router, neighbour = calls.fresh(), calls.fresh()
    start = max(calls.service.latest, LAST_SECOND - calls.settings.interval - 700)
    calls.call("routers", start, [router], want="accepted 1")
    calls.report(neighbour=neighbour, candidate=100, time=start)
    raise_time(calls, min(start + 599, LAST_SECOND))
    calls.call("size", neighbour)
    calls.send(end=neighbour, time=min(start + 600, LAST_SECOND))
    ask(calls, time=max(calls.service.latest, LAST_SECOND - calls.settings.interval), want=dotted(router))
    if calls.service.latest + calls.settings.interval == LAST_SECOND:
        ask(calls, time=LAST_SECOND - 1, want="refuse 22")
        ask(calls, time=LAST_SECOND, want=dotted(router))
    ask(calls, time=LAST_SECOND, want="refuse 22")
    calls.advertisement(router=router, lifetime=0, options=[])
    second = calls.fresh()
    calls.call("routers", 0, [router, second], want="accepted 2")
    ask(calls, want=dotted(second))
    ask(calls, want="refuse 22")
    calls.advertisement(router=router, lifetime=0, options=[prefix_option(4, 0xfffffffe)])
    ask(calls, want="refuse 22")
    calls.report(time=LAST_SECOND)
    query_all(calls)


def zero_checksums(calls):
    """Checksums that come out as 0 in each thing we write: a word that occurs once is set to the checksum without it."""
    service, settings, own = calls.service, calls.settings, calls.settings.locators[0][0]
    start, data = calls.fresh()[:2], packet(GLOBAL, GLOBAL)
    header = wrapped(data, service.identification, settings.link > 1300, settings.ttl, own, start + b"\0\0")
    calls.call("send", 0, 0, link_local(start + header[10:12]), 60, data)
    largest = max(1280, settings.link - 20)
    data = packet(GLOBAL, GLOBAL, bytes(largest - 39))
    message = too_big_message(settings.reporting, data, largest)
    data = data[:1230] + message[42:44] + data[1232:]
    calls.call("send", 0, 0, link_local(calls.fresh()), 1280, data, want=f"too-big {largest} 1280")
    message = solicitation(own, start + b"\0\0")
    calls.call("routers", 0, [start + message[42:44]])
    ask(calls, index=0)
    operator = Advertisement(0x40, 9000, [operator_prefix(1)], [operator_route(127, 2)])
    message = router_advertisement(own, link_local(start + b"\0\0"), operator)
    calls.call("advertise", 0, 112, operator, asking_packet(link_local(start + message[42:44]), GLOBAL), want="written 112")


# ---- Advertising

def advertisements(interval):
    """What an operator sets, and how long a node that hears it waits, by hand from R16; preferred lifetimes do not count."""
    def prefixes(*lifetimes):
        return [operator_prefix(valid=valid, preferred=preferred) for valid, preferred in lifetimes]
    many = 0xffffffff
    routes = [operator_route(length, preference, 20000 + length) for preference, length in enumerate((0, 64, 128))]
    return [(Advertisement(), 3600), (Advertisement(0xff, 1), interval), (Advertisement(0x80, 2 * interval + 3), interval + 1),
            (Advertisement(0x40, 65535), max(interval, 32767)), (Advertisement(0, 0, prefixes((30003, 2))), 15001),
            (Advertisement(0, 0, prefixes((0, 7300))), 3600), (Advertisement(0, 0, prefixes((many, 7300), (0, 7300))), 3600),
            (Advertisement(0, 0, prefixes((many, 0), (1, many))), interval), (Advertisement(0, 0, [], [operator_route(0, 1, 30001)]), 15000),
            (Advertisement(0, 0, [], [operator_route(64, 2, many), operator_route(65, 0, 0)]), 3600), (Advertisement(0, 0, [], routes), 10000),
            (Advertisement(0, 9000, prefixes((20000, 20000)), routes), max(interval, 4500)),
            (Advertisement(0, 30000, prefixes(*[(20020 + place, 3) for place in range(8)]), [operator_route(128, 2, 20016)] * 7 + routes[:1]), 10000)]


def heard_from_another(calls):
    """What another node writes, a node that lists it takes, and asks again when the operator's lifetimes say."""
    router = calls.fresh()
    calls.call("routers", calls.time(), [router], want="accepted 1")
    other, asked = Node(Settings([(router, 0)], [], [])).services[0], solicitation(calls.settings.locators[0][0], router)
    for operator, wait in advertisements(calls.settings.interval):
        output = lent(504)
        length = int(other.advertise(0, output, operator, asked).split()[1])
        calls.call("advertisement", calls.service.latest, bytes(output[:length]), want=dotted(router))
        ask_when_due(calls, router, calls.service.latest + wait)


def advertised_to_another(calls):
    """The same ones, written by this node for another that asks."""
    for place, (locator, _) in enumerate(calls.settings.locators):
        asked = solicitation(calls.fresh(), locator)
        for operator, _ in advertisements(calls.settings.interval):
            calls.call("advertise", place, 504, operator, asked, want="written")


def advertise_rooms(calls):
    """One byte short and just fitting, for no option and for the most and longest."""
    asked = solicitation(calls.fresh(), calls.settings.locators[0][0])
    most = Advertisement(0xc0, 1800, [operator_prefix()] * 8, [operator_route(128)] * 8)
    for operator, length in ((Advertisement(), 56), (Advertisement(0, 0, [], [operator_route(0)]), 64), (most, 504)):
        for room, want in ((0, "refuse 15"), (length - 1, "refuse 15"), (length, f"written {length}"), (length + 1, f"written {length}"),
                           (65535, f"written {length}")):
            calls.call("advertise", 0, room, operator, asked, want=want)


def advertise_trailing(calls):
    """Bytes behind the payload are passed over: they are no options and are not summed up."""
    for tail in (b"\0", b"\1", b"\1\0", b"\1\1" + bytes(6), b"\5\0" + bytes(6), bytes(1400)):
        calls.advertise((), {"tail": tail})
        calls.advertise((), {"tail": tail, "options": []})
        calls.advertise([(25, {"tail": tail, "options": [], "source6": UNSPECIFIED})])
        calls.advertise([(24, {"tail": tail, "options": [], "payload_error": len(tail)})])
        calls.advertise([(8, {"tail": tail, "options": [], "payload_error": len(tail) + 1})])


def advertise_many(calls):
    """Counts of 9 and more are 26 where the call comes to that, also those whose low byte is 8 or less."""
    asked = solicitation(calls.fresh(), calls.settings.locators[0][0])
    for count in (9, 256, 264):
        for operator in (Advertisement(0, 0, [operator_prefix()] * count), Advertisement(0, 0, [], [operator_route(0)] * count)):
            calls.call("advertise", 0, 600, operator, asked, want="refuse 26")
    operator = Advertisement(0, 0, [operator_prefix(255)] * 9, [operator_route(255, 2)] * 256)
    for index, room, packet_, want in ((0, 0, asked, 26), (0, 600, asked + b"\0", 26), (0, 600, asked[:47], 8), (255, 600, asked, 11),
                                       (0, 600, asked[:-1] + b"\1", 24), (0, 600, asking_packet(GLOBAL, GLOBAL), 25)):
        calls.call("advertise", index, room, operator, packet_, want=f"refuse {want}")


ADVERTISE_REFUSED = ((8, {"version6": 4}), (11, {"index": 255}), (24, {"hop_limit": 254}), (25, {"source6": GLOBAL}),
                     (26, {"prefixes": [operator_prefix(129)]}), (15, {"short": 1}))


def advertising_changes_nothing(calls):
    """Neither an answer nor a refusal changes the latest time, a size, a due time, the router list or the identification."""
    router, neighbour, start = calls.fresh(), calls.fresh(), calls.service.latest
    calls.call("routers", start, [router], want="accepted 1")
    calls.report(neighbour=neighbour, candidate=500, time=start)
    ask(calls, time=start + 599, want=dotted(router))
    for faults in ((), *[[fault] for fault in ADVERTISE_REFUSED]):
        for source6 in (link_local(router), link_local(neighbour), link_local(calls.fresh())):
            calls.advertise(faults, {"source6": source6})
        size_is(calls, neighbour, 500)
        ask(calls, want="refuse 22")
        calls.send(n=40, time=0)
    raise_time(calls, calls.service.latest + calls.settings.interval)
    calls.advertise()
    ask(calls, time=0, want=dotted(router))                   # an earlier time is still read as the latest


SCENARIOS = [path_sizes, plateaus, zero_checksums, ageing, times_going_back, asking, advertised_due_time, advertised_earlier,
             router_lists, dropped_router, heard_from_another, advertising_changes_nothing]
