"""Whole inputs by chance: lists of calls, bad inputs, inputs of the program (R17)."""
import random

from .builders import operator_route
from .calls import LAST_SECOND, Calls
from .faults import FAULTS, FORBIDDEN, GLOBAL, NEARLY_FORBIDDEN, VARIATIONS
from .formats import REPLAY_LIMIT, encode_call, encode_datagrams, encode_lists, encode_services, replay
from .octets import LINK_LOCAL, LOOPBACK, forbidden, isatap_address
from .pieces import Whole
from .rules import Advertisement, Settings
from .scenarios import PREFIXES, SCENARIOS, ask, neighbours, neighbours_moved, plain_settings, times_near_the_end
from .scenarios_pieces import PIECE_SCENARIOS, random_cuttings, random_pieces
from .scenarios_services import WITH_ONE, WITH_TWO, second_settings, to_the_absent


def random_settings(chooser):
    def address():
        while True:
            parts = chooser.choice([bytes(chooser.randrange(256) for _ in range(4)), chooser.choice(NEARLY_FORBIDDEN)])
            if not forbidden(parts):
                return parts
    locators = []
    for _ in range(chooser.choice((1, 1, 2, 3, 8))):
        again = locators and chooser.random() < 0.3
        locators.append((chooser.choice(locators)[0] if again else address(), chooser.choice((0, 1, 255, chooser.randrange(256)))))
    locators = list(dict.fromkeys(locators))
    own = [locator for locator, _ in locators]
    routers = list({router for router in (address() for _ in range(chooser.choice((0, 1, 2, 3, 16)))) if router not in own})
    return Settings(locators, [chooser.choice(PREFIXES) for _ in range(chooser.choice((0, 1, 2, 8)))], sorted(routers),
                    chooser.choice((576, 577, 1280, 1299, 1300, 1301, 1302, 1500, 1500, 1500, 4352, 9216, chooser.randint(576, 9216))),
                    chooser.choice((1, 64, 255)), chooser.choice((1, 2, 120, 3600, chooser.randint(1, 3600))),
                    chooser.choice((0, 1, 65530, 65534, 65535, chooser.randrange(65536))),
                    chooser.choice((None, None, GLOBAL, LOOPBACK, bytes([0xfe]) + bytes(15))))


def random_pair(chooser):
    """Settings of two services: no locator address is in both, and some of one are routers of the other."""
    first, second = random_settings(chooser), random_settings(chooser)
    second.locators = [locator for locator in second.locators if not first.own(locator[0])] or second_settings().locators
    second.routers = [router for router in second.routers if not second.own(router)]
    for one, other in ((first, second), (second, first)):
        crossing = [address for address, _ in other.locators if chooser.random() < 0.3]
        one.routers = list(dict.fromkeys(crossing + one.routers))[:16]
    return first, second


# ---- Single calls

def with_faults(calls, name, *faults):
    """One call with these faults, the lowest number applied last, and some variation of it."""
    faults = sorted(faults, key=lambda fault: -fault[0])
    if name not in VARIATIONS:
        return getattr(calls, name)(faults)
    return getattr(calls, name)(faults, calls.random.choice(VARIATIONS[name]) if calls.random.random() < 0.5 else None)


def mutated(chooser, data):
    """A byte flipped, the end cut off, or bytes added."""
    data, way = bytearray(data), chooser.randrange(4)
    if way < 2 and data:
        data[chooser.randrange(min(len(data), chooser.choice((12, 48, 4000))))] ^= 1 << chooser.randrange(8)
    elif way == 2:
        del data[chooser.randrange(len(data) + 1):]
    else:
        data += bytes(chooser.randrange(1, 20))
    return bytes(data)


def mutate_call(calls, name, data):
    data, time = mutated(calls.random, data), calls.time()
    if name == "receive":
        calls.call(name, calls.random.choice(calls.settings.locators)[1], time, calls.random.choice((16383, 16384, 65535)), data)
    elif name == "part":
        calls.call(name, calls.random.choice(calls.settings.locators)[1], data)
    elif name == "send":
        calls.call(name, 0, time, calls.some(8) + LINK_LOCAL if calls.random.random() < 0.1 else
                   isatap_address(LINK_LOCAL, "02005efe", calls.neighbour()), calls.random.choice((len(data) + 20, 1280, 9300)), data)
    elif name == "advertise":
        calls.call(name, 0, calls.random.choice((55, 56, 504, 600)), Advertisement(**calls.operator_fields()), data)
    else:
        calls.call(name, time, data)


def random_call(calls, name, fault):
    second = [other for other in FAULTS[name] if fault is None or other[0] != fault[0]]
    faults = [fault] if fault else []
    if fault and calls.random.random() < 0.25:
        faults.append(calls.random.choice(second))
    data = with_faults(calls, name, *faults)
    if calls.random.random() < 0.3:
        mutate_call(calls, name, data)


def named_by_chance(calls):
    """The last call again, naming the other service; where the node has none, at a later time perhaps."""
    if calls.made[-1][0] == "report":
        return
    if calls.other:
        calls.made_to_the_other()
    else:
        to_the_absent(calls, min(LAST_SECOND, calls.service.latest + calls.random.choice((0, 0, 1, 29))))


BESIDE = [lambda calls: calls.receive(), lambda calls: calls.part(), lambda calls: calls.send(n=40, time=0), lambda calls: ask(calls, time=0),
          lambda calls: calls.advertise(), lambda calls: calls.service.routers and calls.advertisement(time=0), lambda calls: Whole(calls).begin(want=""),
          lambda calls: calls.call("routers", 0, [calls.fresh()], want="accepted 1"), lambda calls: calls.call("memory")]


def beside(calls):
    """Now and then a call of the other service that no answer of this one may depend on; it has no later time and is no report."""
    if calls.random.random() < 0.1:
        calls.other.beside = None
        calls.random.choice(BESIDE)(calls.other)
        calls.other.beside = beside


def deck(chooser, scenarios):
    """Every fault once, as many calls without one, and each scenario."""
    cards = [(name, fault) for name in FAULTS for fault in FAULTS[name]]
    cards += [(name, None) for name in FAULTS for _ in FAULTS[name]]
    cards += [("scenario", scenario) for scenario in 4 * SCENARIOS + 4 * PIECE_SCENARIOS + [neighbours, neighbours_moved] + scenarios]
    chooser.shuffle(cards)
    return cards


def play(calls, name, card):
    """A scenario of both services is left alone."""
    if name != "scenario":
        random_call(calls, name, card)
        if calls.random.random() < 0.15:
            named_by_chance(calls)
    elif card in WITH_TWO:
        before, calls.beside, calls.other.beside = calls.beside, None, None
        card(calls)
        calls.beside = calls.other.beside = before
    else:
        card(calls)


def started(chooser, services):
    """A list on a node of so many services, and the scenarios for that."""
    if services == 1:
        return Calls(chooser, random_settings(chooser)), 2 * WITH_ONE
    calls = Calls(chooser, *random_pair(chooser))
    if chooser.random() < 0.7:
        calls.beside = calls.other.beside = beside
    return calls, 3 * WITH_TWO


def generate(seed, count, most=REPLAY_LIMIT - 150000):
    """About `count` calls, of an even seed on a node of two services; the last second is reached in some lists, and only at the end."""
    chooser = random.Random(seed)
    (calls, scenarios), cards = started(chooser, 2 - seed % 2), []
    while len(calls.made) < count and len(calls.data) < most and calls.service.latest < 1 << 31:
        cards = cards or deck(chooser, scenarios)
        play(chooser.choice((calls, calls.other or calls)), *cards.pop())
    if chooser.random() < 0.5:
        times_near_the_end(chooser.choice((calls, calls.other or calls)))
    return bytes(calls.data)


# ---- Bad inputs

def longest(length=REPLAY_LIMIT):
    """Good calls only, of exactly this length."""
    data = encode_services([plain_settings(link=9216)])
    whole = encode_call("report", (0, bytes(65535)))
    while len(data) + 2 * len(whole) < length:
        data += whole
    half = (length - len(data)) // 2
    return data + encode_call("report", (0, bytes(half - 7))) + encode_call("report", (0, bytes(length - len(data) - half - 7)))


def bad(seed):
    """Cut off, of an unknown kind, of another number of services than 1 or 2, with a service or a flag above 1 or a preference above 2, or too
    long; sometimes with settings that would be refused."""
    chooser = random.Random(seed)
    good, way = generate(seed, 15), chooser.randrange(14)
    settings = encode_services([plain_settings()])
    if way == 0:
        return longest(REPLAY_LIMIT + chooser.choice((1, 2, 5000)))
    if way < 3:
        return good + bytes([chooser.choice((0, 11, 12, 255))]) + bytes(chooser.randrange(9))
    if way == 3:
        return settings[:-1] + bytes([chooser.choice((2, 255))]) + chooser.choice((b"", GLOBAL)) + encode_call("size", (0, bytes(4)))
    if way == 4:
        return encode_services([Settings([], [], [])]) + b"\x0b"
    if way < 7:
        routes = [operator_route(preference=chooser.randrange(3)) for _ in range(chooser.choice((0, 1, 7, 8, 9, 300)))]
        routes.insert(chooser.randrange(len(routes) + 1), operator_route(preference=chooser.choice((3, 4, 255))))
        return good + encode_call("advertise", (0, 0, 600, Advertisement(routes=routes), b"")) + encode_call("size", (0, bytes(4)))
    if way < 9:
        return bytes([chooser.choice((0, 3, 255))]) + good[1:]
    if way < 11:
        return good + bytes([chooser.choice((1, 2, 4, 5, 6, 7, 8, 9, 10)), chooser.choice((2, 3, 255))]) + bytes(60)
    data = good
    while replay(data) != ["bad input"]:                      # a cut between two calls is not bad
        data = good[:chooser.randrange(len(good))]
    return data


# ---- Inputs of the program (R17)

def program_input(seed):
    """Lists of the settings, datagrams and pieces; one in eight is cut, has a byte too many or refused settings."""
    chooser = random.Random(seed)
    some = random_settings(chooser)
    calls = Calls(chooser, Settings(some.locators, some.prefixes, some.routers))
    for fault in chooser.sample(FAULTS["receive"], 20) + 20 * [None]:
        random_call(calls, "receive", fault)
    for scenario in (random_cuttings, random_cuttings, random_pieces):
        scenario(calls)
    data = encode_datagrams([(arguments[1], arguments[-1]) for name, arguments in calls.made if name == "receive"])
    way = chooser.randrange(24)
    if way == 0:
        calls.settings.locators.append((FORBIDDEN[1], 0))
    data = encode_lists(calls.settings) + data
    return data[:chooser.randrange(len(data))] if way == 1 else data + b"\0" if way == 2 else data
