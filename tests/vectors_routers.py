"""Cases of the router list and of an advertisement's lifetimes, by R13 to R16, RFC 4861 and RFC 4191."""
import ipaddress
import struct

from vectors_cases import case, dice, some, v4, yes


# The router list, by R13: due times by address, the list in order.
ONE, TWO, THREE, FOUR = (v4(f"10.0.0.{i}") for i in (1, 2, 3, 4))
LAST = 0xffffffff


def dotted(address):
    return str(ipaddress.IPv4Address(address))


class Routers:
    """A list with the due time of each router. The 16 places behind the count are listed nowhere."""

    def __init__(self, name, listed, count=None):
        self.due = []
        self.set("list_new", name, listed, count, 0)

    def set(self, kind, name, listed, count, now):
        count = len(listed) if count is None else count
        section = struct.pack(f">H{len(listed)}I", len(listed), *listed)
        case(kind, name, None, section, n=count, x=now)
        old = dict(reversed(self.due))
        self.due = [(a, old.get(a, now)) for a in (list(listed) + [0] * 16)[:min(count, 16)]]

    def replaced(self, name, listed, now, count=None):
        self.set("list_replaced", name, listed, count, now)

    def rescheduled(self, name, address, due):
        case("list_rescheduled", name, None, n=due >> 32, x=address, y=due & LAST)
        self.due = [(a, due if a == address else d) for a, d in self.due]

    def next(self, name, now):
        due = [(d, i, a) for i, (a, d) in enumerate(self.due) if d <= now]
        router = min(due)[2] if due else None
        case("next", f"{name}, asks", some(router, 8), x=now)
        return router

    def asked(self, name, now, interval=120):
        router = self.next(name, now)
        if router is not None:
            self.rescheduled(f"{dotted(router)} is due again at {now + interval}", router, now + interval)

    def lists(self, name, address):
        case("lists", name, yes(address in [a for a, _ in self.due]), x=address)


def three():
    r = Routers("10.0.0.1, 10.0.0.2, 10.0.0.3", [ONE, TWO, THREE])
    for a, due in ((ONE, 50), (TWO, 40), (THREE, 40)):
        r.rescheduled(f"{dotted(a)} is due at {due}", a, due)
    return r


def next_due():
    r = three()
    r.next("two due at 40, the lower place first", 60)
    r.next("a due time equal to now", 40)
    r.next("all due times in the future", 39)
    r = Routers("10.0.0.1, 10.0.0.2, 10.0.0.3 at setup", [ONE, TWO, THREE])
    r.next("at setup", 0)
    r = Routers("the same with a count of 99", [ONE, TWO, THREE], 99)
    r.next("a count above 16 is read as 16", 0)
    r = Routers("no router of three", [ONE, TWO, THREE], 0)
    r.next("no router", 60)
    r = three()
    for words, now in (("first", 100), ("second", 100), ("third", 100), ("fourth", 100), ("fifth", 220)):
        r.asked(f"{words} asking at {now}", now)
    for words, due in (("at", LAST), ("past", LAST + 1)):
        r = Routers("10.0.0.1 alone", [ONE])
        r.rescheduled(f"10.0.0.1 is due at {due}", ONE, due)
        r.next(f"due {words} the last 32-bit second", LAST)
    r = Routers("10.0.0.1 alone again", [ONE])
    r.asked("asked at the last 32-bit second", LAST)
    r.asked("asked once more then", LAST)


def replaced():
    r = three()
    r.replaced("replaced at 45 by 10.0.0.4, 10.0.0.3", [FOUR, THREE], 45)
    r.next("a router in both lists keeps its due time", 45)
    r = three()
    r.replaced("replaced at 45 by 10.0.0.4, 10.0.0.1", [FOUR, ONE], 45)
    r.next("a new router is due now", 45)
    r.next("a new router is not due before", 44)
    r = three()
    r.replaced("replaced at 45 by none of two", [ONE, TWO], 45, 0)
    r.next("replaced by an empty list", 60)
    r = three()
    r.replaced("replaced at 45 by none of three", [ONE, TWO, THREE], 45, 0)
    r.replaced("and back at 55", [ONE, TWO, THREE], 55)
    r.next("replaced by an empty list and back at 55, all are new", 54)
    r.next("replaced by an empty list and back at 55, the first is due", 55)


def listed():
    r = Routers("10.0.0.1, 10.0.0.2, 10.0.0.3 listed", [ONE, TWO, THREE])
    r.lists("10.0.0.3 is listed", THREE)
    r.lists("10.0.0.4 is listed", FOUR)
    r = Routers("the first two of them", [ONE, TWO, THREE], 2)
    r.lists("an address behind the count is listed", THREE)
    r = Routers("none of them", [ONE, TWO, THREE], 0)
    r.lists("10.0.0.1 is listed in an empty list", ONE)
    r = Routers("16 routers", [ONE + i for i in range(16)])
    r.lists("the 16th is listed", ONE + 15)
    r.lists("a 17th is listed", ONE + 16)

    def distinct(name, addresses, count):
        section = struct.pack(f">H{len(addresses)}I", len(addresses), *addresses)
        first = (addresses + [0] * 16)[:min(count, 16)]
        case("distinct", name, yes(len(set(first)) == len(first)), section, n=count)
    distinct("three routers are distinct", [ONE, TWO, THREE], 3)
    distinct("the first and the last the same are distinct", [ONE, TWO, ONE], 3)
    distinct("adjacent ones the same are distinct", [ONE, ONE, TWO], 3)
    distinct("the same behind the count are distinct", [ONE, TWO, ONE], 2)
    distinct("no routers are distinct", [ONE, ONE, ONE], 0)
    distinct("all 16, the last 13 the same, are distinct", [ONE, TWO, THREE], 99)
    distinct("16 routers are distinct", [ONE + i for i in range(16)], 16)
    distinct("16 routers, the first and the last the same, are distinct", [ONE + i for i in range(15)] + [ONE], 16)
    distinct("the same with a count of 15 are distinct", [ONE + i for i in range(15)] + [ONE], 15)


def many_routers():
    some_routers = [ONE + i for i in range(20)]
    now = 0
    r = Routers("a list of 12", dice.sample(some_routers, 12))
    for i in range(40):
        now += dice.choice([0, 0, 30, 100])
        turn = dice.randrange(8)
        if turn == 0:
            new = dice.sample(some_routers, dice.randrange(17))
            r.replaced(f"{i}: replaced by {len(new)} at {now}", new, now)
        elif turn == 1:
            a, due = dice.choice(some_routers), now + dice.choice([0, 50, 1 << 32])
            r.rescheduled(f"{i}: {dotted(a)} is due at {due}", a, due)
        elif turn == 2:
            a = dice.choice(some_routers)
            r.lists(f"{i}: {dotted(a)} is listed", a)
        else:
            r.asked(f"{i}: asking at {now}", now)


# Lifetimes: R16; RFC 4861, 4.6, and RFC 4191, 2.3.
def walked(options):
    """The options up to the exact end or to the first that breaks the rules, and whether the end was reached."""
    found = []
    while options:
        size = 8 * options[1] if len(options) > 1 else 0
        if size == 0 or size > len(options):
            return found, False
        found.append(options[:size])
        options = options[size:]
    return found, True


def least_lifetime(router, options):
    counted = [router]
    for o in walked(options)[0]:
        if (o[0], o[1]) == (3, 4) or (o[0] == 24 and 1 <= o[1] <= 3):
            counted.append(struct.unpack(">I", o[4:8])[0])
    return min((t for t in counted if t not in (0, LAST)), default=None)


def whole(name, options):
    case("options_whole", name, yes(walked(options)[1]), options)


def smallest(name, router, options):
    case("smallest", f"{name}, smallest", some(least_lifetime(router, options)), options, n=router)


def due(name, now, router, options=b"", interval=120):
    t = least_lifetime(router, options)
    at = now + (3600 if t is None else max(interval, t // 2))
    case("due_after", f"{name}, due at", at, options, n=router, m=interval, x=now)


def option(kind, units, lifetime, rest=b""):
    return (struct.pack(">BBHI", kind, units, 0x2e2e, lifetime) + rest).ljust(8 * units, b".")


def lifetimes():
    filler = b"\x01\x01......"
    whole("no option at all is whole", b"")
    whole("one option to the exact end is whole", filler)
    whole("two options to the exact end are whole", filler + option(24, 1, 9))
    whole("an option of length 0 is whole", b"\x01\x00......")
    whole("a later option of length 0 is whole", filler + b"\x01\x00......")
    whole("an option that runs past the end is whole", b"\x01\x02......")
    whole("one byte behind the last option is whole", filler + b"\x01")
    whole("one byte is whole", b"\x01")
    whole("the longest option, 2,040 bytes, is whole", b"\xff" * 2040)
    whole("250 bytes of it are whole", b"\xff" * 250)
    prefix = option(3, 4, 3600, struct.pack(">I", 7))
    smallest("prefix option for 3,600 s, router 0", 0, prefix)
    smallest("prefix option for 3,600 s, router 1,800", 1800, prefix)
    for units in (1, 2, 3, 5):
        smallest(f"prefix option of length {units}, router 30", 30, option(3, units, 9))
    smallest("prefix option of length 4 for 9 s, router 30", 30, option(3, 4, 9))
    for kind in (5, 2, 4, 23, 25):
        smallest(f"option of type {kind}, router 30", 30, option(kind, 1, 9))
        smallest(f"option of type {kind} and length 4, router 30", 30, option(kind, 4, 9))
    for units in (1, 2, 3, 4):
        smallest(f"route option of length {units} for 9 s, router 30", 30, option(24, units, 9))
    smallest("routes for 256 s and 200 s, router 1,800", 1800, option(24, 1, 256) + option(24, 1, 200))
    smallest("routes for 200 s and 256 s, router 1,800", 1800, option(24, 1, 200) + option(24, 1, 256))
    smallest("route for 0 s, router 30", 30, option(24, 1, 0))
    smallest("route for 0 s, router 0", 0, option(24, 1, 0))
    smallest("route for 0xffffffff s, router 0", 0, option(24, 1, LAST))
    smallest("route for 0xfffffffe s, router 0", 0, option(24, 1, LAST - 1))
    smallest("route for 1 s, router 0", 0, option(24, 1, 1))
    smallest("no option, router 65,535", 65535, b"")
    smallest("route behind an option of length 0, router 30", 30, b"\x01\x00......" + option(24, 1, 9))
    due("at 1,000 half of 1,801 s, rounded down", 1000, 1801)
    due("at 1,000 half of 241 s, as long as the interval", 1000, 241)
    due("at 1,000 half of 242 s, above the interval", 1000, 242)
    due("at 1,000 half of 3 s, below the interval", 1000, 3)
    due("at 1,000, no lifetime counts", 1000, 0)
    due("at 1,000, no lifetime counts, interval 3,601", 1000, 0, interval=3601)
    due("at the last 32-bit second half of 1,801 s", LAST, 1801)
    due("at the last 32-bit second half of 0xfffffffe s", LAST, 0, option(24, 1, LAST - 1))
    r = Routers("10.0.0.1 for an advertisement", [ONE])
    r.rescheduled("10.0.0.1 is due at 4000", ONE, 4000)
    r.next("due at 4,000, asking at 1,150", 1150)
    due("advertised at 1,000 for 300 s", 1000, 300)
    r.rescheduled("10.0.0.1 is due at 1150", ONE, 1150)
    r.next("advertised at 1,000 for 300 s, asking at 1,149", 1149)
    r.next("advertised at 1,000 for 300 s, asking at 1,150", 1150)
    for i in range(10):
        options = b"".join(option(dice.choice([1, 3, 24, 24]), dice.choice([1, 1, 2, 3, 4, 4, 5]),
                                  dice.choice([0, 5, 600, 100000, LAST, dice.randrange(1 << 32)])) for _ in range(dice.randrange(4)))
        options = options[:len(options) - dice.choice([0, 0, 0, 1, 8])] if options else options
        router = dice.choice([0, 1, 1800, 9000, 65535])
        whole(f"options {i} are whole", options)
        smallest(f"options {i}, router {router}", router, options)
        due(f"options {i}, router {router}", dice.randrange(1 << 32), router, options, dice.choice([1, 120, 3600]))
