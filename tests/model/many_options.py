"""Solicitations and advertisements of up to 40 options, and sources close to `::`."""
from .builders import option, prefix_option, route_option
from .calls import ISATAP_IDENTIFIERS
from .octets import LINK_LOCAL, UNSPECIFIED, isatap_address
from .scenarios import ask_when_due

COUNTS = (1, 2, 3, 4, 5, 12, 13, 24, 25, 40)
PLACES = (1, 2, 3, 4, 5, 12, 13, 25)
UNITS = (1, 2)                                                # options of 8 and of 16 bytes
SOURCE, TARGET = 1, 2                                         # types of link-layer addresses
BROKEN = [b"\2", b"\2\0" + bytes(6), b"\2\2" + bytes(6), b"\1\0"]
FOUR_ZEROS = bytes(4)


def others(count, units):
    """Options that do not count, with a lifetime that would show if they did."""
    return [option(TARGET, units, 2)] * count


def with_one_at(place, count, units):
    """So many options, of which the one in this place, from 1 on, is a source link-layer address."""
    return others(place - 1, units) + [option(SOURCE, units, 2)] + others(count - place, units)


def places(count):
    """The places up to the count, and the last."""
    return sorted({place for place in PLACES if place <= count} | {count})


def asked_with_many_options(calls):
    """A good asker gets its answer whatever the options are, and 24 where the last is not whole."""
    for count in COUNTS:
        for units in UNITS:
            calls.advertise((), {"options": others(count, units)})
            for place in (1, count):
                calls.advertise((), {"options": with_one_at(place, count, units)})
            for broken in BROKEN:
                calls.advertise([(24, {"options": others(count, units) + [broken]})])


def asked_from_unspecified(calls):
    """From `::` it is 24 wherever a source link-layer address stands, and 25 where none does."""
    for count in COUNTS:
        for units in UNITS:
            calls.advertise([(25, {"source6": UNSPECIFIED, "options": others(count, units)})])
            for place in places(count):
                calls.advertise([(24, {"source6": UNSPECIFIED, "options": with_one_at(place, count, units)})])


# One byte of `::` changed; ::0.0.1.0, ::0.0.0.128, ::10.0.0.2, ::5efe:10.0.0.2 and addresses that embed 0.0.0.0
NEARLY_UNSPECIFIED = (
    [bytes(place) + b"\1" + bytes(15 - place) for place in range(16)]
    + [bytes(14) + b"\1\0", bytes(15) + b"\x80", bytes(12) + b"\x0a\0\0\2", bytes(8) + b"\0\0\x5e\xfe\x0a\0\0\2", bytes(8) + b"\0\0\x5e\xfe" + FOUR_ZEROS,
       LINK_LOCAL + bytes(8), isatap_address(bytes.fromhex("20010db800000001"), "00005efe", FOUR_ZEROS)])


def asked_from_nearly_unspecified(calls):
    """`::` is all 16 bytes: from another source a source link-layer address is no fault."""
    for options in ([option(SOURCE, 1, 2)], [option(SOURCE, 2, 2)], with_one_at(13, 13, 1)):
        for source6 in NEARLY_UNSPECIFIED:
            calls.advertise([(25, {"source6": source6, "options": options})])
        for identifier in ISATAP_IDENTIFIERS:
            calls.advertise((), {"source6": isatap_address(LINK_LOCAL, identifier, FOUR_ZEROS), "options": options})


def advertised_with_many_options(calls):
    """A lifetime in the last option alone counts, and so does a smaller one behind larger ones; 20 where the last is not whole."""
    router = calls.fresh()
    calls.call("routers", calls.time(), [router], want="accepted 1")
    for count in COUNTS:
        for units in UNITS:
            for before, last in ((others(count - 1, units), route_option(units, 20000)), (others(count - 1, units), prefix_option(4, 20000)),
                                 ([route_option(units, 30000)] * (count - 1), route_option(units, 20000))):
                calls.advertisement(router=router, lifetime=0, options=before + [last])
                ask_when_due(calls, router, calls.service.latest + 10000)
            for broken in BROKEN:
                calls.advertisement([(20, {"options": others(count, units) + [broken]})], router=router)
