"""The named set: inputs that each show what their name says."""
import random
from pathlib import Path

from . import double_faults
from . import extension_headers as extensions
from . import scenarios_pieces as pieces
from . import scenarios_recordings as recorded
from . import scenarios_services as services
from .builders import datagram, operator_prefix, operator_route, packet, piece
from .calls import Calls
from .faults import FAULTS, GLOBAL, MULTICAST, VARIATIONS
from .formats import REPLAY_LIMIT, encode_call, encode_datagrams, encode_lists, encode_services, program, replay, text
from .generator import bad, generate, longest, program_input, with_faults
from .many_options import advertised_with_many_options, asked_from_nearly_unspecified, asked_from_unspecified, asked_with_many_options
from .octets import LINK_LOCAL, LOOPBACK, UNSPECIFIED, isatap_address, link_local, u16
from .recordings import recordings
from .rules import Advertisement, Settings, solicitation
from .scenarios import advertise_many, advertise_rooms, advertise_trailing, advertised_to_another, advertising_changes_nothing
from .scenarios import heard_from_another
from .scenarios import PREFIXES, advertised_due_time, advertised_earlier, ageing, ask, asking, dropped_router
from .scenarios import advertised_alone, each_locator, each_prefix, each_router, earlier_times, identifications, long_ages
from .scenarios import longest_lifetime, longest_packets, near_neighbours, neighbours, neighbours_moved, path_sizes, plain_settings
from .scenarios import plateaus, refused_sizes, router_lists, second_carries, times_going_back, times_near_the_end
from .scenarios import times_raised_by_refused_calls, waits, zero_checksums


def numbered(first, count):
    return [bytes((203, 0, 113, place)) for place in range(first, first + count)]


REFUSED_SETTINGS = {
    "no_locator": {"locators": []}, "nine_locators": {"locators": [(address, 0) for address in numbered(1, 9)]},
    "pair_twice": {"locators": [(bytes((10, 0, 0, 1)), 4), (bytes((10, 0, 0, 2)), 4), (bytes((10, 0, 0, 1)), 4)]},
    "forbidden_locator": {"locators": [(bytes((10, 0, 0, 1)), 0), (bytes((224, 0, 0, 1)), 0)]},
    "nine_prefixes": {"prefixes": [PREFIXES[0]] * 9}, "seventeen_routers": {"routers": numbered(1, 17)},
    "router_twice": {"routers": numbered(1, 3) + numbered(2, 1)},
    "forbidden_router": {"routers": numbered(1, 1) + [bytes((127, 9, 9, 9))]},
    "router_is_locator": {"routers": [bytes((192, 0, 2, 7))]}, "link_575": {"link": 575}, "link_9217": {"link": 9217}, "ttl_0": {"ttl": 0},
    "interval_0": {"interval": 0}, "interval_3601": {"interval": 3601}, "reporting_multicast": {"reporting": MULTICAST},
    "reporting_unspecified": {"reporting": UNSPECIFIED}}
ALLOWED_SETTINGS = {
    "least": {"locators": [(bytes((10, 0, 0, 1)), 255)], "prefixes": [], "routers": [],
              "link": 576, "ttl": 1, "interval": 1, "identification": 0},
    "most": {"locators": [(address, 0) for address in numbered(1, 8)], "prefixes": [PREFIXES[0]] * 8, "routers": numbered(20, 16),
             "link": 9216, "ttl": 255, "interval": 3600, "identification": 65535, "reporting": LOOPBACK},
    "one_address_on_two_interfaces": {"locators": [(bytes((10, 0, 0, 1)), 0), (bytes((10, 0, 0, 1)), 1)]}}


def each_fault(calls, name, keep=lambda fault: True):
    for fault in FAULTS[name]:
        if keep(fault):
            with_faults(calls, name, fault)


def each_variation(calls, name):
    for variation in VARIATIONS[name]:
        getattr(calls, name)((), variation)


def each_pair(calls, name, rounds=1):
    """For each two numbers calls that have both faults: the first in the call's order is given."""
    by_number = {}
    for number, changes in FAULTS[name]:
        by_number.setdefault(number, []).append((number, changes))
    pairs = [(first, second) for first in by_number for second in by_number if first < second]
    for first, second in rounds * pairs:
        with_faults(calls, name, calls.random.choice(by_number[first]), calls.random.choice(by_number[second]))


def no_router(calls):
    ask(calls, want="refuse 22")
    ask(calls, room=0, want="refuse 22")
    calls.advertisement([(21, {})], router=calls.fresh())
    calls.receive([(10, {"source6": GLOBAL})])


def rooms(calls):
    """One byte short and just fitting, for a wrapped packet, a message and no message."""
    large, unanswered = (14, {"more": 1}), (14, {"more": 1, "message": False, "source6": UNSPECIFIED})
    for short in (1, 1280):
        calls.send([(15, {"short": short})])
        calls.send([(15, {"short": short}), large])
        calls.send([(15, {"short": short}), unanswered])
    calls.send()
    calls.send([large])


def sends(calls, count=12):
    for _ in range(count):
        calls.send()
        calls.send([(15, {"short": 1})])


NAMED = {
    "receive_refusals": lambda calls: each_fault(calls, "receive"),
    "receive_two_faults": lambda calls: each_pair(calls, "receive", 5),
    "receive_delivered": lambda calls: each_variation(calls, "receive"),
    "part_refusals": lambda calls: each_fault(calls, "part"),
    "part_delivered": lambda calls: each_variation(calls, "part"),
    "send_refusals": lambda calls: each_fault(calls, "send", lambda fault: fault[0] != 14),
    "send_too_big_with_message": lambda calls: each_fault(
        calls, "send", lambda fault: fault[0] == 14 and "message" not in fault[1]),
    "send_too_big_without_message": lambda calls: each_fault(calls, "send", lambda fault: "message" in fault[1]),
    "send_two_faults": lambda calls: each_pair(calls, "send", 2),
    "send_rooms": rooms,
    "send_path_sizes": lambda calls: path_sizes(calls, (68, 600, 1299, 1300, 1301, 1302, 1499, 1500)),
    "send_extension_headers": extensions.each_rule,
    "send_behind_extension_headers": extensions.errors,
    "send_extension_header_lengths": extensions.lengths,
    "send_extension_headers_end_the_packet": extensions.ends,
    "send_fragment_headers": extensions.fragments,
    "send_upper_layers": extensions.upper_layers,
    "send_many_extension_headers": extensions.many,
    "send_extension_headers_rooms": extensions.rooms,
    "send_extension_headers_sources": extensions.sources,
    "zero_checksums": zero_checksums,
    "report_refusals": lambda calls: each_fault(calls, "report"),
    "report_two_faults": lambda calls: each_pair(calls, "report", 20),
    "report_accepted": lambda calls: each_variation(calls, "report"),
    "report_plateaus": plateaus,
    "ageing": lambda calls: [ageing(calls) for _ in range(6)],
    "times_raised_by_refused_calls": times_raised_by_refused_calls,
    "times_going_back": lambda calls: [times_going_back(calls) for _ in range(3)],
    "times_near_the_end": times_near_the_end,
    "neighbours_63": lambda calls: neighbours(calls, 63, False),
    "neighbours_64": lambda calls: neighbours(calls, 64, False),
    "neighbours_65": lambda calls: neighbours(calls, 65, False),
    "neighbours_63_reported_again": lambda calls: neighbours(calls, 63, True),
    "neighbours_64_reported_again": lambda calls: neighbours(calls, 64, True),
    "neighbours_moved": neighbours_moved,
    "router_lists": lambda calls: [router_lists(calls), dropped_router(calls)],
    "asking": lambda calls: [asking(calls), asking(calls)],
    "advertisement_refusals": lambda calls: each_fault(calls, "advertisement"),
    "advertisement_two_faults": lambda calls: each_pair(calls, "advertisement", 20),
    "advertisement_lifetimes": lambda calls: advertised_due_time(calls, waits(calls.settings.interval)),
    "advertisement_earlier": advertised_earlier,
    "advertisement_accepted": lambda calls: each_variation(calls, "advertisement"),
    "second_carries": second_carries,
    "long_ages": long_ages,
    "refused_sizes": refused_sizes,
    "near_neighbours": near_neighbours,
    "longest_lifetime": longest_lifetime,
    "longest_packets": longest_packets,
    "earlier_times": earlier_times,
    "identifications": identifications,
    "advertised_alone": advertised_alone,
    "advertise_refusals": lambda calls: each_fault(calls, "advertise"),
    "advertise_two_faults": lambda calls: each_pair(calls, "advertise", 4),
    "advertise_written": lambda calls: each_variation(calls, "advertise"),
    "advertise_trailing": advertise_trailing,
    "advertise_rooms": advertise_rooms,
    "advertise_many": advertise_many,
    "advertise_to_another": advertised_to_another,
    "advertise_changes_nothing": advertising_changes_nothing,
    "heard_from_another": heard_from_another,
    "advertise_many_options": asked_with_many_options,
    "advertise_many_options_from_unspecified": asked_from_unspecified,
    "advertise_from_nearly_unspecified": asked_from_nearly_unspecified,
    "advertisement_many_options": advertised_with_many_options,
    "pieces_two": pieces.two_pieces,
    "pieces_many": pieces.many_pieces,
    "pieces_of_the_longest_payloads": pieces.longest_payloads,
    "pieces_longer_than_the_packet": pieces.longer_than_the_packet,
    "pieces_by_rfc_791": pieces.by_rfc_791,
    "pieces_interleaved": pieces.interleaved,
    "pieces_free_fields": pieces.free_fields,
    "pieces_unfit": pieces.unfit,
    "pieces_unfit_first": pieces.unfit_first,
    "pieces_overlapping": pieces.overlaps,
    "pieces_dropped_place": pieces.dropped_place,
    "pieces_repeated": pieces.repeats,
    "pieces_repeated_unequal": pieces.unequal_repeats,
    "pieces_repeated_with_a_gap": pieces.repeats_with_a_gap,
    "pieces_two_ends": pieces.two_ends,
    "pieces_one_end": pieces.one_end,
    "pieces_eight_places": pieces.eight_places,
    "pieces_of_known_keys_when_full": pieces.known_key_when_full,
    "pieces_keys": pieces.keys,
    "pieces_destinations": pieces.destinations,
    "pieces_30_seconds": pieces.thirty_seconds,
    "pieces_not_renewed": pieces.not_renewed,
    "pieces_at_earlier_times": pieces.earlier_arguments,
    "pieces_late_by_others": pieces.late_by_others,
    "pieces_expired_places": pieces.expired_places,
    "pieces_expired_key": pieces.expired_key,
    "pieces_long_ages": pieces.long_ages,
    "pieces_near_the_end": pieces.pieces_near_the_end,
    "pieces_joined_and_refused": pieces.joined_and_refused,
    "pieces_joined_sources": pieces.joined_sources,
    "pieces_routers_between": pieces.routers_between,
    "pieces_memory_written": pieces.memory_written,
    "pieces_memory_of_refused": pieces.memory_of_refused,
    "pieces_last_place": pieces.last_place,
    "pieces_left_in_memory": pieces.left_in_memory,
    "pieces_short_memory": pieces.short_memory,
    "pieces_numbers_before": pieces.numbers_before,
    "pieces_parts": pieces.parts_of_pieces,
    "pieces_wholes_between": pieces.wholes_between,
    "pieces_others_between": pieces.others_between,
    "pieces_cut_by_chance": lambda calls: [pieces.random_cuttings(calls) for _ in range(12)],
    "pieces_by_chance": lambda calls: [pieces.random_pieces(calls) for _ in range(12)],
    "no_calls": lambda calls: None,
}
EIGHT = [(bytes((198, 18, place, 9)), interface) for place, interface in enumerate((0, 7, 255, 7, 3, 0, 128, 31))]
NEAR = [(bytes(parts), 0) for parts in ((10, 0, 0, 1), (11, 0, 0, 1), (10, 1, 0, 1), (10, 0, 128, 1), (10, 0, 0, 3))]
TWICE = [(bytes((10, 0, 0, 1)), 0), (bytes((10, 0, 0, 1)), 1), (bytes((10, 0, 0, 2)), 0), (bytes((10, 0, 0, 1)), 255)]
NAMED_SETTINGS = {"double_faults": (double_faults.SETTINGS, double_faults.make),
                  "eight_locators": ({"locators": EIGHT}, each_locator), "sixteen_routers": ({"routers": numbered(1, 16)}, each_router),
                  "reporting_address": ({"reporting": GLOBAL}, lambda calls: calls.send([(14, {"more": 1})])),
                  "other_interval": ({"interval": 77}, lambda calls: [asking(calls), advertised_alone(calls)]),
                  "eight_prefixes": ({"prefixes": PREFIXES}, each_prefix), "fe80_among_prefixes": ({"prefixes": [LINK_LOCAL]}, each_prefix),
                  "prefix_twice": ({"prefixes": [PREFIXES[1], PREFIXES[0], PREFIXES[1]]}, each_prefix),
                  "pieces_destinations_eight": ({"locators": EIGHT}, pieces.destinations),
                  "pieces_near_destinations": ({"locators": NEAR}, pieces.destinations),
                  "pieces_on_two_interfaces": ({"locators": TWICE}, pieces.two_interfaces),
                  "no_router": ({"routers": []}, no_router), "identification_wrap": ({"identification": 65530}, sends),
                  "send_path_sizes_large_link": ({"link": 9216}, lambda calls: path_sizes(calls, (8166, 1500, 9216))),
                  "send_thousands_of_extension_headers": ({"link": 9216}, extensions.longest),
                  "report_plateaus_large_link": ({"link": 9216}, plateaus),
                  "advertisement_lifetimes_long_interval": ({"interval": 3600}, lambda calls: advertised_due_time(calls, waits(3600)))}


def on_both(scenario):
    """The same on each service in turn, and once more on the first."""
    return lambda calls: [scenario(one) for one in (calls, calls.other, calls)]


# What is shown on a node of two services
NAMED_SERVICES = {
    "services_sizes": lambda calls: services.kept_between(calls, 5000),
    "services_sizes_at_the_smaller_link": services.kept_at_the_smaller_link,
    "services_lowered_by_the_other": services.lowered_by_the_other,
    "services_bound_reached_by_the_other": services.bound_reached,
    "services_neighbours": services.shared_neighbours,
    "services_own_addresses": services.own_addresses,
    "services_own_prefixes": services.own_prefixes,
    "services_identifications": services.own_identifications,
    "services_routers": services.own_routers,
    "services_crossed_routers": services.crossed_routers,
    "services_nine_keys": services.nine_keys,
    "services_near_keys": services.near_keys,
    "services_handed_to_the_other": services.handed_to_the_other,
    "services_memories": services.own_memories,
    "services_times": services.shared_time,
    "services_by_chance": lambda calls: [services.lowered_in_turns(calls) for _ in range(4)],
    "services_each_locator": on_both(each_locator),
    "services_each_prefix": on_both(each_prefix),
    "services_each_router": services.in_each(each_router),
    "services_router_lists": on_both(router_lists),
    "services_asking": on_both(asking),
    "services_pieces": on_both(pieces.eight_places),
    "services_pieces_on_two_interfaces": on_both(pieces.two_interfaces),
    "services_earlier_times": on_both(times_going_back),
}
# And on a node that has one
NAMED_ABSENT = {"absent_service_first": services.absent_first, "absent_service_times": services.absent_times,
                "absent_service_changes_nothing": services.absent_changes_nothing}
SHARED = bytes((10, 0, 0, 1))
MANY = [(address, 0) for address in numbered(101, 7)]
# Of the first service and of the second
REFUSED_PAIRS = {
    "locator_in_both": ({}, {"locators": [(SHARED, 0)], "routers": []}),
    "address_in_both_on_other_interfaces": ({}, {"locators": [(bytes((10, 0, 0, 3)), 0), (SHARED, 5)], "routers": []}),
    "last_of_eight_in_both": ({"locators": [*MANY, (SHARED, 0)]}, {"locators": EIGHT[:7] + [(SHARED, 255)], "routers": []}),
    "first_of_eight_in_both": ({"locators": [(SHARED, 0), *MANY]}, {"locators": [(SHARED, 255), *EIGHT[:7]], "routers": []}),
    "first_and_last_in_both": ({"locators": [(SHARED, 0), *MANY]}, {"locators": [*EIGHT[:7], (SHARED, 1)], "routers": []}),
    "router_is_locator_of_first": ({"routers": [bytes((192, 0, 2, 7))]}, {}), "router_is_locator_of_second": ({}, {"routers": [bytes((203, 0, 113, 7))]}),
    "both": ({"ttl": 0}, {"ttl": 0})}
ALLOWED_PAIRS = {
    "all_but_the_locators_in_both": ({}, {"prefixes": PREFIXES[:2], "routers": plain_settings().routers, "link": 1500, "ttl": 64, "interval": 120,
                                          "identification": 1, "locators": [(bytes((10, 0, 0, 3)), 0), (bytes((192, 0, 2, 6)), 3)]}),
    "locators_are_routers_of_each_other": ({"routers": [bytes((203, 0, 113, 7)), bytes((10, 0, 0, 3))]}, {"routers": [SHARED, bytes((192, 0, 2, 7))]}),
    "least_and_most": (ALLOWED_SETTINGS["least"], ALLOWED_SETTINGS["most"]), "most_and_least": (ALLOWED_SETTINGS["most"], ALLOWED_SETTINGS["least"])}


def service_inputs():
    """Name and bytes of those that show services."""
    for name, scenario in NAMED_SERVICES.items():
        yield name, scenario_bytes(name, {}, scenario, {})
    for name, scenario in NAMED_ABSENT.items():
        yield name, scenario_bytes(name, {}, scenario)
    for name, changes in REFUSED_SETTINGS.items():
        if name != "router_is_locator":
            yield f"settings_refused_{name}_of_first", pair(changes, {}) + encode_call("size", (1, bytes(4)))
            yield f"settings_refused_{name}_of_second", pair({"locators": MANY}, changes) + encode_call("size", (1, bytes(4)))
    for name, (first, second) in REFUSED_PAIRS.items():
        yield f"settings_refused_{name}", pair(first, second) + encode_call("size", (0, bytes(4)))
    for name, (first, second) in ALLOWED_PAIRS.items():
        yield f"settings_{name}", scenario_bytes(name, first, on_both(sends), second)


def pair(first, second):
    return encode_services([plain_settings(**first), services.second_settings(**second)])


def bad_service_inputs():
    """Another number of services than 1 or 2, a service above 1 in whatever call, and inputs that are cut off about them."""
    one, two, size = encode_services([plain_settings()]), pair({}, {}), encode_call("size", (1, bytes(4)))
    for number in (0, 3, 255):
        yield f"services_{number}_with_one", bytes([number]) + one[1:] + size
        yield f"services_{number}_with_two", bytes([number]) + two[1:] + size
    yield "services_3_with_three", b"\3" + two[1:] + one[1:] + size
    for number in (2, 3, 255):
        for kind in (1, 2, 4, 5, 6, 7, 8, 9, 10):
            yield f"service_{number}_in_kind_{kind}", two + size + bytes([kind, number]) + bytes(60) + size
    yield "service_2_behind_refused_settings", pair({"ttl": 0}, {}) + b"\x09\2"
    yield "service_2_of_one", one + b"\x09\2"
    yield "number_of_services_alone", two[:1]
    for name, length in (("second_settings_missing", len(one)), ("second_settings_cut_in_locators", len(one) + 4), ("second_settings_cut", len(two) - 1)):
        yield name, two[:length]
    yield "second_flag", two[:-1] + b"\2"
    for kind in (1, 2, 4, 5, 6, 7, 8, 9, 10):
        yield f"cut_before_service_of_kind_{kind}", two + size + bytes([kind])
    yield "report_with_a_service", two + b"\3\0" + encode_call("report", (0, bytes(28)))[1:]


def named_inputs():
    """Name and bytes of each."""
    for name, scenario in NAMED.items():
        yield name, scenario_bytes(name, {}, scenario)
    for name, (changes, scenario) in NAMED_SETTINGS.items():
        yield name, scenario_bytes(name, changes, scenario)
    for name, changes in REFUSED_SETTINGS.items():
        yield "settings_refused_" + name, encode_services([plain_settings(**changes)]) + encode_call("size", (0, bytes(4)))
    for name, changes in ALLOWED_SETTINGS.items():
        yield "settings_" + name, scenario_bytes(name, changes, sends)
    yield from service_inputs()
    yield from {f"bad_input_{name}": data for name, data in bad_service_inputs()}.items()
    good = scenario_bytes("good", {}, no_calls_but_some)
    yield from {f"advertise_{name}": good + data for name, data in longest_lists()}.items()
    yield from {f"bad_input_advertise_{name}": good + data for name, data in bad_advertisings()}.items()
    yield from {"bad_input_empty": b"", "bad_input_cut_settings": good[:11], "bad_input_cut": good[:-1],
                "bad_input_kind_0": good + b"\0", "bad_input_kind_11": good + b"\x0b" + bytes(70), "bad_input_flag": encode_services([plain_settings()])[:-1] + b"\2",
                "bad_input_flag_before_address": encode_services([plain_settings()])[:-1] + b"\2" + GLOBAL,
                "bad_input_refused_settings": encode_services([plain_settings(ttl=0)]) + b"\x0b",
                "bad_input_refused_settings_preference_3":
                    encode_services([plain_settings(ttl=0)]) + advertising(Advertisement(routes=[operator_route(preference=3)])),
                "bad_input_reporting_cut": encode_services([plain_settings(reporting=GLOBAL)])[:-1]}.items()


def advertising(operator, packet=b"", behind=encode_call("size", (0, bytes(4)))):
    return encode_call("advertise", (0, 0, 600, operator, packet)) + behind


def longest_lists():
    """Nearly as many prefixes or routes as an input can have, and a call behind them."""
    asked = solicitation(bytes((10, 9, 8, 7)), bytes((10, 0, 0, 1)))
    yield "40000_prefixes", advertising(Advertisement(prefixes=[operator_prefix()] * 40000), asked)
    yield "47000_routes", advertising(Advertisement(routes=[operator_route(preference=2)] * 47000), asked)
    yield "20000_and_20000", advertising(Advertisement(0xc0, 9, [operator_prefix()] * 20000, [operator_route(0, 1)] * 20000), asked)


def bad_advertisings():
    """A preference above 2 wherever it stands, whatever the call would be given; cuts in each part."""
    for count, place in ((1, 0), (8, 7), (9, 8), (256, 255), (300, 256), (47000, 46999)):
        routes = [operator_route()] * place + [operator_route(preference=3)] + [operator_route()] * (count - place - 1)
        yield f"preference_3_in_{place}", advertising(Advertisement(routes=routes))
    yield "preference_255", advertising(Advertisement(prefixes=[operator_prefix()] * 9, routes=[operator_route(preference=255)]))
    whole = advertising(Advertisement(0, 0, [operator_prefix()] * 2, [operator_route()] * 2), bytes(48), b"")
    for length in (1, 2, 3, 5, 6, 8, 9, 10, 61, 62, 63, 64, 85, 106, 107, 108, 109, len(whole) - 1):
        yield f"cut_{length}", whole[:length]
    yield "cut_in_65535_routes", advertising(Advertisement(), b"", b"")[:10] + u16(65535) + bytes(200)
    yield "cut_in_65535_prefixes", advertising(Advertisement(), b"", b"")[:8] + u16(65535) + bytes(200)


def no_calls_but_some(calls):
    calls.receive()
    calls.report()


def scenario_bytes(name, changes, scenario, second=None):
    """The name is the seed, so that one more input changes no other. With changes for a second service the node has two."""
    calls = Calls(random.Random(name), plain_settings(**changes), None if second is None else services.second_settings(**second))
    scenario(calls)
    return bytes(calls.data)


def program_inputs():
    """Inputs of the program (R17) that each show what their name says."""
    own, peer, other, router = (bytes((10, 0, 0, last)) for last in (1, 2, 3, 9))
    example = [(0, datagram(packet(link_local(source), link_local(own)), peer, own)) for source in (peer, other)]
    start = encode_lists(Settings([(own, 0)], [], []))
    yield "example", start + encode_datagrams(example)
    yield "no_datagram", start + encode_datagrams([])
    yield "other_interface", start + encode_datagrams([(1, example[0][1])])
    yield "options", start + encode_datagrams([(0, datagram(packet(link_local(peer), link_local(own)), peer, own, bytes(8)))])
    on_link = datagram(packet(isatap_address(PREFIXES[0], "02005efe", peer), GLOBAL), peer, own)
    by_router = datagram(packet(GLOBAL, GLOBAL), router, own)
    yield "prefix_and_router", encode_lists(Settings([(own, 0)], PREFIXES[:1], [router])) + encode_datagrams([(0, on_link), (0, by_router)])
    yield "empty", b""
    yield "trailing_byte", start + encode_datagrams(example) + b"\0"
    yield "cut", (start + encode_datagrams(example))[:-1]
    yield "fewer_datagrams", start + u16(3) + encode_datagrams(example)[2:]
    yield "refused_settings", encode_lists(Settings([(own, 0)], [], [own])) + encode_datagrams(example)
    for name, length in (("of_65536_bytes", 2), ("of_65537_bytes", 3)):
        yield name, start + encode_datagrams([(0, bytes(65515)), (0, bytes(length))])
    inner = packet(link_local(peer), link_local(own), bytes(range(50)))
    first, last = ([(0, piece(part, at, more, peer, own, identification=u16(key))) for key in range(10)]
                   for part, at, more in ((inner[:32], 0, True), (inner[32:], 32, False)))
    yield "pieces", start + encode_datagrams([first[0], last[0], last[0], last[0], first[0], first[1], (1, last[1][1]), (0, b""), last[1]])
    yield "pieces_of_ten_keys", start + encode_datagrams(first + first + last[2:9] + first[8:] + last)
    yield "pieces_far_apart", start + encode_datagrams(first[:1] + 70 * example[:1] + last[:1])


BATCHES = range(1, 17)                                        # seeds


def gate_inputs(batches=True):
    """Name, program and bytes of all that tests/compare runs: the named set and the fixed batches."""
    for name, data in named_inputs():
        yield name, "replay", data
    yield "longest", "replay", longest()
    yield "bad_input_too_long", "replay", longest(REPLAY_LIMIT + 1)
    for name, data in program_inputs():
        yield "program_" + name, "program", data
    for name, data in recorded.named_inputs():
        yield "recordings_" + name, "recordings", data
    for seed in BATCHES if batches else ():
        yield f"batch_{seed}", "replay", generate(seed, 250)
        yield f"bad_{seed}", "replay", bad(seed)
        yield f"program_batch_{seed}", "program", program_input(seed)
        for part in range(10 * seed, 10 * seed + 10):
            yield f"recordings_batch_{part}", "recordings", recorded.by_chance(part)


LINES = {"replay": replay, "program": program, "recordings": recordings}  # of each program


def expected(batches=True):
    """Name, program, bytes and the model's lines of each."""
    return [(name, kind, data, LINES[kind](data)) for name, kind, data in gate_inputs(batches)]


# ---- Stored data

STORED_LAST = ("long_ages", "times_near_the_end", "pieces_near_the_end")  # they leave no time for others
NOT_STORED = ("longest_packets", "longest_lifetime", "neighbours_64", "neighbours_65", "neighbours_64_reported_again",
              "identifications", "pieces_of_the_longest_payloads", "pieces_by_rfc_791", "pieces_two", "send_behind_extension_headers",
              "send_extension_header_lengths", "send_extension_headers_end_the_packet", "send_fragment_headers", "send_upper_layers",
              "send_many_extension_headers", "send_extension_headers_rooms", "services_each_locator", "services_each_prefix", "services_each_router",
              "services_by_chance", "services_asking")       # long, or shown by others


def stored():
    """One list of calls on one node with as much as a list can show; crates/replay/stdin. What one service shows is shown on the first."""
    names = [name for name in NAMED if name not in STORED_LAST + NOT_STORED]
    first = {"locators": EIGHT, "prefixes": PREFIXES, "routers": numbered(1, 16), "interval": 77, "ttl": 65, "identification": 65530,
             "reporting": GLOBAL}
    second = {"prefixes": [PREFIXES[1], bytes.fromhex("20010db8000000aa")], "routers": [EIGHT[7][0], *numbered(1, 3)], "interval": 120,
              "identification": 65534, "reporting": LOOPBACK}
    return scenario_bytes("stored", first, lambda calls: [scenario(calls) for scenario in (
        *map(services.in_each, (each_router, each_locator, each_prefix)), *[NAMED[name] for name in names],
        *[NAMED_SERVICES[name] for name in NAMED_SERVICES if name not in NOT_STORED], *[NAMED[name] for name in STORED_LAST])], second)


def write_inputs(directory):
    """NAME.replay, NAME.program or NAME.recordings, and its lines behind that name and `.lines`."""
    directory = Path(directory)
    directory.mkdir(parents=True, exist_ok=True)
    for name, kind, data, lines in expected():
        (directory / f"{name}.{kind}").write_bytes(data)
        (directory / f"{name}.{kind}.lines").write_bytes(text(lines))
