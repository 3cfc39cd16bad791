"""The faults of calls: for each number of R4 the changes that bring it about in a call that would else pass.

A call is built from named fields. A fault is a number with changes to fields; a variation changes fields and keeps the
call accepted.
"""
from .builders import operator_prefix, operator_route, option
from .octets import LINK_LOCAL, LOOPBACK, UNSPECIFIED, isatap_address, link_local

FORBIDDEN = [bytes(parts) for parts in ((0, 0, 0, 0), (127, 0, 0, 0), (127, 0, 0, 1), (127, 255, 255, 255), (224, 0, 0, 0),
                                        (239, 255, 255, 255), (232, 1, 2, 3), (255, 255, 255, 255))]
NEARLY_FORBIDDEN = [bytes(parts) for parts in ((0, 0, 0, 1), (126, 255, 255, 255), (128, 0, 0, 0), (223, 255, 255, 255),
                                               (240, 0, 0, 0), (255, 255, 255, 254))]
MULTICAST = bytes.fromhex("ff02") + bytes(13) + b"\1"
GLOBAL = bytes.fromhex("20010db8000000000000000000000007")
# Quoted total length and the plateau below it, by hand from the list of R9.7
PLATEAU_BELOW = {69: 68, 296: 68, 297: 296, 508: 296, 509: 508, 1006: 508, 1007: 1006, 1492: 1006, 1493: 1492, 1500: 1492,
                 2002: 1492, 2003: 2002, 4352: 2002, 4353: 4352, 8166: 4352, 8167: 8166, 17914: 8166}


# ---- Faults and variations; a callable value is given the list of calls and the fields

def off_link(calls, f):
    return isatap_address(bytes.fromhex("fe80000000000001"), "00005efe", f["address"])


def one_of(key, values):
    """One change for each value of a field."""
    return [{key: value} for value in values]


def faults(number, *changes):
    return [(number, change) for change in changes]


NOT_ISATAP = [{"source6": lambda calls, f, text=text: isatap_address(LINK_LOCAL, text, f["address"])}
              for text in ("01005efe", "03005efe", "04005efe", "00015efe", "00005efd", "00005ffe", "80005efe")]
UNLISTED = {"source6": lambda calls, f: link_local(calls.fresh())}

# Receiving

BAD_SOURCES = [MULTICAST, bytes([255]) + bytes(15), UNSPECIFIED, LOOPBACK] + [bytes(12) + address for address in FORBIDDEN]
WRONG_SOURCES = NOT_ISATAP + [
    UNLISTED, {"source6": off_link}, {"source6": GLOBAL}, {"source6": lambda calls, f: link_local(calls.listed_router())}, {"source6": lambda calls, f: bytes(12) + f["address"]},
    {"source6": lambda calls, f: link_local(f["address"][:3] + bytes([f["address"][3] ^ 1]))}]
TOTALS = [lambda header, whole: header - 1, lambda header, whole: 0,
          lambda header, whole: whole + 1, lambda header, whole: 65535]
PART_FAULTS = (
    faults(2, *one_of("cut", (0, 1, 19)), *one_of("version", (0, 3, 5, 6, 12)), *one_of("words", (0, 4)), *one_of("total_rule", TOTALS),
           {"words": 15, "cut": 59}, {"words": 6, "cut": 20})
    + faults(3, *one_of("spoil", (1, 0x100, 0x8000, None)))
    + faults(4, *one_of("protocol", (0, 4, 40, 42, 255)))
    + faults(5, *one_of("flags", (0x2000, 0x6000, 1, 0x100, 0x1000, 0x1fff, 0x2001)))
    + faults(6, {"interface": lambda calls, f: calls.other_interface(f["destination"])},
             {"destination": lambda calls, f: calls.fresh()})
    + faults(7, *one_of("source", FORBIDDEN))
    + faults(8, *one_of("version6", (4, 7)), {"inner_cut": 0, "tail": b""}, {"inner_cut": 39, "tail": b""},
             {"payload_error": 1, "tail": b""}, {"payload_error": 1, "tail": b"", "padding": bytes(9)})
    + faults(9, *one_of("source6", BAD_SOURCES))
    + faults(10, *[dict(change, source=lambda calls, f: f["address"]) for change in WRONG_SOURCES]))
RECEIVE_FAULTS = [fault for fault in PART_FAULTS if fault[0] != 5] + faults(15, *one_of("room", (0, 2048, 16376, 16383)))
BY_ROUTER = [GLOBAL, bytes(12) + b"\x0a\1\1\1", isatap_address(LINK_LOCAL, "01005efe", b"\x0a\1\1\1"), bytes(11) + b"\1" + bytes(4),
             b"\xfe" + bytes(15), link_local(FORBIDDEN[2]), bytes(10) + b"\xff\xff\x0a\1\1\1", bytes(10) + b"\xff\xff" + FORBIDDEN[2]]
RECEIVE_VARIATIONS = (
    one_of("words", (5, 6, 9, 15)) + one_of("padding", (b"\1", bytes(26))) + one_of("flags", (0x4000, 0x8000, 0xc000))
    + one_of("zero_check", (0, 0xffff)) + one_of("payload", (b"", bytes(216), bytes(300), bytes(1460), bytes(2009))) + [{"tail": b"\7"}, {"tail": bytes(9), "words": 7, "padding": b"\1"}]
    + [{"source6": lambda calls, f, text=text: isatap_address(calls.prefix(), text, f["source"])} for text in ("00005efe", "02005efe")]
    + [{"source": address, "source6": link_local(address)} for address in NEARLY_FORBIDDEN]
    + [{"source": lambda calls, f: calls.listed_router(), "source6": source} for source in BY_ROUTER]
    + [{"source": lambda calls, f: f["destination"], "source6": lambda calls, f: link_local(f["source"])},
       {"time": lambda calls, f: calls.time()}])

# Sending; `more` bytes above M, `short` bytes of room missing; extension `headers`, and behind them the upper layer `next_header` with the
# `first` byte. With `ends` nothing stands behind that, and so many bytes are cut off the end

MESSAGE = [{}, {"more": 7}, {"source6": LOOPBACK}, {"source6": bytes([0xfe]) + bytes(15)}, {"next_header": 17, "first": 1},
           {"destination6": MULTICAST}]
MESSAGE += [{"next_header": 58, "first": first} for first in (128, 133, 136, 138, 255)]
NO_MESSAGE = one_of("source6", (MULTICAST, bytes([255]) + bytes(15), UNSPECIFIED))
NO_MESSAGE += [{"next_header": 58, "first": first} for first in (0, 1, 2, 127, 137)]
BEHIND = {"headers": lambda calls, f: calls.headers()}
MESSAGE += [dict(BEHIND, next_header=58, first=first) for first in (128, 129, 136, 138, 255)]
MESSAGE += [dict(BEHIND, next_header=upper, first=first) for upper, first in ((1, 1), (6, 1), (17, 137), (50, 58), (51, 58), (59, 0))]
MESSAGE += [dict(BEHIND, next_header=upper, ends=0) for upper in (6, 17, 50, 51, 59)] + [dict(BEHIND, next_header=58, first=128, ends=0)]
NO_MESSAGE += [dict(BEHIND, next_header=58, first=first) for first in (0, 1, 2, 127, 137)]
NO_MESSAGE += [dict(BEHIND, next_header=number, ends=0) for number in (0, 43, 44, 60, 58)] + [dict(BEHIND, next_header=58, first=1, ends=0)]
NO_MESSAGE += [dict(BEHIND, next_header=upper, ends=cut) for upper, cut in ((17, 1), (58, 1), (59, 7), (6, 8))]
NO_MESSAGE += [{"headers": lambda calls, f, field=field: calls.headers() + [(44, 0, field)], "next_header": upper, "first": 128}
               for field, upper in ((8, 58), (8, 17), (0x100, 58), (0xfff8, 6), (0xffff, 58))]
SEND_FAULTS = (
    faults(8, *one_of("cut", (0, 39)), *one_of("version6", (4, 5)), {"tail": b"\0"}, {"payload_error": 1})
    + faults(11, {"index": lambda calls, f: len(calls.settings.locators)}, {"index": 255})
    + faults(12, *one_of("next_hop", (off_link, GLOBAL, UNSPECIFIED)),
             *[{"next_hop": lambda calls, f, text=text: isatap_address(calls.prefix(), text, f["address"])}
               for text in ("01005efe", "03005efe", "00005efd", "00015efe")])
    + faults(13, *one_of("next_hop", [link_local(address) for address in FORBIDDEN]),
             {"index": 0, "next_hop": lambda calls, f: link_local(calls.settings.locators[0][0])},
             {"index": 0, "next_hop": lambda calls, f: link_local(calls.settings.locators[-1][0])})
    + faults(14, *[dict({"more": 1}, **change) for change in MESSAGE],
             *[dict({"more": 1, "message": False}, **change) for change in NO_MESSAGE])
    + faults(15, *one_of("short", (1, 2, 1279))))

# Size reports

REPORT_FAULTS = (
    faults(16, *one_of("cut", (0, 1, 8, 27)), *one_of("spoil", (1, 0x200, None)), *one_of("words", (0, 4)), *one_of("version", (0, 3, 5, 6)),
           {"words": 6, "cut": 31}, {"words": 7, "cut": 35}, {"words": 9, "cut": 43}, {"words": 15, "cut": 28}, {"words": 15, "cut": 67},
           *[{"type": kind, "code": code} for kind, code in ((3, 3), (3, 5), (11, 4), (0, 0), (4, 3))])
    + faults(17, *one_of("protocol", (4, 40, 42)), {"source": lambda calls, f: calls.fresh()}, *one_of("neighbour", FORBIDDEN),
             {"neighbour": lambda calls, f: calls.random.choice(calls.settings.locators)[0]})
    + faults(18, *one_of("candidate", (1, 67)), *[{"candidate": 0, "total": total} for total in (0, 67, 68)])
    + faults(19, {"candidate": lambda calls, f: calls.service.size(f["neighbour"])},
             {"candidate": lambda calls, f: calls.service.size(f["neighbour"]) + 1}, {"candidate": 65535},
             {"candidate": 0, "total": 65535},
             {"candidate": 0, "total": 17914, "neighbour": lambda calls, f: calls.small()}))
REPORT_VARIATIONS = (
    one_of("tail", (b"", b"\1\2\3")) + one_of("zero_check", (0, 0xffff)) + [{"words": 6}, {"words": 15, "tail": b""}, {"unused": b"\1\2"}, {"candidate": 68}]
    + [{"source": lambda calls, f: calls.random.choice(calls.settings.locators)[0]},
       {"candidate": lambda calls, f: calls.service.size(f["neighbour"]) - 1}]
    + [{"candidate": 0, "total": total} for total in PLATEAU_BELOW])

# Advertisements

BROKEN_OPTIONS = [[b"\1\0" + bytes(6)], [b"\1\1" + bytes(6), b"\5\0"], [b"\1"], [b"\1\1" + bytes(6), b"\5"],
                  [b"\1\1" + bytes(5)], [b"\3\4" + bytes(29)], [b"\1\2" + bytes(6)], [b"\1\1" + bytes(7)], [b"\xff\xff" + bytes(64)]]
ADVERTISEMENT_FAULTS = (
    faults(8, *one_of("cut", (0, 39)), {"version6": 4}, {"payload_error": 1, "tail": b""})
    + faults(20, *one_of("next_header", (0, 17, 57, 59)), *one_of("hop_limit", (0, 254)), *one_of("spoil", (1, None)), *one_of("type", (133, 135)), {"code": 1},
             *one_of("message_cut", (0, 1, 4, 8, 15)), *one_of("options", BROKEN_OPTIONS),
             *one_of("source6", (off_link, GLOBAL)), {"source6": lambda calls, f: isatap_address(calls.prefix(False), "00005efe", f["address"])})
    + faults(21, UNLISTED, *NOT_ISATAP))

# Advertising; `short` bytes of room missing

LENGTHS = (0, 1, 7, 8, 9, 63, 64, 65, 71, 72, 73, 127, 128)
LIFETIMES = (0, 1, 0x80000000, 0xfffffffe, 0xffffffff)
SOURCE_LINK_LAYER = [[b"\1\1" + bytes(6)], [b"\1\2" + bytes(14)], [option(5, 2, 9), b"\1\1" + bytes(6)], [b"\1\4" + bytes(30), option(24, 1, 9)]]
NO_SOURCE_LINK_LAYER = [[], [b"\2\1" + bytes(6)], [option(5, 2, 1, b"\1")], [b"\0\1" + b"\1" * 6, b"\xff\1\1\1\1\1\1\1"]]
TOO_MANY = [{"prefixes": [operator_prefix()] * 9}, {"routes": [operator_route()] * 9}, {"prefixes": [operator_prefix()] * 9, "routes": [operator_route()] * 9},
            {"prefixes": [operator_prefix(0)] * 17, "routes": []}, {"prefixes": [], "routes": [operator_route(0)] * 16}]
TOO_LONG = [{"prefixes": [operator_prefix(129)]}, {"prefixes": [operator_prefix()] * 7 + [operator_prefix(255)]}, {"prefixes": [operator_prefix(192), operator_prefix()]},
            {"routes": [operator_route(129)]}, {"routes": [operator_route()] * 7 + [operator_route(255)]}, {"routes": [operator_route(130), operator_route()]}]
ADVERTISE_FAULTS = (
    faults(8, *one_of("cut", (0, 39)), *one_of("version6", (4, 7)), {"payload_error": 1, "tail": b""})
    + faults(11, {"index": lambda calls, f: len(calls.settings.locators)}, {"index": 255})
    + faults(24, *one_of("next_header", (0, 17, 57, 59)), *one_of("hop_limit", (0, 1, 64, 254)), *one_of("spoil", (1, 0x100, None)), *one_of("type", (132, 134, 135)),
             *one_of("code", (1, 255)), *one_of("message_cut", (0, 1, 4, 6, 7)), *one_of("options", BROKEN_OPTIONS),
             *[{"source6": UNSPECIFIED, "options": options} for options in SOURCE_LINK_LAYER])
    + faults(25, *[{"source6": UNSPECIFIED, "options": options} for options in NO_SOURCE_LINK_LAYER], *NOT_ISATAP,
             *one_of("source6", (off_link, GLOBAL, LOOPBACK, MULTICAST, LINK_LOCAL + bytes(7) + b"\1", bytes(12) + b"\x0a\1\1\1")),
             {"source6": lambda calls, f: isatap_address(calls.prefix(False), "00005efe", f["address"])})
    + faults(26, *TOO_MANY, *TOO_LONG)
    + faults(15, *one_of("short", (1, 2, 600))))
ADVERTISE_VARIATIONS = (
    one_of("zero_check", (0, 0xffff)) + one_of("flags", (0, 0x40, 0x80, 0xc0, 0x3f, 0x7f, 0xff)) + one_of("lifetime", (0, 1, 255, 256, 9001, 65535))
    + [{"prefixes": [], "routes": []}, {"prefixes": [operator_prefix()] * 8, "routes": [operator_route(128)] * 8}, {"options": [], "tail": b""}]
    + [{"prefixes": [operator_prefix()] * count, "routes": [operator_route()] * (8 - count)} for count in range(9)]
    + [{"prefixes": [operator_prefix(length)], "routes": [operator_route(length, length % 3)]} for length in LENGTHS]
    + [{"prefixes": [operator_prefix(flags=flags)]} for flags in (0, 0x40, 0x80, 0xc0, 0x3f, 0x7f, 0xff)]
    + [{"routes": [operator_route(length, preference) for length in (0, 64, 128)]} for preference in (0, 1, 2)]
    + [{"prefixes": [operator_prefix(valid=life, preferred=0x01020304)], "routes": []} for life in LIFETIMES]
    + [{"prefixes": [operator_prefix(valid=0x05060708, preferred=life)], "routes": []} for life in LIFETIMES]
    + [{"prefixes": [], "routes": [operator_route(lifetime=life)]} for life in LIFETIMES]
    + one_of("options", NO_SOURCE_LINK_LAYER + SOURCE_LINK_LAYER) + one_of("free", (bytes(4), b"\xff" * 4)) + one_of("tail", (b"\0", bytes(8), b"\1\0" * 20))
    + one_of("destination6", (UNSPECIFIED, MULTICAST, GLOBAL))
    + [{"source6": lambda calls, f, text=text: isatap_address(LINK_LOCAL, text, f["address"])} for text in ("00005efe", "02005efe")]
    + [{"source6": isatap_address(LINK_LOCAL, text, address)} for address in FORBIDDEN for text in ("00005efe", "02005efe")]
    + [{"source6": lambda calls, f: link_local(calls.settings.locators[0][0])}])
FAULTS = {"receive": RECEIVE_FAULTS, "part": PART_FAULTS, "send": SEND_FAULTS, "report": REPORT_FAULTS, "advertisement": ADVERTISEMENT_FAULTS,
          "advertise": ADVERTISE_FAULTS}
VARIATIONS = {"receive": RECEIVE_VARIATIONS, "part": RECEIVE_VARIATIONS, "report": REPORT_VARIATIONS, "advertisement": one_of("zero_check", (0, 0xffff)),
              "advertise": ADVERTISE_VARIATIONS}
