#!/usr/bin/env python3
"""program_cases.py FOLDER: writes the inputs of the program test_tunnel to FOLDER/data, one file a case, and to FOLDER/stdout what
the program (R17) must print for each, by the model."""
import sys
from pathlib import Path

from model import builders
from model.formats import program
from model.octets import isatap_address, link_local, u16

OWN, PEER, OTHER, ROUTER = (bytes((10, 0, 0, last)) for last in (1, 2, 3, 9))
PREFIX = bytes.fromhex("20010db800000001")
OWN_LINK_LOCAL = link_local(OWN)


def section(*records):
    return u16(len(records)) + b"".join(records)


def locator(address, interface=0):
    return address + bytes([interface])


def settings(locators=(locator(OWN),), prefixes=(), routers=()):
    return section(*locators) + section(*prefixes) + section(*routers)


def inner(source=link_local(PEER), payload=b"", length=None, version=6):
    return builders.packet(source, OWN_LINK_LOCAL, payload, length, version)


def outer(packet, source=PEER, destination=OWN, fragment=0, **fields):
    return builders.datagram(packet, source, destination, flags=fragment, **fields)


def datagram(content, interface=0):
    return bytes([interface]) + u16(len(content)) + content


def piece(packet, start, end=None, more=None, source=PEER, destination=OWN, interface=0, **fields):
    """These bytes of the packet; others follow, if it is not the last of them."""
    part = packet[start:end]
    more = start + len(part) < len(packet) if more is None else more
    return datagram(builders.piece(part, start, more, source, destination, **fields), interface)


def isatap(prefix, first, address):
    return isatap_address(prefix, f"{first:02x}005efe", address)


LINK = bytes.fromhex("fe80000000000000")
EXAMPLE = datagram(outer(inner()))

# each number of a whole datagram once, in its order, and then two that apply at once
REFUSED = [
    datagram(outer(inner(), version=5)),
    datagram(outer(inner(), spoil=1)),
    datagram(outer(inner(), protocol=17)),
    datagram(outer(inner()), interface=1),
    datagram(outer(inner(), source=bytes((127, 0, 0, 1)))),
    datagram(outer(inner(version=4))),
    datagram(outer(inner(bytes(15) + b"\1"))),
    datagram(outer(inner(link_local(OTHER)))),
    datagram(outer(inner(version=4), protocol=17, spoil=1)),
    datagram(outer(inner(bytes(16)), destination=OTHER)),
]

# at the edge of a rule
EDGES = [
    datagram(b""),
    datagram(outer(inner())[:19]),
    datagram(outer(inner(), words=4)),
    datagram(outer(inner(), total=19)),
    datagram(outer(inner(), total=61)),
    datagram(outer(inner(), fragment=0x4000)),
    datagram(outer(inner(), fragment=0x8000)),
    datagram(outer(inner()[:39])),
    datagram(outer(inner(length=1))),
    datagram(outer(inner(length=1)) + b"\0"),
    datagram(outer(inner(isatap(LINK, 1, PEER)))),
    datagram(outer(inner(isatap(LINK, 3, PEER)))),
    datagram(outer(inner(isatap(PREFIX, 0, PEER)))),
]

DELIVERED = [
    EXAMPLE,
    datagram(outer(inner(), options=bytes((1, 1, 1, 0)))),
    datagram(outer(inner(), options=bytes(40))),
    datagram(outer(inner(), total=60) + bytes(7)),
    datagram(outer(inner(), total=64) + bytes(4)),
    datagram(outer(inner(payload=bytes(1240)))),
    datagram(outer(inner(isatap(LINK, 2, PEER)))),
    datagram(outer(inner(isatap(PREFIX, 0, PEER)))),
    datagram(outer(inner(bytes.fromhex("20010db8000000020000000000000001")), source=ROUTER)),
]

LONG, LONGEST = inner(payload=bytes(range(61))), inner(payload=bytes(2008))
# joined in both orders, with repeats and options, up to 2,048 bytes, with bytes behind the packet, and from a router
PIECES = [
    piece(inner(), 0, 24), piece(inner(), 24),
    piece(inner(), 24), piece(inner(), 24), piece(inner(), 0, 24),
    piece(LONG, 0, 40, options=bytes(4)), piece(LONG, 96, ttl=1), piece(LONG, 40, 96, flags=0x4000),
    piece(LONGEST, 1024), piece(LONGEST, 0, 1024),
    piece(inner() + bytes(9), 0, 16), piece(inner() + bytes(9), 16),
    piece(inner(b"\x20" + bytes(15)), 8, source=ROUTER), piece(inner(b"\x20" + bytes(15)), 0, 8, source=ROUTER),
    piece(inner(), 0, 8), EXAMPLE, piece(inner(), 8),
]

# 30, 29 by two ends, by an overlap and by another byte, and what is joined refused by 8, 9 and 10
UNFIT = [
    piece(LONG, 0, 0), piece(LONG, 8, 17), piece(bytes(2049), 2040), piece(bytes(2048), 2040), piece(bytes(2047), 2040),
    piece(LONG, 0, 24), piece(LONG, 24, 32, False), piece(LONG, 24, 40), piece(LONG, 24, 40, False),
    piece(LONG, 0, 24), piece(LONG, 16, 40), piece(LONG, 24), piece(LONG, 0, 24),
    piece(LONG, 0, 24), piece(bytes(48), 0, 24), piece(LONG, 24), piece(LONG, 0, 24),
    piece(inner(version=4), 0, 8), piece(inner(version=4), 8),
    piece(inner(bytes(16)), 0, 8), piece(inner(bytes(16)), 8),
    piece(inner(link_local(OTHER)), 0, 8), piece(inner(link_local(OTHER)), 8),
    piece(inner(), 0, 8), piece(inner(), 8), piece(inner(), 8), piece(inner(), 0, 8, interface=1), piece(inner(), 0, 8),
]

# more keys than places; the pieces of one that are far apart; all of them at time 0
KEYS = [
    *[piece(inner(), 0, 8, identification=u16(key)) for key in range(10)],
    *[piece(inner(), 8, identification=u16(key)) for key in (9, 3, 5, 9)],
    *[piece(inner(), 8, identification=u16(key)) for key in (8, 9, 8)],
    *[EXAMPLE] * 40,
    *[piece(inner(), 8, identification=u16(key)) for key in (0, 1, 2, 4, 6, 7)],
]

LOCATORS = [locator(bytes((10, 0, 1, last)), last) for last in range(8)]
PREFIXES = [PREFIX[:7] + bytes([last]) for last in range(8)]
ROUTERS = [bytes((10, 0, 2, last)) for last in range(16)]
TO_LAST = datagram(outer(inner(isatap(PREFIXES[7], 0, PEER)), destination=LOCATORS[7][:4]), interface=7)
FROM_LAST = datagram(outer(inner(b"\x20" + bytes(15)), source=ROUTERS[15], destination=LOCATORS[7][:4]), interface=7)

ONE = settings() + section(EXAMPLE)
FULL = settings() + section(datagram(bytes(65515)), datagram(bytes(2)))


def cases():
    yield "empty", b""
    yield "no_datagram", settings() + section()
    yield "refused", settings() + section(*REFUSED)
    yield "edges", settings() + section(*EDGES)
    yield "delivered", settings(prefixes=[PREFIX], routers=[ROUTER]) + section(*DELIVERED)
    yield "pieces", settings(routers=[ROUTER]) + section(*PIECES)
    yield "pieces_refused", settings() + section(*UNFIT)
    yield "pieces_of_ten_keys", settings() + section(*KEYS)
    yield "most_settings", settings(LOCATORS, PREFIXES, ROUTERS) + section(TO_LAST, FROM_LAST, EXAMPLE)
    yield "cut_count", ONE[:1]
    yield "cut_locators", settings()[:6]
    yield "cut_prefixes", settings(prefixes=[PREFIX])[:16]
    yield "cut_routers", settings(routers=[ROUTER])[:14]
    yield "cut_datagram_count", ONE[:12]
    yield "cut_datagram_length", ONE[:15]
    yield "cut_datagram", ONE[:-1]
    yield "fewer_datagrams", settings() + u16(2) + EXAMPLE
    yield "trailing_byte", ONE + b"\0"
    yield "of_65536_bytes", FULL
    yield "of_65537_bytes", FULL[:-5] + datagram(bytes(3))
    yield "no_locator", settings(()) + section(EXAMPLE)
    yield "nine_locators", settings(LOCATORS + [locator(OWN)]) + section(EXAMPLE)
    yield "locator_twice", settings([locator(OWN), locator(OWN)]) + section(EXAMPLE)
    yield "address_on_two_interfaces", settings([locator(OWN), locator(OWN, 1)]) + section(EXAMPLE)
    yield "forbidden_locator", settings([locator(OWN), locator(bytes((224, 0, 0, 1)))]) + section(EXAMPLE)
    yield "nine_prefixes", settings(prefixes=PREFIXES + [PREFIX]) + section(EXAMPLE)
    yield "seventeen_routers", settings(routers=ROUTERS + [ROUTER]) + section(EXAMPLE)
    yield "router_twice", settings(routers=[ROUTER, ROUTER]) + section(EXAMPLE)
    yield "forbidden_router", settings(routers=[bytes((255, 255, 255, 255))]) + section(EXAMPLE)
    yield "router_of_our_own", settings(routers=[OWN]) + section(EXAMPLE)


def main(folder):
    data = Path(folder) / "data"
    data.mkdir(parents=True, exist_ok=True)
    text = ""
    for name, content in cases():
        (data / name).write_bytes(content)
        text += f"{name}\n" + "".join(line + "\n" for line in program(content))
    (Path(folder) / "stdout").write_text(text)


if __name__ == "__main__":
    main(*sys.argv[1:])
