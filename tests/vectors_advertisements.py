"""Cases of solicitations and of the advertisement that answers them: bytes as RFC 4861, 4.1, 4.2 and 4.6, and RFC 4191, 2.3, lay them out,
written down in hexadecimal; the checksum is worked out."""
import struct

from vectors_cases import case, ones, v6, yes
from vectors_rules import written

OURS, ASKER = v6("fe80::5efe:192.0.2.1"), v6("fe80::200:5efe:10.0.0.2")
ALL_BITS = "ffff:ffff:ffff:ffff:ffff:ffff:ffff:ffff"
MEDIUM, HIGH, LOW = 0, 1, 2
# behind a count stands what must not be looked at: 255 bits
REST = b"\xff" * 26


def prefix(length, address=ALL_BITS, flags=0xc0, valid=2592000, preferred=604800):
    return struct.pack(">BBII", length, flags, valid, preferred) + v6(address)


def route(length, preference=MEDIUM, lifetime=1800, address=ALL_BITS):
    return struct.pack(">BBI", length, preference, lifetime) + v6(address)


def packet(source, destination, message, hop="ff", next_header="3a"):
    """The message has 0000 for its checksum, in bytes 2 and 3."""
    check = 0xffff ^ ones(source + destination + struct.pack(">II", len(message), 58) + message)
    message = message[:2] + struct.pack(">H", check) + message[4:]
    return bytes.fromhex("60000000") + struct.pack(">H", len(message)) + bytes.fromhex(next_header + hop) + source + destination + message


def advertised(name, text, flags=0, lifetime=1800, prefixes=(), routes=(), room=None, refused=0, counts=None, at=(OURS, ASKER)):
    """The message from its current hop limit on, in hexadecimal."""
    whole = packet(*at, bytes.fromhex("86000000" + text))
    counts = counts or (len(prefixes), len(routes))
    lists = b"".join(list(prefixes) + [REST] * (8 - len(prefixes)) + list(routes) + [REST[:22]] * (8 - len(routes)))
    data = b"".join(at) + struct.pack(">BHHH", flags, lifetime, *counts) + lists
    written("advertisement", f"advertisement, {name}", data, whole, len(whole) + 2 if room is None else room, refused)


# Current hop limit, flags, router lifetime 1,800, reachable time, retransmission timer.
PLAIN = "00 00 0708 00000000 00000000"
# Valid lifetime 2,592,000 and preferred lifetime 604,800, and four bytes of 0.
USUAL = "00278d00 00093a80 00000000"


def without_options():
    advertised("no option", PLAIN)
    advertised("the flag M", "00 80 0708 00000000 00000000", flags=0x80)
    advertised("the flag O", "00 40 0708 00000000 00000000", flags=0x40)
    advertised("both flags and no other", "00 c0 0708 00000000 00000000", flags=0xff)
    advertised("no flag", PLAIN, flags=0x3f)
    advertised("router lifetime 0", "00 00 0000 00000000 00000000", lifetime=0)
    advertised("router lifetime 9000", "00 00 2328 00000000 00000000", lifetime=9000)
    advertised("router lifetime 65535", "00 00 ffff 00000000 00000000", lifetime=65535)
    advertised("between other addresses", PLAIN, at=(v6("2001:db8::1"), v6("ff02::1")))
    for room in (0, 55, 56):
        advertised(f"no option in a room of {room}", PLAIN, room=room)


def prefixes():
    one = "20010db8000100020000000000000000"
    advertised("2001:db8:1:2::/64", PLAIN + "0304 40 c0" + USUAL + one, prefixes=[prefix(64, "2001:db8:1:2::")])
    advertised("2001:db8:1:2::/64 with bits behind", PLAIN + "0304 40 c0" + USUAL + one, prefixes=[prefix(64, "2001:db8:1:2:3:4:5:6")])
    for flags, text in ((0x80, "80"), (0x40, "40"), (0x3f, "00"), (0xff, "c0")):
        advertised(f"a prefix of flags {flags:02x}", PLAIN + "0304 40" + text + USUAL + one, prefixes=[prefix(64, "2001:db8:1:2::", flags)])
    for length, text in ((0, "00000000000000000000000000000000"), (1, "80000000000000000000000000000000"),
                         (7, "fe000000000000000000000000000000"), (8, "ff000000000000000000000000000000"),
                         (9, "ff800000000000000000000000000000"), (63, "fffffffffffffffe0000000000000000"),
                         (64, "ffffffffffffffff0000000000000000"), (65, "ffffffffffffffff8000000000000000"),
                         (127, "fffffffffffffffffffffffffffffffe"), (128, "ffffffffffffffffffffffffffffffff")):
        advertised(f"a prefix of {length} bits", f"{PLAIN} 0304 {length:02x} c0 {USUAL} {text}", prefixes=[prefix(length)])
    for valid, preferred, text in ((0, 0, "00000000 00000000"), (1, 0xffffffff, "00000001 ffffffff"), (0xffffffff, 1, "ffffffff 00000001"),
                                   (0x01020304, 0x05060708, "01020304 05060708")):
        advertised(f"a prefix for {valid} and {preferred} s", f"{PLAIN} 0304 40 c0 {text} 00000000 {one}",
                   prefixes=[prefix(64, "2001:db8:1:2::", valid=valid, preferred=preferred)])


def routes():
    for preference, name, bits in ((MEDIUM, "medium", "00"), (HIGH, "high", "08"), (LOW, "low", "18")):
        advertised(f"::/0, {name}", f"{PLAIN} 18 01 00 {bits} 00000708", routes=[route(0, preference, 1800, "::")])
        advertised(f"2001:db8:1::/48, {name}", f"{PLAIN} 18 02 30 {bits} 00000708 20010db800010000",
                   routes=[route(48, preference, 1800, "2001:db8:1:2:3:4:5:6")])
        advertised(f"2001:db8:1:2:3:4:5:6/128, {name}", f"{PLAIN} 18 03 80 {bits} 00000708 20010db8000100020003000400050006",
                   routes=[route(128, preference, 1800, "2001:db8:1:2:3:4:5:6")])
    for length, text in ((0, "01 00 00 00000708"), (1, "02 01 00 00000708 8000000000000000"), (7, "02 07 00 00000708 fe00000000000000"),
                         (8, "02 08 00 00000708 ff00000000000000"), (63, "02 3f 00 00000708 fffffffffffffffe"),
                         (64, "02 40 00 00000708 ffffffffffffffff"), (65, "03 41 00 00000708 ffffffffffffffff8000000000000000"),
                         (127, "03 7f 00 00000708 fffffffffffffffffffffffffffffffe"),
                         (128, "03 80 00 00000708 ffffffffffffffffffffffffffffffff")):
        advertised(f"a route of {length} bits", f"{PLAIN} 18 {text}", routes=[route(length)])
    for lifetime, text in ((0, "00000000"), (0xffffffff, "ffffffff"), (0x01020304, "01020304")):
        advertised(f"a route for {lifetime} s", f"{PLAIN} 18 01 00 00 {text}", routes=[route(0, MEDIUM, lifetime)])


def both():
    first, second = prefix(64, "2001:db8:1:2::"), prefix(48, "2001:db8:3::", 0x80, 7200, 3600)
    options = ("0304 40 c0" + USUAL + "20010db8000100020000000000000000"
               "0304 30 80 00001c20 00000e10 00000000 20010db8000300000000000000000000"
               "18 01 00 18 00000708"
               "18 03 80 08 ffffffff 20010db8000000000000000000000001")
    default, host = route(0, LOW), route(128, HIGH, 0xffffffff, "2001:db8::1")
    advertised("two prefixes and two routes in order", PLAIN + options, prefixes=[first, second], routes=[default, host])
    full = "0304 40 c0" + USUAL + "20010db8000100020000000000000000", "18 03 80 18 00000708 ffffffffffffffffffffffffffffffff"
    for room in (None, 504, 503):
        words = "" if room is None else f" in a room of {room}"
        advertised(f"8 prefixes and 8 routes{words}", PLAIN + 8 * full[0] + 8 * full[1], prefixes=[first] * 8, routes=[route(128, LOW)] * 8, room=room)
    advertised("7 prefixes and no route, more behind", PLAIN + 7 * full[0], prefixes=[first] * 8, routes=[host] * 8, counts=(7, 0))


def refused():
    first, default = prefix(64), route(0)
    for name, counts in (("9 prefixes", (9, 0)), ("9 routes", (0, 9)), ("256 prefixes", (256, 0)), ("65,535 routes", (0, 65535))):
        for room in (0, 600):
            advertised(f"{name} in a room of {room}", PLAIN, prefixes=[first] * 8, routes=[default] * 8, counts=counts, room=room, refused=26)
    advertised("a prefix of 129 bits", PLAIN, prefixes=[prefix(129)], room=100, refused=26)
    advertised("an eighth prefix of 255 bits", PLAIN, prefixes=[first] * 7 + [prefix(255)], room=400, refused=26)
    advertised("a route of 129 bits", PLAIN, routes=[route(129)], room=100, refused=26)
    advertised("an eighth route of 255 bits in a room of 0", PLAIN, routes=[default] * 7 + [route(255)], room=0, refused=26)


def advertisements():
    for part in (without_options, prefixes, routes, both, refused):
        part()


# Solicitations: RFC 4861, 4.1 and 6.1.1.
def asks(name, right, text="00000000", source="fe80::5efe:10.0.0.2", start="85000000", behind=b"", wrong=0, **fields):
    """Reserved field and options, in hexadecimal, behind type, code and the checksum's place."""
    whole = packet(v6(source), OURS, bytes.fromhex(start + text), **fields)
    if len(whole) > 43:
        whole = whole[:43] + bytes([whole[43] ^ wrong]) + whole[44:]
    case("is_solicitation", f"solicitation, {name}, is valid", yes(right), whole + behind)


LINK_LAYER = "0101 0250c2aabbcc"


def solicitations():
    asks("no option", True)
    asks("a source link-layer address", True, "00000000" + LINK_LAYER)
    asks("any reserved field", True, "ffffffff")
    asks("a nonce, which is not known", True, "00000000 0e01 010203040506")
    asks("a target link-layer address and an option of 16 bytes", True, "00000000 0201 0250c2aabbcc ff02 0000000000000000000000000000")
    asks("from 2001:db8::1", True, source="2001:db8::1")
    asks("from :: without option", True, source="::")
    asks("from :: with a nonce", True, "00000000 0e01 010203040506", source="::")
    asks("from :: with a source link-layer address", False, "00000000" + LINK_LAYER, source="::")
    asks("from :: with a nonce and a source link-layer address", False, "00000000 0e01 010203040506" + LINK_LAYER, source="::")
    asks("from :: with a source link-layer address of 16 bytes", False, "00000000 0102 0000000000000000000000000000", source="::")
    asks("bytes behind it", True, behind=b"\1\0\1")
    asks("hop limit 254", False, hop="fe")
    asks("hop limit 0", False, hop="00")
    asks("next header 17", False, next_header="11")
    asks("an advertisement's type", False, start="86000000")
    asks("a neighbour solicitation's type", False, start="87000000")
    asks("code 1", False, start="85010000")
    asks("checksum with a bit changed", False, wrong=1)
    asks("7 bytes", False, "000000")
    asks("4 bytes", False, "")
    asks("an option of length 0", False, "00000000 0500 000000000000")
    asks("an option that runs past the end", False, "00000000 0502 000000000000")
    asks("a byte behind the last option", False, "00000000" + LINK_LAYER + "05")
    asks("half an option", False, "00000000 0501 0000")
