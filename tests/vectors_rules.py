"""Cases of the rules without state, by docs/RULES.md and the RFCs that it names."""
import ipaddress
import struct

from vectors_cases import case, dice, noise, ones, some, v4, v6, yes


# Checksums.
def summed(name, data, start=0):
    total = ones(struct.pack(">I", start) + data)
    case("sum", name, f"{total:04x}", data, x=start, form=4)


def right(name, data):
    case("right", name, yes(ones(data) == 0xffff), data)


def complement(name, n):
    case("complement", name, f"{0xffff ^ n:04x}", n=n, form=4)


def checksums():
    example = bytes.fromhex("0001f203f4f5f6f7")
    assert ones(example) == 0xddf2
    summed("sum of RFC 1071, section 3", example)
    complement("its complement", 0xddf2)
    summed("the same, in two parts", example[4:], ones(example[:4]))
    summed("sum without its last byte", example[:-1])
    summed("sum of one byte", b"\xab")
    summed("sum of no byte", b"")
    summed("sum of all ones", b"\xff" * 4)
    summed("sum of 601 bytes of all ones", b"\xff" * 601)
    for start in (1, 0xffff, 0x10000, 0xffff0000, 0xffffffff):
        summed(f"sum of no byte from {start:08x}", b"", start)
        summed(f"sum of the example from {start:08x}", example, start)
    right("example with its complement is right", example + bytes.fromhex("220d"))
    right("with one less it is", example + bytes.fromhex("220c"))
    right("no byte is right", b"")
    right("one byte ff is right", b"\xff")
    right("two bytes ff are right", b"\xff\xff")
    for n in (0, 1, 0x7fff, 0x8000, 0xfffe, 0xffff):
        complement(f"complement of {n:04x}", n)
    for length in list(range(1, 20)) + [30, 31, 32, 33, 47, 48, 49, 255]:
        data = noise(length)
        summed(f"sum of {length} bytes", data, dice.randrange(1 << 32))
    for length in (2, 3, 8, 15, 16, 17, 18, 31, 32, 33, 100):
        data = noise(length)
        whole = data + b"\0" * (length % 2)
        whole += struct.pack(">H", 0xffff ^ ones(whole))
        right(f"{length} bytes and their complement are right", whole)
        at = dice.randrange(len(whole))
        bent = whole[:at] + bytes([whole[at] ^ (1 << dice.randrange(8))]) + whole[at + 1:]
        right(f"{length} bytes with a bit of byte {at} changed are right", bent)


def blocks_and_turns():
    summed("sum whose fold takes two turns", bytes.fromhex("ffffffff0001"))
    summed("sum whose fold takes three turns", bytes.fromhex("ffff0001"), 0xffffffff)
    for length in (63, 64, 65, 127, 128, 129, 511, 512, 513, 1023, 1025, 1500):
        summed(f"sum of {length} bytes", noise(length), dice.randrange(1 << 32))
    for length in (127, 128, 512, 1025):
        summed(f"sum of {length} bytes of all ones", b"\xff" * length)
        summed(f"sum of {length} zeros", bytes(length))


# Outer headers.
def outer(total_length, identification=1, flags=0, ttl=64, protocol=41, source="10.0.0.2", destination="10.0.0.1",
          first=0x45, tos=0, options=b"", wrong=0):
    def with_sum(s):
        return struct.pack(">BBHHHBBHII", first, tos, total_length, identification, flags, ttl, protocol, s, v4(source),
                           v4(destination)) + options
    s = 0xffff ^ ones(with_sum(0))
    return with_sum(s + wrong)


def inner(payload=0, next_header=59, hop=64, source="fe80::5efe:10.0.0.2", destination="fe80::5efe:10.0.0.1", version=6):
    return struct.pack(">IHBB", version << 28, payload, next_header, hop) + v6(source) + v6(destination)


PACKET = inner()
WHOLE = outer(60) + PACKET
assert outer(60).hex() == "4500003c00010000402966960a0000020a000001"


def read(d):
    """R5.2 to R5.6: the number, 0 where none is given."""
    if len(d) < 20 or d[0] >> 4 != 4 or d[0] & 15 < 5 or len(d) < 4 * (d[0] & 15):
        return 2
    h, n = 4 * (d[0] & 15), struct.unpack(">H", d[2:4])[0]
    if n < h or n > len(d):
        return 2
    if ones(d[:h]) != 0xffff:
        return 3
    if d[9] != 41:
        return 4
    return 5 if struct.unpack(">H", d[6:8])[0] & 0x3fff else 0


def show(name, d):
    """The number of the outer header, and its fields where it passes."""
    number = read(d)
    case("read_outer", f"{name}, number", number, d)
    if number:
        return
    d = d[:20]
    case("header", f"{name}, header", 4 * (d[0] & 15), d)
    case("total", f"{name}, total length", struct.unpack(">H", d[2:4])[0], d)
    case("source", f"{name}, source", d[12:16].hex(), d, form=8)
    case("destination", f"{name}, destination", d[16:20].hex(), d, form=8)


def outer_headers():
    written("wrap", "header of the worked input", fields() + PACKET, WHOLE, 60, shown=(0, 20))
    show("read back", WHOLE)
    show("no byte", b"")
    show("19 bytes", WHOLE[:19])
    show("59 bytes of 60", WHOLE[:59])
    show("version 5", outer(60, first=0x55) + PACKET)
    show("four words", outer(60, first=0x44) + PACKET)
    show("total length below the header", outer(19) + PACKET)
    show("total length above the bytes", outer(61) + PACKET)
    show("total length of the header alone", outer(20) + PACKET)
    show("checksum one more", outer(60, wrong=1) + PACKET)
    show("protocol 4", outer(60, protocol=4) + PACKET)
    show("more-fragments", outer(60, flags=0x2000) + PACKET)
    show("offset 8", outer(60, flags=1) + PACKET)
    show("highest bit of the offset", outer(60, flags=0x1000) + PACKET)
    show("don't-fragment", outer(60, flags=0x4000) + PACKET)
    show("reserved flag", outer(60, flags=0x8000) + PACKET)
    show("type of service 255", outer(60, tos=255) + PACKET)
    show("TTL 0", outer(60, ttl=0) + PACKET)
    show("fifteen words", outer(60, first=0x4f, options=PACKET))
    show("fifteen words in 59 bytes", outer(59, first=0x4f, options=PACKET)[:59])
    for at in range(20):
        bent = WHOLE[:at] + bytes([WHOLE[at] ^ (1 << dice.randrange(8))]) + WHOLE[at + 1:]
        case("read_outer", f"a bit of byte {at} changed, number", read(bent), bent)
    for i in range(20):
        d = outer(dice.choice([19, 20, 23, 24, 25, 60]), flags=dice.choice([0, 0, 0x4000, 0x2000, 5]),
                  protocol=dice.choice([41, 41, 41, 6]), first=dice.choice([0x45, 0x45, 0x46, 0x44, 0x65]),
                  options=noise(dice.choice([0, 4])), wrong=dice.choice([0, 0, 0, 1])) + noise(dice.randrange(45))
        case("read_outer", f"header {i}, number", read(d), d)


# Inner packets.
def deliver(name, d):
    """The number of the outer header; where it passes, the inner packet, no byte where that is malformed."""
    number = read(d)
    case("read_outer", f"{name}, number", number, d)
    if number:
        return
    p = d[4 * (d[0] & 15):struct.unpack(">H", d[2:4])[0]]
    size = 40 + struct.unpack(">H", (p + bytes(6))[4:6])[0]
    bad = len(p) < 40 or p[0] >> 4 != 6 or size > len(p)
    case("inner_malformed", f"{name}, malformed inside", yes(bad), p)
    case("inner_packet", f"{name}, packet", "" if bad else p[:size].hex(), d)


def received():
    more = b"\xee" * 4
    deliver("packet of the worked input", WHOLE)
    deliver("four bytes of padding", outer(60) + PACKET + more)
    deliver("four bytes behind the packet", outer(64) + PACKET + more)
    deliver("payload of four bytes", outer(64) + inner(4) + more)
    deliver("payload of five", outer(64) + inner(5) + more)
    deliver("payload in the padding", outer(60) + inner(4) + more)
    deliver("39 bytes", outer(59) + PACKET + more)
    deliver("version 4 inside", outer(60) + inner(version=4))
    nops = bytes.fromhex("01010100")
    deliver("packet behind options", outer(64, first=0x46, options=nops) + PACKET)
    deliver("options not as summed", outer(64, first=0x46, options=nops)[:20] + bytes.fromhex("00010100") + PACKET)
    for i in range(12):
        options = noise(4 * dice.randrange(3))
        body = noise(dice.randrange(12))
        p = inner(max(0, len(body) + dice.choice([0, 0, 0, 1, -1, -4])), version=dice.choice([6, 6, 6, 5])) + body
        total = 20 + len(options) + len(p) - dice.choice([0, 0, 0, 1])
        deliver(f"datagram {i}", outer(total, first=0x45 + len(options) // 4, options=options) + p + noise(dice.randrange(4)))


def send(name, p):
    bad = len(p) < 40 or p[0] >> 4 != 6 or len(p) != 40 + struct.unpack(">H", p[4:6])[0]
    case("packet_malformed", f"{name}, malformed", yes(bad), p)


# RFC 2460, 4.3 to 4.6: hop-by-hop options, routing, fragment, destination options.
EXTENSIONS, FRAGMENT, ICMPV6 = (0, 43, 44, 60), 44, 58


def upper_layer(number, d):
    """R25: its number and its bytes; no number where the headers run past the end, or are those of a fragment that is not the first."""
    if number not in EXTENSIONS:
        return number, d
    units = 0 if number == FRAGMENT else (d + bytes(2))[1]
    if len(d) < 8 * units + 8 or number == FRAGMENT and struct.unpack(">H", d[2:4])[0] // 8 > 0:
        return None, b""
    return upper_layer(d[0], d[8 * units + 8:])


def draws(name, p):
    """Of a packet under 40 bytes the missing ones are read as 0."""
    header = p[:40].ljust(40, b"\0")
    source = ipaddress.IPv6Address(header[8:24])
    number, d = upper_layer(header[6], p[40:])
    error = number == ICMPV6 and (d == b"" or d[0] < 128 or d[0] == 137)
    quiet = source.is_multicast or source.is_unspecified or number is None or error
    case("may_draw_error", f"draws an error, {name}", yes(not quiet), p)


def sent():
    more = b"\xee" * 4
    send("to send, no byte", b"")
    send("to send, 39 bytes", PACKET[:39])
    send("to send, 40 bytes", PACKET)
    send("to send, version 4", inner(version=4))
    send("to send, four bytes too many", PACKET + more)
    send("to send, payload of four bytes", inner(4) + more)
    send("to send, one byte too few", inner(4) + more[:3])
    send("to send, payload of 256 bytes", inner(256) + b"\xee" * 256)
    send("to send, 256 and 255 bytes", inner(256) + b"\xee" * 255)
    for kind in (0, 1, 2, 126, 127, 128, 129, 133, 134, 135, 136, 138, 255):
        draws(f"ICMPv6 type {kind}", inner(1, 58) + bytes([kind]))
    draws("redirect", inner(1, 58) + bytes([137]))
    for kind, next_header in ((1, 17), (137, 17), (0, 57), (0, 59)):
        draws(f"next header {next_header}, first byte {kind}", inner(1, next_header) + bytes([kind]))
    draws("ICMPv6 without payload", inner(next_header=58))
    for source in ("ff02::5efe:10.0.0.2", "ff00::", "feff::1", "::1", "::", "::2", "::1:0:0:0", "100::"):
        draws(f"source {source}", inner(source=source))
        draws(f"echo from {source}", inner(1, 58, source=source) + bytes([128]))


# Addresses.
NETS = [ipaddress.ip_network(n) for n in ("0.0.0.0/32", "127.0.0.0/8", "224.0.0.0/4", "255.255.255.255/32")]


def is_forbidden(address):
    return any(ipaddress.IPv4Address(address) in n for n in NETS)


def embeds(packed, prefixes):
    a = ipaddress.IPv6Address(packed)
    linked = any(a in ipaddress.ip_network(p) for p in ["fe80::/64"] + prefixes)
    return packed[12:].hex() if linked and packed[8] in (0, 2) and packed[9:12] == bytes([0, 0x5e, 0xfe]) else "none"


def embedded(name, packed, prefixes=(), count=None):
    """The first count of the prefixes are on-link; a count above 8 is read as 8."""
    count = len(prefixes) if count is None else count
    section = struct.pack(">H", len(prefixes)) + b"".join(ipaddress.ip_network(p).network_address.packed[:8] for p in prefixes)
    case("embedded", f"embedded in {name}", embeds(packed, list(prefixes[:min(count, 8)])), packed + section, n=count, form=8)


def is_bad(packed):
    a = ipaddress.IPv6Address(packed)
    low = packed[:12] == bytes(12) and is_forbidden(packed[12:])
    return a.is_multicast or a.is_unspecified or a.is_loopback or low


def addresses():
    for a in ("0.0.0.0", "0.0.0.1", "0.255.255.255", "1.0.0.0", "126.255.255.255", "127.0.0.0", "127.0.0.1", "127.255.255.255",
              "128.0.0.0", "223.255.255.255", "224.0.0.0", "239.255.255.255", "240.0.0.0", "255.255.255.254", "255.255.255.255"):
        case("forbidden", f"forbidden, {a}", yes(is_forbidden(a)), x=v4(a))
    for i in range(10):
        a = ipaddress.IPv4Address(dice.randrange(256) << 24 | dice.choice([0, 1, 0xffffff, dice.randrange(1 << 24)]))
        case("forbidden", f"forbidden, address {i}, {a}", yes(is_forbidden(a)), x=int(a))
    for a in ("192.0.2.143", "0.0.0.0", "255.255.255.255", "1.2.3.4"):
        case("link_local", f"address formed for {a}", v6(f"fe80::5efe:{a}").hex(), x=v4(a))
    for a in ("fe80::5efe:192.0.2.143", "fe80::200:5efe:192.0.2.143", "fe80::100:5efe:192.0.2.143",
              "fe80::300:5efe:192.0.2.143", "fe80::1:5efe:192.0.2.143", "fe80::5eff:192.0.2.143", "fe80::5ffe:192.0.2.143"):
        embedded(a, v6(a))
    listed = ["2001:db8:0:1::/64"] * 7 + ["2001:db8:0:8::/64"]
    for n, words, count in [(1, "no prefix", 0), (1, "one prefix", 1), (2, "one prefix", 1), (8, "seven prefixes", 7),
                            (8, "eight prefixes", 8), (8, "count of nine", 9)]:
        a = f"2001:db8:0:{n}::5efe:10.0.0.1"
        embedded(f"{a}, {words}", v6(a), listed, count)
    for name, prefixes in (("fe80::5efe:10.0.0.1", []), ("2001:db8:0:8:200:5efe:10.0.0.1", listed)):
        whole = v6(name)
        for at in range(16):
            bent = whole[:at] + bytes([whole[at] ^ (1 << dice.randrange(8))]) + whole[at + 1:]
            embedded(f"{name}, a bit of byte {at} changed", bent, prefixes)
    for a in ("::", "::1", "::2", "::10.0.0.1", "::127.0.0.1", "::224.0.0.1", "::240.0.0.1", "::255.255.255.255", "ff02::1",
              "fe80::5efe:127.0.0.1", "::1:0.0.0.0", "::1:127.0.0.1", "100::", "ff00::", "feff::", "::128.0.0.1"):
        case("bad_source", f"bad source, {a}", yes(is_bad(v6(a))), v6(a))


# What is written.
def fields(identification=1, flag=False, ttl=64, protocol=41, source="10.0.0.2", destination="10.0.0.1"):
    return struct.pack(">HBBBII", identification, flag, ttl, protocol, v4(source), v4(destination))


def icmp(hop, source, destination, kind, body):
    def message(s):
        return struct.pack(">BBH", kind, 0, s) + body
    pseudo = source + destination + struct.pack(">II", len(message(0)), 58)
    m = message(0xffff ^ ones(pseudo + message(0)))
    assert ones(pseudo + m) == 0xffff
    return struct.pack(">IHBB", 6 << 28, len(m), 58, hop) + source + destination + m


def written(kind, name, data, whole, room, refused=0, m=0, shown=(0, None)):
    """The number given, the length written, and the part that is shown of a room of bytes a5."""
    refused = refused or (15 if len(whole) > room else 0)
    output = (b"" if refused else whole).ljust(room, b"\xa5")
    start, end = shown[0], room if shown[1] is None else shown[1]
    answer = f"{refused} none" if refused else f"0 {len(whole)}"
    case(kind, f"{name}, number, length and output", f"{answer} {output[start:end].hex()}", data, n=room, m=m, x=start, y=end - start)


def wrapped():
    for room in (0, 19, 20, 59, 60, 61, 64):
        written("wrap", f"wrapped in a room of {room}", fields() + PACKET, WHOLE, room)
    long = outer(65535) + bytes(65515)
    written("wrap_zeros", "packet of 65515 bytes", fields(), long, 65535, m=65515, shown=(0, 24))
    written("wrap_zeros", "packet of 65515 bytes, its end", fields(), long, 65535, m=65515, shown=(65530, 65535))
    written("wrap_zeros", "packet of 65515 bytes in a room of 65534", fields(), long, 65534, m=65515, shown=(0, 24))
    written("wrap_zeros", "packet of 65516 bytes", fields(), b"", 65535, refused=23, m=65516, shown=(0, 24))
    written("wrap", "packet of no byte", fields(), outer(20), 24)
    for i in range(16):
        identification, flag, ttl = dice.choice([0, 0xffff, dice.randrange(65536)]), i % 2 == 1, dice.randrange(256)
        source, destination = (str(ipaddress.IPv4Address(dice.randrange(1 << 32))) for _ in range(2))
        p = noise(dice.randrange(20))
        h = outer(20 + len(p), identification, 0x4000 if flag else 0, ttl, 41, source, destination)
        f = fields(identification, flag, ttl, 41, source, destination)
        written("wrap", f"packet {i} wrapped", f + p, h + p, 20 + len(p) + dice.choice([-1, 0, 2]))


def messages():
    ours, router = v6("fe80::5efe:10.0.0.1"), v6("fe80::5efe:192.0.2.143")
    for room in (0, 47, 48, 50):
        written("solicitation", f"solicitation in a room of {room}", ours + router, icmp(255, ours, router, 133, bytes(4)), room)
    for i in range(4):
        a, b = noise(16), noise(16)
        written("solicitation", f"solicitation between addresses {i}", a + b, icmp(255, a, b, 133, bytes(4)), 48)

    def too_big(name, packet, room, size=1480, refused=0, shown=(0, None)):
        whole = b"" if refused else icmp(64, ours, packet[8:24], 2, struct.pack(">I", size) + packet[:1232])
        written("too_big", name, ours + packet, whole, room, refused, size, shown)
    too_big("Packet Too Big in a room of 87", PACKET, 87)
    too_big("Packet Too Big for 39 bytes", PACKET[1:], 87, refused=8)
    too_big("Packet Too Big in a room of 88", PACKET, 88)
    too_big("Packet Too Big in a room of 90", PACKET, 90)
    for size in (0, 1280, 1281, 65535):
        too_big(f"Packet Too Big of size {size}", PACKET, 88, size)
    for n in (1232, 1233):
        p = inner(n - 40) + b"\x5a" * (n - 40)
        too_big(f"Packet Too Big for {n} bytes, its end", p, 1281, shown=(1276, 1281))
    long = inner(1460) + b"\x5a" * 1460
    too_big("Packet Too Big for 1500 bytes, its headers", long, 1281, shown=(0, 48))
    too_big("Packet Too Big for 1500 bytes, its end", long, 1281, shown=(1278, 1281))
    too_big("Packet Too Big for 1500 bytes in a room of 1279", long, 1279, shown=(0, 48))
    for i in range(6):
        too_big(f"Packet Too Big for packet {i}", inner() + noise(dice.randrange(30)), 128, dice.randrange(65536))


# Path sizes: R7, R9, R10.
PLATEAUS = (65535, 32000, 17914, 8166, 4352, 2002, 1492, 1006, 508, 296, 68)


def candidate(reported, total):
    if reported == 0:
        size = max((p for p in PLATEAUS if p < total), default=None)
    else:
        size = reported if reported >= 68 else None
    case("candidate", f"reported {reported}, quoted {total}, candidate", some(size), n=reported, m=total)


def path_sizes():
    for path in (0, 19, 20, 21, 68, 600, 1279, 1280, 1299, 1300, 1301, 1302, 1320, 1480, 1500, 9216, 65535):
        case("largest_packet", f"largest packet at {path}", max(1280, path - 20), n=path)
        case("dont_fragment", f"don't-fragment at {path}", yes(path - 20 > 1280), n=path)
    for reported in (1, 67, 68, 69, 1280, 1500, 65535):
        candidate(reported, 1500)
    for p in PLATEAUS:
        for total in (p - 1, p, p + 1):
            if total < 65536:
                candidate(0, total)
    for total in (0, 20, 576, 1500):
        candidate(0, total)
