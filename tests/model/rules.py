"""Settings, what a packet must be, and how one is written; no state."""
from .octets import LINK_LOCAL, LOOPBACK, UNSPECIFIED, checksum_field, checksum_right, forbidden, link_local, number, pseudo_header
from .octets import u16, u32

PLATEAUS = (65535, 32000, 17914, 8166, 4352, 2002, 1492, 1006, 508, 296, 68)
PREFERENCES = (0x00, 0x08, 0x18)                              # medium, high, low (R22.11)


class Refused(Exception):
    """A call was given one of the numbers of R4."""

    def __init__(self, number):
        super().__init__(number)
        self.number = number


def need(holds, number):
    if not holds:
        raise Refused(number)


class Settings:
    """Locators are pairs (address, interface). Defaults as R2.10 states them."""

    def __init__(self, locators, prefixes, routers, link=1500, ttl=64, interval=120, identification=1, reporting=None):
        self.locators, self.prefixes, self.routers = locators, prefixes, routers
        self.link, self.ttl, self.interval = link, ttl, interval
        self.identification, self.reporting = identification, reporting

    def own(self, address):
        """A locator address, whatever its interface."""
        return address in [locator for locator, _ in self.locators]

    def check(self):
        """The rules of settings (R2); 1 where they are broken."""
        need(1 <= len(self.locators) <= 8, 1)
        need(len(set(self.locators)) == len(self.locators), 1)
        need(not any(forbidden(locator) for locator, _ in self.locators), 1)
        need(len(self.prefixes) <= 8, 1)
        self.check_routers(self.routers)
        need(576 <= self.link <= 9216, 1)
        need(1 <= self.ttl <= 255, 1)
        need(1 <= self.interval <= 3600, 1)
        if self.reporting is None:
            self.reporting = link_local(self.locators[0][0])
        need(self.reporting[0] != 0xff, 1)
        need(self.reporting != UNSPECIFIED, 1)

    def check_routers(self, routers):
        """Routers 0 to 16, distinct (R2.4); none forbidden, none a locator address."""
        need(len(routers) <= 16, 1)
        need(len(set(routers)) == len(routers), 1)
        need(not any(forbidden(router) for router in routers), 1)
        need(not any(self.own(router) for router in routers), 1)

    def on_link(self, prefix):
        return prefix == LINK_LOCAL or prefix in self.prefixes

    def isatap(self, address):
        """An on-link prefix, then 00 or 02, 00, 5E, FE, then the IPv4 address (R6.1)."""
        return self.on_link(address[:8]) and address[8] in (0, 2) and address[9:12] == b"\0\x5e\xfe"


class Advertisement:
    """What the operator sets of an advertisement. Prefixes are (length, flags, valid lifetime, preferred lifetime, prefix), routes are
    (length, preference, lifetime, prefix). Of a byte of flags 80 is M or L, 40 is O or A, and the other bits are not looked at."""

    def __init__(self, flags=0, lifetime=0, prefixes=(), routes=()):
        self.flags, self.lifetime, self.prefixes, self.routes = flags, lifetime, prefixes, routes

    def check(self):
        """Up to 8 of each, none longer than 128 bits; 26 where not (R22.7)."""
        need(len(self.prefixes) <= 8, 26)
        need(len(self.routes) <= 8, 26)
        need(all(length <= 128 for length, *_ in self.prefixes), 26)
        need(all(length <= 128 for length, *_ in self.routes), 26)


def outer_header(datagram):
    """The header length and the total length; 2 if malformed."""
    need(len(datagram) >= 20, 2)
    need(datagram[0] >> 4 == 4, 2)
    header, total = 4 * (datagram[0] & 15), number(datagram[2:4])
    need(20 <= header, 2)
    need(header <= len(datagram), 2)
    need(header <= total, 2)
    need(total <= len(datagram), 2)
    return header, total


def is_whole(datagram):
    """More-fragments is clear and the offset is 0 (R5.6)."""
    return number(datagram[6:8]) & 0x3fff == 0


def inner_length(packet):
    """40 + payload length; 8 if malformed as in receiving."""
    need(len(packet) >= 40, 8)
    need(packet[0] >> 4 == 6, 8)
    length = 40 + number(packet[4:6])
    need(length <= len(packet), 8)
    return length


def inner_source_bad(source):
    """ff00::/8, `::`, `::1`, or 96 zero bits followed by a forbidden IPv4 address (R5.11)."""
    if source[0] == 0xff or source in (UNSPECIFIED, LOOPBACK):
        return True
    return source[:12] == bytes(12) and forbidden(source[12:])


def extension_length(kind, rest):
    """A fragment header is 8 bytes long (R25.3), the others (second byte + 1) * 8 (R25.2), so 8 at least where that byte is missing."""
    return 8 if kind == 44 or len(rest) < 2 else 8 * (rest[1] + 1)


def draws_none(kind, rest):
    """Hop-by-hop options, routing, fragment and destination options headers are followed (R25.1). One that runs past the packet (R25.4) draws
    no message, nor does a fragment that is not the first (R25.6), nor ICMPv6 without its type, an error or a redirect (R25.5)."""
    while kind in (0, 43, 44, 60):
        length = extension_length(kind, rest)
        if length > len(rest):
            return True
        if kind == 44 and number(rest[2:4]) >> 3 != 0:
            return True
        kind, rest = rest[0], rest[length:]
    return kind == 58 and (len(rest) == 0 or rest[0] < 128 or rest[0] == 137)


def gets_no_message(packet):
    """Source is multicast or `::`, or what stands behind the 40 bytes of header draws none (R8.2)."""
    source = packet[8:24]
    if source[0] == 0xff or source == UNSPECIFIED:
        return True
    return draws_none(packet[6], packet[40:])


def icmpv6_packet(source, destination, hop_limit, message):
    """Traffic class and flow label 0; `message` has its checksum field 0."""
    check = checksum_field(pseudo_header(source, destination, len(message)) + message)
    message = message[:2] + check + message[4:]
    return b"\x60\0\0\0" + u16(len(message)) + bytes([58, hop_limit]) + source + destination + message


def too_big_message(reporting, packet, size):
    """Reporting address to the packet's source, hop limit 64, type 2, code 0, M, then the first min(n, 1,232) bytes (R8.1)."""
    return icmpv6_packet(reporting, packet[8:24], 64, bytes([2, 0, 0, 0]) + u32(size) + packet[:1232])


def solicitation(source, router):
    """Our link-local address to the router's, hop limit 255, type 133, code 0, no options (R14.1)."""
    return icmpv6_packet(link_local(source), link_local(router), 255, bytes([133, 0, 0, 0]) + bytes(4))


def wrapped(packet, identification, keep_whole, ttl, source, destination):
    """The 20-byte outer header and the packet."""
    start = b"\x45\0" + u16(20 + len(packet)) + u16(identification) + (b"\x40\0" if keep_whole else b"\0\0")
    start, end = start + bytes([ttl, 41]), source + destination
    return start + checksum_field(start + b"\0\0" + end) + end + packet


def walked(options, refusal):
    """Each option; that number if one has length 0 or they do not end exactly (R15.4)."""
    found = []
    while options:
        need(len(options) >= 2, refusal)
        length = options[1]
        need(length > 0, refusal)
        need(8 * length <= len(options), refusal)
        found.append(options[:8 * length])
        options = options[8 * length:]
    return found


def smallest_lifetime(message):
    """The smallest lifetime of an advertisement; None if none counts, 20 if its options are not whole."""
    lifetimes = [number(message[6:8])]
    for option in walked(message[16:], 20):
        kind, length = option[0], option[1]
        if (kind == 3 and length == 4) or (kind == 24 and 1 <= length <= 3):
            lifetimes.append(number(option[4:8]))
    return min((life for life in lifetimes if life not in (0, 0xffffffff)), default=None)


def check_solicitation(packet):
    """A valid router solicitation, or 24 (R22.4, R22.5)."""
    source, message = packet[8:24], packet[40:]
    need(packet[6] == 58, 24)
    need(packet[7] == 255, 24)
    need(checksum_right(pseudo_header(source, packet[24:40], len(message)) + message), 24)
    need(len(message) >= 8, 24)
    need(message[0] == 133, 24)
    need(message[1] == 0, 24)
    kinds = [option[0] for option in walked(message[8:], 24)]
    need(source != UNSPECIFIED or 1 not in kinds, 24)


def first_bits(length, prefix):
    """The bits past the length are 0 (R22.12)."""
    return (number(prefix) >> 128 - length << 128 - length).to_bytes(16, "big")


def written_prefix(length, flags, valid, preferred, prefix):
    """Type 3, length 4 (R22.10)."""
    return bytes([3, 4, length, flags & 0xc0]) + u32(valid) + u32(preferred) + bytes(4) + first_bits(length, prefix)


def written_route(length, preference, lifetime, prefix):
    """Type 24, the shortest length that holds the prefix (R22.11)."""
    units = 1 if length == 0 else 2 if length <= 64 else 3
    start = bytes([24, units, length, PREFERENCES[preference]]) + u32(lifetime)
    return start + first_bits(length, prefix)[:8 * units - 8]


def router_advertisement(source, asker, operator):
    """Our link-local address to the asker's as it stands, hop limit 255, type 134, code 0; prefixes, then routes (R22.9)."""
    start = bytes([134, 0, 0, 0]) + bytes([0, operator.flags & 0xc0]) + u16(operator.lifetime) + bytes(8)
    prefixes = [written_prefix(*prefix) for prefix in operator.prefixes]
    routes = [written_route(*route) for route in operator.routes]
    return icmpv6_packet(link_local(source), asker, 255, start + b"".join(prefixes + routes))


def reported_candidate(message, quoted):
    """Bytes 6 and 7; if 0, the largest plateau below the quoted total length (R9.6); 0 if there is none."""
    below = [plateau for plateau in PLATEAUS if plateau < number(quoted[2:4])]
    return number(message[6:8]) or max(below, default=0)
