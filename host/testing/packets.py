"""Packets and datagrams as bytes, written here a second time so that nothing of the daemon is asked about itself."""
import struct
from ipaddress import IPv4Address, IPv6Address

UDP, ICMPV6, TUNNELLED = 17, 58, 41
TOO_BIG, SOLICITATION, ADVERTISEMENT = 2, 133, 134
HEADER4, HEADER6 = 20, 40


def v4(address):
    return IPv4Address(address).packed


def v6(address):
    return IPv6Address(address).packed


def isatap(prefix, locator):
    """The ISATAP address of the locator: `prefix` as in fe80:: or 2001:db8:1::."""
    return str(IPv6Address(v6(prefix)[:8] + bytes.fromhex("00005efe") + v4(locator)))


def checksum(data):
    """RFC 1071: the sum of 16-bit words in ones' complement is the number modulo 65,535."""
    return 0xFFFF - int.from_bytes(data + bytes(len(data) % 2), "big") % 0xFFFF


def packet(source, destination, upper, payload, hops=64):
    """An IPv6 packet; the addresses are bytes."""
    return struct.pack("!IHBB", 0x60000000, len(payload), upper, hops) + source + destination + payload


def _pseudo(source, destination, upper, length):
    return source + destination + struct.pack("!II", length, upper)


def udp(source, destination, ports, payload, hops=64):
    length = 8 + len(payload)
    head = struct.pack("!HHH", *ports, length)
    total = checksum(_pseudo(source, destination, UDP, length) + head + bytes(2) + payload) or 0xFFFF
    return packet(source, destination, UDP, head + struct.pack("!H", total) + payload, hops)


def icmpv6(source, destination, kind, body, hops=255):
    head = bytes([kind, 0])
    total = checksum(_pseudo(source, destination, ICMPV6, 4 + len(body)) + head + bytes(2) + body)
    return packet(source, destination, ICMPV6, head + struct.pack("!H", total) + body, hops)


def datagram(source, destination, payload, identification=0, flags=0, protocol=TUNNELLED, options=b""):
    """An IPv4 datagram; flags are the 16 bits of flags and offset."""
    head = struct.pack("!BBHHHBB", 0x45 + len(options) // 4, 0, HEADER4 + len(options) + len(payload), identification, flags, 64, protocol)
    rest = v4(source) + v4(destination) + options
    return head + struct.pack("!H", checksum(head + bytes(2) + rest)) + rest + payload


def size_report(size, quoted):
    """An ICMPv4 message, fragmentation needed, that quotes the datagram's first 28 bytes."""
    rest = struct.pack("!HH", 0, size) + quoted[:28]
    return bytes([3, 4]) + struct.pack("!H", checksum(bytes([3, 4, 0, 0]) + rest)) + rest
