"""Bytes, checksums, addresses."""
LINK_LOCAL = bytes.fromhex("fe80000000000000")
UNSPECIFIED = bytes(16)
LOOPBACK = bytes(15) + b"\1"


def number(data):
    """All fields are big-endian."""
    return int.from_bytes(data, "big")


def u16(value):
    return value.to_bytes(2, "big")


def u32(value):
    return value.to_bytes(4, "big")


def checksum_sum(data):
    """The RFC 1071 sum; a last odd byte is the high half of a word."""
    data = bytes(data) + bytes(len(data) % 2)
    total = 256 * sum(data[0::2]) + sum(data[1::2])
    while total > 0xffff:
        total = (total & 0xffff) + (total >> 16)
    return total


def checksum_right(data):
    """Right when the RFC 1071 sum that includes it is FFFF (R1.5)."""
    return checksum_sum(data) == 0xffff


def checksum_field(data):
    """The complement of the sum taken with that field 0 (R1.6)."""
    return u16(0xffff - checksum_sum(data))


def pseudo_header(source, destination, length):
    return source + destination + u32(length) + bytes([0, 0, 0, 58])


def forbidden(address):
    """0.0.0.0, 127.0.0.0/8, 224.0.0.0/4, 255.255.255.255 (R3.1)."""
    return address in (bytes(4), b"\xff" * 4) or address[0] == 127 or 224 <= address[0] <= 239


def isatap_address(prefix, identifier, address):
    """A prefix, the identifier's four bytes in hexadecimal, and the IPv4 address."""
    return prefix + bytes.fromhex(identifier) + address


def link_local(address):
    """Those we form have 00 (R6.3)."""
    return isatap_address(LINK_LOCAL, "00005efe", address)


def dotted(address):
    return ".".join(str(byte) for byte in address)
