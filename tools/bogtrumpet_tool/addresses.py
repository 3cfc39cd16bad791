"""Addresses and prefixes, as people write them."""
import re
import socket

from .wrong import Wrong, named


def parsed(word, family, kind):
    try:
        return socket.inet_pton(family, word)
    except (OSError, ValueError):
        raise Wrong(f"{named(word)} is no {kind} address") from None


def parsed_ipv4(word):
    return parsed(word, socket.AF_INET, "IPv4")


def parsed_ipv6(word):
    return parsed(word, socket.AF_INET6, "IPv6")


def parsed_prefix(word):
    """An on-link prefix, of 64 bits."""
    address, slash, length = word.partition("/")
    value = parsed_ipv6(address)
    if not slash or length != "64" or any(value[8:]):
        raise Wrong(f"{named(word)} is no prefix of 64 bits, as 2001:db8:0:1::/64")
    return value[:8]


def shown_ipv4(address):
    return ".".join(map(str, address))


def shown_ipv6(address):
    """After RFC 5952; an ISATAP address, one with 00 00 5E FE or 02 00 5E FE in its middle, ends with the IPv4 address that it embeds."""
    isatap = address[8] in (0, 2) and address[9:12] == b"\x00\x5e\xfe"
    groups = [f"{address[place] << 8 | address[place + 1]:x}" for place in range(0, 12 if isatap else 16, 2)]
    text = ":" + ":".join(groups) + (":" + shown_ipv4(address[12:]) if isatap else "") + ":"
    zeros = max(re.findall(r"(?::0){2,}(?=:)", text), key=len, default=None)
    return text.strip(":") if zeros is None else "::".join(part.strip(":") for part in text.split(zeros, 1))


def shown_prefix(prefix):
    return shown_ipv6(prefix + bytes(8)) + "/64"
