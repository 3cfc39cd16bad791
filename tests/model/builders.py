"""Datagrams and their pieces, packets, size reports, advertisements and solicitations from their fields, right or wrong ones: each is
built here and nowhere else.

`spoil` is added to the right checksum; with None the field stays 0. `length` and `total` stand in the length fields in place of the
right lengths.
"""
from .octets import checksum_field, number, pseudo_header, u16, u32


def spoiled(check, amount):
    return bytes(2) if amount is None else u16((number(check) + amount) % 65536)


def packet(source, destination, payload=b"", length=None, version=6, flow=bytes(4), next_header=59, hop_limit=64):
    """An IPv6 packet; the first four bits of `flow` are the version's."""
    head = bytes([version << 4 | flow[0] & 15]) + flow[1:] + u16(len(payload) if length is None else length)
    return head + bytes([next_header, hop_limit]) + source + destination + payload


def datagram(inner, source, destination, options=b"", words=None, total=None, version=4, service=0, identification=b"\0\1", flags=0,
             ttl=64, protocol=41, spoil=0):
    """An IPv4 datagram around `inner`."""
    words = 5 + len(options) // 4 if words is None else words
    total = 20 + len(options) + len(inner) if total is None else total
    start = bytes([version << 4 | words, service]) + u16(total) + identification + u16(flags) + bytes([ttl, protocol])
    end = source + destination + options
    return start + spoiled(checksum_field(start + b"\0\0" + end), spoil) + end + inner


# ---- Extension headers

def chain(headers, upper, fill=b"\0"):
    """The number that stands before these extension headers, and their bytes, behind which the number `upper` stands. A header is its number,
    its second byte and, of a fragment header, the 16 bits of its offset and flags; the rest of it is `fill`."""
    numbers, data = [header[0] for header in headers] + [upper], b""
    for (kind, second, *field), behind in zip(headers, numbers[1:]):
        start = bytes([behind, second]) + b"".join(map(u16, field))
        data += start + fill * ((8 if kind == 44 else 8 * second + 8) - len(start))
    return numbers[0], data


def making_up(length, kind=60):
    """As few headers of this kind as can be that are as long as this together, or up to 7 bytes longer."""
    headers = []
    while length > 0:
        headers.append((kind, min(255, (length - 1) // 8)))
        length -= 8 * headers[-1][1] + 8
    return headers


# ---- Pieces

def piece(payload, start, more, source, destination, flags=0, **fields):
    """A piece of a datagram: these bytes stand from `start` on in the datagram's payload; with `more` others follow."""
    return datagram(payload, source, destination, flags=flags | more << 13 | start // 8, **fields)


def fragments(whole, size):
    """What RFC 791, 3.2, "An Example Fragmentation Procedure", makes of a datagram for links of `size` bytes."""
    header, total = 4 * (whole[0] & 15), number(whole[2:4])
    if total <= size:
        return [whole[:total]]
    fields = {"service": whole[1], "identification": whole[4:6], "ttl": whole[8], "protocol": whole[9]}
    options, data, flags, blocks = whole[20:header], whole[header:total], number(whole[6:8]), (size - header) // 8
    first = datagram(data[:8 * blocks], whole[12:16], whole[16:20], options, flags=flags | 0x2000, **fields)
    second = datagram(data[8 * blocks:], whole[12:16], whole[16:20], copied_options(options), flags=flags + blocks, **fields)
    return [first] + fragments(second, size)


def copied_options(options):
    """Those with the copied flag, and zeros up to the word."""
    kept = b""
    while options and options[0] != 0:
        length = 1 if options[0] == 1 else options[1]
        kept += options[:length] if options[0] >= 128 else b""
        options = options[length:]
    return kept + bytes(-len(kept) % 4)


# ---- Messages

def report(candidate, source, neighbour, total=1500, kind=3, code=4, unused=bytes(2), version=4, words=5, options=b"",
           free=bytes(8), protocol=41, tail=bytes(8), cut=None, spoil=0):
    """An ICMPv4 message that quotes a header; `free` are its service, identification, flags, TTL and checksum."""
    quoted = bytes([version << 4 | words, free[0]]) + u16(total) + free[1:6] + bytes([protocol]) + free[6:8]
    quoted += source + neighbour + options + tail
    message = (bytes([kind, code, 0, 0]) + unused + u16(candidate) + quoted)[:cut]
    return (message[:2] + spoiled(checksum_field(message), spoil) + message[4:])[:len(message)]


def advertisement(source, destination, lifetime=0, options=(), kind=134, code=0, free=bytes(10), **fields):
    """A router advertisement in its IPv6 packet; `free` are hop limit, flags, reachable time and retransmission timer."""
    return discovery(source, destination, bytes([kind, code, 0, 0]) + free[:2] + u16(lifetime) + free[2:] + b"".join(options), **fields)


def solicitation(source, destination, options=(), kind=133, code=0, free=bytes(4), **fields):
    """A router solicitation in its IPv6 packet; `free` is its reserved field."""
    return discovery(source, destination, bytes([kind, code, 0, 0]) + free + b"".join(options), **fields)


def discovery(source, destination, message, message_cut=None, spoil=0, **fields):
    """A message of neighbour discovery, of which `message_cut` bytes are there, in its IPv6 packet."""
    message = message[:message_cut]
    check = checksum_field(pseudo_header(source, destination, len(message)) + message)
    payload = (message[:2] + spoiled(check, spoil) + message[4:])[:len(message)]
    fields = dict({"next_header": 58, "hop_limit": 255}, **fields)
    if "payload_error" in fields:
        fields["length"] = len(payload) + fields.pop("payload_error")
    return packet(source, destination, payload, **fields)


# ---- Options

def option(kind, length, lifetime, rest=b"\1"):
    """Eight bytes a unit; the lifetime stands in bytes 4 to 7."""
    return bytes([kind, length, 64, 8]) + u32(lifetime) + rest * (8 * length - 8)


def route_option(length, lifetime):
    return option(24, length, lifetime)


def prefix_option(length, lifetime):
    """A small preferred lifetime stands behind the valid one."""
    return (bytes([3, length, 64, 0xc0]) + u32(lifetime) + u32(3) + bytes(8 * length))[:8 * length]


# ---- What an operator sets of an advertisement

def operator_prefix(length=64, flags=0xc0, valid=2592000, preferred=604800, prefix=b"\xff" * 16):
    return length, flags, valid, preferred, prefix


def operator_route(length=48, preference=0, lifetime=1800, prefix=b"\xff" * 16):
    """Preference 0 is medium, 1 high, 2 low."""
    return length, preference, lifetime, prefix
