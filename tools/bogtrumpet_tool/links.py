"""The IPv4 datagram in a frame, by its link type (www.tcpdump.org/linktypes.html)."""
from .wrong import Wrong

IPV4 = 0x0800
TAGS = (0x8100, 0x88A8, 0x9100)  # of a VLAN, and of VLANs in VLANs


def typed(kind, data):
    """Behind an EtherType and what VLAN tags follow it."""
    while kind in TAGS and len(data) >= 4:
        kind, data = int.from_bytes(data[2:4], "big"), data[4:]
    return data if kind == IPV4 else None


def behind(kind, start):
    """A link header with its EtherType in two bytes somewhere, and the payload from a byte on."""
    return lambda data: typed(int.from_bytes(data[kind:kind + 2], "big"), data[start:]) if len(data) >= start else None


def raw(data):
    return data if data[:1] and data[0] >> 4 == 4 else None


def family(data):
    """Four bytes of address family, in the byte order of the capturing machine or of the network; IPv4's is 2 everywhere."""
    return data[4:] if data[:4] in (b"\0\0\0\2", b"\2\0\0\0") else None


LINKS = {
    0: family, 108: family,                  # BSD loopback; OpenBSD's
    1: behind(12, 14),                       # Ethernet
    12: raw, 14: raw, 101: raw,              # raw IP, by its version
    228: lambda data: data,                  # raw IPv4
    113: behind(14, 16), 276: behind(0, 20)  # Linux cooked, and its second version
}


def datagram(frame):
    """The bytes from the IPv4 header on, or None where the frame carries no IPv4. What stands behind the datagram stays: R5.3 passes it over."""
    if frame.link not in LINKS:
        known = ", ".join(map(str, sorted(LINKS)))
        raise Wrong(f"packet {frame.number} has link type {frame.link}, which is not known (known are {known})")
    return LINKS[frame.link](frame.data)
