"""The lines and bytes of settings and calls, field by field, in the order of the bytes (docs/REPLAY.md; docs/RULES.md, R17)."""
from dataclasses import dataclass

from .forms import IPV4, IPV6, ON_LINK_PREFIX, Choice, Entry, Flags, Many, Number, Packet, Reporting


@dataclass(frozen=True)
class Field:
    """A value of a line. Without a default it must be given. In a text NAME=VALUE; one that is placed is the bare value."""
    name: str
    form: object
    default: object = None
    placed: bool = False

    @property
    def many(self):
        return isinstance(self.form, Many)


BYTE, SHORT, LONG = Number(1), Number(2), Number(4)
SERVICE, TIME = Field("service", Number(1, 1), 0), Field("time", LONG)
INTERFACE, LOCATOR = Field("interface", BYTE, 0), Field("locator", BYTE, 0)


def only(name, form):
    return (Field(name, form, placed=True),)


# The lists of a service's settings, and the settings with one value, which the program has not: in the order of the bytes
LISTS = {"locator": (Field("address", IPV4, placed=True), INTERFACE), "prefix": only("prefix", ON_LINK_PREFIX), "router": only("router", IPV4)}
SINGLE = {"link-size": (SHORT, 1500), "ttl": (BYTE, 64), "interval": (SHORT, 120), "identification": (SHORT, 1), "reporting": (Reporting(), None)}

DATAGRAM = (INTERFACE, Field("bytes", Packet()))
PREFIX, ROUTE = Entry(Flags("LA"), LONG, LONG), Entry(Choice("medium", "high", "low"), LONG)
# The calls by kind; rooms default to what any call on accepted settings needs
CALLS = {
    1: ("receive", (SERVICE, INTERFACE, TIME, Field("memory", SHORT, 16384), Field("datagram", Packet()))),
    2: ("send", (SERVICE, LOCATOR, TIME, Field("next-hop", IPV6), Field("room", SHORT, 9216), Field("packet", Packet()))),
    3: ("report", (TIME, Field("message", Packet()))),
    4: ("routers", (SERVICE, TIME, Field("router", Many(IPV4)))),
    5: ("ask", (SERVICE, LOCATOR, TIME, Field("room", SHORT, 48))),
    6: ("advertisement", (SERVICE, TIME, Field("packet", Packet()))),
    7: ("size", (SERVICE, Field("neighbour", IPV4))),
    8: ("advertise", (SERVICE, LOCATOR, Field("room", SHORT, 504), Field("flags", Flags("MO"), 0), Field("lifetime", SHORT),
                      Field("prefix", Many(PREFIX)), Field("route", Many(ROUTE)), Field("packet", Packet()))),
    9: ("memory", (SERVICE,)),
    10: ("part", (SERVICE, INTERFACE, Field("datagram", Packet()))),
}
KINDS = {name: kind for kind, (name, _) in CALLS.items()}
