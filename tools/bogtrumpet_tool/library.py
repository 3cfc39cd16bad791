"""The proved library, called as include/bogtrumpet.h has it: the calls of an input, and what they write.

The structs are the header's, field by field; tests/tool compares them, and the types of the calls, with the header.
"""
import ctypes
import os
from ctypes import POINTER, c_bool, c_char_p, c_size_t, c_uint8, c_uint16, c_uint32, c_uint64
from pathlib import Path

from .numbers import TEXTS
from .wrong import Wrong


def struct(name, *fields):
    return type(name, (ctypes.Structure,), {"_fields_": list(fields)})


Address = struct("address", ("bytes", c_uint8 * 16))
Locator = struct("locator", ("address", c_uint32), ("interface", c_uint8))
Settings = struct(
    "settings", ("locators", Locator * 8), ("locator_count", c_size_t), ("prefixes", c_uint8 * 64), ("prefix_count", c_size_t),
    ("routers", c_uint32 * 16), ("router_count", c_size_t), ("link_size", c_uint16), ("ttl", c_uint8), ("interval", c_uint16),
    ("identification", c_uint16), ("reporting", c_uint8 * 16))
Node = struct("node", ("first", c_uint64 * 112), ("second", c_uint64 * 112), ("paths", c_uint64 * 81), ("latest", c_uint32), ("both", c_uint8))
Addresses = struct("addresses", ("routers", c_uint32 * 16), ("count", c_size_t))
AdvertisedPrefix = struct("advertised_prefix", ("bytes", c_uint8 * 16), ("valid", c_uint32), ("preferred", c_uint32), ("length", c_uint8),
                          ("on_link", c_uint8), ("autonomous", c_uint8))
AdvertisedRoute = struct("advertised_route", ("bytes", c_uint8 * 16), ("lifetime", c_uint32), ("length", c_uint8), ("preference", c_uint8))
Advertisement = struct("advertisement", ("prefixes", AdvertisedPrefix * 8), ("prefix_count", c_size_t), ("routes", AdvertisedRoute * 8),
                       ("route_count", c_size_t), ("lifetime", c_uint16), ("managed", c_uint8), ("other", c_uint8))
Received = struct("received", ("number", c_uint8), ("joined", c_bool), ("offset", c_size_t), ("length", c_size_t))
Sent = struct("sent", ("number", c_uint8), ("size", c_uint16), ("length", c_size_t), ("message_length", c_size_t))
Reported = struct("reported", ("number", c_uint8), ("neighbour", c_uint32), ("size", c_uint16))
Asked = struct("asked", ("number", c_uint8), ("router", c_uint32))
Heard = struct("heard", ("number", c_uint8), ("router", c_uint32))
Advertised = struct("advertised", ("number", c_uint8), ("length", c_size_t))
STRUCTS = (Address, Locator, Settings, Node, Addresses, AdvertisedPrefix, AdvertisedRoute, Advertisement, Received, Sent, Reported, Asked, Heard,
           Advertised)

NODE, BYTES, OUTPUT = POINTER(Node), c_char_p, POINTER(c_uint8)
CALLS = {  # answer, arguments
    "defaults": (Settings, (Settings,)),
    "new": (c_uint8, (NODE, Settings)),
    "new_pair": (c_uint8, (NODE, Settings, Settings)),
    "receive": (Received, (NODE, c_uint8, BYTES, c_size_t, c_uint8, c_uint32, OUTPUT, c_size_t)),
    "send": (Sent, (NODE, c_uint8, BYTES, c_size_t, Address, c_size_t, c_uint32, OUTPUT, c_size_t)),
    "report": (Reported, (NODE, BYTES, c_size_t, c_uint32)),
    "replace_routers": (c_uint8, (NODE, c_uint8, Addresses, c_uint32)),
    "ask": (Asked, (NODE, c_uint8, c_size_t, c_uint32, OUTPUT, c_size_t)),
    "hear": (Heard, (NODE, c_uint8, BYTES, c_size_t, c_uint32)),
    "advertise": (Advertised, (NODE, c_uint8, BYTES, c_size_t, c_size_t, Advertisement, OUTPUT, c_size_t)),
}
SOLICITATION = 48


def places():
    """Where the shared object may stand: as the operator says, in the repository, or installed, beside the tool's own modules."""
    here = Path(__file__).resolve().parent
    said = os.environ.get("BOGTRUMPET_LIBRARY")
    return [Path(said)] if said else [here.parents[1] / "target" / "staticlib" / "libbogtrumpet.so", here.parent / "libbogtrumpet.so"]


def load():
    """The calls by name."""
    path = next((place for place in places() if place.is_file()), None)
    if path is None:
        searched = " or ".join(map(str, places()))
        raise Wrong(f"no library in {searched}: `make target/staticlib/libbogtrumpet.so` makes it, BOGTRUMPET_LIBRARY names another")
    try:
        library = ctypes.CDLL(str(path))
        calls = {name: getattr(library, "bogtrumpet_" + name) for name in CALLS}
    except (OSError, AttributeError) as error:
        raise Wrong(f"{path}: not the library: {error}") from None
    for name, (answer, arguments) in CALLS.items():
        calls[name].restype, calls[name].argtypes = answer, arguments
    return calls


def number(address):
    return int.from_bytes(address, "big")


def rows(kind, most, values):
    """An array of the first values; the count beside it is that of all, for the library to judge."""
    return (kind * most)(*values[:most])


def settings_of(service, calls):
    lists = service.lists
    settings = Settings(
        rows(Locator, 8, [Locator(number(one["address"]), one["interface"]) for one in lists["locator"]]), len(lists["locator"]),
        rows(c_uint8, 64, b"".join(one["prefix"] for one in lists["prefix"])), len(lists["prefix"]),
        rows(c_uint32, 16, [number(one["router"]) for one in lists["router"]]), len(lists["router"]))
    single = service.single
    reporting = calls["defaults"](settings).reporting if single["reporting"] is None else rows(c_uint8, 16, single["reporting"])
    settings.link_size, settings.ttl, settings.interval = single["link-size"], single["ttl"], single["interval"]
    settings.identification, settings.reporting = single["identification"], reporting
    return settings


def advertisement_of(values):
    prefixes = [AdvertisedPrefix(rows(c_uint8, 16, address), valid, preferred, length, flags & 0x80, flags & 0x40)
                for address, length, flags, valid, preferred in values["prefix"]]
    routes = [AdvertisedRoute(rows(c_uint8, 16, address), lifetime, length, preference)
              for address, length, preference, lifetime in values["route"]]
    return Advertisement(rows(AdvertisedPrefix, 8, prefixes), len(prefixes), rows(AdvertisedRoute, 8, routes), len(routes),
                         values["lifetime"], values["flags"] & 0x80, values["flags"] & 0x40)


class Caller:
    """A node of the library, with a memory for each service."""

    def __init__(self, services):
        self.calls, self.node, self.memories = load(), Node(), [(c_uint8 * 65535)() for _ in range(2)]
        settings = [settings_of(service, self.calls) for service in services]
        refused = self.calls["new" if len(settings) == 1 else "new_pair"](self.node, *settings)
        if refused:
            raise Wrong(f"the library refuses the settings, by {refused}: {TEXTS[refused]}")

    def call(self, name, values):
        """What the call wrote. A question for a size, a part and a memory write and change nothing."""
        out = (c_uint8 * values.get("room", 0))()
        length = getattr(self, name, lambda *_: 0)(values, out)
        return bytes(out[:length])

    def receive(self, values, _):
        data = values["datagram"]
        self.calls["receive"](self.node, values["service"], data, len(data), values["interface"], values["time"],
                              self.memories[values["service"]], values["memory"])
        return 0

    def send(self, values, out):
        data, hop = values["packet"], Address(rows(c_uint8, 16, values["next-hop"]))
        sent = self.calls["send"](self.node, values["service"], data, len(data), hop, values["locator"], values["time"], out, len(out))
        return sent.length or sent.message_length

    def report(self, values, _):
        self.calls["report"](self.node, values["message"], len(values["message"]), values["time"])
        return 0

    def routers(self, values, _):
        routers = list(map(number, values["router"]))
        self.calls["replace_routers"](self.node, values["service"], Addresses(rows(c_uint32, 16, routers), len(routers)), values["time"])
        return 0

    def ask(self, values, out):
        asked = self.calls["ask"](self.node, values["service"], values["locator"], values["time"], out, len(out))
        return 0 if asked.number else SOLICITATION

    def advertisement(self, values, _):
        self.calls["hear"](self.node, values["service"], values["packet"], len(values["packet"]), values["time"])
        return 0

    def advertise(self, values, out):
        data = values["packet"]
        return self.calls["advertise"](self.node, values["service"], data, len(data), values["locator"], advertisement_of(values), out,
                                       len(out)).length


def written(given):
    """The packets that the library writes for the calls of an input, each with the node's latest time."""
    caller = Caller(given.services)
    for name, values in given.calls:
        packet = caller.call(name, values)
        if packet:
            yield caller.node.latest, packet
