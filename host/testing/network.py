"""The network of host/test, anew for each scenario: see the drawing there."""
import socket

from .daemons import Daemon
from .flows import Ledger
from .namespaces import Namespace
from .packets import datagram, isatap
from .waiting import wait

LOCATORS = {"one": "10.1.0.2", "two": "10.2.0.2", "centre": "10.9.0.2", "spare": "10.8.0.2"}
PREFIX, SECOND_PREFIX = "2001:db8:1::", "2001:db8:2::"
OFFICE, OFFICE_NETWORK = "2001:db8:c::2", "2001:db8:c::/64"
DEVICE, SECOND_DEVICE = "isatap0", "isatap1"
# the two ends of each link, by the hop's name for it
LINKS = {"to-one": ("one", "wan0", "one"), "to-two": ("two", "wan0", "two"),
         "to-centre": ("centre", "wan0", "centre"), "to-spare": ("centre", "wan1", "spare")}


def gateway(name):
    """The hop's address on the link of that locator."""
    return LOCATORS[name].rsplit(".", 1)[0] + ".1"


def address(name, prefix=PREFIX):
    return isatap(prefix, LOCATORS[name])


def station(name, router="centre", prefix=PREFIX, device=DEVICE, more=()):
    """A station's configuration."""
    return [f"tun {device}", f"locator {LOCATORS[name]}%wan0", f"prefix {prefix}/64", f"router {LOCATORS[router]}", "interval 1", *more]


def centre(name="centre", interface="wan0", prefix=PREFIX, device=DEVICE, more=()):
    """The centre's configuration, or that of its second service. Its Too Big messages are forwarded to the office: a link-local
    address would not be."""
    return [f"tun {device}", f"locator {LOCATORS[name]}%{interface}", *more, f"prefix {prefix}/64", f"reporting {address(name, prefix)}",
            f"advertise-prefix {prefix}/64", "advertise-lifetime 1800"]


class Network:
    def __init__(self, run, folder, command, number):
        self.command, self.folder, self.daemons = command, folder, {}
        self._names = ("one", "two", "hop", "centre", "office")
        for name in self._names:
            setattr(self, name, Namespace(f"{run}-{number}", name))
        self.ledger = Ledger()
        self._addresses()
        self._routes()

    def _addresses(self):
        for name in self._names:
            space = getattr(self, name)
            for key, value in (("accept_dad", 0), ("accept_ra", 1), ("forwarding", 0)):
                space.set(f"ipv6/conf/default/{key}", value)
            space.set("ipv4/conf/all/rp_filter", 0)
        self.centre.set("ipv6/conf/all/forwarding", 1)
        self.hop.set("ipv4/ip_forward", 1)
        for link in LINKS:
            self._link(link)
        self.centre.batch(f"link add lan type veth peer name lan0 netns {self.office.name}", "link set lan up",
                          "addr add 2001:db8:c::1/64 dev lan nodad")
        self.office.batch("link set lan0 up", f"addr add {OFFICE}/64 dev lan0 nodad", "route add default via 2001:db8:c::1")

    def _link(self, link):
        name, device, locator = LINKS[link]
        getattr(self, name).batch(f"link add {device} type veth peer name {link} netns {self.hop.name}", f"link set {device} up",
                                  f"addr add {LOCATORS[locator]}/24 dev {device}")
        self.hop.batch(f"link set {link} up", f"addr add {gateway(locator)}/24 dev {link}")

    def remake(self, link):
        """A link goes, and comes back under the same names; the kernel has other numbers for them then."""
        name, device, locator = LINKS[link]
        getattr(self, name).batch(f"link del {device}")
        self._link(link)
        getattr(self, name).batch(f"route add default via {gateway(locator)}")

    def _routes(self):
        for name in ("one", "two", "centre"):
            getattr(self, name).batch(f"route add default via {gateway(name)}")

    def size(self, link, size):
        """Sets the size of a link at both its ends."""
        name, device, _ = LINKS[link]
        self.hop.batch(f"link set {link} mtu {size}")
        getattr(self, name).batch(f"link set {device} mtu {size}")

    def daemon(self, name, lines, **how):
        made = Daemon(self.command, self.folder, getattr(self, name), lines, **how)
        self.daemons[name] = made
        return made

    def start_centre(self, lines=None, **how):
        """The centre's daemon on persistent devices, with the addresses that an operator gives them."""
        made = self.daemon("centre", lines or centre(), **how)
        for device in made.devices():
            self.centre.batch(f"tuntap add dev {device} mode tun")
        made.start()
        for device, name, prefix in ((DEVICE, "centre", PREFIX), (SECOND_DEVICE, "spare", SECOND_PREFIX)):
            if device in made.devices():
                self.centre.batch(f"addr add {address(name, prefix)}/64 dev {device} nodad")
        return made

    def start_station(self, name, lines=None, **how):
        made = self.daemon(name, lines or station(name), **how)
        made.start()
        return made

    def learnt(self, name, prefix=PREFIX, router="centre", device=DEVICE):
        """Waits until the station's kernel has the address, by itself, and the router for its default route."""
        space, expected = getattr(self, name), address(name, prefix)
        wait(lambda: f" {expected}/64 " in space.ip("-6", "addr", "show", "dev", device), f"address {expected} on {name}",
             seen=lambda: space.ip("-6", "addr", "show", "dev", device))
        via = f"default via {address(router, 'fe80::')} proto ra"
        wait(lambda: via in space.ip("-6", "route", "show", "dev", device), f"{via} on {name}",
             seen=lambda: space.ip("-6", "route", "show", "dev", device))

    def inject(self, space, outer, to, inner, by=None):
        """A datagram with any outer source, sent from the namespace, by the way to another address where that is given."""
        with space:
            raw = socket.socket(socket.AF_INET, socket.SOCK_RAW, socket.IPPROTO_RAW)
        with raw:
            raw.sendto(datagram(outer, to, inner), (by or to, 0))

    def remove(self):
        self.ledger.end()
        for daemon in self.daemons.values():
            if daemon.running():
                daemon.kill()
        for name in self._names:
            getattr(self, name).remove()
