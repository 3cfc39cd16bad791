"""encode and decode: every input of the formats to a text and back, byte for byte, and what the text says against the independent model."""
import functools
import ipaddress

from model import formats

from .harness import ROOT, check, gate_inputs, given, refused, run, same

FLAG = {"program": "--program", "replay": "--replay"}


# ---- What a text says, read by this test alone

def octets(word):
    parts = [part.partition("*") for part in word.split("+")] if word else []
    return b"".join(bytes.fromhex(digits) * int(times or 1) for digits, _, times in parts)


@functools.lru_cache(None)
def address(word):
    return ipaddress.ip_address(word).packed


def flags(word, letters):
    if word.startswith("0x"):
        return int(word, 16)
    return 0 if word == "none" else sum({letters[0]: 0x80, letters[1]: 0x40}[letter] for letter in word)


def prefix_of(word):
    where, bits, valid, preferred = word.split(",")
    at, length = where.split("/")
    return int(length), flags(bits, "LA"), int(valid), int(preferred), address(at)


def route_of(word):
    where, preference, lifetime = word.split(",")
    at, length = where.split("/")
    return int(length), ["medium", "high", "low"].index(preference), int(lifetime), address(at)


def call_of(line):
    """Name and arguments of a call as the model's reader has them."""
    name, *words = line.split(" ")
    pairs = [word.split("=", 1) for word in words]
    values = dict(pairs)
    every = lambda key, form: [form(value) for one, value in pairs if one == key]  # noqa: E731
    number = lambda *keys: [int(values[key]) for key in keys]  # noqa: E731
    arguments = {
        "receive": lambda: [*number("service", "interface", "time", "memory"), octets(values["datagram"])],
        "send": lambda: [*number("service", "locator", "time"), address(values["next-hop"]), *number("room"), octets(values["packet"])],
        "report": lambda: [*number("time"), octets(values["message"])],
        "routers": lambda: [*number("service", "time"), every("router", address)],
        "ask": lambda: number("service", "locator", "time", "room"),
        "advertisement": lambda: [*number("service", "time"), octets(values["packet"])],
        "size": lambda: [*number("service"), address(values["neighbour"])],
        "advertise": lambda: [*number("service", "locator", "room"), (flags(values["flags"], "MO"), int(values["lifetime"]),
                              every("prefix", prefix_of), every("route", route_of)), octets(values["packet"])],
        "memory": lambda: number("service"),
        "part": lambda: [*number("service", "interface"), octets(values["datagram"])],
        "datagram": lambda: [*number("interface"), octets(values["bytes"])],
    }[name]()
    return name, arguments


def read_text(lines):
    """Settings, each as a list of lines, and calls."""
    services, calls = [[]], []
    for line in lines[1:]:
        name = line.split(" ")[0]
        if name == "service":
            services += [[]] if line == "service 1" else []
        elif name in ("locator", "prefix", "router", "link-size", "ttl", "interval", "identification", "reporting"):
            services[-1].append(line)
        else:
            calls.append(call_of(line))
    return services, calls


def settings_lines(settings, single):
    """A service's settings as the model read them, as lines whose addresses are written by Python's own module."""
    lines = [f"locator {ipaddress.ip_address(at)} interface={interface}" for at, interface in settings.locators]
    lines += [("prefix", prefix + bytes(8)) for prefix in settings.prefixes]
    lines += [f"router {ipaddress.ip_address(at)}" for at in settings.routers]
    if single:
        lines += [f"link-size {settings.link}", f"ttl {settings.ttl}", f"interval {settings.interval}", f"identification {settings.identification}"]
        lines += ["reporting default" if settings.reporting is None else ("reporting", settings.reporting)]
    return lines


def plain(line):
    """Lines with an IPv6 address as (name, its bytes): how it is written is not asked here."""
    name, *words = line.split(" ")
    if name == "prefix" or name == "reporting" and words != ["default"]:
        return name, address(words[0].replace("/64", "") if name == "prefix" else words[0])
    return line


# ---- What the model's reader says

def modelled(kind, data):
    """Settings and calls, or None where the input is bad."""
    reader = formats.Reader(data)
    try:
        if len(data) > {"replay": formats.REPLAY_LIMIT, "program": formats.PROGRAM_LIMIT}[kind]:
            raise formats.BadInput
        if kind == "replay":
            services, calls = reader.services(), []
            while not reader.ended():
                name, arguments = reader.call()
                if name == "advertise":
                    one = arguments[3]
                    arguments[3] = (one.flags, one.lifetime, list(one.prefixes), list(one.routes))
                calls.append((name, arguments))
            return [settings_lines(service, True) for service in services], calls
        settings = formats.Settings(*reader.lists())
        calls = [("datagram", [reader.number(1), reader.field("D")]) for _ in range(reader.number(2))]
        if not reader.ended():
            raise formats.BadInput
        return [settings_lines(settings, False)], calls
    except formats.BadInput:
        return None


def round_trip(name, kind, data, folder, without_flag=False):
    file = folder / "input"
    file.write_bytes(data)
    expected = modelled(kind, data)
    if expected is None:
        refused(f"{name}: a bad input", run("decode", FLAG[kind], file), str(file), "`bad input`")
        return
    text = given(f"{name} is decoded", run("decode", FLAG[kind], file))
    lines = text.decode().split("\n")
    check(f"{name}: the text's frame", lines[0] == kind and lines[-1] == "", lines[0])
    if len(data) < 1000000:  # the longest lists of prefixes and routes differ in nothing but their length
        services, calls = read_text(lines[:-1])
        same(f"{name}: settings as the model reads them", [[plain(line) for line in service] for service in services], expected[0])
        same(f"{name}: calls as the model reads them", calls, expected[1])
    same(f"{name}: back, byte for byte", given(f"{name} is encoded", run("encode", FLAG[kind], "-", stdin=text)), data)
    if without_flag:
        same(f"{name} is decoded without a flag", run("decode", file)[1], text)
        same(f"{name}: back without a flag", run("encode", "-", stdin=text)[1], data)


def stored():
    yield "crates/tunnel/stdin", "program", (ROOT / "crates/tunnel/stdin").read_bytes()
    yield "crates/replay/stdin", "replay", (ROOT / "crates/replay/stdin").read_bytes()
    for path in sorted((ROOT / "crates/test_tunnel/data").iterdir()):
        yield f"test_tunnel: {path.name}", "program", path.read_bytes()


# ---- Texts as people write them, and their normal form

HOP = "fe80::5efe:192.0.2.2"
NORMAL = [
    ("defaults, order, comments, blank lines and letters",
     "# a comment\n\n  replay # so it is\nrouter 192.0.2.254\n\tlocator 192.0.2.1\r\nprefix 2001:DB8:0:0:0:0:0:0/64 #one\n"
     f"send time=0x10 packet=AbCd next-hop={HOP}\nask time=1\nsize neighbour=192.0.2.2\nmemory\n",
     "replay\nservice 0\nlocator 192.0.2.1 interface=0\nprefix 2001:db8::/64\nrouter 192.0.2.254\nlink-size 1500\nttl 64\ninterval 120\n"
     f"identification 1\nreporting default\nsend service=0 locator=0 time=16 next-hop={HOP} room=9216 packet=abcd\n"
     "ask service=0 locator=0 time=1 room=48\nsize service=0 neighbour=192.0.2.2\nmemory service=0\n"),
    ("two services and runs",
     "replay\nservice 0\nttl 9\nlocator 10.0.0.1 interface=7\nservice 1\nreporting 0:0:0:0:0:0:0:1\nlocator 10.0.0.3\n"
     "part datagram=00*20+0000*2+01+02*3\n"
     "receive service=1 memory=0 time=4294967295 datagram=\nreport time=0 message=ff*24\n",
     "replay\nservice 0\nlocator 10.0.0.1 interface=7\nlink-size 1500\nttl 9\ninterval 120\nidentification 1\nreporting default\nservice 1\n"
     "locator 10.0.0.3 interface=0\nlink-size 1500\nttl 64\ninterval 120\nidentification 1\nreporting ::1\n"
     "part service=0 interface=0 datagram=00*24+01020202\nreceive service=1 interface=0 time=4294967295 memory=0 datagram=\n"
     "report time=0 message=ff*24\n"),
    ("an advertisement",
     "replay\nlocator 10.0.0.1\n"
     "advertise lifetime=1800 packet= flags=OM route=::/0,low,5 prefix=2001:db8::/64,AL,7,6 prefix=fe80::200:5efe:10.0.0.9/129,0xff,1,2\n"
     "advertise lifetime=0 flags=0x01 packet=00\nrouters time=3\nrouters time=3 router=10.0.0.2 router=10.0.0.2\n",
     "replay\nservice 0\nlocator 10.0.0.1 interface=0\nlink-size 1500\nttl 64\ninterval 120\nidentification 1\nreporting default\n"
     "advertise service=0 locator=0 room=504 flags=MO lifetime=1800 prefix=2001:db8::/64,LA,7,6 prefix=fe80::200:5efe:10.0.0.9/129,0xff,1,2 "
     "route=::/0,low,5 packet=\nadvertise service=0 locator=0 room=504 flags=0x01 lifetime=0 packet=00\nrouters service=0 time=3\n"
     "routers service=0 time=3 router=10.0.0.2 router=10.0.0.2\n"),
    ("nine locators, which the rules refuse, and a file",
     "program\n" + "locator 10.0.0.1\n" * 9 + "datagram bytes=@piece interface=255\n",
     "program\n" + "locator 10.0.0.1 interface=0\n" * 9 + "datagram interface=255 bytes=0a23\n"),
]
ADDRESSES = {"::": "::", "::1": "::1", "1::": "1::", "1:0:0:2::": "1:0:0:2::", "0:1:0:0:2:0:0:0": "0:1:0:0:2::",
             "1:0:2:3:4:5:6:7": "1:0:2:3:4:5:6:7", "1:0:0:2:0:0:3:4": "1::2:0:0:3:4", "::FFFF:1.2.3.4": "::ffff:102:304",
             "FE80::5efe:0.0.0.0": "fe80::5efe:0.0.0.0", "::5efe:a00:1": "::5efe:10.0.0.1",
             "fe80:0:0:1:200:5efe:1.2.3.4": "fe80::1:200:5efe:1.2.3.4", "fe80::100:5efe:1.2.3.4": "fe80::100:5efe:102:304"}


def normal_forms(folder):
    (folder / "piece").write_bytes(b"\n#")
    for name, text, normal in NORMAL:
        (folder / "text").write_text(text)
        data = given(f"{name}: encoded", run("encode", folder / "text"))
        same(f"{name}: the normal form", given(f"{name}: decoded", run("decode", "-", stdin=data)).decode(), normal)
        same(f"{name}: the normal form says the same", run("encode", "-", stdin=normal.encode())[1], data)
    for written, normal in ADDRESSES.items():
        data = given(f"{written} is taken", run("encode", "--replay", "-", stdin=f"reporting {written}\n".encode()))
        same(f"{written}: its bytes", data[-16:], address(written))
        same(f"{written}: its normal form", run("decode", "-", stdin=data)[1].decode().split("reporting ")[1], normal + "\n")


def tests(folder):
    for one in stored():
        round_trip(*one, folder, without_flag=True)
    for one in gate_inputs():
        if one[1] in FLAG:
            round_trip(*one, folder)
    normal_forms(folder)
