"""from-pcap: captures of every kind, written here byte for byte and by other programs where they are installed."""
import shutil
import struct
import subprocess

from model import formats, recordings
from model.builders import datagram, packet
from model.octets import link_local

from .harness import check, given, program, refused, run, same

CENTRE, STATION = bytes((10, 0, 0, 1)), bytes((10, 0, 0, 2))
SETTINGS = "program\nlocator 10.0.0.1\nlocator 10.0.0.1 interface=3\nrouter 10.0.0.9\n"
LISTS = formats.encode_lists(formats.Settings([(CENTRE, 0), (CENTRE, 3)], [], [bytes((10, 0, 0, 9))]))
INNER = packet(link_local(STATION), link_local(CENTRE), b"one hour")
ONE = datagram(INNER, STATION, CENTRE)
TWO = datagram(INNER, STATION, CENTRE, options=bytes(8)) + b"\1\2\3"  # with padding, which stays
UDP = datagram(bytes(8), STATION, CENTRE, protocol=17)
SIX = INNER + bytes(20)
ORDERS = {"<": "little", ">": "big"}


# ---- Frames by link type: name, number, from the datagram's bytes to the frame's, and frames that carry no IPv4

def ether(kind, data, tags=b""):
    return bytes(12) + tags + struct.pack(">H", kind) + data


def cooked(kind, data):
    return struct.pack(">HHH8sH", 0, 1, 6, b"\2\0\0\0\0\1", kind) + data


def cooked2(kind, data):
    return struct.pack(">HHIHBB8s", kind, 0, 7, 1, 0, 6, b"\2\0\0\0\0\1") + data


LINKS = [
    ("Ethernet", 1, lambda data: ether(0x0800, data), [ether(0x86DD, SIX), ether(0x0806, ONE), ether(0x0800, b"")[:13], b"", ether(46, ONE)]),
    ("a VLAN", 1, lambda data: ether(0x0800, data, b"\x81\0\0\5"), [ether(0x86DD, SIX, b"\x81\0\0\5"), ether(0x8100, b"\0\5\x08")]),
    ("a VLAN in a VLAN", 1, lambda data: ether(0x0800, data, b"\x88\xa8\0\5\x81\0\0\6"), [ether(0x8863, ONE, b"\x88\xa8\0\5\x81\0\0\6")]),
    ("three VLANs", 1, lambda data: ether(0x0800, data, b"\x91\0\0\5\x81\0\0\6\x81\0\0\7"), []),
    *[(f"raw IP, {link}", link, lambda data: data, [SIX, b""]) for link in (12, 14, 101)],
    ("raw IPv4", 228, lambda data: data, []),
    ("cooked", 113, lambda data: cooked(0x0800, data), [cooked(0x86DD, SIX), cooked(0x0800, ONE)[:15], b""]),
    ("cooked, tagged", 113, lambda data: cooked(0x8100, b"\0\5\x08\0" + data), [cooked(0x0004, ONE)]),
    ("cooked 2", 276, lambda data: cooked2(0x0800, data), [cooked2(0x86DD, SIX), cooked2(0x0800, ONE)[:19]]),
    ("null, little-endian", 0, lambda data: b"\2\0\0\0" + data, [b"\x1e\0\0\0" + SIX, b"\2\0\0", b"\0\2\0\0" + ONE]),
    ("null, big-endian", 0, lambda data: b"\0\0\0\2" + data, [b"\0\0\0\x18" + SIX]),
    ("loop", 108, lambda data: b"\0\0\0\2" + data, [b"\0\0\0\x18" + SIX, b""]),
]


# ---- Files

def pcap(frames, link, order="<", magic=0xA1B2C3D4, version=(2, 4)):
    """Frames as (time, bytes, original length)."""
    data = struct.pack(order + "IHHiIII", magic, *version, 0, 0, 65535, link)
    return data + b"".join(struct.pack(order + "IIII", time, 999999, len(one), original) + one for time, one, original in frames)


def block(order, kind, body):
    length = len(body) + 12
    return struct.pack(order + "II", kind, length) + body + struct.pack(order + "I", length)


def padded(data):
    return data + bytes(-len(data) % 4)


def section(order, version=1, options=b""):
    return block(order, 0x0A0D0D0A, struct.pack(order + "IHHq", 0x1A2B3C4D, version, 0, -1) + options)


def interface(order, link, most=0, options=()):
    coded = b"".join(struct.pack(order + "HH", number, len(value)) + padded(value) for number, value in options)
    return block(order, 1, struct.pack(order + "HHI", link, 0, most) + coded + (struct.pack(order + "HH", 0, 0) if options else b""))


def enhanced(order, time, one, original=None, place=0, options=b""):
    return block(order, 6, struct.pack(order + "IIIII", place, time >> 32, time & 0xFFFFFFFF, len(one), len(one) if original is None else original)
                 + padded(one) + options)


def old(order, time, one, place=0):
    return block(order, 2, struct.pack(order + "HHIIII", place, 5, time >> 32, time & 0xFFFFFFFF, len(one), len(one)) + padded(one))


def simple(order, one, original=None):
    return block(order, 3, struct.pack(order + "I", len(one) if original is None else original) + padded(one))


# ---- What is expected

def expected(*datagrams):
    """The program's input, of (interface, bytes)."""
    return LISTS + formats.encode_datagrams(datagrams)


class Captures:
    def __init__(self, folder):
        self.folder, self.settings, self.file = folder, folder / "settings", folder / "capture"
        self.settings.write_text(SETTINGS)

    def run(self, data, *words):
        self.file.write_bytes(data)
        return run("from-pcap", "--settings", self.settings, *words, self.file)

    def gives(self, what, data, datagrams, *words):
        same(what, given(f"{what}: taken", self.run(data, *words)), expected(*datagrams))

    def replayed(self, what, data, *words):
        """Interface, time, memory and datagram of each call."""
        self.file.write_bytes(data)
        out = given(what, run("from-pcap", "--replay", "--text", *words, self.file)).decode().split("\n")
        values = [dict(word.split("=") for word in line.split()[1:]) for line in out if line.startswith("receive ")]
        return [(int(one["interface"]), int(one["time"]), int(one["memory"])) for one in values]


def link_types(captures):
    for name, link, framed, others in LINKS:
        frames = [framed(ONE), *others, framed(UDP), framed(TWO)]
        timed = [(7, one, len(one)) for one in frames]
        for order in ORDERS:
            for magic in (0xA1B2C3D4, 0xA1B23C4D):
                captures.gives(f"{name}, pcap, {ORDERS[order]}, {magic:x}", pcap(timed, link, order, magic), [(0, ONE), (0, TWO)])
            if not name.startswith("raw IP,"):
                captures.gives(f"{name}, no byte more", pcap([(7, framed(b""), len(framed(b"")))], link), [(0, b"")], "--all")
            captures.gives(f"{name}, pcap, all of IPv4", pcap(timed, link, order), [(0, ONE), (0, UDP), (0, TWO)], "--all")
            start = section(order) + interface(order, link)
            for kind, blocks in (("enhanced", [enhanced(order, 5, one) for one in frames]), ("simple", [simple(order, one) for one in frames]),
                                 ("old", [old(order, 5, one) for one in frames])):
                captures.gives(f"{name}, pcapng, {kind}, {ORDERS[order]}", start + b"".join(blocks), [(0, ONE), (0, TWO)])


def sections(captures):
    """Interfaces, sections in both orders, blocks that are passed over, options."""
    mixed = b"".join((
        section("<", options=struct.pack("<HH4sHH", 4, 4, b"tool", 0, 0)), interface("<", 1),
        interface("<", 101, options=((2, b"tun0"), (9, b"\x09"))), block("<", 5, bytes(12)), interface("<", 113), interface("<", 228),
        enhanced("<", 1, ONE, place=1, options=struct.pack("<HHIHH", 2, 4, 1, 0, 0)), block("<", 0x0BAD, b"none"),
        enhanced("<", 1, ONE, place=3), enhanced("<", 1, ether(0x0800, TWO)),
        section(">"), interface(">", 0), old(">", 1, b"\0\0\0\2" + ONE), enhanced(">", 1, b"\0\0\0\2" + UDP)))
    captures.gives("sections and interfaces", mixed, [(1, ONE), (3, ONE), (0, TWO), (0, ONE)])
    captures.gives("one interface for all", mixed, [(9, ONE), (9, ONE), (9, TWO), (9, ONE), (9, UDP)], "--interface", 9, "--all")
    captures.gives("the last interface for all", mixed, [(255, ONE), (255, ONE)], "--interface", 255, "--count", 2)
    captures.gives("skipped and counted", mixed, [(3, ONE), (0, TWO)], "--skip", 1, "--count", 2)
    check("no datagram counted", captures.run(mixed, "--count", 0)[1] == expected())
    captures.gives("interface 255", section("<") + interface("<", 101) * 256 + enhanced("<", 1, ONE, place=255), [(255, ONE)])
    many = section("<") + interface("<", 101) * 257 + enhanced("<", 1, ONE, place=256)
    refused("interface 256", captures.run(many), str(captures.file), "packet 1 came by interface 256", "--interface")
    captures.gives("interface 256, said otherwise", many, [(0, ONE)], "--interface", 0)
    standard = given("from standard input", run("from-pcap", "--settings", captures.settings, "-", stdin=mixed))
    same("from standard input, the same", standard, captures.run(mixed)[1])


def times(captures):
    """The capture's seconds, for `replay`."""
    frames = [(0, ONE, len(ONE)), (4294967295, ONE, len(ONE)), (9, UDP, len(UDP))]
    same("times of pcap", captures.replayed("pcap for replay", pcap(frames, 101)), [(0, 0, 16384), (0, 4294967295, 16384)])
    for name, options, ticks, offset in (("default", (), 10 ** 6, 0), ("nanoseconds", ((9, b"\x09"),), 10 ** 9, 0), ("seconds", ((9, b"\0"),), 1, 0),
                                         ("of two", ((9, b"\x94"),), 2 ** 20, 0), ("offset", ((14, struct.pack(">q", -100)),), 10 ** 6, -100),
                                         ("none behind the end", ((9, b"\0"), (0, b""), (9, b"\6")), 1, 0),
                                         ("of a wrong length", ((9, b"\0\0"), (14, b"\0\0\0\1"), (1, bytes(8))), 10 ** 6, 0)):
        start = section(">") + interface(">", 101, options=options)
        data = start + enhanced(">", 1794916800 * ticks + ticks // 2, ONE) + simple(">", ONE) + old(">", 200 * ticks, ONE)
        same(f"times, {name}", captures.replayed(f"pcapng for replay, {name}", data, "--interface", 2),
             [(2, 1794916800 + offset, 16384), (2, 1794916800 + offset, 16384), (2, 200 + offset, 16384)])
    start = section(">") + interface(">", 101, options=((14, struct.pack(">q", -1)),))
    same("no time known yet", captures.replayed("a simple block alone", section("<") + interface("<", 101) + simple("<", ONE)), [(0, 0, 16384)])
    seconds = section("<") + interface("<", 101, options=((9, b"\0"),))
    same("the last time", captures.replayed("a capture of 2106", seconds + enhanced("<", 4294967295, ONE)), [(0, 4294967295, 16384)])
    captures.file.write_bytes(seconds + enhanced("<", 4294967296, ONE))
    refused("a time after that", run("from-pcap", "--replay", "--text", captures.file), "packet 1 has time 4294967296")
    captures.file.write_bytes(start + enhanced(">", 0, ONE))
    refused("a time before 0", run("from-pcap", "--replay", "--text", captures.file), "packet 1 has time -1")
    captures.gives("the program needs none", start + enhanced(">", 0, ONE), [(0, ONE)])
    captures.settings.with_name("services").write_text("locator 10.0.0.1\nttl 9\n")
    captures.file.write_bytes(pcap([(5, ONE, len(ONE))], 101))
    data = given("an input of replay", run("from-pcap", "--replay", "--settings", captures.settings.with_name("services"), captures.file))
    settings = formats.encode_services([formats.Settings([(CENTRE, 0)], [], [], ttl=9)])
    same("an input of replay, byte for byte", data, settings + formats.encode_call("receive", (0, 0, 5, 16384, ONE)))
    same("and its line", program("replay", data), f"receive deliver 20 {len(INNER)}\n")


def short(captures):
    """Snapped packets, and captures that are cut off."""
    snapped = [(1, ONE, len(ONE)), (1, ONE[:40], len(ONE)), (1, UDP[:20], 99), (1, TWO, len(TWO) + 1)]
    blocks = section("<") + interface("<", 101) + b"".join(enhanced("<", 1, one, size) for _, one, size in snapped)
    simples = section("<") + interface("<", 101, 63) + simple("<", ONE[:63], 63) + simple("<", ONE[:63], 64) + simple("<", TWO[:63], len(TWO))
    for what, data in (("pcap", pcap(snapped, 101)), ("enhanced", blocks), ("simple", simples)):
        status, out, err = captures.run(data)
        taken = ONE[:63] if what == "simple" else ONE
        check(f"snapped packets of {what}", (status, out) == (0, expected((0, taken))) and err.count("\n") == 1
              and "warning: 2 datagrams left out: fewer bytes were captured than came" in err, (status, err))
    status, out, err = captures.run(pcap([(1, UDP, len(UDP)), (1, SIX, len(SIX)), (1, ONE[:30], 99)], 101), "--skip", 1)
    check("nothing taken", (status, out) == (0, expected())
          and "no datagram is taken of 3 packets: 1 without IPv4, 1 of another protocol than 41, 1 captured short" in err, err)
    status, out, err = captures.run(pcap([(1, ONE[:9], len(ONE)), (1, ONE[:10], len(ONE)), (1, UDP[:10], len(UDP)), (1, ONE[:9], 9)], 101))
    check("snapped before the protocol", (status, out) == (0, expected()) and "2 datagrams left out" in err
          and "0 without IPv4, 2 of another protocol than 41, 2 captured short" in err, err)
    whole = pcap([(1, ONE, len(ONE)), (1, TWO, len(TWO))], 101)
    blocks = section("<") + interface("<", 101) + enhanced("<", 1, ONE) + enhanced("<", 1, TWO)
    for what, data, first in (("pcap", whole, 24 + 16 + len(ONE)), ("pcapng", blocks, len(blocks) - len(enhanced("<", 1, TWO)))):
        ends = {"pcap": (24, first), "pcapng": (28, 48, first)}[what]  # where a capture may end
        for end in sorted({*range(60), first - 1, first + 1, first + 8, first + 15, first + 17, len(data) - 1} - {*ends}):
            refused(f"{what} cut off at {end}", captures.run(data[:end]), str(captures.file), "cut off", "--partial")
        status, out, err = captures.run(data[:-1], "--partial")
        check(f"{what}, the part before", (status, out) == (0, expected((0, ONE))) and "cut off" in err and "warning" in err, err)


def limits(captures):
    """As many as fit, and no more."""
    fill = ONE + bytes(5000)
    exact = ONE + bytes(formats.PROGRAM_LIMIT - len(expected((0, fill), (0, ONE))))
    data = captures.run(pcap([(1, fill, len(fill)), (1, exact, len(exact))], 101))[1]
    same("an input of 65,536 bytes", (len(data), program("tunnel", data)), (65536, f"datagrams 2\n1 deliver {len(INNER)}\n2 deliver {len(INNER)}\n"))
    over = pcap([(1, fill, len(fill)), (1, exact + b"\0", len(exact) + 1)], 101)
    refused("an input of 65,537 bytes", captures.run(over), str(captures.file), "65,536", "room for 1;", "--skip and --count")
    captures.gives("a part of it", over, [(0, exact + b"\0")], "--skip", 1)
    most = ONE + bytes(65535 - len(ONE))
    captures.file.write_bytes(pcap([(1, most, 65535)], 101))
    same("a datagram of 65,535 bytes", len(given("for replay", run("from-pcap", "--replay", "--text", captures.file)).split(b"datagram=")), 2)
    long = pcap([(1, ONE + bytes(65536 - len(ONE)), 65536)], 101)
    refused("a datagram of 65,536 bytes", captures.run(long), "packet 1 has 65,536 bytes")


START = section("<") + interface("<", 101)
MALFORMED = {
    "empty": (b"", "byte 0: the magic number is cut off"),
    "no capture": (b"what is this", "byte 0: neither pcap nor pcapng"),
    "gzip": (b"\x1f\x8b\x08\0\0", "byte 0: packed by gzip"),
    "version 3": (pcap([], 101, version=(3, 0)), "byte 4: pcap of version 3"),
    "a modified pcap": (struct.pack("<I", 0xA1B2CD34) + bytes(60), "neither pcap nor pcapng"),
    "another link": (pcap([(0, ONE, len(ONE))], 127), "link type 127"),
    "a long packet": (pcap([], 101) + struct.pack("<IIII", 0, 0, 262145, 262145) + bytes(262145), "byte 32: packet 1 has 262,145 bytes"),
    "no order": (struct.pack("<III", 0x0A0D0D0A, 28, 0) + bytes(16), "byte 8: a section block without its byte order"),
    "section version 2": (section("<", 2), "byte 12: a section of another version"),
    "a short section": (block("<", 0x0A0D0D0A, struct.pack("<IHH", 0x1A2B3C4D, 1, 0)), "byte 12: a section of another version"),
    "a block of 13": (section("<") + struct.pack("<II", 5, 13) + bytes(5), "byte 32: a block of 13 bytes"),
    "a block of 8": (section("<") + struct.pack("<II", 5, 8), "byte 32: a block of 8 bytes"),
    "a block of 16 MiB": (section("<") + struct.pack("<II", 5, (1 << 24) + 4) + bytes(9), "byte 32: a block of 16,777,220"),
    "two lengths": (section("<") + struct.pack("<II", 5, 16) + bytes(4) + struct.pack("<I", 20), "byte 40: a block whose two lengths differ"),
    "a short interface": (section("<") + block("<", 1, bytes(4)), "byte 36: an interface block"),
    "no interface": (section("<") + enhanced("<", 0, ONE), "byte 36: packet 1 is of interface 0"),
    "interface of another section": (START + section("<") + simple("<", ONE), "byte 84: packet 1 is of interface 0"),
    "a short block": (START + block("<", 6, bytes(16)), "byte 56: the block of packet 1 is too short"),
    "a short simple block": (START + block("<", 3, b""), "byte 56: the block of packet 1 is too short"),
    "more than its block": (START + block("<", 6, struct.pack("<IIIII", 0, 0, 0, 64, 64) + bytes(60)), "byte 56: packet 1 has 64 bytes, its block room for 60"),
    "a simple one, more than its block": (START + block("<", 3, struct.pack("<I", 64) + bytes(60)), "byte 56: packet 1 has 64 bytes, its block room for 60"),
}


def malformed(captures):
    for name, (data, part) in MALFORMED.items():
        refused(f"malformed: {name}", captures.run(data), str(captures.file), part)


def others(captures):
    """Captures that text2pcap and editcap write."""
    if not (shutil.which("text2pcap") and shutil.which("editcap")):
        print("tests/tool: text2pcap and editcap are not installed: no capture of theirs is read")
        return
    dump, first, second = captures.folder / "dump", captures.folder / "first", captures.folder / "second"
    dump.write_text("".join("0000 " + " ".join(f"{byte:02x}" for byte in one) + "\n" for one in (ONE, UDP, TWO)))
    for link in (101, 228, 12):
        written = subprocess.run(["text2pcap", "-q", "-l", str(link), dump, first], stderr=subprocess.PIPE)
        check("text2pcap writes", written.returncode == 0, written.stderr)
        for kind in ("pcap", "nsecpcap", "pcapng"):
            made = subprocess.run(["editcap", "-F", kind, first, second], stderr=subprocess.PIPE)
            check("editcap writes", made.returncode == 0, made.stderr)
            captures.gives(f"editcap's {kind} of link {link}", second.read_bytes(), [(0, ONE), (0, TWO)])
    made = subprocess.run(["editcap", "-F", "pcapng", "-s", "30", first, second], stderr=subprocess.PIPE)
    status, out, err = captures.run(second.read_bytes())
    check("editcap's snapped packets", made.returncode == 0 and (status, out) == (0, expected()) and "2 datagrams left out" in err, err)


def recorded(captures):
    """A recording, and the input of the program that compares two."""
    first, second, third = (captures.folder / name for name in ("before", "after", "many"))
    first.write_bytes(section("<") + interface("<", 101) * 4 + enhanced("<", 1, ONE, place=3) + enhanced("<", 1, UDP) + enhanced("<", 1, TWO))
    second.write_bytes(pcap([(9, TWO, len(TWO)), (9, SIX, len(SIX)), (9, UDP, len(UDP))], 101))
    one, other = formats.encode_datagrams([(3, ONE), (0, TWO)]), formats.encode_datagrams([(0, TWO)])
    same("a recording", given("recorded", run("from-pcap", "--recording", first)), one)
    same("a recording of a part", run("from-pcap", "--recording", "--all", "--skip", 1, "--count", 1, first)[1], formats.encode_datagrams([(0, UDP)]))
    same("a recording on one interface", run("from-pcap", "--recording", "--interface", 9, second)[1], formats.encode_datagrams([(9, TWO)]))
    for words, masked, room in (((), 0, 1 << 20), (("--masked",), 1, 1 << 20), (("--room", 6), 0, 6), (("--room", 0, "--masked"), 1, 0)):
        data = given(f"two recordings {words}", run("from-pcap", "--recordings", second, *words, first))
        same(f"two recordings {words}, byte for byte", data, recordings.encode(masked, room, one, other))
        same(f"two recordings {words}, the lines", program("recordings", data), formats.text(recordings.recordings(data)).decode())
    data = run("from-pcap", "--recordings", second, "--all", first)[1]
    wanted = formats.encode_datagrams([(3, ONE), (0, UDP), (0, TWO)]), formats.encode_datagrams([(0, TWO), (0, UDP)])
    same("options of both captures", data, recordings.encode(0, 1 << 20, *wanted))
    frames = [(1, ONE, len(ONE))] * 65535
    third.write_bytes(pcap(frames, 101))
    same("65,535 datagrams", len(run("from-pcap", "--recording", third)[1]), 2 + 65535 * (3 + len(ONE)))
    refused("more than the program reads", run("from-pcap", "--recordings", second, third), str(third), "1,048,576", "`recordings`", "--skip and --count")
    refused("more than the program reads, in the second", run("from-pcap", "--recordings", third, second), str(third), "1,048,576", "`recordings`")
    left = 1048576 - 9 - len(other) - 2 - 3
    for size, more in ((left - 15 * 65538, 0), (left - 15 * 65538 + 1, 1)):
        third.write_bytes(pcap([(1, ONE + bytes(65535 - len(ONE)), 65535)] * 15 + [(1, ONE + bytes(size - len(ONE)), size)], 101))
        result = run("from-pcap", "--recordings", third, second)
        if more:
            refused("an input of 1,048,577 bytes", result, "room for 15;")
        else:
            same("an input of 1,048,576 bytes", len(given("as long as may be", result)), 1048576)
    third.write_bytes(pcap(frames + frames[:1], 101))
    refused("65,536 datagrams", run("from-pcap", "--recording", third), str(third), "65,536 datagrams", "65,535")
    for words in (("--recording", "--text"), ("--recording", "--settings", captures.settings), ("--recordings", second, "--text")):
        refused(f"a recording with {words[-1]}", run("from-pcap", *words, first), "neither settings nor a text form")
    for words in (("--recording", "--masked"), ("--recording", "--room", 6), ("--settings", captures.settings, "--masked")):
        refused(f"words {words}", run("from-pcap", *words, first), "--masked and --room go with --recordings")
    refused("a room too large", run("from-pcap", "--recordings", second, "--room", 1048577, first), "1,048,577")
    refused("no second capture", run("from-pcap", "--recordings", captures.folder / "none", first), "none", "No such file")
    shifted(captures, first)


def shifted(captures, first):
    """What is left out of one capture shifts the datagrams behind it against their partners."""
    short, fewer, empty, long = (captures.folder / name for name in ("short", "fewer", "empty", "long"))
    short.write_bytes(pcap([(9, ONE, len(ONE)), (9, TWO[:-1], len(TWO))], 101))
    for words in (("--recording", short), (first, "--recordings", short), (short, "--recordings", first)):
        refused(f"captured short, {words}", run("from-pcap", *words), str(short), "packet 2", "shift")
    changed = TWO[:9] + b"\x11" + TWO[10:]
    fewer.write_bytes(pcap([(9, ONE, len(ONE)), (9, UDP, len(UDP)), (9, changed, len(changed))], 101))
    data = given("a protocol that was changed, with all", run("from-pcap", first, "--all", "--recordings", fewer))
    same("and reported", program("recordings", data).splitlines()[1:], ["3 9 1"])
    empty.write_bytes(pcap([], 101))
    for size in range(1048564, 1048568):
        longest = [(1, ONE + bytes(65535 - len(ONE)), 65535)] * 15
        last = size - 2 - 15 * 65538 - 3
        long.write_bytes(pcap(longest + [(1, ONE + bytes(last - len(ONE)), last)], 101))
        status, out, err = run("from-pcap", long, "--recordings", empty)
        if size + 2 + 9 <= 1048576:
            same(f"a first recording of {size} bytes", (status, len(out)), (0, size + 2 + 9))
        else:
            check(f"a first recording of {size} bytes", (status, out) == (2, b"") and "1,048,576" in err, (status, len(out), err))
    refused("standard input twice", run("from-pcap", "-", "--recordings", "-"), "standard input is one capture")


def tests(folder):
    captures = Captures(folder)
    for part in (link_types, sections, times, short, limits, malformed, recorded, others):
        part(captures)
