"""to-pcap: the structs and calls against the header, what is written against the model, and the whole as tshark sees it."""
import ctypes
import shutil
import struct
import subprocess

from model import formats
from model.node import Node
from model.rules import Refused

from .harness import ROOT, check, gate_inputs, given, refused, run, same

from bogtrumpet_tool import library  # noqa: E402

C_TYPES = {ctypes.c_uint8: "uint8_t", ctypes.c_uint16: "uint16_t", ctypes.c_uint32: "uint32_t", ctypes.c_size_t: "size_t",
           ctypes.c_char_p: "const uint8_t *", ctypes.POINTER(ctypes.c_uint8): "uint8_t *"}


# ---- The header

def c_type(kind, name):
    """A type of the tool's as the header writes it. A node that is only read is lent as const."""
    if kind == library.NODE:
        return ("const " if name == "advertise" else "") + "struct bogtrumpet_node *"
    return C_TYPES.get(kind) or f"struct bogtrumpet_{kind.__name__}"


def header_program():
    """A program that does not compile where a call has other types, and prints the size of each struct and where its fields are."""
    lines = ['#include "bogtrumpet.h"', "#include <stdio.h>"]
    for name, (answer, arguments) in library.CALLS.items():
        lines.append(f"{c_type(answer, name)} (*call_{name})({', '.join(c_type(one, name) for one in arguments)}) = bogtrumpet_{name};")
    lines.append("int main(void) {")
    for one in library.STRUCTS:
        lines.append(f'printf("{one.__name__} %zu\\n", sizeof(struct bogtrumpet_{one.__name__}));')
        for field, _ in one._fields_:
            where = f"struct bogtrumpet_{one.__name__}, {field}"
            lines.append(f'printf("{one.__name__} {field} %zu %zu\\n", offsetof({where}), sizeof(((struct bogtrumpet_{one.__name__} *)0)->{field}));')
    lines.append('for (unsigned n = 0; n < 256; n++) printf("number %u %s\\n", n, bogtrumpet_number_text((uint8_t)n));')
    return "\n".join(lines + ["return 0; }"]) + "\n"


def tool_lines():
    for one in library.STRUCTS:
        yield f"{one.__name__} {ctypes.sizeof(one)}"
        for field, _ in one._fields_:
            where = getattr(one, field)
            yield f"{one.__name__} {field} {where.offset} {where.size}"
    for number in range(256):
        yield f"number {number} {library.TEXTS.get(number, 'no number of bogtrumpet')}"


def header(folder):
    (folder / "header.c").write_text(header_program())
    words = ["cc", "-std=c11", "-Werror", f"-I{ROOT}/include", "header.c", str(ROOT / "target/staticlib/libbogtrumpet.a"), "-o", "header"]
    made = subprocess.run(words, cwd=folder, stderr=subprocess.PIPE)
    check("the calls have the header's types", made.returncode == 0, made.stderr.decode())
    if made.returncode == 0:
        printed = subprocess.run([str(folder / "header")], stdout=subprocess.PIPE).stdout.decode().splitlines()
        same("structs and numbers as in the header", printed, list(tool_lines()))


# ---- The model

def written_lengths(line):
    """How much a call wrote, by its line."""
    words = line.split()
    if words[:2] in (["send", "wrapped"], ["advertise", "written"]):
        return int(words[2])
    if words[:2] == ["send", "too-big"]:
        return int(words[3])
    return 48 if words[0] == "ask" and words[1] != "refuse" else 0


def modelled(data):
    """Time and bytes of what the model writes for a replay input; None where it refuses the settings."""
    reader = formats.Reader(data)
    services, calls = reader.services(), []
    while not reader.ended():
        calls.append(reader.call())
    try:
        node, memories = Node(*services), formats.lent_memories()
    except Refused:
        return None
    packets = []
    for name, arguments in calls:
        if name in ("memory", "part"):
            continue  # they write nothing, and a digest of a memory takes long
        outputs, lent = [], formats.lent
        formats.lent = lambda room: outputs.append(lent(room)) or outputs[-1]
        try:
            line = formats.answer(node, memories, name, arguments)
        finally:
            formats.lent = lent
        if written_lengths(line):
            packets.append((node.services[0].latest, bytes(outputs[0][:written_lengths(line)])))
    return packets


def packets_of(data):
    """Times and packets of a pcap file, read here."""
    head = struct.unpack("<IHHiIII", data[:24])
    same("the pcap header", head, (0xA1B2C3D4, 2, 4, 0, 0, 262144, 101))
    place, packets = 24, []
    while place < len(data):
        time, fraction, captured, original = struct.unpack("<IIII", data[place:place + 16])
        check("a pcap record", fraction == 0 and captured == original)
        packets.append((time, data[place + 16:place + 16 + captured]))
        place += 16 + captured
    return packets


def against_model(folder):
    """The packets of the library, by the tool, and those of the model."""
    compared = 0
    for name, kind, data in gate_inputs():
        if kind != "replay" or name.startswith("bad") or len(data) > 100000:
            continue
        expected = modelled(data)
        (folder / "calls").write_bytes(data)
        result = run("to-pcap", folder / "calls", folder / "out.pcap")
        if expected is None:
            refused(f"{name}: settings", result, str(folder / "calls"), "refuses the settings, by 1: settings or a new router list")
            continue
        same(f"{name}: nothing printed", given(f"{name}: answered", result), b"")
        same(f"{name}: packets as the model writes them", packets_of((folder / "out.pcap").read_bytes()), expected)
        compared += len(expected)
    check("packets were compared", compared > 1000, compared)
    print(f"tests/tool: {compared} packets of the library are the model's")


# ---- tshark

def tshark(file, *words):
    options = [word for one in ("ip", "udp", "tcp") for word in ("-o", f"{one}.check_checksum:TRUE")]  # ICMPv6's are always checked
    done = subprocess.run(["tshark", "-r", str(file), *options, *words], stdout=subprocess.PIPE, stderr=subprocess.PIPE)
    check("tshark reads the file", done.returncode == 0, done.stderr.decode())
    return done.stdout.decode()


def seen_by_tshark(folder):
    if not shutil.which("tshark"):
        print("tests/tool: tshark is not installed: what to-pcap writes is not shown to it")
        return
    calls, out = ROOT / "tools/examples/path.txt", folder / "path.pcap"
    given("the example's packets", run("to-pcap", calls, out))
    same("tshark has no warning", tshark(out, "-q", "-z", "expert,note").strip(), "")
    same("tshark finds nothing malformed", tshark(out, "-Y", "_ws.malformed || _ws.expert"), "")
    fields = ("frame.time_epoch", "ip.proto", "icmpv6.type", "frame.len", "icmpv6.checksum.status")
    rows = [row.split("\t") for row in tshark(out, "-T", "fields", *[word for one in fields for word in ("-e", one)]).splitlines()]
    same("tshark sees the packets", [(int(float(row[0])), *row[1:4]) for row in rows],
         [(1000, "41", "128", "1500"), (1002, "", "2,128", "1280"), (1003, "41", "128", "1400"), (1004, "", "133", "48"), (1005, "", "134", "104"),
          (1601, "41", "128", "1500")])
    check("tshark finds the ICMPv6 checksums right", all(row[4].startswith("1") for row in rows), rows)
    spoiled = bytearray(out.read_bytes())
    spoiled[24 + 16 + 8] ^= 1
    (folder / "spoiled.pcap").write_bytes(spoiled)
    check("tshark would warn", "checksum" in tshark(folder / "spoiled.pcap", "-q", "-z", "expert,note").lower())


def errors(folder):
    calls, out = folder / "calls", folder / "none" / "out.pcap"
    calls.write_text("replay\nlocator 10.0.0.1\nask time=1 room=x\n")
    refused("to-pcap of a wrong text", run("to-pcap", calls, folder / "out.pcap"), f"{calls}:3:")
    calls.write_text("program\nlocator 10.0.0.1\n")
    refused("to-pcap of a text for the program", run("to-pcap", calls, folder / "out.pcap"), f"{calls}:1:", "for `program`, not for `replay`")
    calls.write_bytes((ROOT / "crates/tunnel/stdin").read_bytes())
    refused("to-pcap of an input of the program", run("to-pcap", calls, folder / "out.pcap"), f"{calls}: byte 0")
    calls.write_text("locator 10.0.0.1\nrouter 10.0.0.2\nask time=5\n")
    refused("to-pcap into no folder", run("to-pcap", calls, out), str(out), "No such file")
    status, data, _ = run("to-pcap", calls, "-")
    same("to-pcap to standard output", (status, [(time, len(one)) for time, one in packets_of(data)]), (0, [(5, 48)]))


def tests(folder):
    for part in (header, against_model, seen_by_tshark, errors):
        part(folder)
