"""What is wrong is told with its place, in one line, with status 2 and no output; whatever comes, there is no traceback."""
import os
import random
import subprocess

from model import generator

from . import captures, texts
from .harness import ROOT, TOOL, check, given, refused, run, same, started
from .wrong_texts import WRONG_TEXTS, P, R

SINGLE = bytes.fromhex("05dc 40 0078 0001 00")  # link size, TTL, interval, identification, the default reporting address
ROUTERS = b"\x0a\0\0\2" * 65535
REPLAY = b"\1" + bytes.fromhex("0001 0a000001 07 0000 0000") + SINGLE
ADVERTISE = REPLAY + bytes.fromhex("08 00 00 0000 00 0000 0000 0001 00 03 00000000") + bytes(16)
# Format, input, where it is bad and why
BAD_INPUTS = [
    ("--replay", b"", "byte 0: cut off, 1 byte should stand here and 0 do"), ("--replay", b"\3", "byte 0: a number of services of 3"),
    ("--replay", b"\0", "byte 0: a number of services of 0"), ("--replay", REPLAY[:-1] + b"\2", "byte 19: `reporting`: 2 where 1 is the most"),
    ("--replay", REPLAY[:-1] + b"\1" + bytes(15), "byte 20: `reporting`: cut off, 16 bytes should stand here and 15 do"),
    ("--replay", REPLAY + b"\x0b", "byte 20: a call of kind 11; there are 1 to 10"), ("--replay", REPLAY + b"\0", "byte 20: a call of kind 0"),
    ("--replay", REPLAY + b"\x09\2", "byte 21: `service`: 2 where 1 is the most"), ("--replay", ADVERTISE, "byte 33: `route`: 3 where 2 is the most"),
    ("--replay", REPLAY + b"\x0a\0\7\0\2\1", "byte 25: `datagram`: cut off, 2 bytes should stand here and 1 does"),
    ("--program", b"\0\1\x0a\0", "byte 2: `address`: cut off, 4 bytes should stand here and 2 do"),
    ("--program", bytes(8) + b"\1", "byte 8: 1 byte behind the last datagram"), ("--program", bytes(8) + b"\1\2", "byte 8: 2 bytes behind"),
    ("--program", bytes(65537), "more than the 65,536 bytes that `tunnel` reads"), ("--replay", bytes(1048577), "more than the 1,048,576 bytes"),
]


def bad_inputs(folder):
    file = folder / "input"
    for format, data, part in BAD_INPUTS:
        file.write_bytes(data)
        refused(f"bad input {data[:40].hex()}", run("decode", format, file), f"{file}: {part}", "answers this input by `bad input`")


def wrong_texts(folder):
    file = folder / "text"
    for text, line, part in WRONG_TEXTS:
        file.write_text(text)
        refused(f"text {text!r}", run("encode", file), f"{file}:{line}: ", part)
    file.write_bytes(b"program\nlocator 10.0.0.1 # \xff\n")
    refused("not UTF-8", run("encode", file), f"{file}:2: not UTF-8")
    file.write_text("")
    refused("an empty text", run("encode", file), f"{file}: nothing stands here")
    file.write_text(P)
    refused("a text for the other program", run("encode", "--replay", file), f"{file}:1:", "for `program`, not for `replay`")
    file.write_text(P + "datagram bytes=00*65520\n")
    same("a text of 65,536 bytes", len(given("the longest text", run("encode", file))), 65536)
    file.write_text(P + "datagram bytes=00*65521\n")
    refused("a text of more", run("encode", file), f"{file}: the input would have 65,537 bytes", "65,536")
    file.write_text(R + "part datagram=00*65535\n" * 16)
    refused("a text of more for replay", run("encode", file), str(file), "1,048,576")
    file.write_text("replay\n" + "router 10.0.0.2\n" * 65535 + "routers time=1" + " router=10.0.0.2" * 65535)
    data = given("as many routers as can be counted", run("encode", file))
    same("as many routers, byte for byte", data[3:], b"\0\0\xff\xff" + ROUTERS + SINGLE + b"\4\0\0\0\0\1\xff\xff" + ROUTERS)
    file.write_text("program\n" + "router 10.0.0.2\n" * 65536)
    refused("more routers than can be counted", run("encode", file), str(file), "65,536 lines of `router`")
    file.write_text(R + "routers time=1" + " router=10.0.0.2" * 65536)
    refused("a longer list than can be counted", run("encode", file), str(file), "65,536 values")


def wrong_words(folder):
    text, none = folder / "text", folder / "none"
    text.write_text(P)
    capture = ROOT / "tools/examples/capture.pcap"
    pcap = ("from-pcap", "--settings", text, capture)
    for words, part in (((), "COMMAND"), (("frob",), "invalid choice"), (("encode",), "TEXT"), (("to-pcap", text), "OUT.pcap"),
                        (("encode", "--program", "--replay", text), "not allowed"), (("decode", "a", "b"), "unrecognized"),
                        ((*pcap, "--interface", "256"), "0 to 255"), ((*pcap, "--interface", "x"), "no number"),
                        ((*pcap, "--skip", "-1"), "no number"), ((*pcap, "--count", "1_0"), "no number")):
        status, out, err = run(*words)
        check(f"words {words}", status == 2 and out == b"" and "usage:" in err and part in err and "Traceback" not in err, (status, out, err))
    for words in (("encode", none), ("decode", none), ("from-pcap", "--settings", none, capture), ("from-pcap", "--settings", text, none),
                  ("to-pcap", none, folder / "out")):
        refused(f"no such file: {words[0]}", run(*words), str(none), "No such file")
    for words in (("encode", folder), ("decode", folder), ("from-pcap", "--settings", text, folder), ("to-pcap", text, folder)):
        refused(f"a folder: {words[0]}", run(*words), "directory" if words[0] != "to-pcap" else "for `program`")
    refused("a name that no file has", run("encode", "a\0b"), "null")
    refused("more than anything needs", run("encode", "/dev/zero"), "/dev/zero: more than")
    refused("an input that starts as neither", run("decode", "-", stdin=b"\3"), "-: ", "say --program or --replay")
    refused("an empty input", run("decode", "-"), "say --program or --replay")
    refused("an empty input of the program", run("decode", "--program", "-"), "byte 0: cut off, 2 bytes should stand here and 0 do")
    refused("no settings", run("from-pcap", capture), "--settings")
    text.write_text(P + "datagram bytes=00\n")
    refused("settings with a call", run("from-pcap", "--settings", text, capture), str(text), "settings alone")
    text.write_text(R)
    refused("settings for replay", run("from-pcap", "--settings", text, capture), f"{text}:1:")
    text.write_text("program\n" + "router 10.0.0.2\n" * 20000)
    refused("more settings than fit", run("from-pcap", "--settings", text, capture), str(text), "65,536")
    for words in (("explain", "32"), ("explain", "-0"), ("explain", "1", "x"), ("explain", "٣"), ("explain", "0" * 5000)):
        status, out, err = run(*words)
        check(f"words {words[0]} {words[-1][:9]}", status == 2 and out == b"" and ("0 to 31" in err or "usage:" in err), (status, err))


def streams(folder):
    """The command itself, on streams that fail."""
    stdin = ROOT / "crates/tunnel/stdin"
    text = ROOT / "crates/tunnel/stdout"
    with open("/dev/full", "wb") as full:
        done = subprocess.run([TOOL, "decode", stdin], stdout=full, stderr=subprocess.PIPE)
    check("a full disk", done.returncode == 2 and done.stderr == b"standard output: No space left on device\n", done)
    reading, writing = os.pipe()
    os.close(reading)
    done = subprocess.run([TOOL, "decode", stdin], stdout=writing, stderr=subprocess.PIPE)
    os.close(writing)
    check("a reader that has gone", done.returncode == 2 and done.stderr == b"standard output: Broken pipe\n", done)
    done = subprocess.run(["sh", "-c", f'"{TOOL}" decode "{stdin}" >&-'], stderr=subprocess.PIPE)
    check("standard output closed", done.returncode == 2 and b"Traceback" not in done.stderr and b"standard output" in done.stderr, done)
    done = subprocess.run(["sh", "-c", f'"{TOOL}" encode - <&-'], stdout=subprocess.PIPE, stderr=subprocess.PIPE)
    check("standard input closed", done.returncode == 2 and b"Traceback" not in done.stderr and b"standard input" in done.stderr, done)
    refused("the command's own refusal", started("encode", text), f"{text}:1:")
    out = given("the command itself", started("decode", stdin))
    same("the command itself, back", given("from standard input", started("encode", "-", stdin=out)), stdin.read_bytes())
    for words in ((), ("encode",), ("decode",), ("from-pcap",), ("to-pcap",), ("explain",)):
        status, out, err = run(*words, "--help")
        check(f"help of {words}", status == 0 and err == "" and b"not proved" in out and b"usage: bogtrumpet-tool" in out, out)


# ---- Whatever comes

def bent(chooser, data, tokens):
    """The bytes with a few changes."""
    data = bytearray(data)
    for _ in range(chooser.randint(1, 4)):
        start = chooser.randrange(len(data) + 1)
        end = min(len(data), start + chooser.choice((0, 1, 1, 2, 4, 20)))
        noise = bytes(chooser.randrange(256) for _ in range(end - start))
        data[start:end] = chooser.choice((b"", noise, chooser.choice(tokens), data[:chooser.randrange(9)]))
    return bytes(data[:chooser.randrange(len(data) + 1)] if chooser.random() < 0.1 else data)


def judged(what, result, data):
    """Status 0, or 2 and then one line and no output."""
    status, out, err = result
    right = status == 0 or status == 2 and out == b"" and err.count("\n") == 1
    check(what, right, (status, err, data[:300]))
    return status == 0


def any_text(chooser, rounds):
    examples = [(ROOT / "tools/examples" / name).read_bytes() for name in ("worked.txt", "capture.txt")]
    sources = [text.encode() for _, text, _ in texts.NORMAL] + examples
    tokens = (b" ", b"\n", b"=", b"#", b"\xff", b"\0", b"*", b"+", b"@", b"@.", b"@/dev/null", b",", b"/", b":", b"service 1\n", b"packet=",
              b"99999", b"0x", b"-1", b"replay\n", "é".encode())
    taken = 0
    for _ in range(rounds):
        data = bent(chooser, chooser.choice(sources), tokens)
        result = run("encode", "-", stdin=data)
        if judged("any text", result, data):
            taken += 1
            first = next(line.split()[0] for line in data.split(b"\n") if line.split() and not line.split()[0].startswith(b"#"))
            normal = given("any text, decoded", run("decode", "--" + first.decode(), "-", stdin=result[1]))
            same("any text, its normal form says the same", run("encode", "-", stdin=normal)[1], result[1])
    check("texts of both kinds came", 0.02 * rounds < taken < 0.9 * rounds, f"{taken} of {rounds} taken")


def any_input(chooser, rounds):
    taken = 0
    for turn in range(rounds):
        kind = chooser.choice(("program", "replay"))
        source = generator.program_input(turn % 5) if kind == "program" else generator.generate(turn % 5, 8)
        data = bent(chooser, source[:chooser.choice((60, 400, 3000))] if chooser.random() < 0.3 else source, (b"\0", b"\1", b"\xff\xff", b"\0\0"))
        result = run("decode", texts.FLAG[kind], "-", stdin=data)
        good = judged("any input", result, data)
        check("any input, as the model judges it", good == (texts.modelled(kind, data) is not None), data[:300])
        if good:
            taken += 1
            same("any input, back", run("encode", "-", stdin=result[1])[1], data)
        if kind == "replay":
            judged("any input, answered by the library", run("to-pcap", "-", "-", stdin=data), data)
    check("inputs of both kinds came", 0.02 * rounds < taken < 0.95 * rounds, f"{taken} of {rounds} taken")


def any_capture(chooser, rounds, folder):
    frames = [(7, framed(captures.ONE), len(framed(captures.ONE))) for _, link, framed, _ in captures.LINKS if link == 1]
    order = "<"
    blocks = captures.section(order) + captures.interface(order, 1, options=((9, b"\6"), (14, bytes(8)))) + b"".join(
        captures.enhanced(order, 5, one) + captures.simple(order, one) + captures.old(order, 5, one) for _, one, _ in frames)
    sources = [captures.pcap(frames, 1), captures.pcap(frames, 1, ">", 0xA1B23C4D), blocks]
    (folder / "settings").write_text(captures.SETTINGS)
    taken = 0
    for _ in range(rounds):
        data = bent(chooser, chooser.choice(sources), (b"\0\0\0\0", b"\xff\xff\xff\xff", b"\x10\0\0\0", b"\x0a\x0d\x0d\x0a", b"\x81\0"))
        words = chooser.choice(((), ("--all",), ("--partial",), ("--replay",), ("--text",)))
        settings = folder / ("replay_settings" if "--replay" in words else "settings")
        status, out, err = run("from-pcap", "--settings", settings, *words, "-", stdin=data)
        right = status == 0 or status == 2 and out == b"" and err.count("\n") == 1
        check("any capture", right and "Traceback" not in err, (status, err, data[:300]))
        taken += status == 0
    check("captures of both kinds came", 0.02 * rounds < taken < 0.95 * rounds, f"{taken} of {rounds} taken")


def tests(folder):
    wrong_texts(folder)
    bad_inputs(folder)
    wrong_words(folder)
    streams(folder)
    (folder / "replay_settings").write_text(R)
    chooser = random.Random(19)
    any_text(chooser, 800)
    any_input(chooser, 300)
    any_capture(chooser, 800, folder)
