"""The commands of bogtrumpet-tool."""
import argparse
import sys

from . import captures, inputs, texts
from .numbers import NUMBERS, explained
from .streams import about, content, put, put_lines
from .taking import taken
from .wrong import Wrong, named

TOOL = "bogtrumpet-tool"
NOT_PROVED = "The tool itself is not proved. It judges nothing: the programs and the library do, by calls that are proved."


# ---- encode and decode

def encode(given):
    text = texts.read(content(given.text), given.text, given.format)
    try:
        data = inputs.write(text)
    except Wrong as wrong:
        raise about(given.text, wrong) from None
    put(data)


def decoded(file, data, format=None):
    try:
        return inputs.read(data, format or inputs.guessed(data))
    except Wrong as wrong:
        raise about(file, wrong) from None


def decode(given):
    put_lines(texts.shown(decoded(given.input, content(given.input), given.format)))


# ---- from-pcap

def settings(given):
    """What stands before the datagrams, and how many bytes it takes."""
    if given.settings is None:
        if not given.text:
            raise about(TOOL, "from-pcap needs --settings TEXT: without a locator every input is refused")
        return inputs.Input(given.format, [], []), 0
    start = texts.read(content(given.settings), given.settings, given.format)
    try:
        if start.calls:
            raise Wrong("settings alone are asked for here, and a call stands there")
        return start, len(inputs.write(start))
    except Wrong as wrong:
        raise about(given.settings, wrong) from None


def recording(given, capture, room=None):
    """The recording that the datagrams of a capture make, in so many bytes."""
    given.capture = capture
    found = taken(given, None if room is None else room - 2)
    try:
        return inputs.write_recording(found.calls)
    except Wrong as wrong:
        raise about(capture, wrong) from None


def recordings(given):
    """One recording, or an input of the program that compares two."""
    if given.settings is not None or given.text:
        raise about(TOOL, "a recording has neither settings nor a text form")
    if given.recordings is None:
        if given.masked or given.room is not None:
            raise about(TOOL, "--masked and --room go with --recordings")
        return put(recording(given, given.capture))
    if given.capture == given.recordings == "-":
        raise about(TOOL, "standard input is one capture: the other needs a file")
    given.format = "recordings"
    room = inputs.LIMITS["recordings"] if given.room is None else given.room
    if room > inputs.LIMITS["recordings"]:
        raise about(TOOL, f"a room of {room:,} bytes; `recordings` lends at most {inputs.LIMITS['recordings']:,}")
    left = inputs.LIMITS["recordings"] - len(inputs.write_recordings(0, 0, b"", b""))
    first = recording(given, given.capture, left)
    second = recording(given, given.recordings, left - len(first))
    return put(inputs.write_recordings(given.masked, room, first, second))


def from_pcap(given):
    if given.format == "recording" or given.recordings is not None:
        return recordings(given)
    if given.masked or given.room is not None:
        raise about(TOOL, "--masked and --room go with --recordings")
    given.format = given.format or "program"
    start, length = settings(given)
    found = taken(given, inputs.LIMITS[given.format] - length)
    if given.text:
        lines = list(texts.shown(start))
        for frame, call in zip(found.frames, found.calls):
            lines += [f"# packet {frame} of the capture", texts.shown_call(*call)]
        return put_lines(lines)
    start.calls = found.calls
    return put(inputs.write(start))


# ---- to-pcap and explain

def to_pcap(given):
    from . import library  # only here is it needed
    data = content(given.calls)
    text = data[:1] not in (b"\0", b"\1", b"\2")
    calls = texts.read(data, given.calls, "replay") if text else decoded(given.calls, data, "replay")
    try:
        packets = captures.pcap(library.written(calls))
    except Wrong as wrong:
        raise about(given.calls, wrong) from None
    put(packets, given.capture)


def explain(given):
    lines = []
    for word in given.number or map(str, NUMBERS):
        if not word.isascii() or not word.isdigit() or len(word) > 3 or int(word) not in NUMBERS:
            raise about(TOOL, f"{named(word)} is no number of bogtrumpet: there are 0 to {max(NUMBERS)}")
        lines += ([""] if lines else []) + list(explained(int(word)))
    put_lines(lines)


# ---- Arguments

def number(word):
    if not word.isascii() or not word.isdigit() or len(word) > 10:
        raise argparse.ArgumentTypeError(f"{named(word)} is no number")
    return int(word)


def interface(word):
    if number(word) > 255:
        raise argparse.ArgumentTypeError(f"{named(word)} is no interface: 0 to 255")
    return number(word)


def formats(command):
    kinds = command.add_mutually_exclusive_group()
    kinds.add_argument("--program", dest="format", action="store_const", const="program", help="of the program `tunnel` (docs/RULES.md, R17)")
    kinds.add_argument("--replay", dest="format", action="store_const", const="replay", help="of `replay` (docs/REPLAY.md)")
    return kinds


def arguments():
    top = argparse.ArgumentParser(prog=TOOL, description="Texts and captures for the programs of bogtrumpet, and back.", epilog=NOT_PROVED)
    commands = top.add_subparsers(dest="command", metavar="COMMAND", required=True)

    def command(name, run, help, **more):
        one = commands.add_parser(name, help=help, description=help[0].upper() + help[1:] + ".", epilog=NOT_PROVED, **more)
        one.set_defaults(run=run)
        return one

    one = command("encode", encode, "writes the input that a text says to standard output")
    formats(one)
    one.add_argument("text", metavar="TEXT", help="a text; - is standard input")
    one = command("decode", decode, "writes the text of an input to standard output")
    formats(one)
    one.add_argument("input", metavar="INPUT", help="an input; without --program or --replay its first byte tells: 0, or 1 and 2")
    one = command("from-pcap", from_pcap, "writes the IPv4 datagrams of a pcap or pcapng capture, behind settings, as an input to standard output")
    kinds = formats(one)
    kinds.add_argument("--recording", dest="format", action="store_const", const="recording", help="one recording (docs/RULES.md, R27), without settings")
    kinds.add_argument("--recordings", metavar="SECOND", help="an input of `recordings`, which compares the capture with this second one")
    one.add_argument("--masked", action="store_true", help="of --recordings: identification, TTL and checksum count as equal")
    one.add_argument("--room", type=number, metavar="BYTES", help="of --recordings: for the report; else 1,048,576")
    one.add_argument("--settings", metavar="TEXT", help="a text of settings; needed without --text or a recording")
    one.add_argument("--interface", type=interface, metavar="N",
                     help="the arrival interface of all; else that of the capture: 0, in pcapng the interface's number")
    one.add_argument("--all", action="store_true", help="every IPv4 datagram; else those of protocol 41 alone")
    one.add_argument("--skip", type=number, default=0, metavar="N", help="leave out the first N datagrams that would be taken")
    one.add_argument("--count", type=number, metavar="N", help="take at most N datagrams")
    one.add_argument("--partial", action="store_true", help="take what stands before the place where a capture is cut off")
    one.add_argument("--text", action="store_true", help="write the text form, with each packet's number in the capture")
    one.add_argument("capture", metavar="CAPTURE", help="a capture; - is standard input")
    one = command("to-pcap", to_pcap, "lets the library answer calls, and writes the packets that it wrote to a pcap file of raw IP")
    one.add_argument("calls", metavar="CALLS", help="a text of calls for `replay`, or an input of it; - is standard input")
    one.add_argument("capture", metavar="OUT.pcap", help="the file to be written; - is standard output")
    one = command("explain", explain, "says what numbers mean, which calls give them, and what to do about them")
    one.add_argument("number", nargs="*", metavar="NUMBER", help=f"0 to {max(NUMBERS)}; without one, all of them")
    return top


def main(words):
    given = arguments().parse_args(words)
    try:
        given.run(given)
    except Wrong as wrong:
        print(wrong, file=sys.stderr)
        return 2
    except KeyboardInterrupt:
        return 130
    return 0
