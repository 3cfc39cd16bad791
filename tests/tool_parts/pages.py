"""explain against header and rules, the examples against the programs and the model, the manual page, and the tool as `make install` puts it."""
import re
import shutil
import subprocess

from model import formats, recordings

from .harness import BUILT, ROOT, check, given, program, run, same

from bogtrumpet_tool import numbers  # noqa: E402

EXAMPLES = ROOT / "tools" / "examples"


# ---- explain

def listed(text):
    """The numbers of a sentence in their order, each once; ranges written out, parentheses left away."""
    text = re.sub(r"\([^)]*\)", "", text)
    text = re.sub(r"(\d+) to (\d+)", lambda span: ", ".join(map(str, range(int(span[1]), int(span[2]) + 1))), text)
    return tuple(dict.fromkeys(map(int, re.findall(r"\b\d+\b", text))))


def orders_of_rules():
    rules = " ".join((ROOT / "docs/RULES.md").read_text().split())
    general = re.search(r"\*\*R1\.13\*\* (.*?) - \*\*", rules)[1]
    receiving = re.search(r"\*\*R23\.1\*\* (.*?) 5 is not given", rules)[1]
    shape = r"in the order (.*?)\. A whole datagram goes on with (.*?)\. A piece goes on with (.*?), and what it completes"
    first, whole, piece = re.search(shape, receiving).groups()
    names = {"send": "Sending", "report": "Size report", "ask": "Asking", "advertisement": "Advertisement", "advertise": "Advertising", "comparing": "Comparing"}
    orders = {name: listed(re.search(rf"{word}: (.*?)\.", general)[1]) for name, word in names.items()}
    setup = listed(re.search(r"Setup and a new router list: (.*?)\.", general)[1])
    return {**orders, "setup": setup, "routers": setup, "receive": listed(first) + listed(piece) + listed(whole)}


def order_of_header(header, function):
    """What stands behind `Numbers` in the comment before a function, or behind `The number: 0, or`, or as `1 is given also`."""
    before = header[:re.search(rf"\bbogtrumpet_{function}\(", header).start()]
    comment = " ".join(before[before.rindex("/*"):].split("*/")[0].split())
    shape = r"Numbers(?:, in this order)?: (.*?)(?:\. |\.?$)|The number: 0, or (\d+)|(1) is given also"
    return listed(max(re.search(shape, comment).groups(""), key=len))


def explained():
    rules, header = (ROOT / "docs/RULES.md").read_text(), (ROOT / "include/bogtrumpet.h").read_text()
    for name, order in orders_of_rules().items():
        same(f"explain: the order of {name} by the rules", numbers.CALLS[name][1], order)
    for functions, order in numbers.CALLS.values():
        for function in functions.split():
            same(f"explain: the order of bogtrumpet_{function} by the header", order, order_of_header(header, function))
    told = set(re.findall(r"\b(?:uint8_t|struct \w+) bogtrumpet_(\w+)\(", header)) - {"defaults", "link_local", "isatap", "path_size"}
    same("explain: every function of the header that has a number", {one for functions, _ in numbers.CALLS.values() for one in functions.split()}, told)
    table = dict(re.findall(r"(?m)^\| R4\.\d+ \| (\d+) \| .*? \| ([^|]*) \|$", rules))
    same("explain: every number", sorted(numbers.NUMBERS), list(range(len(table) + 1)))
    for number, details in table.items():
        text, cited, means, do = numbers.NUMBERS[int(number)]
        check(f"explain {number}: the rules of R4's table", {f"R4.{number}", *re.findall(r"R\d+\.\d+", details)} <= set(cited.split()), cited)
        out = given(f"explain {number}", run("explain", number)).decode()
        check(f"explain {number}: no long line", max(map(len, out.splitlines())) <= numbers.WIDTH, out)
        line = " ".join(out.split())
        parts = (means, do, cited.replace(" ", ", "))
        check(f"explain {number}: all of it", line.startswith(f"{number}: {text} ") and all(part in line for part in parts), out)
        calls = [f"given by {name} (bogtrumpet_{functions.split()[0]}" for name, (functions, order) in numbers.CALLS.items() if int(number) in order]
        named = all(call in line for call in calls) and line.count("given by ") == len(calls) + (number == "11")
        check(f"explain {number}: its calls", calls and named and line.count(f"[{number}]") == len(calls), out)
    every = given("explain all", run("explain")).decode()
    calls = {functions.split()[0] for functions, _ in numbers.CALLS.values()}
    named = {numbers.CALLS[name][0] if name in numbers.CALLS else "path_size" for name in numbers.ASKS_FOR_SERVICE}
    lent = set(re.findall(r"bogtrumpet_(\w+)\((?:const )?struct bogtrumpet_node \*node,\s*uint8_t service", header))
    same("explain 11: every function that names a service", (named, named - calls), (lent, {"path_size"}))
    places = [[number for number in numbers.NUMBERS if words in given("one", run("explain", number)).decode()]
              for words in ("given by every call", "where the node has no such service")]
    same("explain: what 0 and 11 have alone", places, [[0], [11]])
    same("explain without a number", every, "\n".join(given("each", run("explain", number)).decode() for number in sorted(numbers.NUMBERS)))


# ---- Examples

def listing_bytes(name):
    """The bytes of a listing; each line's place is right."""
    data = b""
    for line in (ROOT / "tests/tool_parts" / name).read_text().splitlines():
        if not line.startswith("#"):
            place, rest = line.split("  ", 1)
            same(f"{name}: a line's place", int(place, 16), len(data))
            data += bytes.fromhex(rest.split("#")[0])
    return data


def examples(folder):
    for name in ("capture", "second"):
        same(f"{name}.pcap is {name}.hex", (EXAMPLES / f"{name}.pcap").read_bytes(), listing_bytes(f"{name}.hex"))
    worked = given("worked.txt", run("encode", EXAMPLES / "worked.txt"))
    same("worked.txt is the worked input", worked, (ROOT / "crates/tunnel/stdin").read_bytes())
    path = given("path.txt", run("encode", EXAMPLES / "path.txt"))
    capture = given("capture.txt and capture.pcap", run("from-pcap", "--settings", EXAMPLES / "capture.txt", EXAMPLES / "capture.pcap"))
    both = given("both captures", run("from-pcap", "--recordings", EXAMPLES / "second.pcap", "--masked", EXAMPLES / "capture.pcap"))
    for name, built, data, model in (("worked", "tunnel", worked, formats.program), ("path", "replay", path, formats.replay),
                                     ("capture", "tunnel", capture, formats.program), ("second", "recordings", both, recordings.recordings)):
        printed = (EXAMPLES / f"{name}.out").read_text()
        same(f"{name}.out is what the program prints", program(built, data), printed)
        same(f"{name}.out is what the model prints", formats.text(model(data)).decode(), printed)
    text = given("the capture as a text", run("from-pcap", "--text", "--settings", EXAMPLES / "capture.txt", EXAMPLES / "capture.pcap"))
    same("the capture as a text says the same", run("encode", "-", stdin=text)[1], capture)
    same("the packets' numbers", re.findall(rb"# packet (\d+) of the capture", text), [b"2", b"3", b"4", b"6", b"7", b"8", b"9"])


# ---- The manual page, and what is installed

def options_of(command):
    out = run(command, "--help")[1].decode()
    return set(re.findall(r"(?<![\w-])--[a-z]+", out)) - {"--help"}


def manual():
    page = (ROOT / "tools/bogtrumpet-tool.1").read_text()
    plain = page.replace("\\-", "-")
    for command in ("encode", "decode", "from-pcap", "to-pcap", "explain"):
        check(f"the manual page has {command}", f".SS {command}" in plain)
        part = plain.split(f".SS {command}")[-1].split(".S")[0]
        for option in options_of(command):
            check(f"the manual page has {option} of {command}", option in part)
    check("the manual page says what is not proved", "not proved" in page)
    version = re.search(r'BOGTRUMPET_VERSION "(.*)"', (ROOT / "include/bogtrumpet.h").read_text())[1]
    check("the manual page has the version", f'"bogtrumpet {version}"' in page)
    if shutil.which("groff"):
        done = subprocess.run(["groff", "-man", "-ww", "-z", "-Tascii", str(ROOT / "tools/bogtrumpet-tool.1")], stderr=subprocess.PIPE)
        same("groff has no warning", (done.returncode, done.stderr), (0, b""))


def installed(folder):
    words = ["make", "-s", "install", f"DESTDIR={folder}/installed", "PREFIX=/usr"]
    made = subprocess.run(words, cwd=ROOT, stdout=subprocess.PIPE, stderr=subprocess.STDOUT)
    check("make install", made.returncode == 0, made.stdout.decode())
    tool, bare = folder / "installed/usr/bin/bogtrumpet-tool", {"PATH": "/usr/bin:/bin"}
    python = shutil.which("python3")
    words = [python, str(tool), "to-pcap", str(EXAMPLES / "path.txt"), "-"]
    done = subprocess.run(words, cwd=folder, env=bare, stdout=subprocess.PIPE, stderr=subprocess.PIPE)
    written = run("to-pcap", EXAMPLES / "path.txt", "-")[1]
    same("the installed tool calls the installed library", (done.returncode, done.stderr, done.stdout), (0, b"", written))
    done = subprocess.run([python, str(tool), "explain", "14"], cwd=folder, env=bare, stdout=subprocess.PIPE)
    same("the installed tool explains", done.stdout, run("explain", 14)[1])
    check("the manual page is installed", (folder / "installed/usr/share/man/man1/bogtrumpet-tool.1").is_file())
    other = {**bare, "BOGTRUMPET_LIBRARY": str(BUILT / "none.so")}
    done = subprocess.run(words, cwd=folder, env=other, stdout=subprocess.PIPE, stderr=subprocess.PIPE)
    check("no library there", done.returncode == 2 and done.stdout == b"" and b"no library in" in done.stderr, done.stderr)
    other["BOGTRUMPET_LIBRARY"] = str(EXAMPLES / "path.txt")
    done = subprocess.run(words, cwd=folder, env=other, stdout=subprocess.PIPE, stderr=subprocess.PIPE)
    check("no library at all", done.returncode == 2 and done.stdout == b"" and b"not the library" in done.stderr, done.stderr)
    (folder / "bin").mkdir()
    shutil.copy(ROOT / "tools/bogtrumpet-tool", folder / "bin")
    done = subprocess.run([python, str(folder / "bin/bogtrumpet-tool"), "explain"], stdout=subprocess.PIPE, stderr=subprocess.PIPE)
    check("the command without its modules", done.returncode == 2 and done.stdout == b"" and b"no modules" in done.stderr, done.stderr)


def tests(folder):
    explained()
    examples(folder)
    manual()
    installed(folder)
