"""--check: configurations that are right, and wrong ones with file and line."""
import subprocess

from .daemons import REPORTS
from .waiting import expect

GOOD = ["tun isatap0  # the first", "", "locator 192.0.2.1%eth0", "locator 192.0.2.1%eth1", "prefix 2001:db8::/64", "router 192.0.2.9",
        "default-router 192.0.2.9", "link-size 9216", "ttl 255", "interval 3600", "identification 65535", "reporting 2001:db8::1",
        "advertise-lifetime 0", "advertise-prefix 2001:db8::/64,valid=600,preferred=300,off-link,no-autonomous",
        "advertise-route 2001:db8:9::/48,lifetime=60,preference=low", "advertise-managed yes", "advertise-other no",
        "tun isatap1", "locator 192.0.2.2%eth0", "user nobody", "counters c.txt", "counters-json c.json"]
START = ["tun isatap0", "locator 192.0.2.1%eth0"]
# each is wrong behind START
BAD = ["loctor 192.0.2.1%eth0", "locator", "locator 192.0.2.3", "locator 192.0.2.300%eth0", "locator 127.0.0.1%eth0",
       "locator 192.0.2.1%eth0", "locator 192.0.2.3 eth0", "locator 192.0.2.3%a-name-too-long-for-a-device", "prefix 2001:db8::/63",
       "prefix 2001:db8::", "prefix 2001:db8::1/64", "router 224.0.0.1", "router 192.0.2.1", "router 192.0.2", "default-router 0.0.0.0",
       "link-size 575", "link-size 9217", "link-size 65537", "link-size 0x600", "ttl 0", "ttl 256", "interval 0", "interval 3601",
       "identification 65536", "identification -1", "reporting ff02::1", "reporting ::", "reporting 192.0.2.1", "advertise-lifetime 65536",
       "advertise-prefix 2001:db8::/129", "advertise-prefix 2001:db8::/64,valid=x", "advertise-prefix 2001:db8::/64,onlink",
       "advertise-route 2001:db8::/48,preference=best", "advertise-route 2001:db8::/48,lifetime=4294967296", "advertise-managed maybe",
       "tun a-name-too-long-for-a-device"]
# each is wrong behind START in its last line
TOO_MANY = [[f"locator 192.0.2.{n}%eth0" for n in range(2, 10)], [f"prefix 2001:db8:{n}::/64" for n in range(9)],
            [f"router 192.0.3.{n}" for n in range(17)], [f"advertise-prefix 2001:db8:{n}::/64" for n in range(9)],
            [f"advertise-route 2001:db8:{n}::/64" for n in range(9)], ["tun isatap1", "locator 192.0.2.2%eth0", "tun isatap2"]]


def answer(command, *options):
    """The status, and what stands on both streams."""
    done = subprocess.run([*command, *options], capture_output=True, text=True, stdin=subprocess.DEVNULL)
    expect(not any(word in done.stderr for word in REPORTS), "no sanitizer report", done.stderr)
    return done.returncode, done.stdout, done.stderr


def check(command, folder):
    """What was checked, in words."""
    file = folder / "checked"

    def checked(lines):
        file.write_text("".join(line + "\n" for line in lines))
        return answer(command, "--check", "--config", str(file))

    expect(checked(GOOD) == (0, "", ""), "a good file taken", checked(GOOD))
    bad = [*([*START, line] for line in BAD), *([*START, *lines] for lines in TOO_MANY), START[1:], ["user"]]
    for lines in bad:
        status, _, said = checked(lines)
        begin = f"bogtrumpetd: {file}:{len(lines)}: "
        found = status == 2 and any(line.startswith(begin) for line in said.splitlines())
        expect(found, f"status 2 and a line {begin!r} for {lines[-1]!r}", (status, said))
    options(command, folder / "none")
    return f"a good file, {len(bad)} bad ones with file and line, options"


def options(command, no_file):
    good = ["--tun", "isatap0", "--locator", "192.0.2.1%eth0"]
    expect(answer(command, "--check", *good) == (0, "", ""), "good options taken", answer(command, "--check", *good))
    for given, begin in (([*good, "--ttl", "0"], "--ttl: "), ([*good, "--ttle", "1"], "--ttle: "), ([*good, "--ttl"], "--ttl: "),
                         (["--config", str(no_file)], f"{no_file}: "), ([], "")):
        status, _, said = answer(command, "--check", *given)
        expect(status == 2 and said.startswith("bogtrumpetd: " + begin), f"{given}: status 2, 'bogtrumpetd: {begin}'", (status, said))
    for given in ("--help", "--version"):
        status, said, _ = answer(command, given)
        expect(status == 0 and said, f"{given} answered", (status, said))
