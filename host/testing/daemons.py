"""A daemon under test: its configuration, log, counters and signals."""
import json
import os
import pwd
import re
import subprocess
from pathlib import Path
from signal import SIGTERM, SIGUSR1

from .waiting import LIMIT, Failure, wait

ROOT = Path(__file__).resolve().parent.parent.parent
USER = pwd.getpwnam("nobody")
# a line of the counters, which SIGUSR1 puts into the log too
COUNTER = re.compile(r"\S+ (receive|send|report|routers|ask|hear|advertise|host) \S+ \d+")
# what the sanitizers begin a report with
REPORTS = ("Sanitizer", "runtime error:")


def program(*names):
    """The program under test: BOGTRUMPETD, or the first of the names that is built; None where there is none."""
    places = [Path(os.environ["BOGTRUMPETD"])] if "BOGTRUMPETD" in os.environ else [ROOT / "target" / "host" / name for name in names]
    return next((str(place.resolve()) for place in places if os.access(place, os.X_OK)), None)


class Daemon:
    """One on the namespace. `lines` are its configuration, which is handed over as a file, or as options where `by_options` is set. Its
    folder is that of the user whose rights it keeps, so that counters can be written there."""

    all = []

    def __init__(self, command, folder, namespace, lines, by_options=False, user=USER.pw_name):
        self.namespace, self._command, self._by_options = namespace, command, by_options
        self.folder = folder / namespace.name
        self.folder.mkdir()
        self.user = user
        if user:
            os.chown(self.folder, USER.pw_uid, USER.pw_gid)
        self.config, self.log = self.folder / "config", self.folder / "log"
        self.text, self.json = self.folder / "counters", self.folder / "counters.json"
        self.process = None
        self.write(lines)
        Daemon.all.append(self)

    def write(self, lines):
        """The configuration, in whole before it has its name."""
        whole = [*([f"user {self.user}"] if self.user else []), f"counters {self.text}", f"counters-json {self.json}", *lines]
        new = self.folder / "config.new"
        new.write_text("".join(line + "\n" for line in whole))
        new.rename(self.config)
        self.lines = lines
        self.options = [word for line in whole for word in ("--" + line.split()[0], line.split()[1])]

    def devices(self):
        return [line.split()[1] for line in self.lines if line.startswith("tun ")]

    def start(self):
        """Started, and its devices carry: the process is attached to them."""
        options = self.options if self._by_options else ["--config", str(self.config)]
        with open(self.log, "ab") as log:
            self.process = self.namespace.start([*self._command, *options], stdout=log, stderr=subprocess.STDOUT, cwd="/")
        for device in self.devices():
            wait(lambda: self._carries(device), f"device {device} up")

    def _alive(self):
        if not self.running():
            status = self.process.returncode if self.process else "not started"
            raise Failure(f"expected: a daemon that runs on {self.namespace.name}\nseen: {status}")

    def _carries(self, device):
        self._alive()
        try:
            return "LOWER_UP" in self.namespace.ip("link", "show", device)
        except OSError:
            return False

    def signal(self, number):
        self.process.send_signal(number)

    def kill(self):
        self.process.kill()
        self.process.wait()

    def end(self, number=SIGTERM):
        """Its exit status after the signal."""
        self.signal(number)
        wait(lambda: self.process.poll() is not None, f"an end after {number.name}")
        return self.process.returncode

    def running(self):
        return self.process is not None and self.process.poll() is None

    def count(self, service, call, number):
        """How often the call gave the number, or the event was seen, up to now."""
        return self.counters()["services"].get(service, {}).get(call, {}).get(str(number), 0)

    def reports(self, number):
        return self.counters()["node"].get("report", {}).get(str(number), 0)

    def counters(self, limit=LIMIT):
        """Those of a file that was written since the call."""
        before = self._stamp()
        self.signal(SIGUSR1)
        wait(lambda: self._stamp() != before, "counters after SIGUSR1", limit)
        return json.loads(self.json.read_text())

    def _stamp(self):
        """Of the file of counters; None where there is none yet."""
        self._alive()
        try:
            found = os.stat(self.json)
            return found.st_ino, found.st_mtime_ns
        except FileNotFoundError:
            return None

    def words(self):
        return self.log.read_text(errors="replace") if self.log.exists() else ""

    def status(self):
        """/proc/PID/status as a mapping."""
        lines = Path("/proc", str(self.process.pid), "status").read_text().splitlines()
        return {key: value.split() for key, _, value in (line.partition(":") for line in lines)}

    def remains(self):
        """What is there to be read about it after a failure, with the last counters that can be had."""
        try:
            self.counters(limit=5)
        except Failure:
            pass
        log = "".join(line for line in self.words().splitlines(keepends=True) if not COUNTER.match(line))
        parts = {"configuration": self.config.read_text(), "log, without counters": log,
                 "counters": self.text.read_text() if self.text.exists() else "none\n"}
        return "".join(f"--- {self.namespace.name}, {name}:\n{text}" for name, text in parts.items())


def text_counters(text):
    """The counters' text in the form of their JSON: by service, call and number."""
    found = {}
    for line in text.splitlines():
        service, call, number, *rest = line.split()
        found.setdefault(service, {}).setdefault(call, {})[number] = int(rest[0])
    return found
