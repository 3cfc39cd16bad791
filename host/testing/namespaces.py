"""Network namespaces of one run, named bogtrumpet-PID-..., and the guard that removes them whichever way the run ends."""
import ctypes
import fcntl
import os
import shutil
import signal
import socket
import struct
import subprocess
from pathlib import Path

CLONE_NEWNET = 0x40000000
SIOCETHTOOL = 0x8946
SET_SEGMENTING, JOINING, SET_JOINING = 0x1F, 0x2B, 0x2C  # ETHTOOL_STSO, ETHTOOL_GGRO, ETHTOOL_SGRO
NAMES = Path("/run/netns")
HOME = os.open("/proc/self/ns/net", os.O_RDONLY)
_libc = ctypes.CDLL(None, use_errno=True)


def _enter(file):
    if _libc.setns(file, CLONE_NEWNET) != 0:
        raise OSError(ctypes.get_errno(), "setns")


def ip(*words, lines=None):
    """What `ip` says; its own words in the error where it fails. With lines they are a batch, one process for all."""
    done = subprocess.run(["ip", *words], input=lines, capture_output=True, text=True)
    if done.returncode:
        raise OSError(f"ip {' '.join(words)}: {done.stderr.strip()}")
    return done.stdout


class Namespace:
    """`with namespace:` the calling thread is in it: what it opens or starts there stays there. The machine's own is never changed."""

    def __init__(self, run, name):
        self.name = f"{run}-{name}"
        ip("netns", "add", self.name)
        self._file = os.open(NAMES / self.name, os.O_RDONLY)
        self.batch("link set lo up")

    def __enter__(self):
        _enter(self._file)
        return self

    def __exit__(self, *_):
        _enter(HOME)

    def ip(self, *words):
        return ip("-n", self.name, *words)

    def batch(self, *lines):
        ip("-n", self.name, "-batch", "-", lines="".join(line + "\n" for line in lines))

    def set(self, key, value):
        """A kernel setting, by its path below /proc/sys/net."""
        with self:
            Path("/proc/sys/net", key).write_text(str(value))

    def ethtool(self, device, command, value=0):
        """One of the old commands of ethtool with one value, and the value that the kernel leaves there."""
        both = ctypes.create_string_buffer(struct.pack("II", command, value), 8)
        with self, socket.socket(socket.AF_INET, socket.SOCK_DGRAM) as any:
            fcntl.ioctl(any, SIOCETHTOOL, struct.pack("16sP", device.encode(), ctypes.addressof(both)))
        return struct.unpack("II", both.raw)[1]

    def start(self, command, **how):
        with self:
            return subprocess.Popen(command, stdin=subprocess.DEVNULL, **how)

    def run(self, command, **how):
        with self:
            return subprocess.run(command, stdin=subprocess.DEVNULL, capture_output=True, text=True, **how)

    def remove(self):
        os.close(self._file)
        ip("netns", "del", self.name)


def missing(run):
    """Why no network can be made here, or None."""
    if os.geteuid() != 0:
        return "not root"
    for name in ("ip", "ping"):
        if not shutil.which(name):
            return f"no {name}"
    if not Path("/proc/sys/net/ipv6").is_dir():
        return "no IPv6"
    try:
        os.close(os.open("/dev/net/tun", os.O_RDWR))
    except OSError as error:
        return f"/dev/net/tun: {error.strerror}"
    return _no_namespace(run)


def _no_namespace(run):
    try:
        probe = Namespace(run, "probe")
        try:
            probe.batch("tuntap add dev probe mode tun", "link add wan0 type veth peer name wan1")
            probe.set("ipv4/ip_forward", 1)
        finally:
            probe.remove()
    except OSError as error:
        return "no namespace with a TUN and a veth device: " + " ".join(str(error).split())
    return None


class Guard:
    """A process that waits for the run's end, also by a signal that cannot be caught, and then ends what is left in the run's namespaces
    and removes them and its folder."""

    def __init__(self, run, folder):
        reading, self._writing = os.pipe()
        parent = os.getpid()
        self._pid = os.fork()
        if self._pid == 0:
            os.setsid()
            for number in (signal.SIGINT, signal.SIGTERM, signal.SIGHUP):
                signal.signal(number, signal.SIG_IGN)
            os.close(self._writing)
            os.read(reading, 1)
            clean(run, folder, {parent, os.getpid()})
            os._exit(0)
        os.close(reading)

    def end(self):
        os.close(self._writing)
        os.waitpid(self._pid, 0)


def clean(run, folder, spared):
    for name in os.listdir(NAMES) if NAMES.is_dir() else ():
        if not name.startswith(run + "-"):
            continue
        for word in subprocess.run(["ip", "netns", "pids", name], capture_output=True, text=True).stdout.split():
            if int(word) not in spared:
                try:
                    os.kill(int(word), signal.SIGKILL)
                except ProcessLookupError:
                    pass
        subprocess.run(["ip", "netns", "del", name], capture_output=True)
    shutil.rmtree(folder, ignore_errors=True)
