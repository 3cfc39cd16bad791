"""Flows of numbered UDP packets, and observers at the devices where they come out.

A packet's payload names its run, flow and number, and the rest follows from these: an observer can write down, byte for byte, the one
packet that its sender made, and holds what arrives against that. Observers are packet sockets beside the receiver's own stack: they see
what the daemon wrote to the device, whatever becomes of it there."""
import ctypes
import errno
import hashlib
import os
import selectors
import socket
import struct
import threading

from . import packets
from .waiting import Failure, wait

RUN = os.urandom(8)
HEAD = struct.Struct("!8sHI")
FROM, TO = 4200, 4100  # the ports: a flow sends from FROM + its key
AROUND = packets.HEADER6 + 8  # headers of a packet's payload
SIZES = (100, 1280, 700, 1480)
SMALLEST = 1280  # passes on every IPv6 link
PACE = 0.02  # seconds between two rounds of all flows

ETH_P_IP, ETH_P_IPV6, NO_ADDRESS, OUTGOING = 0x0800, 0x86DD, 0xFFFE, 4
SO_ATTACH_FILTER, SO_RCVBUFFORCE, SOL_PACKET, PACKET_STATISTICS = 26, 33, 263, 6
IPV6_DONTFRAG, IPV6_AUTOFLOWLABEL, IPV6_FREEBIND = 62, 70, 78
ROOM = 32 << 20


def payload(flow, number, length):
    head = HEAD.pack(RUN, flow, number)
    return head + hashlib.shake_128(head).digest(length - HEAD.size)


class Flow:
    """Packets of one sender to one device, the last of `path`: the devices where they come out, with how often they were forwarded."""

    def __init__(self, key, name, sender, source, path, destination, sizes):
        self.key, self.name, self.path, self.sizes = key, name, path, sizes
        self.source, self.destination = packets.v6(source), packets.v6(destination)
        self.sent, self.lengths = 0, {}
        self.seen = {observer: set() for observer in path}  # the numbers, by the device where they came out
        self.arrived = self.seen[list(path)[-1]]
        with sender:
            self._socket = socket.socket(socket.AF_INET6, socket.SOCK_DGRAM)
        for option, value in ((IPV6_DONTFRAG, 1), (IPV6_AUTOFLOWLABEL, 0), (IPV6_FREEBIND, 1), (socket.IPV6_UNICAST_HOPS, 64)):
            self._socket.setsockopt(socket.IPPROTO_IPV6, option, value)
        self._socket.bind((source, FROM + key))
        self._to = (destination, TO)

    def send(self, size=None):
        """The next packet; one that the sender's own stack refuses as too big goes as one of 1,280 bytes, and others not at all: the
        number is used again. Says whether it went."""
        size = size or self.sizes[self.sent % len(self.sizes)]
        for length in (size, SMALLEST):
            try:
                self.lengths[self.sent] = length
                self._socket.sendto(payload(self.key, self.sent, length - AROUND), self._to)
                self.sent += 1
                return True
            except OSError as error:
                if error.errno != errno.EMSGSIZE:
                    return False
        return False

    def packet(self, number, forwarded):
        """The packet of that number, as it is after so many hops."""
        body = payload(self.key, number, self.lengths[number] - AROUND)
        return packets.udp(self.source, self.destination, (FROM + self.key, TO), body, 64 - forwarded)

    def close(self):
        self._socket.close()


class Observer:
    """Sees the UDP packets to TO, and by their types the Too Big messages, solicitations and advertisements, that come in by a device of a
    namespace."""

    def __init__(self, namespace, device, hardware):
        self.device, self.name = device, f"{namespace.name} {device}"
        self._hardware = hardware
        self.messages = {packets.TOO_BIG: [], packets.SOLICITATION: [], packets.ADVERTISEMENT: []}
        with namespace:
            self.socket = socket.socket(socket.AF_PACKET, socket.SOCK_DGRAM, socket.htons(ETH_P_IPV6))
            self._sink = socket.socket(socket.AF_INET6, socket.SOCK_DGRAM)  # never read: it keeps the kernel from answering "no such port"
        self._sink.setsockopt(socket.SOL_SOCKET, socket.SO_REUSEADDR, 1)
        self._sink.bind(("::", TO))
        self.socket.setsockopt(socket.SOL_SOCKET, SO_RCVBUFFORCE, ROOM)
        self._lost = 0
        self._filter()
        self.socket.setblocking(False)

    def _filter(self):
        """UDP and ICMPv6 alone: a bulk transfer does not pass through here."""
        code = [(0x30, 0, 0, 6), (0x15, 1, 0, packets.UDP), (0x15, 0, 1, packets.ICMPV6), (0x06, 0, 0, 0xFFFF), (0x06, 0, 0, 0)]
        lines = b"".join(struct.pack("HBBI", *line) for line in code)
        self._lines = ctypes.create_string_buffer(lines)
        program = struct.pack("HL", len(code), ctypes.addressof(self._lines))
        self.socket.setsockopt(socket.SOL_SOCKET, SO_ATTACH_FILTER, program)

    def packets(self):
        """Those that came in since."""
        while True:
            try:
                data, (device, _, direction, hardware, _) = self.socket.recvfrom(65536)
            except BlockingIOError:
                return
            except OSError:  # the device went down, said once
                continue
            # a device that is gone by now has no name left
            if direction != OUTGOING and hardware == self._hardware and device in (self.device, ""):
                yield data

    def close(self):
        self.socket.close()
        self._sink.close()

    def lost(self):
        """How many packets found no room here; the kernel counts from the last question on."""
        self._lost += struct.unpack("II", self.socket.getsockopt(SOL_PACKET, PACKET_STATISTICS, 8))[1]
        return self._lost


class Wire:
    """Sees the datagrams of protocol 41 that come in by a device."""

    def __init__(self, namespace, device):
        self._device = device
        with namespace:
            self._socket = socket.socket(socket.AF_PACKET, socket.SOCK_DGRAM, socket.htons(ETH_P_IP))
        self._socket.setsockopt(socket.SOL_SOCKET, SO_RCVBUFFORCE, ROOM)
        self._socket.setblocking(False)

    def datagrams(self):
        """Those since the last call."""
        found = []
        while True:
            try:
                data, (device, _, direction, *_) = self._socket.recvfrom(65536)
            except BlockingIOError:
                return found
            if direction != OUTGOING and device == self._device and data[9] == packets.TUNNELLED:
                found.append(data)

    def close(self):
        self._socket.close()


class Ledger:
    """All flows and observers of one network, and what went against: a packet that came twice, was changed, had another source, came to
    a device that it was not for, or that nobody sent."""

    def __init__(self):
        self.flows, self.wrong = [], []
        self._observers, self._wires, self._ending = [], [], threading.Event()
        self._selector = selectors.DefaultSelector()
        self._going = set()
        self._threads = [threading.Thread(target=work, daemon=True) for work in (self._observe, self._send)]

    def observer(self, namespace, device="isatap0", hardware=NO_ADDRESS):
        made = Observer(namespace, device, hardware)
        self._observers.append(made)
        self._selector.register(made.socket, selectors.EVENT_READ, made)
        return made

    def wire(self, namespace, device):
        self._wires.append(Wire(namespace, device))
        return self._wires[-1]

    def flow(self, name, sender, source, path, destination, sizes=SIZES):
        made = Flow(len(self.flows), name, sender, source, path, destination, sizes)
        self.flows.append(made)
        return made

    def start(self):
        for thread in self._threads:
            thread.start()

    def go(self, *flows):
        """These flows send from now on, at an even pace."""
        self._going.update(flows or self.flows)

    def rest(self, *flows):
        self._going.difference_update(flows or self.flows)

    def _send(self):
        while not self._ending.wait(PACE):
            for flow in list(self._going):
                flow.send()

    def _observe(self):
        while not self._ending.is_set():
            for key, _ in self._selector.select(0.1):
                for data in key.data.packets():
                    self.take(key.data, data)

    def take(self, observer, data):
        """One packet that came in by the observer's device."""
        upper, kind, to = struct.unpack_from("!6xB33xBxH", data)
        if upper == packets.ICMPV6 and kind in observer.messages:
            observer.messages[kind].append(data)
        elif upper == packets.UDP and to == TO:
            why = self._judge(observer, data)
            if why:
                self.wrong.append(f"{observer.name}: {why}: {data[:AROUND + HEAD.size].hex()}, {len(data)} bytes")

    def _judge(self, observer, data):
        """What is wrong with it, or None."""
        body = data[AROUND:]
        if len(body) < HEAD.size or body[:8] != RUN:
            return "of no flow"
        _, key, number = HEAD.unpack_from(body)
        if key >= len(self.flows) or number not in self.flows[key].lengths:
            return "was never sent"
        flow = self.flows[key]
        if observer not in flow.path:
            return f"for another device, flow {flow.name}"
        if data[8:24] != flow.source:
            return f"under another source, flow {flow.name}"
        if data != flow.packet(number, flow.path[observer]):
            return f"changed, flow {flow.name}"
        if number in flow.seen[observer]:
            return f"twice, flow {flow.name} number {number}"
        flow.seen[observer].add(number)
        return None

    def progress(self, *flows):
        """Each flow, of those that go, delivers a packet of each of its sizes that is sent from now on."""
        for flow in flows or self.flows:
            start = flow.sent
            wait(lambda: self._goes_on(flow, start), f"flow {flow.name} goes on, a packet of each size {flow.sizes}",
                 seen=lambda: f"sent {start} to {flow.sent - 1}, arrived {sorted(n for n in flow.arrived if n >= start)[:20]}")

    def _goes_on(self, flow, start):
        self.judge()
        return {number % len(flow.sizes) for number in list(flow.arrived) if number >= start} == set(range(len(flow.sizes)))

    def judge(self):
        """Fails where something went against, or where an observer could not see all."""
        lost = sum(observer.lost() for observer in self._observers)
        if self.wrong or lost:
            first = "\n".join(self.wrong[:20])
            raise Failure(f"expected: each packet at most once, unchanged, under its own source\nseen: {len(self.wrong)} otherwise, "
                          f"{lost} unseen by the observers\n{first}")

    def end(self):
        self._ending.set()
        for thread in self._threads:
            if thread.is_alive():
                thread.join()
        for one in (*self.flows, *self._observers, *self._wires):
            one.close()
