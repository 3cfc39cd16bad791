"""Traffic of the hosts' own: ping, and bulk transfers over TCP."""
import hashlib
import re
import socket
import threading

from .waiting import LIMIT, Failure, expect

BLOCK = 65536
ECHO = 48  # headers of an echo request's data


def ping(space, to, count=3, size=104, interval=0.2):
    """Sends echo requests, packets of that size and never in fragments, until `count` are answered."""
    command = ["ping", "-6", "-n", "-M", "do", "-c", str(count), "-w", str(LIMIT), "-i", str(interval), "-s", str(size - ECHO), to]
    said = space.run(command).stdout
    answered = re.search(r"(\d+) received", said)
    expect(answered and int(answered[1]) >= count, f"{count} answers to packets of {size} bytes from {space.name} to {to}", said)
    return said


def ping_in_fragments(space, to, byte):
    """The same of 3,000 bytes of that value, which the sender's kernel cuts into IPv6 fragments."""
    said = space.run(["ping", "-6", "-n", "-c", "2", "-w", str(LIMIT), "-i", "0.2", "-s", "3000", "-p", f"{byte:02x}", to]).stdout
    expect("2 received" in said, f"2 answers to 3,000 bytes of {byte:#x} in fragments from {space.name} to {to}", said)


class Transfer:
    """So many blocks over TCP from one namespace to another. With `halt` the sender stops at the middle until it is told to go on."""

    def __init__(self, sender, source, receiver, destination, blocks, halt=False):
        self._blocks, self._name = blocks, f"{blocks} blocks from {source} to {destination}"
        self._middle, self._on = threading.Event(), threading.Event()
        if not halt:
            self._on.set()
        self._sums, self._error = {}, None
        with receiver:
            self._server = socket.create_server((destination, 0), family=socket.AF_INET6)
        with sender:
            self._client = socket.socket(socket.AF_INET6)
        self._client.bind((source, 0))
        for one in (self._client, self._server):
            one.settimeout(LIMIT)
        self._threads = [threading.Thread(target=self._guarded, args=[work], daemon=True) for work in (self._receive, self._send)]
        for thread in self._threads:
            thread.start()

    def _guarded(self, work):
        try:
            work()
        except OSError as error:
            self._error = error
            self._middle.set()

    def _send(self):
        with self._client as client:
            client.connect(self._server.getsockname()[:2])
            sum = hashlib.sha256()
            for number in range(self._blocks):
                block = hashlib.shake_128(number.to_bytes(4, "big")).digest(BLOCK)
                client.sendall(block)
                sum.update(block)
                if number == self._blocks // 2:
                    self._middle.set()
                    self._on.wait(LIMIT)
            self._sums["sent"] = sum.hexdigest()

    def _receive(self):
        with self._server as server:
            stream, _ = server.accept()
        sum = hashlib.sha256()
        with stream:
            stream.settimeout(LIMIT)
            while data := stream.recv(BLOCK):
                sum.update(data)
        self._sums["received"] = sum.hexdigest()

    def middle(self):
        """Waits until half of it is sent."""
        if not self._middle.wait(LIMIT) or self._error:
            raise Failure(f"expected: half of {self._name}\nseen: {self._error or 'less'}")

    def go_on(self):
        self._on.set()

    def done(self):
        """Waits until all of it is there, and as it was sent."""
        for thread in self._threads:
            thread.join(3 * LIMIT)
        same = len(self._sums) == 2 and self._sums["sent"] == self._sums["received"]
        expect(same, f"{self._name}, all there and the same", f"{self._sums} {self._error or ''}")


def transfer(*ends, blocks=16):
    Transfer(*ends, blocks).done()
