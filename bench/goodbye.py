#!/usr/bin/env python3
"""A server that says goodbye while requests are under way: bench/goodbye.py [PROGRAM [WORDS]]

It starts a relay of a site of its own with two servers, of which the first is the first choice. A client sends 200 requests, the first
server keeps them, says goodbye (Disconnect-Peer-Request, BUSY), reads the answer to that, answers what it has kept, and closes. The
client sends 100 more behind the goodbye. The second server answers all that it gets. It prints how many requests were sent to both
servers, how many came to the first one behind its goodbye, how many answers the client has of none, one and more, and after how many
seconds the relay has connected to the first server again, of an interval of six: the servers and the client answer no watchdog. Status 1 where a request has no
answer, or more than one. WORDS stand at strict in the site, as '"end-to-end"'. It takes a minute, and needs the program (./farm prove relay
builds it). Not part of the gate.
"""
import socket
import struct
import subprocess
import sys
import tempfile
import threading
import time
from pathlib import Path

from ends import DEBIT, PATIENCE, PROGRAM, QUIET, RELAY, SUCCESS, avp, capabilities, connect, ids_of, message, read

WORDS = sys.argv[2] if len(sys.argv) > 2 else ""
SERVERS = {b"f1.example": ("127.0.0.1", 18_981), b"f2.example": ("127.0.0.1", 18_982)}
# How many requests are under way at the goodbye, and how many come behind it.
BEFORE, BEHIND = 200, 100
CREDIT_CONTROL, DISCONNECT_PEER, BUSY = 272, 282, 1
# How long the first server waits for the relay to connect again, in seconds.
AGAIN = 90

SITE = """
realm = "ocs.example"
validity = 600
currency = 978
exponent = -2
watchdog = 6000
strict = [WORDS]
link = [
  { from = "c1.example", to = "r1.example" },
  { from = "r1.example", to = "f1.example" },
  { from = "r1.example", to = "f2.example" },
]
route = [{ at = "r1.example", realm = "ocs.example", app = 4, peers = ["f1.example", "f2.example"] }]
node = [
  { name = "r1.example", kind = "relay", address = "RELAY" },
  { name = "c1.example", kind = "client" },
  { name = "f1.example", kind = "front", address = "127.0.0.1:18981" },
  { name = "f2.example", kind = "front", address = "127.0.0.1:18982" },
]
"""


def serve(listener, name):
    """A server once the relay is up at it."""
    listener.settimeout(PATIENCE)
    end, _ = listener.accept()
    end.settimeout(PATIENCE)
    end.sendall(capabilities(name, 0, ids_of(read(end)), SUCCESS))
    end.settimeout(QUIET)
    return end


def send(client, numbers):
    """The client sends requests under these identifiers, which are each one's own."""
    for number in numbers:
        client.sendall(DEBIT[:12] + struct.pack("!II", number, number) + DEBIT[20:])


def answer(server, requests):
    """The server answers these requests, unless the relay has closed; whether it has not."""
    try:
        for request in requests:
            server.sendall(message(272, 0x40, 4, ids_of(request), SUCCESS))
    except (BrokenPipeError, ConnectionResetError):
        return False
    return True


def command_of(octets):
    return int.from_bytes(octets[5:8], "big")


def took(server):
    """All messages of clients that a server gets until none comes, or the connection ends."""
    came = []
    try:
        for octets in iter(lambda: read(server), None):
            came.append(octets)
    except ConnectionResetError:
        pass
    return [octets for octets in came if command_of(octets) == CREDIT_CONTROL]


class Again(threading.Thread):
    """Waits until the relay connects to a server again; after how many seconds, none where it does not."""

    def __init__(self, listener):
        super().__init__()
        self.listener, self.began, self.seconds = listener, time.monotonic(), None

    def run(self):
        self.listener.settimeout(AGAIN)
        try:
            self.listener.accept()[0].close()
            self.seconds = time.monotonic() - self.began
        except TimeoutError:
            pass


def say_goodbye(server):
    """The server says that it is busy; what came up to the answer, but that."""
    origin = avp(264, b"f1.example") + avp(296, b"example")
    server.sendall(message(DISCONNECT_PEER, 0x80, 0, (77, 77), origin + avp(273, struct.pack("!I", BUSY))))
    came = []
    while True:
        octets = read(server)
        if octets is None:
            raise SystemExit("the relay does not answer the goodbye")
        if command_of(octets) == DISCONNECT_PEER:
            return came
        if command_of(octets) == CREDIT_CONTROL:
            came.append(octets)


def part(first, second, client, listener):
    """What the two servers got, the first one before and behind its goodbye, what the client got, and when the relay was there again."""
    send(client, range(1, BEFORE + 1))
    before = [read(first) for _ in range(BEFORE)]
    before += say_goodbye(first)
    send(client, range(BEFORE + 1, BEFORE + BEHIND + 1))
    answer(first, before)
    behind = took(first)
    first.close()
    again = Again(listener)
    again.start()
    other = took(second)
    answer(second, other)
    client.settimeout(QUIET)
    answers = took(client)
    again.join()
    return before, behind, other, answers, again.seconds


def ends_in(messages):
    return [ids_of(octets)[1] for octets in messages]


def run(folder):
    """The messages of a run."""
    site = folder / "site.toml"
    site.write_text(SITE.replace("WORDS", WORDS).replace("RELAY", f"{RELAY[0]}:{RELAY[1]}"))
    listeners = {name: socket.create_server(place) for name, place in SERVERS.items()}
    relay = subprocess.Popen([PROGRAM, "relay", "--site", site, "--name", "r1.example"], stderr=subprocess.DEVNULL)
    try:
        servers = {name: serve(listener, name) for name, listener in listeners.items()}
        with servers[b"f2.example"] as second, connect() as client:
            return part(servers[b"f1.example"], second, client, listeners[b"f1.example"])
    finally:
        relay.kill()
        relay.wait()


def main():
    with tempfile.TemporaryDirectory() as folder:
        *messages, seconds = run(Path(folder))
    before, behind, other, answers = map(ends_in, messages)
    twice = len(set(before + behind) & set(other))
    counts = [answers.count(number) for number in range(1, BEFORE + BEHIND + 1)]
    none, one = counts.count(0), counts.count(1)
    print(f"strict = [{WORDS}]: {twice} requests were sent to both servers, {len(behind)} to the first one behind its goodbye")
    print(f"connected again after {seconds:.0f} seconds" if seconds else f"not connected again for {AGAIN} seconds")
    print(f"answers: none to {none} requests, one to {one}, more to {len(counts) - none - one}")
    sys.exit(1 if one < len(counts) else 0)


if __name__ == "__main__":
    main()
