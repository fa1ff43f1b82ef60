#!/usr/bin/env python3
"""Servers that answer wrongly, behind a relay with two clients: bench/strangers.py [PROGRAM [WORDS]]

Each client sends 200 requests, 20 of them under way at a time, each with a Session-Id of its own, which the server puts into its
answers. Both count their Hop-by-Hop Identifiers from 1; their End-to-End Identifiers differ. The server does one of these:

- twice: it answers each request twice;
- settled: behind each answer it sends what it has answered last once more, under the identifiers of that request;
- invented: in front of each answer it sends ones under identifiers of its own: the next, the one before, 0, and others by chance;
- late: it keeps all that the first client has sent. That one closes its connection and comes again with other requests, under the
  same identifiers, and the server answers the old requests, and then the new ones;
- named: it comes up under the name of another server of the site. Nothing may be sent to it, and each request is refused.

A client has to get one answer to each of its requests, with its own Session-Id, and nothing else; before the last server one refusal. Status 1 where it does not. WORDS stand at
strict in the site, and are '"names", "end-to-end"' where none are given. It needs the program (./farm prove relay builds it). Not part of
the gate.
"""
import random
import socket
import struct
import subprocess
import sys
import tempfile
import threading
import time
from collections import Counter
from pathlib import Path

sys.dont_write_bytecode = True

from ends import DEBIT, PATIENCE, PROGRAM, QUIET, RELAY, SERVER, SUCCESS, avp, capabilities, ids_of, message, read  # noqa: E402

WORDS = sys.argv[2] if len(sys.argv) > 2 else '"names", "end-to-end"'
REQUESTS, UNDER_WAY = 200, 20
CLIENTS = (b"c1.example", b"c2.example")
SESSION_ID = 263

SITE = """
realm = "ocs.example"
validity = 600
currency = 978
exponent = -2
strict = [WORDS]
link = [
  { from = "c1.example", to = "r1.example" },
  { from = "c2.example", to = "r1.example" },
  { from = "r1.example", to = "f1.example" },
]
route = [{ at = "r1.example", realm = "ocs.example", app = 4, peers = ["f1.example"] }]
node = [
  { name = "r1.example", kind = "relay", address = "RELAY" },
  { name = "c1.example", kind = "client" },
  { name = "c2.example", kind = "client" },
  { name = "f1.example", kind = "front", address = "SERVER" },
  { name = "f2.example", kind = "front" },
]
"""


def avps_of(octets):
    """The AVPs of a message: code and octets, with header and padding."""
    at = 20
    while at < len(octets):
        length = int.from_bytes(octets[at + 5 : at + 8], "big")
        end = at + length + -length % 4
        yield int.from_bytes(octets[at : at + 4], "big"), octets[at:end]
        at = end


def session_of(octets):
    """The Session-Id of a message."""
    for code, whole in avps_of(octets):
        if code == SESSION_ID:
            return whole[8 : int.from_bytes(whole[5:8], "big")]
    return None


def request(name, number, session):
    """The client's request of this number and Session-Id."""
    body = b"".join(avp(SESSION_ID, session) if code == SESSION_ID else whole for code, whole in avps_of(DEBIT))
    return message(272, DEBIT[4], 4, (number, CLIENTS.index(name) << 20 | number), body)


def answer_to(octets, ids=None):
    """An answer to this request, under these identifiers or its own."""
    return message(272, 0x40, 4, ids or ids_of(octets), avp(SESSION_ID, session_of(octets)) + SUCCESS)


class Server(threading.Thread):
    """A server that does as one of the words says."""

    def __init__(self, listener, how, chance):
        super().__init__(daemon=True)
        self.listener, self.how, self.chance = listener, how, chance
        self.kept, self.requests, self.let_go = [], 0, threading.Event()

    def invented(self, octets):
        hop, ident = ids_of(octets)
        for other in (hop + 1, hop - 1, 0, self.chance.randrange(1 << 32), hop ^ 1 << 31):
            yield answer_to(octets, (other % (1 << 32), ident))

    def answers(self, octets):
        """What it sends once it has got this request."""
        if self.how == "twice":
            return [answer_to(octets)] * 2
        if self.how == "settled":
            before, self.kept = self.kept, [octets]
            return [answer_to(octets), *map(answer_to, before)]
        if self.how == "invented":
            return [*self.invented(octets), answer_to(octets)]
        if self.how == "late" and not self.let_go.is_set():
            self.kept.append(octets)
            return []
        kept, self.kept = self.kept, []
        return [answer_to(each) for each in [*kept, octets]]

    def run(self):
        self.listener.settimeout(PATIENCE)
        end, _ = self.listener.accept()
        end.settimeout(PATIENCE)
        name = b"f2.example" if self.how == "named" else b"f1.example"
        end.sendall(capabilities(name, 0, ids_of(read(end)), SUCCESS))
        try:
            for octets in iter(lambda: read(end), None):
                if octets[4] & 0x80 and int.from_bytes(octets[5:8], "big") == 272:
                    self.requests += 1
                    end.sendall(b"".join(self.answers(octets)))
        except OSError:
            pass


def connect(name):
    """This client, up at the relay, which listens once its own connections were tried."""
    until = time.monotonic() + PATIENCE
    while True:
        try:
            end = socket.create_connection(RELAY, PATIENCE)
            break
        except ConnectionRefusedError:
            if time.monotonic() > until:
                raise
            time.sleep(0.05)
    end.sendall(capabilities(name, 0x80, (1, 1)))
    read(end)
    return end


def take(got, wanted, octets):
    """Counts what comes: an answer or a refusal of a request that waits for it, or a stranger's."""
    hop, session = ids_of(octets)[0], session_of(octets)
    if wanted.get(hop) == session:
        del wanted[hop]
        got["refused" if octets[4] & 0x20 else "answered"] += 1
    else:
        got["strange"] += 1


def ask(end, name, series, got):
    """Sends requests, a few under way at a time, and counts what comes."""
    wanted, number = {}, 0
    end.settimeout(QUIET)
    while number < REQUESTS or wanted:
        while number < REQUESTS and len(wanted) < UNDER_WAY:
            number += 1
            wanted[number] = b"%s;%s;%d" % (name, series, number)
            end.sendall(request(name, number, wanted[number]))
        octets = read(end)
        if octets is None:
            got["missing"] += len(wanted)
            return
        take(got, wanted, octets)
    for octets in iter(lambda: read(end), None):
        take(got, wanted, octets)


def leave_behind(name):
    """The first client's requests that are under way as it closes its connection."""
    with connect(name) as end:
        for number in range(1, UNDER_WAY + 1):
            end.sendall(request(name, number, b"%s;old;%d" % (name, number)))
        end.settimeout(QUIET)
        read(end)


def run(folder, how, chance):
    """What the clients get behind a server that does so, and how many requests it got."""
    site = folder / "site.toml"
    text = SITE.replace("WORDS", WORDS)
    for word, (host, port) in (("RELAY", RELAY), ("SERVER", SERVER)):
        text = text.replace(word, f"{host}:{port}")
    site.write_text(text)
    got, log = Counter(), open(folder / "log", "wb")
    with socket.create_server(SERVER) as listener:
        server = Server(listener, how, chance)
        server.start()
        relay = subprocess.Popen([PROGRAM, "relay", "--site", site, "--name", "r1.example"], stderr=log)
        try:
            if how == "late":
                leave_behind(CLIENTS[0])
                server.let_go.set()
            asking = [threading.Thread(target=lambda name=name: ask(connect(name), name, b"new", got)) for name in CLIENTS]
            for thread in asking:
                thread.start()
            for thread in asking:
                thread.join()
        finally:
            relay.kill()
            relay.wait()
    return got, server.requests, (folder / "log").read_text()


def is_right(how, got, requests, log):
    """Whether it is what it has to be."""
    if how == "named":
        return got == Counter(refused=len(CLIENTS) * REQUESTS) and requests == 0 and "f1.example" in log and "f2.example" in log
    return got == Counter(answered=len(CLIENTS) * REQUESTS)


def main():
    failed, chance = False, random.Random(62)
    for how in ("twice", "settled", "invented", "late", "named"):
        with tempfile.TemporaryDirectory() as folder:
            got, requests, log = run(Path(folder), how, chance)
        right = is_right(how, got, requests, log)
        failed |= not right
        told = ", ".join(f"{count} {word}" for word, count in sorted(got.items()))
        print(f"{how}: {requests} requests at the server; at the clients {told or 'nothing'}{'' if right else '; not as it has to be'}")
    sys.exit(1 if failed else 0)


if __name__ == "__main__":
    main()
