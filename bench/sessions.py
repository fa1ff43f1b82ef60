#!/usr/bin/env python3
"""That serving fronts keep the time of sessions: bench/sessions.py [PROGRAM] [--wait SECONDS]

It starts a front whose grants are good for a second, so that a session ends two seconds after its last request, and connects to it
as a client. The account has 25, which is what 5000 octets cost. A session takes it all; while it goes on, a debit is refused, and
each request prolongs it; two seconds after the last one, or a second more, it is swept: then an UPDATE of it is unknown, and what it had reserved is
free, so that the debit is made. A front that never sweeps, that sweeps what is not due, or whose charges and sweeps go by other
clocks or units of time is found out. It needs no toolchain but the program (./farm prove relay builds it); --wait says for how
long it may take until the front listens. It takes eleven seconds. Status 1 where an answer is another one. Not part of the gate.
"""
import argparse
import socket
import struct
import subprocess
import sys
import tempfile
import time
from pathlib import Path

ROOT = Path(__file__).resolve().parent.parent
PORT = 18_961
SITE = f"""
realm = "ocs.example"
validity = 1
limit = 100
currency = 978
exponent = -2
node = [{{ name = "f1.example", kind = "front", address = "127.0.0.1:{PORT}" }}, {{ name = "c1.example", kind = "client" }}]
link = [{{ from = "c1.example", to = "f1.example" }}]
tariff = [{{ group = 10, kind = "octets", block = 1000, price = 5, quantum = 5000, greatest = 10000 }}]
account = [{{ type = 0, id = "491700000001", opening = 25 }}]
"""
INITIAL, UPDATE, EVENT = 1, 2, 4
SUCCESS, LIMIT_REACHED, UNKNOWN_SESSION = 2001, 4012, 5002
# Seconds from the request before, the type of a request, its session and number, and its Result-Code: by the rules of docs/SCHEDULES.md.
REQUESTS = [
    (0.0, INITIAL, b"c1.example;1", 0, SUCCESS, "a session opens, and has all"),
    (0.1, EVENT, b"c1.example;2", 0, LIMIT_REACHED, "nothing is free for a debit"),
    (1.4, UPDATE, b"c1.example;1", 1, SUCCESS, "1.5 seconds later the session goes on"),
    (1.5, UPDATE, b"c1.example;1", 2, SUCCESS, "and 1.5 seconds later again, since each request prolongs it"),
    (0.1, EVENT, b"c1.example;3", 0, LIMIT_REACHED, "nothing is free yet"),
    (4.0, EVENT, b"c1.example;4", 0, SUCCESS, "4 seconds later it was swept, and all is free"),
    (0.1, UPDATE, b"c1.example;1", 3, UNKNOWN_SESSION, "and the session is gone"),
]


def avp(code, value, flags=0x40):
    length = 8 + len(value)
    return struct.pack("!II", code, flags << 24 | length) + value + bytes(-length % 4)


def number(code, value):
    return avp(code, struct.pack("!I", value))


def message(flags, command, application, identifier, body):
    return struct.pack("!IIIII", 1 << 24 | 20 + len(body), flags << 24 | command, application, identifier, identifier) + body


def capabilities():
    return message(0x80, 257, 0, 1, avp(264, b"c1.example") + avp(296, b"ocs.example") + avp(257, b"\0\1\x7f\0\0\1") + number(266, 0)
                   + avp(269, b"sessions", 0) + number(258, 4))


def request(kind, session, count):
    """A request for 5000 octets of service 10: of a session the tariff's quantum, of an event a debit."""
    asked = avp(437, avp(421, struct.pack("!Q", 5000)) if kind == EVENT else b"")
    action = number(436, 0) if kind == EVENT else b""
    return message(0xC0, 272, 4, count + 1, avp(263, session) + avp(264, b"c1.example") + avp(296, b"ocs.example") + avp(283, b"ocs.example")
                   + number(258, 4) + avp(461, b"32251@3gpp.org") + number(416, kind) + number(415, count) + action
                   + avp(443, number(450, 0) + avp(444, b"491700000001")) + avp(456, asked + number(432, 10)))


def avps_of(octets):
    found = []
    while octets:
        code, word = struct.unpack("!II", octets[:8])
        length = word & 0xFFFFFF
        found.append((code, octets[8:length]))
        octets = octets[length + -length % 4:]
    return found


def code_of(answer):
    """The Result-Code of the first service, or, where no service has one, that of the answer."""
    avps = avps_of(answer[20:])
    services = [value for code, value in avps if code == 456]
    if services:
        avps = avps_of(services[0])
    return next(int.from_bytes(value, "big") for code, value in avps if code == 268)


class Peer:
    def __init__(self, wait):
        end = time.monotonic() + wait
        while True:
            try:
                self.socket = socket.create_connection(("127.0.0.1", PORT), timeout=10)
                break
            except OSError:
                if time.monotonic() > end:
                    sys.exit("the front does not listen")
                time.sleep(0.1)
        self.octets = b""

    def read(self):
        """The next answer."""
        while True:
            while len(self.octets) < 4 or len(self.octets) < int.from_bytes(self.octets[1:4], "big"):
                piece = self.socket.recv(65536)
                if not piece:
                    sys.exit("the connection has ended")
                self.octets += piece
            length = int.from_bytes(self.octets[1:4], "big")
            found, self.octets = self.octets[:length], self.octets[length:]
            if not found[4] & 0x80:
                return found

    def ask(self, octets):
        self.socket.sendall(octets)
        return self.read()


def main():
    parser = argparse.ArgumentParser(description=__doc__, formatter_class=argparse.RawDescriptionHelpFormatter)
    parser.add_argument("program", nargs="?", default=f"{ROOT}/crates/farm_live/out/farm_live")
    parser.add_argument("--wait", type=float, default=10)
    words = parser.parse_args()
    wrong = 0
    with tempfile.TemporaryDirectory() as room:
        site = Path(room) / "site.toml"
        site.write_text(SITE)
        process = subprocess.Popen([words.program, "front", "--site", site, "--log", "warn"], stdin=subprocess.DEVNULL)
        try:
            peer = Peer(words.wait)
            peer.ask(capabilities())
            for after, kind, session, count, wanted, why in REQUESTS:
                time.sleep(after)
                code = code_of(peer.ask(request(kind, session, count)))
                wrong += code != wanted
                print(f"{code} {'as' if code == wanted else f'where {wanted} is'} wanted: {why}", flush=True)
        finally:
            process.kill()
            process.wait()
    sys.exit(1 if wrong else 0)


main()
