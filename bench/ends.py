#!/usr/bin/env python3
"""A server that answers under identifiers of its own choice, behind a relay: bench/ends.py [PROGRAM]

It starts a relay of a site of its own, once with strict = ["end-to-end"] and once without it. A server connected with it answers
one request four times: with another End-to-End Identifier, under another Hop-by-Hop Identifier, with both as they are, and so once
more. It prints which answers the client gets, and how many the relay has dropped by its status page. Status 1 where that is not
what docs/SERVING.md says ("Which answers a relay takes"). It needs the program (./farm prove relay builds it). Not part of the gate.
"""
import re
import socket
import struct
import subprocess
import sys
import tempfile
import time
import urllib.request
from pathlib import Path

ROOT = Path(__file__).resolve().parent.parent
PROGRAM = sys.argv[1] if len(sys.argv) > 1 else f"{ROOT}/crates/farm_live/out/farm_live"
DEBIT = bytes.fromhex((ROOT / "examples/live/first-debit.hex").read_text())
RELAY, SERVER, STATUS = ("127.0.0.1", 18_961), ("127.0.0.1", 18_962), 18_963
# How long the relay has to be there, and the client waits for one more answer, in seconds.
PATIENCE, QUIET = 20, 2

SITE = """
realm = "ocs.example"
validity = 600
currency = 978
exponent = -2
strict = [STRICT]
link = [{ from = "c1.example", to = "r1.example" }, { from = "r1.example", to = "f1.example" }]
route = [{ at = "r1.example", realm = "ocs.example", app = 4, peers = ["f1.example"] }]
node = [
  { name = "r1.example", kind = "relay", address = "RELAY" },
  { name = "c1.example", kind = "client" },
  { name = "f1.example", kind = "front", address = "SERVER" },
]
"""


def avp(code, value, flags=0x40):
    length = 8 + len(value)
    return struct.pack("!II", code, flags << 24 | length) + value + b"\0" * (-length % 4)


def message(command, flags, application, ids, body):
    return struct.pack("!IIIII", 1 << 24 | 20 + len(body), flags << 24 | command, application, *ids) + body


def capabilities(name, flags, ids, result=b""):
    """A Capabilities-Exchange-Request of this node, or its answer (RFC 6733, sections 5.3.1 and 5.3.2)."""
    origin = avp(264, name) + avp(296, b"example") + avp(257, b"\0\1\x7f\0\0\1") + avp(266, bytes(4)) + avp(269, b"ends", 0)
    return message(257, flags, 0, ids, result + origin + avp(258, struct.pack("!I", 4)))


SUCCESS = avp(268, struct.pack("!I", 2001))


def read(end):
    """One message, or nothing where none comes or the connection ends."""
    octets = b""
    try:
        while len(octets) < 20 or len(octets) < int.from_bytes(octets[1:4], "big"):
            wanted = (int.from_bytes(octets[1:4], "big") if len(octets) >= 20 else 20) - len(octets)
            more = end.recv(wanted)
            if not more:
                return None
            octets += more
    except TimeoutError:
        return None
    return octets


def ids_of(octets):
    """Its Hop-by-Hop and its End-to-End Identifier."""
    return struct.unpack_from("!II", octets, 12)


def serve(listener):
    """The server once the relay is up at it."""
    listener.settimeout(PATIENCE)
    end, _ = listener.accept()
    end.settimeout(PATIENCE)
    end.sendall(capabilities(b"f1.example", 0, ids_of(read(end)), SUCCESS))
    return end


def dial():
    """A connection with the relay, which listens once its own connections were made."""
    until = time.monotonic() + PATIENCE
    while True:
        try:
            return socket.create_connection(RELAY, PATIENCE)
        except ConnectionRefusedError:
            if time.monotonic() > until:
                raise
            time.sleep(0.05)


def connect():
    """A client that is up at the relay."""
    end = dial()
    end.sendall(capabilities(b"c1.example", 0x80, (1, 1)))
    read(end)
    return end


def ask(server, client):
    """The identifiers of the answers that a client gets to one request."""
    client.sendall(DEBIT)
    hop, ident = ids_of(read(server))
    for answer in ((hop, ident + 1), (hop ^ 1, ident), (hop, ident), (hop, ident)):
        server.sendall(message(272, 0x40, 4, answer, SUCCESS))
    client.settimeout(QUIET)
    return [ids_of(octets) for octets in iter(lambda: read(client), None)]


def dropped():
    """How many answers the relay says that it has dropped."""
    page = urllib.request.urlopen(f"http://127.0.0.1:{STATUS}/metrics", timeout=PATIENCE).read().decode()
    return int(re.search(r"^farm_answers_mismatched_total (\d+)$", page, re.M)[1])


def run(folder, strict):
    """What a client gets, and how many answers the relay drops, where its site asks for this."""
    site = folder / "site.toml"
    text = SITE.replace("STRICT", strict)
    for word, (host, port) in (("RELAY", RELAY), ("SERVER", SERVER)):
        text = text.replace(word, f"{host}:{port}")
    site.write_text(text)
    with socket.create_server(SERVER) as listener:
        relay = subprocess.Popen([PROGRAM, "relay", "--site", site, "--name", "r1.example", "--status", str(STATUS)], stderr=subprocess.DEVNULL)
        try:
            with serve(listener) as server, connect() as client:
                return ask(server, client), dropped()
        finally:
            relay.kill()
            relay.wait()


def main():
    hop, ident = ids_of(DEBIT)
    wanted = {'"end-to-end"': ([(hop, ident)], 1), "": ([(hop, ident + 1)], 0)}
    failed = False
    with tempfile.TemporaryDirectory() as folder:
        for strict, expected in wanted.items():
            answers, count = found = run(Path(folder), strict)
            failed |= found != expected
            print(f"strict = [{strict}]: the client gets {answers}, dropped {count}{'' if found == expected else f', and not {expected}'}")
    sys.exit(1 if failed else 0)


if __name__ == "__main__":
    main()
