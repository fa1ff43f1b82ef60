#!/usr/bin/env python3
"""How long an answer of a serving front takes, and what its workers charge: bench/wake.py [PROGRAM]

It starts the fronts of examples/live, connects to the first one as relay r1.example, and sends 100 debits, each once the one
before is answered. Where no worker woke the loop, each answer would wait for a tick, up to 100 milliseconds; so it ends with
status 1 where half of them took 50 or more. Then it sends 200 at once, and tells how long all of them took. It needs no toolchain
but the program (./farm prove relay builds it). Not part of the gate.
"""
import os
import socket
import struct
import subprocess
import sys
import tempfile
import time

ROOT = os.path.dirname(os.path.dirname(os.path.abspath(__file__)))
PROGRAM = sys.argv[1] if len(sys.argv) > 1 else f"{ROOT}/crates/farm_live/out/farm_live"
SITE = f"{ROOT}/examples/live/site.toml"
FRONT = ("127.0.0.1", 18683)
DEBIT = open(f"{ROOT}/examples/live/first-debit.hex").read().strip()
SUCCESS = struct.pack("!III", 268, 0x4000000C, 2001)


def avp(code, value, flags=0x40):
    length = 8 + len(value)
    return struct.pack("!II", code, flags << 24 | length) + value + b"\0" * (-length % 4)


def capabilities():
    body = (avp(264, b"r1.example") + avp(296, b"ocs.example") + avp(257, b"\0\1\x7f\0\0\1") + avp(266, bytes(4)) + avp(269, b"wake", 0)
            + avp(258, struct.pack("!I", 4)))
    return struct.pack("!IIIII", 1 << 24 | 20 + len(body), 0x80 << 24 | 257, 0, 1, 1) + body


def debit(number):
    return bytes.fromhex(DEBIT[:296] + f"{number:08x}" + DEBIT[304:])


def start(room):
    log = f"{room}/log"
    with open(log, "w") as file:
        process = subprocess.Popen([PROGRAM, "front", "--site", SITE, "--log", "info"], stderr=file, stdout=file, stdin=subprocess.DEVNULL)
    for _ in range(100):
        if open(log).read().count("listens on") == 2:
            return process
        time.sleep(0.1)
    process.kill()
    sys.exit("the fronts do not listen")


class Peer:
    def __init__(self):
        self.socket = socket.create_connection(FRONT, timeout=10)
        self.socket.setsockopt(socket.IPPROTO_TCP, socket.TCP_NODELAY, 1)
        self.octets = b""

    def read(self):
        """The next message that is no request: a Device-Watchdog-Request is none of ours."""
        while True:
            while len(self.octets) < 4 or len(self.octets) < int.from_bytes(self.octets[1:4], "big"):
                piece = self.socket.recv(65536)
                if not piece:
                    sys.exit("the connection has ended")
                self.octets += piece
            length = int.from_bytes(self.octets[1:4], "big")
            message, self.octets = self.octets[:length], self.octets[length:]
            if not message[4] & 0x80:
                return message


def main():
    with tempfile.TemporaryDirectory() as room:
        process = start(room)
        try:
            peer = Peer()
            peer.socket.sendall(capabilities())
            peer.read()
            times = []
            for number in range(100):
                began = time.monotonic()
                peer.socket.sendall(debit(number))
                if SUCCESS not in peer.read():
                    sys.exit(f"debit {number} is not charged")
                times.append(1000 * (time.monotonic() - began))
            times.sort()
            print(f"one at a time: half within {times[50]:.1f} ms, nine of ten within {times[90]:.1f}, all within {times[-1]:.1f}")
            began = time.monotonic()
            peer.socket.sendall(b"".join(map(debit, range(100, 300))))
            charged = sum(SUCCESS in peer.read() for _ in range(200))
            print(f"200 at once: {charged} charged, {1000 * (time.monotonic() - began):.0f} ms")
            if times[50] >= 50 or charged != 200:
                sys.exit(1)
        finally:
            process.kill()
            process.wait()


main()
