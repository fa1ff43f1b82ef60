#!/usr/bin/env python3
"""What a running farm does with peers that misbehave: bench/hostile.py [PROGRAM]

It starts the farm of examples/live, and then connects to a relay with octets that are no Diameter, half a header, a frame
of 10 MB, an unknown name, messages before the exchange of capabilities, a second connection of one peer, a disconnect in
the middle, a peer that never reads, and ten thousand connections that say nothing. Each line says what became of it, what
memory the relay has then and has had at most, and that a client is served. It needs no toolchain but the program
(./farm prove relay builds it). Not part of the gate.
"""
import os
import resource
import socket
import struct
import subprocess
import sys
import tempfile
import time

ROOT = os.path.dirname(os.path.dirname(os.path.abspath(__file__)))
PROGRAM = sys.argv[1] if len(sys.argv) > 1 else f"{ROOT}/crates/farm_live/out/farm_live"
SITE = f"{ROOT}/examples/live/site.toml"
RELAY = ("127.0.0.1", 18681)
IDLE = 10_000
DEBIT = open(f"{ROOT}/examples/live/first-debit.hex").read().strip()


def avp(code, value, flags=0x40):
    length = 8 + len(value)
    return struct.pack("!II", code, flags << 24 | length) + value + b"\0" * (-length % 4)


def message(command, body, flags=0x80, application=0, hop=1):
    return struct.pack("!IIIII", 1 << 24 | 20 + len(body), flags << 24 | command, application, hop, hop) + body


def capabilities(name):
    return message(257, avp(264, name) + avp(296, b"ocs.example") + avp(257, b"\0\1\x7f\0\0\1") + avp(266, bytes(4))
                   + avp(269, b"hostile", 0) + avp(258, struct.pack("!I", 4)))


def connect():
    peer = socket.create_connection(RELAY, timeout=5)
    peer.settimeout(12)
    return peer


def read(peer):
    """What comes, until the other end ends the connection or twelve seconds pass."""
    octets = b""
    try:
        while True:
            piece = peer.recv(65536)
            if not piece:
                return octets, "ended"
            octets += piece
    except socket.timeout:
        return octets, "stands"
    except OSError:
        return octets, "ended"


def read_message(peer):
    octets = b""
    while len(octets) < 20 or len(octets) < int.from_bytes(octets[1:4], "big"):
        piece = peer.recv(65536)
        if not piece:
            return octets
        octets += piece
    return octets


def code_of(octets):
    """The Result-Code, which all these answers have first among their AVPs or behind some."""
    at = octets.find(struct.pack("!II", 268, 0x4000000C))
    return int.from_bytes(octets[at + 8 : at + 12], "big") if at >= 0 else None


def memory(process, what):
    """What stays in memory of a process, in kB: VmRSS now, VmHWM at most."""
    with open(f"/proc/{process.pid}/status") as status:
        return next(int(line.split()[1]) for line in status if line.startswith(what))


def start(room, name, *words):
    log = open(f"{room}/{name}.log", "w")
    process = subprocess.Popen([PROGRAM, *words, "--site", SITE], stderr=log, stdout=log, stdin=subprocess.DEVNULL)
    for _ in range(100):
        if "listens on" in open(f"{room}/{name}.log").read():
            return process
        time.sleep(0.1)
    sys.exit(f"{name} does not listen")


NUMBER = 1_000


def is_served():
    """Whether a client of another name than those who misbehave is served: it asks whether it may have 3200 octets."""
    global NUMBER
    NUMBER += 1
    debit = DEBIT[:296] + f"{NUMBER:08x}" + DEBIT[304:]
    send = [PROGRAM, "send", "--site", SITE, "--client", "c1.example", "--peer", "r1.example"]
    try:
        done = subprocess.run(send, input=debit + "\n", text=True, capture_output=True, timeout=30)
    except subprocess.TimeoutExpired:
        return False
    return done.returncode == 0 and done.stdout.startswith("010000")


def no_diameter():
    peer = connect()
    peer.sendall(b"GET / HTTP/1.1\r\nHost: r1.example\r\n\r\n")
    return read(peer) == (b"", "ended")


def half_a_header():
    peer = connect()
    peer.sendall(bytes.fromhex("0100003c8000"))
    octets, state = read(peer)
    return octets == b"" and state == "ended"


def ten_megabytes():
    peer = connect()
    try:
        peer.sendall(struct.pack("!I", 1 << 24 | 10_000_000) + bytes(10_000_000))
    except OSError:
        pass
    return read(peer)[1] == "ended"


def unknown_name():
    peer = connect()
    peer.sendall(capabilities(b"nobody.example"))
    return read(peer) == (b"", "ended")


def message_before():
    peer = connect()
    peer.sendall(bytes.fromhex(DEBIT))
    return read(peer) == (b"", "ended")


def watchdog_before():
    peer = connect()
    peer.sendall(message(280, avp(264, b"c1.example") + avp(296, b"ocs.example")))
    return read(peer) == (b"", "ended")


def two_connections():
    first, second = connect(), connect()
    first.sendall(capabilities(b"c1.example"))
    welcome = code_of(read_message(first)) == 2001
    second.sendall(capabilities(b"c1.example"))
    refused = read(second)[1] == "ended"
    # the first one has not noticed: its watchdog is answered
    first.sendall(message(280, avp(264, b"c1.example") + avp(296, b"ocs.example"), hop=9))
    answers = [read_message(first) for _ in range(2)]
    first.close()
    return welcome and refused and any(code_of(it) == 2001 for it in answers)


def disconnect_in_the_middle():
    peer = connect()
    peer.sendall(capabilities(b"c1.example"))
    welcome = code_of(read_message(peer)) == 2001
    names = avp(264, b"c1.example") + avp(296, b"ocs.example")
    peer.sendall(bytes.fromhex(DEBIT) + message(282, names + avp(273, bytes(4)), hop=3) + bytes.fromhex(DEBIT))
    octets, state = read(peer)
    return welcome and state == "ended" and struct.pack("!I", 282) in octets


def never_reads():
    peer = connect()
    peer.setsockopt(socket.SOL_SOCKET, socket.SO_RCVBUF, 4096)
    peer.sendall(capabilities(b"c1.example"))
    welcome = code_of(read_message(peer)) == 2001
    # twenty thousand requests that are each answered, and no answer is read
    peer.settimeout(2)
    bad = bytearray(bytes.fromhex(DEBIT))
    bad[4] = 0x80
    try:
        for _ in range(400):
            peer.sendall(bytes(bad) * 50)
    except OSError:
        pass
    time.sleep(1)
    peer.close()
    return welcome


def say_nothing():
    _, most = resource.getrlimit(resource.RLIMIT_NOFILE)
    resource.setrlimit(resource.RLIMIT_NOFILE, (most, most))
    peers = [connect() for _ in range(IDLE)]
    ended = 0
    until = time.monotonic() + 12
    for peer in peers:
        peer.settimeout(max(0.01, until - time.monotonic()))
        try:
            ended += peer.recv(1) == b""
        except OSError:
            pass
        peer.close()
    return ended == IDLE


def main():
    with tempfile.TemporaryDirectory() as room:
        nodes = [start(room, "fronts", "front")]
        nodes.append(start(room, "r1", "relay", "--name", "r1.example"))
        failed = 0
        try:
            for attack in (no_diameter, half_a_header, ten_megabytes, unknown_name, message_before, watchdog_before,
                           two_connections, disconnect_in_the_middle, never_reads, say_nothing):
                began = time.monotonic()
                well = attack()
                took = time.monotonic() - began
                served = is_served()
                runs = nodes[1].poll() is None
                failed += not (well and served and runs)
                print(f"{attack.__name__}: {'as it is to be' if well else 'OTHERWISE'} after {took:.1f} s; "
                      f"{'a client is served' if served else 'NO CLIENT IS SERVED'}; the relay "
                      + (f"runs, {memory(nodes[1], 'VmRSS')} kB, at most {memory(nodes[1], 'VmHWM')} kB" if runs else "HAS ENDED"), flush=True)
                time.sleep(1.5)
        finally:
            for node in nodes:
                node.kill()
                node.wait()
            if failed:
                print(open(f"{room}/r1.log").read()[-3000:])
        return 1 if failed else 0


sys.exit(main())
