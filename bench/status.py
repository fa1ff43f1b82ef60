#!/usr/bin/env python3
"""What a status port costs, and what those can do who use it badly: bench/status.py [--seconds 3] [--rounds 5] [--program PROGRAM]

First three relays carry the same load in turn, round after round, with 32 requests unanswered on one connection: one without
--status, one with it, and one whose page and /metrics are asked for once a second each. Every answer is checked. It prints the
processor time of a request of each and, of each round, what it is of the first one's; then what one page costs a relay at rest.
Then it uses the port badly: a client that sends an octet every half second, requests, lines, heads and bodies without an end,
octets that are no HTTP, thousands of requests whose replies are not read, wrong tokens, connections that say nothing, and a
second relay on a port that is in use. After each of them the relay must run, carry requests and have a page. Status 1 where one
of that fails. It needs rustc for the ends of the load (bench/field/ends.rs), and the program (./farm prove relay builds it). Not
part of the gate.
"""
import argparse
import os
import socket
import statistics
import subprocess
import sys
import tempfile
import threading
import time
from pathlib import Path

HERE = Path(__file__).resolve().parent
SERVER = 18_930
TICK = os.sysconf("SC_CLK_TCK")
KINDS = ["without", "with", "asked"]
CUT = 5.0


def site(port):
    """A client, a relay and a server that answers at once."""
    nodes = [("r1.example", "relay", port), ("f1.example", "front", SERVER), ("c1.example", "client", None)]
    lines = ['realm = "ocs.example"', "validity = 600", "currency = 978", "exponent = -2", "watchdog = 30000"]
    for name, kind, at in nodes:
        lines += ["[[node]]", f'name = "{name}"', f'kind = "{kind}"'] + ([f'address = "127.0.0.1:{at}"'] if at else [])
    for start, end in [("c1.example", "r1.example"), ("r1.example", "f1.example")]:
        lines += ["[[link]]", f'from = "{start}"', f'to = "{end}"']
    return "\n".join([*lines, "[[route]]", 'at = "r1.example"', 'realm = "ocs.example"', "app = 4", 'peers = ["f1.example"]']) + "\n"


class Relay:
    """A relay that serves, with a status port or without one."""

    def __init__(self, room, program, place, has_status):
        self.port, self.status = 18_931 + 2 * place, 18_932 + 2 * place
        self.room, self.log = room, f"{room}/{place}.log"
        Path(f"{room}/{place}.toml").write_text(site(self.port))
        self.words = [program, "relay", "--site", f"{room}/{place}.toml", "--name", "r1.example"]
        if has_status:
            self.words += ["--status", str(self.status), "--token", f"{room}/{place}.token"]
        with open(self.log, "w") as log:
            self.process = subprocess.Popen(self.words, stdout=log, stderr=log, stdin=subprocess.DEVNULL)
        await_port(self.port)

    def used(self):
        """Seconds of a processor."""
        rest = Path(f"/proc/{self.process.pid}/stat").read_text().rsplit(")", 1)[1].split()
        return (int(rest[11]) + int(rest[12])) / TICK

    def memory(self):
        lines = Path(f"/proc/{self.process.pid}/status").read_text().splitlines()
        return next(int(line.split()[1]) for line in lines if line.startswith("VmHWM"))

    def carry(self, seconds, window):
        """What the ends of the load have counted."""
        words = [f"{self.room}/ends", "ask", f"127.0.0.1:{self.port}", "c1.example", str(window), str(seconds), "ocs.example"]
        told = subprocess.run(words, capture_output=True, text=True, timeout=seconds + 30).stdout.split()
        return dict(zip(told[::2], map(float, told[1::2])))

    def is_well(self, told):
        return bool(told) and told["answers"] > 0 and not any(told[word] for word in ("wrong", "strangers", "missing", "ended"))

    def page(self, path="/", timeout=30.0):
        """A page, and the seconds that it took; nothing where none came."""
        began = time.monotonic()
        try:
            with socket.create_connection(("127.0.0.1", self.status), timeout=timeout) as peer:
                peer.sendall(f"GET {path} HTTP/1.1\r\nHost: localhost\r\n\r\n".encode())
                octets, _ = read(peer, timeout)
        except OSError:
            return b"", time.monotonic() - began
        return (octets if octets.startswith(b"HTTP/1.1 200 ") else b""), time.monotonic() - began


def await_port(port):
    for _ in range(200):
        with socket.socket() as probe:
            if probe.connect_ex(("127.0.0.1", port)) == 0:
                return
        time.sleep(0.1)
    sys.exit(f"status: nobody listens on {port}")


def read(peer, seconds):
    """What comes until the other end ends the connection, and whether it did in time."""
    octets, until = b"", time.monotonic() + seconds
    try:
        while (left := until - time.monotonic()) > 0:
            peer.settimeout(left)
            piece = peer.recv(65_536)
            if not piece:
                return octets, True
            octets += piece
    except socket.timeout:
        return octets, False
    except OSError:
        return octets, True
    return octets, False


# ---- what it costs


def cost(relay, seconds, asks):
    """Microseconds of a processor for each request, and how many pages were read meanwhile."""
    ended, pages = threading.Event(), []

    def ask():
        while not ended.wait(1.0):
            pages.extend(bool(relay.page(path)[0]) for path in ("/", "/metrics"))

    asker = threading.Thread(target=ask)
    if asks:
        asker.start()
    before = relay.used()
    told = relay.carry(seconds, 32)
    after = relay.used()
    ended.set()
    if asks:
        asker.join()
    if not relay.is_well(told) or not all(pages):
        sys.exit(f"status: not all answers are right: {told}, pages {pages}")
    return (after - before) / told["answers"] * 1e6, len(pages)


def costs(relays, rounds, seconds):
    rows = []
    for _ in range(rounds):
        rows.append([cost(relay, seconds, kind == "asked") for kind, relay in zip(KINDS, relays)])
        micros = [it[0] for it in rows[-1]]
        print("a round: " + ", ".join(f"{kind} {it:.2f}" for kind, it in zip(KINDS, micros)) + " microseconds a request; of without: "
              + ", ".join(f"{it / micros[0]:.3f}" for it in micros[1:]), flush=True)
    for place, kind in enumerate(KINDS[1:], 1):
        shares = sorted(row[place][0] / row[0][0] for row in rows)
        pages = sum(row[place][1] for row in rows)
        print(f"{kind}: {statistics.median(shares):.3f} of without by the middle round, {shares[0]:.3f} to {shares[-1]:.3f}; {pages} pages were read", flush=True)


def page_cost(relay, count=100):
    before, began = relay.used(), time.monotonic()
    sizes = [len(relay.page(path)[0]) for _ in range(count) for path in ("/", "/metrics")]
    took, used = time.monotonic() - began, relay.used() - before
    print(f"a relay at rest: {2 * count} pages one after the other, {sizes[0]} and {sizes[1]} octets: {1e6 * used / (2 * count):.0f} "
          f"microseconds of a processor each, {1000 * took / (2 * count):.0f} ms each", flush=True)
    return all(sizes)


# ---- who uses it badly


def open_port(relay):
    return socket.create_connection(("127.0.0.1", relay.status), timeout=10)


def flood(relay, head, piece, seconds=10.0):
    """Sends a beginning and then the same octets until the other end has enough of it: how many octets the system took, most of
    which nobody reads, and what it replied."""
    peer, sent, until = open_port(relay), 0, time.monotonic() + seconds
    try:
        peer.sendall(head)
        while time.monotonic() < until:
            peer.settimeout(max(0.01, until - time.monotonic()))
            sent += peer.send(piece)
    except OSError:
        pass
    octets, ended = read(peer, 2.0)
    peer.close()
    return ended, f"{sent} octets were sent, " + (octets.split(b"\r\n")[0].decode("latin-1") or "no reply")


def slow_client(relay):
    """An octet every half second: cut once its time is over."""
    began = time.monotonic()
    with open_port(relay) as peer:
        try:
            for octet in b"GET / HTTP/1.1\r\nHost: localhost\r\n\r\n":
                peer.sendall(bytes([octet]))
                time.sleep(0.5)
        except OSError:
            pass
    took = time.monotonic() - began
    return CUT - 1 < took < CUT + 3, f"cut after {took:.1f} s"


def says_nothing(relay):
    began = time.monotonic()
    with open_port(relay) as peer:
        _, ended = read(peer, 20.0)
    took = time.monotonic() - began
    return ended and took < CUT + 3, f"cut after {took:.1f} s"


def endless_line(relay):
    return flood(relay, b"GET /", b"a" * 65_536)


def endless_head(relay):
    return flood(relay, b"GET / HTTP/1.1\r\n", b"X-Long: " + b"a" * 1_000 + b"\r\n")


def endless_body(relay):
    return flood(relay, b"POST /stop HTTP/1.1\r\nHost: localhost\r\nContent-Length: 1000000000000\r\n\r\n", b"a" * 65_536)


def endless_chunks(relay):
    return flood(relay, b"POST /stop HTTP/1.1\r\nHost: localhost\r\nTransfer-Encoding: chunked\r\n\r\n", b"400\r\n" + b"a" * 1_024 + b"\r\n")


def no_http(relay):
    with open_port(relay) as peer:
        peer.sendall(bytes.fromhex("160301020001000001fc0303") + bytes(range(256)))
        octets, ended = read(peer, CUT + 3)
    return ended and b" 200 " not in octets, octets.split(b"\r\n")[0].decode("latin-1") or "no reply"


def reads_nothing(relay):
    """Requests without an end behind one another, and no reply is read."""
    return flood(relay, b"", b"GET /metrics HTTP/1.1\r\nHost: localhost\r\n\r\n" * 1_000)


def wrong_tokens(relay):
    """A hundred who would end the node, and may not."""
    replies = set()
    for number in range(100):
        with open_port(relay) as peer:
            peer.sendall(f"POST /stop HTTP/1.1\r\nHost: localhost\r\nContent-Length: 0\r\nAuthorization: Bearer {number:032}\r\n\r\n".encode())
            replies.add(read(peer, 10.0)[0].split(b"\r\n")[0])
    return replies == {b"HTTP/1.1 403 Forbidden"}, ", ".join(sorted(it.decode("latin-1") for it in replies))


def many_connections(relay):
    """Twelve that say nothing, of which four are taken at a time: a page waits behind them, and requests do not."""
    peers = [open_port(relay) for _ in range(12)]
    told = relay.carry(1.0, 1)
    octets, took = relay.page(timeout=40.0)
    for peer in peers:
        peer.close()
    return relay.is_well(told) and bool(octets) and took < 4 * CUT + 3, f"a page after {took:.1f} s, a request meanwhile in {told['median']:.0f} microseconds"


def come_and_go(relay):
    """Three hundred that connect and end at once."""
    for _ in range(300):
        open_port(relay).close()
    octets, took = relay.page(timeout=40.0)
    return bool(octets), f"a page after {took:.1f} s"


def port_in_use(relay):
    """A relay whose status port is another one's does not start, and says why."""
    other = site(18_940)
    Path(f"{relay.room}/other.toml").write_text(other)
    words = [relay.words[0], "relay", "--site", f"{relay.room}/other.toml", "--name", "r1.example", "--status", str(relay.status)]
    done = subprocess.run(words, capture_output=True, text=True, timeout=30, stdin=subprocess.DEVNULL)
    line = done.stderr.splitlines()[0] if done.stderr else ""
    return done.returncode == 1 and line.startswith("the status port cannot be opened"), f"status {done.returncode}: {line}"


def attack(relay, deed):
    began = time.monotonic()
    well, words = deed(relay)
    took = time.monotonic() - began
    runs = relay.process.poll() is None
    served = runs and relay.is_well(relay.carry(0.3, 1))
    page, waited = relay.page() if runs else (b"", 0)
    print(f"{deed.__name__}: {'as it is to be' if well else 'OTHERWISE'} after {took:.1f} s ({words}); "
          + ("the relay runs" if runs else "THE RELAY HAS ENDED") + (", carries requests" if served else ", CARRIES NONE")
          + (f", has a page in {1000 * waited:.0f} ms" if page else ", HAS NO PAGE") + (f", {relay.memory()} kB at most" if runs else ""), flush=True)
    return well and served and bool(page)


DEEDS = [slow_client, says_nothing, endless_line, endless_head, endless_body, endless_chunks, no_http, reads_nothing, wrong_tokens,
         many_connections, come_and_go, port_in_use]


def main():
    parser = argparse.ArgumentParser()
    parser.add_argument("--seconds", type=float, default=3)
    parser.add_argument("--rounds", type=int, default=5)
    parser.add_argument("--program", default=str(HERE.parent / "crates/farm_live/out/farm_live"))
    words = parser.parse_args()
    running = []
    with tempfile.TemporaryDirectory() as room:
        subprocess.run(["rustc", "--edition", "2024", "-O", "-o", f"{room}/ends", str(HERE / "field/ends.rs")], check=True)
        try:
            running.append(subprocess.Popen([f"{room}/ends", "answer", str(SERVER), "f1.example", "ocs.example"]))
            await_port(SERVER)
            relays = []
            for place, kind in enumerate(KINDS):
                relays.append(Relay(room, words.program, place, kind != "without"))
                running.append(relays[-1].process)
            time.sleep(1)
            costs(relays, words.rounds, words.seconds)
            well = page_cost(relays[1])
            for deed in DEEDS:
                well = attack(relays[1], deed) and well
        finally:
            for process in running:
                process.kill()
                process.wait()
    return 0 if well else 1


sys.exit(main())
