#!/usr/bin/env python3
"""What floods and misers cost a farm: bench/floods.py [--idle 10000] [--program PROGRAM] [NAME..]

For each it starts a relay and the fronts anew, over TCP on this machine with ports chosen free and a watchdog interval of a
second, and then: connects as often as --idle says and says nothing; sends what would be the exchange of capabilities, or a
request, one octet a second; asks without reading, or reads a hundred octets a second; sends a front ten times as many requests
as its workers charge (which are held to a processor that something else keeps busy, so that they are few); and sends messages of 65,536 octets with
the most AVPs, the deepest groups and the longest identities. Meanwhile another client asks for a debit.

It prints two tables in Markdown: what came of each, what memory the processes have (VmRSS) and have had at most (VmHWM), and
what it cost them of a processor. Status 1 where a process has ended, where another client is not served, or where something
was not limited that is to be. It takes a minute or two, and needs the program alone (./farm prove relay). Not part of the gate.
"""
import argparse
import os
import resource
import select
import socket
import statistics
import struct
import subprocess
import sys
import tempfile
import time
from collections import Counter
from dataclasses import dataclass, field
from pathlib import Path

sys.dont_write_bytecode = True

from loaded import (CAPABILITIES, CREDIT_CONTROL, EVENT, ORIGIN_HOST, ORIGIN_REALM, PROGRAM, REALM, REQUEST, RESULT_CODE, SUCCESS, Avp,  # noqa: E402
                    Message, Otherwise, Plan, body_of, code_in, end_when_told, free_ports, group, number, site, spelled, split, text)

PLAN = Plan(("r1", "r2"), (("r1", "f1"), ("r1", "f2"), ("r2", "f1"), ("r2", "f2")), {"r1": ["f1", "f2"], "r2": ["f1", "f2"]}, {"491700000001": 10 ** 12})
TOO_BUSY = 3004
TICK, LARGEST, TIMES, PATIENCE = os.sysconf("SC_CLK_TCK"), 65_536, 10, 20
# So many charges a second are few enough that ten times as many can be asked for here.
FEW = 2_500
CODE = Avp(RESULT_CODE, bytes(4)).octets()[:8]


def debit(client, serial, more=b"", session=None):
    """A debit of 3200 octets, with AVPs behind it that are spelled already."""
    name = session or f"{client};{serial};1"
    body = body_of(client, name, EVENT, 0, "491700000001", [group(437, [number(421, 3200, 8)])]) + more
    return Message(REQUEST | 0x40, CREDIT_CONTROL, 4, serial, serial, body)


def parts_of_debit():
    """The octets of a debit before its two identifiers, behind them, and behind the ten digits in its Session-Id."""
    octets = debit("c1", 0, session="c1;0000000000;1").octets()
    digits = octets.index(b"c1;0000000000;1") + 3
    return octets[:12], octets[20:digits], octets[digits + 10:]


DEBITS = parts_of_debit()


class Peer:
    """A connection with a node, as another node of the site."""

    def __init__(self, port, name, buffer=0):
        self.name, self.octets, self.socket = name, b"", socket.socket()
        if buffer:
            self.socket.setsockopt(socket.SOL_SOCKET, socket.SO_RCVBUF, buffer)
        self.socket.settimeout(10)
        self.socket.connect(("127.0.0.1", port))

    def names(self):
        return [text(ORIGIN_HOST, f"{self.name}.example"), text(ORIGIN_REALM, REALM)]

    def capabilities(self):
        own = [Avp(257, b"\0\1\x7f\0\0\1"), number(266, 0), Avp(269, b"floods", 0), number(258, 4)]
        return Message(REQUEST, CAPABILITIES, 0, 1, 1, spelled(self.names() + own)).octets()

    def greeted(self):
        self.socket.sendall(self.capabilities())
        if code_in(split(self.answer().body)) != SUCCESS:
            raise Otherwise(f"{self.name} is not taken")
        return self

    def messages(self):
        """The whole messages of what was read."""
        while len(self.octets) >= 20 and len(self.octets) >= (length := int.from_bytes(self.octets[1:4])):
            it, self.octets = self.octets[:length], self.octets[length:]
            yield it

    def answer(self):
        """The next answer. Watchdogs are answered meanwhile."""
        while True:
            for it in self.messages():
                it = Message.read(it)
                if not it.is_request:
                    return it
                self.socket.sendall(it.answer([number(RESULT_CODE, SUCCESS), *self.names()]).octets())
            piece = self.socket.recv(65_536)
            if not piece:
                raise Otherwise(f"{self.name}: the connection has ended")
            self.octets += piece

    def ask(self, message):
        self.socket.sendall(message.octets())
        return self.answer()

    def has_ended(self, seconds):
        """Whether the other end ends the connection within so many seconds."""
        until = time.monotonic() + seconds
        try:
            while (left := until - time.monotonic()) > 0:
                self.socket.settimeout(left)
                if not self.socket.recv(65_536):
                    return True
        except socket.timeout:
            return False
        except OSError:
            return True
        return False


@dataclass
class Cost:
    """What a process has of memory, in MB, and what it has used of a processor, in seconds."""

    now: float
    most: float
    seconds: float


class Nodes:
    """The fronts and a relay, started anew."""

    def __init__(self, room, program, relay):
        self.room, self.program, self.relay, self.running, self.serial = Path(room), program, relay, {}, 1 << 20
        self.port = dict(zip(PLAN.served, free_ports(len(PLAN.served))))
        (self.room / "site.toml").write_text(site(PLAN, self.port.get))
        self.waits = []

    def start(self, name, *words):
        log = self.room / f"{name}.log"
        with open(log, "w", encoding="ascii") as out:
            job = subprocess.Popen([self.program, *words, "--site", self.room / "site.toml"], stdin=subprocess.DEVNULL, stdout=out, stderr=out)
        self.running[name] = job
        for _ in range(200):
            if "listens on" in log.read_text():
                return
            time.sleep(0.05)
        raise Otherwise(f"{name} does not listen: {log.read_text()[-500:]}")

    def start_all(self):
        self.start("fronts", "front")
        self.start(self.relay, "relay", "--name", f"{self.relay}.example")

    def end(self):
        for job in self.running.values():
            job.kill()
            job.wait()

    def has_ended(self):
        return [name for name, job in self.running.items() if job.poll() is not None]

    def cost(self, name):
        pid = self.running[name].pid
        told = dict(line.split(":") for line in Path(f"/proc/{pid}/status").read_text().splitlines())
        used = Path(f"/proc/{pid}/stat").read_text().rsplit(")", 1)[1].split()
        return Cost(*(int(told[it].split()[0]) / 1024 for it in ("VmRSS", "VmHWM")), (int(used[11]) + int(used[12])) / TICK)

    def answered(self, message):
        """What another client is answered on a connection of its own; None where it is not taken, or not answered."""
        try:
            peer = Peer(self.port[self.relay], "c2").greeted()
            code = code_in(split(peer.ask(message).body))
            peer.socket.close()
            return code
        except (Otherwise, OSError):
            return None

    def serve(self, codes=(SUCCESS,)):
        """Another client asks for a debit until it is answered so; how many milliseconds that takes is kept. What it is answered."""
        self.serial += 1
        began = time.monotonic()
        while (code := self.answered(debit("c2", self.serial))) not in codes:
            if time.monotonic() > began + PATIENCE:
                raise Otherwise(f"another client is answered {code}")
            time.sleep(0.05)
        self.waits.append(1000 * (time.monotonic() - began))
        return code


# ---- Floods. Each says what came of it.

def nothing(_nodes, _given):
    return "what the processes have where nobody misuses them"


def silent_connections(nodes, given):
    """As many connections as one says and the machine allows, none of which says anything."""
    _, most = resource.getrlimit(resource.RLIMIT_NOFILE)
    resource.setrlimit(resource.RLIMIT_NOFILE, (most, most))
    count = min(given.idle, most - 200)
    began = time.monotonic()
    peers = [Peer(nodes.port["r1"], "c1") for _ in range(count)]
    made = time.monotonic() - began
    nodes.serve()
    until = time.monotonic() + 10
    ended = sum(peer.has_ended(max(0.01, until - time.monotonic())) for peer in peers)
    took = time.monotonic() - began
    for peer in peers:
        peer.socket.close()
    if ended != count:
        raise Otherwise(f"{count - ended} of {count} silent connections stand after {took:.0f} s")
    return f"{count} made in {made:.1f} s; all ended {took:.1f} s after the first"


def names_by_octets(nodes, _given):
    """Sixty connections that say who they are, an octet a second."""
    peers, began = [Peer(nodes.port["r1"], "c1") for _ in range(60)], time.monotonic()
    for at in range(4):
        for peer in peers:
            try:
                peer.socket.sendall(peer.capabilities()[at:at + 1])
            except OSError:
                pass
        if at == 0:
            nodes.serve()
        time.sleep(1)
    ended = sum(peer.has_ended(1) for peer in peers)
    if ended != len(peers):
        raise Otherwise(f"{len(peers) - ended} connections stand that have not said who they are")
    return f"60, all ended {time.monotonic() - began:.1f} s later, an interval after each was made at most"


def requests_by_octets(nodes, _given):
    """Three clients that are up, and send a request an octet a second."""
    peers, began = [Peer(nodes.port["r1"], name).greeted() for name in ("c1", "c3", "c4")], time.monotonic()
    for at in range(20):
        for peer in peers:
            try:
                peer.socket.sendall(debit(peer.name, 1).octets()[at:at + 1])
            except OSError:
                pass
        if at == 1:
            nodes.serve()
        if all(peer.has_ended(0.3) for peer in peers):
            return f"3, all ended after {time.monotonic() - began:.1f} s: what is no whole message keeps nobody up"
        time.sleep(0.1)
    raise Otherwise("requests of an octet a second keep a connection up for longer than twenty octets")


def asked_without_reading(nodes, peer, reads):
    """Asks as long as the other end takes it, and reads so many octets every tenth of a second; how many were asked for."""
    asked, began = 0, time.monotonic()
    peer.socket.settimeout(0.1)
    many = b"".join(debit(peer.name, serial).octets() for serial in range(1, 101))
    left = b""
    while time.monotonic() < began + PATIENCE:
        left = left or many
        try:
            left = left[peer.socket.send(left):]
            asked += not left
        except socket.timeout:
            pass
        except OSError:
            return 100 * asked, time.monotonic() - began
        if reads:
            try:
                peer.socket.recv(reads)
            except OSError:
                pass
    return 100 * asked, None


def never_read(nodes, _given):
    """A client that asks as fast as it can and reads no answer."""
    peer = Peer(nodes.port["r1"], "c1", 4096).greeted()
    asked, ended = asked_without_reading(nodes, peer, 0)
    nodes.serve()
    if ended is None:
        raise Otherwise(f"a client that reads nothing of {asked} answers is kept for {PATIENCE} s")
    return f"asked for {asked}, and its connection ended after {ended:.1f} s"


def slow_readers(nodes, _given):
    """The same, and it reads a thousand octets a second."""
    peer = Peer(nodes.port["r1"], "c1", 4096).greeted()
    asked, ended = asked_without_reading(nodes, peer, 100)
    nodes.serve()
    if ended is None:
        raise Otherwise(f"a client that reads little of {asked} answers is kept for {PATIENCE} s")
    return f"asked for {asked}, and its connection ended after {ended:.1f} s"


def busy_processor():
    """Something that keeps the first processor busy."""
    busy = subprocess.Popen([sys.executable, "-c", "while True: pass"])
    os.sched_setaffinity(busy.pid, {0})
    return busy


def hold_workers(pid, niceness):
    """All threads of a process but its first have that processor alone, and this priority there."""
    for thread in map(int, os.listdir(f"/proc/{pid}/task")):
        if thread != pid:
            os.sched_setaffinity(thread, {0})
            os.setpriority(os.PRIO_PROCESS, thread, niceness)


@dataclass
class Load:
    """Requests at a front, at a rate or as many as are unanswered, and their answers by Result-Code."""

    peer: Peer
    serial: int = 0
    sent: dict = field(default_factory=dict)
    codes: Counter = field(default_factory=Counter)
    waits: list = field(default_factory=list)

    def spelled(self, count):
        """So many debits, each in a session of its own."""
        out, (head, middle, end) = [], DEBITS
        for _ in range(count):
            self.serial += 1
            self.sent[self.serial] = time.monotonic()
            out.append(head + struct.pack("!II", self.serial, self.serial) + middle + b"%010d" % self.serial + end)
        return b"".join(out)

    def read(self):
        """Takes the answers that are there."""
        try:
            self.peer.octets += self.peer.socket.recv(1 << 20)
        except BlockingIOError:
            return
        now = time.monotonic()
        for it in self.peer.messages():
            if it[4] & REQUEST:
                continue
            at = it.find(CODE)
            code = int.from_bytes(it[at + 8:at + 12])
            self.codes[code] += 1
            began = self.sent.pop(int.from_bytes(it[12:16]), None)
            if began is None:
                raise Otherwise("an answer to nobody")
            if code != SUCCESS:
                self.waits.append(1000 * (now - began))

    def run(self, seconds, rate=None, window=None):
        """So many seconds of it; how many requests were sent, and how many charged."""
        left, began, first, charged = b"", time.monotonic(), self.serial, self.codes[SUCCESS]
        self.peer.socket.setblocking(False)
        while (passed := time.monotonic() - began) < seconds:
            due = int(rate * passed) - (self.serial - first) if rate else window - len(self.sent)
            left += self.spelled(min(max(due, 0), 200)) if len(left) < 1 << 16 else b""
            reads, writes, _ = select.select([self.peer.socket], [self.peer.socket] if left else [], [], 0.002)
            if reads:
                self.read()
            if writes:
                left = left[self.peer.socket.send(left):]
        return self.serial - first, self.codes[SUCCESS] - charged


def charged_when_held(nodes, load):
    """How many requests a second the workers of a front charge, once they are held so that they are few."""
    for niceness in (5, 10, 13, 16, 19):
        hold_workers(nodes.running["fronts"].pid, niceness)
        _, charged = load.run(2, window=256)
        if charged < 2 * FEW:
            break
    return charged / 2


def tenfold(nodes, _given):
    """Ten times as many requests as the workers of a front charge."""
    busy = busy_processor()
    try:
        load = Load(Peer(nodes.port["f1"], "r1").greeted())
        rate = charged_when_held(nodes, load)
        load.waits.clear()
        sent, charged = load.run(5, rate=TIMES * rate)
        other = nodes.serve((SUCCESS, TOO_BUSY))
        load.run(1, rate=1)
    finally:
        busy.kill()
        busy.wait()
    refused, waits = len(load.waits), sorted(load.waits) or [0]
    if set(load.codes) - {SUCCESS, TOO_BUSY}:
        raise Otherwise(f"answered {dict(load.codes)}")
    return (f"workers charge {rate:,.0f} a second; {sent / 5:,.0f} a second sent: {charged / 5:,.0f} charged, {refused / 5:,.0f} refused, 3004, "
            f"after {statistics.median(waits):.1f} ms (99 of 100 within {waits[len(waits) * 99 // 100]:.1f}); another client is answered {other}")


# ---- Messages of 65,536 octets

def filled(message, fill):
    """The message with what `fill` gives of so many octets behind it, up to 65,536."""
    return Message(message.flags, message.command, message.application, message.hop, message.end, message.body + fill(LARGEST - message.length))


def many_avps(room):
    return Avp(50_001, b"", 0).octets() * (room // 8)


def nested(code):
    def fill(room):
        octets = Avp(code, b"").octets()
        heads = [struct.pack("!IBBH", code, 0x40, (8 * depth) >> 16, 8 * depth & 0xFFFF) for depth in range(room // 8, 1, -1)]
        return b"".join(heads) + octets

    return fill


def route_records(room):
    it = Avp(282, b"x" * 246 + b".example").octets()
    return it * (room // len(it))


def session_of(length):
    return lambda serial: debit("c1", serial, session=f"c1;{serial};".ljust(length, "x"))


LARGE = {
    "a debit": lambda serial: debit("c1", serial),
    "8,000 AVPs that nobody knows": lambda serial: filled(debit("c1", serial), many_avps),
    "8,000 groups deep, of Multiple-Services-Credit-Control": lambda serial: filled(debit("c1", serial), nested(456)),
    "8,000 groups deep, of Proxy-Info": lambda serial: filled(debit("c1", serial), nested(284)),
    "8,000 groups deep, of Failed-AVP": lambda serial: filled(debit("c1", serial), nested(279)),
    "247 Route-Records of 254 octets": lambda serial: filled(debit("c1", serial), route_records),
    "a Session-Id of 49,000 octets": session_of(49_000),
    "a Session-Id of 65,000 octets": session_of(65_000),
}


def large(nodes, name, made, count):
    """The row of a message: what it is answered, what that takes, and what the processes have at most."""
    peer = Peer(nodes.port["r1"], "c1").greeted()
    for serial in range(1, 11):
        peer.ask(debit("c1", serial))
    messages = [made(serial) for serial in range(100, 100 + count)]
    before = [nodes.cost(it) for it in ("r1", "fronts")]
    began, codes = time.monotonic(), Counter()
    for it in messages:
        codes[code_in(split(peer.ask(it).body))] += 1
    took = time.monotonic() - began
    after = [nodes.cost(it) for it in ("r1", "fronts")]
    used = [1000 * (it.seconds - was.seconds) / count for it, was in zip(after, before)]
    told = ", ".join(f"{code}" for code in codes)
    return (f"| {name} | {messages[0].length:,} | {told} | {1000 * took / count:.2f} | {used[0]:.2f} | {used[1]:.2f} "
            f"| {after[0].now:.1f}, {after[0].most:.1f} | {after[1].now:.1f}, {after[1].most:.1f} |")


# ---- Rows

FLOODS = {
    "nothing": nothing, "connections that say nothing": silent_connections, "names, an octet a second": names_by_octets,
    "requests, an octet a second": requests_by_octets, "a client that reads nothing": never_read,
    "a client that reads 1,000 octets a second": slow_readers, "ten times what workers charge": tenfold,
}


def flood(nodes, name, given):
    """The row of a flood."""
    nodes.serve()
    nodes.waits.clear()
    before = {it: nodes.cost(it) for it in nodes.running}
    began = time.monotonic()
    told = FLOODS[name](nodes, given)
    took = time.monotonic() - began
    nodes.serve()
    after = {it: nodes.cost(it) for it in nodes.running}
    cells = [f"{after[it].now:.1f}, {after[it].most:.1f}" for it in (nodes.relay, "fronts")]
    used = ", ".join(f"{after[it].seconds - before[it].seconds:.2f}" for it in (nodes.relay, "fronts"))
    return f"| {name} | {told} | {took:.1f} | {max(nodes.waits):.1f} | {cells[0]} | {cells[1]} | {used} |"


def row(given, relay, made):
    """A row with the farm started anew, or the fault that was found in its place."""
    with tempfile.TemporaryDirectory(prefix="floods-") as room:
        nodes = Nodes(room, given.program, relay)
        try:
            nodes.start_all()
            told = made(nodes)
            if nodes.has_ended():
                raise Otherwise(f"{nodes.has_ended()} has ended")
            return told, True
        except (Otherwise, OSError) as it:
            return f"OTHERWISE: {it}", False
        finally:
            nodes.end()


HEAD = """| Flood | What came of it | Seconds | Another client waits, ms | Relay, MB now and at most | Fronts, MB | Processor, s, relay and fronts |
|---|---|---|---|---|---|---|"""
HEAD_LARGE = """
| Message | Octets | Answered | ms | Processor of the relay, ms | of the fronts | Relay, MB now and at most | Fronts, MB |
|---|---|---|---|---|---|---|---|"""


def main():
    options = argparse.ArgumentParser(description="what floods and misers cost a farm")
    options.add_argument("--idle", type=int, default=10_000, help="how many connections say nothing")
    options.add_argument("--count", type=int, default=200, help="how many messages of each kind")
    options.add_argument("--program", type=Path, default=PROGRAM)
    options.add_argument("names", nargs="*", help="these rows alone, by what they begin with")
    given = options.parse_args()
    end_when_told()
    wanted = lambda name: not given.names or any(name.startswith(it) for it in given.names)  # noqa: E731
    well = True
    print(HEAD, flush=True)
    for name in filter(wanted, FLOODS):
        told, so = row(given, "r2" if name.startswith("ten times") else "r1", lambda nodes, name=name: flood(nodes, name, given))
        well &= so
        print(told if so else f"| {name} | {told} | | | | | |", flush=True)
    print(HEAD_LARGE, flush=True)
    for name in filter(wanted, LARGE):
        told, so = row(given, "r1", lambda nodes, name=name: large(nodes, name, LARGE[name], given.count))
        well &= so
        print(told if so else f"| {name} | | {told} | | | | | |", flush=True)
    return 0 if well else 1


if __name__ == "__main__":
    sys.exit(main())
