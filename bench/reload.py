#!/usr/bin/env python3
"""What a client sees while a relay is started again with another site file: bench/reload.py [PROGRAM]

It starts the farm of examples/live on ports of its own, and a client that is connected with both relays asks for debits without a
pause, over r1 where that is up, else over r2. What has no answer when a connection ends it sends again, marked so. Meanwhile the
site file is changed (r1 prefers the other front), `farm check` accepts it, and r1 is ended by `farm stop` and started again. Three
times: with nothing held up, with the fronts standing still for half a second before the stop, so that requests are under way, and
with r1 killed. Each time it prints what the client saw and when, and that each request has one answer, was charged once, and that
r1 sends to the other front now. Status 1 where one of that fails. It needs the program (./farm prove relay builds it). Not part
of the gate.
"""
import os
import re
import selectors
import signal
import socket
import struct
import subprocess
import sys
import tempfile
import time
import urllib.request
from pathlib import Path

ROOT = Path(__file__).resolve().parent.parent
PROGRAM = sys.argv[1] if len(sys.argv) > 1 else f"{ROOT}/crates/farm_live/out/farm_live"
DEBIT = bytes.fromhex((ROOT / "examples/live/first-debit.hex").read_text())
PORTS = {"r1.example": 18_951, "r2.example": 18_952}
FRONTS, R1 = 18_955, 18_956
OPENING = 100_000_000
ROUTE = 'at = "r1.example"\nrealm = "ocs.example"\napp = 4\npeers = '
REBOOTING = 0


def site_text(first, second):
    text = (ROOT / "examples/live/site.toml").read_text().replace("127.0.0.1:1868", "127.0.0.1:1895").replace("watchdog = 5000 ", "watchdog = 1000 ")
    text = text.replace("opening = 6020 ", f"opening = {OPENING} ")
    return text.replace(ROUTE + '["f1.example", "f2.example"]', f'{ROUTE}["{first}", "{second}"]')


def avp(code, value, flags=0x40):
    length = 8 + len(value)
    return struct.pack("!II", code, flags << 24 | length) + value + b"\0" * (-length % 4)


def message(command, flags, ids, body):
    return struct.pack("!IIIII", 1 << 24 | 20 + len(body), flags << 24 | command, 0, *ids) + body


ORIGIN = avp(264, b"c1.example") + avp(296, b"example")
CAPABILITIES = message(257, 0x80, (1, 1), ORIGIN + avp(257, b"\0\1\x7f\0\0\1") + avp(266, bytes(4)) + avp(269, b"reload", 0) + avp(258, struct.pack("!I", 4)))


def avps(octets):
    at = 20
    while at + 8 <= len(octets):
        code, length = struct.unpack_from("!II", octets, at)
        head, length = (12 if length >> 31 else 8), length & 0xFFFFFF
        yield code, octets[at + head : at + length]
        at += length + -length % 4


class Client:
    """A client that asks for debits over both relays, the first one that is up first, with so many unanswered."""

    WINDOW = 8

    def __init__(self):
        self.selector, self.began = selectors.DefaultSelector(), time.monotonic()
        # of each relay that is up its connection and what was read of it; when a connection is tried again
        self.conns, self.input, self.due = {}, {}, {name: 0.0 for name in PORTS}
        # requests without an answer, by number: over which relay and since when; those to be sent again
        self.asks, self.asked, self.again = True, {}, []
        # how often each was answered, by whom over which relay, and what relays refused
        self.answers, self.hosts, self.refusals, self.causes = {}, {}, {}, []
        self.told, self.count, self.repeated, self.longest = [], 0, 0, 0.0

    def tell(self, words):
        self.told.append((time.monotonic() - self.began, words))

    def up(self):
        return [name for name in PORTS if name in self.conns]

    def connect(self, name):
        try:
            conn = socket.create_connection(("127.0.0.1", PORTS[name]), timeout=2)
            conn.settimeout(2)
            conn.sendall(CAPABILITIES)
            answer = conn.recv(4_096)
        except OSError as fault:
            answer, words = b"", f"{name} refuses the connection ({os.strerror(fault.errno) if fault.errno else fault})"
            if not self.told or self.told[-1][1] != words:
                self.tell(words)
        if struct.pack("!III", 268, 0x4000000C, 2001) not in answer:
            self.due[name] = time.monotonic() + 0.1
            return
        conn.setsockopt(socket.IPPROTO_TCP, socket.TCP_NODELAY, 1)
        conn.setblocking(False)
        self.conns[name], self.input[name] = conn, b""
        self.selector.register(conn, selectors.EVENT_READ, name)
        self.tell(f"{name} is up")

    def lose(self, name):
        conn = self.conns.pop(name)
        self.selector.unregister(conn)
        conn.close()
        back = [number for number, (at, _) in self.asked.items() if at == name]
        for number in back:
            del self.asked[number]
        self.again += back
        self.tell(f"the connection with {name} has ended; {len(back)} requests have no answer")
        self.due[name] = time.monotonic() + 0.1

    def send(self, name, number, is_again):
        octets = bytearray(DEBIT)
        octets[4] |= 0x10 if is_again else 0
        octets[12:20] = struct.pack("!II", number + 1, number + 1)
        octets[148:152] = struct.pack("!I", number)
        self.asked[number] = (name, time.monotonic())
        self.write(name, octets)

    def write(self, name, octets):
        """Writes to a connection. One whose other end has gone has ended."""
        try:
            self.conns[name].sendall(octets)
        except OSError:
            self.lose(name)

    def ask(self):
        while (up := self.up()) and len(self.asked) < self.WINDOW and (self.again or self.asks):
            is_again = bool(self.again)
            if is_again:
                number = self.again.pop(0)
                self.repeated += 1
            else:
                number, self.count = self.count, self.count + 1
            self.send(up[0], number, is_again)

    def on_message(self, name, octets):
        command, values = int.from_bytes(octets[5:8], "big"), dict(avps(octets))
        if octets[4] & 0x80:
            if command == 282:
                cause = int.from_bytes(values[273], "big")
                self.tell(f"{name} sends Disconnect-Peer-Request, cause {cause}" + (" (REBOOTING)" if cause == REBOOTING else ""))
                self.causes.append(cause)
            ids = struct.unpack_from("!II", octets, 12)
            self.write(name, message(command, 0, ids, avp(268, struct.pack("!I", 2001)) + ORIGIN))
            return
        number = int.from_bytes(octets[12:16], "big") - 1
        if number not in self.asked:
            return
        _, at = self.asked.pop(number)
        code, host = int.from_bytes(values[268], "big"), values[264].decode()
        if code != 2001:
            # a relay refused it: it is sent again
            self.refusals[code] = self.refusals.get(code, 0) + 1
            self.again.append(number)
            return
        self.longest = max(self.longest, time.monotonic() - at)
        self.answers[number] = self.answers.get(number, 0) + 1
        self.hosts.setdefault(name, []).append(host)

    def turn(self):
        for name in PORTS:
            if name not in self.conns and time.monotonic() >= self.due[name]:
                self.connect(name)
        self.ask()
        for key, _ in self.selector.select(0.005):
            name = key.data
            try:
                piece = key.fileobj.recv(65_536)
            except OSError:
                piece = b""
            self.input[name] += piece
            while name in self.conns and len(self.input[name]) >= 20 and len(self.input[name]) >= (length := int.from_bytes(self.input[name][1:4], "big")):
                octets, self.input[name] = self.input[name][:length], self.input[name][length:]
                self.on_message(name, octets)
            if not piece and name in self.conns:
                self.lose(name)

    def run(self, seconds, until=lambda: False):
        end = time.monotonic() + seconds
        while time.monotonic() < end and not until():
            self.turn()


class Farm:
    def __init__(self, room):
        self.room, self.site, self.running = room, f"{room}/my.toml", {}
        self.write("f1.example", "f2.example")
        self.start("fronts", "front", "--status", str(FRONTS))
        self.start("r1", "relay", "--name", "r1.example", "--status", str(R1), "--token", f"{room}/token")
        self.start("r2", "relay", "--name", "r2.example")

    def write(self, *fronts):
        Path(self.site).write_text(site_text(*fronts))

    def start(self, name, *words, waits=True):
        log = f"{self.room}/{name}.log"
        with open(log, "w") as file:
            process = subprocess.Popen([PROGRAM, *words, "--site", self.site], stderr=file, stdout=file, stdin=subprocess.DEVNULL)
        self.running[name] = process
        for _ in range(100 if waits else 0):
            if "listens on" in Path(log).read_text():
                return
            time.sleep(0.1)
        if waits:
            sys.exit(f"reload: {name} does not listen: " + Path(log).read_text())

    def start_r1(self):
        self.start("r1", "relay", "--name", "r1.example", "--status", str(R1), "--token", f"{self.room}/token", waits=False)

    def metric(self, name):
        with urllib.request.urlopen(f"http://127.0.0.1:{FRONTS}/metrics", timeout=5) as page:
            text = page.read().decode()
        return int(re.search(rf"^{name} (\d+)$", text, re.M)[1])

    def end(self):
        for process in self.running.values():
            process.send_signal(signal.SIGCONT)
            process.kill()
            process.wait()


def restart(farm, client, kind):
    """Changes the site file, ends r1 and starts it again, while the client asks."""
    farm.write("f2.example", "f1.example")
    client.tell("the site file is changed: r1 prefers f2.example")
    check = ROOT / "crates/farm_inspect/out/farm_inspect"
    if check.exists():
        done = subprocess.run([check, "check", "--site", farm.site], capture_output=True, text=True)
        client.tell(f"farm check: status {done.returncode}")
    old = farm.running["r1"]
    if kind == "under way":
        farm.running["fronts"].send_signal(signal.SIGSTOP)
        client.run(0.2)
    if kind == "killed":
        old.kill()
        client.tell("r1 is killed")
    else:
        stop = subprocess.Popen([ROOT / "farm", "stop", "--at", str(R1), "--token", f"{farm.room}/token"], stdin=subprocess.DEVNULL)
        client.tell("farm stop")
        if kind == "under way":
            client.run(0.3)
            farm.running["fronts"].send_signal(signal.SIGCONT)
            client.tell("the fronts go on")
        client.run(10, lambda: stop.poll() is not None)
        client.tell(f"farm stop has come back: status {stop.poll()}")
    client.run(10, lambda: old.poll() is not None)
    client.tell(f"r1 has ended: status {old.poll()}")
    client.run(0.3)
    farm.start_r1()
    client.tell("r1 is started again")
    client.run(10, lambda: "r1.example" in client.conns)


def play(kind):
    with tempfile.TemporaryDirectory() as room:
        farm = Farm(room)
        try:
            client = Client()
            client.run(1.0)
            before = set(client.hosts.get("r1.example", []))
            restart(farm, client, kind)
            client.hosts.clear()
            client.run(1.0)
            client.asks = False
            client.run(10, lambda: not client.asked and not client.again)
            after = set(client.hosts.get("r1.example", []))
            charged, entries = farm.metric("farm_charges_total"), farm.metric("farm_book_entries")
        finally:
            farm.end()
    print(f"{kind}:")
    for at, words in client.told:
        print(f"  {at:6.2f} s  {words}")
    once = len(client.answers) == client.count and set(client.answers.values()) == {1}
    well = once and charged == client.count == entries and before == {"f1.example"} and after == {"f2.example"}
    well = well and client.causes == ([] if kind == "killed" else [REBOOTING])
    print(f"  {client.count} requests, {client.repeated} sent again, {len(client.answers)} answered 2001"
          + (" once each" if once else ", NOT ONCE EACH") + f", {charged} charged; the slowest answer took {1000 * client.longest:.0f} ms"
          + (f"; refused by a relay and sent again, by Result-Code: {client.refusals}" if client.refusals else "")
          + f"; answers over r1 came from {', '.join(before)}, then from {', '.join(after)}: {'as it is to be' if well else 'OTHERWISE'}", flush=True)
    return well


def main():
    return 0 if all([play(kind) for kind in ("in good order", "under way", "killed")]) else 1


sys.exit(main())
