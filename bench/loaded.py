"""A farm over TCP on this machine whose links are cut under load: what bench/cuts.py and bench/soak.py share.

Two fronts in one process, relays and four clients. Between each two nodes stands a proxy that resets connections, ends them,
passes nothing for up to three watchdog intervals, or passes octet by octet, at random. Relays are killed and started again,
relays and the fronts' process are stopped for longer than the watchdog. Clients send again over another connection, with the
flag T, what was not answered, until it is. No connection is answered more often than it was asked, each answer has the
Session-Id, the CC-Request-Number and the End-to-End Identifier of the request that it answers, and all answers to one request
say the same; else the run ends.

All ports are chosen free. A proxy has small buffers and small segments, so that what it does not read soon waits in the node
that writes, and writes take a part. It connects from an address of its link's own, 127.0.1.N, and by the very port of who has
connected to it: so both ends call the connection the same (docs/RECORD.md), and records need no change before they are audited.
The system gives ports out again, which is counted: the audit tells connections of one port apart.

Where the program knows --record, each process is recorded, and the clients C1 and C2 write records too; the others have none.
"""
import asyncio
import os
import random
import signal
import socket
import struct
import subprocess
import sys
import time
from collections import Counter
from dataclasses import dataclass, field
from pathlib import Path

ROOT = Path(__file__).resolve().parent.parent
sys.path.insert(0, str(ROOT / "examples/models"))

from diameter import (ORIGIN_HOST, ORIGIN_REALM, REQUEST, RESULT_CODE, RETRANSMITTED, SESSION_ID, Avp, Message, first, group, number,  # noqa: E402
                      split, spelled, text)

PROGRAM, AUDIT = ROOT / "crates/farm_live/out/farm_live", ROOT / "crates/farm_runs/out/farm_runs"
CAPABILITIES, CREDIT_CONTROL = 257, 272
REQUEST_NUMBER, SERVICES = 415, 456
EVENT, INITIAL, UPDATE, TERMINATION = 4, 1, 2, 3
SUCCESS, LIMIT_REACHED = 2001, 4012
# What says that nobody could be asked, or that there was no room: to be sent again.
LATER = {3002, 3004}
REALM = "ocs.example"
FRONTS, CLIENTS, RECORDED = ("f1", "f2"), ("c1", "c2", "c3", "c4"), ("c1", "c2")
BUFFER, SEGMENT = 8_192, 1_400


class Otherwise(Exception):
    """Something that is not to be."""


@dataclass(frozen=True)
class Plan:
    """Which relays there are, who connects to whom, where they send requests, and what the accounts open with."""

    relays: tuple
    links: tuple
    routes: dict
    accounts: dict
    # Seconds, and the keys of the site that are not always the same.
    validity: int = 600
    workers: int = 2
    # The watchdog's, in seconds. A slow program, or one on a busy machine, needs a longer one.
    interval: float = 1.0
    # To which relays each client connects.
    entries: tuple = ("r1", "r2")

    @property
    def served(self):
        return (*FRONTS, *self.relays)

    @property
    def processes(self):
        return ("fronts", *self.relays)

    @property
    def pairs(self):
        return (*self.links, *((client, relay) for client in CLIENTS for relay in self.entries))


def end_when_told():
    """A run that is told to end ends its processes before."""
    signal.signal(signal.SIGTERM, lambda *_: sys.exit(128 + signal.SIGTERM))


def free_ports(count):
    """So many ports of this machine that nobody has, below those that the system gives to who connects."""
    held, ports = [], []
    while len(ports) < count:
        it, port = socket.socket(), random.randrange(15_000, 32_000)
        held.append(it)
        try:
            it.bind(("127.0.0.1", port))
            ports.append(port)
        except OSError:
            pass
    for it in held:
        it.close()
    return ports


def site(plan, port_of):
    """The site as somebody reads it who connects to these ports."""
    lines = [f'realm = "{REALM}"', f"validity = {plan.validity}", "currency = 978", "exponent = -2", f"watchdog = {int(plan.interval * 1000)}"]
    lines.append(f"workers = {plan.workers}")
    for name in (*plan.served, *CLIENTS):
        kind = "front" if name in FRONTS else "relay" if name in plan.relays else "client"
        lines += ["[[node]]", f'name = "{name}.example"', f'kind = "{kind}"']
        if name in plan.served:
            lines.append(f'address = "127.0.0.1:{port_of(name)}"')
    for client, server in plan.pairs:
        lines += ["[[link]]", f'from = "{client}.example"', f'to = "{server}.example"']
    for relay, peers in plan.routes.items():
        names = ", ".join(f'"{peer}.example"' for peer in peers)
        lines += ["[[route]]", f'at = "{relay}.example"', f'realm = "{REALM}"', "app = 4", f"peers = [{names}]"]
    lines += ["[[tariff]]", "group = 10", 'kind = "octets"', "block = 1000", "price = 5", "quantum = 5000", "greatest = 10000"]
    for account, opening in plan.accounts.items():
        lines += ["[[account]]", "type = 0", f'id = "{account}"', f"opening = {opening}"]
    return "\n".join(lines) + "\n"


def body_of(client, session, kind, place, account, units, padding=0):
    """The body of a Credit-Control-Request: RFC 8506, section 3.1. `units` are the AVPs of its one service."""
    action = [number(436, 0)] if kind == EVENT else []
    more = [Avp(50_001, bytes(padding), 0)] if padding else []
    return spelled([
        text(SESSION_ID, session), text(ORIGIN_HOST, f"{client}.example"), text(ORIGIN_REALM, "example"), text(283, REALM),
        number(258, 4), text(461, "32251@3gpp.org"), number(416, kind), number(REQUEST_NUMBER, place), *action,
        group(443, [number(450, 0), text(444, account)]), group(SERVICES, [*units, number(432, 10)]), *more,
    ])


def code_in(avps):
    return int.from_bytes(first(avps, RESULT_CODE).value)


async def read_message(reader):
    head = await reader.readexactly(4)
    return Message.read(head + await reader.readexactly(int.from_bytes(head[1:]) - 4))


def reset(writer):
    writer.get_extra_info("socket").setsockopt(socket.SOL_SOCKET, socket.SO_LINGER, struct.pack("ii", 1, 0))
    writer.transport.abort()


def small_socket():
    """A socket with small buffers and segments, which may take an address that was just given up."""
    it = socket.socket()
    it.setblocking(False)
    it.setsockopt(socket.SOL_SOCKET, socket.SO_REUSEADDR, 1)
    it.setsockopt(socket.SOL_SOCKET, socket.SO_RCVBUF, BUFFER)
    it.setsockopt(socket.IPPROTO_TCP, socket.TCP_MAXSEG, SEGMENT)
    return it


class Proxy:
    """Stands between two nodes, and passes what they write, or does not."""

    def __init__(self, farm, pair):
        self.farm, self.target, self.listen = farm, farm.port[pair[1]], farm.proxy[pair]
        self.own = f"127.0.1.{1 + farm.plan.pairs.index(pair)}"
        self.dice, self.used = random.Random(f"{farm.seed} {pair}"), set()

    async def start(self):
        it = small_socket()
        it.bind(("127.0.0.1", self.listen))
        return await asyncio.start_server(self.meet, sock=it, limit=BUFFER)

    async def connect(self, port):
        """Connects from the link's own address, by the port of who has connected."""
        if port in self.used:
            self.farm.count["ports again"] += 1
        self.used.add(port)
        it = small_socket()
        try:
            it.bind((self.own, port))
            await asyncio.get_running_loop().sock_connect(it, ("127.0.0.1", self.target))
        except OSError:
            it.close()
            raise
        return await asyncio.open_connection(sock=it, limit=BUFFER)

    async def meet(self, reader, writer):
        try:
            there, back = await self.connect(writer.get_extra_info("peername")[1])
        except (OSError, TypeError):
            reset(writer)
            return
        ways = [Way(reader, back), Way(there, writer)]
        jobs = [asyncio.create_task(way.pass_on()) for way in ways] + [asyncio.create_task(self.disturb(ways))]
        try:
            await asyncio.wait(jobs, return_when=asyncio.FIRST_COMPLETED)
        finally:
            for job in jobs:
                job.cancel()
            for it in (writer, back):
                it.close()

    async def disturb(self, ways):
        while True:
            await asyncio.sleep(self.dice.expovariate(1 / 4))
            if not self.farm.is_rough:
                continue
            what = self.dice.choice(["reset", "end", "reset of one end", "stall", "stall of one way", "octet by octet"])
            self.farm.count[what] += 1
            if what in ("reset", "end", "reset of one end"):
                for way in ways if what == "reset" else ways[:1] if what == "reset of one end" else []:
                    reset(way.writer)
                return
            some = ways if what != "stall of one way" else [self.dice.choice(ways)]
            for way in some:
                way.rests, way.is_slow = "stall" in what, what == "octet by octet"
            await asyncio.sleep(self.dice.uniform(0.1, 3 * self.farm.plan.interval))
            for way in some:
                way.rests = way.is_slow = False


class Way:
    """What one end writes, to the other."""

    def __init__(self, reader, writer):
        self.reader, self.writer, self.rests, self.is_slow = reader, writer, False, False

    async def pass_on(self):
        try:
            while piece := await self.reader.read(1 if self.is_slow else 65_536):
                while self.rests:
                    await asyncio.sleep(0.02)
                if self.writer.is_closing():
                    return
                self.writer.write(piece)
                await self.writer.drain()
        except OSError:
            pass


class ClientRecord:
    """What a client of this script writes down, as a process of the farm does: docs/RECORD.md."""

    def __init__(self, path, name):
        self.file, self.name, self.made = open(path, "a", encoding="ascii"), name, 0
        self.file.write(f" ~\nbegin {name}.example at 0\n")

    def dial(self, peer, label):
        """A connection is made; its number."""
        self.made += 1
        self.tell("dial", self.made, f"{self.name}.example", f"{peer}.example", label)
        return self.made

    def tell(self, *words):
        self.file.write(" ".join(map(str, words)) + "\n")

    def end(self):
        self.file.write("end\n")
        self.file.close()


class NoRecord:
    """A client that writes nothing down."""

    def dial(self, _peer, _label):
        return 0

    def tell(self, *_words):
        pass

    def end(self):
        pass


@dataclass
class Asked:
    """A request of a client, until it is answered, and what is asked for then."""

    serial: int
    body: bytes
    sent: int = 0
    answers: list = field(default_factory=list)
    is_done: bool = False
    then: object = None
    # When it is sent again.
    timer: object = None


class Client:
    """Sends requests over its connections, and each again until it was answered."""

    def __init__(self, run, name, record):
        self.run, self.name, self.record, self.serial = run, name, record, 0
        self.again, self.up, self.open, self.hop = asyncio.Queue(), {}, 0, 0

    async def keep_up(self, relay):
        """Connects to a relay, again and again."""
        while True:
            try:
                await self.connect(relay, self.run.farm.proxy[self.name, relay])
            except (OSError, asyncio.IncompleteReadError):
                pass
            self.run.farm.count["connections of clients ended"] += 1
            await asyncio.sleep(0.2)

    async def connect(self, relay, port):
        reader, writer = await asyncio.open_connection("127.0.0.1", port)
        await Connection(self, relay, reader, writer).serve()

    async def ask(self):
        """A request, where there is room for one more: those that are to be sent again first."""
        while not self.run.is_over:
            await asyncio.sleep(len(CLIENTS) / self.run.rate)
            while not self.again.empty():
                self.send(self.again.get_nowait())
            if self.open < self.run.at_once and (it := self.run.next_of(self)):
                self.open += 1
                self.send(it)

    def send(self, it):
        if it.is_done:
            return
        if not self.up:
            self.later(it)
            return
        self.run.dice.choice(list(self.up.values())).ask(it)

    def later(self, it, wait=0.2):
        """It is sent again after so many seconds, and not before."""
        if it.timer:
            it.timer.cancel()
        it.timer = asyncio.get_running_loop().call_later(wait, self.again.put_nowait, it)

    def take(self, it, answer):
        self.run.farm.count["answers"] += 1
        if code_in(split(answer.body)) in LATER:
            self.run.farm.count["answers that say later"] += 1
            self.later(it)
            return
        self.run.judge(self, it, answer)
        # the fronts have names of their own: all else is the same
        it.answers.append(spelled([avp for avp in split(answer.body) if not avp.has_code(ORIGIN_HOST)]))
        if it.answers[0] != it.answers[-1]:
            raise Otherwise(f"{self.name}: request {it.serial} was answered in two ways")
        self.run.farm.count["repeats answered"] += it.is_done
        self.open -= not it.is_done
        if not it.is_done and it.then:
            it.then(answer)
        it.is_done = True


class Connection:
    """A connection of a client with a relay, and what it asked on it."""

    def __init__(self, client, relay, reader, writer):
        self.client, self.relay, self.reader, self.writer, self.pending = client, relay, reader, writer, {}
        self.number = client.record.dial(relay, writer.get_extra_info("sockname")[1])

    def write(self, message):
        """Writes a message; whether it can."""
        if self.writer.is_closing():
            return False
        self.writer.write(message.octets())
        return True

    async def serve(self):
        try:
            name = text(ORIGIN_HOST, f"{self.client.name}.example")
            names = [name, text(ORIGIN_REALM, REALM)]
            own = [Avp(257, b"\0\1\x7f\0\0\1"), number(266, 0), Avp(269, b"load", 0), number(258, 4)]
            self.write(Message(REQUEST, CAPABILITIES, 0, 1, 1, spelled(names + own)))
            while True:
                message = await read_message(self.reader)
                if message is None:
                    raise Otherwise(f"{self.relay} sends {self.client.name} what is no message")
                if message.command == CREDIT_CONTROL:
                    self.receive(message)
                elif message.is_request:
                    self.write(message.answer([number(RESULT_CODE, SUCCESS), *names]))
                elif message.command == CAPABILITIES and code_in(split(message.body)) == SUCCESS:
                    self.client.up[self.relay] = self
                    self.client.record.tell("opened", self.number)
        finally:
            self.end()

    def end(self):
        if self.client.up.get(self.relay) is self:
            del self.client.up[self.relay]
        self.client.record.tell("drop", self.number)
        self.writer.close()
        for it in self.pending.values():
            self.client.later(it, 0)

    def ask(self, it):
        """Sends a request, and again over another connection where no answer has come in time; the older one may still be answered."""
        self.client.hop += 1
        hop = self.client.hop
        flags = REQUEST | 0x40 | (RETRANSMITTED if it.sent else 0)
        message = Message(flags, CREDIT_CONTROL, 4, hop, it.serial, it.body)
        if not self.write(message):
            self.client.later(it)
            return
        self.client.record.tell("send", self.number, message.octets().hex())
        self.pending[hop] = it
        self.client.run.farm.count["requests sent again" if it.sent else "requests"] += 1
        it.sent += 1
        self.client.later(it, 3 * self.client.run.farm.plan.interval)

    def receive(self, answer):
        self.client.record.tell("deliver", self.number, answer.octets().hex())
        who = f"{self.client.name} over {self.relay}"
        it = self.pending.pop(answer.hop, None)
        if answer.is_request or it is None:
            raise Otherwise(f"{who}: what nobody has asked for on this connection, {answer.octets().hex()}")
        avps, asked = split(answer.body), split(it.body)
        same = answer.end == it.serial and first(avps, SESSION_ID) == first(asked, SESSION_ID)
        if not same or (first(avps, REQUEST_NUMBER) or first(asked, REQUEST_NUMBER)) != first(asked, REQUEST_NUMBER):
            raise Otherwise(f"{who}: an answer to somebody else, {answer.octets().hex()}")
        self.client.take(it, answer)


class Farm:
    """The processes of a farm, each with its log, its record and its status port, and the proxies between them."""

    def __init__(self, room, program, plan, seed):
        self.room, self.program, self.plan, self.seed = Path(room), str(program), plan, seed
        self.dice, self.count, self.nodes, self.is_rough = random.Random(seed), Counter(), {}, True
        ports = iter(free_ports(len(plan.served) + len(plan.processes) + len(plan.pairs)))
        self.port = {name: next(ports) for name in plan.served}
        self.status = {name: next(ports) for name in plan.processes}
        self.proxy = {pair: next(ports) for pair in plan.pairs}
        told = subprocess.run([self.program, "relay", "--help"], capture_output=True, text=True, check=False)
        self.is_recorded = "--record" in told.stdout

    def client_record(self, name):
        return ClientRecord(self.room / f"{name}.record", name) if self.is_recorded and name in RECORDED else NoRecord()

    def site_of(self, name):
        """The site as a process reads it: where it connects to, a proxy listens."""
        path = self.room / f"{name}.toml"
        path.write_text(site(self.plan, lambda other: self.proxy.get((name, other), self.port[other])))
        return path

    async def start(self, name):
        log = open(self.room / f"{name}.log", "ab")
        begins = log.tell()
        words = ["front"] if name == "fronts" else ["relay", "--name", f"{name}.example"]
        words += ["--site", self.site_of(name), "--status", str(self.status[name]), "--token", self.room / f"{name}.token"]
        words += ["--record", self.room / f"{name}.record"] if self.is_recorded else []
        node = await asyncio.create_subprocess_exec(self.program, *words, stdin=asyncio.subprocess.DEVNULL, stdout=log, stderr=log)
        log.close()
        self.nodes[name] = node
        while b"listens on" not in (self.room / f"{name}.log").read_bytes()[begins:]:
            if node.returncode is not None:
                raise Otherwise(f"{name} has ended: {self.tail(name)}")
            await asyncio.sleep(0.05)

    def tail(self, name):
        return (self.room / f"{name}.log").read_text()[-2000:]

    async def start_all(self):
        for pair in self.plan.pairs:
            await Proxy(self, pair).start()
        for name in ("fronts", *reversed(self.plan.relays)):
            await self.start(name)

    async def trouble(self):
        """Kills and stops processes."""
        while True:
            await asyncio.sleep(self.dice.expovariate(1 / 5))
            if not self.is_rough:
                return
            what, name = self.dice.choice(["kill", "stop"]), self.dice.choice(self.plan.processes)
            if what == "kill" and name != "fronts":
                self.count["relays killed"] += 1
                self.nodes[name].kill()
                await self.nodes[name].wait()
                await asyncio.sleep(self.dice.uniform(0, 2 * self.plan.interval))
                await self.start(name)
            elif what == "stop":
                self.count["processes stopped"] += 1
                self.nodes[name].send_signal(signal.SIGSTOP)
                await asyncio.sleep(self.dice.uniform(0.1, 3 * self.plan.interval))
                self.nodes[name].send_signal(signal.SIGCONT)

    def look_at_memory(self):
        for name, node in self.nodes.items():
            status = Path(f"/proc/{node.pid}/status").read_text()
            self.count[f"kB at most in {name}"] = int(status.split("VmHWM:")[1].split()[0])

    async def end(self, name):
        """Ends a process in good order, by its status port."""
        token = (self.room / f"{name}.token").read_text().strip()
        _, writer = await asyncio.open_connection("127.0.0.1", self.status[name])
        writer.write(f"POST /stop HTTP/1.1\r\nHost: localhost\r\nContent-Length: 0\r\nAuthorization: Bearer {token}\r\n\r\n".encode())
        try:
            status = await asyncio.wait_for(self.nodes[name].wait(), 30)
        except asyncio.TimeoutError:
            raise Otherwise(f"{name} does not end: {self.tail(name)}") from None
        writer.close()
        if status:
            raise Otherwise(f"{name} has ended with status {status}: {self.tail(name)}")

    async def end_all(self):
        for name in (*self.plan.relays, "fronts"):
            await self.end(name)

    async def kill_all(self):
        for node in self.nodes.values():
            if node.returncode is None:
                node.kill()
                await node.wait()

    @property
    def records(self):
        return sorted(self.room.glob("*.record"))

    def audited(self, audit):
        """What the audit of all records says, where they are there: status, text, seconds, MB."""
        place = self.room / "site.toml"
        place.write_text(site(self.plan, self.port.get))
        began = time.monotonic()
        with open(self.room / "audit.out", "w+", encoding="ascii", errors="replace") as out:
            job = subprocess.Popen([audit, "audit", "--site", place, *self.records], stdout=out, stderr=out)
            _, ended, used = os.wait4(job.pid, 0)
            job.returncode = os.waitstatus_to_exitcode(ended)
            out.seek(0)
            return job.returncode, out.read(), time.monotonic() - began, used.ru_maxrss // 1024


class Run:
    """A farm and its clients, from the first request until all are answered."""

    at_once = 40

    def __init__(self, farm, rate):
        self.farm, self.rate, self.dice, self.began = farm, rate, random.Random(farm.seed), time.monotonic()
        self.is_over = False
        self.clients = [Client(self, name, farm.client_record(name)) for name in CLIENTS]

    def next_of(self, _client):
        """The next request of a client, or None."""
        raise NotImplementedError

    def judge(self, client, it, answer):
        """Looks at an answer that does not say later."""

    def is_enough(self):
        """Whether no more requests are to be asked for."""
        raise NotImplementedError

    def patience(self):
        """How many seconds it may take until it is enough."""
        raise NotImplementedError

    async def settle(self):
        """Waits until all is asked for, ends the trouble, and waits until all is answered."""
        until = time.monotonic() + self.patience()
        while not self.is_enough():
            if time.monotonic() > until:
                raise Otherwise(f"not all is asked for after {time.monotonic() - self.began:.0f} s")
            await asyncio.sleep(0.1)
        self.farm.is_rough = False
        until = time.monotonic() + 60
        while any(client.open for client in self.clients):
            if time.monotonic() > until:
                raise Otherwise(f"not answered after a minute without trouble: {[client.open for client in self.clients]}")
            await asyncio.sleep(0.1)
        self.is_over = True

    async def play(self):
        """The whole load. Behind it all connections of clients are gone, and the farm serves."""
        await self.farm.start_all()
        jobs = [client.keep_up(relay) for client in self.clients for relay in self.farm.plan.entries] + [client.ask() for client in self.clients]
        jobs = [asyncio.create_task(job) for job in [*jobs, self.farm.trouble()]]
        settled = asyncio.create_task(self.settle())
        try:
            while not settled.done():
                await asyncio.wait([settled], timeout=0.5)
                raise_of(jobs)
            settled.result()
            # a relay may be on its way up, a process be stopped
            await jobs[-1]
        finally:
            for job in [*jobs, settled]:
                job.cancel()
            await asyncio.gather(*jobs, settled, return_exceptions=True)
        await asyncio.sleep(3 * self.farm.plan.interval)
        self.farm.look_at_memory()

    def end_records(self):
        for client in self.clients:
            client.record.end()


def raise_of(jobs):
    for job in jobs:
        if job.done() and not job.cancelled() and job.exception():
            raise job.exception()


def charges_of(record):
    """How many charges the record of the fronts tells, by age, and the first request that it tells as new twice, or None."""
    ages, seen, twice = Counter(), set(), None
    with open(record, encoding="ascii", errors="replace") as lines:
        for line in lines:
            words = line.split()
            if len(words) != 7 or words[0] != "charge":
                continue
            ages[words[5]] += 1
            if words[5] == "new" and words[6] != "-":
                avps = split(Message.read(bytes.fromhex(words[6])).body)
                key = first(avps, SESSION_ID).value, first(avps, REQUEST_NUMBER).value
                twice = key if key in seen else twice
                seen.add(key)
    return ages, twice


def audit_figures(farm, audit):
    """The figures of the audit of a run, and what it found, or None. Without records there are none."""
    if not farm.is_recorded:
        return "not recorded", None
    if not Path(audit).exists():
        raise Otherwise(f"{audit} is not built")
    size = sum(it.stat().st_size for it in farm.records)
    status, told, seconds, memory = farm.audited(audit)
    ages, twice = charges_of(farm.room / "fronts.record")
    figures = f"{ages['new']} charges, {ages['kept']} of repeats, {size / 1e6:.1f} MB of records"
    if status:
        return figures, f"the audit, status {status}: {told.strip()[:400]}"
    figures += f", audited in {seconds:.1f} s and {memory} MB: {told.splitlines()[0]}"
    return figures, f"charged twice: {twice}" if twice else None


def keep_records(farm, folder):
    """Puts what is left of a run into a folder, to be looked at."""
    folder = Path(folder)
    folder.mkdir(parents=True, exist_ok=True)
    for it in farm.room.iterdir():
        if it.is_file():
            (folder / it.name).write_bytes(it.read_bytes())
    return folder
