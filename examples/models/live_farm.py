"""A farm as it runs live, chosen at random: processes, connections as TCP has them, and the records that they write.

A relay and a client are a process each, and all fronts together are one, with a book and with workers who pick, charge and
finish by themselves, and a sweeper; the process collects what they have done later. What a process sends waits until it has
written its record. A connection loses what is behind some message, never one before another; each of its ends notices by itself
that it has gone. A process that is killed leaves a record that may end in the middle of a line, and is started again.
"""
from collections import deque
from dataclasses import dataclass, field
from zlib import crc32

from book import Book, Full
from credit_control import Refused, credit_control_answer, request_under
from diameter import TOO_BUSY, refusal
from nodes import RisingRelay
from records import beginning, spelled
from site_data import CLIENT, FRONT, RELAY
from stored_book import quoted

CER, CEA = "CER", "CEA"
PIPE = 12
# How what happens is weighed: mostly brought home, with many ends that go, with many processes that are killed, with
# workers that are slow, with answers that are collected late, and with sweeps.
WEIGHTS = {"dial": 12, "send": 24, "read": 90, "notice": 14, "flush": 60, "pick": 20, "charge": 20, "finish": 20, "collect": 20,
           "sweep": 2, "cut": 2, "close": 2, "kill": 1}
MOODS = [WEIGHTS, WEIGHTS | {"cut": 0, "close": 0, "kill": 0}, WEIGHTS | {"cut": 12, "close": 12, "dial": 40}, WEIGHTS | {"kill": 8},
         WEIGHTS | {"pick": 40, "charge": 4, "finish": 8}, WEIGHTS | {"collect": 3, "send": 60}, WEIGHTS | {"sweep": 15}]


@dataclass
class End:
    """One end of a connection: what waits to be written, and what has come and is not read."""

    process: object
    conn: int
    node: str
    peer: str
    opens: bool
    label: int
    is_up: bool = False
    is_gone: bool = False
    outbox: list = field(default_factory=list)
    inbox: deque = field(default_factory=deque)
    other: object = None


@dataclass
class Job:
    """A request that workers have, and what they have made of it: place in the book, and whether it was new."""

    number: int
    conn: int
    request: object
    answer: object = None
    moment: int = 0
    place: int | None = None
    is_new: bool = False


class Pool:
    """A front: its queue and what its workers hold, so many requests each."""

    def __init__(self, name, site, held):
        self.name, self.site = name, site
        self.queue, self.workers, self.finished, self.count = deque(), [None] * (site.workers * held), deque(), 0


class Process:
    """Nodes of the site with their connections, and the record that they write."""

    def __init__(self, farm, names):
        self.farm, self.names, self.kind = farm, names, farm.site.nodes[names[0]]
        self.file, self.starts = bytearray(), 0
        self.start()

    def start(self):
        self.starts += 1
        self.is_alive, self.made, self.ends, self.lines, self.heard = True, 0, {}, [], []
        self.lines.append(beginning(self.names, self.farm.moment))
        if self.kind == RELAY:
            self.relay = RisingRelay(self.names[0], self.farm.site)
            self.relay.number_from(crc32(f"{self.names[0]} {self.starts}".encode()))
        if self.kind == FRONT:
            self.pools, self.swept = {name: Pool(name, self.farm.site, self.farm.held) for name in self.names}, None

    def tell(self, *words):
        self.lines.append(spelled(*words))

    def flush(self):
        """The record is written before anything is sent."""
        self.write("".join(self.lines).encode())
        self.lines, self.heard = [], []
        for end in self.ends.values():
            self.farm.carry(end)

    def write(self, octets):
        """Some octets get into the file. What a client has received is what whole lines there tell."""
        self.file += octets
        told = sum(line.startswith(b"deliver") for line in octets.split(b"\n")[:-1])
        self.farm.received += self.heard[:told]

    def new_end(self, node, peer, opens, label):
        self.made += 1
        end = self.ends[self.made] = End(self, self.made, node, peer, opens, label)
        return end

    def come_up(self, end):
        end.is_up = True
        if end.opens:
            self.tell("opened", end.conn)
        else:
            self.tell("accept", end.conn, end.node, end.peer, end.label)
        if self.kind == RELAY:
            self.relay.conn_up(end.peer, end.conn)

    def sends(self, outs):
        for conn, message in outs:
            self.tell("out", conn, message)
            if conn in self.ends:
                self.ends[conn].outbox.append(message)

    def hear(self, end, message):
        self.tell("deliver", end.conn, message)
        if self.kind == RELAY:
            self.sends(self.relay.on_message(end.conn, message))
        elif self.kind == FRONT:
            self.sends(self.submit(self.pools[end.node], end.conn, message))
        else:
            self.heard.append((end.node, message))

    def submit(self, pool, conn, message):
        if not message.is_request:
            return []
        if len(pool.queue) >= self.farm.site.queue:
            return [(conn, refusal(pool.name, self.farm.site.realm, message, TOO_BUSY))]
        pool.count += 1
        pool.queue.append(Job(pool.count, conn, message))
        return []

    def lose(self, end):
        """The process learns that a connection has ended."""
        end.is_gone = True
        del self.ends[end.conn]
        if end.is_up or end.opens:
            self.tell("drop", end.conn)
        if end.is_up and self.kind == RELAY:
            self.sends(self.relay.conn_lost(end.conn))

    def collect(self, pool):
        job = pool.finished.popleft()
        if job.place is None:
            self.tell("refuse", pool.name, job.number, job.answer)
        else:
            age = "new" if job.is_new else "kept"
            self.tell("charge", pool.name, job.number, job.moment, job.place, age, job.answer)
        if job.conn in self.ends:
            self.ends[job.conn].outbox.append(job.answer)

    def peers(self, node):
        return {end.peer for end in self.ends.values() if end.node == node and end.is_up}


class LiveFarm:
    """The processes of a site, and the dice that say what happens next. `requests` chooses what clients send."""

    process = Process
    # Whether the fronts are killed too: their book is on disk then, and outlives their process.
    is_stored = False
    # How many requests a worker of a front holds, as a thread does.
    held = 1
    # How many ports the system has for the connections of one node with another; None where it gives out none again.
    ports = None

    def __init__(self, dice, site, requests=None):
        self.dice, self.site, self.moment, self.received, self.label = dice, site, 1000, [], 40_000
        self.book, self.places, self.told, self.exported = Book(site), {}, [], []
        self.requests, self.dialled = requests, {}
        names = {kind: [name for name, it in site.nodes.items() if it == kind] for kind in (RELAY, FRONT, CLIENT)}
        crowds = [[name] for name in names[RELAY]] + [names[FRONT]] + [[name] for name in names[CLIENT]]
        self.processes = [self.process(self, crowd) for crowd in crowds if crowd]
        self.weights = dice.one_of(MOODS)

    def process_of(self, name):
        return next(it for it in self.processes if name in it.names)

    def carry(self, end):
        """What waits at an end is under way, while somebody reads at the other one."""
        if end.other and not end.other.is_gone:
            end.other.inbox.extend(end.outbox)
        end.outbox = []

    def ends(self):
        return [end for process in self.processes if process.is_alive for end in process.ends.values()]

    # ---- What may happen

    def choices(self, word):
        ends = self.ends()
        match word:
            case "dial":
                return [(a, b) for a, b in self.site.links if self.may_dial(a, b)]
            case "send":
                return [end for end in ends if end.is_up and end.process.kind == CLIENT and len(end.outbox) < PIPE]
            case "read":
                return [end for end in ends if end.inbox and not self.is_behind(end, ends)]
            case "notice":
                return [end for end in ends if end.other and end.other.is_gone]
            case "flush":
                return [it for it in self.processes if it.is_alive and it.lines]
            case "pick":
                return [(pool, at) for pool in self.pools() for at, job in enumerate(pool.workers) if job is None and pool.queue]
            case "charge":
                return [(pool, at) for pool in self.pools() for at, job in enumerate(pool.workers) if job and job.answer is None]
            case "finish":
                return [(pool, at) for pool in self.pools() for at, job in enumerate(pool.workers) if job and job.answer]
            case "collect":
                return [pool for pool in self.pools() if pool.finished] + [it for it in self.processes if it.kind == FRONT and it.swept]
            case "cut":
                return [end for end in ends if end.other and not end.other.is_gone]
            case "close":
                return ends
            case "kill":
                return [it for it in self.processes if it.kind != FRONT or self.is_stored]
            case "sweep":
                return [it for it in self.processes if it.kind == FRONT and not it.swept]

    def may_dial(self, a, b):
        one, other = self.process_of(a), self.process_of(b)
        return one.is_alive and other.is_alive and not any(it.node == a and it.peer == b for it in one.ends.values())

    @staticmethod
    def is_behind(end, ends):
        """Whether what came by the same ports before is not read yet: TCP gives them out again only once all that has come."""
        return any(it.inbox and it.process is end.process and (it.node, it.peer, it.label) == (end.node, end.peer, end.label)
                   and it.conn < end.conn for it in ends)

    def pools(self):
        return [pool for it in self.processes if it.kind == FRONT and it.is_alive for pool in it.pools.values()]

    def step(self, words=None):
        """Something that may happen; None where nothing may."""
        left = [word for word in words or self.weights if self.weights[word]]
        while left:
            word = self.dice.one_of([it for it in left for _ in range(self.weights[it])])
            if found := self.choices(word):
                getattr(self, word)(self.dice.one_of(found))
                return word
            left.remove(word)
        return None

    # ---- What happens

    def dial(self, pair):
        a, b = pair
        label = self.next_label(a, b)
        one = self.process_of(a).new_end(a, b, True, label)
        other = self.process_of(b).new_end(b, a, False, label)
        one.other, other.other = other, one
        one.process.tell("dial", one.conn, a, b, one.label)
        one.outbox.append(CER)

    def next_label(self, a, b):
        """The port of the side that opens. Where there are few, each pair of nodes has them one after the other, again and again."""
        self.label += 1
        if self.ports is None:
            return self.label
        self.dialled[a, b] = self.dialled.get((a, b), 0) + 1
        return 40_000 + self.dialled[a, b] % self.ports

    def send(self, end):
        message = self.requests.next(end.node)
        end.process.tell("send", end.conn, message)
        end.outbox.append(message)

    def read(self, end):
        message = end.inbox.popleft()
        if message == CER:
            if end.peer in end.process.peers(end.node):
                end.process.lose(end)
                return
            end.outbox.append(CEA)
            end.process.come_up(end)
        elif message == CEA:
            end.process.come_up(end)
        else:
            end.process.hear(end, message)

    def notice(self, end):
        """What has come is read to its end, or some of it, or none."""
        if not end.inbox or self.dice.one_in(3):
            end.process.lose(end)

    def cut(self, end):
        """Both ends are as if the other had gone, and what is under way gets lost from some message on."""
        for it in (end, end.other):
            while it.inbox and not self.dice.one_in(3):
                it.inbox.pop()
            it.outbox = []
            it.other = End(None, 0, it.peer, it.node, False, it.label, is_gone=True)

    def close(self, end):
        end.process.lose(end)

    def flush(self, process):
        process.flush()

    def kill(self, process):
        """The record ends somewhere in what was not written yet; the ends are gone. It is started again."""
        text = "".join(process.lines).encode()
        process.write(text[:self.dice.below(len(text) + 1)])
        for end in process.ends.values():
            end.is_gone = True
        process.start()
        # moments go on behind that of the start
        self.moment += self.is_stored

    def pick(self, at):
        pool, worker = at
        pool.workers[worker] = pool.queue.popleft()

    def charge(self, at):
        pool, worker = at
        job = pool.workers[worker]
        self.moment += self.dice.below(2000)
        job.moment = self.moment
        entries = self.book.entries
        try:
            request = request_under(job.request, self.site.profile)
            reply = self.book.take(request, job.moment)
            job.answer = credit_control_answer(pool.name, self.site, job.request, request, reply)
            job.is_new = self.book.entries > entries
            job.place = self.places.setdefault((request.session, request.number), entries)
            if job.is_new:
                self.export(job.moment, f"charge session {quoted(request.session)} number {request.number}")
        except Refused as fault:
            job.answer = refusal(pool.name, self.site.realm, job.request, fault.code, fault.failed)
        except Full:
            job.answer = refusal(pool.name, self.site.realm, job.request, TOO_BUSY)

    def finish(self, at):
        pool, worker = at
        pool.finished.append(pool.workers[worker])
        pool.workers[worker] = None

    def collect(self, done):
        """The jobs that the workers of a front have finished, or a sweep that has ended sessions."""
        if isinstance(done, Process):
            done.tell("sweep", *done.swept)
            done.swept = None
        else:
            self.process_of(done.name).collect(done)

    def sweep(self, process):
        deadlines = [it.deadline for it in self.book.sessions.values()]
        moment = self.dice.one_of([self.moment, *[it - self.dice.below(2) for it in deadlines]])
        entries, sessions = self.book.entries, len(self.book.sessions)
        self.book.sweep(moment)
        if self.book.entries > entries:
            process.swept = (moment, sessions - len(self.book.sessions))
            self.export(moment, "sweep")
            self.moment = max(self.moment, moment) if self.is_stored else self.moment

    def export(self, moment, what):
        """A line of the book's entries."""
        self.exported.append(f"entry {len(self.exported)} moment {moment} {what}")

    # ---- A whole run

    def run(self, steps):
        for _ in range(steps):
            self.step()
        while self.step(("read", "flush", "pick", "charge", "finish", "collect")):
            pass
        for process in self.processes:
            if process.kind == FRONT:
                self.report(process)
            process.flush()

    def report(self, process):
        for line in self.book.report():
            process.lines.append(line)
