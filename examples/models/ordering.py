"""Puts the records of a farm into one order, which is a schedule, and plays it in the model's farm as it goes.

Nodes touch each other through messages, connections and the book alone. So an event of a record is played as soon as the
farm allows it: a connection is opened once it was accepted, a message arrives once it was sent, a request is charged once
all that stands before it in the book is. What is allowed stays allowed whatever else is played first; so no choice is
ever taken back, and where nothing is allowed any more while events are left, the records contradict one another. A request
that a front hands back alone needs a queue that is full: so what the book does comes last, and only as the events wait for it.
"""
from collections import deque
from dataclasses import dataclass, field

from diameter import RESULT_CODE, TOO_BUSY, first, split
from records import Finding, events_of
from site_data import CLIENT, FRONT, RELAY
from world import World, spelled_step


@dataclass
class Conn:
    """A connection as the record of one of its nodes has it.

    `arrived` are the messages that have arrived at a front and are in flight yet in the farm that is played. `answers` is
    what a front has sent on it and nobody has received, `pending` how many of its requests are not charged yet. `is_taken`
    tells of a dial that an accept was played for, or that one of a later dial with its label was.
    """

    node: str
    peer: str
    label: int
    is_up: bool = True
    opens: bool = False
    order: int = 0
    is_closing: bool = False
    is_gone: bool = False
    is_taken: bool = False
    arrived: list = field(default_factory=list)
    answers: deque = field(default_factory=deque)
    pending: int = 0


@dataclass
class Job:
    """A request that a front has taken. `order` counts those of all fronts in the order in which they are told. `charge` is what a
    line tells that became of it."""

    front: str
    conn: Conn
    message: object
    order: int
    has_arrived: bool = False
    charge: object = None

    def was_told_above(self, conn):
        """Whether a line above the one by which this connection begins, at a front, tells what became of it."""
        return self.charge is not None and self.charge.conns < conn.order

    def place(self):
        """Where it stands in the book, of those of which a line tells: a repeat behind the first, and before all one that was answered
        without the book."""
        place = self.charge.place
        return -1 if place is None else place, not self.charge.is_new, self.order


@dataclass
class Charge:
    """What a line tells of a finished job. `seen` is how many jobs were told before it, `conns` how many ends of connections; `posted`,
    whether its answer was sent."""

    event: object
    job: Job
    answer: object
    posted: bool
    seen: int
    conns: int
    place: int | None = None
    is_new: bool = False
    moment: int = 0


class Reader:
    """A record from its first event on."""

    def __init__(self, audit, file, octets):
        self.audit, self.events, self.ahead, self.file = audit, events_of(file, octets, audit.site), {}, file
        self.names, self.is_at_end, self.reports = [], False, []
        self.up, self.jobs, self.counts, self.waiting = {}, {}, {}, []
        self.read()

    def head(self, name):
        """The next event of a node of this record, or None where none was read. More is read where none of any was."""
        while not any(self.ahead.values()) and not self.is_at_end:
            self.read()
        return self.ahead[name][0] if self.ahead[name] else None

    def read(self):
        """One more event. What tells of the book is taken out of the order, which the book's own is."""
        event = next(self.events, None)
        if event is None:
            self.is_at_end = True
            return
        self.audit.events += 1
        if event.word == "begin":
            self.begin(event)
        self.keep(event)

    def begin(self, event):
        kinds = {self.audit.site.nodes[name] for name in event.words}
        if len(kinds) != 1 or (len(event.words) > 1 and kinds != {FRONT}):
            raise event.fault("a process is one relay, one client, or fronts")
        if self.names and self.names != event.words:
            raise event.fault("the record of another process")
        if self.names and kinds == {FRONT}:
            raise event.fault("the fronts begin again, and with them the book: this is another run")
        event.is_first = not self.names
        if event.is_first and any(name in self.audit.owners for name in event.words):
            raise event.fault("another record is of this node too")
        self.audit.owners |= {name: self for name in event.words}
        self.names = event.words
        self.ahead = self.ahead or {name: deque() for name in self.names}
        self.up, self.jobs = {}, {}

    def keep(self, event):
        """An event is kept for the node that it is of: what the nodes of one process do is in no order of its own."""
        event.reader_conns = dict(self.up)
        if any(number not in self.up for number, _ in event.outs):
            raise event.fault("unknown connection")
        match event.word:
            case "accept" | "dial":
                number, node, peer, label = event.words
                if node not in self.names or number in self.up:
                    raise event.fault("no such connection can be made here")
                opens = event.word == "dial"
                self.audit.conns_told += 1
                self.up[number] = event.conn = Conn(node, peer, label, not opens, opens, self.audit.conns_told)
            case "opened" | "deliver" | "send" | "drop":
                event.conn = self.up.get(event.words[0])
                if event.conn is None:
                    raise event.fault("unknown connection")
                self.keep_of_conn(event)
            case "charge" | "refuse":
                self.keep_charge(event)
                return
            case "sweep":
                self.audit.sweeps.append((event, *event.words, self.audit.jobs_told))
                return
            case "entries" | "account":
                self.reports.append(event)
                return
        for name in self.names if event.word == "begin" else [event.conn.node]:
            self.ahead[name].append(event)

    def keep_of_conn(self, event):
        conn = event.conn
        event.job, event.was_sent = None, False
        if event.word == "opened":
            if not conn.opens or conn.is_up:
                raise event.fault("this connection is known already")
            conn.is_up = True
        elif event.word == "drop":
            event.was_up, conn.is_up = conn.is_up, False
            del self.up[event.words[0]]
        elif event.word == "deliver" and self.audit.site.nodes[conn.node] == FRONT:
            message = event.words[1]
            if event.outs:
                conn.answers.extend(out for _, out in event.outs)
            elif message.is_request:
                self.counts[conn.node] = self.counts.get(conn.node, 0) + 1
                event.job = self.audit.new_job(conn, message)
                self.jobs[conn.node, self.counts[conn.node]] = event.job
                conn.pending += 1

    def keep_charge(self, event):
        front, number, *rest = event.words
        job = self.jobs.pop((front, number), None)
        if job is None:
            raise event.fault("no such request is with a worker")
        self.audit.open.pop(job.order)
        job.charge = charge = Charge(event, job, rest[-1], job.conn.is_up, self.audit.jobs_told, self.audit.conns_told)
        if job.conn.is_up and charge.answer:
            job.conn.answers.append(charge.answer)
        if event.word == "charge":
            charge.moment, charge.place, charge.is_new = rest[0], rest[1], rest[2] == "new"
        self.audit.told(charge)


class FrontState:
    """Where requests are at a front of the farm that is played."""

    def __init__(self, workers):
        self.queue, self.workers = deque(), [None] * workers


class Audit:
    """All records of a farm, and the farm that plays them."""

    def __init__(self, site, files):
        self.site, self.world, self.steps = site, World(site, None), []
        self.links, self.dials, self.charges, self.kept, self.sweeps, self.open = {}, {}, {}, [], deque(), {}
        self.jobs_told, self.conns_told, self.place, self.short, self.events, self.taken = 0, 0, 0, set(), 0, {}
        self.fronts = {name: FrontState(site.workers) for name, kind in site.nodes.items() if kind == FRONT}
        self.readers, self.numbered, self.awaits_lines = [], set(), False
        self.owners, self.are_fronts_read = {}, False
        for file, octets in files:
            self.readers.append(Reader(self, file, octets))

    def new_job(self, conn, message):
        job = Job(conn.node, conn, message, self.jobs_told)
        self.open[self.jobs_told] = job
        self.jobs_told += 1
        return job

    def told(self, charge):
        """A charge waits for its place in the book. A repeat waits for that of the first."""
        if charge.place is None or not charge.is_new:
            self.kept.append(charge)
            return
        if charge.place in self.charges or charge.place < self.place:
            raise charge.event.fault(f"place {charge.place} of the book is told twice")
        self.charges[charge.place] = charge

    # ---- Playing

    def play(self, event, *step):
        if not self.world.play(*step):
            raise event.fault("this cannot happen")
        self.steps.append(step)

    def flight(self, a, b):
        return self.world.flight(a, b)

    def stands(self, a, b):
        """Whether somebody reads what `a` sends to `b`."""
        connection = self.world.connection(a, b)
        return connection is not None and a in connection.flights

    def is_silent(self, event, name):
        """Whether this is a client without a record."""
        if name in self.owners:
            return False
        if self.site.nodes[name] != CLIENT:
            raise event.fault("there is no record of the node at the other end")
        return True

    def run(self):
        """What the book does comes last: so a front never has more room than it had."""
        while self.go_on() or self.read_awaited() or self.charge_next() or self.charge_kept() or self.read_ahead() or self.settle():
            pass
        self.look_at_the_rest()
        return self

    def go_on(self):
        self.short, self.awaits_lines, self.are_fronts_read = set(), False, self.unread_fronts() is None
        return any([self.advance(reader, name) for reader in self.readers for name in reader.names])

    def advance(self, reader, name):
        """Plays the events of a node as far as they may happen."""
        went = False
        while (event := reader.head(name)) and getattr(self, event.word)(event):
            reader.ahead[name].popleft()
            went = True
        return went

    # ---- The events of a record: whether they may happen, and then they have

    def begin(self, event):
        if not event.is_first:
            self.forget(event, event.words[0])
        return True

    def forget(self, event, name):
        for (node, _, _), conns in self.dials.items():
            for conn in conns:
                conn.is_gone = conn.is_gone or node == name
        if self.site.nodes[name] == RELAY:
            self.numbered.discard(name)
            self.play(event, "crash", name)
            for client in self.silent_at(event, name):
                self.play(event, "drop", client, name)
            return
        for connection in list(self.world.connections.values()):
            if name in connection.knows:
                self.play(event, "drop", name, connection.other(name))

    def dial(self, event):
        conn = event.conn
        self.dials.setdefault((conn.node, conn.peer, conn.label), []).append(conn)
        return True

    def open_dials(self, a, b, label):
        """The dials with this label that no accept was played for, the first one first."""
        dials = self.dials[a, b, label] = [it for it in self.dials.get((a, b, label), []) if not it.is_taken]
        return dials

    def silent_at(self, event, name):
        """The clients without a record that know a connection with this node."""
        return [peer for peer, kind in self.site.links_of(name).items()
                if kind == CLIENT and self.is_silent(event, peer) and self.world.knows(peer, name)]

    def accept(self, event):
        """A connection is accepted once the other node has opened it, and both have no other one any more."""
        _, b, a, label = event.words
        dials = self.open_dials(a, b, label)
        if not dials and self.is_silent(event, a):
            if not self.is_free(event, event.conn):
                return False
            self.take(event, None)
            self.play(event, "opened", a, b)
            return True
        if not dials or not self.is_free(event, dials[0], event.conn) or all(it.is_gone for it in dials):
            return False
        self.take(event, dials[0])
        return True

    def take(self, event, dial):
        """A connection is accepted. It is one of this dial, as it seems; so where a later one is open, A may still learn of it."""
        _, b, a, _ = event.words
        self.play(event, "accept", b, a)
        self.links[frozenset((a, b))] = {b: event.conn}
        self.taken[frozenset((a, b))] = dial
        if dial:
            dial.is_taken = True

    # ---- Where nothing else may happen

    def settle(self):
        """An accept of a dial that was given up, of several that of the dial which was told last; or a connection comes up
        that was accepted after an earlier dial with the same label, which was given up and not accepted."""
        heads = [(name, event) for name, reader in self.owners.items() if (event := reader.head(name))]
        late = [(dial, name, event) for name, event in heads if event.word == "accept" and (dial := self.late_dial(event))]
        if late:
            dial, name, event = max(late, key=lambda it: it[0].order)
            self.accept_late(dial, event)
        else:
            name = next((name for name, event in heads if event.word == "opened" and self.come_up(event)), None)
        if name:
            self.owners[name].ahead[name].popleft()
        return name is not None

    def late_dial(self, event):
        """The dial for which this accept may be played where nothing else may happen; None where there is none."""
        _, b, a, label = event.words
        dials = self.open_dials(a, b, label)
        return dials[0] if dials and (not self.world.connection(a, b) or self.is_given_up(a, b, label)) else None

    def is_given_up(self, a, b, label):
        """Whether `b` has dropped the connection that it accepted under this label, which may be one that `a` has given up,
        and `a` has not learned of it."""
        pair = frozenset((a, b))
        connection, dial = self.world.connection(a, b), self.taken.get(pair)
        return connection.knows == {a: False} and bool(dial and dial.is_gone and dial.label == label)

    def accept_late(self, dial, event):
        _, b, a, label = event.words
        if self.world.connection(a, b):
            self.play(event, "drop", a, b)
        self.take(event, dial)
        if dial.is_gone and all(it.is_gone for it in self.open_dials(a, b, label)):
            self.play(event, "drop", a, b)

    def is_free(self, event, *ends):
        """Whether the nodes of a connection have no other one any more: these are its ends, without that of a client that has no
        record."""
        for end in ends:
            if self.site.nodes[end.node] == FRONT and (not self.stands(end.node, end.peer) or self.is_silent(event, end.peer)):
                self.close(event, end)
        return self.world.connection(ends[0].node, ends[0].peer) is None

    def close(self, event, end):
        """A front that has lost its connection, and whose peer has too, drops it, since they connect again, with this end. Requests
        that came on it are charged before, if lines above tell so; the others come into the queue, if there is room for them."""
        front = end.node
        conn = self.links.get(frozenset((front, end.peer)), {}).get(front)
        if not conn or not conn.is_closing or self.waits_for_told(conn, end):
            return
        jobs, state = self.arrived_before(front, conn), self.fronts[front]
        if self.lacks_lines(jobs):
            return
        if len(state.queue) + len(jobs) > self.site.queue + state.workers.count(None):
            self.short.add(front)
            return
        self.hand_over_some(event, jobs, len(jobs))
        self.drop_here(event, conn)

    def waits_for_told(self, conn, end):
        """Whether requests wait that came on a lost connection, and of which lines tell above that of the next one. Those are charged now
        that the book has already, or that are answered without it."""
        while self.charge_kept(lambda charge: charge.job.conn is conn and charge.job.was_told_above(end)):
            pass
        return not conn.is_closing or any(job.conn is conn and job.was_told_above(end) for job in self.jobs_at(conn.node))

    def lacks_lines(self, jobs):
        """Whether a line that was not read may tell of one of these requests. More of the fronts is read then."""
        lacks = not self.are_fronts_read and any(not job.charge for job in jobs)
        self.awaits_lines = self.awaits_lines or lacks
        return lacks

    def hand_over_some(self, event, jobs, count):
        """So many of these requests come into the queue, by their places in the book."""
        for _ in range(count):
            self.hand_over(event, jobs.pop(jobs.index(self.first_by_place(jobs))))

    @staticmethod
    def first_by_place(jobs):
        """The request that goes first where these come into the queue together: that with the first place in the book, but before it one
        that arrived earlier and of which no line tells."""
        told = min((job for job in jobs if job.charge), key=Job.place, default=None)
        untold = next((job for job in jobs if not job.charge), None)
        return untold if told is None or (untold and untold.order < told.order) else told

    def arrived_before(self, front, conn):
        """The requests that arrived at a front and are not handed over, up to the last on a connection, in their order."""
        reader = self.owners[front]
        waiting = [job for job in reader.waiting if job.front == front and job in job.conn.arrived]
        last = max((at for at, job in enumerate(waiting) if job.conn is conn), default=-1)
        return waiting[:last + 1]

    def opened(self, event):
        """A node learns that its connection is made once the other one has accepted it."""
        a, b = event.conn.node, event.conn.peer
        if self.is_silent(event, b):
            if not self.is_free(event, event.conn):
                return False
            self.play(event, "accept", b, a)
            self.links[frozenset((a, b))] = {b: event.conn}
            event.conn.is_taken = True
        return event.conn.is_taken and self.come_up(event)

    def come_up(self, event):
        """A node learns that its connection is made, if the other one has accepted it."""
        conn = event.conn
        if not self.is_awaited(conn):
            return False
        for dial in self.open_dials(conn.node, conn.peer, conn.label):
            dial.is_taken = True
        self.play(event, "opened", conn.node, conn.peer)
        self.links[frozenset((conn.node, conn.peer))][conn.node] = conn
        return True

    def is_awaited(self, conn):
        """Whether the node at the other end has accepted a connection with this label, of which this node has not learned, and
        which it has not given up."""
        link = self.links.get(frozenset((conn.node, conn.peer)), {})
        is_accepted = conn.peer in link and conn.node not in link and link[conn.peer].label == conn.label
        return is_accepted and self.stands(conn.peer, conn.node)

    def send(self, event):
        self.play(event, "send", event.conn.node, event.conn.peer, event.words[1])
        return True

    def deliver(self, event):
        conn, message = event.conn, event.words[1]
        node, peer = conn.node, conn.peer
        if self.is_silent(event, peer) and not event.was_sent:
            self.play(event, "send", peer, node, message)
            event.was_sent = True
        place = self.place_of(event, conn, message)
        if place is None:
            return False
        if self.site.nodes[node] == FRONT:
            return self.arrive_at_front(event, conn, message, place)
        if self.site.nodes[node] == RELAY and message.is_request:
            self.learn_start(event, node)
        self.react(event, conn.node, "deliver", peer, node, place)
        return True

    def learn_start(self, event, name):
        """The first identifier that a relay gives since it began is its start, which it drew by itself."""
        request = next((out for _, out in event.outs or [] if out.is_request), None)
        if request and name not in self.numbered:
            self.world.nodes[name].number_from(request.hop)
            self.numbered.add(name)

    def place_of(self, event, conn, message):
        """Where the message is in flight that arrives next; None where it was not sent yet."""
        flight = self.flight(conn.peer, conn.node)
        if self.site.nodes[conn.peer] == FRONT:
            sender = self.links[frozenset((conn.node, conn.peer))].get(conn.peer)
            if not sender or not sender.answers:
                return None
            if sender.answers[0] != message:
                raise event.fault("this is not what was sent next on this connection")
            if message not in flight:
                return None
            sender.answers.popleft()
            return flight.index(message)
        place = len(conn.arrived)
        if place >= len(flight):
            return None
        if flight[place] != message:
            raise event.fault("this is not what was sent next on this connection")
        return place

    def react(self, event, node, *step):
        """A step of a relay or a client: what it sends then is what its record tells."""
        before = {peer: len(self.flight(node, peer)) for peer in self.site.links_of(node)}
        self.play(event, *step)
        conns = {event.reader_conns[number].peer: [] for number, _ in event.outs} if event.outs else {}
        for number, message in event.outs:
            conns[event.reader_conns[number].peer].append(message)
        for peer in before:
            if self.stands(node, peer):
                self.compare(event, self.flight(node, peer)[before[peer]:], conns.get(peer, []))
                self.hand_to_silent(event, node, peer, before[peer])

    def compare(self, event, played, told):
        if event.is_last:
            played = played[:len(told)]
        if played != told:
            raise event.fault("what was sent then is not what a relay or a front sends")

    def hand_to_silent(self, event, node, peer, since):
        """A client without a record receives what is sent to it."""
        if self.is_silent(event, peer):
            while len(self.flight(node, peer)) > since:
                self.play(event, "deliver", node, peer, since)

    def arrive_at_front(self, event, conn, message, place):
        if event.job:
            event.job.has_arrived = True
            conn.arrived.append(event.job)
            self.owners[conn.node].waiting.append(event.job)
        elif not message.is_request:
            self.play(event, "deliver", conn.peer, conn.node, place)
        else:
            return self.hand_back(event, conn, place)
        return True

    def hand_back(self, event, conn, place):
        """A request for which a front had no room: its queue is full then, or a worker refuses it. It is filled by requests that wait."""
        front, state = conn.node, self.fronts[conn.node]
        waiting = [job for job in self.owners[front].waiting if job.front == front]
        is_full = len(state.queue) + len(waiting) >= self.site.queue
        if not is_full and len(state.queue) + 1 > state.workers.count(None):
            self.short.add(front)
            return False
        lacking = self.site.queue - len(state.queue) if is_full else 0
        if lacking and self.lacks_lines(waiting):
            return False
        self.hand_over_some(event, waiting, lacking)
        place, since = len(conn.arrived), len(self.flight(front, conn.peer))
        self.play(event, "deliver", conn.peer, front, place)
        if not is_full:
            state.queue.append(event)
            worker = self.picked(event, front, event)
            self.play(event, "refuse", front, worker)
            self.emit(event, front, worker)
        if self.stands(front, conn.peer):
            self.compare(event, self.flight(front, conn.peer)[since:], [message for _, message in event.outs])
            self.hand_to_silent(event, front, conn.peer, since)
        return True

    def drop(self, event):
        conn = event.conn
        conn.is_gone = True
        if not event.was_up:
            self.give_up(event, conn)
            return True
        if self.site.nodes[conn.node] == FRONT:
            conn.is_closing = True
            self.drop_if_done(event, conn)
            return True
        self.react(event, conn.node, "drop", conn.node, conn.peer)
        self.drop_silent(event, conn)
        return True

    def give_up(self, event, conn):
        """A node gives up a connection that it has opened and does not know, whether or not the other has accepted it."""
        if self.is_awaited(conn):
            self.play(event, "drop", conn.node, conn.peer)

    def drop_if_done(self, event, conn):
        if conn.is_closing and conn.pending == 0:
            self.drop_here(event, conn)

    def drop_here(self, event, conn):
        conn.is_closing = False
        self.play(event, "drop", conn.node, conn.peer)
        self.drop_silent(event, conn)

    def drop_silent(self, event, conn):
        if self.is_silent(event, conn.peer):
            self.play(event, "drop", conn.peer, conn.node)

    def look_at_report(self, event):
        """What a record tells of the book at its end."""
        book = self.world.book
        if event.word == "entries":
            played = [book.entries, "open", len(book.sessions)]
        else:
            kind, name = event.words[:2]
            played = [kind, name, "balance", book.balances.get((kind, name)), "reserved", book.reserved((kind, name))]
        if event.words != played:
            raise event.fault("the book comes to something else")

    # ---- The book

    def charge_next(self):
        charge = self.charges.get(self.place)
        if charge:
            if not charge.job.has_arrived or not self.has_worker(charge.job):
                return False
            del self.charges[self.place]
            self.charge(charge)
            if self.world.book.entries != self.place + 1:
                raise charge.event.fault("this is no new request")
            self.place += 1
            return True
        if self.sweeps and (self.are_all_read() or not self.waits_for_a_job()):
            self.sweep_now(*self.sweeps.popleft())
            return True
        return False

    def are_all_read(self):
        return all(reader.is_at_end for reader in self.readers)

    def sweep_now(self, event, moment, count, _):
        sessions = len(self.world.book.sessions)
        self.play(event, "sweep", moment)
        if self.world.book.entries != self.place + 1 or sessions - len(self.world.book.sessions) != count:
            raise event.fault("such a sweep ends other sessions")
        self.place += 1

    def has_worker(self, job):
        """Whether a worker has the job, or may have it at once: those before it in the queue need one too."""
        state = self.fronts[job.front]
        if job in state.workers:
            return True
        ahead = state.queue.index(job) if job in state.queue else len(state.queue)
        if ahead + 1 <= state.workers.count(None):
            return True
        self.short.add(job.front)
        return False

    def charge_kept(self, is_wanted=lambda charge: True):
        for charge in self.kept:
            is_due = charge.place is None or charge.place < self.place
            if is_due and is_wanted(charge) and charge.job.has_arrived and self.has_worker(charge.job):
                self.kept.remove(charge)
                self.charge(charge)
                return True
        return False

    def charge(self, charge):
        job, event = charge.job, charge.event
        worker = self.picked(event, job.front, job)
        entries = self.world.book.entries
        if charge.place is None and charge.answer and too_busy(charge.answer):
            self.play(event, "refuse", job.front, worker)
        else:
            self.play(event, "charge", job.front, worker, charge.moment)
        if not charge.is_new and self.world.book.entries != entries:
            raise event.fault("this is a new request")
        peer, since = job.conn.peer, len(self.flight(job.front, job.conn.peer))
        self.emit(event, job.front, worker)
        if self.is_on(job.conn) and self.stands(job.front, peer) and charge.answer:
            if self.flight(job.front, peer)[since:] != [charge.answer]:
                raise event.fault("this request is answered otherwise")
            if charge.posted:
                self.hand_to_silent(event, job.front, peer, since)
        job.conn.pending -= 1
        self.drop_if_done(event, job.conn)

    def is_on(self, conn):
        """Whether the connection of these nodes is still this one."""
        return self.links[frozenset((conn.node, conn.peer))].get(conn.node) is conn

    def picked(self, event, front, job):
        """The worker that has a job; it is handed over and picked first where none has it."""
        state = self.fronts[front]
        if isinstance(job, Job) and job in job.conn.arrived:
            self.hand_over(event, job)
        while job not in state.workers:
            idle = next((at for at, held in enumerate(state.workers) if held is None), None)
            self.play(event, "pick", front, idle)
            state.workers[idle] = state.queue.popleft()
        return state.workers.index(job)

    def hand_over(self, event, job):
        """A request that arrived comes into the queue of its front."""
        state = self.fronts[job.front]
        place = job.conn.arrived.index(job)
        while len(state.queue) >= self.site.queue and None in state.workers:
            idle = state.workers.index(None)
            self.play(event, "pick", job.front, idle)
            state.workers[idle] = state.queue.popleft()
        self.play(event, "deliver", job.conn.peer, job.front, place)
        job.conn.arrived.pop(place)
        self.owners[job.front].waiting.remove(job)
        state.queue.append(job)

    def emit(self, event, front, worker):
        self.play(event, "emit", front, worker)
        self.fronts[front].workers[worker] = None

    # ---- Where nothing may happen

    def may_be_told(self):
        """Whether what stands next in the book is a job or a sweep whose line was not read yet, or a job keeps a worker busy."""
        if any(job.order in self.open for name in self.short for job in self.jobs_at(name)):
            return True
        return self.place not in self.charges and (self.waits_for_a_job() or self.waits_for_a_sweep())

    def waits_for_a_sweep(self):
        """Whether a sweep has the next place whose line was not read yet: a line tells of a later place."""
        return not self.sweeps and any((it.place or 0) > self.place for it in [*self.charges.values(), *self.kept])

    def waits_for_a_job(self):
        """Whether a job may have the next place: it was told before each line that tells of a later place."""
        seen = [it.seen for it in self.charges.values()] + [it.seen for it in self.kept if (it.place or 0) >= self.place]
        seen += [self.sweeps[0][-1]] if self.sweeps else []
        return bool(seen) and any(order < min(seen) for order in self.open)

    @staticmethod
    def first_of(heads, name):
        """From this node to the one that its event waits for, and so on."""
        for _ in heads:
            peer = getattr(heads[name], "conn", None) and heads[name].conn.peer
            if peer not in heads:
                break
            name = peer
        return heads[name]

    def jobs_at(self, front):
        """The requests that a front has in the farm that is played, and those that are to be handed over."""
        state = self.fronts[front]
        return [job for job in [*state.queue, *state.workers] if job] + [it for it in self.owners[front].waiting if it.front == front]

    def unread_fronts(self):
        """The reader of fronts whose record is not read to its end."""
        return next((it for it in self.readers if it.names and self.site.nodes[it.names[0]] == FRONT and not it.is_at_end), None)

    def read_ahead(self):
        """One more event of the fronts, where one that is not read yet may stand before one that is read."""
        reader = self.unread_fronts()
        if reader is None or not self.may_be_told():
            return False
        reader.read()
        return True

    def read_awaited(self):
        """One more event of the fronts, where requests are to come into a queue, and no line tells yet of one of them."""
        if not self.awaits_lines:
            return False
        if reader := self.unread_fronts():
            reader.read()
        return True

    def look_at_the_rest(self):
        """What is left may not happen: what is told is an event that waits for nobody else who waits."""
        for charge in [*self.charges.values(), *self.kept]:
            if self.place not in self.charges and charge.place is not None and charge.place >= self.place:
                raise charge.event.fault(f"place {self.place} of the book is told by no line")
        heads = {name: event for name, reader in self.owners.items() if (event := reader.head(name))}
        for name in heads:
            raise self.first_of(heads, name).fault("this cannot happen")
        for charge in [*self.charges.values(), *self.kept]:
            raise charge.event.fault("this cannot happen")
        for reader in self.readers:
            for event in reader.reports:
                self.look_at_report(event)

    def text(self):
        return "".join(spelled_step(*step) for step in self.steps)


def too_busy(answer):
    return int.from_bytes(first(split(answer.body), RESULT_CODE).value) == TOO_BUSY
