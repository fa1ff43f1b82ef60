"""The farm as a whole: its connections, what is in flight on them, the steps of a schedule, and what is printed.

A connection has two ends, and a list of messages in flight for each direction. Each end learns by itself: of two nodes
the one that is connected to knows a connection first, and one may take it for lost while the other still uses it. It is
gone once both have dropped it. Between two nodes there is one connection at most. Connections are numbered from 1 in the
order in which they are made, and no number is used again. A step that does not apply changes nothing and is counted.
"""
import re
from dataclasses import dataclass

from book import Book
from diameter import Message
from nodes import Client, Front, Relay, RisingRelay
from site_data import CLIENT, FRONT, RELAY
from terms import BadSchedule, number_of, terms_of

SCHEDULE_LIMIT, STEPS_LIMIT = 16_777_216, 1_000_000
# The words of a schedule, each with what follows it.
WORDS = {"up": "node node", "send": "node node message", "deliver": "node node number", "lose": "node node number",
         "cut": "node node", "restart": "node", "pick": "node number", "charge": "node number number",
         "refuse": "node number", "emit": "node number", "sweep": "number", "accept": "node node",
         "opened": "node node", "drop": "node node", "crash": "node", "terms": "number change"}


def lowest_free(used, old):
    """The lowest Hop-by-Hop Identifier that is free."""
    return next(hop for hop in range(len(used) + 1) if hop not in used)


@dataclass
class Connection:
    """`nodes` are the one that opened it and the other. `knows` has the ends that stand, by the names of their nodes:
    whether the node has learned of it. `flights` has a list of messages for each direction in which somebody still reads,
    by the name of the node that sends.
    """

    number: int
    nodes: tuple
    knows: dict
    flights: dict

    def other(self, node):
        return self.nodes[self.nodes[0] == node]

    def known_to(self, node):
        return self.knows.get(node, False)

    def end(self, node):
        """The node's end is gone, with what is on its way to it."""
        del self.knows[node]
        del self.flights[self.other(node)]


class World:
    """A farm over a site.

    `choose` is how relays choose Hop-by-Hop Identifiers, which clients never see; where it is None, as the program does.
    """

    def __init__(self, site, choose=lowest_free):
        self.site, self.book, self.received = site, Book(site), []
        self.connections, self.made, self.steps, self.skipped = {}, 0, 0, 0
        makers = {RELAY: lambda name: Relay(name, site, choose) if choose else RisingRelay(name, site),
                  FRONT: lambda name: Front(name, site, self.book), CLIENT: lambda name: Client(name, self.received)}
        self.nodes = {name: makers[kind](name) for name, kind in site.nodes.items()}

    def play(self, word, *arguments):
        """Takes one step, and tells whether it applies."""
        applies = getattr(self, word)(*arguments)
        self.steps += 1
        self.skipped += not applies
        return applies

    def connection(self, a, b):
        return self.connections.get(frozenset((a, b)))

    def knows(self, a, b):
        """Whether `a` knows a connection with `b`."""
        connection = self.connection(a, b)
        return connection is not None and connection.known_to(a)

    def flight(self, a, b):
        """What is in flight from `a` to `b`: nothing where there is no connection, or where `b` has dropped it."""
        connection = self.connection(a, b)
        return connection.flights.get(a, []) if connection else []

    def post(self, sender, outs):
        """What a node sends joins the ends of the lists of its connections; it is lost where nobody reads any more."""
        for number, message in outs:
            for connection in self.connections.values():
                if connection.number == number and sender in connection.flights:
                    connection.flights[sender].append(message)

    def up(self, a, b):
        return self.accept(b, a) and self.opened(a, b)

    def accept(self, b, a):
        """A new connection, which `a` opens: `b` knows it, `a` not yet."""
        if frozenset((a, b)) not in self.site.linked or self.connection(a, b):
            return False
        self.made += 1
        self.connections[frozenset((a, b))] = Connection(self.made, (a, b), {a: False, b: True}, {a: [], b: []})
        self.nodes[b].conn_up(a, self.made)
        return True

    def opened(self, a, b):
        """`a` learns that its connection with `b` is made, also where `b` has dropped it by then."""
        connection = self.connection(a, b)
        if connection is None or connection.knows.get(a) is not False:
            return False
        connection.knows[a] = True
        self.nodes[a].conn_up(b, connection.number)
        return True

    def send(self, client, node, message):
        if self.site.nodes[client] != CLIENT or not self.knows(client, node):
            return False
        self.flight(client, node).append(message)
        return True

    def taken(self, a, b, place):
        """The message at this place from `a` to `b`, which leaves the list; None where there is none."""
        flight = self.flight(a, b)
        return flight.pop(place) if place < len(flight) else None

    def deliver(self, a, b, place):
        message = self.taken(a, b, place) if self.knows(b, a) else None
        if message is None:
            return False
        self.post(b, self.nodes[b].on_message(self.connection(a, b).number, message))
        return True

    def lose(self, a, b, place):
        return self.taken(a, b, place) is not None

    def end(self, a, b):
        """The end of `a` is gone, and with the second end the connection."""
        connection = self.connection(a, b)
        connection.end(a)
        if not connection.knows:
            del self.connections[frozenset((a, b))]

    def drop(self, a, b):
        """`a` learns that its connection with `b` has ended; one that it has not learned of yet it gives up."""
        connection = self.connection(a, b)
        if connection is None or a not in connection.knows:
            return False
        known = connection.known_to(a)
        self.end(a, b)
        if known:
            self.post(a, self.nodes[a].conn_lost(connection.number))
        return True

    def crash(self, node):
        """A relay or a front forgets everything. Its peers know nothing of it yet."""
        if self.site.nodes[node] == CLIENT:
            return False
        self.nodes[node].restart()
        for connection in list(self.connections.values()):
            if node in connection.knows:
                self.end(node, connection.other(node))
        return True

    def cut(self, a, b):
        """All that is in flight between them is lost, and both learn that the connection has ended."""
        if not self.knows(a, b) and not self.knows(b, a):
            return False
        for flight in self.connection(a, b).flights.values():
            flight.clear()
        self.drop(a, b)
        self.drop(b, a)
        return True

    def restart(self, node):
        """A node crashes, and all its peers learn it."""
        connections = [it for pair, it in self.connections.items() if node in pair]
        if not self.crash(node):
            return False
        for connection in sorted(connections, key=lambda it: it.number):
            self.drop(connection.other(node), node)
        return True

    def front(self, name):
        return self.nodes[name] if self.site.nodes[name] == FRONT else None

    def pick(self, name, worker):
        front = self.front(name)
        if not front or not front.can_pick(worker):
            return False
        front.pick(worker)
        return True

    def charge(self, name, worker, moment):
        front = self.front(name)
        if not front or not front.can_answer(worker):
            return False
        front.charge(worker, moment)
        return True

    def refuse(self, name, worker):
        front = self.front(name)
        if not front or not front.can_answer(worker):
            return False
        front.refuse(worker)
        return True

    def emit(self, name, worker):
        front = self.front(name)
        if not front or not front.can_emit(worker):
            return False
        self.post(name, front.emit(worker))
        return True

    def sweep(self, moment):
        """Ends the sessions that are due; it applies though none is."""
        self.book.sweep(moment)
        return True

    def terms(self, moment, change):
        """The terms change; it applies though the book refuses the change."""
        self.book.change_terms(change.joining, change.by_name, change.closing, change.reopening)
        return True

    def output(self):
        """What is printed after the last step."""
        for client, conn, message in self.received:
            yield f"recv {client} {conn} {message.octets().hex()}\n"
        yield f"end steps {self.steps} skipped {self.skipped} entries {self.book.entries}\n"
        yield from self.book.report()


def steps_of(octets, site):
    """The steps of a schedule. Raises BadSchedule with the first fault."""
    if len(octets) > SCHEDULE_LIMIT:
        raise BadSchedule("schedule: too long")
    lines = octets.split(b"\n")
    steps = []
    for at, line in enumerate(lines, 1):
        if at < len(lines):
            line = line.removesuffix(b"\r")
        if not line or line.startswith(b"#"):
            continue
        try:
            step = step_of(line, site)
            if len(steps) >= STEPS_LIMIT:
                raise BadSchedule("too many steps")
        except BadSchedule as fault:
            raise BadSchedule(f"schedule: line {at}: {fault}") from None
        steps.append(step)
    return steps


def step_of(line, site):
    """One step: a word and its arguments. Faults of names come before those of numbers, and those of messages last."""
    words = [word.decode("latin-1") for word in line.split(b" ") if word]
    if not words or words[0] not in WORDS:
        raise BadSchedule("unknown word")
    if words[0] == "terms":
        return words[0], *terms_of(words[1:])
    kinds = WORDS[words[0]].split()
    if len(words) != 1 + len(kinds):
        raise BadSchedule("wrong count")
    readings = {"node": lambda word: node_of(word, site), "number": number_of, "message": message_of}
    read = {}
    for kind in ("node", "number", "message"):
        for at, word in enumerate(words[1:]):
            if kinds[at] == kind:
                read[at] = readings[kind](word)
    return words[0], *(read[at] for at in range(len(kinds)))


def node_of(word, site):
    """Names of nodes are compared without case; those of a site are written in lower case here."""
    for name in site.nodes:
        if word.encode("latin-1").lower() == name.encode().lower():
            return name
    raise BadSchedule("unknown name")


def message_of(word):
    if len(word) % 2 or not re.fullmatch("[0-9a-fA-F]+", word):
        raise BadSchedule("bad hex")
    message = Message.read(bytes.fromhex(word))
    if message is None:
        raise BadSchedule("bad message")
    return message


def spelled_step(word, *arguments):
    """A step as a line of a schedule."""
    words = [argument.octets().hex() if isinstance(argument, Message) else str(argument) for argument in arguments]
    return " ".join(filter(None, [word, *words])) + "\n"


def played(octets, site, choose=lowest_free):
    """The farm after a schedule."""
    world = World(site, choose)
    for step in steps_of(octets, site):
        world.play(*step)
    return world
