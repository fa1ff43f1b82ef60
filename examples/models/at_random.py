"""Schedules over the whole farm, chosen at random: the steps are chosen where the model's farm stands, one by one.

A relay sends the requests of a lost connection again in the order of Hop-by-Hop Identifiers that it chose itself, and
may choose them as it likes. So that no output depends on that choice, a connection is cut or dropped, or a node at its
end restarted, only while each relay there has at most one request on it for which somebody still waits.
"""
from collections.abc import Sequence
from dataclasses import dataclass, field, replace

from credit_control import (CC_REQUEST_NUMBER, CC_REQUEST_TYPE, CC_TIME, EVENT, INITIAL, MULTIPLE_SERVICES,
                            RATING_GROUP, REQUESTED_UNITS, SERVICE_IDENTIFIER, TERMINATION, UPDATE, USED_UNITS)
from diameter import (DESTINATION_REALM, ORIGIN_HOST, PROXIABLE, REQUEST, RETRANSMITTED, ROUTE_RECORD, Avp, group,
                      number, text)
from messages import (DEBIT, PROXY, again, appended, changed, of_session, of_subscriber, request, service, to_host,
                      to_realm, units, without)
from nodes import Relay
from random_changes import RandomChanges
from row_site import C1, C2, F1, F2, R1, R2, ROW_SITE
from site_data import CLIENT, FRONT, RELAY, Site
from site_stories import F3, R3, pieces, rated, site_named
from world import WORDS, World, spelled_step

GOING_ON = [UPDATE] * 5 + [TERMINATION] * 2 + [EVENT] * 3 + [INITIAL]
NOT_YET = [INITIAL] * 4 + [UPDATE, TERMINATION] + [EVENT] * 5
SUBSCRIBERS = [1, 1, 2, 3, 4, 4, 5, 6]
ASKED = [None, 0, 1, 999, 1000, 1001, 2500, 4500, 5500, 10_001]
USED = [0, 1, 1000, 1001, 3000]
# How often a step of each word is chosen among those that apply.
WEIGHTS = {"up": 5, "send": 6, "deliver": 14, "pick": 6, "charge": 6, "emit": 6, "refuse": 1, "lose": 1, "cut": 1,
           "restart": 1}
# The same, where the book is swept among other steps.
WITH_SWEEPS = {**WEIGHTS, "sweep": 1}
# The same, where the terms change too.
WITH_CHANGES = {**WITH_SWEEPS, "terms": 1}
# The same, where nodes learn of their connections apart.
WITH_ENDS = {"up": 3, "accept": 6, "opened": 12, "send": 8, "deliver": 22, "pick": 8, "charge": 8, "emit": 8, "refuse": 1,
             "lose": 1, "drop": 5, "crash": 1, "cut": 1, "restart": 1, "sweep": 1}
# The words that bring what is under way to its end.
ENDING = ("deliver", "pick", "charge", "emit")
UNDER_WAY = 8
PLACES = [0, 0, 1, 1, 2, 3, 15, 1024, 2**64 - 1]
LATEST = 2**64 - 1


class Dice:
    """A linear congruential generator."""

    def __init__(self, seed):
        self.number = seed

    def next(self):
        self.number = (self.number * 1_664_525 + 1_013_904_223) % 2**32
        return self.number

    def below(self, bound):
        return (self.next() >> 16) % bound

    def one_of(self, items):
        return items[self.below(len(items))]

    def one_in(self, bound):
        return self.below(bound) == 0


class InFlight(Sequence):
    """The messages in flight in these directions: from whom, to whom and at which place. They are counted, not listed, since
    there may be very many."""

    def __init__(self, flights):
        self.flights = [(a, b, len(flight)) for a, b, flight in flights]

    def __len__(self):
        return sum(count for _, _, count in self.flights)

    def __getitem__(self, at):
        for a, b, count in self.flights:
            if at < count:
                return a, b, at
            at -= count
        raise IndexError


@dataclass(frozen=True)
class Scene:
    """A site, and what its clients ask for: Destination-Hosts, Destination-Realms, and services beside those of octets.

    `weights` is how often a step of a word is chosen among those that apply; `pace` is how many milliseconds lie between
    two charges at most.
    """

    site: Site
    hosts: list
    realms: list
    extras: list = field(default_factory=list)
    weights: dict = field(default_factory=lambda: WEIGHTS)
    pace: int = 2000


ROW = Scene(ROW_SITE, hosts=[F1, F2, F2, R2, R2, R1, C2, "F1.Example", "f3.example"],
            realms=["OCS.example", "loop.example", "loop.example", "other.example", "ocs.example.org"])
SWEEPS = replace(ROW, weights=WITH_SWEEPS, pace=180_000)
CHANGES = replace(SWEEPS, weights=WITH_CHANGES)
RING = Scene(site_named("ring"), hosts=[F1, F2, F3, F3, R2, R3, C1, "F2.EXAMPLE", "f9.example"],
             realms=["round.example", "Round.example", "round.example", "loop.example", "loop.EXAMPLE",
                     "other.example"],
             extras=[rated(20, CC_TIME, asked=None), rated(20, CC_TIME, asked=61, used=59),
                     rated(20, CC_TIME, asked=600, used=61), pieces(7, 1), pieces(7, None), pieces(7, 11)],
             weights=WEIGHTS | {"deliver": 20, "cut": 2, "lose": 2})
ENDS = replace(RING, weights=WITH_ENDS)


class Requests:
    """Chooses what clients send: of sessions and events, now and then with a fault, now and then again."""

    def __init__(self, dice, scene):
        clients = [name for name, kind in scene.site.nodes.items() if kind == CLIENT]
        self.dice, self.scene, self.sent, self.numbers, self.opened = dice, scene, {it: [] for it in clients}, {}, set()

    def next(self, client):
        if self.sent[client] and self.dice.one_in(5):
            return again(self.dice.one_of(self.sent[client][-6:]), self.hop())
        message = self.fresh(client)
        if self.dice.one_in(4):
            message = to_host(message, self.dice.one_of(self.scene.hosts))
        if self.dice.one_in(7):
            message = to_realm(message, self.dice.one_of(self.scene.realms))
        if self.dice.one_in(9):
            message = self.dice.one_of(ODD)(message)
        if self.dice.one_in(6):
            message = appended(message, PROXY)
        self.sent[client].append(message)
        return message

    def hop(self):
        """Few identifiers, so that requests under way share them, those of two clients and those of one."""
        return self.dice.below(3)

    def fresh(self, client):
        session = f"{client[:2]};1;{1 + self.dice.below(5)}"
        kind = self.dice.one_of(GOING_ON if session in self.opened else NOT_YET)
        place = self.numbers.setdefault(session, 0)
        self.numbers[session] += 1
        if kind == INITIAL:
            self.opened.add(session)
        if kind == TERMINATION:
            self.opened.discard(session)
        action = self.dice.one_of([0, 0, 0, 1, 2, 3]) if kind == EVENT else None
        message = request(kind, place, self.services(kind), action)
        message = of_subscriber(of_session(message, session), f"49170000000{self.dice.one_of(SUBSCRIBERS)}")
        message = changed(message, text(ORIGIN_HOST, client))
        flags = message.flags | (RETRANSMITTED if self.dice.one_in(8) else 0)
        return replace(message, hop=self.hop(), end=self.dice.next(), flags=flags)

    def services(self, kind):
        services = [service(*self.units(kind))]
        if self.dice.one_in(6):
            services.append(group(MULTIPLE_SERVICES, [*self.units(kind), number(SERVICE_IDENTIFIER, 7),
                                                      number(RATING_GROUP, self.dice.one_of([10, 20]))]))
        if self.scene.extras and self.dice.one_in(3):
            services.append(self.dice.one_of(self.scene.extras))
        return services

    def units(self, kind):
        asked = [] if self.dice.one_in(2 if kind == TERMINATION else 12) else [self.dice.one_of(ASKED)]
        used = [self.dice.one_of(USED)] if kind in (UPDATE, TERMINATION) and not self.dice.one_in(4) else []
        return [units(REQUESTED_UNITS, count) for count in asked] + [units(USED_UNITS, count) for count in used]


# What is wrong with a request now and then.
ODD = [lambda message: replace(message, command=271),
       lambda message: replace(message, application=5),
       lambda message: replace(message, flags=message.flags & ~PROXIABLE),
       lambda message: replace(message, body=message.body + number(RATING_GROUP, 10).octets()[:8]),
       lambda message: appended(message, text(ROUTE_RECORD, "R1.example")),
       lambda message: appended(message, text(ROUTE_RECORD, R2)),
       lambda message: appended(message, text(ROUTE_RECORD, "r3.example")),
       lambda message: appended(message, number(9999, 1)),
       lambda message: appended(message, Avp(9999, b"", 0)),
       lambda message: appended(message, number(CC_REQUEST_NUMBER, 1)),
       lambda message: without(message, CC_REQUEST_NUMBER),
       lambda message: without(message, DESTINATION_REALM),
       lambda message: changed(message, number(CC_REQUEST_NUMBER, 1, 8)),
       lambda message: changed(message, number(CC_REQUEST_TYPE, 5)),
       lambda message: replace(message, flags=message.flags & ~REQUEST)]


class Player:
    """Chooses steps, takes them in a farm of the model, and keeps them as lines."""

    under_way = UNDER_WAY

    def __init__(self, dice, scene):
        self.dice, self.scene, self.site, self.world = dice, scene, scene.site, World(scene.site)
        self.requests, self.lines, self.moment = Requests(dice, scene), [], 1000
        self.changes = RandomChanges(dice, self.world.book)

    def play(self, step):
        if self.safe(step):
            self.world.play(*step)
            self.lines.append(spelled_step(*step))

    def safe(self, step):
        """Whether no relay has to send two requests again at once."""
        word, *arguments = step
        if word in ("cut", "drop"):
            return self.waiting(frozenset(arguments)) <= 1
        if word == "restart":
            return all(self.waiting(pair) <= 1 for pair in self.world.connections if arguments[0] in pair)
        return True

    def waiting(self, pair):
        """How many requests one relay has on this connection for which somebody waits."""
        connection = self.world.connections.get(pair)
        relays = [self.world.nodes[name] for name in pair if isinstance(self.world.nodes[name], Relay)]
        counts = [sum(conn == connection.number and pending.origin is not None
                      for (conn, _), pending in relay.pending.items()) for relay in relays if connection]
        return max(counts, default=0)

    def names(self, kind):
        return [name for name, known in self.site.nodes.items() if known == kind]

    def ends(self):
        """The ends of connections: each node with the one at the other end."""
        return [pair for connection in self.world.connections.values()
                for pair in (connection.nodes, connection.nodes[::-1])]

    def flights(self):
        """Each direction in which somebody reads, with what is in flight there."""
        return [(a, connection.other(a), messages) for connection in self.world.connections.values()
                for a, messages in connection.flights.items()]

    def workers(self, state):
        """The workers for which this question of a front has the answer yes."""
        return [(name, worker) for name in self.names(FRONT) for worker in range(self.site.workers)
                if getattr(self.world.nodes[name], state)(worker)]

    def applying(self, word):
        """The arguments with which a step of this word applies; nothing is sent while much is under way."""
        match word:
            case "up":
                return [pair for pair in self.site.links if not self.world.connection(*pair)]
            case "send":
                clients = [(a, b) for a, b in self.ends() if self.site.nodes[a] == CLIENT and self.world.knows(a, b)]
                return clients if self.busy() < self.under_way else []
            case "deliver":
                return InFlight([(a, b, flight) for a, b, flight in self.flights() if self.world.knows(b, a)])
            case "lose":
                return InFlight(self.flights())
            case "cut":
                return [(a, b) for a, b in self.ends() if self.world.knows(a, b) or self.world.knows(b, a)]
            case "accept":
                return [pair for pair in self.site.links if not self.world.connection(*pair)]
            case "opened":
                return [(a, b) for a, b in self.ends() if self.world.connection(a, b).knows.get(a) is False]
            case "drop":
                return [(a, b) for a, b in self.ends() if a in self.world.connection(a, b).knows]
            case "restart" | "crash":
                return [(name,) for name in self.names(RELAY) + self.names(FRONT)]
            case "pick":
                return self.workers("can_pick")
            case "charge" | "refuse":
                return self.workers("can_answer")
            case "emit":
                return self.workers("can_emit")
            case "sweep" | "terms":
                return [()]

    def busy(self):
        """How many messages are in flight, in queues, or with workers that have no answer yet."""
        in_flight = sum(len(flight) for _, _, flight in self.flights())
        waiting = sum(len(self.world.nodes[name].queue) for name in self.names(FRONT))
        return in_flight + waiting + len(self.workers("can_answer"))

    def completed(self, word, arguments):
        """A step, with the message or the moment that it lacks."""
        if word == "send":
            arguments = (*arguments, self.requests.next(arguments[0]))
        if word == "charge":
            self.moment += self.dice.below(self.scene.pace)
            arguments = (*arguments, self.moment)
        if word == "sweep":
            arguments = (self.sweep_moment(),)
        if word == "terms":
            arguments = self.moment, self.changes.next()
        return word, *arguments

    def sweep_moment(self):
        """Now, or about the deadline of a session that is open, or some time about now."""
        deadlines = [session.deadline for session in self.world.book.sessions.values()]
        about = [self.dice.one_of(deadlines) - self.dice.below(2)] if deadlines else []
        return min(self.dice.one_of([self.moment, self.moment + self.dice.below(self.scene.pace), *about, *about]), LATEST)

    def step_that_applies(self, words=None):
        """A step that applies, or None where there is none of these words."""
        words = words or tuple(self.scene.weights)
        found = {word: self.applying(word) for word in words}
        choices = [word for word in words if found[word] for _ in range(self.scene.weights[word])]
        if not choices:
            return None
        word = self.dice.one_of(choices)
        return self.one_of_these(word, found[word])

    def one_of_these(self, word, found):
        """One of the steps of a word that apply; A and B connect in either order."""
        arguments = self.dice.one_of(found)
        if word in ("up", "accept") and self.dice.one_in(6):
            arguments = arguments[::-1]
        return self.completed(word, arguments)

    def any_step(self):
        """A step that rarely applies; one that would end connections is left out mostly."""
        word = self.dice.one_of([word for word in WORDS if word in self.scene.weights])
        if word == "terms":
            return word, self.dice.one_of(PLACES), self.changes.next()
        choices = {"node": list(self.site.nodes), "number": PLACES, "message": [DEBIT]}
        step = word, *(self.dice.one_of(choices[kind]) for kind in WORDS[word].split())
        return self.any_step() if self.ends_connections(step) and not self.dice.one_in(8) else step

    def ends_connections(self, step):
        word, *arguments = step
        if word in ("cut", "drop"):
            return self.world.connection(*arguments) is not None
        return word in ("restart", "crash") and self.site.nodes[arguments[0]] != CLIENT

    def finish(self):
        """Brings home what is under way."""
        while step := self.step_that_applies(ENDING):
            self.play(step)


COMMENTS = {
    "relays": "# Requests of two clients, by relays and directly, with losses, cuts, restarts and what is sent again,\n"
              "# chosen at random by models/at_random.py.\n",
    "skips": "# Steps chosen at random by models/at_random.py, most of which do not apply.\n",
    "sweeps": "# Sessions of two clients, by relays and directly, with minutes between their requests, losses, cuts,\n"
              "# restarts, and sweeps that end some and not others, chosen at random by models/at_random.py.\n",
    "changes": "# Sessions of two clients, by relays and directly, while accounts join and tariffs change, with losses, cuts,\n"
               "# restarts and sweeps, chosen at random by models/at_random.py.\n",
    "ring": "# Requests of three clients by a ring of relays, with losses, cuts, restarts and what is sent again,\n"
            "# chosen at random by models/at_random.py.\n",
    "ends": "# Requests of three clients by a ring of relays, whose nodes learn apart that connections are made and have\n"
            "# ended, and crash unnoticed, chosen at random by models/at_random.py.\n"}
STORED = {"random/relays-at-random": ("relays", 160), "random/skips-at-random": ("skips", 64),
          "random/sweeps-at-random": ("sweeps", 55)}
# Those that are stored beside a site file.
STORED_BY_SITE = {"ring": {"at-random-1": ("ring", 46), "at-random-2": ("ring", 36), "at-random-3": ("ring", 37),
                           "ends-at-random": ("ends", 1)}}


def relays(seed, scene=ROW):
    """Some 450 steps of which most apply, in a farm that is connected at first."""
    player = Player(Dice(seed), scene)
    for pair in player.site.links:
        player.play(("up", *pair))
    while len(player.lines) < 420:
        player.play(player.any_step() if player.dice.one_in(25) else player.step_that_applies())
    player.finish()
    return player


def sweeps(seed):
    """The same with sweeps, and up to three minutes between two charges, where a session lasts for twenty."""
    return relays(seed, SWEEPS)


def changes(seed):
    """The same, where now and then the terms change."""
    return relays(seed, CHANGES)


def skips(seed):
    """400 steps of which most do not apply; those that do seldom break what others have begun."""
    player = Player(Dice(seed), ROW)
    words = [word for word in WEIGHTS if word not in ("lose", "cut", "restart")]
    while len(player.lines) < 400:
        step = player.dice.one_in(3) and player.step_that_applies(words)
        player.play(step or player.any_step())
    return player


def ring(seed):
    return relays(seed, RING)


def ends(seed):
    return relays(seed, ENDS)


KINDS = {"relays": relays, "skips": skips, "sweeps": sweeps, "changes": changes, "ring": ring, "ends": ends}


def site_of_kind(kind):
    return RING.site if kind in ("ring", "ends") else ROW.site


def schedule(kind, seed):
    return COMMENTS[kind] + "".join(KINDS[kind](seed).lines)
