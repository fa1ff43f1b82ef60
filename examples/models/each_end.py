#!/usr/bin/env python3
"""Each end by itself: worked examples and random runs of connections of which the two nodes learn apart.

    each_end.py [--runs N] [--seed S] [--wrong]

plays the worked examples, and N random schedules (200) from the seed S (1) over all kinds of sites, rings of relays among
them. After each step it is looked whether a farm in which `up`, `cut` and `restart` are told to both nodes at once is the
same, and whether relays and fronts know the connections that they have learned of, and no others; at the end of each
run, whether what is promised of every run holds. With --wrong the same runs are played by farms that do something wrong
(WRONG), each of which has to be found out: by what is promised, by what relays and fronts know, or where no rule tells
what is to be done. Exit status: 0, or 1 where something was found that must not be, or was not that must be.
"""
import argparse
import sys
from collections import Counter
from dataclasses import replace

from at_random import RING, ROW, WITH_ENDS, Dice, Player, Requests
from credit_control import Refused, credit_control_answer, request_under
from diameter import ERROR, FAILED_AVP, ORIGIN_HOST, RESULT_CODE, NoList, first, refusal, split
from ends import (crashed_relay, crashed_unnoticed, cut_where_one_knows, faster_way, given_up, old_front_charges_first,
                  old_front_reads_on, one_end_alone)
from nodes import Relay
from random_requests import RandomRequests
from random_sites import RandomSite
from row_site import C1, F1, R1, ROW_SITE
from rows import answer_with, output, printed
from scenarios import Script
from site_data import CLIENT, FRONT, RELAY
from site_file import site_of
from site_stories import site_named
from world import Connection, World

RUNS = 200
STEPS = 160
# So many odd things of a run are told at most.
MANY = 3


# ---- Worked examples

def the_old_front_reads_on():
    """r1 drops f1 and sends to f2, which charges; f1 reads what was sent before, and answers nobody."""
    script = old_front_reads_on()
    yield (output(script.first(16).played()),
           printed([f"recv {C1} 1 {answer_with(front=b'f2')}"], "steps 16 skipped 0 entries 1", b1=980))
    yield output(script.played())[-7], "end steps 17 skipped 1 entries 1"


def the_old_front_charges_first():
    """The same, but f1 charges before f2 does: f2 gives the kept reply."""
    yield (output(old_front_charges_first().played()),
           printed([f"recv {C1} 1 {answer_with(front=b'f2')}"], "steps 16 skipped 0 entries 1", b1=980))


def the_new_way_is_faster():
    """r1 has sent to r2, drops it, and sends by r3, which sends to r2 too: r2 reads what came by r3 first."""
    world = faster_way().played(site_named("ring"))
    yield ([(client, conn, message.octets().hex()) for client, conn, message in world.received],
           [(C1, 1, answer_with(front=b"f2"))])
    yield (world.book.entries, world.skipped, world.steps), (1, 1, 25)


def nobody_is_there_any_more():
    """r1 crashes with a request pending; f1 answers into nothing; c1 drops, connects and sends again: one charge."""
    yield (output(crashed_relay().played()),
           printed([f"recv {C1} 3 {answer_with(8)}"], "steps 23 skipped 2 entries 1", b1=980))


def one_end_drops():
    """r1 takes a connection and drops it before c1 has learned of it: c1 sends into nothing until it drops it too."""
    script = one_end_alone()
    yield [script.first(steps).played().skipped for steps in (3, 6, 9, 12)], [1, 2, 4, 4]
    yield (output(script.played()),
           printed([f"recv {C1} 2 {answer_with()}"], "steps 20 skipped 4 entries 1", b1=980))


def one_end_is_given_up():
    """c1 gives a connection up of which it has not learned: nothing happens to c1, and r1 has to drop it too."""
    script = given_up()
    yield [script.first(steps).played().skipped for steps in (3, 6)], [1, 4]
    world = script.played()
    yield (world.skipped, world.made, world.knows(R1, C1), world.knows(C1, R1)), (4, 2, True, False)


def a_front_has_crashed():
    """f1 crashes: there is no new connection before r1 has dropped the old one, whichever of the two opens it."""
    script = crashed_unnoticed()
    yield script.first(5).played().skipped, 3
    world = script.played()
    yield (world.skipped, world.made, world.knows(F1, R1), world.knows(R1, F1)), (3, 2, True, False)


def nobody_but_servers_crashes():
    world = Script("").up((C1, R1)).step("crash", C1).step("restart", C1).step("opened", C1, R1).played()
    yield (world.skipped, world.knows(C1, R1), world.knows(R1, C1)), (3, True, True)


def one_knows_what_is_cut():
    """A cut ends a connection that one of the two knows, and not one that nobody knows."""
    world = cut_where_one_knows().played()
    yield (world.skipped, world.made, len(world.connections)), (1, 2, 1)


ROWS = [the_old_front_reads_on, the_old_front_charges_first, the_new_way_is_faster, nobody_is_there_any_more,
        one_end_drops, one_end_is_given_up, a_front_has_crashed, nobody_but_servers_crashes, one_knows_what_is_cut]


def failures():
    """The examples that fail, each with what the model gives and what has to be."""
    for row in ROWS:
        for given, wanted in row():
            if given != wanted:
                yield f"{row.__name__}: {given} and not {wanted}"


# ---- The old steps told to both nodes at once

class AtOnce(World):
    """A farm in which both nodes learn at once that a connection is made by `up`, and that one has ended by `cut` and
    `restart`, whose effects are told here by themselves."""

    def up(self, a, b):
        if frozenset((a, b)) not in self.site.linked or self.connection(a, b):
            return False
        self.made += 1
        self.connections[frozenset((a, b))] = Connection(self.made, (a, b), {a: True, b: True}, {a: [], b: []})
        self.nodes[a].conn_up(b, self.made)
        self.nodes[b].conn_up(a, self.made)
        return True

    def cut(self, a, b):
        if not self.knows(a, b) and not self.knows(b, a):
            return False
        connection = self.connections.pop(frozenset((a, b)))
        for node in (a, b):
            self.tell(connection, node)
        return True

    def restart(self, node):
        if self.site.nodes[node] == CLIENT:
            return False
        self.nodes[node].restart()
        ended = sorted((it for it in self.connections.values() if node in it.nodes), key=lambda it: it.number)
        for connection in ended:
            del self.connections[frozenset(connection.nodes)]
        for connection in ended:
            self.tell(connection, connection.other(node))
        return True

    def tell(self, connection, node):
        if connection.known_to(node):
            self.post(node, self.nodes[node].conn_lost(connection.number))


def state(world):
    """What stands in a farm between two steps."""
    return (world.made, world.skipped, sorted(world.connections.values(), key=lambda it: it.number),
            [node_state(node) for node in world.nodes.values()], world.received, world.book.kept, world.book.balances)


def node_state(node):
    names = ("up", "pending", "connections", "queue", "workers")
    return {name: value for name, value in vars(node).items() if name in names}


# ---- What is promised of every run

class Watched(World):
    """Keeps what clients have sent, and the two nodes of each connection."""

    def __init__(self, site):
        super().__init__(site)
        self.sent, self.ends, self.figures = [], {}, Counter()

    def play(self, word, *arguments):
        number = self.connection(*arguments[:2]).number if word == "send" and self.knows(*arguments[:2]) else None
        applies = super().play(word, *arguments)
        if word == "send" and applies:
            self.sent.append((number, arguments[2]))
        for connection in self.connections.values():
            self.ends.setdefault(connection.number, connection.nodes)
        self.figures[word] += applies
        return applies


def code_of(answer):
    return int.from_bytes(first(split(answer.body), RESULT_CODE).value)


def told_refusals(world, request, answer):
    """The refusal of this request that the answer would be, by the node that it names."""
    avps = split(answer.body)
    node = first(avps, ORIGIN_HOST).value.decode()
    failed = first(avps, FAILED_AVP)
    if node in world.site.nodes and world.site.nodes[node] != CLIENT:
        yield refusal(node, world.site.realm, request, code_of(answer), split(failed.value)[0] if failed else None)


def told_replies(world, request):
    """What the fronts may answer this request, by the book's reply to it."""
    try:
        view = request_under(request, world.site.profile)
    except Refused:
        return
    reply = world.book.kept_reply(view)
    if reply:
        for front in (name for name, kind in world.site.nodes.items() if kind == FRONT):
            yield credit_control_answer(front, world.site, request, view, reply)


def is_told(world, conn, answer):
    """Whether the answer is what somebody may answer a request of that connection."""
    asked = [message for number, message in world.sent if number == conn and message.is_request]
    if answer.flags & ERROR:
        return any(answer == told for request in asked for told in told_refusals(world, request, answer))
    return any(answer == told for request in asked for told in told_replies(world, request))


def keys_sent(world):
    for _, message in world.sent:
        try:
            view = request_under(message, world.site.profile)
            yield view.session, view.number
        except (Refused, NoList):
            continue


def broken_promises(world):
    """What does not hold of a run that should."""
    for client, conn, answer in world.received:
        if client not in world.ends[conn]:
            yield f"{client} is told on connection {conn} of others"
        elif not answer.is_request and not is_told(world, conn, answer):
            yield f"{client} is told what nobody answers it on connection {conn}"
    answers = Counter((conn, it.hop, it.end) for _, conn, it in world.received if not it.is_request)
    requests = Counter((conn, it.hop, it.end) for conn, it in world.sent if it.is_request)
    if answers - requests:
        yield "more answers than requests"
    if set(world.book.kept) - set(keys_sent(world)):
        yield "charged what nobody sent"


def stands_wrong(world):
    """What does not hold between two steps: relays and fronts know the ends that they have learned of, and no others."""
    for name, node in world.nodes.items():
        known = {it.other(name): it.number for it in world.connections.values() if it.known_to(name)}
        if world.site.nodes[name] == RELAY:
            awaited = {conn for conn, _ in node.pending}
            if node.up != known or awaited - set(known.values()):
                yield f"{name} knows {node.up}, awaits answers on {sorted(awaited)}, and not {known}"
        if world.site.nodes[name] == FRONT and node.connections != set(known.values()):
            yield f"{name} knows {node.connections} and not {known}"


# ---- Farms that do something wrong

class MatchesWhatItHasDropped(Watched):
    """Answers still come to a relay on a connection that it has dropped, and are matched as before."""

    def drop(self, a, b):
        connection, node = self.connection(a, b), self.nodes[a]
        kept = {key: it for key, it in getattr(node, "pending", {}).items() if connection and key[0] == connection.number}
        flight = connection.flights.get(b, []) if connection else []
        applies = super().drop(a, b)
        if applies and isinstance(node, Relay) and self.connection(a, b):
            node.pending |= {key: replace(it) for key, it in kept.items()}
            connection.knows[a], connection.flights[b] = True, flight
        return applies


class KeepsThePeerUp(Watched):
    """A relay that drops takes its peer for up until the other end has learned."""

    def drop(self, a, b):
        node, before = self.nodes[a], self.connection(a, b)
        number = before.number if before and before.known_to(a) else None
        applies = super().drop(a, b)
        if number and isinstance(node, Relay) and self.connection(a, b):
            node.up[b] = number
        return applies


class ReadsWhatItHasDropped(Watched):
    """What was on its way to a node that drops is still delivered to it."""

    def drop(self, a, b):
        connection = self.connection(a, b)
        flight = list(connection.flights.get(b, [])) if connection else []
        applies = super().drop(a, b)
        for message in flight:
            self.post(a, self.nodes[a].on_message(connection.number, message))
        return applies


class UsesANumberAgain(Watched):
    """A new connection has the number of one that is gone."""

    def accept(self, b, a):
        free = [number for number in self.ends if number not in {it.number for it in self.connections.values()}]
        made, self.made = self.made, (min(free) - 1 if free else self.made)
        applies = super().accept(b, a)
        self.made = max(made, self.made) if applies else made
        if applies:
            self.ends.pop(self.connection(a, b).number, None)
        return applies


class KeepsPendingOverACrash(Watched):
    """A relay that crashes keeps what it awaits answers for."""

    def crash(self, node):
        pending = dict(getattr(self.nodes[node], "pending", {}))
        applies = super().crash(node)
        if pending and applies:
            self.nodes[node].pending = pending
        return applies


class ConnectsBeforeTheOtherHasDropped(Watched):
    """A new connection is made while one end still knows the old one."""

    def accept(self, b, a):
        connection = self.connection(a, b)
        if connection and len(connection.knows) == 1:
            del self.connections[frozenset((a, b))]
        return super().accept(b, a)


WRONG = [MatchesWhatItHasDropped, KeepsThePeerUp, ReadsWhatItHasDropped, UsesANumberAgain, KeepsPendingOverACrash,
         ConnectsBeforeTheOtherHasDropped]


# ---- Random runs

class Wanderer(Player):
    """Chooses steps of all words, and drops and crashes whatever is under way."""

    def __init__(self, dice, scene, made):
        super().__init__(dice, replace(scene, weights=WITH_ENDS))
        self.world, self.faults, self.odd = made(scene.site), [], []
        self.told = AtOnce(scene.site) if made is Watched else None
        self.requests = Requests(dice, scene) if scene.hosts else RandomRequests(dice, self.world)

    def safe(self, step):
        return True

    def play(self, step):
        self.world.play(*step)
        self.lines.append("")
        self.odd += stands_wrong(self.world) if len(self.odd) < MANY else []
        if self.told:
            self.told.play(*step)
            if state(self.told) != state(self.world):
                self.faults.append(f"another farm after {step[:3]}, told at once")

    def wander(self):
        for pair in self.site.links:
            self.play(("up", *pair))
        while len(self.lines) < STEPS and not self.faults:
            self.play(self.any_step() if self.dice.one_in(25) else self.step_that_applies() or self.any_step())
        if not self.faults:
            self.finish()
            self.faults += broken_promises(self.world)
        return self.faults + self.odd


def scene_of(dice):
    """The row site, a ring of relays, or a site chosen at random."""
    kind = dice.below(3)
    if kind == 0:
        return ROW
    return RING if kind == 1 else replace(ROW, site=site_of(RandomSite(dice).file()), hosts=[], realms=[])


def wandered(seed, place, made=Watched):
    """What is found in the run at this place, and what it has played."""
    dice = Dice(seed * 1_000_003 + place)
    dice.next()
    wanderer = Wanderer(dice, scene_of(dice), made)
    return wanderer.wander(), wanderer.world


def found_in(runs, seed):
    """What must not be, in so many runs, and figures of what they have played."""
    faults, figures = [], Counter()
    for place in range(runs):
        found, world = wandered(seed, place)
        faults += [f"run {place} of seed {seed}: {fault}" for fault in found]
        figures += world.figures
        figures["received"] += len(world.received)
    return faults, figures


def found_out(runs, seed):
    """Of each farm that does something wrong, the first run in which it is found out, or None."""
    for made in WRONG:
        yield made.__name__, next(((place, found[0]) for place in range(runs)
                                   for found in [attempted(seed, place, made)] if found), None)


def attempted(seed, place, made):
    """A farm that does something wrong may come to where nothing is told of what is to be done."""
    try:
        return wandered(seed, place, made)[0]
    except (KeyError, StopIteration) as fault:
        return [f"no rule for it: {fault!r}"]


def main(words):
    parser = argparse.ArgumentParser(usage=__doc__)
    parser.add_argument("--runs", type=int, default=RUNS)
    parser.add_argument("--seed", type=int, default=1)
    parser.add_argument("--wrong", action="store_true")
    chosen = parser.parse_args(words)
    if chosen.wrong:
        told = dict(found_out(chosen.runs, chosen.seed))
        for name, found in told.items():
            print(f"{name}: {f'run {found[0]}: {found[1]}' if found else 'not found out'}")
        return 0 if all(told.values()) else 1
    faults, figures = found_in(chosen.runs, chosen.seed)
    faults = [*failures(), *faults]
    for fault in faults:
        print(fault)
    received = figures.pop("received")
    print(f"{len(ROWS)} worked examples, {chosen.runs} random runs with {sum(figures.values())} steps that applied and "
          f"{received} messages received: {len(faults)} faults")
    return 1 if faults else 0


if __name__ == "__main__":
    sys.exit(main(sys.argv[1:]))
