"""Schedules written by hand, each with what it shows. `SCENARIOS` has those that are stored."""
import textwrap
from dataclasses import replace

from credit_control import CC_REQUEST_NUMBER, DIRECT_DEBITING, RATING_GROUP, REQUESTED_UNITS, USED_UNITS
from diameter import DESTINATION_REALM, MESSAGE_LIMIT, PROXIABLE, ROUTE_RECORD, Avp, number, text
from messages import (DEBIT, OPENING, PROXY, TIMESTAMP, again, appended, changed, event, of_session, to_host, to_realm,
                      units, update, without)
from row_site import C1, C2, F1, F2, R1, R2, ROW_SITE
from world import World, spelled_step


class Script:
    """A schedule: steps one by one, and those that mostly come together."""

    def __init__(self, comment):
        self.comment, self.steps = " ".join(comment.split()), []

    def step(self, word, *arguments):
        self.steps.append((word, *arguments))
        return self

    def up(self, *pairs):
        for pair in pairs:
            self.step("up", *pair)
        return self

    def send(self, *path, message):
        """A client's message to the first node, delivered along the whole path."""
        return self.step("send", *path[:2], message).carry(*path)

    def carry(self, *path):
        """The first message in flight, delivered from node to node."""
        for pair in zip(path, path[1:]):
            self.step("deliver", *pair, 0)
        return self

    def charge(self, front, worker, moment):
        return self.step("pick", front, worker).step("charge", front, worker, moment)

    def answer(self, front, moment, worker=0):
        return self.charge(front, worker, moment).step("emit", front, worker)

    def first(self, count):
        """The schedule of the first steps alone."""
        script = Script(self.comment)
        script.steps = self.steps[:count]
        return script

    def text(self):
        comment = textwrap.wrap(self.comment, 116, break_on_hyphens=False)
        return "".join([f"# {line}\n" for line in comment] + [spelled_step(*step) for step in self.steps])

    def played(self, site=ROW_SITE, **options):
        world = World(site, **options)
        for step in self.steps:
            world.play(*step)
        return world


def relayed_debit():
    script = Script("""A debit goes from c1 by r1 to f1, is charged there, and its answer comes back the same way. r1
        tells in a Route-Record who sent it, and puts an identifier of its own in the place of the client's, which
        the answer has again.""")
    return script.up((C1, R1), (R1, F1)).send(C1, R1, F1, message=DEBIT).answer(F1, 1000).carry(F1, R1, C1)


def lost_answer():
    script = Script("""A debit by r1 is charged at f1, and its answer is lost on the way. The client sends it again with
        the flag T and Hop-by-Hop Identifier 8: it is charged once, and the one answer that comes has identifier 8.""")
    script.up((C1, R1), (R1, F1)).send(C1, R1, F1, message=DEBIT).answer(F1, 1000).step("lose", F1, R1, 0)
    return script.send(C1, R1, F1, message=again(DEBIT, 8)).answer(F1, 2000).carry(F1, R1, C1)


def restarted_relay():
    script = Script("""A debit by r1 is charged at f1. r1 restarts before the answer goes out, so that f1 has nowhere to
        send it. The client connects anew, by connection 3, and sends the debit again with the flag T: it is
        charged once, and answered once.""")
    script.up((C1, R1), (R1, F1)).send(C1, R1, F1, message=DEBIT).charge(F1, 0, 1000)
    script.step("restart", R1).step("emit", F1, 0).up((C1, R1), (R1, F1))
    return script.send(C1, R1, F1, message=again(DEBIT, 8)).answer(F1, 2000).carry(F1, R1, C1)


def loop():
    script = Script("""The realm loop.example leads from r1 to r2 and from r2 to r1. r2 has the debit from r1, and would
        send it back there: it passes over r1, whose Route-Record it has to append, and refuses the debit,
        UNABLE_TO_DELIVER. The refusal goes back by r1 to the client; two steps find nothing on its way.""")
    script.up((C1, R1), (R1, R2)).send(C1, R1, R2, R1, message=to_realm(DEBIT, "loop.example"))
    return script.carry(R1, R2, R1, C1)


def loop_detected():
    script = Script("""A debit comes to r1 with a Route-Record of r1: it was there before, and r1 refuses it,
        LOOP_DETECTED. Relays send no request where it was, so that it is the client that has written this.""")
    script.up((C1, R1), (R1, R2)).send(C1, R1, message=appended(DEBIT, text(ROUTE_RECORD, R1)))
    return script.carry(R1, C1)


def named(message, *names):
    """A request that the nodes of these names have already sent."""
    return appended(message, *(text(ROUTE_RECORD, name) for name in names))


def passed_over():
    script = Script("""r1 passes over peers that a Route-Record names, in either case. A debit names f1, and f2 gets
        it. One names f1 and has it as Destination-Host: nobody else may get that, UNABLE_TO_DELIVER. One names all of r1's
        route: UNABLE_TO_DELIVER. One names f2 and is charged at f1 when its connection with r1 is cut: r1 passes
        over f2, and sends it to r2, and that to f1, which answers as before. The last names f2 and r2, and waits at
        f1 when the connection is cut again: nobody is left, UNABLE_TO_DELIVER.""")
    script.up((C1, R1), (R1, F1), (R1, F2), (R1, R2), (R2, F1))
    script.send(C1, R1, F2, message=named(DEBIT, "F1.Example")).answer(F2, 1000).carry(F2, R1, C1)
    script.send(C1, R1, message=to_host(named(DEBIT, F1), F1)).carry(R1, C1)
    script.send(C1, R1, message=named(DEBIT, F2, "R2.EXAMPLE", F1)).carry(R1, C1)
    script.send(C1, R1, F1, message=named(of_session(DEBIT, "c1;1;2"), F2)).charge(F1, 0, 2000).step("cut", R1, F1)
    script.carry(R1, R2, F1).answer(F1, 3000, worker=1).carry(F1, R2, R1, C1).step("emit", F1, 0).up((R1, F1))
    script.send(C1, R1, F1, message=named(of_session(DEBIT, "c1;1;3"), R2, F2)).step("cut", F1, R1)
    return script.carry(R1, C1)


def failover():
    script = Script("""f1 has charged a debit when its connection with r1 is cut. r1 sends the debit to f2, with the
        flag T; all fronts share one account book, so that it is charged once. The answer comes from f2.""")
    script.up((C1, R1), (R1, F1), (R1, F2)).send(C1, R1, F1, message=DEBIT).charge(F1, 0, 1000).step("cut", R1, F1)
    return script.carry(R1, F2).answer(F2, 2000).carry(F2, R1, C1)


def failover_while_picked():
    script = Script("""A worker of f1 has picked a debit, and not yet charged it, when the connection with r1 is cut. r1
        sends the debit to f2, which charges it first; what f1 charges after that is a repeat.""")
    script.up((C1, R1), (R1, F1), (R1, F2)).send(C1, R1, F1, message=DEBIT).step("pick", F1, 0).step("cut", R1, F1)
    script.carry(R1, F2).charge(F2, 0, 1000).step("charge", F1, 0, 2000).step("emit", F2, 0)
    return script.carry(F2, R1, C1)


def failover_of_two():
    script = Script("""Two debits, of one account and from two clients, wait at f1 when it restarts. r1 sends both to
        f2, in the order of identifiers that it chose itself; no line of the output can tell which came first,
        since each client gets one answer, and they are delivered in an order of this schedule.""")
    script.up((C1, R1), (C2, R1), (R1, F1), (R1, F2)).send(C1, R1, F1, message=DEBIT)
    script.send(C2, R1, F1, message=of_session(DEBIT, "c2;1;1")).step("restart", F1).carry(R1, F2).carry(R1, F2)
    script.charge(F2, 0, 1000).charge(F2, 1, 2000).step("emit", F2, 0).step("emit", F2, 1)
    return script.carry(F2, R1).carry(F2, R1).carry(R1, C2).carry(R1, C1)


def by_two_relays():
    script = Script("""Neither front is connected with r1, so that debits go by r2, which is the last of its route. f1
        restarts while one waits there: r2 sends it to f2, and its answer comes back by r2 and r1. Then r2
        restarts, and r1 has nowhere to send the next debit, which waits at f2: the client gets UNABLE_TO_DELIVER
        from r1, though that debit is charged.""")
    script.up((C1, R1), (R1, R2), (R2, F1), (R2, F2)).send(C1, R1, R2, F1, message=DEBIT).step("restart", F1)
    script.carry(R2, F2).answer(F2, 1000).carry(F2, R2, R1, C1)
    script.send(C1, R1, R2, F2, message=replace(of_session(DEBIT, "c1;1;2"), hop=8)).step("restart", R2)
    return script.answer(F2, 2000).carry(R1, C1)


def three_ways():
    script = Script("""One debit takes three ways. f1 has its answer on the way back when the connection with r1 is cut:
        r1 sends the debit to f2. f2 has picked it when it restarts: r1 sends the debit to r2, and r2 to f1. It is
        charged there as a repeat, and the answer comes back by r2 and r1. Of the first answer nothing is left, and
        f2 has forgotten what it had picked.""")
    script.up((C1, R1), (R1, F1), (R1, F2), (R1, R2), (R2, F1)).send(C1, R1, F1, message=DEBIT).answer(F1, 1000)
    script.step("cut", F1, R1).carry(R1, F2).step("pick", F2, 1).step("restart", F2).step("charge", F2, 1, 2000)
    return script.carry(R1, R2, F1).answer(F1, 3000).carry(F1, R2, R1, C1)


def loop_cut():
    script = Script("""r2 has refused a debit for loop.example, which it could only send back to r1, and the refusal
        is on its way to r1 when their connection is cut. r1 has no other peer for that realm, and refuses the debit
        itself, UNABLE_TO_DELIVER, though two fronts are connected. After the connection is made again, nothing is
        in flight there, so that two steps do not apply.""")
    script.up((C1, R1), (R1, R2), (R1, F1), (R2, F2)).send(C1, R1, R2, message=to_realm(DEBIT, "loop.example"))
    return script.step("cut", R2, R1).carry(R1, C1).up((R1, R2)).carry(R1, R2).carry(R2, R1)


def old_connection():
    script = Script("""Answers go back on the connection that their requests came on, and on no other one between the
        same nodes. c1 sends a debit to f1 directly and one by r1; both connections of c1 are cut and made again
        before the answers go out, so that the last three steps do not apply. Both debits are charged. r1 still
        takes the answer to the second, and has nobody to give it to.""")
    script.up((C1, F1), (C1, R1), (R1, F1)).send(C1, F1, message=DEBIT)
    script.send(C1, R1, F1, message=of_session(DEBIT, "c1;1;2")).step("pick", F1, 0)
    script.step("cut", C1, F1).step("cut", R1, C1).up((C1, F1), (C1, R1))
    script.step("charge", F1, 0, 1000).answer(F1, 2000, worker=1).step("emit", F1, 0).carry(F1, R1)
    return script.carry(F1, C1).carry(R1, C1).carry(F1, R1)


def host_gone():
    script = Script("""A debit for Destination-Host f1 is charged there, and the connection with r1 is cut before its
        answer goes out. f1 alone may get that debit, so that r1 refuses it, UNABLE_TO_DELIVER. The client sends
        the debit without Destination-Host, and f2 answers what was answered to the first.""")
    script.up((C1, R1), (R1, F1), (R1, F2)).send(C1, R1, F1, message=to_host(DEBIT, F1)).charge(F1, 0, 1000)
    script.step("cut", R1, F1).carry(R1, C1)
    return script.send(C1, R1, F2, message=DEBIT).answer(F2, 2000).carry(F2, R1, C1)


def client_gone():
    script = Script("""Two clients send debits by r1, both with Hop-by-Hop Identifier 7. The connection of c1 is cut
        before its answer comes: that answer goes nowhere, and c2 gets its own.""")
    script.up((C1, R1), (C2, R1), (R1, F1)).send(C1, R1, F1, message=DEBIT)
    script.send(C2, R1, F1, message=of_session(DEBIT, "c2;1;1"))
    script.charge(F1, 0, 1000).charge(F1, 1, 2000).step("cut", C1, R1).step("emit", F1, 0).step("emit", F1, 1)
    return script.carry(F1, R1).carry(F1, R1).carry(R1, C2)


def nowhere_to_go():
    script = Script("""A debit waits in f1's queue when the client that sent it is gone, and then the connection of r1
        and f1 is cut. Nobody waits for an answer: r1 sends nothing, neither to f2 nor to the client that has
        connected anew, so that the last two steps do not apply.""")
    script.up((C1, R1), (R1, F1), (R1, F2)).send(C1, R1, F1, message=DEBIT).step("cut", C1, R1).up((C1, R1))
    return script.step("cut", R1, F1).carry(R1, F2).carry(R1, C1)


def relay_refusals():
    script = Script("""What a relay refuses, in the order in which it looks: a body that is no list of AVPs; a
        Route-Record with its own name, in either case; P clear; Destination-Host without Destination-Realm; its
        own name as Destination-Host, and a request without either; a client as Destination-Host, and a front that
        is not connected; an unknown realm, but not where a front is named; another application; a realm whose only
        peer is not connected. The last request names f1, and is forwarded in spite of its realm.""")
    script.up((C1, R1), (R1, F1))
    proxied = appended(DEBIT, PROXY)
    no_list = replace(proxied, body=proxied.body + number(RATING_GROUP, 10).octets()[:8])
    looping = appended(proxied, text(ROUTE_RECORD, C1), text(ROUTE_RECORD, "R1.Example"))
    realmless = without(DEBIT, DESTINATION_REALM)
    for message in [no_list, looping, replace(looping, flags=looping.flags ^ PROXIABLE),
                    replace(proxied, flags=proxied.flags ^ PROXIABLE), to_host(realmless, F1), to_host(realmless, R1),
                    to_host(DEBIT, "R1.EXAMPLE"), realmless, to_host(DEBIT, C2), to_host(DEBIT, F2),
                    to_realm(DEBIT, "example"), to_realm(DEBIT, "loop.example"), replace(DEBIT, application=5),
                    to_host(replace(DEBIT, application=5), C1)]:
        script.send(C1, R1, message=message).carry(R1, C1)
    return script.send(C1, R1, F1, message=to_host(to_realm(DEBIT, "x"), F1)).answer(F1, 1000).carry(F1, R1, C1)


def no_room():
    script = Script("""A debit so long that it has no room for a Route-Record: r1 refuses it, UNABLE_TO_DELIVER. The
        largest that has room is forwarded, and charged; f1 does not mind an AVP that it does not know, if that
        lacks the flag M.""")
    script.up((C1, R1), (R1, F1))
    # An AVP without M has 8 octets before its value, and a Route-Record with this client's name takes 20.
    room = MESSAGE_LIMIT - DEBIT.length - 8
    script.send(C1, R1, message=appended(DEBIT, Avp(999, bytes(room - 16), 0))).carry(R1, C1)
    script.send(C1, R1, F1, message=appended(DEBIT, Avp(999, bytes(room - 20), 0)))
    return script.answer(F1, 1000).carry(F1, R1, C1)


def front_refusals():
    script = Script("""Requests that r1 forwards and f1 refuses: another application for Destination-Host f1, another
        command, a request without CC-Request-Number, one whose Rating-Group reaches beyond its group, an unknown
        AVP with the flag M; and one that f1 refuses without a look, TOO_BUSY, and charges when it comes again.
        Proxy-Info comes back in each answer.""")
    script.up((C1, R1), (R1, F1))
    proxied = appended(DEBIT, PROXY)
    rating_group = number(RATING_GROUP, 10).octets()
    beyond = proxied.body.replace(rating_group, rating_group[:7] + b"\x10" + rating_group[8:])
    for message in [to_host(replace(proxied, application=5), F1), replace(proxied, command=271),
                    without(proxied, CC_REQUEST_NUMBER), replace(proxied, body=beyond),
                    appended(proxied, number(9999, 1))]:
        script.send(C1, R1, F1, message=message).answer(F1, 1000).carry(F1, R1, C1)
    script.send(C1, R1, F1, message=proxied).step("pick", F1, 1).step("refuse", F1, 1).step("emit", F1, 1)
    script.carry(F1, R1, C1)
    return script.send(C1, R1, F1, message=again(proxied, 8)).answer(F1, 2000).carry(F1, R1, C1)


def other_content():
    script = Script("""A debit of 3200 octets is charged. A request with its Session-Id and CC-Request-Number asks for
        6400: it is refused, UNABLE_TO_COMPLY, and nothing is charged. The debit comes again, and once more with an
        Event-Timestamp, which a server does not read: each gets the answer of the first.""")
    script.up((C1, F1))
    for moment, message in enumerate([DEBIT, event(DIRECT_DEBITING, 6400), DEBIT, appended(DEBIT, TIMESTAMP)], 1):
        script.send(C1, F1, message=message).answer(F1, 1000 * moment).carry(F1, C1)
    return script


def session_not_due():
    script = Script("""A session is opened at moment 1000, and 25 are reserved. It lasts for twice its validity, 1,200
        seconds from its last request: a sweep one millisecond before that ends nothing, and is no entry.""")
    return script.up((C1, F1)).send(C1, F1, message=OPENING).answer(F1, 1000).carry(F1, C1).step("sweep", 1_200_999)


def session_abandoned():
    script = Script("""A session is opened at moment 1000, and its client is not heard of again. The sweep at 1201000
        ends it, with what it has reserved, and is an entry. The sweep after that ends nothing and is none.""")
    script.up((C1, F1)).send(C1, F1, message=OPENING).answer(F1, 1000).carry(F1, C1)
    return script.step("sweep", 1_200_999).step("sweep", 1_201_000).step("sweep", 1_201_000)


def session_kept_up():
    script = Script("""An UPDATE that is charged at 500000 moves the end of a session to 1700000: a sweep at 1699999
        ends nothing, one at 1700000 ends it.""")
    script.up((C1, F1)).send(C1, F1, message=OPENING).answer(F1, 1000).carry(F1, C1)
    script.send(C1, F1, message=update(1, units(REQUESTED_UNITS))).answer(F1, 500_000).carry(F1, C1)
    return script.step("sweep", 1_699_999).step("sweep", 1_700_000)


def session_with_an_early_update():
    script = Script("""Moments need not rise: a session is opened at 1000, and its UPDATE is charged at 500. What counts
        is its last request, so that it ends at 1200500.""")
    script.up((C1, F1)).send(C1, F1, message=OPENING).answer(F1, 1000).carry(F1, C1)
    script.send(C1, F1, message=update(1, units(REQUESTED_UNITS))).answer(F1, 500).carry(F1, C1)
    return script.step("sweep", 1_200_499).step("sweep", 1_200_500)


def session_and_event():
    script = Script("""An EVENT under the Session-Id of a session, at 900000, debits 20 and does not keep the session up:
        it ends at 1201000, as if there had been none.""")
    script.up((C1, F1)).send(C1, F1, message=OPENING).answer(F1, 1000).carry(F1, C1)
    script.send(C1, F1, message=changed(DEBIT, number(CC_REQUEST_NUMBER, 7))).answer(F1, 900_000).carry(F1, C1)
    return script.step("sweep", 1_200_999).step("sweep", 1_201_000)


def session_of_the_latest_moment():
    script = Script("""A session is opened at the greatest moment there is. Its end lies behind every moment, so that no
        sweep ends it; yet the sweep applies.""")
    script.up((C1, F1)).send(C1, F1, message=OPENING).answer(F1, 2**64 - 1).carry(F1, C1)
    return script.step("sweep", 2**64 - 1)


def session_swept_from_under():
    script = Script("""Two sessions of one account are opened by r1, at 1000 and at 2000, and 50 are reserved. An UPDATE
        of the first waits at a worker of f1 when a sweep ends that session, and not the other: it is charged after
        that, is answered UNKNOWN_SESSION_ID, and pays nothing for what it used. The UPDATE of the second goes to f2,
        since f1 has restarted: it pays 25 and is granted 5000 octets anew.""")
    second = replace(of_session(OPENING, "c1;1;2"), hop=8)
    script.up((C1, R1), (R1, F1), (R1, F2)).send(C1, R1, F1, message=OPENING).answer(F1, 1000).carry(F1, R1, C1)
    script.send(C1, R1, F1, message=second).answer(F1, 2000).carry(F1, R1, C1)
    later = update(1, units(REQUESTED_UNITS), units(USED_UNITS, 5000))
    script.send(C1, R1, F1, message=later).step("pick", F1, 0).step("sweep", 1_201_999).step("charge", F1, 0, 3000)
    script.step("emit", F1, 0).carry(F1, R1, C1).step("restart", F1)
    return script.send(C1, R1, F2, message=of_session(later, "c1;1;2")).answer(F2, 4000).carry(F2, R1, C1)


# Each by the folder that it stands in, and its name.
SCENARIOS = {
    "debits/relayed-debit": relayed_debit,
    "failover/lost-answer": lost_answer,
    "failover/restarted-relay": restarted_relay,
    "refusals/loop": loop,
    "refusals/loop-cut": loop_cut,
    "refusals/loop-detected": loop_detected,
    "failover/passed-over": passed_over,
    "failover/failover": failover,
    "failover/failover-while-picked": failover_while_picked,
    "failover/failover-of-two": failover_of_two,
    "failover/three-ways": three_ways,
    "failover/by-two-relays": by_two_relays,
    "failover/host-gone": host_gone,
    "failover/client-gone": client_gone,
    "failover/old-connection": old_connection,
    "failover/nowhere-to-go": nowhere_to_go,
    "refusals/relay-refusals": relay_refusals,
    "refusals/no-room": no_room,
    "refusals/front-refusals": front_refusals,
    "refusals/other-content": other_content,
    "sessions/session-not-due": session_not_due,
    "sessions/session-abandoned": session_abandoned,
    "sessions/session-kept-up": session_kept_up,
    "sessions/session-with-an-early-update": session_with_an_early_update,
    "sessions/session-and-event": session_and_event,
    "sessions/session-of-the-latest-moment": session_of_the_latest_moment,
    "sessions/session-swept-from-under": session_swept_from_under,
}
