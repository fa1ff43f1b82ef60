"""Schedules over the site files of sites/, written by hand, each with what it shows."""
from dataclasses import dataclass, replace
from pathlib import Path

from credit_control import (AUTH_APPLICATION_ID, CC_REQUEST_NUMBER, CC_REQUEST_TYPE, CC_SERVICE_SPECIFIC_UNITS, CC_TIME,
                            CC_TOTAL_OCTETS, CREDIT_CONTROL, DIRECT_DEBITING, EVENT, INITIAL, MULTIPLE_SERVICES,
                            PRICE_ENQUIRY, RATING_GROUP, REFUND_ACCOUNT, REQUESTED_ACTION, REQUESTED_UNITS,
                            SERVICE_CONTEXT_ID, SERVICE_IDENTIFIER, SUBSCRIPTION_ID, SUBSCRIPTION_ID_DATA,
                            SUBSCRIPTION_ID_TYPE, TERMINATION, UPDATE, USED_UNITS)
from diameter import (DESTINATION_REALM, ORIGIN_HOST, ORIGIN_REALM, PROXIABLE, REQUEST, SESSION_ID, Message, group,
                      number, octets_of_kind, spelled, text)
from messages import DEBIT, OPENING, again, of_session, termination, to_realm, units
from row_site import C1, F1, F2, R1, R2, example
from scenarios import Script
from site_data import CREDIT_CONTROL_APPLICATION
from site_file import site_of

SITES = Path(__file__).resolve().parent.parent / "sites"
E164, IMSI, SIP_URI = 0, 1, 2


@dataclass(frozen=True)
class Gateway:
    """A client that asks: its name, its realm and that of the fronts, and for what kind of service."""

    name: str
    realm: str
    charged_in: str
    context: str

    def ask(self, session, subscriber, kind, place, *services, action=None):
        """A request, the number `place` of its session; its identifiers tell the place too."""
        subscriber_type, subscriber_data = subscriber
        avps = [text(SESSION_ID, f"{self.name};{session}"), text(ORIGIN_HOST, self.name),
                text(ORIGIN_REALM, self.realm), text(DESTINATION_REALM, self.charged_in),
                number(AUTH_APPLICATION_ID, CREDIT_CONTROL_APPLICATION), text(SERVICE_CONTEXT_ID, self.context),
                number(CC_REQUEST_TYPE, kind), number(CC_REQUEST_NUMBER, place)]
        avps += [] if action is None else [number(REQUESTED_ACTION, action)]
        avps += [group(SUBSCRIPTION_ID, [number(SUBSCRIPTION_ID_TYPE, subscriber_type),
                                         text(SUBSCRIPTION_ID_DATA, subscriber_data)]), *services]
        end = 1000 * session + place
        return Message(REQUEST | PROXIABLE, CREDIT_CONTROL, CREDIT_CONTROL_APPLICATION, 1 + place, end, spelled(avps))


def counted(code, unit, count):
    """Requested- or Used-Service-Unit with a count; empty where there is none."""
    return group(code, [] if count is None else [number(unit, count, octets_of_kind(unit, 0))])


def rated(rating_group, unit, **counts):
    """A service of a session by its Rating-Group; `asked` and `used` are counts. None asks for no certain count."""
    parts = [counted(code, unit, counts[name]) for name, code in (("asked", REQUESTED_UNITS), ("used", USED_UNITS))
             if name in counts]
    return group(MULTIPLE_SERVICES, [*parts, number(RATING_GROUP, rating_group)])


def pieces(identifier, count):
    """So many units of an event by its Service-Identifier."""
    asked = counted(REQUESTED_UNITS, CC_SERVICE_SPECIFIC_UNITS, count)
    return group(MULTIPLE_SERVICES, [asked, number(SERVICE_IDENTIFIER, identifier)])


def small(name):
    return f"{name}.small.example"


DRA1, DRA2, OCS1, OCS2, PGW1, PGW2, TAS, SMSC = map(small, "dra1 dra2 ocs1 ocs2 pgw1 pgw2 tas smsc".split())
DATA, OWN_PAGES, CALLS, SHORT_MESSAGE, PICTURE = 1, 2, 20, 300, 301


def gateway(name, context):
    return Gateway(name, "small.example", "charging.small.example", context)


def data_and_call():
    script = Script("""A subscriber with twenty euros loads pages over pgw1, the operator's own ones free of charge, and
        calls somebody at the same time. Data: 5 MB are granted at 2 cents each where no count is asked, of which 3.2 MB
        are used, then 1.1 MB more: 4 and 2 blocks, 12 cents. The call: 120 seconds are granted, 95 are used, two
        minutes at 9 cents. While both are under way, 10 and 18 cents are reserved of one account. In the end nothing
        is, and 1970 cents are left.""")
    alice = (E164, "4917012340001")
    pgw, tas = gateway(PGW1, "32251@3gpp.org"), gateway(TAS, "32260@3gpp.org")
    script.up((PGW1, DRA1), (TAS, DRA2), (DRA1, OCS1), (DRA2, OCS2))

    def data(kind, place, moment, *services):
        script.send(PGW1, DRA1, OCS1, message=pgw.ask(1, alice, kind, place, *services))
        script.answer(OCS1, moment).carry(OCS1, DRA1, PGW1)

    def call(kind, place, moment, *services):
        script.send(TAS, DRA2, OCS2, message=tas.ask(7, alice, kind, place, *services))
        script.answer(OCS2, moment, worker=3).carry(OCS2, DRA2, TAS)

    data(INITIAL, 0, 1000, rated(DATA, CC_TOTAL_OCTETS, asked=None), rated(OWN_PAGES, CC_TOTAL_OCTETS, asked=None))
    call(INITIAL, 0, 2000, rated(CALLS, CC_TIME, asked=None))
    data(UPDATE, 1, 60_000, rated(DATA, CC_TOTAL_OCTETS, asked=None, used=3_200_000),
         rated(OWN_PAGES, CC_TOTAL_OCTETS, used=700_000))
    call(TERMINATION, 1, 97_000, rated(CALLS, CC_TIME, used=95))
    data(TERMINATION, 2, 120_000, rated(DATA, CC_TOTAL_OCTETS, used=1_100_000))
    return script


def messages():
    script = Script("""Messages are events, charged at once by the piece. Bob, who is named by his SIP URI, asks what
        three short messages cost (21 cents) and has 4 cents: DIAMETER_CREDIT_LIMIT_REACHED. A sensor, named by its
        IMSI, sends two pictures for 78 cents; one is not delivered, and paid back. Nobody has the account that the
        last request names: DIAMETER_USER_UNKNOWN. That is an answer like others, without the flag E.""")
    smsc = gateway(SMSC, "32274@3gpp.org")
    script.up((SMSC, DRA1), (DRA1, OCS1))
    bob, sensor, nobody = (SIP_URI, "sip:bob@small.example"), (IMSI, "262420123400001"), (E164, "4917012349999")
    asked = [(bob, PRICE_ENQUIRY, pieces(SHORT_MESSAGE, 3)), (bob, DIRECT_DEBITING, pieces(SHORT_MESSAGE, 1)),
             (sensor, DIRECT_DEBITING, pieces(PICTURE, 2)), (sensor, REFUND_ACCOUNT, pieces(PICTURE, 1)),
             (nobody, DIRECT_DEBITING, pieces(SHORT_MESSAGE, 1))]
    for session, (subscriber, action, service) in enumerate(asked, 1):
        message = smsc.ask(session, subscriber, EVENT, 0, service, action=action)
        script.send(SMSC, DRA1, OCS1, message=message).answer(OCS1, 1000 * session).carry(OCS1, DRA1, SMSC)
    return script


def front_lost():
    script = Script("""A session over pgw2 has its grant from ocs1, and reports 4 MB used in an UPDATE. ocs1 charges
        that, and restarts before its answer goes out. dra1 sends the UPDATE to ocs2 with the flag T: the book has its
        reply, so that nothing is charged twice, and the gateway gets the next grant from ocs2. The session goes on
        there, and ends with 8 + 2 cents charged.""")
    dave, pgw = (E164, "4917012340002"), gateway(PGW2, "32251@3gpp.org")
    script.up((PGW2, DRA1), (DRA1, OCS1), (DRA1, OCS2))
    script.send(PGW2, DRA1, OCS1, message=pgw.ask(1, dave, INITIAL, 0, rated(DATA, CC_TOTAL_OCTETS, asked=None)))
    script.answer(OCS1, 1000).carry(OCS1, DRA1, PGW2)
    used = rated(DATA, CC_TOTAL_OCTETS, asked=None, used=4_000_000)
    script.send(PGW2, DRA1, OCS1, message=pgw.ask(1, dave, UPDATE, 1, used)).charge(OCS1, 0, 30_000)
    script.step("restart", OCS1).carry(DRA1, OCS2).answer(OCS2, 31_000).carry(OCS2, DRA1, PGW2)
    last = rated(DATA, CC_TOTAL_OCTETS, used=900_000)
    script.send(PGW2, DRA1, OCS2, message=pgw.ask(1, dave, TERMINATION, 2, last))
    return script.answer(OCS2, 60_000).carry(OCS2, DRA1, PGW2)


def gateway_lost():
    script = Script("""pgw1 has a grant for a subscriber with a euro and fifty, 10 cents of which are reserved, and loses
        its power: no TERMINATION ever comes. A session may be silent for twice the validity, which is an hour here.
        A sweep a millisecond before that ends nothing; at that moment it ends the session, and is an entry of the
        book: all of the balance is free again. pgw1 is back later, and goes on with a session that is no more:
        DIAMETER_UNKNOWN_SESSION_ID. What that UPDATE says was used is not debited.""")
    erin, pgw = (IMSI, "262420123400002"), gateway(PGW1, "32251@3gpp.org")
    script.up((PGW1, DRA2), (DRA2, OCS2))
    script.send(PGW1, DRA2, OCS2, message=pgw.ask(1, erin, INITIAL, 0, rated(DATA, CC_TOTAL_OCTETS, asked=None)))
    script.answer(OCS2, 1000).carry(OCS2, DRA2, PGW1).step("cut", PGW1, DRA2)
    script.step("sweep", 3_600_999).step("sweep", 3_601_000).up((PGW1, DRA2))
    used = rated(DATA, CC_TOTAL_OCTETS, asked=None, used=2_000_000)
    script.send(PGW1, DRA2, OCS2, message=pgw.ask(1, erin, UPDATE, 1, used))
    return script.answer(OCS2, 4_000_000).carry(OCS2, DRA2, PGW1)


GW = "gw.visited.example"
EDGE, MIDDLE, CORE, OCS = (f"{name}.home.example" for name in ("edge", "middle", "core", "ocs"))
ROAMER = (E164, "447700900001")


def chained(script):
    return script.up((GW, EDGE), (EDGE, MIDDLE), (MIDDLE, CORE), (CORE, OCS))


def passed_along():
    script = chained(Script("""A session's first request passes three relays, each of which appends a Route-Record with
        the name of the one before it, and puts an identifier of its own in the place of the other's. The answer finds
        its way back by these identifiers alone."""))
    gw = Gateway(GW, "visited.example", "home.example", "32251@3gpp.org")
    message = gw.ask(1, ROAMER, INITIAL, 0, rated(10, CC_TOTAL_OCTETS, asked=3200))
    script.send(GW, EDGE, MIDDLE, CORE, OCS, message=message).answer(OCS, 1000)
    return script.carry(OCS, CORE, MIDDLE, EDGE, GW)


def not_served():
    script = chained(Script("""edge sends requests for visited.example to middle, which has no route for that realm, and
        refuses: DIAMETER_REALM_NOT_SERVED, with middle as Origin-Host. A realm that edge does not know is refused by
        edge itself. The last request is for another application, which edge has no route for:
        DIAMETER_UNABLE_TO_DELIVER."""))
    for place, realm in enumerate(["visited.example", "elsewhere.example", "home.example"]):
        gw = Gateway(GW, "visited.example", realm, "32251@3gpp.org")
        message = gw.ask(1, ROAMER, INITIAL, place, rated(10, CC_TOTAL_OCTETS, asked=3200))
        if realm == "visited.example":
            script.send(GW, EDGE, MIDDLE, message=message).carry(MIDDLE, EDGE, GW)
        else:
            application = 4 if realm != "home.example" else 3
            script.send(GW, EDGE, message=replace(message, application=application)).carry(EDGE, GW)
    return script


def broken_chain():
    script = chained(Script("""The connection of middle and core is cut while a debit waits at the front. middle has
        nowhere else to send it: DIAMETER_UNABLE_TO_DELIVER, though the debit is charged a moment later. The gateway
        sends it again with the flag T once the connection is back, and is answered what was answered then: it is
        charged once."""))
    gw = Gateway(GW, "visited.example", "home.example", "32251@3gpp.org")
    debit = gw.ask(2, ROAMER, EVENT, 0, rated(10, CC_TOTAL_OCTETS, asked=3200), action=DIRECT_DEBITING)
    script.send(GW, EDGE, MIDDLE, CORE, OCS, message=debit).step("cut", MIDDLE, CORE).carry(MIDDLE, EDGE, GW)
    script.answer(OCS, 1000).carry(OCS, CORE).up((MIDDLE, CORE))
    return script.send(GW, EDGE, MIDDLE, CORE, OCS, message=again(debit, 9)).answer(OCS, 2000).carry(
        OCS, CORE, MIDDLE, EDGE, GW)


R3, F3, C3 = example("r3", "f3", "c3")
RING = ((R1, R2), (R2, R3), (R3, R1))


def round_the_ring():
    script = Script("""The realm round.example leads from r1 by r2 and r3 to f3. The debit goes that way, with three
        Route-Records in the end, and its answer comes back the same way, though r3 and r1 are connected.""")
    script.up((C1, R1), *RING, (R3, F3))
    script.send(C1, R1, R2, R3, F3, message=to_realm(DEBIT, "round.example")).answer(F3, 1000)
    return script.carry(F3, R3, R2, R1, C1)


def round_the_loop():
    script = Script("""The realm loop.example leads round the ring for ever. r1 sends a debit to r2, and r2 to r3, whose
        only peer for it is r1. The debit's Route-Records name r1: r3 passes it over and refuses the debit,
        DIAMETER_UNABLE_TO_DELIVER. The refusal goes back all the way: r2, r1 and the client. Nothing is charged.""")
    script.up((C1, R1), *RING).send(C1, R1, R2, R3, message=to_realm(DEBIT, "loop.example"))
    return script.carry(R3, R2, R1, C1)


def back_to_the_first():
    script = Script("""No front beside r1 or r2 is up, so that a debit of c1 goes by r1 and r2 to r3, and waits at f3.
        f3 restarts: the others of r3's route, r1 and r2, have sent the debit already, and r3 passes them over and
        refuses it, DIAMETER_UNABLE_TO_DELIVER. Relays pass a refusal on, and try no other peer for it. f3 has
        forgotten the debit; it is charged when the client sends it again, now by f1.""")
    script.up((C1, R1), *RING, (R3, F3)).send(C1, R1, R2, R3, F3, message=DEBIT).step("restart", F3)
    script.carry(R3, R2, R1, C1)
    return script.up((R1, F1)).send(C1, R1, F1, message=again(DEBIT, 8)).answer(F1, 2000).carry(F1, R1, C1)


def past_the_first():
    script = Script("""r1 and r2 are not connected, and f2 alone is up, beside r2. A debit goes by r1 to r3, whose route
        has f3, r1 and r2: f3 is not up, and r1 has sent the debit already. r3 passes over r1 and sends it to r2, which
        sends it to f2: it is charged, and its answer comes back by r2, r3 and r1.""")
    script.up((C1, R1), (R2, R3), (R3, R1), (R2, F2)).send(C1, R1, R3, R2, F2, message=DEBIT).answer(F2, 1000)
    return script.carry(F2, R2, R3, R1, C1)


def one_entry():
    script = Script("""The book of this site takes one request. The second debit is refused, DIAMETER_TOO_BUSY; the
        first, sent again with the flag T, gets the reply that was kept.""")
    script.up((C1, F1))
    for message in (DEBIT, replace(of_session(DEBIT, "c1;1;2"), hop=8), again(DEBIT, 9)):
        script.send(C1, F1, message=message).answer(F1, 1000).carry(F1, C1)
    return script


def no_room_to_sweep():
    script = Script("""The book of this site takes one request. The session that it opens is due at 1201000, but there is
        no room for the entry of a sweep: the session stays open, with what it has reserved.""")
    return script.up((C1, F1)).send(C1, F1, message=OPENING).answer(F1, 1000).carry(F1, C1).step("sweep", 1_201_000)


def no_room_to_end():
    script = Script("""The book of this site takes one request, the one that opens a session. Its TERMINATION finds no
        room, and is refused, DIAMETER_TOO_BUSY: nothing of it is debited. The sweep at 1201000, at which the session is
        due, finds none either. It is no skipped step, but ends nothing: the session stays open for good, with the 25
        cents that it has reserved.""")
    script.up((C1, F1)).send(C1, F1, message=OPENING).answer(F1, 1000).carry(F1, C1)
    script.send(C1, F1, message=replace(termination(1, units(USED_UNITS, 3000)), hop=8)).answer(F1, 2000).carry(F1, C1)
    return script.step("sweep", 1_201_000)


def longest(name):
    """A name of 255 octets, as many as an identity may have."""
    return f"{name}.{'long-name.' * 26}"[:255]


def longest_names():
    gw, relay, first, second, realm = map(longest, "gw r1 f1 f2 realm".split())
    script = Script("""Each name and each realm here has 255 octets, and each request of this session 32 services, as
        many as there may be, each with a tariff of its own. The first request is charged at f1, whose answer is lost
        with the connection; r1 sends it again to f2, which answers as f1 did: 32 grants of 5000 octets, for which 800
        are reserved. Then 3200 octets of each are used, 640 are paid, and 5000 more granted. At the end 1000 more of
        each were used, for 160.""")
    asker, owner = Gateway(gw, realm, realm, "32251@3gpp.org"), (E164, "491700000001")
    groups = range(1, 33)
    script.up((gw, relay), (relay, first), (relay, second))
    opening = asker.ask(1, owner, INITIAL, 0, *(rated(code, CC_TOTAL_OCTETS, asked=None) for code in groups))
    script.send(gw, relay, first, message=opening).answer(first, 1000).step("cut", relay, first).carry(relay, second)
    script.answer(second, 2000).carry(second, relay, gw)
    update = asker.ask(1, owner, UPDATE, 1, *(rated(code, CC_TOTAL_OCTETS, asked=5000, used=3200) for code in groups))
    script.send(gw, relay, second, message=update).answer(second, 3000).carry(second, relay, gw)
    closing = asker.ask(1, owner, TERMINATION, 2, *(rated(code, CC_TOTAL_OCTETS, used=1000) for code in groups))
    return script.send(gw, relay, second, message=closing).answer(second, 4000).carry(second, relay, gw)


STORIES = {"small-operator": {"data-and-call": data_and_call, "messages": messages, "front-lost": front_lost,
                              "gateway-lost": gateway_lost},
           "chain": {"passed-along": passed_along, "not-served": not_served, "broken-chain": broken_chain},
           "ring": {"round-the-ring": round_the_ring, "round-the-loop": round_the_loop,
                    "back-to-the-first": back_to_the_first, "past-the-first": past_the_first},
           "longest": {"longest-names": longest_names},
           "full-book": {"one-entry": one_entry, "no-room-to-sweep": no_room_to_sweep,
                         "no-room-to-end": no_room_to_end}}


def site_named(name):
    """The site of a file of sites/."""
    return site_of((SITES / f"{name}.toml").read_bytes())
