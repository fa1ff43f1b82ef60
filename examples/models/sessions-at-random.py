#!/usr/bin/env python3
"""Sessions and events, chosen at random and charged in another order than they are sent, against a plain model.

The model is written from the rules, and knows nothing of the program. Of RFC 8506 it has: INITIAL, UPDATE and
TERMINATION requests, which open a session, go on with it and end it (5.1 to 5.4), several services in one command, each
with units granted, used and reserved (5.1.2), the last units (5.6), the four one-time events (6.1 to 6.4), repeats
(8.2), and the octets of requests and answers (3, 8). What the RFC leaves open is this farm's and the row site's choice:

- A service is named by its Rating-Group and the first of its Service-Identifiers. Rating-Group 10 has a tariff: octets,
  5 for each block of 1000 that is begun, 5000 where no count is asked, 10000 at most in one grant. No other has one.
- What an account has free is its balance less what is reserved of it, in all its sessions.
- A service that is settled loses its reservation and pays what was used in full, below zero too; all services of a
  request do so before the first is granted anew. A grant reserves what it costs. Where not all can be paid, the blocks
  that can be paid are granted, and are the last; where that is none, the service is answered 4012.
- A service of the command itself, without Multiple-Services-Credit-Control, gives the command its result; a session
  opens with 2001 alone.
- The first request with a Session-Id and a CC-Request-Number settles what is answered to all later ones: those that ask
  the same get the same reply, and all others 5012 and nothing else.

It writes sessions-at-random.schedule and sessions-at-random.out into the folder that is given, examples/random/ in this
repository, where they are stored.
"""
import sys
from dataclasses import dataclass, replace

REQUESTS, SESSIONS = 480, 20
# How many requests are at most on the way to the front, and how many wait in its queue before the next is delivered.
WAITING = 5
OPENINGS = [1000, 12, 4, 27, 25]
GROUP, PRICE, BLOCK, QUANTUM, GREATEST, VALIDITY = 10, 5, 1000, 5000, 10_000, 600
INITIAL, UPDATE, TERMINATION, EVENT = 1, 2, 3, 4
DEBIT, REFUND, CHECK, ENQUIRY = 0, 1, 2, 3
SUCCESS, CREDIT_LIMIT_REACHED, UNKNOWN_SESSION_ID, UNABLE_TO_COMPLY = 2001, 4012, 5002, 5012
USER_UNKNOWN, RATING_FAILED = 5030, 5031

# What is chosen where a session was opened, and where it was not or is ended: types of requests.
GOING_ON = [UPDATE] * 8 + [TERMINATION] * 3 + [EVENT] * 5 + [INITIAL]
NOT_YET = [INITIAL] * 8 + [UPDATE, TERMINATION] + [EVENT] * 3
ACTIONS = [DEBIT] * 3 + [REFUND] * 4 + [CHECK] * 2 + [ENQUIRY]
# What a Requested-Service-Unit counts: octets, time, or nothing (None). No tariff rates time here.
ASKED = [None, None, None, ("octets", 0), ("octets", 1), ("octets", 999), ("octets", 1000), ("octets", 1001),
         ("octets", 2500), ("octets", 4500), ("octets", 5500), ("octets", 10_001), ("octets", 60_000), ("time", 60)]
# What a Used-Service-Unit counts.
USED = [None, ("octets", 0), ("octets", 1), ("octets", 1), ("octets", 1000), ("octets", 1001), ("octets", 3000),
        ("octets", 5000), ("time", 60)]
# Names of services: Rating-Group and Service-Identifiers. Those without Rating-Group 10 have no tariff.
NAMES = [(10, ())] * 7 + [(10, (7,)), (10, (8,))] * 2 + [(10, (7, 8)), (20, ()), (None, (10,)), (None, ())]
# Subscription-Ids: type and last digit. Accounts are of type 0 and have the digits 1 to 5.
SUBSCRIBERS = [((0, digit),) for digit in [1, 2, 3, 4, 5] * 4]
SUBSCRIBERS += [((0, 6), (1, 1), (0, 4), (0, 1)), ((0, 2), (0, 1)), ((0, 6),), ((1, 1),), ()]


class Dice:
    """A linear congruential generator."""

    def __init__(self, seed):
        self.number = seed

    def next(self):
        self.number = (self.number * 1_664_525 + 1_013_904_223) % 2**32
        return self.number

    def below(self, bound):
        return (self.next() >> 16) % bound

    def one_of(self, items):
        return items[self.below(len(items))]

    def one_in(self, bound):
        return self.below(bound) == 0


def avp(code, value, padding=0):
    """An AVP with the flag M; its length leaves out `padding`, the count of zero octets at the end of `value`."""
    return f"{code:08x}40{8 + len(value) // 2 - padding:06x}{value}"


def number(code, value, digits=8):
    return avp(code, f"{value:0{digits}x}")


def text(code, value):
    padding = -len(value) % 4
    return avp(code, value.encode().hex() + "00" * padding, padding)


def units(code, count):
    """Requested-, Used- or Granted-Service-Unit."""
    if count is None:
        return avp(code, "")
    kind, value = count
    return avp(code, number(421, value, 16) if kind == "octets" else number(420, value))


@dataclass(frozen=True)
class Service:
    """`asked` and `used` are lists of counts: `asked` of one or none, `used` of some."""

    group: int | None
    identifiers: tuple
    asked: tuple
    used: tuple
    bare: bool = False

    @property
    def name(self):
        return self.group, self.identifiers[0] if self.identifiers else None

    @property
    def rated(self):
        return self.group == GROUP

    def octets(self):
        body = "".join([units(437, count) for count in self.asked] + [units(446, count) for count in self.used])
        body += "".join(number(439, identifier) for identifier in self.identifiers)
        body += "" if self.group is None else number(432, self.group)
        return body if self.bare else avp(456, body)

    def units_asked(self):
        """None where nothing is asked."""
        for count in self.asked:
            return count[1] if count and count[0] == "octets" else QUANTUM

    def units_used(self):
        return sum(count[1] for count in self.used if count and count[0] == "octets")


@dataclass(frozen=True)
class Request:
    session: str
    number: int
    kind: int
    action: int
    subscribers: tuple
    services: tuple
    hop: int = 0
    end: int = 0
    flags: int = 0xC0

    def octets(self):
        body = text(263, self.session) + text(264, "c1.example") + text(296, "example") + text(283, "ocs.example")
        body += number(258, 4) + text(461, "32251@3gpp.org") + number(416, self.kind) + number(415, self.number)
        body += number(436, self.action) if self.kind == EVENT else ""
        for kind, digit in self.subscribers:
            body += avp(443, number(450, kind) + text(444, f"49170000000{digit}"))
        return self.message(self.flags, body + "".join(service.octets() for service in self.services))

    def answer(self, reply):
        body = text(263, self.session) + number(268, reply.code) + text(264, "f1.example") + text(296, "ocs.example")
        body += number(258, 4) + number(416, self.kind) + number(415, self.number)
        body += number(418, 1) if self.kind == INITIAL and reply.code == SUCCESS else ""
        return self.message(self.flags & 0x40, body + reply.body)

    def message(self, flags, body):
        return f"01{20 + len(body) // 2:06x}{flags:02x}00011000000004{self.hop:08x}{self.end:08x}{body}"

    def counted(self):
        """The services that count: those of the command do not where there are others."""
        named = tuple(service for service in self.services if not service.bare)
        return named or self.services


def content_of(request):
    """A request without what a server does not read in it."""
    return replace(request, hop=0, end=0, flags=0)


@dataclass(frozen=True)
class Reply:
    """`body` is what stands in an answer behind CC-Request-Number and CC-Session-Failover."""

    code: int
    body: str = ""


class Client:
    """Chooses requests."""

    def __init__(self, dice, requests, sessions):
        self.dice, self.left, self.sent = dice, requests, []
        self.names = [f"c1;1;{place}" for place in range(1, sessions + 1)]
        self.numbers, self.opened, self.subscribers = ({name: start for name in self.names} for start in (0, False, ()))
        self.session = self.names[0]

    def next(self):
        request = self.again() if self.sent and self.dice.one_in(10) else self.fresh()
        flags = self.dice.one_of([0xC0, 0xC0, 0xC0, 0xD0, 0x80])
        self.left -= 1
        self.sent.append(replace(request, hop=self.dice.next(), end=self.dice.next(), flags=flags))
        return self.sent[-1]

    def again(self):
        """An earlier request, or another one with its Session-Id and CC-Request-Number."""
        earlier = self.sent[-1 - self.dice.below(min(len(self.sent), 30))]
        if self.dice.one_in(2):
            return earlier
        kind = self.dice.one_of([INITIAL, UPDATE, TERMINATION, EVENT])
        return replace(earlier, kind=kind, action=self.dice.one_of(ACTIONS), services=self.services(kind))

    def fresh(self):
        if self.dice.one_in(2):
            self.session = self.dice.one_of(self.names)
        session = self.session
        kind = self.dice.one_of(GOING_ON if self.opened[session] else NOT_YET)
        place = self.numbers[session]
        self.numbers[session] += 1
        if kind in (INITIAL, EVENT) or self.dice.one_in(6):
            subscribers = self.dice.one_of(SUBSCRIBERS)
        else:
            subscribers = self.subscribers[session]
        if kind == INITIAL:
            self.subscribers[session] = subscribers
        if kind in (INITIAL, TERMINATION):
            self.opened[session] = kind == INITIAL
        return Request(session, place, kind, self.dice.one_of(ACTIONS), subscribers, self.services(kind))

    def services(self, kind):
        """Services with distinct names, or one of the command itself, or both, or none."""
        bare = []
        if self.dice.one_in(12):
            bare = [self.service(kind, None, self.dice.one_of([(), (10,)]), True)]
            bare = [service for service in bare if service.octets()]
        if bare and not self.dice.one_in(3):
            return tuple(bare)
        chosen = {}
        for _ in range(self.dice.one_of([1] * 7 + [2] * 4 + [3, 3, 0])):
            service = self.service(kind, *self.dice.one_of(NAMES), False)
            chosen.setdefault(service.name, service)
        return tuple(chosen.values()) + tuple(bare)

    def service(self, kind, group, identifiers, bare):
        asked = not self.dice.one_in(12 if kind != TERMINATION else 2)
        used = 0 if kind in (INITIAL, EVENT) and not self.dice.one_in(8) else self.dice.one_of([1, 1, 1, 1, 0, 2])
        asked = tuple(self.dice.one_of(ASKED) for _ in range(asked))
        return Service(group, identifiers, asked, tuple(self.dice.one_of(USED) for _ in range(used)), bare)


def cost(octets):
    return -(-octets // BLOCK) * PRICE


def shown(service, code, granted=None, validity=False, last=False):
    """A service in an answer."""
    group, identifier = service.name
    body = "" if granted is None else units(431, ("octets", granted))
    body += "" if identifier is None else number(439, identifier)
    body += "" if group is None else number(432, group)
    body += number(448, VALIDITY) if validity else ""
    return avp(456, body + number(268, code) + (avp(430, number(449, 0)) if last else ""))


@dataclass
class Session:
    """`held` has what is reserved for each name of a service."""

    account: int
    held: dict


class Book:
    """The accounts, the open sessions, and the replies that are kept."""

    def __init__(self):
        self.balances, self.sessions, self.kept = list(OPENINGS), {}, {}

    def reserved(self, account):
        return sum(sum(it.held.values()) for it in self.sessions.values() if it.account == account)

    def free(self, account):
        return self.balances[account] - self.reserved(account)

    def take(self, request):
        key = request.session, request.number
        if key not in self.kept:
            turns = {INITIAL: self.initial, UPDATE: self.update, TERMINATION: self.termination, EVENT: self.event}
            self.kept[key] = content_of(request), turns[request.kind](request)
        content, reply = self.kept[key]
        return reply if content == content_of(request) else Reply(UNABLE_TO_COMPLY)

    @staticmethod
    def account_of(request):
        known = (digit - 1 for kind, digit in request.subscribers if kind == 0 and digit <= len(OPENINGS))
        return next(known, None)

    def initial(self, request):
        if request.session in self.sessions:
            return Reply(UNABLE_TO_COMPLY)
        account = self.account_of(request)
        if account is None:
            return Reply(USER_UNKNOWN)
        self.sessions[request.session] = Session(account, {})
        reply = self.settled(request)
        if reply.code != SUCCESS:
            del self.sessions[request.session]
        return reply

    def update(self, request):
        return self.settled(request) if request.session in self.sessions else Reply(UNKNOWN_SESSION_ID)

    def termination(self, request):
        reply = self.update(request)
        self.sessions.pop(request.session, None)
        return reply

    def settled(self, request):
        session, services, body = self.sessions[request.session], request.counted(), ""
        for service in services:
            if service.rated:
                session.held.pop(service.name, None)
                self.balances[session.account] -= cost(service.units_used())
        for service in services:
            asked = service.units_asked()
            if not service.rated:
                code, grant = RATING_FAILED, {}
            elif asked is None or request.kind == TERMINATION:
                code, grant = SUCCESS, {}
            else:
                code, grant = self.granted(session, service.name, min(asked, GREATEST))
            # No service of the command itself has a tariff here, so that none is shown what it was granted.
            if service.bare:
                return Reply(code)
            body += shown(service, code, **grant)
        return Reply(SUCCESS, body)

    def granted(self, session, name, wanted):
        free = self.free(session.account)
        blocks = max(free, 0) // PRICE
        last = cost(wanted) > free
        if last and blocks == 0:
            return CREDIT_LIMIT_REACHED, {}
        granted = min(wanted, blocks * BLOCK) if last else wanted
        session.held[name] = cost(granted)
        return SUCCESS, {"granted": granted, "validity": True, "last": last}

    def event(self, request):
        account, services = self.account_of(request), request.counted()
        if account is None and request.action != ENQUIRY:
            return Reply(USER_UNKNOWN)
        if not services or not all(service.rated for service in services):
            return Reply(RATING_FAILED)
        total = sum(cost(service.units_asked() or 0) for service in services)
        if request.action == ENQUIRY:
            value = avp(445, number(447, total, 16) + number(429, 2**32 - 2))
            return Reply(SUCCESS, avp(423, value + number(425, 978)))
        if request.action == CHECK:
            return Reply(SUCCESS, number(422, 0 if total <= self.free(account) else 1))
        if request.action == REFUND:
            self.balances[account] += total
            return Reply(SUCCESS)
        if total > self.free(account):
            return Reply(CREDIT_LIMIT_REACHED)
        self.balances[account] -= total
        return Reply(SUCCESS, "".join(shown(service, SUCCESS, service.units_asked()) for service in services))


class Farm:
    """One client, a front with two workers, and what is under way between them. Each step tells whether it applies."""

    def __init__(self, client):
        self.client, self.book = client, Book()
        self.sent, self.queue, self.back, self.received = [], [], [], []
        self.jobs, self.answers = [None, None], [None, None]
        self.steps, self.skipped, self.moment = ["up c1.example f1.example\n"], 0, 1000

    def step(self, word, place):
        line, applies = getattr(self, word)(place)
        self.steps.append(line + "\n")
        self.skipped += not applies

    def send(self, _):
        request = self.client.next()
        self.sent.append(request)
        return f"send c1.example f1.example {request.octets()}", True

    def deliver(self, place):
        applies = place < len(self.sent)
        if applies:
            self.queue.append(self.sent.pop(place))
        return f"deliver c1.example f1.example {place}", applies

    def pick(self, worker):
        applies = worker < 2 and self.jobs[worker] is None and bool(self.queue)
        if applies:
            self.jobs[worker] = self.queue.pop(0)
        return f"pick f1.example {worker}", applies

    def charge(self, worker):
        applies = worker < 2 and self.jobs[worker] is not None and self.answers[worker] is None
        self.moment += 1 + self.client.dice.below(2000)
        if applies:
            self.answers[worker] = self.jobs[worker].answer(self.book.take(self.jobs[worker]))
        return f"charge f1.example {worker} {self.moment}", applies

    def emit(self, worker):
        applies = worker < 2 and self.answers[worker] is not None
        if applies:
            self.back.append(self.answers[worker])
            self.jobs[worker] = self.answers[worker] = None
        return f"emit f1.example {worker}", applies

    def home(self, place):
        applies = place < len(self.back)
        if applies:
            self.received.append(self.back.pop(place))
        return f"deliver f1.example c1.example {place}", applies

    def next_steps(self):
        """The steps that apply, and keep the front's queue short: words, each with its places."""
        idle = [worker for worker in (0, 1) if self.jobs[worker] is None and self.queue]
        charged = [worker for worker in (0, 1) if self.answers[worker] is not None]
        uncharged = [worker for worker in (0, 1) if self.jobs[worker] is not None and worker not in charged]
        places = {"send": [0] if len(self.sent) < WAITING and self.client.left else [],
                  "deliver": list(range(len(self.sent))) if len(self.queue) < WAITING else [],
                  "pick": idle, "charge": uncharged, "emit": charged, "home": list(range(len(self.back)))}
        return {word: found for word, found in places.items() if found}

    def output(self):
        yield from (f"recv c1.example 1 {answer}\n" for answer in self.received)
        entries = len(self.book.kept)
        yield f"end steps {len(self.steps)} skipped {self.skipped} entries {entries}\n"
        yield f"entries {entries} open {len(self.book.sessions)}\n"
        for place, balance in enumerate(self.book.balances):
            yield f"account 0 49170000000{place + 1} balance {balance} reserved {self.book.reserved(place)}\n"


def played(requests, sessions, seed):
    """A farm in which so many requests were sent and answered. Now and then a step comes that may not apply."""
    dice = Dice(seed)
    farm = Farm(Client(dice, requests, sessions))
    while steps := farm.next_steps():
        if dice.one_in(25):
            farm.step(dice.one_of(["deliver", "pick", "charge", "emit", "home"]), dice.below(8))
        else:
            word = dice.one_of(sorted(steps))
            farm.step(word, dice.one_of(steps[word]))
    return farm


def main(folder):
    farm = played(REQUESTS, SESSIONS, 116)
    with open(f"{folder}/sessions-at-random.schedule", "w") as out:
        out.writelines(farm.steps)
    with open(f"{folder}/sessions-at-random.out", "w") as out:
        out.writelines(farm.output())


if __name__ == "__main__":
    main(sys.argv[1] if len(sys.argv) > 1 else ".")
