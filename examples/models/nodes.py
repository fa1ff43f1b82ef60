"""The nodes of the farm: clients, fronts and relays (RFC 6733, section 6).

Each has the calls `conn_up`, `on_message` and `conn_lost`, fronts and relays also `restart`. What a node sends comes
back from a call as a list of pairs, each of a connection's number and a message.
"""
from dataclasses import dataclass, replace

from book import Full
from credit_control import Refused, credit_control_answer, request_under
from diameter import (APPLICATION_UNSUPPORTED, COMMAND_UNSUPPORTED, DESTINATION_HOST, DESTINATION_REALM,
                      INVALID_AVP_LENGTH, LOOP_DETECTED, MESSAGE_LIMIT, PROXIABLE, REALM_NOT_SERVED, RETRANSMITTED,
                      ROUTE_RECORD, TOO_BUSY, UNABLE_TO_DELIVER, NoList, first, refusal, split, text)
from site_data import CLIENT

PENDING_LIMIT = 16_384


class Client:
    """Keeps what it receives."""

    def __init__(self, name, received):
        self.name, self.received = name, received

    def conn_up(self, peer, conn):
        pass

    def on_message(self, conn, message):
        self.received.append((self.name, conn, message))
        return []

    def conn_lost(self, conn):
        return []


@dataclass
class Job:
    """A request that a worker holds, and its answer once there is one."""

    conn: int
    request: object
    answer: object = None


class Front:
    """Answers requests: a queue, and workers that take from it, charge and answer."""

    def __init__(self, name, site, book):
        self.name, self.site, self.book = name, site, book
        self.restart()

    def restart(self):
        self.connections, self.queue, self.workers = set(), [], [None] * self.site.workers

    def conn_up(self, peer, conn):
        self.connections.add(conn)

    def conn_lost(self, conn):
        """What is queued stays: it may still be charged, and its answer goes nowhere."""
        self.connections.discard(conn)
        return []

    def on_message(self, conn, message):
        if not message.is_request:
            return []
        if len(self.queue) >= self.site.queue:
            return [(conn, self.refusal(message, TOO_BUSY))]
        self.queue.append((conn, message))
        return []

    def refusal(self, message, code, failed=None):
        return refusal(self.name, self.site.realm, message, code, failed)

    def job(self, worker):
        return self.workers[worker] if worker < len(self.workers) else None

    def can_pick(self, worker):
        return worker < len(self.workers) and self.workers[worker] is None and bool(self.queue)

    def can_answer(self, worker):
        """Whether this worker has a request without an answer."""
        return self.job(worker) is not None and self.job(worker).answer is None

    def can_emit(self, worker):
        return self.job(worker) is not None and self.job(worker).answer is not None

    def pick(self, worker):
        self.workers[worker] = Job(*self.queue.pop(0))

    def charge(self, worker, moment):
        message = self.workers[worker].request
        try:
            request = request_under(message, self.site.profile)
            answer = credit_control_answer(self.name, self.site, message, request, self.book.take(request, moment))
        except Refused as fault:
            answer = self.refusal(message, fault.code, fault.failed)
        except Full:
            answer = self.refusal(message, TOO_BUSY)
        self.workers[worker].answer = answer

    def refuse(self, worker):
        self.workers[worker].answer = self.refusal(self.workers[worker].request, TOO_BUSY)

    def emit(self, worker):
        job, self.workers[worker] = self.workers[worker], None
        return [(job.conn, job.answer)] if job.conn in self.connections else []


@dataclass
class Pending:
    """A request as a relay sent it; `origin` is the connection that it came on and its identifier there, or None."""

    origin: tuple | None
    request: object


def folded(name):
    """Identities and realms are compared whole, without ASCII case: names of this site, or values of AVPs."""
    return (name.encode() if isinstance(name, str) else name).lower()


class Refusing(Exception):
    """A relay does not forward a request, but answers it with this code."""

    def __init__(self, code, failed=None):
        super().__init__(code)
        self.code, self.failed = code, failed


class Relay:
    """Forwards requests and matches answers to them.

    `choose` gives a Hop-by-Hop Identifier for a request that goes out: it is handed those in use on the connection, and
    the one that the request had on a lost connection or None.
    """

    def __init__(self, name, site, choose):
        self.name, self.site, self.choose = name, site, choose
        self.linked = {folded(peer): (peer, kind) for peer, kind in site.links_of(name).items()}
        self.routes = {(folded(realm), application): peers
                       for (at, realm, application), peers in site.routes.items() if at == name}
        self.restart()

    def restart(self):
        self.up, self.pending = {}, {}

    def conn_up(self, peer, conn):
        self.up[peer] = conn

    def on_message(self, conn, message):
        return self.on_request(conn, message) if message.is_request else self.on_answer(conn, message)

    def on_answer(self, conn, message):
        pending = self.settled(conn, message.hop)
        return self.to_origin(pending, message) if pending else []

    def settled(self, conn, hop):
        """The request that was pending there, if any, is so no more."""
        return self.pending.pop((conn, hop), None)

    @staticmethod
    def to_origin(pending, answer):
        if pending.origin is None:
            return []
        conn, hop = pending.origin
        return [(conn, replace(answer, hop=hop))]

    def on_request(self, conn, message):
        try:
            avps = self.accepted(conn, message)
            peer = self.candidate(message, avps + split(self.route_record(conn)))
            if len(self.pending) >= PENDING_LIMIT:
                raise Refusing(TOO_BUSY)
        except Refusing as fault:
            return [(conn, self.refusal(message, fault))]
        request = replace(message, body=message.body + self.route_record(conn))
        return [self.forward(self.up[peer], (conn, message.hop), request)]

    def refusal(self, message, fault):
        return refusal(self.name, self.site.realm, message, fault.code, fault.failed)

    def route_record(self, conn):
        """The Route-Record that names the peer at the other end of a connection."""
        return text(ROUTE_RECORD, next(peer for peer, known in self.up.items() if known == conn)).octets()

    def accepted(self, conn, message):
        """The AVPs of a request that this relay may forward, if there is a peer for it."""
        try:
            avps = split(message.body)
        except NoList as fault:
            raise Refusing(INVALID_AVP_LENGTH, fault.failed) from None
        if any(avp.has_code(ROUTE_RECORD) and folded(avp.value) == folded(self.name) for avp in avps):
            raise Refusing(LOOP_DETECTED)
        if not message.flags & PROXIABLE:
            raise Refusing(COMMAND_UNSUPPORTED)
        host, realm = first(avps, DESTINATION_HOST), first(avps, DESTINATION_REALM)
        if host and not realm:
            raise Refusing(UNABLE_TO_DELIVER)
        if not realm or host and folded(host.value) == folded(self.name):
            raise Refusing(APPLICATION_UNSUPPORTED)
        if message.length + len(self.route_record(conn)) > MESSAGE_LIMIT:
            raise Refusing(UNABLE_TO_DELIVER)
        return avps

    def candidate(self, message, avps):
        """The first peer that is up of those that may get a request, and that none of its Route-Records names.

        The AVPs are those of the request as it goes out.
        """
        host = first(avps, DESTINATION_HOST)
        peer, kind = self.linked.get(folded(host.value), (None, None)) if host else (None, None)
        if kind == CLIENT:
            raise Refusing(UNABLE_TO_DELIVER)
        peers = [peer] if peer else self.routed(first(avps, DESTINATION_REALM).value, message.application)
        passed = {folded(avp.value) for avp in avps if avp.has_code(ROUTE_RECORD)}
        found = next((peer for peer in peers if peer in self.up and folded(peer) not in passed), None)
        if found is None:
            raise Refusing(UNABLE_TO_DELIVER)
        return found

    def routed(self, realm, application):
        realm = folded(realm)
        if not any(known == realm for known, _ in self.routes):
            raise Refusing(REALM_NOT_SERVED)
        if (realm, application) not in self.routes:
            raise Refusing(UNABLE_TO_DELIVER)
        return self.routes[realm, application]

    def forward(self, conn, origin, request, old=None):
        hop = self.identifier(conn, old)
        request = replace(request, hop=hop)
        self.pending[conn, hop] = Pending(origin, request)
        return conn, request

    def identifier(self, conn, old):
        return self.choose({hop for known, hop in self.pending if known == conn}, old)

    def conn_lost(self, conn):
        """Requests that came on the connection lose their origin; those sent on it go out again, or are answered."""
        self.up = {peer: known for peer, known in self.up.items() if known != conn}
        for pending in self.pending.values():
            if pending.origin and pending.origin[0] == conn:
                pending.origin = None
        sent = sorted(hop for known, hop in self.pending if known == conn)
        return [out for hop in sent for out in self.again(hop, self.settled(conn, hop))]

    def again(self, hop, pending):
        if pending.origin is None:
            return []
        try:
            peer = self.candidate(pending.request, split(pending.request.body))
        except Refusing as fault:
            return self.to_origin(pending, self.refusal(pending.request, fault))
        request = replace(pending.request, flags=pending.request.flags | RETRANSMITTED)
        return [self.forward(self.up[peer], pending.origin, request, hop)]


HIGHEST_BIT = 2**31

# How many identifiers that follow one another differ in their low bits.
PLACES = 2**15


class RisingRelay(Relay):
    """A relay that chooses identifiers as the program does: they rise by one, for all connections together.

    The highest bit is set. One whose low bits a pending request has is passed over. A request that goes out again keeps
    its own, and a restart goes on from where it was.
    """

    def __init__(self, name, site):
        self.count = 0
        super().__init__(name, site, choose=None)

    def number_from(self, start):
        """Identifiers rise from another start from now on."""
        self.count = start % HIGHEST_BIT

    def identifier(self, _conn, old):
        if old is not None:
            return old
        taken = {hop % PLACES for _, hop in self.pending}
        while self.count % PLACES in taken:
            self.count += 1
        self.count += 1
        return HIGHEST_BIT + (self.count - 1) % HIGHEST_BIT
