"""The accounts, the open sessions, and the replies that are kept (RFC 8506, sections 5, 6 and 8).

What the RFC leaves open is this farm's choice:

- A service is named by its Rating-Group and the first of its Service-Identifiers.
- What an account has free is its balance less what is reserved of it, in all its sessions.
- A service that is settled loses its reservation and pays what was used in full, below zero too; all services of a
  request do so before the first is granted anew. What was used costs what it did at the last grant of that service in
  that session, and else what it costs now. A grant reserves what it costs. Where not all can be paid, the blocks
  that can be paid are granted, and are the last; where that is none, the service is answered 4012.
- A service of the command itself, without Multiple-Services-Credit-Control, gives the command its result; a session
  opens with 2001 alone.
- The first request with a Session-Id and a CC-Request-Number settles what is answered to all later ones: those that ask
  the same in all that is read get the same reply, and all others 5012 and nothing else.
- A session is due twice its validity after the moment of its last entry that is no EVENT, whatever its outcome and
  however moments run. A sweep ends the sessions that are due at its moment, with what they hold. It is an entry where
  it ends one, and does nothing where there is no room for that entry.
- A change of the terms is an entry: accounts join with their openings, accounts close and open again, and tariffs hold from then
  on. It moves no balance and nothing that is held. A closed account has no name: a request goes to the next Subscription-Id, or
  is answered 5030. Its open sessions go on to pay what was used; what they ask is answered 4012.
"""
from dataclasses import dataclass

from credit_control import (CHECK_BALANCE, CREDIT_LIMIT_REACHED, EVENT, INITIAL, PRICE_ENQUIRY, RATING_FAILED,
                            REFUND_ACCOUNT, SUCCESS, TERMINATION, UNABLE_TO_COMPLY, UNKNOWN_SESSION_ID, UPDATE,
                            USER_UNKNOWN, Reply, ServiceReply)

# The greatest Value-Digits.
DIGITS_LIMIT = 2**63 - 1


class Full(Exception):
    """The history has as many entries as the site allows."""


@dataclass
class Session:
    """`held` has what is reserved for each name of a service, `prices` the tariff of its last grant; `deadline` is a
    moment, in milliseconds."""

    account: tuple
    held: dict
    prices: dict
    deadline: int = 0


class Book:
    """`kept` has a request and its reply for each Session-Id and CC-Request-Number; these, the sweeps that ended sessions
    and the changes of the terms are the entries of the history."""

    def __init__(self, site):
        self.site, self.balances, self.sessions, self.kept = site, dict(site.accounts), {}, {}
        self.openings = dict(site.accounts)
        self.closed = set()
        self.tariffs = site.group_tariffs, site.ident_tariffs
        self.sweeps = self.changes = 0

    @property
    def entries(self):
        return len(self.kept) + self.sweeps + self.changes

    def reserved(self, account):
        return sum(sum(it.held.values()) for it in self.sessions.values() if it.account == account)

    def free(self, account):
        return self.balances[account] - self.reserved(account)

    def take(self, request, moment):
        """The reply to a request: the one that is kept for it, or that of a new entry of this moment. Raises Full."""
        key = request.session, request.number
        if key not in self.kept:
            if self.entries >= self.site.limit:
                raise Full
            turns = {INITIAL: self.initial, UPDATE: self.update, TERMINATION: self.termination, EVENT: self.event}
            self.kept[key] = request, turns[request.kind](request)
            if request.session in self.sessions and request.kind != EVENT:
                self.sessions[request.session].deadline = moment + 2 * 1000 * self.site.validity
        return self.kept_reply(request)

    def kept_reply(self, request):
        """The reply to a request whose Session-Id and CC-Request-Number are kept; None to another one."""
        taken, reply = self.kept.get((request.session, request.number), (None, None))
        return reply if taken in (None, request) else Reply(UNABLE_TO_COMPLY)

    def sweep(self, moment):
        """Ends the sessions that are due at this moment."""
        due = [name for name, session in self.sessions.items() if session.deadline <= moment]
        if due and self.entries < self.site.limit:
            self.sweeps += 1
            for name in due:
                del self.sessions[name]

    def change_terms(self, joining, tariffs, closing=(), reopening=()):
        """Accounts join, each with its opening, close, and open again, and these tariffs hold from now on; none where those stay
        that hold. Nothing changes where nothing is said, where an account is there already or joins twice, where one is to close
        that is not there or closed, where one is to open again that is not closed, where one is named twice for either, and where
        there is no room for the entry."""
        names = [account for account, _ in joining]
        there = len({*names, *self.balances}) < len(names) + len(self.balances)
        twice = any(len(set(them)) < len(them) for them in (closing, reopening))
        strange = any(it not in self.balances or it in self.closed for it in closing) or any(it not in self.closed for it in reopening)
        says_nothing = not names and not closing and not reopening and tariffs is None
        if there or twice or strange or says_nothing or self.entries >= self.site.limit:
            return
        self.changes += 1
        self.balances.update(joining)
        self.openings.update(joining)
        self.closed = self.closed - set(reopening) | set(closing)
        if tariffs is not None:
            self.tariffs = tariffs

    def account_of(self, request):
        return next((it for it in request.subscribers if it in self.balances and it not in self.closed), None)

    def tariff(self, service):
        return self.tariff_named(service.group, service.identifier)

    def tariff_named(self, rating_group, identifier):
        """The tariff of a service that holds now, by its Rating-Group where it has one, or None."""
        by_group, by_ident = self.tariffs
        return by_ident.get(identifier) if rating_group is None else by_group.get(rating_group)

    def initial(self, request):
        if request.session in self.sessions:
            return Reply(UNABLE_TO_COMPLY)
        account = self.account_of(request)
        if account is None:
            return Reply(USER_UNKNOWN)
        self.sessions[request.session] = Session(account, {}, {})
        reply = self.settled(request)
        if reply.code != SUCCESS:
            del self.sessions[request.session]
        return reply

    def update(self, request):
        return self.settled(request) if request.session in self.sessions else Reply(UNKNOWN_SESSION_ID)

    def termination(self, request):
        reply = self.update(request)
        self.sessions.pop(request.session, None)
        return reply

    def settled(self, request):
        session = self.sessions[request.session]
        for service in request.services:
            session.held.pop(service.name, None)
            tariff = session.prices.get(service.name) or self.tariff(service)
            if tariff:
                self.balances[session.account] -= tariff.cost(service.used[tariff.unit])
        replies = tuple(self.granted(session, request, service) for service in request.services)
        bare = next((reply for reply in replies if reply.bare), None)
        return Reply(bare.code if bare else SUCCESS, replies)

    def granted(self, session, request, service):
        """What a service of a session is answered, with a grant where one is asked and can be paid."""
        tariff = self.tariff(service)
        if tariff is None:
            return ServiceReply(*service.name, service.bare, RATING_FAILED)
        if service.asked is None or request.kind == TERMINATION:
            return ServiceReply(*service.name, service.bare, SUCCESS)
        if session.account in self.closed:
            return ServiceReply(*service.name, service.bare, CREDIT_LIMIT_REACHED)
        units, last = tariff.grant(self.free(session.account), asked_units(service, tariff))
        if last and units == 0:
            return ServiceReply(*service.name, service.bare, CREDIT_LIMIT_REACHED)
        session.held[service.name], session.prices[service.name] = tariff.cost(units), tariff
        return ServiceReply(*service.name, service.bare, SUCCESS, tariff.unit, units, self.site.validity, last)

    def event(self, request):
        account = self.account_of(request)
        if account is None and request.action != PRICE_ENQUIRY:
            return Reply(USER_UNKNOWN)
        tariffs = [self.tariff(service) for service in request.services]
        if not tariffs or None in tariffs:
            return Reply(RATING_FAILED)
        asked = [asked_units(*pair) for pair in zip(request.services, tariffs)]
        total = sum(tariff.cost(units or 0) for tariff, units in zip(tariffs, asked))
        if request.action == PRICE_ENQUIRY:
            return Reply(SUCCESS, cost=total) if total <= DIGITS_LIMIT else Reply(RATING_FAILED)
        if request.action == CHECK_BALANCE:
            return Reply(SUCCESS, check=0 if total <= self.free(account) else 1)
        if request.action == REFUND_ACCOUNT:
            self.balances[account] += total
            return Reply(SUCCESS)
        if total > self.free(account):
            return Reply(CREDIT_LIMIT_REACHED)
        self.balances[account] -= total
        shown = [ServiceReply(*service.name, service.bare, SUCCESS, tariff.unit, units)
                 for service, tariff, units in zip(request.services, tariffs, asked)]
        return Reply(SUCCESS, tuple(shown))

    def report(self):
        yield f"entries {self.entries} open {len(self.sessions)}\n"
        for (kind, subscriber), balance in self.balances.items():
            reserved = self.reserved((kind, subscriber))
            yield f"account {kind} {subscriber} balance {balance} reserved {reserved}\n"


def asked_units(service, tariff):
    """The units that a service asks for, None where it asks nothing; the tariff's quantum where no count is there."""
    return None if service.asked is None else service.asked.get(tariff.unit, tariff.quantum)
