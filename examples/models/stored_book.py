#!/usr/bin/env python3
"""A book on disk over the row site, worked out from the rules alone (docs/BOOK.md, docs/DEFINITIONS.md).

    stored_book.py [changed] TASK ..    of a book whose terms change, where the first word says so
    stored_book.py fill FILE [MORE [LATER]]
                                        writes entries of each kind into a book without one, which `farm book create` made, and
                                        so many debits behind them, all so many milliseconds later
    stored_book.py changed fill-twice FILE
                                        writes these, and behind them the first change once more
    stored_book.py check|summary|report|export FILE [MORE]
                                        prints what `farm book` must print of it, with a line more where the row site has other terms, or
                                        without it, as behind a backup
    stored_book.py near FILE [MORE]     prints what `check` must print where the book can have as many entries as it has
    stored_book.py rows FILE            prints what stands in the file, a line for each row of both tables
    stored_book.py identity FILE        prints which book it is
    stored_book.py harm FILE PLACE      changes the moment of the row at a place
    stored_book.py cut FILE             takes the last row away

It reads and writes the file by SQLite itself, and shares nothing with the program.
"""
import sqlite3
import sys

import stored_rows as rows
from book import Book
from credit_control import (CHECK_BALANCE, DIRECT_DEBITING, EVENT, INITIAL, PRICE_ENQUIRY, REFUND_ACCOUNT, TERMINATION,
                            UPDATE, Request, Service)
from row_site import CC_TOTAL_OCTETS, ROW_SITE
from site_data import Tariff

# Time, octets, and service-specific units.
COUNTS = 420, CC_TOTAL_OCTETS, 417
UNITS = "time", "octets", "units"
TYPES = {INITIAL: "initial", UPDATE: "update", TERMINATION: "termination", EVENT: "event"}
ACTIONS = {None: "-", DIRECT_DEBITING: "direct-debiting", REFUND_ACCOUNT: "refund-account", CHECK_BALANCE: "check-balance",
           PRICE_ENQUIRY: "price-enquiry"}

# ---- a history with an entry of each kind

# Whether the terms change in it.
CHANGED = False

FIRST, SECOND = [(0, "491700000001")], [(0, "491700000002")]


def of(asked, used=0):
    asked = None if asked is None else {CC_TOTAL_OCTETS: asked}
    return Service(10, None, asked, {code: used if code == CC_TOTAL_OCTETS else 0 for code in COUNTS})


def event(number, action, subscribers, asked):
    return Request("c1;1;1", number, EVENT, action, subscribers, [of(asked)])


# The moment of each entry with its request; none at a look at the clock, two times 600 seconds behind the last request of
# the session.
STORY = [
    (1_000, event(0, DIRECT_DEBITING, FIRST, 3200)),
    (2_000, Request("c1;2", 0, INITIAL, None, FIRST, [of(3200)])),
    (3_000, Request("c1;2", 1, UPDATE, None, [], [of(4000, 3200)])),
    (4_000, Request('c1 "3"\n%é', 7, TERMINATION, None, [], [])),
    (5_000, event(1, CHECK_BALANCE, SECOND, 3200)),
    (6_000, event(2, PRICE_ENQUIRY, [], 3200)),
    (7_000, event(3, REFUND_ACCOUNT, SECOND, 1000)),
    (1_203_000, None),
]


class Change:
    """A change of the terms: the accounts that join, with their openings, those that close, those that open again, and the tariffs
    of Rating-Groups, none where those stay that hold."""

    def __init__(self, joining, tariffs=None, closing=(), reopening=()):
        self.joining, self.tariffs, self.closing, self.reopening = joining, tariffs, closing, reopening


SIXTH = [(0, "491700000006")]
DEARER = Tariff(CC_TOTAL_OCTETS, block=1000, price=7, quantum=5000, greatest=10_000)

# Four changes behind it: an account is refused, joins, and is charged; a session is granted at 5 a block, pays that when 7 holds, is granted
# at 7 and pays that; the first account closes with a session open, which pays what it used and is granted nothing, and opens again.
CHANGES = [
    (1_204_000, event(10, DIRECT_DEBITING, SIXTH, 3200)),
    (1_205_000, Change({SIXTH[0]: 50, (1, 'a "%'): -3})),
    (1_206_000, event(11, DIRECT_DEBITING, SIXTH, 3200)),
    (1_207_000, Request("c1;4", 0, INITIAL, None, FIRST, [of(3200)])),
    (1_208_000, Change({}, {10: DEARER})),
    (1_209_000, Request("c1;4", 1, UPDATE, None, [], [of(4000, 3200)])),
    (1_210_000, event(12, DIRECT_DEBITING, SECOND, 1000)),
    (1_211_000, Request("c1;4", 2, TERMINATION, None, [], [of(None, 2500)])),
    (1_212_000, Request("c1;5", 0, INITIAL, None, FIRST, [of(3200)])),
    (1_213_000, Change({}, closing=FIRST)),
    (1_214_000, Request("c1;5", 1, UPDATE, None, [], [of(4000, 1000)])),
    (1_215_000, event(13, DIRECT_DEBITING, FIRST, 1000)),
    (1_216_000, Change({(1, "7"): 0}, closing=[(1, 'a "%')], reopening=FIRST)),
    (1_217_000, event(14, DIRECT_DEBITING, FIRST, 1000)),
]


class Entry:
    """An entry as the book takes it: the account that it charges, its debit and its reply, none of them at a sweep or a change of
    the terms."""

    def __init__(self, book, place, moment, request):
        self.place, self.moment, self.request = place, moment, request
        if request is None:
            book.sweep(moment)
            return
        if isinstance(request, Change):
            book.change_terms(list(request.joining.items()), request.tariffs and (request.tariffs, {}), request.closing, request.reopening)
            return
        opener = book.sessions[request.session].account if request.session in book.sessions else None
        self.account = opener if request.kind in (UPDATE, TERMINATION) else book.account_of(request)
        before = sum(book.balances.values())
        self.reply = book.take(request, moment)
        self.debit = before - sum(book.balances.values())
        # A row has what each service counts, also where the answer does not show it.
        rated = [book.tariff(it) for it in self.reply.services]
        self.units = [tariff.unit if tariff else None for tariff in rated]


def history(more=0, later=0):
    """The entries of the story and of so many debits behind it, at later moments, and the book behind them."""
    story = STORY + (CHANGES if CHANGED else [])
    book, last = Book(ROW_SITE), story[-1][0]
    debits = [(last + number, event(1000 + number, DIRECT_DEBITING, FIRST, 1)) for number in range(more)]
    return [Entry(book, place, later + moment, request) for place, (moment, request) in enumerate(story + debits)], book


# ---- as rows


def tariffs_of(change):
    """Group, ident, the number of what its units are, block, price, quantum and greatest of each tariff."""
    return [(group, None, COUNTS.index(it.unit), it.block, it.price, it.quantum, it.greatest) for group, it in change.tariffs.items()]


def step_of(entry):
    if entry.request is None:
        return b"\0"
    if isinstance(entry.request, Change):
        change = entry.request
        return rows.changed([rows.account(kind, text.encode(), opening) for (kind, text), opening in change.joining.items()],
                            change.tariffs and [rows.tariff(*words) for words in tariffs_of(change)],
                            *([rows.subscription(kind, text.encode()) for kind, text in them] for them in (change.closing, change.reopening)))
    request, reply = entry.request, entry.reply
    services = [rows.service(*service.name, service.bare,
                             None if service.asked is None else [service.asked.get(code) for code in COUNTS],
                             [service.used[code] for code in COUNTS]) for service in request.services]
    asked = rows.request(request.session.encode(), request.number, request.kind, request.action,
                         [(kind, text.encode()) for kind, text in request.subscribers], services)
    answered = rows.reply(reply.code, [rows.service_reply(it.group, it.identifier, it.bare, it.code, unit, it.granted, it.validity, it.last)
                                       for it, unit in zip(reply.services, entry.units)],
                          None if reply.cost is None else (reply.cost, ROW_SITE.exponent, ROW_SITE.currency), reply.check)
    return rows.taken(asked, answered, entry.debit)


def stored(entries):
    """The octets of each row."""
    made, before = [], bytes(16)
    for entry in entries:
        made.append(rows.chained(before, entry.place, entry.moment, step_of(entry)))
        before = made[-1][-16:]
    return made


# ---- as lines


def optional(value):
    return "-" if value is None else str(value)


def quoted(text):
    octets = text.encode()
    return '"' + "".join(chr(octet) if 32 < octet < 127 and octet not in b'"%' else f"%{octet:02X}" for octet in octets) + '"'


def line_of_change(change):
    words = [f" accounts {len(change.joining)}"]
    words += [f"account {kind} {quoted(text)} opening {opening}" for (kind, text), opening in change.joining.items()]
    words += [f"account {kind} {quoted(text)} {said}" for said, them in (("closed", change.closing), ("open", change.reopening))
              for kind, text in them]
    words += ["tariffs", "-" if change.tariffs is None else str(len(change.tariffs))]
    for group, ident, kind, *numbers in tariffs_of(change) if change.tariffs else []:
        words += ["tariff", optional(group), optional(ident), UNITS[kind], *map(str, numbers)]
    return " ".join(words)


def line_of(entry):
    head = f"entry {entry.place} moment {entry.moment}"
    request = entry.request
    if request is None:
        return f"{head} sweep"
    if isinstance(request, Change):
        return f"{head} change{line_of_change(request)}"
    account = f'{entry.account[0]} {quoted(entry.account[1])}' if entry.account else "- -"
    reply = entry.reply
    words = [f"{head} charge session {quoted(request.session)} number {request.number}",
             f"type {TYPES[request.kind]} action {ACTIONS[request.action]} account {account} debit {entry.debit}",
             f"result {reply.code} cost {'-' if reply.cost is None else f'{reply.cost}e{ROW_SITE.exponent}'} check {optional(reply.check)}"]
    for it in request.services:
        asked = [None] * 3 if it.asked is None else [it.asked.get(code) for code in COUNTS]
        words += ["asked", *map(optional, it.name), *map(optional, asked), "used", *(str(it.used[code]) for code in COUNTS)]
    for it in reply.services:
        words += ["granted", optional(it.group), optional(it.identifier), str(it.code), optional(it.granted)]
    return " ".join(words)


# ---- the file


def opened(path):
    file = sqlite3.connect(path)
    file.execute("PRAGMA journal_mode = WAL")
    return file


def fill(path, more=0, later=0):
    made = stored(history(more, later)[0])
    standing = rows.number(len(made), 8) + made[-1][8:16] + made[-1][-16:]
    with opened(path) as file:
        file.executemany("INSERT INTO entry (rowid, octets) VALUES (?, ?)", enumerate(made))
        file.execute("UPDATE book SET octets = ? WHERE rowid = 1", (standing,))
        # the next opening writes what stands beside the entries
        file.execute("DELETE FROM account")
        file.execute("DELETE FROM session")
    file.close()


def harm(path, place):
    with opened(path) as file:
        octets, = file.execute("SELECT octets FROM entry WHERE rowid = ?", (place,)).fetchone()
        file.execute("UPDATE entry SET octets = ? WHERE rowid = ?", (octets[:15] + bytes([octets[15] ^ 1]) + octets[16:], place))
    file.close()


def owe(path, place):
    with opened(path) as file:
        file.execute("UPDATE account SET balance = CAST('-1' AS BLOB) WHERE rowid = ?", (place,))
    file.close()


def forget(path):
    with opened(path) as file:
        file.execute("DELETE FROM session WHERE rowid = (SELECT max(rowid) FROM session)")
    file.close()


def cut(path):
    with opened(path) as file:
        file.execute("DELETE FROM entry WHERE rowid = (SELECT max(rowid) FROM entry)")
    file.close()


def identity_of(path):
    with sqlite3.connect(f"file:{path}?mode=ro&immutable=1", uri=True) as file:
        about, = file.execute("SELECT octets FROM book WHERE rowid = 0").fetchone()
    file.close()
    return about[4:20].hex()


def rows_in(path):
    with sqlite3.connect(f"file:{path}?mode=ro&immutable=1", uri=True) as file:
        for table in ("book", "entry"):
            for place, octets in file.execute(f"SELECT rowid, octets FROM {table} ORDER BY rowid"):
                yield f"{table} {place} {octets.hex()}"
    file.close()


def balances_in(path):
    with sqlite3.connect(f"file:{path}?mode=ro", uri=True) as file:
        for place, balance in file.execute("SELECT rowid, CAST(balance AS TEXT) FROM account ORDER BY rowid"):
            yield f"{place} balance {balance}"
    file.close()


def balances(_, more=0):
    """The balances of a report, by the places of their accounts."""
    lines = [line.split() for line in report(_, more) if line.startswith("account ")]
    return [f"{place} balance {words[words.index('balance') + 1]}" for place, words in enumerate(lines)]


def identity(path):
    yield identity_of(path)


def summary(path, more=0):
    entries, _ = history(more)
    charges = sum(isinstance(entry.request, Request) for entry in entries)
    sweeps = sum(entry.request is None for entry in entries)
    changes = len(entries) - charges - sweeps
    yield f"book {identity_of(path)}"
    yield f"entries {len(entries)} charges {charges} sweeps {sweeps}" + (f" changes {changes}" if changes else "")
    yield f"last {entries[-1].moment}"
    yield f"sum {stored(entries)[-1][-16:].hex()}"


def difference():
    """The line of a site, the row site, whose tariffs do not hold behind the story; its accounts are all there."""
    groups, idents = history()[1].tariffs
    if (groups, idents) != (ROW_SITE.group_tariffs, ROW_SITE.ident_tariffs):
        back = Change({}, ROW_SITE.group_tariffs)
        yield "look: the site has other terms:" + line_of_change(back)


def check(path, more=0):
    yield from summary(path, more)
    yield from difference()


def near(path, more=0):
    yield from summary(path, more)
    entries = len(history(more)[0])
    yield f"look: the book is nearly full: {entries} of {entries} entries"


def report(_, more=0):
    return "".join(history(more)[1].report()).splitlines()


def export(_, more=0):
    return map(line_of, history(more)[0])


def main():
    global CHANGED
    CHANGED = sys.argv[1:2] == ["changed"]
    task, path, *more = sys.argv[2:] if CHANGED else sys.argv[1:]
    if task == "fill-twice":
        CHANGES.append((1_218_000, CHANGES[1][1]))
        task = "fill"
    if task in ("fill", "harm", "cut", "owe", "forget"):
        {"fill": fill, "harm": harm, "cut": cut, "owe": owe, "forget": forget}[task](path, *map(int, more))
    else:
        tasks = {"identity": identity, "check": check, "summary": summary, "near": near, "report": report, "export": export, "rows": rows_in, "balances": balances}
        tasks["balances-in"] = balances_in
        print(*tasks[task](path, *map(int, more)), sep="\n")


if __name__ == "__main__":
    main()
