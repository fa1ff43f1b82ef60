#!/usr/bin/env python3
"""What the end of crates/pool_samples/stdout must have, its part `stored`: python3 examples/models/stored_rows.py.

Rows of a stored book as octets, stores of them, crashes and damage, worked out from the rules alone (docs/DEFINITIONS.md,
book_rows and book_store). It shares nothing with the program.
"""
import hashlib

WRONG = "the row at place {} is not the one that was written"
ELSEWHERE = "the book does not stand where its rows say"
DAMAGED = "the row at place {} is damaged or missing"

# ---- spelling


def number(value, octets):
    return value.to_bytes(octets, "big")


def flag(value):
    return b"\1" if value else b"\0"


def optional(value, octets):
    return b"\0" if value is None else b"\1" + number(value, octets)


def text(octets):
    return number(len(octets), 8) + octets


def signed(value):
    return flag(value < 0) + number(-1 - value if value < 0 else value, 16)


def listed(items):
    return number(len(items), 8) + b"".join(items)


def service(group, ident, bare, asked, used):
    counts = b"\0" if asked is None else b"\1" + b"".join(optional(count, 8) for count in asked)
    return optional(group, 4) + optional(ident, 4) + flag(bare) + counts + b"".join(number(total, 16) for total in used)


def request(session, count, kind, action, subscriptions, services):
    return (text(session) + number(count, 4) + number(kind, 1) + optional(action, 1)
            + listed([subscription(*it) for it in subscriptions]) + listed(services))


def service_reply(group, ident, bare, code, unit, granted, validity, last):
    return (optional(group, 4) + optional(ident, 4) + flag(bare) + number(code, 4) + optional(unit, 4)
            + optional(granted, 8) + optional(validity, 4) + flag(last))


def reply(code, services=(), cost=None, check=None):
    price = b"\0" if cost is None else b"\1" + signed(cost[0]) + signed(cost[1]) + number(cost[2], 4)
    return number(code, 4) + listed(list(services)) + price + optional(check, 4)


def taken(asked, answered, debit):
    return b"\1" + asked + answered + signed(debit)


def account(kind, owner, opening):
    return number(kind, 4) + text(owner) + signed(opening)


def tariff(group, ident, kind, block, price, quantum, greatest):
    return (optional(group, 4) + optional(ident, 4) + number(kind, 1)
            + b"".join(number(it, 8) for it in (block, price, quantum, greatest)))


def subscription(kind, owner):
    return number(kind, 4) + text(owner)


def changed(joining, tariffs, closing=(), reopening=()):
    return (b"\2" + listed(joining) + listed(list(closing)) + listed(list(reopening))
            + (b"\0" if tariffs is None else b"\1" + listed(tariffs)))


def chained(before, place, moment, step):
    body = number(place, 8) + number(moment, 8) + step
    return body + hashlib.sha256(before + body).digest()[:16]


# ---- reading: the first fault from the left

CODES = {2001, 3001, 3002, 3003, 3004, 3005, 3007, 4012, 5001, 5002, 5004, 5005, 5009, 5010, 5012, 5014, 5030, 5031}


class Fault(Exception):
    pass


class Reader:
    def __init__(self, octets):
        self.octets = octets

    def take(self, count):
        if len(self.octets) < count:
            raise Fault("Short")
        front, self.octets = self.octets[:count], self.octets[count:]
        return front

    def number(self, octets):
        return int.from_bytes(self.take(octets), "big")

    def flag(self, fault="BadFlag"):
        value = self.number(1)
        if value > 1:
            raise Fault(fault)
        return value == 1

    def optional(self, read):
        return read() if self.flag() else None

    def signed(self):
        below = self.flag()
        size = self.number(16)
        if size >= 2 ** 127:
            raise Fault("OutOfRange")
        return -1 - size if below else size

    def text(self):
        return self.take(self.number(8))

    def listed(self, read):
        return [read() for _ in range(self.number(8))]

    def one_of(self, octets, known, fault):
        value = self.number(octets)
        if value not in known:
            raise Fault(fault)
        return value

    def service(self):
        name = (self.optional(lambda: self.number(4)), self.optional(lambda: self.number(4)))
        self.flag()
        self.optional(lambda: [self.optional(lambda: self.number(8)) for _ in range(3)])
        return name, [self.number(16) for _ in range(3)]

    def request(self):
        self.text()
        self.number(4)
        self.one_of(1, {1, 2, 3, 4}, "UnknownRequestType")
        self.optional(lambda: self.one_of(1, {0, 1, 2, 3}, "UnknownAction"))
        self.listed(lambda: (self.number(4), self.text()))
        services = self.listed(self.service)
        names = [name for name, _ in services]
        if len(services) > 32 or len(set(names)) < len(names) or any(total >= 2 ** 78 for _, used in services for total in used):
            raise Fault("PastLimits")

    def service_reply(self):
        for _ in range(2):
            self.optional(lambda: self.number(4))
        self.flag()
        self.one_of(4, CODES, "UnknownResultCode")
        for octets in (4, 8, 4):
            self.optional(lambda: self.number(octets))
        self.flag()

    def cost(self):
        for bits in (63, 31):
            if not -2 ** bits <= self.signed() < 2 ** bits:
                raise Fault("OutOfRange")
        self.number(4)

    def reply(self):
        self.one_of(4, CODES, "UnknownResultCode")
        self.listed(self.service_reply)
        self.optional(self.cost)
        self.optional(lambda: self.number(4))

    def account(self):
        self.number(4)
        self.text()
        if not -2 ** 63 <= self.signed() < 2 ** 63:
            raise Fault("OutOfRange")

    def tariff(self):
        name = self.optional(lambda: self.number(4)), self.optional(lambda: self.number(4))
        kind = self.one_of(1, {0, 1, 2}, "UnknownKind")
        block, price, *units = (self.number(8) for _ in range(4))
        most = 2 ** 32 if kind == 0 else 2 ** 63
        sound = any(it is not None for it in name) and 1 <= block <= 2 ** 32 and price <= 2 ** 20
        return sound and all(1 <= it < most for it in units)

    def tariffs(self):
        if not all(self.listed(self.tariff)):
            raise Fault("BadTariffs")

    def row(self):
        place, moment = self.number(8), self.number(8)
        kind = self.one_of(1, {0, 1, 2}, "UnknownKind")
        if kind == 1:
            self.request()
            self.reply()
            self.signed()
        if kind == 2:
            self.listed(self.account)
            for _ in range(2):
                self.listed(lambda: (self.number(4), self.text()))
            self.optional(self.tariffs)
        total = self.take(16)
        if self.octets:
            raise Fault("LeftOver")
        return place, moment, total


def fault_of(octets):
    try:
        Reader(octets).row()
    except Fault as fault:
        return str(fault)
    return "a row"


# ---- a store

def total_of(rows):
    """The last sum, and the first place that is wrong."""
    before = bytes(16)
    for place, octets in enumerate(rows):
        try:
            found, _, total = Reader(octets).row()
        except Fault:
            return None, place
        if found != place or hashlib.sha256(before + octets[:-16]).digest()[:16] != total:
            return None, place
        before = total
    return before, None


def told(rows):
    moment = int.from_bytes(rows[-1][8:16], "big") if rows else 0
    return f"{len(rows)} rows until {moment}, sum {total_of(rows)[0].hex()}"


def checked(rows):
    place = total_of(rows)[1]
    return f"{len(rows)} rows" if place is None else WRONG.format(place)


# ---- what the rows are

OCTETS, TIME, OWNER = 421, 420, [(0, b"491700000001")]
ASKING = service(None, 21, True, [None, 3200, None], [0, 0, 0])
GRANTED = service_reply(None, 21, True, 2001, OCTETS, 3200, 600, False)
STEPS = [
    ("INITIAL", taken(
        request(b"g1;1;1", 0, 1, None, [(0, b"491700000001"), (1, b"262011234567890")],
                [ASKING, service(10, None, False, [60, None, 0], [0, 0, 0])]),
        reply(2001, [GRANTED, service_reply(10, None, False, 4012, TIME, None, None, False)]), 0)),
    ("UPDATE", taken(
        request(b"g1;1;1", 1, 2, None, [], [service(10, 7, False, None, [0, 5, 2 ** 78 - 1])]),
        reply(2001, [service_reply(10, 7, False, 2001, OCTETS, 2 ** 64 - 1, 2 ** 32 - 1, True)]), 2 ** 127 - 1)),
    ("TERMINATION", taken(request(b"", 2 ** 32 - 1, 3, None, [], []), reply(5002), 0)),
    ("DIRECT_DEBITING", taken(request(b"smsc;1;1", 7, 4, 0, OWNER, [ASKING]), reply(2001, [GRANTED]), 20)),
    ("REFUND_ACCOUNT", taken(request(b"smsc;1;1", 8, 4, 1, OWNER, [ASKING]), reply(2001), -20)),
    ("CHECK_BALANCE", taken(request(b"smsc;1;1", 9, 4, 2, OWNER, [ASKING]), reply(2001, check=1), 0)),
    ("PRICE_ENQUIRY", taken(request(b"smsc;1;1", 10, 4, 3, OWNER, [ASKING]), reply(2001, cost=(-2 ** 63, -2, 978)), 0)),
    ("EVENT without an action", taken(request(b"smsc;1;1", 11, 4, None, OWNER, []), reply(5012), -2 ** 127)),
    ("sweep", b"\0"),
    ("change of terms", changed([account(0, b"491700000001", -2 ** 63)], [tariff(10, None, 1, 1000, 7, 5000, 2 ** 63 - 1)],
                                [subscription(0, b"491700000002")], [subscription(0, b"491700000003")])),
]
# So many of them stand in the stores.
STORED = 9


def rows_of(steps):
    rows, before = [], bytes(16)
    for place, (_, step) in enumerate(steps):
        rows.append(chained(before, place, place * 1000, step))
        before = rows[-1][-16:]
    return rows


# ---- what is printed

CHANGES = [(8, 16, 3), (9, 49, 2), (9, 50, 1), (9, 130, 2), (9, 145, 3), (9, 158, 1), (9, 161, 0),
           (3, 37, 5), (3, 38, 2), (3, 39, 4), (1, 103, 62), (1, 103, 64), (2, 50, 1), (2, 62, 127), (2, 62, 128)]
FLIPPED = [(0, 7), (1, 15), (3, 40), (5, 100), (8, 16), (8, 32)]


def spelling(rows):
    for (name, _), octets in zip(STEPS, rows):
        yield f"{name}: {octets.hex()}"
    yield f"{len(rows)} rows, {len(rows)} read back, {len(rows)} chained"
    for row, at, octet in CHANGES:
        changed = bytearray(rows[row])
        changed[at] = octet
        yield f"octet {at} of row {row} is {octet}: {fault_of(bytes(changed))}"
    beginnings = [octets[:length] for octets in rows for length in range(len(octets))]
    yield f"{len(beginnings)} beginnings of rows, {sum(fault_of(octets) == 'a row' for octets in beginnings)} of them rows"
    yield f"an octet more: {fault_of(rows[0] + bytes(1))}"
    yield f"none: {fault_of(b'')}"


def abouts(rows):
    identity, terms = 7, b"terms"
    octets = number(1, 4) + number(identity, 16) + text(terms)
    yield octets.hex()
    yield f"book {identity}, terms {terms.hex()}"
    yield "OtherFormat"
    yield "Short"
    yield "LeftOver"


def appending(rows):
    not_behind = "the rows do not begin behind the last one"
    yield told([])
    yield f"at 1: {not_behind}"
    yield told(rows)
    yield f"at 8: {not_behind}"
    yield f"at 10: {not_behind}"
    yield told(rows)
    yield f"{len(rows)} rows read back"


def crashes(rows):
    yield f"a crash before the first commit: {told([])}"
    yield f"a crash between two commits: {told(rows[:2])}"
    yield f"a crash behind a commit: {told(rows)}"


def damage(rows):
    yield "there is no book"
    yield "there is something already"
    yield ELSEWHERE
    for place in (1, 0, 0, 1):
        yield DAMAGED.format(place)
    yield ELSEWHERE
    yield "what the book is, or where it stands, is damaged or missing"
    for row, at in FLIPPED:
        changed = bytearray(rows[row])
        changed[at] ^= 1
        yield f"a bit of octet {at} of row {row}: {checked(rows[:row] + [bytes(changed)] + rows[row + 1:])}"
    yield f"rows 3 and 4 have changed places: {checked(rows[:3] + [rows[4], rows[3]] + rows[5:])}"
    yield f"row 0 is missing: {checked(rows[1:])}"
    yield f"row 8 is missing: {checked(rows[:8])}"


if __name__ == "__main__":
    ROWS = rows_of(STEPS)
    for subject, rows in ((spelling, ROWS), (abouts, ROWS), (appending, ROWS[:STORED]), (crashes, ROWS[:STORED]), (damage, ROWS[:STORED])):
        for line in subject(rows):
            print(line)
