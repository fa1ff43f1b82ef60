"""Site files chosen at random: every key within its range and often at its limits, spelled in the ways TOML has."""
from site_data import APPLICATION_IN_GROUP, CLIENT, FRONT, ORIGIN_TWICE, RELAY, TOLERANCES
from site_file import I64, PEERS_LIMIT, U32, UNITS

REALMS = ["ocs.example", "home.example", "loop.example", "!", "Round.Example"]
APPLICATIONS = [4, 4, 4, 4, 4, 0, 3, U32]
SERVICES = [10, 20, 7, 0, 1, U32]
BLOCKS = [1, 2, 7, 60, 999, 1000, 1000, 2**32 - 1, 2**32]
PRICES = [0, 1, 2, 5, 5, 5, 99, 1_048_576]
COUNTS = [1, 2, 60, 999, 1000, 5000, 5000, 10_000, U32, 2**32, I64 - 1, I64]
OPENINGS = [0, 1, 4, 12, 25, 27, 100, 1000, 1000, 10_000, 10**9, -1, -25, -2**62, 2**62]
SUBSCRIBERS = ["491700000001", "491700000002", "491700000003", "491700000004", "sip:bob@small.example", "!", "~" * 64,
               '"\\#\'']
# What stands in the place of a value that is refused, or not.
ODD_VALUES = [0, 1, -1, 3, 4, 5, 17, 65, 1000, 1025, 86_401, 1_048_577, 2**32, 2**63 - 1, -2**63, "", "a b", "relay",
              "front", "client", "f1.example", "F1.EXAMPLE", "r1.example", "c1.example", "é", "x" * 255, "x" * 256,
              True, 1.5, [], {}, ["f1.example"], [1], "127.0.0.1:3868", "127.0.0.1", [480], [480, 480], [461, 480],
              ["origin-twice"], ["origin-twice", "origin-twice"], ["application-in-group", "origin"], [480, "485"]]
# What makes a file no TOML, or another one, where it stands first.
ODD_BEGINNINGS = [b"\xff\n", b"]\n", b"x =\n", b"x = 9223372036854775808\n", b'realm = "x"\n', b"[realm]\n",
                  b"x = " + b"[" * 81 + b"]" * 81 + b"\n"]


class RandomSite:
    """A site as TOML would have it: `top` has the keys above the tables, `tables` lists of entries."""

    def __init__(self, dice):
        self.dice, self.kinds = dice, {}
        self.tables = {"node": [self.node(kind, place) for kind, most in self.crowd() for place in range(1, most + 1)]}
        self.tables["link"] = [self.link(*pair) for pair in self.pairs()]
        self.realm = dice.one_of(REALMS)
        self.tables["route"] = [route for relay in self.names(RELAY) for route in self.routes(relay)]
        self.tables["tariff"] = list(self.tariffs())
        self.tables["account"] = list(self.accounts())
        self.top = self.top_level()

    def crowd(self):
        """How many nodes there are of each kind."""
        return [(RELAY, self.dice.one_of([0, 1, 1, 2, 2, 3, 3, 4])), (FRONT, 1 + self.dice.one_of([0, 0, 1, 1, 2, 3])),
                (CLIENT, 1 + self.dice.one_of([0, 0, 1, 1, 2, 3, 5]))]

    def node(self, kind, place):
        name = f"{kind[0]}{place}.example"
        if self.dice.one_in(10):
            name = self.dice.one_of([name.title(), f"{name}#\"'\\", f"{name}{'x' * 244}", f"~{name}"])
        self.kinds[name] = kind
        return {"name": name, "kind": kind} | ({"address": "127.0.0.1:3868"} if self.dice.one_in(8) else {})

    def names(self, *kinds):
        return [name for name, kind in self.kinds.items() if kind in kinds]

    def some(self, items, least=0):
        """Some of these in another order, at least so many where there are as many."""
        chosen, left = [], list(items)
        most = max(least, self.dice.below(len(left) + 1))
        while left and len(chosen) < most:
            chosen.append(left.pop(self.dice.below(len(left))))
        return chosen

    def pairs(self):
        """Links: relays in one of some forms, fronts with relays, clients with both."""
        relays, fronts = self.names(RELAY), self.names(FRONT)
        yield from self.dice.one_of([chain, ring, diamond, complete])(relays)
        for front in fronts:
            yield from ((relay, front) for relay in self.some(relays, 1))
        for client in self.names(CLIENT):
            direct = self.some(fronts)[:1] if relays and not self.dice.one_in(4) else self.some(fronts, 1)
            yield from ((client, node) for node in self.some(relays, 1)[:2] + direct)

    def link(self, one, other):
        ends = (one, other) if self.dice.one_in(2) else (other, one)
        return dict(zip(("from", "to"), map(self.name_without_case, ends)))

    def name_without_case(self, name):
        return name.upper() if self.dice.one_in(20) else name

    def neighbours(self, relay):
        """The relays and fronts with which a relay is linked, by the links' entries."""
        ends = [{self.known(name) for name in link.values()} for link in self.tables["link"]]
        return [name for name in self.names(RELAY, FRONT) if {relay, name} in ends and name != relay]

    def known(self, word):
        return next(name for name in self.kinds if name.lower() == word.lower())

    def routes(self, relay):
        """Most realms have a route for Credit-Control at most relays; peers stand in any order, and more than once."""
        applications = {(realm.lower(), self.dice.one_of(APPLICATIONS)): realm
                        for realm in [self.realm, self.realm, *self.some(REALMS)]}
        for (_, application), realm in applications.items():
            near = self.neighbours(relay)
            peers = self.some(near, 0 if self.dice.one_in(9) else len(near))
            peers += self.some(near) if self.dice.one_in(9) else []
            yield {"at": self.name_without_case(relay), "realm": realm, "app": application,
                   "peers": [self.name_without_case(peer) for peer in peers[:PEERS_LIMIT]]}

    def tariffs(self):
        """The first is like that of the row site; services beyond have any numbers."""
        for place, name in enumerate(dict.fromkeys([("group", 10), *self.service_names()])):
            kind = self.dice.one_of(list(UNITS))
            most = U32 if kind == "time" else I64
            counts = {key: min(self.dice.one_of(COUNTS), most) for key in ("quantum", "greatest")}
            block, price = self.dice.one_of(BLOCKS), self.dice.one_of(PRICES)
            tariff = {name[0]: name[1], "kind": kind, "block": block, "price": price}
            likely = {"kind": "octets", "block": 1000, "price": 5, "quantum": 5000, "greatest": 10_000}
            yield tariff | counts | (likely if place == 0 and not self.dice.one_in(3) else {})

    def service_names(self):
        return [(self.dice.one_of(["group", "group", "ident"]), self.dice.one_of(SERVICES))
                for _ in range(self.dice.below(6))]

    def accounts(self):
        named = dict.fromkeys((self.dice.one_of([0, 0, 0, 1, 2, 3, 4]), subscriber)
                              for subscriber in SUBSCRIBERS + SUBSCRIBERS[:4] if not self.dice.one_in(3))
        for kind, subscriber in named:
            yield {"type": kind, "id": subscriber, "opening": self.dice.one_of(OPENINGS)}

    def top_level(self):
        """The keys that have a default are there or not; small queues, books and crowds of workers are frequent."""
        top = {"realm": self.realm, "validity": self.dice.one_of([1, 2, 600, 600, 86_400]),
               "currency": self.dice.one_of([0, 978, 999]), "exponent": self.dice.one_of([-9, -2, 0, 9])}
        choices = {"limit": [1, 3, 10, 30, 1_048_576], "workers": [1, 1, 3, 16], "queue": [1, 1, 2, 4, 1024],
                   "vendors": [[], [10_415, 0], [1, U32]], "watchdog": [100, 600_000], "shade": [1],
                   "known": [[], [480, 485], [485, 462, U32], list(range(462, 718))],
                   "tolerate": [[], [ORIGIN_TWICE], [APPLICATION_IN_GROUP], [*TOLERANCES], [*reversed(TOLERANCES)]],
                   "advertise": [[], [10_415], [0, U32, 10_415], list(range(16))]}
        return top | {key: self.dice.one_of(values) for key, values in choices.items() if self.dice.one_in(3)}

    def break_one(self):
        """Changes one key somewhere so that the site is mostly refused."""
        entries = [self.top] + [entry for table in self.tables.values() for entry in table]
        entry = self.dice.one_of(entries)
        key = self.dice.one_of(list(entry))
        if self.dice.one_in(4):
            del entry[key]
        elif self.dice.one_in(4):
            table = self.dice.one_of([table for table in self.tables.values() if table])
            table.append(dict(self.dice.one_of(table)))
        else:
            entry[key] = self.dice.one_of(ODD_VALUES)

    def broken_file(self):
        """The file with a fault, or with none by chance."""
        if self.dice.one_in(8):
            return self.dice.one_of(ODD_BEGINNINGS) + self.file()
        self.break_one()
        return self.file()

    def file(self):
        return self.text().encode()

    def text(self):
        """The file's text: above all headers the keys and the tables that stand as arrays, in any order."""
        inline = [name for name in self.tables if self.dice.one_in(3) or not self.tables[name]]
        lines = [f"{key} = {self.spelled(value)}\n" for key, value in self.top.items()]
        lines += [f"{name} = {self.spelled(self.tables[name])}\n" for name in inline]
        blocks = ["".join(self.block(name, entry) for entry in entries)
                  for name, entries in self.tables.items() if name not in inline]
        return "".join(self.shuffled(lines) + self.shuffled(blocks))

    def shuffled(self, items):
        return self.some(items, len(items))

    def block(self, name, entry):
        lines = [f"{key} = {self.spelled(value)}\n" for key, value in entry.items()]
        return f"[[{name}]]\n" + "".join(self.shuffled(lines))

    def spelled(self, value):
        if isinstance(value, str):
            return self.string(value)
        if isinstance(value, list):
            return "[" + ", ".join(map(self.spelled, value)) + "]"
        if isinstance(value, dict):
            return "{ " + ", ".join(f"{key} = {self.spelled(inner)}" for key, inner in value.items()) + " }"
        if type(value) is int and value >= 0 and self.dice.one_in(12):
            return self.dice.one_of([f"{value:#x}", f"{value:_}", f"+{value}", f"{value:#o}", f"{value:#b}"])
        return str(value).lower()

    def string(self, value):
        if self.dice.one_in(3) and "'" not in value:
            return f"'{value}'"
        return '"' + value.replace("\\", "\\\\").replace('"', '\\"') + '"'


def chain(names):
    return list(zip(names, names[1:]))


def ring(names):
    return chain(names) + ([(names[-1], names[0])] if len(names) > 2 else [])


def diamond(names):
    """The first with two others, and these with the last."""
    ends = [(names[0], name) for name in names[1:3]] if names else []
    return ends + [(name, names[3]) for name in names[1:3] if len(names) > 3]


def complete(names):
    return [(one, other) for place, one in enumerate(names) for other in names[:place]]
