"""Changes of the terms chosen at random: of accounts that join, some are there already; of those that close and open again, some are
not there, or are so already; and of tariffs some have the names of those that hold."""
from random_sites import BLOCKS, COUNTS, OPENINGS, PRICES, SERVICES, SUBSCRIBERS
from site_data import Tariff
from site_file import CC_TIME, I64, U32, UNITS
from terms import Change

JOINERS = [*SUBSCRIBERS, "491700000005", "491700000006", "491700000007"]


class RandomChanges:
    def __init__(self, dice, book):
        self.dice, self.book = dice, book

    def next(self):
        joining = tuple(self.joiner() for _ in range(self.dice.one_of([0, 1, 1, 1, 2, 3])))
        tariffs = tuple(self.tariffs()) if self.dice.one_in(2) else None
        return Change(joining, tariffs, self.some_of(set(self.book.balances) - self.book.closed), self.some_of(self.book.closed))

    def some_of(self, fitting):
        """Seldom more than one account; mostly of those that fit."""
        count = self.dice.one_of([0, 0, 1, 1, 2])
        return tuple(self.dice.one_of(sorted(fitting)) if fitting and not self.dice.one_in(6) else (0, self.dice.one_of(JOINERS))
                     for _ in range(count))

    def joiner(self):
        """Mostly one that is not there."""
        choices = [(self.dice.one_of([0, 0, 0, 1, 2, 3, 4]), self.dice.one_of(JOINERS)) for _ in range(4)]
        new = [it for it in choices if it not in self.book.balances]
        return new[0] if new and not self.dice.one_in(6) else choices[0], self.dice.one_of(OPENINGS)

    def tariffs(self):
        """Those that hold, some left out and some changed, and now and then others."""
        groups, idents = self.book.tariffs
        named = {(group, None): it for group, it in groups.items()} | {(None, ident): it for ident, it in idents.items()}
        if not named or self.dice.one_in(3):
            name = self.dice.one_of([10, 10, *SERVICES])
            named.setdefault((None, name) if self.dice.one_in(3) else (name, None), None)
        for (group, ident), tariff in named.items():
            if not self.dice.one_in(8):
                yield group, ident, self.changed(tariff)

    def changed(self, tariff):
        """Mostly at another price."""
        if tariff is None or self.dice.one_in(6):
            unit = self.dice.one_of(list(UNITS.values()))
            most = U32 if unit == CC_TIME else I64
            return Tariff(unit, self.dice.one_of(BLOCKS), self.dice.one_of(PRICES),
                          *(min(self.dice.one_of(COUNTS), most) for _ in range(2)))
        price = tariff.price if self.dice.one_in(3) else self.dice.one_of(PRICES)
        return Tariff(tariff.unit, tariff.block, price, tariff.quantum, tariff.greatest)
