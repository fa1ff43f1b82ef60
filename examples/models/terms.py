"""A change of the terms as a line of a schedule has it: accounts that join, close and open again, and the tariffs that hold from
then on.

    terms MOMENT [account TYPE ID OPENING|closed|open].. [tariffs [tariff GROUP IDENT UNITS BLOCK PRICE QUANTUM GREATEST]..]

All tariffs that hold from then on are named; without the word `tariffs` those stay that hold. A line has the first of
these faults: an unknown word where an item begins, a wrong count of words, a bad number. A number that is out of range is
a bad one, and so are an id that no account of a site may have, units of no kind, and a tariff for the services of another
one or for none.
"""
import re
from dataclasses import dataclass

from credit_control import CC_TIME
from site_data import Tariff
from site_file import I64, U32, UNITS, is_visible

# How many words follow that of an item.
ITEMS = {"account": 3, "tariff": 7}
# What is said of an account that closes, and of one that opens again, in place of an opening.
CLOSED, OPEN = "closed", "open"
ID_KIND_LIMIT, ID_LIMIT, OPENING_LIMIT = 4, 64, 2**62


class BadSchedule(Exception):
    """A text that is no schedule, and what is told of it."""


@dataclass(frozen=True)
class Change:
    """`joining` has accounts, each as type and id, with their openings, `closing` and `reopening` accounts alone; `tariffs` a group or
    none, an identifier or none, and the tariff, for each that holds from then on, or is None where those stay that hold."""

    joining: tuple = ()
    tariffs: tuple | None = None
    closing: tuple = ()
    reopening: tuple = ()

    def __str__(self):
        """As words behind the moment."""
        words = [f"account {kind} {subscriber} {opening}" for (kind, subscriber), opening in self.joining]
        words += [f"account {kind} {subscriber} closed" for kind, subscriber in self.closing]
        words += [f"account {kind} {subscriber} open" for kind, subscriber in self.reopening]
        words += ["tariffs"] if self.tariffs is not None else []
        return " ".join(words + [tariff_words(*it) for it in self.tariffs or ()])

    @property
    def by_name(self):
        """The tariffs by their Rating-Group, and by their Service-Identifier; None where those stay that hold."""
        if self.tariffs is None:
            return None
        return ({group: tariff for group, _, tariff in self.tariffs if group is not None},
                {ident: tariff for group, ident, tariff in self.tariffs if group is None})


def tariff_words(group, ident, it):
    unit = next(word for word, unit in UNITS.items() if unit == it.unit)
    keys = ["-" if key is None else str(key) for key in (group, ident)]
    return " ".join(["tariff", *keys, unit, *map(str, (it.block, it.price, it.quantum, it.greatest))])


def number_of(word):
    digits = word.lstrip("0") or "0"
    if not re.fullmatch("[0-9]+", word) or len(digits) > 20 or int(digits) >= 2**64:
        raise BadSchedule("bad number")
    return int(digits)


def within(least, number, most):
    if not least <= number <= most:
        raise BadSchedule("bad number")
    return number


def amount_of(word):
    minus, digits = ("-", word[1:]) if word.startswith("-") else ("", word)
    size = within(0, number_of(digits), OPENING_LIMIT)
    return -size if minus else size


def account_of(kind, subscriber, said):
    """An account, and its opening or the word that says that it is closed or open again."""
    if not is_visible(subscriber, ID_LIMIT):
        raise BadSchedule("bad number")
    return (within(0, number_of(kind), ID_KIND_LIMIT), subscriber), said if said in (CLOSED, OPEN) else amount_of(said)


def key_of(word):
    return None if word == "-" else within(0, number_of(word), U32)


def tariff_of(group, ident, units, *numbers):
    group, ident = key_of(group), key_of(ident)
    if units not in UNITS or (group is None) == (ident is None):
        raise BadSchedule("bad number")
    most = U32 if UNITS[units] == CC_TIME else I64
    ranges = [(1, 2**32), (0, 1_048_576), (1, most), (1, most)]
    return group, ident, Tariff(UNITS[units], *(within(least, number_of(word), limit)
                                                for word, (least, limit) in zip(numbers, ranges)))


def items_of(words):
    """The words of each account, and of each tariff, None without the word `tariffs`."""
    accounts, tariffs = [], None
    while words:
        first, words = words[0], words[1:]
        if first == "tariffs" and tariffs is None:
            tariffs = []
            continue
        if first != ("account" if tariffs is None else "tariff"):
            raise BadSchedule("unknown word")
        size = ITEMS[first]
        if len(words) < size:
            raise BadSchedule("wrong count")
        (accounts if tariffs is None else tariffs).append(words[:size])
        words = words[size:]
    return accounts, tariffs


def terms_of(words):
    """The moment and the change that the words behind `terms` say."""
    if not words:
        raise BadSchedule("wrong count")
    accounts, tariffs = items_of(words[1:])
    moment = number_of(words[0])
    said = [account_of(*it) for it in accounts]
    joining = tuple(it for it in said if it[1] not in (CLOSED, OPEN))
    closing, reopening = (tuple(account for account, word in said if word == state) for state in (CLOSED, OPEN))
    if tariffs is not None:
        tariffs = tuple(tariff_of(*it) for it in tariffs)
        keys = [it[:2] for it in tariffs]
        if len(set(keys)) < len(keys):
            raise BadSchedule("bad number")
    return moment, Change(joining, tariffs, closing, reopening)
