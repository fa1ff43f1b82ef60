"""What a site is: nodes, links, routes, tariffs and accounts, and the numbers that hold for all of them."""
from dataclasses import dataclass, field

RELAY, FRONT, CLIENT = "relay", "front", "client"
CREDIT_CONTROL_APPLICATION = 4
# Deviations that fronts may tolerate.
ORIGIN_TWICE, APPLICATION_IN_GROUP = TOLERANCES = "origin-twice", "application-in-group"


@dataclass(frozen=True)
class Tariff:
    """What units of one kind cost; `unit` is the AVP that counts them."""

    unit: int
    block: int
    price: int
    quantum: int
    greatest: int

    def cost(self, units):
        """Each block that is begun is paid."""
        return -(-units // self.block) * self.price

    def grant(self, free, asked):
        """How many units are granted, and whether they are the last that `free` pays."""
        wanted = min(asked, self.greatest)
        if self.price == 0 or self.cost(wanted) <= free:
            return wanted, False
        return min(wanted, max(free, 0) // self.price * self.block), True


@dataclass(frozen=True)
class Profile:
    """What fronts take beyond the rules: vendors whose AVPs are known, codes of no vendor that are, and deviations."""

    vendors: tuple
    known: tuple = ()
    tolerated: tuple = ()


@dataclass(frozen=True)
class Site:
    """Tariffs are found by Rating-Group or Service-Identifier, accounts by the type and text of a Subscription-Id.

    Nodes have kinds by their names, routes peers by relay, realm and application. A schedule is not asked for the time
    of `watchdog` in milliseconds, nor for addresses, nor for which vendors nodes advertise credit control.
    """

    realm: str
    validity: int
    currency: int
    exponent: int
    nodes: dict
    links: list
    routes: dict
    group_tariffs: dict
    ident_tariffs: dict
    accounts: dict
    workers: int = 2
    queue: int = 1024
    limit: int = 1_048_576
    vendors: tuple = (10_415,)
    known: tuple = ()
    tolerate: tuple = ()
    advertise: tuple = ()
    watchdog: int = 30_000
    addresses: dict = field(default_factory=dict, compare=False)
    linked: frozenset = field(init=False)

    def __post_init__(self):
        object.__setattr__(self, "linked", frozenset(frozenset(link) for link in self.links))

    @property
    def profile(self):
        """What its fronts take of their clients beyond the rules."""
        return Profile(self.vendors, self.known, self.tolerate)

    def tariff(self, rating_group, identifier):
        """The tariff of a service, by its Rating-Group where it has one, or None."""
        return self.ident_tariffs.get(identifier) if rating_group is None else self.group_tariffs.get(rating_group)

    def links_of(self, name):
        """The nodes that are linked with this one, each with its kind."""
        return {other: kind for other, kind in self.nodes.items() if frozenset((name, other)) in self.linked}
