"""Runs chosen at random: a site, and a schedule whose steps are chosen one by one where the model's farm stands."""
import hashlib
from collections import Counter
from dataclasses import dataclass

from at_random import LATEST, Dice, Player, Scene
from diameter import DESTINATION_REALM, Message, text
from messages import DEBIT
from nodes import PENDING_LIMIT
from random_changes import RandomChanges
from random_requests import RandomRequests
from random_sites import RandomSite
from row_site import ROW_SITE
from site_data import CLIENT, RELAY
from site_file import site_of
from world import World

LEAST_STEPS, MOST_STEPS = 20, 500
# How steps are weighed: mostly brought home, with many losses, with many ends that go alone, with many messages under way,
# with workers that are slow or refuse, with sweeps, and with changes of the terms.
WEIGHTS = {"up": 20, "accept": 4, "opened": 16, "send": 24, "deliver": 70, "pick": 30, "charge": 30, "emit": 30, "refuse": 1,
           "lose": 2, "cut": 2, "drop": 4, "restart": 1, "crash": 1, "sweep": 1}
MOODS = [WEIGHTS, WEIGHTS, WEIGHTS | {"cut": 10, "restart": 5, "lose": 10},
         WEIGHTS | {"accept": 16, "opened": 30, "drop": 16, "crash": 5},
         WEIGHTS | {"send": 80, "pick": 6, "charge": 8, "emit": 6}, WEIGHTS | {"refuse": 10, "emit": 8, "cut": 6},
         WEIGHTS | {"sweep": 12}, WEIGHTS | {"terms": 3}, WEIGHTS | {"terms": 12, "sweep": 3}]
UNDER_WAY = [4, 8, 8, 16, 60]
PACES = [1, 2000, 180_000, 10**9]


class Traveller(Player):
    """Chooses steps of all words, and cuts and restarts whatever is under way."""

    def __init__(self, dice, site):
        super().__init__(dice, Scene(site, [], [], weights=dice.one_of(MOODS), pace=dice.one_of(PACES)))
        self.world = World(site, None)
        self.changes = RandomChanges(dice, self.world.book)
        self.requests, self.under_way = RandomRequests(dice, self.world), dice.one_of(UNDER_WAY)
        self.stray, self.figures = dice.one_of([4, 25, 25, 25, 100]), Counter()

    def safe(self, step):
        return True

    def play(self, step):
        before = self.world.skipped
        super().play(step)
        self.figures["steps", step[0]] += 1
        self.figures["steps that applied", step[0]] += self.world.skipped == before
        if step[0] == "send":
            self.figures["octets", "sent"] += len(step[-1].octets())

    def completed(self, word, arguments):
        step = super().completed(word, arguments)
        if word in ("charge", "sweep") and self.dice.one_in(30):
            return *step[:-1], self.dice.one_of([0, self.moment // 2, LATEST])
        return step

    def step_that_applies(self, words=None):
        """As words are drawn by their weights: one with no step that applies is drawn no more."""
        left = list(words or self.scene.weights)
        while left:
            word = self.dice.one_of([it for it in left for _ in range(self.scene.weights[it])])
            if found := self.applying(word):
                return self.one_of_these(word, found)
            left.remove(word)
        return None

    def step(self):
        return self.any_step() if self.dice.one_in(self.stray) else self.step_that_applies() or self.any_step()

    def travel(self, steps):
        for pair in self.site.links:
            if not self.dice.one_in(8):
                self.play(("up", *pair))
        while len(self.lines) < steps:
            self.play(self.step())
        if not self.dice.one_in(4):
            self.finish()

    def crowd(self):
        """As many requests pending at a relay as there may be, and some more, if a client has a connection with one."""
        pairs = [(a, b) for a, b, _ in self.flights() if self.site.nodes[b] == RELAY and self.site.nodes[a] == CLIENT]
        if not pairs:
            return
        pair = self.dice.one_of(pairs)
        realm = next((realm for at, realm, _ in self.site.routes if at == pair[1]), self.site.realm)
        message = Message(DEBIT.flags, DEBIT.command, DEBIT.application, 1, 1,
                          text(DESTINATION_REALM, realm).octets())
        for _ in range(PENDING_LIMIT + 2):
            self.play(("send", *pair, message))
            self.play(("deliver", *pair, 0))
        self.under_way = 4 * PENDING_LIMIT


@dataclass(frozen=True)
class Case:
    """A site file, or None for the row site, and a schedule, as octets."""

    site: bytes | None
    schedule: bytes


def case_at(seed, place):
    """The run at this place, and figures of its steps."""
    dice = Dice(int.from_bytes(hashlib.sha256(f"{seed} {place}".encode()).digest()[:4]))
    made = None if dice.one_in(5) else RandomSite(dice)
    written = made and made.file()
    traveller = Traveller(dice, site_of(written) if written else ROW_SITE)
    crowded = dice.one_in(700)
    if crowded:
        traveller.travel(LEAST_STEPS)
        traveller.crowd()
    steps = LEAST_STEPS + dice.below(1 + dice.below(MOST_STEPS - LEAST_STEPS + 1))
    traveller.travel(len(traveller.lines) + LEAST_STEPS if crowded else steps)
    if made and dice.one_in(25):
        written = made.broken_file()
    return Case(written, schedule_text(dice, traveller.lines)), traveller.figures


def schedule_text(dice, lines):
    """The lines of a schedule, now and then with what is no step, as octets."""
    if dice.one_in(4):
        lines = [dice.one_of(SPELLINGS)(dice, line) for line in lines]
    if dice.one_in(40):
        at = dice.below(len(lines) + 1)
        lines = lines[:at] + [broken(dice, dice.one_of(lines))] + lines[at:]
    written = "".join(lines).encode()
    return written.removesuffix(b"\n") if dice.one_in(20) else written


def broken(dice, line):
    """A line that is no step, or one by chance."""
    words = line.split()
    at = dice.below(len(words))
    odd = ["f9.example", "-1", "+1", "18446744073709551616", "0x1", "zz", "010", "01000014", "\t", "é", "", words[0]]
    changes = [words[:at] + words[at + 1:], words + ["0"], words[:at] + [dice.one_of(odd)] + words[at + 1:],
               words[:-1] + [words[-1] + "00"], words[:-1] + [words[-1][:-1]], [words[0].upper(), *words[1:]], [" "]]
    return " ".join(dice.one_of(changes)) + "\n"


def in_capitals(dice, line):
    """Names and octets without regard to case."""
    word, _, rest = line.partition(" ")
    return f"{word} {rest.upper()}"


def with_spaces(dice, line):
    return "  " + line.replace(" ", "   ").removesuffix("\n") + " \n"


def with_zeros(dice, line):
    """The last number, if there is one, with zeros before it."""
    *words, last = line.split()
    return " ".join([*words, "000" + last]) + "\n" if last.isdecimal() and len(last) < 20 else line


def with_reserved_flags(dice, line):
    """The reserved bits of a header's flags are no part of a message."""
    words = line.split()
    if words[0] != "send":
        return line
    return " ".join([*words[:-1], words[-1][:9] + "f" + words[-1][10:]]) + "\n"


def with_carriage_return(dice, line):
    return line.replace("\n", "\r\n")


def behind_comment(dice, line):
    return "# up nowhere\n\n" + line


def as_it_is(dice, line):
    return line


SPELLINGS = [as_it_is, as_it_is, with_carriage_return, in_capitals, with_spaces, with_zeros, with_reserved_flags,
             behind_comment]
