#!/usr/bin/env python3
"""Two hundred messages, chosen at random and two at a time under way, against a plain model of what is answered.

The model is written from the rules, and knows nothing of the program: a debit costs 5 for each 1000 octets that it
begins, and is made where the account has as much; the first debit with a CC-Request-Number settles what is answered to
all later ones, 5012 to those that ask for something else. It writes two-at-a-time.schedule and two-at-a-time.out into the folder that is given, examples/random/
in this repository, where they are stored.
"""
import sys
from dataclasses import dataclass, replace

ROUNDS = 100
OPENINGS = [1000, 12, 4, 27, 25]
COMMAND_UNSUPPORTED, APPLICATION_UNSUPPORTED, CREDIT_LIMIT_REACHED = 3001, 3007, 4012
UNABLE_TO_COMPLY, USER_UNKNOWN = 5012, 5030

# Units that a debit asks for: none, blocks that are begun and blocks that are full.
UNITS = [0, 1, 999, 1000, 1001, 3200, 4000, 5000, 50_000]
# The last digits of subscribers: 1 to 5 have accounts, 6 has none.
SUBSCRIBERS = [1, 1, 1, 2, 3, 4, 5, 6]
KINDS = ["debit"] * 6 + ["application", "command"]
# How many messages ago the one was sent that is repeated; 0 for none.
AGES = [0, 0, 0, 0, 1, 2, 5, 40]
# Steps that do not apply where nothing is under way, and no step.
IDLE = ["", "", "", "", "up c1.example f1.example\n", "deliver c1.example f1.example 0\n",
        "deliver f1.example c1.example 0\n", "deliver c2.example f2.example 0\n", "pick f1.example 1\n",
        "pick f1.example 2\n", "charge f1.example 0 1000\n", "emit f1.example 1\n"]
# Steps that do not apply where worker 0 has a job and another job waits, and no step.
BUSY = ["", "", "pick f1.example 0\n", "pick f1.example 2\n", "pick f2.example 0\n", "charge f1.example 1 1000\n",
        "emit f1.example 0\n", "deliver c1.example f1.example 0\n"]


class Dice:
    """A linear congruential generator."""

    def __init__(self, seed):
        self.number = seed

    def next(self):
        self.number = (self.number * 1_664_525 + 1_013_904_223) % 2**32
        return self.number

    def one_of(self, items):
        return items[(self.next() >> 16) % len(items)]

    def coin(self):
        return self.one_of([False, True])


@dataclass(frozen=True)
class Turn:
    """What a client sends. The Session-Id is always the same; `number` is CC-Request-Number."""

    kind: str
    number: int
    hop: int
    resent: bool
    units: int
    subscriber: int

    @property
    def command(self):
        return 271 if self.kind == "command" else 272

    @property
    def application(self):
        return 3 if self.kind == "application" else 4

    def octets(self):
        return (f"010000f8{'d0' if self.resent else 'c0'}{self.command:06x}{self.application:08x}{self.hop:08x}00000064"
                "000001074000000e63313b313b310000" "000001084000001263312e6578616d706c650000"
                "000001284000000f6578616d706c6500" "0000011b400000136f63732e6578616d706c6500"
                "000001024000000c00000004" "000001cd4000001633323235314033677070" "2e6f72670000"
                f"000001a04000000c00000004" f"0000019f4000000c{self.number:08x}" "000001b44000000c00000000"
                f"000001bb40000028000001c24000000c00000000000001bc400000143439313730303030303030{0x30 + self.subscriber:02x}"
                f"000001c84000002c000001b540000018000001a540000010{self.units:016x}000001b04000000c0000000a")


class Client:
    """Chooses messages."""

    def __init__(self, dice):
        self.dice, self.sent = dice, []

    def next(self):
        new = Turn(kind=self.dice.one_of(KINDS), number=len(self.sent), hop=self.dice.next(), resent=self.dice.coin(),
                   units=self.dice.one_of(UNITS), subscriber=self.dice.one_of(SUBSCRIBERS))
        age = self.dice.one_of(AGES)
        turn = new
        if 0 < age <= len(self.sent):
            earlier = self.sent[-age]
            content = self.dice.one_of([earlier, new])
            turn = replace(content, number=earlier.number, hop=new.hop, resent=new.resent)
        self.sent.append(turn)
        return turn


class Model:
    """The accounts, and the replies that are kept."""

    def __init__(self):
        self.balances, self.kept = list(OPENINGS), {}

    def answer(self, turn):
        if turn.kind == "application":
            return refusal(turn, APPLICATION_UNSUPPORTED)
        if turn.kind == "command":
            return refusal(turn, COMMAND_UNSUPPORTED)
        content = turn.units, turn.subscriber
        if turn.number not in self.kept:
            self.kept[turn.number] = content, self.debit(turn)
        taken, reply = self.kept[turn.number]
        return credit_control_answer(turn, *(reply if taken == content else (UNABLE_TO_COMPLY, None)))

    def debit(self, turn):
        cost = -(-turn.units // 1000) * 5
        if turn.subscriber > len(self.balances):
            return USER_UNKNOWN, None
        if self.balances[turn.subscriber - 1] < cost:
            return CREDIT_LIMIT_REACHED, None
        self.balances[turn.subscriber - 1] -= cost
        return 2001, turn.units


ORIGIN = "000001084000001266312e6578616d706c650000" "00000128400000136f63732e6578616d706c6500"
SESSION = "000001074000000e63313b313b310000"


def credit_control_answer(turn, code, units):
    services = "" if units is None else (
        f"000001c840000038000001af40000018000001a540000010{units:016x}000001b04000000c0000000a0000010c4000000c000007d1")
    body = (f"{SESSION}0000010c4000000c{code:08x}{ORIGIN}000001024000000c00000004000001a04000000c00000004"
            f"0000019f4000000c{turn.number:08x}{services}")
    return f"01{20 + len(body) // 2:06x}4000011000000004{turn.hop:08x}00000064{body}"


def refusal(turn, code):
    body = f"{SESSION}{ORIGIN}0000010c4000000c{code:08x}"
    return f"01{20 + len(body) // 2:06x}60{turn.command:06x}{turn.application:08x}{turn.hop:08x}00000064{body}"


def ordered(turned, pair):
    return (pair[1], pair[0]) if turned else pair


def main(folder):
    dice = Dice(2026)
    client, model = Client(dice), Model()
    steps, answers, skipped = ["up c1.example f1.example\n"], [], 0
    for _ in range(ROUNDS):
        turns = (client.next(), client.next())
        arrival, charge, emission, delivery = (dice.coin() for _ in range(4))
        busy, idle = dice.one_of(BUSY), dice.one_of(IDLE)
        steps += [f"send c1.example f1.example {turn.octets()}\n" for turn in turns]
        steps += [f"deliver c1.example f1.example {int(arrival)}\n", "deliver c1.example f1.example 0\n",
                  "pick f1.example 0\n", busy, "pick f1.example 1\n",
                  f"charge f1.example {int(charge)} 1000\n", f"charge f1.example {int(not charge)} 1000\n",
                  f"emit f1.example {int(emission)}\n", f"emit f1.example {int(not emission)}\n",
                  f"deliver f1.example c1.example {int(delivery)}\n", "deliver f1.example c1.example 0\n", idle]
        skipped += bool(busy) + bool(idle)
        first, second = ordered(charge, ordered(arrival, turns))
        charged = (model.answer(first), model.answer(second))
        answers += ordered(delivery, ordered(emission, ordered(charge, charged)))
    steps = [step for step in steps if step]
    with open(f"{folder}/two-at-a-time.schedule", "w") as out:
        out.writelines(steps)
    with open(f"{folder}/two-at-a-time.out", "w") as out:
        out.writelines(f"recv c1.example 1 {answer}\n" for answer in answers)
        out.write(f"end steps {len(steps)} skipped {skipped} entries {len(model.kept)}\n")
        out.write(f"entries {len(model.kept)} open 0\n")
        for place, balance in enumerate(model.balances):
            out.write(f"account 0 49170000000{place + 1} balance {balance} reserved 0\n")


if __name__ == "__main__":
    main(sys.argv[1] if len(sys.argv) > 1 else ".")
