#!/usr/bin/env python3
"""How many requests of a ring of three relays come to a front, with links cut at random: bench/ring.py [PROGRAM]

All links of examples/sites/ring.toml are up, with debits of three clients on their way, and then each link between
relays and fronts is cut or stays; what relays send again goes on, and more debits are sent. All that is in flight is
delivered, charged and answered. Printed is how many debits were answered with each Result-Code: in the model, by relays
that find a loop only when a request comes back to them, and by relays that pass over the peers which a request has been
at; and by PROGRAM (crates/farm_cli/out/farm_cli), if it is given, which plays the schedules of the second.
"""
import subprocess
import sys
from collections import Counter
from dataclasses import replace
from pathlib import Path

EXAMPLES = Path(__file__).resolve().parent.parent / "examples"
sys.path.insert(0, str(EXAMPLES / "models"))

from at_random import Dice  # noqa: E402
from diameter import ORIGIN_HOST, RESULT_CODE, ROUTE_RECORD, Message, first, split, text  # noqa: E402
from messages import DEBIT, changed, of_session, of_subscriber  # noqa: E402
from nodes import Relay  # noqa: E402
from site_data import CLIENT, FRONT  # noqa: E402
from site_stories import site_named  # noqa: E402
from world import World, spelled_step  # noqa: E402

RUNS, BEFORE, AFTER, ENOUGH = 400, 3, 6, 10_000
SITE = site_named("ring")
FRONTS = [name for name, kind in SITE.nodes.items() if kind == FRONT]


class Forgetful(Relay):
    """A relay that sends a request to the first peer that is up, wherever it has been."""

    def candidate(self, message, avps):
        return super().candidate(message, [avp for avp in avps if not avp.has_code(ROUTE_RECORD)])


class Run:
    """A farm, and the steps that it has taken."""

    def __init__(self, seed, relay):
        self.world, self.steps, self.dice, self.sent = World(SITE), [], Dice(seed), 0
        for name, node in self.world.nodes.items():
            if isinstance(node, Relay):
                self.world.nodes[name] = relay(name, SITE, node.choose)
        links = sorted(tuple(sorted(link)) for link in SITE.linked)
        for link in links:
            self.step("up", *link)
        self.send(BEFORE)
        self.carry(self.dice.below(12))
        for link in links:
            if CLIENT not in (SITE.nodes[link[0]], SITE.nodes[link[1]]) and self.dice.one_in(2):
                self.step("cut", *link)
        self.send(AFTER)
        self.carry(ENOUGH)

    def step(self, *step):
        self.steps.append(step)
        return self.world.play(*step)

    def send(self, count):
        """Debits, each of a client that is chosen, to the relay beside it."""
        for _ in range(count):
            client = self.dice.one_of(["c1.example", "c2.example", "c3.example"])
            debit = of_subscriber(of_session(DEBIT, f"{client[:2]};1;{self.sent}"), "491700000001")
            debit = replace(changed(debit, text(ORIGIN_HOST, client)), hop=self.sent)
            self.step("send", client, f"r{client[1]}.example", debit)
            self.sent += 1

    def carry(self, most):
        """What is in flight is delivered and what has come to a front is answered, so many times at most."""
        for _ in range(most):
            ways = [(a, connection.other(a)) for connection in self.world.connections.values()
                    for a in sorted(connection.flights) if connection.flights[a]]
            if ways:
                self.step("deliver", *ways[0], 0)
                continue
            busy = next((name for name in FRONTS if self.step("pick", name, 0)), None)
            if busy is None:
                return
            self.step("charge", busy, 0, 1000)
            self.step("emit", busy, 0)


def codes(messages):
    return Counter(int.from_bytes(first(split(message.body), RESULT_CODE).value) for message in messages)


def told(program, steps):
    """What the program has clients receive in a run of these steps."""
    schedule = "".join(spelled_step(*step) for step in steps)
    done = subprocess.run([program, "replay", "--site", EXAMPLES / "sites/ring.toml"], input=schedule, text=True,
                          capture_output=True, check=True)
    lines = [line.split() for line in done.stdout.splitlines()]
    return [Message.read(bytes.fromhex(line[3])) for line in lines if line[0] == "recv"]


def printed(who, sent, answers):
    shown = ", ".join(f"{code} {count}" for code, count in sorted(answers.items()))
    print(f"{who}: of {sent} debits {answers.total()} answered: {shown}")


def main(arguments):
    for who, relay in (("model, loops found when they close", Forgetful), ("model, peers passed over", Relay)):
        runs = [Run(seed, relay) for seed in range(RUNS)]
        answers = sum((codes(message for _, _, message in run.world.received) for run in runs), Counter())
        printed(who, sum(run.sent for run in runs), answers)
    if arguments:
        answers = sum((codes(told(arguments[0], run.steps)) for run in runs), Counter())
        printed("program", sum(run.sent for run in runs), answers)


if __name__ == "__main__":
    main(sys.argv[1:])
