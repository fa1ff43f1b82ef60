#!/usr/bin/env python3
"""A farm whose links are cut under load: bench/cuts.py [--debits 6000] [--seed 1] [--minutes M] [--rate 200] [--program PROGRAM] [--audit PROGRAM]

Two fronts in one process, three relays and four clients, over TCP on this machine; bench/loaded.py says what is done to them.
Clients send debits, each until it is charged. Then:

- no connection is answered more often than it was asked, and each answer has the Session-Id, the CC-Request-Number and the
  End-to-End Identifier of the request that it answers;
- all answers to one request that grant say the same;
- nothing is charged twice: the account is opened with what the debits cost and a little more, and in the end exactly that
  is left, which is found by debits until the credit limit is reached;
- where the program knows --record, each process was recorded, and the audit of all records finds no difference (docs/RECORD.md).

With --minutes it runs seed after seed for so long; the last one is not cut off. A line of figures for each; status 1 where
something is otherwise: then what the processes wrote is kept, and the line says where. It needs the programs alone
(./farm prove relay, ./farm prove audit). Not part of the gate.
"""
import argparse
import asyncio
import sys
import tempfile
import time
from pathlib import Path

sys.dont_write_bytecode = True

from loaded import (AUDIT, CLIENTS, EVENT, LATER, LIMIT_REACHED, PROGRAM, SERVICES, SUCCESS, Asked, Client, Farm, Otherwise, Plan, Run,  # noqa: E402
                    audit_figures, body_of, code_in, end_when_told, first, group, keep_records, number, split)

COST, LEFT = 20, 50
SUBSCRIBER = "491700000001"
LINKS = (("r1", "r3"), ("r1", "f1"), ("r2", "f2"), ("r2", "f1"), ("r3", "f1"), ("r3", "f2"))
ROUTES = {"r1": ["r3", "f1"], "r2": ["f2", "f1"], "r3": ["f1", "f2"]}


def plan_for(given):
    return Plan(("r1", "r2", "r3"), LINKS, ROUTES, {SUBSCRIBER: COST * (given.debits + LEFT)}, interval=given.interval)


def debit(client, serial):
    """A debit of 3200 octets in a session of its own: RFC 8506, section 6.3."""
    units = group(437, [number(421, 3200, 8)])
    return Asked(serial, body_of(client, f"{client};{serial};1", EVENT, serial, SUBSCRIBER, [units]))


def is_charged(answer):
    """Whether this answer to a debit says that it was charged; None where it says that it may be sent again."""
    avps = split(answer.body)
    code = code_in(avps)
    if code in LATER:
        return None
    # a debit that grants nothing is refused as a whole
    if code == LIMIT_REACHED:
        return False
    if code != SUCCESS:
        raise Otherwise(f"answered {code}: {answer.octets().hex()}")
    code = code_in(split(first(avps, SERVICES).value))
    if code not in (SUCCESS, LIMIT_REACHED):
        raise Otherwise(f"the service was answered {code}: {answer.octets().hex()}")
    return code == SUCCESS


class Debits(Run):
    """So many debits."""

    def __init__(self, farm, given):
        super().__init__(farm, given.rate)
        self.most, self.asked = given.debits, 0

    def next_of(self, client):
        if self.is_enough():
            return None
        self.asked += 1
        client.serial += 1
        return debit(client.name, client.serial)

    def judge(self, client, it, answer):
        if not is_charged(answer):
            raise Otherwise(f"{client.name}: debit {it.serial} is refused for want of money")

    def is_enough(self):
        return self.asked >= self.most

    def patience(self):
        return 60 + 10 * self.most / self.rate

    async def find_what_is_left(self):
        """How many more debits the account pays."""
        fresh, paid = Last(self, CLIENTS[0], self.clients[0].record), 0
        job = asyncio.create_task(fresh.connect("r1", self.farm.port["r1"]))
        try:
            until = time.monotonic() + 20
            while not fresh.up:
                if job.done() or time.monotonic() > until:
                    raise Otherwise("r1 does not take c1 once more")
                await asyncio.sleep(0.05)
            while await fresh.is_paid():
                paid += 1
            return paid
        finally:
            job.cancel()
            await asyncio.gather(job, return_exceptions=True)


class Last(Client):
    """Sends one debit after the other, when all is calm."""

    def __init__(self, run, name, record):
        super().__init__(run, name, record)
        self.serial, self.answers = 1 << 24, asyncio.Queue()

    def take(self, it, answer):
        self.answers.put_nowait(answer)

    def later(self, it, wait=0.2):
        pass

    async def is_paid(self):
        """Whether one debit more is charged: it is sent until it is answered so or so."""
        self.serial += 1
        it = debit(self.name, self.serial)
        while True:
            self.up["r1"].ask(it)
            try:
                charged = is_charged(await asyncio.wait_for(self.answers.get(), 20))
            except asyncio.TimeoutError:
                raise Otherwise("a debit is not answered, though all connections stand") from None
            if charged is not None:
                return charged
            await asyncio.sleep(0.1)


async def played(run, given):
    """Plays a run to its end, and gives the figures of its audit. Raises what is otherwise."""
    try:
        await run.play()
        paid = await run.find_what_is_left()
        if paid != LEFT:
            raise Otherwise(f"the account was opened for {given.debits} debits and {LEFT} more, and {paid} more were paid")
        await asyncio.sleep(given.interval)
        await run.farm.end_all()
    finally:
        run.end_records()
        await run.farm.kill_all()
    figures, fault = audit_figures(run.farm, given.audit)
    if fault:
        raise Otherwise(f"{figures}: {fault}")
    return figures


async def one(given, seed):
    """One run; whether all is as it is to be. Prints its figures."""
    with tempfile.TemporaryDirectory(prefix="cuts-") as room:
        run, fault, told = Debits(Farm(room, given.program, plan_for(given), seed), given), None, ""
        try:
            told = await played(run, given)
        except Otherwise as it:
            fault = f"OTHERWISE: {it}; {keep_records(run.farm, given.keep / f'cuts-{seed}')} has what was written"
        figures = ", ".join(f"{count} {what}" for what, count in sorted(run.farm.count.items()))
        print(f"seed {seed}, {time.monotonic() - run.began:.0f} s: {figures}; {told}: {fault or 'each debit was charged once'}", flush=True)
        return not fault


def main():
    options = argparse.ArgumentParser(description="a farm whose links are cut under load")
    options.add_argument("--debits", type=int, default=6_000)
    options.add_argument("--seed", type=int, default=1)
    options.add_argument("--minutes", type=float, default=0, help="runs seed after seed for so long")
    options.add_argument("--rate", type=float, default=200, help="debits a second, of all clients")
    options.add_argument("--interval", type=float, default=1, help="the watchdog's, in seconds")
    options.add_argument("--program", type=Path, default=PROGRAM)
    options.add_argument("--audit", type=Path, default=AUDIT)
    options.add_argument("--keep", type=Path, default=Path(tempfile.gettempdir()), help="where what was written goes of a run that is otherwise")
    given = options.parse_args()
    end_when_told()
    until, seed = time.monotonic() + 60 * given.minutes, given.seed
    well = asyncio.run(one(given, seed))
    while time.monotonic() < until:
        seed += 1
        well = asyncio.run(one(given, seed)) and well
    return 0 if well else 1


if __name__ == "__main__":
    sys.exit(main())
