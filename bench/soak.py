#!/usr/bin/env python3
"""A farm under load and in trouble, recorded and audited: bench/soak.py --seconds N [--seed S] [--rate 150] [--program PROGRAM] [--audit PROGRAM]

Two relays, two fronts in one process with three workers each, and four clients, over TCP on this machine; bench/loaded.py says
what is done to them. Clients send debits and sessions (INITIAL, UPDATEs, TERMINATION; some are left, and swept), over five
accounts of which one is soon empty, now and then with 50 kB in a request. Then the nodes end in good order, and
`farm_runs audit` puts what they wrote down into one order and has the proved farm play it (docs/RECORD.md). It is as it is to
be where the audit finds no difference, no line tells a request as new to the book that was charged before, no connection was
answered otherwise than it was asked, and every process has ended with status 0.

A line of figures, and status 1 where something is otherwise: then what was written is kept, and the line says where. Some
seconds are added to the N: until all is answered, and for the audit. It needs the programs alone (./farm prove relay,
./farm prove audit). Not part of the gate.

bench/soak.py --plant [NAME..] builds the program unproved (bench/planted.py) as it is, and then with each wrong body of
tools/plants/live, has each serve for N seconds (20, where none are given) and wants the audit to find nothing first, and then
each of them. Status 1 where one is not found out. It needs the toolchain, a minute or two for each, and the audit's program. What
is built unproved is some twenty times slower, so --interval 3; below --rate 60 few writes take a part of what they are given, and
what is wrong only then may not be found.
"""
import argparse
import asyncio
import sys
import tempfile
import time
from pathlib import Path

sys.dont_write_bytecode = True

import planted  # noqa: E402
from loaded import (AUDIT, EVENT, INITIAL, PROGRAM, TERMINATION, UPDATE, Asked, Farm, Otherwise, Plan, Run, audit_figures, body_of,  # noqa: E402
                    end_when_told, group, keep_records, number)

LINKS = (("r1", "r2"), ("r1", "f1"), ("r1", "f2"), ("r2", "f1"), ("r2", "f2"))
ROUTES = {"r1": ["f1", "f2", "r2"], "r2": ["f2", "f1"]}
ACCOUNTS = {f"49170000000{last}": 10 ** 9 for last in range(1, 5)} | {"491700000009": 2_000}
# An operator's validity, in seconds: a session of which nothing is heard for twice as long is swept.
VALIDITY = 3
REQUESTED, USED, OCTETS = 437, 446, 421
# One request of so many has as many octets more, so that what waits to be written is more than a socket takes at once.
PADDED, PADDING = 25, 50_000


def octets(code, count=None):
    """A group of units: empty, or with a count of octets."""
    return group(code, [] if count is None else [number(OCTETS, count, 8)])


class Soak(Run):
    """Debits and sessions, for so many seconds."""

    def __init__(self, farm, given):
        super().__init__(farm, given.rate)
        self.seconds, self.ready = given.seconds, {client.name: [] for client in self.clients}

    def is_enough(self):
        return time.monotonic() > self.began + self.seconds

    def patience(self):
        return self.seconds + 1

    def next_of(self, client):
        """What a session goes on with, or else a new session or a debit."""
        ready = self.ready[client.name]
        if ready:
            return ready.pop(0)()
        if self.is_enough():
            return None
        if self.dice.random() < 0.5:
            units = octets(REQUESTED, self.dice.choice([800, 3200]))
            return self.asked(client, f"{client.name};{client.serial};d", EVENT, 0, self.account(), [units])
        return self.session(client, f"{client.name};{client.serial};s", 0, self.account())

    def account(self):
        return self.dice.choice(list(ACCOUNTS))

    def asked(self, client, name, kind, place, account, units, then=None):
        client.serial += 1
        padding = PADDING if self.dice.randrange(PADDED) == 0 else 0
        return Asked(client.serial, body_of(client.name, name, kind, place, account, units, padding), then=then)

    def session(self, client, name, place, account):
        """The next request of a session; what follows it is asked for a while after it was answered, if it is."""
        ends = place > 0 and self.dice.random() < 0.4
        kind = INITIAL if place == 0 else TERMINATION if ends else UPDATE
        units = [] if place == 0 else [octets(USED, self.dice.randrange(5_000))]
        units += [] if ends else [octets(REQUESTED)]
        follows = not ends and self.dice.random() < 0.9

        def then(_answer):
            if follows:
                ready = self.ready[client.name]
                asyncio.get_running_loop().call_later(self.dice.uniform(0, 2), ready.append, lambda: self.session(client, name, place + 1, account))

        return self.asked(client, name, kind, place, account, units, then)


async def played(run, audit):
    """Plays a run to its end, and gives the figures of its audit, and what is otherwise."""
    fault = None
    try:
        await run.play()
        await asyncio.sleep(run.farm.plan.interval)
        await run.farm.end_all()
    except Otherwise as it:
        fault = str(it)
    finally:
        run.end_records()
        await run.farm.kill_all()
    figures, found = audit_figures(run.farm, audit)
    return figures, [it for it in (fault, found) if it]


def soak(given, room):
    """One soak: its line of figures, and what is otherwise."""
    farm = Farm(room, given.program, Plan(("r1", "r2"), LINKS, ROUTES, ACCOUNTS, VALIDITY, 3, given.interval), given.seed)
    run = Soak(farm, given)
    figures, faults = asyncio.run(played(run, given.audit))
    counts = ", ".join(f"{count} {what}" for what, count in sorted(farm.count.items()))
    if faults and given.keep is not None:
        faults.append(f"{keep_records(farm, given.keep / f'soak-{given.seed}')} has what was written")
    return f"seed {given.seed}, {time.monotonic() - run.began:.0f} s: {counts}; {figures}", faults


def plant(given):
    """Whether the audit finds nothing of the program as it is, and each wrong body of it. Prints what it finds."""
    well, given.keep = True, None
    with tempfile.TemporaryDirectory(prefix="planted-") as folder:
        copy, given.program = planted.copy_of_repository(folder), Path(folder) / "program"
        for name in ["", *(given.plant or planted.names())]:
            kept = planted.planted(copy, name) if name else {}
            planted.build_live(copy, given.program)
            with tempfile.TemporaryDirectory(prefix="soak-") as room:
                figures, faults = soak(given, room)
            found = [it for it in faults if it.startswith("the audit")]
            well &= bool(found) == bool(name)
            told = "; ".join(found) or f"{'NOT FOUND OUT' if name else 'no difference'}{faults or ''}"
            print(f"{name or 'as it is'}: {told}; {figures}", flush=True)
            for path, text in kept.items():
                path.write_text(text)
    return well


def main():
    options = argparse.ArgumentParser(description="a farm under load and in trouble, recorded and audited")
    options.add_argument("--seconds", type=float)
    options.add_argument("--seed", type=int, default=1)
    options.add_argument("--rate", type=float, default=150, help="requests a second, of all clients")
    options.add_argument("--interval", type=float, default=1, help="the watchdog's, in seconds")
    options.add_argument("--program", type=Path, default=PROGRAM)
    options.add_argument("--audit", type=Path, default=AUDIT)
    options.add_argument("--keep", type=Path, default=Path(tempfile.gettempdir()), help="where what was written goes of a run that is otherwise")
    options.add_argument("--plant", nargs="*", metavar="NAME", help="looks whether the audit finds wrong bodies out")
    given = options.parse_args()
    end_when_told()
    given.seconds = given.seconds or (60 if given.plant is None else 20)
    if given.plant is not None:
        return 0 if plant(given) else 1
    with tempfile.TemporaryDirectory(prefix="soak-") as room:
        figures, faults = soak(given, room)
    print(f"{figures}: " + ("; ".join(f"OTHERWISE: {it}" for it in faults) or "no difference"), flush=True)
    return 1 if faults else 0


if __name__ == "__main__":
    sys.exit(main())
