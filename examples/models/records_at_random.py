#!/usr/bin/env python3
"""Records of live farms chosen at random, put in order and played.

    records_at_random.py [--runs N] [--seed S] [--ports P | --held H | --wrong]
    records_at_random.py killed PROGRAM [--runs N] [--seed S] [--keep FOLDER]
    records_at_random.py write FOLDER SEED [--steps N] [--held H | --away]

runs N live farms (200) from the seed S (1) over all kinds of sites, and puts what their processes wrote down into a schedule,
clients without a record among them. The farm that plays it has to give each client what it received, octet for octet, and the
book what it came to. With --wrong the same runs are those of farms in which something goes wrong between the nodes (WRONG),
and each such farm has to be found out. With --ports each two nodes have so many ports, which are given out again one after
the other; with fewer than about ten a connection is here and there taken for another of the same port. With --held each worker
of a front holds so many requests, as a thread does; with more than one, no order is found here and there. `killed` runs farms over the ring whose fronts are killed
too, on a book that outlives them, and has PROGRAM, farm_runs, audit records and book: it has to find no difference, and the same book.
`write` puts the records of one run over the ring of relays into a folder, with their schedule; with --away a relay is away while
workers charge what it has sent. Exit status: 0, or 1 where something was found that must not be, or was not that must be.
"""
import argparse
import subprocess
import sys
import tempfile
from collections import Counter
from pathlib import Path
from types import SimpleNamespace

from at_random import RING, Dice, Requests
from each_end import scene_of
from live_farm import MOODS, LiveFarm, Process
from ordering import Audit
from random_requests import RandomRequests
from records import Finding
from site_data import CLIENT

RUNS = 200
SITES = Path(__file__).resolve().parent.parent / "sites"


# ---- Farms in which something goes wrong

class SendsTwice(LiveFarm):
    """Now and then a message is sent twice, as after a write that took a part of it."""

    def carry(self, end):
        if end.outbox and self.dice.one_in(40):
            end.outbox.append(end.outbox[-1])
        super().carry(end)


class SendsElsewhere(LiveFarm):
    """Now and then a message goes out on another connection of its node."""

    def carry(self, end):
        others = [it for it in end.process.ends.values() if it is not end and it.is_up and it.node == end.node]
        if end.is_up and end.outbox and others and not isinstance(end.outbox[-1], str) and self.dice.one_in(20):
            self.dice.one_of(others).outbox.append(end.outbox.pop())
        super().carry(end)


class LosesOne(LiveFarm):
    """Now and then a message is lost, and those behind it are not."""

    def carry(self, end):
        if len(end.outbox) > 1 and self.dice.one_in(10):
            end.outbox.pop(0)
        super().carry(end)


class Overtakes(LiveFarm):
    """Now and then a message overtakes the one before it."""

    def carry(self, end):
        if len(end.outbox) > 1 and self.dice.one_in(5):
            end.outbox.append(end.outbox.pop(-2))
        super().carry(end)


class Repeating(Process):
    """Now and then a finished job is collected again."""

    def collect(self, pool):
        job = pool.finished[0]
        super().collect(pool)
        if self.farm.dice.one_in(20):
            pool.finished.append(job)


class CollectsTwice(LiveFarm):
    process = Repeating


class ChargesAgain(LiveFarm):
    """Now and then a repeat is charged as if it were new."""

    def charge(self, at):
        kept = dict(self.book.kept)
        if self.dice.one_in(4):
            self.book.kept.clear()
        super().charge(at)
        self.book.kept = kept | self.book.kept


class ForgetsAtALoss(Process):
    """A relay that loses a connection does not send again what waits there for an answer."""

    def sends(self, outs):
        super().sends([out for out in outs if not out[1].flags & 0x10])


class FailsOverToNobody(LiveFarm):
    process = ForgetsAtALoss


def made_with(ports, held):
    """Live farms where the nodes of each pair have so many ports, and a worker holds so many requests."""
    return type("OtherFarm", (LiveFarm,), {"ports": ports, "held": held})


WRONG = [SendsTwice, SendsElsewhere, LosesOne, Overtakes, CollectsTwice, ChargesAgain, FailsOverToNobody]


# ---- Runs

def ran(seed, place, made=LiveFarm):
    """A live farm after its run, and the records of most of its processes: some clients have none."""
    dice = Dice(seed * 1_000_003 + place)
    dice.next()
    scene = scene_of(dice)
    farm = made(dice, scene.site)
    farm.requests = Requests(dice, scene) if scene.hosts else RandomRequests(dice, SimpleNamespace(site=scene.site, book=farm.book))
    farm.run(300 + dice.below(600))
    return farm, [(f"{it.names[0]}.record", bytes(it.file)) for it in farm.processes if it.kind != CLIENT or not dice.one_in(3)]


def differences(farm, audit):
    """What the farm that plays the records gives otherwise than the live one."""
    for name in (name for name in audit.owners if farm.site.nodes[name] == CLIENT):
        if [it for client, _, it in audit.world.received if client == name] != [it for client, it in farm.received if client == name]:
            yield f"{name} receives otherwise"
    if list(audit.world.book.report()) != list(farm.book.report()):
        yield "another book"


def found(seed, place, made=LiveFarm):
    farm, files = ran(seed, place, made)
    try:
        audit = Audit(farm.site, files).run()
    except Finding as finding:
        return [str(finding)], None
    return list(differences(farm, audit)), audit


def found_in(runs, seed, made=LiveFarm):
    """What must not be, in so many runs, and figures of what they have played."""
    faults, figures = [], Counter()
    for place in range(runs):
        told, audit = found(seed, place, made)
        faults += [f"records of run {place} of seed {seed}: {it}" for it in told]
        if audit:
            figures.update(step[0] for step in audit.steps)
            figures["received"] += len(audit.world.received)
    return faults, figures


def found_out(runs, seed):
    """Of each farm in which something goes wrong, the first run in which it is found out, or None."""
    for made in WRONG:
        yield made.__name__, next(((place, told[0]) for place in range(runs) for told in [found(seed, place, made)[0]] if told), None)


class Away(LiveFarm):
    """A relay is killed while its requests are with workers, each of which holds eight. It comes back once they are charged, in another
    order than they came, with some that came later."""

    held = 8

    def run(self, steps):
        self.connect(("c1.example", "r1.example"), ("c1.example", "f1.example"), ("r1.example", "f1.example"))
        self.debit("r1.example")
        self.kill(self.process_of("r1.example"))
        self.settle("notice")
        self.debit("f1.example")
        self.settle("pick", "charge", "finish", "collect")
        self.connect(("r1.example", "f1.example"), ("c1.example", "r1.example"))
        super().run(0)

    def settle(self, *words):
        while self.step(("read", "flush", *words)):
            pass

    def connect(self, *pairs):
        for pair in pairs:
            self.dial(pair)
            self.settle()

    def debit(self, peer):
        """The client sends eight requests, and a worker picks each that comes to a front."""
        for _ in range(8):
            self.send(next(it for it in self.ends() if (it.node, it.peer) == ("c1.example", peer)))
            self.settle("pick")


class Killed(LiveFarm):
    """The fronts are killed too, and their book is on disk."""

    is_stored = True


def audited(program, seed, place, folder):
    """What the program finds in a farm whose fronts are killed, and how many entries no record tells; None where it finds nothing."""
    dice = Dice(seed * 1_000_003 + place)
    farm = Killed(dice, RING.site)
    farm.weights = dice.one_of([it | {"kill": 3} for it in MOODS])
    farm.requests = Requests(dice, RING)
    farm.run(300 + dice.below(600))
    files = [folder / f"{it.names[0]}.record" for it in farm.processes]
    for process, file in zip(farm.processes, files):
        file.write_bytes(bytes(process.file))
    book = folder / "book.entries"
    book.write_text("".join(f"{line}\n" for line in farm.exported))
    ran = subprocess.run([program, "audit", "--site", SITES / "ring.toml", "--book", book, *files], capture_output=True, text=True, timeout=120, check=False)
    if ran.returncode:
        return ran.stderr.strip().replace(f"{folder}/", ""), 0
    _, untold, *report = ran.stdout.splitlines(keepends=True)
    if "".join(report) != "".join(farm.book.report()):
        return "another book", 0
    return None, int(untold.split()[1])


def killed(program, runs, seed, keep):
    """Runs farms whose fronts are killed; the exit status."""
    faults = total = 0
    with tempfile.TemporaryDirectory() as room:
        for place in range(runs):
            folder = keep / str(place) if keep else Path(room)
            folder.mkdir(parents=True, exist_ok=True)
            fault, untold = audited(program, seed, place, folder)
            total += untold
            if fault:
                faults += 1
                print(f"run {place} of seed {seed}: {fault}")
    print(f"{runs} random runs whose fronts were killed, {total} entries that no record tells: {faults} faults")
    return 1 if faults else 0


def write(folder, seed, steps, made):
    dice = Dice(seed)
    farm = made(dice, RING.site)
    farm.requests = Requests(dice, RING)
    farm.run(steps)
    files = [(f"{it.names[0]}.record", bytes(it.file)) for it in farm.processes]
    folder.mkdir(parents=True, exist_ok=True)
    for name, octets in files:
        (folder / name).write_bytes(octets)
    (folder / "farm.schedule").write_text(Audit(farm.site, files).run().text())
    return 0


def main(words):
    parser = argparse.ArgumentParser(usage=__doc__)
    parser.add_argument("--runs", type=int, default=RUNS)
    parser.add_argument("--seed", type=int, default=1)
    parser.add_argument("--ports", type=int)
    parser.add_argument("--held", type=int, default=1)
    parser.add_argument("--steps", type=int, default=150)
    parser.add_argument("--away", action="store_true")
    parser.add_argument("--wrong", action="store_true")
    parser.add_argument("--keep", type=Path)
    if words[:1] == ["killed"] and len(words) > 1:
        chosen = parser.parse_args(words[2:])
        return killed(Path(words[1]).resolve(), chosen.runs, chosen.seed, chosen.keep)
    if words[:1] == ["write"] and len(words) > 2:
        chosen = parser.parse_args(words[3:])
        return write(Path(words[1]), int(words[2]), chosen.steps, Away if chosen.away else made_with(None, chosen.held))
    chosen = parser.parse_args(words)
    if chosen.wrong:
        told = dict(found_out(chosen.runs, chosen.seed))
        for name, it in told.items():
            print(f"{name}: {f'run {it[0]}: {it[1]}' if it else 'not found out'}")
        return 0 if all(told.values()) else 1
    faults, figures = found_in(chosen.runs, chosen.seed, made_with(chosen.ports, chosen.held))
    for fault in faults:
        print(fault)
    received = figures.pop("received")
    print(f"{chosen.runs} random runs with {sum(figures.values())} steps and {received} messages received: {len(faults)} faults")
    return 1 if faults else 0


if __name__ == "__main__":
    sys.exit(main(sys.argv[1:]))
