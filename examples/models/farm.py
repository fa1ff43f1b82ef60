#!/usr/bin/env python3
"""A model of the whole farm, clients, relays and fronts, written from the rules: it knows nothing of the program.

    farm.py replay [--site FILE]     prints what the program has to print for a schedule, over the row site or another
    farm.py report [--site FILE]     the same without what clients receive
    farm.py write FOLDER             writes the model's own schedules into a folder, each with its output; those over
                                     sites of their own below sites/
    farm.py random KIND SEED         prints a schedule chosen at random; KIND is relays, skips, sweeps,
                                     changes, ring or ends
    farm.py check FOLDER             plays worked examples, compares each .schedule of the folder with its .out, and
                                     compares random runs of farms whose relays choose identifiers in different ways

Its parts: diameter.py has messages, credit_control.py requests and answers, book.py the accounts, terms.py changes of the terms, site_data.py what a
site is, row_site.py the row site, site_file.py how a site file is read, nodes.py clients, fronts and relays, world.py
the farm, its steps and its output, program.py the command line, messages.py, scenarios.py and site_stories.py the
schedules written by hand, ends.py those of connections of which the two nodes learn apart, deviations.py those of
clients that deviate from the rules, changes.py those in which the terms change, at_random.py those that are chosen, rows.py and each_end.py the worked examples.
Three programs stand beside it: request.py prints a request for a schedule of one's own, follow.py what a schedule puts
in flight at each step, and at_large.py compares the program with the model in random runs.
"""
import sys
from pathlib import Path

import each_end
import program
from at_random import KINDS, STORED, STORED_BY_SITE, Dice, schedule, site_of_kind
from changes import CHANGES
from deviations import DEVIATIONS, DEVIATIONS_OF_THE_FIELD
from each_end import found_in
from ends import ENDS, ENDS_OF_THE_RING
from program import run
from row_site import ROW_SITE
from rows import ROWS, failures
from scenarios import SCENARIOS
from site_stories import STORIES, site_named
from world import lowest_free

RANDOM_RUNS = 40
HOPS = 2**32


def lowest():
    return lowest_free


def highest():
    return lambda used, old: next(hop for hop in range(HOPS - 1, 0, -1) if hop not in used)


def rising(last=HOPS - 3):
    """From the last one given, round the end."""

    def choose(used, old):
        nonlocal last
        last = next(hop % HOPS for hop in range(last + 1, last + HOPS) if hop % HOPS not in used)
        return last
    return choose


def kept(last=HOPS - 3):
    """On a new connection the identifier that the request had, if it is free there."""
    fresh = rising(last)
    return lambda used, old: old if old is not None and old not in used else fresh(used, old)


def scattered():
    dice = Dice(7)

    def choose(used, old):
        hop = dice.next()
        return hop if hop not in used else choose(used, old)
    return choose


def as_the_program():
    """Rising with the highest bit set, by the relays themselves (`RisingRelay`)."""
    return


# Ways in which relays may choose Hop-by-Hop Identifiers.
CHOICES = [lowest, highest, rising, kept, scattered, as_the_program]


def stored_schedules():
    """The model's own schedules by name, each with its site."""
    for name, script in SCENARIOS.items():
        yield name, ROW_SITE, script().text()
    for name, (kind, seed) in STORED.items():
        yield name, ROW_SITE, schedule(kind, seed)
    for name, script in ENDS.items():
        yield name, ROW_SITE, script().text()
    for name, script in ENDS_OF_THE_RING.items():
        yield f"sites/ring/{name}", site_named("ring"), script().text()
    for name, script in CHANGES.items():
        yield name, ROW_SITE, script().text()
    for name, script in DEVIATIONS.items():
        yield name, ROW_SITE, script().text()
    for name, script in DEVIATIONS_OF_THE_FIELD.items():
        yield f"sites/field/{name}", site_named("field"), script().text()
    for site, stories in STORIES.items():
        for name, script in stories.items():
            yield f"sites/{site}/{name}", site_named(site), script().text()
    for site, chosen in STORED_BY_SITE.items():
        for name, (kind, seed) in chosen.items():
            yield f"sites/{site}/{name}", site_named(site), schedule(kind, seed)


def write(folder):
    for name, site, text in stored_schedules():
        path = folder / f"{name}.schedule"
        path.parent.mkdir(parents=True, exist_ok=True)
        path.write_text(text)
        path.with_suffix(".out").write_text(run(text.encode(), site)[0])
    return 0


def wanted(path):
    """What stands beside a schedule: output, standard error and exit status."""
    texts = [path.with_suffix(suffix) for suffix in (".out", ".err", ".status")]
    output, told, status = (text.read_text() if text.exists() else "" for text in texts)
    return output, told, int(status or 0)


def schedules_in(folder):
    """The stored schedules, each with its site: one that stands in a folder of sites/ has the site of that name."""
    for path in sorted(folder.glob("*/*.schedule")):
        yield path, ROW_SITE
    for path in sorted(folder.glob("sites/*/*.schedule")):
        yield path, site_named(path.parent.name)


def differences(folder):
    """Stored schedules that the model does not play as stored, or whose output the choice of identifiers changes."""
    for path, site in schedules_in(folder):
        for choice in CHOICES:
            if run(path.read_bytes(), site, choice()) != wanted(path):
                yield f"{path.name}: another output, identifiers {choice.__name__}"


def dependent_runs():
    """Random runs whose output depends on how relays choose identifiers."""
    for kind in KINDS:
        for seed in range(RANDOM_RUNS):
            octets, site = schedule(kind, seed).encode(), site_of_kind(kind)
            if len({run(octets, site, choice()) for choice in CHOICES}) != 1:
                yield f"random {kind} {seed}: the output depends on the choice of identifiers"


def check(folder):
    faults = [*failures(), *differences(folder), *dependent_runs(), *each_end.failures(), *found_in(RANDOM_RUNS, 1)[0]]
    for fault in faults:
        print(fault)
    stored = len(list(schedules_in(folder)))
    print(f"{len(ROWS) + len(each_end.ROWS)} worked examples, {stored} stored schedules, {RANDOM_RUNS} random runs of each "
          f"of {len(KINDS)} kinds with {len(CHOICES)} choices of identifiers, {RANDOM_RUNS} of nodes that learn apart: "
          f"{len(faults)} faults")
    return 1 if faults else 0


def main(arguments):
    match arguments:
        case ["replay" | "report", *_]:
            return program.main(arguments)
        case ["write", folder]:
            return write(Path(folder))
        case ["random", kind, seed] if kind in KINDS and seed.isdecimal():
            sys.stdout.write(schedule(kind, int(seed)))
            return 0
        case ["check", folder]:
            return check(Path(folder))
    print(__doc__, file=sys.stderr)
    return 2


if __name__ == "__main__":
    sys.exit(main(sys.argv[1:]))
