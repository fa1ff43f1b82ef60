#!/usr/bin/env python3
"""The program at large: random schedules over random sites, played by the program and by the model, octet for octet.

    at_large.py PROGRAM [--runs N] [--seed S] [--jobs J] [--folder FOLDER]
                                    so many runs (1000) from this seed (1), so many at a time (1); where the two differ
                                    the run is kept in the folder (at-large), with its shortest schedule
    at_large.py PROGRAM --run PLACE [--seed S]      the run at this place alone
    at_large.py PROGRAM --again FOLDER              a run that was kept, once more
    at_large.py --unvisited [--runs N] [--seed S]   the model alone: which of its lines no run comes to

A run (random_runs.py) has a site, the row site or one chosen at random (random_sites.py), and a schedule of 20 to 500
steps that are chosen where the model's farm stands, with messages of every kind (random_requests.py); then what is
under way is mostly brought home. Now and then a relay gets as many requests as may be pending, a schedule has a line
that is no step, or a site file a key that is refused. The program gets them by `replay` and by `report`; its standard
output, standard error and exit status have to be the model's.

A relay sends the requests of a lost connection again in the order of Hop-by-Hop Identifiers, which it may choose as it
likes. Here the model chooses them as the program is documented to: those that became free last first. A
difference that another choice explains is told as such. Exit status: 0, or 1 where there was a difference.
"""
import argparse
import subprocess
import sys
import time
from collections import Counter
from concurrent.futures import ProcessPoolExecutor
from functools import partial
from pathlib import Path

from credit_control import (CHECK_BALANCE_RESULT, COST_INFORMATION, FINAL_UNIT_INDICATION, GRANTED_UNITS,
                            MULTIPLE_SERVICES, RESULT_CODE, VALIDITY_TIME)
from diameter import ERROR, FAILED_AVP, PROXY_INFO, Message, first, split
from farm import CHOICES
from program import REFUSED, run
from random_runs import Case, case_at
from row_site import ROW_SITE
from site_file import SiteFault, site_of
from visits import Visits

# How long the program may take for a schedule.
SECONDS = 120
AVP_NAMES = {GRANTED_UNITS: "Granted-Service-Unit", FINAL_UNIT_INDICATION: "Final-Unit-Indication",
             COST_INFORMATION: "Cost-Information", CHECK_BALANCE_RESULT: "Check-Balance-Result",
             VALIDITY_TIME: "Validity-Time", FAILED_AVP: "Failed-AVP", PROXY_INFO: "Proxy-Info"}


# ---- The two sides of a run

def of_model(case, choose=None):
    """What `replay` and `report` give: standard output, standard error and exit status, as octets."""
    try:
        site = ROW_SITE if case.site is None else site_of(case.site)
    except SiteFault as fault:
        return [(b"", f"{fault}\n".encode(), REFUSED)] * 2
    output, told, status = run(case.schedule, site, choose() if choose else None)
    report = output[output.find("\nentries ") + 1:]
    return [(it.encode(), told.encode(), status) for it in (output, report)]


def of_program(program, case, room):
    """The same of the program; `room` is a folder for the site file."""
    path = room / "site.toml"
    if case.site is not None:
        path.write_bytes(case.site)
    words = [] if case.site is None else ["--site", path]
    return [played(program, [command, *words], case.schedule) for command in ("replay", "report")]


def played(program, words, schedule):
    try:
        done = subprocess.run([program, *words], input=schedule, capture_output=True, timeout=SECONDS)
    except subprocess.TimeoutExpired:
        return b"", f"no end after {SECONDS} seconds\n".encode(), None
    return done.stdout, done.stderr, done.returncode


def differs(program, room, case):
    return of_model(case) != of_program(program, case, room)


def shortest(case, fails):
    """The case with lines of its schedule left out, ever fewer at once, as long as it still fails."""
    lines = case.schedule.splitlines(keepends=True)
    size = len(lines)
    while size:
        at = 0
        while at < len(lines):
            fewer = lines[:at] + lines[at + size:]
            if fails(Case(case.site, b"".join(fewer))):
                lines = fewer
            else:
                at += size
        size //= 2
    return Case(case.site, b"".join(lines))


# ---- What is told

def keep(case, program, room, folder):
    """Writes a difference into a folder: the case as it was found, its shortest schedule, and both sides of that."""
    folder.mkdir(parents=True, exist_ok=True)
    if case.site is not None:
        (folder / "site.toml").write_bytes(case.site)
    (folder / "found.schedule").write_bytes(case.schedule)
    short = shortest(case, partial(differs, program, room))
    (folder / "shortest.schedule").write_bytes(short.schedule)
    for name, sides in (("model", of_model(short)), ("program", of_program(program, short, room))):
        for command, (output, told, status) in zip(("replay", "report"), sides):
            (folder / f"{command}.{name}").write_bytes(output + told + f"status {status}\n".encode())
    return short


def explained(program, room, case):
    """Whether another choice of identifiers makes the model give what the program gives."""
    found = of_program(program, case, room)
    return any(of_model(case, choice) == found for choice in CHOICES)


def told_difference(case, program, room, folder):
    short = keep(case, program, room, folder)
    reason = " (explained by another choice of identifiers)" if explained(program, room, short) else ""
    lines = len(short.schedule.splitlines())
    return f"differs{reason}, in {lines} lines: {folder}; again: at_large.py PROGRAM --again {folder}"


def figures_of(case, sides):
    """What a run's output shows, by kind and name."""
    (output, told, status), _ = sides
    site = "the row site" if case.site is None else "a site of a file"
    figures = Counter({("runs", site): 1, ("exit status", status): 1})
    if told:
        figures["refused", " ".join(word for word in told.decode().split() if not word[0].isdigit())] += 1
    for line in output.decode().splitlines():
        if line.startswith("recv "):
            figures.update(figures_of_message(Message.read(bytes.fromhex(line.split()[-1]))))
    return figures


def figures_of_message(message):
    """The Result-Codes of an answer and of its services, and which AVPs are among those that not every answer has."""
    avps = split(message.body)
    services = [split(avp.value) for avp in avps if avp.has_code(MULTIPLE_SERVICES)]
    flag = " with the flag E" if message.flags & ERROR else ""
    yield "answers", f"{result_code(avps)}{flag}"
    for inner in services:
        yield "services in answers", result_code(inner)
    for avp in {avp.code for part in (avps, *services) for avp in part if avp.vendor == 0}:
        if avp in AVP_NAMES:
            yield "AVPs in answers", AVP_NAMES[avp]


def result_code(avps):
    return int.from_bytes(first(avps, RESULT_CODE).value)


def told_figures(figures, seconds):
    for kind in dict.fromkeys(kind for kind, _ in figures):
        names = {name: count for (known, name), count in figures.items() if known == kind}
        parts = ", ".join(f"{name} {count}" for name, count in sorted(names.items(), key=lambda it: str(it[0])))
        yield f"{kind}: {sum(names.values())} ({parts})"
    yield f"{seconds:.0f} seconds"


# ---- Runs

def one_run(program, seed, folder, place):
    """Figures of the run at this place, and what is told of a difference, or None."""
    case, figures = case_at(seed, place)
    sides = of_model(case)
    figures.update(figures_of(case, sides))
    room = folder / f"{seed}-{place}"
    room.mkdir(parents=True, exist_ok=True)
    differing = sides != of_program(program, case, room)
    told = told_difference(case, program, room, room) if differing else None
    if not differing:
        for path in room.iterdir():
            path.unlink()
        room.rmdir()
    return figures, told


def compare(program, seed, places, jobs, folder):
    began, figures, differences = time.monotonic(), Counter(), 0
    turn = partial(one_run, program, seed, folder)
    with ProcessPoolExecutor(jobs) as pool:
        for found, told in pool.map(turn, places, chunksize=4):
            figures.update(found)
            if told:
                differences += 1
                print(told, flush=True)
    if not any(folder.iterdir()):
        folder.rmdir()
    for line in told_figures(figures, time.monotonic() - began):
        print(line)
    print(f"{len(places)} runs: {differences} differences")
    return 1 if differences else 0


def again(program, folder):
    site = folder / "site.toml"
    case = Case(site.read_bytes() if site.exists() else None, (folder / "shortest.schedule").read_bytes())
    if not differs(program, folder, case):
        print("no difference")
        return 0
    for name, sides in (("model", of_model(case)), ("program", of_program(program, case, folder))):
        for output, told, status in sides:
            print(f"{name}, status {status}:\n{output.decode(errors='replace')}{told.decode(errors='replace')}")
    return 1


def unvisited(seed, places):
    with Visits() as visits:
        for place in places:
            of_model(case_at(seed, place)[0])
    for line in visits.never():
        print(line)
    return 0


def main(words):
    parser = argparse.ArgumentParser(prog="at_large.py", description=__doc__, allow_abbrev=False,
                                     formatter_class=argparse.RawDescriptionHelpFormatter)
    parser.add_argument("program", nargs="?", type=Path)
    parser.add_argument("--runs", type=int, default=1000)
    parser.add_argument("--run", type=int)
    parser.add_argument("--seed", type=int, default=1)
    parser.add_argument("--jobs", type=int, default=1)
    parser.add_argument("--folder", type=Path, default=Path("at-large"))
    parser.add_argument("--again", type=Path)
    parser.add_argument("--unvisited", action="store_true")
    arguments = parser.parse_args(words)
    places = range(arguments.runs) if arguments.run is None else [arguments.run]
    if arguments.unvisited:
        return unvisited(arguments.seed, places)
    if arguments.program is None:
        parser.error("which program?")
    program = arguments.program.resolve()
    if arguments.again:
        return again(program, arguments.again)
    return compare(program, arguments.seed, places, arguments.jobs, arguments.folder)


if __name__ == "__main__":
    sys.exit(main(sys.argv[1:]))
