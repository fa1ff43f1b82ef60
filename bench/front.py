#!/usr/bin/env python3
"""What fronts carry, ours beside one of another make: bench/front.py [--seconds 3] [--program PROGRAM] [--fronts NAME,..] [--write]

One or four clients, each connected with the front over TCP on this machine, debit one account, with 1, 32 or 256 requests unanswered
on each connection. Every answer is checked: Hop-by-Hop and End-to-End Identifier, Session-Id, Result-Code, and that what was
asked for is granted. In the end the account is asked, by CHECK_BALANCE, for all that is to be left, which it is to have, and for a
block more, which it is not. Prints a table in Markdown, with the columns of bench/field.py. The fronts:

- farm 1, farm 2, farm 4: this one (./farm prove relay builds it), with so many workers; 2 is what a site has that says nothing;
- stored 1, stored 2, stored 4: the same, on a book in a file of its own (./farm prove book), on the disk of the system's folder
  for temporary files, or of TMPDIR;
- slow 1, slow 2, slow 4: the same, where each sync of the disk takes a millisecond more (a small library, LD_PRELOAD; it needs cc);
- otp: a credit-control server on Erlang/OTP's diameter in the plainest way (bench/field/front.escript; Debian: erlang-diameter).
  Its account is a row of an ets table. It debits EVENTs; it has no sessions, keeps nothing of a request, and so charges one
  that is sent again a second time.

Each row has a front of its own, started for it, whose clients first ask for half a second that does not count: the book of ours keeps
each request, and takes 1,048,576. So its memory grows by some 760 octets a request, and that of the other does not.
With --write all of it becomes bench/figures/fronts.md. It needs rustc for the ends (bench/field/ends.rs). Not
part of the gate. What is compared are ratios of one run, on a machine without other work.
"""
import os
import shutil
import signal
import subprocess
import sys
import tempfile
import time
from contextlib import contextmanager
from pathlib import Path

sys.dont_write_bytecode = True

from field import CLIENTS, HERE, PORT, WINDOWS, Bench, ask, await_port, measure, row_of  # noqa: E402

OPENING = 1_000_000_000
# What a request asks for and costs: 3200 octets are four blocks of 1000, at 5 each.
ASKED, BLOCK, PRICE = 3_200, 1_000, 5
COST = PRICE * -(-ASKED // BLOCK)


def site(workers):
    lines = ['realm = "ocs.example"', "validity = 600", "currency = 978", "exponent = -2", "watchdog = 30000", f"workers = {workers}"]
    lines += ["[[node]]", 'name = "f1.example"', 'kind = "front"', f'address = "127.0.0.1:{PORT}"']
    for name in CLIENTS:
        lines += ["[[node]]", f'name = "{name}"', 'kind = "client"', "[[link]]", f'from = "{name}"', 'to = "f1.example"']
    lines += ["[[tariff]]", "group = 10", 'kind = "octets"', f"block = {BLOCK}", f"price = {PRICE}", "quantum = 5000", "greatest = 10000"]
    lines += ["[[account]]", "type = 0", 'id = "491700000001"', f"opening = {OPENING}"]
    return "\n".join(lines) + "\n"


def farm(workers):
    def words(room, program):
        Path(f"{room}/site{workers}.toml").write_text(site(workers))
        return [program, "front", "--site", f"{room}/site{workers}.toml"] if os.path.exists(program) else None
    return words


def stored(workers):
    """A farm on a book that is made for it."""
    def words(room, program):
        served = farm(workers)(room, program)
        makes = HERE.parent / "crates/farm_book/out/farm_book"
        if not served or not makes.exists():
            return None
        book = tempfile.mkdtemp(dir=room) + "/farm.book"
        subprocess.run([makes, "book", "create", book, "--site", served[-1]], stdout=subprocess.DEVNULL, check=True)
        return [*served, "--book", book]
    return words


def slow(workers):
    """A farm on such a book, on a disk that takes a millisecond more for each sync."""
    def words(room, program):
        served = stored(workers)(room, program)
        if not served or not shutil.which("cc"):
            return None
        library = f"{room}/slow_sync.so"
        subprocess.run(["cc", "-shared", "-fPIC", "-O2", "-o", library, HERE / "field/slow_sync.c"], check=True)
        return ["env", f"LD_PRELOAD={library}", *served]
    return words


def otp(_, __):
    return ["escript", str(HERE / "field/front.escript"), str(PORT), str(HERE / "cc.dia"), str(OPENING)] if shutil.which("escript") else None


FRONTS = {f"{name} {n}": of(n) for name, of in (("farm", farm), ("stored", stored), ("slow", slow)) for n in (1, 2, 4)} | {"otp": otp}


@contextmanager
def started(name, words, room):
    """A front, once it listens."""
    with open(f"{room}/{name}.log", "w") as log:
        front = subprocess.Popen(words, stdout=log, stderr=log, stdin=subprocess.DEVNULL, start_new_session=True)
    try:
        await_port(PORT)
        time.sleep(1)
        yield front
    finally:
        os.killpg(front.pid, signal.SIGKILL)
        front.wait()


def fault_of_account(room, answers):
    """What is wrong with the account after so many debits, or an empty text."""
    left = (OPENING - COST * answers) // PRICE * BLOCK
    words = [f"{room}/ends", "check", f"127.0.0.1:{PORT}", CLIENTS[0], "ocs.example", str(left), str(left + BLOCK)]
    told = subprocess.run(words, capture_output=True, text=True, timeout=60)
    found = {"0 1": "", "0 0": "the account has too much", "1 1": "the account has too little"}
    return found.get(" ".join(told.stdout.split()), f"the account tells nothing: {told.stdout or told.stderr}".strip())


def row(name, room, words, names, window, seconds):
    """The figures of a front of its own."""
    with started(name, words, room) as front:
        warm, faults = ask(room, CLIENTS[:1], 32, 0.5, ASKED)
        time.sleep(0.3)
        it = measure(room, front.pid, names, window, seconds, ASKED)
        time.sleep(0.3)
        account = fault_of_account(room, it.answers + int(warm.get("answers", 0)))
    it.faults = ", ".join(text for text in (faults, it.faults, account) if text)
    return it


def run(name, room, program, seconds):
    """The figures of a front, by connections and window."""
    figures = {}
    for names in (CLIENTS[:1], CLIENTS):
        for window in WINDOWS:
            words = FRONTS[name](room, program)
            if not words:
                print(f"front: {name} is not there", file=sys.stderr)
                return figures
            it = figures[len(names), window] = row(name, room, words, names, window, seconds)
            print(row_of(name, len(names), window, it), flush=True)
    return figures


SECTION = """What fronts carry over TCP on one machine: debits of one account; written by `bench/front.py --write`, whose head says what each of them is and does. The number behind `farm` is that of its workers. Every answer was checked, and the account in the end. {machine}

{table}

What these fronts carry as a multiple of what OTP's does in the same run, and behind it what they take of a processor for a request, as a share of what OTP's takes:

{ratios}
"""


def ratios(figures):
    """What ours carry of what the other does, and take, for each number of connections and each window."""
    ours = [name for name in figures if name != "otp" and figures[name]]
    if not ours:
        return ""
    lines = ["| Connections | Window | " + " | ".join(ours) + " |", "|" + "---|" * (len(ours) + 2)]
    for place, other in figures.get("otp", {}).items():
        parts = [f"{it.rate / max(other.rate, 1):.2f}, {it.cpu / max(other.cpu, 0.01):.2f}" for it in (figures[name][place] for name in ours)]
        lines.append("| " + " | ".join([str(place[0]), str(place[1]), *parts]) + " |")
    return "\n".join(lines)


def main():
    """The status: 1 where one of ours was not as it is to be."""
    figures = Bench("Fronts", list(FRONTS), run, SECTION, ratios).measure(__doc__)
    return 1 if any(it.faults for name, of_it in figures.items() if name != "otp" for it in of_it.values()) else 0


if __name__ == "__main__":
    sys.exit(main())
