#!/usr/bin/env python3
"""Charges a second of a pool with 1, 2 and 4 workers on one book, with 1, 32, 128 and 256 requests on their way, and the share of
the time for which the book works: bench/pool.py [--before REVISION]

It lays bench/pool beside the crates of a copy of the repository, proves and builds it (`rt run`; what was proved here is
taken along), and has it charge so many distinct debits, each of these several times; it says the best. The share is
what the book alone takes for the same requests on one thread, by what the pool takes for them. With --before it does the same with
the crates of another revision, by turns, and says how much faster this one is. Nothing of it is part of the gate, and on a machine
with other work the figures say little.
"""
import re
import subprocess
import sys
import tempfile
from pathlib import Path

from laid import TOP, build, lay

JOBS, RUNS = 20_000, 5
WORKERS, WINDOWS = (1, 2, 4), (1, 32, 128, 256)
DEPS = "book_file dia_avp dia_base dia_grammar dia_message cc_view cc_book cc_rating cc_shared farm_clock front_pool anyhow hex"


def run(program, workers, window):
    told = subprocess.run([program, str(workers), str(JOBS), str(window)], capture_output=True, text=True, check=False)
    found = re.search(r"micros (\d+) locked (\d+) rest (\d+)", told.stdout)
    if found is None:
        sys.exit(told.stdout + told.stderr)
    return tuple(int(number) for number in found.groups())


def program_of(room, top):
    """The measuring program over the crates that stand there."""
    room.mkdir()
    return build(lay(room, "pool", DEPS, top))


def tell(now, before, workers, window):
    micros, locked, rest = min(now)
    share = 100 * locked // micros
    beside = f", {min(before)[0] / micros:.2f} times as fast as before" if before else ""
    print(f"{workers} workers, {window} on their way: {JOBS * 1_000_000 // micros} charges a second, the book works {share}% of the time, at rest {rest} kB{beside}", flush=True)


def main():
    revision = sys.argv[2] if sys.argv[1:2] == ["--before"] and len(sys.argv) == 3 else None
    with tempfile.TemporaryDirectory() as name:
        room = Path(name)
        programs = [program_of(room / "now", TOP)]
        if revision:
            subprocess.run(["git", "clone", "-q", TOP, room / "then"], check=True)
            subprocess.run(["git", "checkout", "-q", revision], cwd=room / "then", check=True)
            programs.append(program_of(room / "before", room / "then"))
        for workers in WORKERS:
            for window in WINDOWS:
                runs = [[run(program, workers, window) for program in programs] for _ in range(RUNS)]
                tell([each[0] for each in runs], [each[1] for each in runs] if revision else [], workers, window)


if __name__ == "__main__":
    main()
