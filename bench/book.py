#!/usr/bin/env python3
"""What a request takes in the book, how long its history may be, a sweep, and what an entry takes of memory: bench/book.py

It lays bench/book beside the crates of a copy of the repository, proves and builds it (`rt run`; what was proved here is
taken along), and says what that measured: the least of ten windows of 1,250 requests of all kinds at so many entries, a
sweep that ends 10 of so many open sessions and one that ends none, the TERMINATION of the session that opened first of so
many, the same window with so many accounts, and the octets of memory that the process has more for each entry. Each is the best of some runs. Nothing of it is
part of the gate.
"""
import subprocess
import sys
import tempfile
from pathlib import Path

from laid import build, lay

DEPS = "dia_base dia_avp cc_view cc_rating cc_book anyhow"
ACCOUNTS = [1_000, 1_000_000]
ENTRIES = [1_000, 30_000, 1_000_000]
OPEN = [1_000, 100_000]
RUNS = 3


def printed(program, *words):
    """The second number in each line that the program prints."""
    done = subprocess.run([program, *map(str, words)], stdout=subprocess.PIPE, text=True, check=True)
    return [[int(word) for word in line.split() if word.isdecimal()][1] for line in done.stdout.splitlines()]


def least(program, *words):
    """The least of each over some runs."""
    return [min(column) for column in zip(*(printed(program, *words) for _ in range(RUNS)))]


def measure(program):
    takes = least(program, "takes", *ENTRIES)
    for entries, took in zip(ENTRIES, takes):
        print(f"a request at {entries} entries: {took} ns, {took / takes[0]:.2f} times the first")
    for sessions in OPEN:
        some, none = least(program, "sweep", sessions)
        print(f"a sweep that ends 10 of {sessions} sessions: {some} ns, one that ends none: {none} ns")
        print(f"the TERMINATION of the first of {sessions} sessions: {least(program, 'end', sessions)[0]} ns")
    charges = {accounts: least(program, "accounts", accounts)[0] for accounts in ACCOUNTS}
    for accounts, took in charges.items():
        print(f"a request with {accounts} accounts: {took} ns, {took / charges[ACCOUNTS[0]]:.2f} times the first")
    empty = printed(program, "memory", 0)[0]
    for entries in ENTRIES[1:]:
        more = printed(program, "memory", entries)[0] - empty
        print(f"memory of {entries} entries: {more} octets, {more / entries:.0f} an entry")


def main():
    with tempfile.TemporaryDirectory() as name:
        measure(build(lay(Path(name), "book", DEPS)))


if __name__ == "__main__":
    main()
