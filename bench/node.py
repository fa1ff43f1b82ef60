#!/usr/bin/env python3
"""What a request takes at a relay and at a front, in memory: bench/node.py

It lays bench/node beside the crates of a copy of the repository, proves and builds it (`rt run`; what was proved here is
taken along), and prints a table in Markdown: a request through a relay and its answer back, with none and with 4,096 others
pending; and a request that is read, charged and answered by a front whose book has 1,000 or 100,000 entries. Each is from
octets read to octets to be written, the best of some runs, without sockets and threads. Nothing of it is part of the gate.
"""
import re
import subprocess
import sys
import tempfile
from pathlib import Path

from laid import build, lay

RUNS = 5
DEPS = "dia_avp dia_base dia_message cc_book cc_rating front_core relay_core relay_peers relay_routes anyhow hex"
PENDING = [0, 4_096]
ENTRIES = [1_000, 100_000]


def printed(program, word, number):
    """The times in the line that the program prints, each as the least of some runs."""
    runs = []
    for _ in range(RUNS):
        done = subprocess.run([program, word, str(number)], stdout=subprocess.PIPE, text=True, check=True)
        runs.append([int(digits) for digits in re.findall(r"(?:ns|there|back) (\d+)", done.stdout)])
    return [min(column) for column in zip(*runs)]


def row(what, nanoseconds):
    print(f"| {what} | {nanoseconds / 1000:.2f} | {1e9 / nanoseconds:,.0f} |")


def main():
    with tempfile.TemporaryDirectory() as name:
        program = build(lay(Path(name), "node", DEPS))
        print("| What | Microseconds | A second |")
        print("|---|---|---|")
        for pending in PENDING:
            there, back = printed(program, "relay", pending)
            row(f"a request through a relay, {pending:,} others pending", there)
            row("its answer", back)
            row("both", there + back)
        for entries in ENTRIES:
            row(f"a request at a front, {entries:,} entries", printed(program, "front", entries)[0])


if __name__ == "__main__":
    main()
