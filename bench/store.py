#!/usr/bin/env python3
"""What a row takes to store in a file, by batches, beside SQLite itself, and how long a book takes to open: bench/store.py [--unproved] [FOLDER]

It lays bench/store beside the crates of a copy of the repository, proves and builds it (`rt run`; what was proved here is taken
along), or builds it unproved (`rt try`, some hundred times slower: only to see that it runs). It writes books of 100,000 rows
(1,000 unproved) in batches of 1, 32 and 256 rows, each of which is a commit with one sync, and opens the last one again. FOLDER
is where the files lie, and so the disk that is measured; without it they lie in a folder of the system's for temporary files.
A row holds a request of one service and its reply, some 230 octets; to make and spell it is part of what is measured. With each row
goes the balance of its account, of a thousand. Beside it stands what a sync alone takes there, and what the same rows take in the same
tables and batches by Python's sqlite3, which is handed their octets as they are (WAL, synchronous = FULL: one sync a commit). Nothing of
it is part of the gate.
"""
import os
import sqlite3
import subprocess
import sys
import tempfile
import time
from pathlib import Path

from laid import build, lay

DEPS = "dia_base dia_avp cc_view book_beside book_rows book_store book_file anyhow"
ROWS = 100_000
# How many accounts the rows charge, by turns.
ACCOUNTS = 1_000
BATCHES = [1, 32, 256]
SYNCS = 200


def sync_alone(folder):
    """The median of what a sync of 288 octets more takes, in microseconds."""
    took = []
    with open(folder / "sync", "wb", buffering=0) as file:
        for _ in range(SYNCS):
            began = time.perf_counter()
            file.write(bytes(288))
            os.fdatasync(file.fileno())
            took.append(time.perf_counter() - began)
    return sorted(took)[SYNCS // 2] * 1e6


def microseconds(words):
    """The last number of each line that the program prints."""
    done = subprocess.run(words, stdout=subprocess.PIPE, text=True, check=True)
    return [int(line.split()[-1]) for line in done.stdout.splitlines()]


def by_sqlite(file, batch):
    """The microseconds that the rows of a file take in the same batches by SQLite itself."""
    ours, other = sqlite3.connect(file), sqlite3.connect(f"{file}.stock", isolation_level=None)
    rows, (book,) = ours.execute("SELECT octets FROM entry ORDER BY rowid").fetchall(), ours.execute("SELECT octets FROM book").fetchone()
    ours.close()
    for words in ("PRAGMA page_size = 4096", "PRAGMA journal_mode = WAL", "PRAGMA synchronous = FULL", "CREATE TABLE entry (octets BLOB NOT NULL)", "CREATE TABLE book (octets BLOB NOT NULL)",
                  "CREATE TABLE account (balance BLOB NOT NULL)"):
        other.execute(words)
    began = time.perf_counter()
    for first in range(0, len(rows), batch):
        other.execute("BEGIN IMMEDIATE")
        other.executemany("INSERT INTO entry (octets) VALUES (?)", rows[first : first + batch])
        places = range(first, min(first + batch, len(rows)))
        other.executemany("REPLACE INTO account (rowid, balance) VALUES (?, ?)", [(place % ACCOUNTS, b"%d" % (1_000_000_000 - place)) for place in places])
        other.execute("REPLACE INTO book (rowid, octets) VALUES (1, ?)", (book,))
        other.execute("COMMIT")
    took = time.perf_counter() - began
    other.close()
    return took * 1e6


def measure(run, folder, rows):
    print(f"a sync of 288 octets: {sync_alone(folder):.0f} microseconds")
    for batch in BATCHES:
        file = folder / f"{batch}.db"
        wrote, closed = microseconds([*run, "write", str(file), str(rows), str(batch)])
        size = file.stat().st_size
        print(f"batches of {batch}: {rows * 1e6 / wrote:.0f} rows a second, {wrote / rows:.1f} microseconds a row; closed in {closed / 1000:.0f} ms; {size / rows:.0f} octets a row")
        took = by_sqlite(file, batch)
        print(f"  by SQLite itself: {rows * 1e6 / took:.0f} rows a second; ours are {took / wrote:.2f} times as many")
    opened, checked = microseconds([*run, "open", str(file)])
    print(f"{rows} rows opened in {opened / 1000:.0f} ms, and read and checked in {checked / 1000:.0f} ms")


def main():
    words = [word for word in sys.argv[1:] if word != "--unproved"]
    with tempfile.TemporaryDirectory() as name, tempfile.TemporaryDirectory(dir=words[0] if words else None) as files:
        bench = lay(Path(name), "store", DEPS)
        if "--unproved" in sys.argv:
            os.chdir(bench)
            measure(["rt", "try", "--steps", "1", "--"], Path(files), ROWS // 100)
        else:
            measure([build(bench)], Path(files), ROWS)


if __name__ == "__main__":
    main()
