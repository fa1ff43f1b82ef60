#!/usr/bin/env python3
"""What fronts do when the disk of their book fails: bench/book_faults.py [--requests 40] [PROGRAM] [BOOK PROGRAM]

It makes a book on disk and starts the fronts on it, once for each call that writes, cuts or syncs its files, with that call failing
(EIO), and once more with it and all behind it failing for want of room (ENOSPC), through a small library (LD_PRELOAD; it needs cc).
A client debits an account, 8 requests unanswered at a time. Each time the fronts have to end by themselves, with status 1 and one
line that says why; then `farm book check` is content without the library, and `farm book export` has each request that was answered,
and each once. Then it tries a second process on the book, a book that is not there, and one that may not be written.

Status 1 where something is otherwise. It needs the programs (./farm prove front, ./farm prove book). Not part of the gate.
"""
import argparse
import errno
import os
import random
import subprocess
import sys
import tempfile
from collections import Counter
from pathlib import Path

sys.dont_write_bytecode = True

import book_kill  # noqa: E402
from book_kill import BOOK_PROGRAM, CLIENT, Client, Link, site  # noqa: E402
from book_power import built  # noqa: E402
from loaded import PROGRAM, Otherwise, end_when_told, free_ports  # noqa: E402

SECONDS = 20
NOT_STORED = "the book cannot be stored: whether what was charged last stands is not known"


class Few(Client):
    """Asks no more than so often."""

    def __init__(self, requests):
        super().__init__(random.Random(1))
        self.requests = requests

    def next_of(self, is_last):
        return super().next_of(is_last) if self.serial < self.requests else None


class Run:
    def __init__(self, words, room):
        self.words, self.room, self.library, self.ended = words, room, built(room), Counter()
        self.port = free_ports(1)[0]
        self.site = room / "site.toml"
        self.site.write_text(site(self.port))

    def ask(self, task, book):
        told = subprocess.run([self.words.book, "book", task, book, "--site", self.site], capture_output=True, text=True)
        if told.returncode:
            raise Otherwise(f"farm book {task} ends with status {told.returncode}: {told.stderr.strip()}")
        return told.stdout

    def made(self):
        book = Path(tempfile.mkdtemp(dir=self.room)) / "farm.book"
        self.ask("create", book)
        return book

    def start(self, book, **environment):
        return subprocess.Popen([self.words.program, "front", "--site", self.site, "--book", book, "--log", "error"], stderr=subprocess.PIPE,
                                text=True, env={**os.environ, **environment})

    def fault(self, at, error, stays):
        """The call of this number fails. Whether there was one."""
        book, client = self.made(), Few(self.words.requests)
        environment = {"LD_PRELOAD": str(self.library), "POWER_BOOK": str(book), "FAULT_AT": str(at), "FAULT_ERROR": str(error)}
        front = self.start(book, **environment, **({"FAULT_STAYS": "1"} if stays else {}))
        try:
            client.serve(Link(self.port, front), False)
        except ConnectionError:
            pass
        is_served = len(client.answered) == self.words.requests and not client.open
        if is_served:
            front.kill()
        told = front.communicate(timeout=SECONDS)[1].strip()
        name = f"call {at} fails with {errno.errorcode[error]}"
        if not is_served and (front.returncode != 1 or len(told.splitlines()) != 1):
            raise Otherwise(f"{name}: status {front.returncode}, {told!r}")
        self.ended["served all" if is_served else told] += 1
        self.ask("check", book)
        entries = [line.split()[6] for line in self.ask("export", book).splitlines()]
        missing = {f'"{CLIENT}.example;{serial}"' for serial in client.answered} - set(entries)
        if missing or len(set(entries)) != len(entries):
            raise Otherwise(f"{name}: {len(missing)} requests that were answered are gone, or one stands twice")
        return not is_served

    def is_refused(self, what, book, text):
        front = self.start(book)
        told = front.communicate(timeout=SECONDS)[1].strip()
        if front.returncode != 1 or text not in told or len(told.splitlines()) != 1:
            raise Otherwise(f"{what}: status {front.returncode}, {told!r}")
        print(f"{what}: {told}")

    def all_faults(self):
        for error, stays in ((errno.EIO, False), (errno.ENOSPC, True)):
            at = 1
            while self.fault(at, error, stays):
                at += 1
            print(f"{errno.errorcode[error]} at each of {at - 1} calls: {dict(self.ended)}", flush=True)
            self.ended.clear()
        book = self.made()
        first = self.start(book)
        try:
            Link(self.port, first)
            self.is_refused("a second process", book, "another process has the file open")
        finally:
            first.kill()
            first.communicate()
        self.is_refused("a book that is not there", self.room / "nowhere.book", "there is no such file")
        self.is_refused("a folder that is not there", self.room / "nowhere/farm.book", "there is no such file")
        print("what was answered stands, and each end has its line")


def main():
    parser = argparse.ArgumentParser(description=__doc__, formatter_class=argparse.RawDescriptionHelpFormatter)
    parser.add_argument("program", nargs="?", default=PROGRAM)
    parser.add_argument("book", nargs="?", default=BOOK_PROGRAM)
    parser.add_argument("--requests", type=int, default=40)
    words = parser.parse_args()
    end_when_told()
    book_kill.UNANSWERED = 8
    with tempfile.TemporaryDirectory() as room:
        Run(words, Path(room)).all_faults()


if __name__ == "__main__":
    try:
        main()
    except Otherwise as wrong:
        sys.exit(f"book_faults: {wrong}")
