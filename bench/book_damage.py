#!/usr/bin/env python3
"""What becomes of a book whose file is damaged: bench/book_damage.py [--bits 300] [--entries 600] [--seed 1] [PROGRAM] [BOOK PROGRAM]

It makes a book with entries by `farm book create` and the model, and damages copies of it:

- one bit of one row, in each of its four tables, of which each row is tried, and each octet of what the book is;
- one bit of the file, at random;
- the file cut off, at each end of a page and at random places;
- no octet, zeros, a text, a database of another program, and a book of a later format.

Each copy is read by `farm book check`. Either that refuses it by one line and status 3, or 1 where the file cannot be opened; or it
prints what it printed of the whole book, and stock SQLite reads the same rows as before. Of the terms and the identity no sum is
made: a bit of those may also be told (another identity, or `look:`), or, where no entry and no account of the site rests on it, change
nothing that is printed. Where `check` refuses, `farm front` refuses too, with the same first line and before it listens, which is tried for
the first of each kind of line. Status 1 where something is otherwise. It needs the programs (./farm prove front, ./farm prove book). Not
part of the gate.
"""
import argparse
import random
import shutil
import sqlite3
import subprocess
import sys
import tempfile
from collections import Counter
from contextlib import contextmanager
from pathlib import Path

sys.dont_write_bytecode = True

from loaded import PROGRAM, ROOT, Otherwise, end_when_told, free_ports  # noqa: E402

BOOK_PROGRAM = ROOT / "crates/farm_book/out/farm_book"
MODEL = ROOT / "examples/models/stored_book.py"
SITE = ROOT / "examples/sites/row-site.toml"
TABLES = {"entry": "octets", "book": "octets", "account": "balance", "session": "octets"}
SECONDS = 60


@contextmanager
def opened(book):
    """The database, whose changes stand in its file behind it, and in no log."""
    file = sqlite3.connect(book)
    try:
        yield file
        file.commit()
        file.execute("PRAGMA wal_checkpoint(TRUNCATE)")
    finally:
        file.close()


def rows_of(book):
    """The rows of all tables, as stock SQLite reads them; none where it does not."""
    try:
        with sqlite3.connect(f"file:{book}?mode=ro&immutable=1", uri=True) as file:
            rows = {table: file.execute(f"SELECT rowid, {column} FROM {table} ORDER BY rowid").fetchall() for table, column in TABLES.items()}
            schema = file.execute("SELECT * FROM sqlite_master").fetchall()
        file.close()
        return schema, rows
    except (sqlite3.Error, UnicodeDecodeError):
        return None


def site_with_ports():
    """The row site, whose fronts have addresses, so that they could serve."""
    lines = SITE.read_text().splitlines()
    ports = iter(free_ports(len(lines)))
    return "".join(f'{line}\naddress = "127.0.0.1:{next(ports)}"\n' if line.startswith('kind = "front"') else f"{line}\n" for line in lines)


class Damage:
    def __init__(self, words, room):
        self.words, self.room, self.told, self.lines = words, room, Counter(), {}
        self.whole, self.site = room / "whole.book", room / "site.toml"
        self.site.write_text(site_with_ports())
        self.ask("create", self.whole)
        subprocess.run([sys.executable, MODEL, "changed", "fill", self.whole, str(words.entries)], check=True)
        with opened(self.whole):
            pass
        # what stands beside the entries is written as it is opened
        self.printed = self.ask("check", self.whole)
        wanted = subprocess.run([sys.executable, MODEL, "changed", "check", self.whole, str(words.entries)], capture_output=True, text=True, check=True)
        if self.printed != wanted.stdout:
            raise Otherwise(f"the whole book is not read as the model says: {self.printed!r}")
        with opened(self.whole):
            pass
        self.octets = self.whole.read_bytes()
        self.rows = rows_of(self.whole)

    def run(self, task, book):
        return subprocess.run([self.words.book, "book", task, book, "--site", self.site], capture_output=True, text=True, timeout=SECONDS)

    def ask(self, task, book):
        ran = self.run(task, book)
        if ran.returncode:
            raise Otherwise(f"farm book {task}: {ran.stderr.strip()}")
        return ran.stdout

    def copy(self):
        book = self.room / "damaged.book"
        for file in (book, Path(f"{book}-wal"), Path(f"{book}-shm")):
            file.unlink(missing_ok=True)
        shutil.copy(self.whole, book)
        return book

    def front_refuses(self, book, status, line, what):
        """The fronts refuse it too, with the status and the words that `check` has."""
        why = line.split(": ", 1)[1]
        ran = subprocess.run([self.words.program, "front", "--site", self.site, "--book", book, "--log", "error"], capture_output=True, text=True,
                             timeout=SECONDS)
        if ran.returncode != status or ran.stderr.splitlines()[:1] != [f"the book cannot be opened: {why}"]:
            raise Otherwise(f"{what}: the fronts end with status {ran.returncode}: {ran.stderr.strip()!r}, and not: {why!r}")

    def judge(self, book, what, kind, may_be_told=False):
        """Reads a damaged copy, and says whether that is as it should be."""
        ran = self.run("check", book)
        lines = ran.stderr.strip().splitlines()
        if ran.returncode in (1, 3) and len(lines) == 1 and not ran.stdout:
            words = " ".join("N" if word.strip(":").isdigit() else word for word in lines[0].split())
            self.told[f"{kind}: {words}"] += 1
            if self.lines.setdefault(words, what) == what:
                self.front_refuses(book, ran.returncode, lines[0], what)
            return
        if ran.returncode or lines:
            raise Otherwise(f"{what}: status {ran.returncode}: {ran.stderr.strip()!r}")
        if may_be_told:
            self.told[f"{kind}: read, and told" if ran.stdout != self.printed else f"{kind}: read, and nothing rests on it"] += 1
            return
        if ran.stdout != self.printed:
            raise Otherwise(f"{what}: it is read otherwise: {ran.stdout!r}")
        rows = rows_of(book)
        if rows is not None and rows[1] != self.rows[1]:
            raise Otherwise(f"{what}: it is read as the whole book, and SQLite reads other rows")
        self.told[f"{kind}: read as the whole book, which SQLite {'does not read' if rows is None else 'reads too'}"] += 1

    # ---- damages

    def bit_of_row(self, table, place, at, bit):
        book = self.copy()
        column = TABLES[table]
        with opened(book) as file:
            octets, = file.execute(f"SELECT {column} FROM {table} WHERE rowid = ?", (place,)).fetchone()
            octets = bytes(octets)
            changed = octets[:at] + bytes([octets[at] ^ 1 << bit]) + octets[at + 1:]
            file.execute(f"UPDATE {table} SET {column} = ? WHERE rowid = ?", (changed, place))
        self.judge(book, f"bit {bit} of octet {at} of row {place} of {table}", table, may_be_told=(table, place) == ("book", 0))

    def all_rows(self, chance):
        for table in TABLES:
            for place, octets in self.rows[1][table]:
                length = len(bytes(octets))
                is_about = (table, place) == ("book", 0)
                for at in range(length) if is_about else [chance.randrange(length)]:
                    self.bit_of_row(table, place, at, chance.randrange(8))

    def bits(self, chance):
        for _ in range(self.words.bits):
            at, bit = chance.randrange(len(self.octets)), chance.randrange(8)
            book = self.copy()
            with open(book, "r+b") as file:
                file.seek(at)
                file.write(bytes([self.octets[at] ^ 1 << bit]))
            # a bit of what the book is may stand anywhere: then SQLite reads another row there
            rows = rows_of(book)
            is_about = rows is not None and rows[0] == self.rows[0] and [table for table in TABLES if rows[1][table] != self.rows[1][table]] == ["book"] and \
                rows[1]["book"][1:] == self.rows[1]["book"][1:]
            self.judge(book, f"bit {bit} of octet {at} of the file", "file", may_be_told=is_about)

    def cuts(self, chance):
        page = int.from_bytes(self.octets[16:18], "big") or 65536
        ends = list(range(0, len(self.octets), page)) + [chance.randrange(len(self.octets)) for _ in range(20)]
        for end in ends:
            book = self.copy()
            book.write_bytes(self.octets[:end])
            ran = self.run("check", book)
            if ran.returncode not in (1, 3) or len(ran.stderr.strip().splitlines()) != 1 or ran.stdout:
                raise Otherwise(f"cut off at {end}: status {ran.returncode}: {ran.stderr.strip()!r}, {ran.stdout!r}")
            self.told[f"cut off: {ran.stderr.strip()}"] += 1
            if end in (0, ends[len(ends) // 2]):
                self.front_refuses(book, ran.returncode, ran.stderr.strip(), f"cut off at {end}")

    def others(self):
        book = self.copy()
        for what, octets in (("zeros", bytes(len(self.octets))), ("a text", SITE.read_bytes())):
            book.write_bytes(octets)
            self.judge(book, what, what)
        book.unlink()
        with opened(book) as file:
            file.execute("CREATE TABLE entry (octets BLOB NOT NULL)")
            file.execute("CREATE TABLE other (name TEXT)")
            file.execute("INSERT INTO other VALUES ('somebody')")
        self.judge(book, "another program's database", "another program's")
        book = self.copy()
        with opened(book) as file:
            octets, = file.execute("SELECT octets FROM book WHERE rowid = 0").fetchone()
            later = int.from_bytes(octets[:4], "big") + 1
            file.execute("UPDATE book SET octets = ? WHERE rowid = 0", (later.to_bytes(4, "big") + octets[4:],))
        self.judge(book, "a book of a later format", "a later format")
        if not self.told["a later format: the book is not read: the book is of another format"]:
            raise Otherwise("a book of a later format is not refused by name")

    def all(self):
        chance = random.Random(self.words.seed)
        self.all_rows(chance)
        self.bits(chance)
        self.cuts(chance)
        self.others()
        for what, times in sorted(self.told.items()):
            print(f"{times:5} {what}")
        print("no damage is read as another book")


def main():
    parser = argparse.ArgumentParser(description=__doc__, formatter_class=argparse.RawDescriptionHelpFormatter)
    parser.add_argument("program", nargs="?", default=PROGRAM)
    parser.add_argument("book", nargs="?", default=BOOK_PROGRAM)
    parser.add_argument("--bits", type=int, default=300)
    parser.add_argument("--entries", type=int, default=600)
    parser.add_argument("--seed", type=int, default=1)
    words = parser.parse_args()
    end_when_told()
    with tempfile.TemporaryDirectory() as room:
        Damage(words, Path(room)).all()


if __name__ == "__main__":
    try:
        main()
    except Otherwise as wrong:
        sys.exit(f"book_damage: {wrong}")
