#!/usr/bin/env python3
"""What a million accounts cost: bench/accounts.py [--accounts N] [PROGRAM] [BOOK PROGRAM]

A site file names a file of N accounts (a million), beside its own one. `farm book create` makes a book of them. Then fronts start on it,
three times: how long it takes until they listen, and the memory of their process, then and at its highest. Then one account more joins
while they serve, and a debit of the last account of the file is answered; and the fronts start three times more. So an opening is
measured without and with a change of the terms behind it. Then the same with 1,000 accounts.

What a request takes with so many accounts is told by bench/book.py. Status 1 where an answer is otherwise. It needs the programs
(./farm prove front, ./farm prove book). Not part of the gate.
"""
import argparse
import os
import resource
import subprocess
import sys
import tempfile
import time
from pathlib import Path

sys.dont_write_bytecode = True

from book_kill import BOOK_PROGRAM, CLIENT, COST, Link, OCTETS  # noqa: E402
from loaded import CREDIT_CONTROL, EVENT, PROGRAM, REALM, REQUEST, SUCCESS, Message, Otherwise, body_of, code_in, end_when_told, free_ports, group, number, split  # noqa: E402

FARM = Path(__file__).resolve().parent.parent / "farm"
FEW, STARTS, FIRST = 1_000, 3, 491_700_000_000


def site(port):
    return f"""
realm = "{REALM}"
validity = 600
currency = 978
exponent = -2
accounts = "accounts"
node = [{{ name = "f1.example", kind = "front", address = "127.0.0.1:{port}" }}, {{ name = "{CLIENT}.example", kind = "client" }}]
link = [{{ from = "{CLIENT}.example", to = "f1.example" }}]
tariff = [{{ group = 10, kind = "octets", block = 1000, price = 5, quantum = 5000, greatest = 10000 }}]
account = [{{ type = 0, id = "1", opening = 0 }}]
"""


def debited(port, process, account, serial):
    """A debit of an account is answered as one that is charged."""
    link = Link(port, process)
    body = body_of(CLIENT, f"{CLIENT}.example;{serial}", EVENT, 0, account, [group(437, [number(421, OCTETS, 8)])])
    link.send(Message(REQUEST | 0x40, CREDIT_CONTROL, 4, serial, serial, body))
    answers = link.answers()
    if not answers or code_in(split(answers[0].body)) != SUCCESS:
        raise Otherwise(f"the debit of {account} is not answered with 2001")
    link.socket.close()


def memory(process):
    """What a process has of memory, and had at its highest, in megabytes."""
    lines = dict(line.split(":", 1) for line in Path(f"/proc/{process.pid}/status").read_text().splitlines())
    return [int(lines[key].split()[0]) * 1024 / 1e6 for key in ("VmRSS", "VmHWM")]


class Fronts:
    """The fronts on the book of a folder."""

    def __init__(self, program, folder, ports):
        self.port, self.status = ports
        self.token = folder / "token"
        words = [program, "front", "--site", folder / "site.toml", "--book", folder / "book", "--status", str(self.status), "--token", self.token]
        begun = time.monotonic()
        self.process = subprocess.Popen(words, stdout=subprocess.PIPE, stderr=subprocess.STDOUT, text=True)
        line = self.process.stdout.readline()
        while line and " listens" not in line:
            line = self.process.stdout.readline()
        if not line:
            raise Otherwise("the fronts have not started")
        self.seconds = time.monotonic() - begun
        self.now, self.highest = memory(self.process)

    def end(self):
        subprocess.run([FARM, "stop", "--at", str(self.status), "--token", self.token], check=True)
        self.process.stdout.read()
        self.process.stdout.close()
        if self.process.wait():
            raise Otherwise("the fronts have not ended well")


def openings(program, folder, ports, words):
    starts = []
    for _ in range(STARTS):
        fronts = Fronts(program, folder, ports)
        starts.append((fronts.seconds, fronts.now, fronts.highest))
        fronts.end()
    seconds, now, highest = (min(column) for column in zip(*starts))
    print(f"  {words}: listens after {seconds:.2f} s, with {now:.1f} MB; at most {highest:.1f} MB", flush=True)


def changed(program, book_program, folder, ports, accounts):
    """One account more joins, and the last of the file is charged."""
    fronts = Fronts(program, folder, ports)
    (folder / "joining").write_text("account 1 1 1000\n")
    words = [folder / "joining", "--at", str(ports[1]), "--token", folder / "token"]
    done = subprocess.run([FARM, "book", "add-accounts", *words], capture_output=True, text=True, check=False)
    if done.returncode:
        raise Otherwise(f"the account has not joined: {done.stderr}")
    debited(ports[0], fronts.process, str(FIRST + accounts - 1), 1)
    fronts.end()
    done = subprocess.run([book_program, "book", "check", folder / "book", "--site", folder / "site.toml"], capture_output=True, text=True, check=False)
    if done.returncode or "entries 2 " not in done.stdout:
        raise Otherwise(f"the book is not right: {done.stdout}{done.stderr}")


def measure(program, book_program, accounts):
    print(f"{accounts} accounts in a file", flush=True)
    with tempfile.TemporaryDirectory() as name:
        folder, ports = Path(name), free_ports(2)
        (folder / "site.toml").write_text(site(ports[0]))
        (folder / "accounts").write_text("".join(f"account 0 {FIRST + place} {1000 * COST}\n" for place in range(accounts)))
        begun = time.monotonic()
        subprocess.run([book_program, "book", "create", folder / "book", "--site", folder / "site.toml"], stdout=subprocess.DEVNULL, check=True)
        took, most = time.monotonic() - begun, resource.getrusage(resource.RUSAGE_CHILDREN).ru_maxrss * 1024 / 1e6
        print(f"  the book is made in {took:.2f} s, with {most:.0f} MB; it has {os.path.getsize(folder / 'book') / 1e6:.1f} MB", flush=True)
        openings(program, folder, ports, "opened as it was made")
        changed(program, book_program, folder, ports, accounts)
        openings(program, folder, ports, "opened behind a change")


def main():
    words = argparse.ArgumentParser(description=__doc__.splitlines()[0])
    words.add_argument("--accounts", type=int, default=1_000_000)
    words.add_argument("program", nargs="?", default=PROGRAM)
    words.add_argument("book_program", nargs="?", default=BOOK_PROGRAM)
    asked = words.parse_args()
    for accounts in (FEW, asked.accounts):
        measure(asked.program, asked.book_program, accounts)


if __name__ == "__main__":
    end_when_told()
    try:
        main()
    except Otherwise as error:
        sys.exit(str(error))
