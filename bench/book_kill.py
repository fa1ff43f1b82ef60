#!/usr/bin/env python3
"""That what was answered stands however the process dies: bench/book_kill.py [--rounds 300] [--seed N] [--changes] [PROGRAM] [BOOK PROGRAM]

It makes a book on disk and starts the fronts on it. A client debits two accounts, 32 requests unanswered at a time, until the
process is killed (SIGKILL) at a moment by chance; then they are started again, and the client sends again what was not answered,
and some of what was. So it goes on for as many rounds as asked. In the end everything that was sent has been answered, and:
- each answer that was ever had to one request says the same;
- what a client works out by its answers is what `farm book report` says: each debit was made once, and none that was not sent;
- `farm book check` is content, and `farm book export` has each request once;
- stock SQLite reads the same balances from the file (the table `account`), after the last kill.
With --changes the terms change meanwhile, by the status port: accounts join, close and open again, and tariffs change that charge
nobody otherwise. Each change that was told as made stands at the place that was told, and no account joins twice.

The accounts hold less than all debits take, so some answers refuse. Status 1 where something is otherwise. It needs the programs
(./farm prove front, ./farm prove book) and takes about a second a round. Not part of the gate.
"""
import argparse
import random
import signal
import re
import shutil
import socket
import sqlite3
import subprocess
import sys
import tempfile
import threading
import time
from collections import Counter, deque
from contextlib import closing
from http.client import HTTPConnection, HTTPException
from pathlib import Path

sys.dont_write_bytecode = True

from loaded import (CAPABILITIES, CREDIT_CONTROL, EVENT, ORIGIN_HOST, ORIGIN_REALM, PROGRAM, REALM, REQUEST, SUCCESS, LIMIT_REACHED,  # noqa: E402
                    Avp, Message, Otherwise, body_of, code_in, end_when_told, free_ports, group, number, split, spelled, text)

BOOK_PROGRAM = PROGRAM.parent.parent.parent / "farm_book/out/farm_book"
CLIENT, UNANSWERED, PATIENCE, RETRANSMITTED = "c1", 32, 20, 0x10
# 3200 octets cost 20, in blocks of 1000 octets at 5 each.
COST, OCTETS = 20, 3200
# Each account lasts for so many debits.
DEBITS = {"491700000001": 10 ** 6, "491700000002": 300}
# Of what was answered, one in so many is sent again in each round, so many at a time: a front answers DIAMETER_TOO_BUSY where its queue of
# 1,024 is full.
AGAIN, REPEATED = 50, 512
MADE = "the terms were changed by the entry at place "


def site(port):
    accounts = ", ".join(f'{{ type = 0, id = "{name}", opening = {debits * COST} }}' for name, debits in DEBITS.items())
    return f"""
realm = "{REALM}"
validity = 600
limit = 1048576
currency = 978
exponent = -2
node = [{{ name = "f1.example", kind = "front", address = "127.0.0.1:{port}" }}, {{ name = "{CLIENT}.example", kind = "client" }}]
link = [{{ from = "{CLIENT}.example", to = "f1.example" }}]
tariff = [{{ group = 10, kind = "octets", block = 1000, price = 5, quantum = 5000, greatest = 10000 }}]
account = [{accounts}]
"""


def account_of(serial):
    return list(DEBITS)[serial % 2]


def debit(serial, is_again):
    body = body_of(CLIENT, f"{CLIENT}.example;{serial}", EVENT, 0, account_of(serial), [group(437, [number(421, OCTETS, 8)])])
    return Message(REQUEST | 0x40 | (RETRANSMITTED if is_again else 0), CREDIT_CONTROL, 4, serial, serial, body)


class Link:
    """A connection of the client with the fronts of a process, once they listen."""

    def __init__(self, port, process):
        end = time.monotonic() + PATIENCE
        while True:
            try:
                self.socket = socket.create_connection(("127.0.0.1", port), timeout=PATIENCE)
                break
            except OSError:
                if process.poll() is not None:
                    raise ConnectionError("the process has ended") from None
                if time.monotonic() > end:
                    raise Otherwise("the front does not listen") from None
                time.sleep(0.02)
        self.octets = b""
        own = [text(ORIGIN_HOST, f"{CLIENT}.example"), text(ORIGIN_REALM, REALM), Avp(257, b"\0\1\x7f\0\0\1"), number(266, 0), Avp(269, b"kill", 0)]
        self.send(Message(REQUEST, CAPABILITIES, 0, 1, 1, spelled([*own, number(258, 4)])))
        answers = self.answers()
        if not answers:
            raise ConnectionError("the process has ended")
        if code_in(split(answers[0].body)) != SUCCESS:
            raise Otherwise("the client is not taken")

    def send(self, message):
        self.socket.sendall(message.octets())

    def answers(self):
        """The next answers, one at least; none where the connection has ended."""
        while True:
            try:
                piece = self.socket.recv(262_144)
            except ConnectionError:
                return []
            if not piece:
                return []
            self.octets += piece
            found = []
            while len(self.octets) >= 20 and len(self.octets) >= (length := int.from_bytes(self.octets[1:4])):
                message, self.octets = Message.read(self.octets[:length]), self.octets[length:]
                found += [] if message.is_request else [message]
            if found:
                return found


class Client:
    """What was sent, and what was answered to it."""

    def __init__(self, dice):
        self.dice, self.serial, self.open, self.answered, self.count = dice, 0, {}, {}, Counter()

    def next_of(self, is_last):
        """The next request, if there is to be one."""
        if is_last:
            return None
        self.serial += 1
        self.open[self.serial] = True
        return debit(self.serial, False)

    def take(self, answer):
        said = (answer.flags, answer.body)
        was = self.answered.setdefault(answer.end, said)
        if was != said:
            raise Otherwise(f"request {answer.end} is answered otherwise than before")
        self.count["answers"] += 1
        if answer.end not in self.open:
            self.count["answers again"] += 1
        self.open.pop(answer.end, None)

    def serve(self, link, is_last):
        """Sends again what is open and some of what was answered, then one request for each answer, until the connection ends."""
        again = deque([*self.open, *(serial for serial in self.answered if self.dice.randrange(AGAIN) == 0)])
        self.count["sent again"] += len(again)
        waiting = 0
        try:
            while True:
                while again and waiting < REPEATED:
                    link.send(debit(again.popleft(), True))
                    waiting += 1
                while not again and waiting < UNANSWERED and (request := self.next_of(is_last)):
                    link.send(request)
                    waiting += 1
                if not waiting or not (answers := link.answers()):
                    return
                for answer in answers:
                    self.take(answer)
                waiting -= len(answers)
        except OSError:
            pass

    def charged(self):
        """What each account has paid, by the answers."""
        paid = Counter()
        for serial, (_, body) in self.answered.items():
            code = code_in(split(body))
            if code not in (SUCCESS, LIMIT_REACHED):
                raise Otherwise(f"request {serial} is answered {code}")
            paid[account_of(serial)] += COST if code == SUCCESS else 0
        return paid


class Changer:
    """Who changes the terms of the book while it is charged on: how many changes it has asked for, and where those stand that were made."""

    def __init__(self, port, token):
        self.port, self.token, self.count, self.made, self.faults = port, token, 0, {}, []
        # accounts that have joined and are open, and that are closed, as far as is known
        self.open, self.closed = [], []

    def ask(self, method, text=""):
        connection = HTTPConnection("127.0.0.1", self.port, timeout=PATIENCE)
        try:
            connection.request(method, "/terms", text, {"Authorization": f"Bearer {self.token.read_text().strip()}"})
            answer = connection.getresponse()
            return answer.status, answer.read().decode().strip()
        finally:
            connection.close()

    def next_of(self):
        """A change, how the book's export tells it, and the list that an account goes into once it is made."""
        self.count += 1
        turn = self.count % 4
        if turn == 3 and self.open:
            name = self.open.pop()
            return f"account 0 {name} closed", f'change accounts 0 account 0 "{name}" closed tariffs -', (self.closed, name)
        if turn == 0 and self.closed:
            name = self.closed.pop()
            return f"account 0 {name} open", f'change accounts 0 account 0 "{name}" open tariffs -', ([], name)
        if turn % 2:
            name = f"77{self.count:08}"
            return f"account 0 {name} 5", f'change accounts 1 account 0 "{name}" opening 5 tariffs -', (self.open, name)
        tariff = f"tariff 10 - octets 1000 5 5000 {10_000 + self.count}"
        return f"tariffs {tariff}", f"change accounts 0 tariffs 1 {tariff}", ([], "")

    def outcome(self):
        """What has come of the change that is under way, once it is done."""
        while True:
            _, said = self.ask("GET")
            if said != "a change of the terms is under way":
                return said
            time.sleep(0.01)

    def change(self):
        text, told, (known, name) = self.next_of()
        status, said = self.ask("POST", text + "\n")
        if status == 202:
            said = self.outcome()
        if not said.startswith(MADE):
            self.faults.append(f"the change {text} is answered {status} {said}")
            return
        self.made[int(said.removeprefix(MADE))] = told
        known.append(name)

    def run(self, process):
        """Changes the terms, one change after the other, until the process has ended."""
        try:
            while process.poll() is None:
                self.change()
        except (OSError, HTTPException, ValueError):
            pass

    def check(self, entries):
        if self.faults:
            raise Otherwise(self.faults[0])
        for place, told in self.made.items():
            if not entries[place].endswith(told):
                raise Otherwise(f"the entry at place {place} is not the change that was made: {entries[place]}")
        joined = Counter(re.findall(r'account 0 "(77\d+)" opening', "\n".join(entry for entry in entries if " change " in entry)))
        if twice := [name for name, count in joined.items() if count > 1]:
            raise Otherwise(f"accounts have joined twice: {twice}")


class Run:
    def __init__(self, words, room):
        self.words, self.dice = words, random.Random(words.seed)
        self.port, self.status = free_ports(2)
        self.site, self.book, self.client = room / "site.toml", room / "farm.book", Client(self.dice)
        self.token = room / "token"
        self.changer = Changer(self.status, self.token)
        self.site.write_text(site(self.port))

    def ask(self, task):
        done = subprocess.run([self.words.book, "book", task, self.book, "--site", self.site], stdout=subprocess.PIPE, text=True)
        if done.returncode:
            raise Otherwise(f"farm book {task} ends with status {done.returncode}")
        return done.stdout

    def round(self, is_last):
        asked = ["--status", str(self.status), "--token", self.token, "--change-terms"] if self.words.changes else []
        process = subprocess.Popen([self.words.program, "front", "--site", self.site, "--book", self.book, "--log", "error", *asked])
        changing = threading.Thread(target=self.changer.run, args=(process,))
        try:
            link = Link(self.port, process)
            if self.words.changes and not is_last:
                changing.start()
            if not is_last:
                signal.setitimer(signal.ITIMER_REAL, self.dice.uniform(0.01, 0.6))
                signal.signal(signal.SIGALRM, lambda *_: process.kill())
            self.client.serve(link, is_last)
        finally:
            process.kill()
            process.wait()
            if changing.ident:
                changing.join()

    def balances(self):
        """What the file says of the accounts, in their order, by stock SQLite: of a copy, since to read it may write its log back."""
        for end in ("", "-wal"):
            shutil.copyfile(f"{self.book}{end}", f"{self.book}.read{end}")
        with closing(sqlite3.connect(f"{self.book}.read")) as file:
            return [bytes(balance).decode() for balance, in file.execute("SELECT balance FROM account ORDER BY rowid")]

    def check(self):
        client = self.client
        balances = self.balances()
        if client.open or client.serial != len(client.answered):
            raise Otherwise(f"{len(client.open)} requests are not answered")
        report, checked, entries = self.ask("report"), self.ask("check"), self.ask("export").splitlines()
        print(report, checked, sep="", end="")
        for account, paid in client.charged().items():
            line = f"{account} balance {DEBITS[account] * COST - paid} reserved 0"
            if line not in report:
                raise Otherwise(f"the report has not what is left: {line}")
        reported = re.findall(r"^account .* balance (-?[0-9]+) reserved", report, re.M)
        if balances != reported:
            raise Otherwise(f"the file has other balances than the report: {balances} and {reported}")
        self.changer.check(entries)
        charges = sum(" change " not in entry for entry in entries)
        if charges != client.serial:
            raise Otherwise(f"the book has {charges} charges, and {client.serial} requests were sent")


def main():
    parser = argparse.ArgumentParser(description=__doc__, formatter_class=argparse.RawDescriptionHelpFormatter)
    parser.add_argument("program", nargs="?", default=PROGRAM)
    parser.add_argument("book", nargs="?", default=BOOK_PROGRAM)
    parser.add_argument("--rounds", type=int, default=300)
    parser.add_argument("--seed", type=int, default=1)
    parser.add_argument("--changes", action="store_true")
    words = parser.parse_args()
    end_when_told()
    with tempfile.TemporaryDirectory() as room:
        run = Run(words, Path(room))
        run.ask("create")
        for place in range(words.rounds + 1):
            run.round(place == words.rounds)
        run.check()
        told = ", ".join(f"{count:,} {what}" for what, count in sorted(run.client.count.items()))
        changed = f", {run.changer.count:,} changes asked for and {len(run.changer.made):,} told as made" if words.changes else ""
        print(f"{words.rounds} times killed: {run.client.serial:,} requests, {told}{changed}; each was charged once, and each answer stands")


if __name__ == "__main__":
    try:
        main()
    except Otherwise as wrong:
        sys.exit(f"book_kill: {wrong}")
