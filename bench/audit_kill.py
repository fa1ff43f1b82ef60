#!/usr/bin/env python3
"""Kills recorded fronts with SIGKILL under load, starts them again on their book, and audits it all.

    bench/audit_kill.py [--rounds N] [--longest SECONDS] [--seed N] [--keep FOLDER] [--programs FOLDER]

A gateway sends debits over two relays to two fronts of one process, which have their book on disk. At a random moment the fronts are
killed, and started again, N (10) times. All processes write records; the fronts go on with theirs. Then all nodes end in good order,
the book is exported, and the audit plays records and book. It has to find no difference, and the report of its farm has to be that of
the book. Entries that no record tells are counted. The programs are those of FOLDER, else the proved ones.
"""
import argparse
import random
import re
import shutil
import subprocess
import sys
import tempfile
import time
from pathlib import Path

sys.path.insert(0, str(Path(__file__).resolve().parent))
from loaded import free_ports

TOP = Path(__file__).resolve().parent.parent
LIVE = TOP / "examples/live"


class Farm:
    """The processes of one run, and their files."""

    def __init__(self, folder, programs):
        self.folder, self.programs, self.running = folder, programs, {}
        ports = free_ports(7)
        text = (LIVE / "site.toml").read_text()
        for old, new in zip((18681, 18682, 18683, 18684), ports):
            text = text.replace(f":{old}", f":{new}")
        self.site = folder / "site.toml"
        self.site.write_text(text.replace("watchdog = 5000", "watchdog = 1000"))
        self.status = dict(zip(("fronts", "r1", "r2"), ports[4:]))
        self.book = folder / "fronts.book"

    def program(self, name):
        return self.programs / name if self.programs else TOP / f"crates/{name}/out/{name}"

    def run(self, name, *words, **how):
        return subprocess.run([self.program(name), *words], capture_output=True, text=True, timeout=600, check=False, **how)

    def starts(self, name, *words):
        """A node, once it listens; its record goes on."""
        log = self.folder / f"{name}.log"
        began = log.stat().st_size if log.exists() else 0
        with open(log, "a", encoding="utf-8") as told:
            self.running[name] = subprocess.Popen(
                [self.program("farm_live"), *words, "--site", self.site, "--record", self.folder / f"{name}.record", "--status", str(self.status[name]), "--token", self.folder / f"{name}.token"],
                stdin=subprocess.DEVNULL, stdout=told, stderr=told)
        for _ in range(600):
            if "listens on" in log.read_text()[began:]:
                return
            if self.running[name].poll() is not None:
                break
            time.sleep(0.1)
        sys.exit(f"{name} does not listen: {log.read_text()[-500:]}")

    def meets(self, begun):
        """Waits until both relays are up with both fronts, as the log of the fronts says behind so many octets."""
        for _ in range(600):
            if (self.folder / "fronts.log").read_text()[begun:].count(" are up on connection") >= 4:
                return
            time.sleep(0.1)
        sys.exit("the relays do not come up again")

    def sends(self, relay, messages, number):
        """The gateway, which sends these messages over a relay."""
        out = open(self.folder / f"answers.{number}", "w", encoding="utf-8")
        sent = self.folder / f"messages.{number}"
        sent.write_text("\n".join(messages) + "\n")
        return subprocess.Popen(
            [self.program("farm_live"), "send", "--site", self.site, "--client", "c1.example", "--peer", relay, "--record", self.folder / "c1.record"],
            stdin=open(sent, encoding="utf-8"), stdout=out, stderr=subprocess.DEVNULL)

    def stop(self, name):
        """Asks a node for its end, and waits for it."""
        subprocess.run([TOP / "farm", "stop", "--at", str(self.status[name]), "--token", self.folder / f"{name}.token"], check=True, timeout=90)
        self.running.pop(name).wait(60)


def debits(first, count):
    """Debits of 3200 octets, under CC-Request-Numbers from this one on."""
    message = (LIVE / "first-debit.hex").read_text().strip()
    return [message[:296] + f"{number:08x}" + message[304:] for number in range(first, first + count)]


def round_of(farm, number, moment):
    """One round: debits are sent, and the fronts are killed meanwhile, and started again."""
    record = farm.folder / "fronts.record"
    written = record.stat().st_size
    sender = farm.sends(f"r{number % 2 + 1}.example", debits(1000 * number, 1000), number)
    for _ in range(600):
        if record.stat().st_size > written:
            break
        time.sleep(0.01)
    time.sleep(moment)
    farm.running["fronts"].kill()
    farm.running.pop("fronts").wait()
    begun = (farm.folder / "fronts.log").stat().st_size
    farm.starts("fronts", "front", "--book", farm.book)
    farm.meets(begun)
    try:
        sender.wait(60)
    except subprocess.TimeoutExpired:
        sender.terminate()
        sender.wait()


def audited(farm):
    """What the audit says, beside what the book comes to."""
    exported = farm.run("farm_book", "book", "export", farm.book, "--site", farm.site)
    (farm.folder / "book.entries").write_text(exported.stdout)
    report = farm.run("farm_book", "book", "report", farm.book, "--site", farm.site)
    records = [farm.folder / f"{name}.record" for name in ("fronts", "r1", "r2", "c1")]
    audit = farm.run("farm_runs", "audit", "--site", farm.site, "--book", farm.folder / "book.entries", *records)
    if audit.returncode:
        sys.exit(f"the audit finds a difference: {audit.stderr.strip()[-400:]}")
    lines = audit.stdout.splitlines()
    if lines[2:] != report.stdout.splitlines():
        sys.exit("the farm of the audit comes to another book")
    return lines[0], lines[1]


def main():
    words = argparse.ArgumentParser(description=__doc__.splitlines()[0])
    words.add_argument("--rounds", type=int, default=10)
    words.add_argument("--longest", type=float, default=0.2, help="seconds from the first request at a front to the kill, at most")
    words.add_argument("--seed", type=int, default=int(time.time()))
    words.add_argument("--keep", type=Path)
    words.add_argument("--programs", type=Path)
    asked = words.parse_args()
    chance = random.Random(asked.seed)
    folder = asked.keep or Path(tempfile.mkdtemp())
    folder.mkdir(parents=True, exist_ok=True)
    farm = Farm(folder, asked.programs)
    try:
        made = farm.run("farm_book", "book", "create", farm.book, "--site", farm.site)
        if made.returncode:
            sys.exit(made.stderr)
        farm.starts("fronts", "front", "--book", farm.book)
        farm.starts("r1", "relay", "--name", "r1.example")
        farm.starts("r2", "relay", "--name", "r2.example")
        farm.meets(0)
        for number in range(asked.rounds):
            round_of(farm, number, chance.uniform(0, asked.longest))
        for name in ("r1", "r2", "fronts"):
            farm.stop(name)
        summary, untold = audited(farm)
        count = re.match(r"untold (\d+)", untold)[1]
        print(f"{asked.rounds} kills (seed {asked.seed}): {summary}, no difference; entries that no record tells: {count}")
    finally:
        for process in farm.running.values():
            process.kill()
        if not asked.keep:
            shutil.rmtree(folder, ignore_errors=True)


if __name__ == "__main__":
    main()
