#!/usr/bin/env python3
"""What modest clients get beside greedy ones: bench/greedy.py [--seconds 10] [--program PROGRAM]

Two fronts in one process and two relays serve over TCP on this machine, with ports chosen free. Three clients send as fast as they can,
with up to 5,000 requests unanswered each, and read all their answers. Three others send ten requests a second each. Both kinds come over
both relays. This is done without `fairness` in the site's list `strict`, and with it.

It prints a table in Markdown: of the modest clients how many requests were sent, charged and refused, and how long half and 99 of a
hundred of their answers took; of the greedy ones how many were charged and refused. Status 1 where with `fairness` a modest client is
refused, or is not answered. It needs the program alone (./farm prove relay). Not part of the gate.
"""
import argparse
import multiprocessing
import re
import select
import sys
import tempfile
import time
from collections import Counter
from pathlib import Path

sys.dont_write_bytecode = True

from floods import CODE, PLAN, Load, Nodes, Peer, debit  # noqa: E402
from loaded import CLIENTS, PROGRAM, REQUEST, SUCCESS, Otherwise, end_when_told  # noqa: E402

GREEDY, MODEST = (("c1", "r1"), ("c2", "r2"), ("c3", "r1")), (("c4", "r1"), ("c5", "r2"), ("c6", "r1"))
WINDOW, RATE, INTERVAL = 5_000, 10, re.compile(r"watchdog = \d+")
MORE = "".join(f'[[node]]\nname = "{name}.example"\nkind = "client"\n[[link]]\nfrom = "{name}.example"\nto = "{relay}.example"\n'
               for name, relay in MODEST if name not in CLIENTS)


def greedy(port, name, seconds, told):
    """Sends as fast as it can; what it was answered, by Result-Code."""
    load = Load(Peer(port, name).greeted())
    load.run(seconds, window=WINDOW)
    told.put((name, dict(load.codes), []))


def modest(port, name, seconds, told):
    """Sends some requests a second; what they were answered, by Result-Code, and after how many milliseconds."""
    peer, codes, waits, sent = Peer(port, name).greeted(), Counter(), [], {}
    peer.socket.setblocking(False)
    began = time.monotonic()
    while (passed := time.monotonic() - began) < seconds + 5 and (passed < seconds or sent):
        if passed < seconds and len(codes) + len(sent) <= RATE * passed and codes.total() + len(sent) <= RATE * passed:
            serial = codes.total() + len(sent) + 1
            peer.socket.sendall(debit(name, serial).octets())
            sent[serial] = time.monotonic()
        if select.select([peer.socket], [], [], 0.005)[0]:
            peer.octets += peer.socket.recv(1 << 16)
            for it in peer.messages():
                if it[4] & REQUEST:
                    continue
                codes[int.from_bytes(it[it.find(CODE) + 8:][:4])] += 1
                waits.append(1000 * (time.monotonic() - sent.pop(int.from_bytes(it[12:16]))))
    codes[0] += len(sent)
    told.put((name, dict(codes), waits))


def beside(nodes, seconds):
    """All of them at once; what each was told."""
    told = multiprocessing.Queue()
    jobs = [multiprocessing.Process(target=kind, args=(nodes.port[relay], name, seconds, told))
            for kind, whom in ((greedy, GREEDY), (modest, MODEST)) for name, relay in whom]
    for job in jobs:
        job.start()
    answers = [told.get(timeout=seconds + 60) for _ in jobs]
    for job in jobs:
        job.join()
    return {name: (Counter(codes), waits) for name, codes, waits in answers}


def row(program, words, seconds):
    """A line of the table, and whether no modest client was refused."""
    with tempfile.TemporaryDirectory() as room:
        nodes = Nodes(room, program, "r1")
        path = nodes.room / "site.toml"
        path.write_text(f"strict = [{words}]\n{INTERVAL.sub('watchdog = 6000', path.read_text())}{MORE}")
        try:
            nodes.start_all()
            nodes.start("r2", "relay", "--name", "r2.example")
            answers = beside(nodes, seconds)
        finally:
            nodes.end()
    total = lambda whom: sum((answers[name][0] for name, _ in whom), Counter())  # noqa: E731
    less, more = total(MODEST), total(GREEDY)
    waits = sorted(wait for name, _ in MODEST for wait in answers[name][1])
    of = lambda share: f"{waits[min(int(share * len(waits)), len(waits) - 1)]:.1f}" if waits else "-"  # noqa: E731
    refused = less.total() - less[SUCCESS] - less[0]
    charged = more[SUCCESS] / seconds
    print(f"| {words or 'none'} | {less.total()} | {less[SUCCESS]} | {refused} | {less[0]} | {of(0.5)} | {of(0.99)} "
          f"| {charged:,.0f} | {more.total() - more[SUCCESS]:,} |", flush=True)
    return refused == 0 and less[0] == 0


def main():
    options = argparse.ArgumentParser(description="what modest clients get beside greedy ones")
    options.add_argument("--seconds", type=float, default=10)
    options.add_argument("--program", type=Path, default=PROGRAM)
    given = options.parse_args()
    end_when_told()
    print("| `strict` | modest: sent | charged | refused | unanswered | half, ms | 99 of 100, ms | greedy: charged a second | refused |")
    print("|---|---|---|---|---|---|---|---|---|")
    row(given.program, "", given.seconds)
    try:
        return 0 if row(given.program, '"fairness"', given.seconds) else 1
    except Otherwise as fault:
        print(fault)
        return 1


if __name__ == "__main__":
    sys.exit(main())
