#!/usr/bin/env python3
"""How many instructions a relay takes for a request: bench/instructions.py PROGRAM [PROGRAM ..] [--seconds 3]

Each program in turn stands as a relay under valgrind's callgrind, between one or four clients and a server that answers at once, with 1, 32
or 256 requests unanswered on each connection. Prints a table in Markdown: the instructions that a request and its answer take in the
process, by connections and window, and what that is of the first program's. Unlike requests a second it hardly depends on what else the
machine does; the kernel's instructions are not counted. Compare programs that were built alike. Every answer is checked. It needs
valgrind, and rustc for the ends (bench/field/ends.rs). Not part of the gate.
"""
import argparse
import os
import re
import signal
import subprocess
import tempfile
import time
from pathlib import Path

import field

HERE = Path(__file__).resolve().parent


def counted(counts):
    """The instructions that a file of callgrind's has in all."""
    found = re.search(r"^(?:summary|totals): (\d+)", counts.read_text(), re.M)
    return int(found[1]) if found else 0


def control(pid, word):
    subprocess.run(["callgrind_control", *word, str(pid)], capture_output=True, check=False)
    time.sleep(0.3)


def instructions(room, program, names, window, seconds):
    """The instructions of a request through a relay with a link to each of these clients."""
    for old in room.glob("counts*"):
        old.unlink()
    words = ["valgrind", "--tool=callgrind", f"--callgrind-out-file={room}/counts", "--instr-atstart=no"]
    words += [program, "relay", "--site", f"{room}/site.toml", "--name", "r1.example"]
    with open(room / "relay.log", "w") as log:
        relay = subprocess.Popen(words, stdout=log, stderr=log, stdin=subprocess.DEVNULL, start_new_session=True)
    try:
        field.await_port(field.PORT)
        time.sleep(3)
        field.measure(room, relay.pid, names, window, 1)
        control(relay.pid, ["-i", "on"])
        control(relay.pid, ["-z"])
        figures = field.measure(room, relay.pid, names, window, seconds)
        control(relay.pid, ["-d"])
        time.sleep(1)
    finally:
        os.killpg(relay.pid, signal.SIGKILL)
        relay.wait()
    if figures.faults or not figures.answers:
        raise SystemExit(f"instructions: {program}: {figures.faults or 'no answer'}")
    return sum(counted(part) for part in room.glob("counts.*")) / figures.answers


def rows(room, programs, seconds):
    for names in (field.CLIENTS[:1], field.CLIENTS):
        for window in field.WINDOWS:
            of_all = [instructions(room, program, names, window, seconds) for program in programs]
            shares = "".join(f" {it:,.0f} | {it / of_all[0]:.3f} |" for it in of_all[1:])
            yield f"| {len(names)} | {window} | {of_all[0]:,.0f} |{shares}"


def main():
    words = argparse.ArgumentParser(description=__doc__, formatter_class=argparse.RawDescriptionHelpFormatter)
    words.add_argument("programs", nargs="+", metavar="PROGRAM")
    words.add_argument("--seconds", type=float, default=3)
    asked = words.parse_args()
    more = len(asked.programs) - 1
    print("| Connections | Unanswered | Instructions a request |" + " The next program's | Of the first |" * more)
    print("|---" * (3 + 2 * more) + "|")
    with tempfile.TemporaryDirectory() as folder:
        room = Path(folder)
        subprocess.run(["rustc", "--edition", "2024", "-O", "-o", str(room / "ends"), str(HERE / "field/ends.rs")], check=True)
        (room / "site.toml").write_text(field.site(field.SERVER))
        server = subprocess.Popen([str(room / "ends"), "answer", str(field.SERVER), "f1.example", "ocs.example"])
        try:
            field.await_port(field.SERVER)
            for row in rows(room, asked.programs, asked.seconds):
                print(row, flush=True)
        finally:
            server.kill()
            server.wait()


if __name__ == "__main__":
    main()
