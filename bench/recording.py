#!/usr/bin/env python3
"""What it costs a relay to be recorded: bench/recording.py [--seconds 3] [--rounds 4] [--program PROGRAM]

A relay stands between a client and a server that answers at once, over TCP on this machine, with 32 requests unanswered, as in
bench/field.py. It is measured without and with `--record FILE` in turn, so many rounds, each for so many seconds. Prints the
processor time of a request, in the program itself and in the system's calls, and what a message costs more where it is
recorded: a request is four, two that come and two that go. The best of the rounds counts. Not part of the gate; it needs rustc.
"""
import argparse
import os
import signal
import subprocess
import sys
import tempfile
import time
from pathlib import Path

sys.dont_write_bytecode = True

from field import CLIENTS, HERE, PORT, SERVER, TICK, await_port, site  # noqa: E402

WINDOW, MESSAGES = 32, 4


def used(pid):
    """Seconds of a processor in the program, and in the system's calls."""
    rest = Path(f"/proc/{pid}/stat").read_text().rsplit(")", 1)[1].split()
    return int(rest[11]) / TICK, int(rest[12]) / TICK


def measure(room, program, recorded, seconds):
    """Microseconds of a request, in the program and in the system's calls."""
    words = [program, "relay", "--site", f"{room}/site.toml", "--name", "r1.example", *(["--record", f"{room}/r1.record"] if recorded else [])]
    relay = subprocess.Popen(words, stdin=subprocess.DEVNULL, stderr=subprocess.DEVNULL, start_new_session=True)
    try:
        await_port(PORT)
        time.sleep(1)
        before = used(relay.pid)
        ask = [f"{room}/ends", "ask", f"127.0.0.1:{PORT}", CLIENTS[0], str(WINDOW), str(seconds), "ocs.example"]
        told = subprocess.run(ask, capture_output=True, text=True, timeout=seconds + 30, check=True).stdout.split()
        after = used(relay.pid)
    finally:
        os.killpg(relay.pid, signal.SIGKILL)
        relay.wait()
    answers = float(dict(zip(told[::2], told[1::2]))["answers"])
    return tuple((late - early) / answers * 1e6 for early, late in zip(before, after))


def main():
    parser = argparse.ArgumentParser()
    parser.add_argument("--seconds", type=float, default=3)
    parser.add_argument("--rounds", type=int, default=4)
    parser.add_argument("--program", default=str(HERE.parent / "crates/farm_live/out/farm_live"))
    given = parser.parse_args()
    with tempfile.TemporaryDirectory() as room:
        subprocess.run(["rustc", "--edition", "2024", "-O", "-o", f"{room}/ends", str(HERE / "field/ends.rs")], check=True)
        Path(f"{room}/site.toml").write_text(site(SERVER))
        server = subprocess.Popen([f"{room}/ends", "answer", str(SERVER), "f1.example", "ocs.example"])
        try:
            await_port(SERVER)
            rounds = [[measure(room, given.program, recorded, given.seconds) for recorded in (False, True)] for _ in range(given.rounds)]
        finally:
            server.kill()
            server.wait()
    plain, recorded = (min((each[place] for each in rounds), key=sum) for place in (0, 1))
    for name, times in (("not recorded", plain), ("recorded", recorded)):
        print(f"{name}: a request takes {times[0]:.2f} microseconds of a processor in the program, {times[1]:.2f} in the system's calls")
    more = [(late - early) / MESSAGES for early, late in zip(plain, recorded)]
    print(f"a message that is recorded costs {more[0]:.2f} microseconds more in the program, {more[1]:.2f} in the system's calls")


if __name__ == "__main__":
    main()
