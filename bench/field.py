#!/usr/bin/env python3
"""What relays carry, ours beside those of other makes: bench/field.py [--seconds 3] [--program PROGRAM] [--relays NAME,..] [--write]

With --before PROGRAM, another build of ours, both builds alone are measured by turns, --rounds 5 times, and medians are compared.

Each relay in turn stands between one or four clients and a server that answers at once, over TCP on this machine, with 1, 32
or 256 requests unanswered on each connection. Every answer is checked: Hop-by-Hop and End-to-End Identifier, Session-Id,
Result-Code. Prints a table in Markdown: requests a second, the relay's processor time for each, the median and the slowest
hundredth, and its memory. The relays:

- farm: this one (./farm prove relay builds it);
- freediameter, otp: where the Debian packages freediameterd and freediameter-extensions, erlang-diameter are installed;
- copy: hands octets on, and knows nothing of messages: the bound of what can be reached with sockets;
- frame: finds the messages, swaps the identifiers and appends a Route-Record: the least that a relay does.

Below it stands what ours is of the others. With --write all of it becomes bench/figures/relays.md. It needs rustc
for the ends (bench/field/ends.rs). Not part of the gate. What is compared are ratios of one run, on a machine without other work.
bench/front.py does the same with fronts.
"""
import argparse
import glob
import os
import re
import shutil
import signal
import socket
import statistics
import subprocess
import sys
import tempfile
import time
from collections.abc import Callable
from dataclasses import dataclass
from pathlib import Path

HERE = Path(__file__).resolve().parent
PORT, SERVER = 18_901, 18_902
CLIENTS = ["c1.example", "c2.example", "c3.example", "c4.example"]
WINDOWS = [1, 32, 256]
TICK = os.sysconf("SC_CLK_TCK")


@dataclass
class Figures:
    answers: int
    rate: float
    cpu: float
    median: float
    p99: float
    memory: float
    faults: str


def site(at_server):
    """The site of the relay: it connects to the server, and the clients to it."""
    lines = ['realm = "ocs.example"', "validity = 600", "currency = 978", "exponent = -2", "watchdog = 30000"]
    nodes = [("r1.example", "relay", PORT), ("f1.example", "front", at_server), *((name, "client", None) for name in CLIENTS)]
    for name, kind, port in nodes:
        lines += ["[[node]]", f'name = "{name}"', f'kind = "{kind}"'] + ([f'address = "127.0.0.1:{port}"'] if port else [])
    for start, end in [*((name, "r1.example") for name in CLIENTS), ("r1.example", "f1.example")]:
        lines += ["[[link]]", f'from = "{start}"', f'to = "{end}"']
    lines += ["[[route]]", 'at = "r1.example"', 'realm = "ocs.example"', "app = 4", 'peers = ["f1.example"]']
    lines += ["[[tariff]]", "group = 10", 'kind = "octets"', "block = 1000", "price = 5", "quantum = 5000", "greatest = 10000"]
    lines += ["[[account]]", "type = 0", 'id = "491700000001"', "opening = 1000000000"]
    return "\n".join(lines) + "\n"


FREEDIAMETER = """Identity = "r1.example";
Realm = "relay.example";
Port = {port};
SecPort = 0;
No_SCTP;
No_IPv6;
ListenOn = "127.0.0.1";
TwTimer = 30;
TLS_Cred = "{room}/cert.pem", "{room}/key.pem";
TLS_CA = "{room}/cert.pem";
TLS_DH_Bits = 1024;
LoadExtension = "{acl}" : "{room}/acl.conf";
ConnectPeer = "f1.example" {{ No_TLS; Port = {server}; ConnectTo = "127.0.0.1"; }};
"""


def find_acl():
    """Where freeDiameter's list of who may connect is installed, or None."""
    found = glob.glob("/usr/lib/*/freeDiameter/acl_wl.fdx") + glob.glob("/usr/lib/freeDiameter/acl_wl.fdx")
    return found[0] if found else None


def freediameter(room, _):
    acl = find_acl()
    if not acl or not shutil.which("freeDiameterd"):
        return None
    certificate = ["openssl", "req", "-x509", "-newkey", "rsa:2048", "-nodes", "-days", "2", "-subj", "/CN=r1.example"]
    subprocess.run([*certificate, "-keyout", f"{room}/key.pem", "-out", f"{room}/cert.pem"], check=True, stderr=subprocess.DEVNULL)
    Path(f"{room}/acl.conf").write_text("ALLOW_IPSEC " + " ".join([*CLIENTS, "f1.example"]) + "\n")
    Path(f"{room}/fd.conf").write_text(FREEDIAMETER.format(room=room, port=PORT, server=SERVER, acl=acl))
    return ["freeDiameterd", "-c", f"{room}/fd.conf"]


def otp(_, __):
    return ["escript", str(HERE / "field/relay.escript"), str(PORT), str(SERVER)] if shutil.which("escript") else None


def farm(room, program):
    Path(f"{room}/site.toml").write_text(site(SERVER))
    return [program, "relay", "--site", f"{room}/site.toml", "--name", "r1.example"] if os.path.exists(program) else None


RELAYS = {
    "farm": farm,
    "freediameter": freediameter,
    "otp": otp,
    "frame": lambda room, _: [f"{room}/ends", "frame", str(PORT), f"127.0.0.1:{SERVER}"],
    "copy": lambda room, _: [f"{room}/ends", "copy", str(PORT), f"127.0.0.1:{SERVER}"],
}


def processes(pid):
    """This process and those below it."""
    children = Path(f"/proc/{pid}/task/{pid}/children").read_text().split()
    return [pid, *(below for child in children for below in processes(int(child)))]


def used(pid):
    """Seconds of a processor, and MB that are or were resident."""
    seconds, memory = 0.0, 0.0
    for each in processes(pid):
        rest = Path(f"/proc/{each}/stat").read_text().rsplit(")", 1)[1].split()
        seconds += (int(rest[11]) + int(rest[12])) / TICK
        memory += int(re.search(r"VmHWM:\s+(\d+)", Path(f"/proc/{each}/status").read_text())[1]) / 1024
    return seconds, memory


def is_open(port):
    with socket.socket() as probe:
        return probe.connect_ex(("127.0.0.1", port)) == 0


def await_port(port):
    for _ in range(200):
        if is_open(port):
            return
        time.sleep(0.1)
    sys.exit(f"field: nobody listens on {port}")


def ask(room, names, window, seconds, *granted):
    """What the ends count while they ask, by word, and what is wrong. With `granted`, so many octets are to be granted."""
    words = [f"{room}/ends", "ask", f"127.0.0.1:{PORT}", ",".join(names), str(window), str(seconds), "ocs.example", *map(str, granted)]
    told = subprocess.run(words, capture_output=True, text=True, timeout=seconds + 30)
    words = told.stdout.split()
    if not words:
        return {}, told.stderr.strip().splitlines()[-1] if told.stderr else "no answer"
    counted = dict(zip(words[::2], map(float, words[1::2])))
    return counted, ", ".join(f"{counted[word]:.0f} {word}" for word in ("wrong", "strangers", "missing", "ended") if counted[word])


def measure(room, pid, names, window, seconds, *granted):
    before, _ = used(pid)
    counted, faults = ask(room, names, window, seconds, *granted)
    after, memory = used(pid)
    if not counted:
        return Figures(0, 0, 0, 0, 0, memory, faults)
    answers = int(counted["answers"])
    cpu = (after - before) / max(answers, 1) * 1e6
    return Figures(answers, answers / counted["seconds"], cpu, counted["median"], counted["p99"], memory, faults)


def row_of(name, count, window, it):
    return (f"| {name} | {count} | {window} | {it.rate:,.0f} | {it.cpu:.2f} | {it.median:,.0f} | {it.p99:,.0f} | {it.memory:.1f} "
            f"| {it.faults or 'none'} |")


def run(name, room, program, seconds):
    """The figures of a relay, by connections and window."""
    figures = {}
    words = RELAYS[name](room, program)
    if not words:
        print(f"field: {name} is not there", file=sys.stderr)
        return figures
    server = subprocess.Popen([f"{room}/ends", "answer", str(SERVER), "f1.example", "ocs.example"])
    await_port(SERVER)
    with open(f"{room}/{name}.log", "w") as log:
        relay = subprocess.Popen(words, stdout=log, stderr=log, stdin=subprocess.DEVNULL, start_new_session=True)
    try:
        await_port(PORT)
        time.sleep(3)
        for names in (CLIENTS[:1], CLIENTS):
            for window in WINDOWS:
                it = measure(room, relay.pid, names, window, seconds)
                figures[len(names), window] = it
                print(row_of(name, len(names), window, it), flush=True)
                time.sleep(1)
    finally:
        os.killpg(relay.pid, signal.SIGKILL)
        relay.wait()
        server.kill()
        server.wait()
    return figures


SECTION = """What relays carry over TCP on one machine, between clients and a server that answers at once; written by `bench/field.py --write`, whose head says what each of them is. Every answer was checked. {machine}

{table}

What this relay carries, as a multiple of what another one does in the same run:

{ratios}
"""


def ratios(figures):
    """What ours carries of what others do, for each number of connections and each window."""
    others = [name for name in figures if name != "farm" and figures[name]]
    lines = ["| Connections | Window | " + " | ".join(others) + " |", "|" + "---|" * (len(others) + 2)]
    for place, ours in figures.get("farm", {}).items():
        parts = [f"{ours.rate / max(figures[name][place].rate, 1):.2f}" for name in others]
        lines.append("| " + " | ".join([str(place[0]), str(place[1]), *parts]) + " |")
    return "\n".join(lines)


def write_page(heading, text):
    """Writes what was measured, with its heading, as a file of its own."""
    (HERE / f"figures/{heading.lower()}.md").write_text(f"# {heading}\n\n{text.strip()}\n")


def machine(load):
    """The day and the machine, and how many of its processors were busy with other work."""
    model = re.search(r"model name\s*: (.*)", Path("/proc/cpuinfo").read_text())
    of_make = f" ({model[1]})" if model else ""
    when = time.strftime("%-d %B %Y")
    return f"{when}, {os.cpu_count()} processors{of_make}, with {load:.1f} of them busy with other work when it began: what counts are the ratios."


def busy():
    """How many processors have other work, over a second."""
    def now():
        times = [int(word) for word in Path("/proc/stat").read_text().splitlines()[0].split()[1:9]]
        return sum(times) - times[3] - times[4], sum(times)
    before = now()
    time.sleep(1)
    after = now()
    return os.cpu_count() * (after[0] - before[0]) / max(after[1] - before[1], 1)


@dataclass
class Bench:
    """What is measured, and the file of bench/figures/ that it becomes."""
    heading: str
    names: list
    run: Callable
    section: str
    ratios: Callable

    def head(self):
        kind = self.heading.removesuffix("s")
        columns = [kind, "Connections", "Window", "Requests a second", "Processor, microseconds a request", "Median, microseconds",
                   "Slowest hundredth", "Memory, MB", "Faults"]
        return "| " + " | ".join(columns) + " |\n" + "|---" * len(columns) + "|"

    def by_turns(self, name, room, words):
        """What this build carries and what the one before does: the median of some runs by turns, by connections and window."""
        rates = {}
        for _ in range(words.rounds):
            for place, program in enumerate((words.program, words.before)):
                for key, it in self.run(name, room, program, words.seconds).items():
                    rates.setdefault(key, ([], []))[place].append(it.rate)
        return {key: [statistics.median(of) for of in both] for key, both in rates.items()}

    def compare(self, room, words):
        """Prints what each of ours carries as a multiple of what it did before."""
        print("\nName, connections, window, requests a second now and before, and the multiple:\n")
        for name in words.names.split(","):
            for (count, window), (now, before) in self.by_turns(name, room, words).items():
                print(f"| {name} | {count} | {window} | {now:,.0f} | {before:,.0f} | {now / max(before, 1):.3f} |", flush=True)

    def measure(self, doc):
        """Measures those that the command line names, prints what it finds, and writes the file where that is asked for."""
        parser = argparse.ArgumentParser(description=doc, formatter_class=argparse.RawDescriptionHelpFormatter)
        parser.add_argument("--seconds", type=float, default=3)
        parser.add_argument("--program", default=str(HERE.parent / "crates/farm_live/out/farm_live"))
        parser.add_argument(f"--{self.heading.lower()}", dest="names", default=",".join(self.names))
        parser.add_argument("--write", action="store_true", help=f"write bench/figures/{self.heading.lower()}.md")
        parser.add_argument("--before", help="another build of the program, with which this one is compared")
        parser.add_argument("--rounds", type=int, default=5, help="how often each build is measured, with --before")
        words = parser.parse_args()
        with tempfile.TemporaryDirectory() as room:
            subprocess.run(["rustc", "--edition", "2024", "-O", "-o", f"{room}/ends", str(HERE / "field/ends.rs")], check=True)
            print(self.head())
            if words.before:
                self.compare(room, words)
                return {}
            load = busy()
            figures = {name: self.run(name, room, words.program, words.seconds) for name in words.names.split(",")}
        print("\n" + self.ratios(figures))
        if words.write:
            rows = [row_of(name, *place, it) for name, of_it in figures.items() for place, it in of_it.items()]
            table = "\n".join([self.head(), *rows])
            write_page(self.heading, self.section.format(machine=machine(load), table=table, ratios=self.ratios(figures)))
        return figures


if __name__ == "__main__":
    Bench("Relays", list(RELAYS), run, SECTION, ratios).measure(__doc__)
