#!/usr/bin/env python3
"""Agents of other makes between a relay and the fronts: bench/agents.py [PROGRAM [WORDS]]

Two clients, a relay r1.example, two agents a1.example and a2.example of another make, and two fronts on one book: a1.example sends
on to f1.example, and a2.example to f2.example. Each client sends 200 debits, 20 of them under way at a time, each with a Session-Id
of its own. The relay prefers a1.example, which is killed when the first client has half of its answers. A client has to get one answer
to each of its requests, with its own Session-Id and DIAMETER_SUCCESS, and nothing else; and the book has to have one charge a request.
Agents are OTP's diameter (Debian: erlang-diameter) and freeDiameter (freediameterd, freediameter-extensions), each where it is
installed. Status 1 where something is otherwise, or no agent is installed. WORDS stand at strict in the site, and are
'"names", "end-to-end", "goodbyes", "origin-state"' where none are given. It needs the program (./farm prove relay builds it). Not part
of the gate.
"""
import os
import re
import shutil
import signal
import subprocess
import sys
import tempfile
import threading
import time
import urllib.request
from collections import Counter
from pathlib import Path

sys.dont_write_bytecode = True

from ends import PATIENCE, PROGRAM, RELAY  # noqa: E402
from field import find_acl  # noqa: E402
from strangers import CLIENTS, REQUESTS, ask, connect  # noqa: E402

HERE = Path(__file__).resolve().parent
WORDS = sys.argv[2] if len(sys.argv) > 2 else '"names", "end-to-end", "goodbyes", "origin-state"'
AGENTS = {"a1.example": 18_971, "a2.example": 18_972}
FRONTS = {"f1.example": 18_973, "f2.example": 18_974}
BEHIND = dict(zip(AGENTS, FRONTS))
STATUS = 18_975

SITE = """
realm = "ocs.example"
validity = 600
currency = 978
exponent = -2
watchdog = 6000
strict = [WORDS]
link = [
  { from = "c1.example", to = "r1.example" },
  { from = "c2.example", to = "r1.example" },
  { from = "r1.example", to = "a1.example" },
  { from = "r1.example", to = "a2.example" },
  { from = "a1.example", to = "f1.example" },
  { from = "a2.example", to = "f2.example" },
]
route = [
  { at = "r1.example", realm = "ocs.example", app = 4, peers = ["a1.example", "a2.example"] },
  { at = "a1.example", realm = "ocs.example", app = 4, peers = ["f1.example"] },
  { at = "a2.example", realm = "ocs.example", app = 4, peers = ["f2.example"] },
]
node = [
NODES]
tariff = [{ group = 10, kind = "octets", block = 1000, price = 5, quantum = 5000, greatest = 10000 }]
account = [{ type = 0, id = "491700000001", opening = 1000000 }]
"""

FREEDIAMETER = """Identity = "{name}";
Realm = "agents.example";
Port = {port};
SecPort = 0;
No_SCTP;
No_IPv6;
ListenOn = "127.0.0.1";
TwTimer = 30;
TLS_Cred = "{room}/{name}.pem", "{room}/{name}.key";
TLS_CA = "{room}/{name}.pem";
TLS_DH_Bits = 1024;
LoadExtension = "{acl}" : "{room}/acl.conf";
ConnectPeer = "{server}" {{ No_TLS; Port = {at}; ConnectTo = "127.0.0.1"; }};
"""


def freediameter(room, name):
    """The command that runs freeDiameter as this agent."""
    acl = find_acl()
    if not acl or not shutil.which("freeDiameterd"):
        return None
    certificate = ["openssl", "req", "-x509", "-newkey", "rsa:2048", "-nodes", "-days", "2", "-subj", f"/CN={name}"]
    subprocess.run([*certificate, "-keyout", room / f"{name}.key", "-out", room / f"{name}.pem"], check=True, stderr=subprocess.DEVNULL)
    (room / "acl.conf").write_text("ALLOW_IPSEC r1.example f1.example f2.example\n")
    server = BEHIND[name]
    text = FREEDIAMETER.format(name=name, port=AGENTS[name], room=room, acl=acl, server=server, at=FRONTS[server])
    (room / f"{name}.conf").write_text(text)
    return ["freeDiameterd", "-c", room / f"{name}.conf"]


def otp(_, name):
    """The command that runs OTP's diameter as this agent."""
    if not shutil.which("escript"):
        return None
    return ["escript", HERE / "field/relay.escript", str(AGENTS[name]), str(FRONTS[BEHIND[name]]), name, BEHIND[name]]


def site_text():
    """The site of the farm and of both agents."""
    nodes = [("r1.example", "relay", RELAY[1]), *((name, "relay", port) for name, port in AGENTS.items())]
    nodes += [*((name, "front", port) for name, port in FRONTS.items()), *((name.decode(), "client", None) for name in CLIENTS)]
    lines = []
    for name, kind, port in nodes:
        address = f', address = "127.0.0.1:{port}"' if port else ""
        lines.append(f'  {{ name = "{name}", kind = "{kind}"{address} }},\n')
    return SITE.replace("WORDS", WORDS).replace("NODES", "".join(lines))


def metric(name):
    """What the fronts tell of this metric."""
    page = urllib.request.urlopen(f"http://127.0.0.1:{STATUS}/metrics", timeout=PATIENCE).read().decode()
    return int(float(re.search(rf"^{name} (\S+)$", page, re.M)[1]))


def await_lines(path, texts):
    """Waits until a log has each of these texts."""
    until = time.monotonic() + 3 * PATIENCE
    while any(text not in path.read_text() for text in texts):
        if time.monotonic() > until:
            sys.exit(f"agents: {path.name} has not all of {texts}:\n{path.read_text()[-2000:]}")
        time.sleep(0.1)


class Farm:
    """The processes of one run, and their logs."""

    def __init__(self, room):
        self.room, self.running = room, {}

    def start(self, name, words):
        log = open(self.room / f"{name}.log", "wb")
        self.running[name] = subprocess.Popen(words, stdout=log, stderr=log, stdin=subprocess.DEVNULL, start_new_session=True)

    def kill(self, name):
        process = self.running.pop(name, None)
        if process:
            os.killpg(process.pid, signal.SIGKILL)
            process.wait()

    def end(self):
        for name in list(self.running):
            self.kill(name)

    def log(self, name):
        return self.room / f"{name}.log"


def start(farm, agent):
    """The farm with both agents, all up. None where this make is not installed."""
    site = farm.room / "site.toml"
    site.write_text(site_text())
    words = {name: agent(farm.room, name) for name in AGENTS}
    if not all(words.values()):
        return None
    farm.start("fronts", [PROGRAM, "front", "--site", site, "--status", str(STATUS)])
    await_lines(farm.log("fronts"), ["listens on"])
    for name in AGENTS:
        farm.start(name, words[name])
    await_lines(farm.log("fronts"), [f"{front} and {name} are up" for name, front in BEHIND.items()])
    farm.start("r1.example", [PROGRAM, "relay", "--name", "r1.example", "--site", site])
    await_lines(farm.log("r1.example"), [f"r1.example and {name} are up" for name in AGENTS])
    return farm


def kill_half_way(farm, got, over):
    """Kills the first agent when half of one client's requests are answered."""
    while got["answered"] < REQUESTS // 2 and not over.is_set():
        time.sleep(0.001)
    farm.kill("a1.example")


def run(farm):
    """What the clients get while an agent is killed."""
    got, over = Counter(), threading.Event()
    threads = [threading.Thread(target=lambda name=name: ask(connect(name), name, b"new", got)) for name in CLIENTS]
    killer = threading.Thread(target=kill_half_way, args=(farm, got, over))
    for thread in [killer, *threads]:
        thread.start()
    for thread in threads:
        thread.join()
    over.set()
    killer.join()
    return got


def main():
    failed, tried = False, 0
    for agent in (otp, freediameter):
        with tempfile.TemporaryDirectory() as folder:
            farm = Farm(Path(folder))
            try:
                if not start(farm, agent):
                    print(f"{agent.__name__}: is not installed")
                    continue
                tried += 1
                got = run(farm)
                charges, log = metric("farm_charges_total"), farm.log("r1.example").read_text()
            finally:
                farm.end()
        wanted = len(CLIENTS) * REQUESTS
        right = got == Counter(answered=wanted) and charges == wanted and "a1.example is lost" in log
        failed |= not right
        told = ", ".join(f"{count} {word}" for word, count in sorted(got.items()))
        print(f"{agent.__name__}: at the clients {told or 'nothing'}; {charges} charges{'' if right else '; not as it has to be'}")
        if not right:
            print(log[-3000:])
    sys.exit(1 if failed or not tried else 0)


if __name__ == "__main__":
    main()
