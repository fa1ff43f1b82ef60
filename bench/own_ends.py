#!/usr/bin/env python3
"""The identifiers of a relay's own requests, over restarts: bench/own_ends.py [PROGRAM]

It starts a relay of a site of its own again and again, with strict = ["end-to-end"] and without it. Two servers connected with it read
its Capabilities-Exchange-Request and its Device-Watchdog-Requests, and then it is killed. It prints how many identifiers there were,
and how many came twice. Status 1 where they are not as docs/SERVING.md says ("Identifiers of own requests"): with the word each is
another one, its high 12 bits are the low 12 of the seconds, and its low 20 bits count on from those of the process's first. It needs the
program (./farm prove relay builds it). Not part of the gate.
"""
import socket
import struct
import subprocess
import sys
import tempfile
import time
from pathlib import Path

from ends import PATIENCE, PROGRAM, SUCCESS, capabilities, ids_of, message, read

SERVERS = [("127.0.0.1", 18_971), ("127.0.0.1", 18_972)]
# How often the relay is started, and how many requests each server reads of it.
STARTS, REQUESTS = 3, 3
# How many counts there are.
COUNTS = 1 << 20

SITE = """
realm = "ocs.example"
validity = 600
currency = 978
exponent = -2
watchdog = 500
strict = [STRICT]
link = [{ from = "r1.example", to = "f1.example" }, { from = "r1.example", to = "f2.example" }]
route = [{ at = "r1.example", realm = "ocs.example", app = 4, peers = ["f1.example", "f2.example"] }]
node = [
  { name = "r1.example", kind = "relay", address = "127.0.0.1:18973" },
  { name = "f1.example", kind = "front", address = "127.0.0.1:18971" },
  { name = "f2.example", kind = "front", address = "127.0.0.1:18972" },
]
"""


def next_of(end, name):
    """The identifiers of the next request of the relay, with the second at which it came. It is answered."""
    octets = read(end)
    if octets is None:
        raise SystemExit("the relay sends no request")
    command, ids = int.from_bytes(octets[5:8], "big"), ids_of(octets)
    end.sendall(capabilities(name, 0, ids, SUCCESS) if command == 257 else message(command, 0, 0, ids, SUCCESS))
    return ids, int(time.time())


def requests(site, listeners):
    """What one process sends on two connections, from its start on, in the order in which it was read."""
    relay = subprocess.Popen([PROGRAM, "relay", "--site", site, "--name", "r1.example"], stderr=subprocess.DEVNULL)
    found, ends = [], []
    try:
        for listener in listeners:
            listener.settimeout(PATIENCE)
            end, _ = listener.accept()
            end.settimeout(PATIENCE)
            ends.append(end)
        for _ in range(REQUESTS):
            found += [next_of(end, name) for end, name in zip(ends, (b"f1.example", b"f2.example"))]
        return found
    finally:
        relay.kill()
        relay.wait()
        for end in ends:
            end.close()


def faults(runs, by_clock):
    """What is not as it is to be, of all processes."""
    ends = [ids[1] for found in runs for ids, _ in found]
    if not by_clock:
        return [] if all(hop == end for found in runs for (hop, end), _ in found) else ["the identifiers differ"]
    told = [] if len(set(ends)) == len(ends) else ["an identifier comes twice"]
    if any((second - ids[1] // COUNTS) % 4_096 > 1 for found in runs for ids, second in found):
        told.append("the high bits are not those of the seconds")
    for found in runs:
        first = found[0][0][1]
        ahead = [(ids[1] - first + len(found)) % COUNTS for ids, _ in found]
        if max(ahead) > 3 * len(found):
            told.append("the low bits do not count on")
    return told


def main():
    failed = False
    with tempfile.TemporaryDirectory() as folder:
        for strict in ('"end-to-end"', ""):
            site = Path(folder) / "site.toml"
            site.write_text(SITE.replace("STRICT", strict))
            listeners = [socket.create_server(server) for server in SERVERS]
            runs = [requests(site, listeners) for _ in range(STARTS)]
            for listener in listeners:
                listener.close()
            ends = [ids[1] for found in runs for ids, _ in found]
            told = faults(runs, bool(strict))
            failed |= bool(told)
            print(f"strict = [{strict}]: {len(ends)} identifiers, {len(ends) - len(set(ends))} twice{''.join(f'; {fault}' for fault in told)}")
    sys.exit(1 if failed else 0)


if __name__ == "__main__":
    main()
