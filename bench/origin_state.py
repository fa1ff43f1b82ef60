#!/usr/bin/env python3
"""What fronts tell of their state: bench/origin_state.py [PROGRAM [BOOK_PROGRAM]]

A client connects to a front, sends a Device-Watchdog-Request and a Disconnect-Peer-Request, and reads Origin-State-Id (RFC 6733, section
8.16) in what it gets: without the word origin-state in strict, with it and a book in memory, and twice with a book in a file, over a
restart a second later. Status 1 where they are not as docs/SERVING.md says ("Sessions that were lost"). It needs the programs (./farm
prove relay, ./farm prove book). Not part of the gate.
"""
import subprocess
import sys
import tempfile
import time
from pathlib import Path

sys.dont_write_bytecode = True

from ends import PROGRAM, RELAY, ROOT, avp, capabilities, dial, message, read  # noqa: E402

BOOK_PROGRAM = sys.argv[2] if len(sys.argv) > 2 else f"{ROOT}/crates/farm_book/out/farm_book"
ORIGIN_STATE_ID = 278
DEVICE_WATCHDOG, DISCONNECT_PEER = 280, 282

SITE = """
realm = "ocs.example"
validity = 600
currency = 978
exponent = -2
strict = [STRICT]
link = [{ from = "c1.example", to = "f1.example" }]
node = [
  { name = "c1.example", kind = "client" },
  { name = "f1.example", kind = "front", address = "FRONT" },
]
"""


def states_in(octets):
    """The values of Origin-State-Id in a message."""
    at, found = 20, []
    while at < len(octets):
        length = int.from_bytes(octets[at + 5 : at + 8], "big")
        if int.from_bytes(octets[at : at + 4], "big") == ORIGIN_STATE_ID:
            found.append(int.from_bytes(octets[at + 8 : at + length], "big"))
        at += length + -length % 4
    return found


def told(site, book):
    """What a front tells in CEA, DWA and DPA."""
    words = [PROGRAM, "front", "--site", site, *(["--book", book] if book else [])]
    front = subprocess.Popen(words, stderr=subprocess.DEVNULL)
    try:
        with dial() as end:
            end.sendall(capabilities(b"c1.example", 0x80, (1, 1)))
            answers, origin = [read(end)], avp(264, b"c1.example") + avp(296, b"example")
            for command, body in ((DEVICE_WATCHDOG, origin), (DISCONNECT_PEER, origin + avp(273, bytes(4)))):
                end.sendall(message(command, 0x80, 0, (command, command), body))
                answers.append(read(end))
        return [states_in(octets) for octets in answers]
    finally:
        front.kill()
        front.wait()


def main():
    failed = False
    with tempfile.TemporaryDirectory() as folder:
        site, book, before = Path(folder) / "site.toml", Path(folder) / "farm.book", int(time.time())
        site.write_text(SITE.replace("STRICT", '"origin-state"').replace("FRONT", f"{RELAY[0]}:{RELAY[1]}"))
        subprocess.run([BOOK_PROGRAM, "book", "create", book, "--site", site], stdout=subprocess.DEVNULL, check=True)
        made = range(before, int(time.time()) + 1)
        time.sleep(2)
        first, again = told(site, book), told(site, book)
        in_memory, now = told(site, None), range(made[-1] + 1, int(time.time()) + 1)
        site.write_text(site.read_text().replace('"origin-state"', ""))
        without = told(site, None)
    for name, found, wanted in (("without", without, None), ("in memory", in_memory, now), ("a book", first, made), ("again", again, made)):
        values = {value for states in found for value in states}
        right = [len(states) for states in found] == ([1, 1, 0] if wanted else [0, 0, 0]) and len(values) <= 1 and all(value in wanted for value in values)
        failed |= not right
        print(f"{name}: CEA, DWA and DPA have {found}{'' if right else ', and not as they are to be'}")
    failed |= first != again
    sys.exit(1 if failed else 0)


if __name__ == "__main__":
    main()
