#!/usr/bin/env python3
"""How long a relay takes to forward a request and to match its answer, with requests pending: bench/relay.py

It plays schedules through the program (./farm prove builds it) and takes the best of some runs of each. All have so many
requests pending at the relay, which stay on their way to the front. Then a number of debits go to the front and back,
once over the relay and once over the client's own connection with the front, and the same requests are sent and lost.
What one debit takes more over the relay is two hops more, the forwarding and the match; what a lost one takes is that
it is read from the schedule, copied twice and taken out again.
"""
import subprocess
import sys
import time
from pathlib import Path

PROGRAM = Path(__file__).resolve().parent.parent / "crates/farm_cli/out/farm_cli"
PENDING, DEBITS, RUNS = 4_000, 4_000, 7
# A debit of 3200 octets; its CC-Request-Number stands at digit 296.
DEBIT = (
    "010000f8c0000110000000040000000700000064000001074000000e63313b313b310000000001084000001263312e6578616d706c6500000000"
    "01284000000f6578616d706c65000000011b400000136f63732e6578616d706c6500000001024000000c00000004000001cd4000001633323235"
    "3140336770702e6f72670000000001a04000000c000000040000019f4000000c00000000000001b44000000c00000000000001bb400000280000"
    "01c24000000c00000000000001bc40000014343931373030303030303031000001c84000002c000001b540000018000001a54000001000000000"
    "00000c80000001b04000000c0000000a"
)
CHARGE = ["pick f1.example 0", "charge f1.example 0 1000", "emit f1.example 0"]


def debit(number):
    return DEBIT[:296] + f"{number:08x}" + DEBIT[304:]


def opening(pending):
    """The connections, and as many requests that the relay has sent and that stay on their way."""
    steps = ["up c1.example r1.example", "up r1.example f1.example", "up c1.example f1.example"]
    for number in range(pending):
        steps += [f"send c1.example r1.example {debit(1_000_000 + number)}", "deliver c1.example r1.example 0"]
    return steps


def over_relay(number):
    return [f"send c1.example r1.example {debit(number)}", "deliver c1.example r1.example 0",
            f"deliver r1.example f1.example {PENDING}", *CHARGE, "deliver f1.example r1.example 0",
            "deliver r1.example c1.example 0"]


def direct(number):
    return [f"send c1.example f1.example {debit(number)}", "deliver c1.example f1.example 0", *CHARGE,
            "deliver f1.example c1.example 0"]


def lost(number):
    return [f"send c1.example f1.example {debit(number)}", "lose c1.example f1.example 0"]


def seconds(steps):
    """The best of some runs of a schedule."""
    text = "\n".join(steps).encode()
    best = None
    for _ in range(RUNS):
        begun = time.perf_counter()
        subprocess.run([PROGRAM], input=text, stdout=subprocess.DEVNULL, check=True)
        took = time.perf_counter() - begun
        best = took if best is None else min(best, took)
    return best


def microseconds(kind, begun):
    """What one more of a kind takes, beyond the opening."""
    steps = opening(PENDING)
    for number in range(DEBITS):
        steps += kind(number)
    return (seconds(steps) - begun) / DEBITS * 1e6


def main():
    if not PROGRAM.exists():
        sys.exit("build the program first: ./farm prove")
    begun = seconds(opening(PENDING))
    print(f"{PENDING} requests pending, {DEBITS} debits of {len(DEBIT) // 2} octets, the best of {RUNS} runs each")
    for name, kind in ("over a relay", over_relay), ("without a relay", direct), ("sent and lost", lost):
        print(f"{name}: {microseconds(kind, begun):.1f} microseconds each")


if __name__ == "__main__":
    main()
