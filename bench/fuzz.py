#!/usr/bin/env python3
"""Streams that are broken anywhere, through all that a served relay does with them: bench/fuzz.py [PROGRAM]

    --streams N     so many streams of a client in a run (800)    --seed S    from this seed (1)
    --runs R        so many runs, a seed each (1)                 --jobs J    so many at a time, of those with memory refused (2)
    --refused N     so many runs with memory refused (0)

It has the proved program stream_samples (tools/build stream_samples) read streams of a client: an exchange of capabilities,
requests of all kinds (examples/models/random_requests.py), watchdogs and disconnects, in one of two streams with octets
changed, dropped, doubled, cut off or put in anywhere, frames and headers too. They go through the frames, the life of a
connection, a relay and a front, in reads of 1, 7, 4,096 and 65,536 octets. What is written back, how often a node is up and
lost and why the connection ends has to be what the model says (examples/models), octet for octet, and so has the book.

With --refused the N-th of its allocations is refused (the library of bench/failures.py), for so many N chosen evenly, over
forty streams: it has to end by status 0 or 1, and to write back no more than the beginning of what it writes with ample
memory on each connection up to the refusal. Exit status: 0, or 1 where there was a difference. Not part of the gate.
"""
import argparse
import subprocess
import sys
import tempfile
import time
from collections import Counter
from concurrent.futures import ThreadPoolExecutor
from dataclasses import dataclass, field, replace
from pathlib import Path

TOP = Path(__file__).resolve().parent.parent
sys.path[:0] = [str(TOP / "examples/models"), str(TOP / "bench")]

from at_random import Dice
from diameter import (HEADER_OCTETS, MESSAGE_LIMIT, ORIGIN_HOST, REQUEST, Avp, Message, NoList, first, number, origin,
                      spelled, split)
from failures import Runner
from nodes import folded
from random_requests import RandomRequests
from row_site import C1, F1, R1, ROW_SITE
from site_data import CREDIT_CONTROL_APPLICATION, CLIENT, FRONT, RELAY
from world import World

PROGRAM = TOP / "crates/stream_samples/out/stream_samples"
# The program reads a text of at most so many octets: a run has fewer streams where they are longer.
TEXT_LIMIT = 16_000_000
PIECES = [1, 7, 4_096, 65_536]
# The reads of a turn.
TURN_LIMIT = 64
CAPABILITIES, WATCHDOG, DISCONNECT = 257, 280, 282
HOST_ADDRESS, VENDOR_ID, PRODUCT, AUTH_APPLICATION, RESULT_CODE, CAUSE = 257, 266, 269, 258, 268, 273
RELAY_APPLICATION = 2**32 - 1
MOMENT, SECONDS, REFUSED_STREAMS = 1_000, 600, 40
ENDED, DISCONNECTED, UNWELCOME = "the other side has ended it", "the other end has disconnected", "the other end is not welcome"
VERSION, LENGTH = "a message does not begin with version 1", "a message length is below 20 or no multiple of 4"
TOO_LONG = f"a message is longer than {MESSAGE_LIMIT} octets"
SITE = replace(ROW_SITE, nodes={R1: RELAY, F1: FRONT, C1: CLIENT}, links=[(C1, R1), (R1, F1)],
               routes={(R1, ROW_SITE.realm, CREDIT_CONTROL_APPLICATION): [F1]}, workers=1, queue=1)


# ---- What the model says

@dataclass
class Told:
    """Of a stream: what is written for each of its messages, with the octet at which that is whole; the fault of its frames,
    with the octet that shows it; why the life of the connection ends it, if it does, and at which octet."""

    ups: int = 0
    answers: list = field(default_factory=list)
    fault: tuple = None
    end: tuple = None

    def line(self, piece, length):
        """What the program prints that reads so many octets at a time: the answers of a turn whose frames have a fault are not
        written."""
        turn = piece * TURN_LIMIT

        def turn_of(at):
            return (at - 1) // turn

        last = turn_of(self.fault[0]) if self.fault else length // turn + 1
        reached = turn_of(self.end[0]) if self.end else last + 1
        written = b"".join(octets for at, octets in self.answers if turn_of(at) < last or not self.fault)
        why = self.end[1] if self.end and reached <= last else self.fault[1] if self.fault else ENDED
        return f"{self.ups} {self.ups} {written.hex()} {why}"


def fault_at(octets, at):
    """The fault of what begins there, with the octet that shows it."""
    if octets[at] != 1:
        return at + 1, VERSION
    if len(octets) < at + 4:
        return None
    length = int.from_bytes(octets[at + 1:at + 4])
    if length < HEADER_OCTETS or length % 4:
        return at + 4, LENGTH
    return (at + 4, TOO_LONG) if length > MESSAGE_LIMIT else None


def frames(octets):
    """The messages of a stream, each with the octet at which it is whole, and its fault."""
    messages, at = [], 0
    while at < len(octets):
        if fault := fault_at(octets, at):
            return messages, fault
        length = int.from_bytes(octets[at + 1:at + 4])
        if len(octets) < at + max(length, 4):
            break
        at += length
        messages.append((at, Message.read(octets[at - length:at])))
    return messages, None


def avps_in(body):
    try:
        return split(body)
    except NoList:
        return []


def answer_of(request, avps):
    """An answer between neighbours has none of the flags."""
    return replace(request, flags=0, body=spelled([number(RESULT_CODE, 2001), *avps])).octets()


def capabilities(name, application):
    return origin(name, SITE.realm) + [Avp(HOST_ADDRESS, bytes([0, 1, 127, 0, 0, 1])), number(VENDOR_ID, 0),
                                       Avp(PRODUCT, b"Diameter relay farm", 0), number(AUTH_APPLICATION, application)]


class Model:
    """The relay and the front of the program, and what becomes of a client's connections."""

    def __init__(self):
        self.world = World(SITE, None)
        self.world.up(R1, F1)

    def told(self, octets):
        messages, fault = frames(octets)
        told = Told(fault=fault)
        for at, message in messages:
            self.hear(told, at, message)
            if told.end:
                break
        if told.ups:
            self.world.cut(C1, R1)
        return told

    def hear(self, told, at, message):
        command, asks = message.command, message.is_request
        if not told.ups:
            self.greet(told, at, message)
        elif command == DISCONNECT and asks:
            told.answers.append((at, answer_of(message, origin(R1, SITE.realm))))
            told.end = at, DISCONNECTED
        elif command == WATCHDOG and asks:
            told.answers.append((at, answer_of(message, origin(R1, SITE.realm))))
        elif command not in (CAPABILITIES, WATCHDOG):
            told.answers += [(at, answer.octets()) for answer in self.passed(message)]

    def greet(self, told, at, message):
        name = first(avps_in(message.body), ORIGIN_HOST)
        if message.command == CAPABILITIES and message.is_request and name and folded(name.value) == folded(C1):
            told.ups = 1
            told.answers.append((at, answer_of(message, capabilities(R1, RELAY_APPLICATION))))
            self.world.up(C1, R1)
        else:
            told.end = at, UNWELCOME

    def passed(self, message):
        """What comes of a message of the client."""
        world, before = self.world, len(self.world.received)
        world.send(C1, R1, message)
        world.deliver(C1, R1, 0)
        while world.deliver(R1, F1, 0):
            if world.pick(F1, 0):
                world.charge(F1, 0, MOMENT)
                world.emit(F1, 0)
            world.deliver(F1, R1, 0)
        while world.deliver(R1, C1, 0):
            pass
        return [answer for _, _, answer in world.received[before:]]


# ---- Streams

def between(command, hop, avps, flags=REQUEST):
    return Message(flags, command, 0, hop, hop, spelled(avps)).octets()


class Streams:
    """Streams at random, each chosen where the model's farm stands."""

    def __init__(self, dice, model):
        self.dice, self.requests, self.before = dice, RandomRequests(dice, model.world), b""

    def next(self):
        octets = b"" if self.dice.one_in(30) else self.greeting()
        for _ in range(1 + self.dice.below(8)):
            octets += self.message()
        if self.dice.one_in(2):
            for _ in range(1 + self.dice.below(3)):
                octets = self.dice.one_of(CHANGES)(self, octets)
        self.before = octets[:4_096]
        return octets

    def greeting(self):
        name = self.dice.one_of([C1] * 20 + [C1.upper(), F1, "c9.example"])
        return between(CAPABILITIES, 1, capabilities(name, self.dice.one_of([4, 4, 4, 0, RELAY_APPLICATION])))

    def message(self):
        hop = self.dice.below(2**16)
        if self.dice.one_in(10):
            command = self.dice.one_of([WATCHDOG, WATCHDOG, CAPABILITIES, DISCONNECT])
            flags = self.dice.one_of([REQUEST] * 3 + [0])
            return between(command, hop, origin(C1, SITE.realm) + [number(CAUSE, 0)], flags)
        return self.requests.next(C1).octets()

    def place(self, octets):
        return self.dice.next() % (len(octets) + 1)

    def with_bits_flipped(self, octets):
        octets = bytearray(octets)
        for _ in range(1 + self.dice.below(8)):
            if octets:
                octets[self.dice.next() % len(octets)] ^= 1 << self.dice.below(8)
        return bytes(octets)

    def cut_off(self, octets):
        return octets[:self.place(octets)]

    def with_some_dropped(self, octets):
        at = self.place(octets)
        return octets[:at] + octets[at + 1 + self.dice.below(64):]

    def with_some_put_in(self, octets):
        at = self.place(octets)
        return octets[:at] + self.requests.octets(1 + self.dice.below(64)) + octets[at:]

    def with_some_doubled(self, octets):
        at = self.place(octets)
        return octets[:at] + octets[max(at - self.dice.below(300), 0):]

    def with_another_number(self, octets):
        """A word that is another number: a length, a code, a header's field."""
        at = 4 * (self.place(octets) // 4)
        word = self.dice.one_of([0, 7, 8, 20, 1 << 24 | 20, 1 << 24 | 22, 1 << 24 | 65_536, 1 << 24 | MESSAGE_LIMIT,
                                 1 << 24 | MESSAGE_LIMIT + 4, 0x40000008, 2**32 - 1])
        return octets[:at] + word.to_bytes(4) + octets[at + 4:]

    def behind_another(self, octets):
        at = self.place(octets)
        return octets[:at] + self.before[:self.place(self.before)] + octets[at:]


It = Streams
CHANGES = [It.with_bits_flipped, It.with_bits_flipped, It.cut_off, It.with_some_dropped, It.with_some_put_in,
           It.with_some_doubled, It.with_another_number, It.with_another_number, It.behind_another]


# ---- The two sides

def spelled_streams(streams):
    return b"".join(octets.hex().encode() + b"\n" for octets in streams)


def of_model(told, streams, model, piece):
    lines = [it.line(piece, len(octets)) for it, octets in zip(told, streams)]
    book = model.world.book
    return lines + [f"{len(streams)} streams, {book.entries} entries, balance {book.balances[0, '491700000001']}"]


def of_program(program, streams, piece):
    done = subprocess.run([program, str(piece)], input=spelled_streams(streams), capture_output=True, timeout=SECONDS)
    return done.stdout.decode().splitlines(), done.stderr.decode(), done.returncode


def compared(program, streams, told, model, piece):
    """The differences of a run, in words."""
    lines, fault, status = of_program(program, streams, piece)
    expected = of_model(told, streams, model, piece)
    findings = [f"reads of {piece}: status {status} {fault!r}"] if status or fault else []
    if len(lines) != len(expected):
        findings.append(f"reads of {piece}: {len(lines)} lines for {len(expected)}")
    for place, (line, wanted) in enumerate(zip(lines, expected)):
        if line != wanted:
            octets = streams[place].hex() if place < len(streams) else ""
            findings.append(f"reads of {piece}, stream {place}: {line[:400]!r} for {wanted[:400]!r} of {octets[:2000]}")
    return findings


def refused(program, streams, runs, jobs):
    """What comes of runs in which one allocation is refused: how many ended how, and the findings."""
    text, names, findings = spelled_streams(streams), Counter(), []
    with tempfile.TemporaryDirectory() as room:
        runner = Runner(program, Path(room))
        (whole, _, _), counts = runner.run(["4096"], text, "n", 0)
        lines = whole.decode().splitlines()
        places = range(1, counts[0] + 1, max(1, counts[0] // runs))
        with ThreadPoolExecutor(jobs) as pool:
            found = list(pool.map(lambda place: runner.run(["4096"], text, "a", place)[0], places))
    for place, (output, told, status) in zip(places, found):
        came = "as it was" if output == whole else f"status {status}"
        written = output.decode().splitlines()
        same = next((at for at, pair in enumerate(zip(written, lines)) if pair[0] != pair[1]), len(written))
        names[came] += 1
        if status not in (0, 1) or status == 1 and b"memory" not in told.lower() or not begins(written, lines, same):
            findings.append(f"allocation {place} refused: status {status} {told!r} {written[same:same + 1]} for {lines[same:same + 1]}")
    return names, findings


def begins(written, lines, same):
    """Whether the first connection that went otherwise has written a beginning of what it writes with ample memory, or refuses
    what it could not charge."""
    if same >= len(written) or same >= len(lines) - 1:
        return True
    had, has = (line.split(" ", 3)[2] for line in (lines[same], written[same]))
    return had.startswith(has) or "00000bbc" in has


def run(arguments, seed):
    """The findings of a run, its octets, and how its streams ended."""
    program, model = arguments.program.resolve(), Model()
    chosen, streams, told = Streams(Dice(seed), model), [], []
    length = 0
    for _ in range(arguments.streams):
        stream = chosen.next()
        if not stream:
            # an empty line is none
            continue
        length += len(spelled_streams([stream]))
        if length > TEXT_LIMIT:
            break
        streams.append(stream)
        told.append(model.told(stream))
    findings = [f"seed {seed}: {it}" for piece in PIECES for it in compared(program, streams, told, model, piece)]
    octets, messages = sum(map(len, streams)), sum(len(frames(octets)[0]) for octets in streams)
    whys = Counter((it.end or it.fault or (0, ENDED))[1] for it in told)
    print(f"seed {seed}: {len(streams)} streams of {octets} octets, {messages} messages, each in reads of {PIECES} octets", flush=True)
    if arguments.refused:
        names, more = refused(program, streams[:REFUSED_STREAMS], arguments.refused, arguments.jobs)
        print(f"memory refused: {sum(names.values())} runs ({', '.join(f'{it} {n}' for it, n in sorted(names.items()))})")
        findings += more
    return findings, octets, whys


def main(words):
    parser = argparse.ArgumentParser(description=__doc__, formatter_class=argparse.RawDescriptionHelpFormatter)
    parser.add_argument("program", nargs="?", type=Path, default=PROGRAM)
    parser.add_argument("--streams", type=int, default=800)
    parser.add_argument("--seed", type=int, default=1)
    parser.add_argument("--runs", type=int, default=1)
    parser.add_argument("--refused", type=int, default=0)
    parser.add_argument("--jobs", type=int, default=2)
    arguments = parser.parse_args(words)
    began, findings, octets, whys = time.monotonic(), [], 0, Counter()
    for seed in range(arguments.seed, arguments.seed + arguments.runs):
        found, count, ends = run(arguments, seed)
        findings, octets, whys = findings + found, octets + count, whys + ends
    for why, count in whys.most_common():
        print(f"    {count} ended: {why}")
    for finding in findings[:20]:
        print(finding)
    print(f"{octets} octets, {len(findings)} findings, {time.monotonic() - began:.0f} seconds")
    return 1 if findings else 0


if __name__ == "__main__":
    sys.exit(main(sys.argv[1:]))
