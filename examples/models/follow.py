#!/usr/bin/env python3
"""Follows what is sent: plays a schedule in the model, and prints each step, and below it each message that it puts in
flight, as `FROM to TO, connection N`, with the octets in a line of their own, which ./farm words puts in words.

    follow.py [--site FILE] < SCHEDULE

`skipped` stands behind a step that did not apply. Relays may choose other Hop-by-Hop Identifiers than the model's do.
"""
import sys
from pathlib import Path

from program import DONE, REFUSED, STREAM_FAULT
from row_site import ROW_SITE
from site_file import SiteFault, site_of
from world import BadSchedule, World, spelled_step, steps_of

# Of a step with a message the beginning is printed: the message stands in a line of its own below.
SHOWN = 80


def in_flight(world):
    """What is in flight, by the message itself."""
    return {id(message): (sender, connection.other(sender), connection.number, message)
            for connection in world.connections.values()
            for sender, messages in connection.flights.items() for message in messages}


def follow(octets, site):
    """The lines that are printed."""
    world = World(site)
    for place, step in enumerate(steps_of(octets, site), 1):
        before = in_flight(world)
        applied = world.play(*step)
        yield f"{place}. {spelled_step(*step).rstrip()[:SHOWN]}{'' if applied else ' skipped'}"
        for key, (sender, receiver, number, message) in in_flight(world).items():
            if key not in before:
                yield f"{sender} to {receiver}, connection {number}"
                yield message.octets().hex()


def main(words):
    if words and (len(words) != 2 or words[0] != "--site"):
        print(__doc__, file=sys.stderr)
        return 2
    try:
        site = site_of(Path(words[1]).read_bytes()) if words else ROW_SITE
        for line in follow(sys.stdin.buffer.read(), site):
            print(line)
    except (SiteFault, BadSchedule, OSError) as fault:
        print(fault, file=sys.stderr)
        return STREAM_FAULT if isinstance(fault, OSError) else REFUSED
    return DONE


if __name__ == "__main__":
    sys.exit(main(sys.argv[1:]))
