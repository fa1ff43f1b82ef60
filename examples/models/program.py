#!/usr/bin/env python3
"""The model behind the command line of the program: the same words, streams and exit statuses, written from the rules.

    program.py [replay | report] [--site FILE] [--skipped] < SCHEDULE

Faults are looked for in this order: the command line, the site file, the schedule. `examples/check models/program.py`
has the model pass the examples.
"""
import argparse
import sys
from pathlib import Path

from row_site import ROW_SITE
from site_file import SiteFault, site_of
from world import BadSchedule, World, lowest_free, steps_of

DONE, STREAM_FAULT, REFUSED = 0, 1, 3


def run(octets, site=ROW_SITE, choose=lowest_free, report=False, skipped=False):
    """What is printed for a schedule, what is told on standard error, and the exit status."""
    world = World(site, choose)
    try:
        applied = [world.play(*step) for step in steps_of(octets, site)]
    except BadSchedule as fault:
        return "", f"{fault}\n", REFUSED
    printed = "".join(world.book.report() if report else world.output())
    return printed, "".join(names(octets, applied)) if skipped else "", DONE


def names(octets, applied):
    """A line for each step that did not apply, with what stands in the schedule."""
    said = [line for line in octets.replace(b"\r\n", b"\n").split(b"\n") if line and not line.startswith(b"#")]
    for number, (line, did) in enumerate(zip(said, applied, strict=True), 1):
        if not did:
            yield f"skipped {number}: {line.decode()}\n"


class Once(argparse.Action):
    """An option that may be given once; where it takes no value it is there or not."""

    def __call__(self, parser, arguments, value, option=None):
        if getattr(arguments, self.dest) is not None:
            parser.error(f"{option} is given twice")
        setattr(arguments, self.dest, value)


def parsed(words):
    """The command line; where it is refused, the program ends with status 2."""
    parser = argparse.ArgumentParser(prog="farm", allow_abbrev=False)
    parser.add_argument("--version", action="version", version="farm, the model")
    commands = parser.add_subparsers(dest="command")
    for name in ("replay", "report"):
        command = commands.add_parser(name, allow_abbrev=False)
        command.add_argument("--site", metavar="FILE", action=Once)
        command.add_argument("--skipped", nargs=0, action=Once)
    return parser.parse_args(words)


def performed(words):
    arguments = parsed(words)
    named = getattr(arguments, "site", None)
    try:
        file = None if named is None else Path(named).read_bytes()
    except OSError as fault:
        return "", f"the site file cannot be read\n{named}: {fault.strerror} (os error {fault.errno})\n", STREAM_FAULT
    try:
        site = ROW_SITE if file is None else site_of(file)
        skipped = getattr(arguments, "skipped", None) is not None
        return run(sys.stdin.buffer.read(), site, report=arguments.command == "report", skipped=skipped)
    except SiteFault as fault:
        return "", f"{fault}\n", REFUSED
    except OSError as fault:
        return "", f"{fault}\n", STREAM_FAULT


def main(words):
    output, told, status = performed(words)
    sys.stdout.write(output)
    sys.stderr.write(told)
    return status


if __name__ == "__main__":
    sys.exit(main(sys.argv[1:]))
