#!/usr/bin/env python3
"""The model of `farm audit` and `farm schedule`: audit.py audit|schedule --site FILE RECORD..

It takes no book on disk, as the program does with --book.

Exit statuses are those of the program: 1 for a file that cannot be read, 2 for other words, 3 for what is refused or found.
"""
import sys
from pathlib import Path

from ordering import Audit
from records import Finding
from site_file import SiteFault, site_of


class Unread(Exception):
    """A file that cannot be read: the two lines that are told."""


def octets_of(path, told):
    """The octets of a file; where it cannot be read, this is told, and the file with the reason."""
    try:
        return Path(path).read_bytes()
    except OSError as fault:
        raise Unread(f"{told}\n{path}: {fault.strerror} (os error {fault.errno})") from fault


def main(words):
    if len(words) < 4 or words[0] not in ("audit", "schedule") or words[1] != "--site":
        print("usage: schedule --site FILE [--book FILE] RECORD.., or audit --site FILE [--book FILE] RECORD..", file=sys.stderr)
        return 2
    try:
        site = site_of(octets_of(words[2], "the site file cannot be read"))
        audit = Audit(site, [(name, octets_of(name, f"{name}: a record cannot be read")) for name in words[3:]]).run()
    except Unread as fault:
        print(fault, file=sys.stderr)
        return 1
    except (SiteFault, Finding) as fault:
        print(fault, file=sys.stderr)
        return 3
    if words[0] == "schedule":
        sys.stdout.write(audit.text())
    else:
        print(f"records {len(audit.readers)} events {audit.events} steps {len(audit.steps)}")
        sys.stdout.write("".join(audit.world.book.report()))
    return 0


if __name__ == "__main__":
    sys.exit(main(sys.argv[1:]))
