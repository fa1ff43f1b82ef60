#!/usr/bin/env python3
"""Puts the lines of an edit into the crate in this folder: tools/turned.py FOLDER EDIT

The text of a line `old:` stands once in the file that the line `file:` before it names, that of a line `each:` once or more often;
what follows `new:` is put in its place, wherever it stands.
"""
import sys
from pathlib import Path


def pairs(edit):
    """The file, whether the text stands there once, the text, and the new one, for each pair of lines."""
    for line in edit.read_text().splitlines():
        word, _, rest = line.partition(":")
        if word == "file":
            file = rest.strip()
        elif word in ("old", "each"):
            once, old = word == "old", rest.removeprefix(" ")
        elif word == "new":
            yield file, once, old, rest.removeprefix(" ")


def main():
    folder, edit = map(Path, sys.argv[1:])
    for file, once, old, new in pairs(edit):
        text = (folder / file).read_text()
        if old not in text or once and text.count(old) != 1:
            sys.exit(f"{edit.name}: {file} has not {'once' if once else 'at all'}: {old}")
        (folder / file).write_text(text.replace(old, new))


if __name__ == "__main__":
    main()
