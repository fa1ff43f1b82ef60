"""Lays a measuring program of bench/ beside the crates of a copy of the repository, where `rt run` proves and builds it.

Its files end in .rt.txt and .antt.txt here, since the gate takes a file whose name ends in .rt or .antt for one that a crate
has forgotten. What was proved in the repository is taken along.
"""
import os
import shutil
import subprocess
import sys
from pathlib import Path

TOP = Path(__file__).resolve().parent.parent


def below(lines, names):
    """These crates of the repository, and all that they stand on."""
    found = set()
    while names:
        name = names.pop()
        if name in lines and name not in found:
            found.add(name)
            names += lines[name]
    return found


def link(file, to):
    """The file under another name too, or a copy of it on another disk."""
    try:
        os.link(file, to)
    except OSError:
        shutil.copy2(file, to)


def lay(copy, folder, deps, top=TOP):
    """The program of bench/FOLDER in a copy, as a crate of the name FOLDER_bench, with the crates of `top` that it stands on: its place."""
    lines = {}
    for line in (top / "crates.txt").read_text().splitlines():
        if not line.startswith("#"):
            name, _, on = line.partition(":")
            lines[name] = on.split()
    names = below(lines, deps.split())
    told = [f"{name}: {' '.join(on)}" for name, on in lines.items() if name in names]
    (copy / "crates.txt").write_text("\n".join(told + [f"{folder}_bench: {deps}"]) + "\n")
    shutil.copy(TOP / "HANDLES", copy / "HANDLES")
    for name in names:
        shutil.copytree(top / "crates" / name, copy / "crates" / name, symlinks=True, copy_function=link)
    bench = copy / "crates" / f"{folder}_bench"
    for file in (TOP / "bench" / folder).rglob("*.txt"):
        to = bench / file.relative_to(TOP / "bench" / folder).with_suffix("")
        to.parent.mkdir(parents=True, exist_ok=True)
        shutil.copy(file, to)
    return bench


def build(bench):
    """The program that was laid there, proved and built."""
    done = subprocess.run(["rt", "run"], cwd=bench, capture_output=True, text=True, check=False)
    if done.returncode:
        sys.exit(done.stdout + done.stderr)
    return bench / "out" / bench.name
