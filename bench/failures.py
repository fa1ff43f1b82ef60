#!/usr/bin/env python3
"""What the program does where memory is refused and where its streams fail: bench/failures.py [PROGRAM] [SCHEDULE ..]
    bench/failures.py --runs [PROGRAM] [SCHEDULE ..]      of the program farm_samples: what is told of a run
    bench/failures.py --random N [--seed S] [PROGRAM]     over random sites and schedules

For each schedule (those of ROWS, if none is named) it runs the proved program, crates/farm_cli/out/farm_cli, with the
N-th allocation refused, for N = 1, 2, .. until a run asks for fewer; then with each read, and each write, failing,
interrupted or moving one octet. The program is not built for it: its calls of malloc, realloc, read and write go
through a small library (LD_PRELOAD; it needs cc) that counts them. What has to come of a run:

    allocation refused     exit status 4, no output, one line that says that memory is out; or all as it was, since a
                           list that is refused room to grow asks once more, for what it needs at once
    two refused            the same of two allocations, one behind the other
    a read fails           exit status 1, no output
    a write fails          exit status 1, and what was written before is a beginning of the output
    interrupted, or short  all as it was

With --runs it is the replay of the program farm_samples (crates/farm_samples/out/farm_samples), which prints what is told of a
run that ended early, and asks a book again after a refusal. Where memory is refused at a step, what is told has to be
the run of the steps before it, as the program prints it of them alone; and the book has to answer as it would have,
unless it was refused twice. Where memory is refused before or between, the program ends early, with a beginning of it.

With --random N it is farm_cli over so many random sites and schedules of examples/models/at_large.py, from --seed on,
with at most 40 calls of a kind that fail, chosen evenly.

A run that ends by a signal, or has not ended after ten seconds, is a finding, as any other. Not part of the gate.
"""
import argparse
import mmap
import os
import struct
import subprocess
import sys
import tempfile
import time
from collections import Counter
from concurrent.futures import ThreadPoolExecutor
from pathlib import Path

TOP = Path(__file__).resolve().parent.parent
PROGRAM, SAMPLES = TOP / "crates/farm_cli/out/farm_cli", TOP / "crates/farm_samples/out/farm_samples"
# With a word behind its name farm_samples plays the schedule of its standard input, and does nothing else.
REPLAY = ["replay"]
ROWS = ["debits/first-debit", "failover/failover", "failover/failover-while-picked", "sessions/session-not-due",
        "sessions/session-abandoned", "sessions/session-kept-up", "sessions/answers",
        "refusals/loop-detected", "refusals/front-refusals"]
SECONDS, MOST = 10, 40
LIBRARY = r"""
#include <errno.h>
#include <fcntl.h>
#include <stdlib.h>
#include <sys/mman.h>
#include <sys/syscall.h>
#include <unistd.h>

extern void *__libc_malloc(size_t);
extern void *__libc_realloc(void *, size_t);

enum { ALLOC, READ, WRITE };
static long *count;
static long place;
static char kind;

__attribute__((constructor)) static void begin(void) {
    const char *file = getenv("FAILURES_COUNT"), *what = getenv("FAILURES_KIND"), *at = getenv("FAILURES_AT");
    if (!file || !what || !at) return;
    kind = *what;
    place = atol(at);
    int handle = open(file, O_RDWR);
    void *page = mmap(0, 4096, PROT_READ | PROT_WRITE, MAP_SHARED, handle, 0);
    close(handle);
    if (page != MAP_FAILED) count = page;
}

static int hit(int what, const char *kinds) {
    if (!count) return 0;
    long now = ++count[what];
    if (now != place && !(kind == 'b' && now == place + 1)) return 0;
    for (; *kinds; kinds++) if (*kinds == kind) return 1;
    return 0;
}

void *malloc(size_t size) {
    if (hit(ALLOC, "ab")) { errno = ENOMEM; return 0; }
    return __libc_malloc(size);
}

void *realloc(void *old, size_t size) {
    if (hit(ALLOC, "ab")) { errno = ENOMEM; return 0; }
    return __libc_realloc(old, size);
}

ssize_t read(int handle, void *octets, size_t size) {
    if (handle == 0 && hit(READ, "rij")) {
        if (kind == 'r') { errno = EIO; return -1; }
        if (kind == 'i') { errno = EINTR; return -1; }
        size = size ? 1 : 0;
    }
    return syscall(SYS_read, handle, octets, size);
}

ssize_t write(int handle, const void *octets, size_t size) {
    if (handle == 1 && hit(WRITE, "wxy")) {
        if (kind == 'w') { errno = EIO; return -1; }
        if (kind == 'x') { errno = EINTR; return -1; }
        size = size ? 1 : 0;
    }
    return syscall(SYS_write, handle, octets, size);
}
"""
# Of each kind of failure: its letter, and which of the counts it is of.
ALLOCATION, READ, WRITE = 0, 1, 2
KINDS = {"allocation refused": ("a", ALLOCATION), "two refused": ("b", ALLOCATION), "read fails": ("r", READ),
         "read interrupted": ("i", READ), "read of one octet": ("j", READ), "write fails": ("w", WRITE),
         "write interrupted": ("x", WRITE), "write of one octet": ("y", WRITE)}
REFUSALS = "allocation refused", "two refused"


class Runner:
    """Runs the program with one call that fails."""

    def __init__(self, program, room):
        self.program, self.room = program, room
        self.library = room / "failures.so"
        subprocess.run(["cc", "-O1", "-shared", "-fPIC", "-o", self.library, "-x", "c", "-"], check=True,
                       input=LIBRARY.encode())

    def run(self, words, schedule, letter, place):
        """Output, what is told, exit status (None: no end), and how many calls of each kind there were."""
        with tempfile.NamedTemporaryFile(dir=self.room) as counts:
            counts.write(bytes(mmap.PAGESIZE))
            counts.flush()
            environment = {"LD_PRELOAD": str(self.library), "FAILURES_COUNT": counts.name, "FAILURES_KIND": letter,
                           "FAILURES_AT": str(place)}
            try:
                done = subprocess.run([self.program, *words], input=schedule, capture_output=True, timeout=SECONDS,
                                      env=environment)
                found = done.stdout, done.stderr, done.returncode
            except subprocess.TimeoutExpired:
                found = b"", b"", None
            with open(counts.name, "rb") as file:
                return found, struct.unpack("3q", file.read(24))


def verdict(kind, found, whole):
    """A name of what came of a run, and whether it is what has to come."""
    output, told, status = found
    if found == whole:
        return "as it was", kind != "write fails"
    if status is None or status < 0:
        return f"ended by {status}", False
    one_line = told.count(b"\n") == 1
    if kind in REFUSALS:
        return "out of memory", status == 4 and not output and one_line and b"out of memory" in told
    if kind == "read fails":
        return "not read", status == 1 and not output and one_line
    if kind == "write fails":
        return "not written", status == 1 and whole[0].startswith(output) and one_line
    return "other", False


def told_of_kind(name, kind, names):
    parts = ", ".join(f"{it} {count}" for it, count in sorted(names.items()))
    print(f"{name}: {kind}: {sum(names.values())} ({parts})", flush=True)


def each_call(runner, name, words, schedule, jobs, most=None):
    """Every call of the program fails once, in each way; or so many of a kind. Gives what came, and the findings."""
    whole, counts = runner.run(words, schedule, "n", 0)
    findings, all_names = [], {}
    for kind, (letter, which) in KINDS.items():
        with ThreadPoolExecutor(jobs) as pool:
            places = range(1, counts[which] + 1, most and 1 + counts[which] // most or 1)
            runs = list(pool.map(lambda place: runner.run(words, schedule, letter, place)[0], places))
        names = Counter()
        for place, found in zip(places, runs):
            told, well = verdict(kind, found, whole)
            names[told] += 1
            if not well:
                findings.append(f"{name}: {kind} {place}: {told}: status {found[2]} {found[1]!r} {found[0][:60]!r}")
        all_names[kind] = names
    return all_names, findings


def random_cases(runner, seed, count, jobs):
    """Random sites and schedules, not every call of each."""
    sys.path.insert(0, str(TOP / "examples/models"))
    from random_runs import case_at
    all_names, findings = {kind: Counter() for kind in KINDS}, []
    for place in range(count):
        case, _ = case_at(seed, place)
        words = ["replay"]
        if case.site is not None:
            path = runner.room / "site.toml"
            path.write_bytes(case.site)
            words += ["--site", path]
        names, found = each_call(runner, f"random {seed} {place}", words, case.schedule, jobs, MOST)
        findings += found
        for kind in KINDS:
            all_names[kind] += names[kind]
    for kind, names in all_names.items():
        told_of_kind(f"{count} random runs", kind, names)
    return findings


def steps_before(schedule, count):
    """The first so many steps of a schedule, as a schedule."""
    steps = [line for line in schedule.splitlines(keepends=True) if line.strip() and not line.startswith(b"#")]
    return b"".join(steps[:count])


def parts(output):
    """What is told of the run, and of the book behind it; how many steps the run had (None: it was not opened)."""
    lines = output.splitlines(keepends=True)
    if lines[:1] == [b"not opened\n"]:
        return lines[0], b"".join(lines[1:]), None
    # the run ends with its report: a line of entries, and one for each account
    at = next((n + 1 for n, line in enumerate(lines) if line.startswith(b"entries")), len(lines))
    while at < len(lines) and lines[at].startswith(b"account"):
        at += 1
    words = lines[0].split() if lines else []
    return b"".join(lines[:at]), b"".join(lines[at:]), int(words[1]) if words[:1] == [b"steps"] else None


def told_runs(runner, name, schedule, jobs):
    """Allocations of farm_samples are refused, one and two. Prints how the runs end, and gives the findings."""
    (whole, _, _), counts = runner.run(REPLAY, schedule, "n", 0)
    told_whole, book, steps = parts(whole)
    told_of = [parts(runner.run(REPLAY, steps_before(schedule, count), "n", 0)[0][0])[0] for count in range(steps)]
    told_of.append(told_whole)
    findings = []
    for kind in REFUSALS:
        letter, names = KINDS[kind][0], Counter()
        with ThreadPoolExecutor(jobs) as pool:
            places = range(1, counts[ALLOCATION] + 1)
            runs = list(pool.map(lambda place: runner.run(REPLAY, schedule, letter, place)[0], places))
        for place, found in zip(places, runs):
            came, well = verdict_of_run(found, told_of, book, kind)
            names[came] += 1
            if not well:
                findings.append(f"{name}: {kind} {place}: {came}: status {found[2]} {found[1]!r} {found[0]!r}")
        told_of_kind(name, kind, names)
    return findings


def verdict_of_run(found, told_of, book, kind):
    """The same of a run of farm_samples; `told_of` has what is told of so many steps, the last of all of them."""
    output, told, status = found
    told_run, told_book, count = parts(output)
    if status == 1:
        out_of_memory = any(words in told.lower() for words in (b"out of memory", b"memory allocation failed"))
        early = out_of_memory and any((it + book).startswith(output) for it in told_of)
        return "ended early", early or kind == "two refused" and (told_run in told_of or output == b"not opened\n")
    if status != 0:
        return f"ended by {status}", False
    same_book = told_book == book or kind == "two refused"
    if count is None:
        return "not opened", output.startswith(b"not opened\n") and same_book
    came = "as it was" if count == len(told_of) - 1 else "refused at a step"
    return came, told_run == told_of[count] and same_book


def main(words):
    parser = argparse.ArgumentParser(description=__doc__, formatter_class=argparse.RawDescriptionHelpFormatter)
    parser.add_argument("program", nargs="?", type=Path)
    parser.add_argument("schedules", nargs="*", type=Path)
    parser.add_argument("--runs", action="store_true")
    parser.add_argument("--random", type=int, default=0)
    parser.add_argument("--seed", type=int, default=1)
    parser.add_argument("--site", type=Path)
    parser.add_argument("--jobs", type=int, default=2)
    arguments = parser.parse_args(words)
    schedules = arguments.schedules or [TOP / f"examples/{row}.schedule" for row in ROWS]
    began, findings = time.monotonic(), []
    with tempfile.TemporaryDirectory() as room:
        program = arguments.program or (SAMPLES if arguments.runs else PROGRAM)
        runner, named = Runner(program.resolve(), Path(room)), ["--site", arguments.site] if arguments.site else []
        if arguments.random:
            findings += random_cases(runner, arguments.seed, arguments.random, arguments.jobs)
        for path in [] if arguments.random else schedules:
            if arguments.runs:
                findings += told_runs(runner, path.stem, path.read_bytes(), arguments.jobs)
                continue
            names, found = each_call(runner, path.stem, ["replay", *named], path.read_bytes(), arguments.jobs)
            findings += found
            for kind in KINDS:
                told_of_kind(path.stem, kind, names[kind])
    for finding in findings:
        print(finding)
    print(f"{len(findings)} findings, {time.monotonic() - began:.0f} seconds")
    return 1 if findings else 0


if __name__ == "__main__":
    sys.exit(main(sys.argv[1:]))
