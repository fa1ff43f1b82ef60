#!/usr/bin/env python3
"""That what was answered stands when the power is cut: bench/book_power.py [--cuts 300] [--seed N] [PROGRAM] [BOOK PROGRAM]

It makes a book on disk and starts the fronts on it, whose calls that write, cut or sync its two files go through a small library
(LD_PRELOAD; it needs cc) that writes them down. A client debits two accounts, 32 requests unanswered at a time, and notes behind which
of these calls it had each answer. Then the power is cut at as many of these calls as asked, chosen by chance: of each file everything
stands that was synced by then, and of what was written since, any sectors of 512 octets, chosen by chance. For each cut
`farm book check` has to be content with these two files, and `farm book export` to have each request that was answered by then, and
each once.

Status 1 where something is otherwise. It needs the programs (./farm prove front, ./farm prove book). Not part of the gate.
"""
import argparse
import os
import random
import struct
import subprocess
import sys
import tempfile
from dataclasses import dataclass
from pathlib import Path

sys.dont_write_bytecode = True

from book_kill import BOOK_PROGRAM, CLIENT, Client, Link, site  # noqa: E402
from loaded import PROGRAM, Otherwise, end_when_told, free_ports  # noqa: E402

REQUESTS, SECTOR, FILES = 3_000, 512, ("", "-wal")
WRITE, CUT, SYNC = 0, 1, 2
RECORD = struct.Struct("<BBQI")
# Writes down the calls on the files of POWER_BOOK in POWER_LOG; the call of the number FAULT_AT fails with the error FAULT_ERROR, and with
# FAULT_STAYS all behind it.
LIBRARY = r"""
#define _GNU_SOURCE
#include <errno.h>
#include <fcntl.h>
#include <stdarg.h>
#include <stdint.h>
#include <stdlib.h>
#include <string.h>
#include <sys/syscall.h>
#include <sys/uio.h>
#include <unistd.h>

enum { WRITE, CUT, SYNC };
static char file_of[4096];
static int log_at = -1;
static long count, fault_at = -1;
static int fault_error, fault_stays;
static const char *book;

__attribute__((constructor)) static void begin(void) {
    const char *log = getenv("POWER_LOG");
    book = getenv("POWER_BOOK");
    if (log && book) log_at = syscall(SYS_openat, AT_FDCWD, log, O_WRONLY | O_APPEND | O_CREAT, 0600);
    if (getenv("FAULT_AT")) {
        fault_at = atol(getenv("FAULT_AT"));
        fault_error = atoi(getenv("FAULT_ERROR"));
        fault_stays = getenv("FAULT_STAYS") != 0;
    }
}

static int fails(int handle) {
    if (fault_at < 0 || handle < 0 || handle >= 4096 || !file_of[handle]) return 0;
    long now = __sync_add_and_fetch(&count, 1);
    if (now != fault_at && !(fault_stays && now > fault_at)) return 0;
    errno = fault_error;
    return 1;
}

static void tell(int kind, int handle, uint64_t at, const void *octets, uint32_t size) {
    if (log_at < 0 || handle < 0 || handle >= 4096 || !file_of[handle]) return;
    char head[14] = {kind, file_of[handle] - 1};
    memcpy(head + 2, &at, 8);
    memcpy(head + 10, &size, 4);
    struct iovec parts[2] = {{head, sizeof head}, {(void *)octets, kind == WRITE ? size : 0}};
    syscall(SYS_writev, log_at, parts, 2);
}

static int known(int handle, const char *path) {
    if (handle >= 0 && handle < 4096 && book && path) {
        size_t length = strlen(book);
        file_of[handle] = strncmp(path, book, length) ? 0 : !path[length] ? 1 : !strcmp(path + length, "-wal") ? 2 : 0;
    }
    return handle;
}

#define MODE mode_t mode = 0; if (flags & (O_CREAT | O_TMPFILE)) { va_list list; va_start(list, flags); mode = va_arg(list, mode_t); va_end(list); }

int open(const char *path, int flags, ...) { MODE return known(syscall(SYS_openat, AT_FDCWD, path, flags, mode), path); }
int open64(const char *path, int flags, ...) { MODE return known(syscall(SYS_openat, AT_FDCWD, path, flags, mode), path); }
int openat(int folder, const char *path, int flags, ...) { MODE return known(syscall(SYS_openat, folder, path, flags, mode), path); }
int openat64(int folder, const char *path, int flags, ...) { MODE return known(syscall(SYS_openat, folder, path, flags, mode), path); }

ssize_t pwrite(int handle, const void *octets, size_t size, off_t at) {
    if (fails(handle)) return -1;
    tell(WRITE, handle, at, octets, size);
    return syscall(SYS_pwrite64, handle, octets, size, at);
}
ssize_t pwrite64(int handle, const void *octets, size_t size, off_t at) { return pwrite(handle, octets, size, at); }

int ftruncate(int handle, off_t size) {
    if (fails(handle)) return -1;
    tell(CUT, handle, size, 0, 0);
    return syscall(SYS_ftruncate, handle, size);
}
int ftruncate64(int handle, off_t size) { return ftruncate(handle, size); }

int fsync(int handle) {
    if (fails(handle)) return -1;
    int done = syscall(SYS_fsync, handle);
    if (!done) tell(SYNC, handle, 0, 0, 0);
    return done;
}
int fdatasync(int handle) {
    if (fails(handle)) return -1;
    int done = syscall(SYS_fdatasync, handle);
    if (!done) tell(SYNC, handle, 0, 0, 0);
    return done;
}
"""


def built(room):
    """The library."""
    library = room / "power.so"
    subprocess.run(["cc", "-O1", "-shared", "-fPIC", "-w", "-o", library, "-x", "c", "-"], check=True, input=LIBRARY.encode())
    return library


@dataclass
class Call:
    """What was done with one of the files."""

    kind: int
    file: int
    at: int
    octets: bytes


def calls_in(log):
    calls, octets, place = [], log.read_bytes(), 0
    while place < len(octets):
        kind, file, at, size = RECORD.unpack_from(octets, place)
        place += RECORD.size
        size = size if kind == WRITE else 0
        calls.append(Call(kind, file, at, octets[place:place + size]))
        place += size
    return calls


def put(content, at, octets):
    if len(content) < at + len(octets):
        content.extend(bytes(at + len(octets) - len(content)))
    content[at:at + len(octets)] = octets


def done(content, call):
    if call.kind == WRITE:
        put(content, call.at, call.octets)
    elif call.at < len(content):
        del content[call.at:]
    else:
        content.extend(bytes(call.at - len(content)))


def left(content, calls, dice):
    """A file of which these calls were not synced: any of their sectors stand."""
    for call in calls:
        if call.kind == CUT:
            if dice.random() < 0.5:
                done(content, call)
            continue
        place = 0
        while place < len(call.octets):
            size = SECTOR - (call.at + place) % SECTOR
            if dice.random() < 0.5:
                put(content, call.at + place, call.octets[place:place + size])
            place += size


class Noting(Client):
    """Notes how many octets of calls were written down when it had each answer."""

    def __init__(self, dice, log):
        super().__init__(dice)
        self.log, self.noted = log, {}

    def next_of(self, is_last):
        return super().next_of(is_last) if self.serial < REQUESTS else None

    def take(self, answer):
        super().take(answer)
        self.noted.setdefault(answer.end, self.log.stat().st_size)


class Run:
    def __init__(self, words, room):
        self.words, self.room, self.port, self.dice = words, room, free_ports(1)[0], random.Random(words.seed)
        self.site, self.book, self.log = room / "site.toml", room / "farm.book", room / "calls"
        self.site.write_text(site(self.port))
        self.client = Noting(self.dice, self.log)

    def ask(self, task, book):
        told = subprocess.run([self.words.book, "book", task, book, "--site", self.site], capture_output=True, text=True)
        if told.returncode:
            raise Otherwise(f"farm book {task} ends with status {told.returncode}: {told.stderr.strip()}")
        return told.stdout

    def serve(self):
        """The files as they were before, and the calls that the fronts made."""
        library = built(self.room)
        self.ask("create", self.book)
        before = [bytearray(Path(f"{self.book}{name}").read_bytes()) for name in FILES]
        environment = {**os.environ, "LD_PRELOAD": str(library), "POWER_LOG": str(self.log), "POWER_BOOK": str(self.book)}
        front = subprocess.Popen([self.words.program, "front", "--site", self.site, "--book", self.book, "--log", "error"], env=environment)
        try:
            self.client.serve(Link(self.port, front), False)
        finally:
            front.kill()
            front.wait()
        if self.client.open or not self.client.answered:
            raise Otherwise(f"{len(self.client.open)} requests are not answered")
        return before, calls_in(self.log)

    def cut(self, before, calls, place):
        """The power is cut behind so many calls: what is left of the files is another book's."""
        folder = Path(tempfile.mkdtemp(dir=self.room))
        for file, name in enumerate(FILES):
            own = [call for call in calls[:place] if call.file == file]
            synced = max((at + 1 for at, call in enumerate(own) if call.kind == SYNC), default=0)
            content = bytearray(before[file])
            for call in own[:synced]:
                if call.kind != SYNC:
                    done(content, call)
            left(content, own[synced:], self.dice)
            (folder / f"farm.book{name}").write_bytes(content)
        return folder / "farm.book"

    def check(self, book, octets):
        self.ask("check", book)
        entries = [line.split()[6] for line in self.ask("export", book).splitlines()]
        answered = {f'"{CLIENT}.example;{serial}"' for serial, at in self.client.noted.items() if at <= octets}
        if len(set(entries)) != len(entries):
            raise Otherwise("a request stands twice")
        if missing := answered - set(entries):
            raise Otherwise(f"{len(missing)} requests that were answered are gone, as {min(missing)}")
        return len(entries), len(answered)

    def all_cuts(self):
        before, calls = self.serve()
        behind, total = [], 0
        for call in calls:
            total += RECORD.size + len(call.octets)
            behind.append(total)
        syncs = sum(call.kind == SYNC for call in calls)
        for count in range(self.words.cuts):
            place = self.dice.randrange(len(calls)) + 1
            book = self.cut(before, calls, place)
            entries, answered = self.check(book, behind[place - 1])
            if count % 50 == 0:
                print(f"cut behind call {place:,} of {len(calls):,}: {entries:,} entries, {answered:,} answered", flush=True)
        print(f"{self.words.cuts} cuts of the power in {len(calls):,} calls, {syncs:,} of them syncs: what was answered stands, once")


def main():
    parser = argparse.ArgumentParser(description=__doc__, formatter_class=argparse.RawDescriptionHelpFormatter)
    parser.add_argument("program", nargs="?", default=PROGRAM)
    parser.add_argument("book", nargs="?", default=BOOK_PROGRAM)
    parser.add_argument("--cuts", type=int, default=300)
    parser.add_argument("--seed", type=int, default=1)
    words = parser.parse_args()
    end_when_told()
    with tempfile.TemporaryDirectory() as room:
        Run(words, Path(room)).all_cuts()


if __name__ == "__main__":
    try:
        main()
    except Otherwise as wrong:
        sys.exit(f"book_power: {wrong}")
