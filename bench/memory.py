#!/usr/bin/env python3
"""Refuses memory to the program, one allocation at a time, and sees what it answers.

usage: bench/memory.py [--from N] [--to N] [--step N] [--seconds S] PROGRAM [FILE ..]

PROGRAM is lsrace as the gate leaves it (crates/lsrace/out/lsrace). For each FILE it runs `PROGRAM check
FILE`, first with all memory, then once for each allocation, which finds none while all others do. The answer
must be that of the first run, or `lsrace: no memory` with status 6 and nothing on standard output. With no
FILE the sources are two of `conformance`: r.c and bank/whole.c. --from, --to and --step choose which
allocations are refused, and --seconds ends the work on a file after so long. A line for each file tells how
many answers there were of each kind, and one before it each wrong answer. The status is 1 where one was.

`rt try --fail-alloc N` does one such run, of a program that it builds for that N. Here `malloc` and `realloc`
are those of a small library (LD_PRELOAD), so that one program serves for all runs.
"""

import argparse
import os
import subprocess
import sys
import tempfile
import time

REPOSITORY = os.path.dirname(os.path.dirname(os.path.abspath(__file__)))
DATA = f"{REPOSITORY}/crates/conformance/data"
SOURCES = ("r.c", "bank/whole.c")
NO_MEMORY = (6, b"", b"lsrace: no memory\n")
REFUSING = r"""
#include <fcntl.h>
#include <stdio.h>
#include <stdlib.h>
#include <string.h>
#include <unistd.h>
extern void *__libc_malloc(size_t size);
extern void *__libc_realloc(void *old, size_t size);
static unsigned long calls, refused;
__attribute__((constructor)) static void begin(void) {
  const char *number = getenv("REFUSED_CALL");
  refused = number ? strtoul(number, 0, 10) : 0;
  calls = 0;
}
__attribute__((destructor)) static void end(void) {
  const char *file = getenv("REFUSED_COUNT");
  char text[32];
  if (!file) return;
  int to = open(file, O_WRONLY | O_CREAT | O_TRUNC, 0600);
  snprintf(text, sizeof text, "%lu\n", calls);
  if (to >= 0 && write(to, text, strlen(text)) > 0) close(to);
}
void *malloc(size_t size) { return ++calls == refused ? 0 : __libc_malloc(size); }
void *realloc(void *old, size_t size) { return ++calls == refused ? 0 : __libc_realloc(old, size); }
"""


class Refusing:
    """A program that finds no memory at one of its allocations."""

    def __init__(self, program, room):
        self.program = os.path.abspath(program)
        self.library, self.count = f"{room}/refusing.so", f"{room}/count"
        source = f"{room}/refusing.c"
        with open(source, "w", encoding="utf-8") as text:
            text.write(REFUSING)
        subprocess.run(["cc", "-O1", "-shared", "-fPIC", "-o", self.library, source], check=True)

    def answer(self, file, number):
        """What the program answers for a file where this allocation, counted from 1, is refused (0: none)."""
        around = {"LD_PRELOAD": self.library, "REFUSED_CALL": str(number), "REFUSED_COUNT": self.count}
        how = {"cwd": DATA, "env": around, "stdin": subprocess.DEVNULL, "capture_output": True}
        ran = subprocess.run([self.program, "check", file], timeout=600, **how)
        return ran.returncode, ran.stdout, ran.stderr

    def allocations(self):
        """How many allocations the last run asked for."""
        with open(self.count, encoding="utf-8") as text:
            return int(text.read())


def numbers(given, last):
    """The allocations to refuse."""
    return range(given.first, min(given.last or last, last) + 1, given.step)


def kind_of(got, whole):
    """What an answer is, beside that with all memory."""
    if got == NO_MEMORY:
        return "no memory"
    return "as with all memory" if got == whole else "wrong"


def try_file(refusing, given, file):
    """Refuses the allocations at one file, prints what came of it, and answers whether all is well."""
    whole = refusing.answer(file, 0)
    last = refusing.allocations()
    kinds = {"as with all memory": 0, "no memory": 0, "wrong": 0}
    began = time.monotonic()
    number = 0
    for number in numbers(given, last):
        status, out, err = got = refusing.answer(file, number)
        kind = kind_of(got, whole)
        kinds[kind] += 1
        if kind == "wrong":
            print(f"{file}: allocation {number}: status {status}, {len(out)} bytes out, {err!r}", flush=True)
        if given.seconds and time.monotonic() - began > given.seconds:
            break
    told = ", ".join(f"{count} {kind}" for kind, count in kinds.items())
    print(f"{file}: status {whole[0]}, {last} allocations, tried up to {number}: {told}", flush=True)
    return kinds["wrong"] == 0


def main():
    words = argparse.ArgumentParser(description="Refuses memory to the program, one allocation at a time.")
    first = {"dest": "first", "type": int, "default": 1, "metavar": "N"}
    words.add_argument("--from", **first, help="the first allocation to refuse")
    words.add_argument("--to", dest="last", type=int, metavar="N", help="the last one")
    words.add_argument("--step", type=int, default=1, metavar="N", help="how far they stand apart")
    words.add_argument("--seconds", type=float, metavar="S", help="how long a file may take")
    words.add_argument("program")
    words.add_argument("files", nargs="*", help="sources below the data of conformance")
    given = words.parse_args()
    with tempfile.TemporaryDirectory(prefix="memory-") as room:
        refusing = Refusing(given.program, room)
        well = [try_file(refusing, given, file) for file in given.files or SOURCES]
    return 0 if all(well) else 1


if __name__ == "__main__":
    sys.exit(main())
