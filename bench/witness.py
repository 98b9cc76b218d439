#!/usr/bin/env python3
"""Tries lsrace-witness: which races of the examples it shows, that each schedule races under lsrace play, and how fast it steps.

usage: bench/witness.py [--lsrace FILE] [--witness FILE] [--seed N] [NAME ..]

It needs the built programs crates/lsrace/out/lsrace and crates/lsrace_witness/out/lsrace_witness, or those that are named, and
runs over examples/*.c, examples/races/*.c and examples/people/*.c, or those of these NAMEs. For each program it prints the
seconds, and of each suspect location whether a schedule was found and how many lines it has. It ends with status 1 where a
location isn't shown of which RACY says that it has a race, where one is shown that has none (but for those of MODELS and
MISSED, told in docs/REPORTS.md), where a schedule doesn't race when it is played or is printed otherwise once more, where a
program takes more than ten seconds, where words are answered otherwise than they should be, or where fewer than 200,000 steps a
second are taken in a program of 300 lines.
"""
import argparse
import glob
import os
import subprocess
import sys
import tempfile
import time

TOP = os.path.dirname(os.path.dirname(os.path.abspath(__file__)))
MOST_SECONDS = 10
LEAST_STEPS = 200_000

# Of each program the locations with a race, by hand; the others have none. A name ends a text that begins with the place of an
# allocation.
RACY = {
    "counter": ["started"],
    "after_unlock": [".count"], "double_checked": ["table", "[]"], "early_report": ["done"],
    "hundredth_turn": ["pending"], "key_press": ["volume"], "list_walk": ["head"], "loop_variable": ["main.i"],
    "lost_update": ["balance"], "one_path": ["refused"],
    "three_threads": ["report"], "two_locks": ["value"], "unlocked_flag": ["ready", "message"],
    "server": ["logged"], "latch": ["announced"], "lazy_table": ["squares"], "message_ring": ["ring[][]"],
    "stop_flag": ["stop"],
}

# Locations with a race that the default words don't come to, and those whose race is one of the models of calls alone.
MISSED = {"trylock_stats": ["missed"]}
MODELS = {"barrier_phases": ["now[]"], "once_logger": ["logger.prefix", "logger.started"]}

# Copies what lsrace would be given into a folder.
SAVE = """#!/bin/sh
number=100
for word; do
    case $word in
    *.i) number=$((number + 1)); cp "$word" "$SAVED/$number.i" ;;
    --externs=*) cp "${word#--externs=}" "$SAVED/externs" ;;
    esac
done
"""


class Trial:
    """What is tried, with the programs."""

    def __init__(self, words, folder):
        self.words = words
        self.folder = folder
        self.faults = 0
        self.save = os.path.join(folder, "save")
        with open(self.save, "w") as file:
            file.write(SAVE)
        os.chmod(self.save, 0o755)

    def fault(self, what):
        """Tells of something that is wrong."""
        self.faults += 1
        print("WRONG: " + what)

    def given(self, source):
        """The words that lsrace is given for a source."""
        saved = tempfile.mkdtemp(dir=self.folder)
        told = {**os.environ, "LSRACE": self.save, "SAVED": saved}
        subprocess.run([os.path.join(TOP, "lsrace-cc"), source], cwd=TOP, check=True, env=told)
        return ["--externs=" + os.path.join(saved, "externs"), *sorted(glob.glob(os.path.join(saved, "*.i")))]

    def run(self, program, *words):
        """What a program answers: its status, what it writes, and the seconds."""
        begun = time.monotonic()
        done = subprocess.run([program, *words], capture_output=True, text=True)
        return done.returncode, done.stdout, done.stderr, time.monotonic() - begun

    def search(self, files, *words):
        """What is found, by the texts of the locations in order: the lines of a schedule, or nothing."""
        status, text, errors, seconds = self.run(self.words.witness, "--seed", str(self.words.seed), *words, *files)
        if status > 1:
            sys.exit("lsrace-witness: status %d, %s" % (status, errors))
        found, lines = [], text.split("\n")
        for line in lines[:-2]:
            if line.startswith(("shown ", "not shown ")):
                found.append((line.split("shown ", 1)[1], [] if line.startswith("shown") else None))
            else:
                found[-1][1].append(line)
        shown = sum(schedule is not None for _, schedule in found)
        if lines[-2:] != ["total %d, shown %d" % (len(found), shown), ""] or status != (shown > 0):
            self.fault("totals or status %d: %s" % (status, lines[-2]))
        return found, text, seconds

    def is_played(self, files, text, schedule):
        """Whether a schedule races at the location."""
        name = os.path.join(self.folder, "schedule")
        with open(name, "w") as file:
            file.write("".join(line + "\n" for line in schedule))
        status, told, _, _ = self.run(self.words.lsrace, "play", "--schedule", name, *files)
        return status == 1 and "race " + text in told.split("\n")

    def program(self, source):
        """Tries the search on a program."""
        name = os.path.splitext(os.path.basename(source))[0]
        files = self.given(source)
        found, text, seconds = self.search(files)
        print("%s: %.2f s" % (name, seconds))
        if seconds > MOST_SECONDS:
            self.fault("%s took %.1f s" % (name, seconds))
        racy = RACY.get(name, [])
        for location, schedule in found:
            has_race = any(location == one or location.startswith("heap@") and location.endswith(one) for one in racy)
            print("  %s %s" % (location, "not shown" if schedule is None else "in %d lines" % len(schedule)))
            open_either_way = location in MISSED.get(name, []) + MODELS.get(name, [])
            if has_race != (schedule is not None) and not open_either_way:
                self.fault("%s of %s %s a race" % (location, name, "has" if has_race else "hasn't"))
            if schedule is not None and not self.is_played(files, location, schedule):
                self.fault("the schedule for %s of %s doesn't race" % (location, name))
        if len(racy) > len(found):
            self.fault("%s has only %d suspect locations" % (name, len(found)))
        if self.search(files)[1] != text:
            self.fault("%s has another text at another time" % name)
        return found

    def answers(self):
        """Tries words, and what can't be read."""
        usage = "usage: lsrace-witness [--seed N] [--steps N] [--externs FILE] FILE...\n"
        for words in ([], ["--seed"], ["--seed", "x", "a.i"], ["--seed", "1", "--seed=1", "a.i"], ["--steps", "-1", "a.i"],
                      ["--seed", "18446744073709551616", "a.i"], ["--externs", "--seed", "1", "a.i"], ["--more", "a.i"],
                      ["--steps=01", "a.i"], ["--seed", "1"], ["a.i"] * 65):
            status, text, errors, _ = self.run(self.words.witness, *words)
            if (status, text, errors) != (3, "", usage):
                self.fault("%r: status %d, %s%s" % (words, status, text, errors))
        missing = os.path.join(self.folder, "missing.i")
        for words in (["--", missing], ["--seed", "1", "--steps=1", missing], [missing, "--steps", "0"]):
            status, text, errors, _ = self.run(self.words.witness, *words)
            if (status, text, errors) != (4, "", "lsrace-witness: cannot read %s\n" % missing):
                self.fault("%r: status %d, %s%s" % (words, status, text, errors))
        refused = os.path.join(self.folder, "refused.i")
        with open(refused, "w") as file:
            file.write("int main(void) { return x; }\n")
        if self.run(self.words.witness, refused)[:3] != (2, "", self.run(self.words.lsrace, "check", refused)[2]):
            self.fault("a refusal differs from that of lsrace check")

    def speed(self):
        """How many steps a second are taken in a program of 300 lines in which no race is found."""
        lines = ["#include <pthread.h>", "static pthread_mutex_t lock = PTHREAD_MUTEX_INITIALIZER;", "static int sums[64];"]
        lines += ["static int last;"]
        for number in range(30):
            lines += ["static int add%d(int by) {" % number, "    int old;", "    pthread_mutex_lock(&lock);",
                      "    old = sums[%d];" % number, "    sums[%d] = (old + by) %% 1000;" % number,
                      "    pthread_mutex_unlock(&lock);", "    return old;", "}", ""]
        calls = ["        sum += add%d(i %% 7);" % number for number in range(30)]
        lines += ["static void *work(void *unused) {", "    int sum = 0;", "    for (int i = 0; i < 1000000; i++) {",
                  "        sum = 0;", *calls, "    }", "    last = sum;", "    return unused;", "}"]
        lines += ["int main(void) {", "    pthread_t a, b;", "    pthread_create(&a, 0, work, 0);", "    pthread_create(&b, 0, work, 0);",
                  "    pthread_join(a, 0);", "    pthread_join(b, 0);", "    return 0;", "}"]
        source = os.path.join(self.folder, "long.c")
        with open(source, "w") as file:
            file.write("\n".join(lines) + "\n")
        files = self.given(source)
        none = min(self.search(files, "--steps", "0")[2] for _ in range(3))
        seconds = min(self.search(files, "--steps", "2000000")[2] for _ in range(3)) - none
        rate = 2_000_000 / max(seconds, 1e-9)
        print("%d lines: 2,000,000 steps in %.2f s, %d a second, behind %.2f s for the analysis" % (
            len(lines), seconds, rate, none))
        if rate < LEAST_STEPS:
            self.fault("fewer than %d steps a second" % LEAST_STEPS)


def main():
    """Does what the words of the command say."""
    parser = argparse.ArgumentParser(description="Tries lsrace-witness.")
    parser.add_argument("--lsrace", default=os.path.join(TOP, "crates/lsrace/out/lsrace"))
    parser.add_argument("--witness", default=os.path.join(TOP, "crates/lsrace_witness/out/lsrace_witness"))
    parser.add_argument("--seed", type=int, default=0)
    parser.add_argument("names", metavar="NAME", nargs="*")
    words = parser.parse_args()
    sources = sorted(file for kind in ("", "races/", "people/") for file in glob.glob(os.path.join(TOP, "examples", kind + "*.c")))
    with tempfile.TemporaryDirectory() as folder:
        trial = Trial(words, folder)
        found = [one for source in sources if not words.names or os.path.splitext(os.path.basename(source))[0] in words.names
                 for one in trial.program(os.path.relpath(source, TOP))]
        print("suspect %d, shown %d" % (len(found), sum(schedule is not None for _, schedule in found)))
        if not words.names:
            trial.answers()
            trial.speed()
    return 1 if trial.faults else 0


if __name__ == "__main__":
    sys.exit(main())
