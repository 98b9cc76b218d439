#!/usr/bin/env python3
"""Measures what the gate's work costs, crate by crate, and prints it as a table in Markdown.

usage: bench/gate.py [--rt COMMAND] [--jobs N] [--keep FILE] [CRATE ..]
       bench/gate.py [--rt COMMAND] --yardstick TIMES
       bench/gate.py [--rt COMMAND] --plan CORES GIGABYTES [--today SECONDS]

It makes a clean clone of the last commit and goes through the crates there, lowest first. Of each it takes
the seconds of the first proof (`rt check`), those of the proof and run of its tests (`rt test`), and those of
its must-fail edits (`rt must-fail CRATE`). Where crates are named, those below them are proved first, and
only the named ones stand in the table. Under the table stand the functions whose proof took long. With --keep
the seconds are written to a file, in the form of gate_seconds.txt. `rt check` begins with what a check of the
same text left on this machine, so these are seconds from nothing only where there was none.

Seconds are given twice: of processors, over all processes that the command started, and in brackets on the
wall.

--yardstick proves one small crate that stands on no other, so many times, each from nothing whatever was
proved here before, and prints the seconds of processors. That work is of the gate's kind, so what the gate
costs is told as a multiple of it, and days and machines compare.

--plan says how long the gate takes on so many cores with so many GB of free memory, by gate_seconds.txt and
the rule of `rt ci`, which gate_plan.py has. --today is the yardstick of the machine in question, where that
isn't the one of gate_seconds.txt.
"""

import argparse
import os
import re
import resource
import subprocess
import sys
import tempfile
import time

from gate_plan import all_named, edits_in, in_order, told

REPOSITORY = os.path.dirname(os.path.dirname(os.path.abspath(__file__)))
SECONDS = f"{REPOSITORY}/bench/gate_seconds.txt"
YARDSTICK = "lk_cases"
LONG = 30
PARTS = ("proof", "testing", "editing")


def crates_in(root):
    """The crates of crates.txt, each behind those that it stands on, with what it stands on."""
    named = all_named(root)
    return {name: [it for it in named[name] if it in named] for name in in_order(named)}


def all_below(names, crates):
    """The crates below these, and these."""
    found = set(names)
    for name in reversed(list(crates)):
        if name in found:
            found.update(crates[name])
    return found


class Measured:
    """A command that was run: its output, its seconds, and the functions whose proof took long."""

    def __init__(self, words, folder):
        spent = resource.getrusage(resource.RUSAGE_CHILDREN)
        began = last = time.monotonic()
        self.lines, self.slow = [], []
        how = {"stdin": subprocess.DEVNULL, "stdout": subprocess.PIPE, "stderr": subprocess.STDOUT}
        run = subprocess.Popen(words, cwd=folder, text=True, errors="replace", **how)
        for line in run.stdout:
            self.lines.append(line)
            now = time.monotonic()
            step = re.match(r"checked (\S+), \d+ of \d+", line)
            if step and now - last >= LONG:
                self.slow.append((step[1], now - last))
            last = now
        self.status = run.wait()
        self.wall = time.monotonic() - began
        after = resource.getrusage(resource.RUSAGE_CHILDREN)
        self.processors = after.ru_utime + after.ru_stime - spent.ru_utime - spent.ru_stime
        if self.status:
            sys.stderr.write("".join(self.lines[-30:]))
            sys.exit(f"{' '.join(words)} in {folder} ended with status {self.status}")

    def number(self, name):
        """The last number that the output gives under a name."""
        found = re.findall(rf"\b{name}=(\d+)", "".join(self.lines))
        return int(found[-1]) if found else 0


def has_tests(folder):
    """Whether a source of the crate has a test."""
    for at, _, files in os.walk(f"{folder}/src"):
        for file in files:
            with open(f"{at}/{file}", encoding="utf-8") as text:
                if "#[test]" in text.read():
                    return True
    return False


def measure(name, root, rt, jobs):
    """A row of the table, and the functions whose proof took long."""
    folder = f"{root}/crates/{name}"
    proof = Measured([rt, "check", *jobs], folder)
    tests = Measured([rt, "test", *jobs], folder) if has_tests(folder) else None
    edits = edits_in(f"{folder}/must-fail")
    refused = Measured([rt, "must-fail", name], root) if edits else None
    row = {
        "functions": (tests or proof).number("functions"),
        "proof": proof,
        "tests": tests.number("tests") if tests else 0,
        "testing": tests,
        "edits": edits,
        "editing": refused,
    }
    return row, proof.slow + (tests.slow if tests else [])


def seconds(of):
    """The seconds of a command, or nothing where it was not run."""
    return f"{of.processors:.0f} ({of.wall:.0f})" if of else ""


def seconds_of_all(ran):
    """The seconds of several commands."""
    return f"{sum(it.processors for it in ran):.0f} ({sum(it.wall for it in ran):.0f})"


def table(rows):
    """The rows as a table, with their sum."""
    yield "| crate | functions | proof | tests | proof and run of the tests | edits | trial of the edits |"
    yield "|---|---:|---:|---:|---:|---:|---:|"
    for name, row in rows.items():
        counts = [row["functions"], seconds(row["proof"]), row["tests"] or "", seconds(row["testing"])]
        yield f"| {' | '.join(map(str, [name, *counts, row['edits'] or '', seconds(row['editing'])]))} |"
    sums = {part: seconds_of_all([row[part] for row in rows.values() if row[part]]) for part in PARTS}
    counts = {part: sum(row[part] for row in rows.values()) for part in ("functions", "tests", "edits")}
    last = [counts["functions"], sums["proof"], counts["tests"], sums["testing"]]
    last += [counts["edits"], sums["editing"]]
    yield f"| {' | '.join(map(str, ['all', *last]))} |"


def kept(rows):
    """The rows as lines of gate_seconds.txt."""
    for name, row in rows.items():
        yield f"proof {name} {row['proof'].processors:.0f}"
        if row["testing"]:
            yield f"tests {name} {row['testing'].processors:.0f}"
        if row["editing"]:
            yield f"edit {name} {row['editing'].processors / row['edits']:.0f}"


def clone_to(root):
    """Makes a clean clone of the last commit."""
    subprocess.run(["git", "clone", "--quiet", REPOSITORY, root], check=True)


def measure_all(given, root):
    """Goes through the crates, and answers their rows and the functions whose proof took long."""
    crates = crates_in(root)
    unknown = [name for name in given.crates if name not in crates]
    if unknown:
        sys.exit(f"no crate is named {', '.join(unknown)}")
    jobs = ["--jobs", str(given.jobs)] if given.jobs else []
    shown = given.crates or list(crates)
    wanted = all_below(shown, crates)
    rows, slow = {}, []
    for name in (it for it in crates if it in wanted):
        if name in shown:
            rows[name], found = measure(name, root, given.rt, jobs)
            slow += found
            print(f"{name}: {seconds(rows[name]['proof'])}", file=sys.stderr, flush=True)
        else:
            Measured([given.rt, "check", *jobs], f"{root}/crates/{name}")
    return rows, slow


def print_measured(given, root):
    """Measures crates, and prints the table."""
    rows, slow = measure_all(given, root)
    print("\n".join(table(rows)))
    print(f"\nSeconds of processors, and in brackets on the wall, on {os.cpu_count()} processors.")
    for name, spent in sorted(slow, key=lambda it: -it[1]):
        print(f"\n`{name}` took {spent:.0f} s.")
    if given.keep:
        with open(given.keep, "w", encoding="utf-8") as file:
            file.write("\n".join(kept(rows)) + "\n")


def print_yardstick(given, root):
    """Proves the small crate some times from nothing, and prints what each proof took."""
    for _ in range(given.yardstick):
        ran = Measured([given.rt, "verdict", "--jobs", "1"], f"{root}/crates/{YARDSTICK}")
        print(f"yardstick: {ran.processors:.1f} s of processors, {ran.wall:.1f} s on the wall", flush=True)


def print_plan(given):
    """Prints how long the gate takes on so many cores."""
    cores, gigabytes = given.plan
    page = subprocess.run([given.rt, "doc"], check=True, capture_output=True, text=True).stdout
    kit = os.path.dirname(page.strip())
    print("\n".join(told(REPOSITORY, kit, SECONDS, int(cores), gigabytes, given.today)))


def main():
    words = argparse.ArgumentParser(description="Measures the gate's work, crate by crate.")
    words.add_argument("--rt", default="rt", help="the command that proves")
    words.add_argument("--jobs", type=int, help="how many proofs go side by side")
    words.add_argument("--keep", metavar="FILE", help="where to write the seconds")
    words.add_argument("--yardstick", type=int, metavar="TIMES", help="measure one small crate instead")
    of_plan = {"type": float, "nargs": 2, "metavar": ("CORES", "GIGABYTES")}
    words.add_argument("--plan", **of_plan, help="say how long the gate takes")
    words.add_argument("--today", type=float, metavar="SECONDS", help="the yardstick that the plan is for")
    words.add_argument("crates", nargs="*")
    given = words.parse_args()
    if given.plan:
        print_plan(given)
        return
    with tempfile.TemporaryDirectory(prefix="gate-") as room:
        root = f"{room}/clone"
        clone_to(root)
        if given.yardstick:
            print_yardstick(given, root)
        else:
            print_measured(given, root)


if __name__ == "__main__":
    main()
