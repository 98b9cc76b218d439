#!/usr/bin/env python3
"""Tells which functions of a crate take long to prove, and in which part of their proof.

usage: bench/slow.py CRATE [WORDS OF rt check ..]

It runs `rt check --jobs 1` in the crate's folder under strace, and takes the time between two modules that the prover writes as that
of the second. What an earlier check has kept isn't proved again: remove the crate's out/ to see all. A function's `Lts` is its
steps, with what each `?` lets go; its `Proof` is what its clauses cost. It needs strace.
"""
import collections
import os
import re
import subprocess
import sys
import tempfile

ROOT = os.path.dirname(os.path.dirname(os.path.abspath(__file__)))
WRITTEN = re.compile(r'^(\d+) +([\d.]+) openat\([^"]*"[^"]*/Rattle-\w+-proofs\.([^/"]*?)(?:\.decls)?\.oantt[^"]*", [^,)]*O_WRONLY')


def traced(crate, words, trace):
    """Runs the check of a crate, and writes which files it opens."""
    command = ["strace", "-f", "--seccomp-bpf", "-e", "trace=openat", "-ttt", "-s", "300", "-o", trace]
    command += ["rt", "check", "--jobs", "1", *words]
    subprocess.run(command, cwd=os.path.join(ROOT, "crates", crate), check=False)


def seconds_of(trace):
    """The seconds of each function, and of each part of its proof."""
    before, functions = {}, collections.defaultdict(collections.Counter)
    with open(trace, encoding="utf-8", errors="replace") as lines:
        for thread, time, module in (found.groups() for found in map(WRITTEN.match, lines) if found):
            if thread in before:
                function, _, part = module.rpartition(".")
                functions[function][part] += float(time) - before[thread]
            before[thread] = float(time)
    return functions


def main():
    if len(sys.argv) < 2:
        sys.exit(__doc__)
    with tempfile.TemporaryDirectory() as folder:
        trace = os.path.join(folder, "trace")
        traced(sys.argv[1], sys.argv[2:], trace)
        functions = seconds_of(trace)
    for function, parts in sorted(functions.items(), key=lambda it: -sum(it[1].values()))[:30]:
        most = ", ".join(f"{part} {seconds:.1f}" for part, seconds in parts.most_common(3))
        print(f"{sum(parts.values()):7.1f} {function}: {most}")


if __name__ == "__main__":
    main()
