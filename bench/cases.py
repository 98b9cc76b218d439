#!/usr/bin/env python3
"""Lists what stands in the data of `conformance` and belongs to no case: sources that no line names, and outputs or steps of no case.

usage: bench/cases.py

It ends with status 1 where there is any.
"""
import os
import sys

DATA = os.path.join(os.path.dirname(os.path.dirname(os.path.abspath(__file__))), "crates", "conformance", "data")


def files_of(list_file, of_line):
    """The names of the cases in a list, and the files that they have beside it."""
    folder = os.path.dirname(list_file)
    with open(os.path.join(DATA, list_file), encoding="utf-8") as text:
        lines = [line.split() for line in text if line.strip() and not line.startswith("#")]
    files = {list_file}
    for name, *words in lines:
        files.update(os.path.join(folder, file) for file in of_line(name, words))
    return [name for name, *_ in lines], files


def of_case(name, words):
    return [f"{name}.out", f"{name}.err"] + [word for word in words if word.endswith(".c")]


def of_trace(name, words):
    return [f"{name}.c", f"{name}.steps"]


def main():
    commands, used = files_of("cases.txt", of_case)
    traces, others = files_of("traces/traces.txt", of_trace)
    files = {os.path.relpath(os.path.join(folder, name), DATA) for folder, _, names in os.walk(DATA) for name in names}
    unused = sorted(files - used - others)
    for file in unused:
        print(f"no case has {file}")
    twice = sorted({name for names in (commands, traces) for name in names if names.count(name) > 1})
    for name in twice:
        print(f"two cases are named {name}")
    return 1 if unused or twice else 0


if __name__ == "__main__":
    sys.exit(main())
