#!/usr/bin/env python3
"""Tries the wrong bodies that the gate only keeps: of crates that are dear to prove a second time, and of finished ones.

usage: bench/wrong.py [--rt COMMAND] [CRATE ..]

Such a wrong body is a file crates/CRATE/must-fail/NAME.md, written as a must-fail edit. The script makes a clean clone of the
last commit, makes each an edit there and runs `rt must-fail CRATE`: the prover must refuse each. With no crate named, it
tries those of all crates. It is run whenever one of these crates changes.
"""

import argparse
import glob
import os
import subprocess
import sys
import tempfile

REPOSITORY = os.path.dirname(os.path.dirname(os.path.abspath(__file__)))


def made_edits(root, crate):
    """Makes the wrong bodies of a crate of this clone edits, and returns how many there are."""
    kept = glob.glob(f"{root}/crates/{crate}/must-fail/*.md")
    for file in kept:
        os.rename(file, f"{os.path.splitext(file)[0]}.edit")
    return len(kept)


def main():
    parser = argparse.ArgumentParser(description=__doc__, formatter_class=argparse.RawDescriptionHelpFormatter)
    parser.add_argument("--rt", default="rt", help="the command rt")
    parser.add_argument("crates", nargs="*", metavar="CRATE")
    given = parser.parse_args()
    with tempfile.TemporaryDirectory(prefix="lsrace-wrong-") as root:
        subprocess.run(["git", "clone", "--quiet", REPOSITORY, root], check=True)
        names = given.crates or sorted(os.listdir(f"{root}/crates"))
        kept = [crate for crate in names if made_edits(root, crate)]
        if not kept:
            sys.exit("none of these crates keeps such a wrong body")
        sys.exit(subprocess.run([given.rt, "must-fail", *kept], cwd=root).returncode)


if __name__ == "__main__":
    main()
