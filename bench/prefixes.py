#!/usr/bin/env python3
"""Gives the program each front of a source, and sees that it refuses all of them but the last ones.

usage: bench/prefixes.py PROGRAM [SOURCE ..]

PROGRAM is a built lsrace. Each front of a SOURCE, from no byte to all of them, must be refused with 11 Token,
13 Syntax or 60 NoMain, in one line and with nothing on standard output. The whole source, and the source
without its last newline, must have one answer that is no refusal. With no SOURCE it is bank/whole.c of
`conformance`. A line for each source tells how many fronts had which refusal, and one before it each wrong
answer. The status is 1 where there was one.
"""

import collections
import os
import re
import subprocess
import sys
import tempfile

REPOSITORY = os.path.dirname(os.path.dirname(os.path.abspath(__file__)))
BANK = f"{REPOSITORY}/crates/conformance/data/bank/whole.c"
REFUSED = re.compile(rb"\S*:\d+:\d+: refused (11 Token|13 Syntax|60 NoMain)\n")


def answer(program, text, room):
    """What the program answers for a source of this text."""
    file = f"{room}/front.c"
    with open(file, "wb") as source:
        source.write(text)
    ran = subprocess.run([program, "check", file], stdin=subprocess.DEVNULL, capture_output=True, timeout=600)
    return ran.returncode, ran.stdout, ran.stderr


def refusal(got):
    """The code of a refusal, or none where the answer isn't one of the three."""
    status, out, err = got
    told = REFUSED.fullmatch(err)
    return told[1].decode() if told and status == 2 and not out else None


def try_source(program, source, room):
    """Tries each front of a source, prints what came of it, and answers whether all is well."""
    with open(source, "rb") as file:
        text = file.read()
    whole, unended = (answer(program, it, room) for it in (text, text[:-1]))
    codes = [refusal(answer(program, text[:length], room)) for length in range(len(text) - 1)]
    wrong = [length for length, code in enumerate(codes) if not code]
    for length in wrong:
        print(f"{source}: the first {length} bytes are not refused as they must be")
    if whole != unended or whole[0] not in (0, 1):
        print(f"{source}: the whole is refused, or answered otherwise than without its last newline")
        wrong.append(len(text))
    counts = collections.Counter(filter(None, codes))
    told = ", ".join(f"{count} {code}" for code, count in sorted(counts.items()))
    print(f"{source}: {len(text) + 1} fronts: {told}, {len(wrong)} wrong", flush=True)
    return not wrong


def main():
    if len(sys.argv) < 2:
        sys.exit(__doc__)
    program = os.path.abspath(sys.argv[1])
    with tempfile.TemporaryDirectory(prefix="prefixes-") as room:
        well = [try_source(program, source, room) for source in sys.argv[2:] or [BANK]]
    return 0 if all(well) else 1


if __name__ == "__main__":
    sys.exit(main())
