#!/usr/bin/env python3
"""Writes sources of nearly 1 MiB, and times gcc's syntax check and a built lsrace on them.

usage: bench/parsing.py FOLDER PATH-OF-LSRACE

In the new folder it writes two sources a kind, of which the second has one token more: functions as they are written by hand, a call of 100,000 arguments, a list of
200,000 entries, 100,000 declarations, and 40,000 statements that use names behind as many declarations. For each it prints
the bytes, about how many tokens there are, and the seconds of `gcc -fsyntax-only` (the least of three runs).

lsrace is run on each with one more token, by which it is no tree: it reads the tokens and the tree and refuses them with 13, before it
checks anything. Its seconds are those of the processor, the least of three runs, with the most memory that it held. They are to grow with
the tokens: none of the long sources should take much more a token than the first. It proves nothing.
"""
import os
import re
import subprocess
import sys
import time

MOST = 1_048_576

# A token that no tree goes on with behind a whole source.
ONE_MORE = "}"


def by_hand():
    """Functions with declarations, branches, loops, calls, members and casts, until the source is full."""
    head = """typedef unsigned long size;
struct node { struct node *next; int count, values[8]; unsigned flags; };
enum state { READY, RUNNING = READY + 4, DONE, };
extern int put(const char *format, ...);
static struct node *first;
"""
    function = """
/* Sums what stands in node {0}. */
static int sum_{0}(struct node *node, int (*weight)(int), size limit)
{{
    int total = 0, i;
    for (i = 0; i < 8 && node->values[i] != -1; i++) {{
        if ((node->flags & (1u << i)) == 0)
            continue;
        total += weight ? (*weight)(node->values[i]) : node->values[i] * 2 + 1;
    }}
    while (limit-- > 0 && node->next) {{
        node = node->next;
        switch (node->count % 3) {{
        case 0: total ^= (int)sizeof(struct node); break;
        default: total = (total << 1) | (total >> 30 & 1);
        }}
    }}
    if (total < RUNNING)
        put("node {0}: " "%d\\n", total);
    else
        first = node;
    return total;
}}
"""
    parts, bytes_ = [head], len(head)
    for number in range(MOST):
        part = function.format(number)
        if bytes_ + len(part) + len(ONE_MORE) > MOST:
            break
        parts.append(part)
        bytes_ += len(part)
    return "".join(parts)


def call():
    """A call of 100,000 arguments."""
    arguments = ",".join(f"a+{i % 1000}" for i in range(100_000))
    return f"int f(int, ...);\nint g(int a)\n{{\n  return f({arguments});\n}}\n"


def entries():
    """A list of 200,000 entries."""
    return f"int a[] = {{ {','.join(str(i % 1000) for i in range(200_000))} }};\n"


def name_of(number):
    """A short name for each number, which is no keyword."""
    digits = "0123456789abcdefghijklmnopqrstuvwxyz"
    text = ""
    while number or not text:
        number, digit = divmod(number, len(digits))
        text = digits[digit] + text
    return "_" + text


def declarations():
    """100,000 declarations, ten a line."""
    lines = ("".join(f"int {name_of(10 * line + i)};" for i in range(10)) for line in range(10_000))
    return "\n".join(lines) + "\n"


def uses():
    """20,000 declarations, and 40,000 statements that use what they declare."""
    names = [name_of(number) for number in range(20_000)]
    declared = [f"int {name};\n" for name in names]
    used = [f"{names[i % 20_000]}={names[i * 7 % 20_000]};\n" for i in range(40_000)]
    return "".join([*declared, "void f(void)\n{\n", *used, "}\n"])


SOURCES = {"by_hand": by_hand, "call": call, "entries": entries, "declarations": declarations, "uses": uses}
TOKEN = re.compile(r'\w+|"[^"]*"|->|\+\+|--|<<|>>|&&|\|\||[-+*/%^&|<>=!]=|\S')


def tokens_in(text):
    """About how many tokens the text has."""
    return len(TOKEN.findall(re.sub(r"/\*.*?\*/", " ", text)))


def seconds_of_gcc(path):
    """The least seconds of three syntax checks."""
    took = []
    for _ in range(3):
        began = time.monotonic()
        run = subprocess.run(["gcc", "-w", "-fsyntax-only", path], capture_output=True, text=True)
        took.append(time.monotonic() - began)
        if run.returncode:
            sys.exit(run.stderr)
    return min(took)


def of_lsrace(lsrace, path):
    """The least processor seconds of three runs, and the most memory of one in MB."""
    best, most = None, 0
    for _ in range(3):
        run = subprocess.Popen([lsrace, "check", os.path.basename(path)], cwd=os.path.dirname(path), stderr=subprocess.PIPE)
        told = run.stderr.read().decode()
        _, status, used = os.wait4(run.pid, 0)
        if os.waitstatus_to_exitcode(status) != 2 or "refused 13 " not in told:
            sys.exit(f"lsrace: {told}")
        took = used.ru_utime + used.ru_stime
        best = took if best is None else min(best, took)
        most = max(most, used.ru_maxrss / 1000)
    return best, most


def main():
    if len(sys.argv) != 3:
        sys.exit(__doc__)
    folder, lsrace = os.path.abspath(sys.argv[1]), os.path.abspath(sys.argv[2])
    os.makedirs(folder)
    print("source             bytes  tokens  gcc s  lsrace s    MB")
    for name, make in SOURCES.items():
        text = make()
        if len(text) + len(ONE_MORE) > MOST:
            sys.exit(f"{name} has {len(text)} bytes")
        path, refused = os.path.join(folder, f"{name}.c"), os.path.join(folder, f"{name}_and_more.c")
        for file_name, written in ((path, text), (refused, text + ONE_MORE)):
            with open(file_name, "w") as file:
                file.write(written)
        seconds, memory = of_lsrace(lsrace, refused)
        print(f"{name:14} {len(text):9} {tokens_in(text):7} {seconds_of_gcc(path):6.2f} {seconds:9.2f} {memory:5.0f}", flush=True)


if __name__ == "__main__":
    main()
