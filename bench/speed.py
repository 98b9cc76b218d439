#!/usr/bin/env python3
"""Times a built lsrace against gcc's syntax check, on whole programs of growing size.

usage: bench/speed.py PATH-OF-LSRACE

For each number of statements it prints the seconds of both (the least of five runs), their ratio, the
peak memory of lsrace, and how the time grew against the row before. The sources are straight lines, then
functions with branches, loops, reads and calls, then deeply nested ones; each kind first with 50 variables, then
with more of them the more statements there are. It shows speed and proves nothing.
"""
import os
import subprocess
import sys
import tempfile
import time

PREAMBLE = """typedef unsigned long pthread_t;
typedef struct { int opaque[10]; } pthread_mutex_t;
int pthread_create(pthread_t *, const void *, void *(*)(void *), void *);
int pthread_mutex_lock(pthread_mutex_t *);
int pthread_mutex_unlock(pthread_mutex_t *);
"""


def declarations(names, threads):
    """That many ints, eight mutexes, and an id for each thread."""
    lines = [f"int x{i};" for i in range(names)]
    lines += [f"pthread_mutex_t m{i};" for i in range(8)]
    return lines + [f"pthread_t t{i};" for i in range(threads)]


def main_function(threads, statements):
    """A main that creates the threads and then runs the statements."""
    creates = [f"  pthread_create(&t{i}, 0, w{i}, 0);" for i in range(threads)]
    return ["int main(void) {", *creates, *statements, "  return 0;", "}"]


def straight(statements, names, threads=20):
    """That many statements in thread functions and main, most of them writes under a mutex."""
    lines = declarations(names, threads)
    each = (statements - threads) // (threads + 1)
    for thread in range(threads):
        writes = straight_body(each, names, thread)
        lines += [f"void *w{thread}(void *q{thread}) {{", *writes, "  return 0;", "}"]
    lines += main_function(threads, straight_body(each, names, threads))
    return "\n".join(lines) + "\n"


def straight_body(count, names, seed):
    """That many statements: blocks of a lock, six writes and an unlock, then writes alone."""
    lines = []
    for block in range(count // 8):
        mutex = block % 8
        lines.append(f"  pthread_mutex_lock(&m{mutex});")
        for step in range(6):
            lines.append(f"  x{(seed * 7 + block * 6 + step) % names} = {block};")
        lines.append(f"  pthread_mutex_unlock(&m{mutex});")
    lines += [f"  x{(seed + i) % names} = {i};" for i in range(count % 8)]
    return lines


def branching(statements, names, threads=10):
    """That many statements in 40 functions and main: three layers of ten functions, of which each calls two
    of the layer below, and ten thread functions, which call two of the last layer. Most statements stand in
    branches and loops under a mutex."""
    lines = declarations(names, threads)
    calls_in_all = 3 * threads * 2 + 1
    each = (statements - threads - calls_in_all) // (4 * threads + 1)
    below = None
    for layer in "abcw":
        for i in range(threads):
            calls = [f"  {below}{(i + k) % threads}();" for k in range(2)] if below else []
            inner = calls + branching_body(each, names, ord(layer) * threads + i)
            if layer == "w":
                lines += [f"void *w{i}(void *q{i}) {{", *inner, "  return 0;", "}"]
            else:
                lines += [f"void {layer}{i}(void) {{", *inner, "}"]
        below = layer
    lines += main_function(threads, ["  c0();", *branching_body(each, names, 0)])
    return "\n".join(lines) + "\n"


def branching_body(count, names, seed):
    """That many statements: blocks of ten, most of them in a loop under a mutex, then assignments alone."""
    lines = []
    for block in range(count // 10):
        x = [f"x{(seed * 7 + block * 8 + k) % names}" for k in range(8)]
        mutex = (seed + block) % 8
        lines += [
            f"  pthread_mutex_lock(&m{mutex});",
            f"  while ({x[0]} < 9) {{",
            f"    {x[0]} = {x[0]} + {x[1]};",
            f"    if ({x[2]} == 0) {{",
            f"      {x[3]} = {x[2]};",
            "    } else {",
            f"      {x[4]} = 1;",
            "    }",
            "  }",
            f"  {x[5]} = {x[6]} - {x[7]};",
            f"  pthread_mutex_unlock(&m{mutex});",
            f"  {x[6]} = 7;",
            f"  {x[7]} = {x[0]} + 1;",
        ]
    lines += [f"  x{(seed + i) % names} = {i};" for i in range(count % 10)]
    return lines


def nested(statements, names, threads=10):
    """That many statements in 40 functions: ten thread functions, each of which calls three of thirty others. Each
    body is loops and branches inside one another, twenty deep, with sums of two variables between them, so that
    4,000 statements have more than 25,000 control points."""
    lines = declarations(names, threads)
    each = (statements - threads - 3 * threads) // (4 * threads)
    for i in range(3 * threads):
        lines += [f"void f{i}(void) {{", *nested_body(each, names, i), "}"]
    for i in range(threads):
        inner = [f"  f{3 * i + k}();" for k in range(3)] + nested_body(each, names, i)
        lines += [f"void *w{i}(void *q{i}) {{", *inner, "  return 0;", "}"]
    lines += main_function(threads, [])
    return "\n".join(lines) + "\n"


def nested_body(count, names, seed):
    """That many statements, with a loop or branch before each third of them until twenty stand inside one another."""
    lines, open_blocks = [], 0
    for i in range(count):
        x = [f"x{(seed * 11 + 3 * i + k) % names}" for k in range(3)]
        if i % 4 == 0 and open_blocks < 20:
            lines.append(f"{'while' if open_blocks % 2 else 'if'} ({x[0]} < {x[1]}) {{")
            open_blocks += 1
        else:
            lines.append(f"{x[0]} = {x[1]} + {x[2]};")
    return lines + ["}"] * open_blocks


def measured(command, **more):
    """The least seconds of five runs, and the peak memory in MB of the largest."""
    least, peak = None, 0
    for _ in range(5):
        begin = time.perf_counter()
        process = subprocess.Popen(command, stdout=subprocess.DEVNULL, **more)
        _, status, usage = os.wait4(process.pid, 0)
        seconds = time.perf_counter() - begin
        if os.waitstatus_to_exitcode(status) not in (0, 1):
            sys.exit(f"{command[0]} refused a source")
        least = seconds if least is None else min(least, seconds)
        peak = max(peak, usage.ru_maxrss / 1024)
    return least, peak


def table(lsrace, source, names_of):
    """Prints a row for each number of statements."""
    before = None
    print(source.__name__)
    print("statements  names    bytes  lsrace s   gcc s  ratio  peak MB  growth")
    with tempfile.TemporaryDirectory() as folder:
        for statements in (250, 500, 1000, 2000, 4000):
            names = names_of(statements)
            text = source(statements, names)
            with open(os.path.join(folder, "big.c"), "w") as file:
                file.write(text)
            with open(os.path.join(folder, "gcc.c"), "w") as file:
                file.write(PREAMBLE + text)
            own, peak = measured([lsrace, "check", "big.c"], cwd=folder)
            gcc, _ = measured(["gcc", "-fsyntax-only", "gcc.c"], cwd=folder)
            growth = "" if before is None else f"{own / before:6.2f}"
            print(f"{statements:10} {names:6} {len(text):8} {own:9.4f} {gcc:7.4f} {own / gcc:6.2f} {peak:8.1f}  {growth}")
            before = own


def main():
    if len(sys.argv) != 2:
        sys.exit(__doc__)
    lsrace = os.path.abspath(sys.argv[1])
    for source, most_of in ((straight, 9), (branching, 5), (nested, 5)):
        table(lsrace, source, lambda statements: 50)
        table(lsrace, source, lambda statements: max(50, statements * most_of // 10))


if __name__ == "__main__":
    main()
