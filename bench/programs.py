#!/usr/bin/env python3
"""Times a built lsrace on the examples and on generated programs, beside gcc's syntax check and Helgrind.

usage: bench/programs.py PATH-OF-LSRACE

First a row for each example: the seconds of lsrace and of `gcc -fsyntax-only` on the same preprocessed source (the least of five
runs), their ratio, the seconds that the program takes under Helgrind (one run), how many locations lsrace calls suspect and
how many errors Helgrind counts in that run. Then programs made of copies of one module (a list under a lock, a board that all share,
handlers behind a pointer) with other names, each calling the one before: twice as many copies in each row, the peak memory, and
how the time grew. Then the program of about 3,000 lines, and the same with as many more variables as fit: these are
65,536 labels exactly. It needs gcc, and valgrind for Helgrind's columns. It shows speed and proves nothing.
"""
import glob
import os
import re
import shutil
import subprocess
import sys
import tempfile
import time

ROOT = os.path.dirname(os.path.dirname(os.path.abspath(__file__)))

HEAD = """#include <pthread.h>
#include <stdlib.h>

struct board {
    pthread_mutex_t lock;
    long total;
    struct board *next;
    void (*tell)(struct board *, long);
};

static struct board board = { PTHREAD_MUTEX_INITIALIZER, 0, NULL, NULL };

static void run0(struct board *of, long amount) {
    pthread_mutex_lock(&of->lock);
    of->total += amount;
    pthread_mutex_unlock(&of->lock);
}
"""

MODULE = """
struct item@ {
    struct item@ *next;
    struct board *of;
    long amount;
    int keys[4];
};

static pthread_mutex_t lock@ = PTHREAD_MUTEX_INITIALIZER;
static struct item@ *first@;
static long count@, misses@;

static void put@(struct board *of, long amount) {
    struct item@ *item = malloc(sizeof *item);
    if (item == NULL) return;
    item->of = of;
    item->amount = amount;
    for (int i = 0; i < 4; i++) item->keys[i] = i;
    pthread_mutex_lock(&lock@);
    item->next = first@;
    first@ = item;
    count@++;
    pthread_mutex_unlock(&lock@);
}

static long take@(void) {
    long amount = 0;
    pthread_mutex_lock(&lock@);
    struct item@ *item = first@;
    if (item != NULL) {
        first@ = item->next;
        amount = item->amount + item->keys[1];
        count@--;
    }
    pthread_mutex_unlock(&lock@);
    if (item == NULL) misses@++;
    return amount;
}

static void run@(struct board *of, long amount) {
    put@(of, amount);
    run#(of, take@());
    of->tell = run#;
}
"""

TAIL = """
static void *work(void *unused) {
    for (long i = 0; i < 3; i++) run@(&board, i);
    return unused;
}

int main(void) {
    pthread_t a, b;
    pthread_create(&a, NULL, work, NULL);
    pthread_create(&b, NULL, work, NULL);
    pthread_join(a, NULL);
    pthread_join(b, NULL);
    return 0;
}
"""


def program(copies, variables=0):
    """A program of so many copies of the module, with so many variables more."""
    modules = [MODULE.replace("@", str(i)).replace("#", str(i - 1)) for i in range(1, copies + 1)]
    more = [f"static int spare{i};\n" for i in range(variables)]
    return "".join([HEAD, *more, *modules, TAIL.replace("@", str(copies))])


def preprocessed(path):
    """A source as lsrace reads it, by its own headers."""
    words = ["gcc", "-E", "-nostdinc", "-I", os.path.join(ROOT, "include"), path]
    return subprocess.run(words, capture_output=True, check=True).stdout


def measured(command, runs=5):
    """The exit status, the least seconds of some runs, and the peak memory in MB of the largest."""
    least, peak, status = None, 0, 0
    for _ in range(runs):
        begin = time.perf_counter()
        process = subprocess.Popen(command, stdout=subprocess.DEVNULL, stderr=subprocess.DEVNULL)
        _, ended, usage = os.wait4(process.pid, 0)
        seconds = time.perf_counter() - begin
        status = os.waitstatus_to_exitcode(ended)
        least = seconds if least is None else min(least, seconds)
        peak = max(peak, usage.ru_maxrss / 1024)
    return status, least, peak


def checked(lsrace, path, runs=5):
    """What `measured` gives of lsrace on a preprocessed source, which has to be accepted."""
    status, seconds, peak = measured([lsrace, "check", path], runs)
    if status not in (0, 1):
        sys.exit(f"lsrace refused {path}")
    return seconds, peak


def helgrind(path, folder):
    """The seconds of a program under Helgrind, and how many errors that counts."""
    if shutil.which("valgrind") is None:
        return None, None
    built = os.path.join(folder, "program")
    subprocess.run(["gcc", "-g", "-pthread", "-o", built, path], check=True)
    begin = time.perf_counter()
    run = subprocess.run(["valgrind", "--tool=helgrind", built], capture_output=True, text=True)
    errors = re.findall(r"ERROR SUMMARY: (\d+) errors", run.stderr)
    return time.perf_counter() - begin, int(errors[-1])


def suspects(lsrace, path):
    """How many locations of a source lsrace calls suspect."""
    report = subprocess.run([lsrace, "check", path], capture_output=True, text=True).stdout
    return int(re.findall(r"suspect (\d+)$", report)[-1])


def example_row(lsrace, path, folder):
    """Prints the row of an example."""
    source = os.path.join(folder, "source.i")
    with open(source, "wb") as file:
        file.write(preprocessed(path))
    own, _ = checked(lsrace, source)
    _, gcc, _ = measured(["gcc", "-w", "-fsyntax-only", "-x", "cpp-output", source])
    seconds, errors = helgrind(path, folder)
    of_helgrind = f"{seconds:11.2f} {errors:7}" if seconds is not None else f"{'':11} {'':7}"
    name = os.path.basename(path)
    print(f"{name:10} {own:9.4f} {gcc:7.4f} {own / gcc:6.2f} {of_helgrind} {suspects(lsrace, source):8}", flush=True)


def written(folder, text):
    """The path of a preprocessed source of this text."""
    path = os.path.join(folder, "generated.c")
    with open(path, "w", encoding="ascii") as file:
        file.write(text)
    source = os.path.join(folder, "generated.i")
    with open(source, "wb") as file:
        file.write(preprocessed(path))
    return source


def program_row(lsrace, folder, copies, variables, before, runs):
    """Prints the row of a generated program, and answers its seconds."""
    text = program(copies, variables)
    source = written(folder, text)
    own, peak = checked(lsrace, source, runs)
    _, gcc, _ = measured(["gcc", "-w", "-fsyntax-only", "-x", "cpp-output", source], runs)
    growth = "" if before is None else f"{own / before:6.2f}"
    lines = text.count("\n")
    print(f"{copies:6} {variables:9} {lines:6} {own:9.3f} {gcc:7.3f} {peak:8.0f}  {growth}", flush=True)
    return own


def fits(lsrace, folder, copies, variables):
    """Whether a generated program isn't refused."""
    status, _, _ = measured([lsrace, "check", written(folder, program(copies, variables))], 1)
    return status in (0, 1)


def most_variables(lsrace, folder, copies):
    """How many variables more a generated program may have: each is a label, and 65,536 are read."""
    low, high = 0, 65_536
    while low < high:
        middle = (low + high + 1) // 2
        if fits(lsrace, folder, copies, middle):
            low = middle
        else:
            high = middle - 1
    return low


def main():
    if len(sys.argv) != 2:
        sys.exit(__doc__)
    lsrace = os.path.abspath(sys.argv[1])
    with tempfile.TemporaryDirectory() as folder:
        print("example     lsrace s   gcc s  ratio  helgrind s  errors suspects")
        for path in sorted(glob.glob(os.path.join(ROOT, "examples", "*.c"))):
            example_row(lsrace, path, folder)
        print("copies variables  lines  lsrace s   gcc s  peak MB  growth")
        before = None
        for copies in (8, 16, 32, 64):
            before = program_row(lsrace, folder, copies, 0, before, 3)
        copies = (3000 - program(0).count("\n")) // MODULE.count("\n")
        program_row(lsrace, folder, copies, 0, None, 1)
        variables = most_variables(lsrace, folder, copies)
        program_row(lsrace, folder, copies, variables, None, 1)
        print(f"these two have {65_536 - variables} and 65536 labels")


if __name__ == "__main__":
    main()
