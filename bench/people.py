#!/usr/bin/env python3
"""Tests lsrace-cc: the programs of examples/people against their reports, and its options.

usage: bench/people.py [--write] [--cases] [--lsrace FILE] [--witness FILE] [NAME ..]

Each examples/people/NAME.c is a program, and each folder examples/people/NAME has the .c files of one. NAME.report beside it is what
lsrace-cc prints at the top of the repository, on standard output and then on standard error, with INCLUDE in the place of the
path of include/; --write writes these files anew. --cases writes what lsrace is given of each program, and what it answers,
into crates/conformance/data/people, and does nothing else; in cases.txt there a line for each must stand. With NAMEs it tries those programs alone, else the options of lsrace-cc, too. It
ends with status 1 where something differs.
"""
import argparse
import glob
import json
import os
import subprocess
import sys
import tempfile

TOP = os.path.dirname(os.path.dirname(os.path.abspath(__file__)))
CC = os.path.join(TOP, "lsrace-cc")
RACY = """#include <pthread.h>
#include <stdio.h>
#include <string.h>
static int count;
static char text[8];
static void *work(void *unused) { count++; strcpy(text, "work"); return unused; }
int main(void) {
    pthread_t thread;
    pthread_create(&thread, NULL, work, NULL);
    fprintf(stderr, "%d %s\\n", count, text);
    return 0;
}
"""
# In lsrace's profile alone: no header of include/posix is needed.
BARE = """#include <pthread.h>
#include <stdlib.h>
static int count;
static void *work(void *unused) { count++; return unused; }
int main(void) { pthread_t thread; pthread_create(&thread, NULL, work, NULL); count = rand(); return EXIT_SUCCESS; }
"""


class Tests:
    def __init__(self, lsrace, witness):
        programs = {"LSRACE": lsrace, "LSRACE_WITNESS": witness}
        self.environment = {**os.environ, **{name: program for name, program in programs.items() if program}}
        self.failures = 0

    def run(self, *words, folder=TOP, cc=CC, **environment):
        done = subprocess.run([cc, *words], cwd=folder, env={**self.environment, **environment}, capture_output=True, text=True)
        return done.returncode, done.stdout, done.stderr

    def expect(self, what, holds, seen=""):
        print(f"{'ok' if holds else 'DIFFERS'}: {what}")
        if not holds:
            self.failures += 1
            print(seen)


def put(folder, name, text):
    path = os.path.join(folder, name)
    os.makedirs(os.path.dirname(path), exist_ok=True)
    with open(path, "w", encoding="utf-8") as file:
        file.write(text)
    return path


def read(path):
    if not os.path.exists(path):
        return None
    with open(path, encoding="utf-8") as file:
        return file.read()


def programs(tests, names, is_writing):
    for path in sorted(glob.glob(f"{TOP}/examples/people/*")):
        name, ending = os.path.splitext(os.path.basename(path))
        if names and name not in names or ending == ".report" or not (ending == ".c" or os.path.isdir(path)):
            continue
        files = [path] if ending == ".c" else sorted(glob.glob(f"{path}/*.c"))
        _, report, errors = tests.run(*(os.path.relpath(file, TOP) for file in files))
        answer = (report + errors).replace(f"{TOP}/include", "INCLUDE")
        stored = f"{TOP}/examples/people/{name}.report"
        if is_writing:
            put(TOP, stored, answer)
        tests.expect(f"examples/people/{name}", answer == read(stored), answer)


# In the place of lsrace: it keeps the preprocessed source, and the names of functions that are taken to touch nothing.
KEEPER = """#!/bin/sh
for word; do case $word in --externs=*) cat "${word#--externs=}" >> "$KEPT.externs" ;; *.i) cat "$word" > "$KEPT.c" ;; esac; done
"""


def cases(tests, folder):
    """Writes the programs of one file as data of `conformance`, which must answer as lsrace does."""
    keeper = put(folder, "keeper", KEEPER)
    os.chmod(keeper, 0o755)
    data = f"{TOP}/crates/conformance/data"
    programs_of = [os.path.splitext(os.path.basename(path))[0] for path in sorted(glob.glob(f"{TOP}/examples/people/*.c"))]
    externs_of = set()
    for name in programs_of:
        tests.run(f"examples/people/{name}.c", LSRACE=keeper, KEPT=f"{folder}/{name}")
        put(data, f"people/{name}.c", read(f"{folder}/{name}.c").replace(f'"{TOP}/include', '"include'))
        externs_of.update(read(f"{folder}/{name}.externs").split())
    put(data, "people/externs.c", "".join(f"{name}\n" for name in sorted(externs_of)))
    checker = tests.environment.get("LSRACE") or f"{TOP}/crates/lsrace/out/lsrace"
    for name in programs_of:
        words = ("check", "--externs", "people/externs.c", f"people/{name}.c")
        status, report, errors = tests.run(*words, folder=data, cc=checker)
        put(data, f"people/{name}.out", report)
        print(f"people/{name} {status} {' '.join(words)}{errors and ': ' + errors}")


def plain(tests, folder):
    """--plain is the bare profile, without help."""
    put(folder, "bare.c", BARE)
    put(folder, "racy.c", RACY)
    status, report, errors = tests.run("--plain", "bare.c", folder=folder)
    tests.expect("--plain reads the profile", status == 1 and "count bare.c:3:12 suspect" in report and not errors, report + errors)
    status, report, errors = tests.run("--plain", "racy.c", folder=folder)
    tests.expect("--plain has no other headers", status == 2 and not report and "string.h" in errors, errors)
    put(folder, "no.c", "float x;\n")
    line = "no.c:1:1: refused 12 UnsupportedWord float\n"
    tests.expect("--plain helps with no refusal", tests.run("--plain", "no.c", folder=folder) == (2, "", line))
    for words in (("--plain", "--verbose"), ("--plain", "--help"), ("--plain", "-p", "."), ("--plain", "--html", "x")):
        status, _, errors = tests.run(*words, "bare.c", folder=folder)
        tests.expect(" ".join(words), status == 3 and "usage:" in errors and "-p" not in errors, errors)
    status, _, errors = tests.run("--plain", "bare.c", folder=folder, PATH=without_python(folder))
    tests.expect("--plain needs no Python", status == 1 and not errors, errors)


def without_python(folder):
    """A PATH with the programs that lsrace-cc runs, and no Python."""
    bin_folder = os.path.join(folder, "bin")
    os.makedirs(bin_folder, exist_ok=True)
    for name in ("sh", "awk", "cc", "mktemp", "rm", "cat", "dirname", "readlink", "wc", "sed", "mv", "touch"):
        found = subprocess.run(["sh", "-c", f"command -v {name}"], capture_output=True, text=True, check=True).stdout.strip()
        if not os.path.exists(f"{bin_folder}/{name}"):
            os.symlink(found, f"{bin_folder}/{name}")
    return bin_folder


def words_of_lsrace_cc(tests, folder):
    put(folder, "racy.c", RACY)
    status, report, errors = tests.run("racy.c", folder=folder)
    tests.expect("a report has the places of the source", status == 1 and "  read racy.c:10:32 in main holding nothing\n" in report, report + errors)
    tests.expect("a model's accesses are found", "text[] racy.c:5:13 suspect\n" in report and "  read racy.c:10:39 in main" in report, report)
    tests.expect("a model's places", f"  write {TOP}/include/posix/string.h:" in report and " in strcpy holding nothing\n" in report, report)
    status, report, errors = tests.run("racy.c", folder=folder, PATH=without_python(folder))
    tests.expect("checking needs no Python", status == 1 and not errors, errors)
    status, report, _ = tests.run("--gcc", "racy.c", folder=folder)
    tests.expect("--gcc", status == 1 and "racy.c:10:32: warning: read of count may race, holding nothing\n" in report, report)
    status, report, _ = tests.run("--help")
    tests.expect("--help", status == 0 and report.startswith("usage: lsrace-cc"), report)
    status, report, _ = tests.run("--version")
    tests.expect("--version", status == 0 and report.startswith("lsrace-cc "), report)
    for words in ((), ("--no-such", "racy.c"), ("racy.c", "-I"), ("racy.c", "--externs="), ("racy.c", "-p", "")):
        status, report, errors = tests.run(*words, folder=folder)
        tests.expect(f"usage: {' '.join(words)}", status == 3 and not report and errors.startswith("usage:"), errors)
    for option in ("-p", "--html", "--sarif"):
        status, _, errors = tests.run(option, folder, "racy.c", folder=folder, PATH=without_python(folder))
        tests.expect(f"{option} without Python", status == 3 and "needs Python" in errors, errors)
    own = put(folder, "own/string.h", "static unsigned long strlen(char *text) { return *text; }\nchar *strcpy(char *, char *);\n")
    put(folder, "other.c", '#include <string.h>\nint main(void) { char text[2] = "a"; return (int)strlen(text); }\n')
    status, report, errors = tests.run("-I", os.path.dirname(own), "other.c", folder=folder)
    tests.expect("-I comes before lsrace's headers", status == 0 and "main.text[]" in report, report + errors)


def pages(tests, folder):
    """A page and a log are written beside the report; bench/pages.py tests what is in them."""
    put(folder, "racy.c", RACY)
    status, report, errors = tests.run("--html", "page.html", "--sarif=log.sarif", "racy.c", folder=folder)
    tests.expect("--html and --sarif beside the report", status == 1 and "count racy.c:4:12 suspect" in report and not errors, report + errors)
    page, log = read(f"{folder}/page.html"), json.loads(read(f"{folder}/log.sarif"))
    tests.expect("the page", 'id="f1-10"' in page and "<title>lsrace: racy.c</title>" in page and TOP not in page, page)
    uris = [one["location"]["uri"] for one in log["runs"][0]["artifacts"]]
    tests.expect("the log", uris == ["racy.c", f"file://{TOP}/include/posix/string.h"] and len(log["runs"][0]["results"]) == 2, str(uris))
    status, _, errors = tests.run("--html", "no/page.html", "racy.c", folder=folder)
    tests.expect("a page that can't be written", status == 5 and errors.startswith("lsrace-pages: cannot write no/page.html: "), errors)
    put(folder, "no.c", "float x;\n")
    status, report, errors = tests.run("--html", "other.html", "no.c", folder=folder)
    tests.expect("no page of a refusal", status == 2 and not report and not os.path.exists(f"{folder}/other.html"), report + errors)


def confirm(tests, folder):
    put(folder, "racy.c", RACY)
    status, report, errors = tests.run("--confirm", "racy.c", folder=folder)
    told = "count confirmed, schedule in lsrace-schedules/count.txt\n"
    tests.expect("--confirm", status == 1 and report.partition("suspect 2\n")[2].startswith(told) and not errors, report + errors)
    schedule = read(f"{folder}/lsrace-schedules/count.txt")
    tests.expect("a schedule", all(len(line.split()) in (2, 3) for line in schedule.splitlines()) and schedule, schedule)
    status, report, errors = tests.run("--confirm=runs", "--gcc", "racy.c", folder=folder)
    tests.expect("--confirm with --gcc", status == 1 and "racy.c:10:32: error: read of count races, holding nothing\n" in report, report)
    tests.expect("a folder of one's own", read(f"{folder}/runs/count.txt") == schedule)
    status, report, errors = tests.run("--confirm", "--html=p.html", "--sarif=p.sarif", "racy.c", folder=folder)
    log = json.loads(read(f"{folder}/p.sarif"))["runs"][0]["results"]
    tests.expect("a log with plays", log[0]["level"] == "error" and len(log[0]["codeFlows"][0]["threadFlows"]) == 2, report + errors)
    tests.expect("a page with plays", 'id="play-1"' in read(f"{folder}/p.html"))
    for words in (("--confirm=",), ("--confirm", "--confirm"), ("--plain", "--confirm")):
        status, report, errors = tests.run(*words, "racy.c", folder=folder)
        tests.expect(f"usage: {' '.join(words)}", status == 3 and not report and "usage:" in errors, errors)
    put(folder, "file", "")
    status, report, errors = tests.run("--confirm=file", "racy.c", folder=folder)
    tests.expect("a folder that can't be made", status == 5 and "lsrace-cc: cannot write file\n" in errors, errors)


def refusals(tests, folder):
    put(folder, "no.c", "int main(void) {\n\tint *p = malloc(sizeof(int));\n\tp = realloc(p, 8);\n}\n")
    status, report, errors = tests.run("no.c", folder=folder)
    help_of = "no.c:3:6: refused 43 UnknownExternal realloc\n    3 | \tp = realloc(p, 8);\n      | \t    ^\n  means: "
    tests.expect("a refusal with its line", status == 2 and not report and errors.startswith(help_of), errors)
    tests.expect("a refusal with what to write", "\n  write: a new `malloc`" in errors, errors)
    put(folder, "empty.c", "\n")
    status, _, errors = tests.run("empty.c", folder=folder)
    tests.expect("a refusal at no token", status == 2 and errors.startswith("empty.c:1:1: refused 60 NoMain\n"), errors)
    known = [line.split()[1] for line in read(f"{TOP}/docs/REFUSALS.md").splitlines() if line.startswith("- **")]
    tests.expect("each number has one item", len(known) == len(set(known)) == 40, str(known))


def bytes_of_objects(tests, folder):
    """Bytes of whole numbers are found, those of anything else refused."""
    frame = """#include <pthread.h>
#include <string.h>
%s
static void *work(void *unused) { %s; return unused; }
int main(void) { pthread_t thread; pthread_create(&thread, NULL, work, NULL); work(NULL); return 0; }
"""
    for declared in ("char a[8]", "unsigned char a[8]", "signed char a[8]", "_Bool a[8]", "short a[8]", "unsigned a[8]", "int a[8]",
                     "long a[8]", "unsigned long long a[8]", "enum colour { red } a[8]"):
        put(folder, "bytes.c", frame % (f"static {declared};", "memset(a, 0, sizeof a)"))
        _, report, errors = tests.run("bytes.c", folder=folder)
        tests.expect(f"memset of {declared}", report.startswith("a[] bytes.c:3:") and "total 2, guarded 0, unshared 1, suspect 1" in report, report + errors)
    for declared in ("char a[8][8]", "int *a[8]", "pthread_t a[8]"):
        put(folder, "bytes.c", frame % (f"static {declared};", "memcpy(a, a, sizeof a)"))
        status, _, errors = tests.run("bytes.c", folder=folder)
        tests.expect(f"memcpy of {declared} is refused", status == 2 and " refused 22 " in errors, errors)


def sources(tests, folder):
    """A model is defined once, or once in each source where its name is refused else."""
    text = '#include <string.h>\n#include <stdio.h>\n%s { char a[4]; strcpy(a, "b"); memset(a, 0, 4); fputs(a, stderr); }\n'
    put(folder, "one.c", text % "void one(void)")
    put(folder, "two.c", text % "void two(void)")
    put(folder, "main.c", "void one(void);\nvoid two(void);\nint main(void) { one(); two(); return 0; }\n")
    status, report, errors = tests.run("one.c", "main.c", "two.c", folder=folder)
    tests.expect("models in several sources", status == 0 and report.endswith("total 2, guarded 0, unshared 2, suspect 0\n"), report + errors)
    put(folder, "errno.c", "#include <errno.h>\nint main(void) { int e = 1; errno = e; if ((errno=e) == EBUSY) errno\n= e == 1; return errno == e; }\n")
    status, report, errors = tests.run("errno.c", folder=folder)
    tests.expect("errno may be assigned", status == 0 and not errors, report + errors)
    put(folder, "macros.c", """#include <pthread.h>
static int n, k;
#define BUMP(counter) ((counter)++)
#define BOTH BUMP(n), BUMP(k)
static void *work(void *unused) { BOTH; return unused; }
int main(void) {
\tpthread_t thread; /* a comment
that goes on */ pthread_create(
    &thread,
    NULL, work, NULL); BUMP(
        n);
    k = n > 1 ? n :
        k;
    return 0;
}
""")
    _, report, errors = tests.run("macros.c", folder=folder)
    places = ["n macros.c:2:12", "  read macros.c:5:", "  write macros.c:5:", "  read macros.c:11:9", "  write macros.c:11:9", "  read macros.c:12:9",
              "  read macros.c:12:17", "k macros.c:2:15", "  write macros.c:12:5", "  read macros.c:13:9", "main.thread macros.c:7:12"]
    missing = [place for place in places if place + " " not in report and not (place.endswith(":") and place in report)]
    tests.expect("places behind macros and across lines", not missing, str(missing) + report + errors)


def externs(tests, folder):
    put(folder, "sub/calls.c", "int one(int);\nint two(int);\nint main(void) { return one(1) + two(2); }\n")
    put(folder, "one.txt", "one")
    put(folder, "sub/.lsrace-externs", "two\n")
    words = ("--externs", "one.txt", "sub/calls.c")
    status, _, errors = tests.run(*words, folder=folder)
    tests.expect("--externs and .lsrace-externs", status == 0 and not errors, errors)
    status, _, errors = tests.run("--verbose", *words, folder=folder)
    tests.expect("--verbose tells of .lsrace-externs", "sub/.lsrace-externs" in errors, errors)
    status, _, errors = tests.run("--plain", *words, folder=folder)
    tests.expect("--plain reads no .lsrace-externs", status == 2 and "63 NotDefined two" in errors, errors)
    put(folder, "sub/.lsrace-externs", "two\nno name\n")
    status, _, errors = tests.run(*words, folder=folder)
    tests.expect("a line that is no name", status == 2 and errors.startswith("sub/.lsrace-externs:2:1: refused 16"), errors)
    put(folder, "one.txt", "one\n\nno name\n")
    status, _, errors = tests.run(*words, folder=folder)
    tests.expect("a line of --externs that is no name", status == 2 and errors.startswith("one.txt:3:1: refused 16"), errors)
    status, _, errors = tests.run("--externs", "none.txt", "sub/calls.c", folder=folder)
    tests.expect("no file for --externs", status == 4 and errors == "lsrace: cannot read none.txt\n", errors)


def project(tests, folder):
    put(folder, "src/a.c", '#include "shared.h"\n#include <given.h>\nint main(void) { return f() + GIVEN + HERE + TOLD; }\n')
    put(folder, "src/b.c", '#include "shared.h"\nint f(void) { return WORD; }\n')
    put(folder, "src/include/shared.h", "int f(void);\n")
    put(folder, "src/system/given.h", "#define GIVEN 1\n")
    put(folder, "src/told.h", "#define TOLD 1\n")
    first = {"directory": f"{folder}/src", "file": "a.c",
             "command": "cc -Iinclude -isystem system -DHERE=\"(1 + 1)\" -include told.h -O2 -c a.c -o a.o"}
    second = {"directory": f"{folder}/src", "file": f"{folder}/src/b.c",
              "arguments": ["cc", "-I", "include", "-D", "WORD=1", "-DGONE", "-UGONE", "-c", "b.c"]}
    put(folder, "build/compile_commands.json", json.dumps([first, second]))
    status, report, errors = tests.run("-p", "build", folder=folder)
    tests.expect("-p with all entries", status == 0 and report.startswith("total 0") and not errors, report + errors)
    status, report, errors = tests.run("-p", "build", "src/b.c", folder=folder)
    tests.expect("-p with a FILE", status == 2 and errors.startswith("src/b.c:1:1: refused 60"), report + errors)
    status, report, errors = tests.run("-p", "build", "src/c.c", folder=folder)
    tests.expect("-p with a FILE of no entry", status == 2 and "no entry has src/c.c" in errors, errors)
    for entry, fault in ((3, "no object"), ({"file": "a.c"}, '"directory"'), ({"directory": ".", "file": "a.c"}, '"command"'),
                         ({"directory": ".", "file": "a.c", "command": "cc 'a"}, "words"),
                         ({"directory": ".", "file": "a.c", "arguments": [1]}, '"arguments"'),
                         ({"directory": ".", "file": "a.c", "command": "cc -D"}, "last word")):
        put(folder, "build/compile_commands.json", json.dumps([first, entry, second]))
        status, report, errors = tests.run("-p", "build", folder=folder)
        holds = status == 2 and not report and errors.startswith("lsrace-cc: build/compile_commands.json: entry 2: ") and fault in errors
        tests.expect(f"-p and an entry: {fault}", holds, report + errors)
    put(folder, "build/compile_commands.json", "[")
    status, _, errors = tests.run("-p", "build", folder=folder)
    tests.expect("-p and no JSON", status == 2 and "no JSON" in errors, errors)
    put(folder, "build/compile_commands.json", json.dumps([first, second, first]))
    status, report, errors = tests.run("-p", "build", folder=folder)
    tests.expect("-p and an entry again", status == 0 and "entry 3 has src/a.c again" in errors, report + errors)


def installed(tests, folder):
    """Beside each copy stands a program that answers as lsrace, and tells where it is."""
    put(folder, "bare.c", BARE)
    top = f"{folder}/copy"
    subprocess.run(["cp", "-R", f"{TOP}/install", f"{TOP}/lsrace-cc", f"{TOP}/lsrace-pages", f"{TOP}/cc", f"{TOP}/docs", f"{TOP}/include",
                    folder], check=True)
    os.mkdir(top)
    for name in ("install", "lsrace-cc", "lsrace-pages", "cc", "docs", "include"):
        os.rename(f"{folder}/{name}", f"{top}/{name}")
    without = {"LSRACE": "", "DESTDIR": f"{folder}/root"}
    status, _, errors = tests.run("/usr", cc=f"{top}/install", **without)
    tests.expect("install without a built program", status == 1 and "is not built" in errors, errors)
    program = put(top, "crates/lsrace/out/lsrace", '#!/bin/sh\necho "$0"\n')
    os.chmod(program, 0o755)
    status, report, errors = tests.run("bare.c", cc=f"{top}/lsrace-cc", folder=folder, **without)
    tests.expect("lsrace-cc finds what is built", status == 0 and report == f"{program}\n", report + errors)
    status, report, errors = tests.run("/usr", cc=f"{top}/install", **without)
    tests.expect("install", status == 0 and not report + errors, report + errors)
    os.symlink("root/usr/bin/lsrace-cc", f"{folder}/link")
    status, report, errors = tests.run("bare.c", cc=f"{folder}/link", folder=folder, **without)
    tests.expect("lsrace-cc through links", status == 0 and report == f"{folder}/root/usr/lib/lsrace/lsrace\n", report + errors)
    tests.expect("the man page", os.path.exists(f"{folder}/root/usr/share/man/man1/lsrace.1"))
    status, report, errors = tests.run("bare.c", cc=f"{folder}/root/usr/bin/lsrace-cc", folder=folder, LSRACE="true")
    tests.expect("$LSRACE is run where it is set", status == 0 and not report + errors, report + errors)


def main():
    parser = argparse.ArgumentParser(description=__doc__, formatter_class=argparse.RawDescriptionHelpFormatter)
    parser.add_argument("--write", action="store_true", help="write the reports anew")
    parser.add_argument("--cases", action="store_true", help="write the data of conformance anew")
    parser.add_argument("--lsrace", help="the program lsrace, else that of crates/lsrace/out")
    parser.add_argument("--witness", help="the program lsrace-witness, else that of crates/lsrace_witness/out")
    parser.add_argument("names", nargs="*", metavar="NAME")
    given = parser.parse_args()
    tests = Tests(given.lsrace and os.path.abspath(given.lsrace), given.witness and os.path.abspath(given.witness))
    if given.cases:
        with tempfile.TemporaryDirectory(prefix="lsrace-people-") as folder:
            cases(tests, folder)
        return 0
    programs(tests, given.names, given.write)
    if not given.names:
        for test in (plain, words_of_lsrace_cc, pages, confirm, refusals, bytes_of_objects, sources, externs, project, installed):
            with tempfile.TemporaryDirectory(prefix="lsrace-people-") as folder:
                test(tests, os.path.realpath(folder))
    print(f"{tests.failures} differ" if tests.failures else "all as it should be")
    return 1 if tests.failures else 0


if __name__ == "__main__":
    sys.exit(main())
