#!/usr/bin/env python3
"""Times a built lsrace on sources without faults, and so its checker of types and declarations.

usage: bench/checking.py PATH-OF-LSRACE [KIND ..]

Each kind of source is written twice, of at most 1 MiB, the second time twice as large: C as it is written by hand; many globals;
declarations; functions; locals; labels, each with a `goto`; cases of one `switch`, and of many; entries of an initialiser;
structs; members of one struct, and the same with a use of each; expressions nested 150 deep; redeclarations of an object, of a
function, of one whose type is large, and of one by two large types that differ in the sizes of arrays.

None of them has a fault, and each is run with one behind it, an enumerator that is declared twice: lsrace reads its tokens and its
tree, checks it to the end, and refuses it with 21, before it makes anything of it; another answer ends the run. Each is also run with
one more token instead, by which it is no tree: refused with 13, it takes the time of the tokens and the tree alone, and what is left
of the other time is that of the check. Seconds are those of the processor, the least of three runs.

For each source it prints the bytes and about how many tokens there are, the seconds of tokens and tree, of the check, and of both,
the most memory in MB, the microseconds of the check for a token, and of the larger one how these grew: near 1.0 the check is
linear, near 2.0 quadratic. The last lines say which kinds grew by more than 1.5, and whether the larger source of the first
kind is within its bounds. It proves nothing.
"""
import os
import subprocess
import sys
import tempfile

from parsing import MOST, ONE_MORE, name_of, tokens_in

CHECK_SECONDS, ALL_SECONDS, MEGABYTES = 0.6, 1.5, 500
MOST_GROWTH, LEAST_SECONDS = 1.5, 0.02

# A declaration with a fault of its own; none of the sources declares its name.
FAULTY = "enum{_,_};"

HEAD = """typedef unsigned long size;
typedef int (*weight)(int);
struct node { struct node *next; int count, values[8]; unsigned flags; const char *name; };
struct pair { struct node first, second; long sums[2][4]; };
enum state { READY, RUNNING = READY + 4, DONE };
static struct node *first;
static const char *const names[] = { "ready", "running", "done" };
static int table[4][2] = { { 1, 2 }, { 3, 4 }, { 5, 6 }, { 7, 8 } };
extern long total_of(const struct node *node);
long total_of(const struct node *node) { return node ? node->count : 0L; }
static int twice(int n) { return n * 2; }
"""
FUNCTION = """
/* Sums what stands in node {0}. */
static int sum_{0}(struct node *node, weight by, size limit)
{{
    static int calls_{0} = READY;
    struct pair both;
    int total = 0, i, seen[4] = {{ 1, 2, 3 }};
    char text[] = "node {0}";
    struct node *here = node;
    for (i = 0; i < 8 && node->values[i] != -1; i++) {{
        if ((node->flags & (1u << i)) == 0)
            continue;
        total += by ? (*by)(node->values[i]) : node->values[i] * 2 + 1;
    }}
    both.first.count = total;
    both.sums[i & 1][2] = total_of(&both.first) - table[1][i % 2];
    while (limit-- > 0 && here->next) {{
        enum state now = here->count > 3 ? RUNNING : DONE;
        here = here->next;
        switch (here->count % 3) {{
        case 0: total ^= (int)sizeof(long); break;
        case 1: seen[i & 3] += text[0] == 'n'; break;
        default: total = (total << 1) | (total >> 30 & 1);
        }}
        if (now == READY)
            goto out;
    }}
    do {{ total -= twice(seen[1]); }} while (total > 1000);
    if (total < RUNNING)
        printf("node {0}: " "%d\\n", total);
    else
        first = node;
out:
    calls_{0}++;
    return total + (int)both.sums[1][2] + calls_{0};
}}
"""


def filled(head, part, most):
    """The head and then as many parts, each by its number, as there is room for."""
    parts, room = [head], most - len(head)
    for number in range(most):
        text = part(number)
        room -= len(text)
        if room < 0:
            return "".join(parts)
        parts.append(text)
    raise ValueError("parts without text")


def listed(count, part, per_line=10):
    """So many parts, each by its number, in lines."""
    return "".join(part(number) + ("\n" if number % per_line == per_line - 1 else "") for number in range(count))


def in_function(text, head=""):
    """The text as the body of a function."""
    return f"{head}void f(int x)\n{{\n{text}\n}}\n"


def by_hand(most):
    return filled(HEAD, FUNCTION.format, most)


def globals_(count):
    return listed(count, lambda i: f"static int {name_of(i)}={i};")


def declarations(count):
    return listed(count, lambda i: f"int {name_of(i)};")


def functions(count):
    return listed(count, lambda i: f"int {name_of(i)}(int a,char*b){{return a;}}")


def locals_(count):
    declared = listed(count, lambda i: f"int {name_of(i)}=x;")
    used = listed(count, lambda i: f"{name_of(i)}+=x;")
    return in_function(declared + used)


def labels(count):
    return in_function(listed(count, lambda i: f"{name_of(i)}:x++;goto {name_of(i)};"))


def cases(count):
    return in_function("switch(x){\n" + listed(count, lambda i: f"case {i}:x=1;break;") + "}")


def switches(count):
    part = "switch(x){" + "".join(f"case {i}:x=1;break;" for i in range(10)) + "}\n"
    return in_function(part * count)


def entries(count):
    return f"int a[]={{{','.join(str(i % 1000) for i in range(count))}}};\n"


def structs(count):
    members = "int a,b;char*c;long d[3];unsigned e;short f;"
    return listed(count, lambda i: f"struct {name_of(i)}{{{members}struct {name_of(i)}*g;}};", 1)


def members(count):
    return "struct all{\n" + listed(count, lambda i: f"int {name_of(i)};") + "};\n"


def member_uses(count):
    return in_function(listed(count, lambda i: f"p->{name_of(i)}=x;"), members(count) + "struct all*p;\n")


def nested(count):
    line = "x=" + "(" * 75 + "x" + "+1)" * 75 + ";\n"
    return in_function(line * count)


def objects(count):
    return "int a[8];\n" + "extern int a[];" * count + "\n"


def redeclared(count):
    return "int f(int a,char*b,int(*c)(int));\n" * count


def doubled(name, first, times):
    """Typedef names of types, each of which has twice as many nodes as the one before it."""
    steps = "".join(f"typedef int(*{name}{i + 1})({name}{i},{name}{i});\n" for i in range(times))
    return f"typedef int(*{name}0)({first});\n{steps}"


def redeclared_large(count):
    """Declarations of one function, whose type has some 60,000 nodes."""
    return doubled("t", "int", 13) + "int f(t13);" * count + "\n"


def redeclared_apart(count):
    """Declarations of one function by types of some 30,000 nodes, which are equal but for absent sizes of arrays."""
    return doubled("t", "int(*)[3]", 12) + doubled("u", "int(*)[]", 12) + "int f(t12);" + "int f(u12);" * count + "\n"


# How many parts the smaller source of a kind has; that of the first kind, its bytes.
KINDS = {
    by_hand: MOST // 2 - 1,
    globals_: 20_000,
    declarations: 50_000,
    functions: 10_000,
    locals_: 20_000,
    labels: 20_000,
    cases: 20_000,
    switches: 2_500,
    entries: 100_000,
    structs: 5_000,
    members: 20_000,
    member_uses: 20_000,
    nested: 1_250,
    objects: 30_000,
    redeclared: 15_000,
    redeclared_large: 500,
    redeclared_apart: 100,
}


def seconds(lsrace, path, answer):
    """The least processor seconds of three runs, and the most memory of one in MB. Each gives this answer."""
    best, most = None, 0
    for _ in range(3):
        run = subprocess.Popen([lsrace, "check", os.path.basename(path)], cwd=os.path.dirname(path), stderr=subprocess.PIPE)
        told = run.stderr.read().decode()
        _, status, used = os.wait4(run.pid, 0)
        if os.waitstatus_to_exitcode(status) != 2 or answer not in told:
            sys.exit(f"{path}: {told}")
        took = used.ru_utime + used.ru_stime
        best = took if best is None else min(best, took)
        most = max(most, used.ru_maxrss / 1000)
    return best, most


def measured(lsrace, folder, text):
    """The seconds of tokens and tree, those of tokens, tree and check, and the most memory in MB."""
    if len(text) + len(FAULTY) > MOST:
        sys.exit(f"{folder}: {len(text)} bytes")
    path = os.path.join(folder, "source.c")
    with open(path, "w") as file:
        file.write(text + ONE_MORE)
    tree, _ = seconds(lsrace, path, "refused 13 ")
    with open(path, "w") as file:
        file.write(text + FAULTY)
    whole, memory = seconds(lsrace, path, "refused 21 ")
    return tree, whole, memory


def size_of(kind, twice):
    """The size of the smaller or the larger source of a kind."""
    if kind is by_hand:
        return (MOST - len(FAULTY)) // (1 if twice else 2)
    return KINDS[kind] * (2 if twice else 1)


def row(lsrace, folder, kind, twice, before):
    """Prints what a source takes; gives its seconds of check, of all, its MB, its microseconds a token, and how these grew."""
    size = size_of(kind, twice)
    text = kind(size)
    tokens = tokens_in(text)
    tree, whole, memory = measured(lsrace, folder, text)
    check = whole - tree
    each = 1e6 * check / tokens
    growth = each / before[3] if before and before[0] > LEAST_SECONDS else None
    print(
        f"{kind.__name__:17}{size:8}{len(text):9}{tokens:8}{tree:9.3f}{check:9.3f}{whole:8.3f}{memory:6.0f}{each:10.2f}"
        f"{'' if growth is None else f'{growth:8.2f}'}",
        flush=True,
    )
    return check, whole, memory, each, growth


def main():
    if len(sys.argv) < 2:
        sys.exit(__doc__)
    lsrace = os.path.abspath(sys.argv[1])
    kinds = [kind for kind in KINDS if not sys.argv[2:] or kind.__name__ in sys.argv[2:]]
    larger = {}
    print("source               size    bytes  tokens   tree s  check s   all s    MB  us/token  growth")
    with tempfile.TemporaryDirectory() as folder:
        for kind in kinds:
            smaller = row(lsrace, folder, kind, False, None)
            larger[kind] = row(lsrace, folder, kind, True, smaller)
    grown = [kind.__name__ for kind, (*_, growth) in larger.items() if growth is not None and growth > MOST_GROWTH]
    print(f"more than linear: {', '.join(grown) or 'none'}")
    if by_hand in larger:
        check, whole, memory, *_ = larger[by_hand]
        within = check < CHECK_SECONDS and whole < ALL_SECONDS and memory < MEGABYTES
        print(f"by_hand is {'' if within else 'not '}within {CHECK_SECONDS} s of check, {ALL_SECONDS} s and {MEGABYTES} MB in all")


if __name__ == "__main__":
    main()
