"""How long the gate takes on so many cores and so much memory, by what each crate took once.

`rt ci` has a rule by which it takes work up. It stands here as it stands in the toolchain's `rt` (`need` and
`in_lanes`):

- A crate counts as 1 GB, 1 MB for each line of its code (`.rt`), 0.2 MB for each line of its definitions and
  proofs (`.antt`), 0.08 MB for each line of code of the crates of the repository below it, and five times the
  size of the statements of the libraries of the toolchain that it or a crate below it names, 2.5 GB of these
  at most. A try of an edit counts as seven tenths of that where it begins with a proof of the crate.
- 0.85 of the memory that is free at the start is given out. A crate is taken up once all below it are proved,
  where a core is free and its memory is; first the one with the longest chain of lines of code above it.
  Where nothing runs, it is taken up whatever it counts as.
- A proof gets the cores that no other proof waits for, four at most, each further one for six tenths of its
  memory.
- Edits come behind all proofs, and begin only where no proof waits for memory.
"""

import heapq
import os

GIGA = 1_000_000_000
SHARE = 0.85
OVER = 0.7
MORE = 0.6
MOST_JOBS = 4
# How much sooner a proof ends that has so many cores.
SOONER = {1: 1.0, 2: 1.7, 3: 2.3, 4: 2.8}
SEALED = {"core", "std", "std_alloc", "std_collections", "std_heap", "std_io", "io", "libc", "os"}


def lines_in(folder, ending):
    """The lines of the files of a crate with this ending."""
    found = 0
    for part in ("src", "specs", "proofs"):
        for at, _, files in os.walk(f"{folder}/{part}"):
            for file in (it for it in files if it.endswith(ending)):
                with open(f"{at}/{file}", "rb") as text:
                    found += text.read().count(b"\n")
    return found


def all_named(root):
    """What each crate of crates.txt stands on, libraries of the toolchain too."""
    with open(f"{root}/crates.txt", encoding="utf-8") as text:
        lines = (line.partition("#")[0].partition(":") for line in text)
        return {name.split()[0]: words.split() for name, colon, words in lines if colon}


def in_order(named):
    """The crates, each behind those that it stands on."""
    order = {}

    def put(name):
        if name in named and name not in order:
            for below in named[name]:
                put(below)
            order[name] = None

    for name in named:
        put(name)
    return list(order)


def all_below(name, named):
    """The crates below a crate."""
    found, left = set(), [name]
    while left:
        new = {it for it in named[left.pop()] if it in named} - found
        found |= new
        left += new
    return found


class Crate:
    """A crate: what it stands on, its lines of code, and the memory that `rt ci` counts for it."""

    def __init__(self, root, kit, name, named, lines):
        below = all_below(name, named)
        libraries = {it for crate in [name, *below] for it in named[crate] if it not in named} - SEALED
        files = (f"{kit}/rlibs/{it}.rlib/toolchain/checked.a" for it in libraries)
        loaded = sum(os.path.getsize(it) for it in files if os.path.isfile(it))
        statements = lines_in(f"{root}/crates/{name}", ".antt")
        self.name = name
        self.below = [it for it in named[name] if it in named]
        self.lines = lines[name]
        self.need = GIGA + 1e6 * self.lines + 2e5 * statements + 8e4 * sum(lines[it] for it in below)
        self.need += min(5 * loaded, 2.5 * GIGA)
        self.edits = edits_in(f"{root}/crates/{name}/must-fail")


def edits_in(folder):
    """The number of must-fail edits in a folder, which may be missing."""
    return sum(it.endswith(".edit") for it in os.listdir(folder)) if os.path.isdir(folder) else 0


def crates_at(root, kit):
    """The crates of the repository, lowest first."""
    named = all_named(root)
    lines = {name: lines_in(f"{root}/crates/{name}", ".rt") for name in named}
    return [Crate(root, kit, name, named, lines) for name in in_order(named)]


class Seconds:
    """What the gate's work took once, in seconds of processors: the file gate_seconds.txt."""

    def __init__(self, file):
        self.said, self.proof, self.tests, self.edit = {}, {}, {}, {}
        with open(file, encoding="utf-8") as text:
            rows = [line.partition("#")[0].split() for line in text]
        for words in filter(None, rows):
            self.put(words[0], words[1], [float(it) for it in words[2:]])

    def put(self, what, name, numbers):
        """Takes a row: what was measured, of what, and the seconds."""
        kinds = {"day": self.said, "proof": self.proof, "tests": self.tests, "edit": self.edit}
        kinds[what][name] = numbers[0]

    def complete(self, crates):
        """Gives each crate without a row as many seconds a line of code as the others have, and names these."""
        lacking = [it for it in crates if it.name not in self.proof]
        lines = sum(it.lines for it in crates if it.name in self.proof)
        each = sum(self.proof[it.name] for it in crates if it.name in self.proof) / lines
        self.proof.update({it.name: each * it.lines for it in lacking})
        return [it.name for it in lacking]

    def scaled(self, factor):
        """Makes all seconds so many times as large."""
        for kind in (self.said, self.proof, self.tests, self.edit):
            kind.update({name: factor * seconds for name, seconds in kind.items()})


class Task:
    """A piece of work: what it waits for, its lines of code, its memory and its seconds."""

    def __init__(self, key, waits, lines, need, seconds):
        self.key, self.waits, self.lines, self.need, self.seconds = key, waits, lines, need, seconds
        self.kind = key[1]
        self.fills = self.kind in ("seed", "edit")
        self.behind = 0


def tasks_of(crate, seconds):
    """The work of a crate: its proof, that of its tests, its edits, and the proof that several begin with."""
    name, below = crate.name, [(it, "proof") for it in crate.below]
    proof = seconds.proof[name]
    yield Task((name, "proof"), below, crate.lines, crate.need, proof)
    # (a crate without tests has this task too, which ends at once)
    of_tests = seconds.tests.get(name, 0)
    yield Task((name, "tests"), below, crate.lines if of_tests else 0, crate.need, of_tests)
    after, need = [(name, "proof"), (name, "tests")], crate.need
    if crate.edits > 1:
        yield Task((name, "seed"), below, 0, need, proof)
        after, need = [*after, (name, "seed")], OVER * need
    for number in range(crate.edits):
        yield Task((name, "edit", number), after, crate.lines, need, seconds.edit.get(name, proof))


def weigh(tasks):
    """Finds for each task the lines of code of the longest chain that waits for it, and of its own."""
    for task in reversed(tasks.values()):
        task.behind += task.lines
        for it in task.waits:
            tasks[it].behind = max(tasks[it].behind, task.behind)


class Lanes:
    """The cores and the memory of a run, and what runs on them."""

    def __init__(self, cores, memory):
        self.cores, self.memory, self.running = cores, memory, {}

    def idle(self):
        """The cores that nothing has."""
        return self.cores - sum(jobs for jobs, _ in self.running.values())

    def room(self):
        """The memory that nothing has."""
        return self.memory - sum(need for _, need in self.running.values())

    def takes(self, task):
        """Whether a task may be taken up."""
        return self.idle() > 0 and (not self.running or task.need <= self.room())

    def jobs_for(self, task, sharing):
        """How many cores a task gets that shares those that are idle with others."""
        if task.kind not in ("proof", "tests", "seed"):
            return 1
        by_memory = 1 + int((self.room() / task.need - 1) / MORE)
        return max(1, min(MOST_JOBS, self.idle() // sharing, by_memory))

    def start(self, task, sharing):
        """Takes a task up, and answers how long it takes."""
        jobs = self.jobs_for(task, sharing)
        self.running[task.key] = jobs, task.need * (1 + MORE * (jobs - 1))
        return task.seconds / SOONER[jobs]


def start_all(ready, lanes):
    """Takes up what may be: each such task with its seconds, and whether another lacks memory."""
    proofs = [it for it in ready if it.kind in ("proof", "tests")]
    started, lacks = [], False
    for at, task in enumerate(ready):
        if lacks and task.fills:
            break
        if lanes.takes(task):
            sharing = len(proofs) - proofs.index(task) if task in proofs else len(ready) - at
            started.append((task, lanes.start(task, sharing)))
        else:
            lacks = lacks or lanes.idle() > 0 and task in proofs
    return started, lacks


class Plan:
    """What comes of a run: its seconds on the wall, and those in which its cores wait."""

    def __init__(self):
        self.wall, self.for_memory, self.for_crates, self.rows = 0.0, 0.0, 0.0, []


def plan(tasks, cores, memory):
    """Goes through a run."""
    weigh(tasks)
    left = sorted(tasks.values(), key=lambda it: (it.fills, -it.behind))
    lanes, ends, done, found = Lanes(cores, memory), [], set(), Plan()
    while left or ends:
        ready = [it for it in left if all(below in done for below in it.waits)]
        started, lacks = start_all(ready, lanes)
        for task, lasts in started:
            left.remove(task)
            heapq.heappush(ends, (found.wall + lasts, task.key))
            found.rows.append((found.wall, found.wall + lasts, task.key))
        wall, key = heapq.heappop(ends)
        waiting = lanes.idle() * (wall - found.wall)
        if lacks:
            found.for_memory += waiting
        else:
            found.for_crates += waiting
        del lanes.running[key]
        done.add(key)
        found.wall = wall
    return found


def longest_chain(crates, seconds):
    """The chain of crates whose proofs take the longest, and its seconds."""
    best = {}
    for crate in crates:
        below = max((best[it] for it in crate.below), default=(0.0, []))
        best[crate.name] = below[0] + seconds.proof[crate.name], [*below[1], crate.name]
    return max(best.values())


def minutes(seconds):
    """Seconds as minutes."""
    return f"{seconds / 60:.0f} min"


def told(root, kit, file, cores, gigabytes, yardstick):
    """The lines that say how long the gate takes."""
    seconds, crates = Seconds(file), crates_at(root, kit)
    lacking = seconds.complete(crates)
    if yardstick:
        seconds.scaled(yardstick / seconds.said["yardstick"])
    own = seconds.said["yardstick"]
    around = seconds.said["start"] + seconds.said["end"]
    work = {it.key: it for crate in crates for it in tasks_of(crate, seconds)}
    whole = sum(it.seconds for it in work.values()) + around
    chain, names = longest_chain(crates, seconds)
    found = plan(work, cores, SHARE * gigabytes * GIGA)
    wall = found.wall + around
    yield f"{minutes(wall)} on {cores} cores with {gigabytes:g} GB free, at {own:.0f} s a yardstick"
    yield f"sum: {minutes(whole)} of processors, {whole / own:.0f} yardsticks"
    yield f"longest chain: {minutes(chain)}, {chain / own:.0f} yardsticks: {' '.join(names)}"
    yield f"cores wait {minutes(found.for_memory)} for memory, {minutes(found.for_crates)} for crates below"
    if lacking:
        yield f"not measured, and taken by their lines: {' '.join(lacking)}"
