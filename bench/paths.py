#!/usr/bin/env python3
"""Times the matched paths, `levels` of lk_match and `origins` of lk_origin, on labels and edges made by a script.

usage: bench/paths.py FOLDER

In the new folder it writes a repository with a program that reads labels and edges and calls both, over copies of the
crates that it needs; `rt run` proves and builds it, which takes some minutes. For each number of labels it prints the
seconds of both calls and of both together (the least of three runs), the peak memory, how many labels stand in a row of
Level and of All in the mean, and how the time grew against the row before. It shows speed and proves nothing.
"""
import os
import random
import shutil
import subprocess
import sys

REPOSITORY = os.path.dirname(os.path.dirname(os.path.abspath(__file__)))
CRATES = ["lk_base", "lk_sets", "lk_types", "lk_arith", "lk_facts", "lk_match", "lk_origin"]
PROGRAM_LINE = "paths: anyhow indexmap lk_base lk_sets lk_types lk_facts lk_match lk_origin"

# How many labels a call passes.
PASSED = 8

PROGRAM = """//! Reads labels and edges, and times the matched paths along them.
#![tactic(auto)]

use indexmap::IndexSet;
use lk_base::NoMemory;
use lk_facts::{Edge, Holder, Label, LabelEntry, LabelName, Labels, Mark, Site};
use lk_match::levels;
use lk_origin::origins;
use lk_sets::BitRows;
use lk_types::{Base, NodeId, TypeId};
use std::alloc::Global;
use std::io;
use std::time::Instant;

/// The numbers of a text, but for words that are none.
fn numbers_of(alloc: Global, text: &str) -> Result<Vec<u32>, NoMemory> {
    let mut numbers = Vec::new(alloc);
    for word in text.split_ascii_whitespace() {
        if let Ok(number) = word.parse::<u32>() {
            numbers.push(number)?;
        }
    }
    Ok(numbers)
}

/// A label for each of these numbers: 1 stands for an origin, 2 for a global label, 3 for both.
fn labels_of(alloc: Global, flags: &[u32]) -> Result<Option<Labels>, NoMemory> {
    let mut names = IndexSet::new(alloc);
    let mut entries = Vec::new(alloc);
    for flag in flags {
        let number = entries.len() as u64;
        if number > 65_536 {
            return Ok(None);
        }
        names.insert(LabelName {
            holder: Holder::Slot(0, number as u32),
            node: NodeId {
                base: Base::Start(TypeId::VOID),
                number: 0,
            },
        })?;
        entries.push(LabelEntry {
            root: number as u32,
            is_origin: *flag % 2 == 1,
            is_lock: false,
            is_global: *flag > 1,
        })?;
    }
    if !Labels::fits(&names, &entries, &[]) {
        return Ok(None);
    }
    Ok(Some(Labels::new(names, entries, Vec::new(alloc))))
}

/// Puts the edge that four numbers stand for behind the others: its ends, and then 0, 1 with the site that it enters, or
/// 2 with the one that it leaves.
fn push_edge(words: &[u32], edges: &mut Vec<Edge>) -> Result<(), NoMemory> {
    let &[from, to, kind, site] = words else {
        return Ok(());
    };
    let mark = match kind {
        0 => Mark::Plain,
        1 => Mark::Enter(Site(site)),
        _ => Mark::Leave(Site(site)),
    };
    edges.push(Edge {
        from: Label(from),
        to: Label(to),
        mark,
    })?;
    Ok(())
}

/// An edge for each four numbers.
fn edges_of(alloc: Global, numbers: &[u32]) -> Result<Vec<Edge>, NoMemory> {
    let mut edges = Vec::new(alloc);
    for words in numbers.chunks_exact(4) {
        push_edge(words, &mut edges)?;
    }
    Ok(edges)
}

/// How many pairs stand in the rows.
fn pairs_in(rows: &BitRows) -> u64 {
    let mut pairs = 0u64;
    for row in 0..rows.size() {
        for _ in rows.row(row) {
            pairs = pairs.saturating_add(1);
        }
    }
    pairs
}

fn main(rt: HostRuntime) -> anyhow::Result<()> {
    let alloc = rt.alloc();
    let text = io::read_to_string(alloc, rt.reader())?;
    let numbers = numbers_of(alloc, text.as_str())?;
    let Some((count, rest)) = numbers.as_slice().split_first() else {
        return Ok(());
    };
    if *count as usize > rest.len() {
        return Ok(());
    }
    let (flags, words) = rest.split_at(*count as usize);
    let Some(labels) = labels_of(alloc, flags)? else {
        return Ok(());
    };
    let edges = edges_of(alloc, words)?;
    let size = labels.count();
    if !edges
        .iter()
        .all(|edge| edge.from.0 < size && edge.to.0 < size)
    {
        return Ok(());
    }
    let start = Instant::now(&rt)?;
    let found = levels(alloc, &edges, &labels)?;
    let first = start.elapsed(&rt)?;
    let flow = origins(alloc, &edges, &found, &labels)?;
    let both = start.elapsed(&rt)?;
    println!(rt;
        "{} {} {} {}",
        first.as_micros(),
        both.as_micros(),
        pairs_in(&found),
        pairs_in(flow.all())
    )?;
    Ok(())
}
"""


def wrappers(labels):
    """Labels with three edges each, as calls of wrappers three deep make them. A call passes two pointers to a list
    struct: for each of them the label of the struct, of its next one, of what its `void *` points to and of its mutex. Each
    family of wrappers is called from 300 places, ten of which stand in one caller. What is below a pointer also flows
    back to the caller, and the result is one of the structs. The other edges are Plain, within a caller or a wrapper; one in
    a hundred ends or begins at a global label. One label in ten is an origin."""
    chance = random.Random(1)
    edges = []
    families = labels // 2500
    wrapper = [[PASSED * (3 * family + depth) for depth in range(3)] for family in range(families)]
    places = [family[0] for family in wrapper for _ in range(300)]
    chance.shuffle(places)
    shared = range(3 * PASSED * families, 3 * PASSED * families + labels // 100)
    callers = len(places) // 10
    each = (labels - shared.stop) // callers
    first = [shared.stop + each * caller for caller in range(callers)]
    site = 0
    for outer, middle, inner in wrapper:
        for passed, taken in ((outer, middle), (middle, inner)):
            edges += call(passed, taken, site)
            site += 1
    for place, taken in enumerate(places):
        edges += call(first[place // 10] + PASSED * (place % 10), taken, site)
        site += 1
    marked = len(edges)
    while len(edges) < 3 * labels:
        edges += plain(chance, first, each, shared, wrapper)
    chance.shuffle(edges)
    flags = [(chance.random() < 0.1) + 2 * (label in shared) for label in range(labels)]
    return flags, edges[:3 * labels], marked / (3 * labels)


def call(passed, taken, site):
    """The edges of one call: into it for each label that is passed, back for those below a pointer, and the result."""
    into = [(passed + k, taken + k, 1, site) for k in range(PASSED)]
    back = [(taken + k, passed + k, 2, site) for k in (1, 2, 5, 6)]
    return into + back + [(taken, passed + 4, 2, site)]


def plain(chance, first, each, shared, wrapper):
    """A Plain edge between two labels of one wrapper, of one caller, or of a caller and a global one; of each five one
    stands with the edge back."""
    if chance.random() < 0.01:
        where = chance.choice(chance.choice(wrapper))
        ends = [where + chance.randrange(PASSED), where + chance.randrange(PASSED)]
    else:
        where = chance.choice(first)
        ends = [where + chance.randrange(each * 5 // 6), where + chance.randrange(each * 5 // 6)]
        if chance.random() < 0.01:
            ends[chance.randrange(2)] = chance.choice(shared)
    edges = [(ends[0], ends[1], 0, 0)]
    if chance.random() < 0.2:
        edges.append((ends[1], ends[0], 0, 0))
    return edges


def build(folder):
    """The program over the repository's crates, built in the folder."""
    for crate in CRATES:
        shutil.copytree(os.path.join(REPOSITORY, "crates", crate), os.path.join(folder, "crates", crate))
    with open(os.path.join(REPOSITORY, "crates.txt")) as file:
        lines = [line.rstrip() for line in file if line.split(":")[0] in CRATES]
    with open(os.path.join(folder, "crates.txt"), "w") as file:
        file.write("\n".join(lines + [PROGRAM_LINE]) + "\n")
    shutil.copy(os.path.join(REPOSITORY, "HANDLES"), folder)
    program = os.path.join(folder, "crates", "paths")
    os.makedirs(os.path.join(program, "src"))
    with open(os.path.join(program, "src", "main.rt"), "w") as file:
        file.write(PROGRAM)
    run = subprocess.run(["rt", "run"], cwd=program, input="", stdout=subprocess.PIPE, stderr=subprocess.STDOUT, text=True)
    built = os.path.join(program, "out", "paths")
    if not os.path.exists(built):
        sys.exit(run.stdout)
    return built


def measured(built, path):
    """Of three runs the least microseconds of `levels` and of `origins`, the pairs of Level and All, and the most MB."""
    levels, origins, peak = [], [], 0
    for _ in range(3):
        with open(path) as data:
            process = subprocess.Popen([built], stdin=data, stdout=subprocess.PIPE, text=True)
        words = [int(word) for word in process.stdout.read().split()]
        _, status, usage = os.wait4(process.pid, 0)
        if os.waitstatus_to_exitcode(status) != 0 or len(words) != 4:
            sys.exit(f"{built} failed")
        levels.append(words[0])
        origins.append(words[1] - words[0])
        peak = max(peak, usage.ru_maxrss / 1024)
    return min(levels), min(origins), words[2], words[3], peak


def main():
    if len(sys.argv) != 2:
        sys.exit(__doc__)
    folder = os.path.abspath(sys.argv[1])
    os.makedirs(folder)
    built = build(folder)
    before = None
    print(" labels  edges  marked  level s  origins s  both s  peak MB  row of Level  row of All  growth")
    for labels in (2500, 5000, 10000, 20000):
        flags, edges, marked = wrappers(labels)
        path = os.path.join(folder, "edges")
        with open(path, "w") as file:
            file.write(f"{labels}\n{' '.join(map(str, flags))}\n")
            file.writelines(" ".join(map(str, edge)) + "\n" for edge in edges)
        levels, origins, pairs, all_pairs, peak = measured(built, path)
        both = (levels + origins) / 1e6
        growth = "" if before is None else f"{both / before:6.2f}"
        print(
            f"{labels:7} {len(edges):6} {marked:7.2f} {levels / 1e6:8.3f} {origins / 1e6:10.3f} {both:7.3f} "
            f"{peak:8.1f} {pairs / labels:13.1f} {all_pairs / labels:11.1f}  {growth}"
        )
        before = both


if __name__ == "__main__":
    main()
