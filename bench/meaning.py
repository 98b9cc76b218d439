#!/usr/bin/env python3
"""Times `step` of lk_meaning on two threads that add to the cells of an array in a loop.

usage: bench/meaning.py FOLDER [STEPS]

In the new folder it writes a repository with a program that makes the points of the loop and steps both threads in turn,
over copies of the crates that it needs; `rt run` proves and builds it, which takes some minutes. For arrays of several
sizes it prints the seconds of a million steps, or of that many (the least of three runs), and the peak memory. It ends
with status 1 where an array of 10,000 cells took 5 seconds or 200 MB. It shows speed and proves nothing.
"""
import os
import shutil
import subprocess
import sys

REPOSITORY = os.path.dirname(os.path.dirname(os.path.abspath(__file__)))
PROGRAM = "stepping"
PROGRAM_LIBRARIES = "anyhow lk_base lk_arith lk_types lk_facts lk_values lk_cells lk_meaning"

# The cells of the array whose time and memory are bounded, and the bounds.
CELLS, MOST_SECONDS, MOST_MEGABYTES = 10_000, 5, 200

SOURCE = """//! Steps two threads that go over an array, and times it.
#![tactic(auto)]

use lk_arith::Op;
use lk_base::{Name, NoMemory, Seq, Spot};
use lk_cells::{Frame, Initial, Object, State, Thread};
use lk_facts::{Action, Function, Places, Point, Points, Program, Root, RootKind};
use lk_meaning::{Stepped, step};
use lk_types::{CType, TypeId, TypeTable};
use lk_values::{Table, Value};
use std::alloc::Global;
use std::io;
use std::time::Instant;

const SPOT: Spot = Spot {
    file: 0,
    line: 1,
    col: 1,
};

/// The type of the array, which is put behind the predeclared ones.
const ARRAY: TypeId = TypeId(19);

/// What a point does, and its successors.
type Line = (Act, &'static [u32]);

/// What a point does.
#[derive(Clone, Copy)]
enum Act {
    Skip,
    Value(i128),
    /// Gives the number of cells.
    Cells,
    Array,
    Element(u32, u32),
    Read(u32),
    Write(u32, u32),
    Load,
    Store(u32),
    Binary(Op, u32, u32),
    Branch(u32),
}

/// `for (;;) for (i = 0; i < cells; i++) a[i]++;`, where `i` is the slot 0 and `a` the root 0.
const LOOP: &[Line] = &[
    (Act::Value(0), &[1]),
    (Act::Store(0), &[2]),
    (Act::Load, &[3]),
    (Act::Cells, &[4]),
    (Act::Binary(Op::Less, 2, 3), &[5]),
    (Act::Branch(4), &[6, 0]),
    (Act::Array, &[7]),
    (Act::Load, &[8]),
    (Act::Element(6, 7), &[9]),
    (Act::Read(8), &[10]),
    (Act::Value(1), &[11]),
    (Act::Binary(Op::Add, 9, 10), &[12]),
    (Act::Write(8, 11), &[13]),
    (Act::Load, &[14]),
    (Act::Binary(Op::Add, 13, 10), &[15]),
    (Act::Store(14), &[2]),
    (Act::Skip, &[]),
];

impl Act {
    /// The action.
    fn action(self, cells: i128) -> Action {
        let ty = TypeId::INT;
        match self {
            Act::Skip => Action::Skip,
            Act::Value(number) => Action::Value { number, ty },
            Act::Cells => Action::Value { number: cells, ty },
            Act::Array => Action::Root(0),
            Act::Element(a, b) => Action::Index { a, b, into: true },
            Act::Read(a) => Action::Read { a, raw: false },
            Act::Write(a, b) => Action::Write { a, b, raw: false },
            Act::Load => Action::SlotRead(0),
            Act::Store(a) => Action::SlotWrite { slot: 0, a },
            Act::Binary(op, a, b) => Action::Binary { op, a, b },
            Act::Branch(a) => Action::Branch(a),
        }
    }
}

/// A point of the loop.
fn point(alloc: Global, line: Line, cells: i128) -> Result<Point, NoMemory> {
    let (act, next) = line;
    let next = Vec::from_slice(alloc, next)?;
    Ok(Point {
        action: act.action(cells),
        value: Some(TypeId::INT),
        next: Seq::new(next),
        function: 0,
        spot: SPOT,
        live: true,
        site: None,
    })
}

/// The points of the loop.
fn points_of(alloc: Global, cells: i128) -> Result<Seq<Point>, NoMemory> {
    let mut points = Vec::new(alloc);
    for line in LOOP {
        points.push(point(alloc, *line, cells)?)?;
    }
    Ok(Seq::new(points))
}

/// The types, with that of the array behind the predeclared ones, where there can be one.
fn types_of(alloc: Global, cells: u64) -> Result<TypeTable, NoMemory> {
    let mut types = TypeTable::new(alloc)?;
    let array = CType::Array(TypeId::INT, cells);
    if types.count() < 1000 && types.is_form(&array) && types.form_size(&array).is_some() {
        types.put(array)?;
    }
    Ok(types)
}

/// A name.
fn name(alloc: Global) -> Result<Name, NoMemory> {
    match Name::from_bytes(alloc, b"f") {
        Ok(name) => Ok(name),
        Err(_) => Err(NoMemory),
    }
}

/// The function of the loop.
fn function(alloc: Global) -> Result<Function, NoMemory> {
    let name = name(alloc)?;
    let slots = Vec::from_slice(alloc, &[TypeId::INT])?;
    Ok(Function {
        name,
        root: 0,
        entry: 0,
        exit: 16,
        parameters: Seq::new(Vec::new(alloc)),
        slots: Seq::new(slots),
        result: TypeId::INT,
        value_site: None,
    })
}

/// The only function.
fn functions(alloc: Global) -> Result<Seq<Function>, NoMemory> {
    let mut functions = Vec::new(alloc);
    functions.push(function(alloc)?)?;
    Ok(Seq::new(functions))
}

/// The root of the array.
fn root(alloc: Global) -> Result<Root, NoMemory> {
    let name = name(alloc)?;
    Ok(Root {
        kind: RootKind::Global,
        ty: ARRAY,
        spot: SPOT,
        name,
        function: None,
        point: None,
        bytes: Seq::new(Vec::new(alloc)),
    })
}

/// The only root.
fn roots(alloc: Global) -> Result<Seq<Root>, NoMemory> {
    let mut roots = Vec::new(alloc);
    roots.push(root(alloc)?)?;
    Ok(Seq::new(roots))
}

/// The program.
fn program(alloc: Global, cells: u64) -> Result<Program, NoMemory> {
    let points = points_of(alloc, i128::from(cells))?;
    let functions = functions(alloc)?;
    let roots = roots(alloc)?;
    let types = types_of(alloc, cells)?;
    Ok(Program {
        points,
        functions,
        roots,
        types,
        places: Places::new(alloc),
        locations: 0,
        initials: Seq::new(Vec::new(alloc)),
        main: 0,
        sites: 0,
    })
}

/// A frame at the entry of the loop.
fn frame(alloc: Global) -> Result<Frame, NoMemory> {
    let mut slots = Vec::new(alloc);
    slots.push(Value::Indeterminate)?;
    Ok(Frame {
        point: 0,
        slots: Seq::new(slots),
        values: Table::new(alloc),
        locals: Seq::new(Vec::new(alloc)),
        created: None,
        next_cell: None,
    })
}

/// A thread at the entry of the loop.
fn thread(alloc: Global) -> Result<Thread, NoMemory> {
    let frame = frame(alloc)?;
    Ok(Thread {
        frame,
        below: Seq::new(Vec::new(alloc)),
        ended: false,
        joined: false,
        detached: false,
    })
}

/// Both threads.
fn threads(alloc: Global) -> Result<Seq<Thread>, NoMemory> {
    let mut threads = Vec::new(alloc);
    threads.push(thread(alloc)?)?;
    threads.push(thread(alloc)?)?;
    Ok(Seq::new(threads))
}

/// The array and both threads.
fn first_state(alloc: Global) -> Result<State, NoMemory> {
    let threads = threads(alloc)?;
    let mut objects = Vec::new(alloc);
    objects.push(Object::new(alloc, 0, ARRAY, 1, Initial::Zero))?;
    Ok(State {
        objects: Seq::new(objects),
        threads,
        ended: false,
    })
}

/// The state after a step, where the thread moved.
fn moved(alloc: Global, points: &Points, state: State, thread: u32) -> Option<State> {
    if state.objects.len() > 1000 || state.threads.len() > 1000 {
        return None;
    }
    match step(alloc, points, state, thread, 1) {
        Stepped::Moved(state, _) => Some(state),
        Stepped::Undefined(_, _) => None,
        Stepped::NoMemory(_) => None,
        Stepped::Waits(_) => None,
        Stepped::Ended(_) => None,
        Stepped::NoSuchThread(_) => None,
        Stepped::Full(_) => None,
    }
}

/// The state after steps of both threads in turn, where each moved.
fn after(alloc: Global, points: &Points, state: State, steps: u32) -> Option<State> {
    let mut now = state;
    for turn in 0..steps {
        now = moved(alloc, points, now, turn % 2)?;
    }
    Some(now)
}

/// Makes the steps, and writes the microseconds that they took, and how many objects there are then.
fn measure(rt: &HostRuntime, alloc: Global, points: &Points, steps: u32) -> anyhow::Result<()> {
    let state = first_state(alloc)?;
    let start = Instant::now(rt)?;
    let Some(end) = after(alloc, points, state, steps) else {
        return Ok(());
    };
    let took = start.elapsed(rt)?;
    println!(rt; "{} {}", took.as_micros(), end.objects.len())?;
    Ok(())
}

/// The numbers of cells and of steps that a text has.
fn numbers_of(text: &str) -> Option<(u64, u32)> {
    let mut words = text.split_ascii_whitespace();
    let cells = words.next()?.parse::<u64>().ok()?;
    let steps = words.next()?.parse::<u32>().ok()?;
    Some((cells, steps))
}

fn main(rt: HostRuntime) -> anyhow::Result<()> {
    let alloc = rt.alloc();
    let text = io::read_to_string(alloc, rt.reader())?;
    let Some((cells, steps)) = numbers_of(text.as_str()) else {
        return Ok(());
    };
    let program = program(alloc, cells)?;
    if !Points::fits(&program) {
        return Ok(());
    }
    let points = Points::new(program);
    measure(&rt, alloc, &points, steps)
}
"""


def crates_below(name, lines):
    """The repository's crates on which this one stands, and itself."""
    found = [name]
    for crate in found:
        found += [low for low in lines[crate].split() if low in lines and low not in found]
    return found


def without_built(folder, names):
    """What isn't copied of a folder: of a crate, what was built there."""
    return {"out"} if os.path.basename(os.path.dirname(folder)) == "crates" and "out" in names else set()


def build(folder):
    """The program over the repository's crates, built in the folder."""
    with open(os.path.join(REPOSITORY, "crates.txt")) as file:
        lines = dict(line.strip().split(":", 1) for line in file if ":" in line and not line.startswith("#"))
    crates = crates_below("lk_meaning", lines)
    for crate in crates:
        crate_folder = os.path.join(REPOSITORY, "crates", crate)
        shutil.copytree(crate_folder, os.path.join(folder, "crates", crate), ignore=without_built)
    with open(os.path.join(folder, "crates.txt"), "w") as file:
        file.writelines(f"{crate}:{lines[crate]}\n" for crate in crates)
        file.write(f"{PROGRAM}: {PROGRAM_LIBRARIES}\n")
    shutil.copy(os.path.join(REPOSITORY, "HANDLES"), folder)
    program = os.path.join(folder, "crates", PROGRAM)
    os.makedirs(os.path.join(program, "src"))
    with open(os.path.join(program, "src", "main.rt"), "w") as file:
        file.write(SOURCE)
    run = subprocess.run(
        ["rt", "run"], cwd=program, input="10 10", stdout=subprocess.PIPE, stderr=subprocess.STDOUT, text=True
    )
    built = os.path.join(program, "out", PROGRAM)
    if not os.path.exists(built):
        sys.exit(run.stdout)
    return built


def measured(built, cells, steps):
    """Of three runs the least seconds of the steps, and the most MB."""
    seconds, peak = [], 0
    for _ in range(3):
        process = subprocess.Popen([built], stdin=subprocess.PIPE, stdout=subprocess.PIPE, text=True)
        process.stdin.write(f"{cells} {steps}\n")
        process.stdin.close()
        words = process.stdout.read().split()
        _, status, usage = os.wait4(process.pid, 0)
        if os.waitstatus_to_exitcode(status) != 0 or len(words) != 2:
            sys.exit(f"{built} failed")
        seconds.append(int(words[0]) / 1e6)
        peak = max(peak, usage.ru_maxrss / 1024)
    return min(seconds), peak


def main():
    if len(sys.argv) not in (2, 3):
        sys.exit(__doc__)
    folder = os.path.abspath(sys.argv[1])
    steps = int(sys.argv[2]) if len(sys.argv) == 3 else 1_000_000
    os.makedirs(folder)
    built = build(folder)
    within = True
    print("  cells    steps  seconds  peak MB")
    for cells in (CELLS // 100, CELLS, CELLS * 100):
        seconds, peak = measured(built, cells, steps)
        print(f"{cells:7} {steps:8} {seconds:8.3f} {peak:8.1f}")
        if cells == CELLS:
            within = seconds < MOST_SECONDS and peak < MOST_MEGABYTES
    sys.exit(not within)


if __name__ == "__main__":
    main()
