#!/usr/bin/env python3
"""Times the solver's crates on points that are made by a program, with no source.

usage: bench/solver.py FOLDER

In the folder it writes a repository with a program that makes the points and solves them, over copies of the crates that
it needs; `rt run` proves and builds it, which takes some minutes. A folder in which it was built is used as it is. The
program makes layers of twenty functions, each
of 100 points with 20 accesses to 50 shared locations under two locks, a call of a function of the layer below, and two or
three calls through pointers that may each run ten functions of that layer. `main`, the first function, starts ten threads.
For 5, 10 and 20 layers (10 have 20,000 points, 200 functions and 500 calls through pointers) it prints the seconds of each
part of the solver but `linear`, of all of them, and the peak memory. It ends with status 1 where 10 layers took 20 seconds or 1 GiB. It
shows speed and proves nothing.
"""
import os
import shutil
import subprocess
import sys

REPOSITORY = os.path.dirname(os.path.dirname(os.path.abspath(__file__)))
PROGRAM = "solving"
PROGRAM_LIBRARIES = "anyhow indexmap lk_base lk_sets lk_types lk_facts lk_graph lk_held lk_items lk_conflict lk_verdicts"

# The layers whose seconds and memory are bounded, and the bounds.
LAYERS, MOST_SECONDS, MOST_MEGABYTES = 10, 20, 1024

SOURCE = """//! Times the solver's crates on points that are made here.
#![tactic(auto)]

ghost use Rattle.std.specs.Prelude.{◌<◌, ◌≤◌, ◌*◌};

use indexmap::IndexSet;
use lk_base::{Name, NoMemory, Seq, Spot};
use lk_conflict::conflicts;
use lk_facts::{
    Action, Facts, Function, Held, Holder, Label, LabelEntry, LabelName, Labels, Origins, Places,
    Point, Points, Program, Root, RootKind, Site, Verdict, VerdictState,
};
use lk_graph::{after, many};
use lk_held::held;
use lk_items::items;
use lk_sets::{BitRows, IdSet};
use lk_types::{Base, NodeId, TypeId, TypeTable};
use lk_verdicts::verdicts;
use std::alloc::Global;
use std::io;
use std::time::Instant;

const IN_LAYER: u32 = 20;

const STEPS: u32 = 100;

const LOCATIONS: u32 = 50;

const LOCKS: u32 = 2;

const REACHED: u32 = 10;
/// The labels of the functions stand behind those of the locations and lock places, then those of the points.
const PLACES: u32 = LOCATIONS + LOCKS;

const SPOT: Spot = Spot {
    file: 0,
    line: 1,
    col: 1,
};

/// What a point does, by what it has to do with.
#[derive(Clone, Copy)]
enum Step {
    Skip,
    Read(u32),
    Write(u32),
    Lock(u32),
    Unlock(u32),
    Call(u32),
    CallThrough(u32),
    Create(u32),
}

/// What a function does at its steps 25 to 28, where it is of no last layer: three calls through pointers, the last in the
/// first seven tenths alone, and a call.
fn call_at(layers: u32, function: u32, k: u32) -> Step
    requires layers { layers ≤ 30 }
    requires function { function < 600 }
    requires k { k < 100 }
{
    let place = function % IN_LAYER;
    let below = function - place + IN_LAYER;
    match k {
        25..=26 => Step::CallThrough(below + (place + k) % REACHED),
        27 if function < 14 * layers => Step::CallThrough(below + place % REACHED),
        28 => Step::Call(below + place),
        _ => Step::Skip,
    }
}

/// The step number `k` of a function.
fn step_at(layers: u32, function: u32, k: u32) -> Step
    requires layers { layers ≤ 30 }
    requires function { function < 600 }
    requires k { k < 100 }
{
    match k {
        1 => Step::Lock(LOCATIONS),
        2 => Step::Lock(LOCATIONS + 1),
        3..=22 if k % 2 == 0 => Step::Write((function * 7 + k) % LOCATIONS),
        3..=22 => Step::Read((function * 7 + k) % LOCATIONS),
        23 => Step::Unlock(LOCATIONS + 1),
        24 => Step::Unlock(LOCATIONS),
        25..=28 if function + IN_LAYER < layers * IN_LAYER => call_at(layers, function, k),
        30..=39 if function == 0 => Step::Create(k - 29),
        _ => Step::Skip,
    }
}

/// The action of a point.
fn action(alloc: Global, step: Step, point: u32) -> Action {
    let args = Seq::new(Vec::new(alloc));
    match step {
        Step::Skip => Action::Skip,
        Step::Read(_) => Action::Read {
            a: point,
            raw: false,
        },
        Step::Write(_) => Action::Write {
            a: point,
            b: point,
            raw: false,
        },
        Step::Lock(_) => Action::Lock(point),
        Step::Unlock(_) => Action::Unlock(point),
        Step::Call(function) => Action::Call { function, args },
        Step::CallThrough(_) => Action::PointerCall { a: point, args },
        Step::Create(function) => Action::Create { function, a: point },
    }
}

/// The labels of what the value of a point may point to, from the first on, and how many.
fn reach(step: Step) -> Option<(u32, u32)> {
    match step {
        Step::Read(place) | Step::Write(place) | Step::Lock(place) | Step::Unlock(place) => {
            Some((place, 1))
        }
        Step::CallThrough(function) => Some((function.saturating_add(PLACES), REACHED)),
        Step::Skip | Step::Call(_) | Step::Create(_) => None,
    }
}

fn start(ty: TypeId) -> NodeId {
    NodeId {
        base: Base::Start(ty),
        number: 0,
    }
}

/// Whether a step has a site of its own.
fn has_site(step: Step) -> bool {
    matches!(step, Step::Call(_) | Step::Create(_))
}

/// The successors of a step of a function, whose number among all points is given.
fn next(alloc: Global, k: u32, point: u32) -> Result<Vec<u32>, NoMemory>
    requires { point < 100000 }
{
    let mut next = Vec::new(alloc);
    if k < STEPS - 1 {
        next.push(point + 1)?;
    }
    Ok(next)
}

/// A point.
fn point_of(
    alloc: Global,
    step: Step,
    function: u32,
    point: u32,
    next: Vec<u32>,
    site: Option<Site>,
) -> Point {
    Point {
        action: action(alloc, step, point),
        value: None,
        next: Seq::new(next),
        function,
        spot: SPOT,
        live: true,
        site,
    }
}

/// The site of a step, and the number of sites with it.
fn site_of(step: Step, sites: u32) -> (Option<Site>, u32) {
    if has_site(step) {
        (Some(Site(sites)), sites.saturating_add(1))
    } else {
        (None, sites)
    }
}

/// The points, and how many sites they have. Behind them come the own sites of the functions.
fn points(alloc: Global, layers: u32) -> Result<(Vec<Point>, u32), NoMemory>
    requires { layers ≤ 30 }
{
    let mut points = Vec::new(alloc);
    let mut sites = 0;
    for function in 0..layers * IN_LAYER {
        for k in 0..STEPS {
            let point = function * STEPS + k;
            let step = step_at(layers, function, k);
            let (site, more) = site_of(step, sites);
            let next = next(alloc, k, point)?;
            points.push(point_of(alloc, step, function, point, next, site))?;
            sites = more;
        }
    }
    Ok((points, sites))
}

/// The step of a point.
fn step_of(layers: u32, point: u32) -> Step
    requires layers { layers ≤ 30 }
    requires point { point < 60000 }
{
    step_at(layers, point / STEPS, point % STEPS)
}

/// Puts the name of the label with a number behind the others.
fn put_name(names: &mut IndexSet<LabelName>, number: u32) -> Result<(), NoMemory> {
    names.insert(LabelName {
        holder: Holder::Slot(0, number),
        node: start(TypeId::VOID),
    })?;
    Ok(())
}

fn entry(root: u32, is_origin: bool, is_lock: bool) -> LabelEntry {
    LabelEntry {
        root,
        is_origin,
        is_lock,
        is_global: is_origin,
    }
}

/// Labels as they are made.
#[derive(Drop)]
struct Making {
    names: IndexSet<LabelName>,
    entries: Vec<LabelEntry>,
    targets: Vec<Option<Label>>,
    /// For each label its first origin, and how many follow.
    flows: Vec<(u32, u32)>,
}

impl Making {
    /// The number of the next label.
    fn number(&self) -> u32 {
        self.entries.len().min(u32::MAX as usize) as u32
    }

    /// Puts a label behind the others.
    fn put(&mut self, entry: LabelEntry, flow: (u32, u32)) -> Result<(), NoMemory> {
        let number = self.number();
        put_name(&mut self.names, number)?;
        self.entries.push(entry)?;
        self.flows.push(flow)?;
        Ok(())
    }

    /// Puts the labels of the roots.
    fn put_roots(&mut self, roots: u32) -> Result<(), NoMemory> {
        for number in 0..roots {
            let is_lock = LOCATIONS <= number && number < PLACES;
            self.put(entry(number, true, is_lock), (number, 1))?;
        }
        Ok(())
    }

    /// Puts the label of a point that points to something.
    fn put_point(&mut self, step: Step, roots: u32, point: u32) -> Result<(), NoMemory> {
        let Some(flow) = reach(step) else {
            self.targets.push(None)?;
            return Ok(());
        };
        let label = self.number();
        self.targets.push(Some(Label(label)))?;
        let is_lock = matches!(step, Step::Lock(_) | Step::Unlock(_));
        self.put(entry(roots.saturating_add(point), false, is_lock), flow)?;
        Ok(())
    }

    /// Puts the labels of the points.
    fn put_points(&mut self, layers: u32, roots: u32) -> Result<(), NoMemory>
        requires { layers ≤ 30 }
    {
        for point in 0..layers * IN_LAYER * STEPS {
            self.put_point(step_of(layers, point), roots, point)?;
        }
        Ok(())
    }
}

/// The labels of a program.
fn made(alloc: Global, layers: u32) -> Result<Making, NoMemory>
    requires { layers ≤ 30 }
{
    let mut making = Making {
        names: IndexSet::new(alloc),
        entries: Vec::new(alloc),
        targets: Vec::new(alloc),
        flows: Vec::new(alloc),
    };
    let roots = PLACES + layers * IN_LAYER;
    making.put_roots(roots)?;
    making.put_points(layers, roots)?;
    Ok(making)
}

/// Puts the origins of a label, where they are in range.
fn put_flow(rows: &mut BitRows, label: u32, flow: (u32, u32)) {
    for origin in flow.0..flow.0.saturating_add(flow.1) {
        if label < rows.size() && origin < rows.size() {
            rows.put(label, origin);
        }
    }
}

/// The origins of all labels.
fn rows(alloc: Global, flows: &[(u32, u32)]) -> Result<BitRows, NoMemory> {
    let count = flows.len().min(65536) as u32;
    let mut rows = BitRows::new(alloc, count)?;
    let mut label = 0u32;
    for flow in flows {
        put_flow(&mut rows, label, *flow);
        label = label.saturating_add(1);
    }
    Ok(rows)
}

/// A name.
fn word(alloc: Global) -> Result<Name, NoMemory> {
    match Name::from_bytes(alloc, b"f") {
        Ok(name) => Ok(name),
        Err(_) => Err(NoMemory),
    }
}

/// The functions. The own site of each stands behind those of calls and creations.
fn functions(alloc: Global, layers: u32, sites: u32) -> Result<Vec<Function>, NoMemory>
    requires { layers ≤ 30 }
{
    let mut functions = Vec::new(alloc);
    for function in 0..layers * IN_LAYER {
        let value_site = if function >= IN_LAYER {
            Some(Site(sites.saturating_add(function)))
        } else {
            None
        };
        functions.push(Function {
            name: word(alloc)?,
            root: PLACES + function,
            entry: function * STEPS,
            exit: function * STEPS + STEPS - 1,
            parameters: Seq::new(Vec::new(alloc)),
            slots: Seq::new(Vec::new(alloc)),
            result: TypeId::VOID,
            value_site,
        })?;
    }
    Ok(functions)
}

fn type_of(root: u32) -> TypeId {
    if root < LOCATIONS {
        TypeId::INT
    } else {
        TypeId::MUTEX
    }
}

/// A root: a location, a mutex or a function.
fn root(alloc: Global, number: u32) -> Result<Root, NoMemory> {
    let (kind, function) = match number.checked_sub(PLACES) {
        Some(function) => (RootKind::Function, Some(function)),
        None => (RootKind::Global, None),
    };
    let name = word(alloc)?;
    Ok(Root {
        kind,
        ty: type_of(number),
        spot: SPOT,
        name,
        function,
        point: None,
        bytes: Seq::new(Vec::new(alloc)),
    })
}

/// The roots.
fn roots(alloc: Global, count: u32) -> Result<Vec<Root>, NoMemory> {
    let mut roots = Vec::new(alloc);
    for number in 0..count {
        roots.push(root(alloc, number)?)?;
    }
    Ok(roots)
}

/// The locations and lock places.
fn places(alloc: Global) -> Result<Places, NoMemory> {
    let mut places = Places::new(alloc);
    for root in 0..PLACES {
        if places.len() < 65536 {
            places.put(root, start(type_of(root)))?;
        }
    }
    Ok(places)
}

/// The program.
fn program(alloc: Global, layers: u32) -> Result<Program, NoMemory>
    requires { layers ≤ 30 }
{
    let (points, sites) = points(alloc, layers)?;
    let functions = functions(alloc, layers, sites)?;
    let roots = roots(alloc, PLACES + layers * IN_LAYER)?;
    let places = places(alloc)?;
    let types = TypeTable::new(alloc)?;
    Ok(Program {
        points: Seq::new(points),
        functions: Seq::new(functions),
        roots: Seq::new(roots),
        types,
        places,
        locations: LOCATIONS,
        initials: Seq::new(Vec::new(alloc)),
        main: 0,
        sites: sites.saturating_add(layers * IN_LAYER),
    })
}

/// How many verdicts are in a state.
fn guarded(verdicts: &[Verdict]) -> usize {
    verdicts
        .iter()
        .filter(|verdict| matches!(verdict.state, VerdictState::Guarded))
        .count()
}

/// Times what the solver does before the items, and writes the milliseconds.
fn before(rt: &HostRuntime, alloc: Global, points: &Points) -> anyhow::Result<()> {
    let start = Instant::now(rt)?;
    let many = many(alloc, points)?;
    let took = start.elapsed(rt)?;
    println!(rt; "many {} {}", many.ids().len(), took.as_millis())?;
    Ok(())
}

/// Times the locks that are held.
fn time_held(rt: &HostRuntime, alloc: Global, facts: &Facts<'_>) -> anyhow::Result<Held> {
    let start = Instant::now(rt)?;
    let held = held(alloc, facts)?;
    let took = start.elapsed(rt)?;
    println!(rt; "held {}", took.as_millis())?;
    Ok(held)
}

/// Times the rest.
fn rest(
    rt: &HostRuntime,
    alloc: Global,
    facts: &Facts<'_>,
    held: &Held,
    after: &BitRows,
) -> anyhow::Result<()> {
    let points = facts.points().count() as usize;
    if held.points() != points
        || held.labels() != facts.labels().count()
        || after.size() as usize != points
    {
        return Ok(());
    }
    let start = Instant::now(rt)?;
    let items = items(alloc, facts, held)?;
    let took = start.elapsed(rt)?;
    println!(rt; "items {} {}", items.count(), took.as_millis())?;
    let start = Instant::now(rt)?;
    let conflicts = conflicts(alloc, facts, held, &items, after)?;
    let took = start.elapsed(rt)?;
    println!(rt; "conflicts {} {}", conflicts.count(), took.as_millis())?;
    let linear = IdSet::from_list(alloc, &[LOCATIONS, LOCATIONS + 1])?;
    let start = Instant::now(rt)?;
    let verdicts = verdicts(alloc, facts, &conflicts, &linear)?;
    let took = start.elapsed(rt)?;
    println!(rt;
        "verdicts {} {} {}",
        verdicts.len(),
        guarded(&verdicts),
        took.as_millis()
    )?;
    Ok(())
}

/// Times all calls over a program.
fn measure(rt: &HostRuntime, alloc: Global, facts: &Facts<'_>) -> anyhow::Result<()> {
    before(rt, alloc, facts.points())?;
    let start = Instant::now(rt)?;
    let after = after(alloc, facts.points())?;
    let took = start.elapsed(rt)?;
    println!(rt; "after {}", took.as_millis())?;
    let held = time_held(rt, alloc, facts)?;
    rest(rt, alloc, facts, &held, &after)
}

/// Makes the facts, and times all calls over them.
fn over(rt: &HostRuntime, alloc: Global, points: &Points, layers: u32) -> anyhow::Result<()>
    requires { layers ≤ 30 }
{
    let making = made(alloc, layers)?;
    let all = rows(alloc, &making.flows)?;
    let inner = rows(alloc, &making.flows)?;
    let crossings = Vec::new(alloc);
    if !Labels::fits(&making.names, &making.entries, &making.targets)
        || !Origins::fits(&all, &inner, &crossings)
    {
        println!(rt; "not in range")?;
        return Ok(());
    }
    let Making {
        names,
        entries,
        targets,
        ..
    } = making;
    let labels = Labels::new(names, entries, targets);
    let origins = Origins::new(all, inner, crossings);
    if !Facts::fits(points, &labels, &origins) {
        println!(rt; "no facts")?;
        return Ok(());
    }
    println!(rt;
        "points {} labels {} sites {}",
        points.count(),
        labels.count(),
        points.sites()
    )?;
    let facts = Facts::new(points, &labels, &origins);
    measure(rt, alloc, &facts)
}

fn main(rt: HostRuntime) -> anyhow::Result<()> {
    let alloc = rt.alloc();
    let text = io::read_to_string(alloc, rt.reader())?;
    let Some(layers) = text.as_str().trim().parse::<u32>().ok() else {
        return Ok(());
    };
    if layers > 30 {
        return Ok(());
    }
    let program = program(alloc, layers)?;
    if !Points::fits(&program) {
        println!(rt; "points not in range")?;
        return Ok(());
    }
    let points = Points::new(program);
    over(&rt, alloc, &points, layers)
}
"""


def crates_below(names, lines):
    """The repository's crates on which these stand, and they themselves."""
    found = list(names)
    for crate in found:
        found += [low for low in lines[crate].split() if low in lines and low not in found]
    return found


def without_built(folder, names):
    """What isn't copied of a folder: of a crate, what was built there."""
    return {"out"} if os.path.basename(os.path.dirname(folder)) == "crates" and "out" in names else set()


def build(folder):
    """The program over the repository's crates, built in the folder where it isn't yet."""
    program = os.path.join(folder, "crates", PROGRAM)
    built = os.path.join(program, "out", PROGRAM)
    if os.path.exists(built):
        return built
    with open(os.path.join(REPOSITORY, "crates.txt")) as file:
        lines = dict(line.strip().split(":", 1) for line in file if ":" in line and not line.startswith("#"))
    crates = crates_below(["lk_graph", "lk_held", "lk_items", "lk_conflict", "lk_verdicts"], lines)
    for crate in crates:
        crate_folder = os.path.join(REPOSITORY, "crates", crate)
        shutil.copytree(crate_folder, os.path.join(folder, "crates", crate), ignore=without_built)
    with open(os.path.join(folder, "crates.txt"), "w") as file:
        file.writelines(f"{crate}:{lines[crate]}\n" for crate in crates)
        file.write(f"{PROGRAM}: {PROGRAM_LIBRARIES}\n")
    shutil.copy(os.path.join(REPOSITORY, "HANDLES"), folder)
    os.makedirs(os.path.join(program, "src"))
    with open(os.path.join(program, "src", "main.rt"), "w") as file:
        file.write(SOURCE)
    run = subprocess.run(
        ["rt", "run"], cwd=program, input="1", stdout=subprocess.PIPE, stderr=subprocess.STDOUT, text=True
    )
    if not os.path.exists(built):
        sys.exit(run.stdout)
    return built


def measured(built, layers):
    """Of each part, by its name, the first and the last number that the program writes, and its peak MB."""
    process = subprocess.Popen([built], stdin=subprocess.PIPE, stdout=subprocess.PIPE, text=True)
    process.stdin.write(f"{layers}\n")
    process.stdin.close()
    lines = [line.split() for line in process.stdout.read().splitlines()]
    _, status, usage = os.wait4(process.pid, 0)
    if os.waitstatus_to_exitcode(status) != 0 or len(lines) != 7:
        sys.exit(f"{built} failed")
    return {words[0]: (int(words[1]), int(words[-1])) for words in lines}, usage.ru_maxrss / 1024


def main():
    if len(sys.argv) != 2:
        sys.exit(__doc__)
    folder = os.path.abspath(sys.argv[1])
    built = build(folder)
    parts = ["many", "after", "held", "items", "conflicts", "verdicts"]
    within = True
    print("layers  points    items  races " + "".join(f"{part:>10}" for part in parts) + "       all  peak MB")
    for layers in (LAYERS // 2, LAYERS, LAYERS * 2):
        found, peak = measured(built, layers)
        seconds = [found[part][-1] / 1000 for part in parts]
        counts = f"{layers:6} {found['points'][0]:7} {found['items'][0]:8} {found['conflicts'][0]:6} "
        print(counts + "".join(f"{took:10.3f}" for took in [*seconds, sum(seconds)]) + f" {peak:8.1f}")
        if layers == LAYERS:
            within = sum(seconds) < MOST_SECONDS and peak < MOST_MEGABYTES
    sys.exit(not within)


if __name__ == "__main__":
    main()
