#!/usr/bin/env python3
"""Times the labels of a program and what flows between them: `labels` of lk_label, `edges` of lk_flow, `levels` of lk_match
and `origins` of lk_origin, on points that a script makes.

usage: bench/flow.py FOLDER

In the new folder it writes a repository with a program that reads points and makes the four calls, over copies of the crates
that it needs; `rt run` proves and builds it, which takes some minutes. For each number of places from which wrappers are
called it prints how many labels and edges there are, how many of the edges carry marks, how many labels stand in a row of
Level in the mean, the seconds of each call and of all four (the least of three runs), the peak memory, and how the time grew
against the row before, where labels are twice as many. It shows speed and proves nothing.
"""
import os
import random
import shutil
import subprocess
import sys

REPOSITORY = os.path.dirname(os.path.dirname(os.path.abspath(__file__)))
CRATES = [
    "lk_base", "lk_sets", "lk_types", "lk_arith", "lk_facts", "lk_laws", "lk_label", "lk_flow", "lk_match", "lk_origin",
]
PROGRAM_LINE = "flow: anyhow lk_base lk_sets lk_types lk_facts lk_label lk_flow lk_match lk_origin"

# From how many places a family of wrappers is called, and how many of these stand in one caller.
PLACES = 300
CALLS = 30

# How many objects of the type `int`, and how many mutexes, each family of wrappers has.
OBJECTS = 10

# The types of values: `struct list { struct list *next; int *item; }` is 20.
INT, MUTEX, VOID_POINTER, LIST_POINTER, LIST_PLACE, LOCK, INT_POINTER, INT_PLACE = 7, 14, 19, 21, 22, 23, 24, 25

# What a point does: nothing, read a slot of its function, write an operand into one, call a function, return an operand, give
# the address of a root, give that of a member, read a cell, write an operand into one, convert, lock, unlock.
(SKIP, SLOT_READ, SLOT_WRITE, CALL, RETURN, ROOT, FIELD, READ, WRITE, CONVERT, ACQUIRE, RELEASE) = range(12)

# The slots of every function: its parameters.
LIST, ANY, GUARD = range(3)

PROGRAM = """//! Reads points, and times their labels and what flows between them.
#![tactic(auto)]

ghost use Rattle.std.specs.Prelude.{IsTrue};
ghost use Rattle.lk_types.specs.Building.{CanComplete};

use lk_base::{Name, NoMemory, Seq, Spot};
use lk_facts::{
    Action, Edge, Function, Holder, Mark, Places, Point, Points, Program, Root, RootKind, Site,
};
use lk_flow::edges;
use lk_label::labels;
use lk_match::levels;
use lk_origin::origins;
use lk_sets::BitRows;
use lk_types::{CType, StructMember, TypeId, TypeIds, TypeTable};
use std::alloc::Global;
use std::io;
use std::time::Instant;

/// The types behind the predeclared ones: `void *`, `struct list`, pointers to it and to these, pointers to a mutex, to an
/// `int` and to these, and that of the functions.
const ANY: TypeId = TypeId(19);

const LIST: TypeId = TypeId(20);

const LIST_POINTER: TypeId = TypeId(21);

const LOCK: TypeId = TypeId(23);

const INT_POINTER: TypeId = TypeId(24);

const CODE: TypeId = TypeId(26);

/// Where all stands.
fn spot() -> Spot {
    Spot {
        file: 0,
        line: 1,
        col: 1,
    }
}

/// The numbers of a text, but for words that are none.
fn numbers_of(alloc: Global, text: &str) -> Result<Vec<u32>, NoMemory> {
    let mut numbers = Vec::new(alloc);
    for word in text.split_ascii_whitespace() {
        if let Ok(number) = word.parse::<u32>() {
            numbers.push(number)?;
        }
    }
    Ok(numbers)
}

/// A name.
fn name(alloc: Global) -> Result<Name, NoMemory> {
    match Name::from_bytes(alloc, b"f") {
        Ok(name) => Ok(name),
        Err(_) => Err(NoMemory),
    }
}

/// Puts a type behind the others, where it can be one.
fn put(types: &mut TypeTable, form: CType) -> Result<(), NoMemory> {
    if types.count() < u32::MAX && types.is_form(&form) && types.form_size(&form).is_some() {
        types.put(form)?;
    }
    Ok(())
}

/// The type of functions.
fn code(alloc: Global) -> Result<CType, NoMemory> {
    let params = Vec::from_slice(alloc, &[LIST_POINTER, ANY, LOCK])?;
    Ok(CType::Function {
        result: LIST_POINTER,
        params: TypeIds::new(params),
        dots: false,
    })
}

/// A member of the struct.
fn member(alloc: Global, ty: TypeId) -> Result<StructMember, NoMemory> {
    let name = name(alloc)?;
    Ok(StructMember { name, ty })
}

/// The members of the struct.
fn members(alloc: Global) -> Result<Vec<StructMember>, NoMemory> {
    let mut members = Vec::new(alloc);
    members.push(member(alloc, LIST_POINTER)?)?;
    members.push(member(alloc, INT_POINTER)?)?;
    Ok(members)
}

/// Whether a struct may have these members.
#[tactic(auto, using(lk_types::proofs::SizeLemmas::members_known))]
fn can_complete(types: &TypeTable, s: u32, members: &[StructMember]) -> bool
    ensures { IsTrue result → CanComplete types.now s members.now }
{
    s < types.structs()
        && types.members(s).is_empty()
        && !members.is_empty()
        && types.are_members(members)
        && types.members_size(members).is_some()
}

/// Gives the struct its members, where it can have them.
fn complete(types: &mut TypeTable, members: Vec<StructMember>) {
    if can_complete(types, 0, members.as_slice()) {
        types.complete_struct(0, Seq::new(members));
    }
}

/// Puts the types behind the predeclared ones.
fn put_all(alloc: Global, types: &mut TypeTable) -> Result<(), NoMemory> {
    put(types, CType::Pointer(TypeId::VOID))?;
    put(types, CType::Struct(0))?;
    put(types, CType::Pointer(LIST))?;
    put(types, CType::Pointer(LIST_POINTER))?;
    put(types, CType::Pointer(TypeId::MUTEX))?;
    put(types, CType::Pointer(TypeId::INT))?;
    put(types, CType::Pointer(INT_POINTER))?;
    put(types, code(alloc)?)
}

/// The types, where `void` has `int` for its only part.
fn with_parts(types: TypeTable, parts: Vec<TypeId>) -> TypeTable {
    if types.are_parts(parts.as_slice()) {
        types.with_parts(parts)
    } else {
        types
    }
}

/// All types.
fn table(alloc: Global) -> Result<TypeTable, NoMemory> {
    let parts = Vec::from_slice(alloc, &[TypeId::INT])?;
    let members = members(alloc)?;
    let mut types = TypeTable::new(alloc)?;
    if types.structs() == 0 {
        types.begin_struct()?;
    }
    put_all(alloc, &mut types)?;
    complete(&mut types, members);
    Ok(with_parts(types, parts))
}

/// What seven numbers say of a point: its function, what it does, the type of its value, and with what.
#[derive(Clone, Copy)]
struct Line {
    function: u32,
    kind: u32,
    ty: u32,
    first: u32,
    second: u32,
    third: u32,
    fourth: u32,
}

/// The arguments of a call.
fn arguments(alloc: Global, line: Line) -> Result<Seq<u32>, NoMemory> {
    let arguments = Vec::from_slice(alloc, &[line.second, line.third, line.fourth])?;
    Ok(Seq::new(arguments))
}

/// What a point does.
fn action(line: Line, arguments: Seq<u32>) -> Action {
    let (a, b) = (line.first, line.second);
    match line.kind {
        1 => Action::SlotRead(a),
        2 => Action::SlotWrite { slot: a, a: b },
        3 => Action::Call {
            function: a,
            args: arguments,
        },
        4 => Action::Return(Some(a)),
        5 => Action::Root(a),
        6 => Action::Field { a, member: b },
        7 => Action::Read { a, raw: false },
        8 => Action::Write { a, b, raw: false },
        9 => Action::Convert {
            a,
            ty: TypeId(line.ty),
        },
        10 => Action::Lock(a),
        11 => Action::Unlock(a),
        _ => Action::Skip,
    }
}

/// A point.
fn point(alloc: Global, line: Line) -> Result<Point, NoMemory> {
    let arguments = arguments(alloc, line)?;
    let value = if line.ty == 0 {
        None
    } else {
        Some(TypeId(line.ty))
    };
    Ok(Point {
        action: action(line, arguments),
        value,
        next: Seq::new(Vec::new(alloc)),
        function: line.function,
        spot: spot(),
        live: line.kind == 3,
        site: if line.kind == 3 { Some(Site(0)) } else { None },
    })
}

/// Puts the point that seven numbers stand for behind the others.
fn push_point(alloc: Global, words: &[u32], points: &mut Vec<Point>) -> Result<(), NoMemory> {
    let &[function, kind, ty, first, second, third, fourth] = words else {
        return Ok(());
    };
    let line = Line {
        function,
        kind,
        ty,
        first,
        second,
        third,
        fourth,
    };
    points.push(point(alloc, line)?)?;
    Ok(())
}

/// Gives each call a site of its own, and answers how many there are.
fn number_sites(points: &mut Vec<Point>) -> u32 {
    let mut sites = 0u32;
    for place in 0..points.len() {
        if points[place].site.is_some() {
            points[place].site = Some(Site(sites));
            sites = sites.saturating_add(1);
        }
    }
    sites
}

/// A point for each seven numbers.
fn points_of(alloc: Global, numbers: &[u32]) -> Result<Vec<Point>, NoMemory> {
    let mut points = Vec::new(alloc);
    for words in numbers.chunks_exact(7) {
        push_point(alloc, words, &mut points)?;
    }
    Ok(points)
}

/// A function with this number: it has three slots, its parameters, and gives a pointer to a list.
fn function(alloc: Global, number: u32) -> Result<Function, NoMemory> {
    let parameters = Vec::from_slice(
        alloc,
        &[
            Holder::Slot(number, 0),
            Holder::Slot(number, 1),
            Holder::Slot(number, 2),
        ],
    )?;
    let slots = Vec::from_slice(alloc, &[LIST_POINTER, ANY, LOCK])?;
    Ok(Function {
        name: name(alloc)?,
        root: number,
        entry: 0,
        exit: 0,
        parameters: Seq::new(parameters),
        slots: Seq::new(slots),
        result: LIST_POINTER,
        value_site: None,
    })
}

/// So many functions.
fn functions_of(alloc: Global, count: u32) -> Result<Vec<Function>, NoMemory> {
    let mut functions = Vec::new(alloc);
    for number in 0..count {
        functions.push(function(alloc, number)?)?;
    }
    Ok(functions)
}

/// A root of a kind and a type.
fn root(
    alloc: Global,
    kind: RootKind,
    ty: TypeId,
    function: Option<u32>,
) -> Result<Root, NoMemory> {
    Ok(Root {
        kind,
        ty,
        spot: spot(),
        name: name(alloc)?,
        function,
        point: None,
        bytes: Seq::new(Vec::new(alloc)),
    })
}

/// The roots of so many functions, and then globals of these types.
fn roots_of(alloc: Global, count: u32, globals: &[u32]) -> Result<Vec<Root>, NoMemory> {
    let mut roots = Vec::new(alloc);
    for number in 0..count {
        roots.push(root(alloc, RootKind::Function, CODE, Some(number))?)?;
    }
    for ty in globals {
        roots.push(root(alloc, RootKind::Global, TypeId(*ty), None)?)?;
    }
    Ok(roots)
}

/// The program of so many functions, with globals of these types and the points that the other numbers stand for.
fn program(alloc: Global, count: u32, globals: &[u32], words: &[u32]) -> Result<Program, NoMemory> {
    let mut points = points_of(alloc, words)?;
    let sites = number_sites(&mut points);
    let roots = roots_of(alloc, count, globals)?;
    Ok(Program {
        points: Seq::new(points),
        functions: Seq::new(functions_of(alloc, count)?),
        roots: Seq::new(roots),
        types: table(alloc)?,
        places: Places::new(alloc),
        locations: 0,
        initials: Seq::new(Vec::new(alloc)),
        main: 0,
        sites,
    })
}

/// The points that numbers stand for: how many functions there are, how many globals, the type of each global, and then
/// seven numbers a point.
fn read(alloc: Global, numbers: &[u32]) -> Result<Option<Points>, NoMemory> {
    let Some((count, rest)) = numbers.split_first() else {
        return Ok(None);
    };
    let Some((globals, rest)) = rest.split_first() else {
        return Ok(None);
    };
    if *globals as usize > rest.len() {
        return Ok(None);
    }
    let (globals, words) = rest.split_at(*globals as usize);
    let program = program(alloc, *count, globals, words)?;
    if Points::fits(&program) {
        Ok(Some(Points::new(program)))
    } else {
        Ok(None)
    }
}

/// How many edges carry marks.
fn marked_in(edges: &[Edge]) -> u64 {
    let mut marked = 0u64;
    for edge in edges {
        if edge.mark != Mark::Plain {
            marked = marked.saturating_add(1);
        }
    }
    marked
}

/// How many pairs stand in the rows.
fn pairs_in(rows: &BitRows) -> u64 {
    let mut pairs = 0u64;
    for row in 0..rows.size() {
        for _ in rows.row(row) {
            pairs = pairs.saturating_add(1);
        }
    }
    pairs
}

/// Makes the four calls, and writes how long they took, how many labels, edges and edges with marks there are, and how
/// many pairs stand in Level.
fn measure(rt: &HostRuntime, alloc: Global, points: &Points) -> anyhow::Result<()> {
    let start = Instant::now(rt)?;
    let Ok(labels) = labels(alloc, points) else {
        return Ok(());
    };
    let first = start.elapsed(rt)?;
    let edges = edges(alloc, points, &labels)?;
    let second = start.elapsed(rt)?;
    let levels = levels(alloc, &edges, &labels)?;
    let third = start.elapsed(rt)?;
    let _origins = origins(alloc, &edges, &levels, &labels)?;
    let all = start.elapsed(rt)?;
    println!(rt;
        "{} {} {} {} {} {} {} {}",
        first.as_micros(),
        second.as_micros(),
        third.as_micros(),
        all.as_micros(),
        labels.count(),
        edges.len(),
        marked_in(&edges),
        pairs_in(&levels)
    )?;
    Ok(())
}

fn main(rt: HostRuntime) -> anyhow::Result<()> {
    let alloc = rt.alloc();
    let text = io::read_to_string(alloc, rt.reader())?;
    let numbers = numbers_of(alloc, text.as_str())?;
    let Some(points) = read(alloc, numbers.as_slice())? else {
        return Ok(());
    };
    measure(&rt, alloc, &points)
}
"""


class Code:
    """The points of a program, each seven numbers: its function, what it does, the type of its value or 0 where it gives none,
    and with what. Each call below answers the number of its point."""

    def __init__(self):
        self.points = []

    def put(self, function, kind, value, *operands):
        self.points.append((function, kind, value, *operands) + (0,) * (4 - len(operands)))
        return len(self.points) - 1

    def read(self, function, slot):
        """What stands in a parameter."""
        return self.put(function, SLOT_READ, (LIST_POINTER, VOID_POINTER, LOCK)[slot], slot)

    def call(self, function, called, *operands):
        return self.put(function, CALL, LIST_POINTER, called, *operands)


def wrapper(code, function, called):
    """`struct list *f(struct list *l, void *p, pthread_mutex_t *m) { return g(l, p, m); }`"""
    operands = [code.read(function, slot) for slot in (LIST, ANY, GUARD)]
    code.put(function, RETURN, 0, code.call(function, called, *operands))


def innermost(code, function):
    """The same with `pthread_mutex_lock(m); l->item = p; l = l->next; pthread_mutex_unlock(m); return l;` for a body."""
    code.put(function, ACQUIRE, 0, code.read(function, GUARD))
    item = code.put(function, FIELD, INT_PLACE, code.read(function, LIST), 1)
    given = code.put(function, CONVERT, INT_POINTER, code.read(function, ANY))
    code.put(function, WRITE, 0, item, given)
    place = code.put(function, FIELD, LIST_PLACE, code.read(function, LIST), 0)
    code.put(function, SLOT_WRITE, 0, LIST, code.put(function, READ, LIST_POINTER, place))
    code.put(function, RELEASE, 0, code.read(function, GUARD))
    code.put(function, RETURN, 0, code.read(function, LIST))


def caller(code, function, families, globals_from, chance):
    """A caller calls wrappers with its list, an object or what its `void *` points to, and a mutex or its own, and keeps the
    list that each of them gives."""
    for family in families:
        place = globals_from + 2 * (OBJECTS * family + chance.randrange(OBJECTS))
        given = code.read(function, LIST)
        if chance.random() < 0.5:
            item = code.put(function, CONVERT, VOID_POINTER, code.put(function, ROOT, INT_POINTER, place))
        else:
            item = code.read(function, ANY)
        if chance.random() < 0.5:
            guard = code.put(function, ROOT, LOCK, place + 1)
        else:
            guard = code.read(function, GUARD)
        code.put(function, SLOT_WRITE, 0, LIST, code.call(function, 3 * family, given, item, guard))
    code.put(function, RETURN, 0, code.read(function, LIST))


def made(families):
    """The number of functions, the types of the globals, which are an object and its mutex in turn, and the points: wrappers
    three deep first, the outermost of each family in front, then callers."""
    chance = random.Random(1)
    code = Code()
    for family in range(families):
        wrapper(code, 3 * family, 3 * family + 1)
        wrapper(code, 3 * family + 1, 3 * family + 2)
        innermost(code, 3 * family + 2)
    places = [family for family in range(families) for _ in range(PLACES)]
    chance.shuffle(places)
    callers = len(places) // CALLS
    functions = 3 * families + callers
    for number in range(callers):
        caller(code, 3 * families + number, places[CALLS * number : CALLS * (number + 1)], functions, chance)
    return functions, [INT, MUTEX] * (OBJECTS * families), code.points


def build(folder):
    """The program over the repository's crates, built in the folder."""
    for crate in CRATES:
        shutil.copytree(os.path.join(REPOSITORY, "crates", crate), os.path.join(folder, "crates", crate))
    with open(os.path.join(REPOSITORY, "crates.txt")) as file:
        lines = [line.rstrip() for line in file if line.split(":")[0] in CRATES]
    with open(os.path.join(folder, "crates.txt"), "w") as file:
        file.write("\n".join(lines + [PROGRAM_LINE]) + "\n")
    shutil.copy(os.path.join(REPOSITORY, "HANDLES"), folder)
    program = os.path.join(folder, "crates", "flow")
    os.makedirs(os.path.join(program, "src"))
    with open(os.path.join(program, "src", "main.rt"), "w") as file:
        file.write(PROGRAM)
    run = subprocess.run(["rt", "run"], cwd=program, input="", stdout=subprocess.PIPE, stderr=subprocess.STDOUT, text=True)
    built = os.path.join(program, "out", "flow")
    if not os.path.exists(built):
        sys.exit(run.stdout)
    return built


def measured(built, path):
    """Of three runs the one that took least: the microseconds of all calls and of each, the labels, the edges, those with marks
    and the pairs of Level; and the most MB."""
    rows, peak = [], 0
    for _ in range(3):
        with open(path) as data:
            process = subprocess.Popen([built], stdin=data, stdout=subprocess.PIPE, text=True)
        words = [int(word) for word in process.stdout.read().split()]
        _, status, usage = os.wait4(process.pid, 0)
        if os.waitstatus_to_exitcode(status) != 0 or len(words) != 8:
            sys.exit(f"{built} failed")
        labels, edges, levels, total = words[:4]
        rows.append((total, labels, edges - labels, levels - edges, total - levels, *words[4:]))
        peak = max(peak, usage.ru_maxrss / 1024)
    return min(rows), peak


def main():
    if len(sys.argv) != 2:
        sys.exit(__doc__)
    folder = os.path.abspath(sys.argv[1])
    os.makedirs(folder)
    built = build(folder)
    before = None
    print("places  labels  edges  marked  row of Level  labels s  edges s  level s  origins s   all s  peak MB  growth")
    for families in (3, 6, 12):
        functions, types, points = made(families)
        path = os.path.join(folder, "points")
        with open(path, "w") as file:
            file.write(f"{functions} {len(types)} {' '.join(map(str, types))}\n")
            file.writelines(" ".join(map(str, point)) + "\n" for point in points)
        (total, labels, edges, levels, origins, count, joined, marked, pairs), peak = measured(built, path)
        growth = "" if before is None else f"{total / before:6.2f}"
        print(
            f"{PLACES * families:6} {count:7} {joined:6} {marked / joined:7.2f} {pairs / count:13.1f} {labels / 1e6:9.3f} "
            f"{edges / 1e6:8.3f} {levels / 1e6:8.3f} {origins / 1e6:10.3f} {total / 1e6:7.3f} {peak:8.1f}  {growth}"
        )
        before = total


if __name__ == "__main__":
    main()
