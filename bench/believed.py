#!/usr/bin/env python3
"""Says which definitions the clauses of `run` (crates/lk_top/src/top.rt) rest on, so which a reader has to believe.

usage: bench/believed.py [--files | --left | --names PASS | --why NAME]

It begins with the names in the clauses of `run`, and with what its type names (the traits Shelf and Sink, Status), and follows
names through definitions, records and families of data of specs/, through imports and their aliases, and from
`specs.declared` to the types of Rust that stand there: the types of their fields, or what a contract sees in their stead
(`Model`). A name of std or of another crate of the kit is not followed. A bound variable with the name of a definition counts
as that, so a few more are counted than there need be, and none is missed.

Three kinds of definitions come of it. Those of *soundness* are reached from the clause `reports` without the fields that only
strengthen it, and the constructors of other outcomes (STRENGTHENS): from what says that no run races elsewhere, and not from
what says that the report is exact. The *others* are reached from all clauses as they stand. What is *left* serves contracts
of private calls, laws and proofs alone.

Without an option it prints, by pass, how many definitions there are of each kind, and their lines with the comments on them
(of Rust: the types' own). `--files` lists the files of specs/ with what is reached of each, `--left` those of which nothing is
reached and the definitions that aren't in the others, `--names PASS` the definitions of a pass in the order of their files,
`--why NAME` the way from the clauses to a definition.
"""

import argparse
import glob
import os
import re
import sys

ROOT = os.path.dirname(os.path.dirname(os.path.abspath(__file__)))
MARK = r"(?:(?:pub|abbrev|unfoldable|record|data) )"
START = re.compile(rf"^( *)({MARK}*)([^\s(){{}}:,;.]+)((?: [({{].*?)?) :(?: |$)")
HOLDER = re.compile(rf"^( *)({MARK}*(?:record|data) )({MARK}*)([^\s(){{}}:,;.]+)")
NEST = re.compile(r"^( *)(module _ .*|(?:(?:abbrev|unfoldable) )*mutual)$")
# Fields, constructors of other outcomes, and what is told of other commands, that a reader may leave out of `reports` and
# still has the promise that no run of the program that the sources make comes to a race at a location which the report of
# `check` doesn't call suspect.
STRENGTHENS = {
    "lk_top Analysis IsAnalysed": {"few_points", "few_labels", "verdicts_are", "races_found"},
    "lk_top Analysis ArePointsOf": {"lowered", "in_range", "table"},
    "lk_top Outcome ComesTo": {"no_command"},
    "lk_top Outcome Follows": {"missing", "too_long"},
    "lk_top Outcome Becomes": {"bad_externs", "no_errand"},
    "lk_top Outcome IsFor": {"refused"},
    "lk_top Outcome IsErrand": {"PlaysBy"},
    "lk_top Results IsAnswered": {"IsOrdered", "IsPlayed"},
    "lk_sources Accepting AreAccepted": {"supported", "faultless"},
}
SOUND = ("reports",)
TYPED_TREE = """TypedUnits Elaborated Operands LibraryCalls Entities Locals Structs Tables Initialised LocalInits StaticInits Absent
TypedStatements""".split()
ANALYSIS = """Analysis Basis Doing EdgeRules Facts Flow Held Items LabelRules Labels Lists LockSets Many Marks Origins PathRules
PathTables Paths Racing Reach Verdicts Walks Effects""".split()
PASSES = {
    "words and files": "lk_words lk_io lk_sources lk_base",
    "tokens": "lk_lex",
    "trees": "lk_tree lk_scopes lk_ordinals lk_boxes lk_parse_expr lk_parse_decl lk_parse_unit",
    "types, arithmetic": "lk_types lk_arith",
    "faults": "lk_typed lk_names lk_rules lk_nodes lk_spots lk_check_expr lk_check_decl lk_labels lk_found lk_checker lk_check_walk "
    "lk_predeclared lk_check_unit",
    "typed trees": "lk_elaborator lk_elab_expr lk_elab_init lk_elaborate",
    "one program": "lk_link lk_join lk_program",
    "points": "lk_lower_expr lk_lower_stmt lk_lower_unit lk_lower_parts lk_point_types lk_point_ways lk_point_statics lk_point_spots lk_facts",
    "analysis": "lk_label lk_flow lk_match lk_origin lk_graph lk_links lk_held lk_above lk_rise lk_items lk_conflict lk_verdicts lk_solve "
    "lk_laws lk_sets lk_order",
    "runs": "lk_values lk_cells lk_birth lk_decide lk_change lk_meaning lk_right lk_sound lk_trails lk_safe lk_circles lk_play "
    "lk_witness lk_confirm",
    "report": "lk_report lk_top",
}
PASS_OF = {crate: name for name, crates in PASSES.items() for crate in crates.split()}


def text_of(path):
    with open(path, encoding="utf-8") as it:
        return it.read()


def tokens_of(text):
    """Returns the words of a definition's text, without comments and texts; `a.b` is one word."""
    text = re.sub(r'"[^"\n]*"', " ", re.sub(r"(?m)(^|\s)--( .*|)$", " ", text))
    return re.findall(r"[^\s(){}\[\],;]+", text)


class Definition:
    """A definition of specs/, or a type or trait of Rust."""

    def __init__(self, file, name, first):
        self.file, self.name, self.first, self.lines, self.body, self.inner, self.fields = file, name, first, 0, "", set(), []

    def where(self):
        return f"{self.file.crate} {self.file.label}"


class File:
    def __init__(self, crate, label):
        self.crate, self.label, self.defs, self.imports, self.aliases, self.opened = crate, label, {}, {}, {}, {}

    def find(self, name):
        if name in self.defs:
            return self.defs[name]
        return next((it for it in self.defs.values() if name in it.inner), None)

    def pass_(self):
        if self.crate == "lk_typed" and (self.label.split("/")[-1] in TYPED_TREE or self.label in ("src/unit", "src/entity", "src/expression", "src/statement", "src/initialiser", "src/library")):
            return "typed trees"
        if self.crate == "lk_typed" and self.label == "src/whole":
            return "one program"
        if self.crate == "lk_facts" and self.label.split("/")[-1] in ANALYSIS:
            return "analysis"
        return PASS_OF.get(self.crate, self.crate)


IMPORT = re.compile(r"(?:pub |ghost )*use ((?:Rattle|std|crate|[a-z]\w*)[\w.:'+-]*?)(?:\.\{([^}]*)\}| as (\S+?))?;?$")


def read_imports(file, text):
    for line in text.split("\n"):
        found = IMPORT.match(line.strip())
        if not found or "Rattle." not in line:
            continue
        path, names, alias = found.groups()
        if names is not None:
            for name in names.split(", "):
                name, _, as_ = name.strip().partition(" as ")
                file.imports[as_ or name] = (path, name)
        elif alias:
            file.aliases[alias] = path


def read_specs(crate, path, at):
    """Reads a file of specs/: its imports, and its definitions with the text of each."""
    file, text = File(crate, os.path.splitext(os.path.relpath(path, at))[0]), text_of(path)
    read_imports(file, text)
    heads, now, note, depths = [], None, [], [0]
    for number, line in enumerate(text.split("\n"), 1):
        bare, depth = line.strip(), len(line) - len(line.lstrip())
        if not bare:
            note = []
            continue
        if bare.startswith("--"):
            note.append(number)
            if now and depth > now.depth:
                now.body += line + "\n"
                now.count += 1
                note = []
            continue
        while len(depths) > 1 and depth < depths[-1]:
            depths.pop()
            heads and heads.pop()
        nest = NEST.match(line)
        if nest and depth == depths[-1]:
            depths.append(depth + 2)
            heads.append(bare)
            now, note = None, []
            continue
        if bare.startswith("use ") or bare.startswith("pub use "):
            now, note = None, []
            continue
        holder, start = HOLDER.match(line), START.match(line)
        name = holder.group(4) if holder else start.group(3) if start and ("pub" in start.group(2) or "abbrev" in start.group(2) or "unfoldable" in start.group(2) or not start.group(4)) else None
        if name and depth == depths[-1] and name not in ("use", "module", "infix"):
            if name in file.defs:
                now = file.defs[name]
            else:
                now = Definition(file, name, number)
                now.depth, now.count, now.is_holder = depth, len(note), bool(holder)
                holder_marks = holder.group(2) if holder else ""
                now.body = "\n".join(heads) + "\n"
                file.defs[name] = now
                note_lines = [text.split("\n")[n - 1] for n in note]
                now.note = " ".join(it.strip().lstrip("- ").strip() for it in note_lines)
            note = []
        if now is None and len(depths) > 1 and depth > depths[-1]:
            # (the head of a module goes on)
            heads[-1] += " " + bare
        if now:
            now.body += line + "\n"
            now.count += 1 + len(note)
            note = []
            inner = now.is_holder and depth > now.depth and re.match(rf"^ *(?:pub )?([^\s(){{}}:,;.]+) :", line)
            if inner and depth == now.depth + 2:
                # (a constructor means its family; a field's name alone means no record)
                if "data" in holder_marks:
                    now.inner.add(inner.group(1))
                now.fields.append([inner.group(1), line + "\n"])
            elif now.fields and depth > now.depth:
                now.fields[-1][1] += line + "\n"
    for it in file.defs.values():
        it.lines = it.count
    return file


RUST = re.compile(r"(?m)^((?:\s*///[^\n]*\n|#\[[^\n]*\n)*)(?:pub(?:\(\w+\))? )?(struct|enum|trait|type) (\w+)([^\n]*(?:\n(?!\}|pub |impl |fn )[^\n]*)*\n?\}?)")


def read_types(crate, path, at):
    """Reads the types and traits of a file of src/: what their fields name, or what a contract sees in their stead."""
    file, text = File(crate, "src/" + os.path.splitext(os.path.relpath(path, at))[0]), text_of(path)
    read_imports(file, text)
    for found in re.finditer(r"(?m)^(?:pub )?use ((?:crate|lk_\w+)[\w:]*)::(?:\{([^}]*)\}|(\w+));", text):
        path_, names, one = found.groups()
        owner = crate if path_.startswith("crate") else path_.split("::")[0]
        for name in re.findall(r"\w+", names or one):
            file.opened[name] = owner
    for found in RUST.finditer(text):
        notes, kind, name, body = found.groups()
        it = Definition(file, name, text[: found.start()].count("\n") + 1)
        it.kind, it.note = kind, " ".join(x.strip().lstrip("/").strip() for x in notes.split("\n") if "///" in x)
        model = re.search(rf"(?ms)^impl(?:<[^>]*>)? Model for {name}\b.*?^}}", text)
        it.body = re.sub(r"(?m)^\s*///.*$", "", model.group(0) if model else body)
        if model:
            inner = File(crate, file.label)
            read_imports(inner, model.group(0))
            file.imports.update(inner.imports)
            it.body = "\n".join(x for x in it.body.split("\n") if "ghost use" not in x)
        it.lines = found.group(0).rstrip().count("\n") + 1
        file.defs[name] = it
    return file


class Repository:
    def __init__(self):
        self.specs, self.types, self.unknown = {}, {}, set()
        for at in sorted(glob.glob(f"{ROOT}/crates/*/specs")):
            crate = at.split("/")[-2]
            for path in sorted(glob.glob(f"{at}/**/*.antt", recursive=True)):
                file = read_specs(crate, path, at)
                self.specs[f"{crate}.{file.label.replace('/', '.')}"] = file
        for at in sorted(glob.glob(f"{ROOT}/crates/*/src")):
            crate = at.split("/")[-2]
            for path in sorted(glob.glob(f"{at}/**/*.rt", recursive=True)):
                for name, it in read_types(crate, path, at).defs.items():
                    self.types.setdefault((crate, name), it)

    def at_path(self, path, name):
        """Returns the definition that an imported path and a name stand for, or nothing where it isn't this repository's."""
        parts = path.split(".")
        if len(parts) < 3 or not parts[1].startswith("lk_"):
            return None
        crate, rest = parts[1], parts[2:]
        if rest[0] == "specs" and rest[1:2] and rest[1] in ("declared", "contracts", "formers"):
            names = [it for it in rest[2:] + [name] if it]
            return next((self.types[crate, it] for it in names if (crate, it) in self.types), None)
        if rest[0] != "specs":
            return None
        rest = rest[1:]
        for cut in range(len(rest), 0, -1):
            file = self.specs.get(f"{crate}.{'.'.join(rest[:cut])}")
            if file:
                for it in [*rest[cut:], name][::-1]:
                    found = it and file.find(it)
                    if found:
                        return found
                # (a file may hand on what it imports)
                if name in file.imports:
                    return self.at_path(*file.imports[name])
        return None

    def named(self, file, word):
        """Returns the definitions for which a word of a file stands."""
        for start in (word, word.rstrip(".")):
            if start in file.defs:
                return [file.defs[start]]
            if start in file.imports:
                found = self.at_path(*file.imports[start])
                return [found] if found else []
            if start in file.opened:
                found = self.types.get((file.opened[start], start))
                return [found] if found else []
        head, _, rest = word.partition(".")
        if rest and head in file.aliases:
            found = self.at_path(file.aliases[head], rest.split(".")[0])
            return [found] if found else []
        inner = [it for it in file.defs.values() if word in it.inner]
        found = inner[:1]
        # an operator `◌when◌` is used as `a when b`
        found += [it for name, it in file.defs.items() if "◌" in name and word in re.split("◌", name)]
        for name, (path, first) in file.imports.items():
            if "◌" in name and word in [it for it in re.split("◌", name) if it]:
                it = self.at_path(path, first)
                found += [it] if it else []
        return found

    def check(self):
        """Tells which imports of this repository's names lead to nothing that was read: none should."""
        for file in self.specs.values():
            for name, (path, first) in file.imports.items():
                is_own = path.startswith("Rattle.lk_") and ".specs." in path and ".contracts." not in path
                if is_own and self.at_path(path, first) is None:
                    print(f"{file.crate} {file.label}: {path} {first} isn't found", file=sys.stderr)

    def uses(self, definition, leave):
        body = definition.body
        left = leave.get(f"{definition.where()} {definition.name}", ())
        for name, text in definition.fields:
            if name in left:
                body = body.replace(text, "")
        found = []
        for word in tokens_of(body):
            for it in self.named(definition.file, word) if word not in left else []:
                if it is not definition and it not in found:
                    found.append(it)
        return found

    def reach(self, starts, leave):
        """Returns what is reached from these definitions, each with the one that led to it."""
        came, ahead = {it: None for it in starts}, list(starts)
        while ahead:
            now = ahead.pop(0)
            for it in self.uses(now, leave):
                if it not in came:
                    came[it] = now
                    ahead.append(it)
        return came


def clauses_of_run(repository):
    """Returns the definitions that each clause of `run` names, and those that its type names."""
    path = f"{ROOT}/crates/lk_top/src/top.rt"
    text = text_of(path)
    file = read_types("lk_top", path, os.path.dirname(path))
    head = text[text.index("pub fn run<") :]
    head = head[: head.index("\n{\n")]
    clauses, now = {}, None
    for line in head.split("\n"):
        found = re.match(r"    ensures (\w+) \{(.*)", line)
        if found:
            now = found.group(1)
            clauses[now] = found.group(2)
        elif now and not line.strip().startswith("//"):
            clauses[now] += "\n" + line
    named = {name: [it for word in tokens_of(clause) for it in repository.named(file, word)] for name, clause in clauses.items()}
    typed = [it for word in ("Shelf", "Sink", "Status") for it in repository.named(file, word)]
    return named, typed


def counted(repository, sound, all_):
    """Returns by pass, and in all, how many definitions and lines there are of each kind, and of types of Rust."""
    rows = {name: [0] * 10 for name in PASSES}
    for file in repository.specs.values():
        row = rows.setdefault(file.pass_(), [0] * 10)
        for it in file.defs.values():
            kind = 0 if it in sound else 1 if it in all_ else 2
            row[2 * kind] += 1
            row[2 * kind + 1] += it.lines
    for it in repository.types.values():
        row = rows.setdefault(it.file.pass_(), [0] * 10)
        if it in all_:
            row[6 if it in sound else 8] += 1
            row[7 if it in sound else 9] += it.lines
    rows["all"] = [sum(column) for column in zip(*rows.values())]
    return rows


def main():
    parser = argparse.ArgumentParser(description=__doc__, formatter_class=argparse.RawDescriptionHelpFormatter)
    parser.add_argument("--files", action="store_true")
    parser.add_argument("--left", action="store_true")
    parser.add_argument("--names", metavar="PASS")
    parser.add_argument("--why", metavar="NAME")
    given = parser.parse_args()
    repository = Repository()
    repository.check()
    named, typed = clauses_of_run(repository)
    all_ = repository.reach([*typed, *[it for its in named.values() for it in its]], {})
    sound = repository.reach([*typed, *[it for name in SOUND for it in named[name]]], STRENGTHENS)
    if given.why:
        for it in all_:
            if it.name == given.why:
                way = [it]
                while all_[way[-1]]:
                    way.append(all_[way[-1]])
                print(" <- ".join(f"{x.where()} {x.name}" for x in way))
        return
    if given.names:
        for it in all_:
            if it.file.pass_() == given.names:
                print(f"{it.where()} {it.name}{'' if it in sound else ' *'}")
        return
    if given.files or given.left:
        for file in sorted(repository.specs.values(), key=lambda it: (list(PASSES).index(it.pass_()) if it.pass_() in PASSES else 99, it.crate, it.label)):
            if not file.defs:
                continue
            of = [it for it in file.defs.values() if it in all_]
            first = [it for it in of if it in sound]
            rest = [it.name for it in file.defs.values() if it not in all_]
            if given.files:
                print(f"{file.pass_():18} {file.crate} {file.label}: {len(first)} + {len(of) - len(first)} of {len(file.defs)}")
            elif not of:
                print(f"{file.crate} {file.label}: nothing of {len(file.defs)}, {sum(it.lines for it in file.defs.values())} lines")
            elif rest:
                print(f"{file.crate} {file.label}: not {' '.join(rest)}")
        return
    rows = counted(repository, sound, all_)
    print(f"{'':18}{'soundness':>14}{'other clauses':>16}{'left':>14}{'types of Rust':>20}")
    print(f"{'definitions, lines':18}{'':14}{'':16}{'':14}{'sound, other':>20}")
    for name, row in rows.items():
        if any(row):
            rust = f"{row[6]} {row[7]}, {row[8]} {row[9]}"
            print(f"{name:18}{row[0]:7}{row[1]:7}{row[2]:9}{row[3]:7}{row[4]:7}{row[5]:7}{rust:>20}")
    total, last = rows["all"], rows["all"][0] + rows["all"][2]
    print(f"\n{last} of {last + total[4]} definitions are reached from the clauses of run, {total[1] + total[3]} of {total[1] + total[3] + total[5]} lines,")
    print(f"and {total[6] + total[8]} types of Rust with {total[7] + total[9]} lines. Soundness rests on {total[0]} of them, {total[1]} lines.")
    files = [it for it in repository.specs.values() if it.defs]
    print(f"Of {len(files)} files of definitions {sum(not any(d in all_ for d in it.defs.values()) for it in files)} serve proofs, laws or private calls alone.")


if __name__ == "__main__":
    main()
