#!/usr/bin/env python3
"""Checks that what the documents name stands where they say.

usage: bench/index.py [WORD]

With a word it prints, for the rows of the index that begin with something that has it, each place as a file with the line.
Else it checks:

- The index of docs/ARCHITECTURE.md. The head of a column says what its cells name (a definition, a function, a proof, a wrong
  body) and, in parentheses, the crate of those that name none. A cell is a list of places, `CRATE/FILE NAME ..`, with a
  crate's lk_ left out: of a definition FILE.antt in specs/, of a function FILE.rt in src/, of a proof FILE.antt in proofs/.
  Each must be there and define each name. A wrong body is the name of a file in must-fail/, which one crate has alone.
- The index has a row for each code of a refusal, each action and each function of the library.
- crates/CRATE/README.md: each crate has one, of 60 lines at most, which names just the wrong bodies that are kept there. Each
  name in backquotes is one that a source or a definition has, and each file of specs/ and proofs/ is there.
- Lines have at most 110 columns, and docs/ARCHITECTURE.md at most 250 lines.

It prints what isn't so, and ends with 1 where there is something.
"""

import glob
import os
import re
import sys

ROOT = os.path.dirname(os.path.dirname(os.path.abspath(__file__)))
INDEX = "docs/ARCHITECTURE.md"
MARKS = r"(?:(?:pub|abbrev|unfoldable|record|data) )+"
WIDTH, LONGEST_INDEX, LONGEST_PAGE = 110, 250, 60
# docs/ that hold no table of whole lines: these keep to the width
NARROW = ["ARCHITECTURE", "BELIEVE", "PROVED", "RULES", "DECISIONS"]


def text_of(path):
    with open(f"{ROOT}/{path}", encoding="utf-8") as it:
        return it.read()


def is_file(path):
    return os.path.isfile(f"{ROOT}/{path}")


def crate_named(name):
    """Returns the folder of a crate, by its name or by that without lk_."""
    found = [it for it in (f"lk_{name}", name) if os.path.isdir(f"{ROOT}/crates/{it}")]
    return found[0] if found else None


def defines(text, kind, name):
    """Tells whether a file of this kind has the name as one that it defines."""
    name = re.escape(name)
    if kind == "function":
        return re.search(rf"\b(?:fn|const|enum|struct|trait|static) {name}\b", text)
    return re.search(rf"(?m)^\s*(?:{MARKS})?{name}(?: [^:=\n]*)? :", text)


KINDS = {"definition": ("specs", "antt"), "function": ("src", "rt"), "proof": ("proofs", "antt")}


def file_of(kind, given, at):
    """Returns the file or folder that a place names: in the crate that it names, or below the folder of the given one."""
    folder, end = KINDS[kind]
    inside, crate = [given] * bool(given), at.split("/")[0]
    tries = [(it, at) for it in inside] + [(crate, at[len(crate) + 1 :])] * ("/" in at)
    for crate, file in tries:
        path = f"crates/{crate_named(crate)}/{folder}/{file}"
        # (what proves one function alone stands in a folder of its name)
        if is_file(f"{path}.{end}") or kind == "proof" and os.path.isdir(f"{ROOT}/{path}"):
            return f"{path}.{end}" if is_file(f"{path}.{end}") else path
    return None


def place_faults(kind, given, place):
    """Returns what is wrong with a place of the index."""
    at, *names = place.split()
    path = file_of(kind, given, at)
    if path is None:
        return [f"there is no {at}"]
    if not names:
        return []
    if not is_file(path):
        return [f"{path} is a folder, and has no names"]
    text = text_of(path)
    return [f"{path} has no {it}" for it in names if not defines(text, kind, it)]


def wrong_body_faults(name):
    """Returns what is wrong with the name of a wrong body."""
    crate, _, name = name.rpartition("/")
    folder = crate_named(crate) if crate else "*"
    found = glob.glob(f"{ROOT}/crates/{folder}/must-fail/{name}.*")
    return [] if len(found) == 1 else [f"{len(found)} wrong bodies are named {name}"]


def cells_of(line):
    # (a `\|` is no border)
    return [it.strip().replace("\\|", "|") for it in re.split(r"(?<!\\)\|", line.strip())[1:-1]]


def rows_of(text):
    """Returns the rows of the index: the kinds of its columns with their crates, the cells, and the number of the line."""
    rows, head, is_index = [], None, False
    for number, line in enumerate(text.split("\n"), 1):
        if line.startswith("## "):
            is_index = line.startswith("## Index")
        if not is_index or not line.startswith("|"):
            head = None
        elif head is None:
            head = [re.fullmatch(r"(.*?)(?: \((\w+)\))?", it).groups() for it in cells_of(line)]
        elif not set(line) <= set("|-: "):
            rows.append((head, cells_of(line), number))
    return rows


def show(word):
    """Prints where the places stand of the rows that are named so."""
    for head, cells, _ in rows_of(text_of(INDEX)):
        if word.lower() not in cells[0].lower():
            continue
        print(cells[0])
        for (title, crate), cell in zip(head[1:], cells[1:]):
            kind = kind_of(title)
            for place in [it.strip() for it in re.split("[;,]", cell.replace("`", "")) if it.strip()]:
                if kind == "wrong":
                    print(f"  {kind:11}", *[os.path.relpath(it, ROOT) for it in glob.glob(f"{ROOT}/crates/*/must-fail/{place.split('/')[-1]}.*")])
                    continue
                at, *names = place.split()
                path = file_of(kind, crate, at)
                lines = [1] if not names else []
                for name in names:
                    found = defines(text_of(path), kind, name)
                    lines += [text_of(path)[: found.end()].count("\n") + 1] if found else []
                print(f"  {kind:11}", *[f"{path}:{it}" if names else path for it in lines])


def kind_of(title):
    title = title.lower()
    for kind in ("definition", "function", "proof", "wrong"):
        if kind in title:
            return kind
    return None


def index_faults(text):
    faults, firsts = [], []
    for head, cells, number in rows_of(text):
        at = f"{INDEX}:{number}"
        firsts.append(cells[0])
        if len(cells) != len(head):
            faults.append(f"{at}: {len(cells)} cells, and not {len(head)}")
            continue
        for (title, crate), cell in zip(head[1:], cells[1:]):
            kind = kind_of(title)
            for place in [it.strip() for it in re.split("[;,]", cell.replace("`", "")) if it.strip()]:
                found = wrong_body_faults(place) if kind == "wrong" else place_faults(kind, crate, place) if kind else []
                faults += [f"{at}: {it}" for it in found]
    return faults, firsts


def missing_rows(firsts):
    """Returns the codes, actions and functions of the library of which the index has no row."""
    words = set(re.findall(r"[\w]+", " ".join(firsts)))
    codes = re.findall(r'= entry (\d+) \(codes "(\w+)"\)', text_of("crates/lk_base/specs/Code.antt"))
    action = text_of("crates/lk_facts/src/action.rt").split("pub enum Action {")[1].split("\n}")[0]
    actions = re.findall(r"(?m)^    (\w+)(?: \{|\(|,)", action)
    library = re.findall(r'codes "(\w+)"', text_of("crates/lk_typed/specs/Library.antt").split("library =")[1].split("∷ []")[0])
    library += re.findall(r'(?:row|name =) \(?codes "(\w+)"', text_of("crates/lk_typed/specs/Library.antt"))
    wanted = [(f"code {a} {b}", a) for a, b in codes] + [(f"code {a} {b}", b) for a, b in codes]
    wanted += [(f"action {it}", it) for it in actions] + [(f"library function {it}", it) for it in library]
    return sorted({f"{INDEX}: no row for the {name}" for name, word in wanted if word not in words})


def known_words():
    """Returns all words of sources, definitions, proofs, scripts and names of files."""
    words = set()
    for at, folders, names in os.walk(ROOT):
        folders[:] = [it for it in folders if it not in (".git", "out")]
        for name in [*names, *folders]:
            words |= set(re.split(r"\W+", name))
        for name in names:
            if name.endswith((".rt", ".antt", ".py")):
                with open(f"{at}/{name}", encoding="utf-8") as it:
                    text = it.read()
                words |= set(re.findall(r"\w+", text))
    return words


def page_faults(crate, words):
    path = f"crates/{crate}/README.md"
    if not is_file(path):
        return [f"{path} isn't there"]
    text, faults = text_of(path), []
    if text.count("\n") > LONGEST_PAGE:
        faults.append(f"{path}: more than {LONGEST_PAGE} lines")
    flat = " ".join(text.split())
    kept = {os.path.splitext(it)[0] for it in os.listdir(f"{ROOT}/crates/{crate}/must-fail")} if os.path.isdir(f"{ROOT}/crates/{crate}/must-fail") else set()
    named = re.findall(r"Wrong bod(?:y|ies), which [^:]*: ((?:`\w+`(?:, |\.))+)", flat)
    listed = set(re.findall(r"`(\w+)`", " ".join(named)))
    faults += [f"{path}: wrong bodies: {it}" for it in sorted(kept ^ listed)]
    for quoted in re.findall(r"`([^`]+)`", text):
        # (a call of a program is no name)
        if not re.match(r"(bench|docs|rt|gcc)\b", quoted):
            faults += [f"{path}: no {it}" for it in re.findall(r"[A-Za-z_]\w*", quoted) if it not in words]
    places = re.findall(r"(?<![`\w/])(?:(lk_\w+) )?(specs|proofs)/([A-Z+][\w+/]*(?:, [A-Z]\w*(?= *[,;:.)]))*)", flat)
    for other, part, files in places:
        for file in files.split(", "):
            at = f"crates/{other or crate}/{part}/{file}"
            if not (is_file(f"{at}.antt") or os.path.isdir(f"{ROOT}/{at}")):
                # (of lk_facts, say, where the sentence names that crate)
                if not glob.glob(f"{ROOT}/crates/*/{part}/{file}.antt"):
                    faults.append(f"{path}: no {at}")
    return faults


def width_faults(path):
    lines = text_of(path).split("\n")
    return [f"{path}:{n}: {len(it)} columns" for n, it in enumerate(lines, 1) if len(it) > WIDTH]


def main():
    if len(sys.argv) > 1:
        show(sys.argv[1])
        return
    text, words = text_of(INDEX), known_words()
    faults, firsts = index_faults(text)
    faults += missing_rows(firsts)
    if text.count("\n") > LONGEST_INDEX:
        faults.append(f"{INDEX}: more than {LONGEST_INDEX} lines")
    crates = sorted(os.listdir(f"{ROOT}/crates"))
    for crate in crates:
        faults += page_faults(crate, words)
    pages = [f"docs/{it}.md" for it in NARROW] + [f"crates/{it}/README.md" for it in crates]
    for path in filter(is_file, pages):
        faults += width_faults(path)
    for it in faults:
        print(it)
    print(f"{len(firsts)} rows of the index, {len(crates)} pages of crates: {len(faults)} faults")
    sys.exit(bool(faults))


if __name__ == "__main__":
    main()
