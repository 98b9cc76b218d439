#!/usr/bin/env python3
"""Reads what a project's compile_commands.json says of its C sources, for lsrace-cc.

usage: project.py FOLDER WANTED

WANTED is a file with the names of sources, a line each; where it is empty, each entry's source is taken. For each source it prints
a line of shell words: the source, then its options -I, -isystem, -D, -U and -include. Relative names are those of the entry's
folder, and are told relative to the folder in which this runs where they lie below it. Entries are counted from 1. Where one can't
be read, it is told and nothing is printed.
"""
import json
import os
import shlex
import sys

FOLDERS = ("-I", "-isystem")
OPTIONS = FOLDERS + ("-D", "-U", "-include")
# Options of compilers that take the next word, which is no source and no option of ours.
WITH_WORD = ("-o", "-x", "-MF", "-MT", "-MQ", "-iquote", "-idirafter", "-imacros", "-isysroot", "-Xclang", "-Xlinker", "-T", "-arch")


class Unreadable(Exception):
    pass


def seen(path):
    """A path as it is told: relative to this folder where it lies below it."""
    inner = os.path.relpath(path)
    return path if inner.startswith(os.pardir) else inner


def words_of(entry):
    if "arguments" in entry:
        words = entry["arguments"]
        if not isinstance(words, list) or not all(isinstance(word, str) for word in words):
            raise Unreadable('"arguments" is no list of texts')
        return words
    if "command" not in entry:
        raise Unreadable('neither "arguments" nor "command" is there')
    if not isinstance(entry["command"], str):
        raise Unreadable('"command" is no text')
    try:
        return shlex.split(entry["command"])
    except ValueError as error:
        raise Unreadable(f'"command" can\'t be divided into words: {error}') from error


def options_of(words, folder):
    """The options of a compiler's words that matter here, with paths that hold in any folder."""
    options = []
    words = iter(words[1:])
    for word in words:
        if word.startswith("@"):
            raise Unreadable(f"{word} names a file of options")
        name = next((option for option in OPTIONS if word == option or option != "-include" and word.startswith(option)), None)
        if name is None or word.startswith("-include-pch"):
            if word in WITH_WORD:
                next(words, None)
            continue
        value = word[len(name):] or next(words, None)
        if value is None:
            raise Unreadable(f"{word} is the last word")
        path = os.path.normpath(os.path.join(folder, value))
        if name in FOLDERS:
            if path == "/usr/include":  # compilers search it last in any case; here it would stand before lsrace's headers
                continue
            value = seen(path)
        elif name == "-include" and os.path.exists(path):
            value = seen(path)
        options += [name, value] if name.startswith("-i") else [name + value]
    return options


def source_of(entry):
    """What an entry says: its source and the options of that."""
    if not isinstance(entry, dict):
        raise Unreadable("it is no object")
    for key in ("directory", "file"):
        if not isinstance(entry.get(key), str) or not entry[key]:
            raise Unreadable(f'"{key}" is no text')
    if "\n" in entry["file"]:
        raise Unreadable('"file" has a new line')
    folder = os.path.abspath(entry["directory"])
    options = options_of(words_of(entry), folder)
    if any("\n" in word for word in options):
        raise Unreadable("an option has a new line")
    for word in [entry["file"], folder] + options:
        if "\0" in word or any("\ud800" <= character <= "\udfff" for character in word):
            raise Unreadable("a name or an option has a character that no word may have")
    return os.path.normpath(os.path.join(folder, entry["file"])), options


def entries_of(file):
    try:
        with open(file, encoding="utf-8") as text:
            entries = json.load(text)
    except OSError as error:
        raise Unreadable(f"{file}: {error.strerror}") from error
    except ValueError as error:
        raise Unreadable(f"{file}: this is no JSON: {error}") from error
    if not isinstance(entries, list):
        raise Unreadable(f"{file}: this is no list of entries")
    return entries


def sources_of(file):
    """The options of each source of a project, by its path, in the order of the entries; of several entries the first counts."""
    sources = {}
    for number, entry in enumerate(entries_of(file), 1):
        try:
            path, options = source_of(entry)
        except Unreadable as error:
            raise Unreadable(f"{file}: entry {number}: {error}") from error
        if path in sources:
            print(f"lsrace-cc: {file}: entry {number} has {seen(path)} again, and isn't used", file=sys.stderr)
        sources.setdefault(path, options)
    return sources


def main():
    sys.stdout.reconfigure(encoding="utf-8")
    folder, list_of_wanted = sys.argv[1:]
    file = os.path.join(folder, "compile_commands.json")
    try:
        sources = sources_of(file)
        with open(list_of_wanted, encoding="utf-8", errors="surrogateescape") as text:
            wanted = {os.path.abspath(line): line for line in text.read().splitlines()}
        for path, name in wanted.items():
            if path not in sources:
                raise Unreadable(f"{file}: no entry has {name}")
        if not sources:
            raise Unreadable(f"{file}: there is no entry")
    except Unreadable as error:
        print(f"lsrace-cc: {error}", file=sys.stderr)
        return 2
    for path in wanted or sources:
        print(" ".join(shlex.quote(word) for word in [wanted.get(path, seen(path))] + sources[path]))
    return 0


if __name__ == "__main__":
    sys.exit(main())
