#!/usr/bin/env python3
"""What has to be believed: for each clause of the top call the definitions that it rests on, each with its line.

usage: believe.py [CLAUSE]

It fails where a definition that a reader believes stands on a plain program, a law or a worked example.
"""
import os
import re
import sys
import textwrap

import definitions
from definitions import TOP, read

TOP_CALL = "crates/ksparse/src/top.rt"
FOLDERS = ("plain", "laws", "examples")


def block_end(text, start):
    """Where the braces that open behind here are closed, or the line ends before one opens."""
    depth, at = 0, start
    while at < len(text):
        if text[at] in "{};" and not depth and text[at] != "{":
            return at
        depth += {"{": 1, "}": -1}.get(text[at], 0)
        at += 1
        if text[at - 1] == "}" and not depth:
            return at
    return at


def clauses_of(text):
    """Each clause with a name: its name and its text, and where both stand."""
    for match in re.finditer(r"ensures (\w+) ", text):
        yield match[1], text[match.end() : block_end(text, match.end())], match.start()


def item_in_rust(crate, pattern):
    """The file of a crate's source and the place in it where this is declared."""
    folder = os.path.join(TOP, "crates", crate, "src")
    for at, _, files in sorted(os.walk(folder)):
        for name in sorted(it for it in files if it.endswith(".rt")):
            file = os.path.relpath(os.path.join(at, name), TOP)
            found = re.search(pattern, read(file), re.MULTILINE)
            if found:
                return file, found.start()
    return None


class Closure:
    """The definitions that some text rests on: for each file the names there, with their first and last lines."""

    def __init__(self):
        self.found = {}

    def add(self, file, line, last, name):
        is_new = (line, last, name) not in self.found.setdefault(file, set())
        self.found[file].add((line, last, name))
        return is_new

    def add_text(self, file, start, end, name):
        text = read(file)
        return self.add(file, text.count("\n", 0, start) + 1, text.count("\n", 0, end) + 1, name)

    def reach(self, crate, path, name):
        """A name of another module: a definition, a type that Rust declares, or the end where it is of std."""
        if crate == "std":
            return
        declared = re.match(r"declared\.(?:[\w.]*?\.)?(\w+)(?:\.TheVariants)?$", path)
        if declared:
            wanted = name if declared[1] == "TheConstants" else declared[1]
            self.reach_rust(crate, wanted)
            return
        file = definitions.module_file(crate, path)
        found = definitions.names_of(file).get(name) if os.path.isfile(os.path.join(TOP, file)) else None
        if found:
            self.reach_definition(found)

    def reach_definition(self, definition):
        if self.add(definition.file, definition.line, definition.last, definition.name):
            for chunk in definitions.chunks_of(definition):
                self.follow(chunk, definition.file)

    def reach_rust(self, crate, name):
        """A type or a constant as Rust declares it; of one with a model, what its values are."""
        found = item_in_rust(crate, rf"^pub (?:enum|struct|const) {name}\b")
        if not found:
            return
        file, start = found
        text = read(file)
        is_new = self.add_text(file, start, block_end(text, text.index(name, start)), name)
        model = re.search(rf"^impl.* Model for {name}\b[^{{]*", text, re.MULTILINE)
        if is_new and model:
            end = block_end(text, model.end())
            self.add_text(file, model.start(), end, f"Model of {name}")
            self.follow(re.sub(r"^ *ghost use.*$", "", text[model.end() : end], flags=re.MULTILINE), file)

    def reach_ghost(self, crate, trait, member):
        """A ghost member of a trait, and the clauses of the trait's functions that say what becomes of it."""
        found = item_in_rust(crate, rf"^pub trait {trait}\b")
        if not found:
            return
        file, start = found
        text = read(file)
        body = text[start : block_end(text, start)]
        told = re.search(rf"ghost {member}: ", body)
        if not told:
            return
        end = block_end(body, told.end())
        if not self.add_text(file, start + told.start(), start + end, f"ghost {member} of {trait}"):
            return
        self.follow(body[told.end() : end], file)
        for name, clause, at in clauses_of(body):
            if re.search(rf"\b{member} ", clause):
                self.add_text(file, start + at, start + at + clause.count("\n"), f"{name}, which tells {member}")
                self.follow(clause, file)

    def follow(self, text, file):
        """Each name of a text that stands in this file."""
        names, aliases = definitions.uses_of(read(file))
        for word in definitions.words_of(re.sub(r'"[^"]*"', "", text)):
            first, _, later = word.partition(".")
            if file.endswith(".antt") and first in definitions.names_of(file):
                self.reach_definition(definitions.names_of(file)[first])
            elif first in names:
                self.reach(*names[first], first)
            elif first in aliases and later:
                self.reach(*aliases[first], later.split(".")[0])
            elif file.endswith(".rt") and first != "Self":
                self.reach_rust(file.split("/")[1], first)


def crate_of_use(text, name):
    """The crate from which Rust takes a type: its own, or another by `use`."""
    for crate, listed in re.findall(r"^use (\w+)::(?:\w+::)*(\{[^}]*\}|\w+);", text, re.MULTILINE):
        if re.search(rf"\b{name}\b", listed):
            return "ksparse" if crate == "crate" else crate
    return "ksparse"


def closures():
    """The closure of each clause of the top call."""
    text = read(TOP_CALL)
    head = text[text.index("pub fn ksparse<") :]
    traits = dict(re.findall(r"(\w+): (\w+)[,>]", head.split("(", 1)[0]))
    types = dict(re.findall(r"^    (\w+): (?:&(?:mut )?)?(\w+),", head, re.MULTILINE))
    types["result"] = re.search(r"-> (\w+)", head)[1]
    for name, clause, _ in clauses_of(head):
        closure = Closure()
        for word in re.findall(r"[A-Za-z_][\w.]*", clause):
            first, _, later = word.partition(".")
            if first in traits:
                closure.reach_ghost(crate_of_use(text, traits[first]), traits[first], later)
            elif first in types and types[first] not in traits:
                closure.reach_rust(crate_of_use(text, types[first]), types[first])
            elif first == types["result"]:
                closure.reach_rust("ksparse", first)
        closure.follow(clause, TOP_CALL)
        yield name, closure.found


def show(name, found):
    known = sorted((file, sorted(names)) for file, names in found.items())
    lines = {(file, line) for file, names in known for first, last, _ in names for line in range(first, last + 1)}
    print(f"{name}: {sum(len(names) for _, names in known)} definitions, {len(lines)} lines, {len(known)} files")
    for file, names in known:
        told = ", ".join(f"{line} {it}" for line, _, it in names)
        print(textwrap.fill(f"{file.removeprefix('crates/')}: {told}", 118, initial_indent="  ", subsequent_indent="      "))


def refused_imports():
    """The lines of what is believed that take a name from what isn't."""
    for file in definitions.modules():
        if re.fullmatch(r"crates/meaning_\w+/specs/\w+\.antt", file):
            for number, line in enumerate(read(file).split("\n"), 1):
                if re.search(rf"use Rattle\.\w+\.specs\.({'|'.join(FOLDERS)})\b", line):
                    yield f"{file}:{number}: what is believed stands on {line.strip()}"


def main():
    wanted, findings, whole = sys.argv[1:2], list(refused_imports()), {}
    for name, found in closures():
        if not wanted or name in wanted:
            show(name, found)
        for file, names in found.items():
            whole.setdefault(file, set()).update(names)
            if re.search(rf"/specs/({'|'.join(FOLDERS)})/", file):
                findings.append(f"{name} rests on {file}: {', '.join(sorted(it for _, _, it in names))}")
    if not wanted:
        show("all clauses", whole)
    print(*findings, sep="\n", end="\n" if findings else "")
    print(f"believe: {len(findings)} findings")
    return 1 if findings else 0


if __name__ == "__main__":
    sys.exit(main())
