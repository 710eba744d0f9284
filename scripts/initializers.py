#!/usr/bin/env python3
"""Random initializers: the leaves that the reader of the rules finds, beside the memory that gcc makes of them; and which initializers
are refused, beside what gcc and JUDGED refuse.

usage: initializers.py JUDGED [COUNT [SEED]]

Without COUNT the initializers are always the same ones. A program is built in which each object is initialized, static and in a body,
and another one gets the values of the leaves one by one: both have to be the same, with zeros elsewhere. Where JUDGED isn't there its
answers aren't compared, as a line says. Left out is what `docs/DECISIONS.md` names: parts that are initialized twice, two members of
one union, `{}` for a scalar, and an address that becomes a narrow integer.
"""
import os
import random
import shutil
import subprocess
import sys
import tempfile
from typing import NamedTuple

from made_initializers import Aggregate, Array, Initializers, declared
from reference import judging, types
from reference.initializers import Filling
from reference.preprocessing import Unit

COMPILER = "gcc"
COUNT, SEED = 1000, 2011
# Objects whose addresses are values, and what isn't constant
OBJECTS = "".join(f"static char g{number} [ 8 ] ; " for number in range(4)) + "extern int i , * p ; int one ( int ) ; void none ( void ) ;\n"
NUMBERS = ["0", "1", "7", "100", "- 1", "- 90", "'a'", "3 + 4", "sizeof ( int )", "~ 0", "1 ? 5 : 6", "65535"]
ADDRESSES = ["0", "g0", "g1", "g2", "g3", "( g1 )"]
NOT_CONSTANT = ["i", "p", "i + 1", "one ( 1 )", "* p", "& p [ 1 ]", "p + 1", "i ? 1 : 2"]
# What gcc warns of, and is an error here
EXCESS = ("excess elements", "is too long")
# The bytes below which an address doesn't fit
ADDRESS_BYTES = 8
FLAGS = ["-std=gnu11", "-fsyntax-only"]


class Kept(Filling):
    """What an initializer fills, with what the comparison leaves out."""

    def __init__(self, values):
        super().__init__(values)
        # The paths of the parts that took an item, braces too, in order; whether a scalar has empty braces
        self.taken, self.has_empty_scalar = [], False
        self.completed = None

    def object(self, of, node):
        self.completed = super().object(of, node)
        return self.completed

    def receives(self, of, path, node, moved):
        before = len(self.taken)
        super().receives(of, path, node, moved)
        # a scalar or a string in braces is for the same part
        self.taken[before:] = [path, *(each for each in self.taken[before:] if each != path)]

    def braces(self, of, path, items):
        self.has_empty_scalar |= of.is_scalar() and not items.are_left()
        super().braces(of, path, items)


class Planning(judging.Judge):
    """Keeps what the last initializer fills."""

    def filling(self, values):
        self.last = Kept(values)
        return self.last


class Object(NamedTuple):
    """The text of a static object with its initializer, and what the reader makes of it: a plan, or None where it is refused."""

    of: object
    initializer: str
    plan: Kept | None
    known: dict

    def text(self, name, storage="static "):
        return f"{storage}{declared(self.of, name)} = {self.initializer} ;"


def read(of, initializer):
    """The object as the reader sees it."""
    unit = Unit({b"t.c": (OBJECTS + Object(of, initializer, None, {}).text("t") + "\n").encode()})
    unit.preprocess(b"t.c")
    judge = Planning()
    found = judge.unit(judging.Indexed(unit.tokens).unit())
    spelled = {leaf.node.at: unit.tokens[leaf.node.at].spelled.decode() for leaf in judge.last.leaves}
    known = {at: (spelled[at], judge.expressions.known[at]) for at in spelled}
    return Object(of, initializer, None if found.broken else judge.last, known)


def makers(chance, slip):
    """Makes initializers whose values are constant, but where there is a slip."""

    def value(of):
        if isinstance(of, Aggregate):
            return None
        if chance.randrange(100) < slip:
            return chance.choice(NOT_CONSTANT)
        return chance.choice(ADDRESSES if of.shape == "p" else NUMBERS)

    return Initializers(chance, value, slip, designated=5)


def made(chance, slip):
    """An object of a random type with a random initializer."""
    maker = makers(chance, slip)
    of = maker.aggregate(3, "n") if chance.randrange(2) else maker.type(3)
    of = Array(of, None) if chance.randrange(4) == 0 else of
    return read(of, maker.initializer(of))


# What is left out

def begins(path, other):
    return other[: len(path)] == path


def part_at(of, path):
    """The type of the part to which a path leads."""
    for step in path:
        of = of.inner if of.form == "array" else of.aggregate.parts[step].type
    return of


def is_twice(plan):
    """A part takes an item that was initialized, or is within one that was initialized whole, or another member of a union."""
    whole, members = {leaf.path for leaf in plan.leaves}, {}
    for number, path in enumerate(plan.taken):
        if any(begins(path, earlier) or begins(earlier, path) and earlier in whole for earlier in plan.taken[:number]):
            return True
        for at, step in enumerate(path):
            of = part_at(plan.completed, path[:at])
            if of.is_aggregate() and of.aggregate.is_union and members.setdefault(path[:at], step) != step:
                return True
    return False


def is_left_out(found):
    """gcc refuses an initializer that is accepted: one with empty braces for a scalar, or with an address that becomes an integer which
    can't hold it."""
    if found.plan.has_empty_scalar:
        return True
    for leaf in found.plan.leaves:
        _, fact = found.known[leaf.node.at]
        if fact.constant is None and not leaf.is_string() and types.size(leaf.type) < ADDRESS_BYTES:
            return True
    return False


# The program

def selected(of, path):
    """What selects a part."""
    text = ""
    for step in path:
        if of.form == "array":
            text, of = f"{text}[{step}]", of.inner
        else:
            member = of.aggregate.parts[step]
            text, of = text + (f".{member.name.decode()}" if member.name else ""), member.type
    return text


def scalars(of, path, chosen):
    """The paths of the scalars of an object, of a union those of the member that is initialized."""
    if of.form == "array":
        return [each for step in range(of.length) for each in scalars(of.inner, (*path, step), chosen)]
    if not of.is_aggregate():
        return [path]
    parts = of.aggregate.parts
    steps = [chosen.get(path, 0)] if of.aggregate.is_union else range(len(parts))
    return [each for step in steps for each in scalars(parts[step].type, (*path, step), chosen)]


def stored(leaf, found):
    """The statement that stores a leaf."""
    place = "b" + selected(found.plan.completed, leaf.path)
    spelled, fact = found.known[leaf.node.at]
    if leaf.is_string():
        length = leaf.type.length if leaf.path else found.plan.completed.length
        return f"memcpy({place}, {spelled}, {min(length, leaf.node.number)});"
    value = str(fact.constant.number) if fact.constant is not None else f"(unsigned long)g{spelled.strip('g(') or 1}"
    return f"{place} = ({'void *' if leaf.type.form == 'pointer' else 'long'}){value};"


def function(number, found):
    """A function that tells where the object, static or in a body, isn't what its leaves say."""
    plan = found.plan
    chosen = {path[:at]: path[at] for path in plan.taken for at in range(len(path))}
    lines = [found.text(f"a{number}"), f"static void check_{number}(void)", "{", f"static __typeof__(a{number}) b;"]
    lines += [stored(leaf, found) for leaf in plan.leaves]
    lines.append(f"if (sizeof(b) != {types.size(plan.completed)} || memcmp(&a{number}, &b, sizeof(b)))")
    lines += [f'puts("{number} static");', found.text("c", "")]
    for path in scalars(plan.completed, (), chosen):
        lines.append(f'if (b{selected(plan.completed, path)} != c{selected(plan.completed, path)}) puts("{number} {path}");')
    return "\n".join([*lines, "}"]) + "\n"


def wrong_memory(objects, folder):
    """The lines of the program over these objects, which are of those that differ."""
    source, program = os.path.join(folder, "made.c"), os.path.join(folder, "made")
    with open(source, "w", encoding="ascii") as text:
        text.write("#include <stdio.h>\n#include <string.h>\n" + OBJECTS)
        text.writelines(function(number, found) for number, found in enumerate(objects))
        text.write("int main(void)\n{\n")
        text.writelines(f"check_{number}();\n" for number in range(len(objects)))
        text.write("return 0;\n}\n")
    subprocess.run([COMPILER, "-std=gnu11", "-O0", "-w", source, "-o", program], check=True)
    return subprocess.run([program], check=True, capture_output=True, text=True).stdout.splitlines()


# What is refused

def compiler_refuses(text, folder):
    """Whether the compiler refuses a text, or warns of an item that has no place."""
    with open(os.path.join(folder, "t.c"), "w", encoding="ascii") as file:
        file.write(text)
    done = subprocess.run([COMPILER, *FLAGS, "t.c"], cwd=folder, capture_output=True, text=True, check=False)
    return done.returncode != 0 or any(words in done.stderr for words in EXCESS)


def judged_refuses(program, folder):
    """Whether the judge refuses the text that stands in a folder."""
    return subprocess.run([program, "t.c"], cwd=folder, capture_output=True, check=False).returncode == judging.REFUSED


def refused_otherwise(found, program, folder):
    """Who says otherwise than the reader whether an initializer is refused."""
    text, is_refused = OBJECTS + found.text("t") + "\n", found.plan is None
    others = ["the compiler"] * (compiler_refuses(text, folder) != is_refused)
    return others + ["the judge"] * (program is not None and judged_refuses(program, folder) != is_refused)


def main():
    program = os.path.abspath(sys.argv[1])
    count = int(sys.argv[2]) if len(sys.argv) > 2 else COUNT
    chance = random.Random(int(sys.argv[3]) if len(sys.argv) > 3 else SEED)
    if not os.path.exists(program):
        print(f"initializers: no program {program}: what the judge refuses isn't compared")
        program = None
    if not shutil.which(COMPILER):
        print(f"initializers: no {COMPILER}: nothing is compared")
        return 0
    right = [made(chance, 0) for _ in range(count)]
    objects = [it for it in right if it.plan and not is_twice(it.plan) and not is_left_out(it)]
    slips = [it for it in (made(chance, 6) for _ in range(count // 5)) if it.plan is None or not is_left_out(it)]
    with tempfile.TemporaryDirectory() as folder:
        wrong = wrong_memory(objects, folder)
        for line in wrong:
            number = int(line.split()[0])
            print(f"initializers: {line}: {objects[number].text('t')}")
        for found in slips:
            for other in refused_otherwise(found, program, folder):
                wrong.append(other)
                print(f"initializers: {'refused' if found.plan is None else 'accepted'}, and not by {other}: {found.text('t')}")
    refused = sum(found.plan is None for found in slips)
    compared = f"{len(objects)} objects, {sum(len(it.plan.leaves) for it in objects)} leaves, {refused} of {len(slips)} others refused"
    print(f"initializers: {compared}; {'NOT as gcc has them' if wrong else 'as gcc has them'}")
    return 1 if wrong else 0


if __name__ == "__main__":
    sys.exit(main())
