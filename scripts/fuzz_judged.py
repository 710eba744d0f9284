#!/usr/bin/env python3
"""Random units for the judge: what `ksparse` says of them, and what gcc refuses, beside the reader of the rules in `reference`.

usage: fuzz_judged.py PROGRAM TYPES [COUNT [SEED]]

PROGRAM must write what `reference.judging` works out from the rules alone: the warnings in order, or the one error, and the status;
and TYPES, which is asked in place of one command in four, what `reference.typed` does. Where one isn't there a line says so. Where gcc
is installed it must refuse exactly the units that break a constraint, their marks defined away, but for the differences that
`refusals.py` names. A unit with another answer is made smaller before it is printed.
"""
import os
import random
import shutil
import subprocess
import sys
import tempfile

import refusals
from made_contexts import Contexts
from made_judged import Maker
from made_whole import Whole
from reference import judging, typed
from shrinking import shrunk

COMPILER = "gcc"
# What is off, and what is on by default
OFF = [
    b"-Wcast-to-as", b"-Wcast-truncate", b"-Wdecl", b"-Wshadow", b"-Wreturn-void", b"-Wdo-while", b"-Wstrict-prototypes",
    b"-Wone-bit-signed-bitfield",
]
ON = [b"-Wno-bitwise", b"-Wno-address-space", b"-Wno-non-pointer-null", b"-Wno-context"]


def plain_maker(chance):
    """A maker of units for a compiler that knows no marks, one in four without operators."""
    return Maker(chance, has_operators=chance.randrange(4) > 0, is_plain=True)


def maker(chance):
    """A maker of units: of five two have all forms, two are functions with contexts, and one has expressions, sometimes no operators."""
    kind = chance.randrange(5)
    if kind < 4:
        return Whole(chance) if kind < 2 else Contexts(chance)
    return Maker(chance, has_operators=chance.randrange(4) > 0)


def words_of(chance, has_types):
    """The words of a command: one in four asks for types, where that can be, and the others mostly switch on what is off."""
    if chance.randrange(4) == 0 and has_types:
        return [b"-types", b"t.c"]
    if chance.randrange(4):
        return [*OFF, b"t.c"]
    return [word for word in OFF + ON if chance.randrange(3) == 0] + [b"t.c"]


def put(folder, text):
    with open(os.path.join(folder, "t.c"), "wb") as file:
        file.write(text)


def said(programs, words, folder):
    """What the program writes that these words ask, and its status."""
    program, types = programs
    command = [types, *words[1:]] if words[0] == b"-types" else [program, *words]
    done = subprocess.run(command, cwd=folder, capture_output=True, timeout=10)
    return done.stdout, done.stderr, done.returncode


def wanted(words, text):
    """What it has to write; None where the reader says nothing of the unit."""
    try:
        files = {b"t.c": text}
        return typed.answer(words[1:], files) if words[0] == b"-types" else judging.answer(words, files)
    except judging.NotBuilt:
        return None


def judged_differs(programs, words, folder):
    """A test of a text: whether the program that is asked says another thing of it than the reader."""

    def differs(text):
        answer = wanted(words, text)
        if answer is None:
            return False
        put(folder, text)
        return said(programs, words, folder) != answer

    return differs


def refusal_differs(folder):
    """A test of a text: whether the compiler refuses it and the reader doesn't, or the other way round."""

    def differs(text):
        try:
            is_refused = refusals.is_refused(text)
        except judging.NotBuilt:
            return False
        put(folder, text)
        return is_refused != (refusals.compiler_refuses(COMPILER, "t.c", folder) is not None)

    return differs


def check_judged(program, types, folder, chance, count):
    """Compares what is said of so many units; true where all are alike."""
    programs, has_types = (program, types), os.path.exists(types)
    if not os.path.exists(program):
        print(f"fuzz: no program {program}: what the judge says isn't compared")
        return True
    if not has_types:
        print(f"fuzz: no program {types}: the types of units aren't compared")
    for number in range(count):
        text, words = maker(chance).unit().encode(), words_of(chance, has_types)
        differs = judged_differs(programs, words, folder)
        if differs(text):
            small = shrunk(text, differs)
            differs(small)
            print(f"fuzz: {b' '.join(words).decode()}, unit {number}, made smaller:\n{small.decode()}")
            print(f"fuzz: it answers {said(programs, words, folder)!r}")
            print(f"fuzz: in place of {wanted(words, small)!r}")
            return False
    return True


def check_refusals(folder, chance, count):
    """Compares which of so many units are refused; true where all are alike."""
    if not shutil.which(COMPILER):
        print(f"fuzz: no {COMPILER}: what it refuses isn't compared")
        return True
    for number in range(count):
        text = plain_maker(chance).unit().encode()
        differs = refusal_differs(folder)
        if differs(text):
            small = shrunk(text, differs)
            differs(small)
            print(f"fuzz: {COMPILER}, unit {number}, made smaller:\n{small.decode()}")
            print(f"fuzz: it says {refusals.compiler_refuses(COMPILER, 't.c', folder)!r}")
            print(f"fuzz: the reader {'refuses' if refusals.is_refused(small) else 'accepts'} it")
            return False
    return True


def main():
    program, types = map(os.path.abspath, sys.argv[1:3])
    count = int(sys.argv[3]) if len(sys.argv) > 3 else 2000
    seed = int(sys.argv[4]) if len(sys.argv) > 4 else random.randrange(1 << 32)
    chance = random.Random(seed)
    print(f"fuzz: {count} units for the judge, seed {seed}")
    with tempfile.TemporaryDirectory() as folder:
        if not (check_judged(program, types, folder, chance, count) and check_refusals(folder, chance, count // 4)):
            return 1
    print("fuzz: ok")
    return 0


if __name__ == "__main__":
    sys.exit(main())
