#!/usr/bin/env python3
"""Batters the program with random files in, near and outside the first form, and with random words; and the calls of libraries
that no command makes yet.

usage: fuzz.py PROGRAM WORKBENCH FLOWS TREES TYPES [COUNT [SEED]]

A run must end by itself within ten seconds, write nothing to standard output, and give for a file the
status and the bytes on standard error that `reference`, and for the first form `rules.py` too, works out from the rules alone. Random words and files with
headers must have the bytes and the status that `reference` works out.

Units of random conditionals and definitions, and random macros, go through the tools of WORKBENCH, which must print what
`workbench_answers.py` works out. A unit with another answer is made smaller before it is printed.

Random control flow graphs go through FLOWS, which must print the answers that `made_flows.py` finds by following their paths.

Random units by the grammar go through TREES, which must print the tree that a second reader makes of them.

Random units of all forms go through JUDGED, and expressions over declared objects without their marks through gcc,
as `fuzz_judged.py` says, which makes those alone.

Where a compiler is installed, random macros go through it and through `reference`, and both must come to the same tokens.
"""
import os
import random
import shutil
import sys
import tempfile

import compilers
import rules
from fuzz_judged import check_judged, check_refusals
from fuzz_units import check_commands, check_headers, check_readings, check_tools, check_trees, run
from made_flows import answer as flow_answer, flow_text, random_flow
from made_units import Maker
from reference.judging import NotBuilt, answer


PIECES = [
    "extern", "int", "void", "__attribute__", "noderef", "address_space", "(", ")", "{", "}", "*", "=", ";",
    ",", "&", "a", "b", "p", "q", "u", "f", "1", "42", "0", "4294967295", "4294967296", "__user", "asm", " ",
    "\n", "\t", "if", "/*", "*/", "//", "\\\n", "\\", "\"", "'", "\"a\"", "'b'", "L", "u8", "#", "#include", "include", "<", ">", "<a>",
    "%:", "<%", "%>", "...", ".5", "1e+", "\\u00e9", "\r", "\0", "\x80", "\xff", "x" * 300,
]

COMPILERS = ("gcc", "clang")

# What can be a name, and what can't.
WORDS = [
    b"\\u00e9", b"a\\u00e9b", b"\\U0001f600", b"\\u00e", b"L'a'", b"u8\"x\"", b"'a'", b"\"x\"", b"_", b"_x", b"__x", b"x1",
    b"L", b"u8", b"asm", b"typeof", b"_Pragma", b"while", b"_Bool", b"noderef", b"1", b".5", b"1u", b"$", b"\x80", b"a$", b"#",
]


def unit(chance):
    """A unit of the first form."""
    flags = ["", "__attribute__((noderef)) ", "__attribute__((address_space(1))) ",
             "__attribute__((noderef, address_space(__user))) ", "__attribute__((address_space(2),noderef)) "]
    objects = []
    lines = []
    for number in range(chance.randrange(1, 8)):
        stars = chance.randrange(4)
        objects.append((f"n{number}", stars))
        lines.append(f"extern int {chance.choice(flags)}{'*' * stars}n{number};")
    for number in range(chance.randrange(4)):
        body = []
        for _ in range(chance.randrange(6)):
            target, stars = chance.choice(objects)
            equal = [name for name, count in objects if count == stars]
            below = [name for name, count in objects if count == stars - 1]
            forms = [f"{target} = {chance.choice(equal)};"]
            if below:
                forms += [f"*{target} = {chance.choice(below)};", f"{target} = &{chance.choice(below)};"]
            body.append(chance.choice(forms))
        lines.append(f"void f{number}(void) {{ {' '.join(body)} }}")
    return chance.choice([" ", "\n", "\t\n"]).join(lines).encode()


def spoiled(chance):
    """A unit of the first form with a few bytes changed."""
    text = bytearray(unit(chance))
    for _ in range(chance.randrange(1, 4)):
        at = chance.randrange(len(text) + 1)
        step = chance.randrange(3)
        if step == 0:
            text[at:at] = chance.choice(PIECES).encode("latin-1")
        elif step == 1 and text:
            del text[at % len(text)]
        elif text:
            text[at % len(text)] = chance.randrange(256)
    return bytes(text)


def rewritten(chance):
    """A unit of the first form with comments in place of blanks, and with its lines cut anywhere."""
    text = bytearray()
    for byte in unit(chance):
        if byte == 32 and chance.randrange(3) == 0:
            text += chance.choice([b"/**/", b"/* ' \n */", b"//\"\n", b"\v", b"\f"])
        else:
            text.append(byte)
    for _ in range(chance.randrange(6)):
        at = chance.randrange(len(text) + 1)
        if text[:at][-1:] != b"\\":
            text[at:at] = b"\\\n"
    return bytes(text)


def renamed(chance):
    """A unit with words in place of some names that may be no names."""
    text = unit(chance)
    for number in range(chance.randrange(1, 4)):
        text = text.replace(b"n%d" % number, chance.choice(WORDS))
    return text


def soup(chance):
    """Pieces in any order."""
    count = chance.randrange(60)
    return "".join(chance.choice(PIECES) for _ in range(count)).encode("latin-1")


def noise(chance):
    return bytes(chance.randrange(256) for _ in range(chance.randrange(200)))


def wanted(text):
    """The status of the check of a text, and what goes to standard error."""
    _, err, status = answer([b"t.c"], {b"t.c": text})
    return status, err


def check_text(program, folder, text, in_form):
    """What is wrong about the check of this text, or nothing."""
    with open(os.path.join(folder, "t.c"), "wb") as file:
        file.write(text)
    status, out, err = run(program, ["t.c"], folder)
    if in_form and (status, err) != rules.answer(text):
        return f"status {status}, {err!r} in place of {rules.answer(text)!r}, by the rules of the first form"
    try:
        if (status, err) != wanted(text):
            return f"status {status}, {err!r} in place of {wanted(text)!r}"
    except NotBuilt:
        pass
    return "something on standard output" if out else None


def check_expansion(compiler, folder, chance):
    """What is wrong about a compiler's expansion of random macros, or nothing; and the text."""
    maker = Maker(chance, plain=True)
    text = f"{maker.table()}{maker.text()}\n{maker.text()}\n".encode()
    with open(os.path.join(folder, "m.c"), "wb") as file:
        file.write(text)
    found = compilers.difference(text, compilers.preprocess(compiler, "m.c", folder))
    return None if found in compilers.ALIKE else found, text


def check_first_form(program, folder, chance, count):
    """Compares so many checks of files in and near the first form; true where all are alike."""
    makers = [(unit, True), (rewritten, True), (renamed, False), (spoiled, False), (soup, False), (noise, False)]
    for number in range(count):
        maker, in_form = makers[number % len(makers)]
        text = maker(chance)
        wrong = check_text(program, folder, text, in_form)
        if wrong:
            print(f"fuzz: file {number}: {wrong}: {text!r}")
            return False
    return True


def check_flows(flows, folder, chance, count):
    """Compares the answers to so many flows, a line each; true where all are alike."""
    made = [random_flow(chance) for _ in range(count)]
    with open(os.path.join(folder, "f.txt"), "w", encoding="utf-8") as file:
        file.writelines(flow_text(*flow) for flow in made)
    status, out, err = run(flows, ["f.txt"], folder)
    if status != 0 or err:
        print(f"fuzz: flows: status {status}, {err!r}")
        return False
    for flow, found in zip(made, out.decode().splitlines(), strict=True):
        if found != flow_answer(*flow):
            print(f"fuzz: flow {flow_text(*flow)!r}: {found} in place of {flow_answer(*flow)}")
            return False
    return True


def check_expansions(folder, chance, count):
    """Compares so many expansions with those of the compilers that are installed; true where all are alike."""
    for compiler in filter(shutil.which, COMPILERS):
        for number in range(count):
            wrong, text = check_expansion(compiler, folder, chance)
            if wrong:
                print(f"fuzz: expansion {number} of {compiler}: {wrong}: {text!r}")
                return False
    return True


def main():
    program, workbench, flows, trees, types = map(os.path.abspath, sys.argv[1:6])
    count = int(sys.argv[6]) if len(sys.argv) > 6 else 2000
    seed = int(sys.argv[7]) if len(sys.argv) > 7 else random.randrange(1 << 32)
    chance = random.Random(seed)
    print(f"fuzz: {count} files, seed {seed}")
    with tempfile.TemporaryDirectory() as folder:
        passed = (
            check_first_form(program, folder, chance, count)
            and check_commands(program, folder, chance, count)
            and check_readings(program, folder, chance, count)
            and check_trees(trees, folder, chance, count)
            and check_tools(workbench, folder, chance, count)
            and check_flows(flows, folder, chance, count)
            and check_headers(workbench, folder, chance, count)
            and check_expansions(folder, chance, count // 4)
            and check_judged(program, types, folder, chance, count)
            and check_refusals(folder, chance, count // 4)
        )
    if not passed:
        return 1
    print("fuzz: ok")
    return 0


if __name__ == "__main__":
    sys.exit(main())
