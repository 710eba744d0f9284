#!/usr/bin/env python3
"""Paths of control through worked functions, by hand: beside those that `reference` follows, and those of the flows that a program makes.

usage: control_paths.py [LOWERED]

A path is its steps in words: `P` a point, `M` the second one at its token, `A` a change, `C` a call with contexts, `E` an end. Tokens are
counted from the one that begins the body. LOWERED writes for each function of a file its flow in a line, in the notation of `flows`.
Prints each row in which the paths differ, and exits 1 where there is one.
"""
import os
import re
import subprocess
import sys
import tempfile

from reference import contexts
from reference.judging import Indexed, Judge
from reference.preprocessing import Unit

BEFORE = "int f(int) __attribute__((context(l, 0, 1)));\nvoid die(void) __attribute__((noreturn));\n"
# The bodies of functions with two parameters, and all their paths as far as they go
ROWS = (
    ("if (a) __context__(1); else ; ;", ("P1 P11 P12 P13 E13", "P1 P5 A5+1 P12 P13 E13")),
    ("if (a && b) ; else __context__(-2);", ("P1 P7 P15 E15", "P1 P9 A9-2 P15 E15")),
    ("if (a ?: b) __context__(1);", ("P1 P13 E13", "P1 P8 A8+1 P13 E13")),
    ("if (!a || (b, 0)) return 1;", ("P1 P15 E15", "P1 P12 M12 E12")),
    ("b = a && f(1);", ("P1 P10 E10", "P1 P6 C6(0,1) P10 E10")),
    ("f((f(a), ({ ; 1; })));", ("P1 P5 C5(0,1) P11 P12 P2 C2(0,1) P19 E19",)),
    ('{ { } int d = f(a); _Static_assert(1, ""); }', ("P1 P2 P8 C8(0,1) P20 E20",)),
    ("x: y: __attribute__((unused)); goto z; ; z: ;", ("P1 P3 P5 P12 P16 P18 P19 E19",)),
    ("switch (a) { ; case 1: case 2: __context__(1); break; default: ; }", (
        "P1 P20 P22 P24 E24",
        "P1 P10 P13 A13+1 P18 P24 E24",
        "P1 P7 P10 P13 A13+1 P18 P24 E24",
    )),
    ("switch (a) case 1: ;", ("P1 P9 E9", "P1 P5 P8 P9 E9")),
    ("switch (2) { case 1: ; case 2: ; }", ("P1 P10 P13 P15 E15",)),
    ("switch (a) { case 1: ; switch (b) { case 2: ; } }", ("P1 P21 E21", "P1 P6 P9 P10 P21 E21", "P1 P6 P9 P10 P15 P18 P21 E21")),
    ("do __context__(1); while (0);", ("P1 P2 A2+1 M7 P12 E12",)),
    ("while (0) ; for (; 0; ) ; for (;;) break;", ("P1 M1 P6 M6 P13 P18 P20 E20",)),
    ("for (int i = f(a); 1; a++) { if (a) break; return 0; }", ("P1 P7 C7(0,1) M1 P16 P17 P23 M23 E23", "P1 P7 C7(0,1) M1 P16 P17 P21 P27 E27")),
    ("while (1) { if (a) die(); return f(a); }", ("P1 M1 P5 P6 P10", "P1 M1 P5 P6 P14 P16 C16(0,1) M14 E14")),
    ("if (__builtin_expect(a, f(b))) ; b = __builtin_expect(a, b);", ("P1 P8 C8(0,1) P14 P23 E23", "P1 P8 C8(0,1) P13 P14 P23 E23")),
    ("if (({ if (a) __context__(1); b; })) ;", (
        "P1 P5 P14 P20 E20",
        "P1 P5 P14 P19 P20 E20",
        "P1 P5 P9 A9+1 P14 P20 E20",
        "P1 P5 P9 A9+1 P14 P19 P20 E20",
    )),
    ("return ({ if (a) goto out; f(a); }); out: ;", ("P1 P4 P8 P19 P21 P22 E22", "P1 P4 P11 P12 C12(0,1) M1 E1")),
    ("if (1 ? a : b) die(); (f)(a); (*f)(a);", ("P1 P9", "P1 P13 P16 C16(0,1) P20 P28 E28")),
    ("do { if (a) continue; break; } while (0);", ("P1 P2 P3 P9 P17 E17", "P1 P2 P3 P7 M12 P17 E17")),
    ("if (__builtin_expect(a, ({ if (b) goto x; __context__(1); x: ; 2; }))) ;", (
        "P1 P9 P13 P21 P23 P24 P31 E31",
        "P1 P9 P13 P21 P23 P24 P30 P31 E31",
        "P1 P9 P16 A16+1 P21 P23 P24 P31 E31",
        "P1 P9 P16 A16+1 P21 P23 P24 P30 P31 E31",
    )),
    ("switch (a) { case 1: ({ goto z; z: ; 1; }); default: return 2; } y: ;", ("P1 P22 P24 M24 E24", "P1 P6 P9 P11 P14 P16 P17 P22 P24 M24 E24")),
    ("if (sizeof(f(a)) == 4) ; else __context__(1);", ("P1 P13 P20 E20",)),
)
# Of a path of more steps no more is followed
MOST_STEPS = 100


def unit_text():
    """All bodies as one unit, a function a line."""
    return BEFORE + "".join(f"int t{number}(int a, int b) {{ {body} }}\n" for number, (body, _) in enumerate(ROWS))


def functions(text):
    """The judge of a unit, and its function definitions."""
    unit = Unit({b"t.c": text.encode()})
    unit.preprocess(b"t.c")
    builder = Indexed(unit.tokens)
    root = builder.unit()
    judge = Judge(builder.hidden)
    judge.unit(root)
    return judge, [part for _, part in root.parts if part.kind == "FunctionDefinition"]


def blocks_of(line):
    """The blocks of a flow: the steps of each, and the numbers of its successors."""
    shown, _, _ = line.rpartition(" ; ")
    for block in shown.split(" | "):
        steps, _, successors = block.partition(" >")
        yield [] if steps == "-" else steps.split(), [int(number) for number in successors.split()]


def paths_of_flow(line, first):
    """The paths of a flow, whose tokens are counted from the first one of a body."""
    blocks, found, waiting = list(blocks_of(line)), set(), [((), 0)]
    while waiting:
        path, number = waiting.pop()
        steps, successors = blocks[number]
        path += tuple(re.sub(r"\d+", lambda token: str(int(token[0]) - first), step, count=1) for step in steps)
        if not successors or len(path) > MOST_STEPS:
            found.add(" ".join(path))
        waiting += [(path, successor) for successor in successors if len(path) <= MOST_STEPS]
    return found


def lines_written(program, text):
    """The lines that a program writes of a unit."""
    with tempfile.TemporaryDirectory() as folder:
        with open(os.path.join(folder, "t.c"), "w", encoding="utf-8") as file:
            file.write(text)
        return subprocess.run([program, "t.c"], cwd=folder, capture_output=True, text=True, check=True).stdout.splitlines()


def differences(who, found):
    """The rows of which other paths were found."""
    for (body, paths), others in zip(ROWS, found, strict=True):
        if set(paths) != others:
            yield f"{who}: {body}: {sorted(others)} in place of {sorted(paths)}"


def main():
    text = unit_text()
    judge, definitions = functions(text)
    found = list(differences("reference", [contexts.paths(judge, each) for each in definitions]))
    if len(sys.argv) > 1:
        program = os.path.abspath(sys.argv[1])
        bodies = [definition.parts[-1][1].at for definition in definitions]
        made = [paths_of_flow(line, first) for line, first in zip(lines_written(program, text), bodies, strict=True)]
        found += differences(sys.argv[1], made)
    print("".join(f"{line}\n" for line in found) + f"control_paths: {len(ROWS)} rows, {len(found)} differ")
    return 1 if found else 0


if __name__ == "__main__":
    sys.exit(main())
