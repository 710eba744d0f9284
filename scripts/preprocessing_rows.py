#!/usr/bin/env python3
"""Runs worked rows of preprocessing over `reference`, so that both are known to agree: what budgets leave, and archives.

usage: preprocessing_rows.py [ARCHIVE ..]

The commands of archives are `ksparse`, as it is once it preprocesses, `trees`, and those of `workbench`. Where a
compiler is installed, what `-E` writes in the archives whose names begin with `kernel_` is compared with its tokens too.
Prints each row in which the two differ, and exits 1 where there is one.
"""
import os
import shutil
import sys
import tempfile

import archives
import compilers
import workbench_answers
from reference import macros, trees
from reference.judging import NotBuilt, answer
from reference.preprocessing import Unit
from reference.scanning import scan

WRONG_NUMBER = b"error[12]: wrong number of macro arguments"

# Definitions, a text, what is left of the replacements, the made tokens and the counter; what is put, and what is left then or
# how the expansion ends.
BUDGETS = (
    (b"#define a 1\n#define d(x) x x", b"d(a)", (2, 3, 0), b"1 1", (0, 0, 0)),
    (b"#define a 1\n#define d(x) x x", b"d(a)", (2, 2, 0), b"", b"macro tokens"),
    (b"#define a 1\n#define d(x) x x", b"d(a)", (1, 9, 0), b"", b"macro replacements"),
    (b"#define n(x)", b"n(a)", (1, 0, 0), b"", (0, 0, 0)),
    (b"#define c(a,b) 1 2 a ## b", b"c(+,*)", (1, 1, 0), b"", b"macro tokens"),
    (b"#define c(a,b) 1 2 a ## b", b"c(+,*)", (1, 2, 0), b"", b"error[14]: bad paste"),
    (b"#define f(a) a", b"x y f(1,2)", (0, 0, 0), b"x y", WRONG_NUMBER),
    (b"#define f(a) a", b"f f f(1)", (0, 1, 0), b"f f", b"macro replacements"),
    (b"", b"__LINE__ __COUNTER__", (2, 0, 7), b"1 7", (0, 0, 8)),
    (b"#define f(a,b) b a\n#define g(x) x\n#define a 1", b"f(a,g(1,2))", (2, 9, 0), b"", WRONG_NUMBER),
    (b"#define f(a,b) b a\n#define g(x) x\n#define a 1", b"f(a,g(1,2))", (1, 9, 0), b"", b"macro replacements"),
    (b"#define f(a) <a>\n#define o f(", b" o 1) o 2", (9, 9, 0), b"< 1 >", b"error[13]: unterminated macro call"),
    (b"", b"a b c", (0, 0, 0), b"a b c", (0, 0, 0)),
)


# The programs, and what they answer to words and files
ANSWERS = {"ksparse": answer, "trees": trees.answer}


def left_of_budget(definitions, text, budget):
    """What is put of a text, and what is left of the budget or how the expansion ends."""
    unit = Unit({b"t.c": definitions})
    unit.preprocess(b"t.c")
    left = unit.macros.budget = macros.Budget(*budget)
    put = []
    try:
        unit.macros.expand(list(scan(1, text)), put)
        end = (left.replacements, left.tokens, left.counter)
    except (macros.Fault, macros.Passed) as ended:
        end = ended.args[0]
    return b" ".join(token.spelled for token in put), end


def ran(case):
    """What the command of a case leaves by the rules, or None for a program that isn't known here."""
    if case.program in ANSWERS:
        try:
            out, err, status = ANSWERS[case.program](case.words, case.files)
        except NotBuilt:
            return None
        return {"out": out, "err": err, "status": b"%d\n" % status}
    made = workbench_answers.answer(case.words, case.files) if case.program == "workbench" else None
    return None if made is None else {"out": made, "err": b"", "status": b"0\n"}


def is_compiled_alike(case):
    """Whether a compiler comes to the tokens that a command is expected to write."""
    flags = [word.decode() for word in case.words if word.startswith((b"-D", b"-U", b"-I"))]
    main = next(word.decode() for word in case.words if not word.startswith(b"-"))
    with tempfile.TemporaryDirectory() as folder:
        archives.write(folder, case.files)
        made = compilers.preprocess("gcc", main, folder, ["-D__CHECKER__=1", "-D__LP64__=1", *flags])
    return made is not None and compilers.spellings(made) == compilers.spellings(case.expected["out"])


def differences(path):
    """The rows of an archive that have another answer."""
    with open(path, "rb") as file:
        cases = archives.read(file.read())
    is_of_kernel = os.path.basename(path).startswith("kernel_")
    for case in cases:
        if is_of_kernel and case.program == "ksparse" and shutil.which("gcc") and not is_compiled_alike(case):
            yield f"{path}:{case.line}: the compiler has other tokens"
        left = ran(case)
        for stream in archives.STREAMS if left else ():
            if left[stream] != case.expected[stream]:
                yield f"{path}:{case.line}: {stream} is {left[stream][:300]!r} in place of {case.expected[stream][:300]!r}"


def main():
    is_well = True
    for definitions, text, budget, put, end in BUDGETS:
        found = left_of_budget(definitions, text, budget)
        if found != (put, end):
            is_well = False
            print(f"{definitions!r} {text!r} {budget}: {found} in place of {(put, end)}")
    for path in sys.argv[1:]:
        for difference in differences(path):
            is_well = False
            print(difference)
    print("preprocessing_rows: " + ("ok" if is_well else "rows differ"))
    return 0 if is_well else 1


if __name__ == "__main__":
    sys.exit(main())
