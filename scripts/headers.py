#!/usr/bin/env python3
"""Preprocesses files of a kernel tree with the program and with the user's compiler, and compares the tokens; then checks them.

usage: headers.py PROGRAM TREE FILE ..

Each FILE is read through a file that first includes what the compiler predefines, as a header, and then what a build of the
kernel puts before each file. Both sides get `__CHECKER__` and the `__STDC_VERSION__` of C11, and `__has_attribute` and its
like as macros that are 0, which the compiler has built in. CC names another compiler than gcc.

Prints for each file whether its tokens are equal, where they first differ or why it is refused, and the time and the peak
memory of both; then whether a check reads it whole, or its first refusal. What a check of the same tokens refuses once its
inline assembly is taken out, and then each refused declaration, shows how far the grammar reaches: each such refusal once, with
how often it was met and the first declaration that it refused, up to the word at which it stands. Exits 1 where a file isn't equal.
"""
import collections
import os
import re
import subprocess
import sys
import tempfile

from reference.scanning import scan

COMPILER = os.environ.get("CC", "gcc")
DIRECTORIES = (
    "arch/{0}/include", "arch/{0}/include/generated", "include", "arch/{0}/include/uapi", "arch/{0}/include/generated/uapi",
    "include/uapi", "include/generated/uapi",
)
# What a build includes before each file, where the tree has it
BEFORE = ("linux/compiler-version.h", "linux/kconfig.h", "linux/compiler_types.h")
ARCHITECTURES = {"x86_64": "x86", "aarch64": "arm64", "ppc64le": "powerpc", "riscv64": "riscv"}
WORDS = ["-D__KERNEL__", "-DCC_USING_FENTRY", '-DKBUILD_MODNAME="file"', '-DKBUILD_BASENAME="file"', '-DKBUILD_MODFILE="file"']
BUILT_IN = ("__has_attribute", "__has_builtin", "__has_feature", "__has_extension")

# Runs a command and prints its seconds, its peak kibibytes and its status behind what it writes to standard error. A
# process begins with the peak of the one that started it, so this runs in a small process of its own.
MEASURE = """
import os, subprocess, sys
with open(sys.argv[1], "wb") as out:
    child = subprocess.Popen(sys.argv[2:], stdout=out)
    _, status, usage = os.wait4(child.pid, 0)
print(usage.ru_utime + usage.ru_stime, usage.ru_maxrss, os.waitstatus_to_exitcode(status))
"""


def measured(command, folder, out):
    """What a command prints, its standard error and status, and a text of its time and peak memory."""
    done = subprocess.run([sys.executable, "-c", MEASURE, out, *command], cwd=folder, capture_output=True, check=True)
    seconds, kibibytes, status = done.stdout.split()
    with open(out, "rb") as file:
        text = file.read()
    return text, done.stderr, int(status), f"{float(seconds):.2f} s {int(kibibytes) // 1024} MiB"


def predefined():
    """The compiler's own macros, as the lines of a header, and its built-in tests as macros."""
    command = [COMPILER, "-std=gnu11", "-dM", "-E", "-x", "c", os.devnull]
    lines = subprocess.run(command, capture_output=True, check=True, text=True).stdout.splitlines(keepends=True)
    return "".join(lines) + "".join(f"#define {name}(x) 0\n" for name in BUILT_IN)


def directories(tree):
    """The directories of the tree in which a build looks for headers."""
    architecture = ARCHITECTURES.get(os.uname().machine, os.uname().machine)
    found = [directory.format(architecture) for directory in DIRECTORIES]
    return [directory for directory in found if os.path.isdir(os.path.join(tree, directory))]


def wrapper(tree, found, folder, file):
    """A file that includes what stands before FILE, and then FILE."""
    before = [header for header in BEFORE if any(os.path.exists(os.path.join(tree, directory, header)) for directory in found)]
    lines = [f'"{folder}/predefined.h"', *(f"<{header}>" for header in before), f'"{os.path.join(os.path.abspath(tree), file)}"']
    return "".join(f"#include {line}\n" for line in lines)


def first_difference(found, wanted):
    """The number of the first token that differs, and a few of both from there."""
    number = next((number for number, pair in enumerate(zip(found, wanted)) if pair[0] != pair[1]), min(len(found), len(wanted)))
    near = [b" ".join(tokens[number : number + 6]).decode("utf-8", "replace") for tokens in (found, wanted)]
    return f"different at token {number}: {near[0]!r} in place of {near[1]!r}"


def compare(program, tree, file, folder):
    """What the comparison of a file comes to, and whether it is equal."""
    found = directories(tree)
    with open(os.path.join(folder, "unit.c"), "w", encoding="utf-8") as unit:
        unit.write(wrapper(tree, found, folder, file))
    words = [*WORDS, *(f"-I{directory}" for directory in found), os.path.join(folder, "unit.c")]
    text, err, status, ours = measured([program, "-E", *words], tree, os.path.join(folder, "ours.i"))
    flags = ["-E", "-P", "-undef", "-nostdinc", "-std=gnu11", "-w", "-x", "c", "-D__CHECKER__=1"]
    theirs_text, theirs_err, theirs_status, theirs = measured([COMPILER, *flags, *words], tree, os.path.join(folder, "theirs.i"))
    times = f"({ours}; {COMPILER} {theirs})"
    if status or theirs_status:
        refusal = (err or theirs_err).decode("utf-8", "replace").strip()
        return f"refused {times}: {refusal}", False
    ours_tokens, theirs_tokens = ([token.spelled for token in scan(1, each)] for each in (text, theirs_text))
    if ours_tokens == theirs_tokens:
        return f"equal, {len(ours_tokens)} tokens {times}", True
    return f"{first_difference(ours_tokens, theirs_tokens)} {times}", False


REFUSED = re.compile(r"(\S+):(\d+):(\d+): error\[(\d+)\]: (.*)")
ASSEMBLY = {b"asm", b"__asm", b"__asm__"}
# So many refused declarations of a file are left out, one behind the other.
MOST_LEFT_OUT = 2000
# So many characters of a refused declaration are shown.
SHOWN = 160


def checked(program, words, tree, folder):
    """The line of a check's refusal, empty where the file is silent, and a text of its time and peak memory."""
    _, err, _, times = measured([program, *words], tree, os.path.join(folder, "checked"))
    return err.decode("utf-8", "replace").strip(), times


def is_read_whole(said):
    """Whether a check that says this refuses nothing of the unit."""
    return not any(map(REFUSED.fullmatch, said.splitlines()))


def end_of_group(tokens, at):
    """Behind the closing bracket of the group that opens here."""
    depth = 0
    while at < len(tokens):
        depth += (tokens[at] in (b"(", b"{", b"[")) - (tokens[at] in (b")", b"}", b"]"))
        at += 1
        if not depth:
            break
    return at


def without_assembly(tokens):
    """The tokens without each `asm`, its qualifiers and its parentheses."""
    left, at = [], 0
    while at < len(tokens):
        if tokens[at] in ASSEMBLY:
            at += 1
            while at < len(tokens) and tokens[at] in (b"volatile", b"__volatile__", b"inline", b"__inline", b"goto"):
                at += 1
            at = end_of_group(tokens, at)
        else:
            left.append(tokens[at])
            at += 1
    return left


def declarations(tokens):
    """The external declarations, each a list of tokens."""
    found, one, at = [], [], 0
    while at < len(tokens):
        behind = end_of_group(tokens, at) if tokens[at] in (b"(", b"{", b"[") else at + 1
        one += tokens[at:behind]
        # a body ends a function, but no structure and no initializer
        is_body = tokens[at] == b"{" and b"=" not in one[: len(one) - (behind - at)] and ends_parameters(one[: len(one) - (behind - at)])
        at = behind
        if one[-1] == b";" or is_body:
            found.append(one)
            one = []
    return found + ([one] if one else [])


def ends_parameters(tokens):
    """These tokens end with a parameter list, or with attributes behind one, so that a body may follow."""
    while tokens and tokens[-1] == b")":
        depth, at = 0, len(tokens) - 1
        while at >= 0:
            depth += (tokens[at] == b")") - (tokens[at] == b"(")
            if not depth:
                break
            at -= 1
        if at < 1 or tokens[at - 1] != b"__attribute__":
            return True
        tokens = tokens[: at - 1]
    return False


def reach(program, text, tree, folder):
    """What a check refuses of tokens without inline assembly, one declaration after the other left out: the texts, counted, and of
    each text the first such declaration as far as it is refused."""
    left = declarations(without_assembly([token.spelled for token in scan(1, text)]))
    path, refusals, firsts = os.path.join(folder, "tokens.c"), collections.Counter(), {}
    for _ in range(MOST_LEFT_OUT):
        # one declaration a line, so that the line of a refusal names it
        with open(path, "wb") as unit:
            unit.write(b"\n".join(b" ".join(one) for one in left) + b"\n")
        line, _ = checked(program, [path], tree, folder)
        refused = REFUSED.fullmatch(line)
        if is_read_whole(line) or not refused:
            return refusals, firsts, line
        number, refusal = int(refused[2]) - 1, f"error[{refused[4]}]: {refused[5]}"
        refusals[refusal] += 1
        firsts.setdefault(refusal, shown(b" ".join(left[number]), int(refused[3])))
        del left[number]
    return refusals, firsts, "more"


def shown(text, column):
    """The words of a declaration up to the one in this column, and how it begins where that is far."""
    text = text[: column - 1] + text[column - 1 :].split(b" ", 1)[0]
    text = text.decode("utf-8", "replace")
    return text if len(text) <= SHOWN else f"{text[: SHOWN // 2]} .. {text[-SHOWN // 2 :]}"


def read(program, tree, file, folder):
    """The lines that say how far a check reads the file."""
    words = [*WORDS, *(f"-I{directory}" for directory in directories(tree)), os.path.join(folder, "unit.c")]
    line, times = checked(program, words, tree, folder)
    yield f"  a check {'reads it whole' if is_read_whole(line) else f'says {line!r}'} ({times})"
    with open(os.path.join(folder, "ours.i"), "rb") as text:
        tokens = text.read()
    if tokens:
        refusals, firsts, last = reach(program, tokens, tree, folder)
        yield f"  without inline assembly, and without what is refused: {'read whole' if is_read_whole(last) else last!r}"
        yield from (f"    {count} times {refusal}, first at the end of: {firsts[refusal]}" for refusal, count in refusals.most_common())


def main():
    if len(sys.argv) < 4:
        print(__doc__.split("\n\n")[1], file=sys.stderr)
        return 2
    program, tree, *files = sys.argv[1:]
    is_equal = True
    with tempfile.TemporaryDirectory() as folder:
        with open(os.path.join(folder, "predefined.h"), "w", encoding="utf-8") as header:
            header.write(predefined())
        for file in files:
            told, equal = compare(os.path.abspath(program), tree, file, folder)
            is_equal = is_equal and equal
            print(f"{file}: {told}", flush=True)
            for line in read(os.path.abspath(program), tree, file, folder):
                print(line, flush=True)
    return 0 if is_equal else 1


if __name__ == "__main__":
    sys.exit(main())
