#!/usr/bin/env python3
"""Proves what a program stands on, lowest first, and says which crate it is at; then builds the program.

usage: build.py RT PROGRAM [WORD..]

PROGRAM is a crate, which is run with the words once it is built, as `rt run` has it. What rt prints of a crate is shown where
it fails.
"""
import os
import re
import subprocess
import sys
import time

TOP = os.path.dirname(os.path.dirname(os.path.abspath(__file__)))


def crates_below(program):
    """The crates of the repository that it stands on, lowest first."""
    with open(os.path.join(TOP, "crates.txt"), encoding="utf-8") as text:
        uses = {name: used.split() for name, used in re.findall(r"^(\w+):(.*)", text.read(), re.MULTILINE)}
    found = []

    def add(name):
        for used in uses[name]:
            if used in uses and used not in found:
                add(used)
                found.append(used)

    add(program)
    return found


def told(rt, words, crate):
    """Whether rt does this in the crate; what it prints where it doesn't."""
    ran = subprocess.run(
        [rt, *words], cwd=os.path.join(TOP, "crates", crate), stdout=subprocess.PIPE, stderr=subprocess.STDOUT, text=True, check=False
    )
    if ran.returncode:
        print(f"\n{ran.stdout}", end="")
    return ran.returncode


def main():
    rt, program, *words = sys.argv[1:]
    below, first = crates_below(program), time.monotonic()
    for number, crate in enumerate([*below, program]):
        begun = time.monotonic()
        print(f"proving {crate}, {len(below) - number} more crates behind it ..", end="", flush=True)
        status = told(rt, ["lib"] if crate != program else ["run", "--", *words], crate)
        if status:
            print(f"{crate} isn't proved")
            return status
        print(f" {time.monotonic() - begun:.0f} s", flush=True)
    print(f"{program} is proved and built, after {time.monotonic() - first:.0f} s")
    return 0


if __name__ == "__main__":
    sys.exit(main())
