#!/usr/bin/env python3
"""Checks the drivers of `examples` through their shim, and sees that the archive of them has their text.

usage: drivers.py PROGRAM

Prints what the program says of each driver, which is nothing where all is well. Exits 1 where it says something, or where a section of the
archive and its file of `examples` differ.
"""
import os
import subprocess
import sys

import archives

EXAMPLES = os.path.join(os.path.dirname(os.path.dirname(os.path.abspath(__file__))), "examples")
ARCHIVE = os.path.join(os.path.dirname(EXAMPLES), "crates", "cases", "data", "drivers_through_a_shim.txt")


def files_below(folder):
    """The files below a folder of examples, by their paths there."""
    for at, _, names in os.walk(os.path.join(EXAMPLES, folder)):
        for name in sorted(names):
            path = os.path.join(at, name)
            yield os.path.relpath(path, EXAMPLES), path


def archived():
    """What the archive's first section of each file holds."""
    held = {}
    with open(ARCHIVE, "rb") as file:
        for _, line, text in archives.heads(file.read()):
            if line.startswith(b"-- "):
                name, section = archives.section(line, text)
                if b"/" in name:
                    held.setdefault(name.decode("latin-1"), section)
    return held


def text_of(path):
    with open(path, "rb") as file:
        return file.read()


def main():
    program = os.path.abspath(sys.argv[1])
    failed = 0
    for name, path in files_below("drivers"):
        ran = subprocess.run([program, "-Ishim", name], cwd=EXAMPLES, stdin=subprocess.DEVNULL, capture_output=True, check=False)
        if ran.returncode or ran.stdout or ran.stderr:
            failed += 1
            print(f"drivers: {name}: status {ran.returncode}\n{ran.stderr.decode(errors='replace')}", end="")
    held = archived()
    files = {**dict(files_below("shim")), **dict(files_below("drivers"))}
    # the archive has of the shim what the drivers read
    for name in held.keys() | dict(files_below("drivers")).keys():
        if name not in held or name not in files or text_of(files[name]) != held[name]:
            failed += 1
            print(f"drivers: {name} isn't as {os.path.basename(ARCHIVE)} has it")
    print(f"drivers: {failed} failed" if failed else "drivers: ok")
    return 1 if failed else 0


if __name__ == "__main__":
    sys.exit(main())
