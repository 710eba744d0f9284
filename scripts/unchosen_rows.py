#!/usr/bin/env python3
"""Prints the rows of the grammar that no fixture and no case chooses.

usage: unchosen_rows.py

Each file is preprocessed and read by `reference`, so a row counts that the grammar alone chooses, whatever the program does. Files
with an error of preprocessing choose none, nor do those that take more than a second of the processor here. Exits 1 where a row is left.
"""
import glob
import os
import signal
import sys

import archives
from reference.commands import BadWord, Command
from reference.grammar import ROWS
from reference.macros import Passed
from reference.preprocessing import NoSuchFile, Refusal, Unit
from reference.reading import chosen_rows

CRATES = os.path.join(os.path.dirname(os.path.dirname(os.path.abspath(__file__))), "crates")


def commands():
    """The words and the files of each command on a file that a fixture or a case has."""
    for path in glob.glob(os.path.join(CRATES, "fixtures", "data", "*.c")):
        with open(path, "rb") as file:
            yield [b"t.c"], {b"t.c": file.read()}
    for path in glob.glob(os.path.join(CRATES, "cases", "data", "*.txt")):
        with open(path, "rb") as file:
            for case in archives.read(file.read()):
                if case.program in ("ksparse", "trees"):
                    yield case.words, case.files


class TooLong(Exception):
    """A command takes more than a second of the processor."""


def stop(*_):
    raise TooLong


def rows_of(words, files):
    """The rows that the unit of a command chooses."""
    signal.setitimer(signal.ITIMER_VIRTUAL, 1)
    try:
        command = Command(words)
        unit = Unit(files, command.directories, command.lines)
        unit.preprocess(command.file)
        return chosen_rows(unit.tokens)
    except (BadWord, Refusal, NoSuchFile, Passed, TooLong):
        return set()
    finally:
        signal.setitimer(signal.ITIMER_VIRTUAL, 0)


def main():
    signal.signal(signal.SIGVTALRM, stop)
    chosen = set()
    for words, files in commands():
        chosen |= rows_of(words, files)
    left = [(symbol, number) for symbol, rows in ROWS.items() for number in range(len(rows)) if (symbol, number) not in chosen]
    for symbol, number in left:
        print(f"{symbol}: row {number + 1}: {' '.join(name for kind, name in ROWS[symbol][number].items if kind != 'action') or '-'}")
    print(f"{len(left)} rows of the grammar are chosen by no test")
    return 1 if left else 0


if __name__ == "__main__":
    sys.exit(main())
