#!/usr/bin/env python3
"""Runs the gate, `rt ci`, and says what is left while it runs; then checks the docs, and uses the programs that it built.

usage: gate.py RT

What rt ci prints is passed on unchanged. Then come the crates that cost most, in processor seconds of their proof, their tests and
their edits, and what is above its budget. The last line is that of rt ci once more; the status is rt ci's, or 1 where the docs or
the uses fail.
"""
import itertools
import os
import re
import subprocess
import sys
import threading
import time

import costs

TOP = os.path.dirname(os.path.dirname(os.path.abspath(__file__)))
# The scripts that use programs which the gate built, and the crates of these.
USES = (
    ("smoke.py", ("ksparse_cli",)),
    ("smoke_cc.py", ("ksparse_cli",)),
    ("smoke_large.py", ("flows", "workbench_cli", "ksparse_cli")),
    ("drivers.py", ("ksparse_cli",)),
    ("control_paths.py", ("lowered_cli",)),
)
# How long, in seconds, nothing is said of what is left.
QUIET = 60
# So many names of what is left are shown.
SHOWN = 6
# So many of the dearest crates are shown.
DEAREST = 8

DONE = re.compile(r"rt: (\w+)(: its tests)? (?:proved|NOT PROVED|is kept)")
EDITS = re.compile(r"rt: (\w+): trying its must-fail edits \((\d+)\)")
TEST = re.compile(r"^\s*#\[test\]", re.MULTILINE)


def has_tests(crate):
    for at, _, names in os.walk(os.path.join(TOP, "crates", crate, "src")):
        for name in names:
            with open(os.path.join(at, name), encoding="utf-8", errors="replace") as text:
                if TEST.search(text.read()):
                    return True
    return False


def crates():
    with open(os.path.join(TOP, "crates.txt"), encoding="utf-8") as text:
        return re.findall(r"^(\w+):", text.read(), re.MULTILINE)


class Left:
    """What rt ci has still to do, as far as its lines say."""

    def __init__(self):
        self.begun = self.said = time.monotonic()
        self.proofs = {name: None for name in crates()}
        self.proofs.update({f"{name}'s tests": None for name in crates() if has_tests(name)})
        self.all = len(self.proofs)
        self.edits = 0

    def read(self, line):
        done, edits = DONE.match(line), EDITS.match(line)
        if done:
            # a crate that is kept is told once; so are its tests, which are proved with it
            names = [f"{done[1]}'s tests" if done[2] else done[1]]
            names += [f"{done[1]}'s tests"] if line.startswith(f"rt: {done[1]} is kept") else []
            for name in names:
                self.proofs.pop(name, None)
            self.say()
        if edits:
            # which come behind the proofs of the crate
            self.edits += int(edits[2])
            self.proofs.pop(edits[1], None)
            self.proofs.pop(f"{edits[1]}'s tests", None)
            self.say()

    def say(self):
        self.said = time.monotonic()
        minutes, seconds = divmod(int(self.said - self.begun), 60)
        # they are proved about in the order of crates.txt
        names = [*list(self.proofs)[:SHOWN], *[".."] * (len(self.proofs) > SHOWN)]
        left = f"{len(self.proofs)} left: {', '.join(names)}" if names else "edits, programs and tests are tried"
        begun = f"; {self.edits} edits begun" if self.edits else ""
        print(f"gate: {minutes} min {seconds:02} s, {self.all - len(self.proofs)} of {self.all} proofs{begun}; {left}", flush=True)


def remind(left, ended):
    while not ended.wait(5):
        if time.monotonic() - left.said > QUIET:
            left.say()


def run_gate(rt):
    """The status of rt ci, its last line, and what it cost."""
    left, ended, last = Left(), threading.Event(), ""
    left.say()
    threading.Thread(target=remind, args=(left, ended), daemon=True).start()
    gate = subprocess.Popen([rt, "ci"], cwd=TOP, stdout=subprocess.PIPE, text=True, errors="replace")
    meter = costs.Meter(gate.pid)
    for line in gate.stdout:
        sys.stdout.write(line)
        sys.stdout.flush()
        left.read(line)
        last = line.rstrip("\n") or last
    status = gate.wait()
    ended.set()
    return status, last, meter.costs()


def print_costs(found):
    for row in itertools.islice(costs.rows(found), DEAREST):
        print(f"costs: {row}")
    costs.report(found, is_whole=True)


def script(name, *words):
    return subprocess.run([sys.executable, os.path.join(TOP, "scripts", name), *words], cwd=TOP, check=False).returncode


def uses_fail(name, crates_used):
    programs = [os.path.join(TOP, "crates", crate, "out", crate) for crate in crates_used]
    lacking = [program for program in programs if not os.path.isfile(program)]
    for program in lacking:
        print(f"gate: rt ci left no program {program}, so it wasn't used")
    return bool(lacking) or script(name, *programs) != 0


def main():
    status, last, found = run_gate(sys.argv[1])
    print_costs(found)
    failed = [name for name in ("docs.py",) if script(name)]
    failed += [name for name, crates_used in USES if uses_fail(name, crates_used)]
    for name in failed:
        print(f"gate: scripts/{name} FAILED")
    print(last)
    return status or (1 if failed else 0)


if __name__ == "__main__":
    sys.exit(main())
