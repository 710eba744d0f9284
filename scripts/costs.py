#!/usr/bin/env python3
"""Runs the gate with nothing kept, and prints what each crate cost, in processor seconds, as rows of a table; and then what is
above its budget, and what `make run` costs, which proves what the program stands on and nothing else.

usage: costs.py RT [CRATE..]

It looks at /proc, as Linux has it, for the prover's processes below it: the proof of a crate, that of its tests, and
its edits, which are tried in folders of their own. With names of crates the budgets of the whole aren't looked at.
The gate prints the dearest rows too, so what a merge cost stands in its log.
"""
import collections
import os
import subprocess
import sys
import threading

from build import TOP, crates_below

PROGRAM = "ksparse_cli"
# Budgets, in processor minutes: of the whole, edits and tests counted in, and of make run, for each 1,000 lines of .rt; of one
# crate; and of the whole.
OF_LINES = 5
OF_LINES_IN_RUN = 2
OF_CRATE = 12
OF_WHOLE = 300

TICKS = os.sysconf("SC_CLK_TCK")
PARTS = ("proof", "tests", "edits")


def parents():
    """The parent of each process."""
    found = {}
    for name in filter(str.isdigit, os.listdir("/proc")):
        try:
            with open(f"/proc/{name}/stat") as stat:
                found[int(name)] = int(stat.read().rsplit(")", 1)[1].split()[1])
        except OSError:
            continue
    return found


def is_below(process, top, above):
    while process in above and process != top:
        process = above[process]
    return process == top


def seconds_of(process):
    """The processor seconds of a process so far, and those of the ended ones that it began."""
    with open(f"/proc/{process}/stat") as stat:
        fields = stat.read().rsplit(")", 1)[1].split()
    return sum(map(int, fields[11:15])) / TICKS


def task_of(process):
    """What a process of the prover works at, or None."""
    with open(f"/proc/{process}/cmdline", "rb") as line:
        words = line.read().decode(errors="replace").split("\0")
    if os.path.basename(words[0]) != "rattle" or "--crate-name" not in words:
        return None
    part = "edits" if "rt-edit" in os.readlink(f"/proc/{process}/cwd") else "tests" if "--test" in words else "proof"
    return words[words.index("--crate-name") + 1], part


class Meter:
    """Looks twice a second at what the processes below this one have cost so far, until it is read."""

    def __init__(self, top):
        self.top = top
        # the seconds of each process of the prover, with what it worked at; those of its own processes are in them once they ended
        self.seconds = {}
        self.ended = threading.Event()
        self.thread = threading.Thread(target=self.watch, daemon=True)
        self.thread.start()

    def watch(self):
        while not self.ended.wait(0.5):
            above = parents()
            for process in above:
                if is_below(process, self.top, above):
                    self.look(process)

    def look(self, process):
        try:
            task = task_of(process)
            if task:
                self.seconds[process, task] = max(seconds_of(process), self.seconds.get((process, task), 0))
        except OSError:
            # it has ended meanwhile
            pass

    def costs(self):
        """The processor minutes of each crate and part."""
        self.ended.set()
        self.thread.join()
        costs = collections.Counter()
        for (_, task), seconds in self.seconds.items():
            costs[task] += seconds / 60
        return costs


def lines_of(crates):
    """How many lines of .rt these crates have, in thousands."""
    count = 0
    for crate in crates:
        for at, _, names in os.walk(os.path.join(TOP, "crates", crate, "src")):
            for name in filter(lambda it: it.endswith(".rt"), names):
                with open(os.path.join(at, name), "rb") as text:
                    count += text.read().count(b"\n")
    return count / 1000


def gate_words(rt):
    """The gate with nothing kept. A kit whose gate keeps nothing has no word for it."""
    told = subprocess.run([rt, "help"], capture_output=True, text=True, check=False)
    return [rt, "ci", *["--anew"] * ("--anew" in told.stdout + told.stderr)]


def budgets(costs, is_whole):
    """Each cost with its budget, in minutes: what it is of, the cost, and the budget."""
    crates = sorted({crate for crate, _ in costs})
    for crate in crates:
        yield crate, sum(costs[crate, part] for part in PARTS), OF_CRATE
    if is_whole:
        run = [*crates_below(PROGRAM), PROGRAM]
        yield "the whole", sum(costs.values()), min(OF_WHOLE, OF_LINES * lines_of(crates))
        yield "make run", sum(costs[crate, "proof"] for crate in run), OF_LINES_IN_RUN * lines_of(run)


def rows(costs):
    """The crates with what each part of them cost, the dearest first, as rows of a table."""
    of_crates = collections.Counter()
    for (crate, _), minutes in costs.items():
        of_crates[crate] += minutes
    for crate, _ in of_crates.most_common():
        row = [f"{60 * costs[crate, part]:.0f}" if costs[crate, part] else "" for part in PARTS]
        yield f"| `{crate}` | {' | '.join(row)} |"


def report(costs, is_whole):
    """Prints what the whole cost, and what is above its budget; answers how much is."""
    above = 0
    for name, minutes, budget in budgets(costs, is_whole):
        if name in ("the whole", "make run"):
            print(f"costs: {name} takes {minutes:.1f} processor minutes of {budget:.1f}")
        if minutes > budget:
            print(f"costs: {name} is above its budget: {minutes:.1f} processor minutes of {budget:.1f}")
            above += 1
    return above


def main():
    rt, *crates = sys.argv[1:]
    gate = subprocess.Popen([*gate_words(rt), *crates])
    meter = Meter(gate.pid)
    status = gate.wait()
    costs = meter.costs()
    print("| Crate | Its proof | The proof of its tests | Its edits |\n|---|---|---|---|")
    for row in rows(costs):
        print(row)
    return status or (1 if report(costs, not crates) else 0)


if __name__ == "__main__":
    sys.exit(main())
