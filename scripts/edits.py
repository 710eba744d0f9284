#!/usr/bin/env python3
"""Tries the wrong programs of crates/NAME/edits, which the gate doesn't: the prover has to refuse each.

usage: edits.py RT [NAME..]

They are put in the place of must-fail/ in a copy of the repository, where rt must-fail tries them.
"""
import collections
import os
import re
import shutil
import subprocess
import sys
import tempfile

TOP = os.path.dirname(os.path.dirname(os.path.abspath(__file__)))
VERDICTS = ("NOT REFUSED", "BAD EDIT", "NOT TRIED", "refused")
# What rt says of a refusal that tells little of the contract
NAMED = "only because a proof file names"


def with_edits():
    folder = os.path.join(TOP, "crates")
    return sorted(it for it in os.listdir(folder) if os.path.isdir(os.path.join(folder, it, "edits")))


def copy_to(room):
    ignored = shutil.ignore_patterns("out", "must-fail")
    shutil.copytree(os.path.join(TOP, "crates"), os.path.join(room, "crates"), ignore=ignored)
    for name in ("crates.txt", "HANDLES"):
        shutil.copy(os.path.join(TOP, name), room)


def try_edits(rt, room, crate):
    """How many edits of the crate have each verdict."""
    folder = os.path.join(room, "crates", crate)
    os.rename(os.path.join(folder, "edits"), os.path.join(folder, "must-fail"))
    wanted = sum(it.endswith(".edit") for it in os.listdir(os.path.join(folder, "must-fail")))
    print(f"edits: {crate}: {wanted}", flush=True)
    found, others = collections.Counter(), []
    ran = subprocess.Popen([rt, "must-fail", crate], cwd=room, stdout=subprocess.PIPE, stderr=subprocess.STDOUT, text=True, errors="replace")
    for line in ran.stdout:
        match = re.search(rf"([\w.-]+\.edit): ({'|'.join(VERDICTS)})", line)
        if match:
            little = ", but only because a proof names what it took away" if NAMED in line else ""
            print(f"{crate}/{match[1]}: {match[2]}{little}" if match[2] == "refused" else line.rstrip("\n"), flush=True)
            found[match[2]] += 1
        else:
            others.append(line)
    ran.wait()
    # those that rt said nothing of, as where a library below isn't proved
    untold = wanted - sum(found.values())
    if untold:
        print(*others[-20:], sep="", end="")
    found["NOT TRIED"] += untold
    return found


def main():
    rt, *names = sys.argv[1:]
    lacking = [it for it in names if it not in with_edits()]
    if lacking:
        print(f"edits: no folder crates/{lacking[0]}/edits; there are {', '.join(with_edits())}")
        return 1
    whole = collections.Counter()
    with tempfile.TemporaryDirectory(prefix="edits-") as room:
        copy_to(room)
        # rt takes the nearest folder with a .git above as the repository
        os.mkdir(os.path.join(room, ".git"))
        for crate in names or with_edits():
            whole.update(try_edits(rt, room, crate))
    print(f"edits: {', '.join(f'{whole[it]} {it}' for it in reversed(VERDICTS))}")
    return 1 if sum(whole[it] for it in VERDICTS[:-1]) or not whole["refused"] else 0


if __name__ == "__main__":
    sys.exit(main())
