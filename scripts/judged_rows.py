#!/usr/bin/env python3
"""Runs the fixtures and the archives of the judge over `reference`, so that both are known to agree.

usage: judged_rows.py DATA [ARCHIVE ..]

DATA is the folder of the fixtures. A text that is longer than `LONGEST` isn't run, since the reader goes into
what is nested. Prints each row in which the two differ, and how many weren't compared; exits 1 where two differ.
"""
import os
import re
import sys
import threading

import archives
from reference import judging, typed

LONGEST = 20_000
# What so long a text needs, where it is nothing but parentheses
STACK, FRAMES = 1 << 29, 1_000_000

MARK = re.compile(rb"//( *)([\^|]) (.*)")
ANSWERS = {"ksparse": judging.answer, "types": typed.answer}

WORDS = re.compile(rb"^// words: (.*)", re.MULTILINE)
LIMIT = re.compile(rb"// err: (.*)")
HEADER = re.compile(rb"// header: (.*)")


def marks(name, text, headers):
    """The lines that the marks of a file expect, those of the headers that it names among them."""
    lines, place, code = [], (1, 1), None
    for number, line in enumerate(text.split(b"\n"), 1):
        mark, limit, header = MARK.match(line), LIMIT.match(line), HEADER.match(line)
        if limit:
            lines.append(limit[1] + b"\n")
        elif header:
            lines += marks(header[1], headers[header[1]], headers)
        if mark is None:
            code = code if line.startswith(b"//") or not line.strip() else number
            continue
        if mark[2] == b"^":
            place = (code, len(mark[1]) + 3) if code else (1, 1)
        begin = b"" if mark[3].startswith(b"error[") else b"warning: " if mark[2] == b"^" else b"   "
        lines.append(b"%b:%d:%d: %b%b\n" % (name, *place, begin, mark[3]))
    return lines


def marked(name, text, headers):
    """The words of a fixture's command, and what its marks expect: the lines and the status."""
    said = WORDS.search(text)
    words = [name if word == b"FILE" else word for word in said[1].split()] if said else [name]
    lines = marks(name, text, headers)
    refused = any(b": error[" in line for line in lines)
    passed = any(line.startswith(b"ksparse: limit: ") for line in lines)
    status = judging.LIMIT if passed else judging.REFUSED if refused else judging.WARNED if lines else judging.CLEAN
    return words, (b"", b"".join(lines), status)


def fixtures(data):
    """The fixtures: where each stands, who answers it, its words, the files that it sees, and what it expects."""
    headers = {}
    for at, _, names in os.walk(os.path.join(data, "include")):
        for name in names:
            path = os.path.join(at, name)
            with open(path, "rb") as file:
                headers[os.path.relpath(path, data).encode()] = file.read()
    for name in sorted(it for it in os.listdir(data) if it.endswith(".c")):
        with open(os.path.join(data, name), "rb") as file:
            text = file.read()
        words, expected = marked(name.encode(), text, headers)
        yield name, judging.answer, words, headers | {name.encode(): text}, expected


def cases(path):
    """The same of the cases of an archive."""
    with open(path, "rb") as file:
        found = archives.read(file.read())
    for case in found:
        if case.program in ANSWERS:
            expected = case.expected["out"], case.expected["err"], int(case.expected["status"])
            yield f"{path}:{case.line}", ANSWERS[case.program], case.words, case.files, expected


def difference(answer, words, files, expected):
    """What the reader says otherwise, or nothing."""
    try:
        found = answer(words, files)
    except judging.NotBuilt as form:
        return f"isn't read here: {form}"
    return None if found == expected else f"{found} in place of {expected}"


def run(status):
    """Runs all rows; the status is handed out in a list."""
    rows = [*fixtures(sys.argv[1]), *(row for path in sys.argv[2:] for row in cases(path))]
    short = [row for row in rows if max(map(len, row[3].values()), default=0) <= LONGEST]
    for where, *row in short:
        wrong = difference(*row)
        if wrong:
            status[0] = 1
            print(f"{where}: {wrong}")
    print(f"judged_rows: {len(short)} rows, {len(rows) - len(short)} too long; {'rows differ' if status[0] else 'ok'}")


def main():
    sys.setrecursionlimit(FRAMES)
    threading.stack_size(STACK)
    status = [0]
    thread = threading.Thread(target=run, args=(status,))
    thread.start()
    thread.join()
    return status[0]


if __name__ == "__main__":
    sys.exit(main())
