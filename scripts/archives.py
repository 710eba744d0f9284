"""Reads the archives of `crates/cases`, whose form is told in its `src/main.rt`."""
import io
import os
import re
from typing import NamedTuple

ESCAPE = re.compile(rb"\\(?:([0r\\])|x([0-9A-F]{2})|\*([0-9]{1,7})\*(.)|\n?\Z)", re.DOTALL)
PLAIN = {b"0": b"\0", b"r": b"\r", b"\\": b"\\"}
STREAMS = ("out", "err", "status")


class Case(NamedTuple):
    """A command, its line, the files that it sees, and what is expected of it."""

    line: int
    program: str
    words: list
    files: dict
    expected: dict


def unescaped(text):
    """The bytes that an escaped text stands for."""

    def bytes_of(match):
        plain, hexadecimal, count, byte = match.groups()
        if plain:
            return PLAIN[plain]
        if hexadecimal:
            return bytes([int(hexadecimal, 16)])
        return byte * int(count) if count else b""

    return ESCAPE.sub(bytes_of, text)


def heads(text):
    """Each line that begins a section or a command, with its number and the text behind it."""
    found = []
    for number, line in enumerate(io.BytesIO(text), 1):
        if line.startswith((b"-- ", b"$ ")):
            found.append((number, line.rstrip(b"\n"), []))
        elif found:
            found[-1][2].append(line)
    return [(number, line, b"".join(behind)) for number, line, behind in found]


def section(line, text):
    """The name of a section, and what it holds."""
    name = line[3:-3]
    if name.endswith(b" escaped"):
        return unescaped(name[:-8]), unescaped(text)
    return unescaped(name), text


def read(text):
    """The cases of an archive."""
    cases, files = [], {}
    for number, line, behind in heads(text):
        if line.startswith(b"$ "):
            program, *words = line[2:].split(b" # ")[0].split(b" ")
            expected = {"out": b"", "err": b"", "status": b"0\n"}
            cases.append(Case(number, program.decode(), [unescaped(word) for word in words], dict(files), expected))
            continue
        name, held = section(line, behind)
        if name.decode("latin-1") in STREAMS:
            cases[-1].expected[name.decode()] = held
        else:
            files[name] = held
    return cases


def write(folder, files):
    """Writes the files of a map, by their paths below a folder."""
    for path, text in files.items():
        path = os.path.join(folder, path.decode())
        os.makedirs(os.path.dirname(path), exist_ok=True)
        with open(path, "wb") as file:
            file.write(text)
