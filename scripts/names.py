#!/usr/bin/env python3
"""Shows the public names of crates/*/specs that stand in two modules with other types or shapes.

Each has to have a line in docs/GLOSSARY.md, under `Names that stand twice`, that says why: | `name` | why |. It fails where one
has none, and where a name with a line no longer stands twice.
"""
import collections
import re
import sys

import definitions

GLOSSARY = "docs/GLOSSARY.md"
HEADING = "## Names that stand twice"


def public_names():
    """Each public name with its shape, and where it stands."""
    for file in definitions.modules():
        for it in definitions.definitions_of(file):
            if it.is_public:
                yield it.name, it.kind or it.signature, f"{file}:{it.line}"
                for name, shape in it.constructors():
                    yield name, f"constructor {shape}", f"{file}:{it.line}"


def explained():
    """The names that the glossary has a line for."""
    text = definitions.read(GLOSSARY)
    if HEADING not in text:
        return set()
    part = text.split(HEADING, 1)[1].split("\n## ", 1)[0]
    names = [re.findall(r"`([^`]+)`", line.split("|")[1]) for line in part.split("\n") if line.startswith("| `")]
    return {name for line in names for name in line}


def main():
    found = collections.defaultdict(list)
    for name, shape, place in public_names():
        found[name].append((shape, place))
    twice = {
        name: [place for _, place in them]
        for name, them in found.items()
        if len({place.split(":")[0] for _, place in them}) > 1 and len({shape for shape, _ in them}) > 1
    }
    known = explained()
    findings = [f"{name}: no line in {GLOSSARY} says why it stands at {', '.join(twice[name])}" for name in sorted(set(twice) - known)]
    findings += [f"{name}: {GLOSSARY} has a line for it, and it doesn't stand twice" for name in sorted(known - set(twice))]
    print(*findings, sep="\n", end="\n" if findings else "")
    print(f"names: {len(twice)} stand twice, {len(findings)} findings")
    return 1 if findings else 0


if __name__ == "__main__":
    sys.exit(main())
