#!/usr/bin/env python3
"""Checks that what README.md, docs/ and man/ cite exists: links, paths, crates, clauses, definitions, functions, make targets.

What stands in backquotes is a citation. A path is sought from the top, in crates/, and in the crates that its row, its paragraph
or its heading names. A word with an underscore, or with a capital inside, has to stand in the code. In a table row that names a
file, the names in the cell of the file, or in the column of definitions, have to stand in that file. The table of wrong
programs says how many there are.
"""
import fnmatch
import functools
import os
import re
import sys

TOP = os.path.dirname(os.path.dirname(os.path.abspath(__file__)))

# Words of C, of std, of the kit and of other programs.
KNOWN = set(
    "__user __attribute__ address_space __rcu __iomem __le32 _Bool _Pragma _Generic typeof asm NoMemory NAME FILE TEXT LINE COLUMN "
    "RT PREFIX PATH DESTDIR CI UTF".split()
)
# What the build makes.
BUILT = ("build/", "out/", "crates/*/out")
SOURCES = (".rt", ".antt", ".py", ".c", ".edit", ".md", ".txt")
COMMENT = {".rt": "//", ".antt": "--", ".py": "#"}
NAME = r"[A-Za-z_]\w*"
CITED = re.compile(r"`([^`\n]+)`")


@functools.lru_cache(None)
def files():
    found = []
    for at, folders, names in os.walk(TOP):
        folders[:] = [it for it in folders if it not in ("out", "build", ".git", "__pycache__")]
        inside = os.path.relpath(at, TOP)
        found += [os.path.normpath(f"{inside}/{it}") for it in [*names, *folders]]
    return found


@functools.lru_cache(None)
def every():
    return frozenset(files())


@functools.lru_cache(None)
def words_in(file):
    """The words of a file, without its comments."""
    path = os.path.join(TOP, file)
    if not os.path.isfile(path) or not file.endswith((".rt", ".antt", ".py", "Makefile", "crates.txt")):
        return frozenset()
    mark = COMMENT.get(os.path.splitext(file)[1])
    with open(path, encoding="utf-8") as text:
        lines = [line.split(mark)[0] if mark else line for line in text]
    return frozenset(re.findall(NAME, "".join(lines)))


@functools.lru_cache(None)
def words_of_code():
    found = {os.path.splitext(os.path.basename(it))[0] for it in files()}
    return found.union(*map(words_in, files()))


@functools.lru_cache(None)
def crates():
    return {it.split("/")[1] for it in files() if it.count("/") == 1 and it.startswith("crates/")}


def places_of(path, near):
    """The files that a path may mean, where these crates are near. A folder, and a file without one, may be anywhere."""
    is_anywhere = path.endswith("/") or "/" not in path or not near
    path = path.rstrip("/").replace("NAME", "*")
    tops = ["", "crates/", "docs/", "scripts/", *(f"crates/{it}/" for it in near)]
    found = [it for top in tops for it in ([top + path] if top + path in every() else fnmatch.filter(files(), top + path) if "*" in path else [])]
    if found or not is_anywhere:
        return found
    return [it for it in files() if it.endswith(f"/{path}")]


def is_path(cited):
    return re.fullmatch(r"[\w.*/-]+", cited) and ("/" in cited or cited.endswith(SOURCES)) and not cited.startswith(("/", "."))


def names_in(cited):
    """The names that a citation of one word has: a name, or some with `::` or `.` between them."""
    return re.findall(NAME, cited) if re.fullmatch(rf"{NAME}((::|\.){NAME})*", cited) else []


def is_name(word):
    return "_" in word.strip("_") or re.search(r"[a-z][A-Z]", word)


def blocks(text):
    """Each paragraph, item of a list or row of a table with its line, its heading, and the header of its table."""
    heading, header, found, fenced = "", None, [], False
    for number, line in enumerate(text.split("\n"), 1):
        fenced ^= line.startswith("```")
        if fenced or line.startswith("```") or not line.strip():
            header = None if not line.strip() else header
            found.append(None)
        elif line.startswith("#"):
            heading = line
            found.append((number, line, heading, None))
        elif line.startswith("|"):
            header = header or line
            found.append((number, line, heading, header))
        elif found and found[-1] and not found[-1][3] and found[-1][1] != heading and not re.match(r"(\d+\.|-) ", line):
            at, told, _, _ = found[-1]
            found[-1] = (at, f"{told}\n{line}", heading, None)
        else:
            found.append((number, line, heading, None))
    return [it for it in found if it]


@functools.lru_cache(None)
def targets():
    with open(os.path.join(TOP, "Makefile"), encoding="utf-8") as text:
        return set(re.findall(r"^([\w/-]+):", text.read(), re.MULTILINE))


def cells_of(row):
    """The cells of a row; a bar behind a backslash is none between two."""
    return re.split(r"(?<!\\)\|", row)[1:-1]


def row_findings(told, header, near):
    """Names beside a file in a row, which have to stand in it."""
    cells, heads = cells_of(told), [it.strip() for it in cells_of(header)]
    for at, cell in enumerate(cells):
        cited = CITED.findall(cell)
        paths = [it for path in filter(is_path, cited) for it in places_of(path, near) if it.endswith((".rt", ".antt"))]
        if not paths or not re.search("file", heads[at], re.IGNORECASE):
            continue
        sought = cited if heads[at] != "File" else CITED.findall(cells[heads.index("Definition")]) if "Definition" in heads else []
        for it in sought:
            for name in [] if is_path(it) else names_in(it):
                if name not in set().union(*map(words_in, paths)) | crates():
                    yield f"`{it}` doesn't stand in {', '.join(paths)}"


def count_findings(told, header):
    """Numbers of wrong programs in a row, which have to be those of its folders."""
    cells, heads = ([it.strip() for it in cells_of(line)] for line in (told, header))
    crate = CITED.match(cells[0])
    if "In `edits/`" not in heads or not crate:
        return
    for head, folder in ("Tried by the gate", "must-fail"), ("In `edits/`", "edits"):
        said = int(cells[heads.index(head)] or 0)
        count = len(fnmatch.filter(files(), f"crates/{crate[1]}/{folder}/*.edit"))
        if said != count:
            yield f"`{crate[1]}` has {count} in {folder}/, not {said}"


def findings_of(file):
    with open(os.path.join(TOP, file), encoding="utf-8") as text:
        whole = text.read()
    first = []
    for line, told, heading, header in blocks(whole):
        named = [it for it in CITED.findall(told + heading) for it in [it.split("/")[0], *it.split("/")[1:2]] if it in crates()]
        if header:
            cell = CITED.findall(cells_of(told)[0])
            first = [it for it in cell if it in crates()] or (first if not cell else [])
        near = sorted({*named, *(first if header else [])})
        for cited in CITED.findall(told):
            if cited.startswith("make "):
                for word in cited.split()[1:]:
                    if "=" not in word and word not in targets():
                        yield f"{file}:{line}: `{cited}`: no such target"
            elif is_path(cited) and not cited.startswith(BUILT):
                if not places_of(cited, near):
                    yield f"{file}:{line}: `{cited}`: no such file"
            else:
                for name in names_in(cited):
                    if is_name(name) and name not in KNOWN and name not in words_of_code():
                        yield f"{file}:{line}: `{cited}`: no such name"
        if header and told != header:
            for it in [*row_findings(told, header, near), *count_findings(told, header)]:
                yield f"{file}:{line}: {it}"
    for link in re.findall(r"\]\(([^)#:]+)[^)]*\)", whole):
        if not os.path.exists(os.path.join(TOP, os.path.dirname(file), link)):
            yield f"{file}: no such file: {link}"


def main():
    pages = ["README.md", *sorted(it for it in files() if re.match(r"(docs|man)/", it))]
    findings = [it for page in pages for it in findings_of(page)]
    print(*findings, sep="\n", end="\n" if findings else "")
    print(f"docs: {len(pages)} pages, {len(findings)} findings")
    return 1 if findings else 0


if __name__ == "__main__":
    sys.exit(main())
