"""Reads the definitions of crates/*/specs: what each module defines, where, and which names a definition uses."""
import dataclasses
import functools
import os
import re

TOP = os.path.dirname(os.path.dirname(os.path.abspath(__file__)))

# A name, perhaps with the alias of a module before it. The first part of `x.field` names a value, not a module.
WORD = re.compile(r"[A-Za-z_][A-Za-z0-9_']*(?:\.[A-Za-z_][A-Za-z0-9_']*)*")
USE = re.compile(r"^ *(?:ghost )?use Rattle\.(\w+)\.specs\.([\w.]+?)(?:\.\{([^}]*)\}| as (\w+))?;?$", re.MULTILINE)
HEAD = re.compile(r"(?:(?:abbrev|unfoldable|opaque|pub|private) )*(record |data )?(\S+)")
BOUND = re.compile(r"[({]((?:[a-z_][\w']*\s+)*[a-z_][\w']*)\s*:\s|λ\s*([a-z_][\w' ]*?)\s*\.")
VARIABLE = re.compile(r"(?<![\w.'])[a-z_][\w']*(?![\w.'])")
NOT_HEADS = ("use ", "pub use ", "pub mod ", "mutual", "abbrev mutual", "unfoldable mutual")


@dataclasses.dataclass
class Definition:
    file: str
    line: int
    last: int
    name: str
    # record, data, or nothing for a function
    kind: str
    is_public: bool
    # its text without comments
    text: list

    @property
    def signature(self):
        """What stands behind its name, up to its first equation, its fields or its constructors."""
        told = []
        for number, line in enumerate(self.text):
            if number and (self.kind or re.match(rf" *{re.escape(self.name)}\b", line)):
                break
            told.append(line.strip())
        whole = " ".join(told)
        return re.sub(r"\s+", " ", whole.split(self.name, 1)[1]).strip()

    def constructors(self):
        """Each constructor of a data type, with its type."""
        if self.kind != "data":
            return []
        found = []
        for line in self.text[1:]:
            match = re.match(r" +(\w+) : (.*)", line)
            if match:
                found.append((match[1], match[2].strip()))
            elif found:
                found[-1] = (found[-1][0], f"{found[-1][1]} {line.strip()}".strip())
        return found


def without_comment(line):
    return re.sub(r'"[^"]*"', '""', line).split("--")[0].rstrip()


@functools.lru_cache(None)
def read(file):
    with open(os.path.join(TOP, file), encoding="utf-8") as text:
        return text.read()


@functools.lru_cache(None)
def definitions_of(file):
    """The definitions of a module, in order."""
    found, depth, previous = [], 0, None
    for number, whole in enumerate(read(file).split("\n"), 1):
        line = without_comment(whole)
        indent = len(line) - len(line.lstrip())
        if not line:
            continue
        if indent == 0:
            depth = 2 if line.strip().endswith("mutual") else 0
        if line.startswith(NOT_HEADS):
            previous = None
            continue
        if indent == depth:
            head = HEAD.match(line.strip())
            name = head[2]
            if not previous or previous.name != name or line.strip().startswith(("pub ", "abbrev ", "unfoldable ")):
                is_public = " pub " in f" {line.strip()} "
                previous = Definition(file, number, number, name, (head[1] or "").strip(), is_public, [])
                found.append(previous)
        if previous:
            previous.text.append(line)
            previous.last = number
    return found


@functools.lru_cache(None)
def names_of(file):
    """The definition behind each name that a module has: also that of a constructor."""
    found = {}
    for definition in definitions_of(file):
        found[definition.name] = definition
        for name, _ in definition.constructors():
            found[name] = definition
    return found


def module_file(crate, path):
    return f"crates/{crate}/specs/{path.replace('.', '/')}.antt"


@functools.lru_cache(None)
def uses_of(text):
    """What the lines `use` of a text bring: (crate, path) of each name, and of each alias of a module."""
    names, aliases = {}, {}
    for crate, path, listed, alias in USE.findall(text):
        for name in filter(None, (it.strip() for it in listed.split(","))):
            names[name] = (crate, path)
        if alias:
            aliases[alias] = (crate, path)
    return names, aliases


def chunks_of(definition):
    """Its parts with names of their own: signature, equations, fields, constructors."""
    found = []
    for number, line in enumerate(definition.text):
        begins = not number or re.match(rf" *{re.escape(definition.name)}\b", line)
        if definition.kind and re.match(r" +(?:pub )?[\w']+ :", line):
            line, begins = line.split(":", 1)[1], True
        found = [*found, line] if begins or not found else [*found[:-1], f"{found[-1]}\n{line}"]
    return found


def words_of(text):
    """The names in a part of a definition that it doesn't bind itself."""
    # the fields that a record is given are none
    text = re.sub(r"([{;]\s*)[\w']+ = ", r"\1", text)
    bound = set()
    for group, by_lambda in BOUND.findall(text):
        bound.update((group or by_lambda).split())
    patterns = [re.match(r" *[\w']+((?: [^:=]*)?) =(?!=)", text)]
    patterns += [*re.finditer(r"\| ([^↦]*)↦", text), *re.finditer(r"\blet ([\w']+) ", text)]
    for pattern in filter(None, patterns):
        bound.update(VARIABLE.findall(pattern[1]))
    return [it for it in WORD.findall(text) if it.split(".")[0] not in bound]


def modules():
    """The files of all definitions, by path."""
    found = []
    for at, _, files in os.walk(os.path.join(TOP, "crates")):
        inside = os.path.relpath(at, TOP)
        if "/specs" in inside and "/out" not in inside:
            found += [f"{inside}/{it}" for it in files if it.endswith(".antt")]
    return sorted(found)
