"""Random units, macros and commands through programs, compared with `reference`, for scripts/fuzz.py."""
import os
import shutil
import subprocess

import made_expressions
import made_readings
import workbench_answers
from made_attributes import attribute_lists, context_statements
from made_units import Maker
from reference import trees
from reference.judging import NotBuilt, answer
from shrinking import shrunk


def run(program, words, folder):
    done = subprocess.run([program, *words], cwd=folder, capture_output=True, timeout=10)
    return done.returncode, done.stdout, done.stderr


def write(folder, path, text):
    path = os.path.join(folder, path.decode())
    os.makedirs(os.path.dirname(path), exist_ok=True)
    with open(path, "wb") as file:
        file.write(text)


def tool_differs(workbench, folder, words):
    """A test of a text: whether this command of the workbench answers otherwise for a file of it."""
    path = words[1]

    def differs(text):
        write(folder, path, text)
        status, out, _ = run(workbench, words, folder)
        return status != 0 or out != workbench_answers.answer(words, {path: text})

    return differs


def unit_command(chance):
    """A unit, and the words of a tool that shows it."""
    return Maker(chance, has_headers=False).file(), [chance.choice([b"preprocess", b"preprocess", b"left_names"]), b"u.c"]


def expansion_command(chance):
    """Definitions and a text, and the words of the tool that expands it, often within a small budget."""
    maker = Maker(chance)
    words = [b"expand", b"e.txt", b'spelled="e.txt"']
    words += [b"%b=%d" % (name, chance.randrange(30)) for name in (b"replacements", b"tokens", b"counter") if maker.often(30)]
    words += [b"places"] * maker.often(50)
    return f"{maker.table()}{maker.text()}\n{maker.text()}\n", words


def attribute_command(chance):
    """Attribute lists in lines of their own, and the words of the tool that reads them; or context statements."""
    if chance.randrange(4):
        return attribute_lists(chance), [b"attributes", b"a.txt"]
    return context_statements(chance), [b"context_changes", b"a.txt"]


def check_tools(workbench, folder, chance, count):
    """Compares so many answers of each tool; true where all are alike."""
    for number in range(count):
        for command in (unit_command, expansion_command, attribute_command):
            text, words = command(chance)
            differs = tool_differs(workbench, folder, words)
            if differs(text.encode()):
                small = shrunk(text.encode(), differs)
                differs(small)
                print(f"fuzz: workbench {b' '.join(words).decode()}, text {number}, made smaller: {small!r}")
                print(f"fuzz: it prints {run(workbench, words, folder)[1:]!r}")
                print(f"fuzz: in place of {workbench_answers.answer(words, {words[1]: small})!r}")
                return False
    return True


class Folder:
    """The files of a folder, by their paths from it."""

    def __init__(self, folder):
        self.folder = folder

    def get(self, path):
        folder = os.open(self.folder, os.O_RDONLY)
        try:
            with open(path, "rb", opener=lambda name, flags: os.open(name, flags, dir_fd=folder)) as file:
                return file.read()
        except FileNotFoundError:
            return None
        finally:
            os.close(folder)


def wanted_of_command(words, folder):
    """What a command has to write in a folder, and its status: one of its own where a file is there and can't be read."""
    try:
        return answer(words, Folder(folder))
    except OSError:
        return b"", b"", 4


def wanted_of_trees(words, folder):
    """The same of `trees`."""
    return trees.answer(words, Folder(folder))


def wanted_of_tool(words, folder):
    """The same of the tool `preprocess`."""
    return workbench_answers.preprocessed(words[1], Folder(folder)), b"", 0


def command_differs(program, words, folder, wanted):
    """A test of a text: whether this command answers otherwise where the text is that of `t.c`."""

    def differs(text):
        write(folder, b"t.c", text)
        status, out, err = run(program, words, folder)
        try:
            return (out, err, status) != wanted(words, folder)
        except NotBuilt:
            return False

    return differs


def same_answer(program, words, folder, files, wanted):
    """Whether a command over these files has the answer that is wanted. Prints a small text with another one."""
    room = os.path.join(folder, "files")
    for path, text in files.items():
        write(room, path, text)
    differs = command_differs(program, words, room, wanted)
    if differs(files[b"t.c"]):
        small = shrunk(files[b"t.c"], differs)
        differs(small)
        print(f"fuzz: command {words!r}, files {files | {b't.c': small}!r}")
        print(f"fuzz: it answers {run(program, words, room)!r}")
        print(f"fuzz: in place of {wanted(words, room)!r}")
        return False
    shutil.rmtree(room)
    return True


def check_commands(program, folder, chance, count):
    """Compares so many answers to random words and files; true where all are alike."""
    for _ in range(count):
        maker = Maker(chance)
        if not same_answer(program, maker.words(), folder, maker.files(), wanted_of_command):
            return False
    return True


def check_headers(workbench, folder, chance, count):
    """Compares so many units of random files with headers; true where all are alike."""
    for _ in range(count):
        if not same_answer(workbench, [b"preprocess", b"t.c"], folder, Maker(chance).files(), wanted_of_tool):
            return False
    return True


def check_readings(program, folder, chance, count):
    """Compares so many checks of units by the grammar and with slips, and of expressions; true where all are alike."""
    for _ in range(count):
        text = chance.choice([made_readings.unit, made_expressions.unit])(chance)
        if not same_answer(program, [b"t.c"], folder, {b"t.c": text}, wanted_of_command):
            return False
    return True


def check_trees(shown, folder, chance, count):
    """Compares so many trees of such units, or their refusals; true where all are alike."""
    for _ in range(count):
        text = chance.choice([made_readings.unit, made_expressions.unit])(chance)
        if not same_answer(shown, [b"t.c"], folder, {b"t.c": text}, wanted_of_trees):
            return False
    return True
