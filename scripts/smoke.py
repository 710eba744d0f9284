#!/usr/bin/env python3
"""Runs ksparse as its users would, wrongly too, and compares texts and statuses with a table.

usage: smoke.py PROGRAM
"""
import os
import resource
import shutil
import subprocess
import sys
import tempfile

WARNED = (
    "extern int *p;\n"
    "extern int __attribute__((noderef, address_space(__user))) *u;\n"
    "void f(void) { p = u; }\n"
)

# The warnings of that file, where {} is its name.
WARNINGS = (
    "{0}:3:18: warning: incorrect type in assignment (different address spaces)\n"
    "{0}:3:18:    expected int *\n"
    "{0}:3:18:    got int noderef address_space(__user) *\n"
)

# More lines of warnings than a pipe takes at once.
MANY = 3000

MANY_WARNED = (
    "extern int __attribute__((noderef)) a;\n"
    "extern int b;\n"
    "void f(void) {\n" + "b = a;\n" * MANY + "}\n"
)

MANY_WARNINGS = "".join(
    f"many.c:{line}:5: warning: dereference of noderef expression\n" for line in range(4, 4 + MANY)
)

# At these counts a table or a buffer might give up: 65,536 is one more than two bytes hold.
COUNTS = [1000, 65536, 70000]

LOADS = "extern int a; extern int __attribute__((noderef)) b; void f(void) {\n"
CONVERSIONS = "extern int *p; extern int __attribute__((noderef)) *q; void f(void) {\n"

LOAD_WARNING = "wide.c:{0}:5: warning: dereference of noderef expression\n"
CONVERSION_WARNING = (
    "wide.c:{0}:3: warning: incorrect type in assignment (different address spaces)\n"
    "wide.c:{0}:3:    expected int *\n"
    "wide.c:{0}:3:    got int noderef *\n"
)

# A unit of many like lines: its first line, a line where {} is its number, its last line, and what is told of each line.
WIDE_UNITS = [
    ("\n", "extern int a{};\n", "", ""),
    ("extern int a;\n", "void f{}(void) {{ a = a; }}\n", "", ""),
    ("extern int __attribute__((\n", "address_space(1),\n", "noderef)) a;", ""),
    ("extern int a; void f(void) {\n", "a = a;\n", "}", ""),
    (LOADS, "a = b;\n", "}", LOAD_WARNING),
    (CONVERSIONS, "p = q;\n", "}", CONVERSION_WARNING),
]

MOST_BYTES = 8388608
MOST_TOKENS = 2000000

FILES = {
    "t.c": WARNED,
    "many.c": MANY_WARNED,
    "folder/t.c": WARNED,
    "-x": WARNED,
    "eval": WARNED,
    "longest.c": " " * MOST_BYTES,
    "too_long.c": " " * (MOST_BYTES + 1),
    "a name with spaces and ü.c": WARNED,
    "clean.c": "extern int x;\n",
    "empty.c": "",
    "macro.c": "#define X 1\n",
    "comment.c": "extern int x;\n  /* x\n",
    "string.c": "extern int x; \"x\nextern int y;\n",
    "character.c": "'x",
    "large.c": "extern int a; void f(void) { " + "a = a; " * 400000 + "}",
    "k.c": '#include "k.h"\nextern int *p;\nvoid f(void) { SET(p, u); }\n',
    "include/k.h": "#define __user __attribute__((noderef, address_space(__user)))\n"
    "extern int __user *u;\n#define SET(a, b) a = b\n",
    "x.c": "X\n",
    "ifdef.c": "#ifdef X\nint X;\n#endif\n",
    "if.c": "#if FOO\n#endif\n",
    "lines.c": "#define f(a) a\nx f(1\n) y\n z\n",
    "self.c": '#include "self.c"\n',
    "no_header.c": '#include "no.h"\n',
    "folder_as_header.c": "#include <folder>\n",
    "xy.c": "X Y\n",
    "line.c": "__LINE__\n",
    "angles.c": "extern int *p;\n#include <k.h>\nvoid f(void) { SET(p, u); }\n",
    "most_tokens.c": "; " * MOST_TOKENS,
    "too_many_tokens.c": "; " * (MOST_TOKENS + 1),
}

# Names of other files, and what each leads to.
LINKS = {
    "link.c": "t.c",
    "dangling.c": "missing.c",
    "loop.c": "loop.c",
    "link": "folder",
}

# A use: its words, what it writes to standard error, and its status.
USES = [
    (["t.c"], WARNINGS.format("t.c"), 1),
    (["a name with spaces and ü.c"], WARNINGS.format("a name with spaces and ü.c"), 1),
    (["clean.c"], "", 0),
    (["empty.c"], "", 0),
    (["large.c"], "", 0),
    (["/dev/null"], "", 0),
    (["many.c"], MANY_WARNINGS, 1),
    (["./-x"], WARNINGS.format("./-x"), 1),
    (["./eval"], WARNINGS.format("./eval"), 1),
    (["folder/../t.c"], WARNINGS.format("folder/../t.c"), 1),
    (["link.c"], WARNINGS.format("link.c"), 1),
    (["link/t.c"], WARNINGS.format("link/t.c"), 1),
    (["macro.c"], "", 0),
    (["comment.c"], "comment.c:2:3: error[3]: unterminated comment\n", 2),
    (["string.c"], "string.c:1:15: error[4]: unterminated literal\n", 2),
    (["character.c"], "character.c:1:1: error[4]: unterminated literal\n", 2),
    (["missing.c"], "ksparse: error[1]: no such file: missing.c\n", 2),
    ([""], "ksparse: error[1]: no such file: \n", 2),
    ([" t.c "], "ksparse: error[1]: no such file:  t.c \n", 2),
    (["a\tb\x1b\n.c"], "ksparse: error[1]: no such file: a\tb\x1b\n.c\n", 2),
    (["*.c"], "ksparse: error[1]: no such file: *.c\n", 2),
    (["dangling.c"], "ksparse: error[1]: no such file: dangling.c\n", 2),
    (["missing/t.c"], "ksparse: error[1]: no such file: missing/t.c\n", 2),
    # The longest name that a folder can hold.
    (["n" * 255], f"ksparse: error[1]: no such file: {'n' * 255}\n", 2),
    ([], "ksparse: missing file\n", 3),
    (["t.c", "clean.c"], "ksparse: bad word: clean.c\n", 3),
    ([str(n) for n in range(100)], "ksparse: bad word: 1\n", 3),
    (["-x", "t.c"], "ksparse: bad word: -x\n", 3),
    (["--help"], "ksparse: bad word: --help\n", 3),
    (["-"], "ksparse: bad word: -\n", 3),
    (["--", "t.c"], "ksparse: bad word: --\n", 3),
    (["eval"], "ksparse: bad word: eval\n", 3),
    (["t.c", ""], "ksparse: bad word: \n", 3),
    (["", "t.c"], "ksparse: bad word: t.c\n", 3),
    ([b"\xff"], "ksparse: bad word: not UTF-8\n", 3),
    ([b"t.c\xc3"], "ksparse: bad word: not UTF-8\n", 3),
    (["t.c", b"\xed\xa0\x80"], "ksparse: bad word: not UTF-8\n", 3),
    # These are there, or it can't be known, and what they hold can't be read.
    (["."], "", 4),
    (["folder"], "", 4),
    (["link/"], "", 4),
    (["t.c/"], "", 4),
    (["t.c/t.c"], "", 4),
    (["loop.c"], "", 4),
    (["n" * 256], "", 4),
    (["n/" * 4000], "", 4),
    (["/proc/self/mem"], "", 4),
    (["longest.c"], "", 0),
    (["too_long.c"], "ksparse: limit: file size\n", 7),
    (["/dev/zero"], "ksparse: limit: file size\n", 7),
    (["most_tokens.c"], "", 0),
    (["too_many_tokens.c"], "ksparse: limit: unit tokens\n", 7),
]

K_WARNINGS = WARNINGS.format("k.c").replace("3:18", "3:16")
K_TEXT = (
    "extern int __attribute__ ( ( noderef , address_space ( __user ) ) ) * u ;\n"
    "extern int * p ;\n"
    "void f ( void ) { p = u ; }\n"
)

# Commands as a user types them, with what they write and their status.
TYPED = [
    ("ksparse -Iinclude k.c", "", K_WARNINGS, 1),
    ("ksparse k.c -I include", "", "ksparse: bad word: -I\n", 3),
    ("ksparse -E -Iinclude k.c", K_TEXT, "", 0),
    ("ksparse k.c -E -Iinclude/", K_TEXT, "", 0),
    ('ksparse -E -I"$PWD/include" k.c', K_TEXT, "", 0),
    ("ksparse -E k.c", "", "k.c:1:10: error[2]: include not found: k.h\n", 2),
    ("ksparse -E lines.c", "x 1\ny\nz\n", "", 0),
    ("ksparse -E empty.c", "", "", 0),
    ("ksparse -E longest.c", "", "", 0),
    ("ksparse -E -DX=a ifdef.c", "int a ;\n", "", 0),
    ("ksparse -E -DX -UX ifdef.c", "", "", 0),
    ("ksparse -E '-DX=(a) b' x.c", "( a ) b\n", "", 0),
    ("ksparse -E -DX='\"a  b\"' x.c", '"a  b"\n', "", 0),
    ("ksparse -E -DX= x.c", "", "", 0),
    ("ksparse -E -DX=a\\\\ -DY=1 xy.c", "a # define Y 1 Y\n", "", 0),
    ("ksparse -E -DX=Y -DY=X x.c", "X\n", "", 0),
    ("ksparse -E -D__LINE__=7 line.c", "7\n", "", 0),
    ("ksparse clean.c -E -E", "extern int x ;\n", "", 0),
    ("ksparse -Iinclude angles.c", "", WARNINGS.format("angles.c").replace("3:18", "3:16"), 1),
    ("ksparse -E -DX -DX=2 x.c", "", "<command>:2:1: error[10]: macro 'X' redefined\n", 2),
    ("ksparse -E -DX -DY=\\' x.c", "", "<command>:2:11: error[4]: unterminated literal\n", 2),
    ("ksparse -E -Ddefined x.c", "", "<command>:1:1: error[11]: bad macro definition\n", 2),
    ("ksparse -E missing.c", "", "ksparse: error[1]: no such file: missing.c\n", 2),
    ("ksparse no_header.c", "", "no_header.c:1:10: error[2]: include not found: no.h\n", 2),
    ("ksparse self.c", "", "ksparse: limit: include depth\n", 7),
    ("ksparse '-DX=extern int x;' x.c", "", "", 0),
    ("ksparse '-DX=extern int x;' -UX x.c", "", "x.c:1:1: error[28]: bad declaration\n", 2),
    ("ksparse if.c", "", "", 0),
    ("ksparse -Wundef if.c", "", "if.c:1:5: warning: undefined preprocessor identifier 'FOO'\n", 1),
    ("ksparse -Wundef -Wno-undef if.c", "", "", 0),
    ("ksparse -E -Wundef if.c", "", "", 0),
    ("ksparse -Wno-address-space t.c", "", "", 0),
    ("ksparse -Wno-address-space -Waddress-space t.c", "", WARNINGS.format("t.c"), 1),
    ("ksparse -Wall t.c", "", "ksparse: bad word: -Wall\n", 3),
    ("ksparse -EE t.c", "", "ksparse: bad word: -EE\n", 3),
    ("ksparse -D1 t.c", "", "ksparse: bad word: -D1\n", 3),
    ("ksparse -D=1 t.c", "", "ksparse: bad word: -D=1\n", 3),
    ("ksparse -U t.c", "", "ksparse: bad word: -U\n", 3),
    ("ksparse -UX=1 t.c", "", "ksparse: bad word: -UX=1\n", 3),
    ("ksparse -Wfoo t.c", "", "ksparse: bad word: -Wfoo\n", 3),
    ("ksparse -Wno- t.c", "", "ksparse: bad word: -Wno-\n", 3),
    ("ksparse -include a.h t.c", "", "ksparse: bad word: -include\n", 3),
    ("ksparse t.c u.c -q", "", "ksparse: bad word: u.c\n", 3),
    ("ksparse eval -DX t.c", "", "ksparse: bad word: eval\n", 3),
    ("ksparse -DX -UY", "", "ksparse: missing file\n", 3),
    ("ksparse -D 1 t.c", "", "ksparse: bad word: -D\n", 3),
    ("ksparse -Df(x)=x t.c".replace("(x)", r"\(x\)"), "", "ksparse: bad word: -Df(x)=x\n", 3),
    ("ksparse $'-DX=a\\nb' t.c", "", "ksparse: bad word: -DX=a\nb\n", 3),
    ("ksparse -E", "", "ksparse: missing file\n", 3),
    ("ksparse - <t.c", "", "ksparse: bad word: -\n", 3),
    ("ksparse -DX eval", "", WARNINGS.format("eval"), 1),
    # What is there as a header and can't be read.
    ("ksparse -E -I. folder_as_header.c", "", "", 4),
    ("ksparse -Iinclude/k.h k.c", "", "", 4),
    ("ksparse -E folder", "", "", 4),
    # The text goes to standard output alone.
    ("ksparse -E -Iinclude k.c 2>/dev/full", K_TEXT, "", 0),
    ("ksparse -E -Iinclude k.c 2>&-", K_TEXT, "", 0),
    ("ksparse -E -Iinclude k.c >/dev/full", "", "", 5),
    ("ksparse -E -Iinclude k.c >&-", "", "", 5),
    ("ksparse -E empty.c >/dev/full", "", "", 0),
    ("ksparse -E missing.c >/dev/full", "", "ksparse: error[1]: no such file: missing.c\n", 2),
]

# Where a stream goes when it takes nothing: the write fails, and nothing else is said.
TAKES_NOTHING = [">/dev/full", ">&-", "</dev/null"]

# A word, and how it ends where standard error takes nothing. Only a write can fail, so where there is nothing to
# write all is as ever.
UNTOLD = [
    ("t.c", 5),
    ("many.c", 5),
    ("missing.c", 5),
    ("too_long.c", 5),
    ("--help", 5),
    (r"$'\xff'", 5),
    ("clean.c", 0),
    ("folder", 4),
]

STATUSES = range(8)

# So many kilobytes are enough for a small file, and so many for a large one.
LITTLE_MEMORY = 100000
MUCH_MEMORY = 2000000

LONG_WORD = "-" + "x" * 100000

# Words, how many kilobytes more are tried at a time, what is written to standard error, and the status.
MEMORY_USES = [
    (["t.c"], 4, WARNINGS.format("t.c"), 1),
    ([LONG_WORD] * 15, 16, f"ksparse: bad word: {LONG_WORD}\n", 3),
    (["many.c"], 100, MANY_WARNINGS, 1),
    (["large.c"], 20000, "", 0),
]

# A user who may read no more than what everyone may.
OTHER_USER = 65534


def differs(name, expected, got):
    if expected == got:
        return 0
    print(f"{name}: expected {expected!r}, got {got!r}", file=sys.stderr)
    return 1


def failures_of_uses(program):
    failures = 0
    for words, err, status in USES:
        ran = subprocess.run([program, *words], capture_output=True, timeout=60, check=False)
        got = (b"", err.encode(), status)
        failures += differs(f"ksparse {words[:3]}", got, (ran.stdout, ran.stderr, ran.returncode))
    return failures


def failures_of_typed_commands(program):
    failures = 0
    path = f"{os.path.dirname(program)}:{os.environ['PATH']}"
    for script, out, err, status in TYPED:
        command = ["bash", "-c", script]
        ran = subprocess.run(command, env={**os.environ, "PATH": path}, capture_output=True, timeout=60, check=False)
        failures += differs(script, (out.encode(), err.encode(), status), (ran.stdout, ran.stderr, ran.returncode))
    ran = into_closed_pipe(program, "stdout", ["-E", "t.c"], stderr=subprocess.PIPE)
    return failures + differs("ksparse -E t.c >closed pipe", (b"", 5), (ran.stderr, ran.returncode))


# With ample memory no unit is too wide.
def failures_of_wide_units(program):
    failures = 0
    for front, line, end, warning in WIDE_UNITS:
        for count in COUNTS:
            with open("wide.c", "w", encoding="utf-8") as file:
                file.write(front + "".join(line.format(at) for at in range(count)) + end)
            err = "".join(warning.format(at) for at in range(2, 2 + count))
            ran = subprocess.run([program, "wide.c"], capture_output=True, timeout=60, check=False)
            got = (ran.stdout, ran.stderr, ran.returncode)
            failures += differs(f"{count:,} times {line!r}", (b"", err.encode(), 1 if err else 0), got)
    return failures


# Warnings go to standard error alone, so nothing is amiss where standard output takes nothing.
def failures_of_unused_output(program):
    failures = 0
    for sink in TAKES_NOTHING:
        script = f'"$0" t.c 1{sink}'
        ran = subprocess.run(["bash", "-c", script, program], stderr=subprocess.PIPE, timeout=60, check=False)
        got = (ran.stderr, ran.returncode)
        failures += differs(f"ksparse t.c 1{sink}", (WARNINGS.format("t.c").encode(), 1), got)
    ran = into_closed_pipe(program, "stdout", ["t.c"], stderr=subprocess.PIPE)
    got = (ran.stderr, ran.returncode)
    return failures + differs("ksparse t.c 1>closed pipe", (WARNINGS.format("t.c").encode(), 1), got)


def failures_of_sinks(program):
    failures = 0
    for word, status in UNTOLD:
        for sink in TAKES_NOTHING:
            script = f'"$0" {word} 2{sink}'
            ran = subprocess.run(["bash", "-c", script, program], stdout=subprocess.PIPE, timeout=60, check=False)
            failures += differs(f"ksparse {word} 2{sink}", (b"", status), (ran.stdout, ran.returncode))
    ran = into_closed_pipe(program, "stderr", ["t.c"], stdout=subprocess.PIPE)
    return failures + differs("ksparse t.c 2>closed pipe", (b"", 5), (ran.stdout, ran.returncode))


# Runs the program with this stream on a pipe that nobody reads.
def into_closed_pipe(program, stream, words, **others):
    reading, writing = os.pipe()
    os.close(reading)
    ran = subprocess.run([program, *words], **{stream: writing}, **others, timeout=60, check=False)
    os.close(writing)
    return ran


# Of a text that a pipe takes no more of, a front was written.
def failures_of_fronts(program):
    reading, writing = os.pipe()
    os.set_blocking(writing, False)
    ran = subprocess.run([program, "many.c"], stdout=subprocess.PIPE, stderr=writing, timeout=60, check=False)
    os.close(writing)
    with os.fdopen(reading, "rb") as pipe:
        taken = pipe.read()
    front = MANY_WARNINGS.encode()[: len(taken)]
    is_cut = 0 < len(taken) < len(MANY_WARNINGS)
    got = (ran.stdout, taken, is_cut, ran.returncode)
    return differs("ksparse many.c 2>full pipe", (b"", front, True, 5), got)


# No stream is read, so nothing is amiss where none is open.
def failures_of_closed_streams(program):
    failures = 0
    for script, err, status in [
        ('exec "$0" t.c <&-', WARNINGS.format("t.c"), 1),
        ('exec "$0" t.c <&- >&-', WARNINGS.format("t.c"), 1),
        ('exec "$0" t.c <&- >&- 2>&-', "", 5),
        ('exec "$0" clean.c <&- >&- 2>&-', "", 0),
    ]:
        ran = subprocess.run(["bash", "-c", script, program], capture_output=True, timeout=60, check=False)
        got = (ran.stdout, ran.stderr, ran.returncode)
        failures += differs(script, (b"", err.encode(), status), got)
    return failures


# Runs the program with no more memory than so many kilobytes.
def run_within(program, kilobytes, words):
    def limit():
        resource.setrlimit(resource.RLIMIT_AS, (kilobytes * 1024, kilobytes * 1024))

    ran = subprocess.run([program, *words], preexec_fn=limit, capture_output=True, timeout=60, check=False)
    return ran.stdout, ran.stderr, ran.returncode


# The least kilobytes with which the system starts the program, so that it ends with a status of its own.
def least_memory(program, words):
    low, high = 0, LITTLE_MEMORY
    while low + 1 < high:
        middle = (low + high) // 2
        _, _, status = run_within(program, middle, words)
        if status in STATUSES:
            high = middle
        else:
            low = middle
    return high


# With ever more memory each use writes nothing, until it writes all that it has to.
def failures_of_memory(program):
    failures = 0
    wanting = (b"", b"", 6)
    for words, step, err, status in MEMORY_USES:
        kilobytes = least_memory(program, words)
        got = run_within(program, kilobytes, words)
        while got == wanting and kilobytes < MUCH_MEMORY:
            kilobytes += step
            got = run_within(program, kilobytes, words)
        failures += differs(f"ksparse {words[0][:9]} within {kilobytes} KB", (b"", err.encode(), status), got)
    return failures


# The superuser may read any file, so another user runs the program then. Whether a file is there can't be known
# where the folder may not be searched.
def failures_of_permission(program):
    failures = 0
    user = OTHER_USER if os.geteuid() == 0 else None
    denials = [("clean.c", ["clean.c"]), ("folder", ["folder/t.c"]), ("folder", ["folder/missing.c"])]
    denials += [("include/k.h", ["-Iinclude", "k.c"]), ("include", ["-E", "-Iinclude", "k.c"])]
    for denied, words in denials:
        mode = os.stat(denied).st_mode
        os.chmod(denied, 0)
        ran = subprocess.run([program, *words], user=user, capture_output=True, timeout=60, check=False)
        os.chmod(denied, mode)
        got = (ran.stdout, ran.stderr, ran.returncode)
        failures += differs(f"ksparse {' '.join(words)} without permission", (b"", b"", 4), got)
    return failures


def main():
    with tempfile.TemporaryDirectory() as folder:
        # Anyone may run the copy.
        os.chmod(folder, 0o755)
        program = shutil.copy(sys.argv[1], os.path.join(folder, "ksparse"))
        os.chdir(folder)
        os.mkdir("folder")
        os.mkdir("include")
        for name, target in LINKS.items():
            os.symlink(target, name)
        for name, text in FILES.items():
            with open(name, "w", encoding="utf-8") as file:
                file.write(text)
        failures = failures_of_uses(program) + failures_of_wide_units(program)
        failures += failures_of_sinks(program) + failures_of_unused_output(program)
        failures += failures_of_fronts(program) + failures_of_closed_streams(program)
        failures += failures_of_memory(program) + failures_of_permission(program)
        failures += failures_of_typed_commands(program)
        os.chdir("/")
    print(f"smoke: {failures} differences")
    return 1 if failures else 0


if __name__ == "__main__":
    sys.exit(main())
