#!/usr/bin/env python3
"""Runs ksparse-cc as a kernel's make does, with a program in ksparse's place that prints its words and its file, and then, where
PROGRAM is given, with ksparse itself over a small tree.

usage: smoke_cc.py [PROGRAM]
"""
import os
import shlex
import shutil
import signal
import subprocess
import sys
import tempfile
import time

SCRIPT = os.path.join(os.path.dirname(os.path.dirname(os.path.abspath(__file__))), "bin", "ksparse-cc")

# Prints its words, one a line, then its last one's lines; ends with the status that STATUS names.
STAND_IN = """#!/bin/sh
for word; do printf '%s\\n' "$word"; done
cat "$word"
[ -z "${SLEEP:-}" ] || { echo "$$" >"$SLEEP"; sleep 60; }
printf '%s' "${LINES_TOLD:-}" >&2
exit "${STATUS:-0}"
"""

KERNEL_WORDS = (
    "-D__linux__ -Dlinux -D__STDC__ -Dunix -D__unix__ -Wbitwise -Wno-return-void -Wno-unknown-attribute --arch=x86 -mlittle-endian -m64 "
    "-Wp,-MMD,lib/.x.o.d -nostdinc -I./include -include ./include/linux/kconfig.h -D__KERNEL__ -Wall -Wundef -std=gnu11 --param=a=0 "
    '-DKBUILD_BASENAME=\'"x"\' -c -o lib/x.o lib/x.c'
)
KERNEL_HANDED = (
    "-D__linux__ -Dlinux -D__STDC__ -Dunix -D__unix__ -Wbitwise -Wno-return-void -I./include -D__KERNEL__ -Wundef -DKBUILD_BASENAME='\"x\"'"
)

# The words, those that are handed on, and the lines of the file that is handed on, where {} is the folder.
HANDED = [
    (KERNEL_WORDS, KERNEL_HANDED, ['#include "{}/./include/linux/kconfig.h"', '#include "{}/lib/x.c"']),
    ("lib/x.c", "", ['#include "{}/lib/x.c"']),
    ("-I include -D A -U B lib/x.c", "-Iinclude -DA -UB", ['#include "{}/lib/x.c"']),
    ("-isystem a -iquote b -idirafter c -isystemd -iquotee -idirafterf lib/x.c", "-Ia -Ib -Ic -Id -Ie -If", ['#include "{}/lib/x.c"']),
    ("-D 'M(x)=y' '-DN(a, b)=a == b' '-DO()' lib/x.c", "", ["#define M(x) y", "#define N(a, b) a == b", "#define O() 1", '#include "{}/lib/x.c"']),
    ("'-DX=(a)' lib/x.c", "'-DX=(a)'", ['#include "{}/lib/x.c"']),
    ("-I 'a folder' 'a folder/x y.c'", "'-Ia folder'", ['#include "{}/a folder/x y.c"']),
    ("-include none.h -imacros include/linux/kconfig.h lib/x.c", "", ['#include "none.h"', '#include "{}/include/linux/kconfig.h"', '#include "{}/lib/x.c"']),
    ("-x c -MF lib/.x.d -MT x -MQ x -arch x86 --param a=0 -T x -Xassembler x -Os -O2 -g -pipe -oa -S lib/x.c", "", ['#include "{}/lib/x.c"']),
    (
        "-Waddress-space -Wnon-pointer-null -Wcontext -Wcast-to-as -Wdecl -Wshadow lib/x.c",
        "-Waddress-space -Wnon-pointer-null -Wcontext -Wcast-to-as -Wdecl -Wshadow",
        ['#include "{}/lib/x.c"'],
    ),
    (
        "-Wno-do-while -Wstrict-prototypes -Wone-bit-signed-bitfield -Wno-cast-truncate -Wsparse-all -Wextra lib/x.c",
        "-Wno-do-while -Wstrict-prototypes -Wone-bit-signed-bitfield -Wno-cast-truncate",
        ['#include "{}/lib/x.c"'],
    ),
]

# With a shim that has linux/kconfig.h, and not linux/types.h.
SHIM_HANDED = [
    ("-Ia -include ./include/linux/kconfig.h lib/x.c", "-Ishim -Ia", ['#include "{}/shim/linux/kconfig.h"', '#include "{}/lib/x.c"']),
    ("-include include/linux/types.h lib/x.c", "-Ishim", ['#include "{}/include/linux/types.h"', '#include "{}/lib/x.c"']),
]

# Words that are refused with one line and status 3.
REFUSED = [
    ("", "ksparse-cc: missing file\n"),
    ("-c -o x.o", "ksparse-cc: missing file\n"),
    ("lib/x.c lib/y.c", "ksparse-cc: bad word: lib/y.c\n"),
    ("lib/x.c -include", "ksparse-cc: missing argument: -include\n"),
]

# Lines of ksparse, and what is told of them, where {} is the folder.
TOLD = [
    ("lib/x.c", "{}/lib/x.c:1:2: warning: w\n", "lib/x.c:1:2: warning: w\n"),
    ("./lib/x.c", "{}/./lib/x.c:1:2: warning: w\n", "./lib/x.c:1:2: warning: w\n"),
    ("lib/x.c", "{}/lib/x.h:1:2: warning: w\n", "lib/x.h:1:2: warning: w\n"),
    ("lib/x.c", "include/y.h:1:2: warning: w\n", "include/y.h:1:2: warning: w\n"),
    ("lib/x.c", "<command>:1:2: error[10]: macro 'X' redefined\n", "<command>:1:2: error[10]: macro 'X' redefined\n"),
    ("lib/x.c", "lib/z.h:1:2: warning: {}/lib/x.c:\n", "lib/z.h:1:2: warning: {}/lib/x.c:\n"),
]

KERNEL_MAKEFILE = """CHECK = sparse
CHECKFLAGS := -D__linux__ -Wbitwise -Wno-unknown-attribute --arch=x86
c_flags := -nostdinc -I./arch/x86/include -I./include -include ./include/linux/kconfig.h -D__KERNEL__ -std=gnu11
objects := lib/a.o lib/b.o lib/c.o lib/d.o
all: $(objects)
%.o: %.c
\t@echo "  CHECK   $<"
\t@if [ "$(C)" = 1 ]; then $(CHECK) $(CHECKFLAGS) $(c_flags) -DKBUILD_BASENAME='"$(basename $(notdir $@))"' -c -o $@ $<; fi
\t@echo built > $@
"""

# Beside the common headers, a file of the tree, and its warnings.
TREE = {
    "lib/a.c": ("#include <linux/compiler.h>\nextern int *p; extern int __user *u;\nvoid f(void) { p = u; }\n", 3, 18),
    "lib/b.c": ("#include <linux/compiler.h>\n#include \"b.h\"\nvoid g(void) { p = u; }\n", 3, 18),
    "lib/c.c": ("#include <linux/compiler.h>\n#ifdef CONFIG_SMP\nextern int *p; extern int __user *u;\n#endif\nvoid h(void) {\np = u; }\n", 6, 3),
    "lib/d.c": ("#include <asm/spaces.h>\nextern int *p; extern int __iomem *u;\nvoid k(void) { p = u; }\n", 3, 18),
}
HEADERS = {
    "include/linux/compiler.h": "#define __user __attribute__((noderef, address_space(__user)))\n",
    "include/linux/kconfig.h": "#include <generated/autoconf.h>\n",
    "include/generated/autoconf.h": "#define CONFIG_SMP 1\n",
    "arch/x86/include/asm/spaces.h": "#define __iomem __attribute__((noderef, address_space(__iomem)))\n",
    "lib/b.h": "extern int *p; extern int __user *u;\n",
}

failures = 0


def tell(what, wanted, got):
    """Counts a difference."""
    global failures
    if wanted != got:
        failures += 1
        print(f"{what}\n  wanted {wanted!r}\n  got    {got!r}")


def write(folder, path, text):
    path = os.path.join(folder, path)
    os.makedirs(os.path.dirname(path), exist_ok=True)
    with open(path, "w", encoding="utf-8") as file:
        file.write(text)


def run(folder, words, **variables):
    """Its standard output, its standard error and its status."""
    environment = {**os.environ, "TMPDIR": os.path.join(folder, "tmp"), **variables}
    environment.setdefault("KSPARSE", os.path.join(folder, "stand-in"))
    ran = subprocess.run([SCRIPT, *shlex.split(words)], cwd=folder, env=environment, capture_output=True, text=True, timeout=60, check=False)
    return ran.stdout, ran.stderr, ran.returncode


def check_handed(folder, table, **variables):
    for words, handed, lines in table:
        out, err, status = run(folder, words, **variables)
        got = out.splitlines()
        count = len(shlex.split(handed))
        tell(f"words of {words}", shlex.split(handed), got[:count])
        tell(f"file of {words}", [line.format(folder) for line in lines], got[count + 1 :])
        tell(f"errors of {words}", ("", 0), (err, status))


def check_statuses(folder):
    for status in range(8):
        wanted = 0 if status <= 2 else status
        tell(f"status {status}", wanted, run(folder, "lib/x.c", STATUS=str(status))[2])
        tell(f"status {status}, -Wsparse-error", status, run(folder, "-Wsparse-error lib/x.c", STATUS=str(status))[2])


def check_texts(folder):
    for words, err in REFUSED:
        tell(f"refusal of {words!r}", ("", err, 3), run(folder, words))
    for words, lines, told in TOLD:
        tell(f"lines of {words}", told.format(folder), run(folder, words, LINES_TOLD=lines.format(folder))[1])
    out, _, _ = run(folder, "lib/none.c")
    tell("a file that isn't there is handed on by its name", "lib/none.c", out.splitlines()[0])
    out, err, status = run(folder, "--help")
    tell("help", (10, "", 0), (len(out.splitlines()), err, status))


def is_gone(process):
    """Whether it ends within a second or two."""
    for _ in range(200):
        try:
            with open(f"/proc/{process}/stat", encoding="utf-8") as file:
                if file.read().rsplit(")", 1)[1].split()[0] == "Z":
                    return True
        except OSError:
            return True
        time.sleep(0.01)
    return False


def check_signal(folder):
    """A signal ends it and its program, and takes the folder away."""
    told = os.path.join(folder, "process")
    environment = {**os.environ, "TMPDIR": os.path.join(folder, "tmp"), "KSPARSE": os.path.join(folder, "stand-in"), "SLEEP": told}
    for sent in (signal.SIGTERM, signal.SIGHUP, signal.SIGINT):
        ran = subprocess.Popen([SCRIPT, "lib/x.c"], cwd=folder, env=environment, stdout=subprocess.DEVNULL, start_new_session=True)
        while not os.path.exists(told) or not os.path.getsize(told):
            time.sleep(0.01)
        with open(told, encoding="utf-8") as file:
            process = int(file.read())
        ran.send_signal(sent)
        tell(f"status behind {sent.name}", 128 + sent, ran.wait(timeout=10))
        tell(f"the program behind {sent.name} is gone", True, is_gone(process))
        os.remove(told)


def check_tree(folder, program):
    """A tree in the manner of the kernel's, whose make calls the script for four files at once."""
    tree = os.path.join(folder, "tree")
    write(tree, "Makefile", KERNEL_MAKEFILE)
    for path, text in HEADERS.items():
        write(tree, path, text)
    for path, (text, _, _) in TREE.items():
        write(tree, path, text)
    words = ["make", "C=1", f"CHECK={SCRIPT}", "-j4"]
    environment = {**os.environ, "KSPARSE": os.path.abspath(program), "TMPDIR": os.path.join(folder, "tmp")}
    environment.pop("MAKEFLAGS", None)
    ran = subprocess.run(words, cwd=tree, env=environment, capture_output=True, text=True, timeout=60, check=False)
    for path, (_, line, column) in TREE.items():
        lines = [it for it in ran.stderr.splitlines() if it.startswith(path)]
        warning = f"{path}:{line}:{column}: warning: incorrect type in assignment (different address spaces)"
        tell(f"warnings of {path}", (3, warning), (len(lines), lines[0] if lines else ran.stderr))
        tell(f"{path} is built", True, os.path.exists(os.path.join(tree, path[:-1] + "o")))
    tell("make", 0, ran.returncode)


def main():
    folder = os.path.realpath(tempfile.mkdtemp(prefix="smoke-cc-"))
    try:
        write(folder, "tmp/.keep", "")
        write(folder, "lib/x.c", "int x;\n")
        write(folder, "a folder/x y.c", "int x;\n")
        for path in ("include/linux/kconfig.h", "include/linux/types.h", "shim/linux/kconfig.h"):
            write(folder, path, "\n")
        write(folder, "stand-in", STAND_IN)
        os.chmod(os.path.join(folder, "stand-in"), 0o755)
        check_handed(folder, HANDED)
        check_handed(folder, SHIM_HANDED, KSPARSE_SHIM="shim")
        check_statuses(folder)
        check_texts(folder)
        check_signal(folder)
        if len(sys.argv) > 1:
            check_tree(folder, sys.argv[1])
        tell("folders that are left", [".keep"], os.listdir(os.path.join(folder, "tmp")))
    finally:
        shutil.rmtree(folder)
    print(f"ksparse-cc: {failures} differences")
    return 1 if failures else 0


if __name__ == "__main__":
    sys.exit(main())
