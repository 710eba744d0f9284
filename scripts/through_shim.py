#!/usr/bin/env python3
"""Checks files of a kernel tree with the program through the shim of `examples`.

usage: through_shim.py PROGRAM TREE [FILE ..]

Without a FILE these are the thirty that are named here. Each is read behind linux/kconfig.h and linux/compiler_types.h, as a build of
the kernel has it, and headers are looked for in the shim, in TREE/include and in TREE/include/uapi. So the tree needs no configuration.
Prints for each file its lines, the status, the seconds and the peak memory of the check, and then each warning with its rule, or the
refusal. Behind each of the thirty stands what it comes from, as far as somebody looked. Exits 1 where one of them has another answer
than the one that was looked at. GNU time measures.
"""
import os
import re
import subprocess
import sys
import tempfile

from reference.texts import RULES

SHIM = os.path.join(os.path.dirname(os.path.dirname(os.path.abspath(__file__))), "examples", "shim")
WORDS = ["-D__KERNEL__", '-DKBUILD_MODNAME="file"']
BEFORE = ("linux/kconfig.h", "linux/compiler_types.h")
DRIVER, LEFT_OUT, OURS = "the driver's: ", "left out by name: ", "ours: "
# Each file, and what is said of it: the line, the rule or error, and what it is.
FILES = {
    "lib/asn1_decoder.c": ((201, "error[26]", LEFT_OUT + r"`\e` in a literal"),),
    "lib/bch.c": ((294, "B3", DRIVER + "a number in the device's order of bytes is kept as one in the machine's"),),
    "lib/bsearch.c": (),
    "lib/btree.c": (),
    "lib/dec_and_lock.c": (
        (30, "C3", DRIVER + "the function is left with the lock taken on one of its answers, and no header says so"),
        (47, "C3", DRIVER + "as in line 30"),
    ),
    "lib/find_bit.c": ((133, "error[69]", OURS + "a statement expression whose last statement has a label in front has a value in GNU C"),),
    "lib/fonts/font_8x8.c": ((15, "error[98]", OURS + "GNU C fills the array without a length that ends a static object"),),
    "lib/klist.c": (),
    "lib/list_sort.c": (),
    "lib/lockref.c": ((149, "C3", DRIVER + "the function is left with the lock taken on one of its answers, and no header says so"),),
    "lib/packing.c": (),
    "lib/parser.c": (),
    "lib/plist.c": (),
    "lib/rbtree.c": (),
    "lib/siphash.c": (),
    "lib/sort.c": (),
    "lib/string.c": (),
    "lib/test_uuid.c": ((21, "error[99]", OURS + "GNU C lets a compound literal of constants begin a static object; C11 6.7.9 p4 doesn't"),),
    "lib/textsearch.c": (),
    "lib/xxhash.c": (),
    "lib/xz/xz_dec_stream.c": tuple((number, "A2", DRIVER + "the type says the machine's order of bytes, the call the device's")
                                    for number in (393, 427, 435, 459)),
    "lib/zlib_inflate/inflate.c": (),
    "drivers/char/hw_random/mxc-rnga.c": (),
    "drivers/clk/clk-divider.c": (),
    "drivers/clk/qcom/clk-rpmh.c": (
        (273, "B2", DRIVER + "a mask in the machine's order of bytes on a number in the device's"),
        (273, "B1", DRIVER + "what comes of that is shifted"),
    ),
    "drivers/dma/virt-dma.c": (),
    "drivers/pwm/pwm-bcm2835.c": (),
    "drivers/reset/reset-simple.c": (),
    "drivers/virtio/virtio_ring.c": (),
    "drivers/w1/w1_io.c": ((396, "B3", DRIVER + "the cast says the machine's order of bytes, the call the device's"),),
}
# A process begins with the peak of the one that started it, and this one is small.
TIME = "/usr/bin/time"
LINE = re.compile(r"(.+?):(\d+):\d+: (warning|error\[\d+\]): (.*)")


def rule_of(text):
    """The rule whose warning has this text."""
    for rule, (_, _, form) in RULES.items():
        pattern = re.escape(form.decode()).replace("%b", ".*").replace("%d", r"-?\d+")
        if re.fullmatch(pattern, text):
            return rule
    return "no rule"


def wrapper(tree, file):
    """A file that includes what stands before FILE, and then FILE."""
    lines = [*(f"<{header}>" for header in BEFORE), f'"{os.path.join(tree, file)}"']
    return "".join(f"#include {line}\n" for line in lines)


def findings(tree, said):
    """Each line with a place, as its path below the tree, its number, its rule or error, and its text."""
    for line in said.splitlines():
        found = LINE.fullmatch(line)
        if found:
            path, number, kind, text = found.groups()
            rule = rule_of(text) if kind == "warning" else kind
            yield os.path.relpath(path, tree) if os.path.isabs(path) else path, int(number), rule, text


def check(program, tree, file, folder):
    """What a check of the file came to: its status, a text of time and memory, and what it says."""
    unit = os.path.join(folder, "unit.c")
    with open(unit, "w", encoding="utf-8") as out:
        out.write(wrapper(tree, file))
    words = [*WORDS, f"-I{SHIM}", "-Iinclude", "-Iinclude/uapi", unit]
    told = os.path.join(folder, "told")
    command = [TIME, "-q", "-o", told, "-f", "%U %S %M", program, *words]
    ran = subprocess.run(command, cwd=tree, stdin=subprocess.DEVNULL, capture_output=True, check=False)
    with open(told, encoding="ascii") as text:
        user, system, kibibytes = text.read().split()
    times = f"{float(user) + float(system):.2f} s {int(kibibytes) / 1024:.1f} MiB"
    return ran.returncode, times, ran.stderr.decode("utf-8", "replace")


def main():
    if len(sys.argv) < 3:
        print(__doc__.split("\n\n")[1], file=sys.stderr)
        return 2
    program, tree = map(os.path.abspath, sys.argv[1:3])
    unlike = 0
    with tempfile.TemporaryDirectory() as folder:
        for file in sys.argv[3:] or FILES:
            status, times, said = check(program, tree, file, folder)
            with open(os.path.join(tree, file), "rb") as text:
                lines = text.read().count(b"\n")
            print(f"{file}: {lines} lines, status {status} ({times})", flush=True)
            known = {(number, rule): reason for number, rule, reason in FILES.get(file, ())}
            found = list(findings(tree, said))
            for path, number, rule, text in found:
                reason = known.get((number, rule), "not looked at")
                print(f"  {path}:{number}: {rule}, {text}\n    {reason}", flush=True)
            if file in FILES and {(number, rule) for _, number, rule, _ in found} != set(known) or status > 2:
                unlike += 1
                print(f"  not as it was{'' if found else ': ' + said.strip()}", flush=True)
    print(f"{unlike} files aren't as they were" if unlike else "all files are as they were")
    return 1 if unlike else 0


if __name__ == "__main__":
    sys.exit(main())
