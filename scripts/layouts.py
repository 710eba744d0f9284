#!/usr/bin/env python3
"""Random structures and unions, and what a C compiler says of their layouts, as examples of meaning_layout.

usage: layouts.py [--write]
       layouts.py PROGRAM COUNT [SEED]

The aggregates are always the same ones. Without --write the answers of the compiler on this machine are compared with the
committed examples; with it the examples are written anew. With a PROGRAM, so many other ones are compared with what it says of them:
each is asserted to have its size, its alignment, and each named member but the bit-fields its place. Left out is what differs on purpose: bit-fields of packed
aggregates, which the compiler lets cross units. Where unnamed members lie a program can't ask.
"""
import os
import random
import subprocess
import sys
import tempfile

import compared
from constants import told_otherwise

TOP = os.path.dirname(os.path.dirname(os.path.abspath(__file__)))
EXAMPLES = os.path.join(TOP, "crates/meaning_layout/specs/examples/Compared.antt")
COUNT = 1000

# Types of members: the words of C, the bytes, and the bits of the widest bit-field, where there may be one.
TYPES = (
    ("char", 1, 8), ("unsigned char", 1, 8), ("short", 2, 16), ("unsigned short", 2, 16), ("int", 4, 32), ("unsigned int", 4, 32),
    ("long", 8, 64), ("unsigned long", 8, 64), ("long long", 8, 64), ("_Bool", 1, 1), ("int *", 8, None),
)

PROGRAM_HEAD = """
#include <stddef.h>
#include <stdio.h>
#include <string.h>
static unsigned long first_bit(const unsigned char *bytes, unsigned long count)
{
    for (unsigned long at = 0; at < 8 * count; at++)
        if (bytes[at / 8] >> at % 8 & 1)
            return at;
    return -1;
}
"""


class Aggregate:
    """A structure or a union: its declaration in C, its shape in the definitions, and its named members."""

    def __init__(self, number, maker):
        self.name = f"a{number}"
        self.random = maker
        self.word = maker.choice(["struct", "struct", "struct", "union"])
        self.packed = maker.random() < 0.2
        self.written = maker.choice([2, 4, 8, 16, 32]) if maker.random() < 0.15 else 1
        self.members, self.shapes, self.named = [], [], []
        for place in range(maker.randint(0, 7)):
            self.add(place)
        if self.word == "struct" and self.named and maker.random() < 0.1:
            self.add_open(len(self.members))

    def add(self, place):
        words, size, widest = self.random.choice(TYPES)
        written = self.random.choice([2, 4, 8, 16]) if self.random.random() < 0.15 else 1
        if widest is not None and not self.packed and self.random.random() < 0.5:
            self.add_field(place, words, size, widest, written)
        else:
            count = self.random.choice([1, 2, 3, 5]) if self.random.random() < 0.3 else 1
            self.put(f"{words} m{place}" + (f"[{count}]" if count > 1 else ""), f"sized_member {count * size} {size}", written)
            self.named.append((f"m{place}", False))

    def add_field(self, place, words, size, widest, written):
        if self.random.random() < 0.25:
            width = self.random.randint(0, widest)
            self.put(f"{words} : {width}", f"unnamed (sized_member {size} {size}) {width}", 1)
        else:
            width = self.random.randint(1, widest)
            self.put(f"{words} m{place} : {width}", f"field (sized_member {size} {size}) {width}", written)
            self.named.append((f"m{place}", True))

    def add_open(self, place):
        """An array without a length behind all other members."""
        words, size, _ = self.random.choice(TYPES)
        self.put(f"{words} m{place}[]", f"sized_member 0 {size}", 1)
        self.named.append((f"m{place}", False))

    def put(self, declared, shape, written):
        if written > 1:
            declared += f" __attribute__((aligned({written})))"
            shape = f"aligned ({shape}) {written}"
        self.members.append(declared + ";")
        self.shapes.append(shape)

    def declaration(self):
        attributes = (["packed"] if self.packed else []) + ([f"aligned({self.written})"] if self.written > 1 else [])
        behind = f" __attribute__(({', '.join(attributes)}))" if attributes else ""
        return f"{self.word} {self.name} {{ {' '.join(self.members)} }}{behind};"

    def shape(self):
        body = f"{self.word}_of ({' ∷ '.join(self.shapes + ['[]'])})"
        if self.packed:
            body = f"packed ({body})"
        return f"body_aligned ({body}) {self.written}" if self.written > 1 else body

    def function(self):
        """A function that prints the size, the alignment, and the first bit of each named member."""
        lines = [f"static void show_{self.name}(void)", "{", f"    typedef {self.word} {self.name} t;",
                 '    printf("%zu %zu", sizeof(t), _Alignof(t));']
        for name, is_field in self.named:
            if is_field:
                lines.append(f"    {{ union {{ t value; unsigned char bytes[sizeof(t)]; }} u; memset(&u, 0, sizeof u); "
                             f'u.value.{name} = -1; printf(" %lu", first_bit(u.bytes, sizeof(t))); }}')
            else:
                lines.append(f'    printf(" %zu", 8 * offsetof(t, {name}));')
        return "\n".join(lines + ['    puts("");', "}"]) + "\n"


def answers(aggregates):
    """What the compiler's program prints, a line an aggregate."""
    with tempfile.TemporaryDirectory() as folder:
        source = os.path.join(folder, "made.c")
        with open(source, "w", encoding="ascii") as text:
            text.write(PROGRAM_HEAD)
            for aggregate in aggregates:
                text.write(aggregate.declaration() + "\n" + aggregate.function())
            text.write("int main(void)\n{\n")
            text.writelines(f"    show_{aggregate.name}();\n" for aggregate in aggregates)
            text.write("    return 0;\n}\n")
        program = os.path.join(folder, "made")
        subprocess.run(["gcc", "-O0", "-w", source, "-o", program], check=True)
        return subprocess.run([program], check=True, capture_output=True, text=True).stdout.splitlines()


def answer_text(line):
    size, align, *bits = line.split()
    return f"asked_of {size} {align} ({' ∷ '.join(bits + ['[]'])})"


def examples(rows):
    """The text of the examples."""
    parts = [
        "-- Structures and unions that a script made, each with what a compiler says of it; so lines are long.",
        "use Rattle.std.specs.Prelude.{◌≡◌, [], ◌∷◌, map}",
        "use Rattle.meaning_layout.specs.examples.Layouts.{aligned, body_aligned, field, packed, struct_of, union_of, unnamed}",
        "use Rattle.meaning_layout.specs.examples.Asked.{asked_layout, asked_of, sized_member}",
        "",
        "pub record ComparedExamples : Type 0 where",
    ]
    return "\n".join(parts + compared.facts(rows, "map asked_layout")) + "\n"


def asserted(aggregate, line):
    """A line of C that says what the compiler said of an aggregate."""
    size, align, *bits = line.split()
    name = f"{aggregate.word} {aggregate.name}"
    tests = [f"sizeof({name}) == {size}", f"_Alignof({name}) == {align}"]
    tests += [f"8 * __builtin_offsetof({name}, {member}) == {bit}" for (member, is_field), bit in zip(aggregate.named, bits) if not is_field]
    return aggregate.declaration() + "".join(f' _Static_assert({test}, "");' for test in tests)


def compare(program, count, seed):
    """Compares so many random aggregates, and prints those of which the program says another thing. Returns the status."""
    maker = random.Random(seed)
    aggregates = [Aggregate(number, maker) for number in range(count)]
    rows = [asserted(*row) for row in zip(aggregates, answers(aggregates))]
    differing = list(told_otherwise(program, rows))
    for line, told in differing:
        print(f"layouts: {told}: {line}")
    print(f"layouts: {len(rows)} aggregates, seed {seed}: {len(differing)} differ")
    return 1 if differing else 0


def main():
    if len(sys.argv) > 2:
        seed = int(sys.argv[3]) if len(sys.argv) > 3 else random.randrange(1 << 32)
        return compare(os.path.abspath(sys.argv[1]), int(sys.argv[2]), seed)
    maker = random.Random(2011)
    aggregates = [Aggregate(number, maker) for number in range(COUNT)]
    rows = [(aggregate.shape(), answer_text(line)) for aggregate, line in zip(aggregates, answers(aggregates))]
    return compared.written_or_compared(EXAMPLES, examples(rows), f"layouts: {len(rows)} aggregates")


if __name__ == "__main__":
    sys.exit(main())
