#!/usr/bin/env python3
"""Random integer expressions, and what a C compiler says of their types and values, as examples of meaning_constants.

usage: constants.py [--write]
       constants.py PROGRAM COUNT [SEED]

The expressions are always the same ones. Without --write the answers of the compiler on this machine are compared with the
committed examples; with it the examples are written anew. With a PROGRAM, so many other ones are compared with what it says of
them: each is asserted to have its value and declared to have its type, and a case label without a value is refused. Signed
arithmetic wraps (-fwrapv); a zero divisor, and a count outside the width, where they are evaluated, are caught by the
compiler's own instrumentation and have no value.
"""
import os
import random
import re
import subprocess
import sys
import tempfile

import compared

TOP = os.path.dirname(os.path.dirname(os.path.abspath(__file__)))
EXAMPLES = os.path.join(TOP, "crates/meaning_constants/specs/examples/Compared.antt")
COUNT = 2000

# Kinds: the name in the definitions, and the words of C.
KINDS = {
    "Bool": "_Bool", "Char": "char", "SChar": "signed char", "UChar": "unsigned char", "Short": "short",
    "UShort": "unsigned short", "Int": "int", "UInt": "unsigned int", "Long": "long", "ULong": "unsigned long",
    "LLong": "long long", "ULLong": "unsigned long long",
}
WIDTHS = {"Int": 31, "UInt": 32, "Long": 63, "ULong": 64, "LLong": 63, "ULLong": 64}
SUFFIXES = {"Int": "", "UInt": "u", "Long": "l", "ULong": "ul", "LLong": "ll", "ULLong": "ull"}
UNARY = {"UnaryPlus": "+", "Negation": "-", "Complement": "~", "LogicalNot": "!"}
BINARY = {
    "Multiplication": "*", "Division": "/", "Remainder": "%", "Addition": "+", "Subtraction": "-", "LeftShift": "<<",
    "RightShift": ">>", "Less": "<", "Greater": ">", "LessOrEqual": "<=", "GreaterOrEqual": ">=", "Equal": "==",
    "NotEqual": "!=", "BitwiseAnd": "&", "BitwiseExclusiveOr": "^", "BitwiseOr": "|",
}

PROGRAM_HEAD = """
#include <setjmp.h>
#include <signal.h>
#include <stdio.h>
static sigjmp_buf back;
void __ubsan_handle_divrem_overflow(void *d, void *l, void *r) { siglongjmp(back, 1); }
void __ubsan_handle_shift_out_of_bounds(void *d, void *l, void *r) { siglongjmp(back, 1); }
static void trapped(int signal) { siglongjmp(back, 2); }
#define KIND(e) _Generic((e), _Bool: "Bool", char: "Char", signed char: "SChar", unsigned char: "UChar", short: "Short", \\
    unsigned short: "UShort", int: "Int", unsigned int: "UInt", long: "Long", unsigned long: "ULong", long long: "LLong", \\
    unsigned long long: "ULLong")
#define IS_NEGATIVE(e) ((e) < (__typeof__(e))1 && (e) != (__typeof__(e))0)
#define SHOW(e) do { int caught = sigsetjmp(back, 1); \\
    if (caught) puts(caught == 1 ? "none" : "trap"); \\
    else { __typeof__(e) volatile value = (e); \\
        if (value < 1 && value) printf("%s %lld\\n", KIND(e), (long long)value); \\
        else printf("%s %llu\\n", KIND(e), (unsigned long long)value); } } while (0)
"""


class Maker:
    """Makes expressions, each as the text of C and as that of the definitions."""

    def __init__(self, seed=2011):
        self.random = random.Random(seed)
        self.objects = []

    def literal(self):
        kind = self.random.choice(list(SUFFIXES))
        bits = WIDTHS[kind]
        number = self.random.choice([0, 1, 2, 3, 5, 7, 31, 32, 33, 63, 64, 127, 128, 255, 256, 32767, 32768, 65535, 2 ** bits - 1,
                                     2 ** (bits - 1), self.random.getrandbits(bits), self.random.getrandbits(16)])
        self.objects.append(f"static volatile {KINDS[kind]} v{len(self.objects)} = {number}{SUFFIXES[kind]};")
        return f"v{len(self.objects) - 1}", f"Literal kinds.{kind} {number}"

    def expression(self, depth):
        if depth == 0 or self.random.random() < 0.1:
            return self.literal()
        form = self.random.random()
        if form < 0.15:
            name = self.random.choice(list(UNARY))
            text, shape = self.expression(depth - 1)
            return f"({UNARY[name]}{text})", f"Alone operators.{name} ({shape})"
        if form < 0.30:
            kind = self.random.choice(list(KINDS))
            text, shape = self.expression(depth - 1)
            return f"(({KINDS[kind]}){text})", f"Cast (plain kinds.{kind}) ({shape})"
        left, left_shape = self.expression(depth - 1)
        right, right_shape = self.expression(depth - 1)
        if form < 0.38:
            name, operator = self.random.choice([("And", "&&"), ("Or", "||")])
            return f"({left} {operator} {right})", f"{name} ({left_shape}) ({right_shape})"
        if form < 0.42:
            return f"({left} ?: {right})", f"ChoiceOr ({left_shape}) ({right_shape})"
        if form < 0.50:
            third, third_shape = self.expression(depth - 1)
            return f"({left} ? {right} : {third})", f"Choice ({left_shape}) ({right_shape}) ({third_shape})"
        name = self.random.choice(list(BINARY))
        return f"({left} {BINARY[name]} {right})", f"Between operators.{name} ({left_shape}) ({right_shape})"


def answers(expressions, objects):
    """What the compiler's program prints, a line an expression."""
    with tempfile.TemporaryDirectory() as folder:
        source = os.path.join(folder, "made.c")
        with open(source, "w", encoding="ascii") as text:
            text.write(PROGRAM_HEAD + "\n".join(objects) + "\n")
            for index, (expression, _) in enumerate(expressions):
                text.write(f"static void show{index}(void) {{ SHOW({expression}); }}\n")
            text.write("int main(void) {\n    signal(SIGFPE, trapped);\n")
            text.writelines(f"    show{index}();\n" for index in range(len(expressions)))
            text.write("    return 0;\n}\n")
        program = os.path.join(folder, "made")
        subprocess.run(["gcc", "-O0", "-w", "-fwrapv", "-fsanitize=shift-exponent,integer-divide-by-zero", "-c", source,
                        "-o", f"{program}.o"], check=True)
        subprocess.run(["gcc", f"{program}.o", "-o", program], check=True)
        return subprocess.run([program], check=True, capture_output=True, text=True).stdout.splitlines()


def number_text(number):
    return f"(pos {number})" if number >= 0 else f"(negsuc {-number - 1})"


def answer_text(line):
    if line == "none":
        return "None"
    kind, number = line.split()
    return f"is kinds.{kind} {number_text(int(number))}"


def examples(rows):
    """The text of the examples."""
    parts = [
        "-- Expressions that a script made, each with the type and the value that a compiler gives it; so lines are long.",
        "use Rattle.std.specs.Prelude.{◌≡◌, pos, negsuc, [], ◌∷◌, None}",
        "use Rattle.vocabulary.specs.declared.int_kind.IntKind.TheVariants as kinds",
        "use Rattle.vocabulary.specs.declared.operator.Operator.TheVariants as operators",
        "use Rattle.meaning_types.specs.examples.Types.{plain}",
        "use Rattle.meaning_constants.specs.examples.Expressions.{Literal, Alone, Between, And, Or, Choice, ChoiceOr, Cast}",
        "use Rattle.meaning_constants.specs.examples.Constants.{is, constants}",
        "",
        "pub record ComparedExamples : Type 0 where",
    ]
    return "\n".join(parts + compared.facts(rows, "constants")) + "\n"


# The program's answers

ERROR = re.compile(r"t\.c:(\d+):\d+: error\[\d+\]: .*")
WARNING = re.compile(r"t\.c:(\d+):\d+: warning: .*")
NOT_CONSTANT = "error[75]: case label is not constant"


def in_literals(expression, objects):
    """An expression with the value of each object in the object's place."""
    return re.sub(r"v(\d+)", lambda found: re.search(r"= (\w+);", objects[int(found[1])])[1], expression)


def literal_of(kind, number):
    """A constant of this number, and of this kind or what it is promoted to."""
    suffix = SUFFIXES.get(kind, "")
    return f"(-{-number - 1}{suffix} - 1)" if number < 0 else f"{number}{suffix}"


def asserted(index, expression, line):
    """A line of C that says what the compiler said of an expression."""
    kind, number = line.split()
    value = f'_Static_assert({expression} == {literal_of(kind, int(number))}, "");'
    return f"{value} extern typeof({expression}) x{index}; extern {KINDS[kind]} x{index};"


def said(program, text):
    """What the program says of a text."""
    with tempfile.TemporaryDirectory() as folder:
        with open(os.path.join(folder, "t.c"), "w", encoding="ascii") as file:
            file.write(text)
        done = subprocess.run([program, "t.c"], cwd=folder, stdin=subprocess.DEVNULL, capture_output=True, text=True, check=False)
        return done.stderr.splitlines()


def told_otherwise(program, lines):
    """Each line of C that the program refuses or warns of, with what it says."""
    left = list(lines)
    while left:
        told = said(program, "\n".join(left) + "\n")
        refused = next(filter(None, map(ERROR.fullmatch, told)), None)
        if refused is None:
            yield from ((left[int(found[1]) - 1], found[0]) for found in map(WARNING.fullmatch, told) if found)
            yield from ((line, line) for line in told if not line.startswith("t.c:"))
            return
        yield left.pop(int(refused[1]) - 1), refused[0]


def compare(program, count, seed):
    """Compares so many random expressions, and prints those of which the program says another thing. Returns the status."""
    maker = Maker(seed)
    expressions = [maker.expression(maker.random.randint(1, 3))[0] for _ in range(count)]
    lines = answers([(expression, "") for expression in expressions], maker.objects)
    plain = [in_literals(expression, maker.objects) for expression in expressions]
    rows = [asserted(index, *row) for index, row in enumerate(zip(plain, lines)) if row[1] not in ("none", "trap")]
    differing = list(told_otherwise(program, rows))
    without = [expression for expression, line in zip(plain, lines) if line == "none"]
    for expression in without:
        told = said(program, f"void f(int a) {{ switch (a) {{ case {expression}: ; }} }}\n")
        if not told or not told[0].endswith(NOT_CONSTANT):
            differing.append((expression, f"has no value, and it says {told}"))
    for line, told in differing:
        print(f"constants: {told}: {line}")
    print(f"constants: {len(rows)} values and {len(without)} without one, seed {seed}: {len(differing)} differ")
    return 1 if differing else 0


def main():
    if len(sys.argv) > 2:
        seed = int(sys.argv[3]) if len(sys.argv) > 3 else random.randrange(1 << 32)
        return compare(os.path.abspath(sys.argv[1]), int(sys.argv[2]), seed)
    maker = Maker()
    expressions = [maker.expression(maker.random.randint(1, 3)) for _ in range(COUNT + COUNT // 20)]
    lines = answers(expressions, maker.objects)
    # The least number divided by -1 traps here, though it wraps; it has an example of its own.
    rows = [(shape, answer_text(line)) for (_, shape), line in zip(expressions, lines) if line != "trap"][:COUNT]
    told = f"constants: {len(rows)} expressions, {sum(answer == 'None' for _, answer in rows)} without a value"
    return compared.written_or_compared(EXAMPLES, examples(rows), told)


if __name__ == "__main__":
    sys.exit(main())
