#!/usr/bin/env python3
"""Runs `flows`, `workbench` and `ksparse` over large and deep texts, with ample memory, and `flows` over lines that are none,
and compares their answers with those by hand.

usage: smoke_large.py FLOWS WORKBENCH KSPARSE
"""
import os
import subprocess
import sys
import tempfile
from typing import NamedTuple

import bench_contexts
import bench_texts
from bench_flows import back_to_first, cases, row

# How many blocks a long flow has, and how many successors a wide one.
LONG = 100_000
WIDE = 20_000

# Of cases that each acquire, the paths leave at the token behind them with 1.
FLOWS = (
    ("a row of blocks", row(LONG), "Balanced"),
    ("a row of blocks that each may go back to the first", back_to_first(LONG), "Balanced"),
    ("a block whose successors each acquire and meet at one end", cases(WIDE, 0), f"WrongExit({WIDE + 1}, 1)"),
    ("the same, left with one held", cases(WIDE, 1), "Balanced"),
)

# Lines that aren't in the notation, or whose flow isn't what a walk asks for: the column, and what is told of it.
NOT_A_FLOW = (
    ("", 1, "a step or `-` is expected"),
    ("X ; 0, 0", 1, "a step or `-` is expected"),
    ("Px E9 ; 0, 0", 2, "a number is expected"),
    ("P99999999999 E9 ; 0, 0", 2, "the number is too large"),
    ("P9 E9 ; 0, 9223372036854775808", 12, "the number is too large"),
    ("P3 C4E ; 0, 0", 6, "`(` is expected"),
    ("P3 C4(0;1) ; 0, 0", 8, "`,` is expected"),
    ("P9 E9 ; 0 0", 11, "`,` is expected"),
    ("P3 C4(0,1; ; 0, 0", 10, "`)` is expected"),
    ("P9 E9 ; 0, 0 x", 14, "the end of the line is expected"),
    ("P9 E9", 6, "`>`, `|` or `;` is expected"),
    ("E9 ; 0, 0", 1, "the block has steps and doesn't begin with a point"),
    ("P9 > 7 ; 0, 0", 1, "the block has a successor that is no block"),
    ("P3 A3+9223372036854775807 P4 A4+1 ; 0, 0", 1, "the numbers sum up to 2^63 or more"),
)

# Lists of tokens behind `#if`.
CONDITIONS = (
    ("a sum", "1+" * 999_999 + "1", "1000000"),
    ("?: to the right", "0?2:" * 500_000 + "3", "3"),
    ("?: in the middle", "1?" * 500_000 + "3" + ":2" * 500_000, "3"),
    ("prefixes", "- " * 1_000_000 + "1", "1"),
)

NOTHING_LEFT = "\nleft 0 replacements, 0 tokens; counter 0"
CHAIN = 100_000
CALLS = 100_000
ARGUMENT = 1_000_000

# Texts behind definitions, what they become, and the replacements and tokens that this takes, exactly.
EXPANSIONS = (
    ("calls within calls", "#define f(a) a\n" + "f(" * CALLS + "1" + ")" * CALLS, "1", (CALLS, CALLS)),
    ("a long argument", "#define f(a) a\nf(" + "x " * ARGUMENT + ")", " ".join("x" * ARGUMENT), (1, ARGUMENT)),
    ("a chain", "".join(f"#define a{number} a{number + 1}\n" for number in range(CHAIN)) + "a0", f"a{CHAIN}", (CHAIN, CHAIN)),
)


class Read(NamedTuple):
    """A chain or list that waits for nothing that is inside it: what stands before the parts, a part, how often it stands, what stands
    behind; and the error with which it is refused, if it is, that many columns behind where the parts begin, or before where they end."""

    before: str
    part: str
    count: int
    behind: str
    error: str = ""
    at: int = 0

    def text(self):
        return self.before + self.part * self.count + self.behind

    def answer(self):
        begin = len(self.before) + (len(self.part) * self.count if self.at < 0 else 0)
        return (f"t.c:1:{begin + self.at + 1}: {self.error}\n", 2) if self.error else SILENT


SILENT = ("", 0)
NOT_CONSTANT = "error[99]: initializer is not constant"
NO_POINTER = "error[61]: cannot dereference this type"
READ_CHAINS = (
    Read("int a; int x = ", "- ", 500_000, "a;", NOT_CONSTANT),
    Read("int a; int x = ", "a + ", 500_000, "a;", NOT_CONSTANT, -2),
    Read("int a; void f(void) { ", "a = ", 500_000, "a; }"),
    Read("typedef int t; int a; int x = ", "(t)", 500_000, "a;", NOT_CONSTANT),
    Read("int a; int x = a", "[1]", 500_000, ";", NO_POINTER),
    Read("int *p; int x = ", "*", 500_000, "p;", NO_POINTER, -2),
    Read("void f(void) { ", "x: ", 500_000, ";}", "error[81]: label 'x' defined twice", 3),
    Read("int a; int x = ", "a ? a : ", 400_000, "a;", NOT_CONSTANT, 2),
    Read("void f(void) { ", "if (1) ; else ", 300_000, ";}"),
    Read("void f(void) { ", ";", 500_000, "}"),
    Read("int a", ", a", 500_000, ";"),
    Read("struct { int a", ", b", 500_000, "; } x;", "error[94]: member 'b' declared twice", 5),
    Read("int x[] = { ", "1, ", 500_000, "};"),
    Read("char x[] = ", '"" ', 500_000, '"";'),
)
ENUMERATORS = "enum {" + "".join(f" e{number}," for number in range(500_000)) + " };"

# Declarations that are many or wide, what ends them, and what ends them else and is refused: the column within that, and what is told.
WIDE = (
    ("members, each used", bench_texts.used_members(100_000)[:-1], "}", "x.n; }", 2, "error[67]: no such member 'n'"),
    ("members of anonymous structures, each used", bench_texts.anonymous_beside_one_another(100_000)[:-1], "}", "x.n; }", 2, "error[67]: no such member 'n'"),
    ("anonymous structures in one another", bench_texts.anonymous_in_one_another(13_000)[:-1], "}", "x.n; }", 2, "error[67]: no such member 'n'"),
    ("structures that point to the one before", bench_texts.structures_of_pointers(100_000), "", "struct s0 k;", 11, "error[70]: incomplete type"),
    ("types of functions of the one before", bench_texts.typedefs_of_functions(240_000), "", "typedef int t0;", 13, "error[101]: typedef 't0' has another type"),
)

# One name is declared so often with one type, and as often with another one.
REDECLARATIONS = 50_000
BOTH_TYPES = (("extern int *p; ", "int *"), ("extern char *p; ", "char *"))


def redeclared():
    """The text of such declarations, and what is told: each but the first differs from an earlier one of the other type."""
    told, column = [], 1
    for number in range(2 * REDECLARATIONS):
        part, type_ = BOTH_TYPES[number % 2]
        place = f"t.c:1:{column + part.index('p;')}:"
        lines = ("warning: symbol 'p' redeclared with different type", f"   expected {BOTH_TYPES[1 - number % 2][1]}", f"   got {type_}")
        told += [f"{place} {line}\n" for line in lines] if number else []
        column += len(part)
    return "".join(part for part, _ in BOTH_TYPES) * REDECLARATIONS, "".join(told)


# A unit of 499,996 statements of four tokens each: what stands between its first object and its function, which have four and seven
# more, what stands behind the statements, and the answer. The limit goes before a rule that fails and before a syntax error.
UNIT_STATEMENTS = 499_996
TOO_MANY = ("ksparse: limit: unit tokens\n", 7)
UNITS = (
    ("2,000,000 tokens", "extern int *p;", "}", SILENT),
    ("2,000,001 tokens", "extern int **p;", "}", TOO_MANY),
    ("2,000,009 tokens and a rule that fails", "extern int __attribute__((noderef))b;", "b=a;}", TOO_MANY),
    ("2,000,001 tokens and no unit", "extern int *p;", "}}", TOO_MANY),
)

# How long a chain of operators is, and one of conditionals: nearly as long as the limit on tokens lets them be. How deep parentheses
# and statement expressions stand in one another.
OPERATORS = 600_000
CONDITIONALS = 400_000
PARENTHESES = 4_000
STATEMENTS = 3_600
# How deep bodies, `do`, `if` and structures stand in one another; how long chains of loops, of switches and of `else if` are.
BODIES = 31_900
LOOPS = 13_000
CONDITIONS_IN_ONE_ANOTHER = 65_000
STRUCTURES = 12_900
BRANCHES = 100_000
ALTERNATIVES = 280_000
# How many items an initializer has, how many that are designated or for parts without braces, how deep its braces stand in one another,
# and how long a string is.
ITEMS = 900_000
DESIGNATED = 100_000
BRACES = 30_000
CHARACTERS = 8_000_000

# So often stands one operand in another that is passed behind either outcome.
DOUBLINGS = 40

# What chains stand behind, all in the first line.
UNIT = "typedef unsigned short __attribute__((bitwise)) t; void f(int a, t h, int *p, char *s, char c) { "

DEGRADES = ("warning: restricted t degrades to integer",)
DIFFER = ("warning: operands of different restricted types", "   left int", "   right restricted t")
TESTED = ("warning: fouled restricted t compared or tested",)
CHANGED = ("warning: bad assignment operator on restricted t",)
STORED = ("warning: incorrect type in assignment (different restricted types)", "   expected int", "   got restricted t")
CAST = ("warning: cast of restricted t",)
UNLIKE = ("warning: incompatible types in conditional", "   left int", "   right int *")
DOUBLE = ("error[76]: case value used twice",)
WRONG = ("error[64]: wrong operand types",)
POINTER = ("warning: incorrect type in assignment (different base types)", "   expected int *")
NULL = ("warning: using plain integer as NULL pointer",)
SUM = ("warning: cast truncates constant (600000 becomes -64)",)
ARM = ("warning: cast truncates constant (300 becomes 44)",)
TRUNCATE = ("-Wcast-truncate",)
INITIALIZED = ("warning: incorrect type in initializer (different base types)",)
ITEM = (*INITIALIZED, "   expected int", "   got int *")
MEMBER = (*INITIALIZED, "   expected int *", "   got int")
EXTRA = ("error[98]: extra initializer",)
# Structures in a structure, the last one of them with a pointer
NESTED = "struct { struct { int a, b; } c; struct { int d; struct { int *e; } f; } g; } k[] = { "


class Chain(NamedTuple):
    """A link so often behind a front, with an end behind it and what closes each link, and the texts that are told of it: of the
    column that is so far behind the start of the last link, or else of the front.
    """

    name: str
    front: str
    link: str
    count: int
    end: str
    texts: tuple
    last: int | None = None
    at: int = 0
    back: str = ""
    words: tuple = ()

    def text(self):
        return UNIT + self.front + self.link * self.count + self.end + self.back * self.count + "; }\n"

    def told(self):
        column = len(UNIT) + 1
        if self.last is None:
            column += self.at
        else:
            column += len(self.front) + len(self.link) * (self.count - 1) + self.last
        return "".join(f"t.c:1:{column}: {text}\n" for text in self.texts)

    def status(self):
        if not self.texts:
            return 0
        return 2 if self.texts[0].startswith("error") else 1


def statements(name, link, count, back=""):
    """Statements in one another, of which the innermost one fails."""
    return Chain(f"{name} in one another", "", link, count, "p = s;", (*POINTER, "   got char *"), last=len(link) + 2, back=back)


def operands(operators, end, texts):
    """Chains of operands with these operators between, of which the last operator fails."""
    return [Chain(f"operands of {it}", "", f"a {it} ", OPERATORS, end, texts, last=2) for it in operators.split()]


def prefixes(operators, end, texts):
    """Chains of these operators before an operand, of which the last one fails."""
    return [Chain(f"operands behind {it}", "", f"{it} ", OPERATORS, end, texts, last=0) for it in operators.split()]


# The last link of a chain fails, or what the chain stands in: each link before is judged, and nothing is told of it.
CHAINS = (
    *operands("* / % + - << >> < > <= >=", "h", DEGRADES),
    *operands("== != & ^ |", "h", DIFFER),
    *operands("&& ||", "~h", TESTED),
    *operands("*= /= %= += -= <<= >>=", "h", CHANGED),
    *operands("&= ^= |=", "h", DIFFER),
    *operands("=", "h", STORED),
    *prefixes("+ -", "h", DEGRADES),
    *prefixes("!", "~h", TESTED),
    *prefixes("~", "p", WRONG),
    Chain("a fouled value behind ~", "!", "~ ", OPERATORS, "h", TESTED),
    Chain("operands behind sizeof", "p = ", "sizeof ", OPERATORS, "a", (*POINTER, "   got unsigned long"), at=2),
    Chain("increments", "", "a++, ", OPERATORS, "h++", CHANGED, last=len("a++, h")),
    Chain("decrements", "", "--a, ", OPERATORS, "--h", CHANGED, last=len("--a, ")),
    Chain("commas", "!(", "a, ", OPERATORS, "~h)", TESTED),
    Chain("casts", "", "(int)", OPERATORS, "h", CAST, last=0),
    Chain("?: to the right", "", "a ? a : ", CONDITIONALS, "p", UNLIKE, last=2),
    Chain("?: without a middle", "", "a ?: ", CONDITIONALS, "p", UNLIKE, last=2),
    Chain("conditions of ?:", "", "a ? a : ", CONDITIONALS, "~h ? a : a", TESTED, last=len("a ? a : ~h ")),
    Chain("?: in the middle", "", "a ? ", PARENTHESES, "p", (), back=" : p"),
    Chain("a sum", "(char)(", "1 + ", OPERATORS - 1, "1)", SUM, words=TRUNCATE),
    Chain("constants of ?:", "(char)(", "0 ? 2 : ", CONDITIONALS, "300)", ARM, words=TRUNCATE),
    Chain("parentheses", "p = ", "(", PARENTHESES, "s", (*POINTER, "   got char *"), back=")", at=2),
    Chain("parentheses around 0", "p = ", "(", PARENTHESES, "1 - 1", NULL, back=")", at=2),
    Chain("statement expressions", "p = ", "({ ", STATEMENTS, "c", (*POINTER, "   got char"), back="; })", at=2),
    Chain("a fouled value in statements", "!", "({ ", STATEMENTS, "~h", TESTED, back="; })"),
    statements("bodies", "{ ", BODIES, back=" }"),
    statements("do", "do ", LOOPS, back=" while (a);"),
    statements("if", "if (a) ", CONDITIONS_IN_ONE_ANOTHER),
    statements("while", "while (a) ", BRANCHES),
    statements("for", "for (; a; ) ", BRANCHES),
    statements("switches", "switch (a) case 1: ", BRANCHES),
    statements("else if", "if (a) ; else ", ALTERNATIVES),
    Chain("structures in one another", "", "struct { ", STRUCTURES, "int y;", (), back=" } x;"),
    Chain("items", "int k[] = { ", "1, ", ITEMS, "p }", ITEM, last=len("1, ")),
    Chain("designated items", "int k[2] = { ", "[1] = 1, ", DESIGNATED, "[1] = p }", ITEM, last=len("[1] = 1, [1] = ")),
    Chain("braces in one another", "int k = ", "{ ", BRACES, "p", ITEM, last=len("{ "), back=" }"),
    Chain("items of parts without braces", NESTED, "1, 1, 1, p, ", DESIGNATED // 4, "1, 1, 1, 1 }", MEMBER, last=len("1, 1, 1, p, 1, 1, 1, ")),
    Chain("a string with its array", f'char k[{CHARACTERS}] = "', "a", CHARACTERS, '"', ()),
    Chain("a string beyond its array", f'char k[{CHARACTERS - 1}] = "', "a", CHARACTERS, '"', EXTRA, at=len(f"char k[{CHARACTERS - 1}] = ")),
    Chain("compound literals", "", "(int){ 1 }; ", DESIGNATED, "(int){ p }", ITEM, last=len("(int){ 1 }; (int){ ")),
    Chain("a label of each switch", "switch (a) { case 0: ", "switch (a) case 1: case 2: ", BRANCHES, "case 2: ; }", DOUBLE, last=len("switch (a) case 1: case 2: case ")),
)


def differs(name, command, path, text, expected):
    """Whether a command over the file with this text leaves anything but this: what it writes, and its status."""
    with tempfile.TemporaryDirectory() as folder:
        with open(os.path.join(folder, path), "w", encoding="utf-8") as file:
            file.write(text)
        ran = subprocess.run(command, cwd=folder, capture_output=True, text=True, timeout=120, check=False)
    got = (ran.stdout, ran.stderr, ran.returncode)
    if got == expected:
        return False
    short = [(out[:60], err[:60], status) for out, err, status in (expected, got)]
    print(f"{name}: expected {short[0]}, got {short[1]}")
    return True


def flows_differ(flows):
    """How many flows are answered otherwise, and how many lines that are none."""
    command = [flows, "t.txt"]
    failures = sum(differs(name, command, "t.txt", flow.decode(), (answer + "\n", "", 0)) for name, flow, answer in FLOWS)
    for line, column, told in NOT_A_FLOW:
        # the lines before are answered
        failures += differs(line, command, "t.txt", f"P9 E9 ; 0, 0\n{line}\n", ("Balanced\n", f"t.txt:2:{column}: {told}\n", 2))
    return failures


def workbench_differs(workbench):
    """How many values of conditions and expansions."""
    failures = 0
    for name, text, answer in CONDITIONS:
        failures += differs(name, [workbench, "if_value", "t.txt"], "t.txt", text, (answer + "\n", "", 0))
    for name, text, tokens, (replacements, most) in EXPANSIONS:
        command = [workbench, "expand", "t.txt", f"replacements={replacements}", f"tokens={most}"]
        failures += differs(name, command, "t.txt", text + "\n", (tokens + NOTHING_LEFT + "\n", "", 0))
    return failures


def checks_differ(ksparse):
    """How many chains and units are checked otherwise."""

    def check_differs(name, text, answer):
        return differs(name, [ksparse, "t.c"], "t.c", text, ("", *answer))

    failures = check_differs("enumerators", ENUMERATORS, SILENT)
    for it in READ_CHAINS:
        failures += check_differs(f"{it.count} of {it.part}", it.text(), it.answer())
    for name, objects, end, answer in UNITS:
        failures += check_differs(name, f"extern int a;{objects}void f(void){{" + "a=a;" * UNIT_STATEMENTS + end, answer)
    return failures


def chains_differ(ksparse):
    """How many chains are judged otherwise."""
    return sum(differs(it.name, [ksparse, *it.words, "t.c"], "t.c", it.text(), ("", it.told(), it.status())) for it in CHAINS)


def declarations_differ(ksparse):
    """How many declarations that are many or wide are judged otherwise."""

    def check_differs(name, text, answer):
        return differs(name, [ksparse, "t.c"], "t.c", text, ("", *answer))

    text, told = redeclared()
    failures = check_differs("redeclarations", text, (told, 1))
    for name, text, end, failing, column, told in WIDE:
        text = text.decode()
        failures += check_differs(name, text + end, SILENT)
        failures += check_differs(f"{name}, and what is refused", text + failing, (f"t.c:1:{len(text) + column}: {told}\n", 2))
    return failures


def contexts_differ(ksparse):
    """How many functions with contexts are judged otherwise, each kind as large as it is measured: silent, and with one more that fails.
    Where each part doubles what is passed, memory is wanting at once."""

    def check_differs(name, text, answer):
        return differs(name, [ksparse, "t.c"], "t.c", text.decode(), ("", *answer))

    failures = check_differs("operands that double", bench_contexts.doubling(DOUBLINGS), ("", 6))
    for name, make, sizes in bench_contexts.KINDS:
        text = make(sizes[-1])
        failing, told = bench_contexts.last_fails(text)
        failures += check_differs(name, text, SILENT) + check_differs(f"{name}, and one that fails", failing, (told, 1))
    return failures


def main():
    flows, workbench, ksparse = map(os.path.abspath, sys.argv[1:])
    failures = flows_differ(flows) + workbench_differs(workbench) + checks_differ(ksparse) + chains_differ(ksparse) + contexts_differ(ksparse)
    failures += declarations_differ(ksparse)
    print(f"smoke: {failures} differences in large texts")
    return 1 if failures else 0


if __name__ == "__main__":
    sys.exit(main())
