#!/usr/bin/env python3
"""Measures the program on files of several kinds, and sparse and tcc beside it where they are installed; then calls of
libraries that no command makes yet.

usage: bench.py PROGRAM WORKBENCH FLOWS JUDGED [FAMILY..]

With families, as `macros`, `#if`, `headers`, `-E`, `parsing`, `judging`, `contexts` or `flows`, only these are measured.

Prints for each file its bytes and tokens, the processor time of a check, also by the token, and the peak
memory, also by the token where it is large. Where valgrind is installed, a column has the instructions by the
token, above those of a check of an empty file: they don't depend on what else the machine does. They are
counted on a smaller file of the same kind. A second table has those of each stage of a check, a third one has `-E` of files
and their headers, files that the grammar reads, files that the judge judges, functions with contexts, the calls, which WORKBENCH
makes, and control flow graphs, which FLOWS walks.

Exits 1 where a file of the first form takes more than a tenth longer by the token than a smaller one does,
once the smaller one takes long enough to be measured, or where a largest file takes more than five seconds; where a
call, `-E` or a family takes more than eleven times as long with ten times as many tokens, or macros in chains more than sixteen
times, once the smaller one takes long enough to be measured, or else where there is none larger;
where a guarded header that is read again and again takes too long, 2,097,151 replacements more than 0.3 seconds, or a
flow of 100,000 more than 0.1 seconds; and
where one of the deepest and longest texts has another answer than it must.
"""
import os
import re
import shutil
import statistics
import subprocess
import sys
import tempfile
from typing import Callable, NamedTuple

import bench_contexts
import bench_flows
import bench_texts as texts

# The least seconds of a check that others are compared with: below, its start hides what it costs.
LEAST_SECONDS = 0.1
MOST_RATIO = 1.1
MOST_SECONDS = 5
# After so many seconds of processor time a program is stopped. Some files take the peers hours.
STOP_SECONDS = 20
# Smaller peaks are mostly what a program, or what starts it here, takes at its start.
LEAST_KIBIBYTES = 32768
# The size of a file whose instructions are counted.
COUNTED_BYTES = 262144
# So many tokens, names in scopes or words on types, have the texts of a call. Up to so many its instructions are counted.
CALL_TOKENS = (10000, 100000, 1000000)
COUNTED_TOKENS = 100000
MOST_CALL_RATIO = 11
# The sets of names that a chain hides outgrow the caches.
MOST_CHAIN_RATIO = 16
# So do the tables of a million different names or types.
MOST_NAMES_RATIO = 20
MOST_DOUBLING_SECONDS = 0.3
# So often is a guarded header included, 51 MB by the count of the limit, in no more than this.
MOST_GUARDED_SECONDS = 0.02
# So many uses or lines have the files of `-E` whose instructions are counted.
COUNTED_USES = 10000
# So long may a flow of this size take, the reading of it included.
TIMED_FLOW = 100000
MOST_FLOW_SECONDS = 0.1
# So many pairs of runs are compared where one run of each took too long.
PAIRS = 5
# A call that takes less is compared as one that takes this: its start hides what it costs.
LEAST_CALL_SECONDS = 0.01

# Runs a command and prints its seconds, its peak kibibytes and its status. A process begins with the peak of the
# one that started it, so this runs in a small process of its own.
MEASURE = """
import os, resource, subprocess, sys
resource.setrlimit(resource.RLIMIT_CPU, (int(sys.argv[1]), int(sys.argv[1])))
child = subprocess.Popen(sys.argv[2:], stdout=subprocess.DEVNULL, stderr=subprocess.DEVNULL)
_, status, usage = os.wait4(child.pid, 0)
print(usage.ru_utime + usage.ru_stime, usage.ru_maxrss, os.waitstatus_to_exitcode(status))
"""

# What sparse and tcc are run as. All warnings are asked of sparse, and of tcc none, as it knows no rules. tcc
# removes its output before it writes it, so that has to be a file of its own.
PEERS = (
    ("sparse", ["sparse", "-fmax-warnings=unlimited"]),
    ("tcc", ["tcc", "-w", "-c", "-o", "t.o"]),
)


# Each kind with its name, how a file of so many bytes is made, and whether its tokens are counted.
LARGEST = (
    ("most tokens", texts.most_tokens, True),
    ("too many tokens", texts.dense, True),
    ("distinct names", texts.distinct_names, True),
    ("not in the form", texts.filled_with(b"a+"), True),
    ("one comment", texts.filled_with(b"*", b"/*", b"*/"), False),
    ("comments of one line", texts.filled_with(b"//\n"), False),
    ("lines joined in a word", texts.filled_with(b"a\\\n"), False),
    ("one string literal", texts.filled_with(b"a", b'"', b'"'), False),
    ("a literal never closed", texts.filled_with(b'"'), False),
    ("quotes behind include", texts.filled_with(b'#include "\n'), False),
)


# An operator of each level between two operands; `+` and `-` have chains of their own.
LEVELS = (b"*", b"<<", b"<", b"==", b"&", b"^", b"|", b"&&", b"||")


# How a check may end of a text that the grammar reads
READ = (0, 1, 2)


class Family(NamedTuple):
    """Files that the program is measured on: their name, the text of a size, or texts by their paths, the sizes, the most seconds
    of the largest, how many times as long one of ten times the size may take, and the words before the file with the statuses.

    Where no sizes are given, nothing but the tokens of a unit and the bytes of a file bounds them.
    """

    name: str
    make: Callable
    sizes: tuple | None = None
    most_seconds: float = MOST_SECONDS
    most_ratio: int = MOST_CALL_RATIO
    words: tuple = ("-E",)
    statuses: tuple = (0,)

    def measured_sizes(self):
        """The sizes that are given, or the largest that may be and a tenth of it."""
        if self.sizes is not None:
            return self.sizes
        largest = texts.largest_size(self.make)
        return (largest // 10, largest)


def of_parsing(name, before, front, middle, back, after, sizes=None):
    """A text that the grammar reads, whatever the judge says of it: something again and again, and its end as often."""
    make = lambda count: before + front * count + middle + back * count + after
    return Family("parsing: " + name, make, sizes, words=(), statuses=READ)


def of_judging(name, before, front, middle, back, after, sizes=None, most_ratio=MOST_CALL_RATIO, status=0):
    """The same for a text that the judge judges; the status is 1 where it warns."""
    make = lambda count: before + front * count + middle + back * count + after
    return Family("judging: " + name, make, sizes, most_ratio=most_ratio, words=(), statuses=(status,))


class Call(NamedTuple):
    """Calls of a library: their name, the words of the command before and behind the file, files of each of the sizes,
    how many times as long one of ten times the size may take, and what is written for a size, where that is asked.
    """

    name: str
    words: list
    behind: list
    make: Callable
    sizes: tuple
    most_ratio: int
    answer: Callable | None = None


def of_if(name, make):
    """The value of an `#if` of so many tokens."""
    return Call("#if: " + name, ["if_value"], [], make, CALL_TOKENS, MOST_CALL_RATIO)


def of_macros(name, make, sizes, most_ratio=MOST_CALL_RATIO):
    """The expansion of a text behind its definitions."""
    return Call("macros: " + name, ["expand"], ["replacements=4000000", "tokens=16000000"], make, sizes, most_ratio)


def of_directives(name, make, sizes):
    """The preprocessed unit of a file."""
    return Call("units: " + name, ["preprocess"], [], make, sizes, MOST_CALL_RATIO)


def of_scopes(name, make, most_ratio):
    """Commands on scopes, over so many names."""
    return Call("scopes: " + name, ["scopes"], [], make, CALL_TOKENS, most_ratio)


def of_types(name, make, most_ratio=MOST_NAMES_RATIO):
    """Commands on types, over so many words."""
    return Call("types: " + name, ["types"], [], make, CALL_TOKENS, most_ratio)


def of_texts(name, make, sizes, answer, most_ratio=MOST_CALL_RATIO):
    """The texts of types, or of failures."""
    return Call("texts: " + name, ["texts"], [], make, sizes, most_ratio, answer)


def of_constants(name, make, sizes):
    """The constants of nodes, each folded by those of its parts."""
    return Call("constants: " + name, ["constants"], [], make, sizes, MOST_CALL_RATIO)


def of_layouts(name, make, most_ratio=MOST_NAMES_RATIO):
    """The same on what types take."""
    return Call("layouts: " + name, ["types"], [], make, CALL_TOKENS, most_ratio)


class Extreme(NamedTuple):
    """A text of macros that is as deep or as long as a stranger's may be, and its answer: the status, and the first line."""

    name: str
    make: Callable
    size: int
    status: int
    line: bytes


EXTREMES = (
    Extreme("macros: nested calls", texts.nested_calls, 100000, 0, b"1"),
    Extreme("macros: a chain", texts.chain, 100000, 0, b"a100000"),
    Extreme("macros: a long argument", texts.long_argument, 1000000, 0, b" ".join([b"x"] * 1000000)),
    Extreme("macros: parameters", texts.parameters, 10000, 0, b" ".join(b"p%d" % number for number in range(10000))),
    # want of memory, as the tools say it
    Extreme("macros: a name of 2^40", texts.doubled_name, 40, 1, b""),
)

DOUBLED = of_macros("each twice the next", texts.doubled, (20,))

CALLS = (
    of_if("parentheses", texts.nested(b"(", b"1", b")")),
    of_if("a sum of ones", texts.nested(b"1+", b"1")),
    of_if("?: to the right", texts.nested(b"0?2:", b"3")),
    of_if("?: in the middle", texts.nested(b"1?", b"3", b":2")),
    of_if("prefixes !", texts.nested(b"!", b"1")),
    of_if("prefixes -", texts.nested(b"- ", b"1")),
    of_macros("nested calls", texts.nested_calls, (1000, 10000, 100000)),
    of_macros("a chain", texts.chain, (1000, 10000, 100000), MOST_CHAIN_RATIO),
    of_macros("two chains", texts.crossing_chains, (1000, 10000, 100000), MOST_CHAIN_RATIO),
    of_macros("parameters", texts.parameters, (10, 100, 1000)),
    of_directives("definitions with uses", texts.used_definitions, (1000, 5000, 10000, 50000)),
    of_directives("calls in lines", texts.calls_in_lines, (1000, 5000, 10000, 50000)),
    of_directives("uses in functions", texts.uses_in_functions, (1900, 19000)),
    of_directives("calls within calls, doubled", texts.nested_min, (14,)),
    of_directives("groups", texts.groups, (1000, 5000, 10000, 50000)),
    of_directives("nested groups", texts.nested_groups, (1000, 10000, 100000)),
    of_directives("lines of #if", texts.conditions, (10000, 100000)),
    of_scopes("names of one scope", texts.names_of_one_scope, MOST_NAMES_RATIO),
    of_scopes("nested, of a name each", texts.scopes_of_one_name_each, MOST_NAMES_RATIO),
    of_scopes("nested, of one name", texts.one_name_in_each_scope, MOST_CALL_RATIO),
    of_types("pointers", texts.levels(b"pointer")),
    of_types("arrays", texts.levels(b"array_1")),
    of_types("stars, counted", texts.counted_levels(b"pointers")),
    of_types("levels, counted", texts.counted_levels(b"arrays")),
    of_types("marked arrays", texts.marked_levels),
    of_types("functions", texts.functions_of_functions),
    of_types("long functions", texts.long_functions),
    of_types("members", texts.members_of_one),
    of_types("aggregates", texts.aggregates),
    of_types("identities", texts.identities),
    of_types("repeats", texts.repeated_types, MOST_CALL_RATIO),
    of_texts("stars", texts.spelled_levels(b"pointers"), (10000, 100000, 1000000), texts.spelling_of(b"*"), MOST_NAMES_RATIO),
    of_texts("levels of arrays", texts.spelled_levels(b"arrays"), (50000, 500000), texts.spelling_of(b"[1]")),
    of_texts("failures in order", texts.failures, (1000, 10000, 100000), texts.failures_in_order),
    of_constants("a sum", texts.folded_chain(b"literal_1", b"sums"), (60000, 600000)),
    of_constants("a chain of &&", texts.folded_chain(b"literal_1", b"ands"), (60000, 600000)),
    of_constants("?: to the right", texts.folded_chain(b"literal_3", b"arms"), (40000, 400000)),
    of_constants("parentheses", texts.folded_chain(b"literal_7", b"parentheses"), (4000, 40000, 400000)),
    of_constants("enumerators", texts.folded_chain(b"literal_0 enumerator", b"enumerators"), (6000, 60000)),
    of_layouts("one structure", texts.measured_structure),
    of_layouts("structures", texts.measured_structures),
    of_layouts("levels of arrays", texts.measured_levels),
    of_layouts("uses of one size", texts.measured_often, MOST_CALL_RATIO),
)


FAMILIES = (
    Family("headers: in one another", texts.headers_in_one_another, (20, 200)),
    Family("headers: eight of spaces", texts.headers_of_spaces, (8,), 1),
    Family("headers: one with a guard", texts.guarded_header, (300, 3000), MOST_GUARDED_SECONDS),
    Family("headers: lines of one", texts.long_header, (10000, 100000, 1000000)),
    Family("-E: uses in functions", texts.uses_in_functions, (1900, 19000)),
    Family("-E: nested min", texts.nested_min, (14,)),
    Family("-E: definitions with uses", texts.used_definitions, (1000, 10000, 100000)),
    Family("-E: calls in lines", texts.calls_in_lines, (1000, 10000, 100000)),
    Family("-E: groups", texts.groups, (1000, 10000, 100000)),
    Family("-E: nested groups", texts.nested_groups, (1000, 10000, 100000)),
    Family("-E: lines of #if", texts.conditions, (10000, 100000)),
    Family("-E: nested calls", texts.nested_calls, (1000, 10000, 100000)),
    Family("-E: a chain", texts.chain, (1000, 10000, 100000), most_ratio=MOST_CHAIN_RATIO),
    Family("-E: two chains", texts.crossing_chains, (1000, 10000, 100000), most_ratio=MOST_CHAIN_RATIO),
    Family("-E: parameters", texts.parameters, (100, 1000, 10000)),
    Family("-E: a long argument", texts.long_argument, (10000, 100000, 1000000)),
    Family("-E: each twice the next", texts.doubled, (20,), MOST_DOUBLING_SECONDS),
    Family("-E: tokens that vanish", texts.tokens_that_vanish, (75,)),
    Family("parsing: functions of a kernel", texts.functions_of_a_kernel, words=(), statuses=READ),
    of_parsing("a chain of -", b"int a; int x = ", b"- ", b"a", b"", b";"),
    of_parsing("a sum", b"int a; int x = ", b"a + ", b"a", b"", b";"),
    *(of_parsing(f"operands of {it.decode()}", b"int a; int x = ", b"a %b " % it, b"a", b"", b";") for it in LEVELS),
    of_parsing("commas", b"int a; void f(void) { ", b"a, ", b"a", b"", b"; }"),
    *(of_parsing(f"operands before {it.decode()}", b"int a; int x = a", it, b"", b"", b";") for it in (b"++", b".m", b"->m", b"()")),
    *(of_parsing(f"operands behind {it.decode()}", b"int a; int x = ", it + b" ", b"a", b"", b";") for it in (b"!", b"--", b"sizeof")),
    of_parsing("calls of 255 arguments", b"int g(); void f(void) { ", b"g(" + b"1," * 254 + b"1); ", b"", b"", b" }"),
    of_parsing("cases", b"void f(void) { switch (1) { ", b"case 1: ", b";", b"", b" } }"),
    of_parsing("context statements", b"void f(void) { ", b"__context__(1); ", b"", b"", b" }"),
    of_parsing("numbers", b"void f(void) { ", b"0x7fffffffu; ", b"", b"", b" }"),
    of_parsing("assignments", b"int a; void f(void) { ", b"a = ", b"a", b"", b"; }"),
    of_parsing("casts", b"typedef int t; int a; int x = ", b"(t)", b"a", b"", b";"),
    of_parsing("subscripts", b"int a; int x = a", b"[1]", b"", b"", b";"),
    of_parsing("indirections", b"int *p; int x = ", b"*", b"p", b"", b";"),
    of_parsing("labels", b"void f(void) { ", b"x: ", b";", b"", b" }"),
    of_parsing("?: to the right", b"int a; int x = ", b"a ? a : ", b"a", b"", b";"),
    of_parsing("else if", b"void f(void) { ", b"if (1) ; else ", b";", b"", b" }"),
    of_parsing("statements", b"void f(void) { ", b";", b"", b"", b" }"),
    of_parsing("declarators", b"int a", b", a", b"", b"", b";"),
    of_parsing("array sizes", b"int a", b"[1]", b"", b"", b";"),
    of_parsing("parameter lists", b"int a", b"(void)", b"", b"", b";"),
    of_parsing("qualifiers", b"", b"const ", b"int a;", b"", b""),
    of_parsing("attribute words", b"int __attribute__((a", b", a", b"", b"", b")) x;"),
    of_parsing("attributes that mean something", b"int __attribute__((packed", b", context(a, 0, 1), address_space(u)", b"", b"", b")) x;"),
    of_parsing("words of one context", b"int __attribute__((context(1", b" 1", b"", b"", b", 0, 1))) x;"),
    of_parsing("tags declared alone", b"struct s *p; void f(void) { ", b"{ struct s; } ", b"", b"", b" }"),
    of_parsing("attribute lists", b"int ", b"__attribute__((a)) ", b"x;", b"", b""),
    of_parsing("members", b"struct { int a", b", b", b"", b"", b"; } x;"),
    of_parsing("initializers", b"int x[] = { ", b"1, ", b"", b"", b"};"),
    of_parsing("string literals", b"char x[] = ", b'"" ', b'""', b"", b";"),
    of_parsing("parentheses", b"int x = ", b"(", b"1", b")", b";", (400, 4000)),
    of_parsing("bodies", b"void f(void) ", b"{", b"", b"}", b"", (3000, 30000)),
    of_parsing("statement expressions", b"int x = ", b"({ ", b"1", b"; })", b";", (360, 3600)),
    of_parsing("declarators in one another", b"int ", b"(", b"x", b")", b";", (3000, 30000)),
    of_parsing("lists in one another", b"int x = ", b"{", b"1", b"}", b";", (3000, 30000)),
    of_parsing("structures in one another", b"", b"struct { ", b"int y;", b" } x;", b"", (1300, 13000)),
    of_parsing("if in if", b"void f(void) { ", b"if (1) ", b";", b"", b" }", (6000, 60000)),
    of_parsing("do in do", b"void f(void) { ", b"do ", b";", b" while (1);", b" }", (1300, 13000)),
    of_parsing("subscripts in one another", b"int a[1]; void f(void) { ", b"a[", b"0", b"]", b"; }", (400, 4000)),
    of_parsing("calls in one another", b"int g(int); void f(void) { ", b"g(", b"1", b")", b"; }", (400, 4000)),
    of_parsing("sizes in one another", b"int x = ", b"sizeof(int [", b"1", b"])", b";", (400, 4000)),
    of_parsing("middle operands in one another", b"int x = ", b"1 ? ", b"1", b" : 1", b";", (1600, 16000)),
    of_parsing("parameter lists in one another", b"int f(", b"int (*)(", b"int", b")", b");", (1600, 16000)),
    of_parsing("typeof in typeof", b"", b"typeof(", b"int", b")", b" x;", (2100, 21000)),
    of_parsing("parentheses of an attribute", b"int __attribute__((x(", b"(", b"", b")", b"))) y;", (3200, 32000)),
    Family("parsing: enumerators", texts.enumerators, most_ratio=MOST_NAMES_RATIO, words=(), statuses=READ),
    Family("parsing: names of one scope", texts.names_of_one_body, most_ratio=MOST_NAMES_RATIO, words=(), statuses=READ),
    Family("parsing: words before declarators", texts.words_before_declarators, words=(), statuses=READ),
)

# What flags a pointer of these texts has.
FLAGGED = b"int __attribute__((noderef)) *"
# A type that is restricted, and shorter than an int.
RESTRICTED = b"typedef unsigned short __attribute__((bitwise)) t; "
# A type with structures in a structure.
STRUCTURES = b"struct { struct { int a, b; } c; struct { int d; struct { int e; } f; } g; }"
# Operators between two operands that make a value, and those that change the first one; `=` has a chain of its own.
BINARY = (b"*", b"/", b"%", b"+", b"-", b"<<", b">>", b"<", b">", b"<=", b">=", b"==", b"!=", b"&", b"^", b"|", b"&&", b"||")
COMPOUND = (b"*=", b"/=", b"%=", b"+=", b"-=", b"<<=", b">>=", b"&=", b"^=", b"|=")

# What the judge judges as long as no command asks it. Conversions and accesses that fail are warned of.
JUDGING = (
    of_judging("calls", b"int g(int); void f(void) { ", b"g(1); ", b"", b"", b" }"),
    of_judging("calls of 255 arguments", b"int g(int, ...); void f(void) { ", b"g(" + b"1," * 254 + b"1); ", b"", b"", b" }"),
    of_judging(
        "calls of 255 parameters",
        b"int g(" + b"int," * 254 + b"int); void f(void) { ",
        b"g(" + b"1," * 254 + b"1); ",
        b"",
        b"",
        b" }",
    ),
    of_judging("nested calls", b"int g(int); void f(void) { ", b"g(", b"1", b")", b"; }", (300, 3000)),
    of_judging("statements", b"extern int *p; void f(void) { ", b"*p; ", b"", b"", b" }"),
    of_judging("stores", b"extern int *p, *q; void f(void) { ", b"p = q; ", b"", b"", b" }"),
    of_judging("stores of stores", b"extern int *p; void f(void) { ", b"p = ", b"p", b"", b"; }"),
    of_judging("returns", b"int f(int a) { ", b"return a; ", b"", b"", b" }"),
    of_judging("strings", b"extern char *s; void f(void) { ", b's = "a"; ', b"", b"", b" }"),
    Family("judging: functions", texts.functions_of_parameters, words=()),
    Family("judging: declarations", texts.declarations, words=()),
    of_judging("redeclarations of one name", b"", b"extern int *p; ", b"", b"", b""),
    of_judging("redeclarations in blocks", b"extern int *p; void f(void) { ", b"{ extern int *p; p; } ", b"", b"", b" }"),
    of_judging("redeclarations of another type", b"extern int *p; ", b"extern char *p; ", b"", b"", b"", status=1),
    of_judging("redeclarations with a length", b"extern int a[]; ", b"extern int a[4]; ", b"", b"", b""),
    of_judging("typedefs of one name", b"", b"typedef int *t; ", b"", b"", b""),
    Family("judging: typedefs that double", texts.doubling_typedefs, most_ratio=MOST_NAMES_RATIO, words=()),
    of_judging("stars of a type", b"extern int ", b"*", b"p; void f(void) { p = p; }", b"", b""),
    of_judging("uses of a deep type", b"extern int " + b"*" * 1000 + b"p; void f(void) { ", b"p = p; ", b"", b"", b" }"),
    of_judging("levels of an array", b"extern int a", b"[1]", b"; void f(void) { a", b"[0]", b"; }"),
    of_judging("parentheses", b"extern int *p; void f(void) { ", b"(", b"p", b")", b"; }", (400, 4000)),
    of_judging("*& chains", b"extern int *p; void f(void) { ", b"*&", b"*p", b"", b"; }"),
    of_judging("stars of a function", b"void f(void) { ", b"*", b"f", b"", b"; }"),
    of_judging("accesses that warn", FLAGGED + b"u; void f(void) { ", b"*u; ", b"", b"", b" }", status=1),
    of_judging("conversions that warn", FLAGGED + b"u; int *p; void f(void) { ", b"p = u; ", b"", b"", b" }", status=1),
    *(of_judging(f"operands of {it.decode()}", b"void f(int a) { ", b"a %b " % it, b"a", b"", b"; }") for it in BINARY + COMPOUND),
    *(of_judging(f"operands behind {it.decode()}", b"void f(int a) { ", it + b" ", b"a", b"", b"; }") for it in (b"+", b"-", b"~", b"!", b"sizeof")),
    *(of_judging(f"operands before {it.decode()}", b"void f(int a) { ", b"a%b, " % it, b"a", b"", b"; }") for it in (b"++", b"--")),
    of_judging("a sum of constants", b"void f(void) { ", b"1 + ", b"1", b"", b"; }"),
    of_judging("commas", b"void f(int a) { ", b"a, ", b"a", b"", b"; }"),
    of_judging("casts", b"void f(int a) { ", b"(long)", b"a", b"", b"; }"),
    of_judging("casts of constants", b"void f(void) { ", b"(int)", b"1", b"", b"; }"),
    of_judging("casts of pointers", b"void f(int *p) { ", b"(int *)p; ", b"", b"", b" }"),
    of_judging("?: to the right", b"void f(int a) { ", b"a ? a : ", b"a", b"", b"; }"),
    of_judging("?: without a middle", b"void f(int a) { ", b"a ?: ", b"a", b"", b"; }"),
    of_judging("?: of pointers", b"void f(int *p, void *v) { ", b"p ? v : ", b"p", b"", b"; }"),
    of_judging("differences of pointers", b"void f(int *p) { ", b"p - p; ", b"", b"", b" }"),
    of_judging("comparisons of pointers", b"void f(int *p, void *v) { ", b"p == v; ", b"", b"", b" }"),
    of_judging("restricted operands", RESTRICTED + b"void f(t h) { ", b"h & ", b"~h", b"", b"; }"),
    of_judging("sizes of types", b"void f(void) { ", b"sizeof(int *) + ", b"1", b"", b"; }"),
    of_judging("statement expressions", b"void f(int a) { ", b"({ ", b"a", b"; })", b"; }", (360, 3600)),
    of_judging("nested __builtin_expect", b"void f(int a) { ", b"__builtin_expect(", b"a", b", 1)", b"; }", (300, 3000)),
    of_judging("operands that warn", RESTRICTED + b"void f(t h) { ", b"h + 1; ", b"", b"", b" }", status=1),
    of_judging("comparisons that warn", b"void f(int *p, char *s) { ", b"p == s; ", b"", b"", b" }", status=1),
    of_judging("casts that warn", RESTRICTED + b"void f(t h) { ", b"(int)h; ", b"", b"", b" }", status=1),
    Family("judging: members, each used", texts.used_members, (10000, 100000), words=()),
    Family("judging: members of anonymous structures, each used", texts.anonymous_beside_one_another, (10000, 100000), words=()),
    Family("judging: anonymous structures in one another", texts.anonymous_in_one_another, (1300, 13000), words=()),
    Family("judging: uses of a name within 10,000 anonymous structures", texts.uses_of_an_inner_name, (10000, 100000), words=()),
    of_judging("structures in one another", b"", b"struct { ", b"int y;", b" } x;", b"", (1300, 13000)),
    Family("judging: enumerators", texts.enumerators, (6000, 60000), words=()),
    Family("judging: structures that point to the one before", texts.structures_of_pointers, (10000, 100000), words=()),
    of_judging("redeclarations, each second of another type", b"", b"extern int *p; extern char *p; ", b"", b"", b"", (5000, 50000), status=1),
    Family("judging: typedefs of functions of the one before", texts.typedefs_of_functions, (24000, 240000), words=()),
    Family("judging: cases of one switch", texts.cases, (10000, 100000), words=()),
    of_judging("switches in one another, of a case each", b"void f(int a) { ", b"switch (a) case 1: ", b";", b"", b" }", (10000, 100000)),
    Family("judging: switches in one another, of a hundred cases", texts.cases_of_nested_switches, (10000, 100000), words=()),
    Family("judging: labels and jumps across", texts.labels_across, (10000, 100000), words=()),
    of_judging("bodies in one another", b"void f(void) ", b"{", b"", b"}", b"", (3200, 32000)),
    of_judging("do in do", b"void f(int a) { ", b"do ", b";", b" while (a);", b" }", (1300, 13000)),
    of_judging("if in if", b"void f(int a) { ", b"if (a) ", b";", b"", b" }", (6500, 65000)),
    of_judging("else if", b"void f(int a) { ", b"if (a) ; else ", b";", b"", b" }", (30000, 300000)),
    of_judging("items", b"int a[] = { ", b"1, ", b"", b"", b"};", (90000, 900000)),
    Family("judging: designated items", texts.designated_items, (10000, 100000), words=()),
    Family("judging: designated members", texts.designated_members, (10000, 100000), most_ratio=MOST_NAMES_RATIO, words=()),
    of_judging("braces in one another", b"int a = ", b"{", b"1", b"}", b";", (3000, 30000)),
    of_judging("items of parts without braces", STRUCTURES + b" a[] = { ", b"1, ", b"", b"", b"};", (10000, 100000)),
    of_judging("a string of an array", b'char a[] = "', b"a", b"", b"", b'";', (800000, 8000000)),
    of_judging("compound literals", b"void f(void) { ", b"(int){ 1 }; ", b"", b"", b" }", (20000, 200000)),
    Family("judging: initialized objects", texts.initialized_objects, (20000, 200000), most_ratio=MOST_NAMES_RATIO, words=()),
    of_judging("arguments that warn", FLAGGED + b"u; int g(int *); void f(void) { ", b"g(u); ", b"", b"", b" }", status=1),
)

# Functions with contexts
CONTEXTS = tuple(Family(name, make, sizes, words=()) for name, make, sizes in bench_contexts.KINDS)


class Checker:
    """A program that checks the file t.c, with words behind it, and the statuses with which it may end."""

    def __init__(self, name, command, statuses, behind=()):
        self.name = name
        self.command = command + ["t.c"] + list(behind)
        self.statuses = statuses
        self.instructions_at_start = self.instructions(b"")

    def run(self, text):
        """The seconds and the peak kibibytes of a check, the least time of three; None if it has no answer."""
        best = None
        for _ in range(3):
            with Folder(text) as folder:
                seconds, kibibytes, status = measured(self.command, folder)
            if status not in self.statuses:
                return None
            best = (seconds, kibibytes) if best is None else min(best, (seconds, kibibytes))
        return best

    def instructions(self, text):
        """How many instructions a check executes; None without valgrind, or where the check doesn't end."""
        if shutil.which("valgrind") is None:
            return None
        valgrind = ["valgrind", "--tool=callgrind", "--callgrind-out-file=" + os.devnull]
        with Folder(text) as folder:
            try:
                done = subprocess.run(
                    valgrind + self.command,
                    cwd=folder,
                    stdout=subprocess.DEVNULL,
                    stderr=subprocess.PIPE,
                    timeout=STOP_SECONDS,
                )
            except subprocess.TimeoutExpired:
                return None
        counted = re.findall(rb"Collected : (\d+)", done.stderr)
        return int(counted[-1]) if counted and done.returncode in self.statuses else None

    def instructions_a_token(self, text):
        """The same by the token, above those of an empty file; None where there are none."""
        instructions = self.instructions(text)
        if instructions is None or self.instructions_at_start is None:
            return None
        return (instructions - self.instructions_at_start) / texts.tokens_in(text)


class Folder:
    """A folder of its own, with the file t.c, and others where they are given."""

    def __init__(self, text):
        self.texts = texts.texts_of(text)

    def __enter__(self):
        self.folder = tempfile.TemporaryDirectory()
        for path, text in self.texts.items():
            with open(os.path.join(self.folder.name.encode(), path), "wb") as file:
                file.write(text)
        return self.folder.name

    def __exit__(self, *_):
        self.folder.cleanup()


def measured(command, folder):
    """The seconds, the peak kibibytes and the status of a command."""
    done = subprocess.run(
        [sys.executable, "-S", "-c", MEASURE, str(STOP_SECONDS)] + command,
        cwd=folder,
        stdout=subprocess.PIPE,
        check=True,
    )
    seconds, kibibytes, status = done.stdout.split()
    return float(seconds), int(kibibytes), int(status)


def print_line(cells):
    """A line of the table; a cell without a value is empty."""
    widths = (26, 9, 9, 8, 9, 9, 11, 12)
    shown = [f"{cells[0]:{widths[0]}}"]
    shown += [f"{'' if cell is None else cell:>{width}}" for cell, width in zip(cells[1:], widths[1:])]
    print(" ".join(shown).rstrip(), flush=True)


def print_row(checker, name, text, counted):
    """Measures a checker on a file, and prints the line; answers the seconds, or None if it had no answer.

    The instructions are counted on the file `counted`, and what is by the token is left out where that is None.
    """
    found = checker.run(text)
    if found is None:
        print_line([name, None, None, "refused or stopped"])
        return None
    seconds, kibibytes = found
    tokens = texts.tokens_in(text) if counted is not None else None
    by_token = [None, None, None]
    if tokens:
        instructions = checker.instructions_a_token(counted)
        by_token = [
            f"{seconds / tokens * 1e9:.0f}",
            f"{kibibytes * 1024 / tokens:.0f}" if kibibytes >= LEAST_KIBIBYTES else None,
            None if instructions is None else f"{instructions:.0f}",
        ]
    print_line([name, sum(map(len, texts.texts_of(text).values())), tokens, f"{seconds:.3f}", kibibytes] + by_token)
    return seconds


def print_rows(checkers, name, text, counted):
    """The line of the program, which has to answer, and below it those of its peers."""
    program = checkers[0]
    seconds = print_row(program, name, text, counted)
    if seconds is None:
        sys.exit(f"bench: no answer to the file of this kind: {name}")
    for peer in checkers[1:]:
        print_row(peer, "  " + peer.name, text, counted)
    return seconds


def grows_in_step(checkers):
    """Whether a check of statements takes no longer by the token where there are many more of them.

    The smaller file doubles until its check takes long enough; the larger is the largest that is judged.
    """
    counted = texts.statements_of_bytes(COUNTED_BYTES)
    tokens = 10000
    seconds = print_rows(checkers, "statements", texts.statements(tokens), counted)
    while seconds < LEAST_SECONDS and tokens * 2 < texts.MOST_TOKENS:
        tokens *= 2
        seconds = checkers[0].run(texts.statements(tokens))[0]
    print_rows(checkers, "statements", texts.statements(tokens), counted)
    larger = print_rows(checkers, "statements", texts.statements(texts.MOST_TOKENS), counted)
    if seconds < LEAST_SECONDS:
        return True
    return larger / texts.MOST_TOKENS <= MOST_RATIO * seconds / tokens


def print_stages(checker):
    """The table of what each stage takes, in instructions by the token."""
    if checker.instructions_at_start is None:
        return
    print(f"{'stage':26} {'instr/token':>11}")
    before = 0
    for name, text in texts.stage_files(COUNTED_BYTES * 100 // 212):
        behind = checker.instructions_a_token(text)
        print(f"{name:26} {behind - before:11.0f}")
        before = behind


def takes_in_step(seconds, most_ratio):
    """Whether each size takes only so many times as long as a tenth of it.

    These are compared where the tenth takes long enough, and else the largest that has a tenth.
    """
    pairs = [(seconds[size // 10], seconds[size]) for size in sorted(seconds) if size // 10 in seconds]
    compared = [pair for pair in pairs if pair[0] >= LEAST_SECONDS] or pairs[-1:]
    return all(larger <= most_ratio * max(smaller, LEAST_CALL_SECONDS) for smaller, larger in compared)


def call_grows_in_step(workbench, call):
    """Whether a call takes only so many times as long where its size is ten times as large. Prints its lines."""
    checker = Checker(call.name, [workbench] + call.words, (0,), call.behind)
    seconds = {}
    for size in call.sizes:
        text = call.make(size)
        seconds[size] = print_rows([checker], call.name, text, call.make(min(size, COUNTED_TOKENS)))
    return has_the_answer(workbench, call) and takes_in_step(seconds, call.most_ratio)


def has_the_answer(workbench, call):
    """Whether what the largest text of a call must write is written, where that is asked."""
    if call.answer is None:
        return True
    size = call.sizes[-1]
    with Folder(call.make(size)) as folder:
        done = subprocess.run([workbench, *call.words, "t.c", *call.behind], cwd=folder, stdout=subprocess.PIPE, check=False)
    if done.stdout == call.answer(size):
        return True
    print(f"bench: {call.name}: another answer, or status {done.returncode}")
    return False


def doubles_in_time(workbench):
    """Whether 2,097,151 replacements take no more than is allowed. Prints their line."""
    checker = Checker(DOUBLED.name, [workbench] + DOUBLED.words, (0,), DOUBLED.behind)
    text = DOUBLED.make(DOUBLED.sizes[0])
    return print_rows([checker], DOUBLED.name, text, None) <= MOST_DOUBLING_SECONDS


def has_its_answer(workbench, extreme):
    """Whether such a text has the answer that it must have. Prints its line."""
    command = [workbench, "expand", "t.c", *DOUBLED.behind]
    text = extreme.make(extreme.size)
    checker = Checker(extreme.name, command[:2], (extreme.status,), DOUBLED.behind)
    print_row(checker, extreme.name, text, extreme.make(min(extreme.size, 1000)))
    with Folder(text) as folder:
        done = subprocess.run(command, cwd=folder, stdout=subprocess.PIPE, stderr=subprocess.DEVNULL, check=False)
    if done.returncode == extreme.status and done.stdout.split(b"\n")[0] == extreme.line:
        return True
    print(f"bench: {extreme.name}: another answer, or status {done.returncode}")
    return False


def pairs_take_in_step(checker, name, smaller, larger, most_ratio):
    """The same of two texts by pairs of runs, one right after the other: where others use the machine too, it is faster in one
    minute than in the next. The median of their ratios counts, and is printed.
    """
    ratios = []
    with Folder(smaller) as small, Folder(larger) as large:
        before = measured(checker.command, small)[0]
        for _ in range(PAIRS):
            whole = measured(checker.command, large)[0]
            behind = measured(checker.command, small)[0]
            ratios.append(2 * whole / max(before + behind, 2 * LEAST_CALL_SECONDS))
            before = behind
    ratio = statistics.median(ratios)
    print(f"{name}: {ratio:.1f} times as long, the median of {PAIRS} pairs of runs", flush=True)
    return ratio <= most_ratio


def family_grows_in_step(program, family):
    """Whether a run takes only so many times as long where its size is ten times as large, and the largest no longer than it may.
    Prints its lines.
    """
    checker = Checker(family.name, [program, *family.words], family.statuses)
    seconds = {}
    for size in family.measured_sizes():
        text = family.make(size)
        counted = family.make(COUNTED_USES) if size > COUNTED_USES else text
        seconds[size] = print_rows([checker], family.name, text, None if isinstance(text, dict) else counted)
    if seconds[max(seconds)] > family.most_seconds:
        return False
    if takes_in_step(seconds, family.most_ratio):
        return True
    smaller, larger = (family.make(size) for size in family.measured_sizes()[-2:])
    return pairs_take_in_step(checker, family.name, smaller, larger, family.most_ratio)


def flows_grow_in_step(flows, name, make, sizes):
    """Whether flows of a kind take only so many times as long where they are ten times as large. Prints their lines."""
    checker = Checker(name, [flows], (0,))
    seconds = {}
    for size in sizes:
        seconds[size] = print_rows([checker], name, make(size), None)
    return takes_in_step(seconds, MOST_CALL_RATIO) and seconds[TIMED_FLOW] <= MOST_FLOW_SECONDS


def calls_pass(program, workbench, flows, families):
    """Whether runs and calls of these families, or of all, take no more than they may. Prints their lines."""

    def is_asked(name):
        return not families or name.split(":")[0] in families

    passed = True
    for family in [*FAMILIES, *JUDGING, *CONTEXTS]:
        if is_asked(family.name) and not family_grows_in_step(program, family):
            passed = False
    if is_asked(DOUBLED.name) and not doubles_in_time(workbench):
        passed = False
    for call in CALLS:
        if is_asked(call.name) and not call_grows_in_step(workbench, call):
            passed = False
    for name, make, sizes in bench_flows.KINDS:
        if is_asked(name) and not flows_grow_in_step(flows, name, make, sizes):
            passed = False
    for extreme in EXTREMES:
        if is_asked(extreme.name) and not has_its_answer(workbench, extreme):
            passed = False
    return passed


def program_passes(checkers):
    """Whether the checks of files take no more than they may. Prints their lines."""
    passed = grows_in_step(checkers)
    for name, make, has_tokens in LARGEST:
        counted = make(COUNTED_BYTES) if has_tokens else None
        if print_rows(checkers, name, make(texts.MOST_BYTES), counted) > MOST_SECONDS:
            passed = False
    print_stages(checkers[0])
    return passed


def checkers_of(program):
    """The program, and its peers that are installed."""
    # A check ends with 0 or 1, and with 2 or 7 where it refuses a file.
    checkers = [Checker("ksparse", [program], (0, 1, 2, 7))]
    for name, command in PEERS:
        if shutil.which(command[0]):
            checkers.append(Checker(name, command, (0,)))
    return checkers


def main():
    program, workbench, flows = map(os.path.abspath, sys.argv[1:4])
    families = sys.argv[4:]
    heads = ["bytes", "tokens", "seconds", "peak KiB", "ns/token", "bytes/token", "instr/token"]
    passed = True
    if not families:
        print_line(["file", *heads])
        passed = program_passes(checkers_of(program))
    print_line(["call", *heads])
    return 0 if calls_pass(program, workbench, flows, families) and passed else 1


if __name__ == "__main__":
    sys.exit(main())
