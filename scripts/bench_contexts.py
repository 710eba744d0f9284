"""Functions with contexts, for scripts/bench.py and scripts/smoke_large.py: each kind by its number of parts. All of them are silent."""

CALLS = b"void lk(void) __attribute__((context(l, 0, 1))); void un(void) __attribute__((context(l, 1, 0)));\n"
HELD = b"int held(int) __attribute__((context(l, 1, 1)));\n"
PAIR = b"{ __context__(1); __context__(-1); }"


def parts(front, part, middle, back, behind):
    """A text of a part so often, and of what closes each."""
    return lambda count: front + part * count + middle + back * count + behind


def body(part, middle=b"", back=b"", before=b""):
    """The body of a function."""
    return parts(before + b"void f(int a) { ", part, middle, back, b" }\n")


def locked(part, middle=b""):
    """The body of a function that has a lock meanwhile."""
    return parts(b"void f(int a) { __context__(1); ", part, middle, b"", b" __context__(-1); }\n")


def condition(part, back):
    """The condition of an `if`."""
    return parts(b"void f(int a) { if (", part, b"a", back, b") " + PAIR + b" }\n")


def cases(count):
    """A switch of so many cases."""
    lines = b"".join(b"case %d: __context__(1); __context__(-1); break;\n" % number for number in range(count))
    return b"void f(int a) { switch (a) {\n" + lines + b"} }\n"


def jumps_to_labels(count):
    """Jumps to labels that stand behind all of them."""
    jumps = b"".join(b"if (a) goto x%d;\n" % number for number in range(count))
    labels = b"".join(b"x%d: ;\n" % number for number in range(count))
    return b"void f(int a) { __context__(1);\n" + jumps + labels + b"__context__(-1); }\n"


def jumps_out(count):
    """Jumps out of a hundredth as many statement expressions in one another."""
    depth = max(count // 100, 1)
    inside = b"({ " * depth + b"if (a) goto x; " * count + b"1; " + b"}); " * depth
    return b"void f(int a) { __context__(1); " + inside + b" x: __context__(-1); }\n"


def sum_of_calls(count):
    """A sum of calls of functions with contexts."""
    return HELD + b"int f(int a) __attribute__((context(l, 1, 1))) { return " + b"held(a) + " * (count - 1) + b"held(a); }\n"


def functions(body):
    """So many functions with this body."""
    return lambda count: CALLS + b"".join(b"void f%d(int a) { %b }\n" % (number, body) for number in range(count))


def doubling(count):
    """Second operands that are passed behind either outcome, each in the one before: they stand twice as often each time."""
    return b"void f(int a) { __context__(1); if (" + b"__builtin_expect(a, " * count + b"a" + b" && 1)" * count + b") ; __context__(-1); }\n"


def last_fails(text):
    """A text with one more function, which fails, and what is told of that."""
    line = text.count(b"\n") + 1
    return text + b"void last(void) { __context__(-1); }\n", f"t.c:{line}:19: warning: context imbalance in 'last' - unexpected release\n"


def up_to(most):
    """Four sizes, each ten times as large as the one before."""
    return tuple(most // 10**power for power in (3, 2, 1, 0))


# Each kind with its name, how a file of so many is made, and the sizes.
KINDS = (
    ("contexts: ifs", body(b"if (a) " + PAIR + b" "), up_to(100_000)),
    ("contexts: ifs that lock", body(b"if (a && ({ lk(); 1; })) un(); ", before=CALLS), up_to(100_000)),
    ("contexts: cases", cases, up_to(100_000)),
    ("contexts: else if", body(b"if (a) " + PAIR + b" else ", b";"), up_to(10_000)),
    ("contexts: statements", locked(b"a++; "), up_to(500_000)),
    ("contexts: loops in one another", body(b"do ", PAIR, b" while (a);"), up_to(13_000)),
    ("contexts: jumps to one label", locked(b"if (a) goto x; ", b"x: ;"), up_to(100_000)),
    ("contexts: jumps to labels", jumps_to_labels, up_to(100_000)),
    ("contexts: jumps out of statement expressions", jumps_out, up_to(100_000)),
    ("contexts: a sum of calls", sum_of_calls, up_to(200_000)),
    ("contexts: parts of &&", locked(b"a && ", b"a;"), up_to(200_000)),
    ("contexts: first operands of __builtin_expect", condition(b"__builtin_expect(", b", 1)"), up_to(4_000)),
    ("contexts: second operands of __builtin_expect", condition(b"__builtin_expect(1, ", b")"), up_to(4_000)),
    ("contexts: functions with contexts", functions(b"lk(); ; un();"), up_to(100_000)),
    ("contexts: functions without contexts", functions(b"a; a; a;"), up_to(100_000)),
)
