"""The files that scripts/bench.py measures on: each of a size, of one kind."""
import re

MOST_TOKENS = 2000000
MOST_BYTES = 8388608

def texts_of(text):
    """Texts by their paths: a text alone is the file t.c."""
    return text if isinstance(text, dict) else {b"t.c": text}


OBJECTS = (
    b"extern int *p;\n"
    b"extern int *q;\n"
    b"extern int x;\n"
    b"extern int __attribute__((noderef, address_space(__user))) *u;\n"
)
STATEMENTS = b"  p = u;\n  *u = x;\n  p = q;\n  p = &x;\n  *p = x;\n"


def statements(tokens):
    """A unit of about so many tokens, with statements of all forms, two in five of which break a rule.

    They stand in functions of fifty, since sparse takes far longer for a long one.
    """
    # The objects have 30 tokens, a function 7 and 23 for each five statements.
    functions = [b"void f%d(void) {\n%b}\n" % (number, STATEMENTS * 10) for number in range((tokens - 30) // 237)]
    return OBJECTS + b"".join(functions)


def statements_of_bytes(size):
    """The same by its bytes: a token has a little more than two."""
    return statements(size * 100 // 212)


def stage_files(tokens):
    """For each stage of a check its name, and a file of statements whose check ends behind it.

    A file that isn't in the form is refused as soon as it is known: at its first token when the tokens are read,
    at its last one when the items are; names that aren't bound are when the tree is judged.
    """
    text = statements(tokens)
    return (
        ("tokens", b";\n" + text),
        ("reading", text + b";\n"),
        ("nodes", b"extern int y;\nextern int y;\n" + text),
        ("judging", text + b"void f(void) { p = z; }\n"),
        ("text", text),
    )


def one_letter_names(statements_wanted):
    """So many assignments of objects with one-letter names, between 15 other tokens."""
    return b"extern int a;extern int b;void f(void){" + b"a=b;" * statements_wanted + b"}"


def most_tokens(size):
    """The densest file that is in the form, and not past the limit on tokens."""
    return one_letter_names(min((MOST_TOKENS - 15) // 4, size // 4))


def dense(size):
    """The densest file in the form."""
    return one_letter_names((size - len(one_letter_names(0))) // 4)


def distinct_names(size):
    """As many declarations of different names as the file has room for."""
    parts, length, number = [], 0, 0
    while True:
        part = b"extern int n%d;" % number
        if length + len(part) > size:
            return b"".join(parts)
        parts.append(part)
        length += len(part)
        number += 1


def filled_with(piece, begin=b"", end=b""):
    """Files that are this piece again and again."""
    return lambda size: begin + piece * ((size - len(begin) - len(end)) // len(piece)) + end


def nested(front, between, back=b""):
    """Lines of about so many tokens: a piece again and again, what stands between, and another one as often."""
    each = tokens_in(front + back)
    return lambda tokens: front * (tokens // each) + between + back * (tokens // each) + b"\n"


def names_of_one_scope(names):
    """So many different names in a scope that is kept and opened again; then each is found."""
    numbers = range(names)
    bound = b"".join(b"unlinked n%d " % number for number in numbers)
    found = b"".join(b"find n%d " % number for number in numbers)
    return b"{ " + bound + b"keep reopen " + found + b"}\n"


def scopes_of_one_name_each(names):
    """So many scopes, each in the one before and with a name of its own; half of them are left, the others dropped open."""
    opened = b"".join(b"{ unlinked n%d " % number for number in range(names))
    return opened + b"find n0 " + b"} " * (names // 2) + b"find n0\n"


def one_name_in_each_scope(names):
    """The same with one name, which hides itself so often."""
    return b"{ unlinked n " * names + b"find n " + b"} " * (names // 2) + b"find n\n"


def levels(word):
    """So many levels of one kind, made twice and compared."""
    return lambda types: (b"int " + (word + b" ") * (types // 2)) * 2 + b"same\n"


def counted_levels(word):
    """The same in two words: a million stars, or levels of an array, where a million is asked."""
    return lambda types: b"int %b_%d int %b_%d same\n" % (word, types, word, types)


def marked_levels(types):
    """An array of so many levels, and const arrays of it, of which the first one is made level by level."""
    return b"int " + b"array_1 " * (types // 2) + b"again const array_2 drop " * (types // 6)


def functions_of_functions(types):
    """Functions of two pointers to the one before: trees of 3^(types / 5) parts."""
    return (b"int int function_1 " + b"pointer again again function_2 " * (types // 8)) * 2 + b"same\n"


def long_functions(types):
    """Functions of 255 parameters each, which differ in the last one."""
    one = b"int " * 255 + b"struct_%d function_255 drop "
    return b"".join(one % number for number in range(types // 258))


def members_of_one(types):
    """One aggregate of so many members."""
    return b"int member char pointer member " * (types // 5) + b"complete_1 body_1\n"


def aggregates(types):
    """So many aggregates of one member each, with names."""
    return b"".join(b"int member complete_%d tag_%d struct_%d drop " % (n, n, n) for n in range(types // 6))


def identities(types):
    """So many restricted types, and a pointer to each."""
    return b"".join(b"restricted_%d pointer drop " % number for number in range(types // 3))


def measured_structure(types):
    """One structure of so many members, and what it takes."""
    return b"int member char member " * (types // 4) + b"complete_1 struct_1 extent\n"


def measured_structures(types):
    """So many structures, each with the one before as a member, and what each takes."""
    one = b"struct_%d member int member complete_%d struct_%d extent "
    return b"complete_0 " + b"".join(one % (number, number + 1, number + 1) for number in range(types // 7))


def measured_levels(types):
    """An array of so many levels, and what each takes."""
    return b"int " + b"array_1 again extent " * (types // 3)


def measured_often(types):
    """So many uses of the size of a structure of a thousand members."""
    return b"int members_1000 complete_1 " + b"struct_1 extent " * (types // 2)


def repeated_types(types):
    """Few types, again and again."""
    return b"const int pointer array_3 int int function_1 pointer drop drop " * (types // 10)


# A word or a number, a literal, a punctuator, another byte.
TOKEN = re.compile(rb"""\w+|"[^"\n]*"|'[^'\n]*'|\.\.\.|<<=|>>=|->|\+\+|--|<<|>>|&&|\|\||\#\#|[-*/%+<>=!&^|]=|\S""")


def tokens_in(text):
    """How many tokens files without comments have."""
    return sum(len(TOKEN.findall(file)) for file in texts_of(text).values())


def largest_size(make):
    """How often the part of a text may stand in it, by the tokens of a unit and the bytes of a file."""
    few, many = (tokens_in(make(count)) for count in (100, 200))
    size = 100 + (MOST_TOKENS - few) * 100 // (many - few)
    length = len(make(size))
    while length > MOST_BYTES:
        size = size * MOST_BYTES // length
        length = len(make(size))
    return size


def defined(lines, text):
    """A file of these definitions, and a text behind them."""
    return b"".join(b"#define %b\n" % line for line in lines) + text + b"\n"


def doubled(levels):
    """Macros that are each twice the one before, down to one of nothing: 2^(levels + 1) - 1 replacements."""
    lines = [b"a0"] + [b"a%d a%d a%d" % (level + 1, level, level) for level in range(levels)]
    return defined(lines, b"a%d" % levels)


def nested_calls(depth):
    """Calls within one another."""
    return defined([b"f(a) a"], b"f(" * depth + b"1" + b")" * depth)


def chain(length):
    """Macros each of which is the next one."""
    return defined([b"a%d a%d" % (number, number + 1) for number in range(length)], b"a0")


def crossing_chains(length):
    """Macros each of which is the next one and one beside it, which hides the names of all before."""
    lines = [b"a%d a%d b%d" % (number, number + 1, number) for number in range(length)]
    return defined(lines + [b"b%d c" % number for number in range(length)], b"a0")


def parameters(count):
    """A macro of so many parameters, each used, and its call."""
    names = [b"p%d" % number for number in range(count)]
    return defined([b"f(" + b",".join(names) + b") " + b" ".join(names)], b"f(" + b",".join(names) + b")")


def used_definitions(count):
    """So many macros, with a use of each behind them."""
    names = [b"n%06d" % number for number in range(count)]
    return b"".join(b"#define %b 1\n" % name for name in names) + b"".join(b"%b\n" % name for name in names)


def calls_in_lines(count):
    """So many function-like macros, each used behind its definition."""
    return b"".join(b"#define f%06d(a) a + 1\nf%06d(x)\n" % (number, number) for number in range(count))


def groups(count):
    """So many groups one behind the other, of which each other one is skipped."""
    return b"".join(b"#ifdef __LP64__\na\n#else\nb\n#endif\n#if 0\nc\n#elif 1\nd\n#endif\n" for _ in range(count // 2))


def nested_groups(depth):
    """Groups within one another, read and then skipped."""
    read = b"#if 1\n" * depth + b"a\n" + b"#endif\n" * depth
    return read + b"#if 0\n" + read + b"#endif\n"


def conditions(count):
    """So many lines of `#if` with a macro, a `defined` and a name that is left."""
    return b"#define m(a) a\n" + b"#if m(1) < 2 && defined m || x\n#endif\n" * count


KERNEL_MACROS = (
    b"likely(x) __builtin_expect(!!(x), 1)",
    b"BIT(nr) (1UL << (nr))",
    b"SECOND(first, second, ...) second",
    b"COMMA_BEHIND_1 0,",
    b"IS_ONE_(comma) SECOND(comma 1, 0)",
    b"IS_ONE(value) IS_ONE_(COMMA_BEHIND_##value)",
    b"IS_ENABLED(option) IS_ONE(option)",
    b"CONFIG_ODD 1",
    b"min(x, y) ({ typeof(x) _x = (x); typeof(y) _y = (y); _x < _y ? _x : _y; })",
)
KERNEL_FUNCTION = b"""int f%06d(int a, int b)
{
	if (likely(a < b))
		return IS_ENABLED(CONFIG_ODD);
	return min(a, BIT(3));
}
"""


def uses_in_functions(functions):
    """So many functions, each with four uses of macros in the manner of the kernel's."""
    return defined(KERNEL_MACROS, b"".join(KERNEL_FUNCTION % number for number in range(functions)))


def nested_min(depth):
    """Calls of a macro within one another that puts each argument twice: 2^depth copies of the innermost one."""
    return defined([b"min(x, y) (x < y ? x : y)"], b"min(1, " * depth + b"a" + b")" * depth)


def tokens_that_vanish(uses):
    """So many calls, each of which makes 211,110 tokens on its way to nothing."""
    tens = [b"%b %b" % (made, b" ".join([part] * 10)) for made, part in zip((b"a", b"b", b"c", b"d", b"e"), (b"1", b"a", b"b", b"c", b"d"))]
    return defined(tens + [b"f(x)", b"g(x) f(x)"], b"g(e)\n" * uses)


def including(paths, text=b""):
    """A file that includes these, and a text behind that."""
    return b"".join(b'#include "%b"\n' % path for path in paths) + text


def headers_in_one_another(depth):
    """So many headers, each of which includes the next."""
    paths = [b"h%d.h" % number for number in range(1, depth + 1)]
    files = {path: including([below]) for path, below in zip(paths, paths[1:])}
    return {**files, b"t.c": including(paths[:1]), paths[-1]: b"end\n"}


def headers_of_spaces(count):
    """So many headers of 8,000,000 spaces each."""
    paths = [b"h%d.h" % number for number in range(count)]
    return {b"t.c": including(paths), **{path: b" " * 8000000 for path in paths}}


def guarded_header(times):
    """A header with a guard and 1,000 declarations, included so many times."""
    lines = b"".join(b"extern int n%03d;\n" % number for number in range(1000))
    return {b"t.c": including([b"g.h"] * times), b"g.h": b"#ifndef G\n#define G\n" + lines + b"#endif\n"}


def long_header(lines):
    """A header of so many lines."""
    return {b"t.c": including([b"h.h"]), b"h.h": b"a\n" * lines}


KERNEL_CODE = b"""static inline int take_%06d(struct device *dev, unsigned long flags)
{
	struct state *state = dev->state;
	int error = 0, at;

	if (!state || (flags & 0x10UL) == 0)
		return -22;
	for (at = 0; at < state->count; at++) {
		if (state->entry[at].flags & flags)
			error = state->run(dev, &state->entry[at], sizeof(state->entry));
		if (error < 0)
			goto out;
	}
	state->last = (unsigned long)dev >> 3;
out:
	return error ? error : at * 2;
}
"""


def functions_of_a_kernel(functions):
    """So many functions in the manner of a driver's."""
    types = b"struct entry { unsigned long flags; };\n"
    types += b"struct state { int count; struct entry entry[4]; int (*run)(void *, void *, unsigned long); unsigned long last; };\n"
    return types + b"struct device { struct state *state; };\n" + b"".join(KERNEL_CODE % number for number in range(functions))


def enumerators(count):
    """An enumeration of so many."""
    return b"enum { " + b"".join(b"e%06d, " % number for number in range(count)) + b"};"


def names_of_one_body(count):
    """A body that declares so many names."""
    return b"void f(void) { int n" + b"".join(b", n%06d" % number for number in range(count)) + b"; }"


def declarations(count):
    """So many objects."""
    return b"".join(b"int *n%06d; " % number for number in range(count))


def used_members(count):
    """A structure of so many members, each used by its name."""
    members = b"".join(b"int m%06d; " % number for number in range(count))
    return b"struct { " + members + b"} x; void f(void) { " + b"".join(b"x.m%06d; " % number for number in range(count)) + b"}"


def anonymous_in_one_another(count):
    """So many structures without a tag in one another, each with a name before the one inside and a name behind it, of which the outermost
    and the innermost are used.
    """
    before = b"".join(b"struct { int a%05d; " % number for number in range(count))
    behind = b"".join(b"int b%05d; }; " % number for number in reversed(range(count)))
    return b"struct { " + before + behind + b"} x; void f(void) { x.a00000; x.b00000; x.a%05d; x.b%05d; }" % (count - 1, count - 1)


def uses_of_an_inner_name(count):
    """So many uses of the innermost name of 10,000 structures without a tag in one another."""
    return anonymous_in_one_another(10_000)[:-1] + b"x.a09999; " * count + b"}"


def anonymous_beside_one_another(count):
    """A structure of so many structures without a tag, each of whose names is used."""
    members = b"".join(b"struct { int m%06d; }; " % number for number in range(count))
    return b"struct { " + members + b"} x; void f(void) { " + b"".join(b"x.m%06d; " % number for number in range(count)) + b"}"


def designated_items(count):
    """An array of so many elements, each initialized by its index."""
    return b"int a[%d] = { " % count + b"".join(b"[%d] = 1, " % number for number in range(count)) + b"};"


def designated_members(count):
    """A structure of so many members, each initialized by its name."""
    members = b"".join(b"int m%06d; " % number for number in range(count))
    return b"struct { " + members + b"} x = { " + b"".join(b".m%06d = 1, " % number for number in range(count)) + b"};"


def initialized_objects(count):
    """So many objects, each with an initializer."""
    return b"".join(b"int n%06d = 1; " % number for number in range(count))


def structures_of_pointers(count):
    """So many structures, each with a pointer to the one before."""
    return b"".join(b"struct s%d { struct s%d *p; }; " % (number + 1, number) for number in range(count))


def typedefs_of_functions(count):
    """So many types of functions, each of the one before."""
    return b"typedef int t0(int); " + b"".join(b"typedef int t%d(t%d); " % (number, number - 1) for number in range(1, count))


def cases(count):
    """A switch with so many cases."""
    return b"void f(int a) { switch (a) { " + b"".join(b"case %d: ; " % number for number in range(count)) + b"} }"


def cases_of_nested_switches(count):
    """So many cases, a hundred of each of the switches that stand in one another."""
    labels = b"".join(b"case %d: " % number for number in range(100))
    return b"void f(int a) { " + (b"switch (a) " + labels) * (count // 100) + b"; }"


def labels_across(count):
    """So many labels, and as many jumps to them, the first one to the last."""
    lines = (b"l%06d: goto l%06d; " % (number, count - 1 - number) for number in range(count))
    return b"void f(void) { " + b"".join(lines) + b"}"


def functions_of_parameters(count):
    """So many functions that each use a parameter and the function before."""
    front = b"int f0(int a) { return a; } "
    return front + b"".join(b"int f%d(int a) { return f%d(a); } " % (number, number - 1) for number in range(1, count))


def doubling_typedefs(count):
    """So many types of functions, each with two parameters that point to the one before."""
    return b"typedef int t0(int); " + b"".join(b"typedef int t%d(t%d *, t%d *); " % (number, number - 1, number - 1) for number in range(1, count))


def words_before_declarators(count):
    """So many specifiers, and as many declarators behind them."""
    return b"const " * count + b"int a" + b", a" * count + b";"


def doubled_name(levels):
    """A name that each level of calls pastes to itself: 2^levels letters."""
    return defined([b"c(a) a ## a", b"d(a) c(a)"], b"d(" * levels + b"x" + b")" * levels)


def long_argument(tokens):
    """A call whose one argument has so many tokens."""
    return defined([b"f(a) a"], b"f(" + b"x " * tokens + b")")


def spelled_levels(word):
    """A type of so many levels of one kind, which is spelled."""
    return lambda count: b"commands int %b_%d text\n" % (word, count)


def failures(count):
    """So many failures at other tokens, found in the order of a card that is shuffled, and told in the order of their tokens."""
    order = sorted(range(count), key=lambda number: number * 7919 % 99991)
    return b"commands called n on S1 " + b"".join(b"at_%d S1 " % token for token in order) + b"warnings\n"


def spelling_of(word):
    """How that type is spelled, where this word stands for a level."""
    return lambda count: b"int" + b" %b" % word * count + b"\n"


def failures_in_order(count):
    """The lines of those failures: one for each of the first tokens."""
    columns, column = [], 1
    for word in failures(count).split(b" ")[:count]:
        columns.append(column)
        column += len(word) + 1
    line = b"t.c:1:%d: warning: symbol 'n' was not declared. Should it be static?\n"
    return b"".join(line % column for column in columns)


def folded_chain(front, link):
    """A chain of so many links over a literal, each folded."""
    return lambda count: b"int nodes int %b %b_%d show\n" % (front, link, count)
