"""Random units for the judge: declared objects and functions, and expressions over them, each made for what is wanted of it.

What is wanted is a shape: an `int` of any type, restricted ones too; a `p`, a pointer to such; a `pp`, a pointer to a `p`; a
pointer to `void`; a function; or nothing, `void`. Rules fail often; a constraint is broken where a slip puts another shape in.
"""
import re
from typing import NamedTuple

from made_expressions import ASSIGNMENT, CAST, COMMA, CONDITIONAL, FIRST_OF_TWO, OPERATORS, POSTFIX, PRIMARY, UNARY, Expression, written

MARKS = """#define USER __attribute__((noderef, address_space(1)))
#define SPACE1 __attribute__((address_space(1)))
#define SPACE2 __attribute__((address_space(2)))
#define NODEREF __attribute__((noderef))
#define BITWISE __attribute__((bitwise))
#define FORCE __attribute__((force))
"""
# The same for a compiler that knows no marks
WITHOUT_MARKS = "".join(f"#define {line.split()[1]}\n" for line in MARKS.splitlines())

OBJECTS = """typedef unsigned int BITWISE le32; typedef unsigned int BITWISE be32; typedef int BITWISE status;
typedef unsigned short BITWISE le16; typedef unsigned char BITWISE le8; typedef le16 alike; typedef int USER *users;
extern le32 r, r2; extern be32 rb; extern status st; extern le16 h, h2; extern le8 o; extern _Bool BITWISE tb;
extern int i, j; extern unsigned int ui; extern char c; extern long l; extern _Bool t; extern unsigned short us;
extern int *p, *q; extern char *s; extern le32 *rp; extern const int *kp; extern int m[4]; extern le16 hs[2];
extern int USER *u; extern int SPACE1 *s1; extern int SPACE2 *s2; extern int NODEREF *nd; extern int USER n[3];
extern int **pp; extern int USER **up; extern int USER (*ua)[3]; extern int (*ia)[3]; extern void *v; extern void USER *uv;
extern void none(void); extern int one(int); extern int *through(int *); extern int print(char *, ...);
extern le32 both(le32, int USER *); extern void (*f)(int USER *); extern int (*g)(int);
extern const int k; extern int USER fl; extern users us1;
"""


WORD = re.compile(r"\w+")
# Words of declarations that declare nothing
COMMON = {
    *"typedef extern const int char long unsigned short void _Bool USER SPACE1 SPACE2 NODEREF BITWISE FORCE 2 3 4".split(),
}


def objects_of(text):
    """Those of the objects that a text names, and what they name, a declaration a line."""
    named, found = set(WORD.findall(text)), []
    for declaration in reversed(OBJECTS.replace(";\n", "; ").split("; ")):
        words = WORD.findall(declaration)
        if declaration and named.intersection(words) - COMMON:
            named.update(words)
            found.append(f"{declaration};\n")
    return "".join(reversed(found))


class Name(NamedTuple):
    """A declared name: the shape of its value, and whether it can be stored to and have its address taken."""

    name: str
    shape: str
    is_stored: bool = True
    is_addressed: bool = True


def names(shape, words, **marks):
    return [Name(word, shape, **marks) for word in words.split()]


KNOWN = [
    *names("int", "r r2 rb st h h2 o tb i j ui c l t us fl"), *names("int", "k", is_stored=False),
    *names("p", "p q s rp u s1 s2 nd us1"), *names("p", "m hs n kp", is_stored=False, is_addressed=False),
    *names("pp", "pp up"), *names("pp", "ua ia", is_stored=False), *names("void *", "v uv"),
]
# Functions that can be called: what they give, and what they take
FUNCTIONS = {
    "none": ("void", []), "one": ("int", ["int"]), "through": ("p", ["p"]), "print": ("int", ["p", None]), "both": ("int", ["int", "p"]),
    "f": ("void", ["p"]), "g": ("int", ["int"]),
}
LITERALS = ["0", "1", "2", "3u", "7L", "'a'", "'\\0'", "255", "300", "70000", "5000000000", "0u", "0x80000000"]
ZEROS = ["0", "0", "( 0 )", "0L", "'\\0'", "1 - 1", "( char ) 0", "( FORCE le32 ) 0", "! 1"]
TYPES = {
    "int": [
        "int", "char", "unsigned char", "signed char", "short", "unsigned short", "unsigned int", "long", "unsigned long", "long long",
        "_Bool", "le32", "be32", "le16", "le8", "status", "alike", "const int", "const le32", "FORCE int", "FORCE le32", "FORCE le16",
        "le16 FORCE", "unsigned long BITWISE", "unsigned short BITWISE FORCE", "int USER",
    ],
    "p": [
        "int *", "char *", "const int *", "int USER *", "int SPACE1 *", "int SPACE2 *", "int NODEREF *", "char USER *", "le32 *",
        "le16 *", "FORCE int *", "int FORCE *", "int * FORCE", "FORCE int USER *", "int * USER", "users", "long *", "const users",
    ],
    "pp": ["int * *", "int USER * *", "int * USER *", "const int * *", "int ( * ) [ 3 ]", "int USER ( * ) [ 3 ]", "FORCE int * *"],
    "void *": ["void *", "const void *", "void USER *", "void * const", "FORCE void *", "void FORCE SPACE1 *"],
    "void": ["void", "const void"],
    "function": ["void ( * ) ( void )", "int ( * ) ( int )"],
}
BAD_TYPES = ["int [ 2 ]", "int ( void )", "int ( * ) [ ]"]
BITWISE = ("&", "^", "|")
ASSIGNED = ["=", "=", "=", "+=", "-=", "*=", "/=", "%=", "<<=", ">>=", "&=", "^=", "|="]
SHAPES = ["int", "p", "pp", "void *", "function", "void"]


def primary(*parts):
    return Expression(PRIMARY, list(parts))


def postfix(*parts):
    return Expression(POSTFIX, list(parts))


def unary(*parts):
    return Expression(UNARY, list(parts))


class Maker:
    """Makes units by chance. Without operators it makes names, literals, parentheses, `*`, `&`, `[ ]`, calls and `=` alone."""

    def __init__(self, chance, has_operators=True, is_plain=False):
        self.chance = chance
        self.has_operators = has_operators
        # Without marks, and without what a compiler refuses and the rules only warn of
        self.is_plain = is_plain
        # Every so many-th expression is another one than what is wanted; never, where it is 0
        self.slip = chance.choice([0, 0, 20, 10, 10, 8])
        self.scopes = [list(KNOWN)]
        self.made = 0
        # The shape that the function gives whose body is made
        self.result = "void"

    def often(self, percent):
        return self.chance.randrange(100) < percent

    def slips(self, percent):
        """The same, where a slip may be made."""
        return bool(self.slip) and self.often(percent)

    # Expressions

    def expression(self, shape, depth):
        """An expression for what is wanted, now and then another one."""
        if self.slip and self.chance.randrange(self.slip) == 0:
            shape = self.chance.choice(SHAPES)
        if depth <= 0 or self.often(8):
            return self.leaf(shape)
        makers = {
            "int": self.integer, "p": self.pointer, "pp": self.pointer, "void *": self.pointer, "function": self.function,
            "void": self.nothing,
        }
        return makers[shape](shape, depth)

    def known(self, shape, **marks):
        """A name of this shape."""
        found = [name for scope in self.scopes for name in scope if name.shape == shape]
        fit = [name for name in found if all(getattr(name, mark) for mark in marks)]
        return primary(self.chance.choice(fit).name) if fit else None

    def leaf(self, shape):
        if shape == "int":
            if self.has_operators and self.often(8):
                return unary("~", (primary(self.chance.choice(["h", "h2", "o", "tb", "r"])), CAST))
            return primary(self.chance.choice(LITERALS)) if self.often(30) else self.known("int")
        if shape == "function":
            return primary(self.chance.choice(["none", "one", "through", "print", "both", "f", "g"]))
        if shape == "void":
            return postfix((primary("none"), POSTFIX), "( )")
        if shape == "p" and self.often(10):
            return primary('"ab"')
        return self.known(shape)

    def zero(self):
        return primary(self.chance.choice(ZEROS) if self.has_operators else self.chance.choice(["0", "( 0 )", "0L", "'\\0'"]))

    def scalar(self):
        return self.chance.choice(["int", "int", "p", "p", "pp", "void *"])

    def any(self):
        return self.chance.choice(["int", "int", "p", "pp", "void *", "void", "function"])

    def place(self, shape, depth, is_stored=True):
        """A place of this shape, to be stored to or to have its address taken."""
        chance, behind = self.chance, {"int": "p", "p": "pp"}.get(shape)
        kind = chance.randrange(6)
        if depth > 0 and kind == 0:
            return primary("(", (self.place(shape, depth - 1, is_stored), COMMA), ")")
        if depth > 0 and kind in (1, 2) and behind:
            return self.target(behind, depth)
        marks = {"is_stored": True} if is_stored else {"is_addressed": True}
        return self.known(shape, **marks) or self.leaf(shape)

    def target(self, behind, depth):
        """What a pointer of this shape points to."""
        if self.often(50):
            return unary("*", (self.expression(behind, depth - 1), CAST))
        parts = [self.expression(behind, depth - 1), self.expression("int", depth - 1)]
        if self.often(15):
            parts.reverse()
        return postfix((parts[0], POSTFIX), "[", (parts[1], COMMA), "]")

    def called(self, shape, depth):
        """A call that gives this shape."""
        name = self.chance.choice([name for name, (gives, _) in FUNCTIONS.items() if gives == shape])
        wanted, parts = FUNCTIONS[name][1], []
        wanted = [*wanted[:-1], *[None] * self.chance.randrange(3)] if None in wanted else wanted
        if self.slips(10):
            wanted = [*wanted, "int"] if self.often(50) else wanted[:-1]
        for number, each in enumerate(wanted):
            parts += [","] * (number > 0) + [(self.argument(each, depth), ASSIGNMENT)]
        return postfix((self.callee(name), POSTFIX), "(", *parts, ")")

    def callee(self, name):
        """A function by its name, now and then behind stars, or by its address."""
        callee = primary(name)
        if name not in "fg" and self.often(10):
            callee = unary("&", (callee, CAST))
        while self.often(20):
            callee = unary("*", (callee, CAST)) if self.often(70) else primary("(", (callee, COMMA), ")")
        return callee

    def argument(self, shape, depth):
        """An argument for a parameter of this shape, or of another one that C converts."""
        if self.often(10):
            return self.zero()
        return self.expression(self.scalar() if shape is None or self.often(15) else shape, depth - 1)

    def assigned(self, shape, depth):
        target = self.place(shape, depth - 1)
        operators = ASSIGNED if self.has_operators else ["="]
        operator = self.chance.choice(operators if shape == "int" else ["=", "=", "+=", "-="] if self.has_operators else ["="])
        if operator != "=":
            source = self.expression(self.scalar() if self.slips(10) else "int", depth - 1)
        else:
            source = self.argument(shape, depth)
        return Expression(ASSIGNMENT, [(target, CONDITIONAL), operator, (source, ASSIGNMENT)])

    def parenthesized(self, shape, depth):
        return primary("(", (self.expression(shape, depth - 1), COMMA), ")")

    def comma(self, shape, depth):
        return Expression(COMMA, [(self.expression(self.any(), depth - 1), COMMA), ",", (self.expression(shape, depth - 1), ASSIGNMENT)])

    def conditional(self, shape, depth):
        condition = self.expression(self.scalar(), depth - 1)
        arms = [self.expression(shape, depth - 1) for _ in range(2)]
        if shape not in ("int", "void") and self.often(25):
            arms[self.chance.randrange(2)] = self.expression("void *", depth - 1) if self.often(40) else self.zero()
        elif shape == "int" and self.often(20):
            arms[self.chance.randrange(2)] = self.zero()
        if self.slips(10):
            arms[self.chance.randrange(2)] = self.expression(self.chance.choice(["function", "void", "void *"]), depth - 1)
        if shape != "void" and self.often(25):
            return Expression(CONDITIONAL, [(arms[0], FIRST_OF_TWO), "? :", (arms[1], CONDITIONAL)])
        return Expression(CONDITIONAL, [(condition, FIRST_OF_TWO), "?", (arms[0], COMMA), ":", (arms[1], CONDITIONAL)])

    def named_type(self, shape, depth):
        """A type name of this shape."""
        if self.slip and self.chance.randrange(self.slip) == 0:
            return self.chance.choice(BAD_TYPES)
        if depth > 0 and shape in ("int", "p") and self.often(8):
            return f"typeof ( {written(self.expression(shape, depth - 1), False)} )"
        return self.chance.choice(TYPES[shape])

    def cast(self, shape, depth):
        wanted = self.any() if shape == "void" else "int" if self.often(30) else self.scalar() if self.often(70) else "function"
        constants = ["300", "70000", "- 1", "5000000000", "128", "( 300 + 40000 )"]
        operand = self.zero() if self.often(10) else self.expression(wanted, depth - 1)
        if shape == "int" and self.often(15):
            operand = Expression(CAST, [self.chance.choice(constants)])
        return Expression(CAST, [f"( {self.named_type(shape, depth - 1)} )", (operand, CAST)])

    def statement_expression(self, shape, depth):
        before = [self.statement(depth - 1) for _ in range(self.chance.choice([0, 0, 0, 1]))]
        return primary("( {", *before, (self.expression(shape, depth - 1), COMMA), "; } )")

    def binary(self, depth):
        """An operator between two integers."""
        number = self.chance.choice([number for number, _ in enumerate(OPERATORS)] + [2, 3, 4, 4, 5, 5, 8])
        level, operator = FIRST_OF_TWO + number, self.chance.choice(OPERATORS[number])
        wanted = self.scalar() if number < 2 else "int"
        left, right = (self.expression(wanted if number >= 2 else self.scalar(), depth - 1) for _ in range(2))
        if number >= 2 and self.often(12):
            left, right = (self.zero(), right) if self.often(50) else (left, self.zero())
        return Expression(level, [(left, level), operator, (right, level + 1)])

    def compared(self, depth):
        """A comparison with a pointer."""
        number = self.chance.choice([5, 6])
        level, operator = FIRST_OF_TWO + number, self.chance.choice(OPERATORS[number])
        pair = [self.expression(self.chance.choice(["p", "p", "pp", "void *"]), depth - 1)]
        other = self.zero() if self.often(25) else self.expression("function" if self.often(8) else self.scalar(), depth - 1)
        pair.insert(self.chance.randrange(2), other)
        if self.slips(8):
            pair = [self.expression("function", depth - 1), self.expression("void *", depth - 1)]
        return Expression(level, [(pair[0], level), operator, (pair[1], level + 1)])

    def sized(self, depth):
        word = self.chance.choice(["sizeof", "sizeof", "_Alignof"])
        if word == "sizeof" and self.often(60):
            return unary(word, (self.expression(self.any(), depth - 1), UNARY))
        return unary(f"{word} ( {self.named_type(self.any(), depth - 1)} )")

    def difference(self, depth):
        level = FIRST_OF_TWO + 8
        shape = self.chance.choice(["p", "p", "pp"])
        left = "int" if self.often(10) else shape
        return Expression(level, [(self.expression(left, depth - 1), level), "-", (self.expression(shape, depth - 1), level + 1)])

    def stepped(self, shape, depth):
        place, word = self.place(shape, depth - 1), self.chance.choice(["++", "--"])
        return postfix((place, POSTFIX), word) if self.often(50) else unary(word, (place, UNARY))

    def integer(self, shape, depth):
        chance = self.chance
        simple = [self.target, self.parenthesized, self.called, self.assigned]
        if not self.has_operators:
            return self.simple(chance.choice(simple), shape, depth)
        kind = chance.randrange(20)
        if kind < 6:
            return self.binary(depth)
        if kind < 9:
            return unary(chance.choice("~~~+-!"), (self.expression("int", depth - 1), CAST))
        if kind == 9:
            return unary("!", (self.expression(self.scalar(), depth - 1), CAST))
        if kind < 12:
            return self.cast(shape, depth)
        others = [self.compared, self.sized, self.difference, self.expected]
        if kind == 12:
            return chance.choice(others)(depth)
        if kind == 13:
            return chance.choice([self.compared, self.difference])(depth)
        return self.simple(chance.choice([*simple, self.comma, self.conditional, self.statement_expression, self.stepped]), shape, depth)

    def expected(self, depth):
        first, second = (self.expression("int" if self.often(85) else self.scalar(), depth - 1) for _ in range(2))
        return primary("__builtin_expect (", (first, ASSIGNMENT), ",", (second, ASSIGNMENT), ")")

    def simple(self, make, shape, depth):
        """What a form makes of this shape; a pointer's target is named by the pointer's shape."""
        if make != self.target:
            return make(shape, depth)
        return self.target({"int": "p", "p": "pp"}[shape], depth)

    def pointer(self, shape, depth):
        chance = self.chance
        behind = {"p": "int", "pp": "p"}.get(shape)
        forms = [self.parenthesized, self.assigned]
        if shape == "p":
            forms += [self.target, self.called]
        if behind and self.often(25):
            return unary("&", (self.place(behind, depth - 1, is_stored=False), CAST))
        if self.has_operators:
            if self.often(20):
                return self.moved(shape, depth)
            forms += [self.comma, self.conditional, self.conditional, self.cast, self.statement_expression, self.stepped]
        return self.simple(chance.choice(forms), shape, depth)

    def moved(self, shape, depth):
        """A pointer and an integer."""
        level, operator = FIRST_OF_TWO + 8, self.chance.choice("+-")
        pair = [self.expression(shape, depth - 1), self.expression("int", depth - 1)]
        if operator == "+" and self.often(30):
            pair.reverse()
        return Expression(level, [(pair[0], level), operator, (pair[1], level + 1)])

    def function(self, shape, depth):
        inner = self.expression(shape, depth - 1)
        return self.chance.choice([inner, unary("*", (inner, CAST)), primary("(", (inner, COMMA), ")")])

    def nothing(self, shape, depth):
        forms = [self.called, self.called, self.parenthesized]
        if self.has_operators:
            forms += [self.comma, self.conditional, self.cast, self.statement_expression]
        elif self.often(20):
            return unary("*", (self.known("void *"), CAST))
        return self.chance.choice(forms)(shape, depth)

    # Statements and declarations

    def statement(self, depth):
        return f"{written(self.expression(self.any(), depth), self.often(15))} ;"

    def new_name(self):
        self.made += 1
        return f"x{self.made}"

    def declaration(self, storage):
        """A declaration of a new name, which is known from there on."""
        shape, name = self.chance.choice(["int", "int", "p", "p", "pp", "void *"]), self.new_name()
        base, star = self.base(storage, shape), {"int": "", "p": "*", "pp": "**", "void *": "*"}[shape]
        text = f"{storage}{self.chance.choice(['', '', '', 'volatile ', 'USER ', 'SPACE2 '])}{base} {star}{name}"
        is_array = storage != "register " and shape != "void *" and self.often(15)
        if is_array:
            text += f" [ {self.chance.choice(['1', '3', '2 + 1', 'sizeof ( int )'] if self.has_operators else ['1', '3'])} ]"
            shape = {"int": "p", "p": "pp", "pp": "other"}[shape]
        self.scopes[-1].append(Name(name, shape, not is_array, not is_array and storage != "register "))
        return f"{text} ;"

    def base(self, storage, shape):
        """The specifiers of a declaration of this shape, but for its qualifiers and flags."""
        if shape == "void *":
            return "void"
        if storage in ("", "register ") and self.has_operators and shape == "int" and self.often(25):
            return f"typeof ( {written(self.expression('int', 2), False)} )"
        return self.chance.choice([word for word in TYPES["int"] if "FORCE" not in word and "const" not in word])

    def redeclaration(self):
        """A declaration of a name that has linkage, which may have another type."""
        name = self.chance.choice(["i", "j", "l", "p", "u", "h", "r", "m", "none", "one", "pp", "k", "v"])
        types = ["int {}", "extern const int {}", "long {}", "int *{}", "int USER *{}", "le16 {}", "le32 {}", "int {}[4]", "int {}[]"]
        types += ["void {}(void)", "int {}(int)", "int {}(const int)", "int **{}", "void *{}", "int {}[4][2]", "int *const {}"]
        return "extern " + self.chance.choice(types).format(name).replace("extern ", "") + " ;"

    def typedef(self):
        """A typedef, which may stand again with another type, and a pointer to it."""
        others, name = ["int USER *T", "unsigned BITWISE T", "const int T"], self.new_name()
        self.scopes[-1].append(Name(name, "p", False))
        return f"typedef {self.chance.choice(['int T', 'int T', *others * bool(self.slip)])} ;\nextern T *{name} ;"

    def body_line(self, depth):
        kind = self.chance.randrange(20)
        if kind == 0:
            return self.declaration(self.chance.choice(["", "", "static ", "extern ", "register "]))
        if kind == 1 and not self.is_plain:
            return self.redeclaration()
        if kind == 2:
            return self.block(depth)
        if kind == 3 and self.often(50):
            return self.typedef()
        return self.statement(depth)

    def block(self, depth):
        self.scopes.append([])
        lines = [self.body_line(depth) for _ in range(self.chance.randrange(3))]
        self.scopes.pop()
        return "\n".join(["{", *lines, "}"])

    def returned(self, shape, depth):
        """A `return` in a function that gives this shape."""
        if self.slip and self.chance.randrange(self.slip) == 0:
            shape = self.chance.choice(["int", "void"])
        if shape == "void":
            return self.chance.choice(["return ;", f"return {written(self.expression('void', depth), False)} ;"])
        value = self.zero() if self.often(10) else self.expression(shape if self.often(85) else self.scalar(), depth)
        return f"return {written(value, False)} ;"

    def definition(self):
        shape = self.result = self.chance.choice(["void", "void", "int", "p"])
        result = {"void": ["void"], "int": ["int", "le32", "le16", "char", "_Bool"], "p": ["int *", "int USER *", "char *"]}[shape]
        parameters = []
        self.scopes.append([])
        for _ in range(self.chance.choice([0, 0, 1, 2])):
            name, kind = self.new_name(), self.chance.choice(["int", "p"])
            of = {"int": ["int", "le16", "const le32", "_Bool"], "p": ["int *", "int USER *", "le16 *", "char *const "]}[kind]
            parameters.append(f"{self.chance.choice(of)} {name}" + "[ 3 ]" * (kind == "int" and self.often(10)))
            self.scopes[-1].append(Name(name, "p" if parameters[-1].endswith("]") else kind))
        depth = self.chance.randrange(1, 6)
        lines = [self.body_line(depth) for _ in range(self.chance.choice([1, 2, 3] if self.slip else [4, 8, 12]))]
        lines += [self.returned(shape, depth - 1)] if self.often(40) else []
        self.scopes.pop()
        head = f"{self.chance.choice(result)} {self.new_name()}({', '.join(parameters) or 'void'})"
        return "\n".join([f"{head} {{", *lines, "}"])

    def unit(self):
        """The text of a unit, a statement a line, behind the declarations that it uses."""
        lines = []
        for _ in range(self.chance.choice([0, 0, 1, 2])):
            lines.append(self.declaration(self.chance.choice(["extern ", "extern ", "static ", ""])))
        if not self.is_plain and self.often(15):
            lines.append(self.redeclaration())
        if self.often(10):
            lines += [self.typedef(), self.typedef()]
        lines += [self.definition() for _ in range(self.chance.choice([1, 1, 1, 2]))]
        text = "\n".join(lines) + "\n"
        return (WITHOUT_MARKS if self.is_plain else MARKS) + objects_of(text) + text
