"""Random macros, conditionals, headers and words, for scripts/fuzz.py."""

OBJECTS = ["A", "B", "C", "D", "x1", "e"]
FUNCTIONS = ["F", "G", "H", "P", "Q", "S"]
PARAMETERS = ["x", "y", "z"]
PLAIN = [
    "1", "2", "0x3", ".5", "+", "-", "<", "=", ">", "&", "|", ";", "*", ".", "%:", "<:", "a", "b", "L", "u8", '"s"', "'c'", '"\\"q"',
]
# Compilers print the first one so that it may be joined to a name before it.
ODD = ["L'\\0'", "__LINE__", "__COUNTER__", "__FILE__", "@", "\\u00e9"]
BLANKS = ["", " ", " ", " ", "  ", "/**/", "\t", "\n"]
NAMES = OBJECTS + FUNCTIONS + ["__FILE__", "__LINE__", "__COUNTER__", "__STDC__", "defined", "X", "Y", "\\u00e9", "int"]
CONSTANTS = [
    "0", "1", "2u", "-1", "0xffffffffffffffff", "'a'", "'\\377'", "010", "X", "defined A", "defined(F)", "defined __LINE__",
    "!defined G", "__LINE__", "~3", "(1 ? -1 : 0u)",
]
WRONG_CONSTANTS = ["1.0", "08", "A", "F(1)", "(", "defined", "L'a'", "1 2", ""]
OPERATORS = ["+", "-", "*", "/", "%", "<<", ">>", "<", ">", "<=", ">=", "==", "!=", "&", "^", "|", "&&", "||"]
UNREAD_LINES = ["#", "# ", "#pragma x", "#line 7", "#ident", "%:warning w"]
WRONG_LINES = ["#foo", "# 1", "#error e", "#define", "#undef 1", "#define F(", "#define A ##", '"', "/*"]
HEADERS = ["a.h", "b.h", "d/a.h", "d/c.h"]
ODD_HEADERS = ["no.h", "../a.h", "t.c", "d//a.h", "/a.h"]
CLASSES = ["undef", "no-undef", "address-space", "no-address-space", "bitwise", "no-context", "foo", "all", ""]
ODD_WORDS = ["-E", "-", "--help", "t.c", "no.c", "eval", "gen", "", "-DF(x)=x", "-D", "-D1", "-UX=1"]


class Maker:
    """Makes texts by chance. What only some compilers read alike is left out where `plain` asks for it, and headers are where
    `has_headers` says that there are none."""

    def __init__(self, chance, plain=False, has_headers=True):
        self.chance = chance
        self.plain = plain
        self.has_headers = has_headers
        self.blanks = BLANKS[:4] if plain else BLANKS
        self.tokens = PLAIN if plain else PLAIN + ODD
        # How many arguments a macro takes, by its name
        self.counts = {}

    def often(self, percent):
        return self.chance.randrange(100) < percent

    def blank(self):
        return self.chance.choice(self.blanks)

    def parameters(self):
        """The names of a function-like macro's parameters, and how the list is written."""
        count = self.chance.randrange(4)
        names = PARAMETERS[:count]
        if self.often(25):
            rest = self.chance.choice(["...", "r..."])
            return [*names, "__VA_ARGS__" if rest == "..." else "r"], ", ".join([*names, rest])
        return names, ",".join(names)

    def operand(self, names, is_function):
        """A part of a body."""
        if names and self.often(50):
            name = self.chance.choice(names)
            return "#" + name if self.often(15) else name
        if self.often(40):
            return self.chance.choice(OBJECTS + FUNCTIONS)
        if self.often(15):
            return self.chance.choice(["(", ")", ",", "()", "(1)", "(a, b)"])
        if not is_function and not self.plain and self.often(5):
            return "#"
        return self.chance.choice(self.tokens)

    def body(self, names, is_function):
        """Operands, some joined. What compilers make of `, ## V` in a longer chain isn't plain."""
        has_rest = names and names[-1] in ("r", "__VA_ARGS__")
        parts = [self.operand(names, is_function)] if self.often(95) else []
        while parts and self.often(75):
            if has_rest and self.often(15):
                parts.append(f" , ## {names[-1]} ")
                parts += [self.operand([], False)] if self.plain else []
            elif self.often(18):
                parts.append("##" if self.often(90) else "%:%:" if self.plain else "##%:%:")
            else:
                parts.append(self.chance.choice(["", " ", " "]))
            parts.append(self.operand(names, is_function))
        return "".join(parts)

    def definition(self):
        if self.often(50):
            name, names, head = self.chance.choice(OBJECTS), [], ""
        else:
            name = self.chance.choice(FUNCTIONS)
            names, written = self.parameters()
            self.counts[name] = len(names)
            head = f"({written})"
        return f"#define {name}{head} {self.body(names, head != '')}"

    def table(self):
        """Definitions of different names."""
        lines = {}
        for _ in range(self.chance.randrange(1, 9)):
            line = self.definition()
            lines[line.split()[1].split("(")[0]] = line
        return "".join(line + "\n" for line in lines.values())

    def piece(self, depth):
        """A token or a call."""
        if depth < 4 and self.often(35):
            name = self.chance.choice(FUNCTIONS)
            count = self.counts[name] if name in self.counts and self.often(95) else self.chance.randrange(4)
            arguments = ",".join(self.text(depth + 1, 3) for _ in range(count))
            return f"{name}{self.blank()}({arguments})"
        if self.often(50):
            return self.chance.choice(OBJECTS + FUNCTIONS)
        if depth > 0 and self.often(10):
            return f"({self.text(depth + 1, 3)})"
        if not self.plain and self.often(4):
            return self.chance.choice(["(", ")", ",", "#", "##"])
        return self.chance.choice(self.tokens)

    def text(self, depth=0, most=8):
        """Pieces with blanks between them."""
        return "".join(self.piece(depth) + self.blank() for _ in range(self.chance.randrange(most + 1)))

    def constant(self):
        return self.chance.choice(CONSTANTS if self.often(98) else WRONG_CONSTANTS)

    def condition(self):
        """What stands behind `#if`."""
        text = self.constant()
        for _ in range(self.chance.randrange(4)):
            text += f" {self.chance.choice(OPERATORS)} {self.constant()}"
        if self.often(15):
            text += f" ? {self.constant()} : {self.constant()}"
        return f"({text}) {self.chance.choice(OPERATORS)} 1" if self.often(20) else text

    def group(self, depth):
        """A conditional with its parts, now and then a wrong one."""
        name = self.chance.choice(NAMES)
        lines = [self.chance.choice([f"#if {self.condition()}", "#if 0", "#if 1", f"#ifdef {name}", f"#ifndef {name}"])]
        lines += self.lines(depth + 1)
        for _ in range(self.chance.choice([0, 0, 1, 2])):
            lines += [f"#elif {self.condition()}", *self.lines(depth + 1)]
        if self.often(50):
            lines += ["#else" if self.often(97) else "#else x", *self.lines(depth + 1)]
        if self.often(1):
            lines += [self.chance.choice(["#else", "#elif 1", "#elif"])]
        return lines + (["#endif" if self.often(98) else "#endif x"] if self.often(97) else [])

    def line(self):
        """A line that begins or ends no group."""
        kind = self.chance.randrange(100)
        if kind < 25:
            definition = self.definition()
            name = definition.split()[1].split("(")[0]
            return f"#undef {name}\n{definition}" if self.often(70) else definition
        if kind < 33:
            return f"#undef {self.chance.choice(NAMES)}"
        if kind < 45 and self.has_headers:
            return self.include()
        if kind < 49:
            return self.chance.choice(UNREAD_LINES)
        if kind < 50:
            return self.chance.choice(WRONG_LINES)
        return self.text().replace("\n", " ") if self.often(80) else self.text()

    def include(self):
        name = self.chance.choice(HEADERS if self.often(93) else ODD_HEADERS)
        if self.often(5):
            odd = ["#include A", "#include F(a)", f"#include <{name} > x", f'#include "{name}" A', "#include"]
            return self.chance.choice(odd)
        return f'#include "{name}"' if self.often(75) else f"#include <{name}>"

    def lines(self, depth=0):
        found = []
        for _ in range(self.chance.randrange(5)):
            found += self.group(depth) if depth < 4 and self.often(25) else [self.line()]
        return found

    def file(self):
        """Lines, some of them joined, with or without a last new-line."""
        text = "\n".join(self.lines() + self.lines())
        for _ in range(self.chance.choice([0, 0, 0, 1, 2])):
            at = self.chance.randrange(len(text) + 1)
            if text[:at][-1:] != "\\":
                text = text[:at] + "\\\n" + text[at:]
        return text + self.chance.choice(["", "\n"])

    def files(self):
        """The checked file and its headers, by their paths."""
        made = {"t.c": self.file()}
        for number, path in enumerate(["a.h", "b.h", "d/a.h", "d/b.h", "d/c.h"]):
            if self.often(90):
                text = self.file()
                made[path] = f"#ifndef H{number}\n#define H{number}\n{text}\n#endif\n" if self.often(80) else text
        return {path.encode(): text.encode() for path, text in made.items()}

    def word(self):
        """An option, often a right one."""
        name, text = self.chance.choice(NAMES), self.text().replace("\n", " ")
        kind = self.chance.randrange(100)
        if kind < 30:
            return f"-D{name}={text}"
        if kind < 45:
            return f"-D{name}"
        if kind < 60:
            return f"-U{name}"
        if kind < 80:
            return self.chance.choice(["-Ino", "-I"] if self.often(10) else ["-Id", "-I.", "-Id/"])
        if kind < 97:
            return "-W" + self.chance.choice(CLASSES[:-3] if self.often(90) else CLASSES)
        return self.chance.choice(ODD_WORDS)

    def words(self):
        """The words of a command, as bytes."""
        made = [self.word() for _ in range(self.chance.choice([0, 0, 1, 2, 3]))]
        made += ["-I."] if self.often(85) else []
        made.insert(self.chance.randrange(len(made) + 1), "t.c")
        if self.often(70):
            made.insert(self.chance.randrange(len(made) + 1), "-E")
        return [word.encode() for word in made]
