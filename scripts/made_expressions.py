"""Random expressions over all levels, written with all parentheses or with as few as the levels need."""
from typing import NamedTuple

DECLARED = "typedef int t; int a, b, c, *p, g(int, ...); struct s { int m, n[3]; } s, *q;"
NAMES = ["a", "b", "c", "p", "q", "s", "g"]
LITERALS = ["0", "1u", "0x7f", "'a'", "'\\0'", '"a"', '"a" "\\n"']
# What an expression is refused for, and what is only written oddly
ODD = ["z", "m", "t", "09", "1uu", "9223372036854775808", "''", "'ab'", '"\\q"', '"a" "\\z"', "1.5", "L'a'", '"\\u00e9"', "&& a", "()"]

# The levels, from the comma to what needs no parentheses
COMMA, ASSIGNMENT, CONDITIONAL = 0, 1, 2
OPERATORS = [["||"], ["&&"], ["|"], ["^"], ["&"], ["==", "!="], ["<", ">", "<=", ">="], ["<<", ">>"], ["+", "-"], ["*", "/", "%"]]
FIRST_OF_TWO = 3
CAST, UNARY, POSTFIX, PRIMARY = 13, 14, 15, 16
ASSIGNMENTS = ["=", "*=", "/=", "%=", "+=", "-=", "<<=", ">>=", "&=", "^=", "|="]


class Expression(NamedTuple):
    """A level, and tokens and operands in order, each operand with the least level that it may have without parentheses."""

    level: int
    parts: list


def written(expression, has_all):
    """The text, with all parentheses or as few as the levels need."""
    found = []
    for part in expression.parts:
        if isinstance(part, str):
            found.append(part)
            continue
        operand, least = part
        text = written(operand, has_all)
        is_open = operand.level < (PRIMARY if has_all else least)
        found.append(f"( {text} )" if is_open else text)
    return " ".join(found)


class Maker:
    """Makes expressions by chance, no deeper than asked."""

    def __init__(self, chance):
        self.chance = chance

    def leaf(self):
        chance = self.chance
        return Expression(PRIMARY, [chance.choice(ODD if chance.randrange(60) == 0 else NAMES + LITERALS)])

    def primary(self, depth):
        inner = [self.expression(depth - 1) for _ in range(2)]
        return Expression(PRIMARY, self.chance.choice([
            ["( {", (inner[0], COMMA), "; } )"],
            ["( { int z = ", (inner[0], ASSIGNMENT), "; z ; } )"],
            ["__builtin_expect (", (inner[0], ASSIGNMENT), ",", (inner[1], ASSIGNMENT), ")"],
            ["__builtin_offsetof ( struct s , n [", (inner[0], COMMA), "] )"],
        ]))

    def postfix(self, depth):
        chance = self.chance
        parts = [(self.expression(depth - 1), POSTFIX)]
        kind = chance.randrange(4)
        if kind == 0:
            parts += ["[", (self.expression(depth - 1), COMMA), "]"]
        elif kind == 1:
            parts.append("(")
            for number in range(chance.randrange(4)):
                parts += [","] * (number > 0) + [(self.expression(depth - 1), ASSIGNMENT)]
            parts.append(")")
        else:
            parts.append(chance.choice([". m", "-> n", "++", "--"]))
        return Expression(POSTFIX, parts)

    def unary(self, depth):
        chance = self.chance
        operand = self.expression(depth - 1)
        return Expression(UNARY, chance.choice([
            [chance.choice(["&", "*", "+", "-", "~", "!"]), (operand, CAST)],
            [chance.choice(["++", "--", "sizeof"]), (operand, UNARY)],
            [chance.choice(["sizeof ( t )", "_Alignof ( t * )", "sizeof ( t ) { 1 } ++"])],
        ]))

    def cast(self, depth):
        operand = self.expression(depth - 1)
        return Expression(CAST, self.chance.choice([["( t )", (operand, CAST)], ["( t ) {", (operand, ASSIGNMENT), "} ++"]]))

    def of_two(self, depth):
        number = self.chance.randrange(len(OPERATORS))
        level = FIRST_OF_TWO + number
        left, right = self.expression(depth - 1), self.expression(depth - 1)
        return Expression(level, [(left, level), self.chance.choice(OPERATORS[number]), (right, level + 1)])

    def lowest(self, depth):
        first, second, third = (self.expression(depth - 1) for _ in range(3))
        return self.chance.choice([
            Expression(CONDITIONAL, [(first, FIRST_OF_TWO), "?", (second, COMMA), ":", (third, CONDITIONAL)]),
            Expression(CONDITIONAL, [(first, FIRST_OF_TWO), "? :", (third, CONDITIONAL)]),
            Expression(ASSIGNMENT, [(first, CONDITIONAL), self.chance.choice(ASSIGNMENTS), (second, ASSIGNMENT)]),
            Expression(COMMA, [(first, COMMA), ",", (second, ASSIGNMENT)]),
        ])

    def expression(self, depth):
        if depth <= 0 or self.chance.randrange(8) == 0:
            return self.leaf()
        kinds = [self.of_two] * 4 + [self.lowest] * 2 + [self.unary, self.postfix, self.cast, self.primary]
        return self.chance.choice(kinds)(depth)


def unit(chance):
    """A function of one such expression, now and then without what is behind it."""
    expression = Maker(chance).expression(chance.randrange(1, 5))
    end = " ; }" if chance.randrange(8) else chance.choice(["", " }", " ) ; }", " a ; }", " : ; }"])
    return f"{DECLARED}\nvoid f(void) {{ {written(expression, chance.randrange(2))}{end}\n".encode()
