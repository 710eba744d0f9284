"""What was found in a unit, and the lines that tell it."""
from typing import NamedTuple

from . import types
from .scanning import Place

# Each rule by its code: its number, its class and its text
RULES = {
    "A1": (1, b"address-space", b"incorrect type in %b (different address spaces)"),
    "A2": (2, b"address-space", b"incorrect type in %b (different base types)"),
    "A3": (3, b"address-space", b"incompatible types in %b"),
    "A4": (4, b"address-space", b"dereference %b"),
    "A5": (5, b"address-space", b"cast removes address space %b"),
    "A6": (6, b"cast-to-as", b"cast adds address space %b"),
    "A7": (7, b"address-space", b"symbol '%b' redeclared with different type"),
    "B1": (8, b"bitwise", b"restricted %b degrades to integer"),
    "B2": (9, b"bitwise", b"operands of different restricted types"),
    "B3": (10, b"bitwise", b"incorrect type in %b (different restricted types)"),
    "B4": (11, b"bitwise", b"cast %b"),
    "B5": (12, b"bitwise", b"fouled restricted %b compared or tested"),
    "B6": (13, b"bitwise", b"case label of a different restricted type"),
    "B7": (14, b"bitwise", b"bad assignment operator on restricted %b"),
    "C1": (15, b"context", b"context imbalance in '%b' - different counts at this point"),
    "C2": (16, b"context", b"context imbalance in '%b' - unexpected release"),
    "C3": (17, b"context", b"context imbalance in '%b' - wrong count at exit (%d instead of %d)"),
    "N1": (18, b"non-pointer-null", b"using plain integer as NULL pointer"),
    "S1": (19, b"decl", b"symbol '%b' was not declared. Should it be static?"),
    "S2": (20, b"shadow", b"symbol '%b' shadows an earlier one"),
    "S4": (22, b"return-void", b"returning void-valued expression"),
    "S5": (23, b"do-while", b"do-while statement is not a compound statement"),
    "S6": (24, b"strict-prototypes", b"empty parameter list taken as (void)"),
    "S7": (25, b"one-bit-signed-bitfield", b"one-bit signed bit-field"),
    "S8": (26, b"cast-truncate", b"cast truncates constant (%b)"),
}
EXPECTED = {"A1", "A2", "A7", "B3"}
BESIDE = {"A3", "B2", "B6"}
NAMED = {"B1", "B5", "B7"}

# Each constraint by its number; its error is 60 more
CONSTRAINTS = {
    1: b"cannot dereference this type", 2: b"cannot take this address", 3: b"not a modifiable place", 4: b"wrong operand types",
    5: b"called object is not a function", 6: b"wrong number of arguments", 7: b"no such member '%b'",
    8: b"not a structure or union", 9: b"void value used", 10: b"incomplete type", 11: b"incompatible types", 12: b"bad cast",
    13: b"condition is not scalar", 14: b"switch on a value that is not an integer", 15: b"case label is not constant",
    16: b"case value used twice", 17: b"two default labels", 18: b"label outside switch", 19: b"jump outside loop",
    20: b"label '%b' is not defined", 21: b"label '%b' defined twice", 22: b"jump into statement expression",
    23: b"value returned from void function", 24: b"return without value", 25: b"unsupported: variable-length array",
    26: b"negative array size", 27: b"bad element type", 28: b"bad result type", 29: b"bad bit-field",
    30: b"unsupported: restricted bit-field", 31: b"bitwise on a type that is not an integer", 32: b"enumerator is not constant",
    33: b"enumerator out of range", 34: b"member '%b' declared twice", 35: b"tag '%b' redeclared", 36: b"'%b' defined twice",
    37: b"static assertion failed", 38: b"extra initializer", 39: b"initializer is not constant", 40: b"bad designator", 41: b"typedef '%b' has another type",
}


def constraint_text(number, name):
    text = CONSTRAINTS[number]
    return b"error[%d]: %b" % (60 + number, text % name if b"%b" in text else text)


class Failure(NamedTuple):
    """A rule that fails at a token: what its text says besides, one word or several parts, and the types that it names."""

    token: int
    rule: str
    part: int
    word: bytes | tuple
    types: tuple

    def order(self):
        return self.token, RULES[self.rule][0], self.part

    def lines(self, names):
        """The texts of its lines."""
        _, _, text = RULES[self.rule]
        said = self.word if isinstance(self.word, tuple) else (self.word,) * text.count(b"%b")
        words = [types.restricted_name(self.types[0], names)] if self.rule in NAMED else said
        if self.rule == "B4":
            of, to = self.types
            name = types.restricted_name(of if of.is_restricted() else to, names)
            words = [(b"of" if of.is_restricted() else b"to") + b" restricted " + name]
        yield b"warning: " + text % tuple(words)
        sides = (b"expected", b"got") if self.rule in EXPECTED else (b"left", b"right") if self.rule in BESIDE else ()
        for side, of in zip(sides, self.types):
            yield b"   %b %b" % (side, types.spelled(of, names))


class Found:
    """What was found in a unit so far."""

    def __init__(self):
        self.failures = {}
        self.broken = []
        self.limits = []
        # Something was declared whose types aren't said behind the constraint that it breaks
        self.is_unclear = False
        # What each token names at which a restricted type may be declared
        self.names = {}

    def fails(self, rule, token, *shown, word=b"", part=0):
        """Notes a failure, the first of its token, rule and part."""
        failure = Failure(token, rule, part, word, shown)
        self.failures.setdefault(failure.order(), failure)

    def breaks(self, number, token, name=b""):
        """Notes a constraint that an expression breaks; nothing is known of the node that is judged."""
        self.broken.append((token, number, name))

    def refuses(self, number, token, name=b""):
        """The same of a declaration or a statement."""
        self.broken.append((token, number, name))

    def refusal(self):
        """The token and the text of the least broken constraint, or the text of a limit, or None."""
        token, number, name = min(self.broken, default=(None, 0, b""))
        if self.limits and (token is None or min(self.limits) < token):
            return None, b"object size"
        if token is None:
            return None
        return token, constraint_text(number, name)

    def lines(self, tokens, classes):
        """The place and the text of each line of the failures whose classes are on, in order."""
        for _, failure in sorted(self.failures.items()):
            if RULES[failure.rule][1] in classes:
                place: Place = tokens[failure.token].place
                for text in failure.lines(self.names):
                    yield place, text
