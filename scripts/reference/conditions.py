"""The value of what stands behind an `#if` (C11 6.10.1), in 64 bits."""
import re
from typing import NamedTuple

from .scanning import is_identifier

INTEGER = re.compile(rb"(?:0[xX]([0-9A-Fa-f]+)|(0[0-7]*)|([1-9][0-9]*))((?:[uU](?:l|L|ll|LL)?|(?:l|L|ll|LL)[uU]?)?)")
CHARACTER = re.compile(rb"""'(?:([^'\\])|\\(['"?\\abfnrtv])|\\([0-7]{1,3})|\\x([0-9A-Fa-f]+))'""", re.DOTALL)
SIMPLE_ESCAPES = dict(zip(b"'\"?\\abfnrtv", b"'\"?\\\a\b\f\n\r\t\v"))

MODULUS = 1 << 64
HALF = 1 << 63

# C11 6.5.5 to 6.5.14, and 6.5.15 below them
RANKS = {
    b"*": 10, b"/": 10, b"%": 10, b"+": 9, b"-": 9, b"<<": 8, b">>": 8, b"<": 7, b">": 7, b"<=": 7, b">=": 7, b"==": 6, b"!=": 6,
    b"&": 5, b"^": 4, b"|": 3, b"&&": 2, b"||": 1, b"?": 0, b":": 0,
}
UNARY_RANK = 11
COMPARISONS = {
    b"<": lambda a, b: a < b, b">": lambda a, b: a > b, b"<=": lambda a, b: a <= b, b">=": lambda a, b: a >= b,
    b"==": lambda a, b: a == b, b"!=": lambda a, b: a != b,
}
ARITHMETIC = {
    b"+": lambda a, b: a + b, b"-": lambda a, b: a - b, b"*": lambda a, b: a * b,
    b"&": lambda a, b: a & b, b"^": lambda a, b: a ^ b, b"|": lambda a, b: a | b,
}


class BadExpression(Exception):
    """No expression goes on with the token at this index."""


class ZeroDivisor(Exception):
    """The operator at this index divides by 0."""


class Value(NamedTuple):
    """A number of 64 bits, in the range of its sign; or none, and the index of the operator that divides by 0."""

    number: int
    unsigned: bool
    zero_divisor: int | None = None


class Operator(NamedTuple):
    """An operator or a parenthesis whose last operand isn't read yet."""

    spelled: bytes
    rank: int
    index: int


def wrapped(number, unsigned):
    """A value of any number, modulo 2^64."""
    number %= MODULUS
    return Value(number if unsigned or number < HALF else number - MODULUS, unsigned)


def literal(spelled):
    """The value of an integer or a character constant, or None where it has none here."""
    integer = INTEGER.fullmatch(spelled)
    if integer:
        hexadecimal, octal, decimal, suffix = integer.groups()
        number = int(hexadecimal or octal or decimal, 16 if hexadecimal else 8 if octal else 10)
        is_unsigned = b"u" in suffix.lower()
        most = HALF if decimal and not is_unsigned else MODULUS
        return Value(number, is_unsigned or number >= HALF) if number < most else None
    character = CHARACTER.fullmatch(spelled)
    if not character:
        return None
    plain, simple, octal, hexadecimal = character.groups()
    number = ord(plain) if plain else SIMPLE_ESCAPES[ord(simple)] if simple else int(octal or hexadecimal, 8 if octal else 16)
    return Value(number - 256 if number > 127 else number, False) if number < 256 else None


def unary(operator, operand):
    number, unsigned, zero_divisor = operand
    if zero_divisor is not None:
        return operand._replace(unsigned=unsigned and operator.spelled != b"!")
    if operator.spelled == b"!":
        return Value(int(number == 0), False)
    return wrapped({b"+": number, b"-": -number, b"~": ~number}[operator.spelled], unsigned)


def logical(operator, left, right):
    """6.5.13 and 6.5.14: the right operand isn't evaluated where the left one decides."""
    decides = left.number != 0 if operator.spelled == b"||" else left.number == 0
    if left.zero_divisor is not None or decides:
        return Value(int(operator.spelled == b"||"), False, left.zero_divisor)
    return Value(int(right.number != 0), False, right.zero_divisor)


def quotient(operator, left, right, unsigned):
    """6.5.5 p6, towards zero."""
    number = abs(left.number) // abs(right.number)
    number = number if (left.number < 0) == (right.number < 0) else -number
    return wrapped(number if operator.spelled == b"/" else left.number - number * right.number, unsigned)


def binary(operator, left, right):
    """The value of an operator with two operands, each of which has its value or lacks it."""
    spelled = operator.spelled
    if spelled in (b"&&", b"||"):
        return logical(operator, left, right)
    is_shift = spelled in (b"<<", b">>")
    unsigned = left.unsigned if is_shift else left.unsigned or right.unsigned
    lacking = [side.zero_divisor for side in (left, right) if side.zero_divisor is not None]
    if lacking:
        return Value(0, unsigned and spelled not in COMPARISONS, min(lacking))
    if is_shift:
        count = right.number % 64
        return wrapped(left.number << count if spelled == b"<<" else left.number >> count, unsigned)
    left, right = wrapped(left.number, unsigned), wrapped(right.number, unsigned)
    if spelled in COMPARISONS:
        return Value(int(COMPARISONS[spelled](left.number, right.number)), False)
    if spelled in ARITHMETIC:
        return wrapped(ARITHMETIC[spelled](left.number, right.number), unsigned)
    return Value(0, unsigned, operator.index) if right.number == 0 else quotient(operator, left, right, unsigned)


def chosen(condition, first, second):
    """6.5.15: one arm is evaluated, and both tell the type."""
    unsigned = first.unsigned or second.unsigned
    if condition.zero_divisor is not None:
        return Value(0, unsigned, condition.zero_divisor)
    arm = first if condition.number != 0 else second
    return wrapped(arm.number, unsigned)._replace(zero_divisor=arm.zero_divisor)


class Expression:
    """An expression as far as it is read: the values of its operands, and the operators that wait for their last one."""

    def __init__(self):
        self.values = []
        self.waiting = []

    def reduce(self, rank):
        """Lets the operators that bind as tight as this rank take their operands."""
        while self.waiting and self.waiting[-1].rank >= rank:
            operator = self.waiting.pop()
            last = self.values.pop()
            if operator.rank == UNARY_RANK:
                self.values.append(unary(operator, last))
            elif operator.spelled == b":":
                first, condition = self.values.pop(), self.values.pop()
                self.values.append(chosen(condition, first, last))
            else:
                self.values.append(binary(operator, self.values.pop(), last))

    def operand(self, index, token):
        """Takes a token where an operand begins; true where it is a whole one."""
        if token.spelled in (b"+", b"-", b"~", b"!"):
            self.waiting.append(Operator(token.spelled, UNARY_RANK, index))
            return False
        if token.spelled == b"(":
            self.waiting.append(Operator(b"(", -1, index))
            return False
        value = Value(0, False) if is_identifier(token) else literal(token.spelled)
        if value is None:
            raise BadExpression(index)
        self.values.append(value)
        return True

    def behind_operand(self, index, token):
        """Takes a token behind an operand; true where one is whole behind it."""
        spelled = token.spelled
        if spelled == b")":
            self.close(index, b"(")
            return True
        if spelled == b":":
            self.close(index, b"?")
            self.waiting.append(Operator(b":", RANKS[b":"], index))
        elif spelled == b"?":
            self.reduce(1)
            self.waiting.append(Operator(b"?", -1, index))
        elif spelled in RANKS:
            self.reduce(RANKS[spelled])
            self.waiting.append(Operator(spelled, RANKS[spelled], index))
        else:
            raise BadExpression(index)
        return False

    def close(self, index, opening):
        """Takes away what a `)` or a `:` closes."""
        self.reduce(0)
        if not self.waiting or self.waiting[-1].spelled != opening:
            raise BadExpression(index)
        self.waiting.pop()


def value(tokens):
    """The value of these tokens."""
    expression, is_whole = Expression(), False
    for index, token in enumerate(tokens):
        is_whole = expression.behind_operand(index, token) if is_whole else expression.operand(index, token)
    if not is_whole:
        raise BadExpression(len(tokens))
    expression.reduce(0)
    if expression.waiting:
        raise BadExpression(len(tokens))
    found = expression.values.pop()
    if found.zero_divisor is not None:
        raise ZeroDivisor(found.zero_divisor)
    return found
