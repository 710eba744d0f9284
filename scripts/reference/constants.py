"""Constant values of integer expressions (C11 6.6), where a signed result wraps and a right shift copies the sign."""
import operator
from typing import NamedTuple

from .types import KINDS, common, integer, promoted


class Constant(NamedTuple):
    """A kind of integer, and a number; the number of a fouled value is that of the promoted type."""

    kind: str
    number: int


def wrapped(number, kind):
    """The number that a kind keeps of one (C11 6.3.1.2, 6.3.1.3)."""
    if kind == "Bool":
        return int(number != 0)
    of = KINDS[kind]
    number %= 1 << of.bits
    return number - (1 << of.bits) if of.is_signed and number >> (of.bits - 1) else number


def converted(constant, kind):
    """The constant in another kind."""
    return constant and Constant(kind, wrapped(constant.number, kind))


def truth(holds):
    return Constant("Int", int(holds))


def quotient(left, right):
    """The quotient, towards zero."""
    found = abs(left) // abs(right)
    return found if (left < 0) == (right < 0) else -found


SIMPLE = {
    "Multiplication": operator.mul, "Addition": operator.add, "Subtraction": operator.sub,
    "BitwiseAnd": operator.and_, "BitwiseExclusiveOr": operator.xor, "BitwiseOr": operator.or_,
}
COMPARED = {
    "Less": operator.lt, "Greater": operator.gt, "LessOrEqual": operator.le, "GreaterOrEqual": operator.ge,
    "Equal": operator.eq, "NotEqual": operator.ne,
}


def between(kind, left, right):
    """The constant of an operator between two constants, or None."""
    kinds = [integer(constant.kind) for constant in (left, right)]
    if kind in ("LeftShift", "RightShift"):
        return shifted(kind, converted(left, promoted(kinds[0]).kind), right.number)
    result = common(*kinds).kind
    numbers = [wrapped(constant.number, result) for constant in (left, right)]
    if kind in COMPARED:
        return truth(COMPARED[kind](*numbers))
    if kind in SIMPLE:
        return Constant(result, wrapped(SIMPLE[kind](*numbers), result))
    if numbers[1] == 0:
        return None
    whole = quotient(*numbers)
    return Constant(result, wrapped(whole if kind == "Division" else numbers[0] - whole * numbers[1], result))


def shifted(kind, left, count):
    """The constant of a shift of a promoted one, or None."""
    if not 0 <= count < KINDS[left.kind].bits:
        return None
    number = left.number << count if kind == "LeftShift" else left.number >> count
    return Constant(left.kind, wrapped(number, left.kind))


def alone(kind, constant):
    """The constant of `+`, `-` or `~` before a constant."""
    result = promoted(integer(constant.kind)).kind
    number = wrapped(constant.number, result)
    return Constant(result, wrapped({"UnaryPlus": number, "Negation": -number, "Complement": ~number}[kind], result))
