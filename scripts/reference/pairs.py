"""What is known of an expression, and which rules and constraints hold where values of two types meet, by their types alone."""
from dataclasses import dataclass

from . import types
from .constants import Constant
from .types import KINDS, Type


@dataclass(frozen=True)
class Fact:
    """What is known of an expression; of one of which nothing is known there is no fact."""

    type: Type
    is_place: bool = False
    fouled: bool = False
    constant: Constant | None = None
    # It is a null pointer constant of type `void *`
    null: bool = False
    register: bool = False
    # It is a bit-field of this width
    width: int | None = None

    def is_zero(self):
        """It is the constant 0, which is plain."""
        return self.type.is_plain_integer() and self.constant is not None and self.constant.number == 0

    def is_void(self):
        return self.type.form == "void"

    def is_pointer(self):
        return self.type.form == "pointer"


def are_unlike(*of):
    """Whether an aggregate is among these types, and another type."""
    return any(each.is_aggregate() for each in of) and len({types.bare(types.value_of(each)) for each in of}) > 1


def conversion(value, to):
    """The rule that fails where a value becomes one of a type, or None."""
    if value.is_pointer() and to.form == "pointer":
        if value.null:
            return None
        if types.mix_spaces(value.type.inner, to.inner):
            return "A1"
        return "A2" if types.are_others(value.type.inner, to.inner) else None
    if to.is_aggregate():
        return None
    if to.form == "pointer":
        return "N1" if value.is_zero() else "A2"
    if value.is_pointer():
        return None if to.is_plain("Bool") else "A2"
    if value.type.identity == to.identity or value.is_zero():
        return None
    return "B3"


def are_of_different_restricted_types(left, right):
    """Whether rule B2 holds of two integers: they aren't of one restricted type or both plain, and none is the constant 0."""
    return left.type.identity != right.type.identity and not left.is_zero() and not right.is_zero()


def are_incompatible(left, right, are_subtracted=False):
    """Whether rule A3 holds of two values of which one at least is a pointer."""
    if left.is_pointer() and right.is_pointer():
        if left.null or right.null:
            return False
        targets = left.type.inner, right.type.inner
        return types.mix_spaces(*targets) or types.are_others(*targets)
    if are_subtracted and left.is_pointer():
        return False
    return not (right if left.is_pointer() else left).is_zero()


def can_be_compared(left, right):
    """Whether two pointers of which rule A3 doesn't hold can be compared, or be the arms of `?:` (C11 6.5.9 p2, 6.5.15 p3)."""
    forms = {left.type.inner.form, right.type.inner.form}
    return left.null or right.null or forms != {"void", "function"}


def can_be_subtracted(left, right):
    """Whether two pointers of which rule A3 doesn't hold can be subtracted (C11 6.5.6 p3)."""
    return types.simplest(left.type.inner) is types.simplest(right.type.inner)


def joined(left, right):
    """The type of `& ^ |` and of the arms of `?:`: a restricted type stays one, the left one goes before the right one."""
    for fact in (left, right):
        if fact.type.is_restricted():
            return fact.type
    return types.common(left.type, right.type)


def arms_joined(left, right):
    """The type of the arms of `?:` of which one at least is a pointer; null pointer constants are told by their marks."""
    if not (left.is_pointer() and right.is_pointer()):
        if left.is_zero() or right.is_zero():
            return left.type if left.is_pointer() else right.type
        return left.type
    if left.null or right.null:
        return right.type if left.null else left.type
    is_right_void_alone = right.type.is_pointer_to("void") and not left.type.is_pointer_to("void")
    return right.type if is_right_void_alone else left.type


def is_fouled_behind_complement(value):
    """Whether `~` of a restricted value has bits that its type hasn't."""
    kind = KINDS[value.type.kind]
    return value.type.is_restricted() and (value.fouled or not kind.is_signed and kind.bits < KINDS["Int"].bits)


def loses_space(value, to):
    """Whether rule A5 holds of a cast without force."""
    if not value.is_pointer() or value.type.inner.marks.space is None:
        return False
    if to.form == "pointer":
        return to.inner.marks.space != value.type.inner.marks.space
    return to.form == "integer" and not to.is_plain("ULong")


def gains_space(value, to):
    """Whether rule A6 holds of a cast without force."""
    is_between_pointers = value.is_pointer() and to.form == "pointer"
    return is_between_pointers and value.type.inner.marks.space is None and to.inner.marks.space is not None


def is_restricted_cast(value, to):
    """Whether rule B4 holds of a cast without force."""
    return to.form != "void" and value.type.identity != to.identity and not value.is_zero()
