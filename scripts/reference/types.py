"""Types of C as the rules see them: their marks, what they are without some of these, and how they are spelled.

Equal types are one object, since each is made once; so they are compared with `is`, however deep they are.
"""
from dataclasses import dataclass
from functools import cache
from typing import NamedTuple


class Kind(NamedTuple):
    """A kind of integer: its words, its bits with the sign, its bytes, and its rank among those that aren't promoted."""

    words: bytes
    bits: int
    size: int
    is_signed: bool
    rank: int = 0


# C11 6.2.5 and 6.3.1.1, with 64 bits of a long and a signed char
KINDS = {
    "Bool": Kind(b"_Bool", 1, 1, False),
    "Char": Kind(b"char", 8, 1, True),
    "SChar": Kind(b"signed char", 8, 1, True),
    "UChar": Kind(b"unsigned char", 8, 1, False),
    "Short": Kind(b"short", 16, 2, True),
    "UShort": Kind(b"unsigned short", 16, 2, False),
    "Int": Kind(b"int", 32, 4, True, 1),
    "UInt": Kind(b"unsigned int", 32, 4, False, 1),
    "Long": Kind(b"long", 64, 8, True, 2),
    "ULong": Kind(b"unsigned long", 64, 8, False, 2),
    "LLong": Kind(b"long long", 64, 8, True, 3),
    "ULLong": Kind(b"unsigned long long", 64, 8, False, 3),
}


class Marks(NamedTuple):
    """The qualifiers and flags of a type."""

    const: bool = False
    volatile: bool = False
    noderef: bool = False
    space: bytes | None = None

    def flags(self):
        return self.noderef, self.space

    def with_more(self, more):
        """These and more; a later space takes the place of an earlier one."""
        space = self.space if more.space is None else more.space
        return Marks(self.const or more.const, self.volatile or more.volatile, self.noderef or more.noderef, space)


NONE = Marks()


class Aggregate:
    """A structure or a union, by the tag that names it; what its body says joins at the body's end."""

    def __init__(self, words):
        self.words = words
        # The way to each member by its name, through members without one; None before the body's end
        self.members = None
        # The members that hold something, in order: all but bit-fields without a name
        self.parts, self.is_union = [], False
        self.size, self.alignment, self.has_const = 0, 1, False


@dataclass(frozen=True, eq=False)
class Type:
    """A type: `void`, an `integer`, a `pointer`, an `array`, a `function` or an `aggregate`."""

    form: str
    marks: Marks
    # Of an integer, and the first token of the declaration that restricts it
    kind: str
    identity: int | None
    # What is pointed to, an element, or a result
    inner: "Type | None"
    length: int | None
    parameters: tuple
    takes_more: bool
    aggregate: Aggregate | None

    def is_restricted(self):
        return self.identity is not None

    def is_plain_integer(self):
        return self.form == "integer" and not self.is_restricted()

    def is_plain(self, kind):
        return self.is_plain_integer() and self.kind == kind

    def is_pointer_to(self, form):
        return self.form == "pointer" and self.inner.form == form

    def is_scalar(self):
        return self.form in ("integer", "pointer")

    def is_aggregate(self):
        return self.form == "aggregate"


made = cache(Type)


def changed(of, **parts):
    """The type with other parts."""
    whole = {name: getattr(of, name) for name in Type.__dataclass_fields__} | parts
    return made(*whole.values())


VOID = made("void", NONE, "", None, None, None, (), False, None)


def integer(kind, identity=None):
    return made("integer", NONE, kind, identity, None, None, (), False, None)


def pointer(target, marks=NONE):
    return made("pointer", marks, "", None, target, None, (), False, None)


def array(element, length):
    return made("array", NONE, "", None, element, length, (), False, None)


def function(result, parameters, takes_more):
    return made("function", NONE, "", None, result, None, parameters, takes_more, None)


def aggregate(of):
    return made("aggregate", NONE, "", None, None, None, (), False, of)


INT, LONG, SIZE = integer("Int"), integer("Long"), integer("ULong")


def marked(of, marks):
    """The type with these marks besides: an array's belong to its element, and a function has none."""
    if of.form == "array":
        return array(marked(of.inner, marks), of.length)
    if of.form == "function":
        return of
    return changed(of, marks=of.marks.with_more(marks))


def of_member(of, place):
    """The type of a member of a place with these marks: a space of its own stays."""
    if of.form == "array":
        return array(of_member(of.inner, place), of.length)
    return changed(of, marks=place.with_more(of.marks))


def each_level(of, change):
    """The type with its marks changed at every level."""
    inner = of.inner and change(of.inner)
    return changed(of, inner=inner, parameters=tuple(map(change, of.parameters)))


@cache
def bare(of):
    """The type without const and volatile at every level."""
    return each_level(changed(of, marks=of.marks._replace(const=False, volatile=False)), bare)


@cache
def without_flags(of):
    """The type without noderef and spaces at every level."""
    return each_level(changed(of, marks=of.marks._replace(noderef=False, space=None)), without_flags)


@cache
def simplest(of):
    """The type without all marks, each restricted type in it taken as its base."""
    return each_level(changed(of, marks=NONE, identity=None), simplest)


def value_of(of):
    """The type of the value of a place: an array and a function become pointers, and no mark stays outside."""
    if of.form == "array":
        return pointer(of.inner)
    if of.form == "function":
        return pointer(of)
    return changed(of, marks=NONE)


def parameter_of(declared):
    """What a parameter becomes that is declared so."""
    if declared.form in ("array", "function"):
        return value_of(declared)
    return changed(declared, marks=declared.marks._replace(const=False, volatile=False))


def loaded(of, width):
    """The type of the value of a place, which may be a bit-field of this width (C11 6.3.1.1 p2)."""
    if width is None or KINDS[of.kind].rank > KINDS["Int"].rank:
        return value_of(of)
    is_wide = of.kind == "UInt" and width == KINDS["UInt"].bits
    return integer("UInt" if is_wide else "Int")


def is_complete(of):
    """It has a size, or is taken as of size 1."""
    if of.is_aggregate():
        return of.aggregate.members is not None
    return of.form != "array" or (of.length is not None and is_complete(of.inner))


def is_complete_object(of):
    """It has a size, and is neither void nor a function."""
    return of.form not in ("void", "function") and is_complete(of)


def has_const_member(of):
    """A member is const, or one of a member or of an element (C11 6.3.2.1 p1)."""
    if of.form == "array":
        return has_const_member(of.inner)
    return of.is_aggregate() and of.aggregate.has_const


def size(of):
    """The bytes of a complete type."""
    if of.form == "integer":
        return KINDS[of.kind].size
    if of.form == "array":
        return of.length * size(of.inner)
    if of.is_aggregate():
        return of.aggregate.size
    return 8 if of.form == "pointer" else 1


def alignment(of):
    if of.is_aggregate():
        return of.aggregate.alignment
    return alignment(of.inner) if of.form == "array" else size(of)


def promoted(of):
    """The plain integer type to which an operand of an integer type is promoted (C11 6.3.1.1)."""
    return integer(of.kind if KINDS[of.kind].rank else "Int")


def common(left, right):
    """The common type of two plain operands (C11 6.3.1.8)."""
    kinds = [promoted(left).kind, promoted(right).kind]
    greatest = max(kinds, key=lambda kind: KINDS[kind].rank)
    other = kinds[1] if greatest == kinds[0] else kinds[0]
    ranks = KINDS[greatest].rank, KINDS[other].rank
    if ranks[0] == ranks[1]:
        return integer(next((kind for kind in kinds if not KINDS[kind].is_signed), greatest))
    is_lost = KINDS[greatest].is_signed and not KINDS[other].is_signed and KINDS[other].bits == KINDS[greatest].bits
    return integer("U" + greatest if is_lost else greatest)


def mix_spaces(left, right):
    """Whether pointers to these mix spaces."""
    if left.marks.flags() != right.marks.flags():
        return True
    left, right = bare(left), bare(right)
    return left is not right and without_flags(left) is without_flags(right)


def are_others(left, right):
    """Whether pointers to these that don't mix spaces have other targets."""
    return bare(left) is not bare(right) and "void" not in (left.form, right.form)


def agree(left, right):
    """Whether two declarations of one name may have these types."""
    left, right = bare(left), bare(right)
    if left.form == right.form == "array" and None in (left.length, right.length):
        return left.inner is right.inner
    return left is right


def words_of(marks):
    return (
        b" const" * marks.const + b" volatile" * marks.volatile + b" noderef" * marks.noderef
        + (b"" if marks.space is None else b" address_space(%b)" % marks.space)
    )


def base_spelled(of, names):
    if of.form == "void":
        return b"void"
    if of.is_aggregate():
        return of.aggregate.words
    return b"restricted " + restricted_name(of, names) if of.is_restricted() else KINDS[of.kind].words


def restricted_name(of, names):
    """The name of a restricted type, by what the declaration at its token names."""
    return names.get(of.identity, KINDS[of.kind].words)


def spelled(of, names):
    """The type in words, from the inside out."""
    if of.inner is None:
        return base_spelled(of, names) + words_of(of.marks)
    inside = spelled(of.inner, names)
    if of.form == "pointer":
        return inside + b" *" + words_of(of.marks)
    if of.form == "array":
        return inside + (b" []" if of.length is None else b" [%d]" % of.length)
    parameters = [spelled(parameter, names) for parameter in of.parameters] + [b"..."] * of.takes_more
    return inside + b" (" + (b", ".join(parameters) or b"void") + b")"
