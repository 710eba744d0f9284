"""Members of structures and unions, and where they stand (C11 6.7.2.1; the places of bit-fields are a choice of the rules)."""
from typing import NamedTuple

from . import types
from .types import Aggregate, Type


class Member(NamedTuple):
    """A member: its type where that is known, its width where it is a bit-field, the alignment that is written, its first bit and its token."""

    name: bytes
    type: Type | None
    width: int | None = None
    alignment: int = 1
    bit: int = 0
    token: int = 0


class Placing:
    """Places members one behind the other, or all at the start."""

    def __init__(self, is_union, is_packed, alignment):
        self.is_union, self.is_packed, self.alignment = is_union, is_packed, alignment
        self.next, self.end = 0, 0

    def place(self, member):
        """The member with its first bit."""
        of = member.type
        size, natural = (types.size(of) * 8 if types.is_complete(of) else 0), 1 if self.is_packed else types.alignment(of)
        bit = 0 if self.is_union else self.next
        if member.width is None:
            alignment = max(natural, member.alignment)
            bit, bits = up(bit, alignment * 8), size
            self.alignment = max(self.alignment, alignment)
        elif member.width == 0:
            bit, bits = up(bit, size), 0
        else:
            bits = member.width
            alignment = max(natural, member.alignment) if member.name else 1
            bit = up(bit, member.alignment * 8) if member.alignment > 1 else bit
            if bit // size != (bit + bits - 1) // size:
                bit = up(bit, size)
            self.alignment = max(self.alignment, alignment)
        self.next = bit + bits
        self.end = max(self.end, self.next)
        return member._replace(bit=bit)

    def size(self):
        """The bytes of the whole."""
        return up(up(self.end, 8) // 8, self.alignment)


def up(number, step):
    return -(-number // step) * step


def has_const(of):
    return of is not None and (of.marks.const or of.form == "array" and has_const(of.inner) or types.has_const_member(of))


class Body:
    """The members of one body so far."""

    def __init__(self, aggregate: Aggregate, is_union):
        self.aggregate, self.is_union = aggregate, is_union
        self.members = []
        # The way to each name, and how many there are
        self.ways = {}

    def put(self, member):
        self.members.append(member)

    def names(self, member):
        """The names that a member brings, each with the way to it behind the member."""
        if member.name:
            return [(member.name, ())]
        if member.type is not None and member.type.is_aggregate():
            return list((member.type.aggregate.members or {}).items())
        return []

    def end(self, is_packed, alignment):
        """The body ends: its aggregate is complete."""
        placing = Placing(self.is_union, is_packed, alignment)
        placed = [member if member.type is None else placing.place(member) for member in self.members]
        of = self.aggregate
        of.members = {}
        for member in placed:
            for name, behind in self.names(member):
                of.members.setdefault(name, (member, *behind))
        of.parts, of.is_union = [member for member in placed if member.name or member.width is None], self.is_union
        of.size, of.alignment = placing.size(), placing.alignment
        of.has_const = any(has_const(member.type) for member in placed)
