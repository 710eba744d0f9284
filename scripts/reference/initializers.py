"""Initializers: for which part of an object each expression is, what it becomes there, and what that of a static object has to be
(C11 6.5.2.5, 6.6, 6.7.9)."""
from typing import NamedTuple

from . import pairs, types
from .expressions import MOST_BYTES
from .trees import Node
from .types import Type

# An index of an array without a length is below it
MOST_INDEX = 1 << 40
# The part of a failure that stands in an initializer
PART = 256
CHARACTERS = ("Char", "SChar", "UChar")


class Leaf(NamedTuple):
    """An expression for a part: the numbers that lead to the part, its type, and whether a designator moved to it."""

    node: Node
    path: tuple
    type: Type
    moved: bool

    def is_string(self):
        """It is a string that is for all elements of an array."""
        return is_string_for(self.node, self.type)


class Items:
    """The items between braces, of which those in front have been taken. `moved` says that a designator stands before the braces."""

    def __init__(self, braced, moved):
        self.items = [item.parts for _, item in braced.parts]
        self.moved = moved
        self.at = 0
        # The designators of the item in front were followed
        self.led = False

    def are_left(self):
        return self.at < len(self.items)

    def front(self):
        """The initializer in front."""
        return self.items[self.at][-1][1]

    def designators(self):
        """The designators in front that weren't followed."""
        return [] if self.led else [part for _, part in self.items[self.at][:-1]]

    def go_on(self):
        """Whether there is an item for the part that is next."""
        return self.are_left() and not self.designators()

    def take(self):
        """The initializer in front, which is taken, and whether a designator moved to its part."""
        found = self.front(), len(self.items[self.at]) > 1 or self.at == 0 and self.moved
        self.at, self.led = self.at + 1, False
        return found


def is_array_of_characters(of):
    return of.form == "array" and of.inner.is_plain_integer() and of.inner.kind in CHARACTERS


def is_string_for(node, of):
    return node.kind == "StringLiteral" and is_array_of_characters(of)


def without_length(of):
    return of.form == "array" and of.length is None


def can_be_initialized(of):
    """It is complete, or an array that gets its length (6.7.9 p3)."""
    return types.is_complete_object(of) or without_length(of) and types.is_complete_object(of.inner)


def part_type(of):
    """The type of a part: a flexible array has no element."""
    return types.array(of.inner, 0) if of is not None and without_length(of) else of


def part(of, number):
    """The type of the part with this number, or None where there is none: a scalar is its own only part."""
    if of.form == "array":
        return of.inner if of.length is None or number < of.length else None
    if of.is_aggregate():
        parts = of.aggregate.parts
        return part_type(parts[number].type) if number < len(parts) else None
    return of if number == 0 else None


def is_one_of_several(of):
    """Only one of its parts is filled, the first one where no designator says else."""
    return of.is_aggregate() and of.aggregate.is_union or of.is_scalar()


def behind(path, of, number):
    return path if of.is_scalar() else (*path, number)


class Filling:
    """The leaves of one initializer, and the constraints that it breaks, by cases on the part that is to be filled. `values` has what is
    known of the values of its expressions, by their tokens."""

    def __init__(self, values):
        self.values = values
        self.leaves = []
        self.broken = []
        # One more than the largest number of a part of the object that an item is for
        self.reached = 0

    def breaks(self, number, token):
        self.broken.append((number, token))

    def object(self, of, node):
        """An object receives its initializer; the completed type, or None where one is refused."""
        self.receives(of, (), node, False)
        if self.broken:
            return None
        return types.array(of.inner, self.reached) if without_length(of) else of

    def receives(self, of, path, node, moved):
        """An object or a part receives an initializer whole (6.7.9 p11, p13, p14, p16)."""
        if node.kind == "BracedInitializer":
            self.braces(of, path, Items(node, moved))
            return
        if is_string_for(node, of):
            if of.length is None:
                self.reached = node.number
            elif node.number - 1 > of.length:
                self.breaks(38, node.at)
        self.leaves.append(Leaf(node, path, of, moved))

    def braces(self, of, path, items):
        """The items between braces are for an object or a part (6.7.9 p17, p18)."""
        if items.go_on() and is_string_for(items.front(), of):
            self.receives(of, path, *items.take())
            while items.are_left():
                self.breaks(38, items.take()[0].at)
            return
        self.goes_on(of, path, 0, items)
        while items.are_left():
            if items.designators():
                self.designated(of, path, items)
            else:
                self.breaks(38, items.take()[0].at)

    def takes_whole(self, of, node):
        """Whether a part takes an initializer whole, and not its parts (6.7.9 p13, p14, p20)."""
        if node.kind == "BracedInitializer" or of.is_scalar() or is_string_for(node, of):
            return True
        value = self.values[node.at]
        return of.is_aggregate() and value is not None and types.bare(value.type) is types.bare(types.value_of(of))

    def fills(self, of, path, items):
        """A part takes items from the front."""
        if not self.takes_whole(of, items.front()):
            self.goes_on(of, path, 0, items)
            return
        self.reached = max(self.reached, *(number + 1 for number in path[:1]), 0)
        node, moved = items.take()
        self.receives(of, path, node, moved)

    def goes_on(self, of, path, number, items):
        """The parts from a number on take items, as far as these go."""
        while items.go_on() and part(of, number) is not None:
            before = items.at
            self.fills(part(of, number), behind(path, of, number), items)
            if is_one_of_several(of) or of.form == "array" and items.at == before:
                return
            number += 1

    def designated(self, of, path, items):
        """The part to which designators lead takes items, and then what stands behind it, up to the braces' own object."""
        way = self.way(of, path, items.designators())
        if way is None:
            # what is behind is for nothing
            items.take()
            while items.go_on():
                items.take()
            return
        items.led = True
        of, path, number = way[-1]
        self.fills(part(of, number), (*path, number), items)
        for of, path, number in reversed(way):
            if not is_one_of_several(of):
                self.goes_on(of, path, number + 1, items)
        if items.led:
            self.breaks(38, items.take()[0].at)

    def way(self, of, path, designators):
        """The steps down from an object, each with what it is in, the path to that and a number; None where they lead nowhere."""
        found = []
        for node in designators:
            numbers = self.member(of, node) if node.kind == "MemberDesignator" else self.index(of, node)
            for number in numbers or ():
                found.append((of, path, number))
                of, path = part(of, number), (*path, number)
            if not numbers or of is None:
                return None
        return found

    def member(self, of, node):
        """The numbers of the members that lead to one, through those without a name."""
        if not of.is_aggregate() or node.name not in of.aggregate.members:
            return self.breaks(40, node.at)
        numbers = []
        for step in of.aggregate.members[node.name]:
            numbers.append(next(number for number, each in enumerate(of.aggregate.parts) if each is step))
            of = step.type
        return numbers

    def index(self, of, node):
        """The number of an element."""
        index = node.parts[0][1]
        if of.form != "array":
            return self.breaks(40, node.at)
        value = self.values[index.at]
        if value is None:
            return None
        number = value.constant.number if value.type.form == "integer" and value.constant is not None else -1
        if not 0 <= number < (MOST_INDEX if of.length is None else of.length):
            return self.breaks(40, node.at)
        return [number]


class Constancy:
    """Which expressions are constant for a static object. `facts` has what is known of expressions by their tokens; `is_static` says of
    the name of an object or a function, or of a compound literal, whether it lasts from the start to the end."""

    def __init__(self, facts, is_static):
        self.facts = facts
        self.is_static = is_static

    def holds(self, node):
        fact = self.facts[node.at]
        if fact is None or fact.constant is not None or fact.null or node.kind == "StringLiteral":
            return True
        parts = [part for _, part in node.parts]
        if node.kind in ("Parenthesized", "Cast"):
            return self.holds(parts[-1])
        if node.kind == "Conditional":
            return self.is_arm_constant(parts)
        if node.kind in ("Addition", "Subtraction"):
            return self.is_moved(node, *parts)
        if node.kind == "Address":
            return self.is_fixed(parts[0])
        return fact.is_place and fact.type.form in ("array", "function") and self.is_fixed(node)

    def is_arm_constant(self, parts):
        """A constant condition chooses an arm that is constant; the condition is the first arm where that is left out."""
        condition = self.facts[parts[0].at].constant
        return condition is not None and self.holds(parts[-1] if condition.number == 0 else parts[-2])

    def is_moved(self, node, left, right):
        """A constant pointer and a number that is moved by."""
        if self.facts[left.at].constant is None and self.is_number(right):
            return self.points(left) and self.holds(left)
        return node.kind == "Addition" and self.is_number(left) and self.points(right) and self.holds(right)

    def is_number(self, node):
        fact = self.facts[node.at]
        return fact.type.form == "integer" and fact.constant is not None

    def points(self, node):
        return types.value_of(self.facts[node.at].type).form == "pointer"

    def is_fixed(self, node):
        """The place of a static object, a function, or what members and constant indexes select of a static object."""
        parts = [part for _, part in node.parts]
        if node.kind in ("Name", "CompoundLiteral"):
            return self.facts[node.at].is_place and self.is_static(node)
        if node.kind in ("Parenthesized", "Member"):
            return self.is_fixed(parts[0])
        if node.kind != "Subscript":
            return False
        array, index = reversed(parts) if self.is_number(parts[0]) else parts
        is_of_array = self.facts[array.at].is_place and self.facts[array.at].type.form == "array"
        return is_of_array and self.is_number(index) and self.is_fixed(array)


class Initializing:
    """Judges initializers. A child of it is a judge of declarations."""

    filling = Filling

    def judges(self, node, is_evaluated):
        """Each expression of an initializer is judged by itself; what is known of their values, by their tokens."""
        if node.kind != "BracedInitializer":
            return {node.at: self.expressions.value(node, is_evaluated)}
        values = {}
        for _, item in node.parts:
            for _, designator in item.parts[:-1]:
                for _, index in designator.parts:
                    values[index.at] = self.expressions.value(index, False)
            values |= self.judges(item.parts[-1][1], is_evaluated)
        return values

    def initializes(self, of, node, values, is_static, tells):
        """The completed type of an object, or None where its initializer is refused, which `tells` is told."""
        filling = self.filling(values)
        completed = filling.object(of, node)
        for number, token in filling.broken:
            tells(number, token)
        are_fit = [self.fits(leaf, values[leaf.node.at], is_static, tells) for leaf in filling.leaves]
        if completed is None or not all(are_fit):
            return None
        if completed is not of and types.size(completed) > MOST_BYTES:
            self.found.limits.append(node.at)
        return completed

    def fits(self, leaf, value, is_static, tells):
        """Whether an expression can be for its part; nothing is asked of one of which nothing is known."""
        token = leaf.node.at
        if value is None or leaf.is_string():
            return True
        if value.is_void():
            return tells(9, token)
        if leaf.type.form == "array" or pairs.are_unlike(value.type, leaf.type):
            return tells(11, token)
        self.expressions.converts(value, leaf.type, token, b"initializer", PART)
        if is_static and not Constancy(self.expressions.known, self.is_static).holds(leaf.node):
            return tells(39, token)
        return True
