"""What is known of each expression, and which rules and constraints hold there (C11 6.5, with restricted types and spaces)."""
from . import constants, pairs, types
from .constants import Constant
from .pairs import Fact
from .types import INT, KINDS, LONG, SIZE, array, integer, pointer

COMPARISONS = {"Equal", "NotEqual", "Less", "Greater", "LessOrEqual", "GreaterOrEqual"}
EQUALITIES = {"Equal", "NotEqual"}
BITWISE = {"BitwiseAnd", "BitwiseExclusiveOr", "BitwiseOr"}
SHIFTS = {"LeftShift", "RightShift"}
ARITHMETIC = {"Multiplication", "Division", "Remainder", "Addition", "Subtraction"} | SHIFTS
STEPS = {"PreIncrement", "PreDecrement", "PostIncrement", "PostDecrement"}
WITH_POINTERS = {"Addition", "Subtraction"}

# The most bytes of an object; a size above them is no constant
MOST_BYTES = 1 << 40


class Expressions:
    """The rows of expressions. `judge` knows names, the names of types and bodies."""

    def __init__(self, found, judge):
        self.found = found
        self.judge = judge
        # What is known of the expressions so far, by their tokens
        self.known = {}
        self.rows = {
            "Name": self.name, "IntegerConstant": self.literal, "CharacterConstant": self.literal, "StringLiteral": self.string,
            "Parenthesized": self.parenthesized, "Indirection": self.indirection, "Address": self.address,
            "Subscript": self.subscript, "Call": self.call, "Assignment": self.assignment, "Comma": self.comma,
            "LogicalNot": self.tested, "LogicalAnd": self.tested, "LogicalOr": self.tested, "Conditional": self.conditional,
            "UnaryPlus": self.unary, "Negation": self.unary, "Complement": self.unary, "Cast": self.cast,
            "SizeofExpression": self.sizeof, "SizeofType": self.sizeof, "AlignofType": self.sizeof,
            "StatementExpression": self.statement_expression, "BuiltinExpect": self.expect,
            "Member": self.member, "PointerMember": self.member, "BuiltinOffsetof": self.offset,
            "CompoundLiteral": self.compound_literal,
        }
        self.rows |= {kind: self.binary for kind in ARITHMETIC | BITWISE | COMPARISONS}
        self.rows |= {kind: self.step for kind in STEPS}
        self.rows |= {f"{kind}Assignment": self.compound for kind in ARITHMETIC | BITWISE}

    # What is wanted of an expression

    def fact(self, node, is_evaluated):
        """What is known of an expression as it stands, a place as a place; None where nothing is."""
        kind = node.kind.split(" ")[0]
        if kind not in self.rows:
            raise self.judge.not_built(node)
        found = self.known[node.at] = self.rows[kind](node, is_evaluated)
        return found

    def value(self, node, is_evaluated):
        """What is known of the value of an expression."""
        return self.loaded(node, self.fact(node, is_evaluated), is_evaluated)

    def loaded(self, node, fact, is_evaluated):
        """What is known of the value of what an expression is: a place is loaded."""
        if fact is None or not fact.is_place:
            return fact
        of = fact.type
        if of.is_aggregate() and not types.is_complete(of):
            return self.found.breaks(10, node.at)
        if of.is_scalar() or of.is_aggregate():
            self.access(node, fact, is_evaluated)
        return Fact(types.loaded(of, fact.width))

    def access(self, node, fact, is_evaluated):
        """A place is loaded or stored to."""
        marks = fact.type.marks
        if is_evaluated and marks.noderef:
            self.found.fails("A4", node.at, word=b"of noderef expression")
        elif is_evaluated and marks.space is not None:
            self.found.fails("A4", node.at, word=b"in address space " + marks.space)

    def used(self, node, fact):
        """Whether a value is known and isn't void; a void value that is used is told."""
        if fact is not None and fact.is_void():
            self.found.breaks(9, node.at)
        return fact is not None and not fact.is_void()

    def is_condition(self, node, fact):
        """Whether a value is known and can be tested; one that can't be is told."""
        if fact is not None and fact.type.is_aggregate():
            self.found.breaks(13, node.at)
            return False
        return self.used(node, fact)

    def values_used(self, nodes, is_evaluated):
        """The values of parts that are all used, or None where one of them can't be."""
        facts = [self.value(node, is_evaluated) for node in nodes]
        are_used = [self.used(node, fact) for node, fact in zip(nodes, facts)]
        return facts if all(are_used) else None

    def converts(self, value, to, token, word, part=0):
        """A value becomes one of a type; whether it can."""
        if pairs.are_unlike(value.type, to):
            self.found.breaks(11, token)
            return False
        rule = pairs.conversion(value, to)
        if rule == "N1":
            self.found.fails("N1", token, part=part)
        elif rule:
            self.found.fails(rule, token, to, value.type, word=word, part=part)
        return True

    def tests(self, token, facts):
        """Operands are tested or compared: a fouled one is told by the first restricted one."""
        if any(fact.fouled for fact in facts):
            self.found.fails("B5", token, first_restricted(facts))

    # Primary expressions

    def name(self, node, is_evaluated):
        return self.judge.named(node)

    def literal(self, node, is_evaluated):
        kind = node.kind.split(" ")[1]
        return Fact(integer(kind), constant=Constant(kind, constants.wrapped(node.number, kind)))

    def string(self, node, is_evaluated):
        return Fact(array(integer("Char"), node.number), is_place=True)

    def parenthesized(self, node, is_evaluated):
        return self.fact(node.parts[0][1], is_evaluated)

    def statement_expression(self, node, is_evaluated):
        return self.judge.statement_expression(node.parts[0][1], is_evaluated)

    def compound_literal(self, node, is_evaluated):
        return self.judge.compound_literal(node, is_evaluated)

    # Places

    def indirection(self, node, is_evaluated):
        value = self.value(node.parts[0][1], is_evaluated)
        if value is None:
            return None
        if not value.is_pointer():
            return self.found.breaks(1, node.at)
        return Fact(value.type.inner, is_place=True)

    def subscript(self, node, is_evaluated):
        parts = [part for _, part in node.parts]
        base = self.fact(parts[0], is_evaluated)
        left, right = self.loaded(parts[0], base, is_evaluated), self.value(parts[1], is_evaluated)
        if left is None or right is None:
            return None
        known = [self.used(part, fact) for part, fact in zip(parts, (left, right))]
        index, to = (left, right) if right.is_pointer() else (right, left)
        if not all(known) or not self.can_be_indexed(to) or index.type.form != "integer":
            return self.found.breaks(1, node.at)
        if index.type.is_restricted():
            self.found.fails("B1", node.at, index.type)
        if not types.is_complete(to.type.inner):
            return self.found.breaks(10, node.at)
        is_element = base.is_place and base.type.form == "array"
        return Fact(to.type.inner, is_place=True, register=is_element and base.register)

    def can_be_indexed(self, value):
        return value.is_pointer()

    def address(self, node, is_evaluated):
        place = self.fact(node.parts[0][1], is_evaluated)
        if place is None:
            return None
        if not place.is_place or place.register or place.width is not None:
            return self.found.breaks(2, node.at)
        return Fact(pointer(place.type))

    # Members

    def member(self, node, is_evaluated):
        """`.` and `->`."""
        part = node.parts[0][1]
        fact = self.fact(part, is_evaluated)
        if node.kind == "PointerMember":
            fact = self.loaded(part, fact, is_evaluated)
        # a place of type void isn't used
        if fact is None or not fact.is_place and not self.used(part, fact):
            return None
        if node.kind == "PointerMember":
            if not fact.is_pointer():
                return self.found.breaks(1, node.at)
            fact = Fact(fact.type.inner, is_place=True)
        way = self.way_to(fact.type, node.name, node.at)
        return way and self.selected(node, fact, way)

    def selected(self, node, fact, way):
        """What is known of a member of a place or of a value."""
        of = fact.type
        for member in way:
            if member.type is None:
                return None
            of = types.of_member(member.type, of.marks)
        if fact.is_place:
            return Fact(of, is_place=True, register=fact.register, width=way[-1].width)
        if of.form == "array":
            return self.found.breaks(4, node.at)
        return Fact(types.loaded(of, way[-1].width))

    def way_to(self, of, name, token):
        """The members that lead to the one of this name; None where there is none, which is told at a token."""
        if not of.is_aggregate():
            return self.found.breaks(8, token)
        if not types.is_complete(of):
            return self.found.breaks(10, token)
        if name not in of.aggregate.members:
            return self.found.breaks(7, token, name)
        return of.aggregate.members[name]

    def offset(self, node, is_evaluated):
        """`__builtin_offsetof`: the first name is asked for at the word, and the others at their dots."""
        (_, named), *designators = node.parts
        of, bits, width = self.judge.named_type(named), 0, None
        steps = [(node.at, node.name, None)]
        steps += [(part.at, part.name, part.parts[0][1] if part.parts else None) for _, part in designators]
        for token, name, index in steps:
            if index is not None:
                (of, moved), width = self.element(of, index, token, bits), None
            else:
                of, width, moved = self.offset_of_member(of, name, token)
            bits += moved
        if width is not None:
            return self.found.breaks(2, node.at)
        return of and Fact(SIZE, constant=Constant("ULong", bits // 8) if bits <= MOST_BYTES * 8 else None)

    def offset_of_member(self, of, name, token):
        """The type of a member, its width, and how many bits it stands behind the first one."""
        way = of and self.way_to(of, name, token)
        if not way or any(member.type is None for member in way):
            return None, None, 0
        return way[-1].type, way[-1].width, sum(member.bit for member in way)

    def element(self, of, index, token, bits):
        """The type of an element, and how many bits it stands behind the first one."""
        value = self.value(index, False)
        is_array = of is not None and of.form == "array"
        is_known = self.used(index, value)
        if value is not None and not (is_known and value.type.form == "integer") or of is not None and not is_array:
            return self.found.breaks(1, token), 0
        if not is_known:
            return None, 0
        if value.type.is_restricted():
            self.found.fails("B1", token, value.type)
        number = value.constant.number if value.constant else -1
        if number < 0 or is_array and number * types.size(of.inner) + bits // 8 > MOST_BYTES:
            return self.found.breaks(40, token), 0
        return (of.inner, number * types.size(of.inner) * 8) if is_array else (None, 0)

    # Calls

    def call(self, node, is_evaluated):
        (_, callee), *arguments = node.parts
        fact = self.value(callee, is_evaluated)
        arguments = [argument for _, argument in arguments]
        values = [self.value(argument, is_evaluated) for argument in arguments]
        if fact is None:
            # what isn't known asks nothing of its arguments
            return None
        has_voids = self.has_voids(arguments, values)
        is_used = self.used(callee, fact)
        if not is_used or not fact.type.is_pointer_to("function"):
            return self.found.breaks(5, node.at)
        called = fact.type.inner
        if len(values) < len(called.parameters) or len(values) > len(called.parameters) and not called.takes_more:
            return self.found.breaks(6, node.at)
        if has_voids:
            return None
        are_passed = self.passes(arguments, values, called.parameters)
        if called.inner.is_aggregate() and not types.is_complete(called.inner):
            return self.found.breaks(10, node.at)
        return Fact(types.value_of(called.inner)) if are_passed else None

    def has_voids(self, arguments, values):
        """Whether arguments are void, which is told of each."""
        voids = [argument for argument, value in zip(arguments, values) if value is not None and value.is_void()]
        for argument in voids:
            self.found.breaks(9, argument.at)
        return bool(voids)

    def passes(self, arguments, values, parameters):
        """Arguments become values of the types of parameters; nothing is said of one of which nothing is known. Whether they can."""
        can = True
        for number, (argument, value, to) in enumerate(zip(arguments, values, parameters), 1):
            if value is not None and not self.converts(value, to, argument.at, b"argument %d" % number, number):
                can = False
        return can

    def expect(self, node, is_evaluated):
        """Both operands are passed as to a function of two longs."""
        parts = [part for _, part in node.parts]
        values = [self.value(part, is_evaluated) for part in parts]
        if self.has_voids(parts, values):
            return None
        return Fact(LONG) if self.passes(parts, values, (LONG, LONG)) else None

    # Operators before or behind one operand

    def unary(self, node, is_evaluated):
        values = self.values_used([node.parts[0][1]], is_evaluated)
        if values is None:
            return None
        value, = values
        if value.type.form != "integer":
            return self.found.breaks(4, node.at)
        constant = value.constant and constants.alone(node.kind, value.constant)
        if node.kind == "Complement" and value.type.is_restricted():
            fouled = pairs.is_fouled_behind_complement(value)
            return Fact(value.type, fouled=fouled, constant=kept(constant, value.type, fouled))
        if value.type.is_restricted():
            self.found.fails("B1", node.at, value.type)
        return Fact(types.promoted(value.type), constant=constant)

    def changed_place(self, node, part, is_evaluated):
        """What is known of a place that an operator loads and stores to, or None."""
        fact = self.fact(part, is_evaluated)
        value = Expressions.loaded(self, part, fact, is_evaluated)
        if value is None:
            return None
        is_used = self.used(part, value)
        if not is_modifiable(fact):
            return self.found.breaks(3, node.at)
        return fact if is_used else None

    def is_step_possible(self, node, of):
        """Whether a pointer of this type can be moved: what it points to is complete."""
        if types.is_complete(of.inner):
            return True
        self.found.breaks(10, node.at)
        return False

    def step(self, node, is_evaluated):
        place = self.changed_place(node, node.parts[0][1], is_evaluated)
        if place is None:
            return None
        if not place.type.is_scalar():
            return self.found.breaks(4, node.at)
        if place.type.form == "pointer" and not self.is_step_possible(node, place.type):
            return None
        if place.type.is_restricted():
            self.found.fails("B7", node.at, place.type)
        return Fact(types.loaded(place.type, place.width if node.kind.startswith("Post") else None))

    def sizeof(self, node, is_evaluated):
        part = node.parts[0][1]
        if node.kind == "SizeofExpression":
            fact = self.fact(part, False)
            if fact is not None and fact.width is not None:
                return self.found.breaks(29, node.at)
            of = fact and fact.type
        else:
            of = self.judge.named_type(part)
        if of is None:
            return None
        if not types.is_complete(of):
            return self.found.breaks(10, node.at)
        number = types.alignment(of) if node.kind == "AlignofType" else types.size(of)
        return Fact(SIZE, constant=Constant("ULong", number) if number <= MOST_BYTES else None)

    def cast(self, node, is_evaluated):
        named, part = (part for _, part in node.parts)
        to = self.judge.named_type(named)
        value = self.value(part, is_evaluated)
        if to is None:
            return None
        if to.form != "void" and (not to.is_scalar() or value is not None and not value.type.is_scalar()):
            self.used(part, value)
            return self.found.breaks(12, node.at)
        if value is None:
            return None
        if not self.judge.is_forced(named):
            self.cast_rules(node.at, value, to)
        if to.form == "integer" and value.constant is not None:
            self.truncation(node.at, value, to)
        return Fact(types.value_of(to), constant=cast_constant(value, to), null=is_null(value, to))

    def cast_rules(self, token, value, to):
        if pairs.loses_space(value, to):
            self.found.fails("A5", token, word=value.type.inner.marks.space)
        if pairs.gains_space(value, to):
            self.found.fails("A6", token, word=to.inner.marks.space)
        if pairs.is_restricted_cast(value, to):
            self.found.fails("B4", token, value.type, to)

    def truncation(self, token, value, to):
        """Rule S8, for a constant that is cast to an integer type; the number of a fouled one is of the promoted type."""
        if KINDS[to.kind].bits >= KINDS[value.type.kind].bits:
            return
        number, becomes = value.constant.number, constants.wrapped(value.constant.number, to.kind)
        back = types.promoted(value.type).kind if value.fouled else value.type.kind
        if constants.wrapped(becomes, back) != number:
            self.found.fails("S8", token, word=b"%d becomes %d" % (number, becomes))

    # Operators between operands

    def binary(self, node, is_evaluated):
        values = self.values_used([part for _, part in node.parts], is_evaluated)
        if values is None:
            return None
        if any(value.type.is_aggregate() for value in values):
            are_unlike = node.kind in COMPARISONS and pairs.are_unlike(*(value.type for value in values))
            return self.found.breaks(11 if are_unlike else 4, node.at)
        if any(value.is_pointer() for value in values):
            return self.with_pointer(node, *values)
        left, right = values
        if node.kind in COMPARISONS:
            return self.comparison(node, left, right)
        both = left.constant and right.constant
        constant = both and constants.between(node.kind, left.constant, right.constant)
        if node.kind in BITWISE:
            self.meeting(node.at, left, right)
            of = pairs.joined(left, right)
            marks = left.fouled, right.fouled
            fouled = all(marks) if node.kind == "BitwiseAnd" else any(marks)
            return Fact(of, fouled=fouled, constant=kept(constant, of, fouled))
        self.degrading(node.at, left, right)
        of = types.promoted(left.type) if node.kind in SHIFTS else types.common(left.type, right.type)
        return Fact(of, constant=constant)

    def meeting(self, token, left, right, rule="B2"):
        if pairs.are_of_different_restricted_types(left, right):
            self.found.fails(rule, token, left.type, right.type)

    def degrading(self, token, *facts):
        restricted = first_restricted(facts)
        if restricted is not None:
            self.found.fails("B1", token, restricted)

    def comparison(self, node, left, right):
        """Two integers are compared."""
        if node.kind in EQUALITIES:
            self.meeting(node.at, left, right)
            self.tests(node.at, (left, right))
        else:
            self.degrading(node.at, left, right)
        both = left.constant and right.constant
        return Fact(INT, constant=both and constants.between(node.kind, left.constant, right.constant))

    def with_pointer(self, node, left, right):
        """A pointer is an operand of an operator."""
        if node.kind in COMPARISONS:
            return self.pointers_compared(node, left, right)
        are_two = left.is_pointer() and right.is_pointer()
        if node.kind == "Subtraction" and right.is_pointer():
            return self.difference(node, left, right)
        if node.kind not in WITH_POINTERS or are_two:
            return self.found.breaks(4, node.at)
        of = left.type if left.is_pointer() else right.type
        if not self.is_step_possible(node, of):
            return None
        self.degrading(node.at, left, right)
        return Fact(of)

    def can_be_compared(self, left, right):
        return pairs.can_be_compared(left, right)

    def arms_joined(self, left, right):
        return pairs.arms_joined(left, right)

    def pointers_compared(self, node, left, right):
        """A pointer is compared."""
        if pairs.are_incompatible(left, right):
            self.found.fails("A3", node.at, left.type, right.type, word=b"comparison")
        elif not (left.is_pointer() and right.is_pointer()):
            self.found.fails("N1", node.at)
        elif not self.can_be_compared(left, right):
            return self.found.breaks(4, node.at)
        if node.kind in EQUALITIES:
            self.tests(node.at, (left, right))
        else:
            self.degrading(node.at, left, right)
        return Fact(INT)

    def difference(self, node, left, right):
        """A pointer is subtracted."""
        if pairs.are_incompatible(left, right, are_subtracted=True):
            self.found.fails("A3", node.at, left.type, right.type, word=b"subtraction")
        elif not left.is_pointer() or not pairs.can_be_subtracted(left, right):
            return self.found.breaks(4, node.at)
        self.degrading(node.at, left, right)
        pointers = [fact.type for fact in (left, right) if fact.is_pointer()]
        return Fact(LONG) if all(self.is_step_possible(node, of) for of in pointers) else None

    def tested(self, node, is_evaluated):
        """`!`, `&&` and `||`."""
        parts = [part for _, part in node.parts]
        values = [self.value(part, is_evaluated) for part in parts]
        if not all([self.is_condition(part, value) for part, value in zip(parts, values)]):
            return None
        self.tests(node.at, values)
        known = [value.constant and value.constant.number != 0 for value in values]
        if node.kind == "LogicalNot":
            return Fact(INT, constant=None if known[0] is None else constants.truth(not known[0]))
        decides = node.kind == "LogicalOr"
        if known[0] is decides or None not in known:
            return Fact(INT, constant=constants.truth(decides if known[0] is decides else known[1]))
        return Fact(INT)

    def comma(self, node, is_evaluated):
        _, right = [self.value(part, is_evaluated) for _, part in node.parts]
        return None if right is None else Fact(right.type, fouled=right.fouled)

    def conditional(self, node, is_evaluated):
        condition, *parts = [part for _, part in node.parts]
        values = [self.value(part, is_evaluated) for part in (condition, *parts)]
        is_tested = self.is_condition(condition, values[0])
        if len(parts) == 1:
            parts, values = [condition, *parts], [values[0], *values]
        arms = values[1:]
        is_known = None not in arms
        if is_tested and is_known:
            self.tests(node.at, values[:1])
        if is_known and any(arm.is_void() for arm in arms):
            arms_fact = self.void_arms(parts, arms)
            return arms_fact if is_tested else None
        if not is_known:
            return None
        # the arms meet whatever the condition is
        arms_fact = self.arms(node, values[0] if is_tested else Fact(INT), *arms)
        return arms_fact if is_tested else None

    def void_arms(self, parts, arms):
        """One arm of `?:` is void: the other one has to be, too."""
        if all(arm.is_void() for arm in arms):
            return Fact(types.VOID)
        for part, arm in zip(parts, arms):
            self.used(part, arm)
        return None

    def arms(self, node, condition, left, right):
        """The arms of `?:` meet."""
        if pairs.are_unlike(left.type, right.type):
            return self.found.breaks(11, node.at)
        if left.type.is_aggregate():
            return Fact(left.type)
        if left.is_pointer() or right.is_pointer():
            return self.arms_with_pointer(node, left, right)
        self.meeting(node.at, left, right)
        of = pairs.joined(left, right)
        fouled = left.fouled or right.fouled
        return Fact(of, fouled=fouled, constant=kept(chosen(condition, left, right), of, fouled))

    def arms_with_pointer(self, node, left, right):
        """The arms of `?:` meet, a pointer among them; an integer arm whose type is given is no constant beside it."""
        are_two = left.is_pointer() and right.is_pointer()
        if pairs.are_incompatible(left, right):
            self.found.fails("A3", node.at, left.type, right.type, word=b"conditional")
        elif not are_two:
            self.found.fails("N1", node.at)
        elif not self.can_be_compared(left, right):
            return self.found.breaks(4, node.at)
        return Fact(self.arms_joined(left, right))

    # Assignments

    def assignment(self, node, is_evaluated):
        target, source = (part for _, part in node.parts)
        place, value = self.fact(target, is_evaluated), self.value(source, is_evaluated)
        is_void = value is not None and not self.used(source, value)
        if place is not None and not is_modifiable(place):
            return self.found.breaks(3, node.at)
        if place is not None and not types.is_complete_object(place.type):
            return self.found.breaks(10, node.at)
        if is_void or place is None:
            return None
        self.access(target, place, is_evaluated)
        if value is not None and not self.converts(value, place.type, node.at, b"assignment"):
            return None
        return Fact(types.value_of(place.type))

    def compound(self, node, is_evaluated):
        target, source = (part for _, part in node.parts)
        place = self.changed_place(node, target, is_evaluated)
        value = self.value(source, is_evaluated)
        if not self.used(source, value) or place is None:
            return None
        kind, of = node.kind.removesuffix("Assignment"), place.type
        if not self.can_be_changed(kind, of, value):
            return self.found.breaks(4, node.at)
        if of.form == "pointer" and not self.is_step_possible(node, of):
            return None
        left = Fact(types.value_of(of))
        if kind in BITWISE:
            self.meeting(node.at, Fact(types.loaded(of, place.width)), value)
        elif first_restricted((left, value)):
            self.found.fails("B7", node.at, first_restricted((left, value)))
        return left

    def can_be_changed(self, kind, of, value):
        """Whether an operator can change a place of this type by a value."""
        return value.type.form == "integer" and (of.form == "integer" or of.form == "pointer" and kind in WITH_POINTERS)


def first_restricted(facts):
    """The first restricted type among those of some values, or None."""
    return next((fact.type for fact in facts if fact.type.is_restricted()), None)


def is_modifiable(fact):
    """It can be stored to (C11 6.3.2.1 p1)."""
    of = fact.type
    return fact.is_place and not of.marks.const and of.form not in ("array", "function") and not types.has_const_member(of)


def kept(constant, of, fouled):
    """The constant as the type of its expression has it; a fouled one keeps the number of the promoted type."""
    if constant is None or fouled:
        return constant and Constant(of.kind, constant.number)
    return constants.converted(constant, of.kind)


def chosen(condition, left, right):
    """The constant of the arm that a constant condition chooses, or None."""
    return condition.constant and (left if condition.constant.number else right).constant


def cast_constant(value, to):
    return constants.converted(value.constant, to.kind) if to.form == "integer" and value.constant else None


def is_null(value, to):
    """It is cast to exactly `void *`, and 0."""
    is_zero = value.type.form == "integer" and value.constant is not None and value.constant.number == 0
    return is_zero and to is pointer(types.VOID)
