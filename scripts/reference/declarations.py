"""What declarations say, and which rules and constraints hold there (C11 6.7, with attributes): specifiers, structures, unions and
enums, declarators, parameters, and names that are declared."""
from typing import NamedTuple

from . import trees, types
from .aggregates import Body, Member
from .constants import Constant, wrapped
from .expressions import MOST_BYTES
from .initializers import Initializing, can_be_initialized
from .pairs import Fact
from .types import INT, KINDS, NONE, Aggregate, Marks, Type

QUALIFIERS = {"ConstQualifier": Marks(const=True), "VolatileQualifier": Marks(volatile=True), "RestrictQualifier": NONE}
# The kind that type words say, but for their signs
WORDS = {
    ("BoolSpecifier",): "Bool", ("CharSpecifier",): "Char", ("ShortSpecifier",): "Short", ("IntSpecifier", "ShortSpecifier"): "Short",
    (): "Int", ("IntSpecifier",): "Int", ("LongSpecifier",): "Long", ("IntSpecifier", "LongSpecifier"): "Long",
    ("LongSpecifier", "LongSpecifier"): "LLong", ("IntSpecifier", "LongSpecifier", "LongSpecifier"): "LLong",
}
TAGGED = {kind: word.encode() for word, kind in trees.TAGGED.items()}
# What an enum can be, the first one that holds all its numbers
ENUM_KINDS = ("Int", "UInt", "Long", "ULong")


class NotBuilt(Exception):
    """The unit has a form that isn't judged here."""


class Declared(NamedTuple):
    """What a declarator or an enumerator declares: its type where that is known, its name where it has linkage, whether it is a
    register's, the constant of an enumerator, and whether an object lasts from the start to the end."""

    type: Type | None
    linked: bytes | None
    register: bool
    constant: Constant | None = None
    is_static: bool = False


class Carried(NamedTuple):
    """What a declaration carries, or all of one name do: the sums of what its contexts take and give, and that it doesn't return."""

    sums: tuple | None
    noreturn: bool


class Linked(NamedTuple):
    """A declaration of a name with linkage: its type, the one with which later declarations are told it, and what it carries."""

    type: Type
    told: Type
    carried: Carried


class Attributes(NamedTuple):
    """What some attribute lists come to."""

    marks: Marks
    bitwise: int | None
    force: bool
    packed: bool
    alignment: int


class Scope:
    """A scope: what its typedefs are, and whether names in it may hide others: those of a prototype don't."""

    def __init__(self, is_prototype=False):
        self.typedefs = {}
        self.is_prototype = is_prototype


class Tag:
    """A tag: its kind, and what it names so far."""

    def __init__(self, kind, words):
        self.kind = kind
        self.has_body = False
        self.type = INT if kind == "EnumSpecifier" else types.aggregate(Aggregate(words))


def attributes(lists):
    marks, found, alignment = NONE, {}, 1
    for each in lists:
        for _, item in each.parts:
            found.setdefault(item.kind, item.at)
            if item.kind == "AddressSpaceAttribute":
                marks = marks._replace(space=item.name or b"%d" % item.number)
            if item.kind == "AlignedAttribute":
                alignment = max(alignment, item.number)
    marks = marks._replace(noderef="NoderefAttribute" in found)
    is_packed = "PackedAttribute" in found
    return Attributes(marks, found.get("BitwiseAttribute"), "ForceAttribute" in found, is_packed, alignment)


def contexts(lists):
    """The sums of what contexts take and give, or None where there are none."""
    found = [item.parts for each in lists for _, item in each.parts if item.kind == "ContextAttribute"]
    return tuple(sum(part[number][1].number for part in found) for number in (0, 1)) if found else None


def lists_of(node):
    return [part for _, part in node.parts if part.kind == "AttributeList"]


def all_lists(specifiers):
    """The lists among specifiers, those between a keyword and its tag too, in the order of the text."""
    found = []
    for _, part in specifiers.parts:
        found += [part] if part.kind == "AttributeList" else lists_of(part) if part.kind in TAGGED else []
    return found


def has_body(tagged):
    return any(part.kind in ("MemberList", "Enumerator") for _, part in tagged.parts)


def of_aggregate(specifiers):
    """The lists directly behind the brace of a structure or a union."""
    found, is_behind = [], False
    for _, part in specifiers.parts:
        is_behind = part.kind == "AttributeList" and is_behind or part.kind in TAGGED and has_body(part)
        found += [part] if is_behind and part.kind == "AttributeList" else []
    return found


def with_qualifiers(of, node):
    for _, part in node.parts:
        if of is not None and part.kind in QUALIFIERS:
            of = types.marked(of, QUALIFIERS[part.kind])
    return of


def type_of_words(words):
    if words == ["VoidSpecifier"]:
        return types.VOID
    plain = tuple(sorted(word for word in words if word not in ("SignedSpecifier", "UnsignedSpecifier")))
    kind = WORDS[plain]
    if "UnsignedSpecifier" in words:
        return types.integer("U" + kind)
    return types.integer("SChar" if kind == "Char" and "SignedSpecifier" in words else kind)


def holds(kind, number):
    return wrapped(number, kind) == number


def has(specifiers, kind):
    return any(part.kind == kind for _, part in specifiers.parts)


class Declarations(Initializing):
    """Goes over declarations. A child of it knows statements, and has the rows of expressions."""

    def start(self, found, expressions, hidden):
        self.found, self.expressions = found, expressions
        # The declaration that each one hides, by their tokens
        self.hidden = hidden
        # Declarators by their tokens; the types and contexts of those with linkage by their names; tags by their first words
        self.declared = {}
        self.linked = {}
        self.tags = {}
        self.scopes = [Scope()]
        # Objects that may be incomplete so far; functions with a body and initialized objects; the parameters of each list
        self.tentative = []
        self.defined = set()
        self.parameters = {}
        # Compound literals that are static, by their tokens
        self.static_literals = set()

    def noted(self, lists):
        """The numbers of contexts are expressions."""
        for each in lists:
            for _, item in each.parts:
                for _, number in item.parts:
                    self.expressions.fact(number, False)

    def is_at_file_scope(self):
        return len(self.scopes) == 1

    # Types

    def with_attributes(self, of, lists, identity):
        """A type with attributes; a restricted type is one of the declaration that begins at a token."""
        found = attributes(lists)
        self.noted(lists)
        if of is None:
            return None
        if found.bitwise is not None:
            if of.form != "integer":
                return self.found.refuses(31, found.bitwise)
            of = types.changed(of, identity=identity)
        return types.marked(of, found.marks)

    def specified(self, node, identity):
        """The type that specifiers say, or None."""
        words, of = [], None
        for _, part in node.parts:
            if part.kind in trees.TYPE_WORDS.values():
                words.append(part.kind)
            elif part.kind == "TypedefName":
                of = self.declared[part.number].type
            elif part.kind == "TypeofType":
                of = self.named_type(part.parts[0][1])
            elif part.kind == "TypeofExpression":
                fact = self.expressions.fact(part.parts[0][1], False)
                of = fact and fact.type
            elif part.kind in TAGGED:
                of = self.tagged(part, attributes(of_aggregate(node)))
        of = type_of_words(words) if words else of
        return self.with_attributes(with_qualifiers(of, node), all_lists(node), identity)

    def tagged(self, node, behind):
        """The type that a structure, a union or an enum is."""
        words = TAGGED[node.kind] + b" " + (node.name or b"<unnamed>")
        tag = self.tags.setdefault(node.number, Tag(node.kind, words))
        is_again = has_body(node) and tag.has_body
        is_another = is_again or tag.kind != node.kind
        if is_another:
            lists = lists_of(node)
            self.found.refuses(35, lists[-1].number if lists else node.at + 1, node.name)
            tag = Tag(node.kind, words)
            self.found.is_unclear = True
        if has_body(node):
            tag.has_body = True
            if node.kind == "EnumSpecifier":
                tag.type = self.enumeration(node)
            else:
                self.body_of(tag.type.aggregate, node, behind)
        return None if is_another else tag.type

    # Structures and unions

    def body_of(self, aggregate, node, behind):
        """The members between braces."""
        body = Body(aggregate, node.kind == "UnionSpecifier")
        lengthless = []
        for _, part in next(part for _, part in node.parts if part.kind == "MemberList").parts:
            if part.kind == "StaticAssertion":
                self.assertion(part)
            elif part.kind == "MemberDeclaration":
                self.members(body, part, lengthless)
        self.repeated(body, lengthless)
        body.end(behind.packed, behind.alignment)
        if aggregate.size > MOST_BYTES:
            self.found.limits.append(node.at)

    def repeated(self, body, lengthless):
        """Which members have no length where one is needed: all but the last of several of a structure."""
        named = sum(len(body.names(member)) for member in body.members)
        for token, member in lengthless:
            if body.is_union or named < 2 or member is not body.members[-1]:
                self.found.refuses(10, token)
                self.found.is_unclear = True

    def members(self, body, node, lengthless):
        """The members of one declaration."""
        (_, specifiers), *parts = node.parts
        base = self.specified(specifiers, node.at)
        inside = of_aggregate(specifiers)
        alignment = attributes([each for each in lists_of(specifiers) if each not in inside]).alignment
        if not parts:
            self.unnamed(body, specifiers, base, alignment)
        while parts:
            (_, declarator), *parts = parts
            width = parts.pop(0)[1] if parts and parts[0][1].kind == "BitFieldWidth" else None
            lists = []
            while parts and parts[0][1].kind == "AttributeList":
                lists.append(parts.pop(0)[1])
            of = self.with_attributes(self.derived(base, declarator, node.at), lists, node.at)
            if declarator.name:
                self.found.names.setdefault(node.at, declarator.name)
            member = Member(declarator.name, of, None, max(alignment, attributes(lists).alignment), token=declarator.at)
            self.member(body, member, width, lengthless)

    def unnamed(self, body, specifiers, of, alignment):
        """A structure or a union without a tag and without a declarator: its members are those of the whole."""
        tagged = [part for _, part in specifiers.parts if part.kind in TAGGED]
        if not tagged or tagged[0].name or of is None or not of.is_aggregate():
            return
        member = Member(b"", of, None, alignment)
        for name, way in of.aggregate.members.items():
            self.enter(body, name, way[-1].token)
        body.put(member)

    def enter(self, body, name, token):
        """A name joins those of a body."""
        if name in body.ways:
            self.found.refuses(34, token, name)
            self.found.is_unclear = True
        body.ways.setdefault(name, token)

    def member(self, body, member, width, lengthless):
        """A member joins a body."""
        of, token = member.type, member.token
        if member.name:
            self.enter(body, member.name, token)
        if width is not None:
            member = self.bit_field(member, width)
        if of is not None and of.form == "array" and of.length is None:
            lengthless.append((token, member))
        elif of is not None and not types.is_complete_object(of) and (member.name or width is None):
            self.found.refuses(10, token)
            member = member._replace(type=None)
        self.found.is_unclear |= member.type is None
        body.put(member)

    def bit_field(self, member, width):
        """A member with its width; one whose width is bad has no type."""
        of, token, fact = member.type, member.token, self.expressions.value(width.parts[0][1], False)
        is_bad = False
        if of is not None and of.form != "integer":
            is_bad = True
        if fact is not None:
            number = fact.constant.number if fact.type.form == "integer" and fact.constant is not None else None
            is_bad = is_bad or number is None or number < 0 or number == 0 and member.name != b""
            is_bad = is_bad or of is not None and number > KINDS[of.kind].bits
            if fact.is_void():
                self.found.refuses(9, width.parts[0][1].at)
        if is_bad:
            self.found.refuses(29, token)
        if of is not None and of.is_restricted():
            self.found.refuses(30, token)
            is_bad = True
        if is_bad or fact is None or of is None:
            return member._replace(type=None)
        if number == 1 and KINDS[of.kind].is_signed:
            self.found.fails("S7", token)
        return member._replace(width=number)

    # Enums

    def enumeration(self, node):
        """The type of an enum, or None; its enumerators are declared."""
        found, number = [], -1
        for _, part in node.parts:
            if part.kind == "Enumerator":
                each = self.enumerator(part, number, node)
                self.declared[part.at] = each
                self.hides(part.at, part.name, False)
                number = None if each.constant is None else each.constant.number
                found.append((part.at, each))
        if any(each.constant is None for _, each in found):
            self.declared |= {token: Declared(None, None, False) for token, _ in found}
            return None
        return self.joined(node, found)

    def enumerator(self, node, before, enum):
        """What an enumerator declares, behind one with a number."""
        values = [part for _, part in node.parts if part.kind != "AttributeList"]
        if values:
            return self.valued(node, values[0])
        if before is None:
            return Declared(None, None, False)
        kind = next((kind for kind in ENUM_KINDS if holds(kind, before + 1)), None)
        if kind is None:
            self.found.refuses(33, enum.at)
            return Declared(None, None, False)
        return Declared(types.integer(kind), None, False, Constant(kind, before + 1))

    def valued(self, node, part):
        """What an enumerator with an expression declares."""
        fact = self.expressions.value(part, False)
        if fact is None:
            return Declared(None, None, False)
        if fact.is_void():
            self.found.refuses(9, part.at)
        if fact.type.form != "integer" or fact.constant is None:
            self.found.refuses(32, node.at)
            return Declared(None, None, False)
        number = wrapped(fact.constant.number, fact.type.kind)
        of = INT if not fact.type.is_restricted() and holds("Int", number) else fact.type
        return Declared(of, None, False, Constant(of.kind, number))

    def joined(self, node, found):
        """The type of an enum with these enumerators, which get it where it is restricted."""
        first = next((each.type for _, each in found if each.type.is_restricted()), None)
        zero = lambda each: not each.type.is_restricted() and each.constant.number == 0
        others = [each.type for _, each in found if first and each.type.identity != first.identity and not zero(each)]
        if first and not others:
            for token, each in found:
                self.declared[token] = Declared(first, None, False, Constant(first.kind, each.constant.number))
            return first
        if others:
            self.found.fails("B2", node.at, first, others[0])
        numbers = [each.constant.number for _, each in found]
        kind = next((kind for kind in ENUM_KINDS if all(holds(kind, number) for number in numbers)), None)
        return types.integer(kind) if kind else self.found.refuses(33, node.at)

    # Declarators

    def derived(self, of, node, identity):
        """The type that a declarator makes of one, or None."""
        for _, part in node.parts:
            if part.kind == "PointerDeclarator":
                of = of and self.with_attributes(with_qualifiers(types.pointer(of), part), lists_of(part), identity)
            elif part.kind == "ArrayDeclarator":
                of = self.array(of, part)
            elif part.kind == "FunctionDeclarator":
                of = self.function(of, part)
            else:
                of = self.with_attributes(of, [each for _, each in part.parts], identity)
        return of

    def length(self, node):
        """The length in the brackets, and whether there is a bad one."""
        for _, size in node.parts:
            fact = self.expressions.value(size, False)
            if fact is None:
                return None, True
            if fact.is_void():
                self.found.refuses(9, size.at)
            if fact.type.form != "integer" or fact.constant is None:
                self.found.refuses(25, size.at)
                return None, True
            if fact.constant.number < 0:
                self.found.refuses(26, size.at)
                return None, True
            return fact.constant.number, False
        return None, False

    def array(self, element, node):
        length, is_bad = self.length(node)
        if element is None:
            return None
        if not types.is_complete_object(element):
            return self.found.refuses(27, node.at)
        if is_bad:
            return None
        of = types.array(element, length)
        if length is not None and types.size(of) > MOST_BYTES:
            self.found.limits.append(node.at)
        return of

    def function(self, result, node):
        if not node.parts:
            self.found.fails("S6", node.at)
        parameters = [part for _, part in node.parts if part.kind == "Parameter"]
        self.scopes.append(Scope(is_prototype=True))
        declared = [self.parameter(each) for each in parameters]
        found = [of and types.parameter_of(of) for of in declared]
        self.scopes.pop()
        self.parameters[node.at] = list(zip(parameters, found))
        is_nothing = len(node.parts) == 1 and declared == [types.VOID] and is_bare(parameters[0])
        found = [] if is_nothing else found
        for each, of in zip(parameters, found):
            if of is not None and of.form == "void":
                self.found.refuses(10, parameter_token(each))
        if result is not None and result.form in ("array", "function"):
            return self.found.refuses(28, node.at)
        if result is None or any(of is None or of.form == "void" for of in found):
            return None
        return types.function(result, tuple(found), len(parameters) < len(node.parts))

    def parameter(self, node):
        """The type of a parameter as it is written, whose name is declared."""
        (_, specifiers), *parts = node.parts
        of, name = self.specified(specifiers, node.at), None
        for _, part in parts:
            if part.kind == "Declarator":
                of, name = self.derived(of, part, node.at), part
        of = self.with_attributes(of, lists_of(node), node.at)
        if name is not None and name.name:
            self.found.names.setdefault(node.at, name.name)
            self.declared[name.at] = Declared(of and self.parameter_object(of), None, has(specifiers, "RegisterSpecifier"))
        return of

    def parameter_object(self, declared):
        """The type of the object that a parameter is."""
        return types.parameter_of(declared)

    def named_type(self, node):
        """The type that a type name names, or None."""
        of = self.specified(node.parts[0][1], node.at)
        for _, declarator in node.parts[1:]:
            of = self.derived(of, declarator, node.at)
        return of

    def is_forced(self, node):
        """Whether a type name has `force` among its specifiers, behind a star or behind its declarator."""
        holders = [part for _, declarator in node.parts[1:] for _, part in declarator.parts]
        lists = [all_lists(node.parts[0][1]), *(lists_of(holder) for holder in holders if holder.kind != "FunctionDeclarator")]
        return any(attributes(each).force for each in lists)

    # Declarations

    def assertion(self, node):
        """A static assertion."""
        part, text = (part for _, part in node.parts)
        fact = self.expressions.value(part, False)
        self.expressions.fact(text, False)
        if fact is not None and (fact.type.form != "integer" or fact.constant is None or fact.constant.number == 0):
            self.found.refuses(37, node.at)

    def declaration(self, node, is_evaluated=True):
        (_, specifiers), *parts = node.parts
        base = self.specified(specifiers, node.at)
        leading = ()
        while parts:
            (_, part), *parts = parts
            if part.kind == "LeadingAttributes":
                leading = [each for _, each in part.parts]
                continue
            lists = [*leading]
            while parts and parts[0][1].kind == "AttributeList":
                lists.append(parts.pop(0)[1])
            of = self.with_attributes(self.derived(base, part, node.at), lists, node.at)
            carried = carries(specifiers, part, lists)
            if parts and parts[0][1].kind == "Initializer":
                initializer = parts.pop(0)[1].parts[0][1]
                self.declare_initialized(node, specifiers, part, of, carried, initializer, is_evaluated)
            else:
                self.declare(node, specifiers, part, of, carried)
            leading = ()

    def declare(self, node, specifiers, declarator, of, carried, is_definition=False):
        """A declarator declares its name."""
        is_file, is_extern = self.is_at_file_scope(), has(specifiers, "ExternSpecifier")
        if has(specifiers, "TypedefSpecifier"):
            self.declare_typedef(node, declarator, of)
            return
        is_object = of is not None and of.form != "function"
        if is_file and not is_extern and is_object:
            self.tentative.append((declarator.at, of))
        is_linked = self.is_linked(specifiers, of)
        if not is_linked and of is not None and not types.is_complete_object(of):
            of = self.found.refuses(10, declarator.at)
        self.declare_object(node, specifiers, declarator, of, is_definition or is_file and not is_extern and is_object)
        if is_linked and of is not None:
            self.link(declarator, of, carried)

    def declare_typedef(self, node, declarator, of):
        self.found.names.setdefault(node.at, declarator.name)
        self.declared[declarator.at] = Declared(of and self.typedef(declarator, of), None, False)
        self.hides(declarator.at, declarator.name, False)

    def declare_object(self, node, specifiers, declarator, of, is_definition):
        """A declarator declares the name of an object or a function, of which the linkage isn't noted yet."""
        name, token, is_linked = declarator.name, declarator.at, self.is_linked(specifiers, of)
        self.found.names.setdefault(node.at, name)
        if is_definition and not has(specifiers, "StaticSpecifier") and name not in self.linked:
            self.found.fails("S1", token, word=name)
        is_static = is_linked or has(specifiers, "StaticSpecifier")
        self.declared[token] = Declared(of, name if is_linked else None, has(specifiers, "RegisterSpecifier"), is_static=is_static)
        self.hides(token, name, is_linked)

    def is_linked(self, specifiers, of):
        """Whether a declarator's name has linkage (C11 6.2.2)."""
        is_function = of is not None and of.form == "function"
        return self.is_at_file_scope() or has(specifiers, "ExternSpecifier") or is_function

    def declare_initialized(self, node, specifiers, declarator, of, carried, initializer, is_evaluated):
        """A declarator with an initializer declares its name; names in the initializer see what is declared, and those behind it the
        completed type."""
        if has(specifiers, "TypedefSpecifier"):
            self.declare_typedef(node, declarator, of)
            self.judges(initializer, is_evaluated)
            self.found.refuses(38, initializer.at)
            return
        is_file, is_linked = self.is_at_file_scope(), self.is_linked(specifiers, of)
        if of is not None and not can_be_initialized(of):
            of = self.found.refuses(10, declarator.at)
        self.declare_object(node, specifiers, declarator, of, is_file)
        earlier = self.linked.setdefault(declarator.name, []) if is_linked else []
        number, is_open = len(earlier), of is not None and not types.is_complete(of)
        if is_linked and of is not None:
            if not is_open:
                self.is_told_again(declarator, of, carried)
            earlier.append(Linked(of, of, carried))
        values = self.judges(initializer, is_evaluated)
        if is_linked and not is_file:
            self.found.refuses(38, initializer.at)
        elif of is not None:
            of = self.completed(declarator, of, initializer, values, is_file or has(specifiers, "StaticSpecifier"))
            self.declared[declarator.at] = self.declared[declarator.at]._replace(type=of)
        if is_linked and of is not None:
            self.define(declarator)
            if is_open:
                self.is_told_again(declarator, of, carried)
            earlier[number] = earlier[number]._replace(told=of)
            earlier.append(Linked(of, of, Carried(None, False)))

    def completed(self, declarator, of, initializer, values, is_static):
        """The type of an object behind its initializer."""
        completed = self.initializes(of, initializer, values, is_static, self.found.refuses)
        self.found.is_unclear |= completed is None and not types.is_complete(of)
        return completed or of

    def define(self, declarator):
        """A function gets its body, or an object its initializer."""
        if declarator.name in self.defined:
            self.found.refuses(36, declarator.at, declarator.name)
        self.defined.add(declarator.name)

    def compound_literal(self, node, is_evaluated):
        """What is known of a compound literal, which is static where no scope but the file's is around it."""
        named, braced = (part for _, part in node.parts)
        is_static, of = self.is_at_file_scope(), self.named_type(named)
        values = self.judges(braced, is_evaluated)
        if is_static:
            self.static_literals.add(node.at)
        if of is None:
            return None
        if not can_be_initialized(of):
            return self.found.breaks(10, node.at)
        completed = self.initializes(of, braced, values, is_static, self.found.breaks)
        return completed and Fact(completed, is_place=True)

    def is_static(self, node):
        """Whether an object or a function that is named, or a compound literal, lasts from the start to the end."""
        return node.at in self.static_literals if node.kind == "CompoundLiteral" else self.declared[node.number].is_static

    def hides(self, token, name, is_linked):
        """Rule S2: a name of a block hides one of an outer scope."""
        if self.is_at_file_scope() or self.scopes[-1].is_prototype or token not in self.hidden:
            return
        other = self.declared.get(self.hidden[token])
        if not (is_linked and other is not None and other.linked is not None):
            self.found.fails("S2", token, word=name)

    def typedef(self, declarator, of):
        """The type of a typedef, or None where the first of its name in the scope has another one."""
        if self.scopes[-1].typedefs.setdefault(declarator.name, of) is of:
            return of
        return self.found.refuses(41, declarator.at, declarator.name)

    def link(self, declarator, of, carried):
        """A name with linkage is declared, perhaps again."""
        self.is_told_again(declarator, of, carried)
        self.linked.setdefault(declarator.name, []).append(Linked(of, of, carried))

    def is_told_again(self, declarator, of, carried):
        """Rule A7: the first earlier declaration that differs is told with the length that its initializer says, once that is known."""
        earlier = self.linked.get(declarator.name, [])
        other = next((each for each in earlier if not types.agree(each.type, of) or differ(each.carried.sums, carried.sums)), None)
        if other is not None:
            self.found.fails("A7", declarator.at, other.told, of, word=declarator.name)

    def carried(self, name):
        """What the declarations of a name with linkage carry, wherever they stand: the contexts of the first that has some."""
        each = [one.carried for one in self.linked[name]]
        return Carried(next((its.sums for its in each if its.sums is not None), None), any(its.noreturn for its in each))

    def type_of_linked(self, name):
        """The type of the first declaration so far that is known, with a length that a later one has."""
        first, *later = [one.type for one in self.linked[name]]
        if first.form != "array" or first.length is not None:
            return first
        lengths = [each.length for each in later if each.form == "array" and types.agree(first, each)]
        return types.array(first.inner, next((length for length in lengths if length is not None), None))

    def named(self, node):
        """What is known of the name of an object, a function or an enumerator."""
        declared = self.declared[node.number]
        if declared.type is None:
            return None
        if declared.constant is not None:
            return Fact(declared.type, constant=declared.constant)
        of = declared.type if declared.linked is None else self.type_of_linked(declared.linked)
        return Fact(of, is_place=True, register=declared.register)

    def end(self):
        """The unit ends: its objects are complete."""
        for token, of in self.tentative:
            if of.form == "void" or of.is_aggregate() and not types.is_complete(of):
                self.found.refuses(10, token)

    # Definitions

    def defined_function(self, node):
        """The function before a body: its result, or None."""
        (_, specifiers), (_, declarator), *parts = node.parts
        lists = [part for _, part in parts if part.kind == "AttributeList"]
        of = self.with_attributes(self.derived(self.specified(specifiers, node.at), declarator, node.at), lists, node.at)
        self.declare(node, specifiers, declarator, of, carries(specifiers, declarator, lists), True)
        self.define(declarator)
        if of is not None and of.inner.is_aggregate() and not types.is_complete(of.inner):
            self.found.refuses(10, declarator.at)
            self.found.is_unclear = True
        own = [part for _, part in declarator.parts if part.kind == "FunctionDeclarator"][-1]
        for each, parameter in self.parameters[own.at]:
            if parameter is not None and parameter.is_aggregate() and not types.is_complete(parameter):
                self.found.refuses(10, parameter_token(each))
                self.found.is_unclear = True
        return of and of.inner, own

    def declares_parameters(self, own):
        """The parameters of a body hide names."""
        for each, _ in self.parameters[own.at]:
            for _, part in each.parts:
                if part.kind == "Declarator" and part.name:
                    self.hides(part.at, part.name, False)


def own_lists(specifiers, declarator, lists):
    """The lists that say something of the declared function or object itself."""
    inside = [each for _, part in declarator.parts if part.kind == "ParenthesizedAttributes" for _, each in part.parts]
    return [*all_lists(specifiers), *inside, *lists]


def carries(specifiers, declarator, lists):
    """What a declarator carries: neither what stands behind a star nor what is said of a typedef's type is among it."""
    own = own_lists(specifiers, declarator, lists)
    noreturn = has(specifiers, "NoreturnSpecifier") or any(has(each, "NoreturnAttribute") for each in own)
    return Carried(contexts(own), noreturn)


def differ(sums, others):
    """Whether both carry contexts, with other sums."""
    return None not in (sums, others) and sums != others


def is_bare(parameter):
    """It is nothing but specifiers, and no register's."""
    return len(parameter.parts) == 1 and not has(parameter.parts[0][1], "RegisterSpecifier")


def parameter_token(node):
    """Where a parameter stands: at its name, or at its first token."""
    return next((part.at for _, part in node.parts if part.kind == "Declarator" and part.name), node.at)
