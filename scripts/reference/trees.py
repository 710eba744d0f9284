"""The tree of a unit that `reading` doesn't refuse, read by descent from C11 6.5 to 6.9 and from what `NodeKind` says of each node;
and its lines, as the program `trees` prints them."""
import re
from typing import NamedTuple

from . import reading
from .attributes import ALIGNMENT_UNSAID, change_shown, pieces, word_of
from .commands import line
from .conditions import INTEGER, literal
from .literals import ELEMENT
from .macros import Passed
from .preprocessing import NoSuchFile, Refusal, Unit
from .scanning import Place, is_identifier, meant

E, C, T, U = "evaluated", "condition", "type", "unevaluated"

STORAGE = {
    "typedef": "TypedefSpecifier", "extern": "ExternSpecifier", "static": "StaticSpecifier", "auto": "AutoSpecifier",
    "register": "RegisterSpecifier", "inline": "InlineSpecifier", "_Noreturn": "NoreturnSpecifier",
}
QUALIFIERS = {"const": "ConstQualifier", "volatile": "VolatileQualifier", "restrict": "RestrictQualifier"}
TYPE_WORDS = {
    "void": "VoidSpecifier", "char": "CharSpecifier", "short": "ShortSpecifier", "int": "IntSpecifier", "long": "LongSpecifier",
    "signed": "SignedSpecifier", "unsigned": "UnsignedSpecifier", "_Bool": "BoolSpecifier",
}
TAGGED = {"struct": "StructSpecifier", "union": "UnionSpecifier", "enum": "EnumSpecifier"}
TYPE_KEYWORDS = {*STORAGE, *QUALIFIERS, *TYPE_WORDS, *TAGGED, "typeof"}

# The operators between two operands, those that bind weakest first (6.5.5 to 6.5.14)
BINARY = (
    {"||": "LogicalOr"}, {"&&": "LogicalAnd"}, {"|": "BitwiseOr"}, {"^": "BitwiseExclusiveOr"}, {"&": "BitwiseAnd"},
    {"==": "Equal", "!=": "NotEqual"}, {"<": "Less", ">": "Greater", "<=": "LessOrEqual", ">=": "GreaterOrEqual"},
    {"<<": "LeftShift", ">>": "RightShift"}, {"+": "Addition", "-": "Subtraction"},
    {"*": "Multiplication", "/": "Division", "%": "Remainder"},
)
ASSIGNMENTS = {
    "=": "Assignment", "*=": "MultiplicationAssignment", "/=": "DivisionAssignment", "%=": "RemainderAssignment",
    "+=": "AdditionAssignment", "-=": "SubtractionAssignment", "<<=": "LeftShiftAssignment", ">>=": "RightShiftAssignment",
    "&=": "BitwiseAndAssignment", "^=": "BitwiseExclusiveOrAssignment", "|=": "BitwiseOrAssignment",
}
BEFORE_CASTS = {
    "&": "Address", "*": "Indirection", "+": "UnaryPlus", "-": "Negation", "~": "Complement", "!": "LogicalNot",
}
FLAGS = {
    b"noderef": "NoderefAttribute", b"bitwise": "BitwiseAttribute", b"force": "ForceAttribute", b"packed": "PackedAttribute",
    b"noreturn": "NoreturnAttribute",
}

# The kinds that an integer constant may have, by the letters of its suffix, with the bits of each; those that are unsigned are for
# a decimal constant with a `u` alone (6.4.4.1 p5).
KINDS = {
    0: (("Int", 31), ("UInt", 32), ("Long", 63), ("ULong", 64), ("LLong", 63), ("ULLong", 64)),
    1: (("Long", 63), ("ULong", 64), ("LLong", 63), ("ULLong", 64)),
    2: (("LLong", 63), ("ULLong", 64)),
}


class Node(NamedTuple):
    """A node: its kind, the index of its token, its name, its number or the place to which that leads, and its parts with their roles."""

    kind: str
    at: int
    name: bytes = b""
    number: int | Place | None = None
    parts: tuple = ()


class Declared(NamedTuple):
    """A declarator: its node, the index of its name, and the scope of the parameter list directly behind the name."""

    node: Node
    name: int | None
    own: dict | None


def integer_kind(spelled):
    """The kind of an integer constant."""
    number = literal(spelled).number % (1 << 64)
    *_, suffix = INTEGER.fullmatch(spelled).groups()
    is_unsigned, longs = "u" in suffix.decode().lower(), suffix.lower().count(b"l")
    is_decimal = re.match(rb"[1-9]", spelled)
    for kind, bits in KINDS[longs]:
        is_allowed = kind.startswith("U") if is_unsigned else not (is_decimal and kind.startswith("U"))
        if is_allowed and number < 1 << bits:
            return kind
    raise AssertionError(spelled)


def evaluated(*nodes):
    return tuple((E, node) for node in nodes)


def of_type(*nodes):
    return tuple((T, node) for node in nodes)


def with_part(node, place, part):
    """A node with another part at a place, in the same role."""
    parts = list(node.parts)
    parts[place] = (parts[place][0], part)
    return node._replace(parts=tuple(parts))


class Builder:
    """Builds the nodes of tokens that are known to be a unit."""

    def __init__(self, tokens):
        self.first = tokens[0].place if tokens else Place(1, 1, 1)
        self.tokens = [token for token in tokens if token.spelled != b"__extension__"]
        self.at = 0
        # What each name is bound to: a typedef or not, and the index of its declaration; tags, with the keyword that first names them
        self.scopes = [{}]

    # Tokens

    def word(self, ahead=0):
        """The next token as the grammar has it; empty at the end."""
        if self.at + ahead >= len(self.tokens):
            return ""
        spelled = meant(self.tokens[self.at + ahead])
        return reading.ALIASES.get(spelled, spelled.decode("latin-1"))

    def is_name(self, ahead=0):
        if self.at + ahead >= len(self.tokens):
            return False
        token = self.tokens[self.at + ahead]
        return is_identifier(token) and self.word(ahead).encode("latin-1") not in reading.KEYWORDS

    def take(self, *wanted):
        """Passes a token, one of these where some are given, and gives its index."""
        assert not wanted or self.word() in wanted, (self.tokens[self.at], wanted)
        self.at += 1
        return self.at - 1

    def passes(self, wanted):
        """Passes the token where it is this one."""
        if self.word() != wanted:
            return False
        self.at += 1
        return True

    def spelled(self, at):
        return self.tokens[at].spelled

    def place(self, at):
        return self.tokens[at].place

    # Scopes

    def found(self, space, name):
        return next((scope[space, name] for scope in reversed(self.scopes) if (space, name) in scope), None)

    def bind(self, at, is_typedef):
        """Binds a name in the innermost scope, and gives the place of what it hides in an outer one, if it hides something."""
        name = ("name", self.spelled(at))
        hidden = None if name in self.scopes[-1] else self.found(*name)
        self.scopes[-1][name] = (is_typedef, at)
        return hidden and self.place(hidden[1])

    def starts_type(self, ahead=0):
        """Whether a type's specifiers begin here, attributes aside."""
        if self.is_name(ahead):
            found = self.found("name", self.spelled(self.at + ahead))
            return found is not None and found[0]
        return self.word(ahead) in TYPE_KEYWORDS

    def starts_specifiers(self, ahead=0):
        return self.starts_type(ahead) or self.word(ahead) == "__attribute__"

    # Declarations

    def unit(self):
        found = []
        while self.at < len(self.tokens):
            found.append(self.external())
        return Node("TranslationUnit", 0, parts=evaluated(*found))

    def external(self):
        if self.word() == ";":
            return Node("EmptyDeclaration", self.take())
        if self.word() == "_Static_assert":
            return self.assertion()
        first, specifiers = self.at, self.specifiers()
        if self.word() == ";":
            return self.declaration(first, specifiers)
        declared = self.declare(specifiers)
        lists = self.attribute_lists()
        if self.word() == "{":
            named = self.hiding_own_name(declared.node)
            body = self.body(declared.own)
            return Node("FunctionDefinition", first, parts=of_type(specifiers, named, *lists) + evaluated(body))
        return self.declaration(first, specifiers, declared, lists)

    def declaration(self, first, specifiers, declared=None, lists=()):
        """A declaration behind its specifiers, and behind its first declarator and attributes where these were read."""
        if declared is None and self.word() == ";":
            specifiers = self.alone(specifiers)
        parts = []
        while self.word() != ";" or declared:
            if declared is None:
                leading_at, leading = self.at, self.attribute_lists() if parts else ()
                if leading:
                    parts += of_type(Node("LeadingAttributes", leading_at, parts=of_type(*leading)))
                declared = self.declare(specifiers)
                lists = self.attribute_lists()
            parts += evaluated(declared.node) + of_type(*lists)
            if self.word() == "=":
                parts += evaluated(Node("Initializer", self.take(), parts=evaluated(self.initializer())))
            declared = None
            self.passes(",")
        self.take(";")
        return Node("Declaration", first, parts=(*of_type(specifiers), *parts))

    def alone(self, specifiers):
        """Specifiers that are all of a declaration: a lone tag that is new in its scope is bound there."""
        if len(specifiers.parts) != 1:
            return specifiers
        only = specifiers.parts[0][1]
        is_tag = only.kind in ("StructSpecifier", "UnionSpecifier") and only.name
        has_body = any(part.kind == "MemberList" for _, part in only.parts)
        if not is_tag or has_body or ("tag", only.name) in self.scopes[-1]:
            return specifiers
        self.scopes[-1]["tag", only.name] = only.at
        return specifiers._replace(parts=of_type(only._replace(number=self.place(only.at))))

    def declare(self, specifiers):
        """A declarator, whose name is bound at its end."""
        declared = self.declarator()
        hidden = self.bind(declared.name, any(part.kind == "TypedefSpecifier" for _, part in specifiers.parts))
        return declared._replace(node=declared.node._replace(number=hidden))

    def hiding_own_name(self, node):
        """A function's declarator in front of its body, where a parameter of the function's name leads to it."""
        place = max((place for place, (_, part) in enumerate(node.parts) if part.kind != "ParenthesizedAttributes"), default=None)
        if place is None or node.parts[place][1].kind != "FunctionDeclarator":
            return node
        own = node.parts[place][1]
        for number, (_, parameter) in enumerate(own.parts):
            for behind, (_, part) in enumerate(parameter.parts):
                if part.kind == "Declarator" and part.name == node.name:
                    leading = part._replace(number=self.place(self.found("name", node.name)[1]))
                    return with_part(node, place, with_part(own, number, with_part(parameter, behind, leading)))
        return node

    def assertion(self):
        at = self.take()
        self.take("(")
        condition = self.conditional()
        self.take(",")
        text = self.strings()
        self.take(")")
        self.take(";")
        return Node("StaticAssertion", at, parts=((U, condition), (U, text)))

    # Specifiers

    def specifiers(self):
        first, parts, has_type = self.at, [], False
        while True:
            word = self.word()
            if word in STORAGE or word in QUALIFIERS or word in TYPE_WORDS:
                parts.append(Node({**STORAGE, **QUALIFIERS, **TYPE_WORDS}[word], self.take()))
                has_type = has_type or word in TYPE_WORDS
            elif word == "__attribute__":
                parts.append(self.attribute_list())
            elif not has_type and self.starts_type():
                parts.append(self.whole_type(word))
                has_type = True
            else:
                return Node("Specifiers", first, parts=of_type(*parts))

    def whole_type(self, word):
        """A specifier that is a type by itself."""
        if word in TAGGED:
            return self.tagged(word)
        if word == "typeof":
            return self.typeof()
        at = self.take()
        return Node("TypedefName", at, self.spelled(at), self.place(self.found("name", self.spelled(at))[1]))

    def tagged(self, word):
        at = self.take()
        parts = list(self.attribute_lists())
        name = self.spelled(self.take()) if self.is_name() else b""
        number = self.tag(name, at, self.word() == "{")
        if self.word() == "{":
            parts += self.enumerators() if word == "enum" else [self.members()]
        return Node(TAGGED[word], at, name, self.place(number), of_type(*parts))

    def tag(self, name, at, has_body):
        """The keyword that first names a tag in its scope, which is the innermost one where it has a body."""
        if not name:
            return at
        found = self.scopes[-1].get(("tag", name)) if has_body else self.found("tag", name)
        if found is None:
            found = self.scopes[-1]["tag", name] = at
        return found

    def typeof(self):
        at = self.take()
        self.take("(")
        if self.starts_specifiers():
            node = Node("TypeofType", at, parts=of_type(self.type_name()))
        else:
            node = Node("TypeofExpression", at, parts=((U, self.expression()),))
        self.take(")")
        return node

    def type_name(self):
        first, specifiers = self.at, self.specifiers()
        declared = self.declarator()
        return Node("TypeName", first, parts=of_type(specifiers) + (of_type(declared.node) if declared.node.parts else ()))

    def members(self):
        at, found = self.take("{"), []
        while self.word() != "}":
            found.append(self.member())
        self.take("}")
        return Node("MemberList", at, parts=of_type(*found))

    def member(self):
        if self.word() == ";":
            return Node("EmptyDeclaration", self.take())
        if self.word() == "_Static_assert":
            return self.assertion()
        first, specifiers = self.at, self.specifiers()
        parts = [*of_type(specifiers)]
        while self.word() != ";":
            # (a bit-field without a name has a declarator with nothing)
            parts += of_type(Node("Declarator", self.at) if self.word() == ":" else self.declarator().node)
            if self.word() == ":":
                parts.append((U, Node("BitFieldWidth", self.take(), parts=((U, self.conditional()),))))
            parts += of_type(*self.attribute_lists())
            self.passes(",")
        self.take(";")
        return Node("MemberDeclaration", first, parts=tuple(parts))

    def enumerators(self):
        self.take("{")
        while self.word() != "}":
            at = self.take()
            parts = of_type(*self.attribute_lists())
            if self.passes("="):
                parts += ((U, self.conditional()),)
            yield Node("Enumerator", at, self.spelled(at), self.bind(at, False), parts)
            self.passes(",")
        self.take("}")

    # Declarators

    def declarator(self):
        """A declarator, which may have no name where the grammar allows that."""
        first = self.at
        parts, name, own = self.derived()
        node = Node("Declarator", first if name is None else name, b"" if name is None else self.spelled(name), None, of_type(*parts))
        return Declared(node, name, own)

    def derived(self):
        """The parts of a declarator from the specified type outwards, the index of its name, and its own parameters."""
        pointers, inner, name, own = [], [], None, None
        while self.word() == "*":
            at, behind = self.take(), []
            while self.word() in QUALIFIERS or self.word() == "__attribute__":
                is_list = self.word() == "__attribute__"
                behind.append(self.attribute_list() if is_list else Node(QUALIFIERS[self.word()], self.take()))
            pointers.append(Node("PointerDeclarator", at, parts=of_type(*behind)))
        if self.is_name():
            name = self.take()
        elif self.word() == "(" and not (self.word(1) == ")" or self.starts_type(1)):
            at, lists = self.take(), self.attribute_lists()
            inner, name, own = self.derived()
            self.take(")")
            if lists:
                inner = [Node("ParenthesizedAttributes", at, parts=of_type(*lists)), *inner]
        suffixes, scope = self.suffixes()
        # what stands next to the name is its own: parentheses with nothing but a name make no difference
        is_next = all(part.kind == "ParenthesizedAttributes" for part in inner)
        return [*pointers, *reversed(suffixes), *inner], name, scope if is_next else own

    def suffixes(self):
        """The brackets and parameter lists behind a declarator, and the scope of a list that comes first."""
        found, own = [], None
        while self.word() in ("[", "("):
            if self.word() == "[":
                at = self.take()
                size = () if self.word() == "]" else ((U, self.assignment()),)
                self.take("]")
                found.append(Node("ArrayDeclarator", at, parts=size))
            else:
                self.scopes.append({})
                found.append(self.parameters())
                scope = self.scopes.pop()
                own = scope if len(found) == 1 else own
        return found, own

    def parameters(self):
        at, found = self.take("("), []
        while self.word() != ")":
            if self.word() == "...":
                found.append(Node("Ellipsis", self.take()))
            else:
                found.append(self.parameter())
            self.passes(",")
        self.take(")")
        return Node("FunctionDeclarator", at, parts=of_type(*found))

    def parameter(self):
        first, specifiers = self.at, self.specifiers()
        declared = self.declarator()
        hidden = None if declared.name is None else self.bind(declared.name, False)
        is_said = declared.name is not None or declared.node.parts
        said = [declared.node._replace(number=hidden)] if is_said else []
        return Node("Parameter", first, parts=of_type(specifiers, *said, *self.attribute_lists()))

    # Attributes

    def attribute_lists(self):
        found = []
        while self.word() == "__attribute__":
            found.append(self.attribute_list())
        return tuple(found)

    def balanced(self):
        """The tokens up to the parenthesis that closes the one that was just taken, each with its index."""
        found, depth = [], 0
        while depth or self.word() != ")":
            depth += (self.word() == "(") - (self.word() == ")")
            found.append((self.at, self.tokens[self.at]))
            self.take()
        return found

    def attribute_list(self):
        at = self.take("__attribute__")
        self.take("(")
        self.take("(")
        items = pieces(self.balanced())
        self.take(")")
        self.take(")")
        words = of_type(*filter(None, map(self.attribute, filter(None, items))))
        return Node("AttributeList", at, number=self.place(self.at), parts=words)

    def attribute(self, item):
        """The node of an item, or None where it means nothing."""
        (at, token), arguments = item[0], item[2:-1]
        word = word_of(token.spelled)
        if word in FLAGS:
            return Node(FLAGS[word], at)
        if word == b"aligned":
            return Node("AlignedAttribute", at, number=literal(arguments[0][1].spelled).number if arguments else ALIGNMENT_UNSAID)
        if word == b"address_space":
            only = arguments[0][1]
            if is_identifier(only):
                return Node("AddressSpaceAttribute", at, only.spelled)
            return Node("AddressSpaceAttribute", at, number=literal(only.spelled).number)
        if word == b"context":
            return Node("ContextAttribute", at, parts=of_type(*(self.integer(piece[0][0]) for piece in pieces(arguments)[-2:])))
        return None

    # Initializers

    def initializer(self):
        return self.braced() if self.word() == "{" else self.assignment()

    def braced(self):
        at, found = self.take("{"), []
        while self.word() != "}":
            first, designators = self.at, self.designators()
            if designators:
                self.take("=")
            parts = tuple((U, designator) for designator in designators) + evaluated(self.initializer())
            found.append(Node("InitializerItem", first, parts=parts))
            self.passes(",")
        self.take("}")
        return Node("BracedInitializer", at, parts=evaluated(*found))

    def designators(self, index=None):
        """Designators one behind the other; the index between brackets is read so, or as a constant expression."""
        found = []
        while self.word() in (".", "["):
            at = self.take()
            if self.spelled(at) == b".":
                found.append(Node("MemberDesignator", at, self.spelled(self.take())))
            else:
                found.append(Node("IndexDesignator", at, parts=((U, (index or self.conditional)()),)))
                self.take("]")
        return found

    # Statements

    def body(self, own=None):
        """A compound statement, whose scope begins with a function's own parameters."""
        at, found = self.take("{"), []
        self.scopes.append(dict(own or {}))
        while self.word() != "}":
            found.append(self.block_item())
        self.scopes.pop()
        return Node("CompoundStatement", at, number=self.place(self.take("}")), parts=evaluated(*found))

    def block_item(self):
        if self.is_name() and self.word(1) == ":":
            return self.statement()
        if self.word() == "_Static_assert":
            return self.assertion()
        if self.starts_specifiers():
            first = self.at
            return self.declaration(first, self.specifiers())
        return self.statement()

    def statement(self):
        if self.is_name() and self.word(1) == ":":
            at = self.take()
            self.take(":")
            return Node("LabelStatement", at, self.spelled(at), parts=evaluated(self.statement()))
        read = {
            "{": self.body, "case": self.case, "default": self.default, "if": self.if_statement, "switch": self.switch,
            "while": self.while_statement, "do": self.do_statement, "for": self.for_statement, "goto": self.goto,
            "continue": self.jump, "break": self.jump, "return": self.return_statement, "__context__": self.context,
            "__attribute__": self.attributes_alone,
        }
        return read.get(self.word(), self.expression_statement)()

    def case(self):
        at, label = self.take(), self.conditional()
        self.take(":")
        return Node("CaseStatement", at, parts=((U, label), *evaluated(self.statement())))

    def default(self):
        at = self.take()
        self.take(":")
        return Node("DefaultStatement", at, parts=evaluated(self.statement()))

    def in_parentheses(self):
        self.take("(")
        found = self.expression()
        self.take(")")
        return found

    def if_statement(self):
        at, condition = self.take(), self.in_parentheses()
        parts = ((C, condition), *evaluated(self.statement()))
        if self.passes("else"):
            parts += evaluated(self.statement())
        return Node("IfStatement", at, parts=parts)

    def switch(self):
        at, value = self.take(), self.in_parentheses()
        return Node("SwitchStatement", at, parts=((C, value), *evaluated(self.statement())))

    def while_statement(self):
        at, condition = self.take(), self.in_parentheses()
        return Node("WhileStatement", at, parts=((C, condition), *evaluated(self.statement())))

    def do_statement(self):
        at, statement = self.take(), self.statement()
        number, condition = self.place(self.take("while")), self.in_parentheses()
        self.take(";")
        return Node("DoStatement", at, number=number, parts=(*evaluated(statement), (C, condition)))

    def for_statement(self):
        at = self.take()
        self.scopes.append({})
        self.take("(")
        if self.starts_specifiers():
            first = self.at
            begin = self.declaration(first, self.specifiers())
        else:
            begin = self.optional(";")
            self.take(";")
        condition = self.optional(";")
        self.take(";")
        step = self.optional(")")
        self.take(")")
        statement = self.statement()
        self.scopes.pop()
        return Node("ForStatement", at, parts=((E, begin), (C, condition), (E, step), (E, statement)))

    def optional(self, behind):
        return Node("OmittedExpression", self.at) if self.word() == behind else self.expression()

    def goto(self):
        at = self.take()
        name = self.spelled(self.take())
        self.take(";")
        return Node("GotoStatement", at, name)

    def jump(self):
        kind = {"continue": "ContinueStatement", "break": "BreakStatement"}[self.word()]
        at = self.take()
        self.take(";")
        return Node(kind, at)

    def return_statement(self):
        at = self.take()
        parts = () if self.word() == ";" else evaluated(self.expression())
        self.take(";")
        return Node("ReturnStatement", at, parts=parts)

    def context(self):
        at = self.take()
        self.take("(")
        change = int(change_shown([token for _, token in self.balanced()]))
        self.take(")")
        self.take(";")
        return Node("ContextStatement", at, number=change % (1 << 64))

    def attributes_alone(self):
        at, lists = self.at, self.attribute_lists()
        self.take(";")
        return Node("AttributeStatement", at, parts=of_type(*lists))

    def expression_statement(self):
        at = self.at
        parts = () if self.word() == ";" else evaluated(self.expression())
        self.take(";")
        return Node("ExpressionStatement", at, parts=parts)

    # Expressions

    def expression(self):
        left = self.assignment()
        while self.word() == ",":
            at = self.take()
            left = Node("Comma", at, parts=evaluated(left, self.assignment()))
        return left

    def assignment(self):
        left = self.conditional()
        if self.word() not in ASSIGNMENTS:
            return left
        kind = ASSIGNMENTS[self.word()]
        at = self.take()
        return Node(kind, at, parts=evaluated(left, self.assignment()))

    def conditional(self):
        left = self.binary(0)
        if self.word() != "?":
            return left
        at = self.take()
        middle = () if self.word() == ":" else evaluated(self.expression())
        self.take(":")
        return Node("Conditional", at, parts=((C, left), *middle, *evaluated(self.conditional())))

    def binary(self, level):
        if level == len(BINARY):
            return self.cast()
        left = self.binary(level + 1)
        while self.word() in BINARY[level]:
            kind = BINARY[level][self.word()]
            role = C if kind.startswith("Logical") else E
            at = self.take()
            left = Node(kind, at, parts=((role, left), (role, self.binary(level + 1))))
        return left

    def cast(self):
        if self.word() != "(" or not self.starts_specifiers(1):
            return self.unary()
        at, named = self.take(), self.type_name()
        self.take(")")
        if self.word() == "{":
            return self.postfix(Node("CompoundLiteral", at, parts=of_type(named) + evaluated(self.braced())))
        return Node("Cast", at, parts=of_type(named) + evaluated(self.cast()))

    def unary(self):
        word = self.word()
        if word in BEFORE_CASTS:
            at = self.take()
            return Node(BEFORE_CASTS[word], at, parts=((C if word == "!" else E, self.cast()),))
        if word in ("++", "--"):
            at = self.take()
            return Node("PreIncrement" if word == "++" else "PreDecrement", at, parts=evaluated(self.unary()))
        if word == "sizeof":
            return self.sizeof()
        if word == "_Alignof":
            at = self.take()
            self.take("(")
            node = Node("AlignofType", at, parts=of_type(self.type_name()))
            self.take(")")
            return node
        return self.postfix(self.primary())

    def sizeof(self):
        at = self.take()
        if self.word() != "(" or not self.starts_specifiers(1):
            return Node("SizeofExpression", at, parts=((U, self.unary()),))
        open_at, named = self.take(), self.type_name()
        self.take(")")
        if self.word() != "{":
            return Node("SizeofType", at, parts=of_type(named))
        made = Node("CompoundLiteral", open_at, parts=of_type(named) + evaluated(self.braced()))
        return Node("SizeofExpression", at, parts=((U, self.postfix(made)),))

    def postfix(self, node):
        while self.word() in ("[", "(", ".", "->", "++", "--"):
            word, at = self.word(), self.take()
            if word == "[":
                node = Node("Subscript", at, parts=evaluated(node, self.expression()))
                self.take("]")
            elif word == "(":
                node = Node("Call", at, parts=evaluated(node, *self.arguments()))
            elif word in (".", "->"):
                node = Node("Member" if word == "." else "PointerMember", at, self.spelled(self.take()), parts=evaluated(node))
            else:
                node = Node("PostIncrement" if word == "++" else "PostDecrement", at, parts=evaluated(node))
        return node

    def arguments(self):
        while self.word() != ")":
            yield self.assignment()
            self.passes(",")
        self.take(")")

    def primary(self):
        word, spelled = self.word(), self.spelled(self.at)
        if word == "(":
            return self.parenthesized()
        if word == "__builtin_expect":
            at = self.take()
            self.take("(")
            return Node("BuiltinExpect", at, parts=evaluated(*self.arguments()))
        if word == "__builtin_offsetof":
            return self.offsetof()
        if spelled.endswith(b'"'):
            return self.strings()
        if spelled.endswith(b"'"):
            return Node("CharacterConstant Int", self.take(), number=literal(spelled).number % (1 << 64))
        if not self.is_name():
            return self.integer(self.take())
        at = self.take()
        return Node("Name", at, spelled, self.place(self.found("name", spelled)[1]))

    def integer(self, at):
        spelled = self.spelled(at)
        return Node(f"IntegerConstant {integer_kind(spelled)}", at, number=literal(spelled).number % (1 << 64))

    def parenthesized(self):
        at = self.take()
        if self.word() == "{":
            node = Node("StatementExpression", at, parts=evaluated(self.body()))
        else:
            node = Node("Parenthesized", at, parts=evaluated(self.expression()))
        self.take(")")
        return node

    def offsetof(self):
        at = self.take()
        self.take("(")
        named = self.type_name()
        self.take(",")
        name = self.spelled(self.take())
        behind = self.designators(self.expression)
        self.take(")")
        return Node("BuiltinOffsetof", at, name, parts=of_type(named) + tuple((U, part) for part in behind))

    def strings(self):
        first, found, length = self.at, [], 1
        while self.word().endswith('"'):
            at = self.take()
            length += len(ELEMENT.findall(self.spelled(at)[1:-1]))
            found.append(Node("StringPiece", at, self.spelled(at)))
        return Node("StringLiteral", first, number=length, parts=evaluated(*found))


def lines(builder, node, role=None, depth=0):
    """The lines of a node and of its parts."""
    place = builder.place(node.at) if depth else builder.first
    begin = "  " * depth + (f"{role} " if role else "") + f"{node.kind} {place.line}:{place.column}"
    name = b" " + node.name if node.name else b""
    number = b""
    if isinstance(node.number, Place):
        number = b" -> %d:%d" % (node.number.line, node.number.column)
    elif node.number is not None:
        number = b" = %d" % node.number
    yield begin.encode() + name + number + b"\n"
    for part_role, part in node.parts:
        yield from lines(builder, part, part_role, depth + 1)


def answer(words, files):
    """What `trees` writes to standard output and to standard error for these words, and its status."""
    if len(words) != 1:
        return b"", b"usage: trees FILE\n", 3
    unit = Unit(files)
    try:
        unit.preprocess(words[0])
        refused = reading.refusal(unit.tokens)
    except Refusal as refusal:
        return b"", line(unit.paths, *refusal.args), 2
    except NoSuchFile as missing:
        return b"", b"ksparse: error[1]: no such file: %b\n" % missing.args[0], 2
    except Passed as passed:
        return b"", b"ksparse: limit: %b\n" % passed.args[0], 7
    if refused is not None:
        at, text = refused
        return b"", line(unit.paths, unit.tokens[at].place, text.encode("latin-1")), 2
    builder = Builder(unit.tokens)
    return b"".join(lines(builder, builder.unit())), b"", 0
