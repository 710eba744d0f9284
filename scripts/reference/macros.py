"""Definitions of macros, and what a list of tokens becomes (C11 6.10.3, with a set of hidden names on each token)."""
import sys
from typing import NamedTuple

from .scanning import Token, is_identifier, is_one_token, meant

# Arguments are expanded within each other, so far down as a list is long.
sys.setrecursionlimit(10_000_000)

MOST_REPLACEMENTS = 4_000_000
MOST_MADE = 16_000_000
CHANGING = (b"__FILE__", b"__LINE__", b"__COUNTER__")


class BadDefinition(Exception):
    """A line that defines no macro."""


class Fault(Exception):
    """What is wrong about an expansion: the text of the error, and its place."""


class Passed(Exception):
    """A limit is passed: its name."""


class Budget:
    """What is left of the replacements and the made tokens of a unit, and the next `__COUNTER__`."""

    def __init__(self, replacements=MOST_REPLACEMENTS, tokens=MOST_MADE, counter=0):
        self.replacements, self.tokens, self.counter = replacements, tokens, counter

    def replace(self):
        if self.replacements == 0:
            raise Passed(b"macro replacements")
        self.replacements -= 1


class Macro(NamedTuple):
    """A definition (6.10.3 p9 to p12)."""

    # None for an object-like macro. The variable one is the last; it is named `__VA_ARGS__` where it is written `...`.
    parameters: tuple | None
    variadic: bool
    body: tuple
    chains: tuple

    def agrees(self, other):
        """They may stand for one name (6.10.3 p1 and p2)."""
        return self.parameters == other.parameters and self.variadic == other.variadic and looks(self.body) == looks(other.body)


class Operand(NamedTuple):
    """A part of a body between two `##`: its first token there, what it is, and its parameter's number."""

    token: Token
    # `token`, `argument`, `string` for `#` with its parameter, `rest` for `, ## V`, or `nothing`
    what: str
    parameter: int = 0
    # The white space before V in `, ## V`
    space: bool = False


def looks(body):
    """What has to be the same in two bodies."""
    return [(token.spelled, token.space and number > 0) for number, token in enumerate(body)]


def read_parameters(tokens):
    """The parameters behind a parenthesis, whether the last one is variable, and the tokens behind them."""
    if tokens and tokens[0].spelled == b")":
        return (), False, tokens[1:]
    parameters, at = [], 0
    while True:
        spelled = [token.spelled for token in tokens[at : at + 3]]
        if spelled[:2] == [b"...", b")"]:
            return (*parameters, b"__VA_ARGS__"), True, tokens[at + 2 :]
        if not spelled or not is_identifier(tokens[at]) or spelled[0] in (b"__VA_ARGS__", *parameters):
            raise BadDefinition
        parameters.append(spelled[0])
        if spelled[1:] == [b"...", b")"]:
            return tuple(parameters), True, tokens[at + 3 :]
        if spelled[1:2] == [b")"]:
            return tuple(parameters), False, tokens[at + 2 :]
        if spelled[1:2] != [b","]:
            raise BadDefinition
        at += 2


def read_macro(tokens):
    """The macro whose name is the first one of these tokens of a line."""
    if tokens[0].spelled in (b"defined", b"__VA_ARGS__"):
        raise BadDefinition
    if len(tokens) > 1 and tokens[1].spelled == b"(" and not tokens[1].space:
        parameters, variadic, body = read_parameters(tokens[2:])
    else:
        parameters, variadic, body = None, False, tokens[1:]
    if body and b"##" in (meant(body[0]), meant(body[-1])):
        raise BadDefinition
    if b"__VA_ARGS__" not in (parameters or ()) and any(token.spelled == b"__VA_ARGS__" for token in body):
        raise BadDefinition
    return Macro(parameters, variadic, tuple(body), tuple(BodyReader(parameters, variadic, body).chains()))


class BodyReader:
    """Reads a body as operands and the `##` between them."""

    def __init__(self, parameters, variadic, body):
        self.numbers = {name: number for number, name in enumerate(parameters or ())}
        self.is_function_like = parameters is not None
        self.rest = len(self.numbers) - 1 if variadic else None
        self.body = body

    def parameter(self, at):
        """The number of the parameter that stands here, or None."""
        return self.numbers.get(self.body[at].spelled) if at < len(self.body) else None

    def chains(self):
        """The operands of each list that `##` joins."""
        found, at, joined = [], 0, False
        while at < len(self.body):
            if meant(self.body[at]) == b"##":
                if joined:
                    found[-1].append(Operand(self.body[at], "nothing"))
                joined, at = True, at + 1
                continue
            operand, at = self.operand(at)
            if joined:
                found[-1].append(operand)
            else:
                found.append([operand])
            joined = False
        return found

    def operand(self, at):
        """The operand that begins here, and where it ends."""
        token = self.body[at]
        if self.is_function_like and meant(token) == b"#":
            if self.parameter(at + 1) is None:
                raise BadDefinition
            return Operand(token, "string", self.parameter(at + 1)), at + 2
        if token.spelled == b"," and self.begins_rest(at):
            return Operand(token, "rest", self.rest, self.body[at + 2].space), at + 3
        if self.parameter(at) is not None:
            return Operand(token, "argument", self.parameter(at)), at + 1
        return Operand(token, "token"), at + 1

    def begins_rest(self, at):
        """Behind this comma `##` and the variable parameter stand."""
        behind = self.parameter(at + 2)
        return behind is not None and behind == self.rest and meant(self.body[at + 1]) == b"##"


class View:
    """A part of a list of tokens that is still to be read. What its parentheses match is found once for the whole list."""

    def __init__(self, tokens, at=0, end=None, closers=None):
        self.tokens, self.at = tokens, at
        self.end = len(tokens) if end is None else end
        self.closers = {} if closers is None else closers
        # White space before something empty goes to the next token.
        self.space = False

    def closer(self):
        """Where the parenthesis that opens here is closed, or None."""
        if not self.closers:
            open_ones = []
            for at, token in enumerate(self.tokens):
                if token.spelled == b"(":
                    open_ones.append(at)
                elif token.spelled == b")" and open_ones:
                    self.closers[open_ones.pop()] = at
        return self.closers.get(self.at)

    def arguments(self, closer):
        """The parts between the commas, up to that place, of a call whose parenthesis opens here."""
        parts, first, at = [], self.at + 1, self.at + 1
        while at < closer:
            if self.tokens[at].spelled == b",":
                parts.append(View(self.tokens, first, at, self.closers))
                first = at + 1
            at = self.closers[at] + 1 if self.tokens[at].spelled == b"(" else at + 1
        return [*parts, View(self.tokens, first, closer, self.closers)]

    def all(self):
        return self.tokens[self.at : self.end]

    def again(self):
        """The same part, to be read from its beginning."""
        return View(self.tokens, self.at, self.end, self.closers)


class Rest:
    """What is left of a list that is expanded: bodies, the latest first, and the list itself behind them."""

    def __init__(self, view):
        self.views = [view]

    def settle(self):
        """Drops what is read; true where a token is left."""
        while self.views and self.views[-1].at == self.views[-1].end:
            self.views.pop()
        return bool(self.views)

    def peek(self):
        """The next token's spelling, or None."""
        return self.views[-1].tokens[self.views[-1].at].spelled if self.settle() else None

    def pop(self):
        """Takes the next token; one has to be left."""
        view = self.views[-1]
        token = view.tokens[view.at]
        view.at += 1
        if view.space:
            token, view.space = token._replace(space=True), False
        return token

    def push(self, tokens, space):
        """Puts tokens before the rest, and white space behind them."""
        if space and self.settle():
            self.views[-1].space = True
        if tokens:
            self.views.append(View(tokens))

    def take_call(self):
        """The arguments behind the parenthesis that comes next, and the one that closes it; None where none does."""
        view = self.views[-1]
        closer = view.closer()
        if closer is None:
            view = self.gathered()
            if view is None:
                return None
            closer = view.end - 1
            view.closer()
        arguments = view.arguments(closer)
        view.at, view.space = closer + 1, False
        return arguments, view.tokens[closer]

    def gathered(self):
        """The tokens of a call that is in no one list, or None."""
        tokens, depth = [], 0
        while self.settle():
            token = self.pop()
            tokens.append(token)
            depth += (token.spelled == b"(") - (token.spelled == b")")
            if depth == 0:
                return View(tokens)
        return None


class Macros:
    """The table of macros, and the names of files."""

    def __init__(self, budget):
        self.budget = budget
        self.substitution = Substitution
        self.table = {}
        self.bits = {name: 1 << number for number, name in enumerate(CHANGING)}
        self.files = {}

    def define(self, name, macro):
        """Keeps the definition; false where the name has another one."""
        if name in self.table:
            return self.table[name].agrees(macro)
        self.table[name] = macro
        self.bits.setdefault(name, 1 << len(self.bits))
        return True

    def undefine(self, name):
        self.table.pop(name, None)

    def is_defined(self, name):
        return name in self.table or name in CHANGING

    def expand(self, tokens, put):
        """Appends what the tokens become; what is put before a fault stands there too."""
        self.expand_view(View(tokens), put, None)

    def expand_view(self, view, put, outermost):
        """The same within the call of the macro name that stands at `outermost`, if any."""
        rest = Rest(view)
        while rest.settle():
            token = rest.pop()
            bit = self.bits.get(token.spelled)
            if bit is None or token.hidden & bit:
                put.append(token)
            elif token.spelled in self.table:
                self.use(self.table[token.spelled], token, rest, put, outermost)
            elif token.spelled in CHANGING:
                self.budget.replace()
                put.append(token._replace(spelled=self.value(token)))
            else:
                put.append(token)

    def value(self, token):
        """What a name that changes is at its place."""
        if token.spelled == b"__FILE__":
            return b'"%b"' % self.files[token.place.file].replace(b"\\", b"\\\\").replace(b'"', b'\\"')
        if token.spelled == b"__LINE__":
            return b"%d" % token.place.line
        self.budget.counter += 1
        return b"%d" % (self.budget.counter - 1)

    def use(self, macro, name, rest, put, outermost):
        """Does what comes of the name of a macro that isn't hidden."""
        place = outermost or name.place
        if macro.parameters is None:
            arguments, hidden = [], name.hidden
        elif rest.peek() == b"(":
            call = rest.take_call()
            if call is None:
                raise Fault(b"error[13]: unterminated macro call", place)
            arguments, hidden = call[0], name.hidden & call[1].hidden
            arguments = matched(macro, arguments)
            if arguments is None:
                raise Fault(b"error[12]: wrong number of macro arguments", place)
        else:
            put.append(name)
            return
        self.budget.replace()
        call = self.substitution(macro, name, hidden | self.bits[name.spelled], arguments, place)
        call.expand_arguments(self)
        rest.push(*call.substitute(self.budget))


def matched(macro, arguments):
    """The arguments for each parameter, or None where their number is wrong."""
    wanted = len(macro.parameters)
    if wanted == 0:
        return [] if len(arguments) == 1 and arguments[0].at == arguments[0].end else None
    if macro.variadic and len(arguments) >= wanted:
        rest = arguments[wanted - 1]
        return [*arguments[: wanted - 1], View(rest.tokens, rest.at, arguments[-1].end, rest.closers)]
    if macro.variadic and len(arguments) == wanted - 1:
        return [*arguments, View([])]
    return arguments if len(arguments) == wanted else None


class Substitution:
    """A macro's body with a call's arguments in place of its parameters (6.10.3.1 to 6.10.3.3)."""

    def __init__(self, macro, name, hidden, arguments, outermost):
        self.macro, self.name, self.hidden, self.outermost = macro, name, hidden, outermost
        self.plain = arguments
        self.expanded = [None] * len(arguments)

    def expand_arguments(self, macros):
        """Expands those that stand apart from `#` and `##`, in the order of the parameters."""
        apart = {chain[0].parameter for chain in self.macro.chains if len(chain) == 1 and chain[0].what == "argument"}
        for number in sorted(apart):
            self.expanded[number] = []
            macros.expand_view(self.plain[number].again(), self.expanded[number], self.outermost)

    def substitute(self, budget):
        """The body's tokens, and whether white space stands behind the last one; counts them."""
        made, space = [], self.name.space
        for number, chain in enumerate(self.macro.chains):
            space = space or (number > 0 and chain[0].token.space)
            for index, token in enumerate(self.joined(chain, budget.tokens - len(made))):
                before = space if index == 0 else token.space
                made.append(Token(token.spelled, self.name.place, before, False, token.hidden | self.hidden))
                space = False
            if len(made) > budget.tokens:
                raise Passed(b"macro tokens")
        budget.tokens -= len(made)
        return made, space

    def joined(self, chain, tokens_left):
        """The tokens of a chain, joined from the left."""
        if len(chain) == 1 and chain[0].what == "argument":
            return self.expanded[chain[0].parameter]
        tokens = []
        for operand in chain:
            behind = self.operand(operand)
            if tokens and behind:
                spelled = tokens[-1].spelled + behind[0].spelled
                if len(tokens) - 1 > tokens_left:
                    raise Passed(b"macro tokens")
                if not is_one_token(spelled):
                    raise Fault(b"error[14]: bad paste", self.outermost)
                tokens[-1] = Token(spelled, self.name.place, tokens[-1].space, False)
                tokens += behind[1:]
            else:
                tokens = tokens + behind
        return tokens

    def operand(self, operand):
        """The tokens of an operand of `##`, or of a chain of its own."""
        if operand.what == "token":
            return [operand.token]
        if operand.what == "nothing":
            return []
        argument = self.plain[operand.parameter].all()
        if operand.what == "string":
            return [Token(string_of(argument), self.name.place, False, False)]
        if operand.what == "rest" and argument:
            return [operand.token, argument[0]._replace(space=operand.space), *argument[1:]]
        return argument if operand.what == "argument" else []


def string_of(argument):
    """The string literal that `#` makes of an argument (6.10.3.2 p2)."""
    text = bytearray()
    for number, token in enumerate(argument):
        if token.space and number > 0:
            text += b" "
        is_literal = token.spelled[-1:] in (b'"', b"'")
        text += token.spelled.replace(b"\\", b"\\\\").replace(b'"', b'\\"') if is_literal else token.spelled
    return b'"%b"' % text

