"""What the judge says of a unit, from the rules alone: the types of its nodes, the rules that fail, the least broken constraint."""
from . import contexts, pairs, reading, trees, types
from .commands import BadWord, Command, line
from .declarations import Declarations, NotBuilt, Scope
from .expressions import Expressions
from .macros import Passed
from .pairs import Fact
from .preprocessing import NoSuchFile, Refusal, Unit, text_of
from .statements import Around, Inside, Labels, Loop, Switch
from .texts import Found

CLEAN, WARNED, REFUSED, USAGE, LIMIT = 0, 1, 2, 3, 7


class Indexed(trees.Builder):
    """Builds trees in which a node leads to the index of another's token, and notes which names hide others."""

    def __init__(self, tokens):
        super().__init__(tokens)
        # By the token of a declaration that of the one of an outer scope which it hides
        self.hidden = {}

    def place(self, at):
        return at

    def hide(self, name, at, scopes):
        outer = next((scope["name", name] for scope in reversed(scopes) if ("name", name) in scope), None)
        if outer is not None:
            self.hidden[at] = outer[1]

    def bind(self, at, is_typedef):
        # a name that stands again in its scope hides nothing more
        if ("name", self.spelled(at)) not in self.scopes[-1]:
            self.hide(self.spelled(at), at, self.scopes[:-1])
        super().bind(at, is_typedef)

    def body(self, own=None):
        # the function's own name may be hidden by a parameter
        for (space, name), found in (own or {}).items():
            if space == "name":
                self.hide(name, found[1], self.scopes)
        return super().body(own)


class Judge(Declarations):
    """Goes over a unit once, from its first token to its last one."""

    rows = Expressions
    notes = Found

    def __init__(self, hidden=None):
        found = self.notes()
        self.start(found, self.rows(found, self), hidden or {})
        self.around = Around(found)
        self.result = None
        self.is_in_function = False
        self.statements = {
            "Declaration": self.declared_in_body, "CompoundStatement": self.body, "ReturnStatement": self.returned,
            "IfStatement": self.chosen, "SwitchStatement": self.switch, "WhileStatement": self.loop, "DoStatement": self.do,
            "ForStatement": self.for_loop, "LabelStatement": self.label, "CaseStatement": self.case,
            "DefaultStatement": self.default, "GotoStatement": self.goto, "BreakStatement": self.leaves,
            "ContinueStatement": self.leaves, "StaticAssertion": lambda node, _: self.assertion(node),
        }

    def not_built(self, node):
        return NotBuilt(node.kind)

    def unit(self, root):
        for _, part in root.parts:
            if part.kind == "FunctionDefinition":
                self.definition(part)
            else:
                self.item(part, True)
        self.end()
        return self.found

    # Statements

    def definition(self, node):
        self.result, own = self.defined_function(node)
        self.is_in_function, self.around.labels = True, Labels()
        self.scopes.append(Scope())
        self.declares_parameters(own)
        self.items(node.parts[-1][1], True)
        self.scopes.pop()
        self.around.leave_labels()
        self.is_in_function = False

    def body(self, node, is_evaluated):
        """A body, and what is known of its last value, as a statement expression has it."""
        self.scopes.append(Scope())
        last = self.items(node, is_evaluated)
        self.scopes.pop()
        return last

    def items(self, node, is_evaluated):
        last = Fact(types.VOID)
        for _, part in node.parts:
            value = self.item(part, is_evaluated)
            is_value = part.kind == "ExpressionStatement" and part.parts
            last = value if is_value else Fact(types.VOID)
        return last and Fact(last.type, fouled=last.fouled)

    def statement_expression(self, node, is_evaluated):
        """The value of the body of a statement expression; outside of every function it holds its labels."""
        is_outermost = self.around.labels is None
        if is_outermost:
            self.around.labels = Labels()
        self.around.stack.append(Inside())
        last = self.body(node, is_evaluated)
        self.around.stack.pop()
        if is_outermost:
            self.around.leave_labels()
        return last

    def item(self, node, is_evaluated):
        """A declaration or a statement; the value of an expression statement."""
        if node.kind == "ExpressionStatement":
            return self.expressions.value(node.parts[0][1], is_evaluated) if node.parts else None
        if node.kind in self.statements:
            self.statements[node.kind](node, is_evaluated)
        elif node.kind not in ("EmptyDeclaration", "AttributeStatement", "ContextStatement"):
            raise NotBuilt(node.kind)
        return None

    def declared_in_body(self, node, is_evaluated):
        self.declaration(node, is_evaluated)

    def within(self, around, node, is_evaluated):
        """A statement within a loop or a switch."""
        self.around.stack.append(around)
        self.item(node, is_evaluated)
        self.around.stack.pop()

    def condition(self, node, token, is_evaluated):
        """A condition, which is tested at a token."""
        value = self.expressions.value(node, is_evaluated)
        if value is None:
            return
        if value.is_void():
            self.found.refuses(9, node.at)
        elif value.type.is_aggregate():
            self.found.refuses(13, node.at)
        else:
            self.expressions.tests(token, (value,))

    def chosen(self, node, is_evaluated):
        (_, condition), *parts = node.parts
        self.condition(condition, node.at, is_evaluated)
        for _, part in parts:
            self.item(part, is_evaluated)

    def loop(self, node, is_evaluated):
        (_, condition), (_, part) = node.parts
        self.condition(condition, node.at, is_evaluated)
        self.within(Loop(), part, is_evaluated)

    def do(self, node, is_evaluated):
        (_, part), (_, condition) = node.parts
        if part.kind != "CompoundStatement":
            self.found.fails("S5", node.at)
        self.within(Loop(), part, is_evaluated)
        self.condition(condition, node.at, is_evaluated)

    def for_loop(self, node, is_evaluated):
        begin, condition, step, part = (part for _, part in node.parts)
        self.scopes.append(Scope())
        if begin.kind == "Declaration":
            self.declaration(begin, is_evaluated)
        elif begin.kind != "OmittedExpression":
            self.expressions.value(begin, is_evaluated)
        if condition.kind != "OmittedExpression":
            self.condition(condition, node.at, is_evaluated)
        if step.kind != "OmittedExpression":
            self.expressions.value(step, is_evaluated)
        self.within(Loop(), part, is_evaluated)
        self.scopes.pop()

    def switch(self, node, is_evaluated):
        (_, condition), (_, part) = node.parts
        value = self.expressions.value(condition, is_evaluated)
        if value is not None and value.is_void():
            self.found.refuses(9, condition.at)
        elif value is not None and value.type.form != "integer":
            self.found.refuses(14, condition.at)
        elif value is not None:
            self.expressions.tests(node.at, (value,))
        self.within(Switch(value), part, is_evaluated)

    def case(self, node, is_evaluated):
        (_, label), (_, part) = node.parts
        value = self.expressions.value(label, False)
        switch = self.around.switch(node.at)
        if value is not None and value.is_void():
            self.found.refuses(9, label.at)
        elif value is not None and (value.type.form != "integer" or value.constant is None):
            self.found.refuses(15, label.at)
        elif value is not None:
            self.labelled(node.at, label.at, value, switch)
        self.item(part, is_evaluated)

    def labelled(self, token, at, value, switch):
        """A constant label meets the value of its switch, and the labels before it."""
        self.expressions.tests(token, (value,))
        if switch is None or switch.value is None:
            return
        self.expressions.meeting(token, value, switch.value, "B6")
        number = switch.number(value.constant)
        if number in switch.numbers:
            self.found.refuses(16, at)
        switch.numbers.add(number)

    def default(self, node, is_evaluated):
        switch = self.around.switch(node.at)
        if switch is not None and switch.has_default:
            self.found.refuses(17, node.at)
        if switch is not None:
            switch.has_default = True
        self.item(node.parts[0][1], is_evaluated)

    def label(self, node, is_evaluated):
        self.around.label(node.at, node.name)
        self.item(node.parts[0][1], is_evaluated)

    def goto(self, node, is_evaluated):
        self.around.goto(node.at, node.name)

    def leaves(self, node, is_evaluated):
        self.around.jump(node.at, (Loop,) if node.kind == "ContinueStatement" else (Loop, Switch))

    def returned(self, node, is_evaluated):
        value = self.expressions.value(node.parts[0][1], is_evaluated) if node.parts else None
        if not self.is_in_function or self.result is None:
            return
        if not node.parts:
            if self.result.form != "void":
                self.found.refuses(24, node.at)
        elif value is None:
            return
        elif self.result.form == "void":
            if value.is_void():
                self.found.fails("S4", node.at)
            else:
                self.found.refuses(23, node.at)
        elif value.is_void():
            self.found.refuses(9, node.parts[0][1].at)
        elif pairs.are_unlike(value.type, self.result):
            self.found.refuses(11, node.at)
        else:
            self.expressions.converts(value, self.result, node.at, b"return")


def parse_refusal(unit):
    """The status and the line with which parsing refuses a preprocessed unit, or None."""
    try:
        refused = reading.refusal(unit.tokens)
    except Passed as passed:
        return LIMIT, b"ksparse: limit: %b\n" % passed.args[0]
    if refused is None:
        return None
    at, text = refused
    return REFUSED, line(unit.paths, unit.tokens[at].place, text.encode("latin-1"))


def judged(unit, classes):
    """The status of what the judge says of a preprocessed unit, and its lines."""
    refused = parse_refusal(unit)
    if refused is not None:
        return refused
    builder = Indexed(unit.tokens)
    root = builder.unit()
    judge = Judge(builder.hidden)
    found = judge.unit(root)
    refusal = found.refusal()
    if refusal is not None:
        at, text = refusal
        if at is None:
            return LIMIT, b"ksparse: limit: %b\n" % text
        return REFUSED, line(unit.paths, builder.tokens[at].place, text)
    contexts.unit_fails(judge, root)
    undefined = [(place, b"warning: undefined preprocessor identifier '%b'" % name) for place, name in unit.undefined]
    shown = undefined * (b"undef" in classes) + list(found.lines(builder.tokens, classes))
    return WARNED if shown else CLEAN, b"".join(line(unit.paths, *each) for each in shown)


def preprocessing_refusal(unit, path):
    """Preprocesses a unit; the status and the line with which that refuses it, or None."""
    try:
        unit.preprocess(path)
    except Refusal as refusal:
        return REFUSED, line(unit.paths, *refusal.args)
    except NoSuchFile as missing:
        return REFUSED, b"ksparse: error[1]: no such file: %b\n" % missing.args[0]
    except Passed as passed:
        return LIMIT, b"ksparse: limit: %b\n" % passed.args[0]
    return None


def answer(words, files):
    """What a command writes to standard output and to standard error, and its status. `files` has their bytes by path. Raises
    `NotBuilt` where this reader says nothing of the unit."""
    try:
        command = Command(words)
    except BadWord as bad:
        return b"", b"ksparse: bad word: %b\n" % bad.args[0], USAGE
    if command.file is None:
        return b"", b"ksparse: missing file\n", USAGE
    unit = Unit(files, command.directories, command.lines)
    refused = preprocessing_refusal(unit, command.file)
    if refused is None and command.expands:
        return text_of(unit.tokens), b"", CLEAN
    status, err = refused or judged(unit, command.classes)
    return b"", err, status
