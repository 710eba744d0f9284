"""Contexts: how control goes through a function's tree, what comes to each of its places so, and the rule on contexts that fails.

A place gets all that comes to it, whichever way; what is kept of each place around which control turns grows until one more turn over
the tree adds nothing. Neither blocks nor a graph are made.
"""
from typing import NamedTuple

from . import types
from .constants import wrapped

NOTHING = frozenset()
EVALUATED = ("evaluated", "condition")
LASTS_ELSEWHERE = {"StaticSpecifier", "ExternSpecifier", "TypedefSpecifier"}
LABELS = ("CaseStatement", "DefaultStatement")


class Loop:
    """A loop: what leaves its body by `break`, and by `continue`."""

    def __init__(self):
        self.breaks = self.continues = NOTHING


class Switch:
    """A switch: what comes to it, the tokens of the labels to which it goes, and what leaves its body by `break`."""

    def __init__(self, comes, labels):
        self.comes = comes
        self.labels = labels
        self.breaks = NOTHING


class Step(NamedTuple):
    """A step: a point (with a flag where it is the second one at its token), a change, a call with contexts or an end."""

    kind: str
    at: int
    said: str = ""


class Control:
    """Follows control through a function. A child says what its steps make of what comes, and how what comes two ways is joined."""

    def __init__(self, judge, function):
        self.judge = judge
        self.body = function.parts[-1][1]
        # By the name of each label the token of the statement expression that it is in, or of the body
        self.regions = regions(self.body)
        # What came so far to each label that is jumped to, and to each loop
        self.kept = {}
        self.has_grown = True
        # Loops and switches around; bodies around, with the operands that are passed behind an outcome around them
        self.around = []
        self.bodies = []
        self.behind = ()
        self.statements = {
            "CompoundStatement": self.items, "IfStatement": self.chosen, "SwitchStatement": self.switch,
            "WhileStatement": self.while_loop, "DoStatement": self.do_loop, "ForStatement": self.for_loop,
            "LabelStatement": self.labelled, "CaseStatement": self.labelled, "DefaultStatement": self.labelled,
            "GotoStatement": self.goto, "BreakStatement": self.breaks, "ContinueStatement": self.continues,
            "ReturnStatement": self.returns, "ContextStatement": self.context,
        }
        self.expressions = {
            "Call": self.call, "StatementExpression": self.statement_expression, "Conditional": self.conditional,
            "LogicalAnd": self.logical, "LogicalOr": self.logical, "LogicalNot": self.logical_not, "Comma": self.comma,
            "Parenthesized": self.parenthesized, "BuiltinExpect": self.expect,
        }

    def follow(self, comes):
        """Follows all paths, which begin with what comes."""
        while self.has_grown:
            self.has_grown = False
            self.bodies = [(self.body.at, ())]
            self.end(self.point(self.items(self.body, comes), self.body.number), self.body.number)

    def keeps(self, key, comes):
        """What came to a place so far, and comes now."""
        before = self.kept.get(key, NOTHING)
        self.kept[key] = self.joined(before, comes)
        self.has_grown |= self.kept[key] != before
        return self.kept[key]

    # Statements: what comes behind each

    def items(self, node, comes):
        for _, part in node.parts:
            comes = self.item(part, comes)
        return comes

    def item(self, node, comes):
        """A declaration, an assertion or a statement; the first two are no points."""
        if node.kind == "Declaration":
            return self.declaration(node, comes)
        return comes if node.kind == "StaticAssertion" else self.statement(node, comes)

    def declaration(self, node, comes):
        """The initializers of objects that are made whenever control comes there."""
        (_, specifiers), *parts = node.parts
        if any(part.kind in LASTS_ELSEWHERE for _, part in specifiers.parts):
            return comes
        for _, part in parts:
            if part.kind == "Initializer":
                comes = self.value(part.parts[0][1], comes)
        return comes

    def statement(self, node, comes):
        if node.kind == "LabelStatement":
            comes = self.joined(comes, self.kept.get(self.label(node.name), NOTHING))
        elif node.kind in LABELS:
            comes = self.joined(comes, self.comes_to_case(node))
        comes = self.point(comes, node.at)
        if node.kind in self.statements:
            return self.statements[node.kind](node, comes)
        # (an expression, or attributes)
        return self.values(node, comes)

    def labelled(self, node, comes):
        return self.statement(node.parts[-1][1], comes)

    def context(self, node, comes):
        change = node.number
        return self.change(comes, node.at, change - (1 << 64) if change >> 63 else change)

    def chosen(self, node, comes):
        (_, condition), *arms = node.parts
        either = self.outcomes(condition, comes)
        left = [self.statement(arm, way) for (_, arm), way in zip(arms, either)]
        return self.joined(left[0], left[1] if len(left) > 1 else either[1])

    def within(self, around, node, comes):
        """The body of a loop or a switch."""
        self.around.append(around)
        comes = self.statement(node, comes)
        self.around.pop()
        return comes

    def while_loop(self, node, comes):
        (_, condition), (_, part) = node.parts
        key, loop = ("loop", node.at, self.behind), Loop()
        true, false = self.outcomes(condition, self.point(self.keeps(key, comes), node.at, True))
        self.keeps(key, self.joined(self.within(loop, part, true), loop.continues))
        return self.joined(false, loop.breaks)

    def do_loop(self, node, comes):
        (_, part), (_, condition) = node.parts
        key, loop = ("loop", node.at, self.behind), Loop()
        ends = self.within(loop, part, self.keeps(key, comes))
        true, false = self.outcomes(condition, self.point(self.joined(ends, loop.continues), node.number, True))
        self.keeps(key, true)
        return self.joined(false, loop.breaks)

    def for_loop(self, node, comes):
        begin, condition, step, part = (part for _, part in node.parts)
        key, loop, false = ("loop", node.at, self.behind), Loop(), NOTHING
        comes = self.declaration(begin, comes) if begin.kind == "Declaration" else self.value(begin, comes)
        true = self.keeps(key, comes)
        if condition.kind != "OmittedExpression":
            true, false = self.outcomes(condition, self.point(true, node.at, True))
        ends = self.within(loop, part, true)
        self.keeps(key, self.value(step, self.joined(ends, loop.continues)))
        return self.joined(false, loop.breaks)

    def switch(self, node, comes):
        (_, value), (_, part) = node.parts
        comes = self.value(value, comes)
        own = labels_of(part)
        labels = self.labels_chosen(value, own)
        switch = Switch(comes, labels)
        ends = self.within(switch, part, NOTHING)
        # without a label for the value control goes past it
        is_past = not labels or not any(label.kind == "DefaultStatement" for label in own) and self.constant(value) is None
        return self.joined(self.joined(ends, switch.breaks), comes if is_past else NOTHING)

    def labels_chosen(self, value, own):
        """The tokens of those labels of a switch to which its value leads: the one of a constant alone, or else the default one."""
        constant = self.constant(value)
        if constant is None:
            return {label.at for label in own}
        kind = types.promoted(types.integer(constant.kind)).kind
        number = lambda node: wrapped(self.constant(node).number, kind)
        cases = {label.at for label in own if label.kind == "CaseStatement" and number(label.parts[0][1]) == number(value)}
        return cases or {label.at for label in own if label.kind == "DefaultStatement"}

    def comes_to_case(self, node):
        switch = next(each for each in reversed(self.around) if isinstance(each, Switch))
        return switch.comes if node.at in switch.labels else NOTHING

    def label(self, name):
        """The key of a label, which is in one of the bodies around."""
        region = self.regions[name]
        return name, next(behind for at, behind in reversed(self.bodies) if at == region)

    def goto(self, node, comes):
        self.keeps(self.label(node.name), comes)
        return NOTHING

    def breaks(self, node, comes):
        self.around[-1].breaks = self.joined(self.around[-1].breaks, comes)
        return NOTHING

    def continues(self, node, comes):
        loop = next(each for each in reversed(self.around) if isinstance(each, Loop))
        loop.continues = self.joined(loop.continues, comes)
        return NOTHING

    def returns(self, node, comes):
        self.end(self.point(self.values(node, comes), node.at, True), node.at)
        return NOTHING

    # Expressions: what leaves each as true, and what leaves it as false. Where nobody asks which, all leaves it as true.

    def values(self, node, comes):
        """The evaluated parts of a node from left to right, none of which is asked for its truth."""
        for role, part in node.parts:
            if role in EVALUATED:
                comes = self.value(part, comes)
        return comes

    def value(self, node, comes):
        return self.outcomes(node, comes, False)[0]

    def outcomes(self, node, comes, is_asked=True):
        if node.kind in self.expressions:
            true, false = self.expressions[node.kind](node, comes, is_asked)
        else:
            comes = self.values(node, comes)
            true, false = comes, comes if is_asked else NOTHING
        constant = self.constant(node) if is_asked else None
        if constant is None:
            return true, false
        both = self.joined(true, false)
        return (both, NOTHING) if constant.number else (NOTHING, both)

    def constant(self, node):
        fact = self.judge.expressions.known.get(node.at)
        return fact and fact.constant

    def both(self, one, other):
        return tuple(self.joined(*each) for each in zip(one, other))

    def parenthesized(self, node, comes, is_asked):
        return self.outcomes(node.parts[0][1], comes, is_asked)

    def comma(self, node, comes, is_asked):
        (_, left), (_, right) = node.parts
        return self.outcomes(right, self.value(left, comes), is_asked)

    def logical(self, node, comes, is_asked):
        (_, left), (_, right) = node.parts
        true, false = self.outcomes(left, comes)
        if node.kind == "LogicalAnd":
            decided, goes_on = (NOTHING, false) if is_asked else (false, NOTHING), true
        else:
            decided, goes_on = (true, NOTHING), false
        return self.both(decided, self.outcomes(right, goes_on, is_asked))

    def logical_not(self, node, comes, is_asked):
        true, false = self.outcomes(node.parts[0][1], comes, is_asked)
        return (false, true) if is_asked else (true, false)

    def conditional(self, node, comes, is_asked):
        (_, condition), *arms = node.parts
        true, false = self.outcomes(condition, comes)
        first = self.outcomes(arms[0][1], true, is_asked) if len(arms) > 1 else (true, NOTHING)
        return self.both(first, self.outcomes(arms[-1][1], false, is_asked))

    def expect(self, node, comes, is_asked):
        (_, decides), (_, other) = node.parts
        if not is_asked:
            return self.value(other, self.value(decides, comes)), NOTHING
        around, found = self.behind, []
        for outcome, way in enumerate(self.outcomes(decides, comes)):
            self.behind = (*around, (node.at, outcome))
            found.append(self.value(other, way))
        self.behind = around
        return tuple(found)

    def statement_expression(self, node, comes, is_asked):
        body = node.parts[0][1]
        *before, last = [part for _, part in body.parts] or [None]
        self.bodies.append((body.at, self.behind))
        for part in before:
            comes = self.item(part, comes)
        if last is not None and last.kind == "ExpressionStatement" and last.parts:
            found = self.outcomes(last.parts[0][1], self.point(comes, last.at), is_asked)
        else:
            found = comes if last is None else self.item(last, comes), NOTHING
        self.bodies.pop()
        return found

    def call(self, node, comes, is_asked):
        comes = self.values(node, comes)
        carried = self.called(node.parts[0][1])
        if carried is not None and carried.sums is not None:
            comes = self.calls(self.point(comes, node.at), node.at, carried.sums)
        if carried is not None and carried.noreturn:
            self.stop(comes)
            comes = NOTHING
        return comes, comes if is_asked else NOTHING

    def called(self, callee):
        """What the function carries that is called by its name, or None."""
        while callee.kind == "Parenthesized":
            callee = callee.parts[0][1]
        declared = self.judge.declared[callee.number] if callee.kind == "Name" else None
        if declared is None or declared.linked is None or declared.type.form != "function":
            return None
        return self.judge.carried(declared.linked)


class Counted(Control):
    """Control with counts: at most two different ones are kept, since steps move all alike."""

    def __init__(self, judge, function):
        super().__init__(judge, function)
        self.points = {}
        self.below = set()
        self.ends = {}

    def joined(self, one, other):
        return one if len(one) > 1 else other if len(other) > 1 else one | other

    def notes(self, found, at, comes):
        if comes:
            found[at] = self.joined(found.get(at, NOTHING), comes)

    def point(self, comes, at, is_second=False):
        self.notes(self.points, (at, is_second), comes)
        return comes

    def change(self, comes, at, change):
        comes = frozenset(count + change for count in comes)
        if any(count < 0 for count in comes):
            self.below.add(at)
        return comes

    def calls(self, comes, at, sums):
        enters, leaves = sums
        if any(count < enters for count in comes):
            self.below.add(at)
        return self.change(comes, at, leaves - enters)

    def end(self, comes, at):
        self.notes(self.ends, at, comes)

    def stop(self, comes):
        """A path goes no further."""

    def fails(self, leaves):
        """The rule that fails where the count at the end has to be this one: its code, its token and the count there, or None."""
        several = [at for (at, _), counts in self.points.items() if len(counts) > 1]
        wrong = [(at, count) for at, counts in self.ends.items() for count in counts if count != leaves]
        if several:
            return "C1", min(several), None
        if self.below:
            return "C2", min(self.below), None
        return ("C3", *min(wrong)) if wrong else None


class Listed(Control):
    """Control with the paths themselves, each as its steps. One of more steps than the most is left there."""

    def __init__(self, judge, function, most=100):
        super().__init__(judge, function)
        self.most = most
        self.paths = set()

    def joined(self, one, other):
        return one | other

    def behind_step(self, comes, step):
        is_long = {path for path in comes if len(path) >= self.most}
        self.paths |= is_long
        return frozenset((*path, step) for path in comes - is_long)

    def point(self, comes, at, is_second=False):
        return self.behind_step(comes, Step("M" if is_second else "P", at))

    def change(self, comes, at, change):
        return self.behind_step(comes, Step("A", at, f"{change:+}"))

    def calls(self, comes, at, sums):
        return self.behind_step(comes, Step("C", at, "({},{})".format(*sums)))

    def end(self, comes, at):
        self.paths |= self.behind_step(comes, Step("E", at))

    def stop(self, comes):
        self.paths |= comes


def regions(body):
    """By the name of each label of a function the token of the body that it is in: the function's or that of a statement expression."""
    found, waiting = {}, [(body, body.at)]
    while waiting:
        node, region = waiting.pop()
        if node.kind == "StatementExpression":
            region = node.parts[0][1].at
        elif node.kind == "LabelStatement":
            found[node.name] = region
        waiting += [(part, region) for _, part in node.parts]
    return found


def labels_of(statement):
    """The labels of a switch, whose body this is: none of another switch or of a statement expression in it."""
    found, waiting = [], [statement]
    while waiting:
        node = waiting.pop()
        found += [node] if node.kind in LABELS else []
        if node.kind not in ("SwitchStatement", "StatementExpression"):
            waiting += [part for _, part in node.parts]
    return found


def function_fails(judge, function):
    """Notes which rule on contexts fails in a function, if one does. The whole unit was judged."""
    name = function.parts[1][1].name
    enters, leaves = judge.carried(name).sums or (0, 0)
    control = Counted(judge, function)
    control.follow(frozenset([enters]))
    failure = control.fails(leaves)
    if failure is not None:
        rule, at, count = failure
        counts = (count, leaves) if rule == "C3" else ()
        judge.found.fails(rule, at, word=(name, *counts))


def unit_fails(judge, root):
    """Notes what fails on the paths of the functions of a unit."""
    for _, part in root.parts:
        if part.kind == "FunctionDefinition":
            function_fails(judge, part)


def paths(judge, function):
    """The paths of a function, their steps in words; tokens are counted from the one that begins its body."""
    control = Listed(judge, function)
    control.follow(frozenset([()]))
    first = control.body.at
    return {" ".join(f"{step.kind}{step.at - first}{step.said}" for step in path) for path in control.paths}
