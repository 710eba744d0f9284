"""What `types` writes of a unit: the type of each expression, whether it is a place, and its constant; or the constraint that
it breaks."""
from typing import NamedTuple

from . import judging, types
from .commands import line
from .expressions import Expressions
from .judging import Indexed, Judge, NotBuilt
from .pairs import Fact
from .preprocessing import Unit
from .texts import Found, constraint_text


class Noted(Found):
    """What was found, with the broken constraints of each row that isn't done yet; those outside of expressions come first."""

    def __init__(self):
        super().__init__()
        self.open = [[]]

    def breaks(self, number, token, name=b""):
        super().breaks(number, token, name)
        self.open[-1].append((token, number, name))


class Row(NamedTuple):
    """An expression: its token, the last one of it and of its parts, the least constraint that it breaks, and what is known of it."""

    at: int
    last: int
    broken: tuple | None
    fact: Fact | None


class Listed(Expressions):
    """The rows of expressions, which are noted as they are done: each behind those of its parts."""

    def __init__(self, found, judge):
        super().__init__(found, judge)
        self.done = []

    def fact(self, node, is_evaluated):
        self.found.open.append([])
        before = len(self.done)
        fact = super().fact(node, is_evaluated)
        last = max([node.at, *(part.last for part in self.done[before:])])
        self.done.append(Row(node.at, last, min(self.found.open.pop(), default=None), fact))
        return fact

    def loaded(self, node, fact, is_evaluated):
        """A place that can't be loaded is told in its own row."""
        self.found.open.append([])
        value = super().loaded(node, fact, is_evaluated)
        broken = self.found.open.pop()
        if broken:
            self.done[-1] = self.done[-1]._replace(broken=min(broken), fact=None)
        return value

    def in_order(self):
        """The rows as they end in the text: the lengths of an array of arrays are done from the last one on."""
        return sorted(self.done, key=lambda row: row.last)


class Typed(Judge):
    """`types` judges each expression by itself, and no initializers: it knows neither compound literals nor the length that an
    initializer gives, so nothing is said here of units with such."""

    rows = Listed
    notes = Noted

    def compound_literal(self, node, is_evaluated):
        self.found.is_unclear = True
        return super().compound_literal(node, is_evaluated)

    def completed(self, declarator, of, *rest):
        self.found.is_unclear |= not types.is_complete(of)
        return super().completed(declarator, of, *rest)


def known(fact, names):
    place = b" (place)" if fact.is_place else b""
    constant = b" = %d" % fact.constant.number if fact.constant else b""
    return types.spelled(fact.type, names) + place + constant


def lines(unit, tokens, judge):
    for row in judge.expressions.in_order():
        if row.broken:
            token, number, name = row.broken
            yield line(unit.paths, tokens[token].place, constraint_text(number, name))
        elif row.fact:
            place = tokens[row.at].place
            yield b"%d:%d: %b\n" % (place.line, place.column, known(row.fact, judge.found.names))


def typed(unit):
    """The lines of a preprocessed unit."""
    builder = Indexed(unit.tokens)
    root = builder.unit()
    judge = Typed(builder.hidden)
    judge.unit(root)
    if judge.found.is_unclear:
        raise NotBuilt("what stands behind a bad member, tag or definition, a compound literal or an array without a length")
    return b"".join(lines(unit, builder.tokens, judge))


def answer(words, files):
    """What `types` writes to standard output and to standard error for these words, and its status. Raises `NotBuilt` where this
    reader says nothing of the unit."""
    if len(words) != 1:
        return b"", b"usage: types FILE\n", judging.USAGE
    unit = Unit(files, [], b"")
    refused = judging.preprocessing_refusal(unit, words[0]) or judging.parse_refusal(unit)
    if refused is not None:
        status, err = refused
        return b"", err, status
    return typed(unit), b"", judging.CLEAN
