"""Which units gcc refuses, as far as constraints of expressions go: the reader's own, but for where the two differ on purpose.

`Differing` and `DifferingJudge` say each difference in a method of its own, so that what they refuse is what gcc refuses:

- a pointer that is subtracted from an integer, or from a pointer to another type, is a warning here (A3) and an error there; where the
  targets differ in const or volatile below their own level, as `int *` and `const int *` do, nothing is said here;
- a pointer to a function is compared with one to void, or is the other arm of `?:`, there (6.5.9 p2, 6.5.15 p3 forbid both);
- one arm of `?:` alone may be void there, and the whole is void then (6.5.15 p3 forbids it);
- arms of `?:` to other targets give `void *` there, and an integer beside a pointer gives the pointer's type, not the second
  operand's;
- a `_Bool` that becomes a pointer is an error there, and as any integer a warning here (A2);
- `i += p` and `p -= q` become integers and pointers there (6.5.16.2 p1 forbids both);
- no element of a function is selected there, as `none[1]`, while a sum of it and a number is accepted;
- a `return` with a value in a function of type void, and one without a value elsewhere, are warnings there (6.8.6.4 p1 forbids both);
- a const parameter isn't stored to there, since only calls leave its const out;
- a name that is declared again with other qualifiers, or another type, is an error there, and a warning here (A7);
- a statement expression outside every function is an error there.

The decay of a register's array, which gcc refuses unless it is selected from, isn't made; nor are `()` as `(void)` and marks, which
gcc doesn't know.
"""
import subprocess

from reference import judging, pairs, reading, types
from reference.expressions import Expressions
from reference.macros import Passed
from reference.pairs import Fact
from reference.preprocessing import Refusal, Unit
from reference.types import LONG

FLAGS = ["-fsyntax-only", "-w", "-std=gnu11", "-x", "c"]
# A `return` that has a value or has none, against its function's type
RETURNS = (23, 24)


def unqualified(target):
    """A target without the marks of its own level, which of an array are those of its elements."""
    inner = unqualified(target.inner) if target.form == "array" else target.inner
    return types.changed(target, inner=inner, marks=types.NONE)


def can_be_subtracted(left, right):
    """Whether two pointers are of one type but for qualifiers of their targets."""
    return pairs.can_be_subtracted(left, right) and unqualified(left.type.inner) is unqualified(right.type.inner)


class Differing(Expressions):
    """The rows of expressions, as gcc refuses them."""

    def statement_expression(self, node, is_evaluated):
        if not self.judge.is_in_function:
            self.found.breaks(4, node.at)
        return super().statement_expression(node, is_evaluated)

    def converts(self, value, to, token, word, part=0):
        if to.form == "pointer" and value.type.is_plain("Bool"):
            self.found.breaks(4, token)
        return super().converts(value, to, token, word, part)

    def difference(self, node, left, right):
        if not left.is_pointer() or not can_be_subtracted(left, right):
            return self.found.breaks(4, node.at)
        return Fact(LONG) if self.is_step_possible(node, left.type) else None

    def can_be_compared(self, left, right):
        return True

    def void_arms(self, parts, arms):
        return Fact(types.VOID)

    def arms_joined(self, left, right):
        if left.is_pointer() and right.is_pointer():
            return types.pointer(types.VOID) if pairs.are_incompatible(left, right) else pairs.arms_joined(left, right)
        return left.type if left.is_pointer() else right.type

    def can_be_indexed(self, value):
        return value.is_pointer() and not value.type.is_pointer_to("function")

    def can_be_changed(self, kind, of, value):
        if value.is_pointer() and of.form == "integer":
            return kind == "Addition"
        if value.is_pointer():
            return kind == "Subtraction" and can_be_subtracted(Fact(types.value_of(of)), value)
        return super().can_be_changed(kind, of, value)


class DifferingJudge(judging.Judge):
    """The judge of a unit, as gcc refuses it."""

    rows = Differing

    def parameter_object(self, declared):
        return types.value_of(declared) if declared.form in ("array", "function") else declared

    def link(self, declarator, of, carried):
        for earlier, _ in self.linked.get(declarator.name, []):
            lengths = {each.length for each in (earlier, of)} if earlier.form == of.form == "array" else ()
            known = types.changed(of, length=earlier.length) if None in lengths else of
            if known is not earlier:
                self.found.breaks(36, declarator.at)
        super().link(declarator, of, carried)


def is_refused(text):
    """Whether a unit breaks a constraint by the reader, but for the differences. Raises `judging.NotBuilt` as that does, and where
    the unit can't be read."""
    unit = Unit({b"t.c": text})
    try:
        unit.preprocess(b"t.c")
        refused = reading.refusal(unit.tokens)
    except (Refusal, Passed) as refusal:
        raise judging.NotBuilt from refusal
    if refused is not None:
        raise judging.NotBuilt
    found = DifferingJudge().unit(judging.Indexed(unit.tokens).unit())
    return any(number not in RETURNS for _, number, _ in found.broken)


def compiler_refuses(compiler, path, folder):
    """What the compiler writes of a file that it refuses, else None."""
    done = subprocess.run([compiler, *FLAGS, path], cwd=folder, capture_output=True, timeout=60)
    return done.stderr if done.returncode else None
