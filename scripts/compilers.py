"""Compares expansions with those of a compiler, where the two are meant to agree.

What differs by choice is left out or judged apart: a text in which a hidden name is left, since a set on each token hides more
than marks on active macros do; white space within strings beside something empty; the places and numbers of the names that
change; the comma before a variable argument that is there and empty, which GCC keeps; and a comma out of an argument that `##`
joins with a variable one, which GCC leaves unjoined.
"""
import re
import subprocess

from reference import macros
from reference.preprocessing import Refusal, Unit
from reference.scanning import scan

FLAGS = ["-E", "-P", "-undef", "-nostdinc", "-std=gnu11", "-w", "-x", "c"]
# What `difference` answers where two texts are as like as they are meant to be
SKIPPED, WHITE_SPACE = "skipped", "white space"
ALIKE = (None, SKIPPED, WHITE_SPACE)
BAD_PASTE = b"error[14]"
FAULTS = (b"error[12]", b"error[13]", BAD_PASTE)


class KeptComma(macros.Substitution):
    """Substitution that keeps the comma before an empty variable argument that is there, beside other parameters."""

    def operand(self, operand):
        if operand.what == "rest" and len(self.plain) > 1 and self.plain[operand.parameter].tokens:
            return [operand.token, *self.plain[operand.parameter].all()]
        return super().operand(operand)


def preprocess(compiler, path, folder, flags=()):
    """What the compiler makes of a file, or None where it refuses it."""
    done = subprocess.run([compiler, *FLAGS, *flags, path], cwd=folder, capture_output=True, timeout=60)
    return done.stdout if done.returncode == 0 else None


def spellings(text):
    return [token.spelled for token in scan(1, text)]


def without_blanks(spelled):
    """The spelling of a literal without its blanks, and any other as it is."""
    return re.sub(rb"[ \t]+", b"", spelled) if b'"' in spelled or b"'" in spelled else spelled


def expanded(text):
    """The unit of a text with a compiler's comma, or the text of what refuses it."""
    unit = Unit({b"t.c": text})
    unit.macros.substitution = KeptComma
    try:
        unit.preprocess(b"t.c")
    except Refusal as refusal:
        return None, refusal.args[1]
    return unit, None


def leaves_a_hidden_name(unit):
    bits = unit.macros.bits
    return any(token.hidden & bits.get(token.spelled, 0) for token in unit.tokens)


def difference(text, made):
    """What is wrong about what a compiler made of a text, or one of `ALIKE`."""
    unit, refused = expanded(text)
    if refused:
        may_differ = not refused.startswith(FAULTS) or (refused.startswith(BAD_PASTE) and b"..." in text)
        return None if made is None else SKIPPED if may_differ else f"the compiler accepts it, here it is {refused!r}"
    if leaves_a_hidden_name(unit):
        return SKIPPED
    if made is None:
        return "the compiler refuses it"
    found, wanted = spellings(made), [token.spelled for token in unit.tokens]
    if found == wanted:
        return None
    if list(map(without_blanks, found)) == list(map(without_blanks, wanted)):
        return WHITE_SPACE
    return f"{b' '.join(found)!r} in place of {b' '.join(wanted)!r}"
