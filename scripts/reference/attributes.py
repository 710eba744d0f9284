"""The attributes of a list, and the change of a context statement, from the tokens between their parentheses."""
import re

from .conditions import INTEGER, literal
from .scanning import is_identifier, meant

MOST_SPACE = 0xFFFFFFFF
MOST_STEP = 1000000
MOST_ALIGNMENT = 65536
ALIGNMENT_UNSAID = 16
FLAGS = (b"noderef", b"bitwise", b"force", b"packed", b"noreturn")


SPACE = b"a space that isn't one identifier or one integer up to %d" % MOST_SPACE
CONTEXT = b"a context that isn't two integers, or words and two integers"
ALIGNMENT = b"an alignment that isn't one power of 2 up to %d" % MOST_ALIGNMENT
STEP = b"a context with a step above %d" % MOST_STEP
CHANGE = b"a change that isn't an integer with at most one sign"
CHANGE_STEP = b"a change above %d" % MOST_STEP


class Bad(Exception):
    """An item that is bad: why."""


class PassesLimit(Exception):
    """A context with a number that is too great."""


def significant(tokens):
    """The tokens that mean something, each with its index."""
    return [it for it in enumerate(tokens) if it[1].spelled != b"__extension__"]


def pieces(tokens):
    """The tokens between the commas outside parentheses."""
    found, depth = [[]], 0
    for index, token in tokens:
        if meant(token) == b"," and depth == 0:
            found.append([])
            continue
        depth = max(0, depth + {b"(": 1, b")": -1}.get(token.spelled, 0))
        found[-1].append((index, token))
    return found


def integer(piece):
    """The value of the one integer constant that a piece is, or None."""
    if len(piece) != 1 or not INTEGER.fullmatch(piece[0][1].spelled):
        return None
    value = literal(piece[0][1].spelled)
    return value and value.number


def word_of(spelled):
    """A word without the underscores around it."""
    is_wrapped = len(spelled) >= 4 and spelled.startswith(b"__") and spelled.endswith(b"__")
    return spelled[2:-2] if is_wrapped else spelled


def arguments(item):
    """The tokens between the parentheses behind the word, or None where nothing stands there; none where no item of the grammar
    is written so."""
    if len(item) == 1:
        return None
    if len(item) < 3 or item[1][1].spelled != b"(" or item[-1][1].spelled != b")":
        return []
    return item[2:-1]


def space(between):
    if between is None or len(between) != 1:
        raise Bad(SPACE)
    if is_identifier(between[0][1]):
        return b"space " + between[0][1].spelled
    number = integer(between)
    if number is None or number > MOST_SPACE:
        raise Bad(SPACE)
    return b"space number %d" % number


def context(between):
    parts = pieces(between or [])
    numbers = [integer(part) for part in parts[-2:]]
    if len(parts) not in (2, 3) or None in numbers or len(parts) == 3 and not parts[0]:
        raise Bad(CONTEXT)
    if max(numbers) > MOST_STEP:
        raise PassesLimit
    return b"context %d to %d" % tuple(numbers)


def alignment(between):
    if between is None:
        return ALIGNMENT_UNSAID
    number = integer(between)
    if not number or number > MOST_ALIGNMENT or number & (number - 1):
        raise Bad(ALIGNMENT)
    return number


def refused_item(tokens):
    """The index of the first bad item's word, or STEP where the list passes the limit; None where it is well."""
    shown = attributes_shown(tokens)
    bad = re.match(rb"at (\d+): ", shown)
    return STEP if shown == STEP else int(bad[1]) if bad else None


def attributes_shown(tokens):
    """What a list comes to."""
    found = {"space": [], "align": 0, "contexts": []}
    flags, refused = set(), None
    for item in pieces(significant(tokens)):
        word = word_of(item[0][1].spelled) if item else b""
        try:
            if word == b"address_space":
                found["space"] = [space(arguments(item))]
            elif word == b"context":
                found["contexts"].append(context(arguments(item)))
            elif word == b"aligned":
                found["align"] = max(found["align"], alignment(arguments(item)))
            flags.add(word)
        except Bad as bad:
            refused = refused or b"at %d: %b" % (item[0][0], bad.args[0])
        except PassesLimit:
            return STEP
    align = [b"align %d" % found["align"]] if found["align"] else []
    parts = found["space"] + [flag for flag in FLAGS if flag in flags] + align + found["contexts"]
    return refused or b", ".join(parts) or b"nothing"


def change_shown(tokens):
    """The change of a context statement."""
    parts = pieces(significant(tokens))
    if len(parts) > 2 or len(parts) == 2 and not parts[0]:
        return CHANGE
    change, sign = parts[-1], 1
    if len(change) == 2 and change[0][1].spelled in (b"+", b"-"):
        sign, change = (-1 if change[0][1].spelled == b"-" else 1), change[1:]
    number = integer(change)
    if number is None:
        return CHANGE
    return CHANGE_STEP if number > MOST_STEP else b"%d" % (sign * number)
