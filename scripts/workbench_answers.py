"""What the tools of the workbench print, worked out over `reference`."""
import re

from reference import attributes, conditions, macros
from reference.judging import answer as command_answer
from reference.preprocessing import MALFORMED, NoSuchFile, Refusal, Unit
from reference.scanning import Opening, is_identifier, scan

# What an expansion may use up where the words say nothing else
SMALL = {"replacements": 1000, "tokens": 1000, "counter": 0}

# The tools that show something of the tokens of each line
TOKEN_TOOLS = {b"attributes": attributes.attributes_shown, b"context_changes": attributes.change_shown}


class BadLine(Exception):
    """A line of definitions that is refused: why."""


def if_value(line):
    """What is shown of a line that is taken as what stands behind an `#if`."""
    try:
        value = conditions.value(list(scan(1, line)))
    except Opening:
        return b"no tokens\n"
    except conditions.BadExpression as bad:
        return b"bad expression at %d\n" % bad.args[0]
    except conditions.ZeroDivisor as bad:
        return b"zero divisor at %d\n" % bad.args[0]
    return b"%d%b\n" % (value.number, b"u" * value.unsigned)


def of_tokens(shown, line):
    """What is shown of the tokens of a line."""
    try:
        return shown(list(scan(1, line))) + b"\n"
    except Opening:
        return b"no tokens\n"


def lines_of(text):
    """The lines of a text; a last new-line ends one."""
    return text.removesuffix(b"\n").split(b"\n") if text else []


def preprocessed(path, files):
    """The text of a unit, or the line of what ends it."""
    out, err, _ = command_answer([b"-E", path], files)
    return out + err.removeprefix(b"ksparse: ")


def left_names(path, files):
    """The names that the `#if` lines of a unit leave, or the line of what ends it."""
    unit = Unit(files)
    try:
        unit.preprocess(path)
    except (Refusal, NoSuchFile, macros.Passed):
        return preprocessed(path, files)
    lines = [b"%d %b:%d:%d: %b\n" % (number, unit.paths[place.file], place.line, place.column, name)
             for number, (place, name) in enumerate(unit.undefined)]
    return b"".join(lines)


def take_line(table, word, line):
    """Does what stands behind `#define` or `#undef`."""
    try:
        tokens = list(scan(0, line))
    except Opening:
        raise BadLine(b"no tokens") from None
    if not tokens or not is_identifier(tokens[0]) or word == b"#undef" and len(tokens) > 1:
        raise BadLine(MALFORMED)
    if word == b"#undef":
        table.undefine(tokens[0].spelled)
        return
    try:
        is_kept = table.define(tokens[0].spelled, macros.read_macro(tokens))
    except macros.BadDefinition:
        raise BadLine(b"error[11]") from None
    if not is_kept:
        raise BadLine(b"error[10]")


def take_lines(table, text):
    """Does the definitions before a text, and answers the text."""
    number = 0
    while text.startswith((b"#define ", b"#undef ")):
        line, _, behind = text.partition(b"\n")
        number += 1
        word, _, rest = line.partition(b" ")
        try:
            take_line(table, word, rest + text[len(line):len(line) + 1])
        except BadLine as bad:
            raise BadLine(b"line %d: %b\n" % (number, bad.args[0].partition(b":")[0])) from None
        text = behind
    return text


def asked(words):
    """The budget that the words behind the file's give, and what else they ask."""
    counts, others = dict(SMALL), {}
    for word in words:
        name, _, value = word.partition(b"=")
        if name.decode() in counts:
            counts[name.decode()] = int(value)
        else:
            others[name.decode()] = value
    return macros.Budget(*counts.values()), others


def shown(token, has_places):
    return token.spelled + (b"@%d:%d" % token.place[1:] if has_places else b"")


def expanded(text, words):
    """What a text becomes behind the definitions before it, and what is left of the budget."""
    budget, others = asked(words)
    table = macros.Macros(budget)
    # The path that is spelled so
    table.files = {1: re.sub(rb"\\(.)", rb"\1", others.get("spelled", b"")[1:-1])}
    put = []
    try:
        table.expand(list(scan(1, take_lines(table, text))), put)
    except BadLine as bad:
        return bad.args[0]
    except Opening:
        return b"no tokens\n"
    except macros.Fault as fault:
        told, place = fault.args
        return b"%b at %d:%d behind %d\n" % (told.partition(b": ")[2], *place[1:], len(put))
    except macros.Passed as passed:
        return b"%b are passed behind %d\n" % (passed.args[0], len(put))
    left = b"left %d replacements, %d tokens; counter %d\n" % (budget.replacements, budget.tokens, budget.counter)
    return b" ".join(shown(token, "places" in others) for token in put) + b"\n" + left


def answer(words, files):
    """What a command of the workbench prints, or None for a tool that isn't known here."""
    tool, path, *others = words
    if tool == b"if_value":
        return b"".join(map(if_value, lines_of(files[path])))
    if tool in TOKEN_TOOLS:
        return b"".join(of_tokens(TOKEN_TOOLS[tool], line) for line in lines_of(files[path]))
    if tool == b"preprocess":
        return preprocessed(path, files)
    if tool == b"left_names":
        return left_names(path, files)
    if tool == b"expand":
        return expanded(files[path], others)
    return None
