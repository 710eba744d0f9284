"""The tokens of a file (C11 5.1.1.2 and 6.4), each with its place and the white space before it."""
import re
from bisect import bisect_right
from itertools import accumulate
from typing import NamedTuple

# Each a regular expression for the bytes of one logical line.
UNIVERSAL = rb"\\u[0-9A-Fa-f]{4}|\\U[0-9A-Fa-f]{8}"
STRING = rb'(?:u8|[LuU])?"[^"\\\n]*(?:\\[^\n][^"\\\n]*)*"'
CHARACTER = rb"[LuU]?'[^'\\\n]*(?:\\[^\n][^'\\\n]*)*'"
WORD = rb"(?:[A-Za-z_]|%b)(?:[A-Za-z0-9_]|%b)*" % (UNIVERSAL, UNIVERSAL)
NUMBER = rb"\.?[0-9](?:[eEpP][+-]|%b|[A-Za-z0-9_.])*" % UNIVERSAL
PUNCTUATOR = (
    rb"%:%:|\.\.\.|<<=|>>=|->|\+\+|--|<<|>>|<=|>=|==|!=|&&|\|\||\*=|/=|%=|\+=|-=|&=|\^=|\|=|##|<:|:>|<%|%>|%:|[^'\"]"
)

# At a byte that is no white space the first of these that matches is the longest token: a quoted text goes before the word
# of its prefix, a number before its point, and a universal character name before its backslash.
ONE = re.compile(rb"|".join([STRING, CHARACTER, WORD, NUMBER, PUNCTUATOR]), re.DOTALL)
PIECE = re.compile(
    rb"(?P<blank>[ \t\v\f]+|//[^\n]*|/\*(?s:.*?)\*/)|(?P<line>\n)|(?P<open>/\*)|(?P<token>%b)" % ONE.pattern, re.DOTALL
)
HEADER = re.compile(rb'<[^\n>]+>|"[^\n"]+"')
IS_WORD = re.compile(WORD)

DIGRAPHS = {b"<:": b"[", b":>": b"]", b"<%": b"{", b"%>": b"}", b"%:": b"#", b"%:%:": b"##"}


class Place(NamedTuple):
    """Where a byte stands: the number of its file, its physical line and column, both from 1."""

    file: int
    line: int
    column: int


class Token(NamedTuple):
    """A token, and what an expansion has to know of it."""

    spelled: bytes
    place: Place
    # White space or a new-line stands before it.
    space: bool
    # It is the first one of its line.
    starts_line: bool
    # The names that it hides, a bit for each.
    hidden: int = 0


class Opening(Exception):
    """A comment or a literal that is never closed: its place, and the text of its error."""


def meant(token):
    """The spelling, with that of the usual punctuator for a digraph."""
    return DIGRAPHS.get(token.spelled, token.spelled)


def is_identifier(token):
    return IS_WORD.fullmatch(token.spelled) is not None


def is_one_token(spelled):
    found = ONE.match(spelled)
    return found is not None and found.end() == len(spelled)


class Logical:
    """A text without its pairs of backslash and new-line, and with a last new-line."""

    def __init__(self, file, text):
        self.file = file
        self.text = text.replace(b"\\\n", b"") + b"\n"
        *closed, _ = text.split(b"\n")
        kept = (len(line) - 1 if line.endswith(b"\\") else len(line) + 1 for line in closed)
        self.line_starts = [0, *accumulate(kept)]

    def place(self, at):
        line = bisect_right(self.line_starts, at)
        return Place(self.file, line, at - self.line_starts[line - 1] + 1)


def token_end(text, at, found, behind):
    """The end of the token here, or None at a quotation mark alone. Of two the longer one is the token."""
    header = HEADER.match(text, at) if behind == "include" else None
    ends = [match.end() for match in (found, header) if match]
    return max(ends, default=None)


def scan(file, text):
    """The tokens of the file with this number and text, one behind the other."""
    logical = Logical(file, text)
    text, at, behind, space = logical.text, 0, "line start", False
    while at < len(text):
        found = PIECE.match(text, at)
        kind = found.lastgroup if found else "token"
        if kind == "open":
            raise Opening(logical.place(at), b"error[3]: unterminated comment")
        if kind == "token":
            end = token_end(text, at, found, behind)
            if end is None:
                raise Opening(logical.place(at), b"error[4]: unterminated literal")
            token = Token(text[at:end], logical.place(at), space, behind == "line start")
            yield token
            behind, space, at = next_state(behind, token), False, end
        else:
            behind, space, at = ("line start" if kind == "line" else behind), True, found.end()


def next_state(behind, token):
    """What the next token of the line stands behind, as far as header names depend on it."""
    if behind == "line start" and meant(token) == b"#":
        return "hash"
    return "include" if behind == "hash" and token.spelled == b"include" else "elsewhere"
