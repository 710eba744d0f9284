"""Files to the tokens of a preprocessed unit (C11 6.10)."""
from typing import NamedTuple

from . import conditions, macros
from .scanning import HEADER, Opening, is_identifier, meant, scan

MOST_FILE_BYTES = 8_388_608
MOST_BYTES = 67_108_864
MOST_DEPTH = 200
MOST_TOKENS = 2_000_000

COMMAND = b"<command>"
PREDEFINED = b"#define __CHECKER__ 1\n#define __STDC__ 1\n#define __STDC_VERSION__ 201112L\n#define __LP64__ 1\n"
UNREAD = (b"line", b"pragma", b"ident", b"warning")
MALFORMED = b"error[8]: malformed directive"
BAD_EXPRESSION = b"error[15]: bad #if expression"


class Refusal(Exception):
    """The first error: its place, and its text."""


class NoSuchFile(Exception):
    """The file that is to be preprocessed isn't there."""


class Part(NamedTuple):
    """A directive, or the text lines between two of them."""

    is_directive: bool
    tokens: list


class Group:
    """A conditional that is open in a file."""

    def __init__(self, place, is_read, holds):
        self.place = place
        # What stands around it is read; a part of it is, or was; the part that is open is.
        self.is_read, self.was_taken, self.is_active = is_read, holds, is_read and holds
        self.has_else = False


def parts(tokens):
    """The directives of a file, and what stands between them."""
    found, is_directive = [], False
    for token in tokens:
        if token.starts_line:
            begins = meant(token) == b"#"
            if begins or is_directive or not found:
                found.append(Part(begins, []))
            is_directive = begins
        found[-1].tokens.append(token)
    return found


def header_name(tokens):
    """The name that expanded tokens give and whether it stands between quotation marks, or None."""
    spelled = [token.spelled for token in tokens]
    if len(spelled) == 1 and spelled[0].startswith(b'"'):
        return spelled[0][1:-1], True
    if spelled[:1] == [b"<"] and b">" in spelled and spelled.index(b">") == len(spelled) - 1:
        return b"".join(spelled[1:-1]), False
    return None


class Unit:
    """A unit on its way: what files, directories and lines of the command are given with it, and what it has come to."""

    def __init__(self, files, directories=(), command=b""):
        self.given, self.directories, self.command = files, directories, command
        self.macros = macros.Macros(macros.Budget())
        self.paths = [COMMAND]
        self.numbers = {}
        self.kept = {}
        self.bytes = 0
        self.tokens = []
        # The places and the names of identifiers that are left in conditions
        self.undefined = []

    def preprocess(self, path):
        """Reads the command's lines and then the file, to its last token or to what ends it before."""
        for part in parts(scan(0, PREDEFINED)):
            self.define(part.tokens)
        self.paths.append(path)
        self.numbers[path] = 1
        self.macros.files = self.paths
        self.read(0, parts(self.scanned(0, self.command)), 0)
        loaded = self.load(path, 0)
        if loaded is None:
            raise NoSuchFile(path)
        self.read(*loaded, 0)

    def scanned(self, number, text):
        try:
            return list(scan(number, text))
        except Opening as opening:
            raise Refusal(*opening.args) from None

    def load(self, path, depth):
        """The number and the parts of the file with this path, or None where there is none."""
        text = self.given.get(path)
        if text is None:
            return None
        if len(text) > MOST_FILE_BYTES:
            raise macros.Passed(b"file size")
        self.bytes += len(text)
        if self.bytes > MOST_BYTES:
            raise macros.Passed(b"all files")
        if depth > MOST_DEPTH:
            raise macros.Passed(b"include depth")
        if path not in self.numbers:
            self.numbers[path] = len(self.paths)
            self.paths.append(path)
        number = self.numbers[path]
        if number not in self.kept:
            self.kept[number] = parts(self.scanned(number, text))
        return number, self.kept[number]

    def read(self, number, found, depth):
        """Takes the parts of a file in order."""
        groups = []
        for part in found:
            is_active = not groups or groups[-1].is_active
            if part.is_directive:
                self.directive(part.tokens, groups, is_active, depth)
            elif is_active:
                self.text(part.tokens)
        if groups:
            raise Refusal(groups[0].place, b"error[5]: unterminated conditional")

    def text(self, tokens):
        """Takes text lines. The limit of tokens goes before what ends their expansion behind it."""
        try:
            self.expand(tokens, self.tokens)
        except (Refusal, macros.Passed):
            self.count()
            raise
        self.count()

    def count(self):
        if len(self.tokens) > MOST_TOKENS:
            raise macros.Passed(b"unit tokens")

    def expand(self, tokens, put):
        try:
            self.macros.expand(tokens, put)
        except macros.Fault as fault:
            text, place = fault.args
            raise Refusal(place, text) from None

    def directive(self, tokens, groups, is_active, depth):
        """Takes a directive, which begins with its `#`."""
        place, word, behind = tokens[0].place, tokens[1].spelled if len(tokens) > 1 else None, tokens[2:]
        if word in (b"if", b"ifdef", b"ifndef"):
            groups.append(Group(place, is_active, is_active and self.condition(word, place, behind)))
        elif word in (b"elif", b"else", b"endif"):
            self.turn(word, place, behind, groups)
        elif not is_active or word is None or word in UNREAD:
            pass
        elif word == b"define":
            self.define(tokens)
        elif word == b"undef":
            self.macros.undefine(self.only_name(place, behind))
        elif word == b"include":
            self.include(place, behind, depth)
        elif word == b"error":
            raise Refusal(place, b"error[17]: #error" + b"".join(b" " + token.spelled for token in behind))
        else:
            raise Refusal(place, b"error[9]: unknown directive")

    def only_name(self, place, tokens):
        """The name that stands alone behind `ifdef`, `ifndef` or `undef`."""
        if len(tokens) != 1 or not is_identifier(tokens[0]):
            raise Refusal(place, MALFORMED)
        return tokens[0].spelled

    def condition(self, word, place, behind):
        """Whether the part behind this line is read."""
        if word == b"if" or word == b"elif":
            return self.holds(place, behind)
        return self.macros.is_defined(self.only_name(place, behind)) == (word == b"ifdef")

    def turn(self, word, place, behind, groups):
        """Takes what ends a part of a conditional."""
        if not groups:
            raise Refusal(place, b"error[6]: conditional without #if")
        group = groups[-1]
        if word != b"endif" and group.has_else:
            raise Refusal(place, b"error[7]: conditional after #else")
        if word != b"elif" and group.is_read and behind:
            raise Refusal(place, MALFORMED)
        if word == b"endif":
            groups.pop()
            return
        group.has_else = word == b"else"
        is_open = group.is_read and not group.was_taken
        group.is_active = is_open and (word == b"else" or self.condition(word, place, behind))
        group.was_taken = group.was_taken or group.is_active

    def holds(self, place, tokens):
        """Whether an expression isn't 0. The identifiers that are left in it are kept."""
        found = []
        self.expand(self.answered(place, tokens), found)
        self.undefined += [(token.place, token.spelled) for token in found if is_identifier(token)]
        try:
            return conditions.value(found).number != 0
        except conditions.BadExpression:
            raise Refusal(place, BAD_EXPRESSION) from None
        except conditions.ZeroDivisor:
            raise Refusal(place, b"error[16]: division by zero in #if") from None

    def answered(self, place, tokens):
        """The tokens with 1 or 0 in place of each `defined` and its name."""
        left, at = [], 0
        while at < len(tokens):
            if tokens[at].spelled != b"defined":
                left.append(tokens[at])
                at += 1
                continue
            spelled = [token.spelled for token in tokens[at + 1 : at + 4]]
            is_enclosed = spelled[:1] == [b"("]
            name = at + 2 if is_enclosed else at + 1
            if name >= len(tokens) or not is_identifier(tokens[name]) or (is_enclosed and spelled[2:] != [b")"]):
                raise Refusal(place, BAD_EXPRESSION)
            answer = b"%d" % self.macros.is_defined(tokens[name].spelled)
            left.append(tokens[at]._replace(spelled=answer))
            at = name + (2 if is_enclosed else 1)
        return left

    def define(self, tokens):
        """Takes `#define`; its tokens begin with the `#`."""
        place, behind = tokens[0].place, tokens[2:]
        if not behind or not is_identifier(behind[0]):
            raise Refusal(place, MALFORMED)
        try:
            macro = macros.read_macro(behind)
        except macros.BadDefinition:
            raise Refusal(place, b"error[11]: bad macro definition") from None
        if not self.macros.define(behind[0].spelled, macro):
            raise Refusal(place, b"error[10]: macro '%b' redefined" % behind[0].spelled)

    def include(self, place, behind, depth):
        """Puts the tokens of a header in place."""
        header = self.header(behind)
        if header is None:
            raise Refusal(place, MALFORMED)
        name, is_quoted = header
        for path in self.places(self.paths[place.file], name, is_quoted):
            loaded = self.load(path, depth + 1)
            if loaded is not None:
                self.read(*loaded, depth + 1)
                return
        raise Refusal(behind[0].place, b"error[2]: include not found: " + name)

    def header(self, behind):
        """The same of the tokens behind `include`: a header name stands alone, and any other tokens are expanded."""
        if behind and HEADER.fullmatch(behind[0].spelled):
            spelled = behind[0].spelled
            return (spelled[1:-1], spelled.startswith(b'"')) if len(behind) == 1 else None
        found = []
        self.expand(behind, found)
        return header_name(found)

    def places(self, includer, name, is_quoted):
        """The paths at which a header is looked for, in order."""
        if name.startswith(b"/"):
            return [name]
        own = [includer[: includer.rfind(b"/") + 1]] if is_quoted else []
        directories = [*own, *self.directories]
        return [directory + b"/" * (directory != b"" and not directory.endswith(b"/")) + name for directory in directories]


def text_of(tokens):
    """What `-E` writes of a unit."""
    text = bytearray()
    before = None
    for token in tokens:
        if before is not None:
            text += b" " if before[:2] == token.place[:2] else b"\n"
        text += token.spelled
        before = token.place
    return bytes(text) + b"\n" * (before is not None)
