"""What reading a unit's tokens by the grammar comes to: nothing, or the line of the token with which it doesn't go on."""
import re

from . import literals
from .attributes import CHANGE, CHANGE_STEP, STEP, change_shown, refused_item
from .grammar import CLASSES, END, FIRSTS, FOLLOWS, NULLABLE, ROWS, START, first_of, parts
from .macros import Passed
from .scanning import is_identifier, meant

# Spellings with underscores that are taken for a keyword.
GNU = ("const", "volatile", "restrict", "inline", "signed", "typeof", "attribute", "alignof")
OF_GNU = {"attribute": "__attribute__", "alignof": "_Alignof"}
ALIASES = {f"__{word}{end}".encode(): OF_GNU.get(word, word) for word in GNU for end in ("", "__")}

UNSUPPORTED = {
    30: (b"float", b"double"),
    31: (b"asm", b"__asm", b"__asm__"),
    35: (b"_Generic",),
    36: (b"_Atomic",),
    37: (b"_Complex",),
    38: (b"_Thread_local",),
    39: (b"__int128",),
    40: (b"__label__",),
    45: (b"__auto_type",),
    46: (b"_Alignas",),
    48: (b"_Pragma",),
}
NUMBER_OF_WORD = {word: number for number, words in UNSUPPORTED.items() for word in words}
TEXTS = {
    30: "floating type",
    31: "inline assembly",
    32: "parameter without a type",
    33: "nested function",
    34: "computed goto",
    35: "_Generic",
    36: "_Atomic",
    37: "_Complex",
    38: "_Thread_local",
    39: "__int128",
    40: "__label__",
    41: "universal character name",
    42: "wide or UTF literal",
    43: "case range",
    44: "designator range",
    45: "__auto_type",
    46: "_Alignas",
    47: "builtin",
    48: "_Pragma",
    49: "qualifier in array brackets",
}
TOKENS = {name for rows in ROWS.values() for row in rows for kind, name in row.items if kind == "token"} - CLASSES
KEYWORDS = {word.encode() for word in TOKENS if re.fullmatch(r"[A-Za-z_]\w*", word)} | {b"_Imaginary"}
IS_FLOATING = re.compile(rb"0[xX][0-9A-Fa-f]*[.pP].*|(?!0[xX]).*[.eE].*")


# Each set of type words that is a type (C11 6.7.2 p2) but the floating ones, in one order of its words; `type` is one by itself.
SETS = (
    "type", "void", "char", "char signed", "char unsigned", "short", "short signed", "int short", "int short signed",
    "short unsigned", "int short unsigned", "int", "signed", "int signed", "unsigned", "int unsigned", "long", "long signed", "int long",
    "int long signed", "long unsigned", "int long unsigned", "long long", "long long signed", "int long long",
    "int long long signed", "long long unsigned", "int long long unsigned", "_Bool",
)
STORAGE = ("typedef", "extern", "static", "auto", "register")
BESIDE_TYPES = STORAGE + ("inline", "_Noreturn", "const", "volatile", "restrict")

BAD = "bad declaration"

# So many symbols may wait, and so many parameters or arguments may a list have.
MOST_WAITING = 65536
MOST_PARAMETERS = 255
# Looks that ask for the token behind the next one as well.
OF_TWO_TOKENS = ("LABEL", "TYPED", "ANY")


class Unread(Exception):
    """The reading ends here: the index of the token at which that stands, and the text."""


def looks(symbol):
    """For each row of a symbol the tokens before which it is taken; None: before any other."""
    taken, found = set(), []
    for row in ROWS[symbol]:
        items = parts(row)
        begins, is_empty = first_of(items, FIRSTS)
        if row.look == "START":
            wanted = START
        elif row.look is not None and row.look.startswith("'"):
            wanted = set(re.findall(r"'([^']+)'", row.look))
        elif not items:
            wanted = None
        else:
            wanted = begins | (FOLLOWS[symbol] if is_empty else set())
        found.append(wanted if wanted is None else wanted - taken)
        # where the second token matters, the first one may begin a later row too
        if row.look not in OF_TWO_TOKENS:
            taken |= wanted or set()
    return found


LOOKS = {symbol: looks(symbol) for symbol in ROWS}


class Declarator:
    """What was read of one: the token of its name, what stands next to the name, and what its own parameter list bound."""

    def __init__(self, name):
        self.name = name
        self.first = None
        self.parameters = {}


class Specifiers:
    """The words of specifiers, and the token at which they begin."""

    def __init__(self, first):
        self.first = first
        self.words = []

    def has(self, *words):
        return any(word in words for word in self.words)

    def types(self):
        return sorted(word for word in self.words if word not in BESIDE_TYPES)

    def is_bad(self, *refused):
        """Whether they are no set that is allowed anywhere, or one of these words is among them."""
        is_no_type = bool(self.types()) and " ".join(self.types()) not in SETS
        return is_no_type or sum(word in STORAGE for word in self.words) > 1 or self.has(*refused)


class Reader:
    """Reads tokens by the grammar, and knows what each name is bound to."""

    def __init__(self, tokens):
        self.last = len(tokens) - 1
        self.places = [at for at, token in enumerate(tokens) if token.spelled != b"__extension__"]
        self.tokens = [tokens[at] for at in self.places]
        self.at = 0
        self.is_spared = False
        self.bodies = 0
        self.scopes = [{}]
        self.specifiers = []
        # what is told when the next token is taken: a token and the number of the error
        self.held = None
        self.stars = []
        self.declarators = []
        self.enumerators = []
        self.bound = None
        self.awaited = None
        # each symbol with the number of a row that was chosen
        self.chosen = set()
        # how many parameters each open list has, and the token at which the first limit is passed, with its name
        self.counts = []
        self.limit = None
        # the strings of a row, the word of a context statement and that of an attribute list, by their indexes
        self.pieces = []
        self.context = None
        self.attributes = None

    def found(self, name):
        return next((scope[name] for scope in reversed(self.scopes) if name in scope), None)

    def classes(self, at):
        """The tokens of the grammar that this one is."""
        if at >= len(self.tokens):
            return {END}
        token = self.tokens[at]
        spelled = meant(token)
        if spelled in (b"(", b")"):
            return {spelled.decode()}
        if re.fullmatch(rb"\.?[0-9].*", spelled, re.DOTALL):
            return {"number", "other"}
        if spelled.endswith((b"'", b'"')):
            return {"character" if spelled.endswith(b"'") else "string", "other"}
        if not is_identifier(token):
            return {spelled.decode("latin-1"), "other"}
        if spelled in ALIASES or spelled in KEYWORDS or self.unsupported(at) is not None:
            return {ALIASES.get(spelled, spelled.decode()), "word", "other"}
        return {"name", "word", "other", "tname" if self.found(spelled) == "typedef" else "ident"}

    def unsupported(self, at):
        """The number of the error if a token is a word or literal that no form takes."""
        if at >= len(self.tokens):
            return None
        spelled = meant(self.tokens[at])
        if spelled in NUMBER_OF_WORD:
            return NUMBER_OF_WORD[spelled]
        if spelled.endswith((b"'", b'"')):
            return self.unsupported_quoted(spelled)
        if re.fullmatch(rb"\.?[0-9].*", spelled, re.DOTALL):
            return 30 if IS_FLOATING.fullmatch(spelled) else None
        if is_identifier(self.tokens[at]):
            if b"\\" in spelled:
                return 41
            if spelled.startswith(b"__builtin_") and spelled not in KEYWORDS:
                return 47
        return None

    @staticmethod
    def unsupported_quoted(spelled):
        if spelled[:1] not in b"'\"":
            return 42
        error = literals.of_character(spelled) if spelled.endswith(b"'") else literals.of_string(spelled)
        return error if error == literals.UNIVERSAL else None

    def stop(self, at, number, text=None):
        place = self.places[at] if at < len(self.tokens) else self.last
        raise Unread(place, f"error[{number}]: {text or 'unsupported: ' + TEXTS[number]}")

    def heed_word(self, at):
        """An unsupported word goes before all else that is decided at its token."""
        number = None if self.is_spared else self.unsupported(at)
        if number is not None:
            self.stop(at, number)

    def stop_at(self, at):
        self.heed_limit(at)
        self.heed_word(at)
        if at < len(self.tokens):
            spelled = self.tokens[at].spelled.decode("latin-1")
            self.stop(at, 20, f"syntax error: unexpected '{spelled}'")
        self.stop(at, 20, "syntax error: unexpected end of file")

    def begins(self, row, wanted, classes):
        """Whether a row is taken before the next two tokens."""
        behind = self.classes(self.at + 1)
        if row.look == "LABEL":
            return "name" in classes and ":" in behind
        if row.look == "TYPED":
            return "(" in classes and bool(START & behind)
        if row.look == "ANY":
            return "(" not in classes or bool((START - {"__attribute__"} | {")"}) & behind)
        return wanted is None or bool(wanted & classes)

    def choose(self, symbol):
        classes = self.classes(self.at)
        for number, (row, wanted) in enumerate(zip(ROWS[symbol], LOOKS[symbol])):
            if self.begins(row, wanted, classes):
                self.chosen.add((symbol, number))
                return row
        if "&&" in classes and any(wanted is not None and "!" in wanted for wanted in LOOKS[symbol]):
            self.heed_limit(self.at)
            self.stop(self.at, 34)
        # what a label begins with is taken, and reading ends at what stands in place of its colon
        is_label = any(row.look == "LABEL" for row in ROWS[symbol]) and "name" in classes
        return self.stop_at(self.at + 1 if is_label else self.at)

    def pass_limit(self, name):
        """A limit is told behind all that is decided at the next token."""
        self.limit = self.limit or (self.at, name)

    def heed_limit(self, at):
        """A limit that an earlier token passed goes before what is decided at this one."""
        if self.limit and at > self.limit[0]:
            raise Passed(self.limit[1])

    def read(self):
        # what waits to be read; actions aren't counted
        stack, waiting = [("symbol", "Unit")], 1
        while stack:
            kind, name = stack.pop()
            if kind == "action":
                getattr(self, "do_" + name)()
                continue
            waiting -= 1
            if kind == "symbol":
                items = self.choose(name).items
                stack.extend(reversed(items))
                waiting += sum(kind != "action" for kind, _ in items)
                if waiting > MOST_WAITING:
                    self.pass_limit(b"parse stack")
            else:
                if name not in self.classes(self.at):
                    self.stop_at(self.at)
                self.heed_limit(self.at)
                self.heed_word(self.at)
                if self.held:
                    self.stop(*self.held)
                self.at += 1
        if self.at < len(self.tokens):
            self.stop_at(self.at)
        if self.limit:
            raise Passed(self.limit[1])

    def next_is(self, *spelled):
        return self.at < len(self.tokens) and bool(self.classes(self.at) & set(spelled))

    def stop_where(self, number, *spelled):
        if self.next_is(*spelled):
            self.heed_limit(self.at)
            self.stop(self.at, number)

    # Specifiers: the words in them.

    def do_begin(self):
        self.specifiers.append(Specifiers(self.at))

    def do_end(self):
        self.specifiers.pop()

    def do_specifier(self):
        spelled = meant(self.tokens[self.at - 1])
        self.specifiers[-1].words.append(ALIASES.get(spelled, spelled.decode()))

    def do_whole(self):
        self.specifiers[-1].words.append("type")

    def hold(self, at, number, *text):
        self.held = self.held or (at, number, *text)

    def hold_bad(self, is_bad):
        if is_bad:
            self.hold(self.specifiers[-1].first, 28, BAD)

    def do_of_file(self):
        self.hold_bad(self.specifiers[-1].is_bad("auto", "register"))

    def do_of_block(self):
        self.hold_bad(self.specifiers[-1].is_bad())

    def do_without_storage(self):
        self.hold_bad(self.specifiers[-1].is_bad(*STORAGE, "inline", "_Noreturn"))

    def do_of_parameter(self):
        if not self.specifiers[-1].types():
            self.hold(self.specifiers[-1].first, 32)
        self.hold_bad(self.specifiers[-1].is_bad("typedef", "extern", "static", "auto", "inline", "_Noreturn"))

    def do_typed(self):
        self.hold_bad(not self.specifiers[-1].types())

    def do_alone(self):
        self.hold_bad(self.specifiers[-1].words and not self.specifiers[-1].types())

    # Declarators: what stands next to the name is what is declared.

    def do_stars(self):
        self.stars.append(0)

    def do_pointer(self):
        self.stars[-1] += 1

    def do_named(self):
        self.declarators.append(Declarator(self.at - 1))

    def do_nameless(self):
        self.declarators.append(Declarator(None))

    def do_bracket(self):
        self.stop_where(49, "const", "volatile", "restrict", "static")

    def do_array(self):
        self.declarators[-1].first = self.declarators[-1].first or "array"

    def do_open(self):
        self.scopes.append({})

    def do_function(self):
        bound = self.scopes.pop()
        declarator = self.declarators[-1]
        if declarator.first is None:
            declarator.first, declarator.parameters = "function", bound

    def do_declarator(self):
        if self.stars.pop() and self.declarators[-1].first is None:
            self.declarators[-1].first = "pointer"

    def do_drop(self):
        self.declarators.pop()

    def do_unnamed(self):
        name = self.declarators.pop().name
        if name is not None:
            self.stop(name, 28, BAD)

    # Lists of parameters and of arguments

    def do_list(self):
        self.counts.append(0)

    def do_count(self):
        self.counts[-1] += 1
        if self.counts[-1] > MOST_PARAMETERS:
            self.pass_limit(b"parameters")

    def do_ended(self):
        self.counts.pop()

    # Names: in one scope a typedef may be declared again as one, and what has linkage as such.

    def declare(self, at, kind):
        name = meant(self.tokens[at])
        old = self.scopes[-1].get(name)
        if old is not None and (old != kind or kind not in ("typedef", "linked")):
            self.stop(at, 22, f"'{name.decode('latin-1')}' redeclared")
        self.scopes[-1][name] = kind

    def do_bind(self):
        self.bound = self.declarators.pop()
        is_linked = len(self.scopes) == 1 or self.specifiers[-1].has("extern") or self.bound.first == "function"
        kind = "typedef" if self.specifiers[-1].has("typedef") else "linked" if is_linked else "unlinked"
        self.declare(self.bound.name, kind)

    def do_parameter(self):
        declarator = self.declarators.pop()
        if declarator.name is not None:
            self.declare(declarator.name, "unlinked")

    def do_held(self):
        self.enumerators.append(self.at - 1)

    def do_enumerator(self):
        self.declare(self.enumerators.pop(), "enumerator")

    def do_use(self):
        name = meant(self.tokens[self.at - 1])
        if self.found(name) is None:
            self.stop(self.at - 1, 21, f"'{name.decode('latin-1')}' is not declared")

    # Literals, told at themselves; of strings in a row the first bad one

    def heed_literal(self, at, error):
        if error is not None:
            self.stop(at, error, literals.TEXTS[error])

    def do_number(self):
        self.heed_literal(self.at - 1, literals.of_number(self.tokens[self.at - 1].spelled))

    def do_character(self):
        self.heed_literal(self.at - 1, literals.of_character(self.tokens[self.at - 1].spelled))

    def do_piece(self):
        self.pieces.append(self.at - 1)

    def do_strings(self):
        for at in self.pieces:
            self.heed_literal(at, literals.of_string(self.tokens[at].spelled))
        self.pieces = []

    # Attribute lists, and context statements

    def do_listed(self):
        self.attributes = self.at - 1

    def do_attributes(self):
        first = self.attributes + 3
        refused = refused_item(self.tokens[first : self.at - 2])
        if refused == STEP:
            raise Passed(b"context step")
        if refused is not None:
            self.stop(first + refused, 23, "bad attribute")

    def do_context(self):
        self.context = self.at - 1

    def do_change(self):
        change = change_shown(self.tokens[self.context + 2 : self.at - 2])
        if change == CHANGE:
            self.stop(self.context, 23, "bad attribute")
        if change == CHANGE_STEP:
            raise Passed(b"context step")

    # Bodies

    def do_note(self):
        if self.bodies and self.bound.first == "function":
            self.stop_where(33, "{")

    def do_body(self):
        if self.bound.first != "function" or self.specifiers[-1].has("typedef"):
            self.hold(self.at, 28, BAD)
        self.awaited = self.bound.parameters

    def do_scope(self):
        self.scopes.append(self.awaited or {})
        self.awaited = None
        self.bodies += 1

    def do_leave(self):
        self.scopes.pop()
        self.bodies -= 1

    # Forms that are told by what was expected

    def do_goto(self):
        self.stop_where(34, "*")

    def do_case(self):
        self.stop_where(43, "...")

    def do_range(self):
        self.stop_where(44, "...")

    # The arguments of attributes and of contexts may hold any word.

    def do_spare(self):
        self.is_spared = True

    def do_heed(self):
        self.is_spared = False


def refusal(tokens):
    """The index of the token at which reading these ends, and the text of the error; None if they are read. A limit that is passed
    is told as those of macros are.
    """
    try:
        Reader(tokens).read()
    except Unread as found:
        return found.args
    return None


def chosen_rows(tokens):
    """The rows that reading these chooses, each a symbol and the number of its row."""
    reader = Reader(tokens)
    try:
        reader.read()
    except (Unread, Passed):
        pass
    return reader.chosen
