"""The words of a command, and a line that it writes."""
from .scanning import IS_WORD

KEPT_WORDS = (b"eval", b"gen", b"link", b"index", b"annotate")
ON = (b"address-space", b"bitwise", b"context", b"non-pointer-null")
OFF = (b"cast-to-as", b"decl", b"shadow", b"undef", b"return-void", b"do-while", b"strict-prototypes",
       b"one-bit-signed-bitfield", b"cast-truncate")

CLEAN, WARNED, REFUSED, USAGE, LIMIT = 0, 1, 2, 3, 7


class BadWord(Exception):
    """A word that no rule allows."""


class Command:
    """The words of a command, read."""

    def __init__(self, words):
        self.expands = False
        self.directories = []
        self.lines = b""
        self.classes = set(ON)
        self.file = None
        for number, word in enumerate(words):
            if number == 0 and word in KEPT_WORDS or not self.takes(word):
                raise BadWord(word)

    def takes(self, word):
        """Takes a word, where it is none that no rule allows."""
        if not word.startswith(b"-"):
            is_first = self.file is None
            self.file = word if is_first else self.file
            return is_first
        if word == b"-E":
            self.expands = True
            return True
        value = word[2:]
        takes = {b"-I": self.takes_directory, b"-D": self.takes_definition, b"-U": self.takes_name, b"-W": self.takes_class}
        return word[:2] in takes and takes[word[:2]](value)

    def takes_directory(self, value):
        self.directories.append(value)
        return value != b""

    def takes_definition(self, value):
        name, equals, text = value.partition(b"=")
        self.lines += b"#define %b %b\n" % (name, text if equals else b"1")
        return IS_WORD.fullmatch(name) and b"\n" not in text

    def takes_name(self, value):
        self.lines += b"#undef %b\n" % value
        return IS_WORD.fullmatch(value)

    def takes_class(self, value):
        is_off = value.startswith(b"no-")
        name = value[3:] if is_off else value
        (self.classes.discard if is_off else self.classes.add)(name)
        return name in ON + OFF


def line(paths, place, text):
    return b"%b:%d:%d: %b\n" % (paths[place.file], place.line, place.column, text)
