#!/usr/bin/env python3
"""The check of a file in the first form, written once more from the rules alone, for scripts/fuzz.py to compare with.

Nothing here is taken from the program. `answer` gives the status of a check and what it writes.
"""
import re

from reference.scanning import Opening, meant, scan

PLAIN = re.compile(rb"[A-Za-z_][A-Za-z0-9_]*")

# C11 6.4.1
KEYWORDS = set(
    b"auto break case char const continue default do double else enum extern float for goto if inline int long register "
    b"restrict return short signed sizeof static struct switch typedef union unsigned void volatile while _Alignas _Alignof "
    b"_Atomic _Bool _Complex _Generic _Imaginary _Noreturn _Static_assert _Thread_local".split()
)
PREDEFINED = set(b"__CHECKER__ __STDC__ __STDC_VERSION__ __LP64__ __FILE__ __LINE__ __COUNTER__".split())


class NotInForm(Exception):
    """The tokens aren't in the first form."""


def is_name(spelled):
    """It can name an object or a function."""
    words = KEYWORDS | {b"asm", b"typeof", b"_Pragma"}
    return PLAIN.fullmatch(spelled) and spelled not in words and not spelled.startswith(b"__")


def is_space(spelled):
    """It can stand for an address space."""
    if PLAIN.fullmatch(spelled):
        return spelled not in KEYWORDS | PREDEFINED
    return re.fullmatch(rb"[1-9][0-9]*", spelled) and int(spelled) <= 4294967295


class Reader:
    """The tokens of a unit, read one behind the other."""

    def __init__(self, found):
        self.found = found
        self.at = 0
        self.objects = {}
        self.names = set()
        self.failures = []

    def sees(self, wanted):
        return self.at < len(self.found) and meant(self.found[self.at]) == wanted

    def take(self, wanted):
        if not self.sees(wanted):
            raise NotInForm
        self.at += 1
        return self.found[self.at - 1].place

    def take_one(self, test):
        if self.at == len(self.found) or not test(self.found[self.at].spelled):
            raise NotInForm
        self.at += 1
        token = self.found[self.at - 1]
        return token.spelled, token.place

    def unit(self):
        while self.at < len(self.found):
            if self.sees(b"extern"):
                self.object()
            else:
                self.function()
        return self.failures

    def declare(self, name):
        if name in self.names:
            raise NotInForm
        self.names.add(name)

    def object(self):
        self.take(b"extern")
        self.take(b"int")
        noderef, space = self.attribute() if self.sees(b"__attribute__") else (False, None)
        stars = 0
        while self.sees(b"*"):
            self.take(b"*")
            stars += 1
        name, _ = self.take_one(is_name)
        self.take(b";")
        if stars > 3:
            raise NotInForm
        self.declare(name)
        self.objects[name] = (stars, noderef, space)

    def attribute(self):
        self.take(b"__attribute__")
        self.take(b"(")
        self.take(b"(")
        noderef, space = False, None
        while True:
            if self.sees(b"noderef"):
                self.take(b"noderef")
                noderef = True
            else:
                self.take(b"address_space")
                self.take(b"(")
                space, _ = self.take_one(is_space)
                self.take(b")")
            if not self.sees(b","):
                break
            self.take(b",")
        self.take(b")")
        self.take(b")")
        return noderef, space

    def function(self):
        self.take(b"void")
        name, _ = self.take_one(is_name)
        for wanted in (b"(", b"void", b")", b"{"):
            self.take(wanted)
        self.declare_behind(name)

    def declare_behind(self, name):
        """A function's own name is no object in its body."""
        while not self.sees(b"}"):
            self.statement()
        self.take(b"}")
        self.declare(name)

    def named_object(self):
        name, place = self.take_one(is_name)
        if name not in self.objects:
            raise NotInForm
        return self.objects[name], place

    def statement(self):
        left_place = self.take(b"*") if self.sees(b"*") else None
        through = left_place is not None
        target, place = self.named_object()
        left_place = left_place or place
        equals = self.take(b"=")
        address = not through and self.sees(b"&")
        if address:
            self.take(b"&")
        source, right_place = self.named_object()
        self.take(b";")
        if through:
            target = (target[0] - 1, *target[1:])
        if address:
            source = (source[0] + 1, *source[1:])
        if target[0] != source[0]:
            raise NotInForm
        self.access(left_place, target)
        if target[0] > 0 and target[1:] != source[1:]:
            self.failures += [(equals, b"warning: incorrect type in assignment (different address spaces)"),
                              (equals, b"   expected " + spelled_type(target)), (equals, b"   got " + spelled_type(source))]
        if not address:
            self.access(right_place, source)

    def access(self, place, accessed):
        stars, noderef, space = accessed
        if stars == 0 and noderef:
            self.failures.append((place, b"warning: dereference of noderef expression"))
        elif stars == 0 and space is not None:
            self.failures.append((place, b"warning: dereference in address space " + space))


def spelled_type(found):
    stars, noderef, space = found
    return b"int" + b" noderef" * noderef + (b" address_space(%b)" % space if space is not None else b"") + b" *" * stars


def line(place, text):
    return b"t.c:%d:%d: %b\n" % (place.line, place.column, text)


def answer(text):
    """The status of the check of `t.c` with this text, and what goes to standard error. Raises `NotInForm` where it isn't in the form."""
    try:
        failures = Reader(list(scan(1, text))).unit()
    except Opening as opening:
        return 2, line(*opening.args)
    return (1 if failures else 0), b"".join(line(*failure) for failure in failures)
