"""Random initializers over types of objects: flat, nested, designated, elided, strings; now and then one that is wrong."""
from typing import NamedTuple


class Scalar(NamedTuple):
    """The words of its type, and what value it wants: `int`, or the pointer `p`; the width of a bit-field."""

    words: str
    shape: str
    width: str = ""


class Array(NamedTuple):
    element: "Scalar | Array | Aggregate"
    length: int | None


class Aggregate(NamedTuple):
    """The words of a structure or a union, and its members that hold something, those without a name too."""

    words: str
    members: tuple
    is_union: bool = False


INT, USHORT, POINTER = Scalar("int", "int"), Scalar("unsigned short", "int"), Scalar("int *", "p")
SCALARS = [
    INT, INT, Scalar("char", "int"), Scalar("unsigned char", "int"), Scalar("short", "int"), Scalar("long", "int"), POINTER,
    Scalar("char *", "p"),
]
CHARACTERS = ("char", "signed char", "unsigned char")


def declared(of, name):
    """The declaration of a name of a type."""
    behind = f" : {of.width}" if isinstance(of, Scalar) and of.width else ""
    while isinstance(of, Array):
        behind += " [ ]" if of.length is None else f" [ {of.length} ]"
        of = of.element
    return f"{of.words} {name}{behind}"


def type_name(of):
    return declared(of, "").strip()


def body(keyword, members, between=()):
    """The words of an aggregate with these members, and with members that hold nothing before some of them."""
    lines = []
    for number, (name, of) in enumerate(members):
        lines += [f"{text} ;" for at, text in between if at == number]
        lines.append(f"{declared(of, name)} ;")
    return f"{keyword} {{ {' '.join(lines)} }}"


def is_of_characters(of):
    return isinstance(of, Array) and of.element in [Scalar(words, "int") for words in CHARACTERS]


def named(of):
    """The names of the members of an aggregate, and what each is, those of members without a name too."""
    found = []
    for name, member in of.members:
        found += [(name, member)] if name else named(member)
    return found


def parts(of):
    """The parts of an array or an aggregate that items fill one behind the other; of an array without a length some."""
    if isinstance(of, Array):
        return [of.element] * (3 if of.length is None else of.length)
    return [member for _, member in of.members][: 1 if of.is_union else None]


class Initializers:
    """Makes initializers by chance. `value` makes an expression for a scalar, and one or None for an aggregate; `slip` is how many of a
    hundred choices are wrong ones, and `designated` how many lists of items end with designated ones."""

    def __init__(self, chance, value, slip=0, scalars=SCALARS, designated=30):
        self.chance = chance
        self.value = value
        self.slip = slip
        self.scalars = scalars
        self.designated_often = designated

    def often(self, percent):
        return self.chance.randrange(100) < percent

    # Types

    def type(self, depth, prefix="n"):
        """A type of an object; `prefix` begins the names of its members."""
        kind = self.chance.randrange(10)
        if depth <= 0 or kind < 2:
            return self.chance.choice(self.scalars)
        if kind == 2:
            return Array(Scalar(self.chance.choice(CHARACTERS), "int"), self.chance.choice([1, 3, 4, 9]))
        if kind < 6:
            return Array(self.type(depth - 1, prefix), self.chance.choice([1, 2, 2, 3]))
        return self.aggregate(depth, prefix)

    def aggregate(self, depth, prefix):
        keyword = self.chance.choice(["struct", "struct", "struct", "union"])
        members, between = [], []
        for number in range(self.chance.choice([1, 2, 3, 4])):
            name = f"{prefix}{'abcd'[number]}"
            of = self.type(depth - 1, name)
            if isinstance(of, Aggregate) and self.often(30):
                members.append(("", of))
                continue
            if of in (INT, USHORT) and self.often(40):
                of = of._replace(width=str(self.chance.choice([1, 3, 5, 16])))
            if self.often(12):
                between.append((number, self.chance.choice(["int : 3", "int : 0", "unsigned char : 1"])))
            members.append((name, of))
        return Aggregate(body(keyword, members, between), tuple(members), keyword == "union")

    # Initializers

    def initializer(self, of):
        """The initializer of an object or of a part."""
        if isinstance(of, Scalar):
            return self.value(of) if self.often(80) else self.in_braces(of)
        if is_of_characters(of) and self.often(70):
            return self.string(of)
        if isinstance(of, Aggregate) and self.often(15):
            return self.value(of) or self.braced(of)
        return self.braced(of)

    def in_braces(self, of):
        """A scalar in braces."""
        value = self.value(of)
        return self.chance.choice([f"{{ {value} }}", f"{{ {value} }}", f"{{ {value} , }}", f"{{ {{ {value} }} }}", "{ }"])

    def string(self, of):
        """A string for an array, which fills it, leaves out the last zero, or is shorter."""
        most = self.chance.choice([4, 7]) if of.length is None else of.length
        size = most + 1 if self.often(self.slip) else self.chance.randrange(most + 1)
        text = f'"{"abcdefghij"[:size]}"'
        return f"{{ {text}{' , 1' if self.often(self.slip) else ''} }}" if self.often(20) else text

    def braced(self, of):
        items = self.items(of)
        if self.often(self.slip):
            items += self.chance.choice([["1"], ["{ 1 }"], ["{ }"], ['"ab"'], ["1", "[ 0 ] = 2"]])
        return f"{{ {' , '.join(items)}{' ,' if items and self.often(15) else ''} }}"

    def items(self, of):
        """The items for the parts in order, as far as they go, then designated ones."""
        found = []
        if self.often(80):
            for part in parts(of):
                if self.often(5):
                    break
                found += self.items_of(part)
        if not found or self.often(self.designated_often):
            for _ in range(self.chance.choice([0, 1, 1, 2])):
                found += self.designated(of)
        return found

    def items_of(self, of):
        """The items for a part: one for the whole, or those for its parts."""
        if isinstance(of, Scalar) or self.often(50):
            return [self.initializer(of)]
        found = [item for part in parts(of) for item in self.items_of(part)]
        if found and found[0].startswith("{") and not self.often(self.slip):
            # the braces would be those of the whole part
            return [f"{{ {' , '.join(found)} }}"]
        return found[: self.chance.randrange(len(found) + 1)] if self.often(self.slip) else found

    def designated(self, of):
        """An item with designators, and now and then what stands behind its part."""
        text, part = self.designators(of)
        if not text:
            return []
        found = [f"{text} = {self.initializer(part)}"]
        if self.often(25):
            found = [f"{text} = {item}" if number == 0 else item for number, item in enumerate(self.items_of(part))] or found
        return found + [self.value(INT) for _ in range(self.chance.choice([0, 0, 0, 0, 0, 1, 2]))]

    def designators(self, of):
        """Designators that lead down, and to what."""
        text = ""
        while not isinstance(of, Scalar) and (not text or self.often(45)):
            if self.often(self.slip):
                wrong = [". none_such", "[ 9 ]", "[ - 1 ]", "[ i ]", "[ 0 ]", ". na", "[ 1099511627776 ]", "[ none ( ) ]"]
                return f"{text} {self.chance.choice(wrong)}".strip(), of
            if isinstance(of, Array):
                most = 4 if of.length is None else of.length
                number, of = self.chance.randrange(most) if most else 0, of.element
                text += f" [ {self.chance.choice([number, number, f'{number} + 0'])} ]"
                continue
            names = named(of)
            if not names:
                break
            name, of = self.chance.choice(names)
            text += f" . {name}"
        return text.strip(), of
