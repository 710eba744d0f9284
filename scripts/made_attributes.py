"""Random attribute lists and context statements, for scripts/fuzz.py."""

WORDS = ["address_space", "context", "aligned", "noderef", "bitwise", "force", "packed", "noreturn", "const", "while"]
INTEGERS = ["0", "1", "2", "010", "0x10u", "16", "65536", "131072", "1000000", "1000001", "4294967295", "4294967296ul"]
OTHERS = ["a", "__user", "while", "-1", "+ 2", "- - 1", "'a'", "09", "1.0", "__extension__", "__extension__ 1", '"s"', ""]
AROUND = [("", ""), ("", ""), ("__", "__"), ("__", ""), ("", "__"), ("_", "_")]


def argument(chance):
    """What stands between two commas."""
    if chance.randrange(10) == 0:
        return f"({argument(chance)}, {argument(chance)})"
    return chance.choice(INTEGERS if chance.randrange(4) else OTHERS)


def arguments(chance, counts):
    """What stands between parentheses: so many arguments, or sometimes another number of them."""
    count = chance.choice(counts) if chance.randrange(5) else chance.randrange(5)
    return ", ".join(argument(chance) for _ in range(count))


def item(chance):
    """An item of a list, seldom an empty one."""
    if chance.randrange(8) == 0:
        return chance.choice(["", "__extension__"])
    before, behind = chance.choice(AROUND)
    # those that look at their arguments are more than half of the choices
    word = chance.choice(WORDS[:3] if chance.randrange(2) else WORDS)
    between = arguments(chance, (2, 3) if word == "context" else (1,))
    return before + word + behind + (f"({between})" if chance.randrange(4) else "")


def attribute_lists(chance):
    return "".join(", ".join(item(chance) for _ in range(chance.randrange(4))) + "\n" for _ in range(10))


def context_statements(chance):
    return "".join(arguments(chance, (1, 2)) + "\n" for _ in range(10))
