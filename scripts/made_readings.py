"""Random units by the grammar, and what a slip makes of them."""
from reference.grammar import ROWS
from reference.reading import ALIASES, NUMBER_OF_WORD

# Units are kept this small: past so many tokens each symbol is ended as soon as it can be.
MOST_TOKENS = 40
# What most units begin with, so that the names of their expressions are declared.
DECLARED = "typedef int t, u; int a, b, *p, f(int); struct s { int a, b; } s;"
FUNCTION = "int m ( int k )"
SPELLED = {
    "name": ["a", "b", "c", "d", "g", "h", "i", "k", "l", "m", "n", "t", "u"],
    "ident": ["a", "b", "p", "f", "s", "a", "b", "z"],
    "tname": ["t", "u"],
    "word": ["a", "noderef", "packed", "const", "__aligned__"],
    "other": ["a", "1", ";", "+", "{", "int", '"a"', "asm", "1.5", "__extension__"],
    "number": ["0", "1", "0x1f", "2u"],
    "character": ["'a'", "'\\n'"],
    "string": ['"a"', '""'],
}
DIGRAPHS = {"[": "<:", "]": ":>", "{": "<%", "}": "%>"}
ALIASES_OF = {}
for alias, keyword in ALIASES.items():
    ALIASES_OF.setdefault(keyword, []).append(alias.decode())
STRAY = [
    *[word.decode() for word in NUMBER_OF_WORD],
    *["__builtin_clz", "1.5", "L'a'", 'u8"a"', "\\u00e9", "@", "...", "&&", "_Imaginary", "__extension__", "else", "static", "case", "goto", "*"],
]


def least_tokens():
    """How many tokens each symbol derives at least."""
    least = {symbol: 10**6 for symbol in ROWS}
    changed = True
    while changed:
        changed = False
        for symbol, rows in ROWS.items():
            found = min(row_tokens(row, least) for row in rows)
            changed, least[symbol] = changed or found < least[symbol], min(found, least[symbol])
    return least


def row_tokens(row, least):
    return sum(1 if kind == "token" else least[name] for kind, name in row.items if kind != "action")


LEAST = least_tokens()


def spelled(chance, token):
    """A spelling of a token of the grammar."""
    if token in SPELLED:
        return chance.choice(SPELLED[token])
    if chance.randrange(8) == 0:
        return chance.choice([DIGRAPHS.get(token, token), *ALIASES_OF.get(token, [])])
    return token


def derived(chance):
    """The tokens of a random unit, chosen row by row."""
    tokens, stack = [], [("symbol", "External") for _ in range(chance.randrange(1, 4))]
    if chance.randrange(2):
        tokens, stack = FUNCTION.split(), [("symbol", "Body")]
    while stack:
        kind, name = stack.pop()
        if kind == "token":
            tokens.append(spelled(chance, name))
        elif kind == "symbol":
            rows = ROWS[name]
            least = min(row_tokens(row, LEAST) for row in rows)
            if len(tokens) + len(stack) > MOST_TOKENS:
                rows = [row for row in rows if row_tokens(row, LEAST) == least]
            stack.extend(reversed(chance.choice(rows).items))
    return tokens


def slipped(chance, tokens):
    """The tokens with one of them dropped, doubled, put in another's place, replaced, or the last."""
    at = chance.randrange(len(tokens))
    slip = chance.randrange(6)
    if slip == 0:
        return tokens[:at] + tokens[at + 1 :]
    if slip == 1:
        return tokens[: at + 1] + tokens[at:]
    if slip == 2:
        return tokens[:at] + tokens[at + 1 : at + 2] + tokens[at : at + 1] + tokens[at + 2 :]
    if slip == 3:
        return tokens[:at] + [spelled(chance, chance.choice(tokens))] + tokens[at + 1 :]
    if slip == 4:
        return tokens[:at] + [chance.choice(STRAY)] + tokens[at:]
    return tokens[: at + 1]


def unit(chance):
    """A text by the grammar, or with up to two slips."""
    tokens = derived(chance)
    for _ in range(chance.choice([0, 1, 1, 2])):
        tokens = slipped(chance, tokens) or tokens
    begin = DECLARED if chance.randrange(8) else ""
    return (begin + "\n" + " ".join(tokens) + "\n").encode()
