"""What is told of literals that have no value (C11 6.4.4, 6.4.5), by the numbers of errors."""
import re

from .conditions import INTEGER, literal

ELEMENT = re.compile(
    rb"""[^\\]|\\['"?\\abfnrtv]|\\(?P<octal>[0-7]{1,3})|\\x(?P<hexadecimal>[0-9A-Fa-f]+)"""
    rb"""|(?P<universal>\\u[0-9A-Fa-f]{4}|\\U[0-9A-Fa-f]{8})|(?P<unknown>\\.?)""",
    re.DOTALL,
)

BAD_NUMBER, TOO_LARGE, BAD_ESCAPE, EMPTY, UNIVERSAL = 24, 25, 26, 27, 41
TEXTS = {
    BAD_NUMBER: "bad number",
    TOO_LARGE: "number too large",
    BAD_ESCAPE: "bad escape or character constant",
    EMPTY: "empty character constant",
}


def of_number(spelled):
    """The error of a number that isn't floating, or None."""
    if not INTEGER.fullmatch(spelled):
        return BAD_NUMBER
    return TOO_LARGE if literal(spelled) is None else None


def of_element(found):
    if found["universal"]:
        return UNIVERSAL
    value = int(found["octal"] or b"0", 8) or int(found["hexadecimal"] or b"0", 16)
    return BAD_ESCAPE if found["unknown"] or value > 255 else None


def of_elements(spelled):
    """The error of each element between the quotation marks, or None for one that is a byte."""
    return [of_element(found) for found in ELEMENT.finditer(spelled[1:-1])]


def of_string(spelled):
    """The first error of a string literal without a prefix, or None."""
    return next((number for number in of_elements(spelled) if number), None)


def of_character(spelled):
    """The error of a character constant without a prefix, or None: at the second character there is one more than there may be."""
    found = of_elements(spelled)
    if not found:
        return EMPTY
    return found[0] or (found[1] or BAD_ESCAPE if len(found) > 1 else None)
