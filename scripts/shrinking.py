"""Makes a text smaller, as long as it shows a difference."""
import re

# Lines, then words and blanks, then bytes
PARTS = (rb"[^\n]*\n|[^\n]+", rb"\w+|\s+|[^\w\s]", rb"(?s:.)")


def fewest(parts, differs):
    """What is left of the parts when none of them can be left out."""
    size = max(len(parts) // 2, 1)
    while size:
        at = 0
        while at < len(parts):
            others = parts[:at] + parts[at + size :]
            if differs(b"".join(others)):
                parts = others
            else:
                at += size
        size //= 2
    return parts


def shrunk(text, differs):
    """A small text with a difference, made of one that has it."""
    for part in PARTS:
        text = b"".join(fewest(re.findall(part, text), differs))
    return text
