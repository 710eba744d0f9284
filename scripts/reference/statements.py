"""Labels and jumps of functions: what a jump belongs to, which labels a switch has, and where a label is that a `goto` names
(C11 6.8.1, 6.8.4.2, 6.8.6)."""
from . import constants, types


class Switch:
    """A switch: what is known of its value, and its labels so far."""

    def __init__(self, value):
        self.value = value if value is not None and value.type.form == "integer" else None
        self.numbers = set()
        self.has_default = False

    def number(self, constant):
        """The number of a label under the promoted kind of the value."""
        return constants.wrapped(constant.number, types.promoted(self.value.type).kind)


class Loop:
    """A loop."""


class Inside:
    """A statement expression."""


class Labels:
    """The labels of a function, or of what stands outside of every function, and the jumps to them."""

    def __init__(self):
        self.places = {}
        self.jumps = []


class Around:
    """What stands around a statement, the innermost last."""

    def __init__(self, found):
        self.found = found
        self.stack = []
        self.labels = None

    def insides(self):
        return [each for each in self.stack if isinstance(each, Inside)]

    def label(self, token, name):
        if name in self.labels.places:
            self.found.refuses(21, token, name)
        self.labels.places.setdefault(name, self.insides())

    def goto(self, token, name):
        self.labels.jumps.append((token, name, self.insides()))

    def leave_labels(self):
        """A function ends: where its jumps go."""
        for token, name, insides in self.labels.jumps:
            if name not in self.labels.places:
                self.found.refuses(20, token, name)
                continue
            behind = self.labels.places[name]
            if insides[: len(behind)] != behind:
                self.found.refuses(22, token)
        self.labels = None

    def jump(self, token, kinds):
        """A `break` or a `continue`."""
        if not any(isinstance(each, kinds) for each in self.stack):
            self.found.refuses(19, token)

    def switch(self, token):
        """The switch of a label, or None."""
        for number in range(len(self.stack) - 1, -1, -1):
            if isinstance(self.stack[number], Switch):
                if any(isinstance(each, Inside) for each in self.stack[number:]):
                    self.found.refuses(22, token)
                return self.stack[number]
        self.found.refuses(18, token)
        return None
