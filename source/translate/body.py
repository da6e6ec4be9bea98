"""The lines of a function in C, while they are written: its temporaries, and the values that wait on the stack."""
import re

from .values import Value

# A longer expression gets a temporary.
LONGEST = 100
ASSIGNMENT = re.compile(r"    ([lt][0-9]+) = (.*)$")
VARIABLE = re.compile(r"\b[lt][0-9]+\b")


class Body:
    def __init__(self):
        self.lines, self.stack = [], []
        self.temporaries = {}  # their types
        self.called = set()  # the temporaries whose values are results of calls

    def line(self, text):
        self.lines.append(f"    {text}")

    def push(self, value):
        self.stack.append(self.hold(value) if len(value.text) > LONGEST else value)

    def pop(self, count):
        """The newest values, the newest last."""
        values = self.stack[len(self.stack) - count:]
        del self.stack[len(self.stack) - count:]
        return values

    def temporary(self, type):
        name = f"t{len(self.temporaries)}"
        self.temporaries[name] = type
        return Value(name, type, is_atom=True, is_temporary=True)

    def hold(self, value, is_call=False):
        """Keeps a value as it is now."""
        held = self.temporary(value.type)
        self.line(f"{held.text} = {value.typed()};")
        if is_call:
            self.called.add(held.text)
        return held

    def settle(self, is_changed):
        """Keeps the values on the stack that would change."""
        self.stack = [self.hold(value) if is_changed(value) else value for value in self.stack]

    def settle_memory(self):
        self.settle(lambda value: value.depends)

    def settle_all(self):
        self.settle(lambda value: not value.is_fixed)

    def drop_unread(self):
        """Leaves out what is assigned to variables that nothing reads, but not calls. Returns which variables are read."""
        while True:
            text = [line for line in self.lines if line is not None]
            counts = {}
            for line in text:
                match = ASSIGNMENT.match(line)
                for name in VARIABLE.findall(match[2] if match else line):
                    counts[name] = counts.get(name, 0) + 1
            kept = [self.without(line, counts) for line in text]
            self.lines = kept
            if kept == text:
                return counts

    def without(self, line, read):
        match = ASSIGNMENT.match(line)
        if not match or match[1] in read:
            return line
        return f"    {match[2]}" if match[1] in self.called else None
