"""The parts of pages that are written by what measures or tries something, each between two lines of its own."""

import os

DOCS = os.path.join(os.path.dirname(os.path.dirname(os.path.abspath(__file__))), "docs")


class Part:
    """A part of a page, by the command that writes it, and what it shows."""

    def __init__(self, page, command, name):
        self.path = os.path.join(DOCS, page)
        self.begin, self.end = f"<!-- {name}: {command} -->", f"<!-- end of {name} -->"

    def lines(self, lines):
        """The part with these lines."""
        return [self.begin, "", *lines, "", self.end]

    def write(self, lines):
        """Puts these lines into the page, in the place of those that the part has there."""
        with open(self.path, encoding="utf-8") as file:
            before, begin, rest = file.read().partition(self.begin)
        _, end, after = rest.partition(self.end)
        if not begin or not end:
            raise SystemExit(f"{self.path} has no part {self.begin}")
        with open(self.path, "w", encoding="utf-8") as file:
            file.write(before + "\n".join(self.lines(lines)) + after)
