"""Reads what a server answers to FETCH (RFC 3501, 7.4.2): items by name, strings, numbers, NIL and lists."""

import re

ATOM = re.compile(rb'(?:\[(?:"(?:[^"\\]|\\.)*"|[^\]"])*\]|[^ ()\[\]"{])+')
QUOTED = re.compile(rb'"((?:[^"\\\r\n]|\\["\\])*)"')
LITERAL = re.compile(rb"\{(\d+)\}\r\n")


class Reply:
    """Octets that are read from their beginning."""

    def __init__(self, octets):
        self.octets, self.at = octets, 0

    def match(self, form):
        found = form.match(self.octets, self.at)
        if found:
            self.at = found.end()
        return found

    def value(self):
        """A list, octets, a number, or None for NIL. An atom is octets too."""
        while self.octets[self.at : self.at + 1] == b" ":
            self.at += 1
        if self.octets[self.at : self.at + 1] == b"(":
            return self.values()
        found = self.match(QUOTED)
        if found:
            return re.sub(rb"\\(.)", rb"\1", found[1])
        found = self.match(LITERAL)
        if found:
            self.at += int(found[1])
            return self.octets[self.at - int(found[1]) : self.at]
        found = self.match(ATOM)
        if not found:
            raise ValueError(f"no value at {self.at} of {self.octets!r}")
        return None if found[0] == b"NIL" else int(found[0]) if found[0].isdigit() else found[0]

    def values(self):
        self.at += 1
        found = []
        while self.octets[self.at : self.at + 1] != b")":
            found.append(self.value())
        self.at += 1
        return found


def items_in(data):
    """The items of each message, by its number, of what imaplib gives for a FETCH."""
    octets = b"".join(it[0] + b"\r\n" + it[1] if isinstance(it, tuple) else it for it in data if it)
    reply, found = Reply(octets), {}
    while reply.at < len(octets):
        number, pairs = reply.value(), reply.value()
        found[number] = {name.decode(): value for name, value in zip(pairs[::2], pairs[1::2], strict=True)}
    return found


def is_multipart(structure):
    return isinstance(structure[0], list)


def is_message(structure):
    """Whether a structure has an envelope and a structure in it."""
    return not is_multipart(structure) and structure[0] == b"message" and len(structure) > 8 and isinstance(structure[7], list)


def count_of_parts(structure):
    return next(at for at, it in enumerate(structure) if not isinstance(it, list))


def parts_of(structure, path=()):
    """Path and structure of each part, the outer before the inner: what a number of a section names (RFC 3501, 6.4.5)."""
    for number, child in enumerate(structure[: count_of_parts(structure)] if is_multipart(structure) else [structure], 1):
        here = (*path, number)
        yield here, child
        if is_multipart(child):
            yield from parts_of(child, here)
        elif is_message(child):
            yield from parts_of(child[8], here)


def without_extension(structure):
    """What BODY tells, of what BODYSTRUCTURE tells."""
    if is_multipart(structure):
        count = count_of_parts(structure)
        return [*map(without_extension, structure[:count]), structure[count]]
    if is_message(structure):
        return [*structure[:8], without_extension(structure[8]), structure[9]]
    return structure[:-4]
