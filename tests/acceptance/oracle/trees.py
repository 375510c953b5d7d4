"""The entities of a message (RFC 2045, RFC 2046), and its surrogate. Nothing here was taken from the program.

An entity has a header block, an empty line, and a content. Its first Content-Type, where that is well-formed, and its first
Content-Transfer-Encoding tell whether the content is opened:

- It isn't, where the encoding is there and isn't 7bit, 8bit or binary as one atom, nor at a depth of 33.
- The content of message/rfc822 and message/global is one entity. So is the content of a part of multipart/digest that has no
  Content-Type.
- The content of multipart has parts, where the first parameter `boundary` is a text of 1 to 70 octets: letters, digits,
  `'()+,-./:=?_` and spaces, of which none is last. A part stands between two lines `--boundary`, with white behind. A line
  `--boundary--`, with white behind, ends the last part; so does the end of the content. The CRLF before such a line isn't
  the part's.

Each field of a block is rewritten. In an opened message/global a Content-Type says message/rfc822."""

import re
from typing import NamedTuple

from oracle import layout, parameters, tokens
from oracle.blocks import parts_of, read_block

DEPTH_MAX = 32
IDENTITY = (b"7bit", b"8bit", b"binary")
MESSAGES = (b"message/rfc822", b"message/global")
BOUNDARY = re.compile(rb"[A-Za-z0-9'()+,./:=?_ -]{0,69}[A-Za-z0-9'()+,./:=?_-]")
LINE = re.compile(rb".*?\r\n|.+\Z", re.DOTALL)


class Opening(NamedTuple):
    """How a content is opened: as a message, or by a boundary; whether its parts are those of a digest; and whether it is a message/global."""

    boundary: object
    is_digest: bool
    is_global: bool


ONE_MESSAGE = Opening(None, False, False)


class Figures:
    """What is counted of a message: its entities, the fields that are rewritten, and those that aren't ASCII."""

    def __init__(self, octets):
        self.entities = self.rewritten = self.high = 0
        self.served = len(entity(octets, 0, False, 1, self.block))

    def block(self, fields, in_global):
        made = [surrogate_field(raw, in_global) for raw in fields]
        self.entities += 1
        self.rewritten += sum(one != other for one, other in zip(made, fields))
        self.high += sum(not raw.isascii() for raw in fields)
        return b"".join(made)


def surrogate(octets):
    """The surrogate of a message; or Refused, where a block has a fault."""
    return entity(octets, 0, False, 1, lambda fields, in_global: b"".join(surrogate_field(raw, in_global) for raw in fields))


def check(octets):
    """Refused, where a block of the message has a fault."""
    entity(octets, 0, False, 1, lambda fields, _: b"".join(fields))


def mark_of(octets):
    """The mark of a message: 1 where a block isn't ASCII, and 2 where any octet isn't, or both together; or Refused, where a block has a fault."""
    blocks = []

    def look(fields, _):
        blocks.extend(fields)
        return b""

    entity(octets, 0, False, 1, look)
    return (0 if all(map(bytes.isascii, blocks)) else 1) + (0 if octets.isascii() else 2)


def entity(octets, place, in_digest, depth, rewrite):
    """An entity that stands at this place, with the fields of its block rewritten so, and those of the entities in it."""
    fields, rest = read_block(octets, place)
    opening = opening_of(fields, in_digest) if depth <= DEPTH_MAX else None
    made = rewrite(fields, opening is not None and opening.is_global)
    content = rest[2:]
    inner = place + len(octets) - len(content)
    if opening is None:
        return made + rest
    if opening.boundary is None:
        return made + rest[:2] + entity(content, inner, False, depth + 1, rewrite)
    return made + rest[:2] + divided(content, inner, opening, depth + 1, rewrite)


def divided(content, place, opening, depth, rewrite):
    """A content of parts, rewritten."""
    delimiter = re.compile(rb"--" + re.escape(opening.boundary) + rb"[ \t]*(\r\n)?")
    close = re.compile(rb"--" + re.escape(opening.boundary) + rb"--[ \t]*(\r\n)?")
    made, done, in_part = b"", 0, False
    for line in LINE.finditer(content):
        is_close = in_part and close.fullmatch(line[0])
        if not is_close and not delimiter.fullmatch(line[0]):
            continue
        if in_part:
            between = content[done : line.start()]
            part = between.removesuffix(b"\r\n")
            made += entity(part, place + done, opening.is_digest, depth, rewrite) + between[len(part) :]
        else:
            made += content[done : line.start()]
        made += line[0]
        done, in_part = line.end(), not is_close
        if is_close:
            break
    return made + (entity(content[done:], place + done, opening.is_digest, depth, rewrite) if in_part else content[done:])


def opening_of(fields, in_digest):
    """How an entity is opened, or None."""
    encoding, kind = value_named(fields, layout.ENCODING), value_named(fields, parameters.TYPE)
    if encoding is not None and not is_identity(encoding):
        return None
    if kind is None:
        return ONE_MESSAGE if in_digest else None
    try:
        body = parameters.read(kind, True)
    except tokens.Malformed:
        return None
    main = body.main.lower()
    if main in MESSAGES:
        return Opening(None, False, main == MESSAGES[1])
    boundary = boundary_of(body)
    return Opening(boundary, main == b"multipart/digest", False) if main.startswith(b"multipart/") and boundary else None


def boundary_of(body):
    named = [parameter for parameter in body.parameters() if parameter.name == b"boundary"]
    is_usable = named and named[0].charset is None and BOUNDARY.fullmatch(named[0].octets)
    return named[0].octets if is_usable else None


def value_named(fields, wanted):
    """The value of the first field of this name, or None."""
    for raw in fields:
        name, body, _ = parts_of(raw)
        if name.lower() == wanted:
            return layout.value_of(body)
    return None


def is_identity(value):
    try:
        words = tokens.words_of(tokens.tokens(value, "Mime"))
    except tokens.Malformed:
        return False
    return len(words) == 1 and words[0].kind == "atom" and words[0].octets.lower() in IDENTITY


def surrogate_field(raw, in_global=False):
    """The field that is made of one."""
    name, body, ending = parts_of(raw)
    if raw.isascii():
        is_type = in_global and name.lower() == parameters.TYPE
        return raw[: len(raw) - len(body + ending)] + parameters.without_global(body) + ending if is_type else raw
    made, pieces = layout.made_field(name, body)
    if in_global and name.lower() == parameters.TYPE and pieces[0].removesuffix(b";").lower() == b" message/global":
        pieces[0] = b" message/rfc822" + pieces[0][len(b" message/global") :]
    return made + b":" + b"".join(b"\r\n" + piece for piece in pieces) + ending
