"""The tokens of structured values, their comments, phrases and squeezed text. Nothing here was taken from the program.

A value is unfolded and has no white (space or tab) at its ends. Its tokens are gaps (runs of white), comments (balanced
parentheses, at most 64 deep), quoted texts, literals (`[` to `]`, in Mail style), specials, and atoms, which are the longest
runs of all else. In comments, quotes and literals a `\\` and a character are a quoted pair. A lone `)`, `]` in Mail style or
`\\`, an unclosed group, and a control octet other than tab outside quotes and comments have no token list."""

import re
from typing import NamedTuple

from oracle import units

DEPTH_MAX = 64
SPECIALS = {"Mail": b"<>:;@,.", "Mime": b"<>@,;:/[]?="}
GAP = re.compile(rb"[ \t]+")
QUOTED = re.compile(rb'"((?:\\.|[^"\\])*)"', re.DOTALL)
LITERAL = re.compile(rb"\[(?:\\[^\0-\x08\x0a-\x1f\x7f]|[^\[\]\\\0-\x08\x0a-\x1f\x7f])*\]")
ATOM = {
    "Mail": re.compile(rb'[^\0- \x7f()"\\\[\]<>:;@,.]+'),
    "Mime": re.compile(rb'[^\0- \x7f()"\\<>@,;:/\[\]?=]+'),
}


class Malformed(Exception):
    """The value isn't in its grammar."""


class Token(NamedTuple):
    kind: str
    octets: bytes

    def is_blank(self):
        return self.kind in ("gap", "comment")


def tokens(text, style):
    """The tokens of a value; or Malformed."""
    found, at = [], 0
    while at < len(text):
        token = token_at(text, at, style)
        found.append(token)
        at += len(token.octets)
    return found


def token_at(text, at, style):
    if text[at : at + 1] == b"(":
        return Token("comment", text[at : comment_end(text, at)])
    patterns = [("gap", GAP), ("quoted", QUOTED), ("atom", ATOM[style])]
    if style == "Mail":
        patterns.append(("literal", LITERAL))
    for kind, pattern in patterns:
        match = pattern.match(text, at)
        if match:
            return Token(kind, match[0])
    if text[at] in SPECIALS[style]:
        return Token("special", text[at : at + 1])
    raise Malformed


def comment_end(text, begin):
    """The place behind the comment that begins here."""
    depth, at = 0, begin
    while at < len(text):
        octet = text[at : at + 1]
        if octet == b"\\":
            at += 1
        elif octet == b"(":
            depth += 1
            if depth > DEPTH_MAX:
                raise Malformed
        elif octet == b")":
            depth -= 1
            if depth == 0:
                return at + 1
        at += 1
    raise Malformed


def comment_items(comment):
    """What a comment has between its parentheses: runs of text without white at their ends, and nested comments, in order."""
    inner, items, begin, at = comment[1:-1], [], 0, 0
    while at < len(inner):
        if inner[at : at + 1] == b"(":
            items.append(("run", units.trimmed_run(inner[begin:at])))
            begin = comment_end(inner, at)
            items.append(("comment", inner[at:begin]))
            at = begin
        else:
            at += 2 if inner[at : at + 1] == b"\\" else 1
    items.append(("run", units.trimmed_run(inner[begin:])))
    return [(kind, octets) for kind, octets in items if octets]


def comments(found):
    return [token.octets for token in found if token.kind == "comment"]


def text_of(found):
    return b"".join(token.octets for token in found)


def without_gaps_first(found):
    """The tokens from the first one on that is no gap."""
    return found[1:] if found and found[0].kind == "gap" else found


def words_of(found):
    return [token for token in found if not token.is_blank()]


def at_last_word(found):
    """The tokens up to the last one that is no gap and no comment, and those behind it."""
    end = max((number + 1 for number, token in enumerate(found) if not token.is_blank()), default=0)
    return found[:end], found[end:]


def neighbours(found):
    """Each token that is no gap and no comment, and whether one of these stands before it and behind it; the ends count as such."""
    for at, token in enumerate(found):
        if not token.is_blank():
            yield token, at == 0 or found[at - 1].is_blank(), at + 1 == len(found) or found[at + 1].is_blank()


def squeezed(found):
    """The tokens without comments, with one space where a gap or comment stood between two."""
    text = b""
    for token, is_blank_before, _ in neighbours(found):
        text += (b" " if is_blank_before and text else b"") + token.octets
    return text


def split(found, special):
    """The tokens between such specials."""
    places = [[]]
    for token in found:
        if token == Token("special", special):
            places.append([])
        else:
            places[-1].append(token)
    return places


def phrase_of(place):
    """The tokens from the first word of a phrase to its last one, gaps and comments between, where nothing else is there.

    The words of a phrase are atoms, quoted texts and dots."""
    at = [number for number, token in enumerate(place) if not token.is_blank()]
    if not at or not all(is_phrase_word(place[number]) for number in at):
        raise Malformed
    return place[at[0] : at[-1] + 1]


def is_phrase_word(token):
    return token.kind in ("atom", "quoted") or token == Token("special", b".")


def phrase_units(phrase):
    """What a phrase says. An atom with a gap, a comment or the phrase's end on both sides may be an encoded word."""
    parts, is_first, was_encoded = [], True, False
    for token, is_blank_before, is_blank_behind in neighbours(phrase):
        told = units.decoded(token.octets) if token.kind == "atom" and is_blank_before and is_blank_behind else None
        is_encoded = told is not None
        if is_blank_before and not is_first and not (was_encoded and is_encoded):
            parts.append(b" ")
        if not is_encoded:
            told = units.resolved(token.octets[1:-1]) if token.kind == "quoted" else token.octets
        parts.append(told)
        is_first, was_encoded = False, is_encoded
    return units.joined(parts)
