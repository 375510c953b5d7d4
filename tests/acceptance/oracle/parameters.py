"""Parameters of Content-Type and Content-Disposition (RFC 2231): what they say, and the pieces of the made field. Nothing here
was taken from the program.

A value is a main part, and parameters, each behind a `;`; places without a parameter are allowed. The main part is ASCII: for
a type two atoms with `/` between them, for a disposition one atom. A parameter is a name, `=`, and a quoted text or an unquoted
value, which is atoms and the specials `/[]?=` without gaps between. Gaps and comments may stand between all other tokens.

A name is `a`, `a*`, `a*n` or `a*n*`, where `a` has 1 to 60 ASCII octets other than `*`, and n has no leading zeros. The value of
`a*` and of `a*0*` is a charset, `'`, a language, `'` and a text; in every name with `*` last `%` and two digits stand for an
octet of the text, and no other `%` may be there. The pieces `a*n` and `a*n*` of one name, in any case, are one parameter at the
first of them; their numbers are 0 to k, each once, in any order.

A parameter is text where its octets are UTF-8 and it has no charset, an empty one or utf-8, or where they are ASCII and it has
us-ascii; else it is opaque, in lower case its charset, or the empty one. The layout:

- The main part is a piece, as it stands but for gaps and comments.
- A parameter that is ASCII as it is written gives a piece for each of its pieces, at its place, with the octets as they are.
- Another one is written at the place of its first piece, its name in lower case: `name*=`, the charset, `''`, and the octets, of
  which all but letters, digits and a few marks are `%XX`. Where these are more than 60, they are parts of at most 60 each, which
  end between characters, or between octets where the value is opaque: `name*0*=` with charset and `''`, `name*1*=`, and so on.
  But no parts are made where another parameter of the field has the same name.
- `;` is added to each of these pieces but the last, and then all comments follow."""

import re
from typing import NamedTuple

from oracle import pieces, tokens, units

TYPE = b"content-type"
NAME = re.compile(rb"([^*]{1,60})(?:\*(0|[1-9][0-9]*))?(\*?)", re.DOTALL)
ESCAPE = re.compile(rb"%([0-9A-Fa-f]{2})")
UNESCAPED = re.compile(rb"[A-Za-z0-9!#$&+.^_`{|}~-]")
EQUALS, SLASH = tokens.Token("special", b"="), tokens.Token("special", b"/")
PLAIN = [tokens.Token("special", bytes([octet])) for octet in b"/[]?="]
PART_MAX = 60


class Piece(NamedTuple):
    """One name and value: the name's parts, the charset where one stands, the octets, and both as they are written."""

    base: bytes
    number: object
    charset: bytes
    octets: bytes
    written: bytes

    def key(self):
        """What the pieces of one parameter share. One without a number has no other pieces."""
        return self.base, self.number is None


class Parameter(NamedTuple):
    """Its name in lower case, its charset or None where it is text, its octets, and its pieces as they are written."""

    name: bytes
    charset: object
    octets: bytes
    written: list

    def unit(self):
        return self.octets if self.charset is None else units.Opaque(self.charset, self.octets, b"")

    def is_high(self):
        return not b"".join(self.written).isascii()


class Body(NamedTuple):
    """The main part as it stands; for each piece in order its parameter, and whether it is the parameter's first; all tokens."""

    main: bytes
    places: list
    tokens: list

    def parameters(self):
        return [parameter for _, parameter, is_first in self.places if is_first]


def read(value, is_type):
    """The body of a type or of a disposition; or Malformed."""
    found = tokens.tokens(value, "Mime")
    first, *others = tokens.split(found, b";")
    main = main_of(tokens.words_of(first), is_type)
    some = [piece_of(place) for place in others if tokens.words_of(place)]
    return Body(main, [(piece, parameter_of(some, at), is_first(some, at)) for at, piece in enumerate(some)], found)


def main_of(words, is_type):
    kinds = [word.kind for word in words]
    is_whole = kinds == ["atom", "special", "atom"] and words[1] == SLASH if is_type else kinds == ["atom"]
    text = tokens.text_of(words)
    if not is_whole or not text.isascii():
        raise tokens.Malformed
    return text


def piece_of(place):
    """The piece that these tokens are."""
    name, rest = next_word(place)
    equals, rest = next_word(rest)
    value = tokens.at_last_word(without_blanks_first(rest))[0]
    if name.kind != "atom" or equals != EQUALS or not is_value(value):
        raise tokens.Malformed
    text = tokens.text_of(value)
    content = units.resolved(text[1:-1]) if value[0].kind == "quoted" else text
    return told_piece(name.octets, content, name.octets + b"=" + text)


def without_blanks_first(found):
    at = next((number for number, token in enumerate(found) if not token.is_blank()), len(found))
    return found[at:]


def next_word(found):
    """The first token that is no gap and no comment, and those behind it."""
    found = without_blanks_first(found)
    if not found:
        raise tokens.Malformed
    return found[0], found[1:]


def is_value(found):
    """A quoted text, or an unquoted value, which has no gaps."""
    return [token.kind for token in found] == ["quoted"] or bool(found) and all(token.kind == "atom" or token in PLAIN for token in found)


def told_piece(name, content, written):
    parts = NAME.fullmatch(name)
    if not parts or not name.isascii():
        raise tokens.Malformed
    base, digits, star = parts.groups()
    charset = b""
    if star:
        if digits in (None, b"0"):
            charset, content = without_charset(content)
        content = unescaped(content)
    # a number of thousands of digits is as wrong as one of twenty
    number = None if digits is None else int(digits[:20])
    return Piece(base.lower(), number, charset, content, written)


def without_charset(content):
    """The charset and the text of charset, language and text, which the first two `'` divide."""
    parts = content.split(b"'", 2)
    if len(parts) < 3 or parts[0] and not re.fullmatch(units.NAME, parts[0]):
        raise tokens.Malformed
    return parts[0].lower(), parts[2]


def unescaped(text):
    if text.count(b"%") != len(ESCAPE.findall(text)):
        raise tokens.Malformed
    return ESCAPE.sub(lambda it: bytes.fromhex(it[1].decode()), text)


def pieces_with(some, at):
    """The pieces of the parameter of this one."""
    return [some[at]] if some[at].number is None else [piece for piece in some if piece.key() == some[at].key()]


def is_first(some, at):
    return some[at].number is None or some[at].key() not in [piece.key() for piece in some[:at]]


def parameter_of(some, at):
    own = pieces_with(some, at)
    ordered = sorted(own, key=lambda piece: piece.number or 0)
    if [piece.number or 0 for piece in ordered] != list(range(len(ordered))):
        raise tokens.Malformed
    charset, octets = ordered[0].charset, b"".join(piece.octets for piece in ordered)
    is_text = units.is_text(charset or b"utf-8", octets)
    return Parameter(own[0].base, None if is_text else charset, octets, [piece.written for piece in own])


def field_pieces(value, is_type):
    """The pieces of the made field, where the value has a non-ASCII octet; or Malformed."""
    body = read(value, is_type)
    names = [parameter.name for parameter in body.parameters()]
    made = [body.main]
    for piece, parameter, is_the_first in body.places:
        if not parameter.is_high():
            made.append(piece.written)
        elif is_the_first:
            made += parameter_pieces(parameter, names.count(parameter.name) == 1)
    return [*(piece + b";" for piece in made[:-1]), made[-1], *pieces.of_comments(body.tokens)]


def parameter_pieces(parameter, may_have_parts):
    name, charset = parameter.name, b"UTF-8" if parameter.charset is None else parameter.charset
    parts = parts_of(parameter)
    if len(parts) < 2 or not may_have_parts:
        return [name + b"*=" + charset + b"''" + b"".join(parts)]
    begun = name + b"*0*=" + charset + b"''" + parts[0]
    return [begun, *(name + b"*%d*=" % number + part for number, part in enumerate(parts[1:], 1))]


def parts_of(parameter):
    """The escaped octets in parts of at most 60."""
    octets = parameter.octets
    steps = [bytes([octet]) for octet in octets] if parameter.charset is not None else [it.encode() for it in octets.decode()]
    parts = [b""]
    for step in map(escaped, steps):
        if len(parts[-1]) + len(step) > PART_MAX:
            parts.append(b"")
        parts[-1] += step
    return parts


def escaped(octets):
    each = [octets[at : at + 1] for at in range(len(octets))]
    return b"".join(octet if UNESCAPED.fullmatch(octet) else b"%%%02X" % ord(octet) for octet in each)


def without_global(body):
    """The body of a type with `rfc822` in place of `global`, where it is message/global; the same body else."""
    try:
        main = read(body.replace(b"\r\n", b"").strip(b" \t"), True).main
    except tokens.Malformed:
        return body
    if main.lower() != b"message/global":
        return body
    at = subtype_at(body)
    return body[:at] + b"rfc822" + body[at + len(b"global") :]


def subtype_at(body):
    """Where the atom behind the slash stands. Folds may stand between the tokens, and in comments."""
    unfolded = body.replace(b"\r\n", b"")
    lead = len(unfolded) - len(unfolded.lstrip(b" \t"))
    found = tokens.tokens(unfolded.strip(b" \t"), "Mime")
    slash = found.index(SLASH)
    atom = next(number for number in range(slash + 1, len(found)) if not found[number].is_blank())
    left = lead + len(tokens.text_of(found[:atom]))
    at = 0
    while left or body.startswith(b"\r\n", at):
        is_fold = body.startswith(b"\r\n", at)
        at += 2 if is_fold else 1
        left -= 0 if is_fold else 1
    return at
