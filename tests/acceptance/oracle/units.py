"""What a text says: encoded words (RFC 2047) and units. Nothing here was taken from the program.

An encoded word has at most 75 octets and is `=?`, charset, optionally `*` and a language, `?`, `B` or `Q` in either case,
`?`, text, `?=`. A B text is padded base64 whose unused bits are zero. In a Q text `_` is a space, and `=` is followed by two
hexadecimal digits. A word that breaks these rules is plain text. A word of the charset utf-8 or us-ascii whose octets are
UTF-8, or ASCII, gives text; every other one is an opaque unit of its own. Text that touches text is one unit."""

import base64
import re
import string
from typing import NamedTuple

NAME = rb"[!#$%&'+\-0-9A-Z^_`a-z{|}~]+"
ENCODED_WORD = re.compile(rb"=\?(" + NAME + rb")(?:\*" + NAME + rb")?\?([BbQq])\?([!->@-~]+)\?=")
ENCODED_WORD_MAX = 75
PAIR = re.compile(rb"\\(.)", re.DOTALL)

# words of an unstructured value, and of the text of a comment, where a quoted pair belongs to its word
WORD = re.compile(rb"[^ \t\r\n]+")
COMMENT_WORD = re.compile(rb"(?:\\.|[^\\ \t])+", re.DOTALL)


class Opaque(NamedTuple):
    """A unit that isn't text, and the word that it came from."""

    charset: bytes
    octets: bytes
    source: bytes


def decoded(word):
    """Text as octets, or an Opaque; None where the word is no encoded word."""
    found = ENCODED_WORD.fullmatch(word)
    if not found or len(word) > ENCODED_WORD_MAX:
        return None
    charset, encoding, text = found.groups()
    octets = of_base64(text) if encoding in b"Bb" else of_q(text)
    if octets is None:
        return None
    charset = charset.lower()
    return octets if is_text(charset, octets) else Opaque(charset, octets, word)


def of_base64(text):
    try:
        octets = base64.b64decode(text, validate=True)
    except ValueError:
        return None
    return octets if base64.b64encode(octets) == text else None


def of_q(text):
    if re.search(rb"=(?![0-9A-Fa-f]{2})", text):
        return None
    return re.sub(rb"=(..)|_", lambda it: bytes.fromhex(it[1].decode()) if it[1] else b" ", text)


def is_text(charset, octets):
    if charset == b"us-ascii":
        return octets.isascii()
    try:
        octets.decode("utf-8")
    except UnicodeDecodeError:
        return False
    return charset == b"utf-8"


def resolved(text):
    """The text with each quoted pair as its second character."""
    return PAIR.sub(rb"\1", text)


def joined(parts):
    """The units of parts, each octets of text or an Opaque."""
    units = []
    for part in parts:
        if isinstance(part, bytes) and units and isinstance(units[-1], bytes):
            units[-1] += part
        elif part:
            units.append(part)
    return units


def of_words(text, pattern, says):
    """The units of words and the white between them, where that between two encoded words gives nothing.

    `says` has octets or an Opaque for a word, and whether it is an encoded word."""
    parts, end, was_encoded = [], None, False
    for word in pattern.finditer(text):
        part, is_encoded = says(word[0])
        if end is not None and not (was_encoded and is_encoded):
            parts.append(text[end : word.start()])
        parts.append(part)
        end, was_encoded = word.end(), is_encoded
    return joined(parts)


def word_says(word):
    told = decoded(word)
    return (word, False) if told is None else (told, True)


def comment_word_says(word):
    return (resolved(word), False) if b"\\" in word else word_says(word)


def of_unstructured(value):
    return of_words(value, WORD, word_says)


def of_run(text):
    """The units of text in a comment, which has no parentheses but in quoted pairs."""
    return of_words(text, COMMENT_WORD, comment_word_says)


def trimmed_run(text):
    """Such text without white at its ends; the white of a quoted pair stays."""
    words = list(COMMENT_WORD.finditer(text))
    return text[words[0].start() : words[-1].end()] if words else b""


def pieces(units):
    """Each text as its words, and each opaque unit as the word that it came from."""
    return [piece for unit in units for piece in (words_of(unit) if isinstance(unit, bytes) else [unit.source])]


# what a Q text has for each octet: letters, digits and `!*+-/` stand for themselves
SAFE = (string.ascii_letters + string.digits + "!*+-/").encode()
IN_Q_TEXT = [b"_" if it == 32 else bytes([it]) if it in SAFE else b"=%02X" % it for it in range(256)]


def chunks_of(text):
    """The text in parts, each of the most whole characters that fit 45 octets."""
    chunks = [b""]
    for character in text.decode("utf-8"):
        octets = character.encode("utf-8")
        if len(chunks[-1]) + len(octets) > 45:
            chunks.append(b"")
        chunks[-1] += octets
    return [chunk for chunk in chunks if chunk]


def b_word(chunk):
    return b"=?UTF-8?B?" + base64.b64encode(chunk) + b"?="


def q_word(chunk):
    return b"=?UTF-8?Q?" + b"".join(map(IN_Q_TEXT.__getitem__, chunk)) + b"?="


def words_of(text):
    """Encoded words, one for each part: its Q word, or its B word where that is shorter."""
    return [min(q_word(chunk), b_word(chunk), key=len) for chunk in chunks_of(text)]
