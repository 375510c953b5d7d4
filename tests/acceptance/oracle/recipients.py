"""Original-Recipient and Final-Recipient: what they say, and the piece of the made field. Nothing here was taken from the program.

A value is a type, `;` and an address, with white around each. The type is an ASCII atom, and is told in lower case. In an
address of the type `utf-8` each character stands for itself but the backslash, and `\\x{H}`, with two to six hexadecimal digits,
for the character of that number; any other backslash is wrong. Such an address is written in its ASCII form, as one piece with
its type: visible ASCII characters but `+`, `=` and the backslash stand for themselves, and all others are escaped, with
upper-case digits and no leading zero but in numbers of one digit. Addresses of other types aren't served."""

import re

from oracle import tokens

UTF8 = b"utf-8"
ESCAPE = re.compile(r"\\x\{([0-9A-Fa-f]{2,6})\}")
KEPT = re.compile(r"[!-*,-<>-\[\]-~]")


def read(value):
    """The type, and the address without escapes; or Malformed."""
    written, semicolon, text = value.partition(b";")
    found = [(token.kind, token.octets) for token in tokens.tokens(written.strip(b" \t"), "Mime")]
    if not semicolon or [kind for kind, _ in found] != ["atom"] or not found[0][1].isascii():
        raise tokens.Malformed
    of_type, text = found[0][1].lower(), text.strip(b" \t")
    return of_type, unescaped(text) if of_type == UTF8 else text


def unescaped(text):
    characters = text.decode()
    if characters.count("\\") != len(ESCAPE.findall(characters)):
        raise tokens.Malformed
    return ESCAPE.sub(lambda it: character_of(int(it[1], 16)), characters).encode()


def character_of(number):
    if number > 0x10FFFF or 0xD800 <= number < 0xE000:
        raise tokens.Malformed
    return chr(number)


def ascii_form(address):
    return "".join(it if KEPT.fullmatch(it) else f"\\x{{{ord(it):02X}}}" for it in address.decode()).encode()


def field_pieces(value):
    """The piece of the made field, or None where the address isn't served; or Malformed."""
    of_type, address = read(value)
    return [of_type + b"; " + ascii_form(address)] if of_type == UTF8 else None
