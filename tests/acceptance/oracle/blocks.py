"""Header blocks: the fields that octets begin with. Nothing here was taken from the program.

A block is the lines up to the first empty line or the end. A field begins with a name of octets 33 to 126 other than the
colon, white (space or tab) and a colon; its further lines begin with white. All of it is UTF-8, without NUL, and CR and LF
stand as CRLF alone. The first faulty line is told by its place where it is no field line, and else by the place of its first
octets that aren't UTF-8."""

import re

FIELD = re.compile(rb"([!-9;-~]+)[ \t]*:(.*)\Z", re.DOTALL)


class Refused(Exception):
    """The octets are no message: the place of the fault, and its name."""


def is_sound(octets):
    """Whether CR and LF stand as CRLF alone, and no NUL."""
    without = octets.replace(b"\r\n", b"")
    return not any(octet in without for octet in (b"\0", b"\r", b"\n"))


def read_block(octets, place=0):
    """The raw fields of octets that begin with a header block, and the rest, whatever it holds. The last line may lack its CRLF.

    The octets stand at a place of the message."""
    fields, at = [], 0
    while at < len(octets) and not octets.startswith(b"\r\n", at):
        end = octets.find(b"\r\n", at) + 2
        line = octets[at:end] if end > 1 else octets[at:]
        goes_on = bool(fields) and line[:1] in (b" ", b"\t")
        if not is_sound(line) or not (goes_on or FIELD.match(line)):
            raise Refused(place + at, b"not a field")
        check_utf8(line, place + at)
        if goes_on:
            fields[-1] += line
        else:
            fields.append(line)
        at += len(line)
    return fields, octets[at:]


def check_utf8(line, place):
    try:
        line.decode("utf-8")
    except UnicodeDecodeError as error:
        raise Refused(place + error.start, b"not utf-8") from error


def parts_of(raw):
    """Name, body and ending of a field."""
    name, body = FIELD.match(raw).groups()
    ending = b"\r\n" if body.endswith(b"\r\n") else b""
    return name, body.removesuffix(ending), ending
