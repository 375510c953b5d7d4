"""Pieces that several kinds of fields have: comments, phrases and copies. Nothing here was taken from the program.

- A comment of ASCII octets is one piece. Another one is the piece `(`, its nested comments and the runs between them, each
  ASCII run as one piece and others by their units, and the piece `)`.
- A phrase is written together with what stands before it in its place: as one copied piece where all of this is ASCII; else
  the phrase's units are written, or `""` where there is none, and then the comments there."""

from oracle import tokens, units


def of_comment(comment):
    if comment.isascii():
        return [comment]
    pieces = [b"("]
    for kind, octets in tokens.comment_items(comment):
        if kind == "comment":
            pieces += of_comment(octets)
        else:
            pieces += [octets] if octets.isascii() else units.pieces(units.of_run(octets))
    return [*pieces, b")"]


def of_comments(found):
    return [piece for comment in tokens.comments(found) for piece in of_comment(comment)]


def of_phrase(part):
    """The pieces of the tokens up to a phrase's last word."""
    part = tokens.without_gaps_first(part)
    text = tokens.text_of(part)
    if text.isascii():
        return [text]
    return [*(units.pieces(tokens.phrase_units(tokens.phrase_of(part))) or [b'""']), *of_comments(part)]
