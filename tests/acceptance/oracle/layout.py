"""The field that is made of one with non-ASCII octets. Nothing here was taken from the program.

A made field is its name, a colon, and pieces, each on a line of its own behind one white octet, a space unless said
otherwise. To write units means: each text as its encoded words, each opaque unit as the word that it came from.

- Unstructured fields. A stretch is a longest list of neighbouring words that aren't encoded words. In one with non-ASCII
  words the core goes from the first of them to the last. Its text is its words, the white between them, and a part of the
  white at each side: beside an encoded word all of it, beside another word all but the octet farthest from the core, and
  at an end of the value nothing. It becomes encoded words. What stands between is one piece, copied with its folds. Before a
  core, and before a copied piece that follows one, stands the octet of the white there that was left out, or a space.
- Keywords are phrases divided by commas, each with comments around it. The pieces of a phrase are followed by the other
  comments of its place, and a piece `,` stands between two places.
- Lists of addresses are told in addresses.py, parameters in parameters.py, Received in received.py, Return-Path in
  return_path.py, recipients in recipients.py, the pieces of phrases and comments in pieces.py.
- Date, Resent-Date, MIME-Version and Content-Transfer-Encoding are ASCII but for comments: one piece has the tokens with one
  space where a gap or comment stood, and the comments follow. Content-Transfer-Encoding is a single atom.
- Identifiers, paths and recipients that can't be served, fields whose name begins with `-`, and values that aren't in their
  grammar are kept aside: the made field has `Downgraded-` before the name, and the whole value as encoded words. Content-Type and
  Content-Transfer-Encoding keep their names; their values are still in no grammar then."""

from oracle import addresses, parameters, pieces, received, recipients, return_path, tokens, units

ADDRESSES = frozenset(
    name.lower()
    for name in b"""
    From Sender Reply-To To Cc Bcc Resent-From Resent-Sender Resent-Reply-To Resent-To Resent-Cc Resent-Bcc
    """.split()
)
PHRASES = frozenset([b"keywords"])
ENCODING = b"content-transfer-encoding"
PLAIN = frozenset([b"date", b"resent-date", b"mime-version", ENCODING])
KEEPS_NAME = frozenset([parameters.TYPE, ENCODING])
PARAMETERS = frozenset([parameters.TYPE, b"content-disposition"])
IDENTIFIERS = frozenset(
    name.lower()
    for name in b"""
    Message-ID Resent-Message-ID In-Reply-To References Content-ID
    """.split()
)
PATH = frozenset([b"return-path"])
RECIPIENTS = frozenset([b"original-recipient", b"final-recipient"])
TRACE = frozenset([b"received"])
STRUCTURED = ADDRESSES | PHRASES | PLAIN | PARAMETERS | IDENTIFIERS | PATH | RECIPIENTS | TRACE


def value_of(body):
    """The body unfolded, without white at its ends."""
    return body.replace(b"\r\n", b"").strip(b" \t")


def made_field(name, body):
    """The name and the pieces, each behind its white octet."""
    kind, value = name.lower(), value_of(body)
    if kind not in STRUCTURED and not name.startswith(b"-"):
        return name, unstructured_pieces(body)
    try:
        made = structured_pieces(kind, value)
    except tokens.Malformed:
        made = None
    if made is not None:
        return name, spaced(made)
    return kept_name(name), spaced(units.words_of(value))


def kept_name(name):
    """The name of a field that is kept aside."""
    return name if name.lower() in KEEPS_NAME else b"Downgraded-" + name


def structured_pieces(kind, value):
    """The pieces of such a value, or None where it can't be served; or Malformed."""
    if kind in ADDRESSES:
        return addresses.list_pieces(value)
    if kind in PHRASES:
        return phrases_pieces(value)
    if kind in PLAIN:
        return plain_pieces(value, kind == ENCODING)
    if kind in PARAMETERS:
        return parameters.field_pieces(value, kind == parameters.TYPE)
    if kind in PATH:
        return return_path.field_pieces(value)
    if kind in RECIPIENTS:
        return recipients.field_pieces(value)
    return received.field_pieces(value) if kind in TRACE else None


def spaced(made):
    return [b" " + piece for piece in made]


def unstructured_pieces(body):
    words = list(units.WORD.finditer(body))
    made, copied_from, white = [], 0, b" "
    for first, last in cores_of(words):
        if first > copied_from:
            made.append(white + body[words[copied_from].start() : words[first - 1].end()])
        before, left = side_of(body, words, first - 1, slice(0, 1), slice(1, None))
        white, right = side_of(body, words, last, slice(-1, None), slice(0, -1))
        between = body[words[first].start() : words[last].end()].replace(b"\r\n", b"")
        core = units.words_of(left + between + right)
        made += [before + core[0], *spaced(core[1:])]
        copied_from = last + 1
    if copied_from < len(words):
        made.append(white + body[words[copied_from].start() : words[-1].end()])
    return made


def cores_of(words):
    """The first and the last word of each core, by number."""
    cores, is_open = [], False
    for number, word in enumerate(words):
        if is_encoded(word[0]):
            is_open = False
        elif not word[0].isascii():
            if is_open:
                cores[-1] = cores[-1][0], number
            else:
                cores.append((number, number))
            is_open = True
    return cores


def is_encoded(word):
    return units.decoded(word) is not None


def side_of(body, words, number, farthest, others):
    """Of the white between this word and the next one, one of which is in a core: the octet that is chosen, and the core's part."""
    if not 0 <= number < len(words) - 1:
        return b" ", b""
    run = body[words[number].end() : words[number + 1].start()].replace(b"\r\n", b"")
    if is_encoded(words[number][0]) or is_encoded(words[number + 1][0]):
        return b" ", run
    return run[farthest], run[others]


def phrases_pieces(value):
    made = []
    for place in tokens.split(tokens.tokens(value, "Mail"), b","):
        tokens.phrase_of(place)
        part, rest = tokens.at_last_word(place)
        made += [b",", *pieces.of_phrase(part), *pieces.of_comments(rest)]
    return made[1:]


def plain_pieces(value, is_encoding):
    found = plain_tokens(value, is_encoding)
    text = tokens.squeezed(found)
    return [*([text] if text else []), *pieces.of_comments(found)]


def plain_tokens(value, is_encoding):
    """The tokens of a value that is ASCII but for comments, and for an encoding one atom; or Malformed."""
    found = tokens.tokens(value, "Mime" if is_encoding else "Mail")
    told = [token for token in found if not token.is_blank()]
    if not all(token.octets.isascii() for token in told):
        raise tokens.Malformed
    if is_encoding and [token.kind for token in told] != ["atom"]:
        raise tokens.Malformed
    return found
