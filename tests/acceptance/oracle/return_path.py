"""Return-Path: what it says, and the pieces of the made field. Nothing here was taken from the program.

A path is `<`, an address and `>`, or `<>`, with gaps and comments between all its tokens, and without a route. Where its address
can be served (addresses.py), the piece `<`, text and `>` has that, and the comments follow. The null path and all other
addresses aren't served."""

from oracle import addresses, pieces, tokens


def read(value):
    """The tokens, and the address as a Mailbox, or None for the null path; or Malformed."""
    found = tokens.tokens(value, "Mail")
    words = tokens.words_of(found)
    if words[:1] != [addresses.LESS] or words[-1:] != [addresses.GREATER]:
        raise tokens.Malformed
    if len(words) == 2:
        return found, None
    return found, addresses.Mailbox([], found, *addresses.address_of(words[1:-1]), is_angled=True)


def field_pieces(value):
    """The pieces of the made field, or None where the path isn't served; or Malformed."""
    found, mailbox = read(value)
    if mailbox is None or not mailbox.is_served():
        return None
    return [mailbox.served_text(), *pieces.of_comments(found)]
