"""Received fields: what they say, and the pieces of the made field. Nothing here was taken from the program.

A value is clauses, and behind the first `;` a date; both may be missing. A clause begins at an atom `from`, `by`, `via`, `with`,
`id` or `for`, in any case; no other token but gaps and comments stands before the first one. A clause says its word, and the
text of its other tokens without comments and with one space where a gap or comment stood between two. A date is such a text;
outside comments it is ASCII. The layout:

- Comments before the first clause come first.
- A clause is one piece: its word as it is written, a space, and its text; its comments follow. A clause whose text isn't ASCII
  is dropped, but its comments stay; a `from` or `by` whose text is a domain with an A-label form is written with that. A form
  of which a label is one of the six words doesn't count.
- The date is the piece `; ` and its text, or `;` where it has none, and its comments."""

from typing import NamedTuple

from oracle import addresses, pieces, tokens

WORDS = (b"from", b"by", b"via", b"with", b"id", b"for")
HOSTS = (b"from", b"by")


class Trace(NamedTuple):
    """The tokens before the first clause, the word and the other tokens of each clause, and the tokens of the date or None."""

    front: list
    clauses: list
    date: object

    def tokens(self):
        return [*self.front, *(token for _, behind in self.clauses for token in behind), *(self.date or [])]


def read(value):
    """The parts of a value; or Malformed."""
    found = tokens.tokens(value, "Mail")
    at = found.index(addresses.SEMICOLON) if addresses.SEMICOLON in found else len(found)
    front, clauses = [], []
    for token in found[:at]:
        if is_word(token):
            clauses.append((token.octets, []))
        else:
            (clauses[-1][1] if clauses else front).append(token)
    date = found[at + 1 :] if at < len(found) else None
    if tokens.words_of(front) or not tokens.squeezed(date or []).isascii():
        raise tokens.Malformed
    return Trace(front, clauses, date)


def is_word(token):
    return token.kind == "atom" and token.octets.lower() in WORDS


def served_text(word, text):
    """The text as it is served, or None where the clause is dropped; or Uncertain."""
    if text.isascii():
        return text
    form = addresses.served_domain(text) if word.lower() in HOSTS else None
    return None if form is None or set(form.split(b".")) & set(WORDS) else form


def served_clauses(trace):
    """The word and the text of each clause that isn't dropped."""
    told = [(word, served_text(word, tokens.squeezed(behind))) for word, behind in trace.clauses]
    return [clause for clause in told if clause[1] is not None]


def date_text(trace):
    return None if trace.date is None else tokens.squeezed(trace.date)


def field_pieces(value):
    """The pieces of the made field, where the value has a non-ASCII octet; or Malformed."""
    trace = read(value)
    made = pieces.of_comments(trace.front)
    for word, behind in trace.clauses:
        text = served_text(word, tokens.squeezed(behind))
        made += [] if text is None else [behind_space(word, text)]
        made += pieces.of_comments(behind)
    if trace.date is not None:
        made += [behind_space(b";", date_text(trace)), *pieces.of_comments(trace.date)]
    return made


def behind_space(word, text):
    return word + b" " + text if text else word
