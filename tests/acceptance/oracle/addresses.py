"""Lists of addresses: what they say, and the pieces of the made field. Nothing here was taken from the program.

A list is mailboxes and groups divided by commas; places without either are allowed. A mailbox is an address, or an optional
phrase and an address in `<` and `>`, there behind an optional route, which is domains with `@` before each, divided by
commas, and a colon. A group is a phrase, `:`, mailboxes divided by commas, and `;`; it may have none, but no empty place
among them. An address is atoms or quoted texts divided by dots, `@`, and a domain, which is atoms divided by dots, or a
literal. Gaps and comments may stand between all tokens. The text of an address has its local part in quotes where it isn't
atoms divided by dots, and neither gaps nor comments.

An address can be served where its local part is ASCII and its domain is ASCII or has an A-label form. The layout:

- A mailbox or group of ASCII octets is one copied piece, without white at its ends. An empty place gives its comments.
- A mailbox that can be served: its phrase as in pieces.py, then the text of the address with its domain's A-label form, in
  `<` and `>` where it had them, then all other comments.
- Another mailbox becomes a group without members: the units of its phrase, a space where there is a phrase, and the text of
  its address are written; then come the piece `:;` and all comments.
- A group whose mailboxes can all be served: its phrase and the comments behind it, `:`, the mailboxes, `;`, other comments.
  Comments of a group without mailboxes stand between `:` and `;`.
- Another group becomes one without members. Behind its name and a space stand its mailboxes, divided by `, `: each by the
  text of its address, or where it has a phrase by that, a space, and the text in `<` and `>`. Then as above.
- A comma is added to the last piece of each mailbox and group that another one of the list, or of its group, follows.

The A-label form of a domain is that of UTS #46, for which Python's standard library has no tables. So it is taken here only
where it is certain without them: for labels of the letters in LETTERS, of digits and hyphens, in NFC and lower case and with
ASCII letters for those of full width, where letters from right to left stand in labels of their own. Every other domain
raises Uncertain, and then the vectors alone tell what is right."""

import re
import unicodedata
from typing import NamedTuple

from oracle import pieces, tokens, units

COMMA, AT, DOT, COLON, SEMICOLON, LESS, GREATER = (tokens.Token("special", bytes([octet])) for octet in b",@.:;<>")
CLOSING = {LESS: GREATER, COLON: SEMICOLON}
ATOMS = re.compile(tokens.ATOM["Mail"].pattern + rb"(?:\." + tokens.ATOM["Mail"].pattern + rb")*")

# blocks of lower-case letters and letters without case, and of the marks among them
LETTERS = [
    (0xDF, 0x17F), (0x3AC, 0x3CE), (0x430, 0x45F), (0x5D0, 0x5EA), (0x620, 0x63F), (0x641, 0x64A), (0x904, 0x939), (0x93E, 0x94D),
    (0xE01, 0xE4E), (0x3041, 0x3096), (0x30A1, 0x30FC), (0x4E00, 0x9FFF), (0xAC00, 0xD7A3),
]
FULL_WIDTH = {code + 0xFEE0: code for code in map(ord, "0123456789ABCDEFGHIJKLMNOPQRSTUVWXYZabcdefghijklmnopqrstuvwxyz")}
# ASCII octets that are in no domain and aren't combined with a character behind them
NEVER = re.compile(rb"[\0-,/:;?@\[-`{-\x7f]")
LETTER_KINDS = ("Ll", "Lo", "Lm", "Mn", "Mc")
LABEL_MAX = 63
DOMAIN_MAX = 253


class Uncertain(Exception):
    """The domain's A-label form can't be told here."""


class Mailbox(NamedTuple):
    """Its tokens up to the phrase's last word, or none, and those behind; the value of its address."""

    part: list
    rest: list
    local: bytes
    domain: bytes
    is_angled: bool

    def units(self):
        """The units of the phrase, or None where there is no phrase."""
        return tokens.phrase_units(tokens.phrase_of(self.part)) if self.part else None

    def is_served(self):
        return self.local.isascii() and served_domain(self.domain) is not None

    def text(self):
        return local_text(self.local) + b"@" + self.domain

    def served_text(self):
        text = local_text(self.local) + b"@" + served_domain(self.domain)
        return b"<" + text + b">" if self.is_angled else text

    def name_texts(self):
        """What the name of a group says that stands for the mailbox."""
        return [self.text()] if self.units() is None else [*self.units(), b" ", self.text()]

    def member_texts(self):
        """What the name of a group says of the mailbox that was in it."""
        return [self.text()] if self.units() is None else [*self.units(), b" <", self.text(), b">"]


class Group(NamedTuple):
    """Its tokens up to the name's last word, from there to the colon, from there to the semicolon, and behind; and its
    mailboxes, with the tokens of each."""

    part: list
    behind_name: list
    inner: list
    rest: list
    members: list

    def units(self):
        return tokens.phrase_units(tokens.phrase_of(self.part))

    def is_served(self):
        return all(mailbox.is_served() for _, mailbox in self.members)

    def name_texts(self):
        """What the name of a group says that stands for this one and holds none of its mailboxes."""
        told = [*self.units(), b" "]
        for number, (_, mailbox) in enumerate(self.members):
            told += [b", " if number else b"", *mailbox.member_texts()]
        return told


def local_text(local):
    """The local part, in quotes where it isn't atoms divided by dots."""
    return local if ATOMS.fullmatch(local) else b'"' + re.sub(rb'["\\]', rb"\\\g<0>", local) + b'"'


def read_list(value):
    """The places of a list: the tokens of each, and its Mailbox or Group, or None; or Malformed."""
    return [(place, element_of(place)) for place in divided(tokens.tokens(value, "Mail"))]


def divided(found):
    """The tokens between commas, where those in angles and in groups divide nothing."""
    places, closing = [[]], None
    for token in found:
        if token == COMMA and closing is None:
            places.append([])
            continue
        if closing is None:
            closing = CLOSING.get(token)
        elif token == closing:
            closing = None
        places[-1].append(token)
    return places


def element_of(place):
    if not tokens.words_of(place):
        return None
    opening = next((token for token in place if token in CLOSING), None)
    return group_of(place) if opening == COLON else mailbox_of(place)


def group_of(place):
    name, inner, rest = enclosed(place, COLON)
    part, behind_name = tokens.at_last_word(name)
    tokens.phrase_of(part)
    members = [(member, mailbox_of(member)) for member in divided(inner)] if tokens.words_of(inner) else []
    return Group(part, behind_name, inner, rest, members)


def mailbox_of(place):
    if LESS not in place:
        return Mailbox([], place, *address_of(tokens.words_of(place)), is_angled=False)
    before, inner, behind = enclosed(place, LESS)
    part, rest = tokens.at_last_word(before)
    if part:
        tokens.phrase_of(part)
    return Mailbox(part, [*rest, *inner, *behind], *address_of(behind_route(tokens.words_of(inner))), is_angled=True)


def enclosed(place, opening):
    """The tokens before the opening one, from there to the closing one, and behind. The closing one is the last word."""
    before, rest = place[: place.index(opening)], place[place.index(opening) + 1 :]
    inner, behind = tokens.at_last_word(rest)
    if inner[-1:] != [CLOSING[opening]]:
        raise tokens.Malformed
    return before, inner[:-1], behind


def behind_route(words):
    """The words behind a route, where there is one."""
    if words[:1] != [AT] or COLON not in words:
        return words
    at = words.index(COLON)
    for domain in tokens.split(words[:at], b","):
        if domain[:1] != [AT]:
            raise tokens.Malformed
        check_domain(domain[1:])
    return words[at + 1 :]


def address_of(words):
    """The local part, with quoting resolved, and the domain."""
    if AT not in words:
        raise tokens.Malformed
    at = words.index(AT)
    check_dotted(words[:at], ("atom", "quoted"))
    check_domain(words[at + 1 :])
    local = [units.resolved(token.octets[1:-1]) if token.kind == "quoted" else token.octets for token in words[:at]]
    return b"".join(local), tokens.text_of(words[at + 1 :])


def check_domain(words):
    if [token.kind for token in words] != ["literal"]:
        check_dotted(words, ("atom",))


def check_dotted(words, kinds):
    """Such words, divided by dots."""
    if len(words) % 2 == 0 or any(token.kind not in kinds for token in words[::2]) or any(token != DOT for token in words[1::2]):
        raise tokens.Malformed


def served_domain(domain):
    """An ASCII domain as it stands, the A-label form of another one, or None where it has none; or Uncertain."""
    if domain.isascii():
        return domain
    if NEVER.search(domain):
        return None
    labels = unicodedata.normalize("NFC", "".join(map(lowered, domain.decode()))).split(".")
    if not are_certain(labels):
        raise Uncertain
    forms = list(map(a_label, labels))
    if None in forms or len(b".".join(forms)) > DOMAIN_MAX:
        return None
    return b".".join(forms)


def lowered(character):
    return chr(FULL_WIDTH.get(ord(character), ord(character))).lower()


def are_certain(labels):
    if any(label.startswith("xn--") or not all(it.isascii() or is_letter(it) for it in label) for label in labels):
        return False
    directions = [{unicodedata.bidirectional(it) for it in label} for label in labels]
    from_right = {"R", "AL"}
    return not from_right & set().union(*directions) or all(it <= from_right or it == {"L"} for it in directions)


def is_letter(character):
    """Whether such a letter, or a mark among such, stands for itself."""
    is_listed = any(first <= ord(character) <= last for first, last in LETTERS)
    return is_listed and unicodedata.category(character) in LETTER_KINDS and unicodedata.normalize("NFKC", character) == character


def a_label(label):
    """A certain label's form, or None where a label mustn't be so."""
    is_wrong = not label or any(it.isascii() and not it.isalnum() and it != "-" for it in label) or unicodedata.category(label[0])[0] == "M"
    if is_wrong or "-" in (label[0], label[-1]) or label[2:4] == "--":
        return None
    form = label.encode() if label.isascii() else b"xn--" + label.encode("punycode")
    return form if len(form) <= LABEL_MAX else None


def list_pieces(value):
    """The pieces of the made field, where the value has a non-ASCII octet; or Malformed."""
    return joined_by_commas([(place_pieces(place, element), element) for place, element in read_list(value)])


def joined_by_commas(made):
    """All pieces, with a comma at the last one of each place with an element that another such place follows."""
    all_pieces, last = [], max((number for number, (_, element) in enumerate(made) if element), default=0)
    for number, (some, element) in enumerate(made):
        all_pieces += [*some[:-1], some[-1] + b","] if element and number < last else some
    return all_pieces


def place_pieces(place, element):
    text = tokens.text_of(place).strip(b" \t")
    if element is None:
        return pieces.of_comments(place)
    if text.isascii():
        return [text]
    if isinstance(element, Group):
        return group_pieces(place, element)
    if element.is_served():
        phrase = pieces.of_phrase(element.part) if element.part else []
        return [*phrase, element.served_text(), *pieces.of_comments(element.rest)]
    return without_members(place, element.name_texts())


def group_pieces(place, group):
    if not group.is_served():
        return without_members(place, group.name_texts())
    name = [*pieces.of_phrase(group.part), *pieces.of_comments(group.behind_name)]
    inner = joined_by_commas([(place_pieces(*member), True) for member in group.members]) or pieces.of_comments(group.inner)
    return [*name, b":", *inner, b";", *pieces.of_comments(group.rest)]


def without_members(place, told):
    """A group with such a name and without members."""
    return [*units.pieces(units.joined(told)), b":;", *pieces.of_comments(place)]
