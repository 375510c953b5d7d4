"""The addresses and domains of a store: what they say, and which are the same. Nothing here was taken from the program.

A text is that of an address where it is the path of one in angle brackets (return_path.py). Two addresses name one mailbox where
their local parts match by canonical caseless matching (Unicode 3.13, D145) and their domains have the same normal form, or are the
same where one has none. The normal form is that of UTS #46, ToASCII with the rules of STD3. As in addresses.py it is taken only
where it is certain without tables; where it isn't, and where a character is newer than Python's tables, Uncertain is raised."""

import re
import unicodedata

from oracle import return_path, tokens
from oracle.addresses import DOMAIN_MAX, NEVER, Uncertain, a_label, are_certain, lowered

A_LABEL = "xn--"


def read_address(text):
    """The local part and the domain, or None where the text is that of no address."""
    if re.search(rb"[\0\r\n]", text) or not is_utf8(text):
        return None
    try:
        _, mailbox = return_path.read(b"<" + text + b">")
    except tokens.Malformed:
        return None
    return mailbox and (mailbox.local, mailbox.domain)


def is_utf8(octets):
    try:
        octets.decode()
    except UnicodeDecodeError:
        return False
    return True


def is_same_mailbox(one, other):
    return local_key(one[0]) == local_key(other[0]) and is_same_domain(one[1], other[1])


def local_key(local):
    characters = known(local.decode())
    return unicodedata.normalize("NFD", unicodedata.normalize("NFD", characters).casefold())


def known(characters):
    """The characters, where Python's tables have them all."""
    if any(unicodedata.category(it) == "Cn" for it in characters):
        raise Uncertain
    return characters


def is_same_domain(one, other):
    return one == other or (normal_form(one) or one) == (normal_form(other) or other)


def normal_form(domain):
    """The domain's normal form, or None where it has none; or Uncertain."""
    if NEVER.search(domain):
        return None
    labels = list(map(decoded, unicodedata.normalize("NFC", "".join(map(lowered, domain.decode()))).split(".")))
    if None in labels:
        return None
    if not are_certain(labels):
        raise Uncertain
    forms = list(map(a_label, labels))
    return None if None in forms or len(b".".join(forms)) > DOMAIN_MAX else b".".join(forms)


def decoded(label):
    """The label that an A-label stands for, or None where it stands for none; another label as it is."""
    if not label.startswith(A_LABEL):
        return label
    try:
        found = label[len(A_LABEL) :].encode("ascii").decode("punycode")
    except UnicodeError:
        return None
    if found.isascii() or not are_certain([found]) or a_label(found) != label.encode():
        raise Uncertain
    return found
