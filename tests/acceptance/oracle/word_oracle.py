"""What `dervlask domain` and `dervlask account`, with a password on the command line, have to answer, told anew from the rules. Nothing here was
taken from the program.

The words are read first. A domain has a normal form, which is what is kept. An address has one as its domain, and is kept without gaps and
needless quoting; it and the password have at most 65,536 octets, and the password has one at least. No word begins with `-`. Then the
journal is opened, as pop_store.py says. A domain is kept where none has its form; an account where none has its mailbox, and one of the
domains is its own."""

from journal import account, domain
from oracle.addresses import Uncertain
from oracle.pop_store import TEXT_MAX, Unopened, open_journal
from oracle.smtp_oracle import written
from oracle.store_names import is_same_domain, is_same_mailbox, is_utf8, normal_form, read_address

REFUSED = 4, b"words refused\r\n"
DONE, EXISTS, NO_DOMAIN = (0, b""), (9, b"exists\r\n"), (9, b"no such domain\r\n")


def outcome(journal, words):
    """The exit status, what is given, and the journal behind it."""
    adds = addition(*words)
    if not adds:
        return *REFUSED, journal
    try:
        store, after = open_journal(journal)
    except Unopened as error:
        return *error.answer, journal
    answer, records = adds(store)
    return *answer, after + records


def addition(command, *words):
    """What these words make of a store: an answer and records; or None where they are refused."""
    if not all(is_utf8(word) and not word.startswith(b"-") for word in words):
        return None
    if command == b"domain" and len(words) == 1:
        return domain_addition(*words)
    return account_addition(*words) if command == b"account" and len(words) == 2 else None


def domain_addition(text):
    form = normal_form(text) if text else None
    if not form:
        return None
    return lambda store: (EXISTS, b"") if form in store.domains else (DONE, domain(form))


def account_addition(text, password):
    address = read_address(text)
    if not address or not normal_form(address[1]) or not 0 < len(password) <= TEXT_MAX or len(written(*address)) > TEXT_MAX:
        return None

    def adds(store):
        if any(is_same_mailbox(own, address) for own, _ in store.accounts):
            return EXISTS, b""
        if not any(is_same_domain(own, address[1]) for own in store.domains):
            return NO_DOMAIN, b""
        return DONE, account(written(*address), password)

    return adds


def certain_outcome(journal, words):
    """The same, or None where the oracle is uncertain about a name or a domain."""
    try:
        return outcome(journal, words)
    except Uncertain:
        return None
