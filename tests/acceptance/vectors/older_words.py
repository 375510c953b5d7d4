"""Vectors that are older than Q words: which of them the rule of words changes. Each word was a B word there."""

from unittest import mock

from oracle import units
from oracle.addresses import Uncertain
from oracle.downgrade_oracle import outcome
from oracle.pop_store import Unopened, open_journal


def b_words_of(text):
    return [units.b_word(chunk) for chunk in units.chunks_of(text)]


def is_changed(octets):
    """Whether the surrogate of a message was another one when each word was a B word, as far as the oracle can tell."""
    try:
        now = outcome([b"downgrade"], octets)
        with mock.patch.object(units, "words_of", b_words_of):
            return outcome([b"downgrade"], octets) != now
    except Uncertain:
        return True


def has_older_words(case):
    """Whether a message of the case has a surrogate with other words today."""
    try:
        store, _ = open_journal(bytes.fromhex(case["after"]))
    except (Unopened, Uncertain):
        return False
    kept = [octets for _, octets in store.messages] + [octets for _, _, octets in store.letters]
    return any(map(is_changed, set(kept)))
