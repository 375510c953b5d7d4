"""Records of messages and of entries of the queue with the mark that trees.py tells, a mailbox of such messages, and such records in either
version of the journal. tools/journal.py has the other kinds, and marks that a test chooses."""

import journal
from journal import DATE
from oracle import trees
from oracle.blocks import Refused
from oracle.pop_store import Fields, NoRecord


def mark_of(octets):
    """The mark of octets; where a block has a fault, they are no message, and one is as good as another."""
    try:
        return trees.mark_of(octets)
    except Refused:
        return 0


def message(folder, octets, flags=0, date=DATE):
    return journal.message(folder, octets, flags, date, mark_of(octets))


def queue(path, addresses, octets):
    return journal.queue(path, addresses, octets, mark_of(octets))


def mailbox(messages, address=b"ann@example.org", password=b"pw"):
    """A journal with one account and these messages."""
    return journal.mailbox([], address, password) + b"".join(message(0, octets) for octets in messages)


def newer(record):
    """A record as version 2 has it."""
    kind, fields = int.from_bytes(record[4:5], "big"), Fields(record[5:])
    if kind == 4:
        number, flags, date, octets = fields.number(), fields.octet(), fields.octets(), fields.octets()
        return message(number, octets, flags, date)
    return queue(fields.octets(), fields.texts(), fields.octets()) if kind == 7 else record


def older(record):
    """A record as version 1 has it. What isn't one stays as it is."""
    try:
        return unmarked(record)
    except NoRecord:
        return record


def unmarked(record):
    kind, fields = int.from_bytes(record[4:5], "big"), Fields(record[5:])
    if kind == 9:
        number, flags, _, date, octets = fields.number(), fields.octet(), fields.octet(), fields.octets(), fields.octets()
        return journal.older_message(number, octets, flags, date)
    if kind == 10:
        path, addresses, _, octets = fields.octets(), fields.texts(), fields.octet(), fields.octets()
        return journal.older_queue(path, addresses, octets)
    return record
