"""Writes journals: the file that `dervlask pop` serves. `tools/write_journal` is the command over it.

They have version 2, but for what is told to have version 1."""

import email

# what a journal begins with, and one of version 1
FIRST_OCTETS = b"MAILJNL2"
OLDER_FIRST_OCTETS = b"MAILJNL1"
DATE = b"01-Jan-1970 00:00:00 +0000"


def record(kind, *fields):
    octets = b"".join([bytes([kind]), *fields])
    return number(len(octets)) + octets


def number(value):
    return value.to_bytes(4, "big")


def text(octets):
    return number(len(octets)) + octets


def account(address, password):
    """An account, which brings its INBOX. Accounts are counted from 0."""
    return record(1, text(address), text(password))


def domain(name):
    return record(2, text(name))


def folder(account_number, name):
    return record(3, number(account_number), text(name))


def message(folder_number, octets, flags=0, date=DATE, mark=None):
    """A message in a folder. Folders are counted from 0, and the INBOX of each account is one."""
    marked = mark_of(octets) if mark is None else mark
    return record(9, number(folder_number), bytes([flags, marked]), text(date), text(octets))


def older_message(folder_number, octets, flags=0, date=DATE):
    """The same in version 1."""
    return record(4, number(folder_number), bytes([flags]), text(date), text(octets))


def flags(message_number, value):
    return record(5, number(message_number), bytes([value]))


def expunge(message_number):
    return record(6, number(message_number))


def queue(path, addresses, octets, mark=None):
    """A message to these addresses. Such entries of the queue are counted from 0."""
    marked = mark_of(octets) if mark is None else mark
    return record(10, text(path), number(len(addresses)), *map(text, addresses), bytes([marked]), text(octets))


def older_queue(path, addresses, octets):
    """The same in version 1."""
    return record(7, text(path), number(len(addresses)), *map(text, addresses), text(octets))


def settle(entry, place):
    """One of an entry's addresses, counted from 0, doesn't wait any more."""
    return record(8, number(entry), number(place))


def version():
    """Version 2 begins here, in a journal of version 1."""
    return record(11)


def mark_of(octets):
    """The mark of a message, as Python's `email` finds its headers: 1 where one of them isn't ASCII, and 2 where any octet isn't, or both
    together. What is malformed may have another one."""
    if octets.isascii():
        return 0
    headers = [value for part in email.message_from_bytes(octets).walk() for _, value in part.raw_items()]
    return 2 if all(map(str.isascii, headers)) else 3


def journal(*records):
    return b"".join([FIRST_OCTETS, *records])


def older_journal(*records):
    """The same in version 1."""
    return b"".join([OLDER_FIRST_OCTETS, *records])


def mailbox(messages, address=b"ann@example.org", password=b"pw"):
    """A journal with one account and these messages."""
    name = address.partition(b"@")[2]
    return journal(domain(name), account(address, password), *(message(0, octets) for octets in messages))


def crlf(octets):
    """Text with LF line ends, or with both kinds, as lines that end with CRLF."""
    lines = octets.replace(b"\r\n", b"\n")
    if lines and not lines.endswith(b"\n"):
        lines += b"\n"
    return lines.replace(b"\n", b"\r\n")
