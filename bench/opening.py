"""Measures how long a large journal takes to be opened, and in how much memory."""

import os
import tempfile

import paths
from counting import heading, line, mebibytes, peak, seconds
from journal import mailbox
from journal import message as record
from mailboxes import ADDRESS, PASSWORD, message, tell

SIZE = 1_000_000_000
MESSAGE_SIZES = [1_000, 10_000, 100_000]
AT_ONCE = 1_000

HEAD = ["messages", "journal", "time", "octets a second", "cat", "peak", "of the journal"]

PROSE = """
Opening a journal of 1 GB: a session of `dervlask pop` that is `QUIT` alone, on a journal that the system has in its memory. Each record
is read, each message's tree of entities found, and all octets are kept. *cat* reads the same file. *of the journal*: the greatest
resident set by the journal's size.
""".strip()


def write_journal(path, size, message_size):
    """A journal of about so many octets; how many messages it has, and octets."""
    octets = record(0, message(0, message_size))
    count = size // len(octets)
    with open(path, "wb") as file:
        written = file.write(mailbox([], ADDRESS.encode(), PASSWORD.encode()))
        for at in range(0, count, AT_ONCE):
            written += file.write(octets * min(AT_ONCE, count - at))
    return count, written


def row(program, folder, size, message_size):
    path = os.path.join(folder, "mail.journal")
    count, octets = write_journal(path, size, message_size)
    session = os.path.join(folder, "session")
    with open(session, "wb") as file:
        file.write(b"QUIT\r\n")
    cat = seconds(["cat"], path)
    took = seconds([program, "pop"], session, cwd=folder)
    most = peak([program, "pop"], session, cwd=folder)
    os.remove(path)
    name = f"{count:,} of {message_size // 1000} kB"
    return [name, f"{octets:,}", f"{took:.2f} s", f"{octets / took:,.0f}", f"{cat:.2f} s", mebibytes(most), f"{most / octets:.2f}"]


def measure(program, size=SIZE):
    """Prints the table as it comes, and returns its lines."""
    lines = tell(heading(HEAD))
    with tempfile.TemporaryDirectory() as folder:
        for message_size in MESSAGE_SIZES:
            lines += tell([line(row(program, folder, size, message_size))])
    return [PROSE, "", *lines]
