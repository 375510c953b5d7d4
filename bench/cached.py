"""Measures sessions that ask for sizes and then for messages, where surrogates are held between the two as far as the cache has room."""

import os
import tempfile

import imap
import paths
import pop
from counting import heading, instructions, instructions_while, line
from listening import free_port
from mailboxes import talk, tell, write_journal, write_lines
from serve import words_of

# how many surrogates a cache holds
PLACES = 256

# n, and octets of a message
MAILBOXES = [(200, 2_000), (200, 20_000), (10_000, 2_000)]

HEAD = ["protocol", "mailbox", "session", "legacy", "enabled", "legacy by enabled"]

PROSE = f"""
Sizes of all messages and then all messages, of a mailbox with one non-ASCII Subject in each: LIST and RETR, or FETCH of RFC822.SIZE and then of
BODY.PEEK[]. *first*: the instructions of a session beyond its opening; *second*: those of the second connection of one `dervlask serve`, beyond
those of a program that serves one. The cache holds {PLACES} surrogates: those of 200 messages, and of 10,000 the last ones, of which each is gone
again when its turn comes. There each surrogate is made twice, and *legacy by enabled* tells what that costs; where the cache holds all, a first session
makes each once, and a second one none.
""".strip()


def commands_of(protocol, count):
    if protocol is pop:
        return ["LIST", *protocol.commands_of(count)[protocol.ALL]]
    return ["a SELECT INBOX", "a FETCH 1:* RFC822.SIZE", f"a {protocol.ALL}"]


def first(program, protocol, count, size, login):
    """The instructions of one session beyond its opening."""
    words = [program, protocol.WORD]
    with tempfile.TemporaryDirectory() as folder:
        write_journal(folder, count, size)
        path, counts = os.path.join(folder, "lines"), []
        for lines in ([protocol.GOODBYE], [*login, *commands_of(protocol, count), protocol.GOODBYE]):
            write_lines(path, lines)
            counts.append(instructions(words, path, cwd=folder))
    return counts[1] - counts[0]


def second(program, protocol, count, size, login):
    """The instructions of a second connection to one program."""
    lines, counts = [*login, *commands_of(protocol, count), protocol.GOODBYE], []
    with tempfile.TemporaryDirectory() as folder:
        write_journal(folder, count, size)
        for connections in (1, 2):
            port = free_port()

            def work():
                for _ in range(connections):
                    talk(protocol, port, lines)

            counts.append(instructions_while(words_of(program, protocol.WORD, port, connections), work, cwd=folder))
    return counts[1] - counts[0]


def rows_of(program, name, protocol):
    for count, size in MAILBOXES:
        mailbox = f"{count:,} messages of {size / 1000:g} kB"
        for session, count_of in (("first", first), ("second", second)):
            legacy, enabled = (count_of(program, protocol, count, size, login) for login in protocol.MODES.values())
            yield [name, mailbox, session, f"{legacy:,}", f"{enabled:,}", f"{legacy / enabled:.2f}"]


def measure(program):
    """Prints the table as it comes, and returns its lines."""
    lines = tell(heading(HEAD))
    for name, protocol in (("POP3", pop), ("IMAP", imap)):
        for cells in rows_of(program, name, protocol):
            lines += tell([line(cells)])
    return [PROSE, "", *lines]
