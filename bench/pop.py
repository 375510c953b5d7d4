"""POP3 over large mailboxes."""

from mailboxes import ADDRESS, PASSWORD
from mailboxes import hear as hear_reply

WORD, GOODBYE, ALL = "pop", "QUIT", "RETR of all"
LOGIN = [f"USER {ADDRESS}", f"PASS {PASSWORD}"]
MODES = {"legacy": LOGIN, "enabled": ["UTF8", *LOGIN]}

# n, and octets of a message
MAILBOXES = [(10_000, 2_000), (200, 100_000)]

PROSE = """
`dervlask pop`, one account with a mailbox of n and of 2n messages, each with one non-ASCII Subject. *opening* is a session of
`QUIT` alone; the other sessions log in and give one command (RETR: one for each message), and their instructions are those
beyond the opening's. *an octet*: instructions at n by the journal's octets. *peak*: the greatest resident set of the legacy
session that retrieves all; *of the journal*: the same less that of a run without a journal, by the journal's size. The times are
those of `dervlask serve pop`, which reads its journal once.
""".strip()


def commands_of(count):
    """The sessions by name."""
    return {"STAT": ["STAT"], "LIST": ["LIST"], ALL: [f"RETR {number}" for number in range(1, count + 1)]}


def hear(connection, text):
    """Takes the reply to this line."""
    end = b"\r\n.\r\n" if text[:4] in ("RETR", "LIST") else b"\r\n"
    hear_reply(connection, lambda last: last.endswith(end), [b"-ERR"])
