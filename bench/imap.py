"""IMAP over large mailboxes."""

from mailboxes import ADDRESS, PASSWORD
from mailboxes import hear as hear_reply

WORD, GOODBYE, ALL = "imap", "a LOGOUT", "FETCH 1:* BODY.PEEK[]"
# what mail programs ask to show a list
LISTED, CHOSEN = "FETCH 1:* (RFC822.SIZE ENVELOPE BODYSTRUCTURE)", "FETCH 1:* BODY.PEEK[HEADER.FIELDS (FROM SUBJECT DATE)]"
LOGIN = [f"a LOGIN {ADDRESS} {PASSWORD}"]
MODES = {"legacy": LOGIN, "enabled": [*LOGIN, "a ENABLE UTF8=ACCEPT"]}

# n, and octets of a message
MAILBOXES = [(10_000, 700), (200, 100_000)]

PROSE = """
`dervlask imap`, one account with a mailbox of n and of 2n messages, each with one non-ASCII Subject. *opening* is a session of
`LOGOUT` alone; the other sessions log in, and all but SELECT select INBOX before their command. The other columns are as those of
POP3. The times are those of `dervlask serve imap`.
""".strip()


def commands_of(count):
    """The sessions by name."""
    commands = ["FETCH 1:* (FLAGS UID RFC822.SIZE)", LISTED, CHOSEN, ALL]
    return {"SELECT": ["a SELECT INBOX"], **{it: ["a SELECT INBOX", f"a {it}"] for it in commands}}


def is_ended(last):
    """Whether a reply ends with a line that has the tag."""
    return last.endswith(b"\r\n") and last[:-2].rpartition(b"\r\n")[2].startswith(b"a OK")


def hear(connection, text):
    """Takes the reply to this line."""
    hear_reply(connection, is_ended, [b"a NO", b"a BAD"])
