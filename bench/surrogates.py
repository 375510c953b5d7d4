"""Measures what it costs to make the surrogate of a short message, by its shape: what a legacy LIST takes beyond an enabled one."""

import os
import tempfile

import paths
import pop
from counting import heading, instructions, line
from journal import mailbox
from mailboxes import ADDRESS, PASSWORD, filled, message, tell, write_lines

# no more messages than the cache has places, so that each surrogate is made once
COUNT = 200

MOST = 45_000

HEAD = ["message", "instructions a surrogate"]

PROSE = f"""
One surrogate of a short message, by what is in its header: the instructions of a legacy LIST of {COUNT} such messages beyond those of an enabled one,
by their number. The cache has room for all, so each is made once, with the tree of its message, and kept.
""".strip()

SUBJECT = "Subject: deux cafés au lait et une crème brûlée, nº {}"
TO = "To: b@example.org"


def lines_of(*texts):
    return "".join(f"{text}\r\n" for text in texts)


def two_fields(number):
    return lines_of("From: Zoë <zoe@example.org>", TO, SUBJECT.format(number), "").encode()


def eight_fields(number):
    trace = "Received: by mail.example.org; Thu, 1 Jan 2026 00:00:00 +0000"
    about = [f"Message-ID: <{number}@example>", "MIME-Version: 1.0", "Content-Type: text/plain; charset=utf-8"]
    people = ["From: Zoë <zoe@example.org>", "To: Jörg <joerg@example.org>"]
    return lines_of(trace, "Date: Thu, 1 Jan 2026 00:00:00 +0000", *people, *about, SUBJECT.format(number), "").encode()


def four_addresses(number):
    people = "To: Zoë <zoe@example.org>, Jörg <joerg@example.org>, Émile <emile@example.org>, Åsa <asa@example.org>"
    return lines_of("From: Ann <ann@example.org>", people, SUBJECT.format(number), "").encode()


def two_parts(number, size):
    """A text, and a file whose name is UTF-8."""
    boundary = f"b{number}"
    kind = f"Content-Type: multipart/mixed; boundary={boundary}"
    head = lines_of("From: Ann <ann@example.org>", TO, "Subject: a file", "MIME-Version: 1.0", kind, "")
    text = lines_of(f"--{boundary}", "", "Hello.")
    file = lines_of(f"--{boundary}", "Content-Type: application/pdf", 'Content-Disposition: attachment; filename="résumé.pdf"', "")
    end = f"--{boundary}--\r\n".encode()
    return filled((head + text + file).encode(), size - len(end)) + end


def padded(head):
    """Messages that begin so, with so many octets."""
    return lambda number, size: filled(head(number), size)


SHAPES = [
    ("2 kB, Subject in UTF-8", message, 2_000),
    ("400 octets, Subject in UTF-8", message, 400),
    ("332 octets, From and Subject in UTF-8", padded(two_fields), 332),
    ("400 octets, eight fields, three of them in UTF-8", padded(eight_fields), 400),
    ("400 octets, two parts, a file name in UTF-8", two_parts, 400),
    ("400 octets, four addresses and Subject in UTF-8", padded(four_addresses), 400),
]


def listing(words, folder, login):
    """The instructions of LIST in a session that has logged in so."""
    path, counts = os.path.join(folder, "lines"), []
    for commands in ([], ["LIST"]):
        write_lines(path, [*login, *commands, pop.GOODBYE])
        counts.append(instructions(words, path, cwd=folder))
    return counts[1] - counts[0]


def surrogate(program, make, size):
    """The instructions of one surrogate of such messages."""
    with tempfile.TemporaryDirectory() as folder:
        with open(os.path.join(folder, "mail.journal"), "wb") as file:
            file.write(mailbox([make(number, size) for number in range(COUNT)], ADDRESS.encode(), PASSWORD.encode()))
        legacy, enabled = (listing([program, pop.WORD], folder, login) for login in pop.MODES.values())
    return (legacy - enabled) // COUNT


def measure(program):
    """Prints the table as it comes, and returns its lines."""
    lines, missed = tell(heading(HEAD)), []
    for name, make, size in SHAPES:
        count = surrogate(program, make, size)
        lines += tell([line([name, f"{count:,}"])])
        if count > MOST:
            missed.append(f"Not met: {name}: {count:,} instructions, more than {MOST:,}.")
    return [PROSE, "", *lines, "", f"Wanted: at most {MOST:,} instructions a surrogate.  ", *[f"{it}  " for it in missed or ["All met."]]]
