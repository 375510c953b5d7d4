"""Measures what IMAP tells of one message: its structure, its envelope, chosen fields, and a part of it. Some of the messages are hostile."""

import os
import sys
import tempfile

import dovecot
import imap
import paths
from cases import MIB, ascii_fields, many_addresses, many_parts, nested_messages, nested_multiparts, part_of_lines, write
from counting import DATA, best_of, heading, instructions, line, milliseconds
from journal import mailbox
from listening import NotStarted
from mailboxes import ADDRESS, PASSWORD, talk, tell, write_lines
from serve import Serve

RATIO_MOST = 2.2
SELECT = "a SELECT INBOX"

COUNTED = ["message", "session", "instructions at n", "at 2n", "2n to n", "an octet"]
TIMED = ["message at 2n", "dervlask, legacy", "dervlask, enabled"]

PROSE = """
What `dervlask imap` tells of one message, at n and at 2n: instructions of one command beyond those of a session without it. *an octet*:
instructions at n by the message's octets.
""".strip()


def structure(_):
    return "a FETCH 1 BODYSTRUCTURE"


def envelope(_):
    return "a FETCH 1 ENVELOPE"


def partial(size):
    return f"a FETCH 1 BODY.PEEK[]<{size // 2}.1000>"


def chosen(count):
    """Every tenth field, by its name."""
    return f"a FETCH 1 BODY.PEEK[HEADER.FIELDS ({' '.join(f'X-Field-{number:06}' for number in range(0, count, 10))})]"


# name, what writes the message, n, and what is asked of it
CASES = [
    ("1 kB out of 15 and 30 MiB", part_of_lines, 15 * MIB, partial),
    ("a structure of 10,000 and 20,000 parts", many_parts, 10_000, structure),
    ("a structure of 32 nested multiparts around 1 and 2 MiB", nested_multiparts, MIB, structure),
    ("a structure of 32 nested messages around 1 and 2 MiB", nested_messages, MIB, structure),
    ("an envelope of 50,000 and 100,000 addresses", many_addresses, 50_000, envelope),
    ("1,000 and 2,000 names over 10,000 and 20,000 fields", ascii_fields, 10_000, chosen),
]


def message_of(make, n):
    path = os.path.join(DATA, "message.eml")
    write(path, make, n)
    with open(path, "rb") as file:
        octets = file.read()
    os.remove(path)
    return octets


def write_journal(folder, octets):
    with open(os.path.join(folder, "mail.journal"), "wb") as file:
        file.write(mailbox([octets], ADDRESS.encode(), PASSWORD.encode()))


def counts_of(program, octets, command):
    """Instructions of the command in each mode."""
    counts = {}
    with tempfile.TemporaryDirectory() as folder:
        write_journal(folder, octets)
        path = os.path.join(folder, "lines")
        for mode, login in imap.MODES.items():
            found = []
            for commands in ([], [command]):
                write_lines(path, [*login, SELECT, *commands, imap.GOODBYE])
                found.append(instructions([program, imap.WORD], path, cwd=folder))
            counts[mode] = found[1] - found[0]
    return counts


def count_rows(program, name, make, n, command):
    """The rows of a case, and the thresholds that aren't met."""
    octets = message_of(make, n)
    once, twice = counts_of(program, octets, command(n)), counts_of(program, message_of(make, 2 * n), command(2 * n))
    rows, missed = [], []
    for mode, count in once.items():
        ratio = twice[mode] / count
        rows.append([name if not rows else "", mode, f"{count:,}", f"{twice[mode]:,}", f"{ratio:.2f}", f"{count / len(octets):.2f}"])
        if ratio > RATIO_MOST:
            missed.append(f"{name}, {mode}: {ratio:.2f} times the instructions at 2n, more than {RATIO_MOST}")
    return rows, missed


def time_of(port, login, command):
    """The best of three sessions; the first one isn't counted."""
    lines = [*login, SELECT, command, imap.GOODBYE]
    talk(imap, port, lines)
    return best_of(3, lambda: talk(imap, port, lines))


def rival_time(octets, command):
    with tempfile.TemporaryDirectory() as folder:
        try:
            with dovecot.Dovecot(folder, [octets], PASSWORD, imap.WORD) as rival:
                return milliseconds(time_of(rival.port, imap.MODES["legacy"], command))
        except NotStarted as error:
            print(error, file=sys.stderr)
            return "not started"


def time_row(program, name, make, n, command):
    octets, asked = message_of(make, 2 * n), command(2 * n)
    with tempfile.TemporaryDirectory() as folder:
        write_journal(folder, octets)
        with Serve(program, folder, imap.WORD) as serving:
            times = [milliseconds(time_of(serving.port, login, asked)) for login in imap.MODES.values()]
    return [name, *times, *([rival_time(octets, asked)] if dovecot.is_installed(imap.WORD) else [])]


def measure(program):
    """Prints the tables as they come, and returns their lines."""
    lines, missed = tell(heading(COUNTED)), []
    for case in CASES:
        rows, more = count_rows(program, *case)
        lines += tell([line(it) for it in rows])
        missed += more
    rival = [dovecot.version()] if dovecot.is_installed(imap.WORD) else []
    times = tell(["", *heading([*TIMED, *rival])])
    for case in CASES:
        times += tell([line(time_row(program, *case))])
    wanted = f"Wanted: at most {RATIO_MOST} times the instructions at 2n."
    end = tell(["", *[f"{it}  " for it in [wanted, *([f"Not met: {it}." for it in missed] or ["All met."])]]])
    said = "Wall clock of a session with this command, through `serve`, the best of three. (Dovecot keeps structures and envelopes that it has told.)"
    return [PROSE, "", *lines, "", said, *times, *end]
