"""Marks of messages that an independent reference wrote. No command shows a mark, so they are looked for in the journal.

Each message is put into a mailbox by APPEND, and is sent by SMTP to an account and elsewhere, which puts fields of ASCII before it: its mark stays.
A journal that has the message opens where it has this mark, and is bad where it has another one."""

import json
import os
import tempfile

from journal import account, domain, journal, message
from oracle.pop_store import Fields
from support.harness import differs, in_lanes
from support.moments import records_of
from support.talk import IMAP, POP, SMTP, place_journal, read_journal

MARKS, MESSAGES = "marks.tsv", "messages-q.jsonl"
STORE = journal(domain(b"x.org"), account(b"a@x.org", b"p"))
LOGS_IN, ENVELOPE = b"a LOGIN a@x.org p\r\n", b"MAIL FROM:<>\r\nRCPT TO:<a@x.org>\r\nRCPT TO:<b@y.org>\r\nDATA\r\n"
AT_ONCE = 40


def marked(folder):
    """Name, octets and mark of each message."""
    path = os.path.join(folder, MARKS)
    if os.path.exists(path):
        with open(path, encoding="ascii") as file:
            for number, line in enumerate(file, 1):
                octets, mark = line.split()
                yield f"{MARKS}, line {number}", bytes.fromhex(octets.strip(".")), int(mark)
    path = os.path.join(folder, MESSAGES)
    if os.path.exists(path):
        with open(path, encoding="utf-8") as file:
            for number, vector in enumerate(map(json.loads, file), 1):
                if vector.get("mark") is not None:
                    yield f"{MESSAGES}, line {number}", bytes.fromhex(vector["message"]), vector["mark"]


def appended(cases):
    """A session of IMAP that brings these messages."""
    return LOGS_IN + b"".join(b"b APPEND INBOX {%d}\r\n%s\r\n" % (len(octets), octets) for _, octets, _ in cases)


def sent(cases):
    """One of SMTP that does so."""
    return b"EHLO x\r\n" + b"".join(ENVELOPE + stuffed(octets) + b".\r\n" for _, octets, _ in cases)


def stuffed(octets):
    whole = octets if not octets or octets.endswith(b"\r\n") else octets + b"\r\n"
    return b"".join(b"." + line if line.startswith(b".") else line for line in whole.splitlines(keepends=True))


def marks_in(octets):
    """The kind and the mark of each message and entry behind the store."""
    found = []
    for record in records_of(octets, len(STORE)):
        kind, fields = record[4], Fields(record[5:])
        if kind == 9:
            fields.take(5)
        elif kind == 10:
            fields.octets(), fields.texts()
        found.append((kind, fields.octet()))
    return found


def session_faults(program, cases):
    """What is wrong with the marks that sessions of both kinds write."""
    faults = []
    for word, octets, kinds in ((IMAP, appended(cases), [9]), (SMTP, sent(cases), [9, 10])):
        with tempfile.TemporaryDirectory(dir=program.folder.name) as folder:
            path = place_journal(folder, STORE)
            status, _ = program.run([word], octets, cwd=folder)
            faults += differs(f"status of {word.decode()}", status, 0)
            wanted = [(kind, mark) for _, _, mark in cases for kind in kinds]
            faults += differs(f"kinds and marks of {word.decode()}, from {cases[0][0]} on", marks_in(read_journal(path)), wanted)
    return faults


def journal_faults(program, case):
    """What is wrong with how journals open that have the message with each mark."""
    _, octets, mark = case
    faults = []
    for told in range(5):
        before = STORE + message(0, octets, mark=told)
        wanted = (0, b"+OK ready\r\n+OK bye\r\n") if told == mark else (5, b"bad journal at %d\r\n" % len(STORE))
        with tempfile.TemporaryDirectory(dir=program.folder.name) as folder:
            path = place_journal(folder, before)
            faults += differs(f"with the mark {told}", (program.run([POP], b"QUIT\r\n", cwd=folder), read_journal(path)), (wanted, before))
    return faults


def check(program, tally, folder):
    cases = list(marked(folder))
    some = [cases[at : at + AT_ONCE] for at in range(0, len(cases), AT_ONCE)]
    for few, faults in zip(some, in_lanes(lambda few: session_faults(program, few), some)):
        tally.note(f"marks that are written, from {few[0][0]} on", faults)
    for case, faults in zip(cases, in_lanes(lambda case: journal_faults(program, case), cases)):
        tally.note(f"{case[0]}: its mark", faults)
    print(f"vectors of marks: {len(cases)} messages")
