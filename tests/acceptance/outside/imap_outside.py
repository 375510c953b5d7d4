"""Rows where the outside of `dervlask imap` fails, where words are wrong, of the largest literal and of sessions that are too long; and
clients of `serve imap` that go in the middle of something."""

import tempfile

from journal import flags
from oracle.records import mailbox, message
from outside.pop_outside import SESSION_MAX, is_slow, of_the_outside, of_words, run_long
from outside.serve_outside import connect, heard, hang_up, talk
from outside.smtp_outside import LINE, data_of, enough_memory, little_room
from rows.imap_rows import ANN, BAD, BYE, CAFE_BAR, DELETED, DONE, GO, LOGIN, MESSAGE_MAX, READY, octets_of, opened, select, sent
from support.harness import differs
from support.moments import IN_RECORD, Moments
from support.service import Service
from support.talk import IMAP, answer_faults, place_journal, run_whole

WORDS = [[b"imap", b"x"], [b"imap", b"imap"], [b"IMAP"], [b"imap", b""], [b"imap4"], [b"imap", b"pop"]]
GREETING = octets_of([READY])
NO_COMMAND = b"* BAD syntax\r\n"
LOGS_IN = sent(LOGIN[0])
SELECTS = LOGS_IN + sent(select(1, 2)[0])
IS_SELECTED = octets_of([READY, DONE, *opened(1, 2)])
ENDS = b"a LOGOUT\r\n"
ENDED = octets_of([BYE, DONE])


def of_a_full_journal(program, tally):
    """A journal without room for a change stays as it was, and the next session makes the change."""
    record = flags(0, DELETED)
    stores = SELECTS + sent("a STORE 1 +FLAGS \\Deleted") + ENDS
    told = octets_of(["* 1 FETCH (FLAGS (\\Deleted))", DONE]) + ENDED
    for room in (0, 1, 4, len(record) - 1):
        found = run_whole(program, CAFE_BAR, stores, IMAP, preexec=little_room(len(CAFE_BAR) + room))
        tally.note(f"IMAP: a journal with room for {room} octets", answer_faults(found, (2, IS_SELECTED, CAFE_BAR)))
        again = run_whole(program, found[2], stores, IMAP)
        tally.note(f"IMAP: the session behind it, {room}", answer_faults(again, (0, IS_SELECTED + told, CAFE_BAR + record)))


def of_full_appends(program, tally):
    """A journal without room for a message stays as it was; APPEND isn't answered, and that of the next session is."""
    data = b"A: b\r\n\r\nx\r\n"
    appends, record = LOGS_IN + f"a APPEND INBOX {{{len(data)}}}\r\n".encode() + data + b"\r\n" + ENDS, message(0, data)
    heard = octets_of([READY, DONE, GO])
    for room in (0, 1, 4, 20, len(record) - 1):
        moments = Moments(ANN, 0, (IN_RECORD,))
        status, given, after = run_whole(program, ANN, appends, IMAP, preexec=little_room(len(ANN) + room))
        faults = differs("status", status, 2) + differs("replies", given, heard) + differs("journal", after, ANN)
        tally.note(f"IMAP: APPEND to a journal with room for {room} octets", faults)
        status, given, again = run_whole(program, after, appends, IMAP)
        wanted = 0, heard + octets_of([DONE]) + ENDED, ANN + record
        tally.note(f"IMAP: the session behind APPEND, {room}", answer_faults((status, given, moments.seen(again)), wanted))


def of_sizes(program, tally):
    """The largest literal of APPEND: no message, one that is kept, and one that its last CRLF makes too large."""
    no_message, largest = LINE * (MESSAGE_MAX // len(LINE)), data_of(MESSAGE_MAX)
    cases = [
        ("that is no message", no_message, "a NO not a message", b""),
        ("that is a message", largest, DONE, message(0, largest)),
        ("that lacks its last CRLF", largest[:-2] + b"xx", "a NO too large", b""),
    ]
    for name, data, reply, record in cases:
        moments = Moments(ANN, 0, (IN_RECORD,))
        given = LOGS_IN + f"a APPEND INBOX {{{len(data)}}}\r\n".encode() + data + b"\r\n" + ENDS
        status, heard, after = run_whole(program, ANN, given, IMAP, preexec=enough_memory)
        wanted = 0, octets_of([READY, DONE, GO, reply]) + ENDED, ANN + record
        tally.note(f"IMAP: the largest literal, {name}", answer_faults((status, heard, moments.seen(after)), wanted))


def of_the_limit(program, tally):
    """Sessions of 1,073,741,824 octets: lines of 65,536 octets, and the end."""
    count = SESSION_MAX // len(LINE) - 1
    cases = [
        ("the session limit", b"y" * len(LINE), 6, b""),
        ("the session limit, as a line ends", LINE, 6, NO_COMMAND),
        ("one octet below the session limit", b"y" * (len(LINE) - 1), 0, b""),
        ("LOGOUT as the session limit comes", b"x" * (len(LINE) - 2 - len(ENDS)) + b"\r\n" + ENDS, 0, NO_COMMAND + ENDED),
    ]
    for name, last, status, reply in cases:
        found = run_long(program, LINE, count, last, IMAP, preexec=enough_memory)
        tally.note(f"IMAP: {name}", differs("answer", found, (status, GREETING + NO_COMMAND * count + reply)))


def of_clients(program, tally):
    """Clients that go in the middle of a command, of a literal, or of what they are sent, end their connection alone."""
    large = mailbox([b"A: b\r\n\r\n" + LINE * 128])
    with tempfile.TemporaryDirectory(dir=program.folder.name) as folder:
        place_journal(folder, large)
        with Service(program.path, folder, "imap", connections=5) as service:
            hang_up(service, LOGS_IN + b"a SELE", GREETING + octets_of([DONE]), False)
            hang_up(service, b"a LOGIN {15}\r\nann@", octets_of([READY, GO]), True)
            hang_up(service, SELECTS + b"a FETCH 1 BODY.PEEK[]\r\n", IS_SELECTED + b"* 1 FETCH", True)
            with connect(service) as connection:
                connection.sendall(LOGS_IN + b"a FETCH\r\n" + ENDS)
                told = heard(connection)
            again, status = talk(service, SELECTS + ENDS), service.end()
    resets = [line for line in service.said if line.startswith(("dervlask: connection 2: ", "dervlask: connection 3: "))]
    faults = differs("a bad command", told, octets_of([READY, DONE, BAD]) + ENDED) + differs("the last client", again, IS_SELECTED + ENDED)
    faults += differs("status", status, 0) + service.faults(0, said=resets) + differs("connections 2 and 3", len(resets) > 0, True)
    tally.note("serve imap: clients that hang up", faults)


def check(program, tally):
    of_words(program, tally, WORDS)
    of_the_outside(program, tally, IMAP, GREETING)
    of_a_full_journal(program, tally)
    of_full_appends(program, tally)
    of_clients(program, tally)
    if is_slow(program, LINE):
        print("the largest literal and the session limit of IMAP weren't tried: this program would take minutes, as one that is built to find faults")
        return
    of_sizes(program, tally)
    of_the_limit(program, tally)
