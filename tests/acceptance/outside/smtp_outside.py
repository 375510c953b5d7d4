"""Rows where the outside of `dervlask smtp` fails, where words are wrong, of messages as large as one may be, and of sessions that
are too long."""

import resource
import signal

from journal import account, domain, journal
from oracle.records import message, queue
from outside.pop_outside import SESSION_MAX, is_slow, of_the_outside, of_words, run_long
from rows.smtp_rows import (
    ANN, GREETED, JOSE, JOSE_KEPT, MESSAGE_MAX, OK, READY_FOR_DATA, RECIPIENT_OK, SENDER_OK, STORED, TAKES_DATA, TOO_LARGE, kept, octets_of, trace,
)
from support.harness import differs
from support.moments import Moments
from support.talk import SMTP, answer_faults, run_whole

WORDS = [[b"smtp", b"x"], [b"smtp", b"smtp"], [b"SMTP"], [b"smtp", b""], [b"smtpd"], [b"smtp", b"pop"]]
LOCAL_READY = b"220 localhost ESMTP\r\n"
END = b".\r\n"
HEADER = b"A: b\r\n\r\n"
LINE = b"x" * 65_534 + b"\r\n"
# octets of memory and of address space that are enough for a message, and not for a session
ENOUGH = 512 << 20
RECIPIENTS, SHARED = 20, 4 << 20


def data_of(size):
    """Data of so many octets."""
    return HEADER + b"x" * (size - len(HEADER) - 2) + b"\r\n"


def of_sizes(program, tally):
    """What is kept may have 33,554,432 octets. For an account that is with the line Return-Path, for others without it."""
    local, remote = MESSAGE_MAX - len(kept("a@b", b"")), MESSAGE_MAX - len(octets_of([trace()]))
    entry = lambda data: queue(b"a@b", [b"c@d"], octets_of([trace()]) + data)
    cases = [
        ("the largest message of an account", "RCPT TO:<ann@example.org>", local, lambda data: message(0, kept("a@b", data))),
        ("one octet more", "RCPT TO:<ann@example.org>", local + 1, None),
        ("the largest message for elsewhere", "RCPT TO:<c@d>", remote, entry),
        ("one octet more, for elsewhere", "RCPT TO:<c@d>", remote + 1, None),
    ]
    for name, to, size, record in cases:
        data, moments = data_of(size), Moments(ANN, 0)
        given = octets_of([*READY_FOR_DATA[:2], to, "DATA"]) + data + END + b"RSET\r\n"
        wanted = 0, octets_of([*TAKES_DATA, STORED if record else TOO_LARGE, OK]), ANN + (record(data) if record else b"")
        status, replies, after = run_whole(program, ANN, given, SMTP)
        tally.note(f"SMTP: {name}", answer_faults((status, replies, moments.seen(after)), wanted))


def of_refusals(program, tally):
    """Where only the copy of an account is too large, nobody gets the message; and that is told before it is no message."""
    size = MESSAGE_MAX - len(octets_of([trace()]))
    both = octets_of([*READY_FOR_DATA[:2], "RCPT TO:<ann@example.org>", "RCPT TO:<c@d>", "DATA"])
    for name, data in (("one copy of two is too large", data_of(size)), ("too large, and no message", b"x" * size + b"\r\n")):
        wanted = 0, octets_of([*GREETED, SENDER_OK, RECIPIENT_OK, RECIPIENT_OK, "354 go ahead", TOO_LARGE]), ANN
        tally.note(f"SMTP: {name}", answer_faults(run_whole(program, ANN, both + data + END, SMTP), wanted))


def little_room(size):
    """Files may have so many octets."""

    def limit():
        # without this the signal ends the program
        signal.signal(signal.SIGXFSZ, signal.SIG_IGN)
        resource.setrlimit(resource.RLIMIT_FSIZE, (size, size))

    return limit


def little_more_than_is_kept():
    """An address space of 1.3 times what is kept of a message to many."""
    octets = RECIPIENTS * SHARED * 13 // 10
    resource.setrlimit(resource.RLIMIT_AS, (octets, octets))


def of_many_recipients(program, tally):
    """A message to twenty accounts needs little more memory than what is kept of it."""
    users = [f"u{number}@example.org" for number in range(RECIPIENTS)]
    old = journal(domain(b"example.org"), *(account(user.encode(), b"pw") for user in users))
    data, moments = data_of(SHARED), Moments(old, 0)
    given = octets_of([*READY_FOR_DATA[:2], *(f"RCPT TO:<{user}>" for user in users), "DATA"]) + data + END
    replies = octets_of([*GREETED, SENDER_OK, *[RECIPIENT_OK] * RECIPIENTS, "354 go ahead", STORED])
    records = b"".join(message(folder, kept("a@b", data)) for folder in range(RECIPIENTS))
    status, heard, after = run_whole(program, old, given, SMTP, preexec=little_more_than_is_kept)
    tally.note("SMTP: a message to many in little memory", answer_faults((status, heard, moments.seen(after)), (0, replies, old + records)))


def of_a_full_journal(program, tally):
    """A journal without room for a message is left as it was: what was written of the record is taken back."""
    record, moments = message(0, JOSE_KEPT), Moments(ANN, 0)
    for room in (0, 1, 3, 4, 60, len(record) - 1):
        status, given, after = run_whole(program, ANN, octets_of(JOSE), SMTP, preexec=little_room(len(ANN) + room))
        # the replies before the last one, which isn't told
        faults = differs("status", status, 2) + differs("replies", given.split(b"\r\n")[-2:], [b"354 go ahead", b""])
        faults += differs("journal", after, ANN)
        tally.note(f"SMTP: a journal with room for {room} octets", faults)
        again = run_whole(program, after, octets_of(JOSE), SMTP)
        tally.note(f"SMTP: the session behind it, {room}", differs("journal", moments.seen(again[2]), ANN + record))


def enough_memory():
    resource.setrlimit(resource.RLIMIT_AS, (ENOUGH, ENOUGH))


def of_the_limit(program, tally):
    """Sessions of 1,073,741,824 octets of data, in as much memory as a message takes."""
    first = octets_of(["HELO client", "MAIL FROM:<a@b>", "RCPT TO:<c@d>", "DATA"])
    ready = octets_of([LOCAL_READY.decode().strip(), "250 localhost", SENDER_OK, RECIPIENT_OK, "354 go ahead"])
    count, rest = divmod(SESSION_MAX - len(first), len(LINE))
    ends = octets_of([".", "QUIT"])
    cases = [
        ("the session limit within data", b"y" * rest, 6, ready),
        ("data that end one octet before it", b"y" * (rest - len(END) - 3) + b"\r\n" + END, 0, ready + octets_of([TOO_LARGE])),
        ("QUIT as it comes", b"y" * (rest - len(ends) - 2) + b"\r\n" + ends, 0, ready + octets_of([TOO_LARGE, "221 2.0.0 bye"])),
    ]
    for name, last, status, wanted in cases:
        found = run_long(program, LINE, count, last, SMTP, first, enough_memory)
        tally.note(f"SMTP: {name}", differs("answer", found, (status, wanted)))


def check(program, tally):
    of_words(program, tally, WORDS)
    of_the_outside(program, tally, SMTP, LOCAL_READY)
    of_a_full_journal(program, tally)
    if is_slow(program, LINE):
        print("the largest messages and the session limit of SMTP weren't tried: this program would take minutes, as one that is built to find faults")
        return
    of_sizes(program, tally)
    of_refusals(program, tally)
    of_many_recipients(program, tally)
    of_the_limit(program, tally)
