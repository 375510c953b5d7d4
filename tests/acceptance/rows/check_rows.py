"""Rows of `check` and `gen`: messages and counts in, lines out."""

import os
import tempfile

from oracle.downgrade_oracle import MESSAGE_MAX, outcome
from outside.pop_outside import is_slow
from outside.smtp_outside import LINE
from rows.downgrade_rows import CAFE, WORDS_REFUSED, of_size, refused
from support.harness import differs
from support.talk import JOURNAL, place_journal, read_journal

NAMES = ("octets", "served", "entities", "rewritten", "utf8")
GLOBAL = "Content-Type: multipart/mixed; boundary=b\r\n\r\n--b\r\nContent-Type: message/global\r\n{}\r\nSubject: é\r\n\r\nt\r\n--b--\r\n"
NESTED = "Content-Type: message/rfc822\r\n\r\n"
# a letter with a part that has a file name
LETTER = (
    "From: Zoë <zoe@example.org>\r\nTo: Ann <ann@example.com>\r\nSubject: Menü für Freitag\r\nDate: Thu, 01 Jan 1970 00:00:00 +0000\r\n"
    "Message-ID: <1@example.org>\r\nMIME-Version: 1.0\r\nContent-Type: multipart/mixed; boundary=\"=_b\"\r\n\r\n"
    "--=_b\r\nContent-Type: text/plain; charset=utf-8\r\nContent-Transfer-Encoding: 8bit\r\n\r\nGrüße\r\n"
    "--=_b\r\nContent-Type: application/pdf; name=\"Menü.pdf\"\r\nContent-Disposition: attachment; filename=\"Menü.pdf\"\r\n"
    "Content-Transfer-Encoding: base64\r\n\r\nJVBERg==\r\n--=_b--\r\n"
)
# counts of `gen`; the last ones are beyond what it takes
COUNTS = [1, 2, 11, 1000]
NO_COUNTS = ["0", "100001", "01", "007", "+1", "-1", "1e3", "1 ", "x", "", "4294967297", "18446744073709551617"]
MOST = 100_000


def lines(*values, names=NAMES):
    return "".join(f"{name} {value}\r\n" for name, value in zip(names, values, strict=True)).encode()


def of_messages():
    """Name, octets, and the status and octets that `check` gives."""
    row = lambda name, text, *values: (name, text if isinstance(text, bytes) else text.encode(), 0, lines(*values))
    return [
        row("café bar", CAFE, 25, 44, 1, 1, "yes"),
        row("no octets", "", 0, 0, 1, 0, "no"),
        row("no last CRLF", "A: b", 6, 6, 1, 0, "no"),
        row("a body beyond ASCII", "A: b\r\n\r\né\r\n", 12, 12, 1, 0, "no"),
        row("a body beyond ASCII without a last CRLF", "A: b\r\n\r\né", 12, 12, 1, 0, "no"),
        row("a message/global", GLOBAL.format(""), 107, 123, 3, 2, "yes"),
        row("a message/global that isn't opened", GLOBAL.format("Content-Transfer-Encoding: base64\r\n"), 142, 142, 2, 0, "no"),
        row("a letter with a part that has a file name", LETTER, 481, 551, 3, 4, "yes"),
        row("32 messages in one another", NESTED * 32 + "Subject: é\r\n", 1037, 1053, 33, 1, "yes"),
        row("40 messages in one another, of which those below 32 aren't opened", NESTED * 40 + "Subject: é\r\n", 1293, 1293, 33, 0, "no"),
        row("a message of 33,554,432 octets", of_size(MESSAGE_MAX), MESSAGE_MAX, MESSAGE_MAX, 1, 0, "no"),
        ("no field", b"Subject", *refused(0, "not a field")),
        ("no UTF-8", b"A: \xff", *refused(3, "not utf-8")),
        ("a line that is no field, behind one", b"A: b\r\nx\r\n", *refused(6, "not a field")),
        ("a bare LF", b"A: b\n", *refused(4, "bare lf")),
        ("CR last", b"A: b\r", *refused(4, "bare cr")),
        ("NUL", b"A: \0\r\n", *refused(3, "nul")),
        ("too large", of_size(MESSAGE_MAX + 1), *refused(MESSAGE_MAX, "too large")),
    ]


def check_messages(program, tally):
    for name, octets, status, wanted in of_messages():
        answer = program.run([b"check"], octets)
        faults = differs("answer", answer, (status, wanted)) + differs("answer, as the oracle has it", answer, outcome([b"check"], octets))
        given = program.downgrade(octets)[1]
        if status == 0:
            faults += differs("octets of the surrogate", b"served %d\r\n" % len(given) in answer[1], True)
        tally.note(f"check: {name}", faults)


def generated(number):
    """A message of `gen`, counted from 0."""
    return f"From: a@example.org\r\nSubject: s{number} é\r\n\r\n{number}\r\n".encode()


def sums(count):
    """What `gen` gives: how many messages, their octets, and those of their surrogates."""
    messages = [generated(number) for number in range(count)]
    served = [outcome([b"downgrade"], octets)[1] for octets in messages]
    return lines(count, sum(map(len, messages)), sum(map(len, served)), names=("messages", "stored", "served"))


def run_twice(program, count, folder):
    return [program.run([b"gen", str(count).encode()], b"A: b\r\n", cwd=folder) for _ in range(2)]


def check_generated(program, tally):
    """Its lines are the same at each run, and the sums of what Python makes; it takes nothing, and leaves a journal alone, a bad one too."""
    tally.note("gen 11, as it is written out", differs("lines", sums(11), lines(11, 464, 662, names=("messages", "stored", "served"))))
    with tempfile.TemporaryDirectory(dir=program.folder.name) as folder:
        for count in COUNTS:
            faults = differs("answers", run_twice(program, count, folder), [(0, sums(count))] * 2)
            octets = generated(count - 1)
            wanted = lines(len(octets), len(program.downgrade(octets)[1]), 1, 1, "yes")
            tally.note(f"gen {count}", faults + differs("check of its last message", program.run([b"check"], octets)[1], wanted))
        tally.note("gen makes no journal", differs("files", os.listdir(folder), []))
        place_journal(folder, b"MAILJNL3")
        faults = differs("answers", run_twice(program, 3, folder), [(0, sums(3))] * 2)
        tally.note("gen beside a bad journal", faults + differs("journal", read_journal(os.path.join(folder, JOURNAL)), b"MAILJNL3"))


def check_words(program, tally):
    for words in [["gen"], ["gen", "1", "1"], ["Gen", "1"], ["check", "x"], ["check", ""], ["CHECK"], ["check", "check"], *(["gen", word] for word in NO_COUNTS)]:
        answer = program.run([word.encode() for word in words], b"A: b\r\n")
        tally.note(f"the words {words}", differs("answer", answer, WORDS_REFUSED))


def check_most(program, tally):
    """The greatest count."""
    if is_slow(program, LINE):
        print(f"gen {MOST:,} wasn't tried: this program would take minutes, as one that is built to find faults")
        return
    tally.note(f"gen {MOST:,}", differs("answer", program.run([b"gen", str(MOST).encode()], b""), (0, sums(MOST))))


def check(program, tally):
    check_messages(program, tally)
    check_generated(program, tally)
    check_words(program, tally)
    check_most(program, tally)
