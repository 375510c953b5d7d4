"""Rows where the outside of `dervlask pop` fails, where words are wrong, and of sessions that are too long.

What holds of any command that serves a session is told by its word and its greeting, for smtp_outside.py too."""

import os
import subprocess
import sys
import tempfile
import threading
import time

from journal import mark_of
from oracle.records import mailbox
from rows.downgrade_rows import CAFE, little_memory
from rows.pop_rows import LINE_MAX
from support import paths
from support.harness import SECONDS, differs, in_lanes
from support.talk import JOURNAL, POP, read_journal, run_whole

SESSION_MAX = 1 << 30
LIMIT_SECONDS = 60
READY = b"+OK ready\r\n"


def status_in(program, folder, word, **how):
    return program.run([word], b"QUIT\r\n", cwd=folder, **how)


def of_the_outside(program, tally, word=POP, greeting=READY):
    """Rows where standard output, standard input, the journal or memory fails."""
    name_of = lambda what: f"the word {word.decode()}: {what}"
    with tempfile.TemporaryDirectory(dir=program.folder.name) as folder:
        with open("/dev/full", "wb") as full:
            tally.note(name_of("standard output is full"), differs("status", status_in(program, folder, word, stdout=full)[0], 1))
        unreadable = os.open(folder, os.O_RDONLY)
        found = program.run_on([word], unreadable, cwd=folder)
        os.close(unreadable)
        tally.note(name_of("standard input can't be read"), differs("answer", found, (1, greeting)))
    for what, place in (("a folder", os.mkdir), ("a link", lambda path: os.symlink("/dev/full", path))):
        with tempfile.TemporaryDirectory(dir=program.folder.name) as folder:
            place(os.path.join(folder, JOURNAL))
            tally.note(name_of(f"the journal is {what}"), differs("answer", status_in(program, folder, word), (2, b"")))
    large = mailbox([b"A: b\r\n\r\n" + b"x" * (32 << 20)])
    found = run_whole(program, large, b"QUIT\r\n", word, preexec=little_memory)
    tally.note(name_of("want of memory"), differs("answer", found[:2], (3, b"")) + differs("journal", found[2] == large, True))


def of_words(program, tally, wrong):
    """Wrong words leave the journal alone."""
    for words in wrong:
        with tempfile.TemporaryDirectory(dir=program.folder.name) as folder:
            found = program.run(words, b"QUIT\r\n", cwd=folder)
            faults = differs("answer", found, (4, b"words refused\r\n")) + differs("files", os.listdir(folder), [])
        tally.note(f"the words {words}", faults)


def of_downgrade(program, tally):
    """A command without a session leaves the journal alone."""
    with tempfile.TemporaryDirectory(dir=program.folder.name) as folder:
        program.run([b"downgrade"], CAFE, cwd=folder)
        tally.note("downgrade makes no journal", differs("files", os.listdir(folder), []))


def of_the_limit(program, tally):
    """Sessions of 1,073,741,824 octets: lines of 65,536 octets, and the end."""
    line = b"x" * (LINE_MAX - 2) + b"\r\n"
    if is_slow(program, line):
        print("the session limit wasn't tried: this program would take minutes for a session of 1 GiB, as one that is built to find faults")
        return
    most = SESSION_MAX - len(line)
    cases = [
        ("the session limit", b"y" * LINE_MAX, 6, b""),
        ("the session limit, as a line ends", line, 6, b"-ERR syntax\r\n"),
        ("one octet below the session limit", b"y" * (LINE_MAX - 1), 0, b""),
        ("QUIT as the session limit comes", b"x" * (LINE_MAX - 8) + b"\r\nQUIT\r\n", 0, b"-ERR syntax\r\n+OK bye\r\n"),
    ]

    def one(case):
        _, last, status, reply = case
        wanted = READY + b"-ERR syntax\r\n" * (most // len(line)) + reply
        found, given = run_long(program, line, most // len(line), last)
        return differs("status", found, status) + differs("octets", given, wanted)

    for case, faults in zip(cases, in_lanes(one, cases)):
        tally.note(f"POP3: {case[0]}", faults)


def is_slow(program, line):
    """Whether so long a session takes too long."""
    begun = time.perf_counter()
    run_long(program, line, 32, b"")
    return (time.perf_counter() - begun) * SESSION_MAX / (32 * len(line)) > LIMIT_SECONDS


def run_long(program, line, count, last, word=POP, first=b"", preexec=None):
    """Status and octets where the first octets, so many lines and the last ones come through a pipe."""
    with tempfile.TemporaryDirectory(dir=program.folder.name) as folder, tempfile.TemporaryFile(dir=folder) as out:
        how = {"stdin": subprocess.PIPE, "stdout": out, "cwd": folder, "preexec_fn": preexec}
        with subprocess.Popen([program.path, word], **how) as running:
            # one that takes nothing more would hold us up for ever
            watch = threading.Timer(4 * LIMIT_SECONDS, running.kill)
            watch.start()
            try:
                running.stdin.write(first)
                for _ in range(count):
                    running.stdin.write(line)
                running.stdin.write(last)
                running.stdin.close()
            except BrokenPipeError:
                pass
            running.wait()
            watch.cancel()
        out.seek(0)
        return running.returncode, out.read()


def of_the_tool(program, tally):
    """tools/write_journal writes what is written out here, in either version."""
    setup = ["0000000A 02 00000005 782E6F7267", "00000011 01 00000007 6140782E6F7267 00000001 70"]
    date, mail = "0000001A 30312D4A616E2D313937302030303A30303A3030202B30303030", ("00000006 413A20620D0A", "00000005 413A20620A")
    cases = [
        ([], ["4D41494C4A4E4C32", *setup, f"0000002F 09 00000000 00 00 {date} {mail[0]}", f"0000002E 09 00000000 00 00 {date} {mail[1]}"]),
        (["--older"], ["4D41494C4A4E4C31", *setup, f"0000002E 04 00000000 00 {date} {mail[0]}", f"0000002D 04 00000000 00 {date} {mail[1]}"]),
    ]
    for more, wanted in cases:
        with tempfile.TemporaryDirectory(dir=program.folder.name) as folder:
            text, path = os.path.join(folder, "mail.eml"), os.path.join(folder, JOURNAL)
            with open(text, "wb") as file:
                file.write(b"A: b\n")
            options = [*more, "--domain", "x.org", "--account", "a@x.org", "p", "--text", "0", text, "--message", "0", text]
            subprocess.run([sys.executable, paths.tool("write_journal"), path, *options], stdout=subprocess.DEVNULL, timeout=SECONDS)
            tally.note(f"tools/write_journal {' '.join(more)}", differs("octets", read_journal(path), bytes.fromhex("".join(wanted))))
    high = ["Subject: é\r\n\r\n", "A: b\r\n\r\né", "Content-Type: message/rfc822\r\n\r\nSubject: é\r\n", "Content-Type: multipart/mixed; boundary=b\r\n\r\n--b\r\nX: é\r\n\r\n--b--\r\n"]
    tally.note("tools/journal.py: marks", differs("marks", [mark_of(text.encode()) for text in ["A: b", *high]], [0, 3, 2, 3, 3]))


def check(program, tally):
    of_words(program, tally, [[b"pop", b"pop"], [b"POP"], [b"pop", b""], [b"pop3"]])
    of_downgrade(program, tally)
    of_the_outside(program, tally)
    of_the_limit(program, tally)
    of_the_tool(program, tally)
