"""A loss of power: what was told done has been synced. The calls of the program are watched by `strace`, where that is there and may be used.

What the system holds of a file and hasn't put onto the disk can't be seen from outside, so this shows the order of the calls: nothing is given to
a client, and the program doesn't end, while the journal or the file of what was cut has changes that weren't synced; both are synced before the
journal is cut; and the folder is synced once before the first octet goes into a file that was just made.

Then files are made as a loss of power may leave them: behind all that was told done stands a record that wasn't, cut short, with zeros in the place
of its last sectors, or zeros alone. They open, all that was told is there, and what is cut is told and kept."""

import os
import re
import shutil
import subprocess
import tempfile

from journal import account, domain, expunge, journal, older_journal, older_message, older_queue, version
from oracle.records import message, queue
from outside.failures import ACCOUNT, DOMAIN, WITH_JOURNAL, Place, name_of
from outside.journal_files import cut_path, told_cut
from outside.serve_outside import LOGS_IN, SENDS, STORE, talk
from rows.downgrade_rows import CAFE
from support.harness import differs, in_lanes
from support.next_server import NextServer
from support.service import Service
from support.talk import JOURNAL, read_journal

CALLS = "openat,open,close,write,writev,pwrite64,sendto,sendmsg,ftruncate,fsync,fdatasync,exit_group"
CALL = re.compile(r"([a-z0-9_]+)\((.*)\) += (-?[0-9]+|\?)")
OPENED = re.compile(r'(?:AT_FDCWD, )?"((?:[^"\\]|\\.)*)", (.*)')
WRITES, SYNCS = {"write", "writev", "pwrite64", "sendto", "sendmsg"}, {"fsync", "fdatasync"}
CUT, FOLDER = JOURNAL + ".cut", "."
BROKEN_OFF = account(b"b@x.org", b"p")[:-1]
SECTOR = 512
LARGE = CAFE + b"x" * 2_000 + b"\r\n"


def sectors_of(before, record):
    """What is left of a record behind this journal, where it has zeros from each border of a sector on that lies within it."""
    end = len(before) + len(record)
    borders = range(-(-len(before) // SECTOR) * SECTOR, end, SECTOR)
    return [record[: border - len(before)] + bytes(end - border) for border in borders]


TORN = sectors_of(STORE, message(0, LARGE))[1]
MAIL = journal(domain(b"x.org"), account(b"a@x.org", b"p"), message(0, CAFE), message(0, CAFE))
OLDER = older_journal(domain(b"x.org"), account(b"a@x.org", b"p"))
WAITING = journal(domain(b"x.org"), account(b"a@x.org", b"p"), queue(b"a@x.org", [b"b@y.org"], b"Subject: a\r\n\r\nb\r\n"))
IMAP = b"\r\n".join([
    b"a LOGIN a@x.org p", b"b CREATE Sent", b"c APPEND Sent {8}", b"A: b\r\n\r\n", b"d SELECT INBOX", b"e STORE 1:2 +FLAGS (\\Deleted)", b"f FETCH 1 BODY[]", b"g EXPUNGE", b"h LOGOUT", b"",
])
DELETES = LOGS_IN + b"DELE 1\r\nDELE 2\r\nQUIT\r\n"
# commands with their journal, their input, what they tell last of what is done, and the syncs that their changes need at least
SESSIONS = [
    ([b"smtp"], STORE, SENDS + SENDS[8:] + b"QUIT\r\n", b"250 2.0.0 stored\r\n221 2.0.0 bye\r\n", 2), ([b"imap"], MAIL, IMAP, b"h OK done\r\n", 4),
    ([b"pop"], MAIL, DELETES, b"+OK bye\r\n", 1), (DOMAIN, STORE, b"", b"", 1), (ACCOUNT, STORE, b"", b"", 1), (DOMAIN, None, b"", b"", 2),
    ([b"smtp"], STORE + BROKEN_OFF, SENDS + b"QUIT\r\n", b"250 2.0.0 stored\r\n221 2.0.0 bye\r\n", 3),
    ([b"smtp"], STORE + TORN, SENDS + b"QUIT\r\n", b"250 2.0.0 stored\r\n221 2.0.0 bye\r\n", 3),
    ([b"pop"], OLDER, b"QUIT\r\n", b"+OK bye\r\n", 1), ([b"smtp"], OLDER, SENDS + b"QUIT\r\n", b"250 2.0.0 stored\r\n221 2.0.0 bye\r\n", 2), (DOMAIN, OLDER, b"", b"", 2),
    ([b"imap"], OLDER + BROKEN_OFF, b"a LOGOUT\r\n", b"a OK done\r\n", 3), ([b"relay", b"next.invalid"], OLDER, b"", b"sent 0, reported 0, left 0\r\n", 1),
]


class Log:
    """What is wrong with the calls of a log, and how many changes of the journal were synced."""

    def __init__(self, text):
        self.faults, self.syncs, self.folders = [], 0, 0
        self.names, self.dirty, self.unnamed = {}, set(), set()
        for number, found in enumerate(map(CALL.match, text.splitlines()), 1):
            if found and (found[3] == "?" or int(found[3]) >= 0):
                self.where = f"call {number}, {found[0][:100]}"
                self.add(found[1], found[2], found[3])

    def add(self, call, words, result):
        if call in ("open", "openat"):
            path, how = OPENED.match(words).groups()
            if path in (JOURNAL, CUT, FOLDER):
                self.names[int(result)] = path
            if "O_CREAT" in how and path in (JOURNAL, CUT):
                self.unnamed.add(path)
            return
        file = words.split(",")[0]
        name = self.names.get(int(file)) if file.isdigit() else None
        if call == "close":
            self.names.pop(int(file), None)
        elif call in SYNCS:
            self.sync(name)
        elif call == "ftruncate" and name == JOURNAL:
            self.wants_synced("the journal is cut")
            self.wants_named()
            self.dirty.add(JOURNAL)
        elif call in WRITES and name:
            self.dirty.add(name)
            if name == JOURNAL:
                self.wants_named()
        elif call in WRITES and file != "2":
            self.wants_synced("something is given")
        elif call == "exit_group":
            self.wants_synced("the program ends")

    def sync(self, name):
        if name == FOLDER:
            self.unnamed, self.folders = set(), self.folders + 1
        elif name in self.dirty:
            self.dirty.discard(name)
            self.syncs += 1

    def wants_named(self):
        if self.unnamed:
            self.faults.append(f"the folder wasn't synced since {sorted(self.unnamed)} was made: {self.where}")

    def wants_synced(self, what):
        if self.dirty:
            self.faults.append(f"{what} while changes of {sorted(self.dirty)} aren't synced: {self.where}")


def watched(program, log):
    """A program in the place of this one, which writes its calls into the log."""
    path = os.path.join(os.path.dirname(log), "watched")
    with open(path, "w", encoding="utf-8") as file:
        file.write(f'#!/bin/sh\nexec strace -o {log} -s 16 -e trace={CALLS} {program} "$@"\n')
    os.chmod(path, 0o755)
    return path


def may_watch():
    with tempfile.TemporaryDirectory() as folder:
        words = ["strace", "-o", os.path.join(folder, "log"), "true"]
        return bool(shutil.which("strace")) and subprocess.run(words, capture_output=True).returncode == 0


def read_log(path):
    with open(path, encoding="utf-8", errors="replace") as file:
        return Log(file.read())


def log_faults(log, syncs, folders):
    return log.faults + differs("as many syncs as changes, at least", log.syncs >= syncs, True) + differs("syncs of the folder", log.folders, folders)


def of_sessions(program, tally, folder):
    """Commands, and sessions over standard input and output."""
    for words, before, octets, told, syncs in SESSIONS:
        with Place(program, before) as place:
            log = os.path.join(folder, "log")
            place.program = watched(program.path, log)
            status, given, _ = place.run(words, octets)
            folders = int(before is None) + int(os.path.exists(place.journal + ".cut"))
            faults = differs("status", status, 0) + differs("told at its end", given.endswith(told), True)
            tally.note(f"{words[0].decode()}, {'no' if before is None else len(before)} octets: what is told is synced", faults + log_faults(read_log(log), syncs, folders))


def of_services(program, tally, folder):
    """A connection of `serve`."""
    log = os.path.join(folder, "log")
    with Place(program, STORE) as place:
        with Service(watched(program.path, log), place.path, "smtp", connections=1) as service:
            told, status = talk(service, SENDS + b"QUIT\r\n"), service.end()
    faults = differs("status", status, 0) + differs("told", told.endswith(b"250 2.0.0 stored\r\n221 2.0.0 bye\r\n"), True)
    tally.note("serve: what is told is synced", faults + log_faults(read_log(log), 1, 0))


def of_relays(program, tally, folder):
    """A queue that is sent: the record that a recipient is done with is synced before the program goes on."""
    log = os.path.join(folder, "log")
    with Place(program, WAITING) as place, NextServer() as server:
        place.program = watched(program.path, log)
        status, given, _ = place.run([b"relay", b"127.0.0.1:%d" % server.port])
    tally.note("relay: what was sent is synced", differs("answer", (status, given), (0, b"sent 1, reported 0, left 0\r\n")) + log_faults(read_log(log), 1, 0))


def tails_of(before, record):
    """What a loss of power may leave of a record that is written behind this journal."""
    rests = [record[:count] for count in (1, 3, 4, 5, 30, len(record) - 1)]
    return [*rests, *sectors_of(before, record), *(bytes(count) for count in (1, 4, -len(before) % SECTOR or SECTOR, len(record), 8 * SECTOR))]


def told_journals(program):
    """Journals behind sessions that were told done, by name."""
    for words, before, octets, told, _ in SESSIONS:
        with Place(program, before) as place:
            status, given, _ = place.run(words, octets)
            name = f"{words[0].decode()}, {'no' if before is None else len(before)} octets"
            yield name, read_journal(place.journal), differs("status", status, 0) + differs("told at its end", given.endswith(told), True)


def tail_faults(program, before, after, tail, words, octets):
    """What is wrong with what a command makes of a journal that ends so, which is that one without its end."""
    with Place(program, before + tail) as place:
        status, _, said = place.run(words, octets)
        # a domain or an account may be there already
        faults = differs("ends well", status in (0, 9), True) + differs("standard error", said, told_cut(len(tail))) + differs("what was cut", read_journal(cut_path(place)), tail)
        return faults + differs("what was told is there", read_journal(place.journal)[: len(after)], after)


def of_tails(program, tally):
    """The unfinished record is a message that fills some sectors, in either version."""
    cases = []
    for name, before, faults in told_journals(program):
        tally.note(f"{name}: done", faults)
        tails = tails_of(before, message(0, LARGE)) + tails_of(before, queue(b"a@x.org", [b"b@y.org"], LARGE))[6:]
        cases += [(name, before, before, tail, *command) for number, tail in enumerate(tails) for command in [WITH_JOURNAL[number % len(WITH_JOURNAL)]]]
    for older in (OLDER, OLDER + older_message(0, CAFE) + expunge(0)):
        tails = tails_of(older, older_message(0, LARGE)) + tails_of(older, older_queue(b"a@x.org", [b"b@y.org"], LARGE))[6:]
        cases += [("version 1", older, older + version(), tail, *command) for tail in tails for command in WITH_JOURNAL]
    for case, faults in zip(cases, in_lanes(lambda case: tail_faults(program, *case[1:]), cases)):
        tally.note(name_of(case[4], f"{len(case[3])} octets behind what was told, {case[0]}"), faults)


def check(program, tally):
    of_tails(program, tally)
    if not may_watch():
        print("strace isn't here or may not watch programs, so it wasn't seen that the journal is synced before anything is told done")
        return
    for checks in (of_sessions, of_services, of_relays):
        with tempfile.TemporaryDirectory(dir=program.folder.name) as folder:
            checks(program, tally, folder)
