"""A disk that is full: sessions go on until there is no more room for the journal. What was told done is there afterwards, and nothing else.

Where we may mount one, the disk is a small file system of its own; else the size of a file is bounded, which is told by another reason."""

import os
import shutil
import subprocess

from journal import account, domain, journal, older_journal, version
from oracle.pop_store import Unopened, open_journal
from oracle.records import mailbox
from outside.failures import KEPT, NO_ROOM, OF_SESSIONS, QUIT, WITH_JOURNAL, Place, ended, line, name_of
from outside.serve_outside import connect, talk
from outside.smtp_outside import little_room
from support.harness import differs
from support.service import Service
from support.talk import place_journal, read_journal

ROOM, MORE, PAGE = 64 << 10, 16 << 20, 4096
TOO_LARGE = b"File too large"
STORE = journal(domain(b"x.org"), account(b"a@x.org", b"p"))
LOGS_IN = b"USER a@x.org\r\nPASS p\r\n"
COUNT, BODY = 40, (b"x" * 70 + b"\r\n") * 40
# so many records of deletions that the room in the last page of a file isn't enough for them
MANY = 1_000
STORED, APPENDED, BYE = b"250 2.0.0 stored\r\n", b"b OK done\r\n", b"+OK bye\r\n"


def data(number):
    return b"Subject: %d\r\n\r\n" % number + BODY


def envelope(number):
    return b"MAIL FROM:<>\r\nRCPT TO:<a@x.org>\r\nDATA\r\n" + data(number) + b".\r\n"


def sends(numbers):
    """A session of SMTP that brings these messages."""
    return b"EHLO x\r\n" + b"".join(map(envelope, numbers)) + QUIT


def appends(numbers):
    """A session of IMAP that brings them."""
    one = b"b APPEND INBOX {%d}\r\n%s\r\n"
    return b"a LOGIN a@x.org p\r\n" + b"".join(one % (len(data(number)), data(number)) for number in numbers) + b"c LOGOUT\r\n"


class Disk(Place):
    """A folder on a disk that has little room, until `make_room`."""

    def __init__(self, program, octets=None):
        super().__init__(program)
        words = ["mount", "-t", "tmpfs", "-o", f"size={ROOM},mode=0755", "tmpfs", self.path]
        may_mount = os.geteuid() == 0 and shutil.which("mount")
        self.is_mounted = bool(may_mount) and subprocess.run(words, stdin=subprocess.DEVNULL, capture_output=True).returncode == 0
        self.octets = octets
        self.journal = place_journal(self.path, octets)
        self.before = None if self.is_mounted else little_room(ROOM)
        self.reason = NO_ROOM if self.is_mounted else TOO_LARGE

    def fill(self):
        """Leaves no room at all."""
        if not self.is_mounted:
            self.before = little_room(os.path.getsize(self.journal) if self.octets else 0)
            return
        with open(os.path.join(self.path, "filler"), "wb", buffering=0) as file:
            try:
                while True:
                    file.write(bytes(4096))
            except OSError:
                pass

    def make_room(self):
        self.before = None
        if self.is_mounted:
            subprocess.run(["mount", "-o", f"remount,size={MORE}", self.path], check=True)

    def run_here(self, words, octets=b""):
        return self.run(words, octets, before=self.before)

    def __exit__(self, *what):
        if self.is_mounted:
            subprocess.run(["umount", self.path], check=True)
        super().__exit__(*what)


def delivered(service, numbers):
    """How many of these messages a client of the service is told stored, which waits for each reply."""
    count = 0
    with connect(service) as connection:
        connection.sendall(b"EHLO x\r\n")
        for number in numbers:
            try:
                connection.sendall(envelope(number))
                told = b""
                while not told.endswith(STORED) and (piece := connection.recv(1 << 16)):
                    told += piece
            except ConnectionError:
                told = b""
            if not told:
                break
            count += told.endswith(STORED)
    return count


def numbers_in(octets):
    """The numbers of the messages of a journal, in order, or why it doesn't open."""
    try:
        store, _ = open_journal(octets)
    except Unopened as error:
        return error.answer
    marks = [octets.partition(b"Subject: ")[2].partition(b"\r\n")[0] for _, _, octets in store.inbox(0)]
    return [int(mark) for mark in marks]


def listed(place):
    """How many messages a session of POP3 lists."""
    status, given, _ = place.run_here([b"pop"], LOGS_IN + b"STAT\r\n" + QUIT)
    lines = given.split(b"\r\n")
    return int(lines[3].split()[1]) if status == 0 and len(lines) == 6 else (status, given)


def of_deliveries(program, tally):
    """Mail comes until there is no more room."""
    for word, brings, reply in ((b"smtp", sends, STORED), (b"imap", appends, APPENDED)):
        with Disk(program, STORE) as disk:
            found = disk.run_here([word], brings(range(COUNT)))
            kept, count = numbers_in(read_journal(disk.journal)), found[1].count(reply)
            faults = ended(found, 2, line(KEPT, disk.reason)) + differs("some are told, and not all", 0 < count < COUNT, True)
            faults += differs("messages", kept, list(range(count))) + differs("listed while it is full", listed(disk), count)
            disk.make_room()
            status, given, said = disk.run_here([word], brings(range(count, COUNT)))
            faults += differs("behind it", (status, given.count(reply), said), (0, COUNT - count, b""))
            faults += differs("all messages", numbers_in(read_journal(disk.journal)), list(range(COUNT)))
            tally.note(name_of([word], "the disk becomes full"), faults)


def of_deletions(program, tally):
    """There is no room for the records of what a session deletes."""
    store = mailbox([b"Subject: %d\r\n\r\n" % number for number in range(MANY)], b"a@x.org", b"p")
    with Disk(program, store) as disk:
        disk.fill()
        deletes = LOGS_IN + b"".join(b"DELE %d\r\n" % number for number in range(1, MANY + 1)) + QUIT
        found = disk.run_here([b"pop"], deletes)
        left = numbers_in(read_journal(disk.journal))
        faults = ended(found, 2, line(KEPT, disk.reason)) + differs("told that they are gone", BYE in found[1], False)
        faults += differs("those that are left are the last ones", left, list(range(MANY))[MANY - len(left) :])
        disk.make_room()
        faults += differs("a later session", listed(disk), len(left))
        again = disk.run_here([b"pop"], LOGS_IN + b"DELE 1\r\n" + QUIT) if left else (0, BYE)
        faults += differs("which deletes one", (again[0], again[1].endswith(BYE)), (0, True))
        tally.note("pop: no room for what is deleted", faults)


def of_new_journals(program, tally):
    """There is no room for a journal's first octets."""
    for words, octets in WITH_JOURNAL:
        with Disk(program) as disk:
            disk.fill()
            found = disk.run_here(words, octets)
            faults = ended(found, 2, line(KEPT, disk.reason), b"")
            disk.make_room()
            for session, its in OF_SESSIONS:
                faults += differs("a later session", disk.run_here(session, its)[0], 0)
            tally.note(name_of(words, "no room for a journal"), faults)


def older_store(size):
    """A journal of version 1 with so many octets."""
    store = lambda password: older_journal(domain(b"x.org"), account(b"a@x.org", password))
    return store(b"p" * (size - len(store(b""))))


def of_older_journals(program, tally):
    """There is no room for the record that a journal of version 1 gets, or for a part of it alone: the command fails, and the journal stays as it
    was. Once there is room, the next command makes up for it."""
    for words, octets in WITH_JOURNAL:
        for rest in (0, 1, 4):
            store = older_store(PAGE - rest)
            with Disk(program, store) as disk:
                disk.fill()
                found = disk.run_here(words, octets)
                faults = ended(found, 2, line(KEPT, disk.reason), b"") + disk.changes()
                disk.make_room()
                for _ in range(2):
                    faults += differs("a later session", disk.run_here([b"pop"], QUIT), (0, b"+OK ready\r\n+OK bye\r\n", b""))
                    faults += differs("the journal then", read_journal(disk.journal), store + version())
                tally.note(name_of(words, f"room for {rest} octets of the end of version 1"), faults)
    with Disk(program, older_store(PAGE)) as disk:
        disk.fill()
        with Service(program.path, disk.path, "smtp", preexec=disk.before) as service:
            status = service.end()
        faults = differs("status", status, 2) + disk.changes() + service.faults(2, said=[line(KEPT, disk.reason).decode().strip()])
        tally.note("serve smtp: no room for the end of version 1", faults)


def of_services(program, tally):
    """A service goes on where a delivery found no room, and takes mail once there is some."""
    with Disk(program, STORE) as disk:
        with Service(program.path, disk.path, "smtp", preexec=disk.before) as service:
            count = delivered(service, range(COUNT))
            second = talk(service, QUIT)
            faults = differs("some are told, and not all", 0 < count < COUNT, True)
            if disk.is_mounted:
                disk.make_room()
                faults += differs("told once there is room", delivered(service, range(count, COUNT)), COUNT - count)
        disk.make_room()
        faults += differs("a session behind it", second, b"220 x.org ESMTP\r\n221 2.0.0 bye\r\n")
        faults += service.faults(said=[f"dervlask: connection 1: {KEPT.decode()}: {disk.reason.decode()}"])
        wanted = list(range(COUNT if disk.is_mounted else count))
        faults += differs("messages", numbers_in(read_journal(disk.journal)), wanted) + differs("listed", listed(disk), len(wanted))
        tally.note("serve smtp: the disk becomes full", faults)


def check(program, tally):
    for checks in (of_deliveries, of_deletions, of_new_journals, of_older_journals, of_services):
        checks(program, tally)
    with Disk(program) as disk:
        if not disk.is_mounted:
            print("no small file system can be mounted here, so the size of files was bounded in its place")
