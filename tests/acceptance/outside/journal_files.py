"""The file of the journal: it is its owner's alone, what is cut of it is kept, and nothing is told done that goes into a file which isn't the one
of that name any more."""

import os
import stat
import subprocess
import tempfile

from journal import FIRST_OCTETS, account, domain, journal
from oracle.records import message
from outside.failures import ACCOUNT, DOMAIN, KEPT, NOT_REGULAR, QUIT, STORE, WITH_JOURNAL, Place, ended, line, name_of
from outside.serve_outside import COUNTS, SENDS, SMTP_BYE, SMTP_GREETING, connect, counted, heard, talk
from outside.smtp_outside import little_room
from support.harness import SECONDS, differs
from support.service import Service
from support.talk import JOURNAL, place_journal, read_journal

CUT = JOURNAL + ".cut"
OTHERS_IN = 0o644
# a record that was broken off
BROKEN_OFF = account(b"b@x.org", b"p" * 200)[:-1]
# one that takes the copying many pieces, and that a small limit of a file's size has no room for
LONG = message(0, b"A: b\r\n\r\n" + b"x" * (3 << 20))[:-5]
LITTLE = 64 << 10
STORED = b"250 2.0.0 stored\r\n"
REPLACED = f"{JOURNAL}: replaced or removed while it was in use"
# as long as STORE, with another account
OTHER = journal(domain(b"x.org"), account(b"c@x.org", b"p"))


def told_cut(count):
    what = b"1 octet that was no whole record; it is" if count == 1 else b"%d octets that were no whole record; they are" % count
    return line(KEPT, b"cut " + what + b" in mail.journal.cut")


def mode_of(path):
    return stat.S_IMODE(os.stat(path).st_mode)


def cut_path(place):
    return os.path.join(place.path, CUT)


def of_modes(program, tally):
    """The journal, and what is cut of it, are their owner's alone, whatever mode new files have and the journal had."""
    for words, octets in WITH_JOURNAL:
        for mode in (None, 0o600, 0o644, 0o666, 0o660, 0o4777):
            with Place(program, mode and STORE + BROKEN_OFF) as place:
                if mode:
                    os.chmod(place.journal, mode)
                place.run(words, octets, before=lambda: os.umask(0))
                found = {name: mode_of(os.path.join(place.path, name)) for name in os.listdir(place.path)}
            wanted = {JOURNAL: 0o600, CUT: 0o600} if mode else {JOURNAL: 0o600}
            tally.note(name_of(words, f"modes of a journal that had {mode and oct(mode)}"), differs("modes", found, wanted))


def of_cuts(program, tally):
    """What is cut is told, and kept behind what was cut before."""
    for words, octets in WITH_JOURNAL:
        with Place(program, STORE) as place:
            kept = b""
            for rest in (BROKEN_OFF, b"\0", LONG):
                before = read_journal(place.journal)
                place_journal(place.path, before + rest)
                found, kept = place.run(words, octets), kept + rest
                faults = differs("standard error", found[2], told_cut(len(rest))) + differs("what was cut", read_journal(cut_path(place)), kept)
                faults += differs("the journal goes on", read_journal(place.journal).startswith(before), True)
                tally.note(name_of(words, f"{len(rest)} octets are cut"), faults)
    with Place(program, FIRST_OCTETS[:3]) as place:
        found = place.run(DOMAIN)
        faults = ended(found, 0, told_cut(3), b"") + differs("what was cut", read_journal(cut_path(place)), FIRST_OCTETS[:3])
        tally.note("the first octets of a journal are cut", faults + differs("journal", read_journal(place.journal), journal(domain(b"y.org"))))


def of_lost_cuts(program, tally):
    """What can't be kept isn't cut."""
    kinds = [
        ("a folder", os.mkdir, NOT_REGULAR), ("a link", lambda path: os.symlink("other", path), NOT_REGULAR), ("a pipe", os.mkfifo, NOT_REGULAR),
        ("without room", lambda path: None, b"File too large"),
    ]
    for words, octets in WITH_JOURNAL:
        for what, make, reason in kinds:
            with Place(program, STORE + LONG) as place:
                make(cut_path(place))
                found = place.run(words, octets, before=little_room(LITTLE))
                faults = ended(found, 2, line(CUT.encode(), reason), b"") + place.changes()
                if reason != NOT_REGULAR:
                    faults += differs("what was cut", read_journal(cut_path(place)), b"")
                tally.note(name_of(words, f"what is cut can't be kept: {what}"), faults)


def replace(path, octets):
    """Puts a new file in the place of this one."""
    with open(path + ".new", "wb") as file:
        file.write(octets)
    os.replace(path + ".new", path)


def remove(path):
    os.rename(path, path + ".away")


def links(path):
    """The same file, by a link."""
    os.rename(path, path + ".away")
    os.symlink(path + ".away", path)


def of_replaced(program, tally):
    """A journal that is replaced or removed while a session works on it: nothing more is told done, and no file takes anything."""
    cases = [("replaced", lambda path: replace(path, OTHER), REPLACED), ("removed", remove, REPLACED), ("replaced by a link to it", links, f"{JOURNAL}: not a regular file")]
    for what, change, reason in cases:
        with Place(program, STORE) as place:
            how = {"stdin": subprocess.PIPE, "stdout": subprocess.PIPE, "stderr": subprocess.PIPE, "cwd": place.path, "bufsize": 0}
            with subprocess.Popen([place.program, "smtp"], **how) as running:
                greeting = running.stdout.read(len(SMTP_GREETING))
                change(place.journal)
                given, said = running.communicate(SENDS + QUIT, SECONDS)
            files = {name: read_journal(os.path.join(place.path, name)) for name in os.listdir(place.path)}
        faults = differs("greeting", greeting, SMTP_GREETING) + ended((running.returncode, given, said), 2, f"dervlask: {reason}\n".encode())
        faults += differs("told stored", STORED in given, False)
        tally.note(f"smtp: the journal is {what}", faults + differs("files", set(files.values()) <= {STORE, OTHER}, True))


def interrupted(service, change):
    """What a client is told that sends mail once the journal was changed."""
    with connect(service) as connection:
        greeting = connection.recv(1 << 16)
        change()
        connection.sendall(SENDS + QUIT)
        return greeting + heard(connection)


def of_services(program, tally):
    """The same of `serve`, which goes on with the file that is there."""
    with tempfile.TemporaryDirectory(dir=program.folder.name) as folder:
        path = place_journal(folder, STORE)
        with Service(program.path, folder, "smtp") as service:
            broken = interrupted(service, lambda: replace(path, OTHER))
            behind = read_journal(path)
            sent = talk(service, SENDS.replace(b"a@x.org", b"c@x.org") + QUIT)
            service.wait_for(2)
        faults = differs("told stored", STORED in broken, False) + differs("the new file", behind, OTHER)
        faults += differs("the next client", sent.endswith(STORED + SMTP_BYE), True) + differs("the file grows", read_journal(path).startswith(OTHER), True)
        tally.note("serve: the journal is replaced in a connection", faults + service.faults(said=[f"dervlask: connection 1: {REPLACED}"]))
    with tempfile.TemporaryDirectory(dir=program.folder.name) as folder:
        path = place_journal(folder, STORE)
        with Service(program.path, folder) as service:
            before = counted(service)
            replace(path, OTHER)
            told = talk(service, COUNTS.replace(b"a@x.org", b"c@x.org"))
        faults = differs("before", before, 0) + differs("another account logs in", told.startswith(b"+OK ready\r\n+OK\r\n+OK\r\n+OK 0 0\r\n"), True)
        tally.note("serve: the journal is replaced by one as long between connections", faults + service.faults())
    with tempfile.TemporaryDirectory(dir=program.folder.name) as folder:
        path = place_journal(folder, STORE)
        with Service(program.path, folder, "smtp") as service:
            talk(service, QUIT)
            remove(path)
            told, status = talk(service, b""), service.end()
            files = sorted(os.listdir(folder))
        faults = differs("told", told, b"") + differs("status", status, 2) + differs("files", files, [JOURNAL + ".away"])
        tally.note("serve: the journal is removed between connections", faults + service.faults(2, said=[f"dervlask: {JOURNAL}: No such file or directory"]))


def check(program, tally):
    for checks in (of_modes, of_cuts, of_lost_cuts, of_replaced, of_services):
        checks(program, tally)
