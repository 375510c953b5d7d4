"""Failures of the outside: the status that the program ends with, and the one line that it says on standard error.

Where no command has the words, or the input has no password, it says there how to list the commands, and with every other status nothing. What it says on standard output is
the same whether standard error takes anything."""

import os
import pwd
import shutil
import subprocess
import tempfile

from journal import FIRST_OCTETS, account, domain, journal, older_journal, older_message
from oracle.downgrade_oracle import MESSAGE_MAX
from oracle.records import mailbox
from outside.smtp_outside import little_room
from rows.downgrade_rows import CAFE, little_memory, of_size
from support.harness import HINT, REFUSED, SECONDS, differs
from support.talk import JOURNAL, place_journal, read_journal

STORE = journal(domain(b"x.org"), account(b"a@x.org", b"p"))
QUIT = b"QUIT\r\n"
SENDS = b"EHLO x\r\nMAIL FROM:<>\r\nRCPT TO:<a@x.org>\r\nDATA\r\nSubject: a\r\n\r\nb\r\n.\r\nQUIT\r\n"
DELETES = b"USER a@x.org\r\nPASS p\r\nDELE 1\r\nQUIT\r\n"
DOMAIN, ACCOUNT, EXISTS = [b"domain", b"y.org"], [b"account", b"b@x.org", b"p"], [b"domain", b"x.org"]
# the password is the first line of the input
BY_INPUT, LINE = [b"account", b"c@x.org"], b"p\n"
# nothing waits in the queue, so nobody is called
RELAY, NOTHING = [b"relay", b"next.invalid"], b"sent 0, reported 0, left 0\r\n"
# each command that opens the journal, with the octets that it takes
OF_SESSIONS = [([b"pop"], QUIT), ([b"smtp"], QUIT), ([b"imap"], b"a LOGOUT\r\n")]
WITH_JOURNAL = [*OF_SESSIONS, (RELAY, b""), (DOMAIN, b""), (ACCOUNT, b""), (BY_INPUT, LINE)]
WITH_INPUT = [[b"downgrade"], BY_INPUT, *(words for words, _ in OF_SESSIONS)]
OUTPUT, INPUT, KEPT = b"standard output", b"standard input", JOURNAL.encode()
NO_ROOM, IS_FOLDER, DENIED, BROKEN = b"No space left on device", b"Is a directory", b"Permission denied", b"Broken pipe"
NOT_REGULAR = b"not a regular file"
NOBODY = "nobody"
# how a run ends whose words no command has
WRONG = REFUSED, HINT, b"words refused\r\n"


def line(place, reason):
    return b"dervlask: " + place + b": " + reason + b"\n"


class Place:
    """A folder that anyone may enter, with the journal that it is made with. It is the current one of the programs that run in it."""

    def __init__(self, program, octets=None):
        self.program, self.path, self.octets = program.path, tempfile.mkdtemp(prefix="dervlask-failures-"), octets
        os.chmod(self.path, 0o755)
        self.journal = place_journal(self.path, octets)

    def __enter__(self):
        return self

    def __exit__(self, *_):
        os.chmod(self.path, 0o755)
        shutil.rmtree(self.path)

    def changes(self):
        """What is wrong with the journal, where it had to stay: one that is opened in the place of a closed stream is harmed."""
        return differs("journal", read_journal(self.journal), self.octets)

    def run(self, words, octets=b"", stdin=None, stdout=subprocess.PIPE, stderr=subprocess.PIPE, before=None):
        """Status, and what was written to standard output and standard error, of which neither is there where it isn't a pipe of ours."""
        with tempfile.TemporaryFile() as file:
            file.write(octets)
            file.seek(0)
            how = {"stdin": file if stdin is None else stdin, "stdout": stdout, "stderr": stderr, "cwd": self.path, "preexec_fn": before}
            ran = subprocess.run([self.program, *words], timeout=SECONDS, **how)
        return ran.returncode, ran.stdout, ran.stderr


def name_of(words, what):
    return f"{words[0].decode()}: {what}"


def ended(found, status, said, given=None):
    """What is wrong with a run that had to end so; what it gave is looked at where that is told."""
    faults = differs("status", found[0], status) + differs("standard error", found[2], said)
    return faults if given is None else faults + differs("standard output", found[1], given)


def shut(handle):
    """Has the program begin without this handle."""
    return lambda: os.close(handle)


def broken_pipe():
    """The end of a pipe from which nobody reads."""
    reads, writes = os.pipe()
    os.close(reads)
    return writes


def of_output(program, tally):
    """Standard output is full, is closed, or goes to nobody."""
    for words, octets in [([b"downgrade"], CAFE), ([b"help"], b""), ([b"post"], b""), (EXISTS, b""), (RELAY, b""), *OF_SESSIONS]:
        with Place(program, STORE) as place:
            with open("/dev/full", "wb") as full:
                found = place.run(words, octets, stdout=full)
            tally.note(name_of(words, "standard output is full"), ended(found, 1, line(OUTPUT, NO_ROOM)))
            nobody = broken_pipe()
            found = place.run(words, octets, stdout=nobody)
            os.close(nobody)
            tally.note(name_of(words, "nobody reads standard output"), ended(found, 1, line(OUTPUT, BROKEN)))
            found = place.run(words, octets, stdout=None, before=shut(1))
            faults = ended(found, 1, line(OUTPUT, b"Bad file descriptor"))
            tally.note(name_of(words, "standard output is closed"), faults + place.changes())


def of_input(program, tally):
    """Standard input is a folder, or is closed."""
    for words in WITH_INPUT:
        with Place(program, STORE) as place:
            folder = os.open(place.path, os.O_RDONLY)
            found = place.run(words, stdin=folder)
            os.close(folder)
            tally.note(name_of(words, "standard input is a folder"), ended(found, 1, line(INPUT, IS_FOLDER)))
            status, _, said = place.run(words, before=shut(0))
            # whatever reason the system has for it
            faults = differs("status", status, 1) + differs("standard error", said.startswith(line(INPUT, b"")[:-1]) and said.count(b"\n"), 1)
            tally.note(name_of(words, "standard input is closed"), faults + place.changes())


def of_the_journal(program, tally):
    """The journal is no regular file, or is too large for the system."""
    kinds = [
        ("a folder", os.mkdir), ("a link to a device", lambda path: os.symlink("/dev/full", path)),
        ("a link to nothing", lambda path: os.symlink("none", path)), ("a link to a file", lambda path: os.symlink("other", path)), ("a pipe", os.mkfifo),
    ]
    for words, octets in WITH_JOURNAL:
        for what, make in kinds:
            with Place(program) as place:
                other = os.path.join(place.path, "other")
                with open(other, "wb") as file:
                    file.write(STORE)
                make(place.journal)
                faults = ended(place.run(words, octets), 2, line(KEPT, NOT_REGULAR), b"")
                faults += differs("files", sorted(os.listdir(place.path)), [JOURNAL, "other"]) + differs("the other file", read_journal(other), STORE)
                tally.note(name_of(words, f"the journal is {what}"), faults)
    for words, octets in [([b"smtp"], SENDS), (DOMAIN, b""), (ACCOUNT, b""), (BY_INPUT, LINE)]:
        with Place(program, STORE) as place:
            found = place.run(words, octets, before=little_room(len(STORE) + 3))
            tally.note(name_of(words, "a file may not be so large"), ended(found, 2, line(KEPT, b"File too large")))
    with Place(program, mailbox([CAFE], b"a@x.org", b"p")) as place:
        found = place.run([b"pop"], DELETES, before=little_room(os.path.getsize(place.journal)))
        tally.note("pop: a file may not be so large", ended(found, 2, line(KEPT, b"File too large")))


def as_nobody():
    """Has the program run as a user whom a folder's mode binds, where we are one whom it doesn't; or None where that can't be had."""
    if os.geteuid() != 0:
        return lambda: None
    try:
        user = pwd.getpwnam(NOBODY)
    except KeyError:
        return None

    def change():
        os.setgroups([])
        os.setgid(user.pw_gid)
        os.setuid(user.pw_uid)

    return change


def of_modes(program, tally):
    """The modes of the folder or of the journal are against it."""
    change = as_nobody()
    if not change:
        print(f"there is no user {NOBODY}, so folders and journals that can't be written weren't tried")
        return
    with Place(program) as place:
        # one whom modes bind may not come to the program where it is
        place.program = shutil.copy(program.path, place.path)
        os.chmod(place.program, 0o755)
        os.chmod(place.path, 0o555)
        for words, octets in WITH_JOURNAL:
            tally.note(name_of(words, "the folder is read-only"), ended(place.run(words, octets, before=change), 2, line(KEPT, DENIED), b""))
        tally.note("downgrade: the folder is read-only", ended(place.run([b"downgrade"], b"A: b\r\n", before=change), 0, b"", b"A: b\r\n"))
        os.chmod(place.path, 0o755)
        for mode in (0o444, 0o000):
            place_journal(place.path, STORE)
            os.chmod(place.journal, mode)
            os.chmod(place.path, 0o555)
            for words, octets in WITH_JOURNAL:
                found = place.run(words, octets, before=change)
                tally.note(name_of(words, f"the journal has the mode {mode:03o}"), ended(found, 2, line(KEPT, DENIED), b""))
            os.chmod(place.path, 0o755)
            # its next octets are ours to write
            os.chmod(place.journal, 0o644)


def of_memory(program, tally):
    """Memory is wanting."""
    said = b"dervlask: out of memory\n"
    with Place(program, STORE) as place:
        found = place.run([b"downgrade"], of_size(MESSAGE_MAX), before=little_memory)
        tally.note("downgrade: memory is wanting", ended(found, 3, said, b""))
    with Place(program, mailbox([b"A: b\r\n\r\n" + b"x" * (32 << 20)], b"a@x.org", b"p")) as place:
        for words, octets in WITH_JOURNAL:
            tally.note(name_of(words, "memory is wanting"), ended(place.run(words, octets, before=little_memory), 3, said, b"") + place.changes())
    older = older_journal(domain(b"x.org"), account(b"a@x.org", b"p"), older_message(0, b"A: b\r\n\r\n" + b"x" * (32 << 20)))
    with Place(program, older) as place:
        for words, octets in WITH_JOURNAL:
            faults = ended(place.run(words, octets, before=little_memory), 3, said, b"") + place.changes()
            tally.note(name_of(words, "memory is wanting for a journal of version 1"), faults)


def of_others(program, tally):
    """With the other statuses nothing is said on standard error."""
    bad, full = FIRST_OCTETS + b"\0\0\0\x01\x09", b"bad journal at 8\r\n"
    cases = [
        ([b"downgrade"], CAFE, STORE, 0, None), ([b"help"], b"", STORE, 0, None), *((words, octets, STORE, 0, None) for words, octets in OF_SESSIONS), ([b"smtp"], SENDS, STORE, 0, None),
        (DOMAIN, b"", STORE, 0, b""), (ACCOUNT, b"", STORE, 0, b""), (BY_INPUT, LINE, STORE, 0, b""), (RELAY, b"", STORE, 0, NOTHING),
        *((words, octets, bad, 5, full) for words, octets in WITH_JOURNAL), ([b"downgrade"], b"x", STORE, 7, b"refused at 0: not a field\r\n"),
        (EXISTS, b"", STORE, 9, b"exists\r\n"), ([b"account", b"b@y.org", b"p"], b"", STORE, 9, b"no such domain\r\n"),
    ]
    for words, octets, before, status, given in cases:
        with Place(program, before) as place:
            tally.note(f"status {status} of {words}: nothing on standard error", ended(place.run(words, octets), status, b"", given))


def of_words(program, tally):
    """Where no command has the words, the hint on standard error says how to list the commands."""
    for words in ([], [b"post"], [b"--help"], [b"-h"], [b"--version"], [b"help", b"me"], [b"HELP"], [b"serve", b"pop", b"110"], [b"domain", b"\xff"]):
        with Place(program, STORE) as place:
            tally.note(f"{words} are the words of no command", ended(place.run(words, CAFE), *WRONG) + place.changes())
    for octets in (b"", b"\n", b"x" * 65_537 + b"\n"):
        with Place(program, STORE) as place:
            tally.note(f"{len(octets)} octets have no password", ended(place.run(BY_INPUT, octets), *WRONG) + place.changes())
    with Place(program, STORE) as place:
        found = place.run([b"help"])
        tally.note("the command of the hint lists the commands", ended(found, 0, b"") + differs("lists relay", b"\n  relay " in found[1], True))


def of_mute(program, tally):
    """The status stays where standard error takes nothing, and so does the journal."""
    with Place(program, STORE) as place, open("/dev/full", "wb") as full:
        found = place.run([b"--help"], stderr=full)
        tally.note("standard error is full, wrong words", differs("answer", found[:2], (WRONG[0], WRONG[2])) + place.changes())
        found = place.run([b"pop"], QUIT, stdout=full, stderr=full)
        tally.note("standard error is full", differs("status", found[0], 1) + place.changes())
        found = place.run([b"pop"], QUIT, stdout=full, stderr=None, before=shut(2))
        tally.note("standard error is closed", differs("status", found[0], 1) + place.changes())


def check(program, tally):
    for checks in (of_output, of_input, of_the_journal, of_modes, of_memory, of_others, of_words, of_mute):
        checks(program, tally)
