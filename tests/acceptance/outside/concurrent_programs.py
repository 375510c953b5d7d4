"""Programs that run at once on one journal: they work one after the other, and nothing that was told is lost.

A round begins with a journal of some accounts, each with some messages; every third one has version 1, which ends once. Sessions of SMTP, sessions of POP3 that delete what they
fetch, and `account` run at once. In every other round the sessions get their input only once all of them have had the time to open the
journal: each that did so knows nothing of what the others bring. Afterwards the journal opens; each message that was told
`250 2.0.0 stored` is there once for each recipient, and each of those from before, but for what a session took out that was told
`+OK bye`; each account is there once. So what a round accepts depends on nothing but what it was told.

Before the rounds two sessions are watched: the second one waits for the end of the first, which may be any, and then knows what that
did; commands that need no journal don't wait."""

import collections
import os
import re
import select
import subprocess
import tempfile
import time

from journal import account, domain, journal, older_journal, older_message
from oracle.pop_store import Unopened, open_journal
from oracle.records import message
from rows.downgrade_rows import CAFE, CAFE_SURROGATE
from support.harness import SECONDS, differs, show
from support.talk import place_journal, read_journal

SMTP_PROGRAMS, POP_PROGRAMS, ACCOUNT_PROGRAMS = 8, 8, 4
ACCOUNTS = 4
OLD_MESSAGES = 3
# what each session sends, and what it fetches and deletes
SENT, FETCHED = 3, 2
# seconds that a round may take, and that a program is given to open a journal, which another one may have
ROUND_SECONDS = SECONDS
OPENING_SECONDS = 0.2
BODY = b"x" * 70 + b"\r\n"
BODY_LINES = 20
PASSWORD = b"pw"
READY = b"+OK ready\r\n"
STORED, SMTP_BYE, POP_BYE = b"250 2.0.0 stored", b"221 2.0.0 bye", b"+OK bye"
MARK = re.compile(rb"^Subject: ([a-z0-9-]+)\r$", re.MULTILINE)


def address(number):
    return b"ann%d@example.org" % number


def new_address(number):
    return b"new%d@example.org" % number


def text(mark):
    return b"Subject: %s\r\n\r\n" % mark + BODY * BODY_LINES


def before(is_older=False):
    """The journal, and the marks of the messages of each account."""
    begun, written = (older_journal, older_message) if is_older else (journal, message)
    marks = {number: [b"old-%d-%d" % (number, it) for it in range(OLD_MESSAGES)] for number in range(ACCOUNTS)}
    mail = [written(number, text(mark)) for number in marks for mark in marks[number]]
    return begun(domain(b"example.org"), *(account(address(number), PASSWORD) for number in marks), *mail), marks


class Sending:
    """A session of SMTP: each of its messages goes to two accounts and to an address elsewhere."""

    words = [b"smtp"]

    def __init__(self, number):
        self.marks = [b"new-%d-%d" % (number, it) for it in range(SENT)]
        self.accounts = [number % ACCOUNTS, (number + 1 + number // ACCOUNTS) % ACCOUNTS]
        self.elsewhere = b"bob%d@example.com" % number
        self.input = b"EHLO client.example\r\n" + b"".join(map(self.sends, self.marks)) + b"QUIT\r\n"

    def sends(self, mark):
        recipients = [*map(address, self.accounts), self.elsewhere]
        lines = [b"MAIL FROM:<zoe@example.com>", *(b"RCPT TO:<%s>" % it for it in recipients), b"DATA"]
        return b"".join(line + b"\r\n" for line in lines) + text(mark) + b".\r\n"

    def faults(self, status, given):
        """What is wrong with how it ended: it has to be told of each message that it is stored."""
        faults = differs("status", status, 0)
        if given.count(STORED) != SENT or not given.endswith(SMTP_BYE + b"\r\n"):
            faults.append(f"it wasn't told of {SENT} messages that they are stored: {show(given)}")
        return faults


class Fetching:
    """A session of POP3 that fetches and deletes the first messages of an account."""

    words = [b"pop"]

    def __init__(self, number):
        self.account = number % ACCOUNTS
        commands = [b"%s %d" % (word, it) for it in range(1, FETCHED + 1) for word in (b"RETR", b"DELE")]
        self.input = b"".join(line + b"\r\n" for line in [b"USER " + address(self.account), b"PASS " + PASSWORD, *commands, b"QUIT"])

    def faults(self, status, given):
        faults = differs("status", status, 0)
        return faults if given.endswith(POP_BYE + b"\r\n") else [*faults, f"it wasn't told {POP_BYE.decode()}: {show(given)}"]


class Adding:
    """A run of `account`."""

    input = None

    def __init__(self, number):
        self.words = [b"account", new_address(number), PASSWORD]

    def faults(self, status, given):
        return differs("status", status, 0) + differs("standard output", given, b"")


class Round:
    """The programs of a round, each with what it was and where its output goes."""

    def __init__(self, program, folder, is_staged):
        self.program, self.folder, self.is_staged = program.path, folder, is_staged
        kinds = ((Sending, SMTP_PROGRAMS), (Fetching, POP_PROGRAMS), (Adding, ACCOUNT_PROGRAMS))
        made = [[kind(number) for number in range(count)] for kind, count in kinds]
        # those of each kind among the others
        self.works = [it for some in zip(*map(padded, made)) for it in some if it]

    def run(self):
        """Status and output of each work, in the works' order; programs that don't end are killed."""
        runs, outputs = [], [tempfile.TemporaryFile(dir=self.folder) for _ in self.works]
        try:
            for work, output in zip(self.works, outputs):
                runs.append(self.start(work, output))
            if self.is_staged:
                self.stage(runs, outputs)
            statuses = waited(runs, ROUND_SECONDS)
            return list(zip(statuses, map(octets_of, outputs)))
        finally:
            for run in runs:
                run.kill()
                run.wait()
            for output in outputs:
                output.close()

    def start(self, work, output):
        words, how = [self.program, *work.words], {"stdout": output, "stderr": subprocess.STDOUT, "cwd": self.folder}
        if work.input is None:
            return subprocess.Popen(words, stdin=subprocess.DEVNULL, **how)
        if self.is_staged:
            return subprocess.Popen(words, stdin=subprocess.PIPE, bufsize=0, **how)
        with tempfile.TemporaryFile(dir=self.folder) as file:
            file.write(work.input)
            file.seek(0)
            return subprocess.Popen(words, stdin=file, **how)

    def stage(self, runs, outputs):
        """Gives the sessions their input, once each has greeted or had the time to."""
        sessions = [(work, run, output) for work, run, output in zip(self.works, runs, outputs) if run.stdin]
        until = time.monotonic() + OPENING_SECONDS
        while time.monotonic() < until and not all(os.fstat(output.fileno()).st_size for _, _, output in sessions):
            time.sleep(0.01)
        for work, run, _ in sessions:
            try:
                # a pipe takes that much at once, whether it is read or not
                run.stdin.write(work.input)
                run.stdin.close()
            except BrokenPipeError:
                pass


def padded(works):
    return works + [None] * (max(SMTP_PROGRAMS, POP_PROGRAMS, ACCOUNT_PROGRAMS) - len(works))


def waited(runs, seconds):
    """The status of each run, or what is to be said of one that hadn't ended after so many seconds for all together."""
    until, statuses = time.monotonic() + seconds, []
    for run in runs:
        try:
            statuses.append(run.wait(max(0, until - time.monotonic())))
        except subprocess.TimeoutExpired:
            statuses.append(f"still running after {seconds} s")
    return statuses


def octets_of(file):
    file.seek(0)
    return file.read()


def told(works, ended, marks):
    """The marks that each account and the queue have to have: those that were there or told, without those that were taken out."""
    inboxes = {number: collections.Counter(some) for number, some in marks.items()}
    queue = collections.Counter()
    for work, (_, given) in zip(works, ended):
        if isinstance(work, Sending):
            # of a session that was told less, its first messages
            stored = work.marks[: given.count(STORED)]
            queue.update(stored)
            for number in work.accounts:
                inboxes[number].update(stored)
        if isinstance(work, Fetching) and given.endswith(POP_BYE + b"\r\n"):
            inboxes[work.account].subtract(MARK.findall(given))
    return inboxes, queue


def queued(store):
    """The marks of the entries of the queue."""
    return collections.Counter(mark for _, _, octets in store.letters for mark in MARK.findall(octets))


def counted(marks):
    return sorted((mark, count) for mark, count in marks.items() if count)


def kept_faults(octets, works, ended, marks):
    """What is wrong with the journal behind a round."""
    try:
        store, _ = open_journal(octets)
    except Unopened as error:
        return [f"the journal doesn't open: {show(error.answer[1])}"]
    inboxes, queue = told(works, ended, marks)
    faults = differs("queue", counted(queued(store)), counted(queue))
    for number, wanted in inboxes.items():
        found = collections.Counter(mark for _, _, octets in store.inbox(number) for mark in MARK.findall(octets))
        faults += differs(f"messages of {address(number).decode()}", counted(found), counted(wanted))
    found = sorted(b"@".join(it) for it, _ in store.accounts)
    return faults + differs("accounts", found, sorted([*map(address, range(ACCOUNTS)), *map(new_address, range(ACCOUNT_PROGRAMS))]))


def round_faults(program, number):
    with tempfile.TemporaryDirectory(dir=program.folder.name) as folder:
        octets, marks = before(number % 3 == 0)
        path = place_journal(folder, octets)
        it = Round(program, folder, number % 2 == 1)
        ended = it.run()
        faults = []
        for work, (status, given) in zip(it.works, ended):
            faults += [f"{work.words}: {fault}" for fault in work.faults(status, given)]
        answer = program.run([b"pop"], b"QUIT\r\n", cwd=folder)
        faults += differs("a session afterwards", answer, (0, b"+OK ready\r\n+OK bye\r\n"))
        return faults + kept_faults(read_journal(path), it.works, ended, marks)


def session(program, folder):
    """A session of POP3 whose input is still to come."""
    how = {"stdin": subprocess.PIPE, "stdout": subprocess.PIPE, "stderr": subprocess.STDOUT, "cwd": folder, "bufsize": 0}
    return subprocess.Popen([program.path, b"pop"], **how)


def heard(run, seconds):
    """What the session says next, or nothing where it says nothing for so long."""
    is_there, _, _ = select.select([run.stdout], [], [], seconds)
    return os.read(run.stdout.fileno(), len(READY)) if is_there else b""


def end_by_quit(run):
    """Deletes a message."""
    return run.communicate(b"USER %s\r\nPASS %s\r\nDELE 1\r\nQUIT\r\n" % (address(0), PASSWORD), SECONDS)[0]


def end_by_signal(run):
    run.kill()
    return run.communicate(timeout=SECONDS)[0]


def turn_faults(program, end, wanted, left):
    """What is wrong with a session that begins while another one has the journal, which ends so. So many messages have to be left then."""
    with tempfile.TemporaryDirectory(dir=program.folder.name) as folder:
        place_journal(folder, before()[0])
        first, second = session(program, folder), None
        try:
            faults = differs("greeting", heard(first, SECONDS), READY)
            faults += differs("downgrade meanwhile", program.run([b"downgrade"], CAFE, cwd=folder), (0, CAFE_SURROGATE))
            faults += differs("help meanwhile", program.run([b"help"], b"", cwd=folder)[0], 0)
            second = session(program, folder)
            faults += differs("what the second session is told before the first one ends", heard(second, OPENING_SECONDS), b"")
            faults += differs("what the first session is told at its end", end(first), wanted)
            told = second.communicate(b"USER %s\r\nPASS %s\r\nLIST\r\nQUIT\r\n" % (address(0), PASSWORD), SECONDS)[0]
            numbers = re.findall(rb"^([0-9]+) [0-9]+\r$", told, re.MULTILINE)
            return faults + differs("messages that the second session has", numbers, [b"%d" % it for it in range(1, left + 1)])
        except subprocess.TimeoutExpired as error:
            return [f"still running after {error.timeout} s"]
        finally:
            for run in filter(None, (first, second)):
                run.kill()
                run.communicate()


def check(program, tally):
    bye = b"+OK\r\n+OK\r\n+OK\r\n+OK bye\r\n"
    for name, *how in (("says QUIT", end_by_quit, bye, OLD_MESSAGES - 1), ("is killed", end_by_signal, b"", OLD_MESSAGES)):
        tally.note(f"a session waits until another one {name}", turn_faults(program, *how))
    for number in range(1, program.rounds + 1):
        faults = round_faults(program, number)
        tally.note(f"programs at once on one journal, round {number} of {program.rounds}", faults)
        if faults:
            print(f"the rounds behind round {number} weren't run")
            return
    count = SMTP_PROGRAMS + POP_PROGRAMS + ACCOUNT_PROGRAMS
    print(f"programs at once on one journal: {program.rounds} rounds of {count} programs")
