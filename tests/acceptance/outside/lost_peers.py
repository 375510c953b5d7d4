"""Peers that vanish in the middle: clients of `serve` within a message that they send or fetch, readers of standard output, and the program itself.

Afterwards the journal opens, and each message that was told stored is there once for each recipient. Of one that wasn't told so there is nothing, or
all of it where its last line was sent."""

import signal
import socket
import subprocess
import tempfile

from journal import account, domain, journal
from oracle.pop_store import Unopened, open_journal
from oracle.records import message
from outside.serve_outside import connect, talk
from support.harness import SECONDS, differs
from support.next_server import RESET
from support.service import Service
from support.talk import place_journal, read_journal

ANN, BOB = b"a@x.org", b"b@x.org"
LINE = b"x" * 998 + b"\r\n"
# more than the system keeps for a peer that doesn't read
LARGE = b"Subject: large\r\n\r\n" + LINE * 16_000
STORE = journal(domain(b"x.org"), account(ANN, b"p"), account(BOB, b"p"))
WITH_LARGE = STORE + message(0, LARGE)
STORED, GO = b"250 2.0.0 stored\r\n", b"+ go\r\n"
QUIT = b"QUIT\r\n"
LOGS_IN, IMAP_LOGS_IN = b"USER a@x.org\r\nPASS p\r\n", b"a LOGIN a@x.org p\r\n"
HOWS = {"goes": None, "resets": RESET}


def envelope(octets):
    return b"MAIL FROM:<e@y.org>\r\nRCPT TO:<a@x.org>\r\nRCPT TO:<b@x.org>\r\nRCPT TO:<c@z.org>\r\nDATA\r\n" + octets


def small(mark):
    return b"Subject: %s\r\n\r\nx\r\n" % mark


def begins(service, octets, told):
    """A client that sends this and then was told that, and all that it was told."""
    connection, had = connect(service), b""
    connection.sendall(octets)
    while told not in had and (piece := connection.recv(1 << 12)):
        had += piece
    return connection, had


def vanish(connection, how):
    if how:
        connection.setsockopt(socket.SOL_SOCKET, socket.SO_LINGER, how)
    connection.close()


def subjects(octets):
    """The subjects in the mailboxes of both accounts, and in the queue, or why the journal doesn't open."""
    try:
        store, _ = open_journal(octets)
    except Unopened as error:
        return error.answer
    found = [[octets for _, _, octets in store.inbox(number)] for number in range(2)] + [[octets for _, _, octets in store.queue()]]
    return [[octets.partition(b"Subject: ")[2].partition(b"\r\n")[0] for octets in some] for some in found]


def ended_by_us(service):
    """What is wrong with a service that served until we stopped it. What it says of a connection whose client went depends on the system."""
    return service.unready + differs("status", service.status, None) + differs("standard output", service.given, b"")


def of_deliveries(program, tally, folder):
    """A client of SMTP vanishes behind a message that was told stored: within the next one, and behind its last line."""
    ready = b"EHLO x\r\n" + envelope(small(b"first") + b".\r\n")
    cases = [
        ("within the envelope", envelope(b"")[:40], [1]), ("within a header", envelope(b"Subject: se"), [1]), ("within a body", envelope(small(b"second")), [1]),
        ("within a large body", envelope(small(b"second") + LINE * 4_000), [1]), ("within its last line", envelope(small(b"second") + b".\r"), [1]),
        ("behind its last line", envelope(small(b"second") + b".\r\n"), [1, 2]),
    ]
    for name, octets, counts in cases:
        for how, option in HOWS.items():
            path = place_journal(folder, STORE)
            with Service(program.path, folder, "smtp") as service:
                connection, had = begins(service, ready, STORED)
                connection.sendall(octets)
                vanish(connection, option)
                # served behind it, so it has ended by then
                again = talk(service, b"EHLO x\r\n" + envelope(small(b"last") + b".\r\n") + QUIT)
            found = subjects(read_journal(path))
            marks = [[b"first", b"second"][:count] + [b"last"] for count in counts]
            faults = differs("told", (had.count(STORED), again.count(STORED)), (1, 1)) + ended_by_us(service)
            faults += [] if found in [[some] * 3 for some in marks] else [f"what is there: {found}"]
            tally.note(f"serve smtp: a client {how} {name}", faults)


def of_fetches(program, tally, folder):
    """A client vanishes within what it is sent, or behind what it marked."""
    fetch, append = b"a SELECT INBOX\r\na FETCH 1 BODY[]\r\n", b"a APPEND INBOX {20}\r\nSubject: b\r\n\r\n"
    cases = [
        ("pop", "within RETR of a large message", LOGS_IN + b"RETR 1\r\n", b"\r\n\r\n" + LINE),
        ("pop", "within TOP of a large message", LOGS_IN + b"TOP 1 15999\r\n", b"\r\n\r\n" + LINE),
        ("pop", "behind DELE", LOGS_IN + b"DELE 1\r\n", b"+OK\r\n+OK\r\n+OK\r\n"),
        ("imap", "within FETCH of a large message", IMAP_LOGS_IN + fetch, b"\r\n\r\n" + LINE),
        ("imap", "within a literal", IMAP_LOGS_IN + append, GO),
    ]
    for word, name, octets, told in cases:
        for how, option in HOWS.items():
            path = place_journal(folder, WITH_LARGE)
            with Service(program.path, folder, word) as service:
                connection, had = begins(service, octets, told)
                vanish(connection, option)
                again = talk(service, QUIT if word == "pop" else b"a LOGOUT\r\n")
            faults = differs("told", told in had, True) + differs("the next client is greeted", len(again.split(b"\r\n")) > 2, True) + ended_by_us(service)
            faults += differs("what is there", subjects(read_journal(path)), [[b"large"], [], []])
            status, given = program.run([b"pop"], LOGS_IN + b"STAT\r\n" + QUIT, cwd=folder)
            faults += differs("a session behind it", (status, b"\r\n+OK 1 " in given), (0, True))
            tally.note(f"serve {word}: a client {how} {name}", faults)


def of_goodbyes(program, tally, folder):
    """A client of POP3 vanishes once it said QUIT: what it marked is gone, or is all there."""
    mail = b"".join(message(0, small(b"%d" % number)) for number in range(9))
    for how, option in HOWS.items():
        path = place_journal(folder, STORE + mail)
        with Service(program.path, folder) as service:
            connection, _ = begins(service, LOGS_IN + b"DELE 1\r\nDELE 2\r\n", b"+OK\r\n" * 4)
            connection.sendall(QUIT)
            vanish(connection, option)
            talk(service, QUIT)
        found = subjects(read_journal(path))
        left = [[b"%d" % number for number in range(begin, 9)] for begin in (0, 2)]
        faults = [] if found[:1] in [[some] for some in left] else [f"what is there: {found}"]
        tally.note(f"serve pop: a client {how} behind QUIT", faults + ended_by_us(service))


def of_kills(program, tally, folder):
    """The program is killed within a message."""
    for octets in (b"", envelope(small(b"second")), envelope(small(b"second") + LINE * 4_000)):
        path = place_journal(folder, STORE)
        with Service(program.path, folder, "smtp") as service:
            connection, had = begins(service, b"EHLO x\r\n" + envelope(small(b"first") + b".\r\n"), STORED)
            with connection:
                connection.sendall(octets)
                service.running.send_signal(signal.SIGKILL)
                status = service.end()
        faults = differs("told", had.count(STORED), 1) + differs("status", status, -signal.SIGKILL)
        faults += differs("what is there", subjects(read_journal(path)), [[b"first"]] * 3)
        status, given = program.run([b"pop"], LOGS_IN + b"STAT\r\n" + QUIT, cwd=folder)
        tally.note(f"serve smtp: killed within {len(octets)} octets", faults + differs("a session behind it", (status, b"\r\n+OK 1 " in given), (0, True)))


def of_readers(program, tally, folder):
    """Who reads standard output goes: the session ends, and says why."""
    cases = [
        (b"smtp", STORE, b"EHLO x\r\n" + envelope(small(b"first") + b".\r\n"), STORED, envelope(small(b"second") + b".\r\n")),
        (b"pop", WITH_LARGE, LOGS_IN + b"RETR 1\r\n", b"\r\n\r\n", b"DELE 1\r\n"),
        (b"imap", WITH_LARGE, IMAP_LOGS_IN + b"a SELECT INBOX\r\na FETCH 1 BODY.PEEK[]\r\n", b"\r\n\r\n", b"a CHECK\r\n"),
    ]
    for word, store, first, told, second in cases:
        path = place_journal(folder, store)
        how = {"stdin": subprocess.PIPE, "stdout": subprocess.PIPE, "stderr": subprocess.PIPE, "cwd": folder, "bufsize": 0}
        with subprocess.Popen([program.path, word], **how) as running:
            running.stdin.write(first)
            had = b""
            while told not in had and (piece := running.stdout.read(1 << 12)):
                had += piece
            running.stdout.close()
            try:
                running.stdin.write(second)
                running.stdin.close()
            except BrokenPipeError:
                pass
            said = running.stderr.read()
            status = running.wait(SECONDS)
        faults = differs("status", status, 1) + differs("standard error", said, b"dervlask: standard output: Broken pipe\n")
        found = subjects(read_journal(path))
        wanted = [[[b"first"]] * 3, [[b"first", b"second"]] * 3] if word == b"smtp" else [[[b"large"], [], []]]
        faults += [] if found in wanted else [f"what is there: {found}"]
        tally.note(f"{word.decode()}: the reader of standard output goes", faults)


def check(program, tally):
    for checks in (of_deliveries, of_fetches, of_goodbyes, of_kills, of_readers):
        with tempfile.TemporaryDirectory(dir=program.folder.name) as folder:
            checks(program, tally, folder)
