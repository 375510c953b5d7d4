"""What ends a connection of `serve`, and what ends the program: clients that hang up, journals that others change, ports that are taken."""

import os
import shutil
import signal
import socket
import subprocess
import tempfile
import time

from journal import FIRST_OCTETS, account, domain, journal
from listening import free_port
from oracle.pop_store import open_journal
from outside.failures import Place, as_nobody
from outside.smtp_outside import little_room
from rows.downgrade_rows import little_memory
from support.harness import SECONDS, TOLD, differs
from support.next_server import RESET
from support.service import Service
from support.talk import JOURNAL, place_journal, read_journal

STORE = journal(domain(b"x.org"), account(b"a@x.org", b"p"))
BAD = FIRST_OCTETS + b"\0\0\0\x01\x09"
# a record that was broken off
BROKEN_OFF = b"\0\0\0\x20\x02\0\0"
LONELY = journal(account(b"a@x.org", b"p"))
NO_DOMAIN = f"dervlask: {JOURNAL}: no domain: add one by 'dervlask domain NAME'"
LOGS_IN = b"USER a@x.org\r\nPASS p\r\n"
COUNTS = LOGS_IN + b"STAT\r\nQUIT\r\n"
SENDS = b"EHLO x\r\nMAIL FROM:<>\r\nRCPT TO:<a@x.org>\r\nDATA\r\nSubject: a\r\n\r\nb\r\n.\r\n"
GREETING, BYE = b"+OK ready\r\n", b"+OK bye\r\n"
SMTP_GREETING, SMTP_BYE = b"220 x.org ESMTP\r\n", b"221 2.0.0 bye\r\n"


def connect(service):
    return socket.create_connection(("127.0.0.1", service.port), timeout=SECONDS)


def heard(connection):
    """All that is still said."""
    octets = b""
    while piece := connection.recv(1 << 16):
        octets += piece
    return octets


def talk(service, octets):
    """What a client is told that sends this."""
    with connect(service) as connection:
        connection.sendall(octets)
        return heard(connection)


def counted(service):
    """How many messages there are, as a client is told."""
    lines = talk(service, COUNTS).split(b"\r\n")
    return int(lines[3].split()[1]) if len(lines) == 6 else lines


def hang_up(service, octets, told, is_reset):
    """A client that goes behind these octets, once it was told so much."""
    with connect(service) as connection:
        connection.sendall(octets)
        while told:
            told = told[len(connection.recv(len(told))) :]
        if is_reset:
            connection.setsockopt(socket.SOL_SOCKET, socket.SO_LINGER, RESET)


def of_clients(program, tally, folder):
    """Clients that go in the middle of a session end their connection alone."""
    place_journal(folder, STORE)
    with Service(program.path, folder, connections=5) as service:
        hang_up(service, LOGS_IN + b"STA", GREETING + b"+OK\r\n" * 2, False)
        hang_up(service, b"", GREETING, True)
        with connect(service) as connection:
            connection.shutdown(socket.SHUT_WR)
            greeted = heard(connection)
        hang_up(service, b"", b"", True)
        count, status = counted(service), service.end()
    resets = [line for line in service.said if line.startswith("dervlask: connection 2: ") or line.startswith("dervlask: connection 4: ")]
    faults = differs("greeting", greeted, GREETING) + differs("messages", count, 0) + differs("status", status, 0)
    tally.note("serve: clients that hang up", faults + service.faults(0, said=resets) + differs("connection 2", len(resets) > 0, True))


def of_the_count(program, tally, folder):
    """It ends with status 0 once it has served as many connections as it is to, and nobody listens then."""
    place_journal(folder, STORE)
    with Service(program.path, folder, connections=3) as service:
        counts = [counted(service) for _ in range(3)]
        faults = differs("messages", counts, [0] * 3) + differs("status", service.end(), 0)
        try:
            connect(service).close()
            faults.append("a fourth client was taken")
        except ConnectionRefusedError:
            pass
    tally.note("serve ends behind its last connection", faults + service.faults(0))


def of_ports(program, tally, folder):
    """A port that another program has."""
    place_journal(folder, BAD)
    with socket.create_server(("127.0.0.1", 0)) as taken:
        words = [program.path, "serve", "pop", str(taken.getsockname()[1]), "1"]
        ran = subprocess.run(words, stdin=subprocess.DEVNULL, capture_output=True, cwd=folder, timeout=SECONDS)
    faults = differs("status", ran.returncode, 1) + differs("standard output", ran.stdout, b"")
    tally.note("serve: a port that is taken", faults + differs("one line on standard error", bool(TOLD.fullmatch(ran.stderr)), True))


def of_others(program, tally, folder):
    """Between connections the journal is anyone's, and while one is served it isn't."""
    path = place_journal(folder, STORE)
    how = {"stdin": subprocess.DEVNULL, "stdout": subprocess.PIPE, "stderr": subprocess.STDOUT, "cwd": folder}
    with Service(program.path, folder) as service:
        first = talk(service, b"USER b@x.org\r\nPASS q\r\nQUIT\r\n")
        added = subprocess.run([program.path, "account", "b@x.org", "q"], timeout=SECONDS, **how)
        second = talk(service, b"USER b@x.org\r\nPASS q\r\nQUIT\r\n")
        with connect(service) as connection:
            greeted = connection.recv(1 << 16)
            other = subprocess.Popen([program.path, "account", "c@x.org", "q"], **how)
            try:
                other.wait(0.3)
                waited = False
            except subprocess.TimeoutExpired:
                waited = True
            kept = read_journal(path)
            connection.sendall(b"QUIT\r\n")
            goodbye = heard(connection)
        status = other.wait(SECONDS)
        other.stdout.close()
    faults = differs("before", first.startswith(GREETING + b"+OK\r\n-ERR"), True) + differs("account", (added.returncode, added.stdout), (0, b""))
    faults += differs("behind it", second, GREETING + b"+OK\r\n+OK\r\n" + BYE) + differs("session", (greeted, goodbye), (GREETING, BYE))
    faults += differs("account waits for the session", waited, True) + differs("status of account", status, 0)
    faults += differs("journal meanwhile", kept, STORE + account(b"b@x.org", b"q")) + service.faults()
    tally.note("serve: others have the journal between connections", faults)


def of_bad_journals(program, tally, folder):
    """A journal that is bad, from the first or between connections."""
    path = place_journal(folder, BAD)
    with Service(program.path, folder) as service:
        status = service.end()
    tally.note("serve: a bad journal", differs("status", status, 5) + service.faults(5, b"bad journal at 8\r\n") + differs("journal", read_journal(path), BAD))
    worse = STORE + b"\0\0\0\x01\x09"
    for name, octets, at in (("is made bad", worse, len(STORE)), ("is replaced by a bad one", BAD, 8)):
        place_journal(folder, STORE)
        with Service(program.path, folder) as service:
            count = counted(service)
            place_journal(folder, octets)
            told, status = talk(service, b""), service.end()
        faults = differs("messages", count, 0) + differs("what its next client is told", told, b"") + differs("status", status, 5)
        faults += service.faults(5, b"bad journal at %d\r\n" % at) + differs("journal", read_journal(path), octets)
        tally.note(f"serve: a journal that {name} between connections", faults)
    place_journal(folder, STORE)
    with Service(program.path, folder) as service:
        counted(service)
        place_journal(folder, FIRST_OCTETS)
        told = talk(service, LOGS_IN + b"QUIT\r\n")
    tally.note("serve: a shorter journal is opened anew", differs("refused", told.startswith(GREETING + b"+OK\r\n-ERR"), True) + service.faults())
    place_journal(folder, STORE + BROKEN_OFF)
    with Service(program.path, folder) as service:
        first, octets = counted(service), read_journal(path)
        place_journal(folder, STORE + BROKEN_OFF[:1])
        second = counted(service), read_journal(path)
        service.wait_for(3)
    faults = differs("first connection", (first, octets), (0, STORE)) + differs("second connection", second, (0, STORE))
    faults += differs("what was cut", read_journal(path + ".cut"), BROKEN_OFF + BROKEN_OFF[:1])
    told = ["cut 7 octets that were no whole record; they are", "cut 1 octet that was no whole record; it is"]
    tally.note("serve: a record that is cut off", faults + service.faults(said=[f"dervlask: {JOURNAL}: {what} in {JOURNAL}.cut" for what in told]))


def of_no_domain(program, tally, folder):
    """Nobody is served from a journal without a domain, which stays as it is, and isn't made where there is none."""
    cases = (("no journal", None, None), ("an empty file", b"", FIRST_OCTETS), ("no record", FIRST_OCTETS, FIRST_OCTETS), ("an account alone", LONELY, LONELY))
    for word in ("pop", "smtp", "imap"):
        for name, before, after in cases:
            path = place_journal(folder, before)
            with Service(program.path, folder, word) as service:
                status = service.end()
            faults = differs("status", status, 2) + service.faults(2, said=[NO_DOMAIN]) + differs("journal", read_journal(path), after)
            tally.note(f"serve {word}: {name}", faults)
            if after is not None:
                os.remove(path)
    path = place_journal(folder, journal(domain(b"localhost")))
    with Service(program.path, folder, "smtp", connections=1) as service:
        told, status = talk(service, b"QUIT\r\n"), service.end()
    tally.note("serve: the domain localhost", differs("told", told, b"220 localhost ESMTP\r\n" + SMTP_BYE) + differs("status", status, 0) + service.faults(0))


def of_failures(program, tally, folder):
    """The journal fails, or memory is wanting."""
    # so long that what is said on standard error, which goes to a file too, has room
    store = STORE + journal(*[domain(b"d%d.org" % it) for it in range(100)])[len(FIRST_OCTETS) :]
    path = place_journal(folder, store)
    with Service(program.path, folder, "smtp", preexec=little_room(len(store) + 10)) as service:
        broken, whole = talk(service, SENDS), talk(service, b"QUIT\r\n")
        said = service.wait_for(2)
    faults = differs("delivery", broken.endswith(b"354 go ahead\r\n"), True) + differs("next session", whole, b"220 x.org ESMTP\r\n221 2.0.0 bye\r\n")
    faults += differs("journal", read_journal(path), store) + differs("lines", len(said), 2)
    tally.note("serve: after a fault of the journal it is opened again", faults + service.faults(said=[f"dervlask: connection 1: {JOURNAL}: File too large"]))
    os.remove(path)
    os.mkdir(path)
    with Service(program.path, folder) as service:
        status = service.end()
    os.rmdir(path)
    tally.note("serve: the journal is a folder", differs("status", status, 2) + service.faults(2, said=[f"dervlask: {JOURNAL}: not a regular file"]))
    place_journal(folder, STORE + journal(*[domain(b"d%d.org" % it) for it in range(400_000)])[len(FIRST_OCTETS) :])
    with Service(program.path, folder, preexec=little_memory) as service:
        status = service.end()
    tally.note("serve: memory is wanting", differs("status", status, 3) + service.faults(3, said=["dervlask: out of memory"]))


def closed(handles):
    """Has the program begin without these handles."""

    def close():
        for handle in handles:
            os.close(handle)

    return close


def of_streams(program, tally, folder):
    """Standard input, output and error that are closed: it serves as ever, and keeps the journal in none of their places."""
    path = place_journal(folder, STORE)
    for handles in ((0,), (1,), (0, 1)):
        with Service(program.path, folder, "smtp", connections=1, preexec=closed(handles)) as service:
            told, status = talk(service, b"NOOP\r\nQUIT\r\n"), service.end()
        faults = differs("told", told, SMTP_GREETING + b"250 2.0.0 ok\r\n" + SMTP_BYE) + differs("status", status, 0) + service.faults(0)
        tally.note(f"serve without the handles {handles}", faults + differs("journal", read_journal(path), STORE))
    port = free_port()
    words, how = [program.path, "serve", "smtp", str(port), "1"], {"stdin": subprocess.DEVNULL, "cwd": folder, "preexec_fn": closed((0, 1, 2))}
    with subprocess.Popen(words, **how) as running:
        # it can't tell where it listens, so it is asked until it does
        told = b""
        for _ in range(SECONDS * 100):
            try:
                with socket.create_connection(("127.0.0.1", port), timeout=SECONDS) as connection:
                    connection.sendall(SENDS + b"QUIT\r\n")
                    told = heard(connection)
                break
            except ConnectionRefusedError:
                time.sleep(0.01)
        status = running.wait(SECONDS)
    records = read_journal(path)
    faults = differs("told", told.endswith(b"250 2.0.0 stored\r\n" + SMTP_BYE), True) + differs("status", status, 0)
    faults += differs("journal", (records.startswith(STORE), len(open_journal(records)[0].messages)), (True, 1))
    tally.note("serve without the handles 0, 1 and 2", faults)


def of_modes(program, tally, folder):
    """The modes of the folder or of the journal are against it, from the first or between connections."""
    change = as_nobody()
    if not change:
        print("there is no user whom modes bind, so serve wasn't tried against them")
        return
    denied = ["dervlask: mail.journal: Permission denied"]
    with Place(program, STORE) as place:
        path = shutil.copy(program.path, place.path)
        os.chmod(path, 0o755)
        for mode in (0o444, 0o000):
            os.chmod(place.journal, mode)
            with Service(path, place.path, preexec=change) as service:
                status = service.end()
            os.chmod(place.journal, 0o666)
            tally.note(f"serve: the journal has the mode {mode:03o}", differs("status", status, 2) + service.faults(2, said=denied) + place.changes())
        with Service(path, place.path, preexec=change) as service:
            count = counted(service)
            os.chmod(place.journal, 0o444)
            told, status = talk(service, b""), service.end()
        faults = differs("messages", count, 0) + differs("what its next client is told", told, b"") + differs("status", status, 2)
        tally.note("serve: the mode of the journal changes", faults + service.faults(2, said=denied) + place.changes())
        os.remove(place.journal)
        os.chmod(place.path, 0o555)
        with Service(path, place.path, preexec=change) as service:
            status = service.end()
        tally.note("serve: the folder is read-only", differs("status", status, 2) + service.faults(2, said=[NO_DOMAIN]))


def of_signals(program, tally, folder):
    """It ends by a signal, and leaves the journal as it was."""
    path = place_journal(folder, STORE)
    with Service(program.path, folder) as service:
        with connect(service) as connection:
            connection.recv(1 << 16)
            service.running.send_signal(signal.SIGTERM)
            status = service.end()
    tally.note("serve: a signal", differs("status", status, -signal.SIGTERM) + differs("journal", read_journal(path), STORE))


def check(program, tally):
    for checks in (of_clients, of_the_count, of_ports, of_others, of_bad_journals, of_no_domain, of_failures, of_streams, of_modes, of_signals):
        with tempfile.TemporaryDirectory(dir=program.folder.name) as folder:
            checks(program, tally, folder)
