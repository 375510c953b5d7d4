"""Next servers of `relay` that can't be reached, that go in the middle, or that answer what stops a run; and what fails on our side.

Whatever comes, what is left waits as before, and a later run sends all of it once."""

import socket
import subprocess
import tempfile
import threading

from clients.pop_clients import ADDRESS, PASSWORD
from clients.relay_servers import ASCII, ELSEWHERE, HEADER, OTHER
from journal import account, domain, journal
from listening import free_port
from oracle.pop_store import open_journal
from oracle.records import queue
from outside.smtp_outside import little_room
from rows.downgrade_rows import little_memory
from rows.word_rows import BAD
from support.harness import SECONDS, differs
from support.next_server import EIGHT, GREETING, HANGS_UP, REPLIES, RESETS, NextServer, queue_in, relay, relay_to, store_in, told
from support.talk import place_journal, read_journal

SENDER, TO = b"bob@example.com", [ELSEWHERE.encode(), OTHER.encode()]
EMPTY = journal(domain(b"example.org"), account(ADDRESS.encode(), PASSWORD.encode()))
ONE = queue(SENDER, TO, ASCII)
STORE = EMPTY + ONE
ALL = [b"EHLO", b"MAIL", b"RCPT", b"RCPT", b"DATA", b"QUIT"]
# more than the system keeps for a server that doesn't read
LARGE = b"Subject: large\r\n\r\n" + (b"x" * 78 + b"\r\n") * 200_000
LEFT = told(0, 0, 2)
OTHERS_WAIT = 0.3


def asked(sessions):
    """The words that the lines of the first session begin with."""
    return [line[:4] for line in sessions[0]]


def of_dials(program, tally, folder):
    """Places where no server is, and words that name none."""
    places = [f"127.0.0.1:{free_port()}", "nowhere.invalid", "nowhere.invalid:25", "127.0.0.1:x", "127.0.0.1:65536", "127.0.0.1:", "[::1", "[::1]x", "[::1]:x"]
    for place in places:
        path = place_journal(folder, STORE)
        faults = differs("answer", relay_to(program, folder, place), LEFT) + differs("journal", read_journal(path), STORE)
        tally.note(f"relay: no server at {place}", faults)
        place_journal(folder, EMPTY)
        tally.note(f"relay: nothing to send to {place}", differs("answer", relay_to(program, folder, place), told(0, 0, 0)))


def said_to(program, folder, port):
    """What is said on standard error of a server at this port."""
    place_journal(folder, STORE)
    words = [program.path, "relay", f"127.0.0.1:{port}"]
    return subprocess.run(words, stdin=subprocess.DEVNULL, capture_output=True, cwd=folder, timeout=SECONDS).stderr


def of_sayings(program, tally, folder):
    """Standard error tells why a connection wasn't made, or failed, and nothing where an answer stopped the run."""
    found = [said_to(program, folder, free_port())]
    for changed in ({b"EHLO ": RESETS}, {b"MAIL FROM:": b"451 4.3.0 no\r\n"}, {b"RCPT TO:": HANGS_UP}, {b"RCPT TO:": b"550 5.1.1 no\r\n"}, {}):
        with NextServer(changed=changed) as server:
            found.append(said_to(program, folder, server.port))
    wanted = [b"dervlask: next server: Connection refused\n", b"dervlask: next server: Connection reset by peer\n", b"", b"", b"", b""]
    tally.note("relay: what is said on standard error", differs("lines", found, wanted))


def of_places(program, tally, folder):
    """Names and addresses of both kinds."""
    hosts = [("127.0.0.1", "127.0.0.1"), ("127.0.0.1", "localhost"), ("127.0.0.1", "[127.0.0.1]")]
    if has_six():
        hosts.append(("::1", "[::1]"))
    for host, place in hosts:
        place_journal(folder, STORE)
        with NextServer(host=host) as server:
            faults = differs("answer", relay_to(program, folder, f"{place}:{server.port}"), told(2, 0, 0))
        tally.note(f"relay to {place}", faults + differs("letters", [it.octets for it in server.letters], [ASCII]))


def has_six():
    """Whether this machine has addresses of IPv6."""
    try:
        socket.create_server(("::1", 0), family=socket.AF_INET6).close()
        return True
    except OSError:
        return False


# what is no reply, and what is only the front of one
NO_REPLIES = [b"25 x\r\n", b"x\r\n", b"150 x\r\n", b"250-x\r\n251 y\r\n", b"250-x\r\n" * 101 + b"250 x\r\n", b"250 " + b"x" * 2043 + b"\r\n"]
FRONTS = [b"2", b"250 x", b"250 x\n", b"250-x\r\n"]


def stops():
    """Where a run stops, and how many commands were said by then: the server goes, or answers what isn't expected there."""
    steps = [(GREETING, 0), (b"EHLO ", 1), (b"MAIL FROM:", 2), (b"RCPT TO:<kim", 3), (b"RCPT TO:<lee", 4), (b"DATA", 5), (b".", 5)]
    for step, count in steps:
        at = step.decode()
        yield f"the server goes at {at}", {step: HANGS_UP}, count
        yield f"the server resets at {at}", {step: RESETS}, count
        yield f"4xx at {at}", {step: b"451-4.3.0 not\r\n451 4.3.0 now\r\n"}, count
        yield f"an unexpected reply at {at}", {step: b"250 2.0.0 ok\r\n" if step == b"DATA" else b"354 go on\r\n"}, count
        for octets in [*NO_REPLIES, *FRONTS]:
            yield f"no reply at {at}: {octets[:20]}", {step: octets}, count
    for step, count in steps[:2]:
        yield f"5xx at {step.decode()}", {step: b"554 5.3.2 no\r\n"}, count


def of_stops(program, tally, folder):
    """A run that stops says nothing more, no QUIT either, and a later one sends what is left."""
    for name, changed, count in stops():
        path = place_journal(folder, STORE)
        with NextServer(changed=changed) as server:
            faults = differs("answer", relay(program, folder, server), LEFT)
        faults += differs("said", asked(server.sessions), ALL[:count]) + differs("journal", read_journal(path), STORE)
        with NextServer() as server:
            faults += differs("later", relay(program, folder, server), told(2, 0, 0))
        faults += differs("said later", asked(server.sessions), ALL)
        tally.note(f"relay: {name}", faults + differs("letters", [(it.recipients, it.octets) for it in server.letters], [([ELSEWHERE, OTHER], ASCII)]))


def of_entries(program, tally, folder):
    """What was done before a run stops stays so: one entry was sent, one reported, and the third is left."""
    local = queue(ADDRESS.encode(), TO[:1], HEADER)
    path = place_journal(folder, STORE + local + queue(b"eve@example.com", TO[:1], ASCII))
    with NextServer([EIGHT], {b"MAIL FROM:<eve": b"421 4.3.2 later\r\n"}) as server:
        faults = differs("answer", relay(program, folder, server), told(2, 1, 1))
    store = store_in(folder)
    faults += differs("left", store.queue(), [(b"eve@example.com", TO[:1], ASCII)]) + differs("reports", len(store.messages), 1)
    with NextServer() as server:
        faults += differs("later", relay(program, folder, server), told(1, 0, 0)) + differs("last", relay(program, folder, server), told(0, 0, 0))
    faults += differs("connections", len(server.sessions), 1) + differs("octets", [it.octets for it in server.letters], [ASCII])
    tally.note("relay: what was done before it stopped", faults)
    tally.note("relay: the journal is in order", differs("journal", open_journal(read_journal(path))[1], read_journal(path)))


class Deaf(NextServer):
    """Goes when it has a few octets of the message."""

    def goes_on(self, connection, stream, line):
        if line != b"DATA\r\n":
            return super().goes_on(connection, stream, line)
        connection.sendall(REPLIES[b"DATA"])
        return not connection.recv(100)


def of_a_deaf_server(program, tally, folder):
    """A server that goes in the middle of a message: what was said of the failure depends on the system."""
    store = EMPTY + queue(SENDER, TO, LARGE)
    path = place_journal(folder, store)
    with Deaf() as server:
        faults = differs("answer", relay(program, folder, server), LEFT) + differs("journal", read_journal(path), store)
    with NextServer() as server:
        faults += differs("later", relay(program, folder, server), told(2, 0, 0))
    tally.note("relay: the server goes in the middle of a message", faults + differs("octets", [it.octets == LARGE for it in server.letters], [True]))


def of_failures(program, tally, folder):
    """The journal, standard output or memory fails. What the server took is sent again where that couldn't be kept."""
    refused = {b"RCPT TO:": b"550 5.1.1 no\r\n"}
    local = EMPTY + queue(ADDRESS.encode(), TO, ASCII)
    for name, store, changed, later in (("no room for a report", local, refused, told(0, 1, 0)), ("no room for what was sent", STORE, {}, told(2, 0, 0))):
        path = place_journal(folder, store)
        with NextServer(changed=changed) as server:
            faults = differs("status", relay(program, folder, server, preexec=little_room(len(store) + 10)), (2, b""))
            faults += differs("records", open_journal(read_journal(path))[1], store) + differs("later", relay(program, folder, server), later)
        tally.note(f"relay: {name}", faults)
    place_journal(folder, STORE)
    with NextServer() as server, open("/dev/full", "wb") as full:
        faults = differs("status", relay(program, folder, server, stdout=full)[0], 1)
    tally.note("relay: standard output is full", faults + differs("left", queue_in(folder), []))
    path = place_journal(folder, EMPTY + queue(SENDER, TO, LARGE))
    with NextServer() as server:
        faults = differs("answer", relay(program, folder, server, preexec=little_memory), (3, b""))
    tally.note("relay: memory is wanting", faults + differs("left", len(queue_in(folder)), 1))
    path = place_journal(folder, BAD)
    with NextServer() as server:
        faults = differs("answer", relay(program, folder, server), (5, b"bad journal at 8\r\n"))
    tally.note("relay: a bad journal", faults + differs("journal", read_journal(path), BAD) + differs("connections", server.sessions, []))


class Slow(NextServer):
    """Greets once it may."""

    def __init__(self):
        super().__init__()
        self.comes, self.may = threading.Event(), threading.Event()

    def start(self, connection):
        self.comes.set()
        self.may.wait(SECONDS)
        super().start(connection)


def of_the_lock(program, tally, folder):
    """Another command waits until the queue is done with."""
    path = place_journal(folder, STORE)
    how = {"stdin": subprocess.DEVNULL, "stdout": subprocess.PIPE, "stderr": subprocess.STDOUT, "cwd": folder}
    with Slow() as server:
        first = subprocess.Popen([program.path, "relay", f"127.0.0.1:{server.port}"], **how)
        server.comes.wait(SECONDS)
        second = subprocess.Popen([program.path, "domain", "example.net"], **how)
        try:
            second.wait(OTHERS_WAIT)
            faults = ["it didn't wait"]
        except subprocess.TimeoutExpired:
            faults = differs("journal meanwhile", read_journal(path), STORE)
        server.may.set()
        said = [it.communicate(timeout=SECONDS)[0] for it in (first, second)]
    faults += differs("statuses", (first.returncode, second.returncode), (0, 0)) + differs("said", said, [told(2, 0, 0)[1], b""])
    tally.note("relay: another command waits", faults + differs("domains", store_in(folder).domains, [b"example.org", b"example.net"]))


def check(program, tally):
    for checks in (of_dials, of_sayings, of_places, of_stops, of_entries, of_a_deaf_server, of_failures, of_the_lock):
        with tempfile.TemporaryDirectory(dir=program.folder.name) as folder:
            checks(program, tally, folder)
