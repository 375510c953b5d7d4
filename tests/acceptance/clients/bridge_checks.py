"""tools/bridge.py: what it answers to its words, and clients that come at once, each of which gets a program of its own."""

import collections
import concurrent.futures
import os
import poplib
import smtplib
import socket
import subprocess
import sys
import tempfile
import time

from bridge import Bridge
from clients.pop_clients import ADDRESS, PASSWORD, SECONDS
from journal import account, domain, journal
from support import paths
from support.harness import differs
from support.talk import SMTP, place_journal

SENDERS, SENT = 8, 3
FETCHERS = 4
SENDER, CLIENT = "zoe@example.com", "client.example"
# what a client tells of a session that isn't as it has to be
BROKEN = (OSError, poplib.error_proto, smtplib.SMTPException)


def answer(*words):
    """Status, standard output and standard error of the tool."""
    ran = subprocess.run([sys.executable, paths.tool("bridge.py"), *words], stdin=subprocess.DEVNULL, capture_output=True, text=True, timeout=SECONDS)
    return ran.returncode, ran.stdout, ran.stderr


def of_words(program, tally):
    status, given, said = answer("--help")
    lacking = [word for word in ("PROGRAM", "FOLDER", "PORT", "WORD") if word not in given]
    tally.note("bridge.py --help", differs("status", status, 0) + differs("what it doesn't tell", lacking, []) + differs("standard error", said, ""))
    with socket.create_server(("127.0.0.1", 0)) as taken, tempfile.TemporaryDirectory(dir=program.folder.name) as folder:
        nowhere, port = os.path.join(folder, "nowhere"), str(taken.getsockname()[1])
        cases = [
            ("a folder that isn't there", (program.path, nowhere), nowhere),
            ("a program that isn't there", (nowhere, folder), nowhere),
            ("a port that is taken", (program.path, folder, port), port),
        ]
        for name, words, told in cases:
            status, given, said = answer(*words)
            faults = differs("answer", (status, given, said.count("\n")), (2, "", 1)) + ([] if told in said else [f"it doesn't name {told}: {said}"])
            tally.note(f"bridge.py: {name}", faults)


def send(port, number):
    """Sends some messages in one session. What of them was refused."""
    with smtplib.SMTP("127.0.0.1", port, local_hostname=CLIENT, timeout=SECONDS) as client:
        return [client.sendmail(SENDER, [ADDRESS], f"Subject: {number}-{it}\r\n\r\nx\r\n") for it in range(SENT)]


def fetch(port, number):
    """Fetches the first message, and deletes it. Its subject."""
    client = poplib.POP3("127.0.0.1", port, timeout=SECONDS)
    client.user(ADDRESS)
    client.pass_(PASSWORD)
    lines = client.retr(1)[1]
    client.dele(1)
    client.quit()
    return subject_of(lines)


def subject_of(lines):
    return next(line.partition(b": ")[2].decode() for line in lines if line.startswith(b"Subject: "))


def subjects(port):
    """Those of all messages."""
    client = poplib.POP3("127.0.0.1", port, timeout=SECONDS)
    client.user(ADDRESS)
    client.pass_(PASSWORD)
    found = [subject_of(client.top(number, 0)[1]) for number in range(1, client.stat()[0] + 1)]
    client.quit()
    return found


def leave(port):
    """A client that says nothing, perhaps before it is greeted, and takes what it is told."""
    with socket.create_connection(("127.0.0.1", port), timeout=SECONDS) as connection:
        connection.shutdown(socket.SHUT_WR)
        while connection.recv(1 << 16):
            pass


def outcome(work, *given):
    try:
        return work(*given)
    except BROKEN as error:
        return f"{work.__name__}: {error!r}"


def at_once(port, work, count):
    """What so many clients come to, with one more beside them that says nothing."""
    with concurrent.futures.ThreadPoolExecutor(count + 1) as pool:
        gone = pool.submit(leave, port)
        found = list(pool.map(lambda number: outcome(work, port, number), range(count)))
        gone.result()
    return found


def unreaped(bridge):
    """The programs that are still there once all clients have gone, and have had the time to end."""
    until = time.monotonic() + SECONDS
    while bridge.running and time.monotonic() < until:
        time.sleep(0.01)
    return [run.pid for run in bridge.running]


def of_clients(program, tally):
    """What was sent at once is there, and what was fetched and deleted at once is not."""
    with tempfile.TemporaryDirectory(dir=program.folder.name) as folder:
        place_journal(folder, journal(domain(b"example.org"), account(ADDRESS.encode(), PASSWORD.encode())))
        with Bridge(program.path, folder, word=SMTP.decode()) as bridge:
            refused = at_once(bridge.port, send, SENDERS)
            tally.note("bridge.py: programs of SMTP are reaped while it serves", differs("programs", unreaped(bridge), []))
        tally.note("bridge.py: clients that send at once", differs("refused", refused, [[{}] * SENT] * SENDERS) + differs("statuses", bridge.statuses, {0}))
        with Bridge(program.path, folder) as bridge:
            fetched = at_once(bridge.port, fetch, FETCHERS)
            left = outcome(subjects, bridge.port)
            tally.note("bridge.py: programs of POP3 are reaped while it serves", differs("programs", unreaped(bridge), []))
        sent = collections.Counter(f"{number}-{it}" for number in range(SENDERS) for it in range(SENT))
        found = collections.Counter([*fetched, *(left if isinstance(left, list) else [left])])
        faults = differs("fetched and left", found, sent) + differs("statuses", bridge.statuses, {0})
        tally.note("bridge.py: clients that fetch and delete at once", faults)


def check(program, tally):
    of_words(program, tally)
    of_clients(program, tally)
