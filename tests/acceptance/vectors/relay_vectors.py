"""Runs of `relay` that an independent reference wrote, in the form that pop_vectors.py tells: the octets of the next server, and what it is sent.

A server over loopback sends these octets, as they are cut, and reads to the end; where the case has none, nobody listens. A case fixes the
clock, which the program can't do: the dates of its reports are replaced by the clock's (moments.py). Some cases fix a smaller limit of a
message than the program has: there a report is dropped that is kept here, and what is told of reports isn't compared.
One of the files is older than Q words: a case with a message whose surrogate has such words is left out of it. It and the next one are older
than version 2 of the journal (version_1.py)."""

import re
import socket
import tempfile

from listening import Listening, free_port
from support.harness import SECONDS, differs, in_lanes
from support.moments import Moments
from support.next_server import relay_to
from support.talk import cut, place_journal, read_journal
from vectors.older_words import has_older_words
from vectors.pop_vectors import cases_in
from vectors.smtp_vectors import MESSAGE_MAX

SINCE_Q_WORDS = ["relay-q.txt", "relay-2.txt"]
FILES = ["relay.txt", *SINCE_Q_WORDS]
REPORTS = re.compile(rb", reported [0-9]+")


class Telling(Listening):
    """Sends these pieces to whoever comes, whatever that one says; `heard` is what."""

    def __init__(self, pieces):
        super().__init__()
        self.pieces, self.heard = pieces, b""

    def start(self, connection):
        connection.settimeout(SECONDS)
        try:
            for piece in self.pieces:
                connection.sendall(piece)
            connection.shutdown(socket.SHUT_WR)
        except OSError:
            # it needn't hear all
            pass
        try:
            while octets := connection.recv(1 << 16):
                self.heard += octets
        except ConnectionResetError:
            pass


def run(program, folder, case):
    """The answer, and what the server was sent."""
    if case["dial"] == "no":
        return relay_to(program, folder, f"127.0.0.1:{free_port()}"), b""
    sizes = [int(size) for size in case["cuts"].split()]
    with Telling(cut(bytes.fromhex(case["peer"]), sizes)) as server:
        answer = relay_to(program, folder, f"127.0.0.1:{server.port}")
    return answer, server.heard


def one_case(program, case):
    """What is wrong."""
    before, seconds = bytes.fromhex(case["journal"]), int(case["clock"])
    moments, wanted = Moments(before, seconds), (int(case["status"]), bytes.fromhex(case["out"]))
    with tempfile.TemporaryDirectory(dir=program.folder.name) as folder:
        path = place_journal(folder, before)
        (status, given), heard = run(program, folder, case)
        after = moments.seen(read_journal(path))
    faults = differs("sent", heard, bytes.fromhex(case["sent"]))
    if int(case["message_max"]) != MESSAGE_MAX:
        return faults + differs("answer", (status, REPORTS.sub(b"", given)), (wanted[0], REPORTS.sub(b"", wanted[1])))
    return faults + differs("answer", (status, given), wanted) + differs("journal", after, bytes.fromhex(case["after"]))


def check(program, tally, folder):
    for name in FILES:
        check_file(program, tally, folder, name)


def check_file(program, tally, folder, name):
    every = cases_in(folder, name)
    cases = [case for case in every if name in SINCE_Q_WORDS or not has_older_words(case)]
    for case, faults in zip(cases, in_lanes(lambda case: one_case(program, case), cases)):
        tally.note(f"{name}, vector {case['case']}", faults)
    limited = sum(int(case["message_max"]) != MESSAGE_MAX for case in cases)
    print(f"vectors of relay: {len(cases)} of {len(every)} of {name} were run, the others are older than Q words")
    print(f"vectors of relay: {limited} of these have a limit of their own, and what they tell of reports wasn't compared")
