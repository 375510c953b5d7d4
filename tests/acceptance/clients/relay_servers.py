"""Real next servers of `relay`: Python's aiosmtpd, and Postfix, which sends on what it takes. Beside them a server of our own, which takes
everything. Mail is taken in by SMTP from smtplib, and what arrives is, octet for octet, what was queued."""

import json
import os
import re
import smtplib
import subprocess
import sys
import tempfile
import time

import postfix
from clients.mailbox import messages
from clients.pop_clients import ADDRESS, PASSWORD, SECONDS
from journal import account, domain, journal
from listening import NotStarted, free_port, wait_for
from support.harness import differs
from support.next_server import BOTH, EIGHT, UTF8, Letter, NextServer, queue_in, relay, told
from support.service import Service
from support.talk import place_journal

STORE = journal(domain(b"example.org"), account(ADDRESS.encode(), PASSWORD.encode()))
CLIENT, ELSEWHERE, OTHER = "client.example", "kim@example.net", "lee@example.net"
AIOSMTPD = os.path.join(os.path.dirname(os.path.abspath(__file__)), "aiosmtpd_server.py")
ASCII = b"Subject: one\r\n\r\nHello,\r\n.\r\n..two\r\n\r\n.three\r\n"
BODY, HEADER = "Subject: one\r\n\r\n.déjà\r\n".encode(), "Subject: déjà\r\n\r\nvu\r\n".encode()
PART = "Content-Type: multipart/mixed; boundary=b\r\n\r\n--b\r\nSubject: déjà\r\n\r\nvu\r\n--b--\r\n".encode()
SETTINGS = """
relayhost = [127.0.0.1]:{next}
smtputf8_enable = {utf8}
local_header_rewrite_clients =
smtp_connection_cache_on_demand = no
default_destination_concurrency_limit = 1
"""
# the field that Postfix puts before what it takes
TRACE = re.compile(rb"Received: from [^\r]*\r\n(?:\t[^\r]*\r\n)+")


class Mail:
    """A message to be sent on: its envelope, its octets, what they need, and how it goes where UTF8 isn't offered.

    `plain` is the path and the recipients then, in ASCII; or None where it can't go so."""

    def __init__(self, name, path, recipients, octets, needs=(), plain=None):
        self.name, self.path, self.recipients, self.octets, self.needs, self.plain = name, path, recipients, octets, needs, plain

    def letter(self, offers):
        """What a server is told that offers this, without octets, or None where it isn't told of it."""
        if UTF8 in offers and EIGHT in offers:
            return Letter(self.path, [f"BODY={EIGHT}"] * (EIGHT in self.needs) + [UTF8] * (UTF8 in self.needs), self.recipients)
        if self.plain is None or EIGHT in self.needs and EIGHT not in offers:
            return None
        return Letter(self.plain[0], [f"BODY={EIGHT}"] * (EIGHT in self.needs), self.plain[1])


def in_ascii(name, path, recipients, octets, needs=()):
    """Mail whose envelope stays as it is."""
    return Mail(name, path, recipients, octets, needs, (path, recipients))


# senders are elsewhere, so that a report of what can't be sent is queued
MAIL = [
    in_ascii("ASCII", "bob@example.com", [ELSEWHERE, OTHER], ASCII),
    in_ascii("no path", "", [ELSEWHERE], ASCII),
    in_ascii("a quoted local part", '"b ob"@example.com', ['"k\\"im"@example.net'], ASCII),
    in_ascii("a domain in A-labels", "bob@xn--bcher-kva.example", ["kim@XN--R8JZ45G.test"], ASCII),
    in_ascii("eight bits in the body", "bob@example.com", [ELSEWHERE], BODY, [EIGHT]),
    Mail("domains beyond ASCII", "bob@bücher.example", ["kim@例え.test", ELSEWHERE], ASCII, [UTF8],
        ("bob@xn--bcher-kva.example", ["kim@xn--r8jz45g.test", ELSEWHERE])),
    Mail("a domain beyond ASCII, and such a body", "bob@example.com", ["kim@bücher.example"], BODY, [EIGHT, UTF8],
        ("bob@example.com", ["kim@xn--bcher-kva.example"])),
    Mail("a header beyond ASCII", "bob@example.com", [ELSEWHERE], HEADER, BOTH),
    Mail("a header beyond ASCII in a part", "bob@example.com", [ELSEWHERE], PART, BOTH),
    Mail("a recipient beyond ASCII", "bob@example.com", ["josé@example.net"], ASCII, [UTF8]),
    Mail("a path beyond ASCII", "zoë@example.com", [ELSEWHERE], ASCII, [UTF8]),
    Mail("all beyond ASCII", "zoë@bücher.example", ["josé@例え.test", "한글@example.net"], HEADER, BOTH),
    *(Mail(f"message {number}", "bob@example.com", [ELSEWHERE], octets, BOTH) for number, (_, octets) in enumerate(messages(20, 6531), 1)
        if not octets.isascii() and not octets.partition(b"\r\n\r\n")[0].isascii()),
]


def take_in(program, folder, mail):
    """Takes mail in by SMTP. What is wrong."""
    with Service(program.path, folder, "smtp") as service:
        with smtplib.SMTP("127.0.0.1", service.port, local_hostname=CLIENT, timeout=SECONDS) as client:
            options = ["SMTPUTF8", "BODY=8BITMIME"]
            refused = [client.sendmail(it.path, it.recipients, it.octets, mail_options=options) for it in mail]
    return differs("refused", refused, [{}] * len(mail)) + service.faults()


def queue_faults(mail, queue):
    """What is wrong with the queue once this mail was taken in: each entry has a line of its trace before the octets."""
    faults = differs("queued", [(path.decode(), [it.decode() for it in to]) for path, to, _ in queue], [(it.path, it.recipients) for it in mail])
    kept = [octets.partition(b"\r\n")[2] for _, _, octets in queue]
    return faults + differs("octets", kept, [it.octets for it in mail])


def sent_on(mail, queue, offers):
    """What a server is told that offers this, of all that was queued."""
    letters = [(it.letter(offers), octets) for it, (_, _, octets) in zip(mail, queue)]
    return [(*letter.told()[:3], octets) for letter, octets in letters if letter]


def arrived_faults(found, wanted):
    """What is wrong with what arrived."""
    faults = differs("how many", len(found), len(wanted))
    return faults + [fault for one, other in zip(found, wanted) for fault in differs("letter", one, other)]


def number_of(mail, offers):
    """The numbers of a run that sends what can be sent, where each other path is told by one report."""
    sent = sum(len(it.recipients) for it in mail if it.letter(offers))
    return told(sent, sum(not it.letter(offers) for it in mail), 0)


def relayed(program, folder, mail, server, offers):
    """Takes mail in and sends it on: what a server is due that offers this, and what is wrong. What waits then are the reports, from no path."""
    place_journal(folder, STORE)
    faults = take_in(program, folder, mail)
    queue = queue_in(folder)
    faults += queue_faults(mail, queue) + differs("relay", relay(program, folder, server), number_of(mail, offers))
    waiting = [(path.decode(), [it.decode() for it in to]) for path, to, _ in queue_in(folder)]
    reports = [("", [it.path]) for it in mail if not it.letter(offers)]
    return sent_on(mail, queue, offers), faults + differs("what waits then", waiting, reports)


def of_our_own(program, tally):
    """A server that offers both, or one, or nothing. An offer of UTF8 alone is none."""
    for offers in (BOTH, [EIGHT], [UTF8], []):
        with tempfile.TemporaryDirectory(dir=program.folder.name) as folder, NextServer(offers) as server:
            wanted, faults = relayed(program, folder, MAIL, server, offers)
        name = "relay to a server that offers " + (" and ".join(offers) or "nothing")
        tally.note(name, faults + differs("connections", len(server.sessions), 1))
        tally.note(f"{name}: what arrives", arrived_faults([it.told() for it in server.letters], wanted))


def python_with_aiosmtpd():
    """A Python that has aiosmtpd, or None."""
    for path in (sys.executable, "/usr/bin/python3"):
        if os.path.exists(path) and not subprocess.run([path, "-c", "import aiosmtpd"], stderr=subprocess.DEVNULL).returncode:
            return path
    return None


class Aiosmtpd:
    """Takes mail on `port` while its block runs; once it has ended, `letters` has what was taken."""

    def __init__(self, python, offers):
        self.port, self.letters = free_port(), []
        self.words = [python, AIOSMTPD, str(self.port), *offers]

    def __enter__(self):
        self.output = tempfile.TemporaryFile()
        self.running = subprocess.Popen(self.words, stdin=subprocess.DEVNULL, stdout=self.output, stderr=subprocess.DEVNULL)
        wait_for(self.port)
        return self

    def __exit__(self, *_):
        self.running.terminate()
        self.running.wait(SECONDS)
        self.output.seek(0)
        for line in self.output:
            path, parameters, recipients, octets = json.loads(line)
            self.letters.append(Letter(path.removeprefix("<>"), parameters, recipients, bytes.fromhex(octets)))
        self.output.close()


def of_aiosmtpd(program, tally):
    python = python_with_aiosmtpd()
    if not python:
        print("aiosmtpd isn't here, so no mail is sent to it: tools/install_aiosmtpd")
        return
    for offers in (BOTH, [EIGHT], []):
        with tempfile.TemporaryDirectory(dir=program.folder.name) as folder, Aiosmtpd(python, offers) as server:
            wanted, faults = relayed(program, folder, MAIL, server, offers)
        name = "relay to aiosmtpd, which offers " + (" and ".join(offers) or "nothing")
        tally.note(name, faults)
        tally.note(f"{name}: what arrives", arrived_faults([it.told() for it in server.letters], wanted))


def without_trace(octets):
    """The octets behind the field that Postfix adds."""
    found = TRACE.match(octets)
    return octets[found.end() :] if found else octets


def wait_for_letters(server, count):
    for _ in range(SECONDS * 10):
        if len(server.letters) >= count:
            return
        time.sleep(0.1)


def of_postfix(program, tally):
    """Postfix, with SMTPUTF8 and without, sends on to a server of our own."""
    if not postfix.can_serve():
        print("Postfix isn't here, or this isn't root, so no mail is sent to it: tools/install_postfix")
        return
    for offers in (BOTH, [EIGHT]):
        utf8 = "yes" if UTF8 in offers else "no"
        name = f"relay to Postfix with smtputf8_enable={utf8}"
        with tempfile.TemporaryDirectory() as own, tempfile.TemporaryDirectory(dir=program.folder.name) as folder, NextServer() as behind:
            settings = SETTINGS.format(next=behind.port, utf8=utf8)
            try:
                with postfix.Postfix(own, settings) as server:
                    wanted, faults = relayed(program, folder, MAIL, server, offers)
                    wait_for_letters(behind, len(wanted))
            except NotStarted as error:
                print(error)
                return
        tally.note(name, faults)
        found = [(it.path, sorted(it.recipients), without_trace(it.octets)) for it in behind.letters]
        due = [(path, sorted(recipients), octets) for path, _, recipients, octets in wanted]
        tally.note(f"{name}: what arrives", arrived_faults(sorted(found), sorted(due)))


def check(program, tally):
    of_our_own(program, tally)
    of_aiosmtpd(program, tally)
    of_postfix(program, tally)
