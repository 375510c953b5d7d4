"""Real clients of `serve`: what poplib, smtplib, curl and swaks come to is the same as behind tools/bridge.py, and programs on one journal see
each other's mail from one connection to the next."""

import imaplib
import poplib
import smtplib
import tempfile
import time

from clients.bridge_checks import BROKEN, subject_of
from clients.imap_clients import logged_in, octets_in, told
from clients.mailbox import messages
from clients.pop_clients import ADDRESS, COUNT, PASSWORD, SECONDS, check_curl, fetched, legacy_faults, size_faults, tops, top_faults, uids_left
from clients.smtp_clients import STORE, by_curl, by_smtplib, by_swaks, check_account
from journal import account, domain, journal
from oracle.records import mailbox
from support.harness import differs
from support.service import Service
from support.talk import place_journal

ROUNDS = 200
SENDER = "zoe@example.com"


def of_pop(program, tally):
    mail = messages(COUNT)
    with tempfile.TemporaryDirectory(dir=program.folder.name) as folder:
        place_journal(folder, mailbox([stored for _, stored in mail], ADDRESS.encode(), PASSWORD.encode()))
        with Service(program.path, folder) as service:
            legacy, enabled = fetched(service.port, False), fetched(service.port, True)
            check_curl(service.port, tally, legacy[3])
            told, listed = tops(service.port), uids_left(service.port)
    tally.note("serve pop ended only when it was stopped", service.faults())
    tally.note("serve pop: TOP, UIDL, and every other message deleted", top_faults(told, legacy[3], listed))
    tally.note("serve pop, legacy: sizes", size_faults(legacy))
    tally.note("serve pop, enabled: sizes", size_faults(enabled))
    for number, ((subject, stored), shown, whole) in enumerate(zip(mail, legacy[3], enabled[3]), 1):
        tally.note(f"serve pop, legacy: message {number}", legacy_faults(subject, stored, shown))
        tally.note(f"serve pop, enabled: message {number}", differs("octets", whole, stored))


def of_smtp(program, tally):
    begun = int(time.time())
    with tempfile.TemporaryDirectory(dir=program.folder.name) as folder:
        place_journal(folder, STORE)
        with Service(program.path, folder, "smtp") as service:
            sendings = [by_smtplib(service.port), by_curl(service.port, folder), by_swaks(service.port, folder)]
        tally.note("serve smtp ended only when it was stopped", service.faults())
        for name, (_, faults) in zip(("smtplib", "curl", "swaks"), sendings):
            tally.note(f"serve smtp: {name} sends", faults)
        with Service(program.path, folder) as service:
            check_account(service.port, tally, ADDRESS, [it for sent, _ in sendings for it in sent], begun)


def send(port, subject):
    with smtplib.SMTP("127.0.0.1", port, local_hostname="client.example", timeout=SECONDS) as client:
        return client.sendmail(SENDER, [ADDRESS], f"Subject: {subject}\r\n\r\nx\r\n")


def by_poplib(port):
    """Fetches all messages, and deletes them. Their subjects."""
    client = poplib.POP3("127.0.0.1", port, timeout=SECONDS)
    client.user(ADDRESS)
    client.pass_(PASSWORD)
    count = client.stat()[0]
    found = [subject_of(client.retr(number)[1]) for number in range(1, count + 1)]
    for number in range(1, count + 1):
        client.dele(number)
    client.quit()
    return found


def by_imaplib(port):
    """The same."""
    client = logged_in(port)
    count = int(told(client.select("INBOX"))[0])
    found = octets_in(told(client.fetch("1:*", "(BODY.PEEK[])"))) if count else []
    if count:
        told(client.store("1:*", "+FLAGS.SILENT", "\\Deleted"))
    gone = told(client.expunge())
    client.logout()
    return [subject_of(octets.split(b"\r\n")) for octets in found] + differs("EXPUNGE", [it for it in gone if it], [b"1"] * count)


def turn_faults(number, fetch_all, port, smtp):
    """What is wrong with a round: a message is sent and fetched, and then there is none. In every other round the mailbox is looked at first."""
    first = [] if number % 2 else fetch_all(port)
    refused = send(smtp, f"round {number}")
    found, left = fetch_all(port), fetch_all(port)
    return differs("before", first, []) + differs("refused", refused, {}) + differs("subjects", found, [f"round {number}"]) + differs("left", left, [])


def of_two(program, tally, word, fetch_all):
    """Two programs on one journal, each of which sees in its next connection what the other one did."""
    faults = []
    with tempfile.TemporaryDirectory(dir=program.folder.name) as folder:
        place_journal(folder, journal(domain(b"example.org"), account(ADDRESS.encode(), PASSWORD.encode())))
        with Service(program.path, folder, word) as reading, Service(program.path, folder, "smtp") as smtp:
            for number in range(ROUNDS):
                try:
                    faults += [f"round {number}: {fault}" for fault in turn_faults(number, fetch_all, reading.port, smtp.port)]
                except (*BROKEN, imaplib.IMAP4.error) as error:
                    faults.append(f"round {number}: {error!r}")
                if faults:
                    break
    tally.note(f"serve {word} and serve smtp on one journal, {ROUNDS} rounds", faults + reading.faults() + smtp.faults())


def check(program, tally):
    of_pop(program, tally)
    of_smtp(program, tally)
    of_two(program, tally, "pop", by_poplib)
    of_two(program, tally, "imap", by_imaplib)
