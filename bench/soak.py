#!/usr/bin/env python3
"""Serves one journal by three programs of `serve` to many random clients at once: `bench/soak.py [--write] [--connections N] [--seed N] PROGRAM`.

Lawful clients deliver, fetch, append and delete, and note what they were told; some of them vanish in the middle of that. Hostile ones send
sessions in which octets were changed, taken away or put in, for an account of their own. What a client does depends on the seed and on its
number. At the end the journal opens; each message that was told stored is there once for each recipient, but for those that were told deleted;
nothing else is; and the programs have no more memory than what the journal grew by. Status 1 where it isn't so.

It listens on loopback alone, and stops by itself: when all is done, or after the minutes that it may take. With --write the table goes into
docs/PERFORMANCE.md too."""

import argparse
import collections
import os
import random
import re
import socket
import struct
import subprocess
import sys
import tempfile
import threading
import time

sys.dont_write_bytecode = True

import paths
from counting import HERE, heading, line, mebibytes
from journal import account, domain, journal
from listening import wait_for
from mailboxes import tell
from page import Part
from serve import Serve

sys.path.append(os.path.join(os.path.dirname(HERE), "tests", "acceptance"))

from oracle.pop_store import Unopened, open_journal

PART = Part("PERFORMANCE.md", "bench/soak.py --write", "many clients")

CONNECTIONS, MINUTES = 20_000, 30
LANES, SECONDS = 8, 60
ACCOUNTS, PASSWORD = 20, "pw"
HOSTILE = "hostile@example.org"
WORDS = ["smtp", "pop", "imap"]
# a client of so many is to vanish at one of its steps, and one of so many is hostile
VANISHES, IS_HOSTILE = 5, 4
# how much more a program may have in memory at the end: by the octets that the journal grew by, and octets beside that
GROWTH_MOST, BESIDE_MOST = 1.5, 2 << 20
# of a message that a hostile client brought, however it came to be
STAMP = b"hostile hostile hostile\r\n"
MARK = re.compile(rb"^Subject: (m[0-9]+-[0-9]+)(?:\r| )", re.MULTILINE)
RESET = struct.pack("ii", 1, 0)
FIELDS = [
    "Subject: {}", "From: José <jose@bücher.example>\r\nSubject: {} café bar", "To: é: a@b, a@b;, é@b (é(é))\r\nSubject: {} あ =?UTF-8?Q?x?= y",
    "Content-Disposition: a; x=é; a=b; a*0=b\r\nSubject: {}", "Content-Type: multipart/mixed; boundary=b\r\nSubject: {}",
    "Received: from é (x) by a\r\nKeywords: é, é\r\nSubject: {}",
]
BODY = ["x\r\n", "The quick brown fox jumps over the lazy dog.\r\n", "..\r\n", "--b\r\nSubject: é\r\n\r\nx\r\n", "é\r\n"]

HEAD = ["program", "journal after a quarter", "resident", "journal at the end", "resident", "by the journal"]

PROSE = """
One journal with {accounts} accounts, served by `serve smtp`, `serve pop` and `serve imap` to {connections:,} random clients, {lanes} at a time. One of {hostile} sends a
session with random damage, and some of the others vanish in the middle. *resident*: what each program has in memory after a quarter of the clients and at
the end; each keeps the octets of the journal, and *by the journal* is what it has more by what the journal grew by. At the end the journal has to open, with
each message that was told stored, once for each recipient, but for those that were told deleted, and with nothing else.
""".strip()


class Gone(Exception):
    """The client vanished, or the program closed its connection."""


class ClosedByProgram(Exception):
    """A lawful client's connection was closed in the middle."""


class Ledger:
    """What clients were told of each message: `told` are stored, `deleted` were told so, and of `open` nobody knows."""

    def __init__(self):
        self.lock = threading.Lock()
        self.told, self.deleted, self.open = {}, set(), set()
        self.maybe = {}
        self.counts = collections.Counter()

    def stores(self, mark, places, is_told):
        with self.lock:
            (self.told if is_told else self.maybe)[mark] = places

    def deletes(self, places, is_told):
        """Messages of accounts, each by its mark."""
        with self.lock:
            (self.deleted if is_told else self.open).update(places)

    def note(self, what):
        with self.lock:
            self.counts[what] += 1


class Client:
    """One connection, which vanishes at a step that was chosen before, if at all."""

    def __init__(self, rng, port, ledger, number):
        self.rng, self.ledger, self.number, self.messages = rng, ledger, number, 0
        self.connection = socket.create_connection(("127.0.0.1", port), timeout=SECONDS)
        self.connection.setsockopt(socket.IPPROTO_TCP, socket.TCP_NODELAY, 1)
        self.stream = self.connection.makefile("rb")
        self.steps = rng.randint(1, 12) if rng.randrange(VANISHES) == 0 else None

    def vanish(self):
        if self.rng.random() < 0.5:
            self.connection.setsockopt(socket.SOL_SOCKET, socket.SO_LINGER, RESET)
        raise Gone

    def send(self, octets):
        """Sends it, or a part of it and vanishes."""
        if self.steps is not None:
            self.steps -= 1
            if self.steps == 0:
                self.connection.sendall(octets[: self.rng.randint(0, len(octets))])
                self.vanish()
        self.connection.sendall(octets)

    def line(self):
        octets = self.stream.readline()
        if not octets.endswith(b"\n"):
            raise Gone
        return octets

    def until(self, is_last):
        lines = [self.line()]
        while not is_last(lines[-1]):
            lines.append(self.line())
        return lines

    def text(self):
        """A new message with its mark."""
        mark = f"m{self.number}-{self.messages}"
        self.messages += 1
        body = "".join(self.rng.choice(BODY) for _ in range(self.rng.choice([0, 1, 3, 20, 20, 400])))
        return mark.encode(), (self.rng.choice(FIELDS).format(mark) + "\r\n\r\n" + body).encode()

    def some_account(self):
        return self.rng.randrange(ACCOUNTS)

    def close(self):
        self.stream.close()
        self.connection.close()


def name_of(number):
    return f"user{number}@example.org"


def deliver(client, octets, mark, places, stored):
    """Sends the octets of a message in two parts, and notes whether it was told stored, by a line that begins so."""
    client.connection.sendall(octets[: len(octets) // 2])
    try:
        client.send(octets[len(octets) // 2 :])
        reply = client.until(lambda line: line.startswith(stored[:2]))[-1]
    except (Gone, OSError):
        client.ledger.stores(mark, places, False)
        raise
    if reply.startswith(stored):
        client.ledger.stores(mark, places, True)
    else:
        client.ledger.note("refused: " + reply.decode(errors="replace").strip())


class Smtp(Client):
    """Delivers to accounts and elsewhere."""

    def command(self, text):
        self.send(text.encode() + b"\r\n")
        return self.until(lambda line: line[3:4] == b" ")[-1]

    def work(self):
        self.line()
        self.command("EHLO client.example")
        for _ in range(self.rng.choice([0, 1, 1, 1, 2, 3])):
            accounts = self.rng.sample(range(ACCOUNTS), self.rng.choice([1, 1, 1, 2, 3]))
            places, names = [*accounts], [name_of(it) for it in accounts]
            if self.rng.random() < 0.1:
                places, names = [*places, None], [*names, "bob@example.net"]
            self.command("MAIL FROM:<eve@example.com>")
            for name in names:
                self.command(f"RCPT TO:<{name}>")
            self.command("DATA")
            mark, octets = self.text()
            stuffed = b"".join(b"." + it if it.startswith(b".") else it for it in octets.splitlines(keepends=True))
            deliver(self, stuffed + b".\r\n", mark, places, b"250 2.0.0 stored")
            if self.rng.random() < 0.1:
                self.command("RSET")
        self.command("QUIT")


class Pop(Client):
    """Fetches messages and deletes some of them."""

    def command(self, text, has_lines=False):
        self.send(text.encode() + b"\r\n")
        status = self.line()
        return self.until(lambda line: line == b".\r\n") if has_lines and status.startswith(b"+OK") else [status]

    def work(self):
        self.line()
        if self.rng.random() < 0.3:
            self.command("UTF8")
        number = self.some_account()
        self.command(f"USER {name_of(number)}")
        self.command(f"PASS {PASSWORD}")
        count = int(self.command("STAT")[0].split()[1])
        if self.rng.random() < 0.3:
            self.command("LIST", True)
        marked = set()
        for place in self.rng.sample(range(1, count + 1), min(count, self.rng.randint(0, 4))):
            found = MARK.findall(b"".join(self.command(f"RETR {place}", True)).replace(b"Subject:\r\n ", b"Subject: "))
            if found and self.rng.random() < 0.6:
                self.command(f"DELE {place}")
                marked.add((number, found[0]))
        if self.rng.random() < 0.05:
            self.command("RSET")
            marked = set()
        try:
            goodbye = self.command("QUIT")[0]
        except (Gone, OSError):
            self.ledger.deletes(marked, False)
            raise
        self.ledger.deletes(marked, goodbye.startswith(b"+OK"))


class Imap(Client):
    """Fetches views of messages, appends one and expunges some."""

    def command(self, text):
        self.send(text.encode() + b"\r\n")
        return self.until(lambda line: line.startswith(text[:2].encode()))

    def work(self):
        self.line()
        number = self.some_account()
        self.command(f"a LOGIN {name_of(number)} {PASSWORD}")
        if self.rng.random() < 0.3:
            self.command("a ENABLE UTF8=ACCEPT")
        count = int(self.command("a SELECT INBOX")[0].split()[1])
        if count and self.rng.random() < 0.4:
            self.command("a FETCH 1:* (FLAGS UID RFC822.SIZE)")
        if count and self.rng.random() < 0.3:
            self.command(f"a FETCH {self.rng.randint(1, count)} (ENVELOPE BODYSTRUCTURE BODY[])")
        if self.rng.random() < 0.4:
            self.append(number)
        if count and self.rng.random() < 0.3:
            self.expunge(number, self.rng.randint(1, count))
        self.command("a LOGOUT")

    def append(self, number):
        mark, octets = self.text()
        self.send(b"d APPEND INBOX {%d}\r\n" % len(octets))
        self.line()
        deliver(self, octets + b"\r\n", mark, [number], b"d OK")

    def expunge(self, number, place):
        shown = b"".join(self.command(f"a FETCH {place} BODY.PEEK[HEADER]")).replace(b"Subject:\r\n ", b"Subject: ")
        marked = {(number, mark) for mark in MARK.findall(shown)}
        # from here on another one's EXPUNGE may take it out, too
        self.ledger.deletes(marked, False)
        self.command(f"a STORE {place} +FLAGS (\\Deleted)")
        self.command("a EXPUNGE")
        self.ledger.deletes(marked, True)


SESSIONS = {
    "smtp": [
        "EHLO x", "MAIL FROM:<é@evil.example> SMTPUTF8", f"RCPT TO:<{HOSTILE}>", "DATA", "Subject: é", "", STAMP.decode().strip(), ".", "RSET",
        "MAIL FROM:<a@b>", f"RCPT TO:<{HOSTILE}>", f"RCPT TO:<{HOSTILE}>", "DATA", "To: é: a@b;", "", STAMP.decode().strip(), ".", "QUIT",
    ],
    "pop": [f"USER {HOSTILE}", f"PASS {PASSWORD}", "STAT", "LIST", "UIDL", "RETR 1", "TOP 1 3", "DELE 1", "RSET", "NOOP", "DELE 2", "CAPA", "QUIT"],
    "imap": [
        f"a LOGIN {HOSTILE} {PASSWORD}", "a ENABLE UTF8=ACCEPT", "a CREATE é", "a LIST \"\" *", "a SELECT INBOX", "a FETCH 1:* (FLAGS ENVELOPE BODYSTRUCTURE)",
        "a STORE 1 +FLAGS (\\Deleted)", "a FETCH 1 BODY[1]<0.10>", "a APPEND INBOX {25}", STAMP.decode().strip(), "", "a EXPUNGE", "a LOGOUT",
    ],
}


def damaged(rng, word):
    """The octets of a session with random damage."""
    octets = bytearray("".join(text + "\r\n" for text in SESSIONS[word]).encode())
    for _ in range(rng.choice([0, 1, 2, 5, 30])):
        at = rng.randrange(len(octets))
        how = rng.randrange(5)
        if how == 0:
            octets[at] ^= 1 << rng.randrange(8)
        elif how == 1:
            del octets[at : at + rng.choice([1, 2, 20])]
        elif how == 2:
            octets[at:at] = rng.choice([b"\r\n", b"\n", b"\r", b"\0", b"{9}\r\n", b"\xff", b"(" * 70, b"x" * 70_000, b".\r\n", b"1:*", b"\""])
        elif how == 3:
            octets[at:at] = octets[: rng.randrange(200)]
        else:
            octets[at : at + 1] = bytes([rng.randrange(256)])
        if not octets:
            break
    return bytes(octets)


class Hostile(Client):
    """Sends a damaged session, and goes when it isn't answered any more, or before."""

    def work_as(self, word):
        octets = damaged(self.rng, word)
        self.ledger.note("hostile")
        for at in range(0, len(octets), 50_000):
            self.send(octets[at : at + 50_000])
        if self.rng.random() < 0.5:
            self.vanish()
        self.connection.shutdown(socket.SHUT_WR)
        while self.connection.recv(1 << 16):
            pass


KINDS = {"smtp": Smtp, "pop": Pop, "imap": Imap}


def connect(seed, number, ports, ledger):
    """What one client does."""
    rng = random.Random(f"{seed} {number}")
    word = rng.choice(["smtp", "smtp", "pop", "imap"])
    is_hostile = rng.randrange(IS_HOSTILE) == 0
    client = (Hostile if is_hostile else KINDS[word])(rng, ports[word], ledger, number)
    try:
        client.work_as(word) if is_hostile else client.work()
    except TimeoutError:
        raise
    except (Gone, OSError) as error:
        # a hostile client may be closed at any octet
        if not is_hostile:
            if client.steps != 0:
                raise ClosedByProgram(word) from error
            ledger.note("vanished")
    finally:
        client.close()


def run_lanes(seed, numbers, ports, ledger, until):
    """Has the clients with these numbers connect, some at a time. What went wrong in one."""
    numbers, lock, faults = iter(numbers), threading.Lock(), []

    def lane():
        while not faults and time.monotonic() < until:
            with lock:
                number = next(numbers, None)
            if number is None:
                return
            try:
                connect(seed, number, ports, ledger)
            except Exception as error:
                faults.append(f"client {number}: {error!r}")

    threads = [threading.Thread(target=lane) for _ in range(LANES)]
    for thread in threads:
        thread.start()
    for thread in threads:
        thread.join()
    return faults if time.monotonic() < until else [*faults, "it took too long"]


def resident(serving):
    """The octets that a program has in memory."""
    with open(f"/proc/{serving.running.pid}/status", encoding="ascii") as file:
        return int(re.search(r"VmRSS:\s+([0-9]+) kB", file.read())[1]) * 1024


def kept_faults(octets, ledger):
    """What is wrong with the journal at the end."""
    try:
        store, whole = open_journal(octets)
    except Unopened as error:
        return [f"the journal doesn't open: {error.answer}"]
    found = collections.Counter()
    for number in range(ACCOUNTS):
        for _, _, mail in store.inbox(number):
            marks = MARK.findall(mail)
            found[number, marks[0] if marks else mail[:60]] += 1
    for _, _, mail in store.queue():
        if STAMP not in mail and b"hostile" not in mail:
            found[None, MARK.findall(mail)[0] if MARK.findall(mail) else mail[:60]] += 1
    faults = [] if len(octets) == len(whole) else [f"{len(octets) - len(whole)} octets of a record that is cut off"]
    gone, unknown = ledger.deleted, ledger.open
    for mark, places in ledger.told.items():
        for place in places:
            count, wanted = found.pop((place, mark), 0), [0] if (place, mark) in gone else [0, 1] if (place, mark) in unknown else [1]
            if count not in wanted:
                faults.append(f"message {mark.decode()} is {count} times in {place}")
    for mark, places in ledger.maybe.items():
        counts = [found.pop((place, mark), 0) for place in places if (place, mark) not in gone | unknown]
        if len(set(counts)) > 1 or set(counts) - {0, 1}:
            faults.append(f"message {mark.decode()}, of which nothing was told, is {counts} times in {places}")
    found = {it: count for it, count in found.items() if it not in gone | unknown}
    return faults + [f"{count} times in {place}: {mark}" for (place, mark), count in found.items()]


def opening_faults(program, folder):
    """What is wrong with sessions that open the journal afterwards."""
    try:
        with open(os.path.join(folder, "mail.journal"), "rb") as file:
            store, _ = open_journal(file.read())
    except Unopened:
        return []
    faults = []
    for number in range(ACCOUNTS):
        session = f"USER {name_of(number)}\r\nPASS {PASSWORD}\r\nSTAT\r\nQUIT\r\n".encode()
        ran = subprocess.run([program, "pop"], input=session, capture_output=True, cwd=folder, timeout=SECONDS)
        if ran.returncode or b"\r\n+OK %d " % len(store.inbox(number)) not in ran.stdout:
            faults.append(f"a session of {name_of(number)} afterwards: status {ran.returncode}, {ran.stdout[:100]}")
    return faults


def soak(program, folder, connections, seed, minutes):
    """The rows, what is wrong, the ledger, and how long it took."""
    path = os.path.join(folder, "mail.journal")
    with open(path, "wb") as file:
        accounts = [account(name_of(number).encode(), PASSWORD.encode()) for number in range(ACCOUNTS)]
        file.write(journal(domain(b"example.org"), *accounts, account(HOSTILE.encode(), PASSWORD.encode())))
    ledger, begun, until = Ledger(), time.monotonic(), time.monotonic() + 60 * minutes
    with Serve(program, folder, "smtp") as smtp, Serve(program, folder, "pop") as pop, Serve(program, folder, "imap") as imap:
        serving = dict(zip(WORDS, (smtp, pop, imap)))
        for one in serving.values():
            # what it says of connections is read, so that it goes on
            threading.Thread(target=one.running.stderr.read, daemon=True).start()
        ports, seen, faults = {word: one.port for word, one in serving.items()}, [], []
        for numbers in (range(connections // 4), range(connections // 4, connections)):
            faults += [] if faults else run_lanes(seed, numbers, ports, ledger, until)
            # each reads what the others wrote last
            for word in WORDS:
                wait_for(ports[word])
            time.sleep(0.3)
            seen.append((os.path.getsize(path), {word: resident(one) for word, one in serving.items()}))
        took = time.monotonic() - begun
        faults += [f"serve {word} ended with status {one.running.poll()}" for word, one in serving.items() if one.running.poll() is not None]
    with open(path, "rb") as file:
        faults += kept_faults(file.read(), ledger)
    return seen, faults + opening_faults(program, folder), ledger, took


def row(word, seen):
    """The cells of a program, and what is wrong with how its memory grew."""
    (journal_before, before), (journal_after, after) = seen
    more, grown = after[word] - before[word], journal_after - journal_before
    octets = [f"{journal_before:,}", mebibytes(before[word]), f"{journal_after:,}", mebibytes(after[word])]
    is_flat = more <= GROWTH_MOST * grown + BESIDE_MOST
    return [f"serve {word}", *octets, f"{more / max(1, grown):.2f}"], [] if is_flat else [f"serve {word} has {more:,} octets more, and the journal {grown:,}"]


def measure(program, connections=CONNECTIONS, seed=1, minutes=MINUTES):
    """Prints the table, and returns its lines and what is wrong."""
    with tempfile.TemporaryDirectory() as folder:
        seen, faults, ledger, took = soak(program, folder, connections, seed, minutes)
    lines = heading(HEAD)
    for word in WORDS:
        cells, missed = row(word, seen)
        lines.append(line(cells))
        faults += missed
    counts = ledger.counts
    said = f"{connections:,} clients in {took:.0f} s, of which {counts['hostile']:,} were hostile and {counts['vanished']:,} vanished. "
    said += f"{len(ledger.told):,} messages were told stored, {len(ledger.deleted):,} copies of them deleted; of {len(ledger.maybe):,} their clients weren't told."
    memory = f"in memory at most {mebibytes(BESIDE_MOST)} more beside {GROWTH_MOST} times what the journal grew by"
    verdict = [f"Wanted: each message that was told stored once for each recipient, nothing else, and {memory}."]
    verdict += [f"Not met: {it}." for it in faults] or ["All met."]
    prose = PROSE.format(accounts=ACCOUNTS, connections=connections, lanes=LANES, hostile=IS_HOSTILE)
    return tell([prose, "", *lines, "", said, "", *[f"{it}  " for it in verdict]]), faults


def main(arguments):
    parser = argparse.ArgumentParser(description=__doc__, formatter_class=argparse.RawDescriptionHelpFormatter)
    parser.add_argument("program", metavar="PROGRAM")
    parser.add_argument("--write", action="store_true", help="write the table into the page")
    parser.add_argument("--connections", metavar="N", type=int, default=CONNECTIONS)
    parser.add_argument("--seed", metavar="N", type=int, default=1)
    parser.add_argument("--minutes", metavar="N", type=int, default=MINUTES)
    found = parser.parse_args(arguments)
    lines, faults = measure(os.path.abspath(found.program), found.connections, found.seed, found.minutes)
    if found.write:
        PART.write(lines)
    return 1 if faults else 0


if __name__ == "__main__":
    sys.exit(main(sys.argv[1:]))
