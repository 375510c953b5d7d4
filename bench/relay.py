"""Measures `dervlask relay` to Postfix's smtp-sink, beside Postfix's own delivery of a queue, where it is installed."""

import os
import subprocess
import sys
import tempfile
import time

import paths
import postfix
from counting import best_of, heading, instructions, line
from journal import domain, journal, queue, settle
from listening import NotStarted
from mailboxes import RATIO_MOST, filled, tell
from smtp import GOODBYE, GREETING, send, stuffed

COUNT, SIZE = 10_000, 1_000
SENDER, RECIPIENT = b"bob@example.com", b"kim@example.net"
OPEN, SETTLED = 10, 1_000_000

# instructions are counted of so many messages, and of twice as many
COUNTED_COUNT = 2_000

# what is taken is held until it is released
HOLDS = """
relayhost = [127.0.0.1]:{sink}
smtpd_data_restrictions = check_client_access static:HOLD
"""

COUNTED = ["queue", "instructions at n", "at 2n", "2n to n", "a message", "an octet"]
OPENED = ["queue", "octets of the journal", "QUIT", "relay", "beyond it"]

PROSE = """
`dervlask relay` sends a queue to smtp-sink: messages of 1 kB, each to one recipient, with ASCII headers and a body beyond ASCII, since smtp-sink
offers 8BITMIME and no SMTPUTF8. *a message*: the instructions that the second n messages take beyond the first, by n; *an octet*: the
same by the message's octets. Each message is asked for and sent, and its recipient settled in the journal, before the next.
""".strip()

OPENING = f"""
What waits costs, and not what ever did: instructions of a session of `dervlask pop` that is `QUIT` alone, which opens the journal, and of
`relay` on the same journal, with {OPEN} recipients who wait, each in an entry of its own, and with others who were settled before. *beyond it*: the difference.
(It is below nothing where the C library joins memory that was given back more often in the other run.)
""".strip()


def letter(number):
    """A message of the queue."""
    return filled(f"From: Bob <bob@example.com>\r\nTo: kim@example.net\r\nSubject: letter {number}\r\n\r\nUne crème brûlée.\r\n".encode(), SIZE)


def write_journal(folder, records):
    path = os.path.join(folder, "mail.journal")
    with open(path, "wb") as file:
        file.write(journal(domain(b"example.org")))
        file.writelines(records)
    return path


def waiting(count):
    return (queue(SENDER, [RECIPIENT], letter(number)) for number in range(count))


def settled(entries, recipients):
    """So many entries with so many recipients each, who are all settled, and those who wait."""
    addresses = [b"kim%d@example.net" % number for number in range(recipients)]
    for number in range(entries):
        yield queue(SENDER, addresses, b"Subject: done\r\n\r\n")
        yield b"".join(settle(number, place) for place in range(recipients))
    yield from waiting(OPEN)


def words_of(program, sink):
    return [program, "relay", f"127.0.0.1:{sink.port}"]


def instructions_of(program, records):
    with tempfile.TemporaryDirectory() as folder, postfix.Sink() as sink:
        write_journal(folder, records)
        return instructions(words_of(program, sink), os.devnull, cwd=folder)


def counted(program, count):
    """The table of counts, and the thresholds that aren't met."""
    idle, once, twice = (instructions_of(program, waiting(it)) for it in (0, count, 2 * count))
    ratio, each = (twice - idle) / (once - idle), (twice - once) / count
    name = f"{count:,} and {2 * count:,} messages of {SIZE // 1000} kB"
    row = [name, f"{once - idle:,}", f"{twice - idle:,}", f"{ratio:.2f}", f"{each:,.0f}", f"{each / SIZE:.2f}"]
    missed = [f"{name}, relay: {ratio:.2f} times the instructions at 2n, more than {RATIO_MOST}"] if ratio > RATIO_MOST else []
    return tell([*heading(COUNTED), line(row)]), missed


def opened_by(program, records):
    """Octets of the journal, instructions of a session that opens it, and of `relay`."""
    with tempfile.TemporaryDirectory() as folder, postfix.Sink() as sink:
        path = write_journal(folder, records)
        size, quits = os.path.getsize(path), os.path.join(folder, "quit")
        with open(quits, "wb") as file:
            file.write(b"QUIT\r\n")
        opening = instructions([program, "pop"], quits, cwd=folder)
        return size, opening, instructions(words_of(program, sink), os.devnull, cwd=folder)


def opened(program, all_settled):
    """The table of openings."""
    shapes = [
        ("none", 0, 0), (f"{all_settled:,}, 100 of each entry", all_settled // 100, 100), (f"{all_settled // 10:,}, one of each entry", all_settled // 10, 1),
    ]
    lines = tell(["", *heading(OPENED)])
    for name, entries, recipients in shapes:
        size, opening, relaying = opened_by(program, settled(entries, recipients))
        lines += tell([line([f"settled: {name}", f"{size:,}", f"{opening:,}", f"{relaying:,}", f"{relaying - opening:,}"])])
    return lines


def dervlask_seconds(program, count):
    with tempfile.TemporaryDirectory() as folder, postfix.Sink() as sink:
        write_journal(folder, waiting(count))
        begun = time.perf_counter()
        said = subprocess.run(words_of(program, sink), cwd=folder, stdin=subprocess.DEVNULL, stdout=subprocess.PIPE).stdout
        took = time.perf_counter() - begun
    if said != b"sent %d, reported 0, left 0\r\n" % count:
        sys.exit(f"relay to smtp-sink gave {said!r}")
    return took


def pieces_of(count):
    """What brings so many messages into the queue of Postfix, a command a piece."""
    yield GREETING
    for number in range(count):
        yield from (b"MAIL FROM:<%s> BODY=8BITMIME\r\n" % SENDER, b"RCPT TO:<%s>\r\n" % RECIPIENT, b"DATA\r\n", stuffed(letter(number)))
    yield GOODBYE


def postfix_seconds(count):
    """From the flush of the queue until smtp-sink has all of it."""
    with tempfile.TemporaryDirectory() as folder, postfix.Sink(count) as sink, postfix.Postfix(folder, HOLDS.format(sink=sink.port)) as rival:
        send(rival.port, pieces_of(count))
        for words in (["postsuper", "-H", "ALL"], ["postqueue", "-f"]):
            begun = time.perf_counter()
            said = rival.ran(*words)
            if said:
                sys.exit(f"{words[0]}: {said}")
        sink.running.wait(timeout=600)
        return time.perf_counter() - begun


def timed(program, count):
    """The table of times, the best of three; a rival that doesn't start has none."""
    servers = [("dervlask", lambda: dervlask_seconds(program, count))]
    if postfix.can_serve():
        servers.append((postfix.version(), lambda: postfix_seconds(count)))
    lines = tell(["", *heading(["from", "time", "messages a second"])])
    for name, take in servers:
        try:
            took = best_of(3, take)
        except NotStarted as error:
            print(error, file=sys.stderr)
            continue
        lines += tell([line([name, f"{took:.2f} s", f"{count / took:,.0f}"])])
    return lines


def measure(program, count=COUNT, counted_count=COUNTED_COUNT, all_settled=SETTLED):
    """Prints the tables as they come, and returns their lines."""
    if not postfix.is_installed():
        print("Postfix isn't here, so relay isn't measured: tools/install_postfix")
        return []
    lines, missed = counted(program, counted_count)
    said = f"Wall clock over loopback, the best of three: {count:,} messages of {SIZE // 1000} kB in the queue, to smtp-sink. dervlask sends over one connection."
    said += "\nPostfix sends over up to 20 at once, from the flush of its queue on. dervlask syncs the record of each recipient that it is done with; Postfix synced each message when it took it."
    times = timed(program, count)
    openings = opened(program, all_settled)
    verdict = [f"Wanted: at most {RATIO_MOST} times the instructions at 2n.", *([f"Not met: {it}." for it in missed] or ["All met."])]
    end = tell(["", *[f"{it}  " for it in verdict]])
    return [PROSE, "", *lines, "", said, *times, "", OPENING, *openings, *end]
