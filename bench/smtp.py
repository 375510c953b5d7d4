"""Measures `dervlask smtp` over one long session, beside Postfix's smtp-sink and Postfix where they are installed."""

import os
import socket
import sys
import tempfile
import time

import paths
import postfix
from bridge import Bridge
from counting import heading, instructions, line, mebibytes, peak
from journal import mailbox
from listening import NotStarted
from mailboxes import ADDRESS, PASSWORD, RATIO_MOST, message, tell

COUNT, SIZE = 20_000, 1_000

# instructions are counted of so many messages, and of twice as many
COUNTED_COUNT = 2_000

ENVELOPE = [b"MAIL FROM:<b@example.com> SMTPUTF8\r\n", b"RCPT TO:<ann@example.org>\r\n", b"DATA\r\n"]
GREETING, GOODBYE = b"EHLO client.example\r\n", b"QUIT\r\n"

COUNTED = ["session", "instructions at n", "at 2n", "2n to n", "a message", "an octet"]
PEAKS = ["session", "octets of the messages", "peak", "of the messages"]

PROSE = """
`dervlask smtp`, one session that brings messages of 1 kB to one account, each with one non-ASCII Subject, in a MAIL, a RCPT and a
DATA of its own. *a message*: the instructions that the second n messages take beyond the first, by n; *an octet*: the same by
the message's octets. *peak*: the greatest resident set; *of the messages*: the same less that of a session without mail, by the octets
of the messages, which the store keeps in memory too.

A message is answered `250` once its record was written to the journal and synced to the disk.
""".strip()


def stuffed(octets):
    """A message as it is sent. No line of it begins with a dot."""
    return octets + b".\r\n"


def pieces_of(count, size):
    """What the client sends, a command a piece."""
    yield GREETING
    for number in range(count):
        yield from ENVELOPE
        yield stuffed(message(number, size))
    yield GOODBYE


def write_session(folder, count):
    """Writes the journal of one account and the session's octets. Where these are."""
    with open(os.path.join(folder, "mail.journal"), "wb") as file:
        file.write(mailbox([], ADDRESS.encode(), PASSWORD.encode()))
    path = os.path.join(folder, "session")
    with open(path, "wb") as file:
        file.writelines(pieces_of(count, SIZE))
    return path


def instructions_of(program, count):
    with tempfile.TemporaryDirectory() as folder:
        return instructions([program, "smtp"], write_session(folder, count), cwd=folder)


def peak_of(program, count):
    with tempfile.TemporaryDirectory() as folder:
        return peak([program, "smtp"], write_session(folder, count), cwd=folder)


def counted(program, count):
    """The tables of counts and of memory, and the thresholds that aren't met."""
    idle, once, twice = (instructions_of(program, it) for it in (0, count, 2 * count))
    ratio, each = (twice - idle) / (once - idle), (twice - once) / count
    name = f"{count:,} and {2 * count:,} messages of {SIZE // 1000} kB"
    row = [name, f"{once - idle:,}", f"{twice - idle:,}", f"{ratio:.2f}", f"{each:,.0f}", f"{each / SIZE:.2f}"]
    lines, none = [*heading(COUNTED), line(row), "", *heading(PEAKS)], peak_of(program, 0)
    for number in (count, 2 * count):
        most, octets = peak_of(program, number), number * SIZE
        lines.append(line([f"{number:,} messages of {SIZE // 1000} kB", f"{octets:,}", mebibytes(most), f"{(most - none) / octets:.2f}"]))
    missed = [f"{name}, SMTP: {ratio:.2f} times the instructions at 2n, more than {RATIO_MOST}"] if ratio > RATIO_MOST else []
    return tell(lines), missed


def hear(connection, code):
    """Takes a reply of this code."""
    last = b""
    while not (last.endswith(b"\r\n") and last.splitlines()[-1][3:4] == b" "):
        octets = connection.recv(1 << 16)
        last += octets
        if not octets or last[:1] not in b"23":
            sys.exit(f"a session over loopback was answered {last[:80]!r}")
    if not last.startswith(code):
        sys.exit(f"a session over loopback was answered {last[:80]!r}, not {code.decode()}")


def send(port, pieces):
    """Seconds of one session: each piece is sent when the reply to the one before it has come."""
    begun = time.perf_counter()
    with socket.create_connection(("127.0.0.1", port), timeout=600) as connection:
        connection.setsockopt(socket.IPPROTO_TCP, socket.TCP_NODELAY, 1)
        hear(connection, b"220")
        for octets in pieces:
            connection.sendall(octets)
            hear(connection, {b"DATA\r\n": b"354", GOODBYE: b"221"}.get(octets, b"250"))
    return time.perf_counter() - begun


def dervlask_seconds(program, pieces):
    with tempfile.TemporaryDirectory() as folder:
        write_session(folder, 0)
        with Bridge(program, folder, word="smtp") as bridge:
            return send(bridge.port, pieces)


def sink_seconds(pieces):
    with postfix.Sink() as rival:
        return send(rival.port, pieces)


def postfix_seconds(pieces):
    with tempfile.TemporaryDirectory() as folder, postfix.Postfix(folder) as rival:
        return send(rival.port, pieces)


def timed(program, count):
    """The table of times, the best of three; a rival that doesn't start has none."""
    pieces = list(pieces_of(count, SIZE))
    servers = [("dervlask", lambda: dervlask_seconds(program, pieces))]
    if postfix.is_installed():
        servers.append(("smtp-sink", lambda: sink_seconds(pieces)))
    else:
        print("Postfix isn't here, so it isn't measured: tools/install_postfix")
    if postfix.can_serve():
        servers.append((postfix.version(), lambda: postfix_seconds(pieces)))
    lines = tell(["", *heading(["server", "time", "messages a second"])])
    for name, take in servers:
        try:
            took = min(take() for _ in range(3))
        except NotStarted as error:
            print(error, file=sys.stderr)
            continue
        lines += tell([line([name, f"{took:.2f} s", f"{count / took:,.0f}"])])
    return lines


def measure(program, count=COUNT, counted_count=COUNTED_COUNT):
    """Prints the tables as they come, and returns their lines."""
    lines, missed = counted(program, counted_count)
    said = f"Wall clock over loopback, the best of three: {count:,} messages of {SIZE // 1000} kB over one connection, one command at a time."
    said += "\nPostfix and dervlask sync each message to the disk before they answer. Postfix throws it away behind its queue, and smtp-sink at once."
    times = timed(program, count)
    verdict = [f"Wanted: at most {RATIO_MOST} times the instructions at 2n.", *([f"Not met: {it}." for it in missed] or ["All met."])]
    end = tell(["", *[f"{it}  " for it in verdict]])
    return [PROSE, "", *lines, "", said, *times, *end]
