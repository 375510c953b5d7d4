"""Measures a protocol that fetches mail over large mailboxes, beside Dovecot's server where it is installed.

A protocol is a module: `WORD` of the command line, `GOODBYE`, the lines that log in by `MODES`, `commands_of` with the lines of each session
by name, of which `ALL` fetches everything, `hear`, which takes the reply to a line, `MAILBOXES`, and `PROSE`."""

import os
import socket
import sys
import tempfile
import time

import dovecot
import paths
from counting import best_of, heading, instructions, instructions_on, line, mebibytes, milliseconds, peak
from journal import mailbox
from listening import NotStarted
from serve import Serve

ADDRESS, PASSWORD = "ann@example.org", "pw"
LINE = b"The quick brown fox jumps over the lazy dog, and the mail goes on its way now.\r\n"
LINE_MAX = 65_536

RATIO_MOST = 2.2
MEMORY_MOST = 3.0
LINE_MOST = 30.0

# instructions and memory are counted at this part of n, should callgrind take too long
COUNTED_PART = 1

COUNTED = ["mailbox", "session", "instructions at n", "at 2n", "2n to n", "an octet"]
PEAKS = ["mailbox", "journal", "peak", "of the journal"]
TIMED = ["mailbox", "session", "dervlask, legacy", "dervlask, enabled"]

TIMES = """
Wall clock through `serve`, the best of three, one command at a time. A session with all commands comes first and isn't counted, so what
Dovecot keeps in its index and cache is there. Its maildir has the same messages, with the names of files that its own delivery gives.
""".strip()


def message(number, size):
    subject = f"deux cafés au lait et une crème brûlée, nº {number}"
    return filled(f"From: Ann <ann@example.org>\r\nTo: b@example.org\r\nSubject: {subject}\r\n\r\n".encode(), size)


def filled(head, size):
    """What begins so, with so many octets."""
    lines, last = divmod(size - len(head), len(LINE))
    return head + LINE * (lines - 1) + b"y" * (len(LINE) + last - 2) + b"\r\n"


def messages(count, size):
    return [message(number, size) for number in range(count)]


def sessions_of(protocol, count):
    """Name and lines of each session that is counted."""
    yield "opening", [protocol.GOODBYE]
    for name, commands in protocol.commands_of(count).items():
        for mode, login in protocol.MODES.items():
            yield f"{name}, {mode}", [*login, *commands, protocol.GOODBYE]


def write_lines(path, lines):
    with open(path, "wb") as file:
        file.write("".join(it + "\r\n" for it in lines).encode())


def write_journal(folder, count, size):
    """Writes the journal, and returns how many octets it has."""
    with open(os.path.join(folder, "mail.journal"), "wb") as file:
        return file.write(mailbox(messages(count, size), ADDRESS.encode(), PASSWORD.encode()))


class Counted:
    """The figures of one mailbox that need no clock."""

    def __init__(self, program, protocol, count, size, idle):
        words = [program, protocol.WORD]
        with tempfile.TemporaryDirectory() as folder:
            self.journal = write_journal(folder, count, size)
            path, self.counts = os.path.join(folder, "lines"), {}
            for name, lines in sessions_of(protocol, count):
                write_lines(path, lines)
                self.counts[name] = instructions(words, path, cwd=folder)
            write_lines(path, [*protocol.MODES["legacy"], *protocol.commands_of(count)[protocol.ALL], protocol.GOODBYE])
            self.peak = peak(words, path, cwd=folder)
        self.memory = (self.peak - idle) / self.journal
        for name in self.counts:
            if name != "opening":
                self.counts[name] -= self.counts["opening"]


def count_rows(name, once, twice):
    """The rows of a mailbox, and the thresholds that aren't met."""
    rows, missed = [], []
    for session, count in once.counts.items():
        ratio = twice.counts[session] / count
        figures = [f"{count:,}", f"{twice.counts[session]:,}", f"{ratio:.2f}", f"{count / once.journal:.2f}"]
        rows.append([name if not rows else "", session, *figures])
        if ratio > RATIO_MOST:
            missed.append(f"{name}, {session}: {ratio:.2f} times the instructions at 2n, more than {RATIO_MOST}")
    for it in (once, twice):
        if it.memory > MEMORY_MOST:
            missed.append(f"{name}: {it.memory:.2f} times the journal of {it.journal:,} octets in memory")
    return rows, missed


def peak_rows(name, once, twice):
    for it in (once, twice):
        yield [name if it is once else "", f"{it.journal:,}", mebibytes(it.peak), f"{it.memory:.2f}"]


def talk(protocol, port, lines):
    """Seconds of one session: each line is sent when the reply to the one before it has come."""
    begun = time.perf_counter()
    with socket.create_connection(("127.0.0.1", port), timeout=600) as connection:
        connection.setsockopt(socket.IPPROTO_TCP, socket.TCP_NODELAY, 1)
        hear(connection, lambda last: last.endswith(b"\r\n"))
        for text in lines:
            connection.sendall(text.encode() + b"\r\n")
            protocol.hear(connection, text)
    return time.perf_counter() - begun


def hear(connection, is_whole, refused=()):
    """Takes a reply, of which the last octets tell that it is whole."""
    last = b""
    while not is_whole(last):
        octets = connection.recv(1 << 18)
        last = (last + octets)[-4096:]
        if not octets or any(word in octets[:80] for word in refused):
            sys.exit(f"a session over loopback was answered {octets[:80]!r}")


def warm(protocol, port, before, count):
    """A session with all commands. It leaves what a server keeps for those that come."""
    commands = protocol.commands_of(count).values()
    talk(protocol, port, [*before, *(text for lines in commands for text in lines), protocol.GOODBYE])


def times_of(protocol, port, before, count):
    """The best of three of each session by name, and of one of login and goodbye."""
    sessions = {"login": [], **protocol.commands_of(count)}
    warm(protocol, port, before, count)
    return {name: best_of(3, lambda: talk(protocol, port, [*before, *lines, protocol.GOODBYE])) for name, lines in sessions.items()}


def dovecot_times(protocol, count, size):
    """The rival's times, or none where it doesn't start."""
    with tempfile.TemporaryDirectory() as folder:
        try:
            with dovecot.Dovecot(folder, messages(count, size), PASSWORD, protocol.WORD) as rival:
                return times_of(protocol, rival.port, protocol.MODES["legacy"], count)
        except NotStarted as error:
            print(error, file=sys.stderr)
            return {}


def time_rows(program, protocol, name, count, size):
    with tempfile.TemporaryDirectory() as folder:
        write_journal(folder, count, size)
        with Serve(program, folder, protocol.WORD) as serving:
            columns = [times_of(protocol, serving.port, login, count) for login in protocol.MODES.values()]
    if dovecot.is_installed(protocol.WORD):
        columns.append(dovecot_times(protocol, count, size))
    for session in columns[0]:
        times = (milliseconds(column[session]) if column else "not started" for column in columns)
        yield [name if session == "login" else "", session, *times]


def long_line(program, protocol):
    """Instructions for a line of 65,536 octets in one piece, and octet by octet; those of a run without octets beside them."""
    octets, words = b"x" * (LINE_MAX - 2) + b"\r\n", [program, protocol.WORD]
    with tempfile.TemporaryDirectory() as folder:
        path = os.path.join(folder, "line")
        with open(path, "wb") as file:
            file.write(octets)
        idle, whole = (instructions(words, it, cwd=folder) for it in (os.devnull, path))
        # a packet is one read
        ours, theirs = socket.socketpair(socket.AF_UNIX, socket.SOCK_SEQPACKET)
        with ours, theirs:
            pid = os.fork()
            if pid == 0:
                theirs.close()
                for octet in octets:
                    ours.send(bytes([octet]))
                os._exit(0)
            ours.close()
            cut = instructions_on(words, theirs, cwd=folder)
            os.waitpid(pid, 0)
    return idle, whole, cut


def tell(lines):
    print("\n".join(lines), flush=True)
    return lines


def counted(program, protocol):
    """The tables of counts and of memory, and the thresholds that aren't met."""
    lines, peaks, missed = tell(heading(COUNTED)), heading(PEAKS), []
    with tempfile.TemporaryDirectory() as folder:
        idle = peak([program, protocol.WORD], os.devnull, cwd=folder)
    for n, size in protocol.MAILBOXES:
        count = n // COUNTED_PART
        name = f"{count:,} and {2 * count:,} messages of {size / 1000:g} kB"
        once, twice = (Counted(program, protocol, it, size, idle) for it in (count, 2 * count))
        rows, more = count_rows(name, once, twice)
        lines += tell([line(it) for it in rows])
        peaks += [line(it) for it in peak_rows(name, once, twice)]
        missed += more
    return [*lines, *tell(["", *peaks])], missed


def timed(program, protocol):
    """The table of times."""
    rival = [dovecot.version()] if dovecot.is_installed(protocol.WORD) else []
    if not rival:
        print("Dovecot isn't here, so it isn't measured: bench/install_dovecot")
    lines = tell(["", *heading([*TIMED, *rival])])
    for count, size in protocol.MAILBOXES:
        name = f"{count:,} messages of {size / 1000:g} kB"
        lines += tell([line(it) for it in time_rows(program, protocol, name, count, size)])
    return lines


def measure(program, protocol):
    """Prints the tables as they come, and returns their lines."""
    lines, missed = counted(program, protocol)
    times = timed(program, protocol)
    idle, whole, cut = long_line(program, protocol)
    said = (
        f"A command line of 65,536 octets takes {whole:,} instructions in one piece and {cut:,} octet by octet, "
        f"{cut / whole:.1f} times as many (a run without octets takes {idle:,})."
    )
    if cut / whole > LINE_MOST:
        missed.append(f"the line octet by octet: {cut / whole:.1f} times the instructions, more than {LINE_MOST:.0f}")
    wanted = (
        f"Wanted: at most {RATIO_MOST} times the instructions at 2n, {MEMORY_MOST:.0f} times the journal in memory, "
        f"{LINE_MOST:.0f} times the instructions for the line octet by octet."
    )
    end = ["", said, "", *[f"{it}  " for it in [wanted, *([f"Not met: {it}." for it in missed] or ["All met."])]]]
    tell(end)
    return [protocol.PROSE, "", *lines, "", TIMES, *times, *end]
