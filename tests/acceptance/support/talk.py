"""Runs of the commands that serve a session, each in a folder of its own, which has the journal."""

import os
import socket
import subprocess
import tempfile
import threading

from support.harness import CUT, SECONDS, differs, show

JOURNAL = "mail.journal"
POP, SMTP, IMAP = b"pop", b"smtp", b"imap"

# octets of one packet, which the program takes at once
PACKET = 512


class Talk:
    """A session whose standard input comes in the pieces that are sent: each packet is one read of the program."""

    def __init__(self, program, journal, word=POP):
        self.program = program
        self.folder = tempfile.TemporaryDirectory(dir=program.folder.name)
        self.path = place_journal(self.folder.name, journal)
        self.socket, theirs = socket.socketpair(socket.AF_UNIX, socket.SOCK_SEQPACKET)
        self.socket.settimeout(SECONDS)
        how = {"stdin": theirs, "stdout": subprocess.PIPE, "stderr": subprocess.STDOUT, "bufsize": 0}
        with theirs:
            self.running = subprocess.Popen([program.path, word], cwd=self.folder.name, **how)
        self.heard, self.is_over, self.changed = bytearray(), False, threading.Condition()
        self.thread = threading.Thread(target=self.listen, daemon=True)
        self.thread.start()

    def listen(self):
        while True:
            octets = self.running.stdout.read(1 << 16)
            with self.changed:
                self.heard += octets
                self.is_over = not octets
                self.changed.notify()
            if not octets:
                return

    def send(self, piece):
        """Sends the piece, or a part of it where the program ends before."""
        try:
            for at in range(0, len(piece), PACKET):
                self.socket.send(piece[at : at + PACKET])
        except (BrokenPipeError, ConnectionResetError):
            pass

    def wait(self, count):
        """What was heard, but for what standard error says of a cut, once it has so many octets, or the program ended, or it took too long."""
        with self.changed:
            is_there = self.changed.wait_for(lambda: len(self.heard) >= count or self.is_over, timeout=self.program.patience)
            if not is_there:
                # one that is late once may be late always, and there are thousands of replies
                self.program.patience = 0.2
            return CUT.sub(b"", bytes(self.heard))

    def end(self):
        """Ends the input. Status, what was heard, but for what standard error says of a cut, and the journal then."""
        try:
            self.socket.shutdown(socket.SHUT_WR)
        except OSError:
            pass
        try:
            status = self.running.wait(timeout=SECONDS)
        except subprocess.TimeoutExpired:
            self.running.kill()
            status = f"still running after {SECONDS} s"
        self.thread.join()
        self.socket.close()
        self.running.stdout.close()
        journal = read_journal(self.path)
        self.folder.cleanup()
        return status, CUT.sub(b"", bytes(self.heard)), journal


def place_journal(folder, journal):
    path = os.path.join(folder, JOURNAL)
    if journal is not None:
        with open(path, "wb") as file:
            file.write(journal)
    return path


def read_journal(path):
    """The journal, or None where there is none."""
    if not os.path.exists(path):
        return None
    with open(path, "rb") as file:
        return file.read()


def run_whole(program, journal, octets, word=POP, **how):
    """Status, what was given, and the journal then; the standard input is a file."""
    with tempfile.TemporaryDirectory(dir=program.folder.name) as folder:
        path = place_journal(folder, journal)
        status, given = program.run([word], octets, cwd=folder, **how)
        return status, given, read_journal(path)


def as_it_is(octets):
    return octets


def run_cut(program, journal, pieces, due=(), word=POP, shown=as_it_is):
    """The same for an input in pieces, and what is wrong with the replies on the way, which are compared as they are `shown`.

    `due` has replies, each with the count of octets behind which it has to come without further input."""
    talk, sent, faults, due = Talk(program, journal, word), 0, [], list(due)
    wanted = b""
    for piece in [b"", *pieces]:
        talk.send(piece)
        sent += len(piece)
        while due and due[0][0] <= sent:
            wanted += due.pop(0)[1]
        heard = shown(talk.wait(len(wanted)))
        if heard != wanted and not faults:
            faults = [f"behind {sent} octets {fault}" for fault in differs("replies", heard, wanted)]
            break
    return *talk.end(), faults


def cut(octets, sizes):
    """The octets in pieces of these sizes, of which the last one goes on; whole where there is none."""
    pieces, at = [], 0
    while at < len(octets):
        size = sizes[min(len(pieces), len(sizes) - 1)] if sizes else len(octets)
        pieces.append(octets[at : at + size])
        at += size
    return pieces


def cut_at(octets, places):
    """The octets cut at these places."""
    marks = sorted({0, len(octets), *(place for place in places if place < len(octets))})
    return [octets[begin:end] for begin, end in zip(marks, marks[1:])]


def joined(due):
    return b"".join(reply for _, reply in due)


def answer_faults(found, wanted):
    """What is wrong with status, octets and journal."""
    parts = zip(("status", "octets", "journal"), found, wanted)
    return [fault for what, one, other in parts for fault in differs(what, one, other)]


def all_cuts(program, journal, octets, wanted, due, sizes, word=POP, seen=as_it_is, shown=as_it_is):
    """What is wrong with a session that comes whole, in pieces of these sizes, and in those that end where a reply is due.

    The journals that are found are compared as they are `seen`, and the replies as they are `shown`."""

    def faults_of(status, given, after):
        return answer_faults((status, shown(given), seen(after)), wanted)

    faults = [f"whole: {fault}" for fault in faults_of(*run_whole(program, journal, octets, word))]
    for how, pieces in (("cut", cut(octets, sizes)), ("command by command", cut_at(octets, [count for count, _ in due]))):
        *found, on_the_way = run_cut(program, journal, pieces, due, word, shown)
        faults += [f"{how}: {fault}" for fault in on_the_way or faults_of(*found)]
    return faults and [*faults, f"input: {show(octets)}", f"sizes: {sizes}"]
