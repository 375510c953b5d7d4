"""Next servers of `relay`, which keep what they are told while their block runs, and the command itself."""

import os
import re
import socket
import struct

from listening import Listening
from oracle.pop_store import open_journal
from support.harness import SECONDS
from support.talk import JOURNAL, read_journal

EIGHT, UTF8 = "8BITMIME", "SMTPUTF8"
BOTH = (EIGHT, UTF8)
GREETING = b"(a client comes)"
REPLIES = {
    GREETING: b"220 next.example ESMTP\r\n", b"": b"500 5.5.2 what\r\n", b"MAIL FROM:": b"250 2.1.0 ok\r\n", b"RCPT TO:": b"250 2.1.5 ok\r\n",
    b"DATA": b"354 go on\r\n", b".": b"250 2.0.0 taken\r\n", b"RSET": b"250 2.0.0 ok\r\n", b"QUIT": b"221 2.0.0 bye\r\n",
}
# in a reply's place: the server goes, or goes so that the other side is told by a reset
HANGS_UP, RESETS = b"", None
# how a socket is closed that tells the other side so by a reset
RESET = struct.pack("ii", 1, 0)
# the last line of a reply
WHOLE = re.compile(rb"(?:^|\n)[^-\r\n]{0,3}(?: [^\r\n]*)?\r\n$")
ENVELOPE = re.compile(rb"(?:MAIL FROM|RCPT TO):<(.*)>((?: [^ >]+)*)\r\n")


def ehlo_reply(offers):
    lines = ["next.example", "SIZE 100000000", *offers, "ENHANCEDSTATUSCODES"]
    return "".join(f"250{' ' if line == lines[-1] else '-'}{line}\r\n" for line in lines).encode()


class Letter:
    """A message as a server was told it: path, parameters and recipients of its envelope, and its octets."""

    def __init__(self, path, parameters, recipients=(), octets=b""):
        self.path, self.parameters, self.recipients, self.octets = path, sorted(parameters), list(recipients), octets

    def told(self):
        return self.path, self.parameters, self.recipients, self.octets


def read_envelope(line):
    """Address and parameters of a MAIL or a RCPT."""
    found = ENVELOPE.fullmatch(line)
    return (found[1].decode(), found[2].decode().split()) if found else (repr(line), [])


class NextServer(Listening):
    """Takes all mail. `sessions` has the lines of each connection, without those of messages, and `letters` what was taken.

    `changed` has other replies than the usual ones, by the beginnings of the lines that they answer: GREETING, or `.` for the end of a
    message. A reply that has no end is the last one, and then it goes."""

    def __init__(self, offers=BOTH, changed=(), host="127.0.0.1"):
        super().__init__(host=host)
        self.replies = {**REPLIES, b"EHLO ": ehlo_reply(offers), **dict(changed)}
        self.sessions, self.letters, self.letter = [], [], None

    def start(self, connection):
        self.sessions.append([])
        connection.settimeout(SECONDS)
        with connection.makefile("rwb") as stream:
            line = GREETING
            while self.goes_on(connection, stream, line):
                line = stream.readline()
                if not line:
                    return
                self.sessions[-1].append(line)

    def reply_to(self, line):
        return self.replies[max((it for it in self.replies if line.startswith(it)), key=len)]

    def goes_on(self, connection, stream, line):
        """Whether the session goes on behind the reply to this line, and behind the message that it brings."""
        reply = self.reply_to(line)
        if not reply:
            if reply is RESETS:
                connection.setsockopt(socket.SOL_SOCKET, socket.SO_LINGER, RESET)
            return False
        self.keep(line, reply)
        stream.write(reply)
        stream.flush()
        if line == b"DATA\r\n" and reply.startswith(b"3"):
            self.letter.octets = data_of(stream)
            return self.goes_on(connection, stream, b".\r\n")
        return line != b"QUIT\r\n" and WHOLE.search(reply) is not None

    def keep(self, line, reply):
        """Keeps what this line says, if the reply takes it."""
        if not reply.startswith(b"2"):
            return
        if line.startswith(b"MAIL FROM:"):
            self.letter = Letter(*read_envelope(line))
        elif line.startswith(b"RCPT TO:"):
            self.letter.recipients.append(read_envelope(line)[0])
        elif line == b".\r\n":
            self.letters.append(self.letter)


def data_of(stream):
    """The octets of a message, without the dots that were put before its lines."""
    lines = []
    while (line := stream.readline()) not in (b".\r\n", b""):
        lines.append(line.removeprefix(b"."))
    return b"".join(lines)


def relay_to(program, folder, place, **how):
    """Status and what was given by `relay` to this place, in a folder that has a journal."""
    return program.run([b"relay", place.encode()], b"", cwd=folder, **how)


def relay(program, folder, server, **how):
    """The same to a server of this machine."""
    return relay_to(program, folder, f"127.0.0.1:{server.port}", **how)


def told(sent, reported, left):
    """The answer with these numbers."""
    return 8 if left else 0, b"sent %d, reported %d, left %d\r\n" % (sent, reported, left)


def store_in(folder):
    return open_journal(read_journal(os.path.join(folder, JOURNAL)))[0]


def queue_in(folder):
    """Path, the addresses that wait, and octets of each entry that waits there."""
    return store_in(folder).queue()
