"""What `dervlask pop` has to answer, told anew from the rules. Nothing here was taken from the program.

The journal is read as pop_store.py says. A session answers lines that end with CRLF. A line is too long as soon as its octet
65,537 is there. One space stands behind the keyword, and the rest of the line is the argument. State comes first, then the
arguments, then the rest. A login is that of the first account whose mailbox the name names, with its password. Numbers are those of
the messages at login; one that is marked as deleted has none. QUIT after a login expunges the marked messages in their order. A first
line that begins an HTTP request is a syntax error and ends the session."""

import re

from journal import expunge
from oracle import trees
from oracle.addresses import Uncertain
from oracle.pop_store import Unopened, open_journal

LINE_MAX = 65_536
HTTP_METHODS = b"CONNECT", b"GET", b"HEAD", b"OPTIONS", b"POST", b"PUT"


class Message:
    """A message of the maildrop: its number in the store, its UID, what is shown of it, and whether it is marked as deleted."""

    def __init__(self, place, uid, octets):
        self.place, self.uid, self.octets, self.is_deleted = place, uid, octets, False


class Session:
    """One session: replies in order, each with the count of client octets behind which it is due, and the records that it brings."""

    def __init__(self, store):
        self.store = store
        self.is_first = True
        self.is_enabled = False
        self.name = None
        self.shown = None
        self.has_ended = False
        self.records = b""
        self.due = [(0, b"+OK ready\r\n")]

    def feed(self, octets):
        """Answers all octets of the client, from the first one on."""
        at = 0
        while not self.has_ended:
            end = octets.find(b"\r\n", at, at + LINE_MAX)
            if end < 0:
                if len(octets) - at > LINE_MAX:
                    self.has_ended = True
                    self.due.append((at + LINE_MAX + 1, b"-ERR line too long\r\n"))
                return
            self.due.append((end + 2, self.answer(octets[at:end])))
            at = end + 2

    def answer(self, line):
        keyword, space, argument = line.partition(b" ")
        was_first, self.is_first = self.is_first, False
        if was_first and space and keyword in HTTP_METHODS:
            self.has_ended = True
            return b"-ERR syntax\r\n"
        keyword = keyword.upper()
        if keyword not in COMMANDS:
            return b"-ERR syntax\r\n"
        states, answered = COMMANDS[keyword]
        if ("A" if self.shown is None else "T") not in states:
            return b"-ERR out of order\r\n"
        if not is_argument(keyword, argument if space else None):
            return b"-ERR syntax\r\n"
        return answered(self, argument)

    def user(self, argument):
        self.name = argument
        return b"+OK\r\n"

    def utf8(self, _):
        self.is_enabled = True
        return b"+OK\r\n"

    def quit(self, _):
        self.has_ended = True
        self.records = b"".join(expunge(it.place) for it in self.shown or [] if it.is_deleted)
        return b"+OK bye\r\n"

    def capabilities(self, _):
        return b"+OK\r\nUTF8 USER\r\nTOP\r\nUIDL\r\nUSER\r\n.\r\n"

    def nothing(self, _):
        return b"+OK\r\n"

    def password(self, argument):
        if self.name is None:
            return b"-ERR out of order\r\n"
        number, self.name = self.store.login(self.name, argument), None
        if number is None:
            return b"-ERR no\r\n"
        form = (lambda octets: octets) if self.is_enabled else trees.surrogate
        self.shown = [Message(place, uid, form(octets)) for place, uid, octets in self.store.inbox(number)]
        return b"+OK\r\n"

    def left(self):
        """The messages that aren't marked, with their numbers."""
        return [(number, it) for number, it in enumerate(self.shown, 1) if not it.is_deleted]

    def stat(self, _):
        return b"+OK %d %d\r\n" % (len(self.left()), sum(len(it.octets) for _, it in self.left()))

    def list(self, argument):
        return self.listing(argument, lambda it: len(it.octets))

    def uidl(self, argument):
        return self.listing(argument, lambda it: it.uid)

    def listing(self, argument, told):
        if not argument:
            return b"+OK\r\n" + b"".join(b"%d %d\r\n" % (number, told(it)) for number, it in self.left()) + b".\r\n"
        return self.of_message(argument, lambda it: b"+OK %d %d\r\n" % (number_of(argument), told(it)))

    def retr(self, argument):
        return self.of_message(argument, lambda it: b"+OK\r\n" + stuffed(it.octets) + b".\r\n")

    def top(self, argument):
        digits, _, lines = argument.partition(b" ")
        return self.of_message(digits, lambda it: b"+OK\r\n" + stuffed(first_lines(it.octets, number_of(lines))) + b".\r\n")

    def dele(self, argument):
        def mark(it):
            it.is_deleted = True
            return b"+OK\r\n"

        return self.of_message(argument, mark)

    def rset(self, _):
        for it in self.shown:
            it.is_deleted = False
        return b"+OK\r\n"

    def of_message(self, digits, answer):
        """What this answers for the message of a number, if it is there and isn't marked."""
        number = number_of(digits)
        if not 0 < number <= len(self.shown) or self.shown[number - 1].is_deleted:
            return b"-ERR no such message\r\n"
        return answer(self.shown[number - 1])


def number_of(digits):
    """The number that digits write; one of many digits is as good as any other that is too large."""
    # Python reads no numbers of thousands of digits
    digits = digits.lstrip(b"0")
    return int(digits or b"0") if len(digits) < 12 else 10**12


def first_lines(octets, count):
    """The lines up to the first empty one, and so many behind it; where there is no empty line, all of them."""
    lines = re.findall(rb"(?s).*?\r\n|.+\Z", octets)
    end = lines.index(b"\r\n") + 1 if b"\r\n" in lines else len(lines)
    return b"".join(lines[: end + count])


# the states of each command, A before the login and T behind it, and what answers it
COMMANDS = {
    b"USER": ("A", Session.user),
    b"PASS": ("A", Session.password),
    b"UTF8": ("A", Session.utf8),
    b"STAT": ("T", Session.stat),
    b"LIST": ("T", Session.list),
    b"RETR": ("T", Session.retr),
    b"UIDL": ("T", Session.uidl),
    b"TOP": ("T", Session.top),
    b"DELE": ("T", Session.dele),
    b"RSET": ("T", Session.rset),
    b"NOOP": ("T", Session.nothing),
    b"CAPA": ("AT", Session.capabilities),
    b"QUIT": ("AT", Session.quit),
}


def is_argument(keyword, argument):
    """Whether the keyword takes this argument; None is none at all."""
    if keyword in (b"UTF8", b"STAT", b"QUIT", b"CAPA", b"RSET", b"NOOP"):
        return argument is None
    if keyword == b"USER":
        return bool(argument)
    if keyword == b"PASS":
        return argument is not None
    if argument is None:
        return keyword in (b"LIST", b"UIDL")
    return re.fullmatch(rb"[0-9]+ [0-9]+" if keyword == b"TOP" else rb"[0-9]+", argument) is not None


def stuffed(octets):
    """The octets with a dot more before each line that begins with one, and with a CRLF behind a last line that lacks it."""
    if octets and not octets.endswith(b"\r\n"):
        octets += b"\r\n"
    return re.sub(rb"(\A|\r\n)\.", rb"\1..", octets)


def outcome(journal, octets):
    """The exit status, what is given as (count, reply), and the journal behind the session."""
    try:
        store, after = open_journal(journal)
    except Unopened as error:
        status, line = error.answer
        return status, [(0, line)], journal
    session = Session(store)
    session.feed(octets)
    return 0, session.due, after + session.records


def certain_outcome(journal, octets):
    """The same, or None where the oracle is uncertain about a name or a domain."""
    try:
        return outcome(journal, octets)
    except Uncertain:
        return None
