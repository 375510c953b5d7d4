"""What `dervlask smtp` has to answer, told anew from the rules. Nothing here was taken from the program.

The journal is read as pop_store.py says. Lines end with CRLF; one is too long as soon as its octet 65,537 is there. White is
space and tab; white at a line's ends is passed over. The first word is the verb. Data end with the line `.`, and a dot that
begins another line is taken away. What is kept is a Return-Path (for accounts alone), a Received and the data. Data whose own header
has 100 fields Received are refused. A first line that begins an HTTP request ends the session."""

import re
import time

from oracle import trees
from oracle.addresses import Uncertain
from oracle.blocks import Refused, is_sound
from oracle.pop_store import Unopened, open_journal
from oracle.records import message, queue
from oracle.store_names import is_same_domain, is_same_mailbox, read_address

LINE_MAX = 65_536
RECIPIENTS_MAX = 100
CLIENT = re.compile(rb"[A-Za-z0-9._:\[\]-]{1,255}")
DIGITS = re.compile(rb"[0-9]+")
HTTP_REQUEST = re.compile(rb"(?:CONNECT|GET|HEAD|OPTIONS|POST|PUT) ")
RECEIVED = re.compile(rb"(?im)^received[ \t]*:")
RECEIVED_MAX = 99

OK = b"250 2.0.0 ok"
BAD_ARGUMENT = b"501 5.5.4 bad argument"
OUT_OF_ORDER = b"503 5.5.1 out of order"
NEEDS_SMTPUTF8 = b"553 5.6.7 address needs SMTPUTF8"
TOO_LARGE = b"552 5.3.4 too large"
RECIPIENT_OK = b"250 2.1.5 ok"


class Session:
    """One session: reply lines in order, each with the count of client octets behind which it is due, and the records that it
    brings."""

    def __init__(self, store, seconds, message_max):
        self.store, self.seconds, self.message_max = store, seconds, message_max
        self.name = store.domains[0] if store.domains else b"localhost"
        self.client, self.is_extended = None, False
        self.envelope = None
        self.has_ended = self.takes_data = False
        self.is_first = True
        self.records = []
        self.due = [(0, b"220 " + self.name + b" ESMTP\r\n")]

    def feed(self, octets):
        at = 0
        while not self.has_ended and at is not None:
            at = self.data(octets, at) if self.takes_data else self.line(octets, at)

    def line(self, octets, at):
        """Answers the line at this place, and tells where the next one is."""
        end = octets.find(b"\r\n", at, at + LINE_MAX)
        if end < 0:
            if len(octets) - at > LINE_MAX:
                self.has_ended = True
                self.reply(at + LINE_MAX + 1, b"500 5.5.2 line too long")
            return None
        is_first, self.is_first = self.is_first, False
        if is_first and HTTP_REQUEST.match(octets[at:end]):
            self.has_ended = True
            self.reply(end + 2, b"500 5.5.2 syntax error")
            return None
        lines = self.answer(octets[at:end].strip(b" \t"))
        self.reply(end + 2, *lines)
        return end + 2

    def reply(self, count, *lines):
        self.due.append((count, b"".join(line + b"\r\n" for line in lines)))

    def answer(self, text):
        verb, rest = re.fullmatch(rb"(?s)([^ \t]*)[ \t]*(.*)", text).groups()
        known = VERBS.get(verb.upper())
        return known(self, rest) if known else [b"500 5.5.2 unknown command"]

    def ehlo(self, rest):
        if not self.greeted(rest, True):
            return [BAD_ARGUMENT]
        offers = [b"8BITMIME", b"SIZE %d" % self.message_max, b"SMTPUTF8"]
        return [b"250-" + self.name, *(b"250-" + offer for offer in offers), b"250 ENHANCEDSTATUSCODES"]

    def helo(self, rest):
        return [b"250 " + self.name] if self.greeted(rest, False) else [BAD_ARGUMENT]

    def greeted(self, name, is_extended):
        if not CLIENT.fullmatch(name):
            return False
        self.client, self.is_extended, self.envelope = name, is_extended, None
        return True

    def mail(self, rest):
        if self.client is None or self.envelope:
            return [OUT_OF_ORDER]
        path, words = path_behind(b"FROM:", rest)
        found = [word.partition(b"=") for word in words]
        keywords = [keyword.upper() for keyword, _, _ in found]
        if path is None or len(set(keywords)) < len(keywords) or any(is_malformed(*it) for it in found):
            return [BAD_ARGUMENT]
        if not set(keywords) <= {b"SIZE", b"BODY", b"SMTPUTF8"}:
            return [b"555 5.5.4 unknown parameter"]
        is_utf8_mail = b"SMTPUTF8" in keywords
        if not is_utf8_mail and not path.isascii():
            return [NEEDS_SMTPUTF8]
        if any(keyword.upper() == b"SIZE" and number_of(value) > self.message_max for keyword, _, value in found):
            return [TOO_LARGE]
        self.envelope = Envelope(path, is_utf8_mail)
        return [b"250 2.1.0 ok"]

    def rcpt(self, rest):
        if not self.envelope:
            return [OUT_OF_ORDER]
        text, words = path_behind(b"TO:", rest)
        if not text or words:
            return [BAD_ARGUMENT]
        if not self.envelope.is_utf8 and not text.isascii():
            return [NEEDS_SMTPUTF8]
        address = read_address(text)
        recipient = self.recipient(text, address)
        if recipient is None:
            return [b"550 5.1.1 no such mailbox"]
        if not any(is_same_recipient(recipient, other) for other in self.envelope.recipients):
            if len(self.envelope.recipients) == RECIPIENTS_MAX:
                return [b"452 4.5.3 too many recipients"]
            self.envelope.recipients.append(recipient)
        return [RECIPIENT_OK]

    def recipient(self, text, address):
        """The number of an account, or an address elsewhere with its text; None where a local domain has no such account."""
        if not any(is_same_domain(address[1], domain) for domain in self.store.domains):
            return text, address
        return next((number for number, (own, _) in enumerate(self.store.accounts) if is_same_mailbox(own, address)), None)

    def begin_data(self, _):
        if not self.envelope or not self.envelope.recipients:
            return [OUT_OF_ORDER]
        self.takes_data = True
        return [b"354 go ahead"]

    def data(self, octets, at):
        """Takes the data at this place, and tells what follows them."""
        if octets.startswith(b".\r\n", at):
            end = at
        else:
            end = octets.find(b"\r\n.\r\n", at) + 2
            if end < 2:
                return None
        self.takes_data = False
        self.reply(end + 3, self.deliver(re.sub(rb"(\A|\r\n)\.", rb"\1", octets[at:end])))
        self.envelope = None
        return end + 3

    def deliver(self, data):
        envelope = self.envelope
        protocol = b"UTF8SMTP" if envelope.is_utf8 else b"ESMTP" if self.is_extended else b"SMTP"
        date = time.strftime("%a, %d %b %Y %H:%M:%S +0000", time.gmtime(self.seconds)).encode()
        remote_octets = b"Received: from " + self.client + b" by " + self.name + b" with " + protocol + b"; " + date + b"\r\n" + data
        local_octets = b"Return-Path: <" + envelope.path + b">\r\n" + remote_octets
        local = [it for it in envelope.recipients if isinstance(it, int)]
        remote = [it[0] for it in envelope.recipients if not isinstance(it, int)]
        if local and len(local_octets) > self.message_max or remote and len(remote_octets) > self.message_max:
            return TOO_LARGE
        if not is_message(data):
            return b"554 5.6.0 not a message"
        if len(RECEIVED.findall((b"\r\n" + data).partition(b"\r\n\r\n")[0])) > RECEIVED_MAX:
            return b"554 5.4.6 routing loop"
        moment = time.strftime("%d-%b-%Y %H:%M:%S +0000", time.gmtime(self.seconds)).encode()
        records = [message(self.store.folders.index(account), local_octets, date=moment) for account in local]
        self.records.append(b"".join(records) + (queue(envelope.path, remote, remote_octets) if remote else b""))
        return b"250 2.0.0 stored"

    def reset(self, _):
        self.envelope = None
        return [OK]

    def nothing(self, _):
        return [OK]

    def verify(self, _):
        return [b"252 2.5.0 send and see"]

    def quit(self, _):
        self.has_ended = True
        return [b"221 2.0.0 bye"]


VERBS = {
    b"EHLO": Session.ehlo, b"HELO": Session.helo, b"MAIL": Session.mail, b"RCPT": Session.rcpt, b"DATA": Session.begin_data,
    b"RSET": Session.reset, b"NOOP": Session.nothing, b"VRFY": Session.verify, b"QUIT": Session.quit,
}


class Envelope:
    """The text of the path, and the recipients: numbers of accounts, and addresses elsewhere with their texts."""

    def __init__(self, path, is_utf8):
        self.path, self.is_utf8, self.recipients = path, is_utf8, []


def is_same_recipient(one, other):
    if isinstance(one, int) or isinstance(other, int):
        return one == other
    return one[1][0] == other[1][0] and is_same_domain(one[1][1], other[1][1])


def is_malformed(keyword, equals, value):
    keyword = keyword.upper()
    if keyword == b"SIZE":
        return not DIGITS.fullmatch(value)
    if keyword == b"BODY":
        return value.upper() not in (b"7BIT", b"8BITMIME")
    return keyword == b"SMTPUTF8" and bool(equals)


def number_of(digits):
    """The number that digits write; one of many digits is as good as any other that is too large."""
    digits = digits.lstrip(b"0")
    return int(digits or b"0") if len(digits) < 12 else 10**12


# up to the first `>` outside of quotes and of a domain literal, and no comment before it
PATH = re.compile(rb'(?s)<(?:[^"\[(>]|"(?:\\.|[^"\\])*"|\[(?:\\.|[^\]\\])*\])*>')


def path_behind(word, rest):
    """The text of the path's address, empty for the null path, or None where none is read; and the words behind it."""
    if rest[: len(word)].upper() != word:
        return None, []
    rest = rest[len(word) :]
    found = PATH.match(rest[1:] if rest.startswith(b" ") else rest)
    if not found:
        return None, []
    behind = found.string[found.end() :]
    if behind and behind[:1] not in (b" ", b"\t"):
        return None, []
    words = [it for it in re.split(rb"[ \t]+", behind) if it]
    return text_of(found.group()), words


def text_of(path):
    """The address's text, without gaps and needless quoting."""
    inside = path[1:-1]
    if not inside.strip(b" \t"):
        return b""
    address = read_address(inside)
    return address and written(*address)


ATOM = rb"(?:[A-Za-z0-9!#$%&'*+/=?^_`{|}~-]|[\x80-\xff])+"
DOTTED = re.compile(ATOM + rb"(?:\." + ATOM + rb")*")


def written(local, domain):
    if DOTTED.fullmatch(local):
        return local + b"@" + domain
    return b'"' + re.sub(rb'(["\\])', rb"\\\1", local) + b'"@' + domain


def is_message(octets):
    if not is_sound(octets):
        return False
    try:
        trees.check(octets)
    except Refused:
        return False
    return True


def outcome(journal, octets, seconds, message_max):
    """The exit status, what is given as (count, reply), and the journal behind the session."""
    try:
        store, after = open_journal(journal)
    except Unopened as error:
        status, line = error.answer
        return status, [(0, line)], journal
    session = Session(store, seconds, message_max)
    session.feed(octets)
    return 0, session.due, after + b"".join(session.records)


def certain_outcome(*case):
    """The same, or None where the oracle is uncertain about a name or a domain."""
    try:
        return outcome(*case)
    except Uncertain:
        return None
