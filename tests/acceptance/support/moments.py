"""The dates that the program writes into a journal, which nobody knows before: they are replaced by those of another moment.

A record that a session appends has its moment once or twice: a message as the date of the record and in the line Received that SMTP
writes, an entry of the queue in its line Received; a report has it in its line Date. IMAP shows the date of a record that it wrote. All dates
of one form have the same length, so no other octet of a journal or of a reply depends on them."""

import calendar
import re
import time

from oracle.pop_store import FIRST_LEN, Fields, NoRecord

# the kinds that the program writes
MESSAGE, QUEUE = 9, 10
IN_RECORD, IN_FIELD = "%d-%b-%Y %H:%M:%S +0000", "%a, %d %b %Y %H:%M:%S +0000"
SHOWN = re.compile(rb'INTERNALDATE "([^"\r\n]{26})"')
RECEIVED = re.compile(rb"(?:Return-Path: <[^\r\n]*>\r\n)?Received: from [^\r\n]* with [^\r\n;]*; ([^\r\n]*)\r\n")
REPORTED = re.compile(rb"From: MAILER-DAEMON@[^\r\n]*\r\nTo: [^\r\n]*\r\nDate: ([^\r\n]*)\r\n")


def written(form, seconds):
    return time.strftime(form, time.gmtime(seconds)).encode()


class Moments:
    """What is appended to a journal from now on has a moment from now on: SMTP's messages in two forms, IMAP's in that of a record."""

    def __init__(self, before, seconds, forms=(IN_RECORD, IN_FIELD)):
        self.before, self.seconds, self.begun, self.forms = before or b"", seconds, int(time.time()), forms

    def seen(self, journal):
        """The journal as it would be at the other moment. A record that has a wrong date stays as it is."""
        if journal is None:
            return None
        known = end_of_shared(self.before, journal)
        return journal[:known] + b"".join(map(self.dated, records_of(journal, known)))

    def dated(self, record):
        places = [place for place in dates_of(record) if place[2] in self.forms]
        moments = {seconds_of(record[begin:end], form) for begin, end, form in places}
        if len(moments) != 1 or not self.is_ours(*moments):
            return record
        for begin, end, form in places:
            record = record[:begin] + written(form, self.seconds) + record[end:]
        return record

    def shown(self, reply):
        """A reply as it would be at the other moment."""
        return SHOWN.sub(lambda it: it[0].replace(it[1], written(IN_RECORD, self.seconds)) if self.is_ours(seconds_of(it[1], IN_RECORD)) else it[0], reply)

    def is_ours(self, moment):
        """Whether this is a moment of the run."""
        return moment is not None and self.begun <= moment <= time.time()


def end_of_shared(before, after):
    """Where the records end that both journals begin with, and what is appended begins."""
    end = FIRST_LEN
    for record, other in zip(records_of(before, end), records_of(after, end)):
        if record != other:
            break
        end += len(record)
    return end


def records_of(octets, at):
    """The records from here on with their lengths, and last what is no whole one."""
    while at < len(octets):
        end = at + 4 + int.from_bytes(octets[at : at + 4], "big")
        yield octets[at:end]
        at = end


def dates_of(record):
    """Begin, end and form of each date of this record, which has its length before it."""
    kind, fields = record[4:5], Fields(record[5:])
    try:
        if kind == bytes([MESSAGE]):
            fields.take(6)
            date = fields.octets()
            end = len(record) - len(fields.rest)
            yield end - len(date), end, IN_RECORD
        elif kind == bytes([QUEUE]):
            fields.octets(), fields.texts(), fields.take(1)
        else:
            return
        octets = fields.octets()
        found = RECEIVED.match(octets) or REPORTED.match(octets)
    except NoRecord:
        return
    if found:
        at = len(record) - len(found.string)
        yield at + found.start(1), at + found.end(1), IN_FIELD


def seconds_of(text, form):
    """The moment of a date, or None where it isn't one in this form, octet for octet."""
    try:
        seconds = calendar.timegm(time.strptime(text.decode(), form))
    except ValueError:
        return None
    return seconds if written(form, seconds) == text else None
