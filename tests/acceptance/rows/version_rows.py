"""Journals of version 1, by each command that opens one: such a journal gets a record of kind 11, and goes on in version 2. Nothing of it is written
anew, and a journal that has version 2 gets no such record."""

import os

from journal import OLDER_FIRST_OCTETS, account, domain, expunge, flags, folder, journal, older_journal, older_message, older_queue, settle
from oracle.pop_store import open_journal
from oracle.records import message, queue
from oracle.word_oracle import outcome
from outside.failures import Place, ended, name_of
from outside.journal_files import cut_path, told_cut
from outside.serve_outside import talk
from rows.downgrade_rows import CAFE
from rows.smtp_rows import octets_of, trace
from support.harness import differs, in_lanes
from support.moments import Moments, end_of_shared
from support.next_server import EIGHT, NextServer
from support.service import Service
from support.talk import read_journal

OLDER_ORG = bytes.fromhex("4D41494C4A4E4C31" "0000000A0200000005782E6F7267")
GOES_ON = bytes.fromhex("000000010B")
QUIT = b"QUIT\r\n"
# commands that do nothing to a journal with the domain x.org alone: their input, status and answer
NOTHING = [
    ([b"pop"], QUIT, (0, b"+OK ready\r\n+OK bye\r\n")), ([b"smtp"], QUIT, (0, b"220 x.org ESMTP\r\n221 2.0.0 bye\r\n")),
    ([b"imap"], b"a LOGOUT\r\n", (0, b"* OK IMAP4rev1 ready\r\n* BYE bye\r\na OK done\r\n")), ([b"relay", b"next.invalid"], b"", (0, b"sent 0, reported 0, left 0\r\n")),
    ([b"domain", b"X.org"], b"", (9, b"exists\r\n")), ([b"account", b"a@y.org", b"p"], b"", (9, b"no such domain\r\n")), ([b"account", b"a@y.org"], b"p\n", (9, b"no such domain\r\n")),
]
# every kind of record that version 1 has: a mailbox with a message, a folder with another, and an entry of the queue of which one address waits
OLDER = older_journal(
    domain(b"x.org"), account(b"a@x.org", b"p"), older_message(0, CAFE), folder(0, b"f"), older_message(1, b"A: b\r\n", 1), flags(1, 3),
    older_queue(b"a@x.org", [b"b@y.org", b"c@y.org"], b"A: b\r\n"), settle(0, 0), older_message(0, b""), expunge(2),
)
LOGS_IN, IMAP_LOGS_IN = b"USER a@x.org\r\nPASS p\r\n", b"a LOGIN a@x.org p\r\n"
SENDS = octets_of(["EHLO client", "MAIL FROM:<é@y.org> SMTPUTF8", "RCPT TO:<a@x.org>", "RCPT TO:<d@y.org>", "DATA", "A: b", "", "x", ".", "QUIT"])
TRACED = octets_of([trace("UTF8SMTP", name="x.org"), "A: b", "", "x"])
STORED = message(0, octets_of(["Return-Path: <é@y.org>"]) + TRACED) + queue("é@y.org".encode(), [b"d@y.org"], TRACED)
CHANGES = IMAP_LOGS_IN + octets_of(["a CREATE g", "a SELECT INBOX", "a STORE 1 +FLAGS (\\Deleted)", "a APPEND g {7}"]) + "A: é\r\n".encode() + b"\r\na EXPUNGE\r\na LOGOUT\r\n"
# commands that write, with their input, and what they write
SOMETHING = [
    ([b"pop"], LOGS_IN + b"DELE 1\r\nQUIT\r\n", expunge(0)), ([b"smtp"], SENDS, STORED), ([b"domain", b"y.org"], b"", domain(b"y.org")),
    ([b"account", b"b@x.org", b"p"], b"", account(b"b@x.org", b"p")), ([b"account", b"b@x.org"], b"p\n", account(b"b@x.org", b"p")),
    ([b"imap"], CHANGES, folder(0, b"g") + flags(0, 8) + message(2, "A: é\r\n".encode()) + expunge(0)),
]
# both versions in one journal
BOTH = OLDER + GOES_ON + message(1, CAFE, 31) + queue(b"", [b"d@y.org"], b"A: b\r\n\r\n\xff\r\n") + flags(3, 0) + settle(1, 0) + expunge(3)
# journals that are bad, and where
BAD = [
    ("the end of version 1 in version 2", journal() + GOES_ON, 8), ("a message without fields at the end", OLDER_ORG + GOES_ON + b"\0\0\0\1\x09", len(OLDER_ORG + GOES_ON)),
    ("a message without fields in version 1", OLDER_ORG + b"\0\0\0\1\x09", len(OLDER_ORG)), ("a message without fields", journal() + b"\0\0\0\1\x09", 8),
    ("an unmarked message behind version 1", OLDER + GOES_ON + older_message(0, CAFE), len(OLDER + GOES_ON)), ("a marked message in version 1", OLDER + message(0, CAFE), len(OLDER)),
    ("version 1 ends twice", OLDER_ORG + GOES_ON * 2, len(OLDER_ORG + GOES_ON)), ("octets of no version", b"MAILJNL3" + OLDER_ORG[8:], 0),
]


def left_faults(place, journal, cut=None):
    """What is wrong with the journal, and with what was cut of it."""
    return differs("journal", read_journal(place.journal), journal) + differs("what was cut", read_journal(cut_path(place)), cut)


def of_the_end(program, tally):
    """A record of kind 11 is written, once, by words that do nothing else too, and nobody is told."""
    for words, octets, answer in NOTHING:
        with Place(program, OLDER_ORG) as place:
            faults = []
            for time in ("first", "second"):
                faults += differs(f"the {time} time", place.run(words, octets), (*answer, b"")) + left_faults(place, OLDER_ORG + GOES_ON)
            tally.note(name_of(words, "a journal of version 1 goes on"), faults)
    for words in ([b"downgrade"], [b"check"], [b"gen", b"1"], [b"help"], [b"post"], [b"account"], [b"domain", b"-"]):
        with Place(program, OLDER_ORG) as place:
            place.run(words, CAFE)
            tally.note(name_of(words, "a journal of version 1 stays"), left_faults(place, OLDER_ORG))


def of_changes(program, tally):
    """What is written comes behind that record, and has version 2."""
    for words, octets, records in SOMETHING:
        with Place(program, OLDER) as place:
            moments = Moments(OLDER, 0)
            status, _, said = place.run(words, octets)
            found = moments.seen(read_journal(place.journal))
            faults = differs("status and standard error", (status, said), (0, b"")) + differs("journal", found, OLDER + GOES_ON + records)
            again = place.run([b"pop"], QUIT)
            faults += differs("a session behind it", again, (*NOTHING[0][2], b"")) + differs("journal then", moments.seen(read_journal(place.journal)), found)
            tally.note(name_of(words, "what is written behind version 1"), faults)


def of_relays(program, tally):
    """What waits in version 1 is sent, or reported, as its octets ask; and so is what waits in version 2, behind it."""
    more = queue("é@y.org".encode(), [b"d@y.org"], b"A: b\r\n")
    for name, before, changed, told, records in (
        ("sent", OLDER, {}, b"sent 1, reported 0, left 0\r\n", settle(0, 1)),
        ("left", OLDER, {b"MAIL FROM:": b"451 4.3.0 no\r\n"}, b"sent 0, reported 0, left 1\r\n", b""),
        ("sent in both versions", OLDER + GOES_ON + more, {}, b"sent 2, reported 0, left 0\r\n", settle(0, 1) + settle(1, 0)),
    ):
        with Place(program, before) as place, NextServer(changed=changed) as server:
            status, given, said = place.run([b"relay", b"127.0.0.1:%d" % server.port])
            faults = differs("answer", (status, given, said), (8 if b"left 1" in told else 0, told, b""))
            wanted = before + (b"" if GOES_ON in before else GOES_ON) + records
            tally.note(f"relay: an entry of version 1 is {name}", faults + left_faults(place, wanted))
    high = older_journal(domain(b"x.org"), account(b"a@x.org", b"p"), older_queue(b"a@x.org", [b"b@y.org"], CAFE))
    with Place(program, high) as place, NextServer([EIGHT]) as server:
        answer = place.run([b"relay", b"127.0.0.1:%d" % server.port])
        store, whole = open_journal(read_journal(place.journal))
        faults = differs("answer", answer, (0, b"sent 0, reported 1, left 0\r\n", b"")) + differs("left", (store.queue(), len(store.messages)), ([], 1))
        faults += differs("journal", (whole, whole.startswith(high + GOES_ON)), (read_journal(place.journal), True))
        tally.note("relay: an entry of version 1 is reported", faults)


def serve_faults(program, place, is_served):
    """What is wrong with `serve` and one client. Nobody is served where the journal has no domain."""
    with Service(program.path, place.path, connections=1) as service:
        found = (talk(service, QUIT) if is_served else b""), service.end()
    return differs("answer", found, (NOTHING[0][2][1], 0) if is_served else (b"", 2))


def of_services(program, tally):
    """The same of `serve`, which opens the journal once, and again where another file has its name."""
    cases = [(OLDER_ORG, OLDER_ORG + GOES_ON), (OLDER, OLDER + GOES_ON), (OLDER_ORG + GOES_ON, OLDER_ORG + GOES_ON), (OLDER_ORG[:-1], OLDER_FIRST_OCTETS + GOES_ON)]
    for before, after in cases:
        with Place(program, before) as place:
            faults = serve_faults(program, place, bool(open_journal(before)[0].domains)) + differs("journal", read_journal(place.journal), after)
            tally.note(f"serve: a journal of version 1, {len(before)} octets, goes on", faults)
    with Place(program, OLDER_ORG) as place:
        with Service(program.path, place.path, "smtp") as service:
            told = [talk(service, QUIT)]
            with open(place.journal + ".new", "wb") as file:
                file.write(OLDER)
            os.replace(place.journal + ".new", place.journal)
            told += [talk(service, QUIT) for _ in range(2)]
        faults = differs("told", told, [NOTHING[1][2][1]] * 3) + left_faults(place, OLDER + GOES_ON) + service.faults()
        tally.note("serve: a journal of version 1 comes between connections", faults)


def of_other_programs(program, tally):
    """What another program writes behind the end of version 1, while `serve` is between two connections, is there for the next one."""
    with Place(program, OLDER) as place:
        with Service(program.path, place.path) as service:
            counts = talk(service, LOGS_IN + b"STAT\r\n" + QUIT)
            faults = differs("smtp", place.run([b"smtp"], SENDS)[0], 0) + differs("domain", place.run([b"domain", b"z.org"])[0], 0)
            again = talk(service, LOGS_IN + b"STAT\r\nTOP 2 0\r\n" + QUIT)
        faults += differs("before", b"+OK 1 " in counts, True) + differs("behind it", (b"+OK 2 " in again, b"Downgraded-Return-Path:" in again), (True, True))
        found = Moments(OLDER, 0).seen(read_journal(place.journal))
        tally.note("serve: what others write behind version 1", faults + service.faults() + differs("journal", found, OLDER + GOES_ON + STORED + domain(b"z.org")))


def of_bad_ones(program, tally):
    """What is in no version is bad, and stays."""
    for name, octets, at in BAD:
        for words, given, _ in NOTHING:
            with Place(program, octets) as place:
                faults = ended(place.run(words, given), 5, b"", b"bad journal at %d\r\n" % at) + left_faults(place, octets)
                tally.note(name_of(words, name), faults)
        with Place(program, octets) as place:
            with Service(program.path, place.path) as service:
                status = service.end()
            faults = differs("status", status, 5) + left_faults(place, octets) + service.unready
            tally.note(f"serve: {name}", faults + differs("told", (service.given, service.said), (b"bad journal at %d\r\n" % at, [])))


def behind_words(before, words, octets):
    """The journal behind a command, as the oracle has it."""
    if words[0] not in (b"domain", b"account"):
        return open_journal(before)[1]
    return outcome(before, words if len(words) == 3 or words[0] == b"domain" else [*words, octets.strip()])[2]


def cut_at(count):
    """The first octets of a journal of both versions, so many; what they leave once they are opened; and what is cut of them."""
    before = BOTH[:count]
    after = open_journal(before)[1]
    whole = end_of_shared(before, after) if count >= len(OLDER_FIRST_OCTETS) else 0
    return before, after, before[whole:]


def cut_faults(program, count):
    """What is wrong with what the commands make of them."""
    before, _, rest = cut_at(count)
    faults = []
    for words, octets, _ in NOTHING:
        with Place(program, before) as place:
            said = place.run(words, octets)[2]
            # what `relay` says of a server that isn't there comes behind it
            found = differs("standard error", said[: len(told_cut(len(rest)))] if rest else said.count(b" cut "), told_cut(len(rest)) if rest else 0)
            faults += [f"{words[0].decode()}: {fault}" for fault in found + left_faults(place, behind_words(before, words, octets), rest or None)]
    return faults


def of_cuts(program, tally):
    """A journal that ends after any of its octets: what is no whole record is cut, kept and told, and the record of kind 11 comes in its place."""
    counts = range(len(BOTH) + 1)
    for count, faults in zip(counts, in_lanes(lambda count: cut_faults(program, count), counts)):
        tally.note(f"a journal of both versions, {count} octets of it", faults)
    # one after the other, since two could find the same port free
    for count in counts:
        before, after, rest = cut_at(count)
        with Place(program, before) as place:
            faults = serve_faults(program, place, bool(open_journal(before)[0].domains)) + left_faults(place, after, rest or None)
            tally.note(f"serve: a journal of both versions, {count} octets of it", faults)


def check(program, tally):
    for checks in (of_the_end, of_changes, of_relays, of_services, of_other_programs, of_bad_ones, of_cuts):
        checks(program, tally)
