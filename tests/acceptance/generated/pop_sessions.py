"""Random sessions over random mailboxes, and random damage of their journals: all is as the oracle has it, however it is cut."""

import random
import unicodedata

from generated import generated_addresses, generated_fields, generated_messages, generated_parameters, generated_traces
from journal import account, domain, expunge, flags, folder, journal, older_journal, older_message, record, settle, text, version
from journal import message as marked_message
from oracle.pop_oracle import certain_outcome
from oracle.records import message, older, queue
from rows.downgrade_rows import MIXED
from support.harness import in_lanes
from support.talk import all_cuts, joined

SEED = 6856

NAMES = ["ann@example.org", "b@x", "a.b@x.org", "0@0.0", "jos\u00e9@b\u00fccher.example", '"a b"@X.org', "Stra\u00dfe.\u03c3@[1.2]"]
FOLDERS = [b"INBOX", b"f", "\u00e9/f".encode()]
PASSWORDS = [b"", b"pw", b" p w ", b"\xff\x00", "pässword".encode(), b"p\rw", b"p\nw"]
DOTS = [b"\r\n.", b"A: b\r\n\r\n.\r\n..\r\n\r\n.", b"A: b\r\n\r\n" + b".\r\n" * 400]
MESSAGE = "Content-Type: message/global\r\n"
FIELDS = ["X: é", "A: b\r\n é\r\n", "Subject: =?é\r\n", "Date: (é)", "Keywords: é,\r\n", "Content-Transfer-Encoding: é\r\n\r\n."]
ADDRESSES = ["To: é", "From: é <a@b>, b@é\r\n", "Cc: é: é@b;\r\n\r\n."]
TRACES = ["Message-ID: <é@x>", "-x: é\r\n", "Received: for é", "Return-Path: <>(é)\r\n\r\n", "Content-Disposition: a;x=é"]
TYPES = ["Content-Type: text/plain\r\n\r\nx\r\n", "-x: é\r\ncontent-type: é\r\n", "Content-TYPE :"]
PARTS = [
    f"{MIXED}--b\r\nX: é\r\n\r\n.\r\n--b \r\n.: é", f"{MIXED}--b\r\n{MESSAGE}\r\nX: é\r\n--b--\r\né", f"{MESSAGE}\r\n{MIXED}--b\r\n\r\n\r\n--b--\r\n.",
    f"{MIXED}--b\r\nContent-Type: multipart/digest; boundary=c\r\n\r\n--c\r\n\r\nX: é\r\n--c--\r\n--b\r\n-x: é\r\n", f"{MIXED}--b--",
]
KEPT = [b"", b"\r\n", b"A: b", b"A: b\r\n\r\n\r\n\r\n", *(text.encode() for text in [*FIELDS, *ADDRESSES, *TRACES, *TYPES, *PARTS]), *DOTS]
INSIDE = [f"{MIXED}--b\r\né", f"{MESSAGE}\r\n x: y\r\n", f"{MIXED}--b\r\n{MESSAGE}\r\nx\r\n--b--\r\n"]
FAULTY = [*(text.encode() for text in INSIDE), b"x", b" a: b\r\n", b"A: b\r", b"A: b\r\n\r\nx\n", b"A: \xff\r\n", b"A: b\r\n\r\n\0", "Received: é\r\n\r\n\0".encode()]
MAKERS = [
    generated_fields.subject, generated_fields.keywords, generated_fields.date, generated_addresses.certain_list,
    generated_parameters.certain_disposition, generated_traces.certain_trace, generated_traces.certain_recipient, generated_traces.identifier,
]
WORDS = [b"USER", b"PASS", b"UTF8", b"STAT", b"LIST", b"RETR", b"QUIT", b"CAPA", b"NOOP", b"TOP", b"DELE", b"UIDL", b"RSET", b"", b"LISTS", b"RET", b"GET", b"POST", b"put"]
ARGUMENTS = [None, None, b"", b" ", b"1", b"01", b"2", b"3", b"7", b"0", b"99999999999999999999", b"1 ", b"-1", b"x", b"\xe9", b"1 2"]
SIZES = [1, 1, 1, 2, 3, 7, 64, 512]
RECORDS = [
    b"\0\0\0\1\x03", b"\0\0\0\1\x09", b"\0\0\0\0", b"\x04\0\0\1", domain(b"X"), domain(b""), record(1, text(b"a@b")), account(b"<>", b""), folder(0, b"*"),
    folder(9, b"f"), flags(0, 9), flags(0, 32), expunge(0), expunge(7), queue(b"x", [], b""), queue(b"", [b"x"], b""), queue(b"", [], b"x"), settle(0, 0), settle(7, 0),
    b"\0\0\0\1\x0a", b"\0\0\0\1\x0c", version(), older_message(0, b"A: b\r\n"), *(marked_message(0, "A: é\r\n".encode(), mark=mark) for mark in range(5)),
]


def some_message(rng):
    if rng.random() < 0.4:
        return rng.choice(KEPT)
    octets, _ = generated_messages.message(rng)
    if rng.random() < 0.3:
        name, value, *_ = rng.choice(MAKERS)(rng)
        octets = generated_fields.message_of(rng, name, value)
    return octets[:-2] if rng.random() < 0.2 and octets.endswith(b"\r\n") else octets


def some_mailbox(rng):
    """Accounts, and the records of a journal with their messages."""
    accounts = [(rng.choice(NAMES), rng.choice(PASSWORDS)) for _ in range(rng.randint(1, 3))]
    records = [domain(b"example.org"), *(account(name.encode(), password) for name, password in accounts)]
    folders = [folder(rng.randrange(len(accounts)), rng.choice(FOLDERS)) for _ in range(rng.choice([0, 0, 1, 2]))]
    places = [rng.randrange(len(accounts) + len(folders)) for _ in range(rng.choice([0, 1, 3, 8]))]
    messages = [message(place, some_message(rng), flags=rng.randrange(32)) for place in places]
    return accounts, [*records, *folders, *messages, *some_changes(rng, len(messages)), *some_queue(rng)]


def some_version(rng, records):
    """A journal with these records, of version 2 or of version 1, or one that begins in version 1 and goes on in version 2."""
    if rng.random() < 0.5:
        return journal(*records)
    count = rng.choice([len(records), rng.randint(0, len(records))])
    ends = count < len(records) or rng.random() < 0.2
    return older_journal(*map(older, records[:count]), *([version()] if ends else []), *records[count:])


def some_changes(rng, count):
    """New flags of messages, and some that are expunged."""
    new = [flags(rng.randrange(count), rng.randrange(32)) for _ in range(rng.randint(0, 2) if count else 0)]
    return new + [expunge(number) for number in rng.sample(range(count), rng.randint(0, min(count, 2)))]


def some_queue(rng):
    """An entry of the queue, or none, and some of its addresses that are settled."""
    if rng.random() < 0.7:
        return []
    addresses = [rng.choice(NAMES).encode() for _ in range(rng.randint(0, 3))]
    entry = queue(rng.choice([b"", rng.choice(NAMES).encode()]), addresses, some_message(rng))
    return [entry, *(settle(0, place) for place in rng.sample(range(len(addresses)), rng.randint(0, len(addresses))))]


def some_spelling(rng, name):
    """A name of the same mailbox."""
    spellings = [name, name, name.upper(), unicodedata.normalize("NFD", name), name.replace("@", " @ "), f"{name} (x)"]
    return rng.choice(spellings).encode()


def some_line(rng):
    word, argument = rng.choice(WORDS), rng.choice(ARGUMENTS)
    if rng.random() < 0.3:
        word = word.swapcase()
    return word + (b"" if argument is None else b" " + argument)


def some_input(rng, accounts):
    """Lines of a client, which logs in more often than not."""
    lines = [some_line(rng) for _ in range(rng.randint(0, 4))]
    if rng.random() < 0.4:
        lines.append(rng.choice([b"UTF8", b"utf8"]))
    if rng.random() < 0.8:
        name, password = rng.choice(accounts)
        lines += [b"USER " + some_spelling(rng, name), b"PASS " + password]
    for _ in range(rng.randint(0, 12)):
        numbered = rng.choice([b"RETR %d", b"LIST %d", b"retr %d", b"UIDL %d", b"TOP %d 0", b"top %d 2", b"DELE %d", b"dele %d"]) % rng.randint(0, 9)
        lines.append(rng.choice([numbered, numbered, numbered, b"STAT", b"LIST", b"UIDL", b"RSET", some_line(rng)]))
    if rng.random() < 0.02:
        lines.append(b"y" * rng.choice([65_534, 65_535]))
    octets = b"".join(line + b"\r\n" for line in lines)
    end = rng.choice([b"QUIT\r\n", b"quit\r\nSTAT\r\n", b"", b"STA", b"STAT\r"])
    return octets.replace(b"\r\n", rng.choice([b"\n", b"\r"]), 1) + end if rng.random() < 0.1 else octets + end


def some_session(rng):
    accounts, records = some_mailbox(rng)
    sizes = [rng.choice(SIZES) for _ in range(rng.randint(0, 12))]
    return some_version(rng, records), some_input(rng, accounts), sizes


def lose_power(rng, octets):
    """Puts zeros at the end: in the place of what is there, mostly from the border of a sector on, or behind it, and now and then one more octet."""
    at = rng.randint(0, len(octets))
    at = min(at + -at % 512, len(octets)) if rng.random() < 0.7 else at
    octets[at:] = bytes(len(octets) - at)
    octets += bytes(rng.choice([0, 0, 0, 1, 4, 300, 512])) + rng.choice([b"", b"", b"", b"\1"])


def some_journal(rng):
    """A journal that may be damaged, and a session over it."""
    accounts, records = some_mailbox(rng)
    if rng.random() < 0.6:
        mail = message(rng.randint(0, 4), rng.choice(FAULTY), flags=rng.choice([0, 31, 32]))
        other = rng.choice([rng.choice(RECORDS), mail])
        records.insert(rng.randint(0, len(records)), other)
    octets = bytearray(some_version(rng, records))
    if rng.random() < 0.3:
        del octets[rng.randint(0, len(octets)) :]
    elif rng.random() < 0.3:
        octets[rng.randrange(len(octets))] ^= 1 << rng.randrange(8)
    elif rng.random() < 0.6:
        lose_power(rng, octets)
    return bytes(octets), some_input(rng, accounts), [rng.choice(SIZES)]


def check(program, tally):
    rng = random.Random(SEED + program.seed)
    cases = [(f"random session {number}", *some_session(rng)) for number in range(program.cases)]
    cases += [(f"random journal {number}", *some_journal(rng)) for number in range(program.cases)]

    def one(case):
        """The status, or none where the oracle is uncertain, and what is wrong."""
        _, octets, given, sizes = case
        told = certain_outcome(octets, given)
        if told is None:
            return None, []
        status, due, after = told
        faults = all_cuts(program, octets, given, (status, joined(due), after), due, sizes)
        return status, faults and [*faults[:4], f"input: {given!r}", f"journal: {octets.hex()}"]

    counts = {}
    for case, (status, faults) in zip(cases, in_lanes(one, cases)):
        told = "that the oracle can't tell" if status is None else f"of status {status}"
        counts[told] = counts.get(told, 0) + 1
        if status is not None:
            tally.note(case[0], faults)
    print(f"random sessions and journals: {', '.join(f'{count} {told}' for told, count in sorted(counts.items()))}")
