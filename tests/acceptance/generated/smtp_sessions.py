"""Random sessions of SMTP over random mailboxes: all is as the oracle has it, however it is cut."""

import random

from generated.pop_sessions import FAULTY, NAMES, SIZES, some_mailbox, some_message, some_spelling, some_version
from journal import domain
from rows.smtp_rows import MESSAGE_MAX, STORED
from support.harness import in_lanes
from support.moments import Moments
from support.talk import SMTP, all_cuts
from vectors.smtp_vectors import by_oracle

SEED = 6531

AWAY = ["far@away.example", "é@away.example", "r@AWAY.example"]
DOMAINS = [b"example.org", b"x", b"x.org", b"xn--bcher-kva.example", b"0.0"]
CLIENTS = [b"client", b"[1.2.3.4]", b"a-b.c_d:e", b"", b"a b", b"x" * 255, b"x" * 256, "é".encode()]
PATHS = [b"<>", b"< >", b"<a>", b"<a@b", b"a@b", b"<@x:a@b>", b"<a(x)@b>", b'<"a>"@b>', b"<a@[b>c]>", b"<a@b>>", b"<a . b @ c>", "<é>".encode(), b"<\xff@b>"]
PARAMETERS = [
    b"SMTPUTF8", b"smtputf8", b"SIZE=1", b"size=0033554432", b"SIZE=33554433", b"SIZE=", b"SIZE=x", b"BODY=8BITMIME", b"body=7bit", b"BODY=x",
    b"SMTPUTF8=", b"X", b"X=y", b"=",
]
OTHERS = [b"RSET", b"NOOP", b"noop x", b"VRFY", b"VRFY x", b"", b" ", b"FOO", b"EXPN", b"DATA", b"data x", b"STARTTLS", b"MAIL", b"RCPT", b"RCPTTO:<a@b>", b"GET / HTTP/1.1"]
ENDS = [b"QUIT\r\n", b"quit x\r\nNOOP\r\n", b"", b"QUI", b"NOOP\r", b"\tQUIT \r\n"]


def some_path(rng, names):
    if rng.random() < 0.08:
        return rng.choice(PATHS)
    return b"<" + some_spelling(rng, rng.choice(names)).replace(b" (x)", b"") + b">"


def some_space(rng):
    return rng.choice([b""] * 12 + [b" "] * 6 + [b"  ", b"\t"])


def some_case(rng, word):
    return word if rng.random() < 0.8 else word.swapcase()


def some_mail(rng):
    """A MAIL, which has SMTPUTF8 more often than not."""
    words = [rng.choice(PARAMETERS) for _ in range(rng.choice([0, 0, 0, 0, 0, 1, 2]))] + [b"SMTPUTF8"] * (rng.random() < 0.7)
    rng.shuffle(words)
    return some_case(rng, b"MAIL FROM:") + some_space(rng) + b"".join([some_path(rng, [*NAMES, *AWAY]), *(rng.choice([b" ", b" ", b"\t "]) + it for it in words)])


def some_recipient(rng, accounts):
    """A RCPT, which names an account more often than not."""
    names = [name for name, _ in accounts] if rng.random() < 0.7 else [*NAMES, *AWAY]
    behind = rng.choice([b""] * 8 + [b" ", b" X"])
    return some_case(rng, b"RCPT TO:") + some_space(rng) + some_path(rng, names) + behind


def some_data(rng):
    """The lines of a message as they are sent, or of what isn't one."""
    octets = rng.choice(FAULTY) if rng.random() < 0.15 else some_message(rng)
    if octets and not octets.endswith(b"\r\n"):
        octets += b"\r\n"
    # now and then a client forgets the dots
    return octets if rng.random() < 0.1 else b"".join(b"." + it if it.startswith(b".") else it for it in octets.splitlines(keepends=True))


def some_transaction(rng, accounts):
    """The octets of a mail, with faults here and there."""
    lines = [some_mail(rng), *(some_recipient(rng, accounts) for _ in range(rng.choice([0, 1, 1, 2, 2, 4])))]
    if rng.random() < 0.2:
        lines.insert(rng.randint(0, len(lines)), rng.choice(OTHERS))
    octets = b"".join(it + b"\r\n" for it in lines)
    if rng.random() < 0.8:
        octets += b"DATA\r\n" + some_data(rng) + b".\r\n"
    return octets


def some_greeting(rng):
    return some_case(rng, rng.choice([b"EHLO", b"EHLO", b"HELO"])) + b" " + rng.choice([b"client"] * 16 + CLIENTS) + b"\r\n"


def some_input(rng, accounts):
    parts = [rng.choice(OTHERS) + b"\r\n" for _ in range(rng.choice([0, 0, 0, 1]))]
    parts += [some_greeting(rng) for _ in range(rng.choice([0, 1, 1, 1, 1, 2]))]
    for _ in range(rng.choice([0, 1, 1, 2, 3])):
        parts.append(some_transaction(rng, accounts))
        if rng.random() < 0.3:
            parts.append(rng.choice([some_greeting(rng), rng.choice(OTHERS) + b"\r\n"]))
    octets = b"".join(parts)
    return (octets.replace(b"\r\n", rng.choice([b"\n", b"\r"]), 1) if rng.random() < 0.05 else octets) + rng.choice(ENDS)


def some_session(rng):
    """A journal, which is cut off now and then, and what comes from a client."""
    accounts, records = some_mailbox(rng)
    octets = some_version(rng, [*(domain(it) for it in rng.sample(DOMAINS, rng.randint(0, 2))), *records])
    if rng.random() < 0.1:
        octets = octets[: rng.randint(0, len(octets))]
    return octets, some_input(rng, accounts), [rng.choice(SIZES) for _ in range(rng.randint(0, 12))]


def check(program, tally):
    rng = random.Random(SEED + program.seed)
    cases = [some_session(rng) for _ in range(program.cases)]

    def one(case):
        """Whether records come, or none where the oracle is uncertain, and what is wrong."""
        before, given, sizes = case
        told = by_oracle(before, given, 0, MESSAGE_MAX)
        if told is None:
            return None, []
        faults = all_cuts(program, before, given, *told, sizes, SMTP, Moments(before, 0).seen)
        return STORED.encode() in told[0][1], faults and [*faults[:4], f"input: {given!r}", f"journal: {before.hex()}"]

    answers = in_lanes(one, cases)
    for number, (brings, faults) in enumerate(answers):
        if brings is not None:
            tally.note(f"random session of SMTP {number}", faults)
    told = [brings for brings, _ in answers]
    print(f"random sessions of SMTP: {told.count(True)} bring records, {told.count(False)} bring none, {told.count(None)} the oracle can't tell")
