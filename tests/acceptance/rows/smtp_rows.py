"""Rows of SMTP that are written out: a journal and lines in, replies and the records that the session brings.

The dates of records are those of the moment 0, in whose place the program's are told (moments.py)."""

import journal as own
from journal import account, domain, folder, journal
from oracle.pop_store import open_journal
from oracle.records import mailbox, message, queue
from oracle.smtp_oracle import outcome
from rows.downgrade_rows import MIXED
from support.harness import differs, in_lanes
from support.moments import Moments
from support.talk import POP, SMTP, all_cuts, answer_faults, cut_at, joined, run_cut, run_whole

MESSAGE_MAX = 33_554_432
LINE_MAX = 65_536
ANN = mailbox([])
READY = ["220 example.org ESMTP"]
OFFERS = ["250-example.org", "250-8BITMIME", f"250-SIZE {MESSAGE_MAX}", "250-SMTPUTF8", "250 ENHANCEDSTATUSCODES"]
GREETED = [*READY, *OFFERS]
OK, SENDER_OK, RECIPIENT_OK = "250 2.0.0 ok", "250 2.1.0 ok", "250 2.1.5 ok"
GO_AHEAD, STORED, BYE = "354 go ahead", "250 2.0.0 stored", "221 2.0.0 bye"
BAD, ORDER, UNKNOWN = "501 5.5.4 bad argument", "503 5.5.1 out of order", "500 5.5.2 unknown command"
PARAMETER, NEEDS_SMTPUTF8, TOO_LARGE = "555 5.5.4 unknown parameter", "553 5.6.7 address needs SMTPUTF8", "552 5.3.4 too large"
NO_MAILBOX, NO_MESSAGE, TOO_MANY = "550 5.1.1 no such mailbox", "554 5.6.0 not a message", "452 4.5.3 too many recipients"
TOO_LONG, SYNTAX, LOOP = "500 5.5.2 line too long", "500 5.5.2 syntax error", "554 5.4.6 routing loop"
EHLO, TO_ANN = "EHLO client", "RCPT TO:<ann@example.org>"
READY_FOR_DATA = [EHLO, "MAIL FROM:<a@b>", TO_ANN, "DATA"]
TAKES_DATA = [*GREETED, SENDER_OK, RECIPIENT_OK, GO_AHEAD]
EPOCH = "Thu, 01 Jan 1970 00:00:00 +0000"


def octets_of(lines):
    return "".join(line + "\r\n" for line in lines).encode()


def trace(protocol="ESMTP", client="client", name="example.org"):
    return f"Received: from {client} by {name} with {protocol}; {EPOCH}"


def kept(path, data, **how):
    """The octets that an account gets."""
    return octets_of([f"Return-Path: <{path}>", trace(**how)]) + data


# a sender beyond ASCII, an account in other letters, one that isn't there, and a line that begins with a dot
JOSE = [
    EHLO, "MAIL FROM:<josé@example.com>", "MAIL FROM:<josé@example.com> SMTPUTF8", "RCPT TO:<ANN@example.org>", "RCPT TO:<bob@example.org>",
    "DATA", "Subject: é", "", "..x", ".",
]
JOSE_REPLIES = [*GREETED, NEEDS_SMTPUTF8, SENDER_OK, RECIPIENT_OK, NO_MAILBOX, GO_AHEAD, STORED]
JOSE_KEPT = octets_of(["Return-Path: <josé@example.com>", trace("UTF8SMTP"), "Subject: é", "", ".x"])
JOSE_SHOWN = [
    "Downgraded-Return-Path:", " =?UTF-8?B?PGpvc8OpQGV4YW1wbGUuY29tPg==?=", trace("UTF8SMTP"), "Subject:", " =?UTF-8?B?w6k=?=", "", "..x",
]


def of_mail():
    """What is kept, and for whom: name, journal, lines, replies and records."""
    two = journal(domain(b"example.org"), account(b"ann@example.org", b"pw"), folder(0, b"f"), account(b"bob@example.org", b""))
    data, octets = ["A: b", "", "x", "."], b"A: b\r\n\r\nx\r\n"
    sender, bob, far = "MAIL FROM:<a@b>", "RCPT TO:<bob@example.org>", "RCPT TO:<c@d>"
    relayed = octets_of([trace()]) + octets
    return [
        ("a sender beyond ASCII", ANN, JOSE, JOSE_REPLIES, message(0, JOSE_KEPT)),
        ("two accounts and two addresses elsewhere", two, [EHLO, sender, bob, far, TO_ANN, "RCPT TO:<\"e f\" @ D>", "DATA", *data],
            [*GREETED, SENDER_OK, *[RECIPIENT_OK] * 4, GO_AHEAD, STORED],
            message(2, kept("a@b", octets)) + message(0, kept("a@b", octets)) + queue(b"a@b", [b"c@d", b'"e f"@D'], relayed)),
        ("no account", ANN, [EHLO, "MAIL FROM:<>", far, "DATA", *data], [*GREETED, SENDER_OK, RECIPIENT_OK, GO_AHEAD, STORED],
            queue(b"", [b"c@d"], relayed)),
        ("the null path, and HELO", ANN, ["HELO client", "MAIL FROM:<>", TO_ANN, "DATA", *data],
            [*READY, "250 example.org", SENDER_OK, RECIPIENT_OK, GO_AHEAD, STORED], message(0, kept("", octets, protocol="SMTP"))),
        ("HELO and SMTPUTF8", ANN, ["HELO client", "MAIL FROM:<é@x> smtputf8", TO_ANN, "DATA", *data],
            [*READY, "250 example.org", SENDER_OK, RECIPIENT_OK, GO_AHEAD, STORED], message(0, kept("é@x", octets, protocol="UTF8SMTP"))),
        ("one more EHLO", ANN, ["HELO one", "EHLO [1.2.3.4]", sender, TO_ANN, "DATA", *data],
            [*READY, "250 example.org", *OFFERS, SENDER_OK, RECIPIENT_OK, GO_AHEAD, STORED], message(0, kept("a@b", octets, client="[1.2.3.4]"))),
        ("two messages", ANN, [EHLO, *(sender, TO_ANN, "DATA", *data) * 2], [*GREETED, *[SENDER_OK, RECIPIENT_OK, GO_AHEAD, STORED] * 2],
            message(0, kept("a@b", octets)) * 2),
        ("the first of two domains names the server", journal(domain(b"x.org"), domain(b"example.org"), account(b"ann@example.org", b"")),
            ["HELO client", sender, "RCPT TO:<ann@x.org>", TO_ANN, "DATA", *data],
            ["220 x.org ESMTP", "250 x.org", SENDER_OK, NO_MAILBOX, RECIPIENT_OK, GO_AHEAD, STORED],
            message(0, kept("a@b", octets, protocol="SMTP", name="x.org"))),
        ("no domain, and no journal", None, ["HELO client", sender, TO_ANN, "DATA", *data],
            ["220 localhost ESMTP", "250 localhost", SENDER_OK, RECIPIENT_OK, GO_AHEAD, STORED],
            queue(b"a@b", [b"ann@example.org"], octets_of([trace("SMTP", name="localhost")]) + octets)),
        ("an account whose domain isn't local", journal(account(b"ann@example.org", b"")), ["HELO client", sender, TO_ANN, "DATA", *data],
            ["220 localhost ESMTP", "250 localhost", SENDER_OK, RECIPIENT_OK, GO_AHEAD, STORED],
            queue(b"a@b", [b"ann@example.org"], octets_of([trace("SMTP", name="localhost")]) + octets)),
    ]


def of_data():
    """Name, the lines of the data, and what is kept of them; None where they are no message."""
    return [
        ("no data", [], b""),
        ("dots", ["A: b", "", "..", "...", "x.", ". ", ""], b"A: b\r\n\r\n.\r\n..\r\nx.\r\n \r\n\r\n"),
        ("a dot first", [".A: b"], b"A: b\r\n"),
        ("an empty line first", ["", "x"], b"\r\nx\r\n"),
        ("a header alone", ["Subject: é", "\tü"], "Subject: é\r\n\tü\r\n".encode()),
        ("a line of 70,000 octets", ["A: b", "", "x" * 70_000], b"A: b\r\n\r\n" + b"x" * 70_000 + b"\r\n"),
        ("lines of commands", ["A: b", "", "QUIT", "RSET"], b"A: b\r\n\r\nQUIT\r\nRSET\r\n"),
        ("parts", [*MIXED.splitlines(), "--b", "Subject: é", "--b--"], f"{MIXED}--b\r\nSubject: é\r\n--b--\r\n".encode()),
        ("a line that is no field", ["x"], None),
        ("white first", [" A: b"], None),
        ("a part that is no entity", [*MIXED.splitlines(), "--b", "é"], None),
        ("NUL", ["A: b", "", "\0"], None),
    ]


def of_marks():
    """Name, path, the lines of the data, and the marks of what an account and the queue keep of them."""
    part = [*MIXED.splitlines(), "--b", "Subject: é", "", "x", "--b--"]
    closed = ["Content-Type: message/rfc822", "Content-Transfer-Encoding: base64", "", "Subject: é"]
    return [
        ("ASCII", "a@b", ["A: b", "", "x"], 0, 0),
        ("a header beyond ASCII", "a@b", ["Subject: é", "", "x"], 3, 3),
        ("a body beyond ASCII", "a@b", ["A: b", "", "Subject: é"], 2, 2),
        ("a header of a part beyond ASCII", "a@b", part, 3, 3),
        ("a header of a message beyond ASCII", "a@b", ["Content-Type: message/global", "", "Subject: é"], 3, 3),
        ("a content that isn't opened beyond ASCII", "a@b", closed, 2, 2),
        ("a sender beyond ASCII, who stands in the copy of an account alone", "é@b", ["A: b", "", "x"], 3, 0),
        ("a sender and a body beyond ASCII", "é@b", ["A: b", "", "é"], 3, 2),
        ("a sender beyond ASCII, and no data", "é@b", [], 3, 0),
    ]


def of_loops():
    """Name, the lines of the data, and whether they are refused as mail that goes in a circle. Fields of the message's own header count."""
    one, body = "Received: from a by b; " + EPOCH, ["", "x"]
    return [
        ("99 fields Received", [one] * 99 + ["A: b"] + body, False),
        ("100 fields Received", [one] * 100 + ["A: b"] + body, True),
        ("150 fields Received and no body", [one] * 150, True),
        ("100 fields Received in other spellings", ["RECEIVED \t: x", "received:", "A: b", "Received:", "\tx"] * 33 + ["Received:x"] + body, True),
        ("100 fields and more with other names", ["Received-SPF: x", "X-Received: x", "Receive: x", "Received_: x"] * 100 + body, False),
        ("lines that go on with a field", ["A: b", *[f" {one}"] * 100] + body, False),
        ("99 fields Received, and more in the body", [one] * 99 + [""] + [one] * 100, False),
        ("fields Received of an enclosed message", ["Content-Type: message/rfc822", "", *[one] * 100] + body, False),
        ("100 fields Received behind an empty line", ["", *[one] * 100], False),
    ]


def of_ends():
    """Name and octets of data that are no message. Their end is the last line; before it is one that others could take for an end."""
    ends = {"LF": b"\n.\n", "CR": b"\r.\r", "LF and CRLF": b"\n.\r\n", "CRLF and LF": b"\r\n.\n", "CRLF and CR": b"\r\n.\r", "CR and CRLF": b"\r.\r\n"}
    return [(name, b"A: b\r\n\r\nx" + end + b"MAIL FROM:<eve@x>\r\n.\r\n") for name, end in ends.items()]


def of_greetings():
    """The words of EHLO and HELO, and replies."""
    taken = ["client", "[IPv6:2001:db8::1]", "a.b-c_d:0", "x" * 255]
    wrong = ["", "a b", "a/b", "(a)", "é", "x" * 256, "a\tb"]
    lines = [f"{verb} {word}" for word in [*taken, *wrong] for verb in ("EHLO", "HELO")]
    replies = [*OFFERS, "250 example.org"] * len(taken) + [BAD, BAD] * len(wrong)
    return [
        ("words of EHLO and HELO", ANN, lines, [*READY, *replies]),
        ("white around words", ANN, ["EHLO\t \tclient \t", " helo client", "\teHLo  client"], [*READY, *OFFERS, "250 example.org", *OFFERS]),
    ]


def of_senders():
    """Arguments of MAIL, and replies."""
    taken = [
        "FROM:<a@b>", "from:<a@b>", "FROM: <a@b>", "FROM:<>", "FROM:< >", 'FROM:<"a>b"@c>', 'FROM:<"a\\"> b"@c>', "FROM:<a@[1>2]>", "FROM:< a . b @ c . d >",
        "FROM:<a@b> ", "FROM:<a@b> SIZE=0", f"FROM:<a@b> SIZE={MESSAGE_MAX}", "FROM:<a@b>\tsize=" + "0" * 400 + "1", "FROM:<a@b> BODY=7bit",
        "FROM:<a@b> body=8BITMIME  SIZE=1 SmtpUtf8", "FROM:<é@x> SMTPUTF8", "FROM:<a@é> SMTPUTF8", "FROM:<a@b_c>",
    ]
    wrong = [
        "", "FROM", "FROM:", "FROM:a@b", "FROM:<a@b", "FROM:a@b>", "FROM:<a>", "FROM:<a@>", "FROM:<@b>", "FROM:<a@b>>", "FROM:<a@b>SIZE=1", "FROM:  <a@b>",
        "FROM:\t<a@b>", "FROM :<a@b>", "TO:<a@b>",
        "FROM:<@x:a@b>", "FROM:<a@b(x)>", "FROM:<(x)a@b>", "FROM:<(x)>", "FROM:<a@b,c@d>",
        "FROM:<é>", "FROM:<a@b> SIZE", "FROM:<a@b> SIZE=", "FROM:<a@b> SIZE=-1", "FROM:<a@b> SIZE=1x", "FROM:<a@b> BODY", "FROM:<a@b> BODY=BINARYMIME",
        "FROM:<a@b> SMTPUTF8=", "FROM:<a@b> SMTPUTF8 smtputf8", "FROM:<a@b> SIZE=1 SIZE=1", "FROM:<a@b> X X", "FROM:<é@x> SIZE=x", "FROM:<a@b> X SIZE=x",
    ]
    others = [
        ("FROM:<a@b> X", PARAMETER), ("FROM:<a@b> AUTH=<>", PARAMETER), ("FROM:<a@b> =", PARAMETER), ("FROM:<é@x> X=é", PARAMETER),
        ("FROM:<a@b> (x)(", PARAMETER), ("FROM:<é@x>", NEEDS_SMTPUTF8), ("FROM:<a@é>", NEEDS_SMTPUTF8), ("FROM:<é@x> BODY=8BITMIME", NEEDS_SMTPUTF8),
        (f"FROM:<é@x> SIZE={MESSAGE_MAX + 1}", NEEDS_SMTPUTF8), (f"FROM:<a@b> SIZE={MESSAGE_MAX + 1}", TOO_LARGE),
        (f"FROM:<é@x> SMTPUTF8 SIZE={MESSAGE_MAX + 1}", TOO_LARGE), ("FROM:<a@b> SIZE=" + "9" * 400, TOO_LARGE), ("FROM:<a@b> SIZE=4294967297", TOO_LARGE),
    ]
    rows = [*((it, SENDER_OK) for it in taken), *((it, BAD) for it in wrong), *others]
    lines = [line for argument, _ in rows for line in (f"MAIL {argument}", "RSET")]
    return [("arguments of MAIL", ANN, [EHLO, *lines], [*GREETED, *(line for _, reply in rows for line in (reply, OK))])]


def of_recipients():
    """Arguments of RCPT, and replies."""
    store = journal(domain(b"example.org"), domain(b"xn--bcher-kva.example"), account("Straße.e\u0301@example.org".encode(), b""),
        account(b"ann@xn--bcher-kva.example", b""))
    rows = [
        ("TO:<strasse.\u00e9@EXAMPLE.org>", RECIPIENT_OK), ("to: <STRASSE.\u00c9@example.org>", RECIPIENT_OK), ("TO:<ann@bücher.example>", RECIPIENT_OK),
        ("TO:<Ann@BU\u0308CHER.example>", RECIPIENT_OK), ("TO:<strase.\u00e9@example.org>", NO_MAILBOX), ("TO:<ann@example.org>", NO_MAILBOX),
        ("TO:<ann@bucher.example>", RECIPIENT_OK), ("TO:<ann@[example.org]>", RECIPIENT_OK), ("TO:<>", BAD), ("TO:< >", BAD), ("TO:ann@example.org", BAD),
        ("TO:<Postmaster>", BAD), ("TO:<a@b> NOTIFY=NEVER", BAD), ("TO:<a@b> SMTPUTF8", BAD), ("FROM:<a@b>", BAD),
        ("", BAD), ("TO:<@a:b@c>", BAD), ("TO:<é>", BAD),
    ]
    legacy = [("TO:<é@x>", NEEDS_SMTPUTF8), ("TO:<ann@bücher.example>", NEEDS_SMTPUTF8), ("TO:<é>", BAD), ("TO:<ann@xn--bcher-kva.example>", RECIPIENT_OK)]
    lines = lambda cases: [f"RCPT {argument}" for argument, _ in cases]
    replies = lambda cases: [reply for _, reply in cases]
    hundred = [f"TO:<r{number}@x.y>" for number in range(100)]
    full = [*((it, RECIPIENT_OK) for it in hundred), ("TO:<r100@x.y>", TOO_MANY), ("TO:<r7@X.Y>", RECIPIENT_OK), ("TO:<R7@x.y>", TOO_MANY),
        ("TO:<x@example.org>", NO_MAILBOX)]
    data = ["DATA", "."]
    sent = [GO_AHEAD, STORED]
    return [
        ("arguments of RCPT", store, [EHLO, "MAIL FROM:<a@b> SMTPUTF8", *lines(rows), *data], [*GREETED, SENDER_OK, *replies(rows), *sent],
            message(0, kept("a@b", b"", protocol="UTF8SMTP")) + message(1, kept("a@b", b"", protocol="UTF8SMTP"))
            + queue(b"a@b", [b"ann@bucher.example", b"ann@[example.org]"], octets_of([trace("UTF8SMTP")]))),
        ("arguments of RCPT without SMTPUTF8", store, [EHLO, "MAIL FROM:<a@b>", *lines(legacy)], [*GREETED, SENDER_OK, *replies(legacy)], b""),
        ("a hundred recipients", ANN, [EHLO, "MAIL FROM:<a@b>", *lines(full), *data], [*GREETED, SENDER_OK, *replies(full), *sent],
            queue(b"a@b", [it[4:-1].encode() for it in hundred], octets_of([trace()]))),
    ]


def of_order():
    """Order and form of commands, and the end."""
    after = ["VRFY", "VRFY ann", "NOOP x", "noop", "RSET y"]
    answers = ["252 2.5.0 send and see"] * 2 + [OK] * 3
    return [
        ("no input", ANN, [], READY),
        ("before EHLO", ANN, ["MAIL FROM:<a@b>", "MAIL", "RCPT TO:<a@b>", "RCPT", "DATA", *after, "MAIL FROM:<a@b>", "QUIT"],
            [*READY, *[ORDER] * 5, *answers, ORDER, BYE]),
        ("behind EHLO", ANN, [EHLO, "RCPT x", "DATA", *after, "QUIT x"], [*GREETED, ORDER, ORDER, *answers, BYE]),
        ("a second MAIL, and DATA without a recipient", ANN, [EHLO, "MAIL FROM:<a@b>", "MAIL x", "DATA", "RCPT TO:<ann@x@>", "DATA", TO_ANN, "MAIL FROM:<>"],
            [*GREETED, SENDER_OK, ORDER, ORDER, BAD, ORDER, RECIPIENT_OK, ORDER]),
        ("RSET, EHLO and HELO forget the mail", ANN,
            [EHLO, *(line for verb in ("RSET", EHLO, "HELO x") for line in ("MAIL FROM:<a@b>", TO_ANN, verb, TO_ANN, "DATA"))],
            [*GREETED, *(line for reply in ([OK], OFFERS, ["250 example.org"]) for line in (SENDER_OK, RECIPIENT_OK, *reply, ORDER, ORDER))]),
        ("a refused EHLO changes nothing", ANN, ["EHLO", "MAIL FROM:<a@b>", EHLO, "MAIL FROM:<a@b>", "EHLO", TO_ANN, "HELO", TO_ANN],
            [*READY, BAD, ORDER, *OFFERS, SENDER_OK, BAD, RECIPIENT_OK, BAD, RECIPIENT_OK]),
        ("unknown commands", ANN, ["", " ", "FOO", "EXPN x", "HELP", "STARTTLS", "AUTH PLAIN", "MAILFROM:<a@b>", "BDAT 0", EHLO, "E HLO x", "NOOP\0"],
            [*READY, *[UNKNOWN] * 9, *OFFERS, UNKNOWN, UNKNOWN]),
        ("what stands behind QUIT", ANN, [EHLO, "\tquit\t", "NOOP", "x" * 70_000], [*GREETED, BYE]),
        ("QUIT inside of a mail", ANN, [*READY_FOR_DATA[:-1], "QUIT"], [*TAKES_DATA[:-1], BYE]),
        ("data without an end", ANN, [*READY_FOR_DATA, "A: b", "", "x"], TAKES_DATA),
        ("a line of 65,536 octets", ANN, ["x" * (LINE_MAX - 2), "QUIT"], [*READY, UNKNOWN, BYE]),
        ("white of 65,530 octets", ANN, [" " * (LINE_MAX - 6) + "QUIT"], [*READY, BYE]),
        ("a line of 65,537 octets", ANN, ["x" * (LINE_MAX - 1), "QUIT"], [*READY, TOO_LONG]),
    ]


def of_requests():
    """Lines, and replies, of clients that speak HTTP: the first line counts."""
    methods = ["CONNECT", "GET", "HEAD", "OPTIONS", "POST", "PUT"]
    rest = ["Host: x", "", *READY_FOR_DATA, "A: b", "", "x", ".", "QUIT"]
    others = ["get / HTTP/1.1", "GET", " GET / HTTP/1.1", "GET\t/ HTTP/1.1", "GETS / HTTP/1.1", "DELETE / HTTP/1.1"]
    return [
        *((f"a request {method}", ANN, [f"{method} / HTTP/1.1", *rest], [*READY, SYNTAX]) for method in methods),
        *((f"a first line that is no request: {line!r}", ANN, [line, EHLO, "QUIT"], [*READY, UNKNOWN, *OFFERS, BYE]) for line in others),
        ("requests behind a first line", ANN, ["NOOP", *(f"{it} / HTTP/1.1" for it in methods), EHLO, "GET / HTTP/1.1", "QUIT"],
            [*READY, OK, *[UNKNOWN] * 6, *OFFERS, UNKNOWN, BYE]),
        ("a request behind an unknown first line", ANN, ["FOO", "POST / HTTP/1.1", "QUIT"], [*READY, UNKNOWN, UNKNOWN, BYE]),
        ("a request behind an empty first line", ANN, ["", "POST / HTTP/1.1", "QUIT"], [*READY, UNKNOWN, UNKNOWN, BYE]),
    ]


def of_octets():
    """Name, octets of the client, and octets of the replies."""
    return [
        ("NOO without its end", b"NOO", octets_of(READY)),
        ("QUIT without its LF", b"QUIT\r", octets_of(READY)),
        ("LF and CR that end no line", b"QUIT\nQUIT\rQUIT\r\nNOOP x\ny\r\n", octets_of([*READY, UNKNOWN, OK])),
        ("octets that aren't UTF-8", b"\xff\r\nEHLO \xff\r\n" + octets_of([EHLO]) + b"MAIL FROM:<\xff@x> SMTPUTF8\r\n",
            octets_of([*READY, UNKNOWN, BAD, *OFFERS, BAD])),
        ("65,536 octets without an end", b"x" * LINE_MAX, octets_of(READY)),
        ("65,537 octets without an end", b"x" * (LINE_MAX + 1), octets_of([*READY, TOO_LONG])),
        ("data without their last LF", octets_of([*READY_FOR_DATA, "A: b"]) + b".\r", octets_of(TAKES_DATA)),
    ]


def of_journals():
    """Name, journal, status, octets and the journal then."""
    stays = mailbox([b"A: b\r\n"])
    return [
        ("a journal with a record cut off", stays[:-1], 0, octets_of([*READY, BYE]), ANN),
        ("no journal", None, 0, octets_of(["220 localhost ESMTP", BYE]), journal()),
        ("a bad journal", ANN + b"\0\0\0\1\x09", 5, b"bad journal at %d\r\n" % len(ANN), ANN + b"\0\0\0\1\x09"),
        ("other octets", b"MAILJNL3", 5, b"bad journal at 0\r\n", b"MAILJNL3"),
    ]


def rows():
    """Name, journal, input, and what is wanted: status, octets and journal."""
    for name, before, lines, replies, records in [*of_mail(), *of_recipients()]:
        yield name, before, octets_of(lines), (0, octets_of(replies), (before or journal()) + records)
    for name, before, lines, replies in [*of_greetings(), *of_senders(), *of_order(), *of_requests()]:
        yield name, before, octets_of(lines), (0, octets_of(replies), before)
    for name, lines, data in of_data():
        records, reply = (b"", NO_MESSAGE) if data is None else (message(0, kept("a@b", data)), STORED)
        yield name, ANN, octets_of([*READY_FOR_DATA, *lines, ".", TO_ANN]), (0, octets_of([*TAKES_DATA, reply, ORDER]), ANN + records)
    for name, path, lines, local, remote in of_marks():
        data, traced = octets_of(lines), octets_of([trace("UTF8SMTP")])
        records = own.message(0, kept(path, data, protocol="UTF8SMTP"), mark=local) + own.queue(path.encode(), [b"c@d"], traced + data, remote)
        given = [EHLO, f"MAIL FROM:<{path}> SMTPUTF8", "RCPT TO:<c@d>", TO_ANN, "DATA", *lines, "."]
        yield f"marks: {name}", ANN, octets_of(given), (0, octets_of([*GREETED, SENDER_OK, RECIPIENT_OK, RECIPIENT_OK, GO_AHEAD, STORED]), ANN + records)
    for name, lines, loops in of_loops():
        records, reply = (b"", LOOP) if loops else (message(0, kept("a@b", octets_of(lines))), STORED)
        yield name, ANN, octets_of([*READY_FOR_DATA, *lines, ".", TO_ANN]), (0, octets_of([*TAKES_DATA, reply, ORDER]), ANN + records)
    yield "100 fields Received and a line that is no field", ANN, octets_of([*READY_FOR_DATA, *["Received: x"] * 100, "x", "."]), (
        0, octets_of([*TAKES_DATA, NO_MESSAGE]), ANN)
    for name, data in of_ends():
        yield f"no end: {name}", ANN, octets_of(READY_FOR_DATA) + data + b"NOOP\r\n", (0, octets_of([*TAKES_DATA, NO_MESSAGE, OK]), ANN)
    for name, given, wanted in of_octets():
        yield name, ANN, given, (0, wanted, ANN)
    for name, before, status, line, after in of_journals():
        yield name, before, b"QUIT\r\n", (status, line, after)


def check_rows(program, tally):
    def one(row):
        _, before, given, wanted = row
        status, due, after = outcome(before or b"", given, 0, MESSAGE_MAX)
        faults = [f"oracle: {fault}" for fault in answer_faults((status, joined(due), after), wanted)]
        return faults + all_cuts(program, before, given, wanted, due, [1], SMTP, Moments(before, 0).seen)

    cases = list(rows())
    for row, faults in zip(cases, in_lanes(one, cases)):
        tally.note(f"SMTP: {row[0]}", faults)


def check_every_cut(program, tally):
    """The mail of a sender beyond ASCII in two pieces, cut at each place."""
    octets, wanted = octets_of([*JOSE, "QUIT"]), (0, octets_of([*JOSE_REPLIES, BYE]), ANN + message(0, JOSE_KEPT))
    due = outcome(ANN, octets, 0, MESSAGE_MAX)[1]

    def one(place):
        moments = Moments(ANN, 0)
        status, given, after, faults = run_cut(program, ANN, cut_at(octets, [place]), due, SMTP)
        return faults or answer_faults((status, given, moments.seen(after)), wanted)

    places = list(range(1, len(octets)))
    for place, faults in zip(places, in_lanes(one, places)):
        tally.note(f"SMTP: cut behind {place} octets", faults)


def check_readers(program, tally):
    """What the mail of a sender beyond ASCII leaves is read by our reader, and by POP3."""
    moments = Moments(ANN, 0)
    after = moments.seen(run_whole(program, ANN, octets_of(JOSE), SMTP)[2])
    store, whole = open_journal(after)
    faults = differs("journal", whole, after) + differs("messages", store.messages, [(0, JOSE_KEPT)]) + differs("entries", store.entries, [])
    tally.note("SMTP: the journal as our reader has it", faults)
    login = ["USER ann@example.org", "PASS pw", "RETR 1", "QUIT"]
    shown = octets_of(["+OK ready", "+OK", "+OK", "+OK", *JOSE_SHOWN, ".", "+OK bye"])
    tally.note("SMTP: what a legacy client is shown of it", answer_faults(run_whole(program, after, octets_of(login), POP), (0, shown, after)))


def check(program, tally):
    check_rows(program, tally)
    check_every_cut(program, tally)
    check_readers(program, tally)
