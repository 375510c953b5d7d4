"""Rows of POP3 that are written out: a journal and lines in, replies, a status and a journal out."""

from journal import account, domain, expunge, flags, folder, journal
from oracle.pop_oracle import outcome
from oracle.records import mailbox, message
from rows import journal_rows
from rows.downgrade_rows import CAFE, MIXED
from support.harness import in_lanes
from support.talk import all_cuts, answer_faults, joined

READY = ["+OK ready"]
CAPABILITIES = ["+OK", "UTF8 USER", "TOP", "UIDL", "USER", "."]
LOGIN = ["USER ann@example.org", "PASS pw"]
LOGGED_IN = ["+OK ready", "+OK", "+OK"]
ANN = mailbox([])
TWO = journal(domain(b"example.org"), account(b"ann@example.org", b"pw"), account(b"bob@example.org", b""), message(1, b"A: b\r\n"))
DOTS = mailbox([b"A: b\r\n\r\n.\r\n..\r\nx.\r\n\r\n.x"])
LINE_MAX = 65_536
# a part that is a message, with a part inside
NESTED = [
    "Content-Type: multipart/mixed; boundary=a", "", "--a", "Content-Type: message/rfc822", "", "Subject: é",
    "Content-Type: multipart/mixed; boundary=b", "", "--b", "Subject: café bar", "", ".é", "--b--", "--a--",
]
HIGH_MADE, CAFE_MADE = ["Subject:", " =?UTF-8?B?w6k=?="], ["Subject:", " =?UTF-8?B?Y2Fmw6k=?=", " bar"]
TRACED = mailbox(["Received: for <é@x>; 1\r\nReturn-Path: <a@é>\r\nMessage-ID: <é@x>\r\nContent-Disposition: a;x=é\r\n-x: é\r\n".encode()])


def octets_of(lines):
    return "".join(line + "\r\n" for line in lines).encode()


def of_mail():
    """What is shown of messages: name, journal, lines of the client, and replies."""
    cafe = mailbox([CAFE])
    return [
        ("café bar to a legacy client", cafe, [*LOGIN, "UTF8", "STAT", "LIST 1", "QUIT"],
            [*LOGGED_IN, "-ERR out of order", "+OK 1 44", "+OK 1 44", "+OK bye"]),
        ("café bar to an enabled client", cafe, ["UTF8", *LOGIN, "UTF8", "STAT", "LIST 1", "QUIT"],
            ["+OK ready", "+OK", "+OK", "+OK", "-ERR out of order", "+OK 1 25", "+OK 1 25", "+OK bye"]),
        ("café bar retrieved by a legacy client", cafe, [*LOGIN, "RETR 1"],
            [*LOGGED_IN, "+OK", "Subject:", " =?UTF-8?B?Y2Fmw6k=?=", " bar", "", "x", "."]),
        ("café bar retrieved by an enabled client", cafe, ["UTF8", *LOGIN, "RETR 1"],
            ["+OK ready", "+OK", "+OK", "+OK", "+OK", "Subject: café bar", "", "x", "."]),
        ("a message of other fields retrieved by a legacy client", TRACED, [*LOGIN, "RETR 1"],
            [*LOGGED_IN, "+OK", "Received:", " ; 1", "Return-Path:", " <a@xn--9ca>", "Downgraded-Message-ID:", " =?UTF-8?B?PMOpQHg+?=",
                "Content-Disposition:", " a;", " x*=UTF-8''%C3%A9", "Downgraded--x:", " =?UTF-8?B?w6k=?=", "."]),
        ("UTF8 twice", cafe, ["utf8", "Utf8", *LOGIN, "STAT"], ["+OK ready", "+OK", "+OK", "+OK", "+OK", "+OK 1 25"]),
        ("an account without messages", ANN, [*LOGIN, "STAT", "LIST", "LIST 1", "RETR 1"],
            [*LOGGED_IN, "+OK 0 0", "+OK", ".", "-ERR no such message", "-ERR no such message"]),
        ("numbers", cafe, [*LOGIN, "LIST 0", "LIST 2", "LIST 0001", "RETR 18446744073709551617", "LIST " + "9" * 5000, "LIST " + "0" * 5000 + "1"],
            [*LOGGED_IN, "-ERR no such message", "-ERR no such message", "+OK 1 44", "-ERR no such message", "-ERR no such message", "+OK 1 44"]),
        ("dots, and a last line without CRLF", DOTS, [*LOGIN, "STAT", "RETR 1"],
            [*LOGGED_IN, "+OK 1 23", "+OK", "A: b", "", "..", "...", "x.", "", "..x", "."]),
        ("a nested multipart retrieved by a legacy client", mailbox([octets_of(NESTED)]), [*LOGIN, "STAT", "RETR 1"],
            [*LOGGED_IN, "+OK 1 221", "+OK", *NESTED[:5], *HIGH_MADE, *NESTED[6:9], *CAFE_MADE, "", "..é", *NESTED[12:], "."]),
        ("a nested multipart retrieved by an enabled client", mailbox([octets_of(NESTED)]), ["UTF8", *LOGIN, "STAT", "RETR 1"],
            ["+OK ready", "+OK", "+OK", "+OK", "+OK 1 186", "+OK", *NESTED[:11], "..é", *NESTED[12:], "."]),
        ("a part's last line without CRLF", mailbox([f"{MIXED}--b\r\nSubject: é".encode()]), [*LOGIN, "STAT", "RETR 1"],
            [*LOGGED_IN, "+OK 1 77", "+OK", *MIXED.splitlines(), "--b", *HIGH_MADE, "."]),
        ("a message without octets", mailbox([b""]), [*LOGIN, "STAT", "RETR 1"], [*LOGGED_IN, "+OK 1 0", "+OK", "."]),
    ]


def of_logins():
    """Who may log in."""
    return [
        ("an account without a password", TWO, ["USER bob@example.org", "PASS ", "STAT"], [*LOGGED_IN, "+OK 1 6"]),
        ("a wrong password, and USER is forgotten", ANN, ["USER ann@example.org", "PASS PW", "PASS pw", *LOGIN],
            ["+OK ready", "+OK", "-ERR no", "-ERR out of order", "+OK", "+OK"]),
        ("a password has its white", ANN, ["USER ann@example.org", "PASS  pw", *LOGIN[:1], "PASS pw ", *LOGIN],
            ["+OK ready", "+OK", "-ERR no", "+OK", "-ERR no", "+OK", "+OK"]),
        ("a second USER replaces the first", ANN, ["USER x", *LOGIN], ["+OK ready", "+OK", "+OK", "+OK"]),
        ("the first of two accounts of one mailbox", journal(account(b"a@b", b"1"), account(b"A@B", b"2"), message(1, b"A: b\r\n")),
            ["USER A@B", "PASS 2", "USER a@b", "PASS 1", "STAT"], ["+OK ready", "+OK", "-ERR no", "+OK", "+OK", "+OK 0 0"]),
    ]


def of_mailboxes():
    """What stands in a mailbox."""
    three = mailbox([b"A: 1\r\n", b"A: 12\r\n", b"A: 123\r\n"])
    folders = journal(account(b"a@b", b""), folder(0, b"f"), account(b"ann@example.org", b"pw"), folder(1, b"INBOX"))
    return [
        ("an expunged message", three + expunge(1) + flags(2, 8), [*LOGIN, "STAT", "LIST", "RETR 2", "RETR 3"],
            [*LOGGED_IN, "+OK 2 14", "+OK", "1 6", "2 8", ".", "+OK", "A: 123", ".", "-ERR no such message"]),
        ("all messages expunged", three + expunge(1) + expunge(0) + expunge(2), [*LOGIN, "STAT", "LIST"], [*LOGGED_IN, "+OK 0 0", "+OK", "."]),
        ("messages of other folders", folders + b"".join(message(number, b"A: %d\r\n" % 10**number) for number in range(4)),
            [*LOGIN, "STAT", "RETR 1"], [*LOGGED_IN, "+OK 1 8", "+OK", "A: 100", "."]),
    ]


def of_names():
    """What names a mailbox, and what doesn't."""
    text = "Strasse.e\u0301\u03c3@B\u00fccher.example"
    names = [
        text, "STRASSE.\u00c9\u03a3@b\u00fccher.EXAMPLE", "stra\u00dfe.\u00e9\u03c2@bu\u0308cher.example", "strasse.\u00e9\u03c3@XN--BCHER-KVA.example",
        '"\\Strasse.\u00e9\u03c3" @ (her) b\u00fccher . example', "strasse.(x)\u00e9\u03c3@b\u00fccher.example (y)",
    ]
    others = ["strasse.e\u03c3@b\u00fccher.example", "strasse.\u00e9\u03c3@bucher.example", f"<{text}>", f"{text},", f"@x:{text}", text[:20], f"{text}(", f"x {text}"]
    literal, mail = journal(account(b"a@[1.B]", b"pw")), journal(account(text.encode(), b"pw"), message(0, b"A: b\r\n"))
    return [
        *((f"the name {name}", mail, [f"USER {name}", "PASS pw", "STAT"], [*LOGGED_IN, "+OK 1 6"]) for name in names),
        *((f"the other name {name}", mail, [f"USER {name}", "PASS pw"], ["+OK ready", "+OK", "-ERR no"]) for name in others),
        ("a domain without a normal form", literal, ["USER A@[1.b]", "PASS pw", "USER A@[1.B]", "PASS pw"], ["+OK ready", "+OK", "-ERR no", "+OK", "+OK"]),
    ]


def of_commands():
    """Order and form of commands, and the end."""
    cafe = mailbox([CAFE])
    return [
        ("no input", ANN, [], READY),
        ("a second QUIT", ANN, ["QUIT", "QUIT"], ["+OK ready", "+OK bye"]),
        ("what stands behind QUIT", ANN, [*LOGIN, "QUIT", "STAT", "x" * 70_000], [*LOGGED_IN, "+OK bye"]),
        ("keywords in any case", ANN, ["uSer ann@example.org", "pass pw", "stAT", "list", "qUIt"],
            [*LOGGED_IN, "+OK 0 0", "+OK", ".", "+OK bye"]),
        ("before the login", cafe, ["STAT", "LIST", "LIST 1", "RETR 1", "PASS pw", "STAT x", "RETR", "UIDL", "TOP 1 1", "DELE 1", "RSET", "NOOP", "QUIT"],
            [*READY, *["-ERR out of order"] * 12, "+OK bye"]),
        ("what the server can do", cafe, ["CAPA", *LOGIN, "capa"], [*READY, *CAPABILITIES, "+OK", "+OK", *CAPABILITIES]),
        ("behind the login", cafe, [*LOGIN, *LOGIN, "UTF8", "USER", "PASS", "UTF8 x"], [*LOGGED_IN, *["-ERR out of order"] * 6]),
        ("unknown commands", ANN, ["", " ", "APOP a b", "AUTH", "CAPA x", *LOGIN, "APOP", "XTND x"],
            [*READY, *["-ERR syntax"] * 5, "+OK", "+OK", "-ERR syntax", "-ERR syntax"]),
        ("arguments that are wrong", cafe, ["USER", "USER ", "PASS", "UTF8 ", "UTF8 x", "QUIT ", "QUIT x", *LOGIN, "STAT ", "STAT 1",
            "LIST ", "LIST x", "LIST 1 ", "LIST  1", "LIST -1", "RETR", "RETR ", "RETR +1", "RETR 1 1", "RETR\t1", "QUIT 1", "UIDL ", "UIDL 1 1",
            "TOP", "TOP 1", "TOP 1 ", "TOP  1", "TOP 1  1", "TOP 1 -1", "TOP x 1", "DELE", "DELE ", "DELE x", "RSET 1", "NOOP ", "CAPA "],
            [*READY, *["-ERR syntax"] * 7, "+OK", "+OK", *["-ERR syntax"] * 28]),
        *((f"{method} in the first line", ANN, [f"{method} / HTTP/1.1", "Host: 127.0.0.1:110", "", *LOGIN], [*READY, "-ERR syntax"])
            for method in ("CONNECT", "GET", "HEAD", "OPTIONS", "POST", "PUT")),
        ("an HTTP request in the second line", ANN, ["NOOP", "POST / HTTP/1.1", *LOGIN], [*READY, "-ERR out of order", "-ERR syntax", "+OK", "+OK"]),
        *((f"{line} in the first line", ANN, [line, *LOGIN], [*READY, "-ERR syntax", "+OK", "+OK"]) for line in ("post / HTTP/1.1", "POST", "DELETE / HTTP/1.1", " GET / HTTP/1.1")),
        ("a line of 65,536 octets", ANN, ["x" * (LINE_MAX - 2), "QUIT"], [*READY, "-ERR syntax", "+OK bye"]),
        ("a line of 65,537 octets", ANN, ["x" * (LINE_MAX - 1), "QUIT"], [*READY, "-ERR line too long"]),
    ]


def of_tops():
    """How much TOP shows: the header, its empty line, and so many lines."""
    long, headers = mailbox([b"A: b\r\n\r\n.1\r\n2\r\n\r\n4"]), mailbox(["Subject: é\r\nA: b".encode(), b"\r\nx\r\n", b""])
    return [
        ("TOP", long, [*LOGIN, *(f"TOP 1 {count}" for count in (0, 1, 3, "0004", 5, "9" * 400)), "TOP 2 1", "TOP 0 0"],
            [*LOGGED_IN, "+OK", "A: b", "", ".", "+OK", "A: b", "", "..1", ".", "+OK", "A: b", "", "..1", "2", "", ".",
                *["+OK", "A: b", "", "..1", "2", "", "4", "."] * 3, "-ERR no such message", "-ERR no such message"]),
        ("TOP of a message that is a header alone, or a body", headers, [*LOGIN, "TOP 1 0", "TOP 2 0", "TOP 2 1", "TOP 3 7"],
            [*LOGGED_IN, "+OK", *HIGH_MADE, "A: b", ".", "+OK", "", ".", "+OK", "", "x", ".", "+OK", "."]),
        ("TOP to an enabled client", headers, ["UTF8", *LOGIN, "TOP 1 0"], ["+OK ready", "+OK", "+OK", "+OK", "+OK", "Subject: é", "A: b", "."]),
    ]


def of_marks():
    """Marks: name, journal, lines, replies, and the records that the session brings."""
    three = mailbox([b"A: 1\r\n", b"A: 12\r\n", b"A: 123\r\n"])
    listed = ["+OK", "1 6", "3 8", "."]
    marked = [*LOGIN, "DELE 2", "STAT", "LIST", "UIDL"]
    told = [*LOGGED_IN, "+OK", "+OK 2 14", *listed, "+OK", "1 1", "3 3", "."]
    none = "-ERR no such message"
    return [
        ("a marked message", three, [*marked, "LIST 2", "UIDL 2", "RETR 2", "TOP 2 0", "DELE 2", "UIDL 3", "NOOP", "QUIT"],
            [*told, *[none] * 5, "+OK 3 3", "+OK", "+OK bye"], expunge(1)),
        ("marks without QUIT", three, marked, told, b""),
        ("QUIT with an argument leaves the marks", three, [*marked, "QUIT x"], [*told, "-ERR syntax"], b""),
        ("RSET takes the marks away", three, [*LOGIN, "DELE 1", "DELE 3", "RSET", "STAT", "DELE 3", "QUIT"],
            [*LOGGED_IN, "+OK", "+OK", "+OK", "+OK 3 21", "+OK", "+OK bye"], expunge(2)),
        ("marks go in the order of the messages", three, [*LOGIN, "DELE 3", "DELE 1", "DELE 2", "STAT", "LIST", "QUIT"],
            [*LOGGED_IN, *["+OK"] * 3, "+OK 0 0", "+OK", ".", "+OK bye"], expunge(0) + expunge(1) + expunge(2)),
        ("what was expunged keeps its UID", three + expunge(0), [*LOGIN, "UIDL", "UIDL 1", "DELE 1", "QUIT"],
            [*LOGGED_IN, "+OK", "1 2", "2 3", ".", "+OK 1 2", "+OK", "+OK bye"], expunge(1)),
    ]


def of_octets():
    """Name, journal, octets of the client, and octets of the replies."""
    too_long = b"+OK ready\r\n-ERR line too long\r\n"
    high, refused = b"\xff\xfe\r\nUSER \xff\r\nPASS \xff\r\n\0\r\n", ["+OK ready", "-ERR syntax", "+OK", "-ERR no", "-ERR syntax"]
    return [
        ("NOO without its end", ANN, b"NOO", b"+OK ready\r\n"),
        ("QUIT without its LF", ANN, b"QUIT\r", b"+OK ready\r\n"),
        ("LF and CR that end no line", ANN, b"QUIT\nQUIT\rQUIT\r\n", b"+OK ready\r\n-ERR syntax\r\n"),
        ("octets that aren't UTF-8", ANN, high, octets_of(refused)),
        ("65,536 octets without an end", ANN, b"x" * LINE_MAX, b"+OK ready\r\n"),
        ("65,537 octets without an end", ANN, b"x" * (LINE_MAX + 1), too_long),
        ("CR as octet 65,536", ANN, b"x" * (LINE_MAX - 1) + b"\r\nQUIT\r\n", too_long),
    ]


def rows():
    """Name, journal, input, and what is wanted: status, octets and journal."""
    for name, octets, lines, replies in [*of_mail(), *of_logins(), *of_mailboxes(), *of_names(), *of_commands(), *of_tops()]:
        yield name, octets, octets_of(lines), (0, octets_of(replies), octets)
    for name, octets, lines, replies, records in of_marks():
        yield name, octets, octets_of(lines), (0, octets_of(replies), octets + records)
    for name, octets, given, wanted in of_octets():
        yield name, octets, given, (0, wanted, octets)
    for name, octets, status, line, after in journal_rows.rows():
        yield name, octets, b"QUIT\r\n", (status, line, after)


def check(program, tally):
    def one(row):
        _, octets, given, wanted = row
        status, due, after = outcome(octets or b"", given)
        faults = [f"oracle: {fault}" for fault in answer_faults((status, joined(due), after), wanted)]
        return faults + all_cuts(program, octets, given, wanted, due, [1])

    cases = list(rows())
    for row, faults in zip(cases, in_lanes(one, cases)):
        tally.note(f"POP3: {row[0]}", faults)
