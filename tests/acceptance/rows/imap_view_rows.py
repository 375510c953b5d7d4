"""Rows of IMAP on what FETCH tells of the parts of a message, and on APPEND, in the form that imap_rows.py tells."""

import journal as own
from journal import account, domain, expunge, flags, folder, journal
from oracle.records import mailbox, message
from rows.imap_rows import (
    ANN, BAD, CAFE_BAR, DONE, DRAFT, ENABLE, FOLDERS, GO, LOGIN, MESSAGE_MAX, NO_FOLDER, ORDER, SEEN, SURROGATE, check_every_cut, check_rows, examine, fetch,
    opened, played, refused, select,
)

CRLF = b"\r\n"
NOT_A_MESSAGE, NOT_ENABLED, TOO_LARGE = "a NO not a message", "a NO not enabled", "a NO too large"
DATE = "01-Jan-1970 00:00:00 +0000"
NIL_ENVELOPE = "(NIL NIL NIL NIL NIL NIL NIL NIL NIL NIL)"
PLAIN = '("text" "plain" ("charset" "us-ascii") NIL NIL "7bit" {} {})'
NOTE = b"A: b\r\n\r\nx\r\n"
SPECIAL = b"Subject: a\r\n b\r\nX(y]: 1\r\nsubject:c\r\n\r\nt\r\n"


class Letter:
    """A letter with a text and a letter in it, which has two parts; each piece as a session of one mode is shown it."""

    def __init__(self, subject, people, inner_subject, disposition):
        self.subject = f"Subject:{subject}\r\n".encode()
        self.header = f"From:{people}\r\nTo: Ann <a@x>, friends: b@x, \"C \\\"D\\\"\" <c@y>;\r\n".encode() + self.subject
        self.header += b"Message-ID: <1@x>\r\nContent-Type: multipart/mixed; Boundary=b\r\n\r\n"
        self.text_mime, self.text = b"Content-Type: text/plain; charset=utf-8\r\nContent-ID: <p1>\r\n\r\n", "é\r\n".encode()
        self.inner_mime = f"Content-Type: message/rfc822\r\nContent-Disposition:{disposition}\r\n\r\n".encode()
        self.inner_subject = f"Subject:{inner_subject}\r\n".encode()
        self.inner_header = self.inner_subject + b"Content-Type: multipart/alternative; boundary=c\r\n\r\n"
        self.first, self.second_mime = b"one\r\ntwo", b"Content-Type: application/pdf; name=x.pdf\r\nContent-Transfer-Encoding: BASE64\r\n\r\n"
        self.second = b"JVBERg=="
        self.inner_text = b"--c\r\n\r\n" + self.first + b"\r\n--c\r\n" + self.second_mime + self.second + b"\r\n--c--"
        self.inner = self.inner_header + self.inner_text
        self.body = b"before\r\n--b\r\n" + self.text_mime + self.text + b"\r\n--b\r\n" + self.inner_mime + self.inner + b"\r\n--b--\r\nbehind\r\n"
        self.octets = self.header + self.body


STORED = Letter(" café", " José <jose@bücher.example>", " ü", ' Attachment; filename="é.eml"')
SHOWN = Letter(
    "\r\n =?UTF-8?B?Y2Fmw6k=?=", "\r\n =?UTF-8?B?Sm9zw6k=?=\r\n <jose@xn--bcher-kva.example>", "\r\n =?UTF-8?B?w7w=?=",
    "\r\n Attachment;\r\n filename*=UTF-8''%C3%A9.eml",
)
LETTER = mailbox([STORED.octets])
MODES = [("an enabled session", STORED, [LOGIN, ENABLE]), ("a legacy session", SHOWN, [LOGIN])]


def literal(name, octets):
    return f"{name} {{{len(octets)}}}\r\n".encode() + octets


def told(*items):
    """The reply to a FETCH of one message."""
    return b"* 1 FETCH (" + b" ".join(it if isinstance(it, bytes) else it.encode() for it in items) + f")\r\n{DONE}\r\n".encode()


def sections_of(it):
    """The sections of a letter: as they are asked, and what they show, or None."""
    return [
        ("", it.octets), ("HEADER", it.header), ("TEXT", it.body), ("1", it.text), ("1.MIME", it.text_mime), ("2", it.inner), ("2.MIME", it.inner_mime),
        ("2.HEADER", it.inner_header), ("2.TEXT", it.inner_text), ("2.1", it.first), ("2.1.MIME", b"\r\n"), ("2.2", it.second), ("2.2.MIME", it.second_mime),
        ("1.1", it.text), ("2.1.1.1", it.first), ("HEADER.FIELDS (SUBJECT)", it.subject + b"\r\n"), ("HEADER.FIELDS (X)", b"\r\n"),
        ("2.HEADER.FIELDS (X SUBJECT SUBJECT)", it.inner_subject + b"\r\n"), ("2.HEADER.FIELDS.NOT (CONTENT-TYPE)", it.inner_subject + b"\r\n"),
        ("HEADER.FIELDS.NOT (X)", it.header), *((name, None) for name in ("3", "1.2", "2.3", "1.HEADER", "1.TEXT", "2.2.HEADER", "2.1.TEXT", "3.MIME",
        "2.1.HEADER.FIELDS (X)", "4294967295")),
    ]


def shown(name, octets):
    return literal(f"BODY[{name}]", octets) if octets is not None else f"BODY[{name}] NIL"


def of_sections():
    rows = []
    for mode, it, begins in MODES:
        begins = [*begins, select(1, 2)]
        asked = [(f"a FETCH 1 BODY.PEEK[{name}]", told(shown(name, octets))) for name, octets in sections_of(it)]
        lower = [(f"a fetch 1 body.peek[{name.lower()}]", told(shown(name, octets))) for name, octets in sections_of(it)]
        items = " ".join(f"BODY.PEEK[{name}]" for name, _ in sections_of(it))
        rows += [
            (f"sections, one by one, to {mode}", LETTER, [*begins, *asked, *lower], b""),
            (f"sections, together, to {mode}", LETTER, [*begins, (f"a UID FETCH 1 ({items})", told("UID 1", *(shown(*one) for one in sections_of(it))))], b""),
            (f"RFC822 and its kin, to {mode}", LETTER, [*begins, ("a FETCH 1 (RFC822.HEADER RFC822.SIZE)", told(literal("RFC822.HEADER", it.header),
                f"RFC822.SIZE {len(it.octets)}")), ("a FETCH 1 RFC822.TEXT", told(literal("RFC822.TEXT", it.body), "FLAGS (\\Seen)"))], flags(0, SEEN)),
        ]
    plain = [("", CAFE_TEXT), ("1", b"x\r\n"), ("1.1", b"x\r\n"), ("1.MIME", CAFE_HEADER), ("TEXT", b"x\r\n"), ("2", None), ("1.HEADER", None)]
    return [
        *rows,
        ("sections of a message without parts", CAFE_BAR, [LOGIN, select(1, 2), *((f"a FETCH 1 BODY.PEEK[{name}]", told(shown(name, it))) for name, it in plain)],
            b""),
        ("names of fields", mailbox([SPECIAL]), [LOGIN, select(1, 2),
            ("a FETCH 1 BODY.PEEK[HEADER.FIELDS (subject)]", told(literal("BODY[HEADER.FIELDS (SUBJECT)]", b"Subject: a\r\n b\r\nsubject:c\r\n\r\n"))),
            ('a FETCH 1 BODY.PEEK[HEADER.FIELDS ("x(y]")]', told(literal('BODY[HEADER.FIELDS ("X(Y]")]', b"X(y]: 1\r\n\r\n"))),
            ("a FETCH 1 BODY.PEEK[HEADER.FIELDS.NOT (subject)]", told(literal("BODY[HEADER.FIELDS.NOT (SUBJECT)]", b"X(y]: 1\r\n\r\n"))),
            ("a FETCH 1 BODY.PEEK[HEADER.FIELDS ({7}", [GO]), (b"subject)]\r\n",
            told(literal("BODY[HEADER.FIELDS (SUBJECT)]", b"Subject: a\r\n b\r\nsubject:c\r\n\r\n")))], b""),
        ("a header without an empty line", mailbox([b"A: 1\r\nB: 2\r\n"]), [LOGIN, select(1, 2),
            ("a FETCH 1 (BODY.PEEK[HEADER] BODY.PEEK[TEXT] BODY.PEEK[HEADER.FIELDS (B)])", told(literal("BODY[HEADER]", b"A: 1\r\nB: 2\r\n"),
            literal("BODY[TEXT]", b""), literal("BODY[HEADER.FIELDS (B)]", b"B: 2\r\n\r\n")))], b""),
        ("no octets", mailbox([b""]), [LOGIN, select(1, 2), ("a FETCH 1 (BODY.PEEK[] BODY.PEEK[HEADER] BODY.PEEK[1] BODY.PEEK[HEADER.FIELDS (B)])",
            told(*(literal(f"BODY[{name}]", b"") for name in ("", "HEADER", "1")), literal("BODY[HEADER.FIELDS (B)]", b"\r\n")))], b""),
        ("sections that are wrong", CAFE_BAR, [LOGIN, select(1, 2), *refused(BAD, [f"FETCH 1 BODY{it}" for it in ("[0]", "[01]", "[1.]", "[.1]", "[MIME]",
            "[1.MIME.1]", "[HEADER.FIELDS]", "[HEADER.FIELDS ()]", "[HEADER.FIELDS subject]", "[TEXT", "[X]", "[]<>", "[]<1>", "[]<0.0>", "[]<0.1", "<0.1>",
            "[4294967296]", ".PEEK")])], b""),
    ]


CAFE_HEADER = "\r\n".join([*SURROGATE[:3], "", ""]).encode()
CAFE_TEXT = CAFE_HEADER + b"x\r\n"


def of_partials():
    """Partials are cut out of what the session is shown."""
    cafe = "Subject: café bar\r\n\r\nx\r\n".encode()
    rows = []
    for mode, octets, begins in (("an enabled session", cafe, [LOGIN, ENABLE]), ("a legacy session", CAFE_TEXT, [LOGIN])):
        cuts = [(0, 8), (8, 10), (0, 1_000_000), (len(octets) - 1, 5), (len(octets), 5), (4_294_967_295, 4_294_967_295), (12, 1)]
        asked = [(f"a FETCH 1 BODY.PEEK[]<{at}.{count}>", told(literal(f"BODY[]<{at}>", octets[at : at + count]))) for at, count in cuts]
        rows.append((f"partials, to {mode}", CAFE_BAR, [*begins, select(1, 2), *asked], b""))
    return [
        *rows,
        ("partials of sections", CAFE_BAR, [LOGIN, select(1, 2), ("a FETCH 1 (BODY.PEEK[HEADER]<0.8> BODY.PEEK[TEXT])", told(literal("BODY[HEADER]<0>",
            b"Subject:"), literal("BODY[TEXT]", b"x\r\n"))), ("a FETCH 1 BODY.PEEK[HEADER.FIELDS (subject)]<007.5>", told(literal(
            "BODY[HEADER.FIELDS (SUBJECT)]<7>", CAFE_HEADER[7:12]))), ("a FETCH 1 (BODY.PEEK[2]<0.5> BODY.PEEK[1]<1.1>)", told("BODY[2]<0> NIL",
            literal("BODY[1]<1>", b"\r")))], b""),
    ]


def envelope_of(subject, name, host):
    sender = f'(("{name}" NIL "jose" "{host}"))'
    to = '(("Ann" NIL "a" "x")(NIL NIL "friends" NIL)(NIL NIL "b" "x")("C \\"D\\"" NIL "c" "y")(NIL NIL NIL NIL))'
    return f'(NIL "{subject}" {sender} {sender} {sender} {to} NIL NIL NIL "<1@x>")'


def structure_of(it, inner_subject, parameter, is_extended):
    """BODY, or BODYSTRUCTURE, of a letter."""
    more = lambda disposition="NIL": f" NIL {disposition} NIL NIL" if is_extended else ""
    last = lambda name, boundary: f' ("{name}" "{boundary}") NIL NIL NIL' if is_extended else ""
    text = f'("text" "plain" ("charset" "utf-8") "<p1>" NIL "7bit" {len(it.text)} 1{more()})'
    parts = f'{PLAIN.format(8, 1)[:-1]}{more()})("application" "pdf" ("name" "x.pdf") NIL NIL "BASE64" 8{more()})'
    inner = f'({parts} "alternative"{last("boundary", "c")})'
    envelope = f'(NIL "{inner_subject}" NIL NIL NIL NIL NIL NIL NIL NIL)'
    nested = f'("message" "rfc822" NIL NIL NIL "7bit" {len(it.inner)} {envelope} {inner} {it.inner.count(CRLF)}'
    return f'({text}{nested}{more(f"""("attachment" ({parameter}))""")}) "mixed"{last("Boundary", "b")})'


def of_views():
    rows = []
    views = [('café', "José", "bücher.example", "ü", '"filename" "é.eml"'), ("=?UTF-8?B?Y2Fmw6k=?=", "=?UTF-8?B?Sm9zw6k=?=", "xn--bcher-kva.example",
        "=?UTF-8?B?w7w=?=", '"filename*" "UTF-8\'\'%C3%A9.eml"')]
    for (mode, it, begins), (subject, name, host, inner_subject, parameter) in zip(MODES, views):
        envelope = f"ENVELOPE {envelope_of(subject, name, host)}"
        body, structure = (f"{word} {structure_of(it, inner_subject, parameter, word != 'BODY')}" for word in ("BODY", "BODYSTRUCTURE"))
        size = f"RFC822.SIZE {len(it.octets)}"
        rows.append((f"envelopes and structures, to {mode}", LETTER, [*begins, select(1, 2), ("a FETCH 1 ENVELOPE", told(envelope)), ("a FETCH 1 BODY", told(body)),
            ("a FETCH 1 BODYSTRUCTURE", told(structure)), ("a FETCH 1 (BODYSTRUCTURE ENVELOPE BODY)", told(structure, envelope, body)),
            ("a FETCH 1 ALL", told("FLAGS ()", f'INTERNALDATE "{DATE}"', size, envelope)), ("a UID FETCH 1 FULL", told("UID 1", "FLAGS ()",
            f'INTERNALDATE "{DATE}"', size, envelope, body))], b""))
    identifier = mailbox(["Message-ID: <é@x>\r\n".encode()])
    encodings = mailbox([f"Content-Transfer-Encoding: {value}\r\n\r\nx\r\n".encode() for value in ("é", "base64 (é)")])
    return [
        *rows,
        ("an identifier beyond ASCII, to a legacy session", identifier, [LOGIN, select(1, 2), fetch("1 ENVELOPE", f"1 FETCH (ENVELOPE {NIL_ENVELOPE})")], b""),
        ("an identifier beyond ASCII, to an enabled session", identifier, [LOGIN, ENABLE, select(1, 2), fetch("1 ENVELOPE",
            '1 FETCH (ENVELOPE (NIL NIL NIL NIL NIL NIL NIL NIL NIL "<é@x>"))')], b""),
        ("café bar, and its subject", CAFE_BAR, [LOGIN, select(1, 2), ("a FETCH 1 (BODY BODY.PEEK[HEADER.FIELDS (subject)])",
            told("BODY " + PLAIN.format(3, 1), literal("BODY[HEADER.FIELDS (SUBJECT)]", CAFE_HEADER))), ("a FETCH 1 BODY[TEXT]", told(literal("BODY[TEXT]",
            b"x\r\n"), "FLAGS (\\Seen)")), ("a STORE 1 +FLAGS (\\Deleted)", ["* 1 FETCH (FLAGS (\\Deleted \\Seen))", DONE]),
            ("a EXPUNGE", ["* 1 EXPUNGE", DONE])], flags(0, SEEN) + flags(0, SEEN | 8) + expunge(0)),
        ("a section that isn't there sets Seen too", CAFE_BAR, [LOGIN, select(1, 2), ("a FETCH 1 (FLAGS BODY[7])", told("FLAGS (\\Seen)", "BODY[7] NIL"))],
            flags(0, SEEN)),
        ("views set nothing", CAFE_BAR, [LOGIN, select(1, 2), ("a FETCH 1 (BODY FLAGS)", told("BODY " + PLAIN.format(3, 1), "FLAGS ()")), ("a FETCH 1 RFC822.HEADER",
            told(literal("RFC822.HEADER", CAFE_HEADER)))], b""),
        ("no octets", mailbox([b""]), [LOGIN, select(1, 2), ("a FETCH 1 (ENVELOPE BODY)", told(f"ENVELOPE {NIL_ENVELOPE}", "BODY " + PLAIN.format(0, 0)))], b""),
        ("types that are malformed or encoded", mailbox([b"Content-Type: x\r\n\r\na\r\n", b"Content-Type: Multipart/Mixed; boundary=b\r\n\r\nno part\r\n",
            b"Content-Type: message/rfc822\r\nContent-Transfer-Encoding: base64\r\n\r\nx\r\n"]), [LOGIN, select(3, 4), fetch("1:3 BODY",
            f"1 FETCH (BODY {PLAIN.format(3, 1)})", '2 FETCH (BODY ("multipart" "mixed" ("boundary" "b") NIL NIL "7bit" 9))',
            '3 FETCH (BODY ("message" "rfc822" NIL NIL NIL "base64" 3))')], b""),
        *((f"encodings beyond ASCII, to {kind} session", encodings, [LOGIN, *enable, select(2, 3), fetch("1:2 BODY", f"1 FETCH (BODY {PLAIN.format(3, 1)})",
            f"2 FETCH (BODY {PLAIN.format(3, 1).replace('7bit', 'base64')})")], b"") for kind, enable in (("a legacy", []), ("an enabled", [ENABLE]))),
    ]


# what is put into a folder, and its mark
MARKED = [
    (NOTE, 0), ("Subject: é\r\n".encode(), 3), ("A: b\r\n\r\nSubject: é\r\n".encode(), 2), (b"A: b\r\n\r\n\xff\r\n", 2), (b"\r\n\x7f\r\n", 0),
    (STORED.octets, 3), (SHOWN.octets, 2), ("Content-Type: message/rfc822\r\n\r\n\r\né\r\n".encode(), 2), ("Content-Type: message/rfc822\r\n\r\nX: é\r\n".encode(), 3),
    ("Content-Type: message/rfc822\r\nContent-Transfer-Encoding: base64\r\n\r\nX: é\r\n".encode(), 2),
]


def append(words, data, *replies, end=b"\r\n"):
    """The two lines of an APPEND: with its literal's header, and with its octets; and what is due behind each."""
    return [(f"a APPEND {words}{{{len(data)}}}", [GO]), (data + end, list(replies))]


def of_appends():
    cafe = "Subject: café bar\r\n\r\nx\r\n".encode()
    given = " 2-feb-2020 10:00:00 -0130"
    no_messages = [b"x", b"A: b\n", b"A: b\r\n\r\n\0", b"A: b\r\n\r\nx\r", b"A: \xff\r\n", b" x\r\n", b"Content-Type: message/rfc822\r\n\r\nx\r\n"]
    return [
        ("APPEND", ANN, [LOGIN, *append("INBOX ", NOTE, DONE), *append("inbox ", NOTE, DONE), ("a STATUS INBOX (MESSAGES UIDNEXT UNSEEN)",
            ['* STATUS "INBOX" (MESSAGES 2 UIDNEXT 3 UNSEEN 2)', DONE])], message(0, NOTE) * 2),
        ("APPEND to the folder that is selected", CAFE_BAR, [LOGIN, select(1, 2), *append("INBOX ", cafe, "* 2 EXISTS", DONE), ("a FETCH 2 (UID FLAGS "
            "INTERNALDATE RFC822.SIZE)", [f'* 2 FETCH (UID 2 FLAGS () INTERNALDATE "{DATE}" RFC822.SIZE 44)', DONE])], message(0, cafe)),
        ("APPEND to a folder that is read only", CAFE_BAR, [LOGIN, examine(1, 2), *append("INBOX ", NOTE, "* 2 EXISTS", DONE)], message(0, NOTE)),
        ("APPEND to another folder", FOLDERS, [LOGIN, ("a SELECT &AOk-", opened(0, 1)), *append("INBOX ", NOTE, DONE), *append('"&AOk-" ', NOTE, "* 1 EXISTS", DONE),
            *append("a/b ", NOTE, DONE)], message(0, NOTE) + message(1, NOTE) + message(2, NOTE)),
        ("flags and a date", ANN, [LOGIN, *append(f'INBOX (\\Seen \\draft x) "{given}" ', NOTE, DONE), *append(f'INBOX "{given}" ', NOTE, DONE),
            *append("INBOX () ", NOTE, DONE), select(3, 4), fetch("1:2 (FLAGS INTERNALDATE)", f'1 FETCH (FLAGS (\\Seen \\Draft) INTERNALDATE "{given}")',
            f'2 FETCH (FLAGS () INTERNALDATE "{given}")')], message(0, NOTE, SEEN | DRAFT, given.encode()) + message(0, NOTE, 0, given.encode()) + message(0, NOTE)),
        ("marks", ANN, [LOGIN, *(line for octets, _ in MARKED for line in append("INBOX ", octets, DONE))],
            b"".join(own.message(0, octets, mark=mark) for octets, mark in MARKED)),
        ("the last line is ended", ANN, [LOGIN, *append("INBOX ", b"A: b", DONE), *append("INBOX ", b"", DONE)], message(0, b"A: b\r\n") + message(0, b"")),
        ("what is no message", ANN, [LOGIN, *(it for data in no_messages for it in append("INBOX ", data, NOT_A_MESSAGE))], b""),
        ("a folder that isn't there", ANN, [LOGIN, *append("x ", NOTE, NO_FOLDER), *append("x ", b"x", NO_FOLDER), *append("& ", NOTE, NO_FOLDER),
            *append("x UTF8 (~", NOTE, NO_FOLDER, end=b")\r\n")], b""),
        ("UTF8 in a legacy session", ANN, [LOGIN, *append("INBOX UTF8 (~", cafe, NOT_ENABLED, end=b")\r\n"), *append("INBOX utf8 (~", b"x", NOT_ENABLED, end=b")\r\n"),
            *append("INBOX ", cafe, DONE), select(1, 2), ("a FETCH 1 BODY.PEEK[]", told(literal("BODY[]", CAFE_TEXT)))], message(0, cafe)),
        ("UTF8 in an enabled session", ANN, [LOGIN, ENABLE, *append("INBOX UTF8 (~", cafe, DONE, end=b")\r\n"), *append("INBOX (\\Seen) UTF8 (~", b"x",
            NOT_A_MESSAGE, end=b")\r\n"), *append("INBOX ", cafe, DONE), select(2, 3), ("a FETCH 1 BODY.PEEK[]", told(literal("BODY[]", cafe)))],
            message(0, cafe) * 2),
        ("APPEND before the login", ANN, append("INBOX ", NOTE, ORDER), b""),
        ("an octet behind APPEND's data that is wrong", ANN, [LOGIN, *append("INBOX ", NOTE, BAD, end=b"x\r\n"), *append("INBOX UTF8 (~", NOTE, BAD), ("a NOOP", [DONE])],
            b""),
        ("arguments of APPEND that are wrong", ANN, [LOGIN, *refused(BAD, ["APPEND", "APPEND INBOX", "APPEND INBOX x", 'APPEND INBOX "x" {1}',
            "APPEND INBOX (x {1}", f'APPEND INBOX "{DATE}" () {{1}}', "APPEND INBOX UTF8 ({1}", "APPEND INBOX ~{1}", "APPEND INBOX{1}"])], b""),
        ("APPEND of too much, in any state", ANN, [(f"a APPEND INBOX {{{MESSAGE_MAX + 1}}}", [TOO_LARGE]), LOGIN,
            (f"a APPEND INBOX {{{MESSAGE_MAX + 1}}}", [TOO_LARGE]), ("a NOOP", [DONE])], b""),
        ("APPEND to a folder that was made", journal(domain(b"b"), account(b"ann@example.org", b"pw")), [LOGIN, ("a CREATE x", [DONE]), *append("x ", NOTE, DONE),
            ("a SELECT x", opened(1, 2)), ("a FETCH 1 BODY.PEEK[TEXT]", told(literal("BODY[TEXT]", b"x\r\n")))], folder(0, b"x") + message(1, NOTE)),
        ("what an APPEND left, taken out again", ANN, [LOGIN, select(0, 1), *append("INBOX (\\Deleted) ", NOTE, "* 1 EXISTS", DONE), ("a EXPUNGE", ["* 1 EXPUNGE", DONE]),
            *append("INBOX ", NOTE, "* 1 EXISTS", DONE), fetch("1 UID", "1 FETCH (UID 2)")], message(0, NOTE, 8) + expunge(0) + message(0, NOTE)),
        ("APPEND twice in a row", ANN, [LOGIN, *append("INBOX ", NOTE, DONE), *append("INBOX ", NOTE, DONE)], message(0, NOTE) * 2),
    ]


def check(program, tally):
    cases = list(played([*of_sections(), *of_partials(), *of_views(), *of_appends()]))
    check_rows(program, tally, cases)
    check_every_cut(program, tally, cases, {"APPEND", "café bar, and its subject", "partials of sections", "UTF8 in an enabled session"})
