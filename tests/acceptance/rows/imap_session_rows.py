"""Worked sessions of IMAP, in the form that imap_rows.py tells."""

from journal import expunge, flags, folder
from oracle.records import mailbox, message
from rows.downgrade_rows import CAFE
from rows.imap_rows import ANN, CAFE_BAR, ENABLE, GO, LOGIN, LOGOUT, check_rows, examine, played, select

FOUR = mailbox([]) + message(0, b"A: 1\r\n") + message(0, b"A: 2\r\n", 1) + message(0, b"A: 3\r\n", 16) + message(0, b"A: 4\r\n")
# a text, and a message in a message; its surrogate has another Subject
PARTED = mailbox([
    "Subject: café\r\nContent-Type: multipart/mixed; boundary=b\r\n\r\n--b\r\n\r\none\r\n"
    "--b\r\nContent-Type: message/rfc822\r\n\r\nTo: a@x\r\n\r\ntwo\r\n--b--\r\n".encode()
])


def of_folders():
    """What is shown: name, journal, exchanges, and records."""
    return [
        ("a legacy session is shown surrogates", CAFE_BAR, [
            LOGIN, select(1, 2),
            ("b FETCH 1 (FLAGS UID INTERNALDATE RFC822.SIZE)", ['* 1 FETCH (FLAGS () UID 1 INTERNALDATE "01-Jan-1970 00:00:00 +0000" RFC822.SIZE 44)',
                "b OK done"]),
            ("c FETCH 1 BODY.PEEK[]", ["* 1 FETCH (BODY[] {44}", "Subject:", " =?UTF-8?B?Y2Fmw6k=?=", " bar", "", "x", ")", "c OK done"]),
            ("d FETCH 1 FLAGS", ["* 1 FETCH (FLAGS ())", "d OK done"]),
            ("e FETCH 1 BODY[]", ["* 1 FETCH (BODY[] {44}", "Subject:", " =?UTF-8?B?Y2Fmw6k=?=", " bar", "", "x", " FLAGS (\\Seen))", "e OK done"]),
                LOGOUT], flags(0, 1)),
        ("an enabled session is shown what is stored", CAFE_BAR, [
            LOGIN, ENABLE, ("b ENABLE utf8=accept", ["* ENABLED", "b OK done"]), select(1, 2),
            ("c FETCH 1 (RFC822.SIZE BODY.PEEK[])", ["* 1 FETCH (RFC822.SIZE 25 BODY[] {25}", "Subject: café bar", "", "x", ")", "c OK done"]),
            ("d UID FETCH 1:* (FLAGS RFC822)", ["* 1 FETCH (UID 1 FLAGS (\\Seen) RFC822 {25}", "Subject: café bar", "", "x", ")", "d OK done"]),
            ("e FETCH 1 (BODY[]<9.5> BODY.PEEK[]<25.1> BODY.PEEK[]<26.1>)", ["* 1 FETCH (BODY[]<9> {5}", "café BODY[]<25> {0}",
            " BODY[]<26> {0}", ")", "e OK done"]),
            ("f FETCH 1 (RFC822.SIZE BODY.PEEK[HEADER] BODY.PEEK[]<21.4>)", ["* 1 FETCH (RFC822.SIZE 25 BODY[HEADER] {22}",
            "Subject: café bar", "", " BODY[]<21> {4}", "\nx", ")", "f OK done"])], flags(0, 1)),
        ("a folder that is examined stays as it is", ANN + message(0, CAFE, 8), [
            LOGIN, examine(1, 2), ("b FETCH 1 RFC822", ["* 1 FETCH (RFC822 {44}", "Subject:", " =?UTF-8?B?Y2Fmw6k=?=", " bar", "", "x", ")", "b OK done"]),
            ("c STORE 1 +FLAGS (\\Seen)", ["c NO read only"]), ("d STORE 2 +FLAGS (\\Seen)", ["d NO read only"]), ("e EXPUNGE", ["e NO read only"]),
            ("f CLOSE", ["f OK done"]), ("g STATUS INBOX (MESSAGES UNSEEN UIDNEXT)", ['* STATUS "INBOX" (MESSAGES 1 UNSEEN 1 UIDNEXT 2)', "g OK done"])],
                b""),
        ("a legacy session is told names in ascii", ANN, [
            LOGIN, ("b CREATE ~peter/mail/&U,BTFw-/&ZeVnLIqe-", ["b OK done"]),
            ('c LIST "" *', ['* LIST () NIL "INBOX"', '* LIST () NIL "~peter/mail/&U,BTFw-/&ZeVnLIqe-"', "c OK done"]),
            ("d LIST ~peter/ %&ZeVnLIqe-", ['* LIST () NIL "~peter/mail/&U,BTFw-/&ZeVnLIqe-"', "d OK done"]),
            ("e STATUS ~peter/mail/&U,BTFw-/&ZeVnLIqe- (MESSAGES RECENT UIDNEXT UIDVALIDITY UNSEEN)",
                ['* STATUS "~peter/mail/&U,BTFw-/&ZeVnLIqe-" (MESSAGES 0 RECENT 0 UIDNEXT 1 UIDVALIDITY 1 UNSEEN 0)', "e OK done"]),
            ("f CREATE &ZeVnLIqe", ["f NO bad name"]), ("g CREATE Inbox", ["g NO exists"]), ("h SELECT &U,BTFw-", ["h NO no such folder"]),
            ('i LIST "" ""', ['* LIST (\\Noselect) NIL ""', "i OK done"])], folder(0, "~peter/mail/台北/日本語".encode())),
        ("an enabled session is told names in utf8", ANN, [
            LOGIN, ENABLE, ('b CREATE "台北"', ["b OK done"]), ('c CREATE "e\u0301"', ["c OK done"]), ('d CREATE "é"', ["d NO exists"]),
            ("e CREATE &U,BTFw-", ["e OK done"]),
            ('f LIST "" *', ['* LIST () NIL "INBOX"', '* LIST () NIL "台北"', '* LIST () NIL "é"', '* LIST () NIL "&U,BTFw-"', "f OK done"]),
            ('g STATUS "e\u0301" (MESSAGES)', ['* STATUS "é" (MESSAGES 0)', "g OK done"])], folder(0, "台北".encode()) + folder(0, "é".encode()) + folder(0,
                b"&U,BTFw-")),
    ]


def of_order():
    """The order of commands: name, journal, exchanges, and records."""
    return [
        ("before login there are few commands", CAFE_BAR, [
            ("a CAPABILITY", ["* CAPABILITY IMAP4rev1 ENABLE UTF8=ACCEPT", "a OK done"]), ("b noop", ["b OK done"]),
            ("c SELECT INBOX", ["c BAD out of order"]), ('d LIST "" *', ["d BAD out of order"]), ("e ENABLE UTF8=ACCEPT", ["e BAD out of order"]),
            ("f FETCH 1 FLAGS", ["f BAD out of order"]), ("g EXPUNGE", ["g BAD out of order"]), (b"h DELETE \xff\r\n", ["h NO not here"]),
            ("i LOGIN ann@example.org no", ["i NO no"]), LOGOUT], b""),
        ("commands of another state are out of order", CAFE_BAR, [
            LOGIN, ("b LOGIN ann@example.org pw", ["b BAD out of order"]), ("c CHECK", ["c BAD out of order"]),
            ("d STORE 1 FLAGS ()", ["d BAD out of order"]), select(1, 2), ("e check", ["e OK done"]), ("f ENABLE UTF8=ACCEPT", ["f BAD out of order"]),
            ("g SELECT none", ["g NO no such folder"]), ("h CLOSE", ["h BAD out of order"])], b""),
        ("what is no command is refused", ANN, [
            LOGIN, ("b FETCH 0 FLAGS", ["b BAD syntax"]), ("c XYZ", ["c BAD syntax"]), (" d NOOP", ["* BAD syntax"]), ("", ["* BAD syntax"]),
            ('e CREATE "é"', ["e BAD syntax"]), ("f APPEND INBOX {33554433}", ["f NO too large"])], b""),
        ("literals are asked for", ANN, [
            ("a LOGIN {15}", [GO]), ("ann@example.org {2}", [GO]), ("pw", ["a OK done"]), ("b FETCH 1 BODY[HEADER.FIELDS (To {4}", [GO]),
            ("Date)]", ["b BAD out of order"]), ("c CREATE {1}", [GO]), (b"\xff\r\n", ["c NO bad name"])], b""),
    ]


def of_changes():
    """Changes: name, journal, exchanges, and records."""
    return [
        ("store replaces adds and removes", FOUR, [
            LOGIN, select(4, 5),
            ("b STORE 2,1:2 +FLAGS (\\Deleted)", ["* 1 FETCH (FLAGS (\\Deleted))", "* 2 FETCH (FLAGS (\\Deleted \\Seen))", "b OK done"]),
            ("c STORE 3 +FLAGS.SILENT (\\Answered $x)", ["c OK done"]),
            ("d UID STORE 3 -FLAGS \\Draft", ["* 3 FETCH (UID 3 FLAGS (\\Answered))", "d OK done"]),
            ("e STORE * FLAGS (\\Flagged)", ["* 4 FETCH (FLAGS (\\Flagged))", "e OK done"]), ("f STORE 4:5 FLAGS ()", ["f BAD no such message"]),
            ("g UID STORE 5 FLAGS ()", ["g OK done"]),
            ("h UID FETCH 2:3 FLAGS", ["* 2 FETCH (UID 2 FLAGS (\\Deleted \\Seen))", "* 3 FETCH (UID 3 FLAGS (\\Answered))", "h OK done"])], flags(0,
                8) + flags(1, 9) + flags(2, 18) + flags(2, 2) + flags(3, 4)),
        ("expunged messages are told as they close up", FOUR, [
            LOGIN, select(4, 5), ("b STORE 1:2,4 FLAGS.SILENT (\\Deleted)", ["b OK done"]),
            ("c EXPUNGE", ["* 1 EXPUNGE", "* 1 EXPUNGE", "* 2 EXPUNGE", "c OK done"]),
            ("d FETCH 1:* (UID FLAGS)", ["* 1 FETCH (UID 3 FLAGS (\\Draft))", "d OK done"]), ("e FETCH 2 UID", ["e BAD no such message"]),
            ("f EXPUNGE", ["f OK done"])], flags(0, 8) + flags(1, 8) + flags(3, 8) + expunge(0) + expunge(1) + expunge(3)),
        ("close expunges silently", FOUR, [
            LOGIN, select(4, 5), ("b STORE 2 +FLAGS.SILENT (\\Deleted)", ["b OK done"]), ("c CLOSE", ["c OK done"]),
            ("d FETCH 1 UID", ["d BAD out of order"]),
            ("e STATUS INBOX (MESSAGES UNSEEN UIDNEXT)", ['* STATUS "INBOX" (MESSAGES 3 UNSEEN 3 UIDNEXT 5)', "e OK done"])], flags(1, 9) + expunge(1)),
    ]


def of_views():
    """Views: name, journal, exchanges, and records."""
    return [
        ("views are those of what is shown", PARTED, [
            LOGIN, select(1, 2),
            ("b FETCH 1 (ENVELOPE BODY)", ['* 1 FETCH (ENVELOPE (NIL "=?UTF-8?B?Y2Fmw6k=?=" NIL NIL NIL NIL NIL NIL NIL NIL) BODY (("text" "plain"'
                ' ("charset" "us-ascii") NIL NIL "7bit" 3 0)("message" "rfc822" NIL NIL NIL "7bit" 14 (NIL NIL NIL NIL NIL ((NIL NIL "a" "x")) NIL NIL NIL'
                ' NIL) ("text" "plain" ("charset" "us-ascii") NIL NIL "7bit" 3 0) 2) "mixed"))', "b OK done"]),
            ("c FETCH 1 BODYSTRUCTURE", ['* 1 FETCH (BODYSTRUCTURE (("text" "plain" ("charset" "us-ascii") NIL NIL "7bit" 3 0 NIL NIL NIL NIL)("message"'
                ' "rfc822" NIL NIL NIL "7bit" 14 (NIL NIL NIL NIL NIL ((NIL NIL "a" "x")) NIL NIL NIL NIL) ("text" "plain" ("charset" "us-ascii") NIL NIL'
                ' "7bit" 3 0 NIL NIL NIL NIL) 2 NIL NIL NIL NIL) "mixed" ("boundary" "b") NIL NIL NIL))', "c OK done"]),
            ("d FETCH 1 (BODY.PEEK[HEADER.FIELDS (subject x])] BODY.PEEK[HEADER.FIELDS.NOT (Subject)]<0.5>)",
                ['* 1 FETCH (BODY[HEADER.FIELDS (SUBJECT "X]")] {35}', "Subject:",
            " =?UTF-8?B?Y2Fmw6k=?=", "", " BODY[HEADER.FIELDS.NOT (SUBJECT)]<0> {5}", "Conte)", "d OK done"])], b""),
        ("sections are those of parts", PARTED, [
            LOGIN, select(1, 2),
            ("b FETCH 1 (BODY.PEEK[1] BODY.PEEK[1.MIME] BODY.PEEK[1.HEADER] BODY.PEEK[2.HEADER] BODY.PEEK[2.1])", ["* 1 FETCH (BODY[1] {3}",
            "one BODY[1.MIME] {2}", "", " BODY[1.HEADER] NIL BODY[2.HEADER] {11}", "To: a@x", "", " BODY[2.1] {3}", "two)", "b OK done"]),
            ("c FETCH 1 (RFC822.HEADER RFC822.TEXT)", ["* 1 FETCH (RFC822.HEADER {78}", "Subject:", " =?UTF-8?B?Y2Fmw6k=?=",
            "Content-Type: multipart/mixed; boundary=b", "", " RFC822.TEXT {72}", "--b", "", "one", "--b", "Content-Type: message/rfc822", "",
            "To: a@x", "", "two", "--b--", " FLAGS (\\Seen))", "c OK done"])], flags(0, 1)),
        ("parts of sections are those of what is shown", PARTED, [
            LOGIN, select(1, 2),
            ("b FETCH 1 (BODY.PEEK[HEADER]<11.9> BODY.PEEK[2.TEXT]<1.9> BODY.PEEK[1]<3.1> BODY.PEEK[3]<0.1>)", ["* 1 FETCH (BODY[HEADER]<11> {9}",
            "=?UTF-8?B BODY[2.TEXT]<1> {2}", "wo BODY[1]<3> {0}", " BODY[3]<0> NIL)", "b OK done"]), ("c CLOSE", ["c OK done"]), ENABLE, select(1, 2),
            ("d FETCH 1 (ENVELOPE BODY.PEEK[HEADER.FIELDS (SUBJECT)]<9.4>)",
                b'* 1 FETCH (ENVELOPE (NIL "caf\xc3\xa9" NIL NIL NIL NIL NIL NIL NIL NIL) BODY[HEADER.FIELDS (SUBJECT)]<9> {4}\r\ncaf\xc3)\r\nd OK'
                b' done\r\n')], b""),
    ]


def of_appends():
    """Appended: name, journal, exchanges, and records."""
    return [
        ("the selected folder is told of its new message", ANN + message(0, b"A: 1\r\n"), [
            LOGIN, ("b CREATE b", ["b OK done"]), ("c APPEND b {6}", [GO]), (b"A: 2\r\n\r\n", ["c OK done"]), select(1, 2),
            ('d APPEND INBOX (\\Seen \\Draft) "17-Jul-1996 02:44:25 -0700" {4}', [GO]), ("A: 3", ["* 2 EXISTS", "d OK done"]), ("e APPEND b {4}", [GO]),
            ("A: 4", ["e OK done"]),
            ("f FETCH 1:* (FLAGS INTERNALDATE)", ['* 1 FETCH (FLAGS () INTERNALDATE "01-Jan-1970 00:00:00 +0000")',
                '* 2 FETCH (FLAGS (\\Seen \\Draft) INTERNALDATE "17-Jul-1996 02:44:25 -0700")', "f OK done"]),
            ("g STATUS b (MESSAGES)", ['* STATUS "b" (MESSAGES 2)', "g OK done"]), ("h FETCH 3 UID", ["h BAD no such message"])], folder(0,
                b"b") + message(1, b"A: 2\r\n") + message(0, b"A: 3\r\n", 17, b"17-Jul-1996 02:44:25 -0700") + message(1, b"A: 4\r\n")),
        ("what is no message for a folder is refused", ANN + message(0, b"A: 1\r\n"), [
            ("a APPEND INBOX {6}", [GO]), (b"A: 2\r\n\r\n", ["a BAD out of order"]), LOGIN, ("b APPEND none UTF8 (~{6}", [GO]),
            (b"A: 2\r\n)\r\n", ["b NO no such folder"]), ("c APPEND INBOX UTF8 (~{3}", [GO]), (b"A\x00b)\r\n", ["c NO not enabled"]),
            ("d APPEND INBOX {3}", [GO]), (b"A\x00b\r\n", ["d NO not a message"]), select(1, 2), ("e APPEND INBOX {3}", [GO]),
            (b"A\x00b\r\n", ["e NO not a message"])], b""),
        ("what is refused is not listed", ANN, [
            LOGIN, select(0, 1), ("b APPEND INBOX {6}", [GO]), (b"A: 1\r\n\r\n", ["* 1 EXISTS", "b OK done"]), ("c APPEND INBOX {3}", [GO]),
            (b"A\x00b\r\n", ["c NO not a message"]), ("d APPEND INBOX (\\Seen) {6}", [GO]), (b"A: 2\r\n\r\n", ["* 2 EXISTS", "d OK done"]),
            ("e FETCH 1:* (UID FLAGS)", ["* 1 FETCH (UID 1 FLAGS ())", "* 2 FETCH (UID 2 FLAGS (\\Seen))", "e OK done"])], message(0,
                b"A: 1\r\n") + message(0, b"A: 2\r\n", 1)),
        ("an enabled session appends utf8", ANN, [
            LOGIN, ENABLE, ("b APPEND INBOX UTF8 (~{19}", [GO]), ("Subject: café\r\n\r\nx)\r\n".encode(), ["b OK done"]),
            ("c STATUS INBOX (MESSAGES UNSEEN)", ['* STATUS "INBOX" (MESSAGES 1 UNSEEN 1)', "c OK done"])], message(0,
                "Subject: café\r\n\r\nx\r\n".encode())),
    ]


def check(program, tally):
    check_rows(program, tally, list(played([*of_folders(), *of_order(), *of_changes(), *of_views(), *of_appends()])))
