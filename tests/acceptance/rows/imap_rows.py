"""Rows of IMAP that are written out: a journal and exchanges, and the records that the session brings.

An exchange is what the client sends, a line or octets, and the reply that is due then, as lines or octets."""

from journal import account, domain, expunge, flags, folder, journal
from oracle.records import mailbox, message
from rows.downgrade_rows import CAFE
from support.harness import in_lanes
from support.moments import IN_RECORD, Moments
from support.talk import IMAP, all_cuts, answer_faults, cut_at, joined, run_cut

COMMAND_MAX = 65_536
MESSAGE_MAX = 33_554_432
SEEN, ANSWERED, FLAGGED, DELETED, DRAFT = 1, 2, 4, 8, 16
READY, DONE, BYE = "* OK IMAP4rev1 ready", "a OK done", "* BYE bye"
BAD, ORDER, NOT_HERE = "a BAD syntax", "a BAD out of order", "a NO not here"
NO_FOLDER, NO_MESSAGE, READ_ONLY, TOO_LONG = "a NO no such folder", "a BAD no such message", "a NO read only", "* BYE line too long"
GO = "+ go"
CAPABILITY = "* CAPABILITY IMAP4rev1 ENABLE UTF8=ACCEPT"
ALL_FLAGS = "(\\Answered \\Flagged \\Deleted \\Seen \\Draft)"
LOGIN = ("a LOGIN ann@example.org pw", [DONE])
ENABLE = ("a ENABLE UTF8=ACCEPT", ["* ENABLED UTF8=ACCEPT", DONE])
LOGOUT = ("a LOGOUT", [BYE, DONE])
ANN = mailbox([])
CAFE_BAR = mailbox([CAFE])
LITTLE = [b"A: 1\r\n", b"A: 12\r\n", b"A: 123\r\n", b"A: 1234\r\n"]
FOUR = mailbox(LITTLE)
SURROGATE = ["Subject:", " =?UTF-8?B?Y2Fmw6k=?=", " bar", "", "x"]
FOLDERS = journal(domain(b"example.org"), account(b"ann@example.org", b"pw"), *(folder(0, it.encode()) for it in ("é", "a/b", 'q"\\', "&")))
# every command, and what it takes
OF_FOLDERS = ["SELECT INBOX", "EXAMINE INBOX", "CREATE x", 'LIST "" *', "STATUS INBOX (MESSAGES)", "ENABLE x"]
OF_MESSAGES = ["CHECK", "FETCH 1 FLAGS", "UID FETCH 1 ENVELOPE", "STORE 1 FLAGS ()", "UID STORE 1 FLAGS ()", "EXPUNGE", "CLOSE"]
ELSEWHERE = ["AUTHENTICATE", "DELETE x", "rename x y", "COPY 1 x", "SUBSCRIBEx", "UNSUBSCRIBE", "LSUB {3}", "SEARCH é", "UID COPY", "uid search 1"]


def opened(count, uid_next, read_only=False):
    """The reply to SELECT, or to EXAMINE."""
    lasting, mode = ("()", "READ-ONLY") if read_only else (ALL_FLAGS, "READ-WRITE")
    return [
        f"* {count} EXISTS", "* 0 RECENT", f"* FLAGS {ALL_FLAGS}", "* OK [UIDVALIDITY 1] ok", f"* OK [UIDNEXT {uid_next}] ok",
        f"* OK [PERMANENTFLAGS {lasting}] ok", f"a OK [{mode}] done",
    ]


def select(count, uid_next):
    return "a SELECT INBOX", opened(count, uid_next)


def examine(count, uid_next):
    return "a EXAMINE INBOX", opened(count, uid_next, True)


def fetch(items, *replies, words="FETCH"):
    return f"a {words} {items}", [*(f"* {it}" for it in replies), DONE]


def refused(reply, commands):
    """Each of these commands is answered so."""
    return [(f"a {command}", [reply]) for command in commands]


def octets_of(lines):
    return "".join(line + "\r\n" for line in lines).encode()


def sent(said):
    return said if isinstance(said, bytes) else octets_of([said])


def replied(replies):
    return replies if isinstance(replies, bytes) else octets_of(replies)


def of_sessions():
    """Begin, end and order: name, journal, exchanges, and records."""
    return [
        ("no input", ANN, [], b""),
        ("before the login", ANN, [("a CAPABILITY", [CAPABILITY, DONE]), ("a NOOP", [DONE]), *refused(ORDER, [*OF_FOLDERS, *OF_MESSAGES]), LOGOUT], b""),
        ("behind the login", FOUR, [LOGIN, ("a CAPABILITY", [CAPABILITY, DONE]), ("a NOOP", [DONE]), *refused(ORDER, [*OF_MESSAGES, "LOGIN x y"]),
            LOGOUT], b""),
        ("where a folder is selected", FOUR, [LOGIN, select(4, 5), ("a CHECK", [DONE]), *refused(ORDER, ["LOGIN x y", "ENABLE UTF8=ACCEPT"]), LOGOUT],
            b""),
        ("commands that aren't there, in each state", FOUR,
            [*refused(NOT_HERE, ELSEWHERE), LOGIN, *refused(NOT_HERE, ELSEWHERE), select(4, 5), *refused(NOT_HERE, ELSEWHERE)], b""),
        ("keywords in any case", FOUR, [("a lOgIn ann@example.org pw", [DONE]), ("a select iNbOx", opened(4, 5)),
            ("a fetch 1 flags", ["* 1 FETCH (FLAGS ())", DONE]),
            ("a uId fEtch 1 (uid)", ["* 1 FETCH (UID 1)", DONE]), ("a logOUT", [BYE, DONE])], b""),
        ("tags", ANN, [("A.1 NOOP", ["A.1 OK done"]), ("]~ NOOP", ["]~ OK done"]),
            *((f"{tag} NOOP", ["* BAD syntax"]) for tag in ("+", "a+", "(", "é", '"a"', "{1}", "%", "*", ""))], b""),
        ("what stands behind LOGOUT", ANN, [LOGOUT, (b"a NOOP\r\n" + b"x" * 70_000, [])], b""),
        ("a command without its end", ANN, [(b"a NOOP", [])], b""),
    ]


def of_logins():
    """Who may log in, and the strings of a name and a password."""
    two = journal(domain(b"example.org"), account(b"ann@example.org", b"pw"), account("\"b c\"@bücher.example".encode(), 'p"\\é'.encode()))
    quoted = '"\\"b c\\"@XN--BCHER-kva.example"'
    return [
        ("LOGIN refused", ANN, [("a LOGIN ann@example.org PW", ["a NO no"]), ("a LOGIN ann pw", ["a NO no"]), ('a LOGIN ann@example.org ""', ["a NO no"]),
            LOGIN], b""),
        ("LOGIN with an empty password", journal(domain(b"b"), account(b"a@b", b"")), [('a LOGIN a@B ""', [DONE])], b""),
        ("LOGIN by literals", two, [("a LOGIN {15}", [GO]), (b"ann@example.org {2}\r\n", [GO]), (b"pw\r\n", [DONE])], b""),
        ("LOGIN by a quoted string and a literal of any octets", two, [(f"a LOGIN {quoted} {{5}}", [GO]), ('p"\\é\r\n'.encode(), [DONE])], b""),
        ("LOGIN by a literal with CRLF and NUL", two, [("a LOGIN {4}", [GO]), (b"\r\n\0\xff x\r\n", ["a NO no"])], b""),
        ("LOGIN with UTF-8 in a quoted string of a legacy session", two, [(f'a LOGIN {quoted} "p\\"\\\\é"', [BAD])], b""),
        ("a header in a quoted string is none", ANN, [('a LOGIN "{2}" pw', ["a NO no"])], b""),
        ("arguments of LOGIN that are wrong", ANN, refused(BAD,
            ["LOGIN", "LOGIN x", "LOGIN x y z", "LOGIN x  y", "LOGIN x y ", "LOGIN (x) y", "LOGIN x y{2}", "LOGIN {+} y"]), b""),
        ("an octet behind a literal that is wrong", ANN, [("a LOGIN {1}", [GO]), (b"x(\r\n", [BAD]), ("a LOGIN x {3}", [GO]), (b"abc)\r\n", [BAD]),
            LOGIN], b""),
        ("ENABLE", CAFE_BAR, [LOGIN, ("a ENABLE X", ["* ENABLED", DONE]), ("a enable X utf8=accept Y", ["* ENABLED UTF8=ACCEPT", DONE]),
            ("a ENABLE UTF8=ACCEPT", ["* ENABLED", DONE]),
            *refused(BAD, ["ENABLE", "ENABLE ", "ENABLE {1}", 'ENABLE "x"'])], b""),
    ]


def of_folders():
    """Names, and what is told of folders."""
    quoted = [f'* LIST () NIL "{it}"' for it in ("INBOX", "&AOk-", "a/b", 'q\\"\\\\', "&-")]
    shown = [f'* LIST () NIL "{it}"' for it in ("INBOX", "é", "a/b", 'q\\"\\\\', "&")]
    counts = "(UNSEEN UIDVALIDITY UIDNEXT RECENT MESSAGES)"
    return [
        ("LIST of a legacy session", FOLDERS, [LOGIN, ('a LIST "" *', [*quoted, DONE]), ('a LIST "" %', [*quoted, DONE]),
            ('a LIST a/ %', [quoted[2], DONE]), ('a LIST "" "*&AOk-"', [quoted[1], DONE]),
            ('a LIST "" %B%', [quoted[0], DONE]), ('a LIST "" x', [DONE]), ('a LIST "x" ""', ['* LIST (\\Noselect) NIL ""', DONE]),
            ('a LIST "" é', [BAD])], b""),
        ("LIST of an enabled session", FOLDERS, [LOGIN, ENABLE, ('a LIST "" *', [*shown, DONE]), ('a LIST "" "é"', [shown[1], DONE]),
            ('a LIST "" &', [shown[4], DONE]), ('a LIST "" &AOk-', [DONE])], b""),
        ("CREATE", ANN, [LOGIN, ("a CREATE e&AwE-", [DONE]), ("a CREATE &AOk-", ["a NO exists"]), ("a CREATE inbox", ["a NO exists"]),
            ('a CREATE "x y"', [DONE]),
            ('a LIST "" *', ['* LIST () NIL "INBOX"', '* LIST () NIL "&AOk-"', '* LIST () NIL "x y"', DONE])],
            folder(0, "é".encode()) + folder(0, b"x y")),
        ("CREATE in an enabled session", ANN, [LOGIN, ENABLE, ('a CREATE "e\u0301"', [DONE]), ('a CREATE "é"', ["a NO exists"]),
            ("a CREATE &AOk-", [DONE]), ("a CREATE é", [BAD])], folder(0, "é".encode()) + folder(0, b"&AOk-")),
        ("names that are bad", ANN, [LOGIN, *refused("a NO bad name",
            ['CREATE ""', 'CREATE "a*"', 'CREATE "a%"', 'CREATE "\x01"', "CREATE &AGE-", "CREATE &", "CREATE a&b", "CREATE &AAE-", f"CREATE {'x' * 256}"]),
            *refused(BAD, ["CREATE é", "CREATE a*", "CREATE a%", "CREATE", "CREATE x y"]), (f"a CREATE {'x' * 255}", [DONE])], folder(0, b"x" * 255)),
        ("SELECT and EXAMINE", FOUR + expunge(3), [LOGIN, select(3, 5), examine(3, 5), ("a SELECT x", [NO_FOLDER]), ("a CHECK", [ORDER]),
            ("a EXAMINE INBOX.x", [NO_FOLDER]), ("a SELECT {5}", [GO]),
            (b"InBoX\r\n", opened(3, 5)), *refused(BAD, ["SELECT", "SELECT x y", "EXAMINE é"]), ("a CHECK", [DONE])], b""),
        ("SELECT of a folder in modified UTF-7", FOLDERS, [LOGIN, ("a SELECT &AOk-", opened(0, 1)), ("a SELECT e&AwE-", opened(0, 1)),
            ("a SELECT &-", opened(0, 1)), ("a SELECT &", [NO_FOLDER])], b""),
        ("STATUS", FOUR + flags(1, SEEN) + expunge(3), [LOGIN,
            (f"a STATUS inbox {counts}", ['* STATUS "INBOX" (UNSEEN 2 UIDVALIDITY 1 UIDNEXT 5 RECENT 0 MESSAGES 3)', DONE]),
            ("a STATUS x (messages)", [NO_FOLDER]), ("a STATUS INBOX (uidnext messages messages)",
            ['* STATUS "INBOX" (UIDNEXT 5 MESSAGES 3 MESSAGES 3)', DONE]),
            *refused(BAD, ["STATUS INBOX ()", "STATUS INBOX MESSAGES", "STATUS INBOX (MESSAGES )", "STATUS INBOX (SIZE)", "STATUS (MESSAGES)"])], b""),
        ("STATUS of names that need quoting", FOLDERS, [LOGIN, ('a STATUS "q\\"\\\\" (RECENT)', ['* STATUS "q\\"\\\\" (RECENT 0)', DONE]),
            ("a STATUS &AOk- (RECENT)", ['* STATUS "&AOk-" (RECENT 0)', DONE]),
            ENABLE, ('a STATUS "é" (RECENT)', ['* STATUS "é" (RECENT 0)', DONE])], b""),
    ]


def of_fetches():
    """What is told of messages."""
    legacy = [f"* 1 FETCH (RFC822.SIZE 44 BODY[] {{44}}", *SURROGATE, ")", DONE]
    enabled = [f"* 1 FETCH (RFC822.SIZE 25 BODY[] {{25}}", "Subject: café bar", "", "x", ")", DONE]
    date = "01-Jan-1970 00:00:00 +0000"
    return [
        ("café bar to a legacy session", CAFE_BAR, [LOGIN, select(1, 2), ("a FETCH 1 (RFC822.SIZE BODY.PEEK[])", legacy)], b""),
        ("café bar to an enabled session", CAFE_BAR, [LOGIN, ENABLE, select(1, 2), ("a FETCH 1 (RFC822.SIZE BODY.PEEK[])", enabled)], b""),
        ("BODY[] sets Seen, once", CAFE_BAR, [LOGIN, select(1, 2),
            ("a FETCH 1 (UID BODY[])", ["* 1 FETCH (UID 1 BODY[] {44}", *SURROGATE, " FLAGS (\\Seen))", DONE]),
            ("a FETCH 1 RFC822", ["* 1 FETCH (RFC822 {44}", *SURROGATE, ")", DONE])], flags(0, SEEN)),
        ("RFC822 sets Seen beside other flags, which are told where they are asked", CAFE_BAR + flags(0, DRAFT | ANSWERED), [LOGIN, ENABLE, select(1, 2),
            ("a UID FETCH 1 (FLAGS RFC822)", ["* 1 FETCH (UID 1 FLAGS (\\Answered \\Seen \\Draft) RFC822 {25}", "Subject: café bar", "", "x", ")",
            DONE])], flags(0, SEEN | DRAFT | ANSWERED)),
        ("nothing is set where a folder is read only", CAFE_BAR,
            [LOGIN, examine(1, 2), ("a FETCH 1 BODY[]", ["* 1 FETCH (BODY[] {44}", *SURROGATE, ")", DONE])], b""),
        ("items in the order asked", FOUR, [LOGIN, select(4, 5),
            fetch("2 (UID RFC822.SIZE FLAGS INTERNALDATE UID)", f'2 FETCH (UID 2 RFC822.SIZE 7 FLAGS () INTERNALDATE "{date}" UID 2)'),
            fetch("2 FAST", f'2 FETCH (FLAGS () INTERNALDATE "{date}" RFC822.SIZE 7)'), fetch("2 flags", "2 FETCH (FLAGS ())")], b""),
        ("sets", FOUR, [LOGIN, select(4, 5), fetch("3,1:2 UID", "1 FETCH (UID 1)", "2 FETCH (UID 2)", "3 FETCH (UID 3)"),
            fetch("1,1:2,2:1 UID", "1 FETCH (UID 1)", "2 FETCH (UID 2)"),
            fetch("* UID", "4 FETCH (UID 4)"), fetch("*:3 UID", "3 FETCH (UID 3)", "4 FETCH (UID 4)"),
            *refused(NO_MESSAGE, ["FETCH 5 UID", "FETCH 1:5 UID", "FETCH 9:* UID", "STORE 5 FLAGS ()"]),
            *refused(BAD, ["FETCH 0 UID", "FETCH 01 UID", "FETCH 4294967296 UID", "FETCH 1, UID", "FETCH , UID", "FETCH 1:2:3 UID", "FETCH  1 UID",
            "FETCH 1  UID", "FETCH 1", "FETCH 1 ()", "FETCH 1 (UID", "FETCH 1 FLAGS UID"])], b""),
        ("UIDs", FOUR + expunge(1), [LOGIN, select(3, 5), fetch("2:3 FLAGS", "2 FETCH (UID 3 FLAGS ())", words="UID FETCH"),
            fetch("2 FLAGS", words="UID FETCH"), fetch("7:* (FLAGS UID)", "3 FETCH (FLAGS () UID 4)", words="UID FETCH"),
            fetch("4,1 FLAGS", "1 FETCH (UID 1 FLAGS ())", "3 FETCH (UID 4 FLAGS ())", words="UID FETCH"), fetch("4294967295 FLAGS", words="UID FETCH")],
            b""),
        ("an empty folder", ANN, [LOGIN, select(0, 1), fetch("* FLAGS"), ("a FETCH 1:* FLAGS", [NO_MESSAGE]), ("a FETCH 1 FLAGS", [NO_MESSAGE]),
            fetch("1:* FLAGS", words="UID FETCH"), ("a EXPUNGE", [DONE])], b""),
        ("messages of one mailbox alone", FOUR + account(b"bob@example.org", b"pw") + message(1, b"A: b\r\n"),
            [("a LOGIN bob@example.org pw", [DONE]), select(1, 2), fetch("1:* RFC822.SIZE", "1 FETCH (RFC822.SIZE 6)")], b""),
    ]


def of_changes():
    """STORE, EXPUNGE and CLOSE."""
    marked = FOUR + flags(0, DELETED) + flags(1, DELETED | SEEN) + flags(3, DELETED)
    return [
        ("STORE", FOUR, [LOGIN, select(4, 5), ("a STORE 1:2 FLAGS (\\Seen \\draft)",
            ["* 1 FETCH (FLAGS (\\Seen \\Draft))", "* 2 FETCH (FLAGS (\\Seen \\Draft))", DONE]),
            ("a STORE 2 +FLAGS \\Flagged \\Answered", ["* 2 FETCH (FLAGS (\\Answered \\Flagged \\Seen \\Draft))", DONE]),
            ("a STORE 2 -FLAGS (\\Seen)", ["* 2 FETCH (FLAGS (\\Answered \\Flagged \\Draft))", DONE]),
            ("a STORE 1 +flags.silent ()", [DONE]), fetch("1:2 FLAGS", "1 FETCH (FLAGS (\\Seen \\Draft))",
            "2 FETCH (FLAGS (\\Answered \\Flagged \\Draft))")],
            flags(0, SEEN | DRAFT) + flags(1, SEEN | DRAFT) + flags(1, 31 ^ DELETED) + flags(1, ANSWERED | FLAGGED | DRAFT) + flags(0, SEEN | DRAFT)),
        ("UID STORE", FOUR + expunge(0), [LOGIN, select(3, 5), ("a UID STORE 1:2,9 FLAGS \\Deleted", ["* 1 FETCH (UID 2 FLAGS (\\Deleted))", DONE]),
            ("a UID STORE 1 FLAGS.SILENT ()", [DONE])], flags(1, DELETED)),
        ("flags that are unknown", FOUR, [LOGIN, select(4, 5), ("a STORE 1 FLAGS (\\Seen x \\Other)", ["* 1 FETCH (FLAGS (\\Seen))", DONE]),
            ("a STORE 1 FLAGS (x)", ["* 1 FETCH (FLAGS ())", DONE]),
            *refused(BAD, ["STORE 1 FLAGS", "STORE 1 FLAGS ", "STORE 1 *FLAGS ()", "STORE 1 FLAGS.LOUD ()", "STORE 1 FLAGS (\\)"])],
            flags(0, SEEN) + flags(0, 0)),
        ("EXPUNGE, whose numbers close up", marked, [LOGIN, select(4, 5), ("a EXPUNGE", ["* 1 EXPUNGE", "* 1 EXPUNGE", "* 2 EXPUNGE", DONE]),
            fetch("1:* UID", "1 FETCH (UID 3)"), ("a FETCH 2 UID", [NO_MESSAGE]), ("a EXPUNGE", [DONE])],
            expunge(0) + expunge(1) + expunge(3)),
        ("CLOSE, which tells nothing", marked, [LOGIN, select(4, 5), ("a CLOSE", [DONE]), ("a CHECK", [ORDER]), select(1, 5)],
            expunge(0) + expunge(1) + expunge(3)),
        ("a folder that is read only", marked, [LOGIN, examine(4, 5),
            *refused(READ_ONLY, ["EXPUNGE", "STORE 1 FLAGS ()", "UID STORE 9 FLAGS ()", "STORE 9 FLAGS ()"]), ("a CLOSE", [DONE]), select(4, 5)], b""),
        ("another SELECT leaves what is deleted", marked, [LOGIN, select(4, 5), ("a SELECT x", [NO_FOLDER]), select(4, 5), LOGOUT], b""),
    ]


def of_limits():
    """The form of lines, and commands of 65,536 octets."""
    refusal = b"a LOGIN x " + b"y" * (COMMAND_MAX - 12) + b"\r\n"
    longer = b"a LOGIN x " + b"y" * (COMMAND_MAX - 9)
    rest = COMMAND_MAX - len(b"a LOGIN {65522}\r\n") - len(b" y\r\n")
    header = f"a LOGIN {{{rest}}}"
    return [
        ("lines that are no command", ANN, [("", ["* BAD syntax"]), (" ", ["* BAD syntax"]), ("a", ["* BAD syntax"]), ("a ", [BAD]), ("a x", [BAD]),
            ("a NOOP ", [BAD]), ("a  NOOP", [BAD]), ("a NOOPx", [BAD]), ("a NOOP\tx", [BAD]),
            (b"a NOOP\rx\r\n", [BAD]), (b"a NO\nOP\r\n", [BAD]), (b"\xff NOOP\r\n", ["* BAD syntax"]), ("a NOOP", [DONE])], b""),
        ("a command of 65,536 octets", ANN, [(refusal, ["a NO no"]), LOGOUT], b""),
        ("a command of 65,537 octets", ANN, [(longer, [TOO_LONG]), (b"y\r\na NOOP\r\n", [])], b""),
        ("a command of 65,536 octets with its literal", ANN, [(header, [GO]), (b"x" * rest + b" y\r\n", ["a NO no"]), LOGOUT], b""),
        ("a literal past the limit", ANN, [("a LOGIN {70000}", [GO]), (b"x" * (COMMAND_MAX + 1 - len(b"a LOGIN {70000}\r\n")), [TOO_LONG]),
            (b"x" * 5000, [])], b""),
    ]


def rows():
    return played([*of_sessions(), *of_logins(), *of_folders(), *of_fetches(), *of_changes(), *of_limits()])


def played(written):
    """Name, journal, octets of the client, what is due behind which of them, and the records, of rows that are written out."""
    for name, before, exchanges, records in written:
        octets, due = b"", [(0, octets_of([READY]))]
        for said, replies in exchanges:
            octets += sent(said)
            due += [(len(octets), replied(replies))] if replies else []
        yield name, before, octets, due, records


def check_rows(program, tally, cases):
    """The date that is kept where none is given is that of the first second of 1970 in the rows."""

    def one(row):
        _, before, octets, due, records = row
        moments = Moments(before, 0, (IN_RECORD,))
        return all_cuts(program, before, octets, (0, joined(due), before + records), due, [1], IMAP, moments.seen, moments.shown)

    for row, faults in zip(cases, in_lanes(one, cases)):
        tally.note(f"IMAP: {row[0]}", faults)


def check_every_cut(program, tally, cases, chosen):
    """The chosen rows in two pieces, cut at each place."""
    for name, before, octets, due, records in cases:
        if name not in chosen:
            continue

        def one(place):
            moments = Moments(before, 0, (IN_RECORD,))
            status, given, after, faults = run_cut(program, before, cut_at(octets, [place]), due, IMAP, moments.shown)
            return faults or answer_faults((status, moments.shown(given), moments.seen(after)), (0, joined(due), before + records))

        places = list(range(1, len(octets)))
        for place, faults in zip(places, in_lanes(one, places)):
            tally.note(f"IMAP: {name}, cut behind {place} octets", faults)


def check(program, tally):
    cases = list(rows())
    check_rows(program, tally, cases)
    check_every_cut(program, tally, cases, {"LOGIN by literals", "CREATE", "EXPUNGE, whose numbers close up", "BODY[] sets Seen, once"})
