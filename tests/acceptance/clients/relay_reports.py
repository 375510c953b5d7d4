"""Reports of what `relay` couldn't bring on: what Python's `email` reads in them, what legacy clients of POP3 and IMAP are shown, and
how they go round, from one program to another."""

import email
import email.policy
import re
import tempfile

import postfix
from clients.pop_clients import PASSWORD
from clients.relay_servers import ASCII, BODY, ELSEWHERE, HEADER, OTHER, Mail, take_in
from clients.smtp_clients import fetched
from journal import account, domain, journal
from listening import NotStarted
from oracle.downgrade_oracle import outcome
from oracle.records import queue
from support.harness import differs
from support.next_server import BOTH, EIGHT, UTF8, NextServer, queue_in, relay, store_in, told
from support.service import Service
from support.talk import IMAP, place_journal

ANN, JOSE, NOBODY = "ann@example.org", "josé@example.org", "nobody@example.org"
ABROAD, ZOE = "eve@example.com", "zoë@example.com"
UTF8_TO = "josé@example.net"


def store_of(name, *addresses):
    return journal(domain(name.encode()), *(account(it.encode(), PASSWORD.encode()) for it in addresses))


AS_IT_IS = email.policy.default.clone(refold_source="none")
STORE = store_of("example.org", ANN, JOSE)


class Row:
    """What is sent from a path to whom, what the server offers and answers, how many are sent, and what is told of the others: the
    Final-Recipient, the Status and the code of each."""

    def __init__(self, name, path, recipients, octets, offers=(EIGHT,), changed=(), failed=()):
        self.name, self.offers, self.changed = name, offers, changed
        self.mail = Mail(name, path, recipients, octets)
        self.failed = [(f"{kind}; {address}", "failed", status, f"smtp; {code}" if code else None) for kind, address, status, code in failed]

    def sent(self):
        return len(self.mail.recipients) - len(self.failed)


def ascii_ones(status, code=None):
    """The same of both ASCII recipients."""
    return [("rfc822", it, status, code) for it in (ELSEWHERE, OTHER)]


TWO = [ELSEWHERE, OTHER]
NO_UTF8_TO = ("utf-8", "jos\\x{E9}@example.net", "5.6.7", None)
REFUSED, FULL, BAD = b"550 5.1.1 no such mailbox\r\n", b"552-5.2.2 no\r\n552 5.2.2 room\r\n", b"554 5.6.0 no\r\n"
KIM = b"RCPT TO:<kim@"
ROWS = [
    Row("a header without SMTPUTF8", ANN, TWO, HEADER, failed=ascii_ones("5.6.9")),
    Row("a header without 8BITMIME", ANN, TWO, HEADER, [UTF8], failed=ascii_ones("5.6.9")),
    Row("a recipient without SMTPUTF8", ANN, [UTF8_TO, ELSEWHERE], ASCII, failed=[NO_UTF8_TO]),
    Row("a body without 8BITMIME", ANN, TWO, BODY, [], failed=ascii_ones("5.6.3")),
    Row("a body and a recipient", ANN, [UTF8_TO, ELSEWHERE], BODY, [], failed=[NO_UTF8_TO, ("rfc822", ELSEWHERE, "5.6.3", None)]),
    Row("a domain and a body", ANN, ["kim@bücher.example"], BODY, [], failed=[("utf-8", "kim@b\\x{FC}cher.example", "5.6.3", None)]),
    Row("RCPT refused", ANN, TWO, ASCII, changed={KIM: REFUSED}, failed=ascii_ones("5.0.0", 550)[:1]),
    Row("both RCPT refused", ANN, TWO, ASCII, changed={b"RCPT TO:": FULL}, failed=ascii_ones("5.0.0", 552)),
    Row("MAIL refused", ANN, TWO, ASCII, changed={b"MAIL FROM:": FULL}, failed=ascii_ones("5.0.0", 552)),
    Row("DATA refused", ANN, TWO, ASCII, changed={b"DATA": BAD}, failed=ascii_ones("5.0.0", 554)),
    Row("the message refused", ANN, TWO, HEADER, BOTH, {b".": BAD}, ascii_ones("5.0.0", 554)),
    Row("a RCPT and the message refused", ANN, TWO, ASCII, changed={KIM: REFUSED, b".": BAD},
        failed=[*ascii_ones("5.0.0", 550)[:1], *ascii_ones("5.0.0", 554)[1:]]),
    Row("a RCPT refused, and a recipient without SMTPUTF8", ANN, [UTF8_TO, *TWO], ASCII, changed={KIM: REFUSED},
        failed=[NO_UTF8_TO, *ascii_ones("5.0.0", 550)[:1]]),
    Row("a path without SMTPUTF8", JOSE, TWO, ASCII, failed=ascii_ones("5.6.7")),
    Row("all without SMTPUTF8", JOSE, ["한글@例え.test", ELSEWHERE], HEADER,
        failed=[("utf-8", "한글@例え.test", "5.6.9", None), ("rfc822", ELSEWHERE, "5.6.9", None)]),
]


def blocks_of(notice):
    """The blocks of fields of a notice. What is in a notice in UTF-8 `email` takes for one message."""
    if notice.get_content_type() == "message/delivery-status":
        return notice.get_payload()
    first = notice.get_payload(0)
    return [first, *(email.message_from_string(it) for it in re.split("(?:\r?\n){2}", first.get_payload()) if it.strip())]


def text_in(part):
    """The text of a part that is returned. `email` takes the header in UTF-8 for a message."""
    return part.get_payload() if isinstance(part.get_payload(), str) else part.get_payload(0).as_string(policy=AS_IT_IS)


def lines_of(text):
    return text.replace("\r\n", "\n").strip("\n").split("\n")


def report_faults(octets, name, row, queued):
    """What is wrong with a report of the server of this name, on what was queued."""
    read = email.message_from_string(octets.decode(), policy=email.policy.default)
    is_global = not row.mail.path.isascii()
    types = ["text/plain", "message/global-delivery-status", "message/global-headers"] if is_global else ["text/plain", "message/delivery-status", "text/rfc822-headers"]
    faults = differs("types", [it.get_content_type() for it in read.iter_parts()], types)
    if faults:
        return faults
    faults += differs("type", (read.get_content_type(), read.get_param("report-type")), ("multipart/report", "delivery-status"))
    faults += differs("From and To", (read["From"], read["To"]), (f"MAILER-DAEMON@{name}", row.mail.path)) + differs("defects", read.defects, [])
    parts = list(read.iter_parts())
    first, *others = blocks_of(parts[1])
    found = [(it["Final-Recipient"], it["Action"], it["Status"], it["Diagnostic-Code"]) for it in others]
    faults += differs("Reporting-MTA", first["Reporting-MTA"], f"dns; {name}") + differs("recipients", found, row.failed)
    header = (queued if is_global else outcome([b"downgrade"], queued)[1]).partition(b"\r\n\r\n")[0]
    faults += differs("the header that is returned", lines_of(text_in(parts[2])), lines_of(header.decode()))
    return faults if is_global else faults + differs("is ASCII", octets.isascii(), True)


def by_imap(program, folder, address):
    """The messages of an account, as a session of IMAP is shown them that enables nothing."""
    words = [f"a LOGIN {{{len(address.encode())}}}", f"{address} {PASSWORD}", "a SELECT INBOX", "a FETCH 1:* BODY.PEEK[]", "a LOGOUT", ""]
    rest, found = program.run([IMAP], "\r\n".join(words).encode(), cwd=folder)[1], []
    while sized := re.search(rb"BODY\[\] \{([0-9]+)\}\r\n", rest):
        end = sized.end() + int(sized[1])
        found.append(rest[sized.end() : end])
        rest = rest[end:]
    return found


def shown_faults(program, folder, address, kept):
    """What is wrong with what legacy clients are shown of the messages of an account."""
    with Service(program.path, folder) as service:
        shown, whole = fetched(service.port, address, False), fetched(service.port, address, True)
    faults = differs("by POP3, enabled", whole, kept) + differs("by IMAP, legacy", by_imap(program, folder, address), shown) + service.faults()
    heads = [octets.partition(b"\r\n\r\n")[0] for octets in shown]
    faults += differs("headers in ASCII", [it for it in heads if not it.isascii()], [])
    return faults + differs("surrogates", shown, [outcome([b"downgrade"], octets)[1] for octets in kept])


def check_row(program, tally, row, folder):
    """A local sender has one report in the mailbox, and nothing waits."""
    place_journal(folder, STORE)
    faults = take_in(program, folder, [row.mail])
    (_, _, queued), = queue_in(folder)
    with NextServer(row.offers, row.changed) as server:
        faults += differs("relay", relay(program, folder, server), told(row.sent(), 1, 0))
        faults += differs("again", relay(program, folder, server), told(0, 0, 0))
    faults += differs("connections", len(server.sessions), 1) + differs("the last line", server.sessions[0][-1], b"QUIT\r\n")
    store = store_in(folder)
    kept = [octets for _, octets in store.messages]
    owners = [store.folders[place] for place, _ in store.messages]
    faults += differs("reports", owners, [(ANN, JOSE).index(row.mail.path)]) + differs("what waits", store.queue(), [])
    tally.note(f"report: {row.name}", faults + [fault for it in kept for fault in report_faults(it, "example.org", row, queued)])
    tally.note(f"report: {row.name}: legacy clients", shown_faults(program, folder, row.mail.path, kept))


def of_the_null_path(program, tally, folder):
    """What comes from nobody, or from a local account that isn't there, isn't reported; and no report is reported."""
    place_journal(folder, STORE + queue(NOBODY.encode(), [ELSEWHERE.encode()], HEADER))
    faults = take_in(program, folder, [Mail("null", "", [ELSEWHERE, UTF8_TO], HEADER), Mail("null", "", TWO, ASCII)])
    with NextServer([EIGHT], {b"RCPT TO:": REFUSED}) as server:
        faults += differs("relay", relay(program, folder, server), told(0, 0, 0))
    store = store_in(folder)
    tally.note("report: none from the null path", faults + differs("left", (store.messages, store.queue()), ([], [])))
    place_journal(folder, STORE)
    faults = take_in(program, folder, [Mail("global", ZOE, [ELSEWHERE], HEADER)])
    with NextServer([EIGHT]) as server:
        faults += differs("relay", relay(program, folder, server), told(0, 1, 0)) + differs("relay", relay(program, folder, server), told(0, 0, 0))
    store = store_in(folder)
    tally.note("report: none of a report", faults + differs("left", (store.messages, store.queue()), ([], [])))


def of_the_round(program, tally, here, there):
    """Mail comes from another server, can't be brought on, and its reports go back to there."""
    place_journal(here, STORE)
    place_journal(there, store_of("example.com", ABROAD, ZOE))
    rows = [Row("to there", path, [ELSEWHERE], HEADER, failed=ascii_ones("5.6.9")[:1]) for path in (ABROAD, ZOE)]
    faults = take_in(program, here, [it.mail for it in rows])
    queued = [octets for _, _, octets in queue_in(here)]
    with NextServer([EIGHT]) as server:
        faults += differs("relay", relay(program, here, server), told(0, 2, 0))
    reports = queue_in(here)
    faults += differs("queued", [(path, to) for path, to, _ in reports], [(b"", [it.mail.path.encode()]) for it in rows])
    with Service(program.path, there, "smtp") as service:
        faults += differs("back", relay(program, here, service), told(2, 0, 0)) + differs("again", relay(program, here, service), told(0, 0, 0))
    tally.note("reports go back", faults + service.faults() + differs("what waits", queue_in(here), []))
    kept = [octets for _, octets in store_in(there).messages]
    tally.note("reports are there", differs("how many", len(kept), len(rows)))
    for row, before, (_, _, report), arrived in zip(rows, queued, reports, kept):
        protocol = "ESMTP" if row.mail.path.isascii() else "UTF8SMTP"
        at_home = re.compile(rb"(Return-Path: <>\r\nReceived: from )example\.org( by )example\.com( with %s; [^\r]*\r\n)" % protocol.encode())
        found = at_home.match(arrived)
        faults = differs("octets", arrived[found.end() :], report) if found else [f"no trace: {arrived[:200]!r}"]
        tally.note(f"the report to {row.mail.path}", faults + report_faults(report, "example.org", row, before))
        tally.note(f"the report to {row.mail.path}: legacy clients", shown_faults(program, there, row.mail.path, [arrived]))


def refuses(program, tally, name, folder, server, code):
    """A real server that refuses one of two recipients."""
    place_journal(folder, STORE)
    row = Row(name, ANN, [NOBODY.replace("org", "com"), ABROAD], HEADER, failed=[("rfc822", "nobody@example.com", "5.0.0", code)])
    faults = take_in(program, folder, [row.mail])
    (_, _, queued), = queue_in(folder)
    faults += differs("relay", relay(program, folder, server), told(1, 1, 0))
    kept = [octets for _, octets in store_in(folder).messages]
    tally.note(f"report: {name} refuses", faults + differs("reports", len(kept), 1) + [fault for it in kept for fault in report_faults(it, "example.org", row, queued)])


def of_real_servers(program, tally, here, there):
    place_journal(there, store_of("example.com", ABROAD))
    with Service(program.path, there, "smtp") as service:
        refuses(program, tally, "dervlask", here, service, 550)
    if not postfix.can_serve():
        return
    settings = "smtpd_recipient_restrictions = check_recipient_access inline:{{ nobody@example.com=REJECT }}\nlocal_transport = discard:\ndefault_transport = discard:\n"
    with tempfile.TemporaryDirectory() as own:
        try:
            with postfix.Postfix(own, settings) as server:
                refuses(program, tally, "Postfix", here, server, 554)
        except NotStarted as error:
            print(error)


def check(program, tally):
    for row in ROWS:
        with tempfile.TemporaryDirectory(dir=program.folder.name) as folder:
            check_row(program, tally, row, folder)
    with tempfile.TemporaryDirectory(dir=program.folder.name) as folder:
        of_the_null_path(program, tally, folder)
    for checks in (of_the_round, of_real_servers):
        with tempfile.TemporaryDirectory(dir=program.folder.name) as here, tempfile.TemporaryDirectory(dir=program.folder.name) as there:
            checks(program, tally, here, there)
