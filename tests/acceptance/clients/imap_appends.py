"""Mail that clients put into folders by APPEND: Python's imaplib, curl, and mbsync, which brings a whole maildir in. mutt, curl and mbsync
ask for parts of messages."""

import calendar
import imaplib
import os
import pty
import re
import select
import shutil
import subprocess
import tempfile
import time

from clients.fetch_replies import items_in
from clients.imap_clients import MBSYNC, in_maildir, is_here, logged_in, modified_utf7, octets_in, quoted, ran, told, write
from clients.mailbox import SCRIPTS, messages
from clients.pop_clients import ADDRESS, PASSWORD, SECONDS, text_of
from oracle.downgrade_oracle import outcome
from oracle.records import mailbox
from support.harness import differs
from support.service import Service
from support.talk import place_journal

COUNT = 12
# of mbsync, for all folders
RUNS = 5
GIVEN = '"01-Feb-2020 10:00:00 -0130"'
NOT_A_MESSAGE, NOT_ENABLED, NO_FOLDER = (("NO", [text]) for text in (b"not a message", b"not enabled", b"no such folder"))
DONE = "OK", [b"done"]
FOLDER = "Entwürfe"
MUTT = """
set folder="imap://127.0.0.1:{port}/"
set spoolfile="imap://127.0.0.1:{port}/INBOX"
set imap_user="{user}" imap_pass="{password}" imap_authenticators="login"
set ssl_starttls=no ssl_force_tls=no
set charset="utf-8" assumed_charset="utf-8" index_format="<%s>" sort=mailbox-order
set record="" header_cache="" read_inc=0 mail_check=0 help=no status_on_top=no confirmappend=no
set sleep_time=0 quit=yes delete=no move=no
"""
TERMINAL = {"TERM": "vt100", "LC_ALL": "C.UTF-8", "LINES": "40", "COLUMNS": "100"}
SEQUENCE = re.compile(rb"\x1b(?:\[[0-9;?]*[A-Za-z]|[()][A-Z0-9]|[=>])|[\x0e\x0f]")


class Given:
    """What is sent once the server has given leave; imaplib calls it for a literal."""

    def __init__(self, octets):
        self.octets = octets

    def literal(self, _):
        return self.octets


def append_utf8(client, name, octets, flags=""):
    """APPEND with the data extension of RFC 6855, which imaplib doesn't write as the standard has it."""
    client.literal = Given(octets + b")").literal
    return client.xatom("APPEND", quoted(name), f"{flags}UTF8 (~{{{len(octets)}}}")


def last_of(client):
    """Number, UID, flags, date and octets of the last message."""
    number, items = items_in(told(client.fetch("*", "(UID FLAGS INTERNALDATE BODY.PEEK[])"))).popitem()
    return number, items["UID"], items["FLAGS"], items["INTERNALDATE"].decode(), items["BODY[]"]


def seconds_of(date):
    return calendar.timegm(time.strptime(date, "%d-%b-%Y %H:%M:%S +0000"))


def append_faults(port, mail):
    """Mail is put into INBOX in every form, and comes back; what is refused isn't kept."""
    octets, surrogate = mail[0], outcome([b"downgrade"], mail[0])[1]
    begun, faults = int(time.time()), []
    legacy = logged_in(port)
    faults += differs("APPEND before SELECT", legacy.append("INBOX", "(\\Seen \\Flagged)", GIVEN, octets), DONE)
    faults += differs("SELECT", told(legacy.select("INBOX")), [b"%d" % (COUNT + 1)])
    dated = COUNT + 1, COUNT + 1, [b"\\Flagged", b"\\Seen"], GIVEN.strip('"'), surrogate
    faults += differs("with flags and a date", last_of(legacy), dated)
    faults += differs("APPEND", legacy.append("INBOX", None, None, octets), DONE)
    faults += differs("EXISTS", legacy.response("EXISTS")[1][-1], b"%d" % (COUNT + 2))
    number, uid, flags, date, shown = last_of(legacy)
    faults += differs("without a date", (number, uid, flags, shown), (COUNT + 2, COUNT + 2, [], surrogate))
    faults += differs("its date is a moment of now", begun <= seconds_of(date) <= time.time(), True)
    faults += differs("no message", legacy.append("INBOX", None, None, b"This is no message."), NOT_A_MESSAGE)
    faults += differs("Latin-1", legacy.append("INBOX", None, None, b"Subject: caf\xe9\r\n\r\n"), NOT_A_MESSAGE)
    faults += differs("no folder", legacy.append("elsewhere", None, None, octets), NO_FOLDER)
    faults += differs("UTF8, legacy", append_utf8(legacy, "INBOX", octets), NOT_ENABLED)
    faults += differs("the session goes on", told(legacy.status("INBOX", "(MESSAGES)")), [b'"INBOX" (MESSAGES %d)' % (COUNT + 2)])
    legacy.logout()
    return faults


def enabled_faults(port, mail):
    """The same in a session that enabled UTF-8, of mail in a folder of its own."""
    enabled = logged_in(port, True)
    faults = differs("CREATE", enabled.create(quoted(FOLDER)), DONE)
    for number, octets in enumerate(mail):
        flags = ["", "(\\Draft) ", f"{GIVEN} ", f"(\\Seen) {GIVEN} "][number % 4]
        faults += differs(f"APPEND {number}", append_utf8(enabled, FOLDER, octets, flags), DONE)
    faults += differs("SELECT", told(enabled.select(quoted(FOLDER))), [b"%d" % len(mail)])
    faults += differs("octets", octets_in(told(enabled.fetch("1:*", "(BODY.PEEK[])"))), mail)
    faults += differs("no message", append_utf8(enabled, FOLDER, b"no message"), NOT_A_MESSAGE)
    enabled.logout()
    legacy = logged_in(port)
    told(legacy.select(quoted(modified_utf7(FOLDER))))
    shown = [outcome([b"downgrade"], octets)[1] for octets in mail]
    faults += differs("surrogates", octets_in(told(legacy.fetch("1:*", "(BODY.PEEK[])"))), shown)
    legacy.logout()
    return faults


def by_curl(port, folder, tally, mail):
    """Sections, partials, and a message that is put into INBOX."""
    if not is_here("curl"):
        return
    words = ["curl", "--silent", "--show-error", "--max-time", str(SECONDS), "--user", f"{ADDRESS}:{PASSWORD}"]
    curl = lambda path, *more: ran([*words, *more, f"imap://127.0.0.1:{port}/{path}"])
    shown = outcome([b"downgrade"], mail[1])[1]
    head, _, body = shown.partition(b"\r\n\r\n")
    subject = re.search(rb"(?m)^Subject:(?:[^\r]|\r\n[ \t])*\r\n", head + b"\r\n")[0]
    sections = [
        ("HEADER", head + b"\r\n\r\n"), ("TEXT", body), ("1", body), ("1.MIME", head + b"\r\n\r\n"), ("HEADER.FIELDS%20(SUBJECT)", subject + b"\r\n"),
    ]
    for name, octets in sections:
        tally.note(f"curl fetches the section {name}", differs("octets", curl(f"INBOX;UID=2;SECTION={name}"), octets))
        tally.note(f"curl fetches a part of the section {name}", differs("octets", curl(f"INBOX;UID=2;SECTION={name};PARTIAL=3.20"), octets[3:23]))
    path = os.path.join(folder, "letter.eml")
    with open(path, "wb") as file:
        file.write(mail[2])
    tally.note("curl puts a message into INBOX", differs("curl", curl("INBOX", "--upload-file", path), b""))
    client = logged_in(port)
    client.select("INBOX", readonly=True)
    tally.note("curl's message is kept", differs("octets", last_of(client)[4], outcome([b"downgrade"], mail[2])[1]))
    client.logout()


def deliver(maildir, name, octets):
    """Puts a message into a maildir."""
    for part in ("new", "tmp", "cur"):
        os.makedirs(os.path.join(maildir, part), exist_ok=True)
    with open(os.path.join(maildir, "cur" if ":2," in name else "new", name), "wb") as file:
        file.write(octets.replace(b"\r\n", b"\n"))


def without_mark(octets):
    """A message without the field that mbsync adds, by which it finds what it put there."""
    return re.sub(rb"X-TUID: [^\r\n]*\r?\n", b"", octets)


def in_folder(client, name):
    """Flags and octets of each message; none where there is no such folder."""
    status, data = client.select(quoted(modified_utf7(name)), readonly=True)
    count = int(data[0]) if status == "OK" else 0
    items = items_in(told(client.fetch("1:*", "(FLAGS BODY.PEEK[])"))) if count else {}
    return [(sorted(it["FLAGS"]), without_mark(it["BODY[]"])) for _, it in sorted(items.items())]


def flag_of(folder, text):
    """The flags in the name of the one file of a maildir that has this text."""
    return [flags for octets, flags in in_maildir(folder) if text in octets]


def run_mbsync(words, **how):
    """What is wrong with runs of mbsync until one has nothing left to do.

    isync 1.4.4 stops where it looks for the UID of what it has put on a server, with `received extraneous data in FETCH response`, unless the server
    tells UIDs by UIDPLUS (its imap_find_new_msgs_p3 doesn't say that it awaits messages). The next run finds what was put there."""
    said = b""
    for _ in range(RUNS):
        said = ran(words, **how)
        if said == b"" or "received extraneous data" not in said:
            break
    return differs("mbsync", said, b"")


def by_mbsync(port, folder, tally, mail):
    """Both ways: new mail here goes there and new mail there comes here, flags go both ways, and a folder that is only here is made there."""
    if not is_here("mbsync"):
        return
    here = os.path.join(folder, "here")
    settings = MBSYNC.replace("Create Near", "Create Both").replace("Sync All", "Sync All\nExpunge Both")
    words, how = ["mbsync", "-qq", "--config", write(folder, "mbsync", settings, port), "--all"], {"env": {**os.environ, "HOME": folder}}
    sync = lambda: run_mbsync(words, **how)
    for number, octets in enumerate(mail):
        deliver(os.path.join(here, "Moved"), f"{1_700_000_000 + number}.{number}.here" + (":2,FS" if number % 2 else ""), octets)
    os.makedirs(os.path.join(here, "INBOX"), exist_ok=True)
    deliver(os.path.join(here, "INBOX"), "1700000100.1.here", b"Subject: from here\r\nMessage-ID: <h@here>\r\n\r\nx\r\n")
    faults = sync()
    client = logged_in(port)
    moved = sorted(in_folder(client, "Moved"))
    flags = [[], [b"\\Flagged", b"\\Seen"]]
    wanted = sorted((flags[number % 2], outcome([b"downgrade"], octets)[1]) for number, octets in enumerate(mail))
    tally.note("mbsync moves a maildir in", faults or differs("messages", moved, wanted))
    tally.note("mbsync puts new mail there", differs("from here", sum(b"Subject: from here" in octets for _, octets in in_folder(client, "INBOX")), 1))
    client.select("INBOX")
    at = [number for number, it in enumerate(octets_in(told(client.fetch("1:*", "(BODY.PEEK[])"))), 1) if b"Subject: from here" in it]
    told(client.store(str(at[0] if at else 1), "+FLAGS", "(\\Answered)"))
    told(client.append("INBOX", None, None, b"Subject: from there\r\nMessage-ID: <t@there>\r\n\r\nx\r\n"))
    client.logout()
    faults = sync()
    inbox = os.path.join(here, "INBOX")
    tally.note("mbsync brings a flag and a message here", faults + differs("flags", flag_of(inbox, b"from here"), ["R"]) + differs("mail", len(flag_of(inbox, b"from there")), 1))
    for part in ("new", "cur"):
        for name in os.listdir(os.path.join(inbox, part)):
            with open(os.path.join(inbox, part, name), "rb") as file:
                is_there = b"from there" in file.read()
            if is_there:
                os.rename(os.path.join(inbox, part, name), os.path.join(inbox, "cur", name.partition(":2,")[0] + ":2,DS"))
    faults = sync()
    client = logged_in(port)
    found = [flags for flags, octets in in_folder(client, "INBOX") if b"from there" in octets]
    client.logout()
    tally.note("mbsync brings flags there", faults + differs("flags", found, [[b"\\Draft", b"\\Seen"]]))
    tally.note("mbsync has nothing to do then", differs("mbsync", ran(words, **how), b""))


def screen_of(words, wanted, seconds=SECONDS, **how):
    """What a program of terminals wrote, once all wanted texts are there, or so many seconds later; then it is told to end."""
    pid, terminal = pty.fork()
    if pid == 0:
        os.environ.update(how)
        os.execvp(words[0], words)
    heard, until = b"", time.time() + seconds
    while time.time() < until and not all(text in SEQUENCE.sub(b"", heard) for text in wanted):
        if select.select([terminal], [], [], 0.2)[0]:
            try:
                heard += os.read(terminal, 1 << 16)
            except OSError:
                break
    for _ in range(50):
        try:
            os.write(terminal, b"q")
            os.read(terminal, 1 << 16)
        except OSError:
            break
        if os.waitpid(pid, os.WNOHANG)[0]:
            os.close(terminal)
            return SEQUENCE.sub(b"", heard)
        time.sleep(0.1)
    os.close(terminal)
    os.kill(pid, 9)
    os.waitpid(pid, 0)
    return SEQUENCE.sub(b"", heard)


def by_mutt(port, folder, tally):
    """mutt lists the subjects of INBOX: it asks for some fields of each message, and for no more."""
    if not is_here("mutt"):
        return
    client = logged_in(port)
    client.select("INBOX", readonly=True)
    listed = octets_in(told(client.fetch("1:8", "(BODY.PEEK[HEADER.FIELDS (SUBJECT)])")))
    before = told(client.fetch("1:*", "(FLAGS)"))
    client.logout()
    subjects = [text_of(" ".join(octets.decode().partition(":")[2].split())) for octets in listed]
    # a terminal may write neighbouring spaces and some scripts otherwise
    wanted = [f"<{it}>".encode() for it in subjects if re.fullmatch("[ -~À-ɏ]*", it)]
    words = ["mutt", "-n", "-R", "-F", write(folder, "mutt", MUTT, port)]
    screen = screen_of(words, wanted, HOME=folder, **TERMINAL)
    faults = [f"no {it.decode()} among {screen[-600:]!r}" for it in wanted if it not in screen] + differs("subjects", len(wanted) > 1, True)
    client = logged_in(port)
    client.select("INBOX", readonly=True)
    after = told(client.fetch("1:*", "(FLAGS)"))
    client.logout()
    tally.note("mutt lists the subjects of INBOX", faults + differs("flags", after, before))


def by_mutt_copying(port, folder, tally):
    """mutt copies a message of a file into INBOX."""
    if not is_here("mutt"):
        return
    path = os.path.join(folder, "mbox")
    with open(path, "wb") as file:
        file.write("From a@b Sun Nov 29 07:00:00 2026\nFrom: a@b\nSubject: copié\nMessage-ID: <mutt@x>\n\nx\n\n".encode())
    words = ["mutt", "-n", "-F", write(folder, "mutt", MUTT, port), "-f", path, "-e", 'push "<copy-message>=INBOX<enter>"']
    screen = screen_of(words, [b"INBOX... done"], seconds=5, HOME=folder, **TERMINAL)
    client = logged_in(port)
    client.select("INBOX", readonly=True)
    octets = last_of(client)[4]
    client.logout()
    faults = [] if b"<mutt@x>" in octets else [f"it said {screen[-400:]!r}"]
    tally.note("mutt copies a message into INBOX", faults + differs("subject", b"Subject:\r\n =?UTF-8?B?Y29wacOp?=\r\n" in octets, True))


def check(program, tally):
    mail = [octets for _, octets in messages(COUNT, seed=9051)]
    with tempfile.TemporaryDirectory(dir=program.folder.name) as folder:
        place_journal(folder, mailbox([octets for _, octets in messages(COUNT)], ADDRESS.encode(), PASSWORD.encode()))
        with Service(program.path, folder, "imap") as service:
            tally.note("imaplib: APPEND in a legacy session", append_faults(service.port, mail))
            tally.note("imaplib: APPEND in an enabled session", enabled_faults(service.port, mail))
            by_mutt(service.port, folder, tally)
            by_mutt_copying(service.port, folder, tally)
            by_curl(service.port, folder, tally, [octets for _, octets in messages(COUNT)])
            by_mbsync(service.port, folder, tally, mail)
    tally.note("serve imap ended only when it was stopped", service.faults())
