"""Real clients of `serve imap`: Python's imaplib, curl, mbsync, getmail and offlineimap fetch a mailbox, and Python's `email` reads what they get.

What asks for parts of a message stands in imap_parts.py, and what puts mail there in imap_appends.py."""

import base64
import email
import imaplib
import os
import pwd
import re
import shutil
import subprocess
import tempfile
import unicodedata

from clients.mailbox import SCRIPTS, messages
from clients.pop_clients import ADDRESS, COUNT, PASSWORD, SECONDS, legacy_faults, text_of
from oracle.records import mailbox
from support.harness import differs
from support.service import Service
from support.talk import place_journal

HIGH = re.compile("[^ -~]+")
# getmail takes its time for each message
GOT = 20
CAPABILITIES = ("IMAP4REV1", "ENABLE", "UTF8=ACCEPT")
MBSYNC = """
IMAPAccount there
Host 127.0.0.1
Port {port}
User {user}
Pass {password}
SSLType None
AuthMechs LOGIN

IMAPStore there
Account there

MaildirStore here
Path {folder}/here/
Inbox {folder}/here/INBOX
SubFolders Verbatim

Channel all
Far :there:
Near :here:
Patterns * !x/y
Create Near
Sync All
SyncState *
"""
GETMAIL = """
[retriever]
type = SimpleIMAPRetriever
server = 127.0.0.1
port = {port}
username = {user}
password = {password}
mailboxes = ("INBOX",)

[destination]
type = Maildir
path = {folder}/got/

[options]
read_all = true
verbose = 0
delivered_to = false
received = false
max_messages_per_session = {most}
"""
OFFLINEIMAP = """
[general]
accounts = one
metadata = {folder}/offline

[Account one]
localrepository = here
remoterepository = there

[Repository here]
type = Maildir
localfolders = {folder}/mail

[Repository there]
type = IMAP
remotehost = 127.0.0.1
remoteport = {port}
remoteuser = {user}
remotepass = {password}
ssl = no
starttls = no
usecompression = no
auth_mechanisms = LOGIN
folderfilter = lambda name: name == "INBOX"
"""


def logged_in(port, is_enabled=False):
    client = imaplib.IMAP4("127.0.0.1", port, timeout=SECONDS)
    client.login(ADDRESS, PASSWORD)
    if is_enabled:
        client.enable("UTF8=ACCEPT")
    return client


def quoted(name):
    return '"' + name.replace("\\", "\\\\").replace('"', '\\"') + '"'


def told(answer):
    """What an answer tells, or what is to be said of one that isn't OK."""
    status, data = answer
    return data if status == "OK" else f"{status} {data}"


def octets_in(data):
    """The literals of an answer to FETCH."""
    return [it[1] for it in data if isinstance(it, tuple)]


def fetched(port, is_enabled):
    """What imaplib gets: capabilities, the count of messages, their sizes, and their octets, in one FETCH and one by one."""
    client = logged_in(port, is_enabled)
    count = told(client.select("INBOX", readonly=True))
    sizes = told(client.fetch("1:*", "(UID FLAGS RFC822.SIZE)"))
    octets = octets_in(told(client.fetch("1:*", "(BODY.PEEK[])")))
    some = [octets_in(told(client.uid("FETCH", str(number), "(RFC822)")))[0] for number in range(1, COUNT + 1, 9)]
    client.close()
    goodbye = client.logout()
    return client.capabilities, count, sizes, octets, some, goodbye


def fetching_faults(got):
    """What is wrong with what was told beside the octets."""
    capabilities, count, sizes, octets, some, goodbye = got
    listed = [b"%d (UID %d FLAGS () RFC822.SIZE %d)" % (number, number, len(it)) for number, it in enumerate(octets, 1)]
    faults = differs("capabilities", capabilities, CAPABILITIES) + differs("EXISTS", count, [b"%d" % COUNT]) + differs("sizes", sizes, listed)
    return faults + differs("one by one", some, octets[::9]) + differs("LOGOUT", goodbye, ("BYE", [b"bye"]))


def check_octets(tally, who, mail, legacy, enabled):
    for number, ((subject, stored), shown, whole) in enumerate(zip(mail, legacy, enabled, strict=True), 1):
        tally.note(f"{who}, legacy: message {number}", legacy_faults(subject, stored, shown))
        tally.note(f"{who}, enabled: message {number}", differs("octets", whole, stored))


def names():
    """Folder names in each script, one that needs quoting, and one that isn't in NFC."""
    return [*(lines[0] for lines in SCRIPTS.values()), 'a "b" \\ & c', "cafe\u0301", "x/y"]


def modified_utf7(name):
    """A name as a legacy session writes it (RFC 3501, 5.1.3)."""
    return HIGH.sub(lambda it: "&" + base64.b64encode(it[0].encode("utf-16-be")).decode().strip("=").replace("/", ",") + "-", name.replace("&", "&-"))


def listed(client):
    """The names that LIST shows. In a legacy session UTF-8 isn't decoded: imaplib reads ASCII there."""
    lines = [line.decode(client._encoding).partition(" NIL ")[2] for line in told(client.list())]
    return [re.sub(r"\\(.)", r"\1", line[1:-1]) for line in lines]


def folder_faults(port):
    """Folders are made by either kind of session, and both see all of them."""
    first, others = names()[::2], names()[1::2]
    legacy = logged_in(port)
    made = [told(legacy.create(quoted(modified_utf7(unicodedata.normalize("NFC", name))))) for name in first]
    legacy.logout()
    enabled = logged_in(port, True)
    made += [told(enabled.create(quoted(name))) for name in others]
    shown = listed(enabled)
    again = [enabled.create(quoted(name))[0] for name in names()]
    selected = [told(enabled.select(quoted(name))) for name in names()]
    enabled.logout()
    legacy = logged_in(port)
    written = listed(legacy)
    counted = [told(legacy.status(quoted(name), "(MESSAGES)")) for name in written[1:]]
    legacy.logout()
    wanted = ["INBOX", *(unicodedata.normalize("NFC", name) for name in [*first, *others])]
    faults = differs("CREATE", made, [[b"done"]] * len(names())) + differs("LIST, enabled", shown, wanted) + differs("CREATE again", again, ["NO"] * len(names()))
    faults += differs("SELECT", selected, [[b"0"]] * len(names())) + differs("LIST, legacy", written, [modified_utf7(name) for name in wanted])
    return faults + differs("STATUS", counted, [[f"{quoted(name)} (MESSAGES 0)".encode()] for name in written[1:]])


def flag_faults(port):
    """Flags that are set, in the session and in the next one; BODY[] sets Seen; what is deleted goes, and the others keep their UIDs."""
    client = logged_in(port)
    client.select("INBOX")
    marked = told(client.store("2:3", "+FLAGS", "(\\Deleted \\Flagged)"))
    told(client.store("1", "+FLAGS.SILENT", "\\Answered"))
    told(client.fetch("1", "(BODY[])"))
    expunged, left = told(client.expunge()), told(client.fetch("1:2", "(UID FLAGS)"))
    client.logout()
    client = logged_in(port, True)
    count = told(client.select("INBOX"))
    again = told(client.uid("FETCH", "1:4", "(FLAGS)"))
    counts = told(client.status("INBOX", "(MESSAGES UNSEEN UIDNEXT)"))
    told(client.uid("STORE", "1", "FLAGS", "()"))
    client.close()
    client.logout()
    faults = differs("STORE", marked, [b"%d (FLAGS (\\Flagged \\Deleted))" % number for number in (2, 3)]) + differs("EXPUNGE", expunged, [b"2", b"2"])
    faults += differs("FETCH", left, [b"1 (UID 1 FLAGS (\\Answered \\Seen))", b"2 (UID 4 FLAGS ())"]) + differs("EXISTS", count, [b"%d" % (COUNT - 2)])
    faults += differs("the next session", again, [b"1 (UID 1 FLAGS (\\Answered \\Seen))", b"2 (UID 4 FLAGS ())"])
    return faults + differs("STATUS", counts, [b'"INBOX" (MESSAGES %d UNSEEN %d UIDNEXT %d)' % (COUNT - 2, COUNT - 3, COUNT + 1)])


def by_imaplib(port, tally, mail):
    """Fetches the mailbox. What a legacy client gets."""
    legacy, enabled = fetched(port, False), fetched(port, True)
    tally.note("imaplib, legacy: what is told of the mailbox", fetching_faults(legacy))
    tally.note("imaplib, enabled: what is told of the mailbox", fetching_faults(enabled))
    check_octets(tally, "imaplib", mail, legacy[3], enabled[3])
    tally.note("imaplib: folders in any script", folder_faults(port))
    return legacy[3]


def ran(words, **how):
    """What a program wrote, or what it said where it failed."""
    try:
        done = subprocess.run(words, stdin=subprocess.DEVNULL, stdout=subprocess.PIPE, stderr=subprocess.PIPE, timeout=2 * SECONDS, **how)
    except subprocess.TimeoutExpired as late:
        return str(late)
    return done.stdout if done.returncode == 0 else f"{words[0]} ended with {done.returncode}: {done.stderr.decode(errors='replace').strip()}"


def is_here(name):
    if not shutil.which(name):
        print(f"{name} isn't here, so it doesn't fetch by IMAP: tools/install_imap_clients")
        return False
    return True


def by_curl(port, tally, octets):
    """Lists the folders, and fetches some messages."""
    if not is_here("curl"):
        return
    words = ["curl", "--silent", "--show-error", "--max-time", str(SECONDS), "--user", f"{ADDRESS}:{PASSWORD}"]
    curl = lambda path: ran([*words, f"imap://127.0.0.1:{port}/{path}"])
    lines = curl("").splitlines()
    tally.note("curl lists the folders", differs("count", len(lines), len(names()) + 1) + differs("first", lines[0], b'* LIST () NIL "INBOX"'))
    for number in range(1, COUNT + 1, 9):
        tally.note(f"curl fetches message {number}", differs("octets", curl(f"INBOX;UID={number}"), octets[number - 1]))


def in_maildir(path):
    """What the files of a maildir have, in the order of their names, and the flags in these. mbsync adds a field of its own."""
    found = []
    for part in ("new", "cur"):
        for name in os.listdir(os.path.join(path, part)):
            with open(os.path.join(path, part, name), "rb") as file:
                found.append((re.sub(rb"X-TUID: [^\n]*\n", b"", file.read()), name.partition(":2,")[2]))
    return sorted(found)


def got_in(folder):
    return [octets for octets, _ in in_maildir(os.path.join(folder, "got"))]


def as_files(octets):
    """Messages as a maildir has them."""
    return sorted(it.replace(b"\r\n", b"\n") for it in octets)


def write(folder, name, text, port):
    path = os.path.join(folder, name)
    with open(path, "w", encoding="utf-8") as file:
        file.write(text.format(folder=folder, port=port, user=ADDRESS, password=PASSWORD, most=GOT))
    os.chmod(path, 0o600)
    return path


def by_mbsync(port, folder, tally, octets):
    """Brings the mailbox and its folders into a maildir, and a flag that was set there back. No name has a `/`: mbsync takes it for a delimiter."""
    if not is_here("mbsync"):
        return
    os.mkdir(os.path.join(folder, "here"))
    words = ["mbsync", "-qq", "--config", write(folder, "mbsync", MBSYNC, port), "--all"]
    how = {"env": {**os.environ, "HOME": folder}}
    inbox = os.path.join(folder, "here", "INBOX")
    faults = differs("mbsync", ran(words, **how), b"")
    tally.note("mbsync fetches the mailbox", faults or differs("octets", [it for it, _ in in_maildir(inbox)], as_files(octets)))
    if faults:
        return
    tally.note("mbsync makes the folders", differs("count", len(os.listdir(os.path.join(folder, "here"))), len(names())))
    cur = os.path.join(inbox, "cur")
    for part in ("new", "cur"):
        for name in sorted(os.listdir(os.path.join(inbox, part)))[:1]:
            os.rename(os.path.join(inbox, part, name), os.path.join(cur, name.partition(":2,")[0] + ":2,F"))
    faults = differs("mbsync again", ran(words, **how), b"")
    client = logged_in(port)
    client.select("INBOX", readonly=True)
    flags = told(client.fetch("1:*", "(FLAGS)"))
    client.logout()
    tally.note("mbsync brings a flag back", faults + differs("flagged", sum(b"\\Flagged" in line for line in flags) > 0, True))


def by_offlineimap(port, folder, tally, octets):
    """Brings INBOX into a maildir, and a flag that was set there back. It writes fields anew; and it puts no mail on a server without SEARCH and
    UIDPLUS."""
    if not is_here("offlineimap"):
        return
    words = ["offlineimap", "-o", "-u", "quiet", "-c", write(folder, "offlineimap", OFFLINEIMAP, port)]
    how, inbox = {"env": {**os.environ, "HOME": folder}}, os.path.join(folder, "mail", "INBOX")
    faults = differs("offlineimap", ran(words, **how), b"")
    found = [] if faults else [it for it, _ in in_maildir(inbox)]
    tally.note("offlineimap fetches INBOX", faults or differs("messages", *(sorted(map(read_by_python, it)) for it in (found, as_files(octets)))))
    if not found:
        return
    part, name = next((part, name) for part in ("new", "cur") for name in sorted(os.listdir(os.path.join(inbox, part))))
    os.rename(os.path.join(inbox, part, name), os.path.join(inbox, "cur", name.partition(":2,")[0] + ":2,D"))
    faults = differs("offlineimap again", ran(words, **how), b"")
    client = logged_in(port)
    client.select("INBOX", readonly=True)
    drafts = sum(b"\\Draft" in line for line in told(client.fetch("1:*", "(FLAGS)")))
    client.logout()
    tally.note("offlineimap brings a flag back", faults + differs("drafts", drafts, 1))


def read_by_python(octets):
    """Identifier, Subject and body of a message of a maildir, as Python's `email` reads it."""
    read = email.message_from_bytes(octets)
    return read["Message-ID"], text_of(" ".join(read["Subject"].split())), read.get_payload()


def by_getmail(port, folder, tally, octets):
    """Fetches the first messages into a maildir. It folds their fields anew, and delivers nothing as root."""
    if not is_here("getmail"):
        return
    for part in ("new", "tmp", "cur"):
        os.makedirs(os.path.join(folder, "got", part))
    words = ["getmail", "--getmaildir", folder, "--rcfile", write(folder, "getmail", GETMAIL, port)]
    user = {}
    if os.geteuid() == 0:
        nobody = pwd.getpwnam("nobody")
        subprocess.run(["chown", "-R", f"{nobody.pw_uid}:{nobody.pw_gid}", folder], check=True)
        user = {"user": nobody.pw_uid, "group": nobody.pw_gid, "extra_groups": []}
    said = ran(words, env={**os.environ, "HOME": folder}, cwd=folder, **user)
    faults = [said] if isinstance(said, str) else differs("messages", *(sorted(map(read_by_python, it)) for it in (got_in(folder), as_files(octets[:GOT]))))
    tally.note(f"getmail fetches {GOT} messages", faults)


def check(program, tally):
    mail = messages(COUNT)
    with tempfile.TemporaryDirectory(dir=program.folder.name) as folder:
        place_journal(folder, mailbox([stored for _, stored in mail], ADDRESS.encode(), PASSWORD.encode()))
        with Service(program.path, folder, "imap") as service:
            shown = by_imaplib(service.port, tally, mail)
            by_curl(service.port, tally, shown)
            by_mbsync(service.port, folder, tally, shown)
            with tempfile.TemporaryDirectory() as another:
                by_getmail(service.port, another, tally, shown)
            with tempfile.TemporaryDirectory() as another:
                by_offlineimap(service.port, another, tally, shown)
        place_journal(folder, mailbox([stored for _, stored in mail], ADDRESS.encode(), PASSWORD.encode()))
        with Service(program.path, folder, "imap") as changing:
            tally.note("imaplib: flags, and messages that go", flag_faults(changing.port))
    tally.note("serve imap ended only when it was stopped", service.faults() + changing.faults())
