"""Real clients over loopback: Python's poplib and curl fetch a mailbox, and Python's `email` reads what they get."""

import email
import poplib
import shutil
import subprocess
import tempfile
from email.header import decode_header

from bridge import Bridge
from clients.mailbox import messages
from oracle.downgrade_oracle import outcome
from oracle.pop_oracle import first_lines
from oracle.records import mailbox
from support.harness import differs
from support.talk import place_journal

COUNT = 200
ADDRESS, PASSWORD = "ann@example.org", "pw"
SECONDS = 60


def fetched(port, is_enabled):
    """What poplib gets: the totals, the sizes, the size of one message, and all messages."""
    client = poplib.POP3("127.0.0.1", port, timeout=SECONDS)
    if is_enabled:
        client.utf8()
    client.user(ADDRESS)
    client.pass_(PASSWORD)
    totals, (_, lines, _), one = client.stat(), client.list(), client.list(COUNT)
    octets = [b"".join(line + b"\r\n" for line in client.retr(number)[1]) for number in range(1, COUNT + 1)]
    goodbye = client.quit()
    return totals, [tuple(map(int, line.split())) for line in lines], one, octets, goodbye


def tops(port):
    """What poplib gets of the first messages by TOP with one line, of UIDL, and of STAT once every other message is deleted; then they go."""
    client = poplib.POP3("127.0.0.1", port, timeout=SECONDS)
    client.user(ADDRESS)
    client.pass_(PASSWORD)
    capabilities, uids = sorted(client.capa()), [line.split() for line in client.uidl()[1]]
    first = [b"".join(line + b"\r\n" for line in client.top(number, 1)[1]) for number in range(1, 21)]
    for number in range(2, COUNT + 1, 2):
        client.dele(number)
    left = client.stat()
    client.quit()
    return capabilities, uids, first, left


def top_faults(told, octets, listed):
    """What is wrong with these, by what RETR gave, and with the listing of a session behind them."""
    capabilities, uids, first, left = told
    wanted = [first_lines(it, 1) for it in octets[:20]]
    kept = octets[::2]
    faults = differs("CAPA", capabilities, ["TOP", "UIDL", "USER", "UTF8"]) + differs("UIDL", uids, [[b"%d" % n, b"%d" % n] for n in range(1, COUNT + 1)])
    faults += differs("TOP", first, wanted) + differs("STAT", left, (len(kept), sum(map(len, kept))))
    return faults + differs("UIDL of the next session", listed, [b"%d %d" % (number, 2 * number - 1) for number in range(1, len(kept) + 1)])


def uids_left(port):
    """The lines of UIDL."""
    client = poplib.POP3("127.0.0.1", port, timeout=SECONDS)
    client.user(ADDRESS)
    client.pass_(PASSWORD)
    lines = client.uidl()[1]
    client.quit()
    return lines


def size_faults(got):
    """What is wrong with STAT and LIST, by the octets that RETR gave."""
    totals, sizes, one, octets, goodbye = got
    wanted = [(number, len(it)) for number, it in enumerate(octets, 1)]
    faults = differs("STAT", totals, (COUNT, sum(map(len, octets)))) + differs("LIST", sizes, wanted)
    return faults + differs("LIST of one", one, b"+OK %d %d" % wanted[-1]) + differs("QUIT", goodbye, b"+OK bye")


def text_of(value):
    """What a value says, unfolded and with its encoded words decoded."""
    parts = decode_header(value.replace("\r\n", ""))
    return "".join(part if isinstance(part, str) else part.decode(charset or "ascii") for part, charset in parts)


def legacy_faults(subject, stored, given):
    """What is wrong with what a legacy client gets of a message."""
    head, empty, body = given.partition(b"\r\n\r\n")
    read = email.message_from_bytes(given)
    faults = [] if head.isascii() else ["the header has a non-ASCII octet"]
    faults += differs("surrogate", given, outcome([b"downgrade"], stored)[1])
    faults += differs("defects", read.defects, []) + differs("Subject", text_of(read["Subject"]), subject)
    faults += differs("body", empty + body, b"\r\n\r\n" + stored.partition(b"\r\n\r\n")[2])
    original = email.message_from_bytes(stored)
    for name in ("From", "To", "Date", "Message-ID", "Received"):
        faults += differs(name, read[name], original[name])
    return faults


def curl(port, path):
    """What curl gets of this path."""
    words = ["curl", "--silent", "--show-error", "--max-time", str(SECONDS), "--user", f"{ADDRESS}:{PASSWORD}"]
    ran = subprocess.run([*words, f"pop3://127.0.0.1:{port}/{path}"], stdout=subprocess.PIPE, stderr=subprocess.PIPE, timeout=2 * SECONDS)
    return ran.stdout if ran.returncode == 0 else f"curl ended with {ran.returncode}: {ran.stderr.decode(errors='replace').strip()}"


def check_curl(port, tally, octets):
    if not shutil.which("curl"):
        print("curl isn't here, so it wasn't tried: tools/install_curl")
        return
    listed = b"".join(b"%d %d\r\n" % (number, len(it)) for number, it in enumerate(octets, 1))
    tally.note("curl lists the mailbox", differs("octets", curl(port, ""), listed))
    for number in range(1, COUNT + 1, 9):
        tally.note(f"curl fetches message {number}", differs("octets", curl(port, str(number)), octets[number - 1]))


def check(program, tally):
    mail = messages(COUNT)
    with tempfile.TemporaryDirectory(dir=program.folder.name) as folder:
        place_journal(folder, mailbox([stored for _, stored in mail], ADDRESS.encode(), PASSWORD.encode()))
        with Bridge(program.path, folder) as bridge:
            legacy, enabled = fetched(bridge.port, False), fetched(bridge.port, True)
            check_curl(bridge.port, tally, legacy[3])
            told, listed = tops(bridge.port), uids_left(bridge.port)
    tally.note("poplib: TOP, UIDL, and every other message deleted", top_faults(told, legacy[3], listed))
    tally.note("each connection's run ended with status 0", differs("statuses", set(bridge.statuses), {0}))
    tally.note("poplib, legacy: sizes", size_faults(legacy))
    tally.note("poplib, enabled: sizes", size_faults(enabled))
    for number, ((subject, stored), shown, whole) in enumerate(zip(mail, legacy[3], enabled[3]), 1):
        tally.note(f"poplib, legacy: message {number}", legacy_faults(subject, stored, shown))
        tally.note(f"poplib, enabled: message {number}", differs("octets", whole, stored))
