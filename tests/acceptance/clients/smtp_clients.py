"""Real clients over loopback: Python's smtplib, curl and swaks send mail, poplib and curl fetch it, and Python's `email` reads what
they get."""

import email
import email.generator
import email.policy
import email.utils
import io
import os
import poplib
import re
import shutil
import smtplib
import subprocess
import tempfile
import time
from email.message import EmailMessage

from bridge import Bridge
from clients.mailbox import SCRIPTS, messages
from clients.pop_clients import ADDRESS, PASSWORD, SECONDS, curl, text_of
from journal import account, domain, journal
from oracle.downgrade_oracle import outcome
from support.harness import differs
from support.moments import IN_FIELD, seconds_of
from support.talk import SMTP, place_journal

CLIENT, SENDER, LEGACY_SENDER, OTHER = "client.example", "josé@example.com", "bob@example.com", "zoë@example.org"
RAW = messages(60)
STORE = journal(domain(b"example.org"), *(account(it.encode(), PASSWORD.encode()) for it in (ADDRESS, OTHER)))
TRACE = re.compile(rb"Return-Path: <([^>]*)>\r\nReceived: from ([^ ]*) by example\.org with ([^ ;]*); ([^\r]*)\r\n")
# names of attachments that fill several lines
LONGER = " — " + "und so weiter, " * 4


class Sent:
    """A message as a client has sent it: its octets, and what the line of its trace has to say."""

    def __init__(self, octets, sender=SENDER, client=CLIENT, protocol="UTF8SMTP"):
        self.octets, self.trace = octets, [it.encode() for it in (sender, client, protocol)]


def attached(number, script):
    """A message in a script, with an attachment that is named in it. Every other one has long lines, of which `email` escapes none."""
    lines, it = SCRIPTS[script], EmailMessage(policy=email.policy.SMTPUTF8.clone(max_line_length=78 if number % 2 else 900))
    it["From"], it["To"] = f"José <{SENDER}>", f"{ADDRESS}, Zoë <{OTHER}>"
    it["Subject"], it["Message-ID"] = lines[0], f"<{number}@example.com>"
    it.set_content("\n".join(lines) + "\n", cte="8bit")
    name = lines[1] + LONGER * (number % 3) + ".txt"
    it.add_attachment(lines[2].encode(), "application", "octet-stream", filename=name, params={"name": name})
    it.set_boundary(f"=_{number}")
    return it


ATTACHED = [attached(number, script) for number, script in enumerate(SCRIPTS)]


def flat(message):
    """The octets that smtplib makes of it."""
    out = io.BytesIO()
    email.generator.BytesGenerator(out, policy=message.policy.clone(utf8=True)).flatten(message, linesep="\r\n")
    return out.getvalue()


def by_smtplib(port):
    """Sends messages with attachments, and raw ones, in one session. What was sent, and what is wrong."""
    with smtplib.SMTP("127.0.0.1", port, local_hostname=CLIENT, timeout=SECONDS) as client:
        refused = [client.send_message(it, SENDER, [ADDRESS, OTHER]) for it in ATTACHED]
        for _, octets in RAW:
            refused.append(client.sendmail(LEGACY_SENDER, [ADDRESS], octets, mail_options=["SMTPUTF8", "BODY=8BITMIME"]))
        refused.append(client.sendmail(SENDER, [ADDRESS, "nobody@example.org"], RAW[0][1], mail_options=["SMTPUTF8"]))
        features = sorted(client.esmtp_features)
    faults = differs("features", features, ["8bitmime", "enhancedstatuscodes", "size", "smtputf8"])
    faults += differs("refused", refused[:-1], [{}] * (len(refused) - 1))
    faults += differs("nobody", refused[-1], {"nobody@example.org": (550, b"5.1.1 no such mailbox")})
    sent = [*(Sent(flat(it)) for it in ATTACHED), *(Sent(octets, LEGACY_SENDER) for _, octets in RAW), Sent(RAW[0][1])]
    return sent, faults


def by_tool(folder, words, octets):
    """Runs a program that sends the file with these octets, which stands last among its words. What is wrong."""
    path = os.path.join(folder, "mail.eml")
    with open(path, "wb") as file:
        file.write(octets)
    words = [*words[:-1], words[-1] + path]
    ran = subprocess.run(words, stdin=subprocess.DEVNULL, stdout=subprocess.PIPE, stderr=subprocess.STDOUT, timeout=2 * SECONDS)
    return differs(f"the status of {words[0]}, which said {ran.stdout.decode(errors='replace').strip()!r}", ran.returncode, 0)


def by_curl(port, folder):
    """Sends a message to each account."""
    if not shutil.which("curl"):
        print("curl isn't here, so it sends no mail: tools/install_curl")
        return [], []
    words = ["curl", "--silent", "--show-error", "--max-time", str(SECONDS), f"smtp://127.0.0.1:{port}/{CLIENT}", "--mail-from", SENDER]
    to = [word for it in (ADDRESS, OTHER) for word in ("--mail-rcpt", it)]
    mail = [flat(ATTACHED[0]), *(octets for _, octets in RAW[:10])]
    faults = [fault for octets in mail for fault in by_tool(folder, [*words, *to, "--upload-file", ""], octets)]
    return [Sent(octets) for octets in mail], faults


def by_swaks(port, folder):
    """Sends messages beyond ASCII with an envelope in ASCII: swaks has no word for SMTPUTF8. It ends the last line itself, takes a
    last dot for the end, and adds an empty line where there is none but the last."""
    if not shutil.which("swaks"):
        print("swaks isn't here, so it sends no mail: tools/install_swaks")
        return [], []
    words = ["swaks", "--server", "127.0.0.1", "--port", str(port), "--helo", CLIENT, "--from", LEGACY_SENDER, "--to", ADDRESS, "--data", "@"]
    mail = [octets for _, octets in RAW[:12] if not octets.endswith((b"\r\n.\r\n", b"\r\n\r\n"))]
    faults = [fault for octets in mail for fault in by_tool(folder, words, octets[:-2])]
    return [Sent(octets, LEGACY_SENDER, protocol="ESMTP") for octets in mail], faults


def fetched(port, address, is_enabled):
    """All messages of an account, as poplib gets them."""
    client = poplib.POP3("127.0.0.1", port, timeout=SECONDS)
    if is_enabled:
        client.utf8()
    client.user(address)
    client.pass_(PASSWORD)
    octets = [b"".join(line + b"\r\n" for line in client.retr(number)[1]) for number in range(1, client.stat()[0] + 1)]
    client.quit()
    return octets


def kept_faults(sent, kept, begun):
    """What is wrong with what an account keeps of a message."""
    found = TRACE.match(kept)
    if not found:
        return [f"no trace: {kept[:200]!r}"]
    seconds = seconds_of(found[4], IN_FIELD)
    faults = [] if seconds and begun <= seconds <= time.time() else [f"the trace has the date {found[4]!r}"]
    return faults + differs("trace", list(found.groups()[:3]), sent.trace) + differs("octets", kept[found.end() :], sent.octets)


def named(message):
    """Subject, names and octets of the attachments, as Python's `email` reads them."""
    parts = [part for part in message.walk() if part.get_filename()]
    names = [(part.get_filename(), text_of_parameter(part)) for part in parts]
    return text_of(message["Subject"]), names, [part.get_payload(decode=True) for part in parts]


def text_of_parameter(part):
    """The parameter `name` of the part's type."""
    value = part.get_param("name")
    return value if isinstance(value, str) else email.utils.collapse_rfc2231_value(value)


def legacy_faults(kept, shown):
    """What is wrong with what a legacy client gets of what an account keeps."""
    headers = [value for part in email.message_from_bytes(shown).walk() for _, value in part.raw_items()]
    faults = [] if all(value.isascii() for value in headers) else ["a header has a non-ASCII octet"]
    return faults + differs("surrogate", shown, outcome([b"downgrade"], kept)[1])


def attachment_faults(original, shown):
    """What is wrong with the names that `email` reads in what a legacy client gets."""
    part = next(original.iter_attachments())
    name, read = part.get_filename(), email.message_from_bytes(shown)
    return differs("defects", read.defects, []) + differs("names", named(read), (original["Subject"], [(name, name)], [part.get_payload(decode=True)]))


def check_account(port, tally, address, sent, begun):
    """Fetches what was sent to an account. What a legacy client gets."""
    shown, whole = fetched(port, address, False), fetched(port, address, True)
    tally.note(f"what was sent to {address} is there", differs("counts", (len(shown), len(whole)), (len(sent), len(sent))))
    for number, (it, legacy, kept) in enumerate(zip(sent, shown, whole), 1):
        tally.note(f"poplib, enabled: message {number} of {address}", kept_faults(it, kept, begun))
        tally.note(f"poplib, legacy: message {number} of {address}", legacy_faults(kept, legacy))
    for number, (original, legacy) in enumerate(zip(ATTACHED, shown), 1):
        tally.note(f"names in message {number} of {address}", attachment_faults(original, legacy))
    return shown


def check_fetching_curl(port, tally, octets):
    if shutil.which("curl"):
        for number in range(1, len(octets) + 1, 7):
            tally.note(f"curl fetches message {number}", differs("octets", curl(port, str(number)), octets[number - 1]))


def check(program, tally):
    begun = int(time.time())
    with tempfile.TemporaryDirectory(dir=program.folder.name) as folder:
        place_journal(folder, STORE)
        with Bridge(program.path, folder, word=SMTP) as bridge:
            sendings = [by_smtplib(bridge.port), by_curl(bridge.port, folder), by_swaks(bridge.port, folder)]
        tally.note("each session of SMTP ended with status 0", differs("statuses", set(bridge.statuses), {0}))
        for name, (_, faults) in zip(("smtplib", "curl", "swaks"), sendings):
            tally.note(f"{name} sends", faults)
        (by_python, _), (curled, _), (swaked, _) = sendings
        with Bridge(program.path, folder) as bridge:
            shown = check_account(bridge.port, tally, ADDRESS, [*by_python, *curled, *swaked], begun)
            check_account(bridge.port, tally, OTHER, [*by_python[: len(ATTACHED)], *curled], begun)
            check_fetching_curl(bridge.port, tally, shown)
