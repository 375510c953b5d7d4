"""Rows that are written out: words and octets in, status and octets out."""

import os
import resource
import subprocess

from oracle.downgrade_oracle import MESSAGE_MAX, outcome
from rows import address_rows, field_rows, parameter_rows, trace_rows
from support.harness import differs

WORDS_REFUSED = (4, b"words refused\r\n")


def refused(at, reason):
    return 7, f"refused at {at}: {reason}\r\n".encode()


CAFE = "Subject: café bar\r\n\r\nx\r\n".encode()
CAFE_SURROGATE = b"Subject:\r\n =?UTF-8?B?Y2Fmw6k=?=\r\n bar\r\n\r\nx\r\n"


def of_messages():
    """Name, octets, and the status and octets that are wanted."""
    row = lambda name, text, status, wanted: (name, text if isinstance(text, bytes) else text.encode(), status, wanted)
    return [
        row("café bar", CAFE, 0, CAFE_SURROGATE),
        row("a Q word, which is shorter", "Subject: naïve reading of café\r\n", 0, b"Subject:\r\n =?UTF-8?Q?na=C3=AFve_reading_of_caf=C3=A9?=\r\n"),
        row("no white behind the colon", "Subject:é\r\n", 0, b"Subject:\r\n =?UTF-8?B?w6k=?=\r\n"),
        row(
            "sixteen characters of three octets fill a word and begin another",
            "Subject: " + "あ" * 16 + "\r\n\r\n",
            0,
            b"Subject:\r\n =?UTF-8?B?" + b"44GC" * 15 + b"?=\r\n =?UTF-8?B?44GC?=\r\n\r\n",
        ),
        row("white around the core is kept", "Subject: abc  é  def\r\n\r\n", 0, b"Subject:\r\n abc\r\n =?UTF-8?Q?_=C3=A9_?=\r\n def\r\n\r\n"),
        row("a tab before the core is chosen", "Subject:a\té\r\n", 0, b"Subject:\r\n a\r\n\t=?UTF-8?B?w6k=?=\r\n"),
        row("a tab behind the core is chosen", "Subject: é\tb\r\n", 0, b"Subject:\r\n =?UTF-8?B?w6k=?=\r\n\tb\r\n"),
        row("one core from the first such word to the last", "X: a é b  ü c\r\n", 0, b"X:\r\n a\r\n =?UTF-8?B?w6kgYiAgw7w=?=\r\n c\r\n"),
        row("white before the colon is dropped", "X-Note \t: é\r\n", 0, b"X-Note:\r\n =?UTF-8?B?w6k=?=\r\n"),
        row("white at the ends of a value is dropped", "X: \t é \t \r\n", 0, b"X:\r\n =?UTF-8?B?w6k=?=\r\n"),
        row("a no-break space is no white", "X: a\u00a0b\r\n", 0, b"X:\r\n =?UTF-8?Q?a=C2=A0b?=\r\n"),
        row("a value of a NEL and a zero-width space", "X: \u0085\u200b\r\n", 0, b"X:\r\n =?UTF-8?B?woXigIs=?=\r\n"),
        row("ASCII fields are copied, with folds and encoded words", "Subject: =?UTF-8?B?w6k=?=\r\n\tx\r\nTo: a@b\r\n\r\né\r\n", 0,
            "Subject: =?UTF-8?B?w6k=?=\r\n\tx\r\nTo: a@b\r\n\r\né\r\n".encode()),
        row("an ASCII field with white before its colon is copied", b"A \t: b\r\n\r\n", 0, b"A \t: b\r\n\r\n"),
        row("a body with any octets is copied", b"A: b\r\n\r\n\xff\xfe =?\r\n", 0, b"A: b\r\n\r\n\xff\xfe =?\r\n"),
        row("no octets", b"", 0, b""),
        row("an empty line", b"\r\n", 0, b"\r\n"),
        row("an empty line and a body", b"\r\nx: \xe9\r\n", 0, b"\r\nx: \xe9\r\n"),
        row("fields alone, without an empty line", b"A: b\r\nC: d\r\n", 0, b"A: b\r\nC: d\r\n"),
        row("an encoded word begun", "Subject: =?é\r\n\r\n", 0, b"Subject:\r\n =?UTF-8?B?PT/DqQ==?=\r\n\r\n"),
        row("the first of two types decides", "Content-Type: é\r\nContent-Type: multipart/mixed; boundary=b\r\n\r\n--b\r\n\r\nt\r\n--b--\r\n", 0,
            b"Content-Type:\r\n =?UTF-8?B?w6k=?=\r\nContent-Type: multipart/mixed; boundary=b\r\n\r\n--b\r\n\r\nt\r\n--b--\r\n"),
        row("a fold", "Subject: a\r\n é\r\n\r\n", 0, b"Subject:\r\n a\r\n =?UTF-8?B?w6k=?=\r\n\r\n"),
        row("an ASCII name with a hyphen first", b"-x: e\r\n\r\n", 0, b"-x: e\r\n\r\n"),
        row("a content type", b"A: b\r\ncontent-TYPE: text/plain\r\n\r\n", 0, b"A: b\r\ncontent-TYPE: text/plain\r\n\r\n"),
        row("a content type in the body", b"A: b\r\n\r\nContent-Type: text/plain\r\n", 0, b"A: b\r\n\r\nContent-Type: text/plain\r\n"),
        row("no colon", b"Subject", *refused(0, "not a field")),
        row("no colon, but CRLF", b"Subject\r\n", *refused(0, "not a field")),
        row("a fault behind a type", b"Content-Type: x\r\nSubject\r\n", *refused(17, "not a field")),
        row("no name", b": x\r\n", *refused(0, "not a field")),
        row("a fold before any field", b" x: y\r\n", *refused(0, "not a field")),
        row("NUL in the header", b"A: b\0\r\n\r\n", *refused(4, "nul")),
        row("NUL in the body", b"A: b\r\n\r\nx\0\r\n", *refused(9, "nul")),
        row("a bare CR", b"A: b\r\n\r\nx\ry\r\n", *refused(9, "bare cr")),
        row("a bare LF", b"A: b\r\n\r\nx\ny\r\n", *refused(9, "bare lf")),
        row("LF line ends", b"A: b\n\nx\n", *refused(4, "bare lf")),
        row("no last CRLF", b"A: b\r\n\r\nx", 0, b"A: b\r\n\r\nx\r\n"),
        row("no last CRLF in the header", b"A: b", 0, b"A: b\r\n"),
        row("CR last", b"A: b\r\n\r\nx\r", *refused(9, "bare cr")),
        row("Latin-1", b"Subject: caf\xe9\r\n\r\n", *refused(12, "not utf-8")),
        row("a character cut off", b"Subject: \xe3\x81\r\n\r\n", *refused(9, "not utf-8")),
        row("an overlong form", b"Subject: \xc0\xaf\r\n\r\n", *refused(9, "not utf-8")),
        row("a surrogate", b"Subject: \xed\xa0\x80\r\n\r\n", *refused(9, "not utf-8")),
        row("beyond U+10FFFF", b"Subject: \xf4\x90\x80\x80\r\n\r\n", *refused(9, "not utf-8")),
        row("a message of 33,554,433 octets", of_size(MESSAGE_MAX + 1), *refused(MESSAGE_MAX, "too large")),
        row("too large comes before all others", b"\0" * (MESSAGE_MAX + 1), *refused(MESSAGE_MAX, "too large")),
        row("a message of 33,554,432 octets", of_size(MESSAGE_MAX), 0, of_size(MESSAGE_MAX)),
    ]


MIXED = "Content-Type: multipart/mixed; boundary=b\r\n\r\n"
HIGH, HIGH_MADE = "Subject: é\r\n", "Subject:\r\n =?UTF-8?B?w6k=?=\r\n"


def of_entities():
    """Messages with parts, or with a message inside: name, octets, and the status and octets that are wanted."""
    row = lambda name, text, wanted: (name, text.encode(), 0, wanted.encode())
    fault = lambda name, text, at, reason: (name, text.encode(), *refused(at, reason))
    inner = "Content-Type: message/global\r\n"
    return [
        row("a part", f"{MIXED}é\r\n--b\r\n{HIGH}\r\né\r\n--b--\r\né\r\n", f"{MIXED}é\r\n--b\r\n{HIGH_MADE}\r\né\r\n--b--\r\né\r\n"),
        row("two parts, the second of which isn't ended", f"{MIXED}--b\r\n{HIGH}\r\n--b \t\r\n{HIGH}", f"{MIXED}--b\r\n{HIGH_MADE}\r\n--b \t\r\n{HIGH_MADE}"),
        row("the last line of a part has no CRLF of its own", f"{MIXED}--b\r\nSubject: é\r\n--b--\r\n", f"{MIXED}--b\r\nSubject:\r\n =?UTF-8?B?w6k=?=\r\n--b--\r\n"),
        row("a part of nothing", f"{MIXED}--b\r\n--b--", f"{MIXED}--b\r\n--b--\r\n"),
        row("no part", f"{MIXED}--b--\r\n{HIGH}", f"{MIXED}--b--\r\n{HIGH}"),
        row("a message in a message", f"Content-Type: message/rfc822\r\n\r\n{HIGH}\r\né", f"Content-Type: message/rfc822\r\n\r\n{HIGH_MADE}\r\né\r\n"),
        row("a message/global", f"{MIXED}--b\r\n{inner}\r\n{HIGH}\r\nt\r\n--b--\r\n", f"{MIXED}--b\r\nContent-Type: message/rfc822\r\n\r\n{HIGH_MADE}\r\nt\r\n--b--\r\n"),
        row("the type of a message/global, folded", f"Content-Type: message/(é)\r\n Global\r\nContent-type:\r\n (x)message\r\n /\r\n gLOBAL; a=b\r\n\r\n{HIGH}",
            f"Content-Type:\r\n message/rfc822\r\n (\r\n =?UTF-8?B?w6k=?=\r\n )\r\nContent-type:\r\n (x)message\r\n /\r\n rfc822; a=b\r\n\r\n{HIGH_MADE}"),
        row("an encoded message/global isn't opened", f"{inner}Content-Transfer-Encoding: base64\r\n\r\n{HIGH}", f"{inner}Content-Transfer-Encoding: base64\r\n\r\n{HIGH}"),
        row("a digest", f"Content-Type: multipart/digest; boundary=b\r\n\r\n--b\r\n\r\n{HIGH}--b--\r\n", f"Content-Type: multipart/digest; boundary=b\r\n\r\n--b\r\n\r\n{HIGH_MADE}--b--\r\n"),
        row("a field that is like a delimiter line", "Content-Type: multipart/mixed; boundary=\"b:\"\r\n\r\n--b:\r\n--b: é\r\n\r\nt\r\n--b:--\r\n",
            "Content-Type: multipart/mixed; boundary=\"b:\"\r\n\r\n--b:\r\nDowngraded---b:\r\n =?UTF-8?B?w6k=?=\r\n\r\nt\r\n--b:--\r\n"),
        fault("a part that is no entity", f"{MIXED}--b\r\né\r\n", len(MIXED) + 5, "not a field"),
        fault("a message inside that isn't UTF-8, and a NUL behind it", f"Content-Type: message/rfc822\r\n\r\nx\r\n\0", 35, "nul"),
    ]


def of_size(size):
    """An ASCII message of so many octets."""
    head = b"A: b\r\n\r\n"
    lines, last = divmod(size - len(head), 80)
    return head + (b"x" * 78 + b"\r\n") * (lines - 1) + b"y" * (last + 78) + b"\r\n"


CONTROLS = {0: "nul", 10: "bare lf", 13: "bare cr"}


def of_names():
    """Each octet alone as a name, and behind another octet of a name."""
    for octet in range(256):
        for before in (b"", b"A"):
            name = before + bytes([octet])
            # white behind a name belongs to no name
            is_name = 33 <= octet <= 126 and octet != 58 or (before and octet in (9, 32, 58))
            text = name + b": b\r\n\r\n"
            wanted = (0, text) if is_name else refused(len(before), CONTROLS[octet]) if octet in CONTROLS else refused(0, "not a field")
            yield f"the octet {octet} {'behind a name' if before else 'as a name'}", text, *wanted


ENCAPSULATED = """
    From Sender Reply-To To Cc Bcc Resent-From Resent-Sender Resent-Reply-To Resent-To Resent-Cc Resent-Bcc
    Date Resent-Date MIME-Version Content-Disposition Message-ID Resent-Message-ID In-Reply-To References Content-ID
    Return-Path Original-Recipient Final-Recipient Received -x
    """.split()
KEPT = """
    Subject Comments Resent-Subject Content-Description Content-Types Too X-From Delivered-To Reply-To-x Keywords
    Content-Transfer-Encoding
    """.split()


def of_kinds():
    """A field of each kind, whatever the case of its name."""
    for name in ["Content-Type", *ENCAPSULATED, *KEPT]:
        for spelled in (name, name.lower(), name.upper()):
            text = f"A: b\r\n{spelled}: é\r\n\r\n".encode()
            made = ("Downgraded-" if name in ENCAPSULATED else "") + spelled
            surrogate = f"A: b\r\n{made}:\r\n =?UTF-8?B?w6k=?=\r\n\r\n".encode()
            yield f"the field {spelled}", text, 0, surrogate


def of_fields():
    """Messages of one field each."""
    for name, field, lines in [*field_rows.fields(), *address_rows.fields(), *parameter_rows.fields(), *trace_rows.fields()]:
        yield name, f"{field}\r\n\r\n".encode(), 0, "".join(line + "\r\n" for line in [*lines, ""]).encode()


PART = "Content-Type: multipart/mixed; boundary=b\r\n\r\n--b\r\nContent-Type: message/global\r\n"
INNER = "\r\nSubject: é\r\n\r\nt\r\n--b--\r\n"


def of_figures():
    """Messages, and what `check` tells of them."""
    def row(name, text, *figures):
        names = ("octets", "served", "entities", "rewritten", "utf8")
        return name, text.encode(), "".join(f"{word} {figure}\r\n" for word, figure in zip(names, figures)).encode()

    return [
        row("nothing", "", 0, 0, 1, 0, "no"),
        row("café bar", CAFE.decode(), 25, 44, 1, 1, "yes"),
        row("a content in UTF-8, whose last line isn't ended", "A: b\r\n\r\né", 12, 12, 1, 0, "no"),
        row("an opened message/global in a part", PART + INNER, 107, 123, 3, 2, "yes"),
        row("the same, encoded", f"{PART}Content-Transfer-Encoding: base64\r\n{INNER}", 142, 142, 2, 0, "no"),
    ]


def of_words():
    return [
        ("the word down", [b"down"]),
        ("no word", []),
        ("two words", [b"downgrade", b"downgrade"]),
        ("the words downgrade and check", [b"downgrade", b"check"]),
        ("an empty word", [b""]),
        ("capitals", [b"Downgrade"]),
        ("a space behind", [b"downgrade "]),
        ("a word that is no UTF-8", [b"\xff"]),
        ("a word that is no UTF-8, behind the right one", [b"downgrade", b"\xff"]),
    ]


def little_memory():
    resource.setrlimit(resource.RLIMIT_AS, (24 << 20, 24 << 20))


def of_the_outside(program, tally):
    """Rows where the outside fails."""
    with open("/dev/full", "wb") as full:
        tally.note("standard output is full", differs("status", program.run([b"downgrade"], CAFE, stdout=full)[0], 1))
        tally.note("standard output is full, and the words are wrong", differs("status", program.run([b"x"], CAFE, stdout=full)[0], 1))
    # a folder can be opened, and can't be read
    folder = os.open(program.folder.name, os.O_RDONLY)
    try:
        tally.note("standard input can't be read", differs("answer", program.run_on([b"downgrade"], folder), (1, b"")))
    finally:
        os.close(folder)
    found = program.run([b"downgrade"], of_size(MESSAGE_MAX), preexec=little_memory)
    tally.note("want of memory", differs("answer", found, (3, b"")))


def in_a_pipe(program, tally):
    """The same octets, handed out one by one."""
    how = {"stdin": subprocess.PIPE, "stdout": subprocess.PIPE, "bufsize": 0}
    with subprocess.Popen([program.path, b"downgrade"], **how) as running:
        for octet in CAFE:
            running.stdin.write(bytes([octet]))
        running.stdin.close()
        given = running.stdout.read()
    tally.note("café bar, octet by octet", differs("octets", given, CAFE_SURROGATE) + differs("status", running.returncode, 0))


def check(program, tally):
    for name, octets, status, wanted in [*of_messages(), *of_entities(), *of_names(), *of_kinds(), *of_fields()]:
        tally.note(f"{name}, as the oracle has it", differs("oracle", outcome([b"downgrade"], octets), (status, wanted)))
        found, given = program.downgrade(octets)
        tally.note(name, differs("status", found, status) + differs("octets", given, wanted))
        tally.note(f"{name}, check", differs("answer", program.run([b"check"], octets), outcome([b"check"], octets)))
    for name, octets, lines in of_figures():
        tally.note(f"{name}, check", differs("answer", program.run([b"check"], octets), (0, lines)))
    for name, words in of_words():
        found = program.run(words, CAFE)
        tally.note(name, differs("answer", found, WORDS_REFUSED))
    tally.note("café bar has 44 octets", differs("octets", len(CAFE_SURROGATE), 44))
    in_a_pipe(program, tally)
    of_the_outside(program, tally)
