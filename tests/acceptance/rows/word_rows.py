"""Rows of the words that keep domains and accounts, and of `help`: a journal and words in, status, line and journal out."""

import os
import subprocess
import tempfile

from journal import FIRST_OCTETS, account, domain, journal
from oracle.pop_store import open_journal
from oracle.word_oracle import certain_outcome
from rows.downgrade_rows import WORDS_REFUSED
from support.harness import SECONDS, differs
from support.talk import JOURNAL, place_journal, read_journal

X_ORG = bytes.fromhex("4D41494C4A4E4C32" "0000000A0200000005782E6F7267")
BAD = bytes.fromhex("4D41494C4A4E4C320000000109")
EXISTS, NO_DOMAIN = (9, b"exists\r\n"), (9, b"no such domain\r\n")
DONE, NOTHING_SENT = (0, b""), (0, b"sent 0, reported 0, left 0\r\n")
TEXT_MAX = 65_536
LICENSE = b"License: Apache-2.0 OR MIT"
COMMANDS = [b"downgrade", b"check", b"pop", b"smtp", b"imap", b"serve", b"account", b"domain", b"relay", b"gen", b"help"]


def words_of(*words):
    return [word if isinstance(word, bytes) else word.encode() for word in words]


def of_domains():
    """Name, journal, words, status and line, and the records that they bring."""
    accounts = journal(account(b"a@x.org", b""))
    added = [
        ("x.org", b"x.org"), ("X.Org", b"x.org"), ("bücher.example", b"xn--bcher-kva.example"), ("bu\u0308cher.example", b"xn--bcher-kva.example"),
        ("XN--BCHER-KVA.example", b"xn--bcher-kva.example"), ("0", b"0"), ("a" * 63, b"a" * 63), ("a." * 126 + "a", b"a." * 126 + b"a"),
    ]
    again = [("x.org", X_ORG), ("X.ORG", X_ORG), ("Bücher.example", journal(domain(b"a"), domain(b"xn--bcher-kva.example")))]
    return [
        *((f"the domain {word[:20]}", before, ["domain", word], DONE, domain(form)) for word, form in added for before in (None, FIRST_OCTETS)),
        ("a second domain", X_ORG, ["domain", "y.org"], DONE, domain(b"y.org")),
        ("a domain that an account has", accounts, ["domain", "x.org"], DONE, domain(b"x.org")),
        *((f"the domain {word[:20]} again", before, ["domain", word], EXISTS, b"") for word, before in again),
    ]


def of_accounts():
    both = X_ORG + domain(b"xn--bcher-kva.example")
    added = [
        ("a@x.org", b"a@x.org"), ("A@X.Org", b"A@X.Org"), ("josé@bücher.example", "josé@bücher.example".encode()), ('"a"@x.org', b"a@x.org"),
        ('"a b"@x.org', b'"a b"@x.org'), (" a . b (x) @ x.org", b"a.b@x.org"), ("a@xn--bcher-kva.example", b"a@xn--bcher-kva.example"),
    ]
    one = X_ORG + account("Stra\u00dfe@x.org".encode(), b"p")
    same = ["stra\u00dfe@x.org", "STRASSE@X.ORG", '"strasse"@x.org', "strasse (x) @ x.org"]
    return [
        *((f"the account {word[:20]}", both, ["account", word, "p"], DONE, account(text, b"p")) for word, text in added),
        *((f"the password {word[:20]}", X_ORG, ["account", "a@x.org", word], DONE, account(b"a@x.org", word.encode())) for word in
            (" ", "p w", "pässword", "x" * TEXT_MAX)),
        ("an address as long as one may be", X_ORG, ["account", "a" * (TEXT_MAX - 6) + "@x.org", "p"], DONE, account(b"a" * (TEXT_MAX - 6) + b"@x.org", b"p")),
        *((f"the account {word[:20]} again", one, ["account", word, "q"], EXISTS, b"") for word in same),
        ("another account", one, ["account", "strase@x.org", "q"], DONE, account(b"strase@x.org", b"q")),
        ("an account of no domain", X_ORG, ["account", "a@y.org", "p"], NO_DOMAIN, b""),
        ("an account where there is no domain", None, ["account", "a@x.org", "p"], NO_DOMAIN, b""),
        ("an account that is there, of no domain", journal(account(b"a@y.org", b"")), ["account", "a@y.org", "p"], EXISTS, b""),
    ]


def of_first_lines():
    """Name, and the input and the password that it has, or None where it has none."""
    longest = b"x" * TEXT_MAX
    return [
        ("LF", b"secret\n", b"secret"), ("CRLF", b"secret\r\n", b"secret"), ("no end", b"secret", b"secret"), ("a second line", b"secret\r\nother\r\n", b"secret"),
        ("white", b" p w\t\r\n", b" p w\t"), ("a dash", b"-p\n", b"-p"), ("other octets", b"\xff\0\x7f\n", b"\xff\0\x7f"), ("UTF-8", "pässword\n".encode(), "pässword".encode()),
        ("CR inside", b"a\rb\r\r\n", b"a\rb\r"), ("CR at the end", b"secret\r", b"secret\r"), ("CRLF alone", b"\r\n", None), ("CR alone", b"\r", b"\r"),
        *((f"{len(end)} octets of its end behind one piece", b"x" * count + end, b"x" * count) for count in (4094, 4095, 4096) for end in (b"\n", b"\r\n", b"\r\ny")),
        *((f"the longest, {end}", longest + end, longest) for end in (b"", b"\n", b"\r\n", b"\ny")), ("the longest, CR", longest + b"\r", None),
        *((f"longer, {end}", longest + b"y" + end, None) for end in (b"", b"\n", b"\r\n")), ("endless", longest * 20, None),
        ("nothing", b"", None), ("an empty line", b"\n", None), ("an empty line first", b"\nsecret\n", None),
    ]


def refused_words():
    """Words in no form."""
    domains = ["", "-", "-x.org", "a_b", "a..b", "x.org.", "a@b", "[1.2.3.4]", " x.org", "x.org ", "a b", "x\n", "a" * 64, "a." * 127]
    addresses = ["", "a", "@x.org", "a@", "a@b_c", "a@[1.2.3.4]", "<a@x.org>", "a@x.org,b@x.org", "a@x.org,", "@y:a@x.org", "-a@x.org", "a(@x.org",
        "a" * (TEXT_MAX - 5) + "@x.org"]
    others = [["domain"], ["domain", "x.org", "y.org"], ["DOMAIN", "x.org"], ["account"], ["account", "a@x.org", ""],
        ["account", "a@x.org", "-p"], ["account", "a@x.org", "p", "q"], ["account", "a@x.org", "p", "--help"], ["account", "a@x.org", "x" * (TEXT_MAX + 1)], ["Account", "a@x.org", "p"],
        ["relay"], ["relay", ""], ["relay", "-x"], ["relay", "a", "b"], ["relay", "a", "25"], ["RELAY", "a"], ["relay", "a", ""],
        [], ["post"], ["post", "0"], ["pop", "1"], ["smtp", "-1"], ["imap", "1"], ["IMAP"], ["help", "x"], ["help", ""], ["--help"], ["-h"], ["HELP"],
        ["downgrade", "pop", "1", "1"]]
    served = ["serve", "serve pop", "serve pop 110", "serve pop 110 1 1", "serve POP 110 1", "Serve pop 110 1", "serve help 110 1", "serve pop pop 1",
        "serve imap 143", "serve imap4 143 1",
        *(f"serve pop {port} 1" for port in ("0", "65536", "0110", "+110", "-1", "110.", "0x6e", "4294967406", "9" * 100)),
        *(f"serve smtp 25 {count}" for count in ("0", "1000001", "01", "007", "+1", "-1", "1e3", "18446744073709551617"))]
    return [
        *(words_of(*line.split()) for line in served), ["serve", "pop", "110", ""],
        *(words_of("domain", word) for word in domains), *(words_of("account", word, "p") for word in addresses), *(words_of(*words) for words in others),
        [b"domain", b"\xff"], [b"account", b"\xff@x.org", b"p"], [b"account", b"a@x.org", b"\xff"], [b"relay", b"\xff"],
    ]


def of_journals():
    """Name, journal, words, status and line, and the journal then."""
    rows = []
    for words in (["domain", "x.org"], ["account", "a@x.org", "p"], ["relay", "x.invalid"]):
        rows += [
            (f"a bad journal, {words[0]}", BAD, words, (5, b"bad journal at 8\r\n"), BAD),
            (f"other octets, {words[0]}", b"MAILJNL3", words, (5, b"bad journal at 0\r\n"), b"MAILJNL3"),
        ]
    return [
        *rows,
        ("a journal cut to ten octets", BAD[:10], ["domain", "x.org"], DONE, X_ORG),
        ("a journal cut to ten octets, which keeps eight", BAD[:10], ["account", "a@x.org", "p"], NO_DOMAIN, FIRST_OCTETS),
        *(("nothing to send", before, ["relay", host], NOTHING_SENT, before or FIRST_OCTETS)
            for before in (None, FIRST_OCTETS, X_ORG) for host in ("x.invalid", "é", "x y:z")),
        ("a record cut off", X_ORG[:-1], ["domain", "x.org"], DONE, X_ORG),
    ]


def run_on(program, before, words, octets=b""):
    """Status, what was given, and the journal then."""
    with tempfile.TemporaryDirectory(dir=program.folder.name) as folder:
        path = place_journal(folder, before)
        status, given = program.run(words_of(*words), octets, cwd=folder)
        return (status, given), read_journal(path)


def check_row(program, tally, name, before, words, wanted, after):
    found, left = run_on(program, before, words)
    told = certain_outcome(before or b"", words_of(*words)) if words[0] in ("domain", "account") else None
    if told:
        tally.note(f"words: {name}, as the oracle has it", differs("answer", (told[:2], told[2]), (wanted, after)))
    tally.note(f"words: {name}", differs("answer", found, wanted) + differs("journal", left, after))
    if wanted[0] != 5:
        tally.note(f"words: {name}, as our reader has it", differs("journal", open_journal(after)[1], after))


def check_refusals(program, tally):
    """Words in no form take nothing, and leave the journal alone, a bad one too."""
    for words in refused_words():
        for before in (None, BAD):
            answer, left = run_on(program, before, words, b"A: b\r\n")
            tally.note(f"the words {words}"[:100], differs("answer", answer, WORDS_REFUSED) + differs("journal", left, before))


def check_first_lines(program, tally):
    """Without a second word the first line is the password, where the journal takes the account; one that is none leaves the journal alone."""
    words, there = ["account", "a@x.org"], journal(account(b"a@x.org", b"p"))
    for name, octets, password in of_first_lines():
        answer, left = run_on(program, X_ORG, words, octets)
        wanted, after = (WORDS_REFUSED, X_ORG) if password is None else (DONE, X_ORG + account(b"a@x.org", password))
        tally.note(f"a password on the first line: {name}", differs("answer", answer, wanted) + differs("journal", left, after))
        for before, told, then in ((None, NO_DOMAIN, FIRST_OCTETS), (BAD, (5, b"bad journal at 8\r\n"), BAD), (there, EXISTS, there)):
            answer, left = run_on(program, before, words, octets)
            wanted, after = (WORDS_REFUSED, before) if password is None else (told, then)
            tally.note(f"no account for the first line: {name}", differs("answer", answer, wanted) + differs("journal", left, after))


def check_open_input(program, tally):
    """It ends with the first line, whatever may come behind it, and leaves the journal to others until then."""
    with tempfile.TemporaryDirectory(dir=program.folder.name) as folder:
        with subprocess.Popen([program.path, "account", "a@x.org"], stdin=subprocess.PIPE, stdout=subprocess.PIPE, cwd=folder) as running:
            running.stdin.write(b"sec")
            running.stdin.flush()
            other = program.run(words_of("domain", "x.org"), b"", cwd=folder)
            kept = read_journal(os.path.join(folder, JOURNAL))
            running.stdin.write(b"ret\r\n")
            running.stdin.flush()
            try:
                status = running.wait(SECONDS)
            except subprocess.TimeoutExpired:
                running.kill()
                status = "it waits for more"
        left = read_journal(os.path.join(folder, JOURNAL))
    faults = differs("domain meanwhile", other, DONE) + differs("journal meanwhile", kept, X_ORG) + differs("status", status, 0)
    tally.note("a password while the input stays open", faults + differs("journal", left, X_ORG + account(b"a@x.org", b"secret")))


def check_help(program, tally):
    """It names every command and the license, and leaves the journal alone, a bad one too."""
    for before in (None, BAD):
        (status, given), left = run_on(program, before, ["help"])
        faults = differs("status", status, 0) + differs("journal", left, before)
        faults += differs("is ASCII, with whole lines", given.isascii() and given.endswith(b"\n"), True)
        tally.note("help", faults + [f"it doesn't name {word.decode()}: {given!r}" for word in [*COMMANDS, LICENSE] if word not in given])


def check_use(program, tally):
    """A domain and an account that these words made: mail is sent and fetched, by other spellings too, and taken out."""
    with tempfile.TemporaryDirectory(dir=program.folder.name) as folder:
        for words in (["domain", "bücher.example"], ["account", "josé@bücher.example", "pass word"]):
            tally.note(f"use: {words[0]}", differs("answer", program.run(words_of(*words), b"", cwd=folder), DONE))
        sends = "EHLO x\r\nMAIL FROM:<> SMTPUTF8\r\nRCPT TO:<JOSÉ@xn--bcher-kva.example>\r\nDATA\r\nSubject: é\r\n.\r\nQUIT\r\n"
        deletes = 'a LOGIN {21}\r\njosé@bücher.example "pass word"\r\na SELECT INBOX\r\na STORE 1 FLAGS \\Deleted\r\na EXPUNGE\r\na LOGOUT\r\n'
        fetches = "USER josé@bücher.example\r\nPASS pass word\r\nTOP 1 0\r\nQUIT\r\n"
        for word, octets, last in (
            ("smtp", sends, [b"354 go ahead", b"250 2.0.0 stored", b"221 2.0.0 bye", b""]),
            ("pop", fetches, [b"Subject:", b" =?UTF-8?B?w6k=?=", b".", b"+OK bye", b""]),
            ("imap", deletes, [b"* 1 EXPUNGE", b"a OK done", b"* BYE bye", b"a OK done", b""]),
        ):
            lines = program.run(words_of(word), octets.encode(), cwd=folder)[1].split(b"\r\n")
            tally.note(f"use: {word}", differs("last lines", lines[-len(last) :], last))


def check(program, tally):
    for name, before, words, wanted, records in [*of_domains(), *of_accounts()]:
        check_row(program, tally, name, before, words, wanted, (before or FIRST_OCTETS) + records)
    for name, before, words, wanted, after in of_journals():
        check_row(program, tally, name, before, words, wanted, after)
    check_refusals(program, tally)
    check_first_lines(program, tally)
    check_open_input(program, tally)
    check_help(program, tally)
    check_use(program, tally)
