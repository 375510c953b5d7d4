"""Rows of journals that are written out: a journal, status and line, and the journal then. The input is `QUIT`.

Most are of version 2. What their records have is tried in a journal of version 1 too."""

import journal as own
from journal import FIRST_OCTETS, OLDER_FIRST_OCTETS, account, domain, expunge, flags, folder, journal, number, older_journal, older_message, older_queue
from journal import settle, version
from oracle.records import mailbox, message, older, queue
from rows.downgrade_rows import CAFE, MIXED
from support.moments import records_of

OPENS = 0, b"+OK ready\r\n+OK bye\r\n"
ANN = mailbox([])
OLDER_ANN = OLDER_FIRST_OCTETS + ANN[len(FIRST_OCTETS) :]
MAIL = b"A: b\r\n"
TYPED = b"Content-Type: a/b\r\n"
SECTOR = 512
# by version: what makes a journal, a record of version 2 in it, and what opening appends
BOTH = {"version 1": (older_journal, older, version()), "version 2": (journal, bytes, b"")}
# a date of a record, with its length
DATED = "0000001A 30312D4A616E2D313937302030303A30303A3030202B30303030"
EVERY_KIND = [
    "4D41494C4A4E4C32",
    "00000006 02 00000001 78",
    "0000000C 01 00000003 614078 00000000",
    "0000000A 03 00000000 00000001 66",
    f"0000002F 09 00000001 1F 00 {DATED} 00000006 413A20620D0A",
    "00000006 05 00000000 00",
    "00000005 06 00000000",
    "00000022 0A 00000000 00000002 00000003 614078 00000003 624078 00 00000006 413A20620D0A",
    "00000009 08 00000000 00000001",
    f"00000030 09 00000000 00 03 {DATED} 00000007 413A20C3A90D0A",
    "00000022 0A 00000003 614078 00000001 00000003 624078 02 0000000A 413A0D0A0D0AC3A90D0A",
]
EVERY_OLDER_KIND = [
    "4D41494C4A4E4C31",
    *EVERY_KIND[1:4],
    f"0000002E 04 00000001 1F {DATED} 00000006 413A20620D0A",
    *EVERY_KIND[5:7],
    "00000021 07 00000000 00000002 00000003 614078 00000003 624078 00000006 413A20620D0A",
    EVERY_KIND[8],
    f"0000002F 04 00000000 00 {DATED} 00000007 413A20C3A90D0A",
    "00000021 07 00000003 614078 00000001 00000003 624078 0000000A 413A0D0A0D0AC3A90D0A",
]


def octets_of(lines):
    return bytes.fromhex("".join(lines))


def opened(name, octets):
    """A journal of version 2 stays."""
    return name, octets, *OPENS, octets


def goes_on(name, octets):
    """One that ends in version 1 gets a record."""
    return name, octets, *OPENS, octets + version()


def cut(name, octets, rest):
    """The rest is cut off."""
    return name, octets + rest, *OPENS, octets + (version() if octets.startswith(OLDER_FIRST_OCTETS) and version() not in octets else b"")


def refused(name, octets, at=8):
    return name, octets, 5, b"bad journal at %d\r\n" % at, octets


def behind(before, name, record):
    """The record is refused behind these."""
    return refused(name, before + record, len(before))


def long_address(size):
    """So many octets, with a comment."""
    return b"a@b(" + b"x" * (size - 5) + b")"


def of_frames():
    """Where the journal and its records begin and end."""
    prefixes = [FIRST_OCTETS[:count] for count in range(1, 8)]
    others = [b"m", b"MAILJNL3", b"MAILJNL0", b"mailjnl2", b"MAILJNK", b"MAILJNL\0", b"\0", b"AILJNL2", b"MAILJNL22"[1:], b"MAILJNL3" + ANN[8:]]
    return [
        ("no journal", None, *OPENS, FIRST_OCTETS),
        ("an empty journal", b"", *OPENS, FIRST_OCTETS),
        *((f"{len(it)} of the first octets", it, *OPENS, FIRST_OCTETS) for it in prefixes),
        *(refused(f"other octets, {it[:10]}", it, 0) for it in others),
        *(row for kind, (begun, _, more) in BOTH.items() for row in of_frames_of(kind, begun, more)),
        *(refused(f"the kind {kind} without fields in version 1", older_journal(b"\0\0\0\1" + bytes([kind]))) for kind in (*range(11), 12, 255)),
        *(refused(f"the kind {kind} without fields in version 2", journal(b"\0\0\0\1" + bytes([kind]))) for kind in (*range(13), 255)),
        *(behind(older_journal(version()), f"the kind {kind} without fields behind version 1", b"\0\0\0\1" + bytes([kind])) for kind in range(13)),
        opened("every kind of record", octets_of(EVERY_KIND)),
        goes_on("every kind of record in version 1", octets_of(EVERY_OLDER_KIND)),
        opened("every kind of record in version 1, and its end", octets_of([*EVERY_OLDER_KIND, "00000001 0B"])),
    ]


def of_frames_of(kind, begun, more):
    """The same in both versions."""
    first, name_of = begun(), lambda what: f"{what}, {kind}"
    record = bytes.fromhex
    return [
        (name_of("the first octets alone"), first, *OPENS, first + more),
        *((name_of(f"{len(rest)} octets behind the first ones, {rest.hex()}"), first + rest, *OPENS, first + more) for rest in (b"\0", b"\0\0", b"\4\0\0", b"\xff")),
        (name_of("a record cut off"), begun(domain(b"x"), account(b"a@x", b""))[:-1], *OPENS, begun(domain(b"x")) + more),
        (name_of("a record of an unknown kind cut off"), first + record("00000002FF"), *OPENS, first + more),
        (name_of("a length alone"), first + record("04000000"), *OPENS, first + more),
        refused(name_of("a length of 0"), first + record("0000000002")),
        refused(name_of("a length above 67,108,864"), first + record("04000001")),
        refused(name_of("an octet behind the fields"), begun(b"\0\0\0\x07\x02\0\0\0\1xx")),
        behind(begun(domain(b"x")), name_of("the first of two faults"), domain(b"-") + b"\0\0\0\1\xff"),
    ]


def of_versions():
    """Records of one version in the other, and where version 1 ends."""
    new, old = [message(0, CAFE), queue(b"", [b"a@b"], CAFE)], [older_message(0, CAFE), older_queue(b"", [b"a@b"], CAFE)]
    both = [("message", 0), ("entry", 1)]
    return [
        *(behind(ANN, f"an unmarked {what} in version 2", old[at]) for what, at in both),
        *(behind(OLDER_ANN, f"a marked {what} in version 1", new[at]) for what, at in both),
        *(behind(OLDER_ANN + version(), f"an unmarked {what} behind version 1", old[at]) for what, at in both),
        *(opened(f"a marked {what} behind version 1", OLDER_ANN + old[at] + version() + new[at]) for what, at in both),
        *(behind(OLDER_ANN + old[at], f"a marked {what} behind an unmarked one", new[at]) for what, at in both),
        behind(journal(), "the end of version 1 in version 2", version()),
        behind(ANN, "the end of version 1 in version 2, behind records", version()),
        behind(OLDER_ANN + version(), "a second end of version 1", version()),
        opened("the end of version 1 first", older_journal(version())),
        behind(OLDER_ANN, "an end of version 1 with a field", b"\0\0\0\2\x0b\0"),
        opened("all behind the end of version 1", older_journal(version(), ANN[8:], *new, flags(0, 1), folder(0, b"f"), expunge(0), settle(0, 0))),
        *(cut(f"{count} octets of the end of version 1", OLDER_ANN, version()[:count]) for count in range(1, 5)),
    ]


# octets, and their mark
MARKED = [
    (b"", 0), (MAIL, 0), (CAFE, 3), ("\r\né\r\n".encode(), 2), (b"A: b\r\n\r\n\xff\r\n", 2), ("A: b\r\n\r\nB: é".encode(), 2), ("A: b\r\n é\r\n".encode(), 3),
    (f"{MIXED}--b\r\nSubject: é\r\n--b--\r\n".encode(), 3), (f"{MIXED}--b\r\n\r\né\r\n--b--\r\n".encode(), 2), (f"{MIXED}--b\r\n\r\nx\r\n--b--\r\né".encode(), 2),
    (f"{MIXED}é\r\n--b\r\n\r\nx\r\n--b--\r\n".encode(), 2), ("Content-Type: message/rfc822\r\n\r\nSubject: é\r\n".encode(), 3),
    ("Content-Type: message/rfc822\r\nContent-Transfer-Encoding: base64\r\n\r\nSubject: é\r\n".encode(), 2), ("Content-Type: text/plain\r\n\r\nSubject: é\r\n".encode(), 2),
    ("Content-Type: multipart/digest; boundary=b\r\n\r\n--b\r\n\r\nSubject: é\r\n--b--\r\n".encode(), 3), (b"A: b\r\n\r\n\x7f\r\n", 0), ("A: \u0080\r\n".encode(), 3),
]


def of_marks():
    """A mark has to be that of the octets."""
    rows = []
    for octets, mark in MARKED:
        for told in (0, 1, 2, 3, 4, 7, 128, 255):
            records = own.message(0, octets, mark=told), own.queue(b"a@b", [b"c@d"], octets, told)
            for what, record in zip(("message", "entry"), records):
                name = f"a mark {told} of a {what}: {octets[:80]}"
                rows.append(opened(name, ANN + record) if told == mark else behind(ANN, name, record))
    return rows


def padded(begun, size):
    """A journal of so many octets."""
    fixed = begun(account(b"a@b", b""))
    return begun(account(b"a@b", b"p" * (size - len(fixed))))


def zeroed(octets, at):
    """The octets with zeros from here on."""
    return octets[:at] + bytes(len(octets) - at)


def of_lost_power():
    """What a loss of power leaves at the end of the file: zeros alone, or a record whose last sectors are zeros."""
    rows = []
    for kind, (begun, form, _) in BOTH.items():
        # a record that ends behind the third border of a sector
        before = padded(begun, 300)
        record = form(message(0, b"A: b\r\n\r\n" + b"x" * 1_400 + b"\r\n"))
        whole, small = before + record, form(message(0, MAIL))
        name_of = lambda what, kind=kind: f"{what}, {kind}"
        torn = [zeroed(whole, at)[300:] for at in (512, 1_024, 1_536)]
        rows += [
            *(cut(name_of(f"{count} zeros"), before, bytes(count)) for count in (1, 3, 4, 5, 212, 213, 512, 4_096)),
            *(cut(name_of(f"{count} zeros behind the first octets"), begun(), bytes(count)) for count in (1, 3, 4, 504, 505)),
            *(behind(before, name_of(f"{count} zeros and another octet"), bytes(count) + b"\1") for count in (4, 5, 212, 700)),
            *(behind(before, name_of(f"{count} zeros and a record"), bytes(count) + small) for count in (4, 8, 212)),
            *(cut(name_of(f"a record that is zeros from a sector on, with {len(rest.rstrip(bytes(1)))} other octets"), before, rest) for rest in torn),
            cut(name_of("a record that is zeros from before a sector on"), before, zeroed(whole, 1_300)[300:]),
            behind(before, name_of("a record that is zeros from behind its last sector on"), zeroed(whole, 1_537)[300:]),
            behind(before, name_of("a record whose last octet is none"), whole[300:-1] + b"\0"),
            *(behind(before, name_of("a torn record and another octet"), rest + b"\1") for rest in torn[:1]),
            *(behind(before, name_of(f"a torn record and a whole one, {len(rest.rstrip(bytes(1)))}"), rest + small) for rest in torn),
            behind(before, name_of("a torn record and zeros"), torn[1] + bytes(4)),
            cut(name_of("a torn record that is broken off"), before, torn[1][:-1]),
            *(cut(name_of(f"a length and no fields, {size} octets before a sector"), padded(begun, SECTOR - size), number(600) + bytes(600)) for size in (2, 3, 4)),
            behind(padded(begun, SECTOR - 5), name_of("a length and a kind, 5 octets before a sector, and another octet"), number(507) + b"\4" + bytes(505) + b"\1"),
            cut(name_of("a length and a kind, 5 octets before a sector"), padded(begun, SECTOR - 5), number(600) + b"\x04" + bytes(599)),
            behind(padded(begun, SECTOR - 6), name_of("no record that ends with a sector"), number(2) + b"\x04\1"),
            behind(padded(begun, SECTOR - 9), name_of("no record that ends with a sector in zeros"), number(5) + b"\x04" + bytes(4)),
            (name_of("a password of zeros, which is a record"), begun(account(b"a@b", bytes(2_000))), *OPENS, begun(account(b"a@b", bytes(2_000)), BOTH[kind][2])),
            behind(begun(account(b"a@b", bytes(2_000))), name_of("a bad record behind a password of zeros"), domain(b"-")),
        ]
    return rows


def of_accounts():
    texts = [b"Ann@Example.org", "jos\u00e9@b\u00fccher.example".encode(), b'"a b"@[1.2.3.4]', b" a . b (x) @ c_d", long_address(65_536)]
    wrong = [b"", b"ann", b"@b", b"a@", b"<a@b>", b"a@b, c@d", b"@c:a@b", b"a@b\0", b'"\r\n"@b', b"\xff@b", b"a@b(", long_address(65_537)]
    return [
        *(opened(f"the address {text[:20]}", journal(account(text, b""))) for text in texts),
        *(refused(f"no address {text[:20]}", journal(account(text, b""))) for text in wrong),
        opened("a password of 65,536 octets", journal(account(b"a@b", b"\xff" * 65_536))),
        refused("a password of 65,537 octets", journal(account(b"a@b", b"x" * 65_537))),
    ]


def of_domains():
    names = [b"x-y.org", b"0", b"xn--bcher-kva.example", b"a." * 126 + b"a", b"a" * 63]
    wrong = [b"", b"X.org", "b\u00fccher.example".encode(), b"a_b", b"a..b", b"a.", b"-a", b"a-", b"ab--c", b"[1.2.3.4]", b"\xff", b"a b"]
    wrong += [b"a." * 126 + b"aa", b"a" * 64]
    return [
        *(opened(f"the domain {name[:20]}", journal(domain(name))) for name in names),
        *(refused(f"no domain {name[:20]}", journal(domain(name))) for name in wrong),
    ]


def of_folders():
    names = [b"INBOX", b"a/b", b" ", "\u00e9".encode(), b"x" * 255]
    wrong = [b"", b"a*", b"%", b"\0", b"\x7f", "\u0085".encode(), "e\u0301".encode(), b"\xe9", b"x" * 256]
    return [
        *(opened(f"the folder {name[:20]}", ANN + folder(0, name)) for name in names),
        *(behind(ANN, f"no folder {name[:20]}", folder(0, name)) for name in wrong),
        behind(ANN, "a folder of no account", folder(1, b"f")),
    ]


def of_messages():
    """Messages, and what becomes of them."""
    one = ANN + message(0, MAIL)
    return [
        refused("a message of no folder", journal(message(0, MAIL))),
        opened("a message in another folder", ANN + folder(0, b"f") + message(1, MAIL)),
        behind(ANN, "flags above 31", message(0, MAIL, flags=32)),
        behind(ANN, "a date of one digit", message(0, MAIL, date=b"1-Jan-1970 00:00:00 +0000")),
        opened("a date of a space, and months in any case", ANN + message(0, MAIL, flags=31, date=b" 9-jUN-0000 99:99:99 -9999")),
        behind(ANN, "a line that is no field", message(0, b"x\r\n")),
        behind(ANN, "a bare LF in the body", message(0, b"A: b\r\n\r\nx\n")),
        behind(ANN, "a part that is no entity", message(0, f"{MIXED}--b\r\né\r\n".encode())),
        behind(ANN, "a part that isn't UTF-8", message(0, MIXED.encode() + b"--b\r\nA: \xff\r\n")),
        opened("a part behind the last one that is no entity", ANN + message(0, f"{MIXED}--b\r\n--b--\r\né\r\n".encode())),
        opened("a type", ANN + message(0, TYPED)),
        behind(ANN, "a type in no folder", message(9, TYPED, flags=99)),
        opened("new flags", one + flags(0, 31) + flags(0, 0)),
        behind(one, "new flags above 31", flags(0, 32)),
        behind(one, "new flags of no message", flags(1, 0)),
        behind(one, "no message expunged", expunge(1)),
        opened("a message expunged", one + expunge(0)),
        behind(one + expunge(0), "a message expunged twice", expunge(0)),
        behind(one + expunge(0), "new flags of a message that was expunged", flags(0, 0)),
    ]


def of_the_queue():
    two = ANN + queue(b"", [b"a@b", b"c@d"], MAIL)
    short = b"\0\0\0\x0e\x0a\0\0\0\0\xff\xff\xff\xff\0\0\0\0\0"
    return [
        opened("an entry without addresses", ANN + queue(b"", [], b"")),
        opened("an entry of a path and addresses", ANN + queue(b"ann@example.org", [b"A@b", "\u00e9@b".encode(), b"A@b"], MAIL)),
        behind(ANN, "a path that is no address", queue(b"<>", [b"a@b"], MAIL)),
        behind(ANN, "a path of 65,537 octets", queue(long_address(65_537), [], MAIL)),
        behind(ANN, "no address among addresses", queue(b"", [b"a@b", b"x"], MAIL)),
        behind(ANN, "an empty text among addresses", queue(b"", [b""], MAIL)),
        behind(ANN, "fewer addresses than are counted", short),
        behind(ANN, "an entry with a line that is no field", queue(b"", [b"a@b"], b"x\r\n")),
        opened("both addresses settled", two + settle(0, 1) + settle(0, 0)),
        behind(two + settle(0, 1), "an address settled twice", settle(0, 1)),
        behind(two, "no address settled", settle(0, 2)),
        behind(two, "no entry settled", settle(1, 0)),
    ]


def older_row(row):
    """A row of version 2 in version 1."""
    name, octets, status, line, _ = row
    records = list(map(older, records_of(octets, len(FIRST_OCTETS))))
    before = older_journal(*records)
    if status == 0:
        return goes_on(f"{name}, version 1", before)
    at, count = int(line.rpartition(b" ")[2]), 0
    while len(journal(*list(records_of(octets, len(FIRST_OCTETS)))[:count])) < at:
        count += 1
    return refused(f"{name}, version 1", before, len(older_journal(*records[:count])))


def rows():
    both = [*of_accounts(), *of_domains(), *of_folders(), *of_messages(), *of_the_queue()]
    return [*of_frames(), *of_versions(), *of_marks(), *of_lost_power(), *both, *map(older_row, both)]
