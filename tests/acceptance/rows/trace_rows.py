"""Rows of one field each that are written out: Received, Return-Path, recipients, identifiers, and names that begin with `-`."""

from rows.field_rows import E, U


def received():
    """The value, and the pieces of the made field."""
    epoch = "Thu, 01 Jan 1970 00:00:00 +0000"
    return [
        ("a recipient is dropped", f"from a by b for <é@x>; {epoch}", ["from a", "by b", f"; {epoch}"]),
        ("hosts with A-labels", f"from é.x (ü) By Bücher.example; {epoch}",
            ["from xn--9ca.x", "(", U, ")", "By xn--bcher-kva.example", f"; {epoch}"]),
        ("hosts that can't be served are dropped", "from é_b by é x (1) with a", ["(1)", "with a"]),
        ("other clauses have no hosts", "via é with é id é by a", ["by a"]),
        ("the smallest host that is a word", "by ｆor", []),
        ("a word as a label behind another", "by ａ.ｂy", []),
        ("the smallest one that is dropped", "for é", []),
        ("the smallest one without a clause", "(é)", ["(", E, ")"]),
        ("comments of a dropped clause stay", "(1) for (2) é (ü) from a (3); (4)", ["(1)", "(2)", "(", U, ")", "from a", "(3)", ";", "(4)"]),
        ("words in any case", "BY  x  FOR é iD <a @ b>", ["BY x", "iD <a @ b>"]),
        ("a word without a text", "by for é with (é)", ["by", "with", "(", E, ")"]),
        ("an empty date", "for é ;", [";"]),
        ("a date with comments", "by a;(é) 1  Jan\t(x) 1", ["by a", "; 1 Jan 1", "(", E, ")", "(x)"]),
        ("a date alone", "; 1 (é)", ["; 1", "(", E, ")"]),
        ("a second semicolon belongs to the date", "for é;1 for;b", ["; 1 for;b"]),
        ("a word in quotes or a comment begins nothing", 'by "for" (for) [for] x from é', ['by "for" [for] x', "(for)", "from xn--9ca"]),
        ("a dot divides words", "by a.for.é", ["by a."]),
        ("a host with a dot last", "by é.", []),
        ("a host in angles", "by <é>", []),
        ("a host of several tokens that touch", "from É.b.C", ["from xn--9ca.b.c"]),
        ("a host with a gap", "from é. b", []),
        ("a host with a comment within", "from é(x).b", ["(x)"]),
    ]


def received_malformed():
    """The value, and its word."""
    return [
        ("a word before the first clause", "é for x", "=?UTF-8?Q?=C3=A9_for_x?="),
        ("a date that isn't ASCII", "by a; é", "=?UTF-8?B?YnkgYTsgw6k=?="),
        ("a comment that isn't closed", "from é (", "=?UTF-8?B?ZnJvbSDDqSAo?="),
    ]


def paths():
    return [
        ("a path with a domain", "<a@bücher.example>", ["<a@xn--bcher-kva.example>"]),
        ("gaps and comments leave a path", '(1) < (2) "a" . b @ (é) É > (3)', ["<a.b@xn--9ca>", "(1)", "(2)", "(", E, ")", "(3)"]),
        ("an ASCII path keeps its capital letters", "<A@B.Example>(é)", ["<A@B.Example>", "(", E, ")"]),
        ("quotes that a path needs", '<"a b"@é>', ['<"a b"@xn--9ca>']),
        ("a path with a literal", "<a@[1.2.3.4]> (é)", ["<a@[1.2.3.4]>", "(", E, ")"]),
    ]


def paths_aside():
    """Paths that can't be served, and values that are no paths: the value, and its word."""
    return [
        ("a local part that isn't ASCII", "<josé@example.com>", "=?UTF-8?B?PGpvc8OpQGV4YW1wbGUuY29tPg==?="),
        ("the smallest null path", "<>(é)", "=?UTF-8?B?PD4ow6kp?="),
        ("a domain with a low line", "<a@é_b>", "=?UTF-8?B?PGFAw6lfYj4=?="),
        ("the smallest route", "<@x:é@y>", "=?UTF-8?B?PEB4OsOpQHk+?="),
        ("a word behind a path", "<é@x> b", "=?UTF-8?B?PMOpQHg+IGI=?="),
        ("a word before a path", "b <a@é>", "=?UTF-8?B?YiA8YUDDqT4=?="),
        ("a comma behind a path", "<a@é>,", "=?UTF-8?B?PGFAw6k+LA==?="),
        ("a comment alone", "(é)", "=?UTF-8?B?KMOpKQ==?="),
    ]


def recipients():
    return [
        ("an address in its ASCII form", "Original-Recipient: utf-8; josé@example.com", r"utf-8; jos\x{E9}@example.com"),
        ("a type in any case", "final-recipient:\tUTF-8 \t;\té", r"utf-8; \x{E9}"),
        ("a type with comments' marks in the address", "Final-Recipient: utf-8;é(;)\"", r'utf-8; \x{E9}(;)"'),
        ("escapes are read and written", r"Final-Recipient: utf-8; é\x{41}\x{e9}\x{0000E9}\x{10FFFF}\x{00}",
            r"utf-8; \x{E9}A\x{E9}\x{E9}\x{10FFFF}\x{00}"),
        ("octets that are escaped", "Final-Recipient: utf-8; é +=\t~\x7f\x01", r"utf-8; \x{E9}\x{20}\x{2B}\x{3D}\x{09}~\x{7F}\x{01}"),
        ("characters of other lengths", "Final-Recipient: utf-8; あ😀\u0080", r"utf-8; \x{3042}\x{1F600}\x{80}"),
        ("a folded address", "Final-Recipient: utf-8;\r\n é\r\n\tb", r"utf-8; \x{E9}\x{09}b"),
    ]


def recipients_aside():
    return [
        ("another type", "rfc822; é@x", "=?UTF-8?B?cmZjODIyOyDDqUB4?="),
        ("no type", "; é", "=?UTF-8?B?OyDDqQ==?="),
        ("no semicolon", "utf-8 é@x", "=?UTF-8?Q?utf-8_=C3=A9=40x?="),
        ("a type of two words", "a b; é", "=?UTF-8?B?YSBiOyDDqQ==?="),
        ("a backslash alone", "utf-8; é\\", "=?UTF-8?B?dXRmLTg7IMOpXA==?="),
        ("an escape of one digit", r"utf-8; \x{9} é", "=?UTF-8?B?dXRmLTg7IFx4ezl9IMOp?="),
        ("an escape of seven digits", r"utf-8; \x{0000041} é", "=?UTF-8?B?dXRmLTg7IFx4ezAwMDAwNDF9IMOp?="),
        ("an escape of half a character", r"utf-8; é\x{D800}", "=?UTF-8?B?dXRmLTg7IMOpXHh7RDgwMH0=?="),
        ("an escape beyond all characters", r"utf-8; é\x{110000}", "=?UTF-8?B?dXRmLTg7IMOpXHh7MTEwMDAwfQ==?="),
    ]


def kept_aside():
    """Identifiers, names that begin with `-`, and values that no kind has: field, name of the made field, and its word."""
    return [
        ("an identifier", "Message-ID: <é@x>", "Downgraded-Message-ID", "=?UTF-8?B?PMOpQHg+?="),
        ("an identifier is no address", "references: é", "Downgraded-references", "=?UTF-8?B?w6k=?="),
        ("a folded identifier", "In-Reply-To \t:\r\n <é@x>\r\n\t<b>\t", "Downgraded-In-Reply-To", "=?UTF-8?B?PMOpQHg+CTxiPg==?="),
        ("a hyphen first", "-X: é", "Downgraded--X", "=?UTF-8?B?w6k=?="),
        ("a hyphen alone", "-: a =?x?q?a?= é", "Downgraded--", "=?UTF-8?B?YSA9P3g/cT9hPz0gw6k=?="),
        ("two hyphens and a fold", "--b:\r\n\té\r\n  c", "Downgraded---b", "=?UTF-8?B?w6kgIGM=?="),
        ("an encoding keeps its name", "Content-Transfer-Encoding: é", "Content-Transfer-Encoding", "=?UTF-8?B?w6k=?="),
        ("a list that is none", "To: é", "Downgraded-To", "=?UTF-8?B?w6k=?="),
    ]


def fields():
    for name, value, pieces in received():
        yield name, f"reCeived : {value}", ["reCeived:", *(" " + piece for piece in pieces)]
    for name, value, word in received_malformed():
        yield name, f"Received:{value}", ["Downgraded-Received:", f" {word}"]
    for name, value, pieces in paths():
        yield name, f"Return-path: {value}", ["Return-path:", *(" " + piece for piece in pieces)]
    for name, value, word in paths_aside():
        yield name, f"Return-Path: {value}", ["Downgraded-Return-Path:", f" {word}"]
    for name, field, piece in recipients():
        yield name, field, [field.split(":")[0] + ":", " " + piece]
    for name, value, word in recipients_aside():
        yield name, f"ORIGINAL-recipient: {value}", ["Downgraded-ORIGINAL-recipient:", f" {word}"]
    for name, field, made, word in kept_aside():
        yield name, field, [f"{made}:", f" {word}"]
    several = "\r\n".join(f"Resent-Message-ID: <{it}@x>" for it in "éaü")
    yield "several identifiers", several, [
        "Downgraded-Resent-Message-ID:", " =?UTF-8?B?PMOpQHg+?=",
        "Resent-Message-ID: <a@x>",
        "Downgraded-Resent-Message-ID:", " =?UTF-8?B?PMO8QHg+?=",
    ]
