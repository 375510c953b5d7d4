"""Rows of one address field each that are written out: the field, and the lines of the made one."""

from rows.field_rows import E, U

A_LABEL = "xn--9ca"


def mailboxes():
    """Mailboxes that can be served."""
    long = "é" * 57
    return [
        ("a phrase of ASCII", "To: Ann <a@bücher.example>, (x) b@example.com",
            ["To:", " Ann", " <a@xn--bcher-kva.example>,", " (x) b@example.com"]),
        ("a domain alone", "To: a@é", ["To:", f" a@{A_LABEL}"]),
        ("angles stay", "Bcc: <a@é>", ["Bcc:", f" <a@{A_LABEL}>"]),
        ("a route goes, and its comments stay", "To: é <@x,@ü (y):a@b>", ["To:", f" {E}", " <a@b>", " (y)"]),
        ("a route of an ASCII mailbox is copied", "To: <@x:a@b>, c@é", ["To:", " <@x:a@b>,", f" c@{A_LABEL}"]),
        ("gaps and comments leave an address", "To: (1) a (2) . (3)\r\n b @ (ü) é . (4) x (5)",
            ["To:", f" a.b@{A_LABEL}.x", " (1)", " (2)", " (3)", " (", f" {U}", " )", " (4)", " (5)"]),
        ("comments around a phrase of ASCII", "To: (1) a (2) b (3) <c@é> (4)", ["To:", " (1) a (2) b", f" <c@{A_LABEL}>", " (3)", " (4)"]),
        ("comments around another phrase", "To: (1) é (2) b (3) <c@d> (4)",
            ["To:", " =?UTF-8?Q?=C3=A9_b?=", " (1)", " (2)", " <c@d>", " (3)", " (4)"]),
        ("the smallest one with comments around a word", "To: (x) é (y) é <a@b>", ["To:", " =?UTF-8?B?w6kgw6k=?=", " (x)", " (y)", " <a@b>"]),
        ("a phrase without units", 'To: (é) "" <a@b>', ["To:", ' ""', " (", f" {E}", " )", " <a@b>"]),
        ("an encoded word beside an angle", "To: =?UTF-8?Q?=C3=BC?=<a@é>", ["To:", " =?UTF-8?Q?=C3=BC?=", f" <a@{A_LABEL}>"]),
        ("encoded words of text in a phrase join", "To: =?UTF-8?Q?=C3=BC?= é <a@b>", ["To:", " =?UTF-8?B?w7wgw6k=?=", " <a@b>"]),
        ("the smallest phrase with a dot last", "To: a.<a@é>", ["To:", " a.", f" <a@{A_LABEL}>"]),
        ("quotes that say nothing go", 'To: "a.b"@é', ["To:", f" a.b@{A_LABEL}"]),
        ("quotes that are needed", 'To: "a\\b\\"".c@é', ["To:", f' "ab\\".c"@{A_LABEL}']),
        ("a local part of white", 'To: " "@é', ["To:", f' " "@{A_LABEL}']),
        ("the smallest empty local part", 'To: ""@é', ["To:", f' ""@{A_LABEL}']),
        ("the smallest local part of a dot", 'To: "."@é', ["To:", f' "."@{A_LABEL}']),
        ("a literal", "To: é <a@[1.2.3.4]>", ["To:", f" {E}", " <a@[1.2.3.4]>"]),
        ("an ASCII domain keeps its capital letters", "To: é <A@B.Example>", ["To:", f" {E}", " <A@B.Example>"]),
        ("another domain doesn't", "To: A@É.Example", ["To:", f" A@{A_LABEL}.example"]),
        ("the smallest domain of full width", "To: x@ａ.b", ["To:", " x@a.b"]),
        ("a label of 63 octets", f"To: a@{long}", ["To:", f" a@{A_LABEL}{'a' * 56}"]),
        ("letters from right to left", "To: a@مثال.example", ["To:", " a@xn--mgbh0fb.example"]),
    ]


def without_service():
    """Mailboxes that can't be served, each of which becomes a group without members."""
    words = [f"YUDD{'qcOpw6nD' * 6}qcOpw6k=", f"{'w6nDqcOp' * 7}w6k=", "w6nDqcOp" * 5]
    return [
        ("a local part that isn't ASCII", "From: José <josé@example.com>", ["From:", " =?UTF-8?B?Sm9zw6kgam9zw6lAZXhhbXBsZS5jb20=?=", " :;"]),
        ("such a local part without a phrase", "To: é@É.x", ["To:", " =?UTF-8?B?w6lAw4kueA==?=", " :;"]),
        ("a domain with a low line", "To: a@é_b", ["To:", " =?UTF-8?B?YUDDqV9i?=", " :;"]),
        ("a domain with a hyphen last", "To: a@é-", ["To:", " =?UTF-8?B?YUDDqS0=?=", " :;"]),
        ("a literal that isn't ASCII", "To: a@[é]", ["To:", " =?UTF-8?B?YUBbw6ld?=", " :;"]),
        ("a label of 64 octets", f"To: a@{'é' * 58}", ["To:", *(f" =?UTF-8?B?{word}?=" for word in words), " :;"]),
        ("an encoded word of another charset", "To: =?ISO-8859-1?Q?x?= <é@b>", ["To:", " =?ISO-8859-1?Q?x?=", " =?UTF-8?B?IMOpQGI=?=", " :;"]),
        ("a phrase without units says a space", 'To: "" <é@x>', ["To:", " =?UTF-8?B?IMOpQHg=?=", " :;"]),
        ("all comments follow", "To: (1) é (2) <(3) é@b (ü)> (4)",
            ["To:", " =?UTF-8?B?w6kgw6lAYg==?=", " :;", " (1)", " (2)", " (3)", " (", f" {U}", " )", " (4)"]),
    ]


def groups():
    return [
        ("a group with a domain", "Cc: Team: a@bücher.example;", ["Cc:", " Team", " :", " a@xn--bcher-kva.example", " ;"]),
        ("members of a group", "Cc: Team (1): (2) a@b (3) , é <c@d>; (ü)",
            ["Cc:", " Team", " (1)", " :", " (2) a@b (3),", f" {E}", " <c@d>", " ;", " (", f" {U}", " )"]),
        ("comments around a group's name", "To: (x) Team é (y): ;", ["To:", " =?UTF-8?Q?Team_=C3=A9?=", " (x)", " (y)", " :", " ;"]),
        ("the smallest group whose name has no units", 'To: (é)"":;', ["To:", ' ""', " (", f" {E}", " )", " :", " ;"]),
        ("the smallest group without members", "To: é: (x) ;", ["To:", f" {E}", " :", " (x)", " ;"]),
        ("a comment behind a group", "To: é: (x) ; (y), a@b", ["To:", f" {E}", " :", " (x)", " ;", " (y),", " a@b"]),
        ("a member that can't be served", "To: x: josé@example.com, b@example.com;",
            ["To:", " =?UTF-8?Q?x_jos=C3=A9=40example=2Ecom=2C_b=40example=2Ecom?=", " :;"]),
        ("members beside such a one", 'To: x (1): é@y (2), Ann <a@b>, "c" @ É, ü <d@e>; (3)',
            ["To:", " =?UTF-8?B?eCDDqUB5LCBBbm4gPGFAYj4sIGNAw4ksIMO8IDxkQGU+?=", " :;", " (1)", " (2)", " (3)"]),
        ("angles without a phrase aren't told", "To: x: <é@y>;", ["To:", " =?UTF-8?B?eCDDqUB5?=", " :;"]),
        ("encoded words of another charset in a group", "To: =?x?Q?a?=: =?x?Q?b?= <é@c>;",
            ["To:", " =?x?Q?a?=", " =?UTF-8?Q?_?=", " =?x?Q?b?=", " =?UTF-8?B?IDzDqUBjPg==?=", " :;"]),
    ]


def lists():
    return [
        ("ASCII mailboxes are copied unfolded", "To: a  <b@c>\r\n (x) , (y)\td@e ,é@f",
            ["To:", " a  <b@c> (x),", " (y)\td@e,", " =?UTF-8?B?w6lAZg==?=", " :;"]),
        ("empty places give their comments", "To: , (1), a@é, , (é), b@c,,(2)",
            ["To:", " (1)", f" a@{A_LABEL},", " (", f" {E}", " )", " b@c", " (2)"]),
        ("comments alone", "To: (é)", ["To:", " (", f" {E}", " )"]),
        ("an empty place of two comments", "To: (1) (2), a@é", ["To:", " (1)", " (2)", f" a@{A_LABEL}"]),
        ("the smallest comma last", "To: a@é,", ["To:", f" a@{A_LABEL}"]),
        ("the smallest comment last", "To: a@é, (x)", ["To:", f" a@{A_LABEL}", " (x)"]),
        ("a comma behind a group without members", "To: é@f, a@b", ["To:", " =?UTF-8?B?w6lAZg==?=", " :;,", " a@b"]),
        ("a comma behind a comment", "To: a@b (é), a@b", ["To:", " a@b", " (", f" {E}", " ),", " a@b"]),
    ]


def malformed():
    """Name, value, and its word."""
    return [
        ("a phrase alone", "é", "=?UTF-8?B?w6k=?="),
        ("a word behind an address", "a@é b", "=?UTF-8?B?YUDDqSBi?="),
        ("an empty place in a group", "g: a@é,, b@c;", "=?UTF-8?B?ZzogYUDDqSwsIGJAYzs=?="),
        ("a comma last in a group", "é: a@b, ;", "=?UTF-8?B?w6k6IGFAYiwgOw==?="),
        ("a semicolon without a group", "a@é;", "=?UTF-8?B?YUDDqTs=?="),
        ("a group in a group", "é: x: a@b;;", "=?UTF-8?B?w6k6IHg6IGFAYjs7?="),
        ("a group that isn't closed", "é:", "=?UTF-8?B?w6k6?="),
        ("a group without a name", ": a@é;", "=?UTF-8?B?OiBhQMOpOw==?="),
        ("an empty place in a route", "<@é,,@y:a@b>", "=?UTF-8?B?PEDDqSwsQHk6YUBiPg==?="),
        ("two dots", "é..a@b", "=?UTF-8?B?w6kuLmFAYg==?="),
        ("no local part", "@é", "=?UTF-8?B?QMOp?="),
        ("no domain", "<é@>", "=?UTF-8?B?PMOpQD4=?="),
        ("two domains", "é@b@c", "=?UTF-8?B?w6lAYkBj?="),
        ("two quoted texts", '"x""y"é@z', "=?UTF-8?B?IngiInkiw6lAeg==?="),
        ("a word behind angles", "é <a@é> é", "=?UTF-8?B?w6kgPGFAw6k+IMOp?="),
        ("an address for a phrase", "a@b <é@x>", "=?UTF-8?B?YUBiIDzDqUB4Pg==?="),
    ]


def fields():
    yield from [*mailboxes(), *without_service(), *groups(), *lists()]
    for name, value, word in malformed():
        yield name, f"rePly-To \t:{value}", ["Downgraded-rePly-To:", f" {word}"]
