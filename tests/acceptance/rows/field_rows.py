"""Rows of one field each that are written out: the field, and the lines of the made one. Those that are called the smallest
are the least that tells a wrong reading."""

E, U = "=?UTF-8?B?w6k=?=", "=?UTF-8?B?w7w=?="


def unstructured():
    return [
        ("white around the core, folded", "Subject: abc \r\n é  def", ["Subject:", " abc", " =?UTF-8?Q?_=C3=A9_?=", " def"]),
        ("an encoded word behind a core", "Subject: é =?ISO-8859-1?Q?x?= z", ["Subject:", " =?UTF-8?B?w6kg?=", " =?ISO-8859-1?Q?x?= z"]),
        ("an encoded word before a core", "Subject: =?ISO-8859-1?Q?x?= \té", ["Subject:", " =?ISO-8859-1?Q?x?=", " =?UTF-8?B?IAnDqQ==?="]),
        ("an encoded word between two cores", "Subject: a é =?ISO-8859-1?Q?x?= b ü c",
            ["Subject:", " a", " =?UTF-8?B?w6kg?=", " =?ISO-8859-1?Q?x?= b", f" {U}", " c"]),
        ("encoded words beside a core stay as they are", "Subject: =?UTF-8?q?=C3=BC?= é =?utf-8*fr?b?w7w=?=",
            ["Subject:", " =?UTF-8?q?=C3=BC?=", " =?UTF-8?Q?_=C3=A9_?=", " =?utf-8*fr?b?w7w=?="]),
        ("two encoded words between cores keep their white", "X: é =?x?q?a?=\t =?x?q?b?= ü",
            ["X:", " =?UTF-8?B?w6kg?=", " =?x?q?a?=\t =?x?q?b?=", " =?UTF-8?B?IMO8?="]),
        ("what is no encoded word belongs to the core", "X: é =?UTF-8?B?w6l=?= ü", ["X:", " =?UTF-8?B?w6kgPT9VVEYtOD9CP3c2bD0/PSDDvA==?="]),
        ("a word of 75 octets is an encoded word", f"X: é =?UTF-8?Q?{'a' * 63}?= ü",
            ["X:", " =?UTF-8?B?w6kg?=", f" =?UTF-8?Q?{'a' * 63}?=", " =?UTF-8?B?IMO8?="]),
        ("one of 76 octets isn't", f"X: é =?UTF-8?Q?{'a' * 64}?= ü",
            ["X:", f" =?UTF-8?Q?=C3=A9_=3D=3FUTF-8=3FQ=3F{'a' * 32}?=", f" =?UTF-8?Q?{'a' * 32}=3F=3D_=C3=BC?="]),
        ("an encoded word that touches a character", "X: é=?UTF-8?Q?x?=", ["X:", " =?UTF-8?B?w6k9P1VURi04P1E/eD89?="]),
        ("a copied piece keeps its folds", "X: a\r\n\tb\r\n \r\n  c é\r\n d\r\n\te",
            ["X:", " a", "\tb", " ", "  c", f" {E}", " d", "\te"]),
        ("folds within a core vanish", "X: é\r\n ü \r\n\tö", ["X:", " =?UTF-8?B?w6kgw7wgCcO2?="]),
        ("the octet of a fold is chosen", "X: a\r\n\té\r\n\tb", ["X:", " a", f"\t{E}", "\tb"]),
        ("folds at the ends go", "X:\r\n \r\n é\r\n \r\n\t", ["X:", f" {E}"]),
        ("the smallest one with a tab", "Subject:a\té", ["Subject:", " a", f"\t{E}"]),
    ]


def phrases():
    return [
        ("two keywords", "Keywords: é, b", ["Keywords:", f" {E}", " ,", " b"]),
        ("keywords of ASCII are copied unfolded", "Keywords: a  b\r\n\tc , é", ["Keywords:", " a  b\tc", " ,", f" {E}"]),
        ("ASCII words beside a word are written with it", "Keywords: a é b", ["Keywords:", " =?UTF-8?B?YSDDqSBi?="]),
        ("each gap says one space", "Keywords: é \t\r\n  a", ["Keywords:", " =?UTF-8?Q?=C3=A9_a?="]),
        ("quotes are resolved", 'Keywords: "é, \\"b\\\\"', ["Keywords:", " =?UTF-8?B?w6ksICJiXA==?="]),
        ("dots are words", "Keywords: .é.", ["Keywords:", " =?UTF-8?B?LsOpLg==?="]),
        ("an encoded word of another charset", "Keywords: é =?ISO-8859-1?Q?x?=\t=?x?Q?y?= a",
            ["Keywords:", " =?UTF-8?B?w6kg?=", " =?ISO-8859-1?Q?x?=", " =?x?Q?y?=", " =?UTF-8?Q?_a?="]),
        ("encoded words of text join", "Keywords: =?UTF-8?Q?a?= =?UTF-8?Q?b?= é", ["Keywords:", " =?UTF-8?B?YWIgw6k=?="]),
        ("an encoded word beside a comment", "Keywords: =?UTF-8?Q?=C3=BC?=(x)é", ["Keywords:", " =?UTF-8?B?w7wgw6k=?=", " (x)"]),
        ("an encoded word beside a quoted text", "Keywords: é =?UTF-8?Q?x?=\"y\"", ["Keywords:", " =?UTF-8?B?w6kgPT9VVEYtOD9RP3g/PXk=?="]),
        ("comments follow", "Keywords: (a) é (b) c (ü), d (e) , (f) g (é)",
            ["Keywords:", " =?UTF-8?Q?=C3=A9_c?=", " (a)", " (b)", " (", f" {U}", " )", " ,", " d", " (e)", " ,", " (f) g", " (", f" {E}", " )"]),
        ("a phrase of ASCII behind a comment is written, too", "Keywords: (é) b", ["Keywords:", " =?UTF-8?Q?b?=", " (", f" {E}", " )"]),
        ("the smallest phrase without units", 'Keywords: (é)""', ["Keywords:", ' ""', " (", f" {E}", " )"]),
        ("the smallest one with an encoded word beside a dot", 'Keywords: é =?UTF-8?Q?x?=."y"',
            ["Keywords:", " =?UTF-8?B?w6kgPT9VVEYtOD9RP3g/PS55?="]),
        ("no keyword", "Keywords: (é)", ["Downgraded-Keywords:", " =?UTF-8?B?KMOpKQ==?="]),
        ("an empty place", "keywords: é,,b", ["Downgraded-keywords:", " =?UTF-8?B?w6ksLGI=?="]),
        ("a comma last", "Keywords: é,", ["Downgraded-Keywords:", " =?UTF-8?B?w6ks?="]),
        ("a special", "Keywords:\ta\r\n <é>\t", ["Downgraded-Keywords:", " =?UTF-8?B?YSA8w6k+?="]),
        ("a quote that isn't closed", 'Keywords: "é', ["Downgraded-Keywords:", " =?UTF-8?B?IsOp?="]),
    ]


def plain():
    date = "Thu, 01 Jan 1970 00:00:00 +0000"
    deep = "(" * 63
    return [
        ("a date with a comment", f"Date: {date} (é)", ["Date:", f" {date}", " (", f" {E}", " )"]),
        ("a date of gaps and comments", "Resent-Date: (x) Thu\t,(é)01\r\n Jan", ["Resent-Date:", " Thu , 01 Jan", " (x)", " (", f" {E}", " )"]),
        ("tokens that touch", "MIME-Version: 1.0(é)", ["MIME-Version:", " 1.0", " (", f" {E}", " )"]),
        ("quotes and literals", 'Date: "a  b"[c d] (é)', ["Date:", ' "a  b"[c d]', " (", f" {E}", " )"]),
        ("a nested comment", "Date: x (a (b) é (ü c) d)",
            ["Date:", " x", " (", " a", " (b)", f" {E}", " (", " =?UTF-8?Q?=C3=BC_c?=", " )", " d", " )"]),
        ("an encoded word in a comment", "Date: x (é =?UTF-8?Q?=C3=BC?=\t=?utf-8?b?w7w=?= =?x?Q?y?=)",
            ["Date:", " x", " (", " =?UTF-8?B?w6kgw7zDvA==?=", " =?x?Q?y?=", " )"]),
        ("a quoted pair makes it none", "Date: x (é =?UTF-8?Q?\\y?=)", ["Date:", " x", " (", " =?UTF-8?B?w6kgPT9VVEYtOD9RP3k/PQ==?=", " )"]),
        ("quoted pairs in ASCII runs are copied", "Date: x ( \\(a (é) \\ )", ["Date:", " x", " (", " \\(a", " (", f" {E}", " )", " \\ ", " )"]),
        ("a comment alone has no text before it", "Date: (é)", ["Date:", " (", f" {E}", " )"]),
        ("the smallest one with a pair of white", "Date: (é\\ )", ["Date:", " (", " =?UTF-8?B?w6kg?=", " )"]),
        ("a control in a comment", "Date: (é\\\x01\x02)", ["Date:", " (", " =?UTF-8?B?w6kBAg==?=", " )"]),
        ("comments 64 deep", f"Date: {deep}(é){')' * 63}", ["Date:", *[" ("] * 64, f" {E}", *[" )"] * 64]),
        ("an encoding", "Content-Transfer-Encoding: (é) 8bit (x)", ["Content-Transfer-Encoding:", " 8bit", " (", f" {E}", " )", " (x)"]),
        ("an encoding of two atoms", "content-transfer-encoding: 8bit a (é)",
            ["content-transfer-encoding:", " =?UTF-8?B?OGJpdCBhICjDqSk=?="]),
        ("an encoding of a comment alone", "Content-Transfer-Encoding: (é)", ["Content-Transfer-Encoding:", " =?UTF-8?B?KMOpKQ==?="]),
        ("an encoding with a special", "Content-Transfer-Encoding: a/b (é)", ["Content-Transfer-Encoding:", " =?UTF-8?B?YS9iICjDqSk=?="]),
        ("a dot belongs to an encoding", "Content-Transfer-Encoding: a.b(é)", ["Content-Transfer-Encoding:", " a.b", " (", f" {E}", " )"]),
        ("a date that isn't ASCII", "Date \t: é\r\n b\t", ["Downgraded-Date:", " =?UTF-8?Q?=C3=A9_b?="]),
        ("a parenthesis that isn't closed", "DATE: (é", ["Downgraded-DATE:", " =?UTF-8?B?KMOp?="]),
        ("a lone parenthesis", "Date: é)", ["Downgraded-Date:", " =?UTF-8?B?w6kp?="]),
        ("comments 65 deep", f"Date: {deep}((é){')' * 64}",
            ["Downgraded-Date:", f" =?UTF-8?B?{'KCgo' * 15}?=", f" =?UTF-8?B?{'KCgo' * 6}KCjDqSkp{'KSkp' * 7}?=", f" =?UTF-8?B?{'KSkp' * 14}?="]),
        ("a control outside comments", "Date: \x7f (é)", ["Downgraded-Date:", " =?UTF-8?B?fyAow6kp?="]),
    ]


def fields():
    return [*unstructured(), *phrases(), *plain()]
