"""Rows of one Content-Disposition field each that are written out: the field, and the lines of the made one."""

from rows.field_rows import E

E10 = "%C3%A9" * 10


def written():
    """Parameters in the extended form, and those beside them."""
    return [
        ("a file name", 'Content-Disposition: attachment; filename="é.txt"', ["attachment;", "filename*=UTF-8''%C3%A9.txt"]),
        ("a file name of 61 octets", f"Content-Disposition: attachment; filename={'é' * 10}a",
            ["attachment;", f"filename*0*=UTF-8''{E10};", "filename*1*=a"]),
        ("a file name of 60 octets", f"Content-Disposition: attachment; filename={'é' * 10}", ["attachment;", f"filename*=UTF-8''{E10}"]),
        ("a file name of three parts", f"Content-Disposition: attachment; filename=\"{'é' * 21}\"",
            ["attachment;", f"filename*0*=UTF-8''{E10};", f"filename*1*={E10};", "filename*2*=%C3%A9"]),
        ("the smallest one that ends between characters", f"Content-Disposition: a; filename={'é' * 9}あ",
            ["a;", f"filename*0*=UTF-8''{'%C3%A9' * 9};", "filename*1*=%E3%81%82"]),
        ("two of one name", "Content-Disposition: attachment; filename=é; filename=b", ["attachment;", "filename*=UTF-8''%C3%A9;", "filename=b"]),
        ("the smallest one of a doubled name", f"Content-Disposition: a;x={'é' * 11};x*0=b", ["a;", f"x*=UTF-8''{E10}%C3%A9;", "x*0=b"]),
        ("two long ones of one name in two cases", f"Content-Disposition: a;x={'é' * 11};X=\"{'é' * 11}\"",
            ["a;", f"x*=UTF-8''{E10}%C3%A9;", f"x*=UTF-8''{E10}%C3%A9"]),
        ("the smallest language", "Content-Disposition: a;x*=utf-8'é'", ["a;", "x*=UTF-8''"]),
        ("a language with marks", "Content-Disposition: a;x*=\"us-ascii'é; %\\\"'b\"", ["a;", "x*=UTF-8''b"]),
        ("the third mark belongs to the text", "Content-Disposition: a;x*=''é'", ["a;", "x*=UTF-8''%C3%A9%27"]),
        ("an ASCII parameter is copied", 'Content-Disposition: A; Name = "b\\c"  (x) ; x=é; N*0*=UTF-8\'en\'%c3 ;N*1="%A9"',
            ["A;", 'Name="b\\c";', "x*=UTF-8''%C3%A9;", "N*0*=UTF-8'en'%c3;", 'N*1="%A9"', "(x)"]),
        ("ASCII as it is written", "Content-Disposition: a;x=é; name*=UTF-8''%C3%A9", ["a;", "x*=UTF-8''%C3%A9;", "name*=UTF-8''%C3%A9"]),
        ("a name gets lower case, and the main part doesn't", "Content-disposition: Inline; FileName=É", ["Inline;", "filename*=UTF-8''%C3%89"]),
        ("octets that stand for themselves", 'Content-Disposition: a;x="é Az09!#$&+-.^_`{|}~"', ["a;", "x*=UTF-8''%C3%A9%20Az09!#$&+-.^_`{|}~"]),
        ("octets that don't", "Content-Disposition: a;x=\"é\t\\\"%'()*,/:;<=>?@[\\\\]\x7f\\\x01\"",
            ["a;", "x*0*=UTF-8''%C3%A9%09%22%25%27%28%29%2A%2C%2F%3A%3B%3C%3D%3E%3F%40%5B%5C;", "x*1*=%5D%7F%01"]),
        ("an unquoted value", "Content-Disposition: a;x=/[é]?==", ["a;", "x*=UTF-8''%2F%5B%C3%A9%5D%3F%3D%3D"]),
        ("an unquoted value has no escapes", "Content-Disposition: a;x=é'=%41", ["a;", "x*=UTF-8''%C3%A9%27%3D%2541"]),
        ("gaps and comments", "Content-Disposition: (1) a\r\n (2) ; (3) x (4) = (é) é (5) ; (6)",
            ["a;", "x*=UTF-8''%C3%A9", "(1)", "(2)", "(3)", "(4)", "(", E, ")", "(5)", "(6)"]),
        ("empty places", "Content-Disposition: a;; x=é; (1) ;", ["a;", "x*=UTF-8''%C3%A9", "(1)"]),
        ("no parameter", "Content-Disposition: a ; (é)", ["a", "(", E, ")"]),
        ("a name of 60 octets", f"Content-Disposition: a;{'x' * 60}={'é' * 11}",
            ["a;", f"{'x' * 60}*0*=UTF-8''{E10};", f"{'x' * 60}*1*=%C3%A9"]),
        ("an empty value beside it", 'Content-Disposition: a;x="";y=é', ["a;", 'x="";', "y*=UTF-8''%C3%A9"]),
    ]


def joined():
    """Parameters of several pieces, and charsets."""
    return [
        ("pieces in another order", "Content-Disposition: a;x*1=é;y=b;X*0*=utf-8''%C3%BC", ["a;", "x*=UTF-8''%C3%BC%C3%A9;", "y=b"]),
        ("a character of two pieces", "Content-Disposition: a;x*0*=utf-8''%C3;x*1*=%A9;x*2=é", ["a;", "x*=UTF-8''%C3%A9%C3%A9"]),
        ("a piece that isn't extended keeps its signs", "Content-Disposition: a;x*0*=''é;x*1=%41;x*2*=%41", ["a;", "x*=UTF-8''%C3%A9%2541A"]),
        ("pieces without a charset", "Content-Disposition: a;x*0=é'';x*1*=%41", ["a;", "x*=UTF-8''%C3%A9%27%27A"]),
        ("eleven pieces", "Content-Disposition: a;" + ";".join(f"x*{n}={'é' if n == 10 else n}" for n in (10, 2, 0, 1, 3, 4, 5, 6, 7, 8, 9)),
            ["a;", "x*=UTF-8''0123456789%C3%A9"]),
        ("another charset", "Content-Disposition: a;x*=KOI8-R'ru'é%C3", ["a;", "x*=koi8-r''%C3%A9%C3"]),
        ("a long value of another charset", f"Content-Disposition: a;x*=Big5''b{'é' * 10}",
            ["a;", f"x*0*=big5''b{'%C3%A9' * 9}%C3;", "x*1*=%A9"]),
        ("octets that aren't UTF-8", "Content-Disposition: a;x*=UTF-8''é%FF", ["a;", "x*=utf-8''%C3%A9%FF"]),
        ("octets that aren't ASCII", "Content-Disposition: a;x*=us-ascii''é", ["a;", "x*=us-ascii''%C3%A9"]),
        ("an empty charset", "Content-Disposition: a;x*=''é%FF", ["a;", "x*=''%C3%A9%FF"]),
        ("no charset, and octets that aren't UTF-8", "Content-Disposition: a;x*0=é;x*1*=%FF", ["a;", "x*=''%C3%A9%FF"]),
        ("a name with and without a star", "Content-Disposition: a;x*=''é;x=é;x*0=é;x*1=é",
            ["a;", "x*=UTF-8''%C3%A9;", "x*=UTF-8''%C3%A9;", "x*=UTF-8''%C3%A9%C3%A9"]),
    ]


def malformed():
    """Name, value, and its word."""
    return [
        ("no main part", "; é", "=?UTF-8?B?OyDDqQ==?="),
        ("a main part that isn't ASCII", "é", "=?UTF-8?B?w6k=?="),
        ("a main part of a type", "a/b;x=é", "=?UTF-8?B?YS9iO3g9w6k=?="),
        ("a parameter without a name", "a; x=é; =b", "=?UTF-8?B?YTsgeD3DqTsgPWI=?="),
        ("a missing piece", "a;x*0=é;x*2=b", "=?UTF-8?B?YTt4KjA9w6k7eCoyPWI=?="),
        ("a doubled piece", "a;x*0=é;x*0=b", "=?UTF-8?B?YTt4KjA9w6k7eCowPWI=?="),
        ("two words as a value", "attachment; filename=é b", "=?UTF-8?Q?attachment=3B_filename=3D=C3=A9_b?="),
        ("a quoted text behind a word", 'a;x=é "b"', "=?UTF-8?B?YTt4PcOpICJiIg==?="),
        ("a word that touches a quoted text", 'a; x="é"b', "=?UTF-8?B?YTsgeD0iw6kiYg==?="),
        ("an extended value without a charset", "a; x*=é", "=?UTF-8?B?YTsgeCo9w6k=?="),
        ("an extended value without a text", "a;x*=utf-8'é", "=?UTF-8?B?YTt4Kj11dGYtOCfDqQ==?="),
        ("a charset with a dot", "a;x*=u.8''a;y=é", "=?UTF-8?B?YTt4Kj11LjgnJ2E7eT3DqQ==?="),
        ("a percent sign with one digit", "a;x*=''%1;y=é", "=?UTF-8?B?YTt4Kj0nJyUxO3k9w6k=?="),
        ("a name of a star", "a;*=é", "=?UTF-8?B?YTsqPcOp?="),
        ("a number with a zero before it", "a;x*00=é", "=?UTF-8?B?YTt4KjAwPcOp?="),
        ("a number with a zero before it, extended", "a;x*01*=é", "=?UTF-8?B?YTt4KjAxKj3DqQ==?="),
        ("a name that isn't ASCII", "a; é=b", "=?UTF-8?B?YTsgw6k9Yg==?="),
    ]


def fields():
    for name, field, pieces in [*written(), *joined()]:
        yield name, field, [field.split(":")[0] + ":", *(" " + piece for piece in pieces)]
    for name, value, word in malformed():
        yield name, f"content-Disposition: {value}", ["Downgraded-content-Disposition:", f" {word}"]
