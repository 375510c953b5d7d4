"""Generated Content-Disposition fields in ten scripts: the surrogate is what the oracle has, it says what the original says, and
Python's `email` reads of it the file name that was put into the original: as it stands, in quotes, in the extended form, or in
pieces in any order, in several charsets.

Python is asked where the field has one file name. It isn't asked about names with white at their ends or in quotes or angles,
which it takes away; about fields with comments, which it takes for a part of what stands before them; nor about a quoted text
that is copied and has a backslash last, since it takes the quote behind that for one of the text."""

import email
import random
import re

from generated.generated_addresses import field_faults
from generated.generated_fields import CHARSETS, FOLDS, SOUP, comment, joined, message_of
from generated.generated_messages import SCRIPTS
from support.harness import differs, in_lanes, show

SEED = 2231

DISPOSITIONS = ["attachment", "inline", "Form-Data", "x"]
LETTERS = "abcXYZ019 .-_()%'*+,;=@\"\\"
ATTRIBUTES = re.compile("[A-Za-z0-9!#$&+.^_`{|}~-]")
OTHERS = [
    "size=1", 'creation-date="Fri, 27 Nov 2026 04:41:58 +0000"', 'x="a;b=\\"c"', "name=é", 'note="é; ü"', "y*=utf-8'fr'%C3%A9", "z*1=b;z*0=a",
    "w*0*=''%C3;w*1*=%a9", "v*0=é;v*1=ü",
]
NAMES = ["filename", "filename", "FileName", "FILENAME"]
PARAMETER_SOUP = [
    *";;;;====**'\"%", "a", "x", "é", "x*0", "x*1", "x*", "*", "''", "%41", "%C3", "%FF", "%", "utf-8''", "koi8-r'ru'", "us-ascii'", "é'", '"é"', '"a"',
    "/", "[", "]", "?", ";x*0=a", ";x*1*=%A9", ";x=é", ";X*=''é", ";x*0*=''é", "(x)", " ", "\t", ";a=" + "é" * 11, ";b=" + "é" * 10 + "あ", "00",
]


def file_name(rng, letters):
    """A name that Python doesn't shorten."""
    while True:
        text = "".join(rng.choice(letters if rng.random() < 0.8 else LETTERS) for _ in range(rng.choice([1, 4, 9, 10, 11, 20, 60])))
        if text == text.strip() and not (text[0] + text[-1] in ('""', "<>")):
            return text


def filename(rng):
    """A file name, and parameters that have it, in order."""
    charset, codec, scripts = rng.choice(CHARSETS)
    letters = SCRIPTS.get(rng.choice(scripts)) or LETTERS
    text = file_name(rng, "".join(it for it in letters if can_encode(it, codec)) or LETTERS)
    name = rng.choice(NAMES)
    kind = rng.choice(["written", "extended", "pieces"])
    if kind == "written":
        return text, [f"{name}{equals(rng)}{written(rng, text)}"]
    extended = f"{charset}'{rng.choice(['', 'en', 'zh-Hant'])}'"
    if kind == "extended":
        return text, [f"{name}*{equals(rng)}{extended}{escaped(rng, text.encode(codec), charset)}"]
    return text, pieces(rng, name, extended, text, codec)


def can_encode(letter, codec):
    try:
        return bool(letter.encode(codec))
    except UnicodeEncodeError:
        return False


def equals(rng):
    return rng.choice(["=", "=", "=", " = ", "=\r\n "])


def written(rng, text):
    """The text as it stands, or in quotes where it has to be or may."""
    if re.fullmatch(r"[^\s()<>@,;:\\\"]+", text) and rng.random() < 0.6:
        return text
    return '"' + re.sub(r'["\\]', r"\\\g<0>", text) + '"'


def escaped(rng, octets, charset=""):
    """The octets, of which UTF-8 may stand as it is."""
    if charset.lower() == "utf-8" and rng.random() < 0.3:
        return "".join(it if not it.isascii() or ATTRIBUTES.fullmatch(it) else f"%{ord(it):02x}" for it in octets.decode())
    digits = rng.choice(["%%%02X", "%%%02x"])
    return "".join(chr(it) if it < 128 and ATTRIBUTES.fullmatch(chr(it)) else digits % it for it in octets)


def pieces(rng, name, extended, text, codec):
    """The same text in pieces, in any order; a character may be cut where both parts are extended."""
    if rng.random() < 0.4:
        parts = cut(rng, text)
        made = [f"{name}*{number}{equals(rng)}{written(rng, part)}" for number, part in enumerate(parts)]
    else:
        parts = cut(rng, text.encode(codec))
        made = [f"{name}*{number}{piece(rng, part)}" for number, part in enumerate(parts[1:], 1)]
        made.insert(0, f"{name}*0*{equals(rng)}{extended}{escaped(rng, parts[0])}")
    rng.shuffle(made)
    return made


def cut(rng, text):
    marks = sorted({0, len(text), *(rng.randint(0, len(text)) for _ in range(rng.choice([1, 2, 5, 12])))})
    return [text[begin:end] for begin, end in zip(marks, marks[1:])]


def piece(rng, part):
    """A piece behind the first one, which is in quotes or as it stands where it is a text."""
    if part.isascii() and rng.random() < 0.5:
        return equals(rng) + written(rng, part.decode())
    return "*" + equals(rng) + escaped(rng, part)


def certain_disposition(rng):
    """A field that isn't ASCII, with one file name, and that name."""
    text, some = filename(rng)
    others = list(dict.fromkeys(rng.choice(OTHERS) for _ in range(rng.choice([0, 0, 1, 2]))))
    if "".join([*some, *others]).isascii():
        others.append("high=é")
    parts = [*some, *others] if rng.random() < 0.5 else [*others, *some]
    semicolons = [";", "; ", " ; ", ";\r\n\t", ";;"] if rng.random() < 0.9 else [";", f"; {comment(rng)}"]
    value = rng.choice(DISPOSITIONS) + "".join(rng.choice(semicolons) + part for part in parts) + rng.choice(["", "", ";"])
    return rng.choice(["Content-Disposition", "content-disposition"]), value, text


def near_disposition(rng):
    """One without folds, in which something is put or left out."""
    text = certain_disposition(rng)[1].replace("\r\n", "")
    for _ in range(rng.choice([1, 1, 2])):
        at = rng.randint(0, len(text))
        text = text[:at] + rng.choice([*PARAMETER_SOUP, "", ""]) + text[at + rng.choice([0, 1]) :]
    return text


def parameter_soup(rng):
    """Any octets that mean something."""
    few = rng.sample(PARAMETER_SOUP, 9) + rng.sample(SOUP, 3)
    return rng.choice(["a", "a;", "a;x="]) + "".join(rng.choice(few) for _ in range(rng.randint(1, 14))) + rng.choice(["", "", ";y=é", "é", "(é)"])


def doubled(rng):
    """Parameters of which several may have one name."""
    names = rng.sample(["x", "X", "y", "x*0", "x*1", "X*1*", "y*", "x*0*", "y*0*", "X*2"], rng.choice([2, 3, 4, 5]))
    values = ["é" * 11, "a", "é", '"é ü"', '"%41"', "%41"]
    extended = ["utf-8''" + "é" * 11, "''%FF" + "é" * 10, "KOI8-R'ru'é%C3", "us-ascii''a", "''%C3", "iso-8859-1'é'"]
    return joined(rng, ["a", *(f";{it}={rng.choice(extended if it.endswith('0*') or it == 'y*' else values)}" for it in names)], FOLDS)


def is_clear(given):
    """Whether Python reads such a surrogate as it stands."""
    return b"\r\n (" not in given and b'\\\\"' not in given


def python_faults(text, given):
    """What is wrong with the file name that Python reads of the surrogate."""
    read = email.message_from_bytes(given)
    return differs("defects", read.defects, []) + differs("the file name, as email reads it", read.get_filename(), text)


def cases_of(rng, count):
    """Kind, octets, and the file name that Python has to read, or None."""
    for _ in range(count):
        name, value, text = certain_disposition(rng)
        yield "disposition", message_of(rng, name, value), text
    for maker in (near_disposition, parameter_soup, doubled):
        for _ in range(count):
            yield maker.__name__, message_of(rng, "Content-Disposition", maker(rng)), None


def check(program, tally):
    cases = list(cases_of(random.Random(SEED + program.seed), program.cases))

    def one(case):
        """Whether Python was asked, whether the field is in its grammar, and what is wrong."""
        _, octets, text = case
        answer, _, faults = field_faults(program, octets)
        is_asked = text is not None and is_clear(answer[1])
        is_read = not answer[1].startswith(b"Downgraded-")
        return is_asked, is_read, faults + (python_faults(text, answer[1]) if is_asked else [])

    answers = in_lanes(one, cases)
    for number, ((kind, octets, _), (_, _, faults)) in enumerate(zip(cases, answers)):
        tally.note(f"generated {kind} {number}", [*faults, f"message: {show(octets)}"] if faults else [])
    asked, are_read = (sum(answer[at] for answer in answers) for at in (0, 1))
    print(f"generated parameters: {are_read} of {len(cases)} are in their grammar; Python was asked for the file name of {asked} of {program.cases}")
