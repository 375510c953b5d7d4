"""Generated fields with encoded words, folds, phrases and comments: the surrogate is what the oracle has, it says what the
original says, and where Python's `email` reads the original as the rules do, it reads the surrogate the same.

Python's `email.header.decode_header` reads some originals otherwise, and then it isn't asked for the surrogate:

- It decodes encoded words of any length, inside other text, with non-ASCII text or white in them, and without a charset.
- It takes the language for a part of the charset.
- An encoded word that begins in a word and doesn't end in it, as `=?UTF-8?Q?a`, goes on to the end of the next one.
- It adds the padding that a B text lacks, and passes over what isn't base64; it leaves a `=` without two digits in a Q text.
- Between two encoded words it drops a no-break space and the like, and it reads `\\u0061` in plain text as an escape."""

import base64
import email
import random
import re
from email.errors import HeaderParseError
from email.header import decode_header
from email.utils import formatdate, parsedate_tz

from generated.generated_messages import SCRIPTS, WHITE, ascii_word, high_word
from oracle import layout, meaning, units
from oracle.blocks import parts_of
from oracle.downgrade_oracle import outcome, read_mail
from support.harness import differs, in_lanes, show

SEED = 6858

FOLDS = [*WHITE, "\r\n ", "\r\n\t", " \r\n ", "\t\r\n  ", "\r\n \r\n\t"]
# charsets, Python's names for them, and scripts that they have
CHARSETS = [
    ("UTF-8", "utf-8", list(SCRIPTS)),
    ("utf-8", "utf-8", list(SCRIPTS)),
    ("US-ASCII", "ascii", [None]),
    ("ISO-8859-7", "iso-8859-7", ["Greek", None]),
    ("koi8-r", "koi8-r", ["Cyrillic", None]),
    ("Shift_JIS", "shift_jis", ["Kana", None]),
    ("euc-kr", "euc-kr", ["Hangul", None]),
]
LANGUAGES = ["", "", "", "*en", "*de-CH"]
# words that look like encoded words
BROKEN = [
    "=?UTF-8?B?w6k?=", "=?UTF-8?B?w6l=?=", "=?UTF-8?B?w6*k?=", "=?UTF-8?X?a?=", "=?UTF-8?Q??=", "=?UTF-8?Q?=2?=",
    "=?UTF-8?Q?a?b?=", "=??Q?a?=", "=?UTF-8*?Q?a?=", "=?UTF-8?Q?a", "?=", "=?", "a=?UTF-8?Q?b?=", "=?UTF-8?Q?b?=a",
    "=?UTF-8?Q?é?=", "=?UTF-8?Q?a?==?UTF-8?Q?b?=", "=?UTF-8?Q?a b?=", "=?é?Q?a?=", f"=?UTF-8?Q?{'a' * 64}?=",
    f"=?ISO-8859-1?B?{'YWFh' * 15}?=",
]
# encoded words that aren't text of their charset
WRONG = ["=?UTF-8?Q?=E9?=", "=?us-ascii?B?w6k=?=", "=?x-none?Q?=00=ff?=", "=?UTF-8?B?gA==?="]
SOUP = [
    *"abéüあ😀\t()()\\\",,..[]<:;@/=?*", " ", " ", " ", "  ", "\r\n ", "\r\n\t", "((", "))", "\\ ", "\\(", "\\)", '""', '"é"', "[x]",
    "(é)", "=?", "?=", "=?UTF-8?Q?x?=", "=?utf-8?q?=C3=A9?=", "=?ISO-8859-1*en?B?6Q==?=", "=?UTF-8?Q?a.b?=", "\x01", "\x7f",
    "\u00a0", "\u0085", "7bit", "+0000", *BROKEN[:6], *WRONG,
]
# what Python takes for the begin of an encoded word that doesn't end in this word
OPENS = re.compile(rb"=\?[^?]*\?[BbQq]\?(?!.*\?=)")
NAMES = [
    "Subject", "X", "Keywords", "keyWORDS", "Date", "resent-date", "MIME-Version", "Content-Transfer-Encoding",
    "CONTENT-transfer-encoding",
]


def encoded_word(rng, languages=LANGUAGES):
    """An encoded word of at most 75 octets."""
    if rng.random() < 0.1:
        return rng.choice(WRONG)
    charset, codec, scripts = rng.choice(CHARSETS)
    letters = SCRIPTS.get(rng.choice(scripts)) or "abcXYZ019 ?=_.,"
    while True:
        text = "".join(letter for letter in rng.choices(letters, k=rng.choice([1, 2, 4, 7])) if can_encode(letter, codec)) or "a"
        octets = text.encode(codec)
        coded = base64.b64encode(octets).decode() if rng.random() < 0.5 else q_text(rng, octets)
        letter = rng.choice("Bb" if coded == base64.b64encode(octets).decode() else "Qq")
        word = f"=?{charset}{rng.choice(languages)}?{letter}?{coded}?="
        if len(word) <= 75:
            return word


def can_encode(letter, codec):
    try:
        return bool(letter.encode(codec))
    except UnicodeEncodeError:
        return False


def q_text(rng, octets):
    """A Q text, whose digits are of either case."""
    digits = rng.choice(["=%02X", "=%02x"])
    return "".join("_" if octet == 32 else chr(octet) if chr(octet).isalnum() and octet < 128 else digits % octet for octet in octets)


def joined(rng, words, white):
    return words[0] + "".join(rng.choice(white) + word for word in words[1:])


def subject(rng):
    """A Subject with a non-ASCII word. Every other one has words that look like encoded words and aren't."""
    script, is_wild = rng.choice(list(SCRIPTS)), rng.random() < 0.5
    makers = [ascii_word, lambda it: high_word(it, script), lambda it: encoded_word(it, LANGUAGES if is_wild else [""])]
    if is_wild:
        makers.append(lambda it: it.choice(BROKEN))
    words = [rng.choice(makers)(rng) for _ in range(rng.randint(0, 12))]
    words.insert(rng.randint(0, len(words)), high_word(rng, script))
    return rng.choice(["Subject", "Comments"]), joined(rng, words, FOLDS)


def comment(rng, depth=0):
    items = [comment_item(rng, depth) for _ in range(rng.randint(0, 5))]
    return "(" + rng.choice(["", " ", "\t"]) + (joined(rng, items, [*FOLDS, ""]) if items else "") + rng.choice(["", "", "  "]) + ")"


def comment_item(rng, depth):
    """A nested comment, or a word in which quoted pairs stand for parentheses and backslashes."""
    kind = rng.choice(["comment", "ascii", "high", "encoded", "pairs"])
    if kind == "comment" and depth < 5:
        return comment(rng, depth + 1)
    if kind == "encoded":
        return encoded_word(rng)
    if kind == "pairs":
        return rng.choice(["\\ ", "\\é", "a\\(b", "\\\\"])
    word = ascii_word(rng) if kind == "ascii" else high_word(rng, rng.choice(list(SCRIPTS)))
    return "".join("\\" + it if it in "()\\" else it for it in word)


def atom(rng):
    script = rng.choice(list(SCRIPTS))
    word = high_word(rng, script) if rng.random() < 0.5 else ascii_word(rng)
    return "".join(it for it in word if it not in "()<>[]:;@\\,.\"") or "a"


def quoted(rng):
    text = rng.choice(["", "a  b", ", .", "é\t", "=?UTF-8?Q?x?=", "(é)", atom(rng), 'a"b\\'])
    return '"' + text.replace("\\", "\\\\").replace('"', '\\"') + rng.choice(["", "", "\\é"]) + '"'


def phrase(rng):
    words = [rng.choice([atom, quoted, encoded_word, lambda _: "."])(rng) for _ in range(rng.randint(1, 6))]
    text = rng.choice(["", comment(rng), comment(rng) + " "])
    for word in words:
        text += word + rng.choice([*FOLDS, "", "", f" {comment(rng)}", comment(rng)])
    return text


def keywords(rng):
    return "Keywords", rng.choice([",", ", ", ",\r\n\t"]).join(phrase(rng) for _ in range(rng.randint(1, 5)))


def date(rng):
    """A date with comments behind it."""
    behind = joined(rng, [comment(rng) for _ in range(rng.randint(1, 3))], [*FOLDS, ""])
    return rng.choice(["Date", "Resent-Date"]), formatdate(rng.randrange(1 << 31)) + rng.choice([" ", "\r\n "]) + behind


def around(rng):
    """A text of the other plain names, with comments anywhere."""
    name = rng.choice(["MIME-Version", "Content-Transfer-Encoding", "Date"])
    words = [rng.choice([comment, comment, atom if rng.random() < 0.1 else lambda _: "1.0"])(rng) for _ in range(rng.randint(1, 5))]
    return name, joined(rng, words, [*FOLDS, ""])


def soup(rng):
    """A field of any octets that mean something."""
    few = rng.sample(SOUP, 12)
    return rng.choice(NAMES), "".join(rng.choice(few) for _ in range(rng.randint(1, 20))) + rng.choice(["", "é", "(é)"])


def message_of(rng, name, text):
    before, behind, last = rng.choice(["", "", " "]), rng.choice(["", " ", "\t"]), rng.choice(["", "", " "])
    return f"{name}{before}:{behind}{text}{last}\r\n\r\nx\r\n".encode()


def meaning_faults(raw, made):
    """What is wrong with what the made field says."""
    (name, body, _), (given, told, _) = parts_of(raw), parts_of(made)
    wanted = meaning.of_field(name, body)
    if wanted is not None or raw.isascii():
        return differs("what the field says", (given, meaning.of_field(given, told)), (name, wanted))
    # one that is kept aside keeps its value as a text; under its own name it is still in no grammar
    faults = differs("what the field says under its own name", meaning.of_field(given, told), None) if given == name else []
    return faults + differs("what the field says", (given, meaning.of_text(told)), (layout.kept_name(name), [layout.value_of(body)]))


def by_python(value):
    """What decode_header reads, as text and opaque units of which those of one charset are joined; None where it can't."""
    try:
        parts = [(part.encode("raw-unicode-escape") if isinstance(part, str) else part, charset) for part, charset in decode_header(value)]
        plain = [part.decode("raw-unicode-escape").encode() if charset is None else part for part, charset in parts]
    except (HeaderParseError, ValueError):
        return None
    charsets = [b"utf-8" if charset is None else charset.encode() for _, charset in parts]
    return joined_charsets([(b"utf-8" if units.is_text(charset, octets) else charset, octets) for charset, octets in zip(charsets, plain)])


def by_rules(value):
    """The same by the rules."""
    return joined_charsets([(b"utf-8", it) if isinstance(it, bytes) else (it.charset, it.octets) for it in units.of_unstructured(value)])


def joined_charsets(parts):
    found = []
    for charset, octets in parts:
        if found and found[-1][0] == charset:
            found[-1] = charset, found[-1][1] + octets
        else:
            found.append((charset, octets))
    return found


def is_left_open(value):
    """Whether a word begins as an encoded word and doesn't end as one: Python goes on to the end of the next one, white or not."""
    return any(OPENS.search(word) for word in value.split())


def python_faults(octets, given):
    """Whether Python reads this Subject as the rules do, and what is wrong with how it reads the surrogate."""
    value = layout.value_of(parts_of(read_mail(octets)[0][0])[1])
    wanted = by_rules(value)
    if by_python(value.decode()) != wanted or is_left_open(value):
        return False, []
    read = email.message_from_bytes(given)
    name, shown = read.items()[0]
    found = by_python(shown.replace("\r\n", "").strip(" \t"))
    return True, differs("defects", read.defects, []) + differs(f"{name}, as decode_header reads it", found, wanted)


def date_faults(octets, given):
    """What is wrong with how Python reads this date."""
    wanted = parsedate_tz(octets.decode().split(":", 1)[1].split("(")[0])
    value = email.message_from_bytes(given).items()[0][1]
    return differs("the date, as email reads it", parsedate_tz(value.replace("\r\n", "")), wanted)


def check(program, tally):
    rng = random.Random(SEED + program.seed)
    makers = [subject, keywords, date, around, soup]
    cases = [(maker.__name__, number, message_of(rng, *maker(rng))) for maker in makers for number in range(program.cases)]

    def one(case):
        """Whether Python was asked, and what is wrong."""
        kind, _, octets = case
        answer = program.downgrade(octets)
        faults = differs("answer", answer, outcome([b"downgrade"], octets))
        if answer[0] != 0:
            return False, faults
        given = answer[1]
        faults += meaning_faults(read_mail(octets)[0][0], read_mail(given)[0][0])
        faults += differs("the surrogate of its surrogate", program.downgrade(given), answer)
        if kind == "date" and not octets.isascii():
            faults += date_faults(octets, given)
        is_asked, further = python_faults(octets, given) if kind == "subject" else (False, [])
        return is_asked, faults + further

    answers = in_lanes(one, cases)
    for (kind, number, octets), (_, faults) in zip(cases, answers):
        tally.note(f"generated {kind} {number}", [*faults, f"message: {show(octets)}"] if faults else [])
    asked = sum(is_asked for is_asked, _ in answers)
    print(f"generated subjects: Python reads {asked} of {program.cases} as the rules do, and was asked for their surrogates")
