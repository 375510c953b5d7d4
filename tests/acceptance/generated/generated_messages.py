"""Generated messages: the surrogate is what the oracle has, and Python's `email` package reads the original out of it."""

import email
import email.policy
import random
import re

from oracle.downgrade_oracle import outcome
from support.harness import differs, in_lanes

SEED = 6857

SCRIPTS = {
    "Latin": "éüßñøçåæœŁżÉ",
    "Greek": "αβγδεζηθλμάώ",
    "Cyrillic": "абвгдежзиюяЩ",
    "Arabic": "ابتثجحخدذرسش",
    "Hebrew": "אבגדהוזחטיכל",
    "Devanagari": "अआइईकखगघनमहि",
    "Thai": "กขคงจฉชซญดตถ",
    "Han": "漢字電子郵件中文國語学校",
    "Kana": "あいうえおカキクケコーッ",
    "Hangul": "한국어전자우편메일안녕",
    "pictures": "😀🚀🎉🐟🍣🏔",
}

# octets that mean something elsewhere in mail
ASCII = "abcdefghijklmnopqrstuvwxyzABCXYZ0123456789.,;:!?()<>[]@\"'\\/_-+=*%&#~$"
WHITE = [" ", " ", " ", " ", "  ", "\t", " \t", "\t ", "   ", "\t\t"]
NAMES = ["Comments", "X-Note", "Organization", "User-Agent", "List-Id", "x", "!", "Thread-Topic", "Downgraded-To", "fROM-x"]
COPIED = [
    "From: Ann <ann@example.org>",
    "To: b@example.org,\r\n\tc@example.org",
    "Date: Fri, 27 Nov 2026 04:41:58 +0000",
    "Message-ID: <1@example.org>",
    "Received: from a by b; Fri, 27 Nov 2026 04:41:58 +0000",
    "X-Folded: one\r\n two\r\n   three",
    "X-Empty:",
    "-hyphen: first",
    "Comments:   a  b\t",
    "X-Encoded: =?UTF-8?B?w6k=?= =?UTF-8?Q?=C3=A9?=",
]

ENCODED_WORD = re.compile(rb"=\?UTF-8\?B\?[A-Za-z0-9+/]*=*\?=")


def ascii_word(rng):
    word = "".join(rng.choice(ASCII) for _ in range(rng.choice([1, 2, 3, 5, 8, 30, 90])))
    return word.replace("=?", "==")


def high_word(rng, script):
    letters = SCRIPTS[script]
    word = "".join(rng.choice(letters) for _ in range(rng.choice([1, 1, 2, 4, 7, 15, 16, 60])))
    if rng.random() < 0.3:
        word = ascii_word(rng) + word
    if rng.random() < 0.3:
        word += ascii_word(rng)
    return word.replace("=?", "==")


def value(rng):
    """An unstructured value with a non-ASCII word and without encoded words and folds."""
    script = rng.choice(list(SCRIPTS))
    words = [high_word(rng, script) if rng.random() < 0.4 else ascii_word(rng) for _ in range(rng.randint(0, 9))]
    words.insert(rng.randint(0, len(words)), high_word(rng, script))
    text = words[0]
    for word in words[1:]:
        text += rng.choice(WHITE) + word
    return text


def field(rng, name):
    """The field, its value, and its octets."""
    text = value(rng)
    white = rng.choice(["", "", "", " ", "\t "])
    around = rng.choice([" ", " ", " ", "", "\t", "  "]), rng.choice(["", "", "", " ", "\t "])
    return name, text, f"{name}{white}:{around[0]}{text}{around[1]}\r\n".encode()


def body(rng):
    lines = [rng.choice([b"", b".", b"..", b"Subject: \xc3\xa9", b"x" * 99, b"\xff\xfe", "é =?".encode(), b"--b"]) for _ in range(rng.randint(0, 6))]
    return b"\r\n".join([b"", *lines, b""]) if rng.random() < 0.95 else b""


def message(rng):
    """A message, and its made fields by name and value, in order."""
    made = [field(rng, "Subject")]
    for _ in range(rng.randint(0, 5)):
        made.append(field(rng, rng.choice(NAMES)))
    copied = [(line.split(":")[0].strip(), None, line.encode() + b"\r\n") for line in rng.sample(COPIED, rng.randint(0, 6))]
    fields = made + copied
    rng.shuffle(fields)
    return b"".join(octets for _, _, octets in fields) + body(rng), fields


def faults_of(octets, fields, given):
    """What is wrong with this surrogate of this message."""
    head, _, _ = given.partition(b"\r\n\r\n")
    faults = [] if head.isascii() else ["the header has a non-ASCII octet"]
    for line in head.split(b"\r\n"):
        for word in ENCODED_WORD.findall(line):
            if len(word) > 75:
                faults.append(f"an encoded word of {len(word)} octets")
        if ENCODED_WORD.search(line) and len(line) > 76:
            faults.append(f"a line with encoded words has {len(line)} octets")
    faults += differs("what stands behind the header", behind_header(given), behind_header(octets))
    read = email.message_from_bytes(given, policy=email.policy.default)
    faults += differs("defects that email finds in the header", [str(it) for it in read.defects], [])
    items = read.items()
    faults += differs("names", [name for name, _ in items], [name for name, _, _ in fields])
    for (name, found), (_, wanted, _) in zip(items, fields):
        if wanted is not None:
            faults += differs(f"{name}, as email reads it", str(found).strip(" \t"), wanted)
    subject = next(text for name, text, _ in fields if name == "Subject")
    faults += differs("the subject, as email reads it", str(read["Subject"]).strip(" \t"), subject)
    return faults


def behind_header(octets):
    """The octets from the empty line on."""
    at = octets.find(b"\r\n\r\n")
    return octets[at + 2 :] if at >= 0 else b""


def check(program, tally):
    rng = random.Random(SEED + program.seed)
    messages = [message(rng) for _ in range(program.cases)]

    def one(case):
        octets, fields = case
        status, given = program.downgrade(octets)
        faults = differs("answer", (status, given), outcome([b"downgrade"], octets))
        faults += differs("figures", program.run([b"check"], octets), outcome([b"check"], octets))
        if status != 0:
            return faults, []
        return faults + faults_of(octets, fields, given), differs("answer", program.downgrade(given), (0, given))

    for number, (faults, again) in enumerate(in_lanes(one, messages)):
        tally.note(f"generated message {number}", [*faults, *shown(messages[number][0], faults)])
        tally.note(f"generated message {number}: the surrogate of its surrogate", again)


def shown(octets, faults):
    return [f"message: {octets!r}"] if faults else []
