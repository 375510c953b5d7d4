"""Generated mail with parts, up to four deep: multiparts in multiparts, messages in messages, file names by RFC 2231, and headers of UTF-8 in all of
them. A multipart has a boundary of its own, so that every reader finds the same parts."""

import base64
import random

from clients.mailbox import ASCII_LINES, PEOPLE, SCRIPTS

DEPTH = 4
NAMES = ["José <jose@bücher.example>", "\"Zoë, K.\" <zoe@example.org>", "Ann <ann@example.org>", "bob@example.com", "山田 <yamada@例え.example>"]
PIECES = [
    "name*0*=UTF-8''%C3%A9; name*1=\"a b\"; name*2*=%20c", "name*=UTF-8'fr'caf%C3%A9.txt", 'name="plain \\"x\\".txt"', "NAME=a.txt; x=1", 'name="Größe.pdf"',
    'charset=utf-8; name="ああああああああああああああああああああ.txt"',
]
TYPES = ["application/pdf", "image/png", "text/html", "Text/Plain", "audio/x-y"]
FILES = ['attachment; filename="Menü.pdf"', "inline", "Attachment; filename*=UTF-8''%E3%81%82", "attachment; filename=a.txt; size=5", "x-other; a=é"]
DESCRIPTIONS = ["a note", "une note réglée", "=?UTF-8?B?w6k=?= twice"]
MULTIPARTS = ["mixed", "alternative", "related", "Digest", "x-new"]


class Mail:
    """Writes messages."""

    def __init__(self, seed):
        self.rng, self.boundaries = random.Random(seed), 0

    def maybe(self, likely, *lines):
        return list(lines) if self.rng.random() < likely else []

    def text_lines(self):
        script = self.rng.choice(list(SCRIPTS.values()))
        return [self.rng.choice(script if self.rng.random() < 0.5 else ASCII_LINES) for _ in range(self.rng.randint(0, 5))]

    def of_part(self):
        """Fields that any part may have."""
        rng = self.rng
        fields = self.maybe(0.3, f"Content-ID: <{rng.getrandbits(32):x}@example.org>") + self.maybe(0.3, f"Content-Description: {rng.choice(DESCRIPTIONS)}")
        return fields + self.maybe(0.4, f"Content-Disposition: {rng.choice(FILES)}")

    def of_letter(self):
        """Fields of a message."""
        rng, lines = self.rng, self.rng.choice(list(SCRIPTS.values()))
        people = lambda: ", ".join(rng.choice(NAMES + PEOPLE[:3]) for _ in range(rng.randint(1, 3)))
        fields = [f"From: {rng.choice(NAMES)}", f"To: {people()}", f"Subject: {rng.choice(lines)}", "Date: Sun, 29 Nov 2026 07:00:00 +0000"]
        fields += self.maybe(0.4, f"Cc: {people()}") + self.maybe(0.3, f"Sender: {rng.choice(NAMES)}") + self.maybe(0.3, f"Reply-To: {people()}")
        return fields + self.maybe(0.7, f"Message-ID: <{rng.getrandbits(32):x}@example.org>") + self.maybe(0.2, "In-Reply-To: <x@example.org>", "MIME-Version: 1.0")

    def leaf(self):
        """Fields and lines of a part without parts."""
        rng = self.rng
        if rng.random() < 0.5:
            return self.of_part() + self.maybe(0.5, "Content-Type: text/plain; charset=utf-8", "Content-Transfer-Encoding: 8bit"), self.text_lines()
        octets = base64.b64encode(rng.randbytes(rng.randint(0, 200))).decode()
        fields = [f"Content-Type: {rng.choice(TYPES)}; {rng.choice(PIECES)}", f"Content-Transfer-Encoding: {rng.choice(['base64', 'BASE64'])}"]
        return fields + self.of_part(), [octets[at : at + 76] for at in range(0, len(octets), 76)] or [""]

    def multipart(self, depth):
        rng = self.rng
        self.boundaries += 1
        boundary, kind = f"=_b {self.boundaries}.x", rng.choice(MULTIPARTS)
        lines = rng.choice([[], ["This text is no part."]])
        for _ in range(rng.randint(1, 4)):
            fields, content = self.letter(depth + 1) if kind == "Digest" else self.entity(depth + 1)
            # a part of a digest is a message by default
            lines += [f"--{boundary}", *([""] if kind == "Digest" else []), *fields, "", *content]
        lines += [f"--{boundary}--", *rng.choice([[], ["nor is this"]])]
        return [f'Content-Type: multipart/{kind}; boundary="{boundary}"', *self.of_part()], lines

    def letter(self, depth):
        """Fields and lines of a message."""
        fields, lines = self.entity(depth)
        mixed = [*self.of_letter(), *fields]
        self.rng.shuffle(mixed)
        return mixed, lines

    def message(self, depth):
        """A message as a part."""
        kind = self.rng.choice(["message/rfc822", "message/rfc822", "Message/Global"])
        fields, lines = self.letter(depth + 1)
        return [f"Content-Type: {kind}", *self.of_part()], [*fields, "", *lines]

    def entity(self, depth):
        """Fields and lines of any part."""
        kinds = [self.leaf, lambda: self.multipart(depth), lambda: self.multipart(depth), lambda: self.message(depth)]
        return self.rng.choice(kinds if depth < DEPTH else kinds[:1])()


def nested_messages(count, seed=3501):
    """So many messages."""
    mail = Mail(seed)
    made = (mail.letter(0) for _ in range(count))
    return ["\r\n".join([*fields, "", *lines, ""]).encode() for fields, lines in made]
