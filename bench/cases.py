"""The messages that are measured, each at n and at 2n. They are written in pieces, so that the caller stays small."""

MESSAGE_MAX = 33_554_432
LINE = b"The quick brown fox jumps over the lazy dog, and the mail goes on its way now.\r\n"
WORD = "あ".encode()


def ascii_body(size):
    """A short header and an ASCII body, so many octets together."""
    head = b"Subject: plain\r\nFrom: a@example.org\r\n\r\n"
    yield head
    lines, last = divmod(size - len(head), len(LINE))
    for at in range(0, lines - 1, 1000):
        yield LINE * min(1000, lines - 1 - at)
    yield b"y" * (len(LINE) + last - 2) + b"\r\n"


def numbered(text, count):
    """The text so many times, each with its number in its braces."""
    for at in range(0, count, 1000):
        yield "".join(text.format(number) for number in range(at, min(at + 1000, count))).encode()


def ascii_fields(count):
    """Short fields of 40 octets."""
    yield from numbered("X-Field-{:06}: a value of three words\r\n", count)
    yield b"\r\nx\r\n"


def high_fields(count):
    """Fields of 79 octets, each with one core between ASCII words."""
    yield from numbered("X-Field-{:06}: deux cafés au lait et une crème brûlée, for the two of us\r\n", count)
    yield b"\r\nx\r\n"


def long_subject(size):
    """A subject of so many octets, without white."""
    yield b"Subject: " + WORD * (size // len(WORD)) + b"\r\n\r\nx\r\n"


def long_line(size):
    """One line of the body."""
    yield b"Subject: plain\r\n\r\n"
    for _ in range(size >> 20):
        yield b"y" * (1 << 20)
    yield b"\r\n"


def long_field(size):
    """One ASCII line of the header."""
    yield b"Subject: "
    for _ in range(size >> 20):
        yield b"y" * (1 << 20)
    yield b"\r\n\r\nx\r\n"


def encoded_subject(count):
    """So many encoded words of another charset, with a non-ASCII word on each side: 52 octets each."""
    yield "Subject: é".encode()
    yield from numbered(" =?ISO-8859-1?Q?caf=E9?= crème_brûlée_à_la_{:06}", count)
    yield b"\r\n\r\nx\r\n"


def folded_subject(count):
    """So many words of which every other one is ASCII, each on a line of its own."""
    yield "Subject: é".encode()
    for at in range(0, count, 1000):
        yield "\r\n word =?ISO-8859-1?Q?caf=E9?=\r\n\tété".encode() * min(1000, count - at)
    yield b"\r\n\r\nx\r\n"


def many_phrases(count):
    """So many keywords."""
    yield "Keywords: été".encode()
    yield from numbered(', "clé" no {:06} =?UTF-8?Q?x?=', count)
    yield b"\r\n\r\nx\r\n"


def many_comments(count):
    """A date with so many comments side by side, of which each has a nested one."""
    yield b"Date: Thu, 01 Jan 1970 00:00:00 +0000"
    yield from numbered(" (été {:06} (x))", count)
    yield b"\r\n\r\nx\r\n"


def deep_comment(size):
    """A date with one comment, 64 deep, around so many octets."""
    yield b"Date: Thu, 01 Jan 1970 00:00:00 +0000 " + b"(" * 64
    yield WORD * (size // len(WORD))
    yield b")" * 64 + b"\r\n\r\nx\r\n"


def many_addresses(count):
    """So many addresses, each with a name and a domain beyond ASCII."""
    yield "To: Zoë <z@bücher.example>".encode()
    yield from numbered(", Zoë <z{:06}@bücher.example>", count)
    yield b"\r\n\r\nx\r\n"


def large_group(count):
    """One group of so many addresses."""
    yield "To: Bücherfreunde: z@bücher.example".encode()
    yield from numbered(", z{:06}@bücher.example", count)
    yield b";\r\n\r\nx\r\n"


def empty_places(count):
    """So many empty places behind an address."""
    yield "To: Zoë <z@example.org>".encode() + b"," * count + b"\r\n\r\nx\r\n"


def comments_between(count):
    """So many comments between two addresses."""
    yield "To: Zoë <z@example.org>".encode()
    yield from numbered(" (été {:06})", count)
    yield b", a@example.org\r\n\r\nx\r\n"


def quoted_local_part(size):
    """An address with a quoted local part of so many octets."""
    yield "To: Zoë <\"".encode() + b"y z" * (size // 3) + b"\"@example.org>\r\n\r\nx\r\n"


def many_parameters(count):
    """So many parameters, each beyond ASCII and short enough for one piece."""
    yield "Content-Disposition: attachment".encode()
    yield from numbered("; name{0:06}=\"Größe {0:06}\"", count)
    yield b"\r\n\r\nx\r\n"


def long_parameter(size):
    """A file name of so many octets."""
    yield b"Content-Disposition: attachment; filename=\"" + WORD * (size // len(WORD)) + b"\"\r\n\r\nx\r\n"


def falling_pieces(count):
    """A file name of so many pieces (RFC 2231, 3), the last one first."""
    yield b"Content-Disposition: attachment"
    yield b"".join(b"; filename*%d*=%%C3%%A9" % number for number in range(count - 1, 0, -1))
    yield "; filename*0*=UTF-8''%C3%A9; x=é\r\n\r\nx\r\n".encode()


def many_clauses(count):
    """A trace of so many clauses, of which every other one is dropped."""
    yield b"Received: from a"
    for at in range(0, count, 2000):
        yield " by example.org for <é@x>".encode() * min(1000, (count - at) // 2)
    yield b"; Thu, 01 Jan 1970 00:00:00 +0000\r\n\r\nx\r\n"


def long_identifier(size):
    """Identifiers of so many octets, which are kept under another name."""
    yield b"References: <" + WORD * (size // len(WORD)) + b"@x>\r\n\r\nx\r\n"


def multipart(boundary):
    """The header of a multipart, and the line before its first part."""
    return f"Content-Type: multipart/mixed; boundary={boundary}\r\n\r\n--{boundary}\r\n".encode()


def many_parts(count):
    """A multipart of so many parts, each with a subject beyond ASCII."""
    yield multipart("b")
    yield from numbered("Subject: été {:06}\r\n\r\nx\r\n--b\r\n", count)
    yield b"\r\nx\r\n--b--\r\n"


def nested(boundaries, size):
    """Multiparts in one another around lines of so many octets."""
    for boundary in boundaries:
        yield multipart(boundary)
    yield "Subject: été\r\n\r\n".encode()
    for at in range(0, size // len(LINE), 1000):
        yield LINE * min(1000, size // len(LINE) - at)


def nested_multiparts(size):
    """32 multiparts in one another."""
    yield from nested([f"b{number}" for number in range(32)], size)


def same_boundary(size):
    """The same with one boundary for all."""
    yield from nested(["b"] * 32, size)


def nested_messages(size):
    """32 messages in one another around lines of so many octets."""
    for _ in range(32):
        yield "Subject: été\r\nContent-Type: message/rfc822\r\n\r\n".encode()
    yield from ascii_body(size)


def dashed_lines(count):
    """So many lines that begin with two hyphens, inside of 32 multiparts."""
    for number in range(32):
        yield multipart(f"b{number}")
    yield b"\r\n"
    for at in range(0, count, 1000):
        yield b"--b33\r\n" * min(1000, count - at)


def part_of_lines(size):
    """A part with an ASCII body of so many octets."""
    yield from nested(["b"], size)


MIB = 1 << 20

# name, what writes the message, n; each is measured at n and at 2n
CASES = [
    ("ASCII body of 16 and 32 MiB", ascii_body, MESSAGE_MAX // 2),
    ("50,000 and 100,000 short ASCII fields", ascii_fields, 50_000),
    ("10,000 and 20,000 non-ASCII fields", high_fields, 10_000),
    ("one subject of 512 KiB and 1 MiB of あ", long_subject, MIB // 2),
    ("one line of 8 and 16 MiB in the body", long_line, 8 * MIB),
    ("one line of 8 and 16 MiB in the header", long_field, 8 * MIB),
    ("20,000 and 40,000 encoded words between others in a subject", encoded_subject, 20_000),
    ("a subject of 40,000 and 80,000 lines", folded_subject, 20_000),
    ("50,000 and 100,000 keywords", many_phrases, 50_000),
    ("a date with 20,000 and 40,000 comments", many_comments, 20_000),
    ("a date with a comment 64 deep around 512 KiB and 1 MiB", deep_comment, MIB // 2),
    ("a To with 50,000 and 100,000 addresses", many_addresses, 50_000),
    ("a group of 50,000 and 100,000 addresses", large_group, 50_000),
    ("a To with 100,000 and 200,000 empty places", empty_places, 100_000),
    ("20,000 and 40,000 comments between two addresses", comments_between, 20_000),
    ("a quoted local part of 512 KiB and 1 MiB", quoted_local_part, MIB // 2),
    ("10,000 and 20,000 parameters", many_parameters, 10_000),
    ("a parameter of 512 KiB and 1 MiB", long_parameter, MIB // 2),
    ("a parameter of 5,000 and 10,000 pieces in falling order", falling_pieces, 5_000),
    ("a trace of 50,000 and 100,000 clauses", many_clauses, 50_000),
    ("identifiers of 512 KiB and 1 MiB", long_identifier, MIB // 2),
    ("10,000 and 20,000 parts", many_parts, 10_000),
    ("32 nested multiparts around 1 and 2 MiB", nested_multiparts, MIB),
    ("the same with one boundary", same_boundary, MIB),
    ("500,000 and 1,000,000 lines that begin with two hyphens", dashed_lines, 500_000),
    ("a part of 15 and 30 MiB", part_of_lines, 15 * MIB),
]


def write(path, make, n):
    """Writes the message to the file, and returns how many octets it has."""
    size = 0
    with open(path, "wb") as file:
        for piece in make(n):
            size += file.write(piece)
    if size > MESSAGE_MAX:
        raise ValueError(f"{make.__name__}({n}) has {size} octets")
    return size
