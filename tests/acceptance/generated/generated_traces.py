"""Generated Received, Return-Path, recipients, identifiers, and names that begin with `-`: the surrogate is what the oracle has,
and it says what the original says.

Python is asked, too. Its codec `idna` gives the A-labels of hosts and domains; `email` reads the date of a Received field, the
address of a Return-Path, and the whole value of a field that is kept aside; escapes of a recipient are resolved by their numbers."""

import email
import random
import re
from email.header import decode_header
from email.utils import formatdate, parseaddr, parsedate_tz

from generated.generated_addresses import (
    ADDRESS_SOUP, DOMAINS, ODD_DOMAINS, any_address, blank, field_faults, local, spread, with_a_labels,
)
from generated.generated_fields import FOLDS, SOUP, atom, comment, joined, message_of, quoted, soup
from generated.generated_messages import SCRIPTS, value
from oracle import layout
from oracle.blocks import parts_of
from oracle.downgrade_oracle import read_mail
from support.harness import differs, in_lanes, show

SEED = 5321

HOST_WORDS = ["from", "by", "From", "BY"]
OTHER_WORDS = ["via", "with", "id", "for", "With", "ID", "FOR"]
HOSTS = [it for it in DOMAINS if not it.startswith("[")]
ODD_HOSTS = [*ODD_DOMAINS, "ｆor", "ｂy.é", "é.for", "ü.ID", "é.", ".é", "é x", "[é]", "<é>", "é é"]
TRACE_SOUP = [
    *";;;<>@.,[]:", *HOST_WORDS, *OTHER_WORDS, "ｆor", "é", "é.x", "a", "[é]", '"by"', "(by)", "(é)", "; ", " ", " ", "for.é", "forx", "xby",
]
RECIPIENT_SOUP = [
    *";;\\\\{}x \t", "utf-8", "UTF-8", "rfc822", "é", "あ", "a@b", "\\x{", "\\x{41}", "\\x{e9}", "\\x{D800}", "\\x{110000}", "\\x{9}",
    "(é)", "+", "=",
]
IDENTIFIERS = ["Message-ID", "Resent-Message-ID", "In-Reply-To", "References", "Content-ID", "CONTENT-id"]
HYPHENS = ["-", "--", "-X", "-Subject", "-to", "--boundary"]
ESCAPE = re.compile(r"\\x\{([0-9A-F]{2,6})\}")


def certain_trace(rng):
    """A Received field without comments, and the words that its surrogate has."""
    words, wanted = [], []
    for _ in range(rng.choice([1, 2, 3, 5])):
        host, clause = rng.choice(HOSTS), rng.choice([*HOST_WORDS, *OTHER_WORDS])
        words += [clause, host]
        if host.isascii() or clause in HOST_WORDS:
            wanted += [clause, host if host.isascii() else host.encode("idna").decode()]
    date = formatdate(rng.randrange(1 << 31))
    return "Received", joined(rng, [*words, ";", *date.split()], FOLDS), [*wanted, ";", *date.split()]


def trace_value(rng):
    if rng.random() < 0.3:
        return blank(rng)
    host = lambda: spread(rng, [rng.choice(ODD_HOSTS)])
    texts = [
        host, host, lambda: any_address(rng), lambda: f"<{any_address(rng)}>", lambda: quoted(rng), lambda: blank(rng),
        lambda: spread(rng, [atom(rng), rng.choice(".@:"), atom(rng)]),
    ]
    return rng.choice([" ", *FOLDS, comment(rng)]) + rng.choice(texts)()


def any_trace(rng):
    """A field of all that may be in Received."""
    text = blank(rng)
    for _ in range(rng.choice([0, 1, 2, 3, 5])):
        text += rng.choice([*HOST_WORDS, *HOST_WORDS, *OTHER_WORDS]) + trace_value(rng) + rng.choice([" ", *FOLDS, comment(rng)])
    date = f"; {formatdate(rng.randrange(1 << 31))}"
    return "Received", text + rng.choice(["", ";", ";1 ", date, date]) + rng.choice(["", "(é)", comment(rng)])


def any_path(rng):
    inner = any_address(rng) if rng.random() < 0.9 else blank(rng)
    return rng.choice(["Return-Path", "return-PATH"]), f"{blank(rng)}<{inner}>{blank(rng)}{rng.choice(['', '', '(é)'])}"


def certain_path(rng):
    """A path, and the address that Python has to read, where it can be served."""
    address = f"{local(rng)}@{rng.choice(HOSTS)}"
    is_served = address.rpartition("@")[0].isascii()
    return "Return-Path", f"<{address}>", with_a_labels(parseaddr(f"<{address}>")[1]) if is_served else None


def certain_recipient(rng):
    """An address of the type utf-8, which isn't ASCII."""
    letters = [*SCRIPTS[rng.choice(list(SCRIPTS))], *"az09.+=@!~\"( \t", "\u0080", "\u00a0", "\uffff", "\U0010ffff"]
    text = "é" + "".join(rng.choice(letters) for _ in range(rng.choice([1, 4, 12, 40]))) + "@" + rng.choice(DOMAINS)
    written = "".join(maybe_escaped(rng, it) for it in text)
    of_type = rng.choice(["utf-8", "UTF-8", "utf-8 ", "Utf-8\t"])
    return rng.choice(["Original-Recipient", "Final-Recipient"]), f"{of_type};{rng.choice(['', *FOLDS])}é{written}", "é" + text


def maybe_escaped(rng, character):
    width = rng.choice([2, 2, 4, 6])
    return f"\\x{{{ord(character):0{width}{rng.choice('xX')}}}}" if rng.random() < 0.1 else character


def identifier(rng):
    """A field that is kept aside whatever its value is."""
    texts = [value(rng), f"<{atom(rng)}@é>", "é " + soup(rng)[1], joined(rng, ["<a@b>", "<é@c>"], FOLDS)]
    return rng.choice([*IDENTIFIERS, *HYPHENS]), rng.choice(texts)


def near(rng, maker, octets):
    """A field of this maker without folds, in which something is put or left out."""
    field, text = maker(rng)[:2]
    text = text.replace("\r\n", "")
    for _ in range(rng.choice([1, 1, 2])):
        at = rng.randint(0, len(text))
        text = text[:at] + rng.choice([*octets, "", ""]) + text[at + rng.choice([0, 1]) :]
    return field, text


def of_soup(rng, name, octets):
    """A field of any octets that mean something."""
    few = rng.sample(octets, 9) + rng.sample(SOUP, 3)
    return name, "".join(rng.choice(few) for _ in range(rng.randint(1, 14))) + rng.choice(["", "é", "(é)"])


MAKERS = {
    "trace": any_trace,
    "near trace": lambda rng: near(rng, any_trace, TRACE_SOUP),
    "trace soup": lambda rng: of_soup(rng, "Received", TRACE_SOUP),
    "path": any_path,
    "near path": lambda rng: near(rng, any_path, ADDRESS_SOUP),
    "path soup": lambda rng: of_soup(rng, "Return-Path", ADDRESS_SOUP),
    "near recipient": lambda rng: near(rng, certain_recipient, RECIPIENT_SOUP),
    "recipient soup": lambda rng: of_soup(rng, "Final-Recipient", RECIPIENT_SOUP),
    "identifier": identifier,
}


def trace_faults(wanted, text):
    found, date = (parsedate_tz(it.rpartition(";")[2]) for it in (text, " ".join(wanted)))
    return differs("clauses and date", text.split(), wanted) + differs("the date, as email reads it", found, date)


def path_faults(wanted, text):
    """An address that can't be served is told with the value."""
    return [] if wanted is None else differs("the address, as email reads it", parseaddr(text)[1], wanted)


def recipient_faults(wanted, text):
    told = ESCAPE.sub(lambda it: chr(int(it[1], 16)), text.removeprefix("utf-8; "))
    return differs("the address, without its escapes", told, wanted)


CERTAIN = {
    "trace for Python": (certain_trace, trace_faults),
    "path for Python": (certain_path, path_faults),
    "recipient for Python": (certain_recipient, recipient_faults),
}


def cases_of(rng, count):
    """Kind, octets, and a function that has what is wrong with the text of the made field, as Python reads it, or None."""
    for kind, (maker, faults) in CERTAIN.items():
        for _ in range(count):
            name, text, wanted = maker(rng)
            yield kind, message_of(rng, name, text), lambda found, wanted=wanted, faults=faults: faults(wanted, found)
    for kind, maker in MAKERS.items():
        for _ in range(count):
            yield kind, message_of(rng, *maker(rng)), None


def aside_faults(octets, found):
    """What is wrong with how Python reads the value that is kept aside."""
    _, body, _ = parts_of(read_mail(octets)[0][0])
    told = b"".join(part for part, _ in decode_header(found))
    return differs("the value, as decode_header reads it", told, layout.value_of(body))


def check(program, tally):
    cases = list(cases_of(random.Random(SEED + program.seed), program.cases))

    def one(case):
        """Whether the oracle could tell, whether the field is kept aside, and what is wrong."""
        _, octets, asked = case
        answer, is_told, faults = field_faults(program, octets)
        is_aside = answer[1].startswith(b"Downgraded-")
        # a name with white before its colon is none for Python, and an ASCII field keeps it
        if answer[0] == 0 and not octets.isascii():
            (_, found), *_ = email.message_from_bytes(answer[1]).items()
            found = found.replace("\r\n", "").strip(" \t")
            faults += aside_faults(octets, found) if is_aside else asked(found) if asked else []
        return is_told, is_aside, faults

    answers = in_lanes(one, cases)
    for number, ((kind, octets, _), (_, _, faults)) in enumerate(zip(cases, answers)):
        tally.note(f"generated {kind} {number}", [*faults, f"message: {show(octets)}"] if faults else [])
    told, aside = (sum(answer[at] for answer in answers) for at in (0, 1))
    print(f"generated traces, paths, recipients and identifiers: {aside} of {len(cases)} are kept aside")
    print(f"generated traces and paths: of {len(cases) - told} the oracle can't tell the A-label form")
