"""Generated address fields in ten scripts: the surrogate is what the oracle has, it says what the original says, and Python's
`email` reads of it the names and addresses that it reads of the original: with A-label domains where an address can be served,
and as the names of groups without members where it can't.

Python is asked for each mailbox and group of the original alone, since it tells of a list no groups. It isn't asked about
comments, which it takes for a part of the name, about encoded words in the original, nor about quotes that say nothing.
Its own codec `idna` gives the A-label form of domains that are no literals."""

import email
import email.utils
import random
import re
from email.header import decode_header, make_header
from email.utils import getaddresses

from generated.generated_fields import FOLDS, SOUP, atom, comment, joined, meaning_faults, message_of, phrase, quoted
from generated.generated_messages import SCRIPTS
from oracle import downgrade_oracle, layout
from oracle.addresses import Uncertain
from support.harness import differs, in_lanes, show

SEED = 6859

NAMES = [name.decode().title() for name in sorted(layout.ADDRESSES)]
DOMAINS = [
    "bücher.example", "例え.テスト", "пример.example", "مثال.example", "δοκιμή.example", "उदाहरण.example", "ตัวอย่าง.example", "예.example",
    "ñandú.example", "דוגמה.example", "mail.漢字.example", "example.com", "Mail.Example.org", "[192.0.2.1]",
]
LOCALS = ["ann", "a.b", "x+y", "!#$%&'*+-/=?^_`{|}~", '"a b"', '"@"', '"a,b:c;<d>"', '"a\\"b\\\\"']
QUOTED_NAMES = ['"Doe, J."', '"a  b"', '"<x@y>"', '"Team: é;"', '"é \\"ü\\""']
# domains of which some have no A-label form; of the last two the oracle can't tell it
ODD_DOMAINS = [
    *DOMAINS, "x", "é_b", "-é", "é-", "aé--b", "Straße.DE", "[é]", "É.x", "ａ.b", "a.1", "ΣΑΣ.x", "é" * 57, "é" * 58, "é.a_b", "a_b",
    "😀.x", "é.xn--a",
]
ADDRESS_SOUP = [*"@@@<>:;,.\"", "a@b", "a@é", "é@b", "<a@é>", "é:", "x:", ":;", ";", ", ", "<@x:", "<@é,@y:", "a", "é", "[é]", '""', '"."', "(x)"]
COMMAS = [",", ", ", " ,", ",\r\n\t"]
WORDS = re.compile(r"((?:=\?UTF-8\?[BQ]\?[^?]*\?=[ \t]*)+):;")


def local(rng):
    if rng.random() < 0.6:
        return rng.choice(LOCALS)
    letters = "".join(rng.choices(SCRIPTS[rng.choice(list(SCRIPTS))], k=rng.choice([1, 3, 8, 30])))
    return letters if rng.random() < 0.8 else f'"{letters} x"'


def name(rng):
    words = [atom(rng) if rng.random() < 0.8 else rng.choice(QUOTED_NAMES) for _ in range(rng.choice([1, 1, 2, 3]))]
    return "".join(word + rng.choice(FOLDS) for word in words)


def mailbox(rng):
    address = f"{local(rng)}@{rng.choice(DOMAINS)}"
    return address if rng.random() < 0.4 else f"{name(rng) if rng.random() < 0.8 else ''}<{address}>"


def element(rng):
    """A mailbox or a group, without comments."""
    if rng.random() < 0.8:
        return mailbox(rng)
    return f"{name(rng)}:{rng.choice(['', ' '])}{', '.join(mailbox(rng) for _ in range(rng.choice([0, 1, 2])))};"


def certain_list(rng):
    """A field without comments, of which the oracle knows all A-label forms."""
    return rng.choice(NAMES), joined(rng, plain_list(rng), COMMAS)


def plain_list(rng):
    """A list's mailboxes and groups. One of them isn't ASCII."""
    while True:
        elements = [element(rng) for _ in range(rng.choice([1, 1, 2, 4]))]
        if not "".join(elements).isascii():
            return elements


def blank(rng):
    return rng.choice(["", "", "", " ", *FOLDS, comment(rng)])


def spread(rng, words):
    """The words with gaps and comments around them."""
    return blank(rng) + "".join(word + blank(rng) for word in words)


def any_address(rng):
    parts = [rng.choice([lambda: atom(rng), lambda: quoted(rng), lambda: "ann"])() for _ in range(rng.choice([1, 1, 1, 2, 3]))]
    domain = [rng.choice(ODD_DOMAINS)] if rng.random() < 0.8 else ["é", ".", rng.choice(["b", "ü", "c_d"])]
    return spread(rng, [word for part in parts for word in (".", part)][1:] + ["@", *domain])


def any_mailbox(rng):
    if rng.random() < 0.4:
        return any_address(rng)
    route = f"@{rng.choice(ODD_DOMAINS)}{blank(rng)}{rng.choice(['', ',@x', ', @é'])}:" if rng.random() < 0.2 else ""
    return f"{phrase(rng) if rng.random() < 0.7 else blank(rng)}<{blank(rng)}{route}{any_address(rng)}>{blank(rng)}"


def any_element(rng):
    if rng.random() < 0.8:
        return any_mailbox(rng) if rng.random() < 0.9 else blank(rng)
    members = [any_mailbox(rng) if rng.random() < 0.97 else blank(rng) for _ in range(rng.choice([0, 1, 1, 2, 3]))]
    return f"{phrase(rng)}:{','.join(members) or blank(rng)};{blank(rng)}"


def any_list(rng):
    """A field of all that a list may have."""
    return rng.choice(NAMES), ",".join(any_element(rng) for _ in range(rng.choice([1, 1, 2, 3, 5])))


def address_soup(rng):
    """A field of any octets that mean something."""
    few = rng.sample(ADDRESS_SOUP, 9) + rng.sample(SOUP, 3)
    return rng.choice(NAMES).swapcase(), "".join(rng.choice(few) for _ in range(rng.randint(1, 14))) + rng.choice(["", "é", "(é)", ",a@é"])


def near_list(rng):
    """A list without folds, in which something is put or left out."""
    field, text = any_list(rng)
    text = text.replace("\r\n", "")
    for _ in range(rng.choice([1, 1, 2])):
        at = rng.randint(0, len(text))
        text = text[:at] + rng.choice([*ADDRESS_SOUP, "", ""]) + text[at + rng.choice([0, 1]) :]
    return field, text


def by_python(value):
    """Names and addresses. Newer versions of Python have a strict reading, which knows of no groups; a group without members
    is a pair of empty texts in some."""
    how = {"strict": False} if getattr(email.utils, "supports_strict_parsing", False) else {}
    return [(of_whom, address) for of_whom, address in getaddresses([value], **how) if of_whom or address]


def wanted_by_python(elements):
    """Of the original: names and addresses that the surrogate has to have, and names of groups without members."""
    served, groups = [], []
    for text in elements:
        told = by_python(text)
        if all(is_served(address) for _, address in told):
            served += [(of_whom, with_a_labels(address)) for of_whom, address in told]
        elif text.endswith(";"):
            members = [f"{of_whom} <{address}>" if of_whom else address for of_whom, address in told]
            groups.append(f"{by_python(before_colon(text) + '<a@b>')[0][0]} {', '.join(members)}")
        else:
            groups.append(f"{told[0][0]} {told[0][1]}" if told[0][0] else told[0][1])
    return served, groups


def before_colon(text):
    return re.match(r'(?:"(?:\\.|[^"\\])*"|[^":])*', text)[0]


def is_served(address):
    return address.rpartition("@")[0].isascii()


def with_a_labels(address):
    before, _, domain = address.rpartition("@")
    return f"{before}@{domain if domain.isascii() else domain.encode('idna').decode()}"


def found_by_python(value):
    """The same of the surrogate, which may have ASCII groups without members among its groups."""
    served = [(decoded(of_whom), address) for of_whom, address in by_python(value)]
    return served, [decoded(words.strip(" \t")) for words in WORDS.findall(value)]


def decoded(text):
    return str(make_header(decode_header(text)))


def python_faults(elements, given):
    """What is wrong with how Python reads the surrogate."""
    read = email.message_from_bytes(given)
    unfolded = [text.replace("\r\n", "").strip(" \t") for text in elements]
    found = found_by_python(read.items()[0][1].replace("\r\n", ""))
    wanted = wanted_by_python(unfolded)
    return differs("defects", read.defects, []) + differs("names and addresses, as email reads them", found, wanted)


def outcome(octets):
    """The answer that the oracle has, or None where it is uncertain."""
    try:
        return downgrade_oracle.outcome([b"downgrade"], octets)
    except Uncertain:
        return None


def field_faults(program, octets):
    """The answer to a message of one field, whether the oracle could tell, and what is wrong: with the answer, with what the
    made field says, and with the surrogate of the surrogate."""
    answer, told = program.downgrade(octets), outcome(octets)
    faults = differs("answer", answer, told) if told else []
    if answer[0] != 0:
        return answer, told is not None, [*faults, "the answer isn't a surrogate"]
    raw, made = downgrade_oracle.read_mail(octets)[0][0], downgrade_oracle.read_mail(answer[1])[0][0]
    faults += meaning_faults(raw, made) if told else []
    faults += differs("the surrogate of its surrogate", program.downgrade(answer[1]), answer)
    faults += [] if answer[1].isascii() else ["the surrogate isn't ASCII"]
    return answer, told is not None, faults


def cases_of(rng, count):
    """Kind, octets, and the mailboxes and groups of which Python is asked, or None."""
    for _ in range(count):
        elements = plain_list(rng)
        yield "list for Python", message_of(rng, rng.choice(NAMES), joined(rng, elements, COMMAS)), elements
    for maker in (any_list, near_list, address_soup):
        for _ in range(count):
            yield maker.__name__, message_of(rng, *maker(rng)), None


def check(program, tally):
    cases = list(cases_of(random.Random(SEED + program.seed), program.cases))

    def one(case):
        """Whether the oracle could tell, whether there is a list, and what is wrong."""
        _, octets, elements = case
        answer, is_told, faults = field_faults(program, octets)
        if elements and answer[0] == 0:
            faults += python_faults(elements, answer[1])
        return is_told, not answer[1].startswith(b"Downgraded-"), faults

    answers = in_lanes(one, cases)
    for number, ((kind, octets, _), (_, _, faults)) in enumerate(zip(cases, answers)):
        tally.note(f"generated {kind} {number}", [*faults, f"message: {show(octets)}"] if faults else [])
    told, lists = (sum(answer[at] for answer in answers) for at in (0, 1))
    print(f"generated address fields: {lists} of {len(cases)} are lists; of {len(cases) - told} the oracle can't tell the A-label form")
