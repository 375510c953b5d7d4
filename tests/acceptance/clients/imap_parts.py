"""Python's imaplib fetches generated mail with parts: the parts that BODYSTRUCTURE tells are those that Python's `email` finds in the whole message,
with the same types, parameters and contents, and each section and each partial is a range of the whole message."""

import email
import random
import tempfile
from email.utils import decode_params, getaddresses, unquote

from clients.fetch_replies import count_of_parts, is_message, is_multipart, items_in, parts_of, without_extension
from clients.imap_clients import logged_in, told
from clients.nested_mail import nested_messages
from clients.pop_clients import ADDRESS, PASSWORD
from oracle.records import mailbox
from support.harness import differs
from support.service import Service
from support.talk import place_journal

COUNT = 60
WHOLE = ["RFC822.SIZE", "ENVELOPE", "BODY", "BODYSTRUCTURE", "RFC822.HEADER", "RFC822.TEXT", "BODY.PEEK[]", "BODY.PEEK[HEADER]", "BODY.PEEK[TEXT]"]
CHOSEN = [b"SUBJECT", b"FROM", b"TO"]
SENDERS = ["From", "Sender", "Reply-To", "To", "Cc", "Bcc"]
TEXTS = [("Date", 0), ("Subject", 1), ("In-Reply-To", 8), ("Message-ID", 9)]


def fetched(client, number, items):
    return items_in(told(client.fetch(str(number), f"({' '.join(items)})")))[number]


def section(*words):
    return f"BODY[{'.'.join(words)}]"


def dotted(path):
    return ".".join(map(str, path))


def sections_of(structure):
    """The names of all sections that a message has below its own header and text."""
    for path, part in parts_of(structure):
        words = ["", ".MIME", ".HEADER", ".TEXT"] if is_message(part) else ["", ".MIME"]
        yield from (dotted(path) + word for word in words)


def read_parts(message, path=()):
    """Path and part of a message that `email` read, in the order of parts_of."""
    is_mixed = message.get_content_maintype() == "multipart" and message.is_multipart()
    for number, child in enumerate(message.get_payload() if is_mixed else [message], 1):
        here = (*path, number)
        yield here, child
        if child.get_content_maintype() == "multipart":
            yield from read_parts(child, here) if child.is_multipart() else ()
        elif child.is_multipart():
            yield from read_parts(child.get_payload(0), here)


def value_of(text):
    """A value without its folds, as octets, or None where there is none."""
    return text if text is None else text.replace("\r\n", "").strip(" \t").encode()


def decoded(pairs):
    """Parameters with what is written by RFC 2231 decoded."""
    found = []
    for name, value in decode_params([("", ""), *pairs])[1:]:
        if isinstance(value, tuple):
            value = unquote(value[2]).encode("latin-1").decode(value[0] or "ascii", "replace")
        else:
            value = unquote(value)
        found.append((name.lower(), value))
    return sorted(found)


def told_parameters(listed):
    texts = [it.decode() for it in listed or []]
    return decoded([(name, '"' + value.replace("\\", "\\\\").replace('"', '\\"') + '"') for name, value in zip(texts[::2], texts[1::2], strict=True)])


def read_parameters(part, name):
    """The same of a part that `email` read."""
    found = []
    for name, value in (part.get_params(header=name) or [])[1:]:
        found.append((name.lower(), value[2].encode("latin-1").decode(value[0] or "ascii", "replace") if isinstance(value, tuple) else value))
    return sorted(found)


def part_faults(part, read, content):
    """What is wrong with what is told of one part."""
    if is_multipart(part):
        count = count_of_parts(part)
        faults = differs("type", ("multipart", part[count].decode()), (read.get_content_maintype(), read.get_content_subtype()))
        return faults + differs("parameters", told_parameters(part[count + 1]), read_parameters(read, "content-type"))
    faults = differs("type", b"/".join(part[:2]).decode(), read.get_content_type())
    wanted = read_parameters(read, "content-type") if "content-type" in read else [("charset", "us-ascii")]
    faults += differs("parameters", told_parameters(part[2]), wanted)
    faults += differs("identifier", part[3], value_of(read["content-id"])) + differs("description", part[4], value_of(read["content-description"]))
    faults += differs("encoding", part[5], value_of(read["content-transfer-encoding"]) or b"7bit") + differs("size", part[6], len(content))
    at = 9 if is_message(part) else 7
    if is_message(part) or part[0] == b"text":
        faults += differs("lines", part[at], content.count(b"\r\n"))
    disposition = part[-3]
    faults += differs("disposition", disposition and disposition[0].decode(), read.get_content_disposition())
    faults += differs("parameters of it", told_parameters(disposition and disposition[1]), read_parameters(read, "content-disposition"))
    if not is_message(part):
        faults += differs("content", content, read.get_payload().encode())
    return faults


def range_faults(whole, structure, items):
    """What is wrong with where the sections stand: each part behind the one before it, in what its parent has."""
    faults, places = [], {(): (len(items["BODY[HEADER]"]), len(whole))}
    if not is_multipart(structure):
        places[()] = 0, len(whole)
    for path, part in parts_of(structure):
        mime, content = items[section(dotted(path), "MIME")], items[section(dotted(path))]
        begin, end = places[path[:-1]]
        at = whole.find(mime + content, begin, end)
        if at < 0:
            return faults + [f"section {dotted(path)} doesn't stand in its parent"]
        places[path[:-1]] = at + len(mime + content), end
        places[path] = at + len(mime), at + len(mime + content)
        if is_message(part):
            header, text = items[section(dotted(path), "HEADER")], items[section(dotted(path), "TEXT")]
            faults += differs(f"section {dotted(path)}", header + text, content)
            if is_multipart(part[8]):
                places[path] = at + len(mime + header), at + len(mime + content)
    return faults


def envelope_faults(envelope, read):
    """What is wrong with an envelope, as `email` reads the header."""
    faults = []
    for name, at in TEXTS:
        faults += differs(name, envelope[at], value_of(read[name]))
    for at, name in enumerate(SENDERS, 2):
        text = read[name] if name in read or at not in (3, 4) else read["From"]
        wanted = getaddresses([text.replace("\r\n", "")]) if text else []
        listed = [((it[0] or b"").decode(), f"{it[2].decode()}@{it[3].decode()}") for it in envelope[at] or []]
        faults += differs(name, listed, wanted)
    return faults


def fields_of(header):
    """The fields of a header, raw, with their names."""
    raws = []
    for line in header.splitlines(keepends=True)[: header.count(b"\r\n")]:
        if line in (b"\r\n",):
            break
        if line[:1] in b" \t":
            raws[-1] += line
        else:
            raws.append(line)
    return [(raw.partition(b":")[0].strip().upper(), raw) for raw in raws]


def chosen_faults(client, number, header):
    """What is wrong with fields that are chosen by name."""
    names = " ".join(name.decode() for name in CHOSEN)
    items = fetched(client, number, [f"BODY.PEEK[HEADER.FIELDS ({names})]", f"BODY.PEEK[HEADER.FIELDS.NOT ({names})]"])
    chosen, others = (b"".join(raw for name, raw in fields_of(header) if (name in CHOSEN) == wanted) + b"\r\n" for wanted in (True, False))
    faults = differs("HEADER.FIELDS", items[f"BODY[HEADER.FIELDS ({names})]"], chosen)
    return faults + differs("HEADER.FIELDS.NOT", items[f"BODY[HEADER.FIELDS.NOT ({names})]"], others)


def partial_faults(client, number, items, rng):
    """What is wrong with some partials."""
    faults = []
    for name in rng.sample(sorted(it for it in items if it.startswith("BODY[")), 3):
        octets = items[name]
        at, count = rng.randint(0, len(octets) + 2), rng.choice([1, 7, 100, 1 << 30])
        found = fetched(client, number, [f"BODY.PEEK{name[4:]}<{at}.{count}>"])
        faults += differs(f"{name}<{at}.{count}>", found, {f"{name}<{at}>": octets[at : at + count]})
    return faults


def message_faults(client, number, rng):
    """What is wrong with what is told of a message, and the parts of it: path, type and what `email` reads of the content."""
    items = fetched(client, number, WHOLE)
    structure, whole = items["BODYSTRUCTURE"], items["BODY[]"]
    items |= fetched(client, number, [f"BODY.PEEK[{name}]" for name in sections_of(structure)])
    read = email.message_from_string(whole.decode())
    faults = differs("size", items["RFC822.SIZE"], len(whole)) + differs("header and text", items["BODY[HEADER]"] + items["BODY[TEXT]"], whole)
    faults += differs("RFC822.HEADER", items["RFC822.HEADER"], items["BODY[HEADER]"]) + differs("RFC822.TEXT", items["RFC822.TEXT"], items["BODY[TEXT]"])
    faults += differs("BODY", items["BODY"], without_extension(structure)) + envelope_faults(items["ENVELOPE"], read)
    parts, found = list(parts_of(structure)), dict(read_parts(read))
    faults += differs("paths", [path for path, _ in parts], list(found))
    for path, part in parts if not faults else []:
        faults += [f"part {dotted(path)}: {fault}" for fault in part_faults(part, found[path], items[section(dotted(path))])]
        if is_message(part):
            faults += [f"part {dotted(path)}: {fault}" for fault in envelope_faults(part[7], found[path].get_payload(0))]
    faults += range_faults(whole, structure, items) + chosen_faults(client, number, items["BODY[HEADER]"]) + partial_faults(client, number, items, rng)
    return faults, [(path, it.get_content_maintype(), None if it.is_multipart() else it.get_payload()) for path, it in found.items()]


def by_mode(port, is_enabled):
    """What is wrong with each message in a session of this mode, and its parts."""
    client, rng = logged_in(port, is_enabled), random.Random(6857)
    client.select("INBOX", readonly=True)
    found = [message_faults(client, number, rng) for number in range(1, COUNT + 1)]
    client.logout()
    return found


def check(program, tally):
    with tempfile.TemporaryDirectory(dir=program.folder.name) as folder:
        place_journal(folder, mailbox(nested_messages(COUNT), ADDRESS.encode(), PASSWORD.encode()))
        with Service(program.path, folder, "imap") as service:
            legacy, enabled = by_mode(service.port, False), by_mode(service.port, True)
    for number, ((faults, parts), (more, others)) in enumerate(zip(legacy, enabled, strict=True), 1):
        tally.note(f"imaplib, legacy: the parts of message {number}", faults)
        tally.note(f"imaplib, enabled: the parts of message {number}", more)
        tally.note(f"imaplib: message {number} has the same parts for both", differs("parts", parts, others))
    tally.note("serve imap ended only when it was stopped", service.faults())
