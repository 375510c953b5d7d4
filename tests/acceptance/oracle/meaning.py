"""What a field says, by the rules alone: fields that say the same have the same meaning, however they are written. Of
addresses, paths and clauses it is what the field of a surrogate has to say. Nothing here was taken from the program, and
nothing here writes a field."""

from oracle import addresses, layout, parameters, received, recipients, return_path, tokens, units


def of_field(name, body):
    """What the value says, or None where it isn't in its grammar, or can't be said in ASCII."""
    kind, value = name.lower(), layout.value_of(body)
    if name.startswith(b"-") and not value.isascii():
        return None
    try:
        return of_structured(kind, value) if kind in layout.STRUCTURED else of_text(body)
    except tokens.Malformed:
        return None


def of_structured(kind, value):
    if kind in layout.ADDRESSES:
        return of_addresses(value)
    if kind in layout.PHRASES:
        return of_phrases(value)
    if kind in layout.PLAIN:
        return of_plain(value, kind == layout.ENCODING)
    if kind in layout.PARAMETERS:
        return of_parameters(value, kind == parameters.TYPE)
    if kind in layout.PATH:
        return of_path(value)
    if kind in layout.RECIPIENTS:
        return of_recipient(value)
    if kind in layout.TRACE:
        return of_trace(value)
    # identifiers are their octets
    return value if value.isascii() else None


def of_text(body):
    """The units of the value as if it were unstructured."""
    return of_units(units.of_unstructured(layout.value_of(body)))


def of_units(found):
    """Text as octets, and an opaque unit as its charset and octets."""
    return [unit if isinstance(unit, bytes) else (unit.charset, unit.octets) for unit in found]


def of_comment(comment):
    items = tokens.comment_items(comment)
    return [of_comment(octets) if kind == "comment" else ("run", of_units(units.of_run(octets))) for kind, octets in items]


def of_comments(found):
    return [of_comment(comment) for comment in tokens.comments(found)]


def of_addresses(value):
    told = [of_element(element) for _, element in addresses.read_list(value) if element]
    return told, of_comments(tokens.tokens(value, "Mail"))


def of_element(element):
    """A mailbox, or a group and its mailboxes. One that can't be served is a group without mailboxes, whose name says it all."""
    if not element.is_served():
        return "group", of_units(units.joined(element.name_texts())), []
    name = None if element.units() is None else of_units(element.units())
    if isinstance(element, addresses.Group):
        return "group", name, [of_element(mailbox) for _, mailbox in element.members]
    return "mailbox", name, element.local, addresses.served_domain(element.domain)


def of_phrases(value):
    found = tokens.tokens(value, "Mail")
    places = [tokens.phrase_of(place) for place in tokens.split(found, b",")]
    return [of_units(tokens.phrase_units(phrase)) for phrase in places], of_comments(found)


def of_plain(value, is_encoding):
    found = layout.plain_tokens(value, is_encoding)
    return tokens.squeezed(found), of_comments(found)


def of_parameters(value, is_type):
    """The main part in lower case, each parameter by its name, its charset and its octets, and the comments."""
    body = parameters.read(value, is_type)
    told = [(parameter.name, parameter.charset, parameter.octets) for parameter in body.parameters()]
    return body.main.lower(), told, of_comments(body.tokens)


def of_path(value):
    found, mailbox = return_path.read(value)
    if mailbox is None:
        return (None, of_comments(found)) if value.isascii() else None
    return (mailbox.local, addresses.served_domain(mailbox.domain), of_comments(found)) if mailbox.is_served() else None


def of_recipient(value):
    of_type, address = recipients.read(value)
    return (of_type, address) if of_type == recipients.UTF8 or value.isascii() else None


def of_trace(value):
    trace = received.read(value)
    clauses = [(word.lower(), text) for word, text in received.served_clauses(trace)]
    return clauses, received.date_text(trace), of_comments(trace.tokens())
