"""What `dervlask downgrade` and `check` have to answer, told anew from the rules.

Nothing here was taken from the program: expected values of the tests come from this file and those that it uses (blocks.py,
trees.py, layout.py, addresses.py, parameters.py, received.py, return_path.py, recipients.py, pieces.py, tokens.py, units.py),
from rows that are written out, from Python's `email` package, or from vectors.
The rules, as far as they are built:

- A message has at most 33,554,432 octets. More are `too large`, and that comes before all others.
- Its last line is ended with CRLF, where neither that nor a CR stands at the end.
- Then it is refused for the first NUL, CR or LF that isn't part of a CRLF, and else for the first faulty line of the header
  block of an entity, from the outer entity inward.
- Else it is rewritten: trees.py says which entities it has, and layout.py how a field is made. It may be Uncertain how, where a
  domain isn't ASCII (addresses.py).
- `check` refuses as `downgrade` does, and else tells of the message with its last line ended and of its surrogate: octets of both,
  entities, fields that differ, and whether a field isn't ASCII.
"""

import re

from oracle import trees
from oracle.blocks import Refused, read_block

MESSAGE_MAX = 33_554_432
FAULT = re.compile(rb"(\0)|(\r)(?!\n)|(?<!\r)(\n)")
FAULTS = (b"nul", b"bare cr", b"bare lf")


def outcome(words, octets):
    """The exit status and the octets that are given, for the words of the command line and standard input."""
    if words not in ([b"downgrade"], [b"check"]):
        return 4, b"words refused\r\n"
    try:
        whole = sound(octets)
        return 0, trees.surrogate(whole) if words == [b"downgrade"] else told_of(whole)
    except Refused as fault:
        return 7, b"refused at %d: %s\r\n" % fault.args


def told_of(octets):
    """The lines of `check`."""
    found = trees.Figures(octets)
    counts = {"octets": len(octets), "served": found.served, "entities": found.entities, "rewritten": found.rewritten}
    return "".join(f"{name} {value}\r\n" for name, value in [*counts.items(), ("utf8", "yes" if found.high else "no")]).encode()


def sound(octets):
    """The octets with their last line ended, where no octet is faulty."""
    if len(octets) > MESSAGE_MAX:
        raise Refused(MESSAGE_MAX, b"too large")
    if octets and not octets.endswith((b"\r\n", b"\r")):
        octets += b"\r\n"
    fault = FAULT.search(octets)
    if fault:
        raise Refused(fault.start(), FAULTS[fault.lastindex - 1])
    return octets


def read_mail(octets):
    """The raw fields of a message, and what stands behind them."""
    return read_block(sound(octets))
