"""Vectors that are older than version 2 of the journal, and what is wanted of them today.

There a journal began with `MAILJNL1`, a message was a record of kind 4, an entry of the queue one of kind 7, and opening appended nothing.
A journal that they begin with has version 1 today, is read as it was then, and gets one record more, of kind 11, behind which the same is
written with marks; where there was none, one of version 2 is begun. All else that such a case tells, status, replies and what is written, has
nothing to do with the version and is wanted as it was. That is what `today` makes of a case.

`is_refused_no_more` tells those to which that doesn't apply: what they begin with was bad then, and isn't so today."""

from journal import FIRST_OCTETS, version
from oracle.pop_store import FIRST_LEN, is_torn
from oracle.records import newer
from support.moments import end_of_shared, records_of

SINCE_VERSION_2 = {"journal-2.txt", "pop-2.txt", "smtp-2.txt", "imap-2.txt", "relay-2.txt"}
OPENED = {0, 8}
BAD, PLACE = 5, b"bad journal at "
NEW_KINDS = {9, 10, 11}


def today(case):
    """The case with the journal that it leaves today."""
    before, after = bytes.fromhex(case["journal"]), bytes.fromhex(case["after"])
    if int(case["status"]) not in OPENED:
        return case
    end = end_of_shared(before, after)
    begun = FIRST_OCTETS if len(before) < FIRST_LEN else after[:end] + version()
    return {**case, "after": (begun + b"".join(map(newer, records_of(after, end)))).hex()}


def is_refused_no_more(case):
    """Whether a journal was bad for what is none of its faults today: its first octets, a kind of record, or zeros at its end."""
    if int(case["status"]) != BAD:
        return False
    before, at = bytes.fromhex(case["journal"]), int(bytes.fromhex(case["out"]).removeprefix(PLACE))
    size, kind = int.from_bytes(before[at : at + 4], "big"), int.from_bytes(before[at + 4 : at + 5], "big")
    return before.startswith(FIRST_OCTETS) if at == 0 else kind in NEW_KINDS or is_torn(before, at, at + 4 + size)
