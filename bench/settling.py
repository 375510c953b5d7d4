"""Counts what a journal costs to open whose queue has one entry for many recipients, each of whom was settled by a record of its own."""

import os
import tempfile

import paths
from counting import heading, instructions, line
from journal import domain, journal, queue, settle
from mailboxes import RATIO_MOST, tell

# instructions are counted of so many recipients, and of twice as many
COUNT = 8_000

# the order in which they are settled
ORDERS = {"none": lambda places: [], "first to last": list, "last to first": reversed}

HEAD = ["settled", "instructions at n", "at 2n", "2n to n", "a recipient"]

PROSE = """
Opening a journal with one entry of the queue for {count:,} recipients and for twice as many, each of them settled by a record of its own: `dervlask
domain`, which opens the journal and puts one record last. *a recipient*: the instructions that the second n take beyond the first, by n.
""".strip()


def settled(count, order):
    """A journal with one entry, whose recipients are settled in this order."""
    addresses = [b"a%06d@example.com" % number for number in range(count)]
    entry = queue(b"", addresses, b"Subject: plain\r\n\r\nx\r\n")
    return journal(domain(b"example.org"), entry, *(settle(0, place) for place in order(range(count))))


def instructions_of(program, octets):
    with tempfile.TemporaryDirectory() as folder:
        with open(os.path.join(folder, "mail.journal"), "wb") as file:
            file.write(octets)
        return instructions([program, "domain", "example.net"], os.devnull, cwd=folder)


def measure(program, count=COUNT):
    """Prints the table as it comes, and returns its lines."""
    lines, missed = tell(heading(HEAD)), []
    for name, order in ORDERS.items():
        once, twice = (instructions_of(program, settled(it, order)) for it in (count, 2 * count))
        ratio = twice / once
        lines += tell([line([name, f"{once:,}", f"{twice:,}", f"{ratio:.2f}", f"{(twice - once) / count:,.0f}"])])
        if ratio > RATIO_MOST:
            missed.append(f"recipients settled, {name}: {ratio:.2f} times the instructions at 2n, more than {RATIO_MOST}")
    verdict = [f"Wanted: at most {RATIO_MOST} times the instructions at 2n.", *([f"Not met: {it}." for it in missed] or ["All met."])]
    end = tell(["", *[f"{it}  " for it in verdict]])
    return [PROSE.format(count=count), "", *lines, *end]
