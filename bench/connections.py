"""Measures short connections to `dervlask serve`, beside Dovecot's servers where they are installed."""

import sys
import tempfile

import dovecot
import imap
import paths
import pop
from counting import heading, instructions_while, line
from listening import NotStarted, free_port
from mailboxes import PASSWORD, messages, talk, tell, warm, write_journal
from serve import Serve, words_of

COUNT, RIVAL_COUNT = 10_000, 1_000
# instructions are counted of so many connections, and of twice as many
COUNTED_COUNT = 500
MESSAGES, SIZE = 100, 700

RATIO_MOST = 2.2

HEAD = ["protocol", "instructions at n", "at 2n", "2n to n", "a connection", "connections a second"]

PROSE = f"""
Short connections to `dervlask serve`, one after the other, each a login and a goodbye, to a mailbox of {MESSAGES} messages of
{SIZE / 1000:g} kB. Before each one the program reads what others wrote to the journal. Instructions are those of n = {COUNTED_COUNT} connections
and of 2n, beyond those of a program that serves one; *a connection*: those that the second n take beyond the first, by n.
*connections a second*: of {COUNT:,}, and of {RIVAL_COUNT:,} to Dovecot, over loopback.
""".strip()


def connect_often(protocol, port, count):
    """Seconds of so many connections."""
    return sum(talk(protocol, port, [*protocol.LOGIN, protocol.GOODBYE]) for _ in range(count))


def instructions_of(program, protocol, count):
    """Those of a program that serves so many connections, and ends."""
    with tempfile.TemporaryDirectory() as folder:
        write_journal(folder, MESSAGES, SIZE)
        port = free_port()
        return instructions_while(words_of(program, protocol.WORD, port, count), lambda: connect_often(protocol, port, count), cwd=folder)


def a_second(count, seconds):
    return f"{count / seconds:,.0f}"


def rate_of(program, protocol, count):
    with tempfile.TemporaryDirectory() as folder:
        write_journal(folder, MESSAGES, SIZE)
        with Serve(program, folder, protocol.WORD) as serving:
            return a_second(count, connect_often(protocol, serving.port, count))


def rival_rate(protocol, count):
    """The rival's, where it is installed and starts."""
    if not dovecot.is_installed(protocol.WORD):
        return "not installed"
    with tempfile.TemporaryDirectory() as folder:
        try:
            with dovecot.Dovecot(folder, messages(MESSAGES, SIZE), PASSWORD, protocol.WORD) as rival:
                warm(protocol, rival.port, protocol.LOGIN, MESSAGES)
                return a_second(count, connect_often(protocol, rival.port, count))
        except NotStarted as error:
            print(error, file=sys.stderr)
            return "not started"


def row(program, name, protocol, counted_count):
    """The row of a protocol, and the threshold that isn't met."""
    one, once, twice = (instructions_of(program, protocol, it) for it in (1, counted_count, 2 * counted_count))
    ratio = (twice - one) / (once - one)
    figures = [f"{once - one:,}", f"{twice - one:,}", f"{ratio:.2f}", f"{(twice - once) / counted_count:,.0f}"]
    missed = [f"{name}: {ratio:.2f} times the instructions at 2n, more than {RATIO_MOST}"] if ratio > RATIO_MOST else []
    return [name, *figures, rate_of(program, protocol, COUNT)], missed


def measure(program, counted_count=COUNTED_COUNT):
    """Prints the table as it comes, and returns its lines."""
    rival = [dovecot.version()] if dovecot.is_installed("pop") else []
    lines, missed = tell(heading([*HEAD, *rival])), []
    for name, protocol in (("POP3", pop), ("IMAP", imap)):
        cells, more = row(program, name, protocol, counted_count)
        lines += tell([line([*cells, *([rival_rate(protocol, RIVAL_COUNT)] if rival else [])])])
        missed += more
    verdict = [f"Wanted: at most {RATIO_MOST} times the instructions at 2n.", *([f"Not met: {it}." for it in missed] or ["All met."])]
    return [PROSE, "", *lines, *tell(["", *[f"{it}  " for it in verdict]])]
