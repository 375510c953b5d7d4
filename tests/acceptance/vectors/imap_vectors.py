"""Sessions of IMAP that an independent reference wrote, in the form that pop_vectors.py tells.

One of the files is older than views, sections and APPEND: they were answered `NO not built` there. A case with a command that was
answered so is left out; the other files have the same kinds of sessions as they are today. Those before imap-q.txt are older than Q
words: a case with a message whose surrogate has such words is left out of them. Those before imap-2.txt are older than version 2 of the journal
(version_1.py).

A case fixes the clock, which the program can't do: the dates of its run are replaced by the clock's (moments.py) in the journal and in
replies. Some cases fix a smaller limit of a message than the program has. Where one of them is told that a message is too large, it is
left out."""

from support.harness import in_lanes
from support.moments import IN_RECORD, Moments
from support.talk import IMAP, all_cuts
from vectors.older_words import has_older_words
from vectors.pop_vectors import cases_in, wanted_of
from vectors.smtp_vectors import MESSAGE_MAX

OLDER = "imap-first.txt"
SINCE_Q_WORDS = ["imap-q.txt", "imap-2.txt"]
FILES = [OLDER, "imap.txt", "imap-full.txt", "imap-cache.txt", *SINCE_Q_WORDS]
TOO_LARGE, NOT_BUILT = b" NO too large\r\n", b" NO not built\r\n"


def has_other_limit(case):
    """Whether a case tells of a limit that the program doesn't have."""
    return int(case["message_max"]) != MESSAGE_MAX and TOO_LARGE in bytes.fromhex(case["out"])


def is_older(name, case):
    """Whether a case has another answer today."""
    return (name == OLDER and NOT_BUILT in bytes.fromhex(case["out"])) or (name not in SINCE_Q_WORDS and has_older_words(case))


def faults_of(program, case):
    journal, sizes = bytes.fromhex(case["journal"]), [int(size) for size in case["cuts"].split()]
    moments = Moments(journal, int(case["clock"]), (IN_RECORD,))
    return all_cuts(program, journal, bytes.fromhex(case["in"]), *wanted_of(case), sizes, IMAP, moments.seen, moments.shown)


def check_file(program, tally, folder, name):
    cases = cases_in(folder, name)
    sessions = [case for case in cases if not is_older(name, case) and not has_other_limit(case)]
    for case, faults in zip(sessions, in_lanes(lambda case: faults_of(program, case), sessions)):
        tally.note(f"{name}, vector {case['case']}", faults)
    older, limited = (sum(map(is_left, cases)) for is_left in (lambda case: is_older(name, case), has_other_limit))
    print(f"vectors of IMAP: {len(sessions)} of {len(cases)} of {name} were run, each whole, as it is cut, and command by command")
    print(f"vectors of IMAP: {older} of {name} were left out because an answer is older than what is built, {limited} because a limit is another one")


def check(program, tally, folder):
    for name in FILES:
        check_file(program, tally, folder, name)
