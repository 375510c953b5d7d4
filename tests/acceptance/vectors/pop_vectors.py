"""Sessions and hostile journals that an independent reference wrote.

A file has cases, with an empty line behind each; a line is a word and its value, octets in hexadecimal. `message_max` isn't
looked at, nor are the `limits` of the cache and what it holds behind the session: no reply of POP3 depends on them.

Three of the files are older than the reading of all records, and two of them than the rewriting of all fields and than trees of
entities: they say of a journal with such a record or message that it isn't built (status 10). There a name was that of an account
in the same octets alone. What such a case says of status, replies and journal is replaced by what our oracle says today
(pop_oracle.py); its journal, its input and its cuts stay.

Those before pop-q.txt are older than Q words. A case with a message whose surrogate has such words is left out of them. The last two have
version 2 of the journal; the others are older, and version_1.py says what is wanted of them today. Where a journal was bad in them that isn't so
today, the oracle is asked instead.

A command that came later is answered there as an unknown one, which the oracle's answer replaces too. Where the oracle can't tell
the form of a domain or of a name, the case alone is held to the answer."""

import os

from oracle.pop_oracle import certain_outcome
from support.harness import differs, in_lanes
from support.talk import all_cuts, answer_faults, joined
from vectors.older_words import has_older_words
from vectors.version_1 import SINCE_VERSION_2, is_refused_no_more, today

OLDER = ["pop-first.txt", "journal-first.txt", "pop-trees.txt"]
SINCE_Q_WORDS = ["pop-q.txt", "journal-2.txt", "pop-2.txt"]
FILES = [*OLDER, "journal.txt", "pop.txt", "pop-cache.txt", *SINCE_Q_WORDS]
NOT_BUILT = 10
LATER = {b"CAPA", b"UIDL", b"TOP", b"DELE", b"RSET", b"NOOP"}


def cases_of(path):
    """The cases of a file: each has its values by word, and a list of those that are due."""
    with open(path, encoding="ascii") as file:
        for text in file.read().split("\n\n"):
            lines = [line.partition(" ") for line in text.splitlines() if line]
            if lines:
                yield {"due": [value for word, _, value in lines if word == "due"], **{word: value for word, _, value in lines if word != "due"}}


def cases_in(folder, name):
    """The cases of a file of the folder, if it is there, with what is wanted of them today."""
    path = os.path.join(folder, name)
    cases = list(cases_of(path)) if os.path.exists(path) else []
    return cases if name in SINCE_VERSION_2 else list(map(today, cases))


def due_of(case):
    """Replies with the count of octets behind which each is due; those of one command are joined."""
    due = []
    for line in case["due"]:
        count, _, octets = line.partition(" ")
        if due and due[-1][0] == int(count):
            octets = due.pop()[1].hex() + octets
        due.append((int(count), bytes.fromhex(octets)))
    return due


def commands(case):
    """The keyword, in capitals, and the argument of each line."""
    lines = [line.partition(b" ") for line in bytes.fromhex(case["in"]).split(b"\r\n")[:-1]]
    return [(keyword.upper(), argument) for keyword, _, argument in lines]


def is_older(file, case):
    """Whether a case says what isn't so today: its journal isn't bad, or nothing was built, a name has capitals, or a command came later."""
    if file not in SINCE_VERSION_2 and is_refused_no_more(case):
        return True
    if file not in OLDER:
        return False
    lines = commands(case)
    return int(case["status"]) == NOT_BUILT or any(keyword in LATER or keyword == b"USER" and name != name.lower() for keyword, name in lines)


def wanted_of(case):
    """Status, octets and journal, and what is due."""
    wanted = int(case["status"]), bytes.fromhex(case["out"]), bytes.fromhex(case["after"])
    # where the journal isn't opened, the line is due before any input
    return wanted, due_of(case) or [(0, wanted[1])]


def by_oracle(journal, octets):
    """The same as the oracle has it, or None where it is uncertain."""
    told = certain_outcome(journal, octets)
    return told and ((told[0], joined(told[1]), told[2]), told[1])


def oracle_faults(told, wanted):
    faults = [f"oracle: {fault}" for fault in answer_faults(told[0], wanted[0])]
    return faults + differs("what is due, as the oracle has it", told[1], wanted[1])


def one_case(program, name, case):
    """Whose answer stands, `both`, `vector` or `oracle`, and what is wrong; `none` where neither can be asked."""
    journal, octets = bytes.fromhex(case["journal"]), bytes.fromhex(case["in"])
    wanted, told, stands, faults = wanted_of(case), by_oracle(journal, octets), "both", []
    if is_older(name, case) and told != wanted:
        wanted, stands = told, "oracle" if told else "none"
    elif told is None:
        stands = "vector"
    else:
        faults = oracle_faults(told, wanted)
    sizes = [int(size) for size in case["cuts"].split()]
    return stands, faults + (all_cuts(program, journal, octets, *wanted, sizes) if wanted else [])


def check(program, tally, folder):
    cases = [(name, case) for name in FILES for case in cases_in(folder, name) if case["words"] == "pop"]
    sessions = [(name, case) for name, case in cases if name in SINCE_Q_WORDS or not has_older_words(case)]
    answers = in_lanes(lambda it: one_case(program, *it), sessions)
    for (name, case), (_, faults) in zip(sessions, answers):
        tally.note(f"{name}, vector {case['case']}", faults)
    stands = [it for it, _ in answers]
    print(f"vectors of POP3: {len(sessions)} of {len(cases)} were run, each whole, as it is cut, and command by command")
    print(f"vectors of POP3: {stands.count('oracle')} are older than what is built, and say what the oracle doesn't; that was asked instead")
    print(f"vectors of POP3: {stands.count('vector')} have a domain or a name that the oracle can't tell, and the vector alone was asked")
    print(f"vectors of POP3: {stands.count('none')} of the older ones have such a one, and were left out")
