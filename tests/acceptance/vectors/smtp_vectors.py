"""Sessions of SMTP that an independent reference wrote, in the form that pop_vectors.py tells. One of the files is older than version 2 of the
journal (version_1.py).

A case fixes the clock, which the program can't do: the dates that it writes have to be those of its run, and are replaced by the
clock's (moments.py) before the journals are compared. Some cases fix a smaller limit of a message than the program has. They are
held to the oracle with that limit, and the program to the oracle with its own. Where the oracle can't tell the form of a domain
or of a name, the vector alone is asked, and none where it has another limit."""

from oracle.smtp_oracle import certain_outcome
from support.harness import in_lanes
from support.moments import Moments
from support.talk import SMTP, all_cuts, joined
from vectors.pop_vectors import cases_in, oracle_faults, wanted_of

FILES = ["smtp.txt", "smtp-2.txt"]
MESSAGE_MAX = 33_554_432


def by_oracle(journal, octets, seconds, message_max):
    """Status, octets and journal, and what is due, as the oracle has it, or None where it is uncertain."""
    told = certain_outcome(journal, octets, seconds, message_max)
    return told and ((told[0], joined(told[1]), told[2]), told[1])


def one_case(program, case):
    """Whose answer stands, `both`, `vector`, `oracle` or `none`, and what is wrong."""
    journal, octets, seconds = bytes.fromhex(case["journal"]), bytes.fromhex(case["in"]), int(case["clock"])
    limit, wanted = int(case["message_max"]), wanted_of(case)
    told = by_oracle(journal, octets, seconds, limit)
    stands, faults = ("both", oracle_faults(told, wanted)) if told else ("vector", [])
    if limit != MESSAGE_MAX:
        wanted = by_oracle(journal, octets, seconds, MESSAGE_MAX)
        stands = "oracle" if wanted else "none"
    if not wanted:
        return stands, faults
    sizes = [int(size) for size in case["cuts"].split()]
    return stands, faults + all_cuts(program, journal, octets, *wanted, sizes, SMTP, Moments(journal, seconds).seen)


def check(program, tally, folder):
    cases = [(name, case) for name in FILES for case in cases_in(folder, name)]
    answers = in_lanes(lambda it: one_case(program, it[1]), cases)
    for (name, case), (_, faults) in zip(cases, answers):
        tally.note(f"{name}, vector {case['case']}", faults)
    stands = [it for it, _ in answers]
    print(f"vectors of SMTP: {len(cases) - stands.count('none')} of {len(cases)} were run, each whole, as it is cut, and command by command")
    print(f"vectors of SMTP: {stands.count('oracle')} have a limit of their own, and the program was held to the oracle with its limit")
    print(f"vectors of SMTP: {stands.count('vector')} have a domain or a name that the oracle can't tell, and the vector alone was asked")
