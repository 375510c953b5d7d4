"""Runs of `domain` and `account` over journals of both versions that an independent reference wrote, in the form that pop_vectors.py tells.

The words stand on one line, with one space between them. They are held to the vector and to the oracle (word_oracle.py)."""

import tempfile

from oracle.word_oracle import certain_outcome
from support.harness import in_lanes
from support.talk import answer_faults, place_journal, read_journal
from vectors.pop_vectors import cases_in

FILE = "journal-2.txt"


def faults_of(program, case):
    before, words = bytes.fromhex(case["journal"]), case["words"].encode().split(b" ")
    wanted = int(case["status"]), bytes.fromhex(case["out"]), bytes.fromhex(case["after"])
    told = certain_outcome(before, words)
    faults = [f"oracle: {fault}" for fault in answer_faults(told, wanted)] if told else []
    with tempfile.TemporaryDirectory(dir=program.folder.name) as folder:
        path = place_journal(folder, before)
        answer = program.run(words, bytes.fromhex(case["in"]), cwd=folder)
        return faults + answer_faults((*answer, read_journal(path)), wanted)


def check(program, tally, folder):
    cases = [case for case in cases_in(folder, FILE) if case["words"] != "pop"]
    for case, faults in zip(cases, in_lanes(lambda case: faults_of(program, case), cases)):
        tally.note(f"{FILE}, vector {case['case']}", faults)
    print(f"vectors of domain and account: {len(cases)} were run")
