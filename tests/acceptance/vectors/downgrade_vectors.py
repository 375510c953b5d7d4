"""Vectors that an independent reference wrote: fields with their made fields, and messages with their surrogates and what `check`
tells of them. Where a domain is one of which the oracle can't tell the A-label form, the vector alone is held to the answer."""

import json
import os

from oracle.addresses import Uncertain
from oracle.downgrade_oracle import outcome
from support.harness import differs, in_lanes

# What stands before a field, so that its entity is an opened message/global or isn't opened, and what that gives.
GLOBAL = b"Content-Type: message/global\r\n", b"Content-Type: message/rfc822\r\n"
CLOSED = (b"Content-Transfer-Encoding: base64\r\n",) * 2


def lines_of(path):
    with open(path, encoding="utf-8") as file:
        return [json.loads(line) for line in file]


DOWNGRADE, CHECK = [b"downgrade"], [b"check"]


def fields(folder):
    """Messages of two fields, the second of every kind."""
    for number, vector in enumerate(lines_of(os.path.join(folder, "fields-q.jsonl"))):
        before, made_before = GLOBAL if vector["global"] else CLOSED
        raw, made = vector["raw"].encode(), vector["made"].encode()
        yield f"fields-q.jsonl, line {number + 1}", DOWNGRADE, before + raw + b"\r\n", (0, made_before + made + b"\r\n")


def messages(folder):
    """Whole messages, by both commands."""
    for number, vector in enumerate(lines_of(os.path.join(folder, "messages-q.jsonl"))):
        octets, answers = bytes.fromhex(vector["message"]), (bytes.fromhex(vector["downgrade"]), vector["check"].encode())
        for words, answer in zip((DOWNGRADE, CHECK), answers):
            yield f"messages-q.jsonl, line {number + 1}, {words[0].decode()}", words, octets, (vector["status"], answer)


def by_oracle(words, octets):
    """The answer that the oracle has, or None where it is uncertain."""
    try:
        return outcome(words, octets)
    except Uncertain:
        return None


def check(program, tally, folder):
    def one(case):
        """Whether the oracle could tell, and what is wrong."""
        _, words, octets, wanted = case
        answer, told = program.run(words, octets), by_oracle(words, octets)
        faults = differs("answer, as the oracle has it", answer, told) if told else []
        return told is not None, faults + differs("answer", answer, wanted)

    for name, cases in (("fields-q.jsonl", list(fields(folder))), ("messages-q.jsonl", list(messages(folder)))):
        answers = in_lanes(one, cases)
        for case, (_, faults) in zip(cases, answers):
            tally.note(case[0], [*faults, f"message: {case[2]!r}"] if faults else [])
        uncertain = sum(not is_told for is_told, _ in answers)
        print(f"vectors: {len(cases)} runs on {name}")
        print(f"vectors: {uncertain} of these have a domain of which the oracle tells no A-label form, and the vector alone was asked")
