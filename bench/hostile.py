#!/usr/bin/env python3
"""Measures `dervlask check` on header fields that are hard for one part of it each: `bench/hostile.py [--write] [--mebibytes N] PROGRAM`.

Each field repeats one unit until it has so many octets. Memory is read at n and at 2n, by default 1 and 2 MiB, and
instructions are counted of shorter fields of the same shape, since callgrind is slow. With --write the table goes into docs/PERFORMANCE.md too."""

import argparse
import os
import sys
import tempfile

sys.dont_write_bytecode = True

import paths
from counting import DATA, heading, instructions, line, milliseconds, peak, seconds
from mailboxes import RATIO_MOST, tell
from page import Part

PART = Part("PERFORMANCE.md", "bench/hostile.py --write", "hostile fields")

MIB = 1 << 20
MEBIBYTES = 1
# instructions are counted of a field of so many octets, and of one of twice as many
COUNTED = MIB // 8

MEMORY_MOST = 16
PER_OCTET_MOST = 1_000
DEEP = 64

DISPOSITION, TYPE = "Content-Disposition: a", "Content-Type: text/plain"
OPAQUE = "=?ISO-8859-1?Q?=E9?="
# side by side: comments that are so deep, and the same with text at each level
NESTED = "(" * DEEP + "é" + ")" * DEEP
TEXT = "(the quick brown fox " * DEEP + "é" + " jumps over the dog)" * DEEP
DATE = "Date: Thu, 01 Jan 1970 00:00:00 +0000 "
STAMP = "; Thu, 01 Jan 1970 00:00:00 +0000"


def parameters(head):
    """Fields with parameters behind this."""
    return [
        (f"`{head};x=é;a=b;a=b..`", f"{head};x=é", ";a=b", ""),
        (f"`{head};a=é;a=é..`", head, ";a=é", ""),
        (f"`{head};x=é(x);a=b(x);a=b(x)..`", f"{head};x=é(x)", ";a=b(x)", ""),
        (f"`{head};x=é;a0=b;a1=b..`", f"{head};x=é", ";a{}=b", ""),
        (f"`{head};x=é;a*0=b;a*1=b..`", f"{head};x=é", ";a*{}=b", ""),
        (f"`{head};x=é;a=[?[?..`", f"{head};x=é;a=", "[?", ""),
        (f"`{head};x=é;a=\"((..\"`", f"{head};x=é;a=\"", "(", "\""),
    ]


# how it is shown, what it begins with, what is repeated ({} is the number), and what it ends with
FIELDS = [
    *parameters(DISPOSITION),
    *parameters(TYPE),
    ("`To: é: a@b,a@b..;`", "To: é: a@b", ",a@b", ";"),
    ("`To: é:;,é:;..`", "To: é:;", ",é:;", ""),
    ("`To: é@a,,,,..`", "To: é@a", ",", ""),
    ("`To: é@a,a,a,a..`", "To: é@a", ",a", ""),
    ("`To: \"é\" \"é\".. <a@b>`", "To: \"é\"", " \"é\"", " <a@b>"),
    ("`To: (é)(é).. a@b`", "To: (é)", "(é)", " a@b"),
    ("`To: é@[a[a..]`", "To: é@[", "a\\[", "]"),
    ("`From: é a a.. <x@y>`", "From: é", " a", " <x@y>"),
    ("`From: é <a.a.a..@x>`", "From: é <a", ".a", "@x>"),
    ("`From: é <a@x.x.x..>`", "From: é <a@x", ".x", ">"),
    ("`From: é <@a,@a..:a@x>`", "From: é <@a", ",@a", ":a@x>"),
    ("`Return-Path: <a.a.a..@x>(é)`", "Return-Path: <a", ".a", "@x>(é)"),
    ("`Keywords: é,é..`", "Keywords: é", ",é", ""),
    ("`Keywords: é,a,a..`", "Keywords: é", ",a", ""),
    ("`References: <é@x><é@x>..`", "References: <é@x>", "<é@x>", ""),
    ("`Date: (é)(é)..`", DATE + "(é)", "(é)", ""),
    (f"`Date:` and comments {DEEP} deep", DATE, NESTED, ""),
    (f"`Date:` and comments {DEEP} deep with text", DATE, TEXT, ""),
    (f"`To:` and comments {DEEP} deep", "To: ", NESTED, " a@b"),
    ("`Received: from é (x) by a (x) by a..`", "Received: from é (x)", " by a (x)", STAMP),
    ("`Received: from é a a a..`", "Received: from é", " a", STAMP),
    ("`Received: from é by a.a.a..`", "Received: from é by a", ".a", STAMP),
    ("`Subject: é é..`", "Subject: é", " é", ""),
    ("`Subject: é a a..`", "Subject: é", " a", ""),
    (f"`Subject: é {OPAQUE} {OPAQUE}..`", "Subject: é", " " + OPAQUE, ""),
    (f"`Date: (é {OPAQUE} {OPAQUE}..)`", DATE + "(é", " " + OPAQUE, ")"),
    ("`Subject: é a a..`, folded", "Subject: é", "\r\n a", ""),
    ("`To: é@a,a@b,a@b..`, folded", "To: é@a", ",\r\n a@b", ""),
    ("`To: é@a` and spaces, folded", "To: é@a", "\r\n ", " b"),
    ("`Keywords: é,é..`, folded", "Keywords: é", ",\r\n é", ""),
    (f"`{DISPOSITION};x=é;a=b;a=b..`, folded", f"{DISPOSITION};x=é", ";\r\n a=b", ""),
    ("`Received: from é by a..`, folded", "Received: from é", "\r\n by\r\n a", STAMP),
    ("`Date: (é)(é)..`, folded", DATE + "(é)", "\r\n (é)", ""),
]

HEAD = ["field", "octets", "memory at n", "at 2n", "time at 2n", "instructions an octet", "2n to n"]

PROSE = """
`dervlask check` on one field that has one unit again and again, at n = {octets:,} octets and at 2n. *memory*: the greatest resident set less that of a
run without octets, by the octets of the field. *instructions an octet* are those of a field of {counted:,} octets, and *2n to n* tells how many times
as many one of {twice:,} takes.
""".strip()


def units(unit, size):
    """So many octets of units, or a few more, in pieces."""
    at, is_numbered = 0, "{}" in unit
    while size > 0:
        count = 1_000 if is_numbered else min(1_000, -(-size // len(unit.encode())))
        text = "".join(unit.format(number) for number in range(at, at + count)) if is_numbered else unit * count
        yield text.encode()
        at += count
        size -= len(text.encode())


def write(path, field, size):
    """A message with this field alone in its header."""
    _, begin, unit, end = field
    with open(path, "wb") as file:
        written = file.write(begin.encode())
        for piece in units(unit, size - written - len(end.encode())):
            written += file.write(piece)
        written += file.write(end.encode() + b"\r\n")
        file.write(b"\r\nx\r\n")
    return written


class Measured:
    """The figures of one field."""

    def __init__(self, program, field, octets, idle):
        words = [program, "check"]
        with tempfile.TemporaryDirectory(dir=DATA) as folder:
            path = os.path.join(folder, "message.eml")
            self.size = write(path, field, octets)
            self.once = (peak(words, path) - idle) / self.size
            size = write(path, field, 2 * octets)
            self.twice = (peak(words, path) - idle) / size
            self.seconds = seconds(words, path, times=1)
            size = write(path, field, COUNTED)
            counted = instructions(words, path)
            self.per_octet = counted / size
            write(path, field, 2 * COUNTED)
            self.ratio = instructions(words, path) / counted

    def row(self, name):
        memory = [f"{it:.1f}" for it in (self.once, self.twice)]
        return [name, f"{self.size:,}", *memory, milliseconds(self.seconds), f"{self.per_octet:.0f}", f"{self.ratio:.2f}"]

    def missed(self, name):
        """The thresholds that aren't met."""
        memory = max(self.once, self.twice)
        found = [f"{name}: {memory:.1f} times the field in memory, more than {MEMORY_MOST}"] if memory > MEMORY_MOST else []
        if self.per_octet > PER_OCTET_MOST:
            found.append(f"{name}: {self.per_octet:.0f} instructions an octet, more than {PER_OCTET_MOST:,}")
        if self.ratio > RATIO_MOST:
            found.append(f"{name}: {self.ratio:.2f} times the instructions at 2n, more than {RATIO_MOST}")
        return found


def measure(program, mebibytes=MEBIBYTES):
    """Prints the table as it comes, and returns its lines."""
    octets = mebibytes * MIB
    lines, missed = tell(heading(HEAD)), []
    idle = peak([program, "check"], os.devnull)
    for field in FIELDS:
        measured = Measured(program, field, octets, idle)
        lines += tell([line(measured.row(field[0]))])
        missed += measured.missed(field[0])
    wanted = f"at most {MEMORY_MOST} times the field in memory, {PER_OCTET_MOST:,} instructions an octet, {RATIO_MOST} times the instructions at 2n"
    verdict = [f"Wanted: {wanted}.", *([f"Not met: {it}." for it in missed] or ["All met."])]
    end = tell(["", *[f"{it}  " for it in verdict]])
    return [PROSE.format(octets=octets, counted=COUNTED, twice=2 * COUNTED), "", *lines, *end]


def main(arguments):
    parser = argparse.ArgumentParser(description=__doc__, formatter_class=argparse.RawDescriptionHelpFormatter)
    parser.add_argument("program", metavar="PROGRAM")
    parser.add_argument("--write", action="store_true", help="write the table into the page")
    parser.add_argument("--mebibytes", metavar="N", type=int, default=MEBIBYTES, help="memory is read at N and 2N mebibytes; at most 15")
    found = parser.parse_args(arguments)
    os.makedirs(DATA, exist_ok=True)
    lines = measure(os.path.abspath(found.program), found.mebibytes)
    if found.write:
        PART.write(lines)
    return 0


if __name__ == "__main__":
    sys.exit(main(sys.argv[1:]))
