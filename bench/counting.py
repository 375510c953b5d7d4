"""Counts and times of one run of a program, and how they are shown."""

import os
import re
import subprocess
import sys
import time

HERE = os.path.dirname(os.path.abspath(__file__))
DATA = os.path.join(HERE, "data")


def ran(words, path, **how):
    with open(path, "rb") as stdin:
        return subprocess.run(words, stdin=stdin, **how)


def instructions(words, path, cwd=None):
    """How many instructions the program takes on this file."""
    with open(path, "rb") as stdin:
        return instructions_on(words, stdin, cwd)


def instructions_on(words, stdin, cwd=None):
    """The same for an open file, or anything else that has a descriptor."""
    out = os.path.join(DATA, "callgrind.out")
    tool = ["valgrind", "--tool=callgrind", f"--callgrind-out-file={out}", *words]
    said = subprocess.run(tool, stdin=stdin, cwd=cwd, stdout=subprocess.DEVNULL, stderr=subprocess.PIPE)
    count = collected(said.returncode, said.stderr)
    os.remove(out)
    return count


def instructions_while(words, work, cwd=None):
    """How many a program takes that serves while this work is done, and then ends."""
    out, log = os.path.join(DATA, "callgrind.out"), os.path.join(DATA, "callgrind.log")
    tool = ["valgrind", "--tool=callgrind", f"--callgrind-out-file={out}", f"--log-file={log}", *words]
    with subprocess.Popen(tool, stdin=subprocess.DEVNULL, cwd=cwd, stdout=subprocess.DEVNULL, stderr=subprocess.PIPE) as run:
        # it tells where it listens
        run.stderr.readline()
        work()
        said = run.stderr.read()
    with open(log, "rb") as file:
        said += file.read()
    count = collected(run.returncode, said)
    os.remove(log)
    os.remove(out)
    return count


def collected(status, said):
    """The count that callgrind tells."""
    found = re.search(rb"Collected : (\d+)", said)
    if status or not found:
        sys.exit(f"callgrind ended with status {status}: {said.decode(errors='replace')[-600:]}")
    return int(found[1])


def best_of(times, take):
    """The least of some takes, or None where one of them is None."""
    found = [take() for _ in range(times)]
    return None if None in found else min(found)


def seconds(words, path, times=3, limit=None, cwd=None):
    """Wall clock, the best of some runs; None where the limit is passed."""

    def take():
        begun = time.perf_counter()
        try:
            status = ran(words, path, cwd=cwd, stdout=subprocess.DEVNULL, timeout=limit).returncode
        except subprocess.TimeoutExpired:
            return None
        took = time.perf_counter() - begun
        if status:
            sys.exit(f"{words} ended with status {status} on {path}")
        return took

    return best_of(times, take)


def peak(words, path, cwd=None):
    """The greatest resident set in octets."""
    said = ran(["/usr/bin/time", "-f", "%M", *words], path, cwd=cwd, stdout=subprocess.DEVNULL, stderr=subprocess.PIPE)
    return int(said.stderr.split()[-1]) * 1024


def milliseconds(took):
    return f"{took * 1000:,.0f} ms"


def mebibytes(octets):
    return f"{octets / (1 << 20):.1f} MiB"


def line(cells):
    return "| " + " | ".join(cells) + " |"


def heading(cells):
    """The two lines that begin a table; all columns but the first hold numbers."""
    return [line(cells), line(["---"] + ["---:"] * (len(cells) - 1))]
