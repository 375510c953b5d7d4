"""Runs the program on files, and counts what passed."""

import concurrent.futures
import os
import re
import subprocess
import tempfile

SECONDS = 120

# the statuses of a program that something outside of it failed: it says what, in one line on standard error
FAILURES = (1, 2, 3)
# the status of words that no command has, and the hint that follows it on standard error
REFUSED, HINT = 4, b"dervlask: try 'dervlask help'\n"
# the status of `relay` where something is left: it says what failed if the connection did
LEFT = 8
TOLD = re.compile(rb"dervlask: [!-~][ -~]*\n")
# what is said besides, with any status, where a journal was cut
CUT = re.compile(rb"dervlask: mail\.journal: cut (?:1 octet that was no whole record; it is|[0-9]+ octets that were no whole record; they are) in mail\.journal\.cut\n")


def show(octets):
    """Octets for a message to a reader, not too many."""
    text = repr(bytes(octets))[2:-1]
    return text if len(text) <= 400 else f"{text[:200]} .. {text[-180:]} ({len(octets)} octets)"


class Tally:
    """What passed and what failed, by name."""

    def __init__(self):
        self.passed = 0
        self.failed = 0

    def note(self, name, faults):
        """Counts one check: it passed where there is no fault."""
        if not faults:
            self.passed += 1
            return
        self.failed += 1
        print(f"FAILED: {name}")
        for fault in faults[:6]:
            print(f"    {fault}")


class Program:
    """The built program. Its standard input is a file, as in daily use."""

    def __init__(self, path):
        self.path = os.path.abspath(path)
        self.folder = tempfile.TemporaryDirectory(prefix="dervlask-acceptance-")
        # seconds that a reply which is due may take
        self.patience = 20
        # rounds of the programs that run at once on one journal
        self.rounds = 10
        # random cases of each kind, and which ones
        self.cases, self.seed = 300, 0
        # runs, and what is wrong with what they said on standard error
        self.runs, self.misspoken = 0, []

    def run(self, words, octets, **how):
        """Exit status and what was written, for these words and this standard input."""
        with tempfile.NamedTemporaryFile(dir=self.folder.name) as file:
            file.write(octets)
            file.flush()
            with open(file.name, "rb") as stdin:
                return self.run_on(words, stdin, **how)

    def run_on(self, words, stdin, stdout=subprocess.PIPE, preexec=None, cwd=None):
        how = {"stdin": stdin, "stdout": stdout, "stderr": subprocess.PIPE, "cwd": cwd or self.folder.name}
        ran = subprocess.run([self.path, *words], timeout=SECONDS, preexec_fn=preexec, **how)
        self.runs += 1
        self.misspoken += error_faults(ran.returncode, ran.stderr, words)
        return ran.returncode, ran.stdout or b""

    def downgrade(self, octets):
        return self.run([b"downgrade"], octets)


def error_faults(status, said, words):
    """What is wrong with what a run said on standard error: one line where something outside failed, the hint where no command has the
    words, and else nothing, but for what was cut."""
    said = CUT.sub(b"", said, count=1)
    is_told = TOLD.fullmatch(said)
    if status == REFUSED:
        is_right = said == HINT
    elif status in FAILURES:
        is_right = is_told
    else:
        is_right = not said or is_told and status == LEFT
    if is_right:
        return []
    return [f"{words} ended with status {status} and said {show(said)!r} on standard error"]


def differs(what, found, wanted):
    """The fault that two values differ, or none."""
    if found == wanted:
        return []
    if isinstance(found, bytes) and isinstance(wanted, bytes):
        return [f"{what}: found  {show(found)}", f"{what}: wanted {show(wanted)}"]
    return [f"{what}: found {found!r}, wanted {wanted!r}"]


def in_lanes(check, cases):
    """Answers of the check for each case, in order; several cases run at a time."""
    with concurrent.futures.ThreadPoolExecutor(os.cpu_count() or 1) as pool:
        return list(pool.map(check, cases))
