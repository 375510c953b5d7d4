"""A program of `serve`, while a block runs."""

import os
import re
import subprocess
import tempfile

from listening import free_port
from support.harness import SECONDS, differs

ENDLESS = 1_000_000
READY = re.compile(r"dervlask: [a-z]+ on 127\.0\.0\.1, port [0-9]+")


class Service:
    """It listens at `port`. Once the block has ended, `status` is what it ended with, None where it was still serving and was stopped, and
    `given` and `said` are what it wrote to standard output and, behind the line that tells where it listens, to standard error."""

    def __init__(self, program, folder, word="pop", connections=ENDLESS, preexec=None):
        self.port = free_port()
        self.words = [os.path.abspath(program), "serve", word, str(self.port), str(connections)]
        self.how = {"stdin": subprocess.DEVNULL, "cwd": folder, "preexec_fn": preexec}

    def __enter__(self):
        self.output, self.errors = tempfile.TemporaryFile(), tempfile.NamedTemporaryFile()
        self.running = subprocess.Popen(self.words, stdout=self.output, stderr=self.errors, **self.how)
        self.wait_for(1)
        return self

    def lines(self):
        """The whole lines that it said so far."""
        with open(self.errors.name, encoding="utf-8") as file:
            return file.read().split("\n")[:-1]

    def wait_for(self, count):
        """What it said, once it has so many lines, or has ended, or it took too long."""
        for _ in range(SECONDS * 100):
            if len(self.lines()) >= count or self.running.poll() is not None:
                break
            try:
                self.running.wait(0.01)
            except subprocess.TimeoutExpired:
                pass
        return self.lines()

    def end(self, seconds=SECONDS):
        """The status, once it has ended by itself, or what is to be said of one that hasn't."""
        try:
            return self.running.wait(seconds)
        except subprocess.TimeoutExpired:
            return f"still serving after {seconds} s"

    def __exit__(self, *_):
        self.status = self.running.poll()
        if self.status is None:
            self.running.kill()
            self.running.wait()
        self.output.seek(0)
        self.given = self.output.read()
        ready, *self.said = self.lines() or ["nothing"]
        self.unready = [] if READY.fullmatch(ready) else [f"it began with {ready!r} on standard error"]
        self.output.close()
        self.errors.close()

    def faults(self, status=None, given=b"", said=()):
        """What is wrong with how it ended, and with what it wrote."""
        faults = self.unready + differs("status of serve", self.status, status) + differs("standard output", self.given, given)
        return faults + differs("standard error", self.said, list(said))
