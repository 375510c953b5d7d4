"""A program of `serve`, while a block runs."""

import subprocess

import paths
from listening import free_port


def words_of(program, word, port, count):
    return [program, "serve", word, str(port), str(count)]


class Serve:
    """Serves the journal of a folder on `port`."""

    def __init__(self, program, folder, word):
        self.port = free_port()
        self.words, self.folder = words_of(program, word, self.port, 1_000_000), folder

    def __enter__(self):
        self.running = subprocess.Popen(self.words, cwd=self.folder, stdin=subprocess.DEVNULL, stderr=subprocess.PIPE)
        # it tells where it listens
        self.running.stderr.readline()
        return self

    def __exit__(self, *_):
        self.running.kill()
        self.running.wait()
        self.running.stderr.close()
