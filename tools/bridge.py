"""Serves `dervlask pop`, `imap` or `smtp` over TCP on 127.0.0.1, for tests, measurements and trying things by hand.

Each connection gets a program of its own at once, which runs in the folder where the journal lies, with the socket as its standard
input and output. A program has its journal's lock until it ends, so these sessions work one after the other: a client that comes
while another one is served is greeted once that session has ended. Programs that have ended are reaped. There is no TLS and no limit."""

import argparse
import os
import subprocess
import sys
import threading

from listening import Listening

WORDS = ("pop", "imap", "smtp")
PATIENCE = 60


class Bridge(Listening):
    """Once the block has ended, `statuses` has each status that a program ended with."""

    def __init__(self, program, folder, port=0, word="pop"):
        super().__init__(port)
        self.words = [os.path.abspath(program), word]
        self.folder = folder
        self.statuses = set()
        # the programs that run, each with the thread that waits for its end
        self.running = {}

    def start(self, connection):
        try:
            run = subprocess.Popen(self.words, stdin=connection, stdout=connection, cwd=self.folder)
        except OSError as error:
            print(f"{self.words[0]} wasn't started: {error.strerror}", file=sys.stderr, flush=True)
            self.statuses.add("not started")
            return
        self.running[run] = threading.Thread(target=self.reap, args=(run,), daemon=True)
        self.running[run].start()

    def reap(self, run):
        self.statuses.add(run.wait())
        del self.running[run]

    def __exit__(self, *_):
        super().__exit__()
        for run, waiting in list(self.running.items()):
            waiting.join(PATIENCE)
            if waiting.is_alive():
                run.kill()
                waiting.join()


def read_words(arguments):
    parser = argparse.ArgumentParser(prog="bridge.py", description=__doc__, formatter_class=argparse.RawDescriptionHelpFormatter)
    parser.add_argument("program", metavar="PROGRAM", help="the program, as bin/dervlask")
    parser.add_argument("folder", metavar="FOLDER", help="where mail.journal lies, or is made")
    parser.add_argument("port", metavar="PORT", nargs="?", type=int, default=0, help="any that is free, where none is given")
    parser.add_argument("word", metavar="WORD", nargs="?", choices=WORDS, default="pop", help="pop, which it is where none is given, imap or smtp")
    return parser.parse_args(arguments)


def refused(why):
    print(f"bridge.py: {why}", file=sys.stderr)
    return 2


def main(arguments):
    words = read_words(arguments)
    if not os.path.isdir(words.folder):
        return refused(f"there is no folder {words.folder}")
    if not os.access(words.program, os.X_OK) or os.path.isdir(words.program):
        return refused(f"there is no program {words.program}")
    try:
        bridge = Bridge(words.program, words.folder, words.port, words.word)
    except (OSError, OverflowError) as error:
        return refused(f"port {words.port}: {getattr(error, 'strerror', None) or error}")
    print(f"{words.word} on 127.0.0.1, port {bridge.port}", flush=True)
    try:
        bridge.serve()
    except KeyboardInterrupt:
        pass
    return 0


if __name__ == "__main__":
    sys.exit(main(sys.argv[1:]))
