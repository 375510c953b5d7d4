"""Postfix in a folder of its own, and its smtp-sink, which throws mail away: next servers of `dervlask relay`, and rivals of the program."""

import os
import shutil
import subprocess

from listening import NotStarted, free_port, wait_for

PATH = os.pathsep.join([os.environ.get("PATH", os.defpath), "/usr/sbin"])

# mail of all domains is taken into the queue
MAIN = """
compatibility_level = 3.6
queue_directory = {folder}/queue
data_directory = {folder}/data
maillog_file = {folder}/log
maillog_file_prefixes = {folder}
inet_interfaces = 127.0.0.1
inet_protocols = ipv4
myhostname = mail.example.org
mydestination = example.org
local_recipient_maps =
alias_maps =
smtputf8_enable = yes
"""

# it is thrown away from there
DISCARDS = """
local_transport = discard:
"""

SERVICES = """
127.0.0.1:{port} inet n - n - - smtpd
pickup unix n - n 60 1 pickup
cleanup unix n - n - 0 cleanup
qmgr unix n - n 300 1 qmgr
rewrite unix - - n - - trivial-rewrite
bounce unix - - n - 0 bounce
defer unix - - n - 0 bounce
trace unix - - n - 0 bounce
proxymap unix - - n - - proxymap
smtp unix - - n - - smtp
relay unix - - n - - smtp
scache unix - - n - 1 scache
discard unix - - n - - discard
error unix - - n - - error
retry unix - - n - - error
anvil unix - - n - 1 anvil
postlog unix-dgram n - n - 1 postlogd
"""


def found(name):
    return shutil.which(name, path=PATH)


def is_installed():
    return found("smtp-sink") is not None


def can_serve():
    """Postfix starts for root alone."""
    return is_installed() and os.geteuid() == 0


def version():
    said = subprocess.run([found("postconf"), "-d", "-h", "mail_version"], stdout=subprocess.PIPE, text=True)
    return "Postfix " + said.stdout.strip()


class Sink:
    """Takes mail on `port` while its block runs, or until it has so many messages."""

    def __init__(self, most=None):
        self.port, self.most = free_port(), most

    def __enter__(self):
        user = ["-u", "nobody"] if os.geteuid() == 0 else []
        most = ["-M", str(self.most)] if self.most else []
        words = [found("smtp-sink"), *user, *most, f"127.0.0.1:{self.port}", "64"]
        self.running = subprocess.Popen(words, stdout=subprocess.DEVNULL, stderr=subprocess.DEVNULL)
        wait_for(self.port)
        return self

    def __exit__(self, *_):
        self.running.terminate()
        self.running.wait(timeout=30)


class Postfix:
    """The same, with these lines of settings beside the usual ones."""

    def __init__(self, folder, settings=DISCARDS):
        self.folder, self.port = folder, free_port()
        # its parts run as a user of their own
        os.chmod(folder, 0o755)
        self.settings = os.path.join(folder, "settings")
        for part in ("settings", "queue", "data"):
            os.mkdir(os.path.join(folder, part))
        shutil.chown(os.path.join(folder, "data"), "postfix")
        for name, text in (("main.cf", MAIN + settings), ("master.cf", SERVICES)):
            with open(os.path.join(self.settings, name), "w", encoding="utf-8") as file:
                file.write(text.format(folder=folder, port=self.port))

    def ran(self, name, *words):
        """What one of its commands says where it fails."""
        ran = subprocess.run([found(name), "-c", self.settings, *words], stdout=subprocess.PIPE, stderr=subprocess.STDOUT, text=True)
        return ran.stdout.strip() if ran.returncode else ""

    def __enter__(self):
        said = self.ran("postfix", "start")
        if said:
            raise NotStarted(f"Postfix didn't start: {said}")
        wait_for(self.port)
        return self

    def __exit__(self, *_):
        self.ran("postfix", "stop")
