"""The rival of `dervlask pop` and `dervlask imap`: Dovecot's servers over a maildir, without privileges, in a folder of its own."""

import getpass
import grp
import os
import pwd
import shutil
import socket
import subprocess
import time

import paths
from listening import NotStarted, free_port

PATH = os.pathsep.join([os.environ.get("PATH", os.defpath), "/usr/sbin"])

SETTINGS = """
protocols = {protocol}
listen = 127.0.0.1
base_dir = {folder}/run
state_dir = {folder}/state
log_path = {folder}/log
ssl = no
disable_plaintext_auth = no
default_internal_user = {user}
default_internal_group = {group}
default_login_user = {user}
mail_location = maildir:{folder}/mail
first_valid_uid = 1
passdb {{
  driver = static
  args = password={password}
}}
userdb {{
  driver = static
  args = uid={user} gid={group} home={folder}
}}
service anvil {{
  chroot =
}}
service {protocol}-login {{
  chroot =
  inet_listener {protocol} {{
    port = {port}
  }}
}}
"""


# Dovecot's names of the protocols, and the programs of its packages that serve them
PROTOCOLS = {"pop": "pop3", "imap": "imap"}
PROGRAMS = "/usr/lib/dovecot"


def is_installed(word):
    """Whether it is there with the server of the protocol of this word."""
    return shutil.which("dovecot", path=PATH) is not None and os.path.exists(os.path.join(PROGRAMS, PROTOCOLS[word]))


def version():
    said = subprocess.run([shutil.which("dovecot", path=PATH), "--version"], stdout=subprocess.PIPE, text=True)
    return "Dovecot " + said.stdout.split()[0]


# the second of the first delivery, and microseconds from one to the next
BEGUN, APART = 1_700_000_000, 61_000_037


def name_of(number, size, wire_size):
    """The name of a file that Dovecot's delivery left, once it was seen: second, microsecond, process, host, and the sizes with LF and with CRLF."""
    second, microsecond = divmod(number * APART, 1_000_000)
    return f"{BEGUN + second}.M{microsecond}P4711.mail,S={size},W={wire_size}:2,S"


def write_maildir(folder, messages):
    """The messages as they lie there some time after Dovecot's own delivery, with LF line ends."""
    for part in ("new", "tmp", "cur"):
        os.makedirs(os.path.join(folder, part))
    current = os.path.join(folder, "cur")
    for number, octets in enumerate(messages):
        lines = octets.replace(b"\r\n", b"\n")
        with open(os.path.join(current, name_of(number, len(lines), len(octets))), "wb") as file:
            file.write(lines)
    # Dovecot reads a folder anew in each session as long as it changed in the last two seconds
    os.utime(current, (BEGUN, BEGUN))


class Dovecot:
    """Serves the messages on `port` while its block runs. As root it runs as `nobody`."""

    def __init__(self, folder, messages, password, word):
        self.folder, self.port = folder, free_port()
        is_root = os.geteuid() == 0
        self.user = pwd.getpwnam("nobody" if is_root else getpass.getuser())
        group = grp.getgrgid(self.user.pw_gid).gr_name
        write_maildir(os.path.join(folder, "mail"), messages)
        os.mkdir(os.path.join(folder, "run"))
        self.settings = os.path.join(folder, "dovecot.conf")
        with open(self.settings, "w", encoding="utf-8") as file:
            file.write(SETTINGS.format(folder=folder, user=self.user.pw_name, group=group, password=password, port=self.port, protocol=PROTOCOLS[word]))
        self.how = {"user": self.user.pw_uid, "group": self.user.pw_gid, "extra_groups": []} if is_root else {}
        if is_root:
            subprocess.run(["chown", "-R", f"{self.user.pw_uid}:{self.user.pw_gid}", folder], check=True)

    def __enter__(self):
        words = [shutil.which("dovecot", path=PATH), "-F", "-c", self.settings]
        self.running = subprocess.Popen(words, stdout=subprocess.DEVNULL, stderr=subprocess.PIPE, **self.how)
        for _ in range(100):
            try:
                socket.create_connection(("127.0.0.1", self.port), timeout=5).close()
                return self
            except OSError:
                time.sleep(0.1)
            if self.running.poll() is not None:
                break
        self.running.terminate()
        raise NotStarted(f"Dovecot didn't start: {self.running.stderr.read().decode(errors='replace').strip()}")

    def __exit__(self, *_):
        self.running.terminate()
        self.running.wait(timeout=30)
        self.running.stderr.close()
