"""The store of a journal, told anew from the rules. Nothing here was taken from the program.

A journal is `MAILJNL1` or `MAILJNL2`, and records: a length of four octets (big-endian, from 1 to 67,108,864) and so many octets, which
are a kind and its fields. Numbers have four octets, flags and marks one, and texts stand behind their length.

1. account: address, password (at most 65,536 octets). It brings a folder, its INBOX.
2. domain: a normal form.
3. folder: account, name (1 to 255 octets of UTF-8 in NFC, without controls, `*` and `%`).
4. message: folder, flags, date, octets. They have a tree of entities (trees.py); their last line may lack its CRLF.
5. flags: message, flags.
6. expunge: message.
7. queue: path (an address or nothing), the count of addresses and each of them, octets as those of a message.
8. settle: entry of the queue, and the place of one of its addresses.
9. message: folder, flags, mark, date, octets. The mark is that of the octets (trees.py).
10. queue: path, the count of addresses and each of them, mark, octets.
11. version: nothing.

`MAILJNL1` begins version 1, which ends behind a record of kind 11; `MAILJNL2` begins version 2. Kinds 4, 7 and 11 are those of version 1
alone, 9 and 10 those of version 2 alone. Flags are below 32. An address is any text of one with at most 65,536 octets. Each number names what
an earlier record brought, counted from 0: a message that wasn't expunged, an address of an entry that wasn't settled. Other octets are no record.

What begins no record is bad, but for what a write that was broken off leaves up to the end of the file, which is cut off: fewer than four
octets; a length with fewer octets than it says; zeros alone; and a last record of the file that is none, where all is zero from some
multiple of 512 octets of the file on that stands within it. Fewer than eight octets that begin `MAILJNL1` or `MAILJNL2` are begun anew, in
version 2. A journal that ends in version 1 goes on with a record of kind 11."""

import re
import unicodedata

from journal import version
from oracle import trees
from oracle.blocks import Refused, is_sound
from oracle.store_names import is_same_mailbox, is_utf8, known, normal_form, read_address

FIRST_OCTETS = {1: b"MAILJNL1", 2: b"MAILJNL2"}
FIRST_LEN = 8
RECORD_MAX = 67_108_864
SECTOR = 512
TEXT_MAX = 65_536
NAME_MAX = 255
DATE = re.compile(rb"[0-9 ][0-9]-(jan|feb|mar|apr|may|jun|jul|aug|sep|oct|nov|dec)-[0-9]{4} [0-9]{2}:[0-9]{2}:[0-9]{2} [+-][0-9]{4}", re.IGNORECASE)


class Unopened(Exception):
    """The journal is bad at this place."""

    def __init__(self, at):
        super().__init__(at)
        self.answer = 5, b"bad journal at %d\r\n" % at


class NoRecord(Exception):
    """The octets are no record."""


class Store:
    """Its version; address and password of each account; the domains; the account of each folder; folder and octets of each message, and whether
    it is still there; of each entry of the queue its path, addresses and octets, and whether each address waits."""

    def __init__(self, version=2):
        self.version = version
        self.accounts = []
        self.domains = []
        self.folders = []
        self.messages = []
        self.live = []
        self.letters = []
        self.entries = []

    def login(self, name, password):
        """The number of the first account whose mailbox the name names, where the password is that account's; or None."""
        meant = read_address(name)
        for number, (address, kept) in enumerate(self.accounts):
            if meant and is_same_mailbox(address, meant):
                return number if kept == password else None
        return None

    def inbox(self, account):
        """Number, UID and octets of each message in the account's first folder that is still there."""
        inbox = self.folders.index(account)
        had = [(place, octets) for place, (folder, octets) in enumerate(self.messages) if folder == inbox]
        return [(place, uid, octets) for uid, (place, octets) in enumerate(had, 1) if self.live[place]]

    def queue(self):
        """Path, the addresses that wait, and octets of each entry in which one waits."""
        told = [(path, [it for it, waits in zip(addresses, marks) if waits], octets) for (path, addresses, octets), marks in zip(self.letters, self.entries)]
        return [letter for letter in told if letter[1]]


def open_journal(octets):
    """The store, and the journal as it stands then; or Unopened."""
    if len(octets) < FIRST_LEN and any(first.startswith(octets) for first in FIRST_OCTETS.values()):
        return Store(), FIRST_OCTETS[2]
    begun = [number for number, first in FIRST_OCTETS.items() if octets.startswith(first)]
    if not begun:
        raise Unopened(0)
    store = Store(*begun)
    kept = octets[: read_records(store, octets)]
    return store, kept + version() if store.version == 1 else kept


def read_records(store, octets):
    """Keeps what the records bring. Where they end, and what is broken off begins; or Unopened."""
    at = FIRST_LEN
    while at < len(octets):
        size = int.from_bytes(octets[at : at + 4], "big")
        end = at + 4 + size
        if len(octets) < at + 4 or 0 < size <= RECORD_MAX and len(octets) < end:
            break
        try:
            need(0 < size <= RECORD_MAX)
            add(store, octets[at + 4 : end])
        except NoRecord as error:
            if is_torn(octets, at, end):
                break
            raise Unopened(at) from error
        at = end
    return at


def is_torn(octets, at, end):
    """Whether what is no record, and has these places, is what a loss of power leaves."""
    used = len(octets.rstrip(b"\0"))
    if used <= at:
        return True
    zeros = -(-used // SECTOR) * SECTOR
    return end == len(octets) <= at + 4 + RECORD_MAX and zeros < end


class Fields:
    """Reads the fields of a record from left to right."""

    def __init__(self, octets):
        self.rest = octets

    def take(self, count):
        if len(self.rest) < count:
            raise NoRecord
        taken, self.rest = self.rest[:count], self.rest[count:]
        return taken

    def number(self):
        return int.from_bytes(self.take(4), "big")

    def octet(self):
        return self.take(1)[0]

    def octets(self):
        return self.take(self.number())

    def texts(self):
        return [self.octets() for _ in range(self.number())]


def add(store, record):
    """Keeps what the record brings; or NoRecord."""
    kind, fields = record[0], Fields(record[1:])
    need(kind in KINDS)
    versions, takes, adds = KINDS[kind]
    need(store.version in versions)
    values = [take(fields) for take in takes]
    need(not fields.rest)
    adds(store, *values)


def need(is_so):
    if not is_so:
        raise NoRecord


def need_address(text):
    """What the text says of an address."""
    found = read_address(text) if len(text) <= TEXT_MAX else None
    need(found)
    return found


def need_live(store, message):
    need(message < len(store.live) and store.live[message])


def need_mark(octets, mark):
    """The octets are a message, and have this mark, if there is one."""
    need(is_sound(octets))
    try:
        found = trees.mark_of(octets)
    except Refused as error:
        raise NoRecord from error
    need(mark in (None, found))


def is_folder_name(name):
    if not 0 < len(name) <= NAME_MAX or not is_utf8(name):
        return False
    characters = name.decode()
    if any(it in "*%" or unicodedata.category(it) == "Cc" for it in characters):
        return False
    return unicodedata.is_normalized("NFC", known(characters))


def add_account(store, text, password):
    address = need_address(text)
    need(len(password) <= TEXT_MAX)
    store.folders.append(len(store.accounts))
    store.accounts.append((address, password))


def add_domain(store, name):
    need(name.isascii() and normal_form(name) == name)
    store.domains.append(name)


def add_folder(store, account, name):
    need(account < len(store.accounts) and is_folder_name(name))
    store.folders.append(account)


def add_message(store, folder, flags, mark, date, octets):
    need(folder < len(store.folders) and flags < 32 and DATE.fullmatch(date))
    need_mark(octets, mark)
    store.messages.append((folder, octets))
    store.live.append(True)


def set_flags(store, message, flags):
    need_live(store, message)
    need(flags < 32)


def expunge(store, message):
    need_live(store, message)
    store.live[message] = False


def add_entry(store, path, recipients, mark, octets):
    for text in [path, *recipients] if path else recipients:
        need_address(text)
    need_mark(octets, mark)
    store.letters.append((path, recipients, octets))
    store.entries.append([True for _ in recipients])


def settle(store, entry, place):
    need(entry < len(store.entries) and place < len(store.entries[entry]) and store.entries[entry][place])
    store.entries[entry][place] = False


def go_on(store):
    store.version = 2


def no_mark(_):
    return None


# the versions that have each kind, its fields, and what keeps them
KINDS = {
    1: ((1, 2), [Fields.octets, Fields.octets], add_account),
    2: ((1, 2), [Fields.octets], add_domain),
    3: ((1, 2), [Fields.number, Fields.octets], add_folder),
    4: ((1,), [Fields.number, Fields.octet, no_mark, Fields.octets, Fields.octets], add_message),
    5: ((1, 2), [Fields.number, Fields.octet], set_flags),
    6: ((1, 2), [Fields.number], expunge),
    7: ((1,), [Fields.octets, Fields.texts, no_mark, Fields.octets], add_entry),
    8: ((1, 2), [Fields.number, Fields.number], settle),
    9: ((2,), [Fields.number, Fields.octet, Fields.octet, Fields.octets, Fields.octets], add_message),
    10: ((2,), [Fields.octets, Fields.texts, Fields.octet, Fields.octets], add_entry),
    11: ((1,), [], go_on),
}
