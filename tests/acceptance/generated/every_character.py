"""Every character in encoded words: alone, twice and beside ASCII; and texts of each length from 1 to 200 octets. The words are those
that the oracle has (units.py), the shorter of both encodings and of at most 75 octets, and Python's library reads the text back."""

import base64
import binascii
import itertools

from oracle.units import ENCODED_WORD_MAX, words_of
from support.harness import differs, in_lanes, show

SURROGATES = range(0xD800, 0xE000)
NO_TEXT = {0, 10, 13}
LENGTHS = range(1, 201)
ONE_MESSAGE = 20_000
B, Q = b"=?UTF-8?B?", b"=?UTF-8?Q?"


def of_characters():
    """Texts that are cores of an unstructured field, whole: they begin and end with a character that isn't ASCII, or with one beside it."""
    for code in range(1, 0x110000):
        if code in SURROGATES or code in NO_TEXT:
            continue
        it = chr(code)
        yield from (f"é{it}é", f"é{it}{it}é", f"é{it}aé") if code < 128 else (it, it + it, f"a{it}Z")


def of_lengths():
    """Texts of characters of each size, with ASCII before them, among them and around them."""
    for length, it in itertools.product(LENGTHS, "éあ😀"):
        size = len(it.encode())
        if length >= size:
            yield "a" * (length % size) + it * (length // size)
            yield "a" * (length - size) + it
        if length > 2 * size:
            yield it + ("ab. " * length)[: length - 2 * size] + it
            yield (f"a{it}" * length)[: length // (size + 1) * 2]


def read(word):
    """The octets of a word, as Python's library reads them."""
    text = word[len(B) : -2]
    return base64.b64decode(text, validate=True) if word.startswith(B) else binascii.a2b_qp(text, header=True)


def word_faults(text, words):
    """What is wrong with the words that the oracle has."""
    octets = text.encode()
    faults = differs(f"the text of {words}", b"".join(map(read, words)), octets)
    if any(len(word) > ENCODED_WORD_MAX or not word.startswith((B, Q)) for word in words):
        faults.append(f"a word is none: {words}")
    return faults


def check(program, tally):
    texts = itertools.chain(of_lengths(), of_characters())
    messages = list(iter(lambda: list(itertools.islice(texts, ONE_MESSAGE)), []))

    def one(texts):
        words = list(map(lambda text: words_of(text.encode()), texts))
        made = [b"X:" + b"".join(b"\r\n " + it for it in those) + b"\r\n" for those in words]
        status, given = program.downgrade("".join(f"X: {text}\r\n" for text in texts).encode())
        faults = differs("status", status, 0) + [fault for text, those in zip(texts, words) for fault in word_faults(text, those)]
        if given != b"".join(made):
            fields = given.split(b"X:")[1:]
            wrong = next((place for place, (field, wanted) in enumerate(zip(fields, made)) if b"X:" + field != wanted), min(len(fields), len(made)) - 1)
            faults.append(f"{texts[wrong]!r} gave {show(fields[wrong])}")
        return faults

    for number, faults in enumerate(in_lanes(one, messages)):
        tally.note(f"every character, message {number}", faults)
    print(f"every character: {sum(map(len, messages))} texts in {len(messages)} messages")
