"""The rival: rewrites a message from standard input with Python's `email` package, as one would without Dervlask.

Fields with non-ASCII characters are folded anew by the package, which writes encoded words; all else is copied."""

import email.policy
import sys
from email.parser import HeaderParser


def main():
    octets = sys.stdin.buffer.read()
    head, end, body = octets.partition(b"\r\n\r\n")
    policy = email.policy.SMTP
    out = sys.stdout.buffer
    for name, value in HeaderParser(policy=policy).parsestr(head.decode("utf-8")).raw_items():
        if value.isascii():
            out.write(f"{name}: {value}\r\n".encode("ascii"))
        else:
            out.write(policy.header_factory(name, value.replace("\r\n", "")).fold(policy=policy).encode("ascii"))
    out.write(b"\r\n" + body if end else body)


main()
