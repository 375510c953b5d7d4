"""A server of Python's aiosmtpd, for a Python that has it: `aiosmtpd_server.py PORT OFFER..`. It prints each message that it takes, as JSON."""

import asyncio
import json
import sys

from aiosmtpd.smtp import SMTP


class Handler:
    """Takes all mail. What isn't among the offers is no line of its reply to EHLO."""

    def __init__(self, offers):
        self.offers = offers

    async def handle_EHLO(self, server, session, envelope, hostname, responses):
        session.host_name = hostname
        return [it for it in responses if it[4:] != "8BITMIME" or "8BITMIME" in self.offers]

    async def handle_DATA(self, server, session, envelope):
        octets = envelope.content.hex()
        print(json.dumps([envelope.mail_from, envelope.mail_options, envelope.rcpt_tos, octets]), flush=True)
        return "250 2.0.0 taken"


async def serve(port, offers):
    handler = Handler(offers)
    server = await asyncio.get_running_loop().create_server(lambda: SMTP(handler, enable_SMTPUTF8="SMTPUTF8" in offers), "127.0.0.1", port)
    await server.serve_forever()


asyncio.run(serve(int(sys.argv[1]), sys.argv[2:]))
