"""Ports of this machine, and what listens to one while its block runs."""

import socket
import threading
import time


class NotStarted(Exception):
    """Why a server didn't start."""


def free_port():
    with socket.create_server(("127.0.0.1", 0)) as one:
        return one.getsockname()[1]


def wait_for(port):
    """Waits until there is a server."""
    for _ in range(100):
        try:
            socket.create_connection(("127.0.0.1", port), timeout=5).close()
            return
        except OSError:
            time.sleep(0.1)
    raise NotStarted(f"nothing listens on port {port}")


class Listening:
    """Takes connections to `port`, and hands each to `start`, which is what a kind of server does with one."""

    def __init__(self, port=0, host="127.0.0.1"):
        family = socket.AF_INET6 if ":" in host else socket.AF_INET
        self.listening = socket.create_server((host, port), family=family, backlog=64)
        self.port = self.listening.getsockname()[1]

    def serve(self):
        while True:
            try:
                connection, _ = self.listening.accept()
            except OSError:
                return
            # answers go out as they are written
            connection.setsockopt(socket.IPPROTO_TCP, socket.TCP_NODELAY, 1)
            with connection:
                self.start(connection)

    def __enter__(self):
        self.thread = threading.Thread(target=self.serve, daemon=True)
        self.thread.start()
        return self

    def __exit__(self, *_):
        # a thread that waits in accept wakes from this, and not from close
        self.listening.shutdown(socket.SHUT_RDWR)
        self.thread.join()
        self.listening.close()
