"""Connections to a registry: to one that may be starting just now, and over TLS."""
import socket
import ssl
import time
from typing import Any, Callable, TypeVar

# Seconds until the other side takes the connection: others may be served first.
CONNECTING = 10
# Seconds for which a tool that runs by itself tries a refused connection again: in these a server
# starts again.
PATIENCE = 30
T = TypeVar("T")


def persistently(connect: Callable[[], T], seconds: float) -> T:
    """What a call gives that connects. One that is refused is tried again for these seconds."""
    end = time.monotonic() + seconds
    while True:
        try:
            return connect()
        except ConnectionRefusedError:
            if time.monotonic() >= end:
                raise
            time.sleep(0.2)


class Whole(ssl.SSLContext):
    """TLS with servers on which an end without close_notify is a fault (RFC 8446, 6.1): by default
    Python takes it for the end of the answer, which anybody on the way can make."""

    def __init__(self, *_: Any) -> None:
        super().__init__()
        self.load_default_certs()
        # Python has OpenSSL 3 take such an end for a good one, unless it is told otherwise.
        self.options &= ~getattr(ssl, "OP_IGNORE_UNEXPECTED_EOF", 0)

    def wrap_socket(self, sock: socket.socket, *words: Any, **more: Any) -> ssl.SSLSocket:
        more["suppress_ragged_eofs"] = False
        return super().wrap_socket(sock, *words, **more)


def whole() -> Whole:
    return Whole(ssl.PROTOCOL_TLS_CLIENT)
