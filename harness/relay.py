"""Between a client and the service: passes each request and its reply on, and keeps their bytes.

A client that uses its new password as soon as it has the reply can find a KDC that hasn't the key
yet. So the reply is held back here until the KDC has it: `settle` is called before it goes on.
"""

import contextlib
import dataclasses
import socket
import threading

from harness.ports import free_ports


@dataclasses.dataclass(frozen=True)
class Exchange:
    """A request and its reply, without the lengths before them."""

    request: bytes
    reply: bytes


def message(reader):
    """The next message after its length; no bytes where the other end has ended."""
    return reader.read(int.from_bytes(reader.read(4), "big"))


def framed(text):
    return len(text).to_bytes(4, "big") + text


class Relay:
    """Listens on a port of loopback from here on, and attends one connection after the other."""

    def __init__(self, service_port, settle):
        self.service_port = service_port
        self.settle = settle
        self.exchanges = []
        [self.port] = free_ports(1)
        self.listener = socket.create_server(("127.0.0.1", self.port))
        self.thread = threading.Thread(target=self.run)
        self.thread.start()

    def run(self):
        """Where `settle` fails, no client is attended after that."""
        with self.listener:
            while (connection := self.accepted()) is not None:
                self.attend(connection)

    def accepted(self):
        """None once it has ended."""
        with contextlib.suppress(OSError):
            return self.listener.accept()[0]

    def attend(self, connection):
        """Where the client or the service ends early, this connection alone does."""
        with connection, contextlib.suppress(ConnectionError):
            with connection.makefile("rb") as reader:
                request = message(reader)
            reply = self.answer(request)
            self.exchanges.append(Exchange(request, reply))
            self.settle()
            connection.sendall(framed(reply))

    def answer(self, request):
        with socket.create_connection(("127.0.0.1", self.service_port)) as service:
            service.sendall(framed(request))
            with service.makefile("rb") as reader:
                return message(reader)

    def end(self):
        # a close doesn't wake who waits in accept
        with contextlib.suppress(OSError):
            self.listener.shutdown(socket.SHUT_RDWR)
        self.thread.join()
