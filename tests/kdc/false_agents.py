"""Agents that aren't any: what listens at the socket, and what it makes of a `put`."""

import contextlib
import socket
import threading


def says_nothing(connection, words):
    """It keeps the request."""


def says_something_else(connection, words):
    connection.sendall(b"x\n")


def ends(connection, words):
    connection.shutdown(socket.SHUT_RDWR)


def names_another(connection, words):
    connection.sendall(b"put 61%s %s\n" % (words[1], words[2]))


def says_a_lower_version(connection, words):
    connection.sendall(b"put %s %d\n" % (words[1], int(words[2]) - 1))


def says_it_with_a_zero(connection, words):
    connection.sendall(b"put %s 0%s\n" % (words[1], words[2]))


def says_a_part(connection, words):
    connection.sendall(b"put %s" % words[1])


def says_too_much(connection, words):
    connection.sendall(b"7" * 100_000 + b"\n")


# what it does, and whether each reply waits for it, or some do: where the connection ends, a reply waits only if its change is
# made while there is the next one
KINDS = [
    (says_nothing, "waits"),
    (says_a_part, "waits"),
    (says_something_else, "some wait"),
    (ends, "some wait"),
    (names_another, "some wait"),
    (says_a_lower_version, "some wait"),
    (says_it_with_a_zero, "some wait"),
    (says_too_much, "some wait"),
]


class FalseAgent:
    """It listens at the socket, has no principals, and answers each `put` by `answer`."""

    def __init__(self, path, answer):
        self.path = path
        self.answer = answer
        self.asks = 0
        path.unlink(missing_ok=True)
        self.socket = socket.socket(socket.AF_UNIX)
        self.socket.bind(str(path))
        self.socket.listen()
        self.connections = []
        threading.Thread(target=self.accept, daemon=True).start()

    def __enter__(self):
        return self

    def __exit__(self, *_):
        self.path.unlink()
        for each in [self.socket, *self.connections]:
            with contextlib.suppress(OSError):
                each.shutdown(socket.SHUT_RDWR)
            each.close()

    def accept(self):
        with contextlib.suppress(OSError):
            while True:
                connection, _ = self.socket.accept()
                self.connections.append(connection)
                threading.Thread(target=self.serve, args=[connection], daemon=True).start()

    def serve(self, connection):
        rest = b""
        with contextlib.suppress(OSError):
            while data := connection.recv(65536):
                *lines, rest = (rest + data).split(b"\n")
                for line in lines:
                    self.hear(connection, line.split())

    def hear(self, connection, words):
        if words[0] == b"list":
            connection.sendall(b"end 0\n")
        elif words[0] == b"get":
            connection.sendall(b"failed %s locked\n" % words[1])
        else:
            self.asks += 1
            self.answer(connection, words)
