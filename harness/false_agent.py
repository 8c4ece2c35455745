"""An agent at a KDC's database that a script plays (agent/README.md)."""

import contextlib
import select
import socket
import subprocess

from harness.serving import PATIENCE, Watch
from harness.wire import string_to_key

# the keys of each principal of a case's realm, and the iteration count of those that it gets
KEYS = f"{'22' * 32} {'11' * 16}"
COUNT = 4


def hexed(name):
    """A name of one component as a line has it."""
    return name.encode().hex()


def keys_of(name, password):
    """Both keys of a password, as a line has them."""
    salt = f"EXAMPLE.COM{name}".encode()
    return " ".join(string_to_key(size, password.encode(), salt, COUNT).hex() for size in (32, 16))


def listed(*names):
    """The answer to `list keys` of a KDC that has these names as the realm began."""
    return "".join(f"has {hexed(name)} 1 {KEYS}\n" for name in names) + f"end {len(names)}\n"


def keys_held(case):
    """A line for each key, as the configuration and the journal have them."""
    files = ["--config", case.server.configuration, "--journal", case.server.journal]
    done = subprocess.run([case.server.program, "table", *files, "--as", "keys"], capture_output=True, text=True, check=True)
    return done.stdout.splitlines()


def table(case):
    """The newest version of each name."""
    found = {}
    for line in keys_held(case):
        name, kvno = line.split()[:2]
        found.setdefault(name.removesuffix("@EXAMPLE.COM"), int(kvno))
    return found


class Agent:
    """Listens where a service connects."""

    def __init__(self, case):
        self.case = case
        self.path = case.folder / "agent"
        self.listen()

    def listen(self):
        self.listener = socket.socket(socket.AF_UNIX)
        self.listener.settimeout(PATIENCE)
        self.listener.bind(str(self.path))
        self.listener.listen()

    def end(self):
        """Nobody listens any more."""
        self.path.unlink()
        self.listener.close()

    def options(self, wait):
        """A service's, whose replies wait for so many milliseconds."""
        return ["--kdc", self.path, "--kdc-wait", wait]

    def called(self, before="list keys"):
        """The connection over which the service asks for the list, or for this before."""
        try:
            link = Link(self.case, self.listener.accept()[0])
        except TimeoutError as fault:
            raise TimeoutError(f"no connection within {PATIENCE} s") from fault
        link.is_asked(before)
        return link

    def in_step(self, *names):
        """A connection whose service has been told of a KDC that has the names."""
        link = self.called()
        link.say(listed(*names or ("alice", "bob")))
        return link


class Link:
    """A connection of the service's."""

    def __init__(self, case, connection):
        self.case = case
        self.connection = connection
        self.connection.settimeout(PATIENCE)
        self.reader = connection.makefile("rb")

    def __enter__(self):
        return self

    def __exit__(self, *_):
        self.end()

    def end(self):
        # until its reader is gone, a connection isn't ended
        self.reader.close()
        self.connection.close()

    def say(self, text):
        """Says it, if the service still hears it."""
        with contextlib.suppress(BrokenPipeError, ConnectionResetError):
            self.connection.sendall(text if isinstance(text, bytes) else text.encode())

    def line(self):
        return self.reader.readline().decode().rstrip("\n")

    def is_asked(self, *wanted):
        """The next requests are these, in whatever order."""
        self.case.tell("is asked", sorted(self.line() for _ in wanted), sorted(wanted))

    def is_to_put(self, name, kvno, password="New-pass2"):
        """The next request is that the KDC gets the keys of this password."""
        self.is_asked(f"put {hexed(name)} {kvno} {keys_of(name, password)}")

    def confirm(self, name, kvno, password="New-pass2"):
        self.is_to_put(name, kvno, password)
        self.say(f"put {hexed(name)} {kvno}\n")

    def is_silent(self):
        """Whether nothing is asked at the moment."""
        return not select.select([self.connection], [], [], 0)[0]

    def is_ended(self):
        """Whether the service ends the connection, and how soon."""
        watch = Watch()
        with contextlib.suppress(ConnectionResetError):
            while self.connection.recv(65536):
                pass
        return watch.spent() < PATIENCE
