"""The program run to its end: what it prints, what it says on standard error, and its status."""

import subprocess
import time

from harness.cases import Case
from harness.sample_realm import write_configuration
from harness.server import Server

MISSING = "no such file"
# printable ASCII
PRINTED = bytes(range(0x20, 0x7F))


def closing(numbers, command):
    """A command with these descriptors closed."""
    closed = " ".join(f"{number}>&-" for number in numbers)
    return ["sh", "-c", f'exec "$@" {closed}', "sh", *map(str, command)]


class ProgramCase(Case):
    """A case that runs the program in its folder."""

    def setUp(self):
        super().setUp()
        self.servers = []
        self.addCleanup(self.end)

    def new_server(self, *names):
        """`serve` for a realm of these principals, not started."""
        server = Server(self.program, self.folder, workers=1)
        write_configuration(server.configuration, names)
        self.servers.append(server)
        return server

    def end(self):
        for server in self.servers:
            server.end()

    def ended(self, *words, script=None, closed=(), **streams):
        """Standard output, standard error and status; of clap's text only that there is one."""
        streams = {"stdout": subprocess.PIPE, "stderr": subprocess.PIPE, **streams}
        command = [self.program, *words]
        done = subprocess.run(
            closing(closed, command) if closed else command,
            input=script,
            text=True,
            timeout=60,
            cwd=self.folder,
            **streams,
        )
        errors = (done.stderr or "").strip()
        if done.returncode == 2 and len(errors.splitlines()) > 1:
            errors = "a text"
        return (done.stdout or "").strip(), errors, done.returncode

    def tell_ended(self, what, wanted, *words, **streams):
        self.tell(what, self.ended(*words, **streams), wanted)

    def tell_unwritten(self, what, *words, **streams):
        """Where nothing can be printed."""
        with open("/dev/full", "w") as full:
            self.tell_ended(what, ("", "cannot write", 1), *words, stdout=full, **streams)


class Client:
    """`client` for alice at a port."""

    def __init__(self, case, server):
        self.case = case
        self.options = {
            "--config": server.configuration,
            "--seed": "/dev/urandom",
            "--port": server.port,
            "--client": "alice",
            "--password": "New-pass2",
        }

    def tell(self, what, wanted, *flags, closed=(), **changed):
        options = self.options | {f"--{name}": value for name, value in changed.items()}
        words = [f"{name}={value}" for name, value in options.items()]
        self.case.tell_ended(f"client: {what}", wanted, "client", *words, *flags, closed=closed)

    def told_soon(self):
        """What it says to the first request that finds the service, which is starting."""
        words = [f"{name}={value}" for name, value in self.options.items()]
        for _ in range(100):
            told = self.case.ended("client", *words)
            if told[1] != "cannot connect":
                break
            time.sleep(0.1)
        return told


def unreadable(file, why):
    """What is said of a file that can't be read."""
    return "", f"cannot read {file}\n{file}: {why}", 1


def fault_of(case, configuration):
    """The fault of a configuration in words, as `check` tells it."""
    return case.ended("check", "--config", configuration)[1]


def shown(answer, plain=PRINTED + b"\n"):
    """As it is printed: what isn't printable ASCII is escaped."""
    return "".join(chr(byte) if byte in plain else f"\\x{byte:02x}" for byte in answer.encode())


def with_length(message):
    return len(message).to_bytes(4, "big") + message


def answer_one(listener, reply, heard=None):
    connection, _ = listener.accept()
    with connection:
        message = connection.recv(65_536)
        if heard is not None:
            heard.append(message)
        connection.sendall(reply)
