"""An agent as a process, the lines that it tells, and a service's side of its socket."""

import contextlib
import ctypes
import os
import pathlib
import pwd
import signal
import socket
import subprocess
import threading
import time

from harness.agent_building import built
from harness.realm import REALM
from harness.wire import string_to_key

HERE = pathlib.Path(__file__).resolve().parent
# of prctl(2) and capabilities(7)
PR_CAPBSET_DROP, CAP_DAC_OVERRIDE, CAP_DAC_READ_SEARCH = 24, 1, 2


def hexed(name):
    """A principal's name as a line has it."""
    return "/".join(part.encode().hex() for part in name.split("/"))


def keys_of(name, password):
    """The two keys of the password, as a line has them."""
    salt = REALM.encode() + name.replace("/", "").encode()
    return " ".join(string_to_key(size, password.encode(), salt, 4096).hex() for size in (32, 16))


def putting(name, kvno, password):
    return f"put {hexed(name)} {kvno} {keys_of(name, password)}"


def without_rights():
    """What runs next is held to the modes of files, also where it is root: as in the unit."""
    for right in (CAP_DAC_OVERRIDE, CAP_DAC_READ_SEARCH):
        ctypes.CDLL(None).prctl(PR_CAPBSET_DROP, right, 0, 0, 0)


class Agent:
    """It runs from the start on, and is ready when it listens. `more` is of its environment."""

    def __init__(self, realm, *options, program=None, user=None, path=None, before=None, **more):
        self.folder = realm.folder
        self.socket = path or realm.folder / "agent.socket"
        command, environment = realm.agent(program)
        user = user or pwd.getpwuid(os.geteuid()).pw_name
        words = ["--socket", str(self.socket), "--user", user, "--realm", REALM, *options]
        self.all_lines = []
        self.process = subprocess.Popen(
            [command, *words], stdin=subprocess.DEVNULL, stderr=subprocess.PIPE, text=True, errors="replace",
            env={**environment, **more}, start_new_session=True, preexec_fn=before,
        )
        self.reader = threading.Thread(target=self.read)
        self.reader.start()

    def read(self):
        for line in self.process.stderr:
            self.all_lines.append(line.rstrip("\n"))

    def __enter__(self):
        if not self.told("listening", 1):
            self.stop()
            raise RuntimeError(f"it doesn't listen: {self.all_lines[-5:]}")
        return self

    def __exit__(self, *_):
        status = self.stop()
        if status != 0:
            raise RuntimeError(f"the agent's status {status}: {self.all_lines[-20:]}")

    def told(self, words, least=0, seconds=20):
        """How often it has told a line with these words; so many are waited for."""
        end = time.monotonic() + seconds
        while True:
            count = sum(words in line for line in self.all_lines)
            if count >= least or time.monotonic() > end or self.process.poll() is not None:
                return count
            time.sleep(0.01)

    def stop(self, number=signal.SIGTERM):
        if self.process.poll() is None:
            self.process.send_signal(number)
        try:
            status = self.process.wait(timeout=20)
        except subprocess.TimeoutExpired:
            self.process.kill()
            status = self.process.wait()
        self.reader.join()
        return status

    def ended(self):
        """Its status and what it told, of one that ends by itself; it is killed where it doesn't."""
        try:
            self.process.wait(timeout=20)
        except subprocess.TimeoutExpired:
            self.process.kill()
        self.process.wait()
        self.reader.join()
        return self.process.returncode, self.all_lines

    def connected(self, seconds=20):
        return Connection(self.socket, seconds)

    def ask(self, request):
        """The answer to one request, on a connection of its own."""
        with self.connected() as connection:
            return connection.ask(request)


class Connection:
    """A connection of the service's. `changes` counts `changed`."""

    def __init__(self, path, seconds=20):
        self.rest = b""
        self.changes = 0
        self.connection = socket.socket(socket.AF_UNIX)
        self.connection.settimeout(seconds)
        self.connection.connect(str(path))

    def __enter__(self):
        return self

    def __exit__(self, *_):
        self.connection.close()

    def send(self, data):
        """Sends, if the other side still takes it."""
        with contextlib.suppress(BrokenPipeError, ConnectionResetError):
            self.connection.sendall(data)

    def line(self, seconds=None):
        """The next line; nothing where the connection ended, None where none comes in time."""
        end = time.monotonic() + (self.connection.gettimeout() if seconds is None else seconds)
        while b"\n" not in self.rest:
            left = end - time.monotonic()
            if left <= 0:
                return None
            patience = self.connection.gettimeout()
            self.connection.settimeout(left)
            try:
                data = self.connection.recv(65536)
            except TimeoutError:
                return None
            except OSError:
                return ""
            finally:
                self.connection.settimeout(patience)
            if not data:
                return ""
            self.rest += data
        line, _, self.rest = self.rest.partition(b"\n")
        return line.decode("latin1")

    def answer(self, seconds=None):
        """The next line that is no `changed`."""
        while True:
            line = self.line(seconds)
            if line != "changed":
                return line
            self.changes += 1

    def ask(self, request):
        self.send(request.encode() + b"\n")
        return self.answer()

    def at_last(self, request):
        """The answer that comes once nobody else has the database locked."""
        while (answer := self.ask(request)) and answer.startswith("failed ") and answer.endswith(" locked"):
            pass
        return answer

    def put(self, name, kvno, password):
        return self.ask(putting(name, kvno, password))

    def listed(self, request="list"):
        """All lines of the list, sorted, without its end, whose number has to be theirs."""
        self.send(request.encode() + b"\n")
        lines = []
        while (line := self.answer()) and line.split()[0] in ("has", "other"):
            lines.append(line)
        return sorted(lines) if line == f"end {len(lines)}" else (line, len(lines))

    def told(self, seconds=1.0):
        """Whether `changed` comes in that time."""
        line = self.line(seconds)
        if line not in (None, "changed"):
            raise RuntimeError(f"asked for nothing, and got {line!r}")
        return line == "changed"

    def quiet(self, seconds=0.8):
        return not self.told(seconds)


@contextlib.contextmanager
def talking(realm, *options, **more):
    """A connection to an agent of its own."""
    with Agent(realm, *options, **more) as agent, agent.connected() as connection:
        connection.agent = agent
        yield connection


def preload(realm, name):
    """The library of NAME.c in the realm's folder, which a program can be started with."""
    project = realm.mit if realm.KIND == "MIT" else realm.heimdal
    include = project.folder / "usr/include"
    library = realm.folder / f"{name}.so"
    words = ["gcc", "-std=c11", "-D_GNU_SOURCE", "-Wall", "-Wextra", "-Werror", "-O1", "-shared", "-fPIC"]
    subprocess.run([*words, f"-I{include}", f"-I{include}/mit-krb5", "-o", library, HERE / f"{name}.c"], check=True)
    return str(library)


def program_of(realm, kind, *flags):
    """The agent, built in the realm's folder; with flags one of its own."""
    project = realm.mit if kind == "mit" else realm.heimdal
    folder = realm.folder / ("agent" + "".join(flags).replace("-", "_").replace(",", "").replace("=", ""))
    return built(project, folder, kind, flags)
