"""The control socket of a service, and whoever is there."""

import socket
import subprocess
import time

from harness.log_lines import events
from harness.sample_realm import configuration
from harness.serving import PATIENCE, Watch

OK = "ok\n"
ONE_CHANGE = "entries 1 changes 1"
NO_CHANGE = "entries 0 changes 0"


class Caller:
    """Somebody at the control socket."""

    def __init__(self, case):
        self.socket = socket.socket(socket.AF_UNIX)
        self.socket.settimeout(20)
        self.socket.connect(str(case.folder / "control"))

    def send(self, text):
        self.socket.sendall(text if isinstance(text, bytes) else text.encode())

    def answer(self):
        """All that comes until the end."""
        text = b""
        while True:
            try:
                more = self.socket.recv(4096)
            except ConnectionResetError:
                more = b""
            if not more:
                self.socket.close()
                return text.decode()
            text += more


def ask(case, line):
    caller = Caller(case)
    caller.send(f"{line}\n")
    return caller.answer()


def status(case):
    """The lines, by their names."""
    return dict(line.split(" ", 1) for line in ask(case, "status").splitlines()[:-1])


def start(case, connections=100, options=(), **words):
    case.start(connections, options=["--control", "control", *options], **words)


def told(case, *words):
    """What the program's own command prints, and its status."""
    command = [case.server.program, "control", "--socket", case.folder / "control", *words]
    ran = subprocess.run(command, capture_output=True, text=True, timeout=60)
    return ran.stdout + ran.stderr, ran.returncode


def written(names=("alice", "bob"), change=(), **settings):
    """A configuration with these changes of its text."""
    text = configuration(names, **{"iterations": 4, **settings})
    for old, new in change:
        assert old in text
        text = text.replace(old, new)
    return text


def rewrite(case, *words, **settings):
    """The configuration anew."""
    case.server.configuration.write_text(written(*words, **settings))


def wait_for(is_so):
    watch = Watch()
    while not is_so():
        if watch.spent() > PATIENCE:
            raise TimeoutError("it doesn't come to be")
        time.sleep(0.01)


def tell_stop(case):
    """It ends at `stop`, with status 0; the lines that it printed."""
    while case.clients:
        case.clients.pop().close()
    case.tell("stop", told(case, "stop"), (OK, 0))
    lines = case.server.last_words().splitlines()
    case.tell("its status", case.server.process.returncode, 0)
    return lines


def entries_of(lines):
    """The entries that these tallies have together, and the changes."""
    numbers = [line.split(" ") for line in lines if line.startswith("entries ")]
    return sum(int(it[1]) for it in numbers), sum(int(it[3]) for it in numbers)


def logged(case):
    """What the service's own lines of the log say."""
    return events((case.folder / "log").read_text())


def tell_end(case, *lines):
    """It ends at `stop`, with these lines, and takes its socket away."""
    case.tell("its end", tell_stop(case), list(lines))
    case.tell("its socket", (case.folder / "control").exists(), False)
