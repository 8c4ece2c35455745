"""The service as a process: started on a port of loopback, and ended."""

import os
import pathlib
import signal
import socket
import subprocess
import time

from harness.ports import free_ports


def private(path):
    """A file that its owner alone may read and write, as the service wants its own, or tells of it."""
    path.touch(mode=0o600)
    path.chmod(0o600)
    return path


class Server:
    """`serve` in a folder with its configuration; the journal and the seed are made there."""

    def __init__(self, program, folder, workers, idle=None, options=()):
        self.program = program
        self.configuration = folder / "realm.toml"
        self.journal = folder / "journal"
        self.seed = folder / "seed"
        self.workers = workers
        self.idle = idle
        # further words of its command line
        self.options = list(options)
        # the lines that it printed before it listened
        self.said = []
        # the lines in which it told, of its start, until when it is quiet
        self.quiet = []
        [self.port] = free_ports(1)
        private(self.seed).write_bytes(os.urandom(32))
        self.process = None

    def command(self, connections):
        files = ["--config", self.configuration, "--journal", self.journal, "--seed", self.seed]
        numbers = ["--port", self.port, "--workers", self.workers, "--connections", connections]
        if self.idle is not None:
            numbers += ["--idle", self.idle]
        return [self.program, "serve", *files, *map(str, [*numbers, *self.options])]

    def places(self):
        """Each address and port at which its options have it listen, in their order, as it prints them."""
        words = list(map(str, self.options))
        addresses = [after for word, after in zip(words, words[1:]) if word == "--listen"] or ["127.0.0.1"]
        return [f"[{it}]:{self.port}" if ":" in it else f"{it}:{self.port}" for it in addresses]

    def start(self, connections, **options):
        """Until it says that it listens; what it says instead is raised."""
        self.launch(connections, **options)
        self.listens()

    def launch(self, connections, **options):
        """Starts it, and doesn't wait."""
        self.process = subprocess.Popen(
            self.command(connections),
            stdin=subprocess.DEVNULL,
            stdout=subprocess.PIPE,
            stderr=subprocess.PIPE,
            text=True,
            start_new_session=True,
            **options,
        )

    def listens(self):
        """It says that it listens, at each of its places; what it says instead is raised."""
        self.said = [line for place in self.places() for line in self.lines_before(f"listening on {place}")]

    def lines_before(self, wanted):
        """The lines that it prints before this one; all that it says is raised where this one doesn't come."""
        lines = []
        for line in iter(self.next_line, ""):
            if line.rstrip("\n") == wanted:
                return lines
            lines.append(line.rstrip("\n"))
        self.end()
        raise RuntimeError(f"serve says: {lines} {self.process.stderr.read()}")

    def next_line(self):
        """The next line that it prints, and nothing after it: `last_words` doesn't see what was read ahead."""
        line = b""
        while not line.endswith(b"\n") and (byte := os.read(self.process.stdout.fileno(), 1)):
            line += byte
        return line.decode()

    def connect(self):
        """A connection without a message."""
        socket.create_connection(("127.0.0.1", self.port)).close()

    def last_words(self, seconds=10):
        """What it prints once its connections are over."""
        try:
            out, errors = self.process.communicate(timeout=seconds)
        except subprocess.TimeoutExpired:
            self.end()
            return "nothing: it waits for connections"
        lines = errors.splitlines()
        self.quiet = [it for it in lines if it.startswith("quiet until ")]
        return "\n".join([*out.splitlines(), *(it for it in lines if it not in self.quiet)]).strip()

    def halt(self):
        """Stops it with all its threads, each of which obeys once it is scheduled, until it is told to go on."""
        self.process.send_signal(signal.SIGSTOP)
        for _ in range(10_000):
            if set(self.states()) == {"T"}:
                return
            time.sleep(0.001)
        raise RuntimeError("serve doesn't stop")

    def states(self):
        """The state of each of its threads, as the kernel has it."""
        for task in pathlib.Path(f"/proc/{self.process.pid}/task").iterdir():
            yield (task / "stat").read_text().rpartition(")")[2].split()[0]

    def go_on(self):
        """Goes on after a halt."""
        self.process.send_signal(signal.SIGCONT)

    def stop(self, number):
        """Sends it the signal; how it ended, as the shell says it."""
        self.process.send_signal(number)
        self.process.wait()
        return 128 - self.process.returncode if self.process.returncode < 0 else self.process.returncode

    def end(self):
        """Kill -9, where it still runs."""
        if self.process is not None and self.process.poll() is None:
            self.process.send_signal(signal.SIGKILL)
            self.process.wait()
