"""Kills the service during changes, and looks for each answered change in the journal.

One journal grows over all runs. In each, clients run the command again and again, each for a principal of its own and with
another password each time, until `kill -9`, or the signal that is named, ends the server at a moment drawn at random, up to
half a second after the first answer. Then the server is started again on that journal. A change counts as answered where
the command printed a line that begins with `0 ` or `code 0 `. Each of those has to be in the journal: in order, version
after version from 2 on, with the keys of its password. A client may have one more there from each run, the one whose answer
was lost. What was in the journal before a run stays as it was.

In the command's words {config}, {seed}, {port}, {client} and {password} are replaced; by default it is the service's own
client, which needs no KDC. A command makes one change, with that password.

A service that found a journal refuses what was asked within 300 seconds of its start. So the command's clock is that much
ahead (harness/ahead.c, which gcc makes a library of): as much as the service allows. The command has to take its time from the C
library, and that from LD_PRELOAD.
"""

import argparse
import itertools
import os
import pathlib
import random
import signal
import subprocess
import sys
import tempfile
import threading
import time

from harness.ahead import clock_ahead
from harness.command import Parser
from harness.journal import read_journal
from harness.kept import ITERATIONS, wrong_in_journal
from harness.sample_realm import write_configuration
from harness.server import Server

CLIENT = "client --config {config} --seed {seed} --port {port} --client {client}"
DEFAULT = [*CLIENT.split(), "--password", "{password}"]
# seconds from the first answer of a run to the kill, at most
LONGEST = 0.5
WORKERS = 4


class Changes(threading.Thread):
    """One command after the other for one principal, until one fails.

    `asked` are the passwords in order; the first `answered` of them were accepted.
    """

    def __init__(self, server, command, name, run, environment):
        super().__init__()
        self.server = server
        self.command = command
        self.name = name
        self.run_number = run
        self.environment = environment
        self.asked = []
        self.answered = 0
        self.last = ""

    def run(self):
        for number in itertools.count():
            self.asked.append(f"{self.name}-Run{self.run_number}-Pass{number}")
            done = subprocess.run(
                [word.format_map(self.words()) for word in self.command],
                stdin=subprocess.DEVNULL,
                stdout=subprocess.PIPE,
                stderr=subprocess.STDOUT,
                text=True,
                env=self.environment,
            )
            lines = done.stdout.splitlines()
            self.last = lines[-1] if lines else ""
            if not any(line.startswith(("0 ", "code 0 ")) for line in lines):
                return
            self.answered += 1

    def words(self):
        return {
            "config": self.server.configuration,
            "seed": "/dev/urandom",
            "port": self.server.port,
            "client": self.name,
            "password": self.asked[-1],
        }


def killed(server, clients, number):
    """Ends the server under the clients by the signal; what went wrong before, or with its end."""
    server.start(connections=1_000_000)
    # into the next second: what is asked in the start's own is refused, 300 seconds ahead or not
    time.sleep(1.01 - time.time() % 1)
    for client in clients:
        client.start()
    while any(client.is_alive() for client in clients) and not any(c.answered for c in clients):
        time.sleep(0.001)
    time.sleep(random.uniform(0, LONGEST))
    early = [client for client in clients if not client.is_alive()]
    begun = time.monotonic()
    status = server.stop(number)
    seconds = time.monotonic() - begun
    for client in clients:
        client.join()
    faults = [f"{client.name}'s command failed before the kill: {client.last}" for client in early]
    if status != 128 + number:
        faults.append(f"it ended with status {status}")
    if seconds > 1:
        faults.append(f"it ended after {seconds:.1f} s")
    return faults


def restarted(server):
    """Starts the server once more, and ends it; what is wrong."""
    left = server.journal.read_bytes()
    _, torn = read_journal(left)
    wanted = "entries 0 changes 0"
    if torn:
        wanted += f"\n{server.journal}: a torn tail was cut off after {len(left) - len(torn)} bytes"
    server.start(connections=1)
    server.connect()
    words = server.last_words()
    if words != wanted:
        yield f"after the restart: {words}"
    _, torn = read_journal(server.journal.read_bytes())
    if torn:
        yield f"after the restart: {len(torn)} bytes of a torn tail"


class Total:
    """What all runs found; each is ended by this signal."""

    def __init__(self, number):
        self.number = number
        self.answered = self.tails = self.failed = 0

    def one_run(self, server, clients):
        """What is wrong, a line each."""
        before = server.journal.read_bytes() if server.journal.exists() else b""
        faults = killed(server, clients, self.number)
        _, torn = read_journal(server.journal.read_bytes())
        faults += restarted(server)
        faults += wrong_in_journal(clients, before, server.journal.read_bytes())
        self.answered += sum(client.answered for client in clients)
        self.tails += bool(torn)
        self.failed += bool(faults)
        return faults


def all_runs(server, command, names, runs, number):
    """Prints what is wrong, and the last lines."""
    environment = {**os.environ, "LD_PRELOAD": str(clock_ahead(server.journal.parent))}
    total = Total(number)
    for run in range(1, runs + 1):
        clients = [Changes(server, command, name, run, environment) for name in names]
        for fault in total.one_run(server, clients):
            print(f"FAILED: run {run}: {fault}", flush=True)
    kept = len(read_journal(server.journal.read_bytes())[0])
    print(f"answered {total.answered}, in the journal {kept}, torn tails {total.tails}")
    print(f"runs {runs} failed {total.failed}")
    return total.failed


def main():
    parser = Parser(__doc__, "runs N failed M")
    parser.add_program("--program")
    parser.add_argument("--runs", type=int, default=100, metavar="N", help="by default 100")
    parser.add_argument("--clients", type=int, default=4, metavar="N", help="by default 4")
    parser.add_argument("--signal", choices=["KILL", "TERM"], default="KILL", help="by default KILL")
    parser.add_argument("command", nargs=argparse.REMAINDER, metavar="COMMAND", help="what makes a change, with its words")
    arguments = parser.parse_args()
    command = arguments.command or [str(arguments.program), *DEFAULT]
    names = [f"user{number}" for number in range(arguments.clients)]
    with tempfile.TemporaryDirectory(prefix="chpw-kill-") as folder:
        server = Server(arguments.program, pathlib.Path(folder), WORKERS)
        write_configuration(server.configuration, names, iterations=ITERATIONS)
        try:
            number = signal.Signals["SIG" + arguments.signal]
            failed = all_runs(server, command, names, arguments.runs, number)
        finally:
            server.end()
    sys.exit(1 if failed else 0)


if __name__ == "__main__":
    main()
