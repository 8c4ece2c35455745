"""`serve` with each of its allocations refused in turn, a raise when it starts, and a client that sends one request three times.

The service isn't started, and says that it wants memory; or it serves. Then a connection may end without a reply, and the service
early. The journal has the raise, and the change once, and no reply says that it was made again.
"""

import contextlib
import pathlib
import subprocess
import tempfile

from harness.asking import request_now
from harness.journal import Raise, read_journal
from harness.sample_realm import write_configuration
from harness.server import Server
from harness.serving import CHANGED, REPLAYED, Client
from tests.hostile.refusing import ended

CONNECTIONS = 3
# The most that the client tries where connections end.
TRIES = 6
SECONDS = 60
NONE = "no reply"
# What the journal may hold before the change.
RAISED = ["raise 5"]
MEMORY = "memory\n"


class Served:
    """A run of the service, what its client was told, and what its journal has."""

    def __init__(self, run, told, journal):
        self.run = run
        self.told = told
        self.journal = journal

    status = property(lambda self: self.run.status)
    allocations = property(lambda self: self.run.allocations)

    def seen(self):
        return self.run.status, self.run.out, self.run.errors, self.told, self.journal

    def __repr__(self):
        return f"{self.seen()}"


def told(server, sent):
    """What the reply on a new connection says."""
    try:
        with contextlib.closing(Client(server)) as client:
            return client.ask(sent)
    except OSError:
        return NONE


def ask(server, sent):
    """Three times, and then as long as the service waits for a connection."""
    said = []
    while len(said) < TRIES:
        said.append(told(server, sent))
        if len(said) >= CONNECTIONS:
            with contextlib.suppress(subprocess.TimeoutExpired):
                server.process.wait(1)
                break
    return said


def lines_of_start(server):
    """What it prints up to its line `listening`, or an empty line where it ends before that."""
    lines = [server.next_line()]
    while lines[-1] and not lines[-1].startswith("listening on "):
        lines.append(server.next_line())
    return lines


def serve(refusing, program, number):
    with tempfile.TemporaryDirectory() as folder:
        server = Server(program, pathlib.Path(folder), workers=2, options=["--raise", 5])
        write_configuration(server.configuration, ["alice", "bob"], iterations=4)
        server.launch(CONNECTIONS, env=refusing.environment(number))
        try:
            *printed, last = lines_of_start(server)
            said = ask(server, request_now("alice", "New-pass2", 7)) if last else []
            out, errors = server.process.communicate(timeout=SECONDS)
        finally:
            server.end()
        run = ended(server.process.returncode, "".join([*printed, out]).encode(), errors.encode())
        return Served(run, said, records(server.journal))


def records(journal):
    """What the journal's records are, a change by its version, and whether it ends in the middle of one."""
    found, torn = read_journal(journal.read_bytes()) if journal.exists() else ([], b"")
    return [f"raise {it.iterations}" if isinstance(it, Raise) else f"kvno {it.kvno}" for it in found], bool(torn)


MADE, NOT_MADE = ([*RAISED, "kvno 2"], False), [([], False), (RAISED, False)]


def place(served, whole):
    """Where a refusal fell, and what is wrong with the run, or nothing."""
    if served.seen() == whole.seen():
        good = served.status == 0 and served.told == [CHANGED, REPLAYED, REPLAYED] and served.journal == MADE
        return "nowhere", None if good else f"{served.seen()}"
    if not served.told:
        where, good = "refused", served.status == 1 and served.journal in NOT_MADE
    else:
        where = "a connection ended" if served.status == 0 else "refused later"
        good = is_once(served) and served.status in (0, 1)
    is_told = (MEMORY in served.run.errors) == (served.status == 1)
    return where, None if good and is_told else f"{served.seen()}"


def is_once(served):
    """Whether the change was made once, or not at all where the service ended early."""
    replies = [it for it in served.told if it != NONE]
    in_order = replies == [CHANGED] * replies.count(CHANGED) + [REPLAYED] * replies.count(REPLAYED)
    made = served.journal == MADE or (not replies and served.status and served.journal in NOT_MADE)
    return in_order and replies.count(CHANGED) <= 1 and made
