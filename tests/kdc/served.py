"""The service beside the agent at a KDC's database, and what it tells of both."""

import contextlib
import signal
import subprocess
import time

from harness.server import Server, private
from tests.kdc.agent_process import Agent
from tests.kdc.daemons import comes

UNCONFIRMED = "not confirmed by the KDC"
TOLD = "the KDC did not have a change in time; more are not reported until one is confirmed"
DOWN = "no connection to the KDC's agent; it is tried again"
MISSPOKEN = "the KDC's agent said what it may not; it is called again"
# seconds in which no further line comes after the last reply
SETTLES = 0.1
# connections: it doesn't end by itself
MOST = 1_000_000
# seconds after which an agent that was away is found again: the service's longest pause, and some more
FOUND = 40


class Served:
    """The service in a folder of the realm's, and an agent for it, of which `agent` is the one that runs.

    A reply is held back for so many milliseconds at most. `also` are names of several components that the agent may
    write.
    """

    def __init__(self, realm, program, name, wait, workers=2, options=(), also=()):
        self.realm, self.program = realm, program
        self.folder = realm.folder / name
        self.folder.mkdir()
        self.socket, self.control, self.log = (self.folder / it for it in ("agent", "control", "log"))
        words = ["--kdc", self.socket, "--kdc-wait", wait, "--control", self.control, "--log", self.log]
        self.server = Server(program, self.folder, workers, options=[*words, *options])
        self.configuration, self.journal = self.server.configuration, self.server.journal
        self.also = [word for it in also for word in ("--also", it)]
        self.agent = None

    # ---- the two programs

    def configure(self, text):
        private(self.configuration).write_text(text)

    def start(self):
        self.server.start(connections=MOST)

    def begin_agent(self, **more):
        """It listens."""
        self.agent = Agent(self.realm, *self.also, path=self.socket, **more)
        self.agent.__enter__()

    def end_agent(self, number=signal.SIGTERM):
        """How it ends."""
        agent, self.agent = self.agent, None
        return agent.stop(number)

    @contextlib.contextmanager
    def with_agent(self):
        """An agent that the service has found, and whose database it has compared with its table."""
        self.begin_agent()
        try:
            if not self.is_in_step():
                raise RuntimeError(f"the service and the KDC aren't in step: {self.status()}")
            yield
        finally:
            status = self.end_agent()
        if status != 0:
            raise RuntimeError(f"the agent's status {status}")

    def end(self):
        if self.agent is not None:
            self.end_agent()
        self.server.end()

    def ended(self):
        """The service ends by SIGTERM: what it told on standard error, a line each."""
        self.server.stop(signal.SIGTERM)
        return self.server.process.stderr.read().splitlines()

    # ---- what is told

    def run(self, *words):
        return subprocess.run([self.program, *map(str, words)], capture_output=True, text=True)

    def status(self):
        """The rows of `status`, by their names; none where the service isn't there."""
        done = self.run("control", "--socket", self.control, "status")
        return dict(line.split(" ", 1) for line in done.stdout.splitlines() if " " in line)

    def kdc(self):
        return self.status().get("kdc")

    def is_in_step(self, seconds=FOUND):
        """Whether the service is connected, and nothing is on its way to the KDC."""
        def is_so():
            rows = self.status()
            return (rows.get("kdc"), rows.get("kdc-behind")) == ("connected", "0")
        return comes(is_so, seconds)

    def unconfirmed(self):
        """How many changes were answered without the KDC's word; a line may come a moment after its reply."""
        text, before = self.log.read_text(), None
        while text != before:
            time.sleep(SETTLES)
            text, before = self.log.read_text(), text
        return text.count(UNCONFIRMED)

    def length(self):
        return self.journal.stat().st_size

    def keys(self):
        """What the table has of each name: kvno, etype and key."""
        done = self.run("table", "--config", self.configuration, "--journal", self.journal, "--as", "keys")
        if done.returncode != 0:
            raise RuntimeError(done.stderr)
        found = {}
        for line in done.stdout.splitlines():
            name, kvno, etype, _, key, _ = line.split()
            name = name.rpartition("@")[0].replace("\\x20", " ")
            found.setdefault(name, set()).add((int(kvno), int(etype), key))
        return found

    def newest_keys(self, names):
        """As `Realm.keys` has them."""
        table = self.keys()
        return {
            (name, *it) for name in names for it in table.get(name, ()) if it[0] == max(table[name])[0]
        }

    def kvno(self, name):
        """The newest version in the table; None where it hasn't the name."""
        keys = self.keys().get(name)
        return max(keys)[0] if keys else None
