"""What goes wrong while users change their passwords. Each fault goes on in a thread until `over` is set.

Whatever is killed gets kill -9, and another one comes.
"""

import contextlib
import dataclasses
import math
import random
import signal
import threading
import time
from concurrent.futures import ThreadPoolExecutor

from tests.kdc.agent_process import Agent
from tests.kdc.daemons import comes
from tests.kdc.death_cases import dying_library
from tests.kdc.realms import FIRST, kdc_away

# seconds between two kills of the service, or of the KDC
APART = 3, 6
# for which the KDC is away at most
AWAY = 1
# of a name that is in the KDC's database alone
STRANGER = "eve"


@contextlib.contextmanager
def going_on(*faults):
    """They go on meanwhile; what one of them raises is raised at the end."""
    over = threading.Event()
    with ThreadPoolExecutor(len(faults)) as threads:
        running = [threads.submit(fault, over) for fault in faults]
        try:
            yield
        finally:
            over.set()
            for each in running:
                each.result()


@dataclasses.dataclass(frozen=True)
class Password:
    """It was asked for or set between these two moments."""

    name: str
    text: str
    begun: float
    ended: float


class Breaking:
    """What is done to the service and the agent of `files`, to their KDC, and to passwords of these names. When is drawn from the
    seed."""

    def __init__(self, files, names, seed):
        self.files, self.realm, self.names, self.seed = files, files.realm, names, seed
        self.library = dying_library(self.realm.folder)
        # how each ended that was killed, as the shell says it
        self.agents, self.services, self.kdcs = [], [], []
        # what the services told that were killed, and the agents
        self.told, self.agents_told = [], []
        # whether the stranger could log in each time that the KDC had come again
        self.logins = []
        # what an administrator set
        self.set = []

    def drawn(self, fault):
        """What draws for this fault, whatever goes on beside it."""
        return random.Random(f"{self.seed} {fault}")

    def kills_agents(self, over, steps, life):
        """One agent after the other, each killed at the next of these steps (dying.c), and so many seconds after it listens at
        most."""
        draw = self.drawn("agents")
        for step in steps:
            if over.is_set():
                return
            agent = Agent(self.realm, path=self.files.socket, LD_PRELOAD=self.library, DYING_AT=str(step))
            end = math.inf
            while agent.process.poll() is None and not over.is_set() and time.monotonic() < end:
                if end == math.inf and agent.told("listening"):
                    end = time.monotonic() + draw.uniform(0, life)
                time.sleep(0.005)
            self.agents.append(-agent.stop(signal.SIGKILL))
            self.agents_told += agent.all_lines

    def kills_service(self, over, soon):
        """Once at least, within so many seconds."""
        draw = self.drawn("services")
        time.sleep(draw.uniform(0.1 * soon, soon))
        while True:
            self.kill_service()
            self.files.start()
            if over.wait(draw.uniform(*APART)):
                return

    def kill_service(self):
        """What it had told, a line each."""
        self.services.append(self.files.server.stop(signal.SIGKILL) - 128)
        told = self.files.server.process.stderr.read().splitlines()
        self.told += told
        return told

    def kills_kdc(self, over, soon):
        """Once at least, within so many seconds."""
        draw = self.drawn("KDCs")
        time.sleep(draw.uniform(0, soon))
        while True:
            with kdc_away(self.realm, signal.SIGKILL) as status:
                self.kdcs.append(-status)
                time.sleep(draw.uniform(0, AWAY))
            self.logins.append(comes(lambda: self.realm.kinit(STRANGER, FIRST)))
            if over.wait(draw.uniform(*APART)):
                return

    def administers(self, over, pause):
        """An administrator sets passwords at the KDC, with so many seconds between two at most."""
        draw = self.drawn("administrator")
        while not over.wait(draw.uniform(0, pause)):
            name, text, begun = draw.choice(self.names), f"Kadmin-pass{len(self.set) + 1}", time.monotonic()
            self.realm.set_password(name, text)
            self.set.append(Password(name, text, begun, time.monotonic()))
