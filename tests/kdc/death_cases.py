"""An agent that is killed at each of its steps (dying.c) while it writes, and what the next one finds."""

import signal
import subprocess

from tests.kdc import realms
from tests.kdc.agent_process import Agent, hexed, keys_of
from tests.kdc.at_kdc import AtKdc

# steps after which it has to have answered
MOST_STEPS = 400


def dying_library(folder):
    """The library of dying.c, compiled."""
    library = folder / "dying.so"
    source = realms.HERE / "dying.c"
    options = ["-std=c11", "-D_GNU_SOURCE", "-Wall", "-Wextra", "-Werror", "-shared", "-fPIC"]
    subprocess.run(["gcc", *options, "-O1", "-o", library, source], check=True)
    return str(library)


class DeathCases(AtKdc):
    def test_each_step(self):
        library = dying_library(self.realm.folder)
        name = self.name()
        deaths, faults = self.steps(name, library)
        self.tell(f"killed at each of {deaths} steps: entries that are neither the former nor the new one", faults, [])
        self.tell("  some of the steps", deaths > 4)

    def steps(self, name, library):
        """How many steps there are from the start to the answer, and after which it goes wrong."""
        faults, kvno, password = [], 1, realms.FIRST
        for step in range(1, MOST_STEPS):
            new = f"Death-pass{step}"
            is_answered = self.dies_at(step, library, name, kvno + 1, new)
            former = f"has {hexed(name)} {kvno} {keys_of(name, password)}"
            wanted = f"has {hexed(name)} {kvno + 1} {keys_of(name, new)}"
            with self.talking() as line:
                found = line.ask(f"get {hexed(name)}")
                if found not in (former, wanted) or is_answered and found != wanted:
                    faults.append((step, "found", found))
                # what was asked for is asked again
                again = line.put(name, kvno + 1, new)
            tickets = self.realm.kinit(name, new), self.realm.kinit(name, password)
            if (again, tickets) != (f"put {hexed(name)} {kvno + 1}", (True, False)):
                faults.append((step, again, tickets))
            kvno, password = kvno + 1, new
            if is_answered:
                return step - 1, faults
        return MOST_STEPS, faults

    def dies_at(self, step, library, name, kvno, password):
        """Whether it answers; it may end before."""
        dying = Agent(self.realm, LD_PRELOAD=library, DYING_AT=str(step))
        try:
            if not dying.told("listening", 1):
                return False
            with dying.connected() as line:
                return line.put(name, kvno, password) == f"put {hexed(name)} {kvno}"
        except OSError:
            return False
        finally:
            dying.stop(signal.SIGKILL)
