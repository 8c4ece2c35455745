"""What the cases of an agent have in common. Expected values come from the project's own programs."""

import contextlib
import pathlib
import shutil
import tempfile

from tests.kdc import realms
from tests.kdc.agent_database import database_of
from tests.kdc.agent_process import keys_of
from tests.kdc.at_kdc import AtKdc

FIRST = realms.FIRST


class AgentCase(AtKdc):
    """Each test has an agent of its own, unless it makes one."""

    def setUp(self):
        self.kdc = database_of(self.realm)

    @contextlib.contextmanager
    def elsewhere(self):
        """What an agent and the project's programs are started with for a copy of the database in another folder."""
        folder = pathlib.Path(tempfile.mkdtemp(prefix="agent_"))
        try:
            yield self.kdc.configured(folder, self.kdc.copy(folder))
        finally:
            shutil.rmtree(folder)

    def pages(self, agent):
        """Those of its memory that are there."""
        return int(pathlib.Path(f"/proc/{agent.process.pid}/statm").read_text().split()[1])

    def held(self, name):
        """What the KDC has of it: each key with its version."""
        return {(kvno, etype, key) for _, kvno, etype, key in self.realm.keys([name])}

    def state(self, *names):
        """All that the KDC has of them, to be compared with what it has later."""
        return [(sorted(self.held(name)), self.kdc.entry(name)) for name in names]

    def of(self, name, kvno, password):
        """The keys of that password under that version, and no others."""
        first, second = keys_of(name, password).split()
        return {(kvno, 18, first), (kvno, 17, second)}

    def logs_in(self, name, *passwords):
        return [self.realm.kinit(name, password) for password in passwords]
