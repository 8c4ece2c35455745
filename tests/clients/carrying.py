"""Carries the newest keys of the service's table into the database of an MIT KDC, by kdc's agent."""

import subprocess

from harness.realm import Failed

from harness.agent_building import built
from tests.kdc.agent_process import Agent, hexed


class Carrier:
    """An agent runs for as long as something is carried."""

    def __init__(self, realm, server):
        self.folder = realm.folder
        self.server = server
        self.program = built(realm.mit, self.folder / "built", "mit")
        self.environment = realm.environment(realm.mit)

    def agent(self, _):
        """The agent's program and its environment, as its process asks a realm for them."""
        return self.program, self.environment

    def table(self):
        """Of each name its newest version, and the keys as a line to an agent has them."""
        files = ["--config", self.server.configuration, "--journal", self.server.journal]
        done = subprocess.run([self.server.program, "table", *files, "--as", "keys"], capture_output=True, text=True)
        if done.returncode != 0:
            raise Failed(f"table: {done.stdout}{done.stderr}")
        found = {}
        for line in done.stdout.splitlines():
            name, kvno, _, _, key, _ = line.split()
            newest, keys = found.setdefault(name.rpartition("@")[0], (int(kvno), []))
            if int(kvno) == newest:
                keys.append(key)
        return found

    def carry(self):
        """Who has a newer version in the table has its keys at the KDC then, and no others."""
        table = self.table()
        also = [word for name in table if "/" in name for word in ("--also", name)]
        with Agent(self, *also) as agent, agent.connected() as connection:
            held = {name: int(kvno) for _, name, kvno in map(str.split, connection.listed())}
            for name, (kvno, keys) in table.items():
                if kvno > held[hexed(name)]:
                    wanted = f"put {hexed(name)} {kvno}"
                    answer = connection.ask(f"{wanted} {' '.join(keys)}")
                    if answer != wanted:
                        raise Failed(f"the agent answers {answer}")
