"""Disks that are full, or fail: nothing is confirmed that isn't there, and the database stays whole."""

import contextlib
import pathlib
import random

from tests.kdc.agent_case import FIRST, AgentCase
from tests.kdc.agent_process import hexed, keys_of, preload

KEYS = "1" * 64 + " " + "2" * 32


class AgentDisk(AgentCase):
    def test_a_full_disk(self):
        """Nothing can be written for a while: nothing is confirmed, and later all is as ever."""
        name, sign = self.name(), self.realm.folder / "full"
        kept = self.state(name)
        more = {"LD_PRELOAD": preload(self.realm, "agent_full"), "FULL": str(sign)}
        with self.talking(**more) as line:
            sign.write_text("")
            for _ in range(2):
                self.tell("a full disk: put", line.put(name, 2, "Full-pass2").split()[:2], ["failed", hexed(name)])
                self.tell("  and nothing else is said", line.answer(0.3), None)
            sign.unlink()
            self.tell("  the entry is as it was", self.state(name) == kept)
            self.tell("  get", line.ask(f"get {hexed(name)}"), f"has {hexed(name)} 1 {keys_of(name, FIRST)}")
            self.tell("  room again: put", line.put(name, 2, "Full-pass2"), f"put {hexed(name)} 2")
        self.tell("  the KDC's keys", self.held(name), self.of(name, 2, "Full-pass2"))
        self.tell("  logins by it, and by the former", self.logs_in(name, "Full-pass2", FIRST), [True, False])

    def data(self, folder):
        """The database's file there."""
        return folder / ("principal" if self.realm.KIND == "MIT" else "heimdal.db")

    @contextlib.contextmanager
    def growing(self):
        """An agent at a copy of the database with `names` that get longer by what is put, the database's file, the file by which
        there is no room for that, and what the project's programs are started with."""
        name = self.name(known=False)
        self.kdc.add_keyless(name, FIRST)
        try:
            with self.elsewhere() as more:
                self.kdc.multiply(name, 300, **more)
                folder = next(map(pathlib.Path, more.values())).parent
                data = self.data(folder)
                faults = {"LD_PRELOAD": preload(self.realm, "agent_growing"), "GROWING": f"{folder}/growing", "DATA": str(data)}
                with self.talking(**more, **faults) as line:
                    line.names = [it.split()[1] for it in line.listed() if it.split()[1].startswith("many".encode().hex())]
                    yield line, data, folder / "growing", more
        finally:
            self.realm.remove(name)

    def test_a_database_that_cannot_grow(self):
        """Where no room can be reserved, an entry may be gone once the disk gets full amid a write: it isn't confirmed."""
        with self.growing() as (line, _, sign, _):
            sign.write_text("1")
            # in another order than theirs in the database, so that some are lost by their own write
            random.Random(1).shuffle(line.names)
            answers, wrong = [], []
            for name in line.names:
                answers.append(line.ask(f"put {name} 7 {KEYS}").split()[0])
                if answers[-1] == "put" and (found := line.ask(f"get {name}")) != f"has {name} 7 {KEYS}":
                    wrong.append((name, found))
                if answers.count("failed") > 5:
                    break
            self.tell("a database that can't grow: the first put", answers[0], "put")
            self.tell(f"  {answers.count('put')} more, of which aren't there", wrong, [])

    def test_a_disk_without_room(self):
        """Room is reserved before the database is touched: it stays whole, and is written once there is some."""
        with self.growing() as (line, data, sign, more):
            names = line.names[::10]
            before, known = data.read_bytes(), line.listed()
            sign.write_text("")
            answers = {line.ask(f"put {name} 7 {KEYS}").removeprefix(f"failed {name} ") for name in names}
            self.tell("a disk without room: thirty puts", answers, {"No space left on device"})
            self.tell("  none is told", line.quiet(0.5))
            self.tell("  the database is as it was, byte by byte", data.read_bytes() == before)
            self.tell("  list", line.listed() == known)
            sign.unlink()
            answers = [line.ask(f"put {name} 7 {KEYS}") for name in names]
            self.tell("  room again: puts", answers, [f"put {name} 7" for name in names])
            known = [f"has {it.split()[1]} 7" if it.split()[1] in names else it for it in known]
            self.tell("  list", line.listed() == known)
            found = [self.kdc.shows_version(7, self.kdc.project("get", bytes.fromhex(name).decode(), **more)) for name in names[:5]]
            self.tell("  the KDC's versions", found, [True] * 5)
            self.tell("  the room isn't the database's own", data.stat().st_size < len(before) + (1 << 20))

    def test_a_sync_that_fails(self):
        """What may not be on the disk isn't confirmed, and is written once more when it is asked for again."""
        name, sign = self.name(), self.realm.folder / "unsynced"
        faults = {"LD_PRELOAD": preload(self.realm, "agent_unsynced"), "UNSYNCED": str(sign), "DATA": str(self.data(self.realm.folder))}
        with self.talking(**faults) as line:
            sign.write_text("")
            self.tell("a sync that fails: put", line.put(name, 2, "Sync-pass2"), f"failed {hexed(name)} Input/output error")
            self.tell("  get", line.ask(f"get {hexed('alice')}").split()[0], "has")
            sign.unlink()
            self.tell("  the same again: put", line.put(name, 2, "Sync-pass2"), f"put {hexed(name)} 3")
            self.tell("  another: put", line.put(name, 9, "Sync-pass9"), f"put {hexed(name)} 9")
        self.tell("  the KDC's keys", self.held(name), self.of(name, 9, "Sync-pass9"))
