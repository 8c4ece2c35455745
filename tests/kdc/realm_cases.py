"""What an administrator does at the KDC, with kadmin and with its files, while the service runs.

The service has no principal in its configuration: it takes them from the KDC.
"""

import signal
import time

from harness import configuration
from tests.kdc.agent_case import FIRST
from tests.kdc.agent_database import database_of
from tests.kdc.agent_process import without_rights
from tests.kdc.at_kdc import AtKdc
from tests.kdc.daemons import comes
from tests.kdc.realms import DONE, kdc_away
from tests.kdc.served import Served, TOLD

# milliseconds that a reply waits for the KDC at most
WAIT = 1500
# seconds in which the table follows the KDC, on a machine that does other work
SOON = 10
# more than may be removed at once
MANY = 12
# seconds in which both sides were compared, which nothing shows where nothing comes of it
COMPARED = 2
CHANGED = "code 0 password changed"
UNWRITABLE = "Permission denied: "


class RealmCases(AtKdc):
    """One test, whose steps go on from each other. Most have users of their own."""

    def setUp(self):
        self.kdc = database_of(self.realm)
        self.served = Served(self.realm, self.program, "realm", WAIT)
        self.addCleanup(self.served.end)
        self.first = [self.name() for _ in range(3)]

    def test_administrator(self):
        self.served.begin_agent()
        self.imported()
        self.served.configure(self.head() + self.own_names())
        self.served.start()
        self.realm.point_clients_at(self.served.server.port)
        self.in_turn(self.steps())
        self.told()

    def steps(self):
        return [
            self.taken, self.added, self.changed, self.expired, self.renamed, self.removed, self.both, self.dumped, self.locked,
            self.unwritable, self.killed, self.without_kdc, self.many,
        ]

    def head(self):
        """A configuration without principals."""
        text = configuration.configuration(self.realm.keytab(["admin"]), [])
        return text.partition("[[principal]]")[0]

    def follows(self, name, kvno):
        """Whether the table gets that version of the name, or loses it."""
        return comes(lambda: self.served.kvno(name) == kvno, SOON)

    def changes(self, name, password, new):
        """A change by the project's kpasswd, and a ticket by the new password and by the former one."""
        return self.realm.kpasswd(name, password, new, None), *(self.realm.kinit(name, it) for it in (new, password))

    GOOD = (DONE, True, False)

    def by_service(self, name, new):
        """A change by the service's own client, which needs no KDC, and how many lines of the log say that it isn't confirmed."""
        before, server = self.served.unconfirmed(), self.served.server
        words = ["--config", server.configuration, "--seed", "/dev/urandom", "--port", server.port, "--client", name]
        done = self.served.run("client", *words, f"--password={new}")
        return (done.stdout + done.stderr).strip(), self.served.unconfirmed() - before

    # ---- before the service runs

    def imported(self):
        """`import --kdc`: a stanza for each name of one component, and a line for each other one."""
        listed = set(self.kdc.listed())
        done = self.served.run("import", "--kdc", self.served.socket)
        names = {line.partition('"')[2].rstrip('"') for line in done.stdout.splitlines() if line.startswith("name = ")}
        self.tell("import: status", done.returncode, 0)
        self.tell("  our users are there", names >= {*self.first, "alice", "admin"})
        self.tell("  names that the KDC doesn't have, and of several components",
                  (names - listed, {name for name in names if "/" in name}), (set(), set()))
        *lines, last = done.stderr.splitlines()
        left = len(listed) - len(names)
        self.tell("  a line for each other one", (len(lines), last.endswith(f"imported {len(names)}, not imported {left}")),
                  (left, True))
        self.served.configure(self.head() + done.stdout)
        self.tell("  what check says of it: status", self.served.run("check", "--config", self.served.configuration).returncode, 0)

    # ---- the cases

    def taken(self):
        """Those whom the KDC has are the service's by themselves."""
        self.tell("the first start: in step", self.served.is_in_step())
        found = [self.follows(name, 1) for name in self.first]
        self.tell("  it has the KDC's users", found, [True] * len(found))
        self.tell("  and no others", set(self.served.keys()), set(self.first))
        name = self.first[0]
        self.tell("  one changes, and logs in", self.changes(name, FIRST, "Taken-pass1"), self.GOOD)

    def added(self):
        name = self.name()
        self.tell("addprinc: it is the service's", self.follows(name, 1))
        self.tell("  it changes, and logs in", self.changes(name, FIRST, "Added-pass1"), self.GOOD)
        self.tell("  versions of KDC and table", (self.realm.kvno(name), self.served.kvno(name)), (2, 2))

    def changed(self):
        name = self.first[0]
        self.realm.set_password(name, "Kadmin-pass1")
        self.tell("cpw: the table has the version", self.follows(name, self.realm.kvno(name)))
        self.tell("  the KDC's password stays", self.realm.kinit(name, "Kadmin-pass1"))
        self.tell("  the user changes, and logs in", self.changes(name, "Kadmin-pass1", "Changed-pass2"), self.GOOD)
        found, kvno = self.realm.kpasswd(name, "Changed-pass2", "Kadmin-pass1", None), self.realm.kvno(name)
        self.tell("  and isn't given the KDC's again", (found != DONE, self.realm.kvno(name) == kvno), (True, True))

    def expired(self):
        """A principal that has ended gets no ticket, for the service neither; its keys stay."""
        name = self.first[1]
        self.realm.expire(name)
        self.tell("modprinc -expire: a change", self.realm.kpasswd(name, FIRST, "Expired-pass1", None) == DONE, False)
        self.realm.revive(name)
        self.tell("  and never: it changes, and logs in", self.changes(name, FIRST, "Expired-pass2"), self.GOOD)

    def renamed(self):
        """The keys have the former name's salt, so the new one is the service's with its next password."""
        old, new = self.name(), self.name(known=False)
        self.follows(old, 1)
        self.realm.rename(old, new)
        self.tell("rename: the former name is gone", self.follows(old, None))
        self.realm.set_password(new, "Renamed-pass1")
        self.tell("  the new one is there with its next password", self.follows(new, self.realm.kvno(new)))
        self.tell("  it changes, and logs in", self.changes(new, "Renamed-pass1", "Renamed-pass2"), self.GOOD)

    def removed(self):
        name = self.name()
        self.tell("addprinc, and delprinc: it was there", self.follows(name, 1))
        self.realm.remove(name)
        self.tell("  it is gone", self.follows(name, None))
        self.realm.add(name, "Again-pass1")
        self.tell("  it is added once more", self.follows(name, self.realm.kvno(name)))
        self.tell("  it changes, and logs in", self.changes(name, "Again-pass1", "Again-pass2"), self.GOOD)

    def both(self):
        """The service and an administrator change a password while there is no agent, to one version."""
        name = self.first[2]
        self.served.end_agent()
        self.tell("both at once, no agent", self.realm.kpasswd(name, FIRST, "Service-pass1", None), DONE)
        self.realm.set_password(name, "Kadmin-pass1")
        self.served.begin_agent()
        self.tell("  an agent: in step", self.served.is_in_step())
        kvno = self.realm.kvno(name)
        self.tell("  the KDC's version is above both", (kvno, self.follows(name, kvno)), (3, True))
        found = self.realm.kinit(name, "Service-pass1"), self.realm.kinit(name, "Kadmin-pass1")
        self.tell("  and has the user's password", found, (True, False))
        self.tell("  the user changes again, and logs in", self.changes(name, "Service-pass1", "Both-pass2"), self.GOOD)

    def dumped(self):
        """An older dump is loaded: what the service has is put there anew."""
        name, dump = self.name(), self.served.folder / "dump"
        self.follows(name, 1)
        self.kdc.dump(dump)
        self.tell("a dump, and a change", self.changes(name, FIRST, "Dumped-pass1"), self.GOOD)
        self.kdc.load(dump)
        self.tell("  loaded: the KDC has the change again", comes(lambda: self.realm.kinit(name, "Dumped-pass1"), SOON))
        self.keys_are_the_tables(self.served, [name])

    def locked(self):
        """Somebody has the database for longer than a reply waits."""
        name = self.first[1]
        with self.realm.locked():
            found = self.by_service(name, "Locked-pass1")
        self.tell("the database is locked: a change, lines in the log", found, (CHANGED, 1))
        self.tell("  and free again: in step", self.served.is_in_step())
        self.tell("  a ticket by the new password", self.realm.kinit(name, "Locked-pass1"))

    def unwritable(self):
        """The database's files are such as the agent may only read, and then no more."""
        name, files = self.first[1], self.kdc.files()
        self.served.end_agent()
        for file in files:
            file.chmod(0o400)
        self.served.begin_agent(before=without_rights)
        found = self.by_service(name, "Unwritable-pass1")
        self.tell("the agent may not write: a change, lines in the log", found, (CHANGED, 1))
        self.tell("  how many the KDC is behind", self.served.status().get("kdc-behind"), "1")
        self.tell("  the agent's line", self.served.agent.told(f"the database can't be written: {UNWRITABLE}"), 1)
        for file in files:
            file.chmod(0o600)
        self.tell("  it may again: in step", self.served.is_in_step())
        self.tell("  a ticket by the new password", self.realm.kinit(name, "Unwritable-pass1"))

    def killed(self):
        """The agent by kill -9; whoever changes meanwhile has the new password once there is another one."""
        name = self.first[1]
        self.served.end_agent(signal.SIGKILL)
        self.tell("the agent is killed: status says so", comes(lambda: self.served.kdc() == "down", 1))
        self.tell("  a change", self.realm.kpasswd(name, "Unwritable-pass1", "Killed-pass1", None), DONE)
        self.served.begin_agent()
        self.tell("  the next one: in step", self.served.is_in_step())
        found = self.realm.kinit(name, "Killed-pass1"), self.realm.kinit(name, "Unwritable-pass1")
        self.tell("  the new password, the former one", found, (True, False))

    def without_kdc(self):
        """The KDC ends and comes again: the agent needs its database alone."""
        name = self.first[1]
        with kdc_away(self.realm):
            found = self.by_service(name, "Away-pass1")
        self.tell("the KDC is stopped: a change, lines in the log", found, (CHANGED, 0))
        self.tell("  and started: a ticket by the new password", self.realm.kinit(name, "Away-pass1"))

    def many(self):
        """Many that are gone at once stay, and that is told; they come back as they were."""
        names = [self.name() for _ in range(MANY)]
        self.tell(f"{MANY} more users", all(self.follows(name, 1) for name in names))
        dump = self.served.folder / "all"
        self.kdc.dump(dump)
        self.served.end_agent()
        for name in names:
            self.realm.remove(name)
        self.served.begin_agent()
        self.tell("  they are gone at the KDC: in step", self.served.is_in_step())
        time.sleep(COMPARED)
        self.tell("  the table has them all", set(self.served.keys()) >= set(names))
        self.kdc.load(dump)
        self.tell("  they are loaded: one changes, and logs in", self.changes(names[0], FIRST, "Many-pass1"), self.GOOD)
        self.realm.remove(names[1])
        self.tell("  one alone is removed", self.follows(names[1], None))

    # ---- at the end

    def told(self):
        """What was told on standard error: each of it once, and nothing of a fault."""
        lines = [line.removeprefix(f"{self.served.socket}: ") for line in self.served.ended()]
        lacks = [line for line in lines if line.startswith("the KDC lacks ")]
        self.tell("told: that many are gone, once", len(lacks), 1)
        failed = [line for line in lines if line.startswith(f"the KDC's database can't be had: {UNWRITABLE}")]
        self.tell("  that it may not be written, once", len(failed), 1)
        self.tell("  of changes that the KDC didn't have yet", TOLD in lines)
        self.tell("  of a fault", [line for line in lines if "said what it may not" in line or "lost" in line], [])
