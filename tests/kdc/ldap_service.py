"""The service at a KDC whose database is in a directory: users' changes, an administrator's, and when the service sees those."""

import itertools
import time

from tests.kdc.agent_case import FIRST
from tests.kdc.daemons import comes
from tests.kdc.ldap_cases import InDirectory
from tests.kdc.realm_cases import CHANGED, RealmCases
from tests.kdc.realms import DONE

# seconds in which the table stays as it is, where nobody tells the service of a change
STAYS = 2.5
FAILED = "the KDC's database can't be had: "
LIMIT = "Size limit exceeded"


class LdapService(InDirectory, RealmCases):
    """MIT's agent isn't told of what others write, so the service sees that when it compares. Heimdal's log tells of it."""

    def steps(self):
        return [
            self.taken, self.arrived, self.added, self.changed, self.unseen, self.compared, self.removed, self.refused,
            self.server_away, self.server_hangs, self.given_in_part,
        ]

    @property
    def is_told(self):
        return self.realm.KIND == "Heimdal"

    def control(self, *words):
        """The last line that it prints: `reload` is what `systemctl reload boddrelyn` does."""
        done = self.served.run("control", "--socket", self.served.control, *words)
        return done.stdout.splitlines()[-1:]

    def has(self, name, kvno):
        """Whether the table gets that version before anything is done."""
        return comes(lambda: self.served.kvno(name) == kvno, STAYS)

    def restart_agent(self):
        self.served.end_agent()
        self.served.begin_agent()

    def sees(self, what, name, kvno):
        """The table gets that version by itself where the agent is told, and else by a reload."""
        self.tell(f"{what}: the table has it by itself", self.has(name, kvno), self.is_told)
        self.tell("  a reload", self.control("reload"), ["ok"])
        self.tell("  and then it has it", self.follows(name, kvno))

    # ---- the cases

    def arrived(self):
        """Each change is in the directory with its reply."""
        name = self.first[1]
        for number, former in enumerate([FIRST, "Arrived-pass0", "Arrived-pass1"]):
            self.tell("a change, and logins", self.changes(name, former, f"Arrived-pass{number}"), self.GOOD)
        self.tell("  versions of KDC and table", (self.realm.kvno(name), self.served.kvno(name)), (4, 4))
        self.keys_are_the_tables(self.served, [name])
        self.tell("  replies that waited in vain", self.served.unconfirmed(), 0)

    def added(self):
        name = self.name()
        if not self.is_told:
            found = self.realm.kpasswd(name, FIRST, "Added-pass1", None)
            self.tell("addprinc: a change at once is refused", "no such principal" in found)
        self.sees("addprinc", name, 1)
        self.tell("  it changes, and logs in", self.changes(name, FIRST, "Added-pass2"), self.GOOD)

    def changed(self):
        name = self.first[0]
        self.realm.set_password(name, "Kadmin-pass1")
        self.tell("cpw: the KDC's password", self.realm.kinit(name, "Kadmin-pass1"))
        self.sees("cpw", name, self.realm.kvno(name))
        self.tell("  the user changes, and logs in", self.changes(name, "Kadmin-pass1", "Changed-pass2"), self.GOOD)
        again = self.realm.kpasswd(name, "Changed-pass2", "Kadmin-pass1", None)
        self.tell("  and isn't given the KDC's again", again == DONE, False)

    def unseen(self):
        """The user changes what an administrator has set, before the service has seen that."""
        name = self.first[2]
        self.realm.set_password(name, "Unseen-pass1")
        kvno = self.realm.kvno(name)
        self.tell("cpw, and a change at once", self.changes(name, "Unseen-pass1", "Unseen-pass2"), self.GOOD)
        self.tell("  its version is the one after", (self.realm.kvno(name), self.follows(name, kvno + 1)), (kvno + 1, True))
        self.keys_are_the_tables(self.served, [name])

    def compared(self):
        """What an administrator may do in place of a reload, and what is none."""
        name = self.first[2]
        self.realm.set_password(name, "Compared-pass1")
        kvno = self.realm.kvno(name)
        self.tell("cpw: the table has it by itself", self.has(name, kvno), self.is_told)
        self.restart_agent()
        self.tell("  another agent, and it has it", self.follows(name, kvno))
        self.realm.set_password(name, "Compared-pass2")
        kvno = self.realm.kvno(name)
        for words in ("reopen-log",), ("compact", self.served.folder / "present.toml"):
            found = self.control(*words), self.has(name, kvno)
            self.tell(f"cpw, and {words[0]}: the table has it", found, (["ok"], self.is_told))
        self.sees("  and a reload", name, kvno)
        self.tell("  the user changes, and logs in", self.changes(name, "Compared-pass2", "Compared-pass3"), self.GOOD)

    def removed(self):
        name = self.name()
        self.sees("addprinc", name, 1)
        self.realm.remove(name)
        self.sees("delprinc", name, None)

    def refused(self):
        """A principal whose keys are locked down in the directory."""
        name = self.name()
        self.sees("addprinc", name, 1)
        self.kdc.lock_down(name)
        found = self.by_service(name, "Refused-pass1")
        self.tell("its keys are locked down: a change, lines in the log", found, (CHANGED, 0))
        self.tell("  status", self.served.status().get("kdc-refused"), f"{name} lockdown")
        self.tell("  the KDC's password stays", (self.realm.kinit(name, FIRST), self.realm.kvno(name)), (True, 1))

    # ---- the server

    def server_away(self):
        """It ends and comes back, and nobody does anything else."""
        name = self.first[1]
        with self.realm.directory.away():
            found = self.by_service(name, "Away-pass1")
            behind = self.served.status().get("kdc-behind")
        self.tell("the directory has ended: a change, lines in the log", found, (CHANGED, 1))
        self.tell("  how many the KDC is behind", behind, "1")
        self.tell("  it is back: in step", self.served.is_in_step())
        self.tell("  logins", [self.realm.kinit(name, it) for it in ("Away-pass1", "Arrived-pass2")], [True, False])

    def server_hangs(self):
        name = self.first[1]
        with self.realm.directory.hanging():
            found = self.by_service(name, "Hanging-pass1")
        self.tell("the directory hangs: a change, lines in the log", found, (CHANGED, 1))
        self.tell("  it goes on: in step", self.served.is_in_step())
        self.tell("  logins", [self.realm.kinit(name, it) for it in ("Hanging-pass1", "Away-pass1")], [True, False])

    def given_in_part(self):
        """It doesn't give all entries to the agent: nobody is removed, and changes are written."""
        name, names = self.first[1], set(self.served.keys())
        with self.realm.directory.with_lines("sizelimit 3"):
            self.tell("the directory gives three entries at the most: a reload", self.control("reload"), ["ok"])
            time.sleep(STAYS)
            self.tell("  the table has the names that it had", set(self.served.keys()) == names)
            self.tell("  a change, lines in the log", self.by_service(name, "Part-pass1"), (CHANGED, 0))
        self.tell("  and all again: in step", self.served.is_in_step())
        self.tell("  logins", [self.realm.kinit(name, it) for it in ("Part-pass1", "Hanging-pass1")], [True, False])

    # ---- at the end

    def told(self):
        """What the service told of it on standard error; after a list that fails each request that succeeds is news."""
        lines = [line.removeprefix(f"{self.served.socket}: ") for line in self.served.ended()]
        failed = [line for line in lines if line.startswith(FAILED)]
        away = list(itertools.takewhile(lambda line: LIMIT not in line, failed))
        self.tell(f"told that the directory had ended, once: {away}", len(away), 1)
        self.tell("  that it doesn't give all entries", any(LIMIT in line for line in failed), not self.is_told)
        self.tell("  of a fault", [line for line in lines if "said what it may not" in line or "lost" in line], [])
