"""Users change their passwords through the real service, and have them at the KDC with the reply."""

import os
import signal
import subprocess
import threading
import time

from harness import configuration
from harness.ahead import clock_ahead
from tests.kdc.at_kdc import AtKdc
from tests.kdc.daemons import comes
from tests.kdc.realms import DONE, FIRST
from tests.kdc.served import Served

PASSWORDS = {name: FIRST for name in ("alice", "bob", "joe blow", "carol/ops", "admin")}
RULES = [("admin", "bob")]
USED = "code 4 password used before"
CHANGED = "code 0 password changed"
# milliseconds that a reply waits for the KDC at most
WAIT = 10_000
OURS = "".join(f'"{name}", ' for name in PASSWORDS)


class ServiceCases(AtKdc):
    """The service, the KDC, and what each user's password is."""

    def setUp(self):
        self.served = Served(self.realm, self.program, "service", WAIT, also=["carol/ops"])
        self.addCleanup(self.served.end)
        self.ahead = {"LD_PRELOAD": str(clock_ahead(self.served.folder))}
        # a service that found a journal refuses what isn't dated 300 seconds after its start
        self.is_restarted = False
        self.passwords = dict(PASSWORDS)

    def test_users(self):
        text = configuration.configuration(self.realm.keytab(), RULES)
        self.served.configure(f"{text}\n[kdc]\ninclude = [{OURS}]\n")
        self.served.begin_agent()
        self.start()
        self.realm.point_clients_at(self.served.server.port)
        for number in range(1, self.options.rounds + 1):
            print(f"-- {self.realm.KIND}: service, round {number}", flush=True)
            self.in_turn([self.users, self.restarts, self.expired, self.without_agent, self.at_the_kdc], number)
        self.at_once()
        self.keys_are_the_tables(self.served, PASSWORDS)
        self.tell("replies that waited for the KDC in vain", self.served.unconfirmed(), 0)
        self.tell("the agent ends by SIGTERM: status", self.served.end_agent(), 0)

    # ---- the service

    def start(self):
        self.served.start()
        if self.is_restarted:
            # into the next second: what is asked in the start's own is refused, 300 seconds ahead or not
            time.sleep(1.01 - time.time() % 1)
        self.tell("  the service and the KDC are in step", self.served.is_in_step())

    def restart(self, number, status):
        what = signal.Signals(number).name
        self.tell(f"serve ends by {what}: status", self.served.server.stop(number), status)
        self.tell("  the KDC goes on", self.realm.kinit("alice", self.passwords["alice"]))
        self.is_restarted = True
        self.start()

    def ask(self, client, password, target=None):
        """By the service's own client, which makes its ticket itself."""
        server = self.served.server
        command = [server.program, "client", "--config", server.configuration]
        command += ["--seed", "/dev/urandom", "--port", str(server.port), "--client", client]
        command += [f"--password={password}"] + (["--target", target] if target else [])
        env = {**os.environ, **(self.ahead if self.is_restarted else {})}
        done = subprocess.run(command, capture_output=True, text=True, env=env)
        return (done.stdout + done.stderr).strip()

    # ---- changes

    def by_kpasswd(self, name, new):
        ahead = self.ahead if self.is_restarted else None
        return self.realm.kpasswd(name, self.passwords[name], new, ahead)

    def change(self, what, name, new, ask, wanted=DONE):
        """A change that is accepted: in the KDC when the reply comes, and with it the former is over."""
        self.tell(what, ask(), wanted)
        return self.has(name, new)

    def has(self, name, new):
        """The KDC has the new password at once, and not the former one; its version is the table's."""
        former, self.passwords[name] = self.passwords[name], new
        found = self.realm.kinit(name, new), self.realm.kinit(name, former)
        self.tell(f"  {name}: the new password, the former one", found, (True, False))
        self.tell("  kvno as the table says", self.realm.kvno(name), self.served.kvno(name))
        return former

    def own_change(self, name, new):
        return self.change(f"{name} changes", name, new, lambda: self.by_kpasswd(name, new))

    def is_unchanged(self, what, ask, wanted, name):
        """A request that is refused: the KDC has what it had."""
        kvno = self.realm.kvno(name)
        self.tell(what, ask(), wanted)
        has = self.realm.kinit(name, self.passwords[name]), self.realm.kvno(name)
        self.tell(f"  {name}: password and kvno", has, (True, kvno))

    # ---- parts of a round

    def users(self, number):
        """A user changes hers, and asks for the former one again; an administrator sets another's."""
        former = self.own_change("alice", f"Alice-pass{number}a")
        self.is_unchanged("alice asks for the former one again", lambda: self.ask("alice", former), USED, "alice")
        new = f"Bob-pass{number}"
        self.change("admin sets bob's", "bob", new, lambda: self.ask("admin", new, "bob"), CHANGED)
        others = lambda: self.ask("admin", f"Alice-pass{number}b", "alice")
        self.is_unchanged("admin may not set alice's", others, "code 5 access denied", "alice")

    def restarts(self, number):
        """The service ends and comes again."""
        self.restart(signal.SIGTERM, 143)
        former = self.own_change("joe blow", f"Joe-pass{number}")
        again = lambda: self.ask("joe blow", former)
        self.is_unchanged("joe blow asks for the former one again", again, USED, "joe blow")
        self.restart(signal.SIGKILL, 137)
        self.own_change("carol/ops", f"Carol-pass{number}")

    def expired(self, number):
        """A password that has to be changed: the KDC asks no more afterwards, until it ends again."""
        self.realm.ask_for_change("carol/ops")
        found = self.realm.kinit("carol/ops", self.passwords["carol/ops"])
        self.tell("carol/ops's has expired: a ticket", found, False)
        self.own_change("carol/ops", f"Carol-pass{number}b")
        self.tell("  days until it ends", self.realm.days_left("carol/ops"), self.realm.LIFE)

    def without_agent(self, number):
        """What is changed while there is none is written once there is one again."""
        self.tell("the agent ends by SIGTERM: status", self.served.end_agent(), 0)
        self.tell("  status tells it within a second", comes(lambda: self.served.kdc() == "down", 1))
        new = f"Alice-pass{number}c"
        self.tell("  alice changes", self.by_kpasswd("alice", new), DONE)
        found = self.realm.kinit("alice", self.passwords["alice"]), self.realm.kinit("alice", new)
        self.tell("  the KDC lags: the former password, the new one", found, (True, False))
        self.tell("  status says that the KDC is behind", self.served.status().get("kdc-behind"), "1")
        self.served.begin_agent()
        self.tell("the next agent: in step", self.served.is_in_step())
        self.has("alice", new)

    def at_the_kdc(self, number):
        """Somebody changes a password at the KDC: the service takes it, and the user's next change goes on from there."""
        other = f"Kdc-pass{number}"
        self.realm.set_password("bob", other)
        kvno = self.realm.kvno("bob")
        self.passwords["bob"] = other
        self.tell("bob's was changed at the KDC: the table's kvno", comes(lambda: self.served.kvno("bob") == kvno))
        self.tell("  the KDC's password", self.realm.kinit("bob", other))
        self.is_unchanged("  bob asks for that one", lambda: self.ask("bob", other), USED, "bob")
        self.own_change("bob", f"Bob-pass{number}b")
        self.is_unchanged("  and then again", lambda: self.ask("bob", other), USED, "bob")

    # ---- at the end

    def at_once(self):
        """Changes of several users at a time."""
        faults = []

        def change(name):
            for number in range(4):
                new = f"{name.split()[0].split('/')[0].title()}-once{number}"
                told = self.ask(name, new)
                if told != CHANGED or not self.realm.kinit(name, new):
                    faults.append((name, number, told))
                self.passwords[name] = new

        threads = [threading.Thread(target=change, args=(name,)) for name in PASSWORDS]
        for thread in threads:
            thread.start()
        for thread in threads:
            thread.join()
        self.tell("five users change theirs four times, at once: faults", faults, [])
