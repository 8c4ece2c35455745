"""An agent at a KDC whose database is in a directory: what is as with files, and what isn't; a server that ends and hangs."""

import time

from harness.realm import REALM
from tests.kdc.agent_case import FIRST, AgentCase
from tests.kdc.agent_process import Agent, hexed, keys_of
from tests.kdc.ldap_cases import InDirectory
from tests.kdc.ldap_realms import CONTAINER, KADMIN

# seconds that a server hangs, and in which an answer comes where none is waited for
HANGS, AT_ONCE = 2, 1
# of a server that doesn't give all entries; it would be 500 where nothing is said
MOST = 5


class LdapAgent(InDirectory, AgentCase):
    def test_written(self):
        """The entry has these keys and no others, which its KDC goes by at once."""
        name = self.name()
        with self.talking() as line:
            self.tell("get", line.ask(f"get {hexed(name)}"), f"has {hexed(name)} 1 {keys_of(name, FIRST)}")
            self.tell("  put", line.put(name, 4, "Next-pass4"), f"put {hexed(name)} 4")
            self.tell("  the KDC's keys", self.held(name), self.of(name, 4, "Next-pass4"))
            self.tell("  logins", self.logs_in(name, "Next-pass4", FIRST), [True, False])
            self.tell("  the same again, and one that is lower", (line.put(name, 4, "Next-pass4"), line.put(name, 2, "Next-pass5")),
                      (f"put {hexed(name)} 4", f"put {hexed(name)} 5"))
            self.tell("  logins", self.logs_in(name, "Next-pass5", "Next-pass4"), [True, False])

    def test_a_password_that_ends(self):
        name = self.name()
        self.realm.ask_for_change(name)
        with self.talking() as line:
            self.tell("a password that has to be changed: a login", self.logs_in(name, FIRST), [False])
            self.tell("  put", line.put(name, 2, "Next-pass2"), f"put {hexed(name)} 2")
            self.tell("  a login", self.logs_in(name, "Next-pass2"), [True])
            self.tell("  days until it ends", self.realm.days_left(name), self.realm.LIFE)

    def all(self):
        """The list that is wanted."""
        return sorted(f"has {hexed(name)} {kvno}" for name, kvno in self.kdc.listed().items())

    def test_listed_all(self):
        name = self.name()
        with self.talking() as line:
            self.tell("list: as many as the KDC has", len(line.listed()), len(self.all()))
            self.tell("  these very ones", (line.listed() == self.all(), f"has {hexed(name)} 1" in self.all()), (True, True))
            keys = [it for it in line.listed("list keys") if it.startswith(f"has {hexed(name)} ")]
            self.tell("  with keys", keys, [f"has {hexed(name)} 1 {keys_of(name, FIRST)}"])

    def test_listed_in_part(self):
        """A server that gives so many entries at the most: MIT's module reports that, and Heimdal's library takes them for all."""
        name, limit = self.name(), f"sizelimit {MOST}"
        with self.realm.directory.with_lines(limit), self.talking() as line:
            found, is_mit = line.listed(), self.realm.KIND == "MIT"
            wanted = ("failed - Size limit exceeded", 0) if is_mit else MOST
            self.tell("not all are given: list", found if is_mit else len(found), wanted)
            self.tell("  put", line.put(name, 2, "Next-pass2"), f"put {hexed(name)} 2")
        with self.realm.directory.with_lines(limit, f'limits dn.exact="{KADMIN}" size=unlimited'), self.talking() as line:
            self.tell("all are given to whom the agent asks as: list", line.listed() == self.all())

    def test_never_written(self):
        locked, aliased, several = self.name(), self.name(), f"{self.name(known=False)}/admin"
        self.realm.add(several, FIRST)
        self.kdc.lock_down(locked)
        [alias] = self.aliases(aliased)
        kept = self.state(aliased, several)
        with self.talking() as line:
            for name, answer in {
                f"krbtgt/{REALM}": "refused {} reserved", "kadmin/changepw": "refused {} reserved", locked: "refused {} lockdown",
                several: "refused {} components", alias: "none {}", "nobody": "none {}",
            }.items():
                found = line.put(name, 2, "Never-pass2")
                self.tell(f"{answer.partition(' {}')[0]}: put {name}", found, answer.format(hexed(name)))
        self.tell("  nothing was written", (self.state(aliased, several) == kept, self.realm.kvno(locked)), (True, 1))

    def aliases(self, name):
        """MIT's are further values of the entry in the directory."""
        if self.realm.KIND == "Heimdal":
            return self.kdc.aliases(name)
        self.realm.directory.modify(f"""\
dn: krbPrincipalName={name}@{REALM},cn={REALM},{CONTAINER}
changetype: modify
add: krbCanonicalName
krbCanonicalName: {name}@{REALM}
-
add: krbPrincipalName
krbPrincipalName: alias-{name}@{REALM}
""")
        return [f"alias-{name}"]

    def test_others_write(self):
        """Heimdal's programs write a log of changes beside the directory; of MIT's there is no file to look at."""
        name, is_told = self.name(), self.realm.KIND == "Heimdal"
        with self.talking() as line:
            self.realm.set_password(name, "Others-pass2")
            self.tell("kadmin writes: told", line.told(2), is_told)
            self.tell("  get has it", line.ask(f"get {hexed(name)}"), f"has {hexed(name)} 2 {keys_of(name, 'Others-pass2')}")
            if is_told:
                self.elsewhere(line, name)
            self.tell("  put goes on from there", line.put(name, 1, "Own-pass3"), f"put {hexed(name)} {self.realm.kvno(name)}")

    def elsewhere(self, line, name):
        """Heimdal's kadmin at another host, with a log of its own."""
        config = self.realm.folder / "elsewhere.conf"
        text = (self.realm.folder / "krb5.conf").read_text()
        config.write_text(text.replace(f"log_file = {self.realm.folder}/log", f"log_file = {self.realm.folder}/log-elsewhere"))
        done = self.realm.run(["kadmin.heimdal", "-l", "passwd", "--password=Others-pass3", name], KRB5_CONFIG=str(config))
        self.tell("kadmin at another host writes: status, told", (done.returncode, line.told(2)), (0, False))
        self.tell("  get has it", line.ask(f"get {hexed(name)}"), f"has {hexed(name)} 3 {keys_of(name, 'Others-pass3')}")

    # ---- the server

    def fails(self, line, name):
        """Whether each request is answered at once, that it failed."""
        for request in f"put {name}", f"get {hexed(name)}", "list", "list keys":
            start = time.monotonic()
            answer = line.put(name, 2, "Away-pass2") if request.startswith("put ") else line.ask(request)
            words = answer.split(" ", 2)
            wanted = "-" if request.startswith("list") else hexed(name)
            self.tell(f"  {request}: {words[2]}", (words[:2], time.monotonic() - start < AT_ONCE), (["failed", wanted], True))

    def test_server_away(self):
        name = self.name()
        with self.talking() as line:
            self.tell("the server: get", line.ask(f"get {hexed(name)}")[:4], "has ")
            with self.realm.directory.away():
                print("-- it has ended", flush=True)
                self.fails(line, name)
            self.tell("it is back: put", line.put(name, 2, "Back-pass2"), f"put {hexed(name)} 2")
            with self.realm.directory.away():
                pass
            self.tell("  it was restarted: put", line.put(name, 3, "Back-pass3"), f"put {hexed(name)} 3")
            with self.realm.directory.away():
                pass
            self.tell("  it was restarted: list", f"has {hexed(name)} 3" in line.listed())
            self.tell("  the agent has said nothing of it", line.agent.all_lines, ["listening"])
        self.tell("  logins", self.logs_in(name, "Back-pass3", "Back-pass2"), [True, False])

    def test_server_away_at_the_start(self):
        name = self.name()
        with self.realm.directory.away():
            agent = Agent(self.realm)
            agent.told("listening", 1)
        try:
            words = "the database can't be opened: "
            self.tell("no server at the start", [it.startswith(words) for it in agent.all_lines], [True, False])
            self.tell("  it comes: put", agent.connected().put(name, 2, "Later-pass2"), f"put {hexed(name)} 2")
        finally:
            self.tell("  status", agent.stop(), 0)

    def test_server_hangs(self):
        """The agent waits for it, and answers then."""
        name = self.name()
        with self.talking() as line:
            line.ask(f"get {hexed(name)}")
            with self.realm.directory.hanging():
                line.send(f"get {hexed(name)}\n".encode())
                self.tell(f"it hangs: an answer within {HANGS} seconds", line.line(HANGS), None)
            self.tell("  and goes on: the answer", line.answer(), f"has {hexed(name)} 1 {keys_of(name, FIRST)}")
