"""The project's kadmind beside the agent: what users and administrators can change past the service."""

from harness.ports import free_ports
from harness.realm import REALM
from tests.kdc.agent_process import hexed
from tests.kdc.at_kdc import AtKdc, at
from tests.kdc.daemons import daemon
from tests.kdc.realms import FIRST

NO_SELF_SERVICE = """\
[plugins]
    kadm5_auth = {
        disable = self
    }
"""
ALL = f"admin@{REALM} *\n"


class KadmindCases(AtKdc):
    """One user, whose password anybody may have changed before."""

    def setUp(self):
        self.user = self.name()
        self.password = FIRST
        self.passwords = 0
        self.is_locked_down = False
        self.folder = self.realm.folder / "kadmind"
        self.folder.mkdir()
        self.agent = self.enter(self.talking())

    def new_password(self):
        self.passwords += 1
        return f"Kadmind-pass{self.passwords}"

    def change(self, by):
        """Whether the database has another version when somebody has tried it."""
        kvno, new = self.realm.kvno(self.user), self.new_password()
        by(new)
        if self.realm.kvno(self.user) == kvno:
            return False
        self.password = new
        return True

    def agent_writes(self):
        """What the service asks for last is what is good."""
        kvno = self.realm.kvno(self.user) + 1
        self.password = self.new_password()
        found = self.agent.put(self.user, kvno, self.password), self.realm.kinit(self.user, self.password)
        self.tell("  the agent writes, and the password is good", found, (f"put {hexed(self.user)} {kvno}", True))

    def agent_refuses(self):
        """The agent goes by the lock, too."""
        found = self.agent.put(self.user, self.realm.kvno(self.user) + 1, self.new_password())
        self.tell("  the agent refuses", found, f"refused {hexed(self.user)} lockdown")

    def tell_changes(self, what, ways, wanted):
        found = [self.change(by) for by in ways]
        self.tell(f"kadmind, {what}: changed by the user and others", found, wanted)
        self.agent_refuses() if self.is_locked_down else self.agent_writes()

    # ---- MIT

    def by_mit(self, who, password):
        words = ["kadmin", "-p", who, "-w", password, "-q"]
        return lambda new: self.realm.run(self.realm.mit, [*words, f"cpw -pw {new} {self.user}"])

    def mit_tries(self, what, wanted, more="", acl=ALL):
        """The user by kadmin, and by kpasswd at kadmind's port; the administrator."""
        realm, folder = self.realm, self.folder
        (folder / "acl").write_text(acl)
        text = (realm.folder / "kdc.conf").read_text()
        text = text.replace(f"{realm.folder}/kadm5.acl", f"{folder}/acl")
        (folder / "kdc.conf").write_text(text + more)
        environment = {**realm.environment(realm.mit), "KRB5_KDC_PROFILE": str(folder / "kdc.conf")}
        command = [realm.mit.program("kadmind"), "-nofork"]
        ways = [
            lambda new: self.by_mit(self.user, self.password)(new),
            lambda new: realm.kpasswd(self.user, self.password, new, None),
            self.by_mit("admin", FIRST),
        ]
        with daemon(command, environment, folder / "kadmind.out", realm.kadmind_port):
            self.tell_changes(what, ways, wanted)

    @at("MIT")
    def test_mit(self):
        self.mit_tries("as it is", [True, True, True])
        self.mit_tries("no self-service", [False, False, True], NO_SELF_SERVICE)
        without_c = f"admin@{REALM} *C\n"
        self.mit_tries("an administrator without c", [True, True, False], acl=without_c)
        self.mit_tries("both", [False, False, False], NO_SELF_SERVICE, without_c)
        self.mit_tries("an ACL against users", [True, True, True], acl=f"{ALL}*@{REALM} C\n")
        self.realm.kadmin("modprinc", "+lockdown_keys", self.user)
        self.is_locked_down = True
        self.mit_tries("keys locked down", [False, True, False])
        self.realm.kadmin("modprinc", "-lockdown_keys", self.user)
        self.is_locked_down = False
        self.realm.kadmin("addpol", "-minlife", "20000 days", "served")
        self.realm.kadmin("modprinc", "-policy", "served", self.user)
        self.mit_tries("a policy's least life", [False, False, True])

    # ---- Heimdal

    def by_heimdal(self, who, password):
        words = ["kadmin.heimdal", "-p", who, "passwd"]
        return lambda new: self.realm.run(
            [*words, f"--password={new}", self.user], [password], "-kadmind", KRB5CCNAME="MEMORY:"
        )

    def heimdal_tries(self, what, wanted, acl):
        """The user, and the administrator."""
        realm = self.realm
        (self.folder / "acl").write_text(acl)
        ways = [lambda new: self.by_heimdal(self.user, self.password)(new), self.by_heimdal("admin", FIRST)]
        command = [f"{realm.heimdal.folder}/usr/lib/heimdal-servers/kadmind"]
        command += [f"--config-file={realm.folder}/krb5-kadmind.conf", f"--ports={self.port}"]
        log = self.folder / "kadmind.out"
        with daemon(command, realm.environment("-kadmind"), log, self.port):
            self.tell_changes(what, ways, wanted)

    @at("Heimdal")
    def test_heimdal(self):
        realm = self.realm
        [self.port] = free_ports(1)
        here = f"        admin_server = 127.0.0.1:{self.port}\n"
        text = (realm.folder / "krb5.conf").read_text()
        text = text.replace("        kpasswd_server", f"{here}        kpasswd_server")
        text = text.replace(f"{realm.folder}/acl", f"{self.folder}/acl")
        (realm.folder / "krb5-kadmind.conf").write_text(text)
        everything = f"admin@{REALM} all\n"
        self.heimdal_tries("as it is", [True, True], everything)
        get_alone = f"{everything}{self.user}@{REALM} get\n"
        self.heimdal_tries("an ACL that says get alone", [True, True], get_alone)
        without_cpw = f"admin@{REALM} get,list,add,modify,delete\n"
        self.heimdal_tries("an administrator without cpw", [True, False], without_cpw)
        realm.kadmin("modify", "--attributes=+disallow-svr", "kadmin/admin")
        self.heimdal_tries("no tickets for it", [False, False], everything)
        realm.kadmin("modify", "--attributes=-disallow-svr", "kadmin/admin")
