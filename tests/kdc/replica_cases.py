"""A replica of the KDC's database: it gets what the agent writes at the primary."""

import contextlib
import re
import socket
import subprocess

from harness.ports import free_ports
from harness.realm import REALM, Failed, Project, packages_folder
from tests.kdc import realms
from tests.kdc.agent_process import hexed
from tests.kdc.at_kdc import AtKdc
from tests.kdc.daemons import comes, daemon

# the replica's KDC has an address of its own: clients tell the primary from it by that
REPLICA = "127.0.0.2"


class ReplicaCases(AtKdc):
    """The realm's own KDC is the primary's."""

    def test_replica(self):
        self.user = self.name()
        self.kvno = 1
        self.folder = self.realm.folder / "replica"
        self.folder.mkdir()
        self.primary = (Mit if self.realm.KIND == "MIT" else Heimdal)(self)
        if not self.primary.is_possible():
            self.skipTest("this machine's own name has no address: no replica is tried")
        self.primary.configure()
        with self.primary.sending(), self.talking(**self.primary.more) as self.agent:
            self.tries()

    def is_there(self):
        return self.primary.replica_kvno(self.user) == self.realm.kvno(self.user)

    def write(self, password):
        """Whether the primary has it."""
        self.kvno += 1
        return self.agent.put(self.user, self.kvno, password) == f"put {hexed(self.user)} {self.kvno}"

    def tickets(self, password):
        """Whether kinit gives one: at the replica alone, and where the primary is named too."""
        return tuple(
            self.primary.kinit(variant, self.user, password) for variant in self.primary.VARIANTS
        )

    def tries(self):
        with self.primary.receiving("first"):
            # a KDC that finds half a database ends
            first = comes(lambda: self.primary.replica_kvno(self.user) == 1)
            self.tell("replica: it gets the whole database", first)
            whole = self.primary.whole()
            self.tell("  as its log says", whole > 0)
            with self.primary.kdc():
                self.changes_arrive()
        with self.primary.kdc():
            self.tell("replica: a change while it is cut off", self.write("Late-pass1"))
            self.tell("  the new password: tickets", self.tickets("Late-pass1"), self.primary.LATE)
            former = self.primary.kinit(self.primary.VARIANTS[0], self.user, "Many-pass19")
            self.tell("  the former one at the replica: a ticket", former)
            with self.primary.receiving("second"):
                self.tell("  it comes again: the change is there", comes(self.is_there))
        self.tell("  without a whole database", self.primary.whole(), whole)
        found, wanted = self.primary.keys(self.user), self.realm.keys([self.user])
        missing, other = len(wanted - found), len(found - wanted)
        self.tell("replica: the primary's keys, missing and others", (missing, other), (0, 0))

    def changes_arrive(self):
        for number in range(3):
            told = self.write(f"Each-pass{number}"), comes(self.is_there)
            self.tell("replica: a change, at the primary and there", told, (True, True))
        # its KDC refuses for a moment where it meets the write itself
        comes(lambda: self.tickets("Each-pass2") == self.primary.ALL, 10)
        self.tell("  tickets", self.tickets("Each-pass2"), self.primary.ALL)
        answers = [self.write(f"Many-pass{number}") for number in range(20)]
        self.tell("replica: 20 changes at once", (all(answers), comes(self.is_there)), (True, True))


class Mit:
    """Incremental propagation from kadmind to kpropd. kadmind's own port is at an address that nobody asks."""

    VARIANTS = ("-replica", "-both", "-primary")
    ALL = (True, True, True)
    LATE = (False, False, True)

    def __init__(self, cases):
        self.realm, self.folder = cases.realm, cases.folder
        self.host = socket.gethostname()
        self.iprop, self.kprop, self.port = free_ports(3)
        self.kpropd = Project(packages_folder() / "kpropd").program("kpropd")
        self.more = {"KRB5_KDC_PROFILE": str(self.folder / "primary.conf")}

    def is_possible(self):
        with contextlib.suppress(OSError):
            return bool(socket.gethostbyname(self.host))
        return False

    def configure(self):
        realm, folder = self.realm, self.folder
        for name in (f"kiprop/{self.host}", f"host/{self.host}"):
            realm.kadmin("addprinc", "-randkey", name)
            realm.kadmin("ktadd", "-k", f"{folder}/keytab", "-norandkey", name)
        (folder / "acl").write_text(f"kiprop/{self.host}@{REALM} p\n")
        (folder / "kpropd.acl").write_text(f"host/{self.host}@{REALM}\n")
        (folder / "stash").write_bytes((realm.folder / "stash").read_bytes())
        text = (realm.folder / "kdc.conf").read_text()
        text = text.replace(f"{realm.folder}/kadm5.acl", f"{folder}/acl")
        text = text.replace(f"kadmind_listen = 127.0.0.1:{realm.kadmind_port}", f"""\
kadmind_listen = 127.0.0.3:{realm.kadmind_port}
        iprop_enable = true
        iprop_port = {self.iprop}
        iprop_listen = {self.iprop}
        iprop_replica_poll = 1s""")
        (folder / "primary.conf").write_text(text)
        text = text.replace(f"{realm.folder}/principal", f"{folder}/principal")
        text = text.replace(f"{realm.folder}/stash", f"{folder}/stash")
        text = text.replace(f"{realm.folder}/kdc.log", f"{folder}/kdc.log")
        text = text.replace(f"127.0.0.1:{realm.kdc_port}", f"{REPLICA}:{self.port}")
        (folder / "replica.conf").write_text(text)
        self.write_client_configurations()

    def write_client_configurations(self):
        realm = self.realm
        text = (realm.folder / "mit.conf").read_text()
        text = text.replace("admin_server = 127.0.0.1:", f"admin_server = {self.host}:")
        text = text.replace("[libdefaults]", '[libdefaults]\n    qualify_shortname = ""')
        primary, replica = f"127.0.0.1:{realm.kdc_port}", f"{REPLICA}:{self.port}"
        lines = {
            "-servers": f"kdc = {primary}",
            "-replica": f"kdc = {replica}",
            "-both": f"kdc = {replica}\n        kdc = {primary}",
            "-primary": f"kdc = {replica}\n        primary_kdc = {primary}",
        }
        for variant, kdcs in lines.items():
            (realm.folder / f"mit{variant}.conf").write_text(text.replace(f"kdc = {primary}", kdcs))

    def environment(self, profile):
        return {
            **self.realm.environment(self.realm.mit, "-servers"),
            "KRB5_KDC_PROFILE": str(self.folder / profile),
            "KRB5_KTNAME": f"FILE:{self.folder}/keytab",
        }

    def sending(self):
        program = self.realm.mit.program
        command = [program("kadmind"), "-nofork", "-p", program("kdb5_util"), "-K", program("kprop")]
        command += ["-k", str(self.kprop), "-F", f"{self.folder}/dump"]
        return daemon(command, self.environment("primary.conf"), self.folder / "kadmind.out", self.iprop)

    def receiving(self, name):
        command = [self.kpropd, "-D", "-d", "-P", str(self.kprop), "-f", f"{self.folder}/from"]
        command += ["-p", self.realm.mit.program("kdb5_util"), "-a", f"{self.folder}/kpropd.acl"]
        command += ["-s", f"{self.folder}/keytab"]
        return daemon(command, self.environment("replica.conf"), self.folder / f"kpropd-{name}.out", self.kprop)

    def whole(self):
        return sum(path.read_text().count("Full resync") for path in self.folder.glob("kpropd-*.out"))

    @contextlib.contextmanager
    def kdc(self):
        command = [self.realm.mit.program("krb5kdc"), "-n"]
        out = self.folder / "kdc.out"
        with daemon(command, self.environment("replica.conf"), out):
            if not comes(lambda: "starting" in out.read_text()):
                raise Failed(f"the replica's KDC doesn't start: {out.read_text()}")
            yield

    def kadmin(self, *words):
        command = [self.realm.mit.program("kadmin.local"), *words]
        environment = self.environment("replica.conf")
        return subprocess.run(command, capture_output=True, text=True, env=environment).stdout

    def replica_kvno(self, name):
        found = re.findall(r"^Key: vno (\d+)", self.kadmin("getprinc", name), re.MULTILINE)
        return max(map(int, found), default=0)

    def keys(self, name):
        path = self.folder / "found.keytab"
        self.kadmin("ktadd", "-k", str(path), "-norandkey", name)
        return realms.of_keytab(path.read_bytes())

    def kinit(self, variant, name, password):
        return self.realm.run(self.realm.mit, ["kinit", name], [password], variant).returncode == 0


class Heimdal:
    """ipropd-master to ipropd-slave."""

    VARIANTS = ("-replica", "-both", "-first")
    ALL = (True, True, True)
    LATE = (False, False, True)
    # the replica's, which has no host of that name
    NAME = "replica.example.com"

    def __init__(self, cases):
        self.realm, self.folder = cases.realm, cases.folder
        self.iprop, self.port = free_ports(2)
        self.more = {"KRB5_CONFIG": f"{self.folder}/primary.conf"}

    def is_possible(self):
        return True

    def configure(self):
        realm, folder = self.realm, self.folder
        for name in ("iprop/localhost", f"iprop/{self.NAME}"):
            realm.kadmin("add", "--use-defaults", "--random-key", name)
            realm.kadmin("ext_keytab", f"--keytab={folder}/keytab", name)
        (folder / "master-key").write_bytes((realm.folder / "master-key").read_bytes())
        (realm.folder / "slaves").write_text(f"iprop/{self.NAME}@{REALM}\n")
        text = (realm.folder / "krb5.conf").read_text()
        (folder / "primary.conf").write_text(f"{text}[hdb]\n    db-dir = {realm.folder}\n")
        replica = text.replace(f"{realm.folder}/", f"{folder}/")
        replica = replica.replace("[logging]", f"[logging]\n    ipropd-slave = 0-/FILE:{folder}/slave.log")
        (folder / "replica.conf").write_text(f"{replica}[hdb]\n    db-dir = {folder}\n")
        here, there = f"tcp/127.0.0.1:{realm.kdc_port}", f"tcp/{REPLICA}:{self.port}"
        lines = {
            "-replica": f"kdc = {there}",
            "-both": f"kdc = {there}\n        kdc = {here}\n        master_kdc = {here}",
            "-first": f"kdc = {here}\n        kdc = {there}",
        }
        for variant, kdcs in lines.items():
            (realm.folder / f"krb5{variant}.conf").write_text(text.replace(f"kdc = {here}", kdcs))

    def environment(self, name):
        """The caches and the files of process numbers are each one's own."""
        place = self.folder / f"{name}-run"
        place.mkdir(exist_ok=True)
        return {
            **self.realm.environment(),
            "KRB5_CONFIG": f"{self.folder}/{name}.conf",
            "KRB5CCNAME": f"FILE:{place}/cache",
            "HEIM_PIDFILE_DIR": str(place),
        }

    def sending(self):
        command = [self.realm.heimdal.program("ipropd-master"), f"--config-file={self.folder}/primary.conf"]
        command += [f"--keytab={self.folder}/keytab", f"--database={self.realm.folder}/heimdal"]
        command += [f"--port={self.iprop}", "--hostname=localhost"]
        return daemon(command, self.environment("primary"), self.folder / "master.out", self.iprop)

    def receiving(self, name):
        command = [self.realm.heimdal.program("ipropd-slave"), f"--config-file={self.folder}/replica.conf"]
        command += [f"--keytab={self.folder}/keytab", f"--port={self.iprop}", f"--hostname={self.NAME}"]
        command += [f"--status-file={self.folder}/status", "localhost"]
        return daemon(command, self.environment("replica"), self.folder / f"{name}.out")

    def whole(self):
        return (self.folder / "slave.log").read_text().count("receive complete database")

    def kdc(self):
        command = [f"{self.realm.heimdal.folder}/usr/lib/heimdal-servers/kdc"]
        command += [f"--config-file={self.folder}/replica.conf", f"--addresses={REPLICA}"]
        command += [f"--ports={self.port}"]
        return daemon(command, self.environment("replica"), self.folder / "kdc.out", (REPLICA, self.port))

    def kadmin(self, *words):
        command = [self.realm.heimdal.program("kadmin.heimdal"), "-l", *words]
        environment = self.environment("replica")
        return subprocess.run(command, capture_output=True, text=True, env=environment).stdout

    def replica_kvno(self, name):
        found = re.search(r"Kvno: (\d+)", self.kadmin("get", name))
        return int(found[1]) if found else 0

    def keys(self, name):
        path = self.folder / "found.keytab"
        self.kadmin("ext_keytab", f"--keytab={path}", name)
        return realms.of_keytab(path.read_bytes())

    def kinit(self, variant, name, password):
        command = ["kinit.heimdal", "--password-file=STDIN", name]
        return self.realm.run(command, [password], variant).returncode == 0
