"""The service, MIT's kadmind and Heimdal's kpasswdd, each over a realm EXAMPLE.COM with the users and the keys of the others.

`with OPENED[name](..) as server`: `udp` and `tcp`, the port of each, or None where the server has none; `versions()`, the
kvno of each user as the server's realm now has it. The key of kadmin/changepw is that of one password, of kvno `KVNO`.
Policy: six bytes, two classes of characters, three passwords kept, where Heimdal has a rule of its own.
admin may set every password, and no one else another's.
"""

import contextlib
import pathlib
import re
import shutil
import subprocess
import tempfile
import time

from harness import wire
from harness.configuration import read_keytab
from harness.heimdal_realm import HeimdalRealm
from harness.ports import free_ports
from harness.realm import FETCH, REALM, SERVICE, Failed, Realm, packages_folder
from harness.sample_realm import any_keys, principal
from harness.server import Server

KVNO, SERVICE_PASSWORD, OLD = 5, "Service-pass1", "Old-pass1"
ADMIN = "admin"
# of kadmin/changepw, by etype
SERVICE_KEYS = {
    etype: wire.string_to_key(size, SERVICE_PASSWORD.encode(), (REALM + SERVICE.replace("/", "")).encode(), 4096)
    for etype, size in ((17, 16), (18, 32))
}
WORKERS = 4
# principals that a command makes
AT_ONCE = 100


def keys_of(name):
    salt = (REALM + name).encode()
    return tuple(wire.string_to_key(size, OLD.encode(), salt, 4096) for size in (16, 32))


class Ours:
    NAME = "Boddrelyn"
    AT_A_TIME = 16

    def __init__(self, program, users, remembered):
        self.users = users
        self.remembered = remembered
        self.folder = pathlib.Path(tempfile.mkdtemp(prefix="chpw-compare-"))
        self.server = Server(program, self.folder, WORKERS, options=["--udp"])

    def __enter__(self):
        text = f'[service]\nrealm = "{REALM}"\n'
        for etype, key in SERVICE_KEYS.items():
            text += f'[[service.key]]\nkvno = {KVNO}\netype = {etype}\nkey = "{key.hex()}"\n'
        text += "[policy]\nmin_length = 6\nmin_classes = 2\ndepth = 3\niterations = 4096\nset_needs_initial = false\n"
        text += f'[[rule]]\nactor = "{ADMIN}"\ntarget = "*"\n'
        for name in [ADMIN, *self.users]:
            text += principal(name, [(1, *keys_of(name))] if name in self.remembered else any_keys())
        self.server.configuration.touch(mode=0o600)
        self.server.configuration.write_text(text)
        try:
            self.server.start(connections=4_294_967_295)
        except BaseException:
            self.__exit__()
            raise
        self.udp = self.tcp = self.server.port
        return self

    def __exit__(self, *_):
        self.server.end()
        shutil.rmtree(self.folder)

    def has_ended(self):
        return self.server.process.poll() is not None

    def versions(self):
        words = ["--config", self.server.configuration, "--journal", self.server.journal]
        done = subprocess.run([self.server.program, "table", *words], capture_output=True, text=True, check=True)
        return {name: int(kvno) for name, kvno in re.findall(r"^(\S+) kvno (\d+)", done.stdout, re.MULTILINE)}


class MitServer(Realm):
    NAME = "MIT kadmind"
    AT_A_TIME = 16

    def __init__(self, program, users, remembered):
        super().__init__({})
        self.users = users

    def make(self):
        super().make()
        self.fill()
        self.start_kadmind()
        self.udp = self.tcp = self.kpasswd_port

    def write_kdc_configuration(self):
        """With the usual clock skew."""
        super().write_kdc_configuration()
        path = self.folder / "kdc.conf"
        path.write_text(path.read_text().replace("    clockskew = 900\n", ""))

    def environment(self, project, variant=""):
        return {**super().environment(project, variant), "KRB5RCACHENAME": f"file2:{self.folder}/replays"}

    def fill(self):
        lines = ["addpol -minlength 6 -minclasses 2 -history 3 usual"]
        lines += [f"addprinc -policy usual -pw {OLD} {name}" for name in [ADMIN, *self.users]]
        lines += [f"cpw -pw {SERVICE_PASSWORD} {SERVICE}", f"modprinc -kvno {KVNO} {SERVICE}"]
        done = self.run(self.mit, ["kadmin.local"], lines)
        if done.returncode != 0:
            raise Failed(f"kadmin.local: {done.stdout}{done.stderr}")
        if service_key(self.keytab([ADMIN])) != (KVNO, SERVICE_KEYS[18]):
            raise Failed("kadmind's key of kadmin/changepw isn't that of the password")

    def has_ended(self):
        return self.processes[-1].poll() is not None

    def versions(self):
        path = self.folder / "found.keytab"
        self.kadmin("ktadd", "-q", "-k", str(path), "-norandkey", *self.users)
        return kvnos(path.read_bytes())


class HeimdalServer(HeimdalRealm):
    NAME = "Heimdal kpasswdd"
    # so that it's known which request ended it
    AT_A_TIME = 1

    def __init__(self, program, users, remembered):
        super().__init__({})
        self.users = users
        [self.udp] = free_ports(1)
        self.tcp = None

    def make(self):
        super().make()
        self.fill()
        self.start_kpasswdd()

    def start_kdc(self):
        """kpasswdd reads the database itself."""

    def write_configuration(self, kpasswd_port, more=""):
        super().write_configuration(kpasswd_port, more)
        path = self.folder / "krb5.conf"
        policy = "[password_quality]\n    policies = builtin:minimum-length builtin:character-class\n" \
            "    min_length = 6\n    min_classes = 2\n"
        path.write_text(path.read_text() + f"    kpasswdd = 0-/FILE:{self.folder}/kpasswdd.log\n" + policy)
        (self.folder / "acl").write_text(f"{ADMIN}@{REALM} all\n")

    def fill(self):
        names = [ADMIN, *self.users]
        for first in range(0, len(names), AT_ONCE):
            self.kadmin("add", "--use-defaults", f"--password={OLD}", *names[first : first + AT_ONCE])
        self.kadmin("passwd", f"--password={SERVICE_PASSWORD}", SERVICE)
        self.kadmin("modify", f"--kvno={KVNO}", SERVICE)
        if service_key(self.keytab([ADMIN])) != (KVNO, SERVICE_KEYS[18]):
            raise Failed("kpasswdd's key of kadmin/changepw isn't that of the password")

    def start_kpasswdd(self):
        program = self.heimdal.folder / "usr/lib/heimdal-servers/kpasswdd"
        words = [f"--config-file={self.folder}/krb5.conf", "--addresses=127.0.0.1", f"--port={self.udp}", f"--realm={REALM}"]
        self.begin("kpasswdd", [program, *words], self.environment(), self.is_up)

    def is_up(self, process):
        """Whether its port is taken within ten seconds; it prints nothing when it is."""
        wanted = f"0100007F:{self.udp:04X}"
        for _ in range(200):
            if process.poll() is not None:
                return False
            if wanted in pathlib.Path("/proc/net/udp").read_text():
                return True
            time.sleep(0.05)
        return False

    def has_ended(self):
        return self.processes[-1].poll() is not None

    def start_again(self):
        self.processes.pop()
        self.start_kpasswdd()

    def versions(self):
        path = self.folder / "found.keytab"
        self.kadmin("ext_keytab", f"--keytab={path}", *self.users)
        return kvnos(path.read_bytes())


def service_key(data):
    [found] = [it for it in read_keytab(data) if it.etype == 18 and it.principal == SERVICE]
    return found.kvno, found.key


def kvnos(data):
    found = {}
    for entry in read_keytab(data):
        found[entry.principal] = max(found.get(entry.principal, 0), entry.kvno)
    return found


KINDS = {"ours": Ours, "mit": MitServer, "heimdal": HeimdalServer}


def packages_are_there():
    """Why the packages aren't, or None."""
    try:
        done = subprocess.run([FETCH, packages_folder()], capture_output=True, text=True, timeout=300)
    except (OSError, subprocess.TimeoutExpired) as fault:
        return str(fault)
    if done.returncode == 0:
        return None
    return (done.stderr.strip().splitlines() or ["no reason is told"])[0]


@contextlib.contextmanager
def opened(kinds, program, users, remembered=()):
    """The servers by their names, those that can't be had left out; and for each of these the reason.

    Each user's password is `OLD`; the service knows only the key of those remembered, as it costs time.
    """
    with contextlib.ExitStack() as stack:
        servers, reasons = {}, {}
        lacking = packages_are_there() if set(kinds) - {"ours"} else None
        for kind in kinds:
            if kind != "ours" and lacking is not None:
                reasons[kind] = lacking
                continue
            servers[kind] = stack.enter_context(KINDS[kind](program, users, remembered))
        yield servers, reasons
