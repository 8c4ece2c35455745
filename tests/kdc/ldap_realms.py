"""Realms whose KDC has its database in a directory: OpenLDAP's slapd, as Debian packs it, over a socket of its own."""

import contextlib
import gzip
import os
import signal
import socket
import subprocess
import urllib.parse

from harness.realm import MASTER, REALM, Failed, Project, packages_folder
from tests.kdc.daemons import comes
from tests.kdc.realms import Heimdal, Mit

BASE = "dc=example,dc=com"
ADMIN, ADMIN_PASSWORD = f"cn=admin,{BASE}", "Directory-pass1"
# as whom MIT's KDC asks, and its kadmin and the agent; Heimdal's programs all as the second
KDC, KADMIN = f"cn=kdc,{BASE}", f"cn=kadmin,{BASE}"
# where MIT's module has its realms, and Heimdal its principals
CONTAINER, PRINCIPALS = f"cn=kerberos,{BASE}", f"ou=principals,{BASE}"
CONFIGURATION = """\
{includes}
modulepath {modules}
moduleload back_mdb
# who connects over the socket, and gives no password
authz-regexp "gidNumber=.*,cn=peercred,cn=external,cn=auth" "{kadmin}"
database mdb
directory {data}
suffix "{base}"
rootdn "{admin}"
rootpw {password}
access to * by dn="{kadmin}" write by dn="{kdc}" read by anonymous auth
"""
ENTRIES = f"""\
dn: {BASE}
objectClass: dcObject
objectClass: organization
dc: example
o: Example

dn: {PRINCIPALS}
objectClass: organizationalUnit
ou: principals
""" + "".join(f"""
dn: {name}
objectClass: organizationalRole
objectClass: simpleSecurityObject
cn: {name.partition(",")[0][3:]}
userPassword: {ADMIN_PASSWORD}
""" for name in (KDC, KADMIN))


class Directory:
    """The server, with the schemas of these files, in a folder."""

    def __init__(self, folder, project, schemas):
        self.folder, self.project, self.process = folder, project, None
        self.socket = folder / "ldapi"
        self.url = f"ldapi://{urllib.parse.quote(str(self.socket), safe='')}"
        data, self.file = folder / "directory", folder / "slapd.conf"
        data.mkdir()
        [modules] = project.folder.glob("usr/lib/ldap")
        self.file.write_text(CONFIGURATION.format(
            includes="\n".join(f"include {it}" for it in schemas), modules=modules, data=data, base=BASE, admin=ADMIN,
            password=ADMIN_PASSWORD, kdc=KDC, kadmin=KADMIN))
        self.command = [project.program("slapd"), "-f", str(self.file)]
        self.must([self.command[0], "-T", "add", *self.command[1:]], ENTRIES)
        self.start()

    def environment(self):
        return {**os.environ, "LC_ALL": "C", "LD_LIBRARY_PATH": self.project.libraries}

    def must(self, command, text=""):
        done = subprocess.run(command, input=text, capture_output=True, text=True, env=self.environment())
        if done.returncode != 0:
            raise Failed(f"{command}: {done.stdout}{done.stderr}")
        return done.stdout

    def modify(self, text):
        """By the directory's own program, past the KDC's."""
        words = ["-x", "-H", self.url, "-D", ADMIN, "-w", ADMIN_PASSWORD]
        self.must([self.project.program("ldapmodify"), *words], text)

    def start(self):
        with (self.folder / "slapd.out").open("a") as out:
            # with a number of what it logs it stays in the foreground
            self.process = subprocess.Popen(
                [*self.command, "-d", "0", "-h", self.url], stdin=subprocess.DEVNULL, stdout=out, stderr=out,
                env=self.environment(), start_new_session=True,
            )
        if not comes(self.listens):
            raise Failed(f"slapd doesn't listen: {(self.folder / 'slapd.out').read_text()}")

    def listens(self):
        with socket.socket(socket.AF_UNIX) as probe:
            return probe.connect_ex(str(self.socket)) == 0

    def end(self):
        self.process.terminate()
        self.process.wait()

    @contextlib.contextmanager
    def away(self):
        self.end()
        try:
            yield
        finally:
            self.start()

    @contextlib.contextmanager
    def with_lines(self, *lines):
        """It is restarted with more lines of its configuration, and afterwards without them."""
        text = self.file.read_text()
        with self.away():
            self.file.write_text(text + "".join(f"{line}\n" for line in lines))
        try:
            yield
        finally:
            with self.away():
                self.file.write_text(text)

    @contextlib.contextmanager
    def hanging(self):
        self.process.send_signal(signal.SIGSTOP)
        # until each of its threads has stopped
        os.waitpid(self.process.pid, os.WUNTRACED)
        try:
            yield
        finally:
            self.process.send_signal(signal.SIGCONT)


class InDirectory:
    """What both realms have besides their project's: a directory, for as long as they last."""

    directory = None

    def __init__(self, *words):
        super().__init__(*words)
        self.ldap = Project(packages_folder() / "ldap")
        # the server's libraries want some of MIT's
        self.server = Project(self.ldap.folder)
        self.server.libraries += ":" + Project(packages_folder() / "mit").libraries

    def __exit__(self, *words):
        if self.directory is not None:
            self.directory.end()
        super().__exit__(*words)

    def make_directory(self, *schemas):
        folder = self.ldap.folder / "etc/ldap/schema"
        self.directory = Directory(self.folder, self.server, [folder / "core.schema", *schemas])


class MitInDirectory(InDirectory, Mit):
    """By the module kldap, which kadmin and the agent load as the KDC does."""

    def __init__(self, *words):
        super().__init__(*words)
        self.mit.libraries += ":" + self.ldap.libraries + "".join(f":{it}" for it in self.ldap.folder.glob("usr/lib/*/krb5"))

    def write_kdc_configuration(self):
        super().write_kdc_configuration()
        file = self.folder / "schema"
        [packed] = self.ldap.folder.glob("usr/share/doc/krb5-kdc-ldap/kerberos.schema.gz")
        file.write_bytes(gzip.decompress(packed.read_bytes()))
        self.make_directory(file)
        config = self.folder / "kdc.conf"
        text = config.read_text().replace(f"database_name = {self.folder}/principal", "database_module = directory")
        before, _, after = text.partition(f"    db_module_dir = {self.mit.plugins()}/kdb\n")
        [modules] = self.ldap.folder.glob("usr/lib/*/krb5/plugins/kdb")
        config.write_text(f"""\
{before}    db_module_dir = {modules}
    directory = {{
        db_library = kldap
        ldap_servers = {self.directory.url}
        ldap_kerberos_container_dn = {CONTAINER}
        ldap_kdc_dn = {KDC}
        ldap_kadmind_dn = {KADMIN}
        ldap_service_password_file = {self.folder}/service.keyfile
        # the KDC may only read
        disable_last_success = true
        disable_lockout = true
    }}
{after}""")

    def util(self, *words, lines=()):
        command = [self.ldap.program("kdb5_ldap_util"), "-H", self.directory.url, "-D", ADMIN, *words]
        done = self.run(self.mit, command, lines)
        if done.returncode != 0:
            raise Failed(f"{words}: {done.stdout}{done.stderr}")

    def make_database(self):
        for name in (KDC, KADMIN):
            lines = [ADMIN_PASSWORD] * 3
            self.util("stashsrvpw", "-f", f"{self.folder}/service.keyfile", name, lines=lines)
        self.util("-w", ADMIN_PASSWORD, "create", "-r", REALM, "-s", "-P", MASTER)
        for name, password in self.passwords.items():
            self.kadmin("addprinc", "-pw", password, name)


class HeimdalInDirectory(InDirectory, Heimdal):
    """By Heimdal's own library. Its log of changes is a file all the same."""

    def __init__(self, *words):
        super().__init__(*words)
        self.heimdal.libraries += ":" + self.ldap.libraries

    def write_configuration(self, *words):
        super().write_configuration(*words)
        if self.directory is None:
            cosine = self.ldap.folder / "etc/ldap/schema/cosine.schema"
            self.make_directory(cosine, self.heimdal.folder / "etc/ldap/schema/hdb.schema")
        for file in self.folder.glob("krb5*.conf"):
            text = file.read_text().replace(f"dbname = {self.folder}/heimdal", f"dbname = ldap:{PRINCIPALS}")
            if "hdb-ldap-url" not in text:
                text = text.replace("[kdc]\n", f"""\
[kdc]
    hdb-ldap-url = {self.directory.url}
    hdb-ldap-create-base = {PRINCIPALS}
    hdb-ldap-structural-object = account
""")
            file.write_text(text)


KINDS = {"MIT": MitInDirectory, "Heimdal": HeimdalInDirectory}
