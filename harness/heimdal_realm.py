"""A realm EXAMPLE.COM of Heimdal on loopback, in a temporary folder, and its clients."""

import os
import re

from harness.ports import free_ports, is_open
from harness.realm import REALM, SERVICE, AnyRealm, Failed


class HeimdalRealm(AnyRealm):
    """`with HeimdalRealm(passwords) as realm` makes it and starts its KDC; both are gone afterwards."""

    PREFIX = "chpw-heimdal-"

    def __init__(self, passwords, keep=False):
        super().__init__(passwords, keep)
        [self.kdc_port] = free_ports(1)

    def make(self):
        self.write_configuration(0)
        self.make_database()
        self.start_kdc()

    def write_configuration(self, kpasswd_port, more=""):
        """Of the KDC and of the clients, whose server for changes is at that port.

        arcfour is among the keys as an etype that the service doesn't have.
        """
        (self.folder / f"krb5{'-ahead' if more else ''}.conf").write_text(f"""\
[libdefaults]
    default_realm = {REALM}
    dns_lookup_kdc = false
    dns_canonicalize_hostname = false
{more}[realms]
    {REALM} = {{
        kdc = tcp/127.0.0.1:{self.kdc_port}
        kpasswd_server = tcp/127.0.0.1:{kpasswd_port}
    }}
[kdc]
    database = {{
        dbname = {self.folder}/heimdal
        realm = {REALM}
        mkey_file = {self.folder}/master-key
        log_file = {self.folder}/log
        acl_file = {self.folder}/acl
    }}
[kadmin]
    default_keys = aes256-cts-hmac-sha1-96:pw-salt aes128-cts-hmac-sha1-96:pw-salt arcfour-hmac-md5:pw-salt
[logging]
    kdc = 0-/FILE:{self.folder}/kdc.log
""")

    # ---- programs

    def environment(self, variant=""):
        return {
            **os.environ,
            "LC_ALL": "C",
            "TZ": "UTC",
            "LD_LIBRARY_PATH": self.heimdal.libraries,
            "KRB5_CONFIG": str(self.folder / f"krb5{variant}.conf"),
            "KRB5CCNAME": f"FILE:{self.folder}/cache",
        }

    def run(self, command, lines=(), variant="", **more):
        """Runs a program of Heimdal's without a terminal, the lines as its input."""
        return self.ended([self.heimdal.program(command[0]), *command[1:]], lines, {**self.environment(variant), **more})

    def kadmin(self, *words):
        """What it prints; it says what went wrong, and its status may be 0."""
        done = self.run(["kadmin.heimdal", "-l", *words])
        if done.returncode != 0 or done.stderr:
            raise Failed(f"kadmin {' '.join(words)}: {done.stdout}{done.stderr}")
        return done.stdout

    def make_database(self):
        key_file = f"--key-file={self.folder}/master-key"
        self.run([f"{self.heimdal.folder}/usr/sbin/kstash", "--random-key", key_file])
        limits = ["--realm-max-ticket-life=1d", "--realm-max-renewable-life=1w"]
        self.kadmin("init", *limits, REALM)
        for name, password in self.passwords.items():
            self.kadmin("add", "--use-defaults", f"--password={password}", escaped(name))

    def start_kdc(self):
        program = self.heimdal.folder / "usr/lib/heimdal-servers/kdc"
        words = [f"--config-file={self.folder}/krb5.conf", "--addresses=127.0.0.1", f"--ports={self.kdc_port}"]
        self.begin("kdc", [program, *words], self.environment(), lambda process: is_open(self.kdc_port, process))

    def keytab(self, names=None):
        """The bytes of a keytab with the keys of the service and of the principals, or of these."""
        path = self.folder / "realm.keytab"
        path.unlink(missing_ok=True)
        names = [SERVICE, *map(escaped, names or self.passwords)]
        self.kadmin("ext_keytab", f"--keytab={path}", *names)
        return path.read_bytes()

    def kvno(self, name):
        """Which version the database has."""
        return int(re.search(r"Kvno: (\d+)", self.kadmin("get", escaped(name)))[1])


def escaped(name):
    return name.replace(" ", "\\ ")
