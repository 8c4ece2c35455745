"""An MIT realm in a root, as Debian's packages make it: its KDC, kadmind and clients."""

import socket
import time

from tests.packages.root import Failed

KIND, NAME = "mit", "MIT"
REALM = "EXAMPLE.COM"
AGENT = "boddrelyn-agent-mit"
USERS = {"alice": "Old-pass1", "bob": "Old-pass2"}
CHANGED = "Password changed."
# what the service says while the KDC's own server has the port
SAYS = ("cannot listen", "127.0.0.1:464: in use")
# of the service, and another export of keys than README.Debian's first
OPTIONS, EXPORT = "", None
# what README.Debian says that gives up port 464; the first is the one that it advises
GIVES_UP = "kpasswd_listen = 127.0.0.1:1464"
GIVES_UP_TOO = "kpasswd_port = 1464"
CLIENT = """\
[libdefaults]
    default_realm = EXAMPLE.COM
    dns_lookup_kdc = false
    dns_canonicalize_hostname = false
    rdns = false
[realms]
    EXAMPLE.COM = {
        kdc = 127.0.0.1
        admin_server = 127.0.0.1
        kpasswd_server = 127.0.0.1:464
    }
"""
# a client that is ahead of the KDC, and stays so
AHEAD = "[libdefaults]\n    kdc_timesync = 0\n    clockskew = 900\n"
KDC = """\
[realms]
    EXAMPLE.COM = {
        # here
        supported_enctypes = aes256-cts-hmac-sha1-96:normal aes128-cts-hmac-sha1-96:normal
        master_key_type = aes256-cts-hmac-sha1-96
    }
"""


def is_free(port):
    """Whether nobody has the port, at any address."""
    with socket.socket() as it:
        it.setsockopt(socket.SOL_SOCKET, socket.SO_REUSEADDR, 1)
        try:
            it.bind(("", port))
            it.listen()
        except OSError:
            return False
    return True


class Realm:
    def __init__(self, root):
        self.root, self.kadmind = root, None

    def write(self):
        """Configurations and database."""
        self.root.path("/etc/krb5.conf").write_text(CLIENT)
        self.root.path("/etc/krb5-ahead.conf").write_text(CLIENT.replace("[libdefaults]\n", AHEAD))
        self.root.path("/etc/krb5kdc").mkdir(exist_ok=True)
        self.root.path("/etc/krb5kdc/kdc.conf").write_text(KDC)
        self.root.path("/etc/krb5kdc/kadm5.acl").write_text("")
        self.root.must("kdb5_util", "create", "-s", "-r", REALM, "-P", "Master-pass1")
        for name, password in USERS.items():
            self.root.must("kadmin.local", "addprinc", "-pw", password, name)

    def make(self):
        self.write()
        self.root.start("/usr/sbin/krb5kdc", "-n")
        self.start_password_server()

    def start_password_server(self):
        """MIT's own, which is a part of kadmind. It is to listen where it was told to."""
        self.kadmind = self.root.start("/usr/sbin/kadmind", "-nofork")
        time.sleep(2)
        if self.kadmind.poll() is not None:
            raise Failed(f"kadmind ended: {self.root.path('/tmp/kadmind.output').read_text()}")

    def restart(self, line):
        """kadmind, with another line of README.Debian, or none."""
        self.root.path("/etc/krb5kdc/kdc.conf").write_text(KDC.replace("# here", line))
        self.kadmind.terminate()
        self.kadmind.wait()
        self.start_password_server()

    def give_up_port(self, tell):
        """As README.Debian says."""
        for line in (GIVES_UP_TOO, GIVES_UP):
            self.restart(line)
            tell(f"kadmind gives up port 464: {line}", is_free(464))

    def is_second(self, tell):
        """kadmind, as it is installed, where the service has the port."""
        try:
            self.restart("")
            tell("kadmind, started second without that line, ends", False)
        except Failed:
            tell("kadmind, started second without that line, ends", True)
        self.restart(GIVES_UP)
        tell("kadmind runs beside the service", self.kadmind.poll(), None)

    def kpasswd(self, name, old, new, **environment):
        """What the client says."""
        return self.root.run("kpasswd", name, lines=[old, new, new], **environment).stdout

    def kinit(self, name, password):
        return self.root.run("kinit", name, lines=[password]).returncode == 0

    def kvno(self, name):
        text = self.root.must("kadmin.local", "getprinc", name)
        return max(int(line.split("vno ")[1].split(",")[0]) for line in text.splitlines() if line.startswith("Key: vno"))
