"""A Heimdal realm in a root, as Debian's packages make it: its KDC, kpasswdd and clients."""

import re
import time

KIND, NAME = "heimdal", "Heimdal"
REALM = "EXAMPLE.COM"
AGENT = "boddrelyn-agent-heimdal"
USERS = {"alice": "Old-pass1", "bob": "Old-pass2"}
CHANGED = "Success : password changed"
# what the service says while kpasswdd has the port, over UDP alone
SAYS = ("cannot listen",)
# of the service, since Heimdal's clients show a reason over UDP alone
OPTIONS = "--udp --kdc-wait 1500"
EXPORT = "kadmin -l ext_keytab --keytab=service.keytab kadmin/changepw"
SERVERS = "/usr/lib/heimdal-servers"
CLIENT = """\
[libdefaults]
    default_realm = EXAMPLE.COM
    dns_lookup_kdc = false
    dns_lookup_realm = false
[realms]
    EXAMPLE.COM = {
        kdc = 127.0.0.1
        admin_server = 127.0.0.1
        kpasswd_server = 127.0.0.1:464
    }
"""
# a client that is ahead of the KDC, and stays so
AHEAD = "[libdefaults]\n    kdc_timesync = false\n    clockskew = 900\n"
KEYS = "\n    default_keys = aes256-cts-hmac-sha1-96:pw-salt aes128-cts-hmac-sha1-96:pw-salt\n"


class Realm:
    def __init__(self, root):
        self.root, self.kpasswdd = root, None

    def make(self):
        self.root.path("/etc/krb5.conf").write_text(CLIENT)
        self.root.path("/etc/krb5-ahead.conf").write_text(CLIENT.replace("[libdefaults]\n", AHEAD))
        file = self.root.path("/etc/heimdal-kdc/kdc.conf")
        file.write_text(file.read_text().replace("[kadmin]\n", f"[kadmin]{KEYS}", 1))
        # what the package's installation made
        self.root.must("sh", "-c", "cd /var/lib/heimdal-kdc && rm -f heimdal* m-key log")
        self.root.must("kstash", "--random-key")
        self.kadmin("init", "--realm-max-ticket-life=1d", "--realm-max-renewable-life=1w", REALM)
        for name, password in USERS.items():
            self.kadmin("add", "--use-defaults", f"--password={password}", name)
        self.kadmin("modify", "--max-ticket-life=1h", "kadmin/changepw")
        self.root.start(f"{SERVERS}/kdc", "--config-file=/etc/heimdal-kdc/kdc.conf")
        self.kpasswdd = self.root.start(f"{SERVERS}/kpasswdd")
        time.sleep(2)

    def kadmin(self, *words):
        return self.root.must("kadmin", "-l", *words)

    def give_up_port(self, _tell):
        """As README.Debian says: kpasswdd doesn't run."""
        self.kpasswdd.terminate()
        self.kpasswdd.wait()

    def is_second(self, _tell):
        """It isn't tried."""

    def kpasswd(self, name, old, new, **environment):
        """What the client says."""
        return self.root.run("kpasswd", name, lines=[old, new, new], **environment).stdout

    def kinit(self, name, password):
        return self.root.run("kinit", "--password-file=STDIN", name, lines=[password]).returncode == 0

    def kvno(self, name):
        return int(re.search(r"Kvno: (\d+)", self.kadmin("get", name))[1])
