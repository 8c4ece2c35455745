"""Logins by pamtester: pam_krb5 of either project, and sssd. They are asked as stock_clients.py has it."""

import contextlib
import fcntl
import os
import pathlib
import shutil
import subprocess

from harness.realm import REALM, packages_folder
from tests.kdc.realms import HERE
from tests.kdc.stock_clients import Client, HeimdalClient, HeimdalOverUdp, MitClient, Seen

LOGINS = {
    "a login with an expired password": "expired",
    "a change, and a login at once": "changed",
    "a change, too short": "refused",
    "a login with an expired password, too short": "refused_when_expired",
}
PAMTESTER = packages_folder() / "pam/usr/bin/pamtester"
LOGIN = ["authenticate", "acct_mgmt", "open_session", "close_session"]
# as login goes on where a password has expired
CHANGING = ["authenticate", "chauthtok(PAM_CHANGE_EXPIRED_AUTHTOK)", "open_session", "close_session"]
# sssd knows users by their numbers too, and none of root's
FIRST_USER = 60_001


def write_users(folder, users, group):
    """Files as /etc/passwd and /etc/group: root, and users by their names, each with a number."""
    lines = "".join(f"{name}:x:{number}:{group}::/:/bin/sh\n" for name, number in users.items())
    (folder / "passwd").write_text(f"root:x:0:0::/root:/bin/sh\n{lines}")
    (folder / "group").write_text(f"root:x:0:\nall:x:{group}:\n")


@contextlib.contextmanager
def alone():
    """No other pamtester runs: two that begin at once may take one folder, /tmp/pam.0, for their own."""
    with (packages_folder() / "pam.lock").open("w") as file:
        fcntl.flock(file, fcntl.LOCK_EX)
        yield


class Pam:
    """Beside a project's clients: its pam_krb5 as pamtester calls it, for users of a file of its own."""

    CASES = LOGINS

    def build(self, names):
        """Files of PAM's configuration and of the users, which are all this process's user."""
        self.services = self.folder / f"{type(self).__name__}.pam"
        self.services.mkdir()
        [module] = (packages_folder() / self.MODULE).glob("lib/*/security/pam_krb5.so")
        line = f"required {module} ignore_k5login retain_after_close ccache=FILE:{self.cache}\n"
        for service in ("login", "other"):
            text = "".join(f"{kind} {line}" for kind in ("auth", "account", "password", "session"))
            (self.services / service).write_text(text)
        write_users(self.folder, dict.fromkeys(names, os.getuid()), os.getgid())

    def pamtester(self, name, words, typed):
        folder = packages_folder() / "pam"
        wrappers = [next(folder.glob(f"usr/lib/*/lib{kind}_wrapper.so")) for kind in ("pam", "nss")]
        with alone():
            return self.run(
                [str(PAMTESTER), "login", name, *words],
                *typed,
                LD_PRELOAD=":".join(map(str, wrappers)),
                PAM_WRAPPER="1",
                PAM_WRAPPER_SERVICE_DIR=str(self.services),
                NSS_WRAPPER_PASSWD=str(self.folder / "passwd"),
                NSS_WRAPPER_GROUP=str(self.folder / "group"),
            )

    def ticket(self, name, *typed):
        """A login, to the end of the session."""
        self.cache.unlink(missing_ok=True)
        return self.pamtester(name, LOGIN, typed)

    def kpasswd(self, name, old, new):
        return self.pamtester(name, ["chauthtok"], [old, new, new])


class MitPam(Pam, MitClient):
    NAME = "pam_krb5 over MIT's library"
    MODULE = "pam"


class HeimdalPam(Pam, HeimdalClient):
    NAME = "pam_krb5 over Heimdal's library"
    MODULE = "pam-heimdal"


class HeimdalPamOverUdp(Pam, HeimdalOverUdp):
    NAME = "pam_krb5 over Heimdal's library over UDP"
    MODULE = "pam-heimdal"


class Sssd(Client):
    """sssd over MIT's library. It runs beside, with a view of the machine's files of its own."""

    CASES = LOGINS
    KIND = "MIT"
    NAME = "sssd"
    PACKAGE = "mit"
    PREFIX = ""
    SHOWS_REASONS = True
    ASKS_FOR_TICKET = True
    TWICE = ("New Password", "Reenter new Password")
    WANTS = "root and a mount namespace"

    @staticmethod
    def is_possible():
        """Whether this process may have such a view."""
        over = f"mount -t overlay -o lowerdir={packages_folder()}/sssd/usr:/usr overlay /usr"
        command = ["unshare", "--mount", "sh", "-c", f"mount --make-rprivate / && {over}"]
        if os.geteuid() != 0 or not all(map(shutil.which, ("unshare", "nsenter", "setpriv"))):
            return False
        return subprocess.run(command, capture_output=True).returncode == 0

    def __init__(self, folder, kdc_port, port):
        self.folder = folder / "sssd"
        self.folder.mkdir()
        (self.folder / "sssd.conf").write_text(f"""\
[sssd]
services = nss, pam
domains = files
[pam]
pam_verbosity = 2
[domain/files]
id_provider = proxy
proxy_lib_name = files
auth_provider = krb5
chpass_provider = krb5
access_provider = permit
krb5_realm = {REALM}
krb5_server = 127.0.0.1:{kdc_port}
krb5_kpasswd = 127.0.0.1:{port}
krb5_ccname_template = FILE:/run/cache_%U
""")
        (self.folder / "krb5.conf").write_text(f"[libdefaults]\n    default_realm = {REALM}\n    rdns = false\n")

    def build(self, names):
        """sssd, until it serves logins."""
        self.numbers = {name: FIRST_USER + place for place, name in enumerate(names)}
        write_users(self.folder, self.numbers, FIRST_USER)
        self.process = subprocess.Popen(
            ["unshare", "--mount", HERE / "sssd.sh", packages_folder() / "sssd", self.folder, "cat"],
            stdin=subprocess.PIPE,
            stdout=subprocess.PIPE,
            text=True,
            start_new_session=True,
        )
        self.process.stdin.write("it serves\n")
        self.process.stdin.flush()
        if not self.process.stdout.readline():
            raise RuntimeError("sssd doesn't start")

    def end(self):
        self.process.stdin.close()
        self.process.wait()

    def inside(self, command, typed):
        done = subprocess.run(
            ["nsenter", f"--mount=/proc/{self.process.pid}/ns/mnt", *map(str, command)],
            input="".join(line + "\n" for line in typed),
            stdout=subprocess.PIPE,
            stderr=subprocess.STDOUT,
            text=True,
            env={"PATH": os.environ["PATH"], "LC_ALL": "C", "TZ": "UTC"},
            start_new_session=True,
            timeout=60,
        )
        return Seen(done.returncode == 0, done.stdout)

    def cache_of(self, name):
        """As sssd sees it."""
        return pathlib.Path(f"/proc/{self.process.pid}/root/run/cache_{self.numbers[name]}")

    def ticket(self, name, *typed):
        self.cache_of(name).unlink(missing_ok=True)
        return self.inside([PAMTESTER, "login", name, *LOGIN], typed)

    def expired(self, name, password, *typed):
        """The former password is asked for once more."""
        self.cache_of(name).unlink(missing_ok=True)
        return self.inside([PAMTESTER, "login", name, *CHANGING], [password, password, *typed])

    def has_ticket(self, name):
        return self.cache_of(name).exists()

    def kpasswd(self, name, old, new):
        """The user's own, as passwd asks."""
        user = ["setpriv", f"--reuid={self.numbers[name]}", f"--regid={FIRST_USER}", "--clear-groups"]
        return self.inside([*user, PAMTESTER, "login", name, "chauthtok"], [old, new, new])
