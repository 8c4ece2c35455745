"""Stock clients of either project, unchanged, at any KDC and at the service.

What a client's user sees of a run is `Seen`: whether it ended well, and all that it said. A client has
`CASES`, which of ClientCases' are tried with it and how they are called there; and

- `ticket(name, typed)`: kinit, or a login; `has_ticket(name)`: whether it left a ticket;
- `expired(name, password, typed)`: the same where the password has to be changed;
- `kpasswd(name, old, new)`: a user's own change;
- `set_by(actor, password, name, new)`: a change of another's, where it can.
"""

import dataclasses
import os
import subprocess

from harness.realm import NO_DNS, REALM, Project, packages_folder
from tests.kdc.realms import escaped


@dataclasses.dataclass(frozen=True)
class Seen:
    is_done: bool
    text: str

    def __contains__(self, words):
        return words in self.text

    def told(self):
        """On one line, without what differs from run to run."""
        return " | ".join(line.strip() for line in self.text.splitlines() if line.strip())


PROGRAMS = {
    "kinit with an expired password": "expired",
    "kpasswd, and kinit at once": "changed",
    "an administrator's change, and kinit at once": "set_by",
    "kpasswd, too short": "refused",
    "kinit with an expired password, too short": "refused_when_expired",
}


class Client:
    """The clients of one project."""

    CASES = PROGRAMS
    # how it names a KDC that it is to ask over TCP alone
    KDC_PREFIX = ""
    # whether a change is one to it only if the new password gives a ticket at once
    ASKS_FOR_TICKET = False

    @staticmethod
    def is_possible():
        """Whether it can run here; a kind that can't everywhere has `WANTS`, what it wants for that."""
        return True

    def __init__(self, folder, kdc_port, port, host="127.0.0.1", settings=""):
        """KDC and service are at this host, and lines of `settings` stand in [libdefaults]."""
        self.folder = folder
        self.project = Project(packages_folder() / self.PACKAGE)
        self.file = folder / f"{type(self).__name__}.conf"
        self.cache = folder / f"{type(self).__name__}.cache"
        self.file.write_text(f"""\
{NO_DNS}{settings}[realms]
    {REALM} = {{
        kdc = {self.KDC_PREFIX}{host}:{kdc_port}
        kpasswd_server = {self.PREFIX}{host}:{port}
    }}
""")

    def build(self, names):
        """What has to be there for users of these names."""

    def end(self):
        """What runs for them ends."""

    def environment(self):
        return {
            **os.environ,
            "LC_ALL": "C",
            "TZ": "UTC",
            "LD_LIBRARY_PATH": self.project.libraries,
            "KRB5_CONFIG": str(self.file),
            "KRB5CCNAME": f"FILE:{self.cache}",
        }

    def run(self, command, *typed, **more):
        """Without a terminal: what is typed comes from its input."""
        done = subprocess.run(
            [self.project.program(command[0]), *command[1:]],
            input="".join(line + "\n" for line in typed),
            stdout=subprocess.PIPE,
            stderr=subprocess.STDOUT,
            text=True,
            env={**self.environment(), **more},
            start_new_session=True,
            timeout=60,
        )
        return Seen(done.returncode == 0, done.stdout)

    def expired(self, name, password, *typed):
        """The same with a password that has to be changed: what is asked after it is typed."""
        return self.ticket(name, password, *typed)

    def has_ticket(self, name):
        """Whether the cache has a ticket of this user that gives others."""
        listed = self.run(self.LIST)
        return listed.is_done and f"rincipal: {name}@" in listed and f"krbtgt/{REALM}@" in listed

    def ticket(self, name, *typed):
        """What kinit says, which may ask for more than the password."""
        self.cache.unlink(missing_ok=True)
        return self.run([*self.GET, escaped(name)], *typed)


class MitClient(Client):
    KIND = "MIT"
    NAME = "MIT's clients"
    PACKAGE = "mit"
    PREFIX = ""
    SHOWS_REASONS = True
    GET = ["kinit"]
    LIST = ["klist"]
    # what it asks for where a password has expired
    TWICE = ("Enter new password", "Enter it again")

    def kpasswd(self, name, old, new):
        seen = self.run(["kpasswd", name], old, new, new)
        return Seen(seen.is_done and "Password changed." in seen, seen.text)

    def set_by(self, actor, password, name, new):
        """By krb5_set_password."""
        seen = self.run([self.set_password, actor, password, new, name])
        return Seen(seen.text == "0 password changed\n", seen.text)

    def build(self, names):
        """The program over krb5_set_password, of which the project has none."""
        self.set_password = self.project.compiled(self.folder, "set_password", "krb5")


class HeimdalClient(Client):
    KIND = "Heimdal"
    NAME = "Heimdal's clients"
    PACKAGE = "heimdal"
    PREFIX = "tcp/"
    # after a refusal it asks in the earlier protocol, which it has over UDP alone, and tells that nobody is there
    SHOWS_REASONS = False
    GET = ["kinit.heimdal"]
    LIST = ["heimtools", "klist"]
    TWICE = ("New password", "Repeat new password")

    def kpasswd(self, name, old, new):
        seen = self.run(["kpasswd.heimdal", escaped(name)], old, new, new)
        return Seen("Success : password changed" in seen, seen.text)

    def set_by(self, actor, password, name, new):
        """By kpasswd, which asks in the protocol that names whose password it is."""
        command = ["kpasswd.heimdal", f"--admin-principal={actor}", escaped(name)]
        seen = self.run(command, password, new, new)
        return Seen("Success : password changed" in seen, seen.text)


class HeimdalOverUdp(HeimdalClient):
    """It asks over UDP alone where the server's address has no `tcp/` before it."""

    NAME = "Heimdal's clients over UDP"
    PREFIX = ""
    SHOWS_REASONS = True
