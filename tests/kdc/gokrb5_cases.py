"""gokrb5, a library of Go, as a program of a few lines calls it (gokrb5/change.go), tried as the other clients are."""

import os
import subprocess

from harness.realm import REALM, packages_folder
from tests.kdc.client_cases import ClientCases, User
from tests.kdc.realms import HERE
from tests.kdc.stock_clients import Client, Seen

UNPACKED = packages_folder() / "go"


class Gokrb5(Client):
    """With its defaults: it asks over UDP, as its messages are short, and over nothing else."""

    # an administrator's change is none of its calls
    CASES = {
        "a login with an expired password": "expired",
        "a change, and a login at once": "changed",
        "a change, too short": "refused",
        "a login with an expired password, too short": "refused_when_expired",
    }
    KIND = "Go"
    NAME = "gokrb5"
    PACKAGE = "go"
    PREFIX = ""
    DEFAULTS = ""
    SHOWS_REASONS = True
    # who asks for a new password is the program that calls it
    TWICE = ()
    NEEDS_UDP = True

    def __init__(self, folder, kdc_port, port):
        super().__init__(folder, kdc_port, port)
        text = self.file.read_text()
        self.file.write_text(text.replace("[libdefaults]\n", f"[libdefaults]\n{self.DEFAULTS}"))

    def build(self, _):
        """The program; what was compiled of the library is kept beside it."""
        self.program = self.folder / "change"
        places = {
            "GOROOT": next(UNPACKED.glob("usr/lib/go-*")),
            "GOPATH": UNPACKED / "usr/share/gocode",
            "GOCACHE": UNPACKED / "cache",
        }
        words = {"GO111MODULE": "off", "GOENV": "off", "GOFLAGS": "", "CGO_ENABLED": "0"}
        subprocess.run(
            [places["GOROOT"] / "bin/go", "build", "-o", self.program, HERE / "gokrb5/change.go"],
            env={**os.environ, **words, **{name: str(place) for name, place in places.items()}},
            check=True,
        )

    def call(self, name, *typed):
        """What its calls return, a line each."""
        seen = self.run([str(self.program), str(self.file), name], *typed)
        self.has = seen.text.splitlines()[-1:] == [f"Login: {name}@{REALM} has a ticket"]
        return seen

    def ticket(self, name, typed):
        return self.call(name, typed)

    def expired(self, name, password, new, *_):
        """Typed once. The login fails, and the change is asked for all the same."""
        seen = self.call(name, password, new)
        return Seen("KDC_ERR_KEY_EXPIRED" in seen and seen.is_done, seen.text)

    def has_ticket(self, name):
        """It keeps its tickets to itself: whether its last call gave one."""
        return self.has

    def kpasswd(self, name, old, new):
        """Whether the change was made, whatever came of the login after it."""
        seen = self.call(name, old, new)
        return Seen("ChangePasswd: true, <nil>" in seen, seen.text)


class Gokrb5OverTcp(Gokrb5):
    NAME = "gokrb5 over TCP"
    DEFAULTS = "    udp_preference_limit = 1\n"
    NEEDS_UDP = False


class Gokrb5Cases(ClientCases):
    KINDS = [Gokrb5, Gokrb5OverTcp]

    def test_without_udp(self):
        self.admin = User(self.name())
        users = [User(self.name()) for _ in self.KINDS]
        with self.serving([self.admin, *users], "without-udp", ()):
            for kind, user in zip(self.KINDS, users):
                client = kind(self.files.folder, self.realm.kdc_port, self.files.server.port)
                client.build([user.name])
                self.without_udp(client, user)

    def without_udp(self, client, user):
        """The service has no `--udp`: who asks over it is told so at once, and keeps the former password."""
        former, user.password = user.password, user.next()
        seen = client.kpasswd(user.name, former, user.password)
        self.show(client, "a change, no --udp", seen)
        if client.NEEDS_UDP:
            user.password, user.count = former, 0
        found = seen.is_done, "connection refused" in seen
        wanted = not client.NEEDS_UDP, client.NEEDS_UDP
        self.tell(f"{client.NAME}: a change, no --udp: done, refused by the port", found, wanted)
        self.tell("  a ticket by the password that is the user's now", self.gives_ticket(client, user))
