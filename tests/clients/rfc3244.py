"""Heimdal's and MIT's clients change and set passwords through the service, in version 0xff80.

A realm of MIT Kerberos on loopback gives the tickets. A line for each run says what the client printed.
"""

import dataclasses
import unicodedata

from harness import cases, configuration
from harness.command import Parser
from harness.journal import read_journal
from harness.realm import SERVICE, Realm
from harness.server import Server

# what the KDC knows all the time: the service keeps the changes to itself
PASSWORDS = {
    "alice": "Old-pass1",
    "bob": "Old-pass1",
    "carol/ops": "Old-pass1",
    "admin": "Admin-pass1",
}
# zoe is a name that no principal has
RULES = [("admin", "bob"), ("admin", "zoe")]
UMLAUTS = unicodedata.normalize("NFC", "Schöne Wörter 1")


@dataclasses.dataclass(frozen=True)
class Run:
    """A run of a client. `wanted` is what it prints; None is any refusal (Heimdal, see README)."""

    what: str
    project: str
    arguments: list
    new: str
    wanted: str | None
    # whose password it is where it is changed; whether the request is counted; krb5.conf's variant
    changed: str | None = None
    entries: int = 1
    variant: str = ""


def heimdal(what, client, target, new, ok, variant=""):
    wanted = "Success : password changed" if ok else None
    changed = target if ok else None
    return Run("Heimdal: " + what, "heimdal", [client, target], new, wanted, changed, 1, variant)


def mit(what, client, target, new, wanted, options=(), entries=1, variant=""):
    arguments = [*options, client, PASSWORDS[client], new, target]
    changed = target if wanted.startswith("0 ") else None
    return Run("MIT: " + what, "mit", arguments, new, wanted, changed, entries, variant)


def earlier(what, new, wanted, options=()):
    """A change of alice's in the earlier protocol, version 1."""
    arguments = [*options, "--change", "alice", PASSWORDS["alice"], new]
    changed = "alice" if wanted == DONE else None
    return Run("MIT, version 1: " + what, "mit", arguments, new, wanted, changed)


DONE = "0 password changed"
AES128 = "-aes128"
CASES = [
    heimdal("alice changes hers", "alice", "alice", "Heimdal-pass2", True),
    heimdal("with AES-128", "alice", "alice", "Heimdal-pass3", True, AES128),
    heimdal("admin sets bob's", "admin", "bob", "Heimdal-pass2", True),
    heimdal("too short", "alice", "alice", "Abc1", False),
    heimdal("used before", "alice", "alice", "Heimdal-pass2", False),
    heimdal("bob may not set alice's", "bob", "alice", "Heimdal-pass4", False),
    mit("alice changes hers", "alice", "alice", "Mit-pass4", DONE),
    mit("with AES-128", "alice", "alice", "Mit-pass5", DONE, variant=AES128),
    mit("admin sets bob's", "admin", "bob", "Mit-pass3", DONE),
    mit("beyond ASCII, a name of two parts", "carol/ops", "carol/ops", UMLAUTS, DONE),
    mit("too short", "alice", "alice", "Abc1", "4 password too short"),
    mit("too few classes", "alice", "alice", "abcdefgh", "4 too few character classes"),
    mit("used before", "alice", "alice", "Heimdal-pass3", "4 password used before"),
    mit("used long ago", "alice", "alice", "Old-pass1", DONE),
    mit("admin may not set alice's", "admin", "alice", "Mit-pass6", "5 access denied"),
    mit("bob may not set alice's", "bob", "alice", "Mit-pass6", "5 access denied"),
    mit("nobody of this name", "admin", "zoe", "Mit-pass6", "2 no such principal"),
    mit("not initial", "alice", "alice", "Mit-pass6", "7 initial ticket needed", ["--tgt"]),
    mit("not initial, to set", "admin", "bob", "Mit-pass4", DONE, ["--tgt"]),
    earlier("too short", "Abc1", "4 password too short"),
    earlier("not initial", "Mit-pass6", "7 initial ticket needed", ["--tgt"]),
    earlier("alice changes hers", "Mit-pass6", DONE),
]
# after the KDC has a new key for the service
STALE = mit(
    "a key that the service lacks",
    "alice",
    "alice",
    "Mit-pass6",
    "3 authentication failed",
    entries=0,
)


def ask(realm, client, case):
    """What the client prints; None where Heimdal's was refused."""
    if case.project == "mit":
        done = realm.run(realm.mit, [client, *case.arguments], variant=case.variant)
        return (done.stdout + done.stderr).strip()
    actor, target = case.arguments
    words = [target] if actor == target else [f"--admin-principal={actor}", target]
    lines = [PASSWORDS[actor], case.new, case.new]
    done = realm.run(realm.heimdal, ["kpasswd.heimdal", *words], lines, case.variant)
    return done.stdout.strip() if done.returncode == 0 else None


def check_journal(report, realm, server, accepted):
    """The records are the accepted changes, and the newest keys those that MIT makes of them."""
    records, torn = read_journal(server.journal.read_bytes())
    report.tell("the journal's names", [r.name for r in records], [name for name, _ in accepted])
    report.tell("its torn tail", torn, b"")
    newest = dict(accepted)
    for name, password in newest.items():
        realm.kadmin("cpw", "-pw", password, name)
    keys = {
        (entry.principal, entry.etype): entry.key
        for entry in configuration.read_keytab(realm.keytab())
    }
    last = {record.name: record for record in records}
    for name in newest:
        same = name in last and (last[name].aes128, last[name].aes256) == (
            keys[name, configuration.AES128],
            keys[name, configuration.AES256],
        )
        report.tell(f"the newest keys of {name} are MIT's", same, True)


def run(realm, server, report):
    client = realm.client()
    server.configuration.write_text(configuration.configuration(realm.keytab(), RULES))
    server.configuration.chmod(0o600)
    runs = [*CASES, STALE]
    server.start(connections=len(runs))
    realm.write_client_configuration(server.port)
    # so that there are tickets for the service that aren't initial
    realm.kadmin("modprinc", "+allow_tgs_req", SERVICE)
    accepted = []
    for case in runs:
        if case is STALE:
            realm.kadmin("cpw", "-randkey", SERVICE)
        found = ask(realm, client, case)
        report.tell(case.what, "refused" if found is None else found, case.wanted or "refused")
        if case.changed:
            accepted.append((case.changed, case.new))
    counts = f"entries {sum(case.entries for case in runs)} changes {len(accepted)}"
    report.tell("serve's last line", server.last_words(), counts)
    check_journal(report, realm, server, accepted)


class StockClients(cases.Case):
    def test_clients(self):
        """Each in turn, at one service."""
        with Realm(PASSWORDS, self.words.keep) as realm:
            server = Server(self.program, realm.folder, workers=2)
            self.addCleanup(server.end)
            run(realm, server, self)


if __name__ == "__main__":
    cases.main(__doc__, Parser.add_keep)
