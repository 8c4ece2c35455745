"""A service that goes on while its realm gets a new user, new keys of kadmin/changepw and a new log.

There is a realm of MIT Kerberos on loopback, and its stock clients change passwords all the while: bob with `kpasswd`,
again and again, each time with a ticket that he gets then, and alice with one ticket (set_password.c). None of their
requests may be refused.

- A new user. `addprinc` and `ktadd` of `kadmin.local`, `import`, `control reload`: `kpasswd` changes carol's password within
  --soon seconds of the reload. Before, the service knows nobody of her name.
- New keys of kadmin/changepw, the service first: keys of a word that nobody knows are put into a keytab (`ktutil`) and added
  beside the former ones (`import`, `reload`), then the KDC gets them (`cpw`), and later the former ones go.
- The same, the KDC first (`ktadd`). From then on it gives tickets that the service can't read until the reload: bob waits for
  that, and alice's ticket is one of before.
- A new log, twice, by logrotate and the file in packaging/.
"""

import base64
import os
import secrets
import subprocess
import threading
import time

from harness import cases
from harness.command import TOP, Parser
from harness.journal import read_journal
from harness.log_lines import events, messages
from harness.realm import REALM, SERVICE, Project, Realm, packages_folder
from harness.server import Server

HEAD = TOP / "samples/head.toml"
RULE = '[[rule]]\nactor = "admin"\ntarget = "*"\n'
ROTATION = TOP / "packaging/boddrelyn.logrotate"
OLD = "Old-pass1"
DONE = "Password changed."
UNKNOWN = "Server error: no such principal"
# seconds from the order to reload until a new user's password is changed, at the most
SOON = 2.0
CONNECTIONS = 1_000_000
# five reloads, and what is behind the last one
HISTORIES = 6
WORKERS = 4
# more changes than there is time for
MANY = 1_000_000
PATIENCE = 60


class Kpasswd(threading.Thread):
    """Changes a user's password with `kpasswd` until it is ended, and pauses while somebody has the lock."""

    def __init__(self, realm, name):
        super().__init__()
        self.realm = realm
        self.name = name
        self.answers = []
        self.pause = threading.Lock()
        self.is_over = False

    def run(self):
        while not self.is_over:
            with self.pause:
                self.answers.append(kpasswd(self.realm, self.name, f"Bobs-pass-{len(self.answers)}"))
            time.sleep(0.01)

    def wait_for(self, more):
        """Until there are so many answers more."""
        wanted, begun = len(self.answers) + more, time.monotonic()
        while len(self.answers) < wanted and time.monotonic() - begun < PATIENCE:
            time.sleep(0.01)

    def end(self):
        self.is_over = True
        self.join()


class OneTicket:
    """Changes alice's password with one ticket, until it is ended."""

    def __init__(self, realm, number):
        words = [realm.client(), "--many", str(MANY), "alice", OLD, f"Alices-pass-{number}", "alice"]
        self.process = subprocess.Popen(
            words, stdin=subprocess.DEVNULL, stdout=subprocess.PIPE, stderr=subprocess.STDOUT, text=True,
            env=realm.environment(realm.mit), start_new_session=True)

    def end(self):
        """What it says where it has ended by itself: a change was refused."""
        if self.process.poll() is None:
            self.process.terminate()
            self.process.communicate()
            return "goes on"
        return self.process.communicate()[0].strip()


def kpasswd(realm, name, new):
    """The last line that its user sees."""
    done = realm.run(realm.mit, ["kpasswd", name], [OLD, new, new])
    return (done.stdout + done.stderr).splitlines()[-1]


class Service:
    """The service with its files: a configuration that is a head and what `import` prints of keytabs."""

    def __init__(self, realm, server, report):
        self.realm = realm
        self.server = server
        self.report = report
        self.folder = realm.folder
        self.log = self.folder / "logs/log"
        self.log.parent.mkdir(mode=0o700)
        self.socket = self.folder / "control"
        server.options = ["--control", str(self.socket), "--log", str(self.log)]
        # the keys of kadmin/changepw, and the principals, as import prints them
        self.keys = self.principals = ""

    def printed(self, *words):
        done = subprocess.run([self.server.program, *words], capture_output=True, text=True, timeout=PATIENCE)
        return done.stdout + done.stderr

    def brought(self, keytab):
        """What a keytab holds."""
        words = [self.server.program, "import", "--keytab", keytab, "--realm", REALM]
        return subprocess.run(words, capture_output=True, text=True, timeout=PATIENCE).stdout

    def control(self, command):
        """The answer, but for the warnings about the head's rule."""
        said = self.printed("control", "--socket", self.socket, command).splitlines(keepends=True)
        return "".join(line for line in said if not line.startswith("warning: rule 1: "))

    def write(self):
        """Another file takes the place of the configuration, once it is whole and good."""
        new = self.folder / "new.toml"
        new.touch(mode=0o600)
        new.write_text(HEAD.read_text() + RULE + self.keys + self.principals)
        done = subprocess.run([self.server.program, "check", "--config", new], capture_output=True, text=True, timeout=PATIENCE)
        os.replace(new, self.server.configuration)
        return done.stdout.strip()

    def reload(self, what, counts):
        """The configuration anew, with so many principals, rules and service keys."""
        self.report.tell(f"{what}: check", self.write(), "ok: principals {}, rules {}, service keys {}".format(*counts))
        self.report.tell(f"{what}: reload", self.control("reload"), "ok\n")

    def keytab(self, name, *words):
        """A keytab of this name, as `ktadd` with these words leaves it."""
        path = self.folder / name
        self.realm.kadmin("ktadd", "-k", str(path), *words)
        return path


def a_new_user(service, bob, soon):
    realm, report = service.realm, service.report
    realm.kadmin("addprinc", "-pw", OLD, "carol")
    report.tell("a new user: before", kpasswd(realm, "carol", "Carols-pass2"), UNKNOWN)
    bob.wait_for(1)
    service.principals += service.brought(service.keytab("carol.keytab", "-norandkey", "carol"))
    report.tell("a new user: check", service.write(), "ok: principals 3, rules 1, service keys 2")
    begun = time.monotonic()
    report.tell("a new user: reload", service.control("reload"), "ok\n")
    report.tell("a new user: kpasswd", kpasswd(realm, "carol", "Carols-pass2"), DONE)
    spent = time.monotonic() - begun
    report.tell(f"a new user: within {soon} s ({spent:.2f})", spent < soon, True)
    bob.wait_for(1)


def keys_of_a_word(service, word, kvno):
    """A keytab with the keys of kadmin/changepw that this word makes."""
    path, lines = service.folder / f"word-{kvno}.keytab", []
    for etype in ("aes256-cts-hmac-sha1-96", "aes128-cts-hmac-sha1-96"):
        lines += [f"addent -password -p {SERVICE}@{REALM} -k {kvno} -e {etype}", word]
    service.realm.run(service.realm.mit, ["ktutil"], [*lines, f"wkt {path}", "quit"])
    return path


def former_out(what, service, new, alice, bob):
    """A ticket of before goes on beside the new keys, and then these are the only ones."""
    service.report.tell(f"{what}: a ticket of before", alice.end(), "goes on")
    service.keys = new
    service.reload(f"{what}, the former out", (3, 1, 2))
    bob.wait_for(2)


def the_service_first(service, bob):
    """Nobody is refused at any moment."""
    realm, report = service.realm, service.report
    alice, former = OneTicket(realm, 1), realm.kvno(SERVICE)
    bob.wait_for(1)
    word = base64.b64encode(secrets.token_bytes(24)).decode()
    new = service.brought(keys_of_a_word(service, word, former + 1))
    service.keys += new
    service.reload("the service first", (3, 1, 4))
    bob.wait_for(1)
    # on standard input, so that no command line has the word
    realm.run(realm.mit, ["kadmin.local"], [f"cpw -pw {word} {SERVICE}"])
    report.tell("the service first: the KDC's version", realm.kvno(SERVICE), former + 1)
    bob.wait_for(2)
    former_out("the service first", service, new, alice, bob)


def the_kdc_first(service, bob):
    """Nobody is refused whose ticket is of before, or of after the reload."""
    realm, report = service.realm, service.report
    alice, former = OneTicket(realm, 2), realm.kvno(SERVICE)
    bob.wait_for(1)
    with bob.pause:
        new = service.brought(service.keytab("new.keytab", SERVICE))
        report.tell("the KDC first: its version", realm.kvno(SERVICE), former + 1)
        service.keys += new
        service.reload("the KDC first", (3, 1, 4))
    bob.wait_for(2)
    former_out("the KDC first", service, new, alice, bob)


def rotated(service, bob):
    """The log's file is renamed, and the service goes on in a new one."""
    report = service.report
    logrotate = Project(packages_folder() / "logrotate")
    rotation = service.folder / "rotation"
    text = ROTATION.read_text()
    for old, new in (("/var/log/boddrelyn/log", str(service.log)), ("su boddrelyn boddrelyn", "su root root"),
                     ("/usr/sbin/chpw_server", str(service.server.program.resolve())),
                     ("/run/boddrelyn/control", str(service.socket))):
        report.tell(f"logrotate: its file has {old}", text.count(old), 1)
        text = text.replace(old, new)
    rotation.write_text(text)
    rotation.chmod(0o644)
    for number in range(2):
        bob.wait_for(1)
        done = subprocess.run(
            [logrotate.program("logrotate"), "--force", "--state", service.folder / "rotation.state", rotation],
            capture_output=True, text=True, timeout=PATIENCE,
            env={**os.environ, "LD_LIBRARY_PATH": logrotate.libraries})
        report.tell(f"logrotate, {number}", (done.stdout + done.stderr, done.returncode), ("", 0))
    bob.wait_for(1)
    names = sorted(path.name for path in service.log.parent.iterdir())
    report.tell("logrotate: the files", names, ["log", "log.1", "log.2.gz"])
    for name in ("log", "log.1"):
        path = service.log.with_name(name)
        first = path.read_text().splitlines()[0]
        report.tell(f"logrotate: {name}", (first.split(" ", 1)[1], oct(path.stat().st_mode & 0o777)),
                    ("service log-reopened", "0o600"))


def whole_log(service):
    """The lines of all its files, the oldest first."""
    text = subprocess.run(["gunzip", "-c", service.log.with_name("log.2.gz")], capture_output=True, check=True).stdout
    return text.decode() + "".join(service.log.with_name(name).read_text() for name in ("log.1", "log"))


def tell_end(service, bob):
    """All that was answered stands in the log and in the journal."""
    report, server = service.report, service.server
    bob.end()
    report.tell(f"bob's changes ({len(bob.answers)})", set(bob.answers), {DONE})
    report.tell("stop", service.control("stop"), "ok\n")
    said = server.last_words(PATIENCE).splitlines()
    tallies = [line.split(" ") for line in said if line.startswith("entries ")]
    report.tell("its tallies and its status", (len(tallies), server.process.returncode), (HISTORIES, 0))
    report.tell("what else it told", [line for line in said if not line.startswith("entries ")], [])
    log = whole_log(service)
    lines = messages(log)
    report.tell("no request was refused but carol's first",
                [line.split(" text ")[1] for line in lines if " code 0 " not in line], ["no such principal"])
    entries, changes = (sum(int(it[place]) for it in tallies) for place in (1, 3))
    report.tell("lines of the log", (len(lines), entries - changes), (entries, 1))
    told = [it.split(" ")[0] for it in events(log)]
    report.tell("its own lines", told, ["started", *["reloaded"] * (HISTORIES - 1), *["log-reopened"] * 2, "ended"])
    records, torn = read_journal(server.journal.read_bytes())
    report.tell("records", (len(records), torn), (changes, b""))
    versions = [it.kvno for it in records if it.name == "bob"]
    report.tell("bob's versions", versions, list(range(2, 2 + len(bob.answers))))


def started_again(service):
    """Over the configuration that was read last."""
    service.server.start(CONNECTIONS)
    found = dict(line.split(" ", 1) for line in service.control("status").splitlines()[:-1])
    service.report.tell("a later start", (found["principals"], found["journal"]), ("3", "good"))
    service.report.tell("its end", service.control("stop"), "ok\n")


def run(realm, server, report, soon):
    service = Service(realm, server, report)
    service.keys = service.brought(service.keytab("service.keytab", "-norandkey", SERVICE))
    service.principals = service.brought(service.keytab("users.keytab", "-norandkey", "alice", "bob"))
    report.tell("at first: check", service.write(), "ok: principals 2, rules 1, service keys 2")
    server.start(CONNECTIONS)
    realm.write_client_configuration(server.port)
    bob = Kpasswd(realm, "bob")
    bob.start()
    try:
        a_new_user(service, bob, soon)
        for change in (the_service_first, the_kdc_first, rotated):
            change(service, bob)
        tell_end(service, bob)
        started_again(service)
    finally:
        bob.end()


class RealmChanges(cases.Case):
    def test_changes(self):
        """Each in turn, at one service."""
        with Realm({"alice": OLD, "bob": OLD}, self.words.keep) as realm:
            server = Server(self.program, realm.folder, WORKERS)
            self.addCleanup(server.end)
            run(realm, server, self, self.words.soon)


def add_options(parser):
    Parser.add_keep(parser)
    parser.add_argument("--soon", type=float, default=SOON, metavar="SECONDS",
                        help=f"by default {SOON}; more for a program that was built without a proof")


if __name__ == "__main__":
    cases.main(__doc__, add_options)
