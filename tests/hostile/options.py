"""`serve` with options that refuse: `--strict-modes`, `--rfc3244-only` and `--strict-messages`; and what a service manager
is told.

What a start is refused for, and in which order, is what docs/ADMIN has (Strict modes); the answer to a request of another
version, or with a KRB-PRIV that isn't strict, is that of docs/PROTOCOL (The two versions; Strict messages). A service manager
here is a socket that NOTIFY_SOCKET names. Needs gcc.
"""

import os
import pathlib
import socket
import subprocess

from harness import wire
from harness.cases import main, named
from harness.asking import Request, said
from harness.controlling import OK, status, told, written
from harness.server import private
from harness.serving import CHANGED, PATIENCE, START, SetClock, request, ServiceCase

BAD_VERSION = "code 6 error 60 bad version"
BAD_PRIVATE = "code 3 authentication failed"
STRICT = ["--strict-modes", "--log", "log", "--control", "control"]
# modes that let the group write, or others read or write
SHARING = (0o620, 0o604, 0o602)
# modes of a folder in which others may make files
OPEN = (0o770, 0o707, 0o1777)
# a user and a group that aren't the service's own
NOBODY = 65534
READ_OR_WRITE = "other users may read or write it"
OWNED = "another user owns it"
REPLACED = "other users may replace it"
MADE = ("log", "journal", "control")
NOT_TOLD = "NOTIFY_SOCKET: the service manager could not be told that the service is ready"
LONGEST_PATH = 107


def ended(case, options, **words):
    """What a start prints, with its status, and which files are there that it would make."""
    case.server.workers, case.server.options = 1, options
    run_of_it = subprocess.run(case.server.command(1), cwd=case.folder, capture_output=True, text=True, timeout=PATIENCE,
                               stdin=subprocess.DEVNULL, check=False, **words)
    made = [name for name in MADE if (case.folder / name).exists()]
    return run_of_it.stdout, run_of_it.stderr.splitlines(), run_of_it.returncode, made


def refused(file, why=READ_OR_WRITE):
    return f"{file}: not started, since {why}"


def is_root():
    """Whether a file can be given to somebody else here."""
    return os.geteuid() == 0


def serves(case):
    """The status of a service that starts."""
    case.start(1, options=STRICT)
    case.client().close()
    return case.last_lines()[1]


def old_request(name, cusec):
    return Request(START, cusec, wire.request(name, b"New-pass2", cusec, ctime=START, old=True))


# what a KRB-PRIV has beside its user-data, with the authenticator's sequence number 5 (RFC 4120 section 5.7.1)
NUMBER, OURS, TIME, MICROS = (3, wire.integer(5)), (5, wire.address(1)), (1, wire.moment(START)), (2, wire.integer(7))
STRICT_PARTS = {
    "a number": [NUMBER],
    "a number, a time and its microseconds": [TIME, MICROS, NUMBER],
    "a number, and this service's address": [NUMBER, OURS],
}
LOOSE_PARTS = {
    "no number": [],
    "no number, but a time": [TIME, MICROS],
    "a time without microseconds": [TIME, NUMBER],
    "another recipient": [NUMBER, (5, wire.address(2))],
    "a recipient of another family": [NUMBER, (5, wire.sequence((0, wire.integer(24)), (1, wire.octets(bytes(15) + b"\1"))))],
}


def private_request(name, cusec, parts):
    """A request whose KRB-PRIV has these fields, between its user-data and the sender's address where they belong."""
    fields = sorted([(0, wire.octets(wire.change_data(b"New-pass%d" % cusec, None))), (4, wire.address(1)), *parts])
    sealed = wire.sealed(wire.SUBKEY, 13, wire.application(28, wire.sequence(*fields)))
    private = wire.application(21, wire.sequence((0, wire.integer(5)), (1, wire.integer(21)), (3, sealed)))
    ap = wire.ap_req(name, START, cusec, True, wire.SERVICE, 3, True, START - 100)
    return Request(START, cusec, wire.framed(0xFF80, ap, private))


def manager_at(address):
    manager = socket.socket(socket.AF_UNIX, socket.SOCK_DGRAM)
    manager.bind(address)
    manager.settimeout(PATIENCE)
    return manager


def start_under(case, name, options=()):
    """A service for one connection, whose manager has a socket of this name."""
    case.server.workers, case.server.options = 1, list(options)
    case.server.launch(1, env={**os.environ, "NOTIFY_SOCKET": name}, cwd=case.folder)


class Options(ServiceCase):
    @named("strict modes, a shared file")
    def test_strict_modes_a_shared_file(self):
        """Each of configuration and seed, in each mode that lets others read or write, is refused before anything is made; a
        log and a journal that exist, likewise, and their bytes stay."""
        for file in (self.server.configuration, self.server.seed):
            for mode in SHARING:
                file.chmod(mode)
                self.tell(f"{file.name} of mode {mode:o}", ended(self, STRICT), ("", [refused(file)], 1, []))
            file.chmod(0o600)
        for name, file in (("log", "log"), ("journal", self.server.journal)):
            path = self.folder / name
            for mode in SHARING:
                path.write_bytes(b"")
                path.chmod(mode)
                self.tell(f"{name} of mode {mode:o}", ended(self, STRICT), ("", [refused(file)], 1, [name]))
                self.tell(f"its bytes under {mode:o}", path.read_bytes(), b"")
            path.unlink()

    @named("strict modes, the order")
    def test_strict_modes_the_order(self):
        """Of several files the configuration is named first, then the seed, the log and the journal; a configuration or a seed
        that can't be read comes before, a port that is taken after."""
        log, port = self.folder / "log", self.server.port
        files = [(self.server.configuration, None), (self.server.seed, None), (log, "log"), (self.server.journal, None)]
        for file, _ in files:
            file.touch()
            file.chmod(0o644)
        with socket.socket() as taken:
            taken.bind(("127.0.0.1", port))
            taken.listen()
            for file, name in files:
                lines = ended(self, STRICT)[1]
                self.tell(f"{file.name} first", lines, [refused(name or file)])
                file.chmod(0o600)
            self.tell("then the port", ended(self, STRICT)[1][:1], ["cannot listen"])
        self.server.configuration.chmod(0o644)
        seed = self.server.seed
        seed.rename(seed.with_suffix(".gone"))
        self.tell("a seed that isn't there", ended(self, STRICT)[1][:1], [f"cannot read {seed}"])

    @named("strict modes, private files")
    def test_strict_modes_private_files(self):
        """A first start makes its files for its user alone, so that the next one isn't refused for them; a seed that is a
        device is nobody's, and a log on standard error is no file."""
        for options in (STRICT, STRICT, ["--strict-modes", "--log", "-"]):
            self.start(1, options=options)
            self.client().close()
            self.tell("served", self.last_lines()[1], 0)
        self.server.seed = pathlib.Path("/dev/urandom")
        self.start(1, options=STRICT)
        self.client().close()
        self.tell("with a device", self.last_lines()[1], 0)

    @named("strict modes, other owners")
    def test_strict_modes_other_owners(self):
        """Each file that another user owns is refused; so is one that another group may read, and not one that the service's
        own group may."""
        log, journal = self.folder / "log", self.server.journal
        for file in (log, journal):
            private(file)
        for file, name in ((self.server.configuration, None), (self.server.seed, None), (log, "log"), (journal, None)):
            if is_root():
                os.chown(file, NOBODY, -1)
                self.tell(f"{file.name} of another user", ended(self, STRICT)[1], [refused(name or file, OWNED)])
                os.chown(file, 0, NOBODY)
                self.tell(f"{file.name} of another group", serves(self), 0)
                file.chmod(0o640)
                self.tell(f"{file.name}, which that may read", ended(self, STRICT)[1], [refused(name or file)])
                os.chown(file, -1, os.getegid())
            file.chmod(0o640)
            self.tell(f"{file.name}, which the own group may read", serves(self), 0)
            file.chmod(0o600)

    @named("strict modes, open folders")
    def test_strict_modes_open_folders(self):
        """Each file in a folder where others may make files is refused, and so is one through a link: for the file's own folder,
        for the link's, or for what it leads to. The folder of a log that isn't there yet counts, too."""
        folder, own = self.folder / "folder", self.folder / "own"
        folder.mkdir(mode=0o700)
        own.mkdir(mode=0o700)
        for name in ("configuration", "seed", "journal"):
            file = getattr(self.server, name)
            private(file)
            for there in (folder / file.name, own / file.name):
                there.write_bytes(file.read_bytes())
                there.chmod(0o600)
            links = {"a link there": folder / "link", "a link to there": own / "link"}
            links["a link there"].symlink_to(own / file.name)
            links["a link to there"].symlink_to(folder / file.name)
            for mode in OPEN:
                folder.chmod(mode)
                for what, path in {"a file there": folder / file.name, **links}.items():
                    setattr(self.server, name, path)
                    self.tell(f"{name}: {what}, mode {mode:o}", ended(self, STRICT)[1], [refused(path, REPLACED)])
            folder.chmod(0o700)
            self.tell(f"{name}: a link between safe folders", serves(self), 0)
            if is_root():
                os.chown(folder, NOBODY, -1)
                self.tell(f"{name}: a folder of another user", ended(self, STRICT)[1], [refused(path, REPLACED)])
                os.chown(folder, 0, -1)
            (folder / file.name).chmod(0o644)
            self.tell(f"{name}: a link to a shared file", ended(self, STRICT)[1], [refused(path)])
            for path in links.values():
                path.unlink()
            setattr(self.server, name, file)
        folder.chmod(0o777)
        self.tell("log: none yet", ended(self, ["--strict-modes", "--log", "folder/log"])[1], [refused("folder/log", REPLACED)])
        self.tell("nothing is made", (folder / "log").exists(), False)
        folder.chmod(0o700)
        private(own / "log").chmod(0o604)
        (folder / "log").symlink_to(own / "log")
        self.tell("log: a link to a shared file", ended(self, ["--strict-modes", "--log", "folder/log"])[1], [refused("folder/log")])

    @named("strict modes, while it runs")
    def test_strict_modes_while_it_runs(self):
        """A reload and a reopened log look again: a refused one changes nothing, and says why."""
        self.start(1, options=STRICT)
        configuration = self.server.configuration
        former = configuration.read_text()
        configuration.write_text(written(["alice", "bob", "carol"]))
        for mode in (*SHARING, 0o600):
            configuration.chmod(mode)
            answer = (OK, 0) if mode == 0o600 else (f"error: {configuration}: {READ_OR_WRITE}\n", 1)
            self.tell(f"reload, mode {mode:o}", told(self, "reload"), answer)
            self.tell("  principals", status(self)["principals"], "3" if mode == 0o600 else "2")
        if is_root():
            os.chown(configuration, NOBODY, -1)
            self.tell("reload, another owner", told(self, "reload"), (f"error: {configuration}: {OWNED}\n", 1))
            os.chown(configuration, 0, -1)
        configuration.write_text(former)
        log = self.folder / "log"
        log.rename(self.folder / "former")
        private(log).chmod(0o604)
        self.tell("reopen-log, mode 604", told(self, "reopen-log"), (f"error: log: {READ_OR_WRITE}\n", 1))
        self.tell("its bytes", log.read_bytes(), b"")
        log.unlink()
        self.folder.chmod(0o770)
        self.tell("reopen-log, an open folder", told(self, "reopen-log"), (f"error: log: {REPLACED}\n", 1))
        self.tell("reload, an open folder", told(self, "reload"), (f"error: {configuration}: {REPLACED}\n", 1))
        self.folder.chmod(0o700)
        self.tell("what is made", log.exists(), False)
        self.tell("reopen-log", told(self, "reopen-log"), (OK, 0))
        self.client().close()
        self.tell("its status", self.last_lines()[1], 0)

    def test_without_strict_modes(self):
        """Without the option a start reports a configuration, a seed and a journal like that, and goes on; what the service's
        own group alone may read is no more reported than refused."""
        server = self.server
        private(server.journal)
        for files in ([server.configuration], [server.seed], [server.journal], [server.configuration, server.seed, server.journal]):
            for file in files:
                file.chmod(0o644)
            self.start(1)
            self.client().close()
            lines, status = self.last_lines()
            reports = [line for line in lines if not line.startswith("entries ")]
            self.tell("the report", (reports, status), ([f"{file}: {READ_OR_WRITE}" for file in files], 0))
            for file in files:
                file.chmod(0o600)
        server.configuration.chmod(0o640)
        self.start(1)
        self.client().close()
        self.tell("the own group", self.last_lines(), (["entries 0 changes 0"], 0))
        if is_root():
            os.chown(server.configuration, -1, NOBODY)
            self.start(1)
            self.client().close()
            self.tell("another group", self.last_lines()[0][-1], f"{server.configuration}: {READ_OR_WRITE}")

    def test_requests_of_RFC_3244_alone(self):
        """A request of version 0x0001, and one of a version of no protocol, change nothing; one of 0xff80 does, over the same
        connection. So it stays when the configuration is read anew."""
        clock = SetClock(self.folder)
        self.start(4, options=["--rfc3244-only", "--control", "control"], CLOCK=clock.file)
        client = self.client()
        self.tell("the earlier protocol", client.ask(old_request(b"alice", 1)), BAD_VERSION)
        self.tell("another version", client.ask(Request(START, 0, bytes.fromhex("000600020000"))), BAD_VERSION)
        self.tell("RFC 3244", client.ask(request("alice")), CHANGED)
        self.tell("reload", told(self, "reload"), (OK, 0))
        self.tell("the earlier protocol, after it", client.ask(old_request(b"bob", 2)), BAD_VERSION)
        self.tell("RFC 3244, after it", client.ask(request("bob")), CHANGED)
        self.tell("stop", told(self, "stop"), (OK, 0))
        lines, status = self.last_lines()
        self.tell("its end", (lines, status), (["entries 1 changes 1", "entries 1 changes 1"], 0))

    @named("requests of RFC 3244 alone, in datagrams")
    def test_requests_of_RFC_3244_alone_in_datagrams(self):
        """Likewise over UDP."""
        clock = SetClock(self.folder)
        self.start(2, options=["--rfc3244-only", "--udp"], CLOCK=clock.file)
        with socket.socket(type=socket.SOCK_DGRAM) as client:
            client.connect(("127.0.0.1", self.server.port))
            client.settimeout(PATIENCE)
            for what, sent, wanted in (("the earlier protocol", old_request(b"alice", 1), BAD_VERSION),
                                       ("RFC 3244", request("alice"), CHANGED)):
                client.send(sent.message)
                self.tell(what, said(sent, client.recv(65_507)), wanted)
        self.tell_end("entries 1 changes 1")

    def test_requests_of_both_versions(self):
        """Without the option both versions are answered."""
        clock = SetClock(self.folder)
        self.start(1, CLOCK=clock.file)
        self.tell("the earlier protocol", self.client().ask(old_request(b"alice", 1)), CHANGED)
        self.tell_end("entries 1 changes 1")

    def test_strict_messages(self):
        """A KRB-PRIV that isn't strict changes nothing, over a reload too; each other one changes the password."""
        clock = SetClock(self.folder)
        self.start(1, options=["--strict-messages", "--control", "control"], CLOCK=clock.file)
        client = self.client()
        changes = []
        for again in ("", ", after a reload"):
            for what, parts in LOOSE_PARTS.items():
                cusec = 100 + len(changes)
                changes.append(0)
                self.tell(what + again, client.ask(private_request(b"alice", cusec, parts)), BAD_PRIVATE)
            for what, parts in STRICT_PARTS.items():
                cusec = 100 + len(changes)
                changes.append(1)
                self.tell(what + again, client.ask(private_request(b"alice", cusec, parts)), CHANGED)
            self.tell("reload", told(self, "reload"), (OK, 0))
        self.tell("stop", told(self, "stop"), (OK, 0))
        lines, status = self.last_lines()
        self.tell("its end", (lines, status), (["entries 8 changes 3"] * 2 + ["entries 0 changes 0"], 0))

    def test_messages_that_are_not_strict(self):
        """Without the option each of them changes the password."""
        clock = SetClock(self.folder)
        self.start(1, CLOCK=clock.file)
        client = self.client()
        for cusec, (what, parts) in enumerate({**LOOSE_PARTS, **STRICT_PARTS}.items(), 100):
            self.tell(what, client.ask(private_request(b"alice", cusec, parts)), CHANGED)
        client.close()
        self.tell_end("entries 8 changes 8")

    def test_a_service_manager(self):
        """A manager at a path, and one in the abstract namespace: READY=1 comes once the port is open, STOPPING=1 at the end,
        and nothing else."""
        path = self.folder / "notify"
        name = f"boddrelyn-{os.getpid()}"
        for what, address, written in (("path", str(path), str(path)), ("abstract name", f"\0{name}", f"@{name}")):
            with manager_at(address) as manager:
                start_under(self, written)
                self.tell(f"{what}: ready", manager.recv(100), b"READY=1")
                self.server.listens()
                self.client().close()
                self.tell(f"{what}: its end", self.last_lines()[1], 0)
                self.tell(f"{what}: stopping", manager.recv(100), b"STOPPING=1")
                manager.setblocking(False)
                try:
                    self.tell(f"{what}: more", manager.recv(100), None)
                except BlockingIOError:
                    pass

    def test_a_service_manager_and_a_start_that_fails(self):
        """A start that fails isn't ready."""
        with manager_at(str(self.folder / "notify")) as manager, socket.socket() as taken:
            taken.bind(("127.0.0.1", self.server.port))
            taken.listen()
            environment = {**os.environ, "NOTIFY_SOCKET": str(self.folder / "notify")}
            self.tell("the fault", ended(self, [], env=environment)[1][:1], ["cannot listen"])
            manager.settimeout(0.2)
            texts = []
            try:
                while True:
                    texts.append(manager.recv(100))
            except TimeoutError:
                pass
            self.tell("ready", b"READY=1" in texts, False)

    def test_a_service_manager_that_is_not_there(self):
        """A manager that can't be told: nobody at its socket, a socket that doesn't exist, a name that is neither a path nor
        abstract, one that is too long. That is reported once, and the service serves."""
        left = self.folder / "left"
        manager_at(str(left)).close()
        names = [
            ("nobody at its socket", str(left)),
            ("no socket", str(self.folder / "missing")),
            ("neither a path nor abstract", "notify"),
            ("too long", "/" + "n" * LONGEST_PATH),
        ]
        for what, name in names:
            start_under(self, name)
            self.server.listens()
            self.client().close()
            lines, status = self.last_lines()
            self.tell(what, (lines[-1], lines.count(NOT_TOLD), status), (NOT_TOLD, 1, 0))

    def test_no_service_manager(self):
        """Without one, or with an empty name, nothing is said of it."""
        start_under(self, "")
        self.server.listens()
        self.client().close()
        self.tell_end("entries 0 changes 0")


if __name__ == "__main__":
    main(__doc__)
