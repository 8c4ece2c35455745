"""What `serve` says where something is wrong, and what it does where its journal can't be written.

It needs no packages: the service's own client makes the changes.
"""

import os
import pathlib
import resource
import shutil
import socket
import subprocess

from harness.cases import Case, main
from harness.journal import Raise, plain_record, raise_record, read_journal
from harness.sample_realm import write_configuration
from harness.server import Server, private

NAME = "user0"
# of a change of user0
RECORD = 66
# a user without rights of its own, and a port that needs one
NOBODY = 65_534
PRIVILEGED = 1_023
FIRST_FREE = pathlib.Path("/proc/sys/net/ipv4/ip_unprivileged_port_start")


def said(server, **options):
    """Standard error and status of a `serve` that ends at once."""
    done = subprocess.run(server.command(1), capture_output=True, text=True, timeout=30, **options)
    return f"{done.stderr.strip()} (status {done.returncode})"


def wrong(*lines):
    return "\n".join(lines) + " (status 1)"


def change(server, number):
    """What the client prints."""
    words = ["--config", server.configuration, "--seed", "/dev/urandom", "--port", str(server.port)]
    words += ["--client", NAME, "--password", f"New-pass{number}"]
    done = subprocess.run([server.program, "client", *words], capture_output=True, text=True)
    return (done.stdout + done.stderr).strip()


def said_at_start(server, to, **options):
    """What is printed before `listening`, and after one connection: with `--raise` to this count."""
    server.options = ["--raise", to]
    server.start(connections=1, **options)
    server.connect()
    return server.said, server.last_words()


class Faults(Case):
    def setUp(self):
        super().setUp()
        self.server = Server(self.program, self.folder, workers=1)
        self.addCleanup(self.server.end)
        write_configuration(self.server.configuration, [NAME])

    def test_full_disk(self):
        """The journal takes three records and a part of the fourth, by a limit on the file's length; no signal ends it."""
        server = self.server
        server.journal.unlink(missing_ok=True)
        resource.setrlimit(resource.RLIMIT_FSIZE, (3 * RECORD + 20, resource.RLIM_INFINITY))
        server.start(connections=6)
        resource.setrlimit(resource.RLIMIT_FSIZE, (resource.RLIM_INFINITY, resource.RLIM_INFINITY))
        answers = [change(server, number) for number in range(6)]
        wanted = ["code 0 password changed"] * 3 + ["code 2 journal failed"] * 3
        self.tell("six changes and a disk for three", answers, wanted)
        failed = f"{server.journal}: journal failed: file too large: no change is accepted until a restart"
        self.tell("serve's last line", server.last_words(), f"entries 6 changes 3\n{failed}")
        records, torn = read_journal(server.journal.read_bytes())
        self.tell("in the journal", ([r.kvno for r in records], len(torn)), ([2, 3, 4], 20))
        server.start(connections=1)
        server.connect()
        told = f"{server.journal}: a torn tail was cut off after {3 * RECORD} bytes"
        self.tell("started again", server.last_words(), f"entries 0 changes 0\n{told}")
        size = server.journal.stat().st_size
        self.tell("the journal's bytes, its torn tail cut off", size, 3 * RECORD)

    def test_at_start(self):
        """Each fault is added to those before it and hides them: it is looked for earlier."""
        server = self.server
        private(server.journal).write_bytes(plain_record("zoe", 2))
        missing = "but no such principal in the configuration, or removed before this record"
        told = f"{server.journal}: at 1: zoe: version 2, {missing}"
        self.tell("a journal of another realm", said(server), wrong("journal: J3 at 1", told))
        private(server.journal).write_bytes(plain_record(NAME, 2) * 2)
        told = f"{server.journal}: at 2: {NAME}: version 2, wanted 3"
        self.tell("a record that stands twice", said(server), wrong("journal: J2 at 2", told))
        with socket.create_server(("127.0.0.1", server.port)):
            self.tell("a port in use", said(server), wrong("cannot listen", f"127.0.0.1:{server.port}: in use"))
            server.seed.write_bytes(bytes(31))
            short = wrong(f"cannot read {server.seed}", f"{server.seed}: fewer than 32 bytes")
            self.tell("a short seed", said(server), short)
            text = server.configuration.read_text()
            server.configuration.write_text(text.replace("depth = 3", "depth = 17"))
            words = f"{server.configuration}: [policy]: depth must be 0 to 16"
            self.tell("a policy out of range", said(server), wrong("config: C4 policy 0", words))
            server.configuration.unlink()
            missing = wrong(f"cannot read {server.configuration}", f"{server.configuration}: no such file")
            self.tell("no configuration", said(server), missing)

    def test_forbidden(self):
        """What is said to a user who has no right to a file or to the port; root has all, so another one asks."""
        server = self.server
        folder = server.journal.parent
        server.program = shutil.copy(server.program, folder / "program")
        private(server.journal)
        user = {}
        if os.geteuid() == 0:
            user = {"user": NOBODY, "group": NOBODY, "extra_groups": []}
            for path in (folder, *folder.iterdir()):
                os.chown(path, NOBODY, NOBODY)
        for path in (server.configuration, server.seed, server.journal):
            path.chmod(0)
            why = wrong(f"cannot read {path}", f"{path}: permission denied")
            self.tell(f"no right to read: {path.name}", said(server, **user), why)
            path.chmod(0o600)
        # a machine may let everybody listen at any port
        if int(FIRST_FREE.read_text()) > PRIVILEGED:
            server.port = PRIVILEGED
            why = wrong("cannot listen", f"port {PRIVILEGED}: ports below 1024 require a privilege")
            self.tell("a port below 1024", said(server, **user), why)

    def test_raising(self):
        """`serve --raise` at one journal, in the order of its outcomes; it serves after each of them."""
        server = self.server
        tally = "entries 1 changes 0"
        self.tell("raised", said_at_start(server, 8192), (["raised 8192"], tally))
        self.tell("the same again", said_at_start(server, 8192), (["count not higher"], tally))
        self.tell("a lower count", said_at_start(server, 4097), (["count not higher"], tally))
        self.tell("a higher one", said_at_start(server, 8193), (["raised 8193"], tally))
        raises = [Raise(8192), Raise(8193)]
        self.tell("in the journal", read_journal(server.journal.read_bytes()), (raises, b""))
        resource.setrlimit(resource.RLIMIT_FSIZE, (16, resource.RLIM_INFINITY))
        found = said_at_start(server, 8194)
        resource.setrlimit(resource.RLIMIT_FSIZE, (resource.RLIM_INFINITY, resource.RLIM_INFINITY))
        failed = f"{server.journal}: journal failed: file too large: no change is accepted until a restart"
        self.tell("a disk for two", found, (["journal failed"], f"{tally}\n{failed}"))
        torn = raise_record(8194)[:2]
        self.tell("in the journal then", read_journal(server.journal.read_bytes()), (raises, torn))
        cut = f"{tally}\n{server.journal}: a torn tail was cut off after 14 bytes"
        self.tell("after it", said_at_start(server, 8194), (["raised 8194"], cut))


if __name__ == "__main__":
    main(__doc__)
