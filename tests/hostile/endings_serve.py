"""How `serve` ends at files that it can't have, and where standard input, output or error is closed."""

import subprocess

from harness.cases import main
from harness.journal import Record, plain_record, read_journal
from harness.kept import ITERATIONS, keys_of
from harness.program import MISSING, Client, ProgramCase, closing, fault_of, unreadable
from harness.sample_realm import write_configuration
from harness.server import private


def serve_closed(case, numbers):
    """Serves one change with these closed, and starts again on its journal."""

    def tell(what, found, wanted):
        case.tell(f"serve, {numbers} closed: {what}", found, wanted)

    server = case.new_server("alice")
    server.journal.unlink(missing_ok=True)
    command = closing(numbers, server.command(1))
    server.process = subprocess.Popen(command, stdout=subprocess.DEVNULL)
    told = Client(case, server).told_soon()
    tell("a change", told, ("code 0 password changed", "", 0))
    tell("its status", server.process.wait(timeout=10), 0)
    change = Record("alice", 2, ITERATIONS, *keys_of("alice", "New-pass2"))
    tell("its journal", read_journal(server.journal.read_bytes()), ([change], b""))
    server.start(connections=1)
    server.connect()
    tell("started again", server.last_words(), "entries 0 changes 0")


class ServeEndings(ProgramCase):
    def test_serve(self):
        """A journal with a record that is none is in a whole file; the others can't be opened."""
        server = self.new_server("alice")
        words = [str(word) for word in server.command(1)[1:]]

        def tell(what, *lines):
            self.tell_ended(f"serve: {what}", ("", "\n".join(lines), 1), *words)

        private(server.journal).write_bytes(plain_record("alice", 2).replace(b"\1", b"\2", 1))
        tell("a record of another kind", "journal: J1 at 1")
        server.journal.unlink()
        server.journal.mkdir()
        tell("a folder as the journal", f"cannot read {server.journal}", f"{server.journal}: is a directory")
        server.journal.rmdir()
        server.seed.unlink()
        tell("no seed", f"cannot read {server.seed}", f"{server.seed}: {MISSING}")
        private(server.seed).write_bytes(bytes(32))
        server.configuration.write_text("[")
        tell("no TOML", "config: C1 file 0", fault_of(self, server.configuration))
        write_configuration(server.configuration, ["alice"])
        self.tell_unwritten("serve: a full disk", *words)

        def tell_of_journal(what, journal, *lines):
            other = [journal if word == str(server.journal) else word for word in words]
            self.tell_ended(f"serve: {what}", ("", "\n".join(lines), 1), *other)

        tell_of_journal("a journal in no folder", "missing/journal", "cannot write missing/journal",
                        "missing/journal: no such directory")
        # what stands at address 0 of a process can't be read
        tell_of_journal("a read that fails", "/proc/self/mem", "journal: J4")

    def test_second_service(self):
        """One journal is for one service; the first goes on."""
        first = self.new_server("alice")
        first.start(connections=1)
        second = self.new_server("alice")
        held = unreadable(second.journal, "in use by another process")
        self.tell_ended("serve: another's journal", held, *second.command(1)[1:])
        first.connect()
        self.tell("serve: its last line", first.last_words(), "entries 0 changes 0")
        self.tell("serve: its status", first.process.returncode, 0)

    def test_closed_under_a_change(self):
        """`serve` where some of 0, 1 and 2 are closed: its journal has the change, and nothing else."""
        for numbers in "0", "1", "2", "012":
            serve_closed(self, numbers)

    def test_closed_under_a_notice(self):
        """`serve` without standard error, which has something to tell there: it isn't written into the journal."""
        whole = plain_record("alice", 2)
        for numbers in "2", "012":
            server = self.new_server("alice")
            private(server.journal).write_bytes(whole + whole[:20])
            server.process = subprocess.Popen(closing(numbers, server.command(1)), stdout=subprocess.DEVNULL)
            Client(self, server).told_soon()
            self.tell(f"serve, {numbers} closed, a torn tail: its status", server.process.wait(timeout=10), 0)
            self.tell(f"serve, {numbers} closed, a torn tail: its journal is the whole record",
                                server.journal.read_bytes() == whole, True)


if __name__ == "__main__":
    main(__doc__)
