"""`serve` where what it writes to fails meanwhile, and where a message waits too long.

The service's own client makes the changes; histories are of three entries. Where nobody reads standard output any more
when a history is full, the service goes on with the next history, says so once on standard error, and ends with status 1
and `cannot write` where its last line is lost too. A log that takes no line changes no answer, and one that stalls holds
none up for longer than half a second. A change whose sync fails isn't answered as made, and no later one is made. A message
that waits for its worker for five seconds, since the journal's sync takes longer, is dropped with its connection: nothing
is decided, and that is counted on standard error. Needs gcc.
"""

import os
import subprocess
import threading
import time

from harness.cases import Case, main
from harness.changing import CHANGED, NAMES, change
from harness.journal import read_journal
from harness.log_lines import events, messages
from harness.machine import machine, slow_sync
from harness.sample_realm import write_configuration
from harness.server import Server

ENTRIES = 3
LOST = "standard output: a line was lost; further losses are not reported"
# how long a sync takes, longer than a message may wait
SLOW = 7_000
DROPPED = "messages dropped after waiting 5 seconds for a worker: "


def changes(server, count):
    return [change(server, NAMES[0], number) for number in range(count)]


def in_journal(server):
    records, torn = read_journal(server.journal.read_bytes())
    return [(record.name, record.kvno) for record in records], len(torn)


def ended(server, seconds=20):
    """Standard error, and the status."""
    errors = server.process.communicate(timeout=seconds)[1]
    return errors.strip(), server.process.returncode


class Outputs(Case):
    def setUp(self):
        super().setUp()
        self.server = Server(self.program, self.folder, workers=1)
        self.addCleanup(self.server.end)
        write_configuration(self.server.configuration, NAMES, max_entries=ENTRIES, iterations=4)

    def test_reader_gone(self):
        """Two histories are full, and a third one isn't when the last connection ends."""
        server = self.server
        server.start(connections=7)
        server.process.stdout.close()
        server.process.stdout = None
        self.tell("no reader of standard output: answers", changes(server, 7), [CHANGED] * 7)
        self.tell("no reader: told once, and at the end", ended(server), (f"{LOST}\ncannot write", 1))
        self.tell("no reader: the journal", in_journal(server), ([("user0", kvno) for kvno in range(2, 9)], 0))

    def test_output_full(self):
        """A device that is full at the start: the service can't say that it listens."""
        server = self.server
        with open("/dev/full", "w") as full:
            server.process = subprocess.Popen(
                server.command(1), stdin=subprocess.DEVNULL, stdout=full, stderr=subprocess.PIPE, text=True)
            self.tell("standard output full at the start", ended(server), ("cannot write", 1))

    def test_log_full(self):
        """A log at a full device: each answer is as ever, and the loss is told once."""
        server = self.server
        server.options = ["--log", "/dev/full"]
        server.start(connections=7)
        self.tell("a log that takes no line: answers", changes(server, 7), [CHANGED] * 7)
        tally = f"entries {ENTRIES} changes {ENTRIES}"
        told = f"{tally}\n{tally}\nentries 1 changes 1\n/dev/full: a line of the log was lost; further losses are not reported"
        self.tell("a log that takes no line: told once", server.last_words(), told)
        self.tell("a log that takes no line: the journal", in_journal(server), ([("user0", kvno) for kvno in range(2, 9)], 0))

    def test_stalled_error(self):
        """Standard error is a full pipe that nobody reads: each answer comes, and at most one waits for it. Once it is read
        again, the lines go on, and the loss is told."""
        server = self.server
        server.start(connections=4)
        begun = time.monotonic()
        self.tell("in peace: answers", changes(server, 4), [CHANGED] * 4)
        peace = time.monotonic() - begun
        server.last_words()
        server.journal.unlink()
        server.options = ["--log", "-"]
        reader, writer = os.pipe()
        os.set_blocking(writer, False)
        try:
            while True:
                os.write(writer, b"\n" * 4_096)
        except BlockingIOError:
            pass
        os.set_blocking(writer, True)
        server.process = subprocess.Popen(
            server.command(5), stdin=subprocess.DEVNULL, stdout=subprocess.PIPE, stderr=writer, text=True)
        os.close(writer)
        server.said = server.lines_before(f"listening on 127.0.0.1:{server.port}")
        begun = time.monotonic()
        self.tell("standard error stalls: answers", changes(server, 4), [CHANGED] * 4)
        spent = time.monotonic() - begun
        self.tell(f"standard error stalls: they come soon ({spent:.1f} s, in peace {peace:.1f} s)", spent < 2 * peace + 2,
                    True)
        os.set_blocking(reader, False)
        try:
            while True:
                os.read(reader, 65_536)
        except BlockingIOError:
            pass
        self.tell("read again: the next answer", change(server, NAMES[0], 4), CHANGED)
        server.process.communicate(timeout=20)
        with open(reader) as told:
            lines = told.read().splitlines()
        self.tell("read again: its line, the loss and the end", [len(messages(lines[0])), lines[1], events(lines[2])],
                    [1, "-: a line of the log was lost; further losses are not reported", ["ended entries 5 changes 5"]])

    def test_sync_fails(self):
        """The first change's sync fails: neither that nor a later one is answered as made."""
        server = self.server
        server.start(connections=2, env=machine(server.seed.parent, FAILS="sync 1 5"))
        self.tell("a sync that fails: answers", changes(server, 2), ["code 2 journal failed"] * 2)
        told = f"{server.journal}: journal failed: input/output error: no change is accepted until a restart"
        self.tell("a sync that fails: told", server.last_words(), f"entries 2 changes 0\n{told}")

    def test_waited_too_long(self):
        """One worker, held by the sync of the first change: the second one's message is dropped meanwhile."""
        server = self.server
        server.start(connections=2, env=slow_sync(server.seed.parent, SLOW))
        answers = {}

        def ask(name):
            answers[name] = change(server, name, 0)

        first, second = (threading.Thread(target=ask, args=[name]) for name in NAMES)
        first.start()
        time.sleep(1)
        second.start()
        first.join()
        second.join()
        self.tell("a message that waited too long: the other answer", answers[NAMES[0]], CHANGED)
        self.tell("it has no answer", answers[NAMES[1]] == CHANGED, False)
        self.tell("what is told", server.last_words(), f"entries 1 changes 1\n{DROPPED}1")
        self.tell("the journal", in_journal(server), ([("user0", 2)], 0))


if __name__ == "__main__":
    main(__doc__)
