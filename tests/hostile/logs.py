"""The log of `serve`: how it is gone on with, which files it can't be, and how many lines a flood has.

What stands in a line, and how many lines what doesn't open has, is what docs/PROTOCOL has (The log); what is said of a file
that can't be had is what docs/ADMIN has. The clock of the day stands still until it is set (machine.c). Needs gcc.
"""

import os
import resource
import subprocess

from harness.cases import add, main
from harness.asking import request_now
from harness.log_lines import messages
from harness.serving import CHANGED, REPLAYED, START, SetClock, request, ServiceCase

# the log of one change of alice at START: the service's first line, the change's, and the service's last one
PRINCIPAL = "alice@EXAMPLE.COM"
MOMENT = "1970-01-12T13:48:20.000000Z"
ONE_CHANGE = "entries 1 changes 1"
LINES = [
    f"{MOMENT} service started principals 2 iterations 4 quiet-until -",
    f"{MOMENT} worker 0 peer 127.0.0.1 client {PRINCIPAL} target {PRINCIPAL} "
    "code 0 error - kvno 2 text password changed",
    f"{MOMENT} service ended {ONE_CHANGE}",
]
SECONDS = 20


def change_logged(case, log):
    """A service for one change, with this log, in its folder."""
    clock = SetClock(case.folder)
    case.start(1, options=["--log", log], CLOCK=clock.file)
    case.tell("a change", case.client().ask(request("alice")), CHANGED)


def gone_on_with(case, former, begins):
    """A log that a former run left so begins so, and has the lines of one change after that."""
    log = case.folder / "log"
    log.write_text(former)
    change_logged(case, "log")
    case.tell_end(ONE_CHANGE)
    case.tell("the log", log.read_text().splitlines(), [*begins.splitlines(), *LINES])


def tell_refused(case, path, journal, log, why=(), **options):
    """A service with this journal and this log ends, since it can't write the file at this path: a second line says why,
    where that is what stands there."""
    words = ["--config", "realm", "--seed", "seed", "--journal", journal, "--log", log]
    words += ["--port", str(case.server.port), "--workers", "1", "--connections", "1"]
    done = subprocess.run([case.server.program, "serve", *words], cwd=case.folder, capture_output=True, text=True,
                          timeout=SECONDS, **options)
    case.tell(f"journal {journal}, log {log}", (done.stdout, done.stderr, done.returncode),
              ("", "".join(f"{line}\n" for line in (f"cannot write {path}", *why)), 1))


def prepare(case):
    """Configuration and seed under short names; what they hold."""
    files = [case.server.configuration.rename(case.folder / "realm"), case.server.seed]
    return {file: file.read_bytes() for file in files}


def tell_unwritten(case, files, *others):
    """These files are as they were, and those others aren't there."""
    case.tell("files that were written", [file.name for file, was in files.items() if file.read_bytes() != was], [])
    case.tell("files that were made", [other for other in others if (case.folder / other).exists()], [])


# a log, and a journal, that is another file of the start under any name
LOGS = ["realm", "./realm", "hard", "seed", "soft", "journal", ".//journal"]
JOURNALS = ["realm", "./hard", "seed", "soft"]


# how many messages that don't open come at a second, of which the first has one that does after them
FLOOD = [(0, 30), (1, 2), (2, 1), (3, 15)]
TEXTS = [
    *10 * ["malformed"],
    "password changed",
    "20 more did not open: 20 from 127.0.0.0/8 or ::1, 0 from elsewhere",
    *3 * ["malformed"],
    *10 * ["malformed"],
    "5 more did not open: 5 from 127.0.0.0/8 or ::1, 0 from elsewhere",
]


# how often a message comes again at a second, and one after it that is too old
AGAIN = [(0, 30), (1, 2)]
STALE = "code 3 error 37 clock skew too great"
AGAIN_TEXTS = [
    "password changed",
    *10 * ["request replayed", "clock skew too great"],
    "20 more had too great a clock skew: 20 from 127.0.0.0/8 or ::1, 0 from elsewhere",
    "20 more were replayed: 20 from 127.0.0.0/8 or ::1, 0 from elsewhere",
    *2 * ["request replayed", "clock skew too great"],
]


# a line of a former run that isn't whole is ended; a whole one and an empty file are not
FORMER = [("empty", "", ""), ("whole", "whole\n", "whole\n"), ("torn", "to", "to\n"), ("an empty line", "\n", "\n")]


class Logs(ServiceCase):
    def test_one_file_twice(self):
        """They are refused, and none of the files is written to. The last log leads to the journal, which isn't there."""
        files = prepare(self)
        (self.folder / "hard").hardlink_to(self.folder / "realm")
        for link, to in (("soft", "seed"), ("dangling", "journal")):
            (self.folder / link).symlink_to(to)
        for log in LOGS:
            tell_refused(self, log, "journal", log)
        for journal in JOURNALS:
            tell_refused(self, journal, journal, "log")
        tell_unwritten(self, files, "journal", "log")
        tell_refused(self, "dangling", "journal", "dangling")
        tell_unwritten(self, files, "log")

    def test_a_log_that_is_no_file(self):
        """A folder is no log, and no pipe either, whose opener would wait."""
        files = prepare(self)
        reader, writer = os.pipe()
        tell_refused(self, ".", "journal", ".", [".: is a directory"])
        pipe = f"/dev/fd/{writer}"
        tell_refused(self, pipe, "journal", pipe, [f"{pipe}: not a regular file"], pass_fds=[writer])
        os.close(reader)
        os.close(writer)
        tell_unwritten(self, files, "journal")

    def test_a_log_on_standard_error(self):
        """The log `-` is standard error, and no file."""
        change_logged(self, "-")
        self.tell_end(ONE_CHANGE, *LINES)
        self.tell("a file of that name", (self.folder / "-").exists(), False)

    def test_a_log_on_a_device(self):
        """A log at /dev/null."""
        change_logged(self, "/dev/null")
        self.tell_end(ONE_CHANGE)

    def test_a_log_at_its_limit(self):
        """A log that may not be longer loses the lines that don't fit, and no signal ends the service."""
        unlimited = resource.getrlimit(resource.RLIMIT_FSIZE)
        resource.setrlimit(resource.RLIMIT_FSIZE, (200, unlimited[1]))
        self.server.options = ["--log", "log"]
        try:
            self.server.launch(1, cwd=self.folder)
        finally:
            resource.setrlimit(resource.RLIMIT_FSIZE, unlimited)
        self.server.listens()
        self.tell("a change", self.client().ask(request_now("alice", "New-pass2", 1)), CHANGED)
        self.tell_end(ONE_CHANGE, "log: a line of the log was lost; further losses are not reported")
        lines = (self.folder / "log").read_text().splitlines()
        self.tell("the log", [line.split(" ", 1)[-1] for line in lines],
                  ["service started principals 2 iterations 4 quiet-until -", "", f"service ended {ONE_CHANGE}"])

    def test_a_flood_of_what_does_not_open(self):
        """Of what doesn't open ten have a line in any one second, and the others are counted."""
        clock = SetClock(self.folder)
        self.start(1, options=["--log", "log"], CLOCK=clock.file)
        client = self.client()
        replies = 0
        for seconds, count in FLOOD:
            clock.set(START + seconds)
            for _ in range(count):
                client.send_messages(b"\0")
                replies += client.has_reply()
            if seconds == 0:
                self.tell("one that opens", client.ask(request("alice")), CHANGED)
        self.tell("replies", replies, sum(count for _, count in FLOOD))
        self.tell_end(ONE_CHANGE)
        text = (self.folder / "log").read_text()
        lines = messages(text)
        self.tell("the log", [line.split(" text ", 1)[1] for line in lines], TEXTS)
        self.tell("its last line", text.splitlines()[-1].split(" ", 1)[1], f"service ended {ONE_CHANGE}")

    def test_a_flood_of_recorded_messages(self):
        """Of recorded messages, that of a while ago and that of long ago, ten of each have a line in any one second."""
        clock = SetClock(self.folder)
        self.start(1, options=["--log", "log"], CLOCK=clock.file)
        client = self.client()
        recorded, old = request("alice"), request("bob", ctime=START - 301)
        self.tell("the first time", client.ask(recorded), CHANGED)
        told = []
        for seconds, count in AGAIN:
            clock.set(START + seconds)
            for _ in range(count):
                told += [client.ask(recorded), client.ask(old)]
        count = sum(count for _, count in AGAIN)
        self.tell("again", [told.count(REPLAYED), told.count(STALE), len(told)], [count, count, 2 * count])
        tally = f"entries {1 + 2 * count} changes 1"
        self.tell_end(tally)
        text = (self.folder / "log").read_text()
        self.tell("the log", [line.split(" text ", 1)[1] for line in messages(text)], AGAIN_TEXTS)
        self.tell("its last line", text.splitlines()[-1].split(" ", 1)[1], f"service ended {tally}")


for what, former, begins in FORMER:
    add(Logs, f"a log that is gone on with, {what}", gone_on_with, former, begins)


if __name__ == "__main__":
    main(__doc__)
