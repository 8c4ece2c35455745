"""`serve --resume FILE`: what a clean end leaves, what the next start takes over, and which files are set aside.

The bytes of the file are those that docs/PROTOCOL has (The resume file), written by harness/resume_file.py. The clock of the day
stands still until it is set (machine.c). Needs gcc.
"""

import os
import signal

from harness.cases import main, named
from harness.controlling import OK, ask, status
from harness.resume_file import Id, Resume, resume_text
from harness.server import private
from harness.serving import CHANGED, REPLAYED, START, SetClock, request, ServiceCase

REALM = b"EXAMPLE.COM"
QUIET = "code 3 error 37 clock skew too great"
SECONDS = 300
# of alice, more than a compact journal has of her
CHANGES = 6
ONE_CHANGE = "entries 1 changes 1"
NOTHING = "entries 0 changes 0"
RESUME = "resume"
ONES = request("alice")


def path_of(case):
    return case.folder / RESUME


def start(case, clock, second=None, **words):
    """With a control socket and a resume file, at this second."""
    if second is not None:
        clock.set(second)
    options = ["--control", "control", "--resume", str(path_of(case))]
    case.start("unlimited", options=options, CLOCK=clock.file, **words)


def stop(case, *lines):
    """Told to stop, it says this and ends well."""
    case.tell("told to stop", ask(case, "stop"), OK)
    case.tell_end(*lines)


def kill(case):
    while case.clients:
        case.clients.pop().close()
    case.server.stop(signal.SIGKILL)
    (case.folder / "control").unlink(missing_ok=True)


def left(case, quiet_until, *ids):
    """The text of what a run leaves that took these ids, at the clock's first second."""
    clock = START if ids else 0
    journal = case.server.journal.read_bytes()
    return resume_text(Resume(REALM, journal, clock, quiet_until, list(ids)))


def id_of(name, ctime=START, cusec=7):
    return Id(ctime, cusec, REALM, [name.encode()])


def aside(case, why):
    return f"{path_of(case)}: set aside, since {why}"


def told_of(case):
    """The lines on standard error of a service that is killed which name the file."""
    return [line for line in case.server.process.stderr.read().splitlines() if line.startswith(f"{path_of(case)}: ")]


def first_run(case, clock):
    """alice's change, and a clean end. The journal is new, so no time was quiet."""
    start(case, clock)
    case.tell("a change", case.client().ask(ONES), CHANGED)
    stop(case, ONE_CHANGE)


def refused_start(case, clock, path, *lines):
    """A start that is refused with these lines; the file stays."""
    options = ["--control", "control", "--resume", str(path)]
    case.launch("unlimited", options=options, CLOCK=clock.file)
    case.tell(lines[0], case.last_lines(), (list(lines), 1))


def unfit(journal, good):
    """Texts that don't fit the next start after this journal, and why; `good` is the one that was left."""
    ids = [id_of("alice")]

    def other(**fields):
        parts = dict(realm=REALM, journal=journal, clock=START, quiet_until=START - SECONDS - 1, ids=ids)
        return resume_text(Resume(**{**parts, **fields}))

    return [
        ("empty", b"", "it is no resume file of this version"),
        ("of another version", good.replace(b"resume 1", b"resume 2"), "it is no resume file of this version"),
        ("torn", good[:-1], "it is damaged"),
        ("torn within an id", good[:-30], "it is damaged"),
        ("doubled", good + good, "it is damaged"),
        ("with a byte changed", good[:40] + bytes([good[40] ^ 1]) + good[41:], "it is damaged"),
        ("of another realm", other(realm=b"OTHER.ORG"), "it is of another realm"),
        ("of a shorter journal", other(journal=journal[:-1]), "the journal is not as it was left"),
        ("of a longer journal", other(journal=journal + b"\0"), "the journal is not as it was left"),
        ("of another journal as long", other(journal=journal[:-1] + b"?"), "the journal is not as it was left"),
        ("of the future", other(clock=START + SECONDS + 1), "its time is later than the clock"),
        ("quiet in the future", other(quiet_until=START + SECONDS + 1), "its time is later than the clock"),
    ]


class Resumes(ServiceCase):
    def test_a_clean_end_and_the_next_start(self):
        """The bytes are those of the format, in a file of its owner's. The next start has no quiet time, and knows the request."""
        clock = SetClock(self.folder)
        first_run(self, clock)
        self.tell("the file", path_of(self).read_bytes(), left(self, START - SECONDS - 1, id_of("alice")))
        self.tell("its mode", oct(path_of(self).stat().st_mode & 0o777), "0o600")
        start(self, clock)
        self.tell("it is gone", path_of(self).exists(), False)
        self.tell("no quiet time", (status(self)["quiet-until"], self.server.quiet), ("-", []))
        self.tell("the same again", self.client().ask(ONES), REPLAYED)
        self.tell("another", self.client().ask(request("bob")), CHANGED)
        stop(self, "entries 2 changes 1")
        self.tell("the next file", path_of(self).read_bytes(), left(self, START - SECONDS - 1, id_of("alice"), id_of("bob")))
        start(self, clock)
        self.tell("both again", [self.client().ask(it) for it in (ONES, request("bob"))], [REPLAYED] * 2)
        stop(self, "entries 2 changes 0")

    def test_used_once(self):
        """A start that took it over and was killed leaves none: the next one is quiet."""
        clock = SetClock(self.folder)
        first_run(self, clock)
        start(self, clock)
        kill(self)
        start(self, clock)
        self.tell("quiet", status(self)["quiet-until"].startswith("19"), True)
        self.tell("the same", self.client().ask(ONES), QUIET)
        stop(self, ONE_CHANGE.replace("changes 1", "changes 0"))
        self.tell("until when", [it.startswith("quiet until 1970-01-12T") for it in self.server.quiet], [True])

    def test_a_quiet_time_that_goes_on(self):
        """A clean end within a quiet time leaves the rest of it."""
        clock = SetClock(self.folder)
        first_run(self, clock)
        path_of(self).unlink()
        start(self, clock)
        stop(self, NOTHING)
        self.tell("the file", path_of(self).read_bytes(), left(self, START + SECONDS))
        start(self, clock, START + SECONDS)
        self.tell("still quiet", self.client().ask(request("bob", START + SECONDS)), QUIET)
        clock.set(START + SECONDS + 1)
        self.tell("and then not", self.client().ask(request("bob", START + SECONDS + 1)), CHANGED)
        stop(self, "entries 2 changes 1")

    def test_after_a_compact_journal(self):
        """A clean end after `compact` is of the compact journal."""
        clock = SetClock(self.folder)
        start(self, clock)
        client = self.client()
        sent = [request("alice", START, f"New-pass{number}", number) for number in range(CHANGES)]
        self.tell("changes", [client.ask(it) for it in sent], [CHANGED] * CHANGES)
        before = self.server.journal.stat().st_size
        self.tell("compact", ask(self, f"compact {self.folder / 'present.toml'}"), OK)
        self.tell("it is shorter", self.server.journal.stat().st_size < before, True)
        stop(self, f"entries {CHANGES} changes {CHANGES}", NOTHING)
        ids = [id_of("alice", START, number) for number in range(CHANGES)]
        self.tell("the file", path_of(self).read_bytes(), left(self, START - SECONDS - 1, *ids))
        start(self, clock)
        self.tell("no quiet time", status(self)["quiet-until"], "-")
        self.tell("the last again", self.client().ask(sent[-1]), REPLAYED)
        stop(self, ONE_CHANGE.replace("changes 1", "changes 0"))

    def test_other_files(self):
        """A folder or a pipe is no resume file, nor is another file of the service."""
        clock = SetClock(self.folder)
        folder, pipe = self.folder / "folder", self.folder / "pipe"
        folder.mkdir()
        os.mkfifo(pipe)
        for it, why in ((folder, "is a directory"), (pipe, "not a regular file")):
            refused_start(self, clock, it, f"cannot read {it}", f"{it}: {why}")
        for it in (self.server.configuration, self.server.seed, self.server.journal):
            refused_start(self, clock, it, f"cannot write {it}")
            self.tell("it is there", it.exists(), True)
        self.server.journal.rename(self.folder / "journal.new")
        self.server.journal = self.folder / "journal.new"
        refused_start(self, clock, self.folder / "journal", f"cannot write {self.folder / 'journal'}")
        self.tell("the journal is there", self.server.journal.exists(), True)

    def test_set_aside(self):
        """Each file that doesn't fit is removed, and told once, and the start is quiet."""
        clock = SetClock(self.folder)
        first_run(self, clock)
        good = path_of(self).read_bytes()
        for what, text, why in unfit(self.server.journal.read_bytes(), good):
            path_of(self).write_bytes(text)
            path_of(self).chmod(0o600)
            start(self, clock)
            self.tell(f"{what}: the same again", self.client().ask(ONES), QUIET)
            kill(self)
            self.tell(f"{what}: told, once", told_of(self), [aside(self, why)])
            self.tell(f"{what}: it is gone", path_of(self).exists(), False)
        for mode in (0o604, 0o620, 0o640 if os.getgid() else 0o602):
            private(path_of(self)).write_bytes(good)
            path_of(self).chmod(mode)
            start(self, clock)
            kill(self)
            expected = [] if mode == 0o640 else [aside(self, "other users may read or write it")]
            self.tell(f"{mode:o}", told_of(self), expected)
        path_of(self).write_bytes(good)
        path_of(self).chmod(0o600)
        start(self, clock)
        self.tell("the good one", self.client().ask(ONES), REPLAYED)
        stop(self, ONE_CHANGE.replace("changes 1", "changes 0"))

    @named("a file that can't be written")
    def test_a_file_that_can_t_be_written(self):
        """Where the file can't be written at the end, that is told, and all else is as ever."""
        clock = SetClock(self.folder)
        folder = self.folder / "gone"
        folder.mkdir()
        options = ["--control", "control", "--resume", str(folder / RESUME)]
        self.start("unlimited", options=options, CLOCK=clock.file)
        folder.rmdir()
        self.tell("a change", self.client().ask(ONES), CHANGED)
        self.tell("told to stop", ask(self, "stop"), OK)
        told = f"cannot write {folder / RESUME}: the next start will be quiet for 300 seconds"
        self.tell("its end", self.last_lines(), ([ONE_CHANGE, told], 0))


if __name__ == "__main__":
    main(__doc__)
