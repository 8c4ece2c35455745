"""`serve` with its files: a second start at one journal, the words of a seed, and history after history.

What a start is quiet about, what a full history's clients are answered and what the journal has then is what docs/PROTOCOL
has (Quiet time; A full history; The journal). The clock of the day stands still until it is set, and a start is held where
it locks its journal (machine.c). Needs gcc.
"""

import os
import pathlib
import socket
import subprocess

from harness.cases import main
from harness.journal import Raise, plain_record, read_journal, realm_record
from harness.machine import machine
from harness.server import private
from harness.serving import ALICES, BOBS, CHANGED, NO_REQUEST, REPLAYED, START
from harness.serving import Hold, SetClock, with_length, parts_of, request, ServiceCase

QUIET = "code 3 error 37 clock skew too great"
FULL = "code 2 error 60 history full"
# the service's quiet time
SECONDS = 300
# the record of a raise
RAISED = 7
ONE_CHANGE = "entries 1 changes 1"
# 9999-12-31T23:59:59Z
LAST_SECOND = 253_402_300_799
# records of a long journal, as many of alice as of bob
RECORDS = 200_000
# clients while history follows history, and how often one asks at the most
CLIENTS = 24
TRIES = 50
# the most bytes of a configuration
LONGEST = 64 * 1024 * 1024
CHECKED = "ok: principals 2, rules 0, service keys 1\n"


def tell_records(case, *wanted):
    """What is in the journal: name, kvno and iterations of each change, and the count of a raise."""
    records, torn = read_journal(case.server.journal.read_bytes())
    found = [it.iterations if isinstance(it, Raise) else (it.name, it.kvno, it.iterations) for it in records]
    case.tell("the journal", (found, torn), (list(wanted), b""))


def tell_size(case, size):
    case.tell("the journal's bytes", case.server.journal.stat().st_size, size)


# runs at one journal: when, what is asked for, what is said of it, and how many events there are
RAISES = [
    (0, ["--raise", "8"], ["raised 8"], "entries 2 changes 1"),
    (400, [], [], ONE_CHANGE),
    (800, ["--raise", "8"], ["count not higher"], "entries 2 changes 1"),
]


def tell_other_words(case, one, other):
    """Replies that are sealed under the same keys, with the same moment in their AP-REPs, differ where their words
    do."""
    (one_ap, _), (other_ap, _) = parts_of(one), parts_of(other)
    case.tell("other words", len(one_ap) == len(other_ap) > 0 and one_ap != other_ap, True)


def changed_at_last(client, sent):
    """Asks until the answer isn't that the history is full; what it is."""
    for _ in range(TRIES):
        told = client.told(sent)
        if told != FULL:
            return told
        client.send(sent)
    return FULL


def deaf_one(case):
    """A client that sends as many messages as its socket takes, and reads no reply."""
    client = case.client()
    client.socket.setblocking(False)
    hundred = 100 * with_length(NO_REQUEST)
    try:
        for _ in range(400):
            client.send_bytes(hundred)
    except BlockingIOError:
        pass


def amid_changes(case, workers, is_beside_a_deaf_one):
    """Histories of five entries while 24 clients ask, half of them alice's, each at a second of its own and over a
    connection of its own, before any reply is read. One that is told that the history is full asks again. Each is
    answered, and no key is changed twice."""
    clock = SetClock(case.folder)
    case.realm(max_entries=5)
    case.start(CLIENTS + is_beside_a_deaf_one, workers=workers, CLOCK=clock.file)
    if is_beside_a_deaf_one:
        deaf_one(case)
    requests = [request(("alice", "bob")[number % 2], START + number, f"New-pass{number}")
                for number in range(CLIENTS)]
    clients = [case.client() for _ in requests]
    for client, sent in zip(clients, requests):
        client.send(sent)
    told = [changed_at_last(client, sent) for client, sent in zip(clients, requests)]
    case.tell("answers", told, [CHANGED] * CLIENTS)
    lines, status = case.last_lines()
    numbers = [line.split() for line in lines]
    case.tell("its end", ({len(words) for words in numbers}, status), ({4}, 0))
    case.tell("changes", sum(int(changes) for *_, changes in numbers), CLIENTS)
    case.tell("entries of the full histories", {entries for _, entries, *_ in numbers[:-1]}, {"5"})
    tell_size(case, CLIENTS // 2 * (ALICES + BOBS))
    records, _ = read_journal(case.server.journal.read_bytes())
    for name in ("alice", "bob"):
        versions = [record.kvno for record in records if record.name == name]
        case.tell(f"{name}'s versions", versions, list(range(2, CLIENTS // 2 + 2)))


def ran(case, *words, stdin=None):
    """What the program prints with these words, and its status."""
    command = [str(it) for it in (case.server.program, *words)]
    done = subprocess.run(command, input="" if stdin is None else stdin, capture_output=True, text=True, timeout=60)
    return done.stdout, done.stderr.splitlines(), done.returncode


# journals that are there before such a start
BEFORE = {"a torn tail": plain_record("alice", 2) + b"\1", "the folder of a journal that is there": plain_record("alice", 2)}
# what fails in the machine, by machine.c; and what the start says, after what it has printed
FAILURES = [
    ("the configuration's bytes", {"FAILS": "read 1 5"}, [], "cannot read {configuration}"),
    ("the lock of a new journal", {"FAILS": "flock 1 37"}, [], "cannot write {journal}"),
    ("a new journal's folder", {"FOLDERS": 1}, [], "cannot write {journal}"),
    ("the folder of a journal that is there", {"FOLDERS": 1, "FAILS": "epoll_wait 1 9"}, ["listening", "entries 0 changes 0"],
     "cannot listen"),
    ("a torn tail", {"FAILS": "ftruncate 1 5"}, [], "cannot write {journal}"),
    ("a port that can't listen", {"FAILS": "listen 1 98"}, [], "cannot listen"),
    ("a port that has no datagrams", {"FAILS": "bind 2 98"}, [], "cannot listen"),
    ("a socket that can't listen", {"FAILS": "listen 2 98"}, [], "cannot listen at control"),
    ("a socket without its mode", {"FAILS": "chmod 1 1"}, [], "cannot listen at control"),
    ("no events", {"FAILS": "epoll_create1 1 24"}, [], "cannot listen"),
    ("no waker", {"FAILS": "eventfd 1 24"}, [], "cannot listen"),
    ("a wait for events", {"FAILS": "epoll_wait 1 9"}, ["listening", "entries 0 changes 0"], "cannot listen"),
]


def long_file(path, length):
    """A file of so many bytes, of which the disk has none."""
    private(path)
    os.truncate(path, length)


class Starts(ServiceCase):
    def test_a_second_start(self):
        """The former run's message is refused, and a new one taken 301 seconds after the start."""
        clock = SetClock(self.folder)
        former, later = request("alice"), request("alice", START + SECONDS + 1, "New-pass3")
        self.start(1, CLOCK=clock.file)
        self.tell("the first run", self.client().ask(former), CHANGED)
        self.tell_end(ONE_CHANGE)
        self.start(1, CLOCK=clock.file)
        client = self.client()
        self.tell("at once", client.ask(former), QUIET)
        clock.set(START + SECONDS)
        self.tell("after 300 seconds", client.ask(former), QUIET)
        clock.set(START + SECONDS + 1)
        self.tell("a new one", client.ask(later), CHANGED)
        self.tell_end("entries 3 changes 1")
        tell_size(self, 2 * ALICES)

    def test_a_second_start_after_a_raise(self):
        """The first run raises the count from 4 to 8 before it listens; the second has no such option, and the third asks
        for the same count. All that is changed after the raise is changed under 8."""
        for number, (later, options, said, tally) in enumerate(RAISES):
            clock = SetClock(self.folder, START + later)
            self.start(1, options=options, CLOCK=clock.file)
            self.tell(f"run {number}", self.server.said, said)
            second = START + later + SECONDS + 1
            clock.set(second)
            self.tell("a change", self.client().ask(request("alice", second, f"New-pass{number}")), CHANGED)
            self.tell_end(tally)
        tell_records(self, 8, *(("alice", kvno, 8) for kvno in (2, 3, 4)))
        tell_size(self, RAISED + 3 * ALICES)
        words = ["--config", self.server.configuration, "--journal", self.server.journal, "--as", "lines"]
        table = subprocess.run([self.server.program, "table", *words], capture_output=True, text=True, timeout=SECONDS)
        self.tell("the table", table.stdout.splitlines(),
                  ["alice kvno 4 counts 8 8 8", "bob kvno 1 counts 4", "principals 2 changes 4"])

    def test_a_full_history_and_the_next(self):
        """A history of two is followed by another one over the same connection, which knows what the former had decided. Of
        two replies in different histories the second has further words."""
        clock = SetClock(self.folder)
        self.realm(max_entries=2)
        self.start(2, CLOCK=clock.file)
        client, other = self.client(), self.client()
        sent = [request("alice"), request("alice", START + 1, "New-pass3"), request("bob", password="New-pass4")]
        replies = []
        for what, it in zip(("the first", "the second", "one more"), sent):
            client.send(it)
            replies.append(client.reply())
            self.tell(what, client.said(it, replies[-1]), CHANGED)
        self.tell("the first again", other.ask(sent[0]), REPLAYED)
        tell_other_words(self, replies[0], replies[2])
        # the second history is full too: a third one may have begun
        lines, status = self.last_lines()
        self.tell("its end", (lines[:2], status), (["entries 2 changes 2", "entries 2 changes 1"], 0))
        self.tell("a third history", lines[2:] in ([], ["entries 0 changes 0"]), True)
        tell_size(self, 2 * ALICES + BOBS)

    def test_words_of_the_seed(self):
        """One seed gives one reply to a request, another seed another. The service is at 127.0.0.1 alone."""
        clock = SetClock(self.folder)
        sent, replies = request("alice"), []
        for number in (1, 1, 2):
            self.server.journal.unlink(missing_ok=True)
            self.server.seed.write_bytes(bytes([number] * 32))
            self.start(1, CLOCK=clock.file)
            client = self.client()
            with socket.socket() as elsewhere:
                self.tell("at 127.0.0.2", elsewhere.connect_ex(("127.0.0.2", self.server.port)) != 0, True)
            client.send(sent)
            replies.append(client.reply())
            self.tell("a change", client.said(sent, replies[-1]), CHANGED)
            self.tell_end(ONE_CHANGE)
        self.tell("one seed, one reply", replies[0] == replies[1], True)
        tell_other_words(self, replies[0], replies[2])

    def test_a_client_at_the_last_moment(self):
        """`client` makes no request whose ticket, of an hour, would end after the year 9999."""
        words = ["--config", self.server.configuration, "--seed", "/dev/urandom", "--port", str(self.server.port)]
        words += ["--client", "alice", "--password", "New-pass2"]
        for second, line, status in ((LAST_SECOND - 3_600, "cannot connect", 1), (LAST_SECOND - 3_599, "bad argument", 2)):
            clock = SetClock(self.folder, second)
            done = subprocess.run([self.server.program, "client", *words], env=machine(self.folder, CLOCK=clock.file),
                                  capture_output=True, text=True, timeout=60)
            self.tell(f"at second {second}", (done.stdout, done.stderr.strip(), done.returncode), ("", line, status))

    def test_a_start_that_is_read_after_the_lock(self):
        """What a start is quiet about depends on its moment, and other processes may have had the journal before: so its
        moment is read once it has the journal's lock, here ten seconds later."""
        clock, lock = SetClock(self.folder), Hold(self.folder, "lock")
        private(self.server.journal)
        lock.hold()
        self.launch(1, CLOCK=clock.file, LOCK=lock.file)
        lock.wait()
        clock.set(START + 10)
        lock.free()
        self.server.listens()
        client = self.client()
        last = START + 10 + SECONDS
        self.tell("the last quiet second", client.ask(request("alice", last)), QUIET)
        clock.set(START + 11)
        self.tell("the next one", client.ask(request("alice", last + 1)), CHANGED)
        self.tell_end("entries 2 changes 1")

    def test_a_journal_that_must_exist(self):
        """With `--existing-journal` a start makes nothing where there is no journal, and takes one that is there, be it empty."""
        journal = self.server.journal
        files = sorted(os.listdir(self.folder))
        self.server.options = ["--existing-journal", "--log", self.folder / "log", "--control", self.folder / "control"]
        found = ran(self, *self.server.command(1)[1:])
        self.tell("none is there", found, ("", [f"cannot read {journal}", f"{journal}: no such file"], 1))
        self.tell("nothing is made", sorted(os.listdir(self.folder)), files)
        private(journal)
        self.start(1, options=["--existing-journal"])
        self.tell("an empty one", self.client().ask(request("alice")).startswith("code 3 error 37"), True)
        self.tell_end("entries 1 changes 0")

    def test_a_new_journal(self):
        """`new-journal` makes the journal of a realm, and touches nothing that is there. No other realm takes it."""
        journal, configuration, clock = self.server.journal, self.server.configuration, SetClock(self.folder)
        words = ["new-journal", "--config", configuration, "--journal"]
        table = ["table", "--config", configuration, "--journal", journal]
        record = realm_record("EXAMPLE.COM")
        self.tell("it is made", ran(self, *words, journal), ("", [], 0))
        self.tell("its bytes", (journal.read_bytes(), journal.stat().st_mode & 0o777), (record, 0o600))
        there = ("", [f"{journal}: not made, since it is there already"], 1)
        self.tell("it is there", (ran(self, *words, journal), journal.read_bytes()), (there, record))
        self.tell("its table", ran(self, *table), ("alice kvno 1 counts 4\nbob kvno 1 counts 4\nprincipals 2 changes 0\n", [], 0))
        self.start(1, options=["--existing-journal"], CLOCK=clock.file)
        client = self.client()
        self.tell("its first start is quiet", client.ask(request("alice")), QUIET)
        clock.set(START + SECONDS + 1)
        self.tell("a change", client.ask(request("alice", START + SECONDS + 1)), CHANGED)
        self.tell_end("entries 2 changes 1")
        self.tell("the journal", (journal.read_bytes()[: len(record)], journal.stat().st_size), (record, len(record) + ALICES))
        text = configuration.read_text()
        configuration.write_text(text.replace("EXAMPLE.COM", "EXAMPLE.ORG"))
        for command in (table, self.server.command(1)[1:]):
            told = [f"{journal}: of realm EXAMPLE.COM, wanted EXAMPLE.ORG"]
            self.tell(f"{command[0]}: another realm", ran(self, *command), ("", ["journal: J5", *told], 1))
        configuration.write_text(text)
        journal.write_bytes(plain_record("alice", 2) + record)
        self.tell("after a record", ran(self, *table), ("", ["journal: J1 at 2"], 1))
        journal.write_bytes(record[:-1])
        self.tell("a part of it", ran(self, *table), ("", ["journal: J1 at 1"], 1))
        away = self.folder / "away" / "journal"
        self.tell("no folder", ran(self, *words, away), ("", [f"cannot write {away}", f"{away}: no such directory"], 1))
        configuration.write_text("realm = 1")
        missing = self.folder / "missing"
        self.tell("a configuration with a fault", (ran(self, *words, missing)[0::2], missing.exists()), (("", 1), False))

    def test_a_new_journal_and_its_first_start(self):
        """`new-journal --resume` makes the file with which the first start isn't quiet. If it can't make one, it makes neither."""
        journal, configuration, clock = self.server.journal, self.server.configuration, SetClock(self.folder)
        resume, other, away = (self.folder / name for name in ("resume", "other", "away/resume"))
        words = ["new-journal", "--config", configuration, "--journal", journal, "--resume"]
        for file in (configuration, journal):
            self.tell(f"it is the {file.name}", (ran(self, *words, file), journal.exists()), (("", [f"cannot write {file}"], 1), False))
        lines = [f"cannot write {away}", f"{away}: no such directory"]
        self.tell("no folder", (ran(self, *words, away), journal.exists()), (("", lines, 1), False))
        resume.write_bytes(b"left")
        there = ("", [f"{resume}: not made, since it is there already"], 1)
        self.tell("it is there", (ran(self, *words, resume), resume.read_bytes(), journal.exists()), (there, b"left", False))
        resume.unlink()
        self.tell("both are made", ran(self, *words, resume), ("", [], 0))
        self.tell("their bytes and modes", (journal.read_bytes(), *(it.stat().st_mode & 0o777 for it in (journal, resume))),
                  (realm_record("EXAMPLE.COM"), 0o600, 0o600))
        there = ("", [f"{journal}: not made, since it is there already"], 1)
        self.tell("the journal is there", (ran(self, *words, other), other.exists()), (there, False))
        self.start(1, options=["--existing-journal", "--resume", resume], CLOCK=clock.file)
        self.tell("the first start takes it", resume.exists(), False)
        self.tell("it isn't quiet", self.client().ask(request("alice")), CHANGED)
        self.tell_end(ONE_CHANGE)

    def test_a_long_journal(self):
        """All records are read: the next change has the version after them."""
        clock = SetClock(self.folder)
        names = ("alice", "bob")
        before = b"".join(plain_record(names[number % 2], number // 2 + 2) for number in range(RECORDS))
        private(self.server.journal).write_bytes(before)
        self.start(1, CLOCK=clock.file)
        clock.set(START + SECONDS + 1)
        self.tell("a change", self.client().ask(request("alice", START + SECONDS + 1)), CHANGED)
        self.tell_end(ONE_CHANGE)
        after = self.server.journal.read_bytes()
        self.tell("the records before it", after[: len(before)] == before, True)
        [record], torn = read_journal(after[len(before) :])
        self.tell("its record", (record.name, record.kvno, torn), ("alice", RECORDS // 2 + 2, b""))

    def test_other_files(self):
        """A configuration that isn't a regular file, or is longer than 64 MiB, is refused by each command that reads one, and so
        is a journal that isn't a regular file; nobody waits for a pipe, or reads a device to its end."""
        configuration, journal = self.server.configuration, self.server.journal
        text = configuration.read_text()
        linked = self.folder / "linked.toml"
        linked.symlink_to(configuration)
        words = {
            "check": ["check", "--config"],
            "table": ["table", "--journal", journal, "--config"],
            "client": ["client", "--seed", self.server.seed, "--port", self.server.port, "--client", "alice",
                       "--password", "New-pass2", "--config"],
            "serve": ["serve", "--journal", journal, "--seed", self.server.seed, "--port", self.server.port, "--workers", 1,
                      "--connections", 1, "--config"],
        }
        for command, before in words.items():
            for what, make, why in (
                ("a pipe", os.mkfifo, "not a regular file"),
                ("a device", lambda path: path.symlink_to("/dev/zero"), "not a regular file"),
                ("a folder", pathlib.Path.mkdir, "is a directory"),
                ("too long", lambda path: long_file(path, LONGEST + 1), "longer than 64 MiB"),
            ):
                path = self.folder / "other.toml"
                make(path)
                found = ran(self, *before, path)
                self.tell(f"{command}: {what}", found, ("", [f"cannot read {path}", f"{path}: {why}"], 1))
                path.rmdir() if path.is_dir() else path.unlink()
            found = ran(self, *before, "/dev/stdin", stdin=text)
            self.tell(f"{command}: standard input", found, ("", ["cannot read /dev/stdin", "/dev/stdin: not a regular file"], 1))
        self.tell("check: a link", ran(self, "check", "--config", linked), (CHECKED, [], 0))
        path = self.folder / "other.toml"
        long_file(path, LONGEST)
        lines = ran(self, "check", "--config", path)[1]
        self.tell("check: as long as may be", [line for line in lines if "cannot read" in line or "longer" in line], [])
        os.mkfifo(journal)
        for command in ("table", "serve"):
            found = ran(self, *words[command], configuration)
            self.tell(f"{command}: a pipe for a journal", found, ("", [f"cannot read {journal}", f"{journal}: not a regular file"], 1))

    def test_a_machine_that_fails(self):
        """Each ends the service with a line and status 1, also one that is to go on for ever."""
        for what, machine_does, printed, line in FAILURES:
            self.server.journal.unlink(missing_ok=True)
            if what in BEFORE:
                private(self.server.journal).write_bytes(BEFORE[what])
            self.launch("unlimited", options=["--control", "control", "--udp"], **machine_does)
            lines, status = self.last_lines()
            wanted = line.format(configuration=self.server.configuration, journal=self.server.journal)
            self.tell(what, ([it.split(" on ")[0] for it in lines], status), ([*printed, wanted], 1))
            (self.folder / "control").unlink(missing_ok=True)
            if what.startswith("a port"):
                self.tell("no journal is made", self.server.journal.exists(), False)

    def test_histories_amid_sixteen_workers(self):
        amid_changes(self, 16, False)

    def test_histories_beside_a_client_that_reads_nothing(self):
        amid_changes(self, 2, True)


if __name__ == "__main__":
    main(__doc__)
