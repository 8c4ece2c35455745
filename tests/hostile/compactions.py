"""A journal that is replaced by a compact one while the service runs.

What `compact` is answered is what docs/PROTOCOL has (Compact), and what a compact journal holds, too (A compact journal).
Journals are replaced during changes, reloads and histories that fill, and while the service is killed. The clock of the
day stands still where a case sets it (machine.c). Needs gcc.
"""

import collections
import os
import pathlib
import stat
import subprocess

from harness.cases import main, named
from harness.asking import request_now
from harness.controlling import OK, Caller, ask, entries_of, rewrite, start, status, tell_end, tell_stop, told, written
from harness.false_agent import Agent, hexed
from harness.journal import ADOPT, BASE, CHANGE, LIFT, REMOVE
from harness.journal import Base, Raise, Realm, keys_record, raise_record, read_journal, realm_record
from harness.kept import keys_of
from harness.killing import QUIET, killed_amid
from harness.orders import CHANGES, Orders, changed_amid
from harness.server import private
from harness.serving import CHANGED, REPLAYED, START, SetClock, request, ServiceCase

USED = "code 4 password used before"
FULL = "code 2 error 60 history full"
FAILED = "code 2 journal failed"
CHANGED_FILE = ("error: the configuration has changed: reload it first\n", 1)
NO_GAIN = "error: nothing to gain\n"
GOOD = {OK, NO_GAIN}
# seconds between two orders
PAUSE = 0.02
# how many keys the configuration keeps of each principal
DEPTH = 3
# how often the service is killed
KILLS = 20
# under how many iterations keys are made here
ITERATIONS = 4


def table(case, *words):
    """What `table` prints of the files."""
    command = [case.server.program, "table", "--config", case.server.configuration, "--journal", case.server.journal, *words]
    return subprocess.run(command, capture_output=True, text=True, timeout=60).stdout


def plain(kind, name, kvno):
    """A record of such a kind, whose keys' bytes are all the version's number."""
    return keys_record(kind, name, kvno, ITERATIONS, (bytes([kvno] * 16), bytes([kvno] * 32)))


def records_of(case):
    """The journal's records: of a raise its count, of a key its kind, its name and its version."""
    records, torn = read_journal(case.server.journal.read_bytes())
    assert torn == b""
    return [
        it.iterations if isinstance(it, Raise) else ("base" if isinstance(it, Base) else "change", it.name, it.kvno)
        for it in records
    ]


def beside(case):
    """Whether something is left beside the journal."""
    return os.path.lexists(f"{case.server.journal}.new")


def grow(case, client, first=1):
    """Changes of alice, so many that a compact journal is shorter."""
    for number in range(first, first + DEPTH + 1):
        case.tell("a change", client.ask(request_now("alice", f"Pass-{number}", number)), CHANGED)


def left(case, before):
    """Whether the journal is as it was, and a copy is there."""
    return case.server.journal.read_bytes() == before, (case.folder / "copy").exists()


def made(case):
    """The journal has one record of each key that is held and that the configuration doesn't have, and what is held
    stays, also after a restart. The copy is the configuration that is held."""
    clock = SetClock(case.folder)
    start(case, CLOCK=clock.file)
    client = case.client()
    for turn in range(5):
        case.tell("a change", client.ask(request("alice", START, f"Pass-{turn}", turn)), CHANGED)
    former, held, copied = records_of(case), table(case, "--as", "keys"), table(case, "--as", "configuration")
    case.tell("records", former, [("change", "alice", 2 + turn) for turn in range(5)])
    case.tell("compact", told(case, "compact", "copy"), (OK, 0))
    copy = case.folder / "copy"
    case.tell("the copy", (copy.read_text(), oct(stat.S_IMODE(copy.stat().st_mode))), (copied, "0o600"))
    mode = oct(stat.S_IMODE(case.server.journal.stat().st_mode))
    case.tell("the journal's mode, and what is beside it", (mode, beside(case)), ("0o600", False))
    shorter = [it for it in records_of(case) if isinstance(it, tuple)]
    case.tell("a compact journal", shorter, [("base", "alice", 4), ("change", "alice", 5), ("change", "alice", 6)])
    case.tell("what is held", table(case, "--as", "keys"), held)
    case.tell("its bytes", status(case)["journal-bytes"], str(case.server.journal.stat().st_size))
    case.tell("a former request", client.ask(request("alice", START, "Pass-0", 0)), REPLAYED)
    case.tell("a held password", client.ask(request("alice", START, "Pass-2", 11)), USED)
    case.tell("one more change", client.ask(request("bob", START, "Pass-9", 12)), CHANGED)
    case.tell("it goes on after", records_of(case)[-1], ("change", "bob", 2))
    held = table(case, "--as", "keys")
    tell_end(case, "entries 5 changes 5", "entries 3 changes 1")
    clock.set(START + QUIET + 1)
    start(case, CLOCK=clock.file)
    case.tell("after a restart", table(case, "--as", "keys"), held)
    clock.set(START + 2 * QUIET + 2)
    client = case.client()
    case.tell("a held password", client.ask(request("alice", START + 2 * QUIET + 2, "Pass-2", 1)), USED)
    tell_end(case, "entries 1 changes 0")
    case.server.configuration.write_text(copy.read_text())
    case.server.journal.unlink()
    keys = table_of_copy(case)
    case.tell("the copy alone", keys, [line for line in held.splitlines() if line.startswith("alice")])


def table_of_copy(case):
    """Alice's keys, by the copy and an empty journal."""
    private(case.server.journal)
    return [line for line in table(case, "--as", "keys").splitlines() if line.startswith("alice")]


def only_first(former, names, change):
    """The configuration with these names, each text of the change replaced once."""
    text = written(names)
    for old, new in change:
        assert old in text, old
        text = text.replace(old, new, 1)
    assert text != former
    return text


def held(case):
    """Of each principal the versions that it has and their keys of etype 18, newest first."""
    found = collections.defaultdict(list)
    for line in table(case, "--as", "keys").splitlines():
        name, kvno, etype, _, key, _ = line.split(" ")
        if etype == "18":
            found[name.split("@")[0]].append((int(kvno), key))
    return found


def compactions(case, number):
    """Has the journal replaced, and in between the configuration read anew, until the service is gone."""
    def order(turn):
        return f"compact copy{number}-{turn}" if turn % 4 else "reload"

    return Orders(case, order, GOOD.__contains__)


def wrong_in_table(changers, before, after):
    """What is wrong with what is held after a run, a line each."""
    for it in changers:
        (newest, _), *_ = before[it.name]
        count = after[it.name][0][0] - newest
        if not it.answered <= count <= len(it.asked):
            yield f"{it.name}: {len(it.asked)} asked, {it.answered} answered, {count} held"
            continue
        wanted = [keys_of(it.name, word, ITERATIONS)[1].hex() for word in reversed(it.asked[:count])][:DEPTH]
        if [key for _, key in after[it.name][: len(wanted)]] != wanted:
            yield f"{it.name}: other keys than those that were asked for"
        versions = [kvno for kvno, _ in after[it.name]]
        if versions != list(range(versions[0], versions[0] - len(versions), -1)):
            yield f"{it.name}: versions {versions}"


class Compactions(ServiceCase):
    def test_made(self):
        made(self)

    def test_each_kind_of_record(self):
        """The greatest count of two; of alice the keys that are held, of which one has a lifted version; that bob is removed;
        and carol, who joined, with a gap between her versions."""
        removed = keys_record(REMOVE, "bob", 1, 1, (bytes(16), bytes(32)))
        joined = [plain(ADOPT, "carol", 7), plain(CHANGE, "carol", 8), plain(ADOPT, "carol", 10)]
        changes = [plain(CHANGE, "alice", kvno) for kvno in (2, 3, 4)]
        former = [raise_record(6), *changes, plain(LIFT, "alice", 9), removed, *joined, raise_record(8)]
        wanted = [raise_record(8), plain(BASE, "alice", 2), plain(CHANGE, "alice", 3), plain(ADOPT, "alice", 9), removed, *joined]
        private(self.server.journal).write_bytes(b"".join(former))
        start(self)
        held = table(self, "--as", "keys")
        self.tell("compact", told(self, "compact", "copy"), (OK, 0))
        self.tell("the journal", self.server.journal.read_bytes().hex(), b"".join(wanted).hex())
        self.tell("what is held", table(self, "--as", "keys"), held)
        tell_stop(self)

    def test_refused(self):
        """Where there is no copy, or no journal, all stays as it was, and no file is left."""
        start(self)
        client = self.client()
        grow(self, client)
        before = self.server.journal.read_bytes()
        (self.folder / "there").write_text("kept")
        folder = pathlib.Path(f"{self.server.journal}.new")
        folder.mkdir()
        for name, answer in (
            ("there", "error: cannot write there\n"),
            ("missing/copy", "error: cannot write missing/copy\n"),
            ("copy", f"error: cannot write {self.server.journal}\n"),
        ):
            self.tell(name, told(self, "compact", name), (answer, 1))
            self.tell("  what is left", left(self, before), (True, False))
        self.tell("what was there", (self.folder / "there").read_text(), "kept")
        folder.rmdir()
        answer = (f"error: cannot write {self.server.journal}\n", 1)
        self.tell("a copy in its way", told(self, "compact", f"{self.server.journal}.new"), answer)
        self.tell("  what is left", (left(self, before)[0], beside(self)), (True, False))
        self.server.configuration.unlink()
        answer = f"error: cannot read {self.server.configuration}\n"
        self.tell("no configuration", told(self, "compact", "copy"), (answer, 1))
        self.tell("it goes on", client.ask(request_now("alice", "Pass-9", 9)), CHANGED)
        self.tell("after the former records", records_of(self), [("change", "alice", 2 + turn) for turn in range(DEPTH + 2)])
        tell_stop(self)

    def test_a_changed_configuration(self):
        """A configuration with other text than the start or the last reload read is to be reloaded first, whatever is other in
        it; also one that can't be, or that has a fault. With the former text it is the one in force again."""
        start(self)
        client = self.client()
        grow(self, client)
        before = self.server.journal.read_bytes()
        former = self.server.configuration.read_text()
        carol = ["alice", "bob", "carol"]
        for what, names, change in (
            ("other keys", ["alice", "bob"], [("kvno = 1", "kvno = 9")]),
            ("no bob", ["alice"], []),
            ("no such principal", ["bob"], []),
            ("other service keys", ["alice", "bob"], [("kvno = 3", "kvno = 7")]),
            ("another rule", ["alice", "bob"], [("min_length = 6", "min_length = 7")]),
            ("another realm", carol, [("EXAMPLE.COM", "EXAMPLE.ORG")]),
            ("a fault", carol, [("depth = 3", "depth = -1")]),
            ("a comment", ["alice", "bob"], [("realm", "# ours\nrealm")]),
        ):
            self.server.configuration.write_text(only_first(former, names, change))
            self.tell(what, told(self, "compact", "copy"), CHANGED_FILE)
            self.tell("  what is left", left(self, before), (True, False))
        self.server.configuration.write_text(former)
        for number, (what, names, change) in enumerate((
            ("one more", carol, []),
            ("another depth", carol, [("depth = 3", "depth = 2")]),
            ("a greater count", carol, [("iterations = 4\nset", "iterations = 5\nset")]),
        ), 1):
            rewrite(self, names, change)
            self.tell(what, told(self, "compact", "copy"), CHANGED_FILE)
            self.tell("  what is left", left(self, before), (True, False))
            self.tell("  reload", ask(self, "reload").splitlines()[-1:], ["ok"])
            self.tell("  compact", told(self, "compact", "copy"), (OK, 0))
            (self.folder / "copy").unlink()
            grow(self, client, first=20 * number)
            before = self.server.journal.read_bytes()
        self.tell("the former file again", (self.server.configuration.write_text(former) > 0, told(self, "compact", "copy")),
                  (True, CHANGED_FILE))
        tell_stop(self)

    def test_left_over(self):
        """What a run that was ended in the midst has left beside the journal is taken away."""
        start(self)
        grow(self, self.client())
        private(pathlib.Path(f"{self.server.journal}.new")).write_bytes(b"half a jour")
        self.tell("compact", told(self, "compact", "copy"), (OK, 0))
        self.tell("what is beside it", beside(self), False)
        keys = [it for it in records_of(self) if isinstance(it, tuple)]
        self.tell("records", keys, [("base", "alice", 3), ("change", "alice", 4), ("change", "alice", 5)])
        tell_stop(self)

    def test_nothing_to_gain(self):
        """Where a compact journal would have as many bytes as the present one, or more, it isn't made."""
        start(self)
        client = self.client()
        before = self.server.journal.read_bytes()
        for number in range(1, DEPTH + 2):
            self.tell("compact", told(self, "compact", "copy"), (NO_GAIN, 1))
            self.tell("  what is left", (*left(self, before), beside(self)), (True, False, False))
            self.tell("a change", client.ask(request_now("alice", f"Pass-{number}", number)), CHANGED)
            before = self.server.journal.read_bytes()
        self.tell("compact", told(self, "compact", "copy"), (OK, 0))
        self.tell("it is shorter", self.server.journal.stat().st_size < len(before), True)
        before = self.server.journal.read_bytes()
        self.tell("once more", told(self, "compact", "again"), (NO_GAIN, 1))
        self.tell("what is left", (left(self, before)[0], (self.folder / "again").exists()), (True, False))
        self.tell("one more", client.ask(request_now("alice", "Pass-20", 20)), CHANGED)
        tell_stop(self)

    def test_a_named_journal(self):
        """A journal that begins with the record of its realm keeps it, and its history goes on after."""
        record, clock, late = realm_record("EXAMPLE.COM"), SetClock(self.folder), START + QUIET + 1
        private(self.server.journal).write_bytes(record)
        start(self, CLOCK=clock.file)
        clock.set(late)
        client = self.client()
        for turn in range(5):
            self.tell("a change", client.ask(request("alice", late, f"Pass-{turn}", turn)), CHANGED)
        held = table(self, "--as", "keys")
        self.tell("compact", told(self, "compact", "copy"), (OK, 0))
        self.tell("one more change", client.ask(request("bob", late, "Pass-9", 12)), CHANGED)
        records, torn = read_journal(self.server.journal.read_bytes())
        self.tell("its records", (records[0], len(records), torn), (Realm("EXAMPLE.COM"), 5, b""))
        self.tell("what is held", [line for line in table(self, "--as", "keys").splitlines() if line.startswith("alice")],
                  [line for line in held.splitlines() if line.startswith("alice")])
        self.tell("reload", told(self, "reload"), (OK, 0))
        tell_stop(self)

    @named("a folder that can't be synced")
    def test_a_folder_that_can_t_be_synced(self):
        """A folder that can't be synced: for the copy and for the compact journal beside the present one all stays as it was;
        after the rename no further change is taken, and the next start finds what was held."""
        # the first sync is that of the journal's own name
        for number, name, is_left, then in (
            (2, "copy", False, CHANGED), (3, self.server.journal, False, CHANGED), (4, self.server.journal, True, FAILED),
        ):
            self.server.journal.unlink(missing_ok=True)
            start(self, FOLDERS=number)
            client = self.client()
            grow(self, client, 10 * number)
            held = table(self, "--as", "keys")
            self.tell("  compact", told(self, "compact", "copy"), (f"error: cannot write {name}\n", 1))
            self.tell("  what is left", ((self.folder / "copy").exists(), beside(self)), (is_left, False))
            self.tell("  one more", client.ask(request_now("alice", "Pass-1", 9 + 10 * number)), then)
            self.tell("  how it stands", status(self)["journal"], "good" if then == CHANGED else "failed: its name may be lost")
            if then == FAILED:
                self.tell("  compact after that", told(self, "compact", "other"), ("error: journal failed\n", 1))
                self.tell("  its copy", (self.folder / "other").exists(), False)
            tell_stop(self)
        self.tell("after a restart", table(self, "--as", "keys"), held)

    def test_folders_that_are_synced(self):
        """What is synced is the folder of the file that is new there: the journal's, the copy's, and the journal's again for
        the compact one beside it and for its rename."""
        here = pathlib.Path(os.path.realpath(self.folder))
        for name in "below", "away":
            (here / name).mkdir()
        self.server.journal = here / "below/journal"
        start(self, SYNCED="synced")
        grow(self, self.client())
        self.tell("compact", told(self, "compact", "away/copy"), (OK, 0))
        tell_stop(self)
        wanted = [here / name for name in ("below", "away", "below", "below")]
        self.tell("folders", (here / "synced").read_text().splitlines(), list(map(str, wanted)))
        (here / "synced").unlink()
        self.server.journal = pathlib.Path("journal")
        start(self, SYNCED="synced")
        tell_stop(self)
        self.tell("the folder of a bare name", (here / "synced").read_text().splitlines(), [str(here)])

    def test_no_rename_or_sync(self):
        """Where the copy can't be synced, or the compact journal not be synced or renamed, the caller is told so, the journal
        stays as it was, nothing is left, and changes go on. A later compact journal is made."""
        # the syncs before are those of the changes, and after them that of the copy
        made = DEPTH + 1
        for number, (fault, name) in enumerate((
            (f"sync {made + 1} 5", "copy"), (f"sync {made + 2} 28", self.server.journal), ("rename 1 5", self.server.journal),
        ), 1):
            self.server.journal.unlink(missing_ok=True)
            start(self, FAILS=fault)
            client = self.client()
            grow(self, client, 10 * number)
            before = self.server.journal.read_bytes()
            self.tell(fault, told(self, "compact", "copy"), (f"error: cannot write {name}\n", 1))
            self.tell("  what is left", (*left(self, before), beside(self)), (True, False, False))
            self.tell("  one more", client.ask(request_now("alice", "Pass-1", 9 + 10 * number)), CHANGED)
            self.tell("  compact after that", told(self, "compact", "copy"), (OK, 0))
            (self.folder / "copy").unlink()
            tell_stop(self)

    def test_confirmed_again(self):
        """A compact journal changes nothing at the KDC: the next change goes there over the same connection, and isn't answered
        before."""
        agent = Agent(self)
        start(self, options=agent.options(60_000))
        client = self.client()
        sent = [request_now("alice", f"Pass-{turn}", 1 + turn) for turn in range(DEPTH + 2)]
        with agent.in_step() as link:
            for turn in range(DEPTH + 1):
                client.send(sent[turn])
                link.confirm("alice", 2 + turn, f"Pass-{turn}")
                self.tell("a change", client.told(sent[turn]), CHANGED)
            self.tell("compact", told(self, "compact", "copy"), (OK, 0))
            client.send(sent[-1])
            link.is_to_put("alice", DEPTH + 3, f"Pass-{DEPTH + 1}")
            self.tell("no reply yet", client.is_silent(), True)
            link.say(f"put {hexed('alice')} {DEPTH + 3}\n")
            self.tell("the reply", client.told(sent[-1]), CHANGED)
            tell_stop(self)

    def test_after_replies(self):
        """A compact journal while a reply waits for the KDC: the reply waits on, and comes when the KDC has the change."""
        agent = Agent(self)
        start(self, options=agent.options(60_000))
        client = self.client()
        sent = [request_now("alice", f"Pass-{turn}", 1 + turn) for turn in range(DEPTH + 1)]
        with agent.in_step() as link:
            for turn in range(DEPTH):
                client.send(sent[turn])
                link.confirm("alice", 2 + turn, f"Pass-{turn}")
                self.tell("a change", client.told(sent[turn]), CHANGED)
            client.send(sent[-1])
            link.is_to_put("alice", DEPTH + 2, f"Pass-{DEPTH}")
            self.tell("compact", told(self, "compact", "copy"), (OK, 0))
            self.tell("no reply yet", client.is_silent(), True)
            link.say(f"put {hexed('alice')} {DEPTH + 2}\n")
            self.tell("the reply", client.told(sent[-1]), CHANGED)
            tell_stop(self)

    def test_twice_at_once(self):
        """Each is answered; of the compact journals one is made, with its copy, since no further one is shorter."""
        start(self)
        grow(self, self.client())
        held = table(self, "--as", "keys")
        callers = [Caller(self) for _ in range(8)]
        for number, caller in enumerate(callers):
            caller.send(f"compact copy{number}\n" if number % 2 == 0 else "reload\n")
        self.tell("answers", [caller.answer() for caller in callers], [OK, OK] + [NO_GAIN, OK] * 3)
        self.tell("copies", [(self.folder / f"copy{number}").exists() for number in range(8)], [True] + [False] * 7)
        self.tell("what is held", table(self, "--as", "keys"), held)
        tell_stop(self)

    def test_amid_changes(self):
        """Sixteen clients change sixteen passwords while histories fill, configurations are read anew and journals are
        replaced: each request is answered once, and what is held at the end is what was accepted."""
        names = [f"user{number:02}" for number in range(16)]
        rewrite(self, names, max_entries=7)
        start(self, workers=16)
        orders = Orders(self, lambda turn: f"compact copy{turn}" if turn % 3 else "reload", GOOD.__contains__, PAUSE)
        found = changed_amid(self, names, orders)
        others = {answer for it in found for answer in it} - {CHANGED, FULL}
        self.tell("answers", ([len(it) for it in found], others), ([CHANGES] * 16, set()))
        self.tell("compactions", (orders.answers.count(OK) > 2, set(orders.answers) - GOOD), (True, set()))
        changed = {name: sum(answer == CHANGED for answer in it) for name, it in zip(names, found)}
        newest = {name: versions[0][0] for name, versions in held(self).items()}
        self.tell("what is held", newest, {name: 1 + number for name, number in changed.items()})
        lines = tell_stop(self)
        self.tell("changes", entries_of(lines)[1], sum(changed.values()))

    def test_kills(self):
        """Twenty kills in the midst of changes and compactions: at the next start what was answered is held."""
        clock = SetClock(self.folder)
        rewrite(self, [f"user{it}" for it in range(4)])
        private(self.server.journal)
        before, answered, made, cut, faults = held(self), 0, 0, 0, []
        for number in range(KILLS):
            changers, answers, early = killed_amid(self, number, clock, compactions(self, number))
            faults += [f"run {number}: before the kill: {it}" for it in early]
            start(self, CLOCK=clock.file)
            after = held(self)
            faults += [f"run {number}: {it}" for it in wrong_in_table(changers, before, after)]
            faults += [f"run {number}: {it!r}" for it in answers if it not in (OK, NO_GAIN, "")]
            told(self, "stop")
            self.server.last_words()
            before = after
            answered += sum(it.answered for it in changers)
            made += answers.count(OK)
            cut += answers[-1] == ""
        self.tell(f"{answered} changes and {made} orders answered, {cut} orders cut off: faults", faults, [])
        self.tell("changes, and kills amid orders", (answered >= KILLS, cut > KILLS / 2), (True, True))


if __name__ == "__main__":
    main(__doc__)
