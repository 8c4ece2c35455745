"""A configuration that is read anew while the service runs.

What a reload is answered and what it keeps is what docs/PROTOCOL has (Reload). A configuration is read while it is being
written, while histories fill, after a journal that has failed, and while the service is killed. The clock of the day
stands still where a case sets it (machine.c). Needs gcc.
"""

import itertools
import os
import re
import resource
import threading
import time

from harness.cases import main, named
from harness.asking import request_now
from harness.controlling import NO_CHANGE, OK, ONE_CHANGE, Caller, ask, entries_of, logged, rewrite, start, status, tell_end
from harness.controlling import tell_stop, told, written
from harness.journal import read_journal
from harness.kept import wrong_in_journal
from harness.killing import killed_amid
from harness.log_lines import events
from harness.orders import CHANGES, Orders, changed_amid
from harness.sample_realm import SERVICE_KEY
from harness.server import private
from harness.serving import ALICES, CHANGED, REPLAYED, START, Hold, SetClock, request, ServiceCase

# a service key beside the sample's
LATER_KEY = b"\x6b" * 32
FULL = "code 2 error 60 history full"
JOURNAL_FAILED = "code 2 journal failed"
# how often the service is killed
KILLS = 20
# seconds between two reloads
PAUSE = 0.02

# what is told of a record whose principal the configuration lacks
MISSING = "but no such principal in the configuration, or removed before this record"
REFUSED = [
    ("another realm", [("EXAMPLE.COM", "OTHER.COM")], "error: another realm: OTHER.COM, not EXAMPLE.COM\n"),
    ("other keys", [("11" * 16, "13" * 16)], "error: other keys of alice\n"),
    ("no TOML", [("[policy]", "[policy")], "error: TOML parse error"),
    ("a bad number", [("depth = 3", "depth = 17")], "error: [policy]: depth must be"),
    ("the changed one is gone", [('name = "alice"', 'name = "carol"')], f"error: J3 at 1: alice: version 2, {MISSING}\n"),
]


def numbered(name, records):
    """Each version of the principal is one above the one before it."""
    versions = [it.kvno for it in records if it.name == name]
    return versions == list(range(2, 2 + len(versions)))


def write_in_pieces(path, text, cut_first):
    """Writes a file anew in its place, some bytes at a time: over what stands there, or after cutting it off."""
    with open(path, "wb" if cut_first else "r+b", buffering=0) as file:
        for place in range(0, len(text), 60):
            file.write(text[place : place + 60].encode())
            time.sleep(0.0002)
        file.truncate()


def write_until(path, texts, done):
    for turn in itertools.count():
        if done.is_set():
            return
        write_in_pieces(path, texts[turn % 2], turn % 4 < 2)
        time.sleep(0.003)


def is_whole(answer):
    """Lines of principals that the file lacks, and `ok`; or one line that says why not."""
    *lines, last = answer.splitlines()
    if last == "ok":
        return all(re.fullmatch("lacked (alice|bob|carol)", line) for line in lines)
    return not lines and last.startswith("error: ")


def reloading(case, texts):
    """Has one or the other of two configurations read until the service is gone."""
    def order(turn):
        whole = private(case.folder / "whole.toml")
        whole.write_text(texts[turn % 2])
        os.replace(whole, case.server.configuration)
        return "reload"

    return Orders(case, order, lambda it: it.endswith(OK))


class Reloads(ServiceCase):
    def test_a_new_user(self):
        """A reload adds a principal; the connection that is open goes on, and no replay passes."""
        clock = SetClock(self.folder)
        start(self, CLOCK=clock.file, options=["--log", "log"])
        client = self.client()
        first = request("alice")
        self.tell("a change", client.ask(first), CHANGED)
        carol = request("carol")
        self.tell("carol, before", client.ask(carol), "code 2 no such principal")
        rewrite(self, ("alice", "bob", "carol"))
        self.tell("reload", told(self, "reload"), (OK, 0))
        self.tell("the change again", client.ask(first), REPLAYED)
        self.tell("carol's again", client.ask(carol), REPLAYED)
        self.tell("carol, after it", client.ask(request("carol", cusec=8)), CHANGED)
        self.tell("alice's old password", client.ask(request("alice", START, "New-pass2", 9)),
                  "code 4 password used before")
        values = status(self)
        self.tell("counts", [values[it] for it in ("principals", "entries", "changes", "all-entries", "all-changes")],
                  ["3", "4", "1", "6", "2"])
        self.tell("the log", logged(self),
                  ["started principals 2 iterations 4 quiet-until -", "reloaded principals 3 iterations 4"])
        tell_end(self, "entries 2 changes 1", "entries 4 changes 1")

    def test_a_new_service_key(self):
        """Tickets under the former key go on beside those under the new one, and end with it."""
        start(self)
        client = self.client()
        self.tell("the former key", client.ask(request_now("alice", "New-pass2", 1)), CHANGED)
        both = f'[[service.key]]\nkvno = 4\netype = 18\nkey = "{LATER_KEY.hex()}"\n[policy]'
        rewrite(self, change=[("[policy]", both)])
        self.tell("reload", told(self, "reload"), (OK, 0))
        later = {"service": LATER_KEY, "kvno": 4}
        self.tell("the new one", client.ask(request_now("alice", "New-pass3", 2, **later)), CHANGED)
        self.tell("the former one", client.ask(request_now("alice", "New-pass4", 3)), CHANGED)
        rewrite(self, change=[("kvno = 3", "kvno = 4"), (SERVICE_KEY.hex(), LATER_KEY.hex())])
        self.tell("reload", told(self, "reload"), (OK, 0))
        self.tell("the new one alone", client.ask(request_now("alice", "New-pass5", 4, **later)), CHANGED)
        self.tell("the former one no more", client.ask(request_now("bob", "New-pass5", 5)).startswith("code 3 error 44"),
                  True)
        tell_end(self, ONE_CHANGE, "entries 2 changes 2", "entries 1 changes 1")

    def test_new_rules(self):
        """Policy, limit of entries and iteration count are those of the file from then on; the count doesn't fall."""
        start(self)
        client = self.client()
        self.tell("six letters", client.ask(request_now("alice", "Pass-1", 1)), CHANGED)
        rewrite(self, max_entries=1,
                change=[("min_length = 6", "min_length = 7"), ("iterations = 4\nset", "iterations = 8\nset")])
        self.tell("reload", told(self, "reload"), (OK, 0))
        self.tell("the count", status(self)["iterations"], "8")
        self.tell("six are too few", client.ask(request_now("alice", "Pass-2", 2)),
                  "code 4 password too short")
        self.tell("seven", client.ask(request_now("alice", "Pass-22", 3)), CHANGED)
        rewrite(self)
        self.tell("reload", told(self, "reload"), (OK, 0))
        self.tell("the count stays", status(self)["iterations"], "8")
        records, _ = read_journal(self.server.journal.read_bytes())
        self.tell("the journal", [it.iterations for it in records], [4, 8])
        tell_stop(self)

    def test_refused(self):
        """A file with a fault, or one that doesn't go with what is held, changes nothing."""
        start(self)
        client = self.client()
        self.tell("a change", client.ask(request_now("alice", "New-pass2", 1)), CHANGED)
        for what, change, wanted in REFUSED:
            rewrite(self, change=change)
            text, code = told(self, "reload")
            self.tell(what, (text[: len(wanted)], code), (wanted, 1))
        self.server.configuration.unlink()
        self.tell("no file", told(self, "reload"), (f"error: cannot read {self.server.configuration}\n", 1))
        self.tell("it goes on", client.ask(request_now("bob", "New-pass2", 2)), CHANGED)
        self.tell("its last line", tell_stop(self)[-1], ONE_CHANGE)

    @named("a refused reload's history")
    def test_a_refused_reload_s_history(self):
        """What is found to stand against a reload once the history is closed: the next one begins as after a full one,
        with the table as it was."""
        start(self, options=["--log", "log"])
        client = self.client()
        self.tell("a change", client.ask(request_now("alice", "New-pass2", 1)), CHANGED)
        rewrite(self, change=[("EXAMPLE.COM", "OTHER.COM")])
        self.tell("reload", ask(self, "reload"), "error: another realm: OTHER.COM, not EXAMPLE.COM\n")
        self.tell("the same password", client.ask(request_now("alice", "New-pass2", 2)), "code 4 password used before")
        values = status(self)
        self.tell("how it stands", [values[it] for it in ("entries", "changes", "all-entries", "all-changes")],
                  ["1", "0", "2", "1"])
        self.tell("the log", logged(self)[1:], ["rolled-over entries 1 changes 1"])
        tell_end(self, ONE_CHANGE, "entries 1 changes 0")

    def test_a_lacked_principal(self):
        """A principal that the file lacks stays, and that is told; once it has changed its password no start is possible
        over that file."""
        start(self)
        rewrite(self, ["alice"])
        self.tell("reload", told(self, "reload"), (f"lacked bob\n{OK}", 0))
        self.tell("bob", self.client().ask(request_now("bob", "New-pass2", 1)), CHANGED)
        self.tell("reload once more", told(self, "reload"), (f"error: J3 at 1: bob: version 2, {MISSING}\n", 1))
        words = "principals missing from the configuration: 1; the service cannot start once one of them changes its password"
        tell_end(self, NO_CHANGE, ONE_CHANGE, words)
        self.launch(1, options=["--control", "control"])
        words = ["journal: J3 at 1", f"{self.server.journal}: at 1: bob: version 2, {MISSING}"]
        self.tell("a start", self.server.last_words(), "\n".join(words))

    def test_taken_back(self):
        """A principal that was taken out comes back as it stood, also where only its newest key was kept meanwhile; its older
        keys count again. One that comes back without a key that is held, or with another one, doesn't."""
        older = '[[principal.key]]\nkvno = 3\niterations = 4\naes128 = "{0}"\naes256 = "{0}{0}"\n[[principal.key]]\nkvno = 2'
        keys = ("[[principal.key]]\nkvno = 1", older.format("33" * 16) + '\niterations = 4\naes128 = "{0}"\naes256 = "{0}{0}"\n'
                .format("32" * 16) + "[[principal.key]]\nkvno = 1")
        three = written(["alice"]).replace(*keys)
        rest = written(["bob"]).split("[[principal]]", 1)[1]
        stood = f"{three}\n[[principal]]{rest}"
        oldest = three[three.index("[[principal.key]]\nkvno = 1"):]
        without = written(["bob"])
        self.server.configuration.write_text(stood)
        start(self)
        for what, text, wanted in (
            ("without her, and one key kept", without.replace("depth = 3", "depth = 1"), (f"lacked alice\n{OK}", 0)),
            ("three keys kept again", without, (f"lacked alice\n{OK}", 0)),
            ("another newest key", stood.replace("33" * 16, "34" * 16), ("error: other keys of alice\n", 1)),
            ("as she stood", stood, (OK, 0)),
            ("without an older key", stood.replace(oldest, "", 1), ("error: other keys of alice\n", 1)),
            ("another older key", stood.replace("32" * 16, "35" * 16), ("error: other keys of alice\n", 1)),
        ):
            self.server.configuration.write_text(text)
            self.tell(what, told(self, "reload"), wanted)
        tell_stop(self)

    def test_twice_at_once(self):
        """Both have their answers."""
        start(self)
        callers = [Caller(self) for _ in range(8)]
        for caller in callers:
            caller.send("reload\n")
        self.tell("answers", [caller.answer() for caller in callers], [OK] * 8)
        self.tell("a change", self.client().ask(request_now("alice", "New-pass2", 1)), CHANGED)
        tell_stop(self)

    def test_amid_changes(self):
        """Sixteen clients change sixteen passwords while histories fill and configurations are read anew: each request is
        answered once, and the journal has just those that were accepted."""
        names = [f"user{number}" for number in range(16)]
        rewrite(self, names, max_entries=7)
        start(self, workers=16)
        reloader = Orders(self, lambda _: "reload", lambda it: it == OK, PAUSE)
        found = changed_amid(self, names, reloader)
        self.tell("each is answered", [len(it) for it in found], [CHANGES] * 16)
        others = {answer for it in found for answer in it} - {CHANGED, FULL}
        self.tell("no other answers", others, set())
        self.tell("reloads", (len(reloader.answers) > 2, set(reloader.answers)), (True, {OK}))
        records, torn = read_journal(self.server.journal.read_bytes())
        changed = {name: sum(answer == CHANGED for answer in it) for name, it in zip(names, found)}
        self.tell("the journal", {name: sum(it.name == name for it in records) for name in names}, changed)
        self.tell("  in order", all(numbered(name, records) for name in names), True)
        values = status(self)
        self.tell("all changes", values["all-changes"], str(sum(changed.values())))
        lines = tell_stop(self)
        self.tell("the tallies together", entries_of(lines), (int(values["all-entries"]), int(values["all-changes"])))

    def test_a_file_that_changes(self):
        """The file is written anew, in its place and in pieces, while it is read again and again: each reload has an answer,
        no principal goes that was there once, and a change is never refused."""
        texts = [written(["alice", "bob"]), written(["carol", "bob", "alice"], max_entries=1_000)]
        start(self, options=["--log", "log"])
        client, done = self.client(), threading.Event()
        self.tell("a change", client.ask(request_now("alice", "Pass-00", 1)), CHANGED)
        writer = threading.Thread(target=write_until, args=(self.server.configuration, texts, done))
        writer.start()
        answers, changes, principals = [], [], []
        for turn in range(1, 101):
            answers.append(ask(self, "reload"))
            if turn % 5 == 0:
                changes.append(client.ask(request_now("alice", f"Pass-{turn:02}", 1 + turn)))
            principals.append(int(status(self)["principals"]))
        done.set()
        writer.join()
        good = sum(answer.endswith(OK) for answer in answers)
        self.tell(f"answers ({good} done)", [answer for answer in answers if not is_whole(answer)], [])
        self.tell("some of either kind", 0 < good < len(answers), True)
        self.tell("changes", changes, [CHANGED] * 20)
        self.tell("principals", principals == sorted(principals) and principals[0] >= 2, True)
        write_in_pieces(self.server.configuration, texts[1], True)
        self.tell("the whole file", ask(self, "reload"), OK)
        self.tell("carol", client.ask(request_now("carol", "New-pass2", 200)), CHANGED)
        told_reloads = sum(it.startswith("reloaded ") for it in logged(self))
        self.tell("the log's reloads", told_reloads, good + 1)
        tell_stop(self)
        records, torn = read_journal(self.server.journal.read_bytes())
        self.tell("the journal", ([it.kvno for it in records if it.name == "alice"], len(records), torn),
                  (list(range(2, 23)), 22, b""))
        start(self)
        self.tell("a later start", status(self)["principals"], "3")
        tell_end(self, NO_CHANGE)

    def test_a_history_that_fills_after(self):
        """A history fills with what its worker has in hand when the configuration was read already: the next one opens with
        the new configuration, and there is none between."""
        hold, clock = Hold(self.folder, "worker"), SetClock(self.folder)
        rewrite(self, max_entries=1)
        start(self, CLOCK=clock.file, HELD=hold.file, options=["--log", "log"])
        hold.hold()
        client, other = self.client(), self.client()
        sent = [request("alice"), request("carol")]
        client.send(sent[0])
        hold.wait()
        other.send(sent[1])
        rewrite(self, ["alice", "bob", "carol"])
        caller = Caller(self)
        caller.send("reload\n")
        # so that it waits for the history's end alone
        time.sleep(1)
        hold.free()
        self.tell("reload", caller.answer(), OK)
        self.tell("answers", [client.told(sent[0]), other.told(sent[1])], [CHANGED] * 2)
        tell_end(self, ONE_CHANGE, ONE_CHANGE)
        self.tell("the log", logged(self)[1:], ["reloaded principals 3 iterations 4", "ended entries 2 changes 2"])

    def test_a_change_after_the_reading(self):
        """A change that comes when the journal has been read, but before the rest of it is looked for, is part of that rest:
        the reload is done, and the change is held."""
        seek = Hold(self.folder, "seek")
        start(self, SEEK=seek.file)
        client = self.client()
        self.tell("a change", client.ask(request_now("alice", "Pass-1", 1)), CHANGED)
        seek.hold()
        caller = Caller(self)
        caller.send("reload\n")
        seek.wait()
        self.tell("a change after", client.ask(request_now("alice", "Pass-2", 2)), CHANGED)
        seek.free()
        self.tell("reload", caller.answer(), OK)
        self.tell("its password again", client.ask(request_now("alice", "Pass-2", 3)), "code 4 password used before")
        tell_end(self, "entries 2 changes 2", "entries 1 changes 0")

    def test_a_pipe(self):
        """A configuration that is a pipe by now is refused before it is opened, and nobody waits."""
        start(self)
        self.server.configuration.unlink()
        os.mkfifo(self.server.configuration)
        answer = f"error: cannot read {self.server.configuration}\n"
        self.tell("answers", [ask(self, it) for it in ("reload", "compact copy")], [answer] * 2)
        self.tell("a change", self.client().ask(request_now("alice", "New-pass2", 1)), CHANGED)
        tell_end(self, ONE_CHANGE)

    def test_a_failed_journal(self):
        """A journal that takes one record and a part of the next, by a limit on the file's length, has failed: a reload is
        done and keeps that, and so does one after a file that is refused."""
        self.server.options = ["--control", "control", "--log", "-"]
        unlimited = resource.getrlimit(resource.RLIMIT_FSIZE)
        resource.setrlimit(resource.RLIMIT_FSIZE, (ALICES + 20, unlimited[1]))
        self.server.launch(100, cwd=self.folder)
        resource.setrlimit(resource.RLIMIT_FSIZE, unlimited)
        self.server.listens()
        client = self.client()
        self.tell("changes", [client.ask(request_now("alice", f"Pass-{it}", 1 + it)) for it in range(2)],
                  [CHANGED, JOURNAL_FAILED])
        missing = f"error: J3 at 1: alice: version 2, {MISSING}\n"
        for what, names, answer in (("reload", ["alice", "bob", "carol"], OK), ("refused", ["bob"], missing)):
            rewrite(self, names)
            self.tell(what, ask(self, "reload"), answer)
            values = status(self)
            self.tell("  how it stands", (values["journal"], values["principals"]), ("failed: file too large", "3"))
            self.tell("  carol", client.ask(request_now("carol", "New-pass2", len(names))), JOURNAL_FAILED)
        self.tell("alice's present password", client.ask(request_now("alice", "Pass-0", 8)), "code 4 password used before")
        self.tell("her other one", client.ask(request_now("alice", "Pass-1", 9)), JOURNAL_FAILED)
        lines = tell_stop(self)
        said = f"{self.server.journal}: journal failed: file too large: no change is accepted until a restart"
        self.tell("told once", lines.count(said), 1)
        self.tell("the log", events("\n".join(lines))[1:],
                  ["journal-failed", "reloaded principals 3 iterations 4", "ended entries 6 changes 1"])
        records, torn = read_journal(self.server.journal.read_bytes())
        self.tell("the journal", ([it.kvno for it in records], len(torn)), ([2], 20))

    def test_a_pipe_for_a_journal(self):
        """A journal whose name a pipe has by now holds up no reload, and nobody after it; changes go on in the journal."""
        start(self, options=["--log", "log"])
        self.tell("a change", self.client().ask(request_now("alice", "New-pass2", 1)), CHANGED)
        self.server.journal.rename(self.folder / "moved")
        os.mkfifo(self.server.journal)
        answer = f"error: cannot read {self.server.journal}\n"
        callers = [Caller(self) for _ in range(3)]
        for caller, order in zip(callers, ("reload", "compact copy", "reopen-log")):
            caller.send(f"{order}\n")
        self.tell("answers", [it.answer() for it in callers], [answer, answer, OK])
        self.tell("a change", self.client().ask(request_now("bob", "New-pass2", 2)), CHANGED)
        tell_stop(self)
        records, _ = read_journal((self.folder / "moved").read_bytes())
        self.tell("the journal", [it.name for it in records], ["alice", "bob"])

    def test_kills(self):
        """Twenty kills in the midst of changes and reloads: at the next start each change that was answered is in the
        journal, in order. One journal grows over all of them."""
        clock, names = SetClock(self.folder), [f"user{it}" for it in range(4)]
        later = f'[[service.key]]\nkvno = 4\netype = 18\nkey = "{LATER_KEY.hex()}"\n[policy]'
        texts = [written(names), written([*names, "carol"], [("[policy]", later)])]
        self.server.configuration.write_text(texts[1])
        before, answered, reloads, cut, faults = b"", 0, 0, 0, []
        for number in range(KILLS):
            changers, answers, early = killed_amid(self, number, clock, reloading(self, texts))
            faults += [f"run {number}: before the kill: {it}" for it in early]
            self.server.configuration.write_text(texts[1])
            start(self, CLOCK=clock.file)
            after = self.server.journal.read_bytes()
            faults += [f"run {number}: {it}" for it in wrong_in_journal(changers, before, after, iterations=4)]
            faults += [f"run {number}: {it!r}" for it in answers if it not in (OK, "", "lacked carol\nok\n")]
            told(self, "stop")
            self.server.last_words()
            before = after
            answered += sum(it.answered for it in changers)
            reloads += sum(it.endswith(OK) for it in answers)
            cut += answers[-1] == ""
        self.tell(f"{answered} changes and {reloads} reloads answered, {cut} reloads cut off: faults", faults, [])
        self.tell("changes, and kills amid reloads", (answered >= KILLS, cut > KILLS / 2), (True, True))

    def test_stopped_amid_a_reload(self):
        """Whoever asked for a reload is answered where the service is to end meanwhile, and so is who asked for that."""
        hold, clock = Hold(self.folder, "worker"), SetClock(self.folder)
        start(self, CLOCK=clock.file, HELD=hold.file)
        hold.hold()
        client = self.client()
        sent = request("alice")
        client.send(sent)
        hold.wait()
        reloading, stopping = Caller(self), Caller(self)
        reloading.send("reload\n")
        time.sleep(0.5)
        stopping.send("stop\n")
        time.sleep(0.5)
        hold.free()
        self.tell("answers", (client.told(sent), reloading.answer(), stopping.answer()), (CHANGED, OK, OK))
        lines = self.server.last_words().splitlines()
        self.tell("its end", (entries_of(lines), self.server.process.returncode), ((1, 1), 0))


if __name__ == "__main__":
    main(__doc__)
