"""Entries that are rare, or can't be read; and databases and logs of changes that can't be had."""

import contextlib
import fcntl
import os
import pathlib
import re
import shutil
import sqlite3
import tempfile
import time

from harness.realm import REALM, Failed
from tests.kdc.agent_case import FIRST, AgentCase
from tests.kdc.agent_database import changed
from tests.kdc.agent_process import Agent, hexed, keys_of, putting

ZEROS = "0" * 64
AES256, AES128 = "aes256-cts-hmac-sha1-96", "aes128-cts-hmac-sha1-96"


class Oddities(AgentCase):
    def test_names_that_no_line_has(self):
        """Names of more than 900 characters, or with an empty component, are left out, and the others listed all the same."""
        good = ["g" * 450, "/".join(["g" * 225, "g" * 224])]
        bad = ["b" * 451, "/".join(["b" * 225, "b" * 225]), "b" * 460, "b//b", "b/", "/b"]
        for name in good + bad:
            self.realm.add(name, FIRST)
        try:
            with self.talking() as line:
                for request in "list", "list keys":
                    found = [it.split()[1] for it in line.listed(request)]
                    self.tell(f"{request}: the longest names", sum(hexed(name) in found for name in good), len(good))
                    self.tell("  names that no line has", [it[:20] for it in found if it not in map(hexed, good) and
                                                            (it.startswith(("62" * 9, "/", "62/")) or it.endswith("/"))], [])
                    self.tell("  others", hexed("alice") in found)
        finally:
            for name in good + bad:
                self.realm.remove(name)

    def test_without_a_key(self):
        """A principal that has no key at all."""
        name = self.name(known=False)
        self.kdc.add_keyless(name, FIRST)
        with self.talking() as line:
            self.tell("no key: get", line.ask(f"get {hexed(name)}"), f"other {hexed(name)} keys")
            self.tell("  list keys", f"other {hexed(name)} keys" in line.listed("list keys"))
            # Heimdal's entry has a version of its own
            self.tell("  list", f"has {hexed(name)} {0 if self.realm.KIND == 'MIT' else 1}" in line.listed())
            self.tell("  put", line.put(name, 3, "Next-pass3"), f"put {hexed(name)} 3")
        self.tell("  the KDC's keys", self.held(name), self.of(name, 3, "Next-pass3"))
        self.tell("  login", self.logs_in(name, "Next-pass3"), [True])

    def test_former_versions(self):
        """Keys of former versions are none of the newest one's."""
        both, lacking = self.name(), self.name()
        self.kdc.keep_and_set(both, "Second-pass2")
        self.kdc.keep_and_set(lacking, "Second-pass2", AES256)
        with self.talking() as line:
            found = line.listed()
            self.tell("two versions: list", [f"has {hexed(name)} 2" in found for name in (both, lacking)], [True, True])
            self.tell("  get", line.ask(f"get {hexed(both)}"), f"has {hexed(both)} 2 {keys_of(both, 'Second-pass2')}")
            self.tell("  get where the newest lacks AES-128", line.ask(f"get {hexed(lacking)}"), f"other {hexed(lacking)} keys")
            self.tell("  put of the same keys", line.put(both, 2, "Second-pass2"), f"put {hexed(both)} 2")
            self.tell("  put of them where the newest lacks AES-128", line.put(lacking, 2, "Second-pass2"), f"put {hexed(lacking)} 3")
            self.tell("  put of the former version's", line.put(both, 1, FIRST), f"put {hexed(both)} 3")

    def test_keys_of_zeros(self):
        """A key that is missing isn't one of zeros."""
        for kept, asked in (AES256, lambda first, _: (first, ZEROS[:32])), (AES128, lambda _, second: (ZEROS, second)):
            name = self.name(known=False)
            self.kdc.add_with(name, FIRST, kept)
            keys = asked(*keys_of(name, FIRST).split())
            with self.talking() as line:
                self.tell(f"{kept} alone: put with zeros for the other", line.ask(f"put {hexed(name)} 1 {' '.join(keys)}"),
                          f"put {hexed(name)} 2")
            self.tell("  the KDC's keys", self.held(name), {(2, 18, keys[0]), (2, 17, keys[1])})

    def test_keys_of_version_0(self):
        """No key has that version for the service: it is told none, and writes others."""
        name = self.name()
        self.kdc.set_kvno(name, 0)
        with self.talking() as line:
            self.tell("keys of version 0: list", f"has {hexed(name)} 0" in line.listed())
            self.tell("  list keys", f"other {hexed(name)} keys" in line.listed("list keys"))
            self.tell("  get", line.ask(f"get {hexed(name)}"), f"other {hexed(name)} keys")
            self.tell("  put of the same", line.put(name, 1, FIRST), f"put {hexed(name)} 1")
            self.tell("  get", line.ask(f"get {hexed(name)}"), f"has {hexed(name)} 1 {keys_of(name, FIRST)}")
        self.tell("  the KDC's keys", self.held(name), self.of(name, 1, FIRST))

    def test_keys_that_cannot_be_had(self):
        """Keys that can't be unsealed, however often one asks: the entry isn't told or written, and all others are."""
        for count, damage in enumerate(self.kdc.damages()):
            name, other = self.name(), self.name()
            self.kdc.edit(name, damage)
            kept = self.kdc.line(name)
            try:
                with self.talking() as line:
                    self.tell(f"keys that can't be had, {count}: get", line.ask(f"get {hexed(name)}"), f"other {hexed(name)} keys")
                    found, names = line.listed("list keys"), line.listed()
                    self.tell("  list keys", [f"other {hexed(name)} keys" in found, len(found) == len(names)], [True, True])
                    self.tell("  list", f"has {hexed(name)} 1" in names)
                    self.tell("  put", [line.put(name, 5, FIRST), line.put(name, 1, FIRST)], [f"refused {hexed(name)} keys"] * 2)
                    self.tell("  the entry is as it was", self.kdc.line(name) == kept)
                    self.tell("  put of another", line.put(other, 2, "Beside-pass2"), f"put {hexed(other)} 2")
            finally:
                self.realm.remove(name)

    def test_a_master_key_that_is_missing(self):
        """It may come, and may be missing for all: asked for again. What is never written isn't looked at."""
        name, reserved = self.name(), "hprop/sealed"
        self.realm.add(reserved, FIRST)
        self.kdc.lose_master_key(reserved)
        try:
            with self.talking() as line:
                found = line.listed("list keys")
                self.tell("the master key of the KDC's own is missing: list keys", f"other {hexed(reserved)} reserved" in found)
                self.kdc.lose_master_key(name)
                self.tell("a master key that is missing: get", line.ask(f"get {hexed(name)}").split()[:2], ["failed", hexed(name)])
                self.tell("  put", line.put(name, 2, FIRST).split()[:2], ["failed", hexed(name)])
                self.tell("  list keys", line.ask("list keys").split()[:2], ["failed", "-"])
                self.tell("  list", f"has {hexed(name)} 1" in line.listed())
        finally:
            for it in name, reserved:
                self.realm.remove(it)

    def test_another_master_key_comes(self):
        """Another database is put in the place of the one that is open, sealed under another master key."""
        with self.elsewhere() as more:
            [config] = map(pathlib.Path, more.values())
            folder, old, text = config.parent, self.realm.folder, config.read_text()
            for name in {"stash", "master-key"} & set(os.listdir(old)):
                shutil.copy(old / name, folder)
                text = text.replace(f"{old}/{name}", f"{folder}/{name}")
            config.write_text(text)
            (folder / "new").mkdir()
            with self.talking(**more) as line:
                self.tell("a database: get", line.ask(f"get {hexed('alice')}").split()[0], "has")
                self.put_another(folder, more)
                self.tell("  another in its place: told", line.told())
                self.tell("  get", line.ask(f"get {hexed('alice')}"), f"has {hexed('alice')} 1 {keys_of('alice', 'Other-pass1')}")

    def test_a_database_that_goes(self):
        """It is taken away and comes back as it was; what fails meanwhile takes no memory."""
        with self.elsewhere() as more:
            folder = next(map(pathlib.Path, more.values())).parent
            data = next(it for it in (folder / "principal", folder / "heimdal.db") if it.exists())
            with self.talking(**more) as line:
                line.ask(f"get {hexed('alice')}")
                data.rename(folder / "away")
                self.tell("the database is taken away: told", line.told())
                found = []
                for count in 30, 500:
                    answers = {line.ask(f"get {hexed('alice')}").split()[0] for _ in range(count)}
                    self.tell("  get", answers, {"failed"})
                    found.append(self.pages(line.agent))
                self.tell("  five hundred failures: pages more", found[1] - found[0] < 60)
                line.quiet(0.5)
                (folder / "away").rename(data)
                # under which name Heimdal's file is to be looked for isn't known before it is there
                self.tell("  it is back: told", line.told(), self.realm.KIND == "MIT")
                self.tell("  get", line.ask(f"get {hexed('alice')}").split()[0], "has")

    def test_words_of_an_error(self):
        """What the library says goes over the line in at most 109 bytes of ASCII, set apart by one space."""
        for folder in "two  spaces", "\u00fcber", "long" * 40:
            with tempfile.TemporaryDirectory(prefix="agent_") as top:
                place = pathlib.Path(top) / folder
                more = self.kdc.configured(pathlib.Path(top), place / "database")
                with self.talking(**more) as line:
                    answer = line.ask(f"get {hexed('alice')}")
            found, name, text = answer.split(" ", 2)
            self.tell(f"no database in {folder[:12]!r}: get", (found, name), ("failed", hexed("alice")))
            self.tell("  ASCII, with single spaces", text == " ".join(text.split()) and text.isascii() and text.isprintable())
            self.tell("  at most 109 bytes", len(text) <= 109)
            self.tell("  which is told", (top if len(folder) > 99 else folder.split()[0].encode("ascii", "ignore").decode()) in text)

    def test_a_reader_beside_it(self):
        """Somebody reads the database for long: it is read, and not written."""
        name = self.name()
        file = self.realm.folder / ("principal.ok" if self.realm.KIND == "MIT" else "heimdal.db")
        with self.talking() as line, file.open("r+b") as opened:
            (fcntl.lockf if self.realm.KIND == "MIT" else fcntl.flock)(opened, fcntl.LOCK_SH | fcntl.LOCK_NB)
            self.tell("somebody reads: get", line.ask(f"get {hexed(name)}").split()[0], "has")
            self.tell("  list keys", line.listed("list keys")[0].split()[0], "has")
            self.tell("  put", line.put(name, 2, FIRST), f"failed {hexed(name)} locked")


class MitOddities(Oddities):
    KIND = "MIT"

    def logging(self, more=""):
        """What an agent and kadmin.local are started with that keep a log of changes."""
        folder = self.realm.folder
        text = (folder / "kdc.conf").read_text()
        config = folder / "logging.conf"
        config.write_text(text.replace("acl_file", f"iprop_enable = true\n iprop_port = 9\n{more} acl_file"))
        return {"KRB5_KDC_PROFILE": str(config)}

    def records(self, name, more):
        return self.realm.run(self.realm.mit, ["kproplog", "-v"], **more).stdout.count(f"Update principal : {name}@")

    def test_entries_that_cannot_be_read(self):
        """An entry whose bytes are damaged: it isn't taken for one that isn't there."""
        name = self.name()
        with self.elsewhere() as more:
            database = pathlib.Path(more["KRB5_KDC_PROFILE"]).parent / "principal"
            data = database.read_bytes()
            # the number of notes in the record after the name, which begins with its length 38
            key = f"{name}@{REALM}".encode() + b"\0"
            place = data.index(key + b"\x26\0") + len(key)
            with database.open("r+b") as file:
                file.seek(place + 34)
                file.write(b"\xff\xff")
            with self.talking(**more) as line:
                self.tell("a damaged entry: get", line.ask(f"get {hexed(name)}").split()[:2], ["failed", hexed(name)])
                self.tell("  put", line.put(name, 2, FIRST).split()[:2], ["failed", hexed(name)])
                self.tell("  list", line.ask("list").split()[:2], ["failed", "-"])
                self.tell("  another", line.ask(f"get {hexed('alice')}").split()[0], "has")

    def test_a_locked_log(self):
        """It is written after the database: a change of which there is no record isn't taken for done."""
        name, more = self.name(), self.logging()
        self.realm.run(self.realm.mit, ["kadmin.local", "modprinc", "-maxlife", "3 hours", name], **more)
        before = self.records(name, more)
        with self.talking(**more) as line, (self.realm.folder / "principal.ulog").open("r+b") as log:
            fcntl.lockf(log, fcntl.LOCK_EX)
            self.tell("the log of changes is locked: put", line.put(name, 2, "Logged-pass2"), f"failed {hexed(name)} locked")
            fcntl.lockf(log, fcntl.LOCK_UN)
            answer = line.put(name, 2, "Logged-pass2")
            self.tell("  and then", answer.split()[:2], ["put", hexed(name)])
            self.tell("  records in it", self.records(name, more), before + 1)
        self.tell("  the KDC's keys", self.held(name), self.of(name, int(answer.split()[2]), "Logged-pass2"))

    def put_another(self, folder, more):
        text = pathlib.Path(more["KRB5_KDC_PROFILE"]).read_text()
        (folder / "new/conf").write_text(text.replace(f"{folder}/", f"{folder}/new/"))
        new = {"KRB5_KDC_PROFILE": str(folder / "new/conf")}
        for words in ["kdb5_util", "create", "-s", "-r", REALM, "-P", "Other-master1"], ["kadmin.local", "addprinc", "-pw", "Other-pass1", "alice"]:
            self.realm.run(self.realm.mit, words, **new)
        for file in *(folder / "new").glob("principal*"), folder / "new/stash":
            file.replace(folder / file.name)

    def test_a_policy_that_cannot_be_read(self):
        """Nobody knows how long its passwords may be used, or which one it is: nothing is written."""
        name = self.name()
        self.kdc.give_policy(name)
        self.kdc.kadmin("modprinc", "-pwexpire", "2031-01-01", name)
        with self.elsewhere() as more:
            policies = pathlib.Path(more["KRB5_KDC_PROFILE"]).parent / "principal.kadm5"
            # the number of the form, with which each begins
            policies.write_bytes(policies.read_bytes().replace(b"\x12\x34\x5d", b"\0\0\0"))
            with self.talking(**more) as line:
                before = self.kdc.project("get", name, **more)
                self.tell("a damaged policy: put", line.put(name, 2, FIRST), f"refused {hexed(name)} keys")
                self.tell("  the entry is as it was", self.kdc.project("get", name, **more) == before)
                self.tell("  get", line.ask(f"get {hexed(name)}").split()[:3], ["has", hexed(name), "1"])
                self.tell("  put of another", line.put("alice", 2, FIRST), f"put {hexed('alice')} 2")
        with self.elsewhere() as more:
            database = pathlib.Path(more["KRB5_KDC_PROFILE"]).parent / "principal"
            # the number of the form of the entry's note of the policy's name
            note = b"\x12\x34\x5c\x01\0\0\0\x06usual"
            database.write_bytes(database.read_bytes().replace(note, bytes(4) + note[4:]))
            with self.talking(**more) as line:
                self.tell("a damaged note of a policy: put", line.put(name, 2, FIRST), f"refused {hexed(name)} keys")
                self.tell("  get", line.ask(f"get {hexed(name)}").split()[:3], ["has", hexed(name), "1"])

    def test_a_master_key_of_another_name(self):
        """The configuration names the entry that has the master key: others are sealed by it, and it is never written."""
        with tempfile.TemporaryDirectory(prefix="agent_") as top:
            folder = pathlib.Path(top)
            text = (self.realm.folder / "kdc.conf").read_text().replace(f"{self.realm.folder}/", f"{folder}/")
            (folder / "conf").write_text(text.replace("acl_file", "master_key_name = master\n acl_file"))
            more = {"KRB5_KDC_PROFILE": f"{folder}/conf"}
            self.realm.run(self.realm.mit, ["kdb5_util", "create", "-s", "-r", REALM, "-P", "Other-master1"], **more)
            # its own lock would keep it, too
            for words in ["addprinc", "-pw", FIRST, "alice"], ["modprinc", "-lockdown_keys", "master"]:
                self.realm.run(self.realm.mit, ["kadmin.local", *words], **more)
            kept = self.kdc.project("get", "master", **more)
            self.tell("a master key of another name: there is one", kept.startswith(f"Principal: master@{REALM}"))
            with self.talking(**more) as line:
                self.tell("  put", line.put("alice", 2, "Next-pass2"), f"put {hexed('alice')} 2")
                found = self.kdc.project("get", "alice", **more)
                self.tell("  the KDC's version, and the master key's", (self.kdc.shows_version(2, found), "MKey: vno 1" in found), (True, True))
                self.tell("  get", line.ask(f"get {hexed('alice')}"), f"has {hexed('alice')} 2 {keys_of('alice', 'Next-pass2')}")
                self.tell("  list keys", f"other {hexed('master')} lockdown" in line.listed("list keys"))
                self.tell("  put of itself", line.put("master", 9, "Bad-pass9"), f"refused {hexed('master')} lockdown")
            self.tell("  it is as it was", self.kdc.project("get", "master", **more) == kept)

    def test_a_log_that_is_replaced(self):
        """It is removed, and kadmin makes another: what is written from then on goes into that one."""
        name, more = self.name(), self.logging()
        with self.talking(**more) as line:
            self.tell("a log of changes: put", line.put(name, 2, "Logged-pass2"), f"put {hexed(name)} 2")
            (self.realm.folder / "principal.ulog").unlink()
            self.realm.run(self.realm.mit, ["kadmin.local", "modprinc", "-maxlife", "3 hours", "mallory"], **more)
            self.tell("  another in its place: records of it", self.records(name, more), 0)
            self.tell("  put", line.put(name, 3, "Logged-pass3"), f"put {hexed(name)} 3")
            self.tell("  records in it", self.records(name, more), 1)
        self.tell("  the KDC's keys", self.held(name), self.of(name, 3, "Logged-pass3"))

    def test_a_log_that_comes_later(self):
        """Without its log the database isn't open, neither at the start nor after a failure."""
        name, folder = self.name(), self.realm.folder / "logs"
        more = self.logging(f" iprop_logfile = {folder}/changes\n")
        with Agent(self.realm, **more) as agent, agent.connected() as line:
            self.tell("no log of changes: told", agent.told("the database can't be opened: ", 1), 1)
            for request in f"get {hexed(name)}", "list", putting(name, 2, "Later-pass2"):
                self.tell(f"  {request.split()[0]}", line.ask(request).split()[0], "failed")
            folder.mkdir()
            self.tell("  it can be made: put", line.put(name, 2, "Later-pass2"), f"put {hexed(name)} 2")
            self.tell("  records in it", self.records(name, more), 1)


class HeimdalOddities(Oddities):
    KIND = "Heimdal"

    def test_entries_that_cannot_be_read(self):
        """An entry whose bytes are damaged, in either kind of database: it isn't taken for one that isn't there."""
        name = self.name()
        with self.elsewhere() as more:
            database = pathlib.Path(more["KRB5_CONFIG"]).parent / "heimdal.db"
            data = bytearray(database.read_bytes())
            # the length of the version, which stands after the name and the realm
            place = data.index(f"{REALM}".encode() + b"\xa1\x03\x02\x01", data.index(name.encode() + b"\xa1")) + len(REALM) + 3
            data[place] = 9
            database.write_bytes(data)
            with self.talking(**more) as line:
                self.tell("a damaged entry: get", line.ask(f"get {hexed(name)}").split()[:2], ["failed", hexed(name)])
                self.tell("  put", line.put(name, 2, FIRST).split()[:2], ["failed", hexed(name)])
                self.tell("  another", line.ask(f"get {hexed('alice')}").split()[0], "has")
        with self.of_sqlite() as more:
            database = pathlib.Path(more["KRB5_CONFIG"]).parent / "data"
            with sqlite3.connect(database) as data:
                data.execute("UPDATE Entry SET data = x'3003020101' WHERE id = (SELECT entry FROM Principal WHERE principal LIKE 'dora@%')")
            data.close()
            with self.talking(**more) as line:
                self.tell("another: get", line.ask(f"get {hexed('alice')}").split()[0], "has")
                self.tell("a damaged entry: get", line.ask(f"get {hexed('dora')}").split()[:2], ["failed", hexed("dora")])
                self.tell("  put", line.put("dora", 2, FIRST).split()[:2], ["failed", hexed("dora")])
                self.tell("  another", line.ask(f"get {hexed('alice')}").split()[0], "has")

    @contextlib.contextmanager
    def of_sqlite(self):
        """What an agent and kadmin are started with for a database of SQLite's."""
        with tempfile.TemporaryDirectory(prefix="agent_") as folder:
            shutil.copy(self.realm.folder / "log", folder)
            more = self.kdc.configured(pathlib.Path(folder), f"sqlite:{folder}/data")
            self.make(["init", "--realm-max-ticket-life=1d", "--realm-max-renewable-life=1w", REALM], more)
            for name in "alice", "dora":
                self.make(["add", "--use-defaults", f"--password={FIRST}", name], more)
            yield more

    def test_a_locked_log(self):
        """Each writer locks it: nothing is written."""
        name = self.name()
        kept = self.state(name)
        with self.talking() as line, (self.realm.folder / "log").open("r+b") as log:
            fcntl.flock(log, fcntl.LOCK_EX)
            self.tell("the log of changes is locked: put", line.put(name, 2, "Logged-pass2"), f"failed {hexed(name)} locked")
            self.tell("  get", line.ask(f"get {hexed(name)}").split()[0], "has")
            fcntl.flock(log, fcntl.LOCK_UN)
            self.tell("  nothing is written", self.state(name) == kept)
            self.tell("  and then", line.put(name, 2, "Logged-pass2"), f"put {hexed(name)} 2")

    def put_another(self, folder, more):
        config = pathlib.Path(more["KRB5_CONFIG"])
        new = {"KRB5_CONFIG": str(folder / "new/conf")}
        (folder / "new/conf").write_text(re.sub("((mkey|log)_file|dbname) = .*/", rf"\1 = {folder}/new/", config.read_text()))
        self.realm.run([f"{self.realm.heimdal.folder}/usr/sbin/kstash", "--random-key", f"--key-file={folder}/new/master-key"])
        self.make(["init", "--realm-max-ticket-life=1d", "--realm-max-renewable-life=1w", REALM], new)
        self.make(["add", "--use-defaults", "--password=Other-pass1", "alice"], new)
        for name in "master-key", "heimdal.db":
            (folder / "new" / name).replace(folder / name)

    def make(self, words, more):
        done = self.realm.run(["kadmin.heimdal", "-l", *words], **more)
        if done.stderr:
            raise Failed(f"{words}: {done.stderr}")

    def test_two_keys_of_a_type(self):
        """Of two keys of a type the first counts, as it does for the KDC."""
        name = self.name()
        salt = f'3/"{REALM}{name}"'

        def change(line):
            words = line.split(" ")
            words[1] += f":-:18:{'22' * 32}:{salt}"
            return " ".join(words)

        self.kdc.edit(name, change)
        with self.talking() as line:
            self.tell("a second key of AES-256: get", line.ask(f"get {hexed(name)}"),
                      f"has {hexed(name)} 1 {keys_of(name, FIRST)}")

    def test_keys_without_a_salt(self):
        """That a key has the default salt needn't be said; one of another kind is none."""
        name, other = self.name(), self.name()
        self.kdc.edit(name, lambda line: line.replace(f':3/"{REALM}{name}"', ":-"))
        self.kdc.edit(other, lambda line: line.replace(f':3/"{REALM}{other}"', f':10/"{REALM}{other}"'))
        with self.talking() as line:
            self.tell("no salt is said: get", line.ask(f"get {hexed(name)}"), f"has {hexed(name)} 1 {keys_of(name, FIRST)}")
            self.tell("the same salt of another kind: get", line.ask(f"get {hexed(other)}"), f"other {hexed(other)} keys")

    def test_nobody_changed_it(self):
        """An entry that doesn't say who changed it."""
        name = self.name()
        self.kdc.edit(name, lambda line: changed(line, 3, lambda _: "-"))
        with self.talking() as line:
            self.tell("an entry that nobody has changed: put", line.put(name, 2, "Next-pass2"), f"put {hexed(name)} 2")
        self.tell("  who changed it", "Modifier: kadmin/admin@" in self.kdc.entry(name))

    def test_without_a_log(self):
        """The log of changes is turned off: what others write is told by the database's file."""
        for what in self.elsewhere, self.of_sqlite:
            with what() as more:
                config = pathlib.Path(more["KRB5_CONFIG"])
                config.write_text(re.sub("log_file = .*", "log_file = /dev/null", config.read_text()))
                with self.talking(**more) as line:
                    self.others_right_after_ours(line, more)

    def others_right_after_ours(self, line, more):
        for kvno in 2, 4, 6:
            self.tell("no log of changes: put", line.put("alice", kvno, f"Own-pass{kvno}"), f"put {hexed('alice')} {kvno}")
            # not within the same tick
            time.sleep(0.03)
            self.kdc.project("change", "alice", **more)
            self.tell("  another's write right after it: told", line.told())
            self.tell("  and not again", line.quiet(0.6))
        self.tell("  an own write", line.put("alice", 50, "Own-pass50"), f"put {hexed('alice')} 50")
        self.tell("  is not told", line.quiet(0.6))
