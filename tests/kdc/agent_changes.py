"""`changed`: told whenever somebody else wrote, and never for an own write; locks; loaded databases; servers beside it."""

import contextlib
import fcntl
import os
import random
import re
import select
import subprocess
import threading
import time

from harness.ports import free_ports
from harness.realm import REALM
from tests.kdc.agent_case import FIRST, AgentCase
from tests.kdc.agent_process import Agent, hexed, keys_of, preload, putting
from tests.kdc.at_kdc import at
from tests.kdc.daemons import daemon


class Writer:
    """The project's kadmin, kept open, whose writes begin at once and end some milliseconds later."""

    def __init__(self, realm):
        self.is_mit = realm.KIND == "MIT"
        project = realm.mit if self.is_mit else realm.heimdal
        command = [project.program("kadmin.local")] if self.is_mit else [project.program("kadmin.heimdal"), "-l"]
        environment = realm.environment(realm.mit) if self.is_mit else realm.environment()
        self.process = subprocess.Popen(
            ["stdbuf", "-oL", "-eL", *command], stdin=subprocess.PIPE, stdout=subprocess.PIPE, stderr=subprocess.STDOUT,
            env=environment, start_new_session=True,
        )
        self.rest = b""

    def __enter__(self):
        return self

    def __exit__(self, *_):
        self.process.stdin.close()
        self.process.wait(timeout=20)

    def begin(self, name, password):
        cpw, get = (f"cpw -pw {password} {name}", "getprinc nobody") if self.is_mit else \
                   (f"passwd --password={password} {name}", "get nobody")
        # the second is answered by a line once the first is done
        self.process.stdin.write(f"{cpw}\n{get}\n".encode())
        self.process.stdin.flush()

    def say(self, command):
        self.process.stdin.write(f"{command}\n".encode())
        self.process.stdin.flush()

    def hold(self):
        """Takes the database's lock, and has it when this returns."""
        self.say("lock")
        self.say("getprinc nobody" if self.is_mit else "get nobody")
        self.end()

    def end(self, seconds=20):
        """Waits until it is done."""
        end = time.monotonic() + seconds
        while b"does not exist" not in self.rest:
            if time.monotonic() > end or not select.select([self.process.stdout], [], [], 1)[0] and self.process.poll() is not None:
                raise RuntimeError(f"no answer: {self.rest}")
            self.rest += os.read(self.process.stdout.fileno(), 65536)
        self.rest = self.rest.partition(b"does not exist")[2].partition(b"\n")[2]

    def write(self, name, password):
        self.begin(name, password)
        self.end()


class AgentChanges(AgentCase):
    def test_others_write(self):
        """Within a second after the write, whatever was written."""
        name, other = self.name(), self.name(known=False)
        writes = [
            ("a password", lambda: self.realm.set_password(name, "Next-pass2")),
            ("a new principal", lambda: self.realm.add(other, FIRST)),
            ("an attribute", lambda: self.realm.ask_for_change(other)),
            ("one that is deleted", lambda: self.kdc.kadmin(*self.deleting(other))),
        ]
        with self.talking() as line:
            self.tell("nobody wrote", line.quiet(1.5))
            for what, write in writes:
                write()
                start = time.monotonic()
                self.tell(f"{what}: told within a second", line.told(1.0))
                line.quiet(0.4)
                self.tell("  and then not again", line.quiet(0.6))
                self.tell("  and before the next one", time.monotonic() - start < 5)

    def deleting(self, name):
        return ["delprinc", "-force", name] if self.realm.KIND == "MIT" else ["delete", name]

    def test_own_writes(self):
        name = self.name()
        with self.talking() as line:
            for kvno in range(2, 22):
                line.put(name, kvno, f"Own-pass{kvno}")
                if kvno % 5 == 0:
                    self.tell(f"own writes, up to version {kvno}: nothing is told", line.quiet(0.6))
            line.put(name, 21, "Own-pass21")
            line.put("nobody", 21, "Own-pass21")
            line.put("krbtgt", 21, "Own-pass21")
            self.tell("  nor of writes that aren't made", (line.quiet(), line.changes), (True, 0))
            self.realm.set_password(name, "Others-pass22")
            self.tell("  of another's it is", line.told())

    def test_reads(self):
        with self.talking() as line:
            for _ in range(20):
                line.listed("list keys")
                line.ask(f"get {hexed('alice')}")
            self.tell("reads: nothing is told", (line.quiet(), line.changes), (True, 0))

    def test_nobody_is_told_of_the_past(self):
        name = self.name()
        with Agent(self.realm) as agent:
            for count in range(2):
                self.realm.set_password(name, f"Past-pass{count}")
                with agent.connected() as line:
                    self.tell("a connection after a write: nothing is told", (line.quiet(), line.ask(f"get {hexed(name)}")[:4]),
                              (True, "has "))

    def test_right_before_or_after(self):
        """Another writes within the same milliseconds as we do."""
        own, others, order = self.name(), self.name(), random.Random(1)
        lost = double = 0
        with self.talking() as line, Writer(self.realm) as writer:
            writer.write(others, "Warm-pass0")
            line.quiet(1)
            for count in range(40):
                line.changes = 0
                writer.begin(others, f"Others-pass{count}")
                for turn in range(3):
                    time.sleep(order.random() * 0.004)
                    line.put(own, 2 + 3 * count + turn, f"Own-pass{count}-{turn}")
                writer.end()
                told = line.changes or line.told(1.0)
                lost += not told
                # the end of that write
                line.quiet(0.35)
                double += line.told(0.3)
            self.tell("forty writes of another beside three of ours each: not told", lost, 0)
            self.tell("  told after their end", double, 0)
            self.tell("  ours are there", self.realm.kvno(own), 121)
            # ours waits for the other's lock, or theirs for ours
            for count in range(30):
                line.changes = 0
                threads = [threading.Thread(target=writer.write, args=(others, f"Again-pass{count}"))]
                threads[0].start()
                line.put(own, 200 + count, f"Own-pass{count}")
                threads[0].join()
                lost += not (line.changes or line.told(1.0))
                line.quiet(0.35)
            self.tell("thirty writes at the same moment as ours: not told", lost, 0)

    def test_while_ours_waits(self):
        """Another has the lock, writes, and lets it go, while our write waits for it."""
        own, others = self.name(), self.name()
        lost, written = 0, 0
        with self.talking() as line, Writer(self.realm) as writer:
            for count in range(12):
                line.changes = 0
                writer.hold()
                line.send(putting(own, 2 + count, f"Own-pass{count}").encode() + b"\n")
                time.sleep(0.02)
                writer.begin(others, f"Others-pass{count}")
                writer.say("unlock")
                written += line.answer().startswith("put ")
                writer.end()
                lost += not (line.changes or line.told(1.0))
                while line.told(0.35):
                    pass
            self.tell("twelve writes of another while ours waits for the lock: not told", lost, 0)
            self.tell("  ours are written then, for the most part", written > 6)

    def test_right_after_ours(self):
        """Another waits for the lock while we write, and writes before we have looked at what our write has made."""
        own, others, folder = self.name(), self.name(), self.realm.folder
        data = folder / ("principal" if self.realm.KIND == "MIT" else "heimdal.db")
        lost = 0
        with self.talking(LD_PRELOAD=preload(self.realm, "agent_slow"), SLOW=str(data)) as line, Writer(self.realm) as writer:
            for count in range(12):
                line.changes = 0
                line.send(putting(own, 2 + count, f"Own-pass{count}").encode() + b"\n")
                # amid the look that is made under the lock
                time.sleep(0.06)
                writer.begin(others, f"Others-pass{count}")
                line.answer()
                writer.end()
                lost += not (line.changes or line.told(1.0))
                while line.told(0.45):
                    pass
            self.tell("twelve writes of another at the end of ours: not told", lost, 0)
            line.put(own, 100, "Last-pass")
            self.tell("  nothing is told of ours", line.quiet())

    def test_within_one_tick(self):
        """Another's write by which the times of the files stay, but for MIT's principal.ok, as within a tick of the system's
        clock."""
        own, others = self.name(), self.name()
        files = [self.realm.folder / name for name in (["principal"] if self.realm.KIND == "MIT" else ["heimdal.db", "log"])]
        lost = 0
        with self.talking() as line, Writer(self.realm) as writer:
            for count in range(8):
                line.put(own, 2 + count, f"Own-pass{count}")
                line.changes = 0
                found = {file: file.stat() for file in files}
                writer.write(others, f"Others-pass{count}")
                for file, before in found.items():
                    os.utime(file, ns=(before.st_atime_ns, before.st_mtime_ns))
                lost += not line.told(1.0)
                while line.told(0.35):
                    pass
            self.tell("eight writes of another within a tick of ours: not told", lost, 0)

    def test_amid_others(self):
        """Two hundred own writes amid fifty bursts of another's."""
        own, others = self.name(), [self.name() for _ in range(3)]
        lost, kvno = 0, 1
        with self.talking() as line, Writer(self.realm) as writer:
            for count in range(50):
                line.changes = 0
                for other in others[: 1 + count % 3]:
                    writer.begin(other, f"Others-pass{count}")
                for _ in range(4):
                    kvno += 1
                    if line.at_last(putting(own, kvno, f"Own-pass{kvno}")) != f"put {hexed(own)} {kvno}":
                        self.tell(f"put of version {kvno}", False)
                for _ in others[: 1 + count % 3]:
                    writer.end()
                lost += not (line.changes or line.told(1.0))
                while line.told(0.35):
                    pass
            self.tell("fifty bursts of another amid two hundred own writes: not told", lost, 0)
            self.tell("  then nothing is told", line.quiet())
        self.tell("  the KDC's keys", self.held(own), self.of(own, 201, "Own-pass201"))
        self.tell("  the other's", self.logs_in(others[0], "Others-pass49"), [True])

    def test_the_same_entry(self):
        """Two agents write the same entry at once: no write is lost. MIT's own kadmin may lose one, and isn't tried."""
        name, count = self.name(), 100
        with self.talking() as line, self.talking(path=self.realm.folder / "other.socket") as other:
            # the version after the KDC's, whichever that is
            asked = [[putting(name, 1, f"{who}-pass{turn}") for who in ("one", "another")] for turn in range(count)]
            for first, second in asked:
                thread = threading.Thread(target=other.at_last, args=(second,))
                thread.start()
                line.at_last(first)
                thread.join()
            self.tell("a hundred writes of the same entry by each: its version", self.realm.kvno(name), 1 + 2 * count)
            self.tell("  each is told of the other", (line.changes > 0, other.changes > 0), (True, True))
            self.tell("  then", line.put(name, 1, "Last-pass"), f"put {hexed(name)} {2 + 2 * count}")
        self.tell("  the KDC's keys", self.held(name), self.of(name, 2 + 2 * count, "Last-pass"))
        if self.realm.KIND == "Heimdal":
            self.beside_an_administrator(60)

    def beside_an_administrator(self, count):
        name = self.name()
        with self.talking() as line, Writer(self.realm) as writer:
            for turn in range(count):
                writer.begin(name, f"Admins-pass{turn}")
                line.at_last(putting(name, 1, f"Users-pass{turn}"))
                writer.end()
        self.tell("sixty writes of the same entry by kadmin and by the agent: its version", self.realm.kvno(name), 1 + 2 * count)

    def test_a_locked_database(self):
        name = self.name()
        kept = self.state(name)
        with self.talking() as line:
            with self.realm.locked():
                for request in f"put {name}", f"get {name}", "list", "list keys":
                    start = time.monotonic()
                    if request.startswith("put"):
                        answer, wanted = line.put(name, 2, "Locked-pass2"), f"failed {hexed(name)} locked"
                    elif request.startswith("get"):
                        answer, wanted = line.ask(f"get {hexed(name)}"), f"failed {hexed(name)} locked"
                    else:
                        answer, wanted = line.ask(request), "failed - locked"
                    self.tell(f"locked: {request}", answer, wanted)
                    self.tell("  within half a second", time.monotonic() - start < 0.5)
                self.tell("  a refusal is told all the same", line.put("krbtgt", 2, FIRST), f"refused {hexed('krbtgt')} reserved")
                with line.agent.connected() as other:
                    self.tell("  the socket is served", other.line(1), "")
            # an end without a write
            line.quiet(0.5)
            self.tell("  not locked any more: nothing was written", self.state(name) == kept)
            self.tell("  put", line.put(name, 2, "Locked-pass2"), f"put {hexed(name)} 2")
        self.tell("  the KDC's keys", self.held(name), self.of(name, 2, "Locked-pass2"))
        with self.realm.locked(), Agent(self.realm) as agent, agent.connected() as line:
            self.tell("locked at the start: get", line.ask(f"get {hexed(name)}"), f"failed {hexed(name)} locked")

    @at("MIT")
    def test_the_policies_are_locked(self):
        """MIT's library locks them beside the entries, and waits for seconds if nobody tells it not to."""
        name = self.name()
        with self.talking() as line, (self.realm.folder / "principal.kadm5.lock").open("r+b") as file:
            fcntl.lockf(file, fcntl.LOCK_EX | fcntl.LOCK_NB)
            start = time.monotonic()
            self.tell("the policies are locked: put", line.put(name, 2, FIRST), f"failed {hexed(name)} locked")
            self.tell("  within half a second", time.monotonic() - start < 0.5)
            fcntl.lockf(file, fcntl.LOCK_UN)
            self.tell("  and then", line.put(name, 2, FIRST), f"put {hexed(name)} 2")

    @at("Heimdal")
    def test_another_kind(self):
        """SQLite's, which Debian's Heimdal has beside its usual one."""
        folder = self.realm.folder / "sqlite"
        folder.mkdir()
        config = folder / "krb5.conf"
        text = (self.realm.folder / "krb5.conf").read_text().replace(f"dbname = {self.realm.folder}/heimdal",
                                                                     f"dbname = sqlite:{folder}/data")
        config.write_text(text.replace(f"log_file = {self.realm.folder}/log", f"log_file = {folder}/log"))
        more = {"KRB5_CONFIG": str(config)}

        def kadmin(*words):
            return self.realm.run(["kadmin.heimdal", "-l", *words], **more).stdout

        kadmin("init", "--realm-max-ticket-life=1d", "--realm-max-renewable-life=1w", REALM)
        kadmin("add", "--use-defaults", f"--password={FIRST}", "dora")
        with self.talking(**more) as line:
            self.tell("sqlite: get", line.ask(f"get {hexed('dora')}"), f"has {hexed('dora')} 1 {keys_of('dora', FIRST)}")
            self.tell("  put", line.put("dora", 4, "Next-pass4"), f"put {hexed('dora')} 4")
            self.tell("  the KDC's version", "Kvno: 4" in kadmin("get", "dora"))
            self.tell("  nothing is told of that", line.quiet())
            kadmin("passwd", "--password=Other-pass5", "dora")
            self.tell("  of another's it is", line.told())
            self.tell("  list", f"has {hexed('dora')} 5" in line.listed())

    def test_a_lock_that_is_had_in_time(self):
        """Somebody writes all the time, for some milliseconds each: ours waits for its turn."""
        own, other = self.name(), self.name()
        with self.talking() as line, Writer(self.realm) as writer:
            failed = 0
            for count in range(50):
                writer.begin(other, f"Others-pass{count}")
                failed += not line.put(own, 2 + count, f"Own-pass{count}").startswith("put ")
                writer.end()
            # on a busy machine another's write may last longer than a tenth of a second
            self.tell("fifty puts while another writes: five failed at most", failed <= 5)
            line.at_last(putting(own, 60, "Last-pass"))
        self.tell("  the KDC's keys", self.held(own), self.of(own, 60, "Last-pass"))

    def test_dumped_and_loaded(self):
        """The database is loaded anew while a connection is open."""
        name, path = self.name(), self.realm.folder / "whole"
        with self.talking() as line:
            line.put(name, 2, "Dumped-pass2")
            self.kdc.dump(path)
            while line.told(0.5):
                pass
            line.put(name, 3, "Lost-pass3")
            self.tell("dumped: nothing is told", line.quiet(0.5))
            self.kdc.load(path)
            self.tell("  loaded: told", line.told())
            line.quiet(0.5)
            self.tell("  get", line.ask(f"get {hexed(name)}").split()[:3], ["has", hexed(name), "2"])
            self.tell("  put", line.put(name, 3, "Loaded-pass3"), f"put {hexed(name)} 3")
            self.tell("  nothing is told of that", line.quiet())
            self.tell("  the KDC's keys", self.held(name), self.of(name, 3, "Loaded-pass3"))
            self.tell("  logins", self.logs_in(name, "Loaded-pass3", "Lost-pass3"), [True, False])
            self.realm.set_password(name, "After-pass4")
            self.tell("  a write after it: told", line.told())

    def test_a_database_that_comes_later(self):
        """It isn't there when the agent starts."""
        files = [file for file in self.realm.folder.iterdir() if file.name.startswith(("principal", "heimdal", "master-key", "stash"))]
        name = self.name()
        away = self.realm.folder / "away"
        away.mkdir()
        for file in files:
            file.rename(away / file.name)
        agent = Agent(self.realm)
        try:
            agent.told("listening", 1)
            self.tell("no database: told", agent.told("the database can't be opened: "), 1)
            with agent.connected() as line:
                found = line.ask(f"get {hexed(name)}").split(None, 2)
                self.tell("no database: get", found[:2], ["failed", hexed(name)])
                found = line.put(name, 2, "Later-pass2").split(None, 2)
                self.tell("  put", found[:2], ["failed", hexed(name)])
                made = [file.name for file in self.realm.folder.iterdir() if file.name in ("principal", "heimdal.db")]
                self.tell("  none is made", made, [])
                for file in files:
                    os.replace(away / file.name, self.realm.folder / file.name)
                self.tell("  it comes: put", line.put(name, 2, "Later-pass2"), f"put {hexed(name)} 2")
                self.realm.set_password(name, "Next-pass3")
                self.tell("  a write of another: told", line.told())
        finally:
            for file in away.iterdir():
                os.replace(file, self.realm.folder / file.name)
            self.tell("  status", agent.stop(), 0)

    def test_servers_beside_it(self):
        """The KDC and the project's server for changes of passwords, each with its own writes."""
        name = self.name()
        with self.password_server() as port, self.talking() as line:
            password, kvno = FIRST, 1
            for turn in range(4):
                new = f"Users-pass{turn}"
                self.tell("kpasswd, beside the agent", self.kpasswd(port, name, password, new), 0)
                self.tell("  told", line.told())
                kvno = self.realm.kvno(name)
                while line.told(0.35):
                    pass
                password = f"Puts-pass{turn}"
                self.tell("  put", line.put(name, kvno + 1, password), f"put {hexed(name)} {kvno + 1}")
                self.tell("  nothing is told of that", line.quiet(0.6))
                self.tell("  logins by it, and by the one before", self.logs_in(name, password, new), [True, False])
                while line.told(0.35):
                    pass

    def kpasswd(self, port, name, old, new):
        """The project's client; Heimdal's server is reached over UDP alone."""
        realm, lines = self.realm, [old, new, new]
        if realm.KIND == "MIT":
            realm.point_clients_at(port)
            return realm.run(realm.mit, ["kpasswd", name], lines).returncode
        config = realm.folder / "udp.conf"
        text = (realm.folder / "krb5.conf").read_text()
        config.write_text(re.sub("kpasswd_server = .*", f"kpasswd_server = 127.0.0.1:{port}", text))
        return realm.run(["kpasswd.heimdal", name], lines, KRB5_CONFIG=str(config)).returncode

    @contextlib.contextmanager
    def password_server(self):
        realm = self.realm
        if realm.KIND == "MIT":
            command, environment = [realm.mit.program("kadmind"), "-nofork"], realm.environment(realm.mit)
            with daemon(command, environment, realm.folder / "kadmind.out", realm.kpasswd_port):
                yield realm.kpasswd_port
        else:
            [port] = free_ports(1)
            words = ["--addresses=127.0.0.1", f"--port={port}", f"--config-file={realm.folder}/krb5.conf"]
            command = [f"{realm.heimdal.folder}/usr/lib/heimdal-servers/kpasswdd", *words]
            with daemon(command, realm.environment(), realm.folder / "kpasswdd.out"):
                yield port
