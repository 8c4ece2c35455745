"""What an agent does where its readers, its standard error or its callers aren't as usual; and what it costs."""

import contextlib
import errno
import fcntl
import os
import pathlib
import signal
import socket
import stat
import struct
import subprocess
import tempfile
import time

from harness.realm import REALM
from tests.kdc.agent_case import FIRST, AgentCase
from tests.kdc.agent_database import is_root
from tests.kdc.agent_process import Agent, hexed, keys_of, preload

SIOCOUTQ = 0x5411
# as many as outgrow what a socket holds, by far
MANY = 600


class AgentMachine(AgentCase):
    # ---- readers

    def test_readers_that_go(self):
        """Who asks and goes without reading: the next one is served, and gets no answer but its own."""
        request = f"get {hexed('alice')}"
        with Agent(self.realm) as agent:
            for asked in f"{request}\n", f"{request}\n" * 50, "list keys\n" * MANY:
                with agent.connected() as line:
                    line.send(asked.encode())
                    # until it has answered as much as is taken
                    time.sleep(0.3)
                self.tell(f"{len(asked)} bytes of requests whose answers nobody reads: the next one's answer",
                          agent.ask(request), f"has {hexed('alice')} 1 {keys_of('alice', self.realm.passwords['alice'])}")
            self.tell("  told", agent.told("was closed"), 0)

    def test_another_amid_an_answer(self):
        """Others call while answers wait for their reader, who has said all: they are closed, and the answers are whole."""
        with self.talking() as line:
            line.send(b"list keys\n" * MANY)
            line.connection.shutdown(socket.SHUT_WR)
            time.sleep(0.2)
            others = []
            for _ in range(MANY + 100):
                with line.agent.connected() as other:
                    others.append(other.line(2))
                if others[-1] != "":
                    break
            self.tell(f"{MANY + 100} others amid answers: closed", others.count(""), MANY + 100)
            found = [line.line()]
            while found[-1]:
                found.append(line.line())
            self.tell("  the answers are whole", sum(it.startswith("end ") for it in found), MANY)

    def test_changes_while_nobody_reads(self):
        """Somebody writes again and again while an answer is under way: `changed` is said once, after one."""
        name = self.name()
        with self.talking() as line:
            line.send(b"list keys\n" * MANY)
            for count in range(4):
                time.sleep(0.4)
                self.realm.set_password(name, f"Others-pass{count}")
            time.sleep(0.4)
            before, last, ends, told, is_behind = "", line.line(5), 0, 0, True
            while last and ends + told < MANY + 1:
                ends += last.startswith("end ")
                told += last == "changed"
                is_behind &= last != "changed" or before.startswith("end ")
                before, last = last, line.line(5)
            self.tell("four writes while nobody reads: told", told, 1)
            self.tell("  behind an answer", is_behind)

    def test_a_large_database(self):
        """A list that is longer than what a socket holds: the next request stays where it is until the list was taken, no lock
        is held meanwhile, and an end waits for it."""
        name, count = self.name(), 5000
        with self.elsewhere() as more:
            self.kdc.multiply(name, count, **more)
            with self.talking(**more) as line:
                line.send(b"list keys\n")
                line.send(f"get {hexed(name)}\n".encode())
                for taken in 0, 240_000:
                    while len(line.rest) < taken:
                        line.rest += line.connection.recv(10_000)
                    time.sleep(0.5)
                    self.tell(f"{count} principals, {taken} bytes of the list taken: the next request isn't read",
                              self.unread(line) > 0)
                start = time.monotonic()
                self.kdc.project("change", "alice", **more)
                self.tell("  nobody is kept from writing", time.monotonic() - start < 3)
                end = self.rest_of_list(line)
                self.tell("  the list is whole, and has them all", end is not None and int(end.split()[1]) > count)
                self.tell("  and then the next answer", line.answer().split()[:2], ["has", hexed(name)])
                line.send(b"list keys\n")
                time.sleep(0.5)
                line.agent.process.send_signal(signal.SIGTERM)
                time.sleep(0.2)
                self.tell("  SIGTERM amid the list: it is whole", self.rest_of_list(line) == end)
                self.tell("  and then the end", line.answer(), "")

    def rest_of_list(self, line):
        """Its last line, where that has the number of those before it."""
        count = 0
        while (answer := line.answer()) and answer.split()[0] in ("has", "other") and count < 10_000:
            count += 1
        return answer if answer == f"end {count}" else None

    def unread(self, line):
        """How much of what was sent the other side hasn't taken."""
        return struct.unpack("i", fcntl.ioctl(line.connection, SIOCOUTQ, struct.pack("i", 0)))[0]

    # ---- callers

    def test_callers_at_once(self):
        """Sixteen call while it can't answer."""
        with Agent(self.realm) as agent, contextlib.ExitStack() as calls:
            agent.process.send_signal(signal.SIGSTOP)
            found = []
            for _ in range(16):
                call = calls.enter_context(socket.socket(socket.AF_UNIX))
                call.setblocking(False)
                found.append(call.connect_ex(str(agent.socket)))
            agent.process.send_signal(signal.SIGCONT)
            self.tell("sixteen calls at once: refused", [errno.errorcode[it] for it in found if it], [])
            self.tell("  told", agent.told("there is one already", 15), 15)

    def test_between_bind_and_listen(self):
        """The socket has its mode as soon as it is there; and a link that somebody puts in its place isn't followed."""
        path = preload(self.realm, "agent_bind")
        with Agent(self.realm, LD_PRELOAD=path) as agent:
            self.tell("right after it was made: its mode", [it for it in agent.all_lines if it.startswith("mode ")], ["mode 600"])
        if not is_root():
            print("no other owner is tried, since this isn't root")
            return
        with tempfile.TemporaryDirectory(prefix="agent_") as folder:
            victim = pathlib.Path(folder) / "victim"
            victim.write_text("")
            with Agent(self.realm, user="nobody", path=pathlib.Path(folder) / "socket", LD_PRELOAD=path, LINK=str(victim)) as agent:
                self.tell("a link in its place then: the other file's owner", victim.stat().st_uid, 0)
                self.tell("  it was there", agent.socket.is_symlink())

    # ---- standard error, and other files

    def started(self, error, *words):
        """An agent with that standard error, which needn't listen."""
        command, environment = self.realm.agent()
        words = words or ["--socket", str(self.realm.folder / "agent.socket"), "--user", "root", "--realm", REALM]
        return subprocess.Popen([command, *words], stdin=subprocess.DEVNULL, stderr=error, env=environment)

    def test_nobody_reads_its_lines(self):
        """A line that nobody takes is lost, and nothing waits for it; one that is too long is cut."""
        if is_root():
            for what, is_full in ("a standard error that is full", True), ("one without a reader", False):
                reader, writer = os.pipe()
                if is_full:
                    fill(writer)
                else:
                    os.close(reader)
                with Running(self.started(writer), self.realm.folder / "agent.socket") as agent:
                    for _ in range(3):
                        agent.ask("none")
                    self.tell(f"{what}, and lines for it: then a request", (agent.ask(f"get {hexed('alice')}") or "none").split()[0], "has")
                self.tell("  status", agent.status, 0)
                if not is_full:
                    self.tell("  a wrong command line: status", self.started(writer, "--x").wait(20), 2)
                else:
                    os.close(reader)
                os.close(writer)
        # each line has 1,024 bytes at most, as those of a connection
        for length in 900, 3000:
            status, lines = Agent(self.realm, "--also", "x@" + "x" * length).ended()
            wanted = ("x@" + "x" * length + ": a name has no realm here")[:1022]
            self.tell(f"a line of {length} bytes and more: status, and what is told of it", (status, lines[0] == wanted), (2, True))

    def test_closed_descriptors(self):
        """Started without standard files: no file of the database is in their place, into which its lines would go."""
        before = {it: it.read_bytes() for it in self.realm.folder.glob("*.lock")}
        command, environment = self.realm.agent()
        path = self.realm.folder / "agent.socket"
        script = f"exec {command} --socket {path} --user root --realm {REALM} <&- >&- 2>&-"
        with Running(subprocess.Popen(["sh", "-c", script], env=environment), path) as agent:
            agent.ask("none")
            found = [os.readlink(f"/proc/{agent.process.pid}/fd/{it}") for it in range(3)]
            self.tell("no standard files: what is in their place", found, ["/dev/null"] * 3)
        self.tell("  status", agent.status, 0)
        self.tell("  nothing is told into the database's files", {it: it.read_bytes() for it in before} == before)

    # ---- what it costs

    def test_memory_stays(self):
        """Many requests take no more memory than some."""
        name = self.name()
        self.kdc.give_policy(name)
        keys = keys_of(name, FIRST)
        with self.elsewhere() as more:
            # so that a list outgrows its room
            self.kdc.multiply(name, 100, **more)
            with self.talking(**more) as line:
                for what, first, count, request in (
                    ("put", 300, 1500, lambda turn: f"put {hexed(name)} {turn + 2} {keys}"),
                    ("get", 100, 1500, lambda _: f"get {hexed(name)}"), ("list keys", 50, 200, lambda _: "list keys"),
                ):
                    self.asked(line, request, 0, first)
                    before = self.pages(line.agent)
                    self.asked(line, request, first, count)
                    self.tell(f"{count} times {what}: pages more", self.pages(line.agent) - before < (100 if what == "list keys" else 15))

    def asked(self, line, request, first, count):
        """Asks that often, and reads all that is answered."""
        for turn in range(first, first + count):
            line.send(f"{request(turn)}\n".encode())
            answer = line.answer()
            while request(turn).startswith("list") and answer.split()[0] in ("has", "other"):
                answer = line.answer()
            if answer.split()[0] == "failed":
                self.tell(f"{request(turn)[:60]}", answer, None)

    def test_opened_once(self):
        """The database stays open from one request to the next: hardly anything is read for one."""
        with self.talking() as line:
            found = []
            for _ in range(2):
                line.ask(f"get {hexed('alice')}")
                found.append(self.reads(line.agent))
                for _ in range(50):
                    line.ask(f"get {hexed('alice')}")
                found.append(self.reads(line.agent))
            self.tell("fifty requests: ten readings of files for each at most", found[1] - found[0] <= 500)
            self.tell("  fifty more", found[3] - found[2] <= 500)

    def reads(self, agent):
        found = pathlib.Path(f"/proc/{agent.process.pid}/io").read_text()
        return int(found.split("syscr: ")[1].split()[0])


def fill(pipe):
    """Writes until nothing more is taken."""
    os.set_blocking(pipe, False)
    for size in 4096, 1:
        with contextlib.suppress(BlockingIOError):
            while True:
                os.write(pipe, b"x" * size)
    os.set_blocking(pipe, True)


class Running:
    """An agent whose lines aren't read: it listens once it can be called."""

    def __init__(self, process, path):
        self.process, self.path, self.status = process, path, None
        end = time.monotonic() + 20
        while not (path.exists() and stat.S_ISSOCK(path.stat().st_mode)) and time.monotonic() < end:
            time.sleep(0.01)
        # until it listens after that
        time.sleep(0.3)

    def __enter__(self):
        return self

    def __exit__(self, *_):
        self.process.terminate()
        try:
            self.status = self.process.wait(20)
        except subprocess.TimeoutExpired:
            self.process.kill()
            self.status = self.process.wait()

    def ask(self, request):
        """The answer within some seconds, on a connection of its own."""
        with socket.socket(socket.AF_UNIX) as call:
            call.settimeout(5)
            try:
                call.connect(str(self.path))
                call.sendall(f"{request}\n".encode())
                return call.recv(4096).decode()
            except OSError:
                return None
