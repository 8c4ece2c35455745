"""The socket: who may connect, which lines are requests, and what ends a connection."""

import contextlib
import os
import pathlib
import pwd
import re
import resource
import shutil
import signal
import socket
import stat
import subprocess
import sys
import tempfile
import time

from harness.realm import REALM
from tests.kdc.agent_case import FIRST, AgentCase
from tests.kdc.agent_database import is_root
from tests.kdc.agent_process import Agent, hexed, keys_of, putting

NOBODY = "nobody"
# connects to a socket as another user, and says what comes
STRANGER = """\
import os, socket, sys
os.setuid(int(sys.argv[2]))
line = socket.socket(socket.AF_UNIX)
line.settimeout(10)
try:
    line.connect(sys.argv[1])
    line.sendall(b"list\\n")
    print(line.recv(100))
except OSError as fault:
    print(type(fault).__name__)
"""


def bad_lines(name):
    """Lines that aren't of the form."""
    good = putting(name, 2, "Bad-pass9").encode()
    put, text, kvno, first, second = good.split()
    yield from (b"", b" ", b"x", b"LIST", b"lis", b"\0list", b" list", b"\xff", b"get", b"put", b"changed", b"end 0", b"\r")
    yield from (b"list ", b"list  keys", b"listkeys", b"list key", b"list\r", b"list\0", b"list keys ", b"list keys\r", b"list list",
                b"list keys keys", b"list\0keys", b"list keys\0")
    for bad in (b"", b" " + text, b"/" + text, text + b"/", text + b"//" + text, text[:-1], text.upper(), b"0x" + text,
                b"0g", b"-" + text, b"\0", text[:3] + b"\0", b"k", b"61" * 451, b"/".join([b"61"] * 301)):
        yield b"get " + bad
        yield b" ".join([put, bad, kvno, first, second])
    for bad in b" ", b"\r", b"\0", b" x", b"/", b"0", b"g":
        yield b"get " + text + bad
    for bad in (b"0", b"00", b"01", b"-1", b"+2", b"2.0", b"0x2", b"", b" 2", b"2 ", b"a", b"2a", b"2\0",
                b"4294967296", b"4294967298", b"18446744073709551618", b"9" * 60):
        yield b" ".join([put, text, bad, first, second])
    for bad in first[1:], first[2:], first + b"00", first.upper(), first[:-1] + b"g", b"", b" " + first, first[:-1] + b"\0", b"z" * 64:
        yield b" ".join([put, text, kvno, bad, second])
    for bad in second[1:], second[2:], second.upper(), second[:-1] + b"G", b"", b" " + second, second[:-1] + b"\r":
        yield b" ".join([put, text, kvno, first, bad])
    for bad in second + b"0", second + b"00", second + b" ", second + b" x", second + b"\r", second + b"\0":
        yield b" ".join([put, text, kvno, first, bad])
    for other in b"get", b"list", b"puts", b"PUT", b"", b"put\0":
        yield b" ".join([other, text, kvno, first, second])
    yield b"  ".join(good.split())
    yield b"\t".join(good.split())
    yield b" ".join([put, text, kvno, second, first])
    yield b" ".join([put, text, kvno, first])
    yield b" ".join([put, text, kvno])
    yield b" ".join([put, text])
    yield good[:-32]


class AgentSocket(AgentCase):
    def test_bad_requests(self):
        """Each closes the connection, is told once, and changes nothing."""
        name = self.name()
        kept = self.state(name)
        lines = list(bad_lines(name))
        wrong = []
        with Agent(self.realm) as agent:
            for count, bad in enumerate(lines, 1):
                with agent.connected() as line:
                    # what comes after it isn't read any more
                    line.send(bad + b"\nlist\n")
                    answer = line.line()
                if answer != "" or agent.told("a connection was closed: a line is no request", count) != count:
                    wrong.append((bad[:60], answer, agent.all_lines[-1]))
                if len(wrong) > 2:
                    break
            self.tell(f"{len(lines)} lines that aren't requests: treated otherwise", wrong, [])
            self.tell("  lines told", agent.told("was closed"), len(lines))
            self.tell("  then a request", agent.ask(f"get {hexed(name)}").split()[0], "has")
        self.tell("  nothing is written", self.state(name) == kept)

    def test_long_lines(self):
        """A line has 1,024 bytes with its newline, a name 900."""
        longest = "/".join(["61" * 225, "62" * 224])
        self.tell("the longest name has 900 bytes", len(longest) + 1, 900)
        with Agent(self.realm) as agent:
            for request, wanted in (
                (b"get " + b"61" * 450, "none " + "61" * 450), (b"get " + longest.encode(), "none " + longest),
                (b"get " + b"61" * 450 + b"/61", ""), (b"get " + b"6" * 1019, ""), (b"get " + b"6" * 1020, ""),
                (b"x" * 1023, ""), (b"x" * 1024, ""), (b"list" + b" " * 1020, ""), (b"g" * (1 << 20), ""),
            ):
                with agent.connected() as line:
                    line.send(request + b"\n")
                    self.tell(f"a line of {len(request) + 1} bytes", line.line(), wanted)
            with agent.connected() as line:
                with contextlib.suppress(OSError):
                    line.connection.sendall(b"\0" * (1 << 20))
                self.tell("a megabyte without a newline", line.line(), "")
            self.tell("  told: lines that are too long", agent.told("a line is too long", 5), 5)
            self.tell("  then a request", agent.ask(f"get {hexed('alice')}").split()[0], "has")

    def test_half_lines(self):
        name = self.name()
        kept = self.state(name)
        whole = putting(name, 2, "Half-pass2")
        with Agent(self.realm) as agent:
            for count, length in enumerate((1, 4, 20, len(whole) - 1, len(whole)), 1):
                with agent.connected() as line:
                    line.send(whole[:length].encode())
                    line.connection.shutdown(socket.SHUT_WR)
                    self.tell(f"{length} bytes of a request, and an end", line.line(), "")
                self.tell("  told", agent.told("a line has no end", count), count)
            for _ in range(2):
                with agent.connected():
                    pass
                # it has seen the end of the one before
                agent.ask(f"get {hexed(name)}")
            self.tell("no request is no fault", agent.told("was closed"), 5)
        self.tell("  nothing is written", self.state(name) == kept)

    def test_requests_in_pieces(self):
        name = self.name()
        request = f"get {hexed(name)}".encode()
        wanted = f"has {hexed(name)} 1 {keys_of(name, FIRST)}"
        with self.talking() as line:
            for byte in request:
                line.send(bytes([byte]))
                time.sleep(0.002)
            self.tell("a request byte by byte: nothing before its end", line.line(0.3), None)
            line.send(b"\n")
            self.tell("  its answer", line.line(), wanted)
            line.send((request + b"\n") * 200)
            self.tell("two hundred requests at once", [line.line() for _ in range(200)] == [wanted] * 200)
            line.send((request + b"\n") * 3)
            line.connection.shutdown(socket.SHUT_WR)
            self.tell("three, and an end: the answers", [line.line() for _ in range(4)], [wanted] * 3 + [""])

    def test_second_connection(self):
        """While one is open another is closed at once, and the first is served on."""
        with self.talking() as line:
            line.listed()
            opened = self.opened(line.agent)
            for count in range(1, 20):
                with line.agent.connected() as other:
                    other.send(b"list\n")
                    if other.line() != "":
                        self.tell(f"connection {count + 1} is closed", False)
            self.tell("nineteen others are closed: told", line.agent.told("there is one already", 19), 19)
            self.tell("  files that are open, more than before", self.opened(line.agent) - opened, 0)
            self.tell("  the first is served", line.ask(f"get {hexed('alice')}").split()[0], "has")
            line.connection.close()
            time.sleep(0.2)
            self.tell("  the next one after it", line.agent.ask(f"get {hexed('alice')}").split()[0], "has")
        with Agent(self.realm) as agent:
            agent.ask("list")
            time.sleep(0.3)
            opened = self.opened(agent)
            found = [agent.ask(f"get {hexed('alice')}").split()[:1] for _ in range(300)]
            self.tell("three hundred connections, each when the one before has ended: answered", found.count(["has"]), 300)
            for _ in range(10):
                agent.connected().connection.close()
            self.tell("  after ten that ended at once", agent.ask(f"get {hexed('alice')}").split()[:1], ["has"])
            self.tell("  told", agent.told("was closed"), 0)
            time.sleep(0.3)
            self.tell("  files that are open, more than before", self.opened(agent) - opened, 0)

    def opened(self, agent):
        return len(os.listdir(f"/proc/{agent.process.pid}/fd"))

    def test_other_users(self):
        """Whoever may reach the socket: only the user's own connections are served."""
        if not is_root():
            print("other users aren't tried, since this isn't root")
            return
        folder = pathlib.Path(tempfile.mkdtemp(prefix="agent_"))
        try:
            folder.chmod(0o755)
            for user in "root", NOBODY:
                with Agent(self.realm, user=user, path=folder / user) as agent:
                    # so that its mode keeps nobody away
                    os.chmod(agent.socket, 0o666)
                    for uid in 0, pwd.getpwnam(NOBODY).pw_uid, 12345:
                        words = [sys.executable, "-c", STRANGER, str(agent.socket), str(uid)]
                        found = subprocess.run(words, capture_output=True, text=True, check=True).stdout
                        served = found.startswith("b'has ")
                        self.tell(f"--user {user}: user {uid} is served", served, uid == pwd.getpwnam(user).pw_uid)
                    self.tell("  told", agent.told("it is another user's", 2), 2)
        finally:
            shutil.rmtree(folder)

    def test_mode_and_owner(self):
        for user in [NOBODY, "root"] if is_root() else [pwd.getpwuid(os.geteuid()).pw_name]:
            with Agent(self.realm, user=user) as agent:
                found = agent.socket.lstat()
                self.tell(f"--user {user}: a socket, its mode and owner",
                          (stat.S_ISSOCK(found.st_mode), oct(found.st_mode & 0o7777), found.st_uid),
                          (True, "0o600", pwd.getpwnam(user).pw_uid))
            self.tell("  gone at the end", agent.socket.exists(), False)
        old = os.umask(0)
        try:
            with Agent(self.realm) as agent:
                self.tell("started with umask 0: its mode", oct(agent.socket.lstat().st_mode & 0o7777), "0o600")
        finally:
            os.umask(old)

    def fails(self, what, path, why, **more):
        found = Agent(self.realm, path=path, **more).ended()
        self.tell(f"{what}: status, and what is told", found, (1, [f"{path}: {why}"]))

    def test_what_stands_at_the_path(self):
        path = self.realm.folder / "place"
        path.write_text("mine")
        taken = "Address already in use"
        self.fails("a file at the path", path, taken)
        self.tell("  it stays", path.read_text(), "mine")
        link = self.realm.folder / "link"
        link.symlink_to(path)
        self.fails("a link", link, taken)
        self.tell("  it stays", link.is_symlink())
        path.unlink()
        path.mkdir()
        self.fails("a folder", path, taken)
        path.rmdir()
        with socket.socket(socket.AF_UNIX) as other:
            other.bind(str(path))
            other.listen()
            self.fails("a socket that somebody listens at", path, taken)
            self.tell("  it stays", path.is_socket())
        self.tell("  it is left behind", path.is_socket())
        to_it = self.realm.folder / "to_it"
        to_it.symlink_to(path)
        self.fails("a link to one that nobody listens at", to_it, taken)
        self.tell("  it stays, and what it leads to", (to_it.is_symlink(), path.is_socket()), (True, True))
        self.busy_socket(self.realm.folder / "busy", taken)
        packets = self.realm.folder / "packets"
        with socket.socket(socket.AF_UNIX, socket.SOCK_DGRAM) as other:
            other.bind(str(packets))
            self.fails("a socket of another kind", packets, taken)
            self.tell("  it stays", packets.is_socket())
        self.other_agents(path, taken)
        self.long_paths()

    def other_agents(self, path, taken):
        """Where nobody listens an agent takes the place, and no other agent's."""
        with Agent(self.realm, path=path) as agent:
            self.tell("one that nobody listens at is replaced", agent.ask(f"get {hexed('alice')}").split()[0], "has")
            self.fails("another agent's", path, taken)
            self.tell("  that serves on", agent.ask(f"get {hexed('alice')}").split()[0], "has")
        agent = Agent(self.realm, path=path)
        agent.told("listening", 1)
        agent.stop(signal.SIGKILL)
        self.tell("a killed one leaves its socket", path.is_socket())
        with Agent(self.realm, path=path):
            self.tell("  and the next one takes its place", path.is_socket())

    def long_paths(self):
        self.fails("a folder that isn't there", self.realm.folder / "none/place", "No such file or directory")
        self.fails("a long path", self.realm.folder / ("x" * 120), "File name too long")
        longest = self.realm.folder / ("x" * (106 - len(str(self.realm.folder))))
        with Agent(self.realm, path=longest) as agent:
            self.tell("a path of 107 bytes: it answers", agent.ask(f"get {hexed('alice')}").split()[0], "has")
        self.fails("  one more", f"{longest}x", "File name too long")

    def busy_socket(self, path, taken):
        """One that somebody listens at who takes no more callers."""
        with socket.socket(socket.AF_UNIX) as other, contextlib.ExitStack() as calls:
            other.bind(str(path))
            other.listen(0)
            for _ in range(3):
                call = calls.enter_context(socket.socket(socket.AF_UNIX))
                call.setblocking(False)
                call.connect_ex(str(path))
            self.fails("a socket whose callers wait", path, taken)
            self.tell("  it stays", path.is_socket())

    def test_ends(self):
        for number in signal.SIGTERM, signal.SIGINT:
            for connected in False, True:
                agent = Agent(self.realm)
                agent.told("listening", 1)
                line = agent.connected() if connected else None
                self.tell(f"{signal.Signals(number).name}, connected {connected}: status", agent.stop(number), 0)
                self.tell("  the socket", agent.socket.exists(), False)
                if line:
                    self.tell("  the connection", line.line(), "")

    def test_an_answer_under_way(self):
        """A signal ends it once what was answered is read; a reader that doesn't is waited for a second."""
        agent = Agent(self.realm)
        agent.told("listening", 1)
        with agent.connected() as line:
            line.send(b"list keys\n" * 600)
            time.sleep(0.5)
            agent.process.send_signal(signal.SIGTERM)
            time.sleep(0.2)
            text = b""
            with contextlib.suppress(OSError):
                while data := line.connection.recv(65536):
                    text += data
        self.tell("SIGTERM amid answers: each that was begun is whole",
                  re.fullmatch(rb"((has|other) [^\n]*\n|end \d+\n)*end \d+\n", text) is not None)
        self.tell("  status", agent.stop(), 0)
        agent = Agent(self.realm)
        agent.told("listening", 1)
        with agent.connected() as line:
            self.fill(line)
            start = time.monotonic()
            self.tell("SIGTERM while nobody reads: status", agent.stop(), 0)
            self.tell("  within two seconds", time.monotonic() - start < 2)

    def fill(self, line):
        """Asks until no request is taken any more."""
        line.connection.settimeout(0.5)
        with contextlib.suppress(TimeoutError):
            while True:
                line.connection.sendall(b"list\n" * 200)
        line.connection.settimeout(20)

    def test_nobody_reads(self):
        """Requests without a reader: the memory doesn't grow, and no processor is busy."""
        with self.talking() as line:
            pages = pathlib.Path(f"/proc/{line.agent.process.pid}/statm")
            before = int(pages.read_text().split()[1])
            self.fill(line)
            self.tell("requests that nobody reads the answers to: pages more", int(pages.read_text().split()[1]) - before < 500)
            self.tell("  seconds of a processor in one", self.busy(line.agent) < 0.2)
            with line.agent.connected() as other:
                self.tell("  another connection is closed", other.line(), "")

    def busy(self, agent):
        def used():
            words = pathlib.Path(f"/proc/{agent.process.pid}/stat").read_text().rpartition(")")[2].split()
            return (int(words[11]) + int(words[12])) / os.sysconf("SC_CLK_TCK")

        start = used()
        time.sleep(1)
        return used() - start

    def test_is_idle(self):
        with Agent(self.realm) as agent:
            self.tell("nobody is connected: seconds of a processor in one", self.busy(agent) < 0.05)
            with agent.connected() as line:
                self.tell("  one is", self.busy(agent) < 0.1)
                line.send(b"ge")
                self.tell("  half a request", self.busy(agent) < 0.1)

    def test_command_lines(self):
        program, environment = self.realm.agent()
        name = pathlib.Path(program).name
        good = ["--socket", str(self.realm.folder / "s"), "--user", "root", "--realm", REALM]
        usage = f"usage: {name} --socket PATH --user NAME --realm REALM [--also PRINCIPAL].."
        for words in ([], good[:4], good[2:], [*good[:2], *good[4:]], [*good, "x"], [*good, "--x"], [*good, "--x", "y"], [*good, "--also"],
                      [*good[:5], ""]):
            done = subprocess.run([program, *words], capture_output=True, text=True, env=environment, timeout=20)
            self.tell(f"{len(words)} words: status, and usage", (done.returncode, done.stderr.splitlines()[-1]), (2, usage))
        for user in "", "nobody at all", "-1", "0":
            done = subprocess.run([program, *good[:3], user, *good[4:]], capture_output=True, text=True, env=environment, timeout=20)
            self.tell(f"--user {user!r}", (done.returncode, done.stderr), (1, f"{user}: no such user\n"))
        self.tell("no socket is left", (self.realm.folder / "s").exists(), False)

    def test_hidden_memory(self):
        """No core, and nobody but root looks into it: who owns its files in /proc tells whether others may."""
        most = resource.getrlimit(resource.RLIMIT_CORE)[1]

        def before():
            resource.setrlimit(resource.RLIMIT_CORE, (most, most))
            # which is passed over by what a shell starts in the background
            signal.signal(signal.SIGQUIT, signal.SIG_DFL)

        agent = Agent(self.realm, before=before)
        agent.told("listening", 1)
        agent.process.send_signal(signal.SIGQUIT)
        _, status = os.waitpid(agent.process.pid, 0)
        self.tell("SIGQUIT: ends it, without a core", (os.WTERMSIG(status), os.WCOREDUMP(status)), (signal.SIGQUIT, False))
        agent.ended()
        folder = pathlib.Path(tempfile.mkdtemp(prefix="agent_"))
        try:
            self.as_another_user(folder)
        finally:
            shutil.rmtree(folder)

    def test_wiped_keys(self):
        """No key of an answer or a request is left in the program's own memory."""
        if not is_root():
            print("the agent's memory isn't looked into, since this isn't root")
            return
        # so many that a list outgrows its room twice
        names = [self.name() for _ in range(60)]
        name, new = names[30], keys_of(names[30], "Wiped-pass2").split()
        every = [word for it in names for word in keys_of(it, FIRST).split()]
        with self.talking() as line:
            for what, ask in (
                ("list keys", lambda: line.listed("list keys")), ("get", lambda: line.ask(f"get {hexed(name)}")),
                ("put", lambda: line.put(name, 2, "Wiped-pass2")), ("put again", lambda: line.put(name, 2, "Wiped-pass2")),
                ("get of it", lambda: line.ask(f"get {hexed(name)}")), ("get of another", lambda: line.ask(f"get {hexed('alice')}")),
            ):
                ask()
                # what was sent is wiped right after it
                time.sleep(0.5)
                memory = self.memory(line.agent.process.pid)
                self.tell(f"after {what}, {len(memory) >> 20} MiB of memory: keys in hexadecimal",
                          [word for word in (*every, *new) if word.encode() in memory][:3], [])
                # Heimdal's library leaves some where it has decrypted them
                own = memory if self.realm.KIND == "MIT" else self.memory(line.agent.process.pid, "/kdc_", "[stack]")
                # the first bytes of what was freed aren't its own any more
                self.tell("  keys", [word for word in (*every, *new) if bytes.fromhex(word)[-16:] in own][:3], [])
            line.send(putting(name, 3, "Wiped-pass2").encode()[:-3])
            time.sleep(0.2)
            line.connection.close()
            time.sleep(0.4)
            memory = self.memory(line.agent.process.pid)
            self.tell("after half a request, and the connection's end: keys in hexadecimal", [it for it in new if it.encode() in memory], [])

    def memory(self, process, *where):
        """All that it may write to: its data, heap and stack, and those of its libraries; or only where that is."""
        found, last, is_meant = b"", 0, False
        with open(f"/proc/{process}/maps") as maps, open(f"/proc/{process}/mem", "rb", 0) as file:
            for line in maps:
                place, rights, *words = line.split()
                start, end = (int(word, 16) for word in place.split("-"))
                # what has no name goes on with what is before it
                is_meant = not where or any(it in line for it in where) or (is_meant and len(words) == 3 and start == last)
                if rights.startswith("rw") and "[v" not in line and is_meant:
                    file.seek(start)
                    found += file.read(end - start)
                last = end
        return found

    def as_another_user(self, folder):
        user = pwd.getpwnam(NOBODY) if is_root() else pwd.getpwuid(os.geteuid())
        program = folder / pathlib.Path(self.realm.agent()[0]).name
        shutil.copy(self.realm.agent()[0], program)
        if is_root():
            os.chown(folder, user.pw_uid, -1)
        def become():
            os.setgid(user.pw_gid)
            os.setuid(user.pw_uid)

        before = become if is_root() else None
        agent = Agent(self.realm, program=str(program), user=user.pw_name, path=folder / "socket", before=before,
                      KRB5_CONFIG=os.devnull, KRB5_KDC_PROFILE=os.devnull)
        self.tell("an agent of another user listens, though it can't have the database", agent.told("listening", 1), 1)
        self.tell("  its memory in /proc is root's", os.stat(f"/proc/{agent.process.pid}/mem").st_uid, 0)
        agent.stop()
