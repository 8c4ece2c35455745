"""The lines that `serve` prints, logs and reports, and for how long a client may keep silent.

No clause can say what a terminal or a file holds, so the lines are read here as an administrator reads them: what came
of a raise, a torn tail that was cut off, the tally of each history, and the log of two workers, in which a request that
was refused, or found its history full, has its names too, and the service's own events; and what is said of replies that
waited for the KDC in vain. Needs gcc (a slow sync holds a decision under the lock).
"""

import contextlib
import datetime
import re
import socket
import subprocess
import threading
import time

from harness.cases import Case, main
from harness.changing import CHANGED, NAMES, change
from harness.false_agent import listed
from harness.journal import read_journal
from harness.log_lines import events, messages
from harness.machine import slow_sync
from harness.sample_realm import write_configuration
from harness.server import Server, private

# seconds in which the service calls
PATIENCE = 10
FULL = "code 2 error 60 history full"
QUIET = "code 3 error 37 clock skew too great"
LINE = re.compile(
    r"(?P<moment>\S+) worker (?P<worker>\d+) peer 127\.0\.0\.1 client (?P<client>\S+) target (?P<target>\S+) "
    r"code (?P<code>\d+) error (?P<error>\S+) kvno (?P<kvno>\S+) text (?P<text>.*)")


# Requests of the service's own client: who asks with which words, for whom, and the code, the key version and the text of
# the answer. user0 may set user1's password.
REQUESTS = [
    ("user0", ["--password", "New-pass1"], "user0", 0, "2", "password changed"),
    ("user0", ["--password", "New1"], "user0", 4, "-", "password too short"),
    ("user0", ["--password", "New-pass2", "--no-initial"], "user0", 7, "-", "initial ticket needed"),
    ("user0", ["--password", "New-pass3", "--target", "user1"], "user1", 0, "2", "password changed"),
    ("user1", ["--password", "New-pass4", "--target", "user0"], "user0", 5, "-", "access denied"),
    ("user0", ["--password", "New-pass5", "--old"], "user0", 0, "3", "password changed"),
    ("user0", ["--password", "New-pass2", "--no-initial", "--old"], "user0", 7, "-", "initial ticket needed"),
]
RULE = '[[rule]]\nactor = "user0"\ntarget = "user1"\n'


def asked(server, name, words):
    """What the service's own client prints, with its status."""
    files = ["--config", server.configuration, "--seed", "/dev/urandom", "--port", str(server.port)]
    done = subprocess.run([server.program, "client", *files, "--client", name, *words], capture_output=True, text=True, timeout=60)
    return done.stdout + done.stderr, done.returncode


def logged(path):
    """The lines of a log's messages, each by its fields."""
    lines = messages(path.read_text())
    found = [LINE.fullmatch(line) for line in lines]
    return [it.groupdict() if it else line for it, line in zip(found, lines)]


def listening(path):
    """A socket where an agent is called."""
    listener = socket.socket(socket.AF_UNIX)
    listener.settimeout(PATIENCE)
    listener.bind(str(path))
    listener.listen()
    return listener


@contextlib.contextmanager
def silent_agent(listener, path):
    """An agent of a KDC that has the names: it says so if it is asked that first, and then nothing. Nobody else is called."""
    connection, _ = listener.accept()
    listener.close()
    path.unlink()
    with connection, connection.makefile("r") as reader:
        if reader.readline() == "list keys\n":
            connection.sendall(listed(*NAMES).encode())
        yield


class Lines(Case):
    def setUp(self):
        super().setUp()
        self.server = Server(self.program, self.folder, workers=1)
        self.addCleanup(self.server.end)
        write_configuration(self.server.configuration, NAMES)

    def test_raise_told(self):
        """A raise before the service listens is printed, and so is one to the count that there is; each is an entry."""
        server = self.server
        server.options = ["--raise", "8192"]
        for wanted in ("raised 8192", "count not higher"):
            server.start(connections=1)
            server.connect()
            self.tell(f"a raise: {wanted}", [server.said, server.last_words()], [[wanted], "entries 1 changes 0"])

    def test_raise_that_fills(self):
        """A raise takes the only entry of the first history: what is asked is answered in the next one."""
        server = self.server
        write_configuration(server.configuration, NAMES, max_entries=1)
        server.options = ["--raise", "8192"]
        server.start(connections=1)
        self.tell("a raise that fills its history", server.next_line(), "entries 1 changes 0\n")
        self.tell("  a change after it", change(server, NAMES[0], 1), CHANGED)
        self.tell("  its tally", server.last_words().splitlines()[0], "entries 1 changes 1")

    def test_tail_told(self):
        """A torn tail is cut off the journal, and reported with how many bytes are kept."""
        server = self.server
        server.start(connections=1)
        self.tell("a change", change(server, NAMES[0], 1), CHANGED)
        self.tell("its tally", server.last_words(), "entries 1 changes 1")
        whole = server.journal.read_bytes()
        server.journal.write_bytes(whole + whole[:20])
        server.start(connections=1)
        server.connect()
        told = f"entries 0 changes 0\n{server.journal}: a torn tail was cut off after {len(whole)} bytes"
        self.tell("a torn tail: told", server.last_words(), told)
        self.tell("a torn tail: cut off", server.journal.read_bytes() == whole, True)

    def test_tally_told(self):
        """Entries and changes aren't the same number where a request was refused."""
        server = self.server
        server.start(connections=2)
        self.tell("a change", change(server, NAMES[0], 1), CHANGED)
        self.tell("its password again", change(server, NAMES[0], 1), "code 4 password used before")
        self.tell("the tally of both", server.last_words(), "entries 2 changes 1")

    def test_log_of_two_workers(self):
        """Connection i has worker i modulo two; each line has its own moment."""
        server = self.server
        log = server.journal.with_name("log")
        server.workers, server.options = 2, ["--log", str(log)]
        begun = datetime.datetime.now(datetime.timezone.utc)
        server.start(connections=4)
        answers = [change(server, NAMES[0], number) for number in range(1, 5)]
        self.tell("two workers: answers", answers, [CHANGED] * 4)
        self.tell("two workers: the tally", server.last_words(), "entries 4 changes 4")
        lines = logged(log)
        principal = f"{NAMES[0]}@EXAMPLE.COM"
        wanted = [
            {"worker": str(number % 2), "client": principal, "target": principal, "code": "0", "error": "-",
             "kvno": str(number + 2), "text": "password changed"} for number in range(4)]
        moments = [datetime.datetime.fromisoformat(line.pop("moment").replace("Z", "+00:00")) for line in lines]
        self.tell("two workers: the log", lines, wanted)
        ended = datetime.datetime.now(datetime.timezone.utc)
        self.tell("two workers: the moments", begun <= moments[0] and moments == sorted(moments) and moments[-1] <= ended,
                    True)
        told = [datetime.datetime.fromisoformat(line.split(" ", 1)[0].replace("Z", "+00:00"))
                for line in log.read_text().splitlines()]
        self.tell("two workers: the service's moments", begun <= told[0] and told == sorted(told) and told[-1] <= ended, True)
        self.tell("two workers: start and end", events(log.read_text()),
                    ["started principals 2 iterations 4096 quiet-until -", "ended entries 4 changes 4"])

    def test_requests_logged(self):
        """What each request is answered, the log's line of it, the journal's records; and a message that has no request."""
        server = self.server
        log = server.journal.with_name("log")
        write_configuration(server.configuration, NAMES, iterations=4)
        server.configuration.write_text(server.configuration.read_text() + RULE)
        server.workers, server.options = 2, ["--log", str(log)]
        server.start(connections=len(REQUESTS) + 1)
        wanted = []
        for place, (name, words, target, code, kvno, text) in enumerate(REQUESTS):
            answer = asked(server, name, words)
            self.tell(f"requests: {name} {' '.join(words)}", answer, (f"code {code} {text}\n", 0 if code == 0 else 1))
            wanted.append({"worker": str(place % 2), "client": f"{name}@EXAMPLE.COM", "target": f"{target}@EXAMPLE.COM",
                           "code": str(code), "error": "-", "kvno": kvno, "text": text})
        with socket.create_connection(("127.0.0.1", server.port), timeout=PATIENCE) as client:
            client.sendall(b"\0\0\0\1\0")
            self.tell("requests: none, and a reply", len(client.recv(1)), 1)
        wanted.append({"worker": "1", "client": "-", "target": "-", "code": "1", "error": "60", "kvno": "-", "text": "malformed"})
        self.tell("requests: the tally", server.last_words(), "entries 7 changes 3")
        lines = logged(log)
        for line in lines:
            del line["moment"]
        self.tell("requests: the log", lines, wanted)
        self.tell("requests: start and end", events(log.read_text()),
                  ["started principals 2 iterations 4 quiet-until -", "ended entries 7 changes 3"])
        records, torn = read_journal(server.journal.read_bytes())
        self.tell("requests: the journal", ([(it.name, it.kvno) for it in records], torn),
                  ([("user0", 2), ("user1", 2), ("user0", 3)], b""))

    def test_full_logged(self):
        """Two are decided at once while the history has room for one: the other is told so, and logged with its names."""
        server = self.server
        log = server.journal.with_name("log")
        write_configuration(server.configuration, NAMES, max_entries=1)
        server.workers, server.options = 2, ["--log", str(log)]
        server.start(connections=2, env=slow_sync(server.seed.parent, 3_000))
        answers = {}
        asking = [
            threading.Thread(target=lambda name=name: answers.update({name: change(server, name, 1)})) for name in NAMES]
        asking[0].start()
        # its record is written, and being synced
        while not server.journal.stat().st_size and asking[0].is_alive():
            time.sleep(0.01)
        asking[1].start()
        for thread in asking:
            thread.join()
        self.tell("a full history: answers", [answers[name] for name in NAMES], [CHANGED, FULL])
        server.last_words()
        lines = [line for line in logged(log) if line["client"].startswith(NAMES[1])]
        for line in lines:
            del line["moment"]
        principal = f"{NAMES[1]}@EXAMPLE.COM"
        self.tell("a full history: logged", lines, [
            {"worker": "1", "client": principal, "target": principal, "code": "2", "error": "60", "kvno": "-",
             "text": "history full"}])

    def test_events_logged(self):
        """The service's own lines: a start that is quiet, a raise, a history that is full, and the end, which counts all
        histories' entries."""
        server = self.server
        log = server.journal.with_name("log")
        write_configuration(server.configuration, NAMES, max_entries=2)
        private(server.journal)
        server.options = ["--raise", "8192", "--log", str(log)]
        server.start(connections=2)
        answers = [change(server, NAMES[0], number) for number in range(2)]
        self.tell("events: answers", answers, [QUIET] * 2)
        self.tell("events: printed", server.last_words(), "entries 2 changes 0\nentries 1 changes 0")
        started, *others = events(log.read_text())
        words = "text requests are refused after a start; the clients' clocks are not at fault"
        told = re.fullmatch(r"started principals 2 iterations 4096 quiet-until (\S+) (text .*)", started)
        self.tell("events: why it is quiet", told and told[2], words)
        begun = datetime.datetime.fromisoformat(log.read_text().split(" ", 1)[0].replace("Z", "+00:00"))
        until = told and datetime.datetime.fromisoformat(told[1].replace("Z", "+00:00"))
        self.tell("events: quiet for 300 seconds", until and until - begun.replace(microsecond=0),
                    datetime.timedelta(seconds=300))
        self.tell("events: logged", others,
                    ["raised iterations 8192", "rolled-over entries 2 changes 0", "ended entries 3 changes 0"])
        log.unlink()
        server.journal.unlink()
        server.options = ["--log", str(log)]
        with socket.create_server(("127.0.0.1", server.port)):
            server.launch(connections=1)
            self.tell("events: a port in use", server.last_words(), f"cannot listen\n127.0.0.1:{server.port}: in use")
        self.tell("events: no start and no end", events(log.read_text()), [])

    def test_unconfirmed_told(self):
        """Each reply that waited for the KDC in vain has a line of the log; standard error has one until a change is confirmed. Without
        a connection none waits."""
        server = self.server
        log, path = server.journal.with_name("log"), server.journal.with_name("agent")
        server.options = ["--log", str(log), "--kdc", str(path), "--kdc-wait", "200"]
        first = listening(path)
        server.start(connections=4)
        with silent_agent(first, path):
            answers = [change(server, NAMES[0], number) for number in (1, 2)]
        answers.append(change(server, NAMES[0], 3))
        with silent_agent(listening(path), path):
            answers.append(change(server, NAMES[0], 4))
            told = server.last_words().splitlines()
        self.tell("a KDC that lags: answers", answers, [CHANGED] * 4)
        late = f"{path}: the KDC did not have a change in time; more are not reported until one is confirmed"
        down = f"{path}: no connection to the KDC's agent; it is tried again"
        self.tell("a KDC that lags: told", sorted(told), sorted(["entries 4 changes 4", late, down]))
        lines = [line.split(" ", 1)[1] for line in messages(log.read_text()) if " worker - " in line]
        words = "worker - peer 127.0.0.1 client - target - code - error - kvno - text not confirmed by the KDC: change "
        self.tell("a KDC that lags: logged", lines, [f"{words}{it}" for it in (1, 2, 4)])

    def test_silence(self):
        """A silent client's connection ends once it has kept silent for --idle, and not much later."""
        server = self.server
        server.idle = 2
        server.start(connections=1)
        begun = time.monotonic()
        with socket.create_connection(("127.0.0.1", server.port), timeout=20) as silent:
            self.tell("silence: ended without a word", silent.recv(1), b"")
        spent = time.monotonic() - begun
        self.tell("silence: after two seconds", 1.9 < spent < 4, True)
        self.tell("silence: its tally", server.last_words(), "entries 0 changes 0")


if __name__ == "__main__":
    main(__doc__)
