"""`serve` at its control socket: what it answers there, and what `status`, `reopen-log` and `stop` do while it works.

What a line is answered is what docs/PROTOCOL has (The control socket). The clock of the day stands still where a case sets
it (machine.c). Needs gcc.
"""

import concurrent.futures
import itertools
import multiprocessing
import os
import re
import socket
import stat
import threading
import time

from harness.cases import main
from harness.asking import request_now
from harness.controlling import NO_CHANGE, OK, ONE_CHANGE, Caller, ask, logged, rewrite, start, status, tell_end, tell_stop, told
from harness.controlling import wait_for
from harness.server import private
from harness.serving import ALICES, CHANGED, NO_REQUEST, START, Client, Hold, SetClock, Watch, with_length, request, ServiceCase

NAMES = [
    "version", "since", "quiet-until", "quiet-reason", "principals", "iterations", "entries", "changes", "all-entries",
    "all-changes", "connections", "reading", "waiting", "answering", "confirming", "writing", "ending", "workers", "busy",
    "queue", "journal-bytes", "journal", "journal-name", "log-lost", "log-name", "kdc", "kdc-since", "kdc-behind",
    "kdc-refused",
]
# why requests are refused while it is quiet
QUIET = "requests are refused after a start; the clients' clocks are not at fault"
# the longest line of a command
LONGEST = 4_200
CROWD = 1_000
# for how many callers there is room at a time
ROOM = 64
# callers that hang up: with orders, and with questions
GONE = 20
MANY = 3_000
# questions beside clients that work, and within how many seconds the 99th of a hundred is answered; on a machine that
# has nothing else to do it is a twentieth of a second
QUESTIONS = 100
# for how many seconds a service has nothing to do
IDLE = 4
SOON = 1
# of a message that comes byte by byte: its bytes, and the milliseconds of each; it takes 15 seconds
DRIPS, DRIP = 1_500, 10
# within how many seconds others have their turn meanwhile; on a machine that has nothing else to do it is half a second
TURN = 7


LINES = [
    (b"status", b"", "error: no whole line\n"),
    (b"", b"", "error: no whole line\n"),
    (b"\n", None, "error: unknown command\n"),
    (b"status \n", None, "error: unknown command\n"),
    (b"Status\n", None, "error: unknown command\n"),
    (b"compact\n", None, "error: compact wants a file\n"),
    (b"compact \xff\n", None, "error: bad file name\n"),
    (b"x" * LONGEST + b"\n", None, "error: unknown command\n"),
    (b"x" * (LONGEST + 1) + b"\n", None, "error: line too long\n"),
    (b"reopen-log\nstop\n", None, OK),
]


def flood(caller):
    try:
        caller.send(b"x" * 1_048_576)
    except OSError:
        pass


def change_on(port_of, name, number):
    """Changes this principal's password until the process is ended."""
    client = Client(port_of)
    for turn in itertools.count(1):
        client.ask(request_now(name, f"Pass-{turn:04}", 100_000 * number + turn))


def begun(case):
    """A caller whose order is under way: a compact journal, which is synced twice and more."""
    client = case.client()
    for number in range(4):
        case.tell("a change", client.ask(request_now("alice", f"New-pass{number}", 1 + number)), CHANGED)
    caller = Caller(case)
    caller.send("compact copy\n")
    wait_for(lambda: (case.folder / "copy").exists())
    return caller


def leave(case, line):
    """A caller that sends this and hangs up, once there is a place in the queue."""
    while True:
        try:
            caller = Caller(case)
            break
        except BlockingIOError:
            time.sleep(0.001)
    caller.send(line)
    caller.socket.close()


def listen(case, place):
    case.listener = socket.socket(socket.AF_UNIX)
    case.listener.bind(str(place))
    case.listener.listen()


class Control(ServiceCase):
    def test_how_it_stands(self):
        """Each line is there, in its order, with what is so."""
        start(self, workers=3)
        self.tell("a change", self.client().ask(request_now("alice", "New-pass2", 1)), CHANGED)
        found = ask(self, "status")
        self.tell("names", [line.split(" ")[0] for line in found.splitlines()], [*NAMES, "ok"])
        values = status(self)
        wanted = {"principals": "2", "iterations": "4", "entries": "1", "changes": "1", "all-entries": "1",
                  "all-changes": "1", "connections": "1", "reading": "1", "waiting": "0", "workers": "3", "busy": "0",
                  "journal-bytes": "66", "journal": "good", "journal-name": "good", "log-lost": "0", "log-name": "-", "kdc": "none",
                  "kdc-since": "-", "kdc-behind": "0", "kdc-refused": "-", "quiet-until": "-", "quiet-reason": "-"}
        self.tell("values", {name: values[name] for name in wanted}, wanted)
        moment = re.fullmatch(r"\d{4}-\d\d-\d\dT\d\d:\d\d:\d\d\.\d{6}Z", values["since"])
        self.tell("since", bool(moment), True)
        mode = stat.S_IMODE(os.stat(self.folder / "control").st_mode)
        self.tell("the socket's mode", oct(mode), "0o600")
        self.tell("the command", told(self, "status")[0].splitlines()[4:6], ["principals 2", "iterations 4"])
        tell_end(self, ONE_CHANGE)

    def test_quiet(self):
        """Behind a second start it is told until when changes are refused, and once that is over nothing."""
        clock = SetClock(self.folder)
        private(self.server.journal)
        start(self, CLOCK=clock.file)
        values = status(self)
        self.tell("quiet", (values["quiet-until"], values["quiet-reason"]), ("1970-01-12T13:53:20.000000Z", QUIET))
        clock.set(START + 301)
        values = status(self)
        self.tell("no more", (values["quiet-until"], values["quiet-reason"]), ("-", "-"))
        tell_end(self, NO_CHANGE)

    def test_names_of_open_files(self):
        """The names of journal and log: each is renamed away, replaced, and put back; the log is opened anew, and a compact journal
        replaces the journal."""
        start(self, options=["--log", "log"])
        client = self.client()

        def leads():
            values = status(self)
            return values["journal-name"], values["log-name"]

        self.tell("both", leads(), ("good", "good"))
        for place, path in enumerate((self.server.journal, self.folder / "log")):
            away = path.with_name(path.name + ".away")
            path.rename(away)
            self.tell(f"{path.name} renamed", leads()[place], "gone")
            private(path)
            self.tell(f"{path.name} replaced", leads()[place], "elsewhere")
            away.replace(path)
            self.tell(f"{path.name} put back", leads()[place], "good")
        (self.folder / "log").rename(self.folder / "log.1")
        self.tell("reopen-log", (told(self, "reopen-log"), leads()), ((OK, 0), ("good", "good")))
        changes = [client.ask(request_now("alice", f"Pass-{it}", 1 + it)) for it in range(4)]
        self.tell("changes", changes, [CHANGED] * 4)
        self.tell("compact", (told(self, "compact", "copy"), leads()), ((OK, 0), ("good", "good")))
        tell_stop(self)

    def test_idle(self):
        """Nobody comes for some seconds: the service asks for callers once in each of its ticks, of a second then."""
        asked = self.folder / "asked"
        start(self, ACCEPTED=asked)
        self.tell("a status", status(self)["connections"], "0")
        before = asked.stat().st_size
        time.sleep(IDLE)
        count = asked.stat().st_size - before
        self.tell(f"asks in {IDLE} s ({count})", 1 <= count <= 2 * IDLE, True)
        self.tell("a status after", status(self)["connections"], "0")
        tell_end(self, NO_CHANGE)

    def test_bad_lines(self):
        """Each has its own answer, and none does anything."""
        start(self)
        for sent, behind, wanted in LINES:
            caller = Caller(self)
            caller.send(sent)
            if behind is not None:
                caller.socket.shutdown(socket.SHUT_WR)
            self.tell(repr(sent[:20]), caller.answer(), wanted)
        watch = Watch()
        half, silent = Caller(self), Caller(self)
        half.send("stat")
        self.tell("half a line", half.answer(), "error: no command within a second\n")
        self.tell("no line", silent.answer(), "error: no command within a second\n")
        self.tell_within(2.5, watch)
        huge = Caller(self)
        sender = threading.Thread(target=flood, args=(huge,))
        sender.start()
        self.tell("a megabyte", huge.answer(), "error: line too long\n")
        sender.join()
        tell_end(self, NO_CHANGE)

    def test_in_pieces(self):
        """A line that comes byte by byte, by one who then closes its side."""
        start(self)
        caller = Caller(self)
        for byte in b"status\n":
            caller.send(bytes([byte]))
            time.sleep(0.01)
        caller.socket.shutdown(socket.SHUT_WR)
        self.tell("the answer", caller.answer().endswith(f"\n{OK}"), True)
        tell_end(self, NO_CHANGE)

    def test_a_crowd(self):
        """A thousand at once are each answered, while a client's change goes on."""
        start(self)
        with concurrent.futures.ThreadPoolExecutor(100) as pool:
            asked = [pool.submit(ask, self, "status") for _ in range(CROWD)]
            self.tell("a change", self.client().ask(request_now("alice", "New-pass2", 1)), CHANGED)
            ends = [it.result().endswith(f"\n{OK}") for it in asked]
        self.tell("answers", (len(ends), all(ends)), (CROWD, True))
        silent = [Caller(self) for _ in range(CROWD)]
        answers = {it.answer() for it in silent}
        self.tell("a thousand silent ones", answers, {"error: no command within a second\n"})
        tell_end(self, ONE_CHANGE)

    def test_a_caller_too_many(self):
        """There is room for 64: the next one is accepted once one of those who say nothing is let go, after a second."""
        start(self)
        watch = Watch()
        silent = [Caller(self) for _ in range(ROOM)]
        answer = ask(self, "status")
        self.tell("not within a second", watch.spent() > 0.99, True)
        self.tell("answered", answer.endswith(f"\n{OK}"), True)
        self.tell("the silent ones", {it.answer() for it in silent}, {"error: no command within a second\n"})
        tell_end(self, NO_CHANGE)

    def test_under_way(self):
        """While the only worker is held `status` is answered at once, and has what waits."""
        hold = Hold(self.folder, "worker")
        clock = SetClock(self.folder)
        start(self, CLOCK=clock.file, HELD=hold.file)
        hold.hold()
        clients = [self.client() for _ in range(3)]
        sent = [request("alice"), request("bob"), request("alice", START, "New-pass3", 8)]
        for client, it in zip(clients, sent):
            client.send(it)
        hold.wait()
        watch = Watch()
        values = status(self)
        self.tell_within(0.5, watch)
        self.tell("stages", [values[it] for it in ("busy", "queue", "answering", "waiting", "connections")],
                  ["1", "2", "1", "2", "3"])
        hold.free()
        self.tell("answers", [client.told(it) for client, it in zip(clients, sent)], [CHANGED] * 3)
        tell_end(self, "entries 3 changes 3")

    def test_amid_clients(self):
        """How it stands is told soon while eight clients, each in a process of its own, change passwords without a pause."""
        names = [f"user{number}" for number in range(8)]
        rewrite(self, names)
        start(self, workers=4)
        busy = [multiprocessing.Process(target=change_on, args=(self.server, *it)) for it in zip(names, range(8))]
        for process in busy:
            process.start()
        wait_for(lambda: int(status(self)["changes"]) >= len(names))
        before, spent, ends = int(status(self)["changes"]), [], set()
        for _ in range(QUESTIONS):
            watch = Watch()
            ends.add(ask(self, "status").endswith(f"\n{OK}"))
            spent.append(watch.spent())
            time.sleep(0.01)
        changes = int(status(self)["changes"]) - before
        for process in busy:
            process.kill()
            process.join()
        spent.sort()
        self.tell("answers", ends, {True})
        self.tell(f"changes meanwhile ({changes})", changes > 0, True)
        self.tell(f"the 99th of {QUESTIONS} within {SOON} s (half within {1_000 * spent[49]:.1f} ms, 99 within "
                  f"{1_000 * spent[98]:.1f} ms)", spent[98] < SOON, True)
        tell_stop(self)

    def test_orders_in_turn(self):
        """Orders are carried out in the order of their connections, whatever places these have: the last to come has a place
        before the one that came earlier, since another left it."""
        start(self, options=["--log", "log"], SLOW=500)
        long = begun(self)
        leaving, early = Caller(self), Caller(self)
        early.send("reopen-log\n")
        leaving.send("status\n")
        self.tell("the one who leaves", leaving.answer().endswith(f"\n{OK}"), True)
        late = Caller(self)
        late.send("reload\n")
        self.tell("answers", [it.answer() for it in (long, early, late)], [OK] * 3)
        words = [it.split(" ")[0] for it in logged(self)]
        self.tell("the log", [it for it in words if it in ("log-reopened", "reloaded")], ["log-reopened", "reloaded"])
        tell_stop(self)

    def test_callers_that_are_gone(self):
        """An order whose caller has hung up before it is begun isn't carried out; whoever has ended only its own side is
        answered. Callers that have gone hold up nobody."""
        start(self, options=["--log", "log"], SLOW=500)
        long = begun(self)
        for _ in range(GONE):
            leave(self, "reload\n")
        half = Caller(self)
        half.send("reopen-log\n")
        half.socket.shutdown(socket.SHUT_WR)
        self.tell("answers", [it.answer() for it in (long, half)], [OK] * 2)
        for _ in range(MANY):
            leave(self, "status\n")
        watch = Watch()
        self.tell("the next one", ask(self, "status").endswith(f"\n{OK}"), True)
        self.tell_within(1, watch)
        # The service, which has nothing else to do, would else begin it before its caller has hung up.
        self.server.halt()
        leave(self, "stop\n")
        self.server.go_on()
        self.tell("it goes on", self.client().ask(request_now("alice", "New-pass9", 9)), CHANGED)
        words = [it.split(" ")[0] for it in logged(self)]
        self.tell("the log", [it for it in words if it in ("log-reopened", "reloaded")], ["log-reopened"])
        tell_stop(self)

    def test_a_rotated_log(self):
        """The log's file is moved, and opened anew: lines go on there."""
        start(self, options=["--log", "log"])
        client = self.client()
        self.tell("a change", client.ask(request_now("alice", "New-pass2", 1)), CHANGED)
        log, old = self.folder / "log", self.folder / "log.1"
        log.rename(old)
        self.tell("one before", client.ask(request_now("alice", "New-pass3", 2)), CHANGED)
        self.tell("reopen-log", told(self, "reopen-log"), (OK, 0))
        self.tell("one after", client.ask(request_now("alice", "New-pass4", 3)), CHANGED)
        self.tell("the moved one", [line.split(" ")[1] for line in old.read_text().splitlines()],
                  ["service", "worker", "worker"])
        lines = log.read_text().splitlines()
        self.tell("the new one", [" ".join(line.split(" ")[1:3]) for line in lines], ["service log-reopened", "worker 0"])
        log.unlink()
        log.mkdir()
        self.tell("a folder", told(self, "reopen-log"), ("error: cannot write log\n", 1))
        log.rmdir()
        os.link(self.server.journal, log)
        self.tell("the journal", told(self, "reopen-log"), ("error: cannot write log\n", 1))
        self.tell("it goes on", client.ask(request_now("alice", "New-pass5", 4)), CHANGED)
        tell_end(self, "entries 4 changes 4")

    def test_without_a_log(self):
        start(self)
        self.tell("reopen-log", told(self, "reopen-log"), (OK, 0))
        tell_end(self, NO_CHANGE)

    def test_stopped(self):
        """What is under way is finished, and what isn't a whole message yet ends."""
        hold = Hold(self.folder, "worker")
        clock = SetClock(self.folder)
        start(self, CLOCK=clock.file, HELD=hold.file)
        hold.hold()
        silent, half, first, second = (self.client() for _ in range(4))
        sent = [request("alice"), request("bob")]
        half.send_bytes(with_length(request("alice", cusec=9).message)[:100])
        first.send(sent[0])
        hold.wait()
        second.send(sent[1])
        stopping = Caller(self)
        stopping.send("stop\n")
        self.tell("the silent one", silent.is_ended(), True)
        self.tell("half a message", half.is_ended(), True)
        self.tell("how it stands", ask(self, "status").endswith(f"\n{OK}"), True)
        hold.free()
        self.tell("answers", [first.told(sent[0]), second.told(sent[1])], [CHANGED] * 2)
        self.tell("stop", stopping.answer(), OK)
        self.tell("its end", (self.server.last_words(), self.server.process.returncode), ("entries 2 changes 2", 0))

    def test_amid_bytes_one_by_one(self):
        """A message whose bytes come one by one, each in a hundredth of a second, holds up nobody else: a connection has its
        turn and no more, whether the thread of the sockets reads it or the worker that has answered the message before."""
        for what, before in (("a first message", []), ("a message after a reply", [NO_REQUEST])):
            start(self, DRIPS=DRIP)
            client = self.client()
            client.send_messages(*before, bytes(DRIPS))
            replies = [client.has_reply() for _ in before]
            time.sleep(0.1)
            watch = Watch()
            self.tell(f"{what}: status meanwhile", ask(self, "status").endswith(f"\n{OK}"), True)
            spent = watch.spent()
            self.tell(f"{what}: within {TURN} s ({spent:.2f})", (replies, spent < TURN), ([True] * len(before), True))
            self.server.end()

    def test_a_message_before_a_stop(self):
        """A message that has come before the stop is read is answered, though it wasn't read itself: here both come while the
        thread of the sockets is held."""
        accept = Hold(self.folder, "accept")
        start(self, ACCEPT=accept.file)
        client = self.client()
        self.tell("a change", client.ask(request_now("alice", "New-pass2", 1)), CHANGED)
        accept.hold()
        stopping = Caller(self)
        accept.wait()
        sent = request_now("bob", "New-pass2", 2)
        client.send(sent)
        stopping.send("stop\n")
        accept.free()
        self.tell("the other one's answer", client.told(sent), CHANGED)
        self.tell("stop", stopping.answer(), OK)
        self.tell("its end", (self.server.last_words(), self.server.process.returncode), ("entries 2 changes 2", 0))

    def test_a_stop_amid_a_compact_journal(self):
        """Who asked for a compact journal has an answer once it is there, though the service is told to stop meanwhile; and
        so has who asked for that."""
        start(self, SLOW=300)
        long, stopping = begun(self), Caller(self)
        stopping.send("stop\n")
        self.tell("compact", long.answer(), OK)
        self.tell("it is there", self.server.journal.stat().st_size < 4 * ALICES, True)
        self.tell("stop", stopping.answer(), OK)
        lines = self.server.last_words().splitlines()
        self.tell("its end", (lines[0], self.server.process.returncode), ("entries 4 changes 4", 0))

    def test_a_caller_before_the_mode(self):
        """Whoever has connected before the socket had its mode isn't heard."""
        mode = Hold(self.folder, "mode")
        mode.hold()
        self.launch(100, options=["--control", "control"], MODE=mode.file)
        mode.wait()
        early = [Caller(self) for _ in range(3)]
        for caller in early:
            caller.send("status\n")
        mode.free()
        self.server.listens()
        self.tell("who came before", [caller.answer() for caller in early], [""] * 3)
        self.tell("who comes then", status(self)["connections"], "0")
        tell_end(self, NO_CHANGE)

    def test_a_socket_that_is_left(self):
        """A socket that a killed service left is taken over; one at which somebody listens isn't, nor is a file."""
        place = self.folder / "control"
        start(self)
        self.server.process.kill()
        self.server.process.wait()
        self.tell("it is left", place.exists(), True)
        start(self)
        self.tell("status", ask(self, "status").endswith(f"\n{OK}"), True)
        tell_end(self, NO_CHANGE)
        for what, make in (("a file", place.touch), ("a folder", place.mkdir), ("a listener", lambda: listen(self, place))):
            make()
            self.launch(1, options=["--control", "control"])
            self.tell(what, (self.server.last_words(), self.server.process.returncode),
                      ("cannot listen at control", 1))
            self.tell("  it stays", place.exists(), True)
            if place.is_dir():
                place.rmdir()
            else:
                place.unlink()
        self.launch(1, options=["--control", "nowhere/control"])
        self.tell("no folder", self.server.last_words(), "cannot listen at nowhere/control")


if __name__ == "__main__":
    main(__doc__)
