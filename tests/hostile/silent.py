"""Clients that keep the service waiting, by the thousand, and real ones among them.

Many clients connect one after the other to four workers that serve with `--idle 2`: in turn one that keeps silent, one that
sends the half of a message's length, one that sends half a message, and one that sends a byte of a message every quarter of
a second; every hundredth sends requests and reads no reply. Now and then one connects that changes its password. It has to
be answered within a second. The service ends each of the others once it has kept it waiting for two seconds, not before and
no more than three seconds later. All may be there at a time (`--clients`).

Then a quarter as many silent ones connect where 64 may be there at a time, with real ones among them: these are answered as
soon, those that have waited the longest are ended to make room, and 64 stay.

In the end a worker is kept busy: a message whose connection is reset before that worker takes it isn't decided, and one
whose client closes its writing side after it is answered.
"""

import contextlib
import functools
import heapq
import itertools
import math
import os
import pathlib
import resource
import selectors
import socket
import struct
import tempfile
import time

from harness import asking, wire
from harness.cases import Case, main
from harness.journal import read_journal
from harness.sample_realm import write_configuration
from harness.server import Server

WORKERS = 4
IDLE = 2
# seconds: from when a client keeps the service waiting to its end; to a real one's answer
LONGEST = 5
AT_ONCE = 1
# seconds between two bytes of those that send one at a time
DRIP = 0.25
# of these one reads no reply
DEAF_AMONG = 100
# where few may be there: how many, seconds from one to the next, and by how many another may be ended before one
# that came earlier; beside them the service has some files of its own
FEW = 64
PAUSE = 0.005
APART = 0.1
OWN_FILES = 16
# iterations that keep a worker busy for most of a second or longer; seconds until a message is where it goes to
BUSY = 1_000_000
UNDER_WAY = 0.1
# seconds that nothing happens before this script gives up
PATIENCE = 60
PASSWORD = "New-pass2"
CHANGED = "code 0 password changed"


class Client:
    """A connection of the crowd that keeps silent."""

    what = "silent"
    events = selectors.EVENT_READ

    def __init__(self, text=b""):
        # what it sends, as far as it does
        self.text = text
        self.socket = socket.socket()
        self.socket.setblocking(False)
        self.got = b""
        # the moments when it came, when it last did what may let the service wait longer, and of its end
        self.came = None
        self.since = None
        self.ended = None

    def begin(self, crowd):
        """It is connected."""

    def go_on(self):
        """Something can be read; whether this was the end."""
        more = self.socket.recv(65_536)
        self.got += more
        return not more


class Half(Client):
    """Sends the beginning of a message."""

    what = "with half a message"

    def begin(self, crowd):
        self.socket.send(self.text)


class Dripping(Client):
    """Sends a byte of a message now and then."""

    what = "with a byte now and then"

    def begin(self, crowd):
        self.drip(crowd, 0)

    def drip(self, crowd, place):
        if self.ended is None:
            with contextlib.suppress(OSError):
                self.socket.send(self.text[place : place + 1])
            crowd.later(DRIP, functools.partial(self.drip, crowd, place + 1))


class Deaf(Client):
    """Sends requests as long as there is room for them, and reads no reply."""

    what = "that read no reply"
    events = selectors.EVENT_WRITE

    def __init__(self, text):
        super().__init__(text)
        # the least room for replies; and not much for requests, so that few are on their way when there is no more
        self.socket.setsockopt(socket.SOL_SOCKET, socket.SO_RCVBUF, 1)
        self.socket.setsockopt(socket.SOL_SOCKET, socket.SO_SNDBUF, 32_768)
        self.sent = 0

    def go_on(self):
        self.sent = (self.sent + self.socket.send(self.text[self.sent :])) % len(self.text)
        self.since = time.monotonic()
        return False


class Real(Client):
    """Changes its password; its connection is over with the reply."""

    what = "real"

    def __init__(self, name):
        super().__init__()
        self.name = name
        self.request = None

    def begin(self, crowd):
        """It asks at once: within the five minutes of clock skew it is answered."""
        self.request = asking.request_now(self.name, PASSWORD, 1)
        self.since = time.monotonic()
        self.socket.send(asking.framed(self.request))

    def go_on(self):
        is_over = super().go_on()
        return is_over or len(self.got) >= 4 and len(self.got) == 4 + int.from_bytes(self.got[:4], "big")

    def told(self):
        """What it is told, and whether at once."""
        told = asking.said(self.request, self.got[4:]) if self.got else "nothing"
        return told, self.ended - self.since <= AT_ONCE


class Crowd:
    """All clients, in the order in which they connect; one connects at a time."""

    def __init__(self, server, clients, pause=0):
        self.port = server.port
        self.place = f"/proc/{server.process.pid}/fd"
        self.clients = clients
        self.pause = pause
        self.coming = iter(clients)
        self.connecting = None
        self.here = selectors.DefaultSelector()
        # what is to be done, and when
        self.timers = []
        self.order = itertools.count()
        # the most that were connected at a time, and that the service had open
        self.most = self.files = 0
        self.next_one()

    def later(self, seconds, what):
        heapq.heappush(self.timers, (time.monotonic() + seconds, next(self.order), what))

    def next_one(self):
        self.connecting = next(self.coming, None)
        if self.connecting:
            self.connecting.socket.connect_ex(("127.0.0.1", self.port))
            self.here.register(self.connecting.socket, selectors.EVENT_WRITE, self.connecting)

    def arrived(self):
        """The one that connects is connected."""
        came = self.connecting
        fault = came.socket.getsockopt(socket.SOL_SOCKET, socket.SO_ERROR)
        if fault:
            raise OSError(fault, "no connection")
        came.came = came.since = time.monotonic()
        self.here.modify(came.socket, came.events, came)
        came.begin(self)
        self.connecting = None
        self.most = max(self.most, len(self.here.get_map()))
        self.files = max(self.files, len(os.listdir(self.place)))
        self.later(self.pause, self.next_one)

    def happened(self, client):
        try:
            is_over = client.go_on()
        except BlockingIOError:
            return
        except ConnectionError:
            is_over = True
        if is_over:
            self.here.unregister(client.socket)
            client.ended = time.monotonic()
            client.socket.close()

    def serve(self, wait):
        """What happens within so many seconds; whether anything did."""
        if self.timers:
            wait = min(wait, max(0, self.timers[0][0] - time.monotonic()))
        found = self.here.select(wait)
        for key, _ in found:
            if key.data is self.connecting:
                self.arrived()
            else:
                self.happened(key.data)
        while self.timers and self.timers[0][0] <= time.monotonic():
            heapq.heappop(self.timers)[2]()
        return bool(found)

    def serve_until(self, is_over):
        last = time.monotonic()
        while not is_over():
            if self.serve(1):
                last = time.monotonic()
            elif time.monotonic() > last + PATIENCE:
                raise TimeoutError(f"{len(self.here.get_map())} connections, and nothing happens")

    def serve_all(self):
        """Until each one's connection has ended."""
        self.serve_until(lambda: all(client.ended for client in self.clients))

    def serve_real(self):
        """Until each real one's has ended, and a second longer."""
        self.serve_until(lambda: all(client.ended for client in self.clients if isinstance(client, Real)))
        end = time.monotonic() + 1
        self.serve_until(lambda: time.monotonic() >= end)

    def leave(self):
        """The clients end what is left; how many connections that is."""
        left = [client for client in self.clients if client.ended is None]
        for client in left:
            client.socket.close()
        return len(left)


def unopened():
    """A request with another service's ticket, so that the history has no room for it."""
    message = wire.request(b"nobody", b"Nothing-1", 1, service=bytes(32))
    return len(message).to_bytes(4, "big") + message


def waiting_ones(count):
    """Clients that keep the service waiting, each kind in turn."""
    text = unopened()
    kinds = [Client, lambda: Half(text[:2]), lambda: Half(text[: len(text) // 2]), lambda: Dripping(text)]
    for number in range(1, count + 1):
        yield Deaf(64 * text) if number % DEAF_AMONG == 0 else kinds[number % len(kinds)]()


def with_real_ones(waiting, every):
    """The clients, a real one after every so many."""
    clients = []
    for number, client in enumerate(waiting, 1):
        clients.append(client)
        if number % every == 0:
            clients.append(Real(f"user{number // every}"))
    return clients


def names_of(clients):
    return [client.name for client in clients if isinstance(client, Real)]


def tell_real(report, clients):
    for client in clients:
        if isinstance(client, Real):
            report.tell(f"a real client, {client.ended - client.since:.2f} s", client.told(), (CHANGED, True))


def tell_waiting(report, clients):
    """Of each kind those that the service ended early or late, with the seconds that they were there and waited."""
    kinds = {}
    for client in clients:
        if not isinstance(client, Real):
            times = client.ended - client.came, client.ended - client.since
            kinds.setdefault(client.what, []).append(times)
    for what, all_times in kinds.items():
        wrong = [times for times in all_times if times[0] <= IDLE - 0.5 or times[1] > LONGEST]
        report.tell(f"{len(all_times)} {what}, those ended early or late", wrong, [])


def tell_end(report, server, names):
    """What the service did: a change of each name, and no more."""
    done = len(names)
    report.tell("serve's last line", server.last_words(), f"entries {done} changes {done}")
    report.tell("serve's status", server.process.returncode, 0)
    records, torn = read_journal(server.journal.read_bytes())
    found = sorted((record.name, record.kvno) for record in records), torn
    report.tell("in the journal", found, (sorted((name, 2) for name in names), b""))


def last_client(report, server, name):
    """One that comes when all are gone."""
    request = asking.request_now(name, PASSWORD, 1)
    start = time.monotonic()
    connection = asking.Connection(server.port)
    connection.send(request)
    reply = connection.reply()
    waited = time.monotonic() - start
    connection.close()
    told = asking.said(request, reply) if reply else "nothing"
    report.tell(f"the last one, {waited:.2f} s", (told, waited <= AT_ONCE), (CHANGED, True))


def many(report, started, silent, every):
    """All may be there at a time."""
    clients = with_real_ones(waiting_ones(silent), every)
    names = [*names_of(clients), "last"]
    options = ["--clients", len(clients)]
    with started(names, len(clients) + 1, idle=IDLE, options=options) as server:
        crowd = Crowd(server, clients)
        start = time.monotonic()
        crowd.serve_all()
        seconds = time.monotonic() - start
        print(f"{len(clients)} connections in {seconds:.0f} s, {crowd.most} of them at a time")
        tell_real(report, clients)
        tell_waiting(report, clients)
        last_client(report, server, "last")
        tell_end(report, server, names)


def out_of_order(clients):
    """How many were ended before others that had come earlier."""
    latest, count, earlier = 0, 0, iter(clients)
    before = next(earlier)
    for client in clients:
        # of all that came well before it the last end
        while before.came < client.came - APART:
            latest = max(latest, before.ended or math.inf)
            before = next(earlier)
        count += client.ended is not None and latest > client.ended + APART
    return count


def few(report, started, silent, every):
    """No more than some may be there at a time."""
    clients = with_real_ones([Client() for _ in range(silent)], every)
    names = [*names_of(clients), "last"]
    options = ["--clients", FEW]
    with started(names, len(clients) + 1, idle=PATIENCE, options=options) as server:
        crowd = Crowd(server, clients, PAUSE)
        crowd.serve_real()
        left = crowd.leave()
        print(f"{len(clients)} connections where {FEW} may be there: {crowd.files} files, {left} stay")
        tell_real(report, clients)
        report.tell("files", crowd.files <= FEW + OWN_FILES, True)
        # a real one that came last has left its place free
        free = isinstance(clients[-1], Real)
        report.tell("those that stay", left, min(silent, FEW - free))
        report.tell("ended before earlier ones", out_of_order([it for it in clients if not isinstance(it, Real)]), 0)
        last_client(report, server, "last")
        tell_end(report, server, names)


def behind_a_busy_worker(report, started):
    """Messages of connections that end, in one or both directions, before their worker takes them."""
    names = ["busy", "reset", "closed"]
    with started(names, 4, workers=1, iterations=BUSY) as server:
        requests = [asking.request_now(name, PASSWORD, 1) for name in names]
        connections = []
        for request in requests:
            connections.append(asking.Connection(server.port))
            connections[-1].send(request)
            time.sleep(UNDER_WAY)
        busy, reset, closed = connections
        reset.socket.setsockopt(socket.SOL_SOCKET, socket.SO_LINGER, struct.pack("ii", 1, 0))
        reset.close()
        closed.socket.shutdown(socket.SHUT_WR)
        over = time.monotonic()
        report.tell("one that keeps the worker busy", asking.said(requests[0], busy.reply()), CHANGED)
        waited = time.monotonic() - over
        report.tell(f"still for {waited:.1f} s", waited > UNDER_WAY, True)
        reply = closed.reply()
        told = asking.said(requests[2], reply) if reply else "nothing"
        report.tell("one whose client closed its writing side", told, CHANGED)
        again = asking.Connection(server.port)
        again.send(requests[1])
        told = asking.said(requests[1], again.reply())
        report.tell("one whose connection was reset, asked again", told, CHANGED)
        for connection in (busy, closed, again):
            connection.close()
        tell_end(report, server, names)


@contextlib.contextmanager
def service(program, names, connections, workers=WORKERS, idle=None, iterations=16, options=()):
    """A service that listens, in a folder of its own."""
    with tempfile.TemporaryDirectory(prefix="chpw-silent-") as folder:
        server = Server(program, pathlib.Path(folder), workers, idle, options)
        write_configuration(server.configuration, names, iterations=iterations)
        try:
            server.start(connections)
            yield server
        finally:
            server.end()


class SilentClients(Case):
    def setUp(self):
        super().setUp()
        _, most = resource.getrlimit(resource.RLIMIT_NOFILE)
        resource.setrlimit(resource.RLIMIT_NOFILE, (most, most))
        self.started = functools.partial(service, self.program)

    def test_many(self):
        many(self, self.started, self.words.silent, self.words.every)

    def test_few(self):
        few(self, self.started, self.words.silent // 4, max(1, self.words.every // 4))

    def test_after_a_busy_worker(self):
        behind_a_busy_worker(self, self.started)


def add_options(parser):
    parser.add_argument("--silent", type=int, default=2_000, metavar="N", help="clients that keep it waiting, by default 2000")
    parser.add_argument("--every", type=int, default=200, metavar="N", help="a real client after so many, by default 200")


if __name__ == "__main__":
    main(__doc__, add_options)
