"""What scripts of cases over sockets have in common: a service for each case, its clients, and its clock.

A client's requests are of harness/wire.py, which shares nothing with the service, and what the replies to
them say is read by harness/asking.py.
"""

import os
import select
import time

from harness import asking, wire
from harness.cases import Case
from harness.machine import machine
from harness.sample_realm import write_configuration
from harness.server import Server

# the second at which a clock that is set stands at first, and one of which tickets are
START = 1_000_100
CHANGED = "code 0 password changed"
REPLAYED = "code 3 error 34 request replayed"
# a message that has no request, and is answered all the same
NO_REQUEST = bytes.fromhex("0006ff800000")
# the most bytes of a message, and the most seconds that a read waits
LONGEST = 65_535
PATIENCE = 10
# the record of a change of alice, and one of bob's (docs/PROTOCOL, The journal)
ALICES, BOBS = 66, 64


def request(name, ctime=START, password="New-pass2", cusec=7, **more):
    """A change of one's own password, dated by a clock that is set."""
    return asking.Request(ctime, cusec, wire.request(name.encode(), password.encode(), cusec, ctime=ctime, **more))


def both_requests():
    """Requests of alice and of bob at this moment, of one second and microsecond."""
    return [asking.request_now(name, "New-pass2", 7) for name in ("alice", "bob")]


def parts_of(reply):
    """AP-REP and KRB-PRIV of a reply (RFC 3244 section 2)."""
    size = int.from_bytes(reply[4:6], "big")
    return reply[6 : 6 + size], reply[6 + size :]


def with_length(message):
    """As it goes over TCP."""
    return len(message).to_bytes(4, "big") + message


class Client(asking.Connection):
    """A connection to a service, from this address, where there is one."""

    def __init__(self, server, address=None, host="127.0.0.1"):
        super().__init__(server.port, PATIENCE, address, host)

    def send_bytes(self, *texts):
        self.socket.sendall(b"".join(texts))

    def send_messages(self, *messages):
        self.send_bytes(*map(with_length, messages))

    def told(self, sent):
        """What the next reply says to a request."""
        try:
            reply = self.reply()
        except TimeoutError:
            return f"no reply within {PATIENCE} s"
        return self.said(sent, reply)

    @staticmethod
    def said(sent, reply):
        return asking.said(sent, reply) if reply else "no reply"

    def ask(self, sent):
        self.send(sent)
        return self.told(sent)

    def has_reply(self):
        """Whether the next reply comes, and has bytes."""
        return bool(self.reply())

    def is_ended(self):
        """Whether the service ends the connection, and sends nothing before."""
        try:
            return self.reader.read(1) == b""
        except ConnectionResetError:
            return True

    def is_closed(self):
        """The same, where the service has read all that came."""
        return self.reader.read(1) == b""

    def is_silent(self):
        """Whether there is nothing to read at the moment."""
        return not select.select([self.socket], [], [], 0)[0]


class Watch:
    """Time from now on."""

    def __init__(self):
        self.start = time.monotonic()

    def spent(self):
        return time.monotonic() - self.start


class SetClock:
    """The clock of the day of a service, which stands still until it is set."""

    def __init__(self, folder, second=START):
        self.file = folder / "clock"
        self.set(second)

    def set(self, second):
        written = self.file.with_suffix(".new")
        written.write_text(str(second))
        os.replace(written, self.file)


class Hold:
    """Holds the first thread of a service that comes there, from `hold` until `free`."""

    def __init__(self, folder, name):
        self.file = folder / name
        self.held = folder / f"{name}.held"

    def hold(self):
        self.file.touch()

    def wait(self):
        """Until a thread is held."""
        watch = Watch()
        while not self.held.exists():
            if watch.spent() > PATIENCE:
                raise TimeoutError("nobody came to be held")
            time.sleep(0.001)

    def free(self):
        self.held.unlink()


class ServiceCase(Case):
    """A case with a service that it starts in its folder."""

    def setUp(self):
        super().setUp()
        self.server = Server(self.program, self.folder, workers=1)
        # the same words in each run: a number of theirs stands in an AP-REP, in as many bytes as it needs
        self.server.seed.write_bytes(bytes([7] * 32))
        self.addCleanup(self.server.end)
        self.clients = []
        self.realm()

    def realm(self, names=("alice", "bob"), **settings):
        """The realm of alice and bob, or of others, with keys under four iterations where the settings have no others."""
        write_configuration(self.server.configuration, names, **{"iterations": 4, **settings})

    def start(self, connections, **words):
        """The service, once it listens."""
        self.launch(connections, **words)
        self.server.listens()

    def launch(self, connections, workers=1, options=(), **words):
        """The service for so many connections, with these options, and a machine as these words have it."""
        self.server.workers, self.server.options = workers, list(options)
        environment = machine(self.folder, **words) if words else None
        self.server.launch(connections, env=environment, cwd=self.folder)

    def client(self, *address, **host):
        self.clients.append(Client(self.server, *address, **host))
        return self.clients[-1]

    def tell(self, what, found, wanted):
        super().tell(f"{self.name}: {what}", found, wanted)

    def tell_within(self, seconds, watch):
        """It was over by then."""
        spent = watch.spent()
        self.tell(f"within {seconds} s ({spent:.2f})", spent < seconds, True)

    def last_lines(self):
        """What the service says, and how it ends, once the clients have left: all connections were served."""
        while self.clients:
            self.clients.pop().close()
        return self.server.last_words().splitlines(), self.server.process.returncode

    def tell_end(self, *lines):
        self.tell("its end", self.last_lines(), (list(lines), 0))
