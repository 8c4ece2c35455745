"""A history that runs full, three times over, during changes.

`serve` takes 1,000 decisions into a history (max_entries = 1000). Four clients change their passwords
until 3,200 requests were decided, and ask in between what is refused: a password of theirs again, and
an earlier message again. Each has a principal of its own, and sends five messages at once. Two keep
one connection from the first message to the last, the others open a new one now and then. What was
answered `history full` is sent again, over the same connection.

A full history ends no connection. What comes after its last entry is decided in the next one; only
what its workers had under way may be answered `history full`, one message of each. Each other message has
to be decided once and answered once, as what the client was answered before has it. The service prints
`entries 1000 changes N` for each full history, and at the end the same of the last one; it goes on
without a quiet time; what was accepted in the first history is a replay in each later one. All accepted
changes, and no others, are in the journal, in order, with versions and keys.
"""

import threading

from harness import asking
from harness.cases import Case, main
from harness.journal import read_journal
from harness.sample_realm import write_configuration
from harness.server import Server
from harness.wire import REALM, string_to_key

ENTRIES = 1_000
HISTORIES = 3
DECISIONS = 3_200
CLIENTS = 4
WORKERS = 4
ITERATIONS = 16
CONNECTIONS = 1_000
# messages over one connection of a client that opens new ones
A_CONNECTION = 20
# newest keys of which no password may be taken again, as the configuration has it
DEPTH = 3
# answers `history full` to one client: with more of them no history follows
MOST_FULL = 100

CHANGED = "code 0 password changed"
USED = "code 4 password used before"
REPLAYED = "code 3 error 34 request replayed"
FULL = "code 2 error 60 history full"


class Doors:
    """Opens connections, no more than the service takes; it ends with the last one."""

    def __init__(self, port):
        self.port = port
        self.left = CONNECTIONS
        self.lock = threading.Lock()

    def open(self):
        with self.lock:
            self.left -= 1
        return asking.Connection(self.port)

    def open_the_rest(self):
        while self.left:
            self.open().close()


class Client(threading.Thread):
    """Asks for changes, and counts what was decided."""

    def __init__(self, name, doors, a_connection):
        super().__init__()
        self.name = name
        self.doors = doors
        # messages over one connection; over the only one where it is none
        self.a_connection = a_connection
        self.connection = None
        self.sent_here = 0
        self.asked = 0
        # numbers of the requests that were decided, and passwords of the changes that were accepted, in order
        self.numbers = set()
        self.changed = []
        self.decided = self.full = self.ended = 0
        self.wrong = []
        self.first = None

    def run(self):
        try:
            while self.decided < DECISIONS / CLIENTS:
                self.ask(self.five())
        except (OSError, ValueError) as fault:
            self.wrong.append(f"{self.name}: {fault!r}")
        self.leave()

    def leave(self):
        if self.connection:
            self.connection.close()
        self.connection = None

    def request(self, password):
        """A request, and the password that it asks for."""
        self.asked += 1
        return asking.request_now(self.name, password, self.asked), password

    def five(self):
        """Three changes, the last one's password again, and the second one again."""
        changes = [self.request(f"{self.name}-Pass{self.asked + 1}") for _ in range(3)]
        self.first = self.first or changes[0][0]
        return [*changes, self.request(changes[-1][1]), changes[1]]

    def ask(self, requests):
        """Until each was decided."""
        while requests:
            if self.connection is None or self.a_connection and self.sent_here >= self.a_connection:
                self.leave()
                self.connection, self.sent_here = self.doors.open(), 0
            self.connection.send(*(request for request, _ in requests))
            self.sent_here += len(requests)
            requests = self.hear(requests)

    def hear(self, requests):
        """Those that weren't decided."""
        left = []
        for request, password in requests:
            reply = self.connection.reply() if self.connection else None
            if reply is None and self.connection:
                self.ended += 1
                self.leave()
            told = asking.said(request, reply) if reply else None
            if told is None or told == FULL:
                self.full += told == FULL
                left.append((request, password))
            else:
                self.note(request.cusec, password, told)
        if self.full + self.ended > MOST_FULL:
            raise ValueError(f"{self.full} times {FULL}, {self.ended} connections ended")
        return left

    def note(self, number, password, told):
        """What a request was told, beside what it is to be told after those before it."""
        if number in self.numbers:
            wanted = REPLAYED
        else:
            wanted = USED if password in self.changed[-DEPTH:] else CHANGED
        self.decided += 1
        self.numbers.add(number)
        if told != wanted:
            self.wrong.append(f"{self.name}: {told} and not {wanted}")
        if told == CHANGED:
            self.changed.append(password)


class Histories(threading.Thread):
    """Reads a line for each history, and asks in the next one what the first had accepted."""

    def __init__(self, server, doors, clients):
        super().__init__()
        self.server = server
        self.doors = doors
        self.clients = clients
        self.lines = []
        self.told = []
        self.full = self.ended = 0

    def run(self):
        for line in self.server.process.stdout:
            self.lines.append(line.strip())
            if len(self.lines) <= HISTORIES:
                try:
                    self.told.append(self.tell_again())
                except (OSError, ValueError) as fault:
                    self.told.append(repr(fault))

    def tell_again(self):
        """What the first message is told; over one connection until it is decided."""
        connection = self.doors.open()
        told = FULL
        while told == FULL and self.full <= MOST_FULL:
            connection.send(self.clients[0].first)
            reply = connection.reply()
            told = asking.said(self.clients[0].first, reply) if reply else None
            self.full += told == FULL
            self.ended += told is None
        connection.close()
        return told


def keys_of(name, password):
    salt = REALM + name.encode()
    return tuple(string_to_key(size, password.encode(), salt, ITERATIONS) for size in (16, 32))


def in_journal(server, client):
    """Where the client's records differ from its changes."""
    records = [it for it in read_journal(server.journal.read_bytes())[0] if it.name == client.name]
    found = [(record.kvno, record.aes128, record.aes256) for record in records]
    wanted = [
        (kvno, *keys_of(client.name, password)) for kvno, password in enumerate(client.changed, 2)
    ]
    length = f"{len(found)} records, {len(wanted)} changes"
    return length if len(found) != len(wanted) else sum(a != b for a, b in zip(found, wanted))


def serve(report, server):
    """A service that ends once its last connection does."""
    names = [f"user{number}" for number in range(CLIENTS)]
    write_configuration(
        server.configuration, names, iterations=ITERATIONS, max_entries=ENTRIES
    )
    server.start(connections=CONNECTIONS)
    doors = Doors(server.port)
    clients = [Client(name, doors, A_CONNECTION if number % 2 else None) for number, name in enumerate(names)]
    histories = Histories(server, doors, clients)
    for thread in [*clients, histories]:
        thread.start()
    for client in clients:
        client.join()
    doors.open_the_rest()
    histories.join(30)
    report.tell("serve's status", server.process.wait(timeout=30), 0)
    tell(report, server, clients, histories)


def tell(report, server, clients, histories):
    full = sum(client.full for client in clients) + histories.full
    most = WORKERS * HISTORIES
    report.tell(f"{full} answers `history full`, at the most {most}", full <= most, True)
    report.tell("connections that the service ended", sum(client.ended for client in clients) + histories.ended, 0)
    report.tell("what was answered otherwise", [it for c in clients for it in c.wrong], [])
    report.tell("told again in later histories", histories.told, [REPLAYED] * HISTORIES)
    words = [line.split() for line in histories.lines]
    decided = sum(client.decided for client in clients) + len(histories.told)
    entries = [int(entries) for _, entries, _, _ in words]
    rest = decided - HISTORIES * ENTRIES
    report.tell("entries of each history", entries, [ENTRIES] * HISTORIES + [rest])
    changes = sum(len(client.changed) for client in clients)
    report.tell("changes of all", sum(int(changes) for _, _, _, changes in words), changes)
    for client in clients:
        report.tell(f"{client.name}, records unlike changes", in_journal(server, client), 0)
    errors = server.process.stderr.read()
    report.tell("serve's standard error", errors, "")


class FullHistories(Case):
    def test_histories(self):
        server = Server(self.program, self.folder, WORKERS)
        self.addCleanup(server.end)
        serve(self, server)


if __name__ == "__main__":
    main(__doc__)
