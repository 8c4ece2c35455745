"""Changes a second in a realm of many principals, of whom the KDC has each new key at the end.

MIT's kadmind, the service by itself and the service with a KDC take turns, so that all see the same
machine. Each client changes the passwords of many users in turn, as a realm does, over a new connection each
time, as the projects' clients do. Its requests are made before the clock starts, and its tickets are forged
with the key of kadmin/changepw, so that the KDC has nothing to do with them. All ask in the earlier protocol,
as MIT's kpasswd does.
"""

import collections
import concurrent.futures
import contextlib
import dataclasses
import itertools
import time

from harness import configuration
from harness.asking import Connection, request_now, said
from harness.realm import SERVICE
from harness.server import Server, private
from tests.kdc.daemons import daemon
from tests.kdc.own_configuration import configured
from tests.kdc.served import MOST, Served

CLIENTS = 1, 16
WORKERS = 4
# of each target and number of clients, of which the best counts; and the changes of all clients in a round
ROUNDS, CHANGES = 3, 128
# milliseconds: a reply that is held back so long shows in the figure
WAIT = 2000
WITH_KDC = "serve with a KDC"


@dataclasses.dataclass
class Target:
    """A server, and users whom it alone changes."""

    name: str
    port: int
    users: list
    # of kadmin/changepw, as `request_now` takes it, where it isn't the service's own
    key: dict = dataclasses.field(default_factory=dict)
    made: collections.Counter = dataclasses.field(default_factory=collections.Counter)
    best: dict = dataclasses.field(default_factory=dict)

    def __post_init__(self):
        self.turn = itertools.cycle(self.users)

    def request(self, user):
        self.made[user] += 1
        number = self.made[user]
        return request_now(user, f"{user}-Pass{number}", number, old=True, **self.key)

    def one_after_the_other(self, requests):
        replies = []
        for request in requests:
            with contextlib.closing(Connection(self.port)) as connection:
                connection.send(request)
                replies.append(connection.reply())
        return replies

    def round(self, clients):
        """Each of them makes its share of the changes."""
        asked = [
            [self.request(next(self.turn)) for _ in range(CHANGES // clients)] for _ in range(clients)
        ]
        with concurrent.futures.ThreadPoolExecutor(clients) as pool:
            begun = time.monotonic()
            heard = list(pool.map(self.one_after_the_other, asked))
            took = time.monotonic() - begun
        every = itertools.chain.from_iterable
        for request, reply in zip(every(asked), every(heard)):
            told = said(request, reply) if reply else "no reply"
            if not told.startswith("code 0"):
                raise RuntimeError(f"{self.name} answers {told}")
        self.best[clients] = max(self.best.get(clients, 0), CHANGES / took)


def kadmind(realm, folder, users, stack):
    """MIT's own server, with the key that the KDC has of kadmin/changepw."""
    entries = configuration.read_keytab(realm.keytab(["admin"]))
    [found] = [
        it for it in entries if it.etype == 18 and b"/".join(it.components).decode() == SERVICE
    ]
    command = [realm.mit.program("kadmind"), "-nofork"]
    environment = realm.environment(realm.mit)
    stack.enter_context(daemon(command, environment, folder / "kadmind.out", realm.kpasswd_port))
    key = {"service": found.key, "kvno": found.kvno}
    return Target("kadmind", realm.kpasswd_port, users, key)


def by_itself(realm, program, text, users, stack):
    """The service without a KDC."""
    folder = realm.folder / "alone"
    folder.mkdir()
    server = Server(program, folder, WORKERS)
    private(server.configuration).write_text(text)
    stack.callback(server.end)
    server.start(connections=MOST)
    return Target("serve", server.port, users)


def measure(cases, versions, rounds=ROUNDS):
    """The targets, measured; the KDC has `versions` of the principals, and kadmind is MIT's alone."""
    realm, names = cases.realm, sorted(versions)
    groups = [names[i::3] for i in range(3)]
    text = configured(versions, 3)
    with contextlib.ExitStack() as stack:
        targets = [by_itself(realm, cases.program, text, groups[0], stack)]
        served = Served(realm, cases.program, "served", WAIT, WORKERS)
        served.configure(text)
        stack.callback(served.end)
        served.begin_agent()
        served.start()
        if not served.is_in_step():
            raise RuntimeError(f"the service and the KDC aren't in step: {served.status()}")
        targets.append(Target(WITH_KDC, served.server.port, groups[1]))
        if realm.KIND == "MIT":
            targets.append(kadmind(realm, served.folder, groups[2], stack))
        for clients, _, target in itertools.product(CLIENTS, range(rounds), targets):
            target.round(clients)
        if served.unconfirmed():
            raise RuntimeError("changes were answered before the KDC had them")
    for target in targets[1:]:
        for user, count in target.made.items():
            if realm.kvno(user) != versions[user][0] + count:
                raise RuntimeError(f"the KDC lacks a change of {user} by {target.name}")
    return targets
