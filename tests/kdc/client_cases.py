"""Stock clients of both projects against the service with `--kdc`, and the KDC at once after it.

Each case is tried so many times in a row, for a user of its own. What a client's user sees of the first
time is printed, as docs/RESULTS.md has it.
"""

import contextlib
import signal

from harness import configuration
from tests.kdc.at_kdc import AtKdc
from tests.kdc.logins import HeimdalPam, HeimdalPamOverUdp, MitPam, Sssd
from tests.kdc.realms import FIRST
from tests.kdc.served import Served
from tests.kdc.stock_clients import HeimdalClient, HeimdalOverUdp, MitClient

# less than the two seconds after which Heimdal's clients ask anew
WAIT = 1500
SHORT = "abc"
REASON = "password too short"
# Heimdal's library asks a second time with the very bytes of the first, and MIT's KDC then says again what
# it said before the change
SAYS_IT_AGAIN = {("Heimdal", "MIT")}


class User:
    def __init__(self, name):
        self.name = name
        self.password = FIRST
        self.count = 0

    def next(self):
        self.count += 1
        return f"Stock-pass{self.count}"


class ClientCases(AtKdc):
    """The first user is the administrator; the others take their turns, one for a client's case."""

    KINDS = [MitClient, HeimdalClient, HeimdalOverUdp, MitPam, HeimdalPam, HeimdalPamOverUdp, Sssd]

    def test_clients(self):
        kinds = [kind for kind in self.KINDS if kind.is_possible()]
        for kind in self.KINDS:
            if kind not in kinds:
                print(f"{kind.NAME} wants {kind.WANTS}: it isn't tried", flush=True)
        cases = sum(len(kind.CASES) + 2 for kind in kinds)
        self.admin, *users = [User(self.name()) for _ in range(1 + cases)]
        with self.serving([self.admin, *users], type(self).__name__.lower()), contextlib.ExitStack() as stack:
            ports = self.realm.kdc_port, self.files.server.port
            clients = [kind(self.files.folder, *ports) for kind in kinds]
            for client in clients:
                client.build([user.name for user in users])
                stack.callback(client.end)
            self.with_agent(clients, users)
            for client in clients:
                self.agent_hangs(client, users.pop())
            self.files.end_agent()
            for client in clients:
                self.without_agent(client, users.pop())
            self.files.begin_agent()

    def with_agent(self, clients, users):
        for client in clients:
            for what, case in client.CASES.items():
                with self.subTest(f"{client.NAME}: {what}"):
                    self.again(client, users.pop(), what, getattr(self, case), self.options.rounds)
        self.tell("each change was confirmed: those that weren't", self.files.unconfirmed(), 0)

    @contextlib.contextmanager
    def serving(self, users, folder, options=("--udp",)):
        """The service and an agent; at the end the KDC's keys are the table's."""
        names = [user.name for user in users]
        self.files = Served(self.realm, self.program, folder, WAIT, options=options)
        text = configuration.configuration(self.realm.keytab(names), [(self.admin.name, "*")])
        self.files.configure(text + self.own_names())
        self.files.begin_agent()
        self.files.start()
        try:
            self.tell("the service and the KDC are in step", self.files.is_in_step())
            yield
            self.tell("  at the end too", self.files.is_in_step())
            self.keys_are_the_tables(self.files, [user.name for user in users if user.count])
        finally:
            self.files.end()

    def again(self, client, user, what, case, rounds):
        """So many times in a row; a miss is told as its user sees it."""
        misses = []
        for number in range(rounds):
            is_good, seen = case(client, user)
            if number == 0:
                self.show(client, what, seen)
            if not is_good:
                misses.append(seen.told())
        self.tell(f"{client.NAME}: {what}, {rounds} times: misses", misses, [])

    def show(self, client, what, seen):
        print(f"  seen, {client.NAME}, {self.realm.KIND}'s KDC: {what}: {seen.told()}", flush=True)

    def gives_ticket(self, client, user):
        """At once, with the password that is the user's now."""
        return client.ticket(user.name, user.password).is_done and client.has_ticket(user.name)

    # ---- the cases: whether it is as it should be, and what was seen

    def expired(self, client, user):
        """The new one is asked for twice, and there is a ticket at the end."""
        self.realm.ask_for_change(user.name)
        new = user.next()
        seen = client.expired(user.name, user.password, new, new)
        user.password = new
        is_asked = all(seen.text.count(words) == 1 for words in client.TWICE)
        if (client.KIND, self.realm.KIND) in SAYS_IT_AGAIN:
            return not seen.is_done and self.gives_ticket(client, user), seen
        return is_asked and seen.is_done and client.has_ticket(user.name), seen

    def changed(self, client, user):
        former, new = user.password, user.next()
        seen = client.kpasswd(user.name, former, new)
        user.password = new
        is_over = not client.ticket(user.name, former).is_done
        return seen.is_done and self.gives_ticket(client, user) and is_over, seen

    def set_by(self, client, user):
        user.password = user.next()
        seen = client.set_by(self.admin.name, self.admin.password, user.name, user.password)
        return seen.is_done and self.gives_ticket(client, user), seen

    def refused(self, client, user):
        """The former one goes on, and the user is told why where the client shows it."""
        seen = client.kpasswd(user.name, user.password, SHORT)
        is_told = REASON in seen or not client.SHOWS_REASONS
        return not seen.is_done and is_told and self.gives_ticket(client, user), seen

    def refused_when_expired(self, client, user):
        """Asked again and again, and no ticket at the end."""
        self.realm.ask_for_change(user.name)
        kvno = self.realm.kvno(user.name)
        seen = client.expired(user.name, user.password, *[SHORT] * 6)
        is_told = REASON in seen or not client.SHOWS_REASONS
        is_left = not client.has_ticket(user.name) and self.realm.kvno(user.name) == kvno
        return not seen.is_done and is_told and is_left, seen

    # ---- once

    def agent_hangs(self, client, user):
        """The change is answered after WAIT, and the client goes by that, though it may want a ticket too."""
        former, user.password = user.password, user.next()
        before = self.files.unconfirmed()
        self.files.agent.process.send_signal(signal.SIGSTOP)
        try:
            seen = client.kpasswd(user.name, former, user.password)
        finally:
            self.files.agent.process.send_signal(signal.SIGCONT)
        self.show(client, "a change, the agent hangs", seen)
        found = seen.is_done, self.files.unconfirmed() - before
        wanted = not client.ASKS_FOR_TICKET, 1
        self.tell(f"{client.NAME}: a change, the agent hangs: done, lines in the log", found, wanted)
        self.tell("  it goes on: a ticket by the new one", self.files.is_in_step() and self.gives_ticket(client, user))

    def without_agent(self, client, user):
        """The change is answered at once; the KDC has it when an agent comes."""
        self.realm.ask_for_change(user.name)
        former, user.password = user.password, user.next()
        before = self.files.unconfirmed()
        seen = client.expired(user.name, former, user.password, user.password)
        self.show(client, f"{next(iter(client.CASES))}, no agent", seen)
        found = seen.is_done, self.files.unconfirmed() - before
        self.tell(f"{client.NAME}: expired, no agent: a ticket, lines in the log", found, (False, 0))
        with self.files.with_agent():
            self.tell("  one comes: a ticket by the new one", self.gives_ticket(client, user))
